//! Our side of the running machine: the C functions, or a stand-in made of `papers`.

use super::{rules, Running};
use crate::call::{Answer, Call, Lists, Put, Reply, BAD_LINE};
use crate::image::{Entry, Image, Machine, IMAGE_BYTES, PLACES};
use crate::papers;

/// The three arrays with any lengths.
pub struct Lent<'a> {
    pub keys: &'a mut [u64],
    pub rows: &'a mut [u32],
    pub registers: &'a mut [u32],
}

impl Running {
    pub fn lent(&mut self) -> Lent<'_> {
        Lent { keys: &mut self.keys, rows: &mut self.rows, registers: &mut self.registers }
    }
}

pub trait OursRunning {
    fn new_machine(&self, lent: Lent) -> u8;
    /// By the function of the call, with plain numbers.
    fn by_numbers(&self, lent: Lent, call: &Call) -> u64;
    fn by_bytes(&self, lent: Lent, call: &[u8], answer: &mut [u8]) -> u8;
    fn copy(&self, rows: &mut [u32], to: (u64, u64), present: u8, entry: (u8, u32), list_poc: &[u32]) -> u8;
    fn load(&self, lent: Lent, image: &[u8]) -> u8;
    fn save(&self, lent: Lent, image: &mut [u8]) -> u8;
}

/// An answer as the functions with plain numbers give it.
pub fn answer_bits(reply: &Reply) -> u64 {
    u64::from(reply.status) | u64::from(reply.buf) << 8 | u64::from(reply.value) << 32
}

/// The static library, where the build found it.
pub fn linked() -> Option<Box<dyn OursRunning>> {
    #[cfg(linked)]
    return Some(Box::new(functions::Library));
    #[cfg(not(linked))]
    return None;
}

#[cfg(linked)]
pub mod functions {
    use super::*;

    extern "C" {
        fn picman_machine_new(k: *mut u64, kn: usize, w: *mut u32, wn: usize, r: *mut u32, rn: usize) -> u8;
        fn picman_machine_init(
            k: *mut u64,
            kn: usize,
            w: *mut u32,
            wn: usize,
            r: *mut u32,
            rn: usize,
            max_pb_size: u8,
            max_num_ref_pics: u8,
        ) -> u64;
        fn picman_machine_get(k: *mut u64, kn: usize, w: *mut u32, wn: usize, r: *mut u32, rn: usize) -> u64;
        fn picman_machine_put(
            k: *mut u64,
            kn: usize,
            w: *mut u32,
            wn: usize,
            r: *mut u32,
            rn: usize,
            flags: u8,
            poc: u32,
            temporal_id: u8,
            gap: u32,
        ) -> u64;
        fn picman_machine_out(k: *mut u64, kn: usize, w: *mut u32, wn: usize, r: *mut u32, rn: usize) -> u64;
        fn picman_machine_lists(
            k: *mut u64,
            kn: usize,
            w: *mut u32,
            wn: usize,
            r: *mut u32,
            rn: usize,
            slice_type: u8,
            poc: u32,
            layer_id: u8,
            last_intra: u32,
            limit: u8,
        ) -> u64;
        fn picman_machine_derive(
            k: *mut u64,
            kn: usize,
            w: *mut u32,
            wn: usize,
            r: *mut u32,
            rn: usize,
            log2_length: u8,
            tid: u8,
        ) -> u64;
        fn picman_machine_copy(
            w: *mut u32,
            wn: usize,
            cnt: u64,
            lidx: u64,
            present: u8,
            buf: u8,
            poc: u32,
            list_poc: *const u32,
            ln: usize,
        ) -> u8;
        fn picman_machine_call(
            k: *mut u64,
            kn: usize,
            w: *mut u32,
            wn: usize,
            r: *mut u32,
            rn: usize,
            call: *const u8,
            cn: usize,
            answer: *mut u8,
            an: usize,
        ) -> u8;
        fn picman_machine_load(
            k: *mut u64,
            kn: usize,
            w: *mut u32,
            wn: usize,
            r: *mut u32,
            rn: usize,
            image: *const u8,
            n: usize,
        ) -> u8;
        fn picman_machine_save(
            k: *const u64,
            kn: usize,
            w: *const u32,
            wn: usize,
            r: *const u32,
            rn: usize,
            image: *mut u8,
            n: usize,
        ) -> u8;
    }

    /// Each pointer goes with the length of the slice it comes from, and the library keeps none of them.
    macro_rules! ask {
        ($function:ident, $lent:expr $(, $more:expr)*) => {{
            let Lent { keys, rows, registers } = $lent;
            unsafe {
                $function(
                    keys.as_mut_ptr(),
                    keys.len(),
                    rows.as_mut_ptr(),
                    rows.len(),
                    registers.as_mut_ptr(),
                    registers.len(),
                    $($more),*
                )
            }
        }};
    }

    pub struct Library;

    /// By the function of the call, with plain numbers.
    #[inline]
    pub fn by_numbers(lent: Lent, call: &Call) -> u64 {
        match *call {
            Call::Init { max_pb_size, max_num_ref_pics } => {
                ask!(picman_machine_init, lent, max_pb_size, max_num_ref_pics)
            }
            Call::Get => ask!(picman_machine_get, lent),
            Call::Put(Put { flags, poc, temporal_id, gap }) => {
                ask!(picman_machine_put, lent, flags, poc, temporal_id, gap)
            }
            Call::Out => ask!(picman_machine_out, lent),
            Call::Lists(Lists { slice_type, poc, layer, last_intra, limit }) => {
                ask!(picman_machine_lists, lent, slice_type, poc, layer, last_intra as u32, limit)
            }
            Call::Derive { log2_length, layer } => ask!(picman_machine_derive, lent, log2_length, layer),
        }
    }

    impl OursRunning for Library {
        fn new_machine(&self, lent: Lent) -> u8 {
            ask!(picman_machine_new, lent)
        }

        fn by_numbers(&self, lent: Lent, call: &Call) -> u64 {
            by_numbers(lent, call)
        }

        fn by_bytes(&self, lent: Lent, call: &[u8], answer: &mut [u8]) -> u8 {
            ask!(picman_machine_call, lent, call.as_ptr(), call.len(), answer.as_mut_ptr(), answer.len())
        }

        fn copy(&self, rows: &mut [u32], to: (u64, u64), present: u8, entry: (u8, u32), list_poc: &[u32]) -> u8 {
            let ((cnt, lidx), (buf, poc)) = (to, entry);
            let (numbers, n) = (list_poc.as_ptr(), list_poc.len());
            unsafe { picman_machine_copy(rows.as_mut_ptr(), rows.len(), cnt, lidx, present, buf, poc, numbers, n) }
        }

        fn load(&self, lent: Lent, image: &[u8]) -> u8 {
            ask!(picman_machine_load, lent, image.as_ptr(), image.len())
        }

        fn save(&self, lent: Lent, image: &mut [u8]) -> u8 {
            ask!(picman_machine_save, lent, image.as_mut_ptr(), image.len())
        }
    }
}

/// The specification behind the same functions.
pub struct StandIn;

impl OursRunning for StandIn {
    fn new_machine(&self, lent: Lent) -> u8 {
        let Some(mut opened) = Opened::new(lent) else {
            return BAD_LINE;
        };
        opened.running = Running::new();
        opened.keep();
        0
    }

    fn by_numbers(&self, lent: Lent, call: &Call) -> u64 {
        match Opened::new(lent) {
            Some(mut opened) => answer_bits(&opened.call(&call.bytes())),
            None => answer_bits(&Reply::BAD),
        }
    }

    fn by_bytes(&self, lent: Lent, call: &[u8], answer: &mut [u8]) -> u8 {
        let (Some(mut opened), Ok(answer)) = (Opened::new(lent), <&mut [u8; 8]>::try_from(answer)) else {
            return BAD_LINE;
        };
        let reply = opened.call(call);
        *answer = reply.bytes();
        reply.status
    }

    fn copy(&self, rows: &mut [u32], to: (u64, u64), present: u8, entry: (u8, u32), list_poc: &[u32]) -> u8 {
        let (Ok(kept), Ok(list_poc)) = (rows.as_ref().try_into(), <[u32; PLACES]>::try_from(list_poc)) else {
            return BAD_LINE;
        };
        if present > 1 {
            return BAD_LINE;
        }
        let mut running = Running { rows: kept, ..Running::filled() };
        let mut machine = running.stands();
        let entry = Entry { present: present == 1, buf: entry.0, poc: entry.1, list_poc };
        match papers::copy::copy(&mut machine, to.0, to.1, &entry) {
            Ok(_) => {
                running.write_lists(&machine);
                rows.copy_from_slice(&running.rows);
                0
            }
            Err(refusal) => refusal,
        }
    }

    fn load(&self, lent: Lent, image: &[u8]) -> u8 {
        let (Some(mut opened), Ok(image)) = (Opened::new(lent), <&Image>::try_from(image)) else {
            return BAD_LINE;
        };
        let Some(machine) = Machine::decode(image) else {
            return BAD_LINE;
        };
        if !papers::whole::whole(&machine) {
            return 7;
        }
        opened.running.write(&machine);
        opened.keep();
        0
    }

    fn save(&self, lent: Lent, image: &mut [u8]) -> u8 {
        let (Some(opened), IMAGE_BYTES) = (Opened::new(lent), image.len()) else {
            return BAD_LINE;
        };
        if !rules::whole(&opened.running) {
            return 7;
        }
        opened.running.stands().encode(image.try_into().unwrap());
        0
    }
}

/// Arrays of the right lengths, and a copy of them.
struct Opened<'a> {
    lent: Lent<'a>,
    running: Running,
}

impl<'a> Opened<'a> {
    fn new(lent: Lent<'a>) -> Option<Opened<'a>> {
        let running = Running {
            keys: lent.keys.as_ref().try_into().ok()?,
            rows: lent.rows.as_ref().try_into().ok()?,
            registers: lent.registers.as_ref().try_into().ok()?,
        };
        Some(Opened { lent, running })
    }

    fn call(&mut self, bytes: &[u8]) -> Reply {
        let Some(call) = Call::parse(bytes) else {
            return Reply::BAD;
        };
        let mut machine = self.running.stands();
        let outcome = match call {
            Call::Derive { .. } => papers::call(&mut machine, &call),
            _ if !rules::whole(&self.running) => Err(7),
            _ => papers::call(&mut machine, &call),
        };
        if matches!(outcome, Ok(answer) if !matches!(answer, Answer::NotYet | Answer::NoMore)) {
            if let Call::Derive { .. } = call {
                self.running.write_record(&machine.record);
            } else {
                self.running.write(&machine);
            }
            self.keep();
        }
        Reply::new(call.code(), outcome)
    }

    fn keep(&mut self) {
        self.lent.keys.copy_from_slice(&self.running.keys);
        self.lent.rows.copy_from_slice(&self.running.rows);
        self.lent.registers.copy_from_slice(&self.running.registers);
    }
}
