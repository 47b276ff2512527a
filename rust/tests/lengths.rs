//! The C functions with lengths that do not fit: 18, or 20 of the writer, and nothing is written. The types of the crate leave
//! no way to most of it, so they are declared here.

use picman::{ANSWER, BAD, ENTRY, IMAGE, PLAN, RECORD};

type Keys = (*mut u64, usize);
type Words = (*mut u32, usize);

extern "C" {
    fn picman_new(image: *mut u8, len: usize) -> u8;
    fn picman_call(i: *mut u8, n: usize, call: *const u8, cn: usize, answer: *mut u8, an: usize) -> u8;
    fn picman_copy_refp(i: *mut u8, n: usize, cnt: u64, lidx: u64, entry: *const u8, en: usize) -> u8;
    fn picman_plan(
        count: u64,
        length: u64,
        interval: u64,
        inter: u8,
        hierarchy: u8,
        record: *mut u8,
        rn: usize,
        plan: *mut u8,
        pn: usize,
    ) -> u8;
    fn picman_read_answer(lines: *const u8, n: usize, at: u64, record: *mut u8, rn: usize) -> u8;
    fn picman_write_call(fields: *const u8, n: usize, target: *mut u8, tn: usize) -> u32;
    fn picman_machine_new(k: *mut u64, kn: usize, w: *mut u32, wn: usize, r: *mut u32, rn: usize) -> u8;
    fn picman_machine_init(
        k: *mut u64,
        kn: usize,
        w: *mut u32,
        wn: usize,
        r: *mut u32,
        rn: usize,
        max_pb_size: u8,
        max_num_ref_pics: u8,
    ) -> u64;
    fn picman_machine_get(k: *mut u64, kn: usize, w: *mut u32, wn: usize, r: *mut u32, rn: usize) -> u64;
    fn picman_machine_put(
        k: *mut u64,
        kn: usize,
        w: *mut u32,
        wn: usize,
        r: *mut u32,
        rn: usize,
        flags: u8,
        poc: u32,
        temporal_id: u8,
        gap: u32,
    ) -> u64;
    fn picman_machine_out(k: *mut u64, kn: usize, w: *mut u32, wn: usize, r: *mut u32, rn: usize) -> u64;
    fn picman_machine_lists(
        k: *mut u64,
        kn: usize,
        w: *mut u32,
        wn: usize,
        r: *mut u32,
        rn: usize,
        slice_type: u8,
        poc: u32,
        layer_id: u8,
        last_intra: u32,
        limit: u8,
    ) -> u64;
    fn picman_machine_derive(
        k: *mut u64,
        kn: usize,
        w: *mut u32,
        wn: usize,
        r: *mut u32,
        rn: usize,
        log2_sub_gop_length: u8,
        tid: u8,
    ) -> u64;
    fn picman_machine_copy(
        w: *mut u32,
        wn: usize,
        cnt: u64,
        lidx: u64,
        present: u8,
        buf: u8,
        poc: u32,
        list_poc: *const u32,
        ln: usize,
    ) -> u8;
    fn picman_machine_call(
        k: *mut u64,
        kn: usize,
        w: *mut u32,
        wn: usize,
        r: *mut u32,
        rn: usize,
        call: *const u8,
        cn: usize,
        answer: *mut u8,
        an: usize,
    ) -> u8;
    fn picman_machine_load(
        k: *mut u64,
        kn: usize,
        w: *mut u32,
        wn: usize,
        r: *mut u32,
        rn: usize,
        image: *const u8,
        n: usize,
    ) -> u8;
    fn picman_machine_save(
        k: *const u64,
        kn: usize,
        w: *const u32,
        wn: usize,
        r: *const u32,
        rn: usize,
        image: *mut u8,
        n: usize,
    ) -> u8;
    fn picman_why(i: *const u8, n: usize, call: *const u8, cn: usize, slot: u8, reason: *mut u8, en: usize) -> u8;
    fn picman_machine_why(
        k: *const u64,
        kn: usize,
        w: *const u32,
        wn: usize,
        r: *const u32,
        rn: usize,
        call: *const u8,
        cn: usize,
        slot: u8,
        reason: *mut u8,
        en: usize,
    ) -> u8;
}

/// A list call for slice I, and the bytes of a reason.
const LISTS: [u8; 13] = [5, 1, 0, 0, 0, 8, 0, 0, 0, 0, 0, 2, 0xf0];
const REASON: usize = 2;

const GET: [u8; 2] = [2, 0xfe];

#[test]
fn images() {
    for len in [0, 1, IMAGE - 1, IMAGE + 1] {
        let (mut image, mut answer) = (vec![0; len], [0xa5; ANSWER]);
        let (at, entry) = (image.as_mut_ptr(), [0; ENTRY]);
        let given = unsafe {
            [
                picman_new(at, len),
                picman_call(at, len, GET.as_ptr(), 2, answer.as_mut_ptr(), ANSWER),
                picman_copy_refp(at, len, 0, 0, entry.as_ptr(), ENTRY),
            ]
        };
        assert_eq!(given, [BAD; 3]);
        assert!(image.iter().all(|byte| *byte == 0) && answer == [0xa5; ANSWER]);
    }
}

#[test]
fn answers_and_entries() {
    let mut image = [0; IMAGE];
    for len in [0, ANSWER - 1, ANSWER + 1] {
        let mut answer = vec![0xa5; len];
        let at = answer.as_mut_ptr();
        assert_eq!(unsafe { picman_call(image.as_mut_ptr(), IMAGE, GET.as_ptr(), 2, at, len) }, BAD);
        assert!(answer.iter().all(|byte| *byte == 0xa5));
    }
    for len in [0, ENTRY - 1, ENTRY + 1] {
        let entry = vec![0; len];
        assert_eq!(unsafe { picman_copy_refp(image.as_mut_ptr(), IMAGE, 0, 0, entry.as_ptr(), len) }, BAD);
    }
    assert!(image == [0; IMAGE]);
}

/// A machine in arrays of other lengths, and what the functions read and write beside it.
struct Arrays {
    keys: Vec<u64>,
    rows: Vec<u32>,
    registers: Vec<u32>,
    answer: [u8; ANSWER],
    image: [u8; IMAGE],
}

impl Arrays {
    /// As after an init, so that every call would be accepted or answered.
    fn new(keys: usize, rows: usize, registers: usize) -> Arrays {
        let mut registers = vec![0; registers];
        if let Some(max_pb_size) = registers.get_mut(6) {
            *max_pb_size = 4;
        }
        Arrays { keys: vec![0; keys], rows: vec![0; rows], registers, answer: [0xa5; ANSWER], image: [0; IMAGE] }
    }

    fn parts(&mut self) -> (Keys, Words, Words) {
        let keys = (self.keys.as_mut_ptr(), self.keys.len());
        let rows = (self.rows.as_mut_ptr(), self.rows.len());
        (keys, rows, (self.registers.as_mut_ptr(), self.registers.len()))
    }

    /// The statuses of every function.
    fn all(&mut self) -> Vec<u8> {
        let ((k, kn), (w, wn), (r, rn)) = self.parts();
        let (answer, image) = (self.answer.as_mut_ptr(), self.image.as_mut_ptr());
        unsafe {
            vec![
                picman_machine_new(k, kn, w, wn, r, rn),
                picman_machine_init(k, kn, w, wn, r, rn, 5, 2) as u8,
                picman_machine_get(k, kn, w, wn, r, rn) as u8,
                picman_machine_put(k, kn, w, wn, r, rn, 8, 0, 0, 0) as u8,
                picman_machine_out(k, kn, w, wn, r, rn) as u8,
                picman_machine_lists(k, kn, w, wn, r, rn, 1, 0, 0, 0, 2) as u8,
                picman_machine_derive(k, kn, w, wn, r, rn, 3, 0) as u8,
                picman_machine_call(k, kn, w, wn, r, rn, GET.as_ptr(), 2, answer, ANSWER),
                picman_machine_load(k, kn, w, wn, r, rn, image, IMAGE),
                picman_machine_save(k, kn, w, wn, r, rn, image, IMAGE),
            ]
        }
    }
}

#[test]
fn machines() {
    let wrong = [
        (26, 1533, 13),
        (28, 1533, 13),
        (27, 1532, 13),
        (27, 1534, 13),
        (27, 1533, 12),
        (27, 1533, 14),
        (0, 0, 0),
    ];
    for (keys, rows, registers) in wrong {
        let mut arrays = Arrays::new(keys, rows, registers);
        assert_eq!(arrays.all(), [BAD; 10], "{keys} keys, {rows} rows, {registers} registers");
        let before = Arrays::new(keys, rows, registers);
        let same =
            arrays.keys == before.keys && arrays.rows == before.rows && arrays.registers == before.registers;
        assert!(same && arrays.answer == before.answer && arrays.image == before.image);
    }
}

#[test]
fn what_goes_with_a_machine() {
    let mut arrays = Arrays::new(27, 1533, 13);
    let ((k, kn), (w, wn), (r, rn)) = arrays.parts();
    for len in [0, ANSWER - 1, ANSWER + 1] {
        let mut answer = vec![0xa5; len];
        let at = answer.as_mut_ptr();
        assert_eq!(unsafe { picman_machine_call(k, kn, w, wn, r, rn, GET.as_ptr(), 2, at, len) }, BAD);
        assert!(answer.iter().all(|byte| *byte == 0xa5));
    }
    for len in [0, IMAGE - 1, IMAGE + 1] {
        let mut image = vec![0; len];
        let at = image.as_mut_ptr();
        assert_eq!(unsafe { picman_machine_load(k, kn, w, wn, r, rn, at, len) }, BAD);
        assert_eq!(unsafe { picman_machine_save(k, kn, w, wn, r, rn, at, len) }, BAD);
        assert!(image.iter().all(|byte| *byte == 0));
    }
    for len in [0, 20, 22] {
        let numbers = vec![7; len];
        assert_eq!(unsafe { picman_machine_copy(w, wn, 0, 0, 1, 0, 3, numbers.as_ptr(), len) }, BAD);
    }
    let numbers = [7; 21];
    for (rows, present) in [(1532, 1), (1534, 1), (1533, 2), (1533, 255)] {
        let mut other = vec![0; rows];
        let at = other.as_mut_ptr();
        assert_eq!(unsafe { picman_machine_copy(at, rows, 0, 0, present, 0, 3, numbers.as_ptr(), 21) }, BAD);
        assert!(other.iter().all(|word| *word == 0));
    }
    let before = Arrays::new(27, 1533, 13);
    assert!(arrays.keys == before.keys && arrays.rows == before.rows && arrays.registers == before.registers);
}

#[test]
fn reasons() {
    let image = [0; IMAGE];
    let mut arrays = Arrays::new(27, 1533, 13);
    let ((k, kn), (w, wn), (r, rn)) = arrays.parts();
    let (call, n) = (LISTS.as_ptr(), LISTS.len());
    for len in [0, 1, 2, 3, 8] {
        let mut reason = [0xa5; 8];
        let at = reason.as_mut_ptr();
        // No slot of the new machine holds a picture.
        let expected = if len == REASON { 14 } else { BAD };
        assert_eq!(unsafe { picman_why(image.as_ptr(), IMAGE, call, n, 0, at, len) }, expected, "{len}");
        assert_eq!(unsafe { picman_machine_why(k, kn, w, wn, r, rn, call, n, 0, at, len) }, expected, "{len}");
        assert_eq!(reason, [0xa5; 8]);
    }
    let mut reason = [0xa5; REASON];
    let at = reason.as_mut_ptr();
    for len in [0, 1, IMAGE - 1, IMAGE + 1] {
        let image = vec![0; len];
        assert_eq!(unsafe { picman_why(image.as_ptr(), len, call, n, 0, at, REASON) }, BAD);
    }
    for (kn, wn, rn) in [(26, 1533, 13), (27, 1532, 13), (27, 1533, 12), (0, 0, 0)] {
        assert_eq!(unsafe { picman_machine_why(k, kn, w, wn, r, rn, call, n, 0, at, REASON) }, BAD);
    }
    assert_eq!(reason, [0xa5; REASON]);
}

#[test]
fn plans() {
    const BEFORE: u8 = 0xa5;
    let other = |right: usize| (0..32).filter(move |len| *len != right);
    let sizes = other(RECORD).map(|len| (len, PLAN)).chain(other(PLAN).map(|len| (RECORD, len)));
    for (rn, pn) in sizes {
        let (mut record, mut plan) = ([BEFORE; 32], [BEFORE; 32]);
        let status = unsafe { picman_plan(8, 8, 0, 3, 1, record.as_mut_ptr(), rn, plan.as_mut_ptr(), pn) };
        assert_eq!(status, BAD, "{rn} {pn}");
        assert!(record.iter().chain(&plan).all(|byte| *byte == BEFORE), "{rn} {pn}");
    }
}

#[test]
fn records_of_a_reading() {
    let line = b"0100ff0000000000\n";
    for len in (0..32).filter(|len| *len != 15) {
        let mut record = [0xa5; 32];
        let status = unsafe { picman_read_answer(line.as_ptr(), line.len(), 0, record.as_mut_ptr(), len) };
        assert_eq!(status, BAD, "{len}");
        assert_eq!(record, [0xa5; 32], "{len}");
    }
}

/// The length stands above the status, and under a refusal there is none.
#[test]
fn numbers_of_a_writing() {
    let get = [2];
    let given = [20, 20, 20, 20, 20, 5 << 8, 5 << 8, 5 << 8];
    for (room, expected) in given.into_iter().enumerate() {
        let mut target = [0xa5; 8];
        let number = unsafe { picman_write_call(get.as_ptr(), 1, target.as_mut_ptr(), room) };
        assert_eq!(number, expected, "{room}");
        assert_eq!(&target, if room < 5 { &[0xa5; 8] } else { b"02fe\n\xa5\xa5\xa5" });
        assert_eq!(unsafe { picman_write_call(get.as_ptr(), 0, target.as_mut_ptr(), room) }, u32::from(BAD));
    }
}
