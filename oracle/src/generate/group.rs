//! Pictures in decoding order, group after group, as a coder asks for them: a number, a buffer, the lists, the
//! picture back, and two outputs.

use super::calls::due_soon;
use crate::call::{Call, Lists, Put};
use crate::image::Machine;
use crate::rng::Rng;

pub struct Group {
    log2_length: u8,
    slice_type: u8,
    limit: u8,
    /// The place in the group, and which of the six calls is due there.
    index: u32,
    due: u8,
}

impl Group {
    pub fn new(rng: &mut Rng) -> Group {
        let log2_length = rng.pick(&[0, 1, 2, 2, 3, 3, 3, 4]);
        Group { log2_length, slice_type: rng.pick(&[2, 3, 3]), limit: rng.pick(&[1, 2, 2, 4]), index: 0, due: 0 }
    }

    pub fn next(&mut self, rng: &mut Rng, machine: &Machine) -> Call {
        if machine.occupied() == 0 {
            return opening(machine);
        }
        let call = self.due_call(machine);
        self.due = (self.due + 1) % 6;
        if self.due == 0 {
            self.index += 1;
            if self.index == 1 << self.log2_length {
                *self = Group::new(rng);
            }
        }
        call
    }

    fn due_call(&self, machine: &Machine) -> Call {
        let Group { log2_length, slice_type, limit, index, due } = *self;
        let layer = if index == 0 { 0 } else { 1 + index.ilog2() as u8 };
        let poc = machine.record.poc_val as u32;
        match due {
            0 => Call::Derive { log2_length, layer },
            1 => Call::Get,
            2 => Call::Lists(Lists { slice_type, poc, layer, last_intra: 0, limit }),
            3 => {
                let reference = if layer < log2_length || layer == 0 { Put::REFERENCE } else { 0 };
                let wanted = if due_soon(machine, poc) { Put::WANTED } else { 0 };
                Call::Put(Put { flags: reference | wanted, poc, temporal_id: layer, gap: 0 })
            }
            _ => Call::Out,
        }
    }
}

/// The first picture of all: an IDR one with number 0.
fn opening(machine: &Machine) -> Call {
    if machine.lease.present {
        Call::Put(Put { flags: Put::IDR | Put::REFERENCE | Put::WANTED, poc: 0, temporal_id: 0, gap: 0 })
    } else {
        Call::Get
    }
}
