//! Why a picture is or is not in the forward list, from Rust: the cases that tell the readings apart, by the running machine and
//! by its image, and what is turned down.

use picman::{image, Machine, Reason, BAD, IMAGE, SLICE_B, SLICE_I, SLICE_P};

const UNKNOWN: u8 = 0;
const MAX_PB_SIZE: usize = 6;
const CUR_PB_SIZE: usize = 8;
const CUR_NUM_REF_PICS: usize = 9;

/// Pictures of these numbers and layers in slots 0, 1 and so on, marked or not.
fn holding(pictures: &[(u64, u64, bool)]) -> Machine {
    let mut machine = Machine::new();
    for (slot, (number, layer, marked)) in pictures.iter().enumerate() {
        machine.keys[slot] = number << 16 | layer << 8 | (slot as u64) << 3 | u64::from(*marked) << 1 | 1;
    }
    machine.registers[MAX_PB_SIZE] = 27;
    machine.registers[CUR_PB_SIZE] = pictures.len() as u32;
    machine.registers[CUR_NUM_REF_PICS] = pictures.iter().filter(|picture| picture.2).count() as u32;
    machine
}

fn marked(pictures: &[(u64, u64)]) -> Machine {
    holding(&pictures.iter().map(|(number, layer)| (*number, *layer, true)).collect::<Vec<_>>())
}

/// The bytes of a list call.
fn lists(slice_type: u8, poc: u32, layer: u8, last_intra: i32, limit: u8) -> Vec<u8> {
    let fields =
        [&[5, slice_type][..], &poc.to_be_bytes(), &[layer], &last_intra.to_be_bytes(), &[limit]].concat();
    let sum = fields.iter().fold(0, |sum: u8, byte| sum.wrapping_add(*byte));
    [&fields[..], &[0u8.wrapping_sub(sum)]].concat()
}

/// By the running machine and by its image.
fn why(machine: &Machine, call: &[u8], slot: u8) -> Result<Reason, u8> {
    let found = machine.why(call, slot);
    let mut bytes = [0; IMAGE];
    assert_eq!(machine.save(&mut bytes), Ok(()));
    assert_eq!(image::why(&bytes, call, slot), found);
    found
}

#[test]
fn the_list_calls_refusals_come_first() {
    let machine = marked(&[(0, 0), (4, 0)]);
    for slot in [0, 1, 2, 26, 27, 255] {
        assert_eq!(why(&machine, &lists(SLICE_P, 8, 0, 5, 2), slot), Err(11));
        assert_eq!(why(&machine, &lists(SLICE_P, 0x8000_0000, 0, 5, 2), slot), Err(6));
        assert_eq!(why(&holding(&[(0, 0, false)]), &lists(SLICE_P, 8, 0, 5, 2), slot), Err(9));
    }
    let many: Vec<(u64, u64)> = (0..22).map(|number| (number, 0)).collect();
    assert_eq!(why(&marked(&many), &lists(SLICE_B, 8, 1, 0, 2), 27), Err(8));
    for slot in [2, 26, 27, 255] {
        assert_eq!(why(&machine, &lists(SLICE_P, 8, 0, 0, 2), slot), Err(14));
    }
}

#[test]
fn slice_i() {
    let call = lists(SLICE_I, 8, 0, 0, 0);
    for machine in [marked(&[(0, 0)]), holding(&[(0, 0, false)])] {
        assert_eq!(why(&machine, &call, 0), Ok(Reason::NoListAsked));
        assert_eq!(why(&machine, &call, 1), Err(14));
        assert_eq!(why(&machine, &lists(SLICE_I, 0x8000_0000, 0, 0, 0), 1), Err(6));
    }
}

#[test]
fn the_earliest_in_the_row() {
    let two = marked(&[(0, 0), (4, 0)]);
    let unmarked = holding(&[(0, 0, false), (4, 0, true)]);
    assert_eq!(why(&unmarked, &lists(SLICE_P, 8, 0, 4, 1), 0), Ok(Reason::NotMarked));
    assert_eq!(why(&two, &lists(SLICE_P, 8, 0, 4, 1), 0), Ok(Reason::Full));
    assert_eq!(why(&two, &lists(SLICE_P, 8, 0, 4, 2), 0), Ok(Reason::Old));
    assert_eq!(why(&two, &lists(SLICE_P, 8, 0, 4, 2), 1), Ok(Reason::Taken(0)));
    assert_eq!(why(&marked(&[(0, 2), (4, 0)]), &lists(SLICE_P, 8, 1, 4, 2), 0), Ok(Reason::LayerOverBound));
    let high = marked(&[(0, 5), (4, 5)]);
    assert_eq!(why(&high, &lists(SLICE_P, 8, 2, 0, 2), 1), Ok(Reason::Taken(0)));
    assert_eq!(why(&high, &lists(SLICE_P, 8, 2, 0, 2), 0), Ok(Reason::LayerOverBound));
    assert_eq!(why(&two, &lists(SLICE_P, 4, 0, 0, 2), 1), Ok(Reason::SameNumber));
    for slice_type in [SLICE_P, UNKNOWN, 7] {
        for limit in [1, 2] {
            assert_eq!(why(&two, &lists(slice_type, 3, 0, 0, limit), 1), Ok(Reason::OtherSide));
        }
    }
    assert_eq!(why(&two, &lists(SLICE_B, 3, 0, 0, 2), 1), Ok(Reason::Taken(1)));
}

#[test]
fn the_higher_side_of_b() {
    let machine = marked(&[(0, 0), (8, 0)]);
    assert_eq!(why(&machine, &lists(SLICE_B, 4, 1, 0, 1), 1), Ok(Reason::Full));
    assert_eq!(why(&machine, &lists(SLICE_B, 4, 1, 0, 2), 1), Ok(Reason::Taken(1)));
}

#[test]
fn by_picture_and_not_by_number() {
    let machine = marked(&[(4, 1), (4, 1)]);
    let call = lists(SLICE_B, 2, 2, 0, 2);
    assert_eq!(why(&machine, &call, 1), Ok(Reason::Taken(0)));
    assert_eq!(why(&machine, &call, 0), Ok(Reason::LayerOverBound));
}

#[test]
fn what_does_not_fit() {
    let mut machine = marked(&[(0, 0), (4, 0)]);
    let call = lists(SLICE_P, 8, 0, 0, 2);
    let mut unframed = call.clone();
    unframed[12] ^= 1;
    let others: [&[u8]; 5] = [&[2, 0xfe], &[4, 0xfc], &[], &call[..12], &unframed];
    for other in others {
        assert_eq!(why(&machine, other, 0), Err(BAD));
    }
    let mut bytes = [0; IMAGE];
    assert_eq!(machine.save(&mut bytes), Ok(()));
    bytes[0] = 2;
    assert_eq!(image::why(&bytes, &call, 0), Err(BAD));
    machine.registers[CUR_PB_SIZE] = 1;
    assert_eq!(machine.why(&call, 0), Err(7));
}
