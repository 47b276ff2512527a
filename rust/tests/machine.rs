//! The running machine from Rust: the specification's example, refusals, states that are not whole, and the way to an image.

use picman::{
    image, Answer, Entry, Machine, ANSWER, BAD, IDR, IMAGE, NOT_YET, NO_MORE, NO_PICTURE, REFERENCE, SLICE_B,
    SLICE_P, WANTED,
};

const NEXT_OUTPUT: usize = 2;
const PREV_POC_VAL: usize = 4;
const CUR_PB_SIZE: usize = 8;

fn answer(status: u8, buffer: Option<u8>, value: u32) -> Answer {
    Answer { status, buffer, value }
}

fn refusal(number: u8) -> Answer {
    answer(number, None, 0)
}

/// A call must be turned down with a number and leave the machine.
fn refused(machine: &mut Machine, number: u8, call: impl Fn(&mut Machine) -> Answer) {
    let before = machine.clone();
    assert_eq!(call(machine), refusal(number));
    assert!(*machine == before, "a call turned down with {number} changed the machine");
}

fn ready() -> Machine {
    let mut machine = Machine::new();
    assert_eq!(machine.init(4, 2), answer(0, None, 0));
    machine
}

#[test]
fn six_calls() {
    let mut machine = ready();
    assert_eq!(machine.get(), answer(0, Some(0), 0));
    assert_eq!(machine.put(IDR | WANTED | REFERENCE, 0, 0, 0), answer(0, Some(0), 0));
    assert_eq!(machine.out(), answer(0, Some(0), 0));
    assert_eq!(machine.out(), answer(NO_MORE, None, 0));
    assert_eq!(machine.call(&[0]), [0, BAD, 0xff, 0, 0, 0, 0, 0xef]);
}

#[test]
fn six_lines() {
    let mut machine = Machine::new();
    let put = [3, 7, 0, 0, 0, 0, 0, 0, 0, 0, 0, 0xf6];
    let calls: [&[u8]; 6] = [&[1, 4, 2, 0xf9], &[2, 0xfe], &put, &[4, 0xfc], &[4, 0xfc], &[0]];
    let answers = calls.map(|call| u64::from_be_bytes(machine.call(call)));
    let expected = [
        0x0100ff0000000000,
        0x02000000000000fe,
        0x03000000000000fd,
        0x04000000000000fc,
        0x0441ff00000000bc,
        0x0012ff00000000ef,
    ];
    assert_eq!(answers, expected);
}

#[test]
fn new_machine_is_zero() {
    assert_eq!(std::mem::size_of::<Machine>(), 6400);
    let mut machine = Machine { keys: [!0; 27], rows: [[!0; 21]; 73], registers: [!0; 13] };
    machine.reset();
    assert!(machine == Machine { keys: [0; 27], rows: [[0; 21]; 73], registers: [0; 13] });
}

/// A put is one number in its slot, and its list numbers stay under its buffer.
#[test]
fn the_fields() {
    let mut machine = ready();
    assert_eq!(machine.get().buffer, Some(0));
    assert_eq!(machine.registers[..2], [1, 0]);
    assert_eq!(machine.put(REFERENCE | WANTED, 0x0102_0304, 2, 0), answer(0, Some(0), 0x0102_0304));
    assert_eq!(machine.keys[0], 0x0102_0304 << 16 | 2 << 8 | 4 | 2 | 1);
    assert_eq!(machine.registers, [0, 0, 0, 0, 0, 0, 4, 2, 1, 1, 0, 0, 1]);
    let lists = machine.lists(SLICE_P, 0x0102_0305, 2, -1, 2);
    assert_eq!((lists.status, lists.counts()), (0, (1, 0)));
    assert_eq!((machine.rows[27][0], machine.rows[29][0]), (1, 0x0102_0304));
    assert_eq!(machine.get().buffer, Some(1));
    assert_eq!(machine.put(0, 9, 3, 0).status, 0);
    assert_eq!(machine.rows[1][..2], [0x0102_0304, 0]);
    assert_eq!(machine.keys[26], 9 << 16 | 3 << 8 | 1 << 3 | 1);
}

#[test]
fn outputs() {
    let mut machine = ready();
    assert_eq!(machine.get().status, 0);
    assert_eq!(machine.put(WANTED, 5, 1, 0).status, 0);
    assert_eq!(machine.out(), answer(NOT_YET, None, 0));
    machine.registers[NEXT_OUTPUT] = 5;
    assert_eq!(machine.out(), answer(0, Some(0), 5));
    assert_eq!(machine.registers[NEXT_OUTPUT], 6);
}

#[test]
fn refusals_leave_the_machine() {
    let mut machine = Machine::new();
    refused(&mut machine, 1, |m| m.init(28, 2));
    refused(&mut machine, 2, Machine::get);
    machine = ready();
    refused(&mut machine, 4, |m| m.put(0, 0, 0, 0));
    refused(&mut machine, 9, |m| m.lists(SLICE_P, 8, 0, 0, 2));
    refused(&mut machine, 15, |m| m.derive(3, 4));
    refused(&mut machine, BAD, |m| m.put(16, 0, 0, 0));
    assert_eq!(machine.get().status, 0);
    refused(&mut machine, 3, Machine::get);
    refused(&mut machine, 6, |m| m.put(7, 1 << 31, 0, 0));
    assert_eq!(machine.put(7, 0, 0, 0).status, 0);
    assert_eq!(machine.get().status, 0);
    refused(&mut machine, 5, |m| m.put(7, 0, 0, 0));
    refused(&mut machine, 11, |m| m.lists(SLICE_P, 0, 0, 0, 2));
    assert_eq!(machine.put(NO_PICTURE | IDR, 0, 0, 0), answer(0, None, 0));
    refused(&mut machine, 9, |m| m.lists(SLICE_B, 8, 0, 0, 2));
}

/// Every call on a state that is not whole but the derivation, which has to do with the record alone.
fn none_works(machine: &mut Machine) {
    refused(machine, 7, |m| m.init(4, 2));
    refused(machine, 7, Machine::get);
    refused(machine, 7, |m| m.put(7, 0, 0, 0));
    refused(machine, 7, |m| m.put(NO_PICTURE, 0, 0, 0));
    refused(machine, 7, Machine::out);
    refused(machine, 7, |m| m.lists(SLICE_P, 8, 0, 0, 2));
    let (before, mut bytes) = (machine.clone(), [0xa5; IMAGE]);
    assert_eq!(machine.call(&[4, 0xfc])[..2], [4, 7]);
    assert_eq!(machine.save(&mut bytes), Err(7));
    assert!(*machine == before && bytes == [0xa5; IMAGE]);
}

#[test]
fn states_that_are_not_whole() {
    let broken: [fn(&mut Machine); 12] = [
        |m| m.keys = [!0; 27],
        |m| m.keys[26] = 2,
        |m| m.keys[26] = m.keys[0],
        |m| m.keys[0] |= 1 << 47,
        |m| m.keys[0] |= 1 << 63,
        |m| m.keys[0] |= 27 << 3,
        |m| m.registers[0] = 4,
        |m| m.registers[1] = 1,
        |m| m.registers[CUR_PB_SIZE] = 0,
        |m| m.registers[CUR_PB_SIZE + 1] = 0,
        |m| m.registers[CUR_PB_SIZE - 2] = 28,
        |m| m.registers = [!0; 13],
    ];
    for (i, make) in broken.iter().enumerate() {
        let mut machine = ready();
        assert_eq!(machine.get().status, 0);
        assert_eq!(machine.put(7, 0, 0, 0).status, 0);
        make(&mut machine);
        println!("broken in way {i}");
        none_works(&mut machine);
    }
}

#[test]
fn derivations() {
    let mut machine = ready();
    machine.registers[PREV_POC_VAL] = 8;
    let numbers = [1, 2, 2, 3].map(|tid| machine.derive(3, tid).number());
    assert_eq!(numbers, [4, 2, 6, 1]);
    machine.registers[PREV_POC_VAL] = 0;
    assert_eq!(machine.derive(3, 3).number(), -5);
    machine.registers[PREV_POC_VAL] = 1 << 31;
    refused(&mut machine, 16, |m| m.derive(3, 0));
}

#[test]
fn copies() {
    let mut machine = ready();
    let entry = Entry { present: true, buf: 0x11, poc: 0x1111_1111, list_poc: [3; 21] };
    assert_eq!(machine.copy(0, 1, &entry), Ok(()));
    assert_eq!((machine.rows[28][0], machine.rows[30][0], machine.rows[52]), (0x23, 0x1111_1111, [3; 21]));
    let before = machine.clone();
    assert_eq!(machine.copy(1, 1, &entry), Err(13));
    assert_eq!(machine.copy(21, 1, &entry), Err(14));
    assert_eq!(machine.copy(0, 2, &entry), Err(14));
    assert_eq!(machine.copy(u64::MAX, u64::MAX, &entry), Err(14));
    assert!(machine == before);
    assert_eq!(machine.copy(1, 0, &Entry { present: false, ..entry }), Ok(()));
    assert_eq!((machine.rows[27][1], machine.rows[29][1], machine.rows[32]), (0x22, 0x1111_1111, [3; 21]));
}

/// The same calls on an image and on the running machine leave the same image.
#[test]
fn images() {
    let (mut machine, mut bytes, mut saved) = (Machine::new(), [0; IMAGE], [0xa5; IMAGE]);
    let checked = |fields: &[u8]| {
        let sum = fields.iter().fold(0, |sum: u8, byte| sum.wrapping_add(*byte));
        [fields, &[0u8.wrapping_sub(sum)]].concat()
    };
    let put = |flags, poc, layer| checked(&[3, flags, 0, 0, 0, poc, layer, 0, 0, 0, 0]);
    let lists = checked(&[5, 3, 0, 0, 0, 2, 2, 255, 255, 255, 255, 2]);
    let get = checked(&[2]);
    let calls = [
        &checked(&[1, 5, 2]),
        &get,
        &put(7, 0, 0),
        &get,
        &put(6, 4, 1),
        &get,
        &lists,
        &put(2, 2, 2),
        &checked(&[4]),
    ];
    for call in calls {
        let mut answer = [0; ANSWER];
        assert_eq!(image::call(&mut bytes, call, &mut answer), 0);
        assert_eq!(machine.call(call), answer);
        assert_eq!(machine.save(&mut saved), Ok(()));
        assert!(saved == bytes, "after {call:02x?}");
        let mut loaded = Machine { keys: [!0; 27], rows: [[!0; 21]; 73], registers: [!0; 13] };
        assert_eq!(loaded.load(&bytes), Ok(()));
        assert_eq!((loaded.keys, loaded.registers), (machine.keys, machine.registers));
        assert!(loaded.rows[27..] == machine.rows[27..]);
        let mut again = [0xa5; IMAGE];
        assert_eq!(loaded.save(&mut again), Ok(()));
        assert!(again == bytes, "loaded after {call:02x?}");
    }
    let before = machine.clone();
    bytes[93 * 28 + 2] ^= 1;
    assert_eq!(machine.load(&bytes), Err(7));
    bytes[0] = 2;
    assert_eq!(machine.load(&bytes), Err(BAD));
    assert!(machine == before);
}
