//! The functions on an image: the specification's example, refusals, flag bytes that don't fit; and both depth tables.

use picman::image;
use picman::{ANSWER, BAD, ENTRY, IMAGE};

const INIT: [u8; 4] = [1, 4, 2, 0xf9];
const GET: [u8; 2] = [2, 0xfe];
const PUT: [u8; 12] = [3, 7, 0, 0, 0, 0, 0, 0, 0, 0, 0, 0xf6];
const OUT: [u8; 2] = [4, 0xfc];

/// Places in the image.
const CUR_PB_SIZE: usize = 2606;
const FIRST_ENTRY: usize = 2615;
const PREV_POC_VAL: usize = 6399;

fn new_image() -> [u8; IMAGE] {
    let mut bytes = [0xa5; IMAGE];
    assert_eq!(image::new(&mut bytes), 0);
    bytes
}

/// The status and the answer of a call.
fn ask(bytes: &mut [u8; IMAGE], call: &[u8]) -> (u8, [u8; ANSWER]) {
    let mut answer = [0xa5; ANSWER];
    let status = image::call(bytes, call, &mut answer);
    assert_eq!(status, answer[1], "the status given is the answer's");
    assert_eq!(answer.iter().fold(0, |sum: u8, byte| sum.wrapping_add(*byte)), 0, "the check byte");
    (status, answer)
}

/// A call with its check byte.
fn checked(fields: &[u8]) -> Vec<u8> {
    let sum = fields.iter().fold(0, |sum: u8, byte| sum.wrapping_add(*byte));
    [fields, &[0u8.wrapping_sub(sum)]].concat()
}

/// A call must be turned down with a number and leave the image.
fn refused(bytes: &mut [u8; IMAGE], call: &[u8], number: u8) {
    let before = *bytes;
    assert_eq!(ask(bytes, call).0, number, "{call:02x?}");
    assert!(*bytes == before, "{call:02x?} changed the image");
}

#[test]
fn six_lines() {
    let mut bytes = new_image();
    let calls: [&[u8]; 6] = [&INIT, &GET, &PUT, &OUT, &OUT, &[0]];
    let answers = calls.map(|call| u64::from_be_bytes(ask(&mut bytes, call).1));
    let expected = [
        0x0100ff0000000000,
        0x02000000000000fe,
        0x03000000000000fd,
        0x04000000000000fc,
        0x0441ff00000000bc,
        0x0012ff00000000ef,
    ];
    assert_eq!(answers, expected);
}

#[test]
fn new_machine_is_zero() {
    assert!(new_image().iter().all(|byte| *byte == 0));
}

#[test]
fn refusals_leave_the_image() {
    let mut bytes = new_image();
    refused(&mut bytes, &checked(&[1, 28, 2]), 1);
    refused(&mut bytes, &GET, 2);
    ask(&mut bytes, &INIT);
    refused(&mut bytes, &PUT, 4);
    refused(&mut bytes, &checked(&[5, 2, 0, 0, 0, 8, 0, 0, 0, 0, 0, 2]), 9);
    refused(&mut bytes, &checked(&[6, 3, 4]), 15);
    ask(&mut bytes, &GET);
    refused(&mut bytes, &GET, 3);
    refused(&mut bytes, &checked(&[3, 7, 0x80, 0, 0, 0, 0, 0, 0, 0, 0]), 6);
    ask(&mut bytes, &PUT);
    ask(&mut bytes, &GET);
    refused(&mut bytes, &PUT, 5);
    refused(&mut bytes, &checked(&[5, 2, 0, 0, 0, 0, 0, 0, 0, 0, 0, 2]), 11);
}

#[test]
fn broken_states_leave_the_image() {
    let mut bytes = new_image();
    bytes[CUR_PB_SIZE] = 1;
    refused(&mut bytes, &OUT, 7);
    bytes[CUR_PB_SIZE] = 0;
    bytes[PREV_POC_VAL] = 0x80;
    refused(&mut bytes, &checked(&[6, 3, 0]), 16);
}

#[test]
fn bad_calls_leave_the_image() {
    let mut bytes = new_image();
    let flags_of_16 = checked(&[3, 16, 0, 0, 0, 0, 0, 0, 0, 0, 0]);
    for call in [&[][..], &[1], &[2, 0xfd], &[7, 0xf9], &[1, 4, 0xfb], &flags_of_16] {
        refused(&mut bytes, call, BAD);
        assert_eq!(ask(&mut bytes, call).1, [0, 0x12, 0xff, 0, 0, 0, 0, 0xef]);
    }
}

#[test]
fn flags_that_do_not_fit() {
    let slots = (0..28).flat_map(|slot| [0, 2, 3].map(|flag| 93 * slot + flag));
    let entries = (0..42).map(|entry| FIRST_ENTRY + 90 * entry);
    for flag in slots.chain(entries) {
        let (mut bytes, mut answer) = (new_image(), [0xa5; ANSWER]);
        bytes[flag] = 2;
        let before = bytes;
        assert_eq!(image::call(&mut bytes, &INIT, &mut answer), BAD, "flag {flag}");
        assert_eq!(image::copy_refp(&mut bytes, 0, 0, &[0; ENTRY]), BAD, "flag {flag}");
        assert!(bytes == before && answer == [0xa5; ANSWER], "flag {flag}");
    }
    let (mut bytes, mut entry) = (new_image(), [0; ENTRY]);
    entry[0] = 2;
    assert_eq!(image::copy_refp(&mut bytes, 0, 0, &entry), BAD);
    assert!(bytes == new_image());
}

#[test]
fn copies() {
    let mut bytes = new_image();
    let mut entry = [0x11; ENTRY];
    entry[0] = 1;
    assert_eq!(image::copy_refp(&mut bytes, 0, 1, &entry), 0);
    let place = FIRST_ENTRY + 21 * ENTRY;
    assert_eq!(bytes[place..place + ENTRY], entry);
    let before = bytes;
    assert_eq!(image::copy_refp(&mut bytes, 1, 1, &entry), 13);
    assert_eq!(image::copy_refp(&mut bytes, 21, 1, &entry), 14);
    assert_eq!(image::copy_refp(&mut bytes, 0, 2, &entry), 14);
    assert_eq!(image::copy_refp(&mut bytes, u64::MAX, u64::MAX, &entry), 14);
    assert!(bytes == before);
    assert_eq!(image::copy_refp(&mut bytes, 1, 0, &entry), 0);
    let place = FIRST_ENTRY + ENTRY;
    assert_eq!(bytes[place..place + ENTRY], entry);
}

#[test]
fn depth_tables() {
    for k in 1..=4 {
        let length = 1u64 << k;
        for j in 0..length - 1 {
            assert_eq!(picman::slice_depth(length, j), Some(2 + (j + 1).ilog2() as u8));
        }
        for j in 0..length {
            assert_eq!(picman::slice_depth_p(length, j), Some(1 + k - (j + 1).trailing_zeros() as u8));
        }
        for j in [length, length + 1, 1 << 32, u64::MAX] {
            assert_eq!(picman::slice_depth(length, j - 1), None);
            assert_eq!(picman::slice_depth_p(length, j), None);
        }
    }
    for length in (0..=17).chain([1 << 32, u64::MAX]).filter(|n| ![2, 4, 8, 16].contains(n)) {
        assert_eq!((picman::slice_depth(length, 0), picman::slice_depth_p(length, 0)), (None, None));
    }
}
