//! The group planner from Rust: the cases that tell its readings apart, and a group of 8.

use picman::{PlanCall, BAD, PLAN, RECORD};

const UNTOUCHED: u8 = 0xa5;

fn record_bytes(number: i32, previous: u32, offset: i32) -> [u8; RECORD] {
    let words = [number.to_be_bytes(), previous.to_be_bytes(), offset.to_be_bytes()];
    words.concat().try_into().unwrap()
}

fn plan_bytes(slice_type: u8, depth: u8, reference: u8, number: i32) -> [u8; PLAN] {
    let [a, b, c, d] = number.to_be_bytes();
    [slice_type, depth, reference, a, b, c, d]
}

/// A case is written `count length interval inter hierarchy number previous offset`.
fn asked(case: &str) -> (PlanCall, [u8; RECORD]) {
    let words: Vec<i128> = case.split(' ').map(|word| word.parse().unwrap()).collect();
    let [count, length, interval, inter, hierarchy, number, previous, offset] = words[..] else {
        panic!("{case}: eight numbers");
    };
    let call = PlanCall {
        count: count as u64,
        length: length as u64,
        interval: interval as u64,
        inter: inter as u8,
        hierarchy: hierarchy as u8,
    };
    (call, record_bytes(number as i32, previous as u32, offset as i32))
}

fn accepted(case: &str, plan: (u8, u8, u8, i32), after: (i32, u32, i32)) {
    let (call, mut record) = asked(case);
    let mut found = [UNTOUCHED; PLAN];
    assert_eq!(picman::plan(call, &mut record, &mut found), 0, "{case}");
    assert_eq!(found, plan_bytes(plan.0, plan.1, plan.2, plan.3), "{case}");
    assert_eq!(record, record_bytes(after.0, after.1, after.2), "{case}");
}

fn refused(case: &str, number: u8) {
    let (call, before) = asked(case);
    let (mut record, mut found) = (before, [UNTOUCHED; PLAN]);
    assert_eq!(picman::plan(call, &mut record, &mut found), number, "{case}");
    assert!(record == before && found == [UNTOUCHED; PLAN], "{case} wrote");
}

#[test]
fn length_first_then_bad_plan() {
    for length in ["0", "1", "3", "12", "32", "258", "4294967304", "18446744073709551615"] {
        refused(&format!("0 {length} 0 3 1 0 0 0"), 17);
        refused(&format!("0 {length} 0 1 1 0 4294967295 -1"), 17);
    }
    // The inter type, also where it isn't used.
    for inter in [0, 1, 4, 255] {
        refused(&format!("0 8 0 {inter} 1 0 0 0"), 19);
        refused(&format!("1 8 0 {inter} 1 0 4294967295 0"), 19);
    }
    refused("2147483648 8 0 3 1 0 0 0", 19);
    refused("18446744073709551615 16 1 2 0 0 0 0", 19);
    accepted("2147483647 8 1 3 1 0 0 0", (1, 0, 1, 2147483647), (2147483647, 2147483647, 0));
}

#[test]
fn the_derivations_own_where_it_runs() {
    accepted("8 8 0 2 1 0 4294967295 -5", (2, 1, 1, 8), (8, 8, 0));
    refused("9 8 0 2 1 0 4294967295 -5", 16);
    refused("9 8 0 2 1 0 8 32768", 16);
    refused("9 8 0 2 1 0 2147483647 7", 6);
    accepted("9 8 0 2 1 0 2147483647 6", (2, 2, 1, 2147483643), (2147483643, 2147483647, 1));
}

#[test]
fn without_the_hierarchy() {
    accepted("9 8 0 3 0 5 4294967295 -7", (3, 2, 0, 1), (1, 4294967295, -7));
    refused("7 8 0 3 0 0 0 0", 19);
    refused("1 2 0 3 0 0 0 0", 19);
    accepted("7 8 7 3 0 0 0 0", (1, 0, 1, 7), (7, 7, 0));
    accepted("0 8 0 3 0 4 4 4", (1, 0, 1, 0), (0, 0, 0));
}

#[test]
fn key_pictures() {
    accepted("8 8 8 3 1 0 0 0", (1, 0, 1, 8), (8, 8, 0));
    accepted("8 8 0 3 1 0 0 0", (3, 1, 1, 8), (8, 8, 0));
    accepted("13 8 12 3 1 12 12 0", (3, 4, 0, 5), (5, 12, 4));
}

#[test]
fn numbers_below_zero_and_reference_flags() {
    accepted("1 8 0 3 1 0 0 0", (3, 2, 1, -4), (-4, 0, 1));
    accepted("1 2 0 2 1 0 0 0", (2, 2, 0, -1), (-1, 0, 1));
    accepted("3 4 0 2 1 0 0 2", (2, 3, 0, -1), (-1, 0, 3));
}

#[test]
fn a_group_of_eight() {
    let mut record = record_bytes(-9, u32::MAX, -9);
    let (mut numbers, mut depths) = (Vec::new(), Vec::new());
    for count in 16..24 {
        let mut plan = [UNTOUCHED; PLAN];
        let call = PlanCall { count, length: 8, interval: 0, inter: 3, hierarchy: 1 };
        assert_eq!(picman::plan(call, &mut record, &mut plan), 0);
        numbers.push(i32::from_be_bytes(plan[3..].try_into().unwrap()));
        depths.push(plan[1]);
    }
    assert_eq!(numbers, [16, 12, 10, 14, 9, 11, 13, 15]);
    assert_eq!(depths, [1, 2, 3, 3, 4, 4, 4, 4]);
}

#[test]
fn a_byte_that_is_no_flag() {
    let (call, before) = asked("9 8 0 3 1 8 8 0");
    for hierarchy in 2..=255 {
        let (mut record, mut plan) = (before, [UNTOUCHED; PLAN]);
        assert_eq!(picman::plan(PlanCall { hierarchy, ..call }, &mut record, &mut plan), BAD);
        assert!(record == before && plan == [UNTOUCHED; PLAN]);
    }
}
