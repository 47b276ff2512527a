//! Answer lines read and call lines written: what ends a line, what is no answer, places, refusals and their order.

use picman::{answers, answers_from, write_call, Read, BAD, LONGEST_LINE, NO_ROOM};

const BEFORE: u8 = 0xa5;
const LINE: &[u8] = b"0100ff0000000000\n";
const DONE: Read = Read::Answer([1, 0, 0xff, 0, 0, 0, 0]);

fn read(lines: &[u8]) -> Vec<Read> {
    answers(lines).collect()
}

#[test]
fn lines_of_a_buffer() {
    assert_eq!(read(b""), []);
    assert_eq!(read(b"\n"), [Read::Bad(0)]);
    assert_eq!(read(b"0100ff0000000000"), [DONE]);
    assert_eq!(read(LINE), [DONE]);
    assert_eq!(read(b"0100ff0000000000\n\n"), [DONE, Read::Bad(17)]);
    assert_eq!(read(b"\n0100ff0000000000\n"), [Read::Bad(0), DONE]);
    assert_eq!(read(b"x\n0100ff0000000000"), [Read::Bad(0), DONE]);
    assert_eq!(read(b"\n\n\n"), [Read::Bad(0), Read::Bad(1), Read::Bad(2)]);
}

#[test]
fn any_eight_bytes_that_sum_to_zero() {
    assert_eq!(read(b"0012ff00000000ef"), [Read::Answer([0, 0x12, 0xff, 0, 0, 0, 0])]);
    assert_eq!(read(b"ff0063000000009e"), [Read::Answer([0xff, 0, 99, 0, 0, 0, 0])]);
    assert_eq!(read(b"0000000000000000"), [Read::Answer([0; 7])]);
}

#[test]
fn lines_that_are_no_answers() {
    for line in [
        "",
        " ",
        "0100FF0000000000",
        "0100ff0000000000\r",
        " 0100ff000000000",
        "0100ff00000000",
        "0100ff000000000000",
        "0100ff000000000000000000",
        "0100ff0000000001",
        "0100ff000000000",
        "02fe",
    ] {
        let two = format!("{line}\n0100ff0000000000\n");
        assert_eq!(read(two.as_bytes()), [Read::Bad(0), DONE], "{line}");
        let behind = format!("0100ff0000000000\n{line}\n");
        assert_eq!(read(behind.as_bytes()), [DONE, Read::Bad(17)], "{line}");
    }
}

#[test]
fn places() {
    let mut inside = answers_from(LINE, 2);
    assert_eq!((inside.next(), inside.place()), (Some(Read::Bad(2)), 17));
    for at in [17, 18, 1 << 32, u64::MAX] {
        let mut past = answers_from(LINE, at);
        assert_eq!((past.next(), past.place()), (None, at));
        assert_eq!((past.next(), past.place()), (None, at));
    }
    let mut last = answers_from(LINE, 16);
    assert_eq!((last.next(), last.place()), (Some(Read::Bad(16)), 17));
    let mut open = answers(b"02fe");
    assert_eq!((open.next(), open.place()), (Some(Read::Bad(0)), 4));
    assert_eq!((open.next(), open.place()), (None, 4));
}

const CALLS: [(&[u8], &[u8]); 6] = [
    (&[1, 4, 2], b"010402f9\n"),
    (&[2], b"02fe\n"),
    (&[3, 7, 0, 0, 0, 0, 0, 0, 0, 0, 0], b"0307000000000000000000f6\n"),
    (&[4], b"04fc\n"),
    (&[5, 9, 0, 0, 0, 1, 0, 0xff, 0xff, 0xff, 0xff, 2], b"05090000000100ffffffff02f3\n"),
    (&[6, 3, 1], b"060301f6\n"),
];

#[test]
fn calls_written() {
    for (fields, line) in CALLS {
        let mut target = [BEFORE; LONGEST_LINE + 3];
        assert_eq!(write_call(fields, &mut target), Ok(line.len()));
        let (front, behind) = target.split_at(line.len());
        assert!(front == line && behind.iter().all(|byte| *byte == BEFORE), "{fields:02x?}");
        let mut exact = vec![BEFORE; line.len()];
        assert_eq!(write_call(fields, &mut exact), Ok(line.len()));
        assert_eq!(exact, line);
        for len in 0..line.len() {
            let mut short = vec![BEFORE; len];
            assert_eq!(write_call(fields, &mut short), Err(NO_ROOM));
            assert!(short.iter().all(|byte| *byte == BEFORE));
        }
    }
}

#[test]
fn slice_bytes_stay() {
    let mut lines = Vec::new();
    for slice in 0..=255 {
        let mut target = [0; LONGEST_LINE];
        let fields = [5, slice, 0, 0, 0, 1, 0, 0, 0, 0, 0, 2];
        assert_eq!(write_call(&fields, &mut target), Ok(LONGEST_LINE));
        lines.push(target);
    }
    lines.sort();
    lines.dedup();
    assert_eq!(lines.len(), 256);
}

#[test]
fn calls_that_are_none() {
    let put = [3, 16, 0, 0, 0, 0, 0, 0, 0, 0, 0];
    for fields in [&[][..], &[0], &[7], &[2, 0], &[1, 4], &[1, 4, 2, 0xf9], &put, &[5; 13], &[4; 40]] {
        let mut target = [BEFORE; 100];
        assert_eq!(write_call(fields, &mut target), Err(BAD), "{fields:02x?}");
        assert_eq!(target, [BEFORE; 100]);
        assert_eq!(write_call(fields, &mut []), Err(BAD), "18 comes before 20");
    }
}
