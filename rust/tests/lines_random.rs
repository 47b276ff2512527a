//! The reader and the writer beside plain Rust, on many buffers that a fixed generator makes.

use picman::{answers, answers_from, write_call, Read, BAD, LONGEST_LINE, NO_ROOM};

const BEFORE: u8 = 0xa5;

/// Xorshift.
struct Random(u64);

impl Random {
    fn next(&mut self) -> u64 {
        self.0 ^= self.0 << 13;
        self.0 ^= self.0 >> 7;
        self.0 ^= self.0 << 17;
        self.0
    }

    fn below(&mut self, n: usize) -> usize {
        (self.next() % n as u64) as usize
    }

    fn byte(&mut self) -> u8 {
        self.next() as u8
    }
}

fn hex(bytes: &[u8]) -> Vec<u8> {
    bytes.iter().flat_map(|byte| format!("{byte:02x}").into_bytes()).collect()
}

fn with_check(body: &[u8]) -> Vec<u8> {
    let sum = body.iter().fold(0u8, |sum, byte| sum.wrapping_add(*byte));
    [body, &[sum.wrapping_neg()]].concat()
}

/// Mostly answers, many of them spoilt in one place, some other hex, some any bytes.
fn line(random: &mut Random) -> Vec<u8> {
    let mut line = match random.below(8) {
        0 => (0..random.below(20)).map(|_| random.byte()).collect(),
        1 => {
            let body: Vec<u8> = (0..random.below(12)).map(|_| random.byte()).collect();
            hex(&with_check(&body))
        }
        _ => hex(&with_check(&[0; 7].map(|_: u8| random.byte()))),
    };
    if random.below(3) == 0 && !line.is_empty() {
        let at = random.below(line.len());
        match random.below(4) {
            0 => line[at] = random.byte(),
            1 => line[at] = line[at].to_ascii_uppercase(),
            2 => drop(line.remove(at)),
            _ => line.insert(at, b"0f\r\n "[random.below(5)]),
        }
    }
    line
}

fn buffer(random: &mut Random) -> Vec<u8> {
    let lines: Vec<Vec<u8>> = (0..random.below(6)).map(|_| line(random)).collect();
    let mut buffer = lines.join(&b'\n');
    if random.below(2) == 0 {
        buffer.push(b'\n');
    }
    buffer
}

fn answer(line: &[u8]) -> Option<[u8; 7]> {
    if line.len() != 16 || !line.iter().all(|c| c.is_ascii_digit() || (b'a'..=b'f').contains(c)) {
        return None;
    }
    let bytes: Vec<u8> =
        line.chunks(2).map(|c| u8::from_str_radix(std::str::from_utf8(c).unwrap(), 16).unwrap()).collect();
    (bytes.iter().fold(0u8, |sum, byte| sum.wrapping_add(*byte)) == 0).then(|| bytes[..7].try_into().unwrap())
}

fn plainly(lines: &[u8], mut at: usize) -> Vec<Read> {
    let mut reads = Vec::new();
    while at < lines.len() {
        let end = lines[at..].iter().position(|byte| *byte == b'\n').map_or(lines.len(), |n| at + n);
        reads.push(answer(&lines[at..end]).map_or(Read::Bad(at as u64), Read::Answer));
        at = end + 1;
    }
    reads
}

#[test]
fn buffers() {
    let mut random = Random(0x2545_f491_4f6c_dd1d);
    let (mut good, mut bad) = (0, 0);
    for _ in 0..100_000 {
        let lines = buffer(&mut random);
        let reads: Vec<Read> = answers(&lines).collect();
        assert_eq!(reads, plainly(&lines, 0), "{lines:?}");
        let at = random.below(lines.len() + 3);
        assert_eq!(
            answers_from(&lines, at as u64).collect::<Vec<Read>>(),
            plainly(&lines, at),
            "{lines:?} from {at}"
        );
        good += reads.iter().filter(|read| matches!(read, Read::Answer(_))).count();
        bad += reads.iter().filter(|read| matches!(read, Read::Bad(_))).count();
    }
    assert!(good > 50_000 && bad > 50_000, "{good} {bad}");
}

fn is_call(fields: &[u8]) -> bool {
    match (fields.first(), fields.len()) {
        (Some(1 | 6), 3) | (Some(2 | 4), 1) | (Some(5), 12) => true,
        (Some(3), 11) => fields[1] <= 15,
        _ => false,
    }
}

#[test]
fn calls() {
    let mut random = Random(0x9e37_79b9_7f4a_7c15);
    let mut seen = [0; 3];
    for _ in 0..100_000 {
        let call = random.below(8) as u8;
        let long = [3, 3, 1, 11, 1, 12, 3, 2][call as usize];
        let long = if random.below(8) == 0 { random.below(15) } else { long };
        let mut fields: Vec<u8> = (0..long).map(|_| random.byte()).collect();
        if let Some(first) = fields.first_mut() {
            *first = call;
        }
        if call == 3 && long > 1 {
            fields[1] %= 17;
        }
        let mut target = vec![BEFORE; random.below(LONGEST_LINE + 6)];
        let before = target.clone();
        let line = [hex(&with_check(&fields)), vec![b'\n']].concat();
        let given = write_call(&fields, &mut target);
        let (expected, left) = if !is_call(&fields) {
            (Err(BAD), before)
        } else if before.len() < line.len() {
            (Err(NO_ROOM), before)
        } else {
            (Ok(line.len()), [&line, &before[line.len()..]].concat())
        };
        assert_eq!((given, &target), (expected, &left), "{fields:02x?}");
        seen[match given {
            Ok(_) => 0,
            Err(BAD) => 1,
            Err(_) => 2,
        }] += 1;
    }
    assert!(seen.iter().all(|count| *count > 5_000), "{seen:?}");
}
