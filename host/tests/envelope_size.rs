//! The size check against a version of its own, written from docs/RULES.md, and against answers that the rules give outright.

use tanglegoose_host::check_envelope_size;
use tanglegoose_host::plain::Numbers;

/// The tests of 4.10 in their order, up to the version; 4.13 makes a number of them.
fn by_the_rules(bytes: &[u8]) -> i64 {
    if bytes.len() < 9 {
        return 0;
    }
    let body = i32::from_be_bytes([bytes[5], bytes[6], bytes[7], bytes[8]]);
    if body < 0 {
        return -8;
    }
    let whole = 9 + i64::from(body);
    if (bytes.len() as i64) < whole {
        return 0;
    }
    match bytes[0] & 0x7f {
        3 | 4 | 5 => whole,
        _ => -9,
    }
}

fn front(bytes: &[u8]) -> &[u8] {
    &bytes[..bytes.len().min(12)]
}

#[track_caller]
fn agree(bytes: &[u8]) -> i64 {
    let answer = check_envelope_size(bytes);
    let (len, front) = (bytes.len(), front(bytes));
    assert_eq!(answer, by_the_rules(bytes), "{len} bytes: {front:02x?}");
    answer
}

/// The answer that the caller names, and the one by the rules.
#[track_caller]
fn answers(bytes: &[u8], expected: i64) {
    let (len, front) = (bytes.len(), front(bytes));
    let answer = agree(bytes);
    assert_eq!(answer, expected, "{len} bytes: {front:02x?}");
}

fn header(first: u8, declared: i32) -> [u8; 9] {
    let [a, b, c, d] = declared.to_be_bytes();
    [first, 0x00, 0x00, 0x01, 0x05, a, b, c, d]
}

/// A header that declares so much, and bytes behind it up to a length; shorter than nine bytes, its front.
fn headed(first: u8, declared: i32, len: usize) -> Vec<u8> {
    let mut bytes = header(first, declared).to_vec();
    bytes.resize(len, 0xa5);
    bytes
}

const P5: [u8; 9] = [0x05, 0x00, 0x00, 0x01, 0x05, 0x00, 0x00, 0x00, 0x00];
const P6: [u8; 9] = [0x85, 0x00, 0xff, 0xff, 0x0c, 0x00, 0x00, 0x00, 0x00];

const FIRST_BYTES: [u8; 6] = [0x03, 0x04, 0x05, 0x83, 0x84, 0x85];

#[test]
fn p5_a_request() {
    answers(&P5, 9);
}

#[test]
fn p6_a_response() {
    answers(&P6, 9);
}

#[test]
fn p7_incomplete() {
    answers(&P5[..8], 0);
}

#[test]
fn p8_negative_length() {
    let mut bytes = P5;
    bytes[5..].fill(0xff);
    answers(&bytes, -8);
}

#[test]
fn p9_unknown_version() {
    let mut bytes = P5;
    bytes[0] = 0x06;
    bytes[4] = 0x04;
    answers(&bytes, -9);
}

/// Refusal 10 is the reading's: the size check does not go as far as the opcode.
#[test]
fn p10_unknown_opcode_has_a_size() {
    let mut bytes = P5;
    bytes[4] = 0x04;
    answers(&bytes, 9);
}

#[test]
fn every_cut() {
    let mut numbers = Numbers::from_seed(0x413);
    for first in FIRST_BYTES {
        for body in [0, 1, 300] {
            let mut envelope = header(first, body as i32).to_vec();
            envelope.extend(numbers.bytes(body));
            let whole = 9 + body;
            for len in 0..whole {
                answers(&envelope[..len], 0);
            }
            answers(&envelope, whole as i64);

            // What stands behind is no part of it, be it another envelope, one with a negative length or any bytes.
            let behind = [
                P6.to_vec(),
                header(0x05, -1).to_vec(),
                vec![0x00; 40],
                vec![0xff; 40],
                numbers.bytes(40),
            ];
            for more in behind {
                let both = [&envelope[..], &more].concat();
                for len in 0..=both.len() {
                    let expected = if len < whole { 0 } else { whole as i64 };
                    answers(&both[..len], expected);
                }
                // Behind a cut the same bytes count as the envelope's own.
                for cut in 0..whole {
                    agree(&[&envelope[..cut], &more].concat());
                }
            }
        }
    }
}

#[test]
fn lengths_at_their_limits() {
    let limits = [
        (-1, -8),
        (-9, -8),
        (-10, -8),
        (i32::MIN, -8),
        (0, 9),
        (i32::MAX, 0),
    ];
    for first in FIRST_BYTES {
        for (declared, expected) in limits {
            for len in 0..9 {
                answers(&headed(first, declared, len), 0);
            }
            for len in (9..=40).chain([300, 70_000]) {
                answers(&headed(first, declared, len), expected);
            }
        }
    }
}

/// The nine bytes are added to a length that fills its four bytes, and the sum needs a bit more. All but the first bytes are never touched, so
/// most systems lend them without giving memory.
#[test]
fn the_largest_length() {
    let whole = 9 + i32::MAX as usize;
    let mut bytes = vec![0; whole + 1];
    bytes[..9].copy_from_slice(&header(0x85, i32::MAX));
    answers(&bytes[..whole - 1], 0);
    answers(&bytes[..whole], 2_147_483_656);
    answers(&bytes, 2_147_483_656);
    bytes[0] = 0x86;
    answers(&bytes[..whole - 1], 0);
    answers(&bytes[..whole], -9);
}

/// Where a byte of the length is full, and half full.
#[test]
fn lengths_around_a_carry() {
    let carries = [0x80, 0x100, 0x8000, 0x1_0000, 0x80_0000, 0x100_0000];
    let mut bytes = vec![0; 0x100_0000 + 12];
    for carry in carries {
        for declared in carry - 1..=carry + 1 {
            let whole = 9 + declared;
            for (first, known) in [(0x05, true), (0x83, true), (0x02, false), (0x86, false)] {
                bytes[..9].copy_from_slice(&header(first, declared as i32));
                let expected = if known { whole as i64 } else { -9 };
                answers(&bytes[..9], 0);
                answers(&bytes[..whole - 1], 0);
                answers(&bytes[..whole], expected);
                answers(&bytes[..whole + 1], expected);
            }
        }
    }
}

#[test]
fn every_first_byte() {
    for first in 0..=255u8 {
        let known = FIRST_BYTES.contains(&first);
        for body in [0, 1, 300] {
            let whole = 9 + body;
            let bytes = headed(first, body as i32, whole + 3);
            let expected = if known { whole as i64 } else { -9 };
            answers(&bytes[..whole], expected);
            answers(&bytes, expected);
            // Whether the envelope is there is judged before its version.
            answers(&bytes[..8], 0);
            answers(&bytes[..whole - 1], 0);
        }
        // So is the sign of its length.
        for declared in [-1, -9, -10, i32::MIN] {
            answers(&headed(first, declared, 9), -8);
            answers(&headed(first, declared, 50), -8);
        }
        answers(&headed(first, i32::MAX, 50), 0);
    }
}

/// Flags, stream and opcode may be any.
#[test]
fn bytes_that_do_not_matter() {
    for at in 1..=4 {
        for value in 0..=255u8 {
            for (first, declared, expected) in [
                (0x05, 2, 11),
                (0x84, 0, 9),
                (0x07, 2, -9),
                (0x05, -2, -8),
                (0x05, 3, 0),
            ] {
                let mut bytes = headed(first, declared, 11);
                bytes[at] = value;
                answers(&bytes, expected);
            }
        }
    }
}

#[derive(Default)]
struct Met {
    incomplete: usize,
    negative: usize,
    unknown: usize,
    whole: usize,
}

impl Met {
    fn count(&mut self, answer: i64) {
        match answer {
            0 => self.incomplete += 1,
            -8 => self.negative += 1,
            -9 => self.unknown += 1,
            _ => self.whole += 1,
        }
    }

    /// Every kind of answer came often, so the comparison had something to tell apart.
    fn often(&self) {
        for met in [self.incomplete, self.negative, self.unknown, self.whole] {
            assert!(met >= 1_000, "only {met} answers of a kind");
        }
    }
}

/// Headers of random bytes whose length is small, huge or negative, with as many bytes as they ask for and a few more or fewer; at any
/// distance from an even address.
#[test]
fn random_headers() {
    let mut numbers = Numbers::from_seed(0x410);
    let mut met = Met::default();
    for _ in 0..6_000 {
        let shift = (numbers.next() % 8) as usize;
        let declared = match numbers.next() % 8 {
            0 => -1 - (numbers.next() % 20) as i32,
            1 => i32::MIN + (numbers.next() % 20) as i32,
            2 => numbers.next() as i32,
            3 => i32::MAX - (numbers.next() % 20) as i32,
            _ => (numbers.next() % 700) as i32,
        };
        let asked = if (0..700).contains(&declared) {
            declared as usize
        } else {
            0
        };
        let mut bytes = numbers.bytes(shift + 9 + asked + 3);
        let first = numbers.next();
        bytes[shift] = if first % 4 == 0 {
            (first >> 8) as u8
        } else {
            // 2 to 6, in both directions: the versions and their neighbours.
            (2 + (first >> 8) % 5) as u8 | ((first >> 16) & 0x80) as u8
        };
        bytes[shift + 5..shift + 9].copy_from_slice(&declared.to_be_bytes());
        let part = &bytes[shift..];
        for len in (0..=10).chain(9 + asked - 3..=9 + asked + 3) {
            if len <= part.len() {
                met.count(agree(&part[..len]));
            }
        }
    }
    met.often();
}

#[test]
fn random_bytes() {
    let mut numbers = Numbers::from_seed(0x1413);
    for _ in 0..20_000 {
        let len = (numbers.next() % 40) as usize;
        agree(&numbers.bytes(len));
    }
}
