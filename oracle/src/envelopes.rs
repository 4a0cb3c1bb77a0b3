//! Envelopes made from a seed: good ones, and ones with a fault at a place that a rule speaks of.
use crate::random::Random;

/// Texts around every edge of UTF-8.
const TEXTS: [&str; 12] = [
    "",
    "A",
    "warning",
    "\u{0}",
    "\u{7f}",
    "\u{80}",
    "\u{7ff}",
    "\u{800}",
    "\u{d7ff}\u{e000}",
    "\u{ffff}",
    "\u{10000}",
    "\u{10ffff} end",
];

/// Bytes that are no text: alone, cut short, too long a form, half of a pair, past the last one.
const NO_TEXTS: [&[u8]; 10] = [
    b"\x80",
    b"\xff",
    b"A\xc2",
    b"\xc0\x80",
    b"\xe0\x80\x80",
    b"\xed\xa0\x80",
    b"\xf0\x80\x80\x80",
    b"\xf4\x90\x80\x80",
    b"\xf5\x80\x80\x80",
    b"\xe2\x82",
];

/// How often something is wrong: once in so many. 0 is never.
#[derive(Clone, Copy)]
pub struct Faults(pub usize);

impl Faults {
    fn here(self, random: &mut Random) -> bool {
        self.0 != 0 && random.once_in(self.0)
    }
}

pub fn good_text(random: &mut Random) -> Vec<u8> {
    let n = random.below(3);
    (0..=n)
        .flat_map(|_| random.pick(&TEXTS).bytes().collect::<Vec<_>>())
        .collect()
}

fn put_short(out: &mut Vec<u8>, n: usize) {
    out.extend_from_slice(&(n as u16).to_be_bytes());
}

/// A list of strings. With a fault: no text, a count too large by a little or by much, or bytes missing at the end.
pub fn string_list(random: &mut Random, faults: Faults) -> Vec<u8> {
    let n = random.below(4);
    let mut out = vec![];
    put_short(
        &mut out,
        if faults.here(random) {
            *random.pick(&[n + 1, 32_767, 32_768, 65_535, n + 2])
        } else {
            n
        },
    );
    for _ in 0..n {
        let text = if faults.here(random) {
            random.pick(&NO_TEXTS).to_vec()
        } else {
            good_text(random)
        };
        put_short(
            &mut out,
            if faults.here(random) {
                *random.pick(&[text.len() + 1, 32_767, 32_768, 65_535])
            } else {
                text.len()
            },
        );
        out.extend_from_slice(&text);
    }
    if faults.here(random) {
        out.truncate(random.below(out.len() + 1));
    }
    out
}

/// A list with a count of 32,768 or a little more, of strings or, every second time, of the bytes in one, and all that is counted. Now and then the last text
/// is no text, or its last byte is missing.
pub fn full_list(random: &mut Random, k: usize) -> Vec<u8> {
    let n = 32_768 + random.below(3);
    let (count, len) = [(n, 0), (1, n), (n, 1), (2, n)][k % 4];
    let mut out = vec![];
    put_short(&mut out, count);
    for _ in 0..count {
        put_short(&mut out, len);
        out.extend(vec![b'w'; len]);
    }
    let last = out.len() - 1;
    match random.below(6) {
        0 => out[last] = 0xff,
        1 => out.truncate(last),
        _ => {}
    }
    out
}

/// An envelope with such a list, and a little behind it.
pub fn full_envelope(random: &mut Random, k: usize) -> Vec<u8> {
    let (first, flags) = *random.pick(&[(0x05, 8), (0x85, 8), (0x84, 10)]);
    let mut body = if flags & 2 != 0 {
        random.bytes(16)
    } else {
        vec![]
    };
    body.extend(full_list(random, k));
    let n = random.below(4);
    body.extend(random.bytes(n));
    let mut out = vec![first, flags, 0, random.byte(), 8];
    out.extend_from_slice(&(body.len() as u32).to_be_bytes());
    out.extend(body);
    out
}

/// The header's length is that of the body, or near it, or far from it.
fn length(random: &mut Random, body: usize, faults: Faults) -> i32 {
    if !faults.here(random) {
        return body as i32;
    }
    let n = body as i32;
    let small = random.below(12) as i32;
    *random.pick(&[
        n + 1,
        n - 1,
        n + small,
        n - small,
        -1,
        -9,
        -10,
        -small,
        -1_000_000,
        i32::MIN,
        i32::MAX,
        0x0100_0000,
    ])
}

fn body_len(random: &mut Random, longest: usize) -> usize {
    let n = match random.below(16) {
        0..=4 => 0,
        5..=8 => random.below(4),
        9..=12 => random.below(20),
        13..=14 => random.below(80),
        _ => random.below(longest + 1),
    };
    n.min(longest)
}

/// An envelope whose free part of the body is at most so long.
pub fn envelope(random: &mut Random, longest: usize, faults: Faults) -> Vec<u8> {
    let is_response = random.below(3) != 0;
    let version = if faults.here(random) {
        random.byte() & 0x7f
    } else {
        *random.pick(&[3, 4, 5, 5, 5])
    };
    let flags = match random.below(6) {
        0..=1 => 0,
        2 => 2,
        3 => 8,
        4 => 10,
        _ => random.byte(),
    };
    let opcode = if faults.here(random) {
        random.byte()
    } else {
        *random.pick(&[0, 1, 2, 3, 5, 6, 7, 8, 9, 10, 11, 12, 13, 14, 15, 16])
    };
    let stream = *random.pick(&[0, 1, -1, 127, 128, 255, 256, i16::MAX, i16::MIN, 12_345]);
    let mut body = vec![];
    if is_response && flags & 2 != 0 {
        let n = if faults.here(random) {
            random.below(16)
        } else {
            16
        };
        body.extend(random.bytes(n));
    }
    if flags & 8 != 0 && body.len() % 16 == 0 {
        body.extend(string_list(random, faults));
    }
    let n = body_len(random, longest);
    body.extend(random.bytes(n));
    let mut out = vec![version | if is_response { 0x80 } else { 0 }, flags];
    out.extend_from_slice(&stream.to_be_bytes());
    out.push(opcode);
    out.extend_from_slice(&length(random, body.len(), faults).to_be_bytes());
    out.extend(body);
    out
}
