//! Short inputs, all of them where that is possible.
use crate::envelopes::Faults;
use crate::judged::Form;
use crate::random::Random;
use crate::smallest::{on_bytes, on_stream};
use crate::streams::{self, Damage, Part, Scale, Stream, SIZES};
use crate::tally::Tally;
use crate::{judge_envelopes, judge_notations, judge_streams};

type Verdict = Result<(), String>;

fn both(bytes: &[u8], tally: &mut Tally) -> Verdict {
    on_bytes(bytes.to_vec(), tally, judge_envelopes::parse)?;
    on_bytes(bytes.to_vec(), tally, judge_envelopes::size)
}

fn header(first: u8, flags: u8, stream: u16, opcode: u8, length: i32, body: &[u8]) -> Vec<u8> {
    let mut out = vec![first, flags];
    out.extend_from_slice(&stream.to_be_bytes());
    out.push(opcode);
    out.extend_from_slice(&length.to_be_bytes());
    out.extend_from_slice(body);
    out
}

/// Every first byte with every flag byte, over bodies that end before, in and behind an id and a list.
fn first_bytes_and_flags(tally: &mut Tally) -> Verdict {
    let bodies: [&[u8]; 4] = [
        &[],
        &[0, 1, 0, 1, 0x41, 7],
        &[0; 18],
        b"0123456789abcdef\0\x01\0\x02\xc3\xa9!",
    ];
    for first in 0..=255 {
        for flags in 0..=255 {
            for body in bodies {
                both(&header(first, flags, 1, 5, body.len() as i32, body), tally)?;
            }
        }
    }
    Ok(())
}

fn first_bytes_and_opcodes(tally: &mut Tally) -> Verdict {
    for first in 0..=255 {
        for opcode in 0..=255 {
            both(&header(first, 0, 1, opcode, 0, &[]), tally)?;
        }
    }
    Ok(())
}

fn streams_numbers(tally: &mut Tally) -> Verdict {
    (0..=u16::MAX).try_for_each(|stream| both(&header(0x85, 0, stream, 12, 0, &[]), tally))
}

/// Lengths near the bodies that are there, and every one of those whose front is kept.
fn lengths(tally: &mut Tally) -> Verdict {
    for length in (-300..=300).chain([
        i32::MIN,
        i32::MIN + 1,
        i32::MAX,
        i32::MAX - 8,
        i32::MAX - 9,
        1 << 28,
        (1 << 28) + 1,
    ]) {
        for body in 0..40 {
            for first in [0x05, 0x83, 0x06] {
                both(&header(first, 0, 1, 5, length, &vec![0x41; body]), tally)?;
            }
        }
    }
    let whole = header(
        0x85,
        10,
        1,
        8,
        27,
        b"0123456789abcdef\0\x02\0\x01A\0\0\xff\xff",
    );
    (0..=whole.len()).try_for_each(|n| both(&whole[..n], tally))
}

/// Lists of strings whose bytes are all of a few.
fn small_lists(tally: &mut Tally) -> Verdict {
    const BYTES: [u8; 6] = [0, 1, 2, 0x41, 0x80, 0xff];
    for n in 0..=7u32 {
        for k in 0..6usize.pow(n) {
            let bytes: Vec<u8> = (0..n).map(|i| BYTES[k / 6usize.pow(i) % 6]).collect();
            on_bytes(bytes.clone(), tally, judge_notations::list)?;
            on_bytes(bytes.clone(), tally, judge_notations::short_bytes)?;
            on_bytes(bytes.clone(), tally, judge_notations::numbers)?;
        }
    }
    Ok(())
}

fn short_streams(random: &mut Random, n: usize) -> Vec<Stream> {
    let scale = Scale {
        segments: 3,
        body: 12,
    };
    (0..n)
        .map(|k| streams::stream(random, scale, Faults(if k % 2 == 0 { 0 } else { 12 })))
        .filter(|stream| stream.bytes().len() <= 90)
        .collect()
}

/// Every cut of short streams into two pieces and into three.
fn every_cut(random: &mut Random, n: usize, tally: &mut Tally) -> Verdict {
    let mut lent = judge_streams::Lent::new();
    for stream in short_streams(random, n) {
        let len = stream.bytes().len();
        for first in 0..=len {
            for second in 0..=len - first {
                on_stream(
                    Stream {
                        cuts: vec![first, second],
                        ..stream.clone()
                    },
                    &mut lent,
                    tally,
                )?;
            }
        }
    }
    Ok(())
}

/// Every bit turned in the header, in its check, in the payload with the check made anew, and in the payload's check.
fn every_bit(random: &mut Random, n: usize, tally: &mut Tally) -> Verdict {
    let mut lent = judge_streams::Lent::new();
    for stream in short_streams(random, n) {
        let bits = if stream.form == Form::Short { 24 } else { 40 };
        for k in 0..stream.parts.len() {
            let turned = (0..bits)
                .map(|bit| Damage::Header(1 << bit))
                .chain((0..24).map(|bit| Damage::HeaderCheck(1 << bit)));
            for damage in turned.chain((0..32).map(|bit| Damage::PayloadCheck(1 << bit))) {
                let mut copy = stream.clone();
                copy.parts[k].damage = damage;
                on_stream(copy, &mut lent, tally)?;
            }
            for bit in 0..stream.parts[k].payload.len() * 8 {
                let mut copy = stream.clone();
                copy.parts[k].payload[bit / 8] ^= 1 << (bit % 8);
                on_stream(copy, &mut lent, tally)?;
            }
        }
    }
    Ok(())
}

/// Every length of a payload around the largest, and envelopes that just fill one.
fn largest(tally: &mut Tally) -> Verdict {
    let mut lent = judge_streams::Lent::new();
    for form in [Form::Short, Form::Long] {
        for spare in 0..4usize {
            for self_contained in [true, false] {
                let body = streams::LARGEST - 9 - spare;
                let payload = header(5, 0, 1, 7, body as i32, &vec![0x61; body]);
                let part = Part {
                    self_contained,
                    payload,
                    damage: Damage::None,
                };
                for cuts in [vec![], vec![1, 5], vec![131_070]] {
                    on_stream(
                        Stream {
                            form,
                            parts: vec![part.clone(), part.clone()],
                            cuts,
                            sizes: SIZES,
                        },
                        &mut lent,
                        tally,
                    )?;
                }
            }
        }
    }
    Ok(())
}

pub fn all(random: &mut Random, n: usize, tally: &mut Tally) -> Verdict {
    first_bytes_and_flags(tally)?;
    first_bytes_and_opcodes(tally)?;
    streams_numbers(tally)?;
    lengths(tally)?;
    small_lists(tally)?;
    every_cut(random, n, tally)?;
    every_bit(random, n, tally)?;
    largest(tally)
}
