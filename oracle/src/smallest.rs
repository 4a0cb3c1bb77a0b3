//! The smallest input that still shows a difference.
use crate::faults;
use crate::judge_streams::{self, Lent};
use crate::rules;
use crate::said::Outcome;
use crate::streams::{Damage, Part, Stream, LARGEST, SIZES};
use crate::tally::Tally;

/// Takes the first simpler input that still fails, as long as there is one.
pub fn smallest<T: Clone>(
    start: T,
    simpler: impl Fn(&T) -> Vec<T>,
    fails: impl Fn(&T) -> bool,
) -> T {
    let mut least = start;
    while let Some(next) = simpler(&least)
        .into_iter()
        .find(|candidate| fails(candidate))
    {
        least = next;
    }
    least
}

type Verdict = Result<(), String>;

/// A judgement of an input; where it fails, that of the smallest input on which it fails too. Of a planted fault it only counts that it was found.
pub fn on<T: Clone>(
    input: T,
    simpler: impl Fn(&T) -> Vec<T>,
    judge: impl Fn(&T, &mut Tally) -> Verdict,
    tally: &mut Tally,
) -> Verdict {
    judge(&input, tally).map_err(|first| {
        if faults::is_any() {
            return first;
        }
        let fails = |input: &T| judge(input, &mut Tally::default());
        let least = smallest(input, simpler, |input| fails(input).is_err());
        fails(&least).err().unwrap_or(first)
    })
}

pub fn on_bytes(
    bytes: Vec<u8>,
    tally: &mut Tally,
    judge: impl Fn(&[u8], &mut Tally) -> Verdict,
) -> Verdict {
    on(
        bytes,
        |bytes| simpler_bytes(bytes),
        |bytes, tally| judge(bytes, tally),
        tally,
    )
}

/// The buffers of a first try are lent; a smaller stream gets its own.
pub fn on_stream(stream: Stream, lent: &mut Lent, tally: &mut Tally) -> Verdict {
    judge_streams::judge(&stream, lent, tally).map_err(|first| {
        if faults::is_any() {
            return first;
        }
        let judge = |stream: &Stream, tally: &mut Tally| {
            judge_streams::judge(stream, &mut Lent::new(), tally)
        };
        on(stream, simpler_streams, judge, &mut Tally::default())
            .err()
            .unwrap_or(first)
    })
}

pub fn simpler_lists(list: &Vec<Vec<u8>>) -> Vec<Vec<Vec<u8>>> {
    let mut out: Vec<Vec<Vec<u8>>> = (0..list.len()).map(|k| without(list, k, k + 1)).collect();
    for k in 0..list.len() {
        out.extend(simpler_bytes(&list[k]).into_iter().map(|bytes| {
            let mut copy = list.clone();
            copy[k] = bytes;
            copy
        }));
    }
    out
}

fn without<T: Clone>(list: &[T], from: usize, to: usize) -> Vec<T> {
    [&list[..from], &list[to..]].concat()
}

/// Of long bytes only large parts are taken out, and single ones at the end.
const LONG: usize = 2_000;

/// Shorter bytes, and bytes with one of them 0.
pub fn simpler_bytes(bytes: &[u8]) -> Vec<Vec<u8>> {
    let n = bytes.len();
    let (mut out, mut size) = (vec![], n.div_ceil(2));
    while size > 0 && (n <= LONG || size > n / 64) {
        let starts = (0..n).step_by(size);
        out.extend(starts.map(|from| without(bytes, from, (from + size).min(n))));
        size /= 2;
    }
    if n > LONG {
        out.extend([100, 10, 1].map(|less| bytes[..n - less].to_vec()));
        return out;
    }
    let zeroed = |k: usize| {
        let mut copy = bytes.to_vec();
        copy[k] = 0;
        copy
    };
    out.extend((0..n).filter(|k| bytes[*k] != 0).map(zeroed));
    out
}

/// Without one of the envelopes at the front, and with a shorter body of one.
fn simpler_envelopes(payload: &[u8]) -> Vec<Vec<u8>> {
    let (mut at, mut out) = (0, vec![]);
    while let Outcome::Gave(Some((n, _))) = rules::front(&payload[at..]).due {
        out.push(without(payload, at, at + n));
        for body in [0, (n - 9) / 2, (n - 9).saturating_sub(1)] {
            let mut copy = without(payload, at + 9 + body, at + n);
            copy[at + 5..at + 9].copy_from_slice(&(body as u32).to_be_bytes());
            out.push(copy);
        }
        at += n;
    }
    out.retain(|shorter| shorter.len() < payload.len());
    out
}

fn simpler_parts(part: &Part) -> Vec<Part> {
    let payloads = simpler_envelopes(&part.payload)
        .into_iter()
        .chain(simpler_bytes(&part.payload));
    let mut out: Vec<Part> = payloads
        .map(|payload| Part {
            payload,
            ..part.clone()
        })
        .collect();
    if part.damage != Damage::None {
        out.push(Part {
            damage: Damage::None,
            ..part.clone()
        });
    }
    out
}

pub fn simpler_streams(stream: &Stream) -> Vec<Stream> {
    let n = stream.parts.len();
    let mut out: Vec<Stream> = (0..n)
        .map(|k| Stream {
            parts: without(&stream.parts, k, k + 1),
            ..stream.clone()
        })
        .collect();
    if !stream.cuts.is_empty() {
        out.push(Stream {
            cuts: vec![],
            ..stream.clone()
        });
        out.extend((0..stream.cuts.len().min(50)).map(|k| Stream {
            cuts: without(&stream.cuts, k, k + 1),
            ..stream.clone()
        }));
    }
    if stream.sizes != SIZES {
        out.push(Stream {
            sizes: SIZES,
            ..stream.clone()
        });
    }
    for k in 1..n {
        let mut parts = stream.parts.clone();
        let behind = parts.remove(k);
        parts[k - 1].payload.extend(behind.payload);
        parts[k - 1].self_contained |= behind.self_contained;
        if parts[k - 1].payload.len() <= LARGEST {
            out.push(Stream {
                parts,
                ..stream.clone()
            });
        }
    }
    for k in 0..n {
        out.extend(simpler_parts(&stream.parts[k]).into_iter().map(|part| {
            let mut parts = stream.parts.clone();
            parts[k] = part;
            Stream {
                parts,
                ..stream.clone()
            }
        }));
    }
    out
}
