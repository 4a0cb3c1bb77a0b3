//! Streams made from a seed, in parts that can be taken out one by one.
use crate::envelopes::{envelope, full_envelope, Faults};
use crate::judged::Form;
use crate::random::Random;
use crate::theirs;

pub const LARGEST: usize = 131_071;

/// What is wrong with a segment, or with what stands in its place.
#[derive(Clone, Debug, PartialEq, Eq)]
pub enum Damage {
    None,
    /// These bits of the header's number are turned, and the check is made anew.
    Header(u64),
    HeaderCheck(u32),
    PayloadCheck(u32),
    /// Only so many bytes of it come.
    Cut(usize),
}

#[derive(Clone, Debug, PartialEq, Eq)]
pub struct Part {
    pub self_contained: bool,
    pub payload: Vec<u8>,
    pub damage: Damage,
}

/// A stream, how it is cut, and the buffers that are lent for it. Where the cuts end before the stream, its rest is one piece more.
#[derive(Clone, Debug, PartialEq, Eq)]
pub struct Stream {
    pub form: Form,
    pub parts: Vec<Part>,
    pub cuts: Vec<usize>,
    pub sizes: (usize, usize),
}

pub const SIZES: (usize, usize) = (131_083, 1_048_576);

impl Part {
    fn put(&self, form: Form, out: &mut Vec<u8>) {
        let (number_len, flag) = if form == Form::Short {
            (3, 17)
        } else {
            (5, 34)
        };
        let mut number = self.payload.len() as u64 | (self.self_contained as u64) << flag;
        let (mut header_check, mut payload_check, mut len) = (0, 0, usize::MAX);
        match self.damage {
            Damage::None => {}
            Damage::Header(bits) => number ^= bits,
            Damage::HeaderCheck(bits) => header_check = bits,
            Damage::PayloadCheck(bits) => payload_check = bits,
            Damage::Cut(n) => len = n,
        }
        let start = out.len();
        out.extend_from_slice(&number.to_le_bytes()[..number_len]);
        let check = theirs::crc24(&out[start..]) ^ header_check;
        out.extend_from_slice(&check.to_le_bytes()[..3]);
        out.extend_from_slice(&self.payload);
        out.extend_from_slice(&(theirs::crc32(&self.payload) ^ payload_check).to_le_bytes());
        out.truncate(start.saturating_add(len).min(out.len()));
    }
}

impl Stream {
    pub fn bytes(&self) -> Vec<u8> {
        let mut out = vec![];
        for part in &self.parts {
            part.put(self.form, &mut out);
        }
        out
    }

    /// Where each part ends.
    pub fn ends(&self) -> Vec<usize> {
        let mut out = vec![];
        let put = |part: &Part| {
            part.put(self.form, &mut out);
            out.len()
        };
        self.parts.iter().map(put).collect()
    }

    /// The pieces, one after the other; they join to all the bytes.
    pub fn pieces<'a>(&self, bytes: &'a [u8]) -> Vec<&'a [u8]> {
        let (mut out, mut rest) = (vec![], bytes);
        for cut in &self.cuts {
            let (piece, behind) = rest.split_at((*cut).min(rest.len()));
            out.push(piece);
            rest = behind;
        }
        if !rest.is_empty() {
            out.push(rest);
        }
        out
    }
}

/// How much a stream may hold.
#[derive(Clone, Copy)]
pub struct Scale {
    pub segments: usize,
    pub body: usize,
}

pub const SMALL: Scale = Scale {
    segments: 4,
    body: 200,
};
pub const LARGE: Scale = Scale {
    segments: 8,
    body: 140_000,
};

fn damage(random: &mut Random, form: Form, faults: Faults, len: usize) -> Damage {
    if faults.0 == 0 || !random.once_in(faults.0) {
        return Damage::None;
    }
    let bits = if form == Form::Short { 24 } else { 40 };
    match random.below(5) {
        0 => Damage::Header(1 << random.below(bits)),
        1 => Damage::HeaderCheck(1 << random.below(24)),
        2 => Damage::PayloadCheck(1 << random.below(32)),
        3 => Damage::Cut(random.below(len + 14)),
        // An unused bit, which is ignored.
        _ => Damage::Header(
            1 << (if form == Form::Short {
                18 + random.below(6)
            } else {
                35 + random.below(5)
            }),
        ),
    }
}

/// Envelopes whose joined length is at most that of a payload; the last bytes may be dropped, or some come behind.
fn payload(random: &mut Random, scale: Scale, faults: Faults) -> Vec<u8> {
    let mut out = vec![];
    for _ in 0..random.below(5) {
        let next = envelope(random, scale.body, faults);
        if out.len() + next.len() <= LARGEST {
            out.extend(next);
        }
    }
    if faults.0 != 0 && random.once_in(faults.0) {
        let n = random.below(12);
        out.extend(random.bytes(n));
    }
    out.truncate(LARGEST);
    out
}

/// Envelopes cut into payloads of a run, empty ones among them.
fn run(random: &mut Random, scale: Scale, faults: Faults) -> Vec<Vec<u8>> {
    let mut joined: Vec<u8> = (0..=random.below(3))
        .flat_map(|_| envelope(random, scale.body, faults))
        .collect();
    if faults.0 != 0 && random.once_in(faults.0) {
        joined.truncate(random.below(joined.len() + 1));
    }
    let mut out = vec![];
    while !joined.is_empty() {
        let n = match random.below(8) {
            0 => 0,
            1 => 1,
            2..=3 => random.below(12),
            4..=5 => random.below(joined.len() + 1),
            _ => joined.len(),
        };
        let behind = joined.split_off(n.min(joined.len()).min(LARGEST));
        out.push(std::mem::replace(&mut joined, behind));
    }
    out
}

fn part(
    random: &mut Random,
    form: Form,
    faults: Faults,
    self_contained: bool,
    payload: Vec<u8>,
) -> Part {
    let damage = damage(random, form, faults, payload.len());
    Part {
        self_contained,
        payload,
        damage,
    }
}

fn parts(random: &mut Random, form: Form, scale: Scale, faults: Faults) -> Vec<Part> {
    let mut out = vec![];
    while out.len() < scale.segments && !random.once_in(5) {
        if random.below(5) < 3 {
            let payload = payload(random, scale, faults);
            out.push(part(random, form, faults, true, payload));
        } else {
            for payload in run(random, scale, faults) {
                out.push(part(random, form, faults, false, payload));
            }
        }
    }
    out
}

/// An envelope with a full list, short ones before it and behind it, in one segment or, half of the time, in a run.
fn full_parts(random: &mut Random, form: Form, k: usize) -> Vec<Part> {
    let (good, short) = (
        Faults(0),
        Scale {
            segments: 1,
            body: 9,
        },
    );
    let mut joined = envelope(random, short.body, good);
    joined.extend(full_envelope(random, k));
    joined.extend(envelope(random, short.body, good));
    let mut out = parts(random, form, short, good);
    if k / 4 % 2 == 0 {
        out.push(part(random, form, good, true, joined));
    } else {
        let behind = joined.split_off(random.below(joined.len()));
        out.extend([joined, behind].map(|payload| part(random, form, good, false, payload)));
    }
    out.extend(parts(random, form, short, Faults(4)));
    out
}

/// Buffers that suffice, or, seldom, ones that are near the length of something in the stream.
fn sizes(random: &mut Random, parts: &[Part]) -> (usize, usize) {
    if parts.is_empty() || !random.once_in(20) {
        return SIZES;
    }
    let near = random.pick(parts).payload.len();
    (
        ((near + 8 + random.below(6)).clamp(12, SIZES.0)),
        (near + random.below(12)).clamp(9, SIZES.1),
    )
}

pub fn cuts(random: &mut Random, len: usize, ends: &[usize]) -> Vec<usize> {
    match random.below(6) {
        0 => vec![len],
        1 if len <= 3_000 => vec![1; len],
        2 => vec![random.below(len + 1)],
        3 => {
            let starts = [0].into_iter().chain(ends.iter().copied());
            starts.zip(ends).map(|(start, end)| end - start).collect()
        }
        4 => (0..random.below(40)).map(|_| random.below(8)).collect(),
        _ => (0..random.below(12))
            .map(|_| random.below(len / 3 + 2))
            .collect(),
    }
}

/// A stream of this scale in which something is wrong so often.
pub fn stream(random: &mut Random, scale: Scale, faults: Faults) -> Stream {
    let form = *random.pick(&[Form::Short, Form::Long]);
    let parts = parts(random, form, scale, faults);
    let sizes = sizes(random, &parts);
    cut(random, form, parts, sizes)
}

/// A stream with a list of warnings that is longer than the Rust reads.
pub fn full_stream(random: &mut Random, k: usize) -> Stream {
    let form = *random.pick(&[Form::Short, Form::Long]);
    let parts = full_parts(random, form, k);
    cut(random, form, parts, SIZES)
}

fn cut(random: &mut Random, form: Form, parts: Vec<Part>, sizes: (usize, usize)) -> Stream {
    let mut stream = Stream {
        form,
        parts,
        cuts: vec![],
        sizes,
    };
    let ends = stream.ends();
    stream.cuts = cuts(random, ends.last().copied().unwrap_or(0), &ends);
    stream
}
