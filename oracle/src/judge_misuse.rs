//! Calls of a segment writer in an order that the Rust does not provide for. This library does what the rules say of each, and the Rust what it was seen to do.
use crate::faults::{self, Fault};
use crate::judge_segments::{Both, UNTOUCHED};
use crate::judged::Form;
use crate::said::Outcome;
use crate::streams::{Damage, Part, Stream, LARGEST, SIZES};
use crate::tally::Tally;
use crate::theirs;

type Verdict = Result<(), String>;

/// The empty self-contained short segment (docs/RULES.md, 13.2).
const EMPTY: [u8; 10] = [0, 0, 2, 0x6a, 0x36, 0xc4, 0xd3, 0x7e, 0x77, 0x44];
/// Where a payload begins.
const HEADER: usize = 6;

/// Two writers to which the same was added.
fn with(payload: &[u8]) -> Result<Both, String> {
    let (mut both, n) = (Both::new(), payload.len());
    both.theirs.add(payload);
    if both.ours.add(&mut both.out, payload) == Ok((n, n)) && holds(&both, payload) {
        return Ok(both);
    }
    Err("segment writer: an envelope added".to_string())
}

/// Whether our writer has just this payload so far, and nothing else stands in its output.
fn holds(both: &Both, payload: &[u8]) -> bool {
    let (front, rest) = both.out.split_at(HEADER);
    let mut others = front.iter().chain(&rest[payload.len()..]);
    both.ours.payload == payload.len()
        && rest.starts_with(payload)
        && others.all(|b| *b == UNTOUCHED)
}

fn class(what: &'static str, ours: bool, rust: bool, tally: &mut Tally) -> Verdict {
    tally.outside("segment writer", what, || "-".to_string());
    if ours && rust {
        return Ok(());
    }
    let whose = if ours { "the Rust" } else { "this library" };
    Err(format!(
        "segment writer: {what}: {whose} does another thing"
    ))
}

/// Without debug assertions the Rust writes a header that says empty and self-contained, and all bytes behind it.
fn is_overfull(segment: Outcome<Vec<u8>>) -> bool {
    match segment {
        Outcome::Panicked => theirs::CHECKED,
        Outcome::Gave(segment) => {
            !theirs::CHECKED && segment[..3] == [0, 0, 2] && segment.len() == LARGEST + 11
        }
        Outcome::Refused(_) => false,
    }
}

fn too_much_added(tally: &mut Tally) -> Verdict {
    let (mut both, too_much) = (Both::new(), vec![0; LARGEST + 1]);
    both.theirs.add(&too_much);
    let refused = both.ours.add(&mut both.out, &too_much) == Err(16);
    both.ours.payload += faults::is(Fault::AddChanges) as usize;
    let (is_so, rust) = (
        refused && holds(&both, &[]),
        is_overfull(both.theirs.finish()),
    );
    class("131,072 bytes added, then finished", is_so, rust, tally)
}

fn piece_that_fits(tally: &mut Tally) -> Verdict {
    let mut both = with(b"A")?;
    let refused = both.ours.piece(&mut both.out, b"B") == Err(17);
    let joined = Stream {
        form: Form::Short,
        parts: vec![Part {
            self_contained: false,
            payload: b"AB".to_vec(),
            damage: Damage::None,
        }],
        cuts: vec![],
        sizes: SIZES,
    };
    let rust = both.theirs.piece(b"B") == Outcome::Gave((1, joined.bytes()));
    let is_so = refused && holds(&both, b"A");
    class("a byte added, then a piece that fits", is_so, rust, tally)
}

fn largest_piece(tally: &mut Tally) -> Verdict {
    let (mut both, piece) = (with(b"A")?, vec![0; LARGEST]);
    let refused = both.ours.piece(&mut both.out, &piece) == Err(17);
    let rust = is_overfull(match both.theirs.piece(&piece) {
        Outcome::Gave((_, segment)) => Outcome::Gave(segment),
        Outcome::Refused(number) => Outcome::Refused(number),
        Outcome::Panicked => Outcome::Panicked,
    });
    let is_so = refused && holds(&both, b"A");
    class("a byte added, then a piece of 131,071", is_so, rust, tally)
}

fn finished_twice(tally: &mut Tally) -> Verdict {
    let mut both = with(b"AB")?;
    let Outcome::Gave(first) = both.theirs.finish() else {
        return class("finished twice", true, false, tally);
    };
    let is_first = both.ours.finish(&mut both.out) == Ok((12, 0)) && both.out[..12] == first;
    let is_second = both.ours.finish(&mut both.out) == Ok((10, 0));
    both.out[9] ^= faults::is(Fault::SecondFinish) as u8;
    // Behind the second, which is shorter, the end of the first is left.
    let behind = [&first[10..], &vec![UNTOUCHED; both.out.len() - 12]].concat();
    let is_so = is_first
        && is_second
        && both.ours.payload == 0
        && both.out[..10] == EMPTY
        && both.out[10..] == behind;
    let rust = matches!(both.theirs.finish(), Outcome::Gave(again) if again.len() == first.len() + 4 && again[0] == 6);
    class("finished twice", is_so, rust, tally)
}

pub fn all(tally: &mut Tally) -> Verdict {
    too_much_added(tally)?;
    piece_that_fits(tally)?;
    largest_piece(tally)?;
    finished_twice(tally)
}
