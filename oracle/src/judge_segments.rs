//! Short segments, packed and split.
use crate::faults::{self, Fault};
use crate::judged::{Encoder, Form};
use crate::said::{hex, Outcome};
use crate::streams::LARGEST;
use crate::tally::Tally;
use crate::theirs;

/// What an output holds where nothing is written.
pub const UNTOUCHED: u8 = 0xee;

/// A writer of each side, fresh, and the output that ours is lent.
pub struct Both {
    pub ours: Encoder,
    pub out: Vec<u8>,
    pub theirs: theirs::Encoder,
}

impl Both {
    pub fn new() -> Self {
        Both {
            ours: Encoder::new(Form::Short),
            out: vec![UNTOUCHED; LARGEST + 20],
            theirs: theirs::Encoder::default(),
        }
    }

    /// Offers an envelope to both. Whether both take it, or both find that it does not fit.
    fn offer(&mut self, envelope: &[u8], tally: &mut Tally) -> bool {
        let (n, so_far, fits) = (
            envelope.len(),
            self.ours.payload,
            self.theirs.can_fit(envelope.len()),
        );
        let is_told = self.ours.can_fit(n) == fits;
        let added = self.ours.add(&mut self.out, envelope);
        let is_done = if fits {
            self.theirs.add(envelope);
            added == Ok((n, n)) && self.ours.payload == so_far + n
        } else {
            tally.refused("segments packed", 16);
            added == Err(16) && self.ours.payload == so_far
        };
        is_told && is_done && self.ours.has_envelopes() == self.theirs.has_envelopes()
    }

    /// Whether both finish with the same segment, and ours leaves all behind it and a fresh writer.
    fn finish(&mut self) -> bool {
        match (self.ours.finish(&mut self.out), self.theirs.finish()) {
            (Ok((n, 0)), Outcome::Gave(segment)) => {
                self.ours == Encoder::new(Form::Short)
                    && self.out[..n] == segment
                    && self.out[n..].iter().all(|b| *b == UNTOUCHED)
            }
            _ => false,
        }
    }
}

/// Envelopes that are added while they fit, and then the segment.
pub fn pack(envelopes: &[Vec<u8>], tally: &mut Tally) -> Result<(), String> {
    tally.compared("segments packed");
    let mut both = Both::new();
    let all_alike = envelopes.iter().all(|one| both.offer(one, tally));
    if all_alike && both.finish() {
        return Ok(());
    }
    let what = if all_alike {
        "a segment packed"
    } else {
        "an envelope added"
    };
    let given: Vec<String> = envelopes.iter().map(|one| hex(one)).collect();
    Err(format!(
        "{what}\n  {}\n  our output {}",
        given.join(" | "),
        hex(&both.out)
    ))
}

/// How many bytes a piece took, and the segment, behind which nothing changed.
fn our_piece(ours: &mut Encoder, out: &mut [u8], rest: &[u8]) -> Outcome<(usize, Vec<u8>)> {
    match ours.piece(out, rest) {
        Ok((n, mut taken)) => {
            out[n] ^= faults::is(Fault::BehindPiece) as u8;
            taken -= (faults::is(Fault::PieceLess) && taken == LARGEST) as usize;
            if out[n..].iter().any(|b| *b != UNTOUCHED) {
                return Outcome::Panicked;
            }
            Outcome::Gave((taken, out[..n].to_vec()))
        }
        Err(number) => Outcome::Refused(number),
    }
}

/// An envelope in pieces, each a segment.
pub fn split(envelope: &[u8], tally: &mut Tally) -> Result<(), String> {
    let (mut ours, mut theirs, mut start) =
        (Encoder::new(Form::Short), theirs::Encoder::default(), 0);
    loop {
        let (rest, mut out) = (&envelope[start..], vec![UNTOUCHED; LARGEST + 20]);
        tally.compared("pieces written");
        let written = our_piece(&mut ours, &mut out, rest);
        let theirs_said = theirs.piece(rest);
        theirs.reset();
        match (written, theirs_said) {
            (Outcome::Gave(a), Outcome::Gave(b)) if a == b => start += a.0,
            (a, b) => {
                return Err(format!(
                    "a piece\n  {}\n  ours {:?}\n  Rust {:?}",
                    hex(rest),
                    a.end(),
                    b.end()
                ))
            }
        }
        if start >= envelope.len() {
            return Ok(());
        }
    }
}
