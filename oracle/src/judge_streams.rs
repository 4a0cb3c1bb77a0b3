//! Streams in pieces. This library is held to the rules at every call, and to the Rust up to where the stream leaves the part on which the two must agree;
//! there the Rust has to do what the class says.
use crate::faults::{self, Fault};
use crate::judge_envelopes::{rust_end, spoil};
use crate::judged::Form;
use crate::ours;
use crate::rules::Outside;
use crate::rules_of_streams::{story, Leaves, Story, GROWING};
use crate::said::{as_rust, envelopes, hex, refusal, Answer, Dated, Envelope, Outcome};
use crate::streams::{Stream, SIZES};
use crate::tally::Tally;
use crate::theirs;

/// A reader with the largest buffers, which are made once: a reader is proved not to depend on what they held.
pub struct Lent(ours::Stream);

impl Lent {
    pub fn new() -> Self {
        Lent(ours::Stream::new(Form::Short, SIZES.0, SIZES.1))
    }
}

/// The planted faults of a call.
fn spoil_call(form: Form, heard: &mut Vec<Dated>) {
    for (_, answer) in heard.iter_mut() {
        match answer {
            Answer::Envelope(envelope) => spoil_in_stream(envelope),
            Answer::Leftover(n) => *n += faults::is(Fault::LeftoverMore) as usize,
            Answer::Refused(_) => {}
        }
    }
    if faults::is(Fault::ThirdLost) && envelopes(heard).len() > 2 {
        heard.remove(2);
    }
    if faults::is(Fault::LongCheckUntested) && form == Form::Long && refusal(heard) == Some(5) {
        heard.pop();
    }
    if faults::is(Fault::BehindManyLost) {
        let is_many = |(_, answer): &Dated| matches!(answer, Answer::Envelope(e) if e.warnings.len() > 32_767);
        let end = heard
            .iter()
            .position(is_many)
            .map_or(heard.len(), |k| k + 1);
        heard.truncate(end);
    }
    spoil_refusing(heard);
}

fn spoil_in_stream(envelope: &mut Envelope) {
    spoil(envelope);
    if faults::is(Fault::ManyInStream) && envelope.warnings.len() > 32_767 {
        envelope.warnings.pop();
    }
    if faults::is(Fault::LongInStream) {
        let is_long = |text: &&mut Vec<u8>| text.len() > 32_767;
        envelope
            .warnings
            .iter_mut()
            .filter(is_long)
            .for_each(|text| text.truncate(32_767));
    }
}

/// Faults in a call that ends in a refusal.
fn spoil_refusing(heard: &mut Vec<Dated>) {
    let Some(number) = refusal(heard) else {
        return;
    };
    let last = heard.len() - 1;
    if faults::is(Fault::EarlyCheck) && number == 5 {
        heard[last].0 -= 1;
    }
    let Some((_, Answer::Envelope(before))) = heard[..last].last_mut() else {
        return;
    };
    if faults::is(Fault::BeforePanic) && number == 11 {
        before.stream ^= 1;
    }
    if faults::is(Fault::BeforeError) && number == 10
        || faults::is(Fault::BeforeRoom) && number == 7
    {
        heard.remove(last - 1);
    }
}

/// The same pieces, but one ends where the stream leaves the part on which the two must agree.
fn pieces_to<'a>(stream: &Stream, bytes: &'a [u8], leaves: Option<Leaves>) -> Vec<&'a [u8]> {
    let (mut at, mut out) = (0, vec![]);
    for piece in stream.pieces(bytes) {
        match leaves {
            Some(Leaves { due, .. }) if at < due && due < at + piece.len() => {
                let (before, behind) = piece.split_at(due - at);
                out.extend([before, behind]);
            }
            _ => out.push(piece),
        }
        at += piece.len();
    }
    out
}

/// Whether the Rust does what it was seen to do, in a call that comes to the end of a stream that leaves there.
fn is_rust_by_class(
    form: Form,
    stream: &[u8],
    from: usize,
    theirs: &Outcome<Vec<Envelope>>,
) -> bool {
    // Its buffers grow, so only what envelopes and compression are to it tells what it does.
    let grown = story(form, stream, GROWING);
    let due = grown.due(from, stream.len());
    match grown.leaves.map(|leaves| (leaves.why, leaves.head)) {
        None => *theirs == as_rust(due),
        // It waits for more.
        Some((Outside::Compressed | Outside::LengthFarBelowZero, _)) => {
            *theirs == Outcome::Gave(envelopes(due))
        }
        Some((why, head)) => theirs.end() == rust_end(why, &head),
    }
}

pub fn judge(stream: &Stream, lent: &mut Lent, tally: &mut Tally) -> Result<(), String> {
    let mut own;
    let reader = if stream.sizes == SIZES {
        &mut lent.0
    } else {
        own = ours::Stream::new(stream.form, stream.sizes.0, stream.sizes.1);
        &mut own
    };
    reader.restart(stream.form);
    let bytes = stream.bytes();
    let trial = Trial {
        stream,
        bytes: &bytes,
        story: story(stream.form, &bytes, stream.sizes),
        reader,
        decoder: Some(theirs::Decoder::new(stream.form)),
        tally,
    };
    trial.run()
}

/// A stream that is given to both.
struct Trial<'a> {
    stream: &'a Stream,
    bytes: &'a [u8],
    story: Story,
    reader: &'a mut ours::Stream,
    /// The Rust, up to where the stream leaves.
    decoder: Option<theirs::Decoder>,
    tally: &'a mut Tally,
}

fn told(stream: &Stream, bytes: &[u8]) -> String {
    format!(
        "{:?} {:?} cut {:?} {}",
        stream.form,
        stream.sizes,
        &stream.cuts[..stream.cuts.len().min(60)],
        hex(bytes)
    )
}

impl Trial<'_> {
    fn told(&self) -> String {
        told(self.stream, self.bytes)
    }

    fn run(mut self) -> Result<(), String> {
        self.tally.compared("streams");
        let mut at = 0;
        for piece in pieces_to(self.stream, self.bytes, self.story.leaves) {
            let mut ours = self.reader.feed(piece);
            spoil_call(self.stream.form, &mut ours);
            self.by_rules(at, piece, &ours)?;
            self.by_rust(at, piece, &ours)?;
            at += piece.len();
            if let Some(number) = refusal(&ours) {
                return self.stops(number, &ours);
            }
        }
        self.held()
    }

    /// Everything that this library answered in a call is what the rules say, after so many bytes of the stream.
    fn by_rules(&mut self, from: usize, piece: &[u8], ours: &[Dated]) -> Result<(), String> {
        self.tally.compared("pieces of streams, by the rules");
        let due = self.story.due(from, from + piece.len());
        if ours == due {
            return Ok(());
        }
        Err(format!(
            "a stream\n  {}\n  after {} bytes\n  ours {ours:?}\n  by the rules {due:?}",
            self.told(),
            from + piece.len()
        ))
    }

    fn by_rust(&mut self, from: usize, piece: &[u8], ours: &[Dated]) -> Result<(), String> {
        let Some(decoder) = &mut self.decoder else {
            return Ok(());
        };
        let (theirs, at) = (decoder.feed(piece), from + piece.len());
        self.tally.compared("pieces of streams, by the Rust");
        let leaves = self.story.leaves.filter(|leaves| at >= leaves.due);
        let is_so = if let Some(leaves) = leaves {
            self.tally
                .outside("stream", leaves.name(), || told(self.stream, self.bytes));
            self.decoder = None;
            is_rust_by_class(self.stream.form, &self.bytes[..at], from, &theirs)
        } else {
            self.tally
                .add("envelopes of streams", envelopes(ours).len());
            theirs == as_rust(ours)
        };
        if is_so {
            return Ok(());
        }
        Err(format!(
            "a stream\n  {}\n  after {at} bytes\n  ours {ours:?}\n  Rust {theirs:?}\n  outside: {leaves:?}",
            self.told()
        ))
    }

    /// A reader that refused repeats it and takes nothing.
    fn stops(&mut self, number: u8, ours: &[Dated]) -> Result<(), String> {
        if self.decoder.is_some() {
            self.tally.refused("streams", number);
        }
        self.tally.compared("calls after a refusal");
        let mut again = self.reader.feed(&[0]);
        if faults::is(Fault::GoesOn) && number == 2 {
            again.clear();
        }
        if again[..] == ours[ours.len() - 1..] && self.reader.held() == 0 {
            return Ok(());
        }
        Err(format!(
            "a call after a refusal\n  {}\n  ours {again:?}",
            self.told()
        ))
    }

    fn held(&mut self) -> Result<(), String> {
        self.tally.compared("bytes held at the end of a stream");
        let theirs = self.decoder.as_ref().map(|decoder| decoder.held());
        let spoilt = faults::is(Fault::HeldBehindMany) && theirs.is_none();
        let ours = self.reader.held() + spoilt as usize;
        if ours == self.story.held && theirs.unwrap_or(ours) == ours {
            return Ok(());
        }
        Err(format!(
            "bytes held\n  {}\n  ours {ours}\n  Rust {theirs:?}\n  by the rules {}",
            self.told(),
            self.story.held
        ))
    }
}
