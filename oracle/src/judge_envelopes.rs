//! Single envelopes: the whole reading, and the size check.
use crate::faults::{self, Fault};
use crate::rules::{self, Outside};
use crate::said::{hex, End, Envelope, Outcome, Parsed};
use crate::tally::Tally;
use crate::theirs::CHECKED;
use crate::{ours, theirs};

/// The planted faults of a reading.
pub fn spoil(envelope: &mut Envelope) {
    if faults::is(Fault::StreamNumber) && envelope.version == 4 {
        envelope.stream = envelope.stream.wrapping_add(1);
    }
    if faults::is(Fault::LastOfSeven) && envelope.body.len() == 7 {
        envelope.body.pop();
    }
    if faults::is(Fault::WarningsExchanged) && envelope.warnings.len() == 2 {
        envelope.warnings.swap(0, 1);
    }
}

fn our_parse(bytes: &[u8]) -> Parsed {
    let mut answer = ours::parse(bytes);
    if let Outcome::Gave(Some((_, envelope))) = &mut answer {
        spoil(envelope);
        if faults::is(Fault::ManyOfEnvelope) && envelope.warnings.len() > 32_767 {
            envelope.warnings.pop();
        }
        if faults::is(Fault::BodyBehindLong) && envelope.warnings.iter().any(|w| w.len() > 32_767) {
            envelope.body.clear();
        }
    }
    if faults::is(Fault::OpcodeAsVersion) && answer == Outcome::Refused(10) {
        return Outcome::Refused(9);
    }
    answer
}

fn our_size(bytes: &[u8]) -> Outcome<usize> {
    match ours::size(bytes) {
        Outcome::Gave(n) if faults::is(Fault::SizeMore) && n > 0 && bytes[0] & 0x7f == 3 => {
            Outcome::Gave(n + 1)
        }
        answer => answer,
    }
}

/// How the Rust ends where an envelope at the front of these bytes is outside in this way.
pub fn rust_end(why: Outside, bytes: &[u8]) -> End {
    match why {
        // Without overflow checks the length comes out below nine: version and opcode are looked at before a slice panics.
        Outside::LengthBelowZero if !CHECKED && !rules::is_version(bytes[0]) => End::Refused(9),
        Outside::LengthBelowZero if !CHECKED && !rules::is_opcode(bytes[4]) => End::Refused(10),
        // It waits for more bytes than there can be.
        Outside::LengthFarBelowZero => End::Gave,
        Outside::CountCutShort => End::Refused(12),
        _ => End::Panicked,
    }
}

/// Whether the Rust does what it was seen to do where an envelope is outside in this way.
fn is_rust_by_class(why: Outside, bytes: &[u8], theirs: &Parsed) -> bool {
    theirs.end() == rust_end(why, bytes)
        && (why != Outside::LengthFarBelowZero || *theirs == Outcome::Gave(None))
}

/// This library is held to the rules, whatever the input; the Rust to this library, or to what its class says.
pub fn parse(bytes: &[u8], tally: &mut Tally) -> Result<(), String> {
    let (ours, theirs, front) = (our_parse(bytes), theirs::parse(bytes), rules::front(bytes));
    tally.compared("envelopes read");
    let agree = match front.outside {
        None => ours == theirs,
        Some(why) => {
            let class = rules::class_name(why, front.is_whole());
            tally.outside("envelope", class, || hex(bytes));
            is_rust_by_class(why, bytes, &theirs)
        }
    };
    if let (None, Outcome::Refused(number)) = (front.outside, &ours) {
        tally.refused("envelopes read", *number);
    }
    if agree && ours == front.due {
        return Ok(());
    }
    Err(format!("an envelope read\n  bytes {}\n  ours  {ours:?}\n  Rust  {theirs:?}\n  by the rules {front:?}", hex(bytes)))
}

/// The Rust's answer where the length is below zero.
fn rust_size(why: Outside, bytes: &[u8]) -> Outcome<usize> {
    match why {
        Outside::LengthFarBelowZero => Outcome::Gave(0),
        _ if CHECKED => Outcome::Panicked,
        _ if rules::is_version(bytes[0]) => Outcome::Gave((9 + rules::declared(bytes)) as usize),
        _ => Outcome::Refused(9),
    }
}

pub fn size(bytes: &[u8], tally: &mut Tally) -> Result<(), String> {
    let (ours, theirs, front) = (our_size(bytes), theirs::size(bytes), rules::front(bytes));
    tally.compared("size checks");
    let agree = match front.outside {
        Some(why @ (Outside::LengthBelowZero | Outside::LengthFarBelowZero)) => {
            tally.outside("size check", format!("{why:?}"), || hex(bytes));
            theirs == rust_size(why, bytes)
        }
        _ => ours == theirs,
    };
    if let (true, Outcome::Refused(number)) = (ours == theirs, &ours) {
        tally.refused("size checks", *number);
    }
    if agree && ours == rules::size(bytes).into() {
        return Ok(());
    }
    Err(format!(
        "a size check\n  bytes {}\n  ours  {ours:?}\n  Rust  {theirs:?}",
        hex(bytes)
    ))
}
