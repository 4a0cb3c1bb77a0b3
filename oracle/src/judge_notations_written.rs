//! The notations that the Rust gives access to, written.
use crate::judge_notations::{class, same};
use crate::judged::{self, Notation};
use crate::said::Outcome;
use crate::tally::Tally;
use crate::theirs;

/// What was written from the start of an output that is large enough, or the number of the refusal.
fn written(room: usize, write: impl FnOnce(&mut [u8]) -> judged::Written) -> Outcome<Vec<u8>> {
    let mut out = vec![0xee; room];
    match write(&mut out) {
        Ok(end) if out[end..].iter().all(|b| *b == 0xee) => Outcome::Gave(out[..end].to_vec()),
        Err(number) if out.iter().all(|b| *b == 0xee) => Outcome::Refused(number),
        _ => Outcome::Panicked,
    }
}

/// What stands behind a [short] count; past that the Rust's count loses its upper bits.
fn counted(
    what: &'static str,
    bytes: &[u8],
    ours: Outcome<Vec<u8>>,
    theirs: Vec<u8>,
    tally: &mut Tally,
) -> Result<(), String> {
    let theirs = Outcome::Gave(theirs);
    if bytes.len() <= 65_535 {
        return same(what, bytes, ours, theirs, tally);
    }
    let is_so = ours == Outcome::Refused(15) && theirs == Outcome::Gave(wrapped(bytes));
    class(
        what,
        "over 65,535 bytes",
        bytes,
        is_so,
        &ours,
        &theirs,
        tally,
    )
}

pub fn text(text: &str, tally: &mut Tally) -> Result<(), String> {
    let bytes = text.as_bytes();
    let ours = written(bytes.len() + 10, |out| {
        judged::write_bytes(Notation::String, out, 0, bytes)
    });
    counted(
        "[string] written",
        bytes,
        ours,
        theirs::write_string(text),
        tally,
    )
}

/// The count loses its upper bits, and all bytes follow.
fn wrapped(bytes: &[u8]) -> Vec<u8> {
    [&(bytes.len() as u16).to_be_bytes()[..], bytes].concat()
}

pub fn bytes(bytes: &[u8], tally: &mut Tally) -> Result<(), String> {
    let room = bytes.len() + 10;
    let part = |kind| written(room, |out| judged::write_bytes(kind, out, 0, bytes));
    let null = written(room, |out| judged::write_null(out, 0));
    let long = Outcome::Gave(theirs::write_bytes(Some(bytes)));
    same("[bytes] written", bytes, part(Notation::Bytes), long, tally)?;
    same(
        "null written",
        bytes,
        null,
        Outcome::Gave(theirs::write_bytes(None)),
        tally,
    )?;
    let theirs = theirs::write_short_bytes(bytes);
    counted(
        "[short bytes] written",
        bytes,
        part(Notation::ShortBytes),
        theirs,
        tally,
    )
}

pub fn numbers(bits: u64, tally: &mut Tally) -> Result<(), String> {
    let all = [
        (
            "[short] written",
            Notation::Short,
            theirs::write_short(bits as u16),
        ),
        (
            "[int] written",
            Notation::Int,
            theirs::write_int(bits as i32),
        ),
        (
            "[long] written",
            Notation::Long,
            theirs::write_long(bits as i64),
        ),
    ];
    for (what, kind, bytes) in all {
        let ours = written(20, |out| judged::write_number(kind, out, 0, bits));
        same(what, &bits.to_be_bytes(), ours, Outcome::Gave(bytes), tally)?;
    }
    Ok(())
}
