//! The notations that the Rust gives access to, read. Its [short] is signed; the other counts are compared where they are below 32,768.
use crate::faults::{self, Fault};
use crate::judged::{self, Notation, Noted};
use crate::rules::{self, Outside};
use crate::said::{hex, Outcome};
use crate::tally::Tally;
use crate::{ours, theirs};
use std::fmt::Debug;

fn number(kind: Notation, bytes: &[u8]) -> Outcome<(u64, usize)> {
    match judged::notation(kind, bytes, 0) {
        (Noted::Value(bits), next) => Outcome::Gave((bits, next)),
        (Noted::Refused(number), _) => Outcome::Refused(number),
        _ => Outcome::Panicked,
    }
}

pub fn part(kind: Notation, bytes: &[u8]) -> Outcome<(Option<Vec<u8>>, usize)> {
    match judged::notation(kind, bytes, 0) {
        (Noted::Null, next) if faults::is(Fault::NullEmpty) => Outcome::Gave((Some(vec![]), next)),
        (Noted::Null, next) => Outcome::Gave((None, next)),
        (Noted::Part(place), next) => Outcome::Gave((Some(judged::part(bytes, place)), next)),
        (Noted::Refused(number), _) => Outcome::Refused(number),
        _ => Outcome::Panicked,
    }
}

fn mapped<T, U>(outcome: Outcome<(T, usize)>, change: impl FnOnce(T) -> U) -> Outcome<(U, usize)> {
    match outcome {
        Outcome::Gave((value, next)) => Outcome::Gave((change(value), next)),
        Outcome::Refused(number) => Outcome::Refused(number),
        Outcome::Panicked => Outcome::Panicked,
    }
}

pub fn same<T: PartialEq + Debug>(
    what: &'static str,
    bytes: &[u8],
    ours: Outcome<T>,
    theirs: Outcome<T>,
    tally: &mut Tally,
) -> Result<(), String> {
    tally.compared(what);
    // This library panics nowhere: here that is an answer of another kind than was asked for.
    if ours != theirs || ours == Outcome::Panicked {
        return Err(format!(
            "{what}\n  bytes {}\n  ours {ours:?}\n  Rust {theirs:?}",
            hex(bytes)
        ));
    }
    if let Outcome::Refused(number) = ours {
        tally.refused(what, number);
    }
    Ok(())
}

/// This library's answer is what the rules say, in a class or in none.
fn by_rules<T: PartialEq + Debug>(
    what: &'static str,
    bytes: &[u8],
    ours: &Outcome<T>,
    due: Outcome<T>,
) -> Result<(), String> {
    if *ours == due {
        return Ok(());
    }
    Err(format!(
        "{what}\n  bytes {}\n  ours {ours:?}\n  by the rules {due:?}",
        hex(bytes)
    ))
}

/// A difference that a class tells: the Rust's answer is what it says, and so is this library's.
pub fn class<T: Debug>(
    what: &'static str,
    class: &str,
    bytes: &[u8],
    is_so: bool,
    ours: &T,
    theirs: &T,
    tally: &mut Tally,
) -> Result<(), String> {
    tally.outside(what, class, || hex(bytes));
    if is_so {
        return Ok(());
    }
    Err(format!(
        "{what}, outside: {class}\n  bytes {}\n  ours {ours:?}\n  Rust {theirs:?}",
        hex(bytes)
    ))
}

pub fn numbers(bytes: &[u8], tally: &mut Tally) -> Result<(), String> {
    let all = [
        (
            "[short] read",
            Notation::Short,
            mapped(theirs::short(bytes), |x| x as u16 as u64),
        ),
        (
            "[int] read",
            Notation::Int,
            mapped(theirs::int(bytes), |x| x as u32 as u64),
        ),
        (
            "[long] read",
            Notation::Long,
            mapped(theirs::long(bytes), |x| x as u64),
        ),
    ];
    for (what, kind, theirs) in all {
        same(what, bytes, number(kind, bytes), theirs, tally)?;
    }
    Ok(())
}

fn our_list(bytes: &[u8]) -> Outcome<(Vec<Vec<u8>>, usize)> {
    let mut ours = ours::string_list(bytes);
    if let Outcome::Gave((texts, next)) = &mut ours {
        *next += (faults::is(Fault::ListEndsLater) && texts.len() == 3) as usize;
        if faults::is(Fault::ManyOfList) && texts.len() > 32_767 {
            texts.pop();
        }
    }
    ours
}

pub fn list(bytes: &[u8], tally: &mut Tally) -> Result<(), String> {
    let what = "[string list] read";
    let (ours, theirs) = (our_list(bytes), theirs::string_list(bytes));
    let (due, outside) = rules::string_list(bytes);
    let is_whole = due.is_ok();
    by_rules(what, bytes, &ours, due.into())?;
    match outside {
        None | Some(Outside::CountCutShort) => same(what, bytes, ours, theirs, tally),
        Some(why) => {
            let (name, is_so) = (
                rules::class_name(why, is_whole),
                theirs == Outcome::Panicked,
            );
            class(what, &name, bytes, is_so, &ours, &theirs, tally)
        }
    }
}

pub fn bytes(bytes: &[u8], tally: &mut Tally) -> Result<(), String> {
    same(
        "[bytes] read",
        bytes,
        part(Notation::Bytes, bytes),
        theirs::bytes(bytes),
        tally,
    )
}

fn our_short_bytes(bytes: &[u8]) -> Outcome<(Option<Vec<u8>>, usize)> {
    let mut ours = part(Notation::ShortBytes, bytes);
    if let Outcome::Gave((Some(part), _)) = &mut ours {
        if faults::is(Fault::LongShortBytes) && part.len() > 32_767 {
            part.pop();
        }
    }
    ours
}

pub fn short_bytes(bytes: &[u8], tally: &mut Tally) -> Result<(), String> {
    let what = "[short bytes] read";
    let (ours, theirs) = (our_short_bytes(bytes), theirs::short_bytes(bytes));
    let due = rules::short_bytes(bytes).map(|(part, next)| (Some(part), next));
    by_rules(what, bytes, &ours, due.clone().into())?;
    if bytes.len() < 2 || bytes[0] < 0x80 {
        return same(what, bytes, ours, theirs, tally);
    }
    let name = if due.is_ok() {
        "32,768 or more, whole"
    } else {
        "32,768 or more"
    };
    let is_so = theirs == Outcome::Gave((None, 2));
    class(what, name, bytes, is_so, &ours, &theirs, tally)
}

fn our_long_string(bytes: &[u8]) -> Outcome<(Vec<u8>, usize)> {
    let ours = mapped(part(Notation::LongString, bytes), |text| {
        text.unwrap_or_default()
    });
    match ours {
        Outcome::Gave((text, _)) if faults::is(Fault::LongStringShort) && text.len() == 3 => {
            Outcome::Refused(12)
        }
        Outcome::Refused(12) if faults::is(Fault::LongStringBelow) && bytes.len() > 3 => {
            Outcome::Refused(8)
        }
        ours => ours,
    }
}

/// The Rust reads it within a QUERY, so behind one that is there stands what a QUERY needs there. Behind one that is not there nothing stands: it would be
/// taken for its end.
fn their_long_string(bytes: &[u8], due: &rules::Noted<Vec<u8>>) -> Outcome<(Vec<u8>, usize)> {
    let (end, behind) = match due {
        Ok((_, end)) => (*end, &theirs::AFTER_QUERY[..]),
        Err(13) => (bytes.len(), &theirs::AFTER_QUERY[..]),
        Err(_) => (bytes.len(), &[][..]),
    };
    match theirs::long_string(&[&bytes[..end], behind].concat()) {
        Outcome::Gave(text) => Outcome::Gave((text, end)),
        Outcome::Refused(number) => Outcome::Refused(number),
        Outcome::Panicked => Outcome::Panicked,
    }
}

pub fn long_string(bytes: &[u8], tally: &mut Tally) -> Result<(), String> {
    let what = "[long string] read";
    let (ours, due) = (our_long_string(bytes), rules::long_string(bytes));
    let theirs = their_long_string(bytes, &due);
    by_rules(what, bytes, &ours, due.clone().into())?;
    let name = match due {
        Err(8) => "below zero",
        Err(12) if bytes.len() > 3 => "TextPastEnd",
        _ => return same(what, bytes, ours, theirs, tally),
    };
    let is_so = theirs == Outcome::Panicked;
    class(what, name, bytes, is_so, &ours, &theirs, tally)
}
