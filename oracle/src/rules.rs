//! What an input is by the rules (docs/RULES.md), read off its bytes once and plainly, without either side: the value or refusal that is due, and what stands
//! there that is outside the part on which the two must agree.
use crate::said::{Envelope, Outcome, Parsed};

/// Why an input is outside the part on which the two must agree.
#[derive(Clone, Copy, Debug, PartialEq, Eq, PartialOrd, Ord)]
pub enum Outside {
    /// A body length from -9 to -1.
    LengthBelowZero,
    /// A body length of -10 or less.
    LengthFarBelowZero,
    IdCutShort,
    CountCutShort,
    TextPastEnd,
    /// A list with 32,768 strings or more.
    ManyStrings,
    /// A string of 32,768 bytes or more, by its count.
    LongString,
    Compressed,
    SegmentTooLong,
    ReassemblyTooShort,
}

/// The name of a class: two of them can be whole all the same, which is a class of its own.
pub fn class_name(why: Outside, is_whole: bool) -> String {
    format!("{why:?}{}", if is_whole { ", whole" } else { "" })
}

/// What is due of the front of some bytes, and the first thing there that is outside.
#[derive(Clone, Debug, PartialEq, Eq)]
pub struct Front {
    pub due: Parsed,
    pub outside: Option<Outside>,
}

impl Front {
    pub fn is_whole(&self) -> bool {
        matches!(self.due, Outcome::Gave(Some(_)))
    }
}

/// A value and where it ends, or the number of the refusal.
pub type Noted<T> = Result<(T, usize), u8>;

const OPCODES: [u8; 16] = [0, 1, 2, 3, 5, 6, 7, 8, 9, 10, 11, 12, 13, 14, 15, 16];

pub fn declared(bytes: &[u8]) -> i32 {
    i32::from_be_bytes([bytes[5], bytes[6], bytes[7], bytes[8]])
}

pub fn is_version(byte: u8) -> bool {
    (3..=5).contains(&(byte & 0x7f))
}

pub fn is_opcode(byte: u8) -> bool {
    OPCODES.contains(&byte)
}

fn count(bytes: &[u8], at: usize) -> Option<usize> {
    Some(u16::from_be_bytes([*bytes.get(at)?, *bytes.get(at + 1)?]) as usize)
}

fn text(bytes: &[u8]) -> Result<Vec<u8>, u8> {
    std::str::from_utf8(bytes).map_or(Err(13), |text| Ok(text.as_bytes().to_vec()))
}

/// A string at a place, and the first thing of it that is outside.
fn string(bytes: &[u8], at: usize) -> (Noted<Vec<u8>>, Option<Outside>) {
    let Some(len) = count(bytes, at) else {
        return (Err(12), Some(Outside::CountCutShort));
    };
    let outside = (len > 32_767).then_some(Outside::LongString);
    let end = at + 2 + len;
    match bytes.get(at + 2..end) {
        None => (Err(12), outside.or(Some(Outside::TextPastEnd))),
        Some(part) => (text(part).map(|text| (text, end)), outside),
    }
}

/// A list of strings at the front, and the first thing of it that is outside.
pub fn string_list(bytes: &[u8]) -> (Noted<Vec<Vec<u8>>>, Option<Outside>) {
    let Some(n) = count(bytes, 0) else {
        return (Err(12), Some(Outside::CountCutShort));
    };
    let mut outside = (n > 32_767).then_some(Outside::ManyStrings);
    let (mut texts, mut at) = (vec![], 2);
    for _ in 0..n {
        let (read, why) = string(bytes, at);
        outside = outside.or(why);
        match read {
            Err(number) => return (Err(number), outside),
            Ok((text, end)) => {
                texts.push(text);
                at = end;
            }
        }
    }
    (Ok((texts, at)), outside)
}

pub fn short_bytes(bytes: &[u8]) -> Noted<Vec<u8>> {
    let n = count(bytes, 0).ok_or(12)?;
    let part = bytes.get(2..2 + n).ok_or(12)?;
    Ok((part.to_vec(), 2 + n))
}

pub fn long_string(bytes: &[u8]) -> Noted<Vec<u8>> {
    let count: [u8; 4] = bytes.get(..4).ok_or(12)?.try_into().unwrap_or_default();
    let n = usize::try_from(i32::from_be_bytes(count)).map_err(|_| 8)?;
    let part = bytes.get(4..4 + n).ok_or(12)?;
    Ok((text(part)?, 4 + n))
}

/// The whole length of an envelope at the front, and 0 where it is not complete.
pub fn size(bytes: &[u8]) -> Result<usize, u8> {
    if bytes.len() < 9 {
        return Ok(0);
    }
    let whole = 9 + usize::try_from(declared(bytes)).map_err(|_| 8)?;
    if bytes.len() < whole {
        return Ok(0);
    }
    if is_version(bytes[0]) {
        Ok(whole)
    } else {
        Err(9)
    }
}

fn below_zero(bytes: &[u8]) -> Outside {
    if declared(bytes) < -9 {
        Outside::LengthFarBelowZero
    } else {
        Outside::LengthBelowZero
    }
}

/// An envelope at the front of the bytes.
pub fn front(bytes: &[u8]) -> Front {
    let (due, outside) = match size(bytes) {
        Ok(0) => (Ok(None), None),
        Ok(whole) => {
            let (read, outside) = envelope(&bytes[..whole]);
            (read.map(|envelope| Some((whole, envelope))), outside)
        }
        Err(number) => (Err(number), (number == 8).then(|| below_zero(bytes))),
    };
    Front {
        due: due.into(),
        outside,
    }
}

/// The envelope that these bytes are, whose length and version are good.
fn envelope(bytes: &[u8]) -> (Result<Envelope, u8>, Option<Outside>) {
    let (is_response, flags, mut body) = (bytes[0] > 127, bytes[1] & 0x1f, &bytes[9..]);
    if !is_opcode(bytes[4]) {
        return (Err(10), None);
    }
    let mut id = None;
    if is_response && flags & 2 != 0 {
        let Some(part) = body.get(..16) else {
            return (Err(11), Some(Outside::IdCutShort));
        };
        id = part.try_into().ok();
        body = &body[16..];
    }
    let (list, outside) = if flags & 8 != 0 {
        string_list(body)
    } else {
        (Ok((vec![], 0)), None)
    };
    let whole = |(warnings, end): (Vec<Vec<u8>>, usize)| Envelope {
        version: bytes[0] & 0x7f,
        is_response,
        flags,
        stream: i16::from_be_bytes([bytes[2], bytes[3]]),
        opcode: bytes[4],
        id,
        warnings,
        body: body[end..].to_vec(),
    };
    (list.map(whole), outside)
}
