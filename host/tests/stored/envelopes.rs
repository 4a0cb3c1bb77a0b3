//! What the envelopes do, by the cases of `host/stored/envelopes`, whose README has their shapes.

use crate::say::{self, spelt};
use crate::words::{self, decimal, hex_byte, integer};
use tanglegoose_host::judged::{self, Header, Parsed, Reading};

/// The longest list of warnings in an envelope, with some bytes more.
const MOST: usize = 131_200;
const LONGEST_ID: usize = 64;
const WARNING: u8 = 0x08;

fn bytes(word: &str) -> Option<Vec<u8>> {
    words::bytes(word, MOST)
}

/// Where warnings begin is fixed only where the flag says that there is a list of them.
fn warnings(bytes: &[u8], envelope: &Reading) -> String {
    let walk = envelope.warnings;
    if envelope.flags & WARNING == 0 {
        return format!("{}", walk.left);
    }
    let texts = say::walk(bytes, walk, |place| spelt(&judged::part(bytes, place)));
    format!("{} from {}{texts}", walk.left, walk.at)
}

/// An envelope, and its parts as these bytes hold them.
fn whole(bytes: &[u8], envelope: &Reading) -> String {
    format!(
        "whole {} {} id {} warnings {} body {} {}",
        envelope.size,
        say::header(envelope),
        spelt(&envelope.tracing_id(bytes)),
        warnings(bytes, envelope),
        say::place(envelope.body),
        spelt(&envelope.body(bytes))
    )
}

/// The parts are asked of the first bytes only.
fn read(bytes: &[u8], view: usize) -> String {
    match judged::parse(bytes) {
        Parsed::Incomplete => "incomplete".to_string(),
        Parsed::Whole(envelope) => whole(&bytes[..view.min(bytes.len())], &envelope),
        Parsed::Refused(number) => format!("refused {number}"),
    }
}

fn is_response(word: &str) -> Option<bool> {
    match word {
        "req" => Some(false),
        "rsp" => Some(true),
        _ => None,
    }
}

fn header(words: [&str; 5]) -> Option<Header> {
    let [version, direction, flags, stream, opcode] = words;
    Some(Header {
        version: u8::try_from(decimal(version)?).ok()?,
        is_response: is_response(direction)?,
        flags: hex_byte(flags)?,
        stream: i16::try_from(integer(stream)?).ok()?,
        opcode: hex_byte(opcode)?,
    })
}

fn write(out: &mut [u8], header: Header, words: [&str; 4]) -> Option<String> {
    let [id, text, lens, body] = words;
    let (id, lens) = (words::bytes(id, LONGEST_ID)?, words::lengths(lens, MOST)?);
    let answer = judged::write_envelope(out, header, &id, &bytes(text)?, &lens, &bytes(body)?);
    let holds = spelt(out);
    Some(match answer {
        Ok(n) => format!("wrote {n} holds {holds}"),
        Err(number) => format!("refused {number} holds {holds}"),
    })
}

fn answered(words: &[&str]) -> Option<String> {
    Some(match *words {
        ["size", given] => judged::size(&bytes(given)?).to_string(),
        ["read", given] => read(&bytes(given)?, MOST),
        ["parts", view, given] => read(&bytes(given)?, decimal(view)?),
        ["write", room, version, direction, flags, stream, opcode, id, text, lens, body] => {
            let header = header([version, direction, flags, stream, opcode])?;
            let mut out = words::output(room, MOST)?;
            write(&mut out, header, [id, text, lens, body])?
        }
        _ => return None,
    })
}

pub fn answer(words: &[&str], said: &mut String) -> Option<()> {
    *said += &answered(words)?;
    Some(())
}
