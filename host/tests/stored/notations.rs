//! What the notations do, by the cases of `host/stored/notations`, whose README has their shapes.

use crate::say;
use crate::words::{self, decimal, hex_byte, integer};
use tanglegoose_host::judged::{self, Notation, Noted, Place, Walk, Written};

/// The longest list of strings with some bytes more, which is more than a list may have lengths.
const MOST: usize = 131_080;

fn bytes(word: &str) -> Option<Vec<u8>> {
    words::bytes(word, MOST)
}

fn output(word: &str) -> Option<Vec<u8>> {
    words::output(word, MOST)
}

fn kind(name: &str) -> Option<Notation> {
    Some(match name {
        "byte" => Notation::Byte,
        "short" => Notation::Short,
        "int" => Notation::Int,
        "long" => Notation::Long,
        "uuid" => Notation::Uuid,
        "shortbytes" => Notation::ShortBytes,
        "string" => Notation::String,
        "longstring" => Notation::LongString,
        "bytes" => Notation::Bytes,
        "list" => Notation::StringList,
        _ => return None,
    })
}

/// The sum of the bytes, by which two long texts are told apart.
fn sum(bytes: &[u8]) -> u64 {
    bytes.iter().map(|&b| u64::from(b)).sum::<u64>() % 0x1_0000_0000
}

fn value(kind: Notation, bits: u64) -> i64 {
    match kind {
        Notation::Int => i64::from(bits as u32 as i32),
        _ => bits as i64,
    }
}

fn read(kind: Notation, bytes: &[u8], at: usize) -> String {
    let (noted, next) = judged::notation(kind, bytes, at);
    match noted {
        Noted::Refused(number) => format!("refused {number}"),
        Noted::Value(bits) => format!("value {} next {next}", value(kind, bits)),
        Noted::Part(place) => {
            let Place { start, len } = place;
            let sum = sum(&judged::part(bytes, place));
            format!("part {start} {len} next {next} sum {sum}")
        }
        Noted::Null => format!("null next {next}"),
        Noted::List(walk) => {
            let Walk { left, at } = walk;
            let texts = say::walk(bytes, walk, say::place);
            format!("strings {left} from {at} next {next}{texts}")
        }
    }
}

fn walk(left: usize, at: usize, bytes: &[u8]) -> Option<String> {
    let left = u16::try_from(left).ok()?;
    let texts = say::walk(bytes, Walk { left, at }, say::place);
    Some(format!("walked{texts}"))
}

fn part(start: usize, len: usize, bytes: &[u8]) -> String {
    let part = judged::part(bytes, Place { start, len });
    format!("bytes {} sum {}", part.len(), sum(&part))
}

/// A bit for each second byte, four to a digit, the first of them highest.
fn pairs(first: u8) -> String {
    let bit = |second| judged::is_utf8(&[first, second]) as u8;
    let digit = |from: u8| (0..4).fold(0, |bits, k| 2 * bits + bit(from + k));
    let digits = (0..=255).step_by(4).map(digit);
    digits.map(|digit| format!("{digit:x}")).collect()
}

/// A number's lowest bits count, as its notation has them.
fn bits(kind: Notation, number: i128) -> Option<u64> {
    match kind {
        Notation::Byte => u8::try_from(number).map(u64::from).ok(),
        Notation::Short => u16::try_from(number).map(u64::from).ok(),
        Notation::Int => i32::try_from(number).map(|n| n as u64).ok(),
        _ => i64::try_from(number).map(|n| n as u64).ok(),
    }
}

/// A list is written from more words than these.
fn write(kind: Notation, out: &mut [u8], at: usize, word: &str) -> Option<Written> {
    match kind {
        Notation::Byte | Notation::Short | Notation::Int | Notation::Long => {
            let bits = bits(kind, integer(word)?)?;
            Some(judged::write_number(kind, out, at, bits))
        }
        Notation::StringList => None,
        Notation::Uuid if bytes(word)?.len() != 16 => None,
        _ => Some(judged::write_bytes(kind, out, at, &bytes(word)?)),
    }
}

fn hex(bytes: &[u8]) -> String {
    bytes.iter().map(|b| format!("{b:02x}")).collect()
}

/// What an output holds: all of it if it is short.
fn holds(out: &[u8]) -> String {
    match out.len() {
        0 => "holds -".to_string(),
        1..=40 => format!("holds {}", hex(out)),
        n => {
            let (first, last) = (hex(&out[..3]), hex(&out[n - 3..]));
            format!("sum {} first {first} last {last}", sum(out))
        }
    }
}

fn written(answer: Written, out: &[u8]) -> String {
    let holds = holds(out);
    match answer {
        Ok(next) => format!("next {next} {holds}"),
        Err(number) => format!("refused {number} {holds}"),
    }
}

fn answered(words: &[&str]) -> Option<String> {
    Some(match *words {
        ["pairs", first] => pairs(hex_byte(first)?),
        ["utf8", text] => say::yes_or_no(judged::is_utf8(&bytes(text)?)).to_string(),
        ["wnull", room, at] => {
            let mut out = output(room)?;
            written(judged::write_null(&mut out, decimal(at)?), &out)
        }
        ["walk", left, at, given] => walk(decimal(left)?, decimal(at)?, &bytes(given)?)?,
        ["place", start, len, given] => part(decimal(start)?, decimal(len)?, &bytes(given)?),
        ["wlist", room, at, text, lens] => {
            let (mut out, text, lens) = (output(room)?, bytes(text)?, words::lengths(lens, MOST)?);
            let answer = judged::write_list(&mut out, decimal(at)?, &text, &lens);
            written(answer, &out)
        }
        [name, at, given] => read(kind(name)?, &bytes(given)?, decimal(at)?),
        [name, room, at, word] => {
            let (kind, mut out) = (kind(name.strip_prefix('w')?)?, output(room)?);
            written(write(kind, &mut out, decimal(at)?, word)?, &out)
        }
        _ => return None,
    })
}

pub fn answer(words: &[&str], said: &mut String) -> Option<()> {
    *said += &answered(words)?;
    Some(())
}
