//! The words of a case and what they stand for; nothing where a word doesn't stand for such a thing.

use tanglegoose_host::judged::Form;

pub fn decimal(word: &str) -> Option<usize> {
    let is_number = word.bytes().all(|b| b.is_ascii_digit());
    word.parse().ok().filter(|_| is_number)
}

/// Wide enough for every number of 64 bits, with a sign or without.
pub fn integer(word: &str) -> Option<i128> {
    match word.strip_prefix('-') {
        Some(size) => decimal(size).filter(|&n| 0 < n).map(|n| -(n as i128)),
        None => decimal(word).map(|n| n as i128),
    }
}

pub fn hex_byte(word: &str) -> Option<u8> {
    let is_digit = |b| matches!(b, b'0'..=b'9' | b'a'..=b'f');
    let is_byte = word.len() == 2 && word.bytes().all(is_digit);
    u8::from_str_radix(word, 16).ok().filter(|_| is_byte)
}

/// The items that a word names, each so often as stands behind its star, but no more than `most` in all.
fn items<T: Clone>(word: &str, most: usize, item: fn(&str) -> Option<T>) -> Option<Vec<T>> {
    let mut all = Vec::new();
    if word == "-" {
        return Some(all);
    }
    for each in word.split(',') {
        let (name, times) = each.split_once('*').unwrap_or((each, "1"));
        let (value, n) = (item(name)?, decimal(times)?);
        if most - all.len() < n {
            return None;
        }
        all.resize(all.len() + n, value);
    }
    Some(all)
}

pub fn bytes(word: &str, most: usize) -> Option<Vec<u8>> {
    items(word, most, hex_byte)
}

pub fn lengths(word: &str, most: usize) -> Option<Vec<usize>> {
    items(word, most, decimal)
}

/// Bytes that are filled with one value before they are written in, so that every change shows.
pub fn filled(len: usize) -> Vec<u8> {
    vec![0xee; len]
}

/// An output of as many bytes as the word says.
pub fn output(word: &str, most: usize) -> Option<Vec<u8>> {
    decimal(word).filter(|&room| room <= most).map(filled)
}

pub fn form(word: &str) -> Option<Form> {
    match word {
        "short" => Some(Form::Short),
        "long" => Some(Form::Long),
        _ => None,
    }
}
