//! Both answers to one input, for a person.
use crate::judge_notations;
use crate::judged::{Form, Notation};
use crate::{ours, rules_of_streams, theirs};
use std::fmt::Debug;

fn unhex(words: &[&str]) -> Result<Vec<u8>, String> {
    let byte = |word: &&str| u8::from_str_radix(word, 16).map_err(|_| format!("{word} is no byte"));
    words.iter().map(byte).collect()
}

fn both(ours: impl Debug, theirs: impl Debug) {
    println!("ours {ours:?}\nRust {theirs:?}");
}

fn stream(form: Form, bytes: &[u8], sizes: (usize, usize)) {
    let mut reader = ours::Stream::new(form, sizes.0, sizes.1);
    both(reader.feed(bytes), theirs::Decoder::new(form).feed(bytes));
    let story = rules_of_streams::story(form, bytes, sizes);
    println!("by the rules {:?}", story.due(0, bytes.len()));
    println!("outside: {:?}", story.leaves.map(|leaves| leaves.name()));
}

/// A kind of input and its bytes, in hexadecimal with blanks between.
pub fn ask(kind: &str, words: &[&str]) -> Result<(), String> {
    let bytes = &unhex(words)?[..];
    match kind {
        "envelope" => both(ours::parse(bytes), theirs::parse(bytes)),
        "size" => both(ours::size(bytes), theirs::size(bytes)),
        "list" => both(ours::string_list(bytes), theirs::string_list(bytes)),
        "bytes" => both(judge_notations::part(Notation::Bytes, bytes), theirs::bytes(bytes)),
        "shortbytes" => both(judge_notations::part(Notation::ShortBytes, bytes), theirs::short_bytes(bytes)),
        "longstring" => both(judge_notations::part(Notation::LongString, bytes), theirs::long_string(bytes)),
        "short" => stream(Form::Short, bytes, crate::streams::SIZES),
        "long" => stream(Form::Long, bytes, crate::streams::SIZES),
        "small" => stream(Form::Short, bytes, (20, 9)),
        _ => return Err(format!("{kind} is none of envelope, size, list, bytes, shortbytes, longstring, short, long and small")),
    }
    Ok(())
}
