//! What the segment writer does, by the cases of `host/stored/segments`, whose README has their shapes.

use crate::say::{spelt, yes_or_no};
use crate::words::{self, decimal, filled};
use tanglegoose_host::judged::{self, Encoded, Encoder, Form, Head};

/// An envelope for three pieces, and the longest segment with some bytes more.
const MOST: usize = 262_200;
const MOST_ROOM: usize = 131_200;

fn bytes(word: &str) -> Option<Vec<u8>> {
    words::bytes(word, MOST)
}

fn output(word: &str) -> Option<Vec<u8>> {
    words::output(word, MOST_ROOM)
}

fn writer(encoder: &Encoder) -> String {
    let form = match encoder.form {
        Form::Short => "short",
        Form::Long => "long",
    };
    format!("{form} {}", encoder.payload)
}

/// What was answered, and the writer after it.
fn step(answer: Encoded, encoder: &Encoder) -> String {
    let writer = writer(encoder);
    match answer {
        Ok((size, taken)) => format!("wrote {size} {taken} {writer}"),
        Err(number) => format!("refused {number} {writer}"),
    }
}

/// A refusal does not end the case: it must change nothing.
fn pack(form: Form, out: &mut [u8], envelopes: &[&str], said: &mut String) -> Option<()> {
    let mut encoder = Encoder::new(form);
    for word in envelopes {
        let answer = encoder.add(out, &bytes(word)?);
        *said += &format!("{}; ", step(answer, &encoder));
    }
    let answer = encoder.finish(out);
    *said += &format!("{} holds {}", step(answer, &encoder), spelt(out));
    Some(())
}

/// A piece that takes nothing is the last one: of an empty envelope, or refused.
fn split(form: Form, room: usize, envelope: &[u8]) -> String {
    let (mut encoder, mut rest, mut said) = (Encoder::new(form), envelope, Vec::new());
    loop {
        let mut out = filled(room);
        let answer = encoder.piece(&mut out, rest);
        said.push(format!("{} holds {}", step(answer, &encoder), spelt(&out)));
        let taken = answer.map_or(0, |(_, taken)| taken);
        if taken == 0 || rest.len() <= taken {
            return said.join("; ");
        }
        rest = &rest[taken..];
    }
}

fn call(mut encoder: Encoder, out: &mut [u8], name: &str, given: &[u8]) -> Option<String> {
    let answer = match name {
        "add" => encoder.add(out, given),
        "finish" => encoder.finish(out),
        "piece" => encoder.piece(out, given),
        _ => return None,
    };
    Some(format!("{} holds {}", step(answer, &encoder), spelt(out)))
}

fn fits(mut encoder: Encoder, n: usize) -> String {
    let fits = yes_or_no(encoder.can_fit(n));
    let has = yes_or_no(encoder.has_envelopes());
    encoder.reset();
    format!("fits {fits} has {has} reset {}", writer(&encoder))
}

fn head(form: Form, bytes: &[u8]) -> String {
    match judged::read_header(form, bytes) {
        Head::Incomplete => "incomplete".to_string(),
        Head::Whole {
            payload,
            uncompressed,
            self_contained,
        } => {
            let alone = yes_or_no(self_contained);
            format!("whole {payload} {uncompressed} self-contained {alone}")
        }
        Head::Refused(number) => format!("refused {number}"),
    }
}

/// What a line says behind its words is ignored.
pub fn answer(words: &[&str], said: &mut String) -> Option<()> {
    let [name, form, ref rest @ ..] = *words else {
        return None;
    };
    let form = words::form(form)?;
    *said += &match (name, rest) {
        ("pack", [room, envelopes @ ..]) => {
            return pack(form, &mut output(room)?, envelopes, said);
        }
        ("split", [room, given, ..]) => split(form, output(room)?.len(), &bytes(given)?),
        ("call", [payload, room, name, given, ..]) => {
            let payload = decimal(payload)?;
            let (encoder, mut out) = (Encoder { form, payload }, output(room)?);
            call(encoder, &mut out, name, &bytes(given)?)?
        }
        ("fits", [payload, n, ..]) => {
            let payload = decimal(payload)?;
            fits(Encoder { form, payload }, decimal(n)?)
        }
        ("head", [given, ..]) => head(form, &bytes(given)?),
        _ => return None,
    };
    Some(())
}
