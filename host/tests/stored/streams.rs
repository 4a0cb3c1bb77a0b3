//! What the stream reader does, by the cases of `host/stored/streams`, whose README has their shapes.

use crate::say::{self, spelt, yes_or_no};
use crate::words::{self, decimal, filled};
use tanglegoose_host::judged::{
    self, crc32, Answer, Buffer, Form, Heard, Phase, Place, Reader, Reading,
};

/// The most that a word may stand for.
const MOST: usize = 131_200;
const MOST_LENGTHS: usize = 2_048;

/// One byte more than each range has, so that its end can be passed.
const SEGMENT_ROOM: usize = 131_084;
const REASSEMBLY_ROOM: usize = 1_048_577;

/// So many calls are enough for any piece here: the largest payload has 14,563 envelopes.
const MOST_CALLS: usize = 100_000;

/// What a case goes on with from one operation to the next.
struct Scene {
    reader: Reader,
    segment: Vec<u8>,
    reassembly: Vec<u8>,
    /// How much of both the next call is lent.
    segment_len: usize,
    reassembly_len: usize,
}

fn bytes(word: &str) -> Option<Vec<u8>> {
    words::bytes(word, MOST)
}

/// The whole reading (4.11).
fn reading(envelope: &Reading) -> String {
    format!(
        "size {} {} traced {} warnings {} from {} body {}",
        envelope.size,
        say::header(envelope),
        yes_or_no(envelope.traced),
        envelope.warnings.left,
        envelope.warnings.at,
        say::place(envelope.body)
    )
}

/// Where the envelope stands, its reading, and the bytes handed back for its place.
fn envelope(
    buffer: Buffer,
    place: Place,
    envelope: &Reading,
    segment: &[u8],
    reassembly: &[u8],
) -> String {
    let part = judged::stream_part(buffer, segment, reassembly, place);
    let name = match buffer {
        Buffer::Segment => "segment",
        Buffer::Reassembly => "reassembly",
    };
    let (place, reading) = (say::place(place), reading(envelope));
    let (len, check) = (part.len(), crc32(&part));
    format!("{name} {place} {reading} part {len} {check:08x}")
}

fn answered(answer: &Answer, segment: &[u8], reassembly: &[u8]) -> String {
    match answer {
        Answer::Envelope(buffer, place, read) => {
            envelope(*buffer, *place, read, segment, reassembly)
        }
        Answer::Leftover(n) => format!("leftover {n}"),
        Answer::More => "more".to_string(),
        Answer::Refused(number) => format!("refused {number}"),
    }
}

/// A phase, in the words by which a case forges it.
fn phase(phase: Phase) -> String {
    match phase {
        Phase::Header { filled } => format!("header {filled}"),
        Phase::Rest {
            filled,
            len,
            self_contained,
        } => {
            let name = if self_contained { "alone" } else { "rest" };
            format!("{name} {filled} {len}")
        }
        Phase::InSegment { len, at } => format!("payload {len} {at}"),
        Phase::InReassembly { at } => format!("joined {at}"),
        Phase::Stopped(number) => format!("stopped {number}"),
    }
}

/// The answer, the bytes taken, the reader after it, and one check over both buffers.
fn step(heard: &Heard, reader: &Reader, segment: &[u8], reassembly: &[u8]) -> String {
    format!(
        "{} took {} {} pending {} held {} check {:08x}; ",
        answered(&heard.answer, segment, reassembly),
        heard.taken,
        phase(reader.phase),
        reader.pending,
        reader.held(),
        crc32(&[segment, reassembly].concat())
    )
}

/// Calls with what is left of the piece until more or a refusal comes, but at most so often.
fn use_up(
    reader: &mut Reader,
    segment: &mut [u8],
    reassembly: &mut [u8],
    piece: &[u8],
    most: usize,
) -> String {
    let (mut rest, mut said) = (piece, String::new());
    for _ in 0..most {
        let heard = reader.read(segment, reassembly, rest);
        said += &step(&heard, reader, segment, reassembly);
        if let Answer::More | Answer::Refused(_) = heard.answer {
            break;
        }
        let Some(behind) = rest.get(heard.taken..) else {
            said += "took too much; ";
            break;
        };
        rest = behind;
    }
    said
}

/// Puts some bytes into a buffer at a place; where they don't fit it is no case.
fn put(buffer: &mut [u8], at: usize, bytes: &[u8]) -> Option<()> {
    let place = buffer.get_mut(at..)?.get_mut(..bytes.len())?;
    place.copy_from_slice(bytes);
    Some(())
}

impl Scene {
    /// A fresh reader, lent the lengths that it was made for.
    fn new(form: Form, segment_len: usize, reassembly_len: usize) -> Self {
        Scene {
            reader: Reader::new(form, segment_len, reassembly_len),
            segment: filled(SEGMENT_ROOM),
            reassembly: filled(REASSEMBLY_ROOM),
            segment_len,
            reassembly_len,
        }
    }

    /// The bytes are cut into pieces of these lengths, and each is used up. Only the front of each buffer is lent; where it is not so long it is no case.
    fn read(&mut self, bytes: &[u8], lengths: &[usize], most: usize) -> Option<String> {
        let segment = self.segment.get_mut(..self.segment_len)?;
        let reassembly = self.reassembly.get_mut(..self.reassembly_len)?;
        let (mut unread, mut said) = (bytes, String::new());
        for &len in lengths {
            let (piece, behind) = unread.split_at(len.min(unread.len()));
            said += &use_up(&mut self.reader, segment, reassembly, piece, most);
            unread = behind;
        }
        let (segment, reassembly) = (spelt(segment), spelt(reassembly));
        Some(format!("{said}holds {segment} {reassembly}; "))
    }

    fn lend(&mut self, segment_len: usize, reassembly_len: usize) {
        self.segment_len = segment_len;
        self.reassembly_len = reassembly_len;
    }

    /// A state by hand. A phase that says nothing of the pending bytes keeps their number.
    fn forge(&mut self, name: &str, a: usize, b: usize) -> Option<()> {
        let kept = self.reader.pending;
        let (phase, pending) = match name {
            "header" => (Phase::Header { filled: a }, b),
            "rest" | "alone" => {
                let self_contained = name == "alone";
                let (filled, len) = (a, b);
                let phase = Phase::Rest {
                    filled,
                    len,
                    self_contained,
                };
                (phase, kept)
            }
            "payload" => (Phase::InSegment { len: a, at: b }, kept),
            "joined" => (Phase::InReassembly { at: a }, b),
            "stopped" => (Phase::Stopped(u8::try_from(a).ok()?), b),
            _ => return None,
        };
        (self.reader.phase, self.reader.pending) = (phase, pending);
        Some(())
    }

    fn act(&mut self, operation: [&str; 3], said: &mut String) -> Option<()> {
        let [name, first, second] = operation;
        match name {
            "read" => {
                let (lengths, given) = (words::lengths(first, MOST_LENGTHS)?, bytes(second)?);
                *said += &self.read(&given, &lengths, MOST_CALLS)?;
            }
            "call" => {
                let (most, given) = (decimal(first)?, bytes(second)?);
                *said += &self.read(&given, &[given.len()], most)?;
            }
            "segment" => put(&mut self.segment, decimal(first)?, &bytes(second)?)?,
            "reassembly" => put(&mut self.reassembly, decimal(first)?, &bytes(second)?)?,
            "lend" => self.lend(decimal(first)?, decimal(second)?),
            _ => self.forge(name, decimal(first)?, decimal(second)?)?,
        }
        Some(())
    }
}

pub fn answer(words: &[&str], said: &mut String) -> Option<()> {
    let [form, segment_len, reassembly_len, ref operations @ ..] = *words else {
        return None;
    };
    let form = words::form(form)?;
    let mut scene = Scene::new(form, decimal(segment_len)?, decimal(reassembly_len)?);
    for operation in operations.chunks(3) {
        scene.act(operation.try_into().ok()?, said)?;
    }
    *said += "end";
    Some(())
}
