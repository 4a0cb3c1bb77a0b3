//! This library, in the words of both.
use crate::judged::{self, Form, Parsed as Read, Reader, Reading, Walked};
use crate::said::{Answer, Dated, Envelope, Outcome, Parsed};

/// The texts of a list, each by the call that steps through it.
fn texts(bytes: &[u8], from: judged::Walk) -> Vec<Vec<u8>> {
    let (mut walk, mut out) = (from, vec![]);
    loop {
        match judged::next_string(bytes, walk) {
            Walked::Text(place, rest) => {
                out.push(judged::part(bytes, place));
                walk = rest;
            }
            Walked::End(_) => return out,
            // No text is this long: a walk over what was read is not refused, so this shows as a difference.
            Walked::Refused(number) => return vec![vec![number; 70_000]],
        }
    }
}

/// The reading and its parts, from the envelope's own bytes.
fn plain(bytes: &[u8], reading: &Reading) -> Envelope {
    Envelope {
        version: reading.version,
        is_response: reading.is_response,
        flags: reading.flags,
        stream: reading.stream,
        opcode: reading.opcode,
        id: reading.tracing_id(bytes).try_into().ok(),
        warnings: texts(bytes, reading.warnings),
        body: reading.body(bytes),
    }
}

pub fn parse(bytes: &[u8]) -> Parsed {
    match judged::parse(bytes) {
        Read::Incomplete => Outcome::Gave(None),
        Read::Whole(reading) => {
            let own = &bytes[..reading.size.min(bytes.len())];
            Outcome::Gave(Some((reading.size, plain(own, &reading))))
        }
        Read::Refused(number) => Outcome::Refused(number),
    }
}

pub fn size(bytes: &[u8]) -> Outcome<usize> {
    match judged::size(bytes) {
        n if n < 0 => Outcome::Refused(-n as u8),
        n => Outcome::Gave(n as usize),
    }
}

pub fn string_list(bytes: &[u8]) -> Outcome<(Vec<Vec<u8>>, usize)> {
    match judged::notation(judged::Notation::StringList, bytes, 0) {
        (judged::Noted::List(walk), next) => Outcome::Gave((texts(bytes, walk), next)),
        (judged::Noted::Refused(number), _) => Outcome::Refused(number),
        _ => Outcome::Panicked,
    }
}

/// The reader, the buffers that it is lent, and how many bytes of the stream it took.
pub struct Stream {
    reader: Reader,
    segment: Vec<u8>,
    reassembly: Vec<u8>,
    taken: usize,
}

impl Stream {
    pub fn new(form: Form, segment_len: usize, reassembly_len: usize) -> Self {
        Stream {
            reader: Reader::new(form, segment_len, reassembly_len),
            segment: vec![0xee; segment_len],
            reassembly: vec![0xee; reassembly_len],
            taken: 0,
        }
    }

    /// Begins anew, over buffers that keep what they hold.
    pub fn restart(&mut self, form: Form) {
        self.reader = Reader::new(form, self.segment.len(), self.reassembly.len());
        self.taken = 0;
    }

    pub fn held(&self) -> usize {
        self.reader.held()
    }

    /// One answer to what is left of the piece, and how many bytes of it were taken; none for *more*.
    fn call(&mut self, rest: &[u8]) -> (Option<Answer>, usize) {
        let call = self
            .reader
            .read(&mut self.segment, &mut self.reassembly, rest);
        let answer = match call.answer {
            judged::Answer::Envelope(which, place, reading) => {
                let bytes = judged::stream_part(which, &self.segment, &self.reassembly, place);
                Some(Answer::Envelope(plain(&bytes, &reading)))
            }
            judged::Answer::Leftover(n) => Some(Answer::Leftover(n)),
            judged::Answer::Refused(number) => Some(Answer::Refused(number)),
            judged::Answer::More => None,
        };
        (answer, call.taken)
    }

    /// Calls with what is left of the piece until *more* or a refusal comes, and tells all answers but *more*.
    pub fn feed(&mut self, piece: &[u8]) -> Vec<Dated> {
        let (mut heard, mut start) = (vec![], 0);
        for _ in 0..=self.reader.held() + piece.len() {
            let (answer, taken) = self.call(&piece[start..]);
            start += taken;
            if start > piece.len() {
                break;
            }
            self.taken += taken;
            match answer {
                Some(Answer::Refused(number)) => {
                    heard.push((self.taken, Answer::Refused(number)));
                    return heard;
                }
                Some(answer) => heard.push((self.taken, answer)),
                None if start == piece.len() => return heard,
                None => break,
            }
        }
        // Too much taken, too little, or no end of answers: a refusal that there is not shows as a difference.
        heard.push((self.taken, Answer::Refused(u8::MAX)));
        heard
    }
}
