//! What a stream says by the rules, read off the whole of it without either side: each answer and after how many bytes it is due, and where the stream
//! leaves the part on which the two must agree.
use crate::judged::Form;
use crate::rules::{class_name, front, Outside};
use crate::said::{Answer, Dated, Outcome};

/// The first thing of a stream that is outside: after how many bytes it is due, whether it stands in a run of segments, and, if it is an envelope, whether it
/// is whole, and its first bytes.
#[derive(Clone, Copy, Debug, PartialEq, Eq)]
pub struct Leaves {
    pub due: usize,
    pub why: Outside,
    in_run: bool,
    is_whole: bool,
    pub head: [u8; 9],
}

impl Leaves {
    pub fn name(&self) -> String {
        let in_run = if self.in_run { " in a run" } else { "" };
        class_name(self.why, self.is_whole) + in_run
    }
}

/// All answers in order, the bytes held at the end, and where the stream leaves, if it does.
#[derive(Default)]
pub struct Story {
    answers: Vec<Dated>,
    pub held: usize,
    pub leaves: Option<Leaves>,
}

impl Story {
    /// The answers that are due when the stream has come so far, and were not due when it had come only to `from`.
    pub fn due(&self, from: usize, to: usize) -> &[Dated] {
        let until = |end: usize| self.answers.partition_point(|(due, _)| *due <= end);
        &self.answers[until(from)..until(to)]
    }
}

/// Buffers that grow as they have to, as the Rust's do.
pub const GROWING: (usize, usize) = (usize::MAX, usize::MAX);

/// What a stream says to a reader with buffers of these sizes.
pub fn story(form: Form, stream: &[u8], sizes: (usize, usize)) -> Story {
    let mut walk = Walk {
        form,
        stream,
        sizes,
        at: 0,
        pending: vec![],
        story: Story::default(),
    };
    while walk.segment().is_some() {}
    walk.story
}

struct Walk<'a> {
    form: Form,
    stream: &'a [u8],
    sizes: (usize, usize),
    at: usize,
    pending: Vec<u8>,
    story: Story,
}

fn little(bytes: &[u8]) -> u64 {
    bytes.iter().rev().fold(0, |x, b| x << 8 | *b as u64)
}

// What returns nothing here ends the walk.
impl Walk<'_> {
    fn say(&mut self, answer: Answer) {
        self.story.answers.push((self.at, answer));
    }

    fn refuse<T>(&mut self, number: u8) -> Option<T> {
        self.say(Answer::Refused(number));
        None
    }

    fn leave(&mut self, why: Outside, in_run: bool) {
        let leaves = Leaves {
            due: self.at,
            why,
            in_run,
            is_whole: false,
            head: [0; 9],
        };
        self.story.leaves.get_or_insert(leaves);
    }

    /// Goes on by so many bytes and hands them back, if they are there; otherwise all that is there is held, with what is pending.
    fn take(&mut self, len: usize, already: usize) -> Option<Vec<u8>> {
        let rest = &self.stream[self.at..];
        if rest.len() < len {
            self.story.held = already + rest.len() + self.pending.len();
            return None;
        }
        self.at += len;
        Some(rest[..len].to_vec())
    }

    // The checks are the Rust's own: what they are worth is compared elsewhere.
    fn segment(&mut self) -> Option<()> {
        let (number_len, flag) = if self.form == Form::Short {
            (3, 17)
        } else {
            (5, 34)
        };
        let header = self.take(number_len + 3, 0)?;
        if crate::theirs::crc24(&header[..number_len]) as u64 != little(&header[number_len..]) {
            return self.refuse(2);
        }
        let number = little(&header[..number_len]);
        if self.form == Form::Long && number >> 17 & 0x1ffff != 0 {
            self.leave(Outside::Compressed, false);
            return self.refuse(3);
        }
        let len = (number & 0x1ffff) as usize;
        if header.len() + len + 4 > self.sizes.0 {
            self.leave(Outside::SegmentTooLong, false);
            return self.refuse(4);
        }
        let mut payload = self.take(len + 4, header.len())?;
        let check = payload.split_off(len);
        if crate::theirs::crc32(&payload) as u64 != little(&check) {
            return self.refuse(5);
        }
        if number >> flag & 1 == 1 {
            self.self_contained(&payload)
        } else {
            self.part_of_run(payload)
        }
    }

    fn self_contained(&mut self, payload: &[u8]) -> Option<()> {
        if !self.pending.is_empty() {
            return self.refuse(6);
        }
        let left = payload.len() - self.envelopes(payload, false)?;
        if left > 0 {
            self.say(Answer::Leftover(left));
        }
        Some(())
    }

    fn part_of_run(&mut self, payload: Vec<u8>) -> Option<()> {
        if self.pending.len() + payload.len() > self.sizes.1 {
            self.leave(Outside::ReassemblyTooShort, true);
            return self.refuse(7);
        }
        let mut joined = std::mem::take(&mut self.pending);
        joined.extend(payload);
        let read = self.envelopes(&joined, true)?;
        self.pending = joined.split_off(read);
        Some(())
    }

    /// How many bytes are read as envelopes.
    fn envelopes(&mut self, bytes: &[u8], in_run: bool) -> Option<usize> {
        let mut at = 0;
        loop {
            let front = front(&bytes[at..]);
            if let Some(why) = front.outside {
                let leaves = Leaves {
                    due: self.at,
                    why,
                    in_run,
                    is_whole: front.is_whole(),
                    head: bytes[at..at + 9].try_into().unwrap_or_default(),
                };
                self.story.leaves.get_or_insert(leaves);
            }
            match front.due {
                Outcome::Gave(Some((n, envelope))) => {
                    self.say(Answer::Envelope(envelope));
                    at += n;
                }
                Outcome::Refused(number) => return self.refuse(number),
                _ => return Some(at),
            }
        }
    }
}
