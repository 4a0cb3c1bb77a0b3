//! What both sides say, in the same words.

/// An envelope with everything that was read of it.
#[derive(Clone, Debug, PartialEq, Eq)]
pub struct Envelope {
    pub version: u8,
    pub is_response: bool,
    pub flags: u8,
    pub stream: i16,
    pub opcode: u8,
    pub id: Option<[u8; 16]>,
    pub warnings: Vec<Vec<u8>>,
    pub body: Vec<u8>,
}

/// How a call ended. An error of the Rust stands as the number of the refusal that has its meaning, and 0 where there is none.
#[derive(Clone, Debug, PartialEq, Eq)]
pub enum Outcome<T> {
    Gave(T),
    Refused(u8),
    Panicked,
}

/// An outcome without what was given.
#[derive(Clone, Copy, Debug, PartialEq, Eq)]
pub enum End {
    Gave,
    Refused(u8),
    Panicked,
}

impl<T> Outcome<T> {
    pub fn end(&self) -> End {
        match self {
            Outcome::Gave(_) => End::Gave,
            Outcome::Refused(number) => End::Refused(*number),
            Outcome::Panicked => End::Panicked,
        }
    }
}

impl<T> From<Result<T, u8>> for Outcome<T> {
    fn from(result: Result<T, u8>) -> Self {
        result.map_or_else(Outcome::Refused, Outcome::Gave)
    }
}

/// What stands at the front of some bytes: an envelope and its whole length, or nothing whole yet.
pub type Parsed = Outcome<Option<(usize, Envelope)>>;

/// An answer to the reader of a stream, *more* aside.
#[derive(Clone, Debug, PartialEq, Eq)]
pub enum Answer {
    Envelope(Envelope),
    Leftover(usize),
    Refused(u8),
}

/// An answer, and how many bytes of the stream were taken up to it.
pub type Dated = (usize, Answer);

pub fn envelopes(answers: &[Dated]) -> Vec<Envelope> {
    let envelope = |(_, answer): &Dated| match answer {
        Answer::Envelope(envelope) => Some(envelope.clone()),
        _ => None,
    };
    answers.iter().filter_map(envelope).collect()
}

/// The refusal that ends these answers.
pub fn refusal(answers: &[Dated]) -> Option<u8> {
    match answers.last() {
        Some((_, Answer::Refused(number))) => Some(*number),
        _ => None,
    }
}

/// What the Rust says where these answers are due: it loses the envelopes of a call that errs.
pub fn as_rust(answers: &[Dated]) -> Outcome<Vec<Envelope>> {
    refusal(answers).map_or_else(|| Outcome::Gave(envelopes(answers)), Outcome::Refused)
}

/// A report for a person, whose lines are cut where they are very long.
pub fn cut(report: &str) -> String {
    let cut = |line: &str| match line.char_indices().nth(2_000) {
        Some((end, _)) => format!("{} .. {} characters in all", &line[..end], line.len()),
        None => line.to_string(),
    };
    report.lines().map(cut).collect::<Vec<_>>().join("\n")
}

pub fn hex(bytes: &[u8]) -> String {
    if bytes.is_empty() {
        return "-".to_string();
    }
    let shown: Vec<String> = bytes.iter().take(400).map(|b| format!("{b:02x}")).collect();
    let more = if bytes.len() > 400 {
        format!(" .. {} in all", bytes.len())
    } else {
        String::new()
    };
    shown.join(" ") + &more
}
