//! The words of an answer.

use tanglegoose_host::judged::{self, Place, Reading, Walk, Walked};

fn run(bytes: &[u8]) -> String {
    match bytes.len() {
        1 => format!("{:02x}", bytes[0]),
        n => format!("{:02x}*{n}", bytes[0]),
    }
}

/// Bytes as a case spells them.
pub fn spelt(bytes: &[u8]) -> String {
    if bytes.is_empty() {
        return "-".to_string();
    }
    let runs: Vec<String> = bytes.chunk_by(|a, b| a == b).map(run).collect();
    runs.join(",")
}

pub fn yes_or_no(is_so: bool) -> &'static str {
    if is_so {
        "yes"
    } else {
        "no"
    }
}

pub fn place(place: Place) -> String {
    format!("{}+{}", place.start, place.len)
}

/// What an envelope's header says, but for the body's length.
pub fn header(envelope: &Reading) -> String {
    format!(
        "{} {} {:02x} {} {:02x}",
        envelope.version,
        if envelope.is_response { "rsp" } else { "req" },
        envelope.flags,
        envelope.stream,
        envelope.opcode
    )
}

/// The texts of a walk by the call that steps through it, the first 20 and that there are more, and how it ended. No walk has more than 65,535 texts, so the
/// turns suffice.
pub fn walk(bytes: &[u8], from: Walk, show: impl Fn(Place) -> String) -> String {
    let (mut said, mut at) = (String::new(), from);
    for met in 0..65_536 {
        match judged::next_string(bytes, at) {
            Walked::Text(place, rest) => {
                match met {
                    0..=19 => said += &format!(" {}", show(place)),
                    20 => said += " ...",
                    _ => {}
                }
                at = rest;
            }
            Walked::End(next) => return format!("{said} end {next}"),
            Walked::Refused(number) => return format!("{said} refused {number}"),
        }
    }
    said
}
