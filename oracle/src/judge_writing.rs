//! Envelopes written.
use crate::envelopes::good_text;
use crate::faults::{self, Fault};
use crate::judged::{self, Header};
use crate::random::Random;
use crate::said::{hex, Outcome};
use crate::tally::Tally;
use crate::{judge_envelopes, theirs};

/// The fields that both sides can be given.
#[derive(Clone, Debug)]
pub struct Fields {
    pub header: Header,
    pub id: Option<[u8; 16]>,
    pub warnings: Vec<String>,
    pub body: Vec<u8>,
}

/// Fields of every kind; what is not needed is there too, now and then.
pub fn fields(random: &mut Random, longest: usize) -> Fields {
    let header = Header {
        version: *random.pick(&[3, 4, 5]),
        is_response: random.below(3) != 0,
        flags: if random.once_in(12) {
            random.byte()
        } else {
            random.byte() & 0x1f
        },
        stream: random.next() as i16,
        opcode: *random.pick(&[0, 1, 2, 3, 5, 6, 7, 8, 9, 10, 11, 12, 13, 14, 15, 16]),
    };
    let id = (!random.once_in(6)).then(|| random.bytes(16).try_into().unwrap_or_default());
    let texts = if random.once_in(3) {
        0
    } else {
        random.below(4)
    };
    let warnings = (0..texts)
        .map(|_| String::from_utf8(good_text(random)).unwrap_or_default())
        .collect();
    let n = if random.once_in(40) {
        random.below(longest + 1)
    } else {
        random.below(60)
    };
    Fields {
        header,
        id,
        warnings,
        body: random.bytes(n),
    }
}

pub fn simpler_fields(fields: &Fields) -> Vec<Fields> {
    let mut out: Vec<Fields> = crate::smallest::simpler_bytes(&fields.body)
        .into_iter()
        .map(|body| Fields {
            body,
            ..fields.clone()
        })
        .collect();
    for k in 0..fields.warnings.len() {
        let mut warnings = fields.warnings.clone();
        warnings.remove(k);
        out.push(Fields {
            warnings,
            ..fields.clone()
        });
    }
    let header = Header {
        stream: 0,
        ..fields.header
    };
    if header != fields.header {
        out.push(Fields {
            header,
            ..fields.clone()
        });
    }
    out
}

fn ours(fields: &Fields) -> Outcome<Vec<u8>> {
    let text: Vec<u8> = fields.warnings.iter().flat_map(|w| w.bytes()).collect();
    let lens: Vec<usize> = fields.warnings.iter().map(|w| w.len()).collect();
    let mut out = vec![0xee; fields.body.len() + text.len() + 2 * lens.len() + 40];
    let id = fields.id.map_or(vec![], |id| id.to_vec());
    match judged::write_envelope(&mut out, fields.header, &id, &text, &lens, &fields.body) {
        Ok(end) if out[end..].iter().all(|b| *b == 0xee) => {
            out.truncate(end);
            Outcome::Gave(out)
        }
        Err(number) if out.iter().all(|b| *b == 0xee) => Outcome::Refused(number),
        _ => Outcome::Panicked,
    }
}

/// The planted faults of what is written.
fn spoil(fields: &Fields, ours: &mut Outcome<Vec<u8>>) {
    let flags = fields.header.flags;
    match ours {
        Outcome::Gave(out) if faults::is(Fault::CompressionWritten) => out[1] |= flags & 1,
        Outcome::Gave(_) if faults::is(Fault::LargestBody) && fields.body.len() == 268_435_456 => {
            *ours = Outcome::Refused(15)
        }
        Outcome::Refused(15) if faults::is(Fault::HighFlagsWritten) && flags > 0x1f => {
            *ours = rust_writes(fields)
        }
        _ => {}
    }
}

/// Why the rules refuse fields that the Rust writes.
fn class(fields: &Fields) -> Option<&'static str> {
    let Header {
        is_response, flags, ..
    } = fields.header;
    if flags > 0x1f {
        return Some("flags above 1f");
    }
    if !is_response && flags & 8 != 0 {
        return Some("request with 08");
    }
    if is_response
        && flags & 8 != 0
        && (fields.warnings.len() > 65_535 || fields.warnings.iter().any(|w| w.len() > 65_535))
    {
        return Some("counts past 16 bits");
    }
    (front_of_body(fields).len() + fields.body.len() > 268_435_456)
        .then_some("declared length over 268,435,456")
}

/// A response with flag 02 and no id, which both refuse.
fn lacks_id(fields: &Fields) -> bool {
    fields.header.is_response && fields.header.flags & 2 != 0 && fields.id.is_none()
}

/// What stands before the body that was given: id and warnings. Counts lose the bits that do not fit, which only the Rust writes.
fn front_of_body(fields: &Fields) -> Vec<u8> {
    let mut out = vec![];
    if fields.header.is_response && fields.header.flags & 2 != 0 {
        out.extend(fields.id.unwrap_or_default());
    }
    if fields.header.is_response && fields.header.flags & 8 != 0 {
        out.extend((fields.warnings.len() as u16).to_be_bytes());
        for text in &fields.warnings {
            out.extend((text.len() as u16).to_be_bytes());
            out.extend(text.bytes());
        }
    }
    out
}

/// What the Rust writes, and this library where the rules have nothing against the fields.
fn rust_writes(fields: &Fields) -> Outcome<Vec<u8>> {
    if lacks_id(fields) {
        return Outcome::Refused(15);
    }
    let Header {
        version,
        is_response,
        flags,
        stream,
        opcode,
    } = fields.header;
    let front = front_of_body(fields);
    let mut out = vec![version | if is_response { 0x80 } else { 0 }, flags & !1];
    out.extend(stream.to_be_bytes());
    out.push(opcode);
    out.extend(((front.len() + fields.body.len()) as u32).to_be_bytes());
    out.extend(front);
    out.extend(&fields.body);
    Outcome::Gave(out)
}

fn shown(fields: &Fields) -> String {
    format!(
        "{:?} id {:?} warnings {} body {}",
        fields.header,
        fields.id.map(|id| hex(&id)),
        fields.warnings.len(),
        hex(&fields.body)
    )
}

/// Both are held to what the fields say: this library to the rules, the Rust to what it writes.
pub fn envelope(fields: &Fields, tally: &mut Tally) -> Result<(), String> {
    let (mut ours, theirs, due) = (
        ours(fields),
        theirs::encode(fields.header, fields.id, &fields.warnings, &fields.body),
        rust_writes(fields),
    );
    spoil(fields, &mut ours);
    tally.compared("envelopes written");
    let class = class(fields);
    let is_by_rules = match class {
        Some(_) => ours == Outcome::Refused(15),
        None => ours == due,
    };
    if !is_by_rules || theirs != due {
        return Err(format!(
            "an envelope written\n  {}\n  ours {}\n  Rust {}\n  outside: {class:?}",
            shown(fields),
            brief(&ours),
            brief(&theirs)
        ));
    }
    drop((theirs, due));
    match (ours, class) {
        // What was written is read by both.
        (Outcome::Gave(bytes), _) => judge_envelopes::parse(&bytes, tally),
        (_, Some(class)) if !lacks_id(fields) => {
            tally.outside("envelope written", class, || shown(fields));
            Ok(())
        }
        _ => {
            tally.refused("envelopes written", 15);
            Ok(())
        }
    }
}

fn brief(outcome: &Outcome<Vec<u8>>) -> String {
    match outcome {
        Outcome::Gave(bytes) => hex(bytes),
        Outcome::Refused(number) => format!("refused {number}"),
        Outcome::Panicked => "panicked, or wrote behind its end".to_string(),
    }
}
