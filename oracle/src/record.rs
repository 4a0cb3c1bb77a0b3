//! Writes a list of questions, and the Rust's answers to them in the words of the program `answers` (crates/answers/README.md). This library is asked only
//! whether it hands on an envelope in a call in which the Rust errs, for such an envelope is lost there; these questions are left out.
use crate::envelopes::{self, Faults};
use crate::judge_writing::{self, Fields};
use crate::judged::Form;
use crate::random::Random;
use crate::rules_of_streams::story;
use crate::said::{self, Envelope, Outcome};
use crate::streams::{self, Scale, LARGEST, SIZES};
use crate::{ours, rules, theirs};
use std::collections::BTreeMap;

/// How many questions of a kind with an answer of a kind.
const EACH: usize = 12;
/// Longer inputs are not recorded, but for a few that are made of runs.
const LONGEST: usize = 160;

struct List {
    kept: BTreeMap<String, usize>,
    lines: Vec<(String, String)>,
}

/// Bytes as `00,03,61*3`, and `-` for none.
fn spelt(bytes: &[u8]) -> String {
    let mut words = vec![];
    let mut rest = bytes;
    while let Some(first) = rest.first() {
        let run = rest.iter().take_while(|b| *b == first).count();
        words.push(if run == 1 {
            format!("{first:02x}")
        } else {
            format!("{first:02x}*{run}")
        });
        rest = &rest[run..];
    }
    if words.is_empty() {
        "-".to_string()
    } else {
        words.join(",")
    }
}

fn spelt_all(texts: &[Vec<u8>]) -> String {
    texts
        .iter()
        .map(|text| format!(" {}", spelt(text)))
        .collect()
}

fn envelope(e: &Envelope) -> String {
    let direction = if e.is_response { "rsp" } else { "req" };
    let id = e.id.map_or("-".to_string(), |id| spelt(&id));
    let (n, warnings, body) = (e.warnings.len(), spelt_all(&e.warnings), spelt(&e.body));
    format!(
        "{} {direction} {:02x} {} {:02x} id {id} warnings {n}{warnings} body {body}",
        e.version, e.flags, e.stream, e.opcode
    )
}

/// The answer in words; nothing where the Rust panicked or its error has no number.
fn in_words<T>(outcome: Outcome<T>, give: impl FnOnce(T) -> String) -> Option<String> {
    match outcome {
        Outcome::Gave(value) => Some(give(value)),
        Outcome::Refused(0) | Outcome::Panicked => None,
        Outcome::Refused(number) => Some(format!("refused {number}")),
    }
}

impl List {
    /// Keeps the question if there are too few like it: of this kind, and with an answer that begins alike.
    fn ask(&mut self, kind: &str, question: String, answer: Option<String>) {
        let Some(answer) = answer else { return };
        let words: Vec<&str> = answer.split(' ').collect();
        let like = match words[..] {
            // The number of a check tells no kind.
            [_] if answer != "incomplete" => "a check".to_string(),
            ["refused", number] => format!("refused {number}"),
            _ => words[0].to_string(),
        };
        let kept = self.kept.entry(format!("{kind} {like}")).or_default();
        if *kept < EACH && !self.lines.iter().any(|(asked, _)| *asked == question) {
            *kept += 1;
            self.lines.push((question, answer));
        }
    }

    fn bytes(&mut self, name: &str, bytes: &[u8], answer: Option<String>) {
        self.ask(name, format!("{name} {}", spelt(bytes)), answer);
    }

    fn envelope(&mut self, bytes: &[u8]) {
        if rules::front(bytes).outside.is_some() {
            return;
        }
        let size = |n| {
            if n == 0 {
                "incomplete".to_string()
            } else {
                format!("whole {n}")
            }
        };
        self.bytes("size", bytes, in_words(theirs::size(bytes), size));
        let parsed = |answer: Option<(usize, Envelope)>| {
            answer.map_or("incomplete".to_string(), |(n, e)| {
                format!("whole {n} {}", envelope(&e))
            })
        };
        self.bytes("parse", bytes, in_words(theirs::parse(bytes), parsed));
    }

    fn stream(&mut self, form: Form, bytes: &[u8], cut: usize) {
        if story(form, bytes, SIZES).leaves.is_some() {
            return;
        }
        let (mut decoder, mut reader, mut words, mut like) = (
            theirs::Decoder::new(form),
            ours::Stream::new(form, SIZES.0, SIZES.1),
            vec![],
            "more".to_string(),
        );
        for piece in [&bytes[..cut], &bytes[cut..]] {
            match (decoder.feed(piece), said::envelopes(&reader.feed(piece))) {
                (Outcome::Gave(all), _) => {
                    words.extend(all.iter().map(|e| format!("env {}; ", envelope(e))));
                    words.push("more; ".to_string());
                }
                (Outcome::Refused(number), here) if number != 0 && here.is_empty() => {
                    like = format!("refused {number}");
                    words.push(format!("{like}; "));
                    break;
                }
                _ => return,
            }
        }
        let name = if form == Form::Short { "short" } else { "long" };
        let envelopes = words
            .iter()
            .filter(|word| word.starts_with("env"))
            .count()
            .min(3);
        let kept = self
            .kept
            .entry(format!("{name} {like} {envelopes}"))
            .or_default();
        *kept += 1;
        if *kept <= EACH {
            self.lines.push((
                format!("{name} {cut} {}", spelt(bytes)),
                format!("{}end", words.concat()),
            ));
        }
    }

    fn notations(&mut self, bytes: &[u8]) {
        if !matches!(rules::string_list(bytes).1, Some(why) if why != rules::Outside::CountCutShort)
        {
            let list = |(texts, next): (Vec<Vec<u8>>, usize)| {
                format!("strings {}{} next {next}", texts.len(), spelt_all(&texts))
            };
            self.bytes("list", bytes, in_words(theirs::string_list(bytes), list));
        }
        self.bytes(
            "int",
            bytes,
            in_words(theirs::int(bytes), |(x, next)| {
                format!("value {x} next {next}")
            }),
        );
        self.bytes(
            "long",
            bytes,
            in_words(theirs::long(bytes), |(x, next)| {
                format!("value {x} next {next}")
            }),
        );
        let part = |(part, next): (Option<Vec<u8>>, usize)| {
            part.map_or(format!("null next {next}"), |part| {
                format!("part {} next {next}", spelt(&part))
            })
        };
        if bytes.len() < 4 || bytes[0] == 0 || bytes[0] > 0x7f {
            self.bytes("bytes", bytes, in_words(theirs::bytes(bytes), part));
        }
        if bytes.len() < 2 || bytes[0] < 0x80 {
            self.bytes(
                "shortbytes",
                bytes,
                in_words(theirs::short_bytes(bytes), part),
            );
        }
    }

    fn written(&mut self, bytes: &[u8]) {
        let wrote = |bytes: Vec<u8>| Some(format!("wrote {}", spelt(&bytes)));
        if let Ok(text) = std::str::from_utf8(bytes) {
            self.bytes("wstring", bytes, wrote(theirs::write_string(text)));
        }
        self.bytes("wbytes", bytes, wrote(theirs::write_bytes(Some(bytes))));
        self.bytes(
            "wshortbytes",
            bytes,
            wrote(theirs::write_short_bytes(bytes)),
        );
        self.bytes("wnull", &[], wrote(theirs::write_bytes(None)));
    }

    fn encoded(&mut self, fields: &Fields) {
        let header = fields.header;
        if header.flags > 0x1f || (!header.is_response && header.flags & 8 != 0) {
            return;
        }
        let direction = if header.is_response { "rsp" } else { "req" };
        let text: Vec<u8> = fields
            .warnings
            .iter()
            .flat_map(|text| text.bytes())
            .collect();
        let lengths: Vec<String> = fields
            .warnings
            .iter()
            .map(|text| text.len().to_string())
            .collect();
        let lengths = if lengths.is_empty() {
            "-".to_string()
        } else {
            lengths.join(",")
        };
        let id = fields.id.map_or("-".to_string(), |id| spelt(&id));
        let first = format!(
            "encode {} {direction} {:02x} {} {:02x} {id}",
            header.version, header.flags, header.stream, header.opcode
        );
        let question = format!("{first} {} {lengths} {}", spelt(&text), spelt(&fields.body));
        let answer = in_words(
            theirs::encode(header, fields.id, &fields.warnings, &fields.body),
            |bytes| format!("wrote {}", spelt(&bytes)),
        );
        let kind = format!("encode {direction} {}", header.flags & 10);
        self.ask(&kind, question, answer);
    }

    fn packed(&mut self, first: &[u8], second: &[u8]) {
        let mut writer = theirs::Encoder::default();
        let mut fits = vec![];
        for envelope in [first, second] {
            fits.push(if writer.can_fit(envelope.len()) {
                "yes"
            } else {
                "no"
            });
            if fits.last() == Some(&"yes") {
                writer.add(envelope);
            }
        }
        let answer = in_words(writer.finish(), |segment| {
            format!("{} wrote {}", fits.join(" "), spelt(&segment))
        });
        self.ask(
            &format!("pack {}", fits.join(" ")),
            format!("pack {} {}", spelt(first), spelt(second)),
            answer,
        );
    }

    fn piece(&mut self, envelope: &[u8]) {
        let answer = in_words(
            theirs::Encoder::default().piece(envelope),
            |(taken, segment)| format!("took {taken} wrote {}", spelt(&segment)),
        );
        self.bytes("piece", envelope, answer);
    }

    fn checks(&mut self, bytes: &[u8]) {
        self.ask(
            &format!("crc24 {}", bytes.len() / 16),
            format!("crc24 {}", spelt(bytes)),
            Some(format!("{:06x}", theirs::crc24(bytes))),
        );
        self.ask(
            &format!("crc32 {}", bytes.len() / 16),
            format!("crc32 {}", spelt(bytes)),
            Some(format!("{:08x}", theirs::crc32(bytes))),
        );
    }

    fn round(&mut self, random: &mut Random, k: usize) {
        let faults = Faults([0, 12, 4][k % 3]);
        let bytes = envelopes::envelope(random, 20, faults);
        if bytes.len() <= LONGEST {
            self.envelope(&bytes);
            self.envelope(&bytes[..random.below(bytes.len() + 1)]);
        }
        let stream = streams::stream(
            random,
            Scale {
                segments: 3,
                body: 20,
            },
            faults,
        );
        let bytes = stream.bytes();
        if bytes.len() <= LONGEST {
            self.stream(stream.form, &bytes, random.below(bytes.len() + 1));
        }
        self.notations(&envelopes::string_list(random, faults));
        let n = random.below(16);
        let mut bytes = random.bytes(n);
        if n > 4 {
            bytes[..4].copy_from_slice(&(random.below(n) as u32).to_be_bytes());
        }
        self.notations(&bytes);
        self.notations(&bytes[n.min(2)..]);
        self.written(&envelopes::good_text(random));
        self.encoded(&judge_writing::fields(random, 40));
        let n = random.below(40);
        self.packed(&random.bytes(n), &bytes);
        self.piece(&random.bytes(n));
        self.checks(&random.bytes(n));
    }

    /// At the limits, of bytes that a line can tell in runs.
    fn limits(&mut self) {
        for n in [LARGEST - 1, LARGEST, LARGEST + 1] {
            self.piece(&vec![0x61; n]);
            self.packed(&vec![0x62; n], &[]);
            self.packed(&vec![0x63; n - 1], &[0x64]);
        }
        for n in [127, 128, 255, 256, 32_767, 32_768, 65_535] {
            self.written(&vec![0x65; n]);
        }
    }
}

pub fn record(seed: u64, questions: &str, answers: &str) -> Result<(), String> {
    let (mut random, mut list) = (
        Random::new(seed),
        List {
            kept: BTreeMap::new(),
            lines: vec![],
        },
    );
    list.limits();
    (0..20_000).for_each(|k| list.round(&mut random, k));
    list.lines.sort();
    let file = |pick: fn(&(String, String)) -> &String| {
        list.lines
            .iter()
            .map(|line| pick(line).clone() + "\n")
            .collect::<String>()
    };
    std::fs::write(questions, file(|line| &line.0)).map_err(|error| error.to_string())?;
    std::fs::write(answers, file(|line| &line.1)).map_err(|error| error.to_string())?;
    println!("{} questions", list.lines.len());
    Ok(())
}
