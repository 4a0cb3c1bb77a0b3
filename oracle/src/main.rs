//! Compares this library with the Rust original on inputs made from a seed. README.md in the folder above tells how it is run and what it compares.
#[allow(dead_code)]
#[path = "../../host/src/judged.rs"]
mod judged;

mod ask;
mod classes;
mod envelopes;
mod exhaustive;
mod faults;
mod judge_checks;
mod judge_envelopes;
mod judge_misuse;
mod judge_notations;
mod judge_notations_written;
mod judge_segments;
mod judge_streams;
mod judge_writing;
mod known;
mod long_inputs;
mod ours;
mod random;
mod record;
mod rules;
mod rules_of_streams;
mod said;
mod smallest;
mod streams;
mod tally;
mod theirs;

use envelopes::Faults;
use faults::Inputs;
use random::Random;
use smallest::on_bytes;
use tally::Tally;

type Verdict = Result<(), String>;

const USAGE: &str = "judge compare STREAMS ENVELOPES SEED
judge faults SEED
judge classes SEED
judge ask KIND BYTE ..
judge record SEED QUESTIONS ANSWERS";

/// How often something is wrong in an input: never, seldom, often.
fn faults_of(k: usize) -> Faults {
    Faults([0, 40, 12, 4][k % 4])
}

/// Once in so many inputs comes one with counts of 32,768 and more and all that they count.
const FULL: usize = 500;

fn a_stream(
    random: &mut Random,
    k: usize,
    lent: &mut judge_streams::Lent,
    tally: &mut Tally,
) -> Verdict {
    let stream = match k % 2_000 {
        1_999 => streams::stream(random, streams::LARGE, faults_of(k)),
        _ if k % FULL == 1 => streams::full_stream(random, k / FULL),
        _ => streams::stream(random, streams::SMALL, faults_of(k)),
    };
    smallest::on_stream(stream, lent, tally)
}

/// An envelope with bytes behind it, or without its last ones.
fn an_envelope(random: &mut Random, k: usize, tally: &mut Tally) -> Verdict {
    let mut bytes = match k % 500 {
        499 => envelopes::envelope(random, 140_000, faults_of(k)),
        _ if k % FULL == 1 => envelopes::full_envelope(random, k / FULL),
        _ => envelopes::envelope(random, 300, faults_of(k)),
    };
    match random.below(6) {
        0 => bytes.truncate(random.below(bytes.len() + 1)),
        1 => bytes.extend(random.bytes(5)),
        2 => {
            let at = random.below(bytes.len());
            bytes[at] ^= 1 << random.below(8);
        }
        _ => {}
    }
    on_bytes(bytes.clone(), tally, judge_envelopes::parse)?;
    on_bytes(bytes, tally, judge_envelopes::size)
}

/// A list, or [short bytes], with a count of 32,768 or more and all that it counts, or a byte less.
fn a_full_notation(random: &mut Random, k: usize, tally: &mut Tally) -> Verdict {
    on_bytes(
        envelopes::full_list(random, k),
        tally,
        judge_notations::list,
    )?;
    let (n, less) = (32_768 + random.below(3), random.below(3));
    let mut bytes = (n as u16).to_be_bytes().to_vec();
    bytes.extend(random.bytes(n + 1 - less));
    on_bytes(bytes, tally, judge_notations::short_bytes)
}

fn a_notation(random: &mut Random, k: usize, tally: &mut Tally) -> Verdict {
    if k % FULL == 1 {
        a_full_notation(random, k / FULL, tally)?;
    }
    on_bytes(
        envelopes::string_list(random, faults_of(k)),
        tally,
        judge_notations::list,
    )?;
    let n = random.below(24);
    let mut bytes = random.bytes(n);
    on_bytes(bytes.clone(), tally, judge_notations::numbers)?;
    // Counts near the bytes that are there.
    if n > 4 && !random.once_in(8) {
        let count = (n + random.below(4)).saturating_sub(5) as u32;
        bytes[..4].copy_from_slice(&count.to_be_bytes());
    } else if n > 0 {
        bytes[0] |= 0x80;
    }
    on_bytes(bytes.clone(), tally, judge_notations::bytes)?;
    on_bytes(bytes.clone(), tally, judge_notations::long_string)?;
    let from = bytes.len().min(2);
    on_bytes(bytes[from..].to_vec(), tally, judge_notations::short_bytes)?;
    let bits = random.next() >> random.below(64);
    judge_notations_written::numbers(bits, tally)?;
    judge_notations_written::text(&String::from_utf8_lossy(&bytes), tally)?;
    judge_notations_written::bytes(&bytes, tally)
}

fn a_writing(random: &mut Random, k: usize, tally: &mut Tally) -> Verdict {
    let fields = judge_writing::fields(random, 2_000);
    smallest::on(
        fields,
        judge_writing::simpler_fields,
        judge_writing::envelope,
        tally,
    )?;
    let lengths: Vec<usize> = if k % 200 == 0 {
        let first = streams::LARGEST - random.below(40);
        vec![first, random.below(60), random.below(20)]
    } else {
        (0..random.below(6)).map(|_| random.below(30)).collect()
    };
    let parts: Vec<Vec<u8>> = lengths.into_iter().map(|n| random.bytes(n)).collect();
    smallest::on(
        parts,
        smallest::simpler_lists,
        |parts, tally| judge_segments::pack(parts, tally),
        tally,
    )?;
    let n = if k % 200 == 0 {
        streams::LARGEST * (1 + random.below(2)) + random.below(5) - 2
    } else {
        random.below(70)
    };
    on_bytes(random.bytes(n), tally, judge_segments::split)
}

fn a_check(random: &mut Random, k: usize, tally: &mut Tally) -> Verdict {
    let n = if k % 100 == 0 {
        random.below(5_000)
    } else {
        random.below(40)
    };
    on_bytes(random.bytes(n), tally, judge_checks::checks)
}

fn compare(streams: usize, envelopes: usize, seed: u64, tally: &mut Tally) -> Verdict {
    let (mut random, mut lent) = (Random::new(seed), judge_streams::Lent::new());
    exhaustive::all(&mut random, 6 + streams / 5_000, tally)?;
    judge_checks::all_short_headers(tally)?;
    judge_checks::all_short_texts(if streams < 500_000 { 7 } else { 1 }, tally)?;
    long_inputs::all(tally)?;
    (0..streams).try_for_each(|k| a_stream(&mut random, k, &mut lent, tally))?;
    for k in 0..envelopes {
        an_envelope(&mut random, k, tally)?;
        a_writing(&mut random, k, tally)?;
        if k % 2 == 0 {
            a_notation(&mut random, k / 2, tally)?;
            a_check(&mut random, k, tally)?;
        }
    }
    Ok(())
}

/// Each planted fault has to be found.
fn find_faults(seed: u64) -> Verdict {
    for (fault, inputs, name) in faults::ALL {
        faults::plant(*fault);
        let found = match inputs {
            Inputs::Drawn => find_fault(seed),
            Inputs::Long => long_inputs::all(&mut Tally::default()),
        };
        match found {
            Ok(()) => return Err(format!("not found: {name}")),
            Err(difference) => println!("{name}: found in {}", said::cut(&difference)),
        }
    }
    println!("{} faults, all found", faults::ALL.len());
    Ok(())
}

fn find_fault(seed: u64) -> Verdict {
    let (mut random, mut lent, mut tally) = (
        Random::new(seed),
        judge_streams::Lent::new(),
        Tally::default(),
    );
    for k in 0..20_000 {
        // A fault of streams is to be found in streams, so these come first.
        a_stream(&mut random, k, &mut lent, &mut tally)?;
        an_envelope(&mut random, k, &mut tally)?;
        a_writing(&mut random, k, &mut tally)?;
        a_notation(&mut random, k, &mut tally)?;
        a_check(&mut random, k, &mut tally)?;
    }
    Ok(())
}

fn number(word: &str) -> Result<u64, String> {
    word.parse().map_err(|_| format!("{word} is no number"))
}

fn compare_and_print(streams: &str, envelopes: &str, seed: &str) -> Verdict {
    let (streams, envelopes, mut tally) = (number(streams)?, number(envelopes)?, Tally::default());
    let verdict = compare(
        streams as usize,
        envelopes as usize,
        number(seed)?,
        &mut tally,
    );
    tally.print();
    verdict?;
    known::all_came_up(streams.min(envelopes), &tally)
}

fn run(words: &[&str]) -> Verdict {
    match words {
        ["compare", streams, envelopes, seed] => compare_and_print(streams, envelopes, seed),
        ["faults", seed] => find_faults(number(seed)?),
        ["classes", seed] => classes::print(number(seed)?),
        ["ask", kind, bytes @ ..] => ask::ask(kind, bytes),
        ["record", seed, questions, answers] => record::record(number(seed)?, questions, answers),
        _ => Err(USAGE.to_string()),
    }
}

fn main() {
    // A panic of the Rust is an answer.
    std::panic::set_hook(Box::new(|_| {}));
    let words: Vec<String> = std::env::args().skip(1).collect();
    let words: Vec<&str> = words.iter().map(|word| word.as_str()).collect();
    let build = if theirs::CHECKED { "with" } else { "without" };
    match run(&words) {
        Ok(()) if words[0] == "compare" => {
            println!("no difference from the Rust {build} overflow checks")
        }
        Ok(()) => {}
        Err(why) => {
            println!("the Rust {build} overflow checks: {}", said::cut(&why));
            std::process::exit(1);
        }
    }
}
