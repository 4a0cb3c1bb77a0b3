//! The stored cases of `host/stored`: what the library answers to each is held to the stored answer, byte for byte.

mod envelopes;
mod notations;
mod say;
mod segments;
mod streams;
mod words;

/// Writes what comes of a case. Nothing is answered for words that are no case, and what was written before that showed stays.
type Answer = fn(&[&str], &mut String) -> Option<()>;

/// A line that is no case is answered too, so that every answer stands at its line.
fn answer_line(answer: Answer, line: &str) -> String {
    let words: Vec<&str> = line.split(' ').collect();
    let mut said = String::new();
    if answer(&words, &mut said).is_none() {
        said.push('?');
    }
    said
}

fn lines(kind: &str, file: &str) -> Vec<String> {
    let path = format!("{}/stored/{kind}/{file}", env!("CARGO_MANIFEST_DIR"));
    let text = std::fs::read_to_string(&path).unwrap_or_else(|why| panic!("{path}: {why}"));
    let Some(ended) = text.strip_suffix('\n') else {
        panic!("{path} is empty, or its last line has no end");
    };
    ended.split('\n').map(str::to_string).collect()
}

fn hold(kind: &str, answer: Answer) {
    let (cases, answers) = (lines(kind, "cases"), lines(kind, "answers"));
    assert_eq!(
        cases.len(),
        answers.len(),
        "{kind}: the cases and the answers are not as many"
    );
    for (k, (case, stored)) in cases.iter().zip(&answers).enumerate() {
        let said = answer_line(answer, case);
        let number = k + 1;
        assert!(
            said == *stored,
            "{kind}, line {number}\ncase   {case}\nanswer {said}\nstored {stored}"
        );
    }
    println!("{kind}: {} cases", cases.len());
}

#[test]
fn notations_as_stored() {
    hold("notations", notations::answer);
}

#[test]
fn envelopes_as_stored() {
    hold("envelopes", envelopes::answer);
}

#[test]
fn segments_as_stored() {
    hold("segments", segments::answer);
}

#[test]
fn streams_as_stored() {
    hold("streams", streams::answer);
}

#[track_caller]
fn answers(answer: Answer, line: &str, expected: &str) {
    assert_eq!(answer_line(answer, line), expected, "{line}");
}

/// No stored case is one of these: they are answered by `?`, so a case that is misspelt can't pass for a right one.
#[test]
fn lines_that_are_no_case() {
    for line in [
        "",
        "byte 0",
        "byte 0 0",
        "byte 0 0A",
        "byte +0 00",
        "byte 0 00,",
        "byte 0 00*",
        "byte 0 00*131081",
        "byte 0 00 ",
        "walk 65536 0 -",
        "wbyte 1 0 256",
        "wshort 2 0 -1",
        "wint 4 0 2147483648",
        "wint 4 0 -0",
        "wlong 8 0 -9223372036854775809",
        "wlist 2 0 -",
        "wnull 131081 0",
    ] {
        answers(notations::answer, line, "?");
    }
    for line in [
        "size 00 00",
        "parts 0 0",
        "read 00*131201",
        "write 9 256 req 00 1 05 - - - -",
        "write 9 5 req 00 32768 05 - - - -",
        "write 9 5 req 00 1 05 00*65 - - -",
        "write 131201 5 req 00 1 05 - - - -",
    ] {
        answers(envelopes::answer, line, "?");
    }
    for line in [
        "head middle -",
        "fits short 1",
        "call short 0 9 take -",
        "split short 131201 -",
    ] {
        answers(segments::answer, line, "?");
    }
    for line in [
        "short 12",
        "short 12 9 read 1",
        "short 12 9 read 1*2049 -",
        "short 12 9 lend 131085 9 call 1 -",
        "short 12 9 segment 131084 00",
    ] {
        answers(streams::answer, line, "?");
    }
    let some = "wrote 1 1 short 1; ?";
    answers(segments::answer, "pack short 11 61 6", some);
    answers(streams::answer, "short 0 0 read - - end", "holds - -; ?");
}
