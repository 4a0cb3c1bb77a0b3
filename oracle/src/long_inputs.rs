//! Inputs that are too long to be drawn often.
use crate::judge_writing::{self, Fields};
use crate::judged::Header;
use crate::tally::Tally;
use crate::{judge_misuse, judge_notations_written};

type Verdict = Result<(), String>;

const RESPONSE: Header = Header {
    version: 5,
    is_response: true,
    flags: 0,
    stream: 1,
    opcode: 2,
};

fn notations(tally: &mut Tally) -> Verdict {
    for n in [65_535, 65_536, 65_537, 131_072] {
        judge_notations_written::text(&"a".repeat(n), tally)?;
        judge_notations_written::bytes(&vec![0x62; n], tally)?;
    }
    Ok(())
}

fn warnings(tally: &mut Tally) -> Verdict {
    for (count, len) in [
        (65_535, 0),
        (65_536, 0),
        (1, 65_535),
        (1, 65_536),
        (32_768, 1),
        (1, 32_768),
    ] {
        let fields = Fields {
            header: Header {
                flags: 8,
                ..RESPONSE
            },
            id: None,
            warnings: vec!["w".repeat(len); count],
            body: vec![7],
        };
        judge_writing::envelope(&fields, tally)?;
    }
    Ok(())
}

/// Around the largest declared length; an id counts too.
fn bodies(tally: &mut Tally) -> Verdict {
    for (flags, len) in [
        (0, 268_435_456),
        (0, 268_435_457),
        (2, 268_435_440),
        (2, 268_435_441),
    ] {
        let fields = Fields {
            header: Header { flags, ..RESPONSE },
            id: Some([3; 16]),
            warnings: vec![],
            body: vec![0; len],
        };
        judge_writing::envelope(&fields, tally)?;
    }
    Ok(())
}

pub fn all(tally: &mut Tally) -> Verdict {
    judge_misuse::all(tally)?;
    notations(tally)?;
    warnings(tally)?;
    bodies(tally)
}
