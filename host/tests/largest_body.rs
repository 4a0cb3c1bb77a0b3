//! The largest declared length that is written (docs/RULES.md, 7.6). Without room for it no byte of the body is touched, so most systems lend it without
//! giving memory.

use tanglegoose_host::judged::{self, Header, Written};

fn written(len: usize) -> Written {
    let (body, mut out) = (vec![0; len], [0xee; 8]);
    let header = Header {
        version: 5,
        is_response: false,
        flags: 0,
        stream: 1,
        opcode: 7,
    };
    let answer = judged::write_envelope(&mut out, header, &[], &[], &[], &body);
    assert_eq!(out, [0xee; 8]);
    answer
}

/// 15 comes before 14: where it is 14, nothing but the room speaks against writing.
#[test]
fn the_largest_body() {
    assert_eq!(written(268_435_456), Err(14));
    assert_eq!(written(268_435_457), Err(15));
}
