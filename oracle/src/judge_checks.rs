//! Both checks, and what counts as text.
use crate::faults::{self, Fault};
use crate::said::hex;
use crate::tally::Tally;
use crate::{judged, theirs};

pub fn checks(bytes: &[u8], tally: &mut Tally) -> Result<(), String> {
    let ours = (
        judged::crc24(bytes),
        judged::crc32(bytes) ^ (faults::is(Fault::Crc32Bit) && bytes.len() == 5) as u32,
    );
    let theirs = (theirs::crc24(bytes), theirs::crc32(bytes));
    tally.compared("both checks");
    if ours == theirs {
        return Ok(());
    }
    Err(format!(
        "checks\n  bytes {}\n  ours {ours:x?}\n  Rust {theirs:x?}",
        hex(bytes)
    ))
}

/// Every header number of the short form: CRC24 of all lists of three bytes.
pub fn all_short_headers(tally: &mut Tally) -> Result<(), String> {
    for number in 0..1u32 << 24 {
        let bytes = &number.to_le_bytes()[..3];
        if judged::crc24(bytes) != theirs::crc24(bytes) {
            return Err(format!("CRC24 of {}", hex(bytes)));
        }
    }
    tally.add("CRC24 of three bytes", 1 << 24);
    Ok(())
}

/// The Rust takes a text for UTF-8 as its standard library does.
fn text(bytes: &[u8]) -> Result<(), String> {
    if judged::is_utf8(bytes) == std::str::from_utf8(bytes).is_ok() {
        return Ok(());
    }
    Err(format!("whether these bytes are UTF-8: {}", hex(bytes)))
}

/// Every list of up to three bytes, and every list of four whose first begins a form of four.
pub fn all_short_texts(step: usize, tally: &mut Tally) -> Result<(), String> {
    text(&[])?;
    let lists = |count: usize, n: u32| {
        (0..n)
            .step_by(step)
            .map(move |x| x.to_be_bytes()[4 - count..].to_vec())
    };
    for bytes in lists(1, 1 << 8)
        .chain(lists(2, 1 << 16))
        .chain(lists(3, 1 << 24))
    {
        text(&bytes)?;
        tally.compared("texts");
    }
    for first in 0xf0..=0xff_u32 {
        for x in (0..1u32 << 24).step_by(step * 16 + 1) {
            text(&(first << 24 | x).to_be_bytes())?;
            tally.compared("texts");
        }
    }
    Ok(())
}
