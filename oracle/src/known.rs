//! What has to come up in a run of the gate's size, so that no class, refusal or comparison can stop being tried unseen.
use crate::tally::Tally;

/// So many streams and envelopes at least make a run of that size: each line below then came up with every seed that was tried.
const ENOUGH: u64 = 20_000;

const CLASSES: &str = "\
[long string] read: TextPastEnd
[long string] read: below zero
[short bytes] read: 32,768 or more
[short bytes] read: 32,768 or more, whole
[short bytes] written: over 65,535 bytes
[string list] read: LongString
[string list] read: LongString, whole
[string list] read: ManyStrings
[string list] read: ManyStrings, whole
[string list] read: TextPastEnd
[string] written: over 65,535 bytes
envelope: CountCutShort
envelope: IdCutShort
envelope: LengthBelowZero
envelope: LengthFarBelowZero
envelope: LongString
envelope: LongString, whole
envelope: ManyStrings
envelope: ManyStrings, whole
envelope: TextPastEnd
envelope written: counts past 16 bits
envelope written: declared length over 268,435,456
envelope written: flags above 1f
envelope written: request with 08
segment writer: 131,072 bytes added, then finished
segment writer: a byte added, then a piece of 131,071
segment writer: a byte added, then a piece that fits
segment writer: finished twice
size check: LengthBelowZero
size check: LengthFarBelowZero
stream: Compressed
stream: CountCutShort
stream: CountCutShort in a run
stream: IdCutShort
stream: IdCutShort in a run
stream: LengthBelowZero
stream: LengthBelowZero in a run
stream: LengthFarBelowZero
stream: LengthFarBelowZero in a run
stream: LongString
stream: LongString in a run
stream: LongString, whole
stream: LongString, whole in a run
stream: ManyStrings
stream: ManyStrings in a run
stream: ManyStrings, whole
stream: ManyStrings, whole in a run
stream: ReassemblyTooShort in a run
stream: SegmentTooLong
stream: TextPastEnd
stream: TextPastEnd in a run";

/// What is compared, and the refusals that come from both.
const KINDS: &str = "\
CRC24 of three bytes
[bytes] read
[bytes] written
[int] read
[int] written
[long string] read
[long] read
[long] written
[short bytes] read
[short bytes] written
[short] read
[short] written
[string list] read
[string] written
both checks
bytes held at the end of a stream
calls after a refusal
envelopes of streams
envelopes read
envelopes written
null written
pieces of streams, by the Rust
pieces of streams, by the rules
pieces written
segments packed
size checks
streams
texts
[bytes] read: 12
[int] read: 12
[long string] read: 12
[long string] read: 13
[long] read: 12
[short bytes] read: 12
[short] read: 12
[string list] read: 12
[string list] read: 13
envelopes read: 9
envelopes read: 10
envelopes read: 13
envelopes written: 15
segments packed: 16
size checks: 9
streams: 2
streams: 5
streams: 6
streams: 9
streams: 10
streams: 13";

/// Fails on what came up and is not listed, and in a run that is large enough on what is listed and did not come up.
fn listed(what: &str, list: &str, came: Vec<String>, is_enough: bool) -> Result<(), String> {
    if let Some(one) = came
        .iter()
        .find(|one| list.lines().all(|line| line != *one))
    {
        return Err(format!("{what} came up that is not listed: {one}"));
    }
    let missing = |line: &&str| came.iter().all(|one| one != line);
    let missing: Vec<&str> = list.lines().filter(missing).collect();
    if missing.is_empty() {
        return Ok(());
    }
    let missing = format!("{what} never came up: {}", missing.join("; "));
    if is_enough {
        return Err(missing);
    }
    println!("{missing} (too few inputs for that to count)");
    Ok(())
}

/// A run of so many streams and envelopes, at least, tried all that it has to try.
pub fn all_came_up(tries: u64, tally: &Tally) -> Result<(), String> {
    let is_enough = tries >= ENOUGH;
    listed("a class", CLASSES, tally.classes(), is_enough)?;
    listed("a comparison", KINDS, tally.kinds(), is_enough)
}
