//! Faults that can be planted into this library's answers, to see that the comparison finds them.
use std::sync::atomic::{AtomicUsize, Ordering};

static PLANTED: AtomicUsize = AtomicUsize::new(0);

/// Where a fault has to be found: in inputs that are drawn, or in the few that are too long for that.
#[derive(Clone, Copy, PartialEq, Eq)]
pub enum Inputs {
    Drawn,
    Long,
}

macro_rules! faults {
    ($($inputs:ident $fault:ident $name:literal)*) => {
        #[derive(Clone, Copy)]
        pub enum Fault { $($fault),* }

        pub const ALL: &[(Fault, Inputs, &str)] = &[$((Fault::$fault, Inputs::$inputs, $name)),*];
    };
}

faults! {
    Drawn StreamNumber "the stream number of a version 4 envelope is one more"
    Drawn LastOfSeven "the last byte of a body of 7 is lost"
    Drawn WarningsExchanged "two warnings are exchanged"
    Drawn OpcodeAsVersion "an unknown opcode is taken for an unknown version"
    Drawn SizeMore "the size of a version 3 envelope is one more"
    Drawn ThirdLost "a third envelope of a piece is lost"
    Drawn Crc32Bit "CRC32 of 5 bytes has its lowest bit turned"
    Drawn CompressionWritten "flag 01 is written"
    Drawn PieceLess "a piece of the largest size takes one byte less"
    Drawn ListEndsLater "a list of three strings ends a byte later"
    Drawn NullEmpty "null is read as empty"
    Drawn LongCheckUntested "a payload's check is not tested in the long form"
    Drawn BeforePanic "of a stream, the envelope before an id that is cut short has another stream number"
    Drawn BeforeError "of a stream, the envelope before an unknown opcode is lost"
    Drawn BeforeRoom "of a stream, the envelope before a segment for which there is no room is lost"
    Drawn ManyInStream "of a stream, a list of 32,768 warnings has one less"
    Drawn LongInStream "of a stream, a warning of 32,768 bytes has one less"
    Drawn BehindManyLost "of a stream, what follows an envelope with 32,768 warnings in a piece is lost"
    Drawn HeldBehindMany "of a stream, one byte more is held where the Rust panicked"
    Drawn LeftoverMore "a leftover is one byte more"
    Drawn EarlyCheck "a payload's check is refused a byte early"
    Drawn GoesOn "a reader that refused a header goes on"
    Drawn ManyOfEnvelope "a single envelope's list of 32,768 warnings has one less"
    Drawn BodyBehindLong "a single envelope's body behind a warning of 32,768 bytes is lost"
    Drawn ManyOfList "a list of 32,768 strings has one less"
    Drawn LongShortBytes "[short bytes] of 32,768 bytes have one less"
    Drawn LongStringShort "a [long string] of three bytes is refused with 12"
    Drawn LongStringBelow "a [long string] that runs past its end is refused with 8"
    Drawn HighFlagsWritten "flags above 1f are written, as the Rust does it"
    Drawn BehindPiece "a byte behind a piece is changed"
    Long LargestBody "a body of 268,435,456 bytes is refused"
    Long AddChanges "what is refused an add is counted"
    Long SecondFinish "a segment that is finished anew has another check"
}

pub fn plant(fault: Fault) {
    PLANTED.store(fault as usize + 1, Ordering::Relaxed);
}

pub fn is_any() -> bool {
    PLANTED.load(Ordering::Relaxed) != 0
}

/// Whether this fault is planted.
pub fn is(fault: Fault) -> bool {
    PLANTED.load(Ordering::Relaxed) == fault as usize + 1
}
