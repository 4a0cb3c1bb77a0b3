//! What the library exports by the C convention, in safe Rust.

pub mod judged;
pub mod plain;

mod exported {
    // A byte slice passes as its first byte's place and its length. Nothing compares these lines with the Rattle source.
    extern "C" {
        pub fn tanglegoose_crc24(bytes: *const u8, len: usize) -> u32;
        pub fn tanglegoose_crc32(bytes: *const u8, len: usize) -> u32;
        pub fn tanglegoose_check_envelope_size(bytes: *const u8, len: usize) -> i64;
    }
}

/// The check of a segment's header: below 2^24.
pub fn crc24(bytes: &[u8]) -> u32 {
    // SAFETY: the function only reads the bytes of the slice that it is handed, and asks nothing of them.
    unsafe { exported::tanglegoose_crc24(bytes.as_ptr(), bytes.len()) }
}

/// The check of a segment's payload.
pub fn crc32(bytes: &[u8]) -> u32 {
    // SAFETY: as above.
    unsafe { exported::tanglegoose_crc32(bytes.as_ptr(), bytes.len()) }
}

/// How long the envelope at the front of the bytes is, with its header: 0 where it is not complete yet, and -8 or -9 where its length is negative or
/// its version unknown.
pub fn check_envelope_size(bytes: &[u8]) -> i64 {
    // SAFETY: as above.
    unsafe { exported::tanglegoose_check_envelope_size(bytes.as_ptr(), bytes.len()) }
}
