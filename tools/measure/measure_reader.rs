//! The Rust original's side of tools/measure/measure-reader, which builds it as an example of the crate that it measures. It does what
//! host/src/bin/measure_reader.rs does.

use cassandra_protocol::compression::Compression;
use cassandra_protocol::frame::frame_decoder::{FrameDecoder, UncompressedFrameDecoder};
use std::io::Read;

const PIECE_LEN: usize = 65_536;

extern "C" {
    fn clock() -> i64;
}

/// The processor time of the process so far, in millionths of a second.
fn processor_time() -> i64 {
    unsafe { clock() }
}

fn main() {
    let mut input = std::io::stdin().lock();
    let mut decoder = UncompressedFrameDecoder::default();
    let (mut envelopes, mut bytes, mut time) = (0, 0, 0);
    loop {
        let mut piece = Vec::with_capacity(PIECE_LEN);
        input
            .by_ref()
            .take(PIECE_LEN as u64)
            .read_to_end(&mut piece)
            .expect("standard input can be read");
        if piece.is_empty() {
            break;
        }
        let start = processor_time();
        let found = decoder
            .consume(&mut piece, Compression::None)
            .expect("a stream without a fault");
        envelopes += found.len();
        bytes += found.iter().map(|one| one.body.len()).sum::<usize>();
        drop(found);
        time += processor_time() - start;
    }
    println!("envelopes {envelopes}\nbytes {bytes}");
    eprintln!("microseconds {time}");
}
