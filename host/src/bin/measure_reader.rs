//! Our side of tools/measure/measure-reader. Reads a stream of short segments from standard input in pieces of 65,536 bytes, the last one shorter, and
//! writes how many envelopes the reader handed on and how many bytes their bodies have. How long the reader worked goes to standard error: the processor
//! time, in millionths of a second.

use std::io::Read;
use tanglegoose_host::judged::{Answer, Form, Reader};

const PIECE_LEN: usize = 65_536;

/// The longest buffers that a reader takes.
const SEGMENT_LEN: usize = 131_083;
const REASSEMBLY_LEN: usize = 1_048_576;

extern "C" {
    fn clock() -> i64;
}

/// The processor time of the process so far, in millionths of a second.
fn processor_time() -> i64 {
    // SAFETY: the C library's clock only answers.
    unsafe { clock() }
}

struct Run {
    reader: Reader,
    segment: Vec<u8>,
    reassembly: Vec<u8>,
    envelopes: usize,
    bytes: usize,
}

impl Run {
    fn new() -> Self {
        Run {
            reader: Reader::new(Form::Short, SEGMENT_LEN, REASSEMBLY_LEN),
            segment: vec![0; SEGMENT_LEN],
            reassembly: vec![0; REASSEMBLY_LEN],
            envelopes: 0,
            bytes: 0,
        }
    }

    /// Calls with the rest of the piece until nothing more comes of it.
    fn use_up(&mut self, piece: &[u8]) {
        let mut rest = piece;
        loop {
            let heard = self
                .reader
                .read(&mut self.segment, &mut self.reassembly, rest);
            rest = &rest[heard.taken..];
            match heard.answer {
                Answer::Envelope(_, _, envelope) => {
                    self.envelopes += 1;
                    self.bytes += envelope.body.len;
                }
                Answer::Leftover(_) => {}
                Answer::More | Answer::Refused(_) => return,
            }
        }
    }
}

fn main() {
    let mut input = std::io::stdin().lock();
    let (mut run, mut time) = (Run::new(), 0);
    loop {
        let mut piece = Vec::with_capacity(PIECE_LEN);
        input
            .by_ref()
            .take(PIECE_LEN as u64)
            .read_to_end(&mut piece)
            .expect("standard input can be read");
        if piece.is_empty() {
            break;
        }
        let start = processor_time();
        run.use_up(&piece);
        time += processor_time() - start;
    }
    println!("envelopes {}\nbytes {}", run.envelopes, run.bytes);
    eprintln!("microseconds {time}");
}
