//! Nanoseconds a byte of each check, ours and the byte-at-a-time Rust side by side. Build it for release.

use std::hint::black_box;
use std::time::Instant;
use tanglegoose_host::plain::{self, Numbers};
use tanglegoose_host::{crc24, crc32};

type Check = fn(&[u8]) -> u32;

/// The best of nine runs, each over some four million bytes.
fn nanoseconds_a_byte(check: Check, bytes: &[u8]) -> f64 {
    let times = (4_000_000 / bytes.len()).max(1);
    let run = || {
        let start = Instant::now();
        for _ in 0..times {
            black_box(check(black_box(bytes)));
        }
        start.elapsed().as_nanos() as f64 / (times * bytes.len()) as f64
    };
    (0..9).map(|_| run()).fold(f64::INFINITY, f64::min)
}

fn main() {
    let bytes = Numbers::from_seed(1).bytes(131_071);
    println!("| check | bytes | ours, ns/byte | Rust, ns/byte | ratio |");
    println!("|---|---|---|---|---|");
    let checks: [(&str, Check, Check); 2] = [
        ("CRC24", crc24, plain::crc24),
        ("CRC32", crc32, plain::crc32),
    ];
    for (name, ours, rust) in checks {
        for len in [64, 4_096, 131_071] {
            let part = &bytes[..len];
            let (a, b) = (
                nanoseconds_a_byte(ours, part),
                nanoseconds_a_byte(rust, part),
            );
            println!("| {name} | {len} | {a:.2} | {b:.2} | {:.2} |", a / b);
        }
    }
}
