//! Both checks against the byte-at-a-time version and against values known from outside.

use tanglegoose_host::plain::{self, Numbers};
use tanglegoose_host::{crc24, crc32};

#[test]
fn known_values() {
    assert_eq!(crc24(b""), 0x875060);
    assert_eq!(crc24(&[0x00, 0x00, 0x02]), 0xc4366a);
    assert_eq!(crc24(b"123456789"), 0x4b3f02);
    assert_eq!(crc32(b""), 0x44777ed3);
    assert_eq!(crc32(&[0x00]), 0xcd9c1b9d);
    assert_eq!(crc32(b"123456789"), 0xe2a261a7);
}

fn agree(bytes: &[u8]) {
    assert_eq!(crc24(bytes), plain::crc24(bytes), "CRC24 of {bytes:02x?}");
    assert_eq!(crc32(bytes), plain::crc32(bytes), "CRC32 of {bytes:02x?}");
}

/// All zero, all ff, counting, and three times random bytes.
fn patterns(len: usize, numbers: &mut Numbers) -> Vec<Vec<u8>> {
    let mut all = vec![
        vec![0x00; len],
        vec![0xff; len],
        (0..len).map(|i| i as u8).collect(),
    ];
    all.extend((0..3).map(|_| numbers.bytes(len)));
    all
}

#[test]
fn every_length_to_300() {
    let mut numbers = Numbers::from_seed(0x7a6e);
    for len in 0..=300 {
        for bytes in patterns(len, &mut numbers) {
            agree(&bytes);
        }
    }
}

#[test]
fn long_inputs() {
    let mut numbers = Numbers::from_seed(0x600_5e);
    for len in [4_096, 131_071] {
        for bytes in patterns(len, &mut numbers) {
            agree(&bytes);
        }
    }
}

#[test]
fn every_single_byte_and_pair() {
    for first in 0..=255u8 {
        agree(&[first]);
        for second in 0..=255u8 {
            agree(&[first, second]);
        }
    }
}

#[test]
fn random_lengths() {
    let mut numbers = Numbers::from_seed(0x1974f0b);
    for _ in 0..4_000 {
        let len = (numbers.next() % 2_000) as usize;
        agree(&numbers.bytes(len));
    }
}

/// One changed bit changes both checks: the comparison above can tell two inputs apart.
#[test]
fn a_changed_bit_is_seen() {
    let bytes = Numbers::from_seed(9).bytes(64);
    for bit in 0..8 * bytes.len() {
        let mut other = bytes.clone();
        other[bit / 8] ^= 1 << (bit % 8);
        assert_ne!(crc24(&bytes), crc24(&other), "bit {bit}");
        assert_ne!(crc32(&bytes), crc32(&other), "bit {bit}");
    }
}
