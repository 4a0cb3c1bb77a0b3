//! Both checks a byte at a time, by a table: written apart from the library, to compare its answers and its speed with.

const fn table24() -> [u32; 256] {
    let mut table = [0; 256];
    let mut byte = 0;
    while byte < 256 {
        let mut value = (byte as u32) << 16;
        let mut bit = 0;
        while bit < 8 {
            value <<= 1;
            if value & 0x100_0000 != 0 {
                value ^= 0x197_4f0b;
            }
            bit += 1;
        }
        table[byte] = value;
        byte += 1;
    }
    table
}

const fn table32() -> [u32; 256] {
    let mut table = [0; 256];
    let mut byte = 0;
    while byte < 256 {
        let mut value = byte as u32;
        let mut bit = 0;
        while bit < 8 {
            value = if value & 1 == 1 {
                (value >> 1) ^ 0xedb8_8320
            } else {
                value >> 1
            };
            bit += 1;
        }
        table[byte] = value;
        byte += 1;
    }
    table
}

static TABLE24: [u32; 256] = table24();
static TABLE32: [u32; 256] = table32();

pub fn crc24(bytes: &[u8]) -> u32 {
    bytes.iter().fold(0x87_5060, |value, byte| {
        let top = (value >> 16) as u8 ^ byte;
        ((value << 8) & 0xff_ffff) ^ TABLE24[top as usize]
    })
}

pub fn crc32(bytes: &[u8]) -> u32 {
    let step = |value: u32, byte: &u8| (value >> 8) ^ TABLE32[(value as u8 ^ byte) as usize];
    let start = [0xfa, 0x2d, 0x55, 0xca].iter().fold(!0, step);
    !bytes.iter().fold(start, step)
}

/// Numbers that look random and are the same in every run (Marsaglia's xorshift, 64 bits).
pub struct Numbers(u64);

impl Numbers {
    pub fn from_seed(seed: u64) -> Self {
        Numbers(seed.max(1))
    }

    pub fn next(&mut self) -> u64 {
        self.0 ^= self.0 << 13;
        self.0 ^= self.0 >> 7;
        self.0 ^= self.0 << 17;
        self.0
    }

    pub fn bytes(&mut self, len: usize) -> Vec<u8> {
        (0..len).map(|_| (self.next() >> 32) as u8).collect()
    }
}
