//! A zlib stream (RFC 1950, 1951) that shortens runs of one byte and nothing else: enough for pictures of flat colours.

/// The code of a literal byte: its bits, highest first, and how many (RFC 1951, 3.2.6).
fn literal(byte: u8) -> (u32, u32) {
    match byte {
        0..=143 => (0x30 + u32::from(byte), 8),
        _ => (0x190 + u32::from(byte) - 144, 9),
    }
}

/// The longest repetition of the byte before that fits, with its code: 258 times, or 10 to 3 times. All of them need no extra bits.
fn repetition(run: usize) -> Option<(usize, (u32, u32))> {
    match run {
        258.. => Some((258, (0xC5, 8))),
        3.. => Some((run.min(10), (run.min(10) as u32 - 2, 7))),
        _ => None,
    }
}

/// Bits into bytes, the lowest bit of a byte first.
#[derive(Default)]
struct Bits {
    bytes: Vec<u8>,
    filled: u32,
}

impl Bits {
    fn put(&mut self, bit: bool) {
        if self.filled.is_multiple_of(8) {
            self.bytes.push(0);
        }
        if bit {
            *self.bytes.last_mut().expect("a byte was just pushed") |= 1 << (self.filled % 8);
        }
        self.filled += 1;
    }

    /// A code goes in from its highest bit.
    fn code(&mut self, (bits, count): (u32, u32)) {
        for i in (0..count).rev() {
            self.put(bits >> i & 1 == 1);
        }
    }
}

/// The check sum at the end (RFC 1950, 8.2).
fn adler(data: &[u8]) -> u32 {
    let (a, b) = data.iter().fold((1u32, 0u32), |(a, b), &byte| {
        let a = (a + u32::from(byte)) % 65521;
        (a, (b + a) % 65521)
    });
    b << 16 | a
}

/// The data as one block of fixed codes.
pub fn zlib(data: &[u8]) -> Vec<u8> {
    let mut bits = Bits { bytes: vec![0x78, 0x01], filled: 0 };
    // the last block; of kind 1, whose lower bit comes first
    [true, true, false].into_iter().for_each(|bit| bits.put(bit));
    let mut at = 0;
    while at < data.len() {
        let run = data[at..].iter().take_while(|&&byte| at > 0 && byte == data[at - 1]).take(258).count();
        match repetition(run) {
            Some((length, code)) => {
                bits.code(code);
                // the distance: one byte back
                bits.code((0, 5));
                at += length;
            }
            None => {
                bits.code(literal(data[at]));
                at += 1;
            }
        }
    }
    bits.code((0, 7));
    let mut bytes = bits.bytes;
    bytes.extend(adler(data).to_be_bytes());
    bytes
}

#[cfg(test)]
#[allow(dead_code)]
#[path = "../tests/common/png.rs"]
mod reader;

#[cfg(test)]
mod tests {
    use super::{reader::unzip, zlib};

    #[test]
    fn every_byte_and_every_run_comes_back() {
        let bytes: Vec<u8> = (0..=255).collect();
        assert_eq!(unzip(&zlib(&bytes)), bytes);
        for run in 0..600 {
            let data = [vec![200; run], vec![7, 7, 9], vec![0; run]].concat();
            assert_eq!(unzip(&zlib(&data)), data);
        }
        assert!(zlib(&[0; 10_000]).len() < 200, "runs are shortened");
    }
}
