//! A picture with a palette of up to 16 colours, as a PNG file.

use crate::deflate::zlib;

/// Colours are numbers into the palette, row by row from the top.
pub struct Image {
    pub width: usize,
    pub height: usize,
    pub palette: Vec<[u8; 3]>,
    pub pixels: Vec<u8>,
}

impl Image {
    pub fn new(width: usize, height: usize, palette: Vec<[u8; 3]>) -> Image {
        Image { width, height, palette, pixels: vec![0; width * height] }
    }

    pub fn fill(&mut self, x: usize, y: usize, width: usize, height: usize, colour: u8) {
        for row in y..y + height {
            self.pixels[row * self.width + x..][..width].fill(colour);
        }
    }

    /// The file, with a text that viewers show as the picture's description.
    pub fn file(&self, description: &str) -> Vec<u8> {
        let mut bytes = b"\x89PNG\r\n\x1a\n".to_vec();
        let sizes = [self.width as u32, self.height as u32].map(u32::to_be_bytes).concat();
        // 4 bits a pixel, by palette
        chunk(&mut bytes, b"IHDR", &[&sizes[..], &[4, 3, 0, 0, 0]].concat());
        chunk(&mut bytes, b"PLTE", &self.palette.concat());
        // Latin-1 is what a PNG text is written in
        let text: Vec<u8> = description.chars().map(|c| u8::try_from(u32::from(c)).unwrap_or(b'?')).collect();
        chunk(&mut bytes, b"tEXt", &[b"Description\0", &text[..]].concat());
        chunk(&mut bytes, b"IDAT", &zlib(&self.lines()));
        chunk(&mut bytes, b"IEND", &[]);
        bytes
    }

    /// The pixels, two in a byte. A line equal to the one above is written as the difference, which is all zeros.
    fn lines(&self) -> Vec<u8> {
        let mut bytes = Vec::new();
        let mut above: &[u8] = &[];
        for line in self.pixels.chunks(self.width) {
            let packed = line.chunks(2).map(|pair| pair[0] << 4 | pair.get(1).copied().unwrap_or(0));
            match line == above {
                true => bytes.extend(std::iter::once(2).chain(packed.map(|_| 0))),
                false => bytes.extend(std::iter::once(0).chain(packed)),
            }
            above = line;
        }
        bytes
    }
}

fn chunk(file: &mut Vec<u8>, name: &[u8; 4], data: &[u8]) {
    file.extend((data.len() as u32).to_be_bytes());
    let from = file.len();
    file.extend(name);
    file.extend(data);
    let sum = crc(&file[from..]);
    file.extend(sum.to_be_bytes());
}

/// The check sum of a chunk (PNG specification, annex D).
fn crc(bytes: &[u8]) -> u32 {
    !bytes.iter().fold(!0, |sum, &byte| (0..8).fold(sum ^ u32::from(byte), |s, _| if s & 1 == 1 { s >> 1 ^ 0xEDB8_8320 } else { s >> 1 }))
}
