//! A strict reader of PNG files, with its own inflate (RFC 1951): whatever is not as it has to be is a panic.

pub struct Picture {
    pub width: usize,
    pub height: usize,
    pub pixels: Vec<[u8; 3]>,
    /// The chunks' names in order.
    pub chunks: Vec<String>,
    pub description: String,
}

impl Picture {
    pub fn at(&self, x: usize, y: usize) -> [u8; 3] {
        self.pixels[y * self.width + x]
    }

    pub fn count(&self, colour: [u8; 3]) -> usize {
        self.pixels.iter().filter(|&&p| p == colour).count()
    }

    /// The words of a picture of layers, and its layers: it is cut at the rule of ink, 12 pixels off each side.
    pub fn halves(&self) -> [Picture; 2] {
        let is_rule = |row: &[[u8; 3]]| row[12..self.width - 12].iter().all(|&p| p == [0x33; 3]);
        let rule = self.pixels.chunks(self.width).position(is_rule).expect("a rule under the words");
        let part = |pixels: &[[u8; 3]]| Picture {
            width: self.width,
            height: pixels.len() / self.width,
            pixels: pixels.to_vec(),
            chunks: self.chunks.clone(),
            description: self.description.clone(),
        };
        [part(&self.pixels[..rule * self.width]), part(&self.pixels[(rule + 1) * self.width..])]
    }
}

struct Header {
    width: usize,
    height: usize,
    depth: usize,
    samples: usize,
}

pub fn parse(file: &[u8]) -> Picture {
    let rest = file.strip_prefix(b"\x89PNG\r\n\x1a\n").expect("the signature");
    let chunks = chunks(rest);
    let find = |name: &str| chunks.iter().filter(|(n, _)| n == name).flat_map(|(_, data)| data.iter().copied()).collect::<Vec<u8>>();
    assert_eq!(chunks.first().map(|(n, _)| n.as_str()), Some("IHDR"));
    assert_eq!(chunks.last().map(|(n, d)| (n.as_str(), d.len())), Some(("IEND", 0)));
    let header = header(&find("IHDR"));
    let (palette, data) = (find("PLTE"), unzip(&find("IDAT")));
    let lines = unfiltered(&header, &data);
    let pixels = lines.iter().flat_map(|line| colours(&header, &palette, line)).collect();
    Picture {
        width: header.width,
        height: header.height,
        pixels,
        chunks: chunks.iter().map(|(n, _)| n.clone()).collect(),
        description: find("tEXt").iter().map(|&b| char::from(b)).collect(),
    }
}

fn number(bytes: &[u8]) -> usize {
    u32::from_be_bytes(bytes[..4].try_into().expect("four bytes")) as usize
}

fn chunks(mut rest: &[u8]) -> Vec<(String, Vec<u8>)> {
    let mut found = Vec::new();
    while !rest.is_empty() {
        let length = number(rest);
        let named = &rest[4..8 + length];
        assert_eq!(number(&rest[8 + length..]), crc(named) as usize, "a chunk's check sum");
        found.push((String::from_utf8(named[..4].to_vec()).expect("a name"), named[4..].to_vec()));
        rest = &rest[12 + length..];
    }
    found
}

fn crc(bytes: &[u8]) -> u32 {
    let mut sum = !0u32;
    for &byte in bytes {
        sum ^= u32::from(byte);
        for _ in 0..8 {
            sum = sum >> 1 ^ if sum & 1 == 1 { 0xEDB8_8320 } else { 0 };
        }
    }
    !sum
}

fn header(data: &[u8]) -> Header {
    assert_eq!(data.len(), 13);
    assert_eq!(data[10..], [0, 0, 0], "deflate, the usual filters, not interlaced");
    let samples = match (data[8], data[9]) {
        (4, 3) => 1,
        (8, 2) => 3,
        (8, 6) => 4,
        other => panic!("neither by palette nor in true colour: {other:?}"),
    };
    Header { width: number(data), height: number(&data[4..]), depth: data[8] as usize, samples }
}

/// The lines' bytes, with each line's filter undone.
fn unfiltered(header: &Header, data: &[u8]) -> Vec<Vec<u8>> {
    let length = (header.width * header.depth * header.samples).div_ceil(8);
    let step = (header.depth * header.samples / 8).max(1);
    assert_eq!(data.len(), header.height * (length + 1), "as many bytes as the picture has");
    let mut lines: Vec<Vec<u8>> = Vec::new();
    let mut above = vec![0u8; length];
    for coded in data.chunks(length + 1) {
        let mut line = coded[1..].to_vec();
        for i in 0..length {
            let left = if i >= step { i32::from(line[i - step]) } else { 0 };
            let corner = if i >= step { i32::from(above[i - step]) } else { 0 };
            let up = i32::from(above[i]);
            let guess = match coded[0] {
                0 => 0,
                1 => left,
                2 => up,
                3 => (left + up) / 2,
                4 => paeth(left, up, corner),
                other => panic!("there is no filter {other}"),
            };
            line[i] = line[i].wrapping_add(guess as u8);
        }
        above.clone_from(&line);
        lines.push(line);
    }
    lines
}

fn paeth(left: i32, up: i32, corner: i32) -> i32 {
    let guess = left + up - corner;
    let far = |p: i32| (guess - p).abs();
    if far(left) <= far(up) && far(left) <= far(corner) {
        left
    } else if far(up) <= far(corner) {
        up
    } else {
        corner
    }
}

fn colours(header: &Header, palette: &[u8], line: &[u8]) -> Vec<[u8; 3]> {
    if header.samples > 1 {
        return line.chunks(header.samples).map(|p| [p[0], p[1], p[2]]).collect();
    }
    let entry = |n: u8| <[u8; 3]>::try_from(&palette[3 * n as usize..3 * n as usize + 3]).expect("three bytes of the palette");
    let all = line.iter().flat_map(|b| [b >> 4, b & 15]).map(entry);
    all.take(header.width).collect()
}

// ---- zlib

struct Bits<'a> {
    bytes: &'a [u8],
    at: usize,
}

impl Bits<'_> {
    fn take(&mut self, count: usize) -> usize {
        (0..count).fold(0, |number, i| {
            let bit = self.bytes[self.at / 8] >> (self.at % 8) & 1;
            self.at += 1;
            number | usize::from(bit) << i
        })
    }

    /// The symbol of the code that comes next: codes of one length are consecutive numbers, in the order of their symbols.
    fn symbol(&mut self, lengths: &[usize]) -> usize {
        let (mut code, mut first) = (0, 0);
        for length in 1..=15 {
            code = code << 1 | self.take(1);
            first <<= 1;
            let count = lengths.iter().filter(|&&l| l == length).count();
            if code < first + count {
                let of_length = lengths.iter().enumerate().filter(|(_, &l)| l == length);
                return of_length.map(|(symbol, _)| symbol).nth(code - first).expect("a symbol");
            }
            first += count;
        }
        panic!("no symbol has that code")
    }
}

pub fn unzip(data: &[u8]) -> Vec<u8> {
    assert_eq!((data[0] & 15, number(&[0, 0, data[0], data[1]]) % 31), (8, 0), "the head of a zlib stream");
    let mut bits = Bits { bytes: &data[2..data.len() - 4], at: 0 };
    let mut out = Vec::new();
    loop {
        let last = bits.take(1) == 1;
        match bits.take(2) {
            0 => stored(&mut bits, &mut out),
            1 => {
                let fixed: Vec<usize> =
                    (0..288).map(|s| [8, 9, 7, 8][(s > 143) as usize + (s > 255) as usize + (s > 279) as usize]).collect();
                block(&mut bits, &mut out, &fixed, &[5; 30]);
            }
            2 => {
                let (literals, distances) = codes(&mut bits);
                block(&mut bits, &mut out, &literals, &distances);
            }
            _ => panic!("there is no such block"),
        }
        if last {
            break;
        }
    }
    assert_eq!(bits.at.div_ceil(8), bits.bytes.len(), "nothing follows the last block");
    assert_eq!(number(&data[data.len() - 4..]), adler(&out), "the check sum of the data");
    out
}

fn adler(data: &[u8]) -> usize {
    let (mut a, mut b) = (1usize, 0usize);
    for &byte in data {
        a = (a + usize::from(byte)) % 65521;
        b = (b + a) % 65521;
    }
    b << 16 | a
}

fn stored(bits: &mut Bits, out: &mut Vec<u8>) {
    bits.at = bits.at.next_multiple_of(8);
    let (length, inverse) = (bits.take(16), bits.take(16));
    assert_eq!(length ^ inverse, 0xFFFF);
    out.extend(&bits.bytes[bits.at / 8..bits.at / 8 + length]);
    bits.at += 8 * length;
}

fn block(bits: &mut Bits, out: &mut Vec<u8>, literals: &[usize], distances: &[usize]) {
    loop {
        match bits.symbol(literals) {
            literal @ 0..=255 => out.push(literal as u8),
            256 => return,
            symbol => {
                let length = length(bits, symbol - 257);
                let symbol = bits.symbol(distances);
                let back = distance(bits, symbol);
                assert!(back <= out.len(), "nothing lies that far back");
                (0..length).for_each(|_| out.push(out[out.len() - back]));
            }
        }
    }
}

/// Four symbols to each number of extra bits, but for the first eight and the last.
fn length(bits: &mut Bits, symbol: usize) -> usize {
    match symbol {
        0..=7 => 3 + symbol,
        28 => 258,
        _ => {
            let extra = symbol / 4 - 1;
            3 + ((4 + symbol % 4) << extra) + bits.take(extra)
        }
    }
}

fn distance(bits: &mut Bits, symbol: usize) -> usize {
    if symbol < 4 {
        return 1 + symbol;
    }
    let extra = symbol / 2 - 1;
    1 + ((2 + symbol % 2) << extra) + bits.take(extra)
}

/// The code lengths of a block that brings its own.
fn codes(bits: &mut Bits) -> (Vec<usize>, Vec<usize>) {
    let (literals, distances, given) = (257 + bits.take(5), 1 + bits.take(5), 4 + bits.take(4));
    let mut outer = [0; 19];
    for place in [16, 17, 18, 0, 8, 7, 9, 6, 10, 5, 11, 4, 12, 3, 13, 2, 14, 1, 15].into_iter().take(given) {
        outer[place] = bits.take(3);
    }
    let mut lengths: Vec<usize> = Vec::new();
    while lengths.len() < literals + distances {
        let (value, times) = match bits.symbol(&outer) {
            16 => (*lengths.last().expect("a length before"), 3 + bits.take(2)),
            17 => (0, 3 + bits.take(3)),
            18 => (0, 11 + bits.take(7)),
            length => (length, 1),
        };
        lengths.extend(vec![value; times]);
    }
    let after = lengths.split_off(literals);
    (lengths, after)
}
