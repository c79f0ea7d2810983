//! The layers as one picture: side by side, each with its z above it, under the title, the line and the key.

use crate::body::Kind;
use crate::font::{dots, ADVANCE, HEIGHT};
use crate::look::View;
use crate::png::Image;
use std::ops::RangeInclusive;

/// Pixels between layers, and above each for its number.
const GAP: usize = 12;
const TITLE: usize = 18;
/// Pixels along a dot of a layer's number.
const NUMBER: usize = 2;
/// The least width, for the words; and the one from which they are written twice as large.
const NARROW: usize = 320;
const ROOMY: usize = 600;
/// Palette numbers: 0 is the paper, and a kind has its own number added to the first.
const INK: u8 = 1;
const FIRST_KIND: u8 = 2;

pub fn png(view: &View, layers: RangeInclusive<usize>, scale: Option<usize>) -> Vec<u8> {
    let (a, b) = (view.scan.sides.a, view.scan.sides.b);
    let scale = scale.unwrap_or(if a.max(b) <= 32 { 8 } else { 4 });
    let layers = view.layers(layers);
    let (wide, high) = (a * scale + GAP, b * scale + TITLE + GAP);
    let across = across(layers.len(), wide, high);
    let width = (across * wide + GAP).max(NARROW);
    let words = Words::of(view, width);
    let first = words.height();
    let mut image = Image::new(width, first + layers.len().div_ceil(across) * high, palette());
    words.draw(&mut image);
    for (i, (z, layer)) in layers.into_iter().enumerate() {
        let (left, top) = (GAP + i % across * wide, first + i / across * high);
        write(&mut image, left, top, NUMBER, &z.to_string());
        draw(&mut image, left, top + TITLE, layer, a, scale);
    }
    let key: Vec<String> = view.key.iter().map(|&k| format!("{} {}", web(k.colour()), k.name())).collect();
    image.file(&format!("{}\n{}\n{}", view.title(), view.line, key.join(", ")))
}

/// A colour as pages and descriptions write it.
pub fn web([r, g, b]: [u8; 3]) -> String {
    format!("#{r:02x}{g:02x}{b:02x}")
}

/// How many layers beside each other make the picture about half as wide again as it is high.
fn across(layers: usize, wide: usize, high: usize) -> usize {
    (1..layers).find(|n| 2 * n * wide >= 3 * layers.div_ceil(*n) * high).unwrap_or(layers)
}

fn palette() -> Vec<[u8; 3]> {
    [[0xFF; 3], [0x33; 3]].into_iter().chain(Kind::ALL.map(Kind::colour)).collect()
}

fn draw(image: &mut Image, left: usize, top: usize, layer: &[Kind], width: usize, scale: usize) {
    // a line of paper between voxels, where there is room, so that they can be counted
    let dot = if scale >= 4 { scale - 1 } else { scale };
    for (i, &kind) in layer.iter().enumerate() {
        image.fill(left + i % width * scale, top + i / width * scale, dot, dot, FIRST_KIND + kind as u8);
    }
}

fn write(image: &mut Image, left: usize, top: usize, dot: usize, text: &str) {
    dots(text).for_each(|(column, row)| image.fill(left + dot * column, top + dot * row, dot, dot, INK));
}

// ---- what stands above the layers

/// Lines of words, and a rule under them. In the key's lines a square of its colour stands before each kind that occurs.
struct Words {
    /// Each word or kind with its colour, its column and its line.
    placed: Vec<(String, Option<Kind>, usize, usize)>,
    lines: usize,
    /// Pixels along a letter's dot.
    dot: usize,
}

impl Words {
    fn of(view: &View, width: usize) -> Words {
        let dot = if width >= ROOMY { 2 } else { 1 };
        let mut words = Words { placed: Vec::new(), lines: 0, dot };
        let columns = (width - 2 * GAP) / (dot * ADVANCE);
        for text in [view.title(), view.line.clone()] {
            words.add(columns, 1, text.split(' ').flat_map(|word| pieces(word, columns)).map(|word| (word, None)));
        }
        let occurring = view.key.iter().filter(|&&kind| view.count(kind) > 0);
        words.add(columns, 3, occurring.map(|&kind| (format!("  {}: {}", kind.name(), view.count(kind)), Some(kind))));
        words
    }

    /// Begins a line, and another wherever the next word has no room.
    fn add(&mut self, columns: usize, space: usize, words: impl Iterator<Item = (String, Option<Kind>)>) {
        let mut column = 0;
        for (word, kind) in words {
            let length = word.chars().count();
            if column > 0 && column + length > columns {
                (column, self.lines) = (0, self.lines + 1);
            }
            self.placed.push((word, kind, column, self.lines));
            column += length + space;
        }
        self.lines += 1;
    }

    /// Pixels from a line to the next.
    fn step(&self) -> usize {
        self.dot * (HEIGHT + 3)
    }

    /// Where the first layer's number begins.
    fn height(&self) -> usize {
        GAP + self.lines * self.step() + GAP
    }

    fn draw(&self, image: &mut Image) {
        let square = 7 * self.dot;
        for (word, kind, column, line) in &self.placed {
            let (left, top) = (GAP + self.dot * ADVANCE * column, GAP + line * self.step());
            write(image, left, top, self.dot, word);
            if let Some(kind) = kind {
                image.fill(left, top, square, square, FIRST_KIND + *kind as u8);
            }
        }
        image.fill(GAP, self.height() - GAP, image.width - 2 * GAP, 1, INK);
    }
}

/// A word cut where it is longer than a line: a file's name may be.
fn pieces(word: &str, columns: usize) -> Vec<String> {
    let letters: Vec<char> = word.chars().collect();
    letters.chunks(columns).map(|piece| piece.iter().collect()).collect()
}
