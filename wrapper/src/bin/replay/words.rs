//! The words of a script's line, and how bytes are hashed.

pub struct Words<'a>(std::str::SplitAsciiWhitespace<'a>);

impl<'a> Words<'a> {
    pub fn of(line: &'a str) -> Self {
        Words(line.split_ascii_whitespace())
    }

    pub fn word(&mut self) -> Result<&'a str, String> {
        self.0.next().ok_or_else(|| "a word is missing".to_string())
    }

    /// A number that its place in a call can hold: what is beyond it cannot be called with, and is a mistake.
    pub fn number<T: TryFrom<i128>>(&mut self) -> Result<T, String> {
        number(self.word()?)
    }

    /// All the numbers up to the end of the line.
    pub fn rest<T: TryFrom<i128>>(&mut self) -> Result<Vec<T>, String> {
        self.0.by_ref().map(number).collect()
    }

    pub fn yes_or_no(&mut self) -> Result<bool, String> {
        match self.word()? {
            "0" => Ok(false),
            "1" => Ok(true),
            word => Err(format!("not 0 or 1: {word}")),
        }
    }

    /// Bytes as hexadecimal digits; no word is no bytes.
    pub fn bytes(&mut self) -> Result<Vec<u8>, String> {
        let word = self.0.next().unwrap_or("");
        let digits: Option<Vec<u8>> = word.chars().map(|c| c.to_digit(16).map(|d| d as u8)).collect();
        match digits {
            Some(digits) if digits.len() % 2 == 0 => Ok(digits.chunks(2).map(|d| 16 * d[0] + d[1]).collect()),
            _ => Err(format!("not bytes in hexadecimal: {word}")),
        }
    }

    pub fn hexadecimal(&mut self) -> Result<u32, String> {
        let word = self.word()?;
        let add = |sum: u32, c: char| Some(sum.checked_mul(16)? + c.to_digit(16)?);
        word.chars().try_fold(0, add).ok_or_else(|| format!("not a block in hexadecimal: {word}"))
    }

    /// Nothing may follow on the line.
    pub fn end(&mut self) -> Result<(), String> {
        match self.0.next() {
            None => Ok(()),
            Some(word) => Err(format!("one word too many: {word}")),
        }
    }
}

fn number<T: TryFrom<i128>>(word: &str) -> Result<T, String> {
    // Rust's own reading also takes a plus sign, which the language has not.
    let value: Option<i128> = if word.starts_with('+') { None } else { word.parse().ok() };
    value.and_then(|v| T::try_from(v).ok()).ok_or_else(|| format!("not a number that can stand here: {word}"))
}

/// FNV-1a, 64 bits.
pub fn hash(bytes: impl IntoIterator<Item = u8>) -> String {
    let step = |h: u64, b: u8| (h ^ u64::from(b)).wrapping_mul(0x0100_0000_01b3);
    format!("{:016x}", bytes.into_iter().fold(0xcbf2_9ce4_8422_2325, step))
}
