//! The words of a script's line (docs/CALL-SCRIPTS.md).

/// What is wrong with a line.
pub type Mistake = String;

pub struct Words<'a>(std::str::SplitAsciiWhitespace<'a>);

impl<'a> Words<'a> {
    pub fn of(line: &'a str) -> Self {
        Words(line.split_ascii_whitespace())
    }

    pub fn word(&mut self) -> Result<&'a str, Mistake> {
        self.0.next().ok_or("a word is missing".to_string())
    }

    /// A decimal number within the range of the type.
    pub fn number<T: TryFrom<i128>>(&mut self) -> Result<T, Mistake> {
        decimal(self.word()?)
    }

    /// Every number that is left.
    pub fn numbers<T: TryFrom<i128>>(&mut self) -> Result<Vec<T>, Mistake> {
        self.0.by_ref().map(decimal).collect()
    }

    /// Bytes as pairs of hexadecimal digits; no word is no bytes.
    pub fn bytes(&mut self) -> Result<Vec<u8>, Mistake> {
        let word = self.0.next().unwrap_or("");
        if !word.len().is_multiple_of(2) || !word.bytes().all(|b| b.is_ascii_hexdigit()) {
            return Err(format!("not bytes in hexadecimal: {word}"));
        }
        let byte = |i: usize| u8::from_str_radix(&word[i..i + 2], 16).map_err(|wrong| wrong.to_string());
        (0..word.len()).step_by(2).map(byte).collect()
    }

    /// A hexadecimal number of 32 bits.
    pub fn bits(&mut self) -> Result<u32, Mistake> {
        let word = self.word()?;
        let digits = word.bytes().all(|b| b.is_ascii_hexdigit());
        u32::from_str_radix(word, 16).ok().filter(|_| digits).ok_or(format!("not a block in hexadecimal: {word}"))
    }

    pub fn end(&mut self) -> Result<(), Mistake> {
        self.0.next().map_or(Ok(()), |word| Err(format!("a word too many: {word}")))
    }
}

fn decimal<T: TryFrom<i128>>(word: &str) -> Result<T, Mistake> {
    let digits = word.strip_prefix('-').unwrap_or(word);
    if digits.is_empty() || !digits.bytes().all(|b| b.is_ascii_digit()) {
        return Err(format!("not a number: {word}"));
    }
    let value = word.parse::<i128>().ok().and_then(|v| T::try_from(v).ok());
    value.ok_or(format!("out of range: {word}"))
}
