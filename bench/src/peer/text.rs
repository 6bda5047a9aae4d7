//! Lines, tokens and numbers. The end of the file counts as a byte 10. A
//! reader that meets what it is not for answers with refusal 2.

pub const MALFORMED: u32 = 2;

/// Stands for every number of more than nine digits; above every limit.
const HUGE: u32 = 1_000_000_000;

pub struct Text<'a> {
    bytes: &'a [u8],
    at: usize,
}

fn is_blank(byte: u8) -> bool {
    matches!(byte, b' ' | b'\t' | b'\r')
}

impl Text<'_> {
    fn byte(&self) -> u8 {
        self.bytes.get(self.at).copied().unwrap_or(b'\n')
    }

    fn skip_blanks(&mut self) {
        while is_blank(self.byte()) {
            self.at += 1;
        }
    }

    /// The token ends here.
    fn end_token(&self) -> Result<(), u32> {
        if is_blank(self.byte()) || self.byte() == b'\n' {
            Ok(())
        } else {
            Err(MALFORMED)
        }
    }

    fn digits(&mut self) -> Result<u32, u32> {
        let start = self.at;
        let mut value = 0u32;
        while self.byte().is_ascii_digit() {
            value = value.wrapping_mul(10).wrapping_add(u32::from(self.byte() - b'0'));
            self.at += 1;
        }
        self.end_token()?;
        match self.at - start {
            0 => Err(MALFORMED),
            1 => Ok(value),
            _ if self.bytes[start] == b'0' => Err(MALFORMED),
            2..=9 => Ok(value),
            _ => Ok(HUGE),
        }
    }

    /// A number without a minus.
    pub fn natural(&mut self) -> Result<u32, u32> {
        self.skip_blanks();
        self.digits()
    }

    /// A literal as twice its variable, plus 1 if it is negative; or 0.
    pub fn literal(&mut self) -> Result<u32, u32> {
        self.skip_blanks();
        if self.byte() != b'-' {
            return Ok(2 * self.digits()?);
        }
        self.at += 1;
        match self.digits()? {
            0 => Err(MALFORMED),
            variable => Ok(2 * variable + 1),
        }
    }

    /// Numbers up to a zero.
    pub fn naturals(&mut self, list: &mut Vec<u32>) -> Result<(), u32> {
        list.clear();
        loop {
            match self.natural()? {
                0 => return Ok(()),
                n => list.push(n),
            }
        }
    }

    /// Literals up to a zero, put behind those that are there.
    pub fn literals(&mut self, list: &mut Vec<u32>) -> Result<(), u32> {
        loop {
            match self.literal()? {
                0 => return Ok(()),
                l => list.push(l),
            }
        }
    }

    /// This word, as a token.
    pub fn word(&mut self, word: &[u8]) -> Result<(), u32> {
        self.skip_blanks();
        if !self.bytes[self.at..].starts_with(word) {
            return Err(MALFORMED);
        }
        self.at += word.len();
        self.end_token()
    }

    /// Nothing more in the line.
    pub fn end_line(&mut self) -> Result<(), u32> {
        self.skip_blanks();
        if self.byte() != b'\n' {
            return Err(MALFORMED);
        }
        self.at += 1;
        Ok(())
    }

    fn skip_line(&mut self) {
        while self.byte() != b'\n' {
            self.at += 1;
        }
        self.at += 1;
    }
}

/// Judges the lines that are not skipped, each by its first byte, until one is
/// refused: its number and line.
pub fn lines(bytes: &[u8], mut judge: impl FnMut(&mut Text, u8) -> Result<(), u32>) -> Result<(), (u32, u32)> {
    let mut text = Text { bytes, at: 0 };
    let mut line = 0;
    while text.at < bytes.len() {
        line += 1;
        text.skip_blanks();
        match text.byte() {
            b'\n' | b'c' => text.skip_line(),
            first => judge(&mut text, first).map_err(|number| (number, line))?,
        }
    }
    Ok(())
}
