//! What both plain readers of text share: a text read line by line, no line gone over twice.

/// A refused text: the number and the line.
pub type Refused = (u32, usize);

/// Where a reader stands: at the start of a line, so many lines taken before it.
pub struct Lines<'a> {
    text: &'a [u8],
    at: usize,
    taken: usize,
}

/// Four bytes as one number, so that a word is compared at once.
pub const fn word(bytes: &[u8; 4]) -> u32 {
    u32::from_le_bytes(*bytes)
}

impl<'a> Lines<'a> {
    pub fn new(text: &'a [u8]) -> Lines<'a> {
        Lines { text, at: 0, taken: 0 }
    }

    /// The byte so far from the start of the line; 0 past the end, which no form has.
    #[inline(always)]
    pub fn byte(&self, k: usize) -> u8 {
        self.text.get(self.at + k).copied().unwrap_or(0)
    }

    /// The first four bytes of the line, or 0 where fewer are left.
    #[inline(always)]
    pub fn four(&self) -> u32 {
        match self.text.get(self.at..self.at + 4) {
            Some(&[a, b, c, d]) => word(&[a, b, c, d]),
            _ => 0,
        }
    }

    /// Whether the line goes on so from there.
    #[inline(always)]
    pub fn goes_on(&self, k: usize, with: &[u8]) -> bool {
        self.text[self.at + k..].starts_with(with)
    }

    /// The number that begins there, and where it ends: 0, or digits without a leading zero. One of more than 18 digits is past
    /// every limit.
    #[inline(always)]
    pub fn number(&self, k: usize) -> Option<(u64, usize)> {
        let first = self.byte(k).wrapping_sub(b'0');
        if first > 9 {
            return None;
        }
        let (mut n, mut end) = (first as u64, k + 1);
        while first > 0 {
            let digit = self.byte(end).wrapping_sub(b'0');
            if digit > 9 {
                break;
            }
            n = n.wrapping_mul(10).wrapping_add(digit as u64);
            end += 1;
        }
        Some((if end - k > 18 { u64::MAX } else { n }, end))
    }

    /// Whether a line ends there with a closing bracket.
    #[inline(always)]
    pub fn closes(&self, k: usize) -> bool {
        self.byte(k) == b')' && self.byte(k + 1) == b'\n'
    }

    /// Takes so many bytes, a whole line.
    #[inline(always)]
    pub fn take(&mut self, length: usize) {
        self.at += length;
        self.taken += 1;
    }

    /// Takes a closing line, where there is one.
    #[inline(always)]
    pub fn close(&mut self) -> bool {
        let closes = self.closes(0);
        if closes {
            self.take(2);
        }
        closes
    }

    /// Takes the first line.
    pub fn open(&mut self, line: &[u8], unfinished: u32, no_form: u32) -> Result<(), Refused> {
        if !self.goes_on(0, line) {
            return Err(self.unexpected(unfinished, no_form));
        }
        self.take(line.len());
        Ok(())
    }

    /// Why the line that begins here is refused, where it is none that may stand here.
    #[cold]
    pub fn unexpected(&self, unfinished: u32, no_form: u32) -> Refused {
        let whole = self.text[self.at..].contains(&b'\n');
        (if whole { no_form } else { unfinished }, self.taken + 1)
    }

    /// The last line taken is refused.
    #[cold]
    pub fn refuse<T>(&self, number: u32) -> Result<T, Refused> {
        Err((number, self.taken))
    }

    /// Nothing may be left.
    pub fn end(&self, more: u32) -> Result<(), Refused> {
        if self.at < self.text.len() {
            return Err((more, self.taken + 1));
        }
        Ok(())
    }
}
