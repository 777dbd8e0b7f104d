//! A line in the making, and its numbers in digits, three at a time.

/// Of each number below 1,000, from the lowest byte on: its digits without zeros before them, and a blank; how many
/// bytes these are; its three digits. The rest is never asked for.
static TEXTS: [u64; 1_024] = {
    let mut texts = [0; 1_024];
    let mut number = 0;
    while number < 1_000 {
        let digits = 0x30_30_30 | number / 100 | (number / 10 % 10) << 8 | (number % 10) << 16;
        let zeros = (number < 100) as u64 + (number < 10) as u64;
        let text = (BLANK | digits) >> (8 * zeros);
        texts[number as usize] = text | (4 - zeros) << 32 | digits << 40;
        number += 1;
    }
    texts
};

/// A blank behind three bytes.
const BLANK: u64 = 0x20 << 24;

/// The room that a line is put together in: as much as its length can count, and the longest text that is put at once.
/// What is put too much is put over by what comes next.
pub const ROOM: usize = 256 + 32;

/// A line in the making. What puts something into it gives the line with it.
pub struct Line<'a> {
    room: &'a mut [u8; ROOM],
    length: u8,
}

impl<'a> Line<'a> {
    #[inline(always)]
    pub fn start(room: &'a mut [u8; ROOM]) -> Line<'a> {
        Line { room, length: 0 }
    }

    pub fn length(&self) -> u8 {
        self.length
    }

    /// Puts a text, of which the first `length` bytes count.
    #[inline(always)]
    pub fn text<const N: usize>(self, text: [u8; N], length: u8) -> Line<'a> {
        let at = usize::from(self.length);
        self.room[at..at + N].copy_from_slice(&text);
        Line { length: self.length + length, ..self }
    }

    /// Puts a word and a blank, which it ends with.
    #[inline(always)]
    pub fn word<const N: usize>(self, word: &[u8; N]) -> Line<'a> {
        self.text(*word, N as u8)
    }

    /// Puts a number and a blank.
    #[inline(always)]
    pub fn number(self, number: u64) -> Line<'a> {
        if number < 1_000 {
            self.short_number(number)
        } else {
            self.long_number(number)
        }
    }

    /// Puts a number below 1,000 and a blank.
    #[inline(always)]
    pub fn short_number(self, number: u64) -> Line<'a> {
        let text = TEXTS[number as usize % TEXTS.len()];
        self.text((text as u32).to_le_bytes(), (text >> 32) as u8)
    }

    /// Puts the number's thousands, then in the place of their blank its last three digits and a blank.
    #[inline(never)]
    fn long_number(self, number: u64) -> Line<'a> {
        let line = self.number(number / 1_000);
        let digits = TEXTS[number as usize % 1_000] >> 40 | BLANK;
        Line { length: line.length - 1, ..line }.text((digits as u32).to_le_bytes(), 4)
    }

    /// Puts a newline in the place of the last blank. The answer is the line's length.
    #[inline(always)]
    pub fn end(self) -> usize {
        self.room[usize::from(self.length - 1)] = b'\n';
        self.length.into()
    }
}
