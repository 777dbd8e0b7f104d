//! What the program prints, line by line, through a buffer.

use super::line::{Line, ROOM};
use super::{Cents, Km, Minutes, Refusal};
use std::io::{self, Write};

const BUFFER: usize = 8_192;

/// The lines that are not written yet, and what the next one has in common with the last: the number of its record, which
/// goes up where that is said, and the opening minute.
pub struct Lines<W> {
    out: W,
    buffer: [u8; BUFFER],
    end: usize,
    number: Counter,
    opening: Opening,
}

/// What a line says of a part of a trip that is accepted.
pub struct Charged {
    pub area: usize,
    pub km: Km,
    pub minutes: Minutes,
    pub opening: Minutes,
    pub cents: Cents,
}

/// What the tail says.
#[derive(Default)]
pub struct Tally {
    pub accepted: u32,
    pub refused: u32,
    pub cents: u64,
}

impl<W: Write> Lines<W> {
    pub fn to(out: W) -> Lines<W> {
        Lines { out, buffer: [0; BUFFER], end: 0, number: Counter::NONE, opening: Opening::NONE }
    }

    pub fn put_fault(&mut self, fault: Refusal) -> io::Result<()> {
        let line = self.start()?.word(b"tariff refused ").number(fault.number().into());
        self.end += line.word(b"at ").number(fault.place().into()).end();
        Ok(())
    }

    pub fn put_header(&mut self) -> io::Result<()> {
        self.end += self.start()?.word(b"trip area km min open cents ").end();
        Ok(())
    }

    /// The lines that come next are those of the next record.
    #[inline(always)]
    pub fn next_record(&mut self) {
        self.number.count();
    }

    #[inline(always)]
    pub fn put_charged(&mut self, charged: &Charged) -> io::Result<()> {
        let (number, length) = self.number.text();
        let (opening, opening_length) = self.opening.at(charged.opening);
        let line = self.start()?.text(number, length).short_number(charged.area as u64);
        let line = line.number(charged.km.into()).number(charged.minutes.into());
        self.end += line.text(opening, opening_length).number(charged.cents.into()).end();
        Ok(())
    }

    pub fn put_refused(&mut self, refusal: u32) -> io::Result<()> {
        let (number, length) = self.number.text();
        self.end += self.start()?.text(number, length).word(b"refused ").short_number(refusal.into()).end();
        Ok(())
    }

    pub fn put_tail(&mut self, tally: &Tally) -> io::Result<()> {
        let line = self.start()?.word(b"accepted ").number(tally.accepted.into());
        let line = line.word(b"refused ").number(tally.refused.into());
        self.end += line.word(b"cents ").number(tally.cents).end();
        Ok(())
    }

    /// A line behind the others, which are written first where there is no room for it.
    #[inline(always)]
    fn start(&mut self) -> io::Result<Line<'_>> {
        if self.end > BUFFER - ROOM {
            self.write()?;
        }
        let room = self.buffer[self.end..].first_chunk_mut();
        Ok(Line::start(room.expect("there is room for a line")))
    }

    /// Writes all lines that are not written yet.
    pub fn write(&mut self) -> io::Result<()> {
        let end = std::mem::take(&mut self.end);
        self.out.write_all(&self.buffer[..end])
    }
}

/// The number of a record in digits, and a blank; counted up digit by digit.
struct Counter {
    /// The first digit is the lowest byte.
    text: u64,
    /// The bits below the last digit.
    last: u32,
}

impl Counter {
    const NONE: Counter = Counter { text: u64::from_le_bytes(*b"0 \0\0\0\0\0\0"), last: 0 };

    /// The number's text and length.
    #[inline(always)]
    fn text(&self) -> ([u8; 8], u8) {
        (self.text.to_le_bytes(), (self.last / 8 + 2) as u8)
    }

    #[inline(always)]
    fn count(&mut self) {
        self.text += 1 << self.last;
        if (self.text >> self.last) as u8 > b'9' {
            self.carry();
        }
    }

    /// A digit that has come to ten goes back to 0, and the one before it goes up.
    #[cold]
    fn carry(&mut self) {
        let mut digit = self.last;
        while (self.text >> digit) as u8 > b'9' {
            self.text -= 10 << digit;
            if digit == 0 {
                self.text = self.text << 8 | u64::from(b'0');
                self.last += 8;
            } else {
                digit -= 8;
            }
            self.text += 1 << digit;
        }
    }
}

/// An opening minute in digits, and a blank. Most lines share it with the line before.
struct Opening {
    minute: Minutes,
    text: [u8; 16],
    length: u8,
}

impl Opening {
    const NONE: Opening = Opening { minute: Minutes::MAX, text: [0; 16], length: 0 };

    /// The minute's text and length.
    #[inline(always)]
    fn at(&mut self, minute: Minutes) -> ([u8; 16], u8) {
        if self.minute != minute {
            self.work_out(minute);
        }
        (self.text, self.length)
    }

    #[cold]
    fn work_out(&mut self, minute: Minutes) {
        let mut room = [0; ROOM];
        self.minute = minute;
        self.length = Line::start(&mut room).number(minute.into()).length();
        self.text.copy_from_slice(&room[..16]);
    }
}
