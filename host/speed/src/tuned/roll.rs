//! The program: it settles a roll of trips one after another on one book, and prints a line for each, two where a trip is
//! broken.

use super::book::{Book, BOOK};
use super::charge::charge_party;
use super::editions::{Editions, ROOM};
use super::fare::Ride;
use super::lines::{Charged, Lines, Tally};
use super::numbers::two;
use super::parts::{Part, Parts};
use super::tariff::Tariff;
use super::trip::Trip;
use super::{Minutes, Refusal};
use std::io::{self, ErrorKind, Read, Write};

const MOST_RECORDS: u32 = 65_535;
/// The longest record has 1,026 bytes.
const BUFFER: usize = 8_192;
/// The slots of the account holder, ten adults, ten children and ten bicycles.
const SLOTS: usize = 21 * 10 + 10 * 4;

/// Settles the roll under the tariff and prints what the program prints; of a roll that cannot be read to its end the
/// lines so far, and no tail.
pub fn settle_roll(tariff: &[u8], roll: impl Read, out: impl Write) -> io::Result<()> {
    let mut lines = Lines::to(out);
    let mut room = ROOM;
    let read = match Editions::read(tariff, &mut room) {
        Err(fault) => lines.put_fault(fault),
        Ok(editions) => settle_records(&editions, roll, &mut lines),
    };
    lines.write().and(read)
}

/// Header, lines and tail.
fn settle_records(editions: &Editions, mut roll: impl Read, lines: &mut Lines<impl Write>) -> io::Result<()> {
    lines.put_header()?;
    let mut book = [0; BOOK];
    let mut run = Run { editions, book: Book::fresh(&mut book), slots: [0; SLOTS], tally: Tally::default() };
    let mut buffer = [0; BUFFER];
    let mut kept = 0;
    loop {
        let got = read(&mut roll, &mut buffer[kept..])?;
        let bytes = &buffer[..kept + got];
        let Some(rest) = run.settle_whole(bytes, lines)? else {
            break;
        };
        if got == 0 {
            run.settle_end(rest, lines)?;
            break;
        }
        let settled = bytes.len() - rest.len();
        kept = rest.len();
        buffer.copy_within(settled..settled + kept, 0);
    }
    lines.put_tail(&run.tally)
}

fn read(roll: &mut impl Read, buffer: &mut [u8]) -> io::Result<usize> {
    loop {
        match roll.read(buffer) {
            Err(error) if error.kind() == ErrorKind::Interrupted => (),
            answer => return answer,
        }
    }
}

struct Run<'a> {
    editions: &'a Editions<'a>,
    /// Sound from its start on, since settling leaves it sound.
    book: Book<'a>,
    slots: [u8; SLOTS],
    tally: Tally,
}

/// A trip that is accepted, and stands in the book but for its charges.
struct Entered<'a> {
    trip: Trip,
    parts: Parts,
    opening: Minutes,
    /// That of the window's edition.
    tariff: &'a Tariff<'a>,
}

impl<'a> Run<'a> {
    /// Settles all records that are whole. The answer is the bytes behind them, or nothing where the run is over.
    fn settle_whole<'b>(&mut self, bytes: &'b [u8], lines: &mut Lines<impl Write>) -> io::Result<Option<&'b [u8]>> {
        let mut rest = bytes;
        while let Some(head) = rest.first_chunk::<4>() {
            let length = two(head, 0) as usize;
            if !(2..=1_024).contains(&length) {
                self.refuse(5, lines)?;
                return Ok(None);
            }
            let Some((record, further)) = rest.split_at_checked(2 + length) else {
                break;
            };
            match self.enter(record) {
                Ok(entered) => self.accept(&entered, lines)?,
                Err(refusal) => self.refuse(refusal.number(), lines)?,
            }
            if self.tally.accepted + self.tally.refused == MOST_RECORDS {
                return Ok(None);
            }
            rest = further;
        }
        Ok(Some(rest))
    }

    /// What is left where the roll ends is a broken frame.
    fn settle_end(&mut self, rest: &[u8], lines: &mut Lines<impl Write>) -> io::Result<()> {
        if rest.is_empty() {
            Ok(())
        } else {
            self.refuse(5, lines)
        }
    }

    /// Finds the refusals as `settle` does, but for that of the room: no record is written.
    #[inline(always)]
    fn enter(&mut self, trip: &[u8]) -> Result<Entered<'a>, Refusal> {
        let (trip, numbers) = Trip::read(trip)?;
        let window = self.book.window_for(&trip, self.editions)?;
        let tariff = self.editions.tariff(window.edition);
        let parts = trip.parts(numbers, tariff)?;
        let window = window.counting(parts.many())?;
        self.book.enter(&window, trip.check_out);
        Ok(Entered { trip, parts, opening: window.opening, tariff })
    }

    #[inline(always)]
    fn accept(&mut self, entered: &Entered, lines: &mut Lines<impl Write>) -> io::Result<()> {
        self.tally.accepted += 1;
        lines.next_record();
        self.charge(entered, &entered.parts.first, lines)?;
        match entered.parts.second {
            None => Ok(()),
            Some(part) => self.charge_second(entered, part, lines),
        }
    }

    /// Charges a part as `settle` does, and puts its line.
    #[inline(always)]
    fn charge(&mut self, entered: &Entered, part: &Part, lines: &mut Lines<impl Write>) -> io::Result<()> {
        let &Entered { ref trip, opening, tariff, .. } = entered;
        let Run { book, slots, tally, .. } = self;
        let ride = Ride::of(tariff, trip, part);
        let cents = charge_party(tariff, trip, &ride, book, slots);
        tally.cents += u64::from(cents);
        lines.put_charged(&Charged { area: ride.area, km: ride.km, minutes: ride.minutes, opening, cents })
    }

    /// Few trips have a second part: it stands out of the way.
    #[inline(never)]
    fn charge_second(&mut self, entered: &Entered, part: Part, lines: &mut Lines<impl Write>) -> io::Result<()> {
        self.charge(entered, &part, lines)
    }

    fn refuse(&mut self, refusal: u32, lines: &mut Lines<impl Write>) -> io::Result<()> {
        self.tally.refused += 1;
        lines.next_record();
        lines.put_refused(refusal)
    }
}
