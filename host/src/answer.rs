//! The number that settling, also under a ceiling, a quote, a posting, a reading, a correction and the calls on a page answer, taken
//! apart.

use std::fmt;

/// What became of a trip, of a record that was read, or of a page.
#[derive(Clone, Copy, Debug, PartialEq, Eq)]
pub enum Answer {
    /// So many bytes were written: to the statement, by a posting to the book, by adding and closing to the page. Of a reading,
    /// the record's bytes.
    Accepted { bytes: u32 },
    /// `place` is the offset in the tariff file for the first three refusals, else 0.
    Refused { refusal: Refusal, place: u32 },
}

/// The refusals, in the order in which they are tried, in which 8, 9, 17, 10 and 22 stand between 6 and 7. Settling and a quote
/// give those up to 12; a posting has 13 in the place of 12. A reading gives 14 to 16, and then 12. 18 to 20 are of a page of accounts
/// alone, with 21 before them: adding gives these four, closing the first three of them, and settling a member those three between
/// 3 and 4. Settling under a monthly ceiling gives 24, and then what settling gives. A correction gives 23, 1 to 3 and 12.
#[derive(Clone, Copy, Debug, PartialEq, Eq)]
pub enum Refusal {
    WrongCeiling = 24,
    NoRecord = 23,
    TariffBroken = 1,
    TariffMisshapen = 2,
    TariffValue = 3,
    WrongAssociation = 21,
    WrongPage = 18,
    WrongMember = 19,
    NoPlace = 20,
    BookUnsound = 4,
    TripMisshapen = 5,
    TripCounts = 6,
    NoSuchTime = 8,
    TripBackward = 9,
    Mistap = 17,
    BeforeLastTrip = 10,
    NoEdition = 22,
    UnknownStop = 7,
    WindowFull = 11,
    NoRoom = 12,
    OtherRecord = 13,
    RecordBroken = 14,
    RecordMisshapen = 15,
    RecordValue = 16,
}

impl Answer {
    /// The answer that this number stands for, or nothing where nothing is answered so.
    pub fn of(number: u64) -> Option<Answer> {
        let low = number as u32;
        match number >> 32 {
            0 if low == 0 => None,
            0 => Some(Answer::Accepted { bytes: low }),
            refusal => Some(Answer::Refused { refusal: Refusal::of(refusal)?, place: low }),
        }
    }
}

impl Refusal {
    pub const ALL: [Refusal; 24] = [
        Refusal::WrongCeiling,
        Refusal::NoRecord,
        Refusal::TariffBroken,
        Refusal::TariffMisshapen,
        Refusal::TariffValue,
        Refusal::WrongAssociation,
        Refusal::WrongPage,
        Refusal::WrongMember,
        Refusal::NoPlace,
        Refusal::BookUnsound,
        Refusal::TripMisshapen,
        Refusal::TripCounts,
        Refusal::NoSuchTime,
        Refusal::TripBackward,
        Refusal::Mistap,
        Refusal::BeforeLastTrip,
        Refusal::NoEdition,
        Refusal::UnknownStop,
        Refusal::WindowFull,
        Refusal::NoRoom,
        Refusal::OtherRecord,
        Refusal::RecordBroken,
        Refusal::RecordMisshapen,
        Refusal::RecordValue,
    ];

    /// Those of a page of accounts alone, in their order.
    pub const OF_A_PAGE: [Refusal; 4] =
        [Refusal::WrongAssociation, Refusal::WrongPage, Refusal::WrongMember, Refusal::NoPlace];

    /// Those that settling and a quote give, in their order.
    pub fn of_settling() -> impl Iterator<Item = Refusal> {
        let last = Refusal::ALL.iter().position(|&refusal| refusal == Refusal::NoRoom);
        let up_to_it = Refusal::ALL.into_iter().take(1 + last.expect("one of them"));
        let others = [Refusal::WrongCeiling, Refusal::NoRecord];
        up_to_it.filter(move |refusal| !others.contains(refusal) && !Refusal::OF_A_PAGE.contains(refusal))
    }

    /// The refusal with this number.
    pub fn of(number: u64) -> Option<Refusal> {
        Refusal::ALL.into_iter().find(|&refusal| refusal as u64 == number)
    }

    /// A few words about it.
    pub fn text(self) -> &'static str {
        match self {
            Refusal::WrongCeiling => "ceiling or amount above the most, or the pair's length",
            Refusal::NoRecord => "no nth record, or its frame broken",
            Refusal::TariffBroken => "tariff frame broken",
            Refusal::TariffMisshapen => "tariff misshapen",
            Refusal::TariffValue => "tariff value",
            Refusal::WrongAssociation => "no such association",
            Refusal::WrongPage => "page misshapen, or a member's number",
            Refusal::WrongMember => "no such member, or there already",
            Refusal::NoPlace => "no free place",
            Refusal::BookUnsound => "book not sound",
            Refusal::TripMisshapen => "trip misshapen",
            Refusal::TripCounts => "trip counts",
            Refusal::UnknownStop => "unknown stop",
            Refusal::NoSuchTime => "no such time",
            Refusal::TripBackward => "trip backward or too long",
            Refusal::Mistap => "mistap",
            Refusal::BeforeLastTrip => "before the last check-out",
            Refusal::NoEdition => "before the first edition",
            Refusal::WindowFull => "257th trip of the window",
            Refusal::NoRoom => "statement or fields too short",
            Refusal::OtherRecord => "not the present quote",
            Refusal::RecordBroken => "record frame broken",
            Refusal::RecordMisshapen => "record misshapen",
            Refusal::RecordValue => "record value",
        }
    }
}

impl fmt::Display for Answer {
    fn fmt(&self, out: &mut fmt::Formatter) -> fmt::Result {
        match self {
            Answer::Accepted { bytes } => write!(out, "accepted, {bytes} bytes written"),
            Answer::Refused { refusal, place } => {
                write!(out, "refused {} at {place} ({})", *refusal as u32, refusal.text())
            }
        }
    }
}

#[cfg(test)]
mod tests {
    use super::*;

    #[test]
    fn numbers_and_what_they_stand_for() {
        assert_eq!(Answer::of(0), None);
        assert_eq!(Answer::of(26), Some(Answer::Accepted { bytes: 26 }));
        assert_eq!(Answer::of(1 << 32), Some(Answer::Refused { refusal: Refusal::TariffBroken, place: 0 }));
        assert_eq!(Answer::of((3 << 32) + 29), Some(Answer::Refused { refusal: Refusal::TariffValue, place: 29 }));
        assert_eq!(Answer::of(12 << 32), Some(Answer::Refused { refusal: Refusal::NoRoom, place: 0 }));
        assert_eq!(Answer::of(13 << 32), Some(Answer::Refused { refusal: Refusal::OtherRecord, place: 0 }));
        assert_eq!(Answer::of(16 << 32), Some(Answer::Refused { refusal: Refusal::RecordValue, place: 0 }));
        assert_eq!(Answer::of(17 << 32), Some(Answer::Refused { refusal: Refusal::Mistap, place: 0 }));
        assert_eq!(Answer::of(20 << 32), Some(Answer::Refused { refusal: Refusal::NoPlace, place: 0 }));
        assert_eq!(Answer::of(21 << 32), Some(Answer::Refused { refusal: Refusal::WrongAssociation, place: 0 }));
        assert_eq!(Answer::of(22 << 32), Some(Answer::Refused { refusal: Refusal::NoEdition, place: 0 }));
        assert_eq!(Answer::of(23 << 32), Some(Answer::Refused { refusal: Refusal::NoRecord, place: 0 }));
        assert_eq!(Answer::of(24 << 32), Some(Answer::Refused { refusal: Refusal::WrongCeiling, place: 0 }));
        assert_eq!(Answer::of(25 << 32), None);
        assert_eq!(Answer::of(u64::MAX), None);
        assert!((1..=24).all(|number| Refusal::of(number).is_some_and(|refusal| refusal as u64 == number)));
    }
}
