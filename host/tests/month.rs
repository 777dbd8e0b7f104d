//! `c/expected-month.txt` is what the model makes of the sample under a monthly ceiling, in the words of `c/month.c`; and over any
//! roll the amount of a month is the smaller of the ceiling and what its records charge.

use milecopper_host::differential::random::Random;
use milecopper_host::maker::bytes_of;
use milecopper_host::model::book::BOOK_BYTES;
use milecopper_host::model::month::{Kept, DUE_BYTES, KEPT_BYTES};
use milecopper_host::model::record::record_at;
use milecopper_host::model::statement::{ChargeRecord, LARGEST_STATEMENT};
use milecopper_host::model::{settle_month, Refusal};
use milecopper_host::numbers::number;

/// An account whose trips are settled under a ceiling.
struct Account {
    book: Vec<u8>,
    kept: Vec<u8>,
}

impl Account {
    fn fresh() -> Account {
        Account { book: vec![0; BOOK_BYTES], kept: vec![0; KEPT_BYTES] }
    }

    /// What a trip is charged and what is due of it.
    fn settle(&mut self, ceiling: u32, tariff: &[u8], trip: &[u8]) -> Result<(u64, u64), Refusal> {
        let (mut statement, mut due) = ([0; LARGEST_STATEMENT], [0; DUE_BYTES]);
        let Account { book, kept } = self;
        let written = settle_month(ceiling, kept, tariff, book, trip, &mut statement, &mut due)?;
        let records = ChargeRecord::read_all(&statement[..written]).expect("charge records");
        Ok((records.iter().map(ChargeRecord::total).sum(), number(&due)))
    }

    fn pair(&self) -> Kept {
        Kept::read(&self.kept).expect("a pair")
    }
}

fn sample() -> (Vec<u8>, Vec<Vec<u8>>) {
    let tariff = bytes_of(include_str!("../../samples/tariff.txt")).expect("a tariff");
    let roll = bytes_of(include_str!("../../samples/roll.txt")).expect("a roll");
    let (mut trips, mut place) = (Vec::new(), 0);
    while let Some(record) = roll.get(place..).and_then(|rest| record_at(rest, 0)) {
        trips.push(roll[place..place + record.size()].to_vec());
        place += record.size();
    }
    (tariff, trips)
}

fn money(cents: u64) -> String {
    format!("{}.{:02} euro", cents / 100, cents % 100)
}

#[test]
fn the_month_of_the_sample() {
    let (ceiling, (tariff, trips)) = (2_000, sample());
    let mut account = Account::fresh();
    let mut text = format!("The ceiling is {} a month, counted in UTC by the check-in.\n", money(ceiling.into()));
    for (trip, place) in trips.iter().zip(1..) {
        text += &match account.settle(ceiling, &tariff, trip) {
            Ok((charged, due)) => {
                let Kept { month, amount } = account.pair();
                let month = format!("{}-{:02}", 2000 + month / 12, 1 + month % 12);
                let (charged, due, amount) = (money(charged), money(due), money(amount));
                format!("Trip {place}: {charged}, of which {due} is due. {month}: {amount} collected.\n")
            }
            Err(refusal) => {
                assert_eq!(refusal.number, 10, "no other refusal is met");
                format!("Trip {place} is refused (10). The trip starts before this account's last trip ended.\n")
            }
        };
    }
    assert_eq!(text, include_str!("../c/expected-month.txt"));
}

/// With one ceiling held, trips that go on from year to year: the sample's roll again and again, each time somewhat later.
#[test]
fn the_amount_of_a_month() {
    let (tariff, trips) = sample();
    let mut random = Random::of(1, 0);
    for ceiling in [0, 1, 511, 2_769, 2_770, 2_771, 10_000, 1_000_000] {
        let (mut account, mut month, mut charged_in_it, mut refused) = (Account::fresh(), 0, 0, 0);
        for year in 2026..2040_u16 {
            for trip in &trips {
                let mut trip = trip.clone();
                trip[4..6].copy_from_slice(&year.to_le_bytes());
                trip[11..13].copy_from_slice(&year.to_le_bytes());
                trip[20] = random.below(3) as u8;
                let Ok((charged, _)) = account.settle(ceiling, &tariff, &trip) else {
                    refused += 1;
                    continue;
                };
                let pair = account.pair();
                charged_in_it = charged + if pair.month == month { charged_in_it } else { 0 };
                month = pair.month;
                assert_eq!(pair.amount, charged_in_it.min(ceiling.into()), "{year}, under {ceiling}");
            }
        }
        assert_eq!(refused, 14, "one a year");
    }
}
