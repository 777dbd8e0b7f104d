//! `c/expected-crew.txt` is what the model makes of the sample for a crew, in the words of `c/crew.c`.

use milecopper_host::maker::bytes_of;
use milecopper_host::model::page::{PAGE_BYTES, PLACE_BYTES};
use milecopper_host::model::record::record_at;
use milecopper_host::model::statement::{ChargeRecord, LARGEST_STATEMENT};
use milecopper_host::model::{self, close, settle_member, Refusal};
use milecopper_host::numbers::number;

/// An association, and the number of one of its members.
type Member = (u32, u32);

fn told(what: &str, (association, member): Member, answer: Result<usize, Refusal>) -> String {
    let words = match answer {
        Ok(written) => format!("{written} bytes written."),
        Err(refusal) => {
            assert_eq!(refusal.number, 19, "no other refusal is met");
            "refused (19). There is no account for this member on the page; or there is one already, where it should be opened."
                .to_string()
        }
    };
    format!("{what} member {member} of association {association}: {words}\n")
}

fn settled(tariff: &[u8], page: &mut [u8], (association, member): Member, trip: &[u8]) -> String {
    let mut statement = [0; LARGEST_STATEMENT];
    match settle_member(tariff, page, association, member, trip, &mut statement) {
        Ok(written) => {
            let records = ChargeRecord::read_all(&statement[..written]).expect("charge records");
            let cents: u64 = records.iter().map(ChargeRecord::total).sum();
            format!("A trip of member {member} of association {association}: {cents} cents.\n")
        }
        refused => told("A trip of", (association, member), refused),
    }
}

#[test]
fn the_crew_of_the_sample() {
    let tariff = bytes_of(include_str!("../../samples/tariff.txt")).expect("a tariff");
    let roll = bytes_of(include_str!("../../samples/roll.txt")).expect("a roll");
    let (mut page, crew) = (vec![0; PAGE_BYTES], [(0, 4_711), (0, 815), (1, 815)]);
    let add = |page: &mut [u8], member: Member| told("Adding", member, model::add(page, member.0, member.1));
    let mut text: String = crew.map(|member| add(&mut page, member)).concat();
    text += &add(&mut page, crew[1]);
    let mut place = 0;
    for member in crew.into_iter().cycle() {
        let Some(record) = roll.get(place..).and_then(|rest| record_at(rest, 0)) else { break };
        let trip = &roll[place..place + record.size()];
        text += &settled(&tariff, &mut page, member, trip);
        place += trip.len();
    }
    text += &told("Closing", crew[0], close(&mut page, 0, 4_711));
    text += &settled(&tariff, &mut page, crew[0], &roll[..record_at(&roll, 0).expect("a trip").size()]);
    text += &add(&mut page, (0, 7));
    for (place, bytes) in page.chunks(PLACE_BYTES).enumerate().filter(|(_, bytes)| number(&bytes[..4]) != 0) {
        text += &format!("Place {place}: member {} of association {}.\n", number(&bytes[..4]), place / 6);
    }
    assert_eq!(text, include_str!("../c/expected-crew.txt"));
}
