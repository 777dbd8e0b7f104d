//! A tariff checked alone, by the library: a faultless one's length, or the model's refusal and place.
#![cfg(feature = "library")]

use milecopper_host::library::check_tariff;
use milecopper_host::model::{read_file, Refusal};

const SAMPLE: &[u8] = include_bytes!("../../samples/tariff.bin");

fn due(tariff: &[u8]) -> u64 {
    match read_file(tariff) {
        Ok(_) => tariff.len() as u64,
        Err(Refusal { number, place }) => (u64::from(number) << 32) + u64::from(place),
    }
}

/// The sample and, behind it, the sample as a second edition; each of their beginnings, and each of its bytes changed in each bit.
#[test]
fn around_the_sample() {
    let mut both = SAMPLE.repeat(2);
    both[SAMPLE.len() + 4..SAMPLE.len() + 8].copy_from_slice(&[0xea, 7, 6, 1]);
    assert_eq!(check_tariff(SAMPLE), SAMPLE.len() as u64);
    assert_eq!(check_tariff(&both), both.len() as u64);
    assert_eq!(check_tariff(&[]), 2 << 32);
    for length in 0..both.len() {
        assert_eq!(check_tariff(&both[..length]), due(&both[..length]), "its first {length} bytes");
    }
    let mut faults = [0; 4];
    for place in 0..8 * both.len() {
        let mut tariff = both.clone();
        tariff[place / 8] ^= 1 << (place % 8);
        let answer = check_tariff(&tariff);
        assert_eq!(answer, due(&tariff), "with bit {place} changed");
        faults[(answer >> 32) as usize] += 1;
    }
    assert!(faults.iter().all(|&count| count > 100), "{faults:?}");
}
