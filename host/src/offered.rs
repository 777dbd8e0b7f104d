//! What may be offered to a posting as its record: the bytes of a quote, or other bytes made of them.

use crate::numbers::number;

/// Whether a quote has two charge records: the first ends before it does.
pub fn is_of_two(quote: &[u8]) -> bool {
    2 + (number(&quote[..2]) as usize) < quote.len()
}

#[derive(Clone, Copy, Debug, PartialEq, Eq)]
pub enum Offered {
    /// All that was quoted.
    Whole,
    /// Its first bytes, so many.
    Cut(usize),
    /// With so many zeros behind it.
    Longer(usize),
    /// With the byte at this place one off.
    Off(usize),
    /// Of two charge records, which have one length, the first alone.
    First,
    /// The second alone.
    Second,
    /// The second before the first.
    Swapped,
}

impl Offered {
    pub fn bytes(self, quote: &[u8]) -> Vec<u8> {
        let (first, second) = quote.split_at(quote.len() / 2);
        match self {
            Offered::Whole => quote.to_vec(),
            Offered::Cut(length) => quote[..length].to_vec(),
            Offered::Longer(more) => [quote, &vec![0; more]].concat(),
            Offered::Off(place) => (0..).zip(quote).map(|(at, &byte)| byte ^ u8::from(at == place)).collect(),
            Offered::First => first.to_vec(),
            Offered::Second => second.to_vec(),
            Offered::Swapped => [second, first].concat(),
        }
    }
}
