//! A correction, as it is given to both sides.

use crate::differential::report::hexadecimal;

#[derive(Clone, Debug)]
pub struct CorrectionCase {
    pub tariff: Vec<u8>,
    pub roll: Vec<u8>,
    pub n: u32,
    pub replacement: Vec<u8>,
    /// Bytes of the slice for the statements, and of the one for the differences.
    pub room: usize,
    pub differences: usize,
    /// How it was made, for whoever reads about a difference.
    pub story: Vec<&'static str>,
}

impl CorrectionCase {
    pub fn in_words(&self) -> String {
        let CorrectionCase { tariff, roll, n, replacement, room, differences, story } = self;
        let slices = [("tariff", tariff), ("roll", roll), ("replacement", replacement)];
        let lent: String = slices
            .iter()
            .map(|(name, bytes)| format!("{name} of {} bytes:{}\n", bytes.len(), hexadecimal(bytes)))
            .collect();
        format!(
            "{}\n{lent}record {n} corrected, with {room} bytes for the statements and {differences} for the differences\n",
            story.join(", "),
        )
    }
}
