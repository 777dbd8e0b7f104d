//! Little-endian numbers, and the ranges of several at once.

/// Whether it is compiled for x86-64, which has half as many wide registers as Arm, and no wide comparison of numbers without
/// sign.
pub const FOR_X86_64: bool = cfg!(any(target_arch = "x86_64", for_x86_64));

/// The number of two bytes at a fixed place.
#[inline(always)]
pub fn two<const N: usize>(bytes: &[u8; N], at: usize) -> u32 {
    u16::from_le_bytes(piece(bytes, at)).into()
}

/// The number of four bytes at a fixed place.
#[inline(always)]
pub fn four<const N: usize>(bytes: &[u8; N], at: usize) -> u32 {
    u32::from_le_bytes(piece(bytes, at))
}

/// The number of eight bytes at a fixed place.
#[inline(always)]
pub fn eight<const N: usize>(bytes: &[u8; N], at: usize) -> u64 {
    u64::from_le_bytes(piece(bytes, at))
}

#[inline(always)]
fn piece<const N: usize, const M: usize>(bytes: &[u8; N], at: usize) -> [u8; M] {
    *bytes[at..].first_chunk().expect("a place within the record")
}

/// The ranges of fields that lie side by side in eight bytes. No field that has one needs its top bit, so that one
/// subtraction and one addition tell of all fields together whether one is out of its range: then a top bit is set.
pub struct Ranges {
    least: u64,
    /// For each field the greatest number below the top bit, less its greatest value above the least.
    room: u64,
    tops: u64,
}

/// Sixteen bits that have no range.
pub const ANY_TWO_BYTES: (u32, u64, u64) = (16, 0, 0xffff);

impl Ranges {
    /// Of each field the bits, the least value and the greatest. The first field is the lowest.
    pub const fn of(fields: &[(u32, u64, u64)]) -> Ranges {
        let mut ranges = Ranges { least: 0, room: 0, tops: 0 };
        let (mut field, mut at) = (0, 0);
        while field < fields.len() {
            let (bits, least, greatest) = fields[field];
            let top = 1 << (bits - 1);
            if greatest < top {
                ranges.least |= least << at;
                ranges.room |= (top - 1 - (greatest - least)) << at;
                ranges.tops |= top << at;
            }
            at += bits;
            field += 1;
        }
        ranges
    }

    /// Each field less its least value, or nothing where one is out of its range: the lowest that is gets its top bit
    /// set, since those below it neither borrow nor carry.
    #[inline(always)]
    pub fn above_least(&self, fields: u64) -> Option<u64> {
        (self.strays(fields) & self.tops == 0).then_some(fields.wrapping_sub(self.least))
    }

    /// Bits among which a top bit is set where a field is out of its range. Those of several such numbers may be taken
    /// together before the top bits are looked at.
    #[inline(always)]
    pub fn strays(&self, fields: u64) -> u64 {
        let above = fields.wrapping_sub(self.least);
        above | above.wrapping_add(self.room)
    }

    pub const fn tops(&self) -> u64 {
        self.tops
    }
}
