//! Little-endian numbers of any width.

/// The number that these bytes write, lowest byte first.
pub fn number(bytes: &[u8]) -> u64 {
    bytes.iter().rev().fold(0, |higher, &byte| higher * 256 + u64::from(byte))
}

/// Puts a number of `width` bytes at the end, lowest byte first. The number has to fit.
pub fn put(bytes: &mut Vec<u8>, width: usize, value: u64) {
    let all = value.to_le_bytes();
    assert!(all[width..].iter().all(|&byte| byte == 0), "{value} does not fit in {width} bytes");
    bytes.extend_from_slice(&all[..width]);
}

#[cfg(test)]
mod tests {
    use super::*;

    #[test]
    fn the_lowest_byte_comes_first() {
        assert_eq!(number(&[]), 0);
        assert_eq!(number(&[7]), 7);
        assert_eq!(number(&[0x34, 0x12]), 0x1234);
        assert_eq!(number(&[0x78, 0x56, 0x34, 0x12]), 0x1234_5678);
        assert_eq!(number(&[0xff; 4]), 4_294_967_295);

        let mut bytes = vec![9];
        put(&mut bytes, 1, 7);
        put(&mut bytes, 2, 0x1234);
        put(&mut bytes, 4, 0x1234_5678);
        assert_eq!(bytes, [9, 7, 0x34, 0x12, 0x78, 0x56, 0x34, 0x12]);
    }

    #[test]
    #[should_panic(expected = "256 does not fit in 1 bytes")]
    fn a_number_that_is_too_large_is_not_cut() {
        put(&mut Vec::new(), 1, 256);
    }
}
