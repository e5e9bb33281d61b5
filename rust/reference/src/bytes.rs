//! Little-endian numbers (rule 1.1).

/// The number in the `width` bytes from `offset`: the byte at distance `i` counts 256^i.
pub fn number_at(bytes: &[u8], offset: usize, width: usize) -> u64 {
    let mut number = 0;
    for i in 0..width {
        number += u64::from(bytes[offset + i]) << (8 * i);
    }
    number
}

/// Writes a number to the `width` bytes from `offset`.
pub fn put_number(bytes: &mut [u8], offset: usize, width: usize, number: u64) {
    for i in 0..width {
        bytes[offset + i] = (number >> (8 * i)) as u8;
    }
}

#[cfg(test)]
mod tests {
    use super::*;

    #[test]
    fn the_first_byte_counts_least() {
        let bytes = [9, 0x01, 0x02, 0x03, 0x04, 0x05, 0x06, 0x07, 0xf8, 9];
        assert_eq!(number_at(&bytes, 1, 1), 0x01);
        assert_eq!(number_at(&bytes, 1, 2), 0x0201);
        assert_eq!(number_at(&bytes, 1, 4), 0x0403_0201);
        assert_eq!(number_at(&bytes, 1, 8), 0xf807_0605_0403_0201);
    }

    #[test]
    fn a_number_is_put_without_touching_its_neighbours() {
        let mut bytes = [0xee; 6];
        put_number(&mut bytes, 1, 4, 0x1234_5678);
        assert_eq!(bytes, [0xee, 0x78, 0x56, 0x34, 0x12, 0xee]);
    }
}
