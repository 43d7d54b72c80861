//! Eight bytes at a time: tests and numbers over the bytes of a word.

const ONES: u64 = u64::from_ne_bytes([1; 8]);
const HIGHEST: u64 = u64::from_ne_bytes([0x80; 8]);
const ZEROS: u64 = u64::from_ne_bytes([b'0'; 8]);
/// The flag of the first byte of a word whose lowest byte is the first.
pub const FIRST: u64 = 0x80;
pub const SPACES: u64 = u64::from_ne_bytes([b' '; 8]);

/// The highest bit of each byte that is this one. Above a byte over 127 the flags
/// mean nothing, for it may borrow from the next.
pub fn flags_of(word: u64, byte: u8) -> u64 {
    let differs = word ^ (ONES * u64::from(byte));
    HIGHEST.wrapping_sub(differs) & HIGHEST
}

/// The highest bit of each byte outside 32..126. Above the lowest of these the
/// flags mean nothing, for it may carry into the next.
pub fn flags_outside(word: u64) -> u64 {
    let above = word | word.wrapping_add(ONES);
    let below = !((word | HIGHEST) - SPACES);
    (above | below) & HIGHEST
}

/// Whether a byte of the word is a space.
pub fn has_space(word: u64) -> bool {
    let differs = word ^ SPACES;
    differs.wrapping_sub(ONES) & !differs & HIGHEST != 0
}

/// The number that eight digits write.
pub fn eight_digits(bytes: [u8; 8]) -> Option<u32> {
    // The first digit is in the lowest byte, where the shifts below find it.
    let digits = u64::from_le_bytes(bytes) ^ ZEROS;
    if (digits | (digits.wrapping_add(ONES * 6))) & (ONES * 0xF0) != 0 {
        return None;
    }
    let pairs = (digits * 10 + (digits >> 8)) & 0x00FF_00FF_00FF_00FF;
    let fours = (pairs * 100 + (pairs >> 16)) & 0x0000_FFFF_0000_FFFF;
    Some(((fours * 10_000 + (fours >> 32)) & 0xFFFF_FFFF) as u32)
}

/// The eight digits of a number below 100,000,000.
pub fn digits_of(number: u32) -> [u8; 8] {
    let number = u64::from(number);
    let fours = (number / 10_000) | ((number % 10_000) << 32);
    // A hundredth of each number below 10,000, then a tenth of each below 100.
    let hundreds = ((fours * 10_486) >> 20) & 0x0000_007F_0000_007F;
    let pairs = hundreds | ((fours - 100 * hundreds) << 16);
    let tens = ((pairs * 103) >> 10) & 0x000F_000F_000F_000F;
    let digits = tens | ((pairs - 10 * tens) << 8);
    (digits | ZEROS).to_le_bytes()
}

/// Up to eight bytes, the first in the highest place, and zeros after them.
pub fn word_of(text: &[u8]) -> u64 {
    let length = text.len();
    if let Some(bytes) = text.first_chunk() {
        return u64::from_be_bytes(*bytes);
    }
    // Four bytes from each end: where the two overlap they agree.
    if let (Some(first), Some(last)) = (text.first_chunk(), text.last_chunk()) {
        let first = u64::from(u32::from_be_bytes(*first)) << 32;
        let last = u64::from(u32::from_be_bytes(*last)) << (64 - 8 * length);
        return first | last;
    }
    text.iter()
        .rev()
        .fold(0, |word, &byte| (u64::from(byte) << 56) | (word >> 8))
}

/// Spaces in all but so many of the highest bytes.
pub fn spaces_after(length: usize) -> u64 {
    match length {
        0..8 => SPACES >> (8 * length),
        _ => 0,
    }
}

#[cfg(test)]
mod tests {
    use super::*;

    #[test]
    fn flags_are_on_the_bytes() {
        let word = u64::from_le_bytes(*b"a||b |~ ");
        assert_eq!(flags_of(word, b'|'), 0x0000_8000_0080_8000);
        assert_eq!(flags_outside(word), 0);
        for byte in 0..=255u8 {
            let word = u64::from_le_bytes([b'a', b'b', byte, b'|', b'~', b' ', b'0', b'Z']);
            let flags = flags_outside(word);
            let is_outside = !(32..=126).contains(&byte);
            assert_eq!(flags != 0, is_outside, "{byte}");
            assert!(!is_outside || flags.trailing_zeros() / 8 == 2, "{byte}");
        }
    }

    #[test]
    fn digits_are_numbers() {
        assert_eq!(eight_digits(*b"20220930"), Some(20220930));
        assert_eq!(eight_digits(*b"00000000"), Some(0));
        assert_eq!(eight_digits(*b"99999999"), Some(99_999_999));
        for place in 0..8 {
            for byte in (0..=255u8).filter(|byte| !byte.is_ascii_digit()) {
                let mut bytes = *b"98765432";
                bytes[place] = byte;
                assert_eq!(eight_digits(bytes), None, "{byte} at {place}");
            }
        }
    }

    #[test]
    fn numbers_are_digits() {
        for number in (0..100_000_000).step_by(9_973).chain(0..20_000) {
            let digits = digits_of(number);
            assert_eq!(digits, format!("{number:08}").as_bytes());
            assert_eq!(eight_digits(digits), Some(number));
        }
        assert_eq!(digits_of(99_999_999), *b"99999999");
    }

    #[test]
    fn words_have_their_bytes_first() {
        for length in 0..=8 {
            let mut bytes = [0; 8];
            bytes[..length].copy_from_slice(&b"ABCDEFGH"[..length]);
            assert_eq!(word_of(&b"ABCDEFGH"[..length]), u64::from_be_bytes(bytes));
        }
        assert_eq!(spaces_after(8), 0);
        assert_eq!(spaces_after(3), 0x20_2020_2020);
        assert!(has_space(word_of(b"AB CD")) && !has_space(word_of(b"AB")));
    }
}
