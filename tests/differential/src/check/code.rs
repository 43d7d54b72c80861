//! Codes of up to 20 bytes, and of up to four, padded with spaces and held in
//! numbers, which order them as their bytes do.

use super::words::{flags_outside, has_space, spaces_after, word_of, SPACES};

#[derive(Clone, Copy, Debug, PartialEq, Eq, PartialOrd, Ord, Hash)]
pub struct Code {
    head: u64,
    middle: u64,
    tail: u32,
}

impl Code {
    pub const WIDTH: usize = 20;

    /// The code without a byte.
    pub const EMPTY: Code = Code {
        head: SPACES,
        middle: SPACES,
        tail: SPACES as u32,
    };

    /// The code that a text of bytes in 32..126 is: 1 to 20 of them, none a space.
    pub fn of_text(text: &[u8]) -> Option<Code> {
        if text.is_empty() || text.len() > Code::WIDTH {
            return None;
        }
        let head = word_of(text);
        let mut code = Code {
            head: head | spaces_after(text.len()),
            ..Code::EMPTY
        };
        let mut is_sound = !has_space(head);
        if text.len() > 8 {
            let (middle, tail) = (word_of(&text[8..]), word_of(text.get(16..).unwrap_or(&[])));
            code.middle = middle | spaces_after(text.len() - 8);
            code.tail = ((tail | spaces_after(text.len().saturating_sub(16))) >> 32) as u32;
            is_sound &= !has_space(middle) && !has_space(tail);
        }
        is_sound.then_some(code)
    }

    /// The padded code that 20 bytes are: at least one in 33..126, then spaces.
    pub fn of_padded(bytes: &[u8; Code::WIDTH]) -> Option<Code> {
        let (head, middle) = (word_of(bytes), word_of(&bytes[8..]));
        let tail = word_of(&bytes[16..]);
        let mut has_ended = false;
        for word in [head, middle, tail | spaces_after(4)] {
            if word == SPACES {
                has_ended = true;
            } else if has_ended || flags_outside(word) != 0 || !spaces_are_last(word) {
                return None;
            } else {
                has_ended = has_space(word);
            }
        }
        (bytes[0] != b' ').then_some(Code {
            head,
            middle,
            tail: (tail >> 32) as u32,
        })
    }

    pub fn bytes(&self) -> [u8; Code::WIDTH] {
        let mut bytes = [0; Code::WIDTH];
        bytes[..8].copy_from_slice(&self.head.to_be_bytes());
        bytes[8..16].copy_from_slice(&self.middle.to_be_bytes());
        bytes[16..].copy_from_slice(&self.tail.to_be_bytes());
        bytes
    }
}

/// Whether nothing but spaces comes after a space, in a word that is not all
/// spaces.
fn spaces_are_last(word: u64) -> bool {
    let spaces = (word ^ SPACES).trailing_zeros() / 8;
    !has_space(word >> (8 * spaces))
}

/// A code of up to four bytes.
pub type ShortCode = u32;

/// The short code of up to four bytes, whatever they are.
pub const fn short(text: &[u8]) -> ShortCode {
    let mut code = 0;
    let mut place = 0;
    while place < 4 {
        let byte = if place < text.len() {
            text[place]
        } else {
            b' '
        };
        code = code << 8 | byte as u32;
        place += 1;
    }
    code
}

#[cfg(test)]
mod tests {
    use super::*;

    fn padded(text: &[u8]) -> [u8; 20] {
        let mut bytes = [b' '; 20];
        bytes[..text.len()].copy_from_slice(text);
        bytes
    }

    #[test]
    fn a_text_and_its_padded_bytes_are_one_code() {
        let bytes = b"!BCDEFGHIJKLMNOPQRS~";
        for length in 1..=20 {
            let text = &bytes[..length];
            let code = Code::of_text(text).expect("a code");
            assert_eq!(code.bytes(), padded(text));
            assert_eq!(Code::of_padded(&padded(text)), Some(code));
            for place in 0..length {
                let mut text = text.to_vec();
                text[place] = b' ';
                assert_eq!(Code::of_text(&text), None);
                assert_eq!(
                    Code::of_padded(&padded(&text)).is_some(),
                    place > 0 && place + 1 == length
                );
                for byte in [0, 31, 127, 255] {
                    text[place] = byte;
                    assert_eq!(Code::of_padded(&padded(&text)), None);
                }
            }
        }
        assert_eq!(Code::of_text(b""), None);
        assert_eq!(Code::of_text(&[b'A'; 21]), None);
        assert_eq!(Code::of_padded(&[b' '; 20]), None);
    }

    #[test]
    fn codes_are_in_the_order_of_their_bytes() {
        let texts: [&[u8]; 6] = [
            b"A",
            b"A!",
            b"AAAAAAAA",
            b"AAAAAAAAB",
            b"AAAAAAAAAAAAAAAAA",
            b"B",
        ];
        for one in texts {
            for other in texts {
                let codes = (Code::of_text(one), Code::of_text(other));
                assert_eq!(codes.0.cmp(&codes.1), padded(one).cmp(&padded(other)));
            }
        }
        assert_eq!(short(b"LA"), short(b"LA  "));
    }
}
