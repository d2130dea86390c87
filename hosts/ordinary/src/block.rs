//! Eight bytes of a text at once, as the bytes of a number, low byte first.
//!
//! A test of a block sets the top bit of each byte that it finds. It is exact up to the first that it finds, which is
//! all that is asked for: what is carried from a byte found may spoil those after it.

pub const SIZE: usize = 8;

const TOP_BITS: u64 = each(0x80);

/// A block of eight equal bytes.
const fn each(byte: u8) -> u64 {
    u64::from_le_bytes([byte; SIZE])
}

/// The block at this place of a text, with zeros for what lies past its end.
#[inline]
pub fn at(text: &[u8], place: usize) -> u64 {
    match text.get(place..place + SIZE) {
        Some(bytes) => u64::from_le_bytes(bytes.try_into().expect("it has the size of a block")),
        None => at_end(text, place),
    }
}

#[cold]
fn at_end(text: &[u8], place: usize) -> u64 {
    let mut bytes = [0; SIZE];
    let rest = text.get(place..).unwrap_or(&[]);
    bytes[..rest.len()].copy_from_slice(rest);
    u64::from_le_bytes(bytes)
}

/// The first so many bytes of a block, fewer than eight, with zeros for the others.
#[inline]
pub const fn head(block: u64, length: usize) -> u64 {
    block & ((1 << (8 * length)) - 1)
}

/// The block with its capital letters made small; no other byte of a word becomes a letter.
#[inline]
pub const fn small(block: u64) -> u64 {
    block | each(0x20)
}

/// The bytes outside `least` to `most`, both below 128.
#[inline]
fn outside(block: u64, least: u8, most: u8) -> u64 {
    !block.wrapping_add(each(0x80 - least)) | block.wrapping_add(each(0x7f - most)) | block
}

/// How many letters, digits and underscores a block starts with.
#[inline]
pub fn word_bytes(block: u64) -> usize {
    let found = outside(small(block), b'a', b'z') & outside(block, b'0', b'9') & outside(block, b'_', b'_');
    (found & TOP_BITS).trailing_zeros() as usize / 8
}

/// The first place from `start` on without a letter, digit or underscore.
#[inline]
pub fn word_end(text: &[u8], start: usize) -> usize {
    let mut end = start;
    loop {
        let length = word_bytes(at(text, end));
        end += length;
        if length < SIZE {
            return end;
        }
    }
}

#[cfg(test)]
mod tests {
    use super::*;
    use generate::Random;

    fn is_word_byte(byte: u8) -> bool {
        byte.is_ascii_alphanumeric() || byte == b'_'
    }

    /// Each byte at each place, among bytes of words.
    #[test]
    fn blocks_are_counted_as_their_bytes() {
        let mut random = Random::new(1);
        let of_words: Vec<u8> = (0..=u8::MAX).filter(|&byte| is_word_byte(byte)).collect();
        for (place, byte) in (0..SIZE).flat_map(|place| (0..=u8::MAX).map(move |byte| (place, byte))) {
            let mut bytes = [0; SIZE].map(|_| *random.pick(&of_words));
            bytes[place] = byte;
            bytes[SIZE - 1] = random.byte();
            let wanted = bytes.iter().take_while(|&&byte| is_word_byte(byte)).count();
            assert_eq!(word_bytes(u64::from_le_bytes(bytes)), wanted, "{bytes:?}");
        }
    }

    #[test]
    fn a_word_ends_at_any_distance() {
        for (length, start) in (0..40).flat_map(|length| (0..=length).map(move |start| (length, start))) {
            let mut text = vec![b'w'; length];
            assert_eq!(word_end(&text, start), length);
            for place in start..length {
                text[place] = b' ';
                assert_eq!(word_end(&text, start), place);
                text[place] = b'w';
            }
        }
    }
}
