//! A table of fixed size that finds the number of a BIC, or of a BIC and a TxId, by a hash.

// Of a hash any bits will do, and an entry is numbered below 65535.
#![allow(clippy::cast_possible_truncation)]

const FREE: u16 = u16::MAX;

/// Holds numbers of entries kept elsewhere. SLOTS is a power of two, and more than the entries it ever takes.
#[derive(Clone)]
pub struct Index<const SLOTS: usize> {
    slots: [u16; SLOTS],
}

impl<const SLOTS: usize> Index<SLOTS> {
    pub fn new() -> Self {
        Index { slots: [FREE; SLOTS] }
    }

    /// The number of the entry with that hash which is the one looked for, or the slot where it would go.
    pub fn find(&self, hash: u64, is_the_one: impl Fn(usize) -> bool) -> Result<usize, usize> {
        let mut slot = hash as usize % SLOTS;
        loop {
            match self.slots[slot] {
                FREE => return Err(slot),
                number if is_the_one(number.into()) => return Ok(number.into()),
                _ => slot = (slot + 1) % SLOTS,
            }
        }
    }

    pub fn put(&mut self, slot: usize, number: usize) {
        self.slots[slot] = number as u16;
    }
}

/// A hash of a code of fixed length, eight bytes at a time.
pub fn hash<const LEN: usize>(code: &[u8; LEN]) -> u64 {
    folded(mixed(0, code))
}

/// A hash of two codes of fixed length.
pub fn hash_of_pair<const FIRST: usize, const SECOND: usize>(first: &[u8; FIRST], second: &[u8; SECOND]) -> u64 {
    folded(mixed(mixed(0, first), second))
}

fn mixed<const LEN: usize>(start: u64, code: &[u8; LEN]) -> u64 {
    let (words, rest) = code.as_chunks();
    let mut last = [0; 8];
    last[..rest.len()].copy_from_slice(rest);
    words.iter().fold(mix(start, last), |mixed, word| mix(mixed, *word))
}

fn folded(mixed: u64) -> u64 {
    mixed ^ (mixed >> 32)
}

fn mix(mixed: u64, word: [u8; 8]) -> u64 {
    (mixed.rotate_left(23) ^ u64::from_le_bytes(word)).wrapping_mul(0x9e37_79b9_7f4a_7c15)
}

#[cfg(test)]
mod tests {
    use super::*;

    #[test]
    fn entries_with_one_hash_are_told_apart() {
        let mut index = Index::<4>::new();
        let codes = [b'a', b'b', b'c'];
        for (number, code) in codes.iter().enumerate() {
            let slot = index.find(3, |held| codes[held] == *code).unwrap_err();
            index.put(slot, number);
        }
        for (number, code) in codes.iter().enumerate() {
            assert_eq!(index.find(3, |held| codes[held] == *code), Ok(number));
        }
    }
}
