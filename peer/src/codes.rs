//! The codes that name banks, accounts and orders: BIC, IBAN and TxId.

// A byte is counted as a number below 256.
#![allow(clippy::cast_possible_truncation)]

pub const BIC_LEN: usize = 11;
pub const IBAN_LEN: usize = 34;
pub const TX_ID_LEN: usize = 35;

/// The eleven bytes where a BIC stands.
pub type Bic = [u8; BIC_LEN];
/// A TxId with its padding.
pub type TxId = [u8; TX_ID_LEN];
/// An IBAN with its padding.
pub type Iban = [u8; IBAN_LEN];

// The classes a byte can belong to, one bit each.
const UPPER: u8 = 1;
const UPPER_BUT_O: u8 = 2;
const LOWER: u8 = 4;
const DIGIT: u8 = 8;
const DIGIT_FROM_2: u8 = 16;
const MARK: u8 = 32;

const BIC_FORM: [u8; BIC_LEN] = [
    UPPER,
    UPPER,
    UPPER,
    UPPER,
    UPPER,
    UPPER,
    UPPER | DIGIT_FROM_2,
    UPPER_BUT_O | DIGIT,
    UPPER | DIGIT,
    UPPER | DIGIT,
    UPPER | DIGIT,
];

const CLASSES: [u8; 256] = all_classes();

const fn all_classes() -> [u8; 256] {
    let mut classes = [0; 256];
    let mut byte = 0;
    while byte < 256 {
        classes[byte] = class_of(byte as u8);
        byte += 1;
    }
    classes
}

const fn class_of(byte: u8) -> u8 {
    match byte {
        b'O' => UPPER,
        b'A'..=b'Z' => UPPER | UPPER_BUT_O,
        b'a'..=b'z' => LOWER,
        b'0' | b'1' => DIGIT,
        b'2'..=b'9' => DIGIT | DIGIT_FROM_2,
        b'/' | b'-' | b'?' | b':' | b'(' | b')' | b'.' | b',' | b'\'' | b'+' => MARK,
        _ => 0,
    }
}

fn is_in(byte: u8, classes: u8) -> bool {
    CLASSES[byte as usize] & classes != 0
}

fn all_in(bytes: &[u8], classes: u8) -> bool {
    bytes.iter().all(|&byte| is_in(byte, classes))
}

/// Whether the bytes are a BIC of eleven characters.
pub fn is_bic(bytes: &[u8]) -> bool {
    bytes.len() == BIC_LEN && bytes.iter().zip(&BIC_FORM).all(|(&byte, &classes)| is_in(byte, classes))
}

/// Whether the bytes are a TxId, without padding.
pub fn is_tx_id(bytes: &[u8]) -> bool {
    (1..=TX_ID_LEN).contains(&bytes.len()) && all_in(bytes, UPPER | LOWER | DIGIT | MARK)
}

/// Whether the bytes are an IBAN, without padding.
pub fn is_iban(bytes: &[u8]) -> bool {
    has_iban_shape(bytes) && divided(bytes).remainder == 1
}

/// The number of groups over which the check of the bytes takes the remainder; 0 where their shape is no IBAN's.
pub fn iban_groups(bytes: &[u8]) -> u8 {
    if has_iban_shape(bytes) {
        divided(bytes).groups
    } else {
        0
    }
}

/// Whether the bytes are an IBAN but for what its number leaves.
fn has_iban_shape(bytes: &[u8]) -> bool {
    (5..=IBAN_LEN).contains(&bytes.len())
        && all_in(&bytes[..2], UPPER)
        && all_in(&bytes[2..4], DIGIT)
        && all_in(&bytes[4..], UPPER | DIGIT)
}

/// The remainder of an IBAN's number by 97, and over how many groups it was taken.
struct Divided {
    remainder: u32,
    groups: u8,
}

/// Takes the remainder over groups of seven digits from the left; the last one may be shorter. All bytes are capital letters or
/// digits, 4 to 34 of them. A remainder with seven digits behind it is a number below 97 x 10^7.
fn divided(iban: &[u8]) -> Divided {
    let mut digits = [0; 2 * IBAN_LEN];
    let count = write_digits(iban, &mut digits);
    let mut divided = Divided { remainder: 0, groups: 0 };
    for group in digits[..count].chunks(7) {
        let number = group.iter().fold(divided.remainder, |number, &digit| number * 10 + u32::from(digit));
        divided = Divided { remainder: number % 97, groups: divided.groups + 1 };
    }
    divided
}

/// Writes out the digits of an IBAN's number, the first four characters moved to the end, and gives their count. A letter is two.
fn write_digits(iban: &[u8], digits: &mut [u8; 2 * IBAN_LEN]) -> usize {
    let (first_four, rest) = iban.split_at(4);
    let mut count = 0;
    for &byte in rest.iter().chain(first_four) {
        if byte.is_ascii_digit() {
            digits[count] = byte - b'0';
            count += 1;
        } else {
            let number = byte - b'A' + 10;
            digits[count] = number / 10;
            digits[count + 1] = number % 10;
            count += 2;
        }
    }
    count
}

/// All before the trailing zero bytes.
pub fn unpadded(field: &[u8]) -> &[u8] {
    let end = field.iter().rposition(|&byte| byte != 0).map_or(0, |last| last + 1);
    &field[..end]
}

#[cfg(test)]
mod tests {
    use super::*;

    #[test]
    fn bic_places() {
        assert!(is_bic(b"AAAALV22XXX"));
        assert!(is_bic(b"ZZZZZZ9Z000"));
        assert!(is_bic(b"AAAALVA0A9Z"));
        assert!(!is_bic(b"AAAALV22"));
        assert!(!is_bic(b"AAAALV22XXXX"));
        assert!(!is_bic(b""));
        for (at, wrong) in
            [(0, b'0'), (5, b'2'), (5, b'a'), (6, b'0'), (6, b'1'), (7, b'O'), (7, b'o'), (8, b'x'), (10, b' '), (10, 0)]
        {
            let mut bic = *b"AAAALV22XXX";
            bic[at] = wrong;
            assert!(!is_bic(&bic), "{wrong} at {at}");
        }
        for (at, right) in [(6, b'O'), (6, b'2'), (7, b'0'), (7, b'1'), (7, b'N'), (7, b'P'), (8, b'O'), (10, b'0')] {
            let mut bic = *b"AAAALV22XXX";
            bic[at] = right;
            assert!(is_bic(&bic), "{right} at {at}");
        }
    }

    #[test]
    fn every_byte_at_every_place_of_a_bic() {
        let allowed = |at: usize, byte: u8| match at {
            0..=5 => byte.is_ascii_uppercase(),
            6 => byte.is_ascii_uppercase() || (b'2'..=b'9').contains(&byte),
            7 => (byte.is_ascii_uppercase() && byte != b'O') || byte.is_ascii_digit(),
            _ => byte.is_ascii_uppercase() || byte.is_ascii_digit(),
        };
        for at in 0..BIC_LEN {
            for byte in 0..=255 {
                let mut bic = *b"AAAALV22XXX";
                bic[at] = byte;
                assert_eq!(is_bic(&bic), allowed(at, byte), "{byte} at {at}");
            }
        }
    }

    #[test]
    fn tx_id_bytes_and_lengths() {
        for byte in 0..=255u8 {
            let allowed = byte.is_ascii_alphanumeric() || b"/-?:().,'+".contains(&byte);
            assert_eq!(is_tx_id(&[byte]), allowed, "{byte}");
            assert_eq!(is_tx_id(&[b'A', byte, b'A']), allowed, "{byte}");
        }
        assert!(!is_tx_id(b""));
        assert!(is_tx_id(&[b'a'; 35]));
        assert!(!is_tx_id(&[b'a'; 36]));
    }

    #[test]
    fn iban_examples() {
        for iban in [
            "LV80BANK0000435195001",
            "DE89370400440532013000",
            "GB29NWBK60161331926819",
            "MT84MALT011000012345MTLCAST001S",
            "NO9386011117947",
            "LV31BANK000043519500A",
        ] {
            assert!(is_iban(iban.as_bytes()), "{iban}");
        }
        for iban in
            ["LV81BANK0000435195001", "lv80BANK0000435195001", "LVA0BANK0000435195001", "LV80BANK0000435195 01", "LV80", ""]
        {
            assert!(!is_iban(iban.as_bytes()), "{iban}");
        }
    }

    #[test]
    fn small_letters_are_no_letters_of_an_iban() {
        for iban in ["LV80bank0000435195001", "LV80bANK0000435195001", "LV80BANk0000435195001", "LV31BANK000043519500a"] {
            assert!(is_iban(iban.to_ascii_uppercase().as_bytes()), "{iban}");
            assert!(!is_iban(iban.as_bytes()), "{iban}");
        }
    }

    #[test]
    fn every_byte_at_every_place_behind_the_check_digits() {
        for at in 4..21 {
            for byte in 0..=255u8 {
                let mut iban = *b"LV00BANK0000435195001";
                iban[at] = byte;
                let taken = (0..100).any(|check: u8| {
                    iban[2..4].copy_from_slice(format!("{check:02}").as_bytes());
                    is_iban(&iban)
                });
                assert_eq!(taken, byte.is_ascii_uppercase() || byte.is_ascii_digit(), "{byte} at {at}");
            }
        }
    }

    #[test]
    fn iban_lengths() {
        for length in 4..=40 {
            let mut iban = vec![b'0'; length];
            iban[..2].copy_from_slice(b"AA");
            let check = (1 + 97 - plain_remainder(&iban)) % 97;
            iban[2..4].copy_from_slice(format!("{check:02}").as_bytes());
            assert_eq!(plain_remainder(&iban), 1);
            assert_eq!(is_iban(&iban), (5..=34).contains(&length), "{length}");
        }
    }

    /// The remainder as long division on the written-out digits gives it.
    fn plain_remainder(iban: &[u8]) -> u32 {
        let moved = [&iban[4..], &iban[..4]].concat();
        let digits: String = moved.iter().map(|&byte| (byte as char).to_digit(36).unwrap().to_string()).collect();
        digits.bytes().fold(0, |left, digit| (left * 10 + u32::from(digit - b'0')) % 97)
    }

    /// The remainder over eight characters at a time, none of them parted, and the first four by themselves.
    fn remainder_by_characters(iban: &[u8]) -> u32 {
        let read_on = |before: u64, part: &[u8]| {
            let number = part.iter().fold(before, |number, &byte| {
                if byte.is_ascii_digit() {
                    number * 10 + u64::from(byte - b'0')
                } else {
                    number * 100 + u64::from(byte - b'A') + 10
                }
            });
            number % 97
        };
        let (first_four, rest) = iban.split_at(4);
        read_on(rest.chunks(8).fold(0, read_on), first_four) as u32
    }

    /// Letters and digits behind the check digits, other ones at each turn.
    fn texts_of_every_length() -> impl Iterator<Item = Vec<u8>> {
        let characters = b"ABCDEFGHIJKLMNOPQRSTUVWXYZ0123456789";
        let mut state = 1u32;
        let mut pick = move |from: &[u8]| {
            state = state.wrapping_mul(1_664_525).wrapping_add(1_013_904_223);
            from[(state >> 16) as usize % from.len()]
        };
        (0..3000).map(move |turn| {
            let from = [&characters[..], &characters[..26], &characters[26..]][turn % 3];
            let mut text: Vec<u8> = (0..5 + turn / 3 % 30).map(|_| pick(from)).collect();
            text[..4].fill_with(|| pick(&characters[26..]));
            text[..2].fill_with(|| pick(&characters[..26]));
            text
        })
    }

    #[test]
    fn remainder_agrees_with_other_ways_to_take_it() {
        for iban in ["ZZ99ZZZZZZZZZZZZZZZZZZZZZZZZZZZZZZ", "AB12C", "XY00ABCDEFGH1234", "LV80BANK0000435195001"] {
            assert_eq!(divided(iban.as_bytes()).remainder, plain_remainder(iban.as_bytes()), "{iban}");
        }
        for iban in texts_of_every_length() {
            let remainder = divided(&iban).remainder;
            assert_eq!(remainder, plain_remainder(&iban), "{}", iban.escape_ascii());
            assert_eq!(remainder, remainder_by_characters(&iban), "{}", iban.escape_ascii());
            assert_eq!(is_iban(&iban), remainder == 1, "{}", iban.escape_ascii());
        }
    }

    /// From 7 digits, with one behind the check digits, to 66, with thirty letters there.
    #[test]
    fn groups_are_sevenths_of_the_digits_rounded_up() {
        for characters in 1..=30 {
            for letters in 0..=characters {
                let mut iban = [b"XY00".as_slice(), &vec![b'7'; characters]].concat();
                iban[4..4 + letters].fill(b'Q');
                let groups = (4 + 2 + characters + letters).div_ceil(7);
                assert_eq!(usize::from(iban_groups(&iban)), groups, "{}", iban.escape_ascii());
                iban[4..].reverse();
                assert_eq!(usize::from(iban_groups(&iban)), groups, "{}", iban.escape_ascii());
            }
        }
    }

    #[test]
    fn padding() {
        assert_eq!(unpadded(b"AB\0\0"), b"AB");
        assert_eq!(unpadded(b"A\0B\0"), b"A\0B");
        assert_eq!(unpadded(b"\0\0"), b"");
        assert_eq!(unpadded(b"AB"), b"AB");
    }
}
