//! Random BICs, IBANs and TxIds: right ones, ones that differ in little from another, and wrong ones.

use crate::random::Random;
use peer::codes::{unpadded, Bic, Iban, TxId};
use peer::writing::padded;

pub const UPPER: &[u8] = b"ABCDEFGHIJKLMNOPQRSTUVWXYZ";
pub const DIGITS: &[u8] = b"0123456789";
const SEVENTH: &[u8] = b"ABCDEFGHIJKLMNOPQRSTUVWXYZ23456789";
const EIGHTH: &[u8] = b"ABCDEFGHIJKLMNPQRSTUVWXYZ0123456789";
pub const LAST: &[u8] = b"ABCDEFGHIJKLMNOPQRSTUVWXYZ0123456789";
const ALL: &[u8] = b"ABCDEFGHIJKLMNOPQRSTUVWXYZabcdefghijklmnopqrstuvwxyz0123456789/-?:().,'+";
/// Bytes that lie next to allowed ones, or are often taken for allowed.
pub const OUTSIDE: &[u8] = b"\0 !*@[`{;<=>_&\"%\x7f\x80\xc4\xff";

fn bic_bytes_at(at: usize) -> &'static [u8] {
    match at {
        0..=5 => UPPER,
        6 => SEVENTH,
        7 => EIGHTH,
        _ => LAST,
    }
}

pub fn bic(random: &mut Random) -> Bic {
    std::array::from_fn(|at| random.pick(bic_bytes_at(at)))
}

/// A BIC that differs from another in one place, if at all.
pub fn near_bic(random: &mut Random, other: &Bic) -> Bic {
    let mut bic = *other;
    let at = random.index(11);
    bic[at] = random.pick(bic_bytes_at(at));
    bic
}

/// A BIC with a fault. Here and below it may by chance be none, as this book's own checks have no say in it.
pub fn wrong_bic(random: &mut Random, other: &Bic) -> Bic {
    let mut bic = *other;
    match random.below(6) {
        0 => bic[8..].fill(0),
        1 => bic[6] = random.pick(b"01"),
        2 => bic[7] = b'O',
        3 => bic[random.index(11)] = random.pick(OUTSIDE),
        4 => bic[random.index(11)] = random.pick(ALL),
        _ => bic.fill(0),
    }
    bic
}

/// A BIC that is none for small letters, for being zero, or for another fault.
pub fn wrong_payer(random: &mut Random, other: &Bic) -> Bic {
    let mut bic = *other;
    match random.below(6) {
        0 => bic.fill(0),
        1 => bic.make_ascii_lowercase(),
        2 => bic[..6][random.index(6)].make_ascii_lowercase(),
        3 => bic[8..].fill(b'x'),
        _ => return wrong_bic(random, other),
    }
    bic
}

pub fn tx_id(random: &mut Random) -> TxId {
    let length = match random.below(8) {
        0 => 1,
        1 => 35,
        2 => 34,
        _ => random.between(1, 35),
    };
    let bytes: Vec<u8> = (0..length).map(|_| random.pick(ALL)).collect();
    padded(&bytes)
}

/// A TxId that differs from another in one place, its case or its length.
pub fn near_tx_id(random: &mut Random, other: &TxId) -> TxId {
    let mut tx_id = *other;
    let length = unpadded(other).len();
    let at = random.index(length);
    match random.below(4) {
        0 if length > 1 => tx_id[length - 1] = 0,
        1 if length < 35 => tx_id[length] = random.pick(ALL),
        2 if tx_id[at].is_ascii_alphabetic() => tx_id[at] ^= 32,
        _ => tx_id[at] = random.pick(ALL),
    }
    tx_id
}

pub fn wrong_tx_id(random: &mut Random, other: &TxId) -> TxId {
    let mut tx_id = *other;
    let length = unpadded(other).len();
    match random.below(5) {
        0 => tx_id.fill(0),
        1 => tx_id[random.index(35)] = 0,
        2 => tx_id[34] = random.pick(OUTSIDE),
        3 => tx_id[length.min(34)] = random.pick(OUTSIDE),
        _ => tx_id[random.index(length.max(1))] = random.pick(OUTSIDE),
    }
    tx_id
}

pub fn iban(random: &mut Random) -> Iban {
    let length = match random.below(6) {
        0 => 5,
        1 => 34,
        _ => random.between(5, 34) as usize,
    };
    let from = if random.one_in(3) { &LAST[26..] } else { LAST };
    let mut iban: Vec<u8> = (0..length).map(|_| random.pick(from)).collect();
    iban[..2].copy_from_slice(&[random.pick(UPPER), random.pick(UPPER)]);
    set_check_digits(random, &mut iban);
    padded(&iban)
}

/// Sets any check digits with which the number leaves 1, among them 00, 01 and 99.
pub fn set_check_digits(random: &mut Random, iban: &mut [u8]) {
    set_check_digits_leaving(random, iban, 1);
}

/// The same for another remainder below 97.
pub fn set_check_digits_leaving(random: &mut Random, iban: &mut [u8], left: u64) {
    iban[2..4].copy_from_slice(b"00");
    let mut check = (left + 97 - remainder(iban)) % 97;
    if check < 3 && random.one_in(2) {
        check += 97;
    }
    iban[2..4].copy_from_slice(format!("{check:02}").as_bytes());
}

/// What the number of a text leaves on division by 97, character by character. All bytes are letters of either case or digits, at
/// least four of them.
pub fn remainder(text: &[u8]) -> u64 {
    let (first_four, rest) = text.split_at(4);
    rest.iter().chain(first_four).fold(0, |left, &byte| {
        let value = char::from(byte).to_digit(36).expect("a letter or a digit");
        (left * if value < 10 { 10 } else { 100 } + u64::from(value)) % 97
    })
}

pub fn wrong_iban(random: &mut Random) -> Iban {
    let mut iban = iban(random);
    let length = unpadded(&iban).len();
    let at = random.index(length);
    match random.below(13) {
        0 => iban.fill(0),
        1 => {
            iban[4..].fill(0);
            set_check_digits(random, &mut iban[..4]);
        }
        2 => iban[at.min(1)] = iban[at.min(1)].to_ascii_lowercase(),
        3 => {
            iban[at.min(1)] = random.pick(LAST);
            set_check_digits(random, &mut iban[..length]);
        }
        4 => set_check_letter(random, &mut iban[..length]),
        5 => iban[at] = random.pick(OUTSIDE),
        6 => iban.swap(at, length - 1),
        7 => iban[at] = random.pick(LAST),
        8 => set_small_letter(random, &mut iban[..length]),
        9 => iban[4..].make_ascii_lowercase(),
        10 => {
            iban[4..length].fill_with(|| random.pick(&ALL[..62]));
            set_check_digits(random, &mut iban[..length]);
        }
        11 => {
            let behind = (length + 1).min(iban.len() - 1);
            iban[behind] = random.pick(LAST);
        }
        _ => iban[2..4].copy_from_slice(format!("{:02}", random.below(100)).as_bytes()),
    }
    iban
}

/// Puts one small letter behind the check digits, often first or last; with its capital there it is an IBAN.
pub fn set_small_letter(random: &mut Random, iban: &mut [u8]) {
    let last = iban.len() - 1;
    let any = random.between(4, last as u64) as usize;
    iban[random.pick(&[4, any, any, last])] = random.pick(&ALL[26..52]);
    set_check_digits(random, iban);
}

/// Puts a letter in place of a check digit, and another digit in place of the other, so that the number leaves 1 if it can.
pub fn set_check_letter(random: &mut Random, text: &mut [u8]) {
    let is_small = random.one_in(2);
    let small = |letter: u8| if is_small { letter.to_ascii_lowercase() } else { letter };
    let pairs = UPPER.iter().flat_map(|&letter| DIGITS.iter().map(move |&digit| (small(letter), digit)));
    let mut both: Vec<[u8; 2]> = pairs.flat_map(|(letter, digit)| [[letter, digit], [digit, letter]]).collect();
    let mut leaves_1 = |check: &[u8; 2]| {
        text[2..4].copy_from_slice(check);
        remainder(text) == 1
    };
    if both.iter().any(&mut leaves_1) {
        both.retain(leaves_1);
    }
    text[2..4].copy_from_slice(&random.pick(&both));
}
