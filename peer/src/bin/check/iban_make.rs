//! Random texts for the IBAN check: IBANs with any number of digits, ones with other check digits, and texts of another shape.

use crate::codes::{
    set_check_digits, set_check_digits_leaving, set_check_letter, set_small_letter, DIGITS, LAST, OUTSIDE, UPPER,
};
use crate::random::Random;
use peer::codes::IBAN_LEN;

/// No text is longer; it reaches past 256 characters and an IBAN's behind them.
pub const MOST_LEN: usize = 300;
const LETTERS: &[u8] = UPPER;
/// The fewest and the most digits of an IBAN's shape.
pub const FEWEST_DIGITS: usize = 7;
pub const MOST_DIGITS: usize = 66;
/// What stands next to the letters and digits among all bytes.
pub const BESIDE: &[u8] = b"/:@[`{";
/// Letters and digits as the countries have them, from the registry's examples.
const AS_COUNTRIES_HAVE_THEM: [&[u8]; 14] = [
    b"NO9386011117947",
    b"BE68539007547034",
    b"NL91ABNA0417164300",
    b"FK88SC123456789012",
    b"LV80BANK0000435195001",
    b"LI21088100002324013AA",
    b"DE89370400440532013000",
    b"GB29NWBK60161331926819",
    b"FR1420041010050500013M02606",
    b"IT60X0542811101000000123456",
    b"QA58DOHB00001234567890ABCDEFG",
    b"BR1800360305000010009795493C1",
    b"MT84MALT011000012345MTLCAST001S",
    b"LC55HEMM000100010012001200023015",
];

/// The text of that number, without a newline in it.
pub fn text(seed: u64, number: u64) -> Vec<u8> {
    let mut random = Random::for_day(seed.rotate_left(16), number);
    match random.weighted(&[30, 25, 25, 10, 5, 5]) {
        0 => iban(&mut random),
        1 => with_other_check_digits(&mut random),
        2 => with_another_byte(&mut random),
        3 => of_another_length(&mut random),
        4 => written_otherwise(&mut random),
        _ => of_any_bytes(&mut random),
    }
}

/// An IBAN of any length.
fn iban(random: &mut Random) -> Vec<u8> {
    let behind = match random.below(5) {
        0 => characters(random, LETTERS),
        1 => characters(random, DIGITS),
        2 => characters(random, LAST),
        3 => return as_a_country_has_them(random),
        _ => with_digits(random),
    };
    with_behind(random, &behind)
}

/// The text with these characters behind the check digits, with which the number leaves 1.
fn with_behind(random: &mut Random, behind: &[u8]) -> Vec<u8> {
    let country = [random.pick(LETTERS), random.pick(LETTERS)];
    let mut text = [&country, b"00".as_slice(), behind].concat();
    set_check_digits(random, &mut text);
    text
}

/// 1 to 30 of these characters, often the fewest or the most.
fn characters(random: &mut Random, from: &[u8]) -> Vec<u8> {
    let most = IBAN_LEN as u64 - 4;
    let any = random.between(1, most);
    let count = random.pick(&[1, any, any, any, most]);
    (0..count).map(|_| random.pick(from)).collect()
}

fn as_a_country_has_them(random: &mut Random) -> Vec<u8> {
    let mut text = random.pick(&AS_COUNTRIES_HAVE_THEM).to_vec();
    for byte in &mut text[4..] {
        *byte = random.pick(if byte.is_ascii_digit() { DIGITS } else { LETTERS });
    }
    set_check_digits(random, &mut text);
    text
}

/// Characters behind the check digits for a text of 7 to 66 digits: any number of them, one beside full groups, or the most. Six digits
/// are the country's and the check digits.
fn with_digits(random: &mut Random) -> Vec<u8> {
    let any = random.between(FEWEST_DIGITS as u64, MOST_DIGITS as u64) as usize;
    let beside_full = 7 * random.between(1, 9) as usize + random.index(3) - 1;
    let digits = random.pick(&[any, beside_full, MOST_DIGITS]).max(FEWEST_DIGITS) - 6;
    let count = random.between(digits.div_ceil(2) as u64, digits.min(IBAN_LEN - 4) as u64) as usize;
    let mut letters = digits - count;
    (0..count)
        .map(|at| {
            let is_letter = random.index(count - at) < letters;
            letters -= usize::from(is_letter);
            random.pick(if is_letter { LETTERS } else { DIGITS })
        })
        .collect()
}

/// An IBAN but for its check digits, often with 0, 2 or 96 left.
fn with_other_check_digits(random: &mut Random) -> Vec<u8> {
    let mut text = iban(random);
    let any = (2 + random.below(96)) % 97;
    let left = random.pick(&[0, 2, 96, any, any, any]);
    set_check_digits_leaving(random, &mut text, left);
    text
}

/// An IBAN but for one byte, of any other class at any place; where it is a letter or a digit the number mostly leaves 1 with it.
fn with_another_byte(random: &mut Random) -> Vec<u8> {
    let mut text = iban(random);
    let (first_two, check) = (random.index(2), 2 + random.index(2));
    let any = random.index(text.len());
    let at = random.pick(&[first_two, check, any, any, text.len() - 1]);
    match random.below(8) {
        0 => {
            text[first_two] = random.pick(DIGITS);
            set_check_digits(random, &mut text);
        }
        1 => {
            text[first_two].make_ascii_lowercase();
            set_check_digits(random, &mut text);
        }
        2 => set_check_letter(random, &mut text),
        3 => set_small_letter(random, &mut text),
        4 => text[at] = random.pick(OUTSIDE),
        5 => text[at] = random.pick(BESIDE),
        _ => text[at] = any_byte(random),
    }
    text
}

/// Too short or too long, and else an IBAN whose number leaves 1 from four characters on.
fn of_another_length(random: &mut Random) -> Vec<u8> {
    let most = IBAN_LEN as u64;
    let length = match random.below(9) {
        0 => 0,
        1 => random.between(1, 3),
        2 => 4,
        3 => most + 1,
        4 | 5 => random.between(most + 2, 40),
        6 => 256 + random.between(5, most),
        7 => MOST_LEN as u64,
        _ => random.between(41, MOST_LEN as u64),
    };
    let from = random.pick(&[LETTERS, DIGITS, LAST]);
    let behind: Vec<u8> = (4..length).map(|_| random.pick(from)).collect();
    let mut text = with_behind(random, &behind);
    text.truncate(length as usize);
    text
}

/// An IBAN with its padding or as people write and mistake it.
fn written_otherwise(random: &mut Random) -> Vec<u8> {
    let mut text = iban(random);
    let length = text.len();
    match random.below(8) {
        0 => text.resize(IBAN_LEN, 0),
        1 => text.resize(random.between(length as u64, 40) as usize, 0),
        2 => text.push(b' '),
        3 => text.insert(0, b' '),
        4 => text = text.chunks(4).collect::<Vec<_>>().join(&b' '),
        5 => text.make_ascii_lowercase(),
        6 => text.rotate_left(4),
        _ => text.swap(random.index(length), length - 1),
    }
    text
}

/// Bytes of any kind, or letters and digits alone.
fn of_any_bytes(random: &mut Random) -> Vec<u8> {
    let length = random.below(41);
    let has_letters_and_digits_alone = random.one_in(2);
    let byte = |random: &mut Random| if has_letters_and_digits_alone { random.pick(LAST) } else { any_byte(random) };
    (0..length).map(|_| byte(random)).collect()
}

/// Any byte but a newline.
fn any_byte(random: &mut Random) -> u8 {
    let byte = random.below(255) as u8;
    byte + u8::from(byte >= b'\n')
}

#[cfg(test)]
mod tests {
    use super::*;
    use crate::codes::remainder;

    #[test]
    fn texts_depend_on_seed_and_number_alone() {
        for number in 0..2000 {
            let made = text(1, number);
            assert_eq!(made, text(1, number));
            assert!(made.len() <= MOST_LEN && !made.contains(&b'\n'));
        }
    }

    #[test]
    fn check_digits_leave_what_they_are_to_leave() {
        let mut random = Random::for_day(1, 1);
        for left in 0..97 {
            let mut text = iban(&mut random);
            assert_eq!(remainder(&text), 1);
            set_check_digits_leaving(&mut random, &mut text, left);
            assert_eq!(remainder(&text), left);
            assert_ne!(remainder(&with_other_check_digits(&mut random)), 1);
        }
    }

    #[test]
    fn no_newline_and_every_other_byte() {
        let mut random = Random::for_day(1, 2);
        let mut met = [false; 256];
        (0..10_000).for_each(|_| met[usize::from(any_byte(&mut random))] = true);
        assert_eq!((0..256).filter(|&byte| !met[byte]).collect::<Vec<_>>(), [usize::from(b'\n')]);
    }
}
