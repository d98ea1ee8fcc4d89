//! Counts what the texts for the IBAN check met: groups, digits, letters in two groups, remainders, and why a text has no groups.

use crate::codes::remainder;
use crate::iban_make::{BESIDE, FEWEST_DIGITS, MOST_DIGITS};
use crate::tally::print_row;
use crate::verdict::Lacks;
use peer::codes::{iban_groups, is_iban, unpadded, IBAN_LEN};
use std::collections::BTreeMap;

const MOST_GROUPS: usize = 10;

/// What is counted by name of texts with an IBAN's shape.
const SHAPED: &[&str] = &[
    "5 characters",
    "34 characters",
    "letters alone behind the check digits",
    "digits alone behind the check digits",
    "letters and digits behind the check digits",
    "no letter in two groups",
    "IBAN with check digits 00",
    "IBAN with check digits 01",
    "IBAN with check digits 99",
    "wrong check digits, 0 is left",
    "wrong check digits, 2 is left",
    "wrong check digits, 96 is left",
    "wrong check digits, another number is left",
];

/// Why a text has no groups. Each text without groups has one of these.
const REASONS: &[&str] = &[
    "no character",
    "1 to 3 characters, each as it is to be",
    "4 characters, each as it is to be",
    "35 characters, each as it is to be",
    "36 to 40 characters, each as it is to be",
    "41 to 260 characters, each as it is to be",
    "261 to 290 characters, each as it is to be",
    "291 characters or more, each as it is to be",
    "another length, and a wrong byte or more",
    "one wrong byte: digit among the first two",
    "one wrong byte: small letter among the first two",
    "one wrong byte: capital letter as check digit",
    "one wrong byte: small letter as check digit",
    "one wrong byte: small letter behind the check digits",
    "one wrong byte: zero",
    "one wrong byte: space",
    "one wrong byte: next to the letters or digits",
    "one wrong byte: another below 128",
    "one wrong byte: 128 or above",
    "two wrong bytes or more",
];

/// What else is counted by name of texts without groups.
const UNSHAPED: &[&str] = &[
    "IBAN with zero bytes behind it, 33 bytes or fewer",
    "IBAN with zero bytes behind it, 34 bytes",
    "IBAN with zero bytes behind it, 35 bytes or more",
    "IBAN but for small letters",
    "1 is left by 4 characters",
    "1 is left by 35 characters or more",
    "1 is left with a digit among the first two",
    "1 is left with a letter as check digit",
    "1 is left with a small letter behind the check digits",
];

pub struct IbanTally {
    pub texts: u64,
    /// By the number of groups.
    ibans: [u64; MOST_GROUPS + 1],
    /// Texts with an IBAN's shape whose number doesn't leave 1, by the number of groups.
    others: [u64; MOST_GROUPS + 1],
    /// Texts with an IBAN's shape, by the number of digits.
    digits: [u64; MOST_DIGITS + 1],
    /// Letters that have their first digit at the end of a group, by how many groups are before it.
    parted: [u64; MOST_GROUPS - 1],
    /// Texts with one wrong byte, by its place.
    places: [u64; IBAN_LEN],
    names: BTreeMap<&'static str, u64>,
    wrongly_met: Vec<String>,
}

impl IbanTally {
    pub fn new() -> Self {
        IbanTally {
            texts: 0,
            ibans: [0; MOST_GROUPS + 1],
            others: [0; MOST_GROUPS + 1],
            digits: [0; MOST_DIGITS + 1],
            parted: [0; MOST_GROUPS - 1],
            places: [0; IBAN_LEN],
            names: [SHAPED, REASONS, UNSHAPED].concat().into_iter().map(|name| (name, 0)).collect(),
            wrongly_met: vec![],
        }
    }

    /// The shape, the digits and the remainder are found here by other ways than in this book's check, which is held to them.
    pub fn text(&mut self, text: &[u8]) {
        self.texts += 1;
        let wrong: Vec<usize> = (0..text.len()).filter(|&at| !is_due(at, text[at])).collect();
        let has_shape = wrong.is_empty() && (5..=IBAN_LEN).contains(&text.len());
        let due = if has_shape { (remainder(text) == 1, digits(text).div_ceil(7)) } else { (false, 0) };
        if (is_iban(text), usize::from(iban_groups(text))) != due {
            self.wrongly_met.push(format!("another answer than {due:?}: {}", text.escape_ascii()));
        } else if has_shape {
            self.shaped(text);
        } else {
            self.unshaped(text, &wrong);
        }
    }

    fn shaped(&mut self, text: &[u8]) {
        let (digits, left) = (digits(text), remainder(text));
        let by_groups = if left == 1 { &mut self.ibans } else { &mut self.others };
        by_groups[digits.div_ceil(7)] += 1;
        self.digits[digits] += 1;
        let parted: Vec<usize> = letter_places(text).into_iter().filter(|place| place % 7 == 6).collect();
        parted.iter().for_each(|place| self.parted[place / 7] += 1);
        self.count_if(parted.is_empty(), "no letter in two groups");
        self.count_if(text.len() == 5, "5 characters");
        self.count_if(text.len() == 34, "34 characters");
        let (has_letter, has_digit) = (text[4..].iter().any(u8::is_ascii_uppercase), text[4..].iter().any(u8::is_ascii_digit));
        self.count(match (has_letter, has_digit) {
            (true, true) => "letters and digits behind the check digits",
            (true, false) => "letters alone behind the check digits",
            _ => "digits alone behind the check digits",
        });
        match (left, &text[2..4]) {
            (1, b"00") => self.count("IBAN with check digits 00"),
            (1, b"01") => self.count("IBAN with check digits 01"),
            (1, b"99") => self.count("IBAN with check digits 99"),
            (1, _) => (),
            (0, _) => self.count("wrong check digits, 0 is left"),
            (2, _) => self.count("wrong check digits, 2 is left"),
            (96, _) => self.count("wrong check digits, 96 is left"),
            _ => self.count("wrong check digits, another number is left"),
        }
    }

    fn unshaped(&mut self, text: &[u8], wrong: &[usize]) {
        self.count(match (text.len(), wrong) {
            (0, _) => "no character",
            (1..=3, []) => "1 to 3 characters, each as it is to be",
            (4, []) => "4 characters, each as it is to be",
            (35, []) => "35 characters, each as it is to be",
            (36..=40, []) => "36 to 40 characters, each as it is to be",
            (41..=260, []) => "41 to 260 characters, each as it is to be",
            (261..=290, []) => "261 to 290 characters, each as it is to be",
            (291.., []) => "291 characters or more, each as it is to be",
            (1..=4 | 35.., _) => "another length, and a wrong byte or more",
            (_, [at]) => wrong_byte(*at, text[*at]),
            _ => "two wrong bytes or more",
        });
        if let (5..=IBAN_LEN, [at]) = (text.len(), wrong) {
            self.places[*at] += 1;
        }
        if text.ends_with(b"\0") && is_iban(unpadded(text)) {
            self.count(match text.len() {
                ..IBAN_LEN => "IBAN with zero bytes behind it, 33 bytes or fewer",
                IBAN_LEN => "IBAN with zero bytes behind it, 34 bytes",
                _ => "IBAN with zero bytes behind it, 35 bytes or more",
            });
        }
        self.count_if(is_iban(&text.to_ascii_uppercase()), "IBAN but for small letters");
        if text.len() >= 4 && text.iter().all(u8::is_ascii_alphanumeric) && remainder(text) == 1 {
            self.leaving_1(text, wrong);
        }
    }

    /// No IBAN though its number leaves 1.
    fn leaving_1(&mut self, text: &[u8], wrong: &[usize]) {
        match (text.len(), wrong) {
            (4, []) => self.count("1 is left by 4 characters"),
            (35.., []) => self.count("1 is left by 35 characters or more"),
            (5..=IBAN_LEN, [at @ (0 | 1)]) if text[*at].is_ascii_digit() => {
                self.count("1 is left with a digit among the first two")
            }
            (5..=IBAN_LEN, [2 | 3]) => self.count("1 is left with a letter as check digit"),
            (5..=IBAN_LEN, [4..IBAN_LEN]) => self.count("1 is left with a small letter behind the check digits"),
            _ => (),
        }
    }

    fn count(&mut self, name: &'static str) {
        *self.names.get_mut(name).expect("the list has every name") += 1;
    }

    fn count_if(&mut self, is_met: bool, name: &'static str) {
        if is_met {
            self.count(name);
        }
    }

    /// Prints the table and gives the names of what was never met, or met where it can't be.
    pub fn print(&self) -> Lacks {
        let mut lacks = Lacks { wrongly_met: self.wrongly_met.clone(), ..Lacks::default() };
        println!("\ntexts for the IBAN check {}", self.texts);
        for groups in 1..=MOST_GROUPS {
            print_row(&format!("IBAN, groups: {groups}"), self.ibans[groups], &mut lacks);
        }
        for groups in 1..=MOST_GROUPS {
            print_row(&format!("wrong check digits, groups: {groups}"), self.others[groups], &mut lacks);
        }
        let none: u64 = REASONS.iter().map(|name| self.names[name]).sum();
        print_row("no IBAN's shape, groups: 0", none, &mut lacks);
        println!("\ntexts with an IBAN's shape");
        let is_edge = |digits: &usize| [6, 0, 1].contains(&(digits % 7)) || *digits == MOST_DIGITS;
        for digits in (FEWEST_DIGITS..=MOST_DIGITS).filter(is_edge) {
            print_row(&format!("{digits} digits, groups: {}", digits.div_ceil(7)), self.digits[digits], &mut lacks);
        }
        for (before, &count) in self.parted.iter().enumerate() {
            print_row(&format!("letter in groups {} and {}", before + 1, before + 2), count, &mut lacks);
        }
        self.print_names(SHAPED, &mut lacks);
        println!("\ntexts without groups, by reason");
        self.print_names(REASONS, &mut lacks);
        println!("\ntexts without groups, else");
        for (place, &count) in self.places.iter().enumerate() {
            print_row(&format!("one wrong byte, place {place}"), count, &mut lacks);
        }
        self.print_names(UNSHAPED, &mut lacks);
        lacks
    }

    fn print_names(&self, names: &[&str], lacks: &mut Lacks) {
        names.iter().for_each(|name| print_row(name, self.names[name], lacks));
    }
}

/// Whether an IBAN can have the byte at that place.
fn is_due(at: usize, byte: u8) -> bool {
    match at {
        0 | 1 => byte.is_ascii_uppercase(),
        2 | 3 => byte.is_ascii_digit(),
        _ => byte.is_ascii_uppercase() || byte.is_ascii_digit(),
    }
}

fn wrong_byte(at: usize, byte: u8) -> &'static str {
    match (at, byte) {
        (0 | 1, b'0'..=b'9') => "one wrong byte: digit among the first two",
        (0 | 1, b'a'..=b'z') => "one wrong byte: small letter among the first two",
        (2 | 3, b'A'..=b'Z') => "one wrong byte: capital letter as check digit",
        (2 | 3, b'a'..=b'z') => "one wrong byte: small letter as check digit",
        (_, b'a'..=b'z') => "one wrong byte: small letter behind the check digits",
        (_, 0) => "one wrong byte: zero",
        (_, b' ') => "one wrong byte: space",
        (_, 128..) => "one wrong byte: 128 or above",
        _ if BESIDE.contains(&byte) => "one wrong byte: next to the letters or digits",
        _ => "one wrong byte: another below 128",
    }
}

/// How many digits the number of a text with an IBAN's shape has.
fn digits(text: &[u8]) -> usize {
    text.len() + letter_places(text).len()
}

/// Where the first digit of each letter stands among the digits of the number.
fn letter_places(text: &[u8]) -> Vec<usize> {
    let (first_four, rest) = text.split_at(4);
    let moved = rest.iter().chain(first_four).enumerate();
    let letters = moved.filter(|(_, byte)| byte.is_ascii_uppercase());
    (0..).zip(letters).map(|(before, (at, _)): (usize, _)| at + before).collect()
}

#[cfg(test)]
mod tests {
    use super::*;

    #[test]
    fn places_of_letters_among_the_digits() {
        assert_eq!((letter_places(b"LV801"), digits(b"LV801")), (vec![1, 3], 7));
        assert_eq!((letter_places(b"LV31A"), digits(b"LV31A")), (vec![0, 2, 4], 8));
        assert_eq!((letter_places(b"LV001A2B"), digits(b"LV001A2B")), (vec![1, 4, 6, 8], 12));
    }

    #[test]
    fn every_text_without_groups_has_one_reason() {
        let mut tally = IbanTally::new();
        for number in 0..2000 {
            tally.text(&crate::iban_make::text(1, number));
        }
        let shaped: u64 = tally.ibans.iter().chain(&tally.others).sum();
        let unshaped: u64 = REASONS.iter().map(|name| tally.names[name]).sum();
        assert_eq!((shaped + unshaped, tally.wrongly_met), (2000, vec![]));
        assert_eq!(shaped, tally.digits.iter().sum());
    }
}
