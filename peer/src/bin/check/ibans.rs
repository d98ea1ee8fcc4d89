//! The fourth check: random texts through this book's IBAN check and through the proved program, which must give the same answer
//! and the same number of groups.

use crate::iban_make::{text, MOST_LEN};
use crate::iban_tally::IbanTally;
use crate::program::Program;
use crate::verdict::{Found, Same};
use crate::Options;
use peer::asking::{print_answer, GROUPS, IS_IBAN};
use std::io;

const DEFAULT_IBANS: u64 = 20_000;
/// So many texts meet everything, with each of 100 seeds.
const ENOUGH_IBANS: u64 = 20_000;
/// The program takes no longer input.
const MOST_INPUT: usize = 65_536;
/// What goes through the program at once has no further text when it is longer: two more lines and their ends fit behind it.
const FULL_INPUT: usize = MOST_INPUT - 2 * (MOST_LEN + IS_IBAN.len() + 1);

pub fn check(options: &Options, program: &Program) -> io::Result<Found> {
    let last = options.first.saturating_add(options.ibans.unwrap_or(DEFAULT_IBANS));
    let mut tally = IbanTally::new();
    let mut number = options.first;
    while number < last {
        let texts = some_texts(options.seed, number..last);
        if let Some(at) = first_differing(program, &texts)? {
            show_difference(options, program, number + at as u64, &texts[at])?;
            return Ok(Found::Differs("text for the IBAN check"));
        }
        texts.iter().for_each(|text| tally.text(text));
        number += texts.len() as u64;
    }
    let lacks = tally.print();
    lacks.print();
    let compared = format!("{} texts for the IBAN check", tally.texts);
    Ok(Found::Same(Same { compared, count: tally.texts, enough: ENOUGH_IBANS, unit: "texts", lacks }))
}

/// The texts of these numbers, as many as go through the program at once.
fn some_texts(seed: u64, numbers: std::ops::Range<u64>) -> Vec<Vec<u8>> {
    let mut length = 0;
    let mut texts = Vec::new();
    for number in numbers {
        if length > FULL_INPUT {
            break;
        }
        let text = text(seed, number);
        length += lines(&text).concat().len() + 2;
        texts.push(text);
    }
    texts
}

/// The two lines that ask about a text.
fn lines(text: &[u8]) -> [Vec<u8>; 2] {
    [IS_IBAN, GROUPS].map(|asked| [asked, text].concat())
}

fn input(texts: &[Vec<u8>]) -> Vec<u8> {
    texts.iter().flat_map(|text| lines(text)).flat_map(|line| [line, b"\n".to_vec()].concat()).collect()
}

fn own_answer(text: &[u8]) -> Vec<u8> {
    let mut answer = Vec::new();
    lines(text).iter().for_each(|line| print_answer(line, &mut answer));
    answer
}

/// The place of the first text that has another answer; of the last one if something stands behind all answers.
fn first_differing(program: &Program, texts: &[Vec<u8>]) -> io::Result<Option<usize>> {
    let answers = program.run(&input(texts))?;
    let mut rest = &answers[..];
    for (at, text) in texts.iter().enumerate() {
        match rest.strip_prefix(&own_answer(text)[..]) {
            Some(behind) => rest = behind,
            None => return Ok(Some(at)),
        }
    }
    Ok(if rest.is_empty() { None } else { texts.len().checked_sub(1) })
}

fn show_difference(options: &Options, program: &Program, number: u64, text: &[u8]) -> io::Result<()> {
    let (seed, input) = (options.seed, input(&[text.to_vec()]));
    println!("\ntext {number} of seed {seed} for the IBAN check differs: {}", text.escape_ascii());
    println!("to repeat: check --cases {} --seed {seed} --first {number} --ibans 1", program.path.display());
    let file = options.out.join(format!("differs-{seed}-{number}.ibans"));
    std::fs::create_dir_all(&options.out)?;
    std::fs::write(&file, &input)?;
    println!("as the program reads it: {}", file.display());
    let (own, answer) = (own_answer(text), program.run(&input)?);
    if own == answer {
        println!("alone it doesn't differ; it did among the texts of its batch");
        return Ok(());
    }
    println!("\nthis book:\n{}", String::from_utf8_lossy(&own));
    println!("the program:\n{}", String::from_utf8_lossy(&answer));
    Ok(())
}

#[cfg(test)]
mod tests {
    use super::*;

    #[test]
    fn texts_fit_the_program() {
        let texts = some_texts(1, 0..u64::MAX);
        let length = input(&texts).len();
        assert!((FULL_INPUT + 1..=MOST_INPUT).contains(&length), "{length}");
        assert_eq!(some_texts(1, 5..7), texts[5..7]);
    }

    #[test]
    fn texts_are_asked_about_to_the_byte() {
        assert_eq!(input(&[b"LV31A".to_vec(), b"\0".to_vec()]), b"iban LV31A\ngrps LV31A\niban \0\ngrps \0\n");
        assert_eq!(own_answer(b"LV31A"), b"iban LV31A 1\ngrps LV31A 2\n");
    }
}
