//! The third check: random messages through this reader and through the proved program, which must give the same number and ticket.

use crate::message_faults::{Way, FAULTS, MOST_BYTES};
use crate::message_freedoms::freedoms;
use crate::message_make::Maker;
use crate::message_tally::MessageTally;
use crate::program::Program;
use crate::random::Random;
use crate::verdict::{Found, Same};
use crate::Options;
use peer::message::print_message;
use std::collections::BTreeSet;
use std::io::{self, Write};
use std::path::Path;

pub const DEFAULT_MESSAGES: u64 = 20_000;
/// So many messages meet everything, with each of 52 seeds.
const ENOUGH_MESSAGES: u64 = 20_000;
/// Messages that go through the program at once.
const BATCH: u64 = 500;
/// A longer message that differs isn't reduced.
const MOST_REDUCED: usize = 8192;
/// The refusals in the order in which they are looked at, and how often a fault is to meet each; 0 stands for an edge.
const STAGES: [u8; 6] = [23, 24, 25, 7, 8, 0];
const WEIGHTS: [u64; 6] = [40, 24, 10, 12, 6, 8];

/// A message, and how it was made.
#[derive(Clone, PartialEq, Eq, Debug)]
pub struct Made {
    pub text: Vec<u8>,
    pub time: u32,
    /// The numbers of its faults, no two of them for the same refusal.
    pub faults: Vec<usize>,
    pub used: BTreeSet<&'static str>,
}

impl Made {
    /// What the program reads, with that name.
    pub fn bytes(&self, name: &str) -> Vec<u8> {
        let lengths = [name.len() as u32, self.text.len() as u32, self.time];
        let mut bytes: Vec<u8> = lengths.iter().flat_map(|number| number.to_be_bytes()).collect();
        bytes.extend_from_slice(name.as_bytes());
        bytes.extend_from_slice(&self.text);
        bytes
    }

    pub fn own_line(&self) -> Vec<u8> {
        let mut line = Vec::new();
        print_message(&self.text, self.time, &mut line);
        line
    }

    /// The number that it is to get, where its faults leave no doubt.
    pub fn due(&self) -> Option<u8> {
        let faults = || self.faults.iter().map(|number| &FAULTS[*number]);
        let first = |refusal: &u8| faults().any(|fault| fault.refusal == *refusal);
        let due = STAGES.into_iter().find(first).unwrap_or(0);
        faults().all(|fault| fault.is_sure).then_some(due)
    }
}

/// Where a refusal stands in the order; an edge is behind all.
pub fn stage(refusal: u8) -> usize {
    STAGES.iter().position(|stage| *stage == refusal).unwrap_or(STAGES.len())
}

/// The message of that number.
pub fn make(seed: u64, number: u64) -> Made {
    let mut random = Random::for_day(seed.rotate_left(32), number);
    let time = match random.below(5) {
        0 => random.pick(&[0, 1, u32::MAX - 1, u32::MAX]),
        1 => random.below(1000) as u32,
        _ => random.next() as u32,
    };
    let faults = some_faults(&mut random);
    let mut maker = Maker::new(&mut random);
    let mut message = maker.right();
    let used = freedoms(&message);
    for number in &faults {
        if let Way::Tree(way) = &FAULTS[*number].way {
            way(&mut maker, &mut message);
        }
    }
    let mut text = message.bytes();
    for number in &faults {
        if let Way::Bytes(way) = &FAULTS[*number].way {
            way(&mut random, &mut text);
        }
    }
    text.truncate(MOST_BYTES);
    Made { text, time, faults, used }
}

/// None, one, or some of different refusals, the one that is looked at first at the end: nothing takes its fault away again.
fn some_faults(random: &mut Random) -> Vec<usize> {
    let count = match random.below(10) {
        0 | 1 => 0,
        2..=7 => 1,
        8 => 2,
        _ => random.between(2, 4),
    };
    let mut faults: Vec<usize> = Vec::new();
    for _ in 0..count {
        let refusal = STAGES[random.weighted(&WEIGHTS)];
        let is_new = faults.iter().all(|number| FAULTS[*number].refusal != refusal && FAULTS[*number].refusal != 0);
        if is_new && (faults.is_empty() || refusal != 0) {
            let such: Vec<usize> = (0..FAULTS.len()).filter(|number| FAULTS[*number].refusal == refusal).collect();
            faults.push(random.pick(&such));
        }
    }
    faults.sort_by_key(|number| std::cmp::Reverse(stage(FAULTS[*number].refusal)));
    faults
}

pub fn check(options: &Options, program: &Program) -> io::Result<Found> {
    let last = options.first.saturating_add(options.messages.unwrap_or(DEFAULT_MESSAGES));
    let mut tally = MessageTally::new();
    let mut number = options.first;
    while number < last {
        let batch: Vec<Made> = (number..last.min(number + BATCH)).map(|number| make(options.seed, number)).collect();
        if let Some(at) = first_differing(program, &batch)? {
            show_difference(options, program, number + at as u64, &batch[at])?;
            return Ok(Found::Differs("message"));
        }
        batch.iter().for_each(|made| tally.message(made));
        number += batch.len() as u64;
    }
    let lacks = tally.print();
    lacks.print();
    let compared = format!("{} messages", tally.messages);
    Ok(Found::Same(Same { compared, count: tally.messages, enough: ENOUGH_MESSAGES, unit: "messages", lacks }))
}

fn first_differing(program: &Program, batch: &[Made]) -> io::Result<Option<usize>> {
    let input: Vec<u8> = (0..).zip(batch).flat_map(|(number, made): (u64, _)| made.bytes(&number.to_string())).collect();
    let texts = program.texts_of(&input, batch.len())?;
    Ok(batch.iter().zip(texts).position(|(made, text)| !is_same(&made.own_line(), text.as_deref())))
}

/// Whether the program's line says the same. Behind a refusal it has two numbers for people, which this reader doesn't give.
fn is_same(own: &[u8], text: Option<&[u8]>) -> bool {
    let Some(text) = text.filter(|text| text.ends_with(b"\n")) else {
        return false;
    };
    if own == text {
        return true;
    }
    let is_number = |word: &&[u8]| !word.is_empty() && word.iter().all(u8::is_ascii_digit);
    let words: Vec<&[u8]> = text[..text.len() - 1].split(|byte| *byte == b' ').collect();
    let is_refused = !own.starts_with(b"M 0 ");
    matches!(&words[..], [letter, refusal, place, what]
        if is_refused && [*letter, b" ", refusal, b"\n"].concat() == own && is_number(place) && is_number(what))
}

fn show_difference(options: &Options, program: &Program, number: u64, made: &Made) -> io::Result<()> {
    let text_of = |made: &Made| program.texts_of(&made.bytes("0"), 1).ok().and_then(|mut texts| texts.pop()).flatten();
    let differs = |made: &Made| !is_same(&made.own_line(), text_of(made).as_deref());
    let names = |faults: &[usize]| faults.iter().map(|number| FAULTS[*number].name.clone()).collect::<Vec<_>>().join(", ");
    let (seed, path) = (options.seed, program.path.display());
    println!("\nmessage {number} of seed {seed} differs; made with: {}", names(&made.faults));
    println!("to repeat: check --messages-program {path} --seed {seed} --first {number} --messages 1");
    std::fs::create_dir_all(&options.out)?;
    let file = |ending: &str| options.out.join(format!("differs-{seed}-{number}.{ending}"));
    std::fs::write(file("messages"), made.bytes("0"))?;
    println!("as the program reads it: {}", file("messages").display());
    if !differs(made) {
        println!("alone it doesn't differ; it did among the messages of its batch");
        return Ok(());
    }
    let reduced = if made.text.len() <= MOST_REDUCED { reduced(program, made)? } else { made.clone() };
    std::fs::write(file("xml"), &reduced.text)?;
    println!("reduced to {} bytes, at time {}: {}", reduced.text.len(), reduced.time, file("xml").display());
    println!("\nthis reader:\n{}", String::from_utf8_lossy(&reduced.own_line()));
    match text_of(&reduced) {
        Some(text) => println!("the program:\n{}", String::from_utf8_lossy(&text)),
        None => println!("the program: no text"),
    }
    Ok(())
}

/// A message made shorter while it still differs: first without parts from tag to tag, then from sign to sign, then byte by byte.
fn reduced(program: &Program, made: &Made) -> io::Result<Made> {
    let mut made = made.clone();
    for signs in [&b"<"[..], b"<>\" "] {
        while let Some(shorter) = without_a_part(program, &made, signs)? {
            made = shorter;
        }
    }
    while let Some(shorter) = first_that_differs(program, &made, (0..made.text.len()).map(|at| (at, at + 1)))? {
        made = shorter;
    }
    Ok(made)
}

/// The message without the longest part between two signs, or the text's ends, without which it still differs.
fn without_a_part(program: &Program, made: &Made, signs: &[u8]) -> io::Result<Option<Made>> {
    let is_sign = |at: &usize| made.text.get(*at).is_none_or(|byte| signs.contains(byte));
    let ends: Vec<usize> = (0..=made.text.len()).filter(is_sign).collect();
    let parts = (0..ends.len()).flat_map(|first| ends[first + 1..].iter().map(move |last| (first, *last)));
    let mut parts: Vec<(usize, usize)> = parts.map(|(first, last)| (ends[first], last)).collect();
    parts.sort_by_key(|(from, to)| std::cmp::Reverse(to - from));
    first_that_differs(program, made, parts.into_iter())
}

/// The message without the first of the parts without which it still differs.
fn first_that_differs(
    program: &Program,
    made: &Made,
    mut parts: impl Iterator<Item = (usize, usize)>,
) -> io::Result<Option<Made>> {
    let without = |(from, to): (usize, usize)| Made { text: [&made.text[..from], &made.text[to..]].concat(), ..made.clone() };
    loop {
        let batch: Vec<Made> = parts.by_ref().take(BATCH as usize).map(without).collect();
        if batch.is_empty() {
            return Ok(None);
        }
        if let Some(at) = first_differing(program, &batch)? {
            return Ok(batch.into_iter().nth(at));
        }
    }
}

/// Writes messages as the program reads them, each named by its number.
pub fn write(options: &Options, path: &Path) -> io::Result<()> {
    let mut file = io::BufWriter::new(std::fs::File::create(path)?);
    for number in options.first..options.first.saturating_add(options.messages.unwrap_or(DEFAULT_MESSAGES)) {
        file.write_all(&make(options.seed, number).bytes(&number.to_string()))?;
    }
    file.flush()
}

#[cfg(test)]
mod tests {
    use super::*;

    #[test]
    fn messages_depend_on_seed_and_number_alone() {
        for number in 0..200 {
            assert_eq!(make(1, number), make(1, number));
            assert!(make(1, number).text.len() <= MOST_BYTES);
        }
    }

    #[test]
    fn messages_are_written_to_the_byte() {
        let made = Made { text: b"<a/>".into(), time: 258, faults: vec![], used: BTreeSet::new() };
        assert_eq!(made.bytes("7"), b"\0\0\0\x01\0\0\0\x04\0\0\x01\x027<a/>");
        assert_eq!(made.own_line(), b"M 24\n");
    }

    #[test]
    fn lines_are_the_same_but_for_the_numbers_for_people() {
        let rows: &[(&[u8], &[u8], bool)] = &[
            (b"M 24\n", b"M 24\n", true),
            (b"M 24\n", b"M 24 0 17\n", true),
            (b"M 24\n", b"M 24 0\n", false),
            (b"M 24\n", b"M 24 0 x\n", false),
            (b"M 24\n", b"M 24 0 \n", false),
            (b"M 24\n", b"M 24 0 1 2\n", false),
            (b"M 24\n", b"M 24 0 1", false),
            (b"M 24\n", b"M 23 0 1\n", false),
            (b"M 24\n", b"M 2 4 0\n", false),
            (b"M 0 03\n", b"M 0 03\n", true),
            (b"M 0 03\n", b"M 0 04\n", false),
            (b"M 0 03\n", b"M 0 03 1\n", false),
        ];
        for (own, text, due) in rows {
            assert_eq!(is_same(own, Some(text)), *due, "{own:?} {text:?}");
        }
        assert!(!is_same(b"M 24\n", None));
    }
}
