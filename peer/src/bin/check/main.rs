//! The check: random days, random tickets handed in one by one, random messages, and random texts for the IBAN check, through this
//! book and through the proved programs, which must print the same lines.

// Random numbers are cut to the width of the field that they are for.
#![allow(clippy::cast_possible_truncation)]

mod codes;
mod damage;
mod days;
mod hands;
mod iban_make;
mod iban_tally;
mod ibans;
mod inputs;
mod inputs_tally;
mod message_damage;
mod message_faults;
mod message_form;
mod message_freedoms;
mod message_make;
mod message_rest;
mod message_tally;
mod message_tree;
mod messages;
mod pair_tally;
mod program;
mod random;
mod recall_tally;
mod reduce;
mod setup;
mod tally;
mod verdict;

use damage::FAULTS;
use days::Style;
use peer::printing::print_day;
use program::Program;
use random::Random;
use std::io::{self, IsTerminal};
use std::path::{Path, PathBuf};
use std::process::ExitCode;
use std::time::{Duration, Instant};
use tally::Tally;
use verdict::{Found, Same};

const USAGE: &str = "usage: check [PROGRAM] [--hands PROGRAM] [--messages-program PROGRAM] [--cases PROGRAM]
             [--days N] [--inputs N] [--messages N] [--ibans N] [--seed S] [--first N] [--seconds T] [--out DIR]
       check --write DIR [--days N] [--seed S]
       check --write-messages FILE [--messages N] [--seed S] [--first N]
Runs random days through PROGRAM and through this book, compares all lines and prints what was met; then the same of random
tickets that are handed in one by one, each with a buffer of its own, of random messages, and of random texts for the IBAN check,
if there are programs for these. What is never met fails the check from 10000 days, 20000 tickets one by one, 20000 messages and
20000 texts on. The last line is the verdict.
  --hands PROGRAM  the program that hands tickets in one by one
  --messages-program PROGRAM  the program that reads messages
  --cases PROGRAM  the program that checks IBANs
  --days N         as many days (default 20000, or without end if there are seconds)
  --inputs N       at least so many tickets one by one, in whole cases (default 20000); with 0 none
  --messages N     as many messages (default 20000); with 0 none
  --ibans N        as many texts for the IBAN check (default 20000); with 0 none
  --seed S         the seed of all days, cases, messages and texts (default 1)
  --first N        the number of the first day, of the first case, of the first message and of the first text (default 0)
  --seconds T      no new days after so many seconds
  --out DIR        where a day, case, message or text that differs is written (default: the system's temporary folder)
  --write DIR      writes full working days there and compares nothing
  --write-messages FILE  writes messages there, as the program reads them, and compares nothing";

const DEFAULT_DAYS: u64 = 20_000;
/// So many days meet everything, with each of 100 seeds; in 4,000 days two of these lack one thing each. The rarest is a ticket
/// with 544 reports: 28 of it in 20,000 days.
const ENOUGH_DAYS: u64 = 10_000;
/// Days that go through the program at once.
const BATCH: u64 = 250;
/// One day in so many has a fault in its file.
const FAULTY_ONE_IN: u64 = 4;

struct Options {
    program: Option<PathBuf>,
    hands: Option<PathBuf>,
    reader: Option<PathBuf>,
    cases: Option<PathBuf>,
    write: Option<PathBuf>,
    write_messages: Option<PathBuf>,
    days: Option<u64>,
    inputs: Option<u64>,
    messages: Option<u64>,
    ibans: Option<u64>,
    seconds: Option<u64>,
    seed: u64,
    first: u64,
    out: PathBuf,
}

fn main() -> ExitCode {
    if std::env::args().skip(1).any(|word| word == "--help" || word == "-h") {
        println!("{USAGE}");
        return ExitCode::SUCCESS;
    }
    let Some(options) = options(std::env::args().skip(1)) else {
        eprintln!("{USAGE}");
        return ExitCode::from(2);
    };
    let programs = [&options.program, &options.hands, &options.reader, &options.cases];
    let has_program = programs.iter().any(|program| program.is_some());
    let result = match (has_program, &options.write, &options.write_messages) {
        (false, Some(folder), None) => write_days(&options, folder).map(|()| true),
        (false, None, Some(file)) => messages::write(&options, file).map(|()| true),
        (true, None, None) => check_all(&options),
        _ => {
            eprintln!("{USAGE}");
            return ExitCode::from(2);
        }
    };
    match result {
        Ok(true) => ExitCode::SUCCESS,
        Ok(false) => ExitCode::from(1),
        Err(error) => {
            eprintln!("check: {error}");
            ExitCode::from(2)
        }
    }
}

/// None if an argument is wrong.
fn options(mut arguments: impl Iterator<Item = String>) -> Option<Options> {
    let mut options = Options {
        program: None,
        hands: None,
        reader: None,
        cases: None,
        write: None,
        write_messages: None,
        days: None,
        inputs: None,
        messages: None,
        ibans: None,
        seconds: None,
        seed: 1,
        first: 0,
        out: std::env::temp_dir(),
    };
    while let Some(argument) = arguments.next() {
        match argument.as_str() {
            "--hands" => options.hands = Some(arguments.next()?.into()),
            "--messages-program" => options.reader = Some(arguments.next()?.into()),
            "--cases" => options.cases = Some(arguments.next()?.into()),
            "--days" => options.days = Some(arguments.next()?.parse().ok()?),
            "--inputs" => options.inputs = Some(arguments.next()?.parse().ok()?),
            "--messages" => options.messages = Some(arguments.next()?.parse().ok()?),
            "--ibans" => options.ibans = Some(arguments.next()?.parse().ok()?),
            "--seconds" => options.seconds = Some(arguments.next()?.parse().ok()?),
            "--seed" => options.seed = arguments.next()?.parse().ok()?,
            "--first" => options.first = arguments.next()?.parse().ok()?,
            "--out" => options.out = arguments.next()?.into(),
            "--write" => options.write = Some(arguments.next()?.into()),
            "--write-messages" => options.write_messages = Some(arguments.next()?.into()),
            path if options.program.is_none() && !path.starts_with("--") => options.program = Some(path.into()),
            _ => return None,
        }
    }
    Some(options)
}

/// True if all was the same and what has to be met was, by the programs that there are. The last line says it.
fn check_all(options: &Options) -> io::Result<bool> {
    let program = |path: &Path| Program { path: path.into() };
    let mut found = Vec::new();
    if let Some(path) = &options.program {
        found.push(check(options, &program(path))?);
    }
    if let Some(path) = options.hands.as_ref().filter(|_| found.iter().all(Found::is_fine) && options.inputs != Some(0)) {
        found.push(hands::check(options, &program(path))?);
    }
    if let Some(path) = options.reader.as_ref().filter(|_| found.iter().all(Found::is_fine) && options.messages != Some(0)) {
        found.push(messages::check(options, &program(path))?);
    }
    if let Some(path) = options.cases.as_ref().filter(|_| found.iter().all(Found::is_fine) && options.ibans != Some(0)) {
        found.push(ibans::check(options, &program(path))?);
    }
    println!("\n{}", verdict::line(&found));
    Ok(found.iter().all(Found::is_fine))
}

/// The file of a day, and the number of its fault if it has one.
fn make_day(seed: u64, number: u64) -> (Vec<u8>, Option<usize>) {
    let mut random = Random::for_day(seed, number);
    if random.one_in(FAULTY_ONE_IN) {
        let fault = random.index(FAULTS.len());
        return (damage::file(&mut random, fault), Some(fault));
    }
    let style = days::style(&mut random);
    (days::day(&mut random, style).bytes(), None)
}

fn own_text(file: &[u8]) -> Vec<u8> {
    let mut text = Vec::new();
    print_day(file, &mut text);
    text
}

fn check(options: &Options, program: &Program) -> io::Result<Found> {
    let end = options.seconds.map(|seconds| Instant::now() + Duration::from_secs(seconds));
    let most = options.days.unwrap_or(if end.is_some() { u64::MAX } else { DEFAULT_DAYS });
    let last = options.first.saturating_add(most);
    let shows_progress = io::stderr().is_terminal();
    let mut tally = Tally::new();
    let mut number = options.first;
    while number < last && end.is_none_or(|end| Instant::now() < end) {
        let batch = number..last.min(number + BATCH);
        if let Some(differing) = check_batch(options, program, batch.clone(), &mut tally)? {
            show_difference(options, program, differing)?;
            return Ok(Found::Differs("day"));
        }
        number = batch.end;
        if shows_progress {
            eprint!("\r{} days, {} tickets, all the same ", tally.days, tally.tickets);
        }
    }
    if shows_progress {
        eprintln!();
    }
    let lacks = tally.print();
    lacks.print();
    let compared = format!("{} days with {} tickets", tally.days, tally.tickets);
    Ok(Found::Same(Same { compared, count: tally.days, enough: ENOUGH_DAYS, unit: "days", lacks }))
}

/// The number of the first day that differs, if one does.
fn check_batch(
    options: &Options,
    program: &Program,
    numbers: std::ops::Range<u64>,
    tally: &mut Tally,
) -> io::Result<Option<u64>> {
    let first = numbers.start;
    let (files, faults): (Vec<_>, Vec<_>) = numbers.map(|number| make_day(options.seed, number)).unzip();
    let texts = program.texts(&files)?;
    let is_other = |(file, text): (&Vec<u8>, &Option<Vec<u8>>)| *text != Some(own_text(file));
    if let Some(at) = files.iter().zip(&texts).position(is_other) {
        return Ok(Some(first + at as u64));
    }
    for (file, fault) in files.iter().zip(faults) {
        tally.day(file, fault);
    }
    Ok(None)
}

fn show_difference(options: &Options, program: &Program, number: u64) -> io::Result<()> {
    let (file, _) = make_day(options.seed, number);
    let text_of = |file: &[u8]| program.texts(&[file.to_vec()]).ok().and_then(|mut texts| texts.pop()).flatten();
    let differs = |file: &[u8]| text_of(file) != Some(own_text(file));
    println!("\nday {number} of seed {} differs", options.seed);
    println!("to repeat: check {} --seed {} --first {number} --days 1", program.path.display(), options.seed);
    if !differs(&file) {
        println!("alone it doesn't differ; it did among the days of its batch");
        return write_file(&options.out, options.seed, number, &file);
    }
    let reduced = reduce::reduce(file, differs);
    write_file(&options.out, options.seed, number, &reduced)?;
    println!("\nthis book:\n{}", String::from_utf8_lossy(&own_text(&reduced)));
    match text_of(&reduced) {
        Some(text) => println!("the program:\n{}", String::from_utf8_lossy(&text)),
        None => println!("the program: no text"),
    }
    Ok(())
}

fn write_file(folder: &Path, seed: u64, number: u64, file: &[u8]) -> io::Result<()> {
    let path = folder.join(format!("differs-{seed}-{number}.day"));
    std::fs::create_dir_all(folder)?;
    std::fs::write(&path, file)?;
    println!("reduced to {} bytes: {}", file.len(), path.display());
    Ok(())
}

fn write_days(options: &Options, folder: &Path) -> io::Result<()> {
    std::fs::create_dir_all(folder)?;
    for number in options.first..options.first + options.days.unwrap_or(4) {
        let mut random = Random::for_day(options.seed, number);
        let day = days::day(&mut random, Style::Working);
        std::fs::write(folder.join(format!("full-{}-{number}.day", options.seed)), day.bytes())?;
    }
    Ok(())
}

#[cfg(test)]
mod tests {
    use super::*;

    #[test]
    fn days_depend_on_seed_and_number_alone() {
        for number in 0..50 {
            assert_eq!(make_day(1, number), make_day(1, number));
            assert!(make_day(1, number).0.len() <= damage::MOST_BYTES);
        }
    }

    #[test]
    fn working_days_are_full() {
        let day = days::day(&mut Random::for_day(1, 0), Style::Working);
        assert_eq!((day.participants.len(), day.tickets.len()), (32, 512));
    }
}
