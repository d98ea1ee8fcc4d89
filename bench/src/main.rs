//! Measures the proved book beside the peer: the steps of days, how they grow, and the two clearing programs.

// Rows, banks and reports are numbered far below what two bytes hold.
#![allow(clippy::cast_possible_truncation)]

mod growth;
mod measure;
mod programs;
mod sides;

use measure::Case;
use sides::{Buffers, Side};
use std::hint::black_box;
use std::process::ExitCode;
use std::time::{Duration, Instant};

/// The steps are to take at most this share of the peer's time.
const GOAL: f64 = 0.65;

const USAGE: &str = "usage: steps days DAYFILE...
       steps growth
       steps programs PROVED PEER DAYFILE...
       steps repeat proved|peer SECONDS DAYFILE...
days      nanoseconds a ticket in process, the book's opening apart
growth    the same on days made to show what the cost grows with
programs  microseconds a day of two clearing programs, the start of the process apart
repeat    runs days through one book for so many seconds, for a profile";

fn main() -> ExitCode {
    let arguments: Vec<String> = std::env::args().skip(1).collect();
    let words: Vec<&str> = arguments.iter().map(String::as_str).collect();
    let done = match words[..] {
        ["days", ref names @ ..] if !names.is_empty() => days(names),
        ["growth"] => growth(),
        ["programs", proved, peer, ref names @ ..] if !names.is_empty() => programs::measure([proved, peer], names),
        ["repeat", side, seconds, ref names @ ..] if !names.is_empty() => repeat(side, seconds, names),
        _ => Err(USAGE.to_string()),
    };
    match done {
        Ok(()) => ExitCode::SUCCESS,
        Err(message) => {
            eprintln!("{message}");
            ExitCode::from(2)
        }
    }
}

fn read(name: &str) -> Result<Vec<u8>, String> {
    std::fs::read(name).map_err(|error| format!("{name}: {error}"))
}

/// Each day beside the same file with its tickets left out.
fn days(names: &[&str]) -> Result<(), String> {
    let mut cases = Vec::new();
    for name in names {
        let full = read(name)?;
        let base = sides::without_tickets(&full).ok_or(format!("{name}: no day file with tickets"))?;
        cases.push(Case::new(name.to_string(), base, full));
    }
    sides::check_same(&cases)?;
    let times = measure::rounds(&cases);
    let tickets = cases.iter().map(|case| case.tickets).sum();
    measure::print_heading("steps, ns a ticket");
    let all = measure::together(&times);
    measure::print_steps(&format!("{} days, {tickets} tickets", cases.len()), &all, tickets);
    let by_ratio = measure::by_ratio(&times);
    for (which, &at) in [("lowest ratio of a day", &by_ratio[0]), ("highest ratio of a day", &by_ratio[by_ratio.len() - 1])] {
        measure::print_steps(which, &times[at], cases[at].tickets);
    }
    measure::print_base("opening a book, ns", &all, cases.len());
    measure::print_goal(GOAL, measure::steps_ratio(&all));
    Ok(())
}

fn growth() -> Result<(), String> {
    let cases = growth::cases();
    sides::check_same(&cases)?;
    let times = measure::rounds(&cases);
    measure::print_heading("growth, ns a ticket");
    for (case, times) in cases.iter().zip(&times) {
        measure::print_steps(&case.name, times, case.tickets);
    }
    Ok(())
}

fn repeat(side: &str, seconds: &str, names: &[&str]) -> Result<(), String> {
    let side = match side {
        "proved" => Side::Proved,
        "peer" => Side::Peer,
        _ => return Err(USAGE.to_string()),
    };
    let seconds = seconds.parse().map_err(|_| USAGE.to_string())?;
    let files = names.iter().map(|name| read(name)).collect::<Result<Vec<_>, _>>()?;
    let mut buffers = Buffers::new();
    let end = Instant::now() + Duration::from_secs(seconds);
    while Instant::now() < end {
        for file in &files {
            black_box(side.run(file, &mut buffers));
        }
    }
    Ok(())
}
