//! Measures the steps alone: nanoseconds a ticket for each day file named as an argument.

use peer::book::Book;
use peer::dayfile::DayFile;
use peer::report::BUFFER_LEN;
use std::hint::black_box;
use std::process::ExitCode;
use std::time::Instant;

const USAGE: &str = "usage: steps [--rounds N] DAYFILE...";
const ROUNDS: usize = 2000;
const WARM_UP: usize = 50;

fn main() -> ExitCode {
    let mut rounds = ROUNDS;
    let mut files = Vec::new();
    let mut arguments = std::env::args().skip(1);
    while let Some(argument) = arguments.next() {
        if argument != "--rounds" {
            files.push(argument);
        } else if let Some(number) = arguments.next().and_then(|number| number.parse().ok()).filter(|&number| number > 0) {
            rounds = number;
        } else {
            return fail(USAGE);
        }
    }
    if files.is_empty() {
        return fail(USAGE);
    }
    for name in &files {
        match std::fs::read(name) {
            Ok(file) if !measure(name, &file, rounds) => return fail(&format!("{name}: no day file with tickets")),
            Ok(_) => (),
            Err(error) => return fail(&format!("{name}: {error}")),
        }
    }
    ExitCode::SUCCESS
}

fn fail(message: &str) -> ExitCode {
    eprintln!("{message}");
    ExitCode::from(2)
}

/// Prints the median and the spread, or answers false if there is nothing to measure.
fn measure(name: &str, file: &[u8], rounds: usize) -> bool {
    let Ok(day) = DayFile::read(file) else {
        return false;
    };
    let tickets = day.tickets().len();
    if tickets == 0 {
        return false;
    }
    let mut buffer = [0; BUFFER_LEN];
    for _ in 0..WARM_UP {
        run(&day, &mut buffer);
    }
    let mut times: Vec<f64> = (0..rounds).map(|_| run(&day, &mut buffer).0 / tickets as f64).collect();
    times.sort_by(f64::total_cmp);
    let at = |share: usize| times[(times.len() - 1) * share / 100];
    let (_, orders, accepted) = run(&day, &mut buffer);
    println!("{name}: tickets {tickets} accepted {accepted} orders {orders}");
    let [median, p10, p90, min, max] = [50, 10, 90, 0, 100].map(at);
    println!("  ns a ticket: median {median:.1}, p10 {p10:.1}, p90 {p90:.1}, min {min:.1}, max {max:.1}, rounds {rounds}");
    true
}

/// Nanoseconds for all tickets on a fresh book, opened before the time starts; the orders held and the tickets accepted.
fn run(day: &DayFile, buffer: &mut [u8; BUFFER_LEN]) -> (f64, usize, usize) {
    let mut book = Book::new(day.roster.clone());
    let mut accepted = 0;
    let start = Instant::now();
    for ticket in day.tickets() {
        let answer = book.hand_in(black_box(ticket), black_box(&mut buffer[..]));
        accepted += usize::from(answer.refusal.is_none());
    }
    let time = start.elapsed();
    (time.as_nanos() as f64, black_box(&book).orders().len(), accepted)
}
