//! Two clearing programs on the same days: the time of a day, without that of an empty input.

use crate::measure::{median, print_goal, print_heading, print_line, steps_ratio, Figure, Times};
use std::fs::File;
use std::io::Result;
use std::process::{Command, Stdio};
use std::time::Instant;

/// The proved program is to take at most this share of the peer's time.
const GOAL: f64 = 0.6;
/// A round's time is the median of so many runs: a process's start takes much longer than a day and varies more.
const RUNS: usize = 32;
const ROUNDS: usize = 60;
const NOTHING: &str = "/dev/null";

/// The output goes nowhere; the times are in microseconds.
pub fn measure(programs: [&str; 2], days: &[&str]) -> std::result::Result<(), String> {
    let told = |error| format!("the programs: {error}");
    for day in days {
        let [proved, peer] = [output(programs[0], day).map_err(told)?, output(programs[1], day).map_err(told)?];
        if proved != peer {
            return Err(format!("{day}: the two programs print different lines"));
        }
    }
    let pair = rounds(programs, days).map_err(told)?;
    print_heading("whole program, us a day");
    print_line(&format!("{} days of 512 tickets", days.len()), [0, 1].map(|side| Figure::of_steps(&pair[side], 1.0)));
    print_line("an empty input", [0, 1].map(|side| Figure::of_base(&pair[side], 1.0)));
    print_line("a day with the start", [0, 1].map(|side| Figure::of_full(&pair[side])));
    print_goal(GOAL, steps_ratio(&pair));
    Ok(())
}

fn rounds(programs: [&str; 2], days: &[&str]) -> Result<[Times; 2]> {
    let mut pair = [Times::default(), Times::default()];
    for round in 0..ROUNDS {
        let mut runs = [Times::default(), Times::default()];
        for run in 0..RUNS {
            let day = days[(round * RUNS + run) % days.len()];
            for turn in 0..2 {
                let at = (run + turn) % 2;
                runs[at].base.push(time(programs[at], NOTHING)?);
                runs[at].full.push(time(programs[at], day)?);
            }
        }
        for (times, runs) in pair.iter_mut().zip(&runs) {
            times.base.push(median(&runs.base));
            times.full.push(median(&runs.full));
        }
    }
    Ok(pair)
}

fn command(program: &str, input: &str) -> Result<Command> {
    let mut command = Command::new(program);
    command.stdin(File::open(input)?);
    Ok(command)
}

fn output(program: &str, input: &str) -> Result<Vec<u8>> {
    Ok(command(program, input)?.output()?.stdout)
}

fn time(program: &str, input: &str) -> Result<f64> {
    let mut command = command(program, input)?;
    command.stdout(Stdio::null());
    let start = Instant::now();
    command.status()?;
    Ok(start.elapsed().as_nanos() as f64 / 1000.0)
}
