//! Interleaved rounds of both books, medians with their spread, and the lines that show them.

use crate::sides::{tickets_in, Buffers, SIDES};
use std::hint::black_box;
use std::time::Instant;

const WARM_UP: usize = 100;
const ROUNDS: usize = 2000;

/// Two files that differ in the tickets whose time is sought.
pub struct Case {
    pub name: String,
    pub base: Vec<u8>,
    pub full: Vec<u8>,
    /// How many tickets the full file has more.
    pub tickets: usize,
}

impl Case {
    pub fn new(name: String, base: Vec<u8>, full: Vec<u8>) -> Self {
        let tickets = tickets_in(&full) - tickets_in(&base);
        Case { name, base, full, tickets }
    }
}

/// The times of one book, in nanoseconds, one for each round.
#[derive(Clone, Default)]
pub struct Times {
    pub base: Vec<f64>,
    pub full: Vec<f64>,
}

/// Proved book and peer.
pub type Pair = [Times; 2];

/// Each round goes through all cases, and in each case through both files and both books; the book that comes first changes
/// from round to round.
pub fn rounds(cases: &[Case]) -> Vec<Pair> {
    let mut buffers = Buffers::new();
    let mut all = vec![Pair::default(); cases.len()];
    for round in 0..WARM_UP + ROUNDS {
        for (case, times) in cases.iter().zip(&mut all) {
            for turn in 0..2 {
                let at = (round + turn) % 2;
                let [base, full] = [&case.base, &case.full].map(|file| {
                    let start = Instant::now();
                    black_box(SIDES[at].run(file, &mut buffers));
                    start.elapsed().as_nanos() as f64
                });
                if round >= WARM_UP {
                    times[at].base.push(base);
                    times[at].full.push(full);
                }
            }
        }
    }
    all
}

/// The rounds of all cases as one case.
pub fn together(all: &[Pair]) -> Pair {
    [0, 1].map(|side| Times {
        base: sums(all.iter().map(|pair| &pair[side].base)),
        full: sums(all.iter().map(|pair| &pair[side].full)),
    })
}

fn sums<'a>(columns: impl Iterator<Item = &'a Vec<f64>>) -> Vec<f64> {
    let mut total = Vec::new();
    for column in columns {
        total.resize(column.len(), 0.0);
        total.iter_mut().zip(column).for_each(|(sum, time)| *sum += time);
    }
    total
}

/// The value that has so many percent of all below it.
pub fn percentile(values: &[f64], percent: usize) -> f64 {
    let mut sorted = values.to_vec();
    sorted.sort_by(f64::total_cmp);
    sorted[(sorted.len() - 1) * percent / 100]
}

pub fn median(values: &[f64]) -> f64 {
    percentile(values, 50)
}

fn between(one: &[f64], other: &[f64], with: impl Fn(f64, f64) -> f64) -> Vec<f64> {
    one.iter().zip(other).map(|(&one, &other)| with(one, other)).collect()
}

/// A figure of each round. What is compared lies within a round, since the machine's speed changes from one to another.
pub struct Figure {
    rounds: Vec<f64>,
}

impl Figure {
    /// The full file's time without the base's.
    pub fn of_steps(times: &Times, share: f64) -> Self {
        Figure { rounds: between(&times.full, &times.base, |full, base| (full - base) / share) }
    }

    pub fn of_base(times: &Times, share: f64) -> Self {
        Figure { rounds: times.base.iter().map(|base| base / share).collect() }
    }

    pub fn of_full(times: &Times) -> Self {
        Figure { rounds: times.full.clone() }
    }

    pub fn ratio(&self, other: &Figure) -> Self {
        Figure { rounds: between(&self.rounds, &other.rounds, |one, other| one / other) }
    }

    pub fn median(&self) -> f64 {
        median(&self.rounds)
    }

    fn text(&self, decimals: usize) -> String {
        let [p10, p90] = [10, 90].map(|percent| percentile(&self.rounds, percent));
        format!("{:>8.decimals$} {:>17}", self.median(), format!("{p10:.decimals$} to {p90:.decimals$}"))
    }
}

/// The cases' numbers, by their ratio.
pub fn by_ratio(all: &[Pair]) -> Vec<usize> {
    let ratios: Vec<f64> = all.iter().map(steps_ratio).collect();
    let mut numbers: Vec<usize> = (0..all.len()).collect();
    numbers.sort_by(|&one, &other| ratios[one].total_cmp(&ratios[other]));
    numbers
}

pub fn steps_ratio([proved, peer]: &Pair) -> f64 {
    Figure::of_steps(proved, 1.0).ratio(&Figure::of_steps(peer, 1.0)).median()
}

pub fn print_heading(what: &str) {
    println!(
        "{what:<42} {:>8} {:>17} {:>8} {:>17} {:>8} {:>17}",
        "proved", "p10 to p90", "peer", "p10 to p90", "ratio", "p10 to p90"
    );
}

pub fn print_line(name: &str, [proved, peer]: [Figure; 2]) {
    println!("{name:<42} {} {} {}", proved.text(1), peer.text(1), proved.ratio(&peer).text(2));
}

pub fn print_steps(name: &str, pair: &Pair, tickets: usize) {
    print_line(name, [0, 1].map(|side| Figure::of_steps(&pair[side], tickets as f64)));
}

pub fn print_base(name: &str, pair: &Pair, files: usize) {
    print_line(name, [0, 1].map(|side| Figure::of_base(&pair[side], files as f64)));
}

pub fn print_goal(goal: f64, ratio: f64) {
    let reached = if ratio <= goal { "reached" } else { "not reached" };
    println!("goal: a ratio of at most {goal:.2}; {reached}");
}
