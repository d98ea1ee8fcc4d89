//! The participants and routes of a random day.

use crate::codes;
use crate::random::Random;
use peer::codes::Bic;
use peer::dayfile::{MOST_OPENING, MOST_PARTICIPANTS, MOST_ROUTES};
use peer::writing::{participant_row, route_row, Day};

/// How a day is set up.
pub struct Setup {
    pub participants: usize,
    /// Linked systems in a hundred participants.
    pub systems: u64,
    /// Participants in a hundred with an opening cover.
    pub wishes: u64,
    pub openings_up_to: u64,
    /// A direct route for each participant, and no other.
    pub direct_routes_only: bool,
    /// Some BICs are the first eight bytes of another with XXX.
    pub short_bics: bool,
}

/// A day without tickets.
pub fn set_up(random: &mut Random, setup: &Setup) -> Day {
    let mut day = Day::default();
    let mut bics: Vec<Bic> = Vec::new();
    while bics.len() < setup.participants.min(MOST_PARTICIPANTS) {
        let bic = match bics.last().map(short_bic) {
            Some(short) if setup.short_bics && !bics.contains(&short) && random.one_in(3) => short,
            _ => new_bic(random, &bics),
        };
        let kind = random.percent(setup.systems).into();
        let opening = random.percent(setup.wishes).then(|| opening(random, setup.openings_up_to));
        day.participants.push(participant_row(&bic, kind, opening));
        bics.push(bic);
    }
    add_routes(random, setup, &bics, &mut day);
    day
}

fn short_bic(bic: &Bic) -> Bic {
    let mut short = *bic;
    short[8..].fill(b'X');
    short
}

/// A BIC that none of the others is.
pub fn new_bic(random: &mut Random, others: &[Bic]) -> Bic {
    loop {
        let bic = match others {
            [.., last] if random.one_in(3) => codes::near_bic(random, last),
            _ => codes::bic(random),
        };
        if !others.contains(&bic) {
            return bic;
        }
    }
}

fn opening(random: &mut Random, up_to: u64) -> u64 {
    match random.below(8) {
        0 => 0,
        1 => up_to,
        2 => random.of_any_size(MOST_OPENING),
        _ => random.between(0, up_to.min(5000)),
    }
}

fn add_routes(random: &mut Random, setup: &Setup, bics: &[Bic], day: &mut Day) {
    let count = match random.below(12) {
        _ if setup.direct_routes_only => bics.len(),
        0 => random.index(3),
        1 | 2 => MOST_ROUTES,
        3 => random.index(MOST_ROUTES + 1),
        _ => bics.len() + random.index(4),
    };
    let is_chain = random.one_in(6);
    let mut used: Vec<Bic> = Vec::new();
    for number in 0..count.min(MOST_ROUTES) {
        let bic = match bics.get(number) {
            Some(bic) if !used.contains(bic) => *bic,
            _ => new_bic(random, &used),
        };
        let goes_on = number > 0 && !setup.direct_routes_only && (is_chain || random.one_in(4));
        let row = match (goes_on, is_chain) {
            (true, true) => route_row(&bic, 1, number as u16 - 1),
            (true, false) => route_row(&bic, 1, random.index(number) as u16),
            _ if number < bics.len() => route_row(&bic, 0, number as u16),
            _ => route_row(&bic, 0, random.index(bics.len()) as u16),
        };
        used.push(bic);
        day.routes.push(row);
    }
}
