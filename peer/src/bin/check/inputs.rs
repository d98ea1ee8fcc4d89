//! Random cases for the program that hands tickets in one by one: a day file, and tickets of any length with buffers of any length.

use crate::codes;
use crate::damage::{self, FAULTS};
use crate::days::{self, Style};
use crate::random::Random;
use crate::setup::{set_up, Setup};
use peer::book::{MOST_ORDERS, WAIT};
use peer::codes::Bic;
use peer::dayfile::MOST_PARTICIPANTS;
use peer::handing::{print_case, Input};
use peer::report::{BUFFER_LEN, REPORT_LEN};
use peer::ticket::TICKET_LEN;
use peer::writing::{padded, Day, TicketFields};

/// The proved program takes no longer ticket and no longer buffer.
const MOST_LEN: usize = 8192;
/// The styles take turns, so that even few cases have every one.
const TURN: u64 = 64;
/// One case in so many has a fault in its file.
const FAULTY_ONE_IN: u64 = 12;
/// One ticket in so many of a mixed day is handed in with a short buffer alone, so that the tickets behind it meet another book.
const LOST_ONE_IN: u64 = 25;

#[derive(Clone, PartialEq, Eq, Debug)]
pub struct Case {
    pub file: Vec<u8>,
    pub inputs: Vec<Input>,
}

impl Case {
    /// What the program reads, with that name.
    pub fn bytes(&self, name: &str) -> Vec<u8> {
        let mut bytes = Vec::new();
        for length in [name.len(), self.file.len(), self.inputs.len()] {
            put_length(&mut bytes, length);
        }
        bytes.extend_from_slice(name.as_bytes());
        bytes.extend_from_slice(&self.file);
        for input in &self.inputs {
            put_length(&mut bytes, input.ticket.len());
            put_length(&mut bytes, input.buffer);
            bytes.push(input.fill);
            bytes.extend_from_slice(&input.ticket);
        }
        bytes
    }

    pub fn own_text(&self) -> Vec<u8> {
        let mut text = Vec::new();
        print_case(&self.file, &self.inputs, &mut text);
        text
    }
}

fn put_length(bytes: &mut Vec<u8>, length: usize) {
    bytes.extend_from_slice(&(length as u32).to_be_bytes());
}

/// The case of that number.
pub fn case(seed: u64, number: u64) -> Case {
    let mut random = Random::for_day(!seed, number);
    let turn = number % TURN;
    if turn == 0 {
        return fullest(&mut random);
    }
    let style = style(turn);
    let day = days::day(&mut random, style);
    let inputs = inputs(&mut random, style, &day);
    Case { file: file(&mut random, day), inputs }
}

fn style(turn: u64) -> Style {
    match turn {
        1 => Style::OneSecond,
        2 => Style::FullBook,
        3 => Style::Long,
        4..=15 => Style::NearLimit,
        16..=31 => Style::Recalls,
        32..=41 => Style::Numbered,
        _ => Style::Mixed,
    }
}

/// All 256 orders of a full book expire at a cut that tells all 32 participants: 544 reports, to the last byte of the least buffer.
fn fullest(random: &mut Random) -> Case {
    let openings_up_to = 1_000_000;
    let (participants, systems, wishes) = (MOST_PARTICIPANTS, 0, 100);
    let setup = Setup { participants, systems, wishes, openings_up_to, direct_routes_only: true, short_bics: false };
    let mut day = set_up(random, &setup);
    let bics: Vec<Bic> = day.participants.iter().map(|row| padded(&row[..11])).collect();
    let time = random.below(1000) as u32;
    for (bic, row) in bics.iter().zip(&day.participants) {
        let opening = u64::from_be_bytes(padded(&row[12..20]));
        let amount = if opening > MOST_ORDERS as u64 && random.one_in(2) { opening - 1 } else { opening + 1000 };
        day.tickets.push(TicketFields { sender: *bic, amount, ..TicketFields::new(1, time) }.bytes());
    }
    for number in 0..MOST_ORDERS {
        let (sender, payee) = (random.pick(&bics), random.pick(&bics));
        let (tx_id, iban) = (padded(number.to_string().as_bytes()), codes::iban(random));
        day.tickets.push(TicketFields { sender, named: payee, tx_id, iban, amount: 1, ..TicketFields::new(3, time) }.bytes());
    }
    day.tickets.push(TicketFields::new(9, time + WAIT).bytes());
    let mut inputs = inputs(random, Style::OneSecond, &day);
    if let Some(cut) = inputs.last_mut() {
        cut.buffer = BUFFER_LEN;
    }
    Case { file: Day { tickets: vec![], ..day }.bytes(), inputs }
}

/// The day's own file, with its tickets or without, as they are handed in anyway; or one with a fault.
fn file(random: &mut Random, day: Day) -> Vec<u8> {
    if random.one_in(FAULTY_ONE_IN) {
        let fault = random.index(FAULTS.len());
        return damage::file(random, fault);
    }
    let tickets = if random.one_in(2) { day.tickets } else { vec![] };
    Day { tickets, ..day }.bytes()
}

/// The day's tickets, each with a long buffer, and before some of them what leaves the book as it is.
fn inputs(random: &mut Random, style: Style, day: &Day) -> Vec<Input> {
    let mut inputs = Vec::new();
    for ticket in &day.tickets {
        let is_lost = style == Style::Mixed && random.one_in(LOST_ONE_IN);
        if is_lost || random.one_in(6) {
            let ticket = if random.one_in(4) { other_length(random, ticket) } else { ticket.to_vec() };
            inputs.push(Input { ticket, buffer: short_buffer(random), fill: fill(random) });
        }
        if random.one_in(12) {
            inputs.push(Input { ticket: other_length(random, ticket), buffer: long_buffer(random), fill: fill(random) });
        }
        if !is_lost {
            inputs.push(Input { ticket: ticket.to_vec(), buffer: long_buffer(random), fill: fill(random) });
        }
    }
    inputs
}

/// The ticket cut short, or with bytes behind it.
fn other_length(random: &mut Random, ticket: &[u8; TICKET_LEN]) -> Vec<u8> {
    let mut bytes = ticket.to_vec();
    let length = match random.below(6) {
        0 => 0,
        1 => TICKET_LEN - 1,
        2 => TICKET_LEN + 1,
        3 => 2 * TICKET_LEN,
        4 => random.index(TICKET_LEN),
        _ => random.between(TICKET_LEN as u64 + 1, MOST_LEN as u64) as usize,
    };
    let behind = if random.one_in(2) { 0 } else { random.next() as u8 };
    bytes.resize(length, behind);
    bytes
}

fn short_buffer(random: &mut Random) -> usize {
    match random.below(5) {
        0 => BUFFER_LEN - 1,
        1 => random.pick(&[0, 1, REPORT_LEN, BUFFER_LEN - REPORT_LEN]),
        _ => random.index(BUFFER_LEN),
    }
}

fn long_buffer(random: &mut Random) -> usize {
    match random.below(4) {
        0 | 1 => BUFFER_LEN,
        2 => random.pick(&[BUFFER_LEN + 1, BUFFER_LEN + REPORT_LEN, MOST_LEN]),
        _ => random.between(BUFFER_LEN as u64, MOST_LEN as u64) as usize,
    }
}

fn fill(random: &mut Random) -> u8 {
    if random.one_in(4) {
        random.pick(&[0, 255])
    } else {
        random.next() as u8
    }
}

#[cfg(test)]
mod tests {
    use super::*;

    #[test]
    fn cases_depend_on_seed_and_number_alone() {
        for number in 0..TURN {
            assert_eq!(case(1, number), case(1, number));
        }
    }

    #[test]
    fn lengths_keep_to_their_limits() {
        let mut random = Random::for_day(1, 1);
        for _ in 0..10_000 {
            assert_ne!(other_length(&mut random, &[0; TICKET_LEN]).len(), TICKET_LEN);
            assert!(short_buffer(&mut random) < BUFFER_LEN);
            assert!((BUFFER_LEN..=MOST_LEN).contains(&long_buffer(&mut random)));
        }
    }

    #[test]
    fn cases_are_written_to_the_byte() {
        let case = Case { file: vec![7], inputs: vec![Input { ticket: vec![1, 2], buffer: 300, fill: 9 }] };
        assert_eq!(case.bytes("ab"), b"\0\0\0\x02\0\0\0\x01\0\0\0\x01ab\x07\0\0\0\x02\0\0\x01\x2c\x09\x01\x02");
        assert_eq!(case.own_text(), b"F 1\nT 0 6 0 0\nB 300 300\nK 0\n");
    }
}
