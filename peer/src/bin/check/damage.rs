//! Day files with a fault or at an edge: each way has a name and the refusal that it is to meet.

use crate::codes;
use crate::days::{self, Style};
use crate::random::Random;
use crate::setup::new_bic;
use peer::codes::Bic;
use peer::dayfile::{HEADER_LEN, MOST_OPENING, MOST_PARTICIPANTS, MOST_ROUTES, MOST_TICKETS, PARTICIPANT_LEN, ROUTE_LEN};
use peer::ticket::TICKET_LEN;
use peer::writing::{padded, participant_row, route_row, Day};

/// The proved program takes no longer day.
pub const MOST_BYTES: usize = 57_101;

/// A way to make a file. With refusal 0 it is to be read at least once.
pub struct Fault {
    pub name: &'static str,
    pub refusal: u8,
    make: fn(&mut Random, Day) -> Vec<u8>,
}

const fn fault(name: &'static str, refusal: u8, make: fn(&mut Random, Day) -> Vec<u8>) -> Fault {
    Fault { name, refusal, make }
}

pub const FAULTS: &[Fault] = &[
    fault("no byte", 1, |_, _| vec![]),
    fault("below 12 bytes", 1, |random, day| cut_to(day, random.below(12))),
    fault("11 bytes", 1, |_, day| cut_to(day, 11)),
    fault("12 bytes", 3, |_, day| cut_to(day, 12)),
    fault("zero bytes, below 12", 1, |random, _| vec![0; random.index(12)]),
    fault("zero bytes, 12 or more", 2, |random, _| vec![0; 12 + random.index(200)]),
    fault("no participant", 2, |_, day| Day { participants: vec![], ..day }.bytes()),
    fault("33 participants", 2, |random, day| with_participants(random, day, MOST_PARTICIPANTS + 1).bytes()),
    fault("32 participants", 0, |random, day| with_participants(random, day, MOST_PARTICIPANTS).bytes()),
    fault("65 routes", 2, |random, day| with_routes(random, day, MOST_ROUTES + 1).bytes()),
    fault("64 routes", 0, |random, day| with_routes(random, day, MOST_ROUTES).bytes()),
    fault("513 tickets", 2, |_, day| with_tickets(day, MOST_TICKETS + 1).bytes()),
    fault("512 tickets", 0, |_, day| with_tickets(day, MOST_TICKETS).bytes()),
    fault("largest file", 0, |random, day| largest(random, day).bytes()),
    fault("largest file and a byte more", 3, |random, day| [largest(random, day).bytes(), vec![0]].concat()),
    fault("high byte of a count", 2, |random, day| in_header(random, day, 0, 3, high_byte)),
    fault("participants' offset", 3, |random, day| in_header(random, day, 3, 1, off_by_little)),
    fault("routes' offset", 3, |random, day| in_header(random, day, 4, 1, off_by_little)),
    fault("tickets' offset", 3, |random, day| in_header(random, day, 5, 1, off_by_little)),
    fault("high byte of an offset", 3, |random, day| in_header(random, day, 3, 3, high_byte)),
    fault("two numbers of the header change places", 3, swap_in_header),
    fault("a count off by one", 3, |random, day| in_header(random, day, 0, 3, off_by_little)),
    fault("a byte short", 3, |_, day| cut_to(day, u64::MAX)),
    fault("cut short", 3, cut_short),
    fault("a byte more", 3, |_, day| [day.bytes(), vec![0]].concat()),
    fault("some bytes more", 3, |random, day| [day.bytes(), vec![0; random.between(1, 300) as usize]].concat()),
    fault("participant: bad BIC", 4, |random, day| in_participant(random, day, bad_bic)),
    fault("participant: an earlier row's BIC", 4, earlier_participant),
    fault("participant: kind above 1", 4, |random, day| in_participant(random, day, |random, row| above_one(random, row, 11))),
    fault("participant: wish above 1", 4, |random, day| in_participant(random, day, |random, row| above_one(random, row, 20))),
    fault("participant: opening above 10^15", 4, |random, day| in_participant(random, day, opening_above)),
    fault("participant: opening 10^15", 0, |random, day| in_participant(random, day, |_, row| set_opening(row, MOST_OPENING, 1))),
    fault("participant: opening without the wish", 4, |random, day| in_participant(random, day, opening_without_wish)),
    fault("participant: spare nonzero", 4, |random, day| in_participant(random, day, |random, row| spare(random, row, 21))),
    fault("route: bad BIC", 5, |random, day| in_route(random, day, |random, row, _| bad_bic(random, row))),
    fault("route: an earlier row's BIC", 5, earlier_route),
    fault("route: kind above 1", 5, |random, day| in_route(random, day, |random, row, _| above_one(random, row, 11))),
    fault("route: k is the participant count", 5, |random, day| in_route(random, day, |_, row, at| lead(row, 0, at.count))),
    fault("route: k is the last participant", 0, |random, day| in_route(random, day, |_, row, at| lead(row, 0, at.count - 1))),
    fault("route: k far above the participants", 5, |random, day| in_route(random, day, far_participant)),
    fault("route: k is its own row", 5, |random, day| in_route(random, day, |_, row, at| lead(row, 1, at.number))),
    fault("route: k is the row before", 0, |random, day| in_route(random, day, row_before)),
    fault("route: k is a later row", 5, |random, day| in_route(random, day, later_row)),
    fault("route: spare nonzero", 5, |random, day| in_route(random, day, |random, row, _| spare(random, row, 14))),
    fault("faults in participant and route rows", 4, faults_in_both),
    fault("bits of the header", 3, |random, day| flip(random, day, |_| (0, HEADER_LEN))),
    fault("bits of the participant rows", 4, |random, day| flip(random, day, |day| (HEADER_LEN, routes_at(day)))),
    fault("bits of the route rows", 5, |random, day| flip(random, day, |day| (routes_at(day), tickets_at(day)))),
    fault("bits of the tickets", 0, |random, day| flip(random, day, |day| (tickets_at(day), day.bytes().len()))),
    fault("bits anywhere", 0, |random, day| flip(random, day, |day| (0, day.bytes().len()))),
    fault("fields of a ticket change places", 0, swap_fields),
    fault("random bytes", 2, |random, _| random_bytes(random, 400)),
    fault("random header, consistent layout", 2, random_header),
    fault("random rows, consistent layout", 4, random_rows),
    fault("random tickets", 0, random_tickets),
];

/// A file made in the way of that number.
pub fn file(random: &mut Random, number: usize) -> Vec<u8> {
    let day = days::day(random, Style::Mixed);
    let mut file = (FAULTS[number].make)(random, day);
    file.truncate(MOST_BYTES);
    file
}

fn routes_at(day: &Day) -> usize {
    HEADER_LEN + day.participants.len() * PARTICIPANT_LEN
}

fn tickets_at(day: &Day) -> usize {
    routes_at(day) + day.routes.len() * ROUTE_LEN
}

/// The file's start, at least a byte less than the whole.
fn cut_to(day: Day, length: u64) -> Vec<u8> {
    let mut bytes = day.bytes();
    bytes.truncate((bytes.len() - 1).min(length.try_into().unwrap_or(usize::MAX)));
    bytes
}

fn cut_short(random: &mut Random, day: Day) -> Vec<u8> {
    let length = random.below(day.bytes().len() as u64);
    cut_to(day, length)
}

fn bics<const LEN: usize>(rows: &[[u8; LEN]]) -> Vec<Bic> {
    rows.iter().map(|row| padded(&row[..11])).collect()
}

fn with_participants(random: &mut Random, mut day: Day, count: usize) -> Day {
    while day.participants.len() < count {
        let bic = new_bic(random, &bics(&day.participants));
        day.participants.push(participant_row(&bic, random.below(2) as u8, Some(random.below(100))));
    }
    day
}

fn with_routes(random: &mut Random, mut day: Day, count: usize) -> Day {
    while day.routes.len() < count {
        let bic = new_bic(random, &bics(&day.routes));
        day.routes.push(route_row(&bic, 0, random.index(day.participants.len()) as u16));
    }
    day
}

fn with_tickets(mut day: Day, count: usize) -> Day {
    let last = day.tickets.last().copied().unwrap_or([0; TICKET_LEN]);
    day.tickets.resize(count, last);
    day
}

fn largest(random: &mut Random, day: Day) -> Day {
    let day = with_participants(random, day, MOST_PARTICIPANTS);
    let day = with_routes(random, day, MOST_ROUTES);
    with_tickets(day, MOST_TICKETS)
}

/// Changes one of so many header numbers, from the first on.
fn in_header(random: &mut Random, day: Day, first: usize, count: usize, change: fn(&mut Random, u16) -> u16) -> Vec<u8> {
    let mut bytes = day.bytes();
    let at = 2 * (first + random.index(count));
    let number = u16::from_be_bytes([bytes[at], bytes[at + 1]]);
    bytes[at..at + 2].copy_from_slice(&change(random, number).to_be_bytes());
    bytes
}

fn high_byte(random: &mut Random, number: u16) -> u16 {
    number ^ (0x100 << random.below(8))
}

fn off_by_little(random: &mut Random, number: u16) -> u16 {
    let change = random.pick(&[1, 1, 12, 16, 24, 108]);
    if random.one_in(2) {
        number.wrapping_add(change)
    } else {
        number.wrapping_sub(change)
    }
}

fn swap_in_header(random: &mut Random, day: Day) -> Vec<u8> {
    let mut bytes = day.bytes();
    let (one, other) = (2 * random.index(6), 2 * random.index(6));
    bytes.swap(one, other);
    bytes.swap(one + 1, other + 1);
    bytes
}

fn in_participant(random: &mut Random, mut day: Day, change: fn(&mut Random, &mut [u8])) -> Vec<u8> {
    let number = random.index(day.participants.len());
    change(random, &mut day.participants[number]);
    day.bytes()
}

fn bad_bic(random: &mut Random, row: &mut [u8]) {
    let bic = codes::wrong_bic(random, &padded(&row[..11]));
    row[..11].copy_from_slice(&bic);
}

fn above_one(random: &mut Random, row: &mut [u8], at: usize) {
    row[at] = if random.one_in(2) { 2 } else { random.between(2, 255) as u8 };
}

fn set_opening(row: &mut [u8], opening: u64, wish: u8) {
    row[12..20].copy_from_slice(&opening.to_be_bytes());
    row[20] = wish;
}

fn opening_above(random: &mut Random, row: &mut [u8]) {
    let opening = random.pick(&[MOST_OPENING + 1, MOST_OPENING + 1, 1 << 63, u64::MAX]);
    set_opening(row, opening, 1);
}

fn opening_without_wish(random: &mut Random, row: &mut [u8]) {
    let opening = random.of_any_size(MOST_OPENING);
    set_opening(row, opening, 0);
}

/// Sets one of the spare bytes, which go from there to the row's end.
fn spare(random: &mut Random, row: &mut [u8], from: usize) {
    let at = from + random.index(row.len() - from);
    row[at] = random.between(1, 255) as u8;
}

fn earlier_participant(random: &mut Random, mut day: Day) -> Vec<u8> {
    let bic = padded(&day.participants[random.index(day.participants.len())][..11]);
    if day.participants.len() < MOST_PARTICIPANTS {
        day.participants.push(participant_row(&bic, random.below(2) as u8, None));
    }
    day.bytes()
}

fn earlier_route(random: &mut Random, mut day: Day) -> Vec<u8> {
    if !day.routes.is_empty() && day.routes.len() < MOST_ROUTES {
        let bic = padded(&day.routes[random.index(day.routes.len())][..11]);
        day.routes.push(route_row(&bic, 0, 0));
    }
    day.bytes()
}

/// Where a route row stands: its number, and the counts of participants and routes.
struct Place {
    number: u16,
    count: u16,
    routes: u16,
}

fn in_route(random: &mut Random, mut day: Day, change: fn(&mut Random, &mut [u8], Place)) -> Vec<u8> {
    if !day.routes.is_empty() {
        let number = random.index(day.routes.len());
        let place = Place { number: number as u16, count: day.participants.len() as u16, routes: day.routes.len() as u16 };
        change(random, &mut day.routes[number], place);
    }
    day.bytes()
}

fn lead(row: &mut [u8], kind: u8, k: u16) {
    row[11] = kind;
    row[12..14].copy_from_slice(&k.to_be_bytes());
}

fn far_participant(random: &mut Random, row: &mut [u8], at: Place) {
    let k = random.below(at.count.into()) as u16;
    lead(row, 0, random.pick(&[k + 256, k + 0x8000, u16::MAX]));
}

fn row_before(_: &mut Random, row: &mut [u8], at: Place) {
    if at.number > 0 {
        lead(row, 1, at.number - 1);
    }
}

fn later_row(random: &mut Random, row: &mut [u8], at: Place) {
    let k = random.between(at.number.into(), at.routes.into()) as u16;
    lead(row, 1, random.pick(&[k, k, k + 256, u16::MAX]));
}

fn faults_in_both(random: &mut Random, mut day: Day) -> Vec<u8> {
    if let Some(row) = day.routes.first_mut() {
        row[15] = 1;
    }
    in_participant(random, day, |random, row| spare(random, row, 21))
}

/// Turns one to three bits between two places of the file.
fn flip(random: &mut Random, day: Day, places: fn(&Day) -> (usize, usize)) -> Vec<u8> {
    let (start, end) = places(&day);
    let mut bytes = day.bytes();
    if start < end {
        for _ in 0..random.between(1, 3) {
            bytes[start + random.index(end - start)] ^= 1 << random.below(8);
        }
    }
    bytes
}

/// Exchanges two fields of a ticket, as far as the shorter one goes.
fn swap_fields(random: &mut Random, mut day: Day) -> Vec<u8> {
    const FIELDS: [(usize, usize); 8] = [(0, 1), (1, 1), (4, 4), (8, 8), (16, 11), (27, 11), (38, 35), (73, 34)];
    if !day.tickets.is_empty() {
        let number = random.index(day.tickets.len());
        let (one, other) = (random.pick(&FIELDS), random.pick(&FIELDS));
        for at in 0..one.1.min(other.1) {
            day.tickets[number].swap(one.0 + at, other.0 + at);
        }
    }
    day.bytes()
}

fn random_bytes(random: &mut Random, most: u64) -> Vec<u8> {
    (0..random.below(most + 1)).map(|_| random.next() as u8).collect()
}

/// Counts around their limits with the layout that they give, over random bytes.
fn random_header(random: &mut Random, _: Day) -> Vec<u8> {
    let mut count = |most: usize| if random.one_in(3) { 0 } else { random.index(most) };
    let (participants, routes, tickets) = (count(40), count(70), count(20));
    let day = Day {
        participants: vec![[0; PARTICIPANT_LEN]; participants],
        routes: vec![[0; ROUTE_LEN]; routes],
        tickets: vec![[0; TICKET_LEN]; tickets],
    };
    let mut bytes = day.bytes();
    bytes[HEADER_LEN..].fill_with(|| random.next() as u8);
    bytes
}

fn random_rows(random: &mut Random, mut day: Day) -> Vec<u8> {
    day.participants.as_flattened_mut().fill_with(|| random.next() as u8);
    day.bytes()
}

fn random_tickets(random: &mut Random, mut day: Day) -> Vec<u8> {
    for ticket in &mut day.tickets {
        if random.one_in(2) {
            ticket.fill_with(|| random.next() as u8);
        }
    }
    day.bytes()
}
