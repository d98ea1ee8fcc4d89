//! Days that differ in one size each: orders held, participants, payers that share a TxId, route rows followed.

use crate::measure::Case;
use peer::codes::{Bic, TxId};
use peer::dayfile::MOST_TICKETS;
use peer::ticket::TICKET_LEN;
use peer::writing::{padded, participant_row, route_row, Day, TicketFields};

const IBAN: &[u8] = b"LV80BANK0000435195001";
const TIME: u32 = 28_800;
const COVER: u64 = 1_000_000;
/// As many tickets as are timed in each case, or fewer where its setup leaves less of a day.
const TIMED: usize = 240;
/// The members who make the orders of a full book, and how many orders each makes.
const MEMBERS: usize = 32;
const ORDERS_EACH: usize = 8;
const LETTERS: &[u8] = b"ABCDEFGHIJKLMNOPQRSTUVWXYZ0123456789";

type TicketBytes = [u8; TICKET_LEN];

pub fn cases() -> Vec<Case> {
    let mut cases = Vec::new();
    for held in [0, 64, 256] {
        cases.push(case(format!("inquiry, TxId not held; {held} held"), small_day(held), |n| inquiry(0, 1000 + n)));
    }
    for held in [1, 64, 256] {
        cases.push(case(format!("inquiry, TxId held; {held} held"), small_day(held), |n| inquiry(0, 37 * n % held)));
    }
    for held in [0, 64, 256] {
        let name = format!("order, turned back; {held} held");
        cases.push(case(name, small_day(held), |n| order(0, route_bic(1), 1000 + n, COVER + 1)));
    }
    for participants in [2, 32] {
        let day = roster(participants, 2);
        cases.push(case(format!("cover in; {participants} participants"), day, |n| cover_in(5 * n % participants, 1)));
    }
    for participants in [2, 32] {
        let name = format!("inquiry, TxId not held; {participants} participants");
        cases.push(case(name, roster(participants, 2), |n| inquiry(5 * n % participants, 1000 + n)));
    }
    for (what, number_of) in [("TxIds all different", by_itself as fn(usize) -> usize), ("8 TxIds for all", by_member)] {
        let day = || members_day(number_of);
        let asked = |n: usize| 37 * n % (MEMBERS * ORDERS_EACH);
        cases.push(case(format!("inquiry; 32 payers, {what}"), day(), |n| inquiry(asked(n) % MEMBERS, number_of(asked(n)))));
        cases.push(case(format!("yes; 32 payers, {what}"), day(), |n| yes(1, asked(n) % MEMBERS, number_of(asked(n)))));
    }
    for rows in [1, 64] {
        let name = format!("order, accepted; {rows} route rows followed");
        cases.push(case(name, chained_day(), |n| order(0, route_bic(rows - 1), n, 1)));
    }
    cases
}

/// The day as it is, and with the timed tickets behind it.
fn case(name: String, mut day: Day, ticket: impl Fn(usize) -> TicketBytes) -> Case {
    let base = day.bytes();
    let timed = TIMED.min(MOST_TICKETS - day.tickets.len());
    day.tickets.extend((0..timed).map(ticket));
    Case::new(name, base, day.bytes())
}

/// Banks, with routes that lead to each of them in turn.
fn roster(participants: usize, routes: usize) -> Day {
    Day {
        participants: (0..participants).map(|number| participant_row(&bank_bic(number), 0, None)).collect(),
        routes: (0..routes).map(|row| route_row(&route_bic(row), 0, (row % participants) as u16)).collect(),
        tickets: Vec::new(),
    }
}

/// Two banks and as many orders from the first to the second, all waiting.
fn small_day(held: usize) -> Day {
    let mut day = roster(2, 2);
    day.tickets.push(cover_in(0, COVER));
    day.tickets.extend((0..held).map(|number| order(0, route_bic(1), number, 1)));
    day
}

/// 32 banks that make 8 orders each in turn, all to the second bank and waiting; an order's number gives that of its TxId.
fn members_day(number_of: fn(usize) -> usize) -> Day {
    let mut day = roster(MEMBERS, 2);
    day.tickets.extend((0..MEMBERS).map(|member| cover_in(member, COVER)));
    let orders = 0..MEMBERS * ORDERS_EACH;
    day.tickets.extend(orders.map(|number| order(number % MEMBERS, route_bic(1), number_of(number), 1)));
    day
}

/// A TxId for each order.
fn by_itself(number: usize) -> usize {
    number
}

/// The same eight TxIds for each member.
fn by_member(number: usize) -> usize {
    number / MEMBERS
}

/// Two banks and 64 route rows, each but the first going on from the one before it.
fn chained_day() -> Day {
    let mut day = roster(2, 1);
    day.routes.extend((1..64).map(|row| route_row(&route_bic(row), 1, row as u16 - 1)));
    day.tickets.push(cover_in(0, COVER));
    day
}

fn bic(first: u8, number: usize) -> Bic {
    let mut bic = *b"AAAALV22XXX";
    bic[0] = first;
    bic[1] = b'A' + (number / 26) as u8;
    bic[2] = b'A' + (number % 26) as u8;
    bic
}

fn bank_bic(number: usize) -> Bic {
    bic(b'B', number)
}

fn route_bic(row: usize) -> Bic {
    bic(b'R', row)
}

/// Letters and digits that look random, another row of them for each number.
fn tx_id(number: usize) -> TxId {
    let mut state = number as u64 + 1;
    let code: [u8; 24] = std::array::from_fn(|_| {
        state = state.wrapping_mul(6_364_136_223_846_793_005).wrapping_add(1_442_695_040_888_963_407);
        LETTERS[(state >> 33) as usize % LETTERS.len()]
    });
    padded(&code)
}

fn cover_in(sender: usize, amount: u64) -> TicketBytes {
    TicketFields { amount, sender: bank_bic(sender), ..TicketFields::new(1, TIME) }.bytes()
}

fn order(payer: usize, payee: Bic, number: usize, amount: u64) -> TicketBytes {
    let fields = TicketFields::new(3, TIME);
    let (tx_id, iban) = (tx_id(number), padded(IBAN));
    TicketFields { amount, sender: bank_bic(payer), named: payee, tx_id, iban, ..fields }.bytes()
}

/// By the payer whom it names.
fn inquiry(payer: usize, number: usize) -> TicketBytes {
    TicketFields { sender: bank_bic(payer), named: bank_bic(payer), tx_id: tx_id(number), ..TicketFields::new(8, TIME) }.bytes()
}

fn yes(payee: usize, payer: usize, number: usize) -> TicketBytes {
    let fields = TicketFields::new(4, TIME);
    TicketFields { flag: 1, sender: bank_bic(payee), named: bank_bic(payer), tx_id: tx_id(number), ..fields }.bytes()
}
