//! Counts what the days met: refusals, accepted kinds, report codes, steps and faults of files.

use crate::damage::FAULTS;
use crate::pair_tally;
use crate::recall_tally;
use crate::verdict::Lacks;
use peer::book::{Answer, Book, Cover, Order, Recall, Status, WAIT};
use peer::codes::{is_iban, unpadded, Bic, IBAN_LEN};
use peer::dayfile::{DayFile, MOST_OPENING};
use peer::report::{reports, Report, BUFFER_LEN, MOST_REPORTS};
use peer::ticket::{Kind, Ticket, IBAN_AT, MOST_PAID, TICKET_LEN};
use peer::MOST_COVER;
use std::collections::{BTreeMap, BTreeSet};

/// Everything a ticket can do that is counted by name.
const STEPS: &[&str] = &[
    "cover in",
    "cover in that takes all cover to 10^18",
    "cover out",
    "cover out of all available",
    "order to a bank",
    "order to a linked system",
    "order to oneself",
    "order of all available",
    "order of one cent more than available",
    "order of 99,999,999,999",
    "order that fills the book",
    "order with an IBAN but for one small letter",
    "order with an IBAN but for a small letter behind the check digits",
    "order with an IBAN but for a small letter at its end",
    "order with an IBAN but for several small letters",
    "route of 1 row",
    "route of 2 to 9 rows",
    "route of 10 to 63 rows",
    "route of 64 rows",
    "yes by a bank",
    "yes by a linked system",
    "yes by the payer itself",
    "no by a bank",
    "no by a linked system",
    "recall",
    "return of the whole order",
    "return in part",
    "return of 1 cent",
    "return of one cent less than the order",
    "return of one cent more than the order",
    "return in part of all available",
    "return by the payer itself",
    "return in part by the payer itself",
    "return within the order and above available",
    "return in part and above available",
    "return above the order and above available",
    "return above the order by the payer itself",
    "return above available by the payer itself",
    "second return of an order returned in part",
    "second return of just the rest",
    "recall declined",
    "inquiry: waiting for a bank",
    "inquiry: waiting for a linked system",
    "inquiry: refused",
    "inquiry: expired before",
    "inquiry: expired by the inquiry",
    "inquiry: returned in whole",
    "inquiry: returned in part",
    "inquiry: settled",
    "inquiry: settled, recall asked",
    "inquiry: settled, recall declined",
    "cut: available above the opening cover",
    "cut: available below the opening cover",
    "cut: available equal to the opening cover",
    "cut: no opening cover",
    "cut: opening cover 0",
    "cut: opening cover 10^15",
    "cut: cover reserved",
    "confirmed credit",
    "confirmed debit in full",
    "confirmed debit in part",
    "confirmed debit of 0",
    "confirm off by one",
    "expiry by an accepted ticket",
    "expiry by a refused ticket",
    "expiry after 20 seconds",
    "expiry after more than 20 seconds",
    "expiry of 10 orders or more at once",
    "expiry of 256 orders at once",
    "no expiry after 19 seconds",
    "no expiry of a linked system's order after 20 seconds or more",
    "order waiting whose time plus 20 is above 32 bits",
    "ticket in the same second as the one before",
    "ticket at the last second of 32 bits",
    "ticket with 544 reports",
];

fn steps() -> impl Iterator<Item = &'static str> {
    STEPS.iter().chain(recall_tally::NAMES).copied().chain(pair_tally::names())
}

/// One more than the last refusal of a ticket.
pub const ANSWERS: usize = 27;

/// The kinds of ticket that can meet each refusal from 7 on; 0 stands for all other bytes.
fn kinds_with(refusal: usize) -> &'static [usize] {
    match refusal {
        7 => &[0, 1, 2, 3, 4, 5, 6, 7, 8, 9, 10, 11],
        8 => &[3],
        9 => &[1, 2, 3, 6],
        10 => &[1, 2, 3, 6, 10],
        0 | 11 => &[1, 2, 3, 4, 5, 6, 7, 8, 9, 10, 11],
        12 => &[1, 2, 3, 4, 5, 6, 7, 8, 10],
        13..=15 => &[3],
        16 | 17 => &[4, 5, 6, 7, 8],
        18 => &[4, 5, 6, 7],
        19 => &[6],
        20 => &[2, 3, 6],
        21 => &[9, 10],
        22 => &[1, 10],
        26 => &[5],
        _ => &[],
    }
}

pub struct Tally {
    pub days: u64,
    pub tickets: u64,
    /// By refusal, 0 for files that are read.
    files: [u64; 6],
    /// By refusal, 0 for accepted tickets, and by kind.
    answers: [[u64; 12]; ANSWERS],
    /// By code.
    reports: [u64; 12],
    steps: BTreeMap<&'static str, u64>,
    faults: Vec<u64>,
    /// The times of the day's recalls, accepted or late, by order; of several late ones the first.
    recalls: BTreeMap<usize, u32>,
    /// The day's orders that were inquired about after they had ended.
    asked: BTreeSet<usize>,
}

impl Tally {
    pub fn new() -> Self {
        Tally {
            days: 0,
            tickets: 0,
            files: [0; 6],
            answers: [[0; 12]; ANSWERS],
            reports: [0; 12],
            steps: steps().map(|name| (name, 0)).collect(),
            faults: vec![0; FAULTS.len()],
            recalls: BTreeMap::new(),
            asked: BTreeSet::new(),
        }
    }

    /// Counts a day, made with the fault of that number or with none.
    pub fn day(&mut self, file: &[u8], fault: Option<usize>) {
        let read = DayFile::read(file);
        let refusal = read.as_ref().err().map_or(0, |refusal| refusal.number());
        self.days += 1;
        self.files[usize::from(refusal)] += 1;
        if let Some(number) = fault.filter(|&number| FAULTS[number].refusal == refusal) {
            self.faults[number] += 1;
        }
        let Ok(day) = read else {
            return;
        };
        let tickets = day.tickets();
        let mut book = Book::new(day.roster);
        let mut buffer = [0; BUFFER_LEN];
        self.recalls.clear();
        self.asked.clear();
        for ticket in tickets {
            self.ticket(&mut book, ticket, &mut buffer);
        }
    }

    fn ticket(&mut self, book: &mut Book, bytes: &[u8; TICKET_LEN], buffer: &mut [u8; BUFFER_LEN]) {
        let clock = book.clock();
        let ticket = Ticket::read(bytes).ok();
        let sender = ticket.and_then(|ticket| book.roster().participant_with(ticket.sender));
        let cover = sender.map_or(Cover::default(), |sender| book.covers()[usize::from(sender)]);
        let answer = book.hand_in(bytes, buffer);
        let refusal = usize::from(answer.refusal_number());
        let kind = usize::from(bytes[0]);
        self.tickets += 1;
        self.answers[refusal][if kind < 12 { kind } else { 0 }] += 1;
        for report in reports(buffer, answer.reports) {
            self.reports[usize::from(report.code)] += 1;
        }
        if refusal == 7 {
            pair_tally::refused_by_7(bytes).into_iter().for_each(|name| self.count(name));
        }
        if refusal == 8 {
            self.small_letters(unpadded(&bytes[IBAN_AT..IBAN_AT + IBAN_LEN]));
        }
        if let Some(ticket) = ticket.filter(|_| !(7..=11).contains(&refusal)) {
            let recalled_at = book.order_with(ticket.payer(), ticket.tx_id).and_then(|number| self.recalls.get(&number).copied());
            let seen = Seen { book, ticket: &ticket, answer, buffer, cover_before: cover, clock_before: clock, recalled_at };
            self.waits(&seen);
            self.recalls(&seen);
            self.pairs(&seen);
            match (refusal, ticket.kind) {
                (0, _) => self.step(&seen),
                (18..=20, Kind::Return) => self.refused_return(&seen, refusal),
                (20, _) => self.count_if(is_one_cent_more(&seen), "order of one cent more than available"),
                (21, _) => self.count_if(is_off_by_one(&seen), "confirm off by one"),
                _ => (),
            }
        }
    }

    /// How often that was met.
    #[cfg(test)]
    pub fn steps(&self, name: &str) -> u64 {
        self.steps[name]
    }

    fn count(&mut self, name: &'static str) {
        *self.steps.get_mut(name).expect("the list has every name") += 1;
    }

    fn count_if(&mut self, is_met: bool, name: &'static str) {
        if is_met {
            self.count(name);
        }
    }

    /// An IBAN that is none because of small letters behind its check digits.
    fn small_letters(&mut self, iban: &[u8]) {
        let is_small = |byte: &u8| byte.is_ascii_lowercase();
        let (first, rest) = iban.split_at(iban.len().min(4));
        if !is_iban(&[first, &rest.to_ascii_uppercase()].concat()) {
            return;
        }
        let count = rest.iter().filter(|byte| is_small(byte)).count();
        self.count_if(count == 1, "order with an IBAN but for one small letter");
        self.count_if(count > 1, "order with an IBAN but for several small letters");
        let is_alone_at = |byte: Option<&u8>| count == 1 && byte.is_some_and(is_small);
        self.count_if(is_alone_at(rest.first()), "order with an IBAN but for a small letter behind the check digits");
        self.count_if(is_alone_at(rest.last()), "order with an IBAN but for a small letter at its end");
    }

    /// What is met by the time since a settlement or a recall.
    fn recalls(&mut self, seen: &Seen) {
        recall_tally::met(seen).for_each(|name| self.count(name));
        if seen.ticket.kind == Kind::Recall && matches!(seen.answer.refusal_number(), 0 | 26) {
            if let Some(number) = seen.order_number() {
                self.recalls.entry(number).or_insert(seen.ticket.time);
            }
        }
    }

    /// What is met by payer and TxId.
    fn pairs(&mut self, seen: &Seen) {
        let names: Vec<_> = pair_tally::met(seen, &self.asked).collect();
        names.into_iter().for_each(|name| self.count(name));
        self.asked.extend(pair_tally::asked_and_ended(seen));
    }

    /// What the ticket's time does, before its own step.
    fn waits(&mut self, seen: &Seen) {
        let clock = seen.ticket.time;
        self.count_if(clock == seen.clock_before, "ticket in the same second as the one before");
        self.count_if(clock == u32::MAX, "ticket at the last second of 32 bits");
        self.count_if(seen.answer.reports == MOST_REPORTS, "ticket with 544 reports");
        let expired = seen.expired();
        if !expired.is_empty() {
            let is_accepted = seen.answer.refusal.is_none();
            self.count(if is_accepted { "expiry by an accepted ticket" } else { "expiry by a refused ticket" });
            let is_at_20 = |number: &u16| clock - seen.book.orders()[usize::from(*number)].time == WAIT;
            self.count_if(expired.iter().any(is_at_20), "expiry after 20 seconds");
            self.count_if(!expired.iter().all(is_at_20), "expiry after more than 20 seconds");
            self.count_if(expired.len() >= 10, "expiry of 10 orders or more at once");
            self.count_if(expired.len() == 256, "expiry of 256 orders at once");
        }
        self.still_waiting(seen, clock);
    }

    fn still_waiting(&mut self, seen: &Seen, clock: u32) {
        let is_bank = |payee: u8| seen.is_bank(payee);
        let waiting = || seen.book.orders().iter().filter(|order| order.status == Status::Waiting);
        let is_at_19 = waiting().any(|order| is_bank(order.payee) && clock - order.time == WAIT - 1);
        let is_linked = waiting().any(|order| !is_bank(order.payee) && clock - order.time >= WAIT);
        let is_late = waiting().any(|order| is_bank(order.payee) && clock > order.time && order.time > u32::MAX - WAIT);
        self.count_if(is_at_19, "no expiry after 19 seconds");
        self.count_if(is_linked, "no expiry of a linked system's order after 20 seconds or more");
        self.count_if(is_late, "order waiting whose time plus 20 is above 32 bits");
    }

    /// An accepted ticket's own step.
    fn step(&mut self, seen: &Seen) {
        let sender = seen.book.roster().participant_with(seen.ticket.sender);
        let available = sender.map_or(0, |sender| seen.book.covers()[usize::from(sender)].available);
        match seen.ticket.kind {
            Kind::CoverIn => {
                self.count("cover in");
                self.count_if(seen.book.total() == MOST_COVER, "cover in that takes all cover to 10^18");
            }
            Kind::CoverOut => {
                self.count("cover out");
                self.count_if(available == 0, "cover out of all available");
            }
            Kind::Order => {
                self.order(seen);
                self.count_if(available == 0, "order of all available");
            }
            Kind::Cut => self.cut(seen),
            Kind::Confirm => self.confirm(seen),
            Kind::Tick => (),
            _ => self.held_order(seen),
        }
    }

    fn order(&mut self, seen: &Seen) {
        let Some(order) = seen.book.orders().last() else {
            return;
        };
        self.count(if seen.is_bank(order.payee) { "order to a bank" } else { "order to a linked system" });
        self.count_if(order.payer == order.payee, "order to oneself");
        self.count_if(order.amount == MOST_PAID, "order of 99,999,999,999");
        self.count_if(seen.book.orders().len() == 256, "order that fills the book");
        self.count(match seen.answer.rows {
            0 | 1 => "route of 1 row",
            2..=9 => "route of 2 to 9 rows",
            10..=63 => "route of 10 to 63 rows",
            _ => "route of 64 rows",
        });
    }

    fn held_order(&mut self, seen: &Seen) {
        let Some(number) = seen.order_number() else {
            return;
        };
        let order = &seen.book.orders()[number];
        let is_bank = seen.is_bank(order.payee);
        let is_own = order.payer == order.payee;
        match seen.ticket.kind {
            Kind::Yes => {
                self.count(if is_bank { "yes by a bank" } else { "yes by a linked system" });
                self.count_if(is_own, "yes by the payer itself");
            }
            Kind::No => self.count(if is_bank { "no by a bank" } else { "no by a linked system" }),
            Kind::Recall => self.count("recall"),
            Kind::Return => self.accepted_return(seen, order),
            Kind::Decline => self.count("recall declined"),
            _ => self.count(match order.status {
                Status::Waiting if is_bank => "inquiry: waiting for a bank",
                Status::Waiting => "inquiry: waiting for a linked system",
                Status::Refused => "inquiry: refused",
                Status::Expired if seen.expired().contains(&(number as u16)) => "inquiry: expired by the inquiry",
                Status::Expired => "inquiry: expired before",
                Status::Returned(..) if order.is_returned_in_part() => "inquiry: returned in part",
                Status::Returned(..) => "inquiry: returned in whole",
                Status::Settled(Recall::None, _) => "inquiry: settled",
                Status::Settled(Recall::Asked, _) => "inquiry: settled, recall asked",
                Status::Settled(Recall::Declined, _) => "inquiry: settled, recall declined",
            }),
        }
    }

    /// What the payee had available after the expiries is what it has now, and the amount if that left it.
    fn accepted_return(&mut self, seen: &Seen, order: &Order) {
        let amount = seen.ticket.amount;
        let is_own = order.payer == order.payee;
        let available = seen.available(order.payee) + if is_own { 0 } else { amount };
        self.count_if(is_own, "return by the payer itself");
        if !order.is_returned_in_part() {
            return self.count("return of the whole order");
        }
        self.count("return in part");
        self.count_if(amount == 1, "return of 1 cent");
        self.count_if(amount + 1 == order.amount, "return of one cent less than the order");
        self.count_if(amount == available, "return in part of all available");
        self.count_if(is_own, "return in part by the payer itself");
    }

    /// A return refused by 18 to 20 leaves its order and the payee's cover as they are after the expiries.
    fn refused_return(&mut self, seen: &Seen, refusal: usize) {
        let Some(order) = seen.order() else {
            return;
        };
        let amount = seen.ticket.amount;
        let is_own = order.payer == order.payee;
        match (refusal, order.status) {
            (18, Status::Returned(_, returned)) => {
                self.count_if(returned < order.amount, "second return of an order returned in part");
                self.count_if(amount == order.amount - returned, "second return of just the rest");
            }
            (19, _) => {
                self.count_if(amount == order.amount + 1, "return of one cent more than the order");
                self.count_if(amount > seen.available(order.payee), "return above the order and above available");
                self.count_if(is_own, "return above the order by the payer itself");
            }
            (20, _) => {
                self.count_if(amount <= order.amount, "return within the order and above available");
                self.count_if(amount < order.amount, "return in part and above available");
                self.count_if(is_own, "return above available by the payer itself");
            }
            _ => (),
        }
    }

    fn cut(&mut self, seen: &Seen) {
        for (participant, cover) in seen.book.roster().participants().iter().zip(seen.book.covers()) {
            self.count(match cover {
                _ if participant.opening.is_none() => "cut: no opening cover",
                Cover { held: 1.., .. } => "cut: available above the opening cover",
                Cover { open_debit: 1.., .. } => "cut: available below the opening cover",
                _ => "cut: available equal to the opening cover",
            });
            self.count_if(participant.opening == Some(0), "cut: opening cover 0");
            self.count_if(participant.opening == Some(MOST_OPENING), "cut: opening cover 10^15");
            self.count_if(participant.opening.is_some() && cover.reserved != 0, "cut: cover reserved");
        }
    }

    fn confirm(&mut self, seen: &Seen) {
        let debit = seen.cover_before.open_debit;
        self.count(match seen.ticket.amount {
            _ if seen.cover_before.held != 0 => "confirmed credit",
            0 => "confirmed debit of 0",
            amount if amount < debit => "confirmed debit in part",
            _ => "confirmed debit in full",
        });
    }

    /// Prints the table and gives the names of what was never met, or met where it can't be.
    pub fn print(&self) -> Lacks {
        let mut lacks = Lacks::default();
        println!("days {}, tickets {}\n", self.days, self.tickets);
        println!("files");
        for (refusal, &count) in self.files.iter().enumerate() {
            let name = if refusal == 0 { "read".to_string() } else { format!("refusal {refusal}") };
            print_row(&name, count, &mut lacks);
        }
        self.print_answers(&mut lacks);
        println!("\nreports by code");
        for (code, &count) in self.reports.iter().enumerate().skip(1) {
            print_row(&format!("code {code}"), count, &mut lacks);
        }
        println!("\nsteps");
        for name in steps() {
            print_row(name, self.steps[name], &mut lacks);
        }
        println!("\nfiles with a fault or at an edge");
        for (fault, &count) in FAULTS.iter().zip(&self.faults) {
            let outcome = if fault.refusal == 0 { "read".to_string() } else { format!("refusal {}", fault.refusal) };
            print_row(&format!("{}, {outcome}", fault.name), count, &mut lacks);
        }
        lacks
    }

    fn print_answers(&self, lacks: &mut Lacks) {
        let heads: Vec<String> = (1..12).map(|kind| format!("{:>9}", format!("kind {kind}"))).collect();
        println!("\n{:<11}{:>10}{}{:>9}", "tickets", "all", heads.concat(), "other");
        for refusal in (0..ANSWERS).filter(|refusal| !kinds_with(*refusal).is_empty()) {
            let name = if refusal == 0 { "accepted".to_string() } else { format!("refusal {refusal}") };
            let cell = |kind: usize| match (self.answers[refusal][kind], kinds_with(refusal).contains(&kind)) {
                (0, false) => format!("{:>9}", "-"),
                (count, _) => format!("{count:>9}"),
            };
            let cells: String = (1..12).chain([0]).map(cell).collect();
            println!("{name:<11}{:>10}{cells}", self.answers[refusal].iter().sum::<u64>());
            for kind in 0..12 {
                match (self.answers[refusal][kind], kinds_with(refusal).contains(&kind)) {
                    (0, true) => lacks.never_met.push(format!("{name} of kind {kind}")),
                    (1.., false) => lacks.wrongly_met.push(format!("{name} of kind {kind}")),
                    _ => (),
                }
            }
        }
    }
}

pub fn print_row(name: &str, count: u64, lacks: &mut Lacks) {
    println!("  {name:<62}{count:>10}");
    if count == 0 {
        lacks.never_met.push(name.to_string());
    }
}

/// A ticket past refusals 7 to 11, with the book after it.
pub struct Seen<'a> {
    book: &'a Book,
    pub ticket: &'a Ticket<'a>,
    pub answer: Answer,
    buffer: &'a [u8; BUFFER_LEN],
    /// The sender's cover before the ticket.
    cover_before: Cover,
    clock_before: u32,
    /// When its order was first recalled before, in time or late.
    pub recalled_at: Option<u32>,
}

impl Seen<'_> {
    /// The order that the ticket names.
    pub fn order(&self) -> Option<&Order> {
        self.order_number().map(|number| &self.book.orders()[number])
    }

    pub fn order_number(&self) -> Option<usize> {
        self.book.order_with(self.ticket.payer(), self.ticket.tx_id)
    }

    pub fn orders(&self) -> &[Order] {
        self.book.orders()
    }

    pub fn number_of(&self, bic: &Bic) -> Option<u8> {
        self.book.roster().participant_with(bic)
    }

    pub fn bic_of(&self, participant: u8) -> &Bic {
        &self.book.roster().participants()[usize::from(participant)].bic
    }

    /// The participant that a route row with that BIC leads to.
    pub fn route_to(&self, bic: &Bic) -> Option<u8> {
        self.book.roster().route_with(bic).map(|route| route.payee)
    }

    pub fn is_bank(&self, participant: u8) -> bool {
        self.book.roster().participants()[usize::from(participant)].is_bank
    }

    fn available(&self, participant: u8) -> u64 {
        self.book.covers()[usize::from(participant)].available
    }

    /// The numbers of the orders that the ticket's time lets expire: two reports 4 each, payer then payee, before all others.
    fn expired(&self) -> Vec<u16> {
        let all: Vec<Report> = reports(self.buffer, self.answer.reports).take_while(|report| report.code == 4).collect();
        all.chunks_exact(2).map(|two| two[0].order).collect()
    }
}

fn is_one_cent_more(seen: &Seen) -> bool {
    let sender = seen.book.roster().participant_with(seen.ticket.sender);
    let is_order = seen.ticket.kind == Kind::Order;
    is_order && sender.is_some_and(|sender| seen.book.covers()[usize::from(sender)].available + 1 == seen.ticket.amount)
}

fn is_off_by_one(seen: &Seen) -> bool {
    let Cover { held, open_debit, .. } = seen.cover_before;
    let due = held.max(open_debit);
    seen.ticket.kind == Kind::Confirm && due != 0 && seen.ticket.amount.abs_diff(due) == 1
}
