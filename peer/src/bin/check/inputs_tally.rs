//! Counts what the cases met: refusals, accepted kinds, lengths of tickets and buffers, what was kept, and books at the end.

use crate::inputs::Case;
use crate::pair_tally;
use crate::tally::{print_row, ANSWERS};
use crate::verdict::Lacks;
use peer::book::{Answer, Book, Order, Recall, Status, LATE};
use peer::handing::{open, Input};
use peer::report::{BUFFER_LEN, REPORT_LEN};
use peer::ticket::{Kind, Ticket, TICKET_LEN};
use std::collections::BTreeMap;

/// Everything that is counted by name.
const NAMES: &[&str] = &[
    "file read",
    "file refused, so the book is empty",
    "ticket of 108 bytes",
    "ticket of no byte, refusal 7",
    "ticket of 1 to 106 bytes, refusal 7",
    "ticket of 107 bytes, refusal 7",
    "ticket of 109 bytes, refusal 7",
    "ticket of 110 bytes or more, refusal 7",
    "buffer of no byte, refusal 6",
    "buffer of 1 to 6,526 bytes, refusal 6",
    "buffer of 6,527 bytes, refusal 6",
    "buffer of 6,528 bytes",
    "buffer of 6,529 bytes",
    "buffer of 6,530 bytes or more",
    "refusal 6 of a ticket that is accepted with a longer buffer",
    "refusal 6 of a ticket that isn't 108 bytes",
    "accepted: bytes behind the reports kept",
    "accepted without reports: all bytes kept",
    "refusals 6 to 11: all bytes kept",
    "refusals 12 to 22: bytes behind the expiries' reports kept",
    "refusals 12 to 22 without reports: all bytes kept",
    "refusal 26: bytes behind the expiries' reports kept",
    "refusal 26 without reports: all bytes kept",
    "reports up to the last byte of a buffer",
    "clock at the end",
    "available at the end",
    "reserved at the end",
    "held at the end",
    "open debit at the end",
    "order at the end: Waiting",
    "order at the end: Refused",
    "order at the end: Expired",
    "order at the end: Returned",
    "order at the end: Returned in part",
    "order at the end: Settled-none",
    "order at the end: Settled-asked",
    "order at the end: Settled-declined",
    "Returned at the end, settled between order and clock",
    "Settled-none at the end, settled between order and clock",
    "Settled-asked at the end, settled between order and clock",
    "Settled-declined at the end, settled between order and clock",
    "settlement 864,000 seconds or more before the end",
    "TxId of two orders at the end",
    "TxId of three orders or more at the end",
    "orders of one TxId at the end with one payee",
    "orders of one TxId at the end, one to its payer",
    "orders of one TxId at the end, of two statuses",
    "refusal 6 of an order with another payer's TxId",
    "refusal 7 for the payer alone",
    "refusal 13, another payer has that TxId too",
    "refusal 16, another payer has that TxId",
    "refusal 17, another payer has that TxId too",
];

pub struct InputsTally {
    pub cases: u64,
    pub inputs: u64,
    /// By refusal, 0 for accepted tickets.
    answers: [u64; ANSWERS],
    /// Accepted tickets by kind.
    kinds: [u64; 12],
    names: BTreeMap<&'static str, u64>,
}

impl InputsTally {
    pub fn new() -> Self {
        let names = NAMES.iter().map(|name| (*name, 0)).collect();
        InputsTally { cases: 0, inputs: 0, answers: [0; ANSWERS], kinds: [0; 12], names }
    }

    pub fn case(&mut self, case: &Case) {
        let (refusal, mut book) = open(&case.file);
        self.cases += 1;
        self.count(if refusal == 0 { "file read" } else { "file refused, so the book is empty" });
        let mut short: Option<&Input> = None;
        for input in &case.inputs {
            let answer = book.hand_in(&input.ticket, &mut vec![input.fill; input.buffer]);
            self.answer(input, answer);
            self.pair(&book, input, answer);
            let is_again = short.is_some_and(|before| before.ticket == input.ticket);
            self.count_if(is_again && answer.refusal.is_none(), "refusal 6 of a ticket that is accepted with a longer buffer");
            short = (input.buffer < BUFFER_LEN).then_some(input);
        }
        self.book(&book);
    }

    fn answer(&mut self, input: &Input, answer: Answer) {
        let refusal = answer.refusal_number();
        self.inputs += 1;
        self.answers[usize::from(refusal)] += 1;
        if refusal == 0 {
            self.kinds[usize::from(input.ticket[0])] += 1;
        }
        self.ticket_length(input.ticket.len(), refusal);
        self.buffer_length(input.buffer);
        self.kept(input, answer);
    }

    fn ticket_length(&mut self, length: usize, refusal: u8) {
        self.count_if(length != TICKET_LEN && refusal == 6, "refusal 6 of a ticket that isn't 108 bytes");
        if length == TICKET_LEN {
            self.count("ticket of 108 bytes");
        } else if refusal == 7 {
            self.count(match length {
                0 => "ticket of no byte, refusal 7",
                1..=106 => "ticket of 1 to 106 bytes, refusal 7",
                107 => "ticket of 107 bytes, refusal 7",
                109 => "ticket of 109 bytes, refusal 7",
                _ => "ticket of 110 bytes or more, refusal 7",
            });
        }
    }

    fn buffer_length(&mut self, length: usize) {
        self.count(match length {
            0 => "buffer of no byte, refusal 6",
            1..=6_526 => "buffer of 1 to 6,526 bytes, refusal 6",
            6_527 => "buffer of 6,527 bytes, refusal 6",
            6_528 => "buffer of 6,528 bytes",
            6_529 => "buffer of 6,529 bytes",
            _ => "buffer of 6,530 bytes or more",
        });
    }

    fn kept(&mut self, input: &Input, answer: Answer) {
        let is_full = answer.reports != 0 && answer.reports * REPORT_LEN == input.buffer;
        self.count(match (answer.refusal_number(), answer.reports) {
            _ if is_full => "reports up to the last byte of a buffer",
            (0, 0) => "accepted without reports: all bytes kept",
            (0, _) => "accepted: bytes behind the reports kept",
            (6..=11, _) => "refusals 6 to 11: all bytes kept",
            (26, 0) => "refusal 26 without reports: all bytes kept",
            (26, _) => "refusal 26: bytes behind the expiries' reports kept",
            (_, 0) => "refusals 12 to 22 without reports: all bytes kept",
            _ => "refusals 12 to 22: bytes behind the expiries' reports kept",
        });
    }

    /// The book at the end, all of which the program prints.
    fn book(&mut self, book: &Book) {
        self.count_if(book.clock() != 0, "clock at the end");
        for cover in book.covers() {
            self.count_if(cover.available != 0, "available at the end");
            self.count_if(cover.reserved != 0, "reserved at the end");
            self.count_if(cover.held != 0, "held at the end");
            self.count_if(cover.open_debit != 0, "open debit at the end");
        }
        for (number, order) in book.orders().iter().enumerate() {
            self.order(order);
            self.settlement(order, book.clock());
            self.tx_id(order, &book.orders()[..number]);
        }
    }

    /// An order's TxId among the orders before it, of which no two have it of one payer.
    fn tx_id(&mut self, order: &Order, before: &[Order]) {
        let others: Vec<&Order> = before.iter().filter(|other| other.tx_id == order.tx_id).collect();
        let is_own = |order: &Order| order.payer == order.payee;
        self.count_if(others.len() == 1, "TxId of two orders at the end");
        self.count_if(others.len() == 2, "TxId of three orders or more at the end");
        self.count_if(others.iter().any(|other| other.payee == order.payee), "orders of one TxId at the end with one payee");
        self.count_if(
            others.iter().any(|other| is_own(other) != is_own(order)),
            "orders of one TxId at the end, one to its payer",
        );
        self.count_if(others.iter().any(|other| other.status != order.status), "orders of one TxId at the end, of two statuses");
    }

    /// What an input's payer and TxId met, with the book after it.
    fn pair(&mut self, book: &Book, input: &Input, answer: Answer) {
        let Ok(bytes) = <&[u8; TICKET_LEN]>::try_from(&input.ticket[..]) else {
            return;
        };
        let refusal = answer.refusal_number();
        self.count_if(refusal == 7 && pair_tally::refused_by_7(bytes).is_some(), "refusal 7 for the payer alone");
        let Ok(ticket) = Ticket::read(bytes) else {
            return;
        };
        let payer = book.roster().participant_with(ticket.payer());
        if book.orders().iter().any(|order| order.tx_id == *ticket.tx_id && Some(order.payer) != payer) {
            match refusal {
                6 if ticket.kind == Kind::Order => self.count("refusal 6 of an order with another payer's TxId"),
                13 => self.count("refusal 13, another payer has that TxId too"),
                16 => self.count("refusal 16, another payer has that TxId"),
                17 => self.count("refusal 17, another payer has that TxId too"),
                _ => (),
            }
        }
    }

    fn order(&mut self, order: &Order) {
        self.count(match order.status {
            Status::Waiting => "order at the end: Waiting",
            Status::Refused => "order at the end: Refused",
            Status::Expired => "order at the end: Expired",
            Status::Returned(..) => "order at the end: Returned",
            Status::Settled(Recall::None, _) => "order at the end: Settled-none",
            Status::Settled(Recall::Asked, _) => "order at the end: Settled-asked",
            Status::Settled(Recall::Declined, _) => "order at the end: Settled-declined",
        });
        self.count_if(order.is_returned_in_part(), "order at the end: Returned in part");
    }

    /// The time of an order's settlement, which is printed with its status; it shows where it is no other time of the order.
    fn settlement(&mut self, order: &Order, clock: u32) {
        let Some(settled_at) = order.settled_at() else {
            return;
        };
        self.count_if(clock - settled_at >= LATE, "settlement 864,000 seconds or more before the end");
        let is_between = order.time < settled_at && settled_at < clock;
        let name = match order.status {
            Status::Settled(Recall::None, _) => "Settled-none at the end, settled between order and clock",
            Status::Settled(Recall::Asked, _) => "Settled-asked at the end, settled between order and clock",
            Status::Settled(Recall::Declined, _) => "Settled-declined at the end, settled between order and clock",
            _ => "Returned at the end, settled between order and clock",
        };
        self.count_if(is_between, name);
    }

    fn count(&mut self, name: &'static str) {
        *self.names.get_mut(name).expect("the list has every name") += 1;
    }

    fn count_if(&mut self, is_met: bool, name: &'static str) {
        if is_met {
            self.count(name);
        }
    }

    /// Prints the table and gives the names of what was never met.
    pub fn print(&self) -> Lacks {
        let mut lacks = Lacks::default();
        println!("\ncases {}, tickets handed in one by one {}", self.cases, self.inputs);
        for refusal in [0].into_iter().chain(6..=22).chain([26]) {
            let name = if refusal == 0 { "accepted".to_string() } else { format!("refusal {refusal}") };
            print_row(&name, self.answers[refusal], &mut lacks);
        }
        for kind in 1..12 {
            print_row(&format!("accepted of kind {kind}"), self.kinds[kind], &mut lacks);
        }
        for name in NAMES {
            print_row(name, self.names[name], &mut lacks);
        }
        lacks
    }
}
