//! The book: cover of each participant, orders and clock, and each ticket's step with refusals 6, 11 to 22 and 26.

// An order is numbered below 256, which fits the two bytes of a report.
#![allow(clippy::cast_possible_truncation)]

use crate::codes::{Bic, TxId};
use crate::dayfile::{Roster, MOST_PARTICIPANTS};
use crate::index::{hash_of_pair, Index};
use crate::refusal::Refusal;
use crate::report::{Code, Writer, NO_ORDER};
use crate::ticket::{Kind, Ticket};
use crate::MOST_COVER;

pub const MOST_ORDERS: usize = 256;
/// A bank that hasn't answered after this many seconds lets the order expire.
pub const WAIT: u32 = 20;
/// A recall this many seconds after the settlement, or more, is too late.
pub const LATE: u32 = 864_000;

/// The cover of a participant.
#[derive(Clone, Copy, Default, PartialEq, Eq, Debug)]
pub struct Cover {
    pub available: u64,
    pub reserved: u64,
    pub held: u64,
    pub open_debit: u64,
}

#[derive(Clone, Copy, PartialEq, Eq, Debug)]
pub enum Recall {
    None,
    Asked,
    Declined,
}

#[derive(Clone, Copy, PartialEq, Eq, Debug)]
pub enum Status {
    Waiting,
    Refused,
    Expired,
    /// With the time of the settlement, and the amount that was returned, from 1 cent to the order's.
    Returned(u32, u64),
    /// With the time of the settlement.
    Settled(Recall, u32),
}

#[derive(Clone, Debug)]
pub struct Order {
    pub tx_id: TxId,
    pub payer: u8,
    pub payee: u8,
    pub amount: u64,
    pub time: u32,
    pub status: Status,
}

impl Order {
    /// Whether less than its amount was returned.
    pub fn is_returned_in_part(&self) -> bool {
        matches!(self.status, Status::Returned(_, amount) if amount < self.amount)
    }

    /// The time of its settlement, if it was settled.
    pub fn settled_at(&self) -> Option<u32> {
        match self.status {
            Status::Settled(_, time) | Status::Returned(time, _) => Some(time),
            Status::Waiting | Status::Refused | Status::Expired => None,
        }
    }
}

/// The answer to a ticket.
#[derive(Clone, Copy, PartialEq, Eq, Debug)]
pub struct Answer {
    pub refusal: Option<Refusal>,
    pub reports: usize,
    /// Route rows followed, 0 unless an order was accepted.
    pub rows: u8,
}

impl Answer {
    fn untouched(refusal: Refusal) -> Self {
        Answer { refusal: Some(refusal), reports: 0, rows: 0 }
    }

    /// The number of the refusal, 0 if there is none.
    pub fn refusal_number(&self) -> u8 {
        self.refusal.map_or(0, Refusal::number)
    }
}

pub struct Book {
    roster: Roster,
    covers: [Cover; MOST_PARTICIPANTS],
    /// Available, reserved and held of all.
    total: u64,
    clock: u32,
    orders: Vec<Order>,
    order_index: Index<512>,
    /// No order with a lower number can still expire.
    may_expire: usize,
}

impl Book {
    /// A fresh book.
    pub fn new(roster: Roster) -> Self {
        Book {
            roster,
            covers: [Cover::default(); MOST_PARTICIPANTS],
            total: 0,
            clock: 0,
            orders: Vec::with_capacity(MOST_ORDERS),
            order_index: Index::new(),
            may_expire: 0,
        }
    }

    pub fn roster(&self) -> &Roster {
        &self.roster
    }

    pub fn covers(&self) -> &[Cover] {
        &self.covers[..self.roster.participants().len()]
    }

    pub fn orders(&self) -> &[Order] {
        &self.orders
    }

    pub fn clock(&self) -> u32 {
        self.clock
    }

    pub fn total(&self) -> u64 {
        self.total
    }

    pub fn order_with(&self, payer: &Bic, tx_id: &TxId) -> Option<usize> {
        self.find(payer, tx_id).ok()
    }

    /// Takes a ticket of any bytes and length, with a report buffer of any bytes and length.
    pub fn hand_in(&mut self, ticket: &[u8], buffer: &mut [u8]) -> Answer {
        let Some(mut reports) = Writer::new(buffer) else {
            return Answer::untouched(Refusal::ShortBuffer);
        };
        let ticket = match Ticket::read(ticket) {
            Ok(ticket) => ticket,
            Err(refusal) => return Answer::untouched(refusal),
        };
        if ticket.time < self.clock {
            return Answer::untouched(Refusal::TimeBeforeClock);
        }
        self.clock = ticket.time;
        self.expire(&mut reports);
        let step = self.step(&ticket, &mut reports);
        Answer { refusal: step.err(), reports: reports.count(), rows: step.unwrap_or(0) }
    }

    /// Orders stand by time, as the clock never goes back: behind the first that is too young to expire, none can.
    fn expire(&mut self, reports: &mut Writer) {
        while let Some(order) = self.orders.get_mut(self.may_expire) {
            if order.status == Status::Waiting && self.roster.participants()[usize::from(order.payee)].is_bank {
                if self.clock - order.time < WAIT {
                    return;
                }
                order.status = Status::Expired;
                let payer = &mut self.covers[usize::from(order.payer)];
                payer.reserved -= order.amount;
                payer.available += order.amount;
                reports.push(order.payer, Code::Expired, self.may_expire as u16, order.amount);
                reports.push(order.payee, Code::Expired, self.may_expire as u16, order.amount);
            }
            self.may_expire += 1;
        }
    }

    /// The ticket's own step: the route rows followed, or the refusal, which leaves the book as it is.
    fn step(&mut self, ticket: &Ticket, reports: &mut Writer) -> Result<u8, Refusal> {
        match ticket.kind {
            Kind::Tick => return Ok(0),
            Kind::Cut => return self.cut(reports).and(Ok(0)),
            _ => (),
        }
        let sender = self.roster.participant_with(ticket.sender).ok_or(Refusal::Sender)?;
        match ticket.kind {
            Kind::CoverIn => self.cover_in(sender, ticket.amount)?,
            Kind::CoverOut => self.cover_out(sender, ticket.amount)?,
            Kind::Confirm => self.confirm(sender, ticket.amount)?,
            Kind::Order => return self.order(sender, ticket, reports),
            _ => self.step_of_held_order(sender, ticket, reports)?,
        }
        Ok(0)
    }

    /// Kinds 4 to 8.
    fn step_of_held_order(&mut self, sender: u8, ticket: &Ticket, reports: &mut Writer) -> Result<(), Refusal> {
        let number = self.find(ticket.payer(), ticket.tx_id).map_err(|_| Refusal::PairNotHeld)?;
        let order = &self.orders[number];
        let party = match ticket.kind {
            Kind::Recall | Kind::Inquiry => order.payer,
            _ => order.payee,
        };
        if sender != party {
            return Err(Refusal::WrongParty);
        }
        match ticket.kind {
            Kind::Yes => self.yes(number, reports),
            Kind::No => self.no(number, reports),
            Kind::Recall => self.recall(number, reports),
            Kind::Return => self.return_order(number, ticket.amount, reports),
            Kind::Decline => self.decline(number, reports),
            _ => {
                self.inquiry(number, reports);
                Ok(())
            }
        }
    }

    fn cover_in(&mut self, sender: u8, amount: u64) -> Result<(), Refusal> {
        self.check_total_with(amount)?;
        self.total += amount;
        self.cover(sender).available += amount;
        Ok(())
    }

    fn cover_out(&mut self, sender: u8, amount: u64) -> Result<(), Refusal> {
        self.take_available(sender, amount)?;
        self.total -= amount;
        Ok(())
    }

    fn order(&mut self, payer: u8, ticket: &Ticket, reports: &mut Writer) -> Result<u8, Refusal> {
        let Err(slot) = self.find(ticket.payer(), ticket.tx_id) else {
            return Err(Refusal::PairHeld);
        };
        let &route = self.roster.route_with(ticket.named).ok_or(Refusal::NoRoute)?;
        let number = self.orders.len();
        if number == MOST_ORDERS {
            return Err(Refusal::BookFull);
        }
        self.take_available(payer, ticket.amount)?;
        self.cover(payer).reserved += ticket.amount;
        self.order_index.put(slot, number);
        self.orders.push(Order {
            tx_id: *ticket.tx_id,
            payer,
            payee: route.payee,
            amount: ticket.amount,
            time: self.clock,
            status: Status::Waiting,
        });
        reports.push(route.payee, Code::NewOrder, number as u16, ticket.amount);
        Ok(route.rows)
    }

    fn yes(&mut self, number: usize, reports: &mut Writer) -> Result<(), Refusal> {
        let (payer, payee, amount) = self.end_wait(number, Status::Settled(Recall::None, self.clock))?;
        self.cover(payer).reserved -= amount;
        self.cover(payee).available += amount;
        reports.push(payer, Code::Settled, number as u16, amount);
        if self.is_bank(payee) {
            reports.push(payee, Code::Settled, number as u16, amount);
        }
        Ok(())
    }

    fn no(&mut self, number: usize, reports: &mut Writer) -> Result<(), Refusal> {
        let (payer, _, amount) = self.end_wait(number, Status::Refused)?;
        let cover = self.cover(payer);
        cover.reserved -= amount;
        cover.available += amount;
        reports.push(payer, Code::Refused, number as u16, amount);
        Ok(())
    }

    /// Lateness is a difference, as settlement plus 864,000 may be above 32 bits.
    fn recall(&mut self, number: usize, reports: &mut Writer) -> Result<(), Refusal> {
        let settled_at = self.settlement(number, Recall::None)?;
        if self.clock - settled_at >= LATE {
            return Err(Refusal::LateRecall);
        }
        let order = &mut self.orders[number];
        order.status = Status::Settled(Recall::Asked, settled_at);
        reports.push(order.payee, Code::RecallAsked, number as u16, order.amount);
        Ok(())
    }

    /// The amount goes back to the payer; what the order has above it stays with the payee.
    fn return_order(&mut self, number: usize, amount: u64, reports: &mut Writer) -> Result<(), Refusal> {
        let settled_at = self.settlement(number, Recall::Asked)?;
        let order = &self.orders[number];
        let (payer, payee) = (order.payer, order.payee);
        if amount > order.amount {
            return Err(Refusal::AboveOrder);
        }
        self.take_available(payee, amount)?;
        self.cover(payer).available += amount;
        self.orders[number].status = Status::Returned(settled_at, amount);
        reports.push(payer, Code::Returned, number as u16, amount);
        Ok(())
    }

    fn decline(&mut self, number: usize, reports: &mut Writer) -> Result<(), Refusal> {
        let settled_at = self.settlement(number, Recall::Asked)?;
        let order = &mut self.orders[number];
        order.status = Status::Settled(Recall::Declined, settled_at);
        reports.push(order.payer, Code::RecallDeclined, number as u16, order.amount);
        Ok(())
    }

    fn inquiry(&self, number: usize, reports: &mut Writer) {
        let order = &self.orders[number];
        let mut tell = |to, code| reports.push(to, code, number as u16, order.amount);
        match order.status {
            Status::Waiting if self.is_bank(order.payee) => tell(order.payer, Code::StillWaiting),
            Status::Waiting => tell(order.payee, Code::AnswerDue),
            Status::Refused => tell(order.payer, Code::Refused),
            Status::Expired => tell(order.payer, Code::Expired),
            Status::Returned(_, amount) => reports.push(order.payer, Code::Returned, number as u16, amount),
            Status::Settled(recall, _) => {
                tell(order.payer, Code::Settled);
                match recall {
                    Recall::None => (),
                    Recall::Asked => tell(order.payee, Code::AnswerDue),
                    Recall::Declined => tell(order.payer, Code::RecallDeclined),
                }
            }
        }
    }

    fn cut(&mut self, reports: &mut Writer) -> Result<(), Refusal> {
        if self.covers.iter().any(|cover| cover.held != 0 || cover.open_debit != 0) {
            return Err(Refusal::CutOrConfirm);
        }
        for ((number, participant), cover) in (0..).zip(self.roster.participants()).zip(&mut self.covers) {
            let Some(opening) = participant.opening else {
                continue;
            };
            if cover.available > opening {
                cover.held = cover.available - opening;
                cover.available = opening;
                reports.push(number, Code::Held, NO_ORDER, cover.held);
            } else if cover.available < opening {
                cover.open_debit = opening - cover.available;
                reports.push(number, Code::OpenDebit, NO_ORDER, cover.open_debit);
            }
        }
        Ok(())
    }

    /// After a cut a participant has held cover or an open debit, never both.
    fn confirm(&mut self, sender: u8, amount: u64) -> Result<(), Refusal> {
        let Cover { held, open_debit, .. } = *self.cover(sender);
        if held != 0 {
            if amount != held {
                return Err(Refusal::CutOrConfirm);
            }
            self.cover(sender).held = 0;
            self.total -= held;
        } else {
            if open_debit == 0 || amount > open_debit {
                return Err(Refusal::CutOrConfirm);
            }
            self.check_total_with(amount)?;
            self.total += amount;
            let cover = self.cover(sender);
            cover.available += amount;
            cover.open_debit = 0;
        }
        Ok(())
    }

    fn cover(&mut self, participant: u8) -> &mut Cover {
        &mut self.covers[usize::from(participant)]
    }

    fn is_bank(&self, participant: u8) -> bool {
        self.roster.participants()[usize::from(participant)].is_bank
    }

    /// The number of the payer's order with that TxId, or the index slot where it would go.
    fn find(&self, payer: &Bic, tx_id: &TxId) -> Result<usize, usize> {
        let is_the_one = |number: usize| {
            let order = &self.orders[number];
            order.tx_id == *tx_id && self.roster.participants()[usize::from(order.payer)].bic == *payer
        };
        self.order_index.find(hash_of_pair(payer, tx_id), is_the_one)
    }

    /// Gives a Waiting order its next status, and tells its payer, payee and amount.
    fn end_wait(&mut self, number: usize, next: Status) -> Result<(u8, u8, u64), Refusal> {
        let order = &mut self.orders[number];
        if order.status != Status::Waiting {
            return Err(Refusal::Status);
        }
        order.status = next;
        Ok((order.payer, order.payee, order.amount))
    }

    /// The time at which an order with that recall mark was settled.
    fn settlement(&self, number: usize, mark: Recall) -> Result<u32, Refusal> {
        match self.orders[number].status {
            Status::Settled(recall, time) if recall == mark => Ok(time),
            _ => Err(Refusal::Status),
        }
    }

    fn take_available(&mut self, participant: u8, amount: u64) -> Result<(), Refusal> {
        let available = &mut self.cover(participant).available;
        *available = available.checked_sub(amount).ok_or(Refusal::TooLittleCover)?;
        Ok(())
    }

    fn check_total_with(&self, amount: u64) -> Result<(), Refusal> {
        let fits = self.total + amount <= MOST_COVER;
        fits.then_some(()).ok_or(Refusal::TooMuchCover)
    }
}
