//! Random days without damage. The book's own state picks each ticket: one that fits it, or one that just misses.

use crate::codes;
use crate::random::Random;
use crate::setup::{new_bic, set_up, Setup};
use peer::book::{Book, Order, Recall, Status, LATE, MOST_ORDERS, WAIT};
use peer::codes::{unpadded, Bic, TxId, TX_ID_LEN};
use peer::dayfile::{DayFile, Roster, Route, MOST_OPENING, MOST_TICKETS};
use peer::report::BUFFER_LEN;
use peer::ticket::{MOST_PAID, TICKET_LEN};
use peer::writing::{padded, Day, TicketFields};
use peer::MOST_COVER;

/// What a day tries most.
#[derive(Clone, Copy, PartialEq, Eq)]
pub enum Style {
    /// All kinds, all faults.
    Mixed,
    /// All kinds, up to 512 tickets.
    Long,
    /// 256 orders within seconds and more after them, then all expire, often at a cut.
    FullBook,
    /// 256 orders to banks in a single second, then a cut when all of them expire.
    OneSecond,
    /// Cover near its limit, many cuts and confirms.
    NearLimit,
    /// Recalls, and answers to them, about ten days after the settlement, sometimes at the top of 32 bits.
    Recalls,
    /// Members who number their orders from 1 each, so that they share TxIds.
    Numbered,
    /// A full working day, with few faults.
    Working,
}

/// The weights of kinds 1 to 11.
fn weights(style: Style) -> [u64; 11] {
    match style {
        Style::Mixed | Style::Long => [8, 6, 24, 17, 8, 9, 5, 11, 4, 9, 3],
        Style::FullBook | Style::OneSecond => [10, 2, 60, 15, 4, 4, 2, 8, 2, 4, 2],
        Style::NearLimit => [25, 8, 10, 8, 4, 4, 2, 4, 12, 24, 3],
        Style::Recalls => [3, 2, 26, 26, 19, 7, 6, 9, 1, 2, 1],
        Style::Numbered => [4, 2, 32, 27, 12, 10, 6, 15, 1, 1, 1],
        Style::Working => [4, 2, 47, 34, 3, 2, 1, 6, 1, 3, 1],
    }
}

pub fn style(random: &mut Random) -> Style {
    match random.below(200) {
        0..=2 => Style::FullBook,
        3 => Style::OneSecond,
        4..=7 => Style::Long,
        8..=9 => Style::Working,
        10..=39 => Style::NearLimit,
        40..=59 => Style::Recalls,
        60..=89 => Style::Numbered,
        _ => Style::Mixed,
    }
}

pub fn day(random: &mut Random, style: Style) -> Day {
    let tickets = ticket_count(random, style);
    let mut maker = Maker::new(random, style);
    // A roster that this book refuses gets no tickets: the program's text will tell whether it is right to.
    let tickets = if maker.book.covers().is_empty() { 0 } else { tickets };
    for number in 0..tickets {
        let ticket = maker.ticket(number);
        maker.add(ticket);
    }
    maker.day
}

fn ticket_count(random: &mut Random, style: Style) -> usize {
    let count = match style {
        Style::Mixed if random.one_in(10) => random.between(0, 120),
        Style::Mixed => random.between(0, 40),
        Style::Long => random.between(100, 512),
        Style::NearLimit => random.between(5, 40),
        Style::Recalls => random.between(15, 75),
        Style::Numbered => random.between(20, 90),
        Style::FullBook | Style::OneSecond => random.between(300, 512),
        Style::Working => 512,
    };
    (count as usize).min(MOST_TICKETS)
}

fn setup(random: &mut Random, style: Style) -> Setup {
    let participants = match style {
        Style::Working | Style::OneSecond => 32,
        Style::FullBook if random.one_in(2) => 32,
        Style::Numbered if random.one_in(4) => random.between(12, 32),
        Style::Numbered => random.between(2, 5),
        _ if random.one_in(20) => 32,
        _ if random.one_in(8) => random.between(1, 32),
        _ => random.between(1, 5),
    };
    let mut all_or_some = |some| if random.one_in(2) { some } else { random.pick(&[0, 100]) };
    let (systems, wishes) = match style {
        Style::Working => (10, 50),
        Style::OneSecond => (0, 100),
        _ => (all_or_some(30).min(80), all_or_some(60)),
    };
    Setup {
        participants: participants as usize,
        systems,
        wishes,
        openings_up_to: if style == Style::Working { 1_000_000 } else { MOST_OPENING },
        direct_routes_only: style == Style::Working,
        short_bics: style == Style::Numbered,
    }
}

fn first_time(random: &mut Random, style: Style) -> u32 {
    match random.below(5) {
        // About the last settlement of which a recall can be late.
        0 | 1 if style == Style::Recalls => u32::MAX - LATE + 1 - random.below(4) as u32,
        0 => u32::MAX - random.below(80) as u32,
        1 => random.next() as u32,
        2 => random.below(100) as u32,
        _ => 0,
    }
}

struct Maker<'a> {
    random: &'a mut Random,
    style: Style,
    first_time: u32,
    day: Day,
    book: Book,
    buffer: [u8; BUFFER_LEN],
}

impl<'a> Maker<'a> {
    fn new(random: &'a mut Random, style: Style) -> Self {
        let setup = setup(random, style);
        let day = set_up(random, &setup);
        let roster = DayFile::read(&day.bytes()).map_or(Roster::empty(), |day| day.roster);
        let first_time = first_time(random, style);
        Maker { random, style, first_time, day, book: Book::new(roster), buffer: [0; BUFFER_LEN] }
    }

    fn add(&mut self, ticket: [u8; TICKET_LEN]) {
        self.book.hand_in(&ticket, &mut self.buffer);
        self.day.tickets.push(ticket);
    }

    fn ticket(&mut self, number: usize) -> [u8; TICKET_LEN] {
        let kind = self.kind(number);
        let time = self.time(number, kind);
        let mut ticket = TicketFields { time, ..self.fields(kind) };
        if self.comes_ten_days_later(kind) {
            ticket.time = self.time_ten_days_later(&ticket);
        }
        let faulty_one_in = if self.style == Style::Working { 60 } else { 7 };
        while self.random.one_in(faulty_one_in) {
            self.add_fault(&mut ticket);
        }
        let mut bytes = ticket.bytes();
        if self.random.one_in(10 * faulty_one_in) {
            self.damage(&mut bytes);
        }
        bytes
    }

    fn kind(&mut self, number: usize) -> u8 {
        let starts_with_cover = match self.style {
            Style::Mixed => self.random.below(3),
            Style::NearLimit => 1,
            Style::Recalls => 3,
            Style::Numbered => 8,
            _ => 32,
        };
        if (number as u64) < starts_with_cover {
            return 1;
        }
        if self.fills_the_book() {
            let is_one_second = self.style == Style::OneSecond;
            let is_full = self.book.orders().len() == MOST_ORDERS;
            if !is_full && (is_one_second || self.random.percent(95)) {
                return 3;
            }
            if is_full && ((is_one_second && !self.is_cut_open()) || self.random.one_in(6)) {
                return 9;
            }
        }
        let kind = self.likely_kind();
        if self.is_out_of_place(kind) && self.random.percent(70) {
            return if self.random.one_in(3) { self.likely_kind() } else { 3 };
        }
        kind
    }

    fn likely_kind(&mut self) -> u8 {
        self.random.weighted(&weights(self.style)) as u8 + 1
    }

    fn fills_the_book(&self) -> bool {
        matches!(self.style, Style::FullBook | Style::OneSecond)
    }

    /// Whether no order or cover is as the kind needs it.
    fn is_out_of_place(&self, kind: u8) -> bool {
        let none = |fits: fn(Status) -> bool| !self.book.orders().iter().any(|order| fits(order.status));
        match kind {
            4 => none(is_waiting),
            5 => none(is_unmarked),
            6 | 7 => none(is_asked),
            8 => self.book.orders().is_empty(),
            9 => self.is_cut_open(),
            10 => !self.is_cut_open(),
            _ => false,
        }
    }

    /// Whether something of the last cut is still to be confirmed.
    fn is_cut_open(&self) -> bool {
        self.book.covers().iter().any(|cover| cover.held != 0 || cover.open_debit != 0)
    }

    fn time(&mut self, number: usize, kind: u8) -> u32 {
        let clock = self.book.clock();
        if number == 0 {
            return self.first_time;
        }
        if self.fills_the_book() {
            return self.time_until_full(kind);
        }
        let step = match self.random.below(100) {
            0..=44 => 0,
            _ if self.style == Style::Recalls => self.random.below(2) as u32,
            45..=69 => self.random.below(3) as u32,
            70..=84 if self.style != Style::Working => return self.time_after_an_order(),
            85..=89 if self.style != Style::Working => self.random.below(30) as u32,
            90 if self.style != Style::Working => self.random.of_any_size(100_000) as u32,
            _ => self.random.below(2) as u32,
        };
        clock.saturating_add(step)
    }

    /// All orders come within a second or two, until the book is full.
    fn time_until_full(&mut self, kind: u8) -> u32 {
        let clock = self.book.clock();
        let is_full = self.book.orders().len() == MOST_ORDERS;
        if is_full && (kind == 9 || self.random.one_in(8)) {
            return self.time_after_an_order();
        }
        let goes_on = self.style == Style::FullBook && self.random.one_in(200);
        clock.saturating_add(goes_on.into())
    }

    /// About 20 seconds after an order that may still wait, unless the clock is past that.
    fn time_after_an_order(&mut self) -> u32 {
        let clock = self.book.clock();
        let Some(number) = self.order_with(is_waiting, 90) else {
            return clock;
        };
        let wait = self.random.pick(&[WAIT - 1, WAIT, WAIT, WAIT, WAIT + 1]);
        clock.max(self.book.orders()[number].time.saturating_add(wait))
    }

    fn comes_ten_days_later(&mut self, kind: u8) -> bool {
        let one_in = match self.style {
            Style::Recalls if matches!(kind, 5..=7) => 4,
            Style::Recalls => 40,
            Style::Mixed | Style::Long | Style::NearLimit | Style::Numbered => 200,
            Style::FullBook | Style::OneSecond | Style::Working => return false,
        };
        self.random.one_in(one_in)
    }

    /// About 864,000 seconds after the settlement of the ticket's order, or of any if it names none, unless the clock is past
    /// that; after the order itself if it isn't settled.
    fn time_ten_days_later(&mut self, ticket: &TicketFields) -> u32 {
        let Some(number) = self.book.order_with(&ticket.named, &ticket.tx_id).or_else(|| self.order_with(|_| true, 100)) else {
            return ticket.time;
        };
        let order = &self.book.orders()[number];
        let start = order.settled_at().unwrap_or(order.time);
        let more = self.random.of_any_size(5_000_000) as u32;
        let seconds = self.random.pick(&[LATE - 1, LATE - 1, LATE, LATE, LATE + 1, LATE + more]);
        self.book.clock().max(start.saturating_add(seconds))
    }

    fn fields(&mut self, kind: u8) -> TicketFields {
        match kind {
            1 => self.cover_in(),
            2 => self.cover_out(),
            3 => self.order(),
            4 => self.answer(),
            5 => self.recall(),
            6 => self.return_order(),
            7 => self.about(kind, is_asked, false),
            8 => self.inquiry(),
            10 => self.confirm(),
            _ => TicketFields::new(kind, 0),
        }
    }

    fn cover_in(&mut self) -> TicketFields {
        let number = self.day.tickets.len();
        let is_first_cover = self.has_modest_amounts() && number < self.book.covers().len();
        let sender = if is_first_cover { number } else { self.participant() };
        let room = MOST_COVER - self.book.total();
        let great = if self.style == Style::NearLimit { 40 } else { 3 };
        let amount = match self.random.below(4) {
            _ if self.has_modest_amounts() => self.random.between(50_000, 5_000_000),
            _ if self.random.percent(great) => {
                let little = self.random.below(3000);
                self.random.pick(&[room, room + 1, room.saturating_sub(little), room.saturating_sub(1), MOST_COVER])
            }
            0 => self.gap(sender),
            1 => self.random.of_any_size(MOST_PAID * 4),
            _ => self.random.between(1, 10_000),
        };
        TicketFields { amount, ..self.from(1, sender) }
    }

    fn has_modest_amounts(&self) -> bool {
        self.fills_the_book() || matches!(self.style, Style::Recalls | Style::Numbered | Style::Working)
    }

    /// What a participant lacks of its opening cover.
    fn gap(&mut self, participant: usize) -> u64 {
        let opening = self.book.roster().participants()[participant].opening.unwrap_or(100);
        opening.saturating_sub(self.book.covers()[participant].available).max(1)
    }

    fn cover_out(&mut self) -> TicketFields {
        let sender = self.participant_with_cover();
        let available = self.book.covers()[sender].available;
        let opening = self.book.roster().participants()[sender].opening.unwrap_or(0);
        let excess = available.saturating_sub(opening).max(1);
        let part = self.random.below(available + 1).max(1);
        let amount = self.random.pick(&[available.max(1), available + 1, available.saturating_sub(1).max(1), excess, part, 1]);
        let amount = if self.style == Style::Working { amount.min(1000) } else { amount };
        TicketFields { amount, ..self.from(2, sender) }
    }

    fn order(&mut self) -> TicketFields {
        let payer = self.participant_with_cover();
        let available = self.book.covers()[payer].available;
        let most = available.min(MOST_PAID);
        let part = self.random.below(most + 1).max(1);
        let amount = match self.random.below(10) {
            _ if self.has_modest_amounts() => self.random.between(1, 1000).min(available.max(1)),
            0 | 1 => available.clamp(1, MOST_PAID + 1),
            2 => (available + 1).min(MOST_PAID),
            3 => MOST_PAID,
            4 | 5 => part,
            _ => self.random.between(1, 500),
        };
        let mut ticket = TicketFields { amount, iban: codes::iban(self.random), ..self.from(3, payer) };
        ticket.named = self.payee();
        ticket.tx_id = self.new_tx_id(payer);
        ticket
    }

    /// The BIC of a route row, now and then of none.
    fn payee(&mut self) -> Bic {
        let routes = self.book.roster().routes();
        if routes.is_empty() || (self.style != Style::Working && self.random.one_in(25)) {
            return self.bic_without_route();
        }
        routes[self.random.index(routes.len())].bic
    }

    fn bic_without_route(&mut self) -> Bic {
        let bics: Vec<Bic> = self.book.roster().routes().iter().map(|route| route.bic).collect();
        let participant = self.participant();
        let a_participant = self.bic(participant);
        if !bics.contains(&a_participant) {
            return a_participant;
        }
        new_bic(self.random, &bics)
    }

    /// Mostly a TxId that the payer hasn't, often another's, else one that it has.
    fn new_tx_id(&mut self, payer: usize) -> TxId {
        if self.style == Style::Working {
            let bytes = format!("{:010}/{:012x}", self.day.tickets.len(), self.random.next() >> 16);
            return padded(bytes.as_bytes());
        }
        let Some(held) = self.held_order().map(|order| order.tx_id) else {
            return codes::tx_id(self.random);
        };
        let tx_id = match self.random.below(60) {
            0..=2 => self.own_tx_id(payer),
            3..=10 => self.anothers_tx_id(payer),
            11..=14 => self.joined_tx_id(payer),
            15..=26 => Some(codes::near_tx_id(self.random, &held)),
            _ if self.style == Style::Numbered => Some(self.next_number(payer)),
            _ => None,
        };
        tx_id.unwrap_or_else(|| codes::tx_id(self.random))
    }

    fn held_order(&mut self) -> Option<&Order> {
        let orders = self.book.orders();
        (!orders.is_empty()).then(|| &orders[self.random.index(orders.len())])
    }

    /// The TxId of an order that the payer has made.
    fn own_tx_id(&mut self, payer: usize) -> Option<TxId> {
        self.orders_in_turn().find(|order| usize::from(order.payer) == payer).map(|order| order.tx_id)
    }

    /// The TxId of another's order, if it has one that the payer hasn't.
    fn anothers_tx_id(&mut self, payer: usize) -> Option<TxId> {
        let bic = self.bic(payer);
        let orders = self.orders_in_turn().map(|order| order.tx_id).collect::<Vec<_>>();
        orders.into_iter().find(|tx_id| self.book.order_with(&bic, tx_id).is_none())
    }

    /// All orders, from any of them on.
    fn orders_in_turn(&mut self) -> impl Iterator<Item = &Order> {
        let orders = self.book.orders();
        let start = if orders.is_empty() { 0 } else { self.random.index(orders.len()) };
        orders[start..].iter().chain(&orders[..start])
    }

    /// The number of the payer's next order, counted from 1.
    fn next_number(&mut self, payer: usize) -> TxId {
        let made = self.book.orders().iter().filter(|order| usize::from(order.payer) == payer).count();
        padded((made + 1).to_string().as_bytes())
    }

    /// A TxId that, joined with the payer's BIC without XXX or with its number, is what another order has.
    fn joined_tx_id(&mut self, payer: usize) -> Option<TxId> {
        let by_number = self.random.one_in(2);
        let bics: Vec<Bic> = self.book.roster().participants().iter().map(|participant| participant.bic).collect();
        let code = |participant: usize| match bics[participant].strip_suffix(b"XXX") {
            _ if by_number => participant.to_string().into_bytes(),
            Some(short) => short.to_vec(),
            None => bics[participant].to_vec(),
        };
        let rest = |order: &Order| {
            let joined = [&code(order.payer.into())[..], unpadded(&order.tx_id)].concat();
            let rest = joined.strip_prefix(&code(payer)[..])?;
            (usize::from(order.payer) != payer && (1..=TX_ID_LEN).contains(&rest.len())).then(|| padded(rest))
        };
        self.orders_in_turn().find_map(rest)
    }

    fn answer(&mut self) -> TicketFields {
        let flag = if self.random.percent(70) { 1 } else { 2 };
        TicketFields { flag, ..self.about(4, is_waiting, false) }
    }

    /// Now and then of an order that is recalled already.
    fn recall(&mut self) -> TicketFields {
        let is_second = self.style != Style::Working && self.random.one_in(8);
        self.about(5, if is_second { is_recalled } else { is_unmarked }, true)
    }

    /// Now and then of an order that is returned already.
    fn return_order(&mut self) -> TicketFields {
        let is_second = self.style != Style::Working && self.random.one_in(12);
        let ticket = self.about(6, if is_second { is_returned } else { is_asked }, false);
        let amount = match self.book.order_with(&ticket.named, &ticket.tx_id) {
            Some(number) => self.returned(number),
            None => self.random.between(1, 1000),
        };
        TicketFields { amount: amount.clamp(1, MOST_PAID), ..ticket }
    }

    /// The amount of an order's return: all that isn't returned yet, a part, or more than the order; sometimes just what
    /// the payee has available, or a cent more.
    fn returned(&mut self, number: usize) -> u64 {
        let order = &self.book.orders()[number];
        let (amount, payee) = (order.amount, usize::from(order.payee));
        let rest = if let Status::Returned(_, returned) = order.status { amount - returned } else { amount };
        let available = self.book.covers()[payee].available;
        let part = self.random.between(1, amount);
        match self.random.below(24) {
            0..=4 => part,
            5 => 1,
            6 => amount - 1,
            7 | 8 => available.min(amount),
            9 => (available + 1).min(amount),
            10..=13 => self.random.pick(&[amount + 1, available.max(amount) + 1, MOST_PAID]),
            _ => rest,
        }
    }

    fn inquiry(&mut self) -> TicketFields {
        let fits = match self.random.below(8) {
            0 | 1 => is_waiting,
            2 => |status| status == Status::Refused,
            3 => |status| status == Status::Expired,
            4 => is_returned,
            5 => is_unmarked,
            6 => is_asked,
            _ => |status| matches!(status, Status::Settled(Recall::Declined, _)),
        };
        self.about(8, fits, true)
    }

    /// A ticket of kinds 4 to 8 on an order of that status, if there is one, by its payer or its payee.
    fn about(&mut self, kind: u8, fits: impl Fn(Status) -> bool, by_payer: bool) -> TicketFields {
        let working = self.style == Style::Working;
        let Some(number) = self.order_with(fits, if working { 100 } else { 92 }) else {
            let sender = self.participant();
            return TicketFields {
                flag: first_flag(kind),
                named: self.bic(sender),
                tx_id: codes::tx_id(self.random),
                ..self.from(kind, sender)
            };
        };
        let order = &self.book.orders()[number];
        let (payer, payee, mut tx_id) = (order.payer, order.payee, order.tx_id);
        let is_wrong_party = !working && self.random.one_in(15);
        let sender = usize::from(if by_payer != is_wrong_party { payer } else { payee });
        if !working && self.random.one_in(20) {
            tx_id = codes::near_tx_id(self.random, &tx_id);
        }
        let mut flag = self.random.between(first_flag(kind).into(), last_flag(kind).into()) as u8;
        if !working && self.random.one_in(40) {
            flag = self.random.pick(&[first_flag(kind).saturating_sub(1), last_flag(kind) + 1]);
        }
        let named = if working { self.bic(payer.into()) } else { self.named_payer(number, sender) };
        TicketFields { flag, named, tx_id, ..self.from(kind, sender) }
    }

    /// Mostly the order's payer, else another payer, or one that just misses it.
    fn named_payer(&mut self, number: usize, sender: usize) -> Bic {
        let order = &self.book.orders()[number];
        let (payer, tx_id) = (order.payer, order.tx_id);
        let bic = self.bic(payer.into());
        let other_one_in = match self.style {
            Style::Numbered => 5,
            Style::Recalls => 20,
            _ => 10,
        };
        if !self.random.one_in(other_one_in) {
            return bic;
        }
        let other = self.participant();
        match self.random.below(12) {
            0 | 1 => self.bic(other),
            2 | 3 => {
                let shares = |order: &&Order| order.tx_id == tx_id && order.payer != payer;
                let holder = self.orders_in_turn().find(shares).map_or(other, |order| order.payer.into());
                self.bic(holder)
            }
            4 | 5 => self.bic(sender),
            6 => {
                let leads_to = |route: &&Route| route.payee == payer && route.bic != bic;
                self.book.roster().routes().iter().find(leads_to).map_or(bic, |route| route.bic)
            }
            7 => codes::near_bic(self.random, &bic),
            8 => self.strange_bic(),
            _ => codes::wrong_payer(self.random, &bic),
        }
    }

    /// An order of that status, if there is one, else any; this many times in a hundred.
    fn order_with(&mut self, fits: impl Fn(Status) -> bool, share: u64) -> Option<usize> {
        let orders = self.book.orders();
        if orders.is_empty() {
            return None;
        }
        let start = self.random.index(orders.len());
        if !self.random.percent(share) {
            return Some(start);
        }
        let mut in_turn = (start..orders.len()).chain(0..start);
        in_turn.find(|&number| fits(orders[number].status)).or(Some(start))
    }

    fn confirm(&mut self) -> TicketFields {
        let covers = self.book.covers();
        let due: Vec<usize> = (0..covers.len()).filter(|&p| covers[p].held != 0 || covers[p].open_debit != 0).collect();
        if due.is_empty() || self.random.one_in(20) {
            let sender = self.participant();
            return TicketFields { amount: self.random.below(3), ..self.from(10, sender) };
        }
        let sender = self.random.pick(&due);
        let cover = self.book.covers()[sender];
        let room = MOST_COVER - self.book.total();
        let part = self.random.below(cover.open_debit + 1);
        let amount = match (cover.held, self.random.below(10)) {
            (0, 0) => 0,
            (0, 1) => cover.open_debit + 1,
            (0, 2 | 3) => (room + 1).min(cover.open_debit),
            (0, 4) => room.min(cover.open_debit),
            (0, 5 | 6) => part,
            (0, _) => cover.open_debit,
            (held, 0) => held + 1,
            (held, 1) => held - 1,
            (_, 2) => 0,
            (held, _) => held,
        };
        TicketFields { amount, ..self.from(10, sender) }
    }

    fn from(&mut self, kind: u8, sender: usize) -> TicketFields {
        TicketFields { sender: self.bic(sender), ..TicketFields::new(kind, 0) }
    }

    fn bic(&self, participant: usize) -> Bic {
        self.book.roster().participants()[participant].bic
    }

    fn participant(&mut self) -> usize {
        self.random.index(self.book.covers().len())
    }

    /// A participant with available cover, if there is one.
    fn participant_with_cover(&mut self) -> usize {
        let covers = self.book.covers();
        let start = self.random.index(covers.len());
        let mut in_turn = (start..covers.len()).chain(0..start);
        in_turn.find(|&number| covers[number].available != 0).unwrap_or(start)
    }

    /// Adds a fault, if it is one for the ticket's kind.
    fn add_fault(&mut self, ticket: &mut TicketFields) {
        let clock = self.book.clock();
        match self.random.below(19) {
            0 | 1 => ticket.time = clock.saturating_sub(self.random.of_any_size(1000) as u32),
            2 | 3 => ticket.sender = self.strange_bic(),
            4 => ticket.sender = codes::wrong_bic(self.random, &ticket.sender),
            5 => ticket.named = self.bic_without_route(),
            6 => ticket.named = codes::wrong_bic(self.random, &ticket.named),
            7 | 8 => ticket.amount = 0,
            9 => {
                let cover_and_more = MOST_COVER + self.random.below(1000);
                let amounts = [MOST_PAID, MOST_PAID + 1, MOST_COVER, MOST_COVER + 1, cover_and_more, 1 << 63, u64::MAX];
                ticket.amount = self.random.pick(&amounts);
            }
            10 => ticket.tx_id = codes::wrong_tx_id(self.random, &ticket.tx_id),
            11 => ticket.tx_id = codes::tx_id(self.random),
            12 => self.name_held_order(ticket),
            13 | 14 => ticket.iban = codes::wrong_iban(self.random),
            15 => ticket.flag = self.random.pick(&[0, 1, 2, 3, 4, 5, 6, 7, 8, 255]),
            16 => ticket.kind = self.random.pick(&[0, 1, 2, 3, 4, 5, 6, 7, 8, 9, 10, 11, 12, 255]),
            _ => {
                let participant = self.participant();
                ticket.sender = self.bic(participant);
            }
        }
    }

    /// Payer and TxId of an order that is held.
    fn name_held_order(&mut self, ticket: &mut TicketFields) {
        let Some((payer, tx_id)) = self.held_order().map(|order| (order.payer, order.tx_id)) else {
            return;
        };
        let payer = self.bic(payer.into());
        *(if ticket.kind == 3 { &mut ticket.sender } else { &mut ticket.named }) = payer;
        ticket.tx_id = tx_id;
    }

    /// A BIC that no participant has.
    fn strange_bic(&mut self) -> Bic {
        let bics: Vec<Bic> = self.book.roster().participants().iter().map(|participant| participant.bic).collect();
        new_bic(self.random, &bics)
    }

    fn damage(&mut self, ticket: &mut [u8; TICKET_LEN]) {
        match self.random.below(5) {
            0 => ticket[self.random.pick(&[2, 3, 107])] = self.random.between(1, 255) as u8,
            1 => ticket[self.random.index(TICKET_LEN)] = self.random.next() as u8,
            2 => ticket.copy_within(16..27, 27),
            3 => ticket.copy_within(27..38, 16),
            _ => ticket[self.random.index(TICKET_LEN)] ^= 1 << self.random.below(8),
        }
    }
}

fn is_waiting(status: Status) -> bool {
    status == Status::Waiting
}

/// Settled and never recalled.
fn is_unmarked(status: Status) -> bool {
    matches!(status, Status::Settled(Recall::None, _))
}

fn is_asked(status: Status) -> bool {
    matches!(status, Status::Settled(Recall::Asked, _))
}

/// Asked, declined or returned.
fn is_recalled(status: Status) -> bool {
    is_returned(status) || matches!(status, Status::Settled(Recall::Asked | Recall::Declined, _))
}

/// Returned, by whatever amount.
fn is_returned(status: Status) -> bool {
    matches!(status, Status::Returned(..))
}

fn first_flag(kind: u8) -> u8 {
    u8::from(matches!(kind, 4 | 5 | 7))
}

fn last_flag(kind: u8) -> u8 {
    match kind {
        4 => 2,
        5 => 4,
        7 => 7,
        _ => 0,
    }
}
