//! Cases of the paper: D and E to the byte, its marked edges, the order of refusals, and what refusals leave.

use crate::book::{Answer, Book, Cover, Recall, Status};
use crate::codes::{iban_groups, is_iban};
use crate::dayfile::{DayFile, Roster};
use crate::handing::{print_case, Input};
use crate::printing::print_day;
use crate::refusal::Refusal;
use crate::report::{reports, Report, BUFFER_LEN};
use crate::ticket::tx_id_of;
use crate::writing::{padded, participant_row, route_row, Day, TicketFields};

mod pairs;

const A: &[u8; 11] = b"AAAALV22XXX";
const B: &[u8; 11] = b"BBBBLV22XXX";
const SYSTEM: &[u8; 11] = b"CCCCLV22XXX";
const STRANGER: &[u8; 11] = b"DDDDLV22XXX";
const IBAN: &[u8] = b"LV80BANK0000435195001";
const MOST_PAID: u64 = 99_999_999_999;
const MOST_COVER: u64 = 1_000_000_000_000_000_000;
/// The first second after a settlement at 0 in which a recall is too late, and the last in which it isn't.
const LATE: u32 = 864_000;
const LAST: u32 = 863_999;
/// What stands in the buffer before a ticket.
const OLD: u8 = 0xA5;

fn fields(kind: u8, time: u32, sender: &[u8; 11], amount: u64) -> TicketFields {
    TicketFields { sender: *sender, amount, ..TicketFields::new(kind, time) }
}

fn order_fields(time: u32, payer: &[u8; 11], payee: &[u8; 11], amount: u64, tx_id: &str) -> TicketFields {
    TicketFields { named: *payee, tx_id: padded(tx_id.as_bytes()), iban: padded(IBAN), ..fields(3, time, payer, amount) }
}

/// A ticket of kinds 4 to 8, about an order that A pays.
fn about_fields(kind: u8, flag: u8, time: u32, sender: &[u8; 11], tx_id: &str) -> TicketFields {
    TicketFields { flag, named: *A, tx_id: padded(tx_id.as_bytes()), ..fields(kind, time, sender, 0) }
}

/// A return of the order X.
fn return_fields(payee: &[u8; 11], amount: u64) -> TicketFields {
    TicketFields { amount, ..about_fields(6, 0, 7, payee, "X") }
}

/// Banks A and B and a linked system, with the openings given, a direct route each.
fn day_with(openings: [Option<u64>; 3]) -> Day {
    let rows = [(A, 0), (B, 0), (SYSTEM, 1)];
    Day {
        participants: rows.iter().zip(openings).map(|((bic, kind), opening)| participant_row(bic, *kind, opening)).collect(),
        routes: (0..).zip(rows).map(|(k, (bic, _))| route_row(bic, 0, k)).collect(),
        tickets: vec![],
    }
}

/// A book and the buffer that each of its tickets gets.
struct Trial {
    book: Book,
    buffer: [u8; BUFFER_LEN],
}

impl Trial {
    fn new(day: &Day) -> Self {
        Trial { book: Book::new(DayFile::read(&day.bytes()).ok().unwrap().roster), buffer: [OLD; BUFFER_LEN] }
    }

    fn without_openings() -> Self {
        Trial::new(&day_with([None; 3]))
    }

    fn answer(&mut self, ticket: &TicketFields) -> Answer {
        self.buffer.fill(OLD);
        let answer = self.book.hand_in(&ticket.bytes(), &mut self.buffer);
        assert!(self.buffer[12 * answer.reports..].iter().all(|&byte| byte == OLD));
        answer
    }

    fn refusal(&mut self, ticket: &TicketFields) -> u8 {
        self.answer(ticket).refusal_number()
    }

    /// The refusal and the reports as (to, code, order, amount).
    fn all(&mut self, ticket: &TicketFields) -> (u8, Vec<(u8, u8, u16, u64)>) {
        let answer = self.answer(ticket);
        let told = |report: Report| (report.to, report.code, report.order, report.amount);
        (answer.refusal_number(), reports(&self.buffer, answer.reports).map(told).collect())
    }

    fn accept(&mut self, ticket: &TicketFields) {
        assert_eq!(self.refusal(ticket), 0, "{ticket:?}");
    }

    fn cover(&self, participant: usize) -> Cover {
        self.book.covers()[participant]
    }

    fn set_up_order(payee: &[u8; 11]) -> Self {
        let mut trial = Trial::without_openings();
        trial.accept(&fields(1, 0, A, 1000));
        trial.accept(&order_fields(5, A, payee, 400, "X"));
        trial
    }

    fn set_up_settled(payee: &[u8; 11]) -> Self {
        let mut trial = Trial::set_up_order(payee);
        trial.accept(&about_fields(4, 1, 6, payee, "X"));
        trial
    }

    fn set_up_asked(payee: &[u8; 11]) -> Self {
        let mut trial = Trial::set_up_settled(payee);
        trial.accept(&about_fields(5, 4, 7, A, "X"));
        trial
    }

    /// The first order's status.
    fn status(&self) -> Status {
        self.book.orders()[0].status
    }

    /// All that a refused return has to leave.
    fn order_and_covers(&self) -> (Status, [Cover; 3]) {
        (self.status(), [0, 1, 2].map(|participant| self.cover(participant)))
    }

    /// A return that is refused, without reports, and leaves everything.
    fn refuse_return(&mut self, refusal: u8, payee: &[u8; 11], amount: u64) {
        let before = self.order_and_covers();
        assert_eq!(self.all(&return_fields(payee, amount)), (refusal, vec![]), "return of {amount}");
        assert_eq!(self.order_and_covers(), before);
    }
}

fn case(yes_at: u32) -> String {
    let mut day = day_with([None; 3]);
    day.participants.pop();
    day.routes.pop();
    day.tickets = vec![
        fields(1, 0, A, 1000).bytes(),
        order_fields(5, A, B, 400, "X").bytes(),
        about_fields(4, 1, yes_at, B, "X").bytes(),
        about_fields(8, 0, 30, A, "X").bytes(),
    ];
    text_of(&day.bytes())
}

fn text_of(file: &[u8]) -> String {
    let mut text = Vec::new();
    print_day(file, &mut text);
    String::from_utf8(text).unwrap()
}

#[test]
fn case_d() {
    let expected = "T 0 0 0 0\nT 1 0 1 1\nR 1 1 0 400\nT 2 0 2 0\nR 0 2 0 400\nR 1 2 0 400\nT 3 0 1 0\nR 0 2 0 400\n\
                    C 0 600 0 0\nC 1 400 0 0\n";
    assert_eq!(case(24), expected);
}

#[test]
fn case_e() {
    let expected = "T 0 0 0 0\nT 1 0 1 1\nR 1 1 0 400\nT 2 18 2 0\nR 0 4 0 400\nR 1 4 0 400\nT 3 0 1 0\nR 0 4 0 400\n\
                    C 0 1000 0 0\nC 1 0 0 0\n";
    assert_eq!(case(25), expected);
}

#[test]
fn iban_of_an_order() {
    let mut trial = Trial::without_openings();
    trial.accept(&fields(1, 0, A, 1000));
    let mut order = order_fields(0, A, B, 1, "X");
    order.iban[..4].copy_from_slice(b"LV81");
    assert_eq!(trial.refusal(&order), 8);
    order.iban = [0; 34];
    assert_eq!(trial.refusal(&order), 8);
    trial.accept(&order_fields(0, A, B, 1, "X"));
}

/// A small letter is refused by 8: after 7, before 9 to 11, and the clock stays.
#[test]
fn small_letters_in_the_iban_of_an_order() {
    let mut trial = Trial::without_openings();
    trial.accept(&fields(1, 10, A, 1000));
    trial.accept(&order_fields(10, A, B, 400, "X"));
    let small = |time, amount, tx_id, iban: &[u8]| TicketFields { iban: padded(iban), ..order_fields(time, A, B, amount, tx_id) };
    let bank = b"LV80bank0000435195001";
    assert_eq!(trial.refusal(&small(40, 400, "Y Z", bank)), 7);
    for (time, amount) in [(40, 0), (40, MOST_PAID + 1), (9, 400), (40, 400)] {
        assert_eq!(trial.all(&small(time, amount, "Y", bank)), (8, vec![]), "{amount} at {time}");
    }
    for iban in [b"LV80bANK0000435195001", b"LV31BANK000043519500a"] {
        assert_eq!(trial.refusal(&small(40, 1, "Y", iban)), 8);
        trial.accept(&small(10, 1, std::str::from_utf8(&iban[4..]).unwrap(), &iban.to_ascii_uppercase()));
    }
    trial.accept(&about_fields(4, 1, 29, B, "X"));
}

/// 02, slip 4: the remainder is taken over groups of seven digits as written (a letter is two).
#[test]
fn groups_of_an_iban() {
    let longest = [b"LV03".as_slice(), &[b'Z'; 30]].concat();
    let rows: [(&[u8], u8); 6] = [
        (b"LV801", 1),                           // 1 21 31 80: 7 digits
        (b"LV31A", 2),                           // 10 21 31 31: 8 digits
        (b"LV80BANK0000435195001", 4),           // 8 for BANK, 13, 4 for LV and 2: 27 digits
        (b"DE89370400440532013000", 4),          // 18, 4 and 2: 24 digits
        (b"MT84MALT011000012345MTLCAST001S", 7), // 27 behind MT84, of them 12 letters, 4 and 2: 45 digits
        (&longest, 10),                          // 60, 4 and 2: 66 digits
    ];
    for (iban, groups) in rows {
        assert_eq!((is_iban(iban), iban_groups(iban)), (true, groups), "{}", iban.escape_ascii());
    }
}

#[test]
fn wrong_check_digits_keep_the_groups() {
    let mut longest = [b"LV00".as_slice(), &[b'Z'; 30]].concat();
    let mut passed = Vec::new();
    for check in 0..100 {
        let digits = format!("{check:02}");
        for (behind, groups) in [("1", 1), ("A", 2), ("BANK0000435195001", 4)] {
            assert_eq!(iban_groups(format!("LV{digits}{behind}").as_bytes()), groups, "{digits}");
        }
        longest[2..4].copy_from_slice(digits.as_bytes());
        assert_eq!(iban_groups(&longest), 10, "{digits}");
        if is_iban(&longest) {
            passed.push(check);
        }
    }
    assert_eq!(passed, [3]);
}

#[test]
fn no_groups_where_the_shape_is_no_ibans() {
    let too_long = [b"LV03".as_slice(), &[b'Z'; 31]].concat();
    let field: [u8; 34] = padded(IBAN);
    let rows: [&[u8]; 18] = [
        b"",
        b"L",
        b"LV8",
        b"LV80",
        &too_long,
        &field,
        b"LV80BANK0000435195001\0",
        b"lV80BANK0000435195001",
        b"Lv80BANK0000435195001",
        b"1V80BANK0000435195001",
        b"L180BANK0000435195001",
        b"LVA0BANK0000435195001",
        b"LV8ABANK0000435195001",
        b"LV80bANK0000435195001",
        b"LV80BANK000043519500a",
        b"LV80BANK 0000435195001",
        b" LV80BANK0000435195001",
        b"LV80BANK0000435195001\xff",
    ];
    for text in rows {
        assert_eq!((is_iban(text), iban_groups(text)), (false, 0), "{}", text.escape_ascii());
    }
}

#[test]
fn order_up_to_available() {
    let mut trial = Trial::without_openings();
    trial.accept(&fields(1, 0, A, 1000));
    assert_eq!(trial.refusal(&order_fields(0, A, B, 1001, "X")), 20);
    trial.accept(&order_fields(0, A, B, 1000, "X"));
    assert_eq!(trial.cover(0), Cover { reserved: 1000, ..Cover::default() });
}

#[test]
fn amounts_at_their_limits() {
    let mut trial = Trial::without_openings();
    assert_eq!(trial.refusal(&fields(1, 0, A, MOST_COVER + 1)), 10);
    assert_eq!(trial.refusal(&fields(2, 0, A, MOST_COVER + 1)), 10);
    assert_eq!(trial.refusal(&fields(10, 0, A, MOST_COVER + 1)), 10);
    assert_eq!(trial.refusal(&fields(10, 0, A, MOST_COVER)), 21);
    for kind in [1, 2] {
        assert_eq!(trial.refusal(&fields(kind, 0, A, 0)), 9);
    }
    trial.accept(&fields(1, 0, A, MOST_COVER));
    assert_eq!(trial.refusal(&fields(1, 0, B, 1)), 22);
    assert_eq!(trial.refusal(&order_fields(0, A, B, 0, "X")), 9);
    assert_eq!(trial.refusal(&order_fields(0, A, B, MOST_PAID + 1, "X")), 10);
    trial.accept(&order_fields(0, A, B, MOST_PAID, "X"));
    trial.accept(&fields(2, 0, A, MOST_COVER - MOST_PAID));
    assert_eq!(trial.refusal(&fields(1, 0, B, MOST_COVER - MOST_PAID + 1)), 22);
    trial.accept(&fields(1, 0, B, MOST_COVER - MOST_PAID));
}

#[test]
fn cut_and_confirm() {
    let mut trial = Trial::new(&day_with([Some(100), Some(100), None]));
    trial.accept(&fields(1, 0, A, 150));
    trial.accept(&fields(1, 0, B, 40));
    trial.accept(&fields(1, 0, SYSTEM, 7));
    assert_eq!(trial.all(&TicketFields::new(9, 0)), (0, vec![(0, 11, 65_535, 50), (1, 10, 65_535, 60)]));
    assert_eq!(trial.cover(0), Cover { available: 100, held: 50, ..Cover::default() });
    assert_eq!(trial.cover(1), Cover { available: 40, open_debit: 60, ..Cover::default() });
    assert_eq!(trial.cover(2), Cover { available: 7, ..Cover::default() });
    assert_eq!(trial.refusal(&TicketFields::new(9, 0)), 21);
    assert_eq!(trial.refusal(&fields(10, 0, A, 49)), 21);
    assert_eq!(trial.refusal(&fields(10, 0, A, 51)), 21);
    assert_eq!(trial.all(&fields(10, 0, A, 50)), (0, vec![]));
    assert_eq!(trial.refusal(&fields(10, 0, A, 0)), 21);
    assert_eq!(trial.refusal(&TicketFields::new(9, 0)), 21);
    assert_eq!(trial.refusal(&fields(10, 0, B, 61)), 21);
    assert_eq!(trial.all(&fields(10, 0, B, 0)), (0, vec![]));
    assert_eq!(trial.cover(1), Cover { available: 40, ..Cover::default() });
    assert_eq!(trial.all(&TicketFields::new(9, 0)), (0, vec![(1, 10, 65_535, 60)]));
    trial.accept(&fields(10, 0, B, 60));
    assert_eq!(trial.all(&TicketFields::new(9, 0)), (0, vec![]));
}

#[test]
fn reserved_is_left_out_of_a_cut() {
    let mut trial = Trial::new(&day_with([Some(100), None, None]));
    trial.accept(&fields(1, 0, A, 150));
    trial.accept(&order_fields(0, A, B, 80, "X"));
    assert_eq!(trial.all(&TicketFields::new(9, 0)), (0, vec![(0, 10, 65_535, 30)]));
    assert_eq!(trial.cover(0), Cover { available: 70, reserved: 80, held: 0, open_debit: 30 });
}

#[test]
fn confirmed_debit_up_to_the_limit_of_all_cover() {
    let mut trial = Trial::new(&day_with([Some(100), None, None]));
    trial.accept(&fields(1, 0, B, MOST_COVER - 30));
    trial.accept(&TicketFields::new(9, 0));
    assert_eq!(trial.refusal(&fields(10, 0, A, 101)), 21);
    assert_eq!(trial.refusal(&fields(10, 0, A, 31)), 22);
    trial.accept(&fields(10, 0, A, 30));
}

#[test]
fn held_cover_counts_until_it_is_confirmed() {
    let mut trial = Trial::new(&day_with([Some(0), None, None]));
    trial.accept(&fields(1, 0, A, MOST_COVER));
    trial.accept(&TicketFields::new(9, 0));
    assert_eq!(trial.refusal(&fields(1, 0, B, 1)), 22);
    trial.accept(&fields(10, 0, A, MOST_COVER));
    trial.accept(&fields(1, 0, B, MOST_COVER));
}

#[test]
fn yes_twice() {
    let mut trial = Trial::set_up_order(B);
    trial.accept(&about_fields(4, 1, 6, B, "X"));
    assert_eq!(trial.refusal(&about_fields(4, 1, 6, B, "X")), 18);
    assert_eq!(trial.refusal(&about_fields(4, 2, 6, B, "X")), 18);
}

#[test]
fn answers_to_an_order() {
    let mut trial = Trial::set_up_order(SYSTEM);
    assert_eq!(trial.all(&about_fields(4, 1, 5000, SYSTEM, "X")), (0, vec![(0, 2, 0, 400)]));
    assert_eq!(trial.cover(2).available, 400);
    let mut trial = Trial::set_up_order(B);
    assert_eq!(trial.all(&about_fields(4, 2, 5, B, "X")), (0, vec![(0, 3, 0, 400)]));
    assert_eq!(trial.cover(0), Cover { available: 1000, ..Cover::default() });
}

#[test]
fn recalls() {
    let mut trial = Trial::set_up_settled(B);
    assert_eq!(trial.refusal(&about_fields(7, 1, 7, B, "X")), 18);
    assert_eq!(trial.all(&about_fields(5, 1, 7, A, "X")), (0, vec![(1, 5, 0, 400)]));
    assert_eq!(trial.refusal(&about_fields(5, 1, 7, A, "X")), 18);
    assert_eq!(trial.all(&about_fields(8, 0, 7, A, "X")), (0, vec![(0, 2, 0, 400), (1, 8, 0, 400)]));
    assert_eq!(trial.all(&about_fields(7, 7, 7, B, "X")), (0, vec![(0, 7, 0, 400)]));
    assert_eq!(trial.status(), Status::Settled(Recall::Declined, 6));
    assert_eq!(trial.all(&about_fields(8, 0, 7, A, "X")), (0, vec![(0, 2, 0, 400), (0, 7, 0, 400)]));
    assert_eq!(trial.refusal(&about_fields(5, 1, 7, A, "X")), 18);
}

/// A recall of the order X.
fn recall_fields(time: u32, payer: &[u8; 11]) -> TicketFields {
    about_fields(5, 1, time, payer, "X")
}

/// An order of 400 by A at one time, settled at another.
fn settled_at(payee: &[u8; 11], ordered: u32, settled: u32) -> Trial {
    let mut trial = Trial::without_openings();
    trial.accept(&fields(1, 0, A, 1000));
    trial.accept(&order_fields(ordered, A, payee, 400, "X"));
    trial.accept(&about_fields(4, 1, settled, payee, "X"));
    trial
}

/// A settled order whose recall is in time at the first time and too late at the second.
fn check_last_moment(set_up: impl Fn() -> Trial, in_time: u32, late: u32) {
    let (payee, settled) = (set_up().book.orders()[0].payee, set_up().book.clock());
    let mut trial = set_up();
    assert_eq!(trial.all(&recall_fields(in_time, A)), (0, vec![(payee, 5, 0, 400)]), "at {in_time}");
    assert_eq!((trial.book.clock(), trial.status()), (in_time, Status::Settled(Recall::Asked, settled)));
    let mut trial = set_up();
    assert_eq!(trial.all(&recall_fields(late, A)), (26, vec![]), "at {late}");
    assert_eq!((trial.book.clock(), trial.status()), (late, Status::Settled(Recall::None, settled)));
}

#[test]
fn recalls_in_time_and_too_late() {
    for payee in [A, B, SYSTEM] {
        check_last_moment(|| Trial::set_up_settled(payee), 6 + LAST, 6 + LATE);
        check_last_moment(|| Trial::set_up_settled(payee), 6, u32::MAX);
        check_last_moment(|| settled_at(payee, 0, 0), LAST, LATE);
    }
}

#[test]
fn lateness_counts_from_the_settlement() {
    for payee in [A, B] {
        check_last_moment(|| settled_at(payee, 100, 119), 100 + LATE, 119 + LATE);
        check_last_moment(|| settled_at(payee, 100, 119), 119 + LAST, 119 + LATE);
    }
    for settled in [100 + LAST, 100 + LATE, 3_000_000] {
        check_last_moment(|| settled_at(SYSTEM, 100, settled), settled, settled + LATE);
        check_last_moment(|| settled_at(SYSTEM, 100, settled), settled + LAST, settled + LATE);
    }
}

#[test]
fn late_recalls_near_the_top_of_32_bits() {
    for ordered in [4_294_103_280, 4_294_103_295] {
        check_last_moment(|| settled_at(B, ordered, 4_294_103_295), u32::MAX - 1, u32::MAX);
    }
    for settled in [4_294_103_296, 4_294_103_297, u32::MAX - 1, u32::MAX] {
        for payee in [A, B, SYSTEM] {
            let mut trial = settled_at(payee, settled, settled);
            assert_eq!(trial.refusal(&recall_fields(u32::MAX, A)), 0, "settled at {settled}");
        }
    }
    let mut trial = settled_at(SYSTEM, 5, u32::MAX);
    trial.accept(&recall_fields(u32::MAX, A));
}

/// What isn't Settled with mark none gets 18, however late the recall is.
#[test]
fn refusals_before_that_of_a_late_recall() {
    let late = 6 + LATE;
    let mut trial = Trial::set_up_settled(B);
    assert_eq!(trial.refusal(&TicketFields { flag: 0, ..recall_fields(late, A) }), 7);
    assert_eq!(trial.refusal(&recall_fields(5, A)), 11);
    assert_eq!(trial.refusal(&recall_fields(late, STRANGER)), 12);
    assert_eq!(trial.refusal(&about_fields(5, 1, late, A, "Y")), 16);
    assert_eq!(trial.refusal(&recall_fields(late, B)), 17);
    assert_eq!(trial.refusal(&recall_fields(late, SYSTEM)), 17);
    assert_eq!(trial.refusal(&recall_fields(late, A)), 26);
    let steps = [
        about_fields(5, 1, 7, A, "X"), // then asked
        about_fields(7, 1, 7, B, "X"), // then declined
        return_fields(B, 399),         // then returned
    ];
    for after in [&steps[..1], &steps[..2], &[steps[0].clone(), steps[2].clone()]] {
        let mut trial = Trial::set_up_settled(B);
        after.iter().for_each(|step| trial.accept(step));
        let status = trial.status();
        for time in [6 + LAST, late, u32::MAX] {
            assert_eq!(trial.all(&recall_fields(time, A)), (18, vec![]), "{status:?}");
        }
        assert_eq!(trial.status(), status);
    }
    let mut trial = Trial::set_up_order(SYSTEM);
    assert_eq!(trial.refusal(&recall_fields(late, A)), 18);
    let mut trial = Trial::set_up_order(B);
    trial.accept(&about_fields(4, 2, 6, B, "X"));
    assert_eq!(trial.refusal(&recall_fields(late, A)), 18);
    let mut trial = Trial::set_up_order(B);
    assert_eq!(trial.all(&recall_fields(late, A)), (18, vec![(0, 4, 0, 400), (1, 4, 0, 400)]));
    assert_eq!(trial.refusal(&recall_fields(late, A)), 18);
}

#[test]
fn a_late_recall_leaves_what_a_tick_leaves() {
    let set_up = || {
        let mut trial = Trial::set_up_settled(B);
        trial.accept(&order_fields(6 + LATE - 20, A, B, 300, "Y"));
        trial.accept(&order_fields(6 + LATE - 19, A, B, 200, "Z"));
        trial.accept(&order_fields(6 + LATE - 19, A, SYSTEM, 100, "W"));
        trial
    };
    let seen = |trial: &Trial| {
        let statuses: Vec<Status> = trial.book.orders().iter().map(|order| order.status).collect();
        (trial.book.clock(), trial.order_and_covers(), statuses, trial.buffer)
    };
    let expired = vec![(0, 4, 1, 300), (1, 4, 1, 300)];
    let (mut recalled, mut ticked) = (set_up(), set_up());
    assert_eq!(recalled.all(&recall_fields(6 + LATE, A)), (26, expired.clone()));
    assert_eq!(ticked.all(&TicketFields::new(11, 6 + LATE)), (0, expired));
    assert!(seen(&recalled) == seen(&ticked));
    assert_eq!(recalled.cover(0), Cover { available: 300, reserved: 300, ..Cover::default() });
}

#[test]
fn a_late_recall_marks_nothing() {
    let mut trial = Trial::set_up_settled(B);
    for time in [6 + LATE, 6 + LATE, 7 + LATE, u32::MAX] {
        assert_eq!(trial.all(&recall_fields(time, A)), (26, vec![]));
        assert_eq!(trial.all(&about_fields(8, 0, time, A, "X")), (0, vec![(0, 2, 0, 400)]));
        assert_eq!(trial.refusal(&TicketFields { time, ..return_fields(B, 400) }), 18);
        assert_eq!(trial.refusal(&about_fields(7, 1, time, B, "X")), 18);
        assert_eq!(trial.status(), Status::Settled(Recall::None, 6));
    }
}

#[test]
fn answers_to_a_recall_in_time_have_no_limit() {
    for (payee, number) in [(A, 0), (B, 1), (SYSTEM, 2)] {
        for recalled in [7, 6 + LAST] {
            for time in [6 + LAST, 6 + LATE, recalled + LATE, u32::MAX] {
                let mut trial = Trial::set_up_settled(payee);
                trial.accept(&recall_fields(recalled, A));
                let late_return = TicketFields { time, ..return_fields(payee, 399) };
                assert_eq!(trial.all(&late_return), (0, vec![(0, 6, 0, 399)]));
                assert_eq!(trial.status(), Status::Returned(6, 399));
                assert_eq!(trial.all(&about_fields(8, 0, time, A, "X")), (0, vec![(0, 6, 0, 399)]));
                let mut trial = Trial::set_up_settled(payee);
                trial.accept(&recall_fields(recalled, A));
                assert_eq!(trial.all(&about_fields(8, 0, time, A, "X")), (0, vec![(0, 2, 0, 400), (number, 8, 0, 400)]));
                assert_eq!(trial.all(&about_fields(7, 1, time, payee, "X")), (0, vec![(0, 7, 0, 400)]));
                assert_eq!(trial.status(), Status::Settled(Recall::Declined, 6));
            }
        }
    }
}

#[test]
fn refused_answers_to_a_recall_long_after_it() {
    let mut trial = Trial::set_up_asked(B);
    trial.accept(&fields(2, 6 + LATE, B, 1));
    let late_return = |amount| TicketFields { time: 6 + LATE, ..return_fields(B, amount) };
    assert_eq!(trial.refusal(&late_return(401)), 19);
    assert_eq!(trial.refusal(&late_return(400)), 20);
    trial.accept(&late_return(399));
    assert_eq!(trial.refusal(&late_return(1)), 18);
}

#[test]
fn returns() {
    for (payee, number) in [(B, 1), (SYSTEM, 2)] {
        for amount in [1, 2, 200, 398, 399, 400] {
            let mut trial = Trial::set_up_asked(payee);
            assert_eq!(trial.all(&return_fields(payee, amount)), (0, vec![(0, 6, 0, amount)]));
            assert_eq!(trial.cover(0), Cover { available: 600 + amount, ..Cover::default() });
            assert_eq!(trial.cover(number), Cover { available: 400 - amount, ..Cover::default() });
            assert_eq!(trial.book.total(), 1000);
            let order = &trial.book.orders()[0];
            assert_eq!((order.amount, order.status), (400, Status::Returned(6, amount)));
            assert_eq!(order.is_returned_in_part(), amount < 400);
        }
    }
}

#[test]
fn inquiries_repeat_what_was_returned() {
    for amount in [1, 399, 400] {
        let mut trial = Trial::set_up_asked(B);
        trial.accept(&return_fields(B, amount));
        for time in [7, 8] {
            assert_eq!(trial.all(&about_fields(8, 0, time, A, "X")), (0, vec![(0, 6, 0, amount)]));
        }
    }
}

/// Neither the rest nor anything else: a return ends the recall.
#[test]
fn an_order_is_returned_once() {
    for amount in [1, 200, 399, 400] {
        let mut trial = Trial::set_up_asked(B);
        trial.accept(&return_fields(B, amount));
        trial.accept(&fields(1, 7, B, 400));
        for second in [1, 200, 399, 400, 401, MOST_PAID] {
            trial.refuse_return(18, B, second);
        }
        for refused in [about_fields(4, 1, 7, B, "X"), about_fields(5, 1, 7, A, "X"), about_fields(7, 1, 7, B, "X")] {
            assert_eq!(trial.all(&refused), (18, vec![]));
        }
        assert_eq!(trial.all(&about_fields(8, 0, 7, A, "X")), (0, vec![(0, 6, 0, amount)]));
    }
}

#[test]
fn returns_before_a_recall_and_after_its_decline() {
    let mut trial = Trial::set_up_settled(B);
    for amount in [1, 399, 400, 401] {
        trial.refuse_return(18, B, amount);
    }
    trial.accept(&about_fields(5, 4, 7, A, "X"));
    trial.accept(&about_fields(7, 1, 7, B, "X"));
    for amount in [1, 399, 400, 401] {
        trial.refuse_return(18, B, amount);
    }
}

#[test]
fn returns_above_the_order() {
    let mut trial = Trial::set_up_asked(B);
    trial.refuse_return(9, B, 0);
    trial.refuse_return(10, B, MOST_PAID + 1);
    for more_cover in [0, 1, 600] {
        if more_cover > 0 {
            trial.accept(&fields(1, 7, B, more_cover));
        }
        for amount in [401, 402, 1002, MOST_PAID] {
            trial.refuse_return(19, B, amount);
        }
    }
    trial.accept(&return_fields(B, 400));
}

#[test]
fn returns_up_to_available() {
    let mut trial = Trial::set_up_asked(B);
    trial.accept(&fields(2, 7, B, 1));
    trial.refuse_return(20, B, 400);
    trial.refuse_return(19, B, 401);
    trial.accept(&fields(1, 7, B, 1));
    trial.accept(&return_fields(B, 400));
    assert_eq!(trial.cover(1), Cover::default());

    let mut trial = Trial::set_up_asked(B);
    trial.accept(&fields(2, 7, B, 250));
    for amount in [151, 152, 399, 400] {
        trial.refuse_return(20, B, amount);
    }
    trial.refuse_return(19, B, 401);
    assert_eq!(trial.all(&return_fields(B, 150)), (0, vec![(0, 6, 0, 150)]));
    assert_eq!(trial.cover(0), Cover { available: 750, ..Cover::default() });
    assert_eq!(trial.cover(1), Cover::default());

    let mut trial = Trial::set_up_asked(B);
    trial.accept(&fields(2, 7, B, 400));
    trial.refuse_return(20, B, 1);
}

/// The payee's own order expires at the return's time, so what it had reserved is available.
#[test]
fn returns_look_at_available_after_the_expiries() {
    let paid_by_payee = || {
        let mut trial = Trial::set_up_asked(B);
        trial.accept(&order_fields(7, B, A, 300, "Y"));
        trial.refuse_return(20, B, 101);
        trial
    };
    let expired = vec![(1, 4, 1, 300), (0, 4, 1, 300)];
    let late = |amount| TicketFields { time: 27, ..return_fields(B, amount) };
    assert_eq!(paid_by_payee().all(&late(401)), (19, expired.clone()));
    assert_eq!(paid_by_payee().all(&late(399)), (0, [&expired[..], &[(0, 6, 0, 399)]].concat()));
    let mut trial = paid_by_payee();
    trial.accept(&fields(2, 7, B, 100));
    assert_eq!(trial.all(&late(301)), (20, expired));
    trial.accept(&late(300));
    assert_eq!(trial.cover(1), Cover::default());
}

/// The lines of an order of 400 from A to B at 5, settled at 24, and the tickets after it.
fn lines_after_settlement(after: &[TicketFields]) -> String {
    let settled = [fields(1, 0, A, 1000), order_fields(5, A, B, 400, "X"), about_fields(4, 1, 24, B, "X")];
    let input = |ticket: &TicketFields| Input { ticket: ticket.bytes().to_vec(), buffer: BUFFER_LEN, fill: OLD };
    let inputs: Vec<Input> = settled.iter().chain(after).map(input).collect();
    let mut text = Vec::new();
    print_case(&day_with([None; 3]).bytes(), &inputs, &mut text);
    String::from_utf8(text).unwrap()
}

#[test]
fn a_settled_order_is_printed_with_mark_and_settlement() {
    let recalled = [recall_fields(24 + LAST, A), about_fields(7, 1, 25 + LAST, B, "X")];
    let recalled_late = [recall_fields(24 + LATE, A)];
    let rows = [
        (&recalled[..0], "K 24\n", "Settled-none-24"),
        (&recalled[..1], "T 3 0 1 0\nR 1 5 0 400\nB 6528 6528\nK 864023\n", "Settled-asked-24"),
        (&recalled, "T 4 0 1 0\nR 0 7 0 400\nB 6528 6528\nK 864024\n", "Settled-declined-24"),
        (&recalled_late, "T 3 26 0 0\nB 6528 6528\nK 864024\n", "Settled-none-24"),
    ];
    for (after, lines, status) in rows {
        let expected = format!("{lines}C 0 600 0 0 0\nC 1 400 0 0 0\nC 2 0 0 0 0\nO 0 0 1 400 5 {status} X\n");
        let text = lines_after_settlement(after);
        assert!(text.ends_with(&expected), "{text}");
    }
}

#[test]
fn a_returned_order_is_printed_with_settlement_and_what_was_returned() {
    let late_return = TicketFields { time: 24 + LATE, ..return_fields(B, 399) };
    let expected = "T 4 0 1 0\nR 0 6 0 399\nB 6528 6528\nK 864024\nC 0 999 0 0 0\nC 1 1 0 0 0\nC 2 0 0 0 0\n\
                    O 0 0 1 400 5 Returned-24-399 X\n";
    let text = lines_after_settlement(&[recall_fields(25, A), late_return]);
    assert!(text.ends_with(expected), "{text}");
}

#[test]
fn inquiries_of_waiting_orders() {
    let mut trial = Trial::set_up_order(B);
    assert_eq!(trial.all(&about_fields(8, 0, 24, A, "X")), (0, vec![(0, 9, 0, 400)]));
    assert_eq!(trial.all(&about_fields(8, 0, 25, A, "X")), (0, vec![(0, 4, 0, 400), (1, 4, 0, 400), (0, 4, 0, 400)]));
    let mut trial = Trial::set_up_order(SYSTEM);
    assert_eq!(trial.all(&about_fields(8, 0, 4_000_000_000, A, "X")), (0, vec![(2, 8, 0, 400)]));
}

#[test]
fn payer_pays_itself() {
    let mut trial = Trial::set_up_order(A);
    assert_eq!(trial.cover(0), Cover { available: 600, reserved: 400, ..Cover::default() });
    assert_eq!(trial.all(&about_fields(4, 1, 6, A, "X")), (0, vec![(0, 2, 0, 400), (0, 2, 0, 400)]));
    assert_eq!(trial.cover(0), Cover { available: 1000, ..Cover::default() });
    trial.accept(&about_fields(5, 1, 6, A, "X"));
    trial.accept(&return_fields(A, 400));
    assert_eq!(trial.cover(0), Cover { available: 1000, ..Cover::default() });
}

/// Nothing moves, and the amount is held to the order and to what is available all the same.
#[test]
fn payer_returns_to_itself() {
    for amount in [1, 150, 399, 400] {
        let mut trial = Trial::set_up_asked(A);
        trial.refuse_return(19, A, 401);
        trial.refuse_return(19, A, 1001);
        assert_eq!(trial.all(&return_fields(A, amount)), (0, vec![(0, 6, 0, amount)]));
        assert_eq!(trial.cover(0), Cover { available: 1000, ..Cover::default() });
        assert_eq!(trial.all(&about_fields(8, 0, 7, A, "X")), (0, vec![(0, 6, 0, amount)]));
        trial.refuse_return(18, A, 400);
    }
    let mut trial = Trial::set_up_asked(A);
    trial.accept(&fields(2, 7, A, 800));
    for amount in [201, 400] {
        trial.refuse_return(20, A, amount);
    }
    trial.refuse_return(19, A, 401);
    trial.accept(&return_fields(A, 200));
    assert_eq!(trial.cover(0), Cover { available: 200, ..Cover::default() });
}

#[test]
fn expiry_near_the_top_of_32_bits() {
    let mut trial = Trial::without_openings();
    trial.accept(&fields(1, 0, A, 1000));
    trial.accept(&order_fields(u32::MAX - 20, A, B, 1, "X"));
    trial.accept(&order_fields(u32::MAX - 19, A, B, 2, "Y"));
    assert_eq!(trial.all(&TicketFields::new(11, u32::MAX - 1)), (0, vec![]));
    assert_eq!(trial.all(&TicketFields::new(11, u32::MAX)), (0, vec![(0, 4, 0, 1), (1, 4, 0, 1)]));
}

#[test]
fn linked_systems_hold_up_no_expiry() {
    let mut trial = Trial::without_openings();
    trial.accept(&fields(1, 0, A, 1000));
    for (payee, tx_id) in [(SYSTEM, "1"), (B, "2"), (SYSTEM, "3"), (B, "4")] {
        trial.accept(&order_fields(0, A, payee, 10, tx_id));
    }
    trial.accept(&about_fields(4, 2, 10, B, "2"));
    trial.accept(&order_fields(10, A, B, 5, "5"));
    assert_eq!(trial.all(&TicketFields::new(11, 20)), (0, vec![(0, 4, 3, 10), (1, 4, 3, 10)]));
    assert_eq!(trial.all(&TicketFields::new(11, 30)), (0, vec![(0, 4, 4, 5), (1, 4, 4, 5)]));
}

#[test]
fn orders_up_to_256() {
    let mut trial = Trial::without_openings();
    trial.accept(&fields(1, 0, A, 1000));
    for number in 0..256 {
        trial.accept(&order_fields(0, A, B, 1, &number.to_string()));
    }
    assert_eq!(trial.refusal(&order_fields(0, A, B, 2000, "0")), 13);
    assert_eq!(trial.refusal(&order_fields(0, A, STRANGER, 2000, "X")), 14);
    assert_eq!(trial.refusal(&order_fields(0, A, B, 2000, "X")), 15);
    let answer = trial.answer(&order_fields(20, A, B, 1, "X"));
    assert_eq!((answer.refusal_number(), answer.reports, answer.rows), (15, 512, 0));
    assert_eq!(trial.cover(0), Cover { available: 1000, ..Cover::default() });
}

#[test]
fn most_reports_of_a_ticket() {
    let bics: Vec<[u8; 11]> =
        (b'A'..=b'Z').chain(b'2'..=b'7').map(|byte| padded(&[b"AAAALV", &[byte][..], b"2XXX"].concat())).collect();
    let day = Day {
        participants: bics.iter().map(|bic| participant_row(bic, 0, Some(1))).collect(),
        routes: vec![route_row(B, 0, 31)],
        tickets: vec![],
    };
    let mut trial = Trial::new(&day);
    trial.accept(&fields(1, 0, &bics[0], 1000));
    for number in 0..256 {
        trial.accept(&order_fields(7, &bics[0], B, 1, &number.to_string()));
    }
    assert_eq!(trial.answer(&TicketFields::new(9, 27)).reports, 544);
}

#[test]
fn buffers_and_refusal_6() {
    let mut book = Trial::set_up_order(B).book;
    let tick = TicketFields::new(11, 1000).bytes();
    for length in [0, 1, 12, BUFFER_LEN - 1] {
        let mut buffer = vec![OLD; length];
        let answer = book.hand_in(&tick, &mut buffer);
        assert_eq!(answer, Answer { refusal: Some(Refusal::ShortBuffer), reports: 0, rows: 0 });
        assert_eq!(book.hand_in(&[], &mut buffer).refusal_number(), 6);
        assert!(buffer.iter().all(|&byte| byte == OLD));
        assert_eq!((book.clock(), book.orders()[0].status), (5, Status::Waiting));
    }
    let mut buffer = vec![OLD; BUFFER_LEN + 5];
    assert_eq!(book.hand_in(&[], &mut buffer).refusal_number(), 7);
    assert_eq!(book.hand_in(&tick, &mut buffer), Answer { refusal: None, reports: 2, rows: 0 });
    assert_eq!(buffer[..24], [0, 4, 0, 0, 0, 0, 0, 0, 0, 0, 1, 144, 1, 4, 0, 0, 0, 0, 0, 0, 0, 0, 1, 144]);
    assert!(buffer[24..].iter().all(|&byte| byte == OLD));
}

#[test]
fn refusals_7_to_11_leave_everything() {
    let mut trial = Trial::set_up_order(B);
    let too_long = [TicketFields::new(11, 1000).bytes().as_slice(), &[0]].concat();
    assert_eq!(trial.book.hand_in(&too_long, &mut trial.buffer).refusal_number(), 7);
    let refused = [
        (7, TicketFields::new(12, 1000)),
        (8, TicketFields { iban: [0; 34], ..order_fields(1000, A, B, 1, "Y") }),
        (9, fields(1, 1000, A, 0)),
        (10, fields(1, 1000, A, MOST_COVER + 1)),
        (11, fields(1, 4, A, 1)),
    ];
    for (refusal, ticket) in refused {
        assert_eq!(trial.all(&ticket), (refusal, vec![]));
        assert_eq!((trial.book.clock(), trial.book.orders()[0].status), (5, Status::Waiting));
    }
}

#[test]
fn later_refusals_leave_what_a_tick_leaves() {
    let refused = [
        (12, fields(1, 25, STRANGER, 1)),
        (13, order_fields(25, A, B, 1, "X")),
        (14, order_fields(25, A, STRANGER, 1, "Y")),
        (16, about_fields(8, 0, 25, A, "Y")),
        (17, about_fields(8, 0, 25, B, "X")),
        (18, about_fields(4, 1, 25, B, "X")),
        (20, fields(2, 25, A, 1001)),
        (21, fields(10, 25, A, 0)),
        (22, fields(1, 25, A, MOST_COVER)),
    ];
    for (refusal, ticket) in refused {
        let mut trial = Trial::set_up_order(B);
        assert_eq!(trial.all(&ticket), (refusal, vec![(0, 4, 0, 400), (1, 4, 0, 400)]));
        assert_eq!(trial.book.clock(), 25);
        assert_eq!(trial.cover(0), Cover { available: 1000, ..Cover::default() });
        assert_eq!(trial.cover(1), Cover::default());
    }
}

#[test]
fn order_of_refusals() {
    let mut trial = Trial::set_up_order(B);
    // The ticket fails at all of these checks; its faults are taken away one by one.
    let mut ticket = TicketFields { flag: 1, iban: [0; 34], ..order_fields(4, STRANGER, STRANGER, 0, "X") };
    assert_eq!(trial.refusal(&ticket), 7);
    ticket.flag = 0;
    assert_eq!(trial.refusal(&ticket), 8);
    ticket.iban = padded(IBAN);
    assert_eq!(trial.refusal(&ticket), 9);
    ticket.amount = MOST_PAID + 1;
    assert_eq!(trial.refusal(&ticket), 10);
    ticket.amount = MOST_PAID;
    assert_eq!(trial.refusal(&ticket), 11);
    ticket.time = 5;
    assert_eq!(trial.refusal(&ticket), 12);
    ticket.sender = *A;
    assert_eq!(trial.refusal(&ticket), 13);
    ticket.tx_id = padded(b"Y");
    assert_eq!(trial.refusal(&ticket), 14);
    ticket.named = *SYSTEM;
    assert_eq!(trial.refusal(&ticket), 20);
    ticket.amount = 600;
    assert_eq!(trial.refusal(&ticket), 0);

    let mut ticket = TicketFields { amount: 5000, ..about_fields(6, 0, 5, STRANGER, "Z") };
    assert_eq!(trial.refusal(&ticket), 12);
    ticket.sender = *A;
    assert_eq!(trial.refusal(&ticket), 16);
    ticket.tx_id = padded(b"X");
    assert_eq!(trial.refusal(&ticket), 17);
    ticket.sender = *B;
    assert_eq!(trial.refusal(&ticket), 18);
    trial.accept(&about_fields(4, 1, 5, B, "X"));
    trial.accept(&about_fields(5, 1, 5, A, "X"));
    trial.accept(&fields(2, 5, B, 100));
    assert_eq!(trial.refusal(&ticket), 19);
    ticket.amount = 400;
    assert_eq!(trial.refusal(&ticket), 20);
    ticket.amount = 300;
    assert_eq!(trial.refusal(&ticket), 0);
}

#[test]
fn fields_a_kind_leaves_out_are_zero() {
    let mut trial = Trial::set_up_order(B);
    for kind in 1..=11 {
        let listed: &[usize] = match kind {
            1 | 2 | 10 => &[8, 16],
            3 => &[8, 16, 27, 38, 73],
            6 => &[8, 16, 27, 38],
            4 | 5 | 7 | 8 => &[16, 27, 38],
            _ => &[],
        };
        let base = match kind {
            3 => order_fields(5, A, B, 1, "Y"),
            4 | 5 | 7 => about_fields(kind, 1, 5, A, "Z"),
            6 => TicketFields { amount: 1, ..about_fields(6, 0, 5, A, "Z") },
            8 => about_fields(8, 0, 5, A, "Z"),
            9 | 11 => TicketFields::new(kind, 5),
            _ => fields(kind, 5, STRANGER, 1),
        };
        assert_ne!(trial.refusal(&TicketFields { time: 4, ..base.clone() }), 7);
        for at in (0..108).filter(|at| ![0, 4, 5, 6, 7].contains(at)) {
            let field = [1, 2, 3, 8, 16, 27, 38, 73, 107].into_iter().rfind(|start| *start <= at).unwrap();
            if listed.contains(&field) || (field == 1 && [4, 5, 7].contains(&kind)) {
                continue;
            }
            let mut ticket = base.bytes();
            ticket[at] = 1;
            assert_eq!(trial.book.hand_in(&ticket, &mut trial.buffer).refusal_number(), 7, "kind {kind}, byte {at}");
        }
    }
}

#[test]
fn flags() {
    let mut trial = Trial::without_openings();
    for (kind, most) in [(4, 2), (5, 4), (7, 7)] {
        for flag in 0..=255 {
            let expected = if (1..=most).contains(&flag) { 16 } else { 7 };
            assert_eq!(trial.refusal(&about_fields(kind, flag, 0, A, "X")), expected, "kind {kind}, flag {flag}");
        }
    }
}

#[test]
fn tx_id_reader() {
    let ticket = order_fields(0, A, B, 1, "a/b").bytes();
    assert_eq!(tx_id_of(&ticket), b"a/b");
    assert_eq!(tx_id_of(&ticket).as_ptr(), ticket[38..].as_ptr());
    assert_eq!(tx_id_of(&ticket[..107]), b"");
    assert_eq!(tx_id_of(&order_fields(0, A, B, 1, "a b").bytes()), b"");
    assert_eq!(tx_id_of(&order_fields(0, A, B, 1, "a\0b").bytes()), b"");
    assert_eq!(tx_id_of(&[0; 108]), b"");
    assert_eq!(tx_id_of(&order_fields(0, A, B, 1, &"a".repeat(35)).bytes()), [b'a'; 35]);
}

#[test]
fn tx_ids_differ_by_length_and_case() {
    let mut trial = Trial::without_openings();
    trial.accept(&fields(1, 0, A, 1000));
    let longest = "a".repeat(35);
    for tx_id in ["a", "aa", "A", &longest[..34], &longest] {
        trial.accept(&order_fields(0, A, B, 1, tx_id));
    }
    for tx_id in ["a", "aa", "A", &longest[..34], &longest] {
        assert_eq!(trial.refusal(&order_fields(0, A, B, 1, tx_id)), 13);
    }
}

#[test]
fn routes_that_go_on() {
    let mut day = day_with([None; 3]);
    day.routes = vec![route_row(STRANGER, 0, 1)];
    for number in 1..64u8 {
        let bic = padded(&[b"EEEELV2".as_slice(), &[b'A' + number % 8, b'A' + number / 8], b"00"].concat());
        day.routes.push(route_row(&bic, 1, u16::from(number) - 1));
    }
    let last = padded(&day.routes[63][..11]);
    let mut trial = Trial::new(&day);
    trial.accept(&fields(1, 0, A, 1000));
    let answer = trial.answer(&order_fields(0, A, &last, 1, "X"));
    assert_eq!((answer.refusal_number(), answer.rows), (0, 64));
    assert_eq!(trial.book.orders()[0].payee, 1);
    assert_eq!(trial.refusal(&order_fields(0, A, B, 1, "Y")), 14);
}

fn file_refusal(day: &Day) -> String {
    text_of(&day.bytes())
}

#[test]
fn files_turned_back() {
    assert_eq!(text_of(&[]), "F 1\n");
    assert_eq!(text_of(&[0; 11]), "F 1\n");
    assert_eq!(text_of(&[0; 12]), "F 2\n");
    assert_eq!(text_of(&[0, 1, 0, 65, 0, 0, 0, 12, 0, 36, 0, 36]), "F 2\n");
    assert_eq!(text_of(&[0, 1, 0, 0, 2, 1, 0, 12, 0, 36, 0, 36]), "F 2\n");
    assert_eq!(text_of(&[0, 1, 0, 64, 2, 0, 0, 12, 0, 36, 0, 36]), "F 3\n");
    let day = day_with([None; 3]);
    let bytes = day.bytes();
    assert_eq!(text_of(&bytes), "C 0 0 0 0\nC 1 0 0 0\nC 2 0 0 0\n");
    assert_eq!(text_of(&bytes[..bytes.len() - 1]), "F 3\n");
    assert_eq!(text_of(&[&bytes[..], &[0]].concat()), "F 3\n");
    for at in [7, 9, 11] {
        let mut bytes = bytes.clone();
        bytes[at] += 1;
        assert_eq!(text_of(&bytes), "F 3\n");
    }
}

#[test]
fn participant_rows_turned_back() {
    let row_turned_back = |change: fn(&mut [u8; 24])| {
        let mut day = day_with([Some(0), Some(5), None]);
        day.routes[0][11] = 2;
        change(&mut day.participants[1]);
        file_refusal(&day)
    };
    assert_eq!(row_turned_back(|_| ()), "F 5\n");
    assert_eq!(row_turned_back(|row| row[12..20].copy_from_slice(&1_000_000_000_000_000u64.to_be_bytes())), "F 5\n");
    assert_eq!(row_turned_back(|row| row[12..20].copy_from_slice(&1_000_000_000_000_001u64.to_be_bytes())), "F 4\n");
    assert_eq!(row_turned_back(|row| row[0] = b'a'), "F 4\n");
    assert_eq!(row_turned_back(|row| row[..11].copy_from_slice(A)), "F 4\n");
    assert_eq!(row_turned_back(|row| row[11] = 2), "F 4\n");
    assert_eq!(row_turned_back(|row| row[20] = 2), "F 4\n");
    assert_eq!(row_turned_back(|row| row[20] = 0), "F 4\n");
    assert_eq!(row_turned_back(|row| row[21] = 1), "F 4\n");
    assert_eq!(row_turned_back(|row| row[22] = 1), "F 4\n");
    assert_eq!(row_turned_back(|row| row[23] = 1), "F 4\n");
}

#[test]
fn route_rows_turned_back() {
    let row_turned_back = |change: fn(&mut [u8; 16])| {
        let mut day = day_with([None; 3]);
        change(&mut day.routes[1]);
        file_refusal(&day)
    };
    assert_eq!(row_turned_back(|row| row[13] = 2), "C 0 0 0 0\nC 1 0 0 0\nC 2 0 0 0\n");
    assert_eq!(row_turned_back(|row| row[13] = 3), "F 5\n");
    assert_eq!(row_turned_back(|row| row[12] = 1), "F 5\n");
    assert_eq!(row_turned_back(|row| row[11] = 1), "F 5\n");
    assert_eq!(row_turned_back(|row| row[11..14].copy_from_slice(&[1, 0, 0])), "C 0 0 0 0\nC 1 0 0 0\nC 2 0 0 0\n");
    assert_eq!(row_turned_back(|row| row[11] = 2), "F 5\n");
    assert_eq!(row_turned_back(|row| row[0] = 0), "F 5\n");
    assert_eq!(row_turned_back(|row| row[..11].copy_from_slice(A)), "F 5\n");
    assert_eq!(row_turned_back(|row| row[14] = 1), "F 5\n");
    assert_eq!(row_turned_back(|row| row[15] = 1), "F 5\n");
}

#[test]
fn empty_book() {
    let mut book = Book::new(Roster::empty());
    let mut buffer = [OLD; BUFFER_LEN];
    for (kind, refusal) in [(1, 12), (2, 12), (10, 12), (9, 0), (11, 0)] {
        let sender = if kind == 9 || kind == 11 { [0; 11] } else { *A };
        let ticket = fields(kind, 3, &sender, u64::from(refusal == 12));
        assert_eq!(book.hand_in(&ticket.bytes(), &mut buffer).refusal_number(), refusal);
    }
    assert_eq!(book.clock(), 3);
}
