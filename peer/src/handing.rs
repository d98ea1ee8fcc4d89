//! Tickets handed in one by one, each with a report buffer of its own: the lines of what comes of each and of the book at the end.

use crate::book::{Book, Order, Recall, Status};
use crate::codes::unpadded;
use crate::dayfile::{DayFile, Roster};
use crate::printing::{print_answer, print_line, print_numbers};
use crate::report::REPORT_LEN;
use std::borrow::Cow;

/// A ticket of any bytes and length, and a buffer of any length that one byte fills.
#[derive(Clone, PartialEq, Eq, Debug)]
pub struct Input {
    pub ticket: Vec<u8>,
    pub buffer: usize,
    pub fill: u8,
}

/// The refusal of a file, 0 if none, and its fresh book, which is the empty one if the file is refused.
pub fn open(file: &[u8]) -> (u8, Book) {
    match DayFile::read(file) {
        Ok(day) => (0, Book::new(day.roster)),
        Err(refusal) => (refusal.number(), Book::new(Roster::empty())),
    }
}

/// Adds the lines of a book and its inputs to the text.
pub fn print_case(file: &[u8], inputs: &[Input], text: &mut Vec<u8>) {
    let (refusal, mut book) = open(file);
    print_line(text, b'F', &[refusal.into()]);
    for (number, input) in inputs.iter().enumerate() {
        let mut buffer = vec![input.fill; input.buffer];
        let answer = book.hand_in(&input.ticket, &mut buffer);
        print_answer(text, number, &answer, &buffer);
        let kept = kept_to(&buffer, answer.reports * REPORT_LEN, input.fill);
        print_line(text, b'B', &[buffer.len() as u64, kept as u64]);
    }
    print_book(text, &book);
}

/// Up to where the buffer's bytes are the fill, from a place on.
fn kept_to(buffer: &[u8], from: usize, fill: u8) -> usize {
    from + buffer[from..].iter().take_while(|byte| **byte == fill).count()
}

fn print_book(text: &mut Vec<u8>, book: &Book) {
    print_line(text, b'K', &[book.clock().into()]);
    for (number, cover) in (0..).zip(book.covers()) {
        print_line(text, b'C', &[number, cover.available, cover.reserved, cover.held, cover.open_debit]);
    }
    for (number, order) in (0..).zip(book.orders()) {
        print_order(text, number, order);
    }
}

fn print_order(text: &mut Vec<u8>, number: u64, order: &Order) {
    print_numbers(text, b'O', &[number, order.payer.into(), order.payee.into(), order.amount, order.time.into()]);
    for word in [status_word(order.status).as_bytes(), unpadded(&order.tx_id)] {
        text.push(b' ');
        text.extend_from_slice(word);
    }
    text.push(b'\n');
}

/// Behind a settled order's word come its recall mark and the time of its settlement, behind a returned one's that time and the
/// amount that was returned.
fn status_word(status: Status) -> Cow<'static, str> {
    match status {
        Status::Waiting => "Waiting".into(),
        Status::Refused => "Refused".into(),
        Status::Expired => "Expired".into(),
        Status::Returned(time, amount) => format!("Returned-{time}-{amount}").into(),
        Status::Settled(Recall::None, time) => format!("Settled-none-{time}").into(),
        Status::Settled(Recall::Asked, time) => format!("Settled-asked-{time}").into(),
        Status::Settled(Recall::Declined, time) => format!("Settled-declined-{time}").into(),
    }
}
