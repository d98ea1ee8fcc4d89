//! The clearing program's text: a day file in, its lines out.

use crate::book::{Answer, Book};
use crate::dayfile::DayFile;
use crate::report::{reports, Report, BUFFER_LEN};

/// Adds the lines of a day to the text.
pub fn print_day(file: &[u8], text: &mut Vec<u8>) {
    let day = match DayFile::read(file) {
        Ok(day) => day,
        Err(refusal) => return print_line(text, b'F', &[refusal.number().into()]),
    };
    let tickets = day.tickets();
    let mut book = Book::new(day.roster);
    let mut buffer = [0; BUFFER_LEN];
    for (number, ticket) in tickets.iter().enumerate() {
        let answer = book.hand_in(ticket, &mut buffer);
        print_answer(text, number, &answer, &buffer);
    }
    print_covers(text, &book);
}

/// A line for the answer and one for each of its reports.
pub(crate) fn print_answer(text: &mut Vec<u8>, number: usize, answer: &Answer, buffer: &[u8]) {
    print_line(text, b'T', &[number as u64, answer.refusal_number().into(), answer.reports as u64, answer.rows.into()]);
    for Report { to, code, order, amount } in reports(buffer, answer.reports) {
        print_line(text, b'R', &[to.into(), code.into(), order.into(), amount]);
    }
}

/// A line for the cover of each participant.
fn print_covers(text: &mut Vec<u8>, book: &Book) {
    for (number, cover) in (0..).zip(book.covers()) {
        print_line(text, b'C', &[number, cover.available, cover.reserved, cover.held]);
    }
}

pub(crate) fn print_line(text: &mut Vec<u8>, letter: u8, numbers: &[u64]) {
    print_numbers(text, letter, numbers);
    text.push(b'\n');
}

/// A letter, and each number behind a space.
pub(crate) fn print_numbers(text: &mut Vec<u8>, letter: u8, numbers: &[u64]) {
    text.push(letter);
    for &number in numbers {
        text.push(b' ');
        print_number(text, number);
    }
}

fn print_number(text: &mut Vec<u8>, mut number: u64) {
    let mut digits = [0; 20];
    let mut start = digits.len();
    loop {
        start -= 1;
        digits[start] = b'0' + (number % 10) as u8;
        number /= 10;
        if number == 0 {
            break;
        }
    }
    text.extend_from_slice(&digits[start..]);
}

#[cfg(test)]
mod tests {
    use super::*;

    #[test]
    fn numbers() {
        for number in [0, 1, 9, 10, 65_535, 1_000_000_000_000_000_000, u64::MAX] {
            let mut text = Vec::new();
            print_number(&mut text, number);
            assert_eq!(text, number.to_string().as_bytes());
        }
    }
}
