//! The two books behind one call, and whether both answer the same.

use crate::measure::Case;
use peer::book::Book;
use peer::dayfile::DayFile;
use peer::report::{BUFFER_LEN, REPORT_LEN};
use std::hint::black_box;

/// More than the answers and reports of any day measured here need; a day that needs more is an error.
const ANSWERS_LEN: usize = 4 * 512;
const REPORTS_LEN: usize = 1 << 18;
const HEADER_LEN: usize = 12;

/// The proved book's answers that aren't a count, as in include/zolfigar.h: the file's refusal is added to the first.
const FILE_REFUSED: usize = 1024;
const NO_ROOM: usize = 2048;

#[derive(Clone, Copy)]
pub enum Side {
    Proved,
    Peer,
}

pub const SIDES: [Side; 2] = [Side::Proved, Side::Peer];

/// What the books write to: answers of 4 bytes and joined reports for the proved one, one ticket's reports for the peer.
pub struct Buffers {
    answers: Vec<u8>,
    reports: Vec<u8>,
    lent: [u8; BUFFER_LEN],
}

impl Buffers {
    pub fn new() -> Self {
        Buffers { answers: vec![0; ANSWERS_LEN], reports: vec![0; REPORTS_LEN], lent: [0; BUFFER_LEN] }
    }
}

#[allow(unsafe_code)]
mod library {
    extern "C" {
        fn zolfigar_steps(
            file: *const u8,
            file_length: usize,
            answers: *mut u8,
            answers_length: usize,
            reports: *mut u8,
            reports_length: usize,
        ) -> usize;
    }

    /// How many tickets the proved book took, or why none. It reads and writes the three slices and nothing else.
    pub fn steps(file: &[u8], answers: &mut [u8], reports: &mut [u8]) -> usize {
        // SAFETY: each pointer comes with the length of its slice, and the three don't overlap.
        unsafe {
            zolfigar_steps(file.as_ptr(), file.len(), answers.as_mut_ptr(), answers.len(), reports.as_mut_ptr(), reports.len())
        }
    }
}

impl Side {
    /// Opens a book and runs all tickets of the file: how many were taken.
    pub fn run(self, file: &[u8], buffers: &mut Buffers) -> usize {
        match self {
            Side::Proved => library::steps(black_box(file), &mut buffers.answers, &mut buffers.reports),
            Side::Peer => run_peer(black_box(file), &mut buffers.lent),
        }
    }
}

fn run_peer(file: &[u8], lent: &mut [u8]) -> usize {
    let Ok(day) = DayFile::read(file) else {
        return 0;
    };
    let tickets = day.tickets();
    let mut book = Book::new(day.roster);
    for ticket in tickets {
        black_box(book.hand_in(ticket, lent));
    }
    black_box(&book);
    tickets.len()
}

/// The peer's answers and reports, in the proved book's bytes.
fn peer_bytes(file: &[u8]) -> Option<(Vec<u8>, Vec<u8>)> {
    let day = DayFile::read(file).ok()?;
    let tickets = day.tickets();
    let mut book = Book::new(day.roster);
    let mut lent = [0; BUFFER_LEN];
    let (mut answers, mut reports) = (Vec::new(), Vec::new());
    for ticket in tickets {
        let answer = book.hand_in(ticket, &mut lent);
        answers.push(answer.refusal_number());
        answers.extend_from_slice(&(answer.reports as u16).to_be_bytes());
        answers.push(answer.rows);
        reports.extend_from_slice(&lent[..answer.reports * REPORT_LEN]);
    }
    Some((answers, reports))
}

/// How many tickets were taken by what the proved book answered.
fn taken_by(answer: usize) -> Result<usize, String> {
    match answer {
        NO_ROOM => Err("no room for the first ticket".to_string()),
        FILE_REFUSED.. => Err(format!("the proved book refuses the file by {}", answer - FILE_REFUSED)),
        taken => Ok(taken),
    }
}

/// An error if a file is refused, a ticket isn't taken, or an answer or a report differs.
pub fn check_same(cases: &[Case]) -> Result<(), String> {
    let mut buffers = Buffers::new();
    for case in cases {
        for file in [&case.base, &case.full] {
            let (answers, reports) = peer_bytes(file).ok_or(format!("{}: refused", case.name))?;
            let taken = taken_by(Side::Proved.run(file, &mut buffers)).map_err(|why| format!("{}: {why}", case.name))?;
            let same =
                4 * taken == answers.len() && buffers.answers.starts_with(&answers) && buffers.reports.starts_with(&reports);
            if !same {
                return Err(format!("{}: the two books differ", case.name));
            }
        }
    }
    Ok(())
}

pub fn tickets_in(file: &[u8]) -> usize {
    DayFile::read(file).map_or(0, |day| day.tickets().len())
}

/// The same file with a ticket count of zero; None if it has no tickets or is refused.
pub fn without_tickets(file: &[u8]) -> Option<Vec<u8>> {
    let tickets_at = usize::from(u16::from_be_bytes([*file.get(HEADER_LEN - 2)?, *file.get(HEADER_LEN - 1)?]));
    let mut base = file.get(..tickets_at)?.to_vec();
    base.get_mut(4..6)?.fill(0);
    (tickets_in(file) > 0).then_some(base)
}
