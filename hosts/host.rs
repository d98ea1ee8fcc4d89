//! A host in Rust: clears the day file on standard input through the static library and writes the program's text; or reads a message, or
//! checks an IBAN.
//!
//!     host [ROOM]             ROOM is how many bytes the host has for the text at first; where they are too few it asks again.
//!     host message TIME FILE  no day, but the order that a message is, at a time in seconds: its ticket in hex behind M 0, or M and
//!                             the refusal.
//!     host iban CODE          no day, but a code: I, then 1 where it is an IBAN and 0 where it isn't, then how many groups of seven
//!                             digits its check took.

#![deny(clippy::cast_lossless, clippy::cast_possible_truncation, clippy::cast_possible_wrap, clippy::cast_sign_loss)]
#![deny(clippy::multiple_unsafe_ops_per_block, clippy::undocumented_unsafe_blocks, clippy::unwrap_used)]

use std::fs;
use std::io::{self, Read, Write};

#[link(name = "codes", kind = "static")]
extern "C" {
    fn zolfigar_iban_ok(bytes: *const u8, length: usize) -> u8;
    fn zolfigar_iban_groups(bytes: *const u8, length: usize) -> u8;
}

#[link(name = "foreign_day", kind = "static")]
extern "C" {
    fn zolfigar_day(file: *const u8, file_length: usize, text: *mut u8, text_length: usize) -> usize;
}

#[link(name = "reader", kind = "static")]
extern "C" {
    fn zolfigar_pacs008(text: *const u8, text_length: usize, time: u32, ticket: *mut u8, ticket_length: usize) -> u8;
}

/// The ticket of the order that a text is, or its refusal.
fn read_order(text: &[u8], time: u32) -> Result<[u8; 108], u8> {
    let mut ticket = [0; 108];
    // SAFETY: the library reads the first slice and writes the second, each within its length, and keeps neither.
    let refusal = unsafe { zolfigar_pacs008(text.as_ptr(), text.len(), time, ticket.as_mut_ptr(), ticket.len()) };
    if refusal == 0 {
        Ok(ticket)
    } else {
        Err(refusal)
    }
}

fn order_line(text: &[u8], time: u32) -> String {
    match read_order(text, time) {
        Ok(ticket) => format!("M 0 {}", ticket.iter().map(|byte| format!("{byte:02x}")).collect::<String>()),
        Err(refusal) => format!("M {refusal}"),
    }
}

fn iban_line(code: &[u8]) -> String {
    // SAFETY: the library reads the slice within its length, and doesn't keep it.
    let ok = unsafe { zolfigar_iban_ok(code.as_ptr(), code.len()) };
    // SAFETY: as above.
    let groups = unsafe { zolfigar_iban_groups(code.as_ptr(), code.len()) };
    format!("I {ok} {groups}")
}

/// What the program prints of the day, as much as there is room for, and how long all of it is.
fn clear(day: &[u8], text: &mut [u8]) -> usize {
    // SAFETY: the library reads the first slice and writes the second, each within its length, and keeps neither.
    unsafe { zolfigar_day(day.as_ptr(), day.len(), text.as_mut_ptr(), text.len()) }
}

fn main() -> io::Result<()> {
    let words: Vec<String> = std::env::args().collect();
    if let [_, word, time, file] = &words[..] {
        assert_eq!(word, "message");
        let line = order_line(&fs::read(file)?, time.parse().expect("TIME is a number"));
        return writeln!(io::stdout(), "{line}");
    }
    if let [_, word, code] = &words[..] {
        assert_eq!(word, "iban");
        return writeln!(io::stdout(), "{}", iban_line(code.as_bytes()));
    }
    let room = words.get(1).map_or(65536, |word| word.parse().expect("ROOM is a number"));
    let mut day = Vec::new();
    io::stdin().read_to_end(&mut day)?;
    let mut text = vec![0; room];
    let mut whole = clear(&day, &mut text);
    if whole > text.len() {
        text.resize(whole, 0);
        whole = clear(&day, &mut text);
    }
    io::stdout().write_all(&text[..whole])
}
