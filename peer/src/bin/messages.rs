//! Messages on standard input, as the proved program messages reads them, and a line for each on standard output. For each message
//! come the lengths of its name and of its text and its time, four bytes each, then the name and the text.

use peer::message::print_message;
use std::io::{self, Read, Write};

fn main() -> io::Result<()> {
    let mut input = Vec::new();
    io::stdin().read_to_end(&mut input)?;
    let mut text = Vec::new();
    let mut rest = &input[..];
    while next_message(&mut rest, &mut text).is_some() {}
    io::stdout().write_all(&text)
}

/// Adds the lines of the next message, or gives None where there is no whole one.
fn next_message(rest: &mut &[u8], text: &mut Vec<u8>) -> Option<()> {
    let [name, message, time] = [number(rest)?, number(rest)?, number(rest)?];
    let name = rest.split_off(..name as usize)?;
    let message = rest.split_off(..message as usize)?;
    text.extend_from_slice(&[b"# ", name, b"\n"].concat());
    print_message(message, time, text);
    Some(())
}

fn number(rest: &mut &[u8]) -> Option<u32> {
    let bytes = rest.split_off(..4)?.try_into().ok()?;
    Some(u32::from_be_bytes(bytes))
}
