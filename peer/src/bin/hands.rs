//! Tickets handed in one by one: cases on standard input, as the proved program hands reads them, and their lines on standard output.

use peer::handing::{print_case, Input};
use std::io::{self, Read, Write};

fn main() -> io::Result<()> {
    let mut input = Vec::new();
    io::stdin().read_to_end(&mut input)?;
    let mut text = Vec::new();
    let mut rest = &input[..];
    while next_case(&mut rest, &mut text).is_some() {}
    io::stdout().write_all(&text)
}

/// Adds the lines of the next case, or gives None where there is no whole one.
fn next_case(rest: &mut &[u8], text: &mut Vec<u8>) -> Option<()> {
    let lengths = [length(rest)?, length(rest)?, length(rest)?];
    let name = part(rest, lengths[0])?;
    let file = part(rest, lengths[1])?;
    let inputs = (0..lengths[2]).map(|_| next_input(rest)).collect::<Option<Vec<Input>>>()?;
    text.extend_from_slice(&[b"# ", name, b"\n"].concat());
    print_case(file, &inputs, text);
    Some(())
}

fn next_input(rest: &mut &[u8]) -> Option<Input> {
    let (ticket, buffer) = (length(rest)?, length(rest)?);
    let fill = part(rest, 1)?[0];
    Some(Input { ticket: part(rest, ticket)?.to_vec(), buffer, fill })
}

fn length(rest: &mut &[u8]) -> Option<usize> {
    let bytes = part(rest, 4)?.try_into().ok()?;
    Some(u32::from_be_bytes(bytes) as usize)
}

fn part<'a>(rest: &mut &'a [u8], length: usize) -> Option<&'a [u8]> {
    rest.split_off(..length)
}
