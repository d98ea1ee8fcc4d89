//! Lines that ask about IBANs on standard input, as the proved program cases reads them, and on standard output each with its
//! answer.

use peer::asking::print_answer;
use std::io::{self, BufRead, Write};

fn main() -> io::Result<()> {
    let mut text = Vec::new();
    for line in io::stdin().lock().split(b'\n') {
        print_answer(&line?, &mut text);
    }
    io::stdout().write_all(&text)
}
