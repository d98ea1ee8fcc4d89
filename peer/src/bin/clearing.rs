//! The clearing program: a day file on standard input, its lines on standard output.

use std::io::{self, Read, Write};

fn main() -> io::Result<()> {
    let mut file = Vec::new();
    io::stdin().lock().read_to_end(&mut file)?;
    let mut text = Vec::new();
    peer::printing::print_day(&file, &mut text);
    io::stdout().lock().write_all(&text)
}
