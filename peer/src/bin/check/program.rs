//! Runs a proved program over many days or cases at once and takes its text apart again.

use std::io::{self, Read, Write};
use std::path::PathBuf;
use std::process::{Child, Command, Stdio};

pub struct Program {
    pub path: PathBuf,
}

impl Program {
    /// The program's text for each day, named by its place in the list. A day without text is missing in the program's.
    pub fn texts(&self, files: &[Vec<u8>]) -> io::Result<Vec<Option<Vec<u8>>>> {
        self.texts_of(&input(files), files.len())
    }

    /// The same for an input that is made already.
    pub fn texts_of(&self, input: &[u8], count: usize) -> io::Result<Vec<Option<Vec<u8>>>> {
        let text = self.run(input)?;
        let mut parts = parts(&text).into_iter().peekable();
        let text_of = |number: usize| {
            let name = format!("# {number}");
            parts.next_if(|(line, _)| *line == name.as_bytes()).map(|(_, lines)| lines.to_vec())
        };
        Ok((0..count).map(text_of).collect())
    }

    /// The program's whole text for an input.
    pub fn run(&self, input: &[u8]) -> io::Result<Vec<u8>> {
        let mut child = Command::new(&self.path).stdin(Stdio::piped()).stdout(Stdio::piped()).spawn()?;
        let text = exchange(&mut child, input);
        child.wait()?;
        text
    }
}

/// Writes the input while the text is read, so that neither side waits for the other.
fn exchange(child: &mut Child, input: &[u8]) -> io::Result<Vec<u8>> {
    let mut stdin = child.stdin.take().expect("standard input is a pipe");
    let mut stdout = child.stdout.take().expect("standard output is a pipe");
    std::thread::scope(|scope| {
        // A program that ends early closes the pipe; its missing text then shows it.
        scope.spawn(move || stdin.write_all(input).ok());
        let mut text = Vec::new();
        stdout.read_to_end(&mut text).map(|_| text)
    })
}

/// Each day with the lengths of its name and bytes before it.
fn input(files: &[Vec<u8>]) -> Vec<u8> {
    let mut input = Vec::new();
    for (number, file) in files.iter().enumerate() {
        let name = number.to_string();
        input.extend_from_slice(&(name.len() as u32).to_be_bytes());
        input.extend_from_slice(&(file.len() as u32).to_be_bytes());
        input.extend_from_slice(name.as_bytes());
        input.extend_from_slice(file);
    }
    input
}

/// The text at each line that starts with #: that line and all up to the next of them.
fn parts(text: &[u8]) -> Vec<(&[u8], &[u8])> {
    let line_end = |from: usize| text[from..].iter().position(|&byte| byte == b'\n').map_or(text.len(), |at| from + at + 1);
    let mut parts = Vec::new();
    let mut at = 0;
    while at < text.len() {
        let lines_at = line_end(at);
        let mut end = lines_at;
        while end < text.len() && text[end] != b'#' {
            end = line_end(end);
        }
        parts.push((text[at..lines_at].trim_ascii_end(), &text[lines_at..end]));
        at = end;
    }
    parts
}

#[cfg(test)]
mod tests {
    use super::*;

    #[test]
    fn text_is_taken_apart_at_names() {
        let text = b"# 0\nF 1\n# 1\n# 2\nT 0 0 0 0\nC 0 0 0 0\n";
        let expected: [(&[u8], &[u8]); 3] = [(b"# 0", b"F 1\n"), (b"# 1", b""), (b"# 2", b"T 0 0 0 0\nC 0 0 0 0\n")];
        assert_eq!(parts(text), expected);
        assert_eq!(parts(b""), []);
    }
}
