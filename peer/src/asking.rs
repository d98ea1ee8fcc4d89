//! Lines that ask about the text of an IBAN, and their answers, as the proved program cases reads and prints them.

use crate::codes::{iban_groups, is_iban};

/// Asks whether the text behind it is an IBAN.
pub const IS_IBAN: &[u8] = b"iban ";
/// Asks for the number of groups over which its check takes the remainder.
pub const GROUPS: &[u8] = b"grps ";

/// Adds the line with its answer behind it, or with a question mark where it asks neither.
pub fn print_answer(line: &[u8], text: &mut Vec<u8>) {
    let answer = if let Some(asked) = line.strip_prefix(IS_IBAN) {
        u8::from(is_iban(asked)).to_string()
    } else if let Some(asked) = line.strip_prefix(GROUPS) {
        iban_groups(asked).to_string()
    } else {
        "?".to_string()
    };
    text.extend_from_slice(&[line, b" ", answer.as_bytes(), b"\n"].concat());
}

#[cfg(test)]
mod tests {
    use super::*;

    #[test]
    fn lines_with_their_answers() {
        let rows: [(&[u8], &[u8]); 8] = [
            (b"iban LV31A", b"iban LV31A 1\n"),
            (b"iban LV30A", b"iban LV30A 0\n"),
            (b"grps LV31A", b"grps LV31A 2\n"),
            (b"grps LV30A", b"grps LV30A 2\n"),
            (b"grps LV30a\xff\0", b"grps LV30a\xff\0 0\n"),
            (b"iban ", b"iban  0\n"),
            (b"grps", b"grps ?\n"),
            (b"", b" ?\n"),
        ];
        for (line, due) in rows {
            let mut text = Vec::new();
            print_answer(line, &mut text);
            assert_eq!(text, due, "{}", line.escape_ascii());
        }
    }
}
