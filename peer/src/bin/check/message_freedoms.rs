//! The freedoms that the rules give to messages, by name, and which of them a message makes use of.

use crate::message_make::SPACES;
use crate::message_tree::{Attribute, Message, Part, Tree, AMOUNT, IBAN, PAYEE, ROWS, SENDER, TEXTS, TX_ID};
use std::collections::BTreeSet;

/// Every freedom by its name.
pub const FREEDOMS: &[&str] = &[
    "no declaration",
    "declaration of the version alone",
    "declaration with encoding",
    "declaration with standalone",
    "declaration with encoding and standalone",
    "white space at the end of the declaration",
    "white space before the root",
    "white space behind the root",
    "white space around =",
    "more than one byte of white space before an attribute",
    "white space at the end of a start tag",
    "white space before />",
    "white space in an end tag",
    "tab, CR or LF in a tag",
    "attribute of a skipped element",
    "attribute of a named element",
    "attribute of a named text",
    "attribute of the root",
    "attribute xmlns",
    "attribute name with a colon",
    "empty value",
    "' in a value",
    "> in a value",
    "]]> in a value",
    "byte 00 in a value",
    "byte FF in a value",
    "CR or LF in a value",
    "text beside elements",
    "' in text",
    "\" in text",
    "> in text",
    "]]> in text",
    "byte 00 in text",
    "byte FF in text",
    "bytes of UTF-8 in text",
    "skipped element of one tag",
    "skipped element of one byte's name",
    "skipped element with a name of 100 bytes or more",
    "skipped element with a colon in its name",
    "skipped element before GrpHdr",
    "skipped element behind CdtTrfTxInf",
    "skipped element in the root",
    "named text's name in another place",
    "named element's name in another place",
    "sender BIC of 8 bytes",
    "sender BIC of 11 bytes",
    "payee BIC of 8 bytes",
    "payee BIC of 11 bytes",
    "TxId of 1 byte",
    "TxId of 35 bytes",
    "TxId with '",
    "IBAN of 5 bytes",
    "IBAN of 34 bytes",
    "amount 0.01",
    "amount 999999999.99",
    "amount with zeros before it",
    "amount of 1 digit before the point",
    "amount of 9 digits before the point",
];

/// The freedoms that a message makes use of.
pub fn freedoms(message: &Message) -> BTreeSet<&'static str> {
    let mut used = Used { names: BTreeSet::new() };
    used.message(message);
    used.names
}

struct Used {
    names: BTreeSet<&'static str>,
}

impl Used {
    fn did(&mut self, is_so: bool, name: &'static str) {
        if is_so {
            self.names.insert(name);
        }
    }

    fn message(&mut self, message: &Message) {
        let has = |word: &str| message.declaration.windows(word.len()).any(|part| part == word.as_bytes());
        let (encoding, standalone, is_declared) = (has("encoding"), has("standalone"), !message.declaration.is_empty());
        self.did(!is_declared, "no declaration");
        self.did(is_declared && !encoding && !standalone, "declaration of the version alone");
        self.did(encoding && !standalone, "declaration with encoding");
        self.did(!encoding && standalone, "declaration with standalone");
        self.did(encoding && standalone, "declaration with encoding and standalone");
        self.did(SPACES.iter().any(|byte| has(&format!("{}?>", *byte as char))), "white space at the end of the declaration");
        self.did(!message.before.is_empty(), "white space before the root");
        self.did(!message.behind.is_empty(), "white space behind the root");
        self.tree(&message.root);
    }

    fn tree(&mut self, tree: &Tree) {
        self.tag(tree);
        match tree.row {
            Some(row) => self.row(tree, row),
            None => self.skipped(tree),
        }
        let holds_elements = tree.trees().next().is_some();
        for part in &tree.inner {
            match part {
                Part::Bytes(text) => {
                    self.did(holds_elements && !text.trim_ascii().is_empty(), "text beside elements");
                    self.text(text);
                }
                Part::Tree(inner) => self.tree(inner),
            }
        }
    }

    fn tag(&mut self, tree: &Tree) {
        let is_odd = |space: &[u8]| space.iter().any(|byte| *byte != b' ');
        self.did(
            !tree.space.is_empty(),
            if tree.is_closed() { "white space before />" } else { "white space at the end of a start tag" },
        );
        self.did(is_odd(&tree.space), "tab, CR or LF in a tag");
        self.did(tree.end.contains(&b' '), "white space in an end tag");
        for Attribute { space, name, equals, value } in &tree.attributes {
            let value = &value[1..value.len() - 1];
            self.did(equals.len() > 1, "white space around =");
            self.did(space.len() > 1, "more than one byte of white space before an attribute");
            self.did(is_odd(space), "tab, CR or LF in a tag");
            self.did(name == b"xmlns", "attribute xmlns");
            self.did(name.contains(&b':'), "attribute name with a colon");
            self.did(value.is_empty(), "empty value");
            for (byte, words) in [
                (b'\'', "' in a value"),
                (b'>', "> in a value"),
                (0, "byte 00 in a value"),
                (255, "byte FF in a value"),
                (b'\r', "CR or LF in a value"),
                (b'\n', "CR or LF in a value"),
            ] {
                self.did(value.contains(&byte), words);
            }
            self.did(value.windows(3).any(|part| part == b"]]>"), "]]> in a value");
        }
    }

    fn text(&mut self, text: &[u8]) {
        for (byte, words) in
            [(b'\'', "' in text"), (b'"', "\" in text"), (b'>', "> in text"), (0, "byte 00 in text"), (255, "byte FF in text")]
        {
            self.did(text.contains(&byte), words);
        }
        self.did(text.windows(3).any(|part| part == b"]]>"), "]]> in text");
        self.did(text.windows(2).any(|part| part == "ā".as_bytes()), "bytes of UTF-8 in text");
    }

    fn row(&mut self, tree: &Tree, row: usize) {
        let has_attributes = !tree.attributes.is_empty() && row != AMOUNT;
        self.did(has_attributes, "attribute of a named element");
        self.did(has_attributes && TEXTS.contains(&row), "attribute of a named text");
        self.did(has_attributes && row == 0, "attribute of the root");
        let is_skipped = |part: &Part| matches!(part, Part::Tree(tree) if tree.row.is_none());
        if row == 1 {
            let (first, last) = (tree.place_of(2).unwrap_or(0), tree.place_of(6).unwrap_or(0));
            self.did(tree.inner[..first].iter().any(is_skipped), "skipped element before GrpHdr");
            self.did(tree.inner[last..].iter().any(is_skipped), "skipped element behind CdtTrfTxInf");
        }
        self.did(row == 0 && tree.inner.iter().any(is_skipped), "skipped element in the root");
        let [Part::Bytes(text)] = &tree.inner[..] else {
            return;
        };
        match (row, text.len()) {
            (SENDER, 8) => self.did(true, "sender BIC of 8 bytes"),
            (SENDER, _) => self.did(true, "sender BIC of 11 bytes"),
            (PAYEE, 8) => self.did(true, "payee BIC of 8 bytes"),
            (PAYEE, _) => self.did(true, "payee BIC of 11 bytes"),
            (TX_ID, length) => {
                self.did(length == 1, "TxId of 1 byte");
                self.did(length == 35, "TxId of 35 bytes");
                self.did(text.contains(&b'\''), "TxId with '");
            }
            (IBAN, length) => {
                self.did(length == 5, "IBAN of 5 bytes");
                self.did(length == 34, "IBAN of 34 bytes");
            }
            (AMOUNT, length) => {
                self.did(text == b"0.01", "amount 0.01");
                self.did(text == b"999999999.99", "amount 999999999.99");
                self.did(length > 4 && text[0] == b'0', "amount with zeros before it");
                self.did(length == 4, "amount of 1 digit before the point");
                self.did(length == 12, "amount of 9 digits before the point");
            }
            _ => (),
        }
    }

    fn skipped(&mut self, tree: &Tree) {
        self.did(tree.is_closed(), "skipped element of one tag");
        self.did(tree.name.len() == 1, "skipped element of one byte's name");
        self.did(tree.name.len() >= 100, "skipped element with a name of 100 bytes or more");
        self.did(tree.name.contains(&b':'), "skipped element with a colon in its name");
        self.did(!tree.attributes.is_empty(), "attribute of a skipped element");
        let row = ROWS.iter().position(|(_, name)| name.as_bytes() == tree.name);
        let is_text = |row: usize| TEXTS.iter().any(|text| ROWS[*text].1 == ROWS[row].1);
        self.did(row.is_some_and(is_text), "named text's name in another place");
        self.did(row.is_some_and(|row| !is_text(row)), "named element's name in another place");
    }
}
