//! Random messages that are to be accepted, with all the freedom that the rules give.

use crate::codes;
use crate::message_tree::{is_named_in, Attribute, Message, Part, Tree, AMOUNT, IBAN, PAYEE, ROWS, SENDER, TX_ID};
use crate::random::Random;
use peer::codes::unpadded;
use std::collections::BTreeSet;

/// Deeper elements are put in by name.
const MOST_DEPTH: usize = 13;

pub const SPACES: &[u8] = b" \t\r\n";
pub const NAME_STARTS: &[u8] = b"abcdefghijklmnopqrstuvwxyzABCDEFGHIJKLMNOPQRSTUVWXYZ_";
pub const NAME_BYTES: &[u8] = b"abcdefghijklmnopqrstuvwxyzABCDEFGHIJKLMNOPQRSTUVWXYZ_0123456789-.:";
/// Bytes that mean something in markup, or something to careless readers. The two that text can't hold are not among them.
const SIGNS: &[u8] = b">\"'/=?!-[]#;%\0\xff\xfe\xef\xbb\xbf\x80\xc4\x81 \t\r\n";

pub struct Maker<'a> {
    pub random: &'a mut Random,
    /// White space in a hundred places where it may stand.
    spaces: u64,
    /// Attributes in a hundred elements.
    attributes: u64,
    /// Whether texts have bytes of all sorts.
    is_wild: bool,
}

impl<'a> Maker<'a> {
    pub fn new(random: &'a mut Random) -> Self {
        let (spaces, attributes, is_wild) = random.pick(&[(0, 0, false), (10, 5, false), (10, 20, true), (50, 30, true)]);
        Maker { random, spaces, attributes, is_wild }
    }

    /// A message that is to be accepted.
    pub fn right(&mut self) -> Message {
        let mut message = self.message();
        for _ in 0..self.random.pick(&[0, 0, 1, 2, 4, 10]) {
            self.add(&mut message);
        }
        message
    }

    fn percent(&mut self, share: u64) -> bool {
        self.random.percent(share)
    }

    /// White space or none.
    fn space(&mut self) -> Vec<u8> {
        if !self.percent(self.spaces) {
            return vec![];
        }
        (0..self.random.between(1, 3)).map(|_| self.random.pick(SPACES)).collect()
    }

    /// White space of a byte or more.
    fn some_space(&mut self) -> Vec<u8> {
        let space = self.space();
        if space.is_empty() {
            b" ".into()
        } else {
            space
        }
    }

    fn message(&mut self) -> Message {
        let declaration = self.declaration();
        let before = self.space();
        let root = self.root();
        Message { declaration, before, root, behind: self.space() }
    }

    fn declaration(&mut self) -> Vec<u8> {
        if self.percent(30) {
            return vec![];
        }
        let mut text = b"<?xml".to_vec();
        self.add_setting(&mut text, "version", "1.0");
        if self.percent(60) {
            let encoding = self.random.pick(&["UTF-8", "utf-8", "ISO-8859-1", "UTF-16", "a", "Z.9_-x", "US-ASCII", "x"]);
            self.add_setting(&mut text, "encoding", encoding);
        }
        if self.percent(30) {
            let standalone = self.random.pick(&["yes", "no"]);
            self.add_setting(&mut text, "standalone", standalone);
        }
        text.extend_from_slice(&self.space());
        text.extend_from_slice(b"?>");
        text
    }

    fn add_setting(&mut self, text: &mut Vec<u8>, name: &str, value: &str) {
        let (space, equals) = (self.some_space(), self.equals());
        text.extend_from_slice(&[&space[..], name.as_bytes(), &equals, b"\"", value.as_bytes(), b"\""].concat());
    }

    fn equals(&mut self) -> Vec<u8> {
        [self.space(), b"=".to_vec(), self.space()].concat()
    }

    /// The named elements and some of those that stand beside them in a message.
    fn root(&mut self) -> Tree {
        let full = self.random.pick(&[0, 30, 100]);
        let group = self.group(full);
        let transfer = self.transfer(full);
        let mut inner = vec![group, transfer];
        let signature = self.skipped(full, "Signature", &["SignedInfo", "SignatureValue", "KeyInfo"]);
        let outside = self.percent(50);
        if !outside {
            inner.extend(signature.clone());
        }
        let message = self.named(1, inner);
        let mut inner = vec![message];
        if outside {
            inner.extend(signature);
        }
        let Part::Tree(mut root) = self.named(0, inner) else { unreachable!("an element was made") };
        if self.percent(self.attributes) && root.attributes.is_empty() {
            root.attributes.push(Attribute::new(b"xmlns", b"urn:iso:std:iso:20022:tech:xsd:pacs.008.001.02"));
        }
        root
    }

    fn group(&mut self, full: u64) -> Part {
        let mut inner = Vec::new();
        for name in ["MsgId", "CreDtTm", "NbOfTxs", "TtlIntrBkSttlmAmt", "IntrBkSttlmDt"] {
            inner.extend(self.skipped(full, name, &[]));
        }
        inner.extend(self.skipped(full, "SttlmInf", &["SttlmMtd", "SttlmAcct", "ClrSys"]));
        inner.extend(self.skipped(full, "PmtTpInf", &["SvcLvl", "LclInstrm", "CtgyPurp"]));
        let bic = self.bic();
        let leaf = self.named_text(SENDER, bic);
        let identification = self.named(4, vec![leaf]);
        inner.push(self.named(3, vec![identification]));
        inner.extend(self.like(full, "InstdAgt", &["FinInstnId", "BIC"]));
        self.named(2, inner)
    }

    fn transfer(&mut self, full: u64) -> Part {
        let mut inner = Vec::new();
        let tx_id = unpadded(&codes::tx_id(self.random)).to_vec();
        let mut payment = self.skipped(full, "InstrId", &[]);
        payment.extend(self.skipped(full, "EndToEndId", &[]));
        payment.push(self.named_text(TX_ID, tx_id));
        inner.push(self.named(7, payment));
        let amount = self.amount();
        let Part::Tree(mut leaf) = self.named_text(AMOUNT, amount) else { unreachable!("an element was made") };
        let space = self.some_space();
        leaf.attributes = vec![Attribute { space, equals: self.equals(), ..Attribute::new(b"Ccy", b"EUR") }];
        inner.push(Part::Tree(leaf));
        for name in ["AcceptncDtTm", "ChrgBr"] {
            inner.extend(self.skipped(full, name, &[]));
        }
        inner.extend(self.skipped(full / 2, "UltmtDbtr", &["Nm", "Id"]));
        inner.extend(self.skipped(full, "Dbtr", &["Nm", "PstlAdr", "Id"]));
        inner.extend(self.like(full, "DbtrAcct", &["Id", "IBAN"]));
        inner.extend(self.like(full, "DbtrAgt", &["FinInstnId", "BIC"]));
        let bic = self.bic();
        let leaf = self.named_text(PAYEE, bic);
        let identification = self.named(11, vec![leaf]);
        inner.push(self.named(10, vec![identification]));
        inner.extend(self.skipped(full, "Cdtr", &["Nm", "PstlAdr", "Id"]));
        let iban = unpadded(&codes::iban(self.random)).to_vec();
        let leaf = self.named_text(IBAN, iban);
        let identification = self.named(14, vec![leaf]);
        inner.push(self.named(13, vec![identification]));
        inner.extend(self.skipped(full / 2, "UltmtCdtr", &["Nm", "Id"]));
        inner.extend(self.skipped(full / 2, "Purp", &["Cd"]));
        inner.extend(self.skipped(full / 2, "RmtInf", &["Ustrd"]));
        self.named(6, inner)
    }

    /// A BIC of 11 bytes, or of 8.
    fn bic(&mut self) -> Vec<u8> {
        let bic = codes::bic(self.random);
        if self.percent(50) {
            bic[..8].to_vec()
        } else {
            bic.to_vec()
        }
    }

    fn amount(&mut self) -> Vec<u8> {
        let amount = match self.random.below(6) {
            0 => self.random.pick(&["0.01", "0.10", "1.00", "999999999.99", "000000000.01", "100000000.00"]).to_string(),
            1 => format!("{:09}.{:02}", self.random.of_any_size(999_999_999), self.random.below(100)),
            _ => format!("{}.{:02}", self.random.of_any_size(999_999_999), self.random.below(100)),
        };
        amount.into_bytes()
    }

    /// A named element, and white space between those inside it if the message has such.
    fn named(&mut self, row: usize, inner: Vec<Part>) -> Part {
        let mut parts = Vec::new();
        for part in inner {
            let space = self.space();
            if !space.is_empty() {
                parts.push(Part::Bytes(space));
            }
            parts.push(part);
        }
        let tree = self.element(ROWS[row].1.as_bytes(), parts, row != AMOUNT);
        Part::Tree(Tree { row: Some(row), ..tree })
    }

    fn named_text(&mut self, row: usize, text: Vec<u8>) -> Part {
        let tree = self.element(ROWS[row].1.as_bytes(), vec![Part::Bytes(text)], row != AMOUNT);
        Part::Tree(Tree { row: Some(row), ..tree })
    }

    fn element(&mut self, name: &[u8], inner: Vec<Part>, has_attributes: bool) -> Tree {
        let mut tree = Tree { space: self.space(), ..Tree::new(name, inner) };
        tree.end = [&b"</"[..], name, &self.space(), b">"].concat();
        if has_attributes && self.percent(self.attributes) {
            let count = self.random.pick(&[1, 1, 2, 3, 5]);
            tree.attributes = self.different_attributes(count);
        }
        tree
    }

    /// Attributes of different names.
    pub fn different_attributes(&mut self, count: usize) -> Vec<Attribute> {
        let mut names = BTreeSet::new();
        let mut attributes = Vec::new();
        while attributes.len() < count {
            let name = self.attribute_name(names.len());
            if names.insert(name.clone()) {
                let (space, equals, value) = (self.some_space(), self.equals(), self.value());
                attributes.push(Attribute { space, equals, ..Attribute::new(&name, &value) });
            }
        }
        attributes
    }

    fn attribute_name(&mut self, number: usize) -> Vec<u8> {
        match self.random.below(8) {
            0 => b"xmlns".into(),
            1 => b"Ccy".into(),
            2 => [b"xmlns:", &self.name()[..]].concat(),
            3 => format!("a{number}").into(),
            _ => self.name(),
        }
    }

    pub fn name(&mut self) -> Vec<u8> {
        let length = match self.random.below(12) {
            0..=2 => 1,
            3 => self.random.between(100, 300),
            _ => self.random.between(2, 12),
        };
        let mut name: Vec<u8> = (0..length).map(|_| self.random.pick(NAME_BYTES)).collect();
        name[0] = self.random.pick(NAME_STARTS);
        name
    }

    fn value(&mut self) -> Vec<u8> {
        self.bytes(16).into_iter().map(|byte| if byte == b'"' { b'\'' } else { byte }).collect()
    }

    /// Any bytes but < and &.
    pub fn bytes(&mut self, up_to: u64) -> Vec<u8> {
        let length = self.random.below(up_to + 1);
        let mut bytes = Vec::new();
        while (bytes.len() as u64) < length {
            match self.random.below(16) {
                _ if !self.is_wild => bytes.push(self.random.pick(NAME_BYTES)),
                0 => bytes.extend_from_slice(b"]]>"),
                1 => bytes.extend_from_slice("ā€".as_bytes()),
                2..=5 => bytes.push(self.random.pick(SIGNS)),
                6..=8 => bytes.push(self.random.next() as u8),
                _ => bytes.push(self.random.pick(NAME_BYTES)),
            }
        }
        bytes.retain(|byte| !matches!(byte, b'<' | b'&'));
        bytes
    }

    /// An element that stands in real messages, with some of those that it may hold.
    fn skipped(&mut self, share: u64, name: &str, inside: &[&str]) -> Vec<Part> {
        if !self.percent(share) {
            return vec![];
        }
        let mut inner: Vec<Part> = inside.iter().flat_map(|name| self.skipped(80, name, &[])).collect();
        if inner.is_empty() {
            inner.push(Part::Bytes(self.bytes(20)));
        }
        vec![Part::Tree(self.element(name.as_bytes(), inner, true))]
    }

    /// An element that holds one with a name that is a named one elsewhere, and so on.
    fn like(&mut self, share: u64, name: &str, inside: &[&str]) -> Vec<Part> {
        if !self.percent(share) {
            return vec![];
        }
        let inner = match inside {
            [] => vec![Part::Bytes(self.bytes(20))],
            [next, rest @ ..] => self.like(100, next, rest),
        };
        vec![Part::Tree(self.element(name.as_bytes(), inner, true))]
    }

    /// Puts text or a skipped element somewhere.
    fn add(&mut self, message: &mut Message) {
        if self.percent(30) {
            let text = Part::Bytes(self.bytes(30));
            let parent = message.any_parent(self.random);
            return parent.put(self.random, text);
        }
        let before = message.clone();
        let parent = message.any_parent(self.random);
        let tree = self.skipped_tree(parent.row, 3);
        parent.put(self.random, Part::Tree(tree));
        if message.root.depth() > MOST_DEPTH {
            *message = before;
        }
    }

    /// An element that is skipped in the row's element, with others inside it.
    pub fn skipped_tree(&mut self, row: Option<usize>, levels: u64) -> Tree {
        let name = loop {
            let name = self.any_name();
            if !row.is_some_and(|row| is_named_in(row, &name)) {
                break name;
            }
        };
        let mut inner = Vec::new();
        for _ in 0..self.random.below(4) {
            if levels > 0 && self.percent(50) {
                inner.push(Part::Tree(self.skipped_tree(None, levels - 1)));
            } else {
                inner.push(Part::Bytes(self.bytes(12)));
            }
        }
        if inner.is_empty() && self.percent(60) {
            let attributes = self.element(&name, vec![], true).attributes;
            return Tree { attributes, space: self.space(), ..Tree::closed(&name) };
        }
        self.element(&name, inner, true)
    }

    fn any_name(&mut self) -> Vec<u8> {
        if self.percent(40) {
            self.random.pick(&ROWS).1.into()
        } else {
            self.name()
        }
    }
}
