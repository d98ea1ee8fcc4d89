//! A message as it is to be written, byte by byte: elements with their tags, white space and quotes, any of which may be wrong.

use crate::random::Random;

/// The named elements: the row of the parent, and the name. The root is its own parent.
pub const ROWS: [(usize, &str); 16] = [
    (0, "LBFastCdtTrf"),
    (0, "FIToFICstmrCdtTrf"),
    (1, "GrpHdr"),
    (2, "InstgAgt"),
    (3, "FinInstnId"),
    (4, "BIC"),
    (1, "CdtTrfTxInf"),
    (6, "PmtId"),
    (7, "TxId"),
    (6, "IntrBkSttlmAmt"),
    (6, "CdtrAgt"),
    (10, "FinInstnId"),
    (11, "BIC"),
    (6, "CdtrAcct"),
    (13, "Id"),
    (14, "IBAN"),
];

pub const SENDER: usize = 5;
pub const TX_ID: usize = 8;
pub const AMOUNT: usize = 9;
pub const PAYEE: usize = 12;
pub const IBAN: usize = 15;
/// The rows of the named texts.
pub const TEXTS: [usize; 5] = [SENDER, TX_ID, AMOUNT, PAYEE, IBAN];

/// The names from below FIToFICstmrCdtTrf to the row, for people.
pub fn path(row: usize) -> String {
    let (parent, name) = ROWS[row];
    if parent < 2 {
        name.to_string()
    } else {
        format!("{}/{name}", path(parent))
    }
}

/// Whether an element of that name in the row's element would be a named one.
pub fn is_named_in(row: usize, name: &[u8]) -> bool {
    (1..ROWS.len()).any(|child| ROWS[child].0 == row && ROWS[child].1.as_bytes() == name)
}

#[derive(Clone, Debug)]
pub struct Message {
    pub declaration: Vec<u8>,
    pub before: Vec<u8>,
    pub root: Tree,
    pub behind: Vec<u8>,
}

#[derive(Clone, Debug)]
pub struct Tree {
    /// The row of a named element.
    pub row: Option<usize>,
    /// The sign < of the start tag.
    pub open: Vec<u8>,
    pub name: Vec<u8>,
    pub attributes: Vec<Attribute>,
    pub space: Vec<u8>,
    /// The end of the start tag: > or />.
    pub close: Vec<u8>,
    pub inner: Vec<Part>,
    /// The end tag, if there is one.
    pub end: Vec<u8>,
}

#[derive(Clone, Debug)]
pub enum Part {
    Bytes(Vec<u8>),
    Tree(Tree),
}

#[derive(Clone, Debug)]
pub struct Attribute {
    pub space: Vec<u8>,
    pub name: Vec<u8>,
    /// The sign = and the white space around it.
    pub equals: Vec<u8>,
    /// The value in its quotes.
    pub value: Vec<u8>,
}

impl Attribute {
    pub fn new(name: &[u8], value: &[u8]) -> Self {
        let value = [b"\"", value, b"\""].concat();
        Attribute { space: b" ".into(), name: name.into(), equals: b"=".into(), value }
    }
}

impl Message {
    pub fn bytes(&self) -> Vec<u8> {
        let mut bytes = [&self.declaration[..], &self.before].concat();
        self.root.write(&mut bytes);
        bytes.extend_from_slice(&self.behind);
        bytes
    }

    /// The element of the row, unless a fault took it away.
    pub fn row(&mut self, row: usize) -> Option<&mut Tree> {
        self.root.find(&|tree| tree.row == Some(row))
    }

    /// Any element but the named texts, so that anything may be put into it.
    pub fn any_parent(&mut self, random: &mut Random) -> &mut Tree {
        let is_parent = |tree: &Tree| !tree.row.is_some_and(|row| TEXTS.contains(&row));
        let number = random.index(self.root.count(&is_parent).max(1));
        self.root.nth(number, &is_parent)
    }

    /// Any element.
    pub fn any(&mut self, random: &mut Random) -> &mut Tree {
        let number = random.index(self.root.count(&|_| true));
        self.root.nth(number, &|_| true)
    }
}

impl Tree {
    pub fn new(name: &[u8], inner: Vec<Part>) -> Self {
        let end = [b"</", name, b">"].concat();
        let (open, close) = (b"<".into(), b">".into());
        Tree { row: None, open, name: name.into(), attributes: vec![], space: vec![], close, inner, end }
    }

    /// One tag that is both.
    pub fn closed(name: &[u8]) -> Self {
        Tree { close: b"/>".into(), end: vec![], ..Tree::new(name, vec![]) }
    }

    pub fn write(&self, bytes: &mut Vec<u8>) {
        for part in [&self.open, &self.name] {
            bytes.extend_from_slice(part);
        }
        for Attribute { space, name, equals, value } in &self.attributes {
            for part in [space, name, equals, value] {
                bytes.extend_from_slice(part);
            }
        }
        for part in [&self.space, &self.close] {
            bytes.extend_from_slice(part);
        }
        for part in &self.inner {
            match part {
                Part::Bytes(text) => bytes.extend_from_slice(text),
                Part::Tree(tree) => tree.write(bytes),
            }
        }
        bytes.extend_from_slice(&self.end);
    }

    pub fn is_closed(&self) -> bool {
        self.end.is_empty()
    }

    /// Start tag and end tag in place of one tag.
    pub fn give_end(&mut self) {
        if self.is_closed() {
            self.close = b">".into();
            self.end = [b"</", &self.name[..], b">"].concat();
        }
    }

    pub fn rename(&mut self, name: Vec<u8>) {
        if !self.is_closed() {
            self.end = [b"</", &name[..], b">"].concat();
        }
        self.name = name;
    }

    /// Puts a part at any place among the inner ones. One tag becomes two.
    pub fn put(&mut self, random: &mut Random, part: Part) {
        self.give_end();
        let at = random.index(self.inner.len() + 1);
        self.inner.insert(at, part);
    }

    pub fn trees(&self) -> impl Iterator<Item = &Tree> {
        self.inner.iter().filter_map(|part| if let Part::Tree(tree) = part { Some(tree) } else { None })
    }

    fn trees_mut(&mut self) -> impl Iterator<Item = &mut Tree> {
        self.inner.iter_mut().filter_map(|part| if let Part::Tree(tree) = part { Some(tree) } else { None })
    }

    /// The elements such as are asked for, itself included.
    pub fn count(&self, is_such: &impl Fn(&Tree) -> bool) -> usize {
        usize::from(is_such(self)) + self.trees().map(|tree| tree.count(is_such)).sum::<usize>()
    }

    /// The element of that number among such, or itself where there are fewer.
    pub fn nth(&mut self, number: usize, is_such: &impl Fn(&Tree) -> bool) -> &mut Tree {
        let mut left = number;
        if is_such(self) {
            if left == 0 {
                return self;
            }
            left -= 1;
        }
        let mut at = None;
        for (place, tree) in self.trees().enumerate() {
            let count = tree.count(is_such);
            if left < count {
                at = Some(place);
                break;
            }
            left -= count;
        }
        let Some(at) = at else {
            return self;
        };
        self.trees_mut().nth(at).expect("the place was counted").nth(left, is_such)
    }

    pub fn find(&mut self, is_such: &impl Fn(&Tree) -> bool) -> Option<&mut Tree> {
        (self.count(is_such) != 0).then(|| self.nth(0, is_such))
    }

    /// The place of the named row among the inner parts.
    pub fn place_of(&self, row: usize) -> Option<usize> {
        self.inner.iter().position(|part| matches!(part, Part::Tree(tree) if tree.row == Some(row)))
    }

    /// The depth of the deepest element inside, itself included.
    pub fn depth(&self) -> usize {
        1 + self.trees().map(Tree::depth).max().unwrap_or(0)
    }

    /// How deep the row's element lies, this one being at depth 1.
    pub fn depth_of(&self, is_such: &impl Fn(&Tree) -> bool) -> Option<usize> {
        if is_such(self) {
            return Some(1);
        }
        self.trees().find_map(|tree| tree.depth_of(is_such)).map(|depth| depth + 1)
    }
}
