//! The markup of a message: a text of bytes read into its elements. What is wrong with a text that is none is refusal 23.

use crate::flaw::Flaw;
use crate::refusal::Refusal;
use std::collections::HashSet;

pub const MOST_BYTES: usize = 65_520;
/// The root is at depth 1.
pub const MOST_DEPTH: usize = 16;

#[derive(Clone, PartialEq, Eq, Debug)]
pub struct Element {
    pub name: Vec<u8>,
    pub attributes: Vec<Attribute>,
    /// What stands between the start tag and the end tag; nothing where one tag is both.
    pub inner: Vec<Inner>,
}

#[derive(Clone, PartialEq, Eq, Debug)]
pub struct Attribute {
    pub name: Vec<u8>,
    pub value: Vec<u8>,
}

#[derive(Clone, PartialEq, Eq, Debug)]
pub enum Inner {
    Text(Vec<u8>),
    Element(Element),
}

impl Element {
    /// The elements directly inside.
    pub fn elements(&self) -> impl Iterator<Item = &Element> {
        self.inner.iter().filter_map(|inner| if let Inner::Element(element) = inner { Some(element) } else { None })
    }

    /// The text directly inside.
    pub fn text(&self) -> Vec<u8> {
        let texts = self.inner.iter().filter_map(|inner| if let Inner::Text(text) = inner { Some(&text[..]) } else { None });
        texts.collect::<Vec<_>>().concat()
    }
}

/// The root of a whole text: a declaration or none, white space, the root, white space.
pub fn root(text: &[u8]) -> Result<Element, Flaw> {
    if text.len() > MOST_BYTES {
        return Err(wrong("text above 65,520 bytes"));
    }
    let mut reader = Reader { rest: text };
    if reader.is_at(b"<?xml") {
        reader.declaration()?;
    }
    reader.space();
    match reader.rest {
        [] => return Err(wrong("no root")),
        [0xef, 0xbb, 0xbf, ..] => return Err(wrong("byte order mark")),
        [b'<', ..] => (),
        _ => return Err(wrong("text before the root")),
    }
    let root = reader.element(1)?;
    reader.space();
    match reader.rest {
        [] => Ok(root),
        [b'<', b'/', ..] => Err(wrong("end tag behind the root")),
        [b'<', b'?' | b'!', ..] => Err(wrong("no element nor white space behind the root")),
        [b'<', ..] => Err(wrong("element behind the root")),
        _ => Err(wrong("text behind the root")),
    }
}

fn wrong(why: &'static str) -> Flaw {
    Flaw::new(Refusal::Markup, why)
}

fn is_space(byte: u8) -> bool {
    matches!(byte, b' ' | b'\t' | b'\r' | b'\n')
}

fn is_name_start(byte: u8) -> bool {
    byte.is_ascii_alphabetic() || byte == b'_'
}

fn is_in_name(byte: u8) -> bool {
    byte.is_ascii_alphanumeric() || matches!(byte, b'_' | b'-' | b'.' | b':')
}

/// XML's EncName.
fn is_encoding_name(name: &[u8]) -> bool {
    let is_behind = |byte: &u8| byte.is_ascii_alphanumeric() || matches!(byte, b'.' | b'_' | b'-');
    matches!(name, [first, behind @ ..] if first.is_ascii_alphabetic() && behind.iter().all(is_behind))
}

/// What is still to be read.
struct Reader<'a> {
    rest: &'a [u8],
}

impl<'a> Reader<'a> {
    fn is_at(&self, word: &[u8]) -> bool {
        self.rest.starts_with(word)
    }

    /// Reads past the word if it is next.
    fn take(&mut self, word: &[u8]) -> bool {
        let is_next = self.is_at(word);
        if is_next {
            self.rest = &self.rest[word.len()..];
        }
        is_next
    }

    /// Reads on as long as the bytes are such.
    fn take_while(&mut self, is_such: impl Fn(u8) -> bool) -> &'a [u8] {
        let length = self.rest.iter().take_while(|byte| is_such(**byte)).count();
        let (taken, rest) = self.rest.split_at(length);
        self.rest = rest;
        taken
    }

    /// Reads past white space and tells whether there was any.
    fn space(&mut self) -> bool {
        !self.take_while(is_space).is_empty()
    }

    fn name(&mut self) -> Option<&'a [u8]> {
        self.rest.first().filter(|byte| is_name_start(**byte))?;
        Some(self.take_while(is_in_name))
    }

    /// The sign = with white space around it or none, then a value in double quotes.
    fn equals_value(&mut self) -> Result<&'a [u8], Flaw> {
        self.space();
        if !self.take(b"=") {
            return Err(wrong("no = behind an attribute's name"));
        }
        self.space();
        if self.is_at(b"'") {
            return Err(wrong("value in single quotes"));
        }
        if !self.take(b"\"") {
            return Err(wrong("value without quotes"));
        }
        let value = self.take_while(|byte| !matches!(byte, b'<' | b'&' | b'"'));
        if self.take(b"\"") {
            return Ok(value);
        }
        Err(wrong(match self.rest {
            [] => "text ends in a value",
            [b'<', ..] => "< in a value",
            _ => "& in a value",
        }))
    }

    /// The declaration, at whose start the reader is.
    fn declaration(&mut self) -> Result<(), Flaw> {
        self.take(b"<?xml");
        if !self.space() {
            return Err(wrong("declaration: no white space behind <?xml"));
        }
        if !self.take(b"version") {
            return Err(wrong("declaration: no version"));
        }
        if self.equals_value()? != b"1.0" {
            return Err(wrong("declaration: version other than 1.0"));
        }
        let mut is_spaced = self.space();
        if self.take(b"encoding") {
            if !is_spaced {
                return Err(wrong("declaration: no white space before encoding"));
            }
            if !is_encoding_name(self.equals_value()?) {
                return Err(wrong("declaration: encoding is no name of one"));
            }
            is_spaced = self.space();
        }
        if self.take(b"standalone") {
            if !is_spaced {
                return Err(wrong("declaration: no white space before standalone"));
            }
            if !matches!(self.equals_value()?, b"yes" | b"no") {
                return Err(wrong("declaration: standalone other than yes and no"));
            }
            self.space();
        }
        if !self.take(b"?>") {
            return Err(wrong("declaration: not ended by ?>"));
        }
        Ok(())
    }

    /// The element whose tag is next, at that depth.
    fn element(&mut self, depth: usize) -> Result<Element, Flaw> {
        let opening = self.rest;
        self.take(b"<");
        let Some(name) = self.name() else {
            return Err(wrong(no_start_tag(opening)));
        };
        if depth > MOST_DEPTH {
            return Err(wrong("element at depth 17"));
        }
        let attributes = self.attributes()?;
        if self.take(b"/>") {
            return Ok(Element { name: name.to_vec(), attributes, inner: vec![] });
        }
        if !self.take(b">") {
            return Err(wrong("/ in a tag without > behind it"));
        }
        let inner = self.inner(depth)?;
        self.end_tag(name)?;
        Ok(Element { name: name.to_vec(), attributes, inner })
    }

    /// The attributes and the white space up to the end of a start tag, which is > or begins with /.
    fn attributes(&mut self) -> Result<Vec<Attribute>, Flaw> {
        let mut attributes = Vec::new();
        let mut names = HashSet::new();
        loop {
            let is_spaced = self.space();
            if self.is_at(b">") || self.is_at(b"/") {
                return Ok(attributes);
            }
            if self.rest.is_empty() {
                return Err(wrong("text ends in a start tag"));
            }
            let Some(name) = self.name() else {
                return Err(wrong("start tag: neither attribute nor end"));
            };
            if !is_spaced {
                return Err(wrong("no white space before an attribute"));
            }
            let value = self.equals_value()?;
            if !names.insert(name) {
                return Err(wrong("attribute repeated"));
            }
            attributes.push(Attribute { name: name.to_vec(), value: value.to_vec() });
        }
    }

    /// Text and elements up to the end tag.
    fn inner(&mut self, depth: usize) -> Result<Vec<Inner>, Flaw> {
        let mut inner = Vec::new();
        loop {
            let text = self.take_while(|byte| !matches!(byte, b'<' | b'&'));
            if !text.is_empty() {
                inner.push(Inner::Text(text.to_vec()));
            }
            match self.rest {
                [] => return Err(wrong("text ends in an element")),
                [b'&', ..] => return Err(wrong("& in text")),
                [b'<', b'/', ..] => return Ok(inner),
                _ => inner.push(Inner::Element(self.element(depth + 1)?)),
            }
        }
    }

    /// The end tag of the element of that name; the reader is at its two first bytes.
    fn end_tag(&mut self, start: &[u8]) -> Result<(), Flaw> {
        self.take(b"</");
        let Some(name) = self.name() else {
            return Err(wrong("end tag without a name"));
        };
        if name != start {
            return Err(wrong("end tag of another name"));
        }
        self.space();
        if !self.take(b">") {
            return Err(wrong("end tag: no > behind its name"));
        }
        Ok(())
    }
}

/// Why no start tag begins here.
fn no_start_tag(rest: &[u8]) -> &'static str {
    match rest {
        [b'<', b'!', b'-', b'-', ..] => "comment",
        [b'<', b'!', b'[', ..] => "CDATA",
        [b'<', b'!', ..] => "DOCTYPE",
        [b'<', b'?', ..] => "processing instruction",
        [b'<', b'/', ..] => "end tag before the root",
        [b'<'] => "text ends behind <",
        _ => "name that begins otherwise",
    }
}
