//! Messages with a fault or at an edge: each way has a name and the refusal that it is to meet.

use crate::message_make::{Maker, SPACES};
use crate::message_tree::{Attribute, Message, Part, Tree};
use crate::random::Random;
use crate::{message_damage, message_form, message_rest};
use std::sync::LazyLock;

/// The proved program takes no longer text.
pub const MOST_BYTES: usize = 65_521;
/// The greatest depth, and the greatest length, that is allowed.
pub const DEPTH: usize = 16;
pub const LENGTH: usize = 65_520;

pub struct Fault {
    pub name: String,
    /// The refusal that it is to meet, 0 if none.
    pub refusal: u8,
    /// Whether it always does.
    pub is_sure: bool,
    pub way: Way,
}

/// Changes a message before it is written.
type Change = dyn Fn(&mut Maker, &mut Message) + Send + Sync;

pub enum Way {
    Tree(Box<Change>),
    Bytes(fn(&mut Random, &mut Vec<u8>)),
}

pub static FAULTS: LazyLock<Vec<Fault>> = LazyLock::new(|| {
    let mut faults = Vec::new();
    add_edges(&mut faults);
    message_form::add_lengths_and_depths(&mut faults);
    message_form::add_around_the_root(&mut faults);
    message_damage::add_declarations(&mut faults);
    message_form::add_names(&mut faults);
    message_form::add_start_tags(&mut faults);
    message_form::add_end_tags(&mut faults);
    message_form::add_other_forms(&mut faults);
    message_damage::add_damage(&mut faults);
    message_rest::add_elements(&mut faults);
    message_rest::add_amounts(&mut faults);
    message_rest::add_codes(&mut faults);
    faults
});

pub fn sure(
    faults: &mut Vec<Fault>,
    refusal: u8,
    name: impl Into<String>,
    way: impl Fn(&mut Maker, &mut Message) + Send + Sync + 'static,
) {
    faults.push(Fault { name: name.into(), refusal, is_sure: true, way: Way::Tree(Box::new(way)) });
}

pub fn unsure(faults: &mut Vec<Fault>, refusal: u8, name: &str, way: impl Fn(&mut Maker, &mut Message) + Send + Sync + 'static) {
    faults.push(Fault { name: name.into(), refusal, is_sure: false, way: Way::Tree(Box::new(way)) });
}

pub fn bytes(faults: &mut Vec<Fault>, refusal: u8, is_sure: bool, name: &str, way: fn(&mut Random, &mut Vec<u8>)) {
    faults.push(Fault { name: name.into(), refusal, is_sure, way: Way::Bytes(way) });
}

/// What is allowed, to the last.
fn add_edges(faults: &mut Vec<Fault>) {
    sure(faults, 0, "65,520 bytes", |maker, message| pad(maker, message, LENGTH));
    sure(faults, 0, "depth 16 by one tag", |maker, message| nest(maker, message, DEPTH, true));
    sure(faults, 0, "depth 16 by two tags", |maker, message| nest(maker, message, DEPTH, false));
    sure(faults, 0, "16 attributes, all different", |maker, message| many_attributes(maker, message, 16, false));
    sure(faults, 0, "17 attributes, all different", |maker, message| many_attributes(maker, message, 17, false));
    sure(faults, 0, "many attributes, all different", |maker, message| {
        let count = maker.random.between(18, 800);
        many_attributes(maker, message, count as usize, false);
    });
    sure(faults, 0, "every name of a message in a skipped element", |maker, message| {
        let mut copy = message.root.clone();
        forget_rows(&mut copy);
        // In GrpHdr, at depth 3, it begins at depth 5.
        if copy.depth() <= DEPTH - 4 {
            let row = maker.random.pick(&[0, 1, 2, 6]);
            put_into(maker, message, row, Tree::new(b"Dbtr", vec![Part::Tree(copy)]));
        }
    });
    for (row, name) in [(6, "DbtrAgt"), (2, "InstdAgt")] {
        sure(faults, 0, format!("{name}/FinInstnId/BIC beside the real one"), move |maker, message| {
            let inner = chain(&["FinInstnId", "BIC"], "AAAALV22");
            put_into(maker, message, row, Tree::new(name.as_bytes(), vec![Part::Tree(inner)]));
        });
    }
    sure(faults, 0, "DbtrAcct/Id/IBAN beside the real one", |maker, message| {
        put_into(maker, message, 6, chain(&["DbtrAcct", "Id", "IBAN"], "x"));
    });
    sure(faults, 0, "PmtId/TxId in Dbtr, beside the real one", |maker, message| {
        put_into(maker, message, 6, chain(&["Dbtr", "PmtId", "TxId"], "2"));
    });
}

/// Fills a message up to a length, somewhere.
pub fn pad(maker: &mut Maker, message: &mut Message, length: usize) {
    let now = message.bytes().len();
    if now + 16 > length {
        return;
    }
    let fill = maker.random.pick(b"x \n>\0");
    match maker.random.below(4) {
        0 => message.behind.extend(vec![maker.random.pick(SPACES); length - now]),
        1 => {
            let root = &mut message.root;
            root.attributes.retain(|attribute| attribute.name != b"pad");
            root.attributes.push(Attribute::new(b"pad", &[]));
            let left = length.saturating_sub(message.bytes().len());
            let root = &mut message.root;
            if let Some(attribute) = root.attributes.last_mut() {
                attribute.value = [&b"\""[..], &vec![fill; left], b"\""].concat();
            }
        }
        2 => message.root.space.extend(vec![maker.random.pick(SPACES); length - now]),
        _ => {
            if !message.root.is_closed() {
                message.root.inner.push(Part::Bytes(vec![fill; length - now]));
            }
        }
    }
}

/// Puts elements in each other up to a depth, somewhere.
pub fn nest(maker: &mut Maker, message: &mut Message, depth: usize, is_closed: bool) {
    let row = maker.random.pick(&[0, 1, 2, 3, 4, 6, 7, 10, 11, 13, 14]);
    let Some(at) = message.root.depth_of(&|tree| tree.row == Some(row)) else {
        return nest_in_root(maker, message, depth, is_closed);
    };
    let tree = nested(maker, depth - at, is_closed);
    if let Some(parent) = message.row(row) {
        parent.put(maker.random, Part::Tree(tree));
    }
}

fn nest_in_root(maker: &mut Maker, message: &mut Message, depth: usize, is_closed: bool) {
    let tree = nested(maker, depth - 1, is_closed);
    message.root.put(maker.random, Part::Tree(tree));
}

/// Elements in each other, as many as are asked for, of names that are named nowhere.
fn nested(maker: &mut Maker, count: usize, is_closed: bool) -> Tree {
    let name = [b"n", &maker.name()[..1]].concat();
    if count > 1 {
        Tree::new(&name, vec![Part::Tree(nested(maker, count - 1, is_closed))])
    } else if is_closed {
        Tree::closed(&name)
    } else {
        Tree::new(&name, vec![])
    }
}

/// A skipped tag with as many attributes, all different or with one of them again as the last.
pub fn many_attributes(maker: &mut Maker, message: &mut Message, count: usize, is_repeated: bool) {
    let different = if is_repeated { count - 1 } else { count };
    let mut attributes = if different < 18 && maker.random.one_in(2) {
        maker.different_attributes(different)
    } else {
        similar_attributes(maker.random, different)
    };
    if is_repeated {
        let again = attributes[maker.random.index(different)].clone();
        attributes.push(Attribute { value: b"\"again\"".into(), ..again });
    }
    let tree = Tree { attributes, ..if maker.random.one_in(2) { Tree::closed(b"x") } else { Tree::new(b"x", vec![]) } };
    let row = maker.random.pick(&[0, 1, 2, 6, 7]);
    put_into(maker, message, row, tree);
}

/// Attributes whose names have much in common: the start, the end, the length or all their bytes in another order.
fn similar_attributes(random: &mut Random, count: usize) -> Vec<Attribute> {
    let form = random.below(5);
    let name = |number: usize| match form {
        0 => format!("a{number}"),
        1 => format!("aaaaaaaaaaaaaaaa{number:05}"),
        2 => format!("a{number:05}aaaaaaaaaaaa"),
        3 => format!("a{}b{}", "0".repeat(number % 30), "0".repeat(number / 30)),
        // The bits of the number, each as one of two words of the same letters.
        _ => (0..11).map(|bit| if number >> bit & 1 == 1 { "ab" } else { "ba" }).collect(),
    };
    let mut attributes: Vec<Attribute> = (0..count).map(|number| Attribute::new(name(number).as_bytes(), b"")).collect();
    for at in (1..count).rev() {
        attributes.swap(at, random.index(at + 1));
    }
    attributes
}

/// The element of the row, or the root where there is none, with that put into it.
pub fn put_into(maker: &mut Maker, message: &mut Message, row: usize, tree: Tree) {
    let row = if message.row(row).is_some() { row } else { 0 };
    let parent = if row == 0 { &mut message.root } else { message.row(row).expect("it was looked for") };
    parent.put(maker.random, Part::Tree(tree));
}

pub fn put_bytes(maker: &mut Maker, message: &mut Message, bytes: &[u8]) {
    let parent = message.any_parent(maker.random);
    for part in &mut parent.inner {
        if let Part::Bytes(text) = part {
            if maker.random.one_in(2) {
                let at = maker.random.index(text.len() + 1);
                text.splice(at..at, bytes.iter().copied());
                return;
            }
        }
    }
    parent.put(maker.random, Part::Bytes(bytes.into()));
}

/// A new attribute of some tag, of a name that the tag doesn't have yet.
pub fn new_attribute<'a>(maker: &mut Maker, message: &'a mut Message) -> &'a mut Attribute {
    let tree = message.any(maker.random);
    let number = tree.attributes.len();
    tree.attributes.push(Attribute::new(format!("new-one{number}").as_bytes(), b"1"));
    tree.attributes.last_mut().expect("one was added")
}

pub fn chain(names: &[&str], text: &str) -> Tree {
    let (first, rest) = names.split_first().expect("there is a name");
    let inner = if rest.is_empty() { Part::Bytes(text.into()) } else { Part::Tree(chain(rest, text)) };
    Tree::new(first.as_bytes(), vec![inner])
}

pub fn forget_rows(tree: &mut Tree) {
    tree.row = None;
    for part in &mut tree.inner {
        if let Part::Tree(inner) = part {
            forget_rows(inner);
        }
    }
}

/// A name that is no named one.
pub fn other_name(random: &mut Random, name: &[u8]) -> Vec<u8> {
    match random.below(5) {
        0 => [name, b"x"].concat(),
        1 => [b"a:", name].concat(),
        2 => [b"_", name].concat(),
        3 if name.len() > 1 => name[..name.len() - 1].into(),
        _ => {
            let other: Vec<u8> = name.iter().map(|byte| if byte.is_ascii_alphabetic() { byte ^ 32 } else { *byte }).collect();
            if other == name {
                b"other".into()
            } else {
                other
            }
        }
    }
}

pub fn some_text(random: &mut Random) -> &'static [u8] {
    random.pick(&[&b"x"[..], b"\0", b"\xff", b">", b"1.00", b"\x0b", b"\"", b"\xc2\xa0", b"?>", b"]]>"])
}
