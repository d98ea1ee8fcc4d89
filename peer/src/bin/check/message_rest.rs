//! Faults of what is asked of the elements: refusals 24, 25, 7 and 8.

use crate::codes;
use crate::message_faults::*;
use crate::message_make::SPACES;
use crate::message_tree::{path, Attribute, Message, Part, Tree, AMOUNT, IBAN, PAYEE, ROWS, SENDER, TEXTS, TX_ID};
use crate::random::Random;

pub fn add_elements(faults: &mut Vec<Fault>) {
    for row in 1..ROWS.len() {
        sure(faults, 24, format!("{} missing", path(row)), move |_, message| {
            remove(message, row);
        });
        sure(faults, 24, format!("{} twice", path(row)), move |maker, message| twice(maker.random, message, row));
        sure(faults, 24, format!("{} of another name", path(row)), move |maker, message| {
            if let Some(tree) = message.row(row) {
                let name = other_name(maker.random, &tree.name);
                tree.rename(name);
                tree.row = None;
            }
        });
    }
    sure(faults, 24, "a: before the name of a named element", |maker, message| {
        let row = maker.random.index(ROWS.len());
        if let Some(tree) = message.row(row) {
            tree.rename([b"a:", &tree.name[..]].concat());
        }
    });
    sure(faults, 24, "another root", |maker, message| {
        let name =
            maker.random.pick(&["Document", "LBFastCdtTr", "LBFastCdtTrfx", "lBFastCdtTrf", "LBFastPmtRtr", "FIToFICstmrCdtTrf"]);
        message.root.rename(name.into());
    });
    sure(faults, 24, "the root in an element", |_, message| {
        let root = message.root.clone();
        message.root = Tree::new(b"LBFastCdtTrf", vec![Part::Tree(root)]);
    });
    sure(faults, 24, "an element between a named one and its parent", |maker, message| {
        let row = maker.random.between(1, 15) as usize;
        if let Some(parent) = message.row(ROWS[row].0) {
            if let Some(at) = parent.place_of(row) {
                let inner = parent.inner.remove(at);
                parent.inner.insert(at, Part::Tree(Tree::new(b"x", vec![inner])));
            }
        }
    });
    sure(faults, 24, "a named element in its parent's place", |maker, message| {
        let row = maker.random.between(2, 15) as usize;
        let parent = ROWS[row].0;
        let Some(inner) = remove(message, row) else {
            return;
        };
        if let Some(grandparent) = message.row(ROWS[parent].0) {
            if let Some(at) = grandparent.place_of(parent) {
                grandparent.inner[at] = inner;
            }
        }
    });
    for (first, second) in [(2, 6), (7, 9), (9, 10), (10, 13), (7, 10), (7, 13), (9, 13)] {
        sure(faults, 24, format!("{} and {} in each other's place", ROWS[first].1, ROWS[second].1), move |_, message| {
            if let Some(parent) = message.row(ROWS[first].0) {
                if let (Some(a), Some(b)) = (parent.place_of(first), parent.place_of(second)) {
                    parent.inner.swap(a, b);
                }
            }
        });
    }
    for row in [2, 6, 7, 9, 10, 13] {
        sure(faults, 24, format!("{} moved past a named one", path(row)), move |_, message| {
            let Some(parent) = message.row(ROWS[row].0) else {
                return;
            };
            if let Some(at) = parent.place_of(row) {
                let part = parent.inner.remove(at);
                if row == 6 || row == 13 {
                    parent.inner.insert(0, part);
                } else {
                    parent.inner.push(part);
                }
            }
        });
    }
    for row in TEXTS {
        sure(faults, 24, format!("element in {}", path(row)), move |maker, message| {
            let tree = if maker.random.one_in(3) { Tree::closed(ROWS[row].1.as_bytes()) } else { maker.skipped_tree(None, 1) };
            if let Some(text) = message.row(row) {
                split_text(maker.random, text);
                text.put(maker.random, Part::Tree(tree));
            }
        });
    }
    sure(faults, 24, "TxId missing, two empty CdtrAgt before the one", |_, message| {
        remove(message, TX_ID);
        if let Some(parent) = message.row(6) {
            let at = parent.place_of(10).unwrap_or(0);
            parent.inner.splice(at..at, [Part::Tree(Tree::closed(b"CdtrAgt")), Part::Tree(Tree::new(b"CdtrAgt", vec![]))]);
        }
    });
}

/// Names and values of attributes.
type Attributes = &'static [(&'static str, &'static str)];

pub fn add_amounts(faults: &mut Vec<Fault>) {
    let texts: &[(&str, &[&str])] = &[
        ("zero", &["0.00", "000000000.00", "00.00"]),
        ("no digit before the point", &[".50", ".00"]),
        ("10 digits", &["0000000001.00", "1000000000.00", "9999999999.99", "0000000000.01"]),
        ("11 digits or more", &["00000000000000000000001.00", "99999999999.99", "18446744073709551616.01", "4294967297.00"]),
        ("one digit behind the point", &["1.5", "999999999.9"]),
        ("no digit behind the point", &["1.", "0."]),
        ("three digits behind the point", &["1.500", "1.005", "0.001"]),
        ("no point", &["1", "100", "999999999", "123456789012"]),
        ("two points", &["1..00", "1.0.0", "1.00."]),
        ("a point alone", &["."]),
        ("another sign for the point", &["1,00", "1:00", "1 00", "1/00"]),
        ("a sign before it", &["+1.00", "-1.00"]),
        ("a letter", &["1e2.00", "l.00", "1.O0", "0x1.00", "1.0f"]),
        ("a neighbour of the digits", &["/.00", "1.:0", "1./0", ":1.00", "1.0:"]),
        ("white space before it", &[" 1.00", "\n1.00", "\t1.00"]),
        ("white space behind it", &["1.00 ", "1.00\n", "1.00\r\n"]),
        ("white space in it", &["1 000.00", "1. 00"]),
        ("a zero byte behind it", &["1.00\0", "0.00\0"]),
        ("a zero byte before it", &["\x001.00"]),
        ("no byte", &[""]),
        ("digits of another script", &["\u{661}.00", "\u{ff11}.00"]),
    ];
    for (name, texts) in texts {
        sure(faults, 25, format!("amount: {name}"), |maker, message| {
            let text = maker.random.pick(texts).into();
            set_text(message, AMOUNT, text);
        });
    }
    sure(faults, 25, "amount: one tag", |_, message| close(message, AMOUNT));
    let attributes: &[(&str, &[Attributes])] = &[
        ("no attribute", &[&[]]),
        (
            "another after Ccy",
            &[&[("Ccy", "EUR"), ("x", "")], &[("Ccy", "EUR"), ("xmlns", "y")], &[("Ccy", "EUR"), ("ccy", "EUR")]],
        ),
        ("another before Ccy", &[&[("x", ""), ("Ccy", "EUR")], &[("xmlns", "y"), ("Ccy", "EUR")]]),
        (
            "one of another name",
            &[&[("ccy", "EUR")], &[("a:Ccy", "EUR")], &[("Ccyx", "EUR")], &[("Cc", "EUR")], &[("xmlns", "EUR")]],
        ),
        ("another value", &[&[("Ccy", "USD")], &[("Ccy", "eur")], &[("Ccy", "EU")], &[("Ccy", "EURO")], &[("Ccy", "")]]),
        ("white space in the value", &[&[("Ccy", " EUR")], &[("Ccy", "EUR ")], &[("Ccy", "EUR\n")]]),
        ("a zero byte in the value", &[&[("Ccy", "EUR\0")], &[("Ccy", "\0EUR")]]),
        ("' around the value", &[&[("Ccy", "'EUR'")]]),
    ];
    for (name, lists) in attributes {
        sure(faults, 25, format!("amount's attributes: {name}"), |maker, message| {
            let list = maker.random.pick(lists);
            if let Some(amount) = message.row(AMOUNT) {
                amount.attributes = list.iter().map(|(name, value)| Attribute::new(name.as_bytes(), value.as_bytes())).collect();
            }
        });
    }
}

pub fn add_codes(faults: &mut Vec<Fault>) {
    for (whose, row) in [("sender", SENDER), ("payee", PAYEE)] {
        for (name, change) in [
            ("no byte", (|_, _| vec![]) as fn(&mut Random, [u8; 11]) -> Vec<u8>),
            ("7 bytes", |_, bic| bic[..7].into()),
            ("9 bytes", |_, bic| bic[..9].into()),
            ("10 bytes", |_, bic| bic[..10].into()),
            ("12 bytes", |_, bic| [&bic[..], b"X"].concat()),
            ("8 bytes and three zero bytes", |_, bic| [&bic[..8], &[0; 3]].concat()),
            ("8 bytes and one zero byte", |_, bic| [&bic[..8], &[0]].concat()),
            ("7 bytes and one zero byte", |_, bic| [&bic[..7], &[0]].concat()),
            ("11 bytes and one zero byte", |_, bic| [&bic[..], &[0]].concat()),
            ("white space behind it", |random, bic| [&bic[..random.pick(&[8, 11])], &[random.pick(SPACES)]].concat()),
            ("white space before it", |random, bic| [&[random.pick(SPACES)], &bic[..random.pick(&[8, 11])]].concat()),
            ("small letters", |random, bic| bic[..random.pick(&[8, 11])].to_ascii_lowercase()),
            ("0 or 1 as seventh", |random, mut bic| {
                bic[6] = random.pick(b"01");
                bic[..random.pick(&[8, 11])].into()
            }),
            ("O as eighth", |random, mut bic| {
                bic[7] = b'O';
                bic[..random.pick(&[8, 11])].into()
            }),
            ("digit among the first six", |random, mut bic| {
                bic[random.index(6)] = b'2';
                bic[..random.pick(&[8, 11])].into()
            }),
            ("another byte", |random, mut bic| {
                let length = random.pick(&[8, 11]);
                bic[random.index(length)] = random.pick(b"\0 @[`{/:!\x80\xff\"'>]");
                bic[..length].into()
            }),
        ] {
            sure(faults, 7, format!("{whose} BIC: {name}"), move |maker, message| {
                let bic = codes::bic(maker.random);
                let text = change(maker.random, bic);
                set_text(message, row, text);
            });
        }
        sure(faults, 7, format!("{whose} BIC: one tag"), move |_, message| close(message, row));
    }
    let texts: &[(&str, &[&str])] = &[
        ("no byte", &[""]),
        ("36 bytes", &["abcdefghijklmnopqrstuvwxyz0123456789"]),
        ("37 bytes", &["abcdefghijklmnopqrstuvwxyz0123456789a"]),
        ("62 bytes", &["abcdefghijklmnopqrstuvwxyz0123456789abcdefghijklmnopqrstuvwxyz"]),
        ("a zero byte behind it", &["1\0", "abc\0"]),
        ("zero bytes behind it", &["1\0\0\0", "a\0\0"]),
        ("34 bytes and a zero byte", &["abcdefghijklmnopqrstuvwxyz01234567\0"]),
        ("35 bytes and a zero byte", &["abcdefghijklmnopqrstuvwxyz012345678\0"]),
        ("a zero byte before it", &["\x001"]),
        ("a zero byte in it", &["1\x001"]),
        ("a zero byte alone", &["\0"]),
        ("a space before it", &[" 1"]),
        ("a space behind it", &["1 "]),
        ("a space in it", &["a b"]),
        ("a space alone", &[" "]),
        ("a line's end before it", &["\n1", "\r\n1"]),
        ("a line's end behind it", &["1\n", "1\r\n", "1\r"]),
        ("a tab", &["\t1", "1\t"]),
        ("a low line", &["a_b"]),
        ("double quotes", &["a\"b", "\"a\""]),
        ("> or ]]>", &["a>b", "a]]>b"]),
        ("a neighbour of the letters", &["a@b", "a[b", "a`b", "a{b"]),
        ("a neighbour of the digits", &["a;b"]),
        ("a neighbour of the signs", &["a*b", "a!b"]),
        ("another sign", &["a%b", "a=b", "a#b", "a$b", "a\u{7f}"]),
        ("a letter that isn't ASCII", &["\u{101}", "a\u{e9}"]),
    ];
    for (name, texts) in texts {
        sure(faults, 7, format!("TxId: {name}"), |maker, message| {
            let text = maker.random.pick(texts).into();
            set_text(message, TX_ID, text);
        });
    }
    sure(faults, 7, "TxId: one tag", |_, message| close(message, TX_ID));
    for (name, change) in [
        ("no byte", (|_, _| vec![]) as fn(&mut Random, Vec<u8>) -> Vec<u8>),
        ("a zero byte behind it", |_, iban| [&iban[..], &[0]].concat()),
        (
            "zero bytes up to 34",
            |_, iban| if iban.len() == 34 { vec![0; 34] } else { [&iban[..], &vec![0; 34 - iban.len()]].concat() },
        ),
        ("white space behind it", |random, iban| [&iban[..], &[random.pick(SPACES)]].concat()),
        ("white space before it", |random, iban| [&[random.pick(SPACES)], &iban[..]].concat()),
        ("white space in it", |_, iban| [&iban[..4], b" ", &iban[4..]].concat()),
        ("other check digits", |_, mut iban| {
            let check = (u32::from(iban[2] - b'0') * 10 + u32::from(iban[3] - b'0') + 1) % 100;
            iban[2..4].copy_from_slice(format!("{check:02}").as_bytes());
            iban
        }),
        ("small letters", |_, mut iban| {
            iban.make_ascii_lowercase();
            iban
        }),
        ("4 bytes", |_, iban| iban[..4].into()),
        ("35 bytes or more", |_, iban| iban.repeat(7)),
        ("another byte", |random, mut iban| {
            let at = random.index(iban.len());
            iban[at] = random.pick(b"\0 -/:@[`{!\x80\xff\"'>]");
            iban
        }),
    ] {
        sure(faults, 8, format!("IBAN: {name}"), move |maker, message| {
            let iban = peer::codes::unpadded(&codes::iban(maker.random)).to_vec();
            let text = change(maker.random, iban);
            set_text(message, IBAN, text);
        });
    }
    unsure(faults, 8, "IBAN: another fault", |maker, message| {
        let iban = codes::wrong_iban(maker.random);
        set_text(message, IBAN, peer::codes::unpadded(&iban).to_vec());
    });
    sure(faults, 8, "IBAN: one tag", |_, message| close(message, IBAN));
}

fn set_text(message: &mut Message, row: usize, text: Vec<u8>) {
    if let Some(tree) = message.row(row) {
        tree.give_end();
        tree.inner = vec![Part::Bytes(text)];
    }
}

/// One tag in place of two.
fn close(message: &mut Message, row: usize) {
    if let Some(tree) = message.row(row) {
        (tree.close, tree.inner, tree.end) = (b"/>".into(), vec![], vec![]);
    }
}

fn split_text(random: &mut Random, tree: &mut Tree) {
    if let Some(Part::Bytes(text)) = tree.inner.pop() {
        let at = random.index(text.len() + 1);
        tree.inner.push(Part::Bytes(text[..at].into()));
        tree.inner.push(Part::Bytes(text[at..].into()));
    }
}

fn remove(message: &mut Message, row: usize) -> Option<Part> {
    let parent = message.row(ROWS[row].0)?;
    let at = parent.place_of(row)?;
    Some(parent.inner.remove(at))
}

/// The element again, or an empty one of its name, at any place of its parent.
fn twice(random: &mut Random, message: &mut Message, row: usize) {
    let Some(tree) = message.row(row) else {
        return;
    };
    let mut copy = match random.below(4) {
        0 => Tree::closed(&tree.name),
        1 => Tree::new(&tree.name, vec![]),
        _ => tree.clone(),
    };
    forget_rows(&mut copy);
    if let Some(parent) = message.row(ROWS[row].0) {
        parent.put(random, Part::Tree(copy));
    }
}
