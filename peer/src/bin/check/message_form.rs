//! Faults of form, refusal 23: length, depth, what stands around the root, names, tags and other forms.

use crate::message_faults::*;
use crate::message_make::{NAME_BYTES, SPACES};
use crate::message_tree::{Attribute, Part, Tree, AMOUNT, TEXTS};
use crate::random::Random;

pub fn add_lengths_and_depths(faults: &mut Vec<Fault>) {
    sure(faults, 23, "65,521 bytes", |maker, message| pad(maker, message, LENGTH + 1));
    bytes(faults, 23, true, "no byte", |_, bytes| bytes.clear());
    sure(faults, 23, "depth 17 by one tag", |maker, message| nest(maker, message, DEPTH + 1, true));
    sure(faults, 23, "depth 17 by two tags", |maker, message| nest(maker, message, DEPTH + 1, false));
    sure(faults, 23, "depth of 18 to 60", |maker, message| {
        let depth = maker.random.between(18, 60);
        nest(maker, message, depth as usize, false);
    });
    sure(faults, 23, "depth above 255", |maker, message| {
        let depth = maker.random.between(256, 300);
        nest(maker, message, depth as usize, false);
    });
}

pub fn add_around_the_root(faults: &mut Vec<Fault>) {
    bytes(faults, 23, true, "white space alone", |random, bytes| {
        *bytes = (0..random.between(1, 9)).map(|_| random.pick(SPACES)).collect()
    });
    bytes(faults, 23, true, "declaration alone", |_, bytes| *bytes = b"<?xml version=\"1.0\"?>\n".into());
    sure(faults, 23, "text before the root", |maker, message| message.before.extend_from_slice(some_text(maker.random)));
    sure(faults, 23, "text behind the root", |maker, message| message.behind.extend_from_slice(some_text(maker.random)));
    sure(faults, 23, "zero byte behind the root", |_, message| message.behind.push(0));
    sure(faults, 23, "another root before the root", |maker, message| {
        maker.skipped_tree(None, 1).write(&mut message.before);
    });
    sure(faults, 23, "another root behind the root", |maker, message| {
        maker.skipped_tree(None, 1).write(&mut message.behind);
    });
    sure(faults, 23, "the root twice", |_, message| message.root.clone().write(&mut message.behind));
    sure(faults, 23, "end tag before the root", |_, message| message.before.extend_from_slice(b"</LBFastCdtTrf>"));
    sure(faults, 23, "end tag behind the root", |_, message| message.behind.extend_from_slice(b"</LBFastCdtTrf>"));
    sure(faults, 23, "byte order mark", |_, message| {
        let mark: &[u8] = b"\xef\xbb\xbf";
        let place = if message.declaration.is_empty() { &mut message.before } else { &mut message.declaration };
        place.splice(0..0, mark.iter().copied());
    });
    bytes(faults, 23, true, "UTF-16 with a byte order mark", |_, bytes| {
        *bytes = [255, 254].into_iter().chain(bytes.iter().take(30_000).flat_map(|byte| [*byte, 0])).collect();
    });
}

pub fn add_names(faults: &mut Vec<Fault>) {
    for (name, starts) in
        [("a colon", &b":"[..]), ("a digit", b"0159"), ("- or .", b"-."), ("another byte", b"\xc3\x80\xff\0$@[`{^'\"#,")]
    {
        sure(faults, 23, format!("element name that begins with {name}"), move |maker, message| {
            let tree = message.any(maker.random);
            let new = [&[maker.random.pick(starts)], &tree.name[..]].concat();
            tree.rename(new);
        });
        sure(faults, 23, format!("attribute name that begins with {name}"), move |maker, message| {
            let start = maker.random.pick(starts);
            let attribute = new_attribute(maker, message);
            attribute.name.insert(0, start);
        });
    }
    sure(faults, 23, "element name with a letter that isn't ASCII", |maker, message| {
        let tree = message.any(maker.random);
        tree.rename([&tree.name[..], "ā".as_bytes()].concat());
    });
    sure(faults, 23, "attribute name with a letter that isn't ASCII", |maker, message| {
        new_attribute(maker, message).name.extend_from_slice("ā".as_bytes());
    });
    sure(faults, 23, "element without a name", |maker, message| message.any(maker.random).rename(vec![]));
    sure(faults, 23, "attribute without a name", |maker, message| new_attribute(maker, message).name.clear());
    sure(faults, 23, "element name with another byte", |maker, message| {
        let tree = message.any(maker.random);
        let mut name = tree.name.clone();
        let at = maker.random.between(1, name.len() as u64) as usize;
        name.insert(at, maker.random.pick(b"\xc3\x80\xff\0$@[`{^'\"#,;!*()+~|"));
        tree.rename(name);
    });
    sure(faults, 23, "attribute name with another byte", |maker, message| {
        let byte = maker.random.pick(b"\xc3\x80\xff\0$@[`{^'\"#,;!*()+~|");
        let attribute = new_attribute(maker, message);
        attribute.name.push(byte);
    });
}

pub fn add_start_tags(faults: &mut Vec<Fault>) {
    sure(faults, 23, "attribute twice in a row", |maker, message| {
        let attribute = new_attribute(maker, message).clone();
        let tree = message.root.find(&|tree| tree.attributes.iter().any(|other| other.name == attribute.name));
        if let Some(tree) = tree {
            tree.attributes.push(Attribute { value: b"\"x\"".into(), ..attribute });
        }
    });
    sure(faults, 23, "Ccy twice", |_, message| {
        let row = if message.row(AMOUNT).is_some() { AMOUNT } else { 0 };
        let tree = if row == 0 { &mut message.root } else { message.row(row).expect("it was looked for") };
        tree.attributes = vec![Attribute::new(b"Ccy", b"EUR"), Attribute::new(b"Ccy", b"EUR")];
    });
    for count in [2, 16, 17] {
        sure(faults, 23, format!("{count} attributes, the last a repeat"), move |maker, message| {
            many_attributes(maker, message, count, true);
        });
    }
    sure(faults, 23, "many attributes with a repeat", |maker, message| {
        let count = maker.random.between(18, 800);
        many_attributes(maker, message, count as usize, true);
    });
    sure(faults, 23, "no white space before an attribute", |maker, message| {
        new_attribute(maker, message).space.clear();
    });
    sure(faults, 23, "no white space between attributes", |maker, message| {
        let tree = message.any(maker.random);
        tree.attributes = vec![Attribute::new(b"a", b"1"), Attribute { space: vec![], ..Attribute::new(b"b", b"2") }];
    });
    let values: &[(&str, &[&[u8]])] = &[
        ("value in single quotes", &[b"'1'", b"''", b"'EUR'"]),
        ("value without quotes", &[b"1", b"EUR", b""]),
        ("value without its first quote", &[b"1\"", b"EUR\""]),
        ("value with one quote of each kind", &[b"'1\"", b"'\""]),
        ("value with a quote in it", &[b"\"a\"b\"", b"\"\"\"", b"\"EUR\"\""]),
        ("< in a value", &[b"\"<\"", b"\"a<b/>\"", b"\"EUR<\""]),
        ("& in a value", &[b"\"&\"", b"\"&amp;\"", b"\"&#65;\"", b"\"&lt;\"", b"\"&x;\""]),
    ];
    for (name, values) in values {
        sure(faults, 23, *name, |maker, message| {
            let value = maker.random.pick(values).into();
            new_attribute(maker, message).value = value;
        });
    }
    unsure(faults, 23, "value without its last quote", |maker, message| {
        new_attribute(maker, message).value.pop();
    });
    let equals: &[(&str, &[&[u8]])] = &[
        ("no =", &[b" ", b""]),
        ("two =", &[b"==", b"= ="]),
        ("another sign for =", &[b":", b"=>", b"+="]),
        ("other white space around =", &[b"\x0b=", b"=\x0c", b"=\0", b"\xc2\xa0="]),
    ];
    for (name, signs) in equals {
        sure(faults, 23, format!("attribute: {name}"), |maker, message| {
            let equals = maker.random.pick(signs).into();
            new_attribute(maker, message).equals = equals;
        });
    }
    sure(faults, 23, "attribute's name alone", |maker, message| {
        let attribute = new_attribute(maker, message);
        (attribute.equals, attribute.value) = (vec![], vec![]);
    });
    sure(faults, 23, "white space behind <", |maker, message| {
        let space = maker.random.pick(SPACES);
        message.any(maker.random).open.push(space);
    });
    sure(faults, 23, "white space in />", |maker, message| {
        let close = vec![b'/', maker.random.pick(SPACES), b'>'];
        let tree = maker.skipped_tree(None, 0);
        put_into(maker, message, 6, Tree { close, ..Tree::closed(&tree.name) });
    });
    sure(faults, 23, "/ in a start tag", |maker, message| {
        let tree = message.any(maker.random);
        tree.give_end();
        tree.close = maker.random.pick(&[&b"//>"[..], b"/ >", b"/a=\"1\">", b"/x>", b"/"]).into();
    });
    sure(faults, 23, "other white space in a start tag", |maker, message| {
        let space = maker.random.pick(&[&b"\x0b"[..], b"\x0c", b"\xa0", b"\xc2\x85", b"\0", b"\xe2\x80\xa8"]).into();
        message.any(maker.random).space = space;
    });
    unsure(faults, 23, "start tag without >", |maker, message| message.any(maker.random).close.clear());
    sure(faults, 23, "start tag twice", |maker, message| {
        let tree = message.any(maker.random);
        tree.give_end();
        tree.open = [b"<", &tree.name[..], b"><"].concat();
    });
    sure(faults, 23, "start tag missing", |maker, message| {
        let tree = message.any(maker.random);
        tree.give_end();
        for part in [&mut tree.open, &mut tree.name, &mut tree.space, &mut tree.close] {
            part.clear();
        }
        tree.attributes.clear();
    });
    sure(faults, 23, "start tag of one tag's form, and an end tag", |maker, message| {
        let tree = message.any(maker.random);
        tree.give_end();
        tree.close = b"/>".into();
    });
}

pub fn add_end_tags(faults: &mut Vec<Fault>) {
    for (name, change) in [
        ("of another name", other_name as fn(&mut Random, &[u8]) -> Vec<u8>),
        ("with a byte more in its name", |random, name| [name, &[random.pick(NAME_BYTES)]].concat()),
        ("with a byte less in its name", |_, name| name[..name.len() - 1].to_vec()),
        ("with another byte in its name", |random, name| {
            let mut other = name.to_vec();
            let at = random.index(name.len());
            other[at] = if other[at] == b'x' { b'y' } else { b'x' };
            other
        }),
        ("with letters of the other case", |_, name| {
            let other: Vec<u8> = name.iter().map(|byte| if byte.is_ascii_alphabetic() { byte ^ 32 } else { *byte }).collect();
            if other == name {
                b"x1".into()
            } else {
                other
            }
        }),
        ("without a name", |_, _| vec![]),
        ("with white space before its name", |random, name| [&[random.pick(SPACES)], name].concat()),
        ("with an attribute", |_, name| [name, b" a=\"1\""].concat()),
        ("with / at its end", |_, name| [name, b"/"].concat()),
        ("with other white space", |random, name| [name, &[random.pick(b"\x0b\x0c\xa0\0")]].concat()),
    ] {
        sure(faults, 23, format!("end tag {name}"), move |maker, message| {
            let tree = message.any(maker.random);
            tree.give_end();
            tree.end = [b"</", &change(maker.random, &tree.name)[..], b">"].concat();
        });
    }
    sure(faults, 23, "end tag missing", |maker, message| {
        let tree = message.any(maker.random);
        tree.give_end();
        tree.end.clear();
    });
    sure(faults, 23, "end tag twice", |maker, message| {
        let tree = message.any(maker.random);
        tree.give_end();
        tree.end = tree.end.repeat(2);
    });
    unsure(faults, 23, "end tag without >", |maker, message| {
        message.any(maker.random).end.pop();
    });
    sure(faults, 23, "end tag without its /", |maker, message| {
        let tree = message.any(maker.random);
        tree.give_end();
        tree.end.remove(1);
    });
    sure(faults, 23, "two end tags in each other's place", |maker, message| {
        let mut inner = Tree::new(b"b", vec![]);
        inner.end = b"</a>".into();
        put_into(maker, message, 6, Tree { end: b"</b>".into(), ..Tree::new(b"a", vec![Part::Tree(inner)]) });
    });
}

pub fn add_other_forms(faults: &mut Vec<Fault>) {
    let forms: &[(&str, &[&[u8]])] = &[
        ("comment", &[b"<!-- x -->", b"<!---->", b"<!--<a>-->", b"<!-- </CdtTrfTxInf> -->"]),
        ("CDATA", &[b"<![CDATA[x]]>", b"<![CDATA[]]>", b"<![CDATA[<a>&]]>"]),
        ("processing instruction", &[b"<?x?>", b"<?x y?>", b"<?xml-stylesheet href=\"a\"?>"]),
        ("DOCTYPE", &[b"<!DOCTYPE LBFastCdtTrf>", b"<!DOCTYPE x [<!ENTITY y \"z\">]>", b"<!DOCTYPE x SYSTEM \"y\">"]),
        ("&", &[b"&", b"&amp;", b"&#65;", b"&#x41;", b"&x;", b"&lt;a&gt;"]),
    ];
    for (name, forms) in forms {
        sure(faults, 23, format!("{name} in an element"), |maker, message| {
            let form = maker.random.pick(forms);
            put_bytes(maker, message, form);
        });
        sure(faults, 23, format!("{name} in a named text"), |maker, message| {
            let form = maker.random.pick(forms);
            let row = maker.random.pick(&TEXTS);
            if let Some(tree) = message.row(row) {
                tree.put(maker.random, Part::Bytes(form.into()));
            } else {
                put_bytes(maker, message, form);
            }
        });
        sure(faults, 23, format!("{name} in a tag"), |maker, message| {
            let form = maker.random.pick(forms);
            let tree = message.any(maker.random);
            tree.space = [&b" "[..], form, b" "].concat();
        });
        sure(faults, 23, format!("{name} before the root"), |maker, message| {
            message.before.extend_from_slice(maker.random.pick(forms));
        });
        sure(faults, 23, format!("{name} behind the root"), |maker, message| {
            message.behind.extend_from_slice(maker.random.pick(forms));
        });
        sure(faults, 23, format!("{name} before the declaration"), |maker, message| {
            message.declaration = [maker.random.pick(forms), &b"<?xml version=\"1.0\"?>"[..]].concat();
        });
    }
    sure(faults, 23, "< in text", |maker, message| put_bytes(maker, message, b"a < b"));
    sure(faults, 23, "<> in text", |maker, message| put_bytes(maker, message, b"<>"));
}
