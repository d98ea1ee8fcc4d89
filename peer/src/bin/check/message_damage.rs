//! Wrong declarations, and bytes changed without a look at what they are.

use crate::message_faults::*;
use crate::random::Random;

/// A declaration in the place of the message's own.
pub fn add_declarations(faults: &mut Vec<Fault>) {
    let wrong: &[(&str, &[&str])] = &[
        ("no white space behind <?xml", &["<?xmlversion=\"1.0\"?>"]),
        ("no version", &["<?xml?>", "<?xml ?>", "<?xml encoding=\"UTF-8\"?>", "<?xml standalone=\"yes\"?>"]),
        (
            "another version",
            &["<?xml version=\"1.1\"?>", "<?xml version=\"\"?>", "<?xml version=\"1.00\"?>", "<?xml version=\"2.0\"?>"],
        ),
        ("white space in the version", &["<?xml version=\" 1.0\"?>", "<?xml version=\"1.0 \"?>"]),
        ("no white space before encoding", &["<?xml version=\"1.0\"encoding=\"UTF-8\"?>"]),
        (
            "no white space before standalone",
            &["<?xml version=\"1.0\"standalone=\"no\"?>", "<?xml version=\"1.0\" encoding=\"a\"standalone=\"no\"?>"],
        ),
        (
            "encoding that is no name of one",
            &[
                "<?xml version=\"1.0\" encoding=\"a:b\"?>",
                "<?xml version=\"1.0\" encoding=\"8\"?>",
                "<?xml version=\"1.0\" encoding=\"\"?>",
                "<?xml version=\"1.0\" encoding=\"a b\"?>",
                "<?xml version=\"1.0\" encoding=\"-a\"?>",
            ],
        ),
        ("another standalone", &["<?xml version=\"1.0\" standalone=\"Yes\"?>", "<?xml version=\"1.0\" standalone=\"\"?>"]),
        ("standalone before encoding", &["<?xml version=\"1.0\" standalone=\"yes\" encoding=\"UTF-8\"?>"]),
        ("encoding before version", &["<?xml encoding=\"UTF-8\" version=\"1.0\"?>"]),
        ("a part twice", &["<?xml version=\"1.0\" version=\"1.0\"?>", "<?xml version=\"1.0\" encoding=\"a\" encoding=\"a\"?>"]),
        ("another part", &["<?xml version=\"1.0\" x=\"1\"?>", "<?xml version=\"1.0\" x?>"]),
        (
            "single quotes",
            &["<?xml version='1.0'?>", "<?xml version=\"1.0\" encoding='UTF-8'?>", "<?xml version=\"1.0\" standalone='no'?>"],
        ),
        ("one quote of each kind", &["<?xml version=\"1.0'?>", "<?xml version='1.0\"?>"]),
        ("no ?", &["<?xml version=\"1.0\" encoding=\"UTF-8\">", "<?xml version=\"1.0\">"]),
        ("white space before its last byte", &["<?xml version=\"1.0\"? >"]),
        (
            "capital letters",
            &["<?XML version=\"1.0\"?>", "<?xml VERSION=\"1.0\"?>", "<?xml version=\"1.0\" Encoding=\"UTF-8\"?>"],
        ),
        ("white space behind <?", &["<? xml version=\"1.0\"?>"]),
        ("&", &["<?xml version=\"1.&#48;\"?>", "<?xml version=\"&#49;.0\"?>"]),
        ("twice", &["<?xml version=\"1.0\"?><?xml version=\"1.0\"?>", "<?xml version=\"1.0\"?>\n<?xml version=\"1.0\"?>"]),
        ("a space before it", &[" <?xml version=\"1.0\"?>", "\n<?xml version=\"1.0\"?>"]),
        ("not ended", &["<?xml version=\"1.0\"", "<?xml version=\"1.0", "<?xml version=", "<?xml "]),
        ("other white space", &["<?xml\u{b}version=\"1.0\"?>", "<?xml version=\"1.0\"\u{c}?>", "<?xml\0version=\"1.0\"?>"]),
    ];
    for (name, texts) in wrong {
        sure(faults, 23, format!("declaration: {name}"), |maker, message| {
            message.declaration = maker.random.pick(texts).into();
        });
    }
    sure(faults, 23, "declaration in an element", |maker, message| put_bytes(maker, message, b"<?xml version=\"1.0\"?>"));
    sure(faults, 23, "declaration behind the root", |_, message| message.behind.extend_from_slice(b"<?xml version=\"1.0\"?>"));
}

/// Bytes changed without a look at what they are. Now and then the text stays one.
pub fn add_damage(faults: &mut Vec<Fault>) {
    bytes(faults, 23, false, "a byte changed", |random, bytes| {
        if let Some(at) = place(random, bytes) {
            bytes[at] = random.next() as u8;
        }
    });
    bytes(faults, 0, false, "a byte changed, and taken", |random, bytes| {
        if let Some(at) = place(random, bytes) {
            bytes[at] = random.next() as u8;
        }
    });
    bytes(faults, 23, false, "a byte changed to a sign", |random, bytes| {
        if let Some(at) = place(random, bytes) {
            bytes[at] = random.pick(TOKENS)[0];
        }
    });
    bytes(faults, 23, false, "a bit changed", |random, bytes| {
        if let Some(at) = place(random, bytes) {
            bytes[at] ^= 1 << random.below(8);
        }
    });
    bytes(faults, 23, false, "a byte removed", |random, bytes| {
        if let Some(at) = place(random, bytes) {
            bytes.remove(at);
        }
    });
    bytes(faults, 23, false, "a byte put in", |random, bytes| {
        let at = random.index(bytes.len() + 1);
        bytes.insert(at, random.next() as u8);
    });
    bytes(faults, 23, false, "a sign put in", |random, bytes| {
        let at = random.index(bytes.len() + 1);
        bytes.splice(at..at, random.pick(TOKENS).iter().copied());
    });
    bytes(faults, 23, false, "a part removed", |random, bytes| {
        let (from, to) = part(random, bytes);
        bytes.drain(from..to);
    });
    bytes(faults, 23, false, "a part doubled", |random, bytes| {
        let (from, to) = part(random, bytes);
        let copy = bytes[from..to].to_vec();
        bytes.splice(to..to, copy);
    });
    bytes(faults, 23, false, "a part moved", |random, bytes| {
        let (from, to) = part(random, bytes);
        let moved: Vec<u8> = bytes.drain(from..to).collect();
        let at = random.index(bytes.len() + 1);
        bytes.splice(at..at, moved);
    });
    bytes(faults, 23, false, "cut short", |random, bytes| {
        let length = random.index(bytes.len() + 1);
        bytes.truncate(length);
    });
    bytes(faults, 23, true, "cut behind <", |random, bytes| {
        let tags: Vec<usize> = (0..bytes.len()).filter(|at| bytes[*at] == b'<').collect();
        bytes.truncate(if tags.is_empty() { 0 } else { random.pick(&tags) + 1 });
    });
    bytes(faults, 23, true, "cut in a value", |random, bytes| {
        let values: Vec<usize> = (1..bytes.len()).filter(|at| bytes[at - 1..].starts_with(b"=\"")).collect();
        bytes.truncate(if values.is_empty() { 0 } else { random.pick(&values) + 1 });
    });
    bytes(faults, 23, false, "a byte short", |_, bytes| {
        bytes.pop();
    });
    bytes(faults, 23, false, "its start cut off", |random, bytes| {
        let length = random.index(bytes.len() + 1);
        bytes.drain(..length);
    });
    bytes(faults, 23, false, "random bytes", |random, bytes| {
        *bytes = (0..random.below(200)).map(|_| random.next() as u8).collect()
    });
    bytes(faults, 23, false, "signs and words", |random, bytes| *bytes = soup(random, 20));
    bytes(faults, 24, false, "signs and words, and balanced", |random, bytes| {
        *bytes = [b"<a>", &soup(random, 4)[..], b"</a>"].concat();
    });
    unsure(faults, 23, "signs and words in an element", |maker, message| {
        let soup = soup(maker.random, 12);
        put_bytes(maker, message, &soup);
    });
    unsure(faults, 0, "signs and words in an element, and balanced", |maker, message| {
        let soup = soup(maker.random, 5);
        put_bytes(maker, message, &soup);
    });
}

const TOKENS: &[&[u8]] = &[
    b"<",
    b">",
    b"/",
    b"=",
    b"\"",
    b"'",
    b"&",
    b"?",
    b"!",
    b" ",
    b"\n",
    b"\t",
    b"a",
    b"b",
    b"<a>",
    b"</a>",
    b"<b",
    b"/>",
    b" a=\"1\"",
    b" b=\"\"",
    b"</",
    b"<a/>",
    b"<b>",
    b"</b>",
    b"1",
    b":",
    b"-",
    b"\0",
    b"\xff",
    b"]]>",
    b"BIC",
    b"\"\"",
    b"=\"",
    b"\" ",
    b"<a a=\"\">",
    b"\r",
];

fn soup(random: &mut Random, most: u64) -> Vec<u8> {
    (0..random.between(1, most)).flat_map(|_| random.pick(TOKENS)).copied().collect()
}

fn place(random: &mut Random, bytes: &[u8]) -> Option<usize> {
    (!bytes.is_empty()).then(|| random.index(bytes.len()))
}

/// Where a part begins and ends, often at a tag.
fn part(random: &mut Random, bytes: &[u8]) -> (usize, usize) {
    let tags: Vec<usize> = bytes.iter().enumerate().filter(|(_, byte)| **byte == b'<').map(|(at, _)| at).collect();
    let mut end = || if tags.is_empty() || random.one_in(3) { random.index(bytes.len() + 1) } else { random.pick(&tags) };
    let (one, other) = (end(), end());
    (one.min(other), one.max(other).min(one.min(other) + 3000))
}
