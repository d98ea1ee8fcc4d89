//! Messages: what is taken and what is refused, each on both sides of its edge; the order of refusals; and the ticket to the byte.

use crate::message::read;
use crate::ticket::Ticket;
use crate::writing::{padded, TicketFields};

const IBAN: &str = "LV80BANK0000435195001";

fn element(name: &str, inner: &str) -> String {
    format!("<{name}>{inner}</{name}>")
}

/// A message in parts, any of which may be replaced.
#[derive(Clone)]
struct Parts {
    before: String,
    root: String,
    header: String,
    payment: String,
    amount: String,
    /// Between the amount and the payee's agent.
    between: String,
    agent: String,
    account: String,
    behind: String,
}

fn agent(name: &str, bic: &str) -> String {
    element(name, &element("FinInstnId", &element("BIC", bic)))
}

fn header(bic: &str) -> String {
    element("GrpHdr", &agent("InstgAgt", bic))
}

fn payment(tx_id: &str) -> String {
    element("PmtId", &element("TxId", tx_id))
}

fn amount(attributes: &str, text: &str) -> String {
    format!("<IntrBkSttlmAmt{attributes}>{text}</IntrBkSttlmAmt>")
}

fn account(name: &str, iban: &str) -> String {
    element(name, &element("Id", &element("IBAN", iban)))
}

impl Parts {
    fn new() -> Self {
        Parts {
            before: String::new(),
            root: "<LBFastCdtTrf>".into(),
            header: header("AAAALV22"),
            payment: payment("1"),
            amount: amount(" Ccy=\"EUR\"", "4.00"),
            between: String::new(),
            agent: agent("CdtrAgt", "BBBBLV22XXX"),
            account: account("CdtrAcct", IBAN),
            behind: String::new(),
        }
    }

    fn transfer(&self) -> String {
        element("CdtTrfTxInf", &[&self.payment[..], &self.amount, &self.between, &self.agent, &self.account].concat())
    }

    fn with_inner(&self, inner: &str) -> String {
        format!("{}{}{}</LBFastCdtTrf>{}", self.before, self.root, element("FIToFICstmrCdtTrf", inner), self.behind)
    }

    fn text(&self) -> String {
        self.with_inner(&[self.header.clone(), self.transfer()].concat())
    }
}

fn number(text: impl AsRef<[u8]>) -> u8 {
    read(text.as_ref(), 5).map_or_else(|flaw| flaw.refusal.number(), |_| 0)
}

/// The number of a message with that in a skipped place.
fn skipped(inner: &str) -> u8 {
    number(Parts { between: inner.into(), ..Parts::new() }.text())
}

/// The same with bytes that are no UTF-8.
fn skipped_bytes(inner: &[u8]) -> u8 {
    let text = Parts { between: "@".into(), ..Parts::new() }.text();
    let at = text.find('@').unwrap();
    number([&text.as_bytes()[..at], inner, &text.as_bytes()[at + 1..]].concat())
}

fn with_before(before: &str) -> u8 {
    number(Parts { before: before.into(), ..Parts::new() }.text())
}

fn with_behind(behind: &str) -> u8 {
    number(Parts { behind: behind.into(), ..Parts::new() }.text())
}

fn with_amount(attributes: &str, text: &str) -> u8 {
    number(Parts { amount: amount(attributes, text), ..Parts::new() }.text())
}

fn with_euros(text: &str) -> u8 {
    with_amount(" Ccy=\"EUR\"", text)
}

fn with_tx_id(tx_id: &str) -> u8 {
    number(Parts { payment: payment(tx_id), ..Parts::new() }.text())
}

fn with_iban(iban: &str) -> u8 {
    number(Parts { account: account("CdtrAcct", iban), ..Parts::new() }.text())
}

fn with_bics(sender: &str, payee: &str) -> u8 {
    number(Parts { header: header(sender), agent: agent("CdtrAgt", payee), ..Parts::new() }.text())
}

fn attributes(count: usize) -> String {
    (0..count).map(|at| format!(" a{at}=\"\"")).collect()
}

#[test]
fn an_accepted_message_yields_its_order() {
    let ticket = read(Parts::new().text().as_bytes(), 5).unwrap();
    let order = TicketFields {
        amount: 400,
        sender: *b"AAAALV22XXX",
        named: *b"BBBBLV22XXX",
        tx_id: padded(b"1"),
        iban: padded(IBAN.as_bytes()),
        ..TicketFields::new(3, 5)
    };
    assert_eq!(ticket, order.bytes());
    assert!(Ticket::read(&ticket).is_ok());
}

#[test]
fn names_begin_with_a_letter_or_a_low_line() {
    for (tag, due) in [("<:a/>", 23), ("<1/>", 23), ("<-a/>", 23), ("<.a/>", 23), ("<_/>", 0), ("<a:b-c.d_1/>", 0), ("<é/>", 23)]
    {
        assert_eq!(skipped(tag), due, "{tag}");
    }
}

#[test]
fn tags() {
    let rows = [
        ("<x y=\"<\"/>", 23),
        ("<x y=\">\"/>", 0),
        ("<x a=\"1\"b=\"2\"/>", 23),
        ("<x a=\"1\" b=\"2\"/>", 0),
        ("<a></ab>", 23),
        ("<ab></a>", 23),
        ("<a></A>", 23),
        ("<a><b></a></b>", 23),
        ("<x/ >", 23),
        ("<x / >", 23),
        ("<x/", 23),
        ("< x/>", 23),
        ("<x></ x>", 23),
        ("<x ></x >", 0),
        ("<x\t\r\n/>", 0),
        ("<x a = \"1\"\n/>", 0),
        ("<x\u{b}/>", 23),
        ("<x a=\"1\" a=\"2\"/>", 23),
        ("<x a=\"1\" A=\"2\"/>", 0),
        ("<x a/>", 23),
        ("<x a=/>", 23),
        ("<x a=1/>", 23),
        ("<x a==\"1\"/>", 23),
        ("<x =\"1\"/>", 23),
        ("<x y='1'/>", 23),
        ("<x y=\"'\"/>'", 0),
        ("<x a=\"1/>", 23),
        ("<x a=\"&\"/>", 23),
        ("<x></x a=\"1\">", 23),
        ("<x></x/>", 23),
        ("</x>", 23),
        ("<x>", 23),
        ("<>", 23),
        ("</>", 23),
        ("<", 23),
    ];
    for (tags, due) in rows {
        assert_eq!(skipped(tags), due, "{tags}");
    }
}

#[test]
fn forms_that_are_not_allowed() {
    for form in ["<!-- -->", "<![CDATA[x]]>", "<?p i?>", "<!DOCTYPE x>", "&amp;", "&#65;", "&"] {
        assert_eq!(skipped(form), 23, "{form}");
        assert_eq!((with_before(form), with_behind(form)), (23, 23), "{form}");
    }
}

#[test]
fn around_the_root() {
    assert_eq!(number(""), 23);
    assert_eq!(number(" "), 23);
    assert_eq!(number("x"), 23);
    assert_eq!(number("</x>"), 23);
    assert_eq!(with_before("\r\n\t "), 0);
    assert_eq!(with_behind("\r\n\t "), 0);
    for other in ["x", "\0", "\u{b}", "<x/>", "</x>", "</LBFastCdtTrf>", "\u{feff}"] {
        assert_eq!((with_before(other), with_behind(other)), (23, 23), "{other}");
    }
}

#[test]
fn declarations() {
    let rows = [
        ("<?xml version=\"1.0\"?>", 0),
        ("<?xml version=\"1.0\" ?>", 0),
        ("<?xml\r\nversion\t=\n\"1.0\"?>\n", 0),
        ("<?xml version=\"1.0\" encoding=\"UTF-8\"?>", 0),
        ("<?xml version=\"1.0\" encoding = \"a\" standalone=\"no\" ?>", 0),
        ("<?xml version=\"1.0\" standalone=\"yes\"?>", 0),
        ("<?xmlversion=\"1.0\"?>", 23),
        ("<?xml version=\"1.0\"encoding=\"UTF-8\"?>", 23),
        ("<?xml version=\"1.0\" encoding=\"UTF-8\"standalone=\"yes\"?>", 23),
        ("<?xml version=\"1.0\"standalone=\"yes\"?>", 23),
        ("<?xml version=\"1.0\" encoding=\"a:b\"?>", 23),
        ("<?xml version=\"1.0\" encoding=\"8\"?>", 23),
        ("<?xml version=\"1.0\" encoding=\"\"?>", 23),
        ("<?xml version=\"1.0\" standalone=\"Yes\"?>", 23),
        ("<?xml version=\"1.0\" standalone=\"yes\" encoding=\"UTF-8\"?>", 23),
        ("<?xml version=\"1.1\"?>", 23),
        ("<?xml version=\"1.0 \"?>", 23),
        ("<?xml version='1.0'?>", 23),
        ("<?xml version=\"1.0\" encoding='UTF-8'?>", 23),
        ("<?xml encoding=\"UTF-8\"?>", 23),
        ("<?xml version=\"1.0\" encoding=\"UTF-8\">", 23),
        ("<?xml version=\"1.0\" x=\"\"?>", 23),
        ("<?xml version=\"1.0\"? >", 23),
        ("<?xml ?>", 23),
        ("<?XML version=\"1.0\"?>", 23),
        (" <?xml version=\"1.0\"?>", 23),
        ("\u{feff}<?xml version=\"1.0\"?>", 23),
        ("<?xml version=\"1.0\"?><?xml version=\"1.0\"?>", 23),
    ];
    for (declaration, due) in rows {
        assert_eq!(with_before(declaration), due, "{declaration}");
    }
}

#[test]
fn attributes_of_a_tag_differ() {
    assert_eq!(skipped(&format!("<x{} a0=\"\"/>", attributes(16))), 23);
    assert_eq!(skipped(&format!("<x{} a15=\"\"/>", attributes(16))), 23);
    assert_eq!(skipped(&format!("<x{}/>", attributes(17))), 0);
    assert_eq!(skipped(&format!("<x{}/>", attributes(6000))), 0);
    assert_eq!(skipped(&format!("<x{} a0=\"\"/>", attributes(6000))), 23);
}

#[test]
fn attributes_are_passed_over() {
    let text = Parts::new().text();
    for name in ["BIC", "TxId", "IBAN", "LBFastCdtTrf", "GrpHdr"] {
        let with_one = text.replacen(&format!("<{name}>"), &format!("<{name} xmlns=\"x\" Ccy=\"USD\">"), 1);
        assert_ne!(with_one, text);
        assert_eq!(number(with_one), 0, "{name}");
    }
}

#[test]
fn the_amounts_attributes() {
    let rows = [
        (" Ccy=\"EUR\"", 0),
        ("\nCcy = \"EUR\" ", 0),
        ("", 25),
        (" Ccy=\"EUR\" x=\"\"", 25),
        (" x=\"\" Ccy=\"EUR\"", 25),
        (" Ccy=\"EUR\" xmlns=\"x\"", 25),
        (" Ccy=\"EUR\" Ccy=\"EUR\"", 23),
        (" Ccy=\"USD\"", 25),
        (" Ccy=\"eur\"", 25),
        (" Ccy=\"EUR \"", 25),
        (" Ccy=\"EUR\0\"", 25),
        (" Ccy=\"\"", 25),
        (" ccy=\"EUR\"", 25),
        (" a:Ccy=\"EUR\"", 25),
    ];
    for (attributes, due) in rows {
        assert_eq!(with_amount(attributes, "4.00"), due, "{attributes}");
    }
}

#[test]
fn amounts() {
    let rows = [
        ("0.01", 0),
        ("0.00", 25),
        ("000000000.00", 25),
        ("000000000.01", 0),
        (".50", 25),
        ("1.5", 25),
        ("1.", 25),
        ("1", 25),
        ("1.500", 25),
        ("0000000001.00", 25),
        ("+1.00", 25),
        ("-1.00", 25),
        ("1,00", 25),
        ("1.0.0", 25),
        ("1..00", 25),
        (" 1.00", 25),
        ("1.00\n", 25),
        ("1.00\0", 25),
        ("", 25),
        (".", 25),
        ("999999999.99", 0),
        ("1000000000.00", 25),
    ];
    for (text, due) in rows {
        assert_eq!(with_euros(text), due, "{text}");
    }
    let ticket = read(Parts { amount: amount(" Ccy=\"EUR\"", "999999999.99"), ..Parts::new() }.text().as_bytes(), 0).unwrap();
    assert_eq!(Ticket::read(&ticket).unwrap().amount, 99_999_999_999);
    let empty = Parts { amount: "<IntrBkSttlmAmt Ccy=\"EUR\"/>".into(), ..Parts::new() };
    assert_eq!(number(empty.text()), 25);
}

#[test]
fn the_same_names_elsewhere_are_skipped() {
    assert_eq!(skipped(&element("Dbtr", &payment("2"))), 0);
    assert_eq!(skipped(&account("DbtrAcct", "x")), 0);
    assert_eq!(skipped(&agent("DbtrAgt", "x")), 0);
    assert_eq!(skipped(&element("x", &Parts::new().text())), 0);
    assert_eq!(skipped("<TxId/><BIC/><IBAN/><Id/><FinInstnId/><GrpHdr/><LBFastCdtTrf/><InstgAgt/>"), 0);
    let both = element("GrpHdr", &[agent("InstgAgt", "AAAALV22"), agent("InstdAgt", "CCCCLV22"), agent("CdtrAgt", "")].concat());
    assert_eq!(number(Parts { header: both, ..Parts::new() }.text()), 0);
}

#[test]
fn named_elements_missing_twice_or_out_of_order() {
    let parts = Parts::new();
    let empty = String::new();
    let twice = |part: &String| [&part[..], part].concat();
    let rows = [
        Parts { header: empty.clone(), ..parts.clone() },
        Parts { header: twice(&parts.header), ..parts.clone() },
        Parts { header: header("AAAALV22").replace("BIC", "a:BIC"), ..parts.clone() },
        Parts { header: element("GrpHdr", ""), ..parts.clone() },
        Parts { header: element("GrpHdr", &twice(&agent("InstgAgt", "AAAALV22"))), ..parts.clone() },
        Parts { header: element("GrpHdr", &element("InstgAgt", &element("BIC", "AAAALV22"))), ..parts.clone() },
        Parts { payment: empty.clone(), ..parts.clone() },
        Parts { payment: element("PmtId", ""), ..parts.clone() },
        Parts { payment: twice(&parts.payment), ..parts.clone() },
        Parts { payment: element("PmtId", &twice(&element("TxId", "1"))), ..parts.clone() },
        Parts { amount: empty.clone(), ..parts.clone() },
        Parts { amount: twice(&parts.amount), ..parts.clone() },
        Parts { agent: empty.clone(), ..parts.clone() },
        Parts { agent: twice(&parts.agent), ..parts.clone() },
        Parts { account: empty.clone(), ..parts.clone() },
        Parts { account: account("CdtrAcct", IBAN).replace("Id", "id"), ..parts.clone() },
        Parts { payment: parts.amount.clone(), amount: parts.payment.clone(), ..parts.clone() },
        Parts { agent: parts.account.clone(), account: parts.agent.clone(), ..parts.clone() },
        Parts { agent: parts.amount.clone(), amount: parts.agent.clone(), ..parts.clone() },
        Parts { payment: element("PmtId", ""), between: "<CdtrAgt/><CdtrAgt/>".into(), ..parts.clone() },
    ];
    for (row, message) in rows.iter().enumerate() {
        assert_eq!(number(message.text()), 24, "row {row}: {}", message.text());
    }
    assert_eq!(number(parts.with_inner(&[parts.transfer(), parts.header.clone()].concat())), 24);
    assert_eq!(number(parts.with_inner(&[&parts.header[..], &parts.transfer(), &parts.transfer()].concat())), 24);
    assert_eq!(number(parts.text().replace("LBFastCdtTrf", "Document")), 24);
    assert_eq!(number(parts.text().replace("FIToFICstmrCdtTrf", "x")), 24);
    assert_eq!(number("<x/>"), 24);
}

#[test]
fn an_element_in_a_named_text() {
    let text = Parts::new().text();
    for (name, inner) in [("BIC", "AAAALV22"), ("TxId", "1"), ("IntrBkSttlmAmt", "4.00"), ("BIC", "BBBBLV22XXX"), ("IBAN", IBAN)]
    {
        for put in [format!("{inner}<x/></{name}>"), format!("<x></x>{inner}</{name}>")] {
            let with_one = text.replacen(&format!("{inner}</{name}>"), &put, 1);
            assert_ne!(with_one, text);
            assert_eq!(number(with_one), 24, "{put}");
        }
    }
}

#[test]
fn depth() {
    let nested = |count: usize, innermost: &str| ["<x>".repeat(count).as_str(), innermost, &"</x>".repeat(count)].concat();
    // The skipped place is at depth 4.
    assert_eq!(skipped(&nested(12, "<y/>")), 0);
    assert_eq!(skipped(&nested(13, "")), 0);
    assert_eq!(skipped(&nested(13, "<y/>")), 23);
    assert_eq!(skipped(&nested(14, "")), 23);
    assert_eq!(number(nested(16, "")), 24);
    assert_eq!(number(nested(17, "")), 23);
}

#[test]
fn length() {
    let short = Parts::new().text().len();
    for (length, due) in [(65_520, 0), (65_521, 23)] {
        assert_eq!(with_behind(&" ".repeat(length - short)), due);
        assert_eq!(skipped(&"x".repeat(length - short)), due);
        let tag = format!("<x y=\"{}\"/>", "z".repeat(length - short - 9));
        assert_eq!(skipped(&tag), due);
    }
}

#[test]
fn the_order_of_refusals() {
    let second_header = [header("AAAALV22"), header("AAAALV22")].concat();
    let wrong_amount = amount(" Ccy=\"EUR\"", "4");
    let message = Parts { header: second_header.clone(), amount: wrong_amount.clone(), ..Parts::new() };
    assert_eq!(number(message.text()), 24);
    assert_eq!(number(Parts { header: second_header, between: "&".into(), ..Parts::new() }.text()), 23);
    assert_eq!(number(Parts { amount: wrong_amount, agent: agent("CdtrAgt", ""), ..Parts::new() }.text()), 25);
    let empty = Parts { agent: agent("CdtrAgt", ""), account: account("CdtrAcct", ""), ..Parts::new() };
    assert_eq!(number(empty.text()), 7);
    let closed = Parts { agent: "<CdtrAgt><FinInstnId><BIC/></FinInstnId></CdtrAgt>".into(), ..Parts::new() };
    assert_eq!(number(closed.text()), 7);
    assert_eq!(number(Parts { payment: "<PmtId><TxId/></PmtId>".into(), ..Parts::new() }.text()), 7);
    assert_eq!(number(Parts { account: "<CdtrAcct><Id><IBAN/></Id></CdtrAcct>".into(), ..Parts::new() }.text()), 8);
    let both = Parts { payment: payment(""), account: account("CdtrAcct", ""), ..Parts::new() };
    assert_eq!(number(both.text()), 7);
}

#[test]
fn codes_are_taken_whole() {
    for (bic, due) in [
        ("AAAALV22", 0),
        ("AAAALV22XXX", 0),
        ("AAAALV22ABC", 0),
        ("AAAALV22X", 7),
        ("AAAALV22XX", 7),
        ("AAAALV2", 7),
        ("AAAALV22XXXX", 7),
        ("AAAALV22\0\0\0", 7),
        ("AAAALV2\0", 7),
        ("AAAALV22\0", 7),
        ("AAAALV02", 7),
        ("AAAALV22 ", 7),
        (" AAAALV22", 7),
        ("aaaalv22", 7),
        ("", 7),
    ] {
        assert_eq!((with_bics(bic, "BBBBLV22"), with_bics("AAAALV22", bic)), (due, due), "{bic}");
    }
    for (tx_id, due) in [("1", 0), ("1\0", 7), ("a'b", 0), ("", 7), ("\0", 7), (" 1", 7), ("1\n", 7), ("a\"b", 7), ("é", 7)] {
        assert_eq!(with_tx_id(tx_id), due, "{tx_id}");
    }
    assert_eq!(with_tx_id(&"a".repeat(35)), 0);
    assert_eq!(with_tx_id(&"a".repeat(36)), 7);
    let zero = format!("{IBAN}\0");
    let line = format!("{IBAN}\n");
    for (iban, due) in [(IBAN, 0), (&zero, 8), (&line, 8), ("LV81BANK0000435195001", 8), ("LV80bank0000435195001", 8), ("", 8)] {
        assert_eq!(with_iban(iban), due, "{iban}");
    }
}

#[test]
fn any_bytes_but_two_in_text_and_three_in_values() {
    for byte in 0..=255u8 {
        let due = |is_wrong: bool| if is_wrong { 23 } else { 0 };
        let value = [b"<x y=\"", &[byte][..], b"\"/>"].concat();
        assert_eq!(skipped_bytes(&[b'x', byte, b'x']), due(b"<&".contains(&byte)), "{byte} in text");
        assert_eq!(skipped_bytes(&value), due(b"<&\"".contains(&byte)), "{byte} in a value");
    }
    assert_eq!(skipped_bytes(b"\0\xff]]><x y=\"\0\xff]]>\"/>"), 0);
    assert_eq!(skipped("loose text"), 0);
}
