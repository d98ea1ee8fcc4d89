//! Orders as pacs.008 text: what is asked of a message's elements, and the order ticket that it yields. Refusals 23, 24, 25, 7 and
//! 8, in that order, each over the whole text.

use crate::codes::{is_bic, is_iban, is_tx_id, Bic};
use crate::flaw::Flaw;
use crate::markup::{self, Element};
use crate::refusal::Refusal;
use crate::ticket::TICKET_LEN;
use crate::writing::{padded, TicketFields};

/// A named element by its path below FIToFICstmrCdtTrf, and the named elements that it holds, in their order. One that holds none
/// is a named text.
pub struct Named {
    pub path: &'static str,
    pub inside: &'static [Named],
}

impl Named {
    /// The last part of the path.
    pub fn name(&self) -> &'static str {
        self.path.rsplit('/').next().unwrap_or(self.path)
    }
}

const fn named(path: &'static str, inside: &'static [Named]) -> Named {
    Named { path, inside }
}

pub const MESSAGE: Named = named("LBFastCdtTrf", &[named("FIToFICstmrCdtTrf", &[HEADER, TRANSFER])]);

const HEADER: Named = named(
    "GrpHdr",
    &[named("GrpHdr/InstgAgt", &[named("GrpHdr/InstgAgt/FinInstnId", &[named("GrpHdr/InstgAgt/FinInstnId/BIC", &[])])])],
);

const TRANSFER: Named = named("CdtTrfTxInf", &[PAYMENT, AMOUNT, AGENT, ACCOUNT]);
const PAYMENT: Named = named("CdtTrfTxInf/PmtId", &[named("CdtTrfTxInf/PmtId/TxId", &[])]);
const AMOUNT: Named = named("CdtTrfTxInf/IntrBkSttlmAmt", &[]);
const AGENT: Named =
    named("CdtTrfTxInf/CdtrAgt", &[named("CdtTrfTxInf/CdtrAgt/FinInstnId", &[named("CdtTrfTxInf/CdtrAgt/FinInstnId/BIC", &[])])]);
const ACCOUNT: Named =
    named("CdtTrfTxInf/CdtrAcct", &[named("CdtTrfTxInf/CdtrAcct/Id", &[named("CdtTrfTxInf/CdtrAcct/Id/IBAN", &[])])]);

/// The order ticket of a text, or what is wrong with the text.
pub fn read(text: &[u8], time: u32) -> Result<[u8; TICKET_LEN], Flaw> {
    let root = markup::root(text)?;
    let [sender, tx_id, amount, payee, iban] = named_texts(&root)?;
    let amount = cents(amount)?;
    let sender = bic(&sender.text()).map_err(|why| Flaw::new(Refusal::Form, format!("sender {why}")))?;
    let payee = bic(&payee.text()).map_err(|why| Flaw::new(Refusal::Form, format!("payee {why}")))?;
    let tx_id = tx_id.text();
    if !is_tx_id(&tx_id) {
        return Err(Flaw::new(Refusal::Form, "TxId wrong"));
    }
    let iban = iban.text();
    if !is_iban(&iban) {
        return Err(Flaw::new(Refusal::Iban, "IBAN wrong"));
    }
    let order =
        TicketFields { amount, sender, named: payee, tx_id: padded(&tx_id), iban: padded(&iban), ..TicketFields::new(3, time) };
    Ok(order.bytes())
}

/// The five elements with the named texts, in their order.
fn named_texts(root: &Element) -> Result<[&Element; 5], Flaw> {
    if root.name != MESSAGE.name().as_bytes() {
        return Err(Flaw::new(Refusal::Elements, "another root"));
    }
    let mut found = Vec::new();
    find(root, &MESSAGE, &mut found)?;
    Ok(found.try_into().expect("five of the named elements hold none"))
}

/// Adds the named texts inside an element to those found.
fn find<'a>(element: &'a Element, named: &Named, found: &mut Vec<&'a Element>) -> Result<(), Flaw> {
    if named.inside.is_empty() {
        if element.elements().next().is_some() {
            return Err(Flaw::new(Refusal::Elements, format!("element in {}", named.path)));
        }
        found.push(element);
        return Ok(());
    }
    let is_called = |element: &Element, named: &Named| element.name == named.name().as_bytes();
    let is_named = |element: &&Element| named.inside.iter().any(|named| is_called(element, named));
    let met: Vec<&Element> = element.elements().filter(is_named).collect();
    for child in named.inside {
        match met.iter().filter(|element| is_called(element, child)).count() {
            0 => return Err(Flaw::new(Refusal::Elements, format!("missing {}", child.path))),
            1 => (),
            _ => return Err(Flaw::new(Refusal::Elements, format!("twice {}", child.path))),
        }
    }
    for (element, child) in met.into_iter().zip(named.inside) {
        if !is_called(element, child) {
            return Err(Flaw::new(Refusal::Elements, format!("out of order in {}", named.path)));
        }
        find(element, child, found)?;
    }
    Ok(())
}

/// The amount in cents: 1 to 9 digits, a point and two digits, not zero, with the one attribute Ccy="EUR".
fn cents(element: &Element) -> Result<u64, Flaw> {
    let wrong = |why: &'static str| Flaw::new(Refusal::AmountText, why);
    match &element.attributes[..] {
        [] => return Err(wrong("amount without attribute")),
        [only] if only.name != b"Ccy" => return Err(wrong("amount with another attribute")),
        [only] if only.value != b"EUR" => return Err(wrong("Ccy other than EUR")),
        [_] => (),
        _ => return Err(wrong("amount with two attributes or more")),
    }
    let text = element.text();
    let Some(at) = text.iter().position(|byte| *byte == b'.') else {
        return Err(wrong("amount without a point"));
    };
    let (euros, cents) = (&text[..at], &text[at + 1..]);
    if ![euros, cents].concat().iter().all(u8::is_ascii_digit) {
        return Err(wrong("amount with a byte other than digits and a point"));
    }
    match (euros.len(), cents.len()) {
        (0, _) => return Err(wrong("amount without a digit before the point")),
        (10.., _) => return Err(wrong("amount with ten digits or more before the point")),
        (_, 2) => (),
        (_, 0 | 1) => return Err(wrong("amount with fewer than two digits behind the point")),
        _ => return Err(wrong("amount with more than two digits behind the point")),
    }
    match [euros, cents].concat().iter().fold(0, |amount, digit| amount * 10 + u64::from(digit - b'0')) {
        0 => Err(wrong("amount zero")),
        amount => Ok(amount),
    }
}

/// A BIC of 11 bytes, or of 8 that is filled; else what is wrong with it.
fn bic(text: &[u8]) -> Result<Bic, &'static str> {
    let (filled, why) = match text.len() {
        8 => ([text, b"XXX"].concat(), "BIC of 8 bytes wrong"),
        11 => (text.to_vec(), "BIC of 11 bytes wrong"),
        _ => return Err("BIC of another length"),
    };
    if is_bic(&filled) {
        Ok(padded(&filled))
    } else {
        Err(why)
    }
}

/// Adds the line of a message to the text: its refusal, and the ticket of an accepted one.
pub fn print_message(message: &[u8], time: u32, text: &mut Vec<u8>) {
    let line = match read(message, time) {
        Ok(ticket) => format!("M 0 {}\n", ticket.map(|byte| format!("{byte:02x}")).concat()),
        Err(flaw) => format!("M {}\n", flaw.refusal.number()),
    };
    text.extend_from_slice(line.as_bytes());
}
