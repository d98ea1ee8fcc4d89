//! The ticket of 108 bytes: its fields, the form of each kind, and refusals 7 to 10.

use crate::codes::{is_bic, is_iban, is_tx_id, unpadded, Bic, Iban, TxId, BIC_LEN, IBAN_LEN, TX_ID_LEN};
use crate::refusal::Refusal;
use crate::MOST_COVER;

pub const TICKET_LEN: usize = 108;
pub const MOST_PAID: u64 = 99_999_999_999;

const TX_ID_AT: usize = 38;
pub const IBAN_AT: usize = 73;

/// What a ticket asks for.
#[derive(Clone, Copy, PartialEq, Eq, Debug)]
pub enum Kind {
    CoverIn,
    CoverOut,
    Order,
    Yes,
    No,
    Recall,
    Return,
    Decline,
    Inquiry,
    Cut,
    Confirm,
    Tick,
}

/// A ticket past refusals 7 to 10. Fields that its kind doesn't list are zero.
#[derive(Clone, Copy, Debug)]
pub struct Ticket<'a> {
    pub kind: Kind,
    pub time: u32,
    pub amount: u64,
    pub sender: &'a Bic,
    /// The payee of an order; in kinds 4 to 8 the payer of the order that they are about.
    pub named: &'a Bic,
    pub tx_id: &'a TxId,
}

/// The fields that a kind lists. The flags go from the first to the last; zero alone where there is no flag.
struct Form {
    flags: (u8, u8),
    amount: Amount,
    sender: bool,
    named: bool,
    tx_id: bool,
    iban: bool,
}

#[derive(Clone, Copy)]
enum Amount {
    Unused,
    From0To(u64),
    From1To(u64),
}

const NOTHING: Form = Form { flags: (0, 0), amount: Amount::Unused, sender: false, named: false, tx_id: false, iban: false };
const COVER: Form = Form { sender: true, amount: Amount::From1To(MOST_COVER), ..NOTHING };
const ORDER: Form = Form { iban: true, ..RETURN };
const ANSWER: Form = Form { flags: (1, 2), ..INQUIRY };
const RECALL: Form = Form { flags: (1, 4), ..INQUIRY };
const RETURN: Form = Form { amount: Amount::From1To(MOST_PAID), ..INQUIRY };
const DECLINE: Form = Form { flags: (1, 7), ..INQUIRY };
const INQUIRY: Form = Form { sender: true, named: true, tx_id: true, ..NOTHING };
const CONFIRM: Form = Form { sender: true, amount: Amount::From0To(MOST_COVER), ..NOTHING };

/// The kind with its form, by the bytes for kind and flag; None where the kind or the flag is wrong.
fn kind_and_form(kind: u8, flag: u8) -> Option<(Kind, &'static Form)> {
    let (kind, form) = match kind {
        1 => (Kind::CoverIn, &COVER),
        2 => (Kind::CoverOut, &COVER),
        3 => (Kind::Order, &ORDER),
        4 if flag == 1 => (Kind::Yes, &ANSWER),
        4 => (Kind::No, &ANSWER),
        5 => (Kind::Recall, &RECALL),
        6 => (Kind::Return, &RETURN),
        7 => (Kind::Decline, &DECLINE),
        8 => (Kind::Inquiry, &INQUIRY),
        9 => (Kind::Cut, &NOTHING),
        10 => (Kind::Confirm, &CONFIRM),
        11 => (Kind::Tick, &NOTHING),
        _ => return None,
    };
    (form.flags.0 <= flag && flag <= form.flags.1).then_some((kind, form))
}

impl<'a> Ticket<'a> {
    /// Reads a ticket of any bytes and length.
    pub fn read(bytes: &'a [u8]) -> Result<Self, Refusal> {
        let bytes: &[u8; TICKET_LEN] = bytes.try_into().map_err(|_| Refusal::Form)?;
        let (kind, form) = kind_and_form(bytes[0], bytes[1]).ok_or(Refusal::Form)?;
        let amount = u64::from_be_bytes(*field(bytes, 8));
        let sender: &[u8; BIC_LEN] = field(bytes, 16);
        let named: &[u8; BIC_LEN] = field(bytes, 27);
        let tx_id: &[u8; TX_ID_LEN] = field(bytes, TX_ID_AT);
        let iban: &[u8; IBAN_LEN] = field(bytes, IBAN_AT);

        let unused_are_zero = bytes[2] == 0 && bytes[3] == 0 && bytes[107] == 0;
        let fields_fit = bic_fits(sender, form.sender)
            && bic_fits(named, form.named)
            && tx_id_fits(tx_id, form.tx_id)
            && (form.iban || *iban == [0; IBAN_LEN])
            && (amount == 0 || !matches!(form.amount, Amount::Unused));
        if !(unused_are_zero && fields_fit) {
            return Err(Refusal::Form);
        }
        if form.iban && !iban_fits(iban) {
            return Err(Refusal::Iban);
        }
        check_amount(amount, form.amount)?;
        let time = u32::from_be_bytes(*field(bytes, 4));
        Ok(Ticket { kind, time, amount, sender, named, tx_id })
    }

    /// The payer of the order that the ticket brings or is about.
    pub fn payer(&self) -> &'a Bic {
        if self.kind == Kind::Order {
            self.sender
        } else {
            self.named
        }
    }
}

fn field<const LEN: usize>(bytes: &[u8; TICKET_LEN], at: usize) -> &[u8; LEN] {
    bytes[at..].first_chunk().expect("every field lies within the ticket")
}

fn bic_fits(bic: &Bic, used: bool) -> bool {
    if used {
        is_bic(bic)
    } else {
        *bic == [0; BIC_LEN]
    }
}

fn tx_id_fits(tx_id: &TxId, used: bool) -> bool {
    if used {
        is_tx_id(unpadded(tx_id))
    } else {
        *tx_id == [0; TX_ID_LEN]
    }
}

fn iban_fits(iban: &Iban) -> bool {
    is_iban(unpadded(iban))
}

fn check_amount(amount: u64, limits: Amount) -> Result<(), Refusal> {
    match limits {
        Amount::From1To(_) if amount == 0 => Err(Refusal::NoAmount),
        Amount::From0To(most) | Amount::From1To(most) if amount > most => Err(Refusal::AmountAboveLimit),
        _ => Ok(()),
    }
}

/// The TxId without its padding, as the ticket's own bytes; empty where it is malformed or the ticket isn't 108 bytes.
pub fn tx_id_of(ticket: &[u8]) -> &[u8] {
    let Ok(bytes) = <&[u8; TICKET_LEN]>::try_from(ticket) else {
        return &[];
    };
    let tx_id = unpadded(field::<TX_ID_LEN>(bytes, TX_ID_AT));
    if is_tx_id(tx_id) {
        tx_id
    } else {
        &[]
    }
}
