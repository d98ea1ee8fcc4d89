//! Writing tickets and day files, for tests and for the check.

// A day of more rows than the limits allow is written too, and its header has the last two bytes of each number.
#![allow(clippy::cast_possible_truncation)]

use crate::codes::{Bic, Iban, TxId};
use crate::dayfile::{HEADER_LEN, PARTICIPANT_LEN, ROUTE_LEN};
use crate::ticket::TICKET_LEN;

/// A ticket's fields, any of which may be wrong.
#[derive(Clone, Debug)]
pub struct TicketFields {
    pub kind: u8,
    pub flag: u8,
    pub time: u32,
    pub amount: u64,
    pub sender: Bic,
    /// Bytes 27 to 37: an order's payee, or the payer of the order that kinds 4 to 8 are about.
    pub named: Bic,
    pub tx_id: TxId,
    pub iban: Iban,
}

impl TicketFields {
    /// A ticket with all other fields zero.
    pub fn new(kind: u8, time: u32) -> Self {
        TicketFields { kind, flag: 0, time, amount: 0, sender: [0; 11], named: [0; 11], tx_id: [0; 35], iban: [0; 34] }
    }

    pub fn bytes(&self) -> [u8; TICKET_LEN] {
        let mut bytes = [0; TICKET_LEN];
        bytes[0] = self.kind;
        bytes[1] = self.flag;
        bytes[4..8].copy_from_slice(&self.time.to_be_bytes());
        bytes[8..16].copy_from_slice(&self.amount.to_be_bytes());
        bytes[16..27].copy_from_slice(&self.sender);
        bytes[27..38].copy_from_slice(&self.named);
        bytes[38..73].copy_from_slice(&self.tx_id);
        bytes[73..107].copy_from_slice(&self.iban);
        bytes
    }
}

/// A code of at most LEN bytes, padded with zero bytes.
pub fn padded<const LEN: usize>(code: &[u8]) -> [u8; LEN] {
    let mut field = [0; LEN];
    field[..code.len()].copy_from_slice(code);
    field
}

/// A participant row. None stands for no wish.
pub fn participant_row(bic: &Bic, kind: u8, opening: Option<u64>) -> [u8; PARTICIPANT_LEN] {
    let mut row = [0; PARTICIPANT_LEN];
    row[..11].copy_from_slice(bic);
    row[11] = kind;
    row[12..20].copy_from_slice(&opening.unwrap_or(0).to_be_bytes());
    row[20] = opening.is_some().into();
    row
}

pub fn route_row(bic: &Bic, kind: u8, k: u16) -> [u8; ROUTE_LEN] {
    let mut row = [0; ROUTE_LEN];
    row[..11].copy_from_slice(bic);
    row[11] = kind;
    row[12..14].copy_from_slice(&k.to_be_bytes());
    row
}

/// The sections of a day file; its header follows from their lengths.
#[derive(Clone, Debug, Default)]
pub struct Day {
    pub participants: Vec<[u8; PARTICIPANT_LEN]>,
    pub routes: Vec<[u8; ROUTE_LEN]>,
    pub tickets: Vec<[u8; TICKET_LEN]>,
}

impl Day {
    pub fn bytes(&self) -> Vec<u8> {
        let counts = [self.participants.len(), self.routes.len(), self.tickets.len()];
        let routes_at = HEADER_LEN + counts[0] * PARTICIPANT_LEN;
        let tickets_at = routes_at + counts[1] * ROUTE_LEN;
        let mut bytes = Vec::with_capacity(tickets_at + counts[2] * TICKET_LEN);
        for number in counts.into_iter().chain([HEADER_LEN, routes_at, tickets_at]) {
            bytes.extend_from_slice(&(number as u16).to_be_bytes());
        }
        bytes.extend_from_slice(self.participants.as_flattened());
        bytes.extend_from_slice(self.routes.as_flattened());
        bytes.extend_from_slice(self.tickets.as_flattened());
        bytes
    }
}
