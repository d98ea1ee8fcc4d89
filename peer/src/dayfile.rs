//! The day file: its header, participants, routes and tickets, and refusals 1 to 5.

// A participant is numbered below 32, which fits a byte.
#![allow(clippy::cast_possible_truncation)]

use crate::codes::{is_bic, Bic, BIC_LEN};
use crate::index::{hash, Index};
use crate::refusal::Refusal;
use crate::ticket::TICKET_LEN;

pub const HEADER_LEN: usize = 12;
pub const PARTICIPANT_LEN: usize = 24;
pub const ROUTE_LEN: usize = 16;
pub const MOST_PARTICIPANTS: usize = 32;
pub const MOST_ROUTES: usize = 64;
pub const MOST_TICKETS: usize = 512;
pub const MOST_OPENING: u64 = 1_000_000_000_000_000;

/// Whoever holds cover: a bank or a linked system.
#[derive(Clone, Copy, PartialEq, Eq, Debug)]
pub struct Participant {
    pub bic: Bic,
    pub is_bank: bool,
    /// The opening cover, if it wishes one.
    pub opening: Option<u64>,
}

/// A route row, followed to its end: the participant that it leads to and the rows followed, itself included.
#[derive(Clone, Copy, PartialEq, Eq, Debug)]
pub struct Route {
    pub bic: Bic,
    pub payee: u8,
    pub rows: u8,
}

/// The participants and routes of a day, found by BIC.
#[derive(Clone)]
pub struct Roster {
    participants: Vec<Participant>,
    routes: Vec<Route>,
    participant_index: Index<64>,
    route_index: Index<128>,
}

impl Roster {
    /// The roster of a refused file.
    pub fn empty() -> Self {
        Roster {
            participants: Vec::with_capacity(MOST_PARTICIPANTS),
            routes: Vec::with_capacity(MOST_ROUTES),
            participant_index: Index::new(),
            route_index: Index::new(),
        }
    }

    pub fn participants(&self) -> &[Participant] {
        &self.participants
    }

    pub fn routes(&self) -> &[Route] {
        &self.routes
    }

    /// The number of the participant with that BIC, or the index slot where it would go.
    fn participant(&self, bic: &Bic) -> Result<usize, usize> {
        self.participant_index.find(hash(bic), |number| self.participants[number].bic == *bic)
    }

    fn route(&self, bic: &Bic) -> Result<usize, usize> {
        self.route_index.find(hash(bic), |number| self.routes[number].bic == *bic)
    }

    pub fn participant_with(&self, bic: &Bic) -> Option<u8> {
        self.participant(bic).ok().map(|number| number as u8)
    }

    pub fn route_with(&self, bic: &Bic) -> Option<&Route> {
        self.route(bic).ok().map(|number| &self.routes[number])
    }

    /// Adds a participant row, or None if something is wrong with it.
    fn add_participant(&mut self, row: &[u8; PARTICIPANT_LEN]) -> Option<()> {
        let bic = read_bic(row)?;
        let [kind, opening @ .., wish, s0, s1, s2] = row.last_chunk::<13>()?;
        let opening = u64::from_be_bytes(*opening);
        let is_fine = *kind <= 1 && *wish <= 1 && opening <= MOST_OPENING && [*s0, *s1, *s2] == [0; 3];
        let slot = self.participant(&bic).err()?;
        if !is_fine || (*wish == 0 && opening != 0) {
            return None;
        }
        self.participant_index.put(slot, self.participants.len());
        self.participants.push(Participant { bic, is_bank: *kind == 0, opening: (*wish == 1).then_some(opening) });
        Some(())
    }

    /// Adds a route row, or None if something is wrong with it.
    fn add_route(&mut self, row: &[u8; ROUTE_LEN]) -> Option<()> {
        let bic = read_bic(row)?;
        let [kind, k0, k1, s0, s1] = row.last_chunk()?;
        let k = usize::from(u16::from_be_bytes([*k0, *k1]));
        let slot = self.route(&bic).err()?;
        let (payee, rows) = match kind {
            0 if k < self.participants.len() => (k as u8, 1),
            1 => self.routes.get(k).map(|next| (next.payee, next.rows + 1))?,
            _ => return None,
        };
        if [*s0, *s1] != [0; 2] {
            return None;
        }
        self.route_index.put(slot, self.routes.len());
        self.routes.push(Route { bic, payee, rows });
        Some(())
    }
}

fn read_bic(row: &[u8]) -> Option<Bic> {
    let bic: &[u8; BIC_LEN] = row.first_chunk()?;
    is_bic(bic).then_some(*bic)
}

/// A day file past refusals 1 to 5.
pub struct DayFile<'a> {
    pub roster: Roster,
    tickets: &'a [[u8; TICKET_LEN]],
}

impl<'a> DayFile<'a> {
    pub fn read(file: &'a [u8]) -> Result<Self, Refusal> {
        let header: &[u8; HEADER_LEN] = file.first_chunk().ok_or(Refusal::ShortFile)?;
        let [participants, routes, tickets, offsets @ ..] = numbers(header);
        if !(1..=MOST_PARTICIPANTS).contains(&participants) || routes > MOST_ROUTES || tickets > MOST_TICKETS {
            return Err(Refusal::Counts);
        }
        let routes_at = HEADER_LEN + participants * PARTICIPANT_LEN;
        let tickets_at = routes_at + routes * ROUTE_LEN;
        if offsets != [HEADER_LEN, routes_at, tickets_at] || file.len() != tickets_at + tickets * TICKET_LEN {
            return Err(Refusal::Layout);
        }
        let mut roster = Roster::empty();
        for row in file[HEADER_LEN..routes_at].as_chunks().0 {
            roster.add_participant(row).ok_or(Refusal::ParticipantRow)?;
        }
        for row in file[routes_at..tickets_at].as_chunks().0 {
            roster.add_route(row).ok_or(Refusal::RouteRow)?;
        }
        Ok(DayFile { roster, tickets: file[tickets_at..].as_chunks().0 })
    }

    pub fn tickets(&self) -> &'a [[u8; TICKET_LEN]] {
        self.tickets
    }
}

/// The six numbers of the header: three counts, then three offsets.
fn numbers(header: &[u8; HEADER_LEN]) -> [usize; 6] {
    std::array::from_fn(|at| usize::from(u16::from_be_bytes([header[2 * at], header[2 * at + 1]])))
}
