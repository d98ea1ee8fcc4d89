//! What is counted of payers and TxIds: orders that share a TxId, and tickets of kinds 4 to 8 by the payer that they name.

use crate::tally::Seen;
use peer::book::{Order, Status, LATE};
use peer::codes::{is_bic, unpadded, Bic, BIC_LEN};
use peer::ticket::{Kind, Ticket, TICKET_LEN};
use std::collections::BTreeSet;

/// Where a ticket of kinds 4 to 8 has the payer's BIC.
const PAYER_AT: usize = 27;

/// A name for each of kinds 4 to 8.
macro_rules! by_kind {
    ($rest:literal) => {
        [
            concat!("answer ", $rest),
            concat!("recall ", $rest),
            concat!("return ", $rest),
            concat!("decline ", $rest),
            concat!("inquiry ", $rest),
        ]
    };
}

/// A name for each step of kinds 4 to 8.
macro_rules! by_step {
    ($rest:literal) => {
        [
            concat!("yes: ", $rest),
            concat!("no: ", $rest),
            concat!("recall: ", $rest),
            concat!("return: ", $rest),
            concat!("decline: ", $rest),
            concat!("inquiry: ", $rest),
        ]
    };
}

const OF_THE_FIRST: [&str; 6] = by_step!("the first of the orders with its TxId");
const OF_A_LATER: [&str; 6] = by_step!("a later one of the orders with its TxId");
const OTHER_PAYER: [&str; 5] = by_kind!("with the TxId of another payer, refusal 16");
const STRANGE_PAYER: [&str; 5] = by_kind!("with a held TxId and an unknown payer, refusal 16");
const OTHERS_PARTY: [&str; 5] = by_kind!("by the party of another order of its TxId, refusal 17");
const ZERO_PAYER: [&str; 5] = by_kind!("with payer zero, refusal 7");
const SMALL_PAYER: [&str; 5] = by_kind!("with a payer but for small letters, refusal 7");
const MALFORMED_PAYER: [&str; 5] = by_kind!("with another malformed payer, refusal 7");

/// Kinds 1, 2, 9, 10 and 11.
const WITHOUT_PAYER: [&str; 5] = [
    "cover in with a BIC in bytes 27 to 37, refusal 7",
    "cover out with a BIC in bytes 27 to 37, refusal 7",
    "cut with a BIC in bytes 27 to 37, refusal 7",
    "confirm with a BIC in bytes 27 to 37, refusal 7",
    "tick with a BIC in bytes 27 to 37, refusal 7",
];

const OTHERS: &[&str] = &[
    "order with another payer's TxId",
    "order with the TxId of two other payers or more",
    "order with the TxId of a payer whose first eight bytes it has",
    "order with the TxId of an order that ended",
    "order with another payer's TxId, refusal 14",
    "order with another payer's TxId, refusal 15",
    "order with another payer's TxId, refusal 20",
    "order with its payer's TxId, which no other has, refusal 13",
    "order with its payer's TxId, which another has too, refusal 13",
    "order with the TxId of its payer's ended order, refusal 13",
    "order that, BIC without XXX and TxId joined, is another",
    "order that, payer's number and TxId joined, is another",
    "yes: the payee has another order of that TxId",
    "no: the payee has another order of that TxId",
    "return: the payee has another order of that TxId",
    "decline: the payee has another order of that TxId",
    "yes to oneself, another has that TxId",
    "no to oneself, another has that TxId",
    "return above its order and within another of that TxId",
    "late recall, another order of that TxId is not late",
    "recall of the sender's TxId with another payer, refusal 16",
    "inquiry of the sender's TxId with another payer, refusal 16",
    "recall whose payer isn't its sender, refusal 17",
    "inquiry whose payer isn't its sender, refusal 17",
    "payer one byte off, refusal 16",
    "payer by a route's BIC that leads to it, refusal 16",
    "sender and payer no participants, refusal 12",
    "inquiries of a settled and of a refused order of a TxId",
    "inquiries of a settled and of an expired order of a TxId",
    "inquiries of a refused and of an expired order of a TxId",
];

/// Everything that is counted by name.
pub fn names() -> impl Iterator<Item = &'static str> {
    let by_step = [OF_THE_FIRST, OF_A_LATER].into_iter().flatten();
    let by_payer = [OTHER_PAYER, STRANGE_PAYER, OTHERS_PARTY, ZERO_PAYER, SMALL_PAYER, MALFORMED_PAYER, WITHOUT_PAYER];
    OTHERS.iter().copied().chain(by_step).chain(by_payer.into_iter().flatten())
}

type Rows = Vec<(bool, &'static str)>;

/// The names of what a ticket past refusals 7 to 11 met. The day's orders that ended and were inquired about before are given.
pub fn met(seen: &Seen, asked: &BTreeSet<usize>) -> impl Iterator<Item = &'static str> {
    let rows = match (seen.ticket.kind, seen.answer.refusal_number()) {
        (Kind::Order, 0) => new_order(seen),
        (Kind::Order, refusal) => refused_order(seen, refusal),
        (kind, refusal) => step_of(kind).map_or(vec![], |step| match refusal {
            0 => accepted(seen, step, asked),
            12 => vec![(seen.number_of(seen.ticket.named).is_none(), "sender and payer no participants, refusal 12")],
            16 => not_held(seen, step),
            17 => wrong_party(seen, step),
            19 => vec![(is_within_another(seen), "return above its order and within another of that TxId")],
            26 => vec![(is_another_in_time(seen), "late recall, another order of that TxId is not late")],
            _ => vec![],
        }),
    };
    rows.into_iter().filter(|(is_met, _)| *is_met).map(|(_, name)| name)
}

/// The place of a step of kinds 4 to 8 among those of six names.
fn step_of(kind: Kind) -> Option<usize> {
    [Kind::Yes, Kind::No, Kind::Recall, Kind::Return, Kind::Decline, Kind::Inquiry].iter().position(|step| *step == kind)
}

/// The place of its kind among those of five.
fn kind_of(step: usize) -> usize {
    step.saturating_sub(1)
}

/// The orders with the ticket's TxId and another payer than the ticket has.
fn others<'a>(seen: &'a Seen) -> impl Iterator<Item = &'a Order> {
    let payer = seen.number_of(seen.ticket.payer());
    seen.orders().iter().filter(move |order| order.tx_id == *seen.ticket.tx_id && Some(order.payer) != payer)
}

fn new_order(seen: &Seen) -> Rows {
    let Some((order, before)) = seen.orders().split_last() else {
        return vec![];
    };
    let bic = |order: &Order| *seen.bic_of(order.payer);
    let joined = |order: &Order| [without_xxx(&bic(order)), unpadded(&order.tx_id)].concat();
    let numbered = |order: &Order| [order.payer.to_string().as_bytes(), unpadded(&order.tx_id)].concat();
    let is_another = |joined: &dyn Fn(&Order) -> Vec<u8>| {
        before.iter().any(|other| other.payer != order.payer && other.tx_id != order.tx_id && joined(other) == joined(order))
    };
    let payers = others(seen).count();
    vec![
        (payers > 0, "order with another payer's TxId"),
        (payers > 1, "order with the TxId of two other payers or more"),
        (
            others(seen).any(|other| bic(other)[..8] == bic(order)[..8]),
            "order with the TxId of a payer whose first eight bytes it has",
        ),
        (others(seen).any(|other| ending(other).is_some()), "order with the TxId of an order that ended"),
        (is_another(&joined), "order that, BIC without XXX and TxId joined, is another"),
        (is_another(&numbered), "order that, payer's number and TxId joined, is another"),
    ]
}

fn without_xxx(bic: &Bic) -> &[u8] {
    bic.strip_suffix(b"XXX").unwrap_or(bic)
}

fn refused_order(seen: &Seen, refusal: u8) -> Rows {
    let has_others = others(seen).next().is_some();
    let has_ended = seen.order().is_some_and(|order| ending(order).is_some());
    vec![
        (refusal == 14 && has_others, "order with another payer's TxId, refusal 14"),
        (refusal == 15 && has_others, "order with another payer's TxId, refusal 15"),
        (refusal == 20 && has_others, "order with another payer's TxId, refusal 20"),
        (refusal == 13 && !has_others, "order with its payer's TxId, which no other has, refusal 13"),
        (refusal == 13 && has_others, "order with its payer's TxId, which another has too, refusal 13"),
        (refusal == 13 && has_ended, "order with the TxId of its payer's ended order, refusal 13"),
    ]
}

/// How its wait ended, by the code that tells it.
fn ending(order: &Order) -> Option<u8> {
    match order.status {
        Status::Waiting => None,
        Status::Settled(..) | Status::Returned(..) => Some(2),
        Status::Refused => Some(3),
        Status::Expired => Some(4),
    }
}

fn accepted(seen: &Seen, step: usize, asked: &BTreeSet<usize>) -> Rows {
    let (Some(number), Some(order)) = (seen.order_number(), seen.order()) else {
        return vec![];
    };
    let is_shared = others(seen).next().is_some();
    let is_first = seen.orders()[..number].iter().all(|before| before.tx_id != order.tx_id);
    let mut rows = vec![(is_shared && is_first, OF_THE_FIRST[step]), (is_shared && !is_first, OF_A_LATER[step])];
    let (is_own, has_payee) = (order.payer == order.payee, others(seen).any(|other| other.payee == order.payee));
    match seen.ticket.kind {
        Kind::Yes => {
            rows.push((has_payee, "yes: the payee has another order of that TxId"));
            rows.push((is_own && is_shared, "yes to oneself, another has that TxId"));
        }
        Kind::No => {
            rows.push((has_payee, "no: the payee has another order of that TxId"));
            rows.push((is_own && is_shared, "no to oneself, another has that TxId"));
        }
        Kind::Return => rows.push((has_payee, "return: the payee has another order of that TxId")),
        Kind::Decline => rows.push((has_payee, "decline: the payee has another order of that TxId")),
        Kind::Inquiry => {
            let asked_orders = || asked.iter().map(|&number| &seen.orders()[number]);
            let is_asked = |code| asked_orders().any(|other| other.tx_id == order.tx_id && ending(other) == Some(code));
            let are = |one, other| match ending(order) {
                Some(code) if code == one => is_asked(other),
                Some(code) if code == other => is_asked(one),
                _ => false,
            };
            rows.push((are(2, 3), "inquiries of a settled and of a refused order of a TxId"));
            rows.push((are(2, 4), "inquiries of a settled and of an expired order of a TxId"));
            rows.push((are(3, 4), "inquiries of a refused and of an expired order of a TxId"));
        }
        _ => (),
    }
    rows
}

/// The number of the order that an accepted inquiry asks about, if it has ended.
pub fn asked_and_ended(seen: &Seen) -> Option<usize> {
    let is_inquiry = seen.ticket.kind == Kind::Inquiry && seen.answer.refusal.is_none();
    seen.order_number().filter(|_| is_inquiry && seen.order().is_some_and(|order| ending(order).is_some()))
}

fn not_held(seen: &Seen, step: usize) -> Rows {
    let payer = seen.ticket.named;
    let is_held = others(seen).next().is_some();
    let is_known = seen.number_of(payer).is_some();
    let sender = seen.number_of(seen.ticket.sender);
    let is_own = others(seen).any(|order| Some(order.payer) == sender);
    let is_near = |order: &Order| seen.bic_of(order.payer).iter().zip(payer).filter(|(one, other)| one != other).count() == 1;
    let leads_to = seen.route_to(payer);
    vec![
        (is_held && is_known, OTHER_PAYER[kind_of(step)]),
        (is_held && !is_known, STRANGE_PAYER[kind_of(step)]),
        (is_own && seen.ticket.kind == Kind::Recall, "recall of the sender's TxId with another payer, refusal 16"),
        (is_own && seen.ticket.kind == Kind::Inquiry, "inquiry of the sender's TxId with another payer, refusal 16"),
        (others(seen).any(is_near), "payer one byte off, refusal 16"),
        (others(seen).any(|order| leads_to == Some(order.payer)), "payer by a route's BIC that leads to it, refusal 16"),
    ]
}

fn wrong_party(seen: &Seen, step: usize) -> Rows {
    let sender = seen.number_of(seen.ticket.sender);
    let by_payer = matches!(seen.ticket.kind, Kind::Recall | Kind::Inquiry);
    let party = |order: &Order| if by_payer { order.payer } else { order.payee };
    vec![
        (others(seen).any(|other| Some(party(other)) == sender), OTHERS_PARTY[kind_of(step)]),
        (seen.ticket.kind == Kind::Recall, "recall whose payer isn't its sender, refusal 17"),
        (seen.ticket.kind == Kind::Inquiry, "inquiry whose payer isn't its sender, refusal 17"),
    ]
}

fn is_within_another(seen: &Seen) -> bool {
    others(seen).any(|other| seen.ticket.amount <= other.amount)
}

fn is_another_in_time(seen: &Seen) -> bool {
    others(seen).any(|other| other.settled_at().is_some_and(|time| seen.ticket.time - time < LATE))
}

/// The name of a ticket that is refused by 7 for bytes 27 to 37 alone.
pub fn refused_by_7(bytes: &[u8; TICKET_LEN]) -> Option<&'static str> {
    let payer: &Bic = bytes[PAYER_AT..].first_chunk()?;
    let with = |other: &Bic| {
        let mut ticket = *bytes;
        ticket[PAYER_AT..PAYER_AT + BIC_LEN].copy_from_slice(other);
        Ticket::read(&ticket).is_ok()
    };
    match bytes[0] {
        kind @ 4..=8 if with(b"AAAALV22XXX") => {
            let place = usize::from(kind) - 4;
            let is_small = is_bic(&payer.to_ascii_uppercase());
            Some(
                if *payer == [0; BIC_LEN] {
                    ZERO_PAYER
                } else if is_small {
                    SMALL_PAYER
                } else {
                    MALFORMED_PAYER
                }[place],
            )
        }
        kind @ (1 | 2 | 9..=11) if is_bic(payer) && with(&[0; BIC_LEN]) => {
            let place = [1, 2, 9, 10, 11].iter().position(|other| *other == kind)?;
            Some(WITHOUT_PAYER[place])
        }
        _ => None,
    }
}

#[cfg(test)]
mod tests {
    use super::*;
    use crate::tally::Tally;
    use peer::writing::{padded, participant_row, route_row, Day, TicketFields};

    /// A and its first eight bytes with XXX, B, and a route's BIC that leads to A.
    const A: &Bic = b"AAAALV22ABC";
    const SHORT: &Bic = b"AAAALV22XXX";
    const B: &Bic = b"BBBBLV22XXX";
    const TO_A: &Bic = b"CCCCLV22XXX";
    const STRANGER: &Bic = b"DDDDLV22XXX";
    const NOTHING: [&str; 0] = [];

    fn fields(kind: u8, sender: &Bic, named: &Bic, tx_id: &[u8]) -> TicketFields {
        TicketFields { sender: *sender, named: *named, tx_id: padded(tx_id), ..TicketFields::new(kind, 0) }
    }

    fn order(payer: &Bic, payee: &Bic, tx_id: &[u8]) -> TicketFields {
        TicketFields { amount: 400, iban: padded(b"LV80BANK0000435195001"), ..fields(3, payer, payee, tx_id) }
    }

    /// About the order X.
    fn about(kind: u8, sender: &Bic, payer: &Bic) -> TicketFields {
        let (flag, amount) = if kind == 6 { (0, 400) } else { (u8::from(kind != 8), 0) };
        TicketFields { flag, amount, ..fields(kind, sender, payer, b"X") }
    }

    fn no(sender: &Bic, payer: &Bic) -> TicketFields {
        TicketFields { flag: 2, ..about(4, sender, payer) }
    }

    /// What the last of the tickets meets, behind cover for the three.
    fn names_of(tickets: &[TicketFields]) -> Vec<&'static str> {
        let bics = [A, SHORT, B];
        let covers = bics.map(|bic| TicketFields { amount: 1000, sender: *bic, ..TicketFields::new(1, 0) });
        let met_by = |tickets: &[TicketFields]| {
            let day = Day {
                participants: bics.iter().map(|bic| participant_row(bic, 0, None)).collect(),
                routes: (0..).zip([A, SHORT, B]).map(|(k, bic)| route_row(bic, 0, k)).chain([route_row(TO_A, 0, 0)]).collect(),
                tickets: covers.iter().chain(tickets).map(TicketFields::bytes).collect(),
            };
            let mut tally = Tally::new();
            tally.day(&day.bytes(), None);
            names().map(|name| (name, tally.steps(name))).collect::<Vec<_>>()
        };
        let before = met_by(&tickets[..tickets.len() - 1]);
        let more = met_by(tickets).into_iter().zip(before).filter(|(after, before)| after.1 > before.1);
        more.map(|((name, _), _)| name).collect()
    }

    #[test]
    fn names_are_told_apart() {
        let all: Vec<_> = names().collect();
        assert_eq!(all.iter().collect::<BTreeSet<_>>().len(), all.len());
    }

    #[test]
    fn orders() {
        let first = order(A, B, b"X");
        assert_eq!(names_of(std::slice::from_ref(&first)), NOTHING);
        assert_eq!(names_of(&[first.clone(), order(A, B, b"Y")]), NOTHING);
        assert_eq!(names_of(&[first.clone(), order(B, A, b"X")]), ["order with another payer's TxId"]);
        let eight = "order with the TxId of a payer whose first eight bytes it has";
        assert_eq!(names_of(&[first.clone(), order(SHORT, B, b"X")]), ["order with another payer's TxId", eight]);
        let third = ["order with another payer's TxId", "order with the TxId of two other payers or more", eight];
        assert_eq!(names_of(&[first.clone(), order(B, A, b"X"), order(SHORT, B, b"X")]), third);
        let ended = ["order with another payer's TxId", "order with the TxId of an order that ended"];
        assert_eq!(names_of(&[first.clone(), no(B, A), order(B, A, b"X")]), ended);
        let joined = "order that, BIC without XXX and TxId joined, is another";
        assert_eq!(names_of(&[first.clone(), order(SHORT, B, b"ABCX")]), [joined]);
        assert_eq!(names_of(&[order(SHORT, B, b"ABCX"), first.clone()]), [joined]);
    }

    #[test]
    fn orders_with_their_payers_tx_id() {
        let (first, other) = (order(A, B, b"X"), order(B, A, b"X"));
        let alone = "order with its payer's TxId, which no other has, refusal 13";
        assert_eq!(names_of(&[first.clone(), first.clone()]), [alone]);
        let ended = "order with the TxId of its payer's ended order, refusal 13";
        assert_eq!(names_of(&[first.clone(), no(B, A), first.clone()]), [alone, ended]);
        let too = "order with its payer's TxId, which another has too, refusal 13";
        assert_eq!(names_of(&[first.clone(), other.clone(), first.clone()]), [too]);
        let with = |refused: TicketFields| names_of(&[first.clone(), refused]);
        assert_eq!(with(TicketFields { named: *STRANGER, ..other.clone() }), ["order with another payer's TxId, refusal 14"]);
        assert_eq!(with(TicketFields { amount: 1001, ..other }), ["order with another payer's TxId, refusal 20"]);
    }

    #[test]
    fn steps() {
        let both = [order(A, B, b"X"), order(SHORT, B, b"X")];
        let after = |tickets: &[TicketFields]| names_of(&[&both[..], tickets].concat());
        let [payee_yes, payee_no] = ["yes", "no"].map(|word| format!("{word}: the payee has another order of that TxId"));
        assert_eq!(after(&[about(4, B, A)]), [payee_yes.as_str(), OF_THE_FIRST[0]]);
        assert_eq!(after(&[about(4, B, SHORT)]), [payee_yes.as_str(), OF_A_LATER[0]]);
        assert_eq!(after(&[no(B, SHORT)]), [payee_no.as_str(), OF_A_LATER[1]]);
        assert_eq!(after(&[about(8, A, A)]), [OF_THE_FIRST[5]]);
        let settled = [about(4, B, A), about(5, A, A)];
        assert_eq!(after(&settled), [OF_THE_FIRST[2]]);
        for (kind, step, word) in [(6, 3, "return"), (7, 4, "decline")] {
            let name = format!("{word}: the payee has another order of that TxId");
            assert_eq!(after(&[&settled[..], &[about(kind, B, A)]].concat()), [name.as_str(), OF_THE_FIRST[step]]);
        }
        let own = [order(A, B, b"X"), order(B, B, b"X")];
        let names = ["yes: the payee has another order of that TxId", "yes to oneself, another has that TxId", OF_A_LATER[0]];
        assert_eq!(names_of(&[&own[..], &[about(4, B, B)]].concat()), names);
        assert_eq!(names_of(&[order(A, B, b"X"), about(4, B, A)]), NOTHING);
    }

    #[test]
    fn inquiries_of_orders_that_ended_apart() {
        let both = [order(A, B, b"X"), order(SHORT, B, b"X"), about(4, B, A), no(B, SHORT)];
        let settled_and_refused = "inquiries of a settled and of a refused order of a TxId";
        let (of_a, of_short) = (about(8, A, A), about(8, SHORT, SHORT));
        let after = |tickets: &[TicketFields]| names_of(&[&both[..], tickets].concat());
        assert_eq!(after(std::slice::from_ref(&of_a)), [OF_THE_FIRST[5]]);
        assert_eq!(after(&[of_a.clone(), of_a.clone()]), [OF_THE_FIRST[5]]);
        assert_eq!(after(&[of_a.clone(), of_short.clone()]), [settled_and_refused, OF_A_LATER[5]]);
        assert_eq!(after(&[of_short, of_a]), [settled_and_refused, OF_THE_FIRST[5]]);
        let expired = [&both[..2], &[TicketFields { time: 19, ..about(4, B, A) }]].concat();
        let at_20 = |payer| TicketFields { time: 20, ..about(8, payer, payer) };
        let names = ["inquiries of a settled and of an expired order of a TxId", OF_A_LATER[5]];
        assert_eq!(names_of(&[&expired[..], &[at_20(A), at_20(SHORT)]].concat()), names);
    }

    #[test]
    fn payers_without_the_order() {
        let with = |ticket: TicketFields| names_of(&[order(A, B, b"X"), ticket]);
        for (place, kind) in (4..=8).enumerate() {
            assert_eq!(with(about(kind, B, B)), [OTHER_PAYER[place]]);
            assert_eq!(with(about(kind, B, STRANGER)), [STRANGE_PAYER[place]]);
            assert_eq!(with(about(kind, B, b"AAAALV22ABD")), ["payer one byte off, refusal 16", STRANGE_PAYER[place]]);
            assert_eq!(with(about(kind, B, TO_A)), ["payer by a route's BIC that leads to it, refusal 16", STRANGE_PAYER[place]]);
            assert_eq!(with(about(kind, STRANGER, STRANGER)), ["sender and payer no participants, refusal 12"]);
            assert_eq!(with(fields(8, B, B, b"Y")), NOTHING);
        }
        assert_eq!(with(about(5, A, B)), ["recall of the sender's TxId with another payer, refusal 16", OTHER_PAYER[1]]);
        assert_eq!(with(about(8, A, B)), ["inquiry of the sender's TxId with another payer, refusal 16", OTHER_PAYER[4]]);
    }

    #[test]
    fn wrong_parties() {
        let both = [order(A, B, b"X"), order(B, A, b"X")];
        let with = |ticket: TicketFields| names_of(&[&both[..], &[ticket]].concat());
        for (place, kind) in [(0, 4), (2, 6), (3, 7)] {
            assert_eq!(with(about(kind, A, A)), [OTHERS_PARTY[place]]);
            assert_eq!(with(about(kind, SHORT, A)), NOTHING);
        }
        assert_eq!(with(about(5, B, A)), ["recall whose payer isn't its sender, refusal 17", OTHERS_PARTY[1]]);
        assert_eq!(with(about(8, SHORT, A)), ["inquiry whose payer isn't its sender, refusal 17"]);
    }

    #[test]
    fn amounts_and_times_of_another_order() {
        let small = TicketFields { amount: 399, ..order(SHORT, B, b"X") };
        let asked = [small, order(A, B, b"X"), about(4, B, SHORT), about(5, SHORT, SHORT)];
        let within = names_of(&[&asked[..], &[about(6, B, SHORT)]].concat());
        assert_eq!(within, ["return above its order and within another of that TxId"]);
        let settled = [order(SHORT, B, b"X"), order(A, B, b"X"), about(4, B, SHORT), TicketFields { time: 1, ..about(4, B, A) }];
        let late_at = |time| names_of(&[&settled[..], &[TicketFields { time, ..about(5, SHORT, SHORT) }]].concat());
        assert_eq!(late_at(LATE), ["late recall, another order of that TxId is not late"]);
        assert_eq!(late_at(LATE + 1), NOTHING);
    }

    #[test]
    fn payers_refused_by_7() {
        for (place, kind) in (4..=8).enumerate() {
            let name = |payer: &Bic| refused_by_7(&about(kind, A, payer).bytes());
            assert_eq!(name(&[0; BIC_LEN]), Some(ZERO_PAYER[place]));
            assert_eq!(name(b"aaaalv22abc"), Some(SMALL_PAYER[place]));
            assert_eq!(name(b"AAAALV22ABc"), Some(SMALL_PAYER[place]));
            assert_eq!(name(b"AAAALV22\0\0\0"), Some(MALFORMED_PAYER[place]));
            let other_fault = TicketFields { sender: [0; BIC_LEN], ..about(kind, A, &[0; BIC_LEN]) };
            assert_eq!(refused_by_7(&other_fault.bytes()), None);
        }
        for (place, kind) in [1, 2, 9, 10, 11].into_iter().enumerate() {
            let sender = if kind == 9 || kind == 11 { &[0; BIC_LEN] } else { A };
            let ticket = TicketFields { amount: u64::from(sender == A), ..fields(kind, sender, B, b"") };
            assert_eq!(refused_by_7(&ticket.bytes()), Some(WITHOUT_PAYER[place]));
            assert_eq!(refused_by_7(&TicketFields { flag: 1, ..ticket.clone() }.bytes()), None);
            assert_eq!(refused_by_7(&TicketFields { named: padded(b"BBBB"), ..ticket }.bytes()), None);
        }
    }
}
