//! What is counted of recalls and of the answers to them: how long after the settlement they come, and what that does.

use crate::tally::Seen;
use peer::book::{Order, Recall, Status, LATE};
use peer::ticket::Kind;

/// The last settlement with a late recall, the one in the last second of 32 bits.
const LAST_WITH_LATE: u32 = u32::MAX - LATE;

/// Everything that is counted by name. A recall is late from 864,000 seconds after the settlement on, whatever refuses it.
pub const NAMES: &[&str] = &[
    "yes 864,000 seconds or more after the order",
    "recall of an order to a bank",
    "recall of an order to a linked system",
    "recall of an order to oneself",
    "recall 863,999 seconds after the settlement",
    "recall in time, 864,000 seconds or more after the order",
    "recall in time, settlement plus 864,000 above 32 bits",
    "recall in the last second, settled at 4,294,103,296",
    "late recall of an order to a bank",
    "late recall of an order to a linked system",
    "late recall of an order to oneself",
    "late recall 864,000 seconds after the settlement",
    "late recall more than 864,000 seconds after the settlement",
    "late recall of an order that waited 864,000 seconds or more",
    "late recall in the last second, settled at 4,294,103,295",
    "late recall by which orders expire",
    "second late recall of an order",
    "late recall by the wrong party, refusal 17",
    "late recall of an asked order, refusal 18",
    "late recall of a declined order, refusal 18",
    "late recall of a returned order, refusal 18",
    "return 864,000 seconds after the settlement",
    "return more than 864,000 seconds after the settlement",
    "return 864,000 seconds or more after the recall",
    "decline 864,000 seconds after the settlement",
    "decline more than 864,000 seconds after the settlement",
    "decline 864,000 seconds or more after the recall",
    "inquiry: settled, after a late recall",
];

type Rows = Vec<(bool, &'static str)>;

/// The names of what a ticket met.
pub fn met(seen: &Seen) -> impl Iterator<Item = &'static str> {
    let settled = seen.order().and_then(|order| order.settled_at().map(|time| (order, time)));
    let rows = settled.map_or(vec![], |(order, time)| rows(seen, order, time));
    rows.into_iter().filter(|(is_met, _)| *is_met).map(|(_, name)| name)
}

fn rows(seen: &Seen, order: &Order, settled_at: u32) -> Rows {
    let seconds = seen.ticket.time - settled_at;
    let since_recall = seen.recalled_at.map_or(0, |time| seen.ticket.time - time);
    match (seen.ticket.kind, seen.answer.refusal_number()) {
        (Kind::Yes, 0) => vec![(settled_at - order.time >= LATE, "yes 864,000 seconds or more after the order")],
        (Kind::Recall, 0) => in_time(seen, order, settled_at),
        (Kind::Recall, 26) => late(seen, order, settled_at),
        (Kind::Recall, 17 | 18) if seconds >= LATE => late_and_refused_before(seen, order),
        (Kind::Return, 0) => vec![
            (seconds == LATE, "return 864,000 seconds after the settlement"),
            (seconds > LATE, "return more than 864,000 seconds after the settlement"),
            (since_recall >= LATE, "return 864,000 seconds or more after the recall"),
        ],
        (Kind::Decline, 0) => vec![
            (seconds == LATE, "decline 864,000 seconds after the settlement"),
            (seconds > LATE, "decline more than 864,000 seconds after the settlement"),
            (since_recall >= LATE, "decline 864,000 seconds or more after the recall"),
        ],
        (Kind::Inquiry, 0) => vec![(is_unmarked(order) && seen.recalled_at.is_some(), "inquiry: settled, after a late recall")],
        _ => vec![],
    }
}

fn in_time(seen: &Seen, order: &Order, settled_at: u32) -> Rows {
    let is_last_second = seen.ticket.time == u32::MAX;
    vec![
        (seen.is_bank(order.payee), "recall of an order to a bank"),
        (!seen.is_bank(order.payee), "recall of an order to a linked system"),
        (order.payer == order.payee, "recall of an order to oneself"),
        (seen.ticket.time - settled_at == LATE - 1, "recall 863,999 seconds after the settlement"),
        (seen.ticket.time - order.time >= LATE, "recall in time, 864,000 seconds or more after the order"),
        (settled_at > LAST_WITH_LATE, "recall in time, settlement plus 864,000 above 32 bits"),
        (is_last_second && settled_at == LAST_WITH_LATE + 1, "recall in the last second, settled at 4,294,103,296"),
    ]
}

fn late(seen: &Seen, order: &Order, settled_at: u32) -> Rows {
    vec![
        (seen.is_bank(order.payee), "late recall of an order to a bank"),
        (!seen.is_bank(order.payee), "late recall of an order to a linked system"),
        (order.payer == order.payee, "late recall of an order to oneself"),
        (seen.ticket.time - settled_at == LATE, "late recall 864,000 seconds after the settlement"),
        (seen.ticket.time - settled_at > LATE, "late recall more than 864,000 seconds after the settlement"),
        (settled_at - order.time >= LATE, "late recall of an order that waited 864,000 seconds or more"),
        (settled_at == LAST_WITH_LATE, "late recall in the last second, settled at 4,294,103,295"),
        (seen.answer.reports > 0, "late recall by which orders expire"),
        (seen.recalled_at.is_some(), "second late recall of an order"),
    ]
}

fn late_and_refused_before(seen: &Seen, order: &Order) -> Rows {
    let is_18 = seen.answer.refusal_number() == 18;
    vec![
        (!is_18 && is_unmarked(order), "late recall by the wrong party, refusal 17"),
        (is_18 && matches!(order.status, Status::Settled(Recall::Asked, _)), "late recall of an asked order, refusal 18"),
        (is_18 && matches!(order.status, Status::Settled(Recall::Declined, _)), "late recall of a declined order, refusal 18"),
        (is_18 && matches!(order.status, Status::Returned(..)), "late recall of a returned order, refusal 18"),
    ]
}

fn is_unmarked(order: &Order) -> bool {
    matches!(order.status, Status::Settled(Recall::None, _))
}

#[cfg(test)]
mod tests {
    use super::*;
    use crate::tally::Tally;
    use peer::codes::Bic;
    use peer::writing::{padded, participant_row, route_row, Day, TicketFields};

    const BANK: &Bic = b"AAAALV22XXX";
    const SYSTEM: &Bic = b"BBBBLV22XXX";
    const TOP: u32 = u32::MAX;

    fn about(kind: u8, time: u32, sender: &Bic) -> TicketFields {
        let (flag, amount) = if kind == 6 { (0, 399) } else { (u8::from(kind != 8), 0) };
        TicketFields { flag, amount, sender: *sender, named: *BANK, tx_id: padded(b"X"), ..TicketFields::new(kind, time) }
    }

    /// What is met with an order of 400 from the bank to the linked system, made and settled at these times, and the tickets after it.
    fn names(times: (u32, u32), after: &[TicketFields]) -> Vec<&'static str> {
        let cover = TicketFields { amount: 1000, sender: *BANK, ..TicketFields::new(1, 0) };
        let iban = padded(b"LV80BANK0000435195001");
        let order = TicketFields { amount: 400, named: *SYSTEM, iban, flag: 0, ..about(3, times.0, BANK) };
        let tickets = [cover, order, about(4, times.1, SYSTEM)];
        let day = Day {
            participants: vec![participant_row(BANK, 0, None), participant_row(SYSTEM, 1, None)],
            routes: vec![route_row(SYSTEM, 0, 1)],
            tickets: tickets.iter().chain(after).map(TicketFields::bytes).collect(),
        };
        let mut tally = Tally::new();
        tally.day(&day.bytes(), None);
        NAMES.iter().copied().filter(|name| tally.steps(name) > 0).collect()
    }

    #[test]
    fn in_time() {
        let of_a_system = "recall of an order to a linked system";
        let at_the_end = "recall 863,999 seconds after the settlement";
        assert_eq!(names((5, 5), &[about(5, 5 + LATE - 2, BANK)]), [of_a_system]);
        assert_eq!(names((5, 5), &[about(5, 5 + LATE - 1, BANK)]), [of_a_system, at_the_end]);
        let by_the_order = "recall in time, 864,000 seconds or more after the order";
        assert_eq!(names((4, 5), &[about(5, 5 + LATE - 1, BANK)]), [of_a_system, at_the_end, by_the_order]);
        let long = "yes 864,000 seconds or more after the order";
        assert_eq!(names((5, 5 + LATE), &[about(5, 5 + LATE, BANK)]), [long, of_a_system, by_the_order]);
        let by_a_sum = "recall in time, settlement plus 864,000 above 32 bits";
        let first = TOP - LATE + 1;
        let in_the_last_second = [of_a_system, at_the_end, by_a_sum, "recall in the last second, settled at 4,294,103,296"];
        assert_eq!(names((first, first), &[about(5, TOP, BANK)]), in_the_last_second);
        assert_eq!(names((first, first), &[about(5, TOP - 1, BANK)]), [of_a_system, by_a_sum]);
    }

    #[test]
    fn late() {
        let of_a_system = "late recall of an order to a linked system";
        let (at, behind) =
            ("late recall 864,000 seconds after the settlement", "late recall more than 864,000 seconds after the settlement");
        let recall = |time| about(5, time, BANK);
        assert_eq!(names((5, 5), &[recall(5 + LATE)]), [of_a_system, at]);
        assert_eq!(names((5, 5), &[recall(6 + LATE)]), [of_a_system, behind]);
        let again = "second late recall of an order";
        assert_eq!(names((5, 5), &[recall(5 + LATE), recall(5 + LATE)]), [of_a_system, at, again]);
        let inquiry = "inquiry: settled, after a late recall";
        assert_eq!(names((5, 5), &[recall(5 + LATE), about(8, 5 + LATE, BANK)]), [of_a_system, at, inquiry]);
        let last = "late recall in the last second, settled at 4,294,103,295";
        assert_eq!(names((TOP - LATE, TOP - LATE), &[recall(TOP)]), [of_a_system, at, last]);
        let wrong_party = "late recall by the wrong party, refusal 17";
        assert_eq!(names((5, 5), &[about(5, 5 + LATE, SYSTEM)]), [wrong_party]);
    }

    #[test]
    fn late_and_recalled_before() {
        let recall = about(5, 5, BANK);
        let (of_a_system, late) = ("recall of an order to a linked system", about(5, 5 + LATE, BANK));
        let asked = "late recall of an asked order, refusal 18";
        assert_eq!(names((5, 5), &[recall.clone(), late.clone()]), [of_a_system, asked]);
        let declined = "late recall of a declined order, refusal 18";
        assert_eq!(names((5, 5), &[recall.clone(), about(7, 5, SYSTEM), late.clone()]), [of_a_system, declined]);
        let returned = "late recall of a returned order, refusal 18";
        assert_eq!(names((5, 5), &[recall, about(6, 5, SYSTEM), late]), [of_a_system, returned]);
    }

    #[test]
    fn answers_long_after() {
        let (of_a_system, recall) = ("recall of an order to a linked system", about(5, 6, BANK));
        for (kind, word) in [(6, "return"), (7, "decline")] {
            let names_at = |time| names((5, 5), &[recall.clone(), about(kind, time, SYSTEM)]);
            let at = format!("{word} 864,000 seconds after the settlement");
            let behind = format!("{word} more than 864,000 seconds after the settlement");
            let after_the_recall = format!("{word} 864,000 seconds or more after the recall");
            assert_eq!(names_at(4 + LATE), [of_a_system]);
            assert_eq!(names_at(5 + LATE), [of_a_system, &at]);
            assert_eq!(names_at(6 + LATE), [of_a_system, &behind, &after_the_recall]);
        }
    }
}
