//! 02, slip 6: an order's key is payer and TxId together, and kinds 4 to 8 name the payer.

use super::*;

/// A ticket of kinds 4 to 8 at 6, with a flag and an amount that fit its kind, about the order X that a payer pays.
fn about(kind: u8, sender: &[u8; 11], payer: &[u8; 11]) -> TicketFields {
    let (flag, amount) = (u8::from(matches!(kind, 4 | 5 | 7)), u64::from(kind == 6));
    TicketFields { amount, named: *payer, ..about_fields(kind, flag, 6, sender, "X") }
}

/// A and B each with 1000, and at 5 an order X of each: 400 from A to B, 300 from B to A.
fn two_orders() -> Trial {
    let mut trial = Trial::without_openings();
    for payer in [A, B] {
        trial.accept(&fields(1, 0, payer, 1000));
    }
    assert_eq!(trial.all(&order_fields(5, A, B, 400, "X")), (0, vec![(1, 1, 0, 400)]));
    assert_eq!(trial.all(&order_fields(5, B, A, 300, "X")), (0, vec![(0, 1, 1, 300)]));
    trial
}

/// The same, both settled; with marks, both recalled.
fn two_settled(marks: bool) -> Trial {
    let mut trial = two_orders();
    for (payer, payee) in [(A, B), (B, A)] {
        trial.accept(&about(4, payee, payer));
        if marks {
            trial.accept(&about(5, payer, payer));
        }
    }
    trial
}

fn statuses(trial: &Trial) -> Vec<Status> {
    trial.book.orders().iter().map(|order| order.status).collect()
}

#[test]
fn a_tx_id_is_held_once_for_each_payer() {
    let mut trial = two_orders();
    trial.accept(&fields(1, 5, SYSTEM, 1000));
    for payer in [A, B] {
        assert_eq!(trial.refusal(&order_fields(5, payer, SYSTEM, 1, "X")), 13);
        assert_eq!(trial.refusal(&order_fields(5, payer, payer, 2000, "X")), 13);
    }
    assert_eq!(trial.all(&order_fields(5, SYSTEM, A, 1, "X")), (0, vec![(0, 1, 2, 1)]));
    assert_eq!(trial.refusal(&order_fields(5, SYSTEM, B, 1, "X")), 13);
    assert_eq!(trial.refusal(&order_fields(5, STRANGER, B, 1, "X")), 12);
    let payers: Vec<u8> = trial.book.orders().iter().map(|order| order.payer).collect();
    assert_eq!(payers, [0, 1, 2]);
}

/// An order that has ended holds its payer's TxId, and no other payer's.
#[test]
fn ended_orders_hold_the_pair() {
    let ends = [
        (6, vec![about(4, B, A)]),
        (6, vec![TicketFields { flag: 2, ..about(4, B, A) }]),
        (25, vec![]),
        (6, vec![about(4, B, A), about(5, A, A), about(6, B, A)]),
        (6, vec![about(4, B, A), about(5, A, A), about(7, B, A)]),
    ];
    for (time, tickets) in ends {
        let mut trial = Trial::set_up_order(B);
        trial.accept(&fields(1, 5, B, 1000));
        tickets.iter().for_each(|ticket| trial.accept(ticket));
        assert_eq!(trial.refusal(&order_fields(time, A, B, 1, "X")), 13, "{:?}", trial.status());
        assert_ne!(trial.status(), Status::Waiting);
        trial.accept(&order_fields(time, B, A, 1, "X"));
        assert_eq!(trial.refusal(&order_fields(time, A, B, 1, "X")), 13);
    }
}

#[test]
fn each_order_is_answered_by_its_payee() {
    let mut trial = two_orders();
    assert_eq!(trial.all(&about(4, A, B)), (0, vec![(1, 2, 1, 300), (0, 2, 1, 300)]));
    assert_eq!(statuses(&trial), [Status::Waiting, Status::Settled(Recall::None, 6)]);
    assert_eq!(trial.all(&about(4, B, A)), (0, vec![(0, 2, 0, 400), (1, 2, 0, 400)]));
    assert_eq!(trial.cover(0), Cover { available: 900, ..Cover::default() });
    assert_eq!(trial.cover(1), Cover { available: 1100, ..Cover::default() });
    let mut trial = two_orders();
    assert_eq!(trial.all(&TicketFields { flag: 2, ..about(4, B, A) }), (0, vec![(0, 3, 0, 400)]));
    assert_eq!(statuses(&trial), [Status::Refused, Status::Waiting]);
    assert_eq!(trial.all(&about(4, A, B)), (0, vec![(1, 2, 1, 300), (0, 2, 1, 300)]));
}

#[test]
fn each_order_is_recalled_returned_declined_and_asked_about() {
    let [none, asked, declined] = [Recall::None, Recall::Asked, Recall::Declined].map(|mark| Status::Settled(mark, 6));
    let mut trial = two_settled(false);
    assert_eq!(trial.all(&about(5, B, B)), (0, vec![(0, 5, 1, 300)]));
    assert_eq!(statuses(&trial), [none, asked]);
    assert_eq!(trial.all(&about(8, A, A)), (0, vec![(0, 2, 0, 400)]));
    assert_eq!(trial.all(&about(8, B, B)), (0, vec![(1, 2, 1, 300), (0, 8, 1, 300)]));
    assert_eq!(trial.refusal(&about(6, B, A)), 18);
    let mut trial = two_settled(true);
    assert_eq!(trial.all(&about(7, B, A)), (0, vec![(0, 7, 0, 400)]));
    assert_eq!(statuses(&trial), [declined, asked]);
    assert_eq!(trial.refusal(&TicketFields { amount: 301, ..about(6, A, B) }), 19);
    assert_eq!(trial.all(&TicketFields { amount: 300, ..about(6, A, B) }), (0, vec![(1, 6, 1, 300)]));
    assert_eq!(statuses(&trial), [declined, Status::Returned(6, 300)]);
    assert_eq!(trial.all(&about(8, A, A)), (0, vec![(0, 2, 0, 400), (0, 7, 0, 400)]));
    assert_eq!(trial.all(&about(8, B, B)), (0, vec![(1, 6, 1, 300)]));
}

/// The settlement that a recall's time is held to is that of the payer's own order.
#[test]
fn lateness_goes_by_the_pair() {
    let mut trial = two_orders();
    trial.accept(&about(4, B, A));
    trial.accept(&TicketFields { time: 16, ..about(4, A, B) });
    assert_eq!(trial.refusal(&TicketFields { time: 6 + LATE, ..about(5, A, A) }), 26);
    trial.accept(&TicketFields { time: 6 + LATE, ..about(5, B, B) });
    assert_eq!(statuses(&trial), [Status::Settled(Recall::None, 6), Status::Settled(Recall::Asked, 16)]);
}

#[test]
fn orders_of_one_tx_id_end_apart() {
    let mut trial = two_orders();
    trial.accept(&fields(1, 5, SYSTEM, 50));
    trial.accept(&order_fields(5, SYSTEM, SYSTEM, 50, "X"));
    trial.accept(&TicketFields { flag: 2, ..about(4, A, B) });
    assert_eq!(trial.all(&TicketFields::new(11, 25)), (0, vec![(0, 4, 0, 400), (1, 4, 0, 400)]));
    assert_eq!(statuses(&trial), [Status::Expired, Status::Refused, Status::Waiting]);
    for (payer, report) in [(A, (0, 4, 0, 400)), (B, (1, 3, 1, 300)), (SYSTEM, (2, 8, 2, 50))] {
        assert_eq!(trial.all(&TicketFields { time: 25, ..about(8, payer, payer) }), (0, vec![report]));
    }
    assert_eq!(trial.refusal(&TicketFields { time: 25, ..about(4, B, A) }), 18);
}

/// The TxId is held, the pair isn't.
#[test]
fn another_payer_is_16() {
    for kind in 4..=8 {
        for payer in [B, SYSTEM] {
            for sender in [A, B, SYSTEM] {
                let mut trial = Trial::set_up_order(B);
                assert_eq!(trial.all(&about(kind, sender, payer)), (16, vec![]), "kind {kind}");
                assert_eq!(statuses(&trial), [Status::Waiting]);
            }
        }
    }
}

/// The pair is held, and another answers for it.
#[test]
fn the_wrong_sender_of_a_pair_that_is_held_is_17() {
    let mut trial = two_orders();
    for kind in 4..=8 {
        let by_payer = matches!(kind, 5 | 8);
        for (payer, payee) in [(A, B), (B, A)] {
            let wrong = if by_payer { payee } else { payer };
            for sender in [wrong, SYSTEM] {
                assert_eq!(trial.all(&about(kind, sender, payer)), (17, vec![]), "kind {kind}");
            }
        }
    }
    assert_eq!(statuses(&trial), [Status::Waiting, Status::Waiting]);
}

/// 16 and not 12, which is about the sender alone.
#[test]
fn a_payer_that_is_no_participant_is_16() {
    for kind in 4..=8 {
        let mut trial = Trial::set_up_order(B);
        for sender in [A, B, SYSTEM] {
            assert_eq!(trial.refusal(&about(kind, sender, STRANGER)), 16, "kind {kind}");
        }
        for payer in [A, STRANGER] {
            assert_eq!(trial.refusal(&about(kind, STRANGER, payer)), 12, "kind {kind}");
        }
        let expired = vec![(0, 4, 0, 400), (1, 4, 0, 400)];
        assert_eq!(trial.all(&TicketFields { time: 25, ..about(kind, A, STRANGER) }), (16, expired));
    }
}

#[test]
fn a_wrong_payer_is_7() {
    let wrong: [&[u8; 11]; 8] = [
        &[0; 11],
        b"aaaalv22xxx",
        b"AAAALV22xxx",
        b"AAAaLV22XXX",
        b"AAAALV22\0\0\0",
        b"AAAALV12XXX",
        b"AAAALV2OXXX",
        b"AAAALV22XX ",
    ];
    for kind in 4..=8 {
        let mut trial = Trial::set_up_order(B);
        for payer in wrong {
            for (sender, time) in [(A, 1000), (B, 1000), (STRANGER, 1000), (A, 4)] {
                let ticket = TicketFields { time, ..about(kind, sender, payer) };
                assert_eq!(trial.all(&ticket), (7, vec![]), "kind {kind}, {}", payer.escape_ascii());
            }
        }
        assert_eq!((trial.book.clock(), trial.status()), (5, Status::Waiting));
    }
}

#[test]
fn kinds_without_a_payer_leave_its_bytes_zero() {
    let mut trial = Trial::set_up_order(B);
    for kind in [1, 2, 9, 10, 11] {
        let ticket = if matches!(kind, 9 | 11) { TicketFields::new(kind, 5) } else { fields(kind, 5, A, 1) };
        for named in [*A, *STRANGER, padded(b"1")] {
            assert_eq!(trial.all(&TicketFields { named, ..ticket.clone() }), (7, vec![]), "kind {kind}");
        }
        assert_ne!(trial.refusal(&ticket), 7);
    }
}

#[test]
fn payer_and_payee_in_one() {
    let mut trial = Trial::set_up_order(A);
    trial.accept(&fields(1, 5, B, 1000));
    trial.accept(&order_fields(5, B, A, 300, "X"));
    assert_eq!(trial.refusal(&about(4, B, A)), 17);
    assert_eq!(trial.all(&about(4, A, A)), (0, vec![(0, 2, 0, 400), (0, 2, 0, 400)]));
    assert_eq!(trial.all(&about(4, A, B)), (0, vec![(1, 2, 1, 300), (0, 2, 1, 300)]));
    trial.accept(&about(5, A, A));
    assert_eq!(trial.refusal(&about(7, A, B)), 18);
    assert_eq!(trial.all(&about(7, A, A)), (0, vec![(0, 7, 0, 400)]));
}

/// Two pairs whose codes, joined without the BIC's XXX, or with the payer's number, are the same.
#[test]
fn pairs_are_not_joined() {
    let pairs: [(&[u8; 11], &str); 4] = [(A, "LV21"), (b"AAAALV22LV2", "1"), (b"AAAALV221XX", "1"), (A, "1XX1")];
    let bics: Vec<[u8; 11]> = (b'A'..=b'J').map(|byte| padded(&[b"AAAALV3", &[byte][..], b"XXX"].concat())).collect();
    let numbered: [(&[u8; 11], &str); 4] = [(pairs[1].0, "2"), (pairs[1].0, "22"), (&bics[9], "2"), (&bics[9], "22")];
    let mut roster: Vec<&[u8; 11]> = vec![A, pairs[1].0, pairs[2].0];
    roster.extend(&bics);
    let day = Day {
        participants: roster.iter().map(|bic| participant_row(bic, 0, None)).collect(),
        routes: vec![route_row(B, 0, 0)],
        tickets: vec![],
    };
    let mut trial = Trial::new(&day);
    roster.iter().for_each(|bic| trial.accept(&fields(1, 0, bic, 1000)));
    let all: Vec<_> = pairs.into_iter().chain(numbered).collect();
    for (payer, tx_id) in &all {
        trial.accept(&order_fields(0, payer, B, 1, tx_id));
    }
    for (number, (payer, tx_id)) in (0..).zip(&all) {
        assert_eq!(trial.refusal(&order_fields(0, payer, B, 1, tx_id)), 13);
        let asking = TicketFields { named: **payer, ..about_fields(8, 0, 0, payer, tx_id) };
        let to = trial.book.roster().participant_with(payer).unwrap();
        assert_eq!(trial.all(&asking), (0, vec![(to, 9, number, 1)]));
    }
}

#[test]
fn a_tx_id_of_all_32_payers() {
    let bics: Vec<[u8; 11]> =
        (b'A'..=b'Z').chain(b'2'..=b'7').map(|byte| padded(&[b"AAAALV", &[byte][..], b"2XXX"].concat())).collect();
    let day = Day {
        participants: bics.iter().map(|bic| participant_row(bic, 0, None)).collect(),
        routes: vec![route_row(B, 0, 31)],
        tickets: vec![],
    };
    let mut trial = Trial::new(&day);
    for bic in &bics {
        trial.accept(&fields(1, 0, bic, 8));
    }
    for tx_id in 0..8 {
        bics.iter().for_each(|payer| trial.accept(&order_fields(0, payer, B, 1, &tx_id.to_string())));
    }
    assert_eq!(trial.refusal(&order_fields(0, &bics[0], B, 1, "8")), 15);
    for (to, payer) in (0..).zip(&bics) {
        assert_eq!(trial.refusal(&order_fields(0, payer, B, 1, "7")), 13);
        let asking = TicketFields { named: *payer, ..about_fields(8, 0, 0, payer, "5") };
        assert_eq!(trial.all(&asking), (0, vec![(to, 9, 5 * 32 + u16::from(to), 1)]));
    }
}
