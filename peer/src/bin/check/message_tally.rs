//! Counts what the messages met: refusals and why, each fault by its name, which of two faults counts, and what accepted ones have.

use crate::message_faults::FAULTS;
use crate::message_freedoms::FREEDOMS;
use crate::message_tree::{path, ROWS, TEXTS};
use crate::messages::{stage, Made};
use crate::tally::print_row;
use crate::verdict::Lacks;
use peer::message::read;
use peer::ticket::{Kind, Ticket};
use std::collections::BTreeMap;

/// Why this reader refuses, in its own words; those about named elements have the element's path behind them.
const WHY: &[(u8, &str)] = &[
    (23, "text above 65,520 bytes"),
    (23, "no root"),
    (23, "byte order mark"),
    (23, "text before the root"),
    (23, "end tag before the root"),
    (23, "text behind the root"),
    (23, "end tag behind the root"),
    (23, "element behind the root"),
    (23, "no element nor white space behind the root"),
    (23, "declaration: no white space behind <?xml"),
    (23, "declaration: no version"),
    (23, "declaration: version other than 1.0"),
    (23, "declaration: no white space before encoding"),
    (23, "declaration: encoding is no name of one"),
    (23, "declaration: no white space before standalone"),
    (23, "declaration: standalone other than yes and no"),
    (23, "declaration: not ended by ?>"),
    (23, "element at depth 17"),
    (23, "comment"),
    (23, "CDATA"),
    (23, "DOCTYPE"),
    (23, "processing instruction"),
    (23, "name that begins otherwise"),
    (23, "/ in a tag without > behind it"),
    (23, "start tag: neither attribute nor end"),
    (23, "no white space before an attribute"),
    (23, "no = behind an attribute's name"),
    (23, "value in single quotes"),
    (23, "value without quotes"),
    (23, "< in a value"),
    (23, "& in a value"),
    (23, "attribute repeated"),
    (23, "& in text"),
    (23, "end tag without a name"),
    (23, "end tag of another name"),
    (23, "end tag: no > behind its name"),
    (23, "text ends in a value"),
    (23, "text ends in a start tag"),
    (23, "text ends in an element"),
    (23, "text ends behind <"),
    (24, "another root"),
    (24, "out of order in FIToFICstmrCdtTrf"),
    (24, "out of order in CdtTrfTxInf"),
    (25, "amount without attribute"),
    (25, "amount with another attribute"),
    (25, "Ccy other than EUR"),
    (25, "amount with two attributes or more"),
    (25, "amount without a point"),
    (25, "amount with a byte other than digits and a point"),
    (25, "amount without a digit before the point"),
    (25, "amount with ten digits or more before the point"),
    (25, "amount with fewer than two digits behind the point"),
    (25, "amount with more than two digits behind the point"),
    (25, "amount zero"),
    (7, "sender BIC of 8 bytes wrong"),
    (7, "sender BIC of 11 bytes wrong"),
    (7, "sender BIC of another length"),
    (7, "payee BIC of 8 bytes wrong"),
    (7, "payee BIC of 11 bytes wrong"),
    (7, "payee BIC of another length"),
    (7, "TxId wrong"),
    (8, "IBAN wrong"),
];

pub struct MessageTally {
    pub messages: u64,
    /// By refusal, 0 for accepted messages.
    answers: BTreeMap<u8, u64>,
    why: Vec<(u8, String, u64)>,
    /// Messages with one fault that met what it is to meet.
    faults: Vec<u64>,
    /// Messages with faults for two refusals, the first of which was met; for 7 with the code that has it.
    pairs: Vec<(u8, u8, &'static str, u64)>,
    used: BTreeMap<&'static str, u64>,
    wrongly_met: Vec<String>,
}

impl MessageTally {
    pub fn new() -> Self {
        let refusals = [23, 24, 25, 7, 8];
        let pairs = (0..4).flat_map(|first| (first + 1..5).map(move |second| (refusals[first], refusals[second])));
        let codes = |pair| if pair == (7, 8) { vec!["sender BIC", "payee BIC", "TxId"] } else { vec![""] };
        let pairs = pairs.flat_map(|pair| codes(pair).into_iter().map(move |code| (pair.0, pair.1, code, 0)));
        MessageTally {
            messages: 0,
            answers: [0, 23, 24, 25, 7, 8].map(|refusal| (refusal, 0)).into(),
            why: all_why(),
            faults: vec![0; FAULTS.len()],
            pairs: pairs.collect(),
            used: FREEDOMS.iter().map(|name| (*name, 0)).collect(),
            wrongly_met: vec![],
        }
    }

    pub fn message(&mut self, made: &Made) {
        let number = match read(&made.text, made.time) {
            Ok(ticket) => {
                self.accepted(made, &ticket);
                0
            }
            Err(flaw) => {
                let number = flaw.refusal.number();
                let row = self.why.iter_mut().find(|(refusal, why, _)| *refusal == number && *why == flaw.why);
                row.expect("the list has every reason").2 += 1;
                number
            }
        };
        self.messages += 1;
        *self.answers.get_mut(&number).expect("a message has no other refusal") += 1;
        if made.due().is_some_and(|due| due != number) {
            let names: Vec<&str> = made.faults.iter().map(|fault| &FAULTS[*fault].name[..]).collect();
            self.wrongly_met.push(format!("{number} of a message made with: {}", names.join(", ")));
        }
        if let [only] = made.faults[..] {
            self.faults[only] += u64::from(FAULTS[only].refusal == number);
        }
        self.pairs(made, number);
    }

    fn accepted(&mut self, made: &Made, ticket: &[u8]) {
        let order = Ticket::read(ticket);
        if !order.is_ok_and(|order| order.kind == Kind::Order && order.time == made.time) {
            self.wrongly_met.push("an accepted message whose ticket is no order past refusals 7 to 10".to_string());
        }
        if made.faults.is_empty() {
            made.used.iter().for_each(|name| *self.used.get_mut(name).expect("the list has every freedom") += 1);
        }
    }

    fn pairs(&mut self, made: &Made, number: u8) {
        let has = |refusal: u8, code: &str| {
            made.faults.iter().any(|fault| FAULTS[*fault].refusal == refusal && FAULTS[*fault].name.starts_with(code))
        };
        for (first, second, code, count) in &mut self.pairs {
            *count += u64::from(number == *first && has(*first, code) && has(*second, ""));
        }
    }

    /// Prints the table and gives the names of what was never met, or met where it can't be.
    pub fn print(&self) -> Lacks {
        let mut lacks = Lacks { wrongly_met: self.wrongly_met.clone(), ..Lacks::default() };
        println!("\nmessages {}", self.messages);
        for refusal in [0, 23, 24, 25, 7, 8] {
            let name = if refusal == 0 { "accepted".to_string() } else { format!("refusal {refusal}") };
            print_row(&name, self.answers[&refusal], &mut lacks);
        }
        println!("\nrefused messages, by what was met first");
        for (refusal, why, count) in &self.why {
            print_row(&format!("{refusal}: {why}"), *count, &mut lacks);
        }
        println!("\nmessages with one fault or at an edge");
        for (fault, count) in FAULTS.iter().zip(&self.faults) {
            let outcome = if fault.refusal == 0 { "accepted".to_string() } else { format!("refusal {}", fault.refusal) };
            print_row(&format!("{}, {outcome}", fault.name), *count, &mut lacks);
        }
        println!("\nmessages with faults for two refusals");
        for (first, second, code, count) in &self.pairs {
            let code = if code.is_empty() { String::new() } else { format!(", {code}") };
            print_row(&format!("{first} before {second}{code}"), *count, &mut lacks);
        }
        println!("\naccepted messages without a fault");
        for name in FREEDOMS {
            print_row(name, self.used[name], &mut lacks);
        }
        lacks
    }
}

/// All reasons, each with its refusal and a count.
fn all_why() -> Vec<(u8, String, u64)> {
    let missing = (1..ROWS.len()).map(|row| format!("missing {}", path(row)));
    let twice = (1..ROWS.len()).map(|row| format!("twice {}", path(row)));
    let element_in = TEXTS.iter().map(|row| format!("element in {}", path(*row)));
    let about_elements = missing.chain(twice).chain(element_in).map(|why| (24, why, 0));
    let others = WHY.iter().map(|(refusal, why)| (*refusal, (*why).to_string(), 0));
    let mut all: Vec<_> = others.chain(about_elements).collect();
    all.sort_by_key(|(refusal, ..)| stage(*refusal));
    all
}
