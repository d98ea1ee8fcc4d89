//! Makes a file on which the programs differ as small as it gets.

use peer::dayfile::{HEADER_LEN, PARTICIPANT_LEN, ROUTE_LEN};
use peer::ticket::TICKET_LEN;
use peer::writing::Day;

/// Drops tickets, routes and participants while the file still differs, or bytes if it has no such sections.
pub fn reduce(mut file: Vec<u8>, differs: impl Fn(&[u8]) -> bool) -> Vec<u8> {
    loop {
        let smaller = match sections(&file) {
            Some(day) => reduce_sections(day, &differs).bytes(),
            None => reduce_list(file.clone(), &differs),
        };
        if smaller.len() == file.len() {
            return file;
        }
        file = smaller;
    }
}

fn reduce_sections(mut day: Day, differs: &impl Fn(&[u8]) -> bool) -> Day {
    let rest = day.clone();
    day.tickets = reduce_list(day.tickets, |tickets| differs(&Day { tickets: tickets.to_vec(), ..rest.clone() }.bytes()));
    for number in (0..day.routes.len()).rev() {
        day = smaller_if_it_differs(without_route(&day, number), day, differs);
    }
    for number in (0..day.participants.len()).rev() {
        day = smaller_if_it_differs(without_participant(&day, number), day, differs);
    }
    day
}

fn smaller_if_it_differs(smaller: Day, day: Day, differs: &impl Fn(&[u8]) -> bool) -> Day {
    if differs(&smaller.bytes()) {
        smaller
    } else {
        day
    }
}

/// Drops ever shorter runs of a list.
pub fn reduce_list<T: Clone>(mut list: Vec<T>, differs: impl Fn(&[T]) -> bool) -> Vec<T> {
    let mut run = list.len().div_ceil(2);
    while run > 0 {
        let mut at = 0;
        while at < list.len() {
            let end = (at + run).min(list.len());
            let smaller = [&list[..at], &list[end..]].concat();
            if differs(&smaller) {
                list = smaller;
            } else {
                at = end;
            }
        }
        run /= 2;
    }
    list
}

/// The sections that the header's counts give, if the file is just as long as they are and the offsets fit.
fn sections(file: &[u8]) -> Option<Day> {
    let header: &[u8; HEADER_LEN] = file.first_chunk()?;
    let count = |at: usize| usize::from(u16::from_be_bytes([header[at], header[at + 1]]));
    let routes_at = HEADER_LEN + count(0) * PARTICIPANT_LEN;
    let tickets_at = routes_at + count(2) * ROUTE_LEN;
    let day = Day {
        participants: file.get(HEADER_LEN..routes_at)?.as_chunks().0.to_vec(),
        routes: file.get(routes_at..tickets_at)?.as_chunks().0.to_vec(),
        tickets: file[tickets_at..].as_chunks::<TICKET_LEN>().0.to_vec(),
    };
    (day.bytes() == file).then_some(day)
}

/// The day without a route row; the rows that other rows go on from keep their meaning.
fn without_route(day: &Day, number: usize) -> Day {
    let mut day = day.clone();
    day.routes.remove(number);
    lower_k(&mut day.routes, 1, number);
    day
}

fn without_participant(day: &Day, number: usize) -> Day {
    let mut day = day.clone();
    day.participants.remove(number);
    lower_k(&mut day.routes, 0, number);
    day
}

fn lower_k(routes: &mut [[u8; ROUTE_LEN]], kind: u8, above: usize) {
    for row in routes {
        let k = u16::from_be_bytes([row[12], row[13]]);
        if row[11] == kind && usize::from(k) > above {
            row[12..14].copy_from_slice(&(k - 1).to_be_bytes());
        }
    }
}

#[cfg(test)]
mod tests {
    use super::*;
    use peer::writing::{participant_row, route_row};

    #[test]
    fn tickets_rows_and_bytes_are_dropped() {
        let day = Day {
            participants: vec![participant_row(b"AAAALV22XXX", 0, None), participant_row(b"BBBBLV22XXX", 1, None)],
            routes: vec![route_row(b"AAAALV22XXX", 0, 0), route_row(b"BBBBLV22XXX", 0, 1), route_row(b"CCCCLV22XXX", 1, 1)],
            tickets: (0..40).map(|number| [number; TICKET_LEN]).collect(),
        };
        let has = |day: &Day, number| day.tickets.contains(&[number; TICKET_LEN]);
        let leads_to_b = |day: &Day| day.routes.contains(&route_row(b"BBBBLV22XXX", 0, day.participants.len() as u16 - 1));
        let differs = |file: &[u8]| {
            sections(file).is_some_and(|day| has(&day, 7) && has(&day, 31) && !day.participants.is_empty() && leads_to_b(&day))
        };
        let reduced = sections(&reduce(day.bytes(), differs)).unwrap();
        assert_eq!(reduced.tickets, [[7; TICKET_LEN], [31; TICKET_LEN]]);
        assert_eq!(reduced.routes, [route_row(b"BBBBLV22XXX", 0, 0)]);
        assert_eq!(reduced.participants.len(), 1);
        assert_eq!(reduce(b"many bytes".to_vec(), |bytes| bytes.contains(&b'y') && bytes.contains(&b'b')), b"by");
    }

    #[test]
    fn rows_that_go_on_keep_their_meaning() {
        let rows = [route_row(b"AAAALV22XXX", 0, 0), route_row(b"BBBBLV22XXX", 0, 3), route_row(b"CCCCLV22XXX", 1, 1)];
        let day = Day { routes: rows.to_vec(), ..Day::default() };
        assert_eq!(without_route(&day, 0).routes, [rows[1], route_row(b"CCCCLV22XXX", 1, 0)]);
    }
}
