//! Mistakes of a search in two indexes, and of a response to a plant text with terms of the second.
use crate::case::parted;
use crate::paper::{self, Answer, Index, Query, Tables, LIMIT};

/// What is lent to a search.
pub type Lent<'a> = (&'a Tables, &'a Index, &'a Query, &'a [u16]);

/// A search with one of the mistakes 71 to 99.
pub fn missearched(mistake: u64, lent: Lent, right: (Answer, Vec<u16>)) -> (Answer, Vec<u16>) {
    let (t, second, q, list) = lent;
    let (mut answer, mut listing) = right;
    let in_second = || t.moves(second, q).into_iter().filter(|made| made.term >= LIMIT as u32);
    match (mistake, answer.refusal) {
        (71..=77, 0) => return run(lent, |term| wrongly_looked_up(mistake, t, second, term)),
        (78..=94, _) => match wrongly_refused(mistake, t, second, q, list.len()) {
            // where the second index should be refused, it is not searched
            0 if t.check_second(second) != 0 => return run(lent, |term| wrongly_looked_up(73, t, second, term)),
            0 => return run(lent, |term| t.lookup(second, term)),
            refusal => return (Answer { refusal, ..Answer::default() }, list.to_vec()),
        },
        // moves in the lists of the second are not counted
        (95, 0) => answer.moves -= in_second().count() as u32,
        // what these pass is not counted
        (96, 0) => answer.passed -= in_second().map(|made| made.passed()).sum::<usize>() as u32,
        // the answer list is written to before the second index is refused
        (97, 55..=59) => listing.iter_mut().take(1).for_each(|entry| *entry ^= 1),
        // the answer list is written to before 15
        (98, 15) => listing.iter_mut().take(1).for_each(|entry| *entry ^= 1),
        // 15 comes with the position
        (99, 15) => answer.position = q.start,
        _ => (),
    }
    (answer, listing)
}

/// The search of what is lent over the lists that are looked up.
fn run<'a>((t, _, q, list): Lent<'a>, lookup: impl Fn(u32) -> &'a [u32]) -> (Answer, Vec<u16>) {
    let mut listing = list.to_vec();
    (t.run(lookup, q, &mut listing), listing)
}

/// The list of a term with one of the mistakes 71 to 77.
fn wrongly_looked_up<'a>(mistake: u64, t: &'a Tables, second: &'a Index, term: u32) -> &'a [u32] {
    let above = term >= LIMIT as u32;
    let place = |terms: &[u16]| terms.iter().position(|&other| other as u32 == term);
    match mistake {
        // the second is searched for 32,767
        71 if term == 32_767 => &[],
        // the first is searched for 32,768
        72 if term == 32_768 => &[],
        // the second is not searched
        73 if above => &[],
        // a part of the first's postings, by the second's starts
        74 if above => place(&second.terms).map_or(&[], |k| part(&second.starts, &t.postings, k)),
        // a part of the second's postings, by the first's starts
        75 if !above => place(&t.terms).map_or(&[], |k| part(&t.starts, &second.postings, k)),
        // where the first lacks a term, the second is searched for the one as far above the limit
        76 if !above && place(&t.terms).is_none() => t.lookup(second, term + LIMIT as u32),
        // where the second lacks a term, the first is searched for the one as far below
        77 if above && place(&second.terms).is_none() => t.lookup(second, term - LIMIT as u32),
        _ => t.lookup(second, term),
    }
}

/// The list at index k, where the postings may be those of another index.
fn part<'a>(starts: &[u32], postings: &'a [u32], k: usize) -> &'a [u32] {
    let end = starts.get(k + 1).map_or(postings.len(), |&start| start as usize);
    postings.get(starts[k] as usize..end).unwrap_or(&[])
}

/// The refusal of a search with one of the mistakes 78 to 94.
fn wrongly_refused(mistake: u64, t: &Tables, second: &Index, q: &Query, room: usize) -> u32 {
    let (of_first, of_second, of_query) = (t.check(), t.check_second(second), t.query_refusal(q, room));
    let above = |limit: u16| t.terms.iter().any(|&term| term >= limit);
    let below = |limit: u16| second.terms.iter().any(|&term| term < limit);
    let number = |misplaced: bool| if misplaced { 15 } else { 0 };
    let misplaced = number(above(LIMIT) || below(LIMIT));
    let missing = |row: u32| if of_second == row { 0 } else { of_second };
    let rows = match mistake {
        // 15 comes before 55
        78 => [of_first, misplaced, of_second, of_query],
        // 15 comes after 10
        79 => [of_first, of_second, if of_query == 10 { 10 } else { misplaced }, of_query],
        // 15 comes after 14
        80 => [of_first, of_second, of_query, misplaced],
        // 55 to 59 come before 5 to 9
        81 if of_first > 4 => [of_second, of_first, 0, 0],
        // the second's rows have the numbers of the first's
        82 => [of_first, of_second.saturating_sub(50), misplaced, of_query],
        // the second is not checked
        83 => [of_first, misplaced, of_query, 0],
        // 55, 56, 57, 58 or 59 is not looked at
        84..=88 => [of_first, missing(mistake as u32 - 29), misplaced, of_query],
        // 15 is for the first alone
        89 => [of_first, of_second, number(above(LIMIT)), of_query],
        // 15 is for the second alone
        90 => [of_first, of_second, number(below(LIMIT)), of_query],
        // only the first term of the first is looked at
        91 => [of_first, of_second, number(t.terms.first().is_some_and(|&term| term >= LIMIT) || below(LIMIT)), of_query],
        // only the last term of the second is looked at
        92 => [of_first, of_second, number(above(LIMIT) || second.terms.last().is_some_and(|&term| term < LIMIT)), of_query],
        // the first may have 32,768
        93 => [of_first, of_second, number(above(LIMIT + 1) || below(LIMIT)), of_query],
        // the second may have 32,767
        94 => [of_first, of_second, number(above(LIMIT) || below(LIMIT - 1)), of_query],
        _ => [of_first, of_second, misplaced, of_query],
    };
    rows.into_iter().find(|&row| row != 0).unwrap_or(0)
}

/// What is printed with one of the mistakes 100 to 104, where that differs.
pub fn misresponded(mistake: u64, plant: &[u8], query: &[u8]) -> Option<Vec<u8>> {
    let t = paper::read_plant(plant, paper::ROOM).ok()?;
    let highest = t.terms.last().copied().unwrap_or(0);
    let refused = Some(b"(refused query 15)\n".to_vec());
    let answered = || {
        let (first, second) = parted(&t);
        Some(paper::respond_by(plant, query, |_, query, answer| first.search(&second, query, answer)))
    };
    let good = paper::read_query(query).is_ok();
    match mistake {
        // a term of 32,768 is answered
        100 if highest == 32_768 => answered(),
        // a term of 32,767 is refused
        101 if highest == 32_767 && good => refused,
        // the terms from 32,768 up are handed in as the second index
        102 => answered(),
        // 15 comes before what an ask text is refused for
        103 if highest >= LIMIT => refused,
        // 15 comes after the other refusals of the query
        104 if highest >= LIMIT => answered().filter(|text| text.starts_with(b"(refused query")),
        _ => None,
    }
}
