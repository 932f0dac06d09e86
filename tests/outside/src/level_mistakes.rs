//! Mistakes about the levels of a query: in what is left out, in the numbers that are handed over, in the steps, in ask texts and
//! in responses.
use crate::case::{handed, printed, query_outcome, Case, Handing, Outcome};
use crate::ffi::ReadQuery;
use crate::generate::lines;
use crate::paper::{self, Answer, Index, Levels, Query, Tables};
use crate::search_mistakes::Lent;
use crate::slow;

/// The first of these mistakes; the last is 155.
pub const FIRST: u64 = 105;

/// The papers with one of these mistakes.
pub fn outcome(mistake: u64, case: &Case) -> Outcome {
    match case {
        Case::Search(t, second, q, handing, list) => {
            let (t, q) = (with_codes(mistake, t, q), with_levels(mistake, q, *handing));
            let right = Case::search(t.clone(), second.clone(), q.clone(), list.clone()).expected();
            match right {
                Outcome::Answer(answer @ Answer { refusal: 0, .. }, listing) => {
                    let (answer, listing) = misstepped(mistake, (&t, second, &q, list), (answer, listing));
                    Outcome::Answer(answer, listing)
                }
                refused => refused,
            }
        }
        Case::Query(text) => misread(mistake, text),
        Case::Respond(plant, query) => misresponded(mistake, plant, query).map_or_else(|| case.expected(), printed),
        _ => case.expected(),
    }
}

/// The tables with codes taken for others by one of the mistakes 105 to 111.
fn with_codes(mistake: u64, t: &Tables, q: &Query) -> Tables {
    let no_terms = q.required.is_empty() && q.forbidden.is_empty();
    let taken_for = |code: u8| match (mistake, q.levels, code) {
        // true levels only lets 0 in
        (105, Levels::TrueOnly, 0) => 1,
        // true levels only lets 255 in
        (106, Levels::TrueOnly, 255) => 254,
        // true levels only leaves 1 out
        (107, Levels::TrueOnly, 1) => 0,
        // true levels only leaves 254 out
        (108, Levels::TrueOnly, 254) => 255,
        // true levels only leaves nothing out where no term is named
        (109, Levels::TrueOnly, _) if no_terms => 1,
        // any leaves 0 out, not 255
        (110, Levels::Any, 255) => 254,
        // any leaves 255 out, not 0
        (111, Levels::Any, 0) => 1,
        _ => code,
    };
    Tables { level: t.level.iter().map(|&code| taken_for(code)).collect(), ..t.clone() }
}

/// The query with the levels that one of the mistakes 110 to 121 takes the handed over numbers for.
fn with_levels(mistake: u64, q: &Query, handing: Handing) -> Query {
    let [number, low, high] = handed(q.levels, handing);
    let range = Levels::Range(low, high);
    let no_range = low > high || high > 254 || low == 0;
    let of_number = |number: u32| [Levels::Any, Levels::TrueOnly, range][number.min(2) as usize];
    let levels = match (mistake, number) {
        // 0 is true levels only
        (110..=112, 0) => Levels::TrueOnly,
        // 1 is any
        (113, 1) => Levels::Any,
        // 1 is a range, as it was
        (114, 1) => range,
        // 3 is any
        (115, 3) => Levels::Any,
        // what is above 2 is true levels only
        (116, 3..) => Levels::TrueOnly,
        // the low byte alone is looked at
        (117, _) => of_number(number % 256),
        // the low half alone is looked at
        (118, _) => of_number(number % 65_536),
        // ends that are no range are refused beside 0
        (119, 0) if no_range => range,
        // ends that are no range are refused beside 1
        (120, 1) if no_range => range,
        // a range from 0 to 0 is any
        (121, 2..) if (low, high) == (0, 0) => Levels::Any,
        _ => of_number(number),
    };
    Query { levels, ..q.clone() }
}

/// An accepted search with one of the mistakes 122 to 130.
fn misstepped(mistake: u64, lent: Lent, right: (Answer, Vec<u16>)) -> (Answer, Vec<u16>) {
    if !(122..=130).contains(&mistake) {
        return right;
    }
    let (mut answer, mut listing) = right;
    let (_, _, q, list) = lent;
    let left_out = left_out(lent);
    let (count, more) = (answer.count as usize, left_out.len() as u32);
    match (mistake, left_out.last()) {
        // a move less where a device is left out
        (122, Some(_)) => answer.moves = answer.moves.saturating_sub(1),
        // a move more for each device left out
        (123, _) => answer.moves += more,
        // each device left out counts as passed
        (124, _) => answer.passed += more,
        // the run stops at a device left out
        (125, Some(_)) => {
            let before = listing[..count].partition_point(|&d| d < left_out[0]);
            listing[before..count].copy_from_slice(&list[before..count]);
            answer = Answer { count: before as u32, position: left_out[0] as u32, ..answer };
        }
        // where the last device is left out, the run stops at it
        (126, Some(&last)) if last as u32 + 1 == answer.position => answer.position -= 1,
        // each device left out spends one of the budget
        (127, _) => return searched(lent, &Query { budget: q.budget.saturating_sub(more), ..q.clone() }),
        // what is left out is passed over before the cursors are brought to it
        (128, _) if q.budget == u32::MAX => return levels_first(lent),
        // devices left out are counted
        (129, _) => answer.count += more,
        // a device left out is written behind the listing
        (130, Some(&last)) => listing[count] = last,
        _ => (),
    }
    (answer, listing)
}

/// The search of what is lent for another query.
fn searched((t, second, _, list): Lent, q: &Query) -> (Answer, Vec<u16>) {
    let mut listing = list.to_vec();
    (t.search(second, q, &mut listing), listing)
}

/// The devices that a search for any level lists and this one leaves out.
fn left_out(lent: Lent) -> Vec<u16> {
    let (t, _, q, _) = lent;
    let (any, mut listing) = searched(lent, &Query { levels: Levels::Any, ..q.clone() });
    listing.truncate(any.count as usize);
    listing.retain(|&d| q.levels.leave_out(t.level[d as usize - 1]));
    listing
}

/// The search as if a term of all devices but those left out were required before the others, without what its cursor does.
fn levels_first((t, second, q, list): Lent) -> (Answer, Vec<u16>) {
    let wanted: Vec<u32> =
        (1..=t.size() as u32).filter(|&d| !q.levels.leave_out(t.level[d as usize - 1])).map(|d| 2 * d).collect();
    let lookup = |term: u32| if term == 0 { wanted.as_slice() } else { t.lookup(second, term) };
    let q = Query { required: [&[0], q.required.as_slice()].concat(), ..q.clone() };
    let mut listing = list.to_vec();
    let answer = t.run(lookup, &q, &mut listing);
    let made = t.moves_over(lookup, &q);
    let others = || made.iter().filter(|made| made.term != 0);
    let passed = others().map(|made| made.passed()).sum::<usize>() as u32;
    (Answer { passed, moves: others().count() as u32, ..answer }, listing)
}

/// What is read of an ask text with one of the mistakes 131 to 151.
fn misread(mistake: u64, text: &[u8]) -> Outcome {
    let taken = retold(mistake, text).filter(|taken| paper::read_query(taken).is_ok());
    let right = query_outcome(paper::read_query(taken.as_deref().unwrap_or(text)));
    let Outcome::Query(ReadQuery { refusal, numbers, .. }) = &right else { return right };
    let levels = match (mistake, *refusal, numbers[3]) {
        // no level line is any
        (131, 0, 1) => [0, 0, 0],
        // (level any) is true levels only
        (132, 0, 0) => [1, 0, 0],
        // a range comes with 1, as it did
        (133, 0, 2) => [1, numbers[4], numbers[5]],
        // any comes with the ends 0 and 255
        (134, 0, 0) => [0, 0, 255],
        // true levels only comes with the ends 1 and 254
        (135, 0, 1) => [1, 1, 254],
        // a refused text comes with any
        (136, 1.., _) => [0, 0, 0],
        // a refused text comes with the levels that it says
        (137, 1.., _) => slow::level_line(text).unwrap_or([1, 0, 0]),
        // (level any) is refused
        (138, 0, 0) => return query_outcome(Err((31, line_of_any(text)))),
        _ => return right,
    };
    with_numbers(right, levels)
}

/// A query as read, with other numbers for its levels.
fn with_numbers(read: Outcome, levels: [usize; 3]) -> Outcome {
    let Outcome::Query(mut read) = read else { return read };
    read.numbers[3..6].copy_from_slice(&levels);
    Outcome::Query(read)
}

const ANY: &[u8] = b"(level any)\n";

/// The number of the line that asks for any level.
fn line_of_any(text: &[u8]) -> u32 {
    lines(text).iter().take_while(|line| *line != ANY).count() as u32 + 1
}

/// Whether a line asks for a range.
fn is_range(line: &[u8]) -> bool {
    let alone = [b"(ask\n", line, b")\n"].concat();
    paper::read_query(&alone).is_ok_and(|q| matches!(q.levels, Levels::Range(..)))
}

/// The text as a reader with one of the mistakes 139 to 151 takes it, where it is not taken as it stands.
fn retold(mistake: u64, text: &[u8]) -> Option<Vec<u8>> {
    let mut all = lines(text);
    let any = |i: usize| all.get(i).is_some_and(|line| line == ANY);
    let range = |i: usize| all.get(i).is_some_and(|line| is_range(line));
    let first = |is: &dyn Fn(usize) -> bool| (0..all.len()).find(|&i| is(i));
    let opens = |i: usize, opening: &[u8]| all.get(i).is_some_and(|line| line.starts_with(opening));
    match mistake {
        // a second level line is taken: any after a range, a range after any, any after any, a range after a range
        139 => drop(all.remove(first(&|i| range(i) && any(i + 1))?)),
        140 => drop(all.remove(first(&|i| any(i) && range(i + 1))?)),
        141 => drop(all.remove(first(&|i| any(i) && any(i + 1))?)),
        142 => drop(all.remove(first(&|i| range(i) && range(i + 1))?)),
        // (level any) is taken after a from line
        143 => {
            let i = first(&|i| opens(i, b"(from ") && any(i + 1))?;
            all.swap(i, i + 1);
        }
        // (level any) is taken before a line with a term
        144 => {
            let i = first(&|i| any(i) && (opens(i + 1, b"(need ") || opens(i + 1, b"(not ")))?;
            all.swap(i, i + 1);
        }
        _ => {
            let line = taken_for_any(mistake)?;
            let i = first(&|i| all[i] == line)?;
            all[i] = ANY.to_vec();
        }
    }
    Some(all.concat())
}

/// The line that one of the mistakes 145 to 151 takes for any level.
fn taken_for_any(mistake: u64) -> Option<&'static [u8]> {
    let lines: [&[u8]; 7] = [
        b"(level any 5)\n",
        b"(level any )\n",
        b"(level  any)\n",
        b"(level Any)\n",
        b"(level all)\n",
        b"(level any\n",
        b"(level)\n",
    ];
    lines.get(mistake.checked_sub(145)? as usize).copied()
}

/// What is printed with one of the mistakes from 152 on, where that differs.
fn misresponded(mistake: u64, plant: &[u8], query: &[u8]) -> Option<Vec<u8>> {
    let levels = paper::read_query(query).ok()?.levels;
    let searched = |levels: Levels| {
        let search =
            |t: &Tables, q: &Query, answer: &mut [u16]| t.search(&Index::default(), &Query { levels, ..q.clone() }, answer);
        Some(paper::respond_by(plant, query, search))
    };
    match (mistake, levels) {
        // no level line is any
        (152, Levels::TrueOnly) => searched(Levels::Any),
        // (level any) is true levels only
        (153, Levels::Any) => searched(Levels::TrueOnly),
        // (level any) is the range 0 to 255
        (154, Levels::Any) => searched(Levels::Range(0, 255)),
        // (level any) is refused, after the plant
        (155, Levels::Any) if paper::read_plant(plant, paper::ROOM).is_ok() => {
            Some(format!("(refused ask 31 {})\n", line_of_any(query)).into_bytes())
        }
        _ => None,
    }
}
