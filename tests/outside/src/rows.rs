//! Document 01's worked rows over plant P, and more over plant Q, which the plain implementation must give, in one index and in
//! two, what it writes, what it repairs and what it tightens.
use crate::bracket_cases;
use crate::case::{handed, parted, Case, Outcome};
use crate::generate::{self, of_tiers, query_text, P, Q};
use crate::level_cases;
use crate::paper::{read_plant, read_query, respond, Answer, Index, Levels, Query, Tables, LIMIT, ROOM};
use crate::random::Random;
use crate::repair_cases::{self, one_list, plants};
use crate::search_cases;
use crate::slow::{self, broken};
use crate::subjects::{Wrong, MISTAKES};
use crate::tighten_cases;
use crate::Subject;
use std::collections::BTreeSet;

/// The ask lines of a row, its devices, place, postings passed and moves.
type Row<'a> = (&'a str, &'a [u16], u32, u32, u32);

const ROWS: [Row; 12] = [
    ("(need 7)\n(level any)\n", &[2, 3, 5], 7, 0, 2),
    ("(need 9)\n(level any)\n", &[4, 5, 6], 7, 0, 0),
    ("(need 7)\n(not 9)\n(level any)\n", &[2, 3], 7, 0, 1),
    ("(need 9)\n(not 7)\n(level any)\n", &[4, 6], 7, 0, 2),
    ("(need 7)\n(level 100 140)\n", &[2], 7, 0, 2),
    ("(need 7)\n(not 9)\n(level any)\n(moves 0)\n", &[2, 3], 4, 0, 0),
    ("(need 8)\n(level any)\n", &[], 7, 0, 0),
    ("(not 8)\n(level any)\n", &[1, 2, 3, 4, 5, 6], 7, 0, 0),
    ("(need 7)\n(not 7)\n(level any)\n", &[], 7, 0, 3),
    ("(level 1 254)\n", &[1, 2, 4, 5, 6], 7, 0, 0),
    ("(need 9)\n(level any)\n(from 6)\n", &[6], 7, 0, 0),
    ("(need 7)\n(level any)\n(from 7)\n", &[], 7, 0, 0),
];

/// Rows over plant Q, whose moves pass postings over.
const PASSING: [Row; 11] = [
    // to the root of device 9, over three postings; then to the end
    ("(need 1)\n(need 4)\n", &[], 10, 3, 2),
    ("(need 1)\n(need 4)\n(moves 1)\n", &[], 9, 3, 1),
    ("(need 1)\n(need 4)\n(moves 0)\n", &[], 9, 0, 0),
    ("(not 4)\n(from 9)\n", &[9], 10, 3, 2),
    // past the branch of device 2, over two; the other moves land on the next posting or at the end
    ("(need 2)\n(need 4)\n", &[6, 8], 10, 2, 4),
    ("(need 2)\n(need 4)\n(moves 3)\n", &[6, 8], 9, 2, 3),
    // to the end at once, over two
    ("(need 1)\n(need 3)\n", &[], 10, 2, 1),
    ("(not 3)\n(from 7)\n(moves 1)\n", &[7, 8, 9], 10, 2, 1),
    // inside the branch of device 2, from posting to posting
    ("(need 3)\n(from 4)\n", &[4], 10, 0, 3),
    // each cursor of a repeated term passes over its own
    ("(need 1)\n(need 2)\n(not 3)\n(not 3)\n", &[9], 10, 4, 3),
    ("(need 1)\n(need 2)\n(not 3)\n(not 3)\n(moves 2)\n", &[], 9, 2, 2),
];

/// An ask of these lines.
fn ask_of(lines: &str) -> Vec<u8> {
    format!("(ask\n{lines})\n").into_bytes()
}

fn response(plant: &[u8], ask: &str) -> String {
    String::from_utf8(respond(plant, &ask_of(ask))).unwrap()
}

fn row_is(plant: &[u8], (ask, devices, place, passed, moves): Row) {
    let listing: String = devices.iter().map(|d| format!("(device {d})\n")).collect();
    let answer = format!("(answer\n{listing}(place {place})\n(passed {passed})\n(moves {moves})\n)\n");
    assert_eq!(response(plant, ask), answer, "{ask}");
}

#[test]
fn rows_over_p() {
    ROWS.into_iter().for_each(|row| row_is(P, row));
    row_is(b"(plant\n)\n", ("", &[], 1, 0, 0));
    row_is(b"(plant\n)\n", ("(level any)\n", &[], 1, 0, 0));
    assert_eq!(response(P, "(from 8)\n"), "(refused query 13)\n");
    assert_eq!(response(P, "(level 1 255)\n"), "(refused query 12)\n");
    assert_eq!(response(P, "(level 0 254)\n"), "(refused query 12)\n");
}

/// Without its level line a row leaves out device 3 of P, which is at 255; place, passed and moves are the same.
#[test]
fn rows_without_a_level_line() {
    row_is(P, ("(need 7)\n(not 9)\n", &[2], 7, 0, 1));
    for (ask, devices, place, passed, moves) in ROWS {
        let any = "(level any)\n";
        let listed: Vec<u16> = devices.iter().copied().filter(|&d| d != 3).collect();
        if ask.contains(any) {
            row_is(P, (&ask.replace(any, ""), &listed, place, passed, moves));
        }
    }
}

/// Device 1 at 0, device 2 at 1: neither 0 nor 255 is a true level, and 1 is the lowest.
#[test]
fn level_0_is_none() {
    let plant = b"(plant\n(dev 0\n(dev 1\n)\n(dev 255\n)\n(dev 254\n)\n)\n)\n";
    row_is(plant, ("(level 1 254)\n", &[2, 4], 5, 0, 0));
    row_is(plant, ("(level 1 1)\n", &[2], 5, 0, 0));
    row_is(plant, ("", &[2, 4], 5, 0, 0));
    row_is(plant, ("(level any)\n", &[1, 2, 3, 4], 5, 0, 0));
    assert_eq!(response(plant, "(level 0 0)\n"), "(refused query 12)\n");
}

#[test]
fn level_lines() {
    let levels = |lines: &str| read_query(&ask_of(lines)).map(|query| query.levels);
    assert_eq!(levels(""), Ok(Levels::TrueOnly));
    assert_eq!(levels("(level any)\n"), Ok(Levels::Any));
    assert_eq!(levels("(need 7)\n(not 9)\n(level any)\n(from 1)\n(moves 50)\n"), Ok(Levels::Any));
    assert_eq!(levels("(level 100 140)\n"), Ok(Levels::Range(100, 140)));
    for line in level_cases::BAD {
        assert_eq!(levels(&format!("(need 7)\n{line}\n")), Err((31, 3)), "{line}");
    }
    let pairs = ["(level any)\n", "(level 1 2)\n"].map(|a| ["(level any)\n", "(level 1 2)\n"].map(|b| [a, b].concat()));
    for pair in pairs.concat() {
        assert_eq!(levels(&pair), Err((31, 3)));
    }
    assert_eq!(levels("(level any)\n(need 7)\n"), Err((31, 3)));
    assert_eq!(levels("(from 1)\n(level any)\n"), Err((31, 3)));
}

/// A query is read from its text as it was, whatever it says of levels.
#[test]
fn queries_are_read_back() {
    let read = |q: &Query| read_query(&query_text(q)) == Ok(q.clone());
    let small = |q: &Query| q.required.len() <= 8 && q.forbidden.len() <= 8;
    assert!(searches().all(|case| matches!(case, Case::Search(_, _, q, ..) if read(&q) || !small(&q))));
}

/// What is handed over: 0 for any and 1 for true levels only, whatever stands beside them, another number for a range.
#[test]
fn levels_are_handed_over() {
    let handing = Some([9, 300, 2]);
    assert_eq!([None, handing].map(|handing| handed(Levels::Any, handing)), [[0, 0, 0], [0, 300, 2]]);
    assert_eq!([None, handing].map(|handing| handed(Levels::TrueOnly, handing)), [[1, 0, 0], [1, 300, 2]]);
    assert_eq!([None, handing].map(|handing| handed(Levels::Range(5, 7), handing)), [[2, 5, 7], [9, 5, 7]]);
}

#[test]
fn rows_over_q() {
    PASSING.into_iter().for_each(|row| row_is(Q, row));
}

/// The slow evaluator finds one more or one less passed by a complete run, and bounds what one that stops has passed.
#[test]
fn passed_is_bounded() {
    let q = read_plant(Q, [11; 6]).unwrap();
    let broken = |ask: &str, passed: u32| {
        let query = read_query(&ask_of(ask)).unwrap();
        let (mut answer, none) = ([0; 9], Index::default());
        let unlimited = q.search(&none, &Query { budget: u32::MAX, ..query.clone() }, &mut answer);
        let got = q.search(&none, &query, &mut answer);
        broken(&q, &query, Answer { passed, ..got }, &answer[..got.count as usize], unlimited).is_some()
    };
    assert_eq!([2, 3, 4].map(|passed| broken("(need 1)\n(need 4)\n", passed)), [true, false, true]);
    assert_eq!([0, 1, 2].map(|passed| broken("(need 3)\n(from 4)\n", passed)), [false, true, true]);
    assert_eq!([0, 3, 4].map(|passed| broken("(need 1)\n(need 4)\n(moves 1)\n", passed)), [false, false, true]);
    assert_eq!([0, 1].map(|passed| broken("(need 1)\n(need 4)\n(moves 0)\n", passed)), [false, true]);
}

/// A row over a plant whose terms above the highest of the first index are raised by the limit.
fn row_in_two_is(plant: &[u8], highest: u32, (ask, devices, position, passed, moves): Row) {
    let raised = |term: u32| if term > highest { term + 32_768 } else { term };
    let mut t = read_plant(plant, ROOM).unwrap();
    t.terms.iter_mut().for_each(|term| *term = raised(*term as u32) as u16);
    let (first, second) = parted(&t);
    let mut query = read_query(&ask_of(ask)).unwrap();
    query.required.iter_mut().chain(&mut query.forbidden).for_each(|term| *term = raised(*term));
    let mut answer = vec![0; t.size()];
    let count = devices.len();
    let expected = Answer { refusal: 0, count: count as u32, position, passed, moves };
    assert_eq!((first.search(&second, &query, &mut answer), &answer[..count]), (expected, devices), "{ask}");
}

#[test]
fn rows_in_two_indexes() {
    for highest in 0..10 {
        ROWS.into_iter().for_each(|row| row_in_two_is(P, highest, row));
        PASSING.into_iter().for_each(|row| row_in_two_is(Q, highest, row));
    }
}

/// The devices that a query for one term lists, of 32,767 at device 1 in the first index and 32,768 at device 2 in the second.
#[test]
fn terms_at_the_limit() {
    let first = of_tiers([1, 2]).with(&Index { terms: vec![32_767], starts: vec![0], postings: vec![2] });
    let second = Index { terms: vec![32_768], starts: vec![0], postings: vec![4] };
    let listed = |term: u32| {
        let mut answer = [0; 2];
        first.search(&second, &Query { required: vec![term], levels: Levels::Any, ..Query::empty() }, &mut answer);
        answer
    };
    assert_eq!([1, 32_766, 32_767, 32_768, 32_769, 65_535].map(listed), [[0, 0], [0, 0], [1, 0], [2, 0], [0, 0], [0, 0]]);
}

#[test]
fn second_indexes_that_are_refused() {
    let pair = of_tiers([1, 2]);
    let of = |terms: &[u16], starts: &[u32], postings: &[u32]| {
        let index = Index { terms: terms.to_vec(), starts: starts.to_vec(), postings: postings.to_vec() };
        let refusal = |t: &Tables, second: &Index| t.search(second, &Query::empty(), &mut [5; 2]).refusal;
        [refusal(&pair.with(&index), &Index::default()), refusal(&pair, &index)]
    };
    // as the first index, and as the second
    assert_eq!(of(&[], &[], &[]), [0, 0]);
    assert_eq!(of(&[32_768], &[], &[]), [5, 55]);
    assert_eq!(of(&[0], &[0], &[]), [6, 56]);
    assert_eq!(of(&[40_000, 40_000], &[0, 0], &[]), [6, 56]);
    assert_eq!(of(&[32_768], &[1], &[2]), [7, 57]);
    assert_eq!(of(&[], &[], &[2]), [7, 57]);
    assert_eq!(of(&[32_768], &[0], &[6]), [8, 58]);
    assert_eq!(of(&[32_768], &[0], &[3, 4]), [9, 59]);
    assert_eq!(of(&[32_768], &[0], &[2]), [15, 0]);
    assert_eq!(of(&[65_535], &[0], &[2]), [15, 0]);
    assert_eq!(of(&[32_767], &[0], &[2]), [0, 15]);
    assert_eq!(of(&[1], &[0], &[2]), [0, 15]);
    assert_eq!(of(&[32_767, 32_768], &[0, 0], &[2]), [15, 15]);
}

/// Of every three faults the first refuses, with zeros and an untouched list.
#[test]
fn the_first_fault_refuses() {
    for (refusal, (t, second, query, lent)) in search_cases::faulty().filter(|(first, _)| *first != 0) {
        let mut answer = lent.clone();
        let got = t.search(&second, &query, &mut answer);
        assert_eq!((got, &answer), (Answer { refusal, ..Answer::default() }, &lent));
        assert_eq!(slow::search_refusal(&t, &second, &query, lent.len()), refusal);
    }
}

/// The program's second index is empty: a plant text with a higher term is read, and its asks are refused.
#[test]
fn responses_at_the_limit() {
    let plant = |term: u32| format!("(plant\n(dev 5\n)\n(mark {term}\n(own 1)\n)\n)\n").into_bytes();
    row_is(&plant(32_767), ("(need 32767)\n", &[1], 2, 0, 0));
    row_is(&plant(32_767), ("(need 32768)\n", &[], 2, 0, 0));
    for term in [32_768, 65_535] {
        assert!(read_plant(&plant(term), [1; 6]).is_ok());
        for ask in ["", "(need 7)\n", "(need 0)\n", "(level 2 1)\n", "(from 3)\n"] {
            assert_eq!(response(&plant(term), ask), "(refused query 15)\n");
        }
        assert_eq!(response(&plant(term), "(need 07)\n"), "(refused ask 31 2)\n");
        assert_eq!(response(&plant(term)[..9], ""), "(refused plant 24 2)\n");
    }
}

/// Random searches.
fn searches() -> impl Iterator<Item = Case> {
    let mut r = Random(1);
    (0..20_000).map(move |_| search_cases::case(&mut r))
}

/// A search in one index, as before there were two.
fn in_one(t: &Tables, q: &Query, answer: &mut [u16]) -> Answer {
    let of_tables = t.check();
    match if of_tables != 0 { of_tables } else { t.query_refusal(q, answer.len()) } {
        0 => t.run(|term| t.list_of(term), q, answer),
        refusal => Answer { refusal, ..Answer::default() },
    }
}

/// With an empty second index, all is as before for tables without its terms.
#[test]
fn one_index_as_before() {
    for case in searches() {
        let Case::Search(t, _, q, _, lent) = case else { unreachable!() };
        if t.terms.iter().all(|&term| term < LIMIT) {
            let (mut before, mut after) = (lent.clone(), lent);
            let answers = (in_one(&t, &q, &mut before), t.search(&Index::default(), &q, &mut after));
            assert_eq!((answers.0, before), (answers.1, after));
        }
    }
}

/// An accepted search in two indexes is one in an index with the terms of both: it does not matter which is looked into first.
#[test]
fn two_indexes_as_one() {
    for case in searches() {
        let outcome = case.expected();
        let (Case::Search(t, second, q, _, mut answer), Outcome::Answer(got, listing)) = (case, outcome) else { unreachable!() };
        if got.refusal == 0 {
            let one = slow::joined(&t, &second);
            assert_eq!((one.run(|term| one.list_of(term), &q, &mut answer), answer), (got, listing));
        }
    }
}

#[test]
fn searches_reach_every_refusal() {
    let mut systematic = vec![];
    search_cases::systematic(&mut systematic);
    let rows: BTreeSet<u32> = (0..=15).chain(55..=59).collect();
    let searched = systematic.into_iter().filter(|case| matches!(case, Case::Search(..)));
    assert_eq!(reached(searched), rows);
    assert_eq!(reached(searches()), rows);
}

/// The slow evaluator alone finds each mistake of a search in two indexes and of its levels.
#[test]
fn slow_finds_mistakes_of_searches() {
    for k in (71..=99).chain(105..=130) {
        assert!(searches().any(|case| case.against_slow(&Wrong(k).outcome(&case)).is_some()), "mistake {k}");
    }
}

/// The slow evaluator alone finds each mistake in what an ask text says of levels, but a line that is taken too early or too late
/// or refused.
#[test]
fn slow_finds_mistakes_of_level_lines() {
    for k in (131..=151).filter(|k| ![138, 143, 144].contains(k)) {
        let mut r = Random(1);
        let mut cases = (0..100_000).map(|_| generate::case(&mut r)).filter(|case| matches!(case, Case::Query(_)));
        assert!(cases.any(|case| case.against_slow(&Wrong(k).outcome(&case)).is_some()), "mistake {k}");
    }
}

/// Every known mistake is found by the random cases alone.
#[test]
fn mistakes_are_found() {
    for k in 1..=MISTAKES {
        let mut r = Random(1);
        let mut cases = (0..100_000).map(|_| generate::case(&mut r));
        assert!(cases.any(|case| case.difference(&case.expected(), &Wrong(k)).is_some()), "mistake {k}");
    }
}

#[test]
fn tables_of_p() {
    let p = read_plant(P, [6, 6, 6, 2, 2, 3]).unwrap();
    let expected = Tables {
        last: vec![6, 3, 3, 6, 5, 6],
        root: vec![1; 6],
        level: vec![120, 118, 255, 121, 90, 119],
        terms: vec![7, 9],
        starts: vec![0, 2],
        postings: vec![5, 10, 9],
    };
    assert_eq!(p, expected);
    let of_7 = |postings: &[u32]| Tables { terms: vec![7], starts: vec![0], postings: postings.to_vec(), ..p.clone() };
    assert_eq!(of_7(&[5, 6]).check(), 9);
    assert_eq!(of_7(&[2, 5]).check(), 0);
    assert_eq!(crate::slow::check(&of_7(&[5, 6])), 9);
    assert_eq!(crate::slow::check(&of_7(&[2, 5])), 0);
}

/// Every row of plant text is reached, and no other number; by few lines those that few lines can give.
#[test]
fn plant_texts_reach_every_refusal() {
    let mut r = Random(1);
    let texts = (0..100_000).map(|_| generate::case(&mut r)).filter(|case| matches!(case, Case::Plant(..)));
    assert_eq!(reached(texts), BTreeSet::from([0, 20, 21, 22, 23, 24, 25, 27, 28, 29]));
    let mut few = vec![];
    bracket_cases::systematic(&mut few);
    assert_eq!(reached(few.into_iter()), BTreeSet::from([0, 21, 22, 24, 25, 28]));
}

#[test]
fn texts_that_are_refused() {
    let plant = |text: &str| read_plant(text.as_bytes(), [9; 6]).unwrap_err();
    assert_eq!(plant(""), (24, 1));
    assert_eq!(plant(")\n"), (21, 1));
    assert_eq!(plant("(plant\n)\n)\n"), (25, 3));
    assert_eq!(plant("(plant\n(dev 256\n"), (22, 2));
    assert_eq!(plant("(plant\n(dev 1\n(own 1)\n"), (21, 3));
    assert_eq!(plant("(plant\n)"), (24, 2));
    assert_eq!(plant(&format!("(plant\n{}", "(dev 1\n".repeat(40))), (27, 11));
    let deep = format!("(plant\n{}", "(dev 1\n".repeat(40));
    assert_eq!(read_plant(deep.as_bytes(), [99; 6]).unwrap_err(), (23, 34));
    let query = |text: &str| read_query(text.as_bytes()).unwrap_err();
    assert_eq!(query(""), (33, 1));
    assert_eq!(query(")\n"), (31, 1));
    assert_eq!(query("(ask\n(not 1)\n(need 1)\n"), (31, 3));
    assert_eq!(query("(ask\n(from 1)\n(from 1)\n"), (31, 3));
    assert_eq!(query("(ask\n(need 4294967296)\n"), (32, 2));
    assert_eq!(query(&format!("(ask\n{}", "(not 1)\n".repeat(9))), (35, 10));
    assert_eq!(query("(ask\n)\n\n"), (34, 3));
}

#[test]
fn text_of_p() {
    let p = read_plant(P, [6, 6, 6, 2, 2, 3]).unwrap();
    let mut buffer = vec![7; P.len() + 2];
    assert_eq!(p.write(&mut buffer), (0, P.len()));
    assert_eq!(buffer, [P, &[7, 7]].concat());
    let mut short = vec![7; P.len() - 1];
    assert_eq!(p.write(&mut short), (40, 0));
    assert_eq!(short, vec![7; P.len() - 1]);
}

/// A repair of one list over P, with room for every posting: the refusal, what is kept and what is reported.
fn repaired(list: &[u32]) -> (u32, Vec<u32>, Vec<u32>) {
    let p = read_plant(P, [9; 6]).unwrap();
    let mut t = Tables { terms: vec![7], starts: vec![0], postings: list.to_vec(), ..p };
    let mut report = vec![5; 3 * list.len()];
    let (refusal, [dropped, count]) = t.repair(&mut report);
    (refusal, t.postings[..count].to_vec(), report[..3 * dropped].to_vec())
}

#[test]
fn lists_over_p_are_repaired() {
    let row = |list: &[u32], kept: &[u32], dropped: &[[u32; 3]]| {
        assert_eq!(repaired(list), (0, kept.to_vec(), dropped.concat()), "{list:?}");
    };
    // of one device the first shared one, else the first
    row(&[4, 4], &[4], &[[7, 2, 0]]);
    row(&[4, 5], &[5], &[[7, 2, 0]]);
    row(&[5, 4, 5], &[5], &[[7, 2, 0], [7, 2, 1]]);
    // what lies in a branch, also where the branch lies in another
    row(&[5, 6, 10], &[5, 10], &[[7, 3, 0]]);
    row(&[3, 5, 8], &[3], &[[7, 2, 1], [7, 4, 0]]);
    row(&[2, 3, 13], &[3], &[[7, 1, 0], [7, 6, 1]]);
    row(&[4, 5, 6, 6, 10, 10], &[5, 10], &[[7, 2, 0], [7, 3, 0], [7, 3, 0], [7, 5, 0]]);
    // what is sound
    row(&[], &[], &[]);
    row(&[2, 5, 9], &[2, 5, 9], &[]);
    assert_eq!(repaired(&[10, 4, 14]).0, 8);
    assert_eq!(repaired(&[1, 4]).0, 8);
    assert_eq!(repaired(&[4, 4, 10, 9]).0, 41);
}

#[test]
fn a_store_is_repaired() {
    let p = read_plant(P, [9; 6]).unwrap();
    let t = Tables { terms: vec![7, 8, 9], starts: vec![0, 3, 3], postings: vec![4, 5, 6, 8, 8], ..p };
    let mut short = [5; 8];
    let mut after = t.clone();
    assert_eq!(after.repair(&mut short), (44, [0, 0]));
    assert_eq!((&after, short), (&t, [5; 8]));
    let mut report = [5; 11];
    assert_eq!(after.repair(&mut report), (0, [3, 2]));
    assert_eq!(after, Tables { starts: vec![0, 1, 1], postings: vec![5, 8, 0, 0, 0], ..t });
    assert_eq!(report, [7, 2, 0, 7, 3, 0, 9, 4, 0, 5, 5]);
}

/// Random repairs.
fn repairs() -> impl Iterator<Item = Case> {
    let mut r = Random(1);
    (0..20_000).map(move |_| repair_cases::case(&mut r))
}

/// The refusals that cases reach, 0 among them.
fn reached(cases: impl Iterator<Item = Case>) -> BTreeSet<u32> {
    cases.map(|case| Case::refusal(&case.expected())).collect()
}

#[test]
fn repairs_reach_every_refusal() {
    let mut systematic = vec![];
    repair_cases::systematic(&mut systematic);
    let rows = BTreeSet::from([0, 1, 2, 3, 4, 5, 6, 7, 8, 41, 44]);
    assert_eq!(reached(systematic.into_iter()), rows);
    assert_eq!(reached(repairs()), rows);
}

/// The slow evaluator alone finds each mistake of a repair.
#[test]
fn slow_finds_mistakes_of_repair() {
    for k in 23..=39 {
        assert!(repairs().any(|case| case.against_slow(&Wrong(k).outcome(&case)).is_some()), "mistake {k}");
    }
}

#[test]
fn lists_over_p_are_tightened() {
    let p = read_plant(P, [9; 6]).unwrap();
    let row = |list: &[u32], tight: &[u32]| {
        let mut t = one_list(&p, list);
        assert_eq!(t.tighten(), (0, tight.len()), "{list:?}");
        assert_eq!(t, one_list(&p, &[tight, &vec![0; list.len() - tight.len()]].concat()));
    };
    // a branch, a tree of two branches, and the tree where some of it is shared
    row(&[4, 6], &[5]);
    row(&[2, 4, 6, 8, 10, 12], &[3]);
    row(&[2, 5, 8, 10, 12], &[3]);
    row(&[2, 5, 9], &[3]);
    // without the last device, the top, a first child and a last child
    row(&[2, 4, 6, 8, 10], &[2, 5, 8, 10]);
    row(&[4, 6, 8, 10, 12], &[5, 9]);
    row(&[2, 6, 8, 10, 12], &[2, 6, 9]);
    row(&[2, 4, 6], &[2, 5]);
    // a leaf
    row(&[7], &[6]);
    row(&[7, 8, 11, 13], &[6, 9]);
    // what is tight
    row(&[], &[]);
    row(&[2, 5, 10], &[2, 5, 10]);
    row(&[3], &[3]);
    assert_eq!(one_list(&p, &[5, 6]).tighten(), (9, 0));
    assert_eq!(one_list(&p, &[4, 4]).tighten(), (8, 0));
}

#[test]
fn an_index_is_tightened() {
    let p = read_plant(P, [9; 6]).unwrap();
    let t = Tables { terms: vec![5, 7, 8, 9], starts: vec![0, 2, 2, 5], postings: vec![4, 6, 8, 10, 12, 7], ..p };
    let mut after = t.clone();
    assert_eq!(after.tighten(), (0, 3));
    assert_eq!(after, Tables { starts: vec![0, 1, 1, 2], postings: vec![5, 9, 6, 0, 0, 0], ..t.clone() });
    let refused = Tables { terms: vec![5, 7, 8, 8], ..t };
    let mut after = refused.clone();
    assert_eq!((after.tighten(), &after), ((6, 0), &refused));
}

/// The length of the shortest list with the carriers of each, written out for every list on every plant of up to three devices.
#[test]
fn fewest_is_of_every_list() {
    for (n, t) in (0..=3).flat_map(|n| plants(n).into_iter().map(move |t| (n, t))) {
        let carriers = |list: &[u32]| -> usize { t.carriers(list).iter().map(|d| 1 << d).sum() };
        let all: Vec<Vec<u32>> = (0..=n + 1).flat_map(|count| repair_cases::lists(count, n)).collect();
        let on_plant = |list: &&Vec<u32>| list.iter().all(|q| (2..2 * n as u32 + 2).contains(q));
        let mut fewest = vec![usize::MAX; 2 << n];
        for list in all.iter().filter(on_plant) {
            let least = &mut fewest[carriers(list)];
            *least = list.len().min(*least);
        }
        assert_eq!(slow::fewest(&t), fewest);
    }
}

/// Random tightenings.
fn tightenings() -> impl Iterator<Item = Case> {
    let mut r = Random(1);
    (0..20_000).map(move |_| tighten_cases::case(&mut r))
}

#[test]
fn tightenings_reach_every_refusal() {
    let mut systematic = vec![];
    tighten_cases::systematic(&mut systematic);
    let rows = (0..=9).collect();
    assert_eq!(reached(systematic.into_iter()), rows);
    assert_eq!(reached(tightenings()), rows);
}

/// The slow evaluator alone finds each mistake of a tightening.
#[test]
fn slow_finds_mistakes_of_tightening() {
    for k in 40..=70 {
        assert!(tightenings().any(|case| case.against_slow(&Wrong(k).outcome(&case)).is_some()), "mistake {k}");
    }
}

/// A plant of these branches and roots, without terms.
fn bare(last: Vec<u16>, root: Vec<u16>) -> Tables {
    Tables { level: vec![0; last.len()], last, root, ..Tables::default() }
}

#[test]
fn plants_that_are_not_written() {
    let chain = |n: u16| bare(vec![n; n as usize], vec![1; n as usize]);
    assert_eq!(chain(32).write(&mut [7; 1_000]), (0, 9 + 32 * 9));
    assert_eq!(chain(33).write(&mut [7; 1_000]), (36, 0));
    assert_eq!(chain(33).write(&mut []), (36, 0));
    assert_eq!(Tables { level: vec![], ..chain(33) }.write(&mut []), (1, 0));
    let trees = |n: u16| bare((1..=n).collect(), (1..=n).collect());
    assert_eq!(trees(7_280).write(&mut [7; 70_000]), (0, 9 + 7_280 * 9));
    assert_eq!(trees(7_281).write(&mut [7; 70_000]), (40, 0));
}

/// The papers, but every posting that is read is own, and every check gives 9.
struct ReadsWrong;

impl Subject for ReadsWrong {
    fn outcome(&self, case: &Case) -> Outcome {
        match case.expected() {
            Outcome::Plant(refusal, numbers, mut t) => {
                t.postings.iter_mut().for_each(|posting| *posting &= !1);
                Outcome::Plant(refusal, numbers, t)
            }
            Outcome::Number(_) => Outcome::Number(9),
            outcome => outcome,
        }
    }
}

#[test]
fn what_comes_back_is_compared() {
    let p = read_plant(P, [9; 6]).unwrap();
    let read = Case::Plant(P.to_vec(), [9; 6]);
    let written = Case::Write(p.clone(), vec![7; P.len()]);
    let repair = Case::Repair(p.clone(), vec![7; 3]);
    let tighten = Case::Tighten(one_list(&p, &[4, 6]));
    let search = Case::search(p.clone(), Index::default(), Query { levels: Levels::Range(1, 254), ..Query::empty() }, vec![7; 6]);
    let respond = Case::Respond(P.to_vec(), ask_of("(level 1 254)\n"));
    let wrong: [(_, &dyn Subject); 11] = [
        (read, &Wrong(7)),
        (written, &ReadsWrong),
        (repair.clone(), &ReadsWrong),
        (repair, &Wrong(34)),
        (tighten.clone(), &ReadsWrong),
        (tighten.clone(), &Wrong(61)),
        (tighten, &Wrong(14)),
        (search.clone(), &Wrong(106)),
        (search, &Wrong(111)),
        (respond.clone(), &Wrong(152)),
        (respond, &Wrong(153)),
    ];
    for (case, wrong) in wrong {
        assert_eq!(case.expected(), wrong.outcome(&case));
        assert!(case.difference(&case.expected(), wrong).is_some());
        assert!(case.difference(&case.expected(), &Wrong(0)).is_none());
    }
}
