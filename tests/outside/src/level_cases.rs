//! What queries say of levels, random and without chance: level codes, the numbers that are handed over, and level lines.
use crate::case::{Case, Handing};
use crate::generate::{lines, query_text};
use crate::paper::{Index, Levels, Query, Tables};
use crate::random::Random;
use crate::repair_cases::{one_list, plants};

/// Ends of level ranges, at the edges of the true levels.
const ENDS: [u32; 9] = [0, 1, 2, 128, 253, 254, 255, 256, u32::MAX];

/// Numbers that stand for a range; the low byte or the low half of some is 0 or 1.
const RANGES: [u32; 7] = [2, 3, 256, 257, 65_536, 65_537, u32::MAX];

/// Levels of each kind; of the ranges some are refused.
pub fn levels(r: &mut Random) -> Levels {
    match r.below(16) {
        0 => Levels::Range(r.below(260) as u32, r.below(260) as u32),
        1 => Levels::Range(r.of(&ENDS), r.of(&ENDS)),
        2..6 => true_range(r),
        6..11 => Levels::Any,
        _ => Levels::TrueOnly,
    }
}

/// A range of true levels, often from the lowest or up to the highest.
pub fn true_range(r: &mut Random) -> Levels {
    let low = if r.one_in(3) { 1 } else { r.between(1, 254) };
    let high = if r.one_in(3) { 254 } else { r.between(low, 254) };
    Levels::Range(low as u32, high as u32)
}

/// By their own numbers, or by others: low and high beside any level and true levels only are often no range.
pub fn handing(r: &mut Random) -> Handing {
    let (low, high) = match r.below(3) {
        0 => (r.of(&ENDS), r.of(&ENDS)),
        1 => (r.below(260) as u32, r.below(260) as u32),
        _ => (r.next() as u32, r.next() as u32),
    };
    let range = r.of(&RANGES);
    (!r.one_in(4)).then_some([range, low, high])
}

/// Level lines; the last has a number that is too large.
const GOOD: [&str; 5] = ["(level any)", "(level 100 140)", "(level 1 254)", "(level 0 255)", "(level 1 4294967296)"];

/// Lines that are no form.
pub const BAD: [&str; 29] = [
    "(level all)",
    "(level any )",
    "(level any 5)",
    "(level 5 any)",
    "(level any any)",
    "(level any 1 254)",
    "(level any 4294967296)",
    "(level  any)",
    "(level Any)",
    "(level ANY)",
    "(level)",
    "(level )",
    "(level any",
    "(level an)",
    "(level anyy)",
    "(level any))",
    "(level any) ",
    "(level any\r)",
    " (level any)",
    "level any)",
    "(levelany)",
    "(levels any)",
    "(level none)",
    "(level 1)",
    "(level 1 2 3)",
    "(need any)",
    "(not any)",
    "(from any)",
    "(moves any)",
];

/// Puts one or two level lines into an ask text, in place of its own or beside it, now and then elsewhere.
pub fn put_level_lines(r: &mut Random, text: &mut Vec<u8>) {
    let mut all = lines(text);
    let terms = |line: &Vec<u8>| [&b"(ask"[..], b"(need", b"(not"].iter().any(|opening| line.starts_with(opening));
    let place = all.iter().take_while(|line| terms(line)).count();
    let stands = |all: &[Vec<u8>]| all.get(place).is_some_and(|line| line.starts_with(b"(level"));
    if stands(&all) && r.one_in(2) {
        all.remove(place);
    }
    for _ in 0..r.of(&[1, 1, 2]) {
        let (good, bad) = (r.of(&GOOD), r.of(&BAD));
        let line = r.of(&["(level any)", good, bad, bad]);
        let beside = place + (stands(&all) && r.one_in(2)) as usize;
        let at = if r.one_in(6) { r.below(all.len() + 1) } else { beside };
        all.insert(at, format!("{line}\n").into_bytes());
    }
    *text = all.concat();
}

/// Cases without chance: a device for each level code, small plants with the codes at the edges, and level lines in asks.
pub fn systematic(cases: &mut Vec<Case>) {
    every_code(cases);
    small_plants(cases);
    one_level_line(cases);
    two_level_lines(cases);
}

/// A device for each level code: every range of these ends, by each number that stands for one; any level and true levels only, with
/// each two of the ends beside them. Then as texts.
fn every_code(cases: &mut Vec<Case>) {
    let trees: Vec<u16> = (1..=256).collect();
    let t = Tables { last: trees.clone(), root: trees, level: (0..=255).collect(), ..Tables::default() };
    let asked = |levels: Levels| Query { levels, ..Query::empty() };
    let search = |levels: Levels, handing| Case::Search(t.clone(), Index::default(), asked(levels), Some(handing), vec![5; 256]);
    let respond = |levels: Levels| Case::Respond(t.text(), query_text(&asked(levels)));
    let without_range = [Levels::Any, Levels::TrueOnly];
    for (low, high) in ENDS.iter().flat_map(|&low| ENDS.map(|high| (low, high))) {
        let range = Levels::Range(low, high);
        cases.extend(RANGES.map(|number| search(range, [number, low, high])));
        cases.extend(without_range.map(|levels| search(levels, [2, low, high])));
        cases.push(respond(range));
    }
    cases.extend(without_range.map(respond));
}

/// On every plant of three devices, with each of these codes on each, every choice of carriers of a term that is required or
/// forbidden, with small budgets.
fn small_plants(cases: &mut Vec<Case>) {
    let codes = |choice: usize| (0..3).map(|d| [0, 1, 254, 255][choice >> (2 * d) & 3]).collect();
    let list = |choice: usize| (1..=3).filter(|d| choice >> (d - 1) & 1 == 1).map(|d| 2 * d).collect::<Vec<u32>>();
    for plant in plants(3) {
        for choice in 0..64 * 8 {
            let t = Tables { level: codes(choice / 8), ..one_list(&plant, &list(choice % 8)) };
            for budget in [0, 1, u32::MAX] {
                let required = Query { required: vec![7], budget, ..Query::empty() };
                let forbidden = Query { forbidden: vec![7], budget, ..Query::empty() };
                cases.extend([required, forbidden].map(|q| Case::search(t.clone(), Index::default(), q, vec![5; 3])));
            }
        }
    }
}

/// A plant with codes at the edges.
const EDGES: &[u8] = b"(plant\n(dev 0\n(dev 1\n)\n(dev 255\n)\n(dev 254\n)\n)\n(dev 120\n)\n\
(mark 7\n(all 1)\n)\n(mark 9\n(own 2)\n)\n)\n";

/// An ask, read and answered.
fn push(ask: &[&str], cases: &mut Vec<Case>) {
    let text = ask.iter().map(|line| format!("{line}\n")).collect::<String>().into_bytes();
    cases.push(Case::Respond(EDGES.to_vec(), text.clone()));
    cases.push(Case::Query(text));
}

/// An ask without a level line.
const ASK: [&str; 6] = ["(ask", "(need 7)", "(not 9)", "(from 1)", "(moves 50)", ")"];

/// The ask with a line more at this place.
fn with_line<'a>(ask: &[&'a str], at: usize, line: &'a str) -> Vec<&'a str> {
    [&ask[..at], &[line], &ask[at..]].concat()
}

/// Each line at each place of an ask, and alone in one.
fn one_level_line(cases: &mut Vec<Case>) {
    push(&ASK, cases);
    push(&["(ask", ")"], cases);
    for line in GOOD.iter().chain(&BAD) {
        push(&["(ask", line, ")"], cases);
        (0..=ASK.len()).for_each(|at| push(&with_line(&ASK, at, line), cases));
    }
}

/// Each two good lines at each two places of an ask, in both orders.
fn two_level_lines(cases: &mut Vec<Case>) {
    for (first, second) in GOOD.iter().flat_map(|first| GOOD.map(|second| (first, second))) {
        for at in 0..=ASK.len() {
            let ask = with_line(&ASK, at, first);
            (0..=ask.len()).for_each(|at| push(&with_line(&ask, at, second), cases));
        }
    }
}
