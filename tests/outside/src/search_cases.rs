//! Cases of a search in two indexes, random and without chance.
use crate::case::{parted, Case};
use crate::generate::{self, damage, damage_index, forest, index, of_tiers, past_limit, query, room_for, FIRST, P, Q, SECOND};
use crate::level_cases::handing;
use crate::paper::{read_plant, Index, Levels, Query, Tables, LIMIT};
use crate::random::Random;

/// A sound plant with two sound indexes, the second often empty.
fn both(r: &mut Random) -> (Tables, Index) {
    let (n, terms, most) = generate::size(r);
    let depth = r.of(&[1, 3, 32, 70_000]);
    let mut t = forest(r, n, depth);
    let mut over = t.clone();
    index(r, &mut t, FIRST, terms, most);
    let count = if r.one_in(3) { 0 } else { r.below(terms + 2) };
    index(r, &mut over, SECOND, count, most);
    (t, over.index())
}

/// The same index with each term as far above the limit.
fn raised(mut index: Index) -> Index {
    index.terms.iter_mut().for_each(|term| *term += LIMIT);
    index
}

/// A table past a limit, of the plant or of either index.
fn past(r: &mut Random) -> (Tables, Index) {
    let t = past_limit(r);
    if r.one_in(2) {
        (t, Index::default())
    } else {
        (t.with(&Index::default()), raised(t.index()))
    }
}

/// Terms in the wrong index: one more, at a limit or as in the other index; some that belong to the other; or all of both.
fn misplace(r: &mut Random, t: &mut Tables, second: &mut Index) {
    let (below, above) = (t.terms.last().copied().unwrap_or(1), second.terms.first().copied().unwrap_or(LIMIT));
    match r.below(5) {
        0 => {
            t.terms.push(r.of(&[32_768, 65_535, above]));
            t.starts.push(t.postings.len() as u32);
        }
        1 => {
            second.terms.insert(0, r.of(&[1, 32_767, below]));
            second.starts.insert(0, 0);
        }
        2 => t.terms.iter_mut().skip(r.below(3)).for_each(|term| *term |= LIMIT),
        3 => second.terms.iter_mut().take(r.between(1, 3)).for_each(|term| *term &= !LIMIT),
        _ => (*t, *second) = (t.with(second), t.index()),
    }
}

/// Damage to one place: of the plant, of either index, or where a term is.
fn damage_both(r: &mut Random, t: &mut Tables, second: &mut Index) {
    match r.below(7) {
        0..3 => damage(r, t),
        3..6 => {
            let mut over = t.with(second);
            damage_index(r, &mut over);
            *second = over.index();
        }
        _ => misplace(r, t, second),
    }
}

/// A random case: sound, with damage, or past a limit.
pub fn case(r: &mut Random) -> Case {
    let (mut t, mut second) = if r.one_in(6_000) { past(r) } else { both(r) };
    if t.size() < 2_000 && r.one_in(2) {
        for _ in 0..r.of(&[1, 1, 1, 2, 3]) {
            damage_both(r, &mut t, &mut second);
        }
    }
    let q = query(r, t.size(), &[t.index(), second.clone()]);
    let room = room_for(r, t.size());
    let filler = r.next() as u16;
    Case::Search(t, second, q, handing(r), vec![filler; room])
}

/// A search with an empty second index.
pub fn in_one(t: Tables, q: Query, answer: Vec<u16>) -> Case {
    Case::search(t, Index::default(), q, answer)
}

/// Cases without chance: every three faults, terms on both sides of the limit, a second index with each entry changed and with
/// tables of lengths 0 and 1, every small query over P and Q with their terms in two indexes, plant texts with terms at the
/// limits, and indexes of the largest size.
pub fn systematic(cases: &mut Vec<Case>) {
    faults(cases);
    around_the_limit(cases);
    damaged_seconds(cases);
    short_seconds(cases);
    parted_terms(cases);
    responses(cases);
    large_indexes(cases);
}

/// What is lent to a search.
pub type Lent = (Tables, Index, Query, Vec<u16>);
type Fault = (u32, fn(&mut Lent));

/// What makes each refusal apply, in their order, to a search over a chain of four devices with the lists 1 2 3 4 and 2 3 in each
/// index, of which 3 in the second list is shared.
const FAULTS: [Fault; 21] = [
    (1, |(t, ..)| t.level.push(0)),
    (2, |(t, ..)| t.last[0] = 0),
    (3, |(t, ..)| t.last[1] = 3),
    (4, |(t, ..)| t.root[2] = 2),
    (5, |(t, ..)| t.starts.push(0)),
    (6, |(t, ..)| t.terms[0] = 0),
    (7, |(t, ..)| t.starts[0] = 1),
    (8, |(t, ..)| t.postings[0] = 0),
    (9, |(t, ..)| t.postings[4] = 5),
    (55, |(_, second, ..)| second.starts.push(0)),
    (56, |(_, second, ..)| second.terms[1] = 0),
    (57, |(_, second, ..)| second.starts[0] = 1),
    (58, |(_, second, ..)| second.postings[0] = 0),
    (59, |(_, second, ..)| second.postings[4] = 5),
    (15, |(t, ..)| t.terms[1] = 32_768),
    (15, |(_, second, ..)| second.terms[0] = 32_767),
    (10, |(_, _, q, _)| q.forbidden = vec![1; 9]),
    (11, |(_, _, q, _)| q.required.push(0)),
    (12, |(_, _, q, _)| q.levels = Levels::Range(2, 1)),
    (13, |(_, _, q, _)| q.start = 0),
    (14, |(.., answer)| answer.clear()),
];

/// What is lent, with every choice of up to three of these faults, and the number of the first.
pub fn faulty() -> impl Iterator<Item = (u32, Lent)> {
    let first = Index { terms: vec![1, 32_767], starts: vec![0, 4], postings: vec![2, 4, 6, 8, 4, 7] };
    let second = Index { terms: vec![32_768, 65_535], ..first.clone() };
    let q = Query { required: vec![1], forbidden: vec![65_535], ..Query::empty() };
    let sound: Lent = (of_tiers(1..=4).with(&first), second, q, vec![5; 4]);
    (0..1_u32 << FAULTS.len()).filter(|choice| choice.count_ones() <= 3).map(move |choice| {
        let mut lent = sound.clone();
        let faults: Vec<Fault> = (0..FAULTS.len()).filter(|i| choice >> i & 1 == 1).map(|i| FAULTS[i]).collect();
        faults.iter().for_each(|(_, fault)| fault(&mut lent));
        (faults.first().map_or(0, |fault| fault.0), lent)
    })
}

fn faults(cases: &mut Vec<Case>) {
    for (first, (t, second, q, answer)) in faulty() {
        assert_eq!(t.refusal(&second, &q, answer.len()), first);
        cases.push(Case::search(t, second, q, answer));
    }
}

/// Terms at the limits of either index.
const TERMS: [u16; 8] = [1, 2, 32_766, 32_767, 32_768, 32_769, 65_534, 65_535];

/// Every index of up to two of these terms, with these lists.
fn of_two(lists: [&[u32]; 2]) -> Vec<Index> {
    let one = |&term: &u16| Index { terms: vec![term], starts: vec![0], postings: lists[0].to_vec() };
    let two = |terms: &[u16]| Index { terms: terms.to_vec(), starts: vec![0, lists[0].len() as u32], postings: lists.concat() };
    let pairs = TERMS.iter().enumerate().flat_map(|(k, &a)| TERMS[k + 1..].iter().map(move |&b| [a, b]));
    [Index::default()].into_iter().chain(TERMS.iter().map(one)).chain(pairs.map(|pair| two(&pair))).collect()
}

/// Every two of these indexes over P, with lists that all differ; where neither is refused, every query that requires up to one
/// of the terms and forbids up to one.
fn around_the_limit(cases: &mut Vec<Case>) {
    let p = read_plant(P, [9; 6]).unwrap();
    let sides: Vec<Vec<u32>> = [vec![]].into_iter().chain(TERMS.map(|term| vec![term as u32])).collect();
    let seconds = of_two([&[4, 8, 10], &[5, 12]]);
    for t in of_two([&[5, 10], &[2, 9]]).iter().map(|first| p.with(first)) {
        for second in &seconds {
            let mut push = |q: Query| cases.push(Case::search(t.clone(), second.clone(), q, vec![5; 6]));
            if t.refusal(second, &Query::empty(), 6) != 0 {
                push(Query::empty());
                continue;
            }
            for (required, forbidden) in sides.iter().flat_map(|a| sides.iter().map(move |b| (a.clone(), b.clone()))) {
                push(Query { required, forbidden, levels: Levels::Any, ..Query::empty() });
            }
        }
    }
}

/// P with its index and the same terms raised as the second, with each entry of that set to small and to large numbers.
fn damaged_seconds(cases: &mut Vec<Case>) {
    let p = read_plant(P, [6, 6, 6, 2, 2, 3]).unwrap();
    let second = raised(p.index());
    let q = Query { required: vec![32_775], forbidden: vec![9], levels: Levels::Any, ..Query::empty() };
    for value in (0..16).chain(32_765..32_780).chain([65_534, 65_535, 65_536, u32::MAX - 1, u32::MAX]) {
        macro_rules! each {
            ($field:ident, $kind:ty) => {
                for i in 0..second.$field.len() {
                    let mut damaged = second.clone();
                    damaged.$field[i] = value as $kind;
                    cases.push(Case::search(p.clone(), damaged, q.clone(), vec![5; 6]));
                }
            };
        }
        each!(terms, u16);
        each!(starts, u32);
        each!(postings, u32);
    }
}

/// Every choice of lengths 0 and 1 for the second index, with small entries and terms at the limits, over up to one device.
fn short_seconds(cases: &mut Vec<Case>) {
    for (n, lengths, term) in
        (0..2).flat_map(|n| (0..8).flat_map(move |l| [0, 1, 32_767, 32_768, 65_535].map(|term| (n, l, term))))
    {
        for value in 0..4 {
            let length = |table: usize| lengths >> table & 1_usize;
            let second =
                Index { terms: vec![term; length(0)], starts: vec![value / 3; length(1)], postings: vec![value; length(2)] };
            let q = Query { required: vec![32_768], levels: Levels::Any, ..Query::empty() };
            cases.push(Case::search(of_tiers(vec![1; n]), second, q, vec![5; n]));
        }
    }
}

/// P with 9 in the second index, and Q with 3 and 4, which then differ from terms of the first by the limit alone.
fn parted_terms(cases: &mut Vec<Case>) {
    let p = Tables { terms: vec![7, 32_777], ..read_plant(P, [6, 6, 6, 2, 2, 3]).unwrap() };
    let q = Tables { terms: vec![1, 2, 32_769, 32_770], ..read_plant(Q, [9, 9, 9, 4, 4, 11]).unwrap() };
    for (t, terms) in [(p, vec![7, 9, 32_777]), (q, vec![1, 2, 32_769, 32_770])] {
        let (first, second) = parted(&t);
        generate::small_queries(&first, &second, &terms, cases);
    }
}

/// An index of so many postings over a plant of 65,535 trees, of each device in turn and then again.
fn full(count: u32) -> Index {
    let starts: Vec<u32> = (0..count.div_ceil(65_535)).map(|k| k * 65_535).collect();
    Index { terms: (1..=starts.len() as u16).collect(), starts, postings: (0..count).map(|i| 2 * (i % 65_535 + 1)).collect() }
}

/// Indexes of as many terms or as many postings as there may be, and of one more.
fn large_indexes(cases: &mut Vec<Case>) {
    let empty = |count: u16| Index { terms: (1..=count).collect(), starts: vec![0; count as usize], postings: vec![] };
    let plant = of_tiers([1; 65_535]);
    let with_terms = [(8_192, 8_192), (8_193, 8_192), (8_192, 8_193), (0, 8_193)].map(|(a, b)| (empty(a), empty(b)));
    let with_postings = [(1_048_576, 1_048_576), (1_048_577, 1_048_576), (1_048_576, 1_048_577)].map(|(a, b)| (full(a), full(b)));
    for (first, second) in with_terms.into_iter().chain(with_postings) {
        let q = Query { required: vec![2, 32_770], forbidden: vec![17, 40_960], start: 60_000, ..Query::empty() };
        cases.push(Case::search(plant.with(&first), raised(second), q, vec![5; 65_535]));
    }
}

/// Plant texts whose highest term is at a limit, alone or after another, whole and without the last line, and asks that are good,
/// refused as texts and refused as queries.
fn responses(cases: &mut Vec<Case>) {
    let asks = ["", "(need 0)\n", "(not 1)\n", "(level 2 1)\n", "(from 9)\n", "(moves 0)\n", "(need)\n", ")\n"];
    for term in TERMS {
        for before in ["", "(mark 1\n(own 1)\n)\n"] {
            let plant = format!("(plant\n(dev 5\n(dev 6\n)\n)\n{before}(mark {term}\n(own 2)\n)\n)\n").into_bytes();
            for ask in asks.map(|lines| format!("(ask\n(need {term})\n{lines})\n").into_bytes()) {
                cases.push(Case::Respond(plant[..plant.len() - 2].to_vec(), ask.clone()));
                cases.push(Case::Respond(plant.clone(), ask));
            }
        }
    }
}
