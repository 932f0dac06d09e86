//! A second index: that both ways agree over two, and how long a call takes over the same notes in one and in two.
use crate::ffi;
use crate::paper::{Answer, Index, Query, Tables};
use crate::plain::{self, SECOND};
use crate::plants::{self, KINDS};
use crate::random::Random;
use crate::reading::Pair;
use crate::time::{clock, Least};
use crate::ways::{left_by, proved_search};
use std::hint::black_box;

/// What the calls over one plant gave: terms and postings in the second of two indexes, the moves of all queries together, and
/// seconds of one call.
pub struct Second {
    pub name: &'static str,
    pub moved: [usize; 2],
    pub moves: u64,
    pub one: Pair,
    pub two: Pair,
}

/// How much to measure: queries of each kind, rounds over all of them, and calls for each reading of the clock.
pub struct Effort {
    pub queries: usize,
    pub rounds: usize,
    pub calls: usize,
}

/// The same notes in one index and in two.
struct Notes {
    one: Tables,
    first: Tables,
    second: Index,
}

/// A query by the terms of one index and by those of two, and the times of its calls.
struct Asked {
    one: Query,
    two: Query,
    times: [Least; 4],
}

/// Whether the term at index k is in the second of two indexes: every fourth is.
fn in_second(k: usize) -> bool {
    k % 4 == 1
}

impl Notes {
    fn new(one: Tables) -> Notes {
        let (mut first, mut second) = (Index::default(), Index::default());
        for (k, term) in one.terms.iter().enumerate() {
            let (index, above) = if in_second(k) { (&mut second, SECOND) } else { (&mut first, 0) };
            index.terms.push(term + above);
            index.starts.push(index.postings.len() as u32);
            index.postings.extend(plain::list(&one, k));
        }
        let Index { terms, starts, postings } = first;
        Notes { first: Tables { terms, starts, postings, ..one.clone() }, one, second }
    }

    /// A query, and the one that names the same lists of two indexes.
    fn asked(&self, one: Query) -> Asked {
        let moved = |&term: &u32| match self.one.terms.binary_search(&(term as u16)) {
            Ok(k) if in_second(k) => term + SECOND as u32,
            _ => term,
        };
        let [required, forbidden] = [&one.required, &one.forbidden].map(|terms| terms.iter().map(moved).collect());
        Asked { two: Query { required, forbidden, ..one.clone() }, one, times: [Least::NONE; 4] }
    }

    /// Every way gives the same numbers and the same entries of the answer, also where a budget stops it. The moves.
    fn agree(&self, Asked { one, two, .. }: &Asked) -> u64 {
        let whole = plain::search(&self.one, one, &mut vec![0; self.one.size()]);
        assert_eq!((whole.refusal, whole.position), (0, self.one.size() as u32 + 1));
        for budget in [0, whole.moves / 2, u32::MAX] {
            let (one, two) = (Query { budget, ..one.clone() }, Query { budget, ..two.clone() });
            let found = left_by(&self.one, |answer| plain::search(&self.one, &one, answer));
            assert!(left_by(&self.one, |answer| proved_search(&self.one, &one, answer)) == found);
            for search in [ffi::search, plain::search_in_two] {
                assert!(left_by(&self.one, |answer| search(&self.first, &self.second, &two, answer)) == found);
            }
        }
        whole.moves as u64
    }

    /// One round over one query. The ways go to and fro, so that each comes next to one over the same tables.
    fn round(&self, asked: &mut Asked, effort: &Effort, round: usize, answer: &mut [u16]) {
        let Notes { one, first, second } = self;
        let Asked { one: q, two: moved, times: [one_index, plain, two, plain_two] } = asked;
        for turn in 0..4 {
            match if round % 2 == 0 { turn } else { 3 - turn } {
                0 => one_index.of(|| effort.call(|| proved_search(one, black_box(q), answer))),
                1 => plain.of(|| effort.call(|| plain::search(one, black_box(q), answer))),
                2 => two.of(|| effort.call(|| ffi::search(first, second, black_box(moved), answer))),
                _ => plain_two.of(|| effort.call(|| plain::search_in_two(first, second, black_box(moved), answer))),
            }
        }
    }
}

impl Effort {
    pub fn call(&self, mut search: impl FnMut() -> Answer) {
        for _ in 0..self.calls {
            black_box(search());
        }
    }
}

/// Both ways refuse alike where the second index, or a term of the first, was written over.
fn refusals_agree(r: &mut Random, notes: &Notes, q: &Query) {
    let mut seen = [false; 60];
    for round in 0..120 {
        let (mut first, mut second) = (notes.first.clone(), notes.second.clone());
        let (k, p) = (r.between(1, second.terms.len() - 1), r.between(1, second.postings.len() - 1));
        match round % 8 {
            0 => drop(second.starts.pop()),
            1 => second.terms[k] = r.of(&[0, second.terms[k - 1]]),
            2 => second.starts[k] = second.postings.len() as u32 + 1,
            3 => second.postings[p] = r.of(&[1, 2 * first.size() as u32 + 2]),
            4 => second.postings[p] = second.postings[p - 1] + 2,
            5 => second.terms[0] = r.of(&[1, SECOND - 1, SECOND]),
            6 => *first.terms.last_mut().unwrap() = r.of(&[SECOND - 1, SECOND, u16::MAX]),
            _ => first.terms[0] = 0,
        }
        let found = left_by(&notes.one, |answer| plain::search_in_two(&first, &second, q, answer));
        assert!(left_by(&notes.one, |answer| ffi::search(&first, &second, q, answer)) == found);
        seen[found.0.refusal as usize] = true;
    }
    assert!([0, 6, 15, 55, 56, 57, 58, 59].iter().all(|&k: &usize| seen[k]));
}

/// The mean over queries of all kinds over one plant.
pub fn measure(name: &'static str, t: Tables, effort: Effort) -> Second {
    let mut r = Random(7);
    let notes = Notes::new(t);
    let kinds = KINDS.into_iter().flat_map(|k| [(k, true), (k, false)]);
    let queries = kinds.flat_map(|(kind, common)| plants::queries(&mut r, &notes.one, kind, common, effort.queries));
    let mut asked: Vec<Asked> = queries.map(|q| notes.asked(q)).collect();
    let moves = asked.iter().map(|asked| notes.agree(asked)).sum();
    if notes.second.terms.len() > 1 {
        refusals_agree(&mut r, &notes, &asked[0].two);
    }
    let mut answer = vec![0; notes.one.size()];
    for round in 0..effort.rounds {
        asked.iter_mut().for_each(|asked| notes.round(asked, &effort, round, &mut answer));
    }
    let (clock, count) = (clock(), (asked.len() * effort.calls) as f64);
    let mean = |way: usize| asked.iter().map(|asked| asked.times[way].0 - clock).sum::<f64>() / count;
    Second {
        name,
        moved: [notes.second.terms.len(), notes.second.postings.len()],
        moves,
        one: Pair { proved: mean(0), plain: mean(1) },
        two: Pair { proved: mean(2), plain: mean(3) },
    }
}
