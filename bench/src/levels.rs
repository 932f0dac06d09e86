//! The level rule: that it changes no move, what true levels only cost beside any level, and calls beside those of the library
//! before an ask could leave out devices that have no true level.
use crate::paper::{Answer, Levels, Query, Tables};
use crate::plants::{self, KINDS, RANGE};
use crate::random::Random;
use crate::reading::Pair;
use crate::respond::Search;
use crate::second::Effort;
use crate::time::{clock, Least};
use crate::ways::{few, left_by, proved_search};
use crate::{ffi, plain};
use std::hint::black_box;

/// The search of the library before and today's, linked in the same way.
#[cfg(before)]
const LINKED: Option<[Search; 2]> = Some([crate::before::before, crate::before::now]);
#[cfg(not(before))]
const LINKED: Option<[Search; 2]> = None;

/// The rules that each query is asked under.
const RULES: [Levels; 3] = [Levels::Any, Levels::TrueOnly, RANGE];

/// Passes over all queries, so that what else the machine does for a while spoils no row.
const PASSES: usize = 5;
/// Rounds of the steps for each round of calls, since they are short.
const STEPS: usize = 4;

/// What the queries over one plant gave: the moves of all together, which are the same under each rule, and what each rule gave.
pub struct Levelled {
    pub name: &'static str,
    pub moves: u64,
    pub any: Rule,
    pub true_only: Rule,
    pub range: Rule,
}

/// Devices listed by all queries together; seconds of one call, of its steps, and of a call of the library before with one of
/// today's beside it.
#[derive(Clone, Copy)]
pub struct Rule {
    pub listed: u64,
    pub call: Pair,
    pub steps: Pair,
    pub beside: Option<[f64; 2]>,
}

/// A query under each rule, and the plant with the lists alone that it names, with the time of its check.
struct Asked {
    few: Tables,
    check: Least,
    rules: [Taken; 3],
}

/// A query under one rule, and its times.
struct Taken {
    query: Query,
    listed: u64,
    call: Least,
    plain_call: Least,
    /// of the library before, and of today's beside it
    beside: [Least; 2],
    /// over the plant with few lists
    few_call: Least,
    plain_steps: Least,
}

/// The search of the library before and today's, where they are linked and both have such a rule.
pub fn linked(levels: Levels) -> Option<[Search; 2]> {
    LINKED.filter(|_| levels != Levels::TrueOnly)
}

impl Taken {
    fn new(query: Query) -> Taken {
        let [call, plain_call, before, now, few_call, plain_steps] = [Least::NONE; 6];
        Taken { query, listed: 0, call, plain_call, beside: [before, now], few_call, plain_steps }
    }

    /// All ways give the same numbers and the same entries of the answer: those.
    fn agree(&self, t: &Tables, budget: u32) -> (Answer, Vec<u16>) {
        let q = Query { budget, ..self.query.clone() };
        let found = left_by(t, |answer| plain::search(t, &q, answer));
        assert_eq!(found.0.refusal, 0);
        assert!(left_by(t, |answer| proved_search(t, &q, answer)) == found);
        for search in linked(q.levels).into_iter().flatten() {
            assert!(left_by(t, |answer| search(t, &q, answer)) == found);
        }
        found
    }

    /// One round of calls. The ways go to and fro, so that the first is not always the same.
    fn calls(&mut self, t: &Tables, effort: &Effort, round: usize, answer: &mut [u16]) {
        let (q, [before, now]) = (&self.query, &mut self.beside);
        let linked = linked(q.levels);
        let mut ways = [
            (linked.map(|[search, _]| search), before),
            (linked.map(|[_, search]| search), now),
            (Some(proved_search as Search), &mut self.call),
            (Some(plain::search as Search), &mut self.plain_call),
        ];
        if round % 2 == 1 {
            ways.reverse();
        }
        for (search, least) in ways {
            search.iter().for_each(|search| least.of(|| effort.call(|| search(t, black_box(q), answer))));
        }
    }

    /// One round over the plant with few lists: a check, a call, and the plain steps after a check.
    fn steps(&mut self, few: &Tables, check: &mut Least, answer: &mut [u16]) {
        let q = &self.query;
        check.of(|| ffi::check(black_box(few)));
        self.few_call.of(|| proved_search(few, black_box(q), answer));
        check.of(|| ffi::check(black_box(few)));
        self.plain_steps.of(|| plain::steps(few, black_box(q), answer));
    }
}

impl Asked {
    /// The query under each rule. All ways were found to agree on it.
    fn new(t: &Tables, q: Query) -> Asked {
        let rules = RULES.map(|levels| Taken::new(Query { levels, ..q.clone() }));
        let mut asked = Asked { few: few(t, &q), check: Least::NONE, rules };
        asked.agree(t);
        asked
    }

    /// The moves, what these pass over and the position are the same under each rule, also where a budget stops the run; the
    /// listing is that at any level, less the devices that the rule leaves out.
    fn agree(&mut self, t: &Tables) {
        let moves = self.moves(t) as u32;
        for budget in [0, moves / 2, u32::MAX] {
            let (any, entries) = self.rules[0].agree(t, budget);
            for taken in &mut self.rules {
                let (found, listing) = taken.agree(t, budget);
                assert_eq!(Answer { count: any.count, ..found }, any);
                let kept =
                    entries[..any.count as usize].iter().filter(|&&d| !taken.query.levels.leave_out(t.level[d as usize - 1]));
                assert!(listing[..found.count as usize].iter().eq(kept));
                taken.listed = found.count as u64;
            }
        }
    }

    fn moves(&self, t: &Tables) -> u64 {
        plain::search(t, &self.rules[0].query, &mut vec![0; t.size()]).moves as u64
    }

    /// One round under each rule.
    fn round(&mut self, t: &Tables, effort: &Effort, round: usize, answer: &mut [u16]) {
        for rule in to_and_fro(round) {
            self.rules[rule].calls(t, effort, round, answer);
        }
        for round in round..round + STEPS {
            for rule in to_and_fro(round) {
                self.rules[rule].steps(&self.few, &mut self.check, answer);
            }
        }
    }
}

/// The rules in turn, so that the first is not always the same.
fn to_and_fro(round: usize) -> [usize; 3] {
    if round % 2 == 0 {
        [0, 1, 2]
    } else {
        [2, 1, 0]
    }
}

/// Queries of the kinds that say nothing of levels.
fn queries(r: &mut Random, t: &Tables, count: usize) -> Vec<Query> {
    let kinds = KINDS.into_iter().filter(|kind| kind.3 == Levels::TrueOnly).flat_map(|k| [(k, true), (k, false)]);
    kinds.flat_map(|(kind, common)| plants::queries(r, t, kind, common, count)).collect()
}

/// The mean over such queries over one plant. In each pass a query is asked again and again, so that a processor learns it as well
/// under each rule.
pub fn measure(name: &'static str, t: Tables, effort: Effort) -> Levelled {
    let queries = queries(&mut Random(7), &t, effort.queries);
    let mut asked: Vec<Asked> = queries.into_iter().map(|q| Asked::new(&t, q)).collect();
    let mut answer = vec![0; t.size()];
    for _ in 0..PASSES {
        for asked in &mut asked {
            (0..effort.rounds / PASSES).for_each(|round| asked.round(&t, &effort, round, &mut answer));
        }
    }
    let clock = clock();
    let [any, true_only, range] = [0, 1, 2].map(|k| {
        let mean = |of: fn(&Taken) -> f64| asked.iter().map(|asked| of(&asked.rules[k])).sum::<f64>() / asked.len() as f64;
        let check = asked.iter().map(|asked| asked.check.0).sum::<f64>() / asked.len() as f64;
        let call = |of: fn(&Taken) -> f64| (mean(of) - clock) / effort.calls as f64;
        Rule {
            listed: asked.iter().map(|asked| asked.rules[k].listed).sum(),
            call: Pair { proved: call(|taken| taken.call.0), plain: call(|taken| taken.plain_call.0) },
            steps: Pair { proved: mean(|taken| taken.few_call.0) - check, plain: mean(|taken| taken.plain_steps.0) - clock },
            beside: linked(RULES[k]).map(|_| [call(|taken| taken.beside[0].0), call(|taken| taken.beside[1].0)]),
        }
    });
    Levelled { name, moves: asked.iter().map(|asked| asked.moves(&t)).sum(), any, true_only, range }
}
