//! Times the proved search beside plain Rust and other ways to the same listing, and writes docs/BENCHMARK.md.
//!
//! `bench` times; `bench quick` shows rough figures and writes nothing, `bench read` those of reading and writing alone,
//! `bench repair` those of repairing, `bench tighten` those of tightening, `bench second` those of a second index and
//! `bench levels` those of the level rule; `bench count common`, `bench count any`, `bench count small` (each of these also with
//! `any-level`, `true-levels` or `level-range` after it), `bench count read`, `bench count write`, `bench count repair` and
//! `bench count tighten` make each call a fixed number of times, for callgrind to count instructions.
#[cfg(before)]
mod before;
#[allow(dead_code)]
#[path = "../../tests/outside/src/ffi.rs"]
mod ffi;
mod levels;
mod lines;
#[allow(dead_code)]
#[path = "../../tests/outside/src/paper.rs"]
mod paper;
mod plain;
mod plant_reader;
mod plant_writer;
mod plants;
mod query_reader;
#[allow(dead_code)]
#[path = "../../tests/outside/src/random.rs"]
mod random;
mod reading;
mod repairer;
mod repairing;
mod report;
mod respond;
mod roaring;
mod second;
mod sqlite;
mod texts;
mod tightener;
mod tightening;
mod time;
mod unshared;
mod ways;
mod writing;

use levels::Levelled;
use paper::{Answer, Levels, Query, Tables};
use plants::{Kind, Size, KINDS};
use random::Random;
use reading::{Pair, Reading};
use repairing::Repairing;
use second::Second;
use std::hint::black_box;
use tightening::{Saved, Tightening};
use time::{clock, seconds, Least, Rounds, Times};
use ways::{checks_agree, few, proved_search, proved_steps, Checks, Moves, Taken, Ways};
use writing::Writing;

const MISSION: Size = Size(1_024, 256, 4_096);
/// With nearly as many postings as a text has room for.
const LONGEST: Size = Size(1_024, 256, 5_140);
const LIMITS: Size = Size(65_535, 8_192, 1_048_576);

/// All that the page shows.
pub struct Page {
    pub measured: [Measured; 2],
    pub reading: Reading,
    pub printing: Pair,
    pub written: [Writing; 2],
    pub repaired: Vec<Repairing>,
    pub tightened: Vec<Tightening>,
    pub saved: [Saved; 2],
    pub second: [Second; 3],
    pub levels: [Levelled; 3],
    pub growth: Vec<Growth>,
    pub skips: Vec<Skip>,
}

/// What one plant gave; the checks in seconds.
pub struct Measured {
    pub name: &'static str,
    pub size: Size,
    pub check: Checks<f64>,
    pub rows: Vec<Row>,
    pub unshared_postings: usize,
}

/// What the queries of one kind gave; `common`: a term was as likely as its list is long, else all were equally likely.
pub struct Row {
    pub kind: Kind,
    pub common: bool,
    pub queries: usize,
    pub times: Times,
    pub moves: Moves,
}

/// How often to measure: queries of each kind, passes over all of them, and in each pass the rounds of whole calls and of steps.
struct Effort {
    queries: usize,
    passes: usize,
    whole: usize,
    steps: usize,
}

/// The queries of one kind, with the times of each.
struct Asked {
    kind: Kind,
    common: bool,
    queries: Vec<(Query, Taken)>,
    moves: Moves,
}

fn measure(name: &'static str, size: Size, effort: Effort) -> Measured {
    let mut r = Random(7);
    let tables = plants::plant(&mut r, size);
    assert_eq!((tables.size(), tables.terms.len(), tables.postings.len()), (size.0, size.1, size.2));
    checks_agree(&tables);
    let mut ways = Ways::new(tables);
    let kinds = KINDS.into_iter().flat_map(|k| [(k, true), (k, false)]);
    let mut asked: Vec<Asked> = kinds.map(|(kind, common)| ask(&mut r, &mut ways, kind, common, effort.queries)).collect();
    for _ in 0..effort.passes {
        for (q, taken) in asked.iter_mut().flat_map(|a| &mut a.queries) {
            pass(&mut ways, q, taken, &effort);
        }
    }
    let row = |a: Asked| {
        let times: Vec<Times> = a.queries.iter().map(|(_, taken)| ways.times(taken)).collect();
        Row { kind: a.kind, common: a.common, queries: times.len(), times: Times::mean(&times), moves: a.moves }
    };
    let rows = asked.into_iter().map(row).collect();
    Measured { name, size, check: ways.checks(), rows, unshared_postings: ways.unshared.postings() }
}

/// Queries of a kind, over each of which all ways were found to agree.
fn ask(r: &mut Random, ways: &mut Ways, kind: Kind, common: bool, count: usize) -> Asked {
    let mut asked = Asked { kind, common, queries: vec![], moves: Moves::default() };
    for q in plants::queries(r, &ways.tables, kind, common, count) {
        asked.moves.add(ways.agree(&q));
        asked.queries.push((q, Taken::new()));
    }
    asked
}

/// One pass over one query: all ways take turns in each round.
fn pass(ways: &mut Ways, q: &Query, taken: &mut Taken, effort: &Effort) {
    for _ in 0..effort.whole {
        ways.whole(q, taken);
    }
    let few = few(&ways.tables, q);
    for _ in 0..effort.steps {
        ways.steps(&few, q, taken);
    }
    ways.sqlite(&few, q, taken);
}

/// The check over growing tables, in seconds.
pub struct Growth {
    pub size: Size,
    pub proved: f64,
    pub plain: f64,
}

fn growth() -> Vec<Growth> {
    let mut rows = vec![];
    for k in [1, 4, 16, 64] {
        let size = Size(1_023 * k, 128 * k, 16_384 * k);
        let t = plants::plant(&mut Random(7), size);
        let (mut proved, mut plain) = (Least::NONE, Least::NONE);
        for _ in 0..60 + 1_000 / k {
            proved.of(|| ffi::check(black_box(&t)));
            plain.of(|| plain::check(black_box(&t)));
        }
        rows.push(Growth { size, proved: proved.0, plain: plain.0 });
    }
    rows
}

/// The steps of a join with a list that is longer and longer, in seconds.
pub struct Skip {
    pub long: usize,
    pub moves: u32,
    pub passed: u32,
    pub proved: f64,
    pub plain: f64,
}

/// A plant without branches, a term on 64 devices and one on `long`: what a move skips grows, the moves do not.
fn skipping(long: usize) -> (Tables, Query) {
    let n = 65_535;
    let spread = |count: usize| (0..count).map(move |i| 2 * (i * (n / count) + 1) as u32);
    let mut t = Tables { level: vec![100; n], terms: vec![1, 2], ..Tables::default() };
    t.last = (1..=n as u16).collect();
    t.root = t.last.clone();
    t.postings = spread(64).chain(spread(long)).collect();
    t.starts = vec![0, 64];
    (t, Query { required: vec![1, 2], ..Query::empty() })
}

fn skips() -> Vec<Skip> {
    let mut rows = vec![];
    for long in [1_000, 4_000, 16_000, 64_000] {
        let (t, q) = skipping(long);
        let mut answer = vec![0; t.size()];
        let found @ Answer { moves, passed, .. } = plain::search(&t, &q, &mut answer);
        assert_eq!(proved_search(&t, &q, &mut answer), found);
        let (mut proved, mut plain) = (Rounds::default(), Rounds::default());
        for round in 0..600 {
            proved.push(proved_steps(&t, &q, &mut answer, round));
            black_box(ffi::check(black_box(&t)));
            plain.push(seconds(|| plain::steps(&t, black_box(&q), &mut answer)));
        }
        rows.push(Skip { long, moves, passed, proved: proved.median(), plain: plain.median() - clock() });
    }
    rows
}

/// Counts over what was asked for: common terms or any at the mission's size, or the plant P; and perhaps one level rule alone.
fn count_of(words: &[&str]) {
    let (terms, levels) = match *words {
        [terms] => (terms, None),
        [terms, "any-level"] => (terms, Some(Levels::Any)),
        [terms, "true-levels"] => (terms, Some(Levels::TrueOnly)),
        [terms, "level-range"] => (terms, Some(plants::RANGE)),
        _ => usage(),
    };
    let mut r = Random(7);
    let tables = if terms == "small" { plants::small() } else { plants::plant(&mut r, MISSION) };
    count(r, tables, terms != "any", levels);
}

/// Forty queries of each kind, each call made once, for a count of instructions; under one level rule alone, of each kind that
/// says nothing of levels, and there the library before is called too.
fn count(mut r: Random, tables: Tables, common: bool, levels: Option<Levels>) {
    let mut answer = vec![0; tables.size()];
    for kind in KINDS.into_iter().filter(|kind| levels.is_none() || kind.3 == Levels::TrueOnly) {
        for q in plants::queries(&mut r, &tables, kind, common, 40) {
            let q = Query { levels: levels.unwrap_or(q.levels), ..q };
            black_box(ffi::check(black_box(&tables)));
            black_box(proved_search(&tables, black_box(&q), &mut answer));
            black_box(levels.and_then(levels::linked).map(|[before, _]| before(&tables, black_box(&q), &mut answer)));
            black_box(plain::check(black_box(&tables)));
            black_box(plain::check_in_two_passes(black_box(&tables)));
            black_box(plain::steps(&tables, black_box(&q), &mut answer));
        }
    }
}

/// Writing at both sizes of text; each plant comes round as often as in reading.
fn written(readings: usize) -> [Writing; 2] {
    [MISSION, LONGEST].map(|size| writing::measure(size, 10 * readings))
}

/// Repairing at both sizes, with doubled postings and without. Of small plants there are more, since a processor learns a few.
fn repaired(readings: usize) -> Vec<Repairing> {
    let mission = repairing::Effort { plants: 16, rounds: 10 * readings, spoilt: 100 };
    let limits = repairing::Effort { plants: 2, rounds: readings / 2, spoilt: 24 };
    let mission = repairing::measure(["the mission's size", "the mission's size, clean"], MISSION, &mission);
    mission.into_iter().chain(repairing::measure(["the limits", "the limits, clean"], LIMITS, &limits)).collect()
}

/// Tightening at both sizes, of branches noted device by device and of tight lists; as many plants as in repairing.
fn tightened(readings: usize) -> Vec<Tightening> {
    let mission = tightening::Effort { plants: 16, rounds: 10 * readings, spoilt: 100 };
    let limits = tightening::Effort { plants: 2, rounds: readings / 2, spoilt: 24 };
    let mission = tightening::measure(["the mission's size", "the mission's size, tight"], MISSION, &mission);
    mission.into_iter().chain(tightening::measure(["the limits", "the limits, tight"], LIMITS, &limits)).collect()
}

/// What tightening saves at both sizes.
fn saved() -> [Saved; 2] {
    [tightening::saved("the mission's size", MISSION, 40), tightening::saved("the limits", LIMITS, 12)]
}

/// A second index, over document 01's plant P and at both sizes.
fn in_two(rounds: usize) -> [Second; 3] {
    over_each(rounds, second::measure)
}

/// The level rule, over the same plants.
fn levelled(rounds: usize) -> [Levelled; 3] {
    over_each(rounds, levels::measure)
}

/// What is measured over document 01's plant P and at both sizes.
fn over_each<T>(rounds: usize, measure: fn(&'static str, Tables, second::Effort) -> T) -> [T; 3] {
    let plant = |size: Size| plants::plant(&mut Random(7), size);
    [
        measure("document 01's plant P", plants::small(), second::Effort { queries: 10, rounds: 10 * rounds, calls: 20 }),
        measure("the mission's size", plant(MISSION), second::Effort { queries: 20, rounds, calls: 1 }),
        measure("the limits", plant(LIMITS), second::Effort { queries: 2, rounds: rounds / 4, calls: 1 }),
    ]
}

fn usage() -> ! {
    let count = "count common|any|small [any-level|true-levels|level-range] | count read|write|repair|tighten";
    panic!("usage: bench [quick | read | repair | tighten | second | levels | {count}]")
}

fn page(mission: Effort, limits: Effort, readings: usize) -> Page {
    Page {
        measured: [measure("the mission's size", MISSION, mission), measure("the limits", LIMITS, limits)],
        reading: reading::measure(MISSION, readings),
        written: written(readings),
        repaired: repaired(readings),
        tightened: tightened(readings),
        saved: saved(),
        second: in_two(readings),
        levels: levelled(readings),
        printing: reading::printing(),
        growth: growth(),
        skips: skips(),
    }
}

fn main() {
    let words: Vec<String> = std::env::args().skip(1).collect();
    let words: Vec<&str> = words.iter().map(String::as_str).collect();
    let (mission, limits, readings) = match words[..] {
        ["count", "common" | "any" | "small", ..] => return count_of(&words[1..]),
        ["count", "read"] => return reading::count(MISSION),
        ["count", "write"] => return writing::count(MISSION),
        ["count", "repair"] => return repairing::count(MISSION),
        ["count", "tighten"] => return tightening::count(MISSION),
        ["repair"] => return print!("{}", report::repairing(&repaired(60))),
        ["tighten"] => return print!("{}", report::tightening(&tightened(60), &saved())),
        ["second"] => return print!("{}", report::second(&in_two(200))),
        ["levels"] => return print!("{}", report::levels(&levelled(200))),
        ["read"] => {
            let read = report::reading(MISSION, &reading::measure(MISSION, 60), reading::printing());
            return print!("{read}{}", report::writing(&written(60)));
        }
        ["quick"] => {
            (Effort { queries: 10, passes: 4, whole: 25, steps: 25 }, Effort { queries: 4, passes: 3, whole: 1, steps: 30 }, 20)
        }
        [] => {
            let limits = Effort { queries: 12, passes: 5, whole: 2, steps: 30 };
            (Effort { queries: 40, passes: 10, whole: 25, steps: 40 }, limits, 200)
        }
        _ => usage(),
    };
    let text = report::whole(&page(mission, limits, readings));
    print!("{text}");
    if words.is_empty() {
        std::fs::write(concat!(env!("CARGO_MANIFEST_DIR"), "/../docs/BENCHMARK.md"), &text).unwrap();
    }
}
