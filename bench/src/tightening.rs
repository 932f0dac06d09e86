//! Tightening: that both ways agree, how long each takes, and what it saves.
use crate::paper::{Query, Tables};
use crate::plants::{self, Kind, Size, KINDS};
use crate::random::Random;
use crate::reading::{Pair, PLANTS};
use crate::time::{clock, Least};
use crate::{ffi, plain, tightener};
use std::hint::black_box;

type Tighten = fn(&mut Tables) -> (u32, usize);

/// Makes a plant.
type Make = fn(&mut Random, Size) -> Tables;

/// Proved and plain.
const WAYS: [Tighten; 2] = [ffi::tighten, tightener::tighten];

/// What tightening plants gave: postings before and after, and seconds.
pub struct Tightening {
    pub name: &'static str,
    pub before: usize,
    pub after: usize,
    pub tighten: Pair,
}

/// How much to measure: plants, rounds over all of them, and of each plant three times so many spoilt copies.
pub struct Effort {
    pub plants: u64,
    pub rounds: usize,
    pub spoilt: usize,
}

/// One plant, a copy to be tightened, and the times in each way.
struct Job {
    tables: Tables,
    lent: Tables,
    after: usize,
    tighten: [Least; 2],
}

/// A plant of about this size with nothing to gather: a sound one, tightened.
fn tight(r: &mut Random, size: Size) -> Tables {
    tightened(&plants::plant(r, size))
}

/// The tables tightened, with no entry more than there are postings.
fn tightened(t: &Tables) -> Tables {
    let mut made = t.clone();
    let (refused, after) = tightener::tighten(&mut made);
    assert_eq!(refused, 0);
    made.postings.truncate(after);
    made
}

/// A job over a plant that is made so. Both ways were found to agree on it.
fn job(seed: u64, make: Make, size: Size, spoilt: usize) -> Job {
    let mut r = Random(seed);
    let tables = make(&mut r, size);
    refusals_agree(&mut r, &tables, spoilt);
    let made = tightened(&tables);
    assert!(tightened(&made) == made);
    Job { lent: tables.clone(), tables, after: made.postings.len(), tighten: [Least::NONE; 2] }
}

/// Both ways give the same refusal, number and tables. The refusal.
fn agree(t: &Tables) -> usize {
    let [proved, plain] = WAYS.map(|tighten| {
        let mut made = t.clone();
        (tighten(&mut made), made)
    });
    assert!(proved == plain);
    plain.0 .0 as usize
}

/// Both ways agree over the plant, and where one posting (every second time one after a shared one), one start or the end of one
/// branch was written over.
fn refusals_agree(r: &mut Random, t: &Tables, rounds: usize) {
    let mut seen = [false; 10];
    seen[agree(t)] = true;
    let (n, count) = (t.size(), t.postings.len());
    let mut copy = t.clone();
    for round in 0..rounds {
        let (k, s, d) = (r.between(1, count - 1), r.below(t.starts.len()), r.below(n - 1));
        let k = (k..count).find(|&k| round % 2 == 0 || t.postings[k - 1] % 2 == 1).unwrap_or(k);
        let before = t.postings[k - 1];
        copy.postings[k] = [t.postings[k] ^ 1, before + 2, before, before + 2, 1, 2 * n as u32 + 2][round % 6];
        seen[agree(&copy)] = true;
        copy.postings[k] = t.postings[k];
        copy.starts[s] = [t.starts[s] + 1, 0, count as u32 + 1][round % 3];
        seen[agree(&copy)] = true;
        copy.starts[s] = t.starts[s];
        copy.last[d] = [0, n as u16, d as u16 + 2][round % 3];
        seen[agree(&copy)] = true;
        copy.last[d] = t.last[d];
    }
    assert!([0, 2, 3, 7, 8, 9].iter().all(|&k: &usize| seen[k]));
}

impl Job {
    /// Tightens a fresh copy in one of the ways; the copying isn't timed.
    fn tighten(&mut self, way: usize) {
        self.lent.starts.copy_from_slice(&self.tables.starts);
        self.lent.postings.copy_from_slice(&self.tables.postings);
        self.tighten[way].of(|| WAYS[way](black_box(&mut self.lent)));
    }
}

/// The mean over several plants of this size, with branches noted device by device and with nothing to gather.
pub fn measure(names: [&'static str; 2], size: Size, effort: &Effort) -> [Tightening; 2] {
    let seeds = 7..7 + effort.plants;
    let jobs = |make: Make| seeds.clone().map(|seed| job(seed, make, size, effort.spoilt)).collect::<Vec<Job>>();
    let mut jobs = [jobs(plants::noted), jobs(tight)];
    for _ in 0..effort.rounds {
        for jobs in &mut jobs {
            for way in 0..WAYS.len() {
                jobs.iter_mut().for_each(|job| job.tighten(way));
            }
        }
    }
    let clock = clock();
    [0, 1].map(|k| mean(names[k], &jobs[k], clock))
}

fn mean(name: &'static str, jobs: &[Job], clock: f64) -> Tightening {
    let mean = |of: fn(&Job) -> f64| jobs.iter().map(of).sum::<f64>() / jobs.len() as f64;
    Tightening {
        name,
        before: mean(|job| job.tables.postings.len() as f64) as usize,
        after: mean(|job| job.after as f64) as usize,
        tighten: Pair { proved: mean(|job| job.tighten[0].0) - clock, plain: mean(|job| job.tighten[1].0) - clock },
    }
}

/// What tightening one plant saves: postings, and the moves of queries.
pub struct Saved {
    pub name: &'static str,
    pub size: Size,
    pub after: usize,
    pub rows: Vec<Row>,
}

/// The queries of one kind: devices listed and moves, all together.
pub struct Row {
    pub kind: Kind,
    pub common: bool,
    pub queries: usize,
    pub listed: u64,
    pub before: u64,
    pub after: u64,
}

/// Over a plant of this size with branches noted device by device, and so many queries of each kind.
pub fn saved(name: &'static str, size: Size, queries: usize) -> Saved {
    let mut r = Random(7);
    let before = plants::noted(&mut r, size);
    assert_eq!((before.size(), before.terms.len(), before.postings.len()), (size.0, size.1, size.2));
    let after = tightened(&before);
    assert_eq!(plain::check(&after), 0);
    let kinds = KINDS.into_iter().flat_map(|k| [(k, true), (k, false)]);
    let rows = kinds.map(|(kind, common)| {
        let asked = plants::queries(&mut r, &before, kind, common, queries);
        let mut row = Row { kind, common, queries, listed: 0, before: 0, after: 0 };
        asked.iter().for_each(|q| row.add([&before, &after], q));
        row
    });
    Saved { name, size, after: after.postings.len(), rows: rows.collect() }
}

impl Row {
    /// Adds a query, which lists the same devices before and after.
    fn add(&mut self, tables: [&Tables; 2], q: &Query) {
        let [before, after] = tables.map(|t| {
            let mut answer = vec![0; t.size()];
            let found = plain::steps(t, q, &mut answer);
            assert_eq!((found.refusal, found.position), (0, t.size() as u32 + 1));
            (found, answer)
        });
        assert!((before.0.count, &before.1) == (after.0.count, &after.1));
        self.listed += before.0.count as u64;
        self.before += before.0.moves as u64;
        self.after += after.0.moves as u64;
    }
}

/// Each plant with branches noted device by device tightened once in each way, for a count of instructions.
pub fn count(size: Size) {
    for k in 0..PLANTS {
        let t = plants::noted(&mut Random(7 + k), size);
        for tighten in WAYS {
            black_box(tighten(black_box(&mut t.clone())));
        }
    }
}
