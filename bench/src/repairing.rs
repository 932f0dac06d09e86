//! Repairing lists with doubled postings: that both ways agree, and how long each takes.
use crate::paper::{device_of, Tables};
use crate::plants::{self, Size};
use crate::random::Random;
use crate::reading::{Pair, PLANTS};
use crate::time::{clock, Least};
use crate::{ffi, plain, repairer};
use std::hint::black_box;

type Repair = fn(&mut Tables, &mut [u32]) -> (u32, [usize; 2]);

/// Makes a plant.
type Make = fn(&mut Random, Size) -> Tables;

/// Proved and plain.
const WAYS: [Repair; 2] = [ffi::repair, repairer::repair];

/// How many more postings are put in at one of a clean list: mostly one, up to seven.
const MORE: [usize; 8] = [1, 1, 1, 1, 1, 2, 3, 7];

/// What repairing plants of a size gave: postings dropped, and seconds.
pub struct Repairing {
    pub name: &'static str,
    pub size: Size,
    pub dropped: usize,
    pub repair: Pair,
}

/// How much to measure: plants, rounds over all of them, and of each plant three times so many spoilt copies.
pub struct Effort {
    pub plants: u64,
    pub rounds: usize,
    pub spoilt: usize,
}

/// One plant, a copy to be repaired, and the times in each way.
struct Job {
    tables: Tables,
    lent: Tables,
    dropped: usize,
    repair: [Least; 2],
}

/// A plant of exactly this size. A fifth of its postings was put into the lists of a sound one: so many are dropped, and the few
/// that became redundant by it.
fn doubled(r: &mut Random, Size(n, terms, postings): Size) -> Tables {
    let mut left = postings / 5;
    let mut t = plants::plant(r, Size(n, terms, postings - left));
    let mut more = vec![0; t.postings.len()];
    while left > 0 {
        let more = &mut more[r.below(t.postings.len())];
        if *more == 0 {
            *more = r.of(&MORE).min(left);
            left -= *more;
        }
    }
    let clean = t.clone();
    t.postings.clear();
    for k in 0..clean.starts.len() {
        t.starts[k] = t.postings.len() as u32;
        let start = clean.starts[k] as usize;
        for (at, &posting) in plain::list(&clean, k).iter().enumerate() {
            t.postings.extend(beside(r, &clean.last, posting, more[start + at]));
        }
    }
    t
}

/// A posting and so many more, at its device or one that it carries its term to, half of them shared. Devices don't fall; the
/// postings of one come in any order.
fn beside(r: &mut Random, last: &[u16], posting: u32, more: usize) -> Vec<u32> {
    let (d, reach) = (device_of(posting), plain::reach(last, posting));
    let mut group = vec![posting];
    for _ in 0..more {
        let at = if r.one_in(2) { d } else { r.between(d, reach) };
        group.insert(r.below(group.len() + 1), (2 * at + r.below(2)) as u32);
    }
    group.sort_by_key(|&p| device_of(p));
    group
}

/// A job over a plant that is made so. Both ways were found to agree on it.
fn job(seed: u64, make: Make, size: Size, spoilt: usize) -> Job {
    let mut r = Random(seed);
    let tables = make(&mut r, size);
    let (_, [dropped, _]) = repairer::repair(&mut tables.clone(), &mut vec![0; 3 * size.2]);
    refusals_agree(&mut r, &tables, 3 * dropped, spoilt);
    Job { lent: tables.clone(), tables, dropped, repair: [Least::NONE; 2] }
}

/// Both ways give the same refusal, numbers, tables and report. The refusal.
fn agree(t: &Tables, room: usize) -> usize {
    let [proved, plain] = WAYS.map(|repair| {
        let (mut made, mut report) = (t.clone(), vec![7; room]);
        (repair(&mut made, &mut report), made, report)
    });
    assert!(proved == plain);
    plain.0 .0 as usize
}

/// Both ways agree where the report is too short, just long enough and longer, and where one posting, one start or the end of one
/// branch was written over.
fn refusals_agree(r: &mut Random, t: &Tables, needed: usize, rounds: usize) {
    let mut seen = [false; 45];
    for room in [0, needed.saturating_sub(1), needed, needed + 1, needed + 9] {
        seen[agree(t, room)] = true;
    }
    let (n, count) = (t.size(), t.postings.len());
    let mut copy = t.clone();
    for round in 0..rounds {
        let (room, turn) = (needed + round % 4, round % 3);
        let (k, s, d) = (r.between(1, count - 1), r.below(t.starts.len()), r.below(n - 1));
        let before = t.postings[k - 1];
        copy.postings[k] = r.of(&[t.postings[k] ^ 1, before, before ^ 1, before - 2, 1, 2 * n as u32 + 2]);
        seen[agree(&copy, room)] = true;
        copy.postings[k] = t.postings[k];
        copy.starts[s] = [t.starts[s] + 1, 0, count as u32 + 1][turn];
        seen[agree(&copy, room)] = true;
        copy.starts[s] = t.starts[s];
        copy.last[d] = [0, n as u16, d as u16 + 2][turn];
        seen[agree(&copy, room)] = true;
        copy.last[d] = t.last[d];
    }
    assert!([0, 2, 3, 7, 8, 41, 44].iter().all(|&k: &usize| seen[k]));
}

impl Job {
    /// Repairs a fresh copy in one of the ways; the copying isn't timed.
    fn repair(&mut self, way: usize, report: &mut [u32]) {
        self.lent.starts.copy_from_slice(&self.tables.starts);
        self.lent.postings.copy_from_slice(&self.tables.postings);
        self.repair[way].of(|| WAYS[way](black_box(&mut self.lent), report));
    }
}

/// The mean over several plants of this size, with doubled postings and without.
pub fn measure(names: [&'static str; 2], size: Size, effort: &Effort) -> [Repairing; 2] {
    let seeds = 7..7 + effort.plants;
    let jobs = |make: Make| seeds.clone().map(|seed| job(seed, make, size, effort.spoilt)).collect::<Vec<Job>>();
    let mut jobs = [jobs(doubled), jobs(plants::plant)];
    let mut report = vec![0; 3 * size.2];
    for _ in 0..effort.rounds {
        for jobs in &mut jobs {
            for way in 0..WAYS.len() {
                jobs.iter_mut().for_each(|job| job.repair(way, &mut report));
            }
        }
    }
    let clock = clock();
    [0, 1].map(|k| mean(names[k], size, &jobs[k], clock))
}

fn mean(name: &'static str, size: Size, jobs: &[Job], clock: f64) -> Repairing {
    let mean = |of: fn(&Job) -> f64| jobs.iter().map(of).sum::<f64>() / jobs.len() as f64;
    let repair = Pair { proved: mean(|job| job.repair[0].0) - clock, plain: mean(|job| job.repair[1].0) - clock };
    Repairing { name, size, dropped: mean(|job| job.dropped as f64) as usize, repair }
}

/// Each plant with doubled postings repaired once in each way, for a count of instructions.
pub fn count(size: Size) {
    let mut report = vec![0; 3 * size.2];
    for k in 0..PLANTS {
        let t = doubled(&mut Random(7 + k), size);
        for repair in WAYS {
            black_box(repair(black_box(&mut t.clone()), &mut report));
        }
    }
}
