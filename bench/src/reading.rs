//! The readers of text, and the whole job from texts to the printed answer: that they agree, and how long each takes.
use crate::paper::Tables;
use crate::plants::{self, Size, KINDS};
use crate::random::Random;
use crate::respond::{respond, room};
use crate::time::{clock, Least};
use crate::{ffi, plain, plant_reader, query_reader, texts};
use std::hint::black_box;

/// Plants, each with two queries of each kind. They are read in turn: a processor learns a text that is read again at once.
pub const PLANTS: u64 = 8;

/// Rounds of printing: its time is a difference of two.
const PRINTINGS: usize = 3_000;

/// Seconds of one call in each way.
#[derive(Clone, Copy)]
pub struct Pair {
    pub proved: f64,
    pub plain: f64,
}

/// What reading gave: bytes of a plant text and of a query text, and seconds.
pub struct Reading {
    pub plant_bytes: usize,
    pub query_bytes: usize,
    pub plant: Pair,
    pub query: Pair,
    pub respond: Pair,
    /// the plain way with no check of the tables that it has just made
    pub unchecked: f64,
    /// one pass over the bytes of a plant text that counts line feeds
    pub pass: f64,
}

/// One plant text with its query texts, and the times of each.
struct Job {
    plant: Vec<u8>,
    queries: Vec<Vec<u8>>,
    /// proved, plain, and the pass that counts line feeds
    read: [Least; 3],
    read_queries: [Least; 2],
    /// for each query: proved, plain, plain without the check
    responds: Vec<[Least; 3]>,
}

/// A job over a plant of this size. All ways were found to agree on it.
fn job(seed: u64, size: Size) -> Job {
    let mut r = Random(seed);
    let t = plants::plant(&mut r, size);
    let plant = t.text();
    let mut queries: Vec<Vec<u8>> = vec![];
    for kind in KINDS {
        for common in [true, false] {
            queries.extend(plants::queries(&mut r, &t, kind, common, 1).iter().map(texts::query));
        }
    }
    tables_agree(&plant, &t);
    plants_agree(&mut r, &plant);
    queries.iter().for_each(|query| queries_agree(&mut r, query));
    queries.iter().for_each(|query| responds_agree(&plant, query));
    let responds = vec![[Least::NONE; 3]; queries.len()];
    Job { plant, queries, read: [Least::NONE; 3], read_queries: [Least::NONE; 2], responds }
}

/// Both readers give back the tables that the text was written from.
fn tables_agree(text: &[u8], t: &Tables) {
    for read in [ffi::read_plant, plant_reader::read_plant] {
        let mut made = lent();
        assert_eq!(read(text, &mut made), (0, [0, t.size(), t.terms.len(), t.postings.len()]));
        assert!(made == *t);
    }
}

/// Tables with room for a plant of the mission's size, no entry of them 0.
fn lent() -> Tables {
    filled(room())
}

/// Tables of the same lengths, each entry 7.
pub fn filled(mut t: Tables) -> Tables {
    t.last.fill(7);
    t.root.fill(7);
    t.level.fill(7);
    t.terms.fill(7);
    t.starts.fill(7);
    t.postings.fill(7);
    t
}

/// A copy of the text with one byte written over or put in, one line left out or doubled or for the whole branch, or cut off.
fn spoilt(r: &mut Random, text: &[u8]) -> Vec<u8> {
    let mut copy = text.to_vec();
    let at = r.below(text.len());
    let from = text[..at].iter().rposition(|&b| b == b'\n').map_or(0, |k| k + 1);
    let to = at + 1 + text[at..].iter().position(|&b| b == b'\n').unwrap();
    match r.below(6) {
        0 => copy[at] = r.of(b"()\n 0123456789adeklmnoprvwy"),
        1 => copy.insert(at, r.of(b"0123456789")),
        2 => drop(copy.drain(from..to)),
        3 => drop(copy.splice(from..from, text[from..to].to_vec())),
        4 if text[from..].starts_with(b"(own") => copy[from..from + 4].copy_from_slice(b"(all"),
        _ => copy.truncate(at),
    }
    copy
}

/// Both readers give the same refusal, line, counts and tables over spoilt copies of a plant text, one too deep and one too long.
fn plants_agree(r: &mut Random, text: &[u8]) {
    let mut texts: Vec<Vec<u8>> = (0..600).map(|_| spoilt(r, text)).collect();
    texts.push([b"(plant\n".as_slice(), &b"(dev 0\n".repeat(33)].concat());
    texts.push(text.repeat(2));
    let mut seen = [false; 30];
    for spoilt in texts {
        let (mut proved, mut plain) = (lent(), lent());
        let told = ffi::read_plant(&spoilt, &mut proved);
        assert_eq!(plant_reader::read_plant(&spoilt, &mut plain), told);
        assert!(proved == plain);
        seen[told.0 as usize] = true;
    }
    assert!([0, 20, 21, 22, 23, 24, 27, 28, 29].iter().all(|&k: &usize| seen[k]));
}

fn queries_agree(r: &mut Random, text: &[u8]) {
    assert_eq!(ffi::read_query(text).refusal, 0);
    assert_eq!(query_reader::read_query(text), ffi::read_query(text));
    for _ in 0..100 {
        let spoilt = spoilt(r, text);
        assert_eq!(query_reader::read_query(&spoilt), ffi::read_query(&spoilt));
    }
}

/// Level lines, the refusal of a query text with them, and what it then hands back of levels.
const LEVEL_LINES: [(&str, u32, usize); 12] = [
    ("", 0, 1),
    ("(level any)\n", 0, 0),
    ("(level 100 140)\n", 0, 2),
    ("(level 0 255)\n", 0, 2),
    ("(level any)\n(level any)\n", 31, 1),
    ("(level any)\n(level 100 140)\n", 31, 1),
    ("(level 100 140)\n(level any)\n", 31, 1),
    ("(level any)\n(not 9)\n", 31, 1),
    ("(level any 9)\n", 31, 1),
    ("(level any )\n", 31, 1),
    ("(level an)\n", 31, 1),
    ("(level all)\n", 31, 1),
];

fn level_lines_agree() {
    for (lines, refusal, levels) in LEVEL_LINES {
        let text = format!("(ask\n(need 7)\n{lines}(from 2)\n)\n");
        let read = query_reader::read_query(text.as_bytes());
        assert_eq!((read.refusal, read.numbers[3]), (refusal, levels));
        assert_eq!(ffi::read_query(text.as_bytes()), read);
    }
}

fn responds_agree(plant: &[u8], query: &[u8]) {
    let (mut proved, mut out) = ([0; 16384], [0; 16384]);
    let length = ffi::respond_into(plant, query, &mut proved);
    for search in [plain::search, plain::steps] {
        assert_eq!(respond(plant, query, &mut out, search), length);
        assert_eq!(out, proved);
    }
}

/// Counts line feeds, in one byte after the other: what is read is hidden from the compiler, so that it takes no more at once.
#[inline(never)]
fn feeds(text: &[u8]) -> usize {
    text.iter().filter(|&&b| black_box(b) == b'\n').count()
}

impl Job {
    /// Reads the plant text in one of the ways.
    fn read(&mut self, way: usize, t: &mut Tables) {
        let text = black_box(self.plant.as_slice());
        match way {
            0 => self.read[way].of(|| ffi::read_plant(text, t)),
            1 => self.read[way].of(|| plant_reader::read_plant(text, t)),
            _ => self.read[way].of(|| feeds(text)),
        }
    }

    /// Reads all query texts, in both ways.
    fn read_queries(&mut self) {
        let queries = || black_box(&self.queries).iter();
        self.read_queries[0].of(|| queries().for_each(|q| drop(black_box(ffi::read_query(q)))));
        self.read_queries[1].of(|| queries().for_each(|q| drop(black_box(query_reader::read_query(q)))));
    }

    /// Does the whole job for one query in one of the ways.
    fn respond(&mut self, way: usize, query: usize, out: &mut [u8; 16384]) {
        let (text, least) = (black_box(&self.plant), &mut self.responds[query][way]);
        let query = &self.queries[query];
        match way {
            0 => least.of(|| ffi::respond_into(text, query, out)),
            1 => least.of(|| respond(text, query, out, plain::search)),
            _ => least.of(|| respond(text, query, out, plain::steps)),
        }
    }

    fn times(&self, clock: f64) -> Reading {
        let count = self.queries.len() as f64;
        let respond = |way: usize| self.responds.iter().map(|r| r[way].0 - clock).sum::<f64>() / count;
        let pair = |of: &[Least], count: f64| Pair { proved: (of[0].0 - clock) / count, plain: (of[1].0 - clock) / count };
        Reading {
            plant_bytes: self.plant.len(),
            query_bytes: self.queries.iter().map(Vec::len).sum::<usize>() / self.queries.len(),
            plant: pair(&self.read, 1.0),
            query: pair(&self.read_queries, count),
            respond: Pair { proved: respond(0), plain: respond(1) },
            unchecked: respond(2),
            pass: self.read[2].0 - clock,
        }
    }
}

/// Each plant text read once in each way, for a count of instructions.
pub fn count(size: Size) {
    let mut t = room();
    for k in 0..PLANTS {
        let text = plants::plant(&mut Random(7 + k), size).text();
        black_box(ffi::read_plant(black_box(&text), &mut t));
        black_box(plant_reader::read_plant(black_box(&text), &mut t));
    }
}

/// Listing and printing as many devices as there is room for: an ask for all of them less one for none, over a plant of devices alone.
pub fn printing() -> Pair {
    let plant = [b"(plant\n".as_slice(), &b"(dev 120\n)\n".repeat(1_024), b")\n"].concat();
    let asks: [&[u8]; 2] = [b"(ask\n)\n", b"(ask\n(from 1025)\n)\n"];
    asks.iter().for_each(|ask| responds_agree(&plant, ask));
    let (mut times, mut out) = ([[Least::NONE; 2]; 2], [0; 16384]);
    for _ in 0..PRINTINGS {
        for (ask, [proved, plain]) in asks.iter().zip(&mut times) {
            proved.of(|| ffi::respond_into(black_box(&plant), ask, &mut out));
            plain.of(|| respond(black_box(&plant), ask, &mut out, plain::search));
        }
    }
    let [all, none] = times;
    Pair { proved: all[0].0 - none[0].0, plain: all[1].0 - none[1].0 }
}

/// The mean over several plants of this size; each query comes round so often.
pub fn measure(size: Size, rounds: usize) -> Reading {
    level_lines_agree();
    let mut jobs: Vec<Job> = (0..PLANTS).map(|k| job(7 + k, size)).collect();
    let (mut t, mut out) = (room(), [0; 16384]);
    let queries = jobs[0].queries.len();
    for round in 0..rounds * queries {
        for way in 0..3 {
            jobs.iter_mut().for_each(|job| job.read(way, &mut t));
            jobs.iter_mut().for_each(|job| job.respond(way, round % queries, &mut out));
        }
        jobs.iter_mut().for_each(Job::read_queries);
    }
    let clock = clock();
    mean(&jobs.iter().map(|job| job.times(clock)).collect::<Vec<_>>())
}

fn mean(all: &[Reading]) -> Reading {
    let mean = |field: fn(&Reading) -> f64| all.iter().map(field).sum::<f64>() / all.len() as f64;
    Reading {
        plant_bytes: mean(|r| r.plant_bytes as f64) as usize,
        query_bytes: mean(|r| r.query_bytes as f64) as usize,
        plant: Pair { proved: mean(|r| r.plant.proved), plain: mean(|r| r.plant.plain) },
        query: Pair { proved: mean(|r| r.query.proved), plain: mean(|r| r.query.plain) },
        respond: Pair { proved: mean(|r| r.respond.proved), plain: mean(|r| r.respond.plain) },
        unchecked: mean(|r| r.unchecked),
        pass: mean(|r| r.pass),
    }
}
