//! Plants of exact sizes, and queries over them.
use crate::paper::{self, device_of, Levels, Query, Tables};
use crate::plain::SECOND;
use crate::random::Random;

/// Devices, terms, postings.
#[derive(Clone, Copy)]
pub struct Size(pub usize, pub usize, pub usize);

/// A forest of trees of up to eight tiers, their sizes spread widely.
fn forest(r: &mut Random, n: usize) -> Tables {
    let mut t = Tables::default();
    let mut open: Vec<usize> = vec![];
    for index in 0..n {
        while open.len() >= 8 || (!open.is_empty() && r.one_in(2)) {
            t.last[open.pop().unwrap()] = index as u16;
        }
        open.push(index);
        t.last.push(n as u16);
        t.root.push(open[0] as u16 + 1);
        t.level.push(code(r));
    }
    t
}

/// A level code. One device in twenty has no register, which is 255; about as many have a modem that has not ranged, which is 0.
fn code(r: &mut Random) -> u8 {
    if r.one_in(20) {
        return 255;
    }
    match r.between(54, 180) {
        level @ 60.. => level as u8,
        _ => 0,
    }
}

/// Makes a list of about `length` postings, and not more.
type MakeList = fn(&mut Random, &Tables, usize) -> Vec<u32>;

/// Postings spread over the plant; three in ten are shared.
fn list(r: &mut Random, t: &Tables, length: usize) -> Vec<u32> {
    let gap = (t.size() / length.max(1)).max(1);
    let mut list = vec![];
    let mut d = r.between(1, 2 * gap);
    while d <= t.size() && list.len() < length {
        d = single(r, t, &mut list, d) + r.between(1, 2 * gap - 1);
    }
    list
}

/// The same, and one time in nine a branch noted device by device, which makes nearly as many postings as the other eight.
fn noted_list(r: &mut Random, t: &Tables, length: usize) -> Vec<u32> {
    let gap = (2 * t.size() / length.max(1)).max(1);
    let mut list = vec![];
    let mut d = r.between(1, 2 * gap);
    while d <= t.size() && list.len() < length {
        let top = if r.one_in(9) { next_top(t, d, length - list.len()) } else { None };
        let end = match top {
            Some(top) => by_device(r, t, &mut list, top),
            None => single(r, t, &mut list, d),
        };
        d = end + r.between(1, 2 * gap - 1);
    }
    list
}

/// The first device from d on whose branch has 3 to 40 devices, and not more than there is room for.
fn next_top(t: &Tables, d: usize, room: usize) -> Option<usize> {
    let sizes = 3..=room.min(40);
    if sizes.is_empty() {
        return None;
    }
    (d..=t.size()).find(|&top| sizes.contains(&(t.last[top - 1] as usize - top + 1)))
}

/// Puts a posting at d after the others; the last device that it carries to.
fn single(r: &mut Random, t: &Tables, list: &mut Vec<u32>, d: usize) -> usize {
    let shared = r.below(10) < 3;
    list.push(2 * d as u32 + shared as u32);
    if shared {
        t.last[d - 1] as usize
    } else {
        d
    }
}

/// Puts a private posting at each device of a branch after the others, one time in four but for one device; the branch's last.
fn by_device(r: &mut Random, t: &Tables, list: &mut Vec<u32>, top: usize) -> usize {
    let end = t.last[top - 1] as usize;
    let without = if r.one_in(4) { r.between(top, end) } else { 0 };
    list.extend((top..=end).filter(|&d| d != without).map(|d| 2 * d as u32));
    end
}

/// Puts one private posting into the list, where the device is free.
fn put(r: &mut Random, t: &Tables, list: &mut Vec<u32>) -> usize {
    let d = r.between(1, t.size());
    let at = list.partition_point(|&q| device_of(q) < d);
    let taken = list.get(at).is_some_and(|&q| device_of(q) == d);
    let carried = at > 0 && list[at - 1] % 2 == 1 && d <= t.last[device_of(list[at - 1]) - 1] as usize;
    if taken || carried {
        return 0;
    }
    list.insert(at, 2 * d as u32);
    1
}

/// A sound plant of exactly this size. A few lists are long and most are short, as terms are in any collection.
pub fn plant(r: &mut Random, size: Size) -> Tables {
    plant_with(r, size, list)
}

/// The same, where a third of the postings at the mission's size and half of them at the limits note branches device by device.
pub fn noted(r: &mut Random, size: Size) -> Tables {
    plant_with(r, size, noted_list)
}

fn plant_with(r: &mut Random, Size(n, terms, postings): Size, list: MakeList) -> Tables {
    let mut t = forest(r, n);
    let weight = |k: usize| 1.0 / ((k + 1) as f64).powf(0.7);
    let total: f64 = (0..terms).map(weight).sum();
    let mut lists: Vec<Vec<u32>> = vec![];
    for k in 0..terms {
        let length = (weight(k) / total * postings as f64) as usize;
        lists.push(list(r, &t, length.min(n / 2)));
    }
    let mut left = postings - lists.iter().map(Vec::len).sum::<usize>();
    while left > 0 {
        let k = r.below(terms);
        left -= put(r, &t, &mut lists[k]);
    }
    for k in (1..terms).rev() {
        lists.swap(k, r.below(k + 1));
    }
    let mut term = 0;
    for (k, list) in lists.into_iter().enumerate() {
        // numbers are left for the terms that follow, below those of a second index
        term = (term + r.between(1, 65_535 / terms)).min(SECOND as usize + k - terms);
        t.terms.push(term as u16);
        t.starts.push(t.postings.len() as u32);
        t.postings.extend(list);
    }
    t
}

/// Document 01's plant P, where the cost of a call that no table adds to shows most.
pub fn small() -> Tables {
    paper::read_plant(include_bytes!("../../sample/plant.txt"), paper::ROOM).unwrap()
}

/// A kind of query: its name, required terms, forbidden terms, the levels that it wants.
pub type Kind = (&'static str, usize, usize, Levels);

pub const RANGE: Levels = Levels::Range(100, 140);

/// Where a name says nothing of levels, nor does the query: it wants true levels only.
pub const KINDS: [Kind; 6] = [
    ("1 required", 1, 0, Levels::TrueOnly),
    ("2 required", 2, 0, Levels::TrueOnly),
    ("2 required, 1 forbidden", 2, 1, Levels::TrueOnly),
    ("1 required, a level range", 1, 0, RANGE),
    ("3 required, 2 forbidden, a level range", 3, 2, RANGE),
    ("1 required, any level", 1, 0, Levels::Any),
];

/// Queries of a kind. Common terms: each is as likely as its list is long; else all are equally likely.
pub fn queries(r: &mut Random, t: &Tables, kind: Kind, common: bool, count: usize) -> Vec<Query> {
    let (_, required, forbidden, levels) = kind;
    let term = |r: &mut Random| {
        let at = r.below(t.postings.len()) as u32;
        let k = if common { t.starts.partition_point(|&s| s <= at) - 1 } else { r.below(t.terms.len()) };
        t.terms[k] as u32
    };
    let query = |r: &mut Random| Query {
        required: (0..required).map(|_| term(r)).collect(),
        forbidden: (0..forbidden).map(|_| term(r)).collect(),
        levels,
        start: 1,
        budget: u32::MAX,
    };
    (0..count).map(|_| query(r)).collect()
}
