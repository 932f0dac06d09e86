//! Random cases: sound plants, tables with damage, queries, texts and texts with damage.
use crate::bracket_cases;
use crate::case::{parted, Case};
use crate::level_cases::{self, handing, levels, put_level_lines, true_range};
use crate::paper::{device_of, Index, Levels, Query, Tables};
use crate::random::Random;
use crate::repair_cases;
use crate::search_cases::{self, in_one};
use crate::tighten_cases;

/// A sound forest of n devices. At most `depth` are open together.
pub fn forest(r: &mut Random, n: usize, depth: usize) -> Tables {
    let mut t = Tables::default();
    let mut open: Vec<usize> = vec![];
    // how often a device closes before the next opens: flat plants, deep plants, and all between
    let close = r.of(&[0, 1, 5, 9, 10, 10]);
    let level = r.of(&[3, 200, 256]);
    for index in 0..n {
        while open.len() >= depth || (!open.is_empty() && r.below(20) < close) {
            t.last[open.pop().unwrap()] = index as u16;
        }
        if r.one_in(40) {
            for o in open.drain(..) {
                t.last[o] = index as u16;
            }
        }
        open.push(index);
        t.last.push(n as u16);
        t.root.push(open[0] as u16 + 1);
        t.level.push(if r.one_in(3) { r.of(&[0, 0, 1, 1, 2, 253, 254, 254, 255, 255]) } else { r.below(level) as u8 });
    }
    t
}

/// The lowest and the highest of some terms.
pub type Range = (usize, usize);

/// The terms of an index; of the first of a search; of the second.
pub const ANY: Range = (1, 65_535);
pub const FIRST: Range = (1, 32_767);
pub const SECOND: Range = (32_768, 65_535);

/// Rising terms of a range: from its lowest on or up to its highest, close to one another or all over it.
fn rising(r: &mut Random, (low, high): Range, count: usize) -> Vec<u16> {
    let step = r.of(&[1, 1, 2, (high - low) / count.max(1)]).max(1);
    let mut term = low - 1;
    let mut next = || {
        term += r.between(1, step);
        term
    };
    let terms: Vec<usize> = (0..count).map(|_| next()).collect();
    let up = if r.one_in(4) { high - term } else { 0 };
    terms.iter().map(|term| (term + up) as u16).collect()
}

/// Terms of a range and postings over a forest: rising, none redundant.
pub fn index(r: &mut Random, t: &mut Tables, range: Range, terms: usize, most: usize) {
    for term in rising(r, range, terms) {
        t.terms.push(term);
        t.starts.push(t.postings.len() as u32);
        let gap = r.of(&[1, 2, 3, 10, 100, t.size().max(1)]);
        let sharing = r.of(&[1, 2, 2, 5, 1_000]);
        list(r, t, gap, sharing, most);
        if r.one_in(60) {
            t.postings.truncate(*t.starts.last().unwrap() as usize);
        }
    }
}

/// Postings of one list: devices up to `gap` apart, one posting in `sharing` shared.
fn list(r: &mut Random, t: &mut Tables, gap: usize, sharing: usize, most: usize) {
    let mut device = r.between(1, gap);
    while device <= t.size() && t.postings.len() < most && !r.one_in(200) {
        let shared = r.one_in(sharing);
        t.postings.push(2 * device as u32 + shared as u32);
        let reach = if shared { t.last[device - 1] as usize } else { device };
        device = reach + r.between(1, gap);
    }
}

/// Devices, terms and the most postings of a plant.
pub fn size(r: &mut Random) -> (usize, usize, usize) {
    match r.below(4_000) {
        0 => {
            let (n, terms) = (r.between(1_025, 65_535), r.below(100));
            (r.of(&[65_535, n]), r.of(&[terms, 8_192]), r.of(&[100_000, 1_048_576]))
        }
        1..400 => (r.between(0, 1_024), r.below(17), 4_096),
        400..1_200 => (r.between(0, 120), r.below(12), 600),
        1_200..1_500 => (r.below(3), r.below(3), 8),
        _ => (r.between(0, 24), r.below(7), 60),
    }
}

pub fn plant(r: &mut Random) -> Tables {
    let (n, terms, most) = size(r);
    let depth = r.of(&[1, 3, 32, 70_000]);
    let mut t = forest(r, n, depth);
    index(r, &mut t, ANY, terms, most);
    t
}

fn resize<T: Copy>(r: &mut Random, v: &mut Vec<T>, filler: T) {
    match r.below(5) {
        0 => v.clear(),
        1 => v.truncate(1),
        2 => drop(v.pop()),
        3 => v.push(filler),
        _ => {
            let value = v.last().copied().unwrap_or(filler);
            v.push(value)
        }
    }
}

/// One entry, changed to a number near it, near a limit, or any.
fn alter(r: &mut Random, value: u32, n: usize, most: u32) -> u32 {
    let near = [value.wrapping_add(1), value.wrapping_sub(1), value ^ 1, value.wrapping_add(2), value.wrapping_sub(2)];
    let n = n as u32;
    let limit = [0, 1, 2, n, n + 1, 2 * n + 1, 2 * n + 2, most, most - 1, 32_767, 32_768, 65_535, 65_536];
    let any = r.next() as u32;
    let chosen = match r.below(5) {
        0 | 1 => r.of(&near),
        2 | 3 => r.of(&limit),
        _ => any % (2 * n + 4),
    };
    if most == u32::MAX {
        chosen
    } else {
        chosen % (most + 1)
    }
}

/// Damage to one place of the tables.
pub fn damage(r: &mut Random, t: &mut Tables) {
    let kind = r.below(24);
    damage_of(r, t, kind);
}

/// Damage to one place of the index.
pub fn damage_index(r: &mut Random, t: &mut Tables) {
    let kind = r.between(9, 23);
    damage_of(r, t, kind);
}

/// Damage of one kind: up to 8 to the device tables, from 9 on to the index.
fn damage_of(r: &mut Random, t: &mut Tables, kind: usize) {
    let n = t.size();
    macro_rules! entry {
        ($v:expr, $most:expr, $kind:ty) => {{
            let i = r.below($v.len());
            if let Some(&old) = $v.get(i) {
                $v[i] = alter(r, old as u32, n, $most) as $kind;
            }
        }};
    }
    macro_rules! swap {
        ($v:expr) => {{
            let length = $v.len();
            if length > 1 {
                let i = r.below(length - 1);
                $v.swap(i, i + 1);
            }
        }};
    }
    match kind {
        0 => resize(r, &mut t.last, n as u16),
        1 => resize(r, &mut t.root, 1),
        2 => resize(r, &mut t.level, 9),
        3..=5 => entry!(t.last, 65_535, u16),
        6 | 7 => entry!(t.root, 65_535, u16),
        8 => swap!(t.last),
        9 => resize(r, &mut t.terms, 65_535),
        10 => resize(r, &mut t.starts, 0),
        11 | 12 => resize(r, &mut t.postings, 2),
        13 | 14 => entry!(t.terms, 65_535, u16),
        15 => swap!(t.terms),
        16 | 17 => entry!(t.starts, u32::MAX, u32),
        18..=20 => entry!(t.postings, u32::MAX, u32),
        21 => swap!(t.postings),
        _ => redundant(r, t),
    }
}

/// Puts a posting into a list, inside a shared posting's branch where one is found.
fn redundant(r: &mut Random, t: &mut Tables) {
    if t.postings.is_empty() {
        return;
    }
    let i = r.below(t.postings.len());
    let device = device_of(t.postings[i]);
    let Some(&last) = t.last.get(device.wrapping_sub(1)) else { return };
    let inside = r.between(device, (last as usize).max(device));
    t.postings[i] |= 1;
    t.postings.insert(i + 1, 2 * inside as u32 + r.below(2) as u32);
    for s in t.starts.iter_mut().filter(|s| **s as usize > i) {
        *s = s.saturating_add(1);
    }
}

/// A table past a limit: rare, since they are large.
pub fn past_limit(r: &mut Random) -> Tables {
    let mut t = Tables::default();
    match r.below(4) {
        0 => {
            t.last = vec![65_535; 65_536];
            t.root = vec![1; 65_536];
            t.level = vec![0; 65_536];
        }
        1 => {
            let count = r.of(&[8_192, 8_193]);
            t.terms = (1..=count).collect();
            t.starts = vec![0; count as usize];
        }
        2 => {
            let count = r.of(&[1_048_576, 1_048_577]);
            (t.last, t.root, t.level) = (vec![1], vec![1], vec![0]);
            (t.terms, t.starts, t.postings) = (vec![1], vec![0], vec![2; count]);
        }
        _ => {
            t = forest(r, 65_535, 70_000);
            t.terms = (1..=16).collect();
            t.starts = (0..16).map(|k| k * 65_535).collect();
            t.postings = (0..16 * 65_535).map(|i| 2 * (i % 65_535 + 1)).collect();
        }
    }
    t
}

fn tables(r: &mut Random) -> Tables {
    if r.one_in(6_000) {
        return past_limit(r);
    }
    let mut t = plant(r);
    if r.one_in(2) && t.size() < 2_000 {
        for _ in 0..r.of(&[1, 1, 1, 2, 3]) {
            damage(r, &mut t);
        }
    }
    t
}

/// Terms for a query: mostly of these indexes, now and then one at a limit, or one that differs from theirs by the limit alone.
fn terms(r: &mut Random, indexes: &[Index], most: usize) -> Vec<u32> {
    let known: Vec<u16> = indexes.iter().flat_map(|index| &index.terms).copied().collect();
    let count = if r.one_in(25) { r.of(&[7, 8, 8, 9, 10, 40]) } else { r.below(most) };
    let wrong = r.one_in(20);
    let one = |r: &mut Random| {
        let term = known.get(r.below(known.len())).map_or(1, |&term| term as u32);
        match r.below(20) {
            0 if wrong => r.of(&[0, 65_536, 65_536 + 32_768, u32::MAX]),
            1 => r.of(&[1, 30_000, 32_767, 32_768, 65_535]),
            2 => term ^ 32_768,
            _ => term,
        }
    };
    (0..count).map(|_| one(r)).collect()
}

/// A query over so many devices and these indexes.
pub fn query(r: &mut Random, devices: usize, indexes: &[Index]) -> Query {
    let n = devices as u32;
    let mut required = terms(r, indexes, 4);
    let forbidden = if r.one_in(2) { vec![] } else { terms(r, indexes, 3) };
    if r.one_in(15) && required.len() < 8 {
        required.extend(forbidden.first());
    }
    let levels = levels(r);
    let start = match r.below(12) {
        0 => r.of(&[0, n + 2, u32::MAX, n + 1]),
        1..=3 => r.below(n as usize + 1) as u32 + 1,
        _ => 1,
    };
    let count = |&term: &u32| indexes.iter().map(|index| count_of(index, term)).sum::<usize>();
    let named: usize = required.iter().chain(&forbidden).map(count).sum();
    let budget = match r.below(6) {
        0 => r.below(3) as u32,
        1 | 2 => r.below(named + 2) as u32,
        3 => named as u32,
        _ => u32::MAX,
    };
    Query { required, forbidden, levels, start, budget }
}

/// A sound plant with each of these terms in its index, and a query whose moves often pass postings over: lists of few postings
/// are asked before lists of many. Half have no more budget than they need, most of these less.
fn selective(r: &mut Random, terms: [u16; 4]) -> (Tables, Index, Query) {
    let most = r.of(&[12, 24, 120, 120, 600]);
    let (n, depth) = (r.between(4, most), r.of(&[1, 2, 3, 32]));
    let mut t = forest(r, n, depth);
    let wide = n / 3 + 1;
    let gaps = r.of(&[[wide, 1, 2, 1], [wide, 3, 1, 2], [wide, wide, 2, 1], [3, 2, 2, 1]]);
    // the list of few postings is the lowest term's, or the highest's
    let order = r.of(&[[0, 1, 2, 3], [3, 2, 1, 0]]);
    for (k, term) in terms.into_iter().enumerate() {
        t.terms.push(term);
        t.starts.push(t.postings.len() as u32);
        let sharing = r.of(&[2, 5, 1_000]);
        list(r, &mut t, gaps[order[k]], sharing, 4_096);
    }
    let asked = order.map(|k| terms[k] as u32);
    let mut required = vec![asked[0], r.of(&asked[1..])];
    required.extend((0..r.below(3)).map(|_| r.of(&asked)));
    let forbidden = required.split_off(r.between(1, required.len()));
    let start = if r.one_in(4) { r.between(1, n + 1) as u32 } else { 1 };
    let range = true_range(r);
    let levels = r.of(&[Levels::Any, Levels::TrueOnly, range]);
    let mut q = Query { required, forbidden, levels, start, ..Query::empty() };
    let (t, second) = parted(&t);
    if r.one_in(2) {
        q.budget = r.below(t.moves(&second, &q).len() + 1) as u32;
    }
    (t, second, q)
}

/// Terms that are all below the limit, and terms on either side of it.
const BELOW: [[u16; 4]; 2] = [[1, 2, 3, 4], [32_764, 32_765, 32_766, 32_767]];
const AROUND: [[u16; 4]; 4] =
    [[1, 2, 3, 4], [32_766, 32_767, 32_768, 32_769], [1, 32_768, 32_769, 65_535], [32_768, 40_000, 65_534, 65_535]];

/// The length of a term's list, for an index that may be damaged.
fn count_of(t: &Index, term: u32) -> usize {
    let Some(k) = t.terms.iter().position(|&x| x as u32 == term) else { return 0 };
    let start = t.starts.get(k).copied().unwrap_or(0);
    let end = t.starts.get(k + 1).copied().unwrap_or(t.postings.len() as u32);
    (end.saturating_sub(start) as usize).min(t.postings.len())
}

/// About as much room in an answer list as n devices need.
pub fn room_for(r: &mut Random, n: usize) -> usize {
    match r.below(15) {
        0 => n.saturating_sub(1),
        1 => r.below(n + 1),
        2 | 3 => n + r.below(5),
        _ => n,
    }
}

pub fn query_text(q: &Query) -> Vec<u8> {
    let mut out = String::from("(ask\n");
    for term in &q.required {
        out += &format!("(need {term})\n");
    }
    for term in &q.forbidden {
        out += &format!("(not {term})\n");
    }
    match q.levels {
        Levels::Any => out += "(level any)\n",
        Levels::TrueOnly => (),
        Levels::Range(low, high) => out += &format!("(level {low} {high})\n"),
    }
    if q.start != 1 {
        out += &format!("(from {})\n", q.start);
    }
    if q.budget != u32::MAX {
        out += &format!("(moves {})\n", q.budget);
    }
    (out + ")\n").into_bytes()
}

const LINES: [&[u8]; 33] = [
    b")",
    b"",
    b"(plant",
    b"(ask",
    b"(dev 0",
    b"(dev 255",
    b"(dev 256",
    b"(dev 0)",
    b"(dev",
    b"(dev  1",
    b"(dev 01",
    b"(dev 99999999999999999999999",
    b"(mark 65535",
    b"(mark 65536",
    b"(mark 0",
    b"(mark 1)",
    b"(all 1)",
    b"(own 2)",
    b"(all 0)",
    b"(own 99999999999999999999)",
    b"(own 1",
    b"(need 7)",
    b"(need 4294967296)",
    b"(not 9)",
    b"(not 0)",
    b"(level 1 2)",
    b"(level any)",
    b"(level 1)",
    b"(level 1  2)",
    b"(from 1)",
    b"(moves 4294967295)",
    b"(moves 42949672950)",
    b"(moves 00)",
];

const BYTES: &[u8] = b"() \n\r\t0123456789adnplmyA\0\xff";

/// The lines of a text, each with its LF.
pub fn lines(text: &[u8]) -> Vec<Vec<u8>> {
    text.split_inclusive(|&b| b == b'\n').map(<[u8]>::to_vec).collect()
}

/// Damage to a text: a byte or a line changed, put in, left out, or the text cut.
fn spoil(r: &mut Random, text: &mut Vec<u8>) {
    let at = r.below(text.len() + 1);
    match r.below(9) {
        0 => text.truncate(at),
        1 => text.insert(at, r.of(BYTES)),
        2 if at < text.len() => text[at] = r.of(BYTES),
        3 if at < text.len() => drop(text.remove(at)),
        4 => text.extend(r.of(&[&b")\n"[..], b"\n", b" ", b"(dev 1\n", b"x"])),
        kind => {
            let mut all = lines(text);
            let i = r.below(all.len());
            let line = [r.of(&LINES), &b"\n"[..]].concat();
            match kind {
                5 => all.insert(i, line),
                6 if i < all.len() => all[i] = line,
                7 if i < all.len() => drop(all.remove(i)),
                _ if i + 1 < all.len() => all.swap(i, i + 1),
                _ => (),
            }
            *text = all.concat();
        }
    }
}

/// A forest that fits a text, now and then one tier too deep, with terms of a range.
fn small_plant(r: &mut Random, range: Range) -> Tables {
    let (n, terms, most) = match r.below(300) {
        0 => (r.between(900, 1_100), r.below(20), 5_000),
        1 => (r.between(1, 40), r.between(250, 260), 600),
        2 => (r.between(700, 1_024), r.between(4, 20), 5_000),
        3..20 => (r.below(200), r.below(9), 300),
        20..40 => (r.between(33, 60), 1, 20),
        _ => (r.below(14), r.below(5), 30),
    };
    let depth = r.of(&[2, 31, 32, 32, 33]);
    let mut t = forest(r, n, depth);
    index(r, &mut t, range, terms, most);
    if r.one_in(30) {
        redundant(r, &mut t);
    }
    t
}

fn some_plant_text(r: &mut Random, t: &Tables) -> Vec<u8> {
    let mut text = t.text();
    if r.one_in(2) {
        spoil(r, &mut text);
    }
    if r.one_in(8) {
        spoil(r, &mut text);
    }
    if r.one_in(700) {
        // at the limit and past it: more devices inside, or bytes after
        let filler = r.of(&[&b"(dev 1\n)\n"[..], b" ", b")\n"]);
        let length = r.of(&[65_535, 65_536, 65_537, 70_000]);
        let mut long = b"(plant\n".to_vec();
        while long.len() < length {
            long.extend(filler);
        }
        long.truncate(length);
        return long;
    }
    text
}

fn some_query_text(r: &mut Random, t: &Tables) -> Vec<u8> {
    let mut text = query_text(&query(r, t.size(), &[t.index()]));
    if r.one_in(4) {
        put_level_lines(r, &mut text);
    } else if r.one_in(2) {
        spoil(r, &mut text);
    }
    if r.one_in(8) {
        spoil(r, &mut text);
    }
    if r.one_in(200) {
        let length = r.of(&[4_095, 4_096, 4_097, 5_000]);
        text.resize(length, r.of(b" \n)"));
    }
    text
}

/// The length of each table that a plant text is read into.
fn rooms(r: &mut Random, t: &Tables) -> [usize; 6] {
    if r.one_in(4) {
        t.lengths().map(|n| if r.one_in(5) { r.below(n + 1) } else { n })
    } else {
        t.lengths().map(|n| n + r.below(4))
    }
}

/// Adds devices at the end, each a tree of its own, until the text has this length, which is at least 72 more than it has.
fn lengthen(t: &mut Tables, length: usize) {
    let left = length - t.text().len();
    for k in 0..left / 9 {
        let d = t.size() as u16 + 1;
        t.last.push(d);
        t.root.push(d);
        t.level.push(if k < left % 9 { 10 } else { 9 });
    }
}

/// A plant with a text about as long as a text may be.
fn long_plant(r: &mut Random) -> Tables {
    let (n, depth, terms) = (r.below(1_025), r.of(&[3, 32, 33]), r.below(200));
    let mut t = forest(r, n, depth);
    index(r, &mut t, ANY, terms, 4_096);
    let near = r.between(65_000, 66_000);
    lengthen(&mut t, r.of(&[65_535, 65_536, 65_536, 65_537, near]));
    t
}

/// Tables to write.
fn some_tables(r: &mut Random) -> Tables {
    match r.below(400) {
        0 => long_plant(r),
        1..200 => small_plant(r, ANY),
        _ => tables(r),
    }
}

/// A buffer of about the length of the text, with anything in it.
fn buffer(r: &mut Random, t: &Tables) -> Vec<u8> {
    let length = if t.check() == 0 { t.text().len().min(1_000_000) } else { r.below(200) };
    let room = match r.below(40) {
        0..6 => length.saturating_sub(1),
        6..9 => 0,
        9..12 => r.below(length + 1),
        12..16 => length + 1,
        16..22 => length + r.below(300),
        22 => 65_536,
        _ => length,
    };
    (0..room).map(|_| r.next() as u8).collect()
}

/// The terms of a plant text that is responded to: nearly always those of the first index, else some above them.
const RESPONDED: [Range; 12] = [FIRST, FIRST, FIRST, FIRST, FIRST, FIRST, FIRST, FIRST, FIRST, FIRST, (1, 32_768), ANY];

pub fn case(r: &mut Random) -> Case {
    match r.below(35) {
        0..4 => Case::Check(tables(r)),
        4..10 => search_cases::case(r),
        10..14 => {
            let t = small_plant(r, ANY);
            let room = rooms(r, &t);
            Case::Plant(some_plant_text(r, &t), room)
        }
        14..17 => {
            let t = small_plant(r, ANY);
            Case::Query(some_query_text(r, &t))
        }
        17..21 => {
            let t = some_tables(r);
            let buffer = buffer(r, &t);
            Case::Write(t, buffer)
        }
        21..24 => {
            let range = r.of(&RESPONDED);
            let t = small_plant(r, range);
            let plant = if r.one_in(2) { t.text() } else { some_plant_text(r, &t) };
            Case::Respond(plant, some_query_text(r, &t))
        }
        24 => {
            let terms = r.of(&BELOW);
            let (t, _, q) = selective(r, terms);
            Case::Respond(t.text(), query_text(&q))
        }
        25..28 => {
            let terms = r.of(&AROUND);
            let (t, second, q) = selective(r, terms);
            let answer = vec![r.next() as u16; t.size()];
            Case::Search(t, second, q, handing(r), answer)
        }
        28..31 => repair_cases::case(r),
        _ => tighten_cases::case(r),
    }
}

/// Plant P of document 01.
pub const P: &[u8] = b"(plant\n(dev 120\n(dev 118\n(dev 255\n)\n)\n(dev 121\n(dev 90\n)\n(dev 119\n)\n)\n)\n\
(mark 7\n(all 2)\n(own 5)\n)\n(mark 9\n(all 4)\n)\n)\n";

/// Plant Q, of the branches 1..6, 2..5 and 7..9: moves pass postings over, to a root, past a branch and to the end.
pub const Q: &[u8] = b"(plant\n(dev 100\n(dev 101\n(dev 102\n)\n(dev 103\n)\n(dev 104\n)\n)\n(dev 105\n)\n)\n\
(dev 106\n(dev 107\n)\n(dev 108\n)\n)\n\
(mark 1\n(own 9)\n)\n(mark 2\n(own 6)\n(all 7)\n)\n(mark 3\n(own 2)\n(own 3)\n(own 4)\n)\n\
(mark 4\n(own 2)\n(own 3)\n(own 4)\n(own 6)\n(own 8)\n)\n)\n";

/// Cases without chance: each way to damage P in one place, P's text and two asks cut and changed at every byte, every small
/// query over P, searches in two indexes, every level code and level line, tables of lengths 0 and 1, plant texts of few lines,
/// what is written at each limit, the longest lists, repairs and tightenings.
pub fn systematic() -> Vec<Case> {
    let p = crate::paper::read_plant(P, [9; 6]).unwrap();
    let mut cases = vec![];
    damaged_texts(&mut cases);
    damaged_tables(&p, &mut cases);
    for room in 0..8 {
        for table in 0..6 {
            let mut rooms = [9; 6];
            rooms[table] = room;
            cases.push(Case::Plant(P.to_vec(), rooms));
        }
        cases.push(in_one(p.clone(), Query::empty(), vec![5; room]));
    }
    small_queries(&p, &Index::default(), &[7, 8, 9], &mut cases);
    search_cases::systematic(&mut cases);
    level_cases::systematic(&mut cases);
    short_tables(&mut cases);
    short_texts(&mut cases);
    bracket_cases::systematic(&mut cases);
    deep_plants(&mut cases);
    long_texts(&p, &mut cases);
    large_tables(&mut cases);
    long_lists(&mut cases);
    repair_cases::systematic(&mut cases);
    tighten_cases::systematic(&mut cases);
    cases
}

/// Two asks: for a range, and for any level.
const ASKS: [&[u8]; 2] = [
    b"(ask\n(need 7)\n(need 8)\n(not 9)\n(level 100 140)\n(from 1)\n(moves 50)\n)\n",
    b"(ask\n(need 7)\n(not 9)\n(level any)\n(from 1)\n(moves 50)\n)\n",
];

/// P and the asks, cut at every byte, and with each byte changed.
fn damaged_texts(cases: &mut Vec<Case>) {
    for cut in 0..=P.len() {
        cases.push(Case::Plant(P[..cut].to_vec(), [9; 6]));
        cases.extend(ASKS.map(|ask| Case::Respond(P[..cut].to_vec(), ask.to_vec())));
    }
    cases.extend(changed(P).map(|text| Case::Plant(text, [9; 6])));
    for ask in ASKS {
        cases.extend((0..=ask.len()).map(|cut| Case::Query(ask[..cut].to_vec())));
        cases.extend(changed(ask).map(Case::Query));
    }
}

/// A text with each byte changed.
fn changed(text: &[u8]) -> impl Iterator<Item = Vec<u8>> + '_ {
    let with = |at: usize, byte: u8| [&text[..at], &[byte], &text[at + 1..]].concat();
    BYTES.iter().flat_map(move |&byte| (0..text.len()).map(move |at| with(at, byte)))
}

/// P's tables with each entry set to small and to large numbers.
fn damaged_tables(p: &Tables, cases: &mut Vec<Case>) {
    for value in (0..16).chain([32_767, 32_768, 65_534, 65_535, 65_536, u32::MAX - 1, u32::MAX]) {
        macro_rules! each {
            ($field:ident, $kind:ty) => {
                for i in 0..p.$field.len() {
                    let mut t = p.clone();
                    t.$field[i] = value as $kind;
                    cases.push(Case::Check(t.clone()));
                    cases.push(Case::Write(t.clone(), vec![5; P.len() + 2]));
                    cases.push(Case::Repair(t.clone(), vec![5; 9]));
                    cases.push(Case::Tighten(t.clone()));
                    cases.push(in_one(t, Query::empty(), vec![5; 6]));
                }
            };
        }
        each!(last, u16);
        each!(root, u16);
        each!(level, u8);
        each!(terms, u16);
        each!(starts, u32);
        each!(postings, u32);
    }
}

/// Every query of up to two required and up to two forbidden of these terms, with every start, small budgets, and levels of each
/// kind in turn.
pub fn small_queries(t: &Tables, second: &Index, terms: &[u32], cases: &mut Vec<Case>) {
    let mut sides: Vec<Vec<u32>> = vec![vec![]];
    for &a in terms {
        sides.push(vec![a]);
        sides.extend(terms.iter().map(|&b| vec![a, b]));
    }
    for required in &sides {
        for forbidden in &sides {
            for start in 0..=t.size() as u32 + 2 {
                for budget in (0..6).chain([u32::MAX]) {
                    let levels = [Levels::Any, Levels::TrueOnly, Levels::Range(100, 140)][cases.len() % 3];
                    let q = Query { required: required.clone(), forbidden: forbidden.clone(), levels, start, budget };
                    cases.push(Case::search(t.clone(), second.clone(), q, vec![5; t.size()]));
                }
            }
        }
    }
}

/// Every choice of lengths 0 and 1 for the six tables, with small entries.
fn short_tables(cases: &mut Vec<Case>) {
    for lengths in 0..64_usize {
        for value in 0..4 {
            let length = |table: usize| lengths >> table & 1;
            let t = Tables {
                last: vec![1; length(0)],
                root: vec![1; length(1)],
                level: vec![3; length(2)],
                terms: vec![value as u16; length(3)],
                starts: vec![value / 2; length(4)],
                postings: vec![value; length(5)],
            };
            cases.push(Case::Check(t.clone()));
            cases.push(Case::Write(t.clone(), vec![5; 40]));
            cases.push(Case::Repair(t.clone(), vec![5; 2]));
            cases.push(Case::Tighten(t.clone()));
            for start in 0..3 {
                let q = Query { required: vec![value], start, ..Query::empty() };
                cases.push(in_one(t.clone(), q, vec![5; length(0)]));
            }
        }
    }
}

/// Texts at the edges: no devices, terms with empty lists, several trees, numbers of each length.
const EDGES: [&[u8]; 6] = [
    P,
    b"(plant\n)\n",
    b"(plant\n(mark 1\n)\n(mark 65535\n)\n)\n",
    b"(plant\n(dev 0\n)\n(dev 9\n)\n(dev 10\n)\n(dev 99\n)\n(dev 100\n)\n)\n",
    b"(plant\n(dev 1\n(dev 2\n)\n)\n(dev 3\n)\n(dev 4\n(dev 5\n(dev 6\n)\n)\n(dev 7\n)\n)\n\
(mark 9\n)\n(mark 10\n(own 1)\n(all 4)\n)\n)\n",
    b"(plant\n(dev 255\n)\n(mark 9\n)\n(mark 99\n(own 1)\n)\n(mark 100\n)\n(mark 999\n)\n\
(mark 1000\n(all 1)\n)\n(mark 10000\n)\n)\n",
];

/// Each edge, read, and written into buffers of every length.
fn short_texts(cases: &mut Vec<Case>) {
    for text in EDGES {
        let t = crate::paper::read_plant(text, [9; 6]).unwrap();
        cases.push(Case::Plant(text.to_vec(), [9; 6]));
        cases.extend((0..text.len() + 3).map(|room| Case::Write(t.clone(), vec![5; room])));
    }
}

/// Sound tables written into buffers around the length of their text, and of these lengths.
fn around(t: &Tables, rooms: &[usize], cases: &mut Vec<Case>) {
    let length = t.text().len();
    let near = [0, length - 1, length, length + 1];
    cases.extend(near.iter().chain(rooms).map(|&room| Case::Write(t.clone(), vec![5; room])));
}

/// A plant whose devices open on these tiers.
pub fn of_tiers(tiers: impl IntoIterator<Item = usize>) -> Tables {
    let mut t = Tables::default();
    let mut open: Vec<usize> = vec![];
    for (index, tier) in tiers.into_iter().enumerate() {
        for o in open.drain(tier - 1..) {
            t.last[o] = index as u16;
        }
        open.push(index);
        t.last.push(0);
        t.root.push(open[0] as u16 + 1);
        t.level.push(index as u8);
    }
    for o in open {
        t.last[o] = t.last.len() as u16;
    }
    t
}

/// Of a plant of one chain with a posting on device 1: what makes each of refusals 1 to 9 apply.
const FAULTS: [fn(&mut Tables); 9] = [
    |t| t.level.push(0),
    |t| t.last[0] = 0,
    |t| t.last[1] -= 1,
    |t| t.root[2] = 2,
    |t| t.starts.push(0),
    |t| t.terms[0] = 0,
    |t| t.starts[0] = 1,
    |t| t.postings[0] = 0,
    |t| t.postings = vec![3, 4],
];

/// Plants of 32 tiers and of more. Each of 1 to 9 comes before 36, and 36 before 40.
fn deep_plants(cases: &mut Vec<Case>) {
    for top in [31, 32, 33, 34, 9_000] {
        around(&of_tiers(1..=top), &[70_000], cases);
    }
    for (top, after) in [(32, [32, 31]), (32, [32, 33]), (32, [1, 2]), (33, [1, 2])] {
        around(&of_tiers([1].into_iter().chain(1..=top).chain(after)), &[], cases);
    }
    for top in [33, 9_000] {
        let mut t = of_tiers(1..=top);
        (t.terms, t.starts, t.postings) = (vec![1], vec![0], vec![2]);
        for (k, fault) in FAULTS.iter().enumerate() {
            let mut faulty = t.clone();
            fault(&mut faulty);
            assert_eq!(faulty.check(), k as u32 + 1);
            cases.extend([0, 70_000].map(|room| Case::Write(faulty.clone(), vec![5; room])));
        }
    }
}

/// Texts of 65,536 bytes, and one less or more, read and written.
fn long_texts(p: &Tables, cases: &mut Vec<Case>) {
    for length in [65_535, 65_536, 65_537, 65_538] {
        for mut t in [Tables::default(), p.clone(), of_tiers(1..=32), of_tiers(1..=33)] {
            lengthen(&mut t, length);
            assert_eq!(t.text().len(), length);
            around(&t, &[65_536, 70_000], cases);
            cases.push(Case::Plant(t.text(), t.lengths()));
        }
    }
}

/// Sound tables of as many devices, terms and postings as there may be: their texts are too long for any buffer.
fn large_tables(cases: &mut Vec<Case>) {
    let flat = of_tiers([1; 65_535]);
    let terms = Tables { terms: (1..=8_192).collect(), starts: vec![0; 8_192], ..Tables::default() };
    let mut postings = Tables { terms: (1..=17).collect(), ..flat.clone() };
    postings.starts = (0..17).map(|k| k * 65_535).collect();
    postings.postings = (0..1_048_576).map(|i| 2 * (i % 65_535 + 1)).collect();
    for t in [flat, terms, postings, of_tiers(1..=65_535)] {
        cases.extend([0, 65_536, 1_000_000].map(|room| Case::Write(t.clone(), vec![5; room])));
    }
}

/// Sixteen lists of every device, or of all but the last, asked at the last one, all in one index or half of them in the second:
/// each move passes all but the ends of its list.
fn long_lists(cases: &mut Vec<Case>) {
    let mut t = of_tiers([1; 65_535]);
    for k in 0..16 {
        t.starts.push(t.postings.len() as u32);
        t.postings.extend((1..=65_535 - k / 8).map(|d| 2 * d));
    }
    for (lowest, budget) in [1, 32_760].into_iter().flat_map(|lowest| [0, 1, 15, 16].map(|budget| (lowest, budget))) {
        let (t, second) = parted(&Tables { terms: (lowest..lowest + 16).collect(), ..t.clone() });
        let terms: Vec<u32> = (lowest as u32..).take(16).collect();
        let (required, forbidden) = (terms[..8].to_vec(), terms[8..].to_vec());
        let q = Query { required, forbidden, start: 65_535, budget, ..Query::empty() };
        cases.push(Case::search(t, second, q, vec![5; 65_535]));
    }
}
