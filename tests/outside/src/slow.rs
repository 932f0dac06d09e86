//! The slow unshared evaluator: what matches, by writing every list out, and what is promised of a run, with no cursor in it; what
//! is promised of a repair and of a tightening. Two indexes are one with the terms of both.
use crate::paper::{device_of, Answer, Index, Levels, Query, Tables};
use std::ops::RangeInclusive;

/// One index with the terms of the first and, after them, those of the second.
pub fn joined(t: &Tables, second: &Index) -> Tables {
    let moved = second.starts.iter().map(|start| start + t.postings.len() as u32);
    t.with(&Index {
        terms: [t.terms.as_slice(), &second.terms].concat(),
        starts: t.starts.iter().copied().chain(moved).collect(),
        postings: [t.postings.as_slice(), &second.postings].concat(),
    })
}

/// The last device that a posting carries its term to.
fn end_of(tables: &Tables, posting: u32) -> usize {
    let device = device_of(posting);
    if posting % 2 == 1 {
        tables.last[device - 1] as usize
    } else {
        device
    }
}

/// Every device that carries the term, marked.
fn carriers(tables: &Tables, term: u32) -> Vec<bool> {
    carriers_of(tables, tables.list_of(term))
}

/// Every device that a list carries its term to, marked.
fn carriers_of(tables: &Tables, list: &[u32]) -> Vec<bool> {
    let mut carries = vec![false; tables.size() + 1];
    for &posting in list {
        carries[device_of(posting)..=end_of(tables, posting)].fill(true);
    }
    carries
}

/// The devices that carry each term, marked.
fn carried(t: &Tables) -> Vec<Vec<bool>> {
    lists(t).map(|l| carriers_of(t, l)).collect()
}

/// The level codes that are listed, where 12 does not refuse them: they follow one another.
pub fn codes(levels: Levels) -> RangeInclusive<u32> {
    match levels {
        Levels::Any => 0..=255,
        Levels::TrueOnly => 1..=254,
        Levels::Range(low, high) => low.max(1)..=high.min(254),
    }
}

pub fn matches(tables: &Tables, query: &Query) -> Vec<bool> {
    let required: Vec<_> = query.required.iter().map(|&t| carriers(tables, t)).collect();
    let forbidden: Vec<_> = query.forbidden.iter().map(|&t| carriers(tables, t)).collect();
    let codes = codes(query.levels);
    let wanted = |d: usize| {
        required.iter().all(|c| c[d]) && !forbidden.iter().any(|c| c[d]) && codes.contains(&(tables.level[d - 1] as u32))
    };
    (0..=tables.size()).map(|d| d > 0 && wanted(d)).collect()
}

/// Refusals 1 to 9 as the table of document 01 says them, each device against each.
pub fn check(t: &Tables) -> u32 {
    match check_devices(t) {
        0 => check_index(t),
        refusal => refusal,
    }
}

fn check_devices(t: &Tables) -> u32 {
    let n = t.last.len();
    if n > 65_535 || t.root.len() != n || t.level.len() != n {
        return 1;
    }
    let last = |d: usize| t.last[d - 1] as usize;
    let holds = |d: usize, e: usize| d <= e && e <= last(d);
    let devices = || 1..=n;
    if !devices().all(|d| d <= last(d) && last(d) <= n) {
        return 2;
    }
    let apart = |d: usize, e: usize| last(d) < e || last(e) < d;
    let inside = |d: usize, e: usize| d <= e && last(e) <= last(d);
    if !devices().all(|d| devices().all(|e| apart(d, e) || inside(d, e) || inside(e, d))) {
        return 3;
    }
    if !devices().all(|d| devices().find(|&e| holds(e, d)) == Some(t.root[d - 1] as usize)) {
        return 4;
    }
    0
}

/// Refusals 5 to 7.
fn check_starts(t: &Tables) -> u32 {
    if t.terms.len() > 8_192 || t.postings.len() > 1_048_576 || t.starts.len() != t.terms.len() {
        return 5;
    }
    let count = t.terms.len();
    if (0..count).any(|k| t.terms[k] == 0 || (k > 0 && t.terms[k] <= t.terms[k - 1])) {
        return 6;
    }
    let wrong = |k: usize| (k > 0 && t.starts[k] < t.starts[k - 1]) || t.starts[k] > t.postings.len() as u32;
    if (count == 0 && !t.postings.is_empty()) || (count > 0 && t.starts[0] != 0) || (0..count).any(wrong) {
        return 7;
    }
    0
}

/// The lists of an index that none of 5 to 7 refuses.
fn lists(t: &Tables) -> impl Iterator<Item = &[u32]> {
    let end = |k: usize| if k + 1 < t.terms.len() { t.starts[k + 1] as usize } else { t.postings.len() };
    (0..t.terms.len()).map(move |k| &t.postings[t.starts[k] as usize..end(k)])
}

fn outside(t: &Tables, posting: u32) -> bool {
    let d = device_of(posting);
    d == 0 || d > t.last.len()
}

/// Whether a posting at e is redundant in a list.
fn redundant(t: &Tables, l: &[u32], e: usize) -> bool {
    l.iter().any(|&q| q % 2 == 1 && device_of(q) < e && e <= t.last[device_of(q) - 1] as usize)
}

/// For device tables that were accepted.
fn check_index(t: &Tables) -> u32 {
    let refusal = check_starts(t);
    if refusal != 0 {
        return refusal;
    }
    let misplaced = |l: &[u32], i: usize| outside(t, l[i]) || (0..i).any(|j| device_of(l[j]) >= device_of(l[i]));
    if lists(t).any(|l| (0..l.len()).any(|i| misplaced(l, i))) {
        return 8;
    }
    if lists(t).any(|l| l.iter().any(|&q| redundant(t, l, device_of(q)))) {
        return 9;
    }
    0
}

/// The refusals of a search with so much room in the answer list: of tables and first index, of the second index, then the first
/// of the rows after these.
pub fn search_refusal(t: &Tables, second: &Index, q: &Query, room: usize) -> u32 {
    let of_tables = check(t);
    if of_tables != 0 {
        return of_tables;
    }
    let of_second = check_index(&t.with(second));
    if of_second != 0 {
        return 50 + of_second;
    }
    let n = t.size();
    let (low, high) = if let Levels::Range(low, high) = q.levels { (low, high) } else { (1, 254) };
    let rows = [
        (15, t.terms.iter().any(|term| term / 32_768 == 1) || second.terms.iter().any(|term| term / 32_768 == 0)),
        (10, q.required.len().max(q.forbidden.len()) > 8),
        (11, [q.required.as_slice(), &q.forbidden].concat().iter().any(|&term| term == 0 || term > 65_535)),
        (12, !(0 < low && low <= high && high < 255)),
        (13, !(1..n + 2).contains(&(q.start as usize))),
        (14, room < n),
    ];
    rows.iter().find(|(_, applies)| *applies).map_or(0, |(number, _)| *number)
}

/// What is handed back of levels where nothing is said: 1 and zeros.
pub const NO_LEVEL_LINE: [usize; 3] = [1, 0, 0];

/// What an accepted ask text says of levels, as it is handed back; nothing where it has two level lines or one that is no form.
pub fn level_line(text: &[u8]) -> Option<[usize; 3]> {
    let text = std::str::from_utf8(text).ok()?;
    let lines: Vec<&str> = text.split('\n').filter(|line| line.contains("level")).collect();
    match lines[..] {
        [] => Some(NO_LEVEL_LINE),
        ["(level any)"] => Some([0, 0, 0]),
        [line] => {
            let (low, high) = line.strip_prefix("(level ")?.strip_suffix(')')?.split_once(' ')?;
            Some([2, low.parse().ok()?, high.parse().ok()?])
        }
        _ => None,
    }
}

/// The refusals of a repair with so much room in the report, each posting against each.
pub fn repair_refusal(t: &Tables, room: usize) -> u32 {
    let of_tables = match check_devices(t) {
        0 => check_starts(t),
        refusal => refusal,
    };
    let falls = |l: &[u32]| (0..l.len()).any(|i| (0..i).any(|j| device_of(l[j]) > device_of(l[i])));
    if of_tables != 0 {
        of_tables
    } else if t.postings.iter().any(|&q| outside(t, q)) {
        8
    } else if lists(t).any(falls) {
        41
    } else if room < dropped(t).len() {
        44
    } else {
        0
    }
}

/// Whether the posting at index i of a list is dropped: another of its device is kept, or it is redundant.
fn goes(t: &Tables, l: &[u32], i: usize) -> bool {
    let same = |j: usize| device_of(l[j]) == device_of(l[i]);
    let shared = |j: usize| l[j] % 2 == 1;
    let other = if shared(i) {
        (0..i).any(|j| same(j) && shared(j))
    } else {
        (0..i).any(same) || (0..l.len()).any(|j| same(j) && shared(j))
    };
    other || redundant(t, l, device_of(l[i]))
}

/// What a repair reports: term, device and 0 or 1 of each dropped posting.
fn dropped(t: &Tables) -> Vec<u32> {
    let of_list = |(k, l): (usize, &[u32])| -> Vec<[u32; 3]> {
        let gone = (0..l.len()).filter(|&i| goes(t, l, i));
        gone.map(|i| [t.terms[k] as u32, l[i] / 2, l[i] % 2]).collect()
    };
    lists(t).enumerate().flat_map(of_list).flatten().collect()
}

/// The postings of each list with those reported of it, sorted.
fn sorted(t: &Tables, report: &[u32]) -> Vec<Vec<u32>> {
    let of_list = |(l, &term): (&[u32], &u16)| {
        let told = report.chunks(3).filter(|told| told[0] == term as u32).map(|told| 2 * told[1] + told[2]);
        let mut all: Vec<u32> = l.iter().copied().chain(told).collect();
        all.sort();
        all
    };
    lists(t).zip(&t.terms).map(of_list).collect()
}

/// What an accepted repair breaks, if anything: `after` has the kept postings alone, and the report the dropped ones.
pub fn repair_broken(before: &Tables, after: &Tables, report: &[u32]) -> Option<&'static str> {
    if check(after) != 0 {
        Some("the outcome is refused")
    } else if carried(before) != carried(after) {
        Some("a device carries other terms than before")
    } else if sorted(before, &[]) != sorted(after, report) {
        Some("kept and dropped together are not the postings before")
    } else if check(before) == 0 && before != after {
        Some("a sound index changed")
    } else if dropped(before) != report {
        Some("what is reported is not what goes")
    } else {
        None
    }
}

/// The tightened list of these carriers, as the request says it, each device against each.
fn tight(t: &Tables, carries: &[bool]) -> Vec<u32> {
    let devices = || 1..=t.size();
    let last = |d: usize| t.last[d - 1] as usize;
    let whole = |d: usize| (d..=last(d)).all(|e| carries[e]);
    let inside_larger = |d: usize| devices().any(|e| e < d && d <= last(e) && whole(e));
    let posting = |d: usize| {
        if carries[d] && !whole(d) {
            Some(2 * d as u32)
        } else if whole(d) && !inside_larger(d) {
            Some(2 * d as u32 + (last(d) > d) as u32)
        } else {
            None
        }
    };
    devices().filter_map(posting).collect()
}

/// The carriers as a number with a bit for each device.
fn bits(carries: &[bool]) -> usize {
    carries.iter().enumerate().map(|(d, &carries)| (carries as usize) << d).sum()
}

/// For each choice of carriers, the fewest postings of any list that has them: every list is gone through, of no postings, of one
/// and so on, sorted or not, with repeated and redundant ones. Of those that have the same carriers only a shortest is gone on
/// from, since one posting more makes the same of each.
pub fn fewest(t: &Tables) -> Vec<usize> {
    let n = t.size();
    let postings: Vec<usize> = (2..2 * n as u32 + 2).map(|q| bits(&carriers_of(t, &[q]))).collect();
    let mut fewest = vec![usize::MAX; 2 << n];
    fewest[0] = 0;
    let mut shorter = vec![0];
    for length in 1..=n {
        let all: Vec<usize> = shorter.iter().flat_map(|list| postings.iter().map(move |posting| list | posting)).collect();
        shorter.clear();
        for carriers in all {
            if fewest[carriers] == usize::MAX {
                fewest[carriers] = length;
                shorter.push(carriers);
            }
        }
    }
    fewest
}

/// Whether some list is longer than the shortest with its carriers, for a plant of few devices.
fn any_longer(t: &Tables) -> bool {
    let fewest = fewest(t);
    lists(t).any(|l| l.len() > fewest[bits(&carriers_of(t, l))])
}

/// What an accepted tightening breaks, if anything: `after` has the new postings alone.
pub fn tighten_broken(before: &Tables, after: &Tables) -> Option<&'static str> {
    if check(after) != 0 {
        Some("the outcome is refused")
    } else if carried(before) != carried(after) {
        Some("a device carries other terms than before")
    } else if !lists(after).eq(carried(before).iter().map(|carries| tight(before, carries))) {
        Some("a list is not the tightened one")
    } else if before.size() <= 7 && any_longer(after) {
        Some("a list with the same carriers is shorter")
    } else {
        None
    }
}

/// The stretches of devices that an accepted list carries its term to, each as long as it can be.
fn stretches(t: &Tables, list: &[u32]) -> Vec<(usize, usize)> {
    let mut all: Vec<(usize, usize)> = vec![];
    for &posting in list {
        let (from, to) = (device_of(posting), end_of(t, posting));
        match all.last_mut() {
            Some((_, end)) if *end + 1 == from => *end = to,
            _ => all.push((from, to)),
        }
    }
    all
}

/// Whether each term has the same carriers in two accepted indexes of one plant.
pub fn same_carriers(before: &Tables, after: &Tables) -> bool {
    lists(before).map(|l| stretches(before, l)).eq(lists(after).map(|l| stretches(after, l)))
}

/// Whether some device lies in more than 32 branches, each device against each, for device tables that were accepted.
pub fn too_deep(t: &Tables) -> bool {
    let holds = |d: usize, e: usize| d <= e && e <= t.last[d - 1] as usize;
    let devices = || 1..=t.size();
    devices().any(|e| devices().filter(|&d| holds(d, e)).count() > 32)
}

/// The position after a round at p. Each list that is asked gets p beside it; the first that turns p away ends the round.
fn round(tables: &Tables, query: &Query, lists: &mut [(&[u32], usize)], p: usize) -> usize {
    for (k, (list, asked)) in lists.iter_mut().enumerate() {
        *asked = p;
        let carrying = list.iter().find(|&&q| device_of(q) <= p && p <= end_of(tables, q));
        match (k < query.required.len(), carrying) {
            (true, None) => return list.iter().map(|&q| device_of(q)).find(|&d| p < d).unwrap_or(tables.size() + 1),
            (false, Some(&q)) => return end_of(tables, q) + 1,
            _ => (),
        }
    }
    p + 1
}

/// How many postings the rounds at positions below `end` leave behind: in a list that was asked last at p, those that carry to no
/// device from p on.
fn left_behind(tables: &Tables, query: &Query, end: usize) -> usize {
    let mut lists: Vec<_> = query.required.iter().chain(&query.forbidden).map(|&t| (tables.list_of(t), 0)).collect();
    let mut p = query.start as usize;
    while p < end {
        p = round(tables, query, &mut lists, p);
    }
    lists.iter().map(|(list, asked)| list.iter().filter(|&&q| end_of(tables, q) < *asked).count()).sum()
}

/// Whether a run that ended at the position may have gone so far: to what is left behind, or where it stopped, to less than what
/// the round there would leave behind.
fn may_go(tables: &Tables, query: &Query, position: usize, gone: usize) -> bool {
    let behind = left_behind(tables, query, position);
    if position > tables.size() {
        gone == behind
    } else {
        behind <= gone && gone < left_behind(tables, query, position + 1)
    }
}

/// What an accepted answer breaks, if anything: `unlimited` is the answer to the same query with the largest budget.
pub fn broken(tables: &Tables, query: &Query, got: Answer, listing: &[u16], unlimited: Answer) -> Option<&'static str> {
    let n = tables.size();
    let position = got.position as usize;
    let matching = matches(tables, query);
    let expected: Vec<u16> = (query.start as usize..position).filter(|&d| matching[d]).map(|d| d as u16).collect();
    let named: usize = query.required.iter().chain(&query.forbidden).map(|&t| tables.list_of(t).len()).sum();
    let gone = got.moves as usize + got.passed as usize;
    let complete = position == n + 1;
    if position < query.start as usize || position > n + 1 {
        Some("the position is outside start..N + 1")
    } else if listing != expected {
        Some("the listing is not the matching devices up to the position")
    } else if got.moves > query.budget {
        Some("more moves than the budget")
    } else if got.moves == 0 && got.passed > 0 {
        Some("postings passed without a move")
    } else if gone > named {
        Some("more moves and passed together than the postings named")
    } else if !may_go(tables, query, position, gone) {
        Some("moves and passed together are not how far the cursors go")
    } else if complete == (query.budget < unlimited.moves) {
        Some("complete with too small a budget, or stopped without need")
    } else if !complete && got.moves != query.budget {
        Some("stopped before the budget was spent")
    } else if complete && got != unlimited {
        Some("a complete run differs from the unlimited one")
    } else if !complete && query.budget as usize >= named {
        Some("stopped with a budget for every posting named")
    } else {
        None
    }
}
