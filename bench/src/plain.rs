//! The same checks and cursor steps in plain Rust, as one would write them without proofs.
use crate::paper::{Answer, Index, Levels, Query, Tables};

/// The least term of the second index.
pub const SECOND: u16 = 32_768;

pub fn device(posting: u32) -> usize {
    (posting >> 1) as usize
}

/// The last device that a posting carries its term to. Both are read before one is chosen, so that no branch depends on it.
pub fn reach(last: &[u16], posting: u32) -> usize {
    let end = last[device(posting) - 1] as usize;
    if posting & 1 == 1 {
        end
    } else {
        device(posting)
    }
}

/// The lists of one of the two indexes.
#[derive(Clone, Copy)]
struct Lists<'a> {
    terms: &'a [u16],
    starts: &'a [u32],
    postings: &'a [u32],
}

impl<'a> Lists<'a> {
    fn first(t: &'a Tables) -> Lists<'a> {
        Lists { terms: &t.terms, starts: &t.starts, postings: &t.postings }
    }

    fn second(index: &'a Index) -> Lists<'a> {
        Lists { terms: &index.terms, starts: &index.starts, postings: &index.postings }
    }

    /// The list of the term at index k.
    fn list(self, k: usize) -> &'a [u32] {
        let end = self.starts.get(k + 1).map_or(self.postings.len(), |&s| s as usize);
        &self.postings[self.starts[k] as usize..end]
    }

    fn list_of(self, term: u32) -> &'a [u32] {
        match self.terms.binary_search(&(term as u16)) {
            Ok(k) => self.list(k),
            Err(_) => &[],
        }
    }
}

/// Refusals 1 to 9. Accepted branches are gone through once for 2 and 3, and an accepted index once for 8 and 9; only where such
/// a pass finds a fault do two more tell which it is.
#[inline(never)]
pub fn check(t: &Tables) -> u32 {
    match check_but_postings(t) {
        0 => check_lists(&t.last, Lists::first(t)),
        number => number,
    }
}

/// The same with a pass for each of the four: what `check` was before.
#[inline(never)]
pub fn check_in_two_passes(t: &Tables) -> u32 {
    match check_before_postings(t, check_branches) {
        0 => check_postings(&t.last, Lists::first(t)),
        number => number,
    }
}

/// The second index's refusals, 55 to 59, and 15. Terms rise, so the last of the first index and the first of the second tell
/// whether one is in the wrong index.
fn check_second(t: &Tables, second: Lists) -> u32 {
    let refused = match check_terms(second) {
        0 => check_lists(&t.last, second),
        number => number,
    };
    if refused != 0 {
        return 50 + refused;
    }
    if t.terms.last().is_some_and(|&x| x >= SECOND) || second.terms.first().is_some_and(|&x| x < SECOND) {
        return 15;
    }
    0
}

/// Refusals 1 to 7, with accepted branches gone through once. This and the next are compiled into each caller.
#[inline(always)]
pub fn check_but_postings(t: &Tables) -> u32 {
    check_before_postings(t, check_branches_at_once)
}

/// Refusals 1 to 7, where `branches` tells 2 and 3.
#[inline(always)]
fn check_before_postings(t: &Tables, branches: impl Fn(&[u16]) -> u32) -> u32 {
    let n = t.last.len();
    if t.root.len() != n || t.level.len() != n || n > 65_535 {
        return 1;
    }
    let refused = branches(&t.last);
    if refused != 0 {
        return refused;
    }
    if wrong_root(&t.last, &t.root) {
        return 4;
    }
    check_terms(Lists::first(t))
}

/// Refusals 5 to 7.
#[inline(always)]
fn check_terms(Lists { terms, starts, postings }: Lists) -> u32 {
    if starts.len() != terms.len() || terms.len() > 8_192 || postings.len() > 1_048_576 {
        return 5;
    }
    if terms.first() == Some(&0) || terms.windows(2).any(|w| w[1] <= w[0]) {
        return 6;
    }
    let first = starts.first().map_or(postings.len(), |&s| s as usize);
    let end = starts.last().map_or(0, |&s| s as usize);
    if first != 0 || end > postings.len() || starts.windows(2).any(|w| w[1] < w[0]) {
        return 7;
    }
    0
}

fn out_of_range(last: &[u16], d: usize) -> bool {
    (last[d - 1] as usize) < d || last.len() < last[d - 1] as usize
}

/// Refusals 2 and 3, each in one pass.
fn check_branches(last: &[u16]) -> u32 {
    if (1..=last.len()).any(|d| out_of_range(last, d)) {
        return 2;
    }
    if (1..=last.len()).rev().any(|d| overlaps(last, d)) {
        return 3;
    }
    0
}

/// The same, where accepted branches are gone through once.
fn check_branches_at_once(last: &[u16]) -> u32 {
    if (1..=last.len()).rev().any(|d| out_of_range(last, d) || overlaps(last, d)) {
        return check_branches(last);
    }
    0
}

/// Refusals 8 and 9, where accepted postings are gone through once.
#[inline(always)]
fn check_lists(last: &[u16], index: Lists) -> u32 {
    if (0..index.starts.len()).any(|k| at_fault(last, index.list(k))) {
        return check_postings(last, index);
    }
    0
}

/// Refusals 8 and 9, each in one pass.
fn check_postings(last: &[u16], index: Lists) -> u32 {
    if (0..index.starts.len()).any(|k| misplaced(last.len(), index.list(k))) {
        return 8;
    }
    if (0..index.starts.len()).any(|k| redundant(last, index.list(k))) {
        return 9;
    }
    0
}

/// Whether the branch of d overlaps another, where no later one does: goes over its children.
fn overlaps(last: &[u16], d: usize) -> bool {
    let end = last[d - 1] as usize;
    let mut child = d + 1;
    while child <= end {
        let child_end = last[child - 1] as usize;
        if end < child_end {
            return true;
        }
        child = child_end + 1;
    }
    false
}

fn wrong_root(last: &[u16], root: &[u16]) -> bool {
    let mut tree = 1;
    for (i, &r) in root.iter().enumerate() {
        if (last[tree - 1] as usize) < i + 1 {
            tree = i + 1;
        }
        if r as usize != tree {
            return true;
        }
    }
    false
}

/// Whether a posting is misplaced or redundant. What one reaches is never below its own device, so one comparison with what the
/// posting before it reaches serves both.
fn at_fault(last: &[u16], list: &[u32]) -> bool {
    let mut reached = 0;
    for &posting in list {
        if device(posting) <= reached || last.len() < device(posting) {
            return true;
        }
        reached = reach(last, posting);
    }
    false
}

fn misplaced(n: usize, list: &[u32]) -> bool {
    let mut before = 0;
    for &posting in list {
        if device(posting) <= before || n < device(posting) {
            return true;
        }
        before = device(posting);
    }
    false
}

fn redundant(last: &[u16], list: &[u32]) -> bool {
    let mut before = 0;
    for &posting in list {
        if device(posting) <= before {
            return true;
        }
        before = reach(last, posting);
    }
    false
}

/// The list of the first index's term at index k.
pub fn list(t: &Tables, k: usize) -> &[u32] {
    Lists::first(t).list(k)
}

/// The first index's list of a term.
pub fn list_of(t: &Tables, term: u32) -> &[u32] {
    Lists::first(t).list_of(term)
}

/// The first index from `from` on whose device is at least `target`: doubling steps, then halving.
fn seek(list: &[u32], from: usize, target: usize) -> usize {
    let mut low = from;
    let mut step = 1;
    while low + step <= list.len() && device(list[low + step - 1]) < target {
        low += step;
        step *= 2;
    }
    let mut high = (low + step - 1).min(list.len());
    while low < high {
        let middle = (low + high) / 2;
        if device(list[middle]) < target {
            low = middle + 1;
        } else {
            high = middle;
        }
    }
    low
}

#[derive(Clone, Copy)]
struct Cursor<'a> {
    list: &'a [u32],
    at: usize,
}

/// What all cursors together have spent: moves, and the postings that these passed over without landing.
struct Spent {
    moves: u32,
    passed: usize,
}

/// Of a cursor brought to a position: whether its posting carries to it, and the last position up to which that stays so with
/// no move.
struct Stretch {
    carries: bool,
    to: usize,
}

impl Cursor<'_> {
    /// Brings the cursor to position p; none: the next move would exceed the budget.
    #[inline(always)]
    fn bring(&mut self, t: &Tables, p: usize, spent: &mut Spent, budget: u32) -> Option<Stretch> {
        while let Some(&posting) = self.list.get(self.at) {
            let d = device(posting);
            if p < d {
                return Some(Stretch { carries: false, to: d - 1 });
            }
            let end = t.last[d - 1] as usize;
            let reach = if posting & 1 == 1 { end } else { d };
            if p <= reach {
                return Some(Stretch { carries: true, to: reach });
            }
            if spent.moves == budget {
                return None;
            }
            spent.moves += 1;
            let root = t.root[p - 1] as usize;
            let target = if d < root {
                root
            } else if end < p {
                end + 1
            } else {
                0
            };
            let from = self.at;
            self.at = seek(self.list, from + 1, target);
            spent.passed += self.at - from - 1;
        }
        Some(Stretch { carries: false, to: t.last.len() })
    }
}

fn refusal(t: &Tables, q: &Query, room: usize) -> u32 {
    if q.required.len() > 8 || q.forbidden.len() > 8 {
        return 10;
    }
    if q.required.iter().chain(&q.forbidden).any(|&x| x == 0 || x > 65_535) {
        return 11;
    }
    if matches!(q.levels, Levels::Range(low, high) if high < low || low == 0 || high > 254) {
        return 12;
    }
    if q.start == 0 || q.start as usize > t.last.len() + 1 {
        return 13;
    }
    if room < t.last.len() {
        return 14;
    }
    0
}

/// The search call whole, with an empty second index.
pub fn search(t: &Tables, q: &Query, answer: &mut [u16]) -> Answer {
    search_in_two(t, &Index::default(), q, answer)
}

/// The search call whole: every refusal, then the steps.
pub fn search_in_two(t: &Tables, second: &Index, q: &Query, answer: &mut [u16]) -> Answer {
    let refusal = match check(t) {
        0 => check_second(t, Lists::second(second)),
        number => number,
    };
    if refusal != 0 {
        return Answer { refusal, ..Answer::default() };
    }
    steps_in_two(t, second, q, answer)
}

/// Cursors of terms, each on the first posting of its list; the rest of the eight are on empty lists.
fn cursors<'a>(first: Lists<'a>, second: Lists<'a>, terms: &[u32]) -> [Cursor<'a>; 8] {
    let mut cursors = [Cursor { list: &[], at: 0 }; 8];
    for (cursor, &term) in cursors.iter_mut().zip(terms) {
        let index = if term < SECOND as u32 { first } else { second };
        cursor.list = index.list_of(term);
    }
    cursors
}

/// The steps with an empty second index.
#[inline(always)]
pub fn steps(t: &Tables, q: &Query, answer: &mut [u16]) -> Answer {
    steps_in_two(t, &Index::default(), q, answer)
}

/// The query's own refusals and the steps, for tables that were checked. Where every cursor passes, so do all positions up to
/// the first at which one has to move or changes: they are listed at once.
#[inline(never)]
pub fn steps_in_two(t: &Tables, second: &Index, q: &Query, answer: &mut [u16]) -> Answer {
    let refusal = refusal(t, q, answer.len());
    if refusal != 0 {
        return Answer { refusal, ..Answer::default() };
    }
    let (first, second) = (Lists::first(t), Lists::second(second));
    let (mut required, mut forbidden) = (cursors(first, second, &q.required), cursors(first, second, &q.forbidden));
    let required = &mut required[..q.required.len()];
    let forbidden = &mut forbidden[..q.forbidden.len()];
    let codes = codes(q.levels);
    let n = t.last.len();
    let (mut p, mut spent, mut count) = (q.start as usize, Spent { moves: 0, passed: 0 }, 0);
    'rounds: while p <= n {
        let mut until = n;
        for cursor in required.iter_mut() {
            let Some(stretch) = cursor.bring(t, p, &mut spent, q.budget) else { break 'rounds };
            if !stretch.carries {
                p = stretch.to + 1;
                continue 'rounds;
            }
            until = until.min(stretch.to);
        }
        for cursor in forbidden.iter_mut() {
            let Some(stretch) = cursor.bring(t, p, &mut spent, q.budget) else { break 'rounds };
            if stretch.carries {
                p = stretch.to + 1;
                continue 'rounds;
            }
            until = until.min(stretch.to);
        }
        count = fill(&t.level, codes, p, until, answer, count);
        p = until + 1;
    }
    Answer { refusal: 0, count: count as u32, position: p as u32, passed: spent.passed as u32, moves: spent.moves }
}

/// The lowest and the highest level code that an accepted query wants.
pub fn codes(levels: Levels) -> (u8, u8) {
    match levels {
        Levels::Any => (0, 255),
        Levels::TrueOnly => (1, 254),
        Levels::Range(low, high) => (low as u8, high as u8),
    }
}

/// Lists the positions from p to `until` whose level code is wanted, after the first `count` entries.
fn fill(level: &[u8], (low, high): (u8, u8), p: usize, until: usize, answer: &mut [u16], mut count: usize) -> usize {
    for d in p..until + 1 {
        if (low..=high).contains(&level[d - 1]) {
            answer[count] = d as u16;
            count += 1;
        }
    }
    count
}
