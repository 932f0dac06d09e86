//! Lists written out for every device that carries a term, and an ordinary join of them.
use crate::paper::{device_of, Levels, Query, Tables};
use crate::plain;

pub struct Unshared {
    /// the list of each term, by its number; those of absent terms are empty
    pub lists: Vec<Vec<u16>>,
    level: Vec<u8>,
}

impl Unshared {
    pub fn new(t: &Tables) -> Unshared {
        let mut lists = vec![vec![]; 65_536];
        for &term in &t.terms {
            let list = &mut lists[term as usize];
            for &posting in plain::list_of(t, term as u32) {
                let d = device_of(posting) as u16;
                let end = if posting % 2 == 1 { t.last[d as usize - 1] } else { d };
                list.extend(d..=end);
            }
        }
        Unshared { lists, level: t.level.clone() }
    }

    pub fn postings(&self) -> usize {
        self.lists.iter().map(Vec::len).sum()
    }

    pub fn list(&self, term: u32) -> &[u16] {
        &self.lists[term as usize]
    }

    fn side(&self, terms: &[u32]) -> [&[u16]; 8] {
        let mut lists: [&[u16]; 8] = [&[]; 8];
        for (list, &term) in lists.iter_mut().zip(terms) {
            *list = self.list(term);
        }
        lists
    }

    /// The devices of the shortest required list that gallop to a match in every other.
    pub fn search(&self, q: &Query, answer: &mut [u16]) -> usize {
        let (mut required, mut forbidden) = (self.side(&q.required), self.side(&q.forbidden));
        let required = &mut required[..q.required.len()];
        let forbidden = &mut forbidden[..q.forbidden.len()];
        required.sort_by_key(|l| l.len());
        let (first, others) = required.split_first_mut().unwrap();
        let (any, (low, high)) = (q.levels == Levels::Any, plain::codes(q.levels));
        let mut count = 0;
        for &d in first.iter() {
            let wanted = others.iter_mut().all(|l| stands_at(l, d))
                && !forbidden.iter_mut().any(|l| stands_at(l, d))
                && (any || (low..=high).contains(&self.level[d as usize - 1]));
            if wanted {
                answer[count] = d;
                count += 1;
            }
        }
        count
    }

    /// The moves of an ordinary zig-zag join: one for each step of a cursor to the first posting at or beyond the position.
    pub fn moves(&self, q: &Query, n: usize) -> u64 {
        let mut moves = 0;
        let mut lists: Vec<&[u16]> = q.required.iter().chain(&q.forbidden).map(|&t| self.list(t)).collect();
        let mut p = 1;
        'rounds: while p <= n {
            for (k, list) in lists.iter_mut().enumerate() {
                if list.first().is_some_and(|&c| (c as usize) < p) {
                    moves += 1;
                    *list = &list[list.partition_point(|&c| (c as usize) < p)..];
                }
                let c = list.first().map_or(n + 1, |&c| c as usize);
                if (k < q.required.len()) != (c == p) {
                    p = if k < q.required.len() { c } else { p + 1 };
                    continue 'rounds;
                }
            }
            p += 1;
        }
        moves
    }
}

/// Moves the list to its first entry at or beyond d, by doubling steps and halving; whether that is d.
fn stands_at(list: &mut &[u16], d: u16) -> bool {
    let mut step = 1;
    while step < list.len() && list[step] < d {
        step *= 2;
    }
    let end = (step + 1).min(list.len());
    let from = list[..end].partition_point(|&e| e < d);
    *list = &list[from..];
    list.first() == Some(&d)
}
