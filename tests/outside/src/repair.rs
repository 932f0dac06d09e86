//! Document 02's repair in plain Rust, written from its text.
use crate::paper::{device_of, Tables};

/// Of the postings of one device in a list, the index of the one to keep: the first shared one, else the first.
pub fn chosen(same: &[u32]) -> usize {
    same.iter().position(|&q| q % 2 == 1).unwrap_or(0)
}

impl Tables {
    /// Keeps one posting of each device in a list, drops what is redundant and reports what it drops: the refusal, then how many
    /// were dropped and how many postings there are now.
    pub fn repair(&mut self, report: &mut [u32]) -> (u32, [usize; 2]) {
        match self.repair_refusal() {
            0 => self.keep(&self.kept(chosen), report),
            refusal => (refusal, [0, 0]),
        }
    }

    /// Refusals 1 to 7, 8 without its order test, and 41.
    fn repair_refusal(&self) -> u32 {
        let refusal = self.check();
        let outside = |&q: &u32| device_of(q) == 0 || device_of(q) > self.size();
        if (1..=7).contains(&refusal) {
            refusal
        } else if self.postings.iter().any(outside) {
            8
        } else if self.falls() {
            41
        } else {
            0
        }
    }

    /// Whether in some list a device is below the one before it, for an index that none of 5 to 7 refuses.
    pub fn falls(&self) -> bool {
        let falls = |list: &[u32]| list.windows(2).any(|w| device_of(w[1]) < device_of(w[0]));
        (0..self.terms.len()).any(|k| falls(self.list(k)))
    }

    /// Of each posting, whether it is kept: the chosen one of its device, unless a posting at a lower device reaches it.
    pub fn kept(&self, chosen: fn(&[u32]) -> usize) -> Vec<bool> {
        let mut kept = vec![];
        for k in 0..self.terms.len() {
            let mut reached = 0;
            for same in self.list(k).chunk_by(|&a, &b| device_of(a) == device_of(b)) {
                let at = chosen(same);
                kept.extend((0..same.len()).map(|i| i == at && device_of(same[i]) > reached));
                reached = reached.max(self.reach(same[at]));
            }
        }
        kept
    }

    /// Keeps these postings and reports the others, or gives 44 where the report is too short for them.
    pub fn keep(&mut self, kept: &[bool], report: &mut [u32]) -> (u32, [usize; 2]) {
        let (mut starts, mut postings, mut dropped) = (vec![], vec![], vec![]);
        for (k, &term) in self.terms.iter().enumerate() {
            let of_list = &kept[self.starts[k] as usize..];
            starts.push(postings.len() as u32);
            for (&posting, &keep) in self.list(k).iter().zip(of_list) {
                if keep {
                    postings.push(posting);
                } else {
                    dropped.extend([term as u32, posting / 2, posting % 2]);
                }
            }
        }
        if report.len() < dropped.len() {
            return (44, [0, 0]);
        }
        report[..dropped.len()].copy_from_slice(&dropped);
        let numbers = [dropped.len() / 3, postings.len()];
        postings.resize(self.postings.len(), 0);
        (self.starts, self.postings) = (starts, postings);
        (0, numbers)
    }
}
