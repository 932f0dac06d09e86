//! Document 02's tightening in plain Rust, written from its text: what a list becomes follows from its carriers alone.
use crate::paper::{device_of, Tables};

impl Tables {
    /// Gives each list the fewest postings that keep its carriers: the refusal, and how many postings there are now.
    pub fn tighten(&mut self) -> (u32, usize) {
        match self.check() {
            0 => {
                let lists = (0..self.terms.len()).map(|k| self.tight_list(self.list(k))).collect();
                (0, self.put(lists))
            }
            refusal => (refusal, 0),
        }
    }

    /// The fewest postings with the carriers of a list.
    pub fn tight_list(&self, list: &[u32]) -> Vec<u32> {
        let carriers = self.carriers(list);
        self.tight(&carriers, |i| self.whole(&carriers, i))
    }

    /// The devices that carry the term of a list, lowest first.
    pub fn carriers(&self, list: &[u32]) -> Vec<usize> {
        let mut all: Vec<usize> = list.iter().flat_map(|&q| device_of(q)..=self.reach(q)).collect();
        all.sort_unstable();
        all.dedup();
        all
    }

    /// Whether the branch of the carrier at index i carries the term throughout: the carriers from i on do not leave out a device
    /// before its last one.
    pub fn whole(&self, carriers: &[usize], i: usize) -> bool {
        let last = self.last_of(carriers[i]);
        carriers.get(i + last - carriers[i]) == Some(&last)
    }

    /// The list of these carriers, where `whole` says of an index whether the branch of that carrier is whole. A whole branch inside
    /// no larger one gets a shared posting at its top, or a private one where the top is a leaf; a carrier whose branch is not whole
    /// gets a private one.
    pub fn tight(&self, carriers: &[usize], whole: impl Fn(usize) -> bool) -> Vec<u32> {
        let mut list = vec![];
        // the last device of the whole branches so far: those up to it are inside one
        let mut reached = 0;
        for (i, &device) in carriers.iter().enumerate() {
            if device <= reached {
                continue;
            }
            let last = self.last_of(device);
            let top = whole(i);
            if top {
                reached = last;
            }
            list.push(2 * device as u32 + (top && last > device) as u32);
        }
        list
    }

    /// Puts these lists into the index, one after another from the front, and 0 into the entries that come free: how many postings
    /// there are now.
    pub fn put(&mut self, lists: Vec<Vec<u32>>) -> usize {
        let mut postings = vec![];
        for (start, list) in self.starts.iter_mut().zip(lists) {
            *start = postings.len() as u32;
            postings.extend(list);
        }
        let count = postings.len();
        postings.resize(self.postings.len(), 0);
        self.postings = postings;
        count
    }
}
