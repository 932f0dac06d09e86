//! All ways to answer a query over one plant: that they agree, and how long each takes.
use crate::paper::{device_of, Answer, Index, Query, Tables};
use crate::random::Random;
use crate::time::{clock, seconds, Least, Rounds, Times};
use crate::{ffi, plain, roaring, sqlite, unshared};
use std::hint::black_box;

pub struct Ways {
    pub tables: Tables,
    pub unshared: unshared::Unshared,
    bitmaps: roaring::Ready,
    in_call: roaring::InTheCall,
    database: sqlite::Database,
    answer: Vec<u16>,
    /// what reading the clock adds to a time
    clock: f64,
    /// the check of the plant whole: no query changes it
    check: Checks<Least>,
}

/// The check as each way makes it; `two_passes` is plain, and reads the postings twice.
#[derive(Clone, Copy)]
pub struct Checks<T> {
    pub proved: T,
    pub plain: T,
    pub two_passes: T,
}

/// Moves of a query, with lists shared and unshared, and the devices listed.
#[derive(Clone, Copy, Default)]
pub struct Moves {
    pub shared: u64,
    pub unshared: u64,
    pub listed: u64,
}

impl Moves {
    pub fn add(&mut self, other: Moves) {
        self.shared += other.shared;
        self.unshared += other.unshared;
        self.listed += other.listed;
    }
}

/// The times of one query. `steps` is of the proved search: a search less the check before it.
pub struct Taken {
    call: Least,
    plain_call: Least,
    steps: Rounds,
    plain_steps: Rounds,
    unshared: Rounds,
    roaring: Rounds,
    roaring_in_call: Rounds,
    sqlite: Rounds,
    plain_again: Rounds,
    roaring_again: Rounds,
}

impl Taken {
    pub fn new() -> Taken {
        let (call, plain_call) = (Least::NONE, Least::NONE);
        let [steps, plain_steps, unshared, roaring, roaring_in_call, sqlite, plain_again, roaring_again] =
            std::array::from_fn(|_| Rounds::default());
        Taken { call, plain_call, steps, plain_steps, unshared, roaring, roaring_in_call, sqlite, plain_again, roaring_again }
    }
}

/// The proved search, with an empty second index.
pub fn proved_search(t: &Tables, q: &Query, answer: &mut [u16]) -> Answer {
    ffi::search(t, &Index::default(), q, answer)
}

/// What a search of the tables gives, and the answer that it leaves.
pub fn left_by(t: &Tables, search: impl FnOnce(&mut [u16]) -> Answer) -> (Answer, Vec<u16>) {
    let mut answer = vec![7; t.size()];
    (search(&mut answer), answer)
}

/// The tables with every list emptied that the query does not name, and a branch kept only for roots and for devices that those
/// lists have a posting at. The steps read the same entries, and the check is far shorter.
pub fn few(t: &Tables, q: &Query) -> Tables {
    let (root, level, terms) = (t.root.clone(), t.level.clone(), t.terms.clone());
    let mut few = Tables { last: (1..=t.size() as u16).collect(), root, level, terms, ..Tables::default() };
    for &term in &t.terms {
        few.starts.push(few.postings.len() as u32);
        if q.required.contains(&(term as u32)) || q.forbidden.contains(&(term as u32)) {
            few.postings.extend(plain::list_of(t, term as u32));
        }
    }
    for d in few.postings.iter().map(|&posting| device_of(posting)).chain(t.root.iter().map(|&r| r as usize)) {
        few.last[d - 1] = t.last[d - 1];
    }
    few
}

impl Ways {
    pub fn new(tables: Tables) -> Ways {
        let unshared = unshared::Unshared::new(&tables);
        let bitmaps = roaring::Ready::new(&unshared, &tables.level);
        let in_call = roaring::InTheCall::new(tables.size());
        let database = sqlite::Database::new(&unshared, &tables.level);
        let answer = vec![0; tables.size()];
        let check = Checks { proved: Least::NONE, plain: Least::NONE, two_passes: Least::NONE };
        Ways { tables, unshared, bitmaps, in_call, database, answer, clock: clock(), check }
    }

    /// Every way gives the same listing, and the proved search the same five numbers as the plain one.
    pub fn agree(&mut self, q: &Query) -> Moves {
        let n = self.tables.size();
        let mut expected = vec![0; n];
        let plain = plain::search(&self.tables, q, &mut expected);
        assert_eq!((plain.refusal, plain.position), (0, n as u32 + 1));
        let mut answer = vec![0; n];
        assert_eq!(proved_search(&self.tables, q, &mut answer), plain);
        assert_eq!(answer, expected);
        let few = few(&self.tables, q);
        assert_eq!(plain::search(&few, q, &mut answer), plain);
        assert_eq!(answer, expected);
        agree_in_parts(&few, q, plain.moves);
        let listing = &expected[..plain.count as usize];
        let count = self.unshared.search(q, &mut answer);
        assert_eq!(&answer[..count], listing);
        let count = self.database.search(q, &mut answer);
        assert_eq!(&answer[..count], listing);
        let wide: Vec<u32> = listing.iter().map(|&d| d as u32).collect();
        assert_eq!(self.bitmaps.search(q), wide);
        assert_eq!(self.in_call.search(&self.tables, q), wide);
        assert_eq!(self.in_call.search(&few, q), wide);
        Moves { shared: plain.moves as u64, unshared: self.unshared.moves(q, n), listed: plain.count as u64 }
    }

    /// One round of the calls that check the plant whole, for one query.
    pub fn whole(&mut self, q: &Query, taken: &mut Taken) {
        let t = &self.tables;
        self.check.proved.of(|| ffi::check(black_box(t)));
        self.check.plain.of(|| plain::check(black_box(t)));
        self.check.two_passes.of(|| plain::check_in_two_passes(black_box(t)));
        taken.call.of(|| proved_search(t, black_box(q), &mut self.answer));
        taken.plain_call.of(|| plain::search(t, black_box(q), &mut self.answer));
    }

    /// One round of the steps alone. A check goes before each way, as it does in the call: all meet the same caches. Plain and
    /// the ready bitmaps of CRoaring are called again with no check between.
    pub fn steps(&mut self, few: &Tables, q: &Query, taken: &mut Taken) {
        let check = || black_box(ffi::check(black_box(few)));
        taken.steps.push(proved_steps(few, q, &mut self.answer, taken.steps.len()));
        check();
        taken.plain_steps.push(seconds(|| plain::steps(few, black_box(q), &mut self.answer)));
        taken.plain_again.push(seconds(|| plain::steps(few, black_box(q), &mut self.answer)));
        check();
        taken.unshared.push(seconds(|| self.unshared.search(black_box(q), &mut self.answer)));
        check();
        taken.roaring.push(seconds(|| self.bitmaps.search(black_box(q)).len()));
        taken.roaring_again.push(seconds(|| self.bitmaps.search(black_box(q)).len()));
        check();
        taken.roaring_in_call.push(seconds(|| self.in_call.search(few, black_box(q)).len()));
    }

    /// One round of SQLite, apart since it is slow.
    pub fn sqlite(&mut self, few: &Tables, q: &Query, taken: &mut Taken) {
        black_box(ffi::check(black_box(few)));
        taken.sqlite.push(seconds(|| self.database.search(black_box(q), &mut self.answer)));
    }

    /// The least seconds of a check of the plant whole.
    pub fn checks(&self) -> Checks<f64> {
        let Checks { proved, plain, two_passes } = self.check;
        let [proved, plain, two_passes] = [proved, plain, two_passes].map(|least| least.0 - self.clock);
        Checks { proved, plain, two_passes }
    }

    /// Seconds of one query; where the clock was read around one call, without what that added.
    pub fn times(&self, taken: &Taken) -> Times {
        Times {
            call: taken.call.0 - self.clock,
            plain_call: taken.plain_call.0 - self.clock,
            steps: taken.steps.median(),
            plain_steps: taken.plain_steps.median() - self.clock,
            unshared: taken.unshared.median() - self.clock,
            roaring: taken.roaring.median() - self.clock,
            roaring_in_call: taken.roaring_in_call.median() - self.clock,
            sqlite: taken.sqlite.median() - self.clock,
            plain_again: taken.plain_again.median() - self.clock,
            roaring_again: taken.roaring_again.median() - self.clock,
        }
    }
}

/// The checks answer alike over the tables, and over copies in which one posting, or where one branch ends, was written over: some
/// sound, some refused.
pub fn checks_agree(t: &Tables) {
    let (mut r, mut branches, mut copy, mut seen) = (Random(7), Random(8), t.clone(), [false; 10]);
    for round in 0..80 {
        let k = r.below(t.postings.len() - 1) + 1;
        let after = t.postings[k - 1] + 2;
        copy.postings[k] = [t.postings[k], after, round % 2, 2 * t.size() as u32 + 2][round as usize % 4];
        let plain = plain::check(&copy);
        assert_eq!([plain::check_in_two_passes(&copy), ffi::check(&copy)], [plain; 2]);
        seen[plain as usize] = true;
        copy.postings[k] = t.postings[k];
        let d = branches.below(t.size() - 1);
        copy.last[d] = [0, t.size() as u16, d as u16 + 2, t.last[d]][round as usize % 4];
        let plain = plain::check(&copy);
        assert_eq!([plain::check_in_two_passes(&copy), ffi::check(&copy)], [plain; 2]);
        seen[plain as usize] = true;
        copy.last[d] = t.last[d];
    }
    assert!(seen[0] && seen[2] && seen[3] && seen[8] && seen[9]);
}

/// Seconds of the steps of a proved search: a search less a check. A processor learns a check that is repeated, so a search goes
/// before either, and they change places from round to round.
pub fn proved_steps(t: &Tables, q: &Query, answer: &mut [u16], round: usize) -> f64 {
    let (mut check, mut search) = (0.0, 0.0);
    for half in [round, round + 1] {
        black_box(proved_search(t, black_box(q), answer));
        if half % 2 == 0 {
            check = seconds(|| ffi::check(black_box(t)));
        } else {
            search = seconds(|| proved_search(t, black_box(q), answer));
        }
    }
    search - check
}

/// The proved search and the plain one agree where a budget stops them, from several starts, and where they go on from there:
/// in all five numbers and in every entry of the answer.
fn agree_in_parts(t: &Tables, q: &Query, moves: u32) {
    let n = t.size() as u32;
    for budget in [0, 1, moves / 2, u32::MAX] {
        let mut stopped = 1;
        for start in [1, 2, n / 2, n, n + 1, 0] {
            let q = Query { budget, start: if start == 0 { stopped } else { start }, ..q.clone() };
            let (mut proved, mut plain) = (vec![7; t.size()], vec![7; t.size()]);
            let numbers = plain::search(t, &q, &mut plain);
            assert_eq!(proved_search(t, &q, &mut proved), numbers);
            assert_eq!(proved, plain);
            stopped = if start == 1 { numbers.position } else { stopped };
        }
    }
}
