//! Holds the proved functions, called from outside, to the papers in plain Rust, over many cases.
//!
//! `outside [CASES] [SEED]`; `outside wrong K [CASES]` puts a known mistake in the place of the archive, to see that it is found.
mod bracket_cases;
mod case;
mod ffi;
mod generate;
mod level_cases;
mod level_mistakes;
mod paper;
mod random;
mod repair;
mod repair_cases;
#[cfg(test)]
mod rows;
mod search_cases;
mod search_mistakes;
mod shrink;
mod slow;
mod subjects;
mod tighten;
mod tighten_cases;

use case::{Case, Outcome};
use paper::{Answer, Levels, Query};
use random::Random;
use std::time::Instant;

/// What is held to the paper.
pub trait Subject {
    fn outcome(&self, case: &Case) -> Outcome;
}

struct Tally {
    cases: usize,
    differ: usize,
    refusals: [usize; 60],
    /// accepted searches, complete ones and those that stop: how many, and how many of them pass postings over
    searches: [[usize; 2]; 2],
    /// accepted searches: how many have an empty second index, and how many name a term that it has
    second: [usize; 2],
    /// accepted searches, for any level, for true levels only and for a range: how many, and how many of them leave devices out
    levels: [[usize; 2]; 3],
    /// accepted repairs: how many, and how many of them drop postings
    repairs: [usize; 2],
    /// accepted tightenings: how many, and how many of them get shorter
    tightenings: [usize; 2],
}

impl Tally {
    fn run(&mut self, case: Case, subject: &dyn Subject) {
        self.cases += 1;
        let expected = case.expected();
        self.refusals[Case::refusal(&expected) as usize] += 1;
        self.count(&case, &expected);
        if case.difference(&expected, subject).is_none() {
            return;
        }
        self.differ += 1;
        if self.differ == 1 {
            let smallest = shrink::shrink(case, subject);
            let what = smallest.difference(&smallest.expected(), subject).unwrap();
            println!("case {} differs; the smallest case found:\n{smallest}\n{what}\n", self.cases);
        }
    }

    fn count(&mut self, case: &Case, expected: &Outcome) {
        if let (Case::Search(t, second, q, ..), Outcome::Answer(answer @ Answer { refusal: 0, .. }, _)) = (case, expected) {
            let [all, passing] = &mut self.searches[(answer.position as usize <= t.size()) as usize];
            *all += 1;
            *passing += (answer.passed > 0) as usize;
            self.second[0] += second.terms.is_empty() as usize;
            self.second[1] += q.required.iter().chain(&q.forbidden).any(|&term| second.terms.contains(&(term as u16))) as usize;
            let any = t.search(second, &Query { levels: Levels::Any, ..q.clone() }, &mut vec![0; t.size()]);
            let [all, leaving] = &mut self.levels[q.levels.numbers()[0] as usize];
            *all += 1;
            *leaving += (answer.count < any.count) as usize;
        }
        if let Outcome::Repaired(0, [dropped, _], ..) = expected {
            self.repairs[0] += 1;
            self.repairs[1] += (*dropped > 0) as usize;
        }
        if let Outcome::Tightened(0, count, t) = expected {
            self.tightenings[0] += 1;
            self.tightenings[1] += (*count < t.postings.len()) as usize;
        }
    }

    /// Every row of document 01's table is reached, and 15, 36, 40, 41, 44 and 55 to 59 of document 02, which takes 26 out.
    fn report(&self, seconds: f64) -> bool {
        let mut reached = true;
        for (number, count) in self.refusals.iter().enumerate() {
            let row = matches!(number, 1..=15 | 20..=25 | 27..=36 | 40 | 41 | 44 | 55..=59);
            reached &= !row || *count > 0;
            if row || number == 0 || *count > 0 {
                println!("{} {number:2}: {count}", if number == 0 { "accepted" } else { " refusal" });
            }
        }
        for (how, [all, passing]) in ["complete", "stopped"].iter().zip(self.searches) {
            println!("{how} searches: {all}, {passing} of them pass postings over");
        }
        let [empty, named] = self.second;
        println!("accepted searches with an empty second index: {empty}, with a term that the second has: {named}");
        for (levels, [all, leaving]) in ["any level", "true levels only", "a range"].iter().zip(self.levels) {
            println!("accepted searches for {levels}: {all}, {leaving} of them leave devices out");
        }
        println!("accepted repairs: {}, {} of them drop postings", self.repairs[0], self.repairs[1]);
        println!("accepted tightenings: {}, {} of them get shorter", self.tightenings[0], self.tightenings[1]);
        println!("{} cases, {} differ, {seconds:.1} seconds", self.cases, self.differ);
        if !reached {
            println!("a refusal was not reached");
        }
        reached && self.differ == 0
    }
}

fn main() {
    let words: Vec<String> = std::env::args().skip(1).collect();
    let number = |i: usize, otherwise: u64| words.get(i).and_then(|w| w.parse().ok()).unwrap_or(otherwise);
    let wrong = words.first().is_some_and(|w| w == "wrong");
    let subject: &dyn Subject = if wrong { &subjects::Wrong(number(1, 1)) } else { &subjects::Archive };
    let cases = if wrong { number(2, 280_000) } else { number(0, 1_400_000) };
    let mut random = Random(if wrong { 1 } else { number(1, 20_260_101) });
    let mut tally = Tally {
        cases: 0,
        differ: 0,
        refusals: [0; 60],
        searches: [[0; 2]; 2],
        second: [0; 2],
        levels: [[0; 2]; 3],
        repairs: [0; 2],
        tightenings: [0; 2],
    };
    let began = Instant::now();
    for case in generate::systematic() {
        tally.run(case, subject);
    }
    while (tally.cases as u64) < cases {
        tally.run(generate::case(&mut random), subject);
    }
    let good = tally.report(began.elapsed().as_secs_f64());
    std::process::exit(if good { 0 } else { 1 });
}
