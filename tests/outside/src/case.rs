//! A case, its two outcomes, and whether they differ.
use crate::ffi::ReadQuery;
use crate::generate::query_text;
use crate::paper::{self, Answer, Index, Levels, Query, Refused, Tables, LIMIT};
use crate::{slow, Subject};

#[derive(Clone, Debug)]
pub enum Case {
    Check(Tables),
    /// Tables with the first index, the second index, query, how its levels are handed over, and the answer list as lent.
    Search(Tables, Index, Query, Handing, Vec<u16>),
    /// A text, and the lengths of the six tables lent.
    Plant(Vec<u8>, [usize; 6]),
    /// Tables, and the buffer as lent.
    Write(Tables, Vec<u8>),
    /// Tables, and the report as lent.
    Repair(Tables, Vec<u32>),
    Tighten(Tables),
    Query(Vec<u8>),
    Respond(Vec<u8>, Vec<u8>),
}

/// How the levels of a query are handed over, where it is not by their own numbers: a number for a range, from 2 up, and the low
/// and high where there is no range, which are not looked at.
pub type Handing = Option<[u32; 3]>;

/// The three numbers that levels are handed over by.
pub fn handed(levels: Levels, handing: Handing) -> [u32; 3] {
    let [kind, low, high] = levels.numbers();
    match (levels, handing) {
        (_, None) => [kind, low, high],
        (Levels::Range(..), Some([range, ..])) => [range, low, high],
        (_, Some([_, low, high])) => [kind, low, high],
    }
}

/// Everything that comes back: numbers and what was lent.
#[derive(Debug, PartialEq)]
pub enum Outcome {
    Number(u32),
    Answer(Answer, Vec<u16>),
    /// The refusal, then line, devices, terms and postings; the tables whole.
    Plant(u32, [usize; 4], Tables),
    /// The refusal, the length of the text, and the buffer whole.
    Written(u32, usize, Vec<u8>),
    /// The refusal, then how many were dropped and how many there are now; the tables and the report whole.
    Repaired(u32, [usize; 2], Tables, Vec<u32>),
    /// The refusal, how many postings there are now, and the tables whole.
    Tightened(u32, usize, Tables),
    Query(ReadQuery),
    /// How many bytes are the response, and the lent array whole.
    Bytes(usize, Vec<u8>),
}

/// What stands in every table before a text is read into it.
pub fn lent(room: [usize; 6]) -> Tables {
    Tables {
        last: vec![0xabcd; room[0]],
        root: vec![0xabcd; room[1]],
        level: vec![0xab; room[2]],
        terms: vec![0xabcd; room[3]],
        starts: vec![0xabcd_abcd; room[4]],
        postings: vec![0xabcd_abcd; room[5]],
    }
}

/// Tables of these lengths: entries past a new end are gone, and new ones are 0.
fn resized(mut t: Tables, room: [usize; 6]) -> Tables {
    t.last.resize(room[0], 0);
    t.root.resize(room[1], 0);
    t.level.resize(room[2], 0);
    t.terms.resize(room[3], 0);
    t.starts.resize(room[4], 0);
    t.postings.resize(room[5], 0);
    t
}

/// Tables with so many postings.
pub fn shortened(t: &Tables, count: usize) -> Tables {
    Tables { postings: t.postings[..count].to_vec(), ..t.clone() }
}

/// Tables with the terms of a sound index that are below the limit, and an index of the others.
pub fn parted(t: &Tables) -> (Tables, Index) {
    let Index { mut terms, mut starts, mut postings } = t.index();
    let below = terms.partition_point(|&term| term < LIMIT);
    let at = starts.get(below).map_or(postings.len(), |&start| start as usize);
    let second = Index {
        terms: terms.split_off(below),
        starts: starts.split_off(below).iter().map(|start| start - at as u32).collect(),
        postings: postings.split_off(at),
    };
    (t.with(&Index { terms, starts, postings }), second)
}

impl Case {
    /// A search whose levels are handed over by their own numbers.
    pub fn search(t: Tables, second: Index, q: Query, answer: Vec<u16>) -> Case {
        Case::Search(t, second, q, None, answer)
    }

    /// What the papers say.
    pub fn expected(&self) -> Outcome {
        match self {
            Case::Check(t) => Outcome::Number(t.check()),
            Case::Search(t, second, q, _, answer) => {
                let mut answer = answer.clone();
                Outcome::Answer(t.search(second, q, &mut answer), answer)
            }
            Case::Plant(text, room) => plant_outcome(paper::read_plant(text, *room), *room),
            Case::Write(t, buffer) => {
                let mut buffer = buffer.clone();
                let (refusal, length) = t.write(&mut buffer);
                Outcome::Written(refusal, length, buffer)
            }
            Case::Repair(t, report) => {
                let (mut t, mut report) = (t.clone(), report.clone());
                let (refusal, numbers) = t.repair(&mut report);
                Outcome::Repaired(refusal, numbers, t, report)
            }
            Case::Tighten(t) => {
                let mut t = t.clone();
                let (refusal, count) = t.tighten();
                Outcome::Tightened(refusal, count, t)
            }
            Case::Query(text) => query_outcome(paper::read_query(text)),
            Case::Respond(plant, query) => printed(paper::respond(plant, query)),
        }
    }

    /// The refusal numbers that an outcome shows.
    pub fn refusal(outcome: &Outcome) -> u32 {
        match outcome {
            Outcome::Number(n) | Outcome::Plant(n, ..) | Outcome::Written(n, ..) => *n,
            Outcome::Repaired(n, ..) | Outcome::Tightened(n, ..) => *n,
            Outcome::Answer(answer, _) => answer.refusal,
            Outcome::Query(read) => read.refusal,
            Outcome::Bytes(length, bytes) => {
                let text = String::from_utf8_lossy(&bytes[..*length]);
                let number = text.strip_prefix("(refused ").and_then(|rest| rest.split([' ', ')']).nth(1)?.parse().ok());
                number.unwrap_or(0)
            }
        }
    }

    /// How the subject's outcome differs from the paper's, if it does.
    pub fn difference(&self, expected: &Outcome, subject: &dyn Subject) -> Option<String> {
        let got = subject.outcome(self);
        if *expected != got {
            return Some(format!("the papers: {}\nthe call:   {}", short(expected), short(&got)));
        }
        let slow = self.against_slow(expected).map(|what| format!("against the slow evaluator: {what}"));
        slow.or_else(|| self.way_back(&got).iter().find_map(|(back, same)| back.changed(same, subject)))
    }

    /// How what comes back differs from the same, if it does.
    fn changed(&self, same: &Outcome, subject: &dyn Subject) -> Option<String> {
        let got = subject.outcome(self);
        (*same != got).then(|| format!("and back: {self}\nthe same: {}\nthe call: {}", short(same), short(&got)))
    }

    /// What was written is read, and what was read is written, with just enough room and with more: the same comes back. What was
    /// repaired is accepted, and repairing it again, with no room in the report, changes nothing. What was tightened is accepted,
    /// tightening it again changes nothing, and complete listings stay. What was searched or answered is so by other
    /// choices of levels.
    fn way_back(&self, outcome: &Outcome) -> Vec<(Case, Outcome)> {
        match (self, outcome) {
            (Case::Write(t, _), Outcome::Written(0, length, bytes)) => {
                let read = |spare: usize| {
                    let room = t.lengths().map(|n| n + spare);
                    (Case::Plant(bytes[..*length].to_vec(), room), plant_outcome(Ok(t.clone()), room))
                };
                [0, 3].map(read).into()
            }
            (Case::Plant(text, _), Outcome::Plant(0, [_, n, terms, postings], t)) => {
                let t = resized(t.clone(), [*n, *n, *n, *terms, *terms, *postings]);
                let written = |spare: usize| {
                    let same = [text.as_slice(), &vec![b'.'; spare]].concat();
                    (Case::Write(t.clone(), vec![b'.'; same.len()]), Outcome::Written(0, text.len(), same))
                };
                [0, 3].map(written).into()
            }
            (Case::Repair(..), Outcome::Repaired(0, [_, count], t, _)) => {
                let t = shortened(t, *count);
                let same = Outcome::Repaired(0, [0, *count], t.clone(), vec![]);
                vec![(Case::Check(t.clone()), Outcome::Number(0)), (Case::Repair(t, vec![]), same)]
            }
            (Case::Tighten(before), Outcome::Tightened(0, count, t)) => {
                let t = shortened(t, *count);
                let again = Outcome::Tightened(0, *count, t.clone());
                let mut back = vec![(Case::Check(t.clone()), Outcome::Number(0)), (Case::Tighten(t.clone()), again)];
                back.extend(listings(before, &t));
                back
            }
            (Case::Search(..), Outcome::Answer(got @ Answer { refusal: 0, .. }, _)) => self.searched_by_levels(got),
            (Case::Respond(plant, query), Outcome::Bytes(length, out)) => answered_by_levels(plant, query, &out[..*length]),
            _ => vec![],
        }
    }

    /// An accepted search by other choices of levels: position, passed and moves stay.
    fn searched_by_levels(&self, got: &Answer) -> Vec<(Case, Outcome)> {
        let Case::Search(t, second, q, handing, lent) = self else { return vec![] };
        let searched = |(levels, mut listing): (Levels, Vec<u16>)| {
            let answer = Answer { count: listing.len() as u32, ..*got };
            listing.extend(&lent[listing.len()..]);
            let q = Query { levels, ..q.clone() };
            (Case::Search(t.clone(), second.clone(), q, *handing, lent.clone()), Outcome::Answer(answer, listing))
        };
        listed_by_levels(t, second, q, *handing).into_iter().map(searched).collect()
    }

    /// Small cases are held to the slow evaluator too.
    pub fn against_slow(&self, outcome: &Outcome) -> Option<String> {
        match (self, outcome) {
            (Case::Check(t), Outcome::Number(n)) if small(t) => {
                let slow = slow::check(t);
                (slow != *n).then(|| format!("check gives {slow}"))
            }
            (Case::Search(t, second, q, _, lent), Outcome::Answer(got, answer)) => {
                search_against_slow(t, second, q, lent, *got, answer)
            }
            (Case::Write(t, _), Outcome::Written(0 | 36 | 40, ..)) if t.size() <= 130 => {
                let deep = slow::too_deep(t);
                (deep != (Case::refusal(outcome) == 36)).then(|| format!("more than 32 tiers: {deep}"))
            }
            (Case::Repair(t, lent), Outcome::Repaired(..)) if small(t) => repair_against_slow(t, lent, outcome),
            (Case::Tighten(t), Outcome::Tightened(refusal, count, after)) => tighten_against_slow(t, *refusal, *count, after),
            (Case::Query(text), Outcome::Query(read)) => levels_against_slow(text, read),
            _ => None,
        }
    }
}

/// What an accepted query lists by two other choices of levels, of any level, true levels only and a range: of the devices for any
/// level those whose codes are asked for.
fn listed_by_levels(t: &Tables, second: &Index, q: &Query, handing: Handing) -> Vec<(Levels, Vec<u16>)> {
    let mut all = vec![0; t.size()];
    let any = t.search(second, &Query { levels: Levels::Any, ..q.clone() }, &mut all);
    all.truncate(any.count as usize);
    let low = handing.map_or(99, |[_, low, _]| low % 254) + 1;
    let range = if let Levels::Range(..) = q.levels { q.levels } else { Levels::Range(low, 254) };
    let listed = |levels: Levels| {
        let codes = slow::codes(levels);
        let asked_for = |d: &&u16| codes.contains(&(t.level[**d as usize - 1] as u32));
        (levels, all.iter().filter(asked_for).copied().collect())
    };
    [Levels::Any, Levels::TrueOnly, range].into_iter().filter(|levels| *levels != q.levels).map(listed).collect()
}

/// An accepted ask by other choices of levels: the lines from the place on stay.
fn answered_by_levels(plant: &[u8], query: &[u8], out: &[u8]) -> Vec<(Case, Outcome)> {
    let (Ok(t), Ok(q)) = (paper::read_plant(plant, paper::ROOM), paper::read_query(query)) else { return vec![] };
    let Some(place) = out.windows(7).position(|w| w == b"(place ") else { return vec![] };
    let answered = |(levels, listing): (Levels, Vec<u16>)| {
        let devices: String = listing.iter().map(|device| format!("(device {device})\n")).collect();
        let text = [b"(answer\n", devices.as_bytes(), &out[place..]].concat();
        (Case::Respond(plant.to_vec(), query_text(&Query { levels, ..q.clone() })), printed(text))
    };
    listed_by_levels(&t, &Index::default(), &q, None).into_iter().map(answered).collect()
}

/// The refusal, for small tables; then what an accepted search breaks, or what a refused one changed.
fn search_against_slow(t: &Tables, second: &Index, q: &Query, lent: &[u16], got: Answer, answer: &[u16]) -> Option<String> {
    if small(t) && second.postings.len() <= 100 {
        let slow = slow::search_refusal(t, second, q, lent.len());
        if slow != got.refusal {
            return Some(format!("search gives {slow}"));
        }
    }
    if got.refusal != 0 {
        let untouched = answer == lent && got == Answer { refusal: got.refusal, ..Answer::default() };
        return (!untouched).then(|| "a refused search changed something".into());
    }
    if t.size() > 130 {
        return None;
    }
    let unlimited = t.search(second, &Query { budget: u32::MAX, ..q.clone() }, &mut lent.to_vec());
    if unlimited.refusal != 0 {
        return Some("refused with the largest budget".into());
    }
    let (listing, kept) = answer.split_at(got.count as usize);
    if kept != &lent[listing.len()..] {
        return Some("entries beyond the listing changed".into());
    }
    slow::broken(&slow::joined(t, second), q, got, listing, unlimited).map(str::to_string)
}

/// The refusal; then what an accepted repair leaves, or what a refused one changed.
fn repair_against_slow(t: &Tables, lent: &[u32], outcome: &Outcome) -> Option<String> {
    let Outcome::Repaired(refusal, [dropped, count], after, report) = outcome else { return None };
    let slow = slow::repair_refusal(t, lent.len());
    if slow != *refusal {
        return Some(format!("repair gives {slow}"));
    }
    if slow != 0 {
        let untouched = after == t && report == lent && [dropped, count] == [&0, &0];
        return (!untouched).then(|| "a refused repair changed something".into());
    }
    let told = 3 * dropped;
    if report[told..] != lent[told..] {
        return Some("entries beyond the dropped ones changed".into());
    }
    if dropped + count != t.postings.len() || after.postings[*count..].iter().any(|&entry| entry != 0) {
        return Some("the freed entries are not as many as were dropped, or one is not 0".into());
    }
    slow::repair_broken(t, &shortened(after, *count), &report[..told]).map(str::to_string)
}

/// The refusal; then what an accepted tightening leaves, or what a refused one changed. Of large tables only the carriers.
fn tighten_against_slow(t: &Tables, refusal: u32, count: usize, after: &Tables) -> Option<String> {
    if !small(t) {
        let same = |after: Tables| after.check() == 0 && slow::same_carriers(t, &after);
        let kept = refusal != 0 || same(shortened(after, count));
        return (!kept).then(|| "the outcome is refused, or a device carries other terms than before".into());
    }
    let slow = slow::check(t);
    if slow != refusal {
        return Some(format!("tightening gives {slow}"));
    }
    if slow != 0 {
        return (after != t || count != 0).then(|| "a refused tightening changed something".into());
    }
    if after.lengths() != t.lengths() || count > t.postings.len() || after.postings[count..].iter().any(|&entry| entry != 0) {
        return Some("there are more postings than entries, or a freed entry is not 0".into());
    }
    slow::tighten_broken(t, &shortened(after, count)).map(str::to_string)
}

/// What an ask text says of levels; after a refusal, true levels only.
fn levels_against_slow(text: &[u8], read: &ReadQuery) -> Option<String> {
    let slow = if read.refusal == 0 { slow::level_line(text) } else { Some(slow::NO_LEVEL_LINE) };
    let same = slow.is_some_and(|levels| levels == read.numbers[3..6]);
    (!same).then(|| format!("levels are {slow:?}"))
}

/// Whether tables are few enough for the slow evaluator.
fn small(t: &Tables) -> bool {
    t.size() <= 40 && t.postings.len() <= 100
}

/// Complete searches over a small index and over what it was tightened to: the same devices are listed, and the moves are those of
/// each index.
fn listings(before: &Tables, after: &Tables) -> Vec<(Case, Outcome)> {
    if !small(before) || before == after {
        return vec![];
    }
    let mut all = vec![];
    for query in complete_queries(before) {
        let of_index = |t: &Tables| {
            let (first, second) = parted(t);
            Case::search(first, second, query.clone(), vec![0xabcd; t.size()])
        };
        let (old, new) = (of_index(before), of_index(after));
        let (listed, of_new) = (old.expected(), new.expected());
        if let (Outcome::Answer(answer, listing), Outcome::Answer(Answer { passed, moves, .. }, _)) = (&listed, of_new) {
            all.push((new, Outcome::Answer(Answer { passed, moves, ..*answer }, listing.clone())));
        }
        all.push((old, listed));
    }
    all
}

/// Three queries of the largest budget; which terms of the index they name follows from the number of postings.
fn complete_queries(t: &Tables) -> [Query; 3] {
    let term = |i: usize| t.terms[(t.postings.len() + i) % t.terms.len()] as u32;
    let start = (t.postings.len() % t.size()) as u32 + 1;
    [
        Query { required: vec![term(0)], levels: Levels::Any, ..Query::empty() },
        Query { forbidden: vec![term(1)], levels: Levels::Range(1, 254), start, ..Query::empty() },
        Query { required: vec![term(1)], forbidden: vec![term(2)], ..Query::empty() },
    ]
}

pub fn plant_outcome(read: Result<Tables, Refused>, room: [usize; 6]) -> Outcome {
    let (refusal, numbers, t) = match read {
        Ok(t) => (0, [0, t.last.len(), t.terms.len(), t.postings.len()], t),
        Err((number, line)) => (number, [line as usize, 0, 0, 0], Tables::default()),
    };
    Outcome::Plant(refusal, numbers, resized(t, room))
}

/// These bytes at the front of what is lent to a response.
pub fn printed(mut text: Vec<u8>) -> Outcome {
    let length = text.len();
    text.resize(16384, 0xee);
    Outcome::Bytes(length, text)
}

/// A query in the shape in which it is handed out: unused places hold 0, and a refusal comes with an empty query.
pub fn query_outcome(read: Result<Query, Refused>) -> Outcome {
    let (refusal, line, query) = match read {
        Ok(query) => (0, 0, query),
        Err((number, line)) => (number, line, Query::empty()),
    };
    let places = |terms: &[u32]| std::array::from_fn(|i| terms.get(i).copied().unwrap_or(0));
    let [levels, low, high] = query.levels.numbers();
    Outcome::Query(ReadQuery {
        refusal,
        required: places(&query.required),
        forbidden: places(&query.forbidden),
        numbers: [
            line as usize,
            query.required.len(),
            query.forbidden.len(),
            levels as usize,
            low as usize,
            high as usize,
            query.start as usize,
            query.budget as usize,
        ],
    })
}

/// An outcome, cut where it is long; bytes as text.
pub fn short(outcome: &Outcome) -> String {
    let mut text = match outcome {
        Outcome::Bytes(length, bytes) => {
            format!("{length} bytes: {:?}", String::from_utf8_lossy(&bytes[..*length.min(&bytes.len())]))
        }
        Outcome::Written(refusal, length, bytes) => {
            format!("refusal {refusal}, {length} bytes, the buffer {:?}", String::from_utf8_lossy(bytes))
        }
        other => format!("{other:?}"),
    };
    if text.len() > 600 {
        text = text.chars().take(600).chain(" ..".chars()).collect();
    }
    text
}

impl std::fmt::Display for Case {
    fn fmt(&self, f: &mut std::fmt::Formatter) -> std::fmt::Result {
        let text = |bytes: &[u8]| String::from_utf8_lossy(bytes).into_owned();
        match self {
            Case::Check(t) => write!(f, "check of {t:?}"),
            Case::Search(t, second, q, handing, answer) => {
                let [levels, low, high] = handed(q.levels, *handing);
                write!(f, "search in {t:?}\nand {second:?}\n{q:?}\nlevels {levels}, {low}, {high}\nanswer list {answer:?}")
            }
            Case::Plant(bytes, room) => write!(f, "plant text {:?}\ntables of {room:?}", text(bytes)),
            Case::Write(t, buffer) => write!(f, "writing of {t:?}\ninto {:?}", text(buffer)),
            Case::Repair(t, report) => write!(f, "repair of {t:?}\nreport {report:?}"),
            Case::Tighten(t) => write!(f, "tightening of {t:?}"),
            Case::Query(bytes) => write!(f, "query text {:?}", text(bytes)),
            Case::Respond(plant, query) => write!(f, "respond to {:?}\nand {:?}", text(plant), text(query)),
        }
    }
}
