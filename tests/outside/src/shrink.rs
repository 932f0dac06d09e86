//! The smallest case found that still differs: parts are left out and numbers made smaller as long as it does.
use crate::case::{Case, Handing};
use crate::paper::{self, Index, Levels, Query, Tables};
use crate::repair_cases::needed;
use crate::Subject;

pub fn shrink(mut case: Case, subject: &dyn Subject) -> Case {
    let mut left = 20_000;
    loop {
        let mut tried = 0;
        let mut smaller = candidates(&case).take(left).inspect(|_| tried += 1);
        let found = smaller.find(|smaller| smaller.difference(&smaller.expected(), subject).is_some());
        drop(smaller);
        left -= tried;
        match found {
            Some(smaller) => case = smaller,
            None => return case,
        }
    }
}

/// A list with a part left out: large parts first.
fn without_parts<T: Clone>(v: &[T]) -> impl Iterator<Item = Vec<T>> + '_ {
    let halves = std::iter::successors(Some(v.len()), |part| Some(part / 2)).take_while(|&part| part > 0);
    let without = |from: usize, to: usize| [&v[..from], &v[to.min(v.len())..]].concat();
    halves.flat_map(move |part| (0..v.len()).step_by(part).take(64).map(move |from| without(from, from + part)))
}

/// Smaller cases, made one after the other, since there are many and each may be large.
fn candidates(case: &Case) -> Box<dyn Iterator<Item = Case> + '_> {
    match case {
        Case::Check(t) => Box::new(tables(t).map(Case::Check)),
        Case::Search(t, second, q, handing, answer) => Box::new(searches(t, second, q, *handing, answer)),
        Case::Plant(text, room) => {
            let read = paper::read_plant(text, *room).into_iter();
            let written = read.flat_map(|t| [0, 3].map(|spare| Case::Write(t.clone(), vec![b'.'; text.len() + spare])));
            Box::new(written.chain(texts(text).map(|text| Case::Plant(text, *room))))
        }
        Case::Write(t, buffer) => {
            let length = text_length(t);
            let of_tables = tables(t).flat_map(move |smaller| {
                let shorter = cut(buffer, length.saturating_sub(text_length(&smaller)));
                [Case::Write(smaller.clone(), shorter), Case::Write(smaller, buffer.clone())]
            });
            Box::new(of_tables.chain(buffers(buffer, b'.').into_iter().map(|b| Case::Write(t.clone(), b))))
        }
        Case::Repair(t, report) => {
            let length = needed(t);
            let of_tables = tables(t).flat_map(move |smaller| {
                let shorter = cut(report, length.saturating_sub(needed(&smaller)));
                [Case::Repair(smaller.clone(), shorter), Case::Repair(smaller, report.clone())]
            });
            Box::new(of_tables.chain(buffers(report, 7).into_iter().map(|r| Case::Repair(t.clone(), r))))
        }
        Case::Tighten(t) => Box::new(tables(t).map(Case::Tighten)),
        Case::Query(text) => Box::new(texts(text).map(Case::Query)),
        Case::Respond(plant, query) => {
            let shorter_plants = texts(plant).map(|p| Case::Respond(p, query.clone()));
            Box::new(shorter_plants.chain(texts(query).map(|q| Case::Respond(plant.clone(), q))))
        }
    }
}

/// A search in smaller tables, for a smaller query, by smaller numbers, or with less room.
fn searches<'a>(
    t: &'a Tables, second: &'a Index, q: &'a Query, handing: Handing, answer: &'a [u16],
) -> impl Iterator<Item = Case> + 'a {
    let with = move |q: Query, handing: Handing, answer: Vec<u16>| Case::Search(t.clone(), second.clone(), q, handing, answer);
    let of_both = both(t, second).flat_map(move |(smaller, second)| {
        let shorter = cut(answer, t.size() - smaller.size());
        [shorter, answer.to_vec()].map(|answer| Case::Search(smaller.clone(), second.clone(), q.clone(), handing, answer))
    });
    let of_queries = queries(q).into_iter().map(move |q| with(q, handing, answer.to_vec()));
    let of_handings = handings(handing).into_iter().map(move |handing| with(q.clone(), handing, answer.to_vec()));
    let of_answers = without_parts(answer).map(move |answer| with(q.clone(), handing, answer));
    of_both.chain(of_queries).chain(of_handings).chain(of_answers)
}

/// A list without so many entries at its end.
fn cut<T: Clone>(v: &[T], count: usize) -> Vec<T> {
    v[..v.len().saturating_sub(count)].to_vec()
}

/// The length of the text of sound tables, else 0.
fn text_length(t: &Tables) -> usize {
    if t.check() == 0 {
        t.text().len()
    } else {
        0
    }
}

/// A buffer of half the length, one entry shorter, and with the same entry everywhere.
fn buffers<T: Copy + PartialEq>(buffer: &[T], filler: T) -> Vec<Vec<T>> {
    let shorter = [buffer.len() / 2, buffer.len().saturating_sub(1)].map(|length| buffer[..length].to_vec());
    let all = shorter.into_iter().chain([vec![filler; buffer.len()]]);
    all.filter(|b| b != buffer).collect()
}

/// A text with whole lines left out, then bytes.
fn texts(text: &[u8]) -> impl Iterator<Item = Vec<u8>> + '_ {
    let lines: Vec<&[u8]> = text.split_inclusive(|&b| b == b'\n').collect();
    let of_lines: Vec<Vec<u8>> = without_parts(&lines).map(|l| l.concat()).collect();
    of_lines.into_iter().chain(without_parts(text))
}

fn queries(q: &Query) -> Vec<Query> {
    let mut all = vec![];
    all.extend(without_parts(&q.required).map(|required| Query { required, ..q.clone() }));
    all.extend(without_parts(&q.forbidden).map(|forbidden| Query { forbidden, ..q.clone() }));
    if let Levels::Range(..) = q.levels {
        all.extend([Levels::TrueOnly, Levels::Any].map(|levels| Query { levels, ..q.clone() }));
    }
    if q.start > 1 {
        all.push(Query { start: q.start / 2, ..q.clone() });
        all.push(Query { start: q.start - 1, ..q.clone() });
    }
    if q.budget > 0 {
        all.push(Query { budget: q.budget / 2, ..q.clone() });
        all.push(Query { budget: q.budget - 1, ..q.clone() });
    }
    all
}

/// By their own numbers, or by smaller ones.
fn handings(handing: Handing) -> Vec<Handing> {
    let Some([range, low, high]) = handing else { return vec![] };
    let smaller = [[(range / 2).max(2), low, high], [range, low / 2, high], [range, low, high / 2]];
    let differs = |smaller: &Handing| *smaller != handing;
    [None].into_iter().chain(smaller.map(Some)).filter(differs).collect()
}

/// Tables without a term, without a device (what follows is numbered anew), or with one table shorter.
fn tables(t: &Tables) -> impl Iterator<Item = Tables> + '_ {
    let terms = places(&t.terms, &t.starts).filter_map(|k| Some(t.with(&without_term(t.index(), k)?)));
    let devices = stretches(t.size()).map(|(from, to)| without_devices(t, from, to));
    let levels = without_parts(&t.level).map(|level| Tables { level, ..t.clone() });
    let postings = without_parts(&t.postings).map(|postings| Tables { postings, ..t.clone() });
    terms.chain(devices).chain(levels).chain(postings)
}

/// Tables and the second index: without the second, without devices in both, or with one of them smaller.
fn both<'a>(t: &'a Tables, second: &'a Index) -> impl Iterator<Item = (Tables, Index)> + 'a {
    let without = (*second != Index::default()).then(|| (t.clone(), Index::default()));
    let devices =
        stretches(t.size()).map(|(from, to)| (without_devices(t, from, to), without_devices(&t.with(second), from, to).index()));
    let terms = places(&second.terms, &second.starts).filter_map(|k| without_term(second.clone(), k));
    let postings = without_parts(&second.postings).map(|postings| Index { postings, ..second.clone() });
    let of_first = tables(t).map(|smaller| (smaller, second.clone()));
    let of_second = terms.chain(postings).map(|smaller| (t.clone(), smaller));
    without.into_iter().chain(devices).chain(of_first).chain(of_second)
}

/// Places of terms to leave out, where each has a start.
fn places(terms: &[u16], starts: &[u32]) -> impl Iterator<Item = usize> {
    let count = if starts.len() == terms.len() { terms.len() } else { 0 };
    (0..count).step_by(count / 64 + 1)
}

/// Stretches of devices to leave out: long ones first.
fn stretches(n: usize) -> impl Iterator<Item = (usize, usize)> {
    [n / 2, n / 8, 1].into_iter().filter(|&part| part > 0).flat_map(move |part| {
        let tops = (1..=n).step_by(part.max(n / 64 + 1));
        tops.map(move |d| (d, (d + part - 1).min(n)))
    })
}

fn without_term(mut index: Index, k: usize) -> Option<Index> {
    let start = index.starts[k] as usize;
    let end = index.starts.get(k + 1).map_or(index.postings.len(), |&s| s as usize);
    if start > end || end > index.postings.len() {
        return None;
    }
    index.terms.remove(k);
    index.starts.remove(k);
    index.postings.drain(start..end);
    for s in &mut index.starts[k..] {
        *s = s.saturating_sub((end - start) as u32);
    }
    Some(index)
}

fn without_devices(t: &Tables, from: usize, to: usize) -> Tables {
    let gone = to - from + 1;
    let moved = |d: usize| {
        if d < from {
            d
        } else if d <= to {
            from - 1
        } else {
            d - gone
        }
    };
    let keep = |i: usize| i + 1 < from || i + 1 > to;
    let mut smaller = t.clone();
    let renumber = |table: &[u16]| -> Vec<u16> {
        table.iter().enumerate().filter(|(i, _)| keep(*i)).map(|(_, &d)| moved(d as usize) as u16).collect()
    };
    smaller.last = renumber(&t.last);
    smaller.root = renumber(&t.root).into_iter().map(|r| r.max(1)).collect();
    smaller.level = t.level.iter().enumerate().filter(|(i, _)| keep(*i)).map(|(_, &l)| l).collect();
    smaller.postings.clear();
    for s in &mut smaller.starts {
        let kept = |q: &&u32| !(from..=to).contains(&((**q / 2) as usize));
        *s = t.postings.iter().take(*s as usize).filter(kept).count() as u32;
    }
    for &q in &t.postings {
        let d = (q / 2) as usize;
        if !(from..=to).contains(&d) {
            smaller.postings.push(2 * moved(d) as u32 + q % 2);
        }
    }
    smaller
}
