//! What is held to the paper: the archive, or the paper with a known mistake in it.
use crate::bracket_cases;
use crate::case::{handed, lent, printed, Case, Outcome};
use crate::level_mistakes;
use crate::paper::{device_of, Answer, Levels, Move, Query, Tables};
use crate::repair::chosen;
use crate::search_mistakes::{misresponded, missearched};
use crate::{ffi, Subject};

pub struct Archive;

impl Subject for Archive {
    fn outcome(&self, case: &Case) -> Outcome {
        match case {
            Case::Check(t) => Outcome::Number(ffi::check(t)),
            Case::Search(t, second, q, handing, answer) => {
                let mut answer = answer.clone();
                let got = match handing {
                    None => ffi::search(t, second, q, &mut answer),
                    Some(_) => ffi::search_by(t, second, q, handed(q.levels, *handing), &mut answer),
                };
                Outcome::Answer(got, answer)
            }
            Case::Plant(text, room) => {
                let mut t = lent(*room);
                let (refusal, numbers) = ffi::read_plant(text, &mut t);
                Outcome::Plant(refusal, numbers, t)
            }
            Case::Write(t, buffer) => {
                let mut buffer = buffer.clone();
                let (refusal, length) = ffi::write_plant(t, &mut buffer);
                Outcome::Written(refusal, length, buffer)
            }
            Case::Repair(t, report) => {
                let (mut t, mut report) = (t.clone(), report.clone());
                let (refusal, numbers) = ffi::repair(&mut t, &mut report);
                Outcome::Repaired(refusal, numbers, t, report)
            }
            Case::Tighten(t) => {
                let mut t = t.clone();
                let (refusal, count) = ffi::tighten(&mut t);
                Outcome::Tightened(refusal, count, t)
            }
            Case::Query(text) => Outcome::Query(ffi::read_query(text)),
            Case::Respond(plant, query) => {
                let (length, bytes) = ffi::respond(plant, query);
                Outcome::Bytes(length, bytes)
            }
        }
    }
}

/// The papers with one of the mistakes that document 01 warns of, or a like one.
pub struct Wrong(pub u64);

impl Subject for Wrong {
    fn outcome(&self, case: &Case) -> Outcome {
        if self.0 >= bracket_cases::FIRST {
            return bracket_cases::outcome(self.0, case);
        }
        if self.0 >= level_mistakes::FIRST {
            return level_mistakes::outcome(self.0, case);
        }
        let mut case = case.clone();
        match (self.0, &mut case) {
            // 255 satisfies a window that reaches 254
            (1, Case::Search(t, _, q, ..)) if matches!(q.levels, Levels::Range(_, 254)) => {
                t.level.iter_mut().filter(|l| **l == 255).for_each(|l| *l = 254);
            }
            // 0 satisfies a window from 1
            (19, Case::Search(t, _, q, ..)) if matches!(q.levels, Levels::Range(1, _)) => {
                t.level.iter_mut().filter(|l| **l == 0).for_each(|l| *l = 1);
            }
            // a low of 0 is taken
            (20, Case::Search(_, _, Query { levels: Levels::Range(low @ 0, _), .. }, ..)) => *low = 1,
            // the lowest true level is refused
            (21, Case::Search(_, _, Query { levels: Levels::Range(low @ 1, _), .. }, ..)) => *low = 0,
            // a device line with level 0 is refused
            (22, Case::Plant(text, _)) => {
                if let Some(at) = text.windows(7).position(|w| w == b"(dev 0\n") {
                    text.splice(at + 5..at + 6, *b"256");
                }
            }
            // an unknown required term is no condition
            (2, Case::Search(t, second, q, ..)) => {
                let known = |term: u32| [&t.terms, &second.terms].iter().any(|terms| terms.contains(&(term as u16)));
                q.required.retain(|&term| !(1..=65_535).contains(&term) || known(term));
            }
            // a redundant posting passes where it is not right after the shared one
            (3, Case::Check(t)) if t.check() == 9 && t.postings.len() > 4 => return Outcome::Number(0),
            // the last line of a text needs no LF
            (4, Case::Query(text)) if text.ends_with(b")") => text.push(b'\n'),
            _ => (),
        }
        match (self.0, &case, case.expected()) {
            // a move counts each posting passed
            (5, _, Outcome::Answer(answer, listing)) => {
                Outcome::Answer(Answer { moves: answer.moves + answer.passed, ..answer }, listing)
            }
            // a device closes after the next one opens
            (6, _, Outcome::Written(0, length, mut bytes)) => {
                close_late(&mut bytes[..length]);
                Outcome::Written(0, length, bytes)
            }
            // a posting for the whole branch is written as own
            (7, _, Outcome::Written(0, length, mut bytes)) => {
                if let Some(at) = bytes[..length].windows(4).position(|w| w == b"(all") {
                    bytes[at..at + 4].copy_from_slice(b"(own");
                }
                Outcome::Written(0, length, bytes)
            }
            // the first byte is written before the text is found too long
            (8, _, Outcome::Written(40, length, mut bytes)) => {
                bytes.iter_mut().take(1).for_each(|b| *b = b'(');
                Outcome::Written(40, length, bytes)
            }
            // a 0 ends the text, where there is room for it
            (9, _, Outcome::Written(0, length, mut bytes)) => {
                bytes.iter_mut().skip(length).take(1).for_each(|b| *b = 0);
                Outcome::Written(0, length, bytes)
            }
            // more than 32 tiers are written
            (10, Case::Write(t, _), Outcome::Written(36, _, bytes)) => write(t, bytes),
            // a text above 65,536 bytes is written
            (11, Case::Write(t, _), Outcome::Written(40, _, bytes)) => write(t, bytes),
            // 40 comes before 36
            (12, Case::Write(t, _), Outcome::Written(36, length, bytes)) if t.text().len() > bytes.len() => {
                Outcome::Written(40, length, bytes)
            }
            // the landing counts as passed
            (13, _, outcome) => passing(&case, outcome, |made| made.iter().map(|m| m.to - m.from).sum()),
            // a cursor that stays where it is for a device that is listed counts as passing one
            (14, Case::Search(_, _, q, ..), Outcome::Answer(answer, listing)) => {
                let stays = answer.count * (q.required.len() + q.forbidden.len()) as u32;
                Outcome::Answer(Answer { passed: answer.passed + stays, ..answer }, listing)
            }
            // where a run stops, what it passed is lost
            (15, Case::Search(t, ..), Outcome::Answer(answer, listing)) if answer.position as usize <= t.size() => {
                Outcome::Answer(Answer { passed: 0, ..answer }, listing)
            }
            // what the last move passes is left out
            (16, _, outcome) => passing(&case, outcome, |made| made.iter().rev().skip(1).map(Move::passed).sum()),
            // counting begins at the posting after the one that is left
            (17, _, outcome) => passing(&case, outcome, |made| made.iter().map(|m| m.passed().saturating_sub(1)).sum()),
            // passed is printed after the moves
            (18, _, Outcome::Bytes(length, mut bytes)) => {
                passed_late(&mut bytes[..length]);
                Outcome::Bytes(length, bytes)
            }
            (23..=39, Case::Repair(t, report), Outcome::Repaired(refusal, numbers, after, told)) => {
                let (refusal, numbers, after, told) = misrepaired(self.0, t, report, (refusal, numbers, after, told));
                Outcome::Repaired(refusal, numbers, after, told)
            }
            (40..=70, Case::Tighten(t), Outcome::Tightened(refusal, count, after)) => {
                let (refusal, count, after) = mistightened(self.0, t, (refusal, count, after));
                Outcome::Tightened(refusal, count, after)
            }
            (71..=99, Case::Search(t, second, q, _, lent), Outcome::Answer(answer, listing)) => {
                let (answer, listing) = missearched(self.0, (t, second, q, lent), (answer, listing));
                Outcome::Answer(answer, listing)
            }
            (100..=104, Case::Respond(plant, query), Outcome::Bytes(length, bytes)) => {
                misresponded(self.0, plant, query).map_or(Outcome::Bytes(length, bytes), printed)
            }
            (_, _, outcome) => outcome,
        }
    }
}

/// How many mistakes there are.
#[cfg(test)]
pub const MISTAKES: u64 = bracket_cases::LAST;

/// A repair: the refusal, how many were dropped and how many there are now, the tables and the report.
type Repaired = (u32, [usize; 2], Tables, Vec<u32>);

/// What is kept, with one of the mistakes 23 to 28.
fn wrongly_kept(mistake: u64, t: &Tables) -> Option<Vec<bool>> {
    let kept = match mistake {
        // the first posting of a device, though a shared one follows
        23 => t.kept(|_| 0),
        // the last shared one of a device
        24 => t.kept(|same| same.iter().rposition(|q| q % 2 == 1).unwrap_or(0)),
        // the last one of a device, though a shared one stands before it
        25 => t.kept(|same| same.len() - 1),
        // what lies in a branch too: as if every device were a leaf
        26 => Tables { last: (1..=t.size() as u16).collect(), ..t.clone() }.kept(chosen),
        // only what the lists before do not reach either: as if there were one list
        27 => Tables { terms: vec![1], starts: vec![0], ..t.clone() }.kept(chosen),
        // what lies in a branch, after a shorter one inside it
        28 => kept_by_nearest(t),
        _ => return None,
    };
    Some(kept)
}

/// What is kept where only the branch of the nearest shared posting before it is looked at.
fn kept_by_nearest(t: &Tables) -> Vec<bool> {
    let mut kept = vec![];
    for k in 0..t.terms.len() {
        let mut reached = 0;
        for same in t.list(k).chunk_by(|&a, &b| device_of(a) == device_of(b)) {
            let at = chosen(same);
            kept.extend((0..same.len()).map(|i| i == at && device_of(same[i]) > reached));
            if same[at] % 2 == 1 {
                reached = t.reach(same[at]);
            }
        }
    }
    kept
}

/// A repair with one of the mistakes 23 to 39.
fn misrepaired(mistake: u64, t: &Tables, report: &[u32], mut right: Repaired) -> Repaired {
    let refused = |number: u32| (number, [0, 0], t.clone(), report.to_vec());
    let (refusal, [dropped, count], after, told) = &mut right;
    let end = 3 * *dropped;
    match (mistake, *refusal) {
        // the last two are reported the other way round
        (29, 0) if *dropped > 1 => told[end - 6..end].rotate_left(3),
        // the old length is given
        (30, 0) => *count = t.postings.len(),
        // the entry past the report is set to 0
        (31, 0) => told.iter_mut().skip(end).take(1).for_each(|entry| *entry = 0),
        // the last freed entry keeps what it held
        (32, 0) if *dropped > 0 => *after.postings.last_mut().unwrap() = t.postings[t.postings.len() - 1],
        // the lists start where they did
        (33, 0) => after.starts.clone_from(&t.starts),
        // a report that is just long enough is refused
        (34, 0) if report.len() == end => return refused(44),
        // a report that is one entry short is taken
        (35, 44) => return cut_short(t, report),
        // equal devices are refused
        (36, 0 | 44) if any_equal(t) => return refused(41),
        // 41 comes before 8
        (37, 8) if t.falls() => return refused(41),
        // 44 comes before 41
        (38, 41) if report.is_empty() => return refused(44),
        // what there is room for is reported before the report is found too short
        (39, 44) => told.copy_from_slice(&repaired(t, &vec![0; 3 * t.postings.len()]).3[..report.len()]),
        (_, 0) => return wrongly_kept(mistake, t).map_or(right, |kept| keeping(t, report, &kept)),
        _ => (),
    }
    right
}

/// Whether a device stands twice in a list.
fn any_equal(t: &Tables) -> bool {
    let equal = |list: &[u32]| list.windows(2).any(|w| device_of(w[0]) == device_of(w[1]));
    (0..t.terms.len()).any(|k| equal(t.list(k)))
}

/// The repair with one more entry in the report, which is not handed out.
fn cut_short(t: &Tables, report: &[u32]) -> Repaired {
    let mut right = repaired(t, &[report, &[0]].concat());
    right.3.pop();
    right
}

fn repaired(t: &Tables, report: &[u32]) -> Repaired {
    let (mut t, mut report) = (t.clone(), report.to_vec());
    let (refusal, numbers) = t.repair(&mut report);
    (refusal, numbers, t, report)
}

/// The repair that keeps these postings.
fn keeping(t: &Tables, report: &[u32], kept: &[bool]) -> Repaired {
    let (mut t, mut report) = (t.clone(), report.to_vec());
    let (refusal, numbers) = t.keep(kept, &mut report);
    (refusal, numbers, t, report)
}

/// A tightening: the refusal, how many postings there are now, and the tables.
type Tightened = (u32, usize, Tables);

/// The list at index k, where one of the mistakes 40 to 44 takes another branch for whole.
fn taken_for_whole(mistake: u64, t: &Tables, k: usize) -> Vec<u32> {
    let list = t.list(k);
    let carriers = &t.carriers(list);
    let last = |i: usize| t.last_of(carriers[i]);
    let carries = |d: usize| carriers.binary_search(&d).is_ok();
    match mistake {
        // one that lacks its last device
        40 => {
            let but_last = |i: usize| carriers.get(i + last(i) - carriers[i] - 1) == Some(&(last(i) - 1));
            t.tight(carriers, |i| t.whole(carriers, i) || but_last(i))
        }
        // one that lacks its top
        41 => {
            let more = with_tops(t, carriers);
            t.tight(&more, |i| t.whole(&more, i))
        }
        // one whose top and last device carry the term
        42 => t.tight(carriers, |i| carries(last(i))),
        // one whose top carries the term, and what it feeds directly
        43 => t.tight(carriers, |i| fed_by(t, carriers[i]).all(carries)),
        // one that the list and the next together carry the term to
        44 if k + 1 < t.terms.len() => {
            let both = t.carriers(&[list, t.list(k + 1)].concat());
            t.tight(carriers, |i| t.whole(&both, both.binary_search(&carriers[i]).unwrap()))
        }
        _ => t.tight_list(list),
    }
}

/// The devices that a device feeds directly.
fn fed_by(t: &Tables, device: usize) -> impl Iterator<Item = usize> + '_ {
    let last = t.last_of(device);
    let next = move |&d: &usize| (d <= last).then(|| t.last_of(d) + 1);
    std::iter::successors(Some(device + 1), next).take_while(move |&d| d <= last)
}

/// These carriers, and each device that lacks the term though all that it feeds carry it.
fn with_tops(t: &Tables, carriers: &[usize]) -> Vec<usize> {
    let mut more = carriers.to_vec();
    for (i, &first) in carriers.iter().enumerate().filter(|(_, &first)| first > 1) {
        let last = t.last_of(first - 1);
        if last >= first && carriers.get(i + last - first) == Some(&last) {
            more.push(first - 1);
        }
    }
    more.sort_unstable();
    more.dedup();
    more
}

/// A list where one of the mistakes 45 to 50 leaves a whole branch as it was noted.
fn not_gathered(mistake: u64, t: &Tables, list: &[u32]) -> Vec<u32> {
    let carriers = &t.carriers(list);
    let shared: Vec<usize> = list.iter().filter(|&q| q % 2 == 1).map(|&q| device_of(q)).collect();
    let left = |top: usize, last: usize| match mistake {
        // one whose top feeds one device, which feeds the rest
        45 => last > top && t.last_of(top + 1) == last,
        // one with a shared posting below its top
        46 => shared.get(shared.partition_point(|&d| d <= top)).is_some_and(|&d| d <= last),
        // one with a branch below its top: only one level is gathered
        47 => (top + 1..=last).any(|d| t.last_of(d) > d),
        // one that is a tree
        48 => t.root[top - 1] as usize == top,
        // one that ends with device N
        49 => last == t.size(),
        // one that the list ends with
        _ => carriers.last() == Some(&last),
    };
    let noted = |top: usize| shared.binary_search(&top).is_err() && left(top, t.last_of(top));
    t.tight(carriers, |i| t.whole(carriers, i) && !noted(carriers[i]))
}

/// A list tightened with one of the mistakes 51 to 57.
fn wrongly_listed(mistake: u64, t: &Tables, list: &[u32]) -> Vec<u32> {
    let mut right = t.tight_list(list);
    let leaf = |q: u32| t.last_of(device_of(q)) == device_of(q);
    let stood = |q: u32| list.binary_search(&q).is_ok();
    match mistake {
        // a shared posting at a leaf stays
        51 => right.iter_mut().filter(|q| leaf(**q) && stood(**q + 1)).for_each(|q| *q += 1),
        // every leaf gets a shared posting
        52 => right.iter_mut().filter(|q| leaf(**q)).for_each(|q| *q += 1),
        // a shared posting inside a larger whole branch stays
        53 => {
            right.extend(list.iter().filter(|&&q| q % 2 == 1 && !leaf(q)));
            right.sort_unstable();
            right.dedup();
        }
        // the private posting of a top stays beside the shared one
        54 => {
            let beside: Vec<u32> = right.iter().filter(|&&q| q % 2 == 1 && stood(q - 1)).map(|q| q - 1).collect();
            right.extend(beside);
            right.sort_unstable();
        }
        // a device whose branch is not whole gets no posting
        55 => right.retain(|&q| q % 2 == 1 || leaf(q)),
        // the shared postings stand before the private ones
        56 => right.sort_by_key(|q| q % 2 == 0),
        // the first posting is not looked at
        57 if !list.is_empty() => right = [&list[..1], &t.tight_list(&list[1..])].concat(),
        _ => (),
    }
    right
}

/// A tightening with one of the mistakes from 40 on.
fn mistightened(mistake: u64, t: &Tables, mut right: Tightened) -> Tightened {
    let (refusal, count, after) = &mut right;
    let end = t.postings.len();
    let putting = |list: &dyn Fn(usize) -> Vec<u32>| put(t, (0..t.terms.len()).map(list).collect());
    match (mistake, *refusal) {
        (40..45, 0) => return putting(&|k| taken_for_whole(mistake, t, k)),
        (45..51, 0) => return putting(&|k| not_gathered(mistake, t, t.list(k))),
        (51..58, 0) => return putting(&|k| wrongly_listed(mistake, t, t.list(k))),
        // the last freed entry keeps what it held
        (58, 0) if *count < end => after.postings[end - 1] = t.postings[end - 1],
        // the last posting goes with the freed entries
        (59, 0) if *count < end => after.postings[*count - 1] = 0,
        // the old length is given
        (60, 0) => *count = end,
        // where nothing comes free, 0 is given
        (61, 0) if *count == end => *count = 0,
        // the lists start where they did
        (62, 0) => after.starts.clone_from(&t.starts),
        // an empty list starts where it did
        (63, 0) => (0..t.terms.len()).filter(|&k| t.list(k).is_empty()).for_each(|k| after.starts[k] = t.starts[k]),
        // each list stays where it was, with 0 after it
        (64, 0) => return (0, *count, put(t, padded(t, after)).2),
        // the last list stays as it was
        (65, 0) => return putting(&|k| if k + 1 < t.terms.len() { after.list(k) } else { t.list(k) }.to_vec()),
        // redundant postings are taken, on plants where branches inside branches are not too much to write out
        (66, 9) if t.size() < 2_000 => return putting(&|k| t.tight_list(t.list(k))),
        // devices that do not rise are taken, on such plants
        (67, 8) if t.size() < 2_000 && t.postings.iter().all(|&q| (1..=t.size()).contains(&device_of(q))) => {
            return putting(&|k| t.tight_list(t.list(k)));
        }
        // the first list is tightened before another is refused
        (68, 8 | 9) => after.postings[..t.list(0).len()].copy_from_slice(&first_tightened(t)),
        // a refused index is set to 0
        (69, 1..) => after.postings.fill(0),
        // a refusal comes with the old length
        (70, 1..) => *count = end,
        _ => (),
    }
    right
}

/// The index with these lists in it.
fn put(t: &Tables, lists: Vec<Vec<u32>>) -> Tightened {
    let mut t = t.clone();
    let count = t.put(lists);
    (0, count, t)
}

/// The tightened lists, each with 0 after it up to its old length.
fn padded(t: &Tables, after: &Tables) -> Vec<Vec<u32>> {
    let list = |k: usize| {
        let mut list = after.list(k).to_vec();
        list.resize(t.list(k).len(), 0);
        list
    };
    (0..t.terms.len()).map(list).collect()
}

/// The first list tightened in its own room, where it is not refused itself.
fn first_tightened(t: &Tables) -> Vec<u32> {
    let mut first = Tables { terms: vec![1], starts: vec![0], postings: t.list(0).to_vec(), ..t.clone() };
    first.tighten();
    first.postings
}

/// The outcome of a search, where an accepted one counts passed in this way.
fn passing(case: &Case, outcome: Outcome, passed: impl Fn(&[Move]) -> usize) -> Outcome {
    match (case, outcome) {
        (Case::Search(t, second, q, ..), Outcome::Answer(answer, listing)) if answer.refusal == 0 => {
            Outcome::Answer(Answer { passed: passed(&t.moves(second, q)) as u32, ..answer }, listing)
        }
        (_, outcome) => outcome,
    }
}

/// Puts the line of the postings passed behind that of the moves.
fn passed_late(text: &mut [u8]) {
    let Some(from) = text.windows(8).position(|w| w == b"(passed ") else { return };
    let line = text[from..].iter().position(|&b| b == b'\n').unwrap() + 1;
    let end = text.len() - 2;
    text[from..end].rotate_left(line);
}

/// Puts the first closing line that a device follows behind that device's line.
fn close_late(text: &mut [u8]) {
    let Some(from) = text.windows(7).position(|w| w == b")\n(dev ") else { return };
    let line = text[from + 2..].iter().position(|&b| b == b'\n').unwrap();
    text[from..from + line + 3].rotate_left(2);
}

/// The text of sound tables, however deep or long, where the buffer holds it.
fn write(t: &Tables, mut buffer: Vec<u8>) -> Outcome {
    let text = t.text();
    match buffer.get_mut(..text.len()) {
        Some(front) => {
            front.copy_from_slice(&text);
            Outcome::Written(0, text.len(), buffer)
        }
        None => Outcome::Written(40, 0, buffer),
    }
}
