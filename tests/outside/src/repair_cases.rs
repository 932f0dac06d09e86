//! Cases of repair, random and without chance.
use crate::case::Case;
use crate::generate::{damage, of_tiers, plant};
use crate::paper::{device_of, Tables};
use crate::random::Random;

/// How long a report must be for the dropped postings, or 0 where the tables are refused.
pub fn needed(t: &Tables) -> usize {
    let mut room = vec![0; 3 * t.postings.len()];
    let (_, [dropped, _]) = t.clone().repair(&mut room);
    3 * dropped
}

/// A list with more postings: up to seven more on a device of it, or on a device inside a branch of one.
fn doubled(r: &mut Random, t: &Tables, list: &[u32]) -> Vec<u32> {
    let mut all = list.to_vec();
    let places = if list.is_empty() { 0 } else { r.of(&[0, 1, 1, 2, 4, list.len() / 4, list.len()]) };
    for _ in 0..places {
        let device = device_of(r.of(list));
        let inside = r.between(device, t.last[device - 1] as usize);
        let at = r.of(&[device, device, inside]) as u32;
        all.extend((0..r.of(&[1, 1, 2, 3, 7])).map(|_| 2 * at + r.below(2) as u32));
    }
    all.sort_by_cached_key(|&q| (device_of(q), r.next()));
    all
}

/// Sound device tables and terms, with lists whose devices do not fall.
fn doubled_plant(r: &mut Random) -> Tables {
    let sound = plant(r);
    let mut t = Tables { starts: vec![], postings: vec![], ..sound.clone() };
    for k in 0..sound.terms.len() {
        t.starts.push(t.postings.len() as u32);
        t.postings.extend(doubled(r, &sound, sound.list(k)));
    }
    t
}

/// A report of about the length that is needed, with anything in it.
fn report(r: &mut Random, t: &Tables) -> Vec<u32> {
    let length = needed(t);
    let room = match r.below(20) {
        0..3 => length.saturating_sub(1),
        3 => length.saturating_sub(3),
        4 => r.below(length + 1),
        5 => 0,
        6..9 => length + 1,
        9..12 => length + r.below(20),
        _ => length,
    };
    (0..room).map(|_| r.next() as u32).collect()
}

/// A random case: sound, with doubled postings, or these with damage to one place.
pub fn case(r: &mut Random) -> Case {
    let mut t = if r.one_in(10) { plant(r) } else { doubled_plant(r) };
    if t.size() < 2_000 {
        match r.below(12) {
            0..3 => damage(r, &mut t),
            3 => fall(r, &mut t),
            _ => (),
        }
    }
    let report = report(r, &t);
    Case::Repair(t, report)
}

/// Two postings that follow one another change places.
fn fall(r: &mut Random, t: &mut Tables) {
    if t.postings.len() > 1 {
        let i = r.below(t.postings.len() - 1);
        t.postings.swap(i, i + 1);
    }
}

/// Cases without chance: every mixture on one device, every short list on every small plant, each refusal before those after it,
/// and stores at the limits.
pub fn systematic(cases: &mut Vec<Case>) {
    mixtures(cases);
    short_lists(cases);
    two_lists(cases);
    lists_of_four(cases);
    refusals(cases);
    without_postings(cases);
    large_stores(cases);
}

/// A repair with a report of the needed length and so many entries more or less.
fn push(t: &Tables, spare: &[isize], cases: &mut Vec<Case>) {
    let length = needed(t);
    let reports = spare.iter().filter_map(|&spare| length.checked_add_signed(spare));
    cases.extend(reports.map(|room| Case::Repair(t.clone(), vec![5; room])));
}

/// The tables of a plant with one term.
pub fn one_list(plant: &Tables, list: &[u32]) -> Tables {
    Tables { terms: vec![7], starts: vec![0], postings: list.to_vec(), ..plant.clone() }
}

/// What stands before and after one device in a list, on a plant of the branches 1..6, 2..5, 3..4 and 7..8.
const AROUND: [(&[u32], u32, &[u32]); 16] = [
    // alone: a leaf, and branches
    (&[], 4, &[]),
    (&[], 2, &[]),
    (&[], 1, &[]),
    // between others, apart from them or holding those after
    (&[2], 4, &[10]),
    (&[2], 2, &[6, 10, 13]),
    (&[], 7, &[16, 17]),
    // inside the branch of a shared posting
    (&[3], 4, &[]),
    (&[15], 8, &[]),
    (&[5], 4, &[10, 12]),
    (&[4, 5], 3, &[7, 8]),
    // inside the branch of a private posting
    (&[4], 4, &[10, 12]),
    // inside branches that are inside others
    (&[3, 5, 7], 4, &[12, 14]),
    (&[2, 5, 7], 4, &[10, 13]),
    // right after a branch, and right after one that is inside another
    (&[7], 5, &[12]),
    (&[5], 6, &[15, 16]),
    (&[3, 5], 6, &[14]),
];

/// One device one to eight times, in every mixture of private and shared: as one list, and as the first and the last of three,
/// the middle one empty.
fn mixtures(cases: &mut Vec<Case>) {
    let plant = of_tiers([1, 2, 3, 4, 3, 2, 1, 2]);
    for (before, device, after) in AROUND {
        for (count, kinds) in (1..=8).flat_map(|count| (0..1 << count).map(move |kinds| (count, kinds))) {
            let same: Vec<u32> = (0..count).map(|i| 2 * device + (kinds >> i & 1)).collect();
            let list = [before, &same, after].concat();
            push(&one_list(&plant, &list), &[-1, 0, 4], cases);
            let length = list.len() as u32;
            let t = Tables { terms: vec![3, 9, 65_535], starts: vec![0, length, length], ..one_list(&plant, &list.repeat(2)) };
            push(&t, &[0], cases);
            cases.push(Case::Repair(t, vec![]));
        }
    }
}

/// Every plant of n devices.
pub fn plants(n: usize) -> Vec<Tables> {
    let mut all: Vec<Vec<usize>> = vec![vec![]];
    for _ in 0..n {
        let longer = |tiers: &Vec<usize>| -> Vec<Vec<usize>> {
            let top = tiers.last().map_or(1, |tier| tier + 1);
            (1..=top).map(|tier| [tiers.as_slice(), &[tier]].concat()).collect()
        };
        all = all.iter().flat_map(longer).collect();
    }
    all.into_iter().map(of_tiers).collect()
}

/// Every list of so many postings, from device 0 to device N + 1.
pub fn lists(count: usize, n: usize) -> Vec<Vec<u32>> {
    let postings = 0..2 * n as u32 + 4;
    let mut all = vec![vec![]];
    for _ in 0..count {
        all = all.iter().flat_map(|list| postings.clone().map(move |q| [list.as_slice(), &[q]].concat())).collect();
    }
    all
}

/// On every plant of up to three devices, every list of up to three postings.
fn short_lists(cases: &mut Vec<Case>) {
    for n in 0..=3 {
        for t in plants(n) {
            let all = (0..=3).flat_map(|count| lists(count, n));
            all.for_each(|list| push(&one_list(&t, &list), &[0], cases));
        }
    }
}

/// On every plant of up to two devices, every two lists of up to three postings together.
fn two_lists(cases: &mut Vec<Case>) {
    for n in 0..=2 {
        for t in plants(n) {
            for list in (0..=3).flat_map(|count| lists(count, n)) {
                let parted = |at: usize| Tables { terms: vec![7, 8], starts: vec![0, at as u32], ..one_list(&t, &list) };
                (0..=list.len()).for_each(|at| push(&parted(at), &[0], cases));
            }
        }
    }
}

/// On every plant of four devices, every list of four postings that may be repaired.
fn lists_of_four(cases: &mut Vec<Case>) {
    let repairable = |list: &Vec<u32>| list.iter().all(|q| (2..10).contains(q)) && list.is_sorted_by_key(|&q| device_of(q));
    let all: Vec<Vec<u32>> = lists(4, 4).into_iter().filter(repairable).collect();
    for t in plants(4) {
        all.iter().for_each(|list| push(&one_list(&t, list), &[-1, 0], cases));
    }
}

type Fault = (u32, fn(&mut Tables, &mut Vec<u32>));

/// What makes each refusal apply, in their order, to a chain of four devices with the lists 1 1 2 and 3 4 4, all private.
const FAULTS: [Fault; 10] = [
    (1, |t, _| t.level.push(0)),
    (2, |t, _| t.last[0] = 0),
    (3, |t, _| t.last[1] = 3),
    (4, |t, _| t.root[2] = 2),
    (5, |t, _| t.starts.push(0)),
    (6, |t, _| t.terms[0] = 0),
    (7, |t, _| t.starts[0] = 1),
    (8, |t, _| t.postings[0] = 0),
    (41, |t, _| t.postings.swap(3, 5)),
    (44, |_, report| report.clear()),
];

/// Every choice of these faults: the first is given. Then each posting in turn out of range, or below the one before it.
fn refusals(cases: &mut Vec<Case>) {
    let mut t = Tables { terms: vec![1, 2], starts: vec![0, 3], ..of_tiers(1..=4) };
    t.postings = vec![2, 2, 4, 6, 8, 8];
    for choice in 0..1 << FAULTS.len() {
        let (mut t, mut report) = (t.clone(), vec![5; 6]);
        let faults: Vec<Fault> = (0..FAULTS.len()).filter(|i| choice >> i & 1 == 1).map(|i| FAULTS[i]).collect();
        faults.iter().for_each(|(_, fault)| fault(&mut t, &mut report));
        let first = faults.first().map_or(0, |fault| fault.0);
        assert_eq!(t.clone().repair(&mut report.clone()).0, first);
        cases.push(Case::Repair(t, report));
    }
    for i in 0..t.postings.len() {
        for value in [0, 1, 2, 3, 9, 10, 11, 131_070, 131_071, u32::MAX - 1, u32::MAX] {
            let mut t = t.clone();
            t.postings[i] = value;
            cases.extend([0, 18].map(|room| Case::Repair(t.clone(), vec![5; room])));
        }
    }
}

/// No devices, no terms, and lists without postings.
fn without_postings(cases: &mut Vec<Case>) {
    for t in [Tables::default(), of_tiers([1, 2])] {
        for terms in 0..4 {
            let t = Tables { terms: (1..=terms).collect(), starts: vec![0; terms as usize], ..t.clone() };
            cases.extend([0, 1, 3].map(|room| Case::Repair(t.clone(), vec![5; room])));
        }
    }
}

/// As many postings as there may be, and one more: of one device, of every device sixteen times, and of as many terms as there
/// may be.
fn large_stores(cases: &mut Vec<Case>) {
    let most = 1_048_576;
    let pair = of_tiers([1, 2]);
    push(&one_list(&pair, &vec![2; most]), &[-1, 0], cases);
    push(&one_list(&pair, &[vec![2; most - 2], vec![3, 5]].concat()), &[0], cases);
    push(&one_list(&pair, &vec![2; most + 1]), &[0], cases);
    let sixteen: Vec<u32> = (1..=65_535).flat_map(|d| [[2 * d; 15].as_slice(), &[2 * d + 1]].concat()).collect();
    push(&one_list(&of_tiers([1; 65_535]), &sixteen), &[0], cases);
    push(&one_list(&of_tiers(1..=65_535), &sixteen), &[-1, 0], cases);
    let terms = Tables { terms: (1..=8_192).collect(), starts: (0..8_192).map(|k| 128 * k).collect(), ..pair };
    for list in [[[2; 64], [4; 64]].concat(), [[2; 127].as_slice(), &[3]].concat()] {
        push(&Tables { postings: list.repeat(8_192), ..terms.clone() }, &[0], cases);
    }
}
