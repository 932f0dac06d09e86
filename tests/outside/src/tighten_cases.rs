//! Cases of tightening, random and without chance.
use crate::case::{shortened, Case};
use crate::generate::{damage, forest, of_tiers, plant};
use crate::paper::Tables;
use crate::random::Random;
use crate::repair_cases::{one_list, plants};

/// As many devices as there may be.
const MOST: usize = 65_535;

/// The tables of a plant with these lists, of the terms 1, 2 and so on.
fn indexed(plant: &Tables, lists: &[Vec<u32>]) -> Tables {
    let starts = lists.iter().scan(0, |end, list| {
        let start = *end;
        *end += list.len() as u32;
        Some(start)
    });
    Tables { terms: (1..=lists.len() as u16).collect(), starts: starts.collect(), postings: lists.concat(), ..plant.clone() }
}

/// The devices of some branches and trees, most of them whole, the others without their top, their last device or another.
fn branches(r: &mut Random, t: &Tables) -> Vec<usize> {
    let n = t.size();
    let mut carries = vec![false; n + 1];
    for _ in 0..r.of(&[0, 1, 1, 2, 3, n / 8, n / 3]) {
        let device = r.between(1, n);
        let top = r.of(&[device, device, t.root[device - 1] as usize]);
        let last = t.last_of(top);
        carries[top..=last].fill(true);
        let inside = r.between(top, last);
        match r.below(10) {
            0 => carries[top] = false,
            1 | 2 => carries[last] = false,
            3 => carries[inside] = false,
            _ => (),
        }
    }
    (1..=n).filter(|&d| carries[d]).collect()
}

/// A list of these carriers: a whole branch gets a shared posting once in `sharing`, else its top gets a private one.
fn noted(r: &mut Random, t: &Tables, carriers: &[usize], sharing: usize) -> Vec<u32> {
    let (mut list, mut i) = (vec![], 0);
    while let Some(&device) = carriers.get(i) {
        let shared = t.whole(carriers, i) && r.one_in(sharing);
        list.push(2 * device as u32 + shared as u32);
        i += if shared { t.last_of(device) - device + 1 } else { 1 };
    }
    list
}

/// Device by device, with few shared postings and with many.
const SHARING: [usize; 5] = [1_000_000, 1_000_000, 8, 3, 2];

/// A plant that often has branches inside branches, and how many lists to put over it.
fn wooded(r: &mut Random) -> (Tables, usize) {
    let (n, depth) = match r.below(1_000) {
        0 => (r.of(&[MOST, 20_000]), r.of(&[3, 32, MOST])),
        1..20 => (r.between(100, 1_024), r.of(&[3, 32, MOST])),
        20..100 => (r.between(25, 100), r.of(&[3, 8, 32])),
        _ => (r.between(2, 24), r.of(&[2, 3, 8, 32])),
    };
    (forest(r, n, depth), r.between(1, 6))
}

/// A sound plant whose branches were noted device by device, or partly so.
fn noted_plant(r: &mut Random) -> Tables {
    let (t, count) = wooded(r);
    let lists: Vec<Vec<u32>> = (0..count)
        .map(|_| {
            let (carriers, sharing) = (branches(r, &t), r.of(&SHARING));
            noted(r, &t, &carriers, sharing)
        })
        .collect();
    indexed(&t, &lists)
}

/// What the tightening of sound tables leaves, without the freed entries.
fn tightened(t: &Tables) -> Tables {
    let mut t = t.clone();
    let (_, count) = t.tighten();
    shortened(&t, count)
}

/// A random case: noted device by device, random or tight already, or these with damage to one place.
pub fn case(r: &mut Random) -> Case {
    let mut t = match r.below(12) {
        0 | 1 => plant(r),
        2 => tightened(&noted_plant(r)),
        _ => noted_plant(r),
    };
    if t.size() < 2_000 && r.one_in(4) {
        damage(r, &mut t);
    }
    Case::Tighten(t)
}

/// Cases without chance: every list of each device at most once on every small plant, every choice of carriers on larger ones,
/// lists together, each refusal before those after it, and plants and stores at the limits.
pub fn systematic(cases: &mut Vec<Case>) {
    short_lists(cases);
    choices(cases);
    several_lists(cases);
    refusals(cases);
    without_postings(cases);
    large_plants(cases);
    large_stores(cases);
}

/// Every list in which each of the devices 1 to n has no posting, a private one or a shared one.
fn lists(n: usize) -> Vec<Vec<u32>> {
    let mut all = vec![vec![]];
    for device in 1..=n as u32 {
        let longer = |list: &Vec<u32>| [&[][..], &[2 * device], &[2 * device + 1]].map(|more| [list, more].concat());
        all = all.iter().flat_map(longer).collect();
    }
    all
}

/// On every plant of up to five devices each of these lists, redundant ones too.
fn short_lists(cases: &mut Vec<Case>) {
    for n in 0..=5 {
        for t in plants(n) {
            cases.extend(lists(n).iter().map(|list| Case::Tighten(one_list(&t, list))));
        }
    }
}

/// The devices that stand in this choice, a bit for each.
fn chosen(choice: usize, n: usize) -> Vec<usize> {
    (1..=n).filter(|d| choice >> (d - 1) & 1 == 1).collect()
}

/// Every choice of carriers, device by device, on every plant of six devices and on one of the branches 1..6, 2..5, 3..4 and 7..8:
/// whole trees and the whole forest, and these without a top, a first child, a last child or any other. Then with every leaf
/// shared, tight, and tight but for the tops.
fn choices(cases: &mut Vec<Case>) {
    let larger = of_tiers([1, 2, 3, 4, 3, 2, 1, 2]);
    for t in plants(6).iter().chain([&larger]) {
        for choice in 0..1 << t.size() {
            let carriers = chosen(choice, t.size());
            let leaf = |d: usize| t.last_of(d) == d;
            let noted = |shared: &dyn Fn(usize) -> bool| -> Vec<u32> {
                carriers.iter().map(|&d| 2 * d as u32 + shared(d) as u32).collect()
            };
            let by_device = one_list(t, &noted(&|_| false));
            cases.push(Case::Tighten(one_list(t, &noted(&leaf))));
            cases.push(Case::Tighten(tightened(&by_device)));
            cases.push(Case::Tighten(opened(&by_device, &carriers)));
            cases.push(Case::Tighten(by_device));
        }
    }
}

/// One list of these carriers, tight but for a private posting at the top of each whole branch, with those below it as they come.
fn opened(t: &Tables, carriers: &[usize]) -> Tables {
    let inside = |i: usize| (0..i).any(|j| t.whole(carriers, j) && carriers[i] <= t.last_of(carriers[j]));
    one_list(t, &t.tight(carriers, |i| t.whole(carriers, i) && inside(i)))
}

/// On every plant of up to three devices every two of the lists together, alone and with empty lists around them.
fn several_lists(cases: &mut Vec<Case>) {
    for n in 1..=3 {
        let lists = lists(n);
        for t in plants(n) {
            for (a, b) in lists.iter().flat_map(|a| lists.iter().map(move |b| (a, b))) {
                let (a, b, none) = (a.clone(), b.clone(), vec![]);
                cases.push(Case::Tighten(indexed(&t, &[a.clone(), b.clone()])));
                cases.push(Case::Tighten(indexed(&t, &[none.clone(), a, none.clone(), none.clone(), b, none])));
            }
        }
    }
}

/// What makes each of refusals 1 to 9 apply, in their order, to a chain of four devices with the lists 1 2 3 4 and 2 3, of which
/// 3 in the second is shared.
const FAULTS: [fn(&mut Tables); 9] = [
    |t| t.level.push(0),
    |t| t.last[0] = 0,
    |t| t.last[1] = 3,
    |t| t.root[2] = 2,
    |t| t.starts.push(0),
    |t| t.terms[0] = 0,
    |t| t.starts[0] = 1,
    |t| t.postings[0] = 0,
    |t| t.postings[4] = 5,
];

/// Every choice of these faults: the first is given. Then each posting and each start changed to small and to large numbers.
fn refusals(cases: &mut Vec<Case>) {
    let t = indexed(&of_tiers(1..=4), &[vec![2, 4, 6, 8], vec![4, 7]]);
    for choice in 0..1 << FAULTS.len() {
        let mut t = t.clone();
        let faults = chosen(choice, FAULTS.len());
        faults.iter().for_each(|k| FAULTS[k - 1](&mut t));
        assert_eq!(t.check() as usize, faults.first().copied().unwrap_or(0));
        cases.push(Case::Tighten(t));
    }
    for value in (0..12).chain([131_070, 131_071, u32::MAX - 1, u32::MAX]) {
        for i in 0..t.postings.len() {
            let mut t = t.clone();
            t.postings[i] = value;
            cases.push(Case::Tighten(t));
        }
        for k in 0..t.starts.len() {
            let mut t = t.clone();
            t.starts[k] = value;
            cases.push(Case::Tighten(t));
        }
    }
}

/// No devices, no terms, and lists without postings.
fn without_postings(cases: &mut Vec<Case>) {
    for t in [Tables::default(), of_tiers([1, 2])] {
        cases.extend((0..4).map(|terms| Case::Tighten(indexed(&t, &vec![vec![]; terms]))));
    }
}

/// As many devices as there may be: in a chain, in trees of one device, in one tree of two tiers, in one that parts at each device,
/// and in a chain with many leaves below it.
fn largest() -> [Tables; 5] {
    let two_tiers = of_tiers([1].into_iter().chain([2; MOST - 1]));
    let leaves_below = of_tiers((1..=30_000).chain([30_001; MOST - 30_000]));
    [of_tiers(1..=MOST), of_tiers([1; MOST]), two_tiers, of_tiers(parting(16)), leaves_below]
}

/// The tiers of a tree of so many, in which each device above the lowest feeds two directly.
fn parting(lowest: usize) -> Vec<usize> {
    let (mut tiers, mut left) = (vec![], vec![1]);
    while let Some(tier) = left.pop() {
        tiers.push(tier);
        if tier < lowest {
            left.extend([tier + 1; 2]);
        }
    }
    tiers
}

/// Each of these device by device: all of it, all but one device, and all but one in a thousand. Then all of it shared, which only
/// trees of one device take without redundant postings.
fn large_plants(cases: &mut Vec<Case>) {
    for t in largest() {
        let last = MOST as u32;
        let mut push = |list: Vec<u32>| cases.push(Case::Tighten(one_list(&t, &list)));
        push((1..=last).map(|d| 2 * d).collect());
        for gone in [1, 2, 30_000, last - 1, last] {
            push((1..=last).filter(|&d| d != gone).map(|d| 2 * d).collect());
        }
        push((1..=last).filter(|d| d % 1_000 != 0).map(|d| 2 * d).collect());
        push((1..=last).map(|d| 2 * d + 1).collect());
    }
}

/// As many postings as there may be, and one more; as many terms as there may be, with as many postings and without, and one more.
fn large_stores(cases: &mut Vec<Case>) {
    let all: Vec<u32> = (1..=MOST as u32).map(|d| 2 * d).collect();
    let mut lists = vec![all.clone(); 16];
    lists.push(all[..16].to_vec());
    for t in &largest()[..3] {
        cases.push(Case::Tighten(indexed(t, &lists)));
    }
    lists[16].push(34);
    cases.push(Case::Tighten(indexed(&largest()[0], &lists)));
    let t = of_tiers([1, 2, 3, 3, 2, 3, 3, 1].repeat(16));
    let by_device: Vec<u32> = (1..=128).map(|d| 2 * d).collect();
    cases.push(Case::Tighten(indexed(&t, &vec![by_device; 8_192])));
    cases.extend([8_192, 8_193].map(|terms| Case::Tighten(indexed(&t, &vec![vec![]; terms]))));
    cases.push(Case::Tighten(indexed(&t, &vec![vec![4, 6, 8, 10, 13]; 8_192])));
}
