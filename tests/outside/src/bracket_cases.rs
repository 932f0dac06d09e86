//! Plant texts with closing brackets in every place, and mistakes about one with nothing open.
use crate::case::{plant_outcome, printed, Case, Outcome};
use crate::generate::{lines, P};
use crate::paper::{read_plant, Refused, Tables, ROOM};

const CLOSE: &[u8] = b")\n";

/// A line of each kind, and one of none.
const LINES: [&[u8]; 7] = [b"(plant\n", b"(dev 1\n", b"(mark 1\n", b"(own 1)\n", b"(all 1)\n", CLOSE, b"\n"];

/// Every text of up to two such lines, every one of up to five after a plant line, and P with a closing bracket put in or left
/// out at each line.
pub fn systematic(cases: &mut Vec<Case>) {
    let mut texts = [every(b"", 2), every(LINES[0], 5)].concat();
    let p = lines(P);
    for (before, after) in (0..=p.len()).map(|i| p.split_at(i)) {
        texts.push([&before.concat(), CLOSE, &after.concat()].concat());
        if after.first().is_some_and(|line| line == CLOSE) {
            texts.push([before, &after[1..]].concat().concat());
        }
    }
    cases.extend(texts.into_iter().map(|text| Case::Plant(text, [9; 6])));
}

/// A text followed by each choice of up to so many lines.
fn every(text: &[u8], most: usize) -> Vec<Vec<u8>> {
    let mut all = vec![text.to_vec()];
    let mut from = 0;
    for _ in 0..most {
        let longer: Vec<_> = all[from..].iter().flat_map(|text| LINES.map(|line| [text, line].concat())).collect();
        from = all.len();
        all.extend(longer);
    }
    all
}

/// The first of these mistakes, and the last.
pub const FIRST: u64 = 156;
#[cfg(test)]
pub const LAST: u64 = 159;

/// The papers with one of these mistakes.
pub fn outcome(mistake: u64, case: &Case) -> Outcome {
    match case {
        Case::Plant(text, room) => plant_outcome(misread(mistake, text, *room), *room),
        Case::Respond(plant, _) => match misread(mistake, plant, ROOM) {
            Err((26, line)) => printed(format!("(refused plant 26 {line})\n").into_bytes()),
            _ => case.expected(),
        },
        _ => case.expected(),
    }
}

/// What is read of a plant text with one of these mistakes about a closing bracket with nothing open.
fn misread(mistake: u64, text: &[u8], room: [usize; 6]) -> Result<Tables, Refused> {
    let right = read_plant(text, room);
    let Err((number, k)) = right else { return right };
    let mut all = lines(text);
    let at = (k as usize).saturating_sub(1);
    if all.get(at).is_none_or(|line| line != CLOSE) {
        return right;
    }
    match (mistake, number, k) {
        // on the first line it is 26
        (156, 21, 1) => Err((26, k)),
        // after the closed plant it is 26
        (157, 25, _) => Err((26, k)),
        // on the first line it is passed over
        (158, 21, 1) => read_plant(&all[1..].concat(), room),
        // after the closed plant it is passed over
        (159, 25, _) => {
            all.remove(at);
            misread(mistake, &all.concat(), room)
        }
        _ => right,
    }
}
