//! A plain repair of lists with doubled postings, as one would write it without proofs: in place, one pass that counts what is
//! dropped, and one that moves the rest down.
use crate::paper::Tables;
use crate::plain::{self, device, reach};
use std::slice::IterMut;

/// The refusal, how many postings were dropped and how many there are now; starts, postings and report are written to.
#[inline(never)]
pub fn repair(t: &mut Tables, report: &mut [u32]) -> (u32, [usize; 2]) {
    match dropped(t, report.len()) {
        Err(refused) => (refused, [0, 0]),
        Ok(dropped) => {
            // a clean index stays as it is
            if dropped > 0 {
                move_down(t, report);
            }
            (0, [dropped, t.postings.len() - dropped])
        }
    }
}

/// How many postings are dropped, or the refusal: 1 to 8, 41 and 44.
fn dropped(t: &Tables, room: usize) -> Result<usize, u32> {
    let refused = plain::check_but_postings(t);
    if refused != 0 {
        return Err(refused);
    }
    let mut dropped = 0;
    for k in 0..t.starts.len() {
        dropped += dropped_of(&t.last, plain::list(t, k)).ok_or_else(|| fault(t))?;
    }
    if room < 3 * dropped {
        return Err(44);
    }
    Ok(dropped)
}

/// How many postings of a list are dropped; none: a device is out of range or falls. Where no lower posting reaches a device, one
/// of its own is kept, whichever it is, so each is counted that one before it reaches.
fn dropped_of(last: &[u16], list: &[u32]) -> Option<usize> {
    let (mut before, mut reached, mut dropped) = (0, 0, 0);
    for &posting in list {
        let d = device(posting);
        // device 0 is out of range too
        let end = *last.get(d.wrapping_sub(1))? as usize;
        if d < before {
            return None;
        }
        before = d;
        dropped += (d <= reached) as usize;
        reached = reached.max(if posting & 1 == 1 { end } else { d });
    }
    Some(dropped)
}

/// Which of 8 and 41 it is.
fn fault(t: &Tables) -> u32 {
    let out_of_range = |&posting: &u32| device(posting) == 0 || t.last.len() < device(posting);
    if t.postings.iter().any(out_of_range) {
        8
    } else {
        41
    }
}

/// Moves what is kept down over what is dropped, list by list, and reports that.
fn move_down(t: &mut Tables, report: &mut [u32]) {
    let Tables { last, terms, starts, postings, .. } = t;
    let mut report = report.as_chunks_mut().0.iter_mut();
    let (mut from, mut kept) = (0, 0);
    for (k, &term) in terms.iter().enumerate() {
        let end = starts.get(k + 1).map_or(postings.len(), |&s| s as usize);
        starts[k] = kept as u32;
        kept = move_list(last, term as u32, &mut postings[..end], from, kept, &mut report);
        from = end;
    }
    postings[kept..].fill(0);
}

/// The same for the list from `from` to the end, after so many kept postings; how many there are then. A shared posting takes the
/// place of a private one of its device. The private ones of a device are alike, so the report is in store order.
fn move_list(
    last: &[u16], term: u32, postings: &mut [u32], from: usize, mut kept: usize, report: &mut IterMut<[u32; 3]>,
) -> usize {
    let mut reached = 0;
    for at in from..postings.len() {
        let posting = postings[at];
        if reached < device(posting) {
            postings[kept] = posting;
            kept += 1;
        } else {
            let held = postings[kept - 1];
            // chosen without a branch, since it follows no rule
            let (held, gone) = if held == posting & !1 { (posting, held) } else { (held, posting) };
            postings[kept - 1] = held;
            *report.next().unwrap() = [term, gone >> 1, gone & 1];
        }
        reached = reached.max(reach(last, posting));
    }
    kept
}
