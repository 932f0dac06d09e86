//! A plain tightening, as one would write it without proofs: in place, one pass over each list that gathers and moves down.
use crate::paper::Tables;
use crate::plain::{self, device, reach};

/// The refusal, and how many postings there are now; starts and postings are written to.
#[inline(never)]
pub fn tighten(t: &mut Tables) -> (u32, usize) {
    let refused = plain::check(t);
    if refused != 0 {
        return (refused, 0);
    }
    let Tables { last, starts, postings, .. } = t;
    let (mut from, mut kept) = (0, 0);
    for k in 0..starts.len() {
        let end = starts.get(k + 1).map_or(postings.len(), |&s| s as usize);
        starts[k] = kept as u32;
        kept = tighten_list(last, &mut postings[..end], from, kept);
        from = end;
    }
    postings[kept..].fill(0);
    (0, kept)
}

/// Tightens the list from `from` to the end, and moves it down behind so many kept postings; how many there are then. Only where
/// the top of a branch has a private posting, and the device after it has one too, is there something to gather. Then it is found
/// out up to where all devices carry the term, once for all branches before that.
fn tighten_list(last: &[u16], postings: &mut [u32], from: usize, mut kept: usize) -> usize {
    let (mut at, mut until) = (from, 0);
    while at < postings.len() {
        let posting = postings[at];
        let d = device(posting);
        let end = last[d - 1] as usize;
        let leaf = (d == end) as u32;
        let mut made = posting & !leaf;
        at += 1;
        // this one private, the next at the device after it, and no leaf: one comparison, which is seldom true
        if at < postings.len() && ((postings[at] & !1) ^ (posting + 2)) | leaf == 0 {
            let mut after = at;
            if until < d {
                (until, after) = carried(last, postings, at, d, end);
            }
            if end <= until {
                made |= 1;
                at = after + postings[after..].iter().take_while(|&&p| device(p) <= end).count();
            }
        }
        postings[kept] = made;
        kept += 1;
    }
    kept
}

/// Up to where, from d to the end of its branch, every device carries the term, and the index of the first posting after that.
fn carried(last: &[u16], list: &[u32], mut at: usize, d: usize, end: usize) -> (usize, usize) {
    let mut until = d;
    while until < end && at < list.len() && device(list[at]) == until + 1 {
        until = reach(last, list[at]);
        at += 1;
    }
    (until, at)
}
