//! A plain reader of plant text, as one would write it without proofs: one pass, no line gone over twice, the same
//! refusals. A form that cannot stand in its place and a line that is no form are the same refusal: only those that may come are tried.
use crate::lines::{word, Lines, Refused};
use crate::paper::Tables;

const DEVICE: u32 = word(b"(dev");
const TERM: u32 = word(b"(mar");
const OWN: u32 = word(b"(own");
const ALL: u32 = word(b"(all");

/// The refusal, and the line, devices, terms and postings; each table is written over whole.
#[inline(never)]
pub fn read_plant(text: &[u8], t: &mut Tables) -> (u32, [usize; 4]) {
    let (refusal, numbers) = match read(text, t) {
        Ok([devices, terms, postings]) => (0, [0, devices, terms, postings]),
        Err((refusal, line)) => (refusal, [line, 0, 0, 0]),
    };
    let [_, devices, terms, postings] = numbers;
    t.last[devices..].fill(0);
    t.root[devices..].fill(0);
    t.level[devices..].fill(0);
    t.terms[terms..].fill(0);
    t.starts[terms..].fill(0);
    t.postings[postings..].fill(0);
    (refusal, numbers)
}

fn read(text: &[u8], t: &mut Tables) -> Result<[usize; 3], Refused> {
    if text.len() > 65_536 {
        return Err((20, 0));
    }
    let mut lines = Lines::new(text);
    lines.open(b"(plant\n", 24, 21)?;
    let devices = read_devices(&mut lines, &mut t.last, &mut t.root, &mut t.level)?;
    let (terms, postings) = read_terms(&mut lines, &t.last[..devices], &mut t.terms, &mut t.starts, &mut t.postings)?;
    lines.end(25)?;
    Ok([devices, terms, postings])
}

/// Reads devices up to a line at the top that is none.
fn read_devices(lines: &mut Lines, last: &mut [u16], root: &mut [u16], level: &mut [u8]) -> Result<usize, Refused> {
    let room = last.len().min(root.len()).min(level.len());
    let (mut open, mut depth, mut count) = ([0; 32], 0, 0);
    loop {
        if depth > 0 && lines.close() {
            depth -= 1;
            last[open[depth]] = count as u16;
        } else if let Some(code) = device(lines) {
            if code > 255 {
                return lines.refuse(22);
            } else if depth == 32 {
                return lines.refuse(23);
            } else if room <= count {
                return lines.refuse(27);
            }
            open[depth] = count;
            root[count] = open[0] as u16 + 1;
            level[count] = code as u8;
            depth += 1;
            count += 1;
        } else if depth == 0 {
            return Ok(count);
        } else {
            return Err(lines.unexpected(24, 21));
        }
    }
}

/// Takes the line of a device: its level.
#[inline(always)]
fn device(lines: &mut Lines) -> Option<u64> {
    let (code, end) = lines.number(5)?;
    if lines.four() != DEVICE || lines.byte(4) != b' ' || lines.byte(end) != b'\n' {
        return None;
    }
    lines.take(end + 1);
    Some(code)
}

/// Reads terms up to the end of the plant; `last` is of the devices that it has.
fn read_terms(
    lines: &mut Lines, last: &[u16], terms: &mut [u16], starts: &mut [u32], postings: &mut [u32],
) -> Result<(usize, usize), Refused> {
    let room = terms.len().min(starts.len());
    let (mut count, mut placed, mut before) = (0, 0, 0);
    while !lines.close() {
        let Some(number) = term(lines) else { return Err(lines.unexpected(24, 21)) };
        if number == 0 || number > 65_535 {
            return lines.refuse(22);
        } else if room <= count {
            return lines.refuse(27);
        } else if number <= before {
            return lines.refuse(28);
        }
        terms[count] = number as u16;
        starts[count] = placed as u32;
        before = number;
        count += 1;
        placed = read_postings(lines, last, postings, placed)?;
    }
    Ok((count, placed))
}

/// Takes the line of a term: its number.
#[inline(always)]
fn term(lines: &mut Lines) -> Option<u64> {
    let (number, end) = lines.number(6)?;
    if lines.four() != TERM || lines.byte(4) != b'k' || lines.byte(5) != b' ' || lines.byte(end) != b'\n' {
        return None;
    }
    lines.take(end + 1);
    Some(number)
}

/// Reads the postings of a term, after the first `count`, up to its end.
fn read_postings(lines: &mut Lines, last: &[u16], postings: &mut [u32], mut count: usize) -> Result<usize, Refused> {
    let (mut before, mut reached) = (0, 0);
    while !lines.close() {
        let Some((device, shared)) = posting(lines) else { return Err(lines.unexpected(24, 21)) };
        if device == 0 || device > last.len() as u64 {
            return lines.refuse(22);
        } else if postings.len() <= count {
            return lines.refuse(27);
        } else if device <= reached {
            return lines.refuse(if device <= before { 28 } else { 29 });
        }
        postings[count] = 2 * device as u32 + shared as u32;
        before = device;
        let end = last[device as usize - 1] as u64;
        reached = if shared { end } else { device };
        count += 1;
    }
    Ok(count)
}

/// Takes the line of a posting: its device, and whether it is shared. The word is looked at last and at once, since which of the
/// two it is follows no rule.
#[inline(always)]
fn posting(lines: &mut Lines) -> Option<(u64, bool)> {
    let word = lines.four();
    let (device, end) = lines.number(5)?;
    let known = (word == OWN) | (word == ALL);
    if !known || lines.byte(4) != b' ' || !lines.closes(end) {
        return None;
    }
    lines.take(end + 2);
    Some((device, word == ALL))
}
