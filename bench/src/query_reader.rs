//! A plain reader of query text: one pass, the same refusals.
use crate::ffi::ReadQuery;
use crate::lines::{word, Lines, Refused};

const REQUIRED: u32 = word(b"(nee");
const FORBIDDEN: u32 = word(b"(not");
const LEVEL: u32 = word(b"(lev");
const START: u32 = word(b"(fro");
const BUDGET: u32 = word(b"(mov");

/// What a query says of levels, as it is handed back.
const ANY_LEVEL: usize = 0;
const TRUE_LEVELS: usize = 1;
const RANGE: usize = 2;

/// A line of a query: its rank among the lines, what it says of levels, and its numbers, 0 where there are none.
struct Line {
    rank: usize,
    levels: usize,
    first: u64,
    second: u64,
}

/// No terms, true levels only, start 1, the largest budget.
fn empty() -> ReadQuery {
    let numbers = [0, 0, 0, TRUE_LEVELS, 0, 0, 1, u32::MAX as usize];
    ReadQuery { refusal: 0, required: [0; 8], forbidden: [0; 8], numbers }
}

#[inline(never)]
pub fn read_query(text: &[u8]) -> ReadQuery {
    match read(text) {
        Ok(query) => query,
        Err((refusal, line)) => {
            let mut query = empty();
            (query.refusal, query.numbers[0]) = (refusal, line);
            query
        }
    }
}

fn read(text: &[u8]) -> Result<ReadQuery, Refused> {
    if text.len() > 4_096 {
        return Err((30, 0));
    }
    let mut lines = Lines::new(text);
    lines.open(b"(ask\n", 33, 31)?;
    let (mut query, mut rank) = (empty(), 0);
    while !lines.close() {
        let Some(line) = line(&mut lines) else { return Err(lines.unexpected(33, 31)) };
        if line.rank < rank {
            return lines.refuse(31);
        } else if line.first.max(line.second) > u32::MAX as u64 {
            return lines.refuse(32);
        } else if !set(&mut query, &line) {
            return lines.refuse(35);
        }
        rank = if line.rank < 2 { line.rank } else { line.rank + 1 };
    }
    lines.end(34)?;
    Ok(query)
}

/// Takes a line other than the first and the last.
fn line(lines: &mut Lines) -> Option<Line> {
    let (rank, rest): (usize, &[u8]) = match lines.four() {
        REQUIRED => (0, b"d "),
        FORBIDDEN => (1, b" "),
        LEVEL => (2, b"el "),
        START => (3, b"m "),
        BUDGET => (4, b"es "),
        _ => return None,
    };
    if !lines.goes_on(4, rest) {
        return None;
    }
    let at = 4 + rest.len();
    if rank == 2 && lines.goes_on(at, b"any)\n") {
        lines.take(at + 5);
        return Some(Line { rank, levels: ANY_LEVEL, first: 0, second: 0 });
    }
    let (first, mut end) = lines.number(at)?;
    let mut second = 0;
    if rank == 2 {
        if lines.byte(end) != b' ' {
            return None;
        }
        (second, end) = lines.number(end + 1)?;
    }
    if !lines.closes(end) {
        return None;
    }
    lines.take(end + 2);
    Some(Line { rank, levels: RANGE, first, second })
}

/// Sets what a line says; false: all eight places of its terms are taken.
fn set(query: &mut ReadQuery, line: &Line) -> bool {
    match line.rank {
        0 => put(&mut query.required, &mut query.numbers[1], line.first),
        1 => put(&mut query.forbidden, &mut query.numbers[2], line.first),
        2 => {
            query.numbers[3..6].copy_from_slice(&[line.levels, line.first as usize, line.second as usize]);
            true
        }
        rank => {
            query.numbers[rank + 3] = line.first as usize;
            true
        }
    }
}

fn put(terms: &mut [u32; 8], count: &mut usize, term: u64) -> bool {
    if *count == 8 {
        return false;
    }
    terms[*count] = term as u32;
    *count += 1;
    true
}
