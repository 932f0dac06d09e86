//! The whole job in plain Rust: both texts in, the printed answer out.
use crate::ffi::ReadQuery;
use crate::paper::{Answer, Levels, Query, Tables};
use crate::plant_reader::read_plant;
use crate::query_reader::read_query;

/// A search over tables: with their check, or the steps alone.
pub type Search = fn(&Tables, &Query, &mut [u16]) -> Answer;

/// Tables with room for what the program has room for.
pub fn room() -> Tables {
    let (last, root, level) = (vec![0; 1_024], vec![0; 1_024], vec![0; 1_024]);
    Tables { last, root, level, terms: vec![0; 256], starts: vec![0; 256], postings: vec![0; 4_096] }
}

/// What is written to the front of a buffer.
struct Out<'a> {
    bytes: &'a mut [u8; 16384],
    at: usize,
}

impl Out<'_> {
    fn word(mut self, word: &[u8]) -> Self {
        self.bytes[self.at..self.at + word.len()].copy_from_slice(word);
        self.at += word.len();
        self
    }

    fn number(mut self, mut n: u32) -> Self {
        let end = self.at + n.checked_ilog10().unwrap_or(0) as usize + 1;
        for digit in self.bytes[self.at..end].iter_mut().rev() {
            *digit = b'0' + (n % 10) as u8;
            n /= 10;
        }
        self.at = end;
        self
    }

    /// A line of a word, a number and a closing bracket.
    fn line(self, word: &[u8], n: u32) -> Self {
        self.word(word).number(n).word(b")\n")
    }
}

/// The answer to a query text over a plant text, or why one of them is refused; how many bytes it has.
pub fn respond(plant: &[u8], query: &[u8], bytes: &mut [u8; 16384], search: Search) -> usize {
    let out = Out { bytes, at: 0 };
    let mut t = room();
    let (refusal, [line, devices, terms, postings]) = read_plant(plant, &mut t);
    if refusal != 0 {
        return out.word(b"(refused plant ").number(refusal).line(b" ", line as u32).at;
    }
    t.last.truncate(devices);
    t.root.truncate(devices);
    t.level.truncate(devices);
    t.terms.truncate(terms);
    t.starts.truncate(terms);
    t.postings.truncate(postings);
    let asked = read_query(query);
    if asked.refusal != 0 {
        return out.word(b"(refused ask ").number(asked.refusal).line(b" ", asked.numbers[0] as u32).at;
    }
    answer(&t, &query_of(&asked), out, search)
}

fn query_of(asked: &ReadQuery) -> Query {
    let [_, required, forbidden, levels, low, high, start, budget] = asked.numbers;
    Query {
        required: asked.required[..required].to_vec(),
        forbidden: asked.forbidden[..forbidden].to_vec(),
        levels: match levels {
            0 => Levels::Any,
            1 => Levels::TrueOnly,
            _ => Levels::Range(low as u32, high as u32),
        },
        start: start as u32,
        budget: budget as u32,
    }
}

fn answer(t: &Tables, q: &Query, mut out: Out, search: Search) -> usize {
    let mut listing = [0; 1_024];
    let found = search(t, q, &mut listing);
    if found.refusal != 0 {
        return out.line(b"(refused query ", found.refusal).at;
    }
    out = out.word(b"(answer\n");
    for &device in &listing[..found.count as usize] {
        out = out.line(b"(device ", device as u32);
    }
    out = out.line(b"(place ", found.position).line(b"(passed ", found.passed);
    out.line(b"(moves ", found.moves).word(b")\n").at
}
