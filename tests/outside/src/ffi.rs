//! The proved functions of libc_api.a, as include/plant_search.h declares them, with safe wrappers.
//! A slice is passed as a pointer and a length; an array of fixed length as a pointer.
use crate::paper::{Answer, Index, Query, Tables};

extern "C" {
    fn plant_search_check(
        last: *const u16, last_len: usize, root: *const u16, root_len: usize, level: *const u8, level_len: usize,
        terms: *const u16, terms_len: usize, starts: *const u32, starts_len: usize, postings: *const u32, postings_len: usize,
    ) -> u32;

    fn plant_search_search(
        last: *const u16, last_len: usize, root: *const u16, root_len: usize, level: *const u8, level_len: usize,
        terms: *const u16, terms_len: usize, starts: *const u32, starts_len: usize, postings: *const u32, postings_len: usize,
        second_terms: *const u16, second_terms_len: usize, second_starts: *const u32, second_starts_len: usize,
        second_postings: *const u32, second_postings_len: usize, required: *const u32, required_len: usize,
        forbidden: *const u32, forbidden_len: usize, levels: u32, low: u32, high: u32, start: u32, budget: u32, answer: *mut u16,
        answer_len: usize, numbers: *mut [u32; 4],
    ) -> u32;

    fn plant_search_read_plant(
        text: *const u8, text_len: usize, last: *mut u16, last_len: usize, root: *mut u16, root_len: usize, level: *mut u8,
        level_len: usize, terms: *mut u16, terms_len: usize, starts: *mut u32, starts_len: usize, postings: *mut u32,
        postings_len: usize, numbers: *mut [usize; 4],
    ) -> u32;

    fn plant_search_write_plant(
        last: *const u16, last_len: usize, root: *const u16, root_len: usize, level: *const u8, level_len: usize,
        terms: *const u16, terms_len: usize, starts: *const u32, starts_len: usize, postings: *const u32, postings_len: usize,
        text: *mut u8, text_len: usize, numbers: *mut [usize; 1],
    ) -> u32;

    fn plant_search_repair(
        last: *const u16, last_len: usize, root: *const u16, root_len: usize, level: *const u8, level_len: usize,
        terms: *const u16, terms_len: usize, starts: *mut u32, starts_len: usize, postings: *mut u32, postings_len: usize,
        report: *mut u32, report_len: usize, numbers: *mut [usize; 2],
    ) -> u32;

    fn plant_search_tighten(
        last: *const u16, last_len: usize, root: *const u16, root_len: usize, level: *const u8, level_len: usize,
        terms: *const u16, terms_len: usize, starts: *mut u32, starts_len: usize, postings: *mut u32, postings_len: usize,
        numbers: *mut [usize; 1],
    ) -> u32;

    fn plant_search_read_query(
        text: *const u8, text_len: usize, required: *mut [u32; 8], forbidden: *mut [u32; 8], numbers: *mut [usize; 8],
    ) -> u32;

    fn plant_search_respond(
        plant: *const u8, plant_len: usize, query: *const u8, query_len: usize, out: *mut [u8; 16384],
    ) -> usize;
}

pub fn check(t: &Tables) -> u32 {
    unsafe {
        plant_search_check(
            t.last.as_ptr(),
            t.last.len(),
            t.root.as_ptr(),
            t.root.len(),
            t.level.as_ptr(),
            t.level.len(),
            t.terms.as_ptr(),
            t.terms.len(),
            t.starts.as_ptr(),
            t.starts.len(),
            t.postings.as_ptr(),
            t.postings.len(),
        )
    }
}

pub fn search(t: &Tables, second: &Index, query: &Query, answer: &mut [u16]) -> Answer {
    search_by(t, second, query, query.levels.numbers(), answer)
}

/// A search by these three numbers in place of the query's levels.
pub fn search_by(t: &Tables, second: &Index, query: &Query, [levels, low, high]: [u32; 3], answer: &mut [u16]) -> Answer {
    let mut numbers = [u32::MAX; 4];
    let refusal = unsafe {
        plant_search_search(
            t.last.as_ptr(),
            t.last.len(),
            t.root.as_ptr(),
            t.root.len(),
            t.level.as_ptr(),
            t.level.len(),
            t.terms.as_ptr(),
            t.terms.len(),
            t.starts.as_ptr(),
            t.starts.len(),
            t.postings.as_ptr(),
            t.postings.len(),
            second.terms.as_ptr(),
            second.terms.len(),
            second.starts.as_ptr(),
            second.starts.len(),
            second.postings.as_ptr(),
            second.postings.len(),
            query.required.as_ptr(),
            query.required.len(),
            query.forbidden.as_ptr(),
            query.forbidden.len(),
            levels,
            low,
            high,
            query.start,
            query.budget,
            answer.as_mut_ptr(),
            answer.len(),
            &mut numbers,
        )
    };
    let [count, position, passed, moves] = numbers;
    Answer { refusal, count, position, passed, moves }
}

/// The refusal, and the line, devices, terms and postings; each table is written over whole.
pub fn read_plant(text: &[u8], t: &mut Tables) -> (u32, [usize; 4]) {
    let mut numbers = [usize::MAX; 4];
    let refusal = unsafe {
        plant_search_read_plant(
            text.as_ptr(),
            text.len(),
            t.last.as_mut_ptr(),
            t.last.len(),
            t.root.as_mut_ptr(),
            t.root.len(),
            t.level.as_mut_ptr(),
            t.level.len(),
            t.terms.as_mut_ptr(),
            t.terms.len(),
            t.starts.as_mut_ptr(),
            t.starts.len(),
            t.postings.as_mut_ptr(),
            t.postings.len(),
            &mut numbers,
        )
    };
    (refusal, numbers)
}

/// The refusal, and the length of the text, at the front of what is lent.
pub fn write_plant(t: &Tables, text: &mut [u8]) -> (u32, usize) {
    let mut numbers = [usize::MAX; 1];
    let refusal = unsafe {
        plant_search_write_plant(
            t.last.as_ptr(),
            t.last.len(),
            t.root.as_ptr(),
            t.root.len(),
            t.level.as_ptr(),
            t.level.len(),
            t.terms.as_ptr(),
            t.terms.len(),
            t.starts.as_ptr(),
            t.starts.len(),
            t.postings.as_ptr(),
            t.postings.len(),
            text.as_mut_ptr(),
            text.len(),
            &mut numbers,
        )
    };
    (refusal, numbers[0])
}

/// The refusal, how many postings were dropped and how many there are now; starts, postings and report are written to.
pub fn repair(t: &mut Tables, report: &mut [u32]) -> (u32, [usize; 2]) {
    let mut numbers = [usize::MAX; 2];
    let refusal = unsafe {
        plant_search_repair(
            t.last.as_ptr(),
            t.last.len(),
            t.root.as_ptr(),
            t.root.len(),
            t.level.as_ptr(),
            t.level.len(),
            t.terms.as_ptr(),
            t.terms.len(),
            t.starts.as_mut_ptr(),
            t.starts.len(),
            t.postings.as_mut_ptr(),
            t.postings.len(),
            report.as_mut_ptr(),
            report.len(),
            &mut numbers,
        )
    };
    (refusal, numbers)
}

/// The refusal, and how many postings there are now; starts and postings are written to.
pub fn tighten(t: &mut Tables) -> (u32, usize) {
    let mut numbers = [usize::MAX; 1];
    let refusal = unsafe {
        plant_search_tighten(
            t.last.as_ptr(),
            t.last.len(),
            t.root.as_ptr(),
            t.root.len(),
            t.level.as_ptr(),
            t.level.len(),
            t.terms.as_ptr(),
            t.terms.len(),
            t.starts.as_mut_ptr(),
            t.starts.len(),
            t.postings.as_mut_ptr(),
            t.postings.len(),
            &mut numbers,
        )
    };
    (refusal, numbers[0])
}

/// A query as read: the refusal, the two lists of terms, and line, counts, levels, low, high, start, budget. Levels is 0 for any,
/// 1 for true levels only, 2 for a range; low and high are zeros where there is none.
#[derive(Debug, PartialEq)]
pub struct ReadQuery {
    pub refusal: u32,
    pub required: [u32; 8],
    pub forbidden: [u32; 8],
    pub numbers: [usize; 8],
}

pub fn read_query(text: &[u8]) -> ReadQuery {
    let mut got = ReadQuery { refusal: 0, required: [77; 8], forbidden: [77; 8], numbers: [77; 8] };
    got.refusal =
        unsafe { plant_search_read_query(text.as_ptr(), text.len(), &mut got.required, &mut got.forbidden, &mut got.numbers) };
    got
}

/// How many bytes the response has, and the whole lent array, which held 0xee everywhere.
pub fn respond(plant: &[u8], query: &[u8]) -> (usize, Vec<u8>) {
    let mut out = vec![0xee; 16384];
    let length = respond_into(plant, query, out.as_mut_slice().try_into().unwrap());
    (length, out)
}

/// How many bytes the response has, at the front of what is lent.
pub fn respond_into(plant: &[u8], query: &[u8], out: &mut [u8; 16384]) -> usize {
    unsafe { plant_search_respond(plant.as_ptr(), plant.len(), query.as_ptr(), query.len(), out) }
}
