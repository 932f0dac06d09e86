//! The search of the archive that PLANT_SEARCH_BEFORE named to the build, from before an ask could leave out devices that have no
//! true level, and today's, which was linked in the same way.
use crate::paper::{Answer, Index, Query, Tables};

/// A search with an empty second index, for any level or a range: the library before has no word for true levels only.
macro_rules! linked {
    ($search:ident, $symbol:ident) => {
        extern "C" {
            fn $symbol(
                last: *const u16, last_len: usize, root: *const u16, root_len: usize, level: *const u8, level_len: usize,
                terms: *const u16, terms_len: usize, starts: *const u32, starts_len: usize, postings: *const u32,
                postings_len: usize, second_terms: *const u16, second_terms_len: usize, second_starts: *const u32,
                second_starts_len: usize, second_postings: *const u32, second_postings_len: usize, required: *const u32,
                required_len: usize, forbidden: *const u32, forbidden_len: usize, levels: u32, low: u32, high: u32, start: u32,
                budget: u32, answer: *mut u16, answer_len: usize, numbers: *mut [u32; 4],
            ) -> u32;
        }

        pub fn $search(t: &Tables, query: &Query, answer: &mut [u16]) -> Answer {
            let (second, [levels, low, high]) = (Index::default(), query.levels.numbers());
            let mut numbers = [u32::MAX; 4];
            let refusal = unsafe {
                $symbol(
                    t.last.as_ptr(),
                    t.last.len(),
                    t.root.as_ptr(),
                    t.root.len(),
                    t.level.as_ptr(),
                    t.level.len(),
                    t.terms.as_ptr(),
                    t.terms.len(),
                    t.starts.as_ptr(),
                    t.starts.len(),
                    t.postings.as_ptr(),
                    t.postings.len(),
                    second.terms.as_ptr(),
                    second.terms.len(),
                    second.starts.as_ptr(),
                    second.starts.len(),
                    second.postings.as_ptr(),
                    second.postings.len(),
                    query.required.as_ptr(),
                    query.required.len(),
                    query.forbidden.as_ptr(),
                    query.forbidden.len(),
                    levels,
                    low,
                    high,
                    query.start,
                    query.budget,
                    answer.as_mut_ptr(),
                    answer.len(),
                    &mut numbers,
                )
            };
            let [count, position, passed, moves] = numbers;
            Answer { refusal, count, position, passed, moves }
        }
    };
}

linked!(before, plant_search_search_before);
linked!(now, plant_search_search_now);
