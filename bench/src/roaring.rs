//! CRoaring: a bitmap for each unshared list, ready before the calls or built in them.
use crate::paper::{device_of, Levels, Query, Tables};
use crate::plain;
use crate::unshared::Unshared;
use std::ptr::null_mut;

#[repr(C)]
struct Bitmap {
    _opaque: [u8; 0],
}

extern "C" {
    fn roaring_bitmap_create() -> *mut Bitmap;
    fn roaring_bitmap_of_ptr(count: usize, values: *const u32) -> *mut Bitmap;
    fn roaring_bitmap_portable_deserialize_safe(bytes: *const u8, length: usize) -> *mut Bitmap;
    fn roaring_bitmap_run_optimize(b: *mut Bitmap) -> bool;
    fn roaring_bitmap_and(a: *const Bitmap, b: *const Bitmap) -> *mut Bitmap;
    fn roaring_bitmap_and_inplace(a: *mut Bitmap, b: *const Bitmap);
    fn roaring_bitmap_andnot(a: *const Bitmap, b: *const Bitmap) -> *mut Bitmap;
    fn roaring_bitmap_andnot_inplace(a: *mut Bitmap, b: *const Bitmap);
    fn roaring_bitmap_get_cardinality(b: *const Bitmap) -> u64;
    fn roaring_bitmap_to_uint32_array(b: *const Bitmap, out: *mut u32);
    fn roaring_bitmap_free(b: *mut Bitmap);
}

/// From so many devices on, those without a true level are taken out by a join and not one by one: it is faster.
const MANY: usize = 1_000;

/// Bitmaps that were made of all lists before the calls.
pub struct Ready {
    /// the bitmap of each term, by its number
    lists: Vec<*mut Bitmap>,
    /// how many devices each holds
    sizes: Vec<usize>,
    /// the devices with a true level
    levelled: *mut Bitmap,
    level: Vec<u8>,
    /// where a listing is unpacked
    room: Vec<u32>,
}

impl Ready {
    pub fn new(unshared: &Unshared, level: &[u8]) -> Ready {
        let lists = unshared.lists.iter().map(|list| ready(list.iter().map(|&d| d as u32))).collect();
        let sizes = unshared.lists.iter().map(Vec::len).collect();
        let levelled = ready((1..).zip(level).filter(|(_, code)| (1..=254).contains(*code)).map(|(d, _)| d));
        Ready { lists, sizes, levelled, level: level.to_vec(), room: vec![0; level.len()] }
    }

    /// The listing, in numbers of 32 bits as CRoaring unpacks them.
    pub fn search(&mut self, q: &Query) -> &[u32] {
        let mut terms = side(&q.required, 0, |term| term);
        let terms = &mut terms[..q.required.len()];
        if terms.len() > 2 {
            terms.sort_unstable_by_key(|&term| self.sizes[term as usize]);
        }
        let made = self.join(terms, &q.forbidden);
        let result = if made.is_null() { self.lists[terms[0] as usize] } else { made };
        let count = self.list(result, q.levels);
        if !made.is_null() {
            free(&[made]);
        }
        &self.room[..count]
    }

    /// Unpacks the devices of a wanted level; how many they are.
    fn list(&mut self, result: *const Bitmap, levels: Levels) -> usize {
        let found = size(result);
        if levels != Levels::TrueOnly || found < MANY {
            return unpack(result, found, levels, &self.level, &mut self.room);
        }
        let levelled = unsafe { roaring_bitmap_and(result, self.levelled) };
        let count = unpack(levelled, size(levelled), Levels::Any, &self.level, &mut self.room);
        free(&[levelled]);
        count
    }

    /// A new bitmap of the devices with all required terms and no forbidden one; null for one required term alone, whose own
    /// bitmap is the result.
    fn join(&self, required: &[u32], forbidden: &[u32]) -> *mut Bitmap {
        let list = |term: u32| self.lists[term as usize];
        let first = list(required[0]);
        let (result, others, barred) = unsafe {
            match (required, forbidden) {
                ([_, second, others @ ..], _) => (roaring_bitmap_and(first, list(*second)), others, forbidden),
                ([_], [barred, rest @ ..]) => (roaring_bitmap_andnot(first, list(*barred)), &[][..], rest),
                _ => return null_mut(),
            }
        };
        narrow(result, others.iter().map(|&term| list(term)), barred.iter().map(|&term| list(term)));
        result
    }
}

impl Drop for Ready {
    fn drop(&mut self) {
        free(&self.lists);
        free(&[self.levelled]);
    }
}

/// A bitmap of devices, with runs where they are shorter.
fn ready(devices: impl Iterator<Item = u32>) -> *mut Bitmap {
    let devices: Vec<u32> = devices.collect();
    unsafe {
        let b = roaring_bitmap_of_ptr(devices.len(), devices.as_ptr());
        roaring_bitmap_run_optimize(b);
        b
    }
}

/// Bitmaps of the lists that a query names, built in each call from lent tables: nothing is kept but room.
pub struct InTheCall {
    /// where a list is written out for CRoaring to read
    bytes: Vec<u8>,
    /// where a listing is unpacked
    room: Vec<u32>,
}

impl InTheCall {
    pub fn new(devices: usize) -> InTheCall {
        InTheCall { bytes: vec![0; HEAD + RUN * devices.div_ceil(2)], room: vec![0; devices] }
    }

    /// The listing, as the ready bitmaps give it. Of three or more required lists that with the fewest postings goes first.
    pub fn search(&mut self, t: &Tables, q: &Query) -> &[u32] {
        let mut lists = side(&q.required, &[][..], |term| plain::list_of(t, term));
        let lists = &mut lists[..q.required.len()];
        if lists.len() > 2 {
            lists.sort_unstable_by_key(|list| list.len());
        }
        let mut build = |list| build(&t.last, list, &mut self.bytes);
        let required = side(lists, null_mut(), &mut build);
        let forbidden = side(&q.forbidden, null_mut(), |term| build(plain::list_of(t, term)));
        let (required, forbidden) = (&required[..lists.len()], &forbidden[..q.forbidden.len()]);
        narrow(required[0], required[1..].iter().copied(), forbidden.iter().copied());
        let count = unpack(required[0], size(required[0]), q.levels, &t.level, &mut self.room);
        free(required);
        free(forbidden);
        &self.room[..count]
    }
}

/// CRoaring's portable form of a bitmap with runs in one container, which has numbers up to 65,535: cookie, that it has runs, its
/// key, its size less one, how many runs; then for each the first number and how many follow it.
const HEAD: usize = 4 + 1 + 2 + 2 + 2;
const RUN: usize = 2 + 2;
const COOKIE: u32 = 12_347;

/// A bitmap of the devices that a list carries its term to. It is written in the portable form, from posting to posting, and read
/// at once: adding numbers or ranges to an empty bitmap takes about twice as long.
fn build(last: &[u16], list: &[u32], bytes: &mut [u8]) -> *mut Bitmap {
    if list.is_empty() {
        return unsafe { roaring_bitmap_create() };
    }
    let (mut at, mut first, mut next, mut size) = (HEAD - RUN, 0, 0, 0);
    for &posting in list {
        let d = device_of(posting);
        if d != next {
            at += RUN;
            first = d;
        }
        next = plain::reach(last, posting) + 1;
        size += next - d;
        put(bytes, at, [first, next - 1 - first]);
    }
    bytes[..4].copy_from_slice(&COOKIE.to_le_bytes());
    bytes[4] = 1;
    put(bytes, 5, [0, size - 1, (at + RUN - HEAD) / RUN]);
    let bitmap = unsafe { roaring_bitmap_portable_deserialize_safe(bytes.as_ptr(), at + RUN) };
    assert!(!bitmap.is_null());
    bitmap
}

/// Writes numbers of 16 bits.
fn put<const N: usize>(bytes: &mut [u8], at: usize, numbers: [usize; N]) {
    for (to, number) in bytes[at..at + 2 * N].chunks_exact_mut(2).zip(numbers) {
        to.copy_from_slice(&(number as u16).to_le_bytes());
    }
}

/// Each of up to eight entries as `f` gives it; the rest of the eight are `none`.
fn side<T: Copy, U: Copy>(entries: &[T], none: U, mut f: impl FnMut(T) -> U) -> [U; 8] {
    let mut side = [none; 8];
    for (to, &from) in side.iter_mut().zip(entries) {
        *to = f(from);
    }
    side
}

/// Keeps in the result what is in all required bitmaps and in no forbidden one.
fn narrow(result: *mut Bitmap, required: impl Iterator<Item = *mut Bitmap>, forbidden: impl Iterator<Item = *mut Bitmap>) {
    for b in required {
        unsafe { roaring_bitmap_and_inplace(result, b) };
    }
    for b in forbidden {
        unsafe { roaring_bitmap_andnot_inplace(result, b) };
    }
}

/// How many devices a bitmap holds.
fn size(b: *const Bitmap) -> usize {
    unsafe { roaring_bitmap_get_cardinality(b) as usize }
}

/// Unpacks the devices of a wanted level into the room, of so many that are found; how many they are.
fn unpack(result: *const Bitmap, found: usize, levels: Levels, level: &[u8], room: &mut [u32]) -> usize {
    unsafe { roaring_bitmap_to_uint32_array(result, room.as_mut_ptr()) };
    match levels {
        Levels::Any => found,
        levels => within(level, plain::codes(levels), &mut room[..found]),
    }
}

/// Moves the devices with a level code from low to high to the front, with no branch; how many they are.
fn within(level: &[u8], (low, high): (u8, u8), devices: &mut [u32]) -> usize {
    let mut count = 0;
    for i in 0..devices.len() {
        let d = devices[i];
        let code = level[d as usize - 1];
        devices[count] = d;
        count += (low <= code && code <= high) as usize;
    }
    count
}

fn free(bitmaps: &[*mut Bitmap]) {
    for &b in bitmaps {
        unsafe { roaring_bitmap_free(b) }
    }
}
