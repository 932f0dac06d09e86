//! A plain writer of plant text, as one would write it without proofs: the same refusals, the length known before the first byte,
//! and each digit stored in its place.
use crate::paper::Tables;
use crate::plain;

/// The most bytes of a plant text.
const LONGEST: usize = 65_536;
/// The most devices open together.
const TIERS: usize = 32;

/// How a posting begins, private and shared. It is looked up, since which of the two it is follows no rule.
const WORDS: [&[u8; 5]; 2] = [b"(own ", b"(all "];

/// The refusal, and the length of the text, at the front of what is lent.
#[inline(never)]
pub fn write_plant(t: &Tables, text: &mut [u8]) -> (u32, usize) {
    let refused = plain::check(t);
    if refused != 0 {
        return (refused, 0);
    }
    if too_deep(&t.last, 0, t.last.len(), 1) {
        return (36, 0);
    }
    let length = length(t);
    if length > text.len().min(LONGEST) {
        return (40, 0);
    }
    let mut out = Out { bytes: text, at: 0 };
    out.word(b"(plant\n");
    out.devices(t, 0, t.last.len());
    out.terms(t);
    out.word(b")\n");
    (0, length)
}

/// Whether a device of a stretch that opens on this tier, or one that it feeds, is on a tier too many. A branch of few devices is
/// passed over: it has no more tiers than devices.
fn too_deep(last: &[u16], from: usize, to: usize, tier: usize) -> bool {
    let mut at = from;
    while at < to {
        let end = last[at] as usize;
        if tier > TIERS || (tier + end - at - 1 > TIERS && too_deep(last, at + 1, end, tier + 1)) {
            return true;
        }
        at = end;
    }
    false
}

/// How many digits a number up to 65,535 has.
fn digits(n: u32) -> u32 {
    1 + (n > 9) as u32 + (n > 99) as u32 + (n > 999) as u32 + (n > 9_999) as u32
}

/// The bytes of the text: of each line and of the line that closes it.
fn length(t: &Tables) -> usize {
    let devices: u32 = t.level.iter().map(|&level| 8 + digits(level as u32)).sum();
    let terms: u32 = t.terms.iter().map(|&term| 9 + digits(term as u32)).sum();
    let postings: u32 = t.postings.iter().map(|&posting| 7 + digits(posting >> 1)).sum();
    (9 + devices + terms + postings) as usize
}

fn digit(n: u32) -> u8 {
    b'0' + (n % 10) as u8
}

/// What is written to the front of a buffer.
struct Out<'a> {
    bytes: &'a mut [u8],
    at: usize,
}

impl Out<'_> {
    #[inline(always)]
    fn word(&mut self, word: &[u8]) {
        self.bytes[self.at..self.at + word.len()].copy_from_slice(word);
        self.at += word.len();
    }

    #[inline(always)]
    fn number(&mut self, n: u32) {
        if n < 10 {
            self.word(&[digit(n)]);
        } else if n < 100 {
            self.word(&[digit(n / 10), digit(n)]);
        } else if n < 1_000 {
            self.word(&[digit(n / 100), digit(n / 10), digit(n)]);
        } else if n < 10_000 {
            self.word(&[digit(n / 1_000), digit(n / 100), digit(n / 10), digit(n)]);
        } else {
            self.word(&[digit(n / 10_000), digit(n / 1_000), digit(n / 100), digit(n / 10), digit(n)]);
        }
    }

    /// The devices of a stretch, each with those that it feeds inside it.
    fn devices(&mut self, t: &Tables, from: usize, to: usize) {
        let mut at = from;
        while at < to {
            let end = t.last[at] as usize;
            self.word(b"(dev ");
            self.number(t.level[at] as u32);
            self.word(b"\n");
            if at + 1 < end {
                self.devices(t, at + 1, end);
            }
            self.word(b")\n");
            at = end;
        }
    }

    fn terms(&mut self, t: &Tables) {
        for (k, &term) in t.terms.iter().enumerate() {
            self.word(b"(mark ");
            self.number(term as u32);
            self.word(b"\n");
            for &posting in plain::list(t, k) {
                self.word(WORDS[(posting & 1) as usize]);
                self.number(posting >> 1);
                self.word(b")\n");
            }
            self.word(b")\n");
        }
    }
}
