//! Writing a plant, and reading back what was written: that both ways agree, and how long each takes.
use crate::paper::Tables;
use crate::plants::{self, Size};
use crate::random::Random;
use crate::reading::{filled, Pair, PLANTS};
use crate::time::{clock, Least};
use crate::{ffi, plant_reader, plant_writer};
use std::hint::black_box;

type Write = fn(&Tables, &mut [u8]) -> (u32, usize);
type Read = fn(&[u8], &mut Tables) -> (u32, [usize; 4]);

/// Proved and plain.
const WAYS: [(Write, Read); 2] = [(ffi::write_plant, ffi::read_plant), (plant_writer::write_plant, plant_reader::read_plant)];

/// What writing plants of a size gave: bytes of a text, and seconds.
pub struct Writing {
    pub size: Size,
    pub bytes: usize,
    pub write: Pair,
    /// the writing, and the reading of what was written
    pub back: Pair,
}

/// One plant, tables with room for it, and the times in each way.
struct Job {
    tables: Tables,
    room: Tables,
    bytes: usize,
    write: [Least; 2],
    back: [Least; 2],
}

/// A job over a plant of this size. Both ways were found to agree on it.
fn job(seed: u64, size: Size) -> Job {
    let mut r = Random(seed);
    let tables = plants::plant(&mut r, size);
    let text = tables.text();
    texts_agree(&tables, &text);
    refusals_agree(&mut r, &tables, text.len());
    let room = filled(tables.clone());
    Job { tables, room, bytes: text.len(), write: [Least::NONE; 2], back: [Least::NONE; 2] }
}

/// Each way writes the text, keeps what is behind it, and gives back the tables.
fn texts_agree(t: &Tables, text: &[u8]) {
    for (write, read) in WAYS {
        let mut buffer = vec![7; text.len() + 9];
        assert_eq!(write(t, &mut buffer), (0, text.len()));
        assert!(buffer == [text, &[7; 9]].concat());
        let mut made = filled(t.clone());
        assert_eq!(read(&buffer[..text.len()], &mut made), (0, [0, t.size(), t.terms.len(), t.postings.len()]));
        assert!(made == *t);
    }
}

/// Both ways give the same refusal, length and buffer where it is too short, where one posting or the end of one branch was written
/// over, and where a plant has 32 tiers or one more.
fn refusals_agree(r: &mut Random, t: &Tables, length: usize) {
    let mut seen = [false; 41];
    let mut agree = |t: &Tables, room: usize| {
        let (mut proved, mut plain) = (vec![7; room], vec![7; room]);
        let told = ffi::write_plant(t, &mut proved);
        assert_eq!(plant_writer::write_plant(t, &mut plain), told);
        assert!(proved == plain);
        seen[told.0 as usize] = true;
    };
    for room in [0, length - 1, length, length + 1] {
        agree(t, room);
    }
    let mut copy = t.clone();
    for round in 0..300 {
        let (k, d) = (r.between(1, t.postings.len() - 1), r.below(t.size() - 1));
        copy.postings[k] = [t.postings[k] ^ 1, t.postings[k - 1] + 2, 2 * t.size() as u32 + 2][round % 3];
        agree(&copy, length);
        copy.postings[k] = t.postings[k];
        copy.last[d] = [0, t.size() as u16, d as u16 + 2][round % 3];
        agree(&copy, length);
        copy.last[d] = t.last[d];
    }
    for tiers in [32, 33] {
        agree(&chain(tiers), length);
    }
    assert!([0, 2, 3, 8, 9, 36, 40].iter().all(|&k: &usize| seen[k]));
}

/// A plant of one device on each tier.
fn chain(tiers: u16) -> Tables {
    let n = tiers as usize;
    Tables { last: vec![tiers; n], root: vec![1; n], level: vec![9; n], ..Tables::default() }
}

impl Job {
    /// Writes the plant in one of the ways.
    fn write(&mut self, way: usize, text: &mut [u8]) {
        let (write, _) = WAYS[way];
        self.write[way].of(|| write(black_box(&self.tables), text));
    }

    /// Writes the plant, and reads what was written.
    fn back(&mut self, way: usize, text: &mut [u8]) {
        let (write, read) = WAYS[way];
        self.back[way].of(|| {
            let (_, length) = write(black_box(&self.tables), text);
            read(black_box(&text[..length]), &mut self.room)
        });
    }
}

/// The mean over several plants of this size, which come round so often.
pub fn measure(size: Size, rounds: usize) -> Writing {
    let mut jobs: Vec<Job> = (0..PLANTS).map(|k| job(7 + k, size)).collect();
    let mut text = vec![0; 65_536];
    for _ in 0..rounds {
        for way in 0..WAYS.len() {
            jobs.iter_mut().for_each(|job| job.write(way, &mut text));
            jobs.iter_mut().for_each(|job| job.back(way, &mut text));
        }
    }
    let clock = clock();
    let mean = |of: fn(&Job) -> f64| jobs.iter().map(of).sum::<f64>() / jobs.len() as f64;
    Writing {
        size,
        bytes: mean(|job| job.bytes as f64) as usize,
        write: Pair { proved: mean(|job| job.write[0].0) - clock, plain: mean(|job| job.write[1].0) - clock },
        back: Pair { proved: mean(|job| job.back[0].0) - clock, plain: mean(|job| job.back[1].0) - clock },
    }
}

/// Each plant written once in each way, for a count of instructions.
pub fn count(size: Size) {
    let mut text = vec![0; 65_536];
    for k in 0..PLANTS {
        let t = plants::plant(&mut Random(7 + k), size);
        for (write, _) in WAYS {
            black_box(write(black_box(&t), &mut text));
        }
    }
}
