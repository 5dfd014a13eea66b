//! Timing: the subjects take turns within each round; a round's ratio is of times measured next to each other.

use crate::cases::Case;
use cabinet::{Cabinet, IMAGE_SIZE, PLACES};
use std::hint::black_box;
use std::time::{Duration, Instant};
use trials::calls::{invoke, Lent, Returned};

/// Images that one timed batch works on, one call each.
const BATCH: usize = 16;
/// About how long one subject is measured within a round.
const TURN: Duration = Duration::from_micros(150);
const MOST_BATCHES: u32 = 1_000;
/// Enough for every call: the converter writes a whole image.
const ROOM: usize = IMAGE_SIZE;

/// Nanoseconds per call: of the library and both models, and the library's ratio to each model.
pub struct Timing {
    pub library: f64,
    pub scalar: f64,
    pub vector: f64,
    pub to_scalar: f64,
    pub to_vector: f64,
    pub floor: f64,
}

/// Measures a case in so many rounds.
pub fn measure(case: &Case, subjects: [&dyn Cabinet; 3], rounds: usize) -> Timing {
    let mut bench = Bench::new(case, subjects[2]);
    let batches = bench.batches_in_turn(subjects[0]);
    let times: Vec<[f64; 4]> = (0..rounds)
        .map(|round| {
            let mut times = [0.0; 4];
            for turn in 0..3 {
                let subject = (round + turn) % 3;
                times[subject] = bench.turn(subjects[subject], batches);
            }
            times[3] = bench.floor(batches);
            times
        })
        .collect();
    let of = |pick: fn(&[f64; 4]) -> f64| median(times.iter().map(pick).collect());
    Timing {
        library: of(|t| t[0]),
        scalar: of(|t| t[1]),
        vector: of(|t| t[2]),
        to_scalar: of(|t| t[0] / t[1]),
        to_vector: of(|t| t[0] / t[2]),
        floor: of(|t| t[3]),
    }
}

fn median(mut values: Vec<f64>) -> f64 {
    values.sort_by(f64::total_cmp);
    values[values.len() / 2]
}

/// A case with its images, all alike.
struct Bench<'a> {
    case: &'a Case,
    images: Vec<Vec<u8>>,
    out: Vec<u8>,
    words: [u32; PLACES],
    /// The blocks that a call changes.
    changed: Vec<usize>,
}

impl<'a> Bench<'a> {
    fn new(case: &'a Case, cabinet: &dyn Cabinet) -> Self {
        let images = vec![case.image.clone(); BATCH];
        let mut bench = Bench { case, images, out: vec![0; ROOM], words: [0; PLACES], changed: vec![0] };
        let (mut image, input) = (case.image.clone(), case.call.input());
        let lent = Lent { image: &mut image, input, out: &mut bench.out, words: &mut bench.words };
        let returned = invoke(cabinet, &case.call, lent);
        if let Returned::Outcome(outcome) = returned {
            bench.changed.extend(outcome.stores().filter(|block| *block != 0));
        }
        bench
    }

    /// Puts every image back to what it was.
    fn reset(&mut self) {
        for image in self.images.iter_mut().filter(|image| !image.is_empty()) {
            for block in &self.changed {
                let bytes = block * 512..(block + 1) * 512;
                image[bytes.clone()].copy_from_slice(&self.case.image[bytes]);
            }
        }
    }

    /// One call on each image.
    fn batch(&mut self, cabinet: &dyn Cabinet) -> Duration {
        self.reset();
        let input = self.case.call.input();
        let start = Instant::now();
        for image in &mut self.images {
            let lent = Lent { image, input, out: &mut self.out, words: &mut self.words };
            black_box(invoke(cabinet, black_box(&self.case.call), lent));
        }
        start.elapsed()
    }

    fn batches_in_turn(&mut self, cabinet: &dyn Cabinet) -> u32 {
        let once = (0..5).map(|_| self.batch(cabinet)).min().unwrap_or(TURN);
        let batches = TURN.as_nanos() / once.as_nanos().max(1);
        (batches as u32).clamp(1, MOST_BATCHES)
    }

    /// Nanoseconds per call over some batches.
    fn turn(&mut self, cabinet: &dyn Cabinet, batches: u32) -> f64 {
        let time: Duration = (0..batches).map(|_| self.batch(cabinet)).sum();
        time.as_nanos() as f64 / f64::from(batches) / BATCH as f64
    }

    /// Nanoseconds for one read of the bytes that the call must read.
    fn floor(&self, batches: u32) -> f64 {
        let input = self.case.call.input();
        let of_image = self.case.must_read.saturating_sub(input.len()).min(self.case.image.len());
        let of_input = self.case.must_read - of_image;
        let start = Instant::now();
        for _ in 0..batches {
            for image in &self.images {
                black_box(read_once(black_box(&image[..of_image])));
                black_box(read_once(black_box(&input[..of_input])));
            }
        }
        start.elapsed().as_nanos() as f64 / f64::from(batches) / BATCH as f64
    }
}

/// Reads every byte once, as fast as the compiler can.
#[inline(never)]
fn read_once(bytes: &[u8]) -> u64 {
    let eights = bytes.chunks_exact(8);
    let rest = eights.remainder().iter().fold(0, |all, byte| all ^ u64::from(*byte));
    eights.fold(rest, |all, eight| {
        all ^ u64::from_le_bytes([eight[0], eight[1], eight[2], eight[3], eight[4], eight[5], eight[6], eight[7]])
    })
}
