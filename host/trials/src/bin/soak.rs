//! A longer run of the differential and the crash trials, with new seeds, until the time is over.
//!
//! `cargo run --release --bin soak -- --seconds 600 --seed 1`

use cabinet::INDEX_BLOCKS;
use model::Model;
use std::process::ExitCode;
use std::time::{Duration, Instant};
use support::options::{Known, Options};
use trials::crash::{self, Cut, Tally};
use trials::differential::Run;
use trials::under_test::UnderTest;

const CALLS_IN_ROUND: u64 = 100_000;
const CUTS_IN_ROUND: u64 = 2_000;
const LEFT_OUT_IN_ROUND: u64 = 500;
const MOVED_IN_ROUND: u64 = 300;
const CUTS_IN_INDEX_IN_ROUND: u64 = 200;
const LABELS_MOVED_IN_ROUND: u64 = 20;

const KNOWN: Known = Known { flags: &[], values: &["seconds", "seed"], files: 0 };

fn main() -> ExitCode {
    let options = Options::read(&KNOWN, std::env::args_os().skip(1)).and_then(|options| {
        Ok((options.number("seconds", 600, 0..=u64::from(u32::MAX))?, options.number("seed", 1, 0..=u64::MAX)?))
    });
    match options {
        Ok((seconds, seed)) => soak(Duration::from_secs(seconds), seed),
        Err(what) => {
            eprintln!("soak: {what}");
            ExitCode::from(2)
        }
    }
}

/// Rounds until the time is over.
fn soak(time: Duration, first: u64) -> ExitCode {
    let end = Instant::now() + time;
    let (mut calls, mut tally) = (0, Tally::default());
    let mut seed = first;
    while Instant::now() < end {
        if let Err(what) = round(seed, &mut tally) {
            println!("seed {seed}: {what}");
            return ExitCode::FAILURE;
        }
        calls += CALLS_IN_ROUND;
        let Tally { steps, left_out, moved_forward, .. } = tally;
        println!(
            "seed {seed}: {calls} calls alike, {} cuts, {left_out} left out and {moved_forward} moved over {steps} steps",
            tally.all_cuts()
        );
        seed += 1;
    }
    println!("{tally}");
    ExitCode::SUCCESS
}

/// One round of each trial.
fn round(seed: u64, tally: &mut Tally) -> Result<(), String> {
    let mut run = Run::new(&Model, &UnderTest, seed);
    run.calls(CALLS_IN_ROUND).map_err(|difference| format!("{difference:?}"))?;
    let cuts = tally.all_cuts() + CUTS_IN_ROUND;
    crash::run([&UnderTest, &UnderTest], seed, cuts, tally)?;
    let left_out = tally.left_out + LEFT_OUT_IN_ROUND;
    crash::run_leaving_out([&UnderTest, &UnderTest], seed, left_out, tally)?;
    let moved = tally.moved_forward + MOVED_IN_ROUND;
    crash::run_converting([&UnderTest, &UnderTest], seed, moved, tally)?;
    let cuts = INDEX_BLOCKS.map(|block| tally.cuts_at(Cut::Further(block))).into_iter().min().unwrap_or(0);
    crash::run_indexing([&UnderTest, &UnderTest], seed, cuts + CUTS_IN_INDEX_IN_ROUND, tally)?;
    let labels_moved = tally.moved + LABELS_MOVED_IN_ROUND;
    crash::run_renewing([&UnderTest, &UnderTest], seed, labels_moved, tally)
}
