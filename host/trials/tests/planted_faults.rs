//! Tests of the tests: a cabinet with a fault planted in it must be told from the model.

mod planted;

use cabinet::Cabinet;
use model::Model;
use planted::{Fault, Planted, ALL};
use trials::crafted;
use trials::crash::{self, Tally};
use trials::differential::Run;

const SEED: u64 = 0x1_D9F7;
const CALLS: u64 = 250_000;
const CUTS: u64 = 20_000;
const LEFT_OUT: u64 = 2_000;
const MOVED: u64 = 1_000;
const CUTS_IN_INDEX: u64 = 1_000;
const LABELS_MOVED: u64 = 100;

/// A fault in how zero sums are stored, which generated images are too few to meet.
const CRAFTED_ONLY: Fault = Fault::TakesBothZeros;

#[test]
fn the_differential_run_finds_planted_faults() {
    for fault in ALL.into_iter().filter(|fault| *fault != CRAFTED_ONLY) {
        let tested = Planted(fault);
        let mut run = Run::new(&Model, &tested, SEED);
        let difference = run.calls(CALLS).expect_err(&format!("{fault:?} was not found"));
        println!("{fault:?} found after {} calls: {}", run.coverage.total(), difference.what);
    }
}

#[test]
fn the_crafted_images_find_planted_faults() {
    let faults = [
        CRAFTED_ONLY,
        Fault::SkipsPadding,
        Fault::NamesNoBlock,
        Fault::SkipsIdsOfIdle,
        Fault::SkipsZerosAfterIds,
        Fault::SkipsBytes20,
        Fault::RestoresVersion1,
        Fault::ConvertsOtherVersion,
        Fault::SkipsIndexOfIdle,
        Fault::SkipsZerosAfterEntries,
        Fault::SkipsEntries,
    ];
    for fault in faults {
        let tested = Planted(fault);
        let mut run = Run::new(&Model, &tested, SEED);
        let found = crafted::images().iter().find_map(|image| crafted::check_refused(&mut run, image).err());
        println!("{fault:?}: {}", found.unwrap_or_else(|| panic!("{fault:?} was not found")));
    }
}

/// Runs a crash trial with a cabinet that has the fault, for each of the faults; each must be found.
fn assert_found(faults: &[Fault], trial: impl Fn([&dyn Cabinet; 2], &mut Tally) -> Result<(), String>) {
    for fault in faults {
        let mut tally = Tally::default();
        let found = trial([&Planted(*fault), &Model], &mut tally);
        println!("{fault:?} after {} steps: {}", tally.steps, found.expect_err(&format!("{fault:?} was not found")));
    }
}

#[test]
fn the_crash_trials_find_planted_faults() {
    let faults = [
        Fault::OverwritesLiveSlot,
        Fault::HidesSlot,
        Fault::HidesBlock0,
        Fault::AckAhead,
        Fault::SecuredStays,
        Fault::WrapsToZero,
        Fault::CountSurvivesBreak,
        Fault::RefusesAt63,
        Fault::ZeroAckIsAll,
        Fault::FreesOnWithdraw,
        Fault::ZeroTimeoutIsNoWait,
        Fault::HidesFurther,
        Fault::LeavesIds,
        Fault::WipesIds,
        Fault::AckEndsRequest,
        Fault::BreakEndsRequests,
        Fault::BreakForgetsMarks,
        Fault::LesserOfZeroIsZero,
        Fault::SecondsAreMilliseconds,
        Fault::CountsElapsedInSeconds,
        Fault::BearsSeconds,
        Fault::RefusesLongWait,
        Fault::IgnoresPublishedForm,
        Fault::TakesRecoveryTime,
    ];
    assert_found(&faults, |cabinets, tally| crash::run(cabinets, SEED, CUTS, tally));
}

#[test]
fn the_crash_trials_find_what_is_wrongly_moved() {
    let faults = [Fault::RoundsSeconds, Fault::KeepsUnit, Fault::LeavesSeconds, Fault::ConvertsBlock0Alone];
    assert_found(&faults, |cabinets, tally| crash::run_converting(cabinets, SEED, MOVED, tally));
}

/// Those that no connection between two such ends shows are the differential run's: messages of a prefix without a
/// label.
#[test]
fn the_crash_trials_find_what_is_wrongly_indexed() {
    let faults = [
        Fault::HidesIndex,
        Fault::NamesBlock66ForAll,
        Fault::LeavesEntries,
        Fault::WipesEntries,
        Fault::KeepsBitsPastLength,
    ];
    assert_found(&faults, |cabinets, tally| crash::run_indexing(cabinets, SEED, CUTS_IN_INDEX, tally));
}

#[test]
fn the_crash_trials_find_what_is_wrongly_moved_in_the_list() {
    let faults = [Fault::KeepsOldEntry, Fault::WritesEntryInPlace, Fault::LeavesOldWord];
    assert_found(&faults, |cabinets, tally| crash::run_renewing(cabinets, SEED, LABELS_MOVED, tally));
}

/// Those that no connection between two such ends shows are the differential run's: a jump of 65, and jumps unresumed.
#[test]
fn the_crash_trials_find_what_is_wrongly_left_out() {
    let faults = [
        Fault::LeavesOutPended,
        Fault::LeavesOutByEarlierAbort,
        Fault::LeavesOutByAnyAbort,
        Fault::LeavesOutNone,
        Fault::LeavesOutOneOnly,
        Fault::CountsPassedOverUnsent,
        Fault::HidesLeftOut,
        Fault::SecuresByOne,
        Fault::ForgetsResumed,
    ];
    assert_found(&faults, |cabinets, tally| crash::run_leaving_out(cabinets, SEED, LEFT_OUT, tally));
}
