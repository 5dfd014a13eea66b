//! Crash trials in the gate: at least 10,000 power cuts, with the third demand asserted after every step.

use cabinet::{Cabinet, INDEX_BLOCKS, REQUEST_BLOCK};
use model::Model;
use trials::crash::{cuts, run, run_asking, run_converting, run_indexing, run_leaving_out, run_renewing, Cut, Tally};
use trials::under_test::UnderTest;

const SEED: u64 = 0xCAB;
const CUTS_IN_GATE: u64 = 24_000;
const CUTS_BEFORE_BLOCK_0: u64 = 10_000;
const LEFT_OUT: u64 = 5_000;
const MOVED: u64 = 3_000;
const LABELS_MOVED: u64 = 300;

type Run = fn([&dyn Cabinet; 2], u64, u64, &mut Tally) -> Result<(), String>;

/// Runs worlds of the library until so much has come to pass in them; each ends with everything arrived.
fn tallied(run: Run, seed: u64, enough: u64) -> Tally {
    let mut tally = Tally::default();
    run([&UnderTest, &UnderTest], seed, enough, &mut tally).unwrap();
    println!("{tally}");
    assert_eq!(tally.worlds, tally.drained, "each world ends with everything arrived");
    tally
}

#[test]
fn nothing_is_lost_and_nothing_comes_twice_over_power_cuts() {
    let tally = tallied(run, SEED, CUTS_IN_GATE);
    let in_restore: u64 = cuts().map(|cut| tally.cuts_in("restore", cut)).sum();
    assert!(tally.all_cuts() - in_restore >= 10_000, "cuts beside those in restore");
    assert_eq!(tally.most_held, 64, "the ring was full");
    assert!(tally.full > 0, "a submission was refused for room");
    assert!(tally.given >= 100 && tally.withdrawn >= 100, "labels of both kinds at the end");
    assert!(tally.mixed >= 1_000, "ends that write other forms than their peers");
    for cut in cuts().filter(|cut| *cut != Cut::Further(INDEX_BLOCKS[1])) {
        assert!(tally.cuts_in("submit", cut) >= 100, "submit cut at {cut:?}");
    }
    assert!(tally.cuts_in("receive", Cut::Further(INDEX_BLOCKS[0])) >= 100, "receive cut behind block 66");
    for call in ["receive", "send_next", "init_received", "open", "keepalive", "connection_failed"] {
        for cut in [Cut::Nothing, Cut::NoOutput, Cut::All] {
            assert!(tally.cuts_in(call, cut) >= 100, "{call} cut at {cut:?}");
        }
    }
}

/// 02, ticket 2: "stored in block 65 (then zeros) before block 0 .. so a cut leaves the state before".
#[test]
fn a_cut_between_block_65_and_block_0_leaves_the_state_before() {
    let tally = tallied(run_asking, SEED + 2, CUTS_BEFORE_BLOCK_0);
    assert!(tally.cuts_in("submit", Cut::Further(REQUEST_BLOCK)) >= 10_000, "cuts between block 65 and block 0");
    for (ends, count) in [("aborted", tally.aborted), ("answered", tally.answered), ("stopped", tally.stopped)] {
        assert!(count >= 500, "{count} Requests {ends}");
    }
}

/// 02, ticket 6: "two further blocks, stored before block 0 .. so a cut leaves the old state", in Submit and in
/// Receive.
#[test]
fn a_cut_between_the_index_and_block_0_leaves_the_state_before() {
    let tally = tallied(run_indexing, SEED + 6, CUTS_BEFORE_BLOCK_0);
    for block in INDEX_BLOCKS {
        assert!(tally.cuts_at(Cut::Further(block)) >= 10_000, "cuts between block {block} and block 0");
        for call in ["submit", "receive"] {
            assert!(tally.cuts_in(call, Cut::Further(block)) >= 500, "{call} cut behind block {block}");
        }
    }
}

/// 02, ticket 6: "A received Mapping that would change a listed label's entry moves it": a label that was released is
/// offered anew, of another FEC, before the ACK of its Release has come.
#[test]
fn a_label_that_moves_has_the_entry_of_its_last_mapping() {
    let tally = tallied(run_renewing, SEED + 7, LABELS_MOVED);
    assert!(tally.moved >= LABELS_MOVED, "labels moved to another word");
    for block in INDEX_BLOCKS {
        assert!(tally.cuts_in("receive", Cut::Further(block)) >= 10, "receive cut behind block {block}");
    }
}

/// 02, ticket 3: "Demand 3 then reads accepted, let go and held messages without those left out; these keep their slots
/// until an ACK passes them, and the bound of 64 and the refusal for room count them".
#[test]
fn what_is_left_out_is_all_that_does_not_arrive() {
    let tally = tallied(run_leaving_out, SEED + 3, LEFT_OUT);
    assert!(tally.left_out >= LEFT_OUT, "Requests left out");
    assert!(tally.passed_over > tally.left_out, "some were passed over on more than one connection");
    assert!(tally.full > 0, "a submission was refused for room");
    assert_eq!(tally.accepted, tally.secured + tally.left_out, "accepted is secured and left out");
}

/// 02, ticket 5: "A converter moves version 1 to 2 and back". Block 0 alone is stored, with cuts before and after.
#[test]
fn nothing_is_lost_where_stores_are_moved_between_versions() {
    let tally = tallied(run_converting, SEED + 5, MOVED);
    for call in ["convert_back", "convert_forward"] {
        for cut in [Cut::Nothing, Cut::All] {
            assert!(tally.cuts_in(call, cut) >= 1_000, "{call} cut at {cut:?}");
        }
    }
    assert_eq!(tally.moved_back, tally.moved_forward, "what was moved back was moved forward");
    assert!(tally.unmovable >= 100, "states for which version 1 has no room");
    assert!(tally.mixed >= 100, "ends that write other forms than their peers");
}

#[test]
fn library_and_model_keep_a_session_with_each_other() {
    let mut tally = Tally::default();
    run([&UnderTest, &Model], SEED + 1, CUTS_IN_GATE / 10, &mut tally).unwrap();
}
