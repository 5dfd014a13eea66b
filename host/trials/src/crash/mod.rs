//! Crash trials: two sessions over connections that break, with restarts and power cuts at every store point, stores
//! that are moved to another version and back between, ends that write either form of FT Session, and the demand that
//! nothing is lost and nothing comes twice asserted after every step.

mod convert;
mod demand;
mod end;
mod events;
mod habits;
mod index;
mod left_out;
mod lists;
mod owner;
mod requests;
mod tally;
mod world;

pub use tally::{cuts, Cut, Tally};
pub use world::{run, run_asking, run_converting, run_indexing, run_leaving_out, run_renewing};

fn require(holds: bool, what: &str) -> Result<(), String> {
    if holds {
        Ok(())
    } else {
        Err(what.to_string())
    }
}
