//! Measures the library beside the model, call by call: `cargo run --release --bin bench [-- --markdown]`.

mod cases;
mod exported;
mod measure;
mod report;

use cabinet::Cabinet;
use exported::Exported;
use std::process::ExitCode;
use support::options::{Known, Options};
use trials::under_test::UnderTest;

/// Rounds in which the three are measured one after another.
const ROUNDS: u64 = 41;

const KNOWN: Known = Known { flags: &["markdown"], values: &["rounds", "only"], files: 0 };

fn main() -> ExitCode {
    let table = Options::read(&KNOWN, std::env::args_os().skip(1)).and_then(|options| measure_all(&options));
    match table {
        Ok(table) => {
            print!("{table}");
            ExitCode::SUCCESS
        }
        Err(what) => {
            eprintln!("bench: {what}");
            ExitCode::from(2)
        }
    }
}

/// Measures every case, or those of one call, and gives the table.
fn measure_all(options: &Options) -> Result<String, String> {
    if !model_scalar::WITHOUT_VECTORS {
        return Err("model_scalar has vector instructions: run the benchmark in host/, where .cargo is".to_string());
    }
    let rounds = options.number("rounds", ROUNDS, 1..=100_000)? as usize;
    let mut cases = cases::all();
    if let Some(name) = options.word("only") {
        cases.retain(|case| case.call.name() == name);
    }
    if cases.is_empty() {
        return Err("--only takes the name of a call, without ldp_ft_".to_string());
    }
    let (scalar, vector) = (Exported::<model_scalar::Model>::default(), Exported::<model::Model>::default());
    let subjects: [&dyn Cabinet; 3] = [&UnderTest, &scalar, &vector];
    let row = |(done, case)| {
        if done % 20 == 0 {
            eprintln!("{done} of {} rows", cases.len());
        }
        report::Row { case, timing: measure::measure(case, subjects, rounds) }
    };
    let rows: Vec<report::Row> = cases.iter().enumerate().map(row).collect();
    eprintln!("{} rows, {rounds} rounds each", cases.len());
    Ok(if options.is_given("markdown") { report::markdown(&rows) } else { report::text(&rows) })
}
