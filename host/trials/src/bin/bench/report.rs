//! The table of a benchmark, as text or as Markdown.

use crate::cases::Case;
use crate::measure::Timing;

const SCALAR_GOAL: f64 = 1.0;
const VECTOR_GOAL: f64 = 2.0;

/// A case and its times.
pub struct Row<'a> {
    pub case: &'a Case,
    pub timing: Timing,
}

impl Row<'_> {
    fn cells(&self) -> [String; 10] {
        let Timing { library, scalar, vector, to_scalar, to_vector, floor } = &self.timing;
        let about = self.case.about;
        let name = self.case.call.name();
        [
            if about.is_empty() { name.to_string() } else { format!("{name}: {about}") },
            self.case.held.map_or(String::new(), |held| held.to_string()),
            self.case.messages.to_string(),
            self.case.labels.to_string(),
            format!("{library:.0}"),
            format!("{scalar:.0}"),
            format!("{to_scalar:.2}"),
            format!("{vector:.0}"),
            format!("{to_vector:.2}"),
            format!("{floor:.0}"),
        ]
    }
}

const HEADS: [&str; 10] =
    ["call", "held", "messages", "labels", "library", "model, no vectors", "ratio", "model", "ratio", "floor"];

/// How many rows are above a goal, and the worst of them.
fn summary(rows: &[Row]) -> String {
    let line = |goal: f64, name: &str, ratio: fn(&Timing) -> f64| {
        let above = rows.iter().filter(|row| ratio(&row.timing) > goal).count();
        let worst = rows.iter().map(|row| ratio(&row.timing)).fold(0.0, f64::max);
        format!(
            "Library to {name}: at most {goal:.1} wanted; {above} of {} rows above, worst {worst:.2}.\n",
            rows.len()
        )
    };
    let scalar = line(SCALAR_GOAL, "the model without vector instructions", |timing| timing.to_scalar);
    let vector = line(VECTOR_GOAL, "the model as the compiler likes", |timing| timing.to_vector);
    scalar + &vector
}

/// A Markdown table with how it was made.
pub fn markdown(rows: &[Row]) -> String {
    let mut text = String::from(
        "Times are nanoseconds per call, medians over the rounds; a ratio is the median of the rounds' ratios, library\n\
         to model. Models stand behind a C boundary like the library's. The floor is one read of the bytes that the\n\
         call must read.\n\n    \
         cd host && cargo run --release --bin bench -- --markdown\n\n",
    );
    text += &summary(rows);
    text += &format!("\n| {} |\n|---|--:|---|---|--:|--:|--:|--:|--:|--:|\n", HEADS.join(" | "));
    for row in rows {
        text += &format!("| {} |\n", row.cells().join(" | "));
    }
    text
}

/// The same table with aligned columns.
pub fn text(rows: &[Row]) -> String {
    let line = |cells: [String; 10]| {
        let [call, held, messages, labels, numbers @ ..] = cells;
        let numbers: String = numbers.iter().map(|number| format!("{number:>18}")).collect();
        format!("{call:<40}{held:>5}  {messages:<10}{labels:<11}{numbers}\n")
    };
    let mut text = line(HEADS.map(String::from));
    for row in rows {
        text += &line(row.cells());
    }
    text + &summary(rows)
}
