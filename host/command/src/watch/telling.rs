//! How a run is told: as a story, with every line, or by its result alone.

use super::event::Event;
use super::story::Story;
use crate::json::Value;
use std::io::{self, Write};

const STORY: &str = "\
Two cabinets, north and south, give each other labels, while connections are cut
and processes killed. Held: stored until the peer acknowledges it. Secured: the
peer has stored it.
";
const STORY_ON_DEMAND: &str = "\
Left out: a Request that is not sent again, for its Abort is held behind it.
";
const GLOSSARY: &str = "\
held: accepted for sending and stored until the peer acknowledges it; secured: taken by the peer and stored there; \
let go: acknowledged, and held no more\n";
const GLOSSARY_ON_DEMAND: &str = "\
left out: a Request that was sent on an earlier connection and is not sent again, for its Abort is held behind it; it \
is let go with the Abort\n";

/// Who tells the run.
pub enum Teller {
    Story(Story),
    All,
    /// The result is one JSON object, and nothing is told before it.
    Json,
}

impl Teller {
    /// What stands above everything else.
    pub fn introduce(&self, on_demand: bool) -> io::Result<()> {
        let (words, words_on_demand) = match self {
            Teller::Story(_) => (STORY, STORY_ON_DEMAND),
            Teller::All => (GLOSSARY, GLOSSARY_ON_DEMAND),
            Teller::Json => return Ok(()),
        };
        write(&format!("{words}{}\n", if on_demand { words_on_demand } else { "" }))
    }

    pub fn tell(&mut self, events: Vec<Event>) -> io::Result<()> {
        let text: String = events.iter().map(|event| self.lines(event)).collect();
        write(&text)
    }

    /// What is printed of an event.
    fn lines(&mut self, event: &Event) -> String {
        let lines = match self {
            Teller::Story(story) => story.take(event),
            Teller::All => vec![event.text.clone()],
            Teller::Json => Vec::new(),
        };
        lines.iter().map(|line| format!("{:>7.3}  {line}\n", event.at.as_secs_f64())).collect()
    }

    /// What is printed where the accounts cannot be read; why was told on standard error.
    pub fn without_accounts(&self, fault: String) -> String {
        match self {
            Teller::Story(_) | Teller::All => String::new(),
            Teller::Json => {
                format!("{}\n", Value::Record(vec![("right", false.into()), ("fault", fault.into())]))
            }
        }
    }
}

fn write(text: &str) -> io::Result<()> {
    let mut output = io::stdout().lock();
    output.write_all(text.as_bytes())?;
    output.flush()
}
