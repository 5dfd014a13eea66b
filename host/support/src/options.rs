//! What a program is started with: files, `--flag`, and `--name value`. Anything else is an error in a line.

use std::collections::BTreeMap;
use std::ffi::OsString;
use std::ops::RangeInclusive;

/// What a program takes.
#[derive(Clone, Copy, Debug, Default)]
pub struct Known {
    /// Options without a value.
    pub flags: &'static [&'static str],
    /// Options with one.
    pub values: &'static [&'static str],
    /// How many files are named, neither fewer nor more.
    pub files: usize,
}

/// What a program was started with.
#[derive(Clone, Debug, Default)]
pub struct Options {
    /// The options by their names; a flag has the empty value.
    given: BTreeMap<String, String>,
    pub files: Vec<OsString>,
}

impl Options {
    /// Reads arguments. `-` is a file, and so is everything after `--`.
    pub fn read(known: &Known, arguments: impl Iterator<Item = OsString>) -> Result<Self, String> {
        let mut options = Options::default();
        let mut arguments = arguments.fuse();
        while let Some(argument) = arguments.next() {
            if argument == "--" {
                options.files.extend(arguments.by_ref());
                break;
            }
            match argument.to_str().filter(|word| word.starts_with('-') && *word != "-") {
                Some(word) => options.take(known, word, || arguments.next())?,
                None => options.files.push(argument),
            }
        }
        if options.files.len() == known.files {
            Ok(options)
        } else {
            Err(format!("{} named, and it takes {}", in_words(options.files.len()), in_words(known.files)))
        }
    }

    /// Takes one option, and its value where it has one.
    fn take(&mut self, known: &Known, word: &str, value: impl FnOnce() -> Option<OsString>) -> Result<(), String> {
        let name = word.strip_prefix("--").unwrap_or("");
        let value = if known.flags.contains(&name) {
            String::new()
        } else if known.values.contains(&name) {
            let value = value().and_then(|value| value.into_string().ok()).filter(|value| !value.starts_with("--"));
            value.ok_or(format!("--{name} needs a value"))?
        } else {
            return Err(format!("there is no option {word}"));
        };
        match self.given.insert(name.to_string(), value) {
            Some(_) => Err(format!("--{name} is given twice")),
            None => Ok(()),
        }
    }

    /// A number within a range, or the default where none is given.
    pub fn number(&self, name: &str, default: u64, range: RangeInclusive<u64>) -> Result<u64, String> {
        let Some(value) = self.given.get(name) else { return Ok(default) };
        let number = value.parse().ok().filter(|number| range.contains(number));
        number.ok_or_else(|| match (range.start(), *range.end()) {
            (start, u64::MAX) => format!("--{name} takes a number from {start} on, not {value:?}"),
            (start, end) => format!("--{name} takes a number from {start} to {end}, not {value:?}"),
        })
    }

    /// The value of an option, if it is given.
    pub fn word(&self, name: &str) -> Option<&str> {
        self.given.get(name).map(String::as_str)
    }

    pub fn is_given(&self, name: &str) -> bool {
        self.given.contains_key(name)
    }
}

fn in_words(files: usize) -> String {
    match files {
        0 => "no file".to_string(),
        1 => "one file".to_string(),
        _ => format!("{files} files"),
    }
}

#[cfg(test)]
mod tests {
    use super::*;

    const KNOWN: Known = Known { flags: &["json"], values: &["labels"], files: 1 };

    fn read(arguments: &[&str]) -> Result<Options, String> {
        Options::read(&KNOWN, arguments.iter().map(OsString::from))
    }

    #[test]
    fn options_and_files_in_any_order() {
        let options = read(&["--labels", "12", "-", "--json"]).unwrap();
        assert_eq!(options.number("labels", 40, 1..=60), Ok(12));
        assert!(options.is_given("json"));
        assert_eq!(options.files, ["-"]);
        assert_eq!(read(&["x"]).unwrap().number("labels", 40, 1..=60), Ok(40));
        assert_eq!(read(&["--", "--json"]).unwrap().files, ["--json"]);
    }

    #[test]
    fn what_is_not_known_is_refused() {
        for wrong in [&["--lables", "1", "x"][..], &["-j", "x"], &["x", "y"], &[], &["--json", "--json", "x"]] {
            assert!(read(wrong).is_err(), "{wrong:?}");
        }
        for wrong in [&["x", "--labels"][..], &["x", "--labels", "--json"], &["--labels"]] {
            assert_eq!(read(wrong).unwrap_err(), "--labels needs a value", "{wrong:?}");
        }
    }

    #[test]
    fn a_number_that_does_not_parse_or_is_out_of_range_is_no_default() {
        for wrong in ["", "abc", "0", "61", "-1", "4.5", "99999999999999999999"] {
            let options = read(&["x", "--labels", wrong]).unwrap();
            assert!(options.number("labels", 40, 1..=60).is_err(), "{wrong}");
        }
    }
}
