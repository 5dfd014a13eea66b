//! The tool run as people run it.

// Each test file is a program of its own and uses some of this.
#![allow(dead_code)]

use std::io::Write;
use std::path::PathBuf;
use std::process::{Child, Command, Output, Stdio};

/// A command of the tool.
pub fn tool(arguments: &[&str]) -> Command {
    let mut command = Command::new(program());
    command.args(arguments);
    command
}

/// The tool stands in the directory above that of this test's program. Cargo's variable for it is lost: its name has a
/// hyphen, and the shell that runs tools/without-vectors hands no such variable on.
fn program() -> PathBuf {
    let test = std::env::current_exe().expect("a path");
    test.parent().and_then(|deps| deps.parent()).expect("a directory above").join("ldp-ft")
}

/// Runs the tool with bytes on its standard input.
pub fn run_on(arguments: &[&str], input: &[u8]) -> Output {
    fed(started(arguments), input)
}

/// Runs the tool on bytes where nobody reads what it prints: it waits for its input, and its output is closed before
/// that.
pub fn run_unread(arguments: &[&str], input: &[u8]) -> Output {
    let mut child = started(arguments);
    drop(child.stdout.take());
    fed(child, input)
}

fn started(arguments: &[&str]) -> Child {
    let piped = || Stdio::piped();
    tool(arguments).stdin(piped()).stdout(piped()).stderr(piped()).spawn().expect("the tool starts")
}

fn fed(mut child: Child, input: &[u8]) -> Output {
    // A tool that refuses its arguments, or whose output is closed, need not read all of it.
    let _ = child.stdin.take().expect("a pipe").write_all(input);
    child.wait_with_output().expect("the tool ends")
}

pub fn stdout(output: &Output) -> String {
    String::from_utf8(output.stdout.clone()).expect("text")
}

pub fn stderr(output: &Output) -> String {
    String::from_utf8(output.stderr.clone()).expect("text")
}

/// A file of the repository, by its path from the top.
pub fn repository(path: &str) -> PathBuf {
    PathBuf::from(env!("CARGO_MANIFEST_DIR")).join("../..").join(path)
}

/// True where the text is one JSON value: objects, lists, strings, numbers and words in their places.
pub fn is_json(text: &str) -> bool {
    value(text.trim_end().as_bytes()).is_some_and(|rest| rest.is_empty())
}

/// What stands after the value that comes first.
fn value(text: &[u8]) -> Option<&[u8]> {
    match text {
        [b'{', rest @ ..] => items(rest, b'}', |text| value(string(text.strip_prefix(b"\"")?)?.strip_prefix(b":")?)),
        [b'[', rest @ ..] => items(rest, b']', value),
        [b'"', rest @ ..] => string(rest),
        _ => {
            let word = [&b"true"[..], b"false", b"null"].into_iter().find_map(|word| text.strip_prefix(word));
            let digits = text.iter().take_while(|byte| byte.is_ascii_digit()).count();
            word.or((digits > 0).then(|| &text[digits..]))
        }
    }
}

fn items(text: &[u8], end: u8, item: impl Fn(&[u8]) -> Option<&[u8]>) -> Option<&[u8]> {
    if text.first() == Some(&end) {
        return Some(&text[1..]);
    }
    let mut rest = item(text)?;
    while let Some(more) = rest.strip_prefix(b",") {
        rest = item(more)?;
    }
    rest.strip_prefix(&[end])
}

/// What stands after a string whose opening mark has been read.
fn string(text: &[u8]) -> Option<&[u8]> {
    match text {
        [b'"', rest @ ..] => Some(rest),
        [b'\\', b'u', _, _, _, _, rest @ ..] => string(rest),
        [b'\\', _, rest @ ..] => string(rest),
        [byte, rest @ ..] if *byte >= b' ' => string(rest),
        _ => None,
    }
}
