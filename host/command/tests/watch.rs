//! The working pair comes to its end with its accounts in order, however often it is disturbed, and leaves nothing
//! behind.

mod tool;

use cabinet::IMAGE_SIZE;
use std::io::{BufRead, BufReader, Read};
use std::os::unix::process::CommandExt;
use std::process::{Child, ChildStdout, Command, Stdio};
use support::store::Directory;
use tool::{is_json, run_on, stderr, stdout, tool};

/// Runs the pair and gives what it printed.
fn watch(options: &[&str]) -> String {
    let directory = Directory::create("test-watch").unwrap();
    let output = tool(&["watch"]).args(options).env("TMPDIR", directory.path()).output().unwrap();
    let text = stdout(&output);
    assert!(output.status.success(), "{text}{}", stderr(&output));
    assert_eq!(left_behind(&directory), 0);
    text
}

fn left_behind(directory: &Directory) -> usize {
    std::fs::read_dir(directory.path()).unwrap().count()
}

/// Runs the pair with every line told.
fn watch_all(options: &[&str]) -> String {
    watch(&[options, &["--all"]].concat())
}

/// All accounts add up, and the last line says so; how many messages there were, and how many of them left out.
fn accounted(text: &str) -> (usize, usize) {
    assert_eq!(text.matches("\n  yes ").count(), 20, "{text}");
    assert!(!text.contains("\n  NO "), "{text}");
    verdict(text)
}

/// The last line is the verdict, and a good one.
fn verdict(text: &str) -> (usize, usize) {
    let last = text.lines().last().unwrap();
    let number = |words: &str| words.split(' ').next().and_then(|word| word.parse().ok());
    let messages: usize = number(last).unwrap();
    let secured: usize = last.split(": ").nth(1).and_then(number).unwrap();
    let left_out = messages - secured;
    let told = if left_out == 0 { String::new() } else { format!(", {left_out} left out") };
    let right = format!("{messages} messages: {secured} secured{told}, none lost, none twice; both lists agree");
    assert_eq!(last, right);
    (messages, left_out)
}

/// A line of the log: who did what, and when.
struct Event<'a> {
    time: f64,
    name: &'a str,
    what: &'a str,
}

impl<'a> Event<'a> {
    /// None of a line that is not of the log.
    fn read(line: &'a str) -> Option<Self> {
        let (time, rest) = line.trim_start().split_once("  ")?;
        let (name, what) = rest.split_once(' ')?;
        Some(Event { time: time.parse().ok()?, name, what: what.trim_start() })
    }
}

/// Times go forwards, and after a cabinet is killed it does nothing until it is restored. A connection breaks after a
/// cut or a kill, never before it, and never at the end.
fn assert_log_in_order(text: &str) {
    let log: Vec<Event> = text.lines().filter_map(Event::read).collect();
    assert!(log.windows(2).all(|pair| pair[0].time <= pair[1].time), "{text}");
    for name in ["north", "south"] {
        let own: Vec<&Event> = log.iter().filter(|event| event.name == name).collect();
        for pair in own.windows(2).filter(|pair| pair[0].what == "is killed") {
            assert!(pair[1].what.starts_with("restored from its store"), "{name} {}", pair[1].what);
        }
        assert_eq!(own.last().map(|event| event.what), Some("ends"));
    }
    // Whether there was a cut or a kill since each cabinet last found its connection broken.
    let mut caused = [false; 2];
    for Event { time, name, what } in log {
        if what == "is killed" || what == "cuts the connection" {
            caused = [true; 2];
        } else if what.starts_with("connection broken") {
            let end = usize::from(name == "south");
            assert!(std::mem::take(&mut caused[end]), "{name} at {time}\n{text}");
        }
    }
}

#[test]
fn a_quiet_pair() {
    let text = watch_all(&["--labels", "12", "--cut-every", "0", "--kill-every", "0"]);
    assert_eq!(accounted(&text), (40, 0));
    assert_log_in_order(&text);
    assert!(text.contains("\n0 cuts, 0 kills, 0 sent again, "));
    assert!(text.starts_with("held: ") && text.contains("; secured: ") && text.contains("; let go: "));
    assert!(!text.contains("re-sends") && !text.contains("broken"), "{text}");
    for line in ["north gives", "south uses "] {
        assert!(text.contains(&format!("\n{line} 17 of 10.0.0.17/32, 18 of 10.0.0.18/32, 20 of ")), "{text}");
    }
}

/// Each of the two may write either form: they come to terms, resume over cuts and kills, and keep their state equally
/// long.
#[test]
fn pairs_of_every_form_that_are_cut_and_killed() {
    let forms = [("draft", ["draft", "draft"]), ("published", ["published"; 2]), ("mixed", ["draft", "published"])];
    for (form, [north, south]) in forms {
        let text = watch_all(&["--labels", "20", "--cut-every", "7", "--kill-every", "11", "--form", form]);
        assert_eq!(accounted(&text), (64, 0));
        for (name, ours, theirs) in [("north", north, south), ("south", south, north)] {
            let inits = format!("; Inits: ours {ours}, the peer's {theirs}; state is kept for 600 seconds");
            let told: Vec<&str> = text.lines().filter(|line| line.contains(&inits)).collect();
            assert!(
                told.iter().any(|line| line.contains(&format!("{name:<6} resumes its session"))),
                "{inits}\n{text}"
            );
        }
        assert_eq!(text.matches("; Inits: ").count(), text.matches("state is kept for 600 seconds").count());
    }
}

/// What a pair on demand says; one that is killed may die before it says what it has just done.
fn assert_asked(text: &str) {
    for what in ["Request 10000", "Abort for Request", "'No label resources' for", "'Label resources available'"] {
        assert!(text.contains(what), "{what}\n{text}");
    }
}

#[test]
fn a_quiet_pair_on_demand() {
    let text = watch_all(&["--labels", "12", "--cut-every", "0", "--kill-every", "0", "--on-demand"]);
    let (messages, left_out) = accounted(&text);
    assert!(messages > 60 && left_out == 0, "{text}");
    assert_asked(&text);
    assert!(text.contains("refused with 14"), "{text}");
}

#[test]
fn a_pair_on_demand_that_is_cut_and_killed_all_the_time() {
    let text = watch_all(&["--labels", "25", "--cut-every", "3", "--kill-every", "5", "--on-demand"]);
    let (messages, left_out) = accounted(&text);
    assert!(messages > 120 && left_out > 0, "{text}");
    assert_asked(&text);
    assert_log_in_order(&text);
    assert!(text.contains("\nleft out: ") && text.contains("its Abort is held"), "{text}");
    assert!(text.contains(" left out before it"), "{text}");
}

#[test]
fn a_pair_that_is_cut_and_killed_all_the_time() {
    let text = watch_all(&["--labels", "30", "--cut-every", "3", "--kill-every", "5"]);
    assert_eq!(accounted(&text), (100, 0));
    assert_log_in_order(&text);
    for what in ["resumes its session", "is killed", "re-sends Mapping of label"] {
        assert!(text.contains(what), "{what}\n{text}");
    }
}

/// What is told by default can be followed: few lines, none of them long, and every one of a kind that is meant.
#[test]
fn a_story() {
    let text = watch(&[]);
    assert_eq!(verdict(&text), (132, 0));
    assert!(text.lines().all(|line| line.chars().count() <= 80), "{text}");
    assert!((20..=60).contains(&text.lines().count()), "{text}");
    for what in ["north  starts with a new store", "a fresh session begins", " cuts the connection", " is killed"] {
        assert!(text.contains(what), "{what}\n{text}");
    }
    let (mut kills, mut restored) = (0, 0);
    for line in text.lines().filter(|line| Event::read(line).is_some()) {
        kills += usize::from(line.ends_with(" is killed"));
        restored += usize::from(line.contains("restored from its store: "));
        assert!(!line.contains("broken") && !line.contains("ends"), "{line}\n{text}");
    }
    assert!(kills > 0 && kills == restored, "{text}");
    assert!(text.contains("; sent again: north ") && text.contains(", south "), "{text}");
    assert!(text.contains("north gives 27 labels, south uses 27\n"), "{text}");
}

#[test]
fn a_story_on_demand() {
    let text = watch(&["--on-demand", "--labels", "20", "--cut-every", "9", "--kill-every", "31"]);
    let (messages, _) = verdict(&text);
    assert!(messages > 100 && text.contains("\nLeft out: "), "{text}");
    assert!(text.lines().all(|line| line.chars().count() <= 80), "{text}");
}

#[test]
fn the_result_for_scripts() {
    let text = watch(&["--json", "--labels", "12"]);
    assert!(text.lines().count() == 1 && is_json(&text), "{text}");
    for field in [
        "{\"right\":true,\"fault\":null,\"cuts\":",
        ",\"kills\":1,\"sent_again\":",
        "\"accepted\":40,\"secured\":40,\"left_out\":0,\"lost\":0,\"twice\":0,",
        "\"lists_agree\":true,\"accounts_add_up\":true,\"north_gives\":[17,18,20,21,23,24,26,27],",
        "\"verdict\":\"40 messages: 40 secured, none lost, none twice; both lists agree\"}",
    ] {
        assert!(text.contains(field), "{field}\n{text}");
    }
}

/// The stores stay where that is asked for, and a second pair does not take them up.
#[test]
fn stores_that_are_kept() {
    let directory = Directory::create("test-keep").unwrap();
    let kept = directory.file("kept");
    let options = ["watch", "--labels", "3", "--keep", kept.to_str().unwrap()];
    let output = run_on(&options, b"");
    assert_eq!((output.status.code(), stderr(&output).as_str()), (Some(0), ""));
    for name in ["north.store", "south.store"] {
        assert_eq!(std::fs::metadata(kept.join(name)).unwrap().len(), IMAGE_SIZE as u64);
        let shown = run_on(&["image", kept.join(name).to_str().unwrap()], b"");
        assert_eq!(shown.status.code(), Some(0), "{}", stdout(&shown));
        assert!(stdout(&shown).contains("\nlabels 4: "), "{}", stdout(&shown));
        assert!(stdout(&shown).contains("\nlabel 17 of 10.0.0.17/32: "), "{}", stdout(&shown));
    }
    assert!(!kept.join("port").exists());
    let output = run_on(&options, b"");
    assert_eq!((output.status.code(), stdout(&output).as_str()), (Some(2), ""));
    assert!(stderr(&output).contains("is not empty"), "{}", stderr(&output));
}

#[test]
fn a_directory_for_temporary_files_that_is_not_there() {
    let output = tool(&["watch"]).env("TMPDIR", "/no/such/directory").output().unwrap();
    assert_eq!((output.status.code(), stdout(&output).as_str()), (Some(2), ""));
    let complaint = stderr(&output);
    assert!(complaint.starts_with("ldp-ft: /no/such/directory/ldp-ft-watch-"), "{complaint}");
    assert_eq!(complaint.lines().count(), 1);
}

/// A pair that has begun and takes long, in a process group of its own as under a shell.
fn begun(directory: &Directory) -> (Child, BufReader<ChildStdout>) {
    let mut child = tool(&["watch", "--all", "--labels", "59", "--kill-every", "1"])
        .env("TMPDIR", directory.path())
        .process_group(0)
        .stdout(Stdio::piped())
        .stderr(Stdio::piped())
        .spawn()
        .unwrap();
    let mut output = BufReader::new(child.stdout.take().unwrap());
    let mut line = String::new();
    while !line.contains("secures") {
        line.clear();
        assert_ne!(output.read_line(&mut line).unwrap(), 0);
    }
    assert_eq!(left_behind(directory), 1);
    (child, output)
}

/// Both cabinets hold standard error open; it ends once they have.
fn assert_ended(mut child: Child, status: i32, told: &str, directory: &Directory) {
    let mut complaints = String::new();
    child.stderr.take().unwrap().read_to_string(&mut complaints).unwrap();
    assert_eq!((child.wait().unwrap().code(), complaints.as_str()), (Some(status), told));
    assert_eq!(left_behind(directory), 0);
}

/// Sends a signal to a pair whose output is read on, and looks that it ends by it.
fn assert_ended_by(signal: &str, number: i32, whom: impl Fn(u32) -> String) {
    let directory = Directory::create("test-signal").unwrap();
    let (child, mut output) = begun(&directory);
    let reader = std::thread::spawn(move || output.read_to_end(&mut Vec::new()).unwrap());
    let status = Command::new("sh").args(["-c", &format!("kill -s {signal} -- {}", whom(child.id()))]).status();
    assert!(status.unwrap().success());
    let told = format!("ldp-ft: signal {number} ended the run before its end: there is no verdict\n");
    assert_ended(child, 128 + number, &told, &directory);
    reader.join().unwrap();
}

#[test]
fn a_signal_leaves_nothing_behind_and_no_verdict() {
    for (signal, number) in [("TERM", 15), ("INT", 2), ("HUP", 1)] {
        assert_ended_by(signal, number, |child| child.to_string());
    }
}

/// As Ctrl-C does it: the cabinets get the signal too.
#[test]
fn a_signal_to_all_leaves_nothing_behind() {
    assert_ended_by("INT", 2, |child| format!("-{child}"));
}

#[test]
fn nothing_is_left_behind_where_nobody_reads_on() {
    let directory = Directory::create("test-closed").unwrap();
    let (child, output) = begun(&directory);
    drop(output);
    assert_ended(child, 0, "", &directory);
}
