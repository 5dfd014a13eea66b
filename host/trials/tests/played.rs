//! Library and model against tests/paper, the third account of the papers: the session script and the stored images
//! that its scripts write.

mod script;

use cabinet::Cabinet;
use model::Model;
use script::Player;
use std::fs;
use std::path::PathBuf;
use trials::under_test::UnderTest;

fn both() -> [&'static dyn Cabinet; 2] {
    [&UnderTest, &Model]
}

fn crates() -> PathBuf {
    PathBuf::from(env!("CARGO_MANIFEST_DIR")).join("../../crates")
}

fn text(path: &str) -> String {
    fs::read_to_string(crates().join(path)).unwrap()
}

/// Each line of the script, on both: what is printed is what tests/session expects.
#[test]
fn the_session_script_is_played_as_the_paper_has_it() {
    let (script, due) = (text("session_cases/stdin"), text("session_cases/stdout"));
    for cabinet in both() {
        let (mut player, mut compared) = (Player::new(cabinet), 0);
        let mut due = due.lines();
        for line in script.lines() {
            player.play(line);
            for shown in player.lines.drain(..) {
                assert_eq!(Some(shown.as_str()), due.next(), "at the line {line}");
                compared += 1;
            }
        }
        assert_eq!(due.next(), None, "lines that were not printed");
        assert!(compared > 3_000, "{compared} lines compared");
    }
}

/// What is said of an image: its counts, or why it is refused.
fn report(cabinet: &dyn Cabinet, image: &[u8]) -> String {
    let counts = cabinet.summarize(image);
    if counts.answer != 0 {
        return format!("refused {} block {}\n", counts.answer, counts.block);
    }
    let numbers = [counts.released, counts.issued, counts.secured, counts.held, counts.pended, counts.labels];
    let names = ["released", "issued", "secured", "held", "pended", "labels"];
    names.iter().zip(numbers).map(|(name, number)| format!("{name} {number}\n")).collect()
}

/// Every image of the printer's cases: the same counts, or the same refusal.
#[test]
fn the_stored_images_are_judged_as_the_paper_has_it() {
    let (names, due) = (text("print_image_cases/args"), text("print_image_cases/stdout"));
    for cabinet in both() {
        let image = |name: &str| fs::read(crates().join("print_image_cases/data").join(name)).unwrap();
        let said: String = names.lines().map(|name| format!("{name}\n{}", report(cabinet, &image(name)))).collect();
        assert_eq!(said, due);
    }
}
