//! `ldp-ft image` on good images, on refused ones, and on anything.

mod tool;

use cabinet::{IMAGE_SIZE, INDEX_BLOCKS, REQUEST_BLOCK};
use command::image::report;
use std::fs;
use tool::{is_json, repository, run_on, run_unread, stderr, stdout};
use trials::crafted::{self, asking, two_held};
use trials::entries::{entry, NO_ENTRY};
use trials::generate::{damage, states};
use trials::random::Random;
use trials::stored::{seal, word, Stored, Version, ENTRY_PLACES, REQUEST, STOPPED, STOPPING};

/// The text of a sound image.
fn words(stored: &Stored) -> String {
    let output = run_on(&["image", "-"], &stored.image(0xD1));
    assert_eq!(output.status.code(), Some(0));
    stdout(&output)
}

/// The text of a refused image.
fn refusal(image: &[u8]) -> String {
    let output = run_on(&["image", "-"], image);
    assert_eq!((output.status.code(), stderr(&output).as_str()), (Some(1), ""));
    stdout(&output)
}

/// The six lines of counts, with what each of them says.
fn counts(numbers: [u32; 6]) -> String {
    let [released, issued, secured, held, pended, labels] = numbers;
    format!(
        "released {released}: the peer has acknowledged our messages through this number\n\
         issued {issued}: the last number that one of our messages was given\n\
         secured {secured}: the peer's messages through this number are taken and stored here\n\
         held {held}: our messages that the peer has not acknowledged\n\
         pended {pended}: those of them that have no number yet, for they were never sent\n\
         labels {labels}: places of the label list in use, one for each open Request among them\n"
    )
}

#[test]
fn labels_messages_and_what_was_agreed() {
    assert_eq!(
        words(&two_held()),
        counts([4_294_967_294, 4_294_967_295, 7, 2, 1, 2])
            + "state is kept over a break for 5 seconds\n\
         the peer's KeepAlive time is 30 s, its maximum PDU length 4096\n\
         Requests are not stopped\n\
         label 16: ours, given (code 1)\n\
         label 17: the peer's, using without protection (code 6)\n\
         holds number 4294967295: Label Mapping 0x0400 ID 1: FEC 10.0.0.1/32, label 16, \
         TLV 0x3e01 unknown TLV (length 4)\n\
         holds pended: Address 0x0300 ID 2\n"
    );
}

#[test]
fn requests_and_both_marks() {
    assert_eq!(
        words(&asking()),
        counts([0, 0, 0, 2, 2, 5])
            + "state is kept over a break for ever\n\
         the peer's KeepAlive time is 0 s, its maximum PDU length 0\n\
         Requests are stopped both ways: neither end has label resources\n\
         label 16: ours, given (code 1)\n\
         Request 0 is open: waits for a Mapping or a Notification that names it\n\
         Request 5 is open: waits for a Mapping or a Notification that names it\n\
         Request 6 is open: waits for a Mapping or a Notification that names it\n\
         Request 4294967295 is open: waits for a Mapping or a Notification that names it\n\
         holds pended: Label Abort Request 0x0404 ID 8: FEC 10.0.0.1/32, for Request 4\n\
         holds pended: Notification 0x0001 ID 9: status 0x0000000e No Label Resources (about message 77)\n"
    );
    let stopped = words(&Stored { marks: STOPPED, ..two_held() });
    assert!(stopped.contains("\nRequests are stopped: the peer has no label resources\n"));
    let stopping = words(&Stored { marks: STOPPING, ..two_held() });
    assert!(stopping.contains("\nRequests of the peer are stopped: it was told that we have no label resources\n"));
}

#[test]
fn every_label_code_and_a_second() {
    let mut stored = Stored { timeout: 1_000, ..two_held() };
    for code in [1, 2, 3, 4, 5, 6, 8, 9] {
        stored.labels[code] = word(100 + code as u32, code as u32);
    }
    let text = words(&stored);
    for line in [
        "label 101: ours, given (code 1)",
        "label 102: ours, withdrawing (code 2): waits for the peer's acknowledgement of our Withdraw, and its Release",
        "label 103: the peer's, using (code 3)",
        "label 104: the peer's, asked back (code 4): waits for our Release",
        "label 105: the peer's, releasing (code 5): waits for the peer's acknowledgement of our Release",
        "label 106: the peer's, using without protection (code 6)",
        "label 108: ours, withdrawn and acknowledged (code 8): waits for the peer's Release",
        "label 109: ours, withdrawn and released (code 9): waits for the peer's acknowledgement of our Withdraw",
        "state is kept over a break for 1 second",
    ] {
        assert!(text.lines().any(|printed| printed == line), "{line}\n{text}");
    }
}

/// Each label with the prefix that its own word has; what earlier labels left beside a free word, or a Request's, is
/// not shown.
#[test]
fn labels_with_their_prefixes() {
    let mut stored = two_held();
    stored.entries = [entry(8, 0x0A00_0000); ENTRY_PLACES];
    for (place, word, entry) in [
        (0, word(16, 1), entry(24, 0x0A00_10FF)),
        (1, word(16, 3), entry(0, 0)),
        (60, word(18, 2), entry(32, u32::MAX)),
        (118, word(19, 3), NO_ENTRY),
        (70, REQUEST, entry(24, 0)),
    ] {
        (stored.labels[place], stored.entries[place]) = (word, entry);
    }
    let text = words(&stored);
    let shown: Vec<&str> = text.lines().filter(|line| line.starts_with("label ")).collect();
    assert_eq!(
        shown,
        [
            "label 16 of 10.0.16.0/24: ours, given (code 1)",
            "label 16 of 0.0.0.0/0: the peer's, using (code 3)",
            "label 17 of 10.0.0.0/8: the peer's, using without protection (code 6)",
            "label 18 of 255.255.255.255/32: ours, withdrawing (code 2): waits for the peer's acknowledgement of our \
             Withdraw, and its Release",
            "label 19: the peer's, using (code 3)",
        ]
    );
}

/// In the order of their numbers, wherever they stand; one that is ours and the peer's stands twice.
#[test]
fn labels_are_sorted() {
    let mut stored = two_held();
    for (place, label, code) in [(2, 900, 3), (9, 16, 3), (40, 21, 3), (118, 17, 1)] {
        stored.labels[place] = word(label, code);
    }
    let text = words(&stored);
    let label = |line: &str| line.strip_prefix("label ")?.split(':').next()?.parse().ok();
    let labels: Vec<u32> = text.lines().filter_map(label).collect();
    assert_eq!(labels, [16, 16, 17, 17, 21, 900]);
}

/// Whole seconds as seconds, others with three places.
#[test]
fn the_timeout_in_words() {
    for (milliseconds, told) in [
        (0, "for ever"),
        (1_000, "for 1 second"),
        (30_000, "for 30 seconds"),
        (5_250, "for 5.250 seconds"),
        (7, "for 0.007 seconds"),
        (u32::MAX, "for 4294967.295 seconds"),
    ] {
        let text = words(&Stored { timeout: milliseconds, ..two_held() });
        assert!(text.contains(&format!("\nstate is kept over a break {told}\n")), "{milliseconds}: {text}");
    }
}

#[test]
fn nothing_kept() {
    assert_eq!(words(&Stored::idle()), counts([0; 6]) + "no state is kept\n");
}

/// What to do about damage, which the library cannot mend.
const DAMAGED: &str = "\
what to do: keep this file, and read the store again: it may pass. If no copy passes, all that is left is a new image \
(ldp_ft_format): its session begins fresh, and every label is lost and has to be given anew\n";
const CONVERT: &str = "\
what to do: `ldp-ft convert forward` makes it one of version 2 (in a cabinet ldp_ft_extend, if it is shorter, and \
ldp_ft_convert_forward)\n";
const EXTEND: &str = "what to do: a cabinet of this release makes it whole when it begins with it (ldp_ft_extend)\n";
const OTHER_SIZE: &str = "what to do: see whether this is the right file, and whether it was copied whole\n";

#[test]
fn refusals_in_words() {
    let sound = two_held().image(0xD1);
    let mut bad_check = sound.clone();
    bad_check[64 * 512 + 20] ^= 1;
    let text = refusal(&bad_check);
    assert!(text.starts_with("refused 10 block 64: the check of block 64 (a message held) is wrong: 0x"), "{text}");
    assert!(text.ends_with(DAMAGED), "{text}");
    let mut bad_field = sound.clone();
    bad_field[22] = 2;
    seal(&mut bad_field, 0);
    assert_eq!(
        refusal(&bad_field),
        "refused 11 block 0: a field of block 0 (the session's numbers and its label list) is out of its range; \
         its check is right\n"
            .to_string()
            + DAMAGED
    );
    let mut bad_ids = sound.clone();
    bad_ids[REQUEST_BLOCK * 512 + 500] = 1;
    seal(&mut bad_ids, REQUEST_BLOCK);
    assert!(refusal(&bad_ids).contains("a field of block 65 (the message IDs of open Requests)"));
    for block in INDEX_BLOCKS {
        let mut bad_prefixes = sound.clone();
        bad_prefixes[block * 512 + 480] = 1;
        seal(&mut bad_prefixes, block);
        assert!(refusal(&bad_prefixes).contains(&format!("a field of block {block} (the prefixes of labels)")));
    }
    for length in [100, 0] {
        let told = format!("refused 12 block 0: it has {length} bytes, and an image has {IMAGE_SIZE}\n{OTHER_SIZE}");
        assert_eq!(refusal(&sound[..length]), told);
    }
    assert!(refusal(&[sound, vec![0; 5]].concat()).contains("more than the 34816 bytes"));
}

#[test]
fn images_of_earlier_releases() {
    let (sound, earlier) = (two_held().image(0xD1), two_held().moved(Version::One).unwrap().image(0xD1));
    for stored in [two_held(), Stored::idle()] {
        assert_eq!(
            refusal(&stored.moved(Version::One).unwrap().image(0xD1)),
            format!("refused 11 block 0: block 0 has version 1, as an earlier release stores it\n{CONVERT}")
        );
    }
    for (image, lacks, advice) in [
        (&earlier[..33_280], "its block of Requests", CONVERT),
        (&earlier[..33_792], "its prefixes", CONVERT),
        (&sound[..33_792], "its prefixes", EXTEND),
    ] {
        let length = image.len();
        let told = format!("an image of {length} bytes is one of an earlier release, without {lacks}");
        assert_eq!(refusal(image), format!("refused 12 block 0: {told}\n{advice}"));
    }
}

/// The image printer's cases, made from the paper's words: each with the lines that stand under its name.
fn printers_cases() -> Vec<(String, String)> {
    let names = fs::read_to_string(repository("crates/print_image_cases/args")).unwrap();
    let printed = fs::read_to_string(repository("crates/print_image_cases/stdout")).unwrap();
    let names: Vec<&str> = names.lines().collect();
    let mut cases: Vec<(String, String)> = Vec::new();
    for line in printed.lines() {
        let begins_next = names.get(cases.len()) == Some(&line);
        match cases.last_mut() {
            Some((_, text)) if !begins_next => *text += &format!("{line}\n"),
            _ => cases.push((line.to_string(), String::new())),
        }
    }
    assert_eq!(cases.len(), names.len());
    cases
}

#[test]
fn it_says_what_the_image_printer_says() {
    for (name, printed) in printers_cases() {
        let image = fs::read(repository("crates/print_image_cases/data").join(&name)).unwrap();
        let report = report(&image, false);
        for (line, begins) in report.text.lines().zip(printed.lines()) {
            let words = line.strip_prefix(begins).and_then(|rest| rest.strip_prefix(": "));
            assert!(words.is_some_and(|words| !words.is_empty()), "{name}: {begins}\n{}", report.text);
        }
        assert!(report.text.lines().count() > printed.lines().count());
        assert_eq!(report.refused, printed.starts_with("refused"), "{name}");
    }
}

#[test]
fn for_scripts() {
    let mut stored = two_held();
    stored.entries[0] = entry(32, 0x0A00_0001);
    let output = run_on(&["image", "--json", "-"], &stored.image(0xD1));
    assert_eq!(
        stdout(&output),
        "{\"answer\":0,\"kept\":true,\"released\":4294967294,\"issued\":4294967295,\"secured\":7,\"held\":2,\
         \"pended\":1,\"labels\":2,\"timeout_milliseconds\":5000,\"keepalive_time\":30,\"max_pdu_length\":4096,\
         \"stopped_by_peer\":false,\"stopped_by_us\":false,\"label_words\":[\
         {\"label\":16,\"prefix\":\"10.0.0.1/32\",\"code\":1,\"meaning\":\"ours, given\",\"waits_for\":null},\
         {\"label\":17,\"prefix\":null,\"code\":6,\"meaning\":\"the peer's, using without protection\",\"waits_for\":null}],\
         \"open_requests\":[],\
         \"messages\":[{\"number\":4294967295,\"type\":1024,\"name\":\"Label Mapping\",\"id\":1,\"malformed\":false,\
         \"fec\":[\"10.0.0.1/32\"],\"label\":16,\
         \"other_tlvs\":[{\"type\":15873,\"name\":\"unknown TLV\",\"length\":4}]},\
         {\"number\":null,\"type\":768,\"name\":\"Address\",\"id\":2,\"malformed\":false}]}\n"
    );
    let output = run_on(&["image", "--json", "-"], b"abc");
    assert_eq!(output.status.code(), Some(1));
    let refused = format!(
        "{{\"answer\":12,\"block\":0,\"refused\":\"it has 3 bytes, and an image has {IMAGE_SIZE}\",\
         \"what_to_do\":\"see whether this is the right file, and whether it was copied whole\"}}\n"
    );
    assert_eq!(stdout(&output), refused);
}

#[test]
fn nobody_reads_it() {
    for (image, status) in [(two_held().image(0), 0), (vec![7; 9], 1)] {
        let output = run_unread(&["image", "-"], &image);
        assert_eq!((output.status.code(), stderr(&output).as_str()), (Some(status), ""));
    }
}

#[test]
fn any_image_is_reported() {
    let mut random = Random::new(0x1_D9F7);
    for _ in 0..3_000 {
        let stored = states::state(&mut random);
        let image = damage::image(&mut random, &stored);
        let text = report(&image, false);
        let json = report(&image, true);
        assert!(!text.text.is_empty() && text.refused == json.refused);
        assert!(is_json(&json.text), "{}", json.text);
    }
    for crafted in crafted::images().into_iter().filter(|crafted| crafted.version == Version::Two) {
        let text = report(&crafted.image, false).text;
        let begins = format!("refused {} block {}: ", crafted.answer, crafted.block);
        assert!(text.starts_with(&begins), "{}: {text}", crafted.why);
    }
    for length in [0, 1, 511, 512, 513, IMAGE_SIZE - 1, IMAGE_SIZE, IMAGE_SIZE + 1] {
        assert!(report(&random.bytes(length), false).refused);
    }
}
