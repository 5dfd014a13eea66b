//! `ldp-ft dump` on real traffic, on streams and lines that are wrong, and on anything.

mod tool;

use cabinet::Cabinet;
use command::dump::dump;
use ldp_ft::Library;
use std::fs;
use std::io::Cursor;
use support::hex;
use support::store::Directory;
use support::wire::{pdu, tlvs, types, Message};
use tool::{is_json, repository, run_on, run_unread, stderr, stdout};
use trials::generate::{malformed, states};
use trials::random::Random;

const CAPTURES: [&str; 4] = ["basic", "dual-stack", "three-routers", "typed-wildcard-requests"];

/// Dumps bytes, and tells whether all was sound.
fn dumped(input: &[u8], json: bool) -> (String, bool) {
    let mut output = Vec::new();
    let sound = dump("-", &mut Cursor::new(input), &mut output, json).unwrap();
    (String::from_utf8(output).unwrap(), sound)
}

/// What stands between a mark and the next character of those given, each time.
fn after<'a>(text: &'a str, mark: &'a str, ends: &'static [char]) -> impl Iterator<Item = &'a str> {
    text.split(mark).skip(1).map(move |rest| rest.split(ends).next().unwrap_or(""))
}

/// A capture's PDUs in hexadecimal, and the type and ID of each message as Wireshark reads them.
fn capture(name: &str) -> (Vec<String>, Vec<(u32, u32)>) {
    let text = fs::read_to_string(repository(&format!("tests/captures/{name}.jsonl"))).unwrap();
    let pdus = after(&text, "\"hex\":\"", &['"']).map(String::from).collect();
    let message = |part: &str| {
        let (head, id) = part.split_once(",\"id\":")?;
        let message_type = head.split_once(',')?.0.parse().ok()?;
        let id = id.split(',').next()?.parse().ok()?;
        head.contains("\"u\":").then_some((message_type, id))
    };
    let messages = text.split("{\"type\":").skip(1).filter_map(message).collect();
    (pdus, messages)
}

/// The type and ID of each message that was printed.
fn printed(text: &str) -> Vec<(u32, u32)> {
    let message = |line: &str| {
        let (message_type, rest) = line.split_once(" 0x")?.1.split_once(" ID ")?;
        let id = rest.split(':').next()?.parse().ok()?;
        Some((u32::from_str_radix(message_type, 16).ok()?, id))
    };
    text.lines().filter(|line| line.starts_with("  ")).filter_map(message).collect()
}

#[test]
fn captures_are_read_as_wireshark_reads_them() {
    for name in CAPTURES {
        let (pdus, messages) = capture(name);
        assert!(pdus.len() > 20 && messages.len() > 30, "{name}: {} PDUs", pdus.len());
        let (text, sound) = dumped((pdus.join("\n") + "\n").as_bytes(), false);
        assert!(sound, "{name}: {text}");
        assert_eq!(printed(&text), messages, "{name}");
        assert_eq!(text.lines().filter(|line| line.starts_with("PDU ")).count(), pdus.len());
        assert!(!text.contains("unknown"), "{text}");
        let stream = hex::bytes(pdus.concat().as_bytes()).unwrap();
        assert_eq!(dumped(&stream, false), (text, true));
    }
}

#[test]
fn a_capture_in_words() {
    let (pdus, _) = capture("basic");
    let (text, _) = dumped(pdus.join("\n").as_bytes(), false);
    for line in [
        "PDU 0 from 10.255.0.1:0, 42 bytes",
        "  Hello 0x0100 ID 1: hold time 15 s, transport address 10.255.0.1, \
         TLV 0x0402 Configuration Sequence Number (length 4)",
    ] {
        assert!(text.lines().any(|printed| printed == line), "{line}\n{text}");
    }
    for what in ["Label Mapping 0x0400", "FEC 10.255.0.1/32, label 3", "status 0x8000000a Shutdown (fatal)"] {
        assert!(text.contains(what), "{what}\n{text}");
    }
}

/// The lines of the proved dump program say the same PDU, type and ID.
#[test]
fn it_agrees_with_ldp_dump() {
    let input = fs::read(repository("crates/ldp_dump/stdin")).unwrap();
    let lines = fs::read_to_string(repository("crates/ldp_dump/stdout")).unwrap();
    let expected: Vec<(u32, u32)> = lines
        .lines()
        .map(|line| {
            let fields: Vec<&str> = line.split(' ').collect();
            (u32::from_str_radix(&fields[2][2..], 16).unwrap(), fields[3].parse().unwrap())
        })
        .collect();
    let (text, sound) = dumped(&input, false);
    assert!(sound);
    assert_eq!(printed(&text), expected);
}

/// Both sides as `tshark -z follow,tcp,raw` writes them; a PDU of each goes over two lines.
#[test]
fn tsharks_lines_of_two_sides() {
    let of = |lsr: u32, id: u32| hex::digits(&pdu(lsr, &[Message::new(types::KEEPALIVE, id).bytes()]));
    let (ours, theirs) = (of(0x0A00_0001, 1), of(0x0A00_0002, 2));
    let ((a, b), (c, d)) = (ours.split_at(10), theirs.split_at(20));
    let frame = "=".repeat(67);
    let text = format!(
        "\n{frame}\nFollow: tcp,raw\nFilter: tcp.stream eq 0\nNode 0: 10.0.0.1:646\nNode 1: 10.0.0.2:3000\n\
         {a}\n\t{c}\n{b}\n\t{d}\n{frame}\n"
    );
    let expected = "PDU 0 from 10.0.0.1:0, 18 bytes\n  KeepAlive 0x0201 ID 1\n\
                    PDU 1 from 10.0.0.2:0, 18 bytes\n  KeepAlive 0x0201 ID 2\n";
    assert_eq!(dumped(text.as_bytes(), false), (expected.to_string(), true));
}

#[test]
fn fault_tolerance_in_words() {
    let init = Message::new(types::INITIALIZATION, 1).parameters(30, 4096).ft_session(true, 0).ack(7).bytes();
    let mapping = Message::new(types::MAPPING, 9).fec(&[2, 0, 1, 24, 10, 0, 0]).label(16).protection(27).bytes();
    let (text, sound) = dumped(&pdu(0x0A00_0001, &[init, mapping]), false);
    assert_eq!(
        text,
        "PDU 0 from 10.0.0.1:0, 87 bytes\n\
         \x20 Initialization 0x0200 ID 1: KeepAlive time 30 s, maximum PDU length 4096, downstream unsolicited, \
         for 192.0.2.1:0, FT Session reconnects, keeps state for ever, FT ACK 7\n\
         \x20 Label Mapping 0x0400 ID 9: FEC 10.0.0.0/24, label 16, FT number 27\n"
    );
    assert!(sound);
}

/// Both forms of FT Session, each in its own unit for scripts.
#[test]
fn both_forms_of_ft_session() {
    let init = || Message::new(types::INITIALIZATION, 1);
    let forms =
        [init().ft_session(true, 5), init().ft_session_published(true, 5_250), init().ft_session_published(false, 0)];
    let stream = pdu(1, &forms.map(|message| message.bytes()));
    let (text, sound) = dumped(&stream, false);
    assert_eq!(
        text,
        "PDU 0 from 0.0.0.1:0, 74 bytes\n\
         \x20 Initialization 0x0200 ID 1: FT Session reconnects, keeps state for 5 seconds\n\
         \x20 Initialization 0x0200 ID 1: FT Session of RFC 3479 reconnects, keeps state for 5.250 seconds\n\
         \x20 Initialization 0x0200 ID 1: FT Session of RFC 3479 begins, keeps state for ever\n"
    );
    assert!(sound);
    let (json, _) = dumped(&stream, true);
    for record in [
        "\"ft_session\":{\"form\":\"draft\",\"reconnect\":true,\"timeout_seconds\":5}",
        "\"ft_session\":{\"form\":\"published\",\"reconnect\":true,\"timeout_milliseconds\":5250}",
        "\"ft_session\":{\"form\":\"published\",\"reconnect\":false,\"timeout_milliseconds\":0}",
    ] {
        assert!(json.contains(record), "{record}\n{json}");
    }
}

#[test]
fn what_is_malformed_is_named_and_the_rest_shown() {
    let keepalive = |id: u32| Message::new(types::KEEPALIVE, id).bytes();
    let mapping = Message::new(types::MAPPING, 5).fec(&[1]).bytes();
    let mut does_not_split = pdu(1, &[keepalive(6)]);
    does_not_split[13] = 3;
    let stream = [pdu(1, &[mapping, keepalive(1)]), does_not_split, pdu(1, &[keepalive(2)])].concat();
    let output = run_on(&["dump", "-"], &stream);
    assert_eq!(output.status.code(), Some(1));
    assert_eq!(
        stdout(&output),
        "PDU 0 from 0.0.0.1:0, 31 bytes\n  Label Mapping 0x0400 ID 5: malformed, it has no Generic Label\n  \
         KeepAlive 0x0201 ID 1\n\
         PDU 1 from 0.0.0.1:0, 18 bytes: malformed, the lengths of its messages do not add up to its own\n\
         PDU 2 from 0.0.0.1:0, 18 bytes\n  KeepAlive 0x0201 ID 2\n"
    );
}

/// Each reason in words, and for scripts.
#[test]
fn why_a_message_is_malformed() {
    let mapping = || Message::new(types::MAPPING, 5).fec(&[1]);
    let mut cut_off = mapping().label(16).bytes();
    cut_off[16] = 9;
    let mut no_tlv = mapping().label(16).bytes();
    no_tlv.extend([0, 0]);
    no_tlv[3] += 2;
    for (msg, why) in [
        (mapping().bytes(), "it has no Generic Label"),
        (Message::new(types::MAPPING, 5).label(16).bytes(), "it has no FEC"),
        (Message::new(types::ABORT, 5).fec(&[1]).bytes(), "it has no Label Request Message ID"),
        (mapping().label(1_048_576).bytes(), "its label 1048576 is above 1048575"),
        (mapping().label(16).label(17).bytes(), "its Generic Label stands twice"),
        (mapping().fec(&[1]).label(16).bytes(), "its FEC stands twice"),
        (mapping().tlv(tlvs::LABEL, &[0; 5]).bytes(), "its Generic Label has length 5, not 4"),
        (mapping().label(16).tlv(tlvs::FT_SESSION, &[0; 5]).bytes(), "its FT Session has length 5, not 4 or 12"),
        (cut_off, "its TLV 0x0200 Generic Label has length 9, and 4 bytes are left"),
        (no_tlv, "2 bytes behind its TLVs are no TLV"),
    ] {
        let stream = pdu(1, &[msg]);
        let (text, sound) = dumped(&stream, false);
        assert!(!sound && text.ends_with(&format!(": malformed, {why}\n")), "{why}: {text}");
        let (json, _) = dumped(&stream, true);
        assert!(json.contains(&format!("\"malformed\":true,\"why\":\"{why}\"")), "{why}: {json}");
    }
}

/// A reason is found where the library finds a message malformed, and only there.
#[test]
fn a_reason_where_the_library_has_one() {
    let mut random = Random::new(0x1_D9F8);
    let mut malformed = 0;
    for _ in 0..50_000 {
        let stored = states::state(&mut random);
        let pdu = malformed::pdu(&mut random, &stored);
        let mut msg = pdu.get(10..).unwrap_or_default().to_vec();
        for _ in 0..random.below(3) {
            if let Some(last) = msg.len().checked_sub(1) {
                msg[random.between(0, last)] = random.u8();
            }
        }
        if msg.len() >= 8 && random.percent(90) {
            let length = (msg.len() - 4) as u16;
            msg[2..4].copy_from_slice(&length.to_be_bytes());
        }
        let is_malformed = Library.message_read(&msg).answer != 0;
        assert_eq!(command::malformed::reason(&msg).is_some(), is_malformed, "{}", hex::digits(&msg));
        malformed += usize::from(is_malformed);
    }
    assert!((5_000..45_000).contains(&malformed), "{malformed}");
}

#[test]
fn after_a_wrong_version_a_stream_ends_and_lines_go_on() {
    let sound = pdu(1, &[Message::new(types::KEEPALIVE, 2).bytes()]);
    let mut wrong = sound.clone();
    wrong[1] = 2;
    let refused = "PDU 0 from 0.0.0.1:0, 18 bytes: malformed, its version is 2, not 1\n";
    let stream = [wrong.clone(), sound.clone()].concat();
    assert_eq!(dumped(&stream, false), (refused.to_string(), false));
    let lines = format!("{}\n{}\n", hex::digits(&wrong), hex::digits(&sound));
    let (text, all_sound) = dumped(lines.as_bytes(), false);
    assert_eq!(text, format!("{refused}PDU 1 from 0.0.0.1:0, 18 bytes\n  KeepAlive 0x0201 ID 2\n"));
    assert!(!all_sound);
    let short = [0, 1, 0, 3, 9, 9, 9];
    let (text, _) = dumped(&short, false);
    assert_eq!(text, "PDU 0 from nobody, 7 bytes: malformed, its length leaves no room for its LDP identifier\n");
}

#[test]
fn input_that_ends_early_or_is_neither() {
    let whole = pdu(1, &[Message::new(types::KEEPALIVE, 2).bytes()]);
    let (text, sound) = dumped(&whole[..17], false);
    assert_eq!((text.as_str(), sound), ("the input ends inside PDU 0, after 17 bytes of it\n", false));
    assert_eq!(dumped(b"", false), (String::new(), true));
    for (text, line) in [("hello\n", 1), ("0001\nxyz\n", 2), ("\n\n123\n", 3)] {
        let output = run_on(&["dump", "-"], text.as_bytes());
        assert_eq!(output.status.code(), Some(1));
        assert_eq!(stdout(&output), format!("line {line} is no hexadecimal\n"));
    }
    let endless = vec![b'0'; 3 << 20];
    assert_eq!(dumped(&endless, false), ("line 1 is no hexadecimal\n".to_string(), false));
}

/// Captures are known by their first bytes, and the command that makes a stream of one is said, with its name.
#[test]
fn a_capture_is_no_stream() {
    let directory = Directory::create("test-capture").unwrap();
    let magics: [&[u8]; 5] =
        [b"\xD4\xC3\xB2\xA1", b"\xA1\xB2\xC3\xD4", b"\x4D\x3C\xB2\xA1", b"\xA1\xB2\x3C\x4D", b"\x0A\x0D\x0D\x0A"];
    for magic in magics {
        let file = directory.file("it's.pcap");
        fs::write(&file, [magic, &[2, 0, 4, 0]].concat()).unwrap();
        let output = run_on(&["dump", file.to_str().unwrap()], b"");
        assert_eq!((output.status.code(), stderr(&output).as_str()), (Some(1), ""));
        let quoted = file.to_str().unwrap().replace('\'', "'\\''");
        let command = format!("`tshark -r '{quoted}' -q -z follow,tcp,raw,0 | ldp-ft dump -`");
        assert!(stdout(&output).contains(&command) && stdout(&output).lines().count() == 1, "{}", stdout(&output));
        let output = run_on(&["dump", "--json", "-"], magic);
        assert!(is_json(&stdout(&output)) && stdout(&output).contains("tshark -r FILE -q"), "{}", stdout(&output));
    }
    assert_eq!(dumped(b"\n\n\n", false), (String::new(), true), "blank lines are no capture");
    assert!(!dumped(b"\xD4\xC3\xB2", false).1);
}

/// What tshark 4.0 writes of a connection of which two segments are not in the capture: the first hides where the next
/// PDU starts, so that a line is passed over; the second is within a PDU.
#[test]
fn bytes_that_are_missing_in_a_capture() {
    let keepalive = |id: u32| hex::digits(&pdu(0x0A00_0001, &[Message::new(types::KEEPALIVE, id).bytes()]));
    let marker = "5b3130206279746573206d697373696e6720696e20636170747572652066696c655d00";
    let [first, second, third, fourth] = [1, 2, 3, 4].map(keepalive);
    let (begin, end) = (&second[..12], &second[32..]);
    let text = format!("{first}\n{marker}\n{end}{first}\n{second}\n{begin}\n{marker}\n{end}{third}\n\t{fourth}\n");
    let (told, sound) = dumped(text.as_bytes(), false);
    assert_eq!(
        told,
        "PDU 0 from 10.0.0.1:0, 18 bytes\n  KeepAlive 0x0201 ID 1\n\
         10 bytes are missing in the capture: what follows is passed over up to a line with a PDU\n\
         PDU 1 from 10.0.0.1:0, 18 bytes\n  KeepAlive 0x0201 ID 2\n\
         10 bytes of PDU 2 are missing in the capture\n\
         PDU 3 from 10.0.0.1:0, 18 bytes\n  KeepAlive 0x0201 ID 3\n\
         PDU 4 from 10.0.0.1:0, 18 bytes\n  KeepAlive 0x0201 ID 4\n"
    );
    assert!(!sound);
    let (json, _) = dumped(text.as_bytes(), true);
    assert!(json.contains("{\"refused\":\"10 bytes of PDU 2 are missing in the capture\"}\n"), "{json}");
}

#[test]
fn for_scripts() {
    let notification = Message::new(types::NOTIFICATION, 3).status_of(0x0E, 77).bytes();
    let stream = pdu(0x0A00_0001, &[notification]);
    let output = run_on(&["dump", "--json", "-"], &stream);
    assert_eq!(
        stdout(&output),
        "{\"pdu\":0,\"length\":32,\"from\":\"10.0.0.1:0\",\"messages\":[{\"type\":1,\"name\":\"Notification\",\"id\":3,\
         \"malformed\":false,\"status\":{\"code\":14,\"name\":\"No Label Resources\",\"fatal\":false,\"forward\":false,\
         \"message_id\":77}}]}\n"
    );
    for name in CAPTURES {
        let (pdus, _) = capture(name);
        let (text, _) = dumped(pdus.join("\n").as_bytes(), true);
        assert_eq!(text.lines().count(), pdus.len());
        assert!(text.lines().all(is_json), "{text}");
    }
    assert_eq!(dumped(b"x", true).0, "{\"refused\":\"line 1 is no hexadecimal\"}\n");
}

#[test]
fn nobody_reads_it() {
    let sound = pdu(1, &[Message::new(types::KEEPALIVE, 2).bytes()]);
    let output = run_unread(&["dump", "-"], &sound.repeat(3));
    assert_eq!((output.status.code(), stderr(&output).as_str()), (Some(0), ""));
    let output = run_unread(&["dump", "-"], b"nonsense");
    assert_eq!((output.status.code(), stderr(&output).as_str()), (Some(1), ""));
}

#[test]
fn any_input_is_dumped() {
    let mut random = Random::new(0x1_D9F7);
    let captured: Vec<Vec<u8>> =
        CAPTURES.iter().flat_map(|name| capture(name).0).filter_map(|line| hex::bytes(line.as_bytes())).collect();
    for round in 0..20_000 {
        let stored = states::state(&mut random);
        let mut input = match round % 4 {
            0 => malformed::pdu(&mut random, &stored),
            1 => captured[random.below(captured.len())].clone(),
            2 => {
                let length = random.between(0, 200);
                random.bytes(length)
            }
            _ => [captured[random.below(captured.len())].clone(), malformed::pdu(&mut random, &stored)].concat(),
        };
        for _ in 0..random.below(4) {
            if let Some(length) = input.len().checked_sub(1) {
                input[random.between(0, length)] = random.u8();
            }
        }
        if random.percent(30) {
            input = hex::digits(&input).into_bytes();
        }
        let (_, sound) = dumped(&input, false);
        let (json, sound_too) = dumped(&input, true);
        assert_eq!(sound, sound_too);
        assert!(json.lines().all(is_json), "{json}");
    }
}
