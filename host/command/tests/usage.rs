//! Help, wrong usage, and files that cannot be read or written.

mod tool;

use std::process::Stdio;
use tool::{run_on, run_unread, stderr, stdout, tool};

#[test]
fn help_is_printed() {
    for arguments in [
        &["--help"][..],
        &["-h"],
        &["help"],
        &["image", "--help"],
        &["convert", "--help"],
        &["dump", "-h"],
        &["watch", "--help"],
    ] {
        let output = run_on(arguments, b"");
        assert_eq!((output.status.code(), stderr(&output).as_str()), (Some(0), ""));
        let text = stdout(&output);
        assert!(text.starts_with("ldp-ft ") && text.contains("Exit status"), "{text}");
        assert!(text.lines().all(|line| line.len() <= 120), "{text}");
    }
    let output = run_on(&["dump", "--json", "--help", "x", "y"], b"");
    assert_eq!(output.status.code(), Some(0));
    assert!(stdout(&output).starts_with("ldp-ft dump"));
}

#[test]
fn wrong_usage_is_refused_in_a_line() {
    for arguments in [
        &["image"][..],
        &["image", "a", "b"],
        &["image", "--jsn", "a"],
        &["image", "--json", "--json", "a"],
        &["convert"],
        &["convert", "forward", "a"],
        &["convert", "forward", "a", "b", "c"],
        &["convert", "sideways", "a", "b"],
        &["convert", "forward", "--force", "a", "b"],
        &["dump"],
        &["dump", "-x", "a"],
        &["watch", "file"],
        &["watch", "--labels"],
        &["watch", "--labels", "0"],
        &["watch", "--labels", "60"],
        &["watch", "--labels", "many"],
        &["watch", "--labels", "-3"],
        &["watch", "--labels", "12", "--labels", "13"],
        &["watch", "--cut-every", "1.5"],
        &["watch", "--kill-every", ""],
        &["watch", "--kill-every", "18446744073709551616"],
        &["watch", "--on-demand", "yes"],
        &["watch", "--ondemand"],
        &["watch", "--form"],
        &["watch", "--form", "rfc"],
        &["watch", "--all", "--json"],
        &["watch", "--keep"],
        &["watch", "--keep", "/no/such/directory/stores"],
        &["cabinet", "--name", "west", "."],
    ] {
        let output = run_on(arguments, b"");
        assert_eq!((output.status.code(), stdout(&output).as_str()), (Some(2), ""), "{arguments:?}");
        let text = stderr(&output);
        assert!(text.starts_with("ldp-ft: ") && text.lines().count() == 1, "{arguments:?}: {text}");
    }
}

#[test]
fn without_a_command_it_says_which_there_are() {
    for arguments in [&[][..], &["imag", "x"], &["--json"]] {
        let output = run_on(arguments, b"");
        assert_eq!((output.status.code(), stdout(&output).as_str()), (Some(2), ""));
        assert!(stderr(&output).contains("image FILE"));
    }
}

#[test]
fn a_file_that_cannot_be_read() {
    for command in ["image", "dump"] {
        for file in ["/no/such/file", "."] {
            let output = run_on(&[command, file], b"");
            assert_eq!((output.status.code(), stdout(&output).as_str()), (Some(2), ""));
            assert!(stderr(&output).starts_with(&format!("ldp-ft: {file}: ")), "{}", stderr(&output));
        }
    }
}

#[cfg(target_os = "linux")]
#[test]
fn output_that_takes_nothing() {
    for arguments in [&["image", "-"][..], &["dump", "-"], &["--help"], &["--version"], &["watch"], &["watch", "--all"]]
    {
        let full = std::fs::OpenOptions::new().write(true).open("/dev/full").unwrap();
        let output = tool(arguments).stdin(Stdio::null()).stdout(full).stderr(Stdio::piped()).output().unwrap();
        let nothing_to_print = arguments[0] == "dump";
        let expected = if nothing_to_print { (0, "", 0) } else { (2, "ldp-ft: standard output: ", 1) };
        assert_eq!(output.status.code(), Some(expected.0), "{arguments:?}");
        let complaint = stderr(&output);
        assert!(complaint.starts_with(expected.1) && complaint.lines().count() == expected.2, "{complaint}");
    }
}

#[test]
fn arguments_that_are_no_text() {
    use std::os::unix::ffi::OsStrExt;
    let wrong = std::ffi::OsStr::from_bytes(b"\xFF\xFE");
    for command in ["image", "convert", "dump", "watch"] {
        let output = tool(&[command]).arg(wrong).stdin(Stdio::null()).output().unwrap();
        assert_eq!(output.status.code(), Some(2), "{command}");
    }
    let output = tool(&["watch", "--labels"]).arg(wrong).stdin(Stdio::null()).output().unwrap();
    assert_eq!(output.status.code(), Some(2));
    let output = tool(&[]).arg(wrong).stdin(Stdio::null()).output().unwrap();
    assert_eq!(output.status.code(), Some(2));
}

#[test]
fn help_that_nobody_reads() {
    let output = run_unread(&["--help"], b"");
    assert_eq!((output.status.code(), stderr(&output).as_str()), (Some(0), ""));
}

#[test]
fn its_version_and_the_librarys() {
    let header = std::fs::read_to_string(tool::repository("include/ldp_ft.h")).unwrap();
    let number = |part: &str| {
        let name = format!("#define LDP_FT_VERSION_{part} ");
        header.lines().find_map(|line| line.strip_prefix(&name)).unwrap().to_string()
    };
    let library = [number("MAJOR"), number("MINOR"), number("PATCH")].join(".");
    for argument in ["--version", "-V"] {
        let output = run_on(&[argument], b"");
        assert_eq!((output.status.code(), stderr(&output).as_str()), (Some(0), ""));
        let expected = format!("ldp-ft {} with ldp_ft {library}\n", env!("CARGO_PKG_VERSION"));
        assert_eq!(stdout(&output), expected);
    }
}
