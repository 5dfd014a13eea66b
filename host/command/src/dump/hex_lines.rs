//! Lines of hexadecimal, each of one side of a connection; also as `tshark -z follow,tcp,raw` writes them.

use support::hex;

/// What a line holds.
#[derive(Debug, PartialEq, Eq)]
pub enum Line {
    /// Bytes, of side 1 where a tab stands first, else of side 0.
    Bytes { side: usize, bytes: Vec<u8> },
    /// tshark's note that a side's bytes are not in the capture.
    Missing { side: usize, bytes: usize },
    /// A blank line, or one of those with which tshark begins and ends.
    Nothing,
    /// Anything else.
    Other,
}

/// What tshark writes around the bytes.
const FRAME: [&[u8]; 4] = [b"====", b"Follow: ", b"Filter: ", b"Node "];

/// Reads a line. Blanks and colons may stand between the digits.
pub fn read(line: &[u8]) -> Line {
    if FRAME.iter().any(|frame| line.starts_with(frame)) {
        return Line::Nothing;
    }
    let side = usize::from(line.first() == Some(&b'\t'));
    if let Some(bytes) = missing(line.trim_ascii()) {
        return Line::Missing { side, bytes };
    }
    let digits: Vec<u8> = line.iter().copied().filter(|byte| !byte.is_ascii_whitespace() && *byte != b':').collect();
    match hex::bytes(&digits) {
        Some(bytes) if bytes.is_empty() => Line::Nothing,
        Some(bytes) => match missing(&bytes) {
            Some(bytes) => Line::Missing { side, bytes },
            None => Line::Bytes { side, bytes },
        },
        None => Line::Other,
    }
}

/// How many bytes tshark says are missing: `[10 bytes missing in capture file]` in characters, with a 0 behind them
/// where they stand as hexadecimal among the bytes.
fn missing(text: &[u8]) -> Option<usize> {
    let text = text.strip_suffix(b"\0").unwrap_or(text);
    let number = text.strip_prefix(b"[")?.strip_suffix(b" bytes missing in capture file]")?;
    std::str::from_utf8(number).ok()?.parse().ok()
}

#[cfg(test)]
mod tests {
    use super::*;

    #[test]
    fn bytes_of_either_side() {
        assert_eq!(read(b"0001Ff\r\n"), Line::Bytes { side: 0, bytes: vec![0, 1, 255] });
        assert_eq!(read(b"\t00:01 fF\n"), Line::Bytes { side: 1, bytes: vec![0, 1, 255] });
    }

    #[test]
    fn lines_without_bytes() {
        for line in [&b""[..], b"\n", b" \t\n", b"=====\n", b"Follow: tcp,raw\n", b"Filter: tcp.stream eq 0\n"] {
            assert_eq!(read(line), Line::Nothing);
        }
        assert_eq!(read(b"Node 0: 10.0.0.1:646\n"), Line::Nothing);
    }

    /// As tshark 4.0 writes it, and as its own characters.
    #[test]
    fn bytes_that_are_missing() {
        let marker = b"5b3130206279746573206d697373696e6720696e20636170747572652066696c655d00\n";
        assert_eq!(read(marker), Line::Missing { side: 0, bytes: 10 });
        assert_eq!(read(&[b"\t", &marker[..]].concat()), Line::Missing { side: 1, bytes: 10 });
        assert_eq!(read(b"\t[7 bytes missing in capture file]\n"), Line::Missing { side: 1, bytes: 7 });
        assert_eq!(read(b"[some bytes missing in capture file]\n"), Line::Other);
    }

    #[test]
    fn other_lines() {
        for line in [&b"000\n"[..], b"0x00\n", b"hello\n", b"00 0g\n", &[0xFF, 0xFE]] {
            assert_eq!(read(line), Line::Other);
        }
    }
}
