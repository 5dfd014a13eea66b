//! Capture files, which are no stream of PDUs: known by their first bytes, and how a stream is made of one.

/// So many bytes tell.
pub const MAGIC: u64 = 4;

/// How captures begin: pcap in either order of bytes, its times in microseconds or nanoseconds; pcapng.
const MAGICS: [[u8; 4]; 5] = [
    [0xA1, 0xB2, 0xC3, 0xD4],
    [0xD4, 0xC3, 0xB2, 0xA1],
    [0xA1, 0xB2, 0x3C, 0x4D],
    [0x4D, 0x3C, 0xB2, 0xA1],
    [0x0A, 0x0D, 0x0D, 0x0A],
];

pub fn is_capture(first: &[u8]) -> bool {
    MAGICS.iter().any(|magic| first == magic)
}

/// What to do with a capture in a file; one that came on standard input has no name.
pub fn advice(file: &str) -> String {
    let file = if file == "-" { "FILE".to_string() } else { quoted(file) };
    format!(
        "it is a capture, no stream of PDUs: `tshark -r {file} -q -z follow,tcp,raw,0 | ldp-ft dump -` shows its first \
         TCP connection; `tshark -r {file} -q -z conv,tcp` lists them, counted from 0"
    )
}

/// A name as a shell takes it.
fn quoted(name: &str) -> String {
    let is_plain = |byte: u8| byte.is_ascii_alphanumeric() || b"._-/+:,@%".contains(&byte);
    if name.bytes().all(is_plain) && !name.is_empty() {
        return name.to_string();
    }
    format!("'{}'", name.replace('\'', "'\\''"))
}

#[cfg(test)]
mod tests {
    use super::*;

    #[test]
    fn names_as_a_shell_takes_them() {
        assert_eq!(quoted("a/b-1.pcap"), "a/b-1.pcap");
        assert_eq!(quoted("my capture's"), "'my capture'\\''s'");
        assert!(advice("-").contains("-r FILE -q"));
    }
}
