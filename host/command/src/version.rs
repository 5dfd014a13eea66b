//! Which version the tool is of, and the library that it runs.

use ldp_ft::Library;

pub fn in_words() -> String {
    let [major, minor, patch] = numbers(Library.version());
    format!("ldp-ft {} with ldp_ft {major}.{minor}.{patch}\n", env!("CARGO_PKG_VERSION"))
}

/// The three numbers of major * 65,536 + minor * 256 + patch.
fn numbers(version: u32) -> [u32; 3] {
    [version >> 16, version >> 8 & 0xFF, version & 0xFF]
}

#[cfg(test)]
mod tests {
    use super::*;

    /// The header of the library, as it was when the tool was built.
    const HEADER: &str = include_str!("../../../include/ldp_ft.h");

    #[test]
    fn the_library_is_of_the_version_of_its_header() {
        for (name, number) in ["MAJOR", "MINOR", "PATCH"].iter().zip(numbers(Library.version())) {
            assert!(HEADER.contains(&format!("\n#define LDP_FT_VERSION_{name} {number}\n")), "{name} {number}");
        }
        assert_eq!(numbers(0x0003_0405), [3, 4, 5]);
    }
}
