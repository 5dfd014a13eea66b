//! Bytes as hexadecimal digits, two for each.

/// Digits in lower case.
pub fn digits(bytes: &[u8]) -> String {
    bytes.iter().map(|byte| format!("{byte:02x}")).collect()
}

/// The bytes that digits stand for, in either case; none where they are no whole bytes.
pub fn bytes(digits: &[u8]) -> Option<Vec<u8>> {
    let byte = |pair: &[u8]| {
        let [high, low] = pair else { return None };
        Some(16 * value(*high)? + value(*low)?)
    };
    digits.chunks(2).map(byte).collect()
}

fn value(digit: u8) -> Option<u8> {
    char::from(digit).to_digit(16).map(|value| value as u8)
}
