//! Bytes in hexadecimal.

/// Lower-case digits without spaces.
pub fn digits(bytes: &[u8]) -> String {
    bytes.iter().map(|byte| format!("{byte:02x}")).collect()
}

/// The bytes of digits as samples are printed, with spaces between.
pub fn bytes(printed: &str) -> Vec<u8> {
    printed
        .split_whitespace()
        .map(|byte| u8::from_str_radix(byte, 16).expect("two digits"))
        .collect()
}
