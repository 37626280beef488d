//! The files of the folder tests/vectors (its README.md says what they are).

use std::fs;
use std::path::Path;

/// The text of a file.
pub fn read(file: &str) -> String {
    let path = Path::new(env!("CARGO_MANIFEST_DIR")).join("../vectors").join(file);
    fs::read_to_string(&path).unwrap_or_else(|error| panic!("{}: {error}", path.display()))
}

/// The bytes of hexadecimal digits, which may be grouped by spaces.
pub fn hexadecimal(text: &str) -> Vec<u8> {
    let digits: Vec<u8> = text
        .split_whitespace()
        .flat_map(str::chars)
        .map(|digit| digit.to_digit(16).unwrap_or_else(|| panic!("a digit {digit:?}")) as u8)
        .collect();
    let pairs = digits.chunks_exact(2);
    assert!(pairs.remainder().is_empty(), "half a byte in {text:?}");
    pairs.map(|pair| 16 * pair[0] + pair[1]).collect()
}
