//! How bytes and numbers are written: names, values and files, in answers, messages and pictures.

use std::ffi::OsStr;
use std::os::unix::ffi::OsStrExt;

/// How many bytes of a name a message shows.
const SHOWN: usize = 200;

/// Bytes outside 0x20 to 0x7e, and backslashes, as \x and two hex digits: as the dump has them.
pub fn escaped(bytes: &[u8]) -> String {
    shown(bytes, usize::MAX)
}

/// Two hex digits for each byte.
pub fn hex(bytes: &[u8]) -> String {
    bytes.iter().map(|byte| format!("{byte:02x}")).collect::<Vec<_>>().concat()
}

/// A property's name in a message: escaped, and the start of a long one.
pub fn named(name: &[u8]) -> String {
    if name.is_empty() {
        return "the empty name".to_owned();
    }
    shown(name, SHOWN)
}

/// A file's name, or another argument, in a message: as it was given, but escaped where it could do harm on a terminal.
pub fn given(argument: &OsStr) -> String {
    match argument.to_str() {
        Some("") => "\"\"".to_owned(),
        Some(text) if !text.chars().any(char::is_control) => text.to_owned(),
        _ => escaped(argument.as_bytes()),
    }
}

/// A number with commas: 4,096.
pub fn commas(number: usize) -> String {
    let digits = number.to_string();
    let mut text = String::new();
    for (i, digit) in digits.chars().enumerate() {
        let left = digits.len().saturating_sub(i);
        if i > 0 && left % 3 == 0 {
            text.push(',');
        }
        text.push(digit);
    }
    text
}

/// The first bytes of a text, at most so many, and ".." where there are more. Bytes outside 0x20 to 0x7e and backslashes are written as the
/// dump writes them.
pub fn shown(text: &[u8], most: usize) -> String {
    let mut out = String::new();
    for &byte in text.iter().take(most) {
        match byte {
            b'\\' => out.push_str("\\x5c"),
            0x20..=0x7e => out.push(char::from(byte)),
            _ => out.extend(["\\x", &hex(&[byte])]),
        }
    }
    if text.len() > most {
        out.push_str("..");
    }
    out
}

/// The same in quotes, for a line: 40 bytes at most.
pub fn quoted(text: &[u8]) -> String {
    format!("\"{}\"", shown(text, 40))
}
