//! The dump's text, from the example of one (RULES 11.4) and the sentence on bytes that do not print (RULES 8.1).

use crate::{DATA, ENTRY, RELATIVE, SLOT};

const HEX: &[u8; 16] = b"0123456789abcdef";

fn word(bytes: &[u8], at: usize) -> usize {
    u32::from_le_bytes([bytes[at], bytes[at + 1], bytes[at + 2], bytes[at + 3]]) as usize
}

fn up_to_zero(bytes: &[u8]) -> &[u8] {
    bytes.split(|&byte| byte == 0).next().unwrap_or(bytes)
}

/// The value of the entry that these bytes begin with.
fn value(entry: &[u8]) -> &[u8] {
    up_to_zero(if entry[2] & 1 == 0 { &entry[SLOT] } else { &entry[word(entry, RELATIVE)..] })
}

/// Backslash and what lies outside 0x20 to 0x7e as \x and two lower-case hex digits, any other byte as it is.
fn print(text: &mut Vec<u8>, bytes: &[u8]) {
    for &byte in bytes {
        match byte {
            b'\\' | ..0x20 | 0x7f.. => text.extend([b'\\', b'x', HEX[usize::from(byte / 16)], HEX[usize::from(byte % 16)]]),
            _ => text.push(byte),
        }
    }
}

/// The whole dump of a sound area with these entries, which `survey` has answered.
pub fn dump_text(area: &[u8], entries: &[u32]) -> Vec<u8> {
    let mut text = format!("entries {} used {}\n", entries.len(), word(area, 0)).into_bytes();
    for &offset in entries {
        let entry = &area[DATA + offset as usize..];
        text.push(b'[');
        print(&mut text, up_to_zero(&entry[ENTRY..]));
        text.extend(b"]: [");
        print(&mut text, value(entry));
        text.extend(b"]\n");
    }
    text
}
