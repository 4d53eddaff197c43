//! What the calls are held against: an entry's serial and name, and the dump, read from the bytes by the words of docs/RULES.md.

use property_area::{Entry, Refusal, AREA_MAX};

use crate::word;

/// Where the entry at an offset stands in the area: 8, then the touch (5).
fn touched(bytes: &[u8], entry: u32) -> Result<usize, Refusal> {
    let sized = (128..=AREA_MAX).contains(&bytes.len());
    if !sized || bytes[8..12] != *b"PROP" || word(bytes, 12) != 0xfc6e_d0ab {
        return Err(Refusal::BadHeader);
    }
    let at = 128 + entry as usize;
    if entry % 4 == 0 && at + 96 <= bytes.len() {
        Ok(at)
    } else {
        Err(Refusal::Damaged)
    }
}

pub fn serial(bytes: &[u8], entry: u32) -> Result<u32, Refusal> {
    Ok(word(bytes, touched(bytes, entry)?))
}

/// The bytes behind the entry up to the next zero; none there is 5.
pub fn name(bytes: &[u8], entry: u32) -> Result<&[u8], Refusal> {
    let behind = &bytes[touched(bytes, entry)? + 96..];
    let zero = behind.iter().position(|&byte| byte == 0);
    zero.map(|to| &behind[..to]).ok_or(Refusal::Damaged)
}

fn escaped(bytes: &[u8]) -> String {
    let shown = |&byte: &u8| match byte {
        b'\\' | 0..=0x1f | 0x7f.. => format!("\\x{byte:02x}"),
        _ => char::from(byte).to_string(),
    };
    bytes.iter().map(shown).collect()
}

/// The dump of an area with these entries.
pub fn dump(bytes: &[u8], entries: &[Entry]) -> Vec<u8> {
    let line = |entry: &Entry| format!("[{}]: [{}]\n", escaped(entry.name), escaped(entry.value));
    let lines: String = entries.iter().map(line).collect();
    format!("entries {} used {}\n{lines}", entries.len(), word(bytes, 0)).into_bytes()
}
