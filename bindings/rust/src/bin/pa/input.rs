//! What the tool reads: files and standard input, never more of one than an area can have.

use std::ffi::{OsStr, OsString};
use std::fs::File;
use std::io::{self, BufReader, Read};
use std::os::fd::AsFd;

use property_area::AREA_MAX;

use crate::output::{Goes, Output};
use crate::text::given;

/// Names come in pieces of this size.
const PIECE: usize = 65_536;

/// A file that was read.
pub struct Input<'a> {
    /// As it was given: `-` is standard input.
    pub file: &'a OsStr,
    pub bytes: Vec<u8>,
}

impl Input<'_> {
    /// What messages call it.
    pub fn label(&self) -> String {
        label(self.file)
    }

    /// Its length, where all of it was read.
    pub fn length(&self) -> Option<usize> {
        Some(self.bytes.len()).filter(|&length| length <= AREA_MAX)
    }
}

pub fn is_standard(file: &OsStr) -> bool {
    file == "-"
}

fn label(file: &OsStr) -> String {
    if is_standard(file) {
        "standard input".to_owned()
    } else {
        given(file)
    }
}

/// Standard input. A duplicate of its descriptor: the language's own handle takes one that is not open for reading for an empty one.
fn standard() -> io::Result<File> {
    Ok(File::from(io::stdin().as_fd().try_clone_to_owned()?))
}

/// Standard input, to read names from.
pub fn names() -> io::Result<BufReader<File>> {
    Ok(BufReader::with_capacity(PIECE, standard()?))
}

/// A file's bytes; of one that is longer than an area, or endless, one byte more than an area can have.
fn read(file: &OsStr) -> io::Result<Vec<u8>> {
    let source = if is_standard(file) { standard()? } else { File::open(file)? };
    let mut bytes = Vec::new();
    let most = AREA_MAX.saturating_add(1);
    source.take(u64::try_from(most).unwrap_or(u64::MAX)).read_to_end(&mut bytes)?;
    Ok(bytes)
}

/// Does a verb's work on a file; one that cannot be read is said to be so.
pub fn with(output: &mut Output, file: &OsStr, work: impl FnOnce(&mut Output, &Input) -> Goes) -> Goes {
    match read(file) {
        Ok(bytes) => work(output, &Input { file, bytes }),
        Err(why) => output.unreadable(&label(file), &why),
    }
}

/// Does a verb's work on each file in turn.
pub fn with_each(output: &mut Output, files: &[OsString], work: impl Fn(&mut Output, &Input) -> Goes) -> Goes {
    files.iter().try_for_each(|file| with(output, file, &work))
}
