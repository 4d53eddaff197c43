//! The words of a command line and the status that answers them: the same in every program here and in bench/.

use std::env;
use std::process::ExitCode;

/// Does what the words say. `command` answers whether all went well, which makes the status 0 or 1, or None where the words
/// make no sense: then the usage is shown, and the status is 2.
pub fn obey(usage: &str, command: impl FnOnce(&[&str]) -> Option<bool>) -> ExitCode {
    let words: Vec<String> = env::args().skip(1).collect();
    let words: Vec<&str> = words.iter().map(String::as_str).collect();
    match command(&words) {
        Some(true) => ExitCode::SUCCESS,
        Some(false) => ExitCode::FAILURE,
        None => {
            eprintln!("{usage}");
            ExitCode::from(2)
        }
    }
}
