//! pa: looks into property areas from the shell.
//!
//! What it prints of an area is what the library's calls answer, which are proved; the text of a dump is proved as a whole. The tool's own,
//! and not proved, is the rest: reading files and arguments, the lines around an answer, JSON, and the second look (`look`), which says where
//! a damaged area breaks a rule, and draws.
//!
//! ```text
//!  main --args--> a verb of verbs::VERBS with its operands --input--> bytes --the library--> answers --output--> text, messages, status
//! ```

#![deny(clippy::unwrap_used, clippy::expect_used, clippy::panic, clippy::indexing_slicing, clippy::arithmetic_side_effects)]

mod args;
mod check;
mod explain;
mod help;
mod html;
mod input;
mod json;
mod list;
mod look;
mod lookup;
mod output;
mod picture;
mod serial;
mod text;
mod verbs;

use std::env;
use std::process::ExitCode;

use args::Asked;
use output::{tell, Goes, Output, Status, Stop};

/// Does what the arguments ask for.
fn work(output: &mut Output) -> Goes {
    match args::parse(env::args_os().skip(1)) {
        Ok(Asked::Work(verb, call)) => (verb.run)(output, &call)?,
        Ok(Asked::Help(text)) => output.put(text.as_bytes())?,
        Ok(Asked::Version) => output.line(concat!("pa ", env!("CARGO_PKG_VERSION")))?,
        Err(why) => output.wrong(&why)?,
    }
    output.flush()
}

fn main() -> ExitCode {
    let ended = Output::open().map_err(Stop::from).and_then(|mut output| match work(&mut output) {
        Ok(()) | Err(Stop::ClosedPipe) => Ok(output.status()),
        Err(why) => Err(why),
    });
    let status = ended.unwrap_or_else(|stop| {
        if let Stop::Unwritable(why) = stop {
            tell(&format!("standard output: {why}"));
        }
        Status::Failed
    });
    ExitCode::from(status as u8)
}
