//! Where the tool writes: answers to standard output, whose errors count; messages to standard error, whose errors do not.

use std::fs::File;
use std::io::{self, BufWriter, Write};
use std::os::fd::AsFd;

use property_area::Refusal;

use crate::explain::sentence;

/// How a call ends: the worst of all that it did.
#[derive(Clone, Copy, PartialEq, Eq, PartialOrd, Ord)]
pub enum Status {
    Done = 0,
    Refused = 1,
    Failed = 2,
}

/// Why nothing more is written.
pub enum Stop {
    /// Whoever read standard output has enough. That is no failure.
    ClosedPipe,
    Unwritable(io::Error),
}

impl From<io::Error> for Stop {
    fn from(why: io::Error) -> Stop {
        if why.kind() == io::ErrorKind::BrokenPipe {
            Stop::ClosedPipe
        } else {
            Stop::Unwritable(why)
        }
    }
}

/// Goes on, or ends the call.
pub type Goes = Result<(), Stop>;

/// Standard output, and the status so far.
pub struct Output {
    out: BufWriter<File>,
    status: Status,
}

impl Output {
    /// A duplicate of standard output's descriptor: the language's own handle takes one that is not open for writing for a success. One that is
    /// closed at the start is not seen: the language opens the null device in its place before anything here runs.
    pub fn open() -> io::Result<Output> {
        let out = File::from(io::stdout().as_fd().try_clone_to_owned()?);
        Ok(Output { out: BufWriter::new(out), status: Status::Done })
    }

    pub fn status(&self) -> Status {
        self.status
    }

    /// The status is this one, unless it is worse already.
    pub fn worsen(&mut self, status: Status) {
        self.status = self.status.max(status);
    }

    pub fn put(&mut self, bytes: &[u8]) -> Goes {
        Ok(self.out.write_all(bytes)?)
    }

    pub fn line(&mut self, text: &str) -> Goes {
        self.put(text.as_bytes())?;
        self.put(b"\n")
    }

    pub fn flush(&mut self) -> Goes {
        Ok(self.out.flush()?)
    }

    /// A message. What was put before it is written before it, so that the two keep their order on a terminal.
    pub fn say(&mut self, message: &str) -> Goes {
        self.flush()?;
        tell(message);
        Ok(())
    }

    /// Says that something is refused, and why.
    pub fn refused(&mut self, what: &str, why: Refusal) -> Goes {
        self.worsen(Status::Refused);
        self.say(&format!("{what}: refused {}: {}", why.number(), sentence(why)))
    }

    /// Says that the call is wrong.
    pub fn wrong(&mut self, why: &str) -> Goes {
        self.worsen(Status::Failed);
        self.say(why)?;
        self.say("try pa help")
    }

    /// Says that something cannot be read.
    pub fn unreadable(&mut self, what: &str, why: &io::Error) -> Goes {
        self.worsen(Status::Failed);
        self.say(&format!("{what}: {why}"))
    }
}

/// A message on standard error, in one piece. Where it cannot be written there is nobody left to tell.
pub fn tell(message: &str) {
    let line = format!("pa: {message}\n");
    drop(io::stderr().write_all(line.as_bytes()));
}
