//! lookup: the value of each name, as the program of that name prints it.

use std::ffi::OsString;
use std::io::{BufRead, ErrorKind};
use std::os::unix::ffi::OsStrExt;

use property_area::{Area, Refusal};

use crate::args::Call;
use crate::explain::{explain, refused_line};
use crate::input::{is_standard, names, with};
use crate::output::{Goes, Output};
use crate::text::{escaped, named};

/// The longest name that the program lookup takes.
const NAME_MAX: usize = 65_536;

/// An area that was checked, with the verdict.
struct Asked<'a> {
    area: Area<'a>,
    verdict: Result<(), Refusal>,
}

impl<'a> Asked<'a> {
    /// The program's answer: 8 at each name, then 6, then the lookup's. The program does not check, and so a damaged area answers here too.
    fn value(&self, name: &[u8]) -> Result<&'a [u8], Refusal> {
        if let Err(why @ Refusal::BadHeader) = self.verdict {
            return Err(why);
        }
        if name.len() > NAME_MAX {
            return Err(Refusal::TooLong);
        }
        self.area.get(name)
    }

    /// Prints the answer to a name. A refused one is named in a message, but not where the file is no area, which was said of the file.
    fn answer(&self, output: &mut Output, name: &[u8]) -> Goes {
        match self.value(name) {
            Ok(value) => output.line(&escaped(value)),
            Err(why) => {
                output.line(&refused_line(why))?;
                if why == Refusal::BadHeader {
                    return Ok(());
                }
                output.refused(&named(name), why)
            }
        }
    }

    fn answer_arguments(&self, output: &mut Output, names: &[OsString]) -> Goes {
        names.iter().try_for_each(|name| self.answer(output, name.as_bytes()))
    }

    /// Answers the lines of standard input as they come. A last line needs no line feed; where a read fails, it is no name.
    fn answer_lines(&self, output: &mut Output) -> Goes {
        let mut input = match names() {
            Ok(input) => input,
            Err(why) => return output.unreadable("standard input", &why),
        };
        let mut line = Vec::new();
        loop {
            output.flush()?; // whoever types names sees each answer
            let taken = match input.fill_buf() {
                Ok([]) => break,
                Ok(piece) => self.answer_piece(output, piece, &mut line).map(|()| piece.len())?,
                Err(why) if why.kind() == ErrorKind::Interrupted => 0,
                Err(why) => return output.unreadable("standard input", &why),
            };
            input.consume(taken);
        }
        if line.is_empty() {
            return Ok(());
        }
        self.answer(output, &line)
    }

    /// Answers the names that end in a piece of the input. One that has not ended stays in the line, which keeps as much as shows its length.
    fn answer_piece(&self, output: &mut Output, piece: &[u8], line: &mut Vec<u8>) -> Goes {
        for part in piece.split_inclusive(|&byte| byte == b'\n') {
            let name = part.strip_suffix(b"\n");
            let room = NAME_MAX.saturating_add(1).saturating_sub(line.len());
            line.extend(name.unwrap_or(part).iter().take(room));
            if name.is_some() {
                self.answer(output, line)?;
                line.clear();
            }
        }
        Ok(())
    }
}

pub fn run(output: &mut Output, call: &Call) -> Goes {
    if call.names().is_empty() && is_standard(call.file()) {
        return output.wrong("the area is on standard input, so that lookup wants a NAME");
    }
    with(output, call.file(), |output, input| {
        let area = Area::new(&input.bytes);
        let asked = Asked { area, verdict: area.check() };
        if let Err(why) = asked.verdict {
            explain(output, input, why)?;
        }
        if asked.verdict == Err(Refusal::Damaged) {
            output.say(&format!(
                "{}: names are looked up in it all the same, as its bytes lead, which can take long",
                input.label()
            ))?;
        }
        match call.names() {
            [] => asked.answer_lines(output),
            names => asked.answer_arguments(output, names),
        }
    })
}
