//! Why a file is refused, for people. The verdict is the library's; what is added here is the tool's own reading, and decides nothing.

use property_area::Refusal;

use crate::input::Input;
use crate::look::look;
use crate::output::{Goes, Output, Status};
use crate::text::commas;

/// What a refusal means here, of a sentence that says "this; or that": the tool takes no offset, so that 5 means the first, and changes
/// nothing, so that 6 means the last.
pub fn sentence(why: Refusal) -> &'static str {
    let mut either = why.sentence().split("; or ");
    let one = match why {
        Refusal::Damaged => either.next(),
        Refusal::TooLong => either.last(),
        _ => None,
    };
    one.unwrap_or(why.sentence())
}

/// The answer that stands for something refused.
pub fn refused_line(why: Refusal) -> String {
    format!("refused {}", why.number())
}

/// A file is refused: the answer says so, and messages say why.
pub fn refuse(output: &mut Output, input: &Input, why: Refusal) -> Goes {
    output.worsen(Status::Refused);
    output.line(&refused_line(why))?;
    explain(output, input, why)
}

/// Says why a file is refused; and with 8 which rule of the header it breaks, with 5 where it breaks a rule first.
pub fn explain(output: &mut Output, input: &Input, why: Refusal) -> Goes {
    let label = input.label();
    output.refused(&label, why)?;
    let look = look(&input.bytes);
    match (why, look.first_broken()) {
        (Refusal::BadHeader, Some(broken)) => output.say(&format!("{label}: {}", broken.rule)),
        (Refusal::Damaged, Some(broken)) => {
            let (at, object) = (commas(broken.at), look.called(&input.bytes, broken.object));
            output.say(&format!("{label}: byte {at}, in {object}: {} (by a second look that is not proved)", broken.rule))
        }
        _ => Ok(()),
    }
}
