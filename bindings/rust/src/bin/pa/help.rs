//! What help says. The refusals' numbers and sentences are the library's.

use property_area::Refusal;

use crate::explain::sentence;
use crate::verbs::Verb;

const ALL: &str = r#"pa: looks into property areas, of up to 131,072 bytes. What it prints of one is what the proved
library answers; a picture, and where a rule is broken, is a second look of its own, not proved.
FILE is never written.

  pa dump FILE..                       every name and value, in listing order
  pa lookup FILE NAME..                the value of each name, one to a line
  pa lookup FILE                       the same for names on standard input, one to a line
  pa get FILE NAME                     the bytes of one value, and nothing else
  pa serial FILE NAME..                the serial of each name, and how many updates it counts
  pa serial FILE NAME --since SERIAL   how many updates there were since that serial
  pa check FILE..                      whether an area is sound; where it is not, why
  pa list [--json] FILE..              offset, serial and name of every entry; with --json all of it
  pa picture [--html] FILE             what stands where, in damaged areas too: as text, or as a page
  pa help [VERB]                       this text, or more about a verb
  pa --version                         the version

FILE may be -, which is standard input. Options stand anywhere before --; behind it everything is a
FILE or a NAME. Bytes outside 0x20 to 0x7e, and backslashes, are printed as \x and two hex digits,
but not by get, nor in JSON.

The status is 0 where all was done, 1 where something was refused, 2 where the call is wrong, or
something cannot be read or written; 2 goes before 1. Where whoever reads the output closes the
pipe, pa ends without a message, with the status that it had by then.

Where something is refused, a message on standard error says why, and the output has the line
"refused" and a number for it; list --json has an object there, get and picture have no such line.
The numbers:

"#;

pub const DUMP: &str = r"pa dump FILE..

Prints the count of entries and the used mark, then each name and value, in listing order. All of
this text is proved. An area that is not sound is refused with 5. With several files a line
==> FILE <== stands above each dump.
";

pub const LOOKUP: &str = r#"pa lookup FILE NAME..
pa lookup FILE          names on standard input, one to a line

Prints the value of each name on a line of its own, or the line "refused" and a number, as the
program lookup does: an empty line is the empty name, the last line needs no line feed, and a name
of over 65,536 bytes is refused with 6. A message names each refused name; where FILE is no area,
one message says so for all. A value may itself be the text "refused 3": the messages and the
status tell it from a refusal.

The area is checked first. Of a damaged one a message says so, and the status is 1; names are looked
up in it all the same, as its bytes lead. That can take long: the time of one lookup in a damaged
area can grow, for each segment of the name, with the square of its length.
"#;

pub const GET: &str = r"pa get FILE NAME

Prints the bytes of one value as they are, with no line feed behind them. Where the area is not
sound, or the name is refused, nothing is printed but a message, and the status is 1.
";

pub const SERIAL: &str = r"pa serial FILE NAME..
pa serial FILE NAME --since SERIAL

Prints for each name a line: its serial; how many updates that counts, from 0 again at 32,768;
short or long, the kind of its value (a long one cannot be updated); and odd, where a write was
begun and not ended.

With --since it prints how many updates there were since the serial was SERIAL, a number in
decimal, or behind 0x in hex. It is exact below 32,768; from there on it goes round, and 32,768
updates look like none. A write that was begun and not ended is not counted, and a message says so.

In an area that is not sound every name is refused with 5.
";

pub const CHECK: &str = r#"pa check FILE..

Prints "sound", the count of entries and the used mark; then a line for each entry whose serial is
odd: a write was begun and not ended, which is sound all the same. Or it prints "refused" and a
number. With several files each line begins with FILE and a colon.

Where an area is damaged, a message says which rule it breaks first, and at which byte of the file.
That is a second look of the tool's own, which is not proved; the verdict is.
"#;

pub const LIST: &str = r#"pa list [--json] FILE..

Prints for each entry a line with its offset, its serial and its name, in listing order. Offsets
count from byte 128 of the file. With several files a line ==> FILE <== stands above each list. An
area that is not sound is refused with 5.

With --json it prints for each file an object on a line of its own:

  {"file":..,"length":..,"used":..,"entries":[{"name":..,"value":..,"offset":..,"serial":..,
   "updates":..,"long":..,"odd":..},..]}

file, name and value are strings. One whose bytes are not UTF-8 has the key file_hex, name_hex or
value_hex in place of its own, and two hex digits for each byte. long and odd are true or false; the
rest are numbers. For a file that is refused, "refused" with the number and "why" with the sentence
stand in place of used and entries; for one that is too long there is no length. There is no object
for a file that cannot be read.
"#;

pub const PICTURE: &str = r"pa picture [--html] FILE

Draws what stands where in an area, object by object in the order of the bytes; with --html as a
page without script or outside files. A damaged area is drawn as far as its links can be followed;
what breaks a rule is marked, and the status is 1. Of what is no area it is only said why. The
drawing is a second look of the tool's own, which is not proved; whether the area is sound is.
";

/// The text for somebody who has none.
pub fn all() -> String {
    let refusals = [Refusal::EmptySegment, Refusal::Missing, Refusal::Damaged, Refusal::TooLong, Refusal::BadHeader];
    let rows = refusals.iter().map(|why| format!("  {}  {}\n", why.number(), sentence(*why)));
    String::from(ALL) + &rows.collect::<String>()
}

/// The text about a verb.
pub fn of(verb: &Verb) -> String {
    verb.help.to_owned()
}
