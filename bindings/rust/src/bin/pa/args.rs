//! The arguments: a verb, its option, its files and names.

use std::ffi::{OsStr, OsString};
use std::os::unix::ffi::OsStrExt;

use crate::help;
use crate::input::is_standard;
use crate::text::given;
use crate::verbs::{Choice, Verb, VERBS};

/// What a verb is called with.
#[derive(Default)]
pub struct Call {
    pub operands: Vec<OsString>,
    /// Whether the verb's option is there, for a verb whose option has no number.
    pub chosen: bool,
    /// The number behind the verb's option.
    pub number: Option<u32>,
}

impl Call {
    /// The file, where it is followed by names. There is one: `counted` has seen to it.
    pub fn file(&self) -> &OsStr {
        self.operands.first().map_or(OsStr::new(""), OsString::as_os_str)
    }

    /// The names behind the file.
    pub fn names(&self) -> &[OsString] {
        self.operands.get(1..).unwrap_or_default()
    }
}

/// What the arguments ask for.
pub enum Asked {
    Work(&'static Verb, Call),
    Help(String),
    Version,
}

/// What the arguments ask for, or what is wrong with them.
pub fn parse(mut args: impl Iterator<Item = OsString>) -> Result<Asked, String> {
    let first = args.next().ok_or("a verb is missing")?;
    match first.to_str() {
        Some("help" | "-h" | "--help") => help_on(args),
        Some("--version") => args.next().map_or(Ok(Asked::Version), |_| Err("--version takes nothing behind it".to_owned())),
        _ => with_verb(verb(&first)?, args),
    }
}

fn verb(name: &OsStr) -> Result<&'static Verb, String> {
    VERBS.iter().find(|verb| name == verb.name).ok_or_else(|| format!("there is no verb {}", given(name)))
}

fn help_on(mut args: impl Iterator<Item = OsString>) -> Result<Asked, String> {
    let text = match args.next() {
        Some(name) if name != "help" && !is_help(&name) => help::of(verb(&name)?),
        _ => help::all(),
    };
    args.next().map_or(Ok(Asked::Help(text)), |_| Err("help takes one VERB and no more".to_owned()))
}

fn is_help(argument: &OsStr) -> bool {
    argument == "-h" || argument == "--help"
}

/// Takes options, which stand anywhere before `--`, from the operands.
fn with_verb(verb: &'static Verb, mut args: impl Iterator<Item = OsString>) -> Result<Asked, String> {
    let mut call = Call::default();
    while let Some(argument) = args.next() {
        if is_help(&argument) {
            return Ok(Asked::Help(help::of(verb)));
        } else if argument == "--" {
            call.operands.extend(args.by_ref());
        } else if argument.len() > 1 && argument.as_bytes().starts_with(b"-") {
            option(verb, &mut call, &argument, &mut args)?;
        } else {
            call.operands.push(argument);
        }
    }
    counted(verb, &call)?;
    Ok(Asked::Work(verb, call))
}

fn option(verb: &Verb, call: &mut Call, argument: &OsStr, rest: &mut impl Iterator<Item = OsString>) -> Result<(), String> {
    match verb.choice {
        Choice::Flag(name) if argument == name => call.chosen = true,
        Choice::Number(name) => {
            let value = match argument.as_bytes().strip_prefix(name.as_bytes()) {
                Some([]) => rest.next(),
                Some([b'=', value @ ..]) => Some(OsStr::from_bytes(value).to_owned()),
                _ => return Err(unknown(verb, argument)),
            };
            let value = value.ok_or_else(|| format!("{name} wants a number behind it"))?;
            call.number = Some(number(&value).ok_or_else(|| format!("{name}: {} is no number of 32 bits", given(&value)))?);
        }
        _ => return Err(unknown(verb, argument)),
    }
    Ok(())
}

fn unknown(verb: &Verb, argument: &OsStr) -> String {
    format!("{} has no option {} (behind -- it is a FILE or a NAME)", verb.name, given(argument))
}

/// A number of 32 bits in decimal, or in hex behind 0x.
fn number(text: &OsStr) -> Option<u32> {
    let text = text.to_str()?;
    let (digits, radix) = text.strip_prefix("0x").map_or((text, 10), |digits| (digits, 16));
    // The language's parser takes a sign, too.
    digits.chars().all(|digit| digit.is_digit(radix)).then(|| u32::from_str_radix(digits, radix).ok())?
}

fn counted(verb: &Verb, call: &Call) -> Result<(), String> {
    let given = call.operands.len();
    if given < verb.least {
        Err(format!("{} wants {}", verb.name, verb.wants))
    } else if given > verb.most {
        Err(format!("{} takes {} and no more", verb.name, verb.wants))
    } else if verb.all_files && call.operands.iter().filter(|file| is_standard(file)).count() > 1 {
        Err("- is there twice, and standard input can be read once".to_owned())
    } else {
        Ok(())
    }
}
