//! Links libcapi.a, the archive of the proved crates, from the folder `CAPI_LIB_DIR` or from target/native at the project's top; and takes
//! the list of refusals from the C header.

use std::path::{Path, PathBuf};
use std::{env, fs, process};

/// The lines of the header's first enum, which is the list of refusals.
fn listed(header: &str) -> impl Iterator<Item = &str> {
    header.lines().map(str::trim).skip_while(|&line| line != "enum {").skip(1).take_while(|&line| line != "};")
}

/// A line `PA_NAME = NUMBER,`: the name and the number.
fn numbered(line: &str) -> Option<(&str, u32)> {
    let (name, number) = line.strip_suffix(',').unwrap_or(line).split_once(" = ")?;
    name.starts_with("PA_").then_some((name, number.parse().ok()?))
}

/// `PA_ZERO_BYTE` as a case: `ZeroByte`.
fn case(name: &str) -> String {
    let words = name.split('_').skip(1).map(|word| word.split_at(word.len().min(1)));
    words.map(|(first, rest)| first.to_string() + &rest.to_ascii_lowercase()).collect()
}

/// The sentence that `pa_refusal_text` returns behind a label, with its quotes: a literal in Rust as in C.
fn sentence<'h>(header: &'h str, label: &str) -> Result<&'h str, String> {
    let said = header.lines().find_map(|line| line.trim().strip_prefix(label)?.strip_prefix(": return ")?.strip_suffix(';'));
    let quoted = said.filter(|said| said.len() > 2 && said.starts_with('"') && said.ends_with('"'));
    quoted.ok_or_else(|| format!("there is no line `{label}: return \"..\";`, and so no sentence"))
}

/// The list as the call of a macro: a row with number, case and sentence for each refusal, then the sentence of any other number.
fn refusals(header: &str) -> Result<String, String> {
    let (mut rows, mut numbers) = (Vec::new(), Vec::new());
    for line in listed(header) {
        let (name, number) = numbered(line).ok_or_else(|| format!("`{line}` is not `PA_NAME = NUMBER,`"))?;
        if numbers.contains(&number) {
            return Err(format!("{name} has the number {number}, which another has"));
        }
        numbers.push(number);
        // 0 stands for accepted, and is no refusal.
        if number != 0 {
            rows.push(format!("    {number} {} {}\n", case(name), sentence(header, &format!("case {name}"))?));
        }
    }
    if rows.is_empty() {
        return Err("there is no list `enum { PA_NAME = NUMBER, .. };`, or it is empty".into());
    }
    Ok(format!("refusals! {{\n{}    else {}\n}}\n", rows.concat(), sentence(header, "default")?))
}

/// Writes the list of refusals to where src/refusal.rs includes it.
fn list_refusals(header: &Path) -> Result<(), String> {
    println!("cargo::rerun-if-changed={}", header.display());
    let to = env::var_os("OUT_DIR").map(PathBuf::from).unwrap_or_default().join("refusals.rs");
    let text = fs::read_to_string(header).map_err(|why| why.to_string())?;
    fs::write(to, refusals(&text)?).map_err(|why| why.to_string())
}

fn fail(why: &str) -> ! {
    eprintln!("property-area: {why}");
    process::exit(1)
}

fn main() {
    println!("cargo::rerun-if-env-changed=CAPI_LIB_DIR");
    let here = env::var_os("CARGO_MANIFEST_DIR").map(PathBuf::from).unwrap_or_default();
    let header = here.join("../c/property_area.h");
    if let Err(why) = list_refusals(&header) {
        fail(&format!("the refusals of {}: {why}", header.display()));
    }
    let folder = env::var_os("CAPI_LIB_DIR").map_or_else(|| here.join("../../target/native"), PathBuf::from);
    let file = folder.join("libcapi.a");
    println!("cargo::rerun-if-changed={}", file.display());
    if !file.is_file() {
        fail(&format!(
            "there is no {}.\n\
             Run `tools/archive capi` at the project's top, which makes it; or set CAPI_LIB_DIR to its folder (an absolute path).",
            file.display()
        ));
    }
    println!("cargo::rustc-link-search=native={}", folder.display());
    println!("cargo::rustc-link-lib=static=capi");
}
