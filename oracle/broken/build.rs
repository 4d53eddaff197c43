//! Writes one module for each edit of edits.txt, entry-edits.txt and walk-edits.txt: the twin's text, or the walk's, with that one place changed. An edit
//! whose old text does not stand exactly once there stops the build.

#[path = "../build_files.rs"]
mod build_files;

use build_files::{folder, read, stop};
use std::fs;

fn main() {
    let twin = "../twin/src/lib.rs";
    let twins = mutants(twin, "edits.txt", "m", "Twin", "MUTANTS: &[(&str, &(dyn calls::Side + Sync))]");
    let entries = mutants(twin, "entry-edits.txt", "e", "Twin", "ENTRY_MUTANTS: &[(&str, &(dyn calls::Side + Sync))]");
    let walks =
        mutants("../walk/src/lib.rs", "walk-edits.txt", "w", "Walk::DOCUMENT", "WALKS: &[(&str, &(dyn calls::Audit + Sync))]");
    fs::write(folder("OUT_DIR").join("mutants.rs"), twins + &entries + &walks).unwrap();
}

/// The modules, and the table of what each holds under `what`.
fn mutants(text: &str, edits: &str, letter: &str, what: &str, table: &str) -> String {
    let here = folder("CARGO_MANIFEST_DIR");
    let (text, edits) = (read(&here.join(text)), read(&here.join(edits)));
    let (mut modules, mut rows) = (String::new(), String::new());
    let paragraphs = edits.split("\n\n").filter(|paragraph| paragraph.contains("name: "));
    for (number, paragraph) in paragraphs.enumerate() {
        let [name, old, new] = ["name: ", "old: ", "new: "].map(|start| field(paragraph, start));
        if text.matches(&old).count() != 1 {
            stop(&format!("edit `{name}`: `{old}` does not stand exactly once in the twin"));
        }
        let module = format!("{letter}{number}");
        let file = folder("OUT_DIR").join(format!("{module}.rs"));
        fs::write(&file, text.replacen(&old, &new, 1)).unwrap();
        modules += &format!("#[allow(warnings)]\n#[path = {file:?}]\nmod {module};\n");
        rows += &format!("    ({name:?}, &{module}::{what}),\n");
    }
    format!("{modules}pub static {table} = &[\n{rows}];\n")
}

/// The rest of the line that starts so, with its line feeds.
fn field(paragraph: &str, start: &str) -> String {
    let line = paragraph.lines().find_map(|line| line.strip_prefix(start));
    line.unwrap_or_else(|| stop(&format!("no `{start}` in this edit:\n{paragraph}"))).replace("\\n", "\n")
}
