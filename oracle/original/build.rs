//! Finds the Rust that is compared with and writes the files that include it into OUT_DIR. None of its text is kept here.

#[path = "../build_files.rs"]
mod build_files;

use build_files::{folder, read, stop};
use std::fs;
use std::path::{Path, PathBuf};
use std::process::Command;

/// The files that are read, with a checksum (FNV-1a, 64 bits, over the lines) of the text at baa8c490b1. All but lib.rs, of
/// which one function is cut out, are compiled whole and unchanged.
const FILES: [(&str, u64); 6] = [
    ("errors.rs", 0x81d0_a0e9_c2fe_3a3b),
    ("file_validation.rs", 0x24aa_5cf9_0c2a_0c0c),
    ("lib.rs", 0xc10c_f36a_e478_3289),
    ("property_area.rs", 0xd1ba_3895_08ae_58a3),
    ("property_info.rs", 0x2ad0_87e8_7033_b4c7),
    ("wire.rs", 0x87f8_27a2_a144_e8f4),
];

/// Where the counted copy is told of a comparison. It stands once in the text, in `find_prop_trie_node`.
const COMPARISON: &str = "let next_offset = match cmp_prop_name(";

fn main() {
    println!("cargo::rerun-if-env-changed=RSPROPERTIES_SRC");
    let source = source_folder();
    for (name, sum) in FILES {
        let text = read(&source.join(name));
        if checksum(&text) != sum {
            stop(&format!("{name} differs from the text at baa8c490b1 (checksum {:#018x})", checksum(&text)));
        }
    }
    let align = cut_function(&read(&source.join("lib.rs")), "pub(crate) fn bionic_align(");
    let counted =
        replace_once(&read(&source.join("property_area.rs")), COMPARISON, &format!("crate::count_comparison(); {COMPARISON}"));
    let out = folder("OUT_DIR");
    fs::write(out.join("bionic_align.rs"), align).unwrap();
    fs::write(out.join("counted_area.rs"), counted).unwrap();
    fs::write(out.join("modules.rs"), modules(&source, &out)).unwrap();
}

/// What `oracle/source` prints; its sentence, where it finds nothing.
fn source_folder() -> PathBuf {
    let script = folder("CARGO_MANIFEST_DIR").join("../../oracle/source");
    println!("cargo::rerun-if-changed={}", script.display());
    let told = Command::new(&script).output().unwrap_or_else(|error| stop(&format!("{}: {error}", script.display())));
    if !told.status.success() {
        stop(String::from_utf8_lossy(&told.stderr).trim_end());
    }
    String::from_utf8_lossy(&told.stdout).trim_end().into()
}

/// The module tree: the original's own, and the counted copy beside it.
///
/// `#[path]` where a file begins with inner doc lines, which `include!` refuses; `include!` for property_area.rs, so that
/// src/over_bytes.rs stands in the same module and sees its private parts.
fn modules(source: &Path, out: &Path) -> String {
    let path = |name: &str| {
        format!("#[allow(dead_code, clippy::all)]\n#[path = {:?}]\nmod {name};\n", source.join(format!("{name}.rs")))
    };
    let ours = folder("CARGO_MANIFEST_DIR").join("src/over_bytes.rs");
    let area = |name: &str, text: PathBuf| {
        format!("#[allow(dead_code, clippy::all)]\nmod {name} {{\n    include!({text:?});\n    include!({ours:?});\n}}\n")
    };
    [
        path("errors"),
        path("file_validation"),
        path("property_info"),
        path("wire"),
        area("property_area", source.join("property_area.rs")),
        area("counted_area", out.join("counted_area.rs")),
    ]
    .concat()
}

/// The text of one function at the outermost level, from its head to the closing brace.
fn cut_function(text: &str, head: &str) -> String {
    let from = text.find(head).unwrap_or_else(|| stop(&format!("lib.rs has no `{head}`")));
    let end = text[from..].find("\n}").unwrap_or_else(|| stop(&format!("`{head}` does not end")));
    text[from..from + end + 2].to_owned()
}

fn replace_once(text: &str, old: &str, new: &str) -> String {
    if text.matches(old).count() != 1 {
        stop(&format!("`{old}` does not stand exactly once in property_area.rs"));
    }
    text.replacen(old, new, 1)
}

fn checksum(text: &str) -> u64 {
    let step = |sum: u64, byte: u8| (sum ^ u64::from(byte)).wrapping_mul(0x0000_0100_0000_01b3);
    text.trim_end().lines().flat_map(|line| line.bytes().chain([b'\n'])).fold(0xcbf2_9ce4_8422_2325, step)
}
