//! Twins, and walks of check, listing and dump, that are broken on purpose, each in one place: whatever compares has to notice every one.
//! See edits.txt, entry-edits.txt and walk-edits.txt.
//!
//! `MUTANTS`, `ENTRY_MUTANTS` and `WALKS` list them, each with what is wrong in it.

include!(concat!(env!("OUT_DIR"), "/mutants.rs"));
