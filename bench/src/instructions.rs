//! Instruction counts, by callgrind.

use crate::names::Shape;
use crate::sides::{pass, Kind, Who};
use crate::work::Work;
use std::env;
use std::process::Command;

/// One pass over each area, or two, each on a copy of its own. Whatever else is done is the same in both cases, so that two runs
/// differ by the second pass.
pub fn run_passes(works: &[Work], who: Who, kind: Kind, passes: usize) {
    for work in works {
        let calls = work.calls(kind);
        let mut areas = [work.area(kind).to_vec(), work.area(kind).to_vec()];
        for area in &mut areas[..passes] {
            pass(who, kind, area, &calls);
        }
    }
}

/// The cells of a row: instructions a call on each side, then the archive's by each other side's.
pub fn row(works: &[Work], shape: Shape, kind: Kind, seed: u64) -> Vec<String> {
    let calls: usize = works.iter().map(Work::count).sum();
    let counts = Who::ALL.map(|who| {
        let collected = |passes| collected(shape, who, kind, passes, seed).expect("valgrind --tool=callgrind runs here");
        (collected("2") - collected("1")) / calls as f64
    });
    let ratio = |side: usize| format!("{:.2}", counts[2] / counts[side]);
    [counts.map(|count| format!("{count:.0}")).as_slice(), &[ratio(0), ratio(1)]].concat()
}

/// All instructions of a run of this program.
fn collected(shape: Shape, who: Who, kind: Kind, passes: &str, seed: u64) -> Option<f64> {
    let run = Command::new("valgrind")
        .args(["--tool=callgrind", "--callgrind-out-file=/dev/null"])
        .arg(env::current_exe().ok()?)
        .args(["passes", shape.title(), who.title(), kind.word(), passes, &seed.to_string()])
        .output()
        .ok()?;
    let said = String::from_utf8_lossy(&run.stderr);
    said.lines().find_map(|line| line.split_once("Collected : ")).and_then(|(_, count)| count.trim().parse().ok())
}
