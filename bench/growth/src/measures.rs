//! What one check costs.

use calls::Audit;
use std::hint::black_box;
use std::process::{self, Command};
use std::time::Instant;
use std::{env, fs, iter};

/// Nanoseconds, the best of some rounds.
pub fn time(side: &dyn Audit, area: &mut [u8]) -> Option<f64> {
    let mut scratch = vec![0; area.len() / 4];
    let rounds = ((1 << 26) / area.len()).clamp(15, 500);
    let took = iter::repeat_with(|| {
        let start = Instant::now();
        black_box(side.check(black_box(area), &mut scratch));
        start.elapsed().as_nanos() as f64
    });
    took.take(rounds).reduce(f64::min)
}

/// So many checks. Whatever else is done does not depend on how many.
pub fn passes(side: &dyn Audit, area: &mut [u8], passes: usize) {
    let mut scratch = vec![0; area.len() / 4];
    for _ in 0..passes {
        black_box(side.check(black_box(area), &mut scratch));
    }
}

/// Instructions, by callgrind: what two checks take more than one.
pub fn instructions(name: &str, area: &[u8]) -> Option<f64> {
    let file = env::temp_dir().join(format!("growth-{}.bin", process::id()));
    fs::write(&file, area).ok()?;
    let collected = |passes: &str| {
        let run = Command::new("valgrind")
            .args(["--tool=callgrind", "--callgrind-out-file=/dev/null"])
            .arg(env::current_exe().ok()?)
            .args(["passes", name])
            .arg(&file)
            .arg(passes)
            .output()
            .ok()?;
        let said = String::from_utf8_lossy(&run.stderr);
        said.lines().find_map(|line| line.split_once("Collected : ")).and_then(|(_, count)| count.trim().parse::<f64>().ok())
    };
    let more = collected("2").zip(collected("1")).map(|(two, one)| two - one);
    fs::remove_file(&file).ok()?;
    more
}
