//! The kinds of cases by name.

use std::path::Path;

use crate::case::{self, Case};
use crate::{crowded, damage, limits, purpose, random, real};

pub const KINDS: &str = "real|random|purpose|limits|crowded|damage";
const SEED: u64 = 1;
const COUNT: usize = 4000;

/// Where oracle/real leaves the compiled schemas.
pub const REAL: &str = concat!(env!("CARGO_MANIFEST_DIR"), "/compiled/real");

/// The cases of a kind, and a line on them. Seed and count are for random and damaged ones; real ones take the seed for their shuffling.
pub fn make(
    kind: &str,
    seed: Option<u64>,
    count: Option<usize>,
) -> Result<(Vec<Case>, String), String> {
    let (seed, count) = (seed.unwrap_or(SEED), count.unwrap_or(COUNT));
    let cases = match kind {
        "real" => return real::cases(Path::new(REAL), seed),
        "random" => random::cases(seed, count),
        "purpose" => purpose::cases(),
        "limits" => limits::cases(),
        "crowded" => crowded::cases(),
        "damage" => damage::cases(seed, count),
        other => return Err(format!("there are no cases of the kind `{other}`: {KINDS}")),
    };
    let files: usize = cases.iter().map(|c| c.files.len()).sum();
    let line = format!("{} cases with {files} files", cases.len());
    Ok((cases, line))
}

/// Hands on the cases of a kind, or those of a file of cases. Random and damaged ones come in portions, so that not all stand in memory at once.
pub fn each_portion(
    kind: &str,
    seed: Option<u64>,
    count: Option<usize>,
    portion: usize,
    mut work: impl FnMut(&[Case]) -> Result<(), String>,
) -> Result<(), String> {
    let (seed, count) = (seed.unwrap_or(SEED), count.unwrap_or(COUNT));
    if !matches!(kind, "random" | "damage") {
        let cases = make_or_read(kind, seed)?;
        return work(&cases);
    }
    for done in (0..count).step_by(portion) {
        let next = portion.min(count - done);
        let (cases, _) = make(kind, Some(seed.wrapping_add(done as u64)), Some(next))?;
        work(&cases)?;
    }
    Ok(())
}

fn make_or_read(kind: &str, seed: u64) -> Result<Vec<Case>, String> {
    if !Path::new(kind).is_file() {
        return Ok(make(kind, Some(seed), None)?.0);
    }
    let text = std::fs::read_to_string(kind).map_err(|e| format!("{kind}: {e}"))?;
    case::read_cases(&text).map_err(|e| format!("{kind}: {e}"))
}
