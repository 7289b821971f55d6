//! The large case file: the generated cases, written only if they make everything happen that
//! they must.

use crate::cases::case::Case;
use crate::cases::random::Random;
use crate::cases::{line_cases, run_cases, single_cases, tape_cases, walk_cases};
use crate::coverage;
use crate::reports::failure::Failure;
use std::io::Write;

/// A function that adds a group of cases.
pub type Group<T> = fn(&Random, &mut Vec<T>);

/// So many cases from a seed: the groups one after another, then others.
fn made<T>(seed: u64, number: usize, groups: &[Group<T>], other: fn(&Random) -> T) -> Vec<T> {
    let random = Random::new(seed);
    let mut cases = Vec::new();
    for group in groups {
        group(&random, &mut cases);
    }
    while cases.len() < number {
        cases.push(other(&random));
    }
    cases
}

/// The cases in the order of their records, each kind from a seed of its own.
pub fn generate() -> Vec<Case> {
    let singles = single_cases::GROUPS.repeat(5);
    let singles = made(2600, 32_000, &singles, single_cases::other);
    let walks = made(2601, 320, &[], walk_cases::walk);
    let lines = line_cases::GROUPS.repeat(5);
    let lines = made(2602, 32_000, &lines, line_cases::other);
    let runs = made(2603, 3_000, &run_cases::GROUPS, run_cases::other);
    let tapes = tape_cases::GROUPS.repeat(4);
    let tapes = made(2604, 24_000, &tapes, tape_cases::other);
    let mut cases: Vec<Case> = singles.into_iter().map(Case::Clock).collect();
    cases.extend(walks.into_iter().map(Case::Walk));
    cases.extend(lines.into_iter().map(Case::Line));
    cases.extend(runs.into_iter().map(Case::Run));
    cases.extend(tapes.into_iter().map(Case::Tape));
    cases
}

/// Writes the records of the cases. Writes nothing if the cases miss something; ends early with
/// the first write error.
pub fn write(out: &mut dyn Write) -> Result<(), Failure> {
    let cases = generate();
    let missing = coverage::missing(&cases);
    if !missing.is_empty() {
        return Err(Failure::Named(missing));
    }
    for case in &cases {
        out.write_all(&case.write())?;
    }
    Ok(())
}
