//! The small case file: the first case of the large set with each outcome, and every so many of
//! each kind.

use crate::cases::case::{Case, QUIET_CALLS};
use crate::cases::chip_cases::generate;
use crate::cases::record::KINDS;
use crate::model::tape::{read, Reading};
use crate::reports::chip_report;
use crate::reports::failure::Failure;
use std::io::Write;

/// The most bytes of the file, and of its report.
const MOST_BYTES: usize = 60_000;

/// For each kind, one case in so many is taken.
const ONE_IN: [usize; KINDS.len()] = [122, 20, 305, 750, 305];

/// An outcome that is no refusal: acceptance, in a walk or run of all its clocks or calls.
const ACCEPTED: u8 = 0;

/// The outcome of a tape call at the tape's end; the others are the numbers of refusals.
const ENDED: u8 = u8::MAX;

/// For each kind, the outcomes that the sample must have.
const REQUIRED: [&[u8]; KINDS.len()] = [
    &[ACCEPTED, 1, 7],
    &[ACCEPTED, 1, 7],
    &[ACCEPTED, 1, 2, 3, 4, 5, 6, 7, 11],
    &[ACCEPTED, 3, 4, 5, 6, 7, 11],
    &[ACCEPTED, 1, 2, 3, 4, 5, 6, 7, 8, 9, 11, ENDED],
];

/// Writes the records of the sample. Writes nothing and names what is wrong if an outcome does not
/// occur or a size is exceeded.
pub fn write(out: &mut dyn Write) -> Result<(), Failure> {
    let (cases, missing) = sample(&generate());
    let file: Vec<u8> = cases.iter().flat_map(Case::write).collect();
    let mut report = Vec::new();
    chip_report::write(&mut &file[..], &mut report)?;
    let mut wrong = String::new();
    for (kind, outcomes) in KINDS.iter().zip(missing) {
        for outcome in outcomes {
            wrong += &format!("missing: {} with outcome {}\n", kind, outcome);
        }
    }
    for (name, bytes) in [("sample", file.len()), ("report", report.len())] {
        if bytes > MOST_BYTES {
            wrong += &format!("{} of {} bytes\n", name, bytes);
        }
    }
    if !wrong.is_empty() {
        return Err(Failure::Named(wrong));
    }
    Ok(out.write_all(&file)?)
}

/// The sample of these cases, and for each kind the outcomes that do not occur in it.
fn sample(all: &[Case]) -> (Vec<Case>, [Vec<u8>; KINDS.len()]) {
    let mut missing = REQUIRED.map(<[u8]>::to_vec);
    let mut numbers = [0; KINDS.len()];
    let mut cases = Vec::new();
    for case in all {
        let kind = case.kind();
        let mut taken = numbers[kind] % ONE_IN[kind] == 0;
        if !missing[kind].is_empty() {
            let met = outcomes(case);
            taken |= met.iter().any(|outcome| missing[kind].contains(outcome));
            missing[kind].retain(|outcome| !met.contains(outcome));
        }
        if taken {
            cases.push(case.clone());
        }
        numbers[kind] += 1;
    }
    (cases, missing)
}

/// The outcomes of a case: of its answer, or, of a walk or run, of each clock or own call that is
/// refused.
fn outcomes(case: &Case) -> Vec<u8> {
    let mut numbers: Vec<u8> = match case {
        Case::Clock(single) => vec![single.play().number],
        Case::Walk(walk) => walk.play().iter().map(|answer| answer.number).collect(),
        Case::Line(line) => vec![line.play(0).answer.number],
        Case::Run(run) => {
            let played = run.play(0);
            let own = &played[QUIET_CALLS..played.len() - QUIET_CALLS];
            own.iter().map(|played| played.answer.number).collect()
        }
        Case::Tape(tape) if read(&tape.tape, tape.place) == Ok(Reading::Ended) => vec![ENDED],
        Case::Tape(tape) => vec![tape.play(0).answer.number],
    };
    if numbers.iter().any(|&number| number != ACCEPTED) {
        numbers.retain(|&number| number != ACCEPTED);
    }
    numbers
}

#[cfg(test)]
mod tests {
    use super::*;
    use crate::cases::record::cases_of;

    #[test]
    fn the_sample_is_small_and_has_every_outcome() {
        let mut file = Vec::new();
        assert_eq!(write(&mut file), Ok(()));
        assert!((40_000..=MOST_BYTES).contains(&file.len()));
        let cases: Vec<Case> = cases_of(&file).map(Result::unwrap).collect();
        assert!(sample(&cases).1.iter().all(Vec::is_empty));
        assert_eq!(sample(&[]), (vec![], REQUIRED.map(<[u8]>::to_vec)));
    }
}
