//! What `second demand3` prints: on how many runs demand 3 was checked, by object; it fails for
//! each false claim and each number of 0.

use crate::cases::case::RunCase;
use crate::reports::demand3::PlayedRun;
use crate::reports::failure::Failure;
use crate::reports::totals::{self, claims_text};
use std::io::Write;

/// The names of the totals.
const TOTALS: [&str; 3] = [
    "runs",
    "runs with a refused call",
    "runs with a sum past column 0",
];

/// Checks demand 3 on runs, given with the numbers of their records, and prints the totals. Fails
/// with the claims that are false, then the totals that are 0, a line each.
pub fn write(out: &mut dyn Write, runs: &[(usize, RunCase)]) -> Result<(), Failure> {
    let mut totals = [[0; 5]; 3];
    let mut false_claims = String::new();
    for (number, run) in runs {
        let played = PlayedRun::new(*number, run);
        for object in 0..5 {
            if let Some(finding) = played.find(object) {
                let counted = [true, finding.refused, finding.past_column_0];
                for (total, counted) in totals.iter_mut().zip(counted) {
                    total[object] += u32::from(counted);
                }
                let run = format!("run {number}");
                false_claims += &claims_text(&finding.false_claims, object, &run);
            }
        }
    }
    let named = TOTALS.into_iter().zip(totals);
    totals::write(out, "demand 3", named, &false_claims)
}

#[cfg(test)]
mod tests {
    use super::*;
    use crate::cases::build_lists::records_of;
    use crate::model::state::State;

    #[test]
    fn totals_are_of_the_objects_whose_premises_the_runs_keep_and_zeros_are_named() {
        let lines = [
            records_of(&[(0, 0x24, 0x70), (9, 0x2A, 0)]),
            records_of(&[(9, 0x2A, 0), (80, 0x1D, 2), (100, 0x10, 0)]),
            records_of(&[(228, 0x2A, 0)]),
        ];
        let run = |lines| RunCase::of_lines(State::START, lines);
        let mut out = Vec::new();
        let failure = write(&mut out, &[(0, run(&lines)), (7, run(&lines[..2]))]);
        let expected = "demand 3\n\
                        runs P0 0 P1 2 M0 2 M1 2 BL 2\n\
                        runs with a refused call P0 0 P1 1 M0 1 M1 1 BL 1\n\
                        runs with a sum past column 0 P0 0 P1 0 M0 0 M1 0 BL 2\n";
        assert_eq!(String::from_utf8(out).unwrap(), expected);
        let expected = "missing: runs of P0\n\
                        missing: runs with a refused call of P0\n\
                        missing: runs with a sum past column 0 of P0\n\
                        missing: runs with a sum past column 0 of P1\n\
                        missing: runs with a sum past column 0 of M0\n\
                        missing: runs with a sum past column 0 of M1\n";
        assert_eq!(failure, Err(Failure::Named(expected.to_string())));
    }
}
