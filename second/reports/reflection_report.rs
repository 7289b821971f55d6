//! What `second reflection` prints: how often the fact of request Three was checked, by player; it
//! fails for each false claim and each number of 0.

use crate::cases::record::cases_of;
use crate::model::input::bytes_of_input;
use crate::model::object::{P0, P1};
use crate::reports::failure::Failure;
use crate::reports::reflection::PlayedCase;
use crate::reports::totals::{self, claims_text};
use std::io::{Read, Write};

/// The names of the totals.
const TOTALS: [&str; 3] = [
    "clocks and lines",
    "columns reflected, new graphic",
    "columns reflected, old graphic",
];

/// Checks the fact on the cases of the case file on the input and prints the totals. Fails at a record
/// that cannot be read, without an output; then with the claims that are false and the totals that are
/// 0, a line each.
pub fn write(input: &mut dyn Read, out: &mut dyn Write) -> Result<(), Failure> {
    let file = bytes_of_input(input, usize::MAX);
    let mut totals = [[0; 2]; 3];
    let mut false_claims = String::new();
    for (number, case) in cases_of(&file).enumerate() {
        let case = case?;
        let played = PlayedCase::new(number, &case);
        for player in [P0, P1] {
            let finding = played.find(player);
            let counted = [finding.accepted, finding.by_new, finding.by_old];
            for (total, counted) in totals.iter_mut().zip(counted) {
                total[player] += counted as u32;
            }
            let record = format!("record {number}");
            false_claims += &claims_text(&finding.false_claims, player, &record);
        }
    }
    let named = TOTALS.into_iter().zip(totals);
    totals::write(out, "reflection", named, &false_claims)
}

#[cfg(test)]
mod tests {
    use super::*;
    use crate::cases::case::{Case, Single};
    use crate::model::state::State;

    /// The records of clocks on which a reflected player is lit, in column 40: P0 by its new graphic
    /// and, if so asked, by its old one, and P1 by its old one.
    fn file(old_of_p0: bool) -> Vec<u8> {
        let mut file = Vec::new();
        for (player, old) in [(P0, false), (P0, old_of_p0), (P1, true)] {
            let mut state = State {
                h: 108,
                ..State::START
            };
            state.registers.refp[player] = true;
            state.registers.vdelp[player] = old;
            state.registers.grp_new[player] = if old { 0 } else { 1 };
            state.registers.grp_old[player] = if old { 1 } else { 0 };
            state.objects[player].age = 4;
            state.objects[player].position = 100;
            file.extend(Case::Clock(Single { state, write: None }).write());
        }
        file
    }

    #[test]
    fn totals_are_those_of_the_cases_and_zeros_are_named() {
        let cases = [
            (true, 1, 1, ""),
            (
                false,
                2,
                0,
                "missing: columns reflected, old graphic of P0\n",
            ),
        ];
        for (old_of_p0, by_new, by_old, missing) in cases {
            let mut out = Vec::new();
            let failure = write(&mut &file(old_of_p0)[..], &mut out);
            let expected = format!(
                "reflection\n\
                 clocks and lines P0 3 P1 3\n\
                 columns reflected, new graphic P0 {by_new} P1 0\n\
                 columns reflected, old graphic P0 {by_old} P1 1\n"
            );
            assert_eq!(String::from_utf8(out).unwrap(), expected);
            let missing = format!("missing: columns reflected, new graphic of P1\n{missing}");
            assert_eq!(failure, Err(Failure::Named(missing)));
        }
    }

    #[test]
    fn a_cut_record_is_named_without_an_output() {
        let mut file = file(true);
        file.pop();
        let mut out = Vec::new();
        let text = "record 2 is cut or of an unknown kind\n".to_string();
        assert_eq!(write(&mut &file[..], &mut out), Err(Failure::Named(text)));
        assert_eq!(out, []);
    }
}
