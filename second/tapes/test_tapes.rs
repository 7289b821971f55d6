//! The test tapes for the listing, the line bytes and the clock bytes, each a file of its own, and the
//! writing of them.

use crate::cases::build_tapes::tape_of;
use crate::cases::damage::DAMAGES;
use crate::cases::random::Random;
use crate::cases::random_lists::showing_lists;
use crate::reports::failure::Failure;
use crate::tapes::{colour_tapes, long_tapes, refused_tapes, shown_tapes, stretched_tapes};
use std::fs;
use std::path::Path;

/// The seeds of the tapes that are refused, of the long ones and of the random ones.
const REFUSED_SEED: u64 = 2604;
const LONG_SEED: u64 = 2605;
const RANDOM_SEED: u64 = 2606;

/// How many random tapes there are of each kind of damage, and as many good ones.
const RANDOM_OF_EACH: usize = 12;

/// Tapes with their names, which say what they test.
pub type Tapes = Vec<(String, Vec<u8>)>;

/// Every test tape.
fn all() -> Tapes {
    let mut tapes = shown_tapes::tapes();
    tapes.extend(colour_tapes::tapes());
    tapes.extend(stretched_tapes::tapes());
    tapes.extend(refused_tapes::tapes(&Random::new(REFUSED_SEED)));
    tapes.extend(long_tapes::tapes(&Random::new(LONG_SEED)));
    tapes.extend(random_tapes(&Random::new(RANDOM_SEED)));
    tapes
}

/// Random tapes, by turns a good one and one that is damaged in some way.
fn random_tapes(random: &Random) -> Tapes {
    let mut tapes = Tapes::new();
    for (damaged, damage) in DAMAGES.repeat(RANDOM_OF_EACH) {
        let good = tape_of(&showing_lists(random));
        tapes.push((format!("random_{:03}_good", tapes.len()), good));
        let mut tape = tape_of(&showing_lists(random));
        damage(random, &mut tape);
        tapes.push((format!("random_{:03}_{}", tapes.len(), damaged), tape));
    }
    tapes
}

/// Writes every test tape into a folder, each to the file NAME.tape. Fails with the first file
/// that cannot be written.
pub fn write_into(folder: &Path) -> Result<(), Failure> {
    for (name, tape) in all() {
        let file = folder.join(format!("{}.tape", name));
        fs::write(&file, &tape).map_err(|error| {
            Failure::Named(format!("cannot write {}: {}\n", file.display(), error))
        })?;
    }
    Ok(())
}

#[cfg(test)]
mod tests {
    use super::*;
    use crate::model::line_faults::{line_faults, Lengths};
    use crate::model::state::State;
    use crate::model::tape::{read, Reading, FIRST_PLACE};
    use std::collections::HashSet;

    /// The refusal that a part of a tape's name tells: number, line, record, or the number alone. The
    /// first part that a name has decides; tapes with none of them are good.
    const REFUSALS: [(&str, &str); 22] = [
        ("refused_4_last_line", "4 6 0"),
        ("refused_4_also_cut_length_5_after_12", "4 12 0"),
        ("refused_5_last_line_record_7", "5 6 7"),
        ("refused_6_middle_line_record_1", "6 3 1"),
        ("refused_7_record_227", "7 2 227"),
        ("refused_9_684_cut_by_1_after_1_lines", "9 1 0"),
        ("refused_7_register_", "7 1 4"),
        ("refused_5_after_colours_in_its_line", "5 1 2"),
        ("refused_6_after_colours_in_its_line", "6 1 2"),
        ("refused_7_after_colours_in_its_line", "7 1 2"),
        ("refused_4", "4 "),
        ("refused_5", "5 "),
        ("refused_6", "6 "),
        ("refused_7", "7 "),
        ("refused_8", "8 0 0"),
        ("refused_9", "9 "),
        ("_bytes_bad_length", "4 "),
        ("_bytes_unknown_register", "7 "),
        ("_bytes_version_0", "8 0 0"),
        ("_bytes_of_255", "8 0 0"),
        ("_bytes_lone_length_byte", "9 "),
        ("_bytes_cut_last_line", "9 "),
    ];

    /// The refusal of a tape: number, line, record. No line is run: what refuses it is in its own
    /// bytes.
    fn refusal(tape: &[u8]) -> Option<String> {
        let lengths = Lengths {
            objects: 160,
            colours: 160,
        };
        let mut place = FIRST_PLACE;
        let mut line = 0;
        while let Ok(Reading::Line { start, end }) = read(tape, place) {
            let faults = line_faults(&State::START, &tape[start..end], lengths);
            if let Some(fault) = faults.first() {
                return Some(format!("{} {} {}", fault.number, line, fault.record));
            }
            place = end as u64;
            line += 1;
        }
        let refused = read(tape, place).err()?;
        Some(format!("{} {} {}", refused.number, line, refused.record))
    }

    #[test]
    fn tapes_are_refused_as_their_names_say_and_damaged_ones_with_every_number() {
        let tapes = all();
        let names: HashSet<&String> = tapes.iter().map(|(name, _)| name).collect();
        assert_eq!((tapes.len(), names.len()), (490, 490));
        let mut damaged = Vec::new();
        for (name, tape) in &tapes {
            let refusal = refusal(tape).unwrap_or_default();
            if name.starts_with("random_") && !name.ends_with("_good") {
                damaged.extend(refusal.chars().next());
                continue;
            }
            let row = REFUSALS.iter().find(|row| name.contains(row.0));
            assert_eq!(refusal.is_empty(), row.is_none(), "{name}");
            assert!(refusal.starts_with(row.map_or("", |row| row.1)), "{name}");
        }
        for number in '4'..='9' {
            assert!(damaged.iter().filter(|each| **each == number).count() >= 3);
        }
    }
}
