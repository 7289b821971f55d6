//! The cases, their records and their generators.

pub mod bench;
pub mod build_lists;
pub mod build_tapes;
pub mod case;
pub mod chip_cases;
pub mod colour_writes;
pub mod damage;
pub mod drawing_writes;
pub mod drawings;
pub mod line_cases;
pub mod random;
pub mod random_lists;
pub mod random_states;
pub mod record;
pub mod run_cases;
pub mod sample;
pub mod single_cases;
pub mod spoil;
pub mod state_fields;
pub mod stretched_cases;
pub mod tape_cases;
pub mod walk_cases;
