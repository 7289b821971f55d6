//! The test tapes.

pub mod colour_tapes;
pub mod long_tapes;
pub mod refused_tapes;
pub mod shown_tapes;
pub mod stretched_tapes;
pub mod test_tapes;
