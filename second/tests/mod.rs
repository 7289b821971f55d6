//! Tests of the model, a file for each subject; each test stands under the sentence of the paper
//! that it holds the model to.

pub mod playing;

mod bench;
mod card_bytes;
mod clock;
mod clock_bytes;
mod colour;
mod counter;
mod input;
mod line;
mod listing;
mod lit;
mod mirror;
mod read_outs;
mod registers;
mod replay;
mod slips;
mod state;
mod stretched;
mod tape;
