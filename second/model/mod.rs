//! The model: the chip of document 01 with the colour of document 02, request One, its stretched
//! players, request Two, and its mirrored bytes, request Three, to be read with the papers in this order.
//!
//! - `refusal`: a refusal's number and record index (Refusal numbers, the closing sentence).
//! - `counter`: The six-bit counter, with refusal 10 of its calls.
//! - `state`: The chip's state, the start state, refusal 1.
//! - `object`: what the state holds of an object; its end slot of step 4, the pulse, the starts
//!   and the sizes of step 6.
//! - `drawing`: request Two, the pixel and its clocks shown, and what a pulse does to them in step 6.
//! - `registers`: Registers, what a write keeps of a value, the copies of GRP0 and GRP1.
//! - `clock`: One clock, steps 1 to 11 in order, step 6 with request Two, with refusals 1 and 7 of a
//!   single clock.
//! - `lit`: steps 8, with request Two, and 9, what is lit.
//! - `mirror`: request Three, a byte mirrored.
//! - `colour`: request One, the colour of a column.
//! - `latches`: the pairs of step 10 and the latch read-out.
//! - `write_list`: A line and a tape, the write list's length and its records.
//! - `line_faults`: refusals 1 to 7 and 11 of a line in the order of checks.
//! - `line`: a line's 228 clocks and its two buffers.
//! - `tape`: reading a tape, with its refusals 8, 9, 4, 9, and the stretch.
//! - `first_lit`: the first lit column, with refusals 3 and 10.
//! - `replay`: playing one line of a tape, and a whole tape from the start state.
//! - `listing`: the listing program of Bench checks.
//! - `input`: standard input, read up to one byte past the longest tape.
//! - `line_bytes`: the object bytes and colour bytes of a tape's lines, raw; the papers have no such
//!   program, it is there to compare with.
//! - `clock_bytes`: what the state holds after each clock of one line of a tape, raw; the papers have
//!   no such program either.
//! - `card_bytes`: the values of the counter and the mirrored bytes, raw; nor such a one.

pub mod card_bytes;
pub mod clock;
pub mod clock_bytes;
pub mod colour;
pub mod counter;
pub mod drawing;
pub mod first_lit;
pub mod input;
pub mod latches;
pub mod line;
pub mod line_bytes;
pub mod line_faults;
pub mod listing;
pub mod lit;
pub mod mirror;
pub mod object;
pub mod refusal;
pub mod registers;
pub mod replay;
pub mod state;
pub mod tape;
pub mod write_list;
