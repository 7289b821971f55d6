//! The fifteen latches: the pair that each stands for, when it is set (step 10), and the
//! read-out of eight bytes.

use crate::model::object::{BL, M0, M1, P0, P1, PF};
use crate::model::refusal::Refusal;
use crate::model::state::State;

/// The pair of each latch, in the order of the read-out.
pub const PAIRS: [(usize, usize); 15] = [
    (M0, P1),
    (M0, P0),
    (M1, P0),
    (M1, P1),
    (P0, PF),
    (P0, BL),
    (P1, PF),
    (P1, BL),
    (M0, PF),
    (M0, BL),
    (M1, PF),
    (M1, BL),
    (BL, PF),
    (P0, P1),
    (M0, M1),
];

/// Whether the pair of a latch is lit together.
pub fn lit_together(lit: &[bool; 6], latch: usize) -> bool {
    let (first, second) = PAIRS[latch];
    lit[first] && lit[second]
}

/// Step 10 in an unblanked column: every pair lit together sets its latch.
pub fn set_latches(latches: &mut [bool; 15], lit: &[bool; 6]) {
    for (latch, set) in latches.iter_mut().enumerate() {
        if lit_together(lit, latch) {
            *set = true;
        }
    }
}

/// The eight bytes of the latches, bits 7 and 6. Refuses (1) a bad state.
pub fn read_out(state: &State) -> Result<[u8; 8], Refusal> {
    state.check()?;
    let latch = |n: usize| u8::from(state.latches[n]);
    let two = |seven: u8, six: u8| seven << 7 | six << 6;
    Ok([
        two(latch(0), latch(1)),
        two(latch(2), latch(3)),
        two(latch(4), latch(5)),
        two(latch(6), latch(7)),
        two(latch(8), latch(9)),
        two(latch(10), latch(11)),
        two(latch(12), 0),
        two(latch(13), latch(14)),
    ])
}
