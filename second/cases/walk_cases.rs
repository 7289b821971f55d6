//! The walks of the case file: their writes are spread over their clocks and make objects show and
//! move.

use crate::cases::build_lists::address_of;
use crate::cases::case::{WaitedWrite, Walk};
use crate::cases::random::Random;
use crate::cases::random_lists::{known_address, showing_write, unknown_addresses, OPENING};
use crate::cases::random_states::{bad_state, edge_state, even_state};
use crate::model::registers::Register;
use crate::model::state::State;
use std::array;

/// A walk: of each 40 about 13 from the start state, opened by writes that make objects show, 16
/// from states drawn towards the edges, 10 from states drawn evenly and one from a bad state. The
/// writes lie far apart, in bursts, or mostly spread evenly.
pub fn walk(random: &Random) -> Walk {
    let (state, opening) = match random.up_to(39) {
        0..=12 => (State::START, &OPENING[..]),
        13..=28 => (edge_state(random), &[][..]),
        29..=38 => (even_state(random), &[][..]),
        _ => (bad_state(random), &[][..]),
    };
    let pace = random.up_to(15);
    let writes = array::from_fn(|n| {
        let wait = match pace {
            _ if n < opening.len() => random.up_to(3),
            0 => random.byte(),
            1..=4 if random.one_in(4) => random.between(30, 70),
            1..=4 => random.up_to(3),
            _ => random.up_to(28),
        };
        let address = opening.get(n).copied();
        let address = address.unwrap_or_else(|| walk_address(random));
        let write = showing_write(random, address);
        WaitedWrite { wait, write }
    });
    Walk { state, writes }
}

/// The address of a walk's write: one in ten HMOVE, one in thirteen unknown, one in five NUSIZ0 or
/// NUSIZ1, the others of any known register.
fn walk_address(random: &Random) -> u8 {
    match random.up_to(129) {
        0..=12 => address_of(Register::Hmove),
        13..=22 => random.pick(&unknown_addresses()),
        23..=48 => address_of(Register::Nusiz(random.index(2))),
        _ => known_address(random),
    }
}
