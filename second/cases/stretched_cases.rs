//! The single clocks and the line calls of the case file that request Two, stretched players, asks for.

use crate::cases::build_lists::address_of;
use crate::cases::case::{Call, LineCase, Single};
use crate::cases::drawings::{copies_of_size, drawing_at, set_age, SIZES};
use crate::cases::random::Random;
use crate::cases::random_lists::{hmove_at, put, short_list};
use crate::cases::random_states::{line_start_state, without_motion};
use crate::cases::single_cases::{pulsed_state, visible_state, write_of};
use crate::model::clock::RegisterWrite;
use crate::model::drawing::{first_age, Drawing, NO_PIXEL};
use crate::model::object::{P0, P1};
use crate::model::registers::Register;
use crate::model::state::State;
use crate::model::write_list::ListedWrite;

/// Positions from which one pulse reaches a start with some copies.
const BEFORE_STARTS: [u8; 4] = [159, 15, 31, 63];

/// A player with its size at the start and the size read now.
type Sized = (usize, u8, u8);

/// Each player with each size at the start and each size read now.
fn sized_players() -> Vec<Sized> {
    let mut players = Vec::new();
    for player in [P0, P1] {
        for size in SIZES {
            players.extend(SIZES.map(|now| (player, size, now)));
        }
    }
    players
}

/// A state in which a player, away from its starts, is pulsed on the next clock, visible or by an extra
/// pulse in the blank, with these sizes, this drawing, and an age at which its copy does not start
/// drawing on that pulse.
fn drawn_state(random: &Random, (player, size, now): Sized, drawing: Drawing) -> State {
    let mut state = pulsed_state(random, player, 100);
    state.sizes[player] = size;
    state.registers.copies[player] = copies_of_size(random, now);
    state.drawings[player] = drawing;
    state.objects[player].age = match random.up_to(3) {
        0 => first_age(size),
        1 => 64,
        _ => random.between(first_age(size), 63),
    };
    state
}

/// The same, but the pulse is that on which the copy starts drawing.
fn beginning_state(random: &Random, sized: Sized, drawing: Drawing) -> State {
    let mut state = drawn_state(random, sized, drawing);
    state.objects[sized.0].age = first_age(sized.1) - 1;
    state
}

/// A drawing that has not begun, at times an odd one, with clocks shown.
fn no_drawing(random: &Random) -> Drawing {
    Drawing {
        pixel: NO_PIXEL,
        shown: random.pick(&[0, 0, random.up_to(4)]),
    }
}

/// Any drawing within a copy.
fn any_drawing(random: &Random) -> Drawing {
    Drawing {
        pixel: random.up_to(7),
        shown: random.up_to(4),
    }
}

/// The write of copies that give a player this size, and any width.
fn nusiz_write(random: &Random, player: usize, size: u8) -> RegisterWrite {
    RegisterWrite {
        address: address_of(Register::Nusiz(player)),
        value: random.byte() & 0b1111_1000 | copies_of_size(random, size),
    }
}

/// Each size at the start and now, with a pixel below 7, pixel 7 and none, shown any number of clocks,
/// on a pulse.
pub fn pixels(random: &Random, singles: &mut Vec<Single>) {
    for sized in sized_players() {
        for pixel in [random.up_to(6), 7, NO_PIXEL] {
            for shown in 0..=4 {
                let state = drawn_state(random, sized, Drawing { pixel, shown });
                singles.push(Single { state, write: None });
            }
        }
    }
}

/// Pulses on which copies start drawing, and those next to them, with no pixel before and with one; and
/// each pixel, reflected and not, with a graphic that shows it on the next clock, pulsed or not, or
/// that shows all but it.
pub fn beginnings(random: &Random, singles: &mut Vec<Single>) {
    for sized in sized_players() {
        for age in [3, 4, 5] {
            for drawing in [no_drawing(random), Drawing::NONE, any_drawing(random)] {
                let mut state = drawn_state(random, sized, drawing);
                state.objects[sized.0].age = age;
                singles.push(Single { state, write: None });
            }
        }
    }
    for (player, pixel) in (0..8).flat_map(|pixel| [(P0, pixel), (P1, pixel)]) {
        for (reflected, bits) in [(false, 0), (false, 255), (true, 0), (true, 255)] {
            let mut state = visible_state(random);
            let size = random.pick(&[2, 4]);
            state.sizes[player] = size;
            state.registers.copies[player] = copies_of_size(random, size);
            state.objects[player].position = 100;
            set_age(&mut state, player, first_age(size) + pixel * size);
            let bit = if reflected { pixel } else { 7 - pixel };
            state.registers.refp[player] = reflected;
            state.registers.grp_new[player] = bits ^ 1 << bit;
            state.registers.grp_old[player] = bits ^ 1 << bit;
            singles.push(Single { state, write: None });
        }
    }
}

/// Starts at each pixel, with each size at the start before and each size taken.
pub fn starts(random: &Random, singles: &mut Vec<Single>) {
    for sized in sized_players() {
        for pixel in [random.up_to(7), random.up_to(7), NO_PIXEL] {
            let shown = random.up_to(4);
            let mut state = drawn_state(random, sized, Drawing { pixel, shown });
            state.objects[sized.0].position = 159;
            if random.one_in(4) {
                state.objects[sized.0].age = first_age(sized.1) - 1;
            }
            singles.push(Single { state, write: None });
        }
    }
}

/// NUSIZ written from each size to each: on the clock of a start, on that on which a copy starts
/// drawing, on the last clock of a pixel by the size before, on one at which that pixel has been shown
/// about as many clocks as one of the two sizes, and without a pulse.
pub fn rewritten(random: &Random, singles: &mut Vec<Single>) {
    for (player, before, written) in sized_players() {
        let size = random.pick(&SIZES);
        let any = any_drawing(random);
        let mut starting = drawn_state(random, (player, size, before), any);
        starting.objects[player].position = 159;
        let beginning = beginning_state(random, (player, size, before), no_drawing(random));
        let shown = |shown| Drawing {
            pixel: any.pixel,
            shown,
        };
        let in_copy = |drawing| drawn_state(random, (player, size, before), drawing);
        let mut unpulsed = in_copy(any);
        (unpulsed.h, unpulsed.late) = (random.pick(&[1, 30, 67, 69, 75]), true);
        let states = [
            starting,
            beginning,
            in_copy(shown(before - 1)),
            in_copy(shown(before)),
            in_copy(shown(before.min(written))),
            unpulsed,
        ];
        for state in states {
            let write = Some(nusiz_write(random, player, written));
            singles.push(Single { state, write });
        }
    }
}

/// Strobes: of a player whose copy starts drawing, goes on to its next pixel, shows it again, is at its
/// end, or is not there; on visible clocks, with an extra pulse and without a pulse; away from its
/// starts and where the pulse would reach one.
pub fn strobes(random: &Random, singles: &mut Vec<Single>) {
    for player in [P0, P1] {
        for (turn, position) in (0..10).map(|n| (n / 2, n % 2)) {
            let (size, now) = (random.pick(&SIZES), random.pick(&SIZES));
            let sized = (player, size, now);
            let pixel = random.up_to(6);
            let state = match turn {
                0 => beginning_state(random, sized, no_drawing(random)),
                1 => drawn_state(random, sized, Drawing { pixel, shown: now }),
                2 => drawn_state(
                    random,
                    sized,
                    Drawing {
                        pixel,
                        shown: now - 1,
                    },
                ),
                3 => drawn_state(random, sized, Drawing { pixel: 7, shown: 4 }),
                _ => drawn_state(random, sized, no_drawing(random)),
            };
            for (h, late) in [
                (state.h, state.late),
                (random.between(76, 227), true),
                (66, true),
            ] {
                let mut state = State { h, late, ..state };
                state.objects[player].position = [100, 159][position];
                let write = write_of(random, Register::Strobe(player));
                singles.push(Single { state, write });
            }
        }
    }
}

/// Drawings in the blank without an extra pulse, which stay, and with one on which a copy starts, starts
/// drawing, goes on to its next pixel, shows it again or ends.
pub fn in_the_blank(random: &Random, singles: &mut Vec<Single>) {
    for sized in sized_players() {
        let (player, size, now) = sized;
        let pixel = random.up_to(NO_PIXEL);
        let drawings = [
            Drawing {
                pixel,
                shown: random.up_to(4),
            },
            Drawing {
                pixel: random.up_to(6),
                shown: now,
            },
            Drawing {
                pixel: 7,
                shown: now,
            },
            Drawing {
                pixel: random.up_to(7),
                shown: now - 1,
            },
        ];
        let unpulsed = State {
            h: random.pick(&[1, 33, 67, 69, 75]),
            late: true,
            ..drawn_state(random, sized, drawings[0])
        };
        singles.push(Single {
            state: unpulsed,
            write: None,
        });
        for drawing in drawings {
            let mut state = drawn_state(random, sized, drawing);
            let object = &mut state.objects[player];
            (object.live, object.motion) = (true, 7);
            (state.h, state.late, state.slot) =
                (random.pick(&[0, 64, 68, 72]), true, random.up_to(14));
            singles.push(Single { state, write: None });
            state.objects[player].age = first_age(size) - 1;
            singles.push(Single { state, write: None });
            state.objects[player].position = random.pick(&BEFORE_STARTS);
            singles.push(Single { state, write: None });
        }
    }
}

/// A line's state with a player of this size at this position, its copies having kept that size, all
/// of its graphic mostly set; no motion is under way.
fn settled_state(random: &Random, player: usize, size: u8, position: u8) -> State {
    let mut state = without_motion(&line_start_state(random));
    let registers = &mut state.registers;
    registers.copies[player] = match size {
        1 => 0,
        _ => copies_of_size(random, size),
    };
    let graphic = random.pick(&[255, 255, random.byte() | 0b1000_0001]);
    registers.grp_new[player] = graphic;
    registers.grp_old[player] = graphic;
    state.sizes[player] = size;
    state.objects[player].position = position;
    state.objects[player].age = position.min(64);
    state.drawings[player] = drawing_at(position.min(64), size);
    state
}

/// Lines in which NUSIZ is written from each size to each while the copy is drawn: on the clock of its
/// start, on that on which it starts drawing, and anywhere in it.
pub fn rewritten_in_lines(random: &Random, cases: &mut Vec<LineCase>) {
    for (player, before, written) in sized_players() {
        let last = first_age(before) + 8 * before - 1;
        let within = random.between(first_age(before) + 1, last);
        let later = random.between(first_age(before) + 1, last);
        for offset in [
            0,
            first_age(before),
            first_age(before) + before,
            within,
            later,
        ] {
            let position = random.between(45, 159);
            let clock = 227 - position + offset;
            let write = nusiz_write(random, player, written);
            let list = vec![ListedWrite { clock, write }];
            cases.push(LineCase {
                state: settled_state(random, player, before, position),
                call: Call::with(&list),
            });
        }
    }
}

/// Lines that begin and lines that end within a copy of each size, with an HMOVE at clocks 0 to 15 and
/// without, and with a short list.
pub fn over_the_line_end(random: &Random, cases: &mut Vec<LineCase>) {
    for (player, size) in SIZES.into_iter().flat_map(|size| [(P0, size), (P1, size)]) {
        for (hmove, short) in [(false, false), (true, false), (true, false), (false, true)] {
            let age = random.between(first_age(size), first_age(size) + 8 * size - 1);
            let mut list = if short { short_list(random) } else { vec![] };
            if hmove {
                put(&mut list, hmove_at(random, random.up_to(15)));
            }
            let state = settled_state(random, player, size, age);
            let call = Call::with(&list);
            cases.push(LineCase { state, call });
        }
    }
}
