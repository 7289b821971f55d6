//! Tests of document 02, request Two: stretched players.

use crate::cases::random::Random;
use crate::cases::random_states::{line_start_state, without_motion};
use crate::model::clock::{clock, Done};
use crate::model::drawing::Drawing;
use crate::model::line::line;
use crate::model::object::{is_start, M0, M1, P0, P1};
use crate::model::state::State;
use crate::tests::playing::{at, columns, done, play, span, to};

/// Copies with their sizes.
const COPIES: [(u8, u8); 3] = [(0, 1), (5, 2), (7, 4)];

/// No pixel, and the first one shown for the first time.
const NONE: Drawing = drawing(8, 0);
const FIRST: Drawing = drawing(0, 1);

/// A pixel that has been shown so many clocks.
const fn drawing(pixel: u8, shown: u8) -> Drawing {
    Drawing { pixel, shown }
}

/// Every drawing in range.
fn drawings() -> impl Iterator<Item = Drawing> {
    (0..=8).flat_map(|pixel| (0..=4).map(move |shown| drawing(pixel, shown)))
}

/// Each player with each size at its start and each copies, which have the size read now.
fn players() -> Vec<(usize, u8, (u8, u8))> {
    let mut players = Vec::new();
    for (player, size) in [P0, P1]
        .into_iter()
        .flat_map(|n| [1, 2, 4].map(|size| (n, size)))
    {
        players.extend(COPIES.map(|copies| (player, size, copies)));
    }
    players
}

/// A state on a visible clock with a player away from its starts, at an age, with a held size, copies
/// and a drawing; the other player is within a copy, which is pulsed too.
fn drawn(player: usize, age: u8, size: u8, copies: u8, drawing: Drawing) -> State {
    let mut state = at(100);
    state.objects[player].position = 100;
    state.objects[player].age = age;
    state.sizes[player] = size;
    state.registers.copies[player] = copies;
    state.drawings[player] = drawing;
    state.drawings[1 - player] = FIRST;
    state
}

/// A player's drawing after a clock without a write.
fn after(state: &State, player: usize) -> Drawing {
    done(state, None).state.drawings[player]
}

/// The age at which a copy starts drawing, by its size at the start.
fn first_age(size: u8) -> u8 {
    if size == 1 {
        5
    } else {
        6
    }
}

/// What a pulse without a start that brings no copy to its first age makes of a pixel below 8.
fn gone_on(given: Drawing, size_now: u8) -> Drawing {
    match given {
        Drawing { pixel: 7, shown } if shown >= size_now => NONE,
        Drawing { pixel, shown } if shown >= size_now => drawing(pixel + 1, 1),
        Drawing { pixel, shown } => drawing(pixel, shown + 1),
    }
}

// "8 and 0 in the start state".
#[test]
fn the_start_state_has_pixel_8_and_no_clocks_shown() {
    assert_eq!(State::START.drawings, [NONE; 2]);
}

// Settled: combinations in range that cannot arise are accepted; 1 speaks of a field's range only.
#[test]
fn every_combination_in_range_is_accepted() {
    for (age, drawing) in (0..=64).flat_map(|age| drawings().map(move |drawing| (age, drawing))) {
        for size in [1, 2, 4] {
            assert_eq!(drawn(P1, age, size, 5, drawing).check(), Ok(()));
        }
    }
}

// "From now on a copy starts drawing at age 5, or 6 when its size at the start is 2 or 4. On that
// pulse it shows pixel 0 for the first time." Settled: whatever the pixel was before.
#[test]
fn a_copy_starts_drawing_at_age_5_or_6_by_its_size_at_the_start() {
    for (player, size, (copies, _)) in players() {
        for given in drawings() {
            let state = drawn(player, first_age(size) - 1, size, copies, given);
            assert_eq!(after(&state, player), FIRST);
        }
        for age in (0..=64).filter(|age| age + 1 != first_age(size)) {
            let state = drawn(player, age, size, copies, NONE);
            assert_eq!(after(&state, player), NONE);
        }
    }
}

// "On each later pulse, if the current pixel has been shown at least as many clocks as the size read
// now, the next pixel begins; otherwise it is shown again." "8 and 0 ... after pixel 7". Settled: at
// any age but the one at which a copy starts drawing, 64 too; the size at the start chooses only that.
#[test]
fn a_pixel_is_shown_as_many_clocks_as_the_size_read_now() {
    for (player, size, (copies, size_now)) in players() {
        for age in (0..=64).filter(|age| age + 1 != first_age(size)) {
            for given in drawings().filter(|given| given.pixel < 8) {
                let state = drawn(player, age, size, copies, given);
                assert_eq!(after(&state, player), gone_on(given, size_now));
                assert_eq!(done(&state, None).state.sizes[player], size);
            }
        }
    }
}

// "At pixel 8 both stay until a new start, or until a copy starts drawing." Settled: also pixel 8 with
// clocks shown.
#[test]
fn at_pixel_8_both_stay() {
    for (player, size, (copies, _)) in players() {
        for (shown, age) in (0..=4).flat_map(|shown| [0, 3, 6, 20, 63, 64].map(|age| (shown, age)))
        {
            let given = drawing(8, shown);
            assert_eq!(
                after(&drawn(player, age, size, copies, given), player),
                given
            );
        }
    }
}

// "8 and 0 ... at each new start, which so ends a copy in progress." "The size at the start is still
// kept."
#[test]
fn a_start_ends_the_copy_and_keeps_its_size() {
    for (player, size, (copies, size_now)) in players() {
        for (age, given) in drawings().flat_map(|given| [4, 5, 20, 64].map(|age| (age, given))) {
            let mut state = drawn(player, age, size, copies, given);
            state.objects[player].position = 159;
            let started = done(&state, None);
            assert!(started.started[player]);
            assert_eq!(started.state.drawings[player], NONE);
            assert_eq!(started.state.sizes[player], size_now);
            assert_eq!(started.state.drawings[1 - player], drawing(1, 1));
        }
    }
    for (copies, positions) in [(1, vec![16]), (3, vec![16, 32]), (6, vec![32, 64])] {
        for position in positions {
            let mut state = drawn(P0, 20, 4, copies, drawing(5, 2));
            state.objects[P0].position = position - 1;
            assert_eq!(after(&state, P0), NONE);
        }
    }
}

// "The size read now": NUSIZ written on the clock of a pixel counts at once, and on the clock of a
// start is the size that is kept; on the clock on which a copy starts drawing it changes nothing.
#[test]
fn nusiz_written_on_the_clock_is_the_size_read_now() {
    for (player, size, (copies, _)) in players() {
        for (written, size_now) in COPIES {
            let write = to(0x04 + player as u8, written);
            let of = |done: Done| (done.state.drawings[player], done.state.sizes[player]);
            for given in drawings().filter(|given| given.pixel < 8) {
                let state = drawn(player, 20, size, copies, given);
                let expected = (gone_on(given, size_now), size);
                assert_eq!(of(done(&state, write)), expected);
                let state = drawn(player, first_age(size) - 1, size, copies, given);
                assert_eq!(of(done(&state, write)), (FIRST, size));
                let mut state = state;
                state.objects[player].position = 159;
                assert_eq!(of(done(&state, write)), (NONE, size_now));
            }
            let other = to(0x05 - player as u8, written);
            let state = drawn(player, 20, size, 0, drawing(3, 1));
            assert_eq!(of(done(&state, other)).0, drawing(4, 1));
        }
    }
}

// Settled: on a strobe's clock the drawing goes as without a start, even where the position reached
// would be one; without a pulse it stays.
#[test]
fn a_strobe_neither_stops_nor_ends_the_drawing() {
    for (player, size, (copies, size_now)) in players() {
        let strobe = to(0x10 + player as u8, 0);
        for (position, given) in [100, 159]
            .into_iter()
            .flat_map(|p| drawings().map(move |d| (p, d)))
        {
            let mut state = drawn(player, 20, size, copies, given);
            state.objects[player].position = position;
            let on = |state: &State| done(state, strobe).state;
            let expected = if given.pixel < 8 {
                gone_on(given, size_now)
            } else {
                given
            };
            assert_eq!(on(&state).drawings[player], expected);
            assert_eq!(on(&state).sizes[player], size);
            state.h = 30;
            assert_eq!(on(&state).drawings[player], given);
            state.h = 100;
            state.objects[player].age = first_age(size) - 1;
            assert_eq!(on(&state).drawings[player], FIRST);
            state.h = 30;
            assert_eq!(on(&state).drawings[player], given);
        }
    }
}

// Settled: extra pulses in the blank are full pulses; they start copies and advance the drawing, and
// nothing is lit there. Without one a blank clock leaves the drawing as it is.
#[test]
fn extra_pulses_in_the_blank_draw_and_blank_clocks_without_one_do_not() {
    for (h, late) in [(40, false), (64, true), (68, true), (72, true)] {
        for (player, size, (copies, size_now)) in players() {
            let given = drawing(3, 2);
            // Position and age before, and the drawing after an extra pulse.
            let cases = [
                (100, 20, gone_on(given, size_now)),
                (100, first_age(size) - 1, FIRST),
                (159, 20, NONE),
            ];
            for (position, age, expected) in cases {
                let mut state = State {
                    h,
                    late,
                    ..drawn(player, age, size, copies, given)
                };
                state.registers.grp_new = [255; 2];
                state.objects[player].position = position;
                let quiet = done(&state, None).state;
                assert_eq!(quiet.drawings, state.drawings);
                state.slot = 3;
                state.objects[player].live = true;
                let pulsed = done(&state, None);
                assert_eq!(pulsed.state.drawings[player], expected);
                assert_eq!(pulsed.state.drawings[1 - player], FIRST);
                assert_eq!(pulsed.byte, if h < 68 { 128 } else { 64 });
                assert_eq!(pulsed.state.latches, [false; 15]);
            }
        }
    }
}

// Settled: missiles never stretch.
#[test]
fn missiles_do_not_stretch() {
    for missile in [M0, M1] {
        let enable = 0x1D + (missile - M0) as u8;
        let nusiz = 0x04 + (missile - M0) as u8;
        let strobe = 0x10 + missile as u8;
        for copies in [5, 7] {
            let list = vec![0, enable, 2, 1, nusiz, 0x10 | copies, 100, strobe, 0];
            let played = play(&[list, vec![]]);
            assert_eq!(columns(&played, missile)[1], [36, 37]);
        }
    }
}

/// The columns of P0 in the second and the third line: it is given a graphic and NUSIZ, strobed at
/// clock 100, and then NUSIZ is written again in the second line, unless there are no such writes.
fn columns_of_p0(graphic: u8, nusiz: u8, later: &[u8]) -> [Vec<usize>; 2] {
    let strobed = vec![0, 0x1B, graphic, 1, 0x04, nusiz, 100, 0x10, 0];
    let mut shown = columns(&play(&[strobed, later.to_vec(), vec![]]), P0);
    assert_eq!(shown[0], []);
    [shown.remove(1), shown.remove(1)]
}

// "Its bench checks, all with size 1, stand": columns 37-44. Settled: strobed at 100 with graphic 255,
// size 2 shows columns 38-53, size 4 38-69; size 4 with NUSIZ 0 written at clock 116 38-52; and copies
// 7 with copies 3 written at clock 110 38-47, a start at position 16 ending the copy, then 53-60 and
// 69-76.
#[test]
fn examples_of_stretched_players() {
    for (nusiz, last) in [(0, 44), (5, 53), (7, 69)] {
        let first = if nusiz == 0 { 37 } else { 38 };
        assert_eq!(
            columns_of_p0(255, nusiz, &[]),
            [span(first, last), span(first, last)]
        );
    }
    let [halfway, next] = columns_of_p0(255, 7, &[116, 0x04, 0]);
    assert_eq!((halfway, next), (span(38, 52), span(37, 44)));
    let [halfway, next] = columns_of_p0(255, 7, &[110, 0x04, 3]);
    let copies = [span(53, 60), span(69, 76)].concat();
    assert_eq!(halfway, [span(38, 47), copies.clone()].concat());
    assert_eq!(next, [span(37, 44), copies].concat());
}

// "A copy changed halfway must stretch halfway": a single copy made double, then quadruple. Pixels 0
// and 1 are shown at columns 37 and 38; at 39 pixel 1 again, having been shown once.
#[test]
fn a_copy_changed_halfway_stretches_halfway() {
    let later = [107, 0x04, 5, 113, 0x04, 7];
    for (pixel, shown) in [
        (37, 37),
        (38, 39),
        (40, 41),
        (42, 43),
        (44, 47),
        (48, 51),
        (52, 55),
        (56, 59),
    ]
    .into_iter()
    .enumerate()
    {
        let [halfway, _] = columns_of_p0(0x80 >> pixel, 0, &later);
        assert_eq!(halfway, span(shown.0, shown.1));
    }
}

// A copy of size 4 goes on over the end of the line: strobed at clock 200 it has shown pixel 5 for two
// clocks in columns 158 and 159. Eight extra pulses of an HMOVE at 0 with half byte 0 show pixel 5
// twice more, pixel 6 four times and pixel 7 twice in the blank; columns 8 and 9 are left.
#[test]
fn extra_pulses_advance_the_pixels_of_a_copy_that_crosses_the_line_end() {
    for (pixel, end, quiet, moved) in [
        (4, span(154, 157), vec![], vec![]),
        (5, span(158, 159), span(0, 1), vec![]),
        (6, vec![], span(2, 5), vec![]),
        (7, vec![], span(6, 9), span(8, 9)),
    ] {
        let strobed = vec![0, 0x1B, 0x80 >> pixel, 1, 0x04, 7, 200, 0x10, 0];
        for (list, shown) in [(vec![], quiet), (vec![0, 0x2A, 0], moved)] {
            let played = play(&[strobed.clone(), vec![], list]);
            assert_eq!(played[1].state.drawings[P0], drawing(5, 2));
            let columns = columns(&played, P0);
            assert_eq!(columns[1], end);
            assert_eq!(columns[2], [shown, end.clone()].concat());
        }
    }
}

/// The greatest start that is at most this position.
fn start_before(position: u8, copies: u8) -> u8 {
    let mut starts = (0..=position).rev();
    starts
        .find(|&start| is_start(start, Some(copies)))
        .unwrap_or(0)
}

// Settled, measured: after one line without writes from any good state with h = 0 and slot 16 a
// player's position is as before, its age min(64, p - s), s the greatest start at most the position p,
// its held size that of the copies, and with f = 5 or 6 its pixel and clocks shown are
// (age - f) / size and (age - f) mod size + 1 for ages f to f + 8 x size - 1, else 8 and 0.
#[test]
fn after_one_quiet_line_a_player_is_settled() {
    let random = &Random::new(2602);
    for _ in 0..6000 {
        let given = without_motion(&line_start_state(random));
        let (mut objects, mut colours) = ([0; 160], [0; 160]);
        let settled = line(&given, &[], &mut objects, &mut colours).state;
        for player in [P0, P1] {
            let (position, copies) = (
                given.objects[player].position,
                given.registers.copies[player],
            );
            let age = (position - start_before(position, copies)).min(64);
            let size = [1, 1, 1, 1, 1, 2, 1, 4][usize::from(copies)];
            let expected = match age.checked_sub(first_age(size)) {
                Some(clocks) if clocks < 8 * size => drawing(clocks / size, clocks % size + 1),
                _ => NONE,
            };
            assert_eq!(settled.objects[player].position, position);
            assert_eq!(settled.objects[player].age, age);
            assert_eq!(settled.sizes[player], size);
            assert_eq!(settled.drawings[player], expected);
        }
    }
}

// Settled: a refused call gives back the state bit for bit, out-of-range fields too.
#[test]
fn a_refused_clock_keeps_its_drawings() {
    for bad in [drawing(9, 0), drawing(8, 5), drawing(255, 255)] {
        for player in [P0, P1] {
            let state = drawn(player, 20, 4, 7, bad);
            let answer = clock(&state, to(0x10, 0));
            assert_eq!((answer.number, answer.record, answer.state), (1, 0, state));
        }
    }
}
