//! The rows for request Two: what step 6 makes of a player's pixel and its clocks shown, what step 8
//! shows of them, and copies that go on over the end of a line.

use crate::cases::drawings::{size_now, SIZES};
use crate::coverage::seen::Seen;
use crate::coverage::table::{named, Rows, Table, FEW, FLAGS, PLAYERS};
use crate::model::drawing::{first_age, Drawing, NO_PIXEL};
use crate::model::lit::{graphic, is_set};
use crate::model::mirror::mirrored;
use crate::model::object::size_of_copies;
use crate::model::registers::Register;
use crate::model::state::State;
use crate::reports::demand3::{clocks_of, Line, LAST_HMOVE_CLOCK};

/// What an accepted clock can make of a player's drawing.
#[derive(Clone, Copy, Debug, PartialEq, Eq)]
enum Turn {
    NoPulse,
    Start,
    Begins,
    Next,
    Again,
    Ends,
    Stays,
}

use Turn::{Again, Begins, Ends, Next, NoPulse, Start, Stays};

/// The turns of a pulse with their names.
const PULSED: [(&str, Turn); 6] = [
    ("start", Start),
    ("drawing begins", Begins),
    ("next pixel", Next),
    ("pixel shown again", Again),
    ("after pixel 7 none", Ends),
    ("no pixel stays none", Stays),
];

/// A question to a state and a player of it.
type Asked = fn(&State, usize) -> bool;

/// Odd drawings: in range, but such as no clocks from the start state lead to.
const ODD: [(&str, Asked); 4] = [
    ("a pixel at age 64", |state, n| {
        in_copy(state.drawings[n]) && state.objects[n].age == 64
    }),
    ("no pixel with clocks shown", |state, n| {
        !in_copy(state.drawings[n]) && state.drawings[n].shown > 0
    }),
    ("a pixel shown no clocks", |state, n| {
        in_copy(state.drawings[n]) && state.drawings[n].shown == 0
    }),
    ("a pixel before its copy starts drawing", |state, n| {
        in_copy(state.drawings[n]) && state.objects[n].age < first_age(state.sizes[n])
    }),
];

/// The turns of a pulse without a start with their names.
fn without_start() -> impl Iterator<Item = (&'static str, Turn)> {
    PULSED.into_iter().skip(1)
}

/// Adds all of them.
pub fn add(table: &mut Table) {
    let [mut rows, ..] = table.by_kind();
    for (of, n) in PLAYERS {
        let rows = &mut rows.under(&format!("{of}: "));
        sizes(rows, n);
        pixels(rows, n);
        clocks_shown(rows, n);
        ages(rows, n);
        in_the_blank(rows, n);
        strobes(rows, n);
        nusiz_written(rows, n);
        lit_pixels(rows, n);
        over_the_line_end(rows, n);
        rows.each(FEW, "{} in a walk", ODD)
            .when(move |seen, odd| seen.clock.in_walk && odd(&seen.given, n));
    }
    let [_, _, mut line, mut run, mut tape] = table.by_kind();
    for (of, n) in PLAYERS {
        lines(&mut line, of, n);
        lines(&mut tape.under("played, "), of, n);
        runs(&mut run, of, n);
    }
}

/// The turn that an accepted clock takes with a player's drawing.
fn turn(seen: &Seen, n: usize) -> Turn {
    let (size_at_start, now) = (seen.given.sizes[n], written_size(seen, n));
    let Drawing { pixel, shown } = seen.given.drawings[n];
    match seen.reached(n) {
        None => NoPulse,
        Some(_) if seen.done().started[n] => Start,
        Some(_) if reached_age(seen, n) == first_age(size_at_start) => Begins,
        Some(_) if pixel == NO_PIXEL => Stays,
        Some(_) if shown < now => Again,
        Some(_) if pixel == 7 => Ends,
        Some(_) => Next,
    }
}

/// The size that a player's NUSIZ asks for after step 2.
fn written_size(seen: &Seen, n: usize) -> u8 {
    size_now(&seen.done().written.registers, n)
}

/// The age that a pulse brings a player to without a start.
fn reached_age(seen: &Seen, n: usize) -> u8 {
    seen.given.objects[n].pulsed().age
}

/// Whether a clock begins within a player's copy.
fn in_copy(drawing: Drawing) -> bool {
    drawing.pixel < NO_PIXEL
}

/// Each turn of a pulse with each size at the start and each size read now; a start ends a copy in
/// progress.
fn sizes(rows: &mut Rows, n: usize) {
    for (name, which) in PULSED {
        for size in SIZES {
            let name = format!("{name}, size {size} at the start, {{}} now");
            rows.each(FEW, &name, named(SIZES)).when(move |seen, now| {
                turn(seen, n) == which
                    && seen.given.sizes[n] == size
                    && written_size(seen, n) == now
                    && (which != Start || in_copy(seen.given.drawings[n]))
            });
        }
    }
}

/// Each turn at each pixel.
fn pixels(rows: &mut Rows, n: usize) {
    for (name, which, last) in [
        ("no pulse", NoPulse, NO_PIXEL),
        ("start", Start, NO_PIXEL),
        ("drawing begins", Begins, NO_PIXEL),
        ("next pixel", Next, 6),
        ("pixel shown again", Again, 7),
    ] {
        rows.each(FEW, &format!("{name} at pixel {{}}"), named(0..=last))
            .when(move |seen, pixel| {
                turn(seen, n) == which && seen.given.drawings[n].pixel == pixel
            });
    }
}

/// Each turn with each number of clocks shown; those that the size read now decides with each size.
fn clocks_shown(rows: &mut Rows, n: usize) {
    for (name, which) in [
        ("no pulse", NoPulse),
        ("start", Start),
        ("drawing begins", Begins),
        ("no pixel stays none", Stays),
    ] {
        rows.each(FEW, &format!("{name} with {{}} clocks shown"), named(0..=4))
            .when(move |seen, shown| {
                turn(seen, n) == which && seen.given.drawings[n].shown == shown
            });
    }
    for size in SIZES {
        for (name, which, first, last) in [
            ("next pixel", Next, size, 4),
            ("after pixel 7 none", Ends, size, 4),
            ("pixel shown again", Again, 0, size - 1),
        ] {
            let name = format!("{name} with {{}} clocks shown, size {size} now");
            rows.each(FEW, &name, named(first..=last))
                .when(move |seen, shown| {
                    turn(seen, n) == which
                        && seen.given.drawings[n].shown == shown
                        && written_size(seen, n) == size
                });
        }
    }
}

/// Pulses at age 64; pulses that reach age 5 with size 2 or 4 at the start, and age 6 with size 1, which
/// do not begin a drawing.
fn ages(rows: &mut Rows, n: usize) {
    let turns = without_start().filter(|row| row.1 != Begins);
    rows.each(FEW, "{} at age 64", turns)
        .when(move |seen, which| turn(seen, n) == which && seen.given.objects[n].age == 64);
    for (age, size) in [(5, 2), (5, 4), (6, 1)] {
        let name =
            format!("age {age} with size {size} at the start begins nothing, within a copy {{}}");
        rows.each(FEW, &name, FLAGS).when(move |seen, within| {
            let pulsed = ![NoPulse, Start].contains(&turn(seen, n));
            pulsed
                && reached_age(seen, n) == age
                && seen.given.sizes[n] == size
                && in_copy(seen.given.drawings[n]) == within
        });
    }
}

/// The blank: below 68 and in blank columns. Each turn of an extra pulse there, and no pulse within a
/// copy.
fn in_the_blank(rows: &mut Rows, n: usize) {
    for (at, first, last) in [("below 68", 0, 67), ("in a blank column", 68, 75)] {
        let blank = move |seen: &Seen| seen.blank() && (first..=last).contains(&seen.given.h);
        rows.each(FEW, &format!("{{}} by an extra pulse {at}"), PULSED)
            .when(move |seen, which| blank(seen) && turn(seen, n) == which);
        rows.row(FEW, &format!("no pulse {at} within a copy"))
            .when(move |seen| {
                blank(seen) && turn(seen, n) == NoPulse && in_copy(seen.given.drawings[n])
            });
    }
}

/// A strobe's clock: each turn of its pulse on a visible clock, in the blank and where the position
/// reached would be a start; and no pulse.
fn strobes(rows: &mut Rows, n: usize) {
    for (at, blank) in [("on a visible clock", false), ("in the blank", true)] {
        let name = format!("{{}} with a strobe {at}");
        rows.each(FEW, &name, without_start())
            .when(move |seen, which| {
                seen.strobed(n) && turn(seen, n) == which && seen.blank() == blank
            });
    }
    rows.each(FEW, "{} with a strobe in place of a start", without_start())
        .when(move |seen, which| {
            seen.strobed(n) && turn(seen, n) == which && seen.reached_start(n)
        });
    rows.each(FEW, "strobe without a pulse, within a copy {}", FLAGS)
        .when(move |seen, within| {
            let no_pulse = turn(seen, n) == NoPulse;
            seen.strobed(n) && no_pulse && in_copy(seen.given.drawings[n]) == within
        });
}

/// NUSIZ written from each size to each other: at a start, where the drawing begins, on what would be a
/// pixel's last clock, deciding the drawing, without a pulse within a copy, and within a copy of a walk.
fn nusiz_written(rows: &mut Rows, n: usize) {
    for (before, after) in size_changes() {
        let rewritten = move |seen: &Seen| {
            let sizes = (size_now(&seen.given.registers, n), written_size(seen, n));
            seen.wrote(Register::Nusiz(n)) && sizes == (before, after)
        };
        let unwritten = move |seen: &Seen| {
            let (age, size) = (reached_age(seen, n), seen.given.sizes[n]);
            seen.given.drawings[n].pulsed(age, size, before)
        };
        let goes_on = move |seen: &Seen| [Next, Again, Ends].contains(&turn(seen, n));
        let rows = &mut rows.under(&format!("NUSIZ written, size {before} to {after}, "));
        rows.row(FEW, "at a start")
            .when(move |seen| rewritten(seen) && turn(seen, n) == Start);
        rows.row(FEW, "where the drawing begins")
            .when(move |seen| rewritten(seen) && turn(seen, n) == Begins);
        rows.row(FEW, "on what would be a pixel's last clock")
            .when(move |seen| {
                let last = |drawing: Drawing| in_copy(drawing) && drawing.shown == before;
                rewritten(seen) && goes_on(seen) && last(unwritten(seen))
            });
        rows.row(FEW, "decides the drawing").when(move |seen| {
            rewritten(seen) && goes_on(seen) && unwritten(seen) != seen.after.drawings[n]
        });
        rows.row(FEW, "without a pulse within a copy")
            .when(move |seen| {
                let within = in_copy(seen.given.drawings[n]);
                rewritten(seen) && within && turn(seen, n) == NoPulse
            });
        rows.row(FEW, "within a copy of a walk")
            .when(move |seen| seen.clock.in_walk && rewritten(seen) && goes_on(seen));
    }
}

/// Every two different sizes.
fn size_changes() -> impl Iterator<Item = (u8, u8)> {
    let all = SIZES.into_iter().flat_map(|a| SIZES.map(|b| (a, b)));
    all.filter(|(before, after)| before != after)
}

/// Step 8: each pixel lit and dark in an unblanked column, reflected or not, the bit at the other end of
/// the graphic being otherwise.
fn lit_pixels(rows: &mut Rows, n: usize) {
    for (pixel, reflected) in (0..8).flat_map(|pixel| [(pixel, false), (pixel, true)]) {
        let name = format!("pixel {pixel}, reflected {reflected}, lit {{}}");
        rows.each(FEW, &name, FLAGS).when(move |seen, on| {
            let registers = &seen.after.registers;
            let shown = graphic(registers, n);
            let differ = is_set(shown ^ mirrored(shown), pixel);
            seen.lit(n, on)
                && seen.after.drawings[n].pixel == pixel
                && registers.refp[n] == reflected
                && differ
        });
    }
}

/// Step 11: a copy that goes on over the end of a line in a walk, with each size.
fn over_the_line_end(rows: &mut Rows, n: usize) {
    let name = "copy of size {} goes on over the line's end in a walk";
    rows.each(FEW, name, named(SIZES)).when(move |seen, size| {
        let both = [seen.given.drawings[n], seen.after.drawings[n]];
        let crosses = seen.clock.in_walk && seen.after.h == 0;
        crosses && written_size(seen, n) == size && both.into_iter().all(in_copy)
    });
}

/// Accepted lines, and played ones: that begin and end within a copy of each size; that begin so and
/// have an HMOVE at 0 to 15; that begin with odd drawings; a player of copies 5 and of copies 7 lit all
/// along; NUSIZ written between two columns in which its player is lit.
fn lines(rows: &mut Rows, of: &str, n: usize) {
    let name = format!("{of} within a copy of size {{}} at the start");
    rows.each(FEW, &name, named(SIZES)).when(move |seen, size| {
        seen.accepted() && in_copy(seen.given.drawings[n]) && seen.given.sizes[n] == size
    });
    let name = format!("{of} within a copy of size {{}} at the end");
    rows.each(FEW, &name, named(SIZES)).when(move |seen, size| {
        seen.accepted() && in_copy(seen.after.drawings[n]) && seen.after.sizes[n] == size
    });
    let name = format!("{of} within a copy at the start, HMOVE at 0 to 15");
    rows.row(FEW, &name).when(move |seen| {
        let early = |clock: u8| clock <= LAST_HMOVE_CLOCK;
        let hmove = |line: &Line| clocks_of(line, Register::Hmove).into_iter().any(early);
        in_copy(seen.given.drawings[n]) && seen.accepted_lines().any(hmove)
    });
    rows.each(FEW, &format!("{of} given {{}}"), ODD)
        .when(move |seen, odd| seen.accepted() && odd(&seen.given, n));
    let name = format!("{of} lit, copies {{}} throughout");
    rows.each(FEW, &name, named([5, 7]))
        .when(move |seen, copies| {
            seen.accepted()
                && seen.given.registers.copies[n] == copies
                && !seen.wrote(Register::Nusiz(n))
                && seen.first_column(n).is_some()
        });
    for (before, after) in size_changes() {
        let name = format!("{of} lit on both sides of NUSIZ written, size {before} to {after}");
        rows.row(FEW, &name).when(move |seen| {
            let first = size_now(&seen.given.registers, n);
            let size = |value| size_of_copies(value & 7);
            let changes = seen.values_held(Register::Nusiz(n), first, size);
            let is = |change: &(u8, u8, u8)| {
                (change.0, change.1) == (before, after) && seen.lit_around(n, change.2)
            };
            changes.iter().any(is)
        });
    }
}

/// Runs: odd drawings first; calls given a copy that goes on; demand 3's picture due for a lit player of copies 5 and of
/// copies 7.
fn runs(rows: &mut Rows, of: &str, n: usize) {
    rows.each(FEW, &format!("first state with {of} at {{}}"), ODD)
        .when(move |seen, odd| odd(&seen.given, n));
    let calls = [("accepted", true), ("refused", false)];
    let name = format!("{{}} call given {of} within a copy");
    rows.each(50, &name, calls).when(move |seen, accepted| {
        let mut calls = seen.line.calls.iter();
        calls.any(|call| (call.number == 0) == accepted && in_copy(call.given.drawings[n]))
    });
    let name = format!("picture of {of} due, lit, copies {{}}");
    rows.each(50, &name, named([5, 7]))
        .when(move |seen, copies| {
            let due = seen.findings[n]
                .as_ref()
                .map_or(false, |found| found.picture);
            due && seen.given.registers.copies[n] == copies && seen.first_column(n).is_some()
        });
}

#[cfg(test)]
mod tests {
    use super::*;
    use crate::cases::random::Random;
    use crate::cases::single_cases::{other, GROUPS};

    #[test]
    fn the_turn_tells_the_drawing_after_the_clock() {
        let random = Random::new(69);
        let mut singles: Vec<_> = (0..2000).map(|_| other(&random)).collect();
        for group in &GROUPS[12..] {
            group(&random, &mut singles);
        }
        let mut turns = Vec::new();
        for (single, n) in singles.iter().flat_map(|single| [(single, 0), (single, 1)]) {
            let seen = Seen::clock(&single.state, single.write);
            let before = seen.given.drawings[n];
            let (pixel, shown) = match turn(&seen, n) {
                NoPulse | Stays => (before.pixel, before.shown),
                Start | Ends => (NO_PIXEL, 0),
                Begins => (0, 1),
                Next => (before.pixel + 1, 1),
                Again => (before.pixel, before.shown + 1),
            };
            assert_eq!(seen.after.drawings[n], Drawing { pixel, shown });
            turns.push(turn(&seen, n));
        }
        for which in [NoPulse, Start, Begins, Next, Again, Ends, Stays] {
            assert!(turns.contains(&which));
        }
    }
}
