//! The rows for accepted clocks, in the order of the paper's steps.

use crate::cases::drawing_writes::{is_for_drawing, write_changed_lit};
use crate::cases::drawings::{drawing_at, size_now};
use crate::coverage::seen::Seen;
use crate::coverage::table::{named, Rows, Table, FEW, FLAGS, MOVABLE, OBJECTS, PLAYERS};
use crate::model::drawing::{first_age, NO_PIXEL};
use crate::model::latches::{lit_together, PAIRS};
use crate::model::lit::{at_lit_age, enabled, graphic, width};
use crate::model::mirror::mirrored;
use crate::model::object::{is_start, BL, NAMES, PF};
use crate::model::registers::{Register, KNOWN};
use crate::model::state::{State, NO_MOTION};

/// Adds all of them.
pub fn add(table: &mut Table) {
    let [mut rows, ..] = table.by_kind();
    let rows = &mut rows;
    late_flag_and_blank(rows);
    bits_not_kept(rows);
    hmove(rows);
    graphics_copied(rows);
    motion(rows);
    motion_writes(rows, "HM{}", Register::Motion);
    motion_writes(rows, "HMCLR", |_| Register::Hmclr);
    pulses(rows);
    starts(rows);
    starts_decided(rows);
    strobes(rows);
    players_lit(rows);
    missiles_and_ball_lit(rows);
    playfield(rows);
    drawing_registers(rows);
    answer_bytes(rows);
    latches(rows);
    over_several_clocks(rows);
}

/// Steps 1 and 3.
fn late_flag_and_blank(rows: &mut Rows) {
    rows.row(FEW, "late flag falls at h = 0")
        .when(|seen| seen.given.h == 0 && seen.given.late && !seen.after.late);
    rows.row(FEW, "late flag set at h = 0 with HMOVE written")
        .when(|seen| seen.given.h == 0 && seen.given.late && seen.hmove());
    rows.row(FEW, "late flag stays set at the line's end")
        .when(|seen| seen.given.h == 227 && seen.after.late);
    rows.row(FEW, "blank below 68")
        .when(|seen| seen.blank() && seen.given.h < 68);
    rows.row(FEW, "blank in 68 to 75 by the late flag")
        .when(|seen| seen.blank() && seen.given.h >= 68);
    rows.row(FEW, "68 to 75 without the late flag")
        .when(|seen| !seen.blank() && seen.given.h < 76);
    for h in [67, 68, 75, 76] {
        rows.each(FEW, &format!("h = {h}, late flag {{}}"), FLAGS)
            .when(move |seen, late| seen.given.h == h && seen.done().written.late == late);
    }
}

/// Step 2: every register written with bits that are not kept.
fn bits_not_kept(rows: &mut Rows) {
    let kept = |(_, name, register)| (name, (register, kept_bits(register)));
    let written = KNOWN.into_iter().map(kept).filter(|row| row.1 .1 != 255);
    rows.each(FEW, "{} written with a bit that is not kept", written)
        .when(|seen, (register, kept)| {
            let value = seen.clock.write.map_or(0, |write| write.value);
            seen.wrote(register) && value & !kept != 0
        });
}

/// The bits of a register's value that the state keeps.
fn kept_bits(register: Register) -> u8 {
    match register {
        Register::Nusiz(_) => 0b0011_0111,
        Register::Refp(_) => 0b0000_1000,
        Register::Pf0 | Register::Motion(_) => 0b1111_0000,
        Register::Enam(_) | Register::Enabl => 0b0000_0010,
        Register::Vdelp(_) | Register::Vdelbl => 0b0000_0001,
        Register::Colup(_) | Register::Colupf | Register::Colubk => 0b1111_1111,
        Register::Ctrlpf | Register::Pf1 | Register::Pf2 | Register::Grp(_) => 0b1111_1111,
        Register::Strobe(_) | Register::Hmove | Register::Hmclr | Register::Cxclr => 0,
    }
}

/// Step 2: HMOVE by its clock, the motion under way and the late flag.
fn hmove(rows: &mut Rows) {
    for (first, last) in [(0, 67), (68, 227), (0, 0), (67, 67), (68, 68), (227, 227)] {
        rows.row(FEW, &format!("HMOVE at clocks {first} to {last}"))
            .when(move |seen| seen.hmove() && (first..=last).contains(&seen.given.h));
    }
    rows.row(FEW, "HMOVE on a multiple of 4 with slot below 16")
        .when(|seen| seen.hmove() && seen.given.h % 4 == 0 && seen.given.slot < NO_MOTION);
    rows.row(FEW, "HMOVE while motion is under way")
        .when(|seen| seen.hmove() && seen.under_way());
    rows.row(FEW, "HMOVE without motion under way")
        .when(|seen| seen.hmove() && seen.given.slot == NO_MOTION);
    rows.each(FEW, "HMOVE at 68 or later, late flag {}", FLAGS)
        .when(|seen, late| seen.hmove() && seen.given.h >= 68 && seen.given.late == late);
}

/// Step 2: GRP0 and GRP1 copying a graphic, and GRP1 the ball's enable, that differs from the
/// old one.
fn graphics_copied(rows: &mut Rows) {
    for (player, other) in [(0, 1), (1, 0)] {
        let mut rows = rows.under(&format!("GRP{player} "));
        rows.row(FEW, &format!("changes the old graphic of P{other}"))
            .when(move |seen| {
                let old = |state: &State| state.registers.grp_old[other];
                seen.wrote(Register::Grp(player)) && old(&seen.given) != old(&seen.after)
            });
        rows.row(FEW, "with the ball's enables differing")
            .when(move |seen| {
                let before = seen.given.registers;
                seen.wrote(Register::Grp(player)) && before.enabl_new != before.enabl_old
            });
    }
}

/// Step 4.
fn motion(rows: &mut Rows) {
    rows.each(FEW, "comparison equal with half byte {}", named(0..16))
        .when(|seen, half_byte| {
            let done = seen.done();
            (0..5).any(|n| done.motion.equal[n] && done.written.objects[n].motion == half_byte)
        });
    rows.each(FEW, "comparisons at slot {}", named(0..16))
        .when(|seen, slot| seen.done().motion.compared && seen.done().written.slot == slot);
    rows.row(FEW, "slot rises without a live flag")
        .when(|seen| seen.done().motion.compared && !seen.under_way());
    rows.row(FEW, "no comparison though live, h no multiple of 4")
        .when(|seen| seen.under_way() && !seen.done().motion.compared && seen.given.h % 4 != 0);
    rows.each(FEW, "{}: comparison equal", MOVABLE)
        .when(|seen, n| seen.done().motion.equal[n]);
    rows.each(FEW, "{}: extra pulse below 68", MOVABLE)
        .when(|seen, n| seen.done().motion.extra[n] && seen.given.h < 68);
    rows.each(FEW, "{}: extra pulse in a blank column", MOVABLE)
        .when(|seen, n| seen.done().motion.extra[n] && seen.given.h >= 68 && seen.blank());
    rows.each(FEW, "{}: extra pulse on a visible clock", MOVABLE)
        .when(|seen, n| seen.done().motion.extra[n] && !seen.blank());
    rows.each(FEW, "{}: live flag falls as the slot rises to 16", MOVABLE)
        .when(|seen, n| seen.done().motion.extra[n] && seen.after.slot == NO_MOTION);
}

/// Step 4 with an object's motion register or HMCLR written on a comparing clock, and with the
/// comparison coming out otherwise than it would without the write.
fn motion_writes(rows: &mut Rows, written: &str, register: fn(usize) -> Register) {
    let name = format!("{{}}: {written} written on its comparing clock");
    rows.each(FEW, &name, MOVABLE).when(move |seen, n| {
        seen.wrote(register(n))
            && seen.done().motion.compared
            && seen.done().written.objects[n].live
    });
    let name = format!("{{}}: {written} written decides the comparison");
    rows.each(FEW, &name, MOVABLE).when(move |seen, n| {
        let before = seen.given.objects[n];
        let without_it = before.live && before.end_slot() == seen.given.slot;
        let equal = seen.done().motion.equal[n];
        seen.wrote(register(n)) && seen.done().motion.compared && without_it != equal
    });
}

/// Step 6: the wrap of the position and the end of the age.
fn pulses(rows: &mut Rows) {
    rows.each(FEW, "{}: position 159 goes to 0", MOVABLE)
        .when(|seen, n| seen.reached(n) == Some(0) && !seen.strobed(n));
    for age in [63, 64] {
        let name = format!("{{}}: pulse at age {age} gives age 64");
        rows.each(FEW, &name, MOVABLE).when(move |seen, n| {
            let ages = (seen.given.objects[n].age, seen.after.objects[n].age);
            seen.done().pulsed[n] && ages == (age, 64)
        });
    }
    rows.each(FEW, "{}: no pulse in the blank", MOVABLE)
        .when(|seen, n| seen.blank() && !seen.done().pulsed[n]);
}

/// Step 6: each position that can be a start, reached with each copies, as a start or not.
fn starts(rows: &mut Rows) {
    for (of, n) in MOVABLE {
        for position in [0, 16, 32, 64] {
            let copies = (0..8).map(Some).chain([None]);
            for copies in copies.filter(|copies| copies.is_none() == (n == BL)) {
                let start = is_start(position, copies);
                let no = if start { "" } else { "no " };
                let with = copies.map_or(String::new(), |copies| format!(" with copies {copies}"));
                rows.row(FEW, &format!("{of}: {no}start at {position}{with}"))
                    .when(move |seen| {
                        seen.reached(n) == Some(position)
                            && !seen.strobed(n)
                            && seen.done().written.registers.copies_of(n) == copies
                            && seen.done().started[n] == start
                    });
            }
        }
    }
}

/// Step 6: a start in the blank, NUSIZ deciding a start, and each size taken by a player that held
/// another, or the same.
fn starts_decided(rows: &mut Rows) {
    rows.each(FEW, "{}: start by an extra pulse in the blank", MOVABLE)
        .when(|seen, n| seen.done().started[n] && seen.blank());
    let with_copies = MOVABLE.into_iter().take(BL);
    rows.each(FEW, "{}: NUSIZ written decides a start", with_copies)
        .when(|seen, n| {
            let before = seen.given.registers.copies_of(n);
            let is_start = |position| is_start(position, before);
            let start_before = seen.reached(n).map_or(false, is_start);
            !seen.strobed(n) && start_before != seen.done().started[n]
        });
    for size in [1, 2, 4] {
        let name = format!("{{}}: size {size} taken in place of another");
        rows.each(FEW, &name, PLAYERS)
            .when(move |seen, n| seen.given.sizes[n] != size && seen.after.sizes[n] == size);
    }
    let name = "{}: start with copies of the size already held";
    rows.each(FEW, name, PLAYERS)
        .when(|seen, n| seen.done().started[n] && seen.given.sizes[n] == seen.after.sizes[n]);
}

/// Step 7.
fn strobes(rows: &mut Rows) {
    rows.each(FEW, "{}: strobe on a visible clock", MOVABLE)
        .when(|seen, n| seen.strobed(n) && !seen.blank());
    rows.each(FEW, "{}: strobe with an extra pulse in the blank", MOVABLE)
        .when(|seen, n| seen.strobed(n) && seen.blank() && seen.done().pulsed[n]);
    rows.each(FEW, "{}: strobe without a pulse", MOVABLE)
        .when(|seen, n| seen.strobed(n) && !seen.done().pulsed[n]);
    rows.each(FEW, "{}: strobe with a pulse that reached a start", MOVABLE)
        .when(|seen, n| seen.strobed(n) && seen.reached_start(n));
    let name = "{}: strobe in place of a start with another size";
    rows.each(FEW, name, PLAYERS).when(|seen, n| {
        let size = size_now(&seen.done().written.registers, n);
        seen.strobed(n) && seen.reached_start(n) && seen.given.sizes[n] != size
    });
}

/// Step 8: a player lit in an unblanked column at each size, reflected or not, by each VDELP; and,
/// while its size stays that of its start, at the first and last lit age and the ages just outside,
/// the graphic's bit at that end being 1.
fn players_lit(rows: &mut Rows) {
    for ((of, n), size) in PLAYERS.repeat(3).into_iter().zip([1, 1, 2, 2, 4, 4]) {
        for reflected in [false, true] {
            let name = format!("{of}: lit with size {size}, reflected {reflected}, VDELP {{}}");
            rows.each(FEW, &name, FLAGS).when(move |seen, old| {
                let registers = seen.after.registers;
                let shown = graphic(&registers, n);
                seen.lit(n, true)
                    && seen.after.sizes[n] == size
                    && registers.refp[n] == reflected
                    && shown != mirrored(shown)
                    && registers.vdelp[n] == old
                    && registers.grp_new[n] != registers.grp_old[n]
            });
        }
        let first = first_age(size);
        let last = first + 8 * size - 1;
        let ages = named([first - 1, first, last, last + 1]);
        rows.each(FEW, &format!("{of}: age {{}} with size {size}"), ages)
            .when(move |seen, age| {
                let reflected = seen.after.registers.refp[n];
                let outer = if reflected == (age <= first) {
                    0x01
                } else {
                    0x80
                };
                seen.lit(n, (first..=last).contains(&age))
                    && seen.after.objects[n].age == age
                    && seen.after.sizes[n] == size
                    && size_now(&seen.after.registers, n) == size
                    && seen.after.drawings[n] == drawing_at(age, size)
                    && graphic(&seen.after.registers, n) & outer != 0
            });
    }
    rows.each(FEW, "{}: dark by its graphic at a pixel", PLAYERS)
        .when(|seen, n| seen.lit(n, false) && seen.after.drawings[n].pixel < NO_PIXEL);
    let name = "{}: lit with a held size that is not that of NUSIZ";
    rows.each(FEW, name, PLAYERS).when(|seen, n| {
        seen.lit(n, true) && seen.after.sizes[n] != size_now(&seen.after.registers, n)
    });
}

/// Step 8: a missile or the ball at each width: at a lit age enabled and not, and enabled at the
/// first and last lit age and the ages just outside; the ball by its new and its old enable, the
/// two differing.
fn missiles_and_ball_lit(rows: &mut Rows) {
    for (of, n) in MOVABLE.into_iter().skip(PLAYERS.len()) {
        for wide in [1, 2, 4, 8] {
            let last = 3 + wide;
            let is_wide = move |seen: &Seen| width(&seen.after.registers, n) == wide;
            let name = format!("{of}: at a lit age with width {wide}, enabled {{}}");
            rows.each(FEW, &name, FLAGS).when(move |seen, on| {
                seen.lit(n, on)
                    && is_wide(seen)
                    && at_lit_age(&seen.after, n)
                    && enabled(&seen.after.registers, n) == on
            });
            let mut ages = named([3, 4, last, last + 1]);
            ages.dedup();
            rows.each(FEW, &format!("{of}: age {{}} with width {wide}"), ages)
                .when(move |seen, age| {
                    seen.lit(n, (4..=last).contains(&age))
                        && is_wide(seen)
                        && seen.after.objects[n].age == age
                        && enabled(&seen.after.registers, n)
                });
        }
    }
    for old in [false, true] {
        let name = format!("BL: VDELBL {old}, enables differing, lit {{}}");
        rows.each(FEW, &name, FLAGS).when(move |seen, on| {
            let registers = seen.after.registers;
            seen.lit(BL, on)
                && at_lit_age(&seen.after, BL)
                && registers.vdelbl == old
                && registers.enabl_new != registers.enabl_old
        });
    }
}

/// Steps 8 and 9: each drawing register changing what is lit on the clock of its write.
fn drawing_registers(rows: &mut Rows) {
    let registers = KNOWN.map(|(_, name, register)| (name, register));
    let drawing = registers.into_iter().filter(|row| is_for_drawing(row.1));
    let name = "{} changes what is lit on the clock of its write";
    rows.each(FEW, name, drawing).when(|seen, register| {
        let changed = || write_changed_lit(&seen.given, seen.done());
        seen.wrote(register) && !seen.blank() && changed()
    });
}

/// Step 9: each of the 20 playfield bits lit on the left, repeated and reflected.
fn playfield(rows: &mut Rows) {
    for bit in 0..20 {
        for (way, at, reflected) in [
            ("left", bit, None),
            ("right, repeated", 20 + bit, Some(false)),
            ("right, reflected", 39 - bit, Some(true)),
        ] {
            rows.each(FEW, &format!("PF: bit {bit} {way}, lit {{}}"), FLAGS)
                .when(move |seen, on| {
                    let reflect = seen.after.registers.ctrlpf % 2 == 1;
                    seen.lit(PF, on)
                        && (seen.given.h - 68) / 4 == at
                        && reflected.map_or(true, |reflected| reflected == reflect)
                });
        }
    }
}

/// Step 10: each bit of the answer byte, and the bytes 128, 64 and 0.
fn answer_bytes(rows: &mut Rows) {
    for (of, bit) in OBJECTS {
        rows.row(FEW, &format!("answer bit {bit} for {of}"))
            .when(move |seen| !seen.blank() && seen.done().byte >> bit & 1 == 1);
    }
    rows.each(FEW, "answer byte {}", named([128, 64, 0]))
        .when(|seen, byte| seen.done().byte == byte);
}

/// Step 10: each latch newly set, not set in a blank column, set with CXCLR, and cleared by it.
fn latches(rows: &mut Rows) {
    let pair = |(first, second): (usize, usize)| format!("{}-{}", NAMES[first], NAMES[second]);
    let pairs = || PAIRS.into_iter().map(pair).zip(0..);
    rows.each(FEW, "{} newly latched", pairs())
        .when(|seen, latch| !seen.done().written.latches[latch] && seen.after.latches[latch]);
    rows.each(FEW, "{} lit in a blank column, not latched", pairs())
        .when(|seen, latch| {
            let lit = lit_together(&seen.done().lit, latch);
            seen.blank() && seen.given.h >= 68 && lit && !seen.after.latches[latch]
        });
    rows.each(FEW, "{} latched on the clock of CXCLR", pairs())
        .when(|seen, latch| seen.wrote(Register::Cxclr) && seen.after.latches[latch]);
    rows.each(FEW, "{} cleared by CXCLR", pairs())
        .when(|seen, latch| seen.given.latches[latch] && !seen.after.latches[latch]);
}

/// Step 11, and what happens over several clocks of a walk.
fn over_several_clocks(rows: &mut Rows) {
    let crosses = |seen: &Seen| seen.given.h == 227 && seen.after.h == 0;
    rows.row(FEW, "h goes from 227 to 0").when(crosses);
    let mut walk = rows.under("walk: ");
    walk.row(FEW, "motion of an HMOVE completes").when(|seen| {
        seen.clock.after_hmove && seen.given.slot == 15 && seen.after.slot == NO_MOTION
    });
    walk.row(FEW, "motion of an HMOVE under way across the line's end")
        .when(move |seen| seen.clock.after_hmove && seen.under_way() && crosses(seen));
    walk.row(FEW, "the start state given")
        .when(|seen| seen.clock.in_walk && seen.given == State::START);
}
