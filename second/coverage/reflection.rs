//! The rows for request Three: reflected players, by their new graphic and by their old one, and
//! reflection and graphics changed within a copy.

use crate::coverage::seen::Seen;
use crate::coverage::table::{Rows, Table, FEW, FLAGS, PLAYERS};
use crate::model::drawing::NO_PIXEL;
use crate::model::lit::{graphic, is_set, lit};
use crate::model::mirror::mirrored;
use crate::model::registers::{Register, Registers};
use crate::model::state::State;

/// Adds all of them.
pub fn add(table: &mut Table) {
    let [mut rows, _, mut line, mut run, mut tape] = table.by_kind();
    for (of, n) in PLAYERS {
        let rows = &mut rows.under(&format!("{of}: "));
        graphics_chosen(rows, n);
        refp_written(rows, n);
        graphics_written(rows, n);
        lines(&mut line, of, n);
        lines(&mut tape.under("played, "), of, n);
        runs(&mut run, of, n);
    }
}

/// Whether a player would be lit on a clock with these registers.
fn lit_with(seen: &Seen, n: usize, registers: Registers) -> bool {
    let state = State {
        registers,
        ..seen.after
    };
    lit(&state)[n]
}

/// Whether a clock's write changed whether a player is lit in its unblanked column.
fn write_changed(seen: &Seen, n: usize) -> bool {
    !seen.blank() && lit_with(seen, n, seen.given.registers) != seen.done().lit[n]
}

/// Step 8: a reflected player lit, and dark, as it would be neither unreflected nor with its other
/// graphic, by each VDELP.
fn graphics_chosen(rows: &mut Rows, n: usize) {
    for old in [false, true] {
        let name = format!(
            "reflected, VDELP {old}, lit {{}}, but neither unreflected nor with the other graphic"
        );
        rows.each(FEW, &name, FLAGS).when(move |seen, on| {
            let registers = seen.after.registers;
            let (mut unreflected, mut other_graphic) = (registers, registers);
            unreflected.refp[n] = false;
            other_graphic.vdelp[n] = !old;
            seen.lit(n, on)
                && registers.refp[n]
                && registers.vdelp[n] == old
                && lit_with(seen, n, unreflected) != on
                && lit_with(seen, n, other_graphic) != on
        });
    }
}

/// REFP changed within a copy: both ways, deciding whether the player is lit, by each VDELP; and on a
/// clock of a walk on which the copy goes on.
fn refp_written(rows: &mut Rows, n: usize) {
    let flags = move |seen: &Seen| [&seen.given, &seen.after].map(|state| state.registers.refp[n]);
    for reflected in [false, true] {
        let name = format!("reflected {reflected} from now on, changing what is lit, VDELP {{}}");
        rows.each(FEW, &name, FLAGS).when(move |seen, old| {
            let by_old = seen.after.registers.vdelp[n] == old;
            flags(seen) == [!reflected, reflected] && by_old && write_changed(seen, n)
        });
    }
    rows.row(FEW, "reflection changed within a copy of a walk")
        .when(move |seen| {
            let [before, after] = [&seen.given, &seen.after].map(|state| state.drawings[n].pixel);
            let goes_on = !seen.blank() && before <= after && after < NO_PIXEL;
            let [first, second] = flags(seen);
            seen.clock.in_walk && first != second && goes_on
        });
}

/// Graphics changed while the player is reflected: the new one by its own GRP, the old one, with VDELP,
/// by that of the other player.
fn graphics_written(rows: &mut Rows, n: usize) {
    for (player, old) in [(n, false), (1 - n, true)] {
        let name = format!("reflected, VDELP {old}, GRP{player} changing what is lit");
        rows.row(FEW, &name).when(move |seen| {
            let registers = &seen.after.registers;
            seen.wrote(Register::Grp(player))
                && registers.refp[n]
                && registers.vdelp[n] == old
                && write_changed(seen, n)
        });
    }
}

/// Accepted lines, and played ones: a player lit on both sides of a change of REFP; and reflected all
/// along, lit by one graphic, new or old, that is neither its own mirror nor the other one.
fn lines(rows: &mut Rows, of: &str, n: usize) {
    let name = format!("{of} lit on both sides of REFP written, reflected {{}} from then on");
    rows.each(FEW, &name, FLAGS).when(move |seen, reflected| {
        let first = seen.given.registers.refp[n];
        let changes = seen.values_held(Register::Refp(n), first, |value| is_set(value, 3));
        let is = |&(before, after, clock): &(bool, bool, u8)| {
            (before, after) == (!reflected, reflected) && seen.lit_around(n, clock)
        };
        changes.iter().any(is)
    });
    let name = format!("{of} lit, reflected and VDELP {{}} throughout");
    rows.each(FEW, &name, FLAGS).when(move |seen, old| {
        let registers = &seen.given.registers;
        let shown = graphic(registers, n);
        let kept = [
            Register::Refp(n),
            Register::Vdelp(n),
            Register::Grp(0),
            Register::Grp(1),
        ];
        seen.accepted()
            && seen.first_column(n).is_some()
            && kept.iter().all(|&register| !seen.wrote(register))
            && registers.refp[n]
            && registers.vdelp[n] == old
            && shown != mirrored(shown)
            && registers.grp_new[n] != registers.grp_old[n]
    });
}

/// Runs: demand 3's picture due for a reflected player that is lit, by each VDELP.
fn runs(rows: &mut Rows, of: &str, n: usize) {
    let name = format!("picture of {of} due, lit, reflected, VDELP {{}}");
    rows.each(50, &name, FLAGS).when(move |seen, old| {
        let registers = &seen.given.registers;
        let found = seen.findings[n].as_ref();
        found.map_or(false, |found| found.picture)
            && registers.refp[n]
            && registers.vdelp[n] == old
            && seen.first_column(n).is_some()
    });
}
