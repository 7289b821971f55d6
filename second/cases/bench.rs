//! The bench checks of the paper that concern lines: the writes of each line, run one after
//! another from the start state.

use crate::cases::build_lists::records_of;
use crate::cases::build_tapes::tape_of_lines;
use crate::model::write_list::ListedWrite;

/// The tape that the paper prints for the listing.
pub const PRINTED_TAPE: [u8; 21] = [
    0x01, 0x00, 0x06, 0x00, 0x1D, 0x02, 0x1E, 0x12, 0x00, 0x00, 0x00, 0x00, 0x06, 0x00, 0x22, 0x70,
    0x09, 0x2A, 0x00, 0x00, 0x00,
];

/// A check: its name and its lines, each with the records of its write list.
pub struct Check {
    pub name: String,
    pub lines: Vec<Vec<ListedWrite>>,
}

impl Check {
    /// The tape of the check's lines.
    pub fn tape(&self) -> Vec<u8> {
        tape_of_lines(&self.lines)
    }
}

/// The check with this name and lines of these clocks, addresses and values.
fn check(name: &str, lines: &[&[(u8, u8, u8)]]) -> Check {
    Check {
        name: name.to_string(),
        lines: lines.iter().map(|line| records_of(line)).collect(),
    }
}

/// Every check. A missile is enabled and strobed at 30 or 100, shown by the next line, and moved by
/// HMOVE at a clock with a half byte; the two lines after that show where it is.
pub fn checks() -> Vec<Check> {
    let ball = [(0, 0x1F, 2), (100, 0x14, 0)];
    let player = [(0, 0x1B, 255), (100, 0x10, 0)];
    let copies = [(0, 0x1B, 255), (100, 0x10, 0), (101, 0x04, 3)];
    let playfield = [(0, 0x0D, 255), (9, 0x2A, 0)];
    let strobed = [(0, 0x1D, 2), (30, 0x12, 0)];
    let moved = [(0, 0x22, 0x70), (9, 0x2A, 0)];
    let mut checks = vec![
        check("ball_strobed_at_100", &[&ball]),
        check("player_strobed_at_100", &[&player, &[]]),
        check("copies_3_after_strobe", &[&copies, &[]]),
        check("hmove_at_9_blank_columns", &[&playfield, &[]]),
        check("printed_tape", &[&strobed, &[], &moved, &[]]),
    ];
    for (clock, when) in [(103, "before"), (104, "with"), (105, "after")] {
        let overlap = [(0, 0x1D, 2), (1, 0x0E, 255), (2, 0x0F, 255), (100, 0x12, 0)];
        let name = format!("cxclr_at_{}_{}_overlap", clock, when);
        checks.push(check(&name, &[&overlap, &[(clock, 0x2C, 0)]]));
    }
    let hmoves = [9, 9, 9, 15, 16, 67, 68, 227];
    let half_bytes = [7, 15, 8, 7, 7, 0, 0, 0];
    for (strobe, column, moves) in [(30, 3, 1), (100, 36, 8)] {
        let strobed = [(0, 0x1D, 2), (strobe, 0x12, 0)];
        let name = format!("missile_strobed_at_{}", strobe);
        checks.push(check(&name, &[&strobed, &[]]));
        for (hmove, half_byte) in hmoves.into_iter().zip(half_bytes).take(moves) {
            let moved = [(0, 0x22, half_byte << 4), (hmove, 0x2A, 0)];
            let name = format!(
                "missile_at_{}_hmove_at_{}_half_byte_{}",
                column, hmove, half_byte
            );
            checks.push(check(&name, &[&strobed, &[], &moved, &[], &[]]));
        }
    }
    checks
}
