//! The bench checks of the paper that concern lines, as `cases/bench.rs` has them: what each shows.
//! Those of the counter, the extra pulses and the listing stand with these subjects.

use crate::cases::bench::PRINTED_TAPE;
use crate::model::latches::read_out;
use crate::model::object::{BL, M0, P0, PF};
use crate::tests::playing::{blank, check, columns, play_check, span};

// "Missile 0 enabled, strobed at clock 30: the next line lights column 3. At clock 100: column 36.
// Ball enabled at 0, strobed at 100: column 36 on that same line. Player 0, graphic 255 written at
// 0, strobed at 100: column 37, next line." "Copies 3 written at 101: this line 53-60 and 69-76,
// no main copy; the next adds 37-44." "HMOVE at 9: columns 0-7 hold 64", here over the playfield.
#[test]
fn strobes_copies_and_blank_columns_show_their_columns() {
    let copies = [span(53, 60), span(69, 76)].concat();
    let with_main = [span(37, 44), copies.clone()].concat();
    let left_lit = [span(8, 15), span(80, 95)].concat();
    let lit = [span(0, 15), span(80, 95)].concat();
    let cases = [
        ("missile_strobed_at_30", M0, vec![vec![], vec![3]]),
        ("missile_strobed_at_100", M0, vec![vec![], vec![36]]),
        ("ball_strobed_at_100", BL, vec![vec![36]]),
        ("player_strobed_at_100", P0, vec![vec![], span(37, 44)]),
        ("copies_3_after_strobe", P0, vec![copies, with_main]),
        ("hmove_at_9_blank_columns", PF, vec![left_lit, lit]),
    ];
    for (name, object, expected) in cases {
        let played = play_check(&check(name));
        assert_eq!(columns(&played, object), expected, "{name}");
        if object == PF {
            assert_eq!(blank(&played), [span(0, 7), vec![]]);
        }
    }
    assert_eq!(check("printed_tape").tape(), PRINTED_TAPE);
}

// "Missile at column 36, HMOVE at 9: half bytes 7, 15, 8 give 29, 37, 44. At column 3, 7 gives 156.
// HMOVE at 15 with 7 moves 7 left; at 16, 6 left. With 0: at 67, 6 right; at 68, nothing; at 227,
// 8 left and the next line has no blank columns."
#[test]
fn hmove_moves_the_missile() {
    let cases = [
        ("missile_at_36_hmove_at_9_half_byte_7", 36, 29),
        ("missile_at_36_hmove_at_9_half_byte_15", 36, 37),
        ("missile_at_36_hmove_at_9_half_byte_8", 36, 44),
        ("missile_at_3_hmove_at_9_half_byte_7", 3, 156),
        ("missile_at_36_hmove_at_15_half_byte_7", 36, 29),
        ("missile_at_36_hmove_at_16_half_byte_7", 36, 30),
        ("missile_at_36_hmove_at_67_half_byte_0", 36, 42),
        ("missile_at_36_hmove_at_68_half_byte_0", 36, 36),
        ("missile_at_36_hmove_at_227_half_byte_0", 36, 28),
    ];
    for (name, from, to) in cases {
        let played = play_check(&check(name));
        let shown = columns(&played, M0);
        assert_eq!(shown[1], [from], "{name}");
        assert_eq!(shown[3..], [[to], [to]], "{name}");
        let late = !name.contains("_at_68_") && !name.contains("_at_227_");
        let first = if late { span(0, 7) } else { vec![] };
        assert_eq!(blank(&played)[2..], [first, vec![], vec![]], "{name}");
    }
}

// "CXCLR on a clock with an overlap: that pair is latched afterwards", and after it no more.
#[test]
fn cxclr_with_an_overlap_leaves_that_pair_latched() {
    let cases = [
        ("cxclr_at_103_before_overlap", 0x80),
        ("cxclr_at_104_with_overlap", 0x80),
        ("cxclr_at_105_after_overlap", 0x00),
    ];
    for (name, fifth) in cases {
        let played = play_check(&check(name));
        assert_eq!(columns(&played, M0)[1], [36]);
        assert!(columns(&played, PF)[1].contains(&36));
        let bytes = read_out(&played[1].state);
        assert_eq!(bytes, Ok([0, 0, 0, 0, fifth, 0, 0, 0]));
    }
}
