//! One line call made many times, for measuring what a line costs.

use crate::model::input::bytes_of_input;
use crate::model::line::line;
use crate::model::line_faults::COLUMNS;
use crate::model::state::State;
use crate::model::write_list::MOST_BYTES;
use std::io::{self, Read, Write};

/// The number of bytes of the count.
const COUNT_BYTES: usize = 4;

/// The most bytes that are read: the count and a list of one record too many, so that a list over
/// 684 bytes is still one that the line call refuses.
const MOST_INPUT_BYTES: usize = COUNT_BYTES + MOST_BYTES + 3;

/// Writes the object buffer, then the colour buffer, after the calls that the input asks for: a count in four bytes, the highest
/// first, then a write list; an input of fewer bytes asks for none. A read error counts as the end
/// of the input; ends early with the first write error.
pub fn write(input: &mut dyn Read, out: &mut dyn Write) -> io::Result<()> {
    out.write_all(&match bytes_of_input(input, MOST_INPUT_BYTES)[..] {
        [a, b, c, d, ref list @ ..] => repeat_line(u32::from_be_bytes([a, b, c, d]), list),
        _ => repeat_line(0, &[]),
    })
}

/// The object buffer and the colour buffer, at first zeros, after so many line calls with one list:
/// the first on the start state, each later one on the state that the call before, refused or not,
/// handed back.
fn repeat_line(count: u32, list: &[u8]) -> Vec<u8> {
    let (mut objects, mut colours) = ([0; COLUMNS], [0; COLUMNS]);
    let mut state = State::START;
    for _ in 0..count {
        state = line(&state, list, &mut objects, &mut colours).state;
    }
    [objects, colours].concat()
}

#[cfg(test)]
mod tests {
    use super::*;

    /// What is written for an input of these bytes of the count and this list.
    fn written(count: &[u8], list: &[u8]) -> Vec<u8> {
        let input = [count, list].concat();
        let mut out = Vec::new();
        write(&mut &input[..], &mut out).unwrap();
        out
    }

    // The background's colour is written in column 40: the first line shows it from there on, the
    // second in all columns.
    #[test]
    fn colour_bytes_follow_the_object_bytes() {
        for (count, first) in [(1, 160 + 40), (2, 160)] {
            let written = written(&[0, 0, 0, count], &[108, 0x09, 0x33]);
            assert_eq!(written[..first], vec![0; first]);
            assert_eq!(written[first..], vec![0x32; 320 - first]);
        }
    }

    // Missile 0 is enabled and moved eight columns right in each line: 152 pulses. From the second
    // line on it passes position 0 in column 8 n - 1 and is lit four columns later.
    #[test]
    fn calls_are_a_chain_from_the_start_state() {
        let moving = [0, 0x1D, 2, 1, 0x22, 0x80, 9, 0x2A, 0];
        let lit = |count: [u8; 4]| written(&count, &moving).iter().position(|byte| *byte == 4);
        let columns = [[0, 0, 0, 1], [0, 0, 0, 2], [0, 0, 0, 3], [0, 0, 1, 2]].map(lit);
        assert_eq!(
            columns,
            [None, Some(19), Some(27), Some((8 * 258 + 3) % 160)]
        );
    }

    #[test]
    fn refused_calls_and_inputs_of_fewer_than_four_bytes_leave_zeros() {
        let longest: Vec<u8> = (0..228).flat_map(|clock| [clock, 0x0E, 255]).collect();
        assert_ne!(written(&[0, 0, 0, 1], &longest), [0; 320]);
        for more in [&[9][..], &[9, 0, 0], &[0; 7], &[0; 100_000]] {
            let list = [&longest[..], more].concat();
            assert_eq!(written(&[0, 0, 0, 2], &list), [0; 320]);
        }
        for length in 0..=4 {
            assert_eq!(written(&vec![0; length], &[]), [0; 320]);
        }
    }
}
