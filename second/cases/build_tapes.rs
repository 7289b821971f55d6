//! Tapes put together from write lists, and the places of their lines.

use crate::cases::build_lists::list_of;
use crate::model::tape::{read, Reading, FIRST_PLACE, VERSION};
use crate::model::write_list::ListedWrite;

/// The tape of lines with these write lists, each with its own length in two bytes.
pub fn tape_of(lists: &[Vec<u8>]) -> Vec<u8> {
    let mut tape = vec![VERSION];
    for list in lists {
        add_line(&mut tape, list);
    }
    tape
}

/// The tape of lines with these records.
pub fn tape_of_lines(lines: &[Vec<ListedWrite>]) -> Vec<u8> {
    let lists: Vec<Vec<u8>> = lines.iter().map(|line| list_of(line)).collect();
    tape_of(&lists)
}

/// Adds a line with this write list, at most 65,535 bytes, to a tape.
pub fn add_line(tape: &mut Vec<u8>, list: &[u8]) {
    tape.extend((list.len() as u16).to_be_bytes());
    tape.extend(list);
}

/// The places of the lines of a tape, from the first line to the tape's end or to the first place
/// that is refused.
pub fn line_places(tape: &[u8]) -> Vec<u64> {
    let mut places = Vec::new();
    let mut place = FIRST_PLACE;
    while let Ok(Reading::Line { end, .. }) = read(tape, place) {
        places.push(place);
        place = end as u64;
    }
    places
}

#[cfg(test)]
mod tests {
    use super::*;
    use crate::cases::build_lists::records_of;
    use crate::model::tape::stretch;

    #[test]
    fn lists_of_any_length_have_their_length_before_them_and_are_read_back() {
        let lists = [vec![9, 0x2A, 7], vec![], vec![8; 684], vec![7; 700]];
        let tape = tape_of(&lists);
        assert_eq!(tape[..9], [1, 0, 3, 9, 0x2A, 7, 0, 0, 2]);
        let places = line_places(&tape);
        assert_eq!(places, [1, 6, 8]);
        for (place, list) in places.into_iter().zip(&lists) {
            assert_eq!(stretch(&tape, place), &list[..]);
        }
        assert_eq!(tape[694..698], [2, 0xBC, 7, 7]);
        let lines = [records_of(&[(9, 0x2A, 7)]), vec![]];
        assert_eq!(tape_of_lines(&lines), tape_of(&lists[..2]));
    }
}
