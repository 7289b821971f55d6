//! Faults put into calls: into a line call's state, buffers, list and records, and into the tape
//! and the place of a tape call.

use crate::cases::build_lists::list_of;
use crate::cases::case::{Call, LineCase, TapeCase};
use crate::cases::random::Random;
use crate::cases::random_lists::{known_write_at, short_list, unknown_addresses};
use crate::cases::random_states::with_fault;
use crate::model::tape::stretch;
use crate::model::write_list::{records, ListedWrite, MOST_BYTES};
use ReadingFault::{Cut, Empty, Length, LoneByte, PastEnd, PlaceZero, Version};

/// The numbers of the faults of a line call in the order of the checks.
pub const LINE_FAULTS: [u8; 8] = [1, 2, 3, 11, 4, 5, 6, 7];

/// The numbers of those that the state has no part in, in the order of the checks.
pub const CALL_FAULTS: [u8; 6] = [3, 11, 4, 5, 6, 7];

/// Lengths of a buffer that are refused, at the edges and between.
pub const BAD_BUFFERS: [u8; 8] = [0, 1, 64, 100, 159, 161, 200, 255];

/// Lengths of a list that are refused: no multiples of 3, and over 684.
pub const BAD_LENGTHS: [u16; 35] = [
    1, 2, 4, 5, 7, 8, 100, 256, 301, 302, 682, 683, 685, 686, 687, 688, 689, 690, 691, 692, 693,
    694, 695, 696, 697, 698, 699, 768, 1536, 4096, 32_767, 32_768, 65_533, 65_534, 65_535,
];

/// Gives a line call the fault with this number, one of `LINE_FAULTS`.
pub fn spoil(random: &Random, case: &mut LineCase, fault: u8) {
    match fault {
        1 => case.state = with_fault(random, &case.state),
        2 => case.state.h = random.between(1, 227),
        _ => spoil_call(random, &mut case.call, fault),
    }
}

/// Gives a call the fault with this number, one of `CALL_FAULTS`.
pub fn spoil_call(random: &Random, call: &mut Call, fault: u8) {
    let whole = call.list.len() / 3 * 3;
    match fault {
        3 => call.length = random.pick(&BAD_BUFFERS),
        11 => call.colour_length = random.pick(&BAD_BUFFERS),
        4 => {
            let long = MOST_BYTES + 1 + random.index(15);
            let short = whole + random.pick(&[1, 2]);
            let length = if random.one_in(8) { long } else { short };
            resize(random, &mut call.list, length);
        }
        _ => {
            let rest = call.list.split_off(whole);
            let mut list = records(&call.list);
            if list.len() < 2 {
                list = short_list(random);
            }
            let index = random.index(list.len()).max(least_index(fault));
            spoil_record(random, &mut list, index, fault);
            call.list = [list_of(&list), rest].concat();
        }
    }
}

/// Cuts a list to a length, or fills it up with records of a known register at a good clock, the
/// last of them cut.
pub fn resize(random: &Random, list: &mut Vec<u8>, length: usize) {
    while list.len() < length {
        list.extend(list_of(&[known_write_at(random, random.up_to(227))]));
    }
    list.truncate(length);
}

/// Gives a record the fault with this number, 5 to 7; 6 only to one that has another before it.
pub fn spoil_record(random: &Random, list: &mut [ListedWrite], index: usize, fault: u8) {
    match fault {
        5 => list[index].clock = random.pick(&[228, 229, 240, 254, 255]),
        6 => {
            let before = list[index - 1].clock;
            list[index].clock = random.pick(&[before, random.up_to(before)]);
        }
        _ => list[index].write.address = random.pick(&unknown_addresses()),
    }
}

/// The least index at which a record can have a fault: none stands before the first.
pub fn least_index(fault: u8) -> usize {
    usize::from(fault == 6)
}

/// Gives an earlier and a later record, of three or more, the faults with these numbers, 5 to 7.
pub fn spoil_two_records(random: &Random, list: &mut [ListedWrite], first: u8, second: u8) {
    let later = 2 + random.index(list.len() - 2);
    let earlier = 1 + random.index(later - 1);
    spoil_record(random, list, later, second);
    spoil_record(random, list, earlier, first);
}

/// A fault of reading.
#[derive(Clone, Copy, Debug, PartialEq, Eq)]
pub enum ReadingFault {
    Empty,
    Version,
    PlaceZero,
    PastEnd,
    LoneByte,
    Length,
    Cut,
}

impl ReadingFault {
    /// Every fault.
    pub const ALL: [ReadingFault; 7] = [Empty, Version, PlaceZero, PastEnd, LoneByte, Length, Cut];
}

/// Gives a call at a line that has writes a fault of reading.
pub fn spoil_reading(random: &Random, case: &mut TapeCase, fault: ReadingFault) {
    let tape = &mut case.tape;
    let writes = stretch(tape, case.place).len();
    let place = case.place as usize;
    match fault {
        Empty => tape.clear(),
        Version => tape[0] = other_version(random),
        PlaceZero => case.place = 0,
        PastEnd => case.place = random.pick(&places_past_the_end(tape, case.place)),
        LoneByte => tape.truncate(place + 1),
        Length => set_length(tape, case.place, random.pick(&BAD_LENGTHS)),
        Cut => {
            let kept = random.pick(&[0, random.index(writes), writes - 1]);
            tape.truncate(place + 2 + kept);
        }
    }
}

/// A version byte that is not 1.
pub fn other_version(random: &Random) -> u8 {
    random.pick(&[0, 2, 255, random.between(2, 255)])
}

/// Places past the end of a tape: next to it, near 2^63 and the largest number, and some whose
/// lower bits are this place.
pub fn places_past_the_end(tape: &[u8], place: u64) -> Vec<u64> {
    let end = tape.len() as u64;
    let half = 1 << 63;
    let mut places = vec![end + 1, end + 2, end + 3, half - 1, half, half + 1];
    places.extend([8, 16, 31, 32, 33, 48, 62, 63].map(|bits| (1 << bits) + place));
    places.extend([u64::MAX - end, u64::MAX - 2, u64::MAX - 1, u64::MAX]);
    places.retain(|&place| place > end);
    places
}

/// Makes the two bytes at a place of a tape this length.
pub fn set_length(tape: &mut [u8], place: u64, length: u16) {
    let place = place as usize;
    tape[place..place + 2].copy_from_slice(&length.to_be_bytes());
}
