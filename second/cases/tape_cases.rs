//! The tape calls of the case file: the groups of line calls played from tapes, and the groups of
//! what reading finds; calls on random tapes fill their number up.

use crate::cases::bench::{checks, PRINTED_TAPE};
use crate::cases::build_lists::list_of;
use crate::cases::build_tapes::{add_line, line_places, tape_of};
use crate::cases::case::{LineCase, TapeCase};
use crate::cases::chip_cases::Group;
use crate::cases::damage::DAMAGES;
use crate::cases::line_cases::{self, random_case, short_case};
use crate::cases::random::Random;
use crate::cases::random_lists::{known_write_at, list_of_length, little_lists, short_list};
use crate::cases::random_states::line_start_state;
use crate::cases::spoil::{places_past_the_end, spoil, spoil_reading, ReadingFault, BAD_LENGTHS};
use crate::model::state::State;
use crate::model::tape::{FIRST_PLACE, VERSION};

/// The groups in their order.
pub const GROUPS: [Group<TapeCase>; 8] = [
    lines_on_tapes,
    bench_tapes,
    versions,
    places_outside,
    ends,
    cut_lines,
    inner_places,
    two_faults,
];

/// A call at a line of a random tape, at times at any place of it; at times the tape is damaged, at
/// times state, buffers or line have a fault.
pub fn other(random: &Random) -> TapeCase {
    let mut case = on_tape(random, &random_case(random, 8));
    if random.one_in(5) {
        let (_, damage) = random.pick(&DAMAGES);
        damage(random, &mut case.tape);
    }
    let lines = line_places(&case.tape);
    case.place = match random.up_to(9) {
        0 => random.index(case.tape.len() + 1) as u64,
        1..=3 if !lines.is_empty() => random.pick(&lines),
        _ => case.place,
    };
    case
}

/// The call that plays a line call's list: its line stands between up to two lines before it and
/// up to two after.
fn on_tape(random: &Random, line: &LineCase) -> TapeCase {
    let mut case = ending_in(random, &line_bytes(&line.call.list));
    for list in little_lists(random, 2) {
        add_line(&mut case.tape, &list);
    }
    case.state = line.state;
    case.length = line.call.length;
    case.colour_length = line.call.colour_length;
    case
}

/// A call without faults: a short line between others.
fn good_case(random: &Random) -> TapeCase {
    on_tape(random, &short_case(random))
}

/// A call at the place where these bytes end a tape, after up to two lines.
fn ending_in(random: &Random, bytes: &[u8]) -> TapeCase {
    let mut tape = tape_of(&little_lists(random, 2));
    let place = tape.len() as u64;
    tape.extend(bytes);
    TapeCase::new(line_start_state(random), tape, place)
}

/// A line as it stands on a tape, its length before it.
fn line_bytes(list: &[u8]) -> Vec<u8> {
    let mut bytes = Vec::new();
    add_line(&mut bytes, list);
    bytes
}

/// The groups of line calls, each line between others of a tape; those with a refused length of
/// the list have all of the line's bytes there.
fn lines_on_tapes(random: &Random, cases: &mut Vec<TapeCase>) {
    let mut lines = Vec::new();
    for group in line_cases::GROUPS {
        group(random, &mut lines);
    }
    cases.extend(lines.iter().map(|line| on_tape(random, line)));
}

/// The bench checks, each line from the state that the line before handed back, and their ends;
/// tapes of three lines of 684 bytes likewise; every place of the printed tape and some past its
/// end.
fn bench_tapes(random: &Random, cases: &mut Vec<TapeCase>) {
    let mut tapes: Vec<Vec<u8>> = checks().iter().map(|check| check.tape()).collect();
    let full = || list_of(&list_of_length(random, 228));
    tapes.extend((0..3).map(|_| tape_of(&[full(), full(), full()])));
    for tape in tapes {
        let mut state = State::START;
        for place in line_places(&tape).into_iter().chain([tape.len() as u64]) {
            let case = TapeCase::new(state, tape.clone(), place);
            state = case.play(0).answer.state;
            cases.push(case);
        }
    }
    for place in 0..=PRINTED_TAPE.len() as u64 + 3 {
        cases.push(TapeCase::new(State::START, PRINTED_TAPE.to_vec(), place));
    }
}

/// Empty tapes; and each version that is not 1, the most likely ones more often, at lines, at the
/// end and outside.
fn versions(random: &Random, cases: &mut Vec<TapeCase>) {
    for place in [0, 1, 2, 1 << 32, 1 << 63, u64::MAX].repeat(2) {
        cases.push(TapeCase::new(line_start_state(random), vec![], place));
    }
    let all = (0..=255).chain([0, 2, 255].repeat(8));
    for version in all.filter(|&version| version != VERSION) {
        let mut case = ending_in(random, &[]);
        case.tape[0] = version;
        let end = case.place;
        case.place = random.pick(&[FIRST_PLACE, FIRST_PLACE, 0, end, end + 1]);
        cases.push(case);
    }
}

/// Place 0 and places past the end, some of them with a line's place in their lower bits.
fn places_outside(random: &Random, cases: &mut Vec<TapeCase>) {
    for _ in 0..6 {
        let case = good_case(random);
        let mut places = places_past_the_end(&case.tape, case.place);
        places.extend([0, random.next() | 1 << 40]);
        for place in places {
            let state = line_start_state(random);
            cases.push(TapeCase::new(state, case.tape.clone(), place));
        }
    }
}

/// The ends of tapes, of those without lines too; with a bad state, h not 0 or a wrong buffer, object
/// or colour, as well as without.
fn ends(random: &Random, cases: &mut Vec<TapeCase>) {
    for fault in [0, 1, 2, 3, 11].repeat(16) {
        let mut line = short_case(random);
        if fault != 0 {
            spoil(random, &mut line, fault);
        }
        let mut case = on_tape(random, &line);
        if random.flag() {
            case.tape.truncate(1);
        }
        case.place = case.tape.len() as u64;
        cases.push(case);
    }
}

/// Tapes that end within a line: with a lone length byte; with a refused length and fewer bytes
/// than that, or none; and in a short line or one of 684 bytes cut by one byte and more, or by all.
fn cut_lines(random: &Random, cases: &mut Vec<TapeCase>) {
    let mut add = |bytes: &[u8]| cases.push(ending_in(random, bytes));
    for byte in [0, 1, 2, 3, 255].repeat(6) {
        add(&[byte]);
    }
    for length in BAD_LENGTHS.repeat(3).into_iter().chain([687; 3]) {
        let there = random.pick(&[0, random.index(30)]);
        let there = there.min(usize::from(length) - 1);
        add(&[&length.to_be_bytes()[..], &vec![0; there]].concat());
    }
    for cut_by in [1, 1, 2, 3, 4, usize::MAX].repeat(10) {
        for list in [short_list(random), list_of_length(random, 228)] {
            let bytes = line_bytes(&list_of(&list));
            add(&bytes[..bytes.len().saturating_sub(cut_by).max(2)]);
        }
    }
}

/// Any places of tapes that are no borders of lines; and places within a record at which the bytes
/// are a line: the value 0 of one record and the clock 3 or 6 of the next are its length, a clock
/// 60 that of a cut one, and some of the lines have a bad record.
fn inner_places(random: &Random, cases: &mut Vec<TapeCase>) {
    for _ in 0..120 {
        let mut case = good_case(random);
        let borders = line_places(&case.tape);
        let mut inner: Vec<u64> = (1..case.tape.len() as u64).collect();
        inner.retain(|place| !borders.contains(place));
        case.place = random.pick(&inner);
        cases.push(case);
    }
    for length in [3, 6, 60].repeat(14) {
        let mut line = vec![2, 0x0E, 0, length];
        for n in 0..length.min(6) / 3 {
            let mut record = list_of(&[known_write_at(random, 0x0F + n)]);
            match random.up_to(4) {
                0 => record[0] = 240,
                1 => record[1] = 0,
                _ => {}
            }
            line.extend(record);
        }
        line.extend([0x0E, 0]);
        let mut case = ending_in(random, &line_bytes(&line));
        case.place += 4;
        cases.push(case);
    }
}

/// Each fault of reading together with each fault of the line call that it leaves: of state, h and
/// buffers, and, where the line's bytes are there, of its records; and behind a version that is not
/// 1 each other fault of a tape that is not empty.
fn two_faults(random: &Random, cases: &mut Vec<TapeCase>) {
    use ReadingFault::{Cut, Empty, Length, Version};
    for fault in ReadingFault::ALL.repeat(6) {
        let numbers: &[u8] = match fault {
            Version | Length | Cut => &[1, 2, 3, 11, 5, 6, 7],
            _ => &[1, 2, 3, 11],
        };
        for &number in numbers {
            let mut line = short_case(random);
            spoil(random, &mut line, number);
            let mut case = on_tape(random, &line);
            spoil_reading(random, &mut case, fault);
            cases.push(case);
        }
        if !matches!(fault, Empty | Version) {
            let mut case = good_case(random);
            spoil_reading(random, &mut case, fault);
            spoil_reading(random, &mut case, Version);
            cases.push(case);
        }
    }
}
