//! The line calls of the case file, group by group; calls with random lists fill their number up.
//! Tapes play the same groups.

use crate::cases::bench::checks;
use crate::cases::build_lists::{address_of, playfield_register};
use crate::cases::case::{Call, LineCase};
use crate::cases::chip_cases::Group;
use crate::cases::colour_writes::{set_colours, set_priority, DECIDING};
use crate::cases::drawings::{ages_that_show, set_age};
use crate::cases::random::Random;
use crate::cases::random_lists::{
    free_list, hmove_at, list_of_length, put, short_list, unknown_addresses, write_at,
};
use crate::cases::random_states::{faulty_states, line_start_state, set_playfield, without_motion};
use crate::cases::spoil::{
    least_index, resize, spoil, spoil_record, spoil_two_records, BAD_BUFFERS, BAD_LENGTHS,
    LINE_FAULTS,
};
use crate::cases::stretched_cases;
use crate::model::registers::KNOWN;
use crate::model::state::{State, NO_MOTION};
use crate::model::write_list::ListedWrite;

/// The groups in their order.
pub const GROUPS: [Group<LineCase>; 10] = [
    bench_checks,
    lists,
    states,
    first_columns,
    colours,
    call_faults,
    record_faults,
    two_faults,
    stretched_cases::rewritten_in_lines,
    stretched_cases::over_the_line_end,
];

/// A call with a random list, some of them spoilt.
pub fn other(random: &Random) -> LineCase {
    random_case(random, 12)
}

/// A call with a random list; one in so many times it has a fault, as often a further one.
pub fn random_case(random: &Random, spoilt_in: u8) -> LineCase {
    let mut case = case_with(random, &free_list(random));
    while random.one_in(spoilt_in) {
        spoil(random, &mut case, random.pick(&LINE_FAULTS));
    }
    case
}

/// A call with a list, without faults of state and buffers.
fn case_with(random: &Random, list: &[ListedWrite]) -> LineCase {
    LineCase {
        state: line_start_state(random),
        call: Call::with(list),
    }
}

/// A call without faults and with a short list.
pub fn short_case(random: &Random) -> LineCase {
    case_with(random, &short_list(random))
}

/// Adds calls with short lists, one for each item, changed by it.
fn add_changed<T>(
    random: &Random,
    cases: &mut Vec<LineCase>,
    items: impl IntoIterator<Item = T>,
    change: impl Fn(&mut LineCase, T),
) {
    for item in items {
        let mut case = short_case(random);
        change(&mut case, item);
        cases.push(case);
    }
}

/// The bench checks, each line from the state that the line before handed back.
fn bench_checks(_: &Random, cases: &mut Vec<LineCase>) {
    for check in checks() {
        let mut state = State::START;
        for line in check.lines {
            let call = Call::with(&line);
            let case = LineCase { state, call };
            state = case.play(0).answer.state;
            cases.push(case);
        }
    }
}

/// Lists of no writes, of one, of two and of one a clock; each register alone in its list; and
/// HMOVE at each clock among other writes, more often at the edges of its rules.
fn lists(random: &Random, cases: &mut Vec<LineCase>) {
    for number in [0, 0, 0, 0, 0, 0, 0, 0, 1, 1, 2, 2, 228].repeat(10) {
        cases.push(case_with(random, &list_of_length(random, number)));
    }
    for (address, _, _) in KNOWN.repeat(8) {
        let write = write_at(random, random.up_to(227), address);
        cases.push(case_with(random, &[write]));
    }
    let edges = [0, 9, 15, 16, 67, 68, 163, 164, 227];
    for clock in (0..228).chain(edges.repeat(6)) {
        let mut list = short_list(random);
        put(&mut list, hmove_at(random, clock));
        cases.push(case_with(random, &list));
    }
}

/// States in which all objects and the playfield can be lit; the late flag set as the line begins,
/// with HMOVE at 0 and with a short list; and each slot as it begins, the live flags being set at
/// most of those below 16.
fn states(random: &Random, cases: &mut Vec<LineCase>) {
    add_changed(random, cases, 0..200, |case, _| {
        let registers = &mut case.state.registers;
        for graphic in registers.grp_new.iter_mut().chain(&mut registers.grp_old) {
            *graphic |= 0b0001_1000;
        }
        registers.enam = [true; 2];
        registers.enabl_new = true;
        registers.enabl_old = true;
        registers.pf1 |= 0b0010_0000;
    });
    add_changed(random, cases, [false, true].repeat(10), |case, hmove| {
        case.state.late = true;
        if hmove {
            case.call = Call::with(&[hmove_at(random, 0)]);
        }
    });
    let slots = (0..=NO_MOTION).chain(0..=NO_MOTION);
    add_changed(random, cases, slots, |case, slot| {
        case.state.slot = slot;
        for object in &mut case.state.objects {
            object.live = slot < NO_MOTION && !random.one_in(3);
        }
    });
}

/// Each object and the playfield first lit at columns at the edges.
fn first_columns(random: &Random, cases: &mut Vec<LineCase>) {
    for column in [0, 1, 80, 158, 159].repeat(5) {
        for object in 0..5 {
            let mut case = case_with(random, &[]);
            case.state = state_with_column(&case.state, object, column);
            cases.push(case);
        }
        let address = address_of(playfield_register(column));
        let mut case = case_with(random, &[ListedWrite::new(68 + column, address, 255)]);
        set_playfield(&mut case.state.registers, 0);
        case.state.registers.ctrlpf &= 0b1111_1110;
        cases.push(case);
    }
}

/// A state at the start of a line, changed so that the line lights one column of an object and no
/// other.
fn state_with_column(given: &State, object: usize, column: u8) -> State {
    let mut state = without_motion(given);
    let registers = &mut state.registers;
    registers.copies = [0; 2];
    registers.width_codes = [0; 2];
    registers.ctrlpf &= 0b1100_1111;
    registers.refp = [false; 2];
    registers.vdelp = [false; 2];
    registers.grp_new = [0b1000_0000; 2];
    registers.enam = [true; 2];
    registers.vdelbl = false;
    registers.enabl_new = true;
    state.sizes = [1; 2];
    let (first_age, _) = ages_that_show(&state, object);
    let position = (159 + first_age - column) % 160;
    state.objects[object].position = position;
    set_age(&mut state, object, position.min(64));
    state
}

/// A colour register or CTRLPF written at the edges of the columns and of their halves, with each of
/// CTRLPF bits 1 and 2, over a playfield that is lit or dark or as it is; in half of the lines the
/// other objects are dark.
fn colours(random: &Random, cases: &mut Vec<LineCase>) {
    let clocks = [0, 67, 68, 69, 75, 76, 146, 147, 148, 149, 226, 227];
    for (_, register) in DECIDING {
        for (clock, bits) in clocks
            .into_iter()
            .flat_map(|clock| [0, 1, 2, 3].map(|n| (clock, n)))
        {
            let mut list = if random.flag() {
                short_list(random)
            } else {
                vec![]
            };
            put(&mut list, write_at(random, clock, address_of(register)));
            let mut case = case_with(random, &list);
            let registers = &mut case.state.registers;
            set_priority(registers, bits);
            set_colours(random, registers);
            match random.up_to(2) {
                0 => set_playfield(registers, 0),
                1 => set_playfield(registers, 255),
                _ => {}
            }
            if random.flag() {
                registers.grp_new = [0; 2];
                registers.grp_old = [0; 2];
                registers.enam = [false; 2];
                registers.enabl_new = false;
                registers.enabl_old = false;
            }
            cases.push(case);
        }
    }
}

/// Each fault of a whole call alone: each of a state, h not 0, object buffers and colour buffers of
/// each refused length, also both, with a list and without, and lists of each refused length up to
/// 768.
fn call_faults(random: &Random, cases: &mut Vec<LineCase>) {
    let states = faulty_states(random, line_start_state);
    add_changed(random, cases, states, |case, state| case.state = state);
    let clocks = [1, 2, 67, 68, 128, 226, 227].repeat(4);
    add_changed(random, cases, clocks, |case, h| case.state.h = h);
    let buffers: [fn(&mut Call, u8); 3] = [
        |call, length| call.length = length,
        |call, length| call.colour_length = length,
        |call, length| (call.length, call.colour_length) = (length, length),
    ];
    for set_length in buffers {
        add_changed(random, cases, BAD_BUFFERS.repeat(6), |case, length| {
            set_length(&mut case.call, length);
            if random.one_in(3) {
                case.call.list.clear();
            }
        });
    }
    let mut lengths = BAD_LENGTHS.repeat(2);
    lengths.retain(|&length| length <= 768);
    add_changed(random, cases, lengths, |case, length| {
        case.call = Call::with(&list_of_length(random, 228));
        resize(random, &mut case.call.list, usize::from(length));
    });
}

/// Each fault of a record alone: in the first record, the second, one between and the last, and
/// in the last of 228; and each unknown register.
fn record_faults(random: &Random, cases: &mut Vec<LineCase>) {
    for fault in [5, 6, 7].repeat(8) {
        for place in 0..5 {
            let mut list = match place {
                4 => list_of_length(random, 228),
                _ => short_list(random),
            };
            let last = list.len() - 1;
            let index = [0, 1, last / 2, last, last][place];
            spoil_record(random, &mut list, index.max(least_index(fault)), fault);
            cases.push(case_with(random, &list));
        }
    }
    for address in unknown_addresses() {
        let mut list = short_list(random);
        let index = random.index(list.len());
        list[index].write.address = address;
        cases.push(case_with(random, &list));
    }
}

/// Every two faults that can be told apart: the first one of the whole call; in an earlier and a
/// later record; and in one record.
fn two_faults(random: &Random, cases: &mut Vec<LineCase>) {
    for first in [0, 1, 2, 3, 4].repeat(6) {
        let later = LINE_FAULTS.into_iter().skip(first + 1);
        add_changed(random, cases, later, |case, second| {
            spoil(random, case, second);
            spoil(random, case, LINE_FAULTS[first]);
        });
    }
    for first in [5, 6, 7].repeat(6) {
        for second in [5, 6, 7] {
            let mut list = short_list(random);
            spoil_two_records(random, &mut list, first, second);
            cases.push(case_with(random, &list));
        }
        let mut list = short_list(random);
        let index = 1 + random.index(list.len() - 1);
        spoil_record(random, &mut list, index, 7);
        spoil_record(random, &mut list, index, first);
        cases.push(case_with(random, &list));
    }
}
