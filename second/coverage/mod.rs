//! Coverage: one table of what the cases must make happen, in the order of the paper, and one loop
//! that runs every case and counts.

mod colours;
mod drawings;
mod lines;
mod reflection;
mod refusals;
mod runs;
mod seen;
mod steps;
mod table;
mod tapes;

use crate::cases::case::{Case, Walk};
use seen::{Kind, Seen};
use table::Table;

/// The whole table.
fn table() -> Table {
    let mut table = Table::default();
    let all: [fn(&mut Table); 8] = [
        refusals::add,
        steps::add,
        lines::add,
        colours::add,
        drawings::add,
        reflection::add,
        runs::add,
        tapes::add,
    ];
    for add in all {
        add(&mut table);
    }
    table
}

/// The table's rows, a line `TIMES NAME` each.
pub fn text() -> String {
    table().text(|name, times| format!("{} {}\n", times, name))
}

/// A line for each row of the table that these cases, given with the numbers of their records, do
/// not make happen often enough, with how often it must still happen; empty if there is none.
pub fn missing(cases: &[Case]) -> String {
    missing_of(table(), cases)
}

/// The same for any table. A line, run or tape is played only if rows are left to ask of it.
fn missing_of(mut table: Table, cases: &[Case]) -> String {
    for (number, case) in cases.iter().enumerate() {
        match case {
            Case::Clock(single) => table.see(&Seen::clock(&single.state, single.write)),
            Case::Walk(walk) => see_walk(&mut table, walk),
            Case::Line(line) if table.asks(Kind::Line) => table.see(&Seen::line(number, line)),
            Case::Run(run) if table.asks(Kind::Run) => table.see(&Seen::run(number, run)),
            Case::Tape(tape) if table.asks(Kind::Tape) => table.see(&Seen::tape(number, tape)),
            Case::Line(_) | Case::Run(_) | Case::Tape(_) => {}
        }
    }
    table.text(|name, times| format!("missing: {} ({} more)\n", name, times))
}

/// Counts the clocks of a walk.
fn see_walk(table: &mut Table, walk: &Walk) {
    let mut state = walk.state;
    let mut after_hmove = false;
    for write in walk.writes_by_clock() {
        let mut seen = Seen::clock(&state, write);
        seen.clock.in_walk = true;
        seen.clock.after_hmove = after_hmove;
        table.see(&seen);
        state = seen.after;
        after_hmove |= seen.hmove();
    }
}

#[cfg(test)]
mod tests {
    use super::*;
    use crate::cases::bench::PRINTED_TAPE;
    use crate::cases::build_lists::records_of;
    use crate::cases::build_tapes::tape_of;
    use crate::cases::case::{Call, LineCase, RunCase, Single, TapeCase, WaitedWrite, WALK_WRITES};
    use crate::cases::spoil::ReadingFault;
    use crate::model::clock::RegisterWrite;
    use crate::model::registers::Register;
    use crate::model::state::State;
    use crate::model::write_list::ListedWrite;
    use std::collections::HashSet;

    /// The call with these records on the start state.
    fn line(writes: &[(u8, u8, u8)]) -> Seen {
        let call = Call::with(&records_of(writes));
        let state = State::START;
        Seen::line(0, &LineCase { state, call })
    }

    /// The call from the start state at a place of a tape.
    fn tape(tape: &[u8], place: u64) -> Seen {
        Seen::tape(0, &TapeCase::new(State::START, tape.to_vec(), place))
    }

    /// A write of a walk.
    fn waited(wait: u8, address: u8) -> WaitedWrite {
        let write = RegisterWrite { address, value: 0 };
        WaitedWrite { wait, write }
    }

    /// The numbers of a line call's faults.
    fn faults_of(seen: &Seen) -> Vec<u8> {
        seen.line.faults.iter().map(|fault| fault.number).collect()
    }

    #[test]
    fn counts_are_exact_and_kinds_told_apart() {
        // The walk has HMOVE at clock 0, and register 0 at clocks 11, 22 and so on, 63 times.
        let (state, write) = (State::START, None);
        let mut writes = [waited(10, 0x00); WALK_WRITES];
        writes[0] = waited(0, 0x2A);
        let cases = [
            Case::Clock(Single { state, write }),
            Case::Walk(Walk { state, writes }),
        ];
        let asked: [(usize, u32, fn(&Seen) -> bool); 5] = [
            (0, 1, |seen| !seen.clock.in_walk),
            (0, 937, |seen| seen.clock.in_walk),
            (0, 936, |seen| seen.clock.after_hmove),
            (1, 63, |seen| seen.refused_with(7)),
            (2, 0, |_| true),
        ];
        for (kind, times, counts) in asked {
            let missing = |times| {
                let mut table = Table::default();
                table.by_kind()[kind].row(times, "thing").when(counts);
                missing_of(table, &cases)
            };
            assert!(missing(times + 1).ends_with("thing (1 more)\n"));
            assert!(times == 0 || missing(times).is_empty());
        }
    }

    #[test]
    fn without_cases_every_row_is_missing_and_no_two_have_the_same_name() {
        let text = text();
        let names = text.lines().map(|row| row.split_once(' ').unwrap().1);
        let names: HashSet<&str> = names.collect();
        assert_eq!(names.len(), text.lines().count());
        assert_eq!(names.len(), missing(&[]).lines().count());
    }

    #[test]
    fn a_line_call_is_known_by_its_faults_its_refusal_and_its_writes() {
        let refused = line(&[(9, 0x2A, 0), (9, 0x00, 0), (228, 0x2A, 0)]);
        assert!(!refused.accepted() && refused.refused_with(6));
        assert_eq!(faults_of(&refused), [6, 7, 5]);
        assert_eq!(refused.bad_record(), ListedWrite::new(9, 0, 0));
        assert!(!refused.wrote(Register::Hmove));
        let accepted = line(&[(9, 0x2A, 0), (100, 0x0E, 255)]);
        assert!(accepted.accepted() && accepted.wrote(Register::Hmove));
        let columns = (accepted.first_column(5), accepted.first_column(0));
        assert_eq!(columns, (Some(32), None));
    }

    #[test]
    fn what_a_register_holds_goes_from_record_to_record_of_an_accepted_line() {
        let writes = [(9, 0x05, 7), (70, 0x04, 0x35), (71, 0x1B, 7), (80, 0x04, 3)];
        let held = |seen: &Seen, n| seen.values_held(Register::Nusiz(n), 9, |value| value & 7);
        assert_eq!(held(&line(&writes), 0), [(9, 5, 70), (5, 3, 80)]);
        assert_eq!(held(&line(&writes), 1), [(9, 7, 9)]);
        assert_eq!(held(&line(&[(9, 0x05, 7), (9, 0x05, 6)]), 1), []);
    }

    #[test]
    fn lit_around_a_clock_is_lit_in_its_column_and_the_one_before() {
        let seen = line(&[(0, 0x0D, 0x10), (200, 0x0D, 0)]);
        let clocks: Vec<u8> = (0..228)
            .filter(|&clock| seen.lit_around(5, clock))
            .collect();
        assert_eq!(clocks, [69, 70, 71, 149, 150, 151]);
        assert!((0..228).all(|clock| !seen.lit_around(4, clock)));
    }

    #[test]
    fn a_run_is_known_by_its_calls_and_the_states_given_to_them() {
        let lines = [&[(227, 0x2A, 0)][..], &[(0, 0x10, 0), (0, 0x10, 0)]].map(records_of);
        let seen = Seen::run(0, &RunCase::of_lines(State::START, &lines));
        let calls = seen.line.calls.iter();
        let calls: Vec<(u8, u8)> = calls.map(|call| (call.number, call.given.slot)).collect();
        assert_eq!(calls[..4], [(0, 16), (6, 0), (0, 0), (0, 16)]);
        assert!(seen.findings.iter().all(Option::is_none));
    }

    #[test]
    fn a_refused_reading_is_known_by_its_fault() {
        let cut = [1, 0, 6, 9, 0, 0];
        for (bytes, place, fault) in [
            (&[][..], 1, ReadingFault::Empty),
            (&[2, 0], 1, ReadingFault::Version),
            (&cut, 0, ReadingFault::PlaceZero),
            (&cut, 7, ReadingFault::PastEnd),
            (&cut, u64::MAX, ReadingFault::PastEnd),
            (&cut, 5, ReadingFault::LoneByte),
            (&cut, 2, ReadingFault::Length),
            (&cut, 1, ReadingFault::Cut),
        ] {
            let seen = tape(bytes, place);
            for other in ReadingFault::ALL {
                assert_eq!(seen.unread(other), other == fault);
            }
            assert!(!seen.ended() && !seen.accepted());
        }
        let other_version = tape(&[3, 0, 4, 9], 1);
        assert_eq!(
            other_version.fault_but_version(),
            Some(ReadingFault::Length)
        );
        let cut = tape(&[1, 0, 9, 255, 0, 0, 7], 1);
        assert_eq!((cut.tape.length, cut.tape.missing), (9, 5));
        assert_eq!(faults_of(&cut), [4, 5, 7]);
    }

    #[test]
    fn lines_ends_and_inner_places_are_told_apart() {
        for place in 1..=21 {
            let seen = tape(&PRINTED_TAPE, place);
            let line = [1, 9, 11, 19].contains(&place);
            assert_eq!(seen.begins_line(place), line);
            assert_eq!(seen.is_inner(), !line && place != 21);
            assert_eq!(seen.ended(), place == 21);
        }
        assert!(!tape(&[1, 0], 1).is_inner());
        assert!(!tape(&tape_of(&[vec![], vec![1]]), 3).is_inner());
    }
}
