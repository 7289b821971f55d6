//! For tests: single clocks that are accepted, lines played one after another from the start
//! state, and what they show; a tape of the most bytes.

use crate::cases::bench::{checks, Check};
use crate::cases::build_lists::list_of;
use crate::cases::build_tapes::tape_of;
use crate::model::clock::{run, Done, RegisterWrite};
use crate::model::first_lit::shows;
use crate::model::line::line;
use crate::model::state::State;

/// The start state at clock h.
pub fn at(h: u8) -> State {
    State { h, ..State::START }
}

/// The write of a value to an address.
pub fn to(address: u8, value: u8) -> Option<RegisterWrite> {
    Some(RegisterWrite { address, value })
}

/// What a clock does that is accepted.
pub fn done(state: &State, write: Option<RegisterWrite>) -> Done {
    run(state, write).unwrap()
}

/// A line that was played: the state after it, its object bytes and its colour bytes.
pub struct Played {
    pub state: State,
    pub bytes: [u8; 160],
    pub colours: [u8; 160],
}

/// Lines with these write lists, all accepted, played one after another from the start state.
pub fn play(lists: &[Vec<u8>]) -> Vec<Played> {
    let mut state = State::START;
    let mut played = Vec::new();
    for list in lists {
        let (mut bytes, mut colours) = ([99; 160], [99; 160]);
        let answer = line(&state, list, &mut bytes, &mut colours);
        assert_eq!((answer.number, answer.record), (0, 0));
        state = answer.state;
        played.push(Played {
            state,
            bytes,
            colours,
        });
    }
    played
}

/// The bench check with this name.
pub fn check(name: &str) -> Check {
    let check = checks().into_iter().find(|check| check.name == name);
    check.unwrap_or_else(|| panic!("no check {name}"))
}

/// The lines of a bench check, played.
pub fn play_check(check: &Check) -> Vec<Played> {
    let lists: Vec<Vec<u8>> = check.lines.iter().map(|line| list_of(line)).collect();
    play(&lists)
}

/// A tape of 65,536 bytes and 618 lines, on which nothing is ever lit: 94 lines of 228 writes, one of
/// one write and 523 of none.
pub fn longest_tape() -> Vec<u8> {
    let full: Vec<u8> = (0..228).flat_map(|clock| [clock, 0x0D, 0]).collect();
    let mut lists = vec![full.clone(); 94];
    lists.push(full[..3].to_vec());
    lists.resize(618, vec![]);
    tape_of(&lists)
}

/// The columns of each line in which an object is lit.
pub fn columns(played: &[Played], object: usize) -> Vec<Vec<usize>> {
    columns_with(played, |byte| shows(byte, object as u8))
}

/// The columns of each line that hold 64.
pub fn blank(played: &[Played]) -> Vec<Vec<usize>> {
    columns_with(played, |byte| byte == 64)
}

/// The columns of each line whose byte is such a one.
fn columns_with(played: &[Played], is: impl Fn(u8) -> bool) -> Vec<Vec<usize>> {
    let of_line = |line: &Played| (0..160).filter(|&x| is(line.bytes[x])).collect();
    played.iter().map(of_line).collect()
}

/// The columns from a first to a last.
pub fn span(first: usize, last: usize) -> Vec<usize> {
    (first..=last).collect()
}
