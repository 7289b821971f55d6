//! Random writes and write lists, for line calls and for the lines of tapes.

use crate::cases::build_lists::{address_of, list_of};
use crate::cases::random::Random;
use crate::model::clock::RegisterWrite;
use crate::model::registers::{register_at, Register, KNOWN};
use crate::model::write_list::{ListedWrite, CLOCKS};

/// The addresses of the first writes from the start state: graphics, enables, playfield, colours.
pub const OPENING: [u8; 12] = [
    0x1B, 0x1C, 0x1D, 0x1E, 0x1F, 0x0D, 0x0E, 0x0F, 0x06, 0x07, 0x08, 0x09,
];

/// The addresses of the unknown registers, rising.
pub fn unknown_addresses() -> Vec<u8> {
    let unknown = |address: &u8| register_at(*address).is_none();
    (0..=255).filter(unknown).collect()
}

/// The address of any known register.
pub fn known_address(random: &Random) -> u8 {
    random.pick(&KNOWN).0
}

/// A write of any value to an address.
pub fn write_to(random: &Random, address: u8) -> RegisterWrite {
    let value = random.byte();
    RegisterWrite { address, value }
}

/// A write to an address whose value mostly shows something: an enable mostly set, a graphic
/// with many bits, copies that mostly are 0, 5 or 7, of sizes 1, 2 and 4.
pub fn showing_write(random: &Random, address: u8) -> RegisterWrite {
    let mut write = write_to(random, address);
    match register_at(address) {
        Some(Register::Enam(_) | Register::Enabl) if !random.one_in(4) => write.value |= 2,
        Some(Register::Grp(_)) => write.value |= random.byte(),
        Some(Register::Nusiz(_)) if !random.one_in(4) => {
            write.value = write.value & 0b1111_1000 | random.pick(&[0, 5, 7]);
        }
        _ => {}
    }
    write
}

/// A write at a clock to an address, of a value that mostly shows something.
pub fn write_at(random: &Random, clock: u8, address: u8) -> ListedWrite {
    let write = showing_write(random, address);
    ListedWrite { clock, write }
}

/// A write at a clock to any known register.
pub fn known_write_at(random: &Random, clock: u8) -> ListedWrite {
    write_at(random, clock, known_address(random))
}

/// An HMOVE at a clock.
pub fn hmove_at(random: &Random, clock: u8) -> ListedWrite {
    write_at(random, clock, address_of(Register::Hmove))
}

/// Puts a write into a list at its clock, in place of the one at that clock if there is one.
pub fn put(list: &mut Vec<ListedWrite>, write: ListedWrite) {
    list.retain(|record| record.clock != write.clock);
    list.push(write);
    list.sort_by_key(|record| record.clock);
}

/// So many of the clocks from the first to 227, rising, each choice as likely as any other.
pub fn rising_clocks(random: &Random, first: u8, number: u8) -> Vec<u8> {
    let mut clocks: Vec<u8> = (first..CLOCKS as u8).collect();
    while clocks.len() > usize::from(number) {
        clocks.remove(random.index(clocks.len()));
    }
    clocks
}

/// So many writes to known registers, each register as likely as any other.
pub fn list_of_length(random: &Random, number: u8) -> Vec<ListedWrite> {
    let clocks = rising_clocks(random, 0, number).into_iter();
    clocks.map(|clock| known_write_at(random, clock)).collect()
}

/// A list of 3 to 10 writes.
pub fn short_list(random: &Random) -> Vec<ListedWrite> {
    list_of_length(random, random.between(3, 10))
}

/// A list without faults, of few writes, some or many; half of them have an HMOVE put at any
/// clock.
pub fn free_list(random: &Random) -> Vec<ListedWrite> {
    let number = match random.up_to(15) {
        0..=4 => random.up_to(4),
        5..=11 => random.between(5, 24),
        12..=14 => random.between(25, 60),
        _ => random.pick(&[228, random.between(90, 227)]),
    };
    let mut list = list_of_length(random, number);
    if random.flag() {
        put(&mut list, hmove_at(random, random.up_to(227)));
    }
    list
}

/// The list of a tape's line: empty, one time in four; otherwise of 1 to 6 writes.
pub fn little_list(random: &Random) -> Vec<u8> {
    let number = if random.one_in(4) {
        0
    } else {
        random.between(1, 6)
    };
    list_of(&list_of_length(random, number))
}

/// At most so many little lists.
pub fn little_lists(random: &Random, most: u8) -> Vec<Vec<u8>> {
    let lists = 0..random.up_to(most);
    lists.map(|_| little_list(random)).collect()
}

/// A list with writes to graphics, enables, playfield and colours early in the line, and a strobe of
/// each object.
pub fn opening_list(random: &Random) -> Vec<ListedWrite> {
    let first = OPENING.len() as u8;
    let clocks = (0..first).chain(rising_clocks(random, first, 5));
    clocks
        .zip(OPENING.into_iter().chain(0x10..=0x14))
        .map(|(clock, address)| write_at(random, clock, address))
        .collect()
}

/// The lists of 1 to 13 lines that are played from the start state: the first mostly makes objects
/// show; then some are empty, some are little, some have many writes.
pub fn showing_lists(random: &Random) -> Vec<Vec<u8>> {
    let first = match random.one_in(6) {
        true => Vec::new(),
        false => list_of(&opening_list(random)),
    };
    let later = (0..random.up_to(12)).map(|_| match random.up_to(5) {
        0 => Vec::new(),
        1 | 2 => little_list(random),
        _ => list_of(&free_list(random)),
    });
    [first].into_iter().chain(later).collect()
}
