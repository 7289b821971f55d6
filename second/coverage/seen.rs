//! What the rows of the table are asked of: a clock, a line call, a run or a tape call, with what
//! it was given and what came of it.

use crate::cases::build_tapes::line_places;
use crate::cases::case::{Call, LineCase, Played, RunCase, TapeCase};
use crate::cases::spoil::ReadingFault;
use crate::model::clock::{run, Done, RegisterWrite};
use crate::model::first_lit::{first_lit, shows};
use crate::model::line_faults::{line_faults, Lengths};
use crate::model::object::is_start;
use crate::model::refusal::Refusal;
use crate::model::registers::{register_at, Register};
use crate::model::state::{State, NO_MOTION};
use crate::model::tape::{read, stretch, Reading, FIRST_PLACE, VERSION};
use crate::model::write_list::{records, ListedWrite};
use crate::reports::demand3::{clocks_of, Finding, Line, PlayedRun};

/// What a row is asked of.
#[derive(Clone, Copy, Debug, PartialEq, Eq)]
pub enum Kind {
    Clock,
    RefusedClock,
    Line,
    Run,
    Tape,
}

/// What was seen; a part that its kind does not have is empty. The refusal's number and record are
/// both 0 if there was none. The findings are those of demand 3 for each object in a run.
pub struct Seen {
    pub kind: Kind,
    pub given: State,
    pub after: State,
    pub number: u8,
    pub record: usize,
    pub clock: ClockPart,
    pub line: LinePart,
    pub findings: Vec<Option<Finding>>,
    pub tape: TapePart,
}

/// A clock's write, what it did, and whether it stands in a walk and after an HMOVE of it.
#[derive(Default)]
pub struct ClockPart {
    pub write: Option<RegisterWrite>,
    done: Option<Done>,
    pub in_walk: bool,
    pub after_hmove: bool,
}

/// Line calls: that of a line, that of a tape where reading finds a line, a run's own. For a line
/// and a tape also the lengths of the object buffer and the colour buffer lent, the line's bytes that
/// are there, and all faults with them. The buffers are as the call returns, for a run those of its
/// second line without writes.
#[derive(Default)]
pub struct LinePart {
    pub calls: Vec<SeenCall>,
    pub length: u8,
    pub colour_length: u8,
    pub list: Vec<u8>,
    pub faults: Vec<Refusal>,
    pub buffer: Vec<u8>,
    pub colours: Vec<u8>,
}

/// A line call: the state given to it, its records, its refusal's number, all its faults and the
/// colour buffer as it returns.
pub struct SeenCall {
    pub given: State,
    pub records: Line,
    pub number: u8,
    pub faults: Vec<Refusal>,
    pub colours: Vec<u8>,
}

/// The tape, the place given and the one handed back; the fault for which reading is refused; the
/// length that stands at the place and how many of the line's bytes are missing, both 0 if not two
/// bytes stand there.
#[derive(Default)]
pub struct TapePart {
    pub bytes: Vec<u8>,
    pub place: u64,
    pub next_place: u64,
    fault: Option<ReadingFault>,
    pub length: usize,
    pub missing: usize,
}

impl Seen {
    /// What is seen of a kind that was given a state, accepted and without its own parts.
    fn new(kind: Kind, given: &State) -> Seen {
        Seen {
            kind,
            given: *given,
            after: *given,
            number: 0,
            record: 0,
            clock: ClockPart::default(),
            line: LinePart::default(),
            findings: vec![],
            tape: TapePart::default(),
        }
    }

    /// A clock; whether it stands in a walk is left open.
    pub fn clock(given: &State, write: Option<RegisterWrite>) -> Seen {
        let outcome = run(given, write);
        let mut seen = Seen::new(Kind::Clock, given);
        match outcome {
            Ok(done) => seen.after = done.state,
            Err(refusal) => {
                seen.kind = Kind::RefusedClock;
                seen.number = refusal.number;
            }
        }
        seen.clock.write = write;
        seen.clock.done = outcome.ok();
        seen
    }

    /// The call of the line record with this number.
    pub fn line(number: usize, case: &LineCase) -> Seen {
        let mut seen = Seen::new(Kind::Line, &case.state);
        let played = case.call.play(&case.state, number);
        let answer = played.answer;
        (seen.number, seen.record, seen.after) = (answer.number, answer.record, answer.state);
        seen.set_line(&case.call);
        seen.set_buffers(&played);
        seen.add_call(&case.state, &case.call, answer.number, &played.colours);
        seen
    }

    /// The run with this number.
    pub fn run(number: usize, run: &RunCase) -> Seen {
        let mut seen = Seen::new(Kind::Run, &run.state);
        let played = PlayedRun::new(number, run);
        seen.after = played.second_quiet().answer.state;
        for (call, played) in run.calls.iter().zip(played.own()) {
            let given = seen.after;
            seen.add_call(&given, call, played.answer.number, &played.colours);
            seen.after = played.answer.state;
        }
        seen.set_buffers(played.second_quiet());
        seen.findings = (0..5).map(|object| played.find(object)).collect();
        seen
    }

    /// The call of the tape record with this number.
    pub fn tape(number: usize, case: &TapeCase) -> Seen {
        let mut seen = Seen::new(Kind::Tape, &case.state);
        let played = case.play(number);
        let answer = played.answer;
        (seen.number, seen.record, seen.after) = (answer.number, answer.record, answer.state);
        let (length, there) = line_bytes(&case.tape, case.place);
        let call = Call {
            length: case.length,
            colour_length: case.colour_length,
            list: there.to_vec(),
        };
        seen.set_line(&call);
        seen.set_buffers(&played);
        match read(&case.tape, case.place) {
            Ok(Reading::Line { .. }) => {
                seen.add_call(&case.state, &call, answer.number, &played.colours);
            }
            Err(refusal) if refusal.number == answer.number => {
                seen.tape.fault = reading_fault(&case.tape, case.place);
            }
            _ => {}
        }
        seen.tape = TapePart {
            bytes: case.tape.clone(),
            place: case.place,
            next_place: answer.place,
            length,
            missing: length - there.len(),
            ..seen.tape
        };
        seen
    }

    /// Sets what a line call and a tape call have: the lengths of their two buffers, the line's
    /// bytes, the faults.
    fn set_line(&mut self, call: &Call) {
        self.line.length = call.length;
        self.line.colour_length = call.colour_length;
        self.line.list = call.list.clone();
        self.line.faults = faults_of(&self.given, call);
    }

    /// Sets the object buffer and the colour buffer after a call.
    fn set_buffers<A>(&mut self, played: &Played<A>) {
        self.line.buffer = played.buffer.clone();
        self.line.colours = played.colours.clone();
    }

    /// Adds a line call, with its refusal's number and its colour buffer after it.
    fn add_call(&mut self, given: &State, call: &Call, number: u8, colours: &[u8]) {
        self.line.calls.push(SeenCall {
            given: *given,
            records: records(&call.list),
            number,
            faults: faults_of(given, call),
            colours: colours.to_vec(),
        });
    }

    /// Whether a line call was accepted: that of a line, or that of a tape, which was played.
    pub fn accepted(&self) -> bool {
        let ended = self.kind == Kind::Tape && self.tape.next_place == 0;
        self.number == 0 && !self.line.calls.is_empty() && !ended
    }

    /// Whether a clock or a line call was refused with this number; for a tape that of the line
    /// which reading finds.
    pub fn refused_with(&self, number: u8) -> bool {
        self.number == number && (self.kind != Kind::Tape || !self.line.calls.is_empty())
    }

    /// Whether the line call has a fault of which this holds.
    pub fn has(&self, fault: impl Fn(&Refusal) -> bool) -> bool {
        self.line.faults.iter().any(fault)
    }

    /// The record for which a line call was refused with 5 to 7.
    pub fn bad_record(&self) -> ListedWrite {
        self.line.calls[0].records[self.record]
    }

    /// The accepted lines.
    pub fn accepted_lines(&self) -> impl Iterator<Item = &Line> {
        let accepted = self.line.calls.iter().filter(|call| call.number == 0);
        accepted.map(|call| &call.records)
    }

    /// Whether the register is written by an accepted clock, or in an accepted line.
    pub fn wrote(&self, register: Register) -> bool {
        let by_clock = self.clock.done.as_ref().and_then(|done| done.register);
        let in_line = |line: &Line| !clocks_of(line, register).is_empty();
        by_clock == Some(register) || self.accepted_lines().any(in_line)
    }

    /// What a register holds before and after each record of the accepted lines that writes it, with
    /// the record's clock: this before the first, then what is kept of the values.
    pub fn values_held<T: Copy>(
        &self,
        register: Register,
        first: T,
        kept: fn(u8) -> T,
    ) -> Vec<(T, T, u8)> {
        let mut held = first;
        let mut changes = Vec::new();
        for record in self.accepted_lines().flatten() {
            if register_at(record.write.address) == Some(register) {
                let written = kept(record.write.value);
                changes.push((held, written, record.clock));
                held = written;
            }
        }
        changes
    }

    /// Whether an object is lit in the column of a clock and in the one before it.
    pub fn lit_around(&self, object: usize, clock: u8) -> bool {
        let column = usize::from(clock.max(68)) - 68;
        let lit = |column: usize| shows(self.line.buffer[column], object as u8);
        column > 0 && lit(column - 1) && lit(column)
    }

    /// The first lit column of an object in the buffer; none if it has not 160 bytes.
    pub fn first_column(&self, object: usize) -> Option<usize> {
        first_lit(&self.line.buffer, object as u8).unwrap_or(None)
    }
}

/// Questions to an accepted clock.
impl Seen {
    /// What the clock did.
    pub fn done(&self) -> &Done {
        self.clock.done.as_ref().expect("an accepted clock")
    }

    /// Whether HMOVE was written.
    pub fn hmove(&self) -> bool {
        self.wrote(Register::Hmove)
    }

    /// Step 3.
    pub fn blank(&self) -> bool {
        self.done().blank
    }

    /// Whether motion is under way for some object as the clock begins.
    pub fn under_way(&self) -> bool {
        self.given.slot < NO_MOTION && self.given.objects.iter().any(|object| object.live)
    }

    /// Step 6: the position that a pulse reached, if there was one.
    pub fn reached(&self, object: usize) -> Option<u8> {
        let pulsed = self.done().pulsed[object];
        pulsed.then(|| self.given.objects[object].pulsed().position)
    }

    /// Whether a pulse reached a position that is a start with the copies as they are after step 2.
    pub fn reached_start(&self, object: usize) -> bool {
        let copies = self.done().written.registers.copies_of(object);
        let reached = self.reached(object);
        reached.map_or(false, |position| is_start(position, copies))
    }

    /// Step 7: whether the object's position strobe was written.
    pub fn strobed(&self, object: usize) -> bool {
        self.wrote(Register::Strobe(object))
    }

    /// Steps 8 and 9: whether the column is unblanked and the object so, lit or not.
    pub fn lit(&self, object: usize, lit: bool) -> bool {
        !self.blank() && self.done().lit[object] == lit
    }
}

/// Questions to a tape call.
impl Seen {
    /// Whether reading is refused for this fault and so is playing, with the same number.
    pub fn unread(&self, fault: ReadingFault) -> bool {
        self.tape.fault == Some(fault)
    }

    /// The fault for which reading would be refused if the version byte were right.
    pub fn fault_but_version(&self) -> Option<ReadingFault> {
        let mut tape = self.tape.bytes.clone();
        *tape.first_mut()? = VERSION;
        reading_fault(&tape, self.tape.place)
    }

    /// Whether reading finds the tape's end and the call is not refused.
    pub fn ended(&self) -> bool {
        let reading = read(&self.tape.bytes, self.tape.place);
        reading == Ok(Reading::Ended) && self.number == 0
    }

    /// Whether the place is that of a tape's first line.
    pub fn is_first(&self) -> bool {
        self.tape.place == FIRST_PLACE
    }

    /// Whether a line of the tape begins at a place.
    pub fn begins_line(&self, place: u64) -> bool {
        line_places(&self.tape.bytes).contains(&place)
    }

    /// Whether the place is within the tape and no border of a line.
    pub fn is_inner(&self) -> bool {
        let (tape, place) = (&self.tape.bytes, self.tape.place);
        let after = match line_places(tape).last() {
            Some(&last) => last + 2 + stretch(tape, last).len() as u64,
            None => FIRST_PLACE,
        };
        let border = place == after || self.begins_line(place);
        (1..=tape.len() as u64).contains(&place) && !border
    }
}

/// All faults of a line call.
fn faults_of(given: &State, call: &Call) -> Vec<Refusal> {
    let lengths = Lengths {
        objects: usize::from(call.length),
        colours: usize::from(call.colour_length),
    };
    line_faults(given, &call.list, lengths)
}

/// The length that stands at a place of a tape and the line's bytes that are there; 0 and none if
/// not two bytes stand there.
fn line_bytes(tape: &[u8], place: u64) -> (usize, &[u8]) {
    let place = usize::try_from(place).ok().filter(|&place| place > 0);
    match place.and_then(|place| tape.get(place..)) {
        Some([high, low, writes @ ..]) => {
            let length = usize::from(u16::from_be_bytes([*high, *low]));
            (length, &writes[..length.min(writes.len())])
        }
        _ => (0, &[]),
    }
}

/// The fault for which reading is refused, by its number and the place.
fn reading_fault(tape: &[u8], place: u64) -> Option<ReadingFault> {
    let end = tape.len() as u64;
    let fault = match read(tape, place).err()?.number {
        8 if tape.is_empty() => ReadingFault::Empty,
        8 => ReadingFault::Version,
        4 => ReadingFault::Length,
        _ if place == 0 => ReadingFault::PlaceZero,
        _ if place > end => ReadingFault::PastEnd,
        _ if place + 1 == end => ReadingFault::LoneByte,
        _ => ReadingFault::Cut,
    };
    Some(fault)
}
