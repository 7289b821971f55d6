//! The rows for tape calls: every outcome of reading, and reading's refusals before the line's.

use crate::cases::spoil::ReadingFault::{
    self, Cut, Empty, Length, LoneByte, PastEnd, PlaceZero, Version,
};
use crate::coverage::seen::Seen;
use crate::coverage::table::{named, Rows, Table, FEW};
use crate::model::replay::replay;
use crate::model::write_list::MOST_BYTES;

/// Adds all of them.
pub fn add(table: &mut Table) {
    let [.., mut rows] = table.by_kind();
    versions(&mut rows);
    places(&mut rows);
    lone_length_bytes(&mut rows);
    bad_lengths(&mut rows);
    cut_lines(&mut rows);
    ends(&mut rows);
    played_lines(&mut rows);
    inner_places(&mut rows);
    reading_orders(&mut rows);
}

/// Refusal 8 by an empty tape and by each version that is not 1.
fn versions(rows: &mut Rows) {
    rows.row(10, "refused with 8, empty")
        .when(|seen| seen.unread(Empty));
    for (times, versions) in [(FEW, vec![0, 2, 255]), (1, (3..255).collect())] {
        rows.each(times, "refused with 8 for version {}", named(versions))
            .when(|seen, version| seen.unread(Version) && seen.tape.bytes[0] == version);
    }
    rows.row(FEW, "refused with 8, version byte alone")
        .when(|seen| seen.unread(Version) && seen.tape.bytes.len() == 1);
}

/// Refusal 9 by the place: 0, next to the end, near 2^63 and the largest number, and with a line's
/// place in its lower bits.
fn places(rows: &mut Rows) {
    rows.row(10, "refused with 9 for place 0")
        .when(|seen| seen.unread(PlaceZero));
    let name = "refused with 9 for a place {} past the end";
    rows.each(FEW, name, named([1, 2, 3])).when(|seen, past| {
        seen.unread(PastEnd) && seen.tape.place == seen.tape.bytes.len() as u64 + past
    });
    let half = 1 << 63;
    let places = named([half - 1, half, half + 1, u64::MAX - 1, u64::MAX]);
    rows.each(FEW, "refused with 9 for place {}", places)
        .when(|seen, place| seen.unread(PastEnd) && seen.tape.place == place);
    let name = "refused with 9, a line's place in the lower {} bits";
    rows.each(FEW, name, named([8, 16, 31, 32, 63]))
        .when(|seen, bits| seen.unread(PastEnd) && seen.begins_line(seen.tape.place % (1 << bits)));
}

/// Refusal 9 by a lone length byte.
fn lone_length_bytes(rows: &mut Rows) {
    let after = [("the version", true), ("lines", false)];
    rows.each(FEW, "refused with 9 for a lone length byte after {}", after)
        .when(|seen, first| seen.unread(LoneByte) && seen.is_first() == first);
    let name = "refused with 9 for the lone length byte {}";
    rows.each(FEW, name, named([0, 3, 255]))
        .when(|seen, byte| seen.unread(LoneByte) && seen.tape.bytes.last() == Some(&byte));
}

/// Refusal 4 by its two reasons, with all of the line's bytes there and with some missing.
fn bad_lengths(rows: &mut Rows) {
    let lengths = named([1536, 32_767, 32_768, 65_533, 65_534, 65_535]);
    rows.each(FEW, "refused with 4, length {}", lengths)
        .when(|seen, length| seen.unread(Length) && seen.tape.length == length);
    for (how, cut) in [("whole", false), ("cut", true)] {
        let refused = move |seen: &Seen| seen.unread(Length) && (seen.tape.missing > 0) == cut;
        let mut rows = rows.under(&format!("refused with 4, {how}, "));
        rows.each(FEW, "{} bytes over records", named([1, 2]))
            .when(move |seen, rest| {
                let length = seen.tape.length;
                refused(seen) && length < MOST_BYTES && length % 3 == rest
            });
        let lengths = named([1, 2, 4, 683, 685, 686, 687, 690, 768]);
        rows.each(FEW, "length {}", lengths)
            .when(move |seen, length| refused(seen) && seen.tape.length == length);
    }
}

/// Refusal 9 by a cut line.
fn cut_lines(rows: &mut Rows) {
    rows.each(FEW, "refused with 9, cut by {}", named([1, 2, 3]))
        .when(|seen, by| seen.unread(Cut) && seen.tape.missing == by);
    rows.row(FEW, "refused with 9, cut by all bytes")
        .when(|seen| seen.unread(Cut) && seen.tape.missing == seen.tape.length);
    rows.row(FEW, "refused with 9, 684 cut by 1")
        .when(|seen| seen.unread(Cut) && seen.tape.length == MOST_BYTES && seen.tape.missing == 1);
}

/// The tape's end, also with faults of the line call, which are not refused there.
fn ends(rows: &mut Rows) {
    let after = [(", version byte alone", true), (" after lines", false)];
    rows.each(FEW, "ended{}", after)
        .when(|seen, first| seen.ended() && seen.is_first() == first);
    rows.each(FEW, "ended, {} present", named([1, 2, 3, 11]))
        .when(|seen, number| seen.ended() && seen.has(|fault| fault.number == number));
    rows.row(10, "ended, no fault")
        .when(|seen| seen.ended() && seen.line.faults.is_empty());
}

/// Played lines by their number of writes and where they stand.
fn played_lines(rows: &mut Rows) {
    rows.row(700, "played").when(Seen::accepted);
    rows.each(10, "played with {} writes", named([0, 1, 2, 228]))
        .when(|seen, number| seen.accepted() && seen.line.list.len() == 3 * number);
    rows.row(10, "played, the tape as a whole refused")
        .when(|seen| seen.accepted() && replay(&seen.tape.bytes).end.is_err());
    for (is_first, first) in [("", true), ("not ", false)] {
        let name = format!("played, {is_first}the first line, {{}}the last");
        rows.each(50, &name, [("", true), ("not ", false)])
            .when(move |seen, last| {
                let at_end = seen.tape.next_place == seen.tape.bytes.len() as u64;
                seen.accepted() && seen.is_first() == first && at_end == last
            });
    }
}

/// Places that are no borders of lines: played, refused as a line, and refused by reading.
fn inner_places(rows: &mut Rows) {
    let mut rows = rows.under("inner place, ");
    let writes = [("no writes", true), ("writes", false)];
    rows.each(FEW, "played with {}", writes)
        .when(|seen, none| seen.accepted() && seen.line.list.is_empty() == none && seen.is_inner());
    for fault in [Length, Cut, LoneByte] {
        rows.row(FEW, &format!("{fault:?}"))
            .when(move |seen| seen.unread(fault) && seen.is_inner());
    }
    rows.each(FEW, "line refused with {}", named([5, 7]))
        .when(|seen, number| seen.refused_with(number) && seen.is_inner());
}

/// Reading's refusals before the line's: each with each fault of state, h and buffers, and of the
/// records where the line's bytes are there; the version before every other fault of reading.
fn reading_orders(rows: &mut Rows) {
    for fault in ReadingFault::ALL {
        let present = match fault {
            Version | Length | Cut => vec![1, 2, 3, 11, 5, 6, 7],
            Empty | PlaceZero | PastEnd | LoneByte => vec![1, 2, 3, 11],
        };
        let name = format!("{fault:?} refused, {{}} present");
        rows.each(FEW, &name, named(present))
            .when(move |seen, number| {
                seen.unread(fault) && seen.has(|fault| fault.number == number)
            });
    }
    for behind in [PlaceZero, PastEnd, LoneByte, Length, Cut] {
        rows.row(FEW, &format!("Version refused, {behind:?} present"))
            .when(move |seen| seen.unread(Version) && seen.fault_but_version() == Some(behind));
    }
}
