//! What the checks print: a heading and totals by object; and what they fail with.

use crate::model::object::NAMES;
use crate::reports::failure::Failure;
use std::io::Write;

/// Writes the heading and the totals, each with its name and the number of each object. Fails with the
/// false claims, then the numbers that are 0, a line each.
pub fn write<'a, const N: usize>(
    out: &mut dyn Write,
    heading: &str,
    totals: impl Iterator<Item = (&'a str, [u32; N])>,
    false_claims: &str,
) -> Result<(), Failure> {
    let mut text = format!("{heading}\n");
    let mut faults = false_claims.to_string();
    for (name, numbers) in totals {
        text += name;
        for (of, number) in NAMES.iter().zip(numbers) {
            text += &format!(" {of} {number}");
            if number == 0 {
                faults += &format!("missing: {name} of {of}\n");
            }
        }
        text += "\n";
    }
    out.write_all(text.as_bytes())?;
    if faults.is_empty() {
        Ok(())
    } else {
        Err(Failure::Named(faults))
    }
}

/// A line for each false claim of an object in what is named so.
pub fn claims_text(false_claims: &[&str], object: usize, within: &str) -> String {
    let of = NAMES[object];
    let text = |claim: &&str| format!("false: {claim} of {of} in {within}\n");
    false_claims.iter().map(text).collect()
}

#[cfg(test)]
mod tests {
    use super::*;

    #[test]
    fn totals_are_printed_and_false_claims_and_zeros_named() {
        let cases = [
            ([3, 4], "", ""),
            ([3, 0], "", "missing: runs of P1\n"),
            ([0, 4], "false\n", "false\nmissing: runs of P0\n"),
            ([3, 4], "false\n", "false\n"),
        ];
        for (numbers, false_claims, faults) in cases {
            let mut out = Vec::new();
            let totals = [("lines", [1, 2]), ("runs", numbers)].into_iter();
            let written = write(&mut out, "check", totals, false_claims);
            assert_eq!(
                written.err(),
                Some(Failure::Named(faults.into())).filter(|_| !faults.is_empty())
            );
            let [first, second] = numbers;
            let expected = format!("check\nlines P0 1 P1 2\nruns P0 {first} P1 {second}\n");
            assert_eq!(String::from_utf8(out).unwrap(), expected);
        }
    }

    #[test]
    fn false_claims_are_named_with_their_object_and_where() {
        let expected = "false: position of M1 in run 17\nfalse: picture of M1 in run 17\n";
        let claims = ["position", "picture"];
        assert_eq!(claims_text(&claims, 3, "run 17"), expected);
        assert_eq!(claims_text(&[], 3, "run 17"), "");
    }
}
