//! The text of an answer in the reports.

use crate::model::refusal::Refusal;
use std::fmt::Display;

/// An answer as it stands in its field: itself, or a refusal's number and record.
pub fn answer_text<T: Display>(answer: Result<T, Refusal>) -> String {
    match answer {
        Ok(answer) => answer.to_string(),
        Err(refusal) => format!("refused({},{})", refusal.number, refusal.record),
    }
}
