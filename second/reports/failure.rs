//! Why a command fails: a write error on its output, or something that is named.

use std::io;

/// The reason; the text names what is missing or false or cannot be written, a line each.
#[derive(Debug, PartialEq, Eq)]
pub enum Failure {
    WriteError,
    Named(String),
}

impl From<io::Error> for Failure {
    /// A write error on the output.
    fn from(_: io::Error) -> Failure {
        Failure::WriteError
    }
}
