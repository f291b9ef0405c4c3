//! Why a view or a text is refused.

use std::error::Error;
use std::fmt;

/// What is wrong with a text in notation, and where: line and column from 1, the column in bytes.
#[derive(Clone, Debug, PartialEq, Eq)]
pub struct Fault {
    pub line: usize,
    pub column: usize,
    pub message: String,
}

/// Why there is no answer.
#[derive(Clone, Debug, PartialEq, Eq)]
pub enum Refusal {
    /// The text in notation says no view.
    Notation(Fault),
    /// The bytes of a row say no view.
    NoSuch,
    /// The view isn't clear: some text of it can be cut in two ways, or isn't of the form that it is to have.
    Muddy,
    /// The source isn't of the form of the view's sources.
    NoSource,
    /// The look isn't of the form of the view's looks.
    NoLook,
    /// The system has no room for the work on texts this long, or for what they turn into.
    NoMemory,
}

impl fmt::Display for Refusal {
    fn fmt(&self, f: &mut fmt::Formatter) -> fmt::Result {
        f.write_str(match self {
            Refusal::Notation(fault) => return write!(f, "{}:{}: {}", fault.line, fault.column, fault.message),
            Refusal::NoSuch => "no view",
            Refusal::Muddy => "this view is unclear, so nothing is shown or put back by it",
            Refusal::NoSource => "not a source of this view",
            Refusal::NoLook => "not a look of this view",
            Refusal::NoMemory => "not enough memory for texts this long",
        })
    }
}

impl Error for Refusal {}
