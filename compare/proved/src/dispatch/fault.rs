//! Why a command gives no answer.

/// Warnings, a message and the status that the program ends with.
#[derive(Clone, Debug, PartialEq, Eq)]
pub struct Fault {
    pub warnings: Vec<String>,
    pub status: u8,
    pub message: String,
}

/// A write failed, or two finders differ.
pub const FAILED: u8 = 1;
/// The arguments, the file or a book is not as it has to be.
pub const BAD_INPUT: u8 = 2;
/// The limit of steps was spent, so that there is no list.
pub const SPENT: u8 = 3;

impl Fault {
    /// A write that failed, or finders that differ.
    pub fn failed(message: impl Into<String>) -> Self {
        Fault {
            warnings: Vec::new(),
            status: FAILED,
            message: message.into(),
        }
    }

    /// Something that was handed in is not as it has to be.
    pub fn bad_input(message: impl Into<String>) -> Self {
        Fault {
            warnings: Vec::new(),
            status: BAD_INPUT,
            message: message.into(),
        }
    }
}
