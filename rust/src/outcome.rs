//! What comes of a call or a record.

use crate::numbers::{ANSWERED, EXITED, OVER, UNKNOWN_KIND, WAITS};
use crate::raw::Came;

/// What comes of a call or a record.
#[derive(Clone, Copy, PartialEq, Eq, Debug)]
#[must_use]
pub enum Outcome {
    /// The call is answered: with a number or 0 if all went well, else with one of `E_..`.
    Answered(i32),
    /// The caller waits.
    Waits,
    /// The caller has exited, by `TK_EXT_TSK`.
    Exited,
    /// No call has the kind; nothing is changed.
    UnknownKind,
    /// The script is over. The log says why; at the script's end it is empty.
    Over,
}

impl Outcome {
    /// By the numbers that C has for it.
    pub(crate) fn of(came: Came) -> Outcome {
        match came.outcome {
            ANSWERED => Outcome::Answered(came.code),
            WAITS => Outcome::Waits,
            EXITED => Outcome::Exited,
            UNKNOWN_KIND => Outcome::UnknownKind,
            OVER => Outcome::Over,
            other => unreachable!("the library has no outcome {other}"),
        }
    }

    /// The code of an answer.
    pub fn code(self) -> Option<i32> {
        match self {
            Outcome::Answered(code) => Some(code),
            _ => None,
        }
    }
}
