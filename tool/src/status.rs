//! What the tool leaves with: an unattended bench reads nothing else.
use crate::record::Outcome;
use std::process::ExitCode;

/// The later one wins.
#[derive(Clone, Copy, Debug, PartialEq, Eq, PartialOrd, Ord)]
pub enum Status {
    /// 0: every capture is accepted.
    Accepted,
    /// 1: one is not.
    NotAccepted,
    /// 2: something was refused, or could not be read or written.
    Failed,
}

impl Status {
    pub fn number(self) -> u8 {
        self as u8
    }
}

impl From<Outcome> for Status {
    fn from(outcome: Outcome) -> Status {
        match outcome {
            Outcome::Accepted => Status::Accepted,
            Outcome::Ended | Outcome::Stuck | Outcome::Looping | Outcome::Halted => Status::NotAccepted,
            Outcome::Refused | Outcome::Error => Status::Failed,
        }
    }
}

impl From<Status> for ExitCode {
    fn from(status: Status) -> ExitCode {
        status.number().into()
    }
}
