//! Why a command fails, and with which exit code.

use std::fmt;

use moachest::{FlushRefused, Refusal};

pub const NOT_SO: u8 = 1;
pub const USAGE: u8 = 2;
pub const FILES: u8 = 3;
pub const REFUSED: u8 = 4;

#[derive(Debug)]
pub enum Failure {
    /// What was asked for is not there, or is not well formed.
    NotSo(String),
    Usage(String),
    /// A file cannot be read or written, or is no image.
    Files(String),
    Refused(Refusal),
}

impl Failure {
    pub fn usage(why: impl Into<String>) -> Failure {
        Failure::Usage(why.into())
    }

    pub fn code(&self) -> u8 {
        match self {
            Failure::NotSo(_) => NOT_SO,
            Failure::Usage(_) => USAGE,
            Failure::Files(_) => FILES,
            Failure::Refused(_) => REFUSED,
        }
    }
}

impl fmt::Display for Failure {
    fn fmt(&self, f: &mut fmt::Formatter<'_>) -> fmt::Result {
        match self {
            Failure::NotSo(why) | Failure::Files(why) => f.write_str(why),
            Failure::Usage(why) => write!(f, "{why} (moachest --help says how it is used)"),
            Failure::Refused(refusal) => refusal.fmt(f),
        }
    }
}

impl From<Refusal> for Failure {
    fn from(refusal: Refusal) -> Failure {
        Failure::Refused(refusal)
    }
}

impl From<FlushRefused> for Failure {
    fn from(refused: FlushRefused) -> Failure {
        Failure::Refused(refused.refusal)
    }
}
