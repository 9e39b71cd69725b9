//! The refusals of document 01 by their numbers.

pub const INVALID_NAME: u8 = 1;
pub const INVALID_TIMEOUT: u8 = 2;
pub const INVALID_SET: u8 = 3;
pub const INVALID_VERDICT: u8 = 4;
pub const INVALID_CATALOGUE: u8 = 5;
pub const INVALID_LOG: u8 = 6;
pub const INVALID_NUMBER: u8 = 7;
pub const INVALID_LENGTH: u8 = 8;
pub const UNKNOWN_PRODUCER: u8 = 10;
pub const WRONG_EPOCH: u8 = 11;
pub const NOT_FLUSHED: u8 = 12;
pub const WRONG_STATUS: u8 = 13;
pub const BUSY: u8 = 14;
pub const TOO_MANY_NAMES: u8 = 15;
pub const PIDS_SPENT: u8 = 16;
pub const NO_LOG_ROOM: u8 = 17;
pub const NOT_JOINED: u8 = 18;
pub const SEQUENCE_GAP: u8 = 19;
pub const REPEATED_SEQUENCE: u8 = 20;
pub const STALE_COORDINATOR: u8 = 21;
pub const NO_PARTITION_ROOM: u8 = 22;

/// A refusal; one for the log has the offset of the first bad frame.
#[derive(Clone, Copy, Debug, PartialEq, Eq)]
pub struct Refusal {
    pub number: u8,
    pub offset: usize,
}

impl Refusal {
    pub fn number(number: u8) -> Refusal {
        Refusal { number, offset: 0 }
    }

    pub fn bad_frame(offset: usize) -> Refusal {
        Refusal { number: INVALID_LOG, offset }
    }
}

/// The refusal with this number, if it applies.
#[inline]
pub fn refuse(number: u8, applies: bool) -> Result<(), Refusal> {
    if applies {
        Err(Refusal::number(number))
    } else {
        Ok(())
    }
}
