//! A second opinion on the transaction coordinator of document 01, written
//! from that paper alone.
//!
//! * [`table`]: what the table holds, and when it is sound;
//! * [`step`]: the events and their refusals;
//! * [`log`]: the log's bytes, and restart;
//! * [`trace`]: the trace program.

pub mod log;
pub mod step;
pub mod table;
pub mod trace;

/// Refusal numbers of the paper; 0 ("done") is `Ok`.
#[derive(Clone, Copy, Debug, PartialEq, Eq)]
#[repr(u8)]
pub enum Refusal {
    Zero = 1,
    TransactionNotLive = 2,
    NumberNotHeld = 3,
    AlreadyLive = 4,
    AlreadyEnlisted = 5,
    TransactionState = 6,
    EnlistmentState = 7,
    NoRoom = 8,
    NoSuchDurable = 9,
    NotAllFailed = 10,
    DamagedLog = 11,
    LogLength = 12,
    LogTooShort = 13,
    NotSound = 15,
    Unreadable = 16,
}

impl Refusal {
    pub fn number(self) -> u32 {
        self as u32
    }
}

#[cfg(test)]
mod tests;
