//! The log: its bytes, appending, and restart.

use crate::table::{
    Enlistment, EnlistmentState, Id, Kind, Table, Transaction, TransactionState, ENLISTMENTS,
    LARGEST_LOG, PER_TRANSACTION, TRANSACTIONS,
};
use crate::Refusal;

pub const HEADER: [u8; 8] = *b"RTL\x01\x00\x00\x00\x00";
pub const FORGET_LENGTH: usize = 18;
const COMMIT: u8 = 1;
const FORGET: u8 = 2;
const HEAD_LENGTH: usize = 18;
const ENTRY_LENGTH: usize = 20;

pub const fn commit_length(entries: usize) -> usize {
    HEAD_LENGTH + ENTRY_LENGTH * entries
}

/// Appends the commit record of the transaction in place `owner`, whose
/// enlistments by ascending number are `members`. The room has been tested.
pub fn append_commit(table: &mut Table, log: &mut [u8], owner: usize, members: &[usize]) {
    let start = table.used;
    let mut at = start + HEAD_LENGTH;
    let mut entries = 0;
    for &place in members {
        let enlistment = &table.enlistments[place];
        if enlistment.kind == Kind::Durable {
            log[at..at + 16].copy_from_slice(&enlistment.rm.to_bytes());
            log[at + 16..at + ENTRY_LENGTH].copy_from_slice(&enlistment.number.to_le_bytes());
            at += ENTRY_LENGTH;
            entries += 1;
        }
    }
    write_head(
        &mut log[start..],
        COMMIT,
        entries,
        table.transactions[owner].id,
    );
    table.used = at;
}

/// Appends the forget record of the open transaction in place `owner`; a
/// sound table has room for it.
pub fn append_forget(table: &mut Table, log: &mut [u8], owner: usize) {
    write_head(
        &mut log[table.used..],
        FORGET,
        0,
        table.transactions[owner].id,
    );
    table.used += FORGET_LENGTH;
}

fn write_head(log: &mut [u8], first: u8, second: u8, id: Id) {
    log[0] = first;
    log[1] = second;
    log[2..HEAD_LENGTH].copy_from_slice(&id.to_bytes());
}

/// An entry of a commit record.
#[derive(Clone, Copy, Default)]
struct Entry {
    rm: Id,
    number: u32,
}

/// A commit record that no forget record has closed yet.
#[derive(Clone, Copy, Default)]
struct Open {
    id: Id,
    entries: [Entry; PER_TRANSACTION],
    count: usize,
}

impl Open {
    fn entries(&self) -> &[Entry] {
        &self.entries[..self.count]
    }
}

/// The open commit records while reading, by order of their records.
struct Reading {
    open: [Open; TRANSACTIONS],
    count: usize,
}

impl Reading {
    fn open(&self) -> &[Open] {
        &self.open[..self.count]
    }

    fn position(&self, id: Id) -> Option<usize> {
        self.open().iter().position(|open| open.id == id)
    }

    /// Judges a whole commit record; `None` is a damaged one.
    fn commit(&mut self, record: &[u8]) -> Option<()> {
        let mut new = Open {
            id: id_at(record, 2),
            ..Open::default()
        };
        if new.id.is_zero() || self.position(new.id).is_some() {
            return None;
        }
        let mut last = 0;
        for bytes in record[HEAD_LENGTH..].chunks_exact(ENTRY_LENGTH) {
            let rm = id_at(bytes, 0);
            let number = u32::from_le_bytes([bytes[16], bytes[17], bytes[18], bytes[19]]);
            // Ascending from zero: a zero number is shut out as well.
            if rm.is_zero() || number <= last || new.entries().iter().any(|e| e.rm == rm) {
                return None;
            }
            last = number;
            if self.entries().any(|other| other.number == number) {
                return None;
            }
            new.entries[new.count] = Entry { rm, number };
            new.count += 1;
        }
        if self.count == TRANSACTIONS || self.entries().count() + new.count > ENLISTMENTS {
            return None;
        }
        self.open[self.count] = new;
        self.count += 1;
        Some(())
    }

    /// Judges a whole forget record; `None` is a damaged one.
    fn forget(&mut self, record: &[u8]) -> Option<()> {
        let id = id_at(record, 2);
        if id.is_zero() {
            return None;
        }
        let position = self.position(id)?;
        self.open.copy_within(position + 1..self.count, position);
        self.count -= 1;
        Some(())
    }

    fn entries(&self) -> impl Iterator<Item = &Entry> {
        self.open().iter().flat_map(Open::entries)
    }
}

fn id_at(bytes: &[u8], at: usize) -> Id {
    let mut id = [0; 16];
    id.copy_from_slice(&bytes[at..at + 16]);
    Id::from_bytes(id)
}

/// Restart: the lent log's length is the capacity, its first `stored` bytes
/// are stored. The log is written only where fewer bytes than a header are
/// stored. A refusal stands for the all-zero table.
pub fn restart(log: &mut [u8], stored: usize) -> Result<Table, Refusal> {
    let capacity = log.len();
    if !(HEADER.len()..=LARGEST_LOG).contains(&capacity) || stored > capacity {
        return Err(Refusal::DamagedLog);
    }
    if stored < HEADER.len() {
        if log[..stored] != HEADER[..stored] {
            return Err(Refusal::DamagedLog);
        }
        log[..HEADER.len()].copy_from_slice(&HEADER);
        return Ok(Table::fresh(capacity, HEADER.len()));
    }
    if log[..HEADER.len()] != HEADER {
        return Err(Refusal::DamagedLog);
    }

    let mut reading = Reading {
        open: [Open::default(); TRANSACTIONS],
        count: 0,
    };
    let mut used = HEADER.len();
    // The stored bytes from `used` on; a torn record stops the reading.
    loop {
        let rest = &log[used..stored];
        let judged = match *rest {
            [] | [COMMIT | FORGET] => break,
            [COMMIT, n, ..] if (1..=PER_TRANSACTION).contains(&usize::from(n)) => {
                let length = commit_length(usize::from(n));
                rest.get(..length)
                    .map(|record| (length, reading.commit(record)))
            }
            [FORGET, 0, ..] => rest
                .get(..FORGET_LENGTH)
                .map(|record| (FORGET_LENGTH, reading.forget(record))),
            _ => return Err(Refusal::DamagedLog),
        };
        match judged {
            None => break,
            Some((length, Some(()))) => used += length,
            Some((_, None)) => return Err(Refusal::DamagedLog),
        }
    }
    if used + FORGET_LENGTH * reading.count > capacity {
        return Err(Refusal::LogTooShort);
    }

    let mut table = Table::fresh(capacity, used);
    let mut places = table.enlistments.iter_mut();
    for (transaction, open) in table.transactions.iter_mut().zip(reading.open()) {
        *transaction = Transaction {
            id: open.id,
            state: TransactionState::Committing,
        };
        for (entry, place) in open.entries().iter().zip(&mut places) {
            *place = Enlistment {
                transaction: open.id,
                rm: entry.rm,
                number: entry.number,
                kind: Kind::Durable,
                single: false,
                state: EnlistmentState::FailedToNotify,
            };
        }
    }
    debug_assert!(table.is_sound(), "restart gave an unsound table");
    Ok(table)
}
