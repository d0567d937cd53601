//! The events: what each does to table and log, and the signals it gives.

use crate::log;
use crate::table::{
    Enlistment, EnlistmentState, Id, Kind, Table, Transaction, TransactionState, PER_TRANSACTION,
    TRANSACTIONS,
};
use crate::Refusal;

#[derive(Clone, Copy, Debug, PartialEq, Eq)]
pub enum Vote {
    Prepared,
    ReadOnly,
    Aborted,
}

#[derive(Clone, Copy, Debug, PartialEq, Eq)]
pub enum Reply {
    Committed,
    Aborted,
    InDoubt,
}

#[derive(Clone, Copy, Debug, PartialEq, Eq)]
pub enum Event {
    Begin {
        transaction: Id,
    },
    Enlist {
        transaction: Id,
        number: u32,
        rm: Id,
        kind: Kind,
        single: bool,
    },
    Commit {
        transaction: Id,
    },
    Rollback {
        transaction: Id,
    },
    ZeroDone {
        number: u32,
    },
    Vote {
        number: u32,
        vote: Vote,
    },
    Reply {
        number: u32,
        reply: Reply,
    },
    Ack {
        number: u32,
    },
    Lost {
        number: u32,
    },
    Ask {
        transaction: Id,
        rm: Id,
    },
    Reenlisted {
        rm: Id,
    },
}

#[derive(Clone, Copy, Debug, Default, PartialEq, Eq)]
pub enum Signal {
    #[default]
    Zero,
    Prepare,
    Single,
    Commit,
    Abort,
    AppCommitted,
    AppAborted,
    AppInDoubt,
    AnswerCommitted,
    AnswerAborted,
    AnswerNotYet,
}

/// The signals of one step: at most 17, in the order given.
#[derive(Clone, Debug, Default)]
pub struct Signals {
    given: [(Signal, u32); PER_TRANSACTION + 1],
    count: usize,
}

impl Signals {
    pub fn clear(&mut self) {
        self.count = 0;
    }

    fn push(&mut self, signal: Signal, number: u32) {
        self.given[self.count] = (signal, number);
        self.count += 1;
    }
}

impl std::ops::Deref for Signals {
    type Target = [(Signal, u32)];

    fn deref(&self) -> &[(Signal, u32)] {
        &self.given[..self.count]
    }
}

/// One step, with the soundness test before it. A refused step changes
/// nothing and leaves `signals` empty.
pub fn step(
    table: &mut Table,
    log: &mut [u8],
    event: Event,
    signals: &mut Signals,
) -> Result<(), Refusal> {
    if !table.is_sound() {
        signals.clear();
        return Err(Refusal::NotSound);
    }
    step_on_sound(table, log, event, signals)
}

/// One step on a table that the caller knows to be sound.
pub fn step_on_sound(
    table: &mut Table,
    log: &mut [u8],
    event: Event,
    signals: &mut Signals,
) -> Result<(), Refusal> {
    signals.clear();
    if log.len() != table.capacity {
        return Err(Refusal::LogLength);
    }
    #[cfg(debug_assertions)]
    let before = (table.clone(), log.to_vec());
    let result = Step {
        table,
        log,
        signals,
    }
    .take(event);
    #[cfg(debug_assertions)]
    check_step(&before.0, &before.1, table, log, signals, result);
    result
}

/// What the peer asserts of each of its own steps.
#[cfg(debug_assertions)]
fn check_step(
    table_before: &Table,
    log_before: &[u8],
    table: &Table,
    log: &[u8],
    signals: &Signals,
    result: Result<(), Refusal>,
) {
    match result {
        Ok(()) => {
            assert!(table.is_sound(), "a step left the table unsound");
            // Only appended bytes differ.
            assert!(table_before.used <= table.used);
            assert!(log_before[..table_before.used] == log[..table_before.used]);
            assert!(log_before[table.used..] == log[table.used..]);
        }
        Err(_) => {
            assert!(table == table_before && log == log_before && signals.is_empty());
        }
    }
}

struct Step<'a> {
    table: &'a mut Table,
    log: &'a mut [u8],
    signals: &'a mut Signals,
}

impl Step<'_> {
    fn take(&mut self, event: Event) -> Result<(), Refusal> {
        match event {
            Event::Begin { transaction } => self.begin(transaction),
            Event::Enlist {
                transaction,
                number,
                rm,
                kind,
                single,
            } => self.enlist(transaction, number, rm, kind, single),
            Event::Commit { transaction } => self.commit(transaction),
            Event::Rollback { transaction } => self.rollback(transaction),
            Event::ZeroDone { number } => self.zero_done(number),
            Event::Vote { number, vote } => self.vote(number, vote),
            Event::Reply { number, reply } => self.reply(number, reply),
            Event::Ack { number } => self.ack(number),
            Event::Lost { number } => self.lost(number),
            Event::Ask { transaction, rm } => self.ask(transaction, rm),
            Event::Reenlisted { rm } => self.reenlisted(rm),
        }
    }

    // The events.

    fn begin(&mut self, id: Id) -> Result<(), Refusal> {
        if id.is_zero() {
            return Err(Refusal::Zero);
        }
        if self.table.find_transaction(id).is_some() {
            return Err(Refusal::AlreadyLive);
        }
        let place = self
            .table
            .transactions
            .iter()
            .position(|transaction| transaction.state == TransactionState::Empty)
            .ok_or(Refusal::NoRoom)?;
        self.table.transactions[place] = Transaction {
            id,
            state: TransactionState::Active,
        };
        Ok(())
    }

    fn enlist(
        &mut self,
        transaction: Id,
        number: u32,
        rm: Id,
        kind: Kind,
        single: bool,
    ) -> Result<(), Refusal> {
        if number == 0 || rm.is_zero() {
            return Err(Refusal::Zero);
        }
        let owner = self.live(transaction)?;
        let state = match (self.table.transactions[owner].state, kind) {
            (TransactionState::PhaseZero, Kind::PhaseZero) => EnlistmentState::Zero,
            (TransactionState::Active | TransactionState::PhaseZero, _) => EnlistmentState::Active,
            _ => return Err(Refusal::TransactionState),
        };

        let mut free = None;
        let mut held = 0;
        for (place, other) in self.table.enlistments.iter().enumerate() {
            if other.state == EnlistmentState::Empty {
                free = free.or(Some(place));
                continue;
            }
            let same = other.transaction == transaction;
            let second_durable =
                same && kind == Kind::Durable && other.kind == Kind::Durable && other.rm == rm;
            if other.number == number || second_durable {
                return Err(Refusal::AlreadyEnlisted);
            }
            held += usize::from(same);
        }
        let place = free
            .filter(|_| held < PER_TRANSACTION)
            .ok_or(Refusal::NoRoom)?;

        self.table.enlistments[place] = Enlistment {
            transaction,
            rm,
            number,
            kind,
            single: single && kind != Kind::PhaseZero,
            state,
        };
        if state == EnlistmentState::Zero {
            self.signals.push(Signal::Zero, number);
        }
        Ok(())
    }

    fn commit(&mut self, transaction: Id) -> Result<(), Refusal> {
        let owner = self.live(transaction)?;
        if self.table.transactions[owner].state != TransactionState::Active {
            return Err(Refusal::TransactionState);
        }
        for &place in self.table.members(owner).iter() {
            if self.table.enlistments[place].kind == Kind::PhaseZero {
                self.tell(place, EnlistmentState::Zero, Signal::Zero);
            }
        }
        if self.signals.is_empty() {
            self.start_phase_one(owner);
        } else {
            self.table.transactions[owner].state = TransactionState::PhaseZero;
        }
        Ok(())
    }

    fn rollback(&mut self, transaction: Id) -> Result<(), Refusal> {
        let owner = self.live(transaction)?;
        match self.table.transactions[owner].state {
            TransactionState::Active | TransactionState::PhaseZero => self.abort(owner),
            _ => return Err(Refusal::TransactionState),
        }
        Ok(())
    }

    fn zero_done(&mut self, number: u32) -> Result<(), Refusal> {
        let (place, owner) = self.held_in(number, |state| state == EnlistmentState::Zero)?;
        self.table.enlistments[place] = Enlistment::default();
        let id = self.table.transactions[owner].id;
        let any_left = self
            .table
            .enlistments
            .iter()
            .any(|other| other.transaction == id && other.kind == Kind::PhaseZero);
        if !any_left {
            self.start_phase_one(owner);
        }
        Ok(())
    }

    fn vote(&mut self, number: u32, vote: Vote) -> Result<(), Refusal> {
        let (place, owner) = self.held_in(number, |state| state == EnlistmentState::Preparing)?;
        match vote {
            Vote::Prepared => self.table.enlistments[place].state = EnlistmentState::Prepared,
            Vote::ReadOnly => self.table.enlistments[place] = Enlistment::default(),
            Vote::Aborted => {
                self.table.enlistments[place].state = EnlistmentState::Done;
                self.abort(owner);
                return Ok(());
            }
        }
        let id = self.table.transactions[owner].id;
        let any_left = self
            .table
            .enlistments
            .iter()
            .any(|other| other.transaction == id && other.state == EnlistmentState::Preparing);
        if !any_left {
            self.decide(owner);
        }
        Ok(())
    }

    fn reply(&mut self, number: u32, reply: Reply) -> Result<(), Refusal> {
        let (_, owner) = self.held_in(number, |state| state == EnlistmentState::OnePhase)?;
        let signal = match reply {
            Reply::Committed => Signal::AppCommitted,
            Reply::Aborted => Signal::AppAborted,
            Reply::InDoubt => Signal::AppInDoubt,
        };
        self.signals.push(signal, 0);
        self.end(owner);
        Ok(())
    }

    fn ack(&mut self, number: u32) -> Result<(), Refusal> {
        use EnlistmentState::{Done, ToldAbort, ToldCommit};
        let (place, owner) =
            self.held_in(number, |state| matches!(state, ToldCommit | ToldAbort))?;
        self.table.enlistments[place].state = Done;
        self.settle(owner);
        Ok(())
    }

    fn lost(&mut self, number: u32) -> Result<(), Refusal> {
        use EnlistmentState::*;
        let (place, owner) = self.held_in(number, |state| {
            matches!(
                state,
                Active | Zero | Preparing | Prepared | OnePhase | ToldCommit | ToldAbort
            )
        })?;
        let enlistment = &mut self.table.enlistments[place];
        match (enlistment.state, enlistment.kind) {
            (Prepared, Kind::Durable) => enlistment.state = PreparedLost,
            (ToldCommit, Kind::Durable) => enlistment.state = FailedToNotify,
            (ToldCommit | ToldAbort, _) => {
                enlistment.state = Done;
                self.settle(owner);
            }
            (OnePhase, _) => {
                self.signals.push(Signal::AppInDoubt, 0);
                self.end(owner);
            }
            // Active, Zero, Preparing, and a V in Prepared.
            _ => {
                enlistment.state = Done;
                self.abort(owner);
            }
        }
        Ok(())
    }

    fn ask(&mut self, transaction: Id, rm: Id) -> Result<(), Refusal> {
        if transaction.is_zero() || rm.is_zero() {
            return Err(Refusal::Zero);
        }
        let state = match self.table.find_transaction(transaction) {
            Some(owner) => self.table.transactions[owner].state,
            None => TransactionState::Empty,
        };
        if matches!(state, TransactionState::Empty | TransactionState::Aborting) {
            self.signals.push(Signal::AnswerAborted, 0);
            return Ok(());
        }
        let durable = self
            .table
            .enlistments
            .iter_mut()
            .find(|other| {
                other.transaction == transaction
                    && other.kind == Kind::Durable
                    && other.rm == rm
                    && other.state != EnlistmentState::Done
            })
            .ok_or(Refusal::NoSuchDurable)?;
        if state == TransactionState::Committing {
            // From Failed-to-notify; one in Told-commit stays there.
            durable.state = EnlistmentState::ToldCommit;
            self.signals.push(Signal::AnswerCommitted, durable.number);
        } else {
            self.signals.push(Signal::AnswerNotYet, durable.number);
        }
        Ok(())
    }

    fn reenlisted(&mut self, rm: Id) -> Result<(), Refusal> {
        if rm.is_zero() {
            return Err(Refusal::Zero);
        }
        let waits = |other: &Enlistment| {
            other.rm == rm && other.kind == Kind::Durable && other.state != EnlistmentState::Done
        };
        let enlistments = &mut self.table.enlistments;
        if enlistments
            .iter()
            .any(|other| waits(other) && other.state != EnlistmentState::FailedToNotify)
        {
            return Err(Refusal::NotAllFailed);
        }
        // An RM has one D in a transaction at most, so none comes twice.
        let mut touched = [Id::default(); TRANSACTIONS];
        let mut count = 0;
        for other in enlistments.iter_mut().filter(|other| waits(other)) {
            other.state = EnlistmentState::Done;
            touched[count] = other.transaction;
            count += 1;
        }
        touched[..count].sort_unstable();
        for &transaction in &touched[..count] {
            let owner = self.live(transaction)?;
            self.settle(owner);
        }
        Ok(())
    }

    // What the events share.

    /// Place of the live transaction named; refusals 1 and 2.
    fn live(&self, id: Id) -> Result<usize, Refusal> {
        if id.is_zero() {
            return Err(Refusal::Zero);
        }
        self.table
            .find_transaction(id)
            .ok_or(Refusal::TransactionNotLive)
    }

    /// Place of the enlistment named and of its transaction; refusals 1, 3
    /// and 7.
    fn held_in(
        &self,
        number: u32,
        named: impl Fn(EnlistmentState) -> bool,
    ) -> Result<(usize, usize), Refusal> {
        if number == 0 {
            return Err(Refusal::Zero);
        }
        let place = self
            .table
            .find_enlistment(number)
            .ok_or(Refusal::NumberNotHeld)?;
        let enlistment = &self.table.enlistments[place];
        if !named(enlistment.state) {
            return Err(Refusal::EnlistmentState);
        }
        let owner = self
            .table
            .find_transaction(enlistment.transaction)
            .expect("in a sound table each enlistment names a live transaction");
        Ok((place, owner))
    }

    fn tell(&mut self, place: usize, state: EnlistmentState, signal: Signal) {
        let enlistment = &mut self.table.enlistments[place];
        enlistment.state = state;
        self.signals.push(signal, enlistment.number);
    }

    fn start_phase_one(&mut self, owner: usize) {
        match *self.table.members(owner) {
            [] => {
                self.signals.push(Signal::AppCommitted, 0);
                self.end(owner);
            }
            [only] if self.table.enlistments[only].single => {
                self.table.transactions[owner].state = TransactionState::SinglePhase;
                self.tell(only, EnlistmentState::OnePhase, Signal::Single);
            }
            ref all => {
                self.table.transactions[owner].state = TransactionState::PhaseOne;
                for &place in all {
                    self.tell(place, EnlistmentState::Preparing, Signal::Prepare);
                }
            }
        }
    }

    fn decide(&mut self, owner: usize) {
        let members = self.table.members(owner);
        let durable = |&&place: &&usize| self.table.enlistments[place].kind == Kind::Durable;
        let durables = members.iter().filter(durable).count();
        if durables > 0 {
            let needed =
                log::commit_length(durables) + log::FORGET_LENGTH * (1 + self.table.open_count());
            if self.table.capacity - self.table.used < needed {
                self.abort(owner);
                return;
            }
            log::append_commit(self.table, self.log, owner, &members);
        }
        self.table.transactions[owner].state = TransactionState::Committing;
        for &place in members.iter() {
            if self.table.enlistments[place].state == EnlistmentState::PreparedLost {
                self.table.enlistments[place].state = EnlistmentState::FailedToNotify;
            } else {
                self.tell(place, EnlistmentState::ToldCommit, Signal::Commit);
            }
        }
        self.signals.push(Signal::AppCommitted, 0);
        self.settle(owner);
    }

    fn abort(&mut self, owner: usize) {
        self.table.transactions[owner].state = TransactionState::Aborting;
        for &place in self.table.members(owner).iter() {
            match self.table.enlistments[place].state {
                EnlistmentState::Done => {}
                EnlistmentState::PreparedLost => {
                    self.table.enlistments[place].state = EnlistmentState::Done;
                }
                _ => self.tell(place, EnlistmentState::ToldAbort, Signal::Abort),
            }
        }
        self.signals.push(Signal::AppAborted, 0);
        self.settle(owner);
    }

    /// After a decision: ends the transaction if all it holds is Done.
    fn settle(&mut self, owner: usize) {
        let id = self.table.transactions[owner].id;
        let all_done = self
            .table
            .enlistments
            .iter()
            .all(|other| other.transaction != id || other.state == EnlistmentState::Done);
        if all_done {
            self.end(owner);
        }
    }

    /// Empties the places of the transaction; an open one is forgotten in
    /// the log.
    fn end(&mut self, owner: usize) {
        if self.table.is_open(owner) {
            log::append_forget(self.table, self.log, owner);
        }
        let id = self.table.transactions[owner].id;
        for other in self
            .table
            .enlistments
            .iter_mut()
            .filter(|other| other.transaction == id)
        {
            *other = Enlistment::default();
        }
        self.table.transactions[owner] = Transaction::default();
    }
}
