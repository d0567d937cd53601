//! The whole case of the paper, its twelve named cases, and more.

use crate::log::{restart, HEADER};
use crate::step::{step, Event, Reply, Signal, Signals, Vote};
use crate::table::{Enlistment, EnlistmentState, Id, Kind, Table, Transaction, TransactionState};
use crate::trace::{self, parse, Command};
use crate::Refusal;

// Helpers.

fn id(last: u8) -> Id {
    Id::from_last(last)
}

/// A table with its log, driven by events.
struct Host {
    table: Table,
    log: Vec<u8>,
    signals: Signals,
}

impl Host {
    fn new(capacity: usize) -> Self {
        let mut log = vec![0; capacity];
        let table = restart(&mut log, 0).unwrap();
        Self {
            table,
            log,
            signals: Signals::default(),
        }
    }

    fn step(&mut self, event: Event) -> Result<Vec<(Signal, u32)>, Refusal> {
        step(&mut self.table, &mut self.log, event, &mut self.signals)?;
        Ok(self.signals.to_vec())
    }

    /// Takes a trace line that is a step.
    fn take(&mut self, line: &str) -> Result<Vec<(Signal, u32)>, Refusal> {
        match parse(line.as_bytes()) {
            Some(Command::Step(event)) => self.step(event),
            _ => panic!("not a step: {line}"),
        }
    }

    fn take_all(&mut self, lines: &[&str]) {
        for line in lines {
            self.take(line)
                .unwrap_or_else(|refusal| panic!("{line}: {refusal:?}"));
        }
    }

    fn state(&self, number: u32) -> Option<EnlistmentState> {
        self.table
            .find_enlistment(number)
            .map(|place| self.table.enlistments[place].state)
    }

    fn transaction(&self, last: u8) -> Option<TransactionState> {
        let place = self.table.find_transaction(id(last))?;
        Some(self.table.transactions[place].state)
    }
}

fn traced(input: &[u8]) -> String {
    let mut output = Vec::new();
    trace::run(input, &mut output, true).unwrap();
    let mut untested = Vec::new();
    trace::run(input, &mut untested, false).unwrap();
    assert_eq!(output, untested);
    String::from_utf8(output).unwrap()
}

/// Checks input and output given side by side, as the paper does.
fn check_trace(case: &str) {
    let mut input = String::new();
    let mut expected = String::new();
    for line in case.lines().map(str::trim).filter(|line| !line.is_empty()) {
        let (left, right) = line.split_once("  ").expect("two columns");
        input += left.trim();
        input += "\n";
        expected += right.trim();
        expected += "\n";
    }
    assert_eq!(traced(input.as_bytes()), expected);
}

fn commit_record(t: u8, entries: &[(u8, u32)]) -> Vec<u8> {
    let mut record = vec![1, entries.len() as u8];
    record.extend(id(t).to_bytes());
    for &(rm, number) in entries {
        record.extend(id(rm).to_bytes());
        record.extend(number.to_le_bytes());
    }
    record
}

fn forget_record(t: u8) -> Vec<u8> {
    let mut record = vec![2, 0];
    record.extend(id(t).to_bytes());
    record
}

fn log_of(records: &[Vec<u8>]) -> Vec<u8> {
    let mut log = HEADER.to_vec();
    log.extend(records.concat());
    log
}

/// Restarts with `stored` as stored bytes; checks that the log is untouched
/// (but for a header written).
fn restarted(stored: &[u8], capacity: usize) -> Result<Table, Refusal> {
    let mut log = vec![0xee; capacity];
    log[..stored.len()].copy_from_slice(stored);
    let before = log.clone();
    let result = restart(&mut log, stored.len());
    if stored.len() < 8 && result.is_ok() {
        assert_eq!(log[..8], HEADER);
        assert_eq!(log[8..], before[8..]);
    } else {
        assert_eq!(log, before);
    }
    result
}

// The whole case.

#[test]
fn whole_case() {
    check_trace(
        "begin 7                     0 8 0
         enlist 7 1 21 durable       0 8 0
         enlist 7 2 22 durable       0 8 0
         commit 7                    0 8 2 prepare:1 prepare:2
         vote 1 prepared             0 8 0
         lost 1                      0 8 0
         vote 2 prepared             0 66 2 commit:2 app-committed:0
         ack 2                       0 66 0
         restart                     0 66 0
         ask 7 21                    0 66 1 answer-committed:1
         ack 1                       0 66 0
         reenlisted 22               0 84 0
         commit 7                    2 84 0",
    );
}

#[test]
fn whole_case_log_bytes() {
    let lines = b"begin 7\nenlist 7 1 21 durable\nenlist 7 2 22 durable\ncommit 7\n\
        vote 1 prepared\nlost 1\nvote 2 prepared\nack 2\nrestart\nask 7 21\nack 1\n\
        reenlisted 22\ncommit 7";
    let trace = trace::run(&lines[..], std::io::sink(), true).unwrap();
    let expected = log_of(&[commit_record(7, &[(21, 1), (22, 2)]), forget_record(7)]);
    assert_eq!(trace.log(), expected);
}

// The twelve cases of "Proof of the rules".

fn host_of_31() -> Host {
    let mut host = Host::new(4096);
    for t in 1..=31 {
        host.step(Event::Begin { transaction: id(t) }).unwrap();
    }
    host
}

#[test]
fn case_01_begin_32nd() {
    let mut host = host_of_31();
    assert_eq!(host.take("begin 32"), Ok(vec![]));
    let last = Transaction {
        id: id(32),
        state: TransactionState::Active,
    };
    assert_eq!(host.table.transactions[31], last);
}

#[test]
fn case_02_begin_33rd() {
    let mut host = host_of_31();
    host.take_all(&["begin 32"]);
    let before = host.table.clone();
    assert_eq!(host.take("begin 33"), Err(Refusal::NoRoom));
    assert_eq!(host.table, before);
    assert_eq!(host.take("begin 32"), Err(Refusal::AlreadyLive));
}

fn host_of_15() -> Host {
    let mut host = Host::new(4096);
    host.take_all(&["begin 1"]);
    for n in 1..=15 {
        host.take_all(&[&format!("enlist 1 {n} {n} durable")]);
    }
    host
}

#[test]
fn case_03_enlist_16th() {
    let mut host = host_of_15();
    assert_eq!(host.take("enlist 1 16 16 durable"), Ok(vec![]));
    assert_eq!(host.table.enlistments[15].number, 16);
}

#[test]
fn case_04_enlist_17th() {
    let mut host = host_of_15();
    host.take_all(&["enlist 1 16 16 durable"]);
    assert_eq!(host.take("enlist 1 17 17 durable"), Err(Refusal::NoRoom));
    assert_eq!(
        host.take("enlist 1 16 17 durable"),
        Err(Refusal::AlreadyEnlisted)
    );
    assert_eq!(
        host.take("enlist 1 17 16 durable"),
        Err(Refusal::AlreadyEnlisted)
    );
}

fn lone_durable(capacity: usize) -> Host {
    let mut host = Host::new(capacity);
    host.take_all(&["begin 1", "enlist 1 1 1 durable twophase"]);
    assert_eq!(host.take("commit 1"), Ok(vec![(Signal::Prepare, 1)]));
    host
}

#[test]
fn case_05_capacity_64_commits() {
    let mut host = lone_durable(64);
    let signals = vec![(Signal::Commit, 1), (Signal::AppCommitted, 0)];
    assert_eq!(host.take("vote 1 prepared"), Ok(signals));
    assert_eq!(host.table.used, 46);
    host.take_all(&["ack 1"]);
    assert_eq!(host.table.used, 64);
    assert_eq!(
        host.log,
        log_of(&[commit_record(1, &[(1, 1)]), forget_record(1)])
    );
    assert_eq!(host.table, Table::fresh(64, 64));
}

#[test]
fn case_06_capacity_63_aborts() {
    let mut host = lone_durable(63);
    let signals = vec![(Signal::Abort, 1), (Signal::AppAborted, 0)];
    assert_eq!(host.take("vote 1 prepared"), Ok(signals));
    assert_eq!(host.table.used, 8);
    assert_eq!(host.transaction(1), Some(TransactionState::Aborting));
    assert_eq!(host.state(1), Some(EnlistmentState::ToldAbort));
}

#[test]
fn case_07_read_only_alone_ends_unlogged() {
    let mut host = lone_durable(4096);
    assert_eq!(
        host.take("vote 1 readonly"),
        Ok(vec![(Signal::AppCommitted, 0)])
    );
    assert_eq!(host.table, Table::fresh(4096, 8));
}

#[test]
fn case_08_durable_lost_in_prepared() {
    let mut host = Host::new(4096);
    host.take_all(&[
        "begin 1",
        "enlist 1 1 1 durable",
        "enlist 1 2 2 durable",
        "commit 1",
    ]);
    host.take_all(&["vote 1 prepared"]);
    assert_eq!(host.take("lost 1"), Ok(vec![]));
    assert_eq!(host.state(1), Some(EnlistmentState::PreparedLost));
    assert_eq!(host.transaction(1), Some(TransactionState::PhaseOne));
}

#[test]
fn case_09_volatile_lost_in_prepared() {
    let mut host = Host::new(4096);
    host.take_all(&[
        "begin 1",
        "enlist 1 1 1 volatile",
        "enlist 1 2 2 durable",
        "commit 1",
    ]);
    host.take_all(&["vote 1 prepared"]);
    let signals = vec![(Signal::Abort, 2), (Signal::AppAborted, 0)];
    assert_eq!(host.take("lost 1"), Ok(signals));
    assert_eq!(host.state(1), Some(EnlistmentState::Done));
    assert_eq!(host.state(2), Some(EnlistmentState::ToldAbort));
}

#[test]
fn case_10_ask_of_unknown() {
    let mut host = Host::new(4096);
    let before = host.table.clone();
    assert_eq!(host.take("ask 9 9"), Ok(vec![(Signal::AnswerAborted, 0)]));
    assert_eq!(host.table, before);
}

#[test]
fn case_11_stored_0() {
    assert_eq!(restarted(&[], 4096), Ok(Table::fresh(4096, 8)));
    assert_eq!(restarted(&[], 8), Ok(Table::fresh(8, 8)));
}

#[test]
fn case_12_stored_first_7_of_header() {
    assert_eq!(restarted(&HEADER[..7], 4096), Ok(Table::fresh(4096, 8)));
    assert_eq!(
        restarted(b"RTL\x01\x00\x00\x01", 4096),
        Err(Refusal::DamagedLog)
    );
}

// Restart.

#[test]
fn restart_bounds() {
    assert_eq!(restarted(&[], 7), Err(Refusal::DamagedLog));
    assert_eq!(restarted(&[], 65_537), Err(Refusal::DamagedLog));
    assert_eq!(restarted(&[], 65_536), Ok(Table::fresh(65_536, 8)));
    assert_eq!(restart(&mut [0; 20], 21), Err(Refusal::DamagedLog));
    assert_eq!(restarted(b"RTM", 100), Err(Refusal::DamagedLog));
    assert_eq!(
        restarted(b"RTL\x01\x00\x00\x00\x01", 100),
        Err(Refusal::DamagedLog)
    );
}

#[test]
fn restart_torn_and_bad_heads() {
    let whole = log_of(&[commit_record(3, &[(1, 5), (2, 9)]), forget_record(3)]);
    for stored in 0..=whole.len() {
        let used = match stored {
            0..66 => 8,
            66..84 => 66,
            _ => 84,
        };
        let table = restarted(&whole[..stored], 4096).unwrap();
        assert_eq!(
            (table.used, table.open_count()),
            (used, usize::from(used == 66))
        );
    }
    for bad in [&[0][..], &[3], &[1, 0], &[1, 17], &[2, 1], &[0, 0]] {
        let log = [&HEADER[..], bad].concat();
        assert_eq!(restarted(&log, 4096), Err(Refusal::DamagedLog));
    }
    for torn in [&[1][..], &[2], &[1, 1], &[1, 16], &[2, 0]] {
        let log = [&HEADER[..], torn].concat();
        assert_eq!(restarted(&log, 4096), Ok(Table::fresh(4096, 8)));
    }
}

#[test]
fn restart_judges_whole_records() {
    let bad = |records: &[Vec<u8>]| {
        assert_eq!(
            restarted(&log_of(records), 65_536),
            Err(Refusal::DamagedLog)
        );
    };
    bad(&[commit_record(0, &[(1, 1)])]);
    bad(&[commit_record(1, &[(0, 1)])]);
    bad(&[commit_record(1, &[(1, 0)])]);
    bad(&[commit_record(1, &[(1, 1), (2, 1)])]);
    bad(&[commit_record(1, &[(1, 2), (2, 1)])]);
    bad(&[commit_record(1, &[(1, 1), (1, 2)])]);
    bad(&[commit_record(1, &[(1, 1)]), commit_record(1, &[(1, 2)])]);
    bad(&[commit_record(1, &[(1, 1)]), commit_record(2, &[(1, 1)])]);
    bad(&[forget_record(1)]);
    bad(&[commit_record(1, &[(1, 1)]), forget_record(0)]);
    bad(&[
        commit_record(1, &[(1, 1)]),
        forget_record(1),
        forget_record(1),
    ]);

    // The 33rd open transaction, even if one is forgotten afterwards.
    let mut records: Vec<_> = (1..=32)
        .map(|t| commit_record(t, &[(1, t.into())]))
        .collect();
    assert_eq!(
        restarted(&log_of(&records), 65_536).unwrap().open_count(),
        32
    );
    records.push(commit_record(33, &[(1, 33)]));
    records.push(forget_record(1));
    bad(&records);

    // The 129th open entry.
    let entries = |t: u8| (1..=16).map(move |k| (k, u32::from(t) * 16 + u32::from(k)));
    let mut records: Vec<_> = (1..=8)
        .map(|t| commit_record(t, &entries(t).collect::<Vec<_>>()))
        .collect();
    let table = restarted(&log_of(&records), 65_536).unwrap();
    assert!(table
        .enlistments
        .iter()
        .all(|e| e.state == EnlistmentState::FailedToNotify));
    records.push(commit_record(9, &[(1, 1000)]));
    bad(&records);
}

#[test]
fn restart_order_and_numbers_used_again() {
    let log = log_of(&[
        commit_record(9, &[(1, 1)]),
        commit_record(5, &[(1, 7), (2, 8)]),
        forget_record(9),
        commit_record(7, &[(2, 1)]),
        commit_record(9, &[(3, 2)]),
    ]);
    let table = restarted(&log, 4096).unwrap();
    let ids: Vec<_> = table.transactions[..4].iter().map(|t| t.id).collect();
    assert_eq!(ids, [id(5), id(7), id(9), id(0)]);
    let entries: Vec<_> = table.enlistments[..5]
        .iter()
        .map(|e| (e.rm, e.number))
        .collect();
    assert_eq!(
        entries,
        [(id(1), 7), (id(2), 8), (id(2), 1), (id(3), 2), (id(0), 0)]
    );
}

#[test]
fn restart_too_short() {
    let log = log_of(&[commit_record(1, &[(1, 1)])]);
    assert_eq!(restarted(&log, 63), Err(Refusal::LogTooShort));
    assert_eq!(restarted(&log, 64).unwrap().used, 46);
}

// Steps.

#[test]
fn zero_phase() {
    check_trace(
        "begin 1                     0 8 0
         enlist 1 5 1 zero           0 8 0
         enlist 1 3 1 zero twophase  0 8 0
         enlist 1 4 2 durable        0 8 0
         commit 1                    0 8 2 zero:3 zero:5
         commit 1                    6 8 0
         enlist 1 2 1 zero           0 8 1 zero:2
         enlist 1 1 1 volatile       0 8 0
         zdone 1                     7 8 0
         zdone 3                     0 8 0
         zdone 3                     3 8 0
         zdone 5                     0 8 0
         ask 1 2                     0 8 1 answer-not-yet:4
         zdone 2                     0 8 2 prepare:1 prepare:4
         zdone 1                     7 8 0
         vote 4 prepared             0 8 0
         vote 1 prepared             0 46 3 commit:1 commit:4 app-committed:0
         lost 1                      0 46 0
         lost 4                      0 46 0
         lost 4                      7 46 0
         ack 4                       7 46 0
         reenlisted 2                0 64 0
         ask 1 2                     0 64 1 answer-aborted:0",
    );
}

#[test]
fn single_phase() {
    check_trace(
        "begin 1                     0 8 0
         enlist 1 1 1 zero           0 8 0
         enlist 1 2 2 durable        0 8 0
         commit 1                    0 8 1 zero:1
         zdone 1                     0 8 1 single:2
         ask 1 2                     0 8 1 answer-not-yet:2
         ask 1 1                     9 8 0
         rollback 1                  6 8 0
         vote 2 prepared             7 8 0
         sp 2 indoubt                0 8 1 app-in-doubt:0
         begin 1                     0 8 0
         enlist 1 2 2 volatile       0 8 0
         commit 1                    0 8 1 single:2
         lost 2                      0 8 1 app-in-doubt:0
         begin 1                     0 8 0
         commit 1                    0 8 1 app-committed:0
         begin 1                     0 8 0
         rollback 1                  0 8 1 app-aborted:0",
    );
}

#[test]
fn lost_ones_only() {
    // Only Prepared-lost ones left at the decision.
    check_trace(
        "begin 1                     0 8 0
         enlist 1 1 1 durable        0 8 0
         enlist 1 2 2 volatile       0 8 0
         commit 1                    0 8 2 prepare:1 prepare:2
         vote 1 prepared             0 8 0
         lost 1                      0 8 0
         vote 2 readonly             0 46 1 app-committed:0
         reenlisted 1                0 64 0",
    );
    // They are Done at once in an abort, and so the transaction ends.
    check_trace(
        "begin 1                     0 8 0
         enlist 1 1 1 durable        0 8 0
         enlist 1 2 2 volatile       0 8 0
         commit 1                    0 8 2 prepare:1 prepare:2
         vote 1 prepared             0 8 0
         lost 1                      0 8 0
         vote 2 aborted              0 8 1 app-aborted:0
         commit 1                    2 8 0",
    );
}

#[test]
fn several_forgets_by_ascending_identifier() {
    let mut host = Host::new(4096);
    for (t, n) in [(9, 1), (4, 2), (6, 3)] {
        host.take_all(&[
            &format!("begin {t}"),
            &format!("enlist {t} {n} 1 durable twophase"),
            &format!("commit {t}"),
            &format!("vote {n} prepared"),
        ]);
    }
    assert_eq!(host.take("reenlisted 1"), Err(Refusal::NotAllFailed));
    host.take_all(&["lost 1", "lost 2", "lost 3"]);
    let used = host.table.used;
    host.take_all(&["reenlisted 1"]);
    let forgets = [forget_record(4), forget_record(6), forget_record(9)].concat();
    assert_eq!(host.log[used..host.table.used], forgets);
    assert_eq!(host.table, Table::fresh(4096, used + 54));
}

#[test]
fn refusals_in_order() {
    check_trace(
        "begin 0                     1 8 0
         enlist 9 0 1 durable        1 8 0
         enlist 9 1 0 durable        1 8 0
         enlist 9 1 1 durable        2 8 0
         rollback 9                  2 8 0
         ack 9                       3 8 0
         sp 0 committed              1 8 0
         ask 0 1                     1 8 0
         ask 1 0                     1 8 0
         reenlisted 0                1 8 0
         reenlisted 9                0 8 0
         begin 1                     0 8 0
         begin 1                     4 8 0
         enlist 1 1 1 durable        0 8 0
         enlist 1 1 1 durable        5 8 0
         enlist 1 2 1 volatile       0 8 0
         ack 1                       7 8 0
         commit 1                    0 8 2 prepare:1 prepare:2
         enlist 1 1 1 durable        6 8 0
         rollback 1                  6 8 0
         lost 1                      0 8 2 abort:2 app-aborted:0
         reenlisted 1                0 8 0
         ask 1 9                     0 8 1 answer-aborted:0
         lost 1                      7 8 0
         ack 2                       0 8 0
         lost 2                      3 8 0",
    );
}

#[test]
fn step_checks_table_before_log() {
    let mut host = Host::new(64);
    host.log.push(0);
    assert_eq!(host.take("begin 0"), Err(Refusal::LogLength));
    host.table.used = 7;
    assert_eq!(host.take("begin 0"), Err(Refusal::NotSound));
}

// Soundness.

#[test]
fn soundness() {
    use EnlistmentState::*;
    type Edit = fn(&mut Table);

    let mut host = Host::new(100);
    host.take_all(&[
        "begin 1",
        "enlist 1 1 1 durable",
        "enlist 1 2 2 durable",
        "enlist 1 3 2 volatile twophase",
        "enlist 1 4 2 zero",
        "begin 2",
    ]);
    let sound = host.table;
    assert!(sound.is_sound());
    let edits: [Edit; 18] = [
        |t| t.transactions[0].id = id(0),
        |t| t.transactions[1].id = id(1),
        |t| t.transactions[2].id = id(3),
        |t| t.transactions[0].state = TransactionState::PhaseZero,
        |t| t.transactions[1].state = TransactionState::PhaseOne,
        |t| t.transactions[1].state = TransactionState::Committing,
        |t| t.enlistments[0].number = 0,
        |t| t.enlistments[0].number = 2,
        |t| t.enlistments[0].rm = id(0),
        |t| t.enlistments[0].rm = id(2),
        |t| t.enlistments[0].transaction = id(3),
        |t| t.enlistments[0].state = Done,
        |t| t.enlistments[0].state = Empty,
        |t| t.enlistments[3].single = true,
        |t| t.enlistments[9].rm = id(1),
        |t| t.used = 101,
        |t| t.used = 7,
        |t| t.capacity = 65_537,
    ];
    for (at, edit) in edits.iter().enumerate() {
        let mut table = sound.clone();
        edit(&mut table);
        assert!(!table.is_sound(), "edit {at}");
    }
    let mut table = sound.clone();
    table.capacity = 8;
    assert!(table.is_sound());
    table.enlistments[3] = Enlistment::default();
    assert!(table.is_sound());
    table.transactions[0].state = TransactionState::Committing;
    for place in 0..3 {
        table.enlistments[place].state = ToldCommit;
    }
    assert!(!table.is_sound());
    table.capacity = 26;
    assert!(table.is_sound());
    table.enlistments[1].state = FailedToNotify;
    assert!(table.is_sound());
    table.enlistments[2].state = FailedToNotify;
    assert!(!table.is_sound());
}

// Lines.

#[test]
fn lines() {
    assert_eq!(traced(b""), "");
    assert_eq!(traced(b"\n"), "16 8 0\n");
    assert_eq!(traced(b"begin 1\nbegin 1"), "0 8 0\n4 8 0\n");
    assert_eq!(
        traced(b"begin 1\r\n\xff\0\nrestart"),
        "16 8 0\n16 8 0\n0 8 0\n"
    );
    for bad in [
        " begin 1",
        "begin 1 ",
        "begin  1",
        "begin",
        "begin 256",
        "begin 01",
        "begin +1",
        "Begin 1",
        "begin 1 2",
        "restart 1",
        "restart ",
        "ack 4294967296",
        "ack 00",
        "ack -1",
        "ack",
        "vote 1",
        "vote 1 no",
        "enlist 1 1 1",
        "enlist 1 1 1 durable ",
        "sp 1 in-doubt",
        "enlist 1 1 1 durable single single",
        "reenlisted 256",
        "ask 1",
        "begin\t1",
        "ack 1e3",
    ] {
        assert_eq!(parse(bad.as_bytes()), None, "{bad}");
    }
    let ack = Event::Ack { number: u32::MAX };
    assert_eq!(parse(b"ack 4294967295"), Some(Command::Step(ack)));
    let vote = Event::Vote {
        number: 0,
        vote: Vote::ReadOnly,
    };
    assert_eq!(parse(b"vote 0 readonly"), Some(Command::Step(vote)));
    let reply = Event::Reply {
        number: 10,
        reply: Reply::InDoubt,
    };
    assert_eq!(parse(b"sp 10 indoubt"), Some(Command::Step(reply)));
    let enlist = |single| {
        let (transaction, rm) = (id(255), id(0));
        Command::Step(Event::Enlist {
            transaction,
            number: 1,
            rm,
            kind: Kind::Volatile,
            single,
        })
    };
    assert_eq!(parse(b"enlist 255 1 0 volatile"), Some(enlist(true)));
    assert_eq!(parse(b"enlist 255 1 0 volatile single"), Some(enlist(true)));
    assert_eq!(
        parse(b"enlist 255 1 0 volatile twophase"),
        Some(enlist(false))
    );
}

#[test]
fn long_lines() {
    // Every length about the limit, with and without a newline; and a line
    // far longer than any buffer.
    for length in 60..140 {
        let line = vec![b'x'; length];
        let more = [&line[..], b"\nbegin 1\n", &line[..]].concat();
        assert_eq!(traced(&line), "16 8 0\n");
        assert_eq!(traced(&more), "16 8 0\n0 8 0\n16 8 0\n");
    }
    let long = [&vec![b'b'; 1 << 20][..], b"\nbegin 1"].concat();
    assert_eq!(traced(&long), "16 8 0\n0 8 0\n");
}

#[test]
fn restart_lines() {
    let mut whole = Vec::new();
    trace::push_hex(
        &mut whole,
        &log_of(&[commit_record(7, &[(21, 1), (22, 2)])]),
    );
    let mut input = b"4096 66 ".to_vec();
    input.extend(&whole);
    input.extend(b"\n70 66 ");
    input.extend(&whole);
    input.extend(b"\n4096 0 \n4096 0\n4096 3 52544c\n4096 3 52544d\n7 8\nx\n64 65");
    let mut output = Vec::new();
    trace::run_restarts(&input[..], &mut output).unwrap();
    let expected = "0 66 00000000000000000000000000000007:\
        00000000000000000000000000000015.1,00000000000000000000000000000016.2\n\
        13 0\n0 8\n0 8\n0 8\n11 0\n11 0\n16 0\n11 0\n";
    assert_eq!(String::from_utf8(output).unwrap(), expected);
}

// The fast soundness test against a slow one that follows the paper's words.

fn plainly_sound(table: &Table) -> bool {
    use EnlistmentState as E;
    use TransactionState as T;
    let live: Vec<_> = table
        .transactions
        .iter()
        .filter(|t| **t != Transaction::default())
        .collect();
    let held: Vec<_> = table
        .enlistments
        .iter()
        .filter(|e| **e != Enlistment::default())
        .collect();
    let of = |t: &Transaction| -> Vec<&Enlistment> {
        held.iter()
            .copied()
            .filter(|e| e.transaction == t.id)
            .collect()
    };
    let fits = |t: &Transaction| {
        let all = of(t);
        let no_p = all.iter().all(|e| e.kind != Kind::PhaseZero);
        let d = |e: &Enlistment| e.kind == Kind::Durable;
        let any = |states: &[E]| all.iter().any(|e| states.contains(&e.state));
        match t.state {
            T::Empty => false,
            T::Active => all.iter().all(|e| e.state == E::Active),
            T::PhaseZero => {
                any(&[E::Zero])
                    && all.iter().all(|e| {
                        let zero = e.kind == Kind::PhaseZero;
                        e.state == if zero { E::Zero } else { E::Active }
                    })
            }
            T::PhaseOne => {
                no_p && any(&[E::Preparing])
                    && all.iter().all(|e| match e.state {
                        E::Preparing | E::Prepared => true,
                        E::PreparedLost => d(e),
                        _ => false,
                    })
            }
            T::SinglePhase => {
                no_p && all.len() == 1 && all[0].single && all[0].state == E::OnePhase
            }
            T::Committing => {
                no_p && any(&[E::ToldCommit, E::FailedToNotify])
                    && all.iter().all(|e| match e.state {
                        E::ToldCommit | E::Done => true,
                        E::FailedToNotify => d(e),
                        _ => false,
                    })
            }
            T::Aborting => {
                any(&[E::ToldAbort])
                    && all
                        .iter()
                        .all(|e| matches!(e.state, E::ToldAbort | E::Done))
            }
        }
    };
    let open = live
        .iter()
        .filter(|t| t.state == T::Committing && of(t).iter().any(|e| e.kind == Kind::Durable))
        .count();
    live.iter()
        .all(|t| fits(t) && !t.id.is_zero() && of(t).len() <= 16)
        && live
            .iter()
            .enumerate()
            .all(|(at, t)| live[..at].iter().all(|o| o.id != t.id))
        && held.iter().enumerate().all(|(at, e)| {
            e.state != E::Empty
                && e.number != 0
                && !e.rm.is_zero()
                && !e.transaction.is_zero()
                && live.iter().any(|t| t.id == e.transaction)
                && !(e.kind == Kind::PhaseZero && e.single)
                && held[..at].iter().all(|o| {
                    let durables = o.kind == Kind::Durable && e.kind == Kind::Durable;
                    let same = o.transaction == e.transaction && o.rm == e.rm;
                    o.number != e.number && !(durables && same)
                })
        })
        && 8 <= table.used
        && table.used + 18 * open <= table.capacity
        && table.capacity <= 65_536
}

#[test]
fn soundness_agrees_with_the_words() {
    const STATES: [EnlistmentState; 11] = [
        EnlistmentState::Empty,
        EnlistmentState::Active,
        EnlistmentState::Zero,
        EnlistmentState::Preparing,
        EnlistmentState::Prepared,
        EnlistmentState::PreparedLost,
        EnlistmentState::OnePhase,
        EnlistmentState::ToldCommit,
        EnlistmentState::FailedToNotify,
        EnlistmentState::ToldAbort,
        EnlistmentState::Done,
    ];
    const TRANSACTION_STATES: [TransactionState; 7] = [
        TransactionState::Empty,
        TransactionState::Active,
        TransactionState::PhaseZero,
        TransactionState::PhaseOne,
        TransactionState::SinglePhase,
        TransactionState::Committing,
        TransactionState::Aborting,
    ];
    const KINDS: [Kind; 3] = [Kind::PhaseZero, Kind::Volatile, Kind::Durable];
    const VOTES: [Vote; 3] = [Vote::Prepared, Vote::ReadOnly, Vote::Aborted];

    let mut seed = 1u64;
    let mut below = |end: usize| {
        seed = seed
            .wrapping_mul(6_364_136_223_846_793_005)
            .wrapping_add(1_442_695_040_888_963_407);
        (seed >> 33) as usize % end
    };
    let mut host = Host::new(65_536);
    let (mut sound, mut unsound) = (0, 0);
    for _ in 0..20_000 {
        let transaction = id(below(12) as u8);
        let rm = id(below(5) as u8);
        let number = below(60) as u32;
        let vote = VOTES[(below(8) / 3) % 3];
        let event = match below(16) {
            0 => Event::Begin { transaction },
            1..=4 => {
                let (kind, single) = (KINDS[below(3)], below(2) == 0);
                Event::Enlist {
                    transaction,
                    number,
                    rm,
                    kind,
                    single,
                }
            }
            5 => Event::Commit { transaction },
            6 | 7 => Event::ZeroDone { number },
            8..=11 => Event::Vote { number, vote },
            12 => Event::Ack { number },
            13 => Event::Reply {
                number,
                reply: Reply::Committed,
            },
            14 if below(4) == 0 => Event::Lost { number },
            _ => Event::Ask { transaction, rm },
        };
        let _ = host.step(event);
        assert!(plainly_sound(&host.table));

        // One or two fields of places in use, mostly, set to something else.
        let mut table = host.table.clone();
        for _ in 0..1 + below(2) {
            let anywhere = below(9) == 0;
            let e = below(if anywhere { 128 } else { 24 });
            let t = below(if anywhere { 32 } else { 9 });
            match below(11) {
                0 => table.transactions[t].id = id(below(12) as u8),
                1 | 2 => table.transactions[t].state = TRANSACTION_STATES[below(7)],
                3 => table.enlistments[e].transaction = id(below(12) as u8),
                4 => table.enlistments[e].rm = id(below(5) as u8),
                5 => table.enlistments[e].number = below(60) as u32,
                6 => table.enlistments[e].kind = KINDS[below(3)],
                7 => table.enlistments[e].single ^= true,
                8 | 9 => table.enlistments[e].state = STATES[below(11)],
                _ if below(8) == 0 => table.used = below(9),
                _ => table.capacity = table.used + below(80),
            }
        }
        assert_eq!(table.is_sound(), plainly_sound(&table), "{table:?}");
        *(if table.is_sound() {
            &mut sound
        } else {
            &mut unsound
        }) += 1;
    }
    assert!(sound > 2_000 && unsound > 2_000, "{sound} {unsound}");
}

#[test]
fn soundness_of_more_than_16() {
    let mut host = host_of_15();
    host.take_all(&[
        "enlist 1 16 16 durable",
        "begin 2",
        "enlist 2 17 17 durable",
    ]);
    assert!(host.table.is_sound() && plainly_sound(&host.table));
    host.table.enlistments[16].transaction = id(1);
    assert!(!host.table.is_sound() && !plainly_sound(&host.table));
}

/// All that can be reached with one transaction, two RMs and three numbers,
/// on a log with room for one commit record of two: every table is sound
/// (`step` tests it), a restart finds just what is open, and between Begin
/// and end no committed message goes with an aborted one.
#[test]
#[ignore = "takes a while: run with --profile checked"]
fn small_world() {
    use std::collections::hash_map::DefaultHasher;
    use std::collections::HashSet;
    use std::hash::{Hash, Hasher};

    let transaction = id(1);
    let mut events = vec![
        Event::Begin { transaction },
        Event::Commit { transaction },
        Event::Rollback { transaction },
    ];
    for rm in [id(1), id(2)] {
        events.extend([Event::Ask { transaction, rm }, Event::Reenlisted { rm }]);
        for number in 1..=3 {
            for (kind, single) in [
                (Kind::PhaseZero, true),
                (Kind::Volatile, true),
                (Kind::Volatile, false),
                (Kind::Durable, true),
                (Kind::Durable, false),
            ] {
                events.push(Event::Enlist {
                    transaction,
                    number,
                    rm,
                    kind,
                    single,
                });
            }
        }
    }
    for number in 1..=3 {
        events.extend([
            Event::ZeroDone { number },
            Event::Ack { number },
            Event::Lost { number },
            Event::Vote {
                number,
                vote: Vote::Prepared,
            },
            Event::Vote {
                number,
                vote: Vote::ReadOnly,
            },
            Event::Vote {
                number,
                vote: Vote::Aborted,
            },
            Event::Reply {
                number,
                reply: Reply::Committed,
            },
            Event::Reply {
                number,
                reply: Reply::Aborted,
            },
            Event::Reply {
                number,
                reply: Reply::InDoubt,
            },
        ]);
    }

    /// What is held, without the order of places, and the log.
    fn print_of(table: &Table, log: &[u8], told: (bool, bool)) -> u64 {
        let mut held: Vec<_> = table
            .enlistments
            .iter()
            .filter(|e| e.number != 0)
            .map(|e| {
                (
                    e.number,
                    e.rm.to_bytes(),
                    e.kind as u8,
                    e.single,
                    e.state as u8,
                )
            })
            .collect();
        held.sort_unstable();
        let mut hasher = DefaultHasher::new();
        let state = table.transactions.map(|t| t.state as u8);
        (held, state, &log[..table.used], told).hash(&mut hasher);
        hasher.finish()
    }

    let host = Host::new(84);
    let mut seen = HashSet::from([print_of(&host.table, &host.log, (false, false))]);
    let mut stack = vec![(host.table, host.log, (false, false))];
    let mut signals = Signals::default();
    let mut accepted = 0u64;
    while let Some((table, log, told)) = stack.pop() {
        // A crash at this moment, and then all the events.
        let mut after = log.clone();
        let crashed = restart(&mut after, table.used).unwrap();
        assert_eq!((after, crashed.used), (log.clone(), table.used));
        assert_eq!(crashed.open_count(), table.open_count());
        let mut next = vec![(crashed, log.clone(), told)];
        for &event in &events {
            let (mut table, mut log, mut told) = (table.clone(), log.clone(), told);
            let live = table.find_transaction(transaction).is_some();
            if step(&mut table, &mut log, event, &mut signals).is_err() {
                continue;
            }
            accepted += 1;
            for (signal, _) in signals.iter().filter(|_| live) {
                use Signal::*;
                told.0 |= matches!(signal, Commit | AppCommitted | AnswerCommitted);
                told.1 |= matches!(signal, Abort | AppAborted | AnswerAborted);
            }
            assert!(told != (true, true), "committed and aborted: {event:?}");
            next.push((table, log, told));
        }
        for (table, log, mut told) in next {
            if table.find_transaction(transaction).is_none() {
                told = (false, false);
            }
            assert!(table.is_sound());
            if seen.insert(print_of(&table, &log, told)) {
                stack.push((table, log, told));
            }
        }
    }
    println!("{} states, {accepted} accepted steps", seen.len());
}
