//! The trace program: one output line for each input line.

use std::io::{self, BufRead, Read, Write};

use crate::log::restart;
use crate::step::{step, step_on_sound, Event, Reply, Signal, Signals, Vote};
use crate::table::{Id, Kind, Table};
use crate::Refusal;

pub const LONGEST_LINE: usize = 64;
pub const CAPACITY: usize = 4096;

/// What a readable line asks for.
#[derive(Clone, Copy, Debug, PartialEq, Eq)]
pub enum Command {
    Step(Event),
    Restart,
}

/// Reads a line without its newline; `None` if it can't be read.
pub fn parse(line: &[u8]) -> Option<Command> {
    if line.len() > LONGEST_LINE {
        return None;
    }
    let mut words = line.split(|&byte| byte == b' ');
    let command = Command::Step(match words.next()? {
        b"begin" => Event::Begin {
            transaction: id(words.next()?)?,
        },
        b"enlist" => Event::Enlist {
            transaction: id(words.next()?)?,
            number: number(words.next()?)?,
            rm: id(words.next()?)?,
            kind: match words.next()? {
                b"zero" => Kind::PhaseZero,
                b"volatile" => Kind::Volatile,
                b"durable" => Kind::Durable,
                _ => return None,
            },
            single: match words.next() {
                None | Some(b"single") => true,
                Some(b"twophase") => false,
                Some(_) => return None,
            },
        },
        b"commit" => Event::Commit {
            transaction: id(words.next()?)?,
        },
        b"rollback" => Event::Rollback {
            transaction: id(words.next()?)?,
        },
        b"zdone" => Event::ZeroDone {
            number: number(words.next()?)?,
        },
        b"vote" => Event::Vote {
            number: number(words.next()?)?,
            vote: match words.next()? {
                b"prepared" => Vote::Prepared,
                b"readonly" => Vote::ReadOnly,
                b"aborted" => Vote::Aborted,
                _ => return None,
            },
        },
        b"sp" => Event::Reply {
            number: number(words.next()?)?,
            reply: match words.next()? {
                b"committed" => Reply::Committed,
                b"aborted" => Reply::Aborted,
                b"indoubt" => Reply::InDoubt,
                _ => return None,
            },
        },
        b"ack" => Event::Ack {
            number: number(words.next()?)?,
        },
        b"lost" => Event::Lost {
            number: number(words.next()?)?,
        },
        b"ask" => Event::Ask {
            transaction: id(words.next()?)?,
            rm: id(words.next()?)?,
        },
        b"reenlisted" => Event::Reenlisted {
            rm: id(words.next()?)?,
        },
        b"restart" => return words.next().is_none().then_some(Command::Restart),
        _ => return None,
    });
    words.next().is_none().then_some(command)
}

/// 0 to 4,294,967,295, without leading zeros.
fn number(word: &[u8]) -> Option<u32> {
    match word {
        b"0" => Some(0),
        [b'1'..=b'9', ..] => word.iter().try_fold(0u32, |value, &byte| {
            let digit = byte.is_ascii_digit().then(|| u32::from(byte - b'0'))?;
            value.checked_mul(10)?.checked_add(digit)
        }),
        _ => None,
    }
}

/// 0 to 255, the last of 16 bytes.
fn id(word: &[u8]) -> Option<Id> {
    u8::try_from(number(word)?).ok().map(Id::from_last)
}

fn name(signal: Signal) -> &'static str {
    match signal {
        Signal::Zero => "zero",
        Signal::Prepare => "prepare",
        Signal::Single => "single",
        Signal::Commit => "commit",
        Signal::Abort => "abort",
        Signal::AppCommitted => "app-committed",
        Signal::AppAborted => "app-aborted",
        Signal::AppInDoubt => "app-in-doubt",
        Signal::AnswerCommitted => "answer-committed",
        Signal::AnswerAborted => "answer-aborted",
        Signal::AnswerNotYet => "answer-not-yet",
    }
}

/// The state of the trace program between lines.
pub struct Trace {
    table: Table,
    log: Vec<u8>,
    signals: Signals,
    test_soundness: bool,
}

impl Trace {
    pub fn new(test_soundness: bool) -> Self {
        let mut log = vec![0; CAPACITY];
        let table = restart(&mut log, 0).expect("an empty log restarts");
        Self {
            table,
            log,
            signals: Signals::default(),
            test_soundness,
        }
    }

    /// Takes one line (`None`: too long) and adds its output to `out`.
    pub fn line(&mut self, line: Option<&[u8]>, out: &mut Vec<u8>) {
        self.signals.clear();
        let result = match line.and_then(parse) {
            Some(Command::Step(event)) => {
                let step = if self.test_soundness {
                    step
                } else {
                    step_on_sound
                };
                step(&mut self.table, &mut self.log, event, &mut self.signals)
            }
            Some(Command::Restart) => self.restart(),
            None => Err(Refusal::Unreadable),
        };
        #[cfg(debug_assertions)]
        self.check_log();

        push_number(out, result.err().map_or(0, Refusal::number));
        out.push(b' ');
        push_number(out, self.table.used as u32);
        out.push(b' ');
        push_number(out, self.signals.len() as u32);
        for &(signal, number) in self.signals.iter() {
            out.push(b' ');
            out.extend_from_slice(name(signal).as_bytes());
            out.push(b':');
            push_number(out, number);
        }
        out.push(b'\n');
    }

    /// The used bytes of the log.
    pub fn log(&self) -> &[u8] {
        &self.log[..self.table.used]
    }

    fn restart(&mut self) -> Result<(), Refusal> {
        let (table, result) = match restart(&mut self.log, self.table.used) {
            Ok(table) => (table, Ok(())),
            Err(refusal) => (Table::default(), Err(refusal)),
        };
        self.table = table;
        result
    }

    /// A restart at this moment would find just the open transactions of
    /// the table, with all their D.
    #[cfg(debug_assertions)]
    fn check_log(&self) {
        use crate::table::TRANSACTIONS;
        let durables = |table: &Table| {
            let mut found = Vec::new();
            for owner in (0..TRANSACTIONS).filter(|&owner| table.is_open(owner)) {
                for &place in table.members(owner).iter() {
                    let enlistment = table.enlistments[place];
                    if enlistment.kind == Kind::Durable {
                        found.push((enlistment.transaction, enlistment.number, enlistment.rm));
                    }
                }
            }
            found.sort_unstable();
            found
        };
        let stored = restart(&mut self.log.clone(), self.table.used).expect("own log restarts");
        assert_eq!(stored.used, self.table.used);
        assert_eq!(durables(&stored), durables(&self.table));
    }
}

fn push_number(out: &mut Vec<u8>, mut number: u32) {
    let mut digits = [0; 10];
    let mut at = digits.len();
    loop {
        at -= 1;
        digits[at] = b'0' + (number % 10) as u8;
        number /= 10;
        if number == 0 {
            break;
        }
    }
    out.extend_from_slice(&digits[at..]);
}

/// Runs the trace program; gives the final state.
pub fn run(
    mut input: impl BufRead,
    mut output: impl Write,
    test_soundness: bool,
) -> io::Result<Trace> {
    const FLUSH_AT: usize = 1 << 16;
    let mut trace = Trace::new(test_soundness);
    let mut line = Vec::with_capacity(LONGEST_LINE + 1);
    let mut out = Vec::with_capacity(FLUSH_AT + 1024);
    loop {
        line.clear();
        // Room for the longest line and its newline.
        let limit = LONGEST_LINE + 1;
        if input
            .by_ref()
            .take(limit as u64)
            .read_until(b'\n', &mut line)?
            == 0
        {
            break;
        }
        if line.last() == Some(&b'\n') {
            line.pop();
            trace.line(Some(&line), &mut out);
        } else if line.len() == limit {
            input.skip_until(b'\n')?;
            trace.line(None, &mut out);
        } else {
            trace.line(Some(&line), &mut out);
        }
        if out.len() >= FLUSH_AT {
            output.write_all(&out)?;
            out.clear();
        }
    }
    output.write_all(&out)?;
    output.flush()?;
    Ok(trace)
}

/// Runs `--restart`: lines `CAPACITY STORED HEX`, see the README. Bytes
/// beyond those given are zero, bytes beyond the capacity are left out.
pub fn run_restarts(mut input: impl BufRead, mut output: impl Write) -> io::Result<()> {
    let mut line = Vec::new();
    let mut out = Vec::new();
    loop {
        line.clear();
        if input.read_until(b'\n', &mut line)? == 0 {
            break;
        }
        if line.last() == Some(&b'\n') {
            line.pop();
        }
        out.clear();
        match parse_log(&line) {
            Some((mut log, stored)) => write_restart(&mut log, stored, &mut out),
            None => out.extend_from_slice(b"16 0"),
        }
        out.push(b'\n');
        output.write_all(&out)?;
    }
    output.flush()
}

/// No log that a line gives is longer than this.
const LONGEST_GIVEN_LOG: u32 = 1 << 20;

fn parse_log(line: &[u8]) -> Option<(Vec<u8>, usize)> {
    let mut words = line.split(|&byte| byte == b' ');
    let capacity = number(words.next()?)?;
    let stored = number(words.next()?)? as usize;
    let hex = words.next().unwrap_or_default();
    if words.next().is_some() || hex.len() % 2 != 0 || capacity > LONGEST_GIVEN_LOG {
        return None;
    }
    let mut log = vec![0; capacity as usize];
    let digit = |byte: u8| char::from(byte).to_digit(16);
    for (at, pair) in hex.chunks_exact(2).enumerate() {
        let byte = (digit(pair[0])? * 16 + digit(pair[1])?) as u8;
        if let Some(place) = log.get_mut(at) {
            *place = byte;
        }
    }
    Some((log, stored))
}

fn write_restart(log: &mut [u8], stored: usize, out: &mut Vec<u8>) {
    let (refusal, table) = match restart(log, stored) {
        Ok(table) => (0, table),
        Err(refusal) => (refusal.number(), Table::default()),
    };
    push_number(out, refusal);
    out.push(b' ');
    push_number(out, table.used as u32);
    for (owner, transaction) in table.transactions.iter().enumerate() {
        if transaction.id.is_zero() {
            continue;
        }
        out.push(b' ');
        push_hex(out, &transaction.id.to_bytes());
        for (at, &place) in table.members(owner).iter().enumerate() {
            out.push(if at == 0 { b':' } else { b',' });
            push_hex(out, &table.enlistments[place].rm.to_bytes());
            out.push(b'.');
            push_number(out, table.enlistments[place].number);
        }
    }
}

pub fn push_hex(out: &mut Vec<u8>, bytes: &[u8]) {
    for byte in bytes {
        for digit in [byte >> 4, byte & 15] {
            out.push(b"0123456789abcdef"[usize::from(digit)]);
        }
    }
}
