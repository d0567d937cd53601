//! Seeded generator of random trace lines, and of logs for `peer --restart`.
//!
//! `generate SEED LINES [MIX]`, see the README. It uses nothing of the peer:
//! a rough model of its own tells which events would fit, so that most lines
//! are accepted and deep states are reached.

use std::io::{self, BufWriter, Write};
use std::process::ExitCode;

const USAGE: &str = "usage: generate SEED LINES [mixed|nearly-full|full-log|long-log|noisy|logs]";

fn main() -> ExitCode {
    let arguments: Vec<String> = std::env::args().skip(1).collect();
    let mix = arguments.get(2).map_or("mixed", String::as_str);
    let (Some(Ok(seed)), Some(Ok(lines)), true) = (
        arguments.first().map(|word| word.parse::<u64>()),
        arguments.get(1).map(|word| word.parse::<u64>()),
        arguments.len() <= 3,
    ) else {
        eprintln!("{USAGE}");
        return ExitCode::from(2);
    };
    let output = BufWriter::new(io::stdout().lock());
    let done = match (mix, Mix::named(mix)) {
        ("logs", _) => write_logs(Random::new(seed), lines, output),
        (_, Some(mix)) => write_trace(Random::new(seed), lines, mix, seed % 4 != 3, output),
        _ => {
            eprintln!("{USAGE}");
            return ExitCode::from(2);
        }
    };
    match done {
        Ok(()) => ExitCode::SUCCESS,
        Err(error) => {
            eprintln!("generate: {error}");
            ExitCode::FAILURE
        }
    }
}

/// SplitMix64.
struct Random(u64);

impl Random {
    fn new(seed: u64) -> Self {
        let mut random = Self(seed.wrapping_mul(0x9e37_79b9_7f4a_7c15) ^ 0x5eed);
        random.next();
        random
    }

    fn next(&mut self) -> u64 {
        self.0 = self.0.wrapping_add(0x9e37_79b9_7f4a_7c15);
        let mut z = self.0;
        z = (z ^ (z >> 30)).wrapping_mul(0xbf58_476d_1ce4_e5b9);
        z = (z ^ (z >> 27)).wrapping_mul(0x94d0_49bb_1331_11eb);
        z ^ (z >> 31)
    }

    /// 0 to `end` − 1.
    fn below(&mut self, end: usize) -> usize {
        (self.next() % end as u64) as usize
    }

    fn between(&mut self, low: u32, high: u32) -> u32 {
        low + self.below((high - low + 1) as usize) as u32
    }

    /// True with `per_mille` in 1,000.
    fn chance(&mut self, per_mille: usize) -> bool {
        self.below(1000) < per_mille
    }

    fn pick<T: Copy>(&mut self, from: &[T]) -> T {
        from[self.below(from.len())]
    }
}

/// Shares are in 1,000.
#[derive(Clone, Copy)]
struct Mix {
    /// Live transactions and held enlistments aimed at; with `brim` both
    /// are kept near that.
    live: usize,
    held: usize,
    brim: bool,
    /// Of lines: unreadable ones, events taken without a look at the model,
    /// restarts.
    unreadable: usize,
    blind: usize,
    restart: usize,
    /// Of events in Active: enlist (else commit, rollback, ...).
    enlist: usize,
    /// Of enlistments: D, P; of V and D: marked yes.
    durable: usize,
    zero: usize,
    single: usize,
}

impl Mix {
    fn named(name: &str) -> Option<Self> {
        let mixed = Self {
            live: 8,
            held: 40,
            brim: false,
            unreadable: 25,
            blind: 60,
            restart: 4,
            enlist: 660,
            durable: 480,
            zero: 170,
            single: 500,
        };
        match name {
            "mixed" => Some(mixed),
            // Both kinds of places nearly all taken.
            "nearly-full" => Some(Self {
                live: 32,
                held: 128,
                brim: true,
                restart: 1,
                enlist: 900,
                zero: 220,
                ..mixed
            }),
            // Many D, so that the log is soon full.
            "full-log" => Some(Self {
                durable: 800,
                zero: 80,
                single: 150,
                ..mixed
            }),
            // Few D, so that the log lasts longer.
            "long-log" => Some(Self {
                durable: 130,
                restart: 2,
                ..mixed
            }),
            "noisy" => Some(Self {
                unreadable: 150,
                blind: 350,
                ..mixed
            }),
            _ => None,
        }
    }
}

#[derive(Clone, Copy, PartialEq, Eq)]
enum Kind {
    P,
    V,
    D,
}

/// States by the numbers of the paper.
#[derive(Clone, Copy)]
struct Held {
    number: u32,
    rm: u32,
    kind: Kind,
    single: bool,
    state: u8,
}

struct Live {
    id: u32,
    state: u8,
    held: Vec<Held>,
}

impl Live {
    fn open(&self) -> bool {
        self.state == 5 && self.held.iter().any(|held| held.kind == Kind::D)
    }
}

#[derive(Clone, Copy)]
enum Event {
    Begin(u32),
    Enlist(u32, u32, u32, Kind, Option<bool>),
    Commit(u32),
    Rollback(u32),
    Zdone(u32),
    Vote(u32, &'static str),
    Sp(u32, &'static str),
    Ack(u32),
    Lost(u32),
    Ask(u32, u32),
    Reenlisted(u32),
    Restart,
}

/// Rough model of the coordinator: what is live, and the log's used length.
struct Model {
    live: Vec<Live>,
    used: usize,
}

impl Model {
    fn held(&self) -> usize {
        self.live.iter().map(|live| live.held.len()).sum()
    }

    fn find(&self, id: u32) -> Option<usize> {
        self.live.iter().position(|live| live.id == id)
    }

    fn find_held(&self, number: u32) -> Option<(usize, usize)> {
        self.live.iter().enumerate().find_map(|(t, live)| {
            live.held
                .iter()
                .position(|held| held.number == number)
                .map(|e| (t, e))
        })
    }

    fn taken(&self, number: u32) -> bool {
        self.find_held(number).is_some()
    }

    /// Follows an event; one that doesn't fit changes nothing.
    fn follow(&mut self, event: Event) {
        match event {
            Event::Begin(id) => {
                if id != 0 && self.find(id).is_none() && self.live.len() < 32 {
                    self.live.push(Live {
                        id,
                        state: 1,
                        held: Vec::new(),
                    });
                }
            }
            Event::Enlist(id, number, rm, kind, single) => {
                let full = self.held() >= 128 || self.taken(number) || number == 0 || rm == 0;
                let Some(t) = self.find(id).filter(|_| !full) else {
                    return;
                };
                let live = &mut self.live[t];
                let second = |held: &Held| held.kind == Kind::D && held.rm == rm;
                let twice = kind == Kind::D && live.held.iter().any(second);
                if live.state <= 2 && live.held.len() < 16 && !twice {
                    let state = if kind == Kind::P { live.state } else { 1 };
                    let single = kind != Kind::P && single != Some(false);
                    live.held.push(Held {
                        number,
                        rm,
                        kind,
                        single,
                        state,
                    });
                }
            }
            Event::Commit(id) => {
                let Some(t) = self.find(id).filter(|&t| self.live[t].state == 1) else {
                    return;
                };
                let live = &mut self.live[t];
                for held in live.held.iter_mut().filter(|held| held.kind == Kind::P) {
                    held.state = 2;
                    live.state = 2;
                }
                self.advance(t);
            }
            Event::Rollback(id) => {
                if let Some(t) = self.find(id).filter(|&t| self.live[t].state <= 2) {
                    self.abort(t);
                }
            }
            Event::Zdone(number) => {
                if let Some((t, e)) = self.find_held(number) {
                    if self.live[t].held[e].state == 2 {
                        self.live[t].held.remove(e);
                        self.advance(t);
                    }
                }
            }
            Event::Vote(number, vote) => {
                let Some((t, e)) = self.find_held(number) else {
                    return;
                };
                if self.live[t].held[e].state != 3 {
                    return;
                }
                match vote {
                    "prepared" => self.live[t].held[e].state = 4,
                    "readonly" => drop(self.live[t].held.remove(e)),
                    _ => {
                        self.live[t].held[e].state = 10;
                        return self.abort(t);
                    }
                }
                self.decide(t);
            }
            Event::Sp(number, _) => {
                if let Some((t, e)) = self.find_held(number) {
                    if self.live[t].held[e].state == 6 {
                        self.live.remove(t);
                    }
                }
            }
            Event::Ack(number) => {
                if let Some((t, e)) = self.find_held(number) {
                    if matches!(self.live[t].held[e].state, 7 | 9) {
                        self.live[t].held[e].state = 10;
                        self.sweep(t);
                    }
                }
            }
            Event::Lost(number) => {
                let Some((t, e)) = self.find_held(number) else {
                    return;
                };
                let held = &mut self.live[t].held[e];
                match (held.state, held.kind) {
                    (4, Kind::D) => held.state = 5,
                    (7, Kind::D) => held.state = 8,
                    (6, _) => drop(self.live.remove(t)),
                    (7 | 9, _) => {
                        held.state = 10;
                        self.sweep(t);
                    }
                    (1..=4, _) => {
                        held.state = 10;
                        self.abort(t);
                    }
                    _ => {}
                }
            }
            Event::Ask(id, rm) => {
                if let Some(t) = self.find(id) {
                    for held in self.live[t].held.iter_mut() {
                        if held.kind == Kind::D && held.rm == rm && held.state == 8 {
                            held.state = 7;
                        }
                    }
                }
            }
            Event::Reenlisted(rm) => {
                if self.may_reenlist(rm) {
                    for t in (0..self.live.len()).rev() {
                        for held in self.live[t].held.iter_mut() {
                            if held.kind == Kind::D && held.rm == rm {
                                held.state = 10;
                            }
                        }
                        if self.live[t].state == 5 {
                            self.sweep(t);
                        }
                    }
                }
            }
            Event::Restart => {
                self.live.retain(Live::open);
                for live in &mut self.live {
                    live.held.retain(|held| held.kind == Kind::D);
                    for held in &mut live.held {
                        held.state = 8;
                        held.single = false;
                    }
                }
            }
        }
    }

    fn may_reenlist(&self, rm: u32) -> bool {
        let mut all = self.live.iter().flat_map(|live| &live.held);
        all.all(|held| held.kind != Kind::D || held.rm != rm || matches!(held.state, 8 | 10))
    }

    /// Starts phase one if no P is left.
    fn advance(&mut self, t: usize) {
        let live = &mut self.live[t];
        if live.held.iter().any(|held| held.kind == Kind::P) {
            return;
        }
        match live.held.as_mut_slice() {
            [] => drop(self.live.remove(t)),
            [only] if only.single => {
                only.state = 6;
                live.state = 4;
            }
            all => {
                all.iter_mut().for_each(|held| held.state = 3);
                live.state = 3;
            }
        }
    }

    /// Decides if no Preparing is left.
    fn decide(&mut self, t: usize) {
        if self.live[t].held.iter().any(|held| held.state == 3) {
            return;
        }
        let n = self.live[t]
            .held
            .iter()
            .filter(|held| held.kind == Kind::D)
            .count();
        if n > 0 {
            let open = self.live.iter().filter(|live| live.open()).count();
            if 4096 - self.used < 18 + 20 * n + 18 * (1 + open) {
                return self.abort(t);
            }
            self.used += 18 + 20 * n;
        }
        self.live[t].state = 5;
        self.live[t]
            .held
            .iter_mut()
            .for_each(|held| held.state += 3);
        self.sweep(t);
    }

    fn abort(&mut self, t: usize) {
        self.live[t].state = 6;
        for held in self.live[t].held.iter_mut() {
            held.state = if matches!(held.state, 5 | 10) { 10 } else { 9 };
        }
        self.sweep(t);
    }

    /// Ends the transaction if all is Done.
    fn sweep(&mut self, t: usize) {
        if self.live[t].held.iter().all(|held| held.state == 10) {
            self.used += if self.live[t].open() { 18 } else { 0 };
            self.live.remove(t);
        }
    }
}

struct Generator {
    random: Random,
    mix: Mix,
    model: Model,
    /// Lines left of a storm, in which those told to commit are lost.
    storm: usize,
    /// Events to come next, the last first.
    queue: Vec<Event>,
}

const VOTES: [&str; 3] = ["prepared", "readonly", "aborted"];
const REPLIES: [&str; 3] = ["committed", "aborted", "indoubt"];
const KINDS: [Kind; 3] = [Kind::P, Kind::V, Kind::D];
const MARKS: [Option<bool>; 3] = [None, Some(true), Some(false)];

impl Generator {
    /// An event that mostly fits.
    fn fitting(&mut self) -> Event {
        if let Some(event) = self.queue.pop() {
            return event;
        }
        match self.storm {
            0 if self.random.chance(8) => self.storm = 20 + self.random.below(100),
            0 => {}
            1 => {
                // Its end: often a restart, then the RMs come back.
                self.storm = 0;
                let first = self.random.between(1, 6);
                let back = (0..6).map(|k| Event::Reenlisted(1 + (first + k) % 6));
                self.queue.extend(back.take(1 + self.random.below(6)));
                if self.random.chance(if self.mix.brim { 40 } else { 600 }) {
                    return Event::Restart;
                }
            }
            _ => self.storm -= 1,
        }
        if self.random.chance(self.mix.restart) {
            return Event::Restart;
        }
        if self.random.chance(15) {
            return Event::Ask(self.random.between(1, 40), self.random.between(1, 6));
        }
        if self.random.chance(25) {
            let rm = self.random.between(1, 6);
            if self.model.may_reenlist(rm) || self.random.chance(50) {
                return Event::Reenlisted(rm);
            }
        }
        let live = self.model.live.len();
        let (spread, share) = if self.mix.brim {
            (self.mix.live, 300)
        } else {
            (1 + self.random.below(self.mix.live), 500)
        };
        let share = if self.storm > 0 { share / 3 } else { share };
        if live == 0 || self.random.chance(if live < spread { share } else { 5 }) {
            return self.begin();
        }
        // Mostly any live transaction; at times the longest, to fill it up.
        // On the brim mostly the first that is past Active, so that others
        // stay; and none leaves Active while there is room.
        let past = self.model.live.iter().position(|live| live.state > 1);
        let t = match past {
            Some(past) if self.mix.brim && self.random.chance(600) => past,
            _ if self.random.chance(150) => (0..live)
                .max_by_key(|&t| self.model.live[t].held.len())
                .unwrap_or(0),
            _ => self.random.below(live),
        };
        if self.mix.brim && self.model.live[t].state == 1 {
            let room = self.model.held() < 128 && self.model.live[t].held.len() < 16;
            if self.random.chance(if room { 850 } else { 60 }) {
                return self.enlist(t);
            }
        }
        match self.model.live[t].state {
            1 => self.in_active(t),
            2 => self.in_phase_zero(t),
            3 => self.in_phase_one(t),
            4 => self.in_single_phase(t),
            5 => self.in_committing(t),
            _ => self.in_aborting(t),
        }
    }

    fn begin(&mut self) -> Event {
        loop {
            let id = self.random.between(1, 40);
            if self.model.find(id).is_none() || self.random.chance(20) {
                return Event::Begin(id);
            }
        }
    }

    fn enlist(&mut self, t: usize) -> Event {
        let mut number = self.random.between(1, 200);
        while self.model.taken(number) && !self.random.chance(20) {
            number = self.random.between(1, 200);
        }
        if self.random.chance(5) {
            number = u32::MAX - self.random.between(0, 2);
        }
        let mut rm = if self.random.chance(250) {
            1
        } else {
            self.random.between(1, 6)
        };
        let roll = self.random.below(1000);
        let mut kind = if roll < self.mix.durable {
            Kind::D
        } else if roll < self.mix.durable + self.mix.zero {
            Kind::P
        } else {
            Kind::V
        };
        let live = &self.model.live[t];
        let second = |rm| {
            live.held
                .iter()
                .any(|held| held.kind == Kind::D && held.rm == rm)
        };
        if kind == Kind::D && second(rm) {
            match (1..=6).find(|&other| !second(other)) {
                Some(other) if !self.random.chance(20) => rm = other,
                Some(_) => {}
                None => kind = Kind::V,
            }
        }
        let mark = if self.random.chance(self.mix.single) {
            self.random.pick(&[None, Some(true)])
        } else {
            Some(false)
        };
        Event::Enlist(live.id, number, rm, kind, mark)
    }

    /// Whether to enlist into transaction `t` now.
    fn wants_enlist(&mut self, t: usize, share: usize) -> bool {
        let crowded = self.model.held() >= self.mix.held || self.model.live[t].held.len() >= 16;
        // A few tries where there is no room; few stay without any.
        let none = self.model.live[t].held.is_empty();
        self.random.chance(if crowded {
            30
        } else {
            share + usize::from(none) * (950 - share)
        })
    }

    /// The number of one of `t`'s enlistments in one of the states.
    fn one_in(&mut self, t: usize, states: &[u8]) -> Option<u32> {
        let held = &self.model.live[t].held;
        let fitting: Vec<u32> = held
            .iter()
            .filter(|held| states.contains(&held.state))
            .map(|h| h.number)
            .collect();
        (!fitting.is_empty()).then(|| self.random.pick(&fitting))
    }

    /// An Ask that names a D of `t`, if there is one.
    fn ask(&mut self, t: usize) -> Event {
        let live = &self.model.live[t];
        let rms: Vec<u32> = live
            .held
            .iter()
            .filter(|held| held.kind == Kind::D && held.state != 10)
            .map(|held| held.rm)
            .collect();
        if rms.is_empty() && !self.random.chance(100) {
            return Event::Ask(self.random.between(41, 60), self.random.between(1, 6));
        }
        let rm = if rms.is_empty() {
            1
        } else {
            self.random.pick(&rms)
        };
        Event::Ask(live.id, rm)
    }

    fn in_active(&mut self, t: usize) -> Event {
        if self.wants_enlist(t, self.mix.enlist) {
            return self.enlist(t);
        }
        let id = self.model.live[t].id;
        match self.random.below(100) {
            0..=4 => Event::Rollback(id),
            5..=8 => self.one_in(t, &[1]).map_or(Event::Commit(id), Event::Lost),
            9..=14 => self.ask(t),
            _ => Event::Commit(id),
        }
    }

    fn in_phase_zero(&mut self, t: usize) -> Event {
        let id = self.model.live[t].id;
        if self.wants_enlist(t, self.mix.enlist / 2) {
            return self.enlist(t);
        }
        match self.random.below(100) {
            0..=3 => Event::Rollback(id),
            4..=7 => self
                .one_in(t, &[1, 2])
                .map_or(Event::Rollback(id), Event::Lost),
            8..=12 => self.ask(t),
            _ => self
                .one_in(t, &[2])
                .map_or(Event::Rollback(id), Event::Zdone),
        }
    }

    fn in_phase_one(&mut self, t: usize) -> Event {
        let vote = match self.random.below(100) {
            0..=78 => "prepared",
            79..=95 => "readonly",
            _ => "aborted",
        };
        let preparing = self.one_in(t, &[3]).unwrap_or(1);
        match self.random.below(100) {
            0..=2 => Event::Lost(preparing),
            3..=12 => {
                // Mostly a prepared D: a V would abort it all.
                let lost = self
                    .one_in(t, &[4])
                    .and_then(|number| self.model.find_held(number));
                match lost.map(|(t, e)| self.model.live[t].held[e]) {
                    Some(held) if held.kind == Kind::D || self.random.chance(200) => {
                        Event::Lost(held.number)
                    }
                    _ => Event::Vote(preparing, vote),
                }
            }
            13..=18 => self.ask(t),
            _ => Event::Vote(preparing, vote),
        }
    }

    fn in_single_phase(&mut self, t: usize) -> Event {
        let number = self.one_in(t, &[6]).unwrap_or(1);
        match self.random.below(100) {
            0..=14 => Event::Lost(number),
            15..=34 => self.ask(t),
            _ => Event::Sp(number, self.random.pick(&REPLIES)),
        }
    }

    fn in_committing(&mut self, t: usize) -> Event {
        let failed = self.one_in(t, &[8]);
        if self.storm > 0 {
            if let Some(told) = self.one_in(t, &[7]) {
                return if self.random.chance(200) {
                    Event::Ack(told)
                } else {
                    Event::Lost(told)
                };
            }
        }
        match (self.one_in(t, &[7]), failed, self.random.below(100)) {
            (Some(told), _, 0..=44) => Event::Ack(told),
            (Some(told), _, 45..=64) => Event::Lost(told),
            (_, Some(number), 65..=89) => {
                let (t, e) = self.model.find_held(number).unwrap_or((t, 0));
                let rm = self.model.live[t].held[e].rm;
                if self.model.may_reenlist(rm) {
                    Event::Reenlisted(rm)
                } else {
                    Event::Ask(self.model.live[t].id, rm)
                }
            }
            _ => self.ask(t),
        }
    }

    fn in_aborting(&mut self, t: usize) -> Event {
        let told = self.one_in(t, &[9]).unwrap_or(1);
        match self.random.below(100) {
            0..=24 => Event::Lost(told),
            25..=34 => Event::Ask(self.model.live[t].id, self.random.between(1, 6)),
            _ => Event::Ack(told),
        }
    }

    /// An event taken without a look at the model, at times with a zero.
    fn blind(&mut self) -> Event {
        let random = &mut self.random;
        let small = |random: &mut Random, high| {
            if random.chance(40) {
                0
            } else {
                random.between(1, high)
            }
        };
        let t = small(random, 40);
        let n = small(random, 200);
        let rm = small(random, 6);
        match random.below(11) {
            0 => Event::Begin(t),
            1 | 2 => Event::Enlist(t, n, rm, random.pick(&KINDS), random.pick(&MARKS)),
            3 => Event::Commit(t),
            4 => {
                // A blind rollback or lost that hits undoes much: rarer.
                if random.chance(400) {
                    Event::Rollback(t)
                } else {
                    Event::Lost(n)
                }
            }
            5 => Event::Zdone(n),
            6 => Event::Vote(n, random.pick(&VOTES)),
            7 => Event::Sp(n, random.pick(&REPLIES)),
            8 => Event::Ack(n),
            9 => Event::Ask(t, rm),
            _ => Event::Reenlisted(rm),
        }
    }

    fn unreadable(&mut self) -> Vec<u8> {
        let event = self.blind();
        let mut line = text(event).into_bytes();
        let random = &mut self.random;
        match random.below(14) {
            0 => line.clear(),
            1 => line.push(b' '),
            2 => line.insert(0, b' '),
            3 => line.push(b'\r'),
            4 => line.extend(b" 1"),
            5 => {
                line = line
                    .iter()
                    .flat_map(|&b| vec![b; 1 + usize::from(b == b' ')])
                    .collect()
            }
            6 => line = text(event).replacen(' ', " 0", 1).into_bytes(),
            7 => line[0] = line[0].to_ascii_uppercase(),
            8 => line.truncate(random.below(4)),
            9 => line = format!("begin {}", random.between(256, 300)).into_bytes(),
            10 => {
                line = format!("ack {}", u64::from(u32::MAX) + 1 + random.next() % 9).into_bytes()
            }
            11 => line.resize(60 + random.below(10), b' '),
            12 => line.resize(65 + random.below(3000), b'7'),
            _ => {
                let length = random.below(80);
                line = (0..length).map(|_| random.next() as u8).collect();
                line.retain(|&byte| byte != b'\n');
            }
        }
        line
    }
}

fn text(event: Event) -> String {
    match event {
        Event::Begin(t) => format!("begin {t}"),
        Event::Enlist(t, n, rm, kind, mark) => {
            let kind = match kind {
                Kind::P => "zero",
                Kind::V => "volatile",
                Kind::D => "durable",
            };
            let mark = match mark {
                None => "",
                Some(true) => " single",
                Some(false) => " twophase",
            };
            format!("enlist {t} {n} {rm} {kind}{mark}")
        }
        Event::Commit(t) => format!("commit {t}"),
        Event::Rollback(t) => format!("rollback {t}"),
        Event::Zdone(n) => format!("zdone {n}"),
        Event::Vote(n, vote) => format!("vote {n} {vote}"),
        Event::Sp(n, reply) => format!("sp {n} {reply}"),
        Event::Ack(n) => format!("ack {n}"),
        Event::Lost(n) => format!("lost {n}"),
        Event::Ask(t, rm) => format!("ask {t} {rm}"),
        Event::Reenlisted(rm) => format!("reenlisted {rm}"),
        Event::Restart => "restart".into(),
    }
}

fn write_trace(
    random: Random,
    lines: u64,
    mix: Mix,
    last_newline: bool,
    mut output: impl Write,
) -> io::Result<()> {
    let model = Model {
        live: Vec::new(),
        used: 8,
    };
    let mut generator = Generator {
        random,
        mix,
        model,
        storm: 0,
        queue: Vec::new(),
    };
    for line in 1..=lines {
        let roll = generator.random.below(1000);
        let bytes = if roll < mix.unreadable {
            generator.unreadable()
        } else {
            let event = if roll < mix.unreadable + mix.blind {
                generator.blind()
            } else {
                generator.fitting()
            };
            generator.model.follow(event);
            text(event).into_bytes()
        };
        output.write_all(&bytes)?;
        if line < lines || last_newline {
            output.write_all(b"\n")?;
        }
    }
    output.flush()
}

// Logs for `peer --restart`.

/// Lines `CAPACITY STORED HEX`: logs mostly whole, at times damaged.
fn write_logs(mut random: Random, lines: u64, mut output: impl Write) -> io::Result<()> {
    for _ in 0..lines {
        let (capacity, stored, log) = random_log(&mut random);
        write!(output, "{capacity} {stored} ")?;
        for byte in log {
            write!(output, "{byte:02x}")?;
        }
        output.write_all(b"\n")?;
    }
    output.flush()
}

fn random_log(random: &mut Random) -> (usize, usize, Vec<u8>) {
    let mut log = b"RTL\x01\x00\x00\x00\x00".to_vec();
    // Open records by order: identifier and numbers.
    let mut open: Vec<([u8; 16], Vec<u32>)> = Vec::new();
    let records = random.pick(&[0, 1, 2, 3, 5, 8, 20, 60]);
    // At times only commits of few or of many entries, for the two limits.
    let forgets = random.pick(&[450, 450, 450, 20, 0]);
    let most = random.pick(&[1, 2, 4, 16]);
    // Share of faults that only a whole record shows.
    let faults = random.pick(&[0, 0, 0, 15, 60]);
    for _ in 0..records {
        let fault = random.chance(faults);
        if !open.is_empty() && random.chance(forgets) {
            let (mut id, _) = open.remove(random.below(open.len()));
            if fault {
                id = random_id(random);
            }
            log.extend([2, 0]);
            log.extend(id);
            continue;
        }
        let entries: Vec<u32> = open
            .iter()
            .flat_map(|(_, numbers)| numbers.clone())
            .collect();
        let n = 1 + random.below(most);
        if (open.len() >= 32 || entries.len() + n > 128) && !random.chance(60) {
            continue;
        }
        let mut id = random_id(random);
        while open.iter().any(|(other, _)| *other == id) && !fault {
            id = random_id(random);
        }
        let mut numbers: Vec<u32> = Vec::new();
        while numbers.len() < n {
            let number = match random.below(20) {
                0 => random.next() as u32,
                1 => u32::MAX,
                _ => random.between(1, 400),
            };
            if fault || (number != 0 && !entries.contains(&number) && !numbers.contains(&number)) {
                numbers.push(number);
            }
        }
        if !fault || random.chance(500) {
            numbers.sort_unstable();
        }
        log.extend([1, n as u8]);
        log.extend(id);
        let start = random.below(100) as u8;
        for (at, number) in numbers.iter().enumerate() {
            let mut rm = [0; 16];
            rm[random.pick(&[15, 15, 15, 0])] = start + 1 + at as u8;
            if fault && random.chance(100) {
                rm[15] = start + 1;
            }
            if fault && random.chance(50) {
                rm = [0; 16];
            }
            log.extend(rm);
            log.extend(number.to_le_bytes());
        }
        open.push((id, numbers));
    }

    let whole = log.len();
    let short = whole + 18 * open.len();
    let mut capacity = match random.below(10) {
        0 => short.saturating_sub(1),
        1 => short,
        2 => random.pick(&[0, 7, 8, 9, 63, 64, 65_535, 65_536, 65_537]),
        _ => 65_536 - random.below(20_000),
    };
    let mut stored = log.len();
    match random.below(10) {
        // Torn, or with more bytes behind.
        0 | 1 => stored = random.below(log.len() + 1),
        2 => {
            let tail = random.below(60);
            log.extend((0..tail).map(|_| random.pick(&[0, 1, 2, 1, 2, 16, 17, 255])));
            stored = log.len();
        }
        // One byte of any place, the header, or a byte of many zeros.
        3 => {
            let at = random.below(log.len());
            log[at] = random.next() as u8;
        }
        4 => log[random.below(8)] ^= 1 << random.below(8),
        5 => {
            stored = random.below(9);
            log.truncate(stored);
        }
        6 => stored += random.below(40),
        _ => {}
    }
    if random.chance(20) {
        capacity = stored.saturating_sub(random.below(3));
    }
    (capacity, stored, log)
}

/// Mostly of few values; differing in the first or the last byte.
fn random_id(random: &mut Random) -> [u8; 16] {
    let mut id = [0; 16];
    match random.below(40) {
        0 => id[0] = random.next() as u8,
        1 => id.iter_mut().for_each(|byte| *byte = random.next() as u8),
        _ => id[15] = random.between(1, 60) as u8,
    }
    id
}
