// Made-up sessions: a seed gives steps, mostly sensible ones on few hot keys and few transactions, so that every rule is met.

use crate::damage;
use crate::limits::*;
use crate::master::Transaction;
use crate::random::Random;
use crate::session::Session;

const WORDS: usize = 15;

/// What a session is about.
struct Kind {
    weights: [u64; WORDS],
    keys: (u64, u64),
    crowd: (u64, u64),
    damage: u64,
}

// Weights of open, start, read, note, write, tune, distance, abort, commit, message, newest, copy, take, look, compare.
const HOT: Kind = Kind { weights: [1, 140, 120, 170, 150, 110, 60, 8, 130, 30, 15, 1, 30, 15, 20], keys: (1, 4), crowd: (2, 5), damage: 3 };
const WIDE: Kind = Kind { weights: [1, 60, 220, 180, 380, 30, 30, 1, 12, 30, 20, 1, 30, 20, 10], keys: (17, 64), crowd: (1, 3), damage: 2 };
const CROWD: Kind = Kind { weights: [1, 500, 60, 60, 80, 40, 20, 15, 30, 10, 10, 1, 10, 10, 10], keys: (1, 6), crowd: (33, 33), damage: 2 };
const COPIES: Kind = Kind { weights: [3, 110, 10, 30, 190, 10, 5, 5, 150, 160, 30, 8, 200, 80, 90], keys: (1, 12), crowd: (1, 3), damage: 3 };
const DAMAGED: Kind = Kind { weights: [5, 60, 60, 60, 60, 60, 60, 30, 60, 60, 60, 5, 60, 60, 60], keys: (1, 4), crowd: (2, 8), damage: 60 };
const FULL: Kind = Kind { weights: [0, 150, 60, 80, 300, 60, 40, 10, 180, 30, 20, 1, 30, 20, 20], keys: (17, 64), crowd: (1, 6), damage: 1 };

struct Maker {
    r: Random,
    text: Vec<u8>,
    /// The reference plays along: it says what is open and what is there.
    session: Session,
    keys: Vec<u32>,
    crowd: usize,
    /// Stamps of this master's commits that wrote something.
    stamps: Vec<u32>,
    /// Messages answered, by masters before it too.
    messages: Vec<Vec<u8>>,
}

/// A session of the given number of steps; one in a hundred is longer and fills the log, or one key of it, first.
pub fn session(seed: u64, steps: usize) -> Vec<u8> {
    let mut r = Random::new(seed);
    let long = r.one_in(100);
    let late = !long && r.one_in(10);
    let kind = match r.weighted(&[50, 14, 6, 22, 8]) {
        _ if long => FULL,
        0 => HOT,
        1 => WIDE,
        2 => CROWD,
        3 => COPIES,
        _ => DAMAGED,
    };
    let late = late || !long && kind.crowd.0 > OPEN as u64 && r.one_in(3);
    let mut keys: Vec<u32> = Vec::new();
    let wanted = r.between(kind.keys.0, kind.keys.1) as usize;
    while keys.len() < wanted {
        let key = r.below(u64::from(KEYS)) as u32;
        if !keys.contains(&key) {
            keys.push(key);
        }
    }
    let crowd = r.between(kind.crowd.0, kind.crowd.1) as usize;
    let clock = first_clock(&mut r, late, long);
    let mut maker = Maker { r, text: Vec::new(), session: Session::new(), keys, crowd, stamps: Vec::new(), messages: Vec::new() };
    maker.say(format!("open {clock}"));
    maker.say("copy");
    if long {
        maker.fill();
    }
    for _ in 2..steps {
        let line = maker.step(&kind.weights);
        maker.say_damaged(line, kind.damage);
    }
    maker.text
}

/// Mostly 0; else the clock is spent within the session, for a long one at about the time when the log is full.
fn first_clock(r: &mut Random, late: bool, long: bool) -> u32 {
    if late {
        LAST_STAMP - r.below(70) as u32
    } else if long && r.one_in(2) {
        LAST_STAMP - r.between(510, 560) as u32
    } else if r.one_in(8) {
        r.next() as u32
    } else {
        0
    }
}

impl Maker {
    fn say(&mut self, line: impl Into<Vec<u8>>) {
        let line = line.into();
        let reply = self.session.play(&line);
        self.text.extend_from_slice(&line);
        self.text.push(b'\n');
        if reply.starts_with(b"p\t") {
            self.messages.push(reply[..reply.len() - 1].to_vec());
        } else if reply.starts_with(b"commit ") {
            let master = &self.session.master;
            self.stamps.extend(master.log.last().map(|v| v.stamp).filter(|&stamp| stamp == master.clock));
        } else if reply.starts_with(b"open ") {
            self.stamps.clear();
        }
    }

    fn say_damaged(&mut self, line: Vec<u8>, percent: u64) {
        if !self.r.percent(percent) {
            return self.say(line);
        }
        let damaged = match self.r.below(8) {
            0 => self.long_line(),
            _ => damage::line(&mut self.r, &line, b' '),
        };
        self.say(damaged);
    }

    /// A line of about the greatest length that is still read, or far above it.
    fn long_line(&mut self) -> Vec<u8> {
        let mut line = self.r.pick(&[&b"take p\t1"[..], b"take ", b"start", b"start ", b"open 1", b"x"]).to_vec();
        let length = if self.r.one_in(2) { self.r.between(395, 405) } else { self.r.between(200, 5000) };
        let fill = self.r.pick(b"0 \t9a");
        line.resize(length as usize, fill);
        line
    }

    /// Commits until the log is full or nearly so, or until one or two keys have many versions.
    fn fill(&mut self) {
        let deep = self.r.one_in(3);
        let (each, until) = match self.r.below(10) {
            0 if deep => (1, LOG),
            _ if deep => (self.r.between(1, 2) as usize, self.r.between(200, 700) as usize),
            _ => (WRITES, LOG - self.r.pick(&[0, 0, 1, 17])),
        };
        if deep {
            self.keys.truncate(each);
        }
        for _ in 0..until / each {
            self.say("start");
            let name = self.session.master.clock;
            let first = self.r.below(self.keys.len() as u64) as usize;
            for i in 0..each {
                let key = self.keys[(first + i) % self.keys.len()];
                let value = self.value();
                self.say(format!("write {name} {key} {value}"));
            }
            self.say(format!("commit {name}"));
            if self.session.master.clock == LAST_STAMP {
                return;
            }
        }
    }

    fn step(&mut self, weights: &[u64; WORDS]) -> Vec<u8> {
        let mut word = self.r.weighted(weights);
        if self.session.master.open.is_empty() && (2..=8).contains(&word) && self.r.percent(80) {
            word = 1;
        }
        if word == 12 && self.messages.is_empty() && self.r.percent(80) {
            word = 9;
        }
        if word == 9 && self.stamps.is_empty() && self.r.percent(90) {
            word = 4;
        }
        if word == 1 && self.session.master.open.len() >= self.crowd && self.r.percent(90) {
            word = 8;
        }
        let spent = self.session.master.open.is_empty() && self.session.master.clock == LAST_STAMP;
        if word == 1 && spent && self.r.one_in(8) {
            word = 0;
        }
        match word {
            0 => format!("open {}", if self.r.percent(70) { 0 } else { self.number() }),
            1 => "start".to_string(),
            2 => format!("read {} {}", self.name(), self.key()),
            3 => {
                let key = self.key();
                format!("note {} {key} {}", self.name(), self.ordinal(key))
            }
            4 => format!("write {} {} {}", self.name(), self.key(), self.value()),
            5 => {
                let name = self.name();
                let [k1, k2, k3] = self.bounds(name);
                format!("tune {name} {k1} {k2} {k3}")
            }
            6 => {
                let name = self.name();
                format!("distance {name} {}", self.place(name))
            }
            7 => format!("abort {}", self.name()),
            8 => format!("commit {}", self.name()),
            9 => {
                let stamp = self.stamp();
                format!("message {stamp} {}", self.room(stamp))
            }
            10 => format!("newest {}", self.key()),
            11 => "copy".to_string(),
            12 => return [b"take ".to_vec(), self.message()].concat(),
            13 => format!("look {}", self.key()),
            _ => "compare".to_string(),
        }
        .into_bytes()
    }

    /// Any number, mostly a small one.
    fn number(&mut self) -> u32 {
        match self.r.below(4) {
            0 => self.r.below(100) as u32,
            1 => self.r.below(2) as u32,
            2 => LAST_STAMP - self.r.below(3) as u32,
            _ => self.r.next() as u32,
        }
    }

    fn open(&self, name: u32) -> Option<&Transaction> {
        self.session.master.open.iter().find(|t| t.name == name)
    }

    fn name(&mut self) -> u32 {
        // One that has done something, mostly.
        let mut names: Vec<u32> = self.session.master.open.iter().map(|t| t.name).collect();
        if self.r.percent(70) {
            let busy = |name: &u32| self.open(*name).is_some_and(|t| !t.reads.is_empty() || !t.writes.is_empty());
            let some: Vec<u32> = names.iter().copied().filter(busy).collect();
            names = if some.is_empty() { names } else { some };
        }
        if !names.is_empty() && self.r.percent(97) {
            return self.r.pick(&names);
        }
        match self.r.below(3) {
            0 => self.number(),
            _ => self.session.master.clock.wrapping_add(1).wrapping_sub(self.r.below(10) as u32),
        }
    }

    fn key(&mut self) -> u32 {
        match self.r.below(200) {
            0 => KEYS + self.r.below(2) as u32,
            1 => self.number(),
            2..=5 => self.r.below(u64::from(KEYS)) as u32,
            _ => self.r.pick(&self.keys),
        }
    }

    /// Mostly one of the newest few.
    fn ordinal(&mut self, key: u32) -> u32 {
        let newest = self.session.master.newest(key).ordinal;
        match self.r.below(40) {
            0 => newest + 1,
            1 => self.number(),
            2..=7 => self.r.below(u64::from(newest) + 1) as u32,
            8 | 9 => 0,
            _ => newest.saturating_sub(self.r.pick(&[0, 0, 1, 1, 2, 3])),
        }
    }

    fn value(&mut self) -> i32 {
        match self.r.below(4) {
            0 => self.r.pick(&[0, 1, -1, i32::MAX, i32::MIN]),
            1 => self.r.next() as i32,
            _ => self.r.below(2000) as i32 - 1000,
        }
    }

    /// Calibration's, small ones, or the ones that the reads just keep or just miss.
    fn bounds(&mut self, name: u32) -> [u64; 3] {
        if self.r.one_in(40) {
            return [0, self.r.below(3), self.r.below(3)];
        }
        if self.r.one_in(8) {
            return [CALIBRATION.k1, CALIBRATION.k2, CALIBRATION.k3].map(u64::from);
        }
        let mut k = [self.r.pick(&[1, 2, 3, 5, 65_535]), self.r.pick(&[0, 1, 3, 5, 65_535]), self.r.pick(&[0, 0, 0, 1, 1, 2, 3, 65_535])];
        let distances: Vec<i64> = (0..READS as u32).filter_map(|place| self.session.master.distance(name, place).ok()).collect();
        if !distances.is_empty() && self.r.one_in(2) {
            let (stale, early) = (distances.iter().max().unwrap(), -distances.iter().min().unwrap());
            k[0] = (stale + self.r.below(2) as i64).max(1) as u64;
            k[1] = (early - self.r.one_in(3) as i64).max(0) as u64;
        }
        k
    }

    fn place(&mut self, name: u32) -> u32 {
        let reads = self.open(name).map_or(0, |t| t.reads.len()) as u64;
        match self.r.below(20) {
            0 => self.number(),
            1 => reads as u32,
            _ => self.r.below(reads.max(1)) as u32,
        }
    }

    fn stamp(&mut self) -> u32 {
        if self.stamps.is_empty() || self.r.one_in(20) {
            return self.number();
        }
        if self.r.one_in(2) { *self.stamps.last().unwrap() } else { self.r.pick(&self.stamps) }
    }

    /// Enough mostly; else just enough or just too little.
    fn room(&mut self, stamp: u32) -> u32 {
        let length = self.session.master.message(stamp, LAST_STAMP).map_or(0, |line| line.len() as u32);
        match self.r.below(20) {
            0 => self.number(),
            1 => length,
            2 => length.saturating_sub(1),
            3 => self.r.below(u64::from(length) + 1) as u32,
            _ => self.r.pick(&[333, 400, 4096]),
        }
    }

    /// One that was answered, the newest or any again, or an invented one; some of them damaged.
    fn message(&mut self) -> Vec<u8> {
        let line = if self.messages.is_empty() || self.r.one_in(30) {
            self.invented()
        } else if self.r.one_in(2) {
            self.messages.last().unwrap().clone()
        } else {
            let at = self.r.below(self.messages.len() as u64) as usize;
            self.messages[at].clone()
        };
        if self.r.one_in(8) { damage::line(&mut self.r, &line, b'\t') } else { line }
    }

    fn invented(&mut self) -> Vec<u8> {
        let versions = self.r.pick(&[0, 1, 1, 1, 2, 3, 5, 15, 16, 17]);
        let mut line = format!("p\t{}", self.number());
        let first = self.r.below(u64::from(KEYS)) as u32;
        for i in 0..versions {
            let key = if self.r.one_in(50) { first } else { (first + 5 * i) % KEYS };
            let ordinal = match self.r.below(60) {
                0 => self.number(),
                1 => LOG as u32 + self.r.below(2) as u32,
                _ => self.session.master.newest(key).ordinal.max(1),
            };
            line += &format!("\t{key}\t{ordinal}\t{}", self.value());
        }
        line.into_bytes()
    }
}
