// The master: its clock, its open transactions, its log, and each call with its checks in document 01's order.

use crate::limits::*;
use crate::message;
use crate::rules::{self, Seen};

pub struct Transaction {
    pub name: u32,
    pub bounds: Bounds,
    pub reads: Vec<Version>,
    pub writes: Vec<(u32, i32)>,
}

impl Transaction {
    fn pending(&self, key: u32) -> Option<i32> {
        self.writes.iter().find(|w| w.0 == key).map(|w| w.1)
    }
}

pub struct Master {
    pub clock: u32,
    pub open: Vec<Transaction>,
    pub log: Vec<Version>,
}

pub enum Answer {
    Own(i32),
    Read(Version),
}

pub enum Rule {
    BV(usize),
    FV(usize),
    SV(usize, usize),
    WC(usize),
}

pub enum Outcome {
    Committed(u32),
    Aborted(Rule),
}

impl Master {
    pub fn new(clock: u32) -> Master {
        Master { clock, open: Vec::new(), log: Vec::new() }
    }

    fn place(&self, name: u32) -> Result<usize, Refusal> {
        self.open.iter().position(|t| t.name == name).ok_or(NOT_OPEN)
    }

    fn known_key(key: u32) -> Result<(), Refusal> {
        if key < KEYS { Ok(()) } else { Err(NO_SUCH_KEY) }
    }

    fn next_stamp(&self) -> Result<u32, Refusal> {
        if self.clock == LAST_STAMP { Err(CLOCK_SPENT) } else { Ok(self.clock + 1) }
    }

    fn seen(&self) -> Vec<Seen> {
        self.log.iter().map(|v| Seen { key: v.key, at: v.stamp }).collect()
    }

    /// The newest version of a key below 64.
    pub fn newest(&self, key: u32) -> Version {
        self.log.iter().rev().find(|v| v.key == key).copied().unwrap_or(start_version(key))
    }

    fn version(&self, key: u32, ordinal: u32) -> Option<Version> {
        if ordinal == 0 {
            return Some(start_version(key));
        }
        self.log.iter().find(|v| v.key == key && v.ordinal == ordinal).copied()
    }

    pub fn start(&mut self) -> Result<u32, Refusal> {
        if self.open.len() >= OPEN {
            return Err(TOO_MANY_OPEN);
        }
        let name = self.next_stamp()?;
        self.clock = name;
        self.open.push(Transaction { name, bounds: DEFAULT, reads: Vec::new(), writes: Vec::new() });
        Ok(name)
    }

    pub fn read(&mut self, name: u32, key: u32) -> Result<Answer, Refusal> {
        let place = self.place(name)?;
        Self::known_key(key)?;
        if let Some(value) = self.open[place].pending(key) {
            return Ok(Answer::Own(value));
        }
        let version = self.newest(key);
        self.record(place, version)?;
        Ok(Answer::Read(version))
    }

    pub fn note(&mut self, name: u32, key: u32, ordinal: u32) -> Result<Version, Refusal> {
        let place = self.place(name)?;
        Self::known_key(key)?;
        if self.open[place].pending(key).is_some() {
            return Err(OWN_KEY);
        }
        let version = self.version(key, ordinal).ok_or(NO_SUCH_ORDINAL)?;
        self.record(place, version)?;
        Ok(version)
    }

    fn record(&mut self, place: usize, version: Version) -> Result<(), Refusal> {
        let reads = &mut self.open[place].reads;
        if reads.len() >= READS {
            return Err(TRANSACTION_FULL);
        }
        reads.push(version);
        Ok(())
    }

    pub fn write(&mut self, name: u32, key: u32, value: i32) -> Result<(), Refusal> {
        let place = self.place(name)?;
        Self::known_key(key)?;
        let writes = &mut self.open[place].writes;
        if let Some(written) = writes.iter_mut().find(|w| w.0 == key) {
            written.1 = value;
            return Ok(());
        }
        if writes.len() >= WRITES {
            return Err(TRANSACTION_FULL);
        }
        writes.push((key, value));
        Ok(())
    }

    pub fn tune(&mut self, name: u32, bounds: Bounds) -> Result<(), Refusal> {
        let place = self.place(name)?;
        if bounds.k1 == 0 {
            return Err(NO_BOUND_NO_PLACE);
        }
        self.open[place].bounds = bounds;
        Ok(())
    }

    pub fn distance(&self, name: u32, read: u32) -> Result<i64, Refusal> {
        let t = &self.open[self.place(name)?];
        let version = t.reads.get(read as usize).ok_or(NO_BOUND_NO_PLACE)?;
        Ok(rules::distance(&self.seen(), t.name, Seen { key: version.key, at: version.stamp }))
    }

    pub fn abort(&mut self, name: u32) -> Result<(), Refusal> {
        let place = self.place(name)?;
        self.open.remove(place);
        Ok(())
    }

    fn first_broken(&self, t: &Transaction) -> Option<Rule> {
        let log = self.seen();
        let reads: Vec<Seen> = t.reads.iter().map(|v| Seen { key: v.key, at: v.stamp }).collect();
        if let Some(i) = rules::first_bv(&log, t.name, &reads, t.bounds.k1) {
            return Some(Rule::BV(i));
        }
        if let Some(i) = rules::first_fv(&log, t.name, &reads, t.bounds.k2) {
            return Some(Rule::FV(i));
        }
        if let Some((i, j)) = rules::first_sv(&log, &reads, t.bounds.k3) {
            return Some(Rule::SV(i, j));
        }
        // WC: no version of a written key has a stamp above the start.
        let overwritten = |key| log.iter().any(|v| v.key == key && v.at > t.name);
        t.writes.iter().position(|w| overwritten(w.0)).map(Rule::WC)
    }

    pub fn commit(&mut self, name: u32) -> Result<Outcome, Refusal> {
        let place = self.place(name)?;
        if let Some(rule) = self.first_broken(&self.open[place]) {
            self.open.remove(place);
            return Ok(Outcome::Aborted(rule));
        }
        if self.log.len() + self.open[place].writes.len() > LOG {
            return Err(LOG_FULL);
        }
        let stamp = self.next_stamp()?;
        self.clock = stamp;
        let t = self.open.remove(place);
        for (key, value) in t.writes {
            let ordinal = self.newest(key).ordinal + 1;
            self.log.push(Version { key, ordinal, stamp, value });
        }
        Ok(Outcome::Committed(stamp))
    }

    pub fn message(&self, stamp: u32, room: u32) -> Result<Vec<u8>, Refusal> {
        let versions: Vec<Version> = self.log.iter().filter(|v| v.stamp == stamp).copied().collect();
        if versions.is_empty() {
            return Err(NOTHING_WRITTEN);
        }
        let line = message::line(stamp, &versions);
        if line.len() as u64 > u64::from(room) { Err(NO_ROOM) } else { Ok(line) }
    }

    pub fn newest_stamp(&self, key: u32) -> Result<u32, Refusal> {
        Self::known_key(key)?;
        Ok(self.newest(key).stamp)
    }
}
