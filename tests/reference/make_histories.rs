// Made-up histories: a seed gives lines, mostly sensible ones on few hot keys and few transactions, so that every rule and refusal is met.

use crate::damage;
use crate::limits::*;
use crate::random::Random;

struct Open {
    number: u32,
    written: Vec<u32>,
    read: Vec<u32>,
}

const SHORT: [u64; 5] = [8, 42, 25, 19, 2];

/// Long transactions: the history's other limits are met before the 513th start.
const LONG: [u64; 5] = [8, 52, 32, 6, 1];

struct Maker {
    r: Random,
    lines: Vec<Vec<u8>>,
    bytes: usize,
    keys: Vec<u32>,
    open: Vec<Open>,
    ended: Vec<u32>,
    /// For each committed transaction its number and the keys it wrote, oldest first.
    committed: Vec<(u32, Vec<u32>)>,
    started: usize,
    /// How many are open at once, mostly.
    crowd: u64,
    /// How likely tune, read, write, commit and abort are.
    weights: [u64; 5],
    /// How daring the reads are: how many versions back, and how often of a version that is not there.
    back: u64,
    wrong: u64,
    large: bool,
}

pub fn history(seed: u64) -> Vec<u8> {
    let mut r = Random::new(seed ^ 0x1157);
    let lines = match r.below(200) {
        0 => r.between(4090, 4100),
        1..=3 => r.between(1000, 4000),
        4..=120 => r.between(0, 60),
        _ => r.between(40, 300),
    } as usize;
    let shape = r.below(60);
    let (keys, crowd) = (r.between(1, 5), r.between(1, 6));
    let mut maker = Maker {
        keys: (0..keys).map(|_| r.below(u64::from(KEYS)) as u32).collect(),
        crowd,
        weights: SHORT,
        back: r.pick(&[1, 2, 2, 4]),
        wrong: r.pick(&[0, 0, 1, 5]),
        large: r.one_in(10),
        lines: Vec::new(),
        bytes: 0,
        open: Vec::new(),
        ended: Vec::new(),
        committed: Vec::new(),
        started: 0,
        r,
    };
    match shape {
        0 => maker.many_starts(),
        1 => maker.many_bytes(),
        2 => maker.many_lines(),
        3 if maker.r.one_in(5) => maker.many_reads(),
        _ => {
            for _ in 0..lines {
                maker.step();
            }
        }
    }
    maker.text()
}

impl Maker {
    fn say(&mut self, line: String) {
        self.bytes += line.len() + 1;
        self.lines.push(line.into_bytes());
    }

    /// The lines put together; a third of the histories is damaged somewhere.
    fn text(mut self) -> Vec<u8> {
        if self.r.one_in(3) && !self.lines.is_empty() {
            for _ in 0..self.r.pick(&[1, 1, 1, 2, 3]) {
                self.damage();
            }
        }
        let mut text = self.lines.join(&b'\n');
        if !self.lines.is_empty() && !self.r.one_in(25) {
            text.push(b'\n');
        }
        if self.r.one_in(100) {
            text.push(self.r.pick(b"\n\tsx\0"));
        }
        text
    }

    /// A damaged line, or one that speaks of the wrong transaction.
    fn damage(&mut self) {
        let at = self.r.below(self.lines.len() as u64) as usize;
        match self.r.below(6) {
            0 => {
                let number = self.any_number();
                self.lines[at] = format!("s\t{number}").into_bytes();
            }
            1 => {
                let (word, number) = (self.r.pick(&["c", "a"]), self.any_number());
                self.lines.insert(at, format!("{word}\t{number}").into_bytes());
            }
            2 => {
                let (number, key) = (self.any_number(), self.r.below(u64::from(KEYS)));
                self.lines.insert(at, format!("r\t{number}\t{key}\t0").into_bytes());
            }
            _ => self.lines[at] = damage::line(&mut self.r, &self.lines[at], b'\t'),
        }
    }

    fn any_number(&mut self) -> u32 {
        if self.ended.is_empty() || self.r.one_in(3) { self.r.between(1, 40) as u32 } else { self.r.pick(&self.ended) }
    }

    fn start(&mut self) {
        self.started += 1;
        // Numbers rise, with gaps and above each other's order; large ones count down from the greatest.
        let number = if self.large { u32::MAX - self.started as u32 * 3 } else { (self.started as u32) ^ 1 } + 1;
        self.say(format!("s\t{number}"));
        self.open.push(Open { number, written: Vec::new(), read: Vec::new() });
        if self.r.percent(40) {
            self.tune(number);
        }
    }

    fn tune(&mut self, number: u32) {
        let k1 = if self.r.one_in(1500) { 0 } else { self.r.pick(&[1, 2, 3, 4, 65_535]) };
        let k2 = self.r.pick(&[0, 1, 2, 3, 65_535]);
        let k3 = self.r.pick(&[0, 0, 0, 1, 2, 65_535]);
        self.say(format!("k\t{number}\t{k1}\t{k2}\t{k3}"));
    }

    fn step(&mut self) {
        let full = self.open.len() as u64 >= self.crowd;
        if self.open.is_empty() || !full && self.r.percent(25) || self.r.one_in(60) {
            return self.start();
        }
        let i = self.r.below(self.open.len() as u64) as usize;
        let number = self.open[i].number;
        match self.r.weighted(&self.weights) {
            0 => self.tune(number),
            1 => self.read(i),
            2 => {
                let key = self.key();
                self.open[i].written.push(key);
                self.say(format!("w\t{number}\t{key}"));
            }
            3 => {
                let done = self.open.swap_remove(i);
                self.ended.push(number);
                self.committed.push((number, done.written));
                self.say(format!("c\t{number}"));
            }
            _ => {
                self.open.swap_remove(i);
                self.ended.push(number);
                self.say(format!("a\t{number}"));
            }
        }
    }

    fn key(&mut self) -> u32 {
        if self.r.one_in(5000) {
            KEYS
        } else if self.r.one_in(40) {
            self.r.below(u64::from(KEYS)) as u32
        } else {
            self.r.pick(&self.keys)
        }
    }

    fn read(&mut self, i: usize) {
        let number = self.open[i].number;
        let mut key = self.key();
        if !self.open[i].read.is_empty() && self.r.one_in(4) {
            key = self.r.pick(&self.open[i].read);
        }
        self.open[i].read.push(key);
        let writers: Vec<u32> = self.committed.iter().rev().filter(|c| c.1.contains(&key)).map(|c| c.0).collect();
        let of = if self.r.percent(self.wrong) {
            self.wrong_writer(i)
        } else if self.open[i].written.contains(&key) && self.r.percent(80) {
            number
        } else {
            // `back` versions back at most; past the oldest it is the start version.
            let back = self.r.below(self.back) as usize;
            writers.get(back).copied().unwrap_or(0)
        };
        self.say(format!("r\t{number}\t{key}\t{of}"));
    }

    /// Itself, one still open, an ended one that perhaps aborted or wrote something else, or none at all.
    fn wrong_writer(&mut self, i: usize) -> u32 {
        let open: Vec<u32> = self.open.iter().map(|t| t.number).collect();
        match self.r.below(4) {
            0 => self.open[i].number,
            1 => self.r.pick(&open),
            2 if !self.ended.is_empty() => self.r.pick(&self.ended),
            _ => self.r.next() as u32,
        }
    }

    /// About 512 transactions.
    fn many_starts(&mut self) {
        let starts = self.r.between(509, 515) as usize;
        let share = self.r.between(0, 6);
        while self.started < starts {
            if self.r.below(10) < share && self.lines.len() < 3000 { self.step() } else { self.start() }
        }
        if self.r.one_in(4) {
            let again = self.any_number();
            self.say(format!("s\t{again}"));
        }
        for _ in 0..self.r.below(600) {
            self.step();
        }
    }

    /// About 65,536 bytes, often that many exactly or one more.
    fn many_bytes(&mut self) {
        self.say("s\t7".to_string());
        self.started = 10;
        self.large = true;
        self.weights = LONG;
        while self.bytes < HISTORY_BYTES - 80 {
            self.step();
        }
        let mut left = HISTORY_BYTES + self.r.below(2) as usize - self.bytes;
        // `w 7 5` with its newline is 6 bytes, `w 7 55` 7.
        while left >= 6 {
            let line = if left % 6 != 0 { "w\t7\t55" } else { "w\t7\t5" };
            self.say(line.to_string());
            left -= line.len() + 1;
        }
    }

    /// About 4,096 lines.
    fn many_lines(&mut self) {
        self.weights = LONG;
        let lines = self.r.between(4094, 4099) as usize;
        while self.lines.len() < lines {
            self.step();
        }
    }

    /// One transaction that reads far more than 16 versions of one key or two.
    fn many_reads(&mut self) {
        self.keys.truncate(2);
        self.start();
        let reader = self.open.pop().unwrap();
        for _ in 0..self.r.between(100, 900) {
            self.step();
        }
        self.open.push(reader);
        let i = self.open.len() - 1;
        self.back = self.r.pick(&[1, 3, 500]);
        for _ in 0..self.r.between(100, 2500) {
            self.read(i);
        }
        let number = self.open[i].number;
        let (k1, k2, k3) = (self.r.pick(&[1, 200, 65_535]), self.r.pick(&[0, 200, 65_535]), self.r.pick(&[0, 200, 65_535]));
        self.say(format!("k\t{number}\t{k1}\t{k2}\t{k3}"));
        self.say(format!("c\t{number}"));
    }
}
