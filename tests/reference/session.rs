// The session language: a step a line, a reply a line.

use crate::copy::Copy;
use crate::decimal;
use crate::limits::*;
use crate::master::{Answer, Master, Outcome, Rule};
use std::io::{self, BufRead, Write};

const LINE: usize = 400;

pub enum Step {
    Open(u32),
    Start,
    Read(u32, u32),
    Note(u32, u32, u32),
    Write(u32, u32, i32),
    Tune(u32, Bounds),
    Distance(u32, u32),
    Abort(u32),
    Commit(u32),
    Message(u32, u32),
    Newest(u32),
    Copy,
    Take(Vec<u8>),
    Look(u32),
    Compare,
}

/// The step that a line (its newline taken off) is, or none.
fn step(line: &[u8]) -> Option<Step> {
    if line.len() > LINE {
        return None;
    }
    if let Some(text) = line.strip_prefix(b"take ") {
        return Some(Step::Take(text.to_vec()));
    }
    let n = |text: &[u8]| decimal::number(text, 0, u32::MAX);
    let k = |text: &[u8]| decimal::number(text, 0, 65_535);
    let words: Vec<&[u8]> = line.split(|&b| b == b' ').collect();
    Some(match words[..] {
        [b"open", a] => Step::Open(n(a)?),
        [b"start"] => Step::Start,
        [b"read", a, b] => Step::Read(n(a)?, n(b)?),
        [b"note", a, b, c] => Step::Note(n(a)?, n(b)?, n(c)?),
        [b"write", a, b, c] => Step::Write(n(a)?, n(b)?, decimal::value(c)?),
        [b"tune", a, b, c, d] => Step::Tune(n(a)?, Bounds { k1: k(b)?, k2: k(c)?, k3: k(d)? }),
        [b"distance", a, b] => Step::Distance(n(a)?, n(b)?),
        [b"abort", a] => Step::Abort(n(a)?),
        [b"commit", a] => Step::Commit(n(a)?),
        [b"message", a, b] => Step::Message(n(a)?, n(b)?),
        [b"newest", a] => Step::Newest(n(a)?),
        [b"copy"] => Step::Copy,
        [b"look", a] => Step::Look(n(a)?),
        [b"compare"] => Step::Compare,
        _ => return None,
    })
}

pub struct Session {
    pub master: Master,
    pub copy: Copy,
}

impl Session {
    pub fn new() -> Session {
        Session { master: Master::new(0), copy: Copy::new() }
    }

    /// The reply to a line (its newline taken off), with its newline.
    pub fn play(&mut self, line: &[u8]) -> Vec<u8> {
        let Some(step) = step(line) else {
            return b"unknown\n".to_vec();
        };
        self.reply(step).unwrap_or_else(|refusal| format!("refused {}\n", refusal.0).into_bytes())
    }

    fn reply(&mut self, step: Step) -> Result<Vec<u8>, Refusal> {
        let text = match step {
            Step::Open(n) => {
                self.master = Master::new(n);
                format!("open {n}\n")
            }
            Step::Start => format!("start {}\n", self.master.start()?),
            Step::Read(t, key) => match self.master.read(t, key)? {
                Answer::Own(value) => format!("own {value}\n"),
                Answer::Read(version) => of_version("read", version),
            },
            Step::Note(t, key, ordinal) => of_version("note", self.master.note(t, key, ordinal)?),
            Step::Write(t, key, value) => {
                self.master.write(t, key, value)?;
                "write\n".to_string()
            }
            Step::Tune(t, bounds) => {
                self.master.tune(t, bounds)?;
                "tune\n".to_string()
            }
            Step::Distance(t, place) => format!("distance {}\n", self.master.distance(t, place)?),
            Step::Abort(t) => {
                self.master.abort(t)?;
                "abort\n".to_string()
            }
            Step::Commit(t) => match self.master.commit(t)? {
                Outcome::Committed(stamp) => format!("commit {stamp}\n"),
                Outcome::Aborted(Rule::BV(i)) => format!("aborted BV {i}\n"),
                Outcome::Aborted(Rule::FV(i)) => format!("aborted FV {i}\n"),
                Outcome::Aborted(Rule::SV(i, j)) => format!("aborted SV {i} {j}\n"),
                Outcome::Aborted(Rule::WC(i)) => format!("aborted WC {i}\n"),
            },
            Step::Message(stamp, room) => return self.master.message(stamp, room),
            Step::Newest(key) => format!("newest {}\n", self.master.newest_stamp(key)?),
            Step::Copy => {
                self.copy = Copy::new();
                "copy\n".to_string()
            }
            Step::Take(text) => {
                self.copy.take(&text)?;
                "take\n".to_string()
            }
            Step::Look(key) => of_version("look", self.copy.look(key)?),
            Step::Compare => {
                let found = self.copy.compare(&self.master)?;
                format!("compare {} {} {}\n", found.behind, found.count, found.lowest)
            }
        };
        Ok(text.into_bytes())
    }
}

fn of_version(word: &str, v: Version) -> String {
    format!("{word} {} {} {}\n", v.ordinal, v.stamp, v.value)
}

/// Plays every ended line; a last line without its newline is not played.
pub fn play(mut input: impl BufRead, mut output: impl Write) -> io::Result<()> {
    let mut session = Session::new();
    let mut line = Vec::new();
    loop {
        line.clear();
        input.read_until(b'\n', &mut line)?;
        let Some(text) = line.strip_suffix(b"\n") else {
            return output.flush();
        };
        output.write_all(&session.play(text))?;
    }
}
