// The judge of a written history: its lines as records, then the rules RC, BV, FV, SV and WC over the whole of it.

use crate::decimal;
use crate::limits::*;
use crate::rules::{self, Seen};

enum Record {
    Start,
    Tune(Bounds),
    Read { key: u32, of: u32 },
    Write { key: u32 },
    Commit,
    Abort,
}

/// The transaction number and the record of a line (its newline taken off).
fn record(line: &[u8]) -> Option<(u32, Record)> {
    let t = |text: &[u8]| decimal::number(text, 1, u32::MAX);
    let key = |text: &[u8]| decimal::number(text, 0, KEYS - 1);
    let k = |text: &[u8], low: u32| decimal::number(text, low, 65_535);
    let fields: Vec<&[u8]> = line.split(|&b| b == b'\t').collect();
    Some(match fields[..] {
        [b"s", a] => (t(a)?, Record::Start),
        [b"k", a, b, c, d] => (t(a)?, Record::Tune(Bounds { k1: k(b, 1)?, k2: k(c, 0)?, k3: k(d, 0)? })),
        [b"r", a, b, c] => (t(a)?, Record::Read { key: key(b)?, of: decimal::number(c, 0, u32::MAX)? }),
        [b"w", a, b] => (t(a)?, Record::Write { key: key(b)? }),
        [b"c", a] => (t(a)?, Record::Commit),
        [b"a", a] => (t(a)?, Record::Abort),
        _ => return None,
    })
}

#[derive(PartialEq)]
enum End {
    Open,
    Committed(u32),
    Aborted,
}

struct Read {
    line: u32,
    key: u32,
    of: u32,
}

struct Write {
    line: u32,
    key: u32,
}

struct Transaction {
    number: u32,
    start: u32,
    end: End,
    bounds: Bounds,
    reads: Vec<Read>,
    writes: Vec<Write>,
}

impl Transaction {
    fn wrote(&self, key: u32) -> bool {
        self.writes.iter().any(|w| w.key == key)
    }

    fn commit_line(&self) -> Option<u32> {
        if let End::Committed(line) = self.end { Some(line) } else { None }
    }
}

/// A refusal carries its line, 0 for the whole history.
type Refused = (Refusal, usize);

/// The transactions in order of their starts.
fn transactions(text: &[u8]) -> Result<Vec<Transaction>, Refused> {
    if text.len() > HISTORY_BYTES {
        return Err((HISTORY_LONG, 0));
    }
    let mut all: Vec<Transaction> = Vec::new();
    let mut rest = text;
    let mut line = 0;
    while !rest.is_empty() {
        line += 1;
        if line > HISTORY_LINES {
            return Err((TOO_MANY_LINES, line));
        }
        let end = rest.iter().position(|&b| b == b'\n').ok_or((BAD_LINE, line))?;
        let (number, record) = record(&rest[..end]).ok_or((BAD_LINE, line))?;
        rest = &rest[end + 1..];
        take(&mut all, line as u32, number, record).map_err(|refusal| (refusal, line))?;
    }
    Ok(all)
}

fn take(all: &mut Vec<Transaction>, line: u32, number: u32, record: Record) -> Result<(), Refusal> {
    let place = all.iter().position(|t| t.number == number);
    if let Record::Start = record {
        if place.is_some() {
            return Err(WRONG_TRANSACTION);
        }
        if all.len() >= HISTORY_TRANSACTIONS {
            return Err(TOO_MANY_STARTS);
        }
        all.push(Transaction { number, start: line, end: End::Open, bounds: CALIBRATION, reads: Vec::new(), writes: Vec::new() });
        return Ok(());
    }
    let t = &mut all[place.ok_or(WRONG_TRANSACTION)?];
    if t.end != End::Open {
        return Err(WRONG_TRANSACTION);
    }
    match record {
        Record::Start => {}
        Record::Tune(bounds) => t.bounds = bounds,
        Record::Read { key, of } => t.reads.push(Read { line, key, of }),
        Record::Write { key } => t.writes.push(Write { line, key }),
        Record::Commit => t.end = End::Committed(line),
        Record::Abort => t.end = End::Aborted,
    }
    Ok(())
}

/// One version for each key of each committed transaction, at its commit line.
fn versions(all: &[Transaction]) -> Vec<Seen> {
    let mut log = Vec::new();
    for t in all {
        if let Some(at) = t.commit_line() {
            log.extend((0..KEYS).filter(|&key| t.wrote(key)).map(|key| Seen { key, at }));
        }
    }
    log
}

/// RC for one read of t: when its version was committed, or none if the rule is broken. A read of t's own write is no record.
enum Resolved {
    Own,
    Version(Seen),
    Broken,
}

fn resolve(all: &[Transaction], t: &Transaction, read: &Read) -> Resolved {
    if read.of == t.number {
        let written_before = t.writes.iter().any(|w| w.key == read.key && w.line < read.line);
        return if written_before { Resolved::Own } else { Resolved::Broken };
    }
    if read.of == 0 {
        return Resolved::Version(Seen { key: read.key, at: 0 });
    }
    let writer = all.iter().find(|w| w.number == read.of && w.wrote(read.key));
    match writer.and_then(Transaction::commit_line) {
        Some(at) if at < read.line => Resolved::Version(Seen { key: read.key, at }),
        _ => Resolved::Broken,
    }
}

/// The first broken rule of a transaction committed at a line.
fn verdict(all: &[Transaction], log: &[Seen], t: &Transaction, commit: u32) -> &'static str {
    let mut reads = Vec::new();
    for read in &t.reads {
        match resolve(all, t, read) {
            Resolved::Own => {}
            Resolved::Version(seen) => reads.push(seen),
            Resolved::Broken => return "RC",
        }
    }
    if rules::first_bv(log, t.start, &reads, t.bounds.k1).is_some() {
        return "BV";
    }
    if rules::first_fv(log, t.start, &reads, t.bounds.k2).is_some() {
        return "FV";
    }
    if rules::first_sv(log, &reads, t.bounds.k3).is_some() {
        return "SV";
    }
    // WC: T's own versions stand at its commit, so strictly between leaves only others'.
    let overwritten = |key| log.iter().any(|v| v.key == key && t.start < v.at && v.at < commit);
    if t.writes.iter().any(|w| overwritten(w.key)) { "WC" } else { "ok" }
}

pub fn judge(text: &[u8]) -> String {
    let all = match transactions(text) {
        Ok(all) => all,
        Err((refusal, line)) => return format!("refused {} {line}\n", refusal.0),
    };
    let log = versions(&all);
    let mut committed: Vec<(u32, &Transaction)> = all.iter().filter_map(|t| Some((t.commit_line()?, t))).collect();
    committed.sort_by_key(|c| c.0);
    let mut output = format!("judge {}\n", committed.len());
    for (line, t) in &committed {
        output += &format!("{} {}\n", t.number, verdict(&all, &log, t, *line));
    }
    let aborted = all.iter().filter(|t| t.end == End::Aborted).count();
    let open = all.iter().filter(|t| t.end == End::Open).count();
    output + &format!("total {} {} {aborted} {open}\n", all.len(), committed.len())
}
