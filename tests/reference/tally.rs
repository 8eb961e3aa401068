// How often each step got each kind of reply, and each history each verdict or refusal, with whose bounds; and which of them never came.

use crate::limits::{HISTORY_BYTES, HISTORY_LINES, HISTORY_TRANSACTIONS};
use std::collections::{BTreeMap, BTreeSet};

/// For each step, and for a history, what a long comparison has to meet.
const WANTED: [(&str, &[&str]); 20] = [
    ("open", &["open"]),
    ("start", &["start", "refused 3", "refused 5"]),
    ("read", &["read", "own", "refused 1", "refused 2", "refused 4"]),
    ("note", &["note", "refused 1", "refused 2", "refused 8", "refused 7", "refused 4"]),
    ("write", &["write", "refused 1", "refused 2", "refused 4"]),
    ("tune", &["tune", "refused 1", "refused 9"]),
    ("distance", &["stale", "newest", "later", "refused 1", "refused 9"]),
    ("abort", &["abort", "refused 1"]),
    ("commit", &["commit", "refused 1", "aborted BV", "aborted FV", "aborted SV", "aborted WC", "refused 6", "refused 5"]),
    // SV holds under both where BV and FV do.
    ("commit", &["untuned: commit", "untuned, one behind: commit", "untuned: aborted BV", "untuned: aborted FV", "untuned: aborted WC"]),
    ("commit", &["calibration: commit", "calibration: aborted BV", "calibration: aborted FV", "calibration: aborted WC"]),
    ("message", &["message", "refused 18", "refused 17"]),
    ("newest", &["newest", "refused 2"]),
    ("copy", &["copy"]),
    ("take", &["take", "refused 10"]),
    ("look", &["look", "refused 2"]),
    ("compare", &["equal", "behind", "refused 11"]),
    (HISTORY, &["ok", "RC", "BV", "FV", "SV", "WC", "refused 12", "refused 14", "refused 13", "refused 15", "refused 16"]),
    (HISTORY, &["no k line: ok", "no k line: RC", "no k line: BV", "no k line: FV", "no k line: WC"]),
    (HISTORY, &[FULL_BYTES, FULL_LINES, FULL_STARTS]),
];

const HISTORY: &str = "history";
const FULL_BYTES: &str = "judged at 65536 bytes";
const FULL_LINES: &str = "judged at 4096 lines";
const FULL_STARTS: &str = "judged at 512 starts";

pub struct Tally {
    counts: BTreeMap<String, u64>,
    pub steps: u64,
    pub lines: u64,
    /// The bounds of this master's transactions that were tuned, and those that were told a distance of 1.
    tuned: BTreeMap<String, String>,
    late: BTreeSet<String>,
}

impl Tally {
    pub fn new() -> Tally {
        Tally { counts: BTreeMap::new(), steps: 0, lines: 0, tuned: BTreeMap::new(), late: BTreeSet::new() }
    }

    fn count(&mut self, what: &str, reply: &str) {
        *self.counts.entry(format!("{what}: {reply}")).or_insert(0) += 1;
    }

    pub fn step(&mut self, step: &[u8], reply: &[u8]) {
        self.steps += 1;
        let word = step.split(|&b| b == b' ').next().unwrap();
        let known = WANTED.iter().map(|w| w.0).find(|w| w.as_bytes() == word);
        let (step, reply) = (String::from_utf8_lossy(step), String::from_utf8_lossy(reply));
        self.count(known.unwrap_or("another word"), &kind(&reply));
        self.bounded(&step.split(' ').collect::<Vec<&str>>(), &reply);
    }

    /// Which bounds a commit was granted or aborted under, where they are M-100's.
    fn bounded(&mut self, step: &[&str], reply: &str) {
        match *step {
            ["open", _] if reply.starts_with("open") => {
                self.tuned.clear();
                self.late.clear();
            }
            ["tune", t, k1, k2, k3] if reply == "tune" => {
                self.tuned.insert(t.to_string(), format!("{k1} {k2} {k3}"));
            }
            ["distance", t, _] if reply == "distance 1" => {
                self.late.insert(t.to_string());
            }
            ["commit", t] if !reply.starts_with("refused") && reply != "unknown" => match self.tuned.get(t).map(String::as_str) {
                None if reply.starts_with("commit") && self.late.contains(t) => self.count("commit", "untuned, one behind: commit"),
                None => self.count("commit", &format!("untuned: {}", kind(reply))),
                Some("1 0 0") => self.count("commit", &format!("calibration: {}", kind(reply))),
                Some(_) => {}
            },
            _ => {}
        }
    }

    pub fn history(&mut self, text: &[u8], output: &str) {
        let lines = text.iter().filter(|&&b| b == b'\n').count();
        self.lines += lines as u64;
        if output.starts_with("refused ") {
            return self.count(HISTORY, output.rsplit_once(' ').unwrap().0);
        }
        self.count(HISTORY, "judged");
        if text.len() == HISTORY_BYTES {
            self.count(HISTORY, FULL_BYTES);
        }
        if lines == HISTORY_LINES {
            self.count(HISTORY, FULL_LINES);
        }
        if output.contains(&format!("total {HISTORY_TRANSACTIONS} ")) {
            self.count(HISTORY, FULL_STARTS);
        }
        let text = String::from_utf8_lossy(text);
        let tuned: BTreeSet<&str> = text.lines().filter_map(|line| line.strip_prefix("k\t")?.split('\t').next()).collect();
        for line in output.lines().filter(|line| !line.starts_with("judge ") && !line.starts_with("total ")) {
            let (number, verdict) = line.split_once(' ').unwrap();
            self.count(HISTORY, verdict);
            if !tuned.contains(number) {
                self.count(HISTORY, &format!("no k line: {verdict}"));
            }
        }
    }

    pub fn print(&self) {
        for (what, count) in &self.counts {
            println!("{count:>10}  {what}");
        }
    }

    pub fn never(&self) -> Vec<String> {
        let wanted = WANTED.iter().flat_map(|(what, replies)| replies.iter().map(move |reply| format!("{what}: {reply}")));
        wanted.filter(|what| !self.counts.contains_key(what)).collect()
    }
}

/// A reply without its numbers, but for the number of a refusal and the rule of an abort.
fn kind(reply: &str) -> String {
    let words: Vec<&str> = reply.split(' ').collect();
    match words[..] {
        ["refused", number] => format!("refused {number}"),
        ["aborted", rule, ..] => format!("aborted {rule}"),
        ["distance", d] if d.starts_with('-') => "later".to_string(),
        ["distance", "0"] => "newest".to_string(),
        ["distance", _] => "stale".to_string(),
        ["compare", "0", "0", "64"] => "equal".to_string(),
        ["compare", ..] => "behind".to_string(),
        _ if reply.starts_with("p\t") => "message".to_string(),
        _ => words[0].to_string(),
    }
}
