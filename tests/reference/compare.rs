// The comparison: made-up sessions and histories are given to the reference and to the proved programs, and every byte must be the same.

use crate::history;
use crate::make_histories;
use crate::make_sessions;
use crate::session;
use crate::tally::Tally;
use std::fs;
use std::io::{self, Write};
use std::path::Path;
use std::process::{Command, ExitCode, Stdio};
use std::thread;
use std::time::Instant;

pub const STEPS: usize = 300;

/// Sessions given to one process: each begins with `open` and `copy`, which put a new master and a fresh copy.
const BATCH: u64 = 100;

/// A last line without its newline, which is not played.
fn tail(batch: u64) -> Vec<u8> {
    match batch % 5 {
        0 => Vec::new(),
        1 => b"start".to_vec(),
        2 => b"open 7".to_vec(),
        3 => b"take p\t1\t1\t1\t1".to_vec(),
        _ => vec![b'x'; 1000],
    }
}

/// One input in sixteen reaches its program in small pieces, so that it sees short reads.
fn piece(seed: u64) -> usize {
    if seed.is_multiple_of(16) { 7 } else { usize::MAX }
}

/// What a program writes for an input; a program that fails is made to differ.
fn output_of(program: &str, input: &[u8], piece: usize) -> io::Result<Vec<u8>> {
    let mut child = Command::new(program).stdin(Stdio::piped()).stdout(Stdio::piped()).spawn()?;
    let mut pipe = child.stdin.take().unwrap();
    let output = thread::scope(|scope| {
        // A judge may refuse a history before its end: then the rest can't be written, and the output tells.
        scope.spawn(move || input.chunks(piece).try_for_each(|part| pipe.write_all(part)).ok());
        child.wait_with_output()
    })?;
    let mut text = output.stdout;
    if !output.status.success() {
        text.extend(format!("({})\n", output.status).bytes());
    }
    Ok(text)
}

fn lines(text: &[u8]) -> Vec<&[u8]> {
    text.split_inclusive(|&b| b == b'\n').collect()
}

fn shown(line: Option<&&[u8]>) -> String {
    line.map_or("(nothing)".to_string(), |line| String::from_utf8_lossy(line).escape_debug().to_string())
}

struct Comparison<'a> {
    folder: &'a Path,
    tally: Tally,
    disagreements: u64,
}

impl Comparison<'_> {
    fn disagree(&mut self, kind: &str, seed: u64, input: &[u8], line: usize, reference: Option<&&[u8]>, proved: Option<&&[u8]>) -> io::Result<()> {
        self.disagreements += 1;
        fs::create_dir_all(self.folder)?;
        let path = self.folder.join(format!("{seed}.{kind}"));
        fs::write(&path, input)?;
        println!("{kind} of seed {seed}, saved as {}: output line {line}", path.display());
        println!("    reference: {}\n    proved:    {}", shown(reference), shown(proved));
        Ok(())
    }

    /// The seeds of one batch, one process.
    fn sessions(&mut self, program: &str, seeds: std::ops::Range<u64>) -> io::Result<()> {
        let mut made: Vec<Vec<u8>> = seeds.clone().map(|seed| make_sessions::session(seed, STEPS)).collect();
        // A process begins with a master opened at 0 and a fresh copy of its own accord.
        if let Some(rest) = made[0].strip_prefix(b"open 0\ncopy\n") {
            made[0] = rest.to_vec();
        }
        let mut input = made.concat();
        input.extend(tail(seeds.start / BATCH));
        let mut reference = Vec::new();
        session::play(&input[..], &mut reference)?;
        let proved = output_of(program, &input, piece(seeds.start / BATCH))?;
        let (ours, theirs) = (lines(&reference), lines(&proved));
        let mut first = 0;
        for (seed, text) in seeds.clone().zip(&made) {
            // A reply a step: a session's part of the output is known by its steps.
            let steps = lines(text);
            if let Some(i) = (0..steps.len()).find(|&i| ours.get(first + i) != theirs.get(first + i)) {
                self.disagree("session", seed, text, i + 1, ours.get(first + i), theirs.get(first + i))?;
                println!("    the step:  {}", shown(steps.get(i)));
            } else {
                for (step, reply) in steps.iter().zip(&ours[first..]) {
                    self.tally.step(step.trim_ascii_end(), reply.trim_ascii_end());
                }
            }
            first += steps.len();
        }
        if ours.len() != first || theirs.len() != first {
            self.disagree("session", seeds.end - 1, &input, first + 1, ours.get(first), theirs.get(first))?;
        }
        Ok(())
    }

    fn history(&mut self, program: &str, seed: u64) -> io::Result<()> {
        let text = make_histories::history(seed);
        let reference = history::judge(&text);
        let proved = output_of(program, &text, piece(seed))?;
        if reference.as_bytes() != proved {
            let (ours, theirs) = (lines(reference.as_bytes()), lines(&proved));
            let line = (0..).find(|&i| ours.get(i) != theirs.get(i)).unwrap();
            return self.disagree("history", seed, &text, line + 1, ours.get(line), theirs.get(line));
        }
        self.tally.history(&text, &reference);
        Ok(())
    }
}

pub fn run(session: &str, judge: &str, folder: &str, sessions: u64, histories: u64, seed: u64) -> io::Result<ExitCode> {
    let begin = Instant::now();
    let mut comparison = Comparison { folder: Path::new(folder), tally: Tally::new(), disagreements: 0 };
    let mut done = 0;
    while done < sessions {
        let next = sessions.min(done + BATCH);
        comparison.sessions(session, seed + done..seed + next)?;
        done = next;
        eprint!("\r{done} of {sessions} sessions, {:.0} s ", begin.elapsed().as_secs_f64());
    }
    for i in 0..histories {
        comparison.history(judge, seed + i)?;
        if (i + 1) % BATCH == 0 || i + 1 == histories {
            eprint!("\r{} of {histories} histories, {:.0} s ", i + 1, begin.elapsed().as_secs_f64());
        }
    }
    eprintln!();
    let Comparison { tally, disagreements, .. } = comparison;
    tally.print();
    let never = tally.never();
    if !never.is_empty() {
        println!("never met: {}", never.join(", "));
    }
    let Tally { steps, lines, .. } = tally;
    let (missed, seconds) = (never.len(), begin.elapsed().as_secs());
    print!("{sessions} sessions ({steps} steps) and {histories} histories ({lines} lines) from seed {seed}, {seconds} s: ");
    println!("{disagreements} disagreements, {missed} kinds of reply never met");
    Ok(if disagreements == 0 { ExitCode::SUCCESS } else { ExitCode::FAILURE })
}
