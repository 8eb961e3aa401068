// A second Zoribhat, written from document 01 and the session language alone, and its comparison with the proved programs.

mod compare;
mod copy;
mod damage;
mod decimal;
mod history;
mod limits;
mod make_histories;
mod make_sessions;
mod master;
mod message;
mod random;
mod rules;
mod session;
mod tally;
#[cfg(test)]
mod worked;

use std::io::{self, Read, Write};
use std::process::ExitCode;

const USAGE: &str = "reference session                      play a session from standard input
reference judge                        judge a history from standard input
reference generate session|history SEED   print a made-up session or history
reference compare SESSION JUDGE FOLDER SESSIONS HISTORIES [SEED]
                                       compare with the programs SESSION and JUDGE; what differs goes to FOLDER
";

fn main() -> ExitCode {
    let words: Vec<String> = std::env::args().skip(1).collect();
    let words: Vec<&str> = words.iter().map(String::as_str).collect();
    match run(&words) {
        Ok(code) => code,
        Err(error) => {
            eprintln!("reference: {error}");
            ExitCode::from(2)
        }
    }
}

fn run(words: &[&str]) -> io::Result<ExitCode> {
    let number = |text: &str| text.parse::<u64>().map_err(io::Error::other);
    match *words {
        ["session"] => session::play(io::stdin().lock(), io::BufWriter::new(io::stdout()))?,
        ["judge"] => {
            let mut text = Vec::new();
            io::stdin().read_to_end(&mut text)?;
            io::stdout().write_all(history::judge(&text).as_bytes())?;
        }
        ["generate", "session", seed] => io::stdout().write_all(&make_sessions::session(number(seed)?, compare::STEPS))?,
        ["generate", "history", seed] => io::stdout().write_all(&make_histories::history(number(seed)?))?,
        ["compare", session, judge, folder, sessions, histories] => {
            return compare::run(session, judge, folder, number(sessions)?, number(histories)?, 1);
        }
        ["compare", session, judge, folder, sessions, histories, seed] => {
            return compare::run(session, judge, folder, number(sessions)?, number(histories)?, number(seed)?);
        }
        _ => {
            eprint!("{USAGE}");
            return Ok(ExitCode::from(2));
        }
    }
    Ok(ExitCode::SUCCESS)
}
