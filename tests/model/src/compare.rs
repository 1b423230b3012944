//! Runs the programs and compares all they answer with the model.

use crate::call::Call;
use crate::crossed::Crossed;
use crate::faults::with_fault;
use crate::generate::crossings::crossings;
use crate::generate::pieces::cut_into_pieces;
use crate::generate::rounds::rounds;
use crate::generate::sessions::session_input;
use crate::generate::{bad_probe_line, Calls, Size, FULL, SMALL};
use crate::model::relation::CODES;
use crate::options::Options;
use crate::program::{answers_of, end_of, run_session, start};
use crate::random::Random;
use crate::score::Score;
use crate::session::session;
use crate::session_tally::SessionTally;
use crate::sums::Sums;
use std::io::{self, BufWriter, Write};
use std::thread;
use std::time::Duration;

pub fn compare(probe: &str, program: &str, seed: u64, many: usize, options: &Options) -> io::Result<bool> {
    let calls = if probe == "-" { Score::default() } else { compare_calls(probe, seed, many, options.size, options)? };
    let sessions = if program == "-" { Score::default() } else { compare_sessions(program, seed, options)?.0 };
    Ok(closed(&calls, &sessions))
}

/// The whole trial of both programs: small calls, some large ones, windows under every code, words of one ruler under another,
/// and sessions. Each call must have met each number that it can answer, and each case of days must have come, under rulers of
/// either kind; the counts of each window and day must add up; words of another ruler must have been accepted and refused; and
/// sessions must have written every sort of answer.
pub fn agree(probe: &str, program: &str, seed: u64, many: usize, options: &Options) -> io::Result<bool> {
    let mut calls = compare_calls(probe, seed, many, SMALL, options)?;
    calls.join(compare_calls(probe, seed + 1, many / LARGE_ONES, FULL, options)?);
    let (rounds, sums) = compare_rounds(probe, seed + 2, many / ROUNDS, options)?;
    calls.join(rounds);
    let (handed, crossed) = compare_crossings(probe, seed + 3, many / CROSSINGS, options)?;
    calls.join(handed);
    let (sessions, written) = compare_sessions(program, seed, options)?;
    calls.tally.print();
    calls.days.print();
    crossed.print();
    println!("windows and days under every code: the counts of {} of {} add up", sums.right, sums.right + sums.wrong);
    written.print();
    let missing = [calls.tally.missing(FULL), calls.days.missing(), crossed.missing(), written.missing()].concat();
    for text in &missing {
        println!("{}", text);
    }
    Ok(closed(&calls, &sessions) && missing.is_empty() && sums.wrong == 0)
}

/// One large call, one window under every code, and one call with words of another ruler, for so many small calls.
const LARGE_ONES: usize = 20;
const ROUNDS: usize = 50;
const CROSSINGS: usize = 20;

fn closed(calls: &Score, sessions: &Score) -> bool {
    println!(
        "agreed: {} of {} calls, {} of {} sessions",
        calls.agreed,
        calls.all(),
        sessions.agreed,
        sessions.all()
    );
    calls.differed == 0 && sessions.differed == 0
}

/// What is sent to the probe: the calls of the seed, and at times a line that is no call. The thread that
/// writes and the one that compares draw the same row each for itself, so nothing is kept in between.
struct Lines {
    calls: Calls,
    random: Random,
    bad_lines: bool,
    left: usize,
}

enum ProbeLine {
    Good(Call),
    Bad(String),
}

impl Lines {
    fn new(seed: u64, many: usize, size: Size, options: &Options) -> Lines {
        Lines {
            calls: Calls::new(seed, size),
            random: Random::of(seed, 1),
            bad_lines: options.bad_lines,
            left: many,
        }
    }
}

impl Iterator for Lines {
    type Item = ProbeLine;

    fn next(&mut self) -> Option<ProbeLine> {
        if self.left == 0 {
            return None;
        }
        self.left -= 1;
        let call = self.calls.next()?;
        if self.bad_lines && self.random.once_in(20) {
            return Some(ProbeLine::Bad(bad_probe_line(&mut self.random, &call)));
        }
        Some(ProbeLine::Good(call))
    }
}

fn compare_calls(command: &str, seed: u64, many: usize, size: Size, options: &Options) -> io::Result<Score> {
    let row = || Lines::new(seed, many, size, options);
    compare_lines(command, &format!("seed {}", seed), many, row, options, |_, _| {})
}

fn compare_rounds(command: &str, seed: u64, many: usize, options: &Options) -> io::Result<(Score, Sums)> {
    let mut sums = Sums::default();
    let row = || rounds(seed).take(many).flatten().map(ProbeLine::Good);
    let name = format!("the rounds of seed {}", seed);
    let score = compare_lines(command, &name, many * CODES as usize, row, options, |call, given| sums.see(call, given))?;
    Ok((score, sums))
}

fn compare_crossings(command: &str, seed: u64, many: usize, options: &Options) -> io::Result<(Score, Crossed)> {
    let mut crossed = Crossed::default();
    let row = || crossings(seed).take(many).map(ProbeLine::Good);
    let name = format!("the crossings of seed {}", seed);
    let score = compare_lines(command, &name, many, row, options, |_, given| crossed.see(given))?;
    Ok((score, crossed))
}

/// Sends the lines of a row, which is drawn twice, to a program; `seen` is shown each call with the program's own answer.
fn compare_lines<Draw, Row, Seen>(
    command: &str,
    name: &str,
    many: usize,
    row: Draw,
    options: &Options,
    mut seen: Seen,
) -> io::Result<Score>
where
    Draw: Fn() -> Row,
    Row: Iterator<Item = ProbeLine> + Send + 'static,
    Seen: FnMut(&Call, &str),
{
    let mut child = start(command)?;
    let input = child.stdin.take();
    let sent = row();
    // The writer must not wait for answers, nor the reader for the writer: else both could stand still.
    // It is not waited for either, as a program that hangs may never read on.
    thread::spawn(move || {
        if let Some(input) = input {
            // A program that has ended reads no more; the reader will find its answers missing.
            let _ = write_lines(input, sent);
        }
    });
    let answers = answers_of(&mut child);
    let mut score = Score::default();
    for (k, line) in row().enumerate() {
        let (input, expected) = match &line {
            ProbeLine::Good(call) => {
                let answer = with_fault(options.fault, || call.answer());
                score.tally.count(call, &answer);
                score.days.see(call, &answer);
                (call.line(), answer)
            }
            ProbeLine::Bad(text) => (text.clone(), "bad line".to_string()),
        };
        let what = format!("call {} of {}", k, name);
        let given = match answers.recv_timeout(Duration::from_secs(options.wait)) {
            Ok(given) => given,
            Err(_) => {
                score.count(&what, &input, &expected, "(no answer)");
                score.differed += many - score.all();
                break;
            }
        };
        if let ProbeLine::Good(call) = &line {
            seen(call, &given);
        }
        score.count(&what, &input, &expected, &given);
    }
    if score.differed == 0 {
        let after = end_of(&mut child, &answers, options.wait)?;
        if !after.is_empty() {
            score.count("what follows the last answer", "", "", &after);
        }
    }
    let _ = child.kill();
    child.wait()?;
    Ok(score)
}

fn write_lines<W: Write>(input: W, lines: impl Iterator<Item = ProbeLine>) -> io::Result<()> {
    let mut input = BufWriter::new(input);
    for line in lines {
        match line {
            ProbeLine::Good(call) => writeln!(input, "{}", call.line())?,
            ProbeLine::Bad(text) => writeln!(input, "{}", text)?,
        }
    }
    input.flush()
}

fn compare_sessions(command: &str, seed: u64, options: &Options) -> io::Result<(Score, SessionTally)> {
    let mut score = Score::default();
    let mut written = SessionTally::default();
    for k in 0..options.sessions {
        let input = session_input(seed, k);
        let expected = with_fault(options.fault, || session(&input));
        written.count(&expected);
        let pieces = cut_into_pieces(seed, k, &input);
        let given = run_session(command, &pieces, options.wait)?;
        let name = format!("session {} of seed {}, in {} pieces", k, seed, pieces.len());
        score.count(&name, &escaped(&input), &escaped(&expected), &escaped(&given));
    }
    Ok((score, written))
}

/// Bytes as text on one line.
fn escaped(bytes: &[u8]) -> String {
    let mut text = String::new();
    for byte in bytes {
        for character in byte.escape_ascii() {
            text.push(character as char);
        }
    }
    text
}
