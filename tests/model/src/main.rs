//! A model of documents 01 and 02, and a harness that compares programs with it.

mod call;
mod compare;
mod crossed;
mod days_met;
mod faults;
mod generate;
mod model;
mod options;
mod program;
mod random;
mod score;
mod selftest;
mod session;
mod session_tally;
mod sums;
mod tally;
mod trials;
mod vectors;

use options::Options;
use std::io::{self, BufRead, Read, Write};
use std::process::exit;

const USAGE: &str = "model vectors SEED N [--small] [--each K] [--every-code]
    prints N calls, each followed by a line with the expected answer; at most K of one call with one number under one kind of
    ruler, and the first of each case of days, and fails where one of these is missing; then every window of a small ruler of
    each kind under every code, over every trip that it has
model calls OUT_IN OUT_EXPECTED SEED N [--small]
    the same in two files: the calls, and the expected answers
model sessions DIR SEED N
    writes session inputs DIR/k.in and expected outputs DIR/k.out, k from 0
model compare PROBE SESSION SEED N [--small] [--sessions K] [--wait SECONDS] [--bad-lines]
    runs both programs and compares all they answer; - in place of a program leaves it out
model agree PROBE SESSION SEED N [--sessions K] [--wait SECONDS] [--bad-lines]
    the same with N small calls, N / 20 large ones, N / 50 windows under every code and N / 20 calls with words of one ruler under
    another; prints how often each call had each number and how often each case of days came, under each kind of ruler, and
    fails where one never came, where the counts of a window do not add up to the trips of the day, where words of another ruler
    were never accepted or never refused, and where no session wrote some sort of answer
model selftest
    tries the model itself
model faults SEED N [--small]
    shows that each planted fault is noticed over N calls and as many sessions as compare runs
model tally SEED N [--small]
    counts the drawn calls by name, kind of ruler and number of their answer
model probe, model session
    the model in place of the programs, on standard input and output
--fault NAME plants a fault in the model's answers (all but selftest and faults)";

fn main() {
    let options = match Options::read() {
        Ok(options) => options,
        Err(wrong) => leave(&format!("{}\n{}", wrong, USAGE)),
    };
    let words: Vec<&str> = options.words.iter().map(|word| word.as_str()).collect();
    let done = match &words[..] {
        ["vectors", seed, many] => vectors::print(number(seed), number(many) as usize, &options),
        ["calls", calls, expected, seed, many] => {
            vectors::write_files(calls, expected, number(seed), number(many) as usize, &options)
        }
        ["sessions", folder, seed, many] => {
            vectors::write_sessions(folder, number(seed), number(many) as usize, &options)
        }
        ["compare", probe, session, seed, many] => {
            compare::compare(probe, session, number(seed), number(many) as usize, &options)
        }
        ["agree", probe, session, seed, many] => {
            compare::agree(probe, session, number(seed), number(many) as usize, &options)
        }
        ["selftest"] => Ok(selftest::selftest()),
        ["faults", seed, many] => Ok(trials::faults(number(seed), number(many) as usize, &options)),
        ["tally", seed, many] => Ok(trials::tally(number(seed), number(many) as usize, &options)),
        ["probe"] => probe(&options),
        ["session"] => session_program(&options),
        _ => leave(USAGE),
    };
    match done {
        Ok(true) => {}
        Ok(false) => exit(1),
        // A reader that has seen enough is no fault of ours.
        Err(ref wrong) if wrong.kind() == io::ErrorKind::BrokenPipe => {}
        Err(wrong) => leave(&wrong.to_string()),
    }
}

fn leave(text: &str) -> ! {
    eprintln!("{}", text);
    exit(2)
}

fn number(text: &str) -> u64 {
    match text.parse() {
        Ok(number) => number,
        Err(_) => leave(&format!("not a number: {}\n{}", text, USAGE)),
    }
}

/// Reads calls and answers them, line by line.
fn probe(options: &Options) -> io::Result<bool> {
    let input = io::stdin();
    let mut output = io::stdout();
    for bytes in input.lock().split(b'\n') {
        let line = String::from_utf8_lossy(&bytes?).into_owned();
        let answer = faults::with_fault(options.fault, || call::probe_answer(&line));
        writeln!(output, "{}", answer)?;
    }
    Ok(true)
}

fn session_program(options: &Options) -> io::Result<bool> {
    let mut input = Vec::new();
    io::stdin().read_to_end(&mut input)?;
    let output = faults::with_fault(options.fault, || session::session(&input));
    io::stdout().write_all(&output)?;
    Ok(true)
}
