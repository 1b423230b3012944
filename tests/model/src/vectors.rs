//! Calls and sessions with what the model expects, printed or as files.

use crate::days_met::DaysMet;
use crate::faults::with_fault;
use crate::generate::rounds::every_window_of_two;
use crate::generate::sessions::session_input;
use crate::generate::{Calls, Size};
use crate::model::ruler::Ruler;
use crate::options::Options;
use crate::session::session;
use crate::tally::Tally;
use std::fs::{create_dir_all, write, File};
use std::io::{self, BufWriter, Write};
use std::path::Path;

/// Rulers of four times, the fewest on which every relationship comes. One level will do: a relationship knows nothing of levels.
const SMALL_RULERS: [Ruler; 2] = [Ruler::Bits { w: 2, m: 0 }, Ruler::Spread { m: 0, lo: 5, hi: 8 }];

/// Where few of a sort are taken, so many calls are drawn for each vector at most.
const DRAWN_FOR_EACH: usize = 400;

pub fn print(seed: u64, many: usize, options: &Options) -> io::Result<bool> {
    let output = io::stdout();
    let mut output = BufWriter::new(output.lock());
    let mut tally = Tally::default();
    let mut days = DaysMet::default();
    let mut left = many;
    for call in Calls::new(seed, options.size).take(many * DRAWN_FOR_EACH) {
        if left == 0 {
            break;
        }
        let expected = with_fault(options.fault, || call.answer());
        if tally.of_answer(&call, &expected) < options.each || days.is_new(&call, &expected) {
            tally.count(&call, &expected);
            days.see(&call, &expected);
            left -= 1;
            writeln!(output, "{}\n{}", call.line(), expected)?;
        }
    }
    if options.every_code {
        for call in every_window_of_two(seed, SMALL_RULERS) {
            writeln!(output, "{}\n{}", call.line(), with_fault(options.fault, || call.answer()))?;
        }
    }
    output.flush()?;
    Ok(left == 0 && (options.each == usize::MAX || has_all(&tally, &days, options.size)))
}

/// Whether every number of every call and every case of days came, under rulers of either kind.
fn has_all(tally: &Tally, days: &DaysMet, size: Size) -> bool {
    let missing = [tally.missing(size), days.missing()].concat();
    for text in &missing {
        eprintln!("{}", text);
    }
    missing.is_empty()
}

pub fn write_files(calls: &str, expected: &str, seed: u64, many: usize, options: &Options) -> io::Result<bool> {
    let mut calls = BufWriter::new(File::create(calls)?);
    let mut answers = BufWriter::new(File::create(expected)?);
    for call in Calls::new(seed, options.size).take(many) {
        writeln!(calls, "{}", call.line())?;
        writeln!(answers, "{}", with_fault(options.fault, || call.answer()))?;
    }
    calls.flush()?;
    answers.flush()?;
    Ok(true)
}

pub fn write_sessions(folder: &str, seed: u64, many: usize, options: &Options) -> io::Result<bool> {
    create_dir_all(folder)?;
    for k in 0..many {
        let input = session_input(seed, k);
        let output = with_fault(options.fault, || session(&input));
        write(Path::new(folder).join(format!("{}.in", k)), &input)?;
        write(Path::new(folder).join(format!("{}.out", k)), &output)?;
    }
    Ok(true)
}
