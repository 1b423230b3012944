//! The words and options of the command line.

use crate::faults::{fault_named, Fault, FAULTS};
use crate::generate::{Size, FULL, SMALL};
use std::env;

pub struct Options {
    pub words: Vec<String>,
    pub size: Size,
    pub fault: Option<Fault>,
    pub sessions: usize,
    /// How long one answer of a program may take, in seconds.
    pub wait: u64,
    pub bad_lines: bool,
    /// The most vectors of one call with one number, under rulers of one kind; the first of a case of days comes beside them.
    pub each: usize,
    /// Whether vectors of every window under every code follow.
    pub every_code: bool,
}

impl Options {
    pub fn read() -> Result<Options, String> {
        let mut options = Options {
            words: Vec::new(),
            size: FULL,
            fault: None,
            sessions: 240,
            wait: 300,
            bad_lines: false,
            each: usize::MAX,
            every_code: false,
        };
        let mut rest = env::args().skip(1);
        while let Some(word) = rest.next() {
            match word.as_str() {
                "--small" => options.size = SMALL,
                "--bad-lines" => options.bad_lines = true,
                "--every-code" => options.every_code = true,
                "--fault" => options.fault = Some(fault(rest.next())?),
                "--sessions" => options.sessions = number(rest.next())? as usize,
                "--each" => options.each = number(rest.next())? as usize,
                "--wait" => options.wait = number(rest.next())?,
                other if other.starts_with("--") => return Err(format!("no such option: {}", other)),
                _ => options.words.push(word),
            }
        }
        Ok(options)
    }
}

fn fault(name: Option<String>) -> Result<Fault, String> {
    match name.and_then(|name| fault_named(&name)) {
        Some(fault) => Ok(fault),
        None => {
            let names: Vec<&str> = FAULTS.iter().map(|known| known.0).collect();
            Err(format!("--fault takes one of {}", names.join(", ")))
        }
    }
}

fn number(text: Option<String>) -> Result<u64, String> {
    match text.and_then(|text| text.parse().ok()) {
        Some(number) => Ok(number),
        None => Err("a number is missing after an option".to_string()),
    }
}
