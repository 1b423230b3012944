//! Document 01's session program, as a function from input bytes to output bytes. T and Q have the number more of T-07.

use crate::faults::{planted, Fault};
use crate::model::ask::{ask, Question};
use crate::model::days::EVERY_DAY;
use crate::model::edit::{add, remove};
use crate::model::index::{directory_length, Index, Reply};
use crate::model::ruler::Ruler;
use crate::model::trip::{Trip, ENTRY_WORDS};

const MOST_ORIGINALS: usize = 256;
const MOST_REPLICAS: usize = 3328;
const MOST_ANSWERS: usize = 256;
const DEEPEST: u32 = 8;

/// A line of the right form; its ruler is of the first kind. Which lines may come when is not a matter of form.
enum Line {
    Ruler { ruler: Ruler },
    Add { trip: Trip },
    Remove { id: u32 },
    Ask { question: Question },
}

struct Open {
    ruler: Ruler,
    index: Index,
}

/// Every line that is written ends with a newline, the last one too.
pub fn session(input: &[u8]) -> Vec<u8> {
    let mut output = Vec::new();
    let mut open: Option<Open> = None;
    for bytes in lines(input) {
        let (text, ends) = match line(bytes) {
            None => bad_line(),
            Some(line) => answer(line, &mut open),
        };
        output.extend(text.as_bytes());
        output.push(b'\n');
        if ends {
            break;
        }
    }
    output
}

fn bad_line() -> (String, bool) {
    ("bad line".to_string(), true)
}

/// "Lines are parted by one newline, which the last may lack": what stands behind the last newline is a
/// line only if it has bytes. So no input is no line, and a lone newline is one empty line.
fn lines(input: &[u8]) -> Vec<&[u8]> {
    let mut found: Vec<&[u8]> = input.split(|byte| *byte == b'\n').collect();
    if found.last().map_or(false, |last| last.is_empty()) {
        found.pop();
    }
    found
}

fn line(bytes: &[u8]) -> Option<Line> {
    let bytes = if planted(Fault::SessionReturn) && bytes.ends_with(b"\r") {
        &bytes[..bytes.len() - 1]
    } else {
        bytes
    };
    let fields: Vec<&[u8]> = bytes.split(|byte| *byte == b' ').collect();
    let mut numbers = Vec::new();
    for field in &fields[1..] {
        numbers.push(number(field)?);
    }
    match (fields[0], &numbers[..]) {
        (b"D", [_, m]) if *m > DEEPEST => None,
        (b"D", [w, m]) => Some(Line::Ruler { ruler: Ruler::Bits { w: *w, m: *m } }),
        (b"T", [id, start, end, days]) => Some(add_line(*id, *start, *end, *days)),
        (b"T", [id, start, end]) if planted(Fault::SessionOldForm) => Some(add_line(*id, *start, *end, EVERY_DAY)),
        (b"X", [id]) => Some(Line::Remove { id: *id }),
        (b"Q", [code, start, end, day]) => Some(ask_line(*code, *start, *end, *day)),
        (b"Q", [code, start, end]) if planted(Fault::SessionOldForm) => Some(ask_line(*code, *start, *end, 0)),
        _ => None,
    }
}

fn add_line(id: u32, start: u32, end: u32, days: u32) -> Line {
    Line::Add { trip: Trip { id, start, end, days } }
}

fn ask_line(code: u32, start: u32, end: u32, day: u32) -> Line {
    Line::Ask { question: Question { code, start, end, day } }
}

/// A u32 in 1 to 10 decimal digits. Leading zeros are digits like others.
fn number(field: &[u8]) -> Option<u32> {
    let most = if planted(Fault::SessionDigits) { 18 } else { 10 };
    if field.is_empty() || field.len() > most {
        return None;
    }
    let mut value: u64 = 0;
    for byte in field {
        if *byte < b'0' || *byte > b'9' {
            return None;
        }
        value = 10 * value + u64::from(*byte - b'0');
    }
    if value > u64::from(u32::MAX) {
        return None;
    }
    Some(value as u32)
}

/// What the line writes, and whether it ends the session.
fn answer(line: Line, open: &mut Option<Open>) -> (String, bool) {
    if let Line::Ruler { ruler } = line {
        return open_with(ruler, open);
    }
    let state = match open.as_mut() {
        None => return bad_line(),
        Some(state) => state,
    };
    let text = match line {
        Line::Add { trip } => edit_text(add(state.ruler, trip, &mut state.index)),
        Line::Remove { id } => edit_text(remove(state.ruler, id, &mut state.index)),
        Line::Ask { question } => ask_text(question, state),
        Line::Ruler { .. } => unreachable!("answered above"),
    };
    (text, false)
}

/// A second D is malformed; a refused one ends the session.
fn open_with(ruler: Ruler, open: &mut Option<Open>) -> (String, bool) {
    if open.is_some() {
        return bad_line();
    }
    if !ruler.in_bounds() {
        return ("refused 1".to_string(), true);
    }
    *open = Some(Open { ruler, index: empty_index(ruler.m()) });
    ("ok".to_string(), false)
}

fn empty_index(m: u32) -> Index {
    Index {
        directory: vec![0; directory_length(m)],
        originals: vec![0; ENTRY_WORDS * MOST_ORIGINALS],
        replicas: vec![0; ENTRY_WORDS * MOST_REPLICAS],
    }
}

fn edit_text(reply: Reply) -> String {
    if reply.number == 0 {
        "ok".to_string()
    } else {
        format!("refused {}", reply.number)
    }
}

fn ask_text(question: Question, state: &Open) -> String {
    let mut answers = vec![0; MOST_ANSWERS];
    let (reply, count) = ask(state.ruler, question, &state.index, &mut answers);
    if reply.number != 0 {
        return edit_text(reply);
    }
    let mut text = count.to_string();
    for id in answers.iter().take(count as usize) {
        text.push_str(&format!(" {}", id));
    }
    text
}
