//! One call with all its inputs: its line for the probe, and the answer line that the model expects.
//!
//! A line is the call's name, its ruler, its numbers, then each buffer as its length and its words, single spaces. A ruler is
//! `w m`, or `spread m lo hi`.

use crate::model::ask::{ask, Question};
use crate::model::build::build;
use crate::model::check::check;
use crate::model::edit::{add, remove};
use crate::model::index::{Index, Reply};
use crate::model::ruler::Ruler;
use crate::model::trip::Trip;
use crate::model::view::{census, run};

/// The numbers that each call can answer.
pub const NUMBERS: [(&str, &[u32]); 7] = [
    ("build", &[0, 1, 2, 3, 4, 5, 6, 7, 16]),
    ("check", &[0, 1, 3, 8]),
    ("add", &[0, 1, 2, 3, 4, 5, 6, 7, 8, 16]),
    ("remove", &[0, 1, 3, 8, 10]),
    ("ask", &[0, 1, 3, 4, 5, 7, 8, 9, 17]),
    ("run", &[0, 1, 3, 8, 12]),
    ("census", &[0, 1, 3, 8]),
];

/// The word that a ruler of the second kind begins with.
const SPREAD: &str = "spread";

/// The words that each buffer of a call may have at the test port.
pub const MOST_TABLE: usize = 16_400;
pub const MOST_DIRECTORY: usize = 8_200;
pub const MOST_ORIGINALS: usize = 16_400;
pub const MOST_REPLICAS: usize = 60_000;
pub const MOST_ANSWERS: usize = 4_100;

#[derive(Clone, Debug, PartialEq)]
pub enum Request {
    Build { table: Vec<u32> },
    Check,
    Add { trip: Trip },
    Remove { id: u32 },
    Ask { question: Question, answers: Vec<u32> },
    Run { level: u32, partition: u32, subdivision: u32 },
    Census,
}

#[derive(Clone, Debug, PartialEq)]
pub struct Call {
    pub ruler: Ruler,
    pub request: Request,
    pub index: Index,
}

impl Call {
    pub fn name(&self) -> &'static str {
        match self.request {
            Request::Build { .. } => "build",
            Request::Check => "check",
            Request::Add { .. } => "add",
            Request::Remove { .. } => "remove",
            Request::Ask { .. } => "ask",
            Request::Run { .. } => "run",
            Request::Census => "census",
        }
    }

    /// The name and the ruler, with which the line begins.
    pub fn head(&self) -> String {
        let mut head = self.name().to_string();
        match self.ruler {
            Ruler::Bits { w, m } => push_words(&mut head, &[w, m]),
            Ruler::Spread { m, lo, hi } => {
                head.push(' ');
                head.push_str(SPREAD);
                push_words(&mut head, &[m, lo, hi]);
            }
        }
        head
    }

    pub fn line(&self) -> String {
        let mut line = self.head();
        match &self.request {
            Request::Build { table } => push_buffer(&mut line, table),
            Request::Check | Request::Census => {}
            Request::Add { trip } => push_words(&mut line, &trip.words()),
            Request::Remove { id } => push_words(&mut line, &[*id]),
            Request::Ask { question: Question { code, start, end, day }, .. } => {
                push_words(&mut line, &[*code, *start, *end, *day])
            }
            Request::Run { level, partition, subdivision } => {
                push_words(&mut line, &[*level, *partition, *subdivision])
            }
        }
        push_index(&mut line, &self.index);
        if let Request::Ask { answers, .. } = &self.request {
            push_buffer(&mut line, answers);
        }
        line
    }

    /// What the model answers: number, detail, what else the call returns, then each buffer that the
    /// call may write, as it is afterwards.
    pub fn answer(&self) -> String {
        let ruler = self.ruler;
        let mut index = self.index.clone();
        let mut text;
        match &self.request {
            Request::Build { table } => {
                text = opening(build(ruler, table, &mut index));
                push_index(&mut text, &index);
            }
            Request::Check => text = opening(check(ruler, &index)),
            Request::Add { trip } => {
                text = opening(add(ruler, *trip, &mut index));
                push_index(&mut text, &index);
            }
            Request::Remove { id } => {
                text = opening(remove(ruler, *id, &mut index));
                push_index(&mut text, &index);
            }
            Request::Ask { question, answers } => {
                let mut answers = answers.clone();
                let (reply, count) = ask(ruler, *question, &index, &mut answers);
                text = opening(reply);
                push_words(&mut text, &[count]);
                push_buffer(&mut text, &answers);
            }
            Request::Run { level, partition, subdivision } => {
                let (reply, shown) = run(ruler, *level, *partition, *subdivision, &index);
                text = opening(reply);
                push_buffer(&mut text, &shown);
            }
            Request::Census => {
                let (reply, counts) = census(ruler, &index);
                text = opening(reply);
                for row in &counts {
                    push_words(&mut text, row);
                }
            }
        }
        text
    }

    /// The call of a line, or nothing where the line is of another form.
    pub fn read(line: &str) -> Option<Call> {
        let mut fields = line.split(' ').peekable();
        let name = fields.next()?;
        let spread = fields.next_if_eq(&SPREAD).is_some();
        let mut words = Vec::new();
        for field in fields {
            words.push(plain_number(field)?);
        }
        let mut rest = &words[..];
        let ruler = take_ruler(&mut rest, spread)?;
        let request = match name {
            "build" => Request::Build { table: take_buffer(&mut rest, MOST_TABLE)? },
            "check" => Request::Check,
            "census" => Request::Census,
            "add" => Request::Add { trip: Trip::of_words(take_words(&mut rest)?) },
            "remove" => Request::Remove { id: take_word(&mut rest)? },
            "ask" => {
                let [code, start, end, day] = take_words(&mut rest)?;
                Request::Ask { question: Question { code, start, end, day }, answers: Vec::new() }
            }
            "run" => {
                let [level, partition, subdivision] = take_words(&mut rest)?;
                Request::Run { level, partition, subdivision }
            }
            _ => return None,
        };
        let index = Index {
            directory: take_buffer(&mut rest, MOST_DIRECTORY)?,
            originals: take_buffer(&mut rest, MOST_ORIGINALS)?,
            replicas: take_buffer(&mut rest, MOST_REPLICAS)?,
        };
        let mut call = Call { ruler, request, index };
        if let Request::Ask { answers, .. } = &mut call.request {
            *answers = take_buffer(&mut rest, MOST_ANSWERS)?;
        }
        if rest.is_empty() {
            Some(call)
        } else {
            None
        }
    }
}

/// The probe of the model itself, for trying the harness: one answer line for each line.
pub fn probe_answer(line: &str) -> String {
    match Call::read(line) {
        Some(call) => call.answer(),
        None => "bad line".to_string(),
    }
}

fn opening(reply: Reply) -> String {
    format!("{} {}", reply.number, reply.detail)
}

fn push_words(line: &mut String, words: &[u32]) {
    for word in words {
        line.push(' ');
        line.push_str(&word.to_string());
    }
}

fn push_buffer(line: &mut String, words: &[u32]) {
    push_words(line, &[words.len() as u32]);
    push_words(line, words);
}

fn push_index(line: &mut String, index: &Index) {
    push_buffer(line, &index.directory);
    push_buffer(line, &index.originals);
    push_buffer(line, &index.replicas);
}

/// One to ten digits, as in a session's line.
fn plain_number(field: &str) -> Option<u32> {
    if field.is_empty() || field.len() > 10 || !field.bytes().all(|byte| byte.is_ascii_digit()) {
        return None;
    }
    field.parse().ok()
}

fn take_word(rest: &mut &[u32]) -> Option<u32> {
    let (first, others) = rest.split_first()?;
    *rest = others;
    Some(*first)
}

fn take_words<const MANY: usize>(rest: &mut &[u32]) -> Option<[u32; MANY]> {
    let mut words = [0; MANY];
    for word in &mut words {
        *word = take_word(rest)?;
    }
    Some(words)
}

/// The numbers of a ruler, which is of the second kind where its word came before them.
fn take_ruler(rest: &mut &[u32], spread: bool) -> Option<Ruler> {
    if spread {
        Some(Ruler::Spread { m: take_word(rest)?, lo: take_word(rest)?, hi: take_word(rest)? })
    } else {
        Some(Ruler::Bits { w: take_word(rest)?, m: take_word(rest)? })
    }
}

fn take_buffer(rest: &mut &[u32], most: usize) -> Option<Vec<u32>> {
    let length = take_word(rest)? as usize;
    if length > most || length > rest.len() {
        return None;
    }
    let (words, others) = rest.split_at(length);
    *rest = others;
    Some(words.to_vec())
}
