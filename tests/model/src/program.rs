//! Starting programs, feeding them and hearing what they write, without ever waiting for good.

use std::io::{self, BufRead, BufReader, Read, Write};
use std::path::Path;
use std::process::{Child, Command, Stdio};
use std::sync::mpsc::{channel, Receiver, RecvTimeoutError};
use std::thread;
use std::time::Duration;

/// A path, or a program with arguments parted by spaces.
pub fn start(command: &str) -> io::Result<Child> {
    let mut words = command.split_whitespace();
    let mut program = if Path::new(command).exists() {
        Command::new(command)
    } else {
        let mut program = Command::new(words.next().unwrap_or(""));
        program.args(words);
        program
    };
    program
        .stdin(Stdio::piped())
        .stdout(Stdio::piped())
        .spawn()
        .map_err(|wrong| io::Error::new(wrong.kind(), format!("cannot start {}: {}", command, wrong)))
}

/// The lines that a program writes, from a thread of their own, so that waiting can end.
pub fn answers_of(child: &mut Child) -> Receiver<String> {
    let (sender, receiver) = channel();
    if let Some(output) = child.stdout.take() {
        thread::spawn(move || {
            let mut output = BufReader::new(output);
            let mut line = Vec::new();
            while let Ok(bytes) = output.read_until(b'\n', &mut line) {
                if bytes == 0 {
                    break;
                }
                if line.ends_with(b"\n") {
                    line.pop();
                }
                if sender.send(String::from_utf8_lossy(&line).into_owned()).is_err() {
                    break;
                }
                line.clear();
            }
        });
    }
    receiver
}

/// What a program does wrong after its last answer: it writes more, does not end, or ends by a signal.
pub fn end_of(child: &mut Child, answers: &Receiver<String>, wait: u64) -> io::Result<String> {
    match answers.recv_timeout(Duration::from_secs(wait)) {
        Ok(more) => return Ok(format!("(one more line) {}", more)),
        Err(RecvTimeoutError::Timeout) => return Ok("(no end)".to_string()),
        Err(RecvTimeoutError::Disconnected) => {}
    }
    if child.wait()?.code().is_none() {
        return Ok("(ended by a signal)".to_string());
    }
    Ok(String::new())
}

/// So long a program has to read one piece before it is sent the next.
const PAUSE: Duration = Duration::from_micros(500);

/// All that one session writes, with its input sent in pieces. A program that is ended by a signal, or by the time limit,
/// has that added, as it then agrees with nothing.
pub fn run_session(command: &str, pieces: &[Vec<u8>], wait: u64) -> io::Result<Vec<u8>> {
    let mut child = start(command)?;
    let pieces = pieces.to_vec();
    let stdin = child.stdin.take();
    thread::spawn(move || {
        if let Some(mut stdin) = stdin {
            for piece in &pieces {
                // A session that has ended leaves the rest unread: that is as it should be.
                if stdin.write_all(piece).is_err() {
                    break;
                }
                if pieces.len() > 1 {
                    thread::sleep(PAUSE);
                }
            }
        }
    });
    let (sender, receiver) = channel();
    if let Some(mut stdout) = child.stdout.take() {
        thread::spawn(move || {
            let mut output = Vec::new();
            let _ = stdout.read_to_end(&mut output);
            let _ = sender.send(output);
        });
    }
    let mut output = match receiver.recv_timeout(Duration::from_secs(wait)) {
        Ok(output) => output,
        Err(_) => {
            let _ = child.kill();
            b"(no end)".to_vec()
        }
    };
    let status = child.wait()?;
    if status.code().is_none() {
        output.extend(b"(ended by a signal)");
    }
    Ok(output)
}
