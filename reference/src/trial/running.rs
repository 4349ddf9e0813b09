//! Runs a program on a file, or on pieces that come through a pipe, and holds
//! what it prints against what is wanted.

use std::fs::{self, File};
use std::io::{self, Read, Write};
use std::path::Path;
use std::process::{Child, Command, Stdio};
use std::sync::mpsc;
use std::thread;
use std::time::Duration;

/// How long a program may take over one file.
const PATIENCE: Duration = Duration::from_secs(20);
/// More than any listing or file has, or the rows that are printed for an input,
/// of which the answers to 3,800 calls have most.
const MOST_OUTPUT: u64 = 1 << 24;
/// Enough for a program to have read the piece before.
const PAUSE: Duration = Duration::from_millis(1);

/// What the program, with these arguments, answers to a file.
pub fn answer(
    program: &str,
    arguments: &[&str],
    bytes: &[u8],
    folder: &Path,
) -> Result<Answer, String> {
    lending(bytes, folder, |lent| {
        finished(program, start_on(program, arguments, lent)?)
    })
}

/// What two programs answer to a file. They run at the same time.
pub fn both_answers(
    [one, other]: [&str; 2],
    bytes: &[u8],
    folder: &Path,
) -> Result<[Answer; 2], String> {
    lending(bytes, folder, |lent| {
        let (first, second) = (start_on(one, &[], lent)?, start_on(other, &[], lent)?);
        Ok([finished(one, first)?, finished(other, second)?])
    })
}

/// Lends a file of the run's own, in the folder, and takes it away again.
fn lending<T>(
    bytes: &[u8],
    folder: &Path,
    given: impl FnOnce(&Path) -> Result<T, String>,
) -> Result<T, String> {
    let path = folder.join(format!("run-{}.events", std::process::id()));
    let at_path = |error: io::Error| format!("{}: {error}", path.display());
    fs::write(&path, bytes).map_err(at_path)?;
    let answer = given(&path);
    fs::remove_file(&path).map_err(at_path)?;
    answer
}

fn start_on(program: &str, arguments: &[&str], lent: &Path) -> Result<Child, String> {
    let file = File::open(lent).map_err(|error| format!("{}: {error}", lent.display()))?;
    start(program, arguments, file.into())
}

fn finished(program: &str, child: Child) -> Result<Answer, String> {
    finish(child).map_err(|error| cannot_be_run(program, error))
}

/// What the program, with these arguments, answers to bytes that come through a
/// pipe, in pieces and with a pause before each. A program that stops reading is
/// given no more.
pub fn answer_to_pieces(
    program: &str,
    arguments: &[&str],
    bytes: &[u8],
    piece: usize,
) -> Result<Answer, String> {
    let mut child = start(program, arguments, Stdio::piped())?;
    let pipe = child.stdin.take();
    let bytes = bytes.to_vec();
    thread::spawn(move || {
        pipe.and_then(|mut pipe| {
            bytes.chunks(piece).try_for_each(|piece| {
                thread::sleep(PAUSE);
                pipe.write_all(piece).ok()
            })
        })
    });
    finished(program, child)
}

fn cannot_be_run(program: &str, error: io::Error) -> String {
    format!("{program} cannot be run: {error}")
}

/// What a program did with a file or with pieces.
pub struct Answer {
    pub output: Vec<u8>,
    errors: Vec<u8>,
    ended: Option<bool>,
}

impl Answer {
    /// Why this is no normal end with nothing on standard error, whatever the
    /// program printed.
    pub fn trouble(&self) -> Option<String> {
        self.unlike(&self.output)
    }

    /// Why this is not the wanted answer, a normal end with nothing on standard
    /// error.
    pub fn unlike(&self, wanted: &[u8]) -> Option<String> {
        let rows = |bytes: &[u8]| {
            bytes
                .split(|&b| b == b'\n')
                .map(<[u8]>::to_vec)
                .collect::<Vec<_>>()
        };
        match self.ended {
            None => Some("the program did not end".to_string()),
            Some(false) => Some("the program ended with a failure".to_string()),
            Some(true) if self.output != wanted => {
                let (own, theirs) = (rows(wanted), rows(&self.output));
                let alike = own.iter().zip(&theirs).take_while(|(a, b)| a == b).count();
                let row = |rows: &[Vec<u8>]| {
                    rows.get(alike)
                        .map_or("no row".to_string(), |row| quoted(row))
                };
                let (own, theirs) = (row(&own), row(&theirs));
                Some(format!(
                    "row {}: wanted is {own}, the program has {theirs}",
                    alike + 1
                ))
            }
            Some(true) if !self.errors.is_empty() => {
                Some("the program wrote to standard error".to_string())
            }
            Some(true) => None,
        }
    }

    /// Why this does not turn the arguments away: nothing on standard output and
    /// something on standard error, whatever the status.
    pub fn not_turned_away(&self) -> Option<String> {
        let why = match (self.ended, self.output.len(), self.errors.len()) {
            (None, ..) => "the program did not end",
            (_, 1.., _) => "the program printed something",
            (_, _, 0) => "the program wrote nothing to standard error",
            _ => return None,
        };
        Some(why.to_string())
    }
}

/// Keeps an input and what both sides made of it, under one name; returns where.
pub fn keep(folder: &Path, name: &str, ending: &str, bytes: [&[u8]; 3]) -> Result<String, String> {
    for (ending, bytes) in [ending, "reference", "program"].iter().zip(bytes) {
        let path = folder.join(format!("{name}.{ending}"));
        fs::write(&path, bytes).map_err(|error| format!("{}: {error}", path.display()))?;
    }
    Ok(folder
        .join(format!("{name}.{ending}"))
        .display()
        .to_string())
}

/// A row as text, its start if it is long.
fn quoted(row: &[u8]) -> String {
    format!("{:?}", String::from_utf8_lossy(&row[..row.len().min(60)]))
}

/// Starts the program with these arguments and with that on standard input.
fn start(program: &str, arguments: &[&str], input: Stdio) -> Result<Child, String> {
    let child = Command::new(program)
        .args(arguments)
        .stdin(input)
        .stdout(Stdio::piped())
        .stderr(Stdio::piped())
        .spawn();
    child.map_err(|error| cannot_be_run(program, error))
}

/// Waits for the program's end and takes what it printed.
fn finish(mut child: Child) -> io::Result<Answer> {
    let output = collect(child.stdout.take());
    let errors = collect(child.stderr.take());
    let in_time = output
        .recv_timeout(PATIENCE)
        .and_then(|o| Ok((o, errors.recv_timeout(PATIENCE)?)));
    let Ok((output, errors)) = in_time else {
        stop(&mut child)?;
        return Ok(Answer {
            output: vec![],
            errors: vec![],
            ended: None,
        });
    };
    if output.len() as u64 == MOST_OUTPUT {
        stop(&mut child)?;
    }
    let ended = Some(child.wait()?.success());
    Ok(Answer {
        output,
        errors,
        ended,
    })
}

fn stop(child: &mut Child) -> io::Result<()> {
    child.kill()?;
    child.wait().map(|_| ())
}

/// Reads a stream to its end on a thread of its own.
fn collect(stream: Option<impl Read + Send + 'static>) -> mpsc::Receiver<Vec<u8>> {
    let (send, receive) = mpsc::channel();
    thread::spawn(move || {
        let mut bytes = Vec::new();
        if let Some(stream) = stream {
            let _ = stream.take(MOST_OUTPUT).read_to_end(&mut bytes);
        }
        let _ = send.send(bytes);
    });
    receive
}
