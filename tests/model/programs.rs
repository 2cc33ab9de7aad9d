//! What is compared with the model: the programs, or the right model in their place.

use std::io::{Read, Write};
use std::process::{Child, ChildStdin, Command, Stdio};
use std::sync::mpsc;
use std::sync::Mutex;
use std::time::Duration;

/// A program from standard input to standard output.
pub enum Program {
    Command(Vec<String>),
    Model(fn(&[u8]) -> Vec<u8>),
}

const LONGEST_RUN: Duration = Duration::from_secs(120);

impl Program {
    /// The command in the environment variable, or the default.
    pub fn of_environment(variable: &str, default: &str) -> Program {
        let command = std::env::var(variable).unwrap_or_default();
        let words: Vec<String> = command.split_whitespace().map(String::from).collect();
        if words.is_empty() {
            return Program::Command(vec![default.to_string()]);
        }
        Program::Command(words)
    }

    /// The whole output for a whole input; what went wrong where the program cannot be run, is
    /// ended by a signal or takes too long.
    pub fn output(&self, input: &[u8]) -> Result<Vec<u8>, String> {
        match self {
            Program::Model(model) => Ok(model(input)),
            Program::Command(words) => output_of_command(words, input),
        }
    }
}

fn output_of_command(words: &[String], input: &[u8]) -> Result<Vec<u8>, String> {
    let mut child = started(words)?;
    let stdin = child.stdin.take().ok_or("no standard input")?;
    let mut stdout = child.stdout.take().ok_or("no standard output")?;
    let child = Mutex::new(child);
    let (done, until_done) = mpsc::channel::<()>();
    let mut output = Vec::new();
    let read = std::thread::scope(|scope| {
        scope.spawn(|| feed(stdin, input));
        scope.spawn(|| end_when_too_long(&child, until_done));
        let read = stdout.read_to_end(&mut output);
        drop(done);
        read
    });
    read.map_err(|error| format!("its output cannot be read: {error}"))?;
    how_it_ended(&mut child.into_inner().map_err(|error| error.to_string())?)?;
    Ok(output)
}

fn started(words: &[String]) -> Result<Child, String> {
    Command::new(&words[0])
        .args(&words[1..])
        .stdin(Stdio::piped())
        .stdout(Stdio::piped())
        .spawn()
        .map_err(|error| format!("{} cannot be run: {error}", words.join(" ")))
}

/// A program that stops reading early is judged by its output alone.
fn feed(mut stdin: ChildStdin, input: &[u8]) {
    let _ = stdin.write_all(input);
}

fn end_when_too_long(child: &Mutex<Child>, until_done: mpsc::Receiver<()>) {
    if until_done.recv_timeout(LONGEST_RUN) == Err(mpsc::RecvTimeoutError::Timeout) {
        if let Ok(mut child) = child.lock() {
            let _ = child.kill();
        }
    }
}

fn how_it_ended(child: &mut Child) -> Result<(), String> {
    let status = child.wait().map_err(|error| error.to_string())?;
    match status.code() {
        Some(_) => Ok(()),
        None => Err(format!("it was ended by a signal or took too long: {status}")),
    }
}
