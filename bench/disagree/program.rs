//! The program that is proved, run on a script.

use super::player::Answer;
use std::io::{self, Read, Write};
use std::path::Path;
use std::process::{Command, Stdio};

/// Both read the whole script before they write, so that neither waits for the other. One that ends early reads no more.
pub fn run(program: &Path, words: &[String], script: &[u8]) -> io::Result<Answer> {
    let mut child = Command::new(program)
        .arg("play")
        .args(words)
        .stdin(Stdio::piped())
        .stdout(Stdio::piped())
        .stderr(Stdio::null())
        .spawn()?;
    if let Some(mut input) = child.stdin.take() {
        match input.write_all(script) {
            Err(error) if error.kind() != io::ErrorKind::BrokenPipe => return Err(error),
            _ => {}
        }
    }
    let mut report = Vec::new();
    if let Some(mut output) = child.stdout.take() {
        output.read_to_end(&mut report)?;
    }
    let status = child.wait()?.code();
    Ok(Answer { report, status })
}
