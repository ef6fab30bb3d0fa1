//! Both players over the same scripts, and what is kept where they differ.

use super::known::Case;
use super::player::{self, Answer};
use super::program;
use super::scripts::Script;
use super::shorten;
use super::tally::Tally;
use std::fs;
use std::io;
use std::panic::{self, AssertUnwindSafe};
use std::path::PathBuf;

pub struct Compared {
    program: PathBuf,
    /// Where scripts are kept on which both differ.
    folder: PathBuf,
    pub tally: Tally,
    pub differences: u64,
}

/// What plain Rust answers; a panic is an answer without a status.
fn plain_answer(options: &[String], script: &[u8], tally: &mut Tally) -> io::Result<Answer> {
    tally.scripts += 1;
    let played = panic::catch_unwind(AssertUnwindSafe(|| player::play(options, script, tally)));
    played.unwrap_or_else(|_| {
        Ok(Answer {
            report: b"panic\n".to_vec(),
            status: None,
        })
    })
}

impl Compared {
    pub fn new(program: PathBuf, folder: PathBuf) -> Compared {
        Compared {
            program,
            folder,
            tally: Tally::default(),
            differences: 0,
        }
    }

    pub fn play_known(&mut self, case: &Case) -> io::Result<()> {
        let plain = plain_answer(&case.options, &case.script, &mut self.tally)?;
        let wanted = Answer {
            report: case.report.clone(),
            status: Some(case.status),
        };
        if plain != wanted {
            self.differences += 1;
            println!("{}: plain Rust differs from the known report", case.name);
        }
        if program::run(&self.program, &case.options, &case.script)? != wanted {
            self.differences += 1;
            println!("{}: the program differs from the known report", case.name);
        }
        Ok(())
    }

    pub fn play(&mut self, name: &str, script: &Script) -> io::Result<()> {
        let bytes = script.bytes();
        let plain = plain_answer(&script.options, &bytes, &mut self.tally)?;
        if plain == program::run(&self.program, &script.options, &bytes)? {
            return Ok(());
        }
        self.differences += 1;
        let program = &self.program;
        let short = shorten::shorten(script, |script| {
            let bytes = script.bytes();
            let plain = plain_answer(&script.options, &bytes, &mut Tally::default())?;
            Ok(plain != program::run(program, &script.options, &bytes)?)
        })?;
        self.keep(name, script)?;
        self.keep(&format!("{name}-short"), &short)
    }

    /// Writes a script, its options and both answers into the folder.
    fn keep(&self, name: &str, script: &Script) -> io::Result<()> {
        fs::create_dir_all(&self.folder)?;
        let path = self.folder.join(name);
        let bytes = script.bytes();
        let plain = plain_answer(&script.options, &bytes, &mut Tally::default())?;
        let program = program::run(&self.program, &script.options, &bytes)?;
        fs::write(path.with_extension("script"), &bytes)?;
        fs::write(path.with_extension("args"), script.options.join("\n") + "\n")?;
        fs::write(path.with_extension("plain"), &plain.report)?;
        fs::write(path.with_extension("program"), &program.report)?;
        println!(
            "{}.script differs: {} lines; status {:?} of plain Rust, {:?} of the program",
            path.display(),
            script.lines.len(),
            plain.status,
            program.status
        );
        Ok(())
    }
}
