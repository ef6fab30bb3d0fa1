//! Scripts whose reports are known: the examples, and the cases of crates/qtree/tests/corpus.

use std::fs;
use std::io;
use std::path::Path;

#[derive(Default)]
pub struct Case {
    pub name: String,
    pub options: Vec<String>,
    pub script: Vec<u8>,
    pub report: Vec<u8>,
    pub status: i32,
}

pub fn read_all(top: &Path) -> io::Result<Vec<Case>> {
    let mut cases = read_examples(&top.join("examples"))?;
    for file in ["corpus.txt", "definitions.txt"] {
        cases.extend(read_cases(&top.join("crates/qtree/tests/corpus").join(file))?);
    }
    Ok(cases)
}

fn read_examples(folder: &Path) -> io::Result<Vec<Case>> {
    let mut paths = Vec::new();
    for entry in fs::read_dir(folder)? {
        let path = entry?.path();
        if path.extension().is_some_and(|ending| ending == "script") {
            paths.push(path);
        }
    }
    paths.sort();
    paths.iter().map(|path| read_example(path)).collect()
}

fn read_example(path: &Path) -> io::Result<Case> {
    let args = fs::read_to_string(path.with_extension("args")).unwrap_or_default();
    let status = fs::read_to_string(path.with_extension("status")).unwrap_or_default();
    Ok(Case {
        name: path.display().to_string(),
        options: words_of(args.trim().strip_prefix("play").unwrap_or(&args)),
        script: fs::read(path)?,
        report: fs::read(path.with_extension("out"))?,
        status: status.trim().parse().unwrap_or(0),
    })
}

fn words_of(text: &str) -> Vec<String> {
    text.split_whitespace().map(String::from).collect()
}

/// Cases as crates/qtree/tests/corpus/pack writes them.
fn read_cases(path: &Path) -> io::Result<Vec<Case>> {
    let mut cases: Vec<Case> = Vec::new();
    for line in fs::read(path)?.split(|byte| *byte == b'\n') {
        let text = || String::from_utf8_lossy(line);
        if line.starts_with(b"case ") {
            cases.push(Case {
                name: format!("{}, {}", path.display(), text()),
                ..Case::default()
            });
            continue;
        }
        let Some(case) = cases.last_mut() else {
            continue;
        };
        match line {
            [b'<', b' ', rest @ ..] => {
                case.script.extend(rest);
                case.script.push(b'\n');
            }
            [b'<', b'|', rest @ ..] => case.script.extend(rest),
            [b'>', b' ', rest @ ..] => {
                case.report.extend(rest);
                case.report.push(b'\n');
            }
            _ if line.starts_with(b"options ") => case.options = words_of(&text()["options ".len()..]),
            _ if line.starts_with(b"status ") => case.status = text()["status ".len()..].parse().unwrap_or(-1),
            _ => {}
        }
    }
    Ok(cases)
}
