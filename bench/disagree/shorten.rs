//! Shorter scripts on which the two still differ, by leaving lines out and then words (delta debugging).

use super::scripts::Script;
use std::io;

/// The most scripts that are tried.
const MOST: u32 = 3000;

pub fn shorten(script: &Script, mut differs: impl FnMut(&Script) -> io::Result<bool>) -> io::Result<Script> {
    let mut tried = 0;
    let mut try_one = |script: &Script| {
        tried += 1;
        if tried > MOST { Ok(false) } else { differs(script) }
    };
    let mut shortest = script.clone();
    let without_options = Script {
        options: Vec::new(),
        ..shortest.clone()
    };
    if try_one(&without_options)? {
        shortest = without_options;
    }
    loop {
        let before = shortest.bytes().len();
        let lines = shortest.lines.clone();
        let is_ended = shortest.is_ended;
        let options = shortest.options.clone();
        let of_lines = |lines: &[Vec<u8>]| Script {
            options: options.clone(),
            lines: lines.to_vec(),
            is_ended,
        };
        let mut lines = reduce(lines, |lines| try_one(&of_lines(lines)))?;
        for index in 0..lines.len() {
            let words = lines[index].split(|byte| *byte == b' ').map(<[u8]>::to_vec).collect();
            let words = reduce(words, |words| {
                let mut lines = lines.clone();
                lines[index] = words.join(&b' ');
                try_one(&of_lines(&lines))
            })?;
            lines[index] = words.join(&b' ');
        }
        shortest.lines = lines;
        if shortest.bytes().len() == before {
            return Ok(shortest);
        }
    }
}

/// The parts without those that need not be there: halves first, then ever fewer, and single ones at last.
fn reduce(
    mut parts: Vec<Vec<u8>>,
    mut is_enough: impl FnMut(&[Vec<u8>]) -> io::Result<bool>,
) -> io::Result<Vec<Vec<u8>>> {
    let mut size = parts.len().div_ceil(2);
    while size > 0 {
        let mut start = 0;
        while start < parts.len() {
            let end = (start + size).min(parts.len());
            let rest = [&parts[..start], &parts[end..]].concat();
            if is_enough(&rest)? {
                parts = rest;
            } else {
                start = end;
            }
        }
        size /= 2;
    }
    Ok(parts)
}
