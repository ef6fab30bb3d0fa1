//! Random scripts: from nothing, from scripts that are known, or of lines that hardly can be read.

use super::known::Case;
use super::options::Options;
use super::random::Random;
use super::session::Session;
use super::values;

/// A script with the options of `qtree play`.
#[derive(Clone)]
pub struct Script {
    pub options: Vec<String>,
    pub lines: Vec<Vec<u8>>,
    /// Whether the last line has a newline too.
    pub is_ended: bool,
}

impl Script {
    pub fn of(options: &[String], bytes: &[u8]) -> Script {
        let is_ended = bytes.last() == Some(&b'\n');
        let body = if is_ended { &bytes[..bytes.len() - 1] } else { bytes };
        let lines = body.split(|byte| *byte == b'\n').map(<[u8]>::to_vec).collect();
        Script {
            options: options.to_vec(),
            lines: if bytes.is_empty() { Vec::new() } else { lines },
            is_ended,
        }
    }

    pub fn bytes(&self) -> Vec<u8> {
        let mut bytes = self.lines.join(&b'\n');
        if self.is_ended && !self.lines.is_empty() {
            bytes.push(b'\n');
        }
        bytes
    }
}

/// The script with a number, of so many that a seed gives.
pub fn script(seed: u64, number: u64, known: &[Case]) -> Script {
    let mut random = Random::new(seed, number);
    let options = if random.chance(30) {
        options(&mut random)
    } else {
        Vec::new()
    };
    let way = random.below(100);
    let mut session = Session::new(random, mtu_of(&options));
    let mut script = match way {
        0..55 => from_nothing(&mut session),
        55..85 => from_known(&mut session, known),
        85..97 => unreadable(&mut session, known),
        _ => bytes(&mut session.random),
    };
    let random = &mut session.random;
    if script.options.is_empty() || random.chance(15) {
        script.options = options;
    }
    if random.chance(95) {
        let last = ["reap", "totals", "tc -s qdisc show", "tc class show", "tc filter show"];
        script.lines.extend(last.map(|line| line.as_bytes().to_vec()));
    }
    script.is_ended = random.chance(95);
    script
}

fn mtu_of(options: &[String]) -> u64 {
    Options::read(options).map_or(1514, |options| options.mtu.into())
}

fn from_nothing(session: &mut Session) -> Script {
    let mut lines: Vec<Vec<u8>> = Vec::new();
    if session.random.chance(85) {
        lines.extend(session.setup().into_iter().map(String::into_bytes));
    }
    let count = session.random.number(&[10, 30, 60, 60, 100, 200]);
    while (lines.len() as u64) < count {
        lines.extend(session.lines().into_iter().map(String::into_bytes));
        if session.random.chance(2)
            && let Some(line) = lines.last_mut()
        {
            *line = hostile(line, &mut session.random);
        }
    }
    // What is queued at the end shows its order.
    if session.random.chance(50) {
        lines.push(b"poll 40".to_vec());
    }
    Script {
        options: Vec::new(),
        lines,
        is_ended: true,
    }
}

/// One of the known scripts, or the beginning of one with the end of another, and some lines changed.
fn from_known(session: &mut Session, known: &[Case]) -> Script {
    let mut script = a_known(&mut session.random, known);
    if session.random.chance(15) {
        let other = a_known(&mut session.random, known);
        let (start, end) = (cut(session, script.lines.len()), cut(session, other.lines.len()));
        script.lines.truncate(start);
        script.lines.extend_from_slice(&other.lines[end..]);
    }
    script.lines.truncate(250);
    for _ in 0..=session.random.below(8) {
        change(session, &mut script.lines);
    }
    script
}

fn a_known(random: &mut Random, known: &[Case]) -> Script {
    let case = &known[random.index(known.len())];
    Script::of(&case.options, &case.script)
}

fn cut(session: &mut Session, lines: usize) -> usize {
    session.random.index(lines + 1)
}

fn change(session: &mut Session, lines: &mut Vec<Vec<u8>>) {
    let place = cut(session, lines.len());
    let what = session.random.below(8);
    if what < 3 {
        lines.insert(place, session.line().into_bytes());
        return;
    }
    if lines.is_empty() {
        return;
    }
    let (one, other) = (session.random.index(lines.len()), session.random.index(lines.len()));
    match what {
        3 => {
            lines.remove(one);
        }
        4 => lines.insert(place, lines[one].clone()),
        5 => lines.swap(one, other),
        6 => lines[one] = renumbered(&lines[one], &mut session.random),
        _ => lines[one] = hostile(&lines[one], &mut session.random),
    }
}

/// The line with one of its words that are numbers, perhaps with a unit, another.
fn renumbered(line: &[u8], random: &mut Random) -> Vec<u8> {
    let mut words: Vec<Vec<u8>> = words_of(line);
    let numbers: Vec<usize> = (0..words.len())
        .filter(|index| words[*index].first().is_some_and(u8::is_ascii_digit))
        .collect();
    if numbers.is_empty() {
        return line.to_vec();
    }
    let place = numbers[random.index(numbers.len())];
    let digits = words[place].iter().take_while(|byte| byte.is_ascii_digit()).count();
    let suffix = words[place].split_off(digits);
    let number = match random.below(4) {
        0 => random.below(4),
        1 => random.below(2000),
        2 => random.number(&[65_535, 65_536, 4_294_967_295, 4_294_967_296, 1 << 62]),
        _ => String::from_utf8_lossy(&words[place])
            .parse()
            .unwrap_or(0_u64)
            .wrapping_add(1),
    };
    words[place] = number.to_string().into_bytes();
    words[place].extend(suffix);
    words.join(&b' ')
}

pub fn words_of(line: &[u8]) -> Vec<Vec<u8>> {
    let words = line.split(|byte| *byte == b' ').map(<[u8]>::to_vec);
    words.filter(|word| !word.is_empty()).collect()
}

/// A line that is likely not as it should be, and may not be read.
fn hostile(line: &[u8], random: &mut Random) -> Vec<u8> {
    let mut words = words_of(line);
    let changes = if random.chance(75) { 1 } else { 2 + random.below(3) };
    for _ in 0..changes {
        spoil(&mut words, random);
    }
    let blank: &[u8] = random.pick(&[b" ", b" ", b" ", b" ", b"\t", b"  ", b" \r", b"\x0c"]);
    let mut line = words.join(blank);
    if random.chance(10) {
        line.push(b'\r');
    }
    if random.chance(5) {
        line.insert(0, b' ');
    }
    line.retain(|byte| *byte != b'\n');
    line
}

fn spoil(words: &mut Vec<Vec<u8>>, random: &mut Random) {
    let place = random.index(words.len() + 1);
    let what = random.below(16);
    if what == 0 || words.is_empty() {
        words.insert(place, hostile_word(random));
        return;
    }
    let (one, other) = (random.index(words.len()), random.index(words.len()));
    match what {
        1..6 => words[one] = hostile_word(random),
        6..8 => words.insert(place, words[one].clone()),
        // An option again, with its value.
        8..11 => {
            let pair = words[one..(one + 2).min(words.len())].to_vec();
            words.extend(pair);
        }
        11 => words.swap(one, other),
        12 => {
            words.remove(one);
        }
        13 => words.truncate(one),
        14 => {
            let byte = random.index(words[one].len());
            words[one][byte] = random.next() as u8;
        }
        _ => words[one] = words[one].to_ascii_uppercase(),
    }
}

fn hostile_word(random: &mut Random) -> Vec<u8> {
    match random.below(10) {
        0..6 => random.pick(values::HOSTILE).into(),
        6..9 => random.pick(values::WORDS).into(),
        _ if random.chance(50) => random.pick(values::HOSTILE).into(),
        _ => random.pick(values::BYTES).to_vec(),
    }
}

/// Lines of the language with words out of place, and lines of any words.
fn unreadable(session: &mut Session, known: &[Case]) -> Script {
    let mut script = Script::of(&[], b"");
    let other = a_known(&mut session.random, known);
    for _ in 0..30 + session.random.below(100) {
        let line = match session.random.below(10) {
            0..4 => session.command().into_bytes(),
            4..6 => session.line().into_bytes(),
            6 if !other.lines.is_empty() => other.lines[session.random.index(other.lines.len())].clone(),
            7 => priomap(&mut session.random).into_bytes(),
            8 => renumbered(session.command().as_bytes(), &mut session.random),
            _ => {
                let mut words = words_of(session.command().as_bytes());
                let random = &mut session.random;
                words.truncate(random.index(words.len() + 1));
                words.extend((0..random.below(8)).map(|_| hostile_word(random)));
                words.join(&b' ')
            }
        };
        let is_kept = session.random.chance(10);
        script.lines.push(if is_kept {
            line
        } else {
            hostile(&line, &mut session.random)
        });
    }
    script
}

/// A prio whose bands and priomap agree or not, whole or cut.
fn priomap(random: &mut Random) -> String {
    let bands = format!(" bands {}", random.below(18));
    let count = if random.chance(60) { 16 } else { random.below(18) };
    let map: Vec<String> = (0..count)
        .map(|_| random.number(&[0, 1, 1, 2, 3, 16]).to_string())
        .collect();
    let map = format!(" priomap {}", map.join(" "));
    let head = random.pick(&["dev e root", "dev e", "root", "dev e root handle 1:"]);
    let verb = random.pick(&["add", "change"]);
    let options = match random.below(6) {
        0 => bands + &map,
        1 => map + &bands,
        2 => map + " bands",
        3 => map,
        4 => map.clone() + &map,
        _ => map + random.pick(&[" x", " bands x", " bands 2 bands 3", " limit 3"]),
    };
    format!("tc qdisc {verb} {head} prio{options}")
}

/// A few lines of any bytes.
fn bytes(random: &mut Random) -> Script {
    let count = random.below(400);
    let bytes: Vec<u8> = (0..count)
        .map(|_| match random.below(10) {
            0..4 => b"pkt 100 at poll tc\n"[random.index(19)],
            4 => random.number(&[10, 13, 9, 32, 35, 12]) as u8,
            _ => random.next() as u8,
        })
        .collect();
    Script::of(&[], &bytes)
}

fn options(random: &mut Random) -> Vec<String> {
    let mut options = Vec::new();
    let mut add = |name: &str, value: String, is_joined: bool| {
        if is_joined {
            options.push(format!("{name}={value}"));
        } else {
            options.extend([name.to_string(), value]);
        }
    };
    if random.chance(60) {
        let mtu = random.number(&[1, 40, 100, 300, 1000, 1500, 1514, 9000, 65_535]);
        add("--mtu", mtu.to_string(), random.chance(20));
    }
    if random.chance(50) {
        let txqueuelen = random.number(&[0, 1, 2, 3, 10, 1000, 4_294_967_295]);
        add("--txqueuelen", txqueuelen.to_string(), random.chance(20));
    }
    if random.chance(30) {
        add(
            "--seed",
            random.number(&[0, 1, 4_294_967_295, 77]).to_string(),
            random.chance(20),
        );
    }
    if random.chance(10) {
        add(
            "--record",
            random.number(&[0, 1, 5, 1_000_000]).to_string(),
            random.chance(20),
        );
    }
    if random.chance(5) {
        let value = random.pick(&["0", "1", "+7", "65536", "-1", "-0", "", "x", "007", "4294967296"]);
        let name = random.pick(&["--mtu", "--seed", "--unknown", "--record", "--"]);
        add(name, value.to_string(), random.chance(50));
    }
    if random.chance(3) {
        options.push("--".into());
    }
    options
}
