//! The options of `qtree play`.

pub struct Options {
    pub mtu: u16,
    pub txqueuelen: u32,
    pub seed: u32,
}

impl Options {
    /// `None` for wrong usage. The word `--` ends the options. A number may have a plus, and behind `=` a 0 a minus.
    pub fn read(words: &[String]) -> Option<Options> {
        let mut given: [Option<u64>; 4] = [None; 4];
        let words = match words.split_last() {
            Some((last, words)) if last == "--" => words,
            _ => words,
        };
        let mut words = words.iter();
        while let Some(word) = words.next() {
            let (name, value) = match word.split_once('=') {
                Some((name, value)) => (name, value),
                None => (
                    word.as_str(),
                    words.next().filter(|value| !value.starts_with('-'))?.as_str(),
                ),
            };
            let (place, low, high) = match name {
                "--mtu" => (0, 1, 65_535),
                "--txqueuelen" => (1, 0, u32::MAX.into()),
                "--seed" => (2, 0, u32::MAX.into()),
                "--record" => (3, 0, 1_000_000),
                _ => return None,
            };
            let number = u64::try_from(value.parse::<i64>().ok()?).ok()?;
            if number < low || number > high || given[place].replace(number).is_some() {
                return None;
            }
        }
        let [mtu, txqueuelen, seed, _] = given;
        Some(Options {
            mtu: mtu.unwrap_or(1514) as u16,
            txqueuelen: txqueuelen.unwrap_or(1000) as u32,
            seed: seed.unwrap_or(0) as u32,
        })
    }
}
