//! Commands to a tree of which much is guessed.

use super::random::Random;
use super::session::{Guess, Session};
use super::values;

const KINDS: [&str; 8] = ["pfifo", "bfifo", "prio", "prio", "tbf", "drr", "drr", "fq_codel"];

impl Session {
    pub fn command(&mut self) -> String {
        if self.guesses.is_empty() {
            return self.qdisc_add();
        }
        match self.random.below(20) {
            0..5 => self.qdisc_add(),
            5..8 => self.qdisc_change(),
            8 => self.qdisc_del(),
            9..12 => self.class_add(),
            12..14 => self.class_change(),
            14 => self.class_del(),
            15 => self.filter_del(),
            _ => self.filter_add(),
        }
    }

    fn handle(&mut self) -> u64 {
        match self.random.below(10) {
            0..6 => 1 + self.random.below(20),
            6 => self.random.number(&[0x8001, 0x8002, 0xfffe, 0xabc]),
            _ if !self.guesses.is_empty() => self.known().handle,
            _ => 1,
        }
    }

    fn known(&mut self) -> &Guess {
        let index = self.random.index(self.guesses.len());
        &self.guesses[index]
    }

    /// The handle of a known qdisc of this kind, of any where there is none.
    pub fn of_kind(&mut self, kind: &str) -> u64 {
        let of_kind: Vec<u64> = self
            .guesses
            .iter()
            .filter(|guess| guess.kind == kind)
            .map(|guess| guess.handle)
            .collect();
        if of_kind.is_empty() || self.random.chance(5) {
            return self.handle();
        }
        of_kind[self.random.index(of_kind.len())]
    }

    /// A class, mostly one that is there.
    fn class(&mut self) -> (u64, u64) {
        let classes: Vec<(u64, u64)> = self
            .guesses
            .iter()
            .flat_map(|guess| guess.classes.iter().map(|minor| (guess.handle, *minor)))
            .collect();
        if classes.is_empty() || self.random.chance(5) {
            return (self.handle(), 1 + self.random.below(5));
        }
        classes[self.random.index(classes.len())]
    }

    fn place(&mut self) -> Option<(u64, u64)> {
        let has_root = self.guesses.iter().any(|guess| guess.place.is_none());
        if !has_root || self.random.chance(6) {
            return None;
        }
        let mut place = self.class();
        for _ in 0..4 {
            if self.guesses.iter().all(|guess| guess.place != Some(place)) {
                break;
            }
            place = self.class();
        }
        Some(place)
    }

    fn qdisc_add(&mut self) -> String {
        let place = self.place();
        let given = if self.random.chance(75) {
            Some(self.handle())
        } else {
            None
        };
        let mut kind = self.random.pick(&KINDS);
        if self.guesses.is_empty() && self.random.chance(60) {
            kind = self.random.pick(&["prio", "tbf", "drr", "fq_codel"]);
        }
        let (options, classes) = self.options(kind);
        let mut free = 0x8001;
        while self.guesses.iter().any(|guess| guess.handle == free) {
            free += 1;
        }
        let handle = given.unwrap_or(free);
        if self
            .guesses
            .iter()
            .all(|guess| guess.handle != handle && guess.place != place)
        {
            self.guesses.push(Guess {
                handle,
                kind,
                place,
                classes,
            });
        }
        let mut head = vec!["dev eth0".to_string(), place_text(place)];
        head.extend(given.map(|handle| format!("handle {handle:x}:")));
        format!("tc qdisc add{} {kind}{options}", mixed(&mut self.random, head))
    }

    /// The options of a kind, and the minor numbers of its classes.
    pub fn options(&mut self, kind: &str) -> (String, Vec<u64>) {
        let random = &mut self.random;
        let mut options = Vec::new();
        let mut classes = Vec::new();
        match kind {
            "pfifo" if random.chance(70) => options.push(format!("limit {}", values::packets(random))),
            "bfifo" if random.chance(80) => options.push(format!("limit {}", values::size(random))),
            "prio" => {
                let bands = if random.chance(60) { 3 } else { 2 + random.below(15) };
                if bands != 3 || random.chance(20) {
                    options.push(format!("bands {bands}"));
                }
                if bands == 2 || random.chance(40) {
                    let map: Vec<String> = (0..16).map(|_| random.below(bands).to_string()).collect();
                    options.push(format!("priomap {}", map.join(" ")));
                }
                classes.extend(1..=bands);
            }
            "tbf" => {
                options.push(format!("rate {}", values::rate(random)));
                let burst = random.pick(&["burst", "burst", "buffer", "maxburst"]);
                options.push(format!("{burst} {}", values::amount(random)));
                options.push(if random.chance(60) {
                    format!("limit {}", values::size(random))
                } else {
                    format!("latency {}", values::time(random))
                });
                classes.push(1);
            }
            "fq_codel" => options = fq_codel(random),
            _ => {}
        }
        (mixed(random, options), classes)
    }

    fn qdisc_change(&mut self) -> String {
        let index = self.random.index(self.guesses.len());
        let guess = &self.guesses[index];
        let (handle, place, mut kind) = (guess.handle, guess.place, guess.kind);
        if self.random.chance(6) {
            kind = self.random.pick(&KINDS);
        }
        let (options, classes) = self.options(kind);
        if kind == "prio" {
            self.guesses[index].classes = classes;
        }
        let head = self.named(handle, place);
        format!("tc qdisc change{head} {kind}{options}")
    }

    /// A qdisc named by its place, by its handle, or by both.
    fn named(&mut self, handle: u64, place: Option<(u64, u64)>) -> String {
        let mut head = vec!["dev eth0".to_string()];
        let how = self.random.below(3);
        if how < 2 {
            head.push(format!("handle {handle:x}:"));
        }
        if how > 0 {
            head.push(place_text(place));
        }
        mixed(&mut self.random, head)
    }

    fn qdisc_del(&mut self) -> String {
        let index = self.random.index(self.guesses.len());
        let (handle, place) = (self.guesses[index].handle, self.guesses[index].place);
        self.forget(handle);
        let head = self.named(handle, place);
        let verb = self.random.pick(&["del", "delete"]);
        let kind = if self.random.chance(15) { " tbf" } else { "" };
        format!("tc qdisc {verb}{head}{kind}")
    }

    /// A qdisc is removed with all below it.
    fn forget(&mut self, handle: u64) {
        self.guesses.retain(|guess| guess.handle != handle);
        let beneath = |guess: &Guess| guess.place.is_some_and(|(major, _)| major == handle);
        while let Some(guess) = self.guesses.iter().find(|guess| beneath(guess)) {
            let below = guess.handle;
            self.forget(below);
        }
    }

    fn class_add(&mut self) -> String {
        let handle = self.of_kind("drr");
        let minor = match self.random.below(20) {
            0 => self.random.number(&[0xffff, 0x10, 0x100]),
            _ => 1 + self.random.below(6),
        };
        for guess in &mut self.guesses {
            if guess.handle == handle && guess.kind == "drr" && !guess.classes.contains(&minor) {
                guess.classes.push(minor);
            }
        }
        let mut head = vec!["dev eth0".into(), format!("parent {handle:x}:")];
        head.push(format!("classid {handle:x}:{minor:x}"));
        format!("tc class add{} drr{}", mixed(&mut self.random, head), self.quantum())
    }

    pub fn quantum(&mut self) -> String {
        if self.random.chance(70) {
            format!(" quantum {}", values::amount(&mut self.random))
        } else {
            String::new()
        }
    }

    fn drr_class(&mut self) -> (u64, u64) {
        let handle = self.of_kind("drr");
        let classes = self.guesses.iter().filter(|guess| guess.handle == handle);
        let classes: Vec<u64> = classes.flat_map(|guess| guess.classes.clone()).collect();
        if classes.is_empty() || self.random.chance(5) {
            return (handle, 1 + self.random.below(5));
        }
        (handle, classes[self.random.index(classes.len())])
    }

    /// The parent that a class is said to have, mostly the right one.
    fn parent(&mut self, major: u64) -> Option<String> {
        let parent = if self.random.chance(10) { self.handle() } else { major };
        self.random.chance(40).then(|| format!("parent {parent:x}:"))
    }

    fn class_change(&mut self) -> String {
        let (major, minor) = self.drr_class();
        let mut head = vec!["dev eth0".into(), format!("classid {major:x}:{minor:x}")];
        head.extend(self.parent(major));
        format!("tc class change{} drr{}", mixed(&mut self.random, head), self.quantum())
    }

    fn class_del(&mut self) -> String {
        let (major, minor) = self.drr_class();
        if self.random.chance(50) {
            let beneath = self.guesses.iter().find(|guess| guess.place == Some((major, minor)));
            if let Some(handle) = beneath.map(|guess| guess.handle) {
                self.forget(handle);
            }
        }
        let mut head = vec!["dev eth0".into(), format!("classid {major:x}:{minor:x}")];
        head.extend(self.parent(major));
        format!("tc class del{}", mixed(&mut self.random, head))
    }

    pub fn filter_add(&mut self) -> String {
        let kind = self.random.pick(&["drr", "drr", "prio"]);
        let handle = self.of_kind(kind);
        let classes = self.guesses.iter().filter(|guess| guess.handle == handle);
        let classes: Vec<u64> = classes.flat_map(|guess| guess.classes.clone()).collect();
        let minor = if classes.is_empty() || self.random.chance(4) {
            1 + self.random.below(5)
        } else {
            classes[self.random.index(classes.len())]
        };
        let random = &mut self.random;
        let mut head = vec!["dev eth0".into(), format!("parent {handle:x}:")];
        let prio = random.pick(&["prio", "prio", "pref"]);
        head.push(format!("{prio} {}", 1 + random.below(5)));
        if random.chance(30) {
            head.push(format!("protocol {}", random.pick(&["ip", "ipv6", "all"])));
        }
        let mut keys = vec![format!("{} {handle:x}:{minor:x}", random.pick(&["classid", "flowid"]))];
        if random.chance(65) {
            keys.push(format!("src_port {}", values::port(random)));
        }
        if random.chance(10) {
            keys.push(format!("dst_port {}", values::port(random)));
        }
        if random.chance(20) {
            keys.push(format!("ip_proto {}", values::proto(random)));
        }
        if random.chance(25) {
            keys.push(format!("src_ip {}", values::prefix(random)));
        }
        if random.chance(10) {
            keys.push(format!("dst_ip {}", values::prefix(random)));
        }
        let head = mixed(random, head);
        format!("tc filter add{head} flower{}", mixed(random, keys))
    }

    fn filter_del(&mut self) -> String {
        let kind = self.random.pick(&["drr", "prio"]);
        let handle = self.of_kind(kind);
        let mut head = vec!["dev eth0".into(), format!("parent {handle:x}:")];
        head.push(format!("prio {}", 1 + self.random.below(5)));
        let flower = if self.random.chance(30) { " flower" } else { "" };
        format!("tc filter del{}{flower}", mixed(&mut self.random, head))
    }
}

fn fq_codel(random: &mut Random) -> Vec<String> {
    let mut options = Vec::new();
    if random.chance(40) {
        options.push(format!("limit {}", values::packets(random).max(1)));
    }
    if random.chance(50) {
        let flows = random.number(&[1, 1, 2, 3, 4, 5, 7, 1024]);
        options.push(format!("flows {flows}"));
    }
    if random.chance(50) {
        options.push(format!("quantum {}", values::amount(random)));
    }
    if random.chance(50) {
        // So short that CoDel soon drops.
        options.push(format!("target {}us", random.number(&[1, 10, 1000])));
        options.push(format!("interval {}us", random.number(&[1, 100, 2000, 10_000])));
    } else {
        if random.chance(50) {
            options.push(format!("target {}", values::time(random)));
        }
        if random.chance(50) {
            let time = values::time(random);
            let is_short = matches!(time.as_str(), "0" | "0.001us" | "0us");
            options.push(format!("interval {}", if is_short { "1us" } else { &time }));
        }
    }
    if random.chance(40) {
        options.push(random.pick(&["ecn", "noecn"]).into());
    }
    if random.chance(30) {
        options.push(format!("drop_batch {}", 1 + random.below(5)));
    }
    options
}

pub fn place_text(place: Option<(u64, u64)>) -> String {
    match place {
        None => "root".into(),
        Some((major, minor)) => format!("parent {major:x}:{minor:x}"),
    }
}

/// The parts in any order, a blank before each.
pub fn mixed(random: &mut Random, mut parts: Vec<String>) -> String {
    let mut text = String::new();
    while !parts.is_empty() {
        let index = if random.chance(70) {
            0
        } else {
            random.index(parts.len())
        };
        text += " ";
        text += &parts.remove(index);
    }
    text
}
