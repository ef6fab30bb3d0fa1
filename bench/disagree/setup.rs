//! Commands that set a tree up, each of which is likely done.

use super::requests::place_text;
use super::session::{Guess, Session};
use super::values;

/// How a tree grows.
#[derive(Clone, Copy)]
enum Growth {
    /// Of 100 classes, how many get a qdisc.
    Of100(u64),
    /// One class of each node gets a qdisc with classes.
    Deep,
    /// Each class gets a prio of many bands.
    Wide,
    /// One class or two of each node get a qdisc, and all leaves there are fq_codel.
    Flows,
}

impl Session {
    pub fn setup(&mut self) -> Vec<String> {
        let mut lines = Vec::new();
        let growth = match self.random.below(100) {
            0..6 => Growth::Deep,
            6 => Growth::Wide,
            7..30 => Growth::Flows,
            _ => Growth::Of100(self.random.number(&[10, 40, 70])),
        };
        self.grow(None, 1, growth, &mut lines);
        if self.random.chance(1) {
            let filter = self.filter_add();
            lines.extend(std::iter::repeat_n(filter, 258));
        }
        if matches!(growth, Growth::Wide) || self.random.chance(1) {
            self.fill(&mut lines);
        }
        lines
    }

    /// As many classes as a tree can have and more, and as many bands.
    fn fill(&mut self, lines: &mut Vec<String>) {
        if self.guesses.iter().any(|guess| guess.kind == "drr") {
            let handle = self.of_kind("drr");
            let add = |minor: u64| format!("tc class add dev eth0 parent {handle:x}: classid {handle:x}:{minor:x} drr");
            lines.extend((0x100..0x100 + 256).map(add));
        }
        let prios = self.guesses.iter().filter(|guess| guess.kind == "prio");
        lines.extend(prios.map(|guess| format!("tc qdisc change dev eth0 handle {:x}: prio bands 16", guess.handle)));
    }

    fn kind_at(&mut self, depth: u64, growth: Growth) -> &'static str {
        match growth {
            Growth::Of100(_) if depth == 1 => self.random.pick(&["prio", "tbf", "drr", "drr", "fq_codel", "fq_codel"]),
            Growth::Of100(_) => self
                .random
                .pick(&["prio", "tbf", "drr", "fq_codel", "fq_codel", "pfifo", "bfifo"]),
            Growth::Deep => self.random.pick(&["prio", "tbf", "drr"]),
            Growth::Wide => "prio",
            Growth::Flows if depth > 1 && self.random.chance(25 * depth) => "fq_codel",
            Growth::Flows => self.random.pick(&["prio", "tbf", "drr"]),
        }
    }

    fn grow(&mut self, place: Option<(u64, u64)>, depth: u64, growth: Growth, lines: &mut Vec<String>) {
        let kind = self.kind_at(depth, growth);
        let handle = self.guesses.len() as u64 + 1;
        let (options, mut classes) = self.options(kind);
        let options = match (growth, kind) {
            (Growth::Wide, _) => format!(" bands {}", 14 + self.random.below(3)),
            (Growth::Flows, "tbf" | "fq_codel") if self.random.chance(75) => self.lively(kind),
            _ => options,
        };
        lines.push(format!(
            "tc qdisc add dev eth0 {} handle {handle:x}: {kind}{options}",
            place_text(place)
        ));
        if kind == "drr" {
            classes.extend(1..=1 + self.random.below(4));
            for minor in &classes {
                let quantum = self.quantum();
                lines.push(format!(
                    "tc class add dev eth0 parent {handle:x}: classid {handle:x}:{minor:x} drr{quantum}"
                ));
            }
        }
        self.guesses.push(Guess {
            handle,
            kind,
            place,
            classes: classes.clone(),
        });
        self.add_filters(handle, kind, &classes, lines);
        if depth > 8 || lines.len() > 150 {
            return;
        }
        for (index, minor) in classes.iter().enumerate() {
            let has_qdisc = match growth {
                Growth::Of100(_) if kind == "tbf" => depth < 6 && self.random.chance(75),
                Growth::Of100(part) => depth < 5 && self.random.chance(part / depth),
                Growth::Deep => index == 0,
                Growth::Wide => depth < 3,
                Growth::Flows => index == 0 || index == 1 && depth < 3,
            };
            if has_qdisc {
                self.grow(Some((handle, *minor)), depth + 1, growth, lines);
            }
        }
    }

    /// Options of a tbf that lets packets through, or of an fq_codel that soon drops.
    fn lively(&mut self, kind: &str) -> String {
        let random = &mut self.random;
        if kind == "tbf" {
            let rate = random.pick(&["800kbit", "10mbit", "100mbit", "1gbit", "1tbit"]);
            return format!(" rate {rate} burst {}k limit 1mb", 2 + random.below(20));
        }
        let flows = 1 + random.below(2);
        let (target, interval) = (random.number(&[1, 10, 1000]), random.number(&[1, 100, 2000]));
        let ecn = random.pick(&["ecn", "noecn", "noecn"]);
        format!(" flows {flows} target {target}us interval {interval}us {ecn}")
    }

    /// By ports, and what is left to a class of a drr.
    fn add_filters(&mut self, handle: u64, kind: &str, classes: &[u64], lines: &mut Vec<String>) {
        let is_filtered = kind == "drr" || kind == "prio" && self.random.chance(30);
        if !is_filtered {
            return;
        }
        let add = |prio: u64, key: &str, minor: u64| {
            format!("tc filter add dev eth0 parent {handle:x}: prio {prio} flower{key} classid {handle:x}:{minor:x}")
        };
        for minor in classes {
            match self.random.below(10) {
                0..7 => lines.push(add(1, &format!(" src_port {minor}"), *minor)),
                7 => lines.push(add(2, &format!(" src_ip {}", values::prefix(&mut self.random)), *minor)),
                _ => {}
            }
        }
        if let Some(minor) = classes.last()
            && kind == "drr"
            && self.random.chance(75)
        {
            lines.push(add(9, "", *minor));
        }
    }
}
