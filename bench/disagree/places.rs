//! Lines of each form with every hostile word in every place, a script for each form.

use super::scripts::{Script, words_of};
use super::values;

const FORMS: &[&str] = &[
    "tc qdisc add dev eth0 root handle 1: prio bands 3 priomap 1 2 2 2 1 2 0 0 1 1 1 1 1 1 1 1",
    "tc qdisc add dev eth0 root handle 1: prio priomap 1 2 2 2 1 2 0 0 1 1 1 1 1 1 1 1 bands 4",
    "tc qdisc add dev eth0 root prio bands 2",
    "tc qdisc change dev eth0 root prio priomap 3 1 0",
    "tc qdisc add dev eth0 parent 1:1 handle 10: tbf rate 1mbit burst 10kb limit 20kb",
    "tc qdisc change handle 10: dev eth0 tbf latency 50ms maxburst 1500 rate 8000bit",
    "tc qdisc add parent 1:2 dev eth0 drr",
    "tc qdisc add dev eth0 root handle 1: pfifo limit 10",
    "tc qdisc change dev eth0 root handle 1: bfifo limit 10k",
    "tc qdisc add dev eth0 root fq_codel limit 100 flows 16 quantum 300 target 5ms interval 100ms ecn drop_batch 4",
    "tc qdisc change dev eth0 handle 1: fq_codel noecn interval 1ms",
    "tc qdisc del dev eth0 root handle 1: prio",
    "tc qdisc delete handle 1:0 dev eth0",
    "tc class add dev eth0 parent 1: classid 1:1 drr quantum 1500",
    "tc class change dev eth0 classid 1:1 drr quantum 1k",
    "tc class del dev eth0 parent 1: classid 1:1",
    "tc filter add dev eth0 parent 1: protocol ip prio 1 flower ip_proto tcp src_ip 10.0.0.0/8 dst_port 2 classid 1:1",
    "tc filter add dev eth0 parent 1: pref 2 flower flowid 1:1 src_ip fe80::/10 dst_ip ::1 src_port 7",
    "tc filter add dev eth0 parent 1: prio 3 protocol ipv6 flower dst_ip ::1/128 classid 1:2",
    "tc filter del dev eth0 parent 1: protocol all prio 1 flower",
    "tc filter delete pref 1 parent 1: dev eth0",
    "tc -s qdisc show dev eth0",
    "tc class ls",
    "tc -s filter list dev eth0",
    "pkt 100 hash 1 prio 2 ip_proto udp src_ip 10.0.0.1 dst_ip 10.0.0.2 src_port 1 dst_port 2 ecn 1",
    "pkt 100 dst_ip ::1 src_ip fe80::2",
    "frame 100 450000280000000140110000",
    "poll 2",
    "at 5",
    "reap",
    "totals",
    "# x",
];

pub fn scripts() -> impl Iterator<Item = Script> {
    FORMS.iter().map(|form| script(form))
}

fn script(form: &str) -> Script {
    let words = words_of(form.as_bytes());
    let hostile: Vec<Vec<u8>> = values::HOSTILE
        .iter()
        .chain(values::WORDS)
        .map(|word| word.as_bytes().to_vec())
        .chain(values::BYTES.iter().map(|word| word.to_vec()))
        .collect();
    let mut script = Script::of(&[], b"");
    let mut add = |words: &[Vec<u8>]| script.lines.push(words.join(&b' '));
    add(&words);
    for place in 0..=words.len() {
        let (before, behind) = words.split_at(place);
        add(before);
        for word in hostile.iter().chain(&words) {
            let word = std::slice::from_ref(word);
            add(&[before, word, behind].concat());
            add(&[before, word, behind.get(1..).unwrap_or(&[])].concat());
        }
        if let Some(rest) = behind.get(1..) {
            add(&[before, rest].concat());
        }
    }
    for line in ["tc -s qdisc show", "tc class show", "tc filter show", "totals"] {
        add(&[line.as_bytes().to_vec()]);
    }
    script
}
