// Scripts for the program `replay`, from a fixed seed. Each must reach the cases that it is meant for: if it misses one, writing it fails.
use crate::chance::{any_record, any_set, damaged, record_with, Chance};
use crate::replay::Replay;
use crate::rules::control::{parameter_length, Mode, Range, Ranges};
use crate::rules::pieces;
use crate::runs::{self, Before};
use crate::steps;
use std::collections::BTreeSet;
use std::io::{self, Write};

pub fn hex(octets: &[u8]) -> String {
    octets.iter().map(|x| format!("{x:02X}")).collect()
}

// The cases that a script has reached, in words.
pub struct Seen(pub BTreeSet<String>);

impl Seen {
    pub fn must_have(&self, words: impl IntoIterator<Item = String>) {
        for word in words {
            assert!(self.0.contains(&word), "no line of the script has: {word}");
        }
    }
}

fn any_octets(c: &mut Chance, count: u64) -> Vec<u8> {
    (0..count).map(|_| c.next() as u8).collect()
}

// A range between two limits: all of it, one value, one that begins or ends at a limit, or any; now and then a reversed one. Its increment is at most `most`.
fn any_range(c: &mut Chance, least: i64, greatest: i64, most: u64) -> Range {
    let values = (greatest - least + 1) as u64;
    let (a, b) = (least + c.below(values) as i64, least + c.below(values) as i64);
    let (least, greatest) = match c.below(40) {
        0 => (a.max(b), a.min(b)),
        1..=9 => (least, greatest),
        10..=14 => (a, a),
        15..=19 => (least, a),
        20..=24 => (a, greatest),
        _ => (a.min(b), a.max(b)),
    };
    Range { least, greatest, increment: steps::any_increment(c, least.abs_diff(greatest), most) }
}

fn any_ranges(c: &mut Chance) -> Ranges {
    let resistance = match c.below(4) {
        0 => any_range(c, -32768, -1, 65535),
        1 => any_range(c, -5, 300, 65535),
        2 => any_range(c, -300, 255, 65535),
        _ => any_range(c, -32768, 32767, 65535),
    };
    let speed = any_range(c, 0, 65535, 65535);
    let [inclination, power] = [(); 2].map(|_| any_range(c, -32768, 32767, 65535));
    [speed, inclination, resistance, power, any_range(c, 0, 255, 255)]
}

fn range_octets(ranges: &Ranges) -> Vec<u8> {
    let [wide @ .., heart_rate] = ranges.map(|Range { least, greatest, increment }| [least, greatest, increment]);
    let octets = wide.as_flattened().iter().flat_map(|x| (*x as u16).to_le_bytes());
    octets.chain(heart_rate.map(|x| x as u8)).collect()
}

// Opens a machine, most often with every target setting.
fn machine(c: &mut Chance) -> String {
    let ranges = any_ranges(c);
    let speeds = runs::any_speeds(c);
    let length = if c.below(20) == 0 { c.below(12) } else { 8 };
    let mut feature = any_octets(c, length);
    if c.below(2) == 0 {
        feature.iter_mut().skip(4).for_each(|x| *x = 255);
    }
    format!("machine {}{}{}", hex(&range_octets(&ranges)), hex(&speeds), hex(&feature))
}

// A client: most often one of two, now and then any number.
fn any_client(c: &mut Chance) -> u8 {
    match c.below(30) {
        0 => c.next() as u8,
        1 => c.pick(&[3, 4, 255]) as u8,
        2..=4 => c.below(4) as u8,
        n => (n % 3 == 0) as u8,
    }
}

// A parameter's octets.
pub fn parameter(c: &mut Chance, op: u8, ranges: &Ranges) -> Vec<u8> {
    let length = parameter_length(op).unwrap_or(2) as u64;
    match op {
        0x02..=0x06 => steps::any_target(c, op, &ranges[op as usize - 2]).to_le_bytes()[..length as usize].to_vec(),
        0x08 => vec![c.pick(&[1, 2, 1, 2, 1, 2, 0, 3, 255]) as u8],
        0x13 => vec![c.pick(&[1, 1, 1, 1, 1, 1, 2, 2, 0, 3, 255]) as u8],
        _ => any_octets(c, length),
    }
}

fn write(c: &mut Chance, replay: &Replay) -> String {
    let console = &replay.console;
    let client = if c.below(4) > 0 { console.holder.unwrap_or(0) } else { any_client(c) };
    let op = match c.below(20) {
        0 => c.next() as u8,
        1..=5 if console.holder.is_none() => 0,
        2..=3 => 0x07,
        4..=7 => 0x08,
        8..=9 => 0x13,
        _ => c.below(0x16) as u8,
    };
    let mut octets = vec![op];
    octets.extend(parameter(c, op, &console.ranges));
    match c.below(40) {
        0 => octets.clear(),
        1..=3 => octets.truncate(1 + c.below(octets.len() as u64) as usize),
        4..=6 => octets.extend(any_octets(c, 3)),
        7 => {
            let length = c.pick(&[20, 255, 256, 257, 512, 600]);
            octets.extend(any_octets(c, length));
        }
        _ => {}
    }
    format!("write {client:02X} {}", hex(&octets))
}

// A call; in a run one of three feeds a speed. Most confirmations are by a client to whom a response is due.
fn call(c: &mut Chance, replay: &Replay) -> String {
    if c.below(if replay.console.run.is_some() { 3 } else { 40 }) == 0 {
        return runs::flywheel(c, &replay.console);
    }
    let client = any_client(c);
    let due = if c.below(8) > 0 { replay.console.awaited.unwrap_or(client) } else { client };
    match c.below(40) {
        0..=1 => format!("connect {client:02X}"),
        2 => format!("disconnect {client:02X}"),
        3..=6 => format!("on {client:02X}"),
        7 => format!("off {client:02X}"),
        8..=21 if replay.console.awaited.is_some() || c.below(4) == 0 => format!("confirm {due:02X}"),
        22..=23 => format!("setting {:02X}", if c.below(4) == 0 { c.next() } else { c.below(0x16) } as u8),
        _ => write(c, replay),
    }
}

// The result in a response, after 80 and the op code.
pub fn result(said: &str) -> &str {
    &said[said.find(": 80 ").unwrap() + 8..][..2]
}

// Notes the case that a line reached: its word and its outcome; for a write also the op code and the result, and for 07 and 08 the machine's state
// before it and the parameter.
fn note(seen: &mut Seen, line: &str, mode: Mode, said: &str) {
    let word = line.split(' ').next().unwrap();
    let outcome = said.split(' ').next().unwrap();
    seen.0.insert(format!("{word} {outcome}"));
    if outcome == "done" && word == "write" {
        let op = &line[9..11];
        let result = result(said);
        seen.0.insert(format!("{op} {result}"));
        if op == "07" || op == "08" {
            seen.0.insert(format!("{mode:?} {} {result}", &line[9..]));
        }
    }
}

fn say(out: &mut impl Write, replay: &mut Replay, seen: &mut Seen, line: String) -> io::Result<()> {
    let mode = replay.console.mode;
    let before = Before::of(&replay.console);
    let set = steps::set_targets(&replay.console);
    let said = replay.line(&line);
    note(seen, &line, mode, &said);
    runs::note(seen, &before, &line, &said, &replay.console);
    steps::note(seen, &set, &line, &said, &replay.console);
    writeln!(out, "{line}")
}

// The calls that a script begins with; two of three then start a run, where the machine has spin down.
const FIRST: [&str; 3] = ["connect 00", "on 00", "connect 01"];
const START: [&str; 5] = ["on 01", "write 00 00", "confirm 00", "write 00 1301", "confirm 00"];

// A script of 50 calls after the first ones.
fn any_calls(out: &mut impl Write, c: &mut Chance, replay: &mut Replay, seen: &mut Seen, start: &[&str]) -> io::Result<()> {
    let opening = machine(c);
    say(out, replay, seen, opening)?;
    for line in FIRST.iter().chain(start) {
        say(out, replay, seen, line.to_string())?;
    }
    for _ in start.len()..50 {
        let line = call(c, replay);
        say(out, replay, seen, line)?;
    }
    Ok(())
}

// A script of 25 writes by one client, most of them targets with a range, each confirmed.
fn targets(out: &mut impl Write, c: &mut Chance, replay: &mut Replay, seen: &mut Seen) -> io::Result<()> {
    let opening = machine(c);
    for line in [&opening, "connect 00", "on 00"] {
        say(out, replay, seen, line.to_string())?;
    }
    for _ in 0..25 {
        let line = steps::write(c, &replay.console);
        say(out, replay, seen, line)?;
        say(out, replay, seen, "confirm 00".to_string())?;
    }
    Ok(())
}

// The refusals and results that the scripts must reach.
fn reached(seen: &Seen) {
    let refusals = "machine 22 16 connect 10 17 disconnect 10 17 on 10 17 off 10 17 confirm 10 17 21 write 10 17 18 19 20";
    let mut word = "";
    for next in refusals.split(' ') {
        if next.starts_with(char::is_numeric) {
            seen.must_have([format!("{word} refused={next}")]);
        } else {
            word = next;
        }
    }
    for op in 0..=0x14 {
        seen.must_have([1, 3].iter().map(|result| format!("{op:02X} {result:02X}")));
        seen.must_have((op != 0).then(|| format!("{op:02X} 05")));
        seen.must_have((![0, 1, 7, 8].contains(&op)).then(|| format!("{op:02X} 02")));
    }
    seen.must_have(["00 04", "13 04", "15 02"].map(String::from));
    let judged = "Stopped 07 01,Running 07 04,Paused 07 01,Stopped 0801 04,Running 0801 01,Paused 0801 01,Stopped 0802 04,Running 0802 01,Paused 0802 04";
    seen.must_have(judged.split(',').map(String::from));
}

// 4,000 openings; 2,000 scripts of any calls, 108,000 lines; and 1,000 scripts of targets, 53,000 lines. Each script is on a machine of its own.
pub fn calls(out: &mut impl Write, c: &mut Chance) -> io::Result<()> {
    let (mut replay, mut seen) = (Replay::new(), Seen(BTreeSet::new()));
    for _ in 0..4000 {
        let opening = machine(c);
        say(out, &mut replay, &mut seen, opening)?;
    }
    for number in 0..2000 {
        any_calls(out, c, &mut replay, &mut seen, if number % 3 > 0 { &START } else { &[] })?;
    }
    for _ in 0..1000 {
        targets(out, c, &mut replay, &mut seen)?;
    }
    reached(&seen);
    runs::reached(&seen);
    steps::reached(&seen);
    Ok(())
}

pub fn opening(kind: u32, told: Option<u32>) -> String {
    match told {
        None => format!("open {kind:02X}"),
        Some(set) => format!("fixed {kind:02X}{}", hex(&set.to_le_bytes())),
    }
}

// Random octets, at times more than a notification can have.
fn garbage(c: &mut Chance) -> Vec<u8> {
    let length = if c.below(6) == 0 { c.pick(&[511, 512, 513, 700]) } else { c.below(40) };
    any_octets(c, length)
}

// The notifications of some records of a kind, most often all of one set, with losses, damage and garbage.
fn stream(c: &mut Chance, kind: u32, set: u32) -> Vec<Vec<u8>> {
    let payload = 20 + c.below(40) as usize;
    let mut all = vec![];
    for _ in 0..1 + c.below(4) {
        let (record, direction) = if c.below(5) == 0 { any_record(c, kind) } else { record_with(c, kind, set) };
        for mut s in pieces(kind, &record, direction, payload) {
            if c.below(8) == 0 {
                damaged(c, kind, &mut s);
            }
            if c.below(6) > 0 {
                all.push(s);
            }
            if c.below(20) == 0 {
                all.push(garbage(c));
            }
        }
    }
    all
}

// 20,000 collections, open and fixed, each with a stream of notifications.
pub fn streams(out: &mut impl Write, c: &mut Chance) -> io::Result<()> {
    let (mut replay, mut seen) = (Replay::new(), Seen(BTreeSet::new()));
    for _ in 0..20000 {
        let kind = 1 + c.below(6) as u32;
        let set = any_set(c, kind);
        let told = match c.below(20) {
            0..=7 => None,
            8 => Some(any_set(c, kind)),
            9 => Some(c.next() as u32),
            _ => Some(set),
        };
        let opened = if c.below(50) == 0 { c.pick(&[0, 7, 255]) as u32 } else { kind };
        for line in Some(opening(opened, told)).into_iter().chain(stream(c, kind, set).iter().map(|s| format!("notification {}", hex(s)))) {
            let said = replay.line(&line);
            let outcome = said.split(' ').next().unwrap();
            let dropped = if said.contains("dropped=1") { " dropped" } else { "" };
            let how = if replay.collection.told.is_some() { "fixed" } else { "open" };
            seen.0.insert(format!("{how} {outcome}{dropped}"));
            writeln!(out, "{line}")?;
        }
    }
    let both = "opened|refused=11|waiting|waiting dropped|record|record dropped|refused=30|refused=30 dropped|refused=31|refused=31 dropped|refused=32|refused=32 dropped";
    seen.must_have(both.split('|').flat_map(|what| [format!("open {what}"), format!("fixed {what}")]));
    let fixed = "refused=35|refused=33|refused=33 dropped|refused=34|refused=34 dropped";
    seen.must_have(fixed.split('|').map(|what| format!("fixed {what}")));
    Ok(())
}
