// The steps of the ranges in the scripts of calls: increments, targets on the steps and off them, and the cases that the scripts must reach.
use crate::chance::Chance;
use crate::replay::{feature, octets_of, ranges, speeds, RANGES};
use crate::rules::control::{parameter_length, Console, Range};
use crate::rules::number;
use crate::scripts::{hex, parameter, result, Seen};

// The targets that have a range.
const TARGETS: std::ops::RangeInclusive<u8> = 0x02..=0x06;

// An increment: 1, small ones, a part of the range's span, the span, one above it, the greatest of one octet and of its width, or any; now and then 0.
pub fn any_increment(c: &mut Chance, span: u64, most: u64) -> i64 {
    if c.below(100) == 0 {
        return 0;
    }
    let (part, any) = (c.below(span / 4 + 1), c.below(most));
    c.pick(&[1, 1, 2, 2, 5, 5, 10, 10, part, part, span, span + 1, 255, most, any]).clamp(1, most) as i64
}

// A target: an end of its range, next to an end, on a step, next to one, whole steps outside the range, between the ends, or any. Of resistance, what is
// between the ends also fits its one octet, where there is such a value.
pub fn any_target(c: &mut Chance, op: u8, range: &Range) -> i64 {
    let Range { least, greatest, .. } = *range;
    let increment = range.increment.max(1);
    let (from, to) = if op == 0x04 { (least.max(0), greatest.min(255)) } else { (least, greatest) };
    let between = from + c.below((to - from).max(0) as u64 + 1) as i64;
    let lower = between - (between - least) % increment;
    let step = if lower < from { lower + increment } else { lower };
    let past = greatest - (greatest - least) % increment + increment;
    let any = c.next() as i64;
    let all = [least, least - 1, least - increment, greatest, greatest + 1, past, between, between, step, step, step, step - 1, step + 1, any];
    all[c.below(all.len() as u64) as usize]
}

// A write by client 0: where nobody holds control it asks for it; then it sets targets, and now and then it resets the machine.
pub fn write(c: &mut Chance, console: &Console) -> String {
    let op = match c.below(16) {
        _ if console.holder.is_none() => 0x00,
        0 => 0x01,
        _ => 0x02 + c.below(5) as u8,
    };
    format!("write 00 {op:02X}{}", hex(&parameter(c, op, &console.ranges)))
}

// How the increment of a range is.
fn steps(range: &Range) -> &'static str {
    match range.greatest - range.least {
        _ if range.increment == 1 => "by 1",
        span if range.increment > span => "by more than the span",
        65535 if range.increment == 65535 => "all values by 65535",
        _ => "in steps",
    }
}

// Where a value lies.
fn place(range: &Range, value: i64) -> &'static str {
    let is_whole = (value - range.least).rem_euclid(range.increment) == 0;
    match is_whole {
        true if value < range.least => "whole steps below",
        true if value > range.greatest => "whole steps above",
        _ if value < range.least => "below",
        _ if value > range.greatest => "above",
        _ if value == range.least => "at the least",
        true if value == range.greatest => "at the greatest",
        true => "on a step",
        false if value == range.greatest => "at the greatest, off the steps",
        false => "off the steps",
    }
}

// The targets whose setting is not zero.
pub fn set_targets(console: &Console) -> Vec<u8> {
    TARGETS.filter(|op| console.settings[op].iter().any(|x| *x != 0)).collect()
}

// Notes of an opening with an increment of 0 where nothing else is wrong: the range, and whether its target bit is set; where the Feature value is wrong too,
// that it is. Of an opening with no increment of 0: how the increment of each range is.
fn note_opening(seen: &mut Seen, s: &[u8], outcome: &str) {
    let ranges = ranges(s);
    let zero: Vec<usize> = (0..5).filter(|i| ranges[*i].increment == 0).collect();
    let feature = feature(s);
    if speeds(s).low >= speeds(s).high || ranges.iter().any(|range| range.least > range.greatest) {
        return;
    }
    match zero[..] {
        [] => ranges.iter().zip(RANGES).for_each(|(range, name)| {
            seen.0.insert(format!("{name} {}: {outcome}", steps(range)));
        }),
        [i] if feature.len() == 8 => {
            seen.0.insert(format!("{} by 0, target bit {}: {outcome}", RANGES[i], feature[4] >> i & 1));
        }
        _ if feature.len() != 8 => {
            seen.0.insert(format!("by 0, no Feature value: {outcome}"));
        }
        _ => {}
    }
}

// Notes of a target that is judged by its range: how the range's increment is, where the target lies, and the result; of resistance with a least value
// below 0, that too.
fn note_target(seen: &mut Seen, op: u8, p: &[u8], range: &Range, result: &str) {
    let place = place(range, number(p, op == 0x03 || op == 0x05));
    seen.0.insert(format!("{op:02X} {}, {place}: {result}", steps(range)));
    if op == 0x04 && range.least < 0 {
        seen.0.insert(format!("04 {} from below 0, {place}: {result}", steps(range)));
    }
}

// Notes of a reset: of each target that was set, whether its range admits zero.
fn note_reset(seen: &mut Seen, set: &[u8], console: &Console) {
    for op in set {
        let zero = match place(&console.ranges[*op as usize - 2], 0) {
            "at the least" | "on a step" | "at the greatest" => "admitted",
            "off the steps" | "at the greatest, off the steps" => "off the steps",
            _ => "outside",
        };
        seen.0.insert(format!("reset of {op:02X}, zero {zero}"));
    }
}

// Notes the case that a line reached; `set` are the targets whose setting was not zero before it.
pub fn note(seen: &mut Seen, set: &[u8], line: &str, said: &str, console: &Console) {
    let word = line.split(' ').next().unwrap();
    let outcome = said.split(' ').next().unwrap();
    let s = octets_of(line);
    if word == "machine" {
        return note_opening(seen, &s, outcome);
    }
    if word != "write" || outcome != "done" {
        return;
    }
    let (op, p, result) = (s[1], &s[2..], result(said));
    let is_judged = parameter_length(op) == Some(p.len()) && (result == "01" || result == "03");
    if TARGETS.contains(&op) && is_judged {
        note_target(seen, op, p, &console.ranges[op as usize - 2], result);
    }
    if op == 0x01 && result == "01" {
        note_reset(seen, set, console);
    }
}

// What an opening says of increments.
fn reached_openings(seen: &Seen) {
    for name in RANGES {
        seen.must_have(["0", "1"].map(|bit| format!("{name} by 0, target bit {bit}: refused=16")));
        seen.must_have(["by 1", "by more than the span", "in steps"].map(|steps| format!("{name} {steps}: done")));
    }
    seen.must_have(["speed", "inclination", "resistance", "power"].map(|name| format!("{name} all values by 65535: done")));
    seen.must_have(["by 0, no Feature value: refused=22".to_string()]);
}

// The cases of steps that the scripts must reach.
pub fn reached(seen: &Seen) {
    reached_openings(seen);
    let outside = "below: 03|above: 03|whole steps below: 03|whole steps above: 03";
    let in_steps = "at the least: 01|on a step: 01|at the greatest: 01|off the steps: 03|at the greatest, off the steps: 03";
    let by_one = "at the least: 01|on a step: 01|at the greatest: 01|whole steps below: 03|whole steps above: 03";
    let by_more = "at the least: 01|off the steps: 03|at the greatest, off the steps: 03";
    for op in TARGETS {
        seen.must_have(outside.split('|').chain(in_steps.split('|')).map(|case| format!("{op:02X} in steps, {case}")));
        seen.must_have(by_one.split('|').map(|case| format!("{op:02X} by 1, {case}")));
        seen.must_have(by_more.split('|').map(|case| format!("{op:02X} by more than the span, {case}")));
        seen.must_have(["admitted", "outside"].map(|zero| format!("reset of {op:02X}, zero {zero}")));
    }
    for op in ["02", "03", "05"] {
        seen.must_have(["at the least: 01", "at the greatest: 01", "off the steps: 03"].map(|case| format!("{op} all values by 65535, {case}")));
    }
    seen.must_have(["03", "04", "05"].map(|op| format!("reset of {op}, zero off the steps")));
    let below_zero = "in steps from below 0, on a step: 01|in steps from below 0, off the steps: 03|all values by 65535, off the steps: 03";
    seen.must_have(below_zero.split('|').map(|case| format!("04 {case}")));
}
