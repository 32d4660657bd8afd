// A second implementation of records, splitting, collecting and listing, and in rules/control.rs of the control point, written from the documents
// alone: it shares no code and no table with the library.
pub mod control;

use std::collections::BTreeMap;

#[derive(Clone, Copy, PartialEq)]
pub enum Width {
    U8,
    U16,
    U24,
    S16,
}
use self::Width::*;

pub type Group = Vec<(&'static str, Width)>;

// A record or a part: the octets of each group that is present, by its bit; 0 is the main group.
pub type Groups = BTreeMap<usize, Vec<u8>>;

// The groups of a kind by their bits, the main group first.
#[rustfmt::skip]
pub fn layout(kind: u32) -> Vec<Group> {
    let slope = vec![("inclination", S16), ("ramp_angle", S16)];
    let gain = vec![("positive_gain", U16), ("negative_gain", U16)];
    let one = |name, width| vec![(name, width)];
    let mut groups = match kind {
        1 => vec![
            one("speed", U16), one("average_speed", U16), one("distance", U24), slope, gain, one("pace", U8), one("average_pace", U8),
        ],
        2 => vec![
            one("speed", U16), one("average_speed", U16), one("distance", U24), vec![("step_rate", U16), ("average_step_rate", U16)],
            one("stride_count", U16), gain, slope, one("resistance", S16), one("power", S16), one("average_power", S16),
        ],
        3 => vec![
            vec![("floors", U16), ("steps", U16)], one("step_rate", U16), one("average_step_rate", U16), one("positive_gain", U16),
        ],
        4 => vec![
            one("floors", U16), one("step_rate", U16), one("average_step_rate", U16), one("positive_gain", U16), one("stride_count", U16),
        ],
        5 => vec![
            vec![("stroke_rate", U8), ("stroke_count", U16)], one("average_stroke_rate", U8), one("distance", U24), one("pace", U16),
            one("average_pace", U16), one("power", S16), one("average_power", S16), one("resistance", S16),
        ],
        _ => vec![
            one("speed", U16), one("average_speed", U16), one("cadence", U16), one("average_cadence", U16), one("distance", U24),
            one("resistance", S16), one("power", S16), one("average_power", S16),
        ],
    };
    groups.push(vec![("total_energy", U16), ("energy_per_hour", U16), ("energy_per_minute", U8)]);
    groups.extend([one("heart_rate", U8), one("metabolic_equivalent", U8), one("elapsed", U16), one("remaining", U16)]);
    if kind == 1 {
        groups.push(vec![("belt_force", S16), ("power_output", S16)]);
    }
    groups
}

fn octets(width: Width) -> usize {
    match width {
        U8 => 1,
        U16 | S16 => 2,
        U24 => 3,
    }
}

pub fn group_octets(group: &Group) -> usize {
    group.iter().map(|field| octets(field.1)).sum()
}

fn flag_octets(kind: u32) -> usize {
    if kind == 2 { 3 } else { 2 }
}

// A notification: its groups, whether more data follows, and its direction.
fn parsed(kind: u32, s: &[u8]) -> Result<(Groups, bool, u32), u64> {
    if s.len() > 512 {
        return Err(30);
    }
    let mut at = flag_octets(kind);
    if s.len() < at {
        return Err(31);
    }
    let flags: u32 = (0..at).map(|i| (s[i] as u32) << (8 * i)).sum();
    let more = flags & 1 == 1;
    let mut groups = Groups::new();
    for (bit, group) in layout(kind).iter().enumerate() {
        let present = if bit == 0 { !more } else { flags >> bit & 1 == 1 };
        if present {
            let end = at + group_octets(group);
            if s.len() < end {
                return Err(32);
            }
            groups.insert(bit, s[at..end].to_vec());
            at = end;
        }
    }
    Ok((groups, more, if kind == 2 { flags >> 15 & 1 } else { 0 }))
}

pub fn notification(kind: u32, groups: &Groups, direction: u32) -> Vec<u8> {
    let mut flags = direction << 15 | !groups.contains_key(&0) as u32;
    for bit in groups.keys().filter(|bit| **bit > 0) {
        flags |= 1 << bit;
    }
    let mut out: Vec<u8> = (0..flag_octets(kind)).map(|i| (flags >> (8 * i)) as u8).collect();
    groups.values().for_each(|g| out.extend(g));
    out
}

pub fn pieces(kind: u32, record: &Groups, direction: u32, payload: usize) -> Vec<Vec<u8>> {
    let mut left = record.clone();
    let mut out = vec![];
    loop {
        let whole = notification(kind, &left, direction);
        if whole.len() <= payload {
            out.push(whole);
            return out;
        }
        let mut run = Groups::new();
        for (bit, group) in left.iter().filter(|(bit, _)| **bit > 0) {
            let mut longer = run.clone();
            longer.insert(*bit, group.clone());
            if notification(kind, &longer, direction).len() > payload {
                break;
            }
            run = longer;
        }
        left.retain(|bit, _| !run.contains_key(bit));
        out.push(notification(kind, &run, direction));
    }
}

// A part of a record, and the number of parts; or 15, then 14.
fn part_of(kind: u32, record: &Groups, direction: u32, payload: u64, part: u64, lent: usize) -> Result<(Vec<u8>, usize), u64> {
    let all = pieces(kind, record, direction, payload as usize);
    if part >= all.len() as u64 {
        return Err(15);
    }
    let piece = all[part as usize].clone();
    if lent < piece.len() {
        return Err(14);
    }
    Ok((piece, all.len()))
}

fn judge_kind_and_payload(kind: u32, payload: u64) -> Result<(), u64> {
    if !(1..=6).contains(&kind) {
        return Err(11);
    }
    if !(20..=512).contains(&payload) {
        return Err(12);
    }
    Ok(())
}

pub fn split(kind: u32, s: &[u8], payload: u64, part: u64, lent: usize) -> Result<(Vec<u8>, usize), u64> {
    judge_kind_and_payload(kind, payload)?;
    let (record, more, direction) = parsed(kind, s)?;
    if more {
        return Err(13);
    }
    part_of(kind, &record, direction, payload, part, lent)
}

// The names of all fields, in the order in which the table first names them, the main groups before all others.
pub fn names() -> Vec<&'static str> {
    let layouts: Vec<Vec<Group>> = (1..=6).map(layout).collect();
    let main = layouts.iter().flat_map(|groups| &groups[0]);
    let others = layouts.iter().flat_map(|groups| groups[1..].iter().flatten());
    let mut names = vec![];
    for (name, _) in main.chain(others) {
        if !names.contains(name) {
            names.push(*name);
        }
    }
    names
}

// A record by the values of its fields, in the order of the names.
pub struct Typed {
    pub kind: u32,
    pub groups: u32,
    pub direction: u32,
    pub values: Vec<i64>,
}

pub fn fits(width: Width, x: i64) -> bool {
    match width {
        U8 => (0..=255).contains(&x),
        U16 => (0..=65535).contains(&x),
        U24 => (0..=16777215).contains(&x),
        S16 => (-32768..=32767).contains(&x),
    }
}

impl Typed {
    // The groups of a record that is well formed: "the set has only bits listed for its kind, each value fits its width, fields of absent groups are
    // 0, and direction is 0 unless kind 2".
    fn formed(&self) -> Option<Groups> {
        let layout = layout(self.kind);
        let listed = (1..layout.len()).map(|bit| 1u32 << bit).sum::<u32>();
        if self.groups & !listed != 0 || self.direction > (self.kind == 2) as u32 {
            return None;
        }
        let names = names();
        let mut absent = self.values.clone();
        let mut groups = Groups::new();
        for (bit, group) in layout.iter().enumerate().filter(|(bit, _)| *bit == 0 || self.groups >> bit & 1 == 1) {
            for (name, width) in group {
                let at = names.iter().position(|other| other == name).unwrap();
                if !fits(*width, absent[at]) {
                    return None;
                }
                groups.entry(bit).or_insert(vec![]).extend(&absent[at].to_le_bytes()[..octets(*width)]);
                absent[at] = 0;
            }
        }
        absent.iter().all(|x| *x == 0).then_some(groups)
    }

    pub fn split(&self, payload: u64, part: u64, lent: usize) -> Result<(Vec<u8>, usize), u64> {
        judge_kind_and_payload(self.kind, payload)?;
        let record = self.formed().ok_or(13u64)?;
        part_of(self.kind, &record, self.direction, payload, part, lent)
    }
}

// The values of the fields of some groups, in the order of the names: as they stand on the wire, or with their signs.
pub fn values(kind: u32, groups: &Groups, signs: bool) -> Vec<i64> {
    let names = names();
    let mut values = vec![0; names.len()];
    let layout = layout(kind);
    for (bit, group) in groups {
        let mut rest = &group[..];
        for (name, width) in &layout[*bit] {
            let (field, behind) = rest.split_at(octets(*width));
            let at = names.iter().position(|other| other == name).unwrap();
            values[at] = number(field, signs && *width == S16);
            rest = behind;
        }
    }
    values
}

pub fn number(field: &[u8], signed: bool) -> i64 {
    let value: i64 = field.iter().enumerate().map(|(i, x)| (*x as i64) << (8 * i)).sum();
    if signed && value > 32767 { value - 65536 } else { value }
}

pub fn set_of(groups: &Groups) -> u32 {
    groups.keys().filter(|bit| **bit > 0).map(|bit| 1 << bit).sum()
}

// A collection, "open (a kind) or fixed (a kind and a set)", and the optional groups that it holds.
pub struct Collection {
    pub kind: u32,
    pub told: Option<u32>,
    pub held: Groups,
}

pub enum Answer {
    Waiting,
    Record(Groups, u32),
}

impl Collection {
    pub fn new(kind: u32, told: Option<u32>) -> Collection {
        Collection { kind, told, held: Groups::new() }
    }

    // "opening a collection 11, 35"
    pub fn refusal(&self) -> Option<u64> {
        if !(1..=6).contains(&self.kind) {
            return Some(11);
        }
        let listed: u32 = (1..layout(self.kind).len()).map(|bit| 1 << bit).sum();
        self.told.and_then(|set| (set & !listed != 0).then_some(35))
    }

    // The answer to a notification, and whether held groups were dropped unused.
    pub fn collect(&mut self, s: &[u8]) -> (Result<Answer, u64>, bool) {
        let any = !self.held.is_empty();
        if !(1..=6).contains(&self.kind) {
            return (Err(11), any);
        }
        match self.take(s) {
            Ok((answer, dropped)) => (Ok(answer), dropped),
            Err(refusal) => {
                self.held.clear();
                (Err(refusal), any)
            }
        }
    }

    fn drops(&self, named: &[usize]) -> bool {
        match (self.told, named.first(), self.held.keys().next_back()) {
            (Some(_), Some(lowest), Some(highest)) => lowest <= highest,
            (Some(_), _, _) => false,
            (None, _, _) => named.iter().any(|bit| self.held.contains_key(bit)),
        }
    }

    fn take(&mut self, s: &[u8]) -> Result<(Answer, bool), u64> {
        let (groups, more, direction) = parsed(self.kind, s)?;
        let named: Vec<usize> = groups.keys().copied().filter(|bit| *bit > 0).collect();
        if self.told.map_or(false, |set| named.iter().any(|bit| set >> bit & 1 == 0)) {
            return Err(33);
        }
        let dropped = self.drops(&named);
        if dropped {
            self.held.clear();
        }
        self.held.extend(groups);
        if more {
            return Ok((Answer::Waiting, dropped));
        }
        let whole = std::mem::take(&mut self.held);
        if self.told.map_or(false, |set| set != set_of(&whole)) {
            return Err(34);
        }
        Ok((Answer::Record(whole, direction), dropped))
    }
}

fn record_lines(number: u64, kind: u32, groups: &Groups, direction: u32) -> String {
    let mut text = format!("record={number}\nkind={kind}\ngroups={}\ndirection={direction}\n", set_of(groups));
    let (names, values, layout) = (names(), values(kind, groups, true), layout(kind));
    for (name, _) in groups.keys().flat_map(|bit| &layout[*bit]) {
        let at = names.iter().position(|other| other == name).unwrap();
        text += &format!("{name}={}\n", values[at]);
    }
    text
}

pub fn listing(capture: &[u8]) -> String {
    if capture.len() > 65536 {
        return "refused=36\n".into();
    }
    let kind = capture.first().copied().unwrap_or(0) as u32;
    if !(1..=6).contains(&kind) {
        return "refused=11\n".into();
    }
    let (mut text, mut number, mut collection) = (String::new(), 1, Collection::new(kind, None));
    let mut rest = &capture[1..];
    while !rest.is_empty() {
        let size = if rest.len() < 2 { usize::MAX - 2 } else { rest[0] as usize + 256 * rest[1] as usize };
        if rest.len() < size + 2 {
            return text + "refused=37\n";
        }
        match collection.collect(&rest[2..size + 2]).0 {
            Err(refusal) => text += &format!("refused={refusal}\n"),
            Ok(Answer::Waiting) => {}
            Ok(Answer::Record(groups, direction)) => {
                text += &record_lines(number, kind, &groups, direction);
                number += 1;
            }
        }
        rest = &rest[size + 2..];
    }
    text
}
