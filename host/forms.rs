// Records for the typed splitter: well formed ones, and each with one thing wrong.
use crate::chance::{record_with, Chance};
use crate::replay::{SHORT, SIGNED};
use crate::rules::{fits, layout, names, values};
use crate::scripts::hex;
use std::io::{self, Write};

// A record as a line of a script gives it.
#[derive(Clone)]
struct Form {
    kind: u8,
    groups: u32,
    direction: u8,
    values: Vec<i64>,
}

impl Form {
    fn put(&self, out: &mut impl Write, payload: u32, part: u32, room: u16) -> io::Result<()> {
        let mut octets = vec![self.kind];
        octets.extend(self.groups.to_le_bytes());
        octets.push(self.direction);
        octets.extend(payload.to_le_bytes());
        octets.extend(part.to_le_bytes());
        octets.extend(room.to_le_bytes());
        self.values.iter().for_each(|x| octets.extend(&x.to_le_bytes()[..4]));
        writeln!(out, "split {}", hex(&octets))
    }

    fn with(&self, field: usize, x: i64) -> Form {
        let mut form = self.clone();
        form.values[field] = x;
        form
    }
}

// The least and the greatest value of a field's type.
fn limits(field: usize) -> (i64, i64) {
    match field {
        6 => (0, 4294967295),
        _ if SIGNED.contains(&field) => (-32768, 32767),
        _ if SHORT.contains(&field) => (0, 255),
        _ => (0, 65535),
    }
}

// Values that a field's type can hold: its limits, and those next to the limits of every width.
fn tried(field: usize) -> impl Iterator<Item = i64> {
    let (least, greatest) = limits(field);
    let all = [-32768, -1, 0, 1, 255, 256, 32767, 32768, 65535, 65536, 16777215, 16777216, 4294967295];
    all.into_iter().filter(move |x| (least..=greatest).contains(x))
}

// A record with each value in each of its fields: a value that does not fit the width, or is not 0 in an absent field, gives 13.
// Returns how many such values there are.
fn each_field(out: &mut impl Write, form: &Form) -> io::Result<usize> {
    let layout = layout(form.kind as u32);
    let mut wrong = 0;
    for (field, name) in names().iter().enumerate() {
        let present = layout.iter().enumerate().filter(|(bit, _)| *bit == 0 || form.groups >> bit & 1 == 1);
        let width = present.flat_map(|(_, group)| group).find(|(other, _)| other == name).map(|(_, width)| *width);
        for x in tried(field) {
            wrong += !width.map_or(x == 0, |width| fits(width, x)) as usize;
            form.with(field, x).put(out, 20, 0, 64)?;
        }
    }
    Ok(wrong)
}

// Directions, bits of the set, kinds, payloads with parts, and lengths of the lent buffer, each tried by itself.
fn each_other(out: &mut impl Write, form: &Form) -> io::Result<()> {
    for direction in [0, 1, 2, 255] {
        Form { direction, ..form.clone() }.put(out, 20, 0, 64)?;
    }
    for bit in 0..32 {
        Form { groups: form.groups ^ 1 << bit, ..form.clone() }.put(out, 20, 0, 64)?;
    }
    for kind in [0, 1, 2, 3, 4, 5, 6, 7, 255] {
        Form { kind, ..form.clone() }.put(out, 20, 0, 64)?;
    }
    for payload in [0, 19, 20, 21, 29, 30, 512, 513, 65556, 4294967295] {
        for part in [0, 1, 2, 3, 16, 256, 4294967295] {
            form.put(out, payload, part, 512)?;
        }
    }
    (0..48).try_for_each(|room| form.put(out, 20, 0, room))
}

// "Where several apply, the splitter's order is 11, 12, 13, 15, 14": all wrong, then the first of them put right, and so on.
fn order(out: &mut impl Write, form: &Form) -> io::Result<()> {
    let unformed = form.with(6, 16777216);
    Form { kind: 7, ..unformed.clone() }.put(out, 19, 9, 0)?;
    unformed.put(out, 19, 9, 0)?;
    unformed.put(out, 20, 9, 0)?;
    form.put(out, 20, 9, 0)?;
    form.put(out, 20, 0, 0)?;
    form.put(out, 20, 0, 512)
}

pub fn forms(out: &mut impl Write, c: &mut Chance) -> io::Result<()> {
    let mut wrong = 0;
    for kind in 1..=6 {
        let listed = (1u32 << layout(kind).len()) - 2;
        let single = (1..layout(kind).len()).map(|bit| 1 << bit);
        for set in single.chain([0, listed]) {
            let (groups, direction) = record_with(c, kind, set);
            let form = Form { kind: kind as u8, groups: set, direction: direction as u8, values: values(kind, &groups, true) };
            wrong += each_field(out, &form)?;
            each_other(out, &form)?;
            order(out, &form)?;
        }
    }
    assert!(wrong > 10000, "only {wrong} records have one value wrong");
    Ok(())
}
