// Writes cases from a fixed seed, each with the expected result, against which `compare` checks the library. With arguments: `capture SIZE` writes a
// capture of that size, of kind 1 + SIZE mod 6, and `capture SIZE-whole`, `SIZE-length` and `SIZE-notification` one that ends with a whole notification,
// inside a length, and inside a notification; `list` the listing of the capture on standard input; `calls`, `streams`, `losses` and `forms` a script for
// the program replay, and `replay` what it must print for the script on standard input; `whole KIND` and `full KIND` the inputs of `bench`.
mod chance;
mod forms;
mod losses;
mod replay;
mod rules;
mod runs;
mod scripts;
mod steps;

use chance::{any_record, damaged, Chance};
use rules::{group_octets, layout, listing, notification, pieces, split, Groups};
use std::io::{self, BufWriter, Read, Write};

fn put(out: &mut impl Write, n: u64) -> io::Result<()> {
    out.write_all(&n.to_le_bytes())
}

fn put_split(out: &mut impl Write, kind: u32, s: &[u8], payload: u64, part: u64, lent: usize) -> io::Result<()> {
    for n in [1, kind as u64, payload, part, lent as u64, s.len() as u64] {
        put(out, n)?;
    }
    out.write_all(s)?;
    match split(kind, s, payload, part, lent) {
        Err(refusal) => [refusal, 0, 0].iter().try_for_each(|n| put(out, *n)),
        Ok((piece, parts)) => {
            [0, parts as u64, piece.len() as u64].iter().try_for_each(|n| put(out, *n))?;
            out.write_all(&piece)
        }
    }
}

fn put_list(out: &mut impl Write, capture: &[u8], c: &mut Chance) -> io::Result<()> {
    let text = listing(capture);
    let size = text.len() as u64;
    let lent = match c.below(8) {
        0 => size.saturating_sub(1),
        1 => c.below(size + 1),
        2 => size + c.below(50),
        _ => size,
    };
    for n in [2, capture.len() as u64, lent, (lent < size) as u64 * 14, size] {
        put(out, n)?;
    }
    out.write_all(capture)?;
    out.write_all(text.as_bytes())
}

fn split_case(out: &mut impl Write, c: &mut Chance) -> io::Result<()> {
    let known = 1 + c.below(6) as u32;
    let (record, direction) = any_record(c, known);
    let mut s = notification(known, &record, direction);
    damaged(c, known, &mut s);
    let kind = if c.below(20) == 0 { c.pick(&[0, 7, 255, 256, 257, 262, 65537, 4294967295]) as u32 } else { known };
    let payload = match c.below(6) {
        0 => c.pick(&[0, 19, 20, 512, 513, 65536, u64::MAX]),
        1 => 20 + c.below(493),
        _ => 20 + c.below(30),
    };
    let part = if c.below(10) == 0 { c.pick(&[3, 16, 255, 256, u64::MAX]) } else { c.below(3) * c.below(2) };
    let lent = match c.below(4) {
        0 => c.below(30) as usize,
        1 => 512,
        _ => split(kind, &s, payload, part, 512).map_or(20, |(piece, _)| (piece.len() + c.below(3) as usize).saturating_sub(1)),
    };
    put_split(out, kind, &s, payload, part, lent)
}

// A capture of records in parts, some damaged and some missing, of at least `least` octets.
fn any_capture(c: &mut Chance, kind: u32, least: usize) -> Vec<u8> {
    let mut capture = vec![kind as u8];
    let payload = 20 + c.below(30) as usize;
    while capture.len() < least {
        let (record, direction) = any_record(c, kind);
        for mut s in pieces(kind, &record, direction, payload) {
            if c.below(6) == 0 {
                damaged(c, kind, &mut s);
            }
            if c.below(8) > 0 {
                capture.extend((s.len() as u16).to_le_bytes());
                capture.extend(s);
            }
        }
    }
    capture
}

// A whole record in parts of 20 octets.
fn put_pieces(capture: &mut Vec<u8>, c: &mut Chance, kind: u32) {
    let (record, direction) = any_record(c, kind);
    for s in pieces(kind, &record, direction, 20) {
        capture.extend((s.len() as u16).to_le_bytes());
        capture.extend(s);
    }
}

// A capture of exactly `size` octets: it ends with a notification, inside the length of one, or inside one.
fn sized_capture(c: &mut Chance, size: usize, end: &str) -> Vec<u8> {
    let kind = 1 + size as u32 % 6;
    let cut: &[u8] = match end {
        "length" => &[9],
        "notification" => &[9, 0, 1],
        _ => &[],
    };
    let mut capture = any_capture(c, kind, size - 5000);
    while capture.len() + 510 < size {
        put_pieces(&mut capture, c, kind);
    }
    let left = size - cut.len() - capture.len() - 2;
    capture.extend((left as u16).to_le_bytes());
    capture.resize(size - cut.len(), 0);
    capture.extend(cut);
    capture
}

fn list_case(out: &mut impl Write, c: &mut Chance, least: usize) -> io::Result<()> {
    let kind = 1 + c.below(6) as u32;
    let mut capture = any_capture(c, kind, least);
    match c.below(16) {
        0 => capture.truncate(c.below(capture.len() as u64 + 1) as usize),
        1 => capture[0] = c.next() as u8,
        2 => {
            let at = c.below(capture.len() as u64) as usize;
            capture[at] = c.next() as u8;
        }
        _ => {}
    }
    put_list(out, &capture, c)
}

// A capture of whole records in parts of 20 octets, none damaged and none missing: as many as fit in 64 KiB, with the kind as the seed.
fn whole_capture(kind: u32) -> Vec<u8> {
    let mut c = Chance(kind as u64);
    let mut capture = vec![kind as u8];
    loop {
        let before = capture.len();
        put_pieces(&mut capture, &mut c, kind);
        if capture.len() > 65536 {
            capture.truncate(before);
            return capture;
        }
    }
}

// A record with all groups of its kind, as one notification.
fn full_record(kind: u32) -> Vec<u8> {
    let octets = |bit, group| (0..group_octets(group)).map(|i| (bit * 16 + i) as u8).collect();
    let all: Groups = layout(kind).iter().enumerate().map(|(bit, group)| (bit, octets(bit, group))).collect();
    notification(kind, &all, (kind == 2) as u32)
}

// Every kind with all groups, at payloads near those where its number of parts changes, with buffers of every length up to 63.
fn every_length(out: &mut impl Write) -> io::Result<()> {
    for kind in 1..=6 {
        let s = full_record(kind);
        for payload in [20, 21, 29, 30, 31, 40, 512] {
            for lent in 0..64 {
                for part in 0..4 {
                    put_split(out, kind, &s, payload, part, lent)?;
                }
            }
        }
    }
    Ok(())
}

fn cases(out: &mut impl Write, c: &mut Chance) -> io::Result<()> {
    for _ in 0..60000 {
        split_case(out, c)?;
    }
    every_length(out)?;
    for _ in 0..30000 {
        let least = c.below(120) as usize;
        list_case(out, c, least)?;
    }
    for least in [4000, 30000, 65000] {
        list_case(out, c, least)?;
    }
    for size in [65535, 65536, 65537] {
        for end in ["whole", "length", "notification"] {
            put_list(out, &sized_capture(c, size, end), c)?;
        }
    }
    for size in [0, 1, 65535, 65536, 65537, 70000] {
        let capture: Vec<u8> = (0..size).map(|i| if i == 0 { 5 } else { 0 }).collect();
        put_list(out, &capture, c)?;
    }
    put(out, 0)
}

fn main() -> io::Result<()> {
    let mut out = BufWriter::new(io::stdout().lock());
    let mut c = Chance(2026);
    let arguments: Vec<String> = std::env::args().skip(1).collect();
    let number = || arguments[1].parse().unwrap();
    match arguments.first().map(String::as_str) {
        Some("capture") => match arguments[1].split_once('-') {
            Some((size, end)) => out.write_all(&sized_capture(&mut c, size.parse().unwrap(), end)),
            None => out.write_all(&any_capture(&mut c, 1 + number() % 6, number() as usize)[..number() as usize]),
        },
        Some("whole") => out.write_all(&whole_capture(number())),
        Some("full") => {
            out.write_all(&[number() as u8])?;
            out.write_all(&full_record(number()))
        }
        Some("calls") => scripts::calls(&mut out, &mut c),
        Some("streams") => scripts::streams(&mut out, &mut c),
        Some("losses") => losses::losses(&mut out, &mut c),
        Some("forms") => forms::forms(&mut out, &mut c),
        Some("replay") => replay::replay(&mut out),
        Some(_) => {
            let mut capture = vec![];
            io::stdin().read_to_end(&mut capture)?;
            out.write_all(listing(&capture).as_bytes())
        }
        None => cases(&mut out, &mut c),
    }
}
