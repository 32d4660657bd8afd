// Every loss that demand 3 allows, for up to four records, and what the demand says of each answer.
use crate::chance::{record_with, Chance};
use crate::rules::{pieces, Answer, Collection, Groups};
use crate::scripts::{hex, opening};
use std::io::{self, Write};

// A notification: the number of its record, whether it is the record's last part, and its octets.
struct Sent {
    record: usize,
    last: bool,
    octets: Vec<u8>,
}

// Whether k or more in a row are missing.
fn has_gap(arrived: &[bool], k: usize) -> bool {
    arrived.windows(k).any(|window| !window.contains(&true))
}

// What demand 3 asks of one answer: "at each last notification that arrives, hands out exactly the record it belongs to or refuses as incomplete; it
// hands it out whenever all k arrived; at no other notification does it hand out anything".
fn is_demanded(answer: &Result<Answer, u64>, sent: &Sent, record: &(Groups, u32), whole: bool) -> bool {
    match answer {
        Ok(Answer::Record(groups, direction)) => sent.last && (groups, direction) == (&record.0, &record.1),
        Ok(Answer::Waiting) => !sent.last,
        Err(refusal) => *refusal == 34 && sent.last && !whole,
    }
}

// Some records of a kind and set, in k parts each, with each allowed loss; returns how many losses there are.
fn each_loss(out: &mut impl Write, kind: u32, set: u32, payload: usize, records: &[(Groups, u32)]) -> io::Result<usize> {
    let parts: Vec<Vec<Vec<u8>>> = records.iter().map(|(groups, direction)| pieces(kind, groups, *direction, payload)).collect();
    let k = parts[0].len();
    let all = parts.iter().enumerate().flat_map(|(record, parts)| {
        parts.iter().enumerate().map(move |(part, octets)| Sent { record, last: part + 1 == k, octets: octets.clone() })
    });
    let all: Vec<Sent> = all.collect();
    let mut count = 0;
    for pattern in 0..1 << all.len() {
        let arrived: Vec<bool> = (0..all.len()).map(|i| pattern >> i & 1 == 1).collect();
        if k >= 2 && has_gap(&arrived, k) {
            continue;
        }
        count += 1;
        writeln!(out, "{}", opening(kind, Some(set)))?;
        let mut collection = Collection::new(kind, Some(set));
        for (sent, _) in all.iter().zip(&arrived).filter(|(_, arrived)| **arrived) {
            let whole = !arrived[sent.record * k..][..k].contains(&false);
            let answer = collection.collect(&sent.octets).0;
            assert!(is_demanded(&answer, sent, &records[sent.record], whole), "demand 3: kind {kind}, loss {pattern:b}");
            writeln!(out, "notification {}", hex(&sent.octets))?;
        }
    }
    Ok(count)
}

// Kind, set, payload and number of parts; in some the last part names no optional group.
const CASES: [(u32, u32, usize, usize); 11] = [
    (6, 0x1FFE, 30, 1),
    (2, 0x7FFE, 512, 1),
    (3, 0, 20, 1),
    (1, 0x1FFE, 20, 2),
    (3, 0x01FE, 20, 2),
    (4, 0x03FE, 20, 2),
    (5, 0x1FFE, 20, 2),
    (6, 0x1FFE, 20, 2),
    (6, 0x1FFE, 29, 2),
    (2, 0x7FFE, 20, 3),
    (2, 0x0FFE, 20, 3),
];

// How many losses there are in all, by the number of parts. For n records in one part each there are 2 to the n: 30 for n from 1 to 4. In two parts
// each, those of 2n notifications without two missing in a row: 3 + 8 + 21 + 55. In three, those of 3n without three in a row: 7 + 44 + 274 + 1705.
const ALLOWED: [usize; 4] = [0, 3 * 30, 6 * 87, 2 * 2030];

pub fn losses(out: &mut impl Write, c: &mut Chance) -> io::Result<()> {
    let mut counts = [0; 4];
    for (kind, set, payload, k) in CASES {
        for n in 1..=4 {
            let records: Vec<(Groups, u32)> = (0..n).map(|_| record_with(c, kind, set)).collect();
            assert!(records.iter().all(|(groups, direction)| pieces(kind, groups, *direction, payload).len() == k), "not in {k} parts");
            counts[k] += each_loss(out, kind, set, payload, &records)?;
        }
    }
    assert_eq!(counts, ALLOWED, "not as many losses as the demand allows");
    Ok(())
}
