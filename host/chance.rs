// Random records and damage, from a fixed seed.
use crate::rules::{group_octets, layout, set_of, Groups};

// Random numbers from a fixed seed.
pub struct Chance(pub u64);

impl Chance {
    pub fn next(&mut self) -> u64 {
        self.0 = self.0.wrapping_add(0x9e3779b97f4a7c15);
        let mut z = self.0;
        z = (z ^ (z >> 30)).wrapping_mul(0xbf58476d1ce4e5b9);
        z = (z ^ (z >> 27)).wrapping_mul(0x94d049bb133111eb);
        z ^ (z >> 31)
    }

    pub fn below(&mut self, n: u64) -> u64 {
        self.next() % n
    }

    pub fn pick(&mut self, from: &[u64]) -> u64 {
        from[self.below(from.len() as u64) as usize]
    }
}

// The octets of a group, often at the ends of their ranges.
fn any_octets(c: &mut Chance, count: usize) -> Vec<u8> {
    (0..count).map(|_| if c.below(4) == 0 { c.pick(&[0, 127, 128, 255]) as u8 } else { c.next() as u8 }).collect()
}

// A record with the groups whose bits `is_present` chooses, and its direction.
fn record_of(c: &mut Chance, kind: u32, mut is_present: impl FnMut(&mut Chance, usize) -> bool) -> (Groups, u32) {
    let mut groups = Groups::new();
    for (bit, group) in layout(kind).iter().enumerate() {
        let present = is_present(c, bit);
        if bit == 0 || present {
            groups.insert(bit, any_octets(c, group_octets(group)));
        }
    }
    (groups, if kind == 2 { c.below(2) as u32 } else { 0 })
}

// A record with these optional groups.
pub fn record_with(c: &mut Chance, kind: u32, set: u32) -> (Groups, u32) {
    record_of(c, kind, |_, bit| set >> bit & 1 == 1)
}

// A record with all optional groups, none, one or any.
pub fn any_record(c: &mut Chance, kind: u32) -> (Groups, u32) {
    let how = c.below(8);
    let alone = c.below(15) as usize;
    record_of(c, kind, |c, bit| match how {
        0 => true,
        1 => false,
        2 => bit == alone,
        _ => c.below(2) == 1,
    })
}

// Some optional groups of a kind, chosen in the same ways.
pub fn any_set(c: &mut Chance, kind: u32) -> u32 {
    set_of(&any_record(c, kind).0)
}

// Reserved bits are set, octets added at the end, the notification cut short, More Data inverted, an octet
// changed, the length brought near 512 octets, or nothing is done.
pub fn damaged(c: &mut Chance, kind: u32, s: &mut Vec<u8>) {
    match c.below(12) {
        0 => s[1] |= 0xe0 & c.next() as u8,
        1 if kind == 2 => s[2] = c.next() as u8,
        2 => s.extend((0..c.below(40)).map(|i| i as u8)),
        3 => s.truncate(c.below(s.len() as u64 + 1) as usize),
        4 => s[0] ^= 1,
        5 => {
            let at = c.below(s.len() as u64) as usize;
            s[at] = c.next() as u8;
        }
        6 => s.resize(c.pick(&[511, 512, 513, 600]) as usize, 7),
        _ => {}
    }
}
