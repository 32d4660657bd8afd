// A second implementation of the control point, written from document 01 and requests W-201 and W-206 of document 02 alone.
use super::Width::{self, *};
use std::collections::BTreeMap;

#[derive(Clone, Copy, PartialEq, Debug)]
pub enum Mode {
    Stopped,
    Running,
    Paused,
}

#[derive(Clone, Copy, Default)]
pub struct Client {
    pub connected: bool,
    pub indicating: bool,
}

// "Each range gets its increment, u16 (for heart rate u8)."; "The increment stands in the same shared range as the two ends."
#[derive(Clone, Copy, Default)]
pub struct Range {
    pub least: i64,
    pub greatest: i64,
    pub increment: i64,
}

impl Range {
    // "A target is allowed when it is in the range and its distance from the least value is a multiple of the increment."
    pub fn admits(&self, value: i64) -> bool {
        let is_inside = self.least <= value && value <= self.greatest;
        is_inside && (0..=65535).any(|times| times * self.increment == value - self.least)
    }

    // "some range has least above greatest"; "16 also for an increment of 0"
    pub fn is_refused(&self) -> bool {
        self.least > self.greatest || self.increment == 0
    }
}

// The ranges of op codes 02 to 06: speed, inclination, resistance, power, heart rate.
pub type Ranges = [Range; 5];

// "a low and a high target speed, u16 each, fixed when the machine is opened"
#[derive(Clone, Copy)]
pub struct Speeds {
    pub low: u16,
    pub high: u16,
}

// A run of the spin down, by the speeds that were fed since its start.
#[derive(Default)]
pub struct Run {
    pub fed: Vec<u16>,
}

impl Run {
    // Whether the console has said stop pedalling: "at the first speed at or below it the console says 4"
    pub fn has_said_stop(&self, high: u16) -> bool {
        self.fed.iter().any(|speed| *speed <= high)
    }
}

pub struct Console {
    pub features: u32,
    pub targets: u32,
    pub ranges: Ranges,
    pub speeds: Speeds,
    pub clients: [Client; 4],
    pub awaited: Option<u8>,
    pub holder: Option<u8>,
    pub mode: Mode,
    pub settings: BTreeMap<u8, Vec<u8>>,
    pub run: Option<Run>,
}

// What a call that is not refused gives.
#[derive(Default)]
pub struct Given {
    pub response: Vec<u8>,
    pub status: Vec<u8>,
}

// "Op codes and parameters"; of 13, "parameter 1 starts, 2 ignores"
fn parameter(op: u8) -> Option<Vec<Width>> {
    match op {
        0x00 | 0x01 | 0x07 => Some(vec![]),
        0x04 | 0x06 | 0x08 | 0x13 => Some(vec![U8]),
        0x03 | 0x05 => Some(vec![S16]),
        0x02 | 0x09 | 0x0A | 0x0B | 0x0D | 0x12 | 0x14 => Some(vec![U16]),
        0x0C => Some(vec![U24]),
        0x0E => Some(vec![U16; 2]),
        0x0F => Some(vec![U16; 3]),
        0x10 => Some(vec![U16; 5]),
        0x11 => Some(vec![S16, S16, U8, U8]),
        _ => None,
    }
}

pub fn parameter_length(op: u8) -> Option<usize> {
    parameter(op).map(|widths| widths.iter().map(|width| super::octets(*width)).sum())
}

// "02 to 06 need target bits 0 to 4, 09 to 12 need 5 to 14, 14 needs 16."; "Op code 13 becomes supported with target bit 15"
fn needed_bit(op: u8) -> Option<u8> {
    match op {
        0x02..=0x06 => Some(op - 0x02),
        0x09..=0x12 => Some(op - 0x09 + 5),
        0x13 => Some(15),
        0x14 => Some(16),
        _ => None,
    }
}

// "02 to 06, 09 to 12 and 14 store the parameter octets"
fn stores(op: u8) -> bool {
    matches!(op, 0x02..=0x06 | 0x09..=0x12 | 0x14)
}

// A console at first; if its opening was refused, with no target setting, and every range and both target speeds at 0.
fn first(features: u32, targets: u32, ranges: Ranges, speeds: Speeds) -> Console {
    Console {
        features,
        targets,
        ranges,
        speeds,
        clients: [Client::default(); 4],
        awaited: None,
        holder: None,
        mode: Mode::Stopped,
        settings: (0..=0x14).filter(|op| stores(*op)).map(|op| (op, vec![0; parameter_length(op).unwrap()])).collect(),
        run: None,
    }
}

// "opening a machine 22, 16"; "16 also when the low target is not below the high one"; "16 also for an increment of 0"
pub fn open(feature: &[u8], ranges: Ranges, speeds: Speeds) -> (Result<Given, u64>, Console) {
    let closed = || first(0, 0, Ranges::default(), Speeds { low: 0, high: 0 });
    if feature.len() != 8 {
        return (Err(22), closed());
    }
    if ranges.iter().any(Range::is_refused) || speeds.low >= speeds.high {
        return (Err(16), closed());
    }
    let named = |at: usize| super::number(&feature[at..at + 4], false) as u32 & 0x1FFFF;
    (Ok(Given::default()), first(named(0), named(4), ranges, speeds))
}

impl Console {
    // "connect, disconnect and indications 10, 17"
    fn known(&self, client: u8, connected: bool) -> Result<usize, u64> {
        if client > 3 {
            return Err(10);
        }
        if self.clients[client as usize].connected != connected {
            return Err(17);
        }
        Ok(client as usize)
    }

    pub fn connect(&mut self, client: u8) -> Result<Given, u64> {
        let at = self.known(client, false)?;
        self.clients[at] = Client { connected: true, indicating: false };
        Ok(Given::default())
    }

    // "Reset, disconnect of the holder or an ignore ends a run without a status of its own."
    pub fn disconnect(&mut self, client: u8) -> Result<Given, u64> {
        let at = self.known(client, true)?;
        self.clients[at] = Client::default();
        if self.holder == Some(client) {
            self.run = None;
        }
        self.holder = self.holder.filter(|holder| *holder != client);
        self.awaited = self.awaited.filter(|awaited| *awaited != client);
        Ok(Given::default())
    }

    pub fn indicate(&mut self, client: u8, on: bool) -> Result<Given, u64> {
        let at = self.known(client, true)?;
        self.clients[at].indicating = on;
        Ok(Given::default())
    }

    pub fn confirm(&mut self, client: u8) -> Result<Given, u64> {
        self.known(client, true)?;
        if self.awaited != Some(client) {
            return Err(21);
        }
        self.awaited = None;
        Ok(Given::default())
    }

    // "above the high speed nothing happens, at the first speed at or below it the console says 4, at or below the low speed, even at once, it says success
    // only and the run is over. Outside a run a speed does nothing"
    pub fn flywheel(&mut self, speed: u16) -> Given {
        let Speeds { low, high } = self.speeds;
        let status = match &mut self.run {
            Some(_) if speed <= low => {
                self.run = None;
                vec![0x14, 2]
            }
            Some(run) => {
                let first = speed <= high && !run.has_said_stop(high);
                run.fed.push(speed);
                if first { vec![0x14, 4] } else { vec![] }
            }
            None => vec![],
        };
        Given { response: vec![], status }
    }

    pub fn write(&mut self, client: u8, octets: &[u8]) -> Result<Given, u64> {
        let at = self.known(client, true)?;
        let (op, p) = octets.split_first().ok_or(18u64)?;
        if !self.clients[at].indicating {
            return Err(19);
        }
        if self.awaited.is_some() {
            return Err(20);
        }
        let result = self.result(client, *op, p);
        let status = if result == 1 { self.succeed(client, *op, p) } else { vec![] };
        self.awaited = Some(client);
        Ok(Given { response: self.response(*op, p, result), status })
    }

    // "Response: 80, op code, result."; "A successful start answers 80 13 01 followed by a low and a high target speed"
    fn response(&self, op: u8, p: &[u8], result: u8) -> Vec<u8> {
        let mut response = vec![0x80, op, result];
        if result == 1 && op == 0x13 && p[0] == 1 {
            response.extend(self.speeds.low.to_le_bytes());
            response.extend(self.speeds.high.to_le_bytes());
        }
        response
    }

    // "unsupported op code, result 02; not the holder (but for 00), 05; wrong length, value outside its range or 08 with neither 1 nor 2, result 03; then
    // 04 ..; else 01"; of 13, "result 03 for neither 1 nor 2, 04 for a start during a run"; "result 03 also for a target off the steps"
    fn result(&self, client: u8, op: u8, p: &[u8]) -> u8 {
        let length = match parameter_length(op) {
            Some(length) if needed_bit(op).map_or(true, |bit| self.targets >> bit & 1 == 1) => length,
            _ => return 2,
        };
        if op != 0 && self.holder != Some(client) {
            return 5;
        }
        if p.len() != length || !self.within(op, p) {
            return 3;
        }
        let fails = match op {
            0x00 => self.holder.map_or(false, |holder| holder != client),
            0x07 => self.mode == Mode::Running,
            0x08 if p[0] == 1 => self.mode == Mode::Stopped,
            0x08 => self.mode != Mode::Running,
            0x13 => p[0] == 1 && self.run.is_some(),
            _ => false,
        };
        if fails { 4 } else { 1 }
    }

    fn within(&self, op: u8, p: &[u8]) -> bool {
        match op {
            0x02..=0x06 => self.ranges[op as usize - 2].admits(super::number(p, op == 0x03 || op == 0x05)),
            0x08 | 0x13 => p[0] == 1 || p[0] == 2,
            _ => true,
        }
    }

    // Does what a success does, and returns the status octets; of 13, "a start or an ignore gives none"; of 01, "Reset still sets zero, whether or not
    // zero is allowed."
    fn succeed(&mut self, client: u8, op: u8, p: &[u8]) -> Vec<u8> {
        match op {
            0x00 => self.holder = Some(client),
            0x01 => {
                self.settings.values_mut().for_each(|setting| setting.fill(0));
                self.mode = Mode::Stopped;
                self.holder = None;
                self.run = None;
            }
            0x07 => self.mode = Mode::Running,
            0x08 => self.mode = if p[0] == 1 { Mode::Stopped } else { Mode::Paused },
            0x13 => self.run = (p[0] == 1).then(Run::default),
            _ => {
                self.settings.insert(op, p.to_vec());
            }
        }
        let first = match op {
            0x00 | 0x13 => return vec![],
            0x01 => 0x01,
            0x07 => 0x04,
            0x08 => 0x02,
            0x02..=0x06 => op + 3,
            0x09..=0x12 => op + 1,
            _ => 0x15,
        };
        [&[first], p].concat()
    }
}
