// What the program `replay` must print for a script on standard input, by the rules of document 01 and of requests W-201 and W-206.
use crate::rules::control::{self, Client, Console, Given, Mode, Range, Ranges, Speeds};
use crate::rules::{names, set_of, values, Answer, Collection, Typed};
use std::io::{self, Write};

pub fn octets_of(line: &str) -> Vec<u8> {
    let digits: Vec<u8> = line.chars().filter_map(|x| if x.is_lowercase() { None } else { x.to_digit(16) }).map(|d| d as u8).collect();
    digits.chunks_exact(2).map(|pair| pair[0] * 16 + pair[1]).collect()
}

fn spaced<T: std::fmt::Display>(all: impl IntoIterator<Item = T>) -> String {
    all.into_iter().map(|x| format!(" {x}")).collect()
}

fn hex(octets: &[u8]) -> String {
    octets.iter().map(|x| format!(" {x:02X}")).collect()
}

// A number of `count` octets from `place` on, least octet first; missing octets are 0.
fn at(s: &[u8], place: usize, count: usize) -> i64 {
    (0..count).map(|i| (s.get(place + i).copied().unwrap_or(0) as i64) << (8 * i)).sum()
}

fn counted(octets: &[u8]) -> String {
    let mut all = octets.to_vec();
    all.resize(11, 0);
    format!("{}:{}", octets.len(), hex(&all))
}

fn who(client: Option<u8>) -> String {
    client.map_or("nobody".into(), |client| client.to_string())
}

// A run is quiet until the console says stop pedalling, and warned after it.
fn run_word(console: &Console) -> &'static str {
    match &console.run {
        None => "off",
        Some(run) if run.has_said_stop(console.speeds.high) => "warned",
        Some(_) => "quiet",
    }
}

// The names of the ranges, in their order.
pub const RANGES: [&str; 5] = ["speed", "inclination", "resistance", "power", "heart_rate"];

fn console_line(replied: &Result<Given, u64>, console: &Console) -> String {
    let none = Given::default();
    let (outcome, given) = match replied {
        Ok(given) => ("done".into(), given),
        Err(refusal) => (format!("refused={refusal}"), &none),
    };
    let mode = match console.mode {
        Mode::Stopped => "stopped",
        Mode::Running => "running",
        Mode::Paused => "paused",
    };
    let clients = spaced(console.clients.iter().map(|Client { connected, indicating }| format!("{}{}", *connected as u8, *indicating as u8)));
    let settings = hex(&console.settings.values().flatten().copied().collect::<Vec<u8>>());
    let ranges: String = RANGES
        .iter()
        .zip(console.ranges)
        .map(|(name, Range { least, greatest, increment })| format!(" {name}={least} to {greatest} by {increment}"))
        .collect();
    format!(
        "{outcome} response={} status={} clients:{clients} awaited={} {mode} holder={} settings:{settings} features={} targets={}{ranges} low={} high={} run={}",
        counted(&given.response),
        counted(&given.status),
        who(console.awaited),
        who(console.holder),
        console.features,
        console.targets,
        console.speeds.low,
        console.speeds.high,
        run_word(console)
    )
}

fn collection_line(said: String, collection: &Collection) -> String {
    let told = collection.told.map_or("open".into(), |set| format!("told={set}"));
    let numbers = spaced(values(collection.kind, &collection.held, false));
    format!("{said} kind={} {told} held={}{numbers}", collection.kind, set_of(&collection.held))
}

fn collected(kind: u32, answer: &Result<Answer, u64>, dropped: bool) -> String {
    let said = match answer {
        Ok(Answer::Waiting) => "waiting".into(),
        Ok(Answer::Record(groups, direction)) => {
            let fields = spaced(names().iter().zip(values(kind, groups, true)).map(|(name, x)| format!("{name}={x}")));
            format!("record kind={kind} groups={} direction={direction} fields:{fields}", set_of(groups))
        }
        Err(refusal) => format!("refused={refusal}"),
    };
    format!("{said} dropped={}", dropped as u8)
}

// The fields, by number, that are signed in a record, and those of one octet; distance has four, the others two.
pub const SIGNED: [usize; 7] = [7, 8, 20, 21, 25, 26, 27];
pub const SHORT: [usize; 5] = [3, 15, 16, 17, 28];

fn typed(s: &[u8]) -> Typed {
    let value = |field: usize| {
        let place = 16 + 4 * field;
        match field {
            6 => at(s, place, 4),
            _ if SIGNED.contains(&field) => at(s, place, 2) as u16 as i16 as i64,
            _ if SHORT.contains(&field) => at(s, place, 1),
            _ => at(s, place, 2),
        }
    };
    Typed { kind: at(s, 0, 1) as u32, groups: at(s, 1, 4) as u32, direction: at(s, 5, 1) as u32, values: (0..31).map(value).collect() }
}

fn split_line(s: &[u8]) -> String {
    let room = (at(s, 14, 2) as usize).min(512);
    let mut lent = vec![0xAA; room];
    let said = match typed(s).split(at(s, 6, 4) as u64, at(s, 10, 4) as u64, room) {
        Ok((piece, parts)) => {
            lent[..piece.len()].copy_from_slice(&piece);
            format!("length={} parts={parts}", piece.len())
        }
        Err(refusal) => format!("refused={refusal}"),
    };
    format!("{said} lent:{}", hex(&lent))
}

// The ranges in 27 octets: each its least value, its greatest and its increment.
pub fn ranges(s: &[u8]) -> Ranges {
    let signed = |place| at(s, place, 2) as u16 as i16 as i64;
    let signed_range = |place| Range { least: signed(place), greatest: signed(place + 2), increment: at(s, place + 4, 2) };
    let speed = Range { least: at(s, 0, 2), greatest: at(s, 2, 2), increment: at(s, 4, 2) };
    let heart_rate = Range { least: at(s, 24, 1), greatest: at(s, 25, 1), increment: at(s, 26, 1) };
    [speed, signed_range(6), signed_range(12), signed_range(18), heart_rate]
}

// The target speeds, in the four octets after the ranges.
pub fn speeds(s: &[u8]) -> Speeds {
    Speeds { low: at(s, 27, 2) as u16, high: at(s, 29, 2) as u16 }
}

// The Feature value: all octets after the target speeds; a line that is too short for them is a Feature value as a whole.
pub fn feature(s: &[u8]) -> &[u8] {
    s.get(31..).unwrap_or(s)
}

// What the lines of a script act on.
pub struct Replay {
    pub console: Console,
    pub collection: Collection,
}

impl Replay {
    pub fn new() -> Replay {
        Replay { console: control::open(&[], Ranges::default(), speeds(&[])).1, collection: Collection::new(1, None) }
    }

    fn call(&mut self, word: &str, s: &[u8]) -> Result<Given, u64> {
        let client = at(s, 0, 1) as u8;
        match word {
            "machine" => {
                let (replied, console) = control::open(feature(s), ranges(s), speeds(s));
                self.console = console;
                replied
            }
            "connect" => self.console.connect(client),
            "disconnect" => self.console.disconnect(client),
            "on" => self.console.indicate(client, true),
            "off" => self.console.indicate(client, false),
            "confirm" => self.console.confirm(client),
            "flywheel" => Ok(self.console.flywheel(at(s, 0, 2) as u16)),
            _ => self.console.write(client, s.get(1..).unwrap_or(&[])),
        }
    }

    fn open(&mut self, kind: u32, told: Option<u32>) -> String {
        self.collection = Collection::new(kind, told);
        let said = self.collection.refusal().map_or("opened".into(), |refusal| format!("refused={refusal}"));
        collection_line(said, &self.collection)
    }

    // The line of the output for a line of the script.
    pub fn line(&mut self, line: &str) -> String {
        let s = octets_of(line);
        let (word, _) = line.split_once(' ').unwrap_or(("", line));
        match word {
            "open" => self.open(at(&s, 0, 1) as u32, None),
            "fixed" => self.open(at(&s, 0, 1) as u32, Some(at(&s, 1, 4) as u32)),
            "notification" => {
                let kind = self.collection.kind;
                let (answer, dropped) = self.collection.collect(&s);
                collection_line(collected(kind, &answer, dropped), &self.collection)
            }
            "setting" => {
                let none = vec![];
                format!("setting={}", counted(self.console.settings.get(&(at(&s, 0, 1) as u8)).unwrap_or(&none)))
            }
            "split" => split_line(&s),
            "machine" | "connect" | "disconnect" | "on" | "off" | "confirm" | "flywheel" | "write" => {
                let replied = self.call(word, &s);
                console_line(&replied, &self.console)
            }
            _ if line.starts_with('#') => line.into(),
            _ => "no such call".into(),
        }
    }
}

pub fn replay(out: &mut impl Write) -> io::Result<()> {
    let mut replay = Replay::new();
    for line in io::stdin().lines() {
        writeln!(out, "{}", replay.line(&line?))?;
    }
    Ok(())
}
