// Spin down in the scripts of calls: the target speeds, the speeds of the flywheel, and the cases that the scripts must reach.
use crate::chance::Chance;
use crate::replay::{feature, octets_of, ranges, speeds};
use crate::rules::control::{Console, Range, Speeds};
use crate::scripts::{hex, result, Seen};

// The octets of two target speeds: next to each other, at the ends of their width, or any two; now and then low is at high or above it.
pub fn any_speeds(c: &mut Chance) -> Vec<u8> {
    let (a, b) = (c.below(65535) as u16, c.below(65535) as u16);
    let (low, high) = match c.below(40) {
        0 => (a, a),
        1 => (a + 1, a),
        2 => (a.max(b) + 1, a.min(b)),
        3..=5 => (a, a + 1),
        6..=8 => (0, a + 1),
        9..=11 => (a, 65535),
        _ => (a.min(b), a.max(b) + 1),
    };
    [low.to_le_bytes(), high.to_le_bytes()].concat()
}

// Feeds a speed: at the targets, next to them, between them, above both, or any; now and then in fewer octets than two.
pub fn flywheel(c: &mut Chance, console: &Console) -> String {
    let (low, high) = (console.speeds.low as u64, console.speeds.high as u64);
    let between = low + c.below(high - low + 1);
    let above = high + c.below(65536 - high);
    let any = c.below(65536);
    let below = low.saturating_sub(1);
    let speed = c.pick(&[below, low, low + 1, between, between, between, high, high, high + 1, above, above, above, above, any]).min(65535);
    let octets = if c.below(40) == 0 { c.below(2) } else { 2 };
    format!("flywheel {}", hex(&speed.to_le_bytes()[..octets as usize]))
}

// Where the run stands: off, quiet (nothing is said yet), warned (stop pedalling is said), or risen (warned, and the last speed is above high).
fn state(console: &Console) -> &'static str {
    let high = console.speeds.high;
    match &console.run {
        None => "off",
        Some(run) if !run.has_said_stop(high) => "quiet",
        Some(run) if run.fed.last().is_some_and(|speed| *speed > high) => "risen",
        Some(_) => "warned",
    }
}

// What the cases tell of the console before a call.
pub struct Before {
    state: &'static str,
    holder: Option<u8>,
}

impl Before {
    pub fn of(console: &Console) -> Before {
        Before { state: state(console), holder: console.holder }
    }
}

// Where a speed lies.
fn place(speed: u16, speeds: Speeds) -> &'static str {
    match speed {
        _ if speed < speeds.low => "below low",
        _ if speed == speeds.low => "at low",
        _ if speed < speeds.high => "between",
        _ if speed == speeds.high => "at high",
        _ => "above high",
    }
}

// What the status says.
fn status(said: &str) -> &'static str {
    match () {
        _ if said.contains(" status=2: 14 02 ") => "success",
        _ if said.contains(" status=2: 14 04 ") => "stop pedalling",
        _ if said.contains(" status=0: ") => "nothing",
        _ => "something else",
    }
}

// A write that is answered: the op code, of 13 the parameter too where it is one octet, and the result.
fn written(line: &str, said: &str) -> String {
    let octets = if &line[9..11] == "13" && line.len() == 13 { &line[9..] } else { &line[9..11] };
    format!("{octets} {}", result(said))
}

// Notes of an opening whose ranges are not refused: whether its target bit 15 is set, how its target speeds lie, and its outcome.
fn note_opening(seen: &mut Seen, line: &str, said: &str) {
    let s = octets_of(line);
    let Speeds { low, high } = speeds(&s);
    let feature = feature(&s);
    let bit = if feature.len() == 8 { (feature[5] >> 7).to_string() } else { "missing".into() };
    if !ranges(&s).iter().any(Range::is_refused) {
        let lie = if low == high { "at" } else if low > high { "above" } else if low + 1 == high { "next to" } else { "below" };
        seen.0.insert(format!("bit 15 {bit}, low {lie} high: {}", said.split(' ').next().unwrap()));
    }
}

// Notes the case that a line reached: where the run stood before it, what the call was and what it gave, and where the run stands after it.
pub fn note(seen: &mut Seen, before: &Before, line: &str, said: &str, console: &Console) {
    let word = line.split(' ').next().unwrap();
    let s = octets_of(line);
    let octet = |i: usize| s.get(i).copied().unwrap_or(0);
    let call = match word {
        "machine" => return note_opening(seen, line, said),
        "flywheel" => format!("{} {}", place(u16::from_le_bytes([octet(0), octet(1)]), console.speeds), status(said)),
        _ if said.starts_with("refused=") => format!("{word} refused"),
        "write" => written(line, said),
        "disconnect" if before.holder == Some(octet(0)) => "the holder's disconnect".into(),
        "disconnect" => "another's disconnect".into(),
        _ => word.into(),
    };
    let after = state(console);
    seen.0.insert(format!("{}, {call}: {after}", before.state));
    if before.state != "off" {
        seen.0.insert(format!("a run, {call}: {}", if after == "off" { "over" } else { "goes on" }));
    }
}

// Each place of a speed, and what is said where nothing was said before; once stop pedalling is said, it is not said again.
fn reached_speeds(seen: &Seen) {
    let off = ["below low", "at low", "between", "at high", "above high"];
    seen.must_have(off.map(|place| format!("off, {place} nothing: off")));
    for before in ["quiet", "warned", "risen"] {
        seen.must_have(["below low", "at low"].map(|place| format!("{before}, {place} success: off")));
    }
    seen.must_have(["between", "at high"].map(|place| format!("quiet, {place} stop pedalling: warned")));
    seen.must_have(["quiet, above high nothing: quiet", "warned, above high nothing: risen", "risen, above high nothing: risen"].map(String::from));
    for before in ["warned", "risen"] {
        seen.must_have(["between", "at high"].map(|place| format!("{before}, {place} nothing: warned")));
    }
}

// What ends a run, and what leaves it.
fn reached_calls(seen: &Seen) {
    let ends = "1302 01|01 01|the holder's disconnect";
    let leaves = "1301 04|00 01|07 01|07 04|08 01|08 04|02 01|14 01|15 02|another's disconnect|connect|on|off|confirm|write refused|confirm refused";
    for before in ["quiet", "warned", "risen"] {
        seen.must_have(ends.split('|').map(|call| format!("{before}, {call}: off")));
        seen.must_have(leaves.split('|').map(|call| format!("{before}, {call}: {before}")));
    }
    let seldom = "1300 03|1303 03|13FF 03|13 03|1301 05|1302 05|00 03|00 04|01 03|01 05|02 03|02 05|07 03|07 05|08 03|08 05|disconnect refused|setting";
    seen.must_have(seldom.split('|').map(|call| format!("a run, {call}: goes on")));
    let targets = (0x02..=0x12).filter(|op| ![0x07, 0x08].contains(op));
    seen.must_have(targets.map(|op| format!("a run, {op:02X} 01: goes on")));
}

// The cases of spin down that the scripts must reach.
pub fn reached(seen: &Seen) {
    let openings = "at high: refused=16|above high: refused=16|next to high: done|below high: done";
    for bit in ["0", "1"] {
        seen.must_have(openings.split('|').map(|opening| format!("bit 15 {bit}, low {opening}")));
    }
    seen.must_have(["at", "above", "below"].map(|lie| format!("bit 15 missing, low {lie} high: refused=22")));
    let outside = "1301 01: quiet|1302 01: off|1300 03: off|1303 03: off|13 03: off|1301 02: off|1302 02: off|1300 02: off|1301 05: off|1302 05: off|1300 05: off";
    seen.must_have(outside.split('|').map(|call| format!("off, {call}")));
    reached_speeds(seen);
    reached_calls(seen);
}
