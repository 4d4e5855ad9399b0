//! Scripts for `turnover`: 'turnover' of document 01.

use super::{any_register, network, rule_breaker, run_from, wild_step, NetworkWish, RuleBreak};
use crate::header::Header;
use crate::network::{State, Step};
use crate::random::Rng;
use crate::turnover::DEFAULT_LIMIT;
use crate::MAX_STATIONS;

/// A line of a script.
#[derive(Clone, Debug, PartialEq, Eq)]
pub enum ScriptLine {
    /// `net n t`
    Net(u8, u16),
    /// `allow i A`
    Allow(usize, u16),
    /// `link i j L`, or without L.
    Link(usize, usize, Option<u8>),
    /// A step, of stations 0 to 7.
    Step(Step),
    /// A line that is ill made wherever it stands.
    Ill(Vec<u8>),
}

impl ScriptLine {
    /// The line's bytes, without a line feed.
    pub fn text(&self) -> Vec<u8> {
        match self {
            ScriptLine::Net(n, t) => format!("net {n} {t}").into(),
            ScriptLine::Allow(i, a) => format!("allow {i} {a}").into(),
            ScriptLine::Link(i, j, Some(l)) => format!("link {i} {j} {l}").into(),
            ScriptLine::Link(i, j, None) => format!("link {i} {j}").into(),
            ScriptLine::Step(step) => step_text(step).into(),
            ScriptLine::Ill(bytes) => bytes.clone(),
        }
    }
}

/// The line of a step, without a line feed.
pub fn step_text(step: &Step) -> String {
    match step {
        Step::Enter { station, register } => format!("enter {station} {register}"),
        Step::Send {
            station,
            peer,
            register,
        } => format!("send {station} {peer} {register}"),
        Step::Recv { station, peer } => format!("recv {station} {peer}"),
        Step::Start { station } => format!("start {station}"),
    }
}

/// The bytes of a script; the last line feed may be left out.
pub fn script_text(lines: &[ScriptLine], last_feed: bool) -> Vec<u8> {
    let texts: Vec<Vec<u8>> = lines.iter().map(ScriptLine::text).collect();
    let mut text = texts.join(&b'\n');
    if last_feed && !texts.is_empty() {
        text.push(b'\n');
    }
    text
}

/// A line that is ill made wherever it stands, without a line feed.
pub fn ill_line(rng: &mut Rng) -> Vec<u8> {
    let station = |rng: &mut Rng| rng.below(8).to_string();
    let good: Vec<String> = {
        let (i, j) = (station(rng), station(rng));
        let reg = any_register(rng).to_string();
        match rng.below(8) {
            0 => vec!["net".into(), "2".into(), "7".into()],
            1 => vec!["allow".into(), i, "3".into()],
            2 => vec!["link".into(), i, j],
            3 => vec!["link".into(), i, j, "2".into()],
            4 => vec!["enter".into(), i, reg],
            5 => vec!["send".into(), i, j, reg],
            6 => vec!["recv".into(), i, j],
            _ => vec!["start".into(), i],
        }
    };
    let with_limit = good[0] == "link" && good.len() == 4;
    let line = good.join(" ");
    let mut words = good;
    let at = 1 + rng.index(words.len() - 1);
    match rng.below(12) {
        0 => return Vec::new(),
        1 => return format!(" {line}").into(),
        2 => return format!("{line} ").into(),
        3 => {
            let two = rng.pick(&["  ", "\t", " \t", ",", "\0", "\u{a0}"]);
            return line.replacen(' ', two, 1).into();
        }
        4 => {
            let end = rng.pick(&["\r", "\t", "\0", ".", "\u{b}", ";"]);
            return format!("{line}{end}").into();
        }
        5 => {
            let mut bytes = line.into_bytes();
            let k = rng.index(bytes.len());
            bytes[k] = rng.range(128, 255) as u8;
            return bytes;
        }
        6 => {
            words[0] = match rng.below(4) {
                0 => words[0].to_uppercase(),
                1 => words[0][1..].to_string(),
                2 => format!("{}s", words[0]),
                _ => rng
                    .pick(&["rest", "stop", "begin", "note", "0", "quit", "netnet"])
                    .into(),
            };
        }
        7 => {
            // Too few words; `link i j L` without its last is well made.
            if with_limit {
                words.pop();
            }
            words.pop();
        }
        8 => {
            // Too many; `link i j` with a number more is well made.
            words.push("1".into());
            if words[0] == "link" {
                words.push("1".into());
                words.push("1".into());
            }
        }
        9 => {
            let word = words[at].clone();
            words[at] = match rng.below(10) {
                0 => format!("0{word}"),
                1 => format!("+{word}"),
                2 => format!("-{word}"),
                3 => "-0".into(),
                4 => "00".into(),
                5 => format!("{word}x"),
                6 => format!("0x{word}"),
                7 => format!("{word}.0"),
                8 => String::new(),
                _ => "one".into(),
            };
        }
        10 => {
            // A number that its field cannot hold.
            let most: u128 = match (words[0].as_str(), at) {
                ("net", 1) => 255,
                ("net", _) | ("allow", 2) => 65_535,
                ("link", 3) => 255,
                ("enter", 2) | ("send", 3) => u128::from(u32::MAX),
                _ => 7,
            };
            words[at] = match rng.below(6) {
                0 | 1 => (most + 1).to_string(),
                2 => (most + 1 + u128::from(rng.below(1000))).to_string(),
                // These wrap to a small number in 32 or 64 bits.
                3 => ((1_u128 << 64) + u128::from(rng.below(8))).to_string(),
                4 => ((1_u128 << 32) * if most > 7 { 1 << 20 } else { 1 }).to_string(),
                _ => format!("1{}", "0".repeat(rng.range(12, 60) as usize)),
            };
        }
        _ => {
            // Random bytes without a line feed, that begin with no command.
            let mut bytes: Vec<u8> = (0..rng.range(1, 40))
                .map(|_| rng.below(256) as u8)
                .collect();
            bytes[0] = b'#';
            bytes.retain(|&b| b != b'\n');
            return bytes;
        }
    }
    words.join(" ").into()
}

/// A script: most often a network that is set up and some steps, with ill-made
/// lines and lines in the wrong place among them; at times a setup that is
/// refused, no `net`, or no steps.
pub fn script(rng: &mut Rng, most_steps: usize) -> Vec<ScriptLine> {
    let mut lines = Vec::new();
    let noise = rng.pick(&[0, 1, 4]);
    let disturb = |rng: &mut Rng, lines: &mut Vec<ScriptLine>| {
        while rng.chance(noise, 16) {
            let line = ScriptLine::Ill(ill_line(rng));
            lines.push(line);
        }
    };
    let misplaced = |rng: &mut Rng| match rng.below(3) {
        0 => ScriptLine::Net(rng.range(1, 8) as u8, rng.range(1, 65_535) as u16),
        1 => ScriptLine::Allow(rng.index(8), rng.below(100) as u16),
        _ => ScriptLine::Link(rng.index(8), rng.index(8), Some(rng.range(1, 32) as u8)),
    };

    let wish = NetworkWish {
        symmetric: true,
        small: rng.chance(1, 2),
        ..NetworkWish::default()
    };
    let header = match rng.below(8) {
        // Only symmetric ways to break a rule can be said in a script.
        0 => {
            let way = rng.pick(&[
                RuleBreak::Diagonal,
                RuleBreak::LinkBeyond,
                RuleBreak::Unreached,
            ]);
            symmetric(rule_breaker(rng, way))
        }
        1 => {
            let way = rng.pick(&[RuleBreak::SumAboveCeiling, RuleBreak::AllowanceBeyond]);
            symmetric(rule_breaker(rng, way))
        }
        2 => {
            let mut header = network(rng, wish);
            match rng.below(3) {
                0 => header.stations = rng.pick(&[0, 9, 255]),
                1 => header.ceiling = 0,
                _ => {
                    let (i, j) = (rng.index(8), rng.index(8));
                    header.limits[i][j] = rng.range(33, 255) as u8;
                    header.limits[j][i] = header.limits[i][j];
                }
            }
            header
        }
        _ => network(rng, wish),
    };

    disturb(rng, &mut lines);
    if noise > 0 && rng.chance(1, 8) {
        // Before `net`.
        lines.push(ScriptLine::Allow(0, 1));
        lines.push(ScriptLine::Step(Step::Start { station: 0 }));
    }
    if rng.chance(1, 30) {
        return lines;
    }
    lines.push(ScriptLine::Net(header.stations, header.ceiling));

    let mut told = Vec::new();
    for (i, &allowance) in header.allowances.iter().enumerate() {
        if allowance > 0 || rng.chance(1, 8) {
            told.push(ScriptLine::Allow(i, allowance));
        }
        for j in 0..=i {
            let limit = header.limits[i][j];
            if limit > 0 || rng.chance(1, 20) {
                let (a, b) = if rng.chance(1, 2) { (i, j) } else { (j, i) };
                let unsaid = limit == DEFAULT_LIMIT && rng.chance(3, 4);
                told.push(ScriptLine::Link(a, b, (!unsaid).then_some(limit)));
            }
        }
    }
    rng.shuffle(&mut told);
    // Some are told first with another value, and then replaced.
    let mut first = Vec::new();
    for line in &told {
        if rng.chance(1, 6) {
            first.push(match *line {
                ScriptLine::Link(i, j, _) => ScriptLine::Link(j, i, Some(rng.below(256) as u8)),
                ScriptLine::Allow(i, _) => ScriptLine::Allow(i, rng.below(65_536) as u16),
                ref other => other.clone(),
            });
        }
    }
    for line in first.into_iter().chain(told) {
        disturb(rng, &mut lines);
        lines.push(line);
    }
    if noise > 0 && rng.chance(1, 4) {
        lines.push(ScriptLine::Net(3, 9));
    }

    // The steps follow the state, so that they are seldom refused by chance.
    let length = rng.index(most_steps + 1);
    let steps: Vec<Step> = match State::initial(&header) {
        Ok(state) => run_from(rng, state, length).steps,
        Err(_) => (0..length.min(3)).map(|_| wild_step(rng)).collect(),
    };
    for step in steps {
        disturb(rng, &mut lines);
        if noise > 0 && rng.chance(1, 40) {
            lines.push(misplaced(rng));
        }
        lines.push(said(step));
    }
    lines
}

/// The same limit both ways, the greater of the two.
fn symmetric(mut header: Header) -> Header {
    for i in 0..MAX_STATIONS {
        for j in 0..MAX_STATIONS {
            header.limits[i][j] = header.limits[i][j].max(header.limits[j][i]);
        }
    }
    header
}

/// A step as a line: well made where its stations are below 8.
fn said(step: Step) -> ScriptLine {
    let beyond = match step {
        Step::Enter { station, .. } | Step::Start { station } => station >= MAX_STATIONS,
        Step::Send { station, peer, .. } | Step::Recv { station, peer } => {
            station >= MAX_STATIONS || peer >= MAX_STATIONS
        }
    };
    if beyond {
        ScriptLine::Ill(step_text(&step).into())
    } else {
        ScriptLine::Step(step)
    }
}

/// A script's bytes with a few of them changed, added or taken away, without
/// knowledge of what the lines then are.
pub fn mutated_script(rng: &mut Rng, most_steps: usize) -> Vec<u8> {
    let lines = script(rng, most_steps);
    let last_feed = rng.chance(3, 4);
    let mut text = script_text(&lines, last_feed);
    for _ in 0..rng.range(1, 6) {
        let at = rng.index(text.len() + 1);
        let byte = match rng.below(3) {
            0 => rng.pick(b"0123456789"),
            1 => rng.pick(b" \n\r\tnetallowlinkentersendrecvstart"),
            _ => rng.below(256) as u8,
        };
        match rng.below(3) {
            0 => text.insert(at, byte),
            1 if at < text.len() => {
                text.remove(at);
            }
            _ if at < text.len() => text[at] = byte,
            _ => text.push(byte),
        }
    }
    text
}
