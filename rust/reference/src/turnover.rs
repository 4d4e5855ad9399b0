//! The program `turnover`, as a function from input to output: 'turnover' in
//! document 01; CR 1 and CR 7 in document 02.

use std::io::Write;

use crate::header::Header;
use crate::network::{Answer, Outcome, State, Step};
use crate::refusal::Refusal;
use crate::MAX_STATIONS;

/// The limit of a link line without one (document 02, CR 1).
pub const DEFAULT_LIMIT: u8 = 16;

/// A well-made line.
#[derive(Clone, Copy, Debug, PartialEq, Eq)]
pub enum Line {
    /// `net n t`
    Net {
        /// n
        stations: u8,
        /// t
        ceiling: u16,
    },
    /// `allow i A`
    Allow {
        /// i
        station: usize,
        /// A
        allowance: u16,
    },
    /// `link i j L`; without L it is [`DEFAULT_LIMIT`].
    Link {
        /// i
        station: usize,
        /// j
        peer: usize,
        /// L
        limit: u8,
    },
    /// A step.
    Step(Step),
}

/// A number: digits without leading zeros, at most `most`. Numbers of any
/// length are read without wrapping.
fn number(word: &[u8], most: u64) -> Option<u64> {
    let leading_zero = word.len() > 1 && word[0] == b'0';
    if word.is_empty() || leading_zero || !word.iter().all(u8::is_ascii_digit) {
        return None;
    }
    let mut value: u64 = 0;
    for digit in word {
        value = value
            .checked_mul(10)?
            .checked_add(u64::from(digit - b'0'))?;
    }
    (value <= most).then_some(value)
}

/// A station: 0 to 7.
fn station(word: &[u8]) -> Option<usize> {
    number(word, MAX_STATIONS as u64 - 1).map(|value| value as usize)
}

/// A number of one byte.
fn byte(word: &[u8]) -> Option<u8> {
    number(word, u64::from(u8::MAX)).map(|value| value as u8)
}

/// A number of two bytes.
fn short(word: &[u8]) -> Option<u16> {
    number(word, u64::from(u16::MAX)).map(|value| value as u16)
}

/// A register number.
fn register(word: &[u8]) -> Option<u32> {
    number(word, u64::from(u32::MAX)).map(|value| value as u32)
}

/// Reads a line without its line feed: words parted by single spaces, the
/// first of them the command. `None` for an ill-made line.
pub fn parse(line: &[u8]) -> Option<Line> {
    let words: Vec<&[u8]> = line.split(|&byte| byte == b' ').collect();
    let (command, arguments) = words.split_first()?;
    match (*command, arguments) {
        (b"net", [n, t]) => Some(Line::Net {
            stations: byte(n)?,
            ceiling: short(t)?,
        }),
        (b"allow", [i, a]) => Some(Line::Allow {
            station: station(i)?,
            allowance: short(a)?,
        }),
        (b"link", [i, j]) => Some(Line::Link {
            station: station(i)?,
            peer: station(j)?,
            limit: DEFAULT_LIMIT,
        }),
        (b"link", [i, j, l]) => Some(Line::Link {
            station: station(i)?,
            peer: station(j)?,
            limit: byte(l)?,
        }),
        (b"enter", [i, reg]) => Some(Line::Step(Step::Enter {
            station: station(i)?,
            register: register(reg)?,
        })),
        (b"send", [i, j, reg]) => Some(Line::Step(Step::Send {
            station: station(i)?,
            peer: station(j)?,
            register: register(reg)?,
        })),
        (b"recv", [i, j]) => Some(Line::Step(Step::Recv {
            station: station(i)?,
            peer: station(j)?,
        })),
        (b"start", [i]) => Some(Line::Step(Step::Start {
            station: station(i)?,
        })),
        _ => None,
    }
}

/// The lines of the input: each ends in a line feed, the last perhaps not.
pub fn lines(input: &[u8]) -> Vec<&[u8]> {
    let mut lines: Vec<&[u8]> = input.split(|&byte| byte == b'\n').collect();
    // What follows the last line feed is a line only if there is something.
    if lines.last().is_some_and(|last| last.is_empty()) {
        lines.pop();
    }
    lines
}

/// Where the program stands.
enum Stage {
    /// No `net` yet.
    BeforeNet,
    /// A `net`, no setup yet: the header that is being told.
    Telling(Header),
    /// Setup has happened.
    Running(Box<State>),
}

/// The program.
struct Program {
    stage: Stage,
    steps: u64,
    output: Vec<u8>,
}

impl Program {
    fn print(&mut self, text: std::fmt::Arguments<'_>) {
        self.output.write_fmt(text).expect("writing to a vector");
        self.output.push(b'\n');
    }

    /// Setup with the header told so far; a refusal is printed.
    fn set_up(&mut self, header: &Header) -> Result<(), Refusal> {
        match State::initial(header) {
            Ok(state) => {
                self.stage = Stage::Running(Box::new(state));
                Ok(())
            }
            Err(refusal) => {
                self.print(format_args!("no {refusal}"));
                Err(refusal)
            }
        }
    }

    /// One line. An error ends the program: setup was refused.
    fn line(&mut self, line: &[u8]) -> Result<(), Refusal> {
        match (parse(line), &mut self.stage) {
            (Some(Line::Net { stations, ceiling }), Stage::BeforeNet) => {
                self.stage = Stage::Telling(Header::new(stations, ceiling));
            }
            (Some(Line::Allow { station, allowance }), Stage::Telling(header)) => {
                header.allowances[station] = allowance;
            }
            (
                Some(Line::Link {
                    station,
                    peer,
                    limit,
                }),
                Stage::Telling(header),
            ) => {
                header.limits[station][peer] = limit;
                header.limits[peer][station] = limit;
            }
            (Some(Line::Step(step)), Stage::Telling(header)) => {
                let header = *header;
                self.set_up(&header)?;
                self.step(step);
            }
            (Some(Line::Step(step)), Stage::Running(_)) => self.step(step),
            _ => self.print(format_args!("bad")),
        }
        Ok(())
    }

    fn step(&mut self, step: Step) {
        let Stage::Running(state) = &mut self.stage else {
            return;
        };
        let outcome = state.step_well_formed(step);
        let n = state.n();
        self.steps += 1;
        let text = answer_line(self.steps, step, &outcome, n);
        self.print(format_args!("{text}"));
    }

    /// The end of input: setup happens if it has not.
    fn end(&mut self) -> Result<(), Refusal> {
        if let Stage::Telling(header) = &self.stage {
            let header = *header;
            self.set_up(&header)?;
        }
        Ok(())
    }
}

/// The line of a step's answer, without its line feed: the step's number and
/// `entry` phase station and the n counts, behind which a receipt has its news;
/// or `mode` phase station and mode; or `no` and the refusal.
pub fn answer_line(number: u64, step: Step, outcome: &Outcome, n: usize) -> String {
    match outcome {
        Ok(Answer::Entry { record, news }) => {
            let mut text = format!("{number} entry {} {}", record.phase, record.station);
            for count in &record.counts[..n] {
                text.push_str(&format!(" {count}"));
            }
            if let Some(news) = news {
                text.push_str(&format!(" {news}"));
            }
            text
        }
        Ok(Answer::Mode { mode, phase }) => {
            format!("{number} mode {phase} {} {}", step.station(), mode.word())
        }
        Err(refusal) => format!("{number} no {refusal}"),
    }
}

/// What `turnover` writes for an input.
pub fn turnover(input: &[u8]) -> Vec<u8> {
    let mut program = Program {
        stage: Stage::BeforeNet,
        steps: 0,
        output: Vec::new(),
    };
    let ended = lines(input)
        .into_iter()
        .try_for_each(|line| program.line(line));
    if ended.is_ok() {
        // A refusal here is printed, and the program ends either way.
        let _ = program.end();
    }
    program.output
}
