//! What the comparison tests share: seeds, and the independent
//! implementation's answers as the numbers of docs/HOST.md.

#![forbid(unsafe_code)]
#![warn(missing_docs)]

use std::env;

use melontime::raw;
use reference::network::{Answer, Mode, Outcome, Step};
use reference::order::Verdict;
use reference::random::Rng;
use reference::refusal::Refusal;
use reference::{area, between_phases, in_place};

fn variable(name: &str) -> Option<u64> {
    let text = env::var(name).ok()?;
    let number = text.parse();
    Some(number.unwrap_or_else(|_| panic!("{name} is to be a number, not {text}")))
}

/// Says which seed failed.
struct Case<'a> {
    test: &'a str,
    seed: u64,
}

impl Drop for Case<'_> {
    fn drop(&mut self) {
        if std::thread::panicking() {
            let Case { test, seed } = self;
            eprintln!(
                "{test}: failed at seed {seed}; MELONTIME_SEED={seed} MELONTIME_CASES=1 repeats it"
            );
        }
    }
}

/// Runs a test on seeds that follow each other. MELONTIME_SEED is the first of
/// them (1 where it is not set), MELONTIME_CASES how many.
pub fn cases(test: &str, count: u64, run: impl Fn(&mut Rng)) {
    let first = variable("MELONTIME_SEED").unwrap_or(1);
    let count = variable("MELONTIME_CASES").unwrap_or(count);
    println!("{test}: {count} seeds from {first}");
    // Each test has a stream of its own.
    let name = test.bytes().fold(0_u64, |sum, byte| {
        (sum ^ u64::from(byte)).wrapping_mul(0x0100_0000_01b3)
    });
    for k in 0..count {
        let seed = first.wrapping_add(k);
        let _case = Case { test, seed };
        run(&mut Rng::new(
            name.wrapping_add(seed.wrapping_mul(0x2545_f491_4f6c_dd1d)),
        ));
    }
}

/// Whether the tests take as many seeds as they mean to: what all cases together
/// are to meet, one alone need not.
pub fn all_cases() -> bool {
    variable("MELONTIME_CASES").is_none()
}

/// The number of a refusal.
pub fn refusal(refusal: Refusal) -> u64 {
    u64::from(refusal.number())
}

/// The number of a call that only writes.
pub fn written(result: Result<(), Refusal>) -> u64 {
    result.map_or_else(refusal, |()| 0)
}

/// The number of a call that counts.
pub fn counted(result: Result<usize, Refusal>) -> u64 {
    result.map_or_else(refusal, |count| 1000 + count as u64)
}

/// The number of rest.
pub fn rested(result: Result<bool, Refusal>) -> u64 {
    result.map_or_else(refusal, |yes| if yes { 100 } else { 101 })
}

/// The number of receipts to rest.
pub fn to_rest(result: Result<u64, Refusal>) -> u64 {
    result.map_or_else(refusal, |receipts| 1000 + receipts)
}

/// Receipts to rest by the library, the reference and the version in place: one
/// number, and the bytes are left.
pub fn compare_receipts_to_rest(bytes: &[u8]) -> u64 {
    let lent = bytes.to_vec();
    let answer = raw::receipts_to_rest(&lent);
    assert!(lent == bytes, "the area is left");
    assert_eq!(answer, to_rest(area::receipts_to_rest(bytes)));
    assert_eq!(answer, to_rest(in_place::receipts_to_rest(bytes)));
    answer
}

/// The number of a verdict.
pub fn judged(result: Result<Verdict, Refusal>) -> u64 {
    result.map_or_else(refusal, |verdict| match verdict {
        Verdict::Before => 100,
        Verdict::After => 101,
        Verdict::Same => 102,
        Verdict::Unordered => 103,
    })
}

/// The verdict on two records of any phases by the library, the reference and the
/// version in place: one number, and the bytes are left.
pub fn compare_archive_verdict(bytes: &[u8], first: u64, second: u64) -> u64 {
    let lent = bytes.to_vec();
    let answer = raw::archive_verdict(&lent, first, second);
    assert!(lent == bytes, "the archive is left");
    let (a, b) = (first as usize, second as usize);
    let plain = judged(between_phases::verdict(bytes, a, b));
    assert_eq!(answer, plain, "records {first} and {second}");
    let placed = judged(in_place::between_phases::verdict(bytes, a, b));
    assert_eq!(answer, placed, "records {first} and {second}");
    answer
}

/// The number of a step.
pub fn stepped(outcome: &Outcome) -> u64 {
    match *outcome {
        Err(cause) => refusal(cause),
        Ok(Answer::Entry { news: None, .. }) => 100,
        Ok(Answer::Entry { news: Some(n), .. }) => 100 + u64::from(n),
        Ok(Answer::Mode { mode, phase }) => {
            let mode = match mode {
                Mode::Normal => 0,
                Mode::Mute => 1,
                Mode::StandBy => 2,
            };
            1000 + 4 * u64::from(phase) + mode
        }
    }
}

/// A step whose stations fit the library's 32 bits.
pub fn in_32_bits(step: Step) -> Step {
    let fit = |number: usize| number.min(u32::MAX as usize);
    match step {
        Step::Enter { station, register } => Step::Enter {
            station: fit(station),
            register,
        },
        Step::Send {
            station,
            peer,
            register,
        } => Step::Send {
            station: fit(station),
            peer: fit(peer),
            register,
        },
        Step::Recv { station, peer } => Step::Recv {
            station: fit(station),
            peer: fit(peer),
        },
        Step::Start { station } => Step::Start {
            station: fit(station),
        },
    }
}

/// A step by the library.
pub fn library_step(area: &mut [u8], event: &mut [u8], step: Step) -> u64 {
    match step {
        Step::Enter { station, register } => raw::enter(area, event, station as u32, register),
        Step::Send {
            station,
            peer,
            register,
        } => raw::send(area, event, station as u32, peer as u32, register),
        Step::Recv { station, peer } => raw::recv(area, event, station as u32, peer as u32),
        Step::Start { station } => raw::start(area, event, station as u32),
    }
}
