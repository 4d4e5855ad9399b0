//! Times of several sides, taken in turn, and their table.

use std::time::Instant;

/// Rounds of each row; the median of a side's rounds is its time.
const ROUNDS: usize = 31;

/// A round lasts about this long for each side.
const ROUND_NANOSECONDS: f64 = 8e6;

/// The time of a call in nanoseconds, over so many calls.
fn time(calls: u32, side: &mut dyn FnMut()) -> f64 {
    let start = Instant::now();
    for _ in 0..calls {
        side();
    }
    start.elapsed().as_secs_f64() * 1e9 / f64::from(calls)
}

fn median(times: &mut [f64]) -> f64 {
    times.sort_by(f64::total_cmp);
    times[times.len() / 2]
}

/// How many calls a round has. The least of some tries counts, so that a
/// disturbance does not make every round short.
fn calls_of(side: &mut dyn FnMut()) -> u32 {
    let once = time(1, side).max(1.0);
    let calls = (1e6 / once) as u32 + 1;
    let once = (0..5).map(|_| time(calls, side)).fold(f64::MAX, f64::min);
    (ROUND_NANOSECONDS / once.max(1.0)) as u32 + 1
}

/// The median time of a call of each side, in nanoseconds. The sides take turns
/// in every round, so that a change of the machine's pace meets all of them.
pub fn sides<const N: usize>(mut sides: [&mut dyn FnMut(); N]) -> [f64; N] {
    let calls = sides.each_mut().map(|side| calls_of(side));
    let mut times: [Vec<f64>; N] = std::array::from_fn(|_| Vec::new());
    for _ in 0..ROUNDS {
        for ((side, &calls), times) in sides.iter_mut().zip(&calls).zip(&mut times) {
            times.push(time(calls, side));
        }
    }
    times.map(|mut times| median(&mut times))
}

/// A time with three digits and its unit.
fn text(nanoseconds: f64) -> String {
    let (value, unit) = match nanoseconds {
        t if t < 1e3 => (t, "ns"),
        t if t < 1e6 => (t / 1e3, "µs"),
        t if t < 1e9 => (t / 1e6, "ms"),
        t => (t / 1e9, "s"),
    };
    let digits = match value {
        v if v < 10.0 => 2,
        v if v < 100.0 => 1,
        _ => 0,
    };
    format!("{value:.digits$} {unit}")
}

/// The head of the table.
pub fn print_head() {
    println!("| what | library | Rust | Rust in place | plain read | library / Rust | library / in place | library / read |");
    println!("|---|---|---|---|---|---|---|---|");
}

/// A row of the table: times in nanoseconds of so many `units`. A side that
/// there is not is left out.
pub fn print_row(what: &str, units: f64, library: f64, others: [Option<f64>; 3]) {
    let times = others.map(|time| time.map_or(String::new(), |time| text(time / units)));
    let ratios =
        others.map(|time| time.map_or(String::new(), |time| format!("{:.2}", library / time)));
    println!(
        "| {what} | {} | {} | {} |",
        text(library / units),
        times.join(" | "),
        ratios.join(" | "),
    );
}
