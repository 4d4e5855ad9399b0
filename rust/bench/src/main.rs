//! Times of the proved library beside those of the plain Rust implementation
//! and of a plain read of the same bytes, as a table in markdown.
//!
//!     cargo run --release --offline -p bench
//!
//! A word behind `--` leaves only the rows whose name has it.
//!
//! Both sides do the same work on the same bytes: the area is lent to a step as
//! 65,536 bytes, tested, and holds the state after it; an archive is tested
//! whole by every call. Before a row is timed, both sides are run once and what
//! they leave is compared.

#![forbid(unsafe_code)]

mod inputs;
mod measure;
mod programs;

use std::hint::black_box;

use comparison::{counted, judged, library_step};
use melontime::raw;
use reference::in_place::{self, archives as placed, between_phases as placed_phases};
use reference::network::{Step, AREA};
use reference::order::Verdict;
use reference::{archive, area, between_phases, order};

use measure::{print_head, print_row, sides};

/// Prints a row with its name.
type Row = fn(&str);

/// Makes an archive of so many records.
type Input = fn(usize) -> Vec<u8>;

/// The records of an archive of a MiB.
const MEBIBYTE_RECORDS: usize = 2047 * 15;

/// The sum of the bytes' words: as plain a read as the compiler can vectorise.
fn sum(bytes: &[u8]) -> u64 {
    let (words, rest) = bytes.as_chunks::<8>();
    let sum = words.iter().fold(0, |sum: u64, &word| {
        sum.wrapping_add(u64::from_le_bytes(word))
    });
    rest.iter()
        .fold(sum, |sum, &byte| sum.wrapping_add(byte.into()))
}

/// The same as one function for all rows: of the copies that each row had for
/// itself, some took a third longer.
#[inline(never)]
fn read(bytes: &[u8]) -> u64 {
    sum(bytes)
}

/// A row of a list of steps, each accepted. The area is put back before each
/// list, on both sides.
fn steps_row(what: &str, from: &[u8], steps: &[Step]) {
    let (mut ours, mut theirs, mut placed) = (from.to_vec(), from.to_vec(), from.to_vec());
    let (mut our_event, mut their_event, mut placed_event) = ([0; 32], [0; 32], [0; 32]);
    for &step in steps {
        let answer = library_step(&mut ours, &mut our_event, step);
        assert!(answer >= 100, "{step:?} is refused with {answer}");
        assert!(area::step(&mut theirs, &mut their_event, step).is_ok());
        assert!(in_place::step(&mut placed, &mut placed_event, step).is_ok());
        assert!(ours == theirs && our_event == their_event);
        assert!(ours == placed && our_event == placed_event);
    }
    let [library, rust, place, plain] = sides([
        &mut || {
            ours.copy_from_slice(from);
            for &step in steps {
                black_box(library_step(&mut ours, &mut our_event, step));
            }
        },
        &mut || {
            theirs.copy_from_slice(from);
            for &step in steps {
                let _ = black_box(area::step(&mut theirs, &mut their_event, step));
            }
        },
        &mut || {
            placed.copy_from_slice(from);
            for &step in steps {
                let _ = black_box(in_place::step(&mut placed, &mut placed_event, step));
            }
        },
        &mut || {
            for _ in steps {
                black_box(read(black_box(from)));
            }
        },
    ]);
    let others = [Some(rust), Some(place), Some(plain)];
    print_row(what, steps.len() as f64, library, others);
}

fn setup_row(what: &str) {
    let block = inputs::complete_network().to_block_untested();
    let (mut ours, mut theirs, mut placed) = (vec![7; AREA], vec![7; AREA], vec![7; AREA]);
    assert_eq!(raw::setup(&block, &mut ours), 0);
    assert!(area::setup(&block, &mut theirs).is_ok());
    assert!(in_place::setup(&block, &mut placed).is_ok());
    assert!(ours == theirs && ours == placed);
    let whole = ours.clone();
    let [library, rust, place, plain] = sides([
        &mut || {
            black_box(raw::setup(black_box(&block), &mut ours));
        },
        &mut || {
            let _ = black_box(area::setup(black_box(&block), &mut theirs));
        },
        &mut || {
            let _ = black_box(in_place::setup(black_box(&block), &mut placed));
        },
        &mut || {
            black_box(read(black_box(&whole)));
        },
    ]);
    print_row(what, 1.0, library, [Some(rust), Some(place), Some(plain)]);
}

fn rest_row(what: &str) {
    let bytes = &inputs::idle_area()[..];
    assert_eq!(raw::rest(bytes), 100);
    assert_eq!(area::rest(bytes), Ok(true));
    assert_eq!(in_place::rest(bytes), Ok(true));
    let [library, rust, place, plain] = sides([
        &mut || {
            black_box(raw::rest(black_box(bytes)));
        },
        &mut || {
            let _ = black_box(area::rest(black_box(bytes)));
        },
        &mut || {
            let _ = black_box(in_place::rest(black_box(bytes)));
        },
        &mut || {
            black_box(read(black_box(bytes)));
        },
    ]);
    print_row(what, 1.0, library, [Some(rust), Some(place), Some(plain)]);
}

/// A row of the receipts to rest of an area, of which there are so many.
fn receipts_row(what: &str, bytes: &[u8], receipts: u64) {
    assert_eq!(raw::receipts_to_rest(bytes), 1000 + receipts);
    assert_eq!(area::receipts_to_rest(bytes), Ok(receipts));
    assert_eq!(in_place::receipts_to_rest(bytes), Ok(receipts));
    let [library, rust, place, plain] = sides([
        &mut || {
            black_box(raw::receipts_to_rest(black_box(bytes)));
        },
        &mut || {
            let _ = black_box(area::receipts_to_rest(black_box(bytes)));
        },
        &mut || {
            let _ = black_box(in_place::receipts_to_rest(black_box(bytes)));
        },
        &mut || {
            black_box(read(black_box(bytes)));
        },
    ]);
    print_row(what, 1.0, library, [Some(rust), Some(place), Some(plain)]);
}

fn idle_receipts_row(what: &str) {
    receipts_row(what, &inputs::idle_area(), 0);
}

/// On each of 56 links 30 messages, and a req and a done to come.
fn busy_receipts_row(what: &str) {
    receipts_row(what, &inputs::busy_reset_area(), 56 * (30 + 2));
}

fn verdict_row(what: &str) {
    let pairs = inputs::record_pairs(256);
    for (first, second) in &pairs {
        let expected = order::verdict(first, second);
        assert!(expected.is_ok());
        assert_eq!(raw::verdict(first, second), judged(expected));
        assert_eq!(in_place::verdict(first, second), expected);
    }
    let [library, rust, place, plain] = sides([
        &mut || {
            for (first, second) in &pairs {
                black_box(raw::verdict(black_box(first), black_box(second)));
            }
        },
        &mut || {
            for (first, second) in &pairs {
                let _ = black_box(order::verdict(black_box(first), black_box(second)));
            }
        },
        &mut || {
            for (first, second) in &pairs {
                let _ = black_box(in_place::verdict(black_box(first), black_box(second)));
            }
        },
        &mut || {
            for (first, second) in &pairs {
                black_box(sum(black_box(first)).wrapping_add(sum(black_box(second))));
            }
        },
    ]);
    let others = [Some(rust), Some(place), Some(plain)];
    print_row(what, pairs.len() as f64, library, others);
}

/// A row of the test of an archive, which all sides answer alike.
fn archive_row(what: &str, bytes: &[u8], units: f64) {
    let expected = archive::record_count(bytes);
    assert_eq!(raw::archive_records(bytes), counted(expected));
    assert_eq!(placed::record_count(bytes), expected);
    let [library, rust, place, plain] = sides([
        &mut || {
            black_box(raw::archive_records(black_box(bytes)));
        },
        &mut || {
            let _ = black_box(archive::record_count(black_box(bytes)));
        },
        &mut || {
            let _ = black_box(placed::record_count(black_box(bytes)));
        },
        &mut || {
            black_box(read(black_box(bytes)));
        },
    ]);
    print_row(what, units, library, [Some(rust), Some(place), Some(plain)]);
}

/// A row of the list of an archive's middle record, which all sides give in the
/// same order.
fn unordered_row(what: &str, bytes: &[u8]) {
    let count = archive::record_count(bytes).expect("an archive");
    let number = count / 2;
    let (mut ours, mut theirs, mut list) = (vec![0; count], vec![0; count], vec![0; count]);
    let listed = archive::unordered_list(bytes, number, &mut theirs).expect("a list");
    let answer = raw::unordered(bytes, number as u64, &mut ours);
    assert_eq!(answer, 1000 + listed as u64);
    let answer = placed::unordered_list(bytes, number, &mut list);
    assert_eq!(answer, Ok(listed));
    assert!(ours == list && theirs.iter().zip(&list).all(|(&a, &b)| a as u64 == b));
    let [library, rust, place, plain] = sides([
        &mut || {
            black_box(raw::unordered(black_box(bytes), number as u64, &mut ours));
        },
        &mut || {
            let list = archive::unordered_list(black_box(bytes), number, &mut theirs);
            let _ = black_box(list);
        },
        &mut || {
            let list = placed::unordered_list(black_box(bytes), number, &mut list);
            let _ = black_box(list);
        },
        &mut || {
            black_box(read(black_box(bytes)));
        },
    ]);
    let others = [Some(rust), Some(place), Some(plain)];
    print_row(what, count as f64, library, others);
}

/// A row of the verdict on two records of an archive, whatever their phases. Each
/// side tests the archive and sees that it is well kept.
fn across_phases_row(what: &str, count: usize, pair: &inputs::Pair) {
    let inputs::Pair { first, second, .. } = *pair;
    let bytes = &pair.bytes[..];
    let ours = |bytes| raw::archive_verdict(bytes, first as u64, second as u64);
    assert_eq!(ours(bytes), judged(Ok(Verdict::Before)));
    assert_eq!(
        between_phases::verdict(bytes, first, second),
        Ok(Verdict::Before)
    );
    assert_eq!(
        placed_phases::verdict(bytes, first, second),
        Ok(Verdict::Before)
    );
    let [library, rust, place, plain] = sides([
        &mut || {
            black_box(ours(black_box(bytes)));
        },
        &mut || {
            let _ = black_box(between_phases::verdict(black_box(bytes), first, second));
        },
        &mut || {
            let _ = black_box(placed_phases::verdict(black_box(bytes), first, second));
        },
        &mut || {
            black_box(read(black_box(bytes)));
        },
    ]);
    let others = [Some(rust), Some(place), Some(plain)];
    print_row(what, count as f64, library, others);
}

fn steps_rows(is_wanted: impl Fn(&str) -> bool) {
    let (idle, busy) = (inputs::idle_area(), inputs::busy_area());
    let lists = [
        ("enter, idle network of eight", &idle, inputs::entries()),
        (
            "send and recv, idle network of eight",
            &idle,
            inputs::messages(),
        ),
        ("a step of a reset of eight", &idle, inputs::reset()),
        ("enter, busy network of eight", &busy, inputs::entries()),
        ("recv, busy network of eight", &busy, inputs::receipts()),
    ];
    for (what, from, steps) in &lists {
        if is_wanted(what) {
            steps_row(what, from, steps);
        }
    }
}

fn archive_rows(is_wanted: impl Fn(&str) -> bool) {
    let calls = [
        ("archive test, a header alone", inputs::archive_of(0)),
        ("archive test, one block", inputs::archive_of(15)),
        ("archive test, ten blocks", inputs::archive_of(10 * 15)),
    ];
    for (what, bytes) in &calls {
        if is_wanted(what) {
            archive_row(what, bytes, 1.0);
        }
    }
    let right = inputs::archive_of(MEBIBYTE_RECORDS);
    let hostile = inputs::hostile_archive(MEBIBYTE_RECORDS);
    assert_eq!(right.len(), hostile.len());
    assert_eq!(raw::archive_records(&hostile), 1);
    let mebibytes = right.len() as f64 / f64::from(1 << 20);
    let archives = [
        ("archive test, per MiB", right),
        ("archive test, wrong in its last record, per MiB", hostile),
    ];
    for (what, bytes) in &archives {
        if is_wanted(what) {
            archive_row(what, bytes, mebibytes);
        }
    }
}

fn unordered_rows(is_wanted: impl Fn(&str) -> bool) {
    let lists: [(&str, Input, usize); 7] = [
        (
            "unordered list of 1,000, per record",
            inputs::archive_of,
            1_000,
        ),
        (
            "unordered list of 10,000, per record",
            inputs::archive_of,
            10_000,
        ),
        (
            "unordered list of 100,000, per record",
            inputs::archive_of,
            100_000,
        ),
        (
            "unordered list of 1,000,000, per record",
            inputs::archive_of,
            1_000_000,
        ),
        (
            "unordered list of 1,000,000, nothing sent, per record",
            inputs::quiet_archive_of,
            1_000_000,
        ),
        (
            "unordered list of 1,000,000, own counts falling, per record",
            inputs::falling_archive_of,
            1_000_000,
        ),
        (
            "unordered list of 1,000,000, in no order, per record",
            inputs::shuffled_archive_of,
            1_000_000,
        ),
    ];
    for (what, archive_of, count) in lists {
        if is_wanted(what) {
            unordered_row(what, &archive_of(count));
        }
    }
}

fn across_phases_rows(is_wanted: impl Fn(&str) -> bool) {
    const MILLION: usize = 1_000_000;
    let rows = [
        (
            "verdict across 100 phases, 1,000 records, per record",
            1_000,
            100,
            false,
        ),
        (
            "verdict across 100 phases, 10,000 records, per record",
            10_000,
            100,
            false,
        ),
        (
            "verdict across 100 phases, 100,000 records, per record",
            100_000,
            100,
            false,
        ),
        (
            "verdict across 100 phases, 1,000,000 records, per record",
            MILLION,
            100,
            false,
        ),
        (
            "verdict across 100,000 phases, 1,000,000 records, per record",
            MILLION,
            100_000,
            false,
        ),
        (
            "verdict across 100 phases, 1,000,000 records in no order, per record",
            MILLION,
            100,
            true,
        ),
        (
            "verdict across 100,000 phases, 1,000,000 records in no order, per record",
            MILLION,
            100_000,
            true,
        ),
    ];
    for (what, count, phases, shuffled) in rows {
        if is_wanted(what) {
            across_phases_row(
                what,
                count,
                &inputs::pair_of_phases(count, phases, shuffled),
            );
        }
    }
}

fn main() -> std::io::Result<()> {
    if programs::is_reference() {
        return programs::run_reference();
    }
    let wanted = std::env::args().nth(1).unwrap_or_default();
    let is_wanted = |what: &str| what.contains(&wanted);
    print_head();
    steps_rows(is_wanted);
    let calls: [(&str, Row); 5] = [
        ("rest, idle network of eight", rest_row),
        ("receipts to rest, idle network of eight", idle_receipts_row),
        ("receipts to rest, busy network of eight", busy_receipts_row),
        ("setup", setup_row),
        ("verdict", verdict_row),
    ];
    for (what, row) in calls {
        if is_wanted(what) {
            row(what);
        }
    }
    archive_rows(is_wanted);
    unordered_rows(is_wanted);
    across_phases_rows(is_wanted);
    programs::turnover_rows(&wanted)
}
