//! What the program check_clock is to print.

use expected_output::spaced;
use reference::archive::admits;
use reference::header::Header;
use reference::network::{Answer, Item, Message, Outcome, State, Step};
use reference::order::{compare, Verdict};
use reference::record::{Kind, Record, NO_PEER};
use reference::Counts;

/// Every two stations linked, one message each way and one own entry.
fn network() -> State {
    let mut header = Header::new(8, 65535);
    header.allowances = [1; 8];
    header.limits = std::array::from_fn(|i| std::array::from_fn(|j| u8::from(i != j)));
    State::initial(&header).expect("a network")
}

/// An entry's counts, and a receipt's news.
fn entry_of(answer: Outcome) -> (Counts, Option<u8>) {
    match answer.expect("an accepted step") {
        Answer::Entry { record, news } => (record.counts, news),
        Answer::Mode { .. } => unreachable!("an entry"),
    }
}

/// Station i makes an own entry.
fn advanced(counts: Counts, i: usize) -> Counts {
    let mut state = network();
    state.station_mut(i).counts = counts;
    let (counts, _) = entry_of(state.step(Step::Enter {
        station: i,
        register: 0,
    }));
    counts
}

/// Station i receives a message: its counts after, and how many of the others
/// grew.
fn raised(counts: Counts, message: Counts, i: usize) -> (Counts, u8) {
    let peer = (i + 1) % 8;
    let mut state = network();
    state.station_mut(i).counts = counts;
    state.link_mut(peer, i).push_back(Item::Message(Message {
        register: 0,
        counts: message,
    }));
    let (counts, news) = entry_of(state.step(Step::Recv { station: i, peer }));
    (counts, news.expect("news of a receipt"))
}

/// Each count as it is after a receipt at another station.
fn merged(a: Counts, b: Counts) -> Counts {
    let other = |k: usize| (0..8).find(|&i| i != k && a[i] < 65535);
    std::array::from_fn(|k| raised(a, b, other(k).expect("a station")).0[k])
}

/// Whether the archive of n stations and ceiling t may have a record of these
/// counts.
fn fits(counts: Counts, n: u8, t: u16) -> bool {
    let record = Record {
        kind: Kind::Own,
        station: 0,
        peer: NO_PEER,
        phase: 0,
        register: 0,
        counts,
    };
    admits(&Header::new(n, t), &record)
}

fn order(a: Counts, b: Counts) {
    let word = match compare(&a, &b) {
        Verdict::Before => "before",
        Verdict::After => "after",
        Verdict::Same => "same",
        Verdict::Unordered => "unordered",
    };
    println!("compare{} and{}: {word}", spaced(a), spaced(b));
}

fn bound(a: Counts, t: u16) {
    let word = if fits(a, 8, t) { "yes" } else { "no" };
    println!("within{} and {t}: {word}", spaced(a));
}

fn join(a: Counts, b: Counts) {
    println!(
        "merge{} and{}:{}",
        spaced(a),
        spaced(b),
        spaced(merged(a, b))
    );
}

fn step(a: Counts, b: Counts, i: usize) {
    println!("advance{}:{}", spaced(a), spaced(advanced(a, i)));
    let (counts, news) = raised(a, b, i);
    println!(
        "raise{} by{}:{}, news {news}",
        spaced(a),
        spaced(b),
        spaced(counts)
    );
}

/// Counts of 5, with x at place i.
fn fives(i: usize, x: u16) -> Counts {
    let mut counts = [5; 8];
    counts[i] = x;
    counts
}

/// Sixes up to place i, and fours behind it.
fn up_to(i: usize) -> Counts {
    std::array::from_fn(|k| if k <= i { 6 } else { 4 })
}

fn place(i: usize, j: usize) {
    order(fives(i, 4), fives(i, 5));
    order(fives(i, 6), fives(i, 5));
    order(fives(i, 0), fives(i, 65535));
    order(fives(i, 65535), fives(i, 0));
    order(fives(i, 4), fives(j, 4));
    bound(fives(i, 6), 6);
    bound(fives(i, 6), 5);
    join(fives(i, 65535), fives(j, 7));
    step(fives(i, 65534), fives(j, 8), i);
    step(fives(i, 3), fives(i, 65535), i);
    step(fives(i, 5), up_to(i), i);
}

/// One count x at each place in turn, the others 0.
fn alone(n: u8, x: u16, t: u16) {
    let only = |i: usize| std::array::from_fn(|k| if k == i { x } else { 0 });
    let word = |i: usize| if fits(only(i), n, t) { "yes" } else { "no" };
    let words = spaced((0..8).map(word));
    println!("count {x} within {t} of stations {n}:{words}");
}

fn main() {
    order([1, 0, 0, 0, 0, 0, 0, 0], [2, 1, 0, 0, 0, 0, 0, 0]);
    order([0, 1, 0, 0, 0, 0, 0, 0], [1, 0, 0, 0, 0, 0, 0, 0]);
    order([0; 8], [0; 8]);
    order([65535; 8], [65535; 8]);
    order([0; 8], [65535; 8]);
    order([65535; 8], [0; 8]);
    join([1, 9, 3, 0, 65535, 0, 7, 2], [2, 8, 3, 65535, 0, 0, 6, 4]);
    for i in 0..8 {
        place(i, (i + 1) % 8);
    }
    for n in 1..9 {
        alone(n, 1, 1);
        alone(n, 65535, 65535);
        alone(n, 2, 1);
    }
}
