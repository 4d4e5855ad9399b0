//! What the program check_rules is to print.

use reference::header::Header;

type Limits = [[u8; 8]; 8];

const NONE: Limits = [[0; 8]; 8];

/// A network's name and number, and whether it keeps the network rules.
fn say(name: &str, k: usize, header: &Header) {
    let word = if header.obeys_network_rules() {
        "kept"
    } else {
        "broken"
    };
    println!("{name} {k}: {word}");
}

fn run(name: &str, k: usize, n: u8, t: u16, allowances: [u16; 8], limits: Limits) {
    let header = Header {
        stations: n,
        ceiling: t,
        allowances,
        limits,
    };
    say(name, k, &header);
}

/// The limit from i to j is l.
fn put(mut limits: Limits, i: usize, j: usize, l: u8) -> Limits {
    limits[i][j] = l;
    limits
}

/// A link from i to j with a limit of 3, and one back with a limit of 2.
fn join(limits: Limits, i: usize, j: usize) -> Limits {
    put(put(limits, i, j, 3), j, i, 2)
}

/// No link between i and j.
fn part(limits: Limits, i: usize, j: usize) -> Limits {
    put(put(limits, i, j, 0), j, i, 0)
}

/// Stations 0 to n - 1 in a row.
fn chain(n: usize) -> Limits {
    (1..n).fold(NONE, |limits, i| join(limits, i - 1, i))
}

fn ring() -> Limits {
    join(chain(8), 7, 0)
}

/// Every other station is joined to station k.
fn spokes(limits: Limits, k: usize) -> Limits {
    let others = (0..8).filter(|&i| i != k);
    others.fold(limits, |limits, i| join(limits, k, i))
}

fn complete() -> Limits {
    (0..8).fold(NONE, spokes)
}

/// An allowance of x for station i alone.
fn only(i: usize, x: u16) -> [u16; 8] {
    std::array::from_fn(|k| if k == i { x } else { 0 })
}

/// The ceiling at the greatest sum, and one below.
fn few() {
    let pair = put(put(NONE, 0, 1, 2), 1, 0, 2);
    let two = |a, b| [a, b, 0, 0, 0, 0, 0, 0];
    run("lone station", 5, 1, 5, only(0, 5), NONE);
    run("lone station", 4, 1, 4, only(0, 5), NONE);
    run("pair", 7, 2, 7, two(3, 3), pair);
    run("pair", 6, 2, 6, two(3, 3), pair);
    run("greatest", 65535, 2, 65535, two(65531, 65531), pair);
    run("too great", 65535, 2, 65535, two(65535, 65531), pair);
}

fn eight() {
    run("ring", 15, 8, 15, [5; 8], ring());
    run("ring", 14, 8, 14, [5; 8], ring());
    run("star", 40, 8, 40, [5; 8], spokes(NONE, 0));
    run("star", 39, 8, 39, [5; 8], spokes(NONE, 0));
    run("complete", 40, 8, 40, [5; 8], complete());
    run("complete", 39, 8, 39, [5; 8], complete());
}

/// A ring with a wrong link at station k or to the next.
fn links(k: usize) {
    let (i, m) = ((k + 1) % 8, ring());
    run("diagonal", k, 8, 99, [5; 8], put(m, k, k, 1));
    run("only back", k, 8, 99, [5; 8], put(m, k, i, 0));
    run("only out", k, 8, 99, [5; 8], put(m, i, k, 0));
    run("cut once", k, 8, 99, [5; 8], part(m, k, i));
    run("cut twice", k, 8, 99, [5; 8], part(part(m, k, i), 0, 1));
}

/// A ring with a sum at station k that is at the ceiling, or one above.
fn sums(k: usize) {
    let (i, m) = ((k + 1) % 8, ring());
    run("allowance of 5", k, 8, 15, only(k, 5), m);
    run("allowance of 6", k, 8, 15, only(k, 6), m);
    run("one more out", k, 8, 15, [5; 8], put(m, k, i, 4));
    run("one more back", k, 8, 15, [5; 8], put(m, i, k, 3));
    run("star", k, 8, 35, [0; 8], spokes(NONE, k));
    run("star less one", k, 8, 34, [0; 8], spokes(NONE, k));
}

/// Five stations in a row, and something set at station k.
fn above(k: usize) {
    let i = (k + 2) % 8;
    run("allowance at", k, 5, 99, only(k, 1), chain(5));
    run("link at", k, 5, 99, [0; 8], join(chain(5), k, i));
}

/// A header of n stations over a row of k, and over a ring of eight.
fn headers(k: usize, n: u8) {
    let at = usize::from(n);
    run("stations of a row", at, n, 99, [0; 8], chain(k));
    run("stations of a ring", at, n, 99, [0; 8], ring());
}

fn main() {
    few();
    eight();
    for k in 0..8 {
        links(k);
        sums(k);
        above(k);
        headers(k, k as u8);
    }
    headers(7, 8);
    headers(7, 9);
    headers(7, 255);
}
