//! What the program check_blocks is to print.

use expected_output::Form::Header as Block;
use expected_output::{
    all_moves, all_stored, cases, cuts, digest, moves, number, outcome, refused, spaced, spares,
    stored, table,
};
use reference::check::{all_zero, block_check, is_sealed, seal, BLOCK};
use reference::header::Header;
use reference::record::{Kind, Record, NO_PEER};
use reference::Counts;

const LIMITS: [[u8; 8]; 8] = [
    [0, 1, 2, 3, 4, 5, 6, 7],
    [8, 9, 10, 11, 12, 13, 14, 15],
    [16, 17, 18, 19, 20, 21, 22, 23],
    [24, 25, 26, 27, 28, 29, 30, 31],
    [32, 0, 32, 0, 32, 0, 32, 0],
    [7, 7, 7, 7, 7, 7, 7, 7],
    [0, 0, 0, 0, 0, 0, 0, 0],
    [1, 0, 0, 0, 0, 0, 0, 32],
];

/// Places and values: the kind of block, n, t, allowances and limits at their
/// ends and past them, the spare bytes' ends.
const CASES: [(usize, u8); 27] = [
    (0, 0),
    (0, 1),
    (0, 2),
    (0, 255),
    (1, 0),
    (1, 1),
    (1, 8),
    (1, 9),
    (1, 255),
    (2, 0),
    (2, 255),
    (3, 255),
    (4, 1),
    (7, 1),
    (8, 1),
    (15, 1),
    (16, 255),
    (31, 255),
    (32, 32),
    (32, 33),
    (32, 255),
    (95, 0),
    (95, 32),
    (95, 33),
    (96, 1),
    (509, 1),
    (509, 255),
];

// ----- numbers, as the reference writes and reads them in a record -----

/// An own record of the first station whose count is not 0.
fn record(register: u32, counts: Counts) -> Record {
    let station = counts.iter().position(|&count| count > 0);
    Record {
        kind: Kind::Own,
        station: station.expect("a count") as u8,
        peer: NO_PEER,
        phase: 0,
        register,
        counts,
    }
}

fn read(record: Record) -> Record {
    Record::read(&record.to_bytes()).expect("a record")
}

/// A record that has x as its second count.
fn with_two(x: u16) -> Record {
    record(0, [1, x, 0, 0, 0, 0, 0, 0])
}

fn with_four(x: u32) -> Record {
    record(x, [1; 8])
}

/// Bytes from a place on, the others 9.
fn placed<const N: usize>(at: usize, bytes: &[u8]) -> [u8; N] {
    let mut all = [9; N];
    all[at..at + bytes.len()].copy_from_slice(bytes);
    all
}

fn twos() {
    for x in [0, 1, 255, 256, 65534, 65535] {
        let bytes = with_two(x).to_bytes();
        let y = read(with_two(x)).counts[1];
        for at in [0, 6] {
            let bytes = placed::<8>(at, &bytes[18..20]);
            println!("two bytes {x} {y}:{}", spaced(bytes));
        }
    }
}

fn fours() {
    let numbers = [
        0,
        255,
        256,
        65535,
        65536,
        16777215,
        16777216,
        4294967295_u32,
    ];
    for x in numbers {
        let bytes = with_four(x).to_bytes();
        let y = read(with_four(x)).register;
        for at in [0, 4] {
            let bytes = placed::<8>(at, &bytes[8..12]);
            println!("four bytes {x} {y}:{}", spaced(bytes));
        }
    }
}

fn row(at: usize, counts: Counts) {
    let bytes = record(0, counts).to_bytes();
    println!(
        "row {at}:{}, digest {}",
        spaced(read(record(0, counts)).counts),
        digest(&placed::<20>(at, &bytes[16..32]))
    );
}

fn trips() {
    twos();
    fours();
    row(0, [0, 1, 255, 256, 257, 32768, 65534, 65535]);
    row(4, [65535, 65534, 32768, 257, 256, 255, 1, 0]);
    let back = |&x: &u16| read(with_two(x)).counts[1] == x;
    println!(
        "two bytes read as written: {}",
        (0..=u16::MAX).filter(back).count()
    );
}

// ----- zeros and copies -----

/// How many of sixteen places make bytes of which one is x no zeros.
fn found(x: u8) {
    let n = (0..16).filter(|&at| {
        let mut bytes = [0; 16];
        bytes[at] = x;
        !all_zero(&bytes)
    });
    println!("no zeros by one byte at {x}: {}", n.count());
}

fn runs(at: usize, n: usize) {
    println!("zeros {at} {n}:{}", spaced(placed::<8>(at, &[0; 8][..n])));
    println!("copied {at} {n}:{}", spaced(placed::<8>(at, &[7; 8][..n])));
}

fn zeros() {
    println!("no bytes are zeros: {}", u8::from(all_zero(&[])));
    println!("sixteen zeros are zeros: {}", u8::from(all_zero(&[0; 16])));
    found(1);
    found(128);
    runs(0, 8);
    runs(3, 2);
    runs(8, 0);
}

// ----- the check -----

/// The check of a block that is zero but for some bytes.
fn check(bytes: &[(usize, u8)]) -> u16 {
    let mut block = [0; BLOCK];
    for &(at, x) in bytes {
        block[at] = x;
    }
    block_check(&block)
}

fn check_line(p: usize, x: u8, q: usize, y: u8) {
    println!(
        "check of byte {p} at {x}, and of byte {q} {y}: {}",
        check(&[(p, x), (q, y)])
    );
}

fn checks() {
    check_line(0, 0, 509, 0);
    check_line(0, 0, 509, 255);
    check_line(510, 255, 511, 255);
    check_line(238, 1, 509, 128);
    check_line(239, 1, 509, 128);
    check_line(240, 1, 509, 128);
    for x in [1, 255] {
        let sum: u64 = (0..510).map(|at| u64::from(check(&[(at, x)]))).sum();
        println!("checks of one byte at {x}, added up: {sum}");
    }
}

/// A block of the bytes b, b + a, b + 2a ..
fn steady(a: u8, b: u8) -> [u8; BLOCK] {
    std::array::from_fn(|at| b.wrapping_add(a.wrapping_mul(at as u8)))
}

fn mixed(a: u8, b: u8) {
    println!("check of bytes by {a} {b}: {}", block_check(&steady(a, b)));
}

fn mixed_sealed(a: u8, b: u8) {
    let mut block = steady(a, b);
    seal(&mut block);
    println!("sealed {a} {}:{}", digest(&block), spaced(&block[508..]));
}

/// Whether x seals a block that is zero but for byte p, which is 1.
fn seals(p: usize, x: u16) -> bool {
    let mut block = [0; BLOCK];
    block[p] = 1;
    block[510..].copy_from_slice(&x.to_le_bytes());
    is_sealed(&block)
}

fn seal_lines() {
    for x in [6, 5, 7, 65527] {
        println!("byte sealed by 4 {x}: {}", u8::from(seals(4, x)));
    }
    for p in [4, 509] {
        let n = (0..=u16::MAX).filter(|&x| seals(p, x)).count();
        println!("numbers that seal byte {p}: {n}");
    }
}

fn numbers() {
    trips();
    zeros();
    checks();
    mixed(0, 255);
    mixed(1, 0);
    mixed(37, 11);
    mixed_sealed(0, 255);
    mixed_sealed(37, 11);
    seal_lines();
}

// ----- header blocks -----

fn flat(n: u8, t: u16, allowance: u16, limits: [[u8; 8]; 8]) -> Header {
    Header {
        stations: n,
        ceiling: t,
        allowances: [allowance; 8],
        limits,
    }
}

fn sample() -> Header {
    Header {
        stations: 3,
        ceiling: 1000,
        allowances: [0, 1, 255, 256, 257, 4660, 65534, 65535],
        limits: LIMITS,
    }
}

/// Writes into the first n of 600 bytes 7.
fn into(header: Header, n: usize) {
    let mut buffer = [7; 600];
    let answer = number(header.write(&mut buffer[..n]));
    let Header {
        stations, ceiling, ..
    } = header;
    outcome(
        &format!("header of n {stations} and t {ceiling} into {n}"),
        answer,
        &buffer,
    );
}

/// What is read of a block; of a refused one every field is 0.
fn shown(block: &[u8]) {
    let result = Header::read(block);
    let header = result.unwrap_or(Header::new(0, 0));
    println!(
        "header read: {}, n {}, t {}, allowances{}, limits{}",
        number(result),
        header.stations,
        header.ceiling,
        spaced(header.allowances),
        spaced(header.limits.concat())
    );
}

fn trip(header: Header) {
    into(header, 600);
    shown(&header.to_block().expect("a header"));
}

/// How many headers with one limit x are answered so.
fn limit_line(x: u8, answer: u8) {
    let one = |k: usize| {
        let mut limits = [[0; 8]; 8];
        limits[k / 8][k % 8] = x;
        flat(8, 1, 0, limits)
    };
    let n = (0..64).filter(|&k| number(one(k).write(&mut [7; BLOCK])) == answer);
    println!("headers of one limit answered {x} {answer}: {}", n.count());
}

fn writes() {
    for n in [0, 31, 511, 512, 513] {
        into(sample(), n);
    }
    let ranges = [(0, 1), (1, 1), (8, 65535), (9, 65535), (255, 1), (8, 0)];
    for (n, t) in ranges {
        into(flat(n, t, 9, [[32; 8]; 8]), 600);
        into(flat(n, t, 9, [[32; 8]; 8]), 511);
    }
    limit_line(0, 0);
    limit_line(32, 0);
    limit_line(33, 1);
    limit_line(255, 1);
}

fn samples(good: &[u8]) {
    cases(Block, "header with byte", good, &CASES);
    cuts(Block, "header cut to", good);
    spares(Block, "header bytes 4 to 15 refused at", good, 4..16);
    spares(Block, "header bytes 96 to 509 refused at", good, 96..510);
    for x in [32, 33, 255] {
        let (limits, allowances) = (
            refused(Block, good, 32..96, x),
            refused(Block, good, 16..32, x),
        );
        println!("header limits refused at {x}: {limits}");
        println!("header allowances refused at {x}: {allowances}");
    }
    for by in [1, 255] {
        let n = moves(Block, good, by);
        println!("header bytes refused, raised by {by}: {n}");
    }
    println!(
        "header bytes of any other value refused: {}",
        all_moves(Block, good)
    );
}

fn reads() {
    let mut block = sample().to_block().expect("a header");
    samples(&block);
    block[1] = 0;
    shown(&block);
}

/// The least header, whose check is 7.
fn least() {
    let block = Header::new(1, 1).to_block().expect("a header");
    table(Block, &block, 0..32);
    table(Block, &block, 32..96);
    table(Block, &block, 496..510);
    for check in [7, 6, 8, 0, 65528] {
        println!(
            "header with check {check}: {}",
            stored(Block, &block, check)
        );
    }
    println!("checks of a header accepted: {}", all_stored(Block, &block));
}

fn main() {
    numbers();
    trip(Header::new(1, 1));
    trip(flat(8, 65535, 65535, [[32; 8]; 8]));
    trip(sample());
    writes();
    reads();
    least();
}
