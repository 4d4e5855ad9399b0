//! What the program check_records is to print.

use expected_output::Form;
use expected_output::{
    all_moves, all_stored, answer, cases, cuts, moves, number, outcome, resealed, spaced, spares,
    table, Fields,
};
use reference::check::BLOCK;
use reference::entries::{self, start, EntriesBlock, MAX_RECORDS};
use reference::header::Header;
use reference::order::{verdict, Verdict};
use reference::record::{is_record, RECORD};

/// Places and values in an own record of station 0, and in a sent one of
/// station 3 to 5: kind, station, peer, phase, own count and spare bytes at
/// their ends and past them.
const OWN: [(usize, u8); 25] = [
    (0, 0),
    (0, 1),
    (0, 2),
    (0, 4),
    (0, 255),
    (1, 7),
    (1, 8),
    (1, 255),
    (2, 0),
    (2, 8),
    (2, 254),
    (2, 255),
    (3, 1),
    (4, 64),
    (7, 1),
    (8, 0),
    (11, 0),
    (12, 1),
    (13, 1),
    (14, 1),
    (15, 1),
    (15, 128),
    (16, 0),
    (18, 0),
    (31, 255),
];

const SENT: [(usize, u8); 17] = [
    (0, 0),
    (0, 1),
    (0, 2),
    (0, 3),
    (0, 4),
    (1, 5),
    (1, 7),
    (1, 8),
    (2, 0),
    (2, 3),
    (2, 7),
    (2, 8),
    (2, 255),
    (4, 63),
    (4, 64),
    (16, 0),
    (22, 0),
];

/// Places and values: kind, count, spare bytes and block number of a block of
/// fifteen records.
const BLOCK_BYTES: [(usize, u8); 22] = [
    (0, 0),
    (0, 1),
    (0, 2),
    (0, 3),
    (0, 255),
    (1, 0),
    (1, 1),
    (1, 14),
    (1, 15),
    (1, 16),
    (1, 255),
    (2, 1),
    (3, 1),
    (4, 0),
    (4, 255),
    (7, 255),
    (8, 1),
    (15, 1),
    (16, 0),
    (464, 0),
    (496, 1),
    (509, 1),
];

// ----- records -----

/// The greatest phase and register number; every count is 1.
fn full(kind: u8, station: u8, peer: u8) -> Fields {
    Fields {
        kind,
        station,
        peer,
        phase: 999999,
        register: 4294967295,
        counts: [1; 8],
    }
}

/// Every field the same number, as far as it goes.
fn flat(x: u8, phase: u32, count: u16) -> Fields {
    Fields {
        kind: x,
        station: x,
        peer: x,
        phase,
        register: phase,
        counts: [count; 8],
    }
}

/// A record is stored in the first 32 of 40 bytes 7, and loaded again.
fn trip(fields: Fields) {
    let mut buffer = [7; 40];
    buffer[..RECORD].copy_from_slice(&fields.to_bytes());
    let Fields {
        kind,
        station,
        peer,
        phase,
        register,
        counts,
    } = fields;
    outcome(
        &format!("record of kind {kind}"),
        answer(Form::Record, &buffer),
        &buffer,
    );
    println!("kind, station and peer {kind} {station}: {peer}");
    println!("phase and register {phase}: {register}");
    println!("counts:{}", spaced(counts));
}

fn trips() {
    trip(full(1, 0, 255));
    trip(full(2, 3, 5));
    trip(full(3, 7, 0));
    trip(flat(0, 0, 0));
    trip(flat(255, 4294967295, 65535));
    trip(Fields {
        kind: 3,
        station: 6,
        peer: 7,
        phase: 0,
        register: 0,
        counts: [0, 1, 255, 256, 257, 32768, 65535, 65534],
    });
}

fn phases() {
    for phase in [0, 999999, 1000000, 1065535, 4294967295] {
        let fields = own(7, phase, [1; 8]);
        let fits = u8::from(is_record(&fields.to_bytes()));
        println!("record fits with phase {phase}: {fits}");
    }
}

/// Own counts of station 3, all others the greatest.
fn own_counts() {
    for x in [0, 1, 256, 65535] {
        let mut fields = full(2, 3, 5);
        fields.counts = [65535; 8];
        fields.counts[3] = x;
        let answer = answer(Form::Record, &fields.to_bytes());
        println!("record with own count {x}: {answer}");
    }
}

/// The first n of 40 bytes, a record and bytes 0.
fn record_cuts() {
    let mut bytes = [0; 40];
    bytes[..RECORD].copy_from_slice(&full(1, 0, 255).to_bytes());
    for n in [0, 31, 32, 33, 40] {
        println!("record cut to {n}: {}", u8::from(!is_record(&bytes[..n])));
    }
}

fn records() {
    trips();
    phases();
    own_counts();
    record_cuts();
    let good = full(1, 0, 255).to_bytes();
    cases(Form::Record, "own record with byte", &good, &OWN);
    table(Form::Record, &good, 0..32);
    let good = full(2, 3, 5).to_bytes();
    cases(Form::Record, "sent record with byte", &good, &SENT);
    table(Form::Record, &good, 0..32);
    table(Form::Record, &full(3, 7, 0).to_bytes(), 0..32);
}

// ----- entries blocks -----

/// Record k: of each kind in turn, its own count 1.
fn nth(k: usize) -> [u8; RECORD] {
    let (i, j) = (k % 8, (k % 8 + 1) % 8);
    let kind = (k % 3 + 1) as u8;
    let mut counts = [1; 8];
    counts[j] = 300 + (k % 15) as u16;
    let fields = Fields {
        kind,
        station: i as u8,
        peer: if kind == 1 { 255 } else { j as u8 },
        phase: 999999,
        register: (k % 15 * 1000) as u32,
        counts,
    };
    fields.to_bytes()
}

/// Twenty records, one after the other.
fn twenty() -> Vec<u8> {
    (0..20).flat_map(nth).collect()
}

fn block(number: u32, count: usize) -> [u8; BLOCK] {
    let mut block = [7; BLOCK];
    entries::write(number, &twenty()[..32 * count], &mut block).expect("a block");
    block
}

/// Writes the first `bytes` bytes of records into the first n of 600 bytes 7.
fn into(block_number: u32, bytes: usize, n: usize) {
    let mut buffer = [7; 600];
    let answer = number(entries::write(
        block_number,
        &twenty()[..bytes],
        &mut buffer[..n],
    ));
    outcome(
        &format!("entries {block_number} {bytes} into {n}"),
        answer,
        &buffer,
    );
}

/// What is read of a block.
fn shown(block: &[u8]) {
    match EntriesBlock::open(block) {
        Ok(read) => println!(
            "entries read, number and count {}: {}",
            read.number(),
            read.count()
        ),
        Err(refusal) => println!("entries refused: {refusal}"),
    }
}

/// A block is written, into bytes 7, and read.
fn block_trip(number: u32, bytes: usize) {
    into(number, bytes, 600);
    let mut block = [7; BLOCK];
    let _ = entries::write(number, &twenty()[..bytes], &mut block);
    shown(&block);
}

/// Lengths of records' bytes, into a good buffer, one that is too small, and
/// with a wrong number too.
fn lengths() {
    let lengths = [0, 1, 31, 32, 33, 64, 447, 448, 480, 481, 511, 512, 513, 640];
    for bytes in lengths {
        into(1, bytes, 512);
        into(1, bytes, 511);
        into(0, bytes, 511);
    }
}

/// How many of fifteen records, made ill, are refused in a write, and in a block
/// that is read.
fn ill(good: &[u8], at: usize, x: u8) {
    let written = |k: &usize| {
        let mut records = twenty();
        records[32 * k + at] = x;
        number(entries::write(1, &records[..480], &mut [7; 511])) == 1
    };
    let read = |k: &usize| resealed(Form::Entries, good, start(*k) + at, x) == 1;
    let n = (0..15).filter(written).count() + (0..15).filter(read).count();
    println!("records ill by byte {at} {x}: {n}");
}

fn ills(good: &[u8]) {
    let bytes = [
        (0, 0),
        (0, 4),
        (1, 8),
        (2, 8),
        (2, 254),
        (3, 1),
        (4, 64),
        (7, 1),
        (12, 1),
        (13, 1),
        (14, 1),
        (15, 1),
    ];
    for (at, x) in bytes {
        ill(good, at, x);
    }
}

fn own_fields(good: &[u8]) {
    let same = |&k: &usize| resealed(Form::Entries, good, start(k) + 2, (k % 8) as u8) == 1;
    println!(
        "records with peer and station the same refused: {}",
        (0..15).filter(same).count()
    );
    let none = |&k: &usize| resealed(Form::Entries, good, start(k) + 16 + 2 * (k % 8), 0) == 1;
    println!(
        "records with own count 0 refused: {}",
        (0..15).filter(none).count()
    );
}

/// Copies record k into the first n of 40 bytes 7.
fn fetch(block: &[u8], k: usize, n: usize) {
    let mut buffer = [7; 40];
    let answer = number(entries::read_record(block, k, &mut buffer[..n]));
    outcome(&format!("record {k} into {n}"), answer, &buffer);
}

/// 12 comes before 11.
fn ends(block: &[u8], count: usize) {
    fetch(block, 0, 32);
    fetch(block, count - 1, 31);
    fetch(block, count - 1, 32);
    fetch(block, count - 1, 40);
    fetch(block, count, 31);
    fetch(block, count, 40);
}

/// 1 comes before 12 and 11.
fn no_block(block: &[u8]) {
    fetch(block, 15, 31);
    fetch(block, 14, 31);
    fetch(block, 15, 40);
    fetch(block, 0, 40);
}

fn entries_spares(label: &str, good: &[u8], part: std::ops::Range<usize>) {
    spares(Form::Entries, label, good, part);
}

fn one_record(good: &[u8]) {
    ends(good, 1);
    entries_spares("entries bytes 48 to 509 refused at", good, 48..510);
    table(Form::Entries, good, 0..48);
    println!(
        "entries bytes of any other value refused: {}",
        all_moves(Form::Entries, good)
    );
}

fn fourteen_records(good: &[u8]) {
    ends(good, 14);
    entries_spares("entries bytes 464 to 509 refused at", good, 464..510);
    table(Form::Entries, good, 0..16);
}

fn checks(good: &[u8]) {
    println!(
        "entries bytes refused, raised by 1: {}",
        moves(Form::Entries, good, 1)
    );
    println!(
        "checks of an entries block accepted: {}",
        all_stored(Form::Entries, good)
    );
    println!(
        "entries block read as a header: {}",
        answer(Form::Header, good)
    );
}

fn fifteen_records(good: &[u8]) {
    cases(Form::Entries, "entries with byte", good, &BLOCK_BYTES);
    cuts(Form::Entries, "entries cut to", good);
    entries_spares("entries bytes 2 and 3 refused at", good, 2..4);
    entries_spares("entries bytes 8 to 15 refused at", good, 8..16);
    entries_spares("entries bytes 496 to 509 refused at", good, 496..510);
    checks(good);
    ends(good, 15);
    fetch(good, usize::MAX, 31);
    no_block(&good[..0]);
    no_block(&good[..511]);
    no_block(&[good, &[0]].concat());
    ills(good);
    own_fields(good);
    for k in 0..MAX_RECORDS {
        println!("start {k}: {}", start(k));
        fetch(good, k, 32);
    }
}

fn blocks() {
    block_trip(1, 32);
    block_trip(4294967295, 448);
    block_trip(256, 480);
    block_trip(0, 480);
    lengths();
    one_record(&block(1, 1));
    fourteen_records(&block(256, 14));
    let mut good = block(1, 15);
    fifteen_records(&good);
    good[509] = 1;
    no_block(&good);
    let header = Header::new(2, 1).to_block().expect("a header");
    shown(&header);
    no_block(&header);
}

// ----- verdicts -----

/// An own record of a station, at a phase.
fn own(station: u8, phase: u32, counts: [u16; 8]) -> Fields {
    Fields {
        kind: 1,
        station,
        peer: 255,
        phase,
        register: 0,
        counts,
    }
}

/// A refusal's number, or 100 before, 101 after, 102 same, 103 unordered.
fn on(a: &[u8], b: &[u8]) -> u8 {
    match verdict(a, b) {
        Err(refusal) => refusal.number(),
        Ok(Verdict::Before) => 100,
        Ok(Verdict::After) => 101,
        Ok(Verdict::Same) => 102,
        Ok(Verdict::Unordered) => 103,
    }
}

fn on_fields(a: Fields, b: Fields) -> u8 {
    on(&a.to_bytes(), &b.to_bytes())
}

/// A station, its phase and its first two counts, the others 0.
type Two = (u8, u32, u16, u16);

fn pair(v: Two, w: Two) {
    let fields = |(station, phase, x, y)| own(station, phase, [x, y, 0, 0, 0, 0, 0, 0]);
    let name = |(station, phase, x, y)| format!("station {station} phase {phase} counts {x} {y}");
    let word = match on_fields(fields(v), fields(w)) {
        100 => "before".into(),
        101 => "after".into(),
        102 => "same".into(),
        103 => "unordered".into(),
        number => number.to_string(),
    };
    println!("{} and {}: {word}", name(v), name(w));
}

/// Counts of 5, with x at place i.
fn fives(i: usize, x: u16) -> [u16; 8] {
    let mut counts = [5; 8];
    counts[i % 8] = x;
    counts
}

/// How many of the eight places are answered so, where one count is x in the
/// first and y in the second.
fn places(x: u16, y: u16, answer: u8) {
    let on = |i: usize| on_fields(own(3, 7, fives(i, x)), own(6, 7, fives(i, y)));
    let n = (0..8).filter(|&i| on(i) == answer).count();
    println!("one count {x} against {y} {answer}: {n}");
}

fn orders() {
    pair((0, 0, 1, 0), (1, 0, 2, 1));
    pair((1, 0, 2, 1), (0, 0, 1, 0));
    pair((1, 0, 0, 1), (0, 0, 1, 0));
    pair((0, 0, 1, 0), (1, 0, 0, 1));
    pair((1, 999999, 65535, 65535), (0, 999999, 65535, 65535));
    places(4, 5, 100);
    places(65535, 5, 101);
    places(1, 1, 102);
    let on = |i: usize| on_fields(own(3, 7, fives(i, 6)), own(6, 7, fives(i + 1, 6)));
    println!(
        "two counts greater, unordered: {}",
        (0..8).filter(|&i| on(i) == 103).count()
    );
    println!(
        "verdict of other kinds and registers: {}",
        on_fields(full(2, 0, 1), own(0, 999999, [1; 8]))
    );
}

fn refusals() {
    pair((0, 0, 1, 0), (0, 1, 1, 0));
    pair((0, 65536, 1, 1), (1, 0, 2, 2));
    pair((8, 0, 1, 1), (0, 0, 1, 1));
    pair((0, 0, 1, 1), (8, 0, 1, 1));
    pair((0, 0, 0, 1), (0, 1, 1, 1));
    pair((0, 0, 1, 1), (1, 1, 1, 0));
    pair((0, 1000000, 1, 1), (0, 1000000, 1, 1));
}

/// The verdict on the first bytes of 40, a record and bytes 0.
fn verdict_cuts() {
    let mut bytes = [0; 40];
    bytes[..RECORD].copy_from_slice(&own(0, 0, [1; 8]).to_bytes());
    for (n, m) in [(32, 32), (31, 32), (32, 31), (33, 32), (32, 33), (0, 0)] {
        let answer = on(&bytes[..n], &bytes[..m]);
        println!("verdict of lengths {n} {m}: {answer}");
    }
}

fn main() {
    records();
    blocks();
    orders();
    refusals();
    verdict_cuts();
}
