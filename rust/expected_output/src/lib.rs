//! What the binaries share: the numbers and lines that the programs of
//! `crates/check_*` write, and the classes of cases of `crates/check_vectors`,
//! answered by the independent implementation.

#![forbid(unsafe_code)]

use reference::check::{seal, BLOCK};
use reference::entries::EntriesBlock;
use reference::header::Header;
use reference::record::{Kind, Record, RECORD};
use reference::refusal::Refusal;
use reference::Counts;

/// What bytes are read as.
#[derive(Clone, Copy)]
pub enum Form {
    Header,
    Entries,
    Record,
}

/// A record's fields, whether they are right or not.
#[derive(Clone, Copy)]
pub struct Fields {
    pub kind: u8,
    pub station: u8,
    pub peer: u8,
    pub phase: u32,
    pub register: u32,
    pub counts: Counts,
}

impl Fields {
    /// The bytes of a record with these fields.
    pub fn to_bytes(&self) -> [u8; RECORD] {
        let record = Record {
            kind: Kind::Own,
            station: self.station,
            peer: self.peer,
            phase: self.phase,
            register: self.register,
            counts: self.counts,
        };
        let mut bytes = record.to_bytes();
        bytes[0] = self.kind;
        bytes
    }
}

/// 0, or the number of a refusal.
pub fn number<T>(result: Result<T, Refusal>) -> u8 {
    result.map_or_else(Refusal::number, |_| 0)
}

/// A number that tells lists of bytes apart.
pub fn digest(bytes: &[u8]) -> u64 {
    let add = |h: u64, &byte: &u8| (h * 257 + u64::from(byte)) % 1_000_000_007;
    bytes.iter().fold(1, add)
}

/// The numbers, a space before each.
pub fn spaced<T: ToString>(numbers: impl IntoIterator<Item = T>) -> String {
    let word = |x: T| format!(" {}", x.to_string());
    numbers.into_iter().map(word).collect()
}

/// An answer, and a buffer of bytes 7 after the call.
pub fn outcome(label: &str, answer: u8, buffer: &[u8]) {
    let changed = buffer.iter().filter(|&&byte| byte != 7).count();
    let digest = digest(buffer);
    println!("{label}: {answer}, not 7: {changed}, digest {digest}");
}

/// 0, or the number with which bytes are refused. Of records the first 32 bytes
/// are read.
pub fn answer(form: Form, bytes: &[u8]) -> u8 {
    match form {
        Form::Header => number(Header::read(bytes)),
        Form::Entries => number(EntriesBlock::open(bytes)),
        Form::Record => number(Record::read(bytes.get(..RECORD).unwrap_or(bytes))),
    }
}

/// A block that starts with the bytes given, zeros behind them.
fn block_of(good: &[u8]) -> [u8; BLOCK] {
    let mut block = [0; BLOCK];
    block[..good.len()].copy_from_slice(good);
    block
}

/// The answer to a copy with one byte set, sealed again.
pub fn resealed(form: Form, good: &[u8], at: usize, x: u8) -> u8 {
    let mut block = block_of(good);
    block[at] = x;
    seal(&mut block);
    answer(form, &block)
}

/// A line for each pair of a byte's place and its value.
pub fn cases(form: Form, label: &str, good: &[u8], pairs: &[(usize, u8)]) {
    for &(at, x) in pairs {
        println!("{label} {at} {x}: {}", resealed(form, good, at, x));
    }
}

/// How many of the bytes of a part, set to x and sealed again, are refused.
pub fn refused(form: Form, good: &[u8], part: std::ops::Range<usize>, x: u8) -> usize {
    part.filter(|&at| resealed(form, good, at, x) == 1).count()
}

/// A part that is to be zero: how many of its bytes are refused, by two values.
pub fn spares(form: Form, label: &str, good: &[u8], part: std::ops::Range<usize>) {
    for x in [1, 128] {
        println!("{label} {x}: {}", refused(form, good, part.clone(), x));
    }
}

/// How many values of each byte of a part are accepted, sealed again.
pub fn table(form: Form, good: &[u8], part: std::ops::Range<usize>) {
    let from = part.start;
    let accepted = |at| {
        (0..=255)
            .filter(|&x| resealed(form, good, at, x) == 0)
            .count()
    };
    println!(
        "values accepted from byte {from}:{}",
        spaced(part.map(accepted))
    );
}

/// How many of the 512 bytes, each raised alone and not sealed, are refused.
pub fn moves(form: Form, good: &[u8], by: u8) -> usize {
    let moved = |at: &usize| {
        let mut block = block_of(good);
        block[*at] = block[*at].wrapping_add(by);
        answer(form, &block) == 1
    };
    (0..BLOCK).filter(moved).count()
}

/// The same for each of the 255 other values.
pub fn all_moves(form: Form, good: &[u8]) -> usize {
    (1..=255).map(|by| moves(form, good, by)).sum()
}

/// The answer to a copy with another number for its check.
pub fn stored(form: Form, good: &[u8], check: u16) -> u8 {
    let mut block = block_of(good);
    block[510..].copy_from_slice(&check.to_le_bytes());
    answer(form, &block)
}

/// How many numbers are accepted for a check.
pub fn all_stored(form: Form, good: &[u8]) -> usize {
    let accepted = |&check: &u16| stored(form, good, check) == 0;
    (0..=u16::MAX).filter(accepted).count()
}

/// The answers to the first bytes of 600, the good block and zeros.
pub fn cuts(form: Form, label: &str, good: &[u8]) {
    let mut bytes = [0; 600];
    bytes[..BLOCK].copy_from_slice(good);
    for n in [0, 1, 511, 512, 513, 600] {
        println!("{label} {n}: {}", answer(form, &bytes[..n]));
    }
}
