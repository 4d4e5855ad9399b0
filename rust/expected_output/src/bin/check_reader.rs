//! Writes what the program check_reader is to print, from the independent implementation.

use reference::archive::{build, found_record, Reader};
use reference::header::Header;
use reference::record::{Kind, Record};

const LAST: usize = usize::MAX;

/// A reader as document 01 has it: on a record, or on none where the bytes have
/// none; then every call is refused by what standing on record 0 is refused by.
struct Model<'a> {
    bytes: &'a [u8],
    on: Option<Reader<'a>>,
}

impl<'a> Model<'a> {
    fn made(bytes: &'a [u8]) -> Model<'a> {
        Model {
            bytes,
            on: Reader::new(bytes, 0).ok(),
        }
    }

    fn open(&mut self, number: usize) -> u8 {
        match Reader::new(self.bytes, number) {
            Ok(reader) => {
                self.on = Some(reader);
                0
            }
            Err(refusal) => refusal.number(),
        }
    }

    fn advance(&mut self) -> u8 {
        let moved = match &mut self.on {
            Some(reader) => reader.advance(),
            None => Reader::new(self.bytes, 0).map(|_| ()),
        };
        moved.map_or_else(|refusal| refusal.number(), |()| 0)
    }

    fn told(&self) -> String {
        let Some(reader) = &self.on else {
            return " none".to_string();
        };
        let part = reader.record();
        let register = Record::read(part).unwrap().register as usize;
        assert_eq!(found_record(self.bytes, register - 1000).unwrap(), part);
        format!(" {register} as found")
    }
}

/// The k-th record: own, sent from station 0 to 1, and received at 1 from 0, in turn.
fn event(k: usize) -> Record {
    let (kind, station, peer) = match k % 3 {
        0 => (Kind::Own, 0, 255),
        1 => (Kind::Sent, 0, 1),
        _ => (Kind::Received, 1, 0),
    };
    let mut counts = [0; 8];
    counts[0] = k as u16 + 1;
    counts[1] = k as u16 + 1;
    Record {
        kind,
        station,
        peer,
        phase: k as u32 / 4,
        register: 1000 + k as u32,
        counts,
    }
}

/// An archive of n records; the header's line, with a word for each block.
fn make(n: usize) -> Vec<u8> {
    let mut header = Header::new(2, 99);
    header.allowances = [5, 5, 0, 0, 0, 0, 0, 0];
    header.limits[0][1] = 3;
    header.limits[1][0] = 2;
    let records: Vec<Record> = (0..n).map(event).collect();
    let bytes = build(&header, &records).unwrap();
    print!("header 0{}", ", block 0".repeat(bytes.len() / 512 - 1));
    bytes
}

fn visit(bytes: &[u8], x: usize, y: usize) {
    let mut reader = Model::made(bytes);
    print!("\nopen {x} and {y}; made{}", reader.told());
    for call in [Some(x), None, None, Some(y), None] {
        let refusal = match call {
            Some(number) => reader.open(number),
            None => reader.advance(),
        };
        print!("; {refusal}{}", reader.told());
    }
}

fn run(n: usize) {
    let bytes = make(n);
    print!("\nrecords {n}");
    visit(&bytes, 0, n);
    visit(&bytes, n, 0);
    visit(&bytes, LAST, n / 2);
    visit(&bytes, n / 2, LAST);
    visit(&bytes, 13, 29);
    if n >= 2 {
        visit(&bytes, n - 2, n - 1);
        visit(&bytes, n - 1, n - 2);
    }
    println!();
}

fn spoilt(bytes: &[u8], len: usize, p: usize, byte: u8) {
    let mut bytes = bytes.to_vec();
    bytes.resize(2048, 0);
    bytes[p] = byte;
    print!("\nbytes {len}, byte {p}");
    visit(&bytes[..len], 0, 1);
    visit(&bytes[..len], 14, LAST);
    println!();
}

fn main() {
    for n in [0, 1, 2, 14, 15, 16, 30, 31] {
        run(n);
    }
    let bytes = make(16);
    print!("\nall of 16");
    for k in 0..16 {
        visit(&bytes, k, 15 - k);
    }
    println!();
    for len in [0, 511, 513, 1023, 1025, 1535, 1537, 2048] {
        spoilt(&bytes, len, 0, 1);
    }
    let changes = [
        (0, 2),
        (700, 9),
        (1025, 0),
        (1025, 255),
        (1048, 0),
        (1533, 1),
        (1534, 0),
    ];
    for (p, byte) in changes {
        spoilt(&bytes, 1536, p, byte);
    }
}
