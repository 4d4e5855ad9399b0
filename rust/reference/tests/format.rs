//! The page docs/FORMAT.md: its dump, its table of checks, its starts and its
//! table of records are what this crate makes of the same header and records.

use std::fs;
use std::path::Path;

use reference::archive::{self, Archive};
use reference::between_phases::WellKept;
use reference::check::block_check;
use reference::entries::{start, MAX_RECORDS};
use reference::header::Header;
use reference::order::{compare, Verdict};
use reference::record::{Kind, Record, NO_PEER};
use reference::Counts;

fn page() -> String {
    let path = Path::new(env!("CARGO_MANIFEST_DIR")).join("../../docs/FORMAT.md");
    fs::read_to_string(&path).unwrap_or_else(|e| panic!("{}: {e}", path.display()))
}

/// The lines of the page's only fenced block of a kind.
fn fenced<'a>(page: &'a str, kind: &str) -> Vec<&'a str> {
    let opening = format!("```{kind}");
    let mut lines = page.lines().skip_while(|line| *line != opening);
    assert!(lines.next().is_some(), "there is no block {opening}");
    let block = lines.by_ref().take_while(|line| *line != "```").collect();
    assert!(!lines.any(|line| line == opening), "two blocks {opening}");
    block
}

/// The cells of the table whose first row starts with a cell.
fn table<'a>(page: &'a str, first: &str) -> Vec<Vec<&'a str>> {
    let cells = |line: &'a str| -> Vec<&'a str> {
        let inner = line.trim_matches('|');
        inner.split('|').map(str::trim).collect()
    };
    page.lines()
        .skip_while(|line| !line.starts_with(&format!("| {first} |")))
        .skip(2)
        .take_while(|line| line.starts_with('|'))
        .map(cells)
        .collect()
}

/// A number with commas between thousands.
fn number(text: &str) -> u64 {
    let digits = text.replace(',', "");
    digits
        .parse()
        .unwrap_or_else(|_| panic!("no number: {text}"))
}

fn hex_bytes(text: &str) -> Vec<u8> {
    text.split_whitespace()
        .map(|byte| {
            assert_eq!(byte.len(), 2, "no byte: {byte}");
            u8::from_str_radix(byte, 16).unwrap_or_else(|_| panic!("no byte: {byte}"))
        })
        .collect()
}

/// The bytes of a dump as `hexdump -C` writes it, without its column of text.
fn undump(lines: &[&str]) -> Vec<u8> {
    let mut bytes: Vec<u8> = Vec::new();
    let mut repeat = false;
    for line in lines {
        if *line == "*" {
            assert!(bytes.len() >= 16, "nothing to repeat");
            repeat = true;
            continue;
        }
        let (offset, row) = line.split_once("  ").unwrap_or((line, ""));
        let offset = usize::from_str_radix(offset, 16).expect("an offset");
        while repeat && bytes.len() < offset {
            bytes.extend_from_within(bytes.len() - 16..);
        }
        repeat = false;
        assert_eq!(bytes.len(), offset, "a line is missing before {line}");
        let row = hex_bytes(row);
        assert!(row.len() == 16 || row.is_empty(), "no whole line: {line}");
        bytes.extend(row);
    }
    assert_eq!(lines.last().map(|line| line.len()), Some(8), "no length");
    bytes
}

fn counts(of: &[u16]) -> Counts {
    let mut all = [0; 8];
    all[..of.len()].copy_from_slice(of);
    all
}

/// The header and the entries of the worked listing.
fn worked() -> (Header, Vec<Record>) {
    let mut header = Header::new(2, 7);
    header.allowances[..2].copy_from_slice(&[3, 3]);
    header.limits[0][1] = 2;
    header.limits[1][0] = 2;
    let record = |kind, station, peer, phase, register, of: [u16; 2]| Record {
        kind,
        station,
        peer,
        phase,
        register,
        counts: counts(&of),
    };
    let records = vec![
        record(Kind::Own, 0, NO_PEER, 0, 501, [1, 0]),
        record(Kind::Sent, 0, 1, 0, 502, [2, 0]),
        record(Kind::Received, 1, 0, 0, 502, [2, 1]),
        record(Kind::Sent, 1, 0, 1, 503, [0, 1]),
        record(Kind::Received, 0, 1, 1, 503, [1, 1]),
    ];
    (header, records)
}

#[test]
fn dump() {
    let (header, records) = worked();
    let bytes = undump(&fenced(&page(), "hexdump"));
    assert_eq!(bytes.len(), 1024);
    let made = archive::build(&header, &records).unwrap();
    for (at, (page, made)) in bytes.iter().zip(&made).enumerate() {
        assert_eq!(page, made, "byte {at}");
    }
    assert_eq!(bytes, made);
    let opened = Archive::open(&bytes).unwrap();
    assert_eq!(opened.header(), &header);
    assert_eq!(opened.count(), records.len());
    for (r, record) in records.iter().enumerate() {
        assert_eq!(&opened.record(r).unwrap(), record);
    }
}

/// One byte of the dump changed: it is no longer what is made, nor an archive.
#[test]
fn every_byte_counts() {
    let bytes = undump(&fenced(&page(), "hexdump"));
    for at in 0..bytes.len() {
        let mut changed = bytes.clone();
        changed[at] ^= 1;
        assert!(archive::test(&changed).is_err(), "byte {at}");
    }
}

#[test]
fn records_table() {
    let (_, records) = worked();
    let page = page();
    let bytes = undump(&fenced(&page, "hexdump"));
    let rows = table(&page, "record");
    assert_eq!(rows.len(), records.len());
    for (r, (row, record)) in rows.iter().zip(&records).enumerate() {
        let [at_number, start, kind, station, peer, phase, register, of] = row[..] else {
            panic!("eight cells: {row:?}");
        };
        assert_eq!(number(at_number) as usize, r);
        let start = number(start) as usize;
        assert_eq!(bytes[start..start + 32], record.to_bytes());
        assert_eq!(start, 512 * (r / 15 + 1) + 16 + 32 * (r % 15));
        let word = match record.kind {
            Kind::Own => "1 own",
            Kind::Sent => "2 sent",
            Kind::Received => "3 received",
        };
        assert_eq!(kind, word);
        assert_eq!(number(station), u64::from(record.station));
        assert_eq!(number(peer), u64::from(record.peer));
        assert_eq!(number(phase), u64::from(record.phase));
        assert_eq!(number(register), u64::from(record.register));
        let of: Vec<u16> = of.split(' ').map(|c| number(c) as u16).collect();
        assert_eq!(counts(&of), record.counts);
    }
}

/// The table of checks: `p is v` for each byte that is not zero, the sum, the
/// check and its two bytes.
#[test]
fn checks_table() {
    let rows = table(&page(), "bytes that are not zero")
        .iter()
        .map(|row| row.iter().map(|cell| cell.to_string()).collect())
        .collect::<Vec<Vec<String>>>();
    assert_eq!(rows.len(), 3);
    for row in rows {
        let mut block = [0; 510];
        if row[0] != "none" {
            for pair in row[0].split("; ") {
                let (p, value) = pair.split_once(" is ").expect("p is v");
                block[number(p) as usize] = number(value) as u8;
            }
        }
        let sum = 1
            + (1..)
                .zip(&block)
                .map(|(p, &b)| p * u64::from(b))
                .sum::<u64>();
        let (terms, total) = row[1].rsplit_once(" = ").unwrap_or(("1", &row[1]));
        let added: u64 = terms
            .split(" + ")
            .map(|term| term.split(" × ").map(number).product::<u64>())
            .sum();
        assert_eq!(added, sum);
        assert_eq!(number(total), sum);
        let check = block_check(&block);
        assert_eq!(number(&row[2]), u64::from(check));
        assert_eq!(hex_bytes(row[3].trim_matches('`')), check.to_le_bytes());
    }
    // The three cases, whatever the page says.
    assert_eq!(block_check(&[0; 510]), 1);
    let mut last = [0; 510];
    last[509] = 255;
    assert_eq!(block_check(&last), 64_530);
    let header = worked().0.to_block().unwrap();
    assert_eq!(block_check(&header), 285);
}

/// The starts of an entries block's places, as the page lists them.
#[test]
fn starts() {
    let page = page();
    let mut lists = page
        .lines()
        .filter_map(|line| line.strip_prefix("The places start at "));
    let list = lists.next().expect("a list of starts");
    assert!(lists.next().is_none(), "two lists of starts");
    let (list, _) = list.split_once(':').expect("a colon behind the list");
    let listed: Vec<usize> = list
        .replace(" and ", ", ")
        .split(", ")
        .map(|at| number(at) as usize)
        .collect();
    let made: Vec<usize> = (0..MAX_RECORDS).map(start).collect();
    assert_eq!(listed, made);
}

/// The verdicts that the page names.
#[test]
fn verdicts() {
    let (_, records) = worked();
    let of = |a: usize, b: usize| compare(&records[a].counts, &records[b].counts);
    for (a, b) in [(0, 1), (1, 2), (3, 4)] {
        assert_eq!(records[a].phase, records[b].phase);
        assert_eq!(of(a, b), Verdict::Before);
    }
    assert_ne!(records[2].phase, records[3].phase);
    let verdict = |a: [u16; 2], b: [u16; 2]| compare(&counts(&a), &counts(&b));
    assert_eq!(verdict([1, 0], [2, 1]), Verdict::Before);
    assert_eq!(verdict([0, 1], [1, 0]), Verdict::Unordered);
    assert_eq!(verdict([2, 0], [2, 1]), Verdict::Before);
    assert_eq!(verdict([1, 1], [0, 1]), Verdict::After);
}

/// Of the page's archive, and of its example with three stations.
#[test]
fn verdicts_between_phases() {
    let kept = WellKept::of(worked().1).expect("it is well kept");
    for (first, second) in [(0, 3), (0, 4), (1, 3), (1, 4), (2, 3), (2, 4)] {
        assert_eq!(kept.verdict(first, second), Ok(Verdict::Before));
    }
    let event = |station, phase, of: [u16; 3]| Record {
        kind: Kind::Own,
        station,
        peer: NO_PEER,
        phase,
        register: 0,
        counts: counts(&of),
    };
    let events = vec![
        event(0, 0, [1, 0, 0]),
        event(1, 0, [1, 1, 0]),
        event(0, 0, [2, 0, 0]),
        event(1, 1, [0, 1, 0]),
        event(2, 1, [0, 1, 1]),
        event(2, 2, [0, 0, 1]),
    ];
    let kept = WellKept::of(events).expect("they are well kept");
    assert_eq!(kept.verdict(0, 5), Ok(Verdict::Before));
    assert_eq!(kept.verdict(2, 5), Ok(Verdict::Unordered));
}
