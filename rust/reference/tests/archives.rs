//! Verdicts and archives: 'Archive blocks' of document 01.

use reference::archive::{self, Archive, Reader};
use reference::check::{seal, BLOCK};
use reference::generate::{self, ArchiveDamage, Kept};
use reference::header::Header;
use reference::order::{compare, less, verdict, Verdict};
use reference::random::Rng;
use reference::record::{Kind, Record, NO_PEER};
use reference::refusal::Refusal;

fn number<T>(answer: Result<T, Refusal>) -> u8 {
    answer.err().map_or(0, Refusal::number)
}

fn own(station: u8, phase: u32, counts: &[u16]) -> Record {
    let mut all = [0; 8];
    all[..counts.len()].copy_from_slice(counts);
    Record {
        kind: Kind::Own,
        station,
        peer: NO_PEER,
        phase,
        register: 0,
        counts: all,
    }
}

/// A network of two stations with ceiling 7.
fn two() -> Header {
    let mut header = Header::new(2, 7);
    header.allowances = [3, 3, 0, 0, 0, 0, 0, 0];
    header.limits[0][1] = 2;
    header.limits[1][0] = 2;
    header
}

/// The two verdicts that the document marks (M), and the others.
#[test]
fn verdicts() {
    let of = |a: &[u16], b: &[u16]| {
        let (x, y) = (
            own(a.iter().position(|&c| c > 0).unwrap() as u8, 0, a),
            own(0, 0, b),
        );
        verdict(&x.to_bytes(), &y.to_bytes())
    };
    assert_eq!(of(&[1, 0], &[2, 1]), Ok(Verdict::Before));
    assert_eq!(of(&[0, 1], &[1, 0]), Ok(Verdict::Unordered));
    assert_eq!(of(&[2, 1], &[1, 0]), Ok(Verdict::After));
    assert_eq!(of(&[2, 1], &[2, 1]), Ok(Verdict::Same));
    assert_eq!(of(&[2, 1], &[2, 0]), Ok(Verdict::After));
    assert_eq!(of(&[2, 1], &[3, 0]), Ok(Verdict::Unordered));
    // Every place counts.
    for k in 1..8 {
        let mut more = [1; 8];
        more[k] = 2;
        assert_eq!(of(&[1; 8], &more), Ok(Verdict::Before));
        assert_eq!(of(&more, &[1; 8]), Ok(Verdict::After));
    }
}

/// Verdicts: 1, then 10.
#[test]
fn verdict_refusals() {
    let a = own(0, 1, &[1]).to_bytes();
    let b = own(0, 2, &[1]).to_bytes();
    let mut ill = b;
    ill[3] = 1;
    assert_eq!(number(verdict(&a, &b)), 10);
    assert_eq!(number(verdict(&b, &a)), 10);
    assert_eq!(number(verdict(&a, &a)), 0);
    for wrong in [&ill[..], &a[..31], &[], &[0; 32], &a.repeat(2)] {
        assert_eq!(number(verdict(&a, wrong)), 1);
        assert_eq!(number(verdict(wrong, &b)), 1);
        assert_eq!(number(verdict(wrong, wrong)), 1);
    }
}

/// The verdict is a mirror image when its records are exchanged.
#[test]
fn verdict_mirror() {
    let mut rng = Rng::new(10);
    for _ in 0..20_000 {
        let (a, b) = (
            generate::any_record(&mut rng).counts,
            generate::any_record(&mut rng).counts,
        );
        let mirrored = match compare(&b, &a) {
            Verdict::Before => Verdict::After,
            Verdict::After => Verdict::Before,
            other => other,
        };
        assert_eq!(compare(&a, &b), mirrored);
        assert_eq!(compare(&a, &b) == Verdict::Same, a == b);
        assert_eq!(compare(&a, &b) == Verdict::Before, less(&a, &b));
        assert!(!less(&a, &a));
    }
}

#[test]
fn no_bytes_and_a_header_alone() {
    assert_eq!(number(archive::test(&[])), 1);
    assert_eq!(number(archive::found_record(&[], 0)), 1);
    let alone = two().to_block().unwrap();
    assert_eq!(archive::record_count(&alone), Ok(0));
    assert_eq!(number(archive::found_record(&alone, 0)), 12);
    assert_eq!(number(archive::unordered_list(&alone, 0, &mut [])), 12);
    assert_eq!(number(archive::verdict_by_number(&alone, 0, 0)), 12);
    assert_eq!(number(Reader::new(&alone, 0)), 12);
}

/// Only setup tests the network rules: an archive's header may break them.
#[test]
fn ill_ruled_header() {
    let mut header = Header::new(3, 7);
    header.limits[0][1] = 1;
    header.limits[5][5] = 9;
    header.allowances[7] = 1;
    let sent = Record {
        kind: Kind::Sent,
        peer: 1,
        ..own(0, 0, &[1])
    };
    let received = Record {
        kind: Kind::Received,
        peer: 0,
        ..own(1, 0, &[1, 1])
    };
    assert_eq!(
        number(archive::build(
            &header,
            &[sent, received, own(2, 0, &[0, 0, 7])]
        )),
        0
    );
    // The link is one way only.
    let sent_back = Record {
        kind: Kind::Sent,
        peer: 0,
        ..own(1, 0, &[0, 1])
    };
    let received_back = Record {
        kind: Kind::Received,
        peer: 1,
        ..own(0, 0, &[1])
    };
    assert_eq!(number(archive::build(&header, &[sent_back])), 1);
    assert_eq!(number(archive::build(&header, &[received_back])), 1);
    // A peer that is n or above is wrong, even where a limit is set there.
    header.limits[0][4] = 1;
    header.limits[4][0] = 1;
    let beyond = Record { peer: 4, ..sent };
    assert_eq!(number(archive::build(&header, &[beyond])), 1);
    let beyond = Record {
        kind: Kind::Received,
        ..beyond
    };
    assert_eq!(number(archive::build(&header, &[beyond])), 1);
}

#[test]
fn counts_of_records() {
    let header = two();
    for (counts, fits) in [
        (&[7, 7][..], true),
        (&[7, 0], true),
        (&[8, 0], false),
        (&[1, 8], false),
        (&[1, 0, 1], false),
        (&[1, 0, 0, 0, 0, 0, 0, 1], false),
    ] {
        let answer = archive::build(&header, &[own(0, 0, counts)]);
        assert_eq!(answer.is_ok(), fits, "{counts:?}");
    }
    assert_eq!(number(archive::build(&header, &[own(2, 0, &[0, 0, 1])])), 1);
}

#[test]
fn unordered_lists() {
    let header = two();
    let records = [
        own(0, 0, &[1, 0]),
        own(1, 0, &[0, 1]),
        own(0, 1, &[1, 0]),
        own(1, 0, &[0, 2]),
        own(1, 0, &[1, 3]),
        own(0, 0, &[1, 0]),
    ];
    let bytes = archive::build(&header, &records).unwrap();
    let list = |r: usize| {
        let mut places = [99; 10];
        let count = archive::unordered_list(&bytes, r, &mut places).unwrap();
        assert!(places[count..].iter().all(|&p| p == 99));
        places[..count].to_vec()
    };
    assert_eq!(list(0), [1, 3]);
    assert_eq!(list(1), [0, 5]);
    assert_eq!(list(2), [0; 0]);
    assert_eq!(list(3), [0, 5]);
    assert_eq!(list(4), [0; 0]);
    assert_eq!(list(5), [1, 3]);
    // 1, 12, 11.
    let mut broken = bytes.clone();
    broken[600] ^= 1;
    for places in 0..3 {
        let mut area = vec![7; places];
        assert_eq!(number(archive::unordered_list(&broken, 9, &mut area)), 1);
        assert_eq!(number(archive::unordered_list(&bytes, 6, &mut area)), 12);
        let small = places < 2;
        assert_eq!(
            number(archive::unordered_list(&bytes, 0, &mut area)),
            if small { 11 } else { 0 }
        );
        if small {
            assert_eq!(area, vec![7; places]);
        }
        assert_eq!(archive::unordered_list(&bytes, 2, &mut area), Ok(0));
    }
    assert_eq!(
        archive::verdict_by_number(&bytes, 0, 4),
        Ok(Verdict::Before)
    );
    assert_eq!(archive::verdict_by_number(&bytes, 0, 5), Ok(Verdict::Same));
    assert_eq!(number(archive::verdict_by_number(&bytes, 0, 2)), 10);
    assert_eq!(number(archive::verdict_by_number(&bytes, 2, 6)), 12);
    assert_eq!(number(archive::verdict_by_number(&bytes, 6, 2)), 12);
    assert_eq!(number(archive::verdict_by_number(&broken, 6, 2)), 1);
}

/// The list of a record that is put behind these, of stations and counts. It is
/// of station 7, of which they know nothing, so it is unordered with all.
fn list_of(records: &[(u8, &[u16])]) -> Vec<usize> {
    let mut records: Vec<Record> = records
        .iter()
        .map(|&(station, counts)| own(station, 0, counts))
        .collect();
    records.push(own(7, 0, &[0, 0, 0, 0, 0, 0, 0, 1]));
    let bytes = archive::build(&Header::new(8, 65_535), &records).unwrap();
    let list = Archive::open(&bytes).unwrap().unordered(records.len() - 1);
    assert_eq!(list.as_ref().map(Vec::len), Ok(records.len() - 1));
    list.unwrap()
}

/// Lists by station, then own count, then number, worked by hand.
#[test]
fn order_of_lists() {
    // Stations in turn.
    let turns: [(u8, &[u16]); 5] = [
        (1, &[0, 1]),
        (0, &[1]),
        (1, &[0, 2]),
        (0, &[2]),
        (1, &[0, 3]),
    ];
    assert_eq!(list_of(&turns), [1, 3, 0, 2, 4]);
    // From the last station to the first.
    let stations: [(u8, &[u16]); 3] = [(6, &[0, 0, 0, 0, 0, 0, 1]), (3, &[0, 0, 0, 1]), (0, &[1])];
    assert_eq!(list_of(&stations), [2, 1, 0]);
    // Own counts fall.
    assert_eq!(list_of(&[(0, &[3]), (0, &[2]), (0, &[1])]), [2, 1, 0]);
    assert_eq!(list_of(&[(0, &[2]), (0, &[3]), (0, &[1])]), [2, 0, 1]);
    // Equal pairs, by number, whatever the other counts are.
    let pairs: [(u8, &[u16]); 6] = [
        (0, &[2, 9]),
        (0, &[1, 0]),
        (0, &[2, 0]),
        (0, &[1, 3]),
        (0, &[2, 5]),
        (0, &[1, 1]),
    ];
    assert_eq!(list_of(&pairs), [1, 3, 5, 0, 2, 4]);
    // A lower station comes first though its own count is higher.
    assert_eq!(list_of(&[(1, &[0, 1]), (0, &[5])]), [1, 0]);
    // By own count first this would be 0, 2, 1, and 2, 0, 1.
    assert_eq!(list_of(&[(0, &[1]), (0, &[3]), (1, &[0, 2])]), [0, 1, 2]);
    assert_eq!(list_of(&[(0, &[2]), (0, &[3]), (1, &[0, 1])]), [0, 1, 2]);
    // The own count is the count of the record's station, and no other.
    assert_eq!(list_of(&[(1, &[5, 1, 9]), (1, &[4, 2, 8])]), [0, 1]);
    assert_eq!(list_of(&[(1, &[4, 2, 8]), (1, &[5, 1, 9])]), [1, 0]);
    // Counts are numbers, of two bytes.
    let wide: [(u8, &[u16]); 5] = [
        (2, &[0, 0, 65_535]),
        (2, &[0, 0, 256]),
        (2, &[0, 0, 32_768]),
        (2, &[0, 0, 255]),
        (2, &[0, 0, 1]),
    ];
    assert_eq!(list_of(&wide), [4, 3, 1, 2, 0]);
}

/// A list once more, by its definition: each station, each own count that there
/// is and each number, all rising.
fn listed(records: &[Record], r: usize) -> Vec<usize> {
    let mut list = Vec::new();
    for station in 0..8 {
        let mut occurs = vec![false; 65_536];
        for record in records.iter().filter(|record| record.station == station) {
            occurs[usize::from(record.counts[usize::from(station)])] = true;
        }
        for own in (0..=65_535).filter(|&own| occurs[usize::from(own)]) {
            for (k, record) in records.iter().enumerate() {
                let verdict = verdict(&records[r].to_bytes(), &record.to_bytes());
                if record.station == station
                    && record.counts[usize::from(station)] == own
                    && verdict == Ok(Verdict::Unordered)
                {
                    list.push(k);
                }
            }
        }
    }
    list
}

/// How often two records that follow each other in a list are equal pairs, and
/// how often their numbers fall, at one station and from one to the next.
#[derive(Debug, Default)]
struct Seen {
    equal: usize,
    falling: usize,
    stations: usize,
}

impl Seen {
    fn add(&mut self, records: &[Record], list: &[usize]) {
        for pair in list.windows(2) {
            let (a, b) = (&records[pair[0]], &records[pair[1]]);
            let fall = usize::from(pair[0] > pair[1]);
            if a.station == b.station {
                self.falling += fall;
            } else {
                self.stations += fall;
            }
            self.equal += usize::from((a.station, a.own_count()) == (b.station, b.own_count()));
        }
    }
}

#[test]
fn ill_kept_archives() {
    let seed = 14;
    println!("seed {seed}");
    let mut rng = Rng::new(seed);
    for kept in Kept::ALL {
        let mut seen = Seen::default();
        for _ in 0..150 {
            let (phases, count) = (rng.range(1, 3) as u32, 1 + rng.index(70));
            let (header, records) = generate::ill_kept_parts(&mut rng, kept, phases, count);
            let bytes = archive::build(&header, &records).unwrap();
            let opened = Archive::open(&bytes).unwrap();
            for _ in 0..3 {
                let r = rng.index(count);
                let list = opened.unordered(r).unwrap();
                assert_eq!(list, listed(&records, r), "{kept:?}");
                let mut places = vec![usize::MAX; list.len() + 3];
                let answer = archive::unordered_list(&bytes, r, &mut places);
                assert_eq!(answer, Ok(list.len()));
                assert_eq!(places[..list.len()], list);
                assert_eq!(places[list.len()..], [usize::MAX; 3]);
                seen.add(&records, &list);
            }
        }
        println!("{kept:?}: {seen:?}");
        assert!(seen.equal > 500 && seen.stations > 100);
        assert_eq!(seen.falling > 1_000, kept != Kept::Rising);
    }
}

#[test]
fn random_archives() {
    let seed = 11;
    println!("seed {seed}");
    let mut rng = Rng::new(seed);
    for _ in 0..600 {
        let (header, records) = generate::any_archive_parts(&mut rng, 70);
        let bytes = archive::build(&header, &records).unwrap();
        let opened = Archive::open(&bytes).unwrap();
        assert_eq!(*opened.header(), header);
        assert_eq!(opened.count(), records.len());
        assert_eq!(bytes.len(), 512 * (1 + records.len().div_ceil(15)));
        for (r, record) in records.iter().enumerate() {
            assert_eq!(opened.bytes_of(r).unwrap(), record.to_bytes());
        }
        if let Ok(mut reader) = Reader::new(&bytes, 0) {
            for (r, record) in records.iter().enumerate() {
                assert_eq!(
                    (reader.number(), reader.record()),
                    (r, &record.to_bytes()[..])
                );
                let moved = number(reader.advance());
                assert_eq!(moved, if r + 1 == records.len() { 12 } else { 0 });
            }
            assert_eq!(reader.number(), records.len() - 1);
        }
        for r in [records.len(), records.len() + 1, usize::MAX] {
            assert_eq!(number(archive::found_record(&bytes, r)), 12);
            assert_eq!(number(Reader::new(&bytes, r)), 12);
        }
        if records.is_empty() {
            continue;
        }
        let (a, b) = (rng.index(records.len()), rng.index(records.len()));
        let list = opened.unordered(a).unwrap();
        assert_eq!(list, listed(&records, a));
        let direct = archive::verdict_by_number(&bytes, a, b);
        assert_eq!(
            direct,
            verdict(&records[a].to_bytes(), &records[b].to_bytes())
        );
        assert_eq!(list.contains(&b), direct == Ok(Verdict::Unordered));
        assert_eq!(opened.unordered(b).unwrap().contains(&a), list.contains(&b));
        // Exactly as many places as records are enough.
        let mut places = vec![0; list.len()];
        assert_eq!(
            archive::unordered_list(&bytes, a, &mut places),
            Ok(list.len())
        );
        if let Some(fewer) = list.len().checked_sub(1) {
            let mut places = vec![usize::MAX; fewer];
            assert_eq!(number(archive::unordered_list(&bytes, a, &mut places)), 11);
            assert!(places.iter().all(|&place| place == usize::MAX));
        }
    }
}

#[test]
fn damaged_archives() {
    let seed = 12;
    println!("seed {seed}");
    let mut rng = Rng::new(seed);
    for way in ArchiveDamage::ALL {
        for _ in 0..60 {
            let bytes = generate::damaged_archive(&mut rng, way, 50);
            assert_eq!(number(archive::test(&bytes)), 1, "{way:?}");
            assert_eq!(number(archive::record_count(&bytes)), 1, "{way:?}");
            assert_eq!(number(archive::found_record(&bytes, 0)), 1, "{way:?}");
            assert_eq!(
                number(archive::unordered_list(&bytes, 0, &mut [])),
                1,
                "{way:?}"
            );
            assert_eq!(
                number(archive::verdict_by_number(&bytes, 0, 0)),
                1,
                "{way:?}"
            );
            assert_eq!(number(Reader::new(&bytes, 0)), 1, "{way:?}");
        }
    }
}

/// Changed archives are met on both sides of the test, and never panic.
#[test]
fn mutated_archives() {
    let seed = 13;
    println!("seed {seed}");
    let mut rng = Rng::new(seed);
    let mut accepted = 0;
    let total = 3000;
    for _ in 0..total {
        let bytes = generate::mutated_archive(&mut rng, 40);
        if let Ok(opened) = Archive::open(&bytes) {
            accepted += 1;
            for r in 0..opened.count() {
                opened.unordered(r).unwrap();
            }
        }
    }
    assert!(
        accepted > total / 20 && accepted < total * 19 / 20,
        "{accepted} of {total}"
    );
}

/// Fifteen records fill a block; a full last block needs no empty one after.
#[test]
fn block_counts() {
    let header = two();
    for count in [14, 15, 16, 29, 30, 31] {
        let records = vec![own(0, 0, &[1]); count];
        let bytes = archive::build(&header, &records).unwrap();
        assert_eq!(archive::record_count(&bytes), Ok(count));
        // The last block cut off is an archive too, of fewer records.
        let cut = &bytes[..bytes.len() - BLOCK];
        assert_eq!(archive::record_count(cut), Ok((count - 1) / 15 * 15));
        // A block taken out of the middle is not.
        if bytes.len() > 2 * BLOCK {
            let gap = [&bytes[..BLOCK], &bytes[2 * BLOCK..]].concat();
            assert_eq!(number(archive::test(&gap)), 1);
        }
        // Numbers must start from 1 and go on.
        let mut renumbered = bytes.clone();
        renumbered[BLOCK + 4] = 2;
        let block: &mut [u8; BLOCK] = (&mut renumbered[BLOCK..2 * BLOCK]).try_into().unwrap();
        seal(block);
        assert_eq!(number(archive::test(&renumbered)), 1);
    }
}
