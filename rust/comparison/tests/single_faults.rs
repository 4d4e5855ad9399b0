//! Archives in which one thing alone is wrong, by the library and by the
//! independent implementation: each is refused with 1, and is an archive where
//! that one thing is put right.

use comparison::{counted, refusal};
use melontime::raw;
use reference::archive::{self, build_untested};
use reference::entries::{block_untested, MAX_RECORDS};
use reference::header::Header;
use reference::record::{Kind, Record, NO_PEER, RECORD};
use reference::LAST_PHASE;

/// What both answer to the count, to a found record and to an unordered list.
fn counted_by_both(bytes: &[u8]) -> u64 {
    let answer = counted(archive::record_count(bytes));
    assert_eq!(raw::archive_records(bytes), answer);
    let found = archive::found_record(bytes, 0).map_or_else(refusal, |_| 0);
    assert_eq!(raw::found_record(bytes, 0, &mut [0; RECORD]), found);
    let (mut right, mut list) = ([64; 64], [64; 64]);
    let listed = counted(archive::unordered_list(bytes, 0, &mut right));
    assert_eq!(raw::unordered(bytes, 0, &mut list), listed);
    assert_eq!(list, right.map(|place| place as u64));
    answer
}

/// An entry of station 0 that every header admits.
fn plain() -> Record {
    Record {
        kind: Kind::Own,
        station: 0,
        peer: NO_PEER,
        phase: 0,
        register: 0,
        counts: [1, 0, 0, 0, 0, 0, 0, 0],
    }
}

/// A record of a station and a peer, its own count 1 and the others 0.
fn named(kind: Kind, station: usize, peer: u8) -> Record {
    let mut record = plain();
    record.kind = kind;
    record.station = station as u8;
    record.peer = peer;
    record.counts = std::array::from_fn(|k| u16::from(k == station));
    record
}

/// The record alone, and among others at the ends of blocks.
fn archives_with(header: &Header, record: Record) -> Vec<Vec<u8>> {
    let mut archives = vec![build_untested(header, &[record.to_bytes()])];
    for at in [0, 14, 15, 29, 30] {
        let mut records = [plain().to_bytes(); 31];
        records[at] = record.to_bytes();
        archives.push(build_untested(header, &records));
    }
    archives
}

fn refused(header: &Header, record: Record) {
    for bytes in archives_with(header, record) {
        assert_eq!(counted_by_both(&bytes), 1, "{header:?} {record:?}");
    }
}

fn accepted(header: &Header, record: Record) {
    for bytes in archives_with(header, record) {
        assert!(counted_by_both(&bytes) > 1000, "{header:?} {record:?}");
    }
}

fn of_stations(n: usize) -> Header {
    Header::new(n as u8, 7)
}

/// The same header with more or fewer stations.
fn with_stations(header: &Header, n: usize) -> Header {
    let mut header = *header;
    header.stations = n as u8;
    header
}

#[test]
fn a_count_above_0_for_a_station_that_the_header_lacks() {
    for n in 1..8 {
        for k in n..8 {
            for count in [1, 7] {
                let mut record = plain();
                record.counts[k] = count;
                refused(&of_stations(n), record);
                refused(&of_stations(k), record);
                accepted(&of_stations(k + 1), record);
            }
        }
    }
}

/// The limit is set one way or both, and the record is of the kind that uses it.
#[test]
fn a_peer_that_the_header_lacks_though_its_limit_is_set() {
    for n in 1..8 {
        for (station, peer) in (0..n).flat_map(|i| (n..8).map(move |j| (i, j))) {
            let linked = |there, back| {
                let mut header = of_stations(n);
                header.limits[station][peer] = there;
                header.limits[peer][station] = back;
                header
            };
            let cases = [
                (linked(1, 0), Kind::Sent),
                (linked(0, 1), Kind::Received),
                (linked(1, 1), Kind::Sent),
                (linked(1, 1), Kind::Received),
            ];
            for (header, kind) in cases {
                let record = named(kind, station, peer as u8);
                refused(&header, record);
                refused(&with_stations(&header, peer), record);
                accepted(&with_stations(&header, peer + 1), record);
            }
        }
    }
}

/// Only setup tests the network rules.
#[test]
fn a_limit_that_is_set_for_a_station_that_the_header_lacks_is_no_fault() {
    for n in 1..8 {
        for peer in n..8 {
            let mut header = of_stations(n);
            header.limits[0][peer] = 1;
            header.limits[peer][0] = 1;
            header.allowances[peer] = 1;
            accepted(&header, plain());
            let block = header.to_block().expect("a header");
            assert_eq!(refusal(header.accept().expect_err("a rule")), 3);
            assert_eq!(raw::setup(&block, &mut vec![7; 65_536]), 3);
        }
    }
}

#[test]
fn a_link_that_the_header_has_the_other_way_only() {
    for (i, j) in (0..8).flat_map(|i| (0..8).map(move |j| (i, j))) {
        if i == j {
            continue;
        }
        let mut header = of_stations(8);
        header.limits[i][j] = 32;
        accepted(&header, named(Kind::Sent, i, j as u8));
        refused(&header, named(Kind::Received, i, j as u8));
        accepted(&header, named(Kind::Received, j, i as u8));
        refused(&header, named(Kind::Sent, j, i as u8));
    }
}

#[test]
fn a_count_above_the_ceiling() {
    for t in [1, 2, 255, 256, 65_534] {
        for k in 0..8 {
            let mut record = plain();
            record.counts[k] = t;
            accepted(&Header::new(8, t), record);
            record.counts[k] = t + 1;
            refused(&Header::new(8, t), record);
            accepted(&Header::new(8, t + 1), record);
        }
    }
}

#[test]
fn an_own_count_of_0() {
    for station in 0..8 {
        let mut record = named(Kind::Own, station, NO_PEER);
        accepted(&of_stations(8), record);
        record.counts = std::array::from_fn(|k| u16::from(k != station));
        refused(&of_stations(8), record);
    }
}

#[test]
fn a_phase_above_the_last() {
    let mut record = plain();
    record.phase = LAST_PHASE;
    accepted(&of_stations(1), record);
    for phase in [1_000_000, 1 << 20, 1 << 31, u32::MAX] {
        record.phase = phase;
        refused(&of_stations(1), record);
    }
}

/// Blocks of these numbers and counts of records.
fn of_blocks(blocks: &[(u32, usize)]) -> Vec<u8> {
    let mut bytes = of_stations(1).to_block().expect("a header").to_vec();
    for &(number, count) in blocks {
        bytes.extend(block_untested(number, &plain().to_bytes().repeat(count)));
    }
    bytes
}

#[test]
fn block_numbers() {
    for last in [1, MAX_RECORDS] {
        for right in [1, 2, 3_u32] {
            let blocks = |number| {
                let mut blocks: Vec<_> = (1..right).map(|k| (k, MAX_RECORDS)).collect();
                blocks.push((number, last));
                of_blocks(&blocks)
            };
            assert!(counted_by_both(&blocks(right)) > 1000);
            let wrong = [0, right - 1, right + 1, right + 256, right + (1 << 24)];
            for number in wrong {
                assert_eq!(counted_by_both(&blocks(number)), 1, "{right} {number}");
            }
        }
    }
    let skipped = [(1, MAX_RECORDS), (3, MAX_RECORDS), (4, 1)];
    assert_eq!(counted_by_both(&of_blocks(&skipped)), 1);
}

#[test]
fn a_block_before_the_last_that_is_not_full() {
    let blocks = |count| of_blocks(&[(1, MAX_RECORDS), (2, count), (3, MAX_RECORDS)]);
    assert_eq!(counted_by_both(&blocks(MAX_RECORDS)), 1045);
    for count in 1..MAX_RECORDS {
        assert_eq!(counted_by_both(&blocks(count)), 1);
    }
}
