//! Whole archives: their test, found records and unordered lists against the
//! independent implementation.

use comparison::{cases, counted, refusal};
use melontime::raw;
use reference::archive::{self, found_record, record_count};
use reference::check::seal;
use reference::generate::{
    admitted_record, any_archive, any_network, any_ranged_header, damaged_archive, ill_kept_parts,
    ill_kept_records, mutated_archive, run_of, ArchiveDamage, Kept,
};
use reference::header::Header;
use reference::random::Rng;
use reference::record::Record;

/// What a lent list holds before a call.
const UNTOUCHED: u64 = u64::MAX - 5;

/// The count of an archive by both, and whether it is one.
fn compare_test(bytes: &[u8]) -> bool {
    let expected = counted(record_count(bytes));
    assert_eq!(raw::archive_records(bytes), expected);
    expected != 1
}

/// A found record by both, into areas of several lengths.
fn compare_found(bytes: &[u8], number: u64) {
    for length in [0, 31, 32, 40] {
        let mut area = vec![0xa5; length];
        let mut expected = vec![0xa5; length];
        let answer = match found_record(bytes, number as usize) {
            Err(cause) => refusal(cause),
            Ok(_) if length < 32 => 11,
            Ok(record) => {
                expected[..32].copy_from_slice(record);
                0
            }
        };
        assert_eq!(
            raw::found_record(bytes, number, &mut area),
            answer,
            "record {number}"
        );
        assert_eq!(area, expected);
    }
}

/// An unordered list by both into places of one length: the same numbers in the
/// same order, and the places behind them left.
fn compare_list(bytes: &[u8], number: u64, right: &Result<Vec<usize>, u64>, length: usize) {
    let mut list = vec![UNTOUCHED; length];
    let answer = raw::unordered(bytes, number, &mut list);
    match right {
        Err(number) => {
            assert_eq!(answer, *number);
            assert!(list.iter().all(|&place| place == UNTOUCHED));
        }
        Ok(right) if length < right.len() => {
            assert_eq!(answer, 11);
            assert!(list.iter().all(|&place| place == UNTOUCHED));
        }
        Ok(right) => {
            assert_eq!(answer, 1000 + right.len() as u64);
            let (listed, behind) = list.split_at(right.len());
            let same = listed.iter().zip(right).all(|(&a, &b)| a == b as u64);
            assert!(same, "the list of record {number}");
            assert!(behind.iter().all(|&place| place == UNTOUCHED));
        }
    }
}

fn compare_unordered(bytes: &[u8], number: u64) {
    let right = archive::Archive::open(bytes)
        .and_then(|archive| archive.unordered(number as usize))
        .map_err(refusal);
    let count = right.as_ref().map_or(3, Vec::len);
    compare_list(bytes, number, &right, count);
    compare_list(bytes, number, &right, count + 3);
    if count > 0 {
        compare_list(bytes, number, &right, count - 1);
        compare_list(bytes, number, &right, 0);
    }
}

/// All calls on bytes that may be no archive, on some record numbers.
fn compare_calls(rng: &mut Rng, bytes: &[u8], most: usize) {
    compare_test(bytes);
    let count = record_count(bytes).unwrap_or(0) as u64;
    let mut numbers: Vec<u64> = vec![0, count, count + 1, u64::MAX, 1 << 32];
    if count <= most as u64 {
        numbers.extend(0..count);
    } else {
        numbers.extend([14, 15, 16, 29, 30, 31, count - 1]);
        numbers.extend((0..most).map(|_| rng.below(count)));
    }
    for number in numbers {
        compare_found(bytes, number);
        compare_unordered(bytes, number);
    }
}

/// A header and so many records that it admits, of few phases.
fn records_of(rng: &mut Rng, count: usize) -> (Header, Vec<Record>) {
    let header = any_ranged_header(rng);
    let mut records = Vec::with_capacity(count);
    while records.len() < count {
        records.extend(admitted_record(rng, &header));
    }
    (header, records)
}

#[test]
fn archives_of_some_sizes() {
    cases("archives_of_some_sizes", 20, |rng| {
        for count in [0, 1, 2, 14, 15, 16, 29, 30, 31, 45] {
            let (header, records) = records_of(rng, count);
            let bytes = archive::build(&header, &records).expect("an archive");
            assert!(compare_test(&bytes));
            compare_calls(rng, &bytes, 50);
            for length in [0, 1, 511, 513, bytes.len() - 1] {
                compare_calls(rng, &bytes[..length.min(bytes.len())], 5);
            }
            let long = [&bytes[..], &[0; 512]].concat();
            compare_calls(rng, &long, 5);
        }
    });
}

#[test]
fn archives_of_runs() {
    cases("archives_of_runs", 40, |rng| {
        let header = any_network(rng);
        let length = rng.index(8_000);
        let records = run_of(rng, &header, length).records();
        let bytes = archive::build(&header, &records).expect("an archive");
        assert!(compare_test(&bytes));
        compare_calls(rng, &bytes, 12);
    });
}

#[test]
fn large_archives() {
    cases("large_archives", 12, |rng| {
        let count = rng.range(2_000, 6_000) as usize;
        let (header, records) = records_of(rng, count);
        let bytes = archive::build(&header, &records).expect("an archive");
        assert!(compare_test(&bytes));
        compare_calls(rng, &bytes, 8);
    });
}

/// Lists of the first record, of the last and of some others.
fn compare_lists(rng: &mut Rng, header: &Header, records: &[Record]) {
    let bytes = archive::build(header, records).expect("an archive");
    let count = records.len() as u64;
    for number in [0, count - 1, rng.below(count), rng.below(count)] {
        compare_unordered(&bytes, number);
    }
}

/// Records in no order or a wrong one, some of them of one station with one own
/// count, of one phase and of several.
#[test]
fn ill_kept_lists() {
    cases("ill_kept_lists", 30, |rng| {
        for kept in Kept::ALL {
            for most in [40, 600, 5_000] {
                let (phases, count) = (rng.pick(&[1, 1, 3]), 1 + rng.index(most));
                let (header, records) = ill_kept_parts(rng, kept, phases, count);
                compare_lists(rng, &header, &records);
            }
        }
    });
}

#[test]
fn a_large_archive_of_falling_own_counts() {
    cases("a_large_archive_of_falling_own_counts", 1, |rng| {
        let header = Header::new(8, 65_535);
        let records = ill_kept_records(rng, &header, Kept::Falling, 1, 100_000);
        compare_lists(rng, &header, &records);
    });
}

#[test]
fn small_archives() {
    cases("small_archives", 1_000, |rng| {
        let bytes = any_archive(rng, 60);
        compare_calls(rng, &bytes, 8);
    });
}

#[test]
fn damaged_archives() {
    cases("damaged_archives", 500, |rng| {
        for way in ArchiveDamage::ALL {
            let bytes = damaged_archive(rng, way, 64);
            assert!(!compare_test(&bytes), "{way:?}");
            compare_found(&bytes, 0);
            compare_unordered(&bytes, 0);
        }
        for _ in 0..20 {
            let bytes = mutated_archive(rng, 64);
            compare_test(&bytes);
            let number = rng.below(64);
            compare_found(&bytes, number);
            compare_unordered(&bytes, number);
        }
    });
}

#[test]
fn each_byte_of_an_archive() {
    cases("each_byte_of_an_archive", 5, |rng| {
        for count in [1, 16, 40] {
            let (header, records) = records_of(rng, count);
            let mut bytes = archive::build(&header, &records).expect("an archive");
            let right = bytes.clone();
            for at in 0..bytes.len() {
                bytes[at] ^= rng.range(1, 255) as u8;
                assert!(!compare_test(&bytes), "byte {at}");
                compare_found(&bytes, 0);
                let k = at / 512;
                let block = &mut bytes[512 * k..512 * (k + 1)];
                seal(block.try_into().expect("a block"));
                compare_test(&bytes);
                compare_unordered(&bytes, 0);
                bytes.copy_from_slice(&right);
            }
        }
    });
}
