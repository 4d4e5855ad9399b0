//! The order of records of any phases: the library against the plain and the
//! careful version, on runs, on archives of no run, and on what is refused.

use std::cell::RefCell;

use comparison::{all_cases, cases, compare_archive_verdict, judged};
use melontime::raw;
use reference::archive;
use reference::between_phases::WellKept;
use reference::causality::{accepted_entries, happened_before};
use reference::check::{seal, BLOCK};
use reference::generate::{
    any_network, damaged_archive, damaged_keeping_parts, ill_kept_parts, mutated_archive,
    mutated_kept_archive, network, reorder, run_of, well_kept_parts, well_kept_records,
    ArchiveDamage, Kept, KeptDamage, NetworkWish,
};
use reference::header::Header;
use reference::network::Step;
use reference::order::Verdict;
use reference::random::Rng;
use reference::record::{Kind, Record, NO_PEER};
use reference::LAST_PHASE;

/// How often each verdict was met, 100 to 103, of one phase and of two.
#[derive(Debug, Default)]
struct Met([[u64; 4]; 2]);

impl Met {
    fn add(&mut self, first: &Record, second: &Record, answer: u64) {
        let phases = usize::from(first.phase != second.phase);
        self.0[phases][(answer - 100) as usize] += 1;
    }

    /// Each that there is between phases was met so often, in all cases together.
    fn must_be(&self, often: u64) {
        let [before, after, same, unordered] = self.0[1];
        let met = [before, after, unordered].iter().all(|&met| met >= often);
        assert!(same == 0 && (met || !all_cases()), "{self:?}");
    }
}

fn archive_of(header: &Header, records: &[Record]) -> Vec<u8> {
    archive::build(header, records).expect("an archive")
}

/// Every pair of a small archive, or so many pairs of a large one.
fn pairs_of(rng: &mut Rng, count: usize, most: usize) -> Vec<(usize, usize)> {
    match count * count <= most {
        true => (0..count * count).map(|k| (k / count, k % count)).collect(),
        false => (0..most)
            .map(|_| (rng.index(count), rng.index(count)))
            .collect(),
    }
}

/// Numbers of which one at least names no record.
fn compare_no_records(bytes: &[u8], count: u64) {
    let numbers = [count, count + 1, 1 << 32, u64::MAX];
    for number in numbers {
        assert_eq!(compare_archive_verdict(bytes, number, 0), 12);
        assert_eq!(compare_archive_verdict(bytes, 0, number), 12);
        assert_eq!(compare_archive_verdict(bytes, number, number), 12);
    }
}

/// Well-kept records, on many pairs.
fn compare_kept(rng: &mut Rng, header: &Header, records: &[Record], most: usize, met: &mut Met) {
    let bytes = archive_of(header, records);
    let kept = WellKept::of(records.to_vec()).expect("well kept");
    for (a, b) in pairs_of(rng, records.len(), most) {
        let answer = raw::archive_verdict(&bytes, a as u64, b as u64);
        let right = judged(kept.verdict(a, b));
        assert_eq!(answer, right, "records {a} and {b}");
        met.add(&records[a], &records[b], answer);
    }
    compare_no_records(&bytes, records.len() as u64);
    if !records.is_empty() {
        let (a, b) = (rng.index(records.len()), rng.index(records.len()));
        compare_archive_verdict(&bytes, a as u64, b as u64);
    }
}

/// The library's verdict on any two accepted entries of a run is happened-before.
#[test]
fn archives_of_runs() {
    let met = RefCell::new(Met::default());
    cases("between_phases::archives_of_runs", 120, |rng| {
        let wish = NetworkWish {
            small: true,
            ..NetworkWish::default()
        };
        let header = network(rng, wish);
        let length = rng.index(500);
        let run = run_of(rng, &header, length);
        let entries = accepted_entries(&run.steps, &run.outcomes);
        let steps: Vec<Step> = entries.iter().map(|entry| entry.step).collect();
        let before = happened_before(&steps);
        let records = run.records();
        let bytes = archive_of(&header, &records);
        for (a, b) in pairs_of(rng, records.len(), 3_000) {
            let right = match () {
                () if a == b => Verdict::Same,
                () if before.precedes(a, b) => Verdict::Before,
                () if before.precedes(b, a) => Verdict::After,
                () => Verdict::Unordered,
            };
            let answer = raw::archive_verdict(&bytes, a as u64, b as u64);
            assert_eq!(answer, judged(Ok(right)), "entries {a} and {b}");
            met.borrow_mut().add(&records[a], &records[b], answer);
        }
    });
    println!("archives_of_runs: {:?}", met.borrow());
    met.borrow().must_be(500);
}

/// Runs in list order and in others.
#[test]
fn permuted_archives() {
    let met = RefCell::new(Met::default());
    cases("permuted_archives", 150, |rng| {
        let header = any_network(rng);
        let length = rng.index(2_000);
        let mut records = run_of(rng, &header, length).records();
        for _ in 0..3 {
            compare_kept(rng, &header, &records, 150, &mut met.borrow_mut());
            reorder(rng, &mut records);
        }
    });
    println!("permuted_archives: {:?}", met.borrow());
    met.borrow().must_be(500);
}

/// Well-kept archives of no run, in several orders.
#[test]
fn odd_archives() {
    let met = RefCell::new(Met::default());
    cases("odd_archives", 600, |rng| {
        let (phases, most) = rng.pick(&[(4, 2), (9, 4), (40, 3), (3, 40)]);
        let (header, records) = well_kept_parts(rng, phases, most);
        compare_kept(rng, &header, &records, 200, &mut met.borrow_mut());
    });
    println!("odd_archives: {:?}", met.borrow());
    met.borrow().must_be(2_000);
}

/// Archives of many phases, and of many records in few, in several orders.
#[test]
fn large_archives() {
    let met = RefCell::new(Met::default());
    cases("between_phases::large_archives", 6, |rng| {
        let header = Header::new(rng.range(2, 8) as u8, 65_535);
        for (phases, most) in [(3_000, 3), (40, 200), (2, 4_000)] {
            let first = rng.below(2) as u32 * (LAST_PHASE + 1 - phases);
            let phases: Vec<u32> = (first..first + phases).collect();
            let mut records = well_kept_records(rng, &header, &phases, most);
            for _ in 0..2 {
                compare_kept(rng, &header, &records, 12, &mut met.borrow_mut());
                reorder(rng, &mut records);
            }
        }
    });
    println!("large_archives: {:?}", met.borrow());
    met.borrow().must_be(20);
}

/// Each way of being ill kept, whatever the two numbers; 12 is tried before.
#[test]
fn ill_kept_archives() {
    cases("between_phases::ill_kept_archives", 150, |rng| {
        for way in KeptDamage::ALL {
            let (phases, most) = rng.pick(&[(1, 3), (6, 4), (3, 40)]);
            let (header, records) = damaged_keeping_parts(rng, way, phases, most);
            let bytes = archive_of(&header, &records);
            for (a, b) in pairs_of(rng, records.len(), 6) {
                let answer = compare_archive_verdict(&bytes, a as u64, b as u64);
                assert_eq!(answer, 13, "{way:?}");
            }
            compare_no_records(&bytes, records.len() as u64);
        }
        for kept in Kept::ALL {
            let (phases, count) = (rng.pick(&[1, 3]), 1 + rng.index(60));
            let (header, records) = ill_kept_parts(rng, kept, phases, count);
            let bytes = archive_of(&header, &records);
            for (a, b) in pairs_of(rng, records.len(), 6) {
                compare_archive_verdict(&bytes, a as u64, b as u64);
            }
        }
    });
}

/// An own entry of station 0 in phase 0 with an own count.
fn own(own_count: u16) -> Record {
    Record {
        kind: Kind::Own,
        station: 0,
        peer: NO_PEER,
        phase: 0,
        register: 0,
        counts: [own_count, 0, 0, 0, 0, 0, 0, 0],
    }
}

/// As many own counts as there can be, and one of them twice or missing.
#[test]
fn every_own_count() {
    let mut rng = Rng::new(1);
    let header = Header::new(1, 65_535);
    let mut records: Vec<Record> = (1..=65_535).map(own).collect();
    for shuffled in [false, true] {
        if shuffled {
            rng.shuffle(&mut records);
        }
        let bytes = archive_of(&header, &records);
        assert!(compare_archive_verdict(&bytes, 3, 65_534) >= 100);
        for own_count in [1, 2, 32_768, 65_534, 65_535] {
            let twice = [&records[..], &[own(own_count)]].concat();
            assert_eq!(
                compare_archive_verdict(&archive_of(&header, &twice), 0, 1),
                13
            );
            let mut instead = records.clone();
            let at = instead.iter().position(|r| r.own_count() == own_count);
            instead[at.expect("it is there")] = own(own_count % 65_535 + 1);
            assert_eq!(
                compare_archive_verdict(&archive_of(&header, &instead), 0, 1),
                13
            );
        }
    }
}

#[test]
fn damaged_archives() {
    cases("between_phases::damaged_archives", 200, |rng| {
        for way in ArchiveDamage::ALL {
            let bytes = damaged_archive(rng, way, 64);
            let (a, b) = (rng.below(70), rng.below(70));
            assert_eq!(compare_archive_verdict(&bytes, a, b), 1, "{way:?}");
        }
    });
}

/// Archives with a byte changed and sealed again: each answer is met.
#[test]
fn mutated_archives() {
    let met = RefCell::new([0; 104]);
    cases("mutated_archives", 3_000, |rng| {
        let bytes = match rng.below(4) {
            0 => mutated_archive(rng, 20),
            _ => mutated_kept_archive(rng, 4, 3),
        };
        let (a, b) = (rng.below(12), rng.below(12));
        let answer = compare_archive_verdict(&bytes, a, b);
        met.borrow_mut()[answer as usize] += 1;
    });
    let met = met.borrow();
    for answer in [1, 12, 13, 100, 101, 102, 103] {
        println!("mutated_archives: {answer} {} times", met[answer]);
        assert!(met[answer] > 10 || !all_cases(), "{answer}");
    }
}

#[test]
fn each_byte_of_an_archive() {
    cases("between_phases::each_byte_of_an_archive", 2, |rng| {
        let (header, records) = loop {
            let (header, records) = well_kept_parts(rng, 4, 4);
            if (16..=30).contains(&records.len()) {
                break (header, records);
            }
        };
        let mut bytes = archive_of(&header, &records);
        let right = bytes.clone();
        for at in 0..bytes.len() {
            bytes[at] ^= rng.pick(&[1, 1, 2, 3, 128, 255]);
            let (a, b) = (rng.below(16), rng.below(16));
            assert_eq!(compare_archive_verdict(&bytes, a, b), 1, "byte {at}");
            let block = &mut bytes[at / BLOCK * BLOCK..][..BLOCK];
            seal(block.try_into().expect("a block"));
            compare_archive_verdict(&bytes, a, b);
            bytes.copy_from_slice(&right);
        }
    });
}

/// The library alone, by hand: 1, then 12, then 13.
#[test]
fn refusals_and_their_order() {
    let header = Header::new(1, 9);
    let right = archive_of(&header, &[own(1), own(2)]);
    let ill = archive_of(&header, &[own(1), own(3)]);
    assert_eq!(raw::archive_verdict(&right, 0, 1), 100);
    assert_eq!(raw::archive_verdict(&right, 1, 0), 101);
    assert_eq!(raw::archive_verdict(&right, 1, 1), 102);
    for (a, b) in [(0, 1), (1, 0), (0, 0), (1, 1)] {
        assert_eq!(raw::archive_verdict(&ill, a, b), 13);
    }
    for (a, b) in [
        (0, 2),
        (2, 0),
        (2, 2),
        (0, u64::MAX),
        (1 << 63, 0),
        (1 << 32, 1),
    ] {
        assert_eq!(raw::archive_verdict(&right, a, b), 12);
        assert_eq!(raw::archive_verdict(&ill, a, b), 12);
        for bytes in [&right, &ill] {
            assert_eq!(raw::archive_verdict(&bytes[..BLOCK], a, b), 12);
            assert_eq!(raw::archive_verdict(&bytes[..2 * BLOCK - 1], a, b), 1);
            assert_eq!(raw::archive_verdict(&bytes[BLOCK..], a, b), 1);
            assert_eq!(raw::archive_verdict(&[], a, b), 1);
        }
    }
    assert_eq!(raw::archive_verdict(&right[..BLOCK], 0, 0), 12);
    // Two records alone are answered as before.
    let (first, mut second) = (own(3).to_bytes(), own(1).to_bytes());
    assert_eq!(raw::verdict(&first, &second), 101);
    second[4] = 1;
    assert_eq!(raw::verdict(&first, &second), 10);
}
