//! The order of records of any phases in both ways: plain, and with care for time.

use reference::archive;
use reference::between_phases::{verdict, WellKept};
use reference::generate::{self, ArchiveDamage, KeptDamage};
use reference::header::Header;
use reference::in_place::between_phases as placed;
use reference::order::Verdict;
use reference::random::Rng;
use reference::record::{Kind, Record, NO_PEER};
use reference::refusal::Refusal;

/// A verdict in both ways.
fn both(bytes: &[u8], first: usize, second: usize) -> Result<Verdict, Refusal> {
    let plain = verdict(bytes, first, second);
    let placed = placed::verdict(bytes, first, second);
    assert_eq!(placed, plain, "records {first} and {second}");
    plain
}

/// Every pair of a small archive in both ways, or many pairs of a large one.
/// Answers how often each verdict was met between two phases.
fn both_on_pairs(rng: &mut Rng, header: &Header, records: &[Record]) -> [usize; 4] {
    let bytes = archive::build(header, records).expect("an archive");
    let kept = WellKept::of(records.to_vec()).expect("well kept");
    let count = records.len();
    let mut pairs: Vec<(usize, usize)> = match count <= 24 {
        true => (0..count * count).map(|k| (k / count, k % count)).collect(),
        false => (0..400)
            .map(|_| (rng.index(count), rng.index(count)))
            .collect(),
    };
    let mut met = [0; 4];
    for (a, b) in pairs.drain(..) {
        let plain = kept.verdict(a, b).expect("records");
        assert_eq!(
            placed::verdict(&bytes, a, b),
            Ok(plain),
            "records {a} and {b}"
        );
        met[plain as usize] += usize::from(records[a].phase != records[b].phase);
    }
    for (a, b) in [
        (0, count),
        (count, 0),
        (count, count),
        (0, usize::MAX),
        (1 << 32, 0),
    ] {
        assert_eq!(both(&bytes, a, b), Err(Refusal::NoSuchRecord));
    }
    met
}

fn add(tally: &mut [usize; 4], met: [usize; 4]) {
    for (all, met) in tally.iter_mut().zip(met) {
        *all += met;
    }
}

/// Of runs in list order one pass does; in other orders the records are sorted.
#[test]
fn runs_in_both_ways() {
    let mut rng = Rng::new(31);
    let (mut in_order, mut in_none) = ([0; 4], [0; 4]);
    for _ in 0..250 {
        let header = generate::any_network(&mut rng);
        let length = rng.index(1_500);
        let mut records = generate::run_of(&mut rng, &header, length).records();
        add(&mut in_order, both_on_pairs(&mut rng, &header, &records));
        generate::reorder(&mut rng, &mut records);
        add(&mut in_none, both_on_pairs(&mut rng, &header, &records));
    }
    println!("runs_in_both_ways: {in_order:?}, in other orders {in_none:?}");
    for [before, after, _, unordered] in [in_order, in_none] {
        assert!([before, after, unordered].iter().all(|&met| met > 500));
    }
}

#[test]
fn odd_archives_in_both_ways() {
    let mut rng = Rng::new(32);
    let mut tally = [0; 4];
    for _ in 0..1_000 {
        let (phases, most) = rng.pick(&[(4, 2), (9, 4), (40, 3), (3, 40)]);
        let (header, records) = generate::well_kept_parts(&mut rng, phases, most);
        add(&mut tally, both_on_pairs(&mut rng, &header, &records));
    }
    println!("odd_archives_in_both_ways: {tally:?}");
    let [before, after, _, unordered] = tally;
    assert!([before, after, unordered].iter().all(|&met| met > 5_000));
}

/// Each station in turn learns of the next one, a phase later each time. Where the
/// archive holds one station after the other, from the last that learns to the
/// first, a pass finds no more than one of them.
#[test]
fn a_chain_against_the_order_of_records() {
    let own = |phase: u32, station: usize, knows: Option<usize>| {
        let mut counts = [0; 8];
        counts[station] = 1;
        if let Some(other) = knows {
            counts[other] = 1;
        }
        Record {
            kind: Kind::Own,
            station: station as u8,
            peer: NO_PEER,
            phase,
            register: 0,
            counts,
        }
    };
    let mut chain = vec![own(0, 7, None)];
    chain.extend((0..7).rev().map(|k| own(7 - k as u32, k, Some(k + 1))));
    chain.push(own(9, 0, None));
    let header = Header::new(8, 7);
    let mut rng = Rng::new(33);
    for missing in 0..chain.len() {
        let mut records = chain.clone();
        // Nobody knows one of them, or of the ends all know.
        let known = records[missing].counts;
        records[missing].counts = own(0, records[missing].station.into(), None).counts;
        let whole = known == records[missing].counts;
        records.sort_by_key(|record| record.station);
        let at = |phase| records.iter().position(|r| r.phase == phase).expect("one");
        let bytes = archive::build(&header, &records).expect("an archive");
        let right = if whole {
            Verdict::Before
        } else {
            Verdict::Unordered
        };
        assert_eq!(both(&bytes, at(0), at(9)), Ok(right));
        for _ in 0..20 {
            both_on_pairs(&mut rng, &header, &records);
            generate::reorder(&mut rng, &mut records);
        }
    }
}

#[test]
fn ill_kept_archives_in_both_ways() {
    let mut rng = Rng::new(34);
    for way in KeptDamage::ALL {
        for _ in 0..300 {
            let (phases, most) = rng.pick(&[(1, 3), (6, 4), (3, 40)]);
            let (header, records) = generate::damaged_keeping_parts(&mut rng, way, phases, most);
            let bytes = archive::build(&header, &records).expect("an archive");
            let count = records.len();
            let (a, b) = (rng.index(count), rng.index(count));
            assert_eq!(both(&bytes, a, b), Err(Refusal::IllKept), "{way:?}");
            assert_eq!(
                both(&bytes, a, count),
                Err(Refusal::NoSuchRecord),
                "{way:?}"
            );
            assert_eq!(
                both(&bytes, count, b),
                Err(Refusal::NoSuchRecord),
                "{way:?}"
            );
        }
    }
}

/// Bytes that are no archive, and bytes that may be one.
#[test]
fn damaged_archives_in_both_ways() {
    let mut rng = Rng::new(35);
    for way in ArchiveDamage::ALL {
        for _ in 0..100 {
            let bytes = generate::damaged_archive(&mut rng, way, 50);
            let (a, b) = (rng.index(60), rng.index(60));
            assert_eq!(both(&bytes, a, b), Err(Refusal::Malformed), "{way:?}");
        }
    }
    let mut answers = [0; 14];
    for _ in 0..6_000 {
        let bytes = match rng.below(4) {
            0 => generate::mutated_archive(&mut rng, 20),
            _ => generate::mutated_kept_archive(&mut rng, 4, 3),
        };
        let (a, b) = (rng.index(12), rng.index(12));
        let answer = both(&bytes, a, b);
        answers[answer.err().map_or(0, Refusal::number) as usize] += 1;
    }
    println!("damaged_archives_in_both_ways: {answers:?}");
    assert!([0, 1, 12, 13].iter().all(|&answer| answers[answer] > 50));
}
