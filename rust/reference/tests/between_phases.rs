//! The order of records of any phases: CR 2 of document 02.

use reference::archive;
use reference::between_phases::{is_well_kept, verdict, WellKept};
use reference::causality::{accepted_entries, happened_before, Run};
use reference::check::BLOCK;
use reference::generate::{self, ArchiveDamage, KeptDamage, NetworkWish};
use reference::header::Header;
use reference::network::Step;
use reference::order::{compare, Verdict};
use reference::random::Rng;
use reference::record::{Kind, Record, NO_PEER};
use reference::refusal::Refusal;
use reference::LAST_PHASE;

use Verdict::{After, Before, Same, Unordered};

/// An own entry of a station in a phase; the counts behind those given are 0.
fn own(phase: u32, station: u8, counts: &[u16]) -> Record {
    let mut all = [0; 8];
    all[..counts.len()].copy_from_slice(counts);
    Record {
        kind: Kind::Own,
        station,
        peer: NO_PEER,
        phase,
        register: 0,
        counts: all,
    }
}

fn mirrored(verdict: Verdict) -> Verdict {
    match verdict {
        Before => After,
        After => Before,
        other => other,
    }
}

/// The verdict on the first record and the last, both ways, and in other orders
/// of the records.
fn first_and_last(records: &[Record]) -> Verdict {
    let kept = WellKept::of(records.to_vec()).expect("well kept");
    let last = records.len() - 1;
    let found = kept.verdict(0, last).expect("records");
    assert_eq!(kept.verdict(last, 0), Ok(mirrored(found)));
    let mut numbers: Vec<usize> = (0..records.len()).collect();
    let mut rng = Rng::new(1);
    for _ in 0..8 {
        rng.shuffle(&mut numbers);
        let kept = WellKept::of(numbers.iter().map(|&k| records[k]).collect()).expect("well kept");
        let now = |number| numbers.iter().position(|&k| k == number).expect("a place");
        assert_eq!(kept.verdict(now(0), now(last)), Ok(found));
    }
    found
}

/// The same records with the stations named otherwise, in every way of four.
fn with_stations_renamed(records: &[Record]) -> Vec<Vec<Record>> {
    let mut ways = Vec::new();
    for code in 0..4_usize.pow(4) {
        let names: [usize; 4] = std::array::from_fn(|k| code >> (2 * k) & 3);
        if (0..4).any(|name| !names.contains(&name)) {
            continue;
        }
        let rename = |record: &Record| {
            let mut renamed = *record;
            renamed.station = names[usize::from(record.station)] as u8;
            for (k, name) in names.into_iter().enumerate() {
                renamed.counts[name] = record.counts[k];
            }
            renamed
        };
        ways.push(records.iter().map(rename).collect());
    }
    assert_eq!(ways.len(), 24);
    ways
}

/// The verdict on the first record and the last, whatever the names of stations.
fn of_any_names(records: &[Record]) -> Verdict {
    let ways = with_stations_renamed(records);
    let found: Vec<Verdict> = ways.iter().map(|way| first_and_last(way)).collect();
    assert!(found.iter().all(|verdict| *verdict == found[0]));
    found[0]
}

/// A network of two stations with ceiling 7.
fn two() -> Header {
    let mut header = Header::new(2, 7);
    header.allowances = [3, 3, 0, 0, 0, 0, 0, 0];
    (header.limits[0][1], header.limits[1][0]) = (2, 2);
    header
}

/// The worked listing: an entry and a message, a reset, a message back.
#[test]
fn the_worked_listing() {
    let steps = [
        Step::Enter {
            station: 0,
            register: 501,
        },
        Step::Send {
            station: 0,
            peer: 1,
            register: 502,
        },
        Step::Start { station: 1 },
        Step::Recv {
            station: 1,
            peer: 0,
        },
        Step::Recv {
            station: 0,
            peer: 1,
        },
        Step::Recv {
            station: 1,
            peer: 0,
        },
        Step::Recv {
            station: 1,
            peer: 0,
        },
        Step::Enter {
            station: 0,
            register: 504,
        },
        Step::Send {
            station: 1,
            peer: 0,
            register: 503,
        },
        Step::Recv {
            station: 0,
            peer: 1,
        },
        Step::Recv {
            station: 0,
            peer: 1,
        },
    ];
    let state = reference::network::State::initial(&two()).expect("a network");
    let records = Run::of(state, &steps).records();
    let bytes = archive::build(&two(), &records).expect("an archive");
    // Station 0 knows nothing of the receipt of station 1 when it resets.
    let right = [
        [Same, Before, Before, Before, Before, Before],
        [After, Same, Before, Before, Before, Before],
        [After, After, Same, Unordered, Before, Before],
        [After, After, Unordered, Same, Unordered, Before],
        [After, After, After, Unordered, Same, Before],
        [After, After, After, After, After, Same],
    ];
    assert_eq!(records.len(), right.len());
    for (first, row) in right.iter().enumerate() {
        for (second, &right) in row.iter().enumerate() {
            assert_eq!(
                verdict(&bytes, first, second),
                Ok(right),
                "{first} {second}"
            );
        }
    }
}

/// A station is reached in the first record's phase when its last timestamp there
/// has at least the own count, and not with one less.
#[test]
fn own_count_reached_and_one_less() {
    for known in 0..=4 {
        for own_count in 1..=4 {
            let mut records = vec![own(3, 0, &[own_count])];
            let others = (1..=4).filter(|&count| count != own_count);
            records.extend(others.map(|count| own(3, 0, &[count])));
            records.push(own(3, 1, &[known, 1]));
            records.push(own(4, 1, &[0, 1]));
            let right = if known >= own_count {
                Before
            } else {
                Unordered
            };
            assert_eq!(first_and_last(&records), right, "{known} of {own_count}");
            // The station itself is always reached.
            let last = records.len() - 1;
            records[last] = own(4, 0, &[1]);
            assert_eq!(first_and_last(&records), Before);
        }
    }
}

/// Station 0, then 1, then 2, then 3, a phase for each.
fn chain() -> Vec<Record> {
    vec![
        own(5, 0, &[1]),
        own(5, 3, &[0, 0, 0, 1]),
        own(6, 1, &[1, 1]),
        own(6, 0, &[1]),
        own(7, 1, &[0, 1]),
        own(7, 2, &[0, 1, 1]),
        own(8, 2, &[0, 0, 1]),
        own(8, 3, &[0, 0, 1, 1]),
        own(9, 3, &[0, 0, 0, 1]),
    ]
}

#[test]
fn a_chain_over_several_phases() {
    assert_eq!(of_any_names(&chain()), Before);
    // A link that is missing, each of them.
    for (k, of) in [(2, 0), (5, 1), (7, 2)] {
        let mut records = chain();
        records[k].counts[of] = 0;
        assert_eq!(of_any_names(&records), Unordered);
    }
    // A phase too early: only in the first record's phase does that do.
    for (k, right) in [(2, Before), (5, Unordered), (7, Unordered)] {
        let mut records = chain();
        records[k].phase -= 1;
        assert_eq!(of_any_names(&records), right);
    }
}

/// In a round only the stations reached before it count, not those that join in
/// it: a station may be known by what it did before it learned.
#[test]
fn no_two_links_of_a_chain_in_one_phase() {
    let records = [
        own(0, 0, &[1]),
        own(1, 0, &[1]),
        own(1, 1, &[1, 1]),
        own(1, 2, &[0, 1, 1]),
        own(1, 3, &[0, 0, 1, 1]),
        own(2, 2, &[0, 0, 1]),
    ];
    assert_eq!(of_any_names(&records), Unordered);
    let mut knows = records;
    knows[5] = own(2, 1, &[0, 1]);
    assert_eq!(of_any_names(&knows), Before);
    knows[5] = own(2, 2, &[0, 1, 1]);
    assert_eq!(of_any_names(&knows), Before);
    knows[5] = own(2, 3, &[0, 0, 1, 1]);
    assert_eq!(of_any_names(&knows), Unordered);
    // A phase more, and the next one joins.
    let mut longer = records.to_vec();
    longer[5] = own(3, 2, &[0, 0, 1]);
    longer.insert(5, own(2, 2, &[0, 1, 1]));
    longer.insert(5, own(2, 1, &[0, 1]));
    assert_eq!(of_any_names(&longer), Before);
}

/// The phase of the second record has no round: what its station learns there is
/// in its own timestamp or not at all.
#[test]
fn the_phase_of_the_second_is_no_round() {
    let records = [
        own(0, 0, &[1]),
        own(1, 0, &[1]),
        own(1, 1, &[1, 1]),
        own(1, 2, &[0, 1, 1]),
    ];
    assert_eq!(of_any_names(&records), Unordered);
    let mut later = records.to_vec();
    later[3] = own(2, 2, &[0, 1, 1]);
    later.insert(3, own(2, 1, &[0, 1]));
    assert_eq!(of_any_names(&later), Before);
    // Nor has any phase behind it.
    let mut behind = records.to_vec();
    behind.insert(1, own(2, 2, &[1, 0, 1]));
    behind.insert(1, own(3, 1, &[1, 1, 1]));
    assert_eq!(of_any_names(&behind), Unordered);
    // The first record's phase has none either, beside the own counts.
    let first = [
        own(0, 0, &[1]),
        own(0, 1, &[1, 1]),
        own(0, 2, &[0, 1, 1]),
        own(1, 2, &[0, 0, 1]),
    ];
    assert_eq!(of_any_names(&first), Unordered);
}

/// A phase without records is no obstacle, nor are many.
#[test]
fn phases_without_records() {
    for phases in [[0, 1, 2], [0, 2, 5], [3, 500_000, LAST_PHASE]] {
        let [first, between, last] = phases;
        let mut records = vec![
            own(first, 0, &[1]),
            own(between, 0, &[1]),
            own(between, 1, &[1, 1]),
            own(last, 1, &[0, 1]),
        ];
        assert_eq!(first_and_last(&records), Before);
        records[2] = own(between, 1, &[0, 1]);
        assert_eq!(first_and_last(&records), Unordered);
    }
}

/// Stations that reset with no entry in between stay reached.
#[test]
fn resets_without_entries() {
    let mut records = vec![
        own(0, 0, &[1]),
        own(0, 1, &[1, 1]),
        own(1, 2, &[0, 0, 1]),
        own(2, 2, &[0, 0, 1]),
        own(3, 1, &[0, 1]),
        own(3, 2, &[0, 1, 1]),
    ];
    assert_eq!(of_any_names(&records), Before);
    // Nor is a station forgotten that has an entry with nothing in it.
    records.insert(2, own(1, 1, &[0, 1]));
    assert_eq!(of_any_names(&records), Before);
    records[5] = own(2, 3, &[0, 0, 0, 1]);
    assert_eq!(of_any_names(&records), Before);
    // The second record's own station is not reached by its name alone.
    let last = records.len() - 1;
    records[last] = own(3, 2, &[0, 0, 1]);
    assert_eq!(of_any_names(&records), Unordered);
}

/// The last timestamp of a station counts and no other of it.
#[test]
fn first_and_last_timestamps() {
    // In the phase between.
    let records = [
        own(0, 0, &[1]),
        own(1, 0, &[1]),
        own(1, 1, &[0, 1]),
        own(1, 1, &[0, 2]),
        own(1, 1, &[1, 3]),
        own(2, 1, &[0, 1]),
    ];
    assert_eq!(of_any_names(&records), Before);
    let mut fall = records;
    fall[2] = own(1, 1, &[1, 1]);
    fall[3] = own(1, 1, &[1, 2]);
    fall[4] = own(1, 1, &[0, 3]);
    assert_eq!(of_any_names(&fall), Unordered);
    // In the phase of the first.
    let records = [
        own(0, 0, &[2]),
        own(0, 0, &[1]),
        own(0, 1, &[1, 1]),
        own(0, 1, &[2, 2]),
        own(1, 1, &[0, 1]),
    ];
    assert_eq!(of_any_names(&records), Before);
    let mut fall = records;
    fall[2] = own(0, 1, &[2, 1]);
    fall[3] = own(0, 1, &[1, 2]);
    assert_eq!(of_any_names(&fall), Unordered);
    // Also where it is the first record's station that falls: its own count does not.
    let itself = [own(0, 0, &[1, 3]), own(0, 0, &[2]), own(1, 0, &[1])];
    assert_eq!(of_any_names(&itself), Before);
}

/// A count for a station that has no record reaches nobody.
#[test]
fn counts_for_stations_without_records() {
    let nobody = [
        own(0, 0, &[1]),
        own(1, 1, &[0, 1, 9, 9]),
        own(2, 3, &[0, 9, 9, 1]),
    ];
    assert_eq!(of_any_names(&nobody), Unordered);
    // Station 0 is reached, and counted where it has no record.
    let counted = [
        own(0, 0, &[1]),
        own(1, 1, &[3, 1]),
        own(2, 2, &[0, 0, 1]),
        own(2, 3, &[0, 2, 0, 1]),
    ];
    assert_eq!(of_any_names(&counted), Before);
}

/// Within one phase timestamp order stands, and other phases do not matter.
#[test]
fn within_one_phase() {
    let between = own(4, 2, &[1, 1, 1]);
    for (a, b, right) in [
        (own(3, 0, &[1, 0]), own(3, 1, &[1, 1]), Before),
        (own(3, 0, &[1, 1]), own(3, 1, &[0, 1]), After),
        (own(3, 0, &[1, 0]), own(3, 1, &[0, 1]), Unordered),
        (own(3, 0, &[1, 1, 7]), own(3, 1, &[1, 1, 7]), Same),
    ] {
        assert_eq!(first_and_last(&[a, between, b]), right);
    }
    // A station's later record that knows less.
    let falls = [own(3, 0, &[1, 1]), between, own(3, 0, &[2, 0])];
    assert_eq!(first_and_last(&falls), Unordered);
}

/// Own counts of one station in one phase, among records that are well kept.
fn kept_with(own_counts: &[u16]) -> bool {
    let of = |&count: &u16| own(1, 0, &[count]);
    let mut records: Vec<Record> = own_counts.iter().map(of).collect();
    assert_eq!(
        is_well_kept(&records),
        WellKept::of(records.clone()).is_ok()
    );
    let alone = is_well_kept(&records);
    records.extend([own(0, 0, &[1]), own(2, 0, &[1]), own(1, 1, &[5, 1])]);
    assert_eq!(is_well_kept(&records), alone);
    records.rotate_right(2);
    assert_eq!(is_well_kept(&records), alone);
    alone
}

#[test]
fn well_kept_and_ill_kept() {
    for right in [
        &[][..],
        &[1],
        &[1, 2],
        &[2, 1],
        &[3, 1, 2],
        &[5, 4, 3, 2, 1],
    ] {
        assert!(kept_with(right), "{right:?}");
    }
    let missing = [&[1, 3][..], &[1, 2, 4], &[1, 2, 3, 65_535]];
    let twice = [&[1, 1][..], &[1, 2, 2], &[1, 2, 1], &[2, 1, 2, 3]];
    let from_two = [&[2][..], &[2, 3], &[3], &[65_535]];
    // As many as the greatest, and with the right sum.
    let instead = [&[1, 1, 3][..], &[1, 3, 3], &[2, 2, 2], &[1, 3, 3, 3, 5]];
    for wrong in [&missing[..], &twice, &from_two, &instead].concat() {
        assert!(!kept_with(wrong), "{wrong:?}");
    }
    let all: Vec<u16> = (1..=65_535).collect();
    assert!(kept_with(&all) && !kept_with(&[&all[..], &[1]].concat()));
}

/// Phases and stations are kept apart: what one lacks another does not make up.
#[test]
fn kept_by_station_and_phase() {
    assert!(!is_well_kept(&[own(0, 0, &[1]), own(1, 0, &[2])]));
    assert!(!is_well_kept(&[own(0, 0, &[1]), own(0, 1, &[1, 2])]));
    assert!(is_well_kept(&[own(0, 0, &[1, 4]), own(0, 1, &[1, 1])]));
    // Phases whose lower 16 bits are the same.
    assert!(!is_well_kept(&[own(1, 0, &[1]), own(65_537, 0, &[2])]));
}

fn number(answer: Result<Verdict, Refusal>) -> u8 {
    answer.err().map_or(0, Refusal::number)
}

/// 1, then 12, then 13.
#[test]
fn refusals_and_their_order() {
    let (right, ill) = (
        [own(0, 0, &[1]), own(1, 1, &[1, 1])],
        [own(0, 0, &[1]), own(1, 1, &[1, 2])],
    );
    let bytes = |records: &[Record]| archive::build(&two(), records).expect("an archive");
    let (right, ill) = (bytes(&right), bytes(&ill));
    assert_eq!(verdict(&right, 0, 1), Ok(Before));
    assert_eq!(number(verdict(&ill, 0, 1)), 13);
    // Also in one phase and of one record: it looks at the whole archive.
    assert_eq!(number(verdict(&ill, 0, 0)), 13);
    for (first, second) in [(0, 2), (2, 0), (2, 2), (1, usize::MAX), (1 << 32, 1)] {
        assert_eq!(number(verdict(&right, first, second)), 12);
        assert_eq!(number(verdict(&ill, first, second)), 12);
    }
    for bytes in [right, ill] {
        let mut changed = bytes.clone();
        changed[BLOCK + 20] ^= 1;
        for wrong in [&changed[..], &bytes[..BLOCK + 1], &[]] {
            assert_eq!(number(verdict(wrong, 0, 1)), 1);
            assert_eq!(number(verdict(wrong, 0, 9)), 1);
        }
        assert_eq!(number(verdict(&bytes[..BLOCK], 0, 0)), 12);
    }
    // The two-record verdict answers 10 as before, and asks for no keeping.
    let (a, b) = (own(0, 0, &[3]).to_bytes(), own(1, 0, &[1]).to_bytes());
    assert_eq!(number(reference::order::verdict(&a, &b)), 10);
    assert_eq!(number(reference::order::verdict(&a, &a)), 0);
}

/// How often each verdict was met, of one phase and of two.
#[derive(Debug, Default)]
struct Tally {
    of_one_phase: [usize; 4],
    of_two_phases: [usize; 4],
    /// Of two phases, before or after by a station that joined between them.
    by_joining: usize,
}

impl Tally {
    fn add(&mut self, phases: (u32, u32), verdict: Verdict) {
        let tally = match phases.0 == phases.1 {
            true => &mut self.of_one_phase,
            false => &mut self.of_two_phases,
        };
        tally[verdict as usize] += 1;
    }

    /// Whether each verdict that can be was met so often.
    fn is_met(&self, often: usize) -> bool {
        let [before, after, same, unordered] = self.of_two_phases;
        let of_one = self.of_one_phase.iter().all(|&met| met >= often);
        of_one
            && same == 0
            && [before, after, unordered, self.by_joining]
                .iter()
                .all(|&met| met >= often)
    }
}

/// Whether a record knows a station that the first one reached in its own phase.
fn knows_at_once(kept: &WellKept, first: &Record, second: &Record) -> bool {
    let reached = kept.reached_before(first, first.phase + 1);
    (0..8).any(|k| reached[k] && second.counts[k] > 0)
}

/// The verdicts on all pairs: of one phase those of timestamps; both ways.
fn tally_pairs(records: &[Record], tally: &mut Tally) -> Vec<Vec<Verdict>> {
    let kept = WellKept::of(records.to_vec()).expect("well kept");
    let ask = |a, b| kept.verdict(a, b).expect("records");
    let mut table = Vec::new();
    for (a, first) in records.iter().enumerate() {
        let row: Vec<Verdict> = (0..records.len()).map(|b| ask(a, b)).collect();
        for (b, second) in records.iter().enumerate() {
            assert_eq!(ask(b, a), mirrored(row[b]));
            tally.add((first.phase, second.phase), row[b]);
            if first.phase == second.phase {
                assert_eq!(row[b], compare(&first.counts, &second.counts));
            } else if row[b] == Before {
                assert!(first.phase < second.phase);
                tally.by_joining += usize::from(!knows_at_once(&kept, first, second));
            }
        }
        table.push(row);
    }
    table
}

/// A run of a network that often resets.
fn some_run(rng: &mut Rng) -> (Header, Run) {
    let wish = NetworkWish {
        small: true,
        ..NetworkWish::default()
    };
    let header = generate::network(rng, wish);
    let length = rng.index(600);
    let run = generate::run_of(rng, &header, length);
    (header, run)
}

/// Of the archive of all accepted entries of a step list the verdict on any two
/// equals happened-before.
#[test]
fn runs() {
    let mut rng = Rng::new(21);
    let mut tally = Tally::default();
    for case in 0..400 {
        let (header, run) = some_run(&mut rng);
        let entries = accepted_entries(&run.steps, &run.outcomes);
        let steps: Vec<Step> = entries.iter().map(|entry| entry.step).collect();
        let before = happened_before(&steps);
        let records = run.records();
        let table = tally_pairs(&records, &mut tally);
        for (a, row) in table.iter().enumerate() {
            for (b, &verdict) in row.iter().enumerate() {
                let right = match () {
                    () if a == b => Same,
                    () if before.precedes(a, b) => Before,
                    () if before.precedes(b, a) => After,
                    () => Unordered,
                };
                assert_eq!(verdict, right, "case {case}: entries {a} and {b}");
            }
        }
        // The same by the archive's bytes.
        let bytes = archive::build(&header, &records).expect("an archive");
        if !records.is_empty() {
            let (a, b) = (rng.index(records.len()), rng.index(records.len()));
            assert_eq!(verdict(&bytes, a, b), Ok(table[a][b]));
        }
    }
    println!("runs: {tally:?}");
    assert!(tally.is_met(1_000), "{tally:?}");
}

/// The verdicts do not hang on the numbers of the records.
#[test]
fn permuted_archives() {
    let mut rng = Rng::new(22);
    for case in 0..300 {
        let records = match case % 2 {
            0 => some_run(&mut rng).1.records(),
            _ => generate::well_kept_parts(&mut rng, 9, 4).1,
        };
        let mut numbers: Vec<usize> = (0..records.len()).collect();
        rng.shuffle(&mut numbers);
        let moved = numbers.iter().map(|&k| records[k]).collect();
        let (kept, moved) = (WellKept::of(records), WellKept::of(moved));
        let (kept, moved) = (kept.expect("well kept"), moved.expect("well kept"));
        for (a, &first) in numbers.iter().enumerate() {
            for (b, &second) in numbers.iter().enumerate() {
                assert_eq!(moved.verdict(a, b), kept.verdict(first, second));
            }
        }
    }
}

/// Archives that pass 13 and come from no run.
#[test]
fn odd_archives() {
    let mut rng = Rng::new(23);
    let mut tally = Tally::default();
    let (mut falls, mut strangers) = (0, 0);
    for _ in 0..1_500 {
        let (_, records) = generate::well_kept_parts(&mut rng, 9, 4);
        tally_pairs(&records, &mut tally);
        falls += records
            .iter()
            .filter(|record| falls_behind(&records, record))
            .count();
        strangers += records
            .iter()
            .filter(|record| knows_stranger(&records, record))
            .count();
    }
    println!("odd_archives: {tally:?}, {falls} fall, {strangers} know a stranger");
    assert!(
        tally.is_met(100) && falls > 1_000 && strangers > 1_000,
        "{tally:?}"
    );
}

/// Whether a station has a record of the next own count that knows less.
fn falls_behind(records: &[Record], record: &Record) -> bool {
    records.iter().any(|other| {
        (other.phase, other.station) == (record.phase, record.station)
            && other.own_count() == record.own_count() + 1
            && other
                .counts
                .iter()
                .zip(record.counts)
                .any(|(&next, count)| next < count)
    })
}

/// Whether a record has a count for a station without a record in its phase.
fn knows_stranger(records: &[Record], record: &Record) -> bool {
    let is_there = |k: usize| {
        let mut beside = records.iter().filter(|other| other.phase == record.phase);
        beside.any(|other| usize::from(other.station) == k)
    };
    (0..8).any(|k| record.counts[k] > 0 && !is_there(k))
}

/// Each way of being ill kept, whatever the two numbers.
#[test]
fn ill_kept_archives() {
    let mut rng = Rng::new(24);
    let mut rising = 0;
    for way in KeptDamage::ALL {
        for _ in 0..300 {
            let (header, records) = generate::damaged_keeping_parts(&mut rng, way, 6, 4);
            assert!(!is_well_kept(&records), "{way:?}");
            rising += usize::from(generate::stations_rise(&records));
            let bytes = archive::build(&header, &records).expect("an archive");
            let count = records.len();
            for _ in 0..4 {
                let (a, b) = (rng.index(count), rng.index(count));
                assert_eq!(number(verdict(&bytes, a, b)), 13, "{way:?}");
                assert_eq!(number(verdict(&bytes, a, count + b)), 12, "{way:?}");
                assert_eq!(number(verdict(&bytes, count + a, b)), 12, "{way:?}");
            }
        }
    }
    assert!(rising > 100, "{rising}");
}

#[test]
fn damaged_archives() {
    let mut rng = Rng::new(25);
    for way in ArchiveDamage::ALL {
        for _ in 0..30 {
            let bytes = generate::damaged_archive(&mut rng, way, 50);
            let (a, b) = (rng.index(60), rng.index(60));
            assert_eq!(number(verdict(&bytes, a, b)), 1, "{way:?}");
        }
    }
}
