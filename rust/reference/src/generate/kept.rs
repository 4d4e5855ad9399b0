//! Archives that are well kept, of runs and of none, and archives that are not:
//! CR 2 of document 02.

use super::archives::reseal;
use super::{admitted_record_of, any_ranged_header, any_register};
use crate::archive;
use crate::between_phases::is_well_kept;
use crate::check::BLOCK;
use crate::entries::{start, MAX_RECORDS};
use crate::header::Header;
use crate::random::Rng;
use crate::record::Record;
use crate::{Counts, LAST_PHASE, MAX_STATIONS};

/// Some phases, rising: often one behind the other, and often with others between
/// that have no record, up to the last.
pub fn some_phases(rng: &mut Rng, most: usize) -> Vec<u32> {
    let length = 1 + rng.index(most) as u32;
    let first = rng.pick(&[0, 0, 7, LAST_PHASE + 1 - length]);
    let mut phases: Vec<u32> = (first..first + length).collect();
    if rng.chance(1, 3) {
        phases.retain(|_| rng.chance(2, 3));
    }
    if rng.chance(1, 8) {
        phases.push(rng.pick(&[500_000, LAST_PHASE - 1, LAST_PHASE]));
    }
    phases.sort();
    phases.dedup();
    phases
}

/// Counts of what a record may know of the others, few of them above 0.
fn some_counts(rng: &mut Rng, header: &Header) -> Counts {
    let (part, most) = (rng.pick(&[0, 1, 1, 2, 6]), rng.pick(&[1, 2, 5]));
    let most = u64::from(header.ceiling).min(most);
    std::array::from_fn(|k| match k < header.n() && rng.chance(part, 8) {
        true => rng.range(1, most) as u16,
        false => 0,
    })
}

/// A record of a station with an own count.
fn record_of(rng: &mut Rng, header: &Header, station: usize, phase: u32, own: u16) -> Record {
    let (mut counts, register) = (some_counts(rng, header), any_register(rng));
    counts[station] = own;
    let admitted = loop {
        if let Some(record) = admitted_record_of(rng, header, station) {
            break record;
        }
    };
    Record {
        phase,
        register,
        counts,
        ..admitted
    }
}

/// Well-kept records that a header admits, up to so many of each station in each
/// phase, by phase, station and own count. They are of no run: what a station
/// knows may fall, and it may know of stations that have no record.
pub fn well_kept_records(
    rng: &mut Rng,
    header: &Header,
    phases: &[u32],
    most: usize,
) -> Vec<Record> {
    let most = most.min(usize::from(header.ceiling));
    let mut records = Vec::new();
    for &phase in phases {
        for station in 0..header.n() {
            let count = match rng.below(3) {
                0 => 0,
                1 => 1,
                _ => rng.index(most + 1),
            };
            let own_counts = 1..=count.min(most) as u16;
            records.extend(own_counts.map(|own| record_of(rng, header, station, phase, own)));
        }
    }
    records
}

/// The header and records of a well-kept archive of no run, in one of several
/// orders.
pub fn well_kept_parts(rng: &mut Rng, most_phases: usize, most: usize) -> (Header, Vec<Record>) {
    let header = any_ranged_header(rng);
    let phases = some_phases(rng, most_phases);
    let mut records = well_kept_records(rng, &header, &phases, most);
    reorder(rng, &mut records);
    (header, records)
}

/// Puts records in one of several orders: as they are, by station, backwards, two
/// exchanged, in pieces, or in none.
pub fn reorder(rng: &mut Rng, records: &mut Vec<Record>) {
    match rng.below(6) {
        0 => {}
        1 => records.sort_by_key(|record| record.station),
        2 => records.reverse(),
        3 if !records.is_empty() => {
            let (a, b) = (rng.index(records.len()), rng.index(records.len()));
            records.swap(a, b);
        }
        4 => {
            let length = 1 + rng.index(records.len() / 2 + 1);
            let mut pieces: Vec<&[Record]> = records.chunks(length).collect();
            rng.shuffle(&mut pieces);
            *records = pieces.concat();
        }
        _ => rng.shuffle(records),
    }
}

/// A way in which a well-kept archive is made ill kept.
#[derive(Clone, Copy, Debug, PartialEq, Eq)]
pub enum KeptDamage {
    /// A record below a station's last in a phase is taken out.
    Missing,
    /// A record stands there once more.
    Twice,
    /// A record has the own count of another, and its own is missing.
    Instead,
    /// A station's own counts in a phase begin with 2.
    FromTwo,
    /// The last own count leaves one out.
    Beyond,
    /// A record is of another phase, where its own count does not fit or from
    /// which it is missing.
    OtherPhase,
}

impl KeptDamage {
    /// Every way.
    pub const ALL: [KeptDamage; 6] = [
        KeptDamage::Missing,
        KeptDamage::Twice,
        KeptDamage::Instead,
        KeptDamage::FromTwo,
        KeptDamage::Beyond,
        KeptDamage::OtherPhase,
    ];
}

/// The header and records of an archive that is ill kept in the way given and in
/// one place, in one of several orders.
pub fn damaged_keeping_parts(
    rng: &mut Rng,
    way: KeptDamage,
    most_phases: usize,
    most: usize,
) -> (Header, Vec<Record>) {
    loop {
        let (header, mut records) = well_kept_parts(rng, most_phases, most);
        if damage_keeping(rng, &header, &mut records, way) {
            debug_assert!(!is_well_kept(&records));
            return (header, records);
        }
    }
}

/// Makes well-kept records ill kept; false where these cannot be made so.
pub fn damage_keeping(
    rng: &mut Rng,
    header: &Header,
    records: &mut Vec<Record>,
    way: KeptDamage,
) -> bool {
    if records.is_empty() {
        return false;
    }
    let at = rng.index(records.len());
    let record = records[at];
    let beside = |other: &Record| (other.phase, other.station) == (record.phase, record.station);
    let count = records.iter().filter(|other| beside(other)).count() as u16;
    let own = record.own_count();
    match way {
        KeptDamage::Missing if own < count => {
            records.remove(at);
        }
        KeptDamage::Twice => {
            let to = rng.index(records.len() + 1);
            records.insert(to, record);
        }
        KeptDamage::Instead if count > 1 => {
            let other = rng.range(1, u64::from(count) - 1) as u16;
            set_own_count(&mut records[at], other + u16::from(other >= own));
        }
        KeptDamage::FromTwo if count < header.ceiling => {
            for record in records.iter_mut().filter(|other| beside(other)) {
                set_own_count(record, record.own_count() + 1);
            }
        }
        KeptDamage::Beyond if own == count && own < header.ceiling => {
            let most = rng.pick(&[own + 1, header.ceiling]);
            set_own_count(
                &mut records[at],
                rng.range(u64::from(own) + 1, most.into()) as u16,
            );
        }
        KeptDamage::OtherPhase => {
            records[at].phase = records[rng.index(records.len())].phase;
            return !is_well_kept(records);
        }
        _ => return false,
    }
    true
}

fn set_own_count(record: &mut Record, own: u16) {
    record.counts[usize::from(record.station)] = own;
}

/// Whether each station's records come by phase and own count, both rising.
pub fn stations_rise(records: &[Record]) -> bool {
    (0..MAX_STATIONS as u8).all(|station| {
        let of_station = records.iter().filter(|record| record.station == station);
        of_station.is_sorted_by_key(|record| (record.phase, record.own_count()))
    })
}

/// A well-kept archive with a byte of a record changed a little and sealed again:
/// it may be well kept, ill kept or no archive.
pub fn mutated_kept_archive(rng: &mut Rng, most_phases: usize, most: usize) -> Vec<u8> {
    loop {
        let (header, records) = well_kept_parts(rng, most_phases, most);
        if records.is_empty() {
            continue;
        }
        let mut bytes = archive::build(&header, &records).expect("an archive");
        let number = rng.index(records.len());
        let block = 1 + number / MAX_RECORDS;
        // The station, the phase, the own count and any other count.
        let own = 16 + 2 * usize::from(records[number].station);
        let other = 16 + 2 * rng.index(header.n());
        let within = rng.pick(&[1, 4, 4, own, own, other]);
        let at = BLOCK * block + start(number % MAX_RECORDS) + within;
        bytes[at] = bytes[at].wrapping_add(rng.pick(&[1, 1, 2, 255, 255, 254]));
        reseal(&mut bytes, block);
        return bytes;
    }
}
