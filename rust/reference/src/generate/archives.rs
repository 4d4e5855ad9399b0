//! Records and archives: 'Archive blocks' of document 01.

use super::{any_network, any_ranged_header, any_register, damaged_header_block, run_of};
use super::{near_bounds, other_length, some_byte, spoil_check, HeaderDamage};
use crate::archive;
use crate::check::{seal, BLOCK};
use crate::entries::{start, MAX_RECORDS};
use crate::header::Header;
use crate::random::Rng;
use crate::record::{Kind, Record, NO_PEER, RECORD};
use crate::{Counts, LAST_PHASE, MAX_STATIONS};
use std::cmp::Reverse;

/// A well-made record, of any stations.
pub fn any_record(rng: &mut Rng) -> Record {
    let kind = rng.pick(&[Kind::Own, Kind::Sent, Kind::Received]);
    let station = rng.below(8) as u8;
    let peer = match kind {
        Kind::Own => NO_PEER,
        _ => (station + rng.range(1, 7) as u8) % 8,
    };
    let most = rng.pick(&[2, 4, 65_535]);
    let mut counts: Counts = std::array::from_fn(|_| near_bounds(rng, most) as u16);
    let own = &mut counts[usize::from(station)];
    *own = (*own).max(1);
    let phase = match rng.below(2) {
        0 => rng.below(2) as u32,
        _ => near_bounds(rng, u64::from(LAST_PHASE)) as u32,
    };
    Record {
        kind,
        station,
        peer,
        phase,
        register: any_register(rng),
        counts,
    }
}

/// A record that a header admits, of no run; `None` seldom, where a try gives
/// none.
pub fn admitted_record(rng: &mut Rng, header: &Header) -> Option<Record> {
    let station = rng.index(header.n());
    admitted_record_of(rng, header, station)
}

/// The same of a station.
pub fn admitted_record_of(rng: &mut Rng, header: &Header, station: usize) -> Option<Record> {
    let n = header.n();
    let sent: Vec<usize> = (0..n)
        .filter(|&j| j != station && header.limit(station, j) > 0)
        .collect();
    let received: Vec<usize> = (0..n)
        .filter(|&j| j != station && header.limit(j, station) > 0)
        .collect();
    let (kind, peer) = match rng.below(3) {
        1 if !sent.is_empty() => (Kind::Sent, rng.pick(&sent) as u8),
        2 if !received.is_empty() => (Kind::Received, rng.pick(&received) as u8),
        _ => (Kind::Own, NO_PEER),
    };
    let most = u64::from(header.ceiling).min(rng.pick(&[2, 5, 65_535]));
    let mut counts = [0; MAX_STATIONS];
    for count in &mut counts[..n] {
        *count = near_bounds(rng, most) as u16;
    }
    counts[station] = counts[station].max(1);
    let phase = rng.pick(&[0, 1, 1, 2, LAST_PHASE]);
    let record = Record {
        kind,
        station: station as u8,
        peer,
        phase,
        register: any_register(rng),
        counts,
    };
    archive::admits(header, &record).then_some(record)
}

/// The header and records of an archive: of a run in list order, of a run in
/// another order, or of no run and perhaps of a header that breaks network
/// rules.
pub fn any_archive_parts(rng: &mut Rng, most_records: usize) -> (Header, Vec<Record>) {
    let way = rng.below(3);
    if way == 2 {
        let header = any_ranged_header(rng);
        // Often a whole number of blocks.
        let length = match rng.below(3) {
            0 => (rng.index(most_records / MAX_RECORDS + 1)) * MAX_RECORDS,
            _ => rng.index(most_records + 1),
        };
        let records = (0..length)
            .filter_map(|_| admitted_record(rng, &header))
            .collect();
        return (header, records);
    }
    let header = any_network(rng);
    let length = rng.index(4 * most_records + 1);
    let mut records = run_of(rng, &header, length).records();
    if way == 1 {
        rng.shuffle(&mut records);
    }
    let keep = rng.index(most_records + 1);
    records.truncate(keep);
    (header, records)
}

/// The bytes of a random archive.
pub fn any_archive(rng: &mut Rng, most_records: usize) -> Vec<u8> {
    let (header, records) = any_archive_parts(rng, most_records);
    archive::build(&header, &records).expect("an archive")
}

/// How own counts go along an ill-kept archive.
#[derive(Clone, Copy, Debug, PartialEq, Eq)]
pub enum Kept {
    /// They rise, equal ones together.
    Rising,
    /// They fall, equal ones together.
    Falling,
    /// They rise in pieces that are in no order.
    Pieces,
    /// They are in no order.
    Shuffled,
}

impl Kept {
    /// Every way.
    pub const ALL: [Kept; 4] = [Kept::Rising, Kept::Falling, Kept::Pieces, Kept::Shuffled];
}

/// The header and so many records of an ill-kept archive, of the phases below
/// `phases`.
pub fn ill_kept_parts(
    rng: &mut Rng,
    kept: Kept,
    phases: u32,
    count: usize,
) -> (Header, Vec<Record>) {
    let mut header = any_ranged_header(rng);
    header.stations = rng.range(2, 8) as u8;
    header.ceiling = rng.pick(&[2, 9, 300, 65_535]);
    let records = ill_kept_records(rng, &header, kept, phases, count);
    (header, records)
}

/// So many records that a header admits, of the phases below `phases`. A station
/// may have an own count more than once, and many records are unordered with
/// many.
pub fn ill_kept_records(
    rng: &mut Rng,
    header: &Header,
    kept: Kept,
    phases: u32,
    count: usize,
) -> Vec<Record> {
    let records = (0..count).map(|_| ill_kept_record(rng, header, phases));
    let mut records: Vec<Record> = records.collect();
    match kept {
        Kept::Shuffled => {}
        Kept::Falling => records.sort_by_key(|record| Reverse(record.own_count())),
        Kept::Rising | Kept::Pieces => records.sort_by_key(Record::own_count),
    }
    if kept == Kept::Pieces {
        let length = 1 + rng.index(count / 3 + 1);
        let mut pieces: Vec<&[Record]> = records.chunks(length).collect();
        rng.shuffle(&mut pieces);
        records = pieces.concat();
    }
    records
}

/// Half of them know of no other station, so that they are unordered with all
/// such of others; the other half know a little.
fn ill_kept_record(rng: &mut Rng, header: &Header, phases: u32) -> Record {
    loop {
        let Some(mut record) = admitted_record(rng, header) else {
            continue;
        };
        record.phase = rng.below(u64::from(phases)) as u32;
        let known = rng.pick(&[0, 2]);
        for count in &mut record.counts[..header.n()] {
            *count = rng.range(0, known) as u16;
        }
        let own = rng.range(1, u64::from(header.ceiling));
        record.counts[usize::from(record.station)] = own as u16;
        return record;
    }
}

/// A way to damage an archive.
#[derive(Clone, Copy, Debug, PartialEq, Eq)]
pub enum ArchiveDamage {
    /// A length that is no multiple of 512, or no bytes at all.
    Length,
    /// No header, but entries blocks.
    NoHeader,
    /// A damaged header block.
    Header,
    /// A second header block.
    SecondHeader,
    /// A wrong check of some block.
    Check,
    /// A byte changed without a new check.
    Byte,
    /// A wrong block number.
    BlockNumber,
    /// Two blocks exchanged.
    Exchanged,
    /// A block before the last with under 15 records.
    ShortBlock,
    /// A count of records that is 0 or above 15.
    RecordCount,
    /// A byte that is not 0 in a place past the count of records.
    PastCount,
    /// A spare byte of an entries block that is not 0.
    SpareOfBlock,
    /// A spare byte of a record that is not 0.
    SpareOfRecord,
    /// An ill-made record: kind, station, peer, phase or own count.
    IllRecord,
    /// A station or peer that is n or above.
    UnknownStation,
    /// A link that the header lacks.
    UnknownLink,
    /// A count above t.
    CountAboveCeiling,
    /// A count for a station n or above.
    CountBeyond,
}

impl ArchiveDamage {
    /// Every way.
    pub const ALL: [ArchiveDamage; 18] = [
        ArchiveDamage::Length,
        ArchiveDamage::NoHeader,
        ArchiveDamage::Header,
        ArchiveDamage::SecondHeader,
        ArchiveDamage::Check,
        ArchiveDamage::Byte,
        ArchiveDamage::BlockNumber,
        ArchiveDamage::Exchanged,
        ArchiveDamage::ShortBlock,
        ArchiveDamage::RecordCount,
        ArchiveDamage::PastCount,
        ArchiveDamage::SpareOfBlock,
        ArchiveDamage::SpareOfRecord,
        ArchiveDamage::IllRecord,
        ArchiveDamage::UnknownStation,
        ArchiveDamage::UnknownLink,
        ArchiveDamage::CountAboveCeiling,
        ArchiveDamage::CountBeyond,
    ];
}

/// Seals block k of an archive's bytes again.
pub(super) fn reseal(bytes: &mut [u8], k: usize) {
    let block: &mut [u8; BLOCK] = (&mut bytes[k * BLOCK..(k + 1) * BLOCK])
        .try_into()
        .expect("a block's length");
    seal(block);
}

/// Bytes that are no archive, damaged in the way given; all but a wrong length,
/// check or changed byte is sealed again.
pub fn damaged_archive(rng: &mut Rng, way: ArchiveDamage, most_records: usize) -> Vec<u8> {
    loop {
        let (header, records) = any_archive_parts(rng, most_records);
        let mut bytes = archive::build(&header, &records).expect("an archive");
        if damage_archive(rng, &header, &records, &mut bytes, way) {
            debug_assert!(archive::test(&bytes).is_err());
            return bytes;
        }
    }
}

/// Damages an archive's bytes; false where this one cannot be damaged so.
fn damage_archive(
    rng: &mut Rng,
    header: &Header,
    records: &[Record],
    bytes: &mut Vec<u8>,
    way: ArchiveDamage,
) -> bool {
    let blocks = bytes.len() / BLOCK;
    // Of the whole archive.
    match way {
        ArchiveDamage::Length => {
            match rng.below(4) {
                0 => bytes.clear(),
                _ => other_length(rng, bytes),
            }
            return bytes.is_empty() || !bytes.len().is_multiple_of(BLOCK);
        }
        ArchiveDamage::Header => {
            let way = rng.pick(&HeaderDamage::ALL[1..]);
            let damaged = damaged_header_block(rng, way);
            bytes[..BLOCK].copy_from_slice(&damaged);
            return true;
        }
        ArchiveDamage::SecondHeader => {
            let first = bytes[..BLOCK].to_vec();
            bytes.extend(first);
            return true;
        }
        ArchiveDamage::Check => {
            let k = rng.index(blocks);
            spoil_check(rng, &mut bytes[k * BLOCK..(k + 1) * BLOCK]);
            return true;
        }
        ArchiveDamage::Byte => {
            let at = rng.index(bytes.len());
            bytes[at] ^= some_byte(rng);
            return true;
        }
        _ => {}
    }
    if blocks < 2 {
        return false;
    }
    // Of a block, k from 1, with its records and one record's place.
    let k = 1 + rng.index(blocks - 1);
    let at = k * BLOCK;
    let count = usize::from(bytes[at + 1]);
    let r = rng.index(count);
    let place = at + start(r);
    let record = records[(k - 1) * MAX_RECORDS + r];
    let n = header.n();
    match way {
        ArchiveDamage::NoHeader => {
            bytes.drain(..BLOCK);
        }
        ArchiveDamage::BlockNumber => {
            let number = match rng.below(3) {
                0 => 0,
                1 => k as u32 + 1,
                _ => (k as u32).wrapping_add(rng.range(1, u64::from(u32::MAX)) as u32),
            };
            bytes[at + 4..at + 8].copy_from_slice(&number.to_le_bytes());
        }
        ArchiveDamage::Exchanged => {
            if blocks < 3 {
                return false;
            }
            let other = (k % (blocks - 1) + 1) * BLOCK;
            for b in 0..BLOCK {
                bytes.swap(at + b, other + b);
            }
            return true;
        }
        ArchiveDamage::ShortBlock => {
            if k == blocks - 1 || count < 2 {
                return false;
            }
            let last = at + start(count - 1);
            bytes[last..last + RECORD].fill(0);
            bytes[at + 1] -= 1;
        }
        ArchiveDamage::RecordCount => {
            bytes[at + 1] = match rng.below(2) {
                0 => 0,
                _ => rng.range(16, 255) as u8,
            };
        }
        ArchiveDamage::PastCount => {
            if count == MAX_RECORDS {
                return false;
            }
            let past = at + start(count);
            let end = at + 496;
            match rng.below(2) {
                0 => bytes[past..past + RECORD].copy_from_slice(&record.to_bytes()),
                _ => bytes[past + rng.index(end - past)] = some_byte(rng),
            }
        }
        ArchiveDamage::SpareOfBlock => {
            let spare = match rng.below(3) {
                0 => 2 + rng.index(2),
                1 => 8 + rng.index(8),
                _ => 496 + rng.index(14),
            };
            bytes[at + spare] = some_byte(rng);
        }
        ArchiveDamage::SpareOfRecord => {
            let spare = rng.pick(&[3, 12, 13, 14, 15]);
            bytes[place + spare] = some_byte(rng);
        }
        ArchiveDamage::IllRecord => spoil_record(rng, &record, &mut bytes[place..place + RECORD]),
        ArchiveDamage::UnknownStation => {
            if n == MAX_STATIONS {
                return false;
            }
            let stranger = rng.range(n as u64, 7) as u8;
            // The own count is right, so that only the station is wrong.
            if record.kind == Kind::Own || rng.chance(1, 2) {
                let own = place + 16 + 2 * usize::from(stranger);
                bytes[own] = 1;
                bytes[place + 1] = stranger;
            } else {
                bytes[place + 2] = stranger;
            }
        }
        ArchiveDamage::UnknownLink => {
            let station = usize::from(record.station);
            let kind = rng.pick(&[Kind::Sent, Kind::Received]);
            let strangers: Vec<usize> = (0..MAX_STATIONS)
                .filter(|&j| {
                    j != station
                        && match kind {
                            Kind::Received => header.limit(j, station) == 0,
                            _ => header.limit(station, j) == 0,
                        }
                })
                .collect();
            if strangers.is_empty() {
                return false;
            }
            bytes[place] = kind.number();
            bytes[place + 2] = rng.pick(&strangers) as u8;
        }
        ArchiveDamage::CountAboveCeiling => {
            if header.ceiling == u16::MAX {
                return false;
            }
            let count = match rng.below(2) {
                0 => header.ceiling + 1,
                _ => rng.range(u64::from(header.ceiling) + 1, 65_535) as u16,
            };
            let at = place + 16 + 2 * rng.index(n);
            bytes[at..at + 2].copy_from_slice(&count.to_le_bytes());
        }
        ArchiveDamage::CountBeyond => {
            if n == MAX_STATIONS {
                return false;
            }
            let at = place + 16 + 2 * rng.range(n as u64, 7) as usize;
            bytes[at] = 1;
        }
        _ => return false,
    }
    if way == ArchiveDamage::NoHeader {
        return true;
    }
    reseal(bytes, k);
    true
}

/// Makes a right record's bytes wrong in one field.
pub fn spoil_record(rng: &mut Rng, record: &Record, bytes: &mut [u8]) {
    let station = usize::from(record.station);
    match rng.below(5) {
        0 => bytes[0] = rng.pick(&[0, 4, 5, 255]),
        1 => bytes[1] = rng.pick(&[8, 9, 255]),
        2 => {
            bytes[2] = match record.kind {
                Kind::Own => rng.pick(&[0, 1, 7, 8, 254]),
                _ => rng.pick(&[record.station, 8, 255]),
            }
        }
        3 => {
            let phase = rng.pick(&[LAST_PHASE + 1, u32::MAX, 1 << 20]);
            bytes[4..8].copy_from_slice(&phase.to_le_bytes());
        }
        _ => bytes[16 + 2 * station..18 + 2 * station].fill(0),
    }
}

/// An archive with a few bytes changed, sealed again or not: it may or may not
/// be an archive.
pub fn mutated_archive(rng: &mut Rng, most_records: usize) -> Vec<u8> {
    let mut bytes = any_archive(rng, most_records);
    for _ in 0..rng.range(1, 3) {
        let k = rng.index(bytes.len() / BLOCK);
        // Most often a byte that is named by something.
        let within = if rng.chance(1, 2) {
            rng.index(96)
        } else {
            rng.index(BLOCK)
        };
        let at = k * BLOCK + within;
        bytes[at] = match rng.below(3) {
            0 => rng.below(9) as u8,
            1 => bytes[at].wrapping_add(rng.pick(&[1, 255])),
            _ => rng.below(256) as u8,
        };
        if rng.chance(7, 8) {
            reseal(&mut bytes, k);
        }
    }
    bytes
}
