//! The order of records of any phases, on the bytes of an archive. Where each
//! station's records come by phase and own count, as in the archive of a run, one
//! pass tests the archive, sees that it is well kept and finds the stations that
//! are reached. [`crate::between_phases`] is the plain implementation.

use super::archives::{place, places, record_count, test};
use super::records::{counts_of, differ, own_count_of, phase_of, station_of};
use crate::check::BLOCK;
use crate::entries::MAX_RECORDS;
use crate::order::Verdict;
use crate::record::RECORD;
use crate::refusal::Refusal;
use crate::{Counts, MAX_STATIONS};

/// The bits of an own count.
const OWN: u32 = 16;

/// A phase from 1 on, and behind it an own count: the place of a record among
/// those of its station.
#[inline(always)]
fn place_of(record: &[u8; RECORD]) -> u64 {
    let phase = u32::from_le_bytes(phase_of(record));
    (u64::from(phase) + 1) << OWN | u64::from(own_count_of(record))
}

/// A phase from 1 on, in lanes of 32 bits.
fn phase_in(place: u64) -> i32 {
    (place >> OWN) as i32
}

/// The phase behind which a station is reached that never is.
const NEVER: i32 = i32::MAX;

/// The stations that a record reaches, each from a phase on.
struct Reach {
    station: usize,
    own_count: u16,
    first_phase: i32,
    second_phase: i32,
    /// Behind this phase the station is reached.
    from: [i32; MAX_STATIONS],
    /// The greatest phase in which the station was known and did not count as
    /// reached.
    missed: [i32; MAX_STATIONS],
    /// Whether a station was found to be reached after one that knew it was taken.
    late: bool,
}

impl Reach {
    fn of(first: &[u8; RECORD], second: &[u8; RECORD]) -> Reach {
        Reach {
            station: station_of(first),
            own_count: own_count_of(first),
            first_phase: phase_in(place_of(first)),
            second_phase: phase_in(place_of(second)),
            from: [NEVER; MAX_STATIONS],
            missed: [0; MAX_STATIONS],
            late: false,
        }
    }

    /// Takes the last record of a station in a phase. Phases may come in any
    /// order; where that was too late for some, all are to be taken once more.
    #[inline(always)]
    fn take_last(&mut self, station: usize, phase: i32, record: &[u8; RECORD]) {
        let between = (phase >= self.first_phase) & (phase < self.second_phase);
        if between & (phase < self.from[station]) {
            let counts = counts_of(record);
            let joins = match phase == self.first_phase {
                true => counts[self.station] >= self.own_count,
                false => self.knows_one(&counts, phase),
            };
            if joins {
                self.from[station] = phase;
                self.late |= self.missed[station] > phase;
            }
        }
    }

    /// Whether a timestamp has a count for a station that is reached before a
    /// phase; those that are not are missed.
    #[inline(always)]
    fn knows_one(&mut self, counts: &Counts, phase: i32) -> bool {
        let mut known = [0; MAX_STATIONS];
        for k in 0..MAX_STATIONS {
            let counted = -i32::from(counts[k] > 0);
            let reached = -i32::from(self.from[k] < phase);
            known[k] = counted & reached;
            self.missed[k] = self.missed[k].max(phase & counted & !reached);
        }
        known.iter().fold(0, |all, known| all | known) != 0
    }
}

/// Goes along records, each station's by phase and own count, and hands the last
/// one of each station in each phase to the reach.
struct Walk<'a> {
    reach: Reach,
    /// The place of each station's record before, and the record.
    before: [(u64, &'a [u8; RECORD]); MAX_STATIONS],
    /// Whether the own counts in each phase were 1, 2, 3 .. so far.
    in_order: bool,
}

/// Before each station's first record.
const NONE: [(u64, &[u8; RECORD]); MAX_STATIONS] = [(0, &[0; RECORD]); MAX_STATIONS];

impl<'a> Walk<'a> {
    fn new(first: &[u8; RECORD], second: &[u8; RECORD]) -> Walk<'a> {
        Walk {
            reach: Reach::of(first, second),
            before: NONE,
            in_order: true,
        }
    }

    #[inline(always)]
    fn add(&mut self, station: usize, place: u64, record: &'a [u8; RECORD]) {
        let (before, last) = self.before[station];
        let starts = (place as u16 == 1) & (place > before);
        self.in_order &= starts | (place == before + 1);
        if starts {
            self.reach.take_last(station, phase_in(before), last);
        }
        self.before[station] = (place, record);
    }

    #[inline(always)]
    fn add_block(&mut self, block: &'a [u8; BLOCK]) {
        for record in &places(block)[..usize::from(block[1]).min(MAX_RECORDS)] {
            self.add(station_of(record), place_of(record), record);
        }
    }

    /// Takes what each station has last.
    fn end(&mut self) {
        let before = std::mem::replace(&mut self.before, NONE);
        for (station, (place, record)) in before.into_iter().enumerate() {
            self.reach.take_last(station, phase_in(place), record);
        }
    }

    /// Goes along all records until nothing is late. What was too late is in time
    /// the next time, so that a walk more is due for each station at most.
    fn repeat(&mut self, blocks: &'a [[u8; BLOCK]]) {
        while std::mem::take(&mut self.reach.late) {
            self.reach.missed = [0; MAX_STATIONS];
            for block in blocks {
                self.add_block(block);
            }
            self.end();
        }
    }

    /// Goes along all records in the order of phase, station and own count. What
    /// is last in a phase is taken before the next, so nothing is late.
    fn go_sorted(&mut self, blocks: &'a [[u8; BLOCK]], narrow: bool) {
        let mut phase = 0;
        let mut add = |key: u64, number: usize| {
            if phase != key >> (OWN + 3) {
                phase = key >> (OWN + 3);
                self.end();
            }
            let record = &places(&blocks[number / MAX_RECORDS])[number % MAX_RECORDS];
            let place = phase << OWN | (key % (1 << OWN));
            self.add((key >> OWN) as usize % MAX_STATIONS, place, record);
        };
        if narrow {
            for key in sorted(blocks, |key, number| key << NUMBER | number as u64) {
                add(key >> NUMBER, key as usize % (1 << NUMBER));
            }
        } else {
            let wide = |key, number| u128::from(key) << 64 | number as u128;
            for key in sorted(blocks, wide) {
                add((key >> 64) as u64, key as usize);
            }
        }
        self.end();
    }
}

/// Bits of a record's number where all that it is sorted by leaves them free.
const NUMBER: u32 = 25;

/// A key for each record, of its phase, station and own count and of its number,
/// in order.
fn sorted<K: Ord>(blocks: &[[u8; BLOCK]], key: impl Fn(u64, usize) -> K) -> Vec<K> {
    let mut keys = Vec::with_capacity(MAX_RECORDS * blocks.len());
    for (b, block) in blocks.iter().enumerate() {
        let records = &places(block)[..usize::from(block[1])];
        keys.extend(records.iter().enumerate().map(|(k, record)| {
            let (place, station) = (place_of(record), station_of(record) as u64);
            let place = (place >> OWN) << (OWN + 3) | station << OWN | (place % (1 << OWN));
            key(place, MAX_RECORDS * b + k)
        }));
    }
    keys.sort_unstable();
    keys
}

/// The verdict on two records by their numbers, as
/// [`crate::between_phases::verdict`].
pub fn verdict(bytes: &[u8], first: usize, second: usize) -> Result<Verdict, Refusal> {
    let (Some(x), Some(y)) = (place(bytes, first), place(bytes, second)) else {
        return record_count(bytes).and(Err(Refusal::NoSuchRecord));
    };
    let mirrored = place_of(x) >> OWN > place_of(y) >> OWN;
    let (earlier, later) = if mirrored { (y, x) } else { (x, y) };
    let mut walk = Walk::new(earlier, later);
    let (blocks, count) = test(bytes, |_, block| {
        if walk.in_order {
            walk.add_block(block);
        }
    })?;
    if first >= count || second >= count {
        return Err(Refusal::NoSuchRecord);
    }
    if walk.in_order {
        walk.end();
        walk.repeat(blocks);
    } else {
        walk = Walk::new(earlier, later);
        walk.go_sorted(blocks, count <= 1 << NUMBER);
    }
    if !walk.in_order {
        return Err(Refusal::IllKept);
    }
    Ok(judge(walk.reach, earlier, later, mirrored))
}

/// The verdict where all that is reached is known.
fn judge(
    mut reach: Reach,
    earlier: &[u8; RECORD],
    later: &[u8; RECORD],
    mirrored: bool,
) -> Verdict {
    let counts = counts_of(later);
    let (below, above) = match reach.first_phase == reach.second_phase {
        true => differ(&counts_of(earlier), &counts),
        false => (true, !reach.knows_one(&counts, reach.second_phase)),
    };
    match (below, above) {
        (true, true) => Verdict::Unordered,
        (false, false) => Verdict::Same,
        _ if below != mirrored => Verdict::Before,
        _ => Verdict::After,
    }
}

#[cfg(test)]
mod tests {
    use super::*;
    use crate::archive;
    use crate::generate::well_kept_parts;
    use crate::random::Rng;

    /// Archives of too many records for narrow keys are walked in the same way.
    #[test]
    fn wide_keys() {
        let mut rng = Rng::new(1);
        for _ in 0..200 {
            let (header, records) = well_kept_parts(&mut rng, 9, 4);
            let bytes = archive::build(&header, &records).expect("an archive");
            let (blocks, _) = bytes[BLOCK..].as_chunks::<BLOCK>();
            if records.is_empty() {
                continue;
            }
            let mut any = || place(&bytes, rng.index(records.len())).expect("a record");
            let (first, second) = (any(), any());
            let walked = |narrow| {
                let mut walk = Walk::new(first, second);
                walk.go_sorted(blocks, narrow);
                (walk.in_order, walk.reach.from)
            };
            assert_eq!(walked(true), walked(false));
            assert!(walked(true).0);
        }
    }
}
