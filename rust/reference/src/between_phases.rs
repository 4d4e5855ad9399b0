//! The order of records of any phases: CR 2 in document 02.
//!
//! An archive is *well kept* when, for each station and phase, the own counts of
//! the station's records in that phase are 1, 2, 3 and so on, each once, in
//! whichever order the records stand.

use std::collections::BTreeMap;

use crate::archive::Archive;
use crate::order::{compare, Verdict};
use crate::record::Record;
use crate::refusal::Refusal;
use crate::{Counts, MAX_STATIONS};

/// The stations that an event has reached.
pub type Reached = [bool; MAX_STATIONS];

/// The last timestamp of each station in a phase, that of the greatest own
/// count; none for a station without a record there.
pub type LastTimestamps = [Option<Counts>; MAX_STATIONS];

/// Whether for each station and phase the own counts are 1, 2, 3 .., each once.
pub fn is_well_kept(records: &[Record]) -> bool {
    let place = |record: &Record| (record.phase, record.station, record.own_count());
    let mut places: Vec<(u32, u8, u16)> = records.iter().map(place).collect();
    places.sort();
    let mut stations = places.chunk_by(|a, b| (a.0, a.1) == (b.0, b.1));
    stations.all(|kept| {
        let mut own_counts = (1_usize..).zip(kept);
        own_counts.all(|(right, place)| usize::from(place.2) == right)
    })
}

/// The last timestamps in each phase that has records.
pub fn last_timestamps(records: &[Record]) -> BTreeMap<u32, LastTimestamps> {
    let mut last: BTreeMap<u32, LastTimestamps> = BTreeMap::new();
    for record in records {
        let station = usize::from(record.station);
        let here = &mut last.entry(record.phase).or_default()[station];
        if here.is_none_or(|counts| counts[station] < record.own_count()) {
            *here = Some(record.counts);
        }
    }
    last
}

/// Whether a timestamp has a count of at least 1 for a station that is reached.
fn knows_one(counts: &Counts, reached: &Reached) -> bool {
    (0..MAX_STATIONS).any(|k| reached[k] && counts[k] >= 1)
}

/// The records of a well-kept archive.
#[derive(Clone, Debug)]
pub struct WellKept {
    records: Vec<Record>,
    last: BTreeMap<u32, LastTimestamps>,
}

impl WellKept {
    /// Records by their numbers; 13 where they are not well kept.
    pub fn of(records: Vec<Record>) -> Result<WellKept, Refusal> {
        if !is_well_kept(&records) {
            return Err(Refusal::IllKept);
        }
        let last = last_timestamps(&records);
        Ok(WellKept { records, last })
    }

    /// The stations that a record reaches before a later phase: those whose last
    /// timestamp in its own phase has, for its station, at least its own count,
    /// and those that join in a phase between. A phase without records has none
    /// that join.
    pub fn reached_before(&self, record: &Record, phase: u32) -> Reached {
        let station = usize::from(record.station);
        let mut reached = self.last[&record.phase]
            .map(|last| last.is_some_and(|counts| counts[station] >= record.own_count()));
        for (_, last) in self.last.range(record.phase + 1..phase) {
            let before = reached;
            for (is_reached, last) in reached.iter_mut().zip(last) {
                *is_reached |= last.is_some_and(|counts| knows_one(&counts, &before));
            }
        }
        reached
    }

    /// Whether the first precedes the second, which is of a later phase.
    fn precedes(&self, first: &Record, second: &Record) -> bool {
        knows_one(&second.counts, &self.reached_before(first, second.phase))
    }

    /// The verdict on two records of any phases by their numbers, or 12.
    pub fn verdict(&self, first: usize, second: usize) -> Result<Verdict, Refusal> {
        let record = |number: usize| self.records.get(number).ok_or(Refusal::NoSuchRecord);
        let (first, second) = (record(first)?, record(second)?);
        Ok(if first.phase == second.phase {
            compare(&first.counts, &second.counts)
        } else if first.phase < second.phase && self.precedes(first, second) {
            Verdict::Before
        } else if second.phase < first.phase && self.precedes(second, first) {
            Verdict::After
        } else {
            Verdict::Unordered
        })
    }
}

/// The verdict on two records of an archive by their numbers, whatever their
/// phases. Refusals 1, 12, 13.
pub fn verdict(bytes: &[u8], first: usize, second: usize) -> Result<Verdict, Refusal> {
    let archive = Archive::open(bytes)?;
    archive.bytes_of(first)?;
    archive.bytes_of(second)?;
    let records = (0..archive.count()).map(|number| archive.record(number));
    WellKept::of(records.collect::<Result<_, _>>()?)?.verdict(first, second)
}
