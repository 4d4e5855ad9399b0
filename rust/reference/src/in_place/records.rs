//! Records where they stand. A record's first four bytes, its *front*, are
//! tested by one look into a table of the fronts that are right.

use super::head::{Head, DIAGONAL, ONES};
use super::lanes::counts_at;
use crate::order::Verdict;
use crate::record::{NO_PEER, RECORD};
use crate::refusal::Refusal;
use crate::{Counts, LAST_PHASE, MAX_STATIONS};

/// Right fronts, each in its place; elsewhere a number whose place is another.
pub(super) type Fronts = [u32; 256];

/// No front is right: 0 has place 0, and 1 has another.
const NO_FRONTS: Fronts = {
    let mut fronts = [0; 256];
    fronts[0] = 1;
    fronts
};

/// Every front of a well-made record.
static FRONTS: Fronts = {
    let mut fronts = NO_FRONTS;
    let mut k = 0;
    while k < MAX_STATIONS * MAX_STATIONS {
        let (i, j) = (k / MAX_STATIONS, k % MAX_STATIONS);
        fronts[place(own(i))] = own(i);
        if i != j {
            fronts[place(sent(i, j))] = sent(i, j);
            fronts[place(received(i, j))] = received(i, j);
        }
        k += 1;
    }
    fronts
};

/// The place of a front: a product brings its kind (bits 0 and 1), station (8
/// to 10) and peer (16 to 18) together in the top byte, and the rest of an own
/// entry's peer takes 8 away from that. So no two right fronts share a place.
const fn place(front: u32) -> usize {
    (front.wrapping_mul(1 << 30 | 1 << 19 | 1 << 8) >> 24) as usize
}

const fn own(i: usize) -> u32 {
    u32::from_le_bytes([1, i as u8, NO_PEER, 0])
}

const fn sent(i: usize, j: usize) -> u32 {
    u32::from_le_bytes([2, i as u8, j as u8, 0])
}

const fn received(i: usize, j: usize) -> u32 {
    u32::from_le_bytes([3, i as u8, j as u8, 0])
}

/// Leaves of 64 fronts those with a bit.
fn keep(fronts: &mut [u32], bits: u64) {
    // Each byte of a row has its own bit of it, so that it is 0 or not.
    let rows = bits
        .to_le_bytes()
        .map(|row| ((u64::from(row) * ONES) & DIAGONAL).to_le_bytes());
    for (front, &bit) in fronts.iter_mut().zip(rows.as_flattened()) {
        *front = if bit == 0 { 0 } else { *front };
    }
}

/// The fronts of the records that a header admits, and those of own entries of
/// stations that it lacks: their own count is above 0, and so too high.
pub(super) fn fronts_of(head: &Head) -> Fronts {
    let (out, back) = head.links();
    let stations = head.stations();
    let mut fronts = FRONTS;
    keep(&mut fronts[place(sent(0, 0))..][..64], out & stations);
    keep(&mut fronts[place(received(0, 0))..][..64], back & stations);
    fronts
}

/// What is seen of records but for their counts, gathered with no branch.
#[derive(Default)]
pub(super) struct Seen {
    /// The greatest phase, above its front.
    phase: u64,
    /// Spare bytes, above the register number.
    spare: u64,
    /// Where fronts differ from the right ones.
    fronts: u32,
    /// Own counts less 1: of 16 bits, but for an own count of 0.
    own: u32,
}

impl Seen {
    #[inline(always)]
    pub(super) fn add(&mut self, record: &[u8; RECORD], fronts: &Fronts) {
        let (words, _) = record.as_chunks::<8>();
        let first = u64::from_le_bytes(words[0]);
        let front = first as u32;
        self.phase = self.phase.max(first);
        self.spare |= u64::from_le_bytes(words[1]);
        self.fronts |= fronts[place(front)] ^ front;
        self.own |= u32::from(own_count_of(record)).wrapping_sub(1);
    }

    pub(super) fn fits(&self) -> bool {
        let phases = self.phase >> 32 <= u64::from(LAST_PHASE);
        phases & (self.spare >> 32 == 0) & (self.fronts == 0) & (self.own >> 16 == 0)
    }
}

pub(super) fn counts_of(record: &[u8; RECORD]) -> Counts {
    let (halves, _) = record.as_chunks::<16>();
    counts_at(&halves[1])
}

pub(super) fn phase_of(record: &[u8; RECORD]) -> [u8; 4] {
    [record[4], record[5], record[6], record[7]]
}

/// The station. The remainder changes none that is right: it shows the compiler
/// that the number is small.
#[inline(always)]
pub(super) fn station_of(record: &[u8; RECORD]) -> usize {
    usize::from(record[1]) % MAX_STATIONS
}

#[inline(always)]
pub(super) fn own_count_of(record: &[u8; RECORD]) -> u16 {
    let at = 16 + 2 * station_of(record);
    u16::from_le_bytes([record[at], record[at + 1]])
}

/// Whether the first has a count below the other's, and one above.
#[inline(always)]
pub(super) fn differ(first: &Counts, second: &Counts) -> (bool, bool) {
    let (mut below, mut above) = (false, false);
    for k in 0..MAX_STATIONS {
        below |= first[k] < second[k];
        above |= first[k] > second[k];
    }
    (below, above)
}

/// The verdict on two records' bytes, as [`crate::order::verdict`].
pub fn verdict(first: &[u8], second: &[u8]) -> Result<Verdict, Refusal> {
    let (Ok(first), Ok(second)) = (first.try_into(), second.try_into()) else {
        return Err(Refusal::Malformed);
    };
    let mut seen = Seen::default();
    seen.add(first, &FRONTS);
    seen.add(second, &FRONTS);
    if !seen.fits() {
        return Err(Refusal::Malformed);
    }
    if phase_of(first) != phase_of(second) {
        return Err(Refusal::DifferentPhases);
    }
    Ok(match differ(&counts_of(first), &counts_of(second)) {
        (true, false) => Verdict::Before,
        (false, true) => Verdict::After,
        (false, false) => Verdict::Same,
        (true, true) => Verdict::Unordered,
    })
}
