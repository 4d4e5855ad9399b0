//! Bytes taken many at a time, in forms that the compiler makes vector code of
//! on plain x86-64: loops with no branch over lanes of 16 bits or over words.

use crate::{Counts, MAX_STATIONS};

/// The columns of a row, two bytes each.
const COLUMNS: usize = 16;

/// A row of the check: the length of a record.
pub(super) const ROW: usize = 2 * COLUMNS;

/// A row's columns, each with its even byte low and its odd byte high.
pub(super) type Lanes = [u16; COLUMNS];

pub(super) fn lanes(row: &[u8; ROW]) -> Lanes {
    std::array::from_fn(|j| u16::from_le_bytes([row[2 * j], row[2 * j + 1]]))
}

/// Sums of up to 16 rows by columns, taken from the first row to the last, as
/// memory is read fastest. A high sum has a row's bytes once for each row behind
/// it, so that no product is made. Whole columns are added, even + 256 × odd,
/// beside their odd bytes: less 255 × odd that is even + odd, modulo 65,536,
/// which is above both.
#[derive(Default)]
pub(super) struct Sums {
    low: Lanes,
    high: Lanes,
    odd_low: Lanes,
    odd_high: Lanes,
}

impl Sums {
    #[inline(always)]
    pub(super) fn add(&mut self, row: &Lanes) {
        for (j, &lane) in row.iter().enumerate() {
            self.high[j] = self.high[j].wrapping_add(self.low[j]);
            self.low[j] = self.low[j].wrapping_add(lane);
            self.odd_high[j] = self.odd_high[j].wrapping_add(self.odd_low[j]);
            self.odd_low[j] = self.odd_low[j].wrapping_add(lane >> 8);
        }
    }

    /// The sum of the rows' bytes, each times its place, that of the last row's
    /// first byte being `last`: a row's places are less by its length than those
    /// of the next. The remainder changes nothing: it shows the compiler that
    /// the product is small.
    #[inline(always)]
    pub(super) fn weighted(&self, last: u32) -> u32 {
        let mut sum = 0;
        for j in 0..COLUMNS {
            let (odd, odd_high) = (self.odd_low[j], self.odd_high[j]);
            let both = self.low[j].wrapping_sub(odd.wrapping_mul(255)) % 8192;
            let both_high = self.high[j].wrapping_sub(odd_high.wrapping_mul(255));
            let at = last + 2 * j as u32;
            sum += at * u32::from(both) + u32::from(odd) - ROW as u32 * u32::from(both_high);
        }
        sum
    }
}

/// Whether a weighted sum of the first 510 bytes has this check.
pub(super) fn has_check(sum: u32, check: [u8; 2]) -> bool {
    (1 + sum) % 65_521 == u32::from(u16::from_le_bytes(check))
}

/// The greatest count of each station in a network of n and ceiling t.
pub(super) fn greatest(n: usize, t: u16) -> Counts {
    std::array::from_fn(|k| if k < n { t } else { 0 })
}

/// Gathers in `above` by how much counts are above their bounds.
#[inline(always)]
pub(super) fn exceed(above: &mut Counts, counts: &Counts, most: &Counts) {
    for k in 0..MAX_STATIONS {
        above[k] |= counts[k].saturating_sub(most[k]);
    }
}

pub(super) fn counts_at(bytes: &[u8; 16]) -> Counts {
    std::array::from_fn(|k| u16::from_le_bytes([bytes[2 * k], bytes[2 * k + 1]]))
}

pub(super) fn no_count(counts: &Counts) -> bool {
    counts.iter().fold(0, |all, count| all | count) == 0
}

/// The bytes joined by or. The last 16 may be taken twice, which spares a loop
/// over single bytes.
fn join(bytes: &[u8]) -> u128 {
    let Some(&last) = bytes.last_chunk::<16>() else {
        return bytes.iter().fold(0, |all, &byte| all | u128::from(byte));
    };
    let (words, _) = bytes.as_chunks::<16>();
    let words = words.iter().map(|&word| u128::from_le_bytes(word));
    words.fold(u128::from_le_bytes(last), |all, word| all | word)
}

/// Whether every byte is zero. Of many bytes, lines that start at a multiple of
/// 64 are read fastest.
pub(super) fn zeros(bytes: &[u8]) -> bool {
    if bytes.len() < 512 {
        return join(bytes) == 0;
    }
    let lead = bytes.as_ptr().align_offset(64).min(bytes.len());
    let (lead, rest) = bytes.split_at(lead);
    let (lines, rest) = rest.as_chunks::<64>();
    let mut all = [0; 8];
    for line in lines {
        let (words, _) = line.as_chunks::<8>();
        for (all, &word) in all.iter_mut().zip(words) {
            *all |= u64::from_le_bytes(word);
        }
    }
    (all == [0; 8]) & (join(lead) | join(rest) == 0)
}
