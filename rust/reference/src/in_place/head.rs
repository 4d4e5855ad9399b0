//! A header block where it stands, and the network rules on its rows of eight
//! limits, each row taken as one word.

use super::lanes::{has_check, lanes, zeros, Sums, ROW};
use crate::check::{BLOCK, CHECKED};
use crate::header::MAX_LIMIT;
use crate::refusal::Refusal;
use crate::MAX_STATIONS;

/// The bytes that a header names are before this one.
const NAMED: usize = 3 * ROW;

/// 1 in each of eight bytes.
pub(super) const ONES: u64 = u64::from_le_bytes([1; 8]);

/// The diagonal of an eight by eight table of bits.
pub(super) const DIAGONAL: u64 = 0x8040_2010_0804_0201;

/// A well-made header block.
#[derive(Clone, Copy)]
pub(super) struct Head<'a> {
    block: &'a [u8; BLOCK],
}

/// 1 in each byte of a row of limits that is not 0: a limit is at most 32.
pub(super) fn links_of(row: u64) -> u64 {
    (row + 0x7f * ONES) >> 7 & ONES
}

impl<'a> Head<'a> {
    /// The header block, or 1.
    pub(super) fn of(block: &'a [u8]) -> Result<Head<'a>, Refusal> {
        let block: &[u8; BLOCK] = block.try_into().map_err(|_| Refusal::Malformed)?;
        let head = Head { block };
        let limits = &block[32..NAMED];
        let small = limits.iter().fold(true, |all, &l| all & (l <= MAX_LIMIT));
        let spare = zeros(&block[4..16]) & zeros(&block[NAMED..CHECKED]);
        let named = (block[0] == 1) & (1..=8).contains(&block[1]) & (head.ceiling() > 0);
        if named & small & spare & head.is_sealed() {
            Ok(head)
        } else {
            Err(Refusal::Malformed)
        }
    }

    /// Whether the check is right where no unnamed byte weighs.
    fn is_sealed(&self) -> bool {
        let (rows, _) = self.block[..NAMED].as_chunks::<ROW>();
        let mut sums = Sums::default();
        for row in rows {
            sums.add(&lanes(row));
        }
        let check = [self.block[CHECKED], self.block[CHECKED + 1]];
        has_check(sums.weighted((NAMED - ROW) as u32 + 1), check)
    }

    pub(super) fn n(&self) -> usize {
        usize::from(self.block[1])
    }

    pub(super) fn ceiling(&self) -> u16 {
        u16::from_le_bytes([self.block[2], self.block[3]])
    }

    pub(super) fn allowance(&self, i: usize) -> u16 {
        u16::from_le_bytes([self.block[16 + 2 * i], self.block[17 + 2 * i]])
    }

    pub(super) fn limit(&self, i: usize, j: usize) -> u8 {
        self.block[32 + MAX_STATIONS * i + j]
    }

    /// The limits of the links from each station, a byte for each peer.
    pub(super) fn rows(&self) -> [u64; MAX_STATIONS] {
        let (rows, _) = self.block[32..NAMED].as_chunks::<8>();
        std::array::from_fn(|i| u64::from_le_bytes(rows[i]))
    }

    /// The links as bits: of those out, byte i has a bit for each j with a link
    /// from i; of those in, for each j with a link to i.
    pub(super) fn links(&self) -> (u64, u64) {
        let (mut out, mut back) = (0, 0);
        for (i, &row) in self.rows().iter().enumerate() {
            let links = links_of(row);
            // The product brings bit 0 of byte j to bit 56 + j.
            out |= (links.wrapping_mul(0x0102_0408_1020_4080) >> 56) << (8 * i);
            back |= links << i;
        }
        (out, back)
    }

    /// A bit for each pair of stations.
    pub(super) fn stations(&self) -> u64 {
        let above = MAX_STATIONS - self.n();
        (ONES * (0xff >> above)) & (u64::MAX >> (8 * above))
    }

    /// The network rules, or 3.
    pub(super) fn obeys(&self) -> Result<(), Refusal> {
        let n = self.n();
        let (out, back) = self.links();
        let paired = (out == back) & (out & DIAGONAL == 0);
        let none_above =
            (out & !self.stations() == 0) & (n..MAX_STATIONS).all(|i| self.allowance(i) == 0);
        if paired & none_above && reaches_all(out, n) && self.loads_fit() {
            Ok(())
        } else {
            Err(Refusal::NetworkRule)
        }
    }

    /// For each i, its allowance and the limits of its links are at most t. The
    /// diagonal is zero, so a byte holds the limits of seven links.
    fn loads_fit(&self) -> bool {
        let rows = self.rows();
        let back = rows.iter().fold(0_u64, |sum, &row| sum.wrapping_add(row));
        let back = back.to_le_bytes();
        (0..MAX_STATIONS).fold(true, |fit, i| {
            let out = (rows[i].wrapping_mul(ONES) >> 56) as u32;
            let load = u32::from(self.allowance(i)) + out + u32::from(back[i]);
            fit & (load <= u32::from(self.ceiling()))
        })
    }
}

/// Whether every station below n can be reached from station 0.
fn reaches_all(out: u64, n: usize) -> bool {
    let links = out.to_le_bytes();
    let all = 0xff >> (MAX_STATIONS - n);
    let mut reached = 1;
    loop {
        let before = reached;
        for (i, &links) in links.iter().enumerate() {
            reached |= if reached >> i & 1 == 1 { links } else { 0 };
        }
        if (reached == all) | (reached == before) {
            return reached == all;
        }
    }
}
