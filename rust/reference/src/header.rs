//! Header blocks ('Archive blocks') and the network rules ('The network') of
//! document 01.

use crate::check::{all_zero, is_sealed, seal, BLOCK};
use crate::refusal::Refusal;
use crate::MAX_STATIONS;

/// The greatest limit of a link.
pub const MAX_LIMIT: u8 = 32;

/// The fields of a header: any numbers that their bytes can hold.
#[derive(Clone, Copy, Debug, PartialEq, Eq, Hash)]
pub struct Header {
    /// n, the number of stations (byte 1).
    pub stations: u8,
    /// t, the ceiling of each count (bytes 2 and 3).
    pub ceiling: u16,
    /// The eight allowances (bytes 16 to 31).
    pub allowances: [u16; MAX_STATIONS],
    /// The limits, `limits[i][j]` of the link from i to j (bytes 32 to 95).
    pub limits: [[u8; MAX_STATIONS]; MAX_STATIONS],
}

impl Header {
    /// A header without allowances and links.
    pub fn new(stations: u8, ceiling: u16) -> Header {
        Header {
            stations,
            ceiling,
            allowances: [0; MAX_STATIONS],
            limits: [[0; MAX_STATIONS]; MAX_STATIONS],
        }
    }

    /// n as an index.
    pub fn n(&self) -> usize {
        usize::from(self.stations)
    }

    /// Whether n, t and every limit are in their ranges: 1 to 8, 1 to 65,535,
    /// 0 to 32. ("A header with n, t or a limit outside its range is a wrong
    /// field, number 1.")
    pub fn in_range(&self) -> bool {
        (1..=MAX_STATIONS as u8).contains(&self.stations)
            && self.ceiling >= 1
            && self
                .limits
                .iter()
                .flatten()
                .all(|&limit| limit <= MAX_LIMIT)
    }

    /// The 512 bytes of the header block; 1 for a field outside its range.
    pub fn to_block(&self) -> Result<[u8; BLOCK], Refusal> {
        if !self.in_range() {
            return Err(Refusal::Malformed);
        }
        Ok(self.to_block_untested())
    }

    /// The sealed bytes of these fields, whatever their ranges.
    pub fn to_block_untested(&self) -> [u8; BLOCK] {
        let mut block = [0; BLOCK];
        block[0] = 1;
        block[1] = self.stations;
        block[2..4].copy_from_slice(&self.ceiling.to_le_bytes());
        for (i, allowance) in self.allowances.iter().enumerate() {
            block[16 + 2 * i..18 + 2 * i].copy_from_slice(&allowance.to_le_bytes());
        }
        for (i, row) in self.limits.iter().enumerate() {
            block[32 + 8 * i..40 + 8 * i].copy_from_slice(row);
        }
        seal(&mut block);
        block
    }

    /// The header writer: into the first 512 bytes of a buffer, the rest left.
    /// Refusals 1, then 11.
    pub fn write(&self, buffer: &mut [u8]) -> Result<(), Refusal> {
        let block = self.to_block()?;
        if buffer.len() < BLOCK {
            return Err(Refusal::BufferLength);
        }
        buffer[..BLOCK].copy_from_slice(&block);
        Ok(())
    }

    /// The header reader: the fields of a header block, or 1.
    pub fn read(block: &[u8]) -> Result<Header, Refusal> {
        if !is_sealed(block) {
            return Err(Refusal::Malformed);
        }
        let word = |at: usize| u16::from_le_bytes([block[at], block[at + 1]]);
        let header = Header {
            stations: block[1],
            ceiling: word(2),
            allowances: std::array::from_fn(|i| word(16 + 2 * i)),
            limits: std::array::from_fn(|i| std::array::from_fn(|j| block[32 + 8 * i + j])),
        };
        let spare = all_zero(&block[4..16]) && all_zero(&block[96..510]);
        if block[0] == 1 && spare && header.in_range() {
            Ok(header)
        } else {
            Err(Refusal::Malformed)
        }
    }

    /// The limit of the link from i to j; 0 for stations that no table holds.
    pub fn limit(&self, i: usize, j: usize) -> u8 {
        if i < MAX_STATIONS && j < MAX_STATIONS {
            self.limits[i][j]
        } else {
            0
        }
    }

    /// The stations with a link from i, in rising order.
    pub fn neighbours(&self, i: usize) -> impl Iterator<Item = usize> + '_ {
        (0..MAX_STATIONS).filter(move |&j| self.limit(i, j) > 0)
    }

    /// Ai + the sum over neighbours j of (Lij + Lji).
    pub fn load(&self, i: usize) -> u32 {
        let links: u32 = self
            .neighbours(i)
            .map(|j| u32::from(self.limits[i][j]) + u32::from(self.limits[j][i]))
            .sum();
        u32::from(self.allowances[i]) + links
    }

    /// Zero diagonal, and Lij is 0 exactly when Lji is.
    pub fn links_are_paired(&self) -> bool {
        (0..MAX_STATIONS).all(|i| {
            self.limits[i][i] == 0
                && (0..MAX_STATIONS).all(|j| (self.limits[i][j] == 0) == (self.limits[j][i] == 0))
        })
    }

    /// Nothing is set for stations n and above.
    pub fn nothing_beyond(&self) -> bool {
        let n = self.n();
        (0..MAX_STATIONS).all(|i| i < n || self.allowances[i] == 0)
            && (0..MAX_STATIONS)
                .all(|i| (0..MAX_STATIONS).all(|j| (i < n && j < n) || self.limits[i][j] == 0))
    }

    /// Every station can be reached from station 0. A station that no table
    /// holds is reached by none.
    pub fn all_reached(&self) -> bool {
        let mut reached = [false; MAX_STATIONS];
        let mut open = vec![0];
        reached[0] = true;
        while let Some(i) = open.pop() {
            for j in self.neighbours(i) {
                if !reached[j] {
                    reached[j] = true;
                    open.push(j);
                }
            }
        }
        (0..self.n()).all(|i| i < MAX_STATIONS && reached[i])
    }

    /// For each i, Ai + the sum over neighbours j of (Lij + Lji) ≤ t.
    pub fn loads_within_ceiling(&self) -> bool {
        (0..self.n().min(MAX_STATIONS)).all(|i| self.load(i) <= u32::from(self.ceiling))
    }

    /// All network rules.
    pub fn obeys_network_rules(&self) -> bool {
        self.links_are_paired()
            && self.nothing_beyond()
            && self.all_reached()
            && self.loads_within_ceiling()
    }

    /// What setup asks of the fields: 1 for a range, then 3 for a rule.
    pub fn accept(&self) -> Result<(), Refusal> {
        if !self.in_range() {
            Err(Refusal::Malformed)
        } else if !self.obeys_network_rules() {
            Err(Refusal::NetworkRule)
        } else {
            Ok(())
        }
    }
}
