//! The record of an entry, 32 bytes: 'Archive blocks' in document 01.

use crate::check::all_zero;
use crate::refusal::Refusal;
use crate::{Counts, LAST_PHASE, MAX_STATIONS};

/// A record is 32 bytes.
pub const RECORD: usize = 32;

/// The peer of a record of kind own.
pub const NO_PEER: u8 = 255;

/// The kind of an entry (byte 0).
#[derive(Clone, Copy, Debug, PartialEq, Eq, Hash)]
pub enum Kind {
    /// 1: an own entry.
    Own,
    /// 2: a message sent.
    Sent,
    /// 3: a message received.
    Received,
}

impl Kind {
    /// The number in byte 0.
    pub fn number(self) -> u8 {
        match self {
            Kind::Own => 1,
            Kind::Sent => 2,
            Kind::Received => 3,
        }
    }

    /// The kind with a number.
    pub fn from_number(number: u8) -> Option<Kind> {
        match number {
            1 => Some(Kind::Own),
            2 => Some(Kind::Sent),
            3 => Some(Kind::Received),
            _ => None,
        }
    }
}

/// The fields of a record.
#[derive(Clone, Copy, Debug, PartialEq, Eq, Hash)]
pub struct Record {
    /// Byte 0.
    pub kind: Kind,
    /// Byte 1.
    pub station: u8,
    /// Byte 2: 255 for own.
    pub peer: u8,
    /// Bytes 4 to 7.
    pub phase: u32,
    /// Bytes 8 to 11.
    pub register: u32,
    /// Bytes 16 to 31: the timestamp.
    pub counts: Counts,
}

impl Record {
    /// Whether the fields are right: station below 8; the peer 255 for own,
    /// else below 8 and another station; the phase at most 999,999; the own
    /// count at least 1.
    pub fn is_well_made(&self) -> bool {
        let station = usize::from(self.station);
        let peer_fits = match self.kind {
            Kind::Own => self.peer == NO_PEER,
            Kind::Sent | Kind::Received => {
                usize::from(self.peer) < MAX_STATIONS && self.peer != self.station
            }
        };
        station < MAX_STATIONS && peer_fits && self.phase <= LAST_PHASE && self.counts[station] >= 1
    }

    /// The count of the record's own station, which is below 8.
    pub fn own_count(&self) -> u16 {
        self.counts[usize::from(self.station)]
    }

    /// The bytes of the fields, whether right or not.
    pub fn to_bytes(&self) -> [u8; RECORD] {
        let mut bytes = [0; RECORD];
        bytes[0] = self.kind.number();
        bytes[1] = self.station;
        bytes[2] = self.peer;
        bytes[4..8].copy_from_slice(&self.phase.to_le_bytes());
        bytes[8..12].copy_from_slice(&self.register.to_le_bytes());
        for (k, count) in self.counts.iter().enumerate() {
            bytes[16 + 2 * k..18 + 2 * k].copy_from_slice(&count.to_le_bytes());
        }
        bytes
    }

    /// The fields of a record, or 1 for a wrong length, field or spare byte.
    pub fn read(bytes: &[u8]) -> Result<Record, Refusal> {
        if bytes.len() != RECORD {
            return Err(Refusal::Malformed);
        }
        let kind = Kind::from_number(bytes[0]).ok_or(Refusal::Malformed)?;
        let long = |at: usize| {
            u32::from_le_bytes([bytes[at], bytes[at + 1], bytes[at + 2], bytes[at + 3]])
        };
        let record = Record {
            kind,
            station: bytes[1],
            peer: bytes[2],
            phase: long(4),
            register: long(8),
            counts: std::array::from_fn(|k| {
                u16::from_le_bytes([bytes[16 + 2 * k], bytes[17 + 2 * k]])
            }),
        };
        let spare = bytes[3] == 0 && all_zero(&bytes[12..16]);
        if spare && record.is_well_made() {
            Ok(record)
        } else {
            Err(Refusal::Malformed)
        }
    }
}

/// The record test.
pub fn is_record(bytes: &[u8]) -> bool {
    Record::read(bytes).is_ok()
}
