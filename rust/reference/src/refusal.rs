//! The causes of a refusal and their numbers: the table of 'State area and
//! host' in document 01; CR 2 and CR 9 in document 02.

use std::fmt;

/// Why a call was refused.
#[derive(Clone, Copy, Debug, PartialEq, Eq, Hash, PartialOrd, Ord)]
pub enum Refusal {
    /// 1: a block, record or archive of wrong length, check, field or spare byte.
    Malformed,
    /// 2: not a well-formed state; or a step on one that no initial network
    /// reaches, after which an item, count or phase would be beyond its bound.
    IllFormedState,
    /// 3: a well-made header breaks a network rule.
    NetworkRule,
    /// 4: a station that is n or above, or a peer that is not a neighbour.
    NoSuchStationOrLink,
    /// 5: the mode forbids the send or start.
    ModeForbids,
    /// 6: the allowance or the link limit is used up in this phase.
    UsedUp,
    /// 7: recv from an empty link.
    EmptyLink,
    /// 8: start in phase 999,999.
    LastPhase,
    /// 10: verdict on records of different phases.
    DifferentPhases,
    /// 11: a list, write or read buffer too small, or an area of another length.
    BufferLength,
    /// 12: record number not in the block or archive; a write of 0 or over 15 records.
    NoSuchRecord,
    /// 13: a station's own counts in some phase of an archive are not 1, 2, 3 ..,
    /// each once.
    IllKept,
}

impl Refusal {
    /// Every refusal, by rising number.
    pub const ALL: [Refusal; 12] = [
        Refusal::Malformed,
        Refusal::IllFormedState,
        Refusal::NetworkRule,
        Refusal::NoSuchStationOrLink,
        Refusal::ModeForbids,
        Refusal::UsedUp,
        Refusal::EmptyLink,
        Refusal::LastPhase,
        Refusal::DifferentPhases,
        Refusal::BufferLength,
        Refusal::NoSuchRecord,
        Refusal::IllKept,
    ];

    /// The number of the table.
    pub fn number(self) -> u8 {
        match self {
            Refusal::Malformed => 1,
            Refusal::IllFormedState => 2,
            Refusal::NetworkRule => 3,
            Refusal::NoSuchStationOrLink => 4,
            Refusal::ModeForbids => 5,
            Refusal::UsedUp => 6,
            Refusal::EmptyLink => 7,
            Refusal::LastPhase => 8,
            Refusal::DifferentPhases => 10,
            Refusal::BufferLength => 11,
            Refusal::NoSuchRecord => 12,
            Refusal::IllKept => 13,
        }
    }

    /// The refusal with a number of the table.
    pub fn from_number(number: u8) -> Option<Refusal> {
        Refusal::ALL.into_iter().find(|r| r.number() == number)
    }
}

impl fmt::Display for Refusal {
    fn fmt(&self, f: &mut fmt::Formatter<'_>) -> fmt::Result {
        write!(f, "{}", self.number())
    }
}

impl std::error::Error for Refusal {}
