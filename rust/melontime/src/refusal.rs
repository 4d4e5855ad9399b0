//! Refusals and the numbers of the library's answers.

use std::fmt;

/// Why a call was refused. The call has changed nothing.
///
/// Later versions may refuse for other causes.
///
/// ```
/// use melontime::{Header, Network, Refusal};
///
/// let mut network = Network::setup(&Header::new(1, 5).allow(0, 1)?)?;
/// network.enter(0, 1)?;
/// let refusal = network.enter(0, 2).unwrap_err();
/// assert_eq!(refusal, Refusal::UsedUp);
/// assert_eq!(refusal.number(), 6);
/// assert_eq!(Refusal::from_number(6), Some(Refusal::UsedUp));
/// assert_eq!(Refusal::from_number(0), None);
/// # Ok::<(), Refusal>(())
/// ```
#[derive(Clone, Copy, Debug, PartialEq, Eq, Hash, PartialOrd, Ord)]
#[repr(u8)]
#[non_exhaustive]
pub enum Refusal {
    /// 1: a block, record or archive of wrong length, check, field or spare byte.
    Malformed = 1,
    /// 2: bytes that are no image of a well-formed network; or a step on the
    /// bytes of a network that steps from an initial one do not lead to, after
    /// which a link would hold more than its limit and 2 items, a count would be
    /// above the ceiling, or a phase above 999,999. No step of a
    /// [`Reached`](crate::Reached) network meets it.
    IllFormedState = 2,
    /// 3: a well-made header breaks a network rule.
    NetworkRule = 3,
    /// 4: no such station, or a peer that is no neighbour.
    NoSuchStation = 4,
    /// 5: the station's mode forbids the send or start.
    ModeForbids = 5,
    /// 6: the allowance or the link's limit is used up in this phase.
    UsedUp = 6,
    /// 7: the link holds nothing to receive.
    EmptyLink = 7,
    /// 8: start in phase 999,999.
    LastPhase = 8,
    /// 10: a verdict on records of different phases.
    DifferentPhases = 10,
    /// 11: an area or list that is too small, or of another length than asked.
    AreaLength = 11,
    /// 12: no record of this number; a write of 0 or over 15 records.
    NoSuchRecord = 12,
    /// 13: an archive is asked for the order of two records, and in some phase the
    /// own counts of a station are not 1, 2, 3 and so on, each once.
    IllKept = 13,
}

impl Refusal {
    /// Every refusal, by rising number.
    const ALL: &[Refusal] = &[
        Refusal::Malformed,
        Refusal::IllFormedState,
        Refusal::NetworkRule,
        Refusal::NoSuchStation,
        Refusal::ModeForbids,
        Refusal::UsedUp,
        Refusal::EmptyLink,
        Refusal::LastPhase,
        Refusal::DifferentPhases,
        Refusal::AreaLength,
        Refusal::NoSuchRecord,
        Refusal::IllKept,
    ];

    /// The refusal's number.
    #[must_use]
    pub fn number(self) -> u8 {
        self as u8
    }

    /// The refusal with a number; none where no refusal has it.
    #[must_use]
    pub fn from_number(number: u64) -> Option<Refusal> {
        let mut all = Refusal::ALL.iter().copied();
        all.find(|refusal| u64::from(refusal.number()) == number)
    }
}

impl fmt::Display for Refusal {
    fn fmt(&self, f: &mut fmt::Formatter<'_>) -> fmt::Result {
        let cause = match self {
            Refusal::Malformed => "a block, record or archive is not well made",
            Refusal::IllFormedState => {
                "the bytes are no well-formed network, or one that no initial network reaches"
            }
            Refusal::NetworkRule => "the header breaks a network rule",
            Refusal::NoSuchStation => "no such station or neighbour",
            Refusal::ModeForbids => "the station's mode forbids it",
            Refusal::UsedUp => "the allowance or limit of this phase is used up",
            Refusal::EmptyLink => "the link is empty",
            Refusal::LastPhase => "the phase is the last",
            Refusal::DifferentPhases => "the records are of different phases",
            Refusal::AreaLength => "an area has the wrong length",
            Refusal::NoSuchRecord => "no such record, or no such number of records",
            Refusal::IllKept => "the archive lacks records of a station, or has some twice",
        };
        write!(f, "refused with {}: {cause}", self.number())
    }
}

impl std::error::Error for Refusal {}

/// The refusal of an answer that is nothing else. The library's contracts leave
/// no other number, so one is a fault of the build and not of the caller.
pub(crate) fn refused(call: &str, number: u64) -> Refusal {
    match Refusal::from_number(number) {
        Some(refusal) => refusal,
        None => panic!("melontime_{call} answered {number}, which is none of its numbers"),
    }
}

/// The answer of a call that only writes: 0 where it is done.
pub(crate) fn done(call: &str, number: u64) -> Result<(), Refusal> {
    match number {
        0 => Ok(()),
        other => Err(refused(call, other)),
    }
}
