//! The record of an event, and the order of two.

use std::fmt;

use crate::refusal::refused;
use crate::{raw, Refusal, MAX_STATIONS, RECORD};

/// The kind of an event.
#[derive(Clone, Copy, Debug, PartialEq, Eq, Hash)]
pub enum Kind {
    /// An own entry of the station.
    Own,
    /// A message sent to the peer.
    Sent,
    /// A message received from the peer.
    Received,
}

/// The order of two events.
#[derive(Clone, Copy, Debug, PartialEq, Eq, Hash)]
pub enum Verdict {
    /// The first happened before the second.
    Before,
    /// The second happened before the first.
    After,
    /// They bear the same timestamp.
    Same,
    /// Neither happened before the other.
    Unordered,
}

impl fmt::Display for Verdict {
    fn fmt(&self, f: &mut fmt::Formatter<'_>) -> fmt::Result {
        f.write_str(match self {
            Verdict::Before => "before",
            Verdict::After => "after",
            Verdict::Same => "same",
            Verdict::Unordered => "unordered",
        })
    }
}

/// The record of an event: 32 bytes that the library has made or tested.
///
/// ```
/// use melontime::{Header, Kind, Network, Record, Refusal};
///
/// let header = Header::new(2, 7).link(0, 1, 2)?;
/// let record = Network::setup(&header)?.send(0, 1, 502)?;
/// assert_eq!(record.kind(), Kind::Sent);
/// assert_eq!((record.station(), record.peer()), (0, Some(1)));
/// assert_eq!((record.phase(), record.register()), (0, 502));
/// assert_eq!(record.counts(), [1, 0, 0, 0, 0, 0, 0, 0]);
///
/// assert_eq!(Record::from_bytes(record.as_bytes()), Ok(record));
/// assert_eq!(Record::try_from(&[0; 32][..]), Err(Refusal::Malformed));
/// # Ok::<(), Refusal>(())
/// ```
#[derive(Clone, Copy, PartialEq, Eq, Hash)]
pub struct Record([u8; RECORD]);

impl Record {
    /// The record that the library has written.
    pub(crate) fn written(bytes: [u8; RECORD]) -> Record {
        Record(bytes)
    }

    /// The record that these bytes are.
    ///
    /// # Errors
    ///
    /// [`Refusal::Malformed`] for bytes that are no record.
    pub fn from_bytes(bytes: &[u8]) -> Result<Record, Refusal> {
        // A verdict tests both of its records, and one is the same as itself.
        verdict(bytes, bytes)?;
        let bytes = bytes.try_into().map_err(|_| Refusal::Malformed)?;
        Ok(Record(bytes))
    }

    /// The record's 32 bytes, as an archive holds them.
    #[must_use]
    pub fn as_bytes(&self) -> &[u8; RECORD] {
        &self.0
    }

    /// The kind of the event.
    #[must_use]
    pub fn kind(&self) -> Kind {
        match self.0[0] {
            1 => Kind::Own,
            2 => Kind::Sent,
            3 => Kind::Received,
            other => panic!("a record of kind {other}"),
        }
    }

    /// The station whose event it is.
    #[must_use]
    pub fn station(&self) -> u32 {
        u32::from(self.0[1])
    }

    /// The peer to which the message went or from which it came; none for an
    /// own entry.
    #[must_use]
    pub fn peer(&self) -> Option<u32> {
        match self.kind() {
            Kind::Own => None,
            Kind::Sent | Kind::Received => Some(u32::from(self.0[2])),
        }
    }

    /// The station's phase at the event.
    #[must_use]
    pub fn phase(&self) -> u32 {
        self.long(4)
    }

    /// The register number; of a receipt, the message's.
    #[must_use]
    pub fn register(&self) -> u32 {
        self.long(8)
    }

    /// The timestamp: a count for each station.
    #[must_use]
    pub fn counts(&self) -> [u16; MAX_STATIONS] {
        std::array::from_fn(|k| u16::from_le_bytes([self.0[16 + 2 * k], self.0[17 + 2 * k]]))
    }

    /// The order of this event and another of its phase. Across resets two records
    /// alone do not tell it: see [`Archive::verdict`](crate::Archive::verdict).
    ///
    /// # Errors
    ///
    /// [`Refusal::DifferentPhases`] where they are of different phases.
    ///
    /// ```
    /// use melontime::{Header, Network, Refusal, Verdict};
    ///
    /// let header = Header::new(2, 7).allow(0, 3)?.allow(1, 3)?.link(0, 1, 2)?;
    /// let mut network = Network::setup(&header)?;
    /// let (a, b, c) = (network.enter(0, 1)?, network.enter(0, 2)?, network.enter(1, 3)?);
    /// assert_eq!(a.verdict(&b)?, Verdict::Before);
    /// assert_eq!(b.verdict(&a)?, Verdict::After);
    /// assert_eq!(a.verdict(&a)?, Verdict::Same);
    /// assert_eq!(b.verdict(&c)?, Verdict::Unordered);
    /// # Ok::<(), Refusal>(())
    /// ```
    pub fn verdict(&self, other: &Record) -> Result<Verdict, Refusal> {
        verdict(&self.0, &other.0)
    }

    fn long(&self, at: usize) -> u32 {
        u32::from_le_bytes([self.0[at], self.0[at + 1], self.0[at + 2], self.0[at + 3]])
    }
}

impl fmt::Debug for Record {
    fn fmt(&self, f: &mut fmt::Formatter<'_>) -> fmt::Result {
        f.debug_struct("Record")
            .field("kind", &self.kind())
            .field("station", &self.station())
            .field("peer", &self.peer())
            .field("phase", &self.phase())
            .field("register", &self.register())
            .field("counts", &self.counts())
            .finish()
    }
}

/// As [`Record::from_bytes`].
impl TryFrom<&[u8]> for Record {
    type Error = Refusal;

    fn try_from(bytes: &[u8]) -> Result<Record, Refusal> {
        Record::from_bytes(bytes)
    }
}

impl AsRef<[u8]> for Record {
    fn as_ref(&self) -> &[u8] {
        &self.0
    }
}

/// The order of two events by the bytes of their records.
///
/// # Errors
///
/// [`Refusal::Malformed`] for bytes that are no record, then
/// [`Refusal::DifferentPhases`].
///
/// ```
/// use melontime::{verdict, Refusal};
///
/// assert_eq!(verdict(&[0; 32], &[]), Err(Refusal::Malformed));
/// ```
pub fn verdict(first: &[u8], second: &[u8]) -> Result<Verdict, Refusal> {
    judged("verdict", raw::verdict(first, second))
}

/// The answer of a call that gives the order of two records.
pub(crate) fn judged(call: &str, number: u64) -> Result<Verdict, Refusal> {
    match number {
        100 => Ok(Verdict::Before),
        101 => Ok(Verdict::After),
        102 => Ok(Verdict::Same),
        103 => Ok(Verdict::Unordered),
        other => Err(refused(call, other)),
    }
}
