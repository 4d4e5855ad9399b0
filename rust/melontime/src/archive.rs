//! Whole archives.

use crate::record::judged;
use crate::refusal::{done, refused};
use crate::{raw, write_entries, Header, Record, Refusal, Verdict, BLOCK, MAX_RECORDS, RECORD};

/// The bytes of the archive of a header and records: the header block, then
/// entries blocks of fifteen records, the last perhaps of fewer.
///
/// Whether the header knows every record's station and link is for
/// [`Archive::open`] to say.
///
/// # Errors
///
/// [`Refusal::Malformed`] where a field of the header is outside its range.
///
/// ```
/// use melontime::{archive_bytes, Archive, Header, Network, Refusal};
///
/// let header = Header::new(1, 40).allow(0, 40)?;
/// let mut network = Network::setup(&header)?;
/// let records = (0..16).map(|k| network.enter(0, k)).collect::<Result<Vec<_>, _>>()?;
/// let bytes = archive_bytes(&header, &records)?;
/// assert_eq!(bytes.len(), 3 * 512);
/// assert_eq!(Archive::open(&bytes)?.len(), 16);
/// # Ok::<(), Refusal>(())
/// ```
pub fn archive_bytes(header: &Header, records: &[Record]) -> Result<Vec<u8>, Refusal> {
    let mut bytes = header.to_block()?.to_vec();
    for (number, part) in (1..).zip(records.chunks(MAX_RECORDS)) {
        bytes.extend(write_entries(number, part)?);
    }
    Ok(bytes)
}

/// An archive that has passed its test, on its bytes.
///
/// Its records are numbered from 0. The library tests the whole archive again in
/// [`found`](Archive::found), [`verdict`](Archive::verdict) and
/// [`unordered`](Archive::unordered), since it trusts no bytes that it is lent;
/// [`records`](Archive::records) tests a block at a time.
#[derive(Clone, Copy, Debug)]
pub struct Archive<'a> {
    bytes: &'a [u8],
    count: u64,
}

impl<'a> Archive<'a> {
    /// Tests an archive.
    ///
    /// # Errors
    ///
    /// [`Refusal::Malformed`] for bytes that are no archive.
    ///
    /// ```
    /// use melontime::{Archive, Header, Refusal};
    ///
    /// let header = Header::new(1, 40).to_block()?;
    /// assert!(Archive::open(&header)?.is_empty());
    /// assert_eq!(Archive::try_from(&[][..]).unwrap_err(), Refusal::Malformed);
    /// # Ok::<(), Refusal>(())
    /// ```
    pub fn open(bytes: &'a [u8]) -> Result<Archive<'a>, Refusal> {
        match raw::archive_records(bytes) {
            answer @ 1000.. => Ok(Archive {
                bytes,
                count: answer - 1000,
            }),
            other => Err(refused("archive_records", other)),
        }
    }

    /// The archive's bytes.
    #[must_use]
    pub fn as_bytes(&self) -> &'a [u8] {
        self.bytes
    }

    /// The header's fields.
    pub fn header(&self) -> Header {
        Header::read(&self.bytes[..BLOCK]).expect("an archive begins with its header block")
    }

    /// How many records there are.
    #[must_use]
    pub fn len(&self) -> u64 {
        self.count
    }

    /// Whether there is no record.
    #[must_use]
    pub fn is_empty(&self) -> bool {
        self.count == 0
    }

    /// The record with a number.
    ///
    /// # Errors
    ///
    /// [`Refusal::NoSuchRecord`] where there is none.
    ///
    /// ```
    /// use melontime::{archive_bytes, Archive, Header, Network, Refusal};
    ///
    /// let header = Header::new(1, 40).allow(0, 40)?;
    /// let record = Network::setup(&header)?.enter(0, 7)?;
    /// let bytes = archive_bytes(&header, &[record])?;
    /// let archive = Archive::open(&bytes)?;
    /// assert_eq!(archive.found(0)?, record);
    /// assert_eq!(archive.found(1), Err(Refusal::NoSuchRecord));
    /// # Ok::<(), Refusal>(())
    /// ```
    pub fn found(&self, number: u64) -> Result<Record, Refusal> {
        let mut bytes = [0; RECORD];
        let answer = raw::found_record(self.bytes, number, &mut bytes);
        done("found_record", answer).map(|()| Record::written(bytes))
    }

    /// The order of two events of any phases, by the numbers of their records.
    ///
    /// In the archive of all events of a network since its setup this is
    /// happened-before, across resets too: the first is before the second where
    /// messages, and each station's own course, lead from one to the other. The
    /// whole archive is asked, whose records may stand in any order.
    ///
    /// # Errors
    ///
    /// [`Refusal::NoSuchRecord`] where there is no such record, then
    /// [`Refusal::IllKept`] where the archive is not well kept: see [`WellKept`].
    ///
    /// ```
    /// use melontime::{archive_bytes, Archive, Header, Network, Outcome, Refusal, Verdict};
    ///
    /// let header = Header::new(2, 7).allow(0, 3)?.allow(1, 3)?.link(0, 1, 2)?;
    /// let mut network = Network::setup(&header)?;
    /// let mut records = vec![network.enter(0, 1)?, network.enter(1, 2)?];
    /// // A reset, in which neither has heard of the other's entry.
    /// network.start(0)?;
    /// for (station, peer) in [(1, 0), (0, 1), (1, 0), (0, 1)] {
    ///     network.recv(station, peer)?;
    /// }
    /// records.push(network.enter(1, 3)?);
    /// records.push(network.send(0, 1, 4)?);
    /// let Outcome::Entry(receipt) = network.recv(1, 0)? else {
    ///     panic!("the link holds a message");
    /// };
    /// records.push(receipt.record);
    ///
    /// let bytes = archive_bytes(&header, &records)?;
    /// let archive = Archive::open(&bytes)?;
    /// assert_eq!(archive.verdict(0, 2)?, Verdict::Unordered);
    /// assert_eq!(archive.verdict(0, 4)?, Verdict::Before); // by the message
    /// assert_eq!(archive.verdict(3, 0)?, Verdict::After);
    /// assert_eq!(archive.verdict(2, 3)?, Verdict::Unordered); // of one phase
    /// assert_eq!(archive.verdict(2, 5), Err(Refusal::NoSuchRecord));
    ///
    /// // Two records alone do not tell it.
    /// let (first, second) = (archive.found(0)?, archive.found(4)?);
    /// assert_eq!(first.verdict(&second), Err(Refusal::DifferentPhases));
    /// # Ok::<(), Refusal>(())
    /// ```
    pub fn verdict(&self, first: u64, second: u64) -> Result<Verdict, Refusal> {
        let answer = raw::archive_verdict(self.bytes, first, second);
        judged("archive_verdict", answer)
    }

    /// The archive as one that is well kept.
    ///
    /// # Errors
    ///
    /// [`Refusal::IllKept`] where it is not.
    pub fn well_kept(self) -> Result<WellKept<'a>, Refusal> {
        // A verdict sees to it, also where both records are one and the same.
        match self.is_empty() {
            true => Ok(WellKept { archive: self }),
            false => self.verdict(0, 0).map(|_| WellKept { archive: self }),
        }
    }

    /// The numbers of the records of a record's phase that are unordered with
    /// it: by station, then by the count of that station, both rising. Records
    /// that have both in common, in an ill-kept archive, are by number.
    ///
    /// # Errors
    ///
    /// [`Refusal::NoSuchRecord`] where there is no such record.
    ///
    /// ```
    /// use melontime::{archive_bytes, Archive, Header, Network, Refusal};
    ///
    /// let mut header = Header::new(3, 9).link(0, 1, 1)?.link(1, 2, 1)?;
    /// for station in 0..3 {
    ///     header = header.allow(station, 2)?;
    /// }
    /// let mut network = Network::setup(&header)?;
    /// let [a, b] = [network.enter(0, 1)?, network.enter(0, 2)?];
    /// let [c, d] = [network.enter(1, 3)?, network.enter(1, 4)?];
    /// let e = network.enter(2, 5)?;
    ///
    /// // However the records are numbered, the list is a, b, c, d.
    /// let bytes = archive_bytes(&header, &[d, b, c, a, e])?;
    /// assert_eq!(Archive::open(&bytes)?.unordered(4)?, [3, 1, 2, 0]);
    /// # Ok::<(), Refusal>(())
    /// ```
    pub fn unordered(&self, number: u64) -> Result<Vec<u64>, Refusal> {
        let mut list = vec![0; self.count as usize];
        match raw::unordered(self.bytes, number, &mut list) {
            answer @ 1000.. => {
                list.truncate((answer - 1000) as usize);
                Ok(list)
            }
            other => Err(refused("unordered", other)),
        }
    }

    /// The records, in the order of their numbers.
    ///
    /// ```
    /// use melontime::{archive_bytes, Archive, Header, Network, Refusal};
    ///
    /// let header = Header::new(1, 40).allow(0, 40)?;
    /// let mut network = Network::setup(&header)?;
    /// let records = (0..17).map(|k| network.enter(0, k)).collect::<Result<Vec<_>, _>>()?;
    /// let bytes = archive_bytes(&header, &records)?;
    /// let archive = Archive::open(&bytes)?;
    /// assert!(archive.records().eq(records.iter().copied()));
    /// assert_eq!(archive.records().next_back(), records.last().copied());
    /// for record in &archive {
    ///     assert_eq!(record.station(), 0);
    /// }
    /// # Ok::<(), Refusal>(())
    /// ```
    pub fn records(&self) -> Records<'a> {
        Records {
            blocks: &self.bytes[BLOCK..],
            numbers: 0..self.count as usize,
        }
    }
}

/// As [`Archive::open`].
impl<'a> TryFrom<&'a [u8]> for Archive<'a> {
    type Error = Refusal;

    fn try_from(bytes: &'a [u8]) -> Result<Archive<'a>, Refusal> {
        Archive::open(bytes)
    }
}

impl<'a> IntoIterator for &Archive<'a> {
    type Item = Record;
    type IntoIter = Records<'a>;

    fn into_iter(self) -> Records<'a> {
        self.records()
    }
}

impl<'a> IntoIterator for Archive<'a> {
    type Item = Record;
    type IntoIter = Records<'a>;

    fn into_iter(self) -> Records<'a> {
        self.records()
    }
}

/// An archive that is well kept: for each station and phase, the counts that its
/// records there have for the station itself are 1, 2, 3 and so on, each once. Then
/// there is an order of any two of its records.
///
/// The archive of a network's events since its setup is well kept, whole or up to
/// some event, and in whichever order the records stand. One that lacks an event
/// before another of its station and phase is not, nor one that has an event twice.
///
/// ```
/// use melontime::{archive_bytes, Header, Network, Refusal, Verdict, WellKept};
///
/// let header = Header::new(1, 9).allow(0, 2)?;
/// let mut network = Network::setup(&header)?;
/// let mut records = vec![network.enter(0, 1)?, network.enter(0, 2)?];
/// network.start(0)?; // a reset of one
/// records.push(network.enter(0, 3)?);
///
/// let bytes = archive_bytes(&header, &records)?;
/// let kept = WellKept::open(&bytes)?;
/// assert_eq!(kept.verdict(1, 2), Some(Verdict::Before));
/// assert_eq!(kept.verdict(2, 0), Some(Verdict::After));
/// assert_eq!(kept.verdict(2, 3), None);
///
/// let bytes = archive_bytes(&header, &records[1..])?;
/// assert_eq!(WellKept::open(&bytes).unwrap_err(), Refusal::IllKept);
/// # Ok::<(), Refusal>(())
/// ```
#[derive(Clone, Copy, Debug)]
pub struct WellKept<'a> {
    archive: Archive<'a>,
}

impl<'a> WellKept<'a> {
    /// Tests an archive, and that it is well kept.
    ///
    /// # Errors
    ///
    /// [`Refusal::Malformed`] for bytes that are no archive, then
    /// [`Refusal::IllKept`].
    pub fn open(bytes: &'a [u8]) -> Result<WellKept<'a>, Refusal> {
        Archive::open(bytes)?.well_kept()
    }

    /// The archive.
    #[must_use]
    pub fn archive(&self) -> Archive<'a> {
        self.archive
    }

    /// The order of two events of any phases, as [`Archive::verdict`]; none where
    /// there is no such record.
    #[must_use]
    pub fn verdict(&self, first: u64, second: u64) -> Option<Verdict> {
        match self.archive.verdict(first, second) {
            Ok(verdict) => Some(verdict),
            Err(Refusal::NoSuchRecord) => None,
            Err(other) => panic!("a well-kept archive is {other}"),
        }
    }
}

/// As [`WellKept::open`].
impl<'a> TryFrom<&'a [u8]> for WellKept<'a> {
    type Error = Refusal;

    fn try_from(bytes: &'a [u8]) -> Result<WellKept<'a>, Refusal> {
        WellKept::open(bytes)
    }
}

/// The records of an [`Archive`], in the order of their numbers.
#[derive(Clone, Debug)]
#[must_use = "it reads nothing before it is asked for a record"]
pub struct Records<'a> {
    blocks: &'a [u8],
    numbers: std::ops::Range<usize>,
}

impl Records<'_> {
    fn read(&self, number: usize) -> Record {
        let block = &self.blocks[number / MAX_RECORDS * BLOCK..][..BLOCK];
        let mut bytes = [0; RECORD];
        let answer = raw::read_record(block, (number % MAX_RECORDS) as u32, &mut bytes);
        done("read_record", answer).expect("the archive has passed its test");
        Record::written(bytes)
    }
}

impl Iterator for Records<'_> {
    type Item = Record;

    fn next(&mut self) -> Option<Record> {
        self.numbers.next().map(|number| self.read(number))
    }

    fn nth(&mut self, n: usize) -> Option<Record> {
        self.numbers.nth(n).map(|number| self.read(number))
    }

    fn size_hint(&self) -> (usize, Option<usize>) {
        self.numbers.size_hint()
    }
}

impl DoubleEndedIterator for Records<'_> {
    fn next_back(&mut self) -> Option<Record> {
        self.numbers.next_back().map(|number| self.read(number))
    }
}

impl ExactSizeIterator for Records<'_> {}

impl std::iter::FusedIterator for Records<'_> {}
