//! The two kinds of archive block.

use crate::refusal::{done, refused};
use crate::{raw, Record, Refusal, BLOCK, MAX_STATIONS, RECORD};

/// The bytes of a header's fields, as the library reads them.
const FIELDS: usize = 83;

/// The fields of a header: how a network is made.
///
/// Any values can be put together. A block needs them in their ranges
/// ([`Header::to_block`]); [`Network::setup`](crate::Network::setup) asks for
/// the network rules too.
///
/// ```
/// use melontime::{Header, Refusal};
///
/// let header = Header::new(3, 40).allow(0, 8)?.link(0, 1, 2)?.link(1, 2, 5)?;
/// let block = header.to_block()?;
/// assert_eq!(Header::read(&block)?, header);
/// # Ok::<(), Refusal>(())
/// ```
#[derive(Clone, Copy, Debug, PartialEq, Eq, Hash)]
#[must_use = "a header is changed by making another"]
pub struct Header {
    /// How many stations there are, 1 to 8. They are 0 to n - 1.
    pub n: u32,
    /// The ceiling of every count, 1 to 65,535.
    pub t: u16,
    /// Each station's own entries in a phase.
    pub allowances: [u16; MAX_STATIONS],
    /// `limits[i][j]` is how many messages go from i to j in a phase, 1 to 32;
    /// 0 where there is no link.
    pub limits: [[u8; MAX_STATIONS]; MAX_STATIONS],
}

impl Header {
    /// A header without allowances and links.
    pub fn new(n: u32, t: u16) -> Header {
        Header {
            n,
            t,
            allowances: [0; MAX_STATIONS],
            limits: [[0; MAX_STATIONS]; MAX_STATIONS],
        }
    }

    /// The header with this allowance of a station.
    ///
    /// # Errors
    ///
    /// [`Refusal::NoSuchStation`] for a station above 7, for which a header has
    /// no place. One of n to 7 is for setup to refuse.
    ///
    /// ```
    /// use melontime::{Header, Refusal};
    ///
    /// assert_eq!(Header::new(2, 7).allow(1, 3)?.allowances[1], 3);
    /// assert_eq!(Header::new(2, 7).allow(8, 3), Err(Refusal::NoSuchStation));
    /// # Ok::<(), Refusal>(())
    /// ```
    pub fn allow(mut self, station: u32, allowance: u16) -> Result<Header, Refusal> {
        self.allowances[place(station)?] = allowance;
        Ok(self)
    }

    /// The header with this link, of one limit both ways.
    ///
    /// # Errors
    ///
    /// [`Refusal::NoSuchStation`] as for [`allow`](Header::allow).
    pub fn link(mut self, station: u32, peer: u32, limit: u8) -> Result<Header, Refusal> {
        let (i, j) = (place(station)?, place(peer)?);
        self.limits[i][j] = limit;
        self.limits[j][i] = limit;
        Ok(self)
    }

    /// The header block of these fields.
    ///
    /// # Errors
    ///
    /// [`Refusal::Malformed`] where n, t or a limit is outside its range.
    ///
    /// ```
    /// use melontime::{Header, Refusal};
    ///
    /// assert!(Header::new(8, 1).to_block().is_ok());
    /// assert_eq!(Header::new(9, 1).to_block(), Err(Refusal::Malformed));
    /// ```
    pub fn to_block(&self) -> Result<[u8; BLOCK], Refusal> {
        let allowances = self.allowances.map(u16::to_le_bytes);
        let mut block = [0; BLOCK];
        let answer = raw::write_header(
            self.n,
            u32::from(self.t),
            allowances.as_flattened(),
            self.limits.as_flattened(),
            &mut block,
        );
        done("write_header", answer).map(|()| block)
    }

    /// The fields of a header block.
    ///
    /// # Errors
    ///
    /// [`Refusal::Malformed`] for bytes that are no header block.
    ///
    /// ```
    /// use melontime::{Header, Refusal};
    ///
    /// let mut block = Header::new(1, 9).to_block()?;
    /// assert_eq!(Header::read(&block)?.t, 9);
    /// block[100] = 1;
    /// assert_eq!(Header::try_from(&block[..]), Err(Refusal::Malformed));
    /// # Ok::<(), Refusal>(())
    /// ```
    pub fn read(block: &[u8]) -> Result<Header, Refusal> {
        let mut fields = [0; FIELDS];
        done("read_header", raw::read_header(block, &mut fields))?;
        let short = |at: usize| u16::from_le_bytes([fields[at], fields[at + 1]]);
        Ok(Header {
            n: fields[0].into(),
            t: short(1),
            allowances: std::array::from_fn(|i| short(3 + 2 * i)),
            limits: std::array::from_fn(|i| std::array::from_fn(|j| fields[19 + 8 * i + j])),
        })
    }
}

/// As [`Header::read`].
impl TryFrom<&[u8]> for Header {
    type Error = Refusal;

    fn try_from(block: &[u8]) -> Result<Header, Refusal> {
        Header::read(block)
    }
}

/// The place of a station in a header.
fn place(station: u32) -> Result<usize, Refusal> {
    let place = station as usize;
    if place < MAX_STATIONS {
        Ok(place)
    } else {
        Err(Refusal::NoSuchStation)
    }
}

/// The entries block of a number, from 1, and 1 to 15 records.
///
/// # Errors
///
/// [`Refusal::NoSuchRecord`] for another count of records, then
/// [`Refusal::Malformed`] for the number 0.
///
/// ```
/// use melontime::{write_entries, Header, Network, Refusal};
///
/// let mut network = Network::setup(&Header::new(1, 9).allow(0, 2)?)?;
/// let records = [network.enter(0, 7)?, network.enter(0, 8)?];
/// let block = write_entries(1, &records)?;
/// assert_eq!(block.len(), 512);
/// assert_eq!(write_entries(0, &records), Err(Refusal::Malformed));
/// assert_eq!(write_entries(1, &[]), Err(Refusal::NoSuchRecord));
/// # Ok::<(), Refusal>(())
/// ```
pub fn write_entries(number: u32, records: &[Record]) -> Result<[u8; BLOCK], Refusal> {
    let bytes: Vec<u8> = records.iter().flat_map(Record::as_bytes).copied().collect();
    let mut block = [0; BLOCK];
    let answer = raw::write_entries(number, &bytes, &mut block);
    done("write_entries", answer).map(|()| block)
}

/// An entries block that has passed its test.
///
/// ```
/// use melontime::{write_entries, EntriesBlock, Header, Network, Refusal};
///
/// let record = Network::setup(&Header::new(1, 9).allow(0, 2)?)?.enter(0, 7)?;
/// let bytes = write_entries(3, &[record])?;
/// let block = EntriesBlock::open(&bytes)?;
/// assert_eq!((block.number(), block.count()), (3, 1));
/// assert_eq!(block.record(0)?, record);
/// assert_eq!(block.record(1), Err(Refusal::NoSuchRecord));
/// # Ok::<(), Refusal>(())
/// ```
#[derive(Clone, Copy, Debug)]
pub struct EntriesBlock<'a> {
    block: &'a [u8],
    number: u32,
    count: usize,
}

impl<'a> EntriesBlock<'a> {
    /// Tests a block.
    ///
    /// # Errors
    ///
    /// [`Refusal::Malformed`] for bytes that are no entries block.
    pub fn open(block: &'a [u8]) -> Result<EntriesBlock<'a>, Refusal> {
        match raw::read_entries(block) {
            answer @ 1000.. => Ok(EntriesBlock {
                block,
                number: ((answer - 1000) / 16) as u32,
                count: ((answer - 1000) % 16) as usize,
            }),
            other => Err(refused("read_entries", other)),
        }
    }

    /// The block's number.
    #[must_use]
    pub fn number(&self) -> u32 {
        self.number
    }

    /// How many records it holds.
    #[must_use]
    pub fn count(&self) -> usize {
        self.count
    }

    /// Record k, from 0.
    ///
    /// # Errors
    ///
    /// [`Refusal::NoSuchRecord`] where there is none.
    pub fn record(&self, k: usize) -> Result<Record, Refusal> {
        let k = u32::try_from(k).map_err(|_| Refusal::NoSuchRecord)?;
        let mut bytes = [0; RECORD];
        let answer = raw::read_record(self.block, k, &mut bytes);
        done("read_record", answer).map(|()| Record::written(bytes))
    }
}

/// As [`EntriesBlock::open`].
impl<'a> TryFrom<&'a [u8]> for EntriesBlock<'a> {
    type Error = Refusal;

    fn try_from(block: &'a [u8]) -> Result<EntriesBlock<'a>, Refusal> {
        EntriesBlock::open(block)
    }
}
