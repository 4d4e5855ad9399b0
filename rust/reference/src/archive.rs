//! Archives: 'Archive blocks' in document 01.
//!
//! An archive is a header block and then entries blocks, perhaps none. Its
//! records are numbered from 0. The network rules are not tested here.

use crate::check::BLOCK;
use crate::entries::{self, EntriesBlock, MAX_RECORDS};
use crate::header::Header;
use crate::order::{compare, verdict_of_records, Verdict};
use crate::record::{Kind, Record, RECORD};
use crate::refusal::Refusal;
use crate::MAX_STATIONS;

/// An archive that has passed the whole test.
#[derive(Clone, Copy, Debug)]
pub struct Archive<'a> {
    bytes: &'a [u8],
    header: Header,
    count: usize,
}

/// Whether a header admits a record: station and link exist, no count is above
/// t, or above 0 for a station n or above.
pub fn admits(header: &Header, record: &Record) -> bool {
    let n = header.n();
    let (station, peer) = (usize::from(record.station), usize::from(record.peer));
    let named = station < n
        && match record.kind {
            Kind::Own => true,
            Kind::Sent => peer < n && header.limit(station, peer) > 0,
            Kind::Received => peer < n && header.limit(peer, station) > 0,
        };
    named
        && (0..MAX_STATIONS).all(|k| {
            let most = if k < n { header.ceiling } else { 0 };
            record.counts[k] <= most
        })
}

impl<'a> Archive<'a> {
    /// The whole-archive test: 1 for anything wrong.
    pub fn open(bytes: &'a [u8]) -> Result<Archive<'a>, Refusal> {
        if bytes.is_empty() || !bytes.len().is_multiple_of(BLOCK) {
            return Err(Refusal::Malformed);
        }
        let header = Header::read(&bytes[..BLOCK])?;
        let last = bytes.len() / BLOCK - 1;
        let mut count = 0;
        for (at, bytes) in bytes.chunks(BLOCK).enumerate().skip(1) {
            let block = EntriesBlock::open(bytes)?;
            if block.number() as usize != at || (at < last && block.count() < MAX_RECORDS) {
                return Err(Refusal::Malformed);
            }
            for k in 0..block.count() {
                if !admits(&header, &Record::read(block.record(k)?)?) {
                    return Err(Refusal::Malformed);
                }
            }
            count += block.count();
        }
        Ok(Archive {
            bytes,
            header,
            count,
        })
    }

    /// The header's fields.
    pub fn header(&self) -> &Header {
        &self.header
    }

    /// The number of records.
    pub fn count(&self) -> usize {
        self.count
    }

    /// The bytes of record r, a part of the archive; 12 where there is none.
    pub fn bytes_of(&self, r: usize) -> Result<&'a [u8], Refusal> {
        if r >= self.count {
            return Err(Refusal::NoSuchRecord);
        }
        let start = BLOCK * (1 + r / MAX_RECORDS) + entries::start(r % MAX_RECORDS);
        Ok(&self.bytes[start..start + RECORD])
    }

    /// The fields of record r; 12 where there is none.
    pub fn record(&self, r: usize) -> Result<Record, Refusal> {
        Record::read(self.bytes_of(r)?)
    }

    /// The numbers of the records of r's phase that are unordered with it: by
    /// station, then own count, both rising, and equal pairs by number; 12 where
    /// there is no record r.
    pub fn unordered(&self, r: usize) -> Result<Vec<usize>, Refusal> {
        let of = self.record(r)?;
        let mut keys = Vec::new();
        for k in 0..self.count {
            let other = self.record(k)?;
            if other.phase == of.phase && compare(&of.counts, &other.counts) == Verdict::Unordered {
                keys.push((other.station, other.own_count(), k));
            }
        }
        keys.sort();
        Ok(keys.into_iter().map(|(_, _, number)| number).collect())
    }
}

/// The whole-archive test.
pub fn test(bytes: &[u8]) -> Result<(), Refusal> {
    Archive::open(bytes).map(|_| ())
}

/// The number of records, or 1.
pub fn record_count(bytes: &[u8]) -> Result<usize, Refusal> {
    Ok(Archive::open(bytes)?.count())
}

/// The found record: the part of the archive that holds record r. Refusals 1, 12.
pub fn found_record(bytes: &[u8], r: usize) -> Result<&[u8], Refusal> {
    Archive::open(bytes)?.bytes_of(r)
}

/// The unordered list of record r, in the order of [`Archive::unordered`], into
/// the first places of a buffer; answers how many, and leaves the places past
/// the list's end. Refusals 1, 12, 11.
pub fn unordered_list(bytes: &[u8], r: usize, places: &mut [usize]) -> Result<usize, Refusal> {
    let list = Archive::open(bytes)?.unordered(r)?;
    if places.len() < list.len() {
        return Err(Refusal::BufferLength);
    }
    places[..list.len()].copy_from_slice(&list);
    Ok(list.len())
}

/// The verdict on two records by their numbers. Refusals 1, 12, 10.
pub fn verdict_by_number(bytes: &[u8], a: usize, b: usize) -> Result<Verdict, Refusal> {
    let archive = Archive::open(bytes)?;
    verdict_of_records(&archive.record(a)?, &archive.record(b)?)
}

/// A reader: it stands on an archive and a record's number.
#[derive(Clone, Copy, Debug)]
pub struct Reader<'a> {
    archive: Archive<'a>,
    number: usize,
}

impl<'a> Reader<'a> {
    /// A reader on record r. Refusals 1, 12.
    pub fn new(bytes: &'a [u8], r: usize) -> Result<Reader<'a>, Refusal> {
        let archive = Archive::open(bytes)?;
        archive.bytes_of(r)?;
        Ok(Reader { archive, number: r })
    }

    /// The number of the record it stands on.
    pub fn number(&self) -> usize {
        self.number
    }

    /// The bytes of the record it stands on.
    pub fn record(&self) -> &'a [u8] {
        let start =
            BLOCK * (1 + self.number / MAX_RECORDS) + entries::start(self.number % MAX_RECORDS);
        &self.archive.bytes[start..start + RECORD]
    }

    /// Moves on by one; from the last record 12, and it stays.
    pub fn advance(&mut self) -> Result<(), Refusal> {
        self.archive.bytes_of(self.number + 1)?;
        self.number += 1;
        Ok(())
    }
}

/// The bytes of the archive of a header and records, with no test of either:
/// every block full but the last, numbered from 1.
pub fn build_untested(header: &Header, records: &[[u8; RECORD]]) -> Vec<u8> {
    let mut bytes = header.to_block_untested().to_vec();
    for (k, chunk) in records.chunks(MAX_RECORDS).enumerate() {
        bytes.extend(entries::block_untested(k as u32 + 1, &chunk.concat()));
    }
    bytes
}

/// The bytes of the archive of a header and records; 1 if it would be none.
pub fn build(header: &Header, records: &[Record]) -> Result<Vec<u8>, Refusal> {
    let records: Vec<[u8; RECORD]> = records.iter().map(Record::to_bytes).collect();
    let bytes = build_untested(header, &records);
    test(&bytes)?;
    Ok(bytes)
}
