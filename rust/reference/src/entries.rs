//! Entries blocks: 'Archive blocks' in document 01, with the starts of
//! document 02, CR 3.

use crate::check::{all_zero, is_sealed, seal, BLOCK};
use crate::record::{is_record, RECORD};
use crate::refusal::Refusal;

/// Most records of a block.
pub const MAX_RECORDS: usize = 15;

/// Where record k starts, from 0 to 14 (document 02, CR 3).
pub const fn start(k: usize) -> usize {
    16 + 32 * k
}

/// An entries block that has passed its test.
#[derive(Clone, Copy, Debug)]
pub struct EntriesBlock<'a> {
    block: &'a [u8],
}

impl<'a> EntriesBlock<'a> {
    /// Tests a block: 1 for a wrong length, check, field, spare byte or record.
    pub fn open(block: &'a [u8]) -> Result<EntriesBlock<'a>, Refusal> {
        if !is_sealed(block) || block[0] != 2 {
            return Err(Refusal::Malformed);
        }
        let opened = EntriesBlock { block };
        let count = opened.count();
        if count == 0 || count > MAX_RECORDS || opened.number() == 0 {
            return Err(Refusal::Malformed);
        }
        let spare = all_zero(&block[2..4]) && all_zero(&block[8..16]) && all_zero(&block[496..510]);
        let places = (0..MAX_RECORDS).all(|k| {
            let place = &block[start(k)..start(k) + RECORD];
            if k < count {
                is_record(place)
            } else {
                all_zero(place)
            }
        });
        if spare && places {
            Ok(opened)
        } else {
            Err(Refusal::Malformed)
        }
    }

    /// The block number (bytes 4 to 7).
    pub fn number(&self) -> u32 {
        u32::from_le_bytes([self.block[4], self.block[5], self.block[6], self.block[7]])
    }

    /// The count of records (byte 1).
    pub fn count(&self) -> usize {
        usize::from(self.block[1])
    }

    /// Record k, from 0; 12 where the block has none.
    pub fn record(&self, k: usize) -> Result<&'a [u8], Refusal> {
        if k < self.count() {
            Ok(&self.block[start(k)..start(k) + RECORD])
        } else {
            Err(Refusal::NoSuchRecord)
        }
    }
}

/// The sealed bytes of an entries block from its number and up to 15 records'
/// bytes, with no test of either.
pub fn block_untested(number: u32, records: &[u8]) -> [u8; BLOCK] {
    let mut block = [0; BLOCK];
    block[0] = 2;
    block[1] = (records.len() / RECORD) as u8;
    block[4..8].copy_from_slice(&number.to_le_bytes());
    for (k, record) in (0..MAX_RECORDS).zip(records.chunks(RECORD)) {
        block[start(k)..start(k) + record.len()].copy_from_slice(record);
    }
    seal(&mut block);
    block
}

/// The entries block writer: from a block number and its records' bytes into
/// the first 512 bytes of a buffer, the rest left.
///
/// Refusals, in this order: 12 for 0 or over 480 bytes of records; 1 for
/// another length that is no multiple of 32, a block number 0 or an ill-made
/// record; 11 for a buffer under 512 bytes.
pub fn write(number: u32, records: &[u8], buffer: &mut [u8]) -> Result<(), Refusal> {
    if records.is_empty() || records.len() > MAX_RECORDS * RECORD {
        return Err(Refusal::NoSuchRecord);
    }
    if !records.len().is_multiple_of(RECORD)
        || number == 0
        || !records.chunks(RECORD).all(is_record)
    {
        return Err(Refusal::Malformed);
    }
    if buffer.len() < BLOCK {
        return Err(Refusal::BufferLength);
    }
    buffer[..BLOCK].copy_from_slice(&block_untested(number, records));
    Ok(())
}

/// The number of an entries block, or 1.
pub fn read_number(block: &[u8]) -> Result<u32, Refusal> {
    Ok(EntriesBlock::open(block)?.number())
}

/// The count of records of an entries block, or 1.
pub fn read_count(block: &[u8]) -> Result<usize, Refusal> {
    Ok(EntriesBlock::open(block)?.count())
}

/// Copies record k (from 0) into the first 32 bytes of a buffer, the rest
/// left. Refusals 1, 12, 11, in this order.
pub fn read_record(block: &[u8], k: usize, buffer: &mut [u8]) -> Result<(), Refusal> {
    let record = EntriesBlock::open(block)?.record(k)?;
    if buffer.len() < RECORD {
        return Err(Refusal::BufferLength);
    }
    buffer[..RECORD].copy_from_slice(record);
    Ok(())
}
