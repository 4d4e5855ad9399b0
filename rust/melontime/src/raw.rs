//! The library's calls as they are, on numbers and slices.
//!
//! Each answers a number; `docs/HOST.md` lists what it means. No call has a
//! precondition: whatever the slices hold and however long they are, it
//! answers, and a refusal changes nothing. The other modules of this crate are
//! built on these functions and are the ones to use.
//!
//! ```
//! use melontime::raw;
//!
//! let mut area = vec![0; 65_536];
//! assert_eq!(raw::setup(&[0; 512], &mut area), 1);
//! assert_eq!(raw::rest(&area), 2);
//! ```

// The one place for unsafe code. For every call below the same reason holds: a
// slice passes as the pointer and length of a Rust slice, which is valid for
// that many items and not null; a mutable one is borrowed for the call alone,
// so no other overlaps it; and the library keeps no pointer.
#![allow(unsafe_code)]

mod library {
    extern "C" {
        pub fn melontime_setup(
            block: *const u8,
            block_length: usize,
            area: *mut u8,
            area_length: usize,
        ) -> u64;
        pub fn melontime_enter(
            area: *mut u8,
            area_length: usize,
            event: *mut u8,
            event_length: usize,
            station: u32,
            register: u32,
        ) -> u64;
        pub fn melontime_send(
            area: *mut u8,
            area_length: usize,
            event: *mut u8,
            event_length: usize,
            station: u32,
            peer: u32,
            register: u32,
        ) -> u64;
        pub fn melontime_recv(
            area: *mut u8,
            area_length: usize,
            event: *mut u8,
            event_length: usize,
            station: u32,
            peer: u32,
        ) -> u64;
        pub fn melontime_start(
            area: *mut u8,
            area_length: usize,
            event: *mut u8,
            event_length: usize,
            station: u32,
        ) -> u64;
        pub fn melontime_rest(area: *const u8, area_length: usize) -> u64;
        pub fn melontime_receipts_to_rest(area: *const u8, area_length: usize) -> u64;
        pub fn melontime_verdict(
            first: *const u8,
            first_length: usize,
            second: *const u8,
            second_length: usize,
        ) -> u64;
        pub fn melontime_write_header(
            n: u32,
            t: u32,
            allowances: *const u8,
            allowances_length: usize,
            limits: *const u8,
            limits_length: usize,
            area: *mut u8,
            area_length: usize,
        ) -> u64;
        pub fn melontime_read_header(
            block: *const u8,
            block_length: usize,
            fields: *mut u8,
            fields_length: usize,
        ) -> u64;
        pub fn melontime_write_entries(
            number: u32,
            records: *const u8,
            records_length: usize,
            area: *mut u8,
            area_length: usize,
        ) -> u64;
        pub fn melontime_read_entries(block: *const u8, block_length: usize) -> u64;
        pub fn melontime_read_record(
            block: *const u8,
            block_length: usize,
            k: u32,
            area: *mut u8,
            area_length: usize,
        ) -> u64;
        pub fn melontime_archive_records(archive: *const u8, archive_length: usize) -> u64;
        pub fn melontime_found_record(
            archive: *const u8,
            archive_length: usize,
            number: u64,
            area: *mut u8,
            area_length: usize,
        ) -> u64;
        pub fn melontime_unordered(
            archive: *const u8,
            archive_length: usize,
            number: u64,
            list: *mut u64,
            list_length: usize,
        ) -> u64;
        pub fn melontime_archive_verdict(
            archive: *const u8,
            archive_length: usize,
            first: u64,
            second: u64,
        ) -> u64;
    }
}

/// Makes an area the initial network of a header block.
#[must_use]
pub fn setup(block: &[u8], area: &mut [u8]) -> u64 {
    // SAFETY: see the head of this module.
    unsafe { library::melontime_setup(block.as_ptr(), block.len(), area.as_mut_ptr(), area.len()) }
}

/// An own entry of a station.
#[must_use]
pub fn enter(area: &mut [u8], event: &mut [u8], station: u32, register: u32) -> u64 {
    // SAFETY: see the head of this module.
    unsafe {
        library::melontime_enter(
            area.as_mut_ptr(),
            area.len(),
            event.as_mut_ptr(),
            event.len(),
            station,
            register,
        )
    }
}

/// A message from a station to its peer.
#[must_use]
pub fn send(area: &mut [u8], event: &mut [u8], station: u32, peer: u32, register: u32) -> u64 {
    // SAFETY: see the head of this module.
    unsafe {
        library::melontime_send(
            area.as_mut_ptr(),
            area.len(),
            event.as_mut_ptr(),
            event.len(),
            station,
            peer,
            register,
        )
    }
}

/// A station takes the first item of the link from its peer. Of a message the
/// answer is 100 + its news: how many of the other stations' counts grew.
#[must_use]
pub fn recv(area: &mut [u8], event: &mut [u8], station: u32, peer: u32) -> u64 {
    // SAFETY: see the head of this module.
    unsafe {
        library::melontime_recv(
            area.as_mut_ptr(),
            area.len(),
            event.as_mut_ptr(),
            event.len(),
            station,
            peer,
        )
    }
}

/// A station starts a reset.
#[must_use]
pub fn start(area: &mut [u8], event: &mut [u8], station: u32) -> u64 {
    // SAFETY: see the head of this module.
    unsafe {
        library::melontime_start(
            area.as_mut_ptr(),
            area.len(),
            event.as_mut_ptr(),
            event.len(),
            station,
        )
    }
}

/// Whether every station is normal in one phase and no link holds an item.
#[must_use]
pub fn rest(area: &[u8]) -> u64 {
    // SAFETY: see the head of this module.
    unsafe { library::melontime_rest(area.as_ptr(), area.len()) }
}

/// After how many receipts, with receipts alone, the network is at rest.
#[must_use]
pub fn receipts_to_rest(area: &[u8]) -> u64 {
    // SAFETY: see the head of this module.
    unsafe { library::melontime_receipts_to_rest(area.as_ptr(), area.len()) }
}

/// The order of two records.
#[must_use]
pub fn verdict(first: &[u8], second: &[u8]) -> u64 {
    // SAFETY: see the head of this module.
    unsafe {
        library::melontime_verdict(first.as_ptr(), first.len(), second.as_ptr(), second.len())
    }
}

/// Writes a header block from its fields: eight allowances of two bytes, and
/// the limits row by row.
#[must_use]
pub fn write_header(n: u32, t: u32, allowances: &[u8], limits: &[u8], area: &mut [u8]) -> u64 {
    // SAFETY: see the head of this module.
    unsafe {
        library::melontime_write_header(
            n,
            t,
            allowances.as_ptr(),
            allowances.len(),
            limits.as_ptr(),
            limits.len(),
            area.as_mut_ptr(),
            area.len(),
        )
    }
}

/// Reads a header block's fields: n in a byte, t in two, then the allowances
/// and limits as [`write_header`] takes them.
#[must_use]
pub fn read_header(block: &[u8], fields: &mut [u8]) -> u64 {
    // SAFETY: see the head of this module.
    unsafe {
        library::melontime_read_header(
            block.as_ptr(),
            block.len(),
            fields.as_mut_ptr(),
            fields.len(),
        )
    }
}

/// Writes an entries block from its number and its records' bytes.
#[must_use]
pub fn write_entries(number: u32, records: &[u8], area: &mut [u8]) -> u64 {
    // SAFETY: see the head of this module.
    unsafe {
        library::melontime_write_entries(
            number,
            records.as_ptr(),
            records.len(),
            area.as_mut_ptr(),
            area.len(),
        )
    }
}

/// The number of an entries block and its count of records.
#[must_use]
pub fn read_entries(block: &[u8]) -> u64 {
    // SAFETY: see the head of this module.
    unsafe { library::melontime_read_entries(block.as_ptr(), block.len()) }
}

/// Copies record k of an entries block.
#[must_use]
pub fn read_record(block: &[u8], k: u32, area: &mut [u8]) -> u64 {
    // SAFETY: see the head of this module.
    unsafe {
        library::melontime_read_record(
            block.as_ptr(),
            block.len(),
            k,
            area.as_mut_ptr(),
            area.len(),
        )
    }
}

/// Tests an archive and counts its records.
#[must_use]
pub fn archive_records(archive: &[u8]) -> u64 {
    // SAFETY: see the head of this module.
    unsafe { library::melontime_archive_records(archive.as_ptr(), archive.len()) }
}

/// Copies a record of an archive by its number.
#[must_use]
pub fn found_record(archive: &[u8], number: u64, area: &mut [u8]) -> u64 {
    // SAFETY: see the head of this module.
    unsafe {
        library::melontime_found_record(
            archive.as_ptr(),
            archive.len(),
            number,
            area.as_mut_ptr(),
            area.len(),
        )
    }
}

/// Lists the records of a record's phase that are unordered with it, by station,
/// then own count, then number.
#[must_use]
pub fn unordered(archive: &[u8], number: u64, list: &mut [u64]) -> u64 {
    // SAFETY: see the head of this module.
    unsafe {
        library::melontime_unordered(
            archive.as_ptr(),
            archive.len(),
            number,
            list.as_mut_ptr(),
            list.len(),
        )
    }
}

/// The order of two records of an archive by their numbers, whatever their phases.
#[must_use]
pub fn archive_verdict(archive: &[u8], first: u64, second: u64) -> u64 {
    // SAFETY: see the head of this module.
    unsafe { library::melontime_archive_verdict(archive.as_ptr(), archive.len(), first, second) }
}
