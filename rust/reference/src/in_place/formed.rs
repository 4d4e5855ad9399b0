//! The test of an area: is it the image of a well-formed state?

use super::head::{links_of, Head, ONES};
use super::lanes::{counts_at, exceed, greatest, no_count, zeros};
use super::{LINKS, MESSAGE, RESET_DONE, RESET_REQ};
use crate::area::{station_at, ITEM, LINK, LINKS_AT, STATION, STATIONS_AT};
use crate::check::BLOCK;
use crate::network::{AREA, EXTRA_PLACES};
use crate::{Counts, LAST_PHASE, MAX_STATIONS};

/// The top bit of each of eight bytes.
const TOPS: u64 = 0x80 * ONES;

/// Eight bytes of a station.
pub(super) fn word(bytes: &[u8; STATION], at: usize) -> u64 {
    u64::from_le_bytes(*bytes[at..].first_chunk().expect("a word"))
}

/// Whether a station's fields are in their ranges, the limits of its links out
/// being a row. Eight bytes are tested at a time, as a word.
fn station_fits(bytes: &[u8; STATION], row: u64, allowance: u16, most: &Counts) -> bool {
    let mut above = Counts::default();
    let counts = bytes.first_chunk().expect("counts");
    exceed(&mut above, &counts_at(counts), most);
    let sent = word(bytes, 16);
    // No byte borrows from the next, and a top bit is left where it fits.
    let sent_fits = (sent & TOPS == 0) & (((row | TOPS).wrapping_sub(sent)) & TOPS == TOPS);
    let marks = word(bytes, 24) | word(bytes, 32);
    let last = word(bytes, 39).to_le_bytes();
    let phase = u32::from_le_bytes([last[1], last[2], last[3], last[4]]);
    let own_entries = u16::from_le_bytes([last[5], last[6]]);
    no_count(&above)
        & sent_fits
        & (marks & !links_of(row) == 0)
        & (phase <= LAST_PHASE)
        & (own_entries <= allowance)
        & (last[7] <= 2)
}

fn stations_fit(area: &[u8; AREA], head: &Head, most: &Counts) -> bool {
    let n = head.n();
    let (stations, _) = area[STATIONS_AT..LINKS_AT].as_chunks();
    let stations = stations.iter().zip(head.rows()).enumerate().take(n);
    let fit = |fit, (i, (bytes, row))| fit & station_fits(bytes, row, head.allowance(i), most);
    stations.fold(true, fit) && zeros(&area[station_at(n)..LINKS_AT])
}

/// Whether items are in range: messages, or controls and then zeros.
fn items_fit(items: &[[u8; ITEM]], most: &Counts) -> bool {
    let mut above = Counts::default();
    for item in items {
        let counts = counts_at(item.last_chunk().expect("counts"));
        if item[0] == MESSAGE {
            exceed(&mut above, &counts, most);
        } else if !matches!(item[..5], [RESET_REQ | RESET_DONE, 0, 0, 0, 0]) | !no_count(&counts) {
            return false;
        }
    }
    no_count(&above)
}

/// Whether the links fit. What stands between the items of one link and those
/// of the next that has some is one run of zeros, but for that link's length.
fn links_fit(area: &[u8; AREA], head: &Head, most: &Counts) -> bool {
    let mut zeros_from = LINKS_AT;
    for k in 0..LINKS {
        let at = LINKS_AT + LINK * k;
        let length = usize::from(area[at]);
        if length == 0 {
            continue;
        }
        let limit = usize::from(head.limit(k / MAX_STATIONS, k % MAX_STATIONS));
        if limit == 0 || length > limit + EXTRA_PLACES {
            return false;
        }
        let (items, _) = area[at + 1..][..ITEM * length].as_chunks();
        if !(zeros(&area[zeros_from..at]) & items_fit(items, most)) {
            return false;
        }
        zeros_from = at + 1 + ITEM * length;
    }
    zeros(&area[zeros_from..])
}

/// The header of an area that is the image of a well-formed state.
pub(super) fn head_of(area: &[u8; AREA]) -> Option<Head<'_>> {
    let head = Head::of(&area[..BLOCK]).ok()?;
    head.obeys().ok()?;
    let most = greatest(head.n(), head.ceiling());
    (stations_fit(area, &head, &most) && links_fit(area, &head, &most)).then_some(head)
}
