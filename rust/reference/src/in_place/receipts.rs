//! Receipts to rest, read off a tested area where it stands.

use super::formed::{head_of, word};
use super::head::links_of;
use super::{Area, LINKS, MESSAGE, RESET_DONE, RESET_REQ};
use crate::area::{ITEM, LINK, LINKS_AT, STATION, STATIONS_AT};
use crate::refusal::Refusal;

/// A station's phase.
fn phase(bytes: &[u8; STATION]) -> u64 {
    word(bytes, 39) >> 8 & 0xffff_ffff
}

/// Its target: one more when it is mute.
fn target(bytes: &[u8; STATION]) -> u64 {
    phase(bytes) + u64::from(bytes[46] == 1)
}

/// The control items that a station is still to receive, the limits of its links
/// being a row, of so many on each link. A neighbour has two marks, one or none,
/// so three cases are reckoned and not one for each neighbour.
fn controls_to_come(bytes: &[u8; STATION], row: u64, on_each_link: u64) -> u64 {
    let (reqs, dones) = (word(bytes, 24), word(bytes, 32));
    let both = (reqs & dones).count_ones();
    let one = (reqs ^ dones).count_ones();
    let none = links_of(row).count_ones() - one - both;
    let to_come = |marks: u64, links: u32| {
        let received = (phase(bytes) + target(bytes) + marks).saturating_sub(1);
        u64::from(links) * on_each_link.saturating_sub(received)
    };
    to_come(0, none) + to_come(1, one) + to_come(2, both)
}

/// The messages on the k-th link: its items but for the control items, each of
/// which is 1 by a shift of its kind, and a message 0. That is faster than to
/// compare the kinds.
fn messages_on(area: &Area, k: usize) -> u64 {
    let link = &area[LINKS_AT + LINK * k..][..LINK];
    let (items, _) = link[1..][..ITEM * usize::from(link[0])].as_chunks::<ITEM>();
    let controls: u32 = items.iter().map(|item| u32::from(item[0] >> 1)).sum();
    u64::from(link[0]) - u64::from(controls)
}

const _: () = assert!(MESSAGE >> 1 == 0 && RESET_REQ >> 1 == 1 && RESET_DONE >> 1 == 1);

/// Receipts to rest on a lent area, as [`crate::area::receipts_to_rest`].
pub fn receipts_to_rest(area: &[u8]) -> Result<u64, Refusal> {
    let area: &Area = area.try_into().map_err(|_| Refusal::IllFormedState)?;
    let head = head_of(area).ok_or(Refusal::IllFormedState)?;
    let (stations, _) = area[STATIONS_AT..LINKS_AT].as_chunks();
    let stations = &stations[..head.n()];
    let on_each_link = 2 * stations.iter().map(target).max().unwrap_or(0);
    let controls = stations.iter().zip(head.rows());
    let controls = controls.map(|(bytes, row)| controls_to_come(bytes, row, on_each_link));
    let messages = (0..LINKS).map(|k| messages_on(area, k));
    Ok(controls.sum::<u64>() + messages.sum::<u64>())
}
