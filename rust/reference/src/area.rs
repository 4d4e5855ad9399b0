//! The state area: the image of a state in 65,536 bytes by the tables of
//! docs/LAYOUT.md, and the calls that are lent such bytes ('State area and
//! host' in document 01).
//!
//! The document leaves the layout open, so this is the one module that is
//! written from a page of this repository.

use crate::check::{all_zero, BLOCK};
use crate::header::Header;
use crate::network::{self, empty_links, Item, Message, Mode, Outcome, State, Station, Step};
use crate::network::{Answer, AREA};
use crate::record::RECORD;
use crate::refusal::Refusal;
use crate::{Counts, MAX_STATIONS};

/// Where the stations start.
pub const STATIONS_AT: usize = BLOCK;
/// The length of a station.
pub const STATION: usize = 47;
/// Where the links start.
pub const LINKS_AT: usize = STATIONS_AT + MAX_STATIONS * STATION;
/// The length of a link.
pub const LINK: usize = 1 + PLACES * ITEM;
/// The places of a link.
pub const PLACES: usize = 34;
/// The length of an item.
pub const ITEM: usize = 21;
/// Where the zeros at the end start.
pub const END: usize = LINKS_AT + MAX_STATIONS * MAX_STATIONS * LINK;

/// Where station i starts.
pub fn station_at(i: usize) -> usize {
    STATIONS_AT + STATION * i
}

/// Where the link from i to j starts.
pub fn link_at(i: usize, j: usize) -> usize {
    LINKS_AT + LINK * (MAX_STATIONS * i + j)
}

pub(crate) fn put_counts(bytes: &mut [u8], counts: &Counts) {
    for (place, count) in bytes.chunks_exact_mut(2).zip(counts) {
        place.copy_from_slice(&count.to_le_bytes());
    }
}

fn get_counts(bytes: &[u8]) -> Counts {
    std::array::from_fn(|k| u16::from_le_bytes([bytes[2 * k], bytes[2 * k + 1]]))
}

fn get_long(bytes: &[u8]) -> u32 {
    u32::from_le_bytes([bytes[0], bytes[1], bytes[2], bytes[3]])
}

pub(crate) fn put_station(bytes: &mut [u8], station: &Station) {
    put_counts(&mut bytes[..16], &station.counts);
    bytes[16..24].copy_from_slice(&station.sent);
    bytes[24..32].copy_from_slice(&station.req_seen.map(u8::from));
    bytes[32..40].copy_from_slice(&station.done_seen.map(u8::from));
    bytes[40..44].copy_from_slice(&station.phase.to_le_bytes());
    bytes[44..46].copy_from_slice(&station.own_entries.to_le_bytes());
    bytes[46] = match station.mode {
        Mode::Normal => 0,
        Mode::Mute => 1,
        Mode::StandBy => 2,
    };
}

fn get_marks(bytes: &[u8]) -> Option<[bool; MAX_STATIONS]> {
    let plain = bytes.iter().all(|&mark| mark <= 1);
    plain.then(|| std::array::from_fn(|k| bytes[k] == 1))
}

pub(crate) fn get_station(bytes: &[u8]) -> Option<Station> {
    Some(Station {
        counts: get_counts(&bytes[..16]),
        sent: std::array::from_fn(|k| bytes[16 + k]),
        req_seen: get_marks(&bytes[24..32])?,
        done_seen: get_marks(&bytes[32..40])?,
        phase: get_long(&bytes[40..44]),
        own_entries: u16::from_le_bytes([bytes[44], bytes[45]]),
        mode: match bytes[46] {
            0 => Mode::Normal,
            1 => Mode::Mute,
            2 => Mode::StandBy,
            _ => return None,
        },
    })
}

fn put_item(bytes: &mut [u8], item: &Item) {
    match item {
        Item::Message(message) => {
            bytes[0] = 1;
            bytes[1..5].copy_from_slice(&message.register.to_le_bytes());
            put_counts(&mut bytes[5..], &message.counts);
        }
        Item::ResetReq => bytes[0] = 2,
        Item::ResetDone => bytes[0] = 3,
    }
}

fn get_item(bytes: &[u8]) -> Option<Item> {
    match bytes[0] {
        1 => Some(Item::Message(Message {
            register: get_long(&bytes[1..5]),
            counts: get_counts(&bytes[5..]),
        })),
        2 if all_zero(&bytes[1..]) => Some(Item::ResetReq),
        3 if all_zero(&bytes[1..]) => Some(Item::ResetDone),
        _ => None,
    }
}

/// Writes the image of a state, whatever stood there. A state with more
/// stations or items than the layout has places for panics.
pub fn write(state: &State, area: &mut [u8]) {
    area.fill(0);
    area[..BLOCK].copy_from_slice(&state.header.to_block_untested());
    for (i, station) in state.stations.iter().enumerate() {
        put_station(&mut area[station_at(i)..][..STATION], station);
    }
    for (i, row) in state.links.iter().enumerate() {
        for (j, link) in row.iter().enumerate() {
            let bytes = &mut area[link_at(i, j)..][..LINK];
            assert!(link.len() <= PLACES, "a link with no place for its items");
            bytes[0] = link.len() as u8;
            for (place, item) in bytes[1..].chunks_exact_mut(ITEM).zip(link) {
                put_item(place, item);
            }
        }
    }
}

/// The image of a state.
pub fn image(state: &State) -> Vec<u8> {
    let mut area = vec![0; AREA];
    write(state, &mut area);
    area
}

/// The state whose image these bytes are, well formed or not.
fn parse(area: &[u8]) -> Option<State> {
    if area.len() != AREA || !all_zero(&area[END..]) {
        return None;
    }
    let header = Header::read(&area[..BLOCK]).ok()?;
    let n = header.n();
    if !all_zero(&area[station_at(n)..LINKS_AT]) {
        return None;
    }
    let stations = (0..n)
        .map(|i| get_station(&area[station_at(i)..][..STATION]))
        .collect::<Option<Vec<Station>>>()?;
    let mut links = empty_links();
    for (i, row) in links.iter_mut().enumerate() {
        for (j, link) in row.iter_mut().enumerate() {
            let bytes = &area[link_at(i, j)..][..LINK];
            let length = usize::from(bytes[0]);
            if length > PLACES {
                return None;
            }
            let (items, behind) = bytes[1..].split_at(length * ITEM);
            if !all_zero(behind) {
                return None;
            }
            for item in items.chunks_exact(ITEM) {
                link.push_back(get_item(item)?);
            }
        }
    }
    Some(State::from_parts(header, stations, links))
}

/// The well-formed state whose image these bytes are, or 2.
pub fn read(area: &[u8]) -> Result<State, Refusal> {
    parse(area)
        .filter(State::is_well_formed)
        .ok_or(Refusal::IllFormedState)
}

/// Setup: 11, 1, 3; else the area is the image of the initial network.
pub fn setup(block: &[u8], area: &mut [u8]) -> Result<(), Refusal> {
    let state = network::setup_area(area.len(), block)?;
    write(&state, area);
    Ok(())
}

/// A step on a lent area, as a host calls it. Another length of the record
/// buffer than 32 is 11, tried first; a refusal leaves both; an accepted entry
/// writes its record.
pub fn step(area: &mut [u8], event: &mut [u8], step: Step) -> Outcome {
    if event.len() != RECORD {
        return Err(Refusal::BufferLength);
    }
    let mut state = read(area)?;
    let answer = state.step_well_formed(step)?;
    write(&state, area);
    if let Answer::Entry { record, .. } = &answer {
        event.copy_from_slice(&record.to_bytes());
    }
    Ok(answer)
}

/// Rest on a lent area: 2, or whether every station is normal in one phase
/// and no link holds an item.
pub fn rest(area: &[u8]) -> Result<bool, Refusal> {
    let state = read(area)?;
    state.rest()
}

/// Receipts to rest on a lent area: 2, or the number of the state.
pub fn receipts_to_rest(area: &[u8]) -> Result<u64, Refusal> {
    let state = read(area)?;
    state.receipts_to_rest()
}
