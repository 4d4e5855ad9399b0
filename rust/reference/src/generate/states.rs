//! States: 'What a station holds' and 'State area and host' of document 01.

use super::{any_network, any_register, near_bounds, some_byte};
use crate::header::Header;
use crate::network::{empty_links, EXTRA_PLACES};
use crate::network::{Item, Links, Message, Mode, State, Station};
use crate::random::Rng;
use crate::{Counts, LAST_PHASE, MAX_STATIONS};

/// Counts that a state of this header may have.
pub fn any_counts(rng: &mut Rng, header: &Header) -> Counts {
    let high = rng.chance(1, 3);
    std::array::from_fn(|k| {
        if k >= header.n() {
            0
        } else if high {
            header.ceiling - rng.below(2) as u16
        } else {
            near_bounds(rng, u64::from(header.ceiling)) as u16
        }
    })
}

/// An item that a link of this header may hold.
pub fn any_item(rng: &mut Rng, header: &Header) -> Item {
    match rng.below(3) {
        0 => Item::ResetReq,
        1 => Item::ResetDone,
        _ => Item::Message(Message {
            register: any_register(rng),
            counts: any_counts(rng, header),
        }),
    }
}

/// Marks for the neighbours: all, none, all but one, or any.
fn any_marks(rng: &mut Rng, neighbours: &[usize]) -> [bool; MAX_STATIONS] {
    let mut marks = [false; MAX_STATIONS];
    let way = rng.below(4);
    for &j in neighbours {
        marks[j] = match way {
            0 => false,
            1 | 2 => true,
            _ => rng.chance(1, 2),
        };
    }
    if way == 2 && !neighbours.is_empty() {
        marks[rng.pick(neighbours)] = false;
    }
    marks
}

/// A station that a state of this header may have.
pub fn any_station(rng: &mut Rng, header: &Header, i: usize) -> Station {
    let neighbours: Vec<usize> = header.neighbours(i).collect();
    Station {
        counts: any_counts(rng, header),
        mode: rng.pick(&Mode::ALL),
        phase: near_bounds(rng, u64::from(LAST_PHASE)) as u32,
        own_entries: near_bounds(rng, u64::from(header.allowances[i])) as u16,
        sent: std::array::from_fn(|j| near_bounds(rng, u64::from(header.limits[i][j])) as u8),
        req_seen: any_marks(rng, &neighbours),
        done_seen: any_marks(rng, &neighbours),
    }
}

/// Links that a state of this header may have: empty, part full or full.
pub fn any_links(rng: &mut Rng, header: &Header) -> Links {
    let mut links = empty_links();
    let crowded = rng.chance(1, 3);
    for (i, row) in links.iter_mut().enumerate() {
        for j in header.neighbours(i) {
            let most = u64::from(header.limits[i][j]) + EXTRA_PLACES as u64;
            let length = if crowded {
                most - rng.below(3)
            } else {
                near_bounds(rng, most)
            };
            row[j] = (0..length).map(|_| any_item(rng, header)).collect();
        }
    }
    links
}

/// A well-formed state, most often one that no initial network reaches.
pub fn any_state(rng: &mut Rng) -> State {
    let header = any_network(rng);
    any_state_of(rng, &header)
}

/// A well-formed state of a header's network.
pub fn any_state_of(rng: &mut Rng, header: &Header) -> State {
    let stations = (0..header.n())
        .map(|i| any_station(rng, header, i))
        .collect();
    let links = any_links(rng, header);
    let state = State::from_parts(*header, stations, links);
    debug_assert!(state.is_well_formed());
    state
}

/// Counts of station i and of a message: the message's are greater at so many
/// places of other stations below n, and not greater at the rest of them. The
/// own count is below the ceiling, and the message's count for it is any.
fn counts_with_news(rng: &mut Rng, header: &Header, i: usize, news: usize) -> (Counts, Counts) {
    let most = u64::from(header.ceiling);
    let (mut counts, mut message) = ([0; MAX_STATIONS], [0; MAX_STATIONS]);
    counts[i] = near_bounds(rng, most - 1) as u16;
    message[i] = near_bounds(rng, most) as u16;
    let mut others: Vec<usize> = (0..header.n()).filter(|&k| k != i).collect();
    rng.shuffle(&mut others);
    for (at, k) in others.into_iter().enumerate() {
        let (count, its) = if at < news {
            let count = near_bounds(rng, most - 1);
            (count, count + 1 + near_bounds(rng, most - 1 - count))
        } else {
            let count = near_bounds(rng, most);
            (count, near_bounds(rng, count))
        };
        (counts[k], message[k]) = (count as u16, its as u16);
    }
    (counts, message)
}

/// A well-formed state of a header's network whose link from j to i holds first
/// a message that raises just so many of the other counts of station i: at most
/// n − 1.
pub fn state_with_news(rng: &mut Rng, header: &Header, i: usize, j: usize, news: usize) -> State {
    let mut state = any_state_of(rng, header);
    let (counts, message) = counts_with_news(rng, header, i, news);
    state.stations[i].counts = counts;
    let places = usize::from(header.limits[j][i]) + EXTRA_PLACES;
    let link = &mut state.links[j][i];
    link.truncate(places - 1);
    link.push_front(Item::Message(Message {
        register: any_register(rng),
        counts: message,
    }));
    debug_assert!(state.is_well_formed());
    state
}

/// A way to make a state ill formed.
#[derive(Clone, Copy, Debug, PartialEq, Eq)]
pub enum StateDamage {
    /// A header field outside its range.
    HeaderField,
    /// A broken network rule.
    HeaderRule,
    /// A station too many or too few.
    StationsLength,
    /// A phase above 999,999.
    Phase,
    /// A station's count above t.
    CountAboveCeiling,
    /// A station's count for a station n or above.
    CountBeyond,
    /// More own entries than the allowance.
    OwnEntries,
    /// More messages sent than the limit.
    Sent,
    /// Messages sent to a non-neighbour.
    SentToNonNeighbour,
    /// Req seen of a non-neighbour.
    ReqOfNonNeighbour,
    /// Done seen of a non-neighbour.
    DoneOfNonNeighbour,
    /// A link with more than Lij + 2 items.
    LinkTooLong,
    /// An item where there is no link.
    ItemWithoutLink,
    /// A message's count above t.
    MessageCountAboveCeiling,
    /// A message's count for a station n or above.
    MessageCountBeyond,
}

impl StateDamage {
    /// Every way.
    pub const ALL: [StateDamage; 15] = [
        StateDamage::HeaderField,
        StateDamage::HeaderRule,
        StateDamage::StationsLength,
        StateDamage::Phase,
        StateDamage::CountAboveCeiling,
        StateDamage::CountBeyond,
        StateDamage::OwnEntries,
        StateDamage::Sent,
        StateDamage::SentToNonNeighbour,
        StateDamage::ReqOfNonNeighbour,
        StateDamage::DoneOfNonNeighbour,
        StateDamage::LinkTooLong,
        StateDamage::ItemWithoutLink,
        StateDamage::MessageCountAboveCeiling,
        StateDamage::MessageCountBeyond,
    ];
}

/// A state that is not well formed for the one reason given.
pub fn ill_formed_state(rng: &mut Rng, way: StateDamage) -> State {
    loop {
        let mut state = any_state(rng);
        if damage_state(rng, &mut state, way) {
            debug_assert!(!state.is_well_formed());
            return state;
        }
    }
}

/// Damages a well-formed state; false where this one cannot be damaged so.
fn damage_state(rng: &mut Rng, state: &mut State, way: StateDamage) -> bool {
    let header = state.header;
    let n = header.n();
    let i = rng.index(n);
    let strangers: Vec<usize> = (0..MAX_STATIONS)
        .filter(|&j| header.limit(i, j) == 0)
        .collect();
    let neighbours: Vec<usize> = header.neighbours(i).collect();
    let above = |rng: &mut Rng, bound: u64, most: u64| rng.range(bound + 1, most);
    match way {
        StateDamage::HeaderField => match rng.below(2) {
            0 => state.header.stations = rng.pick(&[0, 9, 255]),
            _ => state.header.limits[rng.index(8)][rng.index(8)] = rng.range(33, 255) as u8,
        },
        StateDamage::HeaderRule => match rng.below(2) {
            0 => state.header.limits[i][i] = rng.range(1, 32) as u8,
            _ if n < MAX_STATIONS => state.header.allowances[n] = 1,
            _ => return false,
        },
        StateDamage::StationsLength => match rng.below(2) {
            0 => state.stations.truncate(n - 1),
            _ => state.stations.push(Station::initial(&header, n)),
        },
        StateDamage::Phase => {
            state.stations[i].phase = match rng.below(2) {
                0 => LAST_PHASE + 1,
                _ => above(rng, u64::from(LAST_PHASE), u64::from(u32::MAX)) as u32,
            }
        }
        StateDamage::CountAboveCeiling if header.ceiling < u16::MAX => {
            let count = above(rng, u64::from(header.ceiling), 65_535) as u16;
            state.stations[i].counts[rng.index(n)] = count;
        }
        StateDamage::CountBeyond if n < MAX_STATIONS => {
            let k = rng.range(n as u64, 7) as usize;
            state.stations[i].counts[k] = rng.range(1, u64::from(header.ceiling)) as u16;
        }
        StateDamage::OwnEntries if header.allowances[i] < u16::MAX => {
            state.stations[i].own_entries =
                above(rng, u64::from(header.allowances[i]), 65_535) as u16;
        }
        StateDamage::Sent if !neighbours.is_empty() => {
            let j = rng.pick(&neighbours);
            state.stations[i].sent[j] = above(rng, u64::from(header.limits[i][j]), 255) as u8;
        }
        StateDamage::SentToNonNeighbour => {
            state.stations[i].sent[rng.pick(&strangers)] = some_byte(rng);
        }
        StateDamage::ReqOfNonNeighbour => {
            state.stations[i].req_seen[rng.pick(&strangers)] = true;
        }
        StateDamage::DoneOfNonNeighbour => {
            state.stations[i].done_seen[rng.pick(&strangers)] = true;
        }
        StateDamage::LinkTooLong if !neighbours.is_empty() => {
            let j = rng.pick(&neighbours);
            let most = usize::from(header.limits[i][j]) + EXTRA_PLACES;
            while state.links[i][j].len() <= most {
                let item = any_item(rng, &header);
                state.links[i][j].push_back(item);
            }
        }
        StateDamage::ItemWithoutLink => {
            let item = any_item(rng, &header);
            let (from, to) = match rng.below(2) {
                0 => (i, rng.pick(&strangers)),
                _ => (rng.pick(&strangers), i),
            };
            if header.limit(from, to) > 0 {
                return false;
            }
            state.links[from][to].push_back(item);
        }
        StateDamage::MessageCountAboveCeiling | StateDamage::MessageCountBeyond
            if !neighbours.is_empty() =>
        {
            let j = rng.pick(&neighbours);
            let beyond = way == StateDamage::MessageCountBeyond;
            if (beyond && n == MAX_STATIONS) || (!beyond && header.ceiling == u16::MAX) {
                return false;
            }
            let mut counts = any_counts(rng, &header);
            if beyond {
                counts[rng.range(n as u64, 7) as usize] = 1;
            } else {
                counts[rng.index(n)] = above(rng, u64::from(header.ceiling), 65_535) as u16;
            }
            let message = Item::Message(Message {
                register: any_register(rng),
                counts,
            });
            let link = &mut state.links[i][j];
            if link.is_empty() {
                link.push_back(message);
            } else {
                let at = rng.index(link.len());
                link[at] = message;
            }
        }
        _ => return false,
    }
    true
}
