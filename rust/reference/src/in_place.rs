//! The calls on a lent area once more, without a state in between: the bytes
//! are tested where they stand, and a step changes those that differ. This is
//! what the library is timed against; [`crate::area`] is the plain one, to
//! which the tests hold this. It is to be as fast as safe Rust can be on plain
//! x86-64.

pub mod archives;
pub mod between_phases;
mod formed;
mod head;
mod lanes;
mod receipts;
mod records;

use self::formed::head_of;
use self::head::{links_of, Head};
use self::lanes::counts_at;
use crate::area::{get_station, link_at, put_counts, put_station, station_at};
use crate::area::{ITEM, LINK, LINKS_AT, PLACES, STATION};
use crate::check::BLOCK;
use crate::header::Header;
use crate::network::{Answer, Mode, Outcome, Station, Step, AREA, EXTRA_PLACES};
use crate::record::{Kind, Record, NO_PEER, RECORD};
use crate::refusal::Refusal;
use crate::{Counts, LAST_PHASE, MAX_STATIONS};

pub use self::receipts::receipts_to_rest;
pub use self::records::verdict;

const MESSAGE: u8 = 1;
const RESET_REQ: u8 = 2;
const RESET_DONE: u8 = 3;

/// How many links an area has places for.
const LINKS: usize = MAX_STATIONS * MAX_STATIONS;

type Area = [u8; AREA];

/// The header of an area that is the image of a well-formed state, or 2.
pub fn test(area: &[u8]) -> Result<Header, Refusal> {
    let area: &Area = area.try_into().map_err(|_| Refusal::IllFormedState)?;
    let head = head_of(area).ok_or(Refusal::IllFormedState)?;
    Ok(Header {
        stations: head.n() as u8,
        ceiling: head.ceiling(),
        allowances: std::array::from_fn(|i| head.allowance(i)),
        limits: head.rows().map(u64::to_le_bytes),
    })
}

/// Setup: 11, 1, 3; else the area is the image of the initial network.
pub fn setup(block: &[u8], area: &mut [u8]) -> Result<(), Refusal> {
    if area.len() != AREA {
        return Err(Refusal::BufferLength);
    }
    let head = Head::of(block)?;
    head.obeys()?;
    let (front, rest) = area.split_at_mut(BLOCK);
    front.copy_from_slice(block);
    rest.fill(0);
    // Of an initial station only the dones seen are not zero.
    for (i, &row) in head.rows()[..head.n()].iter().enumerate() {
        let dones = &mut area[station_at(i) + 32..][..MAX_STATIONS];
        dones.copy_from_slice(&links_of(row).to_le_bytes());
    }
    Ok(())
}

/// Rest on a lent area.
pub fn rest(area: &[u8]) -> Result<bool, Refusal> {
    let area: &Area = area.try_into().map_err(|_| Refusal::IllFormedState)?;
    let head = head_of(area).ok_or(Refusal::IllFormedState)?;
    let phase = |i: usize| &area[station_at(i)..][40..44];
    let still = (0..head.n()).all(|i| area[station_at(i) + 46] == 0 && phase(i) == phase(0));
    // The first byte of a link is how many items it holds.
    Ok(still && (0..LINKS).all(|k| area[LINKS_AT + LINK * k] == 0))
}

/// A step on a lent area, as [`crate::area::step`].
pub fn step(area: &mut [u8], event: &mut [u8], step: Step) -> Outcome {
    if event.len() != RECORD {
        return Err(Refusal::BufferLength);
    }
    let area: &mut Area = area.try_into().map_err(|_| Refusal::IllFormedState)?;
    let head = head_of(area).ok_or(Refusal::IllFormedState)?;
    let i = step.station();
    if i >= head.n() {
        return Err(Refusal::NoSuchStationOrLink);
    }
    let ceiling = head.ceiling();
    let station = get_station(&area[station_at(i)..][..STATION]).ok_or(Refusal::IllFormedState)?;
    let mut at = At {
        area,
        ceiling,
        i,
        station,
    };
    let answer = match step {
        Step::Enter { register, .. } => at.enter(register),
        Step::Send { peer, register, .. } => at.send(peer, register),
        Step::Recv { peer, .. } => at.recv(peer),
        Step::Start { .. } => at.start(),
    }?;
    if let Answer::Entry { record, .. } = &answer {
        event.copy_from_slice(&record.to_bytes());
    }
    Ok(answer)
}

/// Raises counts to those of a message, where these are greater, and the own
/// count to a number; answers how many of the others grew. The places are taken
/// alike, as lanes, and the own one is put right afterwards.
fn raise(counts: &mut Counts, i: usize, own: u16, message: &Counts) -> u8 {
    let mut grew = Counts::default();
    for k in 0..MAX_STATIONS {
        grew[k] = u16::from(message[k] > counts[k]);
        counts[k] = counts[k].max(message[k]);
    }
    grew[i] = 0;
    counts[i] = own;
    grew.iter().sum::<u16>() as u8
}

/// The most items of a link with a limit.
fn places(limit: u8) -> usize {
    usize::from(limit) + EXTRA_PLACES
}

/// A station that steps, by value, and the tested area that it stands in.
struct At<'a> {
    area: &'a mut Area,
    ceiling: u16,
    i: usize,
    station: Station,
}

impl At<'_> {
    /// The limit of the link from i to j; 0 for stations that no table holds.
    fn limit(&self, i: usize, j: usize) -> u8 {
        match j < MAX_STATIONS {
            true => self.area[32 + MAX_STATIONS * i + j],
            false => 0,
        }
    }

    /// The limits of the links out.
    fn limits(&self) -> [u8; MAX_STATIONS] {
        std::array::from_fn(|j| self.limit(self.i, j))
    }

    fn allowance(&self) -> u16 {
        let at = 16 + 2 * self.i;
        u16::from_le_bytes([self.area[at], self.area[at + 1]])
    }

    fn link(&mut self, from: usize, to: usize) -> &mut [u8] {
        &mut self.area[link_at(from, to)..][..LINK]
    }

    fn put(&mut self, i: usize) {
        put_station(&mut self.area[station_at(i)..][..STATION], &self.station);
    }

    /// The own count + 1; 2 where that is above the ceiling.
    fn own_count_after(&self) -> Result<u16, Refusal> {
        match self.station.counts[self.i] {
            own if own < self.ceiling => Ok(own + 1),
            _ => Err(Refusal::IllFormedState),
        }
    }

    fn entry(&mut self, kind: Kind, peer: u8, register: u32, news: Option<u8>) -> Outcome {
        self.put(self.i);
        let record = Record {
            kind,
            station: self.i as u8,
            peer,
            phase: self.station.phase,
            register,
            counts: self.station.counts,
        };
        Ok(Answer::Entry { record, news })
    }

    fn enter(&mut self, register: u32) -> Outcome {
        if self.station.own_entries >= self.allowance() {
            return Err(Refusal::UsedUp);
        }
        self.station.counts[self.i] = self.own_count_after()?;
        self.station.own_entries += 1;
        self.entry(Kind::Own, NO_PEER, register, None)
    }

    fn send(&mut self, j: usize, register: u32) -> Outcome {
        let i = self.i;
        let limit = self.limit(i, j);
        if limit == 0 {
            return Err(Refusal::NoSuchStationOrLink);
        }
        let allowed = match self.station.mode {
            Mode::Normal => true,
            Mode::Mute => false,
            Mode::StandBy => self.station.done_seen[j],
        };
        if !allowed {
            return Err(Refusal::ModeForbids);
        }
        if self.station.sent[j] >= limit {
            return Err(Refusal::UsedUp);
        }
        let own = self.own_count_after()?;
        let mut counts = self.station.counts;
        counts[i] = own;
        let link = self.link(i, j);
        let length = usize::from(link[0]);
        if length >= places(limit) {
            return Err(Refusal::IllFormedState);
        }
        link[0] += 1;
        let item = &mut link[1 + ITEM * length..][..ITEM];
        item[0] = MESSAGE;
        item[1..5].copy_from_slice(&register.to_le_bytes());
        put_counts(&mut item[5..], &counts);
        self.station.counts = counts;
        self.station.sent[j] += 1;
        self.entry(Kind::Sent, j as u8, register, None)
    }

    fn recv(&mut self, j: usize) -> Outcome {
        let i = self.i;
        if self.limit(i, j) == 0 {
            return Err(Refusal::NoSuchStationOrLink);
        }
        let link = self.link(j, i);
        if link[0] == 0 {
            return Err(Refusal::EmptyLink);
        }
        let item: [u8; ITEM] = link[1..=ITEM].try_into().expect("an item's length");
        match item[0] {
            MESSAGE => {
                let own = self.own_count_after()?;
                let counts = counts_at(item.last_chunk().expect("counts"));
                let news = raise(&mut self.station.counts, i, own, &counts);
                self.take(j);
                let register = u32::from_le_bytes([item[1], item[2], item[3], item[4]]);
                self.entry(Kind::Received, j as u8, register, Some(news))
            }
            kind => {
                let seen = match kind {
                    RESET_REQ => &mut self.station.req_seen,
                    _ => &mut self.station.done_seen,
                };
                seen[j] = true;
                let answer = self.turn(Controls::default())?;
                self.take(j);
                Ok(answer)
            }
        }
    }

    /// Takes the first item of the link from j away.
    fn take(&mut self, j: usize) {
        let link = self.link(j, self.i);
        let end = 1 + ITEM * usize::from(link[0]);
        link[0] -= 1;
        link.copy_within(1 + ITEM..end, 1);
        link[end - ITEM..end].fill(0);
    }

    fn start(&mut self) -> Outcome {
        if self.station.mode != Mode::Normal {
            return Err(Refusal::ModeForbids);
        }
        if self.station.phase == LAST_PHASE {
            return Err(Refusal::LastPhase);
        }
        let mut controls = Controls::default();
        self.begin(&mut controls);
        self.turn(controls)
    }

    fn begin(&mut self, controls: &mut Controls) {
        controls.add(RESET_REQ);
        self.station.done_seen = [false; MAX_STATIONS];
        self.station.mode = Mode::Mute;
    }

    fn every(&self, seen: &[bool; MAX_STATIONS]) -> bool {
        self.limits()
            .iter()
            .zip(seen)
            .all(|(&limit, &seen)| limit == 0 || seen)
    }

    /// The reset rules on the station's copy, then the bounds, which are 2 where
    /// the state after would leave one, then the writing.
    fn turn(&mut self, mut controls: Controls) -> Outcome {
        loop {
            let station = &self.station;
            match station.mode {
                Mode::Mute if self.every(&station.req_seen) => {
                    self.station = Station {
                        counts: [0; MAX_STATIONS],
                        mode: Mode::StandBy,
                        phase: station.phase + 1,
                        own_entries: 0,
                        sent: [0; MAX_STATIONS],
                        req_seen: [false; MAX_STATIONS],
                        done_seen: station.done_seen,
                    };
                    controls.add(RESET_DONE);
                }
                Mode::StandBy if self.every(&station.done_seen) => {
                    self.station.mode = Mode::Normal;
                }
                Mode::Normal if station.req_seen.contains(&true) => self.begin(&mut controls),
                _ => break,
            }
        }
        if self.station.phase > LAST_PHASE {
            return Err(Refusal::IllFormedState);
        }
        self.put_controls(&controls.kinds[..controls.length])?;
        self.put(self.i);
        Ok(Answer::Mode {
            mode: self.station.mode,
            phase: self.station.phase,
        })
    }

    /// Puts controls on every link out, where all of them have places for it;
    /// else 2, and no link is changed.
    fn put_controls(&mut self, kinds: &[u8]) -> Result<(), Refusal> {
        if kinds.is_empty() {
            return Ok(());
        }
        let (i, limits) = (self.i, self.limits());
        let neighbours = (0..MAX_STATIONS).filter(|&j| limits[j] > 0);
        for j in neighbours.clone() {
            let length = usize::from(self.link(i, j)[0]);
            if length + kinds.len() > places(limits[j]) {
                return Err(Refusal::IllFormedState);
            }
        }
        for j in neighbours {
            let link = self.link(i, j);
            for &kind in kinds {
                link[1 + ITEM * usize::from(link[0])] = kind;
                link[0] += 1;
            }
        }
        Ok(())
    }
}

/// The control items that a step puts on every link out, in order.
#[derive(Default)]
struct Controls {
    kinds: [u8; 4],
    length: usize,
}

impl Controls {
    fn add(&mut self, kind: u8) {
        self.kinds[self.length] = kind;
        self.length += 1;
    }
}

// The layout's places are enough for the greatest limit.
const _: () = assert!(PLACES == crate::header::MAX_LIMIT as usize + EXTRA_PLACES);
