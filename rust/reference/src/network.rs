//! The network with resets: 'The network', 'What a station holds', 'The steps'
//! and 'State area and host' in document 01; CR 5, CR 7, CR 9 and CR 12 in
//! document 02.
//!
//! A state is a Rust value here and has no byte layout. All its fields are
//! public, so that any state can be built, also one that no initial network
//! reaches, and also one that is not well formed.

use std::collections::VecDeque;

use crate::header::Header;
use crate::record::{Kind, Record, NO_PEER, RECORD};
use crate::refusal::Refusal;
use crate::{Counts, LAST_PHASE, MAX_STATIONS};

/// The length of the state area in bytes. Only [`setup_area`] looks at it.
pub const AREA: usize = 65_536;

/// The places of a link beyond its limit: at most Lij + 2 items.
pub const EXTRA_PLACES: usize = 2;

/// A station's mode.
#[derive(Clone, Copy, Debug, PartialEq, Eq, Hash)]
pub enum Mode {
    /// normal
    Normal,
    /// mute: it has begun a reset and waits for every neighbour's request.
    Mute,
    /// stand-by: it has reset and waits for every neighbour to have reset.
    StandBy,
}

impl Mode {
    /// Every mode.
    pub const ALL: [Mode; 3] = [Mode::Normal, Mode::Mute, Mode::StandBy];

    /// The word that `turnover` prints.
    pub fn word(self) -> &'static str {
        match self {
            Mode::Normal => "normal",
            Mode::Mute => "mute",
            Mode::StandBy => "stand-by",
        }
    }
}

/// A message: the document's note.
#[derive(Clone, Copy, Debug, PartialEq, Eq, Hash)]
pub struct Message {
    /// The register number.
    pub register: u32,
    /// The timestamp of its send.
    pub counts: Counts,
}

/// What a link holds.
#[derive(Clone, Copy, Debug, PartialEq, Eq, Hash)]
pub enum Item {
    /// A message.
    Message(Message),
    /// reset_req
    ResetReq,
    /// reset_done
    ResetDone,
}

/// What a station holds.
#[derive(Clone, Debug, PartialEq, Eq, Hash)]
pub struct Station {
    /// Its eight counts.
    pub counts: Counts,
    /// Its mode.
    pub mode: Mode,
    /// Its phase.
    pub phase: u32,
    /// Own entries in this phase.
    pub own_entries: u16,
    /// Messages sent in this phase on the link to each station.
    pub sent: [u8; MAX_STATIONS],
    /// Of which stations a reset_req is seen.
    pub req_seen: [bool; MAX_STATIONS],
    /// Of which stations a reset_done is seen.
    pub done_seen: [bool; MAX_STATIONS],
}

impl Station {
    /// The station i of an initial network: normal, phase 0, counts 0, no req
    /// seen, every done (of a neighbour) seen.
    pub fn initial(header: &Header, i: usize) -> Station {
        Station {
            counts: [0; MAX_STATIONS],
            mode: Mode::Normal,
            phase: 0,
            own_entries: 0,
            sent: [0; MAX_STATIONS],
            req_seen: [false; MAX_STATIONS],
            done_seen: std::array::from_fn(|j| header.limit(i, j) > 0),
        }
    }

    /// Its target phase: the phase that it aims at, which is its own, or one
    /// more when it is mute.
    pub fn target(&self) -> u32 {
        self.phase + u32::from(self.mode == Mode::Mute)
    }
}

/// The items under way, `links[i][j]` from i to j, the oldest first.
pub type Links = [[VecDeque<Item>; MAX_STATIONS]; MAX_STATIONS];

/// Links without an item.
pub fn empty_links() -> Links {
    std::array::from_fn(|_| std::array::from_fn(|_| VecDeque::new()))
}

/// The state of a network.
#[derive(Clone, Debug, PartialEq, Eq, Hash)]
pub struct State {
    /// The header that setup was given.
    pub header: Header,
    /// The stations 0 to n−1.
    pub stations: Vec<Station>,
    /// The links.
    pub links: Links,
}

/// A step. Stations and peers may be any numbers.
#[derive(Clone, Copy, Debug, PartialEq, Eq, Hash)]
pub enum Step {
    /// enter i reg
    Enter {
        /// i
        station: usize,
        /// reg
        register: u32,
    },
    /// send i j reg
    Send {
        /// i
        station: usize,
        /// j
        peer: usize,
        /// reg
        register: u32,
    },
    /// recv i j: station i takes the first item of link j to i.
    Recv {
        /// i
        station: usize,
        /// j
        peer: usize,
    },
    /// start i
    Start {
        /// i
        station: usize,
    },
}

impl Step {
    /// The station that takes the step.
    pub fn station(&self) -> usize {
        match *self {
            Step::Enter { station, .. }
            | Step::Send { station, .. }
            | Step::Recv { station, .. }
            | Step::Start { station } => station,
        }
    }
}

/// A step by its numbers, for lists of steps by hand.
pub mod steps {
    use super::Step;

    /// enter i reg
    pub fn enter(station: usize, register: u32) -> Step {
        Step::Enter { station, register }
    }

    /// send i j reg
    pub fn send(station: usize, peer: usize, register: u32) -> Step {
        Step::Send {
            station,
            peer,
            register,
        }
    }

    /// recv i j
    pub fn recv(station: usize, peer: usize) -> Step {
        Step::Recv { station, peer }
    }

    /// start i
    pub fn start(station: usize) -> Step {
        Step::Start { station }
    }
}

/// The answer to an accepted step.
#[derive(Clone, Copy, Debug, PartialEq, Eq, Hash)]
pub enum Answer {
    /// An accepted entry answers its record; the receipt of a message, after
    /// it, its news.
    Entry {
        /// The record.
        record: Record,
        /// Of a receipt, and of no other entry: how many of the other stations'
        /// counts it raised (CR 7).
        news: Option<u8>,
    },
    /// Another step answers the mode and phase after.
    Mode {
        /// The station's mode after the step.
        mode: Mode,
        /// The station's phase after the step.
        phase: u32,
    },
}

impl Answer {
    /// The phase in the answer.
    pub fn phase(&self) -> u32 {
        match self {
            Answer::Entry { record, .. } => record.phase,
            Answer::Mode { phase, .. } => *phase,
        }
    }
}

/// The reset rules: the document's turning rules.
#[derive(Clone, Copy, Debug, PartialEq, Eq, Hash)]
pub enum ResetRule {
    /// (a) mute, and req seen from every neighbour: phase +1; counts, own
    /// entries and messages sent to 0; forget reqs seen; reset_done on every
    /// link out, rising; stand-by.
    A,
    /// (b) stand-by, done seen from every neighbour: normal.
    B,
    /// (c) normal and some req seen: begin.
    C,
}

/// What a step comes to.
pub type Outcome = Result<Answer, Refusal>;

/// Raises the counts of station i by those of a message: each other count to
/// the greater of the two, then own count +1. Answers the news: how many of the
/// other counts grew.
fn raise(counts: &mut Counts, i: usize, message: &Counts) -> u8 {
    let before = *counts;
    for (count, &its) in counts.iter_mut().zip(message) {
        *count = (*count).max(its);
    }
    counts[i] = before[i] + 1;
    let grew = (0..MAX_STATIONS).filter(|&k| k != i && counts[k] > before[k]);
    grew.count() as u8
}

/// Setup from a header block: 1, then 3.
pub fn setup(block: &[u8]) -> Result<State, Refusal> {
    State::initial(&Header::read(block)?)
}

/// Setup with the length of the area that it is to fill: 11, 1, 3.
pub fn setup_area(area_length: usize, block: &[u8]) -> Result<State, Refusal> {
    if area_length != AREA {
        return Err(Refusal::BufferLength);
    }
    setup(block)
}

impl State {
    /// The initial state of a header's network: 1, then 3.
    pub fn initial(header: &Header) -> Result<State, Refusal> {
        header.accept()?;
        Ok(State {
            header: *header,
            stations: (0..header.n())
                .map(|i| Station::initial(header, i))
                .collect(),
            links: empty_links(),
        })
    }

    /// A state from its parts, with no test.
    pub fn from_parts(header: Header, stations: Vec<Station>, links: Links) -> State {
        State {
            header,
            stations,
            links,
        }
    }

    /// The number of stations.
    pub fn n(&self) -> usize {
        self.header.n()
    }

    /// Station i.
    pub fn station(&self, i: usize) -> &Station {
        &self.stations[i]
    }

    /// Station i, to be changed.
    pub fn station_mut(&mut self, i: usize) -> &mut Station {
        &mut self.stations[i]
    }

    /// The link from i to j.
    pub fn link(&self, i: usize, j: usize) -> &VecDeque<Item> {
        &self.links[i][j]
    }

    /// The link from i to j, to be changed.
    pub fn link_mut(&mut self, i: usize, j: usize) -> &mut VecDeque<Item> {
        &mut self.links[i][j]
    }

    /// Whether no link holds an item.
    pub fn links_empty(&self) -> bool {
        self.links.iter().flatten().all(VecDeque::is_empty)
    }

    // ----- well-formedness ('State area and host') -----

    /// Well formed: an accepted setup, all ranges kept, every count, in
    /// messages too, at most t and 0 for stations n and above, own entries and
    /// messages sent within limits, nothing marked for a non-neighbour.
    pub fn is_well_formed(&self) -> bool {
        self.header.accept().is_ok()
            && self.stations.len() == self.n()
            && (0..self.n()).all(|i| self.station_fits(i))
            && (0..MAX_STATIONS).all(|i| (0..MAX_STATIONS).all(|j| self.link_fits(i, j)))
    }

    /// Each count is at most t, and 0 for stations n and above.
    fn counts_fit(&self, counts: &Counts) -> bool {
        (0..MAX_STATIONS).all(|k| {
            let most = if k < self.n() { self.header.ceiling } else { 0 };
            counts[k] <= most
        })
    }

    fn station_fits(&self, i: usize) -> bool {
        let station = &self.stations[i];
        self.counts_fit(&station.counts)
            && station.phase <= LAST_PHASE
            && station.own_entries <= self.header.allowances[i]
            && (0..MAX_STATIONS).all(|j| {
                let limit = self.header.limits[i][j];
                // A limit of 0 is no link: then nothing may be marked, and
                // messages sent are 0 by their limit.
                station.sent[j] <= limit
                    && (limit > 0 || (!station.req_seen[j] && !station.done_seen[j]))
            })
    }

    /// Most items of the link from i to j: Lij + 2; none without a link.
    fn places(&self, i: usize, j: usize) -> usize {
        match self.header.limits[i][j] {
            0 => 0,
            limit => usize::from(limit) + EXTRA_PLACES,
        }
    }

    fn link_fits(&self, i: usize, j: usize) -> bool {
        let link = &self.links[i][j];
        link.len() <= self.places(i, j)
            && link.iter().all(|item| match item {
                Item::Message(message) => self.counts_fit(&message.counts),
                Item::ResetReq | Item::ResetDone => true,
            })
    }

    // ----- rest (the last sentence of 'Archive blocks'; CR 5) -----

    /// Rest: every station is normal, all phases are equal, and no link holds
    /// an item. 2 for a state that is not well formed.
    pub fn rest(&self) -> Result<bool, Refusal> {
        if !self.is_well_formed() {
            return Err(Refusal::IllFormedState);
        }
        let first = self.stations[0].phase;
        let all_normal = self.stations.iter().all(|s| s.mode == Mode::Normal);
        let one_phase = self.stations.iter().all(|s| s.phase == first);
        Ok(all_normal && one_phase && self.links_empty())
    }

    // ----- receipts to rest (CR 12) -----

    /// The greatest target phase of the stations: the greatest aim.
    pub fn greatest_target(&self) -> u32 {
        let targets = self.stations.iter().map(Station::target);
        targets.max().expect("a network has a station")
    }

    /// How many messages are under way.
    pub fn messages_under_way(&self) -> u64 {
        let items = self.links.iter().flatten().flatten();
        items.filter(|i| matches!(i, Item::Message(_))).count() as u64
    }

    /// The control items that station i has received from its neighbour j, read
    /// off its record: a reset_req for each of its resets and one where a req is
    /// seen; a reset_done for each reset that it has begun but for the last, and
    /// that of the last where the done is seen. Not below 0.
    pub fn control_items_received(&self, i: usize, j: usize) -> u64 {
        let station = &self.stations[i];
        let reqs = u64::from(station.phase) + u64::from(station.req_seen[j]);
        let dones = u64::from(station.target()) + u64::from(station.done_seen[j]);
        (reqs + dones).saturating_sub(1)
    }

    /// After how many accepted receipts, with receipts alone, every link is
    /// empty: the messages under way, and for each directed link twice the
    /// greatest target less the control items received on it, not below 0. On a
    /// state that no initial network reaches it is this number and no more. 2
    /// for a state that is not well formed.
    pub fn receipts_to_rest(&self) -> Result<u64, Refusal> {
        if !self.is_well_formed() {
            return Err(Refusal::IllFormedState);
        }
        let on_each_link = 2 * u64::from(self.greatest_target());
        let to_come = |(i, j)| on_each_link.saturating_sub(self.control_items_received(i, j));
        let pairs = (0..self.n()).flat_map(|i| self.header.neighbours(i).map(move |j| (i, j)));
        Ok(self.messages_under_way() + pairs.map(to_come).sum::<u64>())
    }

    // ----- the steps ('The steps') -----

    /// A step; a refused one leaves the state. Refusals 2, 4, 7, 5, 8, 6, 2, in
    /// this order: the last for a state after the step that would have an item,
    /// count or phase beyond its bound. From an initial network no list of steps
    /// meets a 2.
    pub fn step(&mut self, step: Step) -> Outcome {
        if !self.is_well_formed() {
            return Err(Refusal::IllFormedState);
        }
        self.step_well_formed(step)
    }

    /// A step of a state that is known to be well formed. Refusals 4, 7, 5, 8,
    /// 6, 2, in this order.
    pub fn step_well_formed(&mut self, step: Step) -> Outcome {
        match step {
            Step::Enter { station, register } => self.enter(station, register),
            Step::Send {
                station,
                peer,
                register,
            } => self.send(station, peer, register),
            Step::Recv { station, peer } => self.recv(station, peer),
            Step::Start { station } => self.start(station),
        }
    }

    /// A step with a record buffer, as a host calls it: an accepted entry
    /// writes its record there, other steps leave it. Another length than 32
    /// is 11, tried first.
    pub fn step_with_buffer(&mut self, step: Step, buffer: &mut [u8]) -> Outcome {
        if buffer.len() != RECORD {
            return Err(Refusal::BufferLength);
        }
        let outcome = self.step(step);
        if let Ok(Answer::Entry { record, .. }) = &outcome {
            buffer.copy_from_slice(&record.to_bytes());
        }
        outcome
    }

    /// 4: station ≥ n.
    fn test_station(&self, i: usize) -> Result<(), Refusal> {
        if i < self.n() {
            Ok(())
        } else {
            Err(Refusal::NoSuchStationOrLink)
        }
    }

    /// 4: station ≥ n, peer not a neighbour.
    fn test_link(&self, i: usize, j: usize) -> Result<(), Refusal> {
        self.test_station(i)?;
        if self.header.limit(i, j) > 0 {
            Ok(())
        } else {
            Err(Refusal::NoSuchStationOrLink)
        }
    }

    /// The own count + 1; 2 where that is above t.
    fn own_count_after(&self, i: usize) -> Result<u16, Refusal> {
        let own = self.stations[i].counts[i];
        if own < self.header.ceiling {
            Ok(own + 1)
        } else {
            Err(Refusal::IllFormedState)
        }
    }

    /// The record of an accepted entry, with the station's phase and counts.
    fn record(&self, kind: Kind, i: usize, peer: u8, register: u32) -> Record {
        Record {
            kind,
            station: i as u8,
            peer,
            phase: self.stations[i].phase,
            register,
            counts: self.stations[i].counts,
        }
    }

    /// enter i reg: own count +1; the entry's timestamp is the eight counts.
    /// Any mode.
    fn enter(&mut self, i: usize, register: u32) -> Outcome {
        self.test_station(i)?;
        if self.stations[i].own_entries >= self.header.allowances[i] {
            return Err(Refusal::UsedUp);
        }
        let own = self.own_count_after(i)?;
        let station = &mut self.stations[i];
        station.counts[i] = own;
        station.own_entries += 1;
        let record = self.record(Kind::Own, i, NO_PEER, register);
        Ok(Answer::Entry { record, news: None })
    }

    /// send i j reg: own count +1; that timestamp and reg are put on link i to
    /// j. Allowed in normal, and in stand-by where j's done is seen.
    fn send(&mut self, i: usize, j: usize, register: u32) -> Outcome {
        self.test_link(i, j)?;
        let station = &self.stations[i];
        let allowed = match station.mode {
            Mode::Normal => true,
            Mode::Mute => false,
            Mode::StandBy => station.done_seen[j],
        };
        if !allowed {
            return Err(Refusal::ModeForbids);
        }
        if station.sent[j] >= self.header.limits[i][j] {
            return Err(Refusal::UsedUp);
        }
        let own = self.own_count_after(i)?;
        if self.links[i][j].len() + 1 > self.places(i, j) {
            return Err(Refusal::IllFormedState);
        }
        let station = &mut self.stations[i];
        station.counts[i] = own;
        station.sent[j] += 1;
        let counts = station.counts;
        self.links[i][j].push_back(Item::Message(Message { register, counts }));
        let record = self.record(Kind::Sent, i, j as u8, register);
        Ok(Answer::Entry { record, news: None })
    }

    /// recv i j: station i takes the first item of link j to i.
    fn recv(&mut self, i: usize, j: usize) -> Outcome {
        self.test_link(i, j)?;
        match self.links[j][i].front().copied() {
            None => Err(Refusal::EmptyLink),
            Some(Item::Message(message)) => self.recv_message(i, j, message),
            Some(Item::ResetReq) => self.turn(i, |after| {
                after.links[j][i].pop_front();
                after.stations[i].req_seen[j] = true;
            }),
            Some(Item::ResetDone) => self.turn(i, |after| {
                after.links[j][i].pop_front();
                after.stations[i].done_seen[j] = true;
            }),
        }
    }

    /// A message: the counts are raised by its counts; that is an entry, with
    /// the message's register number. 2 where the own count would be above t.
    fn recv_message(&mut self, i: usize, j: usize, message: Message) -> Outcome {
        self.own_count_after(i)?;
        self.links[j][i].pop_front();
        let news = raise(&mut self.stations[i].counts, i, &message.counts);
        let record = self.record(Kind::Received, i, j as u8, message.register);
        Ok(Answer::Entry {
            record,
            news: Some(news),
        })
    }

    /// start i: allowed in normal. Begin, then the reset rules.
    fn start(&mut self, i: usize) -> Outcome {
        self.test_station(i)?;
        if self.stations[i].mode != Mode::Normal {
            return Err(Refusal::ModeForbids);
        }
        if self.stations[i].phase == LAST_PHASE {
            return Err(Refusal::LastPhase);
        }
        self.turn(i, |after| after.begin_reset(i))
    }

    /// Does something to a copy of the state, then runs the reset rules of
    /// station i there. 2 where the state after has an item or a phase beyond
    /// its bound; else it becomes the state, and the mode and phase after are
    /// the answer.
    fn turn(&mut self, i: usize, change: impl FnOnce(&mut State)) -> Outcome {
        let mut after = self.clone();
        change(&mut after);
        after.run_reset_rules(i);
        let links_fit = (0..MAX_STATIONS).all(|j| after.links[i][j].len() <= after.places(i, j));
        if !links_fit || after.stations[i].phase > LAST_PHASE {
            return Err(Refusal::IllFormedState);
        }
        *self = after;
        Ok(Answer::Mode {
            mode: self.stations[i].mode,
            phase: self.stations[i].phase,
        })
    }

    /// Puts an item on every link out of i, in rising order of neighbour.
    fn put_on_links_out(&mut self, i: usize, item: Item) {
        let header = self.header;
        for j in header.neighbours(i) {
            self.links[i][j].push_back(item);
        }
    }

    /// Begin: reset_req on every link out; forget all dones seen; mute.
    fn begin_reset(&mut self, i: usize) {
        self.put_on_links_out(i, Item::ResetReq);
        let station = &mut self.stations[i];
        station.done_seen = [false; MAX_STATIONS];
        station.mode = Mode::Mute;
    }

    /// The first reset rule that applies at station i as the state stands. From
    /// an initial network, every step leaves none.
    pub fn applicable_rule(&self, i: usize) -> Option<ResetRule> {
        let station = &self.stations[i];
        let every = |seen: &[bool; MAX_STATIONS]| self.header.neighbours(i).all(|j| seen[j]);
        match station.mode {
            Mode::Mute if every(&station.req_seen) => Some(ResetRule::A),
            Mode::StandBy if every(&station.done_seen) => Some(ResetRule::B),
            Mode::Normal if station.req_seen.contains(&true) => Some(ResetRule::C),
            _ => None,
        }
    }

    /// The reset rules (the document's turning rules) of station i, tried from
    /// the first again after each that applies, until none does. Answers those
    /// that applied, in order: at most three from any state, since begin
    /// forgets the dones and the reset forgets the reqs.
    pub fn run_reset_rules(&mut self, i: usize) -> Vec<ResetRule> {
        let mut applied = Vec::new();
        while let Some(rule) = self.applicable_rule(i) {
            match rule {
                ResetRule::A => self.reset(i),
                ResetRule::B => self.stations[i].mode = Mode::Normal,
                ResetRule::C => self.begin_reset(i),
            }
            applied.push(rule);
            assert!(applied.len() <= 3, "the reset rules do not end");
        }
        applied
    }

    /// What rule (a) does: phase +1; counts, own entries and messages sent to
    /// 0; forget reqs seen; reset_done on every link out, rising; stand-by.
    fn reset(&mut self, i: usize) {
        let station = &mut self.stations[i];
        station.phase += 1;
        station.counts = [0; MAX_STATIONS];
        station.own_entries = 0;
        station.sent = [0; MAX_STATIONS];
        station.req_seen = [false; MAX_STATIONS];
        station.mode = Mode::StandBy;
        self.put_on_links_out(i, Item::ResetDone);
    }
}
