//! Steps at the bounds of a state: the last of a step's refusals in 'State area
//! and host' of document 01, whose number is 2 by CR 9 of document 02. No list
//! of steps from an initial network meets it, so the states are made by hand.

use crate::header::Header;
use crate::network::steps::{self, recv, start};
use crate::network::{Item, Message, Mode, State, Step, EXTRA_PLACES};
use crate::refusal::Refusal;
use crate::{LAST_PHASE, MAX_STATIONS};

/// What a step may not leave.
#[derive(Clone, Copy, Debug, PartialEq, Eq, Hash)]
pub enum Bound {
    /// The places of a link: at most Lij + 2 items.
    Places,
    /// The ceiling of a count.
    Ceiling,
    /// The last phase.
    LastPhase,
}

impl Bound {
    /// Every bound.
    pub const ALL: [Bound; 3] = [Bound::Places, Bound::Ceiling, Bound::LastPhase];

    /// Takes station i as far away from the bound as can be.
    pub fn relieve(self, state: &mut State, i: usize) {
        match self {
            Bound::Places => state.links[i].iter_mut().for_each(|link| link.clear()),
            Bound::Ceiling => state.stations[i].counts[i] = 0,
            Bound::LastPhase => state.stations[i].phase = 0,
        }
    }
}

/// The bounds that a step of a well-formed state would leave: those that alone
/// are enough for a 2, the station being far away from the others.
pub fn bounds_left(state: &State, step: Step) -> Vec<Bound> {
    let refuses = |bound: &Bound| {
        let mut state = state.clone();
        for other in Bound::ALL.into_iter().filter(|other| other != bound) {
            other.relieve(&mut state, step.station());
        }
        state.step_well_formed(step) == Err(Refusal::IllFormedState)
    };
    match state.clone().step_well_formed(step) {
        Err(Refusal::IllFormedState) => Bound::ALL.into_iter().filter(refuses).collect(),
        _ => Vec::new(),
    }
}

/// How many own counts stand at the ceiling.
pub fn counts_at_the_ceiling(state: &State) -> usize {
    let stations = state.stations.iter().enumerate();
    let at = stations.filter(|(i, station)| station.counts[*i] == state.header.ceiling);
    at.count()
}

/// The links that hold as many items as they have places.
pub fn full_links(state: &State) -> Vec<(usize, usize)> {
    let links = (0..MAX_STATIONS * MAX_STATIONS).map(|k| (k / MAX_STATIONS, k % MAX_STATIONS));
    let full = |&(i, j): &(usize, usize)| {
        let limit = usize::from(state.header.limits[i][j]);
        limit > 0 && state.links[i][j].len() == limit + EXTRA_PLACES
    };
    links.filter(full).collect()
}

/// Looks at an output of `turnover`: a refused step has a number from 4 to 8,
/// and a refused setup 1 or 3.
pub fn check_refusals(output: &[u8]) {
    for line in String::from_utf8_lossy(output).lines() {
        let words: Vec<&str> = line.split(' ').collect();
        let fits = match words[..] {
            ["no", number] => ["1", "3"].contains(&number),
            [_, "no", number] => ["4", "5", "6", "7", "8"].contains(&number),
            _ => !words.contains(&"no"),
        };
        assert!(fits, "{line}");
    }
}

/// A step at a bound, or near it.
#[derive(Clone, Debug)]
pub struct Case {
    /// What there is to it.
    pub what: &'static str,
    /// A well-formed state.
    pub state: State,
    /// A step of it.
    pub step: Step,
    /// The number that the step is refused with; 0 where it is accepted.
    pub number: u8,
}

fn case(what: &'static str, state: &State, step: Step, number: u8) -> Case {
    Case {
        what,
        state: state.clone(),
        step,
        number,
    }
}

fn enter(station: usize) -> Step {
    steps::enter(station, 5)
}
fn send(station: usize, peer: usize) -> Step {
    steps::send(station, peer, 6)
}

/// The ceiling of [`path`].
const CEILING: u16 = 11;
/// The places of its links.
const PLACES: usize = 4;

/// The path 0 - 1 - 2 with limits of 2, allowances of 3 and the least ceiling.
fn path() -> State {
    let mut header = Header::new(3, CEILING);
    header.allowances[..3].fill(3);
    for (i, j) in [(0, 1), (1, 0), (1, 2), (2, 1)] {
        header.limits[i][j] = 2;
    }
    State::initial(&header).expect("a network")
}

/// The path with an item on the link from i to j.
fn holding(i: usize, j: usize, item: Item) -> State {
    let mut state = path();
    state.links[i][j].push_back(item);
    state
}

/// The state with so many messages, and nothing else, on the link from i to j.
fn filled(mut state: State, i: usize, j: usize, messages: usize) -> State {
    state.links[i][j] = vec![message([0; 3]); messages].into();
    state
}

fn message(first: [u16; 3]) -> Item {
    let mut counts = [0; MAX_STATIONS];
    counts[..3].copy_from_slice(&first);
    let register = 7;
    Item::Message(Message { register, counts })
}

/// Every case, of accepted steps too.
pub fn by_hand() -> Vec<Case> {
    let groups = [
        counts(),
        places_of_entries_and_starts(),
        places_of_receipts(),
        places_of_both_rules(),
        phases(),
        several(),
        earlier_for_entries(),
        earlier_for_links(),
    ];
    groups.concat()
}

/// The own count at the ceiling, one below it, and other counts there.
fn counts() -> Vec<Case> {
    let mut at = holding(1, 0, message([0, 1, 0]));
    at.stations[0].counts[0] = CEILING;
    let mut below = at.clone();
    below.stations[0].counts[0] = CEILING - 1;
    let mut others = holding(1, 0, message([CEILING; 3]));
    others.stations[0].counts[1] = CEILING;
    vec![
        case("an entry at the ceiling", &at, enter(0), 2),
        case("a send at the ceiling", &at, send(0, 1), 2),
        case("a message's receipt at the ceiling", &at, recv(0, 1), 2),
        case("a start at the ceiling", &at, start(0), 0),
        case("an entry below the ceiling", &below, enter(0), 0),
        case("a send below the ceiling", &below, send(0, 1), 0),
        case("a receipt below the ceiling", &below, recv(0, 1), 0),
        case("other counts at the ceiling", &others, recv(0, 1), 0),
    ]
}

/// A send and a start each put an item on a link: full, and with one place.
fn places_of_entries_and_starts() -> Vec<Case> {
    let full = filled(path(), 0, 1, PLACES);
    let room = filled(path(), 0, 1, PLACES - 1);
    let second = filled(path(), 1, 2, PLACES);
    vec![
        case("a send on a full link", &full, send(0, 1), 2),
        case("a send on the last place", &room, send(0, 1), 0),
        case("a start by a full link", &full, start(0), 2),
        case("a start with one place", &room, start(0), 0),
        case(
            "a start by a second link that is full",
            &second,
            start(1),
            2,
        ),
        case("a send on another link", &second, send(1, 0), 0),
        case("an entry beside a full link", &full, enter(0), 0),
        case("a receipt from a full link", &full, recv(1, 0), 0),
    ]
}

/// Station 1 is normal, and a req comes: rule c.
fn first_req() -> State {
    holding(0, 1, Item::ResetReq)
}

/// Station 1 is mute and has seen these reqs; an item comes from station 2.
fn mute(reqs: &[usize], item: Item) -> State {
    let mut state = holding(2, 1, item);
    let station = &mut state.stations[1];
    station.mode = Mode::Mute;
    station.done_seen = [false; MAX_STATIONS];
    reqs.iter().for_each(|&j| station.req_seen[j] = true);
    state
}

/// Station 1 is in stand-by and the last done comes: rule b, and rule c where a
/// req is seen.
fn last_done(asked: bool) -> State {
    let mut state = holding(2, 1, Item::ResetDone);
    let station = &mut state.stations[1];
    station.mode = Mode::StandBy;
    station.done_seen[2] = false;
    station.req_seen[0] = asked;
    state
}

/// A control item whose receipt puts one item on each link out, by rule c or
/// by rule a, or none.
fn places_of_receipts() -> Vec<Case> {
    let mut all = Vec::new();
    for peer in [0, 2] {
        for (messages, number) in [(PLACES - 1, 0), (PLACES, 2)] {
            let with = |state| filled(state, 1, peer, messages);
            let last_req = mute(&[0], Item::ResetReq);
            let one_more = mute(&[], Item::ResetReq);
            let all_seen = mute(&[0, 2], Item::ResetDone);
            all.extend([
                case("rule c", &with(first_req()), recv(1, 0), number),
                case("rule a", &with(last_req), recv(1, 2), number),
                case("rule a at a done", &with(all_seen), recv(1, 2), number),
                case("rules b and c", &with(last_done(true)), recv(1, 2), number),
                case("rule b", &with(last_done(false)), recv(1, 2), 0),
                case("no rule", &with(one_more), recv(1, 2), 0),
            ]);
        }
    }
    all
}

/// A req at a station with one neighbour puts two items: rule c, then rule a.
fn places_of_both_rules() -> Vec<Case> {
    let asked = holding(1, 0, Item::ResetReq);
    let cases = [(PLACES - 2, 0), (PLACES - 1, 2), (PLACES, 2)];
    let with = |(messages, number)| {
        let state = filled(asked.clone(), 0, 1, messages);
        case("rules c and a", &state, recv(0, 1), number)
    };
    cases.map(with).into()
}

/// The last phase and the one before it, where the receipt of a control item
/// may let rule a apply.
fn phases() -> Vec<Case> {
    let mut all = Vec::new();
    for (phase, number) in [(LAST_PHASE - 1, 0), (LAST_PHASE, 2)] {
        let within = |mut state: State| {
            state.stations.iter_mut().for_each(|s| s.phase = phase);
            state
        };
        let normal = within(holding(1, 0, Item::ResetReq));
        let last_req = within(mute(&[0], Item::ResetReq));
        let all_seen = within(mute(&[0, 2], Item::ResetDone));
        let mut stand_by = within(holding(1, 0, Item::ResetDone));
        stand_by.stations[0].mode = Mode::StandBy;
        stand_by.stations[0].done_seen[1] = false;
        stand_by.stations[0].req_seen[1] = true;
        all.extend([
            case("normal: rules c and a", &normal, recv(0, 1), number),
            case("normal: rule c", &within(first_req()), recv(1, 0), 0),
            case("mute: rule a", &last_req, recv(1, 2), number),
            case("mute: rule a at a done", &all_seen, recv(1, 2), number),
            case("stand-by: rules b, c and a", &stand_by, recv(0, 1), number),
            case("an entry", &normal, enter(0), 0),
            case("a send", &normal, send(0, 1), 0),
        ]);
    }
    all
}

/// Two bounds at once.
fn several() -> Vec<Case> {
    let mut state = filled(path(), 0, 1, PLACES);
    state.stations[0].counts[0] = CEILING;
    state.stations[0].phase = LAST_PHASE;
    state.links[1][0].push_back(Item::ResetReq);
    vec![
        case("the ceiling and a full link", &state, send(0, 1), 2),
        case("the last phase and a full link", &state, recv(0, 1), 2),
    ]
}

/// Everything is against station 0: in the last phase, its count at the
/// ceiling, its allowance and limit used up, its link out full and that to it
/// empty.
fn against_station_0(mode: Mode) -> State {
    let mut state = filled(path(), 0, 1, PLACES);
    let station = &mut state.stations[0];
    station.mode = mode;
    station.phase = LAST_PHASE;
    station.counts[0] = CEILING;
    station.own_entries = 3;
    station.sent[1] = 2;
    station.done_seen[1] = mode == Mode::Normal;
    state
}

/// 4, 7 and 6 come before the late 2.
fn earlier_for_entries() -> Vec<Case> {
    let state = against_station_0(Mode::Normal);
    let mut free = state.clone();
    free.stations[0].own_entries = 2;
    let mut unsent = state.clone();
    unsent.stations[0].sent[1] = 1;
    vec![
        case("no station to enter", &state, enter(3), 4),
        case("no station to send", &state, send(8, 0), 4),
        case("no neighbour to send to", &state, send(0, 2), 4),
        case("itself to send to", &state, send(0, 0), 4),
        case("no neighbour to receive from", &state, recv(0, 2), 4),
        case("no station to start", &state, start(3), 4),
        case("an empty link", &state, recv(0, 1), 7),
        case("the allowance used up", &state, enter(0), 6),
        case("the allowance not used up", &free, enter(0), 2),
        case("the limit used up", &state, send(0, 1), 6),
        case("the limit not used up", &unsent, send(0, 1), 2),
    ]
}

/// 5 and 8 come before the late 2.
fn earlier_for_links() -> Vec<Case> {
    let mut all = Vec::new();
    for mode in [Mode::Mute, Mode::StandBy] {
        let mut state = against_station_0(mode);
        all.push(case("a mode that forbids a start", &state, start(0), 5));
        all.push(case("a mode that forbids a send", &state, send(0, 1), 5));
        state.stations[0].sent[1] = 0;
        all.push(case("the same below the limit", &state, send(0, 1), 5));
    }
    let mut state = against_station_0(Mode::StandBy);
    state.stations[0].sent[1] = 0;
    state.stations[0].done_seen[1] = true;
    all.push(case("stand-by with the done seen", &state, send(0, 1), 2));
    let mut state = against_station_0(Mode::Normal);
    all.push(case("a start in the last phase", &state, start(0), 8));
    state.stations[0].phase = LAST_PHASE - 1;
    all.push(case("a start before it", &state, start(0), 2));
    all
}
