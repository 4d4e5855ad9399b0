//! How many receipts, and nothing else, bring a network to rest: CR 12 of
//! document 02, with the aim of CR 11.

use std::collections::{HashMap, HashSet};
use std::hash::{BuildHasher, RandomState};

use reference::generate::{self, every_step, receipts_waiting, Habits, NetworkWish, Shape};
use reference::header::Header;
use reference::network::steps::{self, recv, start};
use reference::network::{Answer, Item, Message, Mode, State, Step};
use reference::random::Rng;
use reference::refusal::Refusal;
use reference::{LAST_PHASE, MAX_STATIONS};

fn send(station: usize, peer: usize) -> Step {
    steps::send(station, peer, 0)
}

/// Pairs of neighbours.
type Pairs = [(usize, usize)];

const PAIR: &Pairs = &[(0, 1)];
const CHAIN: &Pairs = &[(0, 1), (1, 2)];

/// Every two of n stations.
fn all_pairs(n: usize) -> Vec<(usize, usize)> {
    (0..n).flat_map(|i| (0..i).map(move |j| (i, j))).collect()
}

/// A network of these pairs of neighbours, all limits and allowances alike, with
/// the least ceiling.
fn header(n: usize, pairs: &Pairs, limit: u8, allowance: u16) -> Header {
    let mut header = Header::new(n as u8, 1);
    for &(i, j) in pairs {
        (header.limits[i][j], header.limits[j][i]) = (limit, limit);
    }
    header.allowances[..n].fill(allowance);
    header.ceiling = (0..n).map(|i| header.load(i)).max().unwrap().max(1) as u16;
    header
}

fn initial(n: usize, pairs: &Pairs) -> State {
    State::initial(&header(n, pairs, 2, 1)).unwrap()
}

fn accept(state: &mut State, steps: &[Step]) {
    for &step in steps {
        assert!(state.step(step).is_ok(), "{step:?}");
    }
}

fn number(state: &State) -> u64 {
    state.receipts_to_rest().expect("a well-formed state")
}

/// At rest in a phase.
fn assert_at_rest(state: &State, phase: u32) {
    assert!(state.links_empty());
    for station in &state.stations {
        assert_eq!((station.mode, station.phase), (Mode::Normal, phase));
    }
    assert_eq!(state.rest(), Ok(true));
}

/// What states had to them.
#[derive(Debug, Default)]
struct Met {
    states: u32,
    messages: u32,
    mute: u32,
    stand_by: u32,
    phases_apart: u32,
    greatest_number: u64,
}

impl Met {
    fn add(&mut self, state: &State) {
        let is = |mode| state.stations.iter().any(|s| s.mode == mode);
        let apart = state
            .stations
            .iter()
            .any(|s| s.phase != state.stations[0].phase);
        self.states += 1;
        self.messages += u32::from(state.messages_under_way() > 0);
        self.mute += u32::from(is(Mode::Mute));
        self.stand_by += u32::from(is(Mode::StandBy));
        self.phases_apart += u32::from(apart);
        self.greatest_number = self.greatest_number.max(number(state));
    }
}

// ----- every order, from every state of small networks -----

/// How many receipts the orders from a state have, and in which phases they end.
#[derive(Clone, Copy, Debug, PartialEq)]
struct Orders {
    shortest: u64,
    longest: u64,
    lowest_phase: u32,
    highest_phase: u32,
}

impl Orders {
    fn same(length: u64, phase: u32) -> Orders {
        Orders {
            shortest: length,
            longest: length,
            lowest_phase: phase,
            highest_phase: phase,
        }
    }

    /// The orders found so far, and those of a receipt and then as after it.
    fn with(found: Option<Orders>, after: Orders) -> Orders {
        let longer = Orders {
            shortest: after.shortest + 1,
            longest: after.longest + 1,
            ..after
        };
        found.map_or(longer, |found| Orders {
            shortest: found.shortest.min(longer.shortest),
            longest: found.longest.max(longer.longest),
            lowest_phase: found.lowest_phase.min(longer.lowest_phase),
            highest_phase: found.highest_phase.max(longer.highest_phase),
        })
    }
}

/// The orders from the states that are known.
#[derive(Default)]
struct Known {
    hasher: RandomState,
    orders: HashMap<u64, Orders>,
}

impl Known {
    /// Every order from a state, depth first. Where no receipt is accepted the
    /// network is at rest.
    fn orders_from(&mut self, state: &State) -> Orders {
        let key = self.hasher.hash_one(state);
        if let Some(&orders) = self.orders.get(&key) {
            return orders;
        }
        let mut found = None;
        for step in every_step(state.n()) {
            let mut after = state.clone();
            if matches!(step, Step::Recv { .. }) && after.step(step).is_ok() {
                found = Some(Orders::with(found, self.orders_from(&after)));
            }
        }
        let orders = found.unwrap_or_else(|| {
            let phase = state.stations[0].phase;
            assert_at_rest(state, phase);
            Orders::same(0, phase)
        });
        self.orders.insert(key, orders);
        orders
    }
}

/// Every state that a network reaches by steps of some kinds in its first
/// phases, and every order of receipts from there.
fn explore(header: &Header, last_phase: u32, is_taken: fn(&Step) -> bool) -> Met {
    let hasher = RandomState::new();
    let (mut met, mut seen, mut known) = (Met::default(), HashSet::new(), Known::default());
    let mut open = vec![State::initial(header).unwrap()];
    while let Some(state) = open.pop() {
        if !seen.insert(hasher.hash_one(&state)) {
            continue;
        }
        let right = Orders::same(number(&state), state.greatest_target());
        assert_eq!(known.orders_from(&state), right, "{state:?}");
        assert_eq!(state.rest(), Ok(right.longest == 0));
        met.add(&state);
        if state.stations.iter().any(|s| s.phase > last_phase) {
            continue;
        }
        for step in every_step(state.n()).into_iter().filter(is_taken) {
            let mut after = state.clone();
            if after.step(step).is_ok() {
                open.push(after);
            }
        }
    }
    println!("{met:?}");
    met
}

#[test]
fn every_order_from_every_state_of_pairs() {
    for (limit, allowance, last_phase) in [(1, 0, 5), (1, 1, 4), (2, 0, 3), (2, 1, 2)] {
        let met = explore(&header(2, PAIR, limit, allowance), last_phase, |_| true);
        let seen = [met.messages, met.mute, met.stand_by, met.phases_apart];
        assert!(seen.iter().all(|&states| states > 50), "{met:?}");
    }
}

#[test]
fn every_order_from_every_state_of_a_chain() {
    let met = explore(&header(3, CHAIN, 1, 0), 1, |_| true);
    let seen = [met.messages, met.mute, met.stand_by, met.phases_apart];
    assert!(seen.iter().all(|&states| states > 1000), "{met:?}");
}

/// Resets alone have fewer states, so the networks may be larger.
#[test]
fn every_order_from_every_state_of_resets() {
    let networks: [(usize, &Pairs, u32); 6] = [
        (3, CHAIN, 4),
        (3, &[(0, 1), (1, 2), (2, 0)], 3),
        (4, &[(0, 1), (1, 2), (2, 3)], 2),
        (4, &[(0, 1), (0, 2), (0, 3)], 2),
        (4, &[(0, 1), (1, 2), (2, 3), (3, 0)], 1),
        (5, &[(0, 1), (1, 2), (2, 3), (3, 4)], 1),
    ];
    for (n, pairs, last_phase) in networks {
        let resets = |step: &Step| matches!(step, Step::Recv { .. } | Step::Start { .. });
        let met = explore(&header(n, pairs, 1, 0), last_phase, resets);
        let seen = [met.mute, met.stand_by, met.phases_apart];
        assert!(seen.iter().all(|&states| states > 100), "{met:?}");
    }
}

// ----- some orders, from random states of any network -----

/// Which of the receipts that can be taken is the next.
#[derive(Clone, Copy, Debug)]
enum Order {
    FirstLink,
    LastLink,
    Any,
    /// One station takes all that there is for it, then the others.
    StationFirst(usize),
    /// One station takes something only where no other can.
    StationLast(usize),
    /// The station that is furthest behind, or furthest ahead.
    Behind,
    Ahead,
    FullestLink,
}

impl Order {
    fn all(rng: &mut Rng, n: usize) -> [Order; 8] {
        [
            Order::FirstLink,
            Order::LastLink,
            Order::Any,
            Order::StationFirst(rng.index(n)),
            Order::StationLast(rng.index(n)),
            Order::Behind,
            Order::Ahead,
            Order::FullestLink,
        ]
    }

    /// The least is taken.
    fn rank(self, state: &State, (station, peer): (usize, usize)) -> i64 {
        let taker = state.station(station);
        let progress = i64::from(taker.phase) + i64::from(taker.target());
        match self {
            Order::FirstLink | Order::Any => 0,
            Order::LastLink => -((MAX_STATIONS * station + peer) as i64),
            Order::StationFirst(first) => i64::from(station != first),
            Order::StationLast(last) => i64::from(station == last),
            Order::Behind => progress,
            Order::Ahead => -progress,
            Order::FullestLink => -(state.link(peer, station).len() as i64),
        }
    }

    fn next(self, rng: &mut Rng, state: &State) -> Option<Step> {
        let waiting = receipts_waiting(state);
        match self {
            Order::Any if !waiting.is_empty() => Some(rng.pick(&waiting)),
            _ => waiting.into_iter().min_by_key(|step| match *step {
                Step::Recv { station, peer } => self.rank(state, (station, peer)),
                _ => i64::MAX,
            }),
        }
    }
}

/// Receives until nothing waits: as often as the number says, which falls by one
/// with each receipt, and then the network is at rest in the greatest target.
fn receive_all(rng: &mut Rng, mut state: State, order: Order) {
    let (number_before, phase) = (number(&state), state.greatest_target());
    let mut accepted = 0;
    while let Some(step) = order.next(rng, &state) {
        assert!(state.step(step).is_ok(), "{order:?} {step:?}");
        accepted += 1;
        assert_eq!(number(&state) + accepted, number_before, "{order:?}");
        assert_eq!(state.greatest_target(), phase);
    }
    assert_eq!(accepted, number_before, "{order:?}");
    assert_at_rest(&state, phase);
}

/// A random run from an initial network, which shows each state that an accepted
/// step leaves, with the step and its answer.
fn run(
    rng: &mut Rng,
    header: &Header,
    length: usize,
    mut look: impl FnMut(&mut Rng, &State, Step, Answer),
) {
    let mut state = State::initial(header).unwrap();
    let mut habits = Habits::any(rng);
    for _ in 0..length {
        if rng.chance(1, 24) {
            habits = Habits::any(rng);
        }
        let step = generate::next_step(rng, &state, &habits);
        if let Ok(answer) = state.step(step) {
            look(rng, &state, step, answer);
        }
    }
}

/// Any network, of each shape in turn, every other one of eight stations but for
/// the lone ones.
fn shaped(rng: &mut Rng, k: usize) -> Header {
    let wish = NetworkWish {
        shape: Some(Shape::ALL[k % 6]),
        small: rng.chance(1, 2),
        tight: rng.chance(1, 2),
        fewest: if k % 12 < 6 { 1 } else { 8 },
        ..NetworkWish::default()
    };
    generate::network(rng, wish)
}

#[test]
fn orders_from_random_states() {
    let seed = 26;
    println!("seed {seed}");
    let (mut rng, mut met) = (Rng::new(seed), Met::default());
    for k in 0..600 {
        let header = shaped(&mut rng, k);
        run(&mut rng, &header, 400, |rng, state, _, _| {
            if !rng.chance(1, 40) {
                return;
            }
            met.add(state);
            for order in Order::all(rng, state.n()) {
                receive_all(rng, state.clone(), order);
            }
        });
    }
    println!("{met:?}");
    let seen = [met.messages, met.mute, met.stand_by, met.phases_apart];
    assert!(seen.iter().all(|&states| states > 100), "{met:?}");
}

/// The number falls by one with a receipt, is one more after a send, stays with
/// an own entry, and with a start grows by two for each directed link or not at
/// all, as the greatest target does.
#[test]
fn the_number_along_runs() {
    let seed = 27;
    println!("seed {seed}");
    let (mut rng, mut starts) = (Rng::new(seed), [0; 2]);
    for k in 0..300 {
        let header = shaped(&mut rng, k);
        let links: usize = (0..header.n()).map(|i| header.neighbours(i).count()).sum();
        let (mut before, mut target) = (0, 0);
        run(&mut rng, &header, 300, |_, state, step, _| {
            let grew = state.greatest_target() - target;
            let right = match step {
                Step::Enter { .. } => before,
                Step::Send { .. } => before + 1,
                Step::Recv { .. } => before - 1,
                Step::Start { .. } => before + u64::from(2 * grew) * links as u64,
            };
            assert_eq!(number(state), right, "{step:?}");
            assert!(grew == 0 || (grew == 1 && matches!(step, Step::Start { .. })));
            starts[grew as usize] += u32::from(matches!(step, Step::Start { .. }));
            (before, target) = (right, state.greatest_target());
        });
    }
    println!("starts that left the greatest target, and that raised it: {starts:?}");
    assert!(starts.iter().all(|&starts| starts > 100), "{starts:?}");
}

/// The control items on each link are counted as they are received: their number
/// is what is read off the receiving station.
#[test]
fn control_items_counted_along_runs() {
    let seed = 28;
    println!("seed {seed}");
    let (mut rng, mut most) = (Rng::new(seed), 0);
    for k in 0..300 {
        let header = shaped(&mut rng, k);
        let mut received = [[0; MAX_STATIONS]; MAX_STATIONS];
        run(&mut rng, &header, 400, |_, state, step, answer| {
            if let (Step::Recv { station, peer }, Answer::Mode { .. }) = (step, answer) {
                received[station][peer] += 1;
            }
            for (i, from) in received.iter().enumerate().take(state.n()) {
                for j in header.neighbours(i) {
                    assert_eq!(state.control_items_received(i, j), from[j]);
                    most = most.max(from[j]);
                }
            }
        });
    }
    println!("{most} control items on one link");
    assert!(most > 20);
}

/// A network that has gone through so many whole resets has the same numbers, up
/// to the last phase.
#[test]
fn orders_in_the_last_phases() {
    let seed = 29;
    println!("seed {seed}");
    let (mut rng, mut last) = (Rng::new(seed), 0);
    for k in 0..60 {
        let header = shaped(&mut rng, k);
        let mut state = State::initial(&header).unwrap();
        let phase = LAST_PHASE - 1 - rng.below(2) as u32;
        for station in &mut state.stations {
            station.phase = phase;
        }
        for _ in 0..60 {
            let habits = Habits::any(&mut rng);
            let step = generate::next_step(&mut rng, &state, &habits);
            let _ = state.step(step);
        }
        last += u32::from(state.greatest_target() == LAST_PHASE);
        for order in Order::all(&mut rng, state.n()) {
            receive_all(&mut rng, state.clone(), order);
        }
    }
    println!("{last} aimed at the last phase");
    assert!(last > 20);
}

// ----- by hand -----

/// Steps, each with the number after it.
fn assert_numbers(state: &mut State, steps: &[(Step, u64)]) {
    for &(step, right) in steps {
        assert!(state.step(step).is_ok(), "{step:?}");
        assert_eq!(number(state), right, "after {step:?}");
    }
}

#[test]
fn a_pair_by_hand() {
    let mut state = initial(2, PAIR);
    assert_eq!(number(&state), 0);
    let enter = Step::Enter {
        station: 0,
        register: 0,
    };
    // Two directed links, and on each a req and a done.
    assert_numbers(
        &mut state,
        &[
            (enter, 0),
            (send(0, 1), 1),
            (send(0, 1), 2),
            (start(1), 6),
            (recv(0, 1), 5), // the req, behind which 0 resets at once
            (recv(1, 0), 4),
            (recv(1, 0), 3), // both messages
            (recv(1, 0), 2),
            (recv(1, 0), 1), // req and done
            (recv(0, 1), 0),
        ],
    );
    assert_at_rest(&state, 1);
    // Both start at once: it is one reset.
    assert_numbers(&mut state, &[(start(0), 4), (start(1), 4), (recv(0, 1), 3)]);
    // 0 has reset, and 1 has not: the greatest target is one and the same.
    assert_eq!(state.station(0).phase, 2);
    assert_eq!(state.station(1).phase, 1);
    assert_eq!(state.greatest_target(), 2);
    // A message of the new phase may be sent when the done is seen.
    assert_numbers(
        &mut state,
        &[
            (recv(1, 0), 2),
            (recv(1, 0), 1),
            (send(1, 0), 2),
            (recv(0, 1), 1),
            (recv(0, 1), 0),
        ],
    );
    assert_at_rest(&state, 2);
}

/// A second reset begins at one end of a chain before the first is through at
/// the other.
#[test]
fn a_chain_by_hand() {
    let mut state = initial(3, CHAIN);
    // Four directed links.
    assert_numbers(
        &mut state,
        &[
            (start(1), 8),
            (recv(0, 1), 7),
            (recv(1, 0), 6),
            (recv(1, 0), 5),
            (recv(2, 1), 4),
            (recv(1, 2), 3),
            (send(1, 0), 4),
            (recv(0, 1), 3),
            (recv(0, 1), 2),
        ],
    );
    // A done to 1 and one to 2 are under way.
    assert_eq!(state.station(1).mode, Mode::StandBy);
    assert_eq!(state.station(2).mode, Mode::StandBy);
    let steps = [
        (start(0), 10), // two more on each link
        (recv(1, 0), 9),
        (recv(1, 2), 8), // 1 is normal for a moment, and then mute
        (recv(2, 1), 7),
        (recv(2, 1), 6),
        (recv(1, 2), 5),
        (recv(1, 2), 4),
        (recv(0, 1), 3),
        (recv(0, 1), 2),
        (recv(2, 1), 1),
        (recv(1, 0), 0),
    ];
    // In between, what each station has received of the four items to come on
    // each of its links.
    assert_numbers(&mut state, &steps[..2]);
    let received = |i, j| state.control_items_received(i, j);
    assert_eq!([received(0, 1), received(2, 1)], [2, 1]);
    assert_eq!([received(1, 0), received(1, 2)], [3, 1]);
    assert_numbers(&mut state, &steps[2..]);
    assert_at_rest(&state, 2);
}

#[test]
fn a_lone_station_has_nothing_to_receive() {
    let mut state = initial(1, &[]);
    for phase in 0..4 {
        assert_eq!((number(&state), state.greatest_target()), (0, phase));
        accept(&mut state, &[start(0)]);
    }
}

/// Eight stations that all start at once, and a message on each link.
#[test]
fn eight_stations_by_hand() {
    let star: Vec<(usize, usize)> = (1..8).map(|i| (0, i)).collect();
    for (pairs, links) in [(all_pairs(8), 56), (star, 14)] {
        let mut state = initial(8, &pairs);
        for &(i, j) in &pairs {
            accept(&mut state, &[send(i, j), send(j, i)]);
        }
        assert_eq!(number(&state), links);
        for i in 0..8 {
            accept(&mut state, &[start(i)]);
            assert_eq!(number(&state), 3 * links);
        }
        receive_all(&mut Rng::new(1), state, Order::FirstLink);
    }
}

// ----- lent states -----

/// Well-formed states that no initial network reaches, where a subtraction stops
/// at 0, each for itself.
#[test]
fn lent_states_stop_at_0() {
    // No done is seen though none was begun: nothing was received, and not one
    // less than that.
    let mut state = initial(3, CHAIN);
    state.station_mut(1).done_seen = [false; MAX_STATIONS];
    assert_eq!(state.control_items_received(1, 0), 0);
    assert_eq!(number(&state), 0);
    state.station_mut(0).phase = 1; // 2 on each of the links to 1 and to 2
    assert_eq!(number(&state), 6);

    // A req is seen of a station that begins nothing: more was received than
    // there is, which takes nothing off the other links.
    let mut state = initial(3, CHAIN);
    for station in &mut state.stations {
        station.phase = 5;
    }
    state.station_mut(0).req_seen[1] = true;
    assert_eq!(state.control_items_received(0, 1), 11);
    assert_eq!(number(&state), 0);
    state.station_mut(2).done_seen[1] = false; // 9 of 10
    assert_eq!(number(&state), 1);

    // Control items on links do not count where they are; messages do.
    let message = Item::Message(Message {
        register: 9,
        counts: [0; MAX_STATIONS],
    });
    state
        .link_mut(1, 0)
        .extend([Item::ResetReq, message, Item::ResetDone, message]);
    assert_eq!(number(&state), 3);
    state.link_mut(2, 1).extend([message; 4]);
    assert_eq!(number(&state), 7);
}

/// The greatest number there is: one station of eight aims behind the last phase
/// and the others have received nothing, with every link full of messages.
#[test]
fn the_greatest_number() {
    let pairs = all_pairs(8);
    let mut state = State::initial(&header(8, &pairs, 32, 0)).unwrap();
    for (i, station) in state.stations.iter_mut().enumerate() {
        station.done_seen = [false; MAX_STATIONS];
        (station.mode, station.phase) = match i {
            7 => (Mode::Mute, LAST_PHASE),
            _ => (Mode::Normal, 0),
        };
    }
    assert_eq!(state.greatest_target(), 1_000_000);
    // Station 7 has received 1,999,998 on each of its links.
    assert_eq!(number(&state), 49 * 2_000_000 + 7 * 2);
    let message = Item::Message(Message {
        register: 0,
        counts: [0; MAX_STATIONS],
    });
    for &(i, j) in &pairs {
        state.link_mut(i, j).extend([message; 34]);
        state.link_mut(j, i).extend([message; 34]);
    }
    assert_eq!(number(&state), 98_000_014 + 56 * 34);
    state.station_mut(0).phase = LAST_PHASE + 1;
    assert_eq!(state.receipts_to_rest(), Err(Refusal::IllFormedState));
}
