//! The news of a receipt, how many of the other stations' counts it raised:
//! CR 7 of document 02.

use reference::causality::{accepted_entries, happened_before, Entry, Relation, Run};
use reference::generate::{self, Habits, NetworkWish, Shape, Traffic};
use reference::header::Header;
use reference::network::steps::{self, recv};
use reference::network::{Answer, Item, Message, Mode, Outcome, State, Step};
use reference::random::Rng;
use reference::record::Kind;
use reference::refusal::Refusal;
use reference::{area, in_place, Counts, MAX_STATIONS};

fn enter(station: usize) -> Step {
    steps::enter(station, 1)
}
fn send(station: usize, peer: usize) -> Step {
    steps::send(station, peer, 2)
}

/// The initial network of these pairs of neighbours, with room for some sends
/// and own entries.
fn initial(n: usize, pairs: &[(usize, usize)]) -> State {
    let mut header = Header::new(n as u8, 100);
    for &(i, j) in pairs {
        (header.limits[i][j], header.limits[j][i]) = (4, 4);
    }
    header.allowances[..n].fill(4);
    State::initial(&header).expect("a network")
}

/// Every two of n stations.
fn all_pairs(n: usize) -> Vec<(usize, usize)> {
    (0..n).flat_map(|i| (0..i).map(move |j| (j, i))).collect()
}

/// A step by the state, over its image and in place: one answer, one state.
fn take(state: &mut State, step: Step) -> Outcome {
    let mut plain = area::image(state);
    let mut placed = plain.clone();
    let outcome = state.step(step);
    assert_eq!(area::step(&mut plain, &mut [0; 32], step), outcome);
    assert_eq!(in_place::step(&mut placed, &mut [0; 32], step), outcome);
    assert!(plain == placed && plain == area::image(state), "{step:?}");
    outcome
}

fn accept(state: &mut State, steps: &[Step]) {
    for &step in steps {
        assert!(take(state, step).is_ok(), "{step:?}");
    }
}

/// The receipt of a message: the station's counts after it, and its news.
fn receipt(state: &mut State, i: usize, j: usize) -> (Vec<u16>, u8) {
    let Ok(Answer::Entry { record, news }) = take(state, recv(i, j)) else {
        panic!("no message from {j} to {i}");
    };
    assert_eq!(record.kind, Kind::Received);
    assert_eq!(record.counts, state.station(i).counts);
    let counts = record.counts[..state.n()].to_vec();
    (counts, news.expect("news of a receipt"))
}

/// What is known by another way is no news: station 1 sends to 0 and to 2, and
/// 2 sends on to 0, where that message is taken first.
#[test]
fn nothing_new() {
    let mut state = initial(3, &all_pairs(3));
    accept(&mut state, &[send(1, 0), send(1, 2)]);
    assert_eq!(receipt(&mut state, 2, 1), (vec![0, 2, 1], 1));
    accept(&mut state, &[send(2, 0)]);
    assert_eq!(receipt(&mut state, 0, 2), (vec![1, 2, 2], 2));
    assert_eq!(receipt(&mut state, 0, 1), (vec![2, 2, 2], 0));
}

/// A message that is sent on from 7 to 0 gathers a count at each station.
#[test]
fn from_one_to_seven() {
    let pairs: Vec<(usize, usize)> = (0..7).map(|i| (i, i + 1)).collect();
    let mut state = initial(8, &pairs);
    for i in (0..7).rev() {
        accept(&mut state, &[send(i + 1, i)]);
        // A station between has received and sent.
        let mut counts = vec![0; i];
        counts.push(1);
        counts.resize(7, 2);
        counts.push(1);
        assert_eq!(receipt(&mut state, i, i + 1), (counts, 7 - i as u8));
    }
}

/// A message with two counts that are new to station 0, one that is older than
/// what it holds and one that is the same.
#[test]
fn old_and_new() {
    let mut state = initial(5, &all_pairs(5));
    accept(&mut state, &[send(4, 2), recv(2, 4), send(2, 0)]);
    assert_eq!(receipt(&mut state, 0, 2), (vec![1, 0, 2, 0, 1], 2));
    accept(
        &mut state,
        &[send(1, 2), send(3, 2), recv(2, 1), recv(2, 3)],
    );
    accept(&mut state, &[send(3, 0)]);
    assert_eq!(receipt(&mut state, 0, 3), (vec![2, 0, 2, 2, 1], 1));
    accept(&mut state, &[send(2, 0)]);
    let Item::Message(message) = state.link(2, 0)[0] else {
        panic!("a message is under way");
    };
    assert_eq!(message.counts[..5], [0, 1, 5, 1, 1]);
    assert_eq!(receipt(&mut state, 0, 2), (vec![3, 1, 5, 2, 1], 2));
}

/// Two messages on one link: the second is news of its sender alone, and own
/// entries of the receiver between them are none.
#[test]
fn one_after_the_other() {
    let mut state = initial(3, &[(0, 1), (1, 2)]);
    accept(
        &mut state,
        &[send(2, 1), recv(1, 2), send(1, 0), send(1, 0)],
    );
    assert_eq!(receipt(&mut state, 0, 1), (vec![1, 2, 1], 2));
    accept(&mut state, &[enter(0), enter(0)]);
    assert_eq!(receipt(&mut state, 0, 1), (vec![4, 3, 1], 1));
}

/// The own count is never news, whatever the message has there: it goes up by
/// one. No run leads to such a message.
#[test]
fn own_count_is_no_news() {
    for (message, after, news) in [
        ([9, 5, 0], [3, 5, 0], 0),
        ([9, 4, 0], [3, 5, 0], 0),
        ([100, 1, 3], [3, 5, 3], 1),
        ([3, 6, 0], [3, 6, 0], 1),
        ([2, 6, 1], [3, 6, 1], 2),
        ([0, 100, 100], [3, 100, 100], 2),
        ([0, 0, 0], [3, 5, 0], 0),
    ] {
        let mut state = initial(3, &all_pairs(3));
        state.station_mut(0).counts[..3].copy_from_slice(&[2, 5, 0]);
        let mut counts = [0; MAX_STATIONS];
        counts[..3].copy_from_slice(&message);
        let register = 8;
        let item = Item::Message(Message { register, counts });
        state.link_mut(1, 0).push_back(item);
        assert_eq!(receipt(&mut state, 0, 1), (after.to_vec(), news));
    }
}

/// A count that grows by one is as much news as one that grows from 0 to the
/// ceiling, and at each place.
#[test]
fn each_place_counts_once() {
    for (i, k) in (0..64).map(|at| (at / 8, at % 8)) {
        for (count, its) in [(0, 1), (0, 100), (99, 100), (100, 100), (100, 99), (1, 0)] {
            let mut state = initial(8, &all_pairs(8));
            let mut counts = [0; MAX_STATIONS];
            counts[k] = its;
            // The own count has room for the receipt.
            state.station_mut(i).counts[k] = if k == i { 7 } else { count };
            let register = 8;
            let item = Item::Message(Message { register, counts });
            state.link_mut((i + 1) % 8, i).push_back(item);
            let (_, news) = receipt(&mut state, i, (i + 1) % 8);
            assert_eq!(news, u8::from(k != i && its > count), "{i} {k} {its}");
        }
    }
}

/// A reset forgets the counts: what was known before is news once more.
#[test]
fn after_a_reset() {
    let mut state = initial(3, &[(0, 1), (1, 2)]);
    for phase in 0..3 {
        accept(&mut state, &[send(0, 1), send(0, 1)]);
        assert_eq!(receipt(&mut state, 1, 0), (vec![1, 1, 0], 1));
        accept(&mut state, &[send(1, 2)]);
        assert_eq!(receipt(&mut state, 2, 1), (vec![1, 2, 1], 2));
        assert_eq!(state.station(2).phase, phase);
        // The second message is under way while the reset begins, and is taken
        // in its phase.
        accept(&mut state, &[Step::Start { station: 1 }]);
        assert_eq!(receipt(&mut state, 1, 0), (vec![2, 3, 0], 1));
        let controls = [(0, 1), (2, 1), (1, 0), (1, 0), (1, 2), (1, 2)];
        accept(&mut state, &controls.map(|(i, j)| recv(i, j)));
        accept(&mut state, &[recv(0, 1), recv(2, 1)]);
        assert_eq!(state.rest(), Ok(true));
    }
}

/// Own entries, sends, steps of a reset and refused receipts tell no news.
#[test]
fn receipts_alone_tell_it() {
    let mut state = initial(2, &[(0, 1)]);
    accept(&mut state, &[send(1, 0), recv(0, 1)]);
    for step in [enter(0), enter(1), send(0, 1), send(1, 0)] {
        let outcome = take(&mut state, step);
        assert!(matches!(outcome, Ok(Answer::Entry { news: None, .. })));
    }
    let (mode, phase) = (Mode::Mute, 0);
    let start = Step::Start { station: 1 };
    assert_eq!(take(&mut state, start), Ok(Answer::Mode { mode, phase }));
    assert_eq!(receipt(&mut state, 0, 1).1, 1);
    let (mode, phase) = (Mode::StandBy, 1);
    let turned = take(&mut state, recv(0, 1));
    assert_eq!(turned, Ok(Answer::Mode { mode, phase }));
    assert_eq!(take(&mut state, recv(0, 1)), Err(Refusal::EmptyLink));
    state.station_mut(1).counts[1] = 100;
    assert_eq!(take(&mut state, recv(1, 0)), Err(Refusal::IllFormedState));
}

/// The header of a network of any shape, every other time with eight stations.
fn header(rng: &mut Rng, k: usize) -> Header {
    let wish = NetworkWish {
        shape: Some(Shape::ALL[k % 6]),
        fewest: if k.is_multiple_of(2) { 8 } else { 1 },
        ..NetworkWish::default()
    };
    generate::network(rng, wish)
}

/// How many other counts of station i differ.
fn changed(i: usize, before: &Counts, after: &Counts) -> usize {
    let differs = |&k: &usize| k != i && before[k] != after[k];
    (0..MAX_STATIONS).filter(differs).count()
}

/// A next step by habits of any kind or by uneven traffic.
fn some_step(rng: &mut Rng, state: &State, traffic: &Traffic) -> Step {
    if rng.chance(1, 20) {
        let habits = Habits::any(rng);
        return generate::next_step(rng, state, &habits);
    }
    traffic.next_step(rng, state)
}

/// On random runs the news is the number of other counts that differ between
/// the station before the receipt and the record, and is below n.
#[test]
fn news_in_runs() {
    let seed = 70;
    println!("seed {seed}");
    let mut rng = Rng::new(seed);
    let mut met = [0; 8];
    for k in 0..3000 {
        let header = header(&mut rng, k);
        let traffic = Traffic::any(&mut rng, &header);
        let mut state = State::initial(&header).expect("a network");
        for _ in 0..300 {
            let step = some_step(&mut rng, &state, &traffic);
            let before = state.stations.get(step.station()).map(|s| s.counts);
            let Ok(Answer::Entry { record, news }) = state.step(step) else {
                continue;
            };
            let Step::Recv { station, .. } = step else {
                assert_eq!(news, None, "{step:?}");
                continue;
            };
            let changed = changed(station, &before.expect("a station"), &record.counts);
            assert_eq!(news.map(usize::from), Some(changed), "{step:?}");
            assert!(changed < header.n() && changed <= 7);
            met[changed] += 1;
        }
    }
    println!("receipts by their news: {met:?}");
    assert!(met.iter().all(|&receipts| receipts > 60), "{met:?}");
}

/// How many other stations have an entry of the phase that happened before a
/// receipt and not before the entry of its station that came last. No timestamp
/// is read.
fn told(entries: &[Entry], before: &Relation, receipt: usize) -> usize {
    let Entry { step, record, .. } = &entries[receipt];
    let fellow = |other: &Entry| other.record.phase == record.phase;
    let mine = |other: &Entry| fellow(other) && other.step.station() == step.station();
    let last = entries[..receipt].iter().rposition(mine);
    let told = |k: usize| {
        entries.iter().enumerate().any(|(a, entry)| {
            let known = last.is_some_and(|last| before.precedes(a, last));
            fellow(entry) && entry.step.station() == k && before.precedes(a, receipt) && !known
        })
    };
    let others = (0..MAX_STATIONS).filter(|&k| k != step.station());
    others.filter(|&k| told(k)).count()
}

/// The news by happened-before: of how many stations a receipt tells an event
/// that the station did not know.
#[test]
fn news_by_happened_before() {
    let seed = 71;
    println!("seed {seed}");
    let mut rng = Rng::new(seed);
    let mut met = [0; 8];
    for k in 0..400 {
        let header = header(&mut rng, k);
        let traffic = Traffic::any(&mut rng, &header);
        let mut run = Run::new(State::initial(&header).expect("a network"));
        for _ in 0..250 {
            let step = some_step(&mut rng, &run.last, &traffic);
            // A refused step is part of the run.
            let _ = run.push(step);
        }
        let entries = accepted_entries(&run.steps, &run.outcomes);
        let steps: Vec<Step> = entries.iter().map(|entry| entry.step).collect();
        let before = happened_before(&steps);
        for (at, entry) in entries.iter().enumerate() {
            let Some(news) = entry.news else { continue };
            assert_eq!(usize::from(news), told(&entries, &before, at), "{entry:?}");
            met[usize::from(news)] += 1;
        }
    }
    println!("receipts by their news: {met:?}");
    assert!(met.iter().all(|&receipts| receipts > 0), "{met:?}");
}

/// Messages by hand on states that no run reaches: the number is the one that
/// they were made for, each from 0 to n − 1, for every n.
#[test]
fn hand_made_messages() {
    let seed = 72;
    println!("seed {seed}");
    let mut rng = Rng::new(seed);
    for n in 2..=MAX_STATIONS {
        let wish = NetworkWish {
            fewest: n,
            most: n,
            ..NetworkWish::default()
        };
        for news in (0..n).cycle().take(40 * n) {
            let header = generate::network(&mut rng, wish);
            let i = rng.index(n);
            let neighbours: Vec<usize> = header.neighbours(i).collect();
            let j = rng.pick(&neighbours);
            let mut state = generate::state_with_news(&mut rng, &header, i, j, news);
            let before = state.station(i).counts;
            let (counts, told) = receipt(&mut state, i, j);
            assert_eq!(usize::from(told), news);
            assert_eq!(counts[i], before[i] + 1);
        }
    }
}
