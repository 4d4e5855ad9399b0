//! The steps, their refusals and well-formed states: 'The steps' and 'State
//! area and host' of document 01; CR 9 of document 02.

use std::collections::HashSet;
use std::hash::{BuildHasher, RandomState};

use reference::at_bounds::{self, bounds_left, counts_at_the_ceiling, full_links, Bound};
use reference::generate::{self, every_step, Habits, NetworkWish, Shape, StateDamage};
use reference::header::Header;
use reference::network::steps::{enter, recv, send, start};
use reference::network::{Answer, Item, Message, Mode, Outcome, State, Step};
use reference::random::Rng;
use reference::record::{Kind, Record, NO_PEER};
use reference::refusal::Refusal;
use reference::{LAST_PHASE, MAX_STATIONS};

/// A refusal's number, 0 for an accepted step.
fn number(outcome: Outcome) -> u8 {
    outcome.err().map_or(0, Refusal::number)
}

/// The answer of a step other than an entry.
fn mode(mode: Mode, phase: u32) -> Outcome {
    Ok(Answer::Mode { mode, phase })
}

/// A network with these pairs of neighbours, all limits `limit`, all allowances
/// `allowance` and the least ceiling.
fn header(n: usize, pairs: &[(usize, usize)], limit: u8, allowance: u16) -> Header {
    let mut header = Header::new(n as u8, 1);
    for &(i, j) in pairs {
        header.limits[i][j] = limit;
        header.limits[j][i] = limit;
    }
    header.allowances[..n].fill(allowance);
    header.ceiling = (0..n).map(|i| header.load(i)).max().unwrap().max(1) as u16;
    header
}

fn initial(n: usize, pairs: &[(usize, usize)], limit: u8, allowance: u16) -> State {
    State::initial(&header(n, pairs, limit, allowance)).unwrap()
}

/// The path 0 - 1 - 2.
fn path() -> State {
    initial(3, &[(0, 1), (1, 2)], 2, 3)
}

/// Takes a step and looks at a refusal: the state is left as it was.
fn try_step(state: &mut State, step: Step) -> u8 {
    let before = state.clone();
    let outcome = state.step(step);
    if outcome.is_err() {
        assert_eq!(*state, before);
    }
    number(outcome)
}

/// The worked listing, steps 1 to 11, with the records, and behind those of
/// receipts their news.
#[test]
fn worked_listing() {
    let mut state = initial(2, &[(0, 1)], 2, 3);
    assert_eq!(state.header.ceiling, 7);
    let entry = |kind, station, peer, phase, register, a, b| {
        let record = Record {
            kind,
            station,
            peer,
            phase,
            register,
            counts: [a, b, 0, 0, 0, 0, 0, 0],
        };
        let news = (kind == Kind::Received).then_some(1);
        Ok(Answer::Entry { record, news })
    };
    let list = [
        (enter(0, 501), entry(Kind::Own, 0, NO_PEER, 0, 501, 1, 0)),
        (send(0, 1, 502), entry(Kind::Sent, 0, 1, 0, 502, 2, 0)),
        (start(1), mode(Mode::Mute, 0)),
        (recv(1, 0), entry(Kind::Received, 1, 0, 0, 502, 2, 1)),
        (recv(0, 1), mode(Mode::StandBy, 1)),
        (recv(1, 0), mode(Mode::StandBy, 1)),
        (recv(1, 0), mode(Mode::Normal, 1)),
        (send(1, 0, 503), entry(Kind::Sent, 1, 0, 1, 503, 0, 1)),
        (recv(0, 1), mode(Mode::Normal, 1)),
        (recv(0, 1), entry(Kind::Received, 0, 1, 1, 503, 1, 1)),
        (recv(0, 1), Err(Refusal::EmptyLink)),
    ];
    for (k, (step, want)) in list.into_iter().enumerate() {
        assert_eq!(state.step(step), want, "step {}", k + 1);
    }
    assert_eq!(state.rest(), Ok(true));
}

/// 'Others': t = 6 gives 3; a third send on a limit of 2 gives 6; a mute
/// station's send gives 5.
#[test]
fn others() {
    let mut low = header(2, &[(0, 1)], 2, 3);
    low.ceiling = 6;
    assert_eq!(State::initial(&low).unwrap_err().number(), 3);
    let mut state = initial(2, &[(0, 1)], 2, 3);
    assert_eq!(try_step(&mut state, send(0, 1, 0)), 0);
    assert_eq!(try_step(&mut state, send(0, 1, 0)), 0);
    assert_eq!(try_step(&mut state, send(0, 1, 0)), 6);
    assert_eq!(try_step(&mut state, start(0)), 0);
    assert_eq!(try_step(&mut state, send(0, 1, 0)), 5);
    assert_eq!(try_step(&mut state, start(0)), 5);
}

#[test]
fn initial_state() {
    let state = path();
    for (i, station) in state.stations.iter().enumerate() {
        assert_eq!(
            (station.mode, station.phase, station.own_entries),
            (Mode::Normal, 0, 0)
        );
        assert_eq!(station.counts, [0; 8]);
        assert_eq!(station.sent, [0; 8]);
        assert_eq!(station.req_seen, [false; 8]);
        for j in 0..MAX_STATIONS {
            assert_eq!(station.done_seen[j], i.abs_diff(j) == 1 && j < 3);
        }
    }
    assert!(state.links_empty() && state.is_well_formed());
    assert_eq!(state.rest(), Ok(true));
}

/// A lone station's start answers normal with the next phase.
#[test]
fn lone_station() {
    let mut state = initial(1, &[], 0, 2);
    assert_eq!(state.header.ceiling, 2);
    assert_eq!(try_step(&mut state, enter(0, 1)), 0);
    assert_eq!(try_step(&mut state, enter(0, 1)), 0);
    assert_eq!(try_step(&mut state, enter(0, 1)), 6);
    assert_eq!(state.step(start(0)), mode(Mode::Normal, 1));
    assert_eq!(state.rest(), Ok(true));
    assert_eq!(try_step(&mut state, enter(0, 1)), 0);
    assert_eq!(try_step(&mut state, recv(0, 0)), 4);
    assert_eq!(try_step(&mut state, send(0, 1, 0)), 4);
}

/// Number 8, reached from an initial network: 999,999 starts, and one more.
#[test]
fn last_phase() {
    let mut state = initial(1, &[], 0, 1);
    for phase in 1..=LAST_PHASE {
        assert_eq!(state.step_well_formed(start(0)), mode(Mode::Normal, phase));
    }
    assert!(state.is_well_formed());
    assert_eq!(try_step(&mut state, start(0)), 8);
    assert_eq!(try_step(&mut state, enter(0, 1)), 0);
    assert_eq!(try_step(&mut state, enter(0, 1)), 6);
    assert_eq!(try_step(&mut state, start(0)), 8);
    assert_eq!(try_step(&mut state, start(1)), 4);
}

/// Number 4: stations n and above, peers that are no neighbours.
#[test]
fn number_4() {
    let mut state = path();
    for far in [3, 7, 8, 255, 256, usize::MAX] {
        for step in [enter(far, 0), send(far, 0, 0), recv(far, 1), start(far)] {
            assert_eq!(try_step(&mut state, step), 4);
        }
        for step in [send(1, far, 0), recv(1, far)] {
            assert_eq!(try_step(&mut state, step), 4);
        }
    }
    for (i, j) in [(0, 0), (0, 2), (2, 0), (1, 1)] {
        assert_eq!(try_step(&mut state, send(i, j, 0)), 4);
        assert_eq!(try_step(&mut state, recv(i, j)), 4);
    }
    assert_eq!(try_step(&mut state, recv(0, 1)), 7);
    // 4 before 5, 8 and 6.
    state.station_mut(0).mode = Mode::Mute;
    state.station_mut(0).phase = LAST_PHASE;
    assert_eq!(try_step(&mut state, send(0, 2, 0)), 4);
    assert_eq!(try_step(&mut state, send(0, 1, 0)), 5);
}

/// A path of three: station 1 resets only when both reqs have come; a req that
/// meets stand-by is kept; dones are forgotten at begin and not at the reset.
#[test]
fn traps() {
    let mut state = path();
    assert_eq!(state.step(start(1)), mode(Mode::Mute, 0));
    assert_eq!(state.link(1, 0), &[Item::ResetReq]);
    assert_eq!(state.link(1, 2), &[Item::ResetReq]);
    // A leaf begins and resets at once, and puts both items on the link.
    assert_eq!(state.step(recv(0, 1)), mode(Mode::StandBy, 1));
    assert_eq!(state.link(0, 1), &[Item::ResetReq, Item::ResetDone]);
    // One req is not enough.
    assert_eq!(state.step(recv(1, 0)), mode(Mode::Mute, 0));
    // A done that comes before the own reset is kept over it.
    assert_eq!(state.step(recv(1, 0)), mode(Mode::Mute, 0));
    assert_eq!(state.step(recv(2, 1)), mode(Mode::StandBy, 1));
    assert_eq!(state.step(recv(1, 2)), mode(Mode::StandBy, 1));
    // In stand-by: to 0, whose done is seen, but not to 2.
    assert_eq!(try_step(&mut state, send(1, 2, 0)), 5);
    assert_eq!(try_step(&mut state, send(1, 0, 9)), 0);
    assert_eq!(try_step(&mut state, start(1)), 5);
    // Station 0 becomes normal, takes the message and starts anew.
    assert_eq!(state.step(recv(0, 1)), mode(Mode::Normal, 1));
    assert_eq!(try_step(&mut state, recv(0, 1)), 0);
    assert_eq!(state.step(start(0)), mode(Mode::Mute, 1));
    // Its req meets station 1 in stand-by, and is not dropped.
    assert_eq!(state.step(recv(1, 0)), mode(Mode::StandBy, 1));
    assert!(state.station(1).req_seen[0]);
    // The last done: normal, and at once mute by the req.
    assert_eq!(state.step(recv(1, 2)), mode(Mode::Mute, 1));
    assert_eq!(state.station(1).done_seen, [false; 8]);
    assert_eq!(state.rest(), Ok(false));
    // The second reset runs through.
    for step in [
        recv(2, 1),
        recv(2, 1),
        recv(1, 2),
        recv(1, 2),
        recv(0, 1),
        recv(0, 1),
    ] {
        assert_eq!(try_step(&mut state, step), 0);
    }
    assert_eq!(state.step(recv(2, 1)), mode(Mode::Normal, 2));
    assert_eq!(state.step(recv(1, 0)), mode(Mode::Normal, 2));
    assert!(state.links_empty());
    assert_eq!(state.rest(), Ok(true));
}

/// A link holds L + 2 items, and a fresh network fills it.
#[test]
fn link_places() {
    let mut state = initial(2, &[(0, 1)], 2, 0);
    assert_eq!(try_step(&mut state, send(0, 1, 1)), 0);
    assert_eq!(try_step(&mut state, send(0, 1, 2)), 0);
    assert_eq!(try_step(&mut state, start(1)), 0);
    assert_eq!(state.step(recv(0, 1)), mode(Mode::StandBy, 1));
    assert_eq!(state.link(0, 1).len(), 4);
    assert!(state.is_well_formed());
    // The messages are taken in the old phase, by a mute station.
    for count in [1, 2] {
        let Ok(Answer::Entry { record, .. }) = state.step(recv(1, 0)) else {
            panic!()
        };
        assert_eq!((record.phase, record.register), (0, u32::from(count)));
        assert_eq!(record.counts[..2], [count, count]);
    }
    assert_eq!(state.step(recv(1, 0)), mode(Mode::StandBy, 1));
    assert_eq!(state.step(recv(1, 0)), mode(Mode::Normal, 1));
    assert_eq!(state.step(recv(0, 1)), mode(Mode::Normal, 1));
}

/// Own entries and messages sent start anew with the phase.
#[test]
fn limits_start_anew() {
    let mut state = initial(2, &[(0, 1)], 1, 1);
    for phase in 0..3 {
        assert_eq!(try_step(&mut state, enter(0, 0)), 0);
        assert_eq!(try_step(&mut state, enter(0, 0)), 6);
        assert_eq!(try_step(&mut state, send(0, 1, 0)), 0);
        assert_eq!(try_step(&mut state, send(0, 1, 0)), 6);
        assert_eq!(try_step(&mut state, recv(1, 0)), 0);
        assert_eq!(state.station(0).counts[..2], [2, 0]);
        assert_eq!(state.station(1).counts[..2], [2, 1]);
        assert_eq!(state.step(start(0)), mode(Mode::Mute, phase));
        // An enter is allowed in any mode, within its allowance.
        assert_eq!(try_step(&mut state, enter(0, 0)), 6);
        assert_eq!(try_step(&mut state, enter(1, 0)), 0);
        for step in [recv(1, 0), recv(0, 1), recv(0, 1), recv(1, 0)] {
            assert_eq!(try_step(&mut state, step), 0);
        }
        assert_eq!(state.rest(), Ok(true));
    }
    assert_eq!(state.station(0).phase, 3);
}

/// An entry in mute and in stand-by bears the phase of that step.
#[test]
fn entries_in_every_mode() {
    let mut state = initial(2, &[(0, 1)], 1, 2);
    let phase_of = |state: &mut State, i: usize| match state.step(enter(i, 5)) {
        Ok(Answer::Entry { record, .. }) => (record.phase, record.counts[i]),
        other => panic!("{other:?}"),
    };
    assert_eq!(phase_of(&mut state, 0), (0, 1));
    state.step(start(0)).unwrap();
    assert_eq!(phase_of(&mut state, 0), (0, 2));
    state.step(recv(1, 0)).unwrap();
    assert_eq!(phase_of(&mut state, 1), (1, 1));
    state.step(recv(0, 1)).unwrap();
    assert_eq!(state.station(0).mode, Mode::StandBy);
    assert_eq!(phase_of(&mut state, 0), (1, 1));
}

/// The order 2, 4, 7, 5, 8, 6, 2 where several apply.
#[test]
fn order_of_refusals() {
    let mut base = path();
    for i in 0..3 {
        let station = base.station_mut(i);
        station.phase = LAST_PHASE;
        station.own_entries = 3;
        station.counts[..3].fill(0);
    }
    let full = |state: &mut State, i: usize, j: usize| {
        while state.link(i, j).len() < 4 {
            state.link_mut(i, j).push_back(Item::ResetReq);
        }
    };
    let ceiling = base.header.ceiling;

    // 5 before 8 and the last.
    let mut state = base.clone();
    state.station_mut(0).mode = Mode::Mute;
    full(&mut state, 0, 1);
    assert_eq!(try_step(&mut state, start(0)), 5);
    state.station_mut(0).mode = Mode::StandBy;
    assert_eq!(try_step(&mut state, start(0)), 5);
    // 8 before the last.
    state.station_mut(0).mode = Mode::Normal;
    assert_eq!(try_step(&mut state, start(0)), 8);
    state.station_mut(0).phase = LAST_PHASE - 1;
    assert_eq!(try_step(&mut state, start(0)), 2);

    // 5 before 6 and the last.
    let mut state = base.clone();
    full(&mut state, 0, 1);
    state.station_mut(0).mode = Mode::Mute;
    state.station_mut(0).sent[1] = 2;
    state.station_mut(0).counts[0] = ceiling;
    assert_eq!(try_step(&mut state, send(0, 1, 0)), 5);
    state.station_mut(0).mode = Mode::StandBy;
    state.station_mut(0).done_seen[1] = false;
    assert_eq!(try_step(&mut state, send(0, 1, 0)), 5);
    // 6 before the last.
    state.station_mut(0).done_seen[1] = true;
    assert_eq!(try_step(&mut state, send(0, 1, 0)), 6);
    state.station_mut(0).sent[1] = 1;
    assert_eq!(try_step(&mut state, send(0, 1, 0)), 2);
    assert_eq!(try_step(&mut state, enter(0, 0)), 6);
    state.station_mut(0).own_entries = 2;
    assert_eq!(try_step(&mut state, enter(0, 0)), 2);
    // 7 before the last.
    assert_eq!(try_step(&mut state, recv(0, 1)), 7);
    let message = Message {
        register: 0,
        counts: [0; 8],
    };
    state.link_mut(1, 0).push_back(Item::Message(message));
    assert_eq!(try_step(&mut state, recv(0, 1)), 2);

    // The 2 of an ill-formed state before all others, and 11 before it.
    let mut ill = base.clone();
    ill.station_mut(0).counts[5] = 1;
    for step in [enter(9, 0), send(0, 0, 0), recv(0, 1), start(0)] {
        assert_eq!(try_step(&mut ill, step), 2);
        for length in [0, 31, 33] {
            let mut buffer = vec![1; length];
            assert_eq!(number(ill.step_with_buffer(step, &mut buffer)), 11);
            assert_eq!(number(base.clone().step_with_buffer(step, &mut buffer)), 11);
            assert_eq!(buffer, vec![1; length]);
        }
        let mut buffer = [1; 32];
        assert_eq!(number(ill.step_with_buffer(step, &mut buffer)), 2);
        assert_eq!(buffer, [1; 32]);
    }
    assert_eq!(ill.rest(), Err(Refusal::IllFormedState));
}

/// An accepted entry writes its record into the buffer, other steps leave it.
#[test]
fn record_buffer() {
    let mut state = path();
    let mut buffer = [7; 32];
    assert!(state.step_with_buffer(start(0), &mut buffer).is_ok());
    assert_eq!(buffer, [7; 32]);
    assert!(state.step_with_buffer(send(0, 1, 3), &mut buffer).is_err());
    assert_eq!(buffer, [7; 32]);
    let outcome = state.step_with_buffer(send(1, 2, 3), &mut buffer);
    let Ok(Answer::Entry { record, .. }) = outcome else {
        panic!()
    };
    assert_eq!(buffer, record.to_bytes());
    assert_eq!(Record::read(&buffer), Ok(record));
}

/// Full links, counts at the ceiling and the last phase, on well-formed states
/// that no initial network reaches: where a step would leave a bound it is
/// refused with 2, after 4, 7, 5, 8 and 6, and the state is left.
#[test]
fn steps_at_the_bounds() {
    let (mut numbers, mut left) = ([0; 13], [0; 3]);
    for case in at_bounds::by_hand() {
        let mut state = case.state.clone();
        assert!(state.is_well_formed(), "{}", case.what);
        let number = try_step(&mut state, case.step);
        assert_eq!(number, case.number, "{}: {:?}", case.what, case.step);
        numbers[usize::from(number)] += 1;
        tally(&mut left, &bounds_left(&case.state, case.step));
    }
    println!("cases by number {numbers:?}, by bound {left:?}");
    for number in [0, 2, 4, 5, 6, 7, 8] {
        assert!(numbers[number] > 0, "{number}");
    }
    assert!(left.iter().all(|&cases| cases > 3), "{left:?}");
}

/// Adds one for each of these bounds.
fn tally(met: &mut [u32; 3], left: &[Bound]) {
    for (count, bound) in met.iter_mut().zip(Bound::ALL) {
        *count += u32::from(left.contains(&bound));
    }
}

/// What is accepted just within the bounds.
#[test]
fn answers_at_the_bounds() {
    let ceiling = path().header.ceiling;
    let counts = [0, ceiling, 0, 0, 0, 0, 0, 0];
    let message = Item::Message(Message {
        register: 4,
        counts,
    });

    // Other counts may stand at the ceiling.
    let mut state = path();
    state.station_mut(0).counts[1] = ceiling;
    state.link_mut(1, 0).push_back(message);
    assert_eq!(try_step(&mut state, recv(0, 1)), 0);
    assert_eq!(state.station(0).counts[..3], [1, ceiling, 0]);

    // L + 2 messages are well formed.
    let mut state = path();
    for _ in 0..4 {
        state.link_mut(0, 1).push_back(message);
        assert!(state.is_well_formed());
    }
    state.link_mut(0, 1).push_back(message);
    assert!(!state.is_well_formed());

    // Into the last phase, but not out of it.
    let mut state = path();
    state.station_mut(0).phase = LAST_PHASE - 1;
    state.link_mut(1, 0).push_back(Item::ResetReq);
    assert_eq!(state.step(recv(0, 1)), mode(Mode::StandBy, LAST_PHASE));
    // A station with two neighbours may begin there, but not reset.
    let mut state = path();
    state.station_mut(1).phase = LAST_PHASE;
    state.link_mut(0, 1).push_back(Item::ResetReq);
    state.link_mut(2, 1).push_back(Item::ResetReq);
    assert_eq!(state.step(recv(1, 0)), mode(Mode::Mute, LAST_PHASE));
    assert_eq!(try_step(&mut state, recv(1, 2)), 2);
}

/// A receipt's own count is the receiver's own plus 1, never the message's.
#[test]
fn own_count_of_receipt() {
    let mut state = path();
    state.station_mut(0).counts = [2, 5, 0, 0, 0, 0, 0, 0];
    let counts = [6, 1, 3, 0, 0, 0, 0, 0];
    state.link_mut(1, 0).push_back(Item::Message(Message {
        register: 8,
        counts,
    }));
    let Ok(Answer::Entry { record, .. }) = state.step(recv(0, 1)) else {
        panic!()
    };
    assert_eq!(record.counts, [3, 5, 3, 0, 0, 0, 0, 0]);
    assert_eq!(
        (record.kind, record.peer, record.register),
        (Kind::Received, 1, 8)
    );
}

/// Three rules in one step, on a state that no fresh network reaches: (b), (c)
/// and (a).
#[test]
fn three_rules() {
    let mut state = path();
    let station = state.station_mut(0);
    station.mode = Mode::StandBy;
    station.done_seen[1] = false;
    station.req_seen[1] = true;
    station.own_entries = 2;
    station.counts = [3, 1, 0, 0, 0, 0, 0, 0];
    state.link_mut(1, 0).push_back(Item::ResetDone);
    assert!(state.is_well_formed());
    assert_eq!(state.step(recv(0, 1)), mode(Mode::StandBy, 1));
    assert_eq!(state.link(0, 1), &[Item::ResetReq, Item::ResetDone]);
    assert_eq!(state.station(0).counts, [0; 8]);
    assert_eq!(state.station(0).own_entries, 0);
    assert!(!state.station(0).done_seen[1]);
}

/// A start where every req is seen already turns at once.
#[test]
fn start_with_reqs_seen() {
    let mut state = path();
    state.station_mut(0).req_seen[1] = true;
    assert_eq!(state.step(start(0)), mode(Mode::StandBy, 1));
    // The reset rules do not run after an entry.
    let mut state = path();
    state.station_mut(0).req_seen[1] = true;
    assert_eq!(try_step(&mut state, enter(0, 0)), 0);
    assert_eq!(try_step(&mut state, send(0, 1, 0)), 0);
    assert_eq!(state.station(0).mode, Mode::Normal);
}

#[test]
fn rest_answers() {
    let mut state = path();
    for mode in Mode::ALL {
        state.station_mut(2).mode = mode;
        assert_eq!(state.rest(), Ok(mode == Mode::Normal));
    }
    state.station_mut(2).mode = Mode::Normal;
    state.station_mut(2).phase = 1;
    assert_eq!(state.rest(), Ok(false));
    for i in 0..3 {
        state.station_mut(i).phase = 1;
    }
    assert_eq!(state.rest(), Ok(true));
    // A link that is not empty matters when all else is well, and only then.
    state.link_mut(0, 1).push_back(Item::ResetReq);
    assert_eq!(state.rest(), Ok(false));
    state.station_mut(2).mode = Mode::Mute;
    assert_eq!(state.rest(), Ok(false));
    state.link_mut(0, 1).clear();
    assert_eq!(state.rest(), Ok(false));
}

/// CR 5: a planner may not close a sheet while a message is under way.
#[test]
fn rest_while_messages_are_under_way() {
    let mut state = path();
    for (step, yes) in [
        (enter(0, 1), true),
        (send(0, 1, 2), false),
        (send(2, 1, 3), false),
        (recv(1, 0), false),
        (recv(1, 2), true),
        (send(1, 0, 4), false),
        (send(1, 0, 5), false),
        (recv(0, 1), false),
        (recv(0, 1), true),
    ] {
        assert_eq!(try_step(&mut state, step), 0);
        assert_eq!(state.rest(), Ok(yes), "after {step:?}");
    }
    // A refused step changes nothing.
    assert_eq!(try_step(&mut state, recv(0, 1)), 7);
    assert_eq!(state.rest(), Ok(true));
}

/// While a reset runs rest is no, and yes when its last done is taken; a
/// message of the new phase makes it no again.
#[test]
fn rest_after_a_reset() {
    let mut state = initial(2, &[(0, 1)], 2, 3);
    assert_eq!(try_step(&mut state, start(0)), 0);
    for step in [recv(1, 0), recv(0, 1), recv(0, 1), recv(1, 0)] {
        assert_eq!(state.rest(), Ok(false), "before {step:?}");
        assert_eq!(try_step(&mut state, step), 0);
    }
    assert_eq!(state.rest(), Ok(true));
    assert_eq!(try_step(&mut state, send(1, 0, 0)), 0);
    assert_eq!(state.rest(), Ok(false));
    assert_eq!(try_step(&mut state, recv(0, 1)), 0);
    assert_eq!(state.rest(), Ok(true));
}

/// A control item alone, on each link of normal stations of one phase: no, and
/// yes when a done has been received.
#[test]
fn rest_while_a_control_item_is_under_way() {
    for (i, j) in [(0, 1), (1, 0), (1, 2), (2, 1)] {
        let mut state = path();
        state.link_mut(i, j).push_back(Item::ResetReq);
        assert_eq!(state.rest(), Ok(false), "{i} to {j}");
        let mut state = path();
        state.link_mut(i, j).push_back(Item::ResetDone);
        assert_eq!(state.rest(), Ok(false), "{i} to {j}");
        assert_eq!(state.step(recv(j, i)), mode(Mode::Normal, 0));
        assert_eq!(state.rest(), Ok(true), "{i} to {j}");
    }
}

/// A station without links is at rest in every phase.
#[test]
fn rest_of_a_lone_station() {
    let mut state = initial(1, &[], 0, 1);
    for phase in 0..3 {
        assert_eq!(state.station(0).phase, phase);
        assert_eq!(state.rest(), Ok(true));
        assert_eq!(try_step(&mut state, enter(0, 1)), 0);
        assert_eq!(state.rest(), Ok(true));
        assert_eq!(try_step(&mut state, start(0)), 0);
    }
}

/// In runs from initial networks rest is yes exactly when every station is
/// normal in one phase and every message sent has been received: control items
/// decide on lent areas alone.
#[test]
fn rest_in_runs() {
    let seed = 23;
    println!("seed {seed}");
    let mut rng = Rng::new(seed);
    let (mut yes, mut still) = (0, 0);
    for _ in 0..400 {
        let header = generate::any_network(&mut rng);
        let mut state = State::initial(&header).unwrap();
        let mut habits = Habits::any(&mut rng);
        let (mut sent, mut received) = (0, 0);
        for _ in 0..200 {
            if rng.chance(1, 24) {
                habits = Habits::any(&mut rng);
            }
            let step = generate::next_step(&mut rng, &state, &habits);
            if let Ok(Answer::Entry { record, .. }) = state.step(step) {
                sent += u32::from(record.kind == Kind::Sent);
                received += u32::from(record.kind == Kind::Received);
            }
            let settled = state
                .stations
                .iter()
                .all(|s| s.mode == Mode::Normal && s.phase == state.stations[0].phase);
            assert_eq!(state.rest(), Ok(settled && sent == received));
            yes += u32::from(settled && sent == received);
            still += u32::from(settled && sent != received);
        }
    }
    println!("{yes} times at rest, {still} times a message alone was under way");
    assert!(yes > 1000 && still > 1000);
}

#[test]
fn ill_formed_states() {
    let seed = 20;
    println!("seed {seed}");
    let mut rng = Rng::new(seed);
    for way in StateDamage::ALL {
        for _ in 0..300 {
            let mut state = generate::ill_formed_state(&mut rng, way);
            assert!(!state.is_well_formed(), "{way:?}");
            let step = generate::wild_step(&mut rng);
            assert_eq!(try_step(&mut state, step), 2, "{way:?}");
            assert_eq!(state.rest(), Err(Refusal::IllFormedState));
            assert_eq!(state.receipts_to_rest(), Err(Refusal::IllFormedState));
        }
    }
}

/// From any well-formed state: a refusal leaves it, an accepted step leaves a
/// well-formed one that differs only where it may, the rules end, and every
/// number from 4 to 8 is met, and 2 at each bound.
#[test]
fn steps_from_any_state() {
    let seed = 21;
    println!("seed {seed}");
    let mut rng = Rng::new(seed);
    let (mut met, mut left) = ([0; 13], [0; 3]);
    for _ in 0..30_000 {
        let mut state = generate::any_state(&mut rng);
        assert!(state.is_well_formed());
        for i in 0..state.n() {
            assert!(state.clone().run_reset_rules(i).len() <= 3);
        }
        for _ in 0..4 {
            let habits = Habits::any(&mut rng);
            let step = generate::next_step(&mut rng, &state, &habits);
            let before = state.clone();
            let outcome = state.step(step);
            met[usize::from(number(outcome))] += 1;
            let beyond = bounds_left(&before, step);
            assert_eq!(outcome == Err(Refusal::IllFormedState), !beyond.is_empty());
            tally(&mut left, &beyond);
            if outcome.is_err() {
                assert_eq!(state, before);
                continue;
            }
            assert!(state.is_well_formed(), "{step:?} {before:?}");
            assert_ne!(state, before, "an accepted step alters something");
            let i = step.station();
            assert_eq!(outcome.unwrap().phase(), state.station(i).phase);
            for k in 0..state.n() {
                assert!(k == i || state.station(k) == before.station(k));
                for j in 0..state.n() {
                    let taken = matches!(step, Step::Recv { peer, .. } if peer == k && i == j);
                    assert!(k == i || taken || state.link(k, j) == before.link(k, j));
                }
            }
        }
    }
    println!("numbers met {met:?}, bounds {left:?}");
    for refusal in [0, 2, 4, 5, 6, 7, 8] {
        assert!(met[refusal] > 100, "{refusal}: {met:?}");
    }
    assert!(left.iter().all(|&steps| steps > 100), "{left:?}");
}

/// What runs from initial networks meet.
#[derive(Debug, Default)]
struct Met {
    /// Steps by their number, 0 for accepted ones.
    numbers: [u32; 13],
    /// Resets that ended, and steps of rule b and then rule c.
    resets: u32,
    cascades: u32,
    /// States with a count at the ceiling, in networks with links, and states
    /// with a full link.
    at_ceiling: u32,
    full: u32,
}

impl Met {
    /// Takes a step, and looks at the state after it.
    fn step(&mut self, state: &mut State, step: Step) -> Outcome {
        let station = state.stations.get(step.station());
        let stand_by = station.is_some_and(|station| station.mode == Mode::StandBy);
        let outcome = state.step(step);
        self.numbers[usize::from(number(outcome))] += 1;
        for i in 0..state.n() {
            assert_eq!(state.applicable_rule(i), None);
        }
        if let (Ok(Answer::Mode { mode, .. }), Step::Recv { .. }) = (outcome, step) {
            self.resets += u32::from(mode == Mode::Normal);
            self.cascades += u32::from(stand_by && mode == Mode::Mute);
        }
        let (at_ceiling, full) = at_bounds_of(state);
        self.at_ceiling += u32::from(at_ceiling);
        self.full += u32::from(full);
        outcome
    }

    /// These numbers were met so often at least, and no other; counts reached
    /// the ceiling, and links were filled.
    fn judge(&self, numbers: &[usize], least: u32) {
        println!("{self:?}");
        for (number, &steps) in self.numbers.iter().enumerate() {
            let met = numbers.contains(&number);
            assert!(if met { steps >= least } else { steps == 0 }, "{number}");
        }
        assert!(self.at_ceiling >= least && self.full >= least);
    }
}

/// Whether a count stands at the ceiling, in a network with links, and whether
/// a link is full.
fn at_bounds_of(state: &State) -> (bool, bool) {
    let at_ceiling = state.n() > 1 && counts_at_the_ceiling(state) > 0;
    (at_ceiling, !full_links(state).is_empty())
}

/// Whichever step comes next, it is not refused with 2.
fn never_refused_with_2(state: &State) {
    assert!(state.is_well_formed());
    for step in every_step(state.n()) {
        let outcome = state.clone().step_well_formed(step);
        let two = outcome == Err(Refusal::IllFormedState);
        assert!(!two, "{step:?} {state:?}");
    }
}

/// Runs from a state, by habits that change now and then. Where something stands
/// at a bound, every step that may come next is tried.
fn run_on(rng: &mut Rng, state: &mut State, length: usize, met: &mut Met) {
    let mut habits = Habits::any(rng);
    for _ in 0..length {
        if rng.chance(1, 24) {
            habits = Habits::any(rng);
        }
        let step = generate::next_step(rng, state, &habits);
        let accepted = met.step(state, step).is_ok();
        if accepted && at_bounds_of(state) != (false, false) {
            never_refused_with_2(state);
        }
    }
}

/// A header of a shape, every other time with the least ceiling.
fn shaped(rng: &mut Rng, k: usize) -> Header {
    let wish = NetworkWish {
        shape: Some(Shape::ALL[k % 6]),
        small: rng.chance(2, 3),
        tight: rng.chance(1, 2),
        most: if rng.chance(1, 2) { 4 } else { 8 },
        ..NetworkWish::default()
    };
    generate::network(rng, wish)
}

/// From an initial network number 2 is never met, though counts reach the
/// ceiling and links hold L + 2 items; 4, 5, 6 and 7 are; after receipts alone
/// every link is empty and the network rests.
#[test]
fn runs_from_initial_networks() {
    let seed = 22;
    println!("seed {seed}");
    let mut rng = Rng::new(seed);
    let mut met = Met::default();
    for k in 0..1500 {
        let header = shaped(&mut rng, k);
        let mut state = State::initial(&header).unwrap();
        run_on(&mut rng, &mut state, 300, &mut met);
        let mut run = reference::causality::Run::new(state);
        assert!(generate::drain(&mut rng, &mut run, 100_000).is_some());
        assert!(run.outcomes.iter().all(Result::is_ok));
        assert_eq!(run.last.rest(), Ok(true));
    }
    met.judge(&[0, 4, 5, 6, 7], 1000);
    assert!(met.resets > 1000 && met.cascades > 100);
}

/// The state that so many whole resets of an initial network lead to.
fn after_resets(header: &Header, resets: u32) -> State {
    let mut state = State::initial(header).unwrap();
    for station in &mut state.stations {
        station.phase = resets;
    }
    state
}

/// A reset of a whole network, one start and then receipts alone, leaves the
/// initial state but for the phases.
#[test]
fn whole_resets() {
    let mut rng = Rng::new(24);
    for k in 0..60 {
        let header = shaped(&mut rng, k);
        let mut run = reference::causality::Run::new(State::initial(&header).unwrap());
        for resets in 1..4 {
            let station = rng.index(header.n());
            run.push(start(station)).unwrap();
            assert!(generate::drain(&mut rng, &mut run, 100_000).is_some());
            assert_eq!(run.last, after_resets(&header, resets));
        }
    }
}

/// In the last phases 8 is met, and 2 is not.
#[test]
fn runs_in_the_last_phases() {
    let seed = 25;
    println!("seed {seed}");
    let mut rng = Rng::new(seed);
    let (mut met, mut last) = (Met::default(), 0);
    for k in 0..600 {
        let header = shaped(&mut rng, k);
        let resets = LAST_PHASE - rng.below(4) as u32;
        let mut state = after_resets(&header, resets);
        run_on(&mut rng, &mut state, 200, &mut met);
        last += u32::from(state.stations.iter().any(|s| s.phase == LAST_PHASE));
    }
    println!("{last} runs reached the last phase");
    met.judge(&[0, 4, 5, 6, 7, 8], 1000);
    assert!(last > 300);
}

/// Every state that a network reaches in its first phases, and every step from
/// there.
fn explore(header: &Header, last_phase: u32) -> Met {
    let hasher = RandomState::new();
    let (mut met, mut known) = (Met::default(), HashSet::new());
    let mut open = vec![State::initial(header).unwrap()];
    while let Some(state) = open.pop() {
        let new = known.insert(hasher.hash_one(&state));
        if !new || state.stations.iter().any(|s| s.phase > last_phase) {
            continue;
        }
        for step in every_step(state.n()) {
            let mut after = state.clone();
            if met.step(&mut after, step).is_ok() {
                open.push(after);
            }
        }
    }
    println!("{} states", known.len());
    met
}

/// Small networks with the least ceiling: no step is refused with 2.
#[test]
fn every_state_of_small_networks() {
    let pair = [(0, 1)];
    for (limit, allowance, last_phase) in [(1, 0, 3), (1, 1, 3), (1, 2, 2), (2, 0, 2), (2, 1, 1)] {
        let header = header(2, &pair, limit, allowance);
        explore(&header, last_phase).judge(&[0, 4, 5, 6, 7], 100);
    }
    explore(&header(3, &[(0, 1), (1, 2)], 1, 0), 1).judge(&[0, 4, 5, 6, 7], 1000);
}
