//! Receipts to rest: the number by the library, by the plain and by the careful
//! version, and networks that the library brings to rest by receipts alone.

use std::cell::Cell;

use comparison::{cases, compare_receipts_to_rest, in_32_bits, library_step, stepped};
use melontime::raw;
use reference::area;
use reference::generate::{
    any_network, any_state, every_step, network, next_step, receipts_waiting, Habits, NetworkWish,
    Shape,
};
use reference::header::Header;
use reference::network::{Item, Message, Mode, State, Step, AREA};
use reference::random::Rng;
use reference::LAST_PHASE;

/// Which of the receipts that can be taken is the next.
#[derive(Clone, Copy, Debug)]
enum Order {
    First,
    Last,
    Any,
}

impl Order {
    const ALL: [Order; 3] = [Order::First, Order::Last, Order::Any];

    fn next(self, rng: &mut Rng, state: &State) -> Option<Step> {
        let waiting = receipts_waiting(state);
        match self {
            Order::First => waiting.first().copied(),
            Order::Last => waiting.last().copied(),
            Order::Any => (!waiting.is_empty()).then(|| rng.pick(&waiting)),
        }
    }
}

/// Receipts alone by the library, until the reference has none more: just so many
/// as were told are accepted, and after each there is one less. Both are at rest
/// then in the phase of the greatest target, with one area, and no receipt is
/// accepted any more. Answers how many there were.
fn bring_to_rest(rng: &mut Rng, mut state: State, order: Order) -> u64 {
    let mut bytes = area::image(&state);
    let (told, phase) = (compare_receipts_to_rest(&bytes), state.greatest_target());
    let mut answer = told;
    while let Some(step) = order.next(rng, &state) {
        let taken = library_step(&mut bytes, &mut [0; 32], step);
        assert!(taken >= 100, "{order:?} {step:?}");
        assert_eq!(taken, stepped(&state.step(step)), "{order:?} {step:?}");
        assert_eq!(raw::rest(&bytes), if answer == 1001 { 100 } else { 101 });
        answer -= 1;
        assert_eq!(raw::receipts_to_rest(&bytes), answer, "{order:?} {step:?}");
    }
    assert_eq!(answer, 1000, "{order:?}");
    assert!(bytes == area::image(&state), "the area at rest");
    for station in &state.stations {
        assert_eq!((station.mode, station.phase), (Mode::Normal, phase));
    }
    let steps = every_step(state.n()).into_iter();
    for step in steps.filter(|step| matches!(step, Step::Recv { .. })) {
        let refused = library_step(&mut bytes.clone(), &mut [0; 32], step);
        assert!(refused == 7 || refused == 4, "{step:?}");
    }
    told - 1000
}

/// Random steps from an initial network, and from some of the states on the way
/// receipts alone, in each order. Answers how many there were in all.
fn run(rng: &mut Rng, header: &Header, length: usize) -> u64 {
    let mut state = State::initial(header).expect("a network");
    let mut habits = Habits::any(rng);
    let mut receipts = 0;
    for k in 0..=length {
        if k == length || rng.chance(1, 100) {
            for order in Order::ALL {
                receipts += bring_to_rest(rng, state.clone(), order);
            }
        }
        if rng.chance(1, 24) {
            habits = Habits::any(rng);
        }
        let step = next_step(rng, &state, &habits);
        let _ = state.step(in_32_bits(step));
    }
    receipts
}

#[test]
fn networks_come_to_rest() {
    let receipts = Cell::new(0);
    cases("networks_come_to_rest", 400, |rng| {
        let header = any_network(rng);
        receipts.set(receipts.get() + run(rng, &header, 300));
    });
    println!("networks_come_to_rest: {} receipts", receipts.get());
}

#[test]
fn networks_of_every_shape_come_to_rest() {
    let receipts = Cell::new(0);
    cases("networks_of_every_shape_come_to_rest", 20, |rng| {
        for shape in Shape::ALL {
            let wish = NetworkWish {
                shape: Some(shape),
                tight: true,
                fewest: 8,
                ..NetworkWish::default()
            };
            let header = network(rng, wish);
            receipts.set(receipts.get() + run(rng, &header, 500));
        }
    });
    let receipts = receipts.get();
    println!("networks_of_every_shape_come_to_rest: {receipts} receipts");
}

/// Areas that no initial network reaches, among them such as have received less
/// than nothing on a link, or more than the greatest target asks for.
#[test]
fn lent_areas() {
    let mut rng = Rng::new(1);
    let mut stopped = [0; 2];
    for _ in 0..3_000 {
        let mut state = any_state(&mut rng);
        if rng.chance(1, 2) {
            for station in &mut state.stations {
                station.phase = rng.below(2) as u32;
            }
        }
        assert!(compare_receipts_to_rest(&area::image(&state)) >= 1000);
        let target = u64::from(state.greatest_target());
        for (i, station) in state.stations.iter().enumerate() {
            for j in state.header.neighbours(i) {
                let nothing = station.target() == 0 && !station.done_seen[j];
                stopped[0] += u64::from(nothing && !station.req_seen[j]);
                stopped[1] += u64::from(state.control_items_received(i, j) > 2 * target);
            }
        }
    }
    println!(
        "lent_areas: links that stop at 0 by what they received, or at the target {stopped:?}"
    );
    assert!(stopped.iter().all(|&links| links > 100), "{stopped:?}");
}

/// The header of two stations with a link of limit 2.
fn pair() -> Header {
    let mut header = Header::new(2, 7);
    (header.limits[0][1], header.limits[1][0]) = (2, 2);
    header
}

/// The library alone, by hand: a message under way, then a reset behind it.
#[test]
fn receipts_to_rest_by_hand() {
    let (mut bytes, mut event) = (vec![0; AREA], [0; 32]);
    assert_eq!(raw::setup(&pair().to_block_untested(), &mut bytes), 0);
    assert_eq!(raw::receipts_to_rest(&bytes), 1000);
    assert_eq!(raw::send(&mut bytes, &mut event, 0, 1, 501), 100);
    assert_eq!(raw::receipts_to_rest(&bytes), 1001);
    assert_eq!(raw::start(&mut bytes, &mut event, 0), 1001);
    assert_eq!(raw::receipts_to_rest(&bytes), 1005);
    for (left, (station, peer)) in [(4, (1, 0)), (3, (1, 0)), (2, (0, 1)), (1, (0, 1))] {
        assert!(raw::recv(&mut bytes, &mut event, station, peer) >= 100);
        assert_eq!(raw::receipts_to_rest(&bytes), 1000 + left);
        assert_eq!(raw::rest(&bytes), 101);
    }
    assert_eq!(raw::recv(&mut bytes, &mut event, 0, 1), 7);
    assert_eq!(raw::receipts_to_rest(&bytes), 1001);
    assert_eq!(raw::recv(&mut bytes, &mut event, 1, 0), 1004);
    assert_eq!(raw::receipts_to_rest(&bytes), 1000);
    assert_eq!(raw::rest(&bytes), 100);
}

/// By hand, where a subtraction stops at 0.
#[test]
fn lent_areas_by_hand() {
    let mut state = State::initial(&pair()).expect("a network");
    let ask = |state: &State| compare_receipts_to_rest(&area::image(state));
    state.stations[0].done_seen[1] = false;
    assert_eq!(ask(&state), 1000);
    state.stations[1].phase = 1;
    assert_eq!(ask(&state), 1002);
    state.stations[1].req_seen[0] = true; // 3 of 2
    assert_eq!(ask(&state), 1002);
    state.links[0][1].extend([Item::ResetReq, Item::ResetDone]);
    assert_eq!(ask(&state), 1002);
    let message = Message {
        register: 5,
        counts: [7, 7, 0, 0, 0, 0, 0, 0],
    };
    state.links[0][1].push_back(Item::Message(message));
    assert_eq!(ask(&state), 1003);
    state.links[1][0].extend([Item::Message(message); 4]);
    assert_eq!(ask(&state), 1007);
}

/// The greatest number that an area can have.
#[test]
fn the_greatest_number() {
    let mut header = Header::new(8, 448);
    for (i, j) in (0..8).flat_map(|i| (0..i).map(move |j| (i, j))) {
        (header.limits[i][j], header.limits[j][i]) = (32, 32);
    }
    let mut state = State::initial(&header).expect("a network");
    let message = Message {
        register: u32::MAX,
        counts: [448; 8],
    };
    for i in 0..8 {
        state.stations[i].done_seen = [false; 8];
        for j in header.neighbours(i) {
            state.links[i][j].extend([Item::Message(message); 34]);
        }
    }
    (state.stations[3].mode, state.stations[3].phase) = (Mode::Mute, LAST_PHASE);
    let right = 49 * 2_000_000 + 7 * 2 + 56 * 34;
    assert_eq!(compare_receipts_to_rest(&area::image(&state)), 1000 + right);
}
