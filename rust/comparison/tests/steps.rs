//! Setup, the steps, rest and receipts to rest: the library's answers, records
//! and areas against those of the independent implementation, byte for byte.

use comparison::{cases, compare_receipts_to_rest, in_32_bits, library_step};
use comparison::{rested, stepped, to_rest, written};
use melontime::raw;
use reference::area;
use reference::at_bounds::{bounds_left, by_hand, counts_at_the_ceiling, full_links, Bound};
use reference::check::seal;
use reference::generate::{
    any_network, any_ranged_header, any_state, damaged_header_block, every_step, ill_formed_state,
    network, next_step, rule_breaker, state_with_news, wild_step, Habits, HeaderDamage,
    NetworkWish, RuleBreak, Shape, StateDamage, Traffic,
};
use reference::header::Header;
use reference::in_place;
use reference::network::{Answer, Item, Message, Mode, State, Step, AREA};
use reference::random::Rng;

/// The bytes of a lent record before a call.
const EVENT: [u8; 32] = [0xa5; 32];

/// One step on copies of an area, by the library, the reference and the version
/// in place: one answer, one record and one area, and where the step is refused
/// those of before. The answer and the area.
fn compare_step(before: &[u8], step: Step) -> (u64, Vec<u8>) {
    let (mut ours, mut our_event) = (before.to_vec(), EVENT);
    let answer = library_step(&mut ours, &mut our_event, step);
    for theirs in [area::step, in_place::step] {
        let (mut area, mut event) = (before.to_vec(), EVENT);
        let outcome = theirs(&mut area, &mut event, step);
        assert_eq!(answer, stepped(&outcome), "{step:?}");
        assert_eq!(our_event, event, "the record of {step:?}");
        assert!(ours == area, "the area after {step:?}");
    }
    let left = ours == before && our_event == EVENT;
    assert!(left || answer >= 100, "{step:?} is to leave both");
    (answer, ours)
}

/// All calls on bytes that may be no image.
fn compare_calls(rng: &mut Rng, bytes: &[u8]) {
    let rest = raw::rest(bytes);
    assert_eq!(rest, rested(area::rest(bytes)));
    assert_eq!(compare_receipts_to_rest(bytes) == 2, rest == 2);
    for step in one_of_each(rng) {
        compare_step(bytes, step);
    }
}

fn one_of_each(rng: &mut Rng) -> [Step; 4] {
    let (station, peer) = (rng.index(8), rng.index(8));
    let register = rng.next_u64() as u32;
    [
        Step::Enter { station, register },
        Step::Send {
            station,
            peer,
            register,
        },
        Step::Recv { station, peer },
        Step::Start { station },
    ]
}

/// Changes some bytes: anywhere, among those that are in use, or at the end.
fn damage(rng: &mut Rng, bytes: &mut [u8]) {
    for _ in 0..rng.pick(&[1, 1, 1, 2, 5]) {
        let at = match rng.below(4) {
            0 => rng.index(AREA),
            1 => rng.index(area::LINKS_AT),
            2 => area::link_at(rng.index(8), rng.index(8)) + rng.index(44),
            _ => area::station_at(rng.index(8)) + rng.index(area::STATION),
        };
        bytes[at] = match rng.below(4) {
            0 => bytes[at].wrapping_add(1),
            1 => bytes[at].wrapping_sub(1),
            2 => rng.below(4) as u8,
            _ => rng.next_u64() as u8,
        };
    }
    // A header that is sealed again is refused for its fields alone.
    if rng.chance(1, 2) {
        seal((&mut bytes[..512]).try_into().expect("a block"));
    }
}

/// How many counts of other stations differ between station i in an area and a
/// record's bytes.
fn changed_counts(bytes: &[u8], i: usize, event: &[u8]) -> u64 {
    let counts = &bytes[area::station_at(i)..][..16];
    let pairs = counts.chunks(2).zip(event[16..].chunks(2)).enumerate();
    let changed = pairs.filter(|&(k, (before, after))| k != i && before != after);
    changed.count() as u64
}

/// Runs a list of steps from setup on, by habits that change now and then.
fn run(rng: &mut Rng, header: &Header, length: usize) {
    let mut habits = Habits::any(rng);
    let next = |rng: &mut Rng, state: &State| {
        if rng.chance(1, 24) {
            habits = Habits::any(rng);
        }
        next_step(rng, state, &habits)
    };
    run_by(rng, header, length, next);
}

/// Runs a list of steps from setup on, comparing at each. Answers how many
/// receipts brought each number of news.
fn run_by(
    rng: &mut Rng,
    header: &Header,
    length: usize,
    next: impl FnMut(&mut Rng, &State) -> Step,
) -> [u64; 8] {
    let block = header.to_block().expect("fields in their ranges");
    let mut bytes = vec![rng.next_u64() as u8; AREA];
    assert_eq!(raw::setup(&block, &mut bytes), 0);
    let state = State::initial(header).expect("a network");
    assert!(bytes == area::image(&state), "the initial area");
    run_on(rng, state, length, next)
}

/// Runs a list of steps from a state that an initial network reaches: none is
/// refused with 2.
fn run_on(
    rng: &mut Rng,
    mut state: State,
    length: usize,
    mut next: impl FnMut(&mut Rng, &State) -> Step,
) -> [u64; 8] {
    let mut bytes = area::image(&state);
    let mut image = bytes.clone();
    let mut told = [0; 8];
    for _ in 0..length {
        let step = in_32_bits(next(rng, &state));
        let mut event = EVENT;
        let answer = library_step(&mut bytes, &mut event, step);
        let outcome = state.step(step);
        assert_eq!(answer, stepped(&outcome), "{step:?}");
        assert!((4..=8).contains(&answer) || answer >= 100, "{step:?}");
        match outcome {
            Ok(Answer::Entry { record, .. }) => assert_eq!(event, record.to_bytes(), "{step:?}"),
            _ => assert_eq!(event, EVENT, "{step:?} is to leave the record area"),
        }
        // The image is still that of the state before the step.
        if let (Step::Recv { station, .. }, 100..=107) = (step, answer) {
            let news = changed_counts(&image, station, &event);
            assert_eq!(answer, 100 + news, "{step:?}");
            told[news as usize] += 1;
        }
        area::write(&state, &mut image);
        assert!(bytes == image, "the area after {step:?}");
        assert_eq!(raw::rest(&bytes), rested(state.rest()));
        let receipts = raw::receipts_to_rest(&bytes);
        assert_eq!(receipts, to_rest(state.receipts_to_rest()));
        if rng.chance(1, 50) {
            let mut damaged = bytes.clone();
            damage(rng, &mut damaged);
            compare_calls(rng, &damaged);
        }
    }
    told
}

#[test]
fn lists_of_steps() {
    cases("lists_of_steps", 200, |rng| {
        let header = any_network(rng);
        run(rng, &header, 2_500);
    });
}

#[test]
fn lists_on_every_shape() {
    cases("lists_on_every_shape", 6, |rng| {
        for shape in Shape::ALL {
            for small in [false, true] {
                let wish = NetworkWish {
                    shape: Some(shape),
                    small,
                    ..NetworkWish::default()
                };
                let header = network(rng, wish);
                run(rng, &header, 2_000);
            }
        }
    });
}

/// A header of eight stations in a shape.
fn header_of_eight(rng: &mut Rng, shape: Shape) -> Header {
    let wish = NetworkWish {
        shape: Some(shape),
        fewest: 8,
        ..NetworkWish::default()
    };
    network(rng, wish)
}

/// Uneven traffic between eight stations from setup on, in which messages are
/// overtaken, and raise many counts at once.
fn run_traffic(rng: &mut Rng, shape: Shape) -> [u64; 8] {
    let header = header_of_eight(rng, shape);
    let traffic = Traffic::any(rng, &header);
    run_by(rng, &header, 600, |rng, state| {
        traffic.next_step(rng, state)
    })
}

#[test]
fn traffic_of_eight_stations() {
    cases("traffic_of_eight_stations", 60, |rng| {
        let shape = rng.pick(&Shape::ALL);
        run_traffic(rng, shape);
    });
}

/// From setup on, receipts bring all news from 0 to 7.
#[test]
fn every_number_of_news_is_met() {
    let mut rng = Rng::new(1);
    let mut told = [0; 8];
    for shape in Shape::ALL.repeat(10) {
        let more = run_traffic(&mut rng, shape);
        told = std::array::from_fn(|news| told[news] + more[news]);
    }
    println!("every_number_of_news_is_met: receipts by their news {told:?}");
    assert!(told.iter().all(|&receipts| receipts > 0), "{told:?}");
}

/// Messages with counts by hand, on states that no initial network reaches:
/// each number from 0 to 7 by the library, the reference and the version in
/// place, and no other than the one that the message was made for.
#[test]
fn news_of_hand_made_messages() {
    cases("news_of_hand_made_messages", 150, |rng| {
        let shape = rng.pick(&Shape::ALL);
        let header = header_of_eight(rng, shape);
        let (station, mut numbers) = (rng.index(8), Vec::new());
        let neighbours: Vec<usize> = header.neighbours(station).collect();
        for news in 0..8 {
            let peer = rng.pick(&neighbours);
            let state = state_with_news(rng, &header, station, peer, news);
            let step = Step::Recv { station, peer };
            let mut bytes = area::image(&state);
            let (answer, _) = compare_step(&bytes, step);
            numbers.push(answer);
            let mut event = EVENT;
            assert_eq!(library_step(&mut bytes, &mut event, step), answer);
            // The own count goes up by one, whatever the message has there.
            let own = state.stations[station].counts[station] + 1;
            assert_eq!(event[16 + 2 * station..][..2], own.to_le_bytes());
        }
        let right: Vec<u64> = (100..108).collect();
        assert_eq!(numbers, right);
    });
}

/// The library alone, by hand: a first message, one that is sent on, and one
/// that has been overtaken.
#[test]
fn news_by_hand() {
    let mut header = Header::new(3, 8);
    for (i, j) in [(0, 1), (0, 2), (1, 2)] {
        (header.limits[i][j], header.limits[j][i]) = (2, 2);
    }
    let mut bytes = vec![0; AREA];
    assert_eq!(raw::setup(&header.to_block_untested(), &mut bytes), 0);
    let mut event = EVENT;
    assert_eq!(raw::send(&mut bytes, &mut event, 1, 0, 7), 100);
    assert_eq!(raw::send(&mut bytes, &mut event, 1, 2, 8), 100);
    assert_eq!(raw::recv(&mut bytes, &mut event, 2, 1), 101);
    assert_eq!(raw::send(&mut bytes, &mut event, 2, 0, 9), 100);
    assert_eq!(raw::recv(&mut bytes, &mut event, 0, 2), 102);
    assert_eq!(event[16..22], [1, 0, 2, 0, 2, 0]);
    assert_eq!(raw::recv(&mut bytes, &mut event, 0, 1), 100);
    assert_eq!(event[16..22], [2, 0, 2, 0, 2, 0]);
    assert_eq!(event[..12], [3, 0, 1, 0, 0, 0, 0, 0, 7, 0, 0, 0]);
    // The mode and phase after a control item are as before.
    assert_eq!(raw::start(&mut bytes, &mut event, 1), 1001);
    assert_eq!(raw::recv(&mut bytes, &mut event, 0, 1), 1001);
}

/// Whether a count stands at the ceiling, in a network with links, and whether
/// a link is full.
fn at_bounds_of(state: &State) -> [bool; 2] {
    let at_ceiling = state.n() > 1 && counts_at_the_ceiling(state) > 0;
    [at_ceiling, !full_links(state).is_empty()]
}

/// Whichever step comes next, it is accepted or refused with 4 to 8.
fn try_every_step(state: &State) {
    let bytes = area::image(state);
    for step in every_step(state.n()) {
        let (answer, _) = compare_step(&bytes, step);
        assert!((4..=8).contains(&answer) || answer >= 100, "{step:?}");
    }
}

/// A run from a state that an initial network reaches, by habits that change now
/// and then; at some of the states at a bound every step is tried. Answers how
/// often a count stood at the ceiling, and how often a link was full.
fn run_at_bounds(rng: &mut Rng, state: State) -> [u64; 2] {
    let mut met = [0; 2];
    let mut habits = Habits::any(rng);
    run_on(rng, state, 300, |rng, state| {
        let at_bounds = at_bounds_of(state);
        met = std::array::from_fn(|k| met[k] + u64::from(at_bounds[k]));
        if at_bounds.contains(&true) && rng.chance(1, 20) {
            try_every_step(state);
        }
        if rng.chance(1, 24) {
            habits = Habits::any(rng);
        }
        next_step(rng, state, &habits)
    });
    met
}

/// A header with small limits and the least ceiling.
fn tight_header(rng: &mut Rng) -> Header {
    let wish = NetworkWish {
        small: true,
        tight: true,
        most: rng.pick(&[2, 3, 4, 8]),
        ..NetworkWish::default()
    };
    network(rng, wish)
}

/// With the least ceiling counts reach it and links fill up, and no step is
/// refused with 2.
#[test]
fn lists_at_the_least_ceiling() {
    let mut rng = Rng::new(1);
    let mut met = [0; 2];
    for _ in 0..200 {
        let header = tight_header(&mut rng);
        let state = State::initial(&header).expect("a network");
        let more = run_at_bounds(&mut rng, state);
        met = std::array::from_fn(|k| met[k] + more[k]);
    }
    println!("lists_at_the_least_ceiling: states at the ceiling, with full links {met:?}");
    assert!(met.iter().all(|&states| states > 100), "{met:?}");
}

/// The state that whole resets of an initial network lead to differs from the
/// initial one in the phases alone. In the last phase a start is refused with 8;
/// there and before it no step is refused with 2.
#[test]
fn lists_in_the_last_phases() {
    let mut rng = Rng::new(1);
    let mut last = 0;
    for _ in 0..100 {
        let mut state = State::initial(&tight_header(&mut rng)).expect("a network");
        let phase = 999_999 - rng.below(3) as u32;
        for station in &mut state.stations {
            station.phase = phase;
        }
        let start = Step::Start { station: 0 };
        let (answer, _) = compare_step(&area::image(&state), start);
        assert_eq!(answer == 8, phase == 999_999);
        last += u64::from(answer == 8);
        run_at_bounds(&mut rng, state);
    }
    println!("lists_in_the_last_phases: {last} began in the last");
    assert!(last > 10);
}

/// Full links, counts at the ceiling and the last phase by hand, in areas that
/// no initial network reaches, with a record area of any length.
#[test]
fn steps_at_the_bounds() {
    for case in by_hand() {
        let bytes = area::image(&case.state);
        assert!(raw::rest(&bytes) >= 100, "{} is well formed", case.what);
        let (answer, after) = compare_step(&bytes, case.step);
        match case.number {
            0 => assert!(answer >= 100 && after != bytes, "{}", case.what),
            number => assert_eq!(answer, u64::from(number), "{}", case.what),
        }
        for length in [0, 31, 33] {
            let (mut area, mut event) = (bytes.clone(), vec![7; length]);
            assert_eq!(library_step(&mut area, &mut event, case.step), 11);
            assert!(area == bytes && event == vec![7; length]);
        }
    }
}

/// On any well-formed states 2 is met at each bound: of a step on a state as it
/// is, and with the station far away from the other bounds. Away from all of
/// them the step is accepted.
#[test]
fn every_bound_is_met() {
    let mut rng = Rng::new(1);
    let mut met = [0; 3];
    for _ in 0..2_500 {
        let state = any_state(&mut rng);
        for _ in 0..10 {
            let habits = Habits::any(&mut rng);
            let step = in_32_bits(next_step(&mut rng, &state, &habits));
            let left = bounds_left(&state, step);
            let (answer, _) = compare_step(&area::image(&state), step);
            assert_eq!(answer == 2, !left.is_empty(), "{step:?}");
            if answer == 2 {
                relieve_and_compare(&state, step, &left);
            }
            for (met, bound) in met.iter_mut().zip(Bound::ALL) {
                *met += u64::from(left.contains(&bound));
            }
        }
    }
    println!("every_bound_is_met: places, ceiling, last phase {met:?}");
    assert!(met.iter().all(|&steps| steps > 50), "{met:?}");
}

/// A step that is refused with 2 is so while one of its bounds is near, and
/// accepted with none.
fn relieve_and_compare(state: &State, step: Step, left: &[Bound]) {
    let compare = |near: Option<Bound>| {
        let mut state = state.clone();
        for bound in Bound::ALL.into_iter().filter(|&bound| Some(bound) != near) {
            bound.relieve(&mut state, step.station());
        }
        compare_step(&area::image(&state), step).0
    };
    assert!(compare(None) >= 100, "{step:?}");
    for bound in Bound::ALL {
        let refused = compare(Some(bound)) == 2;
        assert_eq!(refused, left.contains(&bound), "{step:?} at {bound:?}");
    }
}

#[test]
fn any_well_formed_state() {
    cases("any_well_formed_state", 800, |rng| {
        let state = any_state(rng);
        let bytes = area::image(&state);
        assert_eq!(raw::rest(&bytes), rested(state.rest()));
        assert!(compare_receipts_to_rest(&bytes) >= 1000);
        for _ in 0..40 {
            let step = match rng.below(4) {
                0 => wild_step(rng),
                _ => {
                    let habits = Habits::any(rng);
                    next_step(rng, &state, &habits)
                }
            };
            compare_step(&bytes, in_32_bits(step));
        }
        // A list from there, each step on the area that the last one left.
        let mut bytes = bytes;
        for _ in 0..40 {
            let state = area::read(&bytes).expect("a step leaves an image");
            let habits = Habits::any(rng);
            let step = in_32_bits(next_step(rng, &state, &habits));
            (_, bytes) = compare_step(&bytes, step);
        }
    });
}

/// Rest by the library, the reference and the version in place.
fn compare_rest(state: &State) -> u64 {
    let bytes = area::image(state);
    let answer = raw::rest(&bytes);
    assert_eq!(answer, rested(state.rest()));
    assert_eq!(answer, rested(area::rest(&bytes)));
    assert_eq!(answer, rested(in_place::rest(&bytes)));
    answer
}

/// Normal stations of one phase: rest is yes while no link holds an item, and
/// no as soon as any one of them holds one of any kind.
#[test]
fn rest_by_links() {
    cases("rest_by_links", 200, |rng| {
        let header = any_network(rng);
        let mut state = State::initial(&header).expect("a network");
        let phase = rng.below(1_000_000) as u32;
        for station in &mut state.stations {
            station.phase = phase;
        }
        assert_eq!(compare_rest(&state), 100);
        let message = Item::Message(Message {
            register: rng.next_u64() as u32,
            counts: [0; 8],
        });
        for (i, j) in (0..64).map(|k| (k / 8, k % 8)) {
            for item in [message, Item::ResetReq, Item::ResetDone] {
                let linked = header.limit(i, j) > 0;
                state.links[i][j].push_back(item);
                // Without a link there is no place for it.
                assert_eq!(compare_rest(&state), if linked { 101 } else { 2 });
                state.links[i][j].clear();
            }
            if header.limit(i, j) > 0 {
                state.links[i][j].extend([Item::ResetDone, message, Item::ResetReq]);
                assert_eq!(compare_rest(&state), 101);
                state.links[i][j].clear();
            }
        }
        // One station alone that is not normal, or in another phase.
        let i = rng.index(state.n());
        for mode in Mode::ALL {
            state.stations[i].mode = mode;
            let normal = mode == Mode::Normal;
            assert_eq!(compare_rest(&state), if normal { 100 } else { 101 });
        }
        state.stations[i].mode = Mode::Normal;
        state.stations[i].phase = (phase + 1) % 1_000_000;
        let alone = state.n() == 1;
        assert_eq!(compare_rest(&state), if alone { 100 } else { 101 });
    });
}

/// The library alone, by hand: a message under way, then a reset.
#[test]
fn rest_while_an_item_is_under_way() {
    let mut header = Header::new(2, 7);
    header.allowances = [3, 3, 0, 0, 0, 0, 0, 0];
    (header.limits[0][1], header.limits[1][0]) = (2, 2);
    let mut bytes = vec![0; AREA];
    assert_eq!(raw::setup(&header.to_block_untested(), &mut bytes), 0);
    let mut take = |step| {
        assert!(library_step(&mut bytes, &mut EVENT.clone(), step) >= 100);
        raw::rest(&bytes)
    };
    let recv = |station, peer| Step::Recv { station, peer };
    let (station, peer, register) = (0, 1, 501);
    assert_eq!(take(Step::Enter { station, register }), 100);
    let send = Step::Send {
        station,
        peer,
        register,
    };
    assert_eq!(take(send), 101);
    assert_eq!(take(recv(1, 0)), 100);
    assert_eq!(take(Step::Start { station }), 101);
    assert_eq!(take(recv(1, 0)), 101);
    assert_eq!(take(recv(0, 1)), 101);
    assert_eq!(take(recv(0, 1)), 101);
    assert_eq!(take(recv(1, 0)), 100);
}

#[test]
fn ill_formed_states() {
    cases("ill_formed_states", 120, |rng| {
        for way in StateDamage::ALL {
            let state = ill_formed_state(rng, way);
            let links = state.links.iter().flatten();
            let has_places =
                state.stations.len() <= 8 && links.into_iter().all(|link| link.len() <= 34);
            if has_places {
                compare_calls(rng, &area::image(&state));
            }
        }
    });
}

#[test]
fn damaged_areas() {
    cases("damaged_areas", 4_000, |rng| {
        let mut bytes = area::image(&any_state(rng));
        damage(rng, &mut bytes);
        compare_calls(rng, &bytes);
    });
}

#[test]
fn each_byte_of_an_area() {
    cases("each_byte_of_an_area", 3, |rng| {
        let mut bytes = area::image(&any_state(rng));
        let mut images = 0;
        for at in 0..AREA {
            let right = bytes[at];
            bytes[at] ^= rng.range(1, 255) as u8;
            let expected = rested(area::rest(&bytes));
            assert_eq!(raw::rest(&bytes), expected, "byte {at}");
            let receipts = to_rest(area::receipts_to_rest(&bytes));
            assert_eq!(raw::receipts_to_rest(&bytes), receipts, "byte {at}");
            images += u32::from(expected != 2);
            bytes[at] = right;
        }
        println!("each_byte_of_an_area: {images} changes gave another image");
    });
}

#[test]
fn areas_of_wrong_length() {
    cases("areas_of_wrong_length", 20, |rng| {
        let image = area::image(&any_state(rng));
        let long = [&image[..], &image[..]].concat();
        for length in [0, 1, 511, 512, 888, AREA - 1, AREA + 1, 2 * AREA] {
            compare_calls(rng, &long[..length]);
        }
        // A wrong record area is told before a wrong area, and both are left.
        for length in [0, 1, 31, 33, 64] {
            for area_length in [AREA, AREA - 1] {
                for step in one_of_each(rng) {
                    let mut bytes = image[..area_length].to_vec();
                    let mut event = vec![7; length];
                    assert_eq!(library_step(&mut bytes, &mut event, step), 11);
                    assert!(bytes == image[..area_length] && event == vec![7; length]);
                }
            }
        }
    });
}

/// Setup by both on areas filled with one byte.
fn compare_setup(rng: &mut Rng, block: &[u8]) -> u64 {
    let fill = rng.next_u64() as u8;
    let (mut ours, mut theirs) = (vec![fill; AREA], vec![fill; AREA]);
    let answer = raw::setup(block, &mut ours);
    assert_eq!(answer, written(area::setup(block, &mut theirs)));
    assert!(ours == theirs, "the area after setup");
    answer
}

#[test]
fn setups() {
    cases("setups", 1_500, |rng| {
        let header = any_network(rng);
        assert_eq!(compare_setup(rng, &header.to_block_untested()), 0);
        for way in RuleBreak::ALL {
            let header = rule_breaker(rng, way);
            assert_eq!(compare_setup(rng, &header.to_block_untested()), 3);
        }
        let header = any_ranged_header(rng);
        compare_setup(rng, &header.to_block_untested());
        for way in HeaderDamage::ALL {
            let block = damaged_header_block(rng, way);
            assert_eq!(compare_setup(rng, &block), 1);
        }
        // Two changes in a header's fields, sealed again: 0, 1 or 3.
        let mut block = any_network(rng).to_block_untested();
        for _ in 0..2 {
            block[rng.index(96)] = rng.below(40) as u8;
        }
        seal(&mut block);
        compare_setup(rng, &block);
    });
}

#[test]
fn each_byte_of_a_header() {
    cases("each_byte_of_a_header", 10, |rng| {
        let right = any_network(rng).to_block_untested();
        for at in 0..512 {
            let mut block = right;
            block[at] ^= rng.range(1, 255) as u8;
            assert_eq!(compare_setup(rng, &block), 1, "byte {at}");
            seal(&mut block);
            compare_setup(rng, &block);
        }
    });
}

#[test]
fn setup_tries_the_area_first() {
    cases("setup_tries_the_area_first", 20, |rng| {
        let right = any_network(rng).to_block_untested();
        let rule = rule_breaker(rng, RuleBreak::SumAboveCeiling).to_block_untested();
        for block in [&right[..], &rule[..], &right[..511], &[]] {
            for length in [0, 512, AREA - 1, AREA + 1] {
                let mut bytes = vec![9; length];
                assert_eq!(raw::setup(block, &mut bytes), 11);
                assert!(bytes == vec![9; length]);
            }
        }
        for length in [0, 1, 511] {
            assert_eq!(compare_setup(rng, &right[..length]), 1);
        }
        let long = [&right[..], &[0]].concat();
        assert_eq!(compare_setup(rng, &long), 1);
    });
}

/// Where several refusals apply, the one that is told: 2, 4, 7, 5, 8, 6, 2.
#[test]
fn order_of_refusals() {
    let mut header = Header::new(2, 40);
    header.allowances = [3, 3, 0, 0, 0, 0, 0, 0];
    (header.limits[0][1], header.limits[1][0]) = (2, 2);
    let mut state = State::initial(&header).expect("a network");
    let full = [Item::ResetReq; 4];
    // Everything is against station 0: it is mute in the last phase with its
    // counts, allowance and limit used up and a full link.
    state.stations[0].mode = Mode::Mute;
    state.stations[0].phase = 999_999;
    state.stations[0].counts[0] = 40;
    state.stations[0].own_entries = 3;
    state.stations[0].sent[1] = 2;
    state.links[0][1].extend(full);

    let ask = |state: &State, step: Step| {
        let (answer, _) = compare_step(&area::image(state), step);
        answer
    };
    let enter = |station| Step::Enter {
        station,
        register: 7,
    };
    let send = |station, peer| Step::Send {
        station,
        peer,
        register: 7,
    };
    let recv = |station, peer| Step::Recv { station, peer };
    let start = |station| Step::Start { station };

    let mut ill = state.clone();
    ill.stations[1].phase = 1_000_000;
    for step in [enter(2), send(0, 0), send(0, 1), recv(0, 1), start(0)] {
        assert_eq!(ask(&ill, step), 2);
    }
    for step in [enter(2), send(2, 0), send(0, 0), send(0, 2)] {
        assert_eq!(ask(&state, step), 4);
    }
    for step in [recv(0, 0), recv(2, 1), recv(0, 9), start(2)] {
        assert_eq!(ask(&state, step), 4);
    }
    assert_eq!(ask(&state, recv(0, 1)), 7);
    assert_eq!(ask(&state, send(0, 1)), 5);
    assert_eq!(ask(&state, start(0)), 5);
    assert_eq!(ask(&state, enter(0)), 6);
    state.stations[0].mode = Mode::Normal;
    assert_eq!(ask(&state, start(0)), 8);
    assert_eq!(ask(&state, send(0, 1)), 6);
    state.stations[0].own_entries = 2;
    state.stations[0].sent[1] = 1;
    state.stations[0].phase = 999_998;
    for step in [enter(0), send(0, 1), start(0)] {
        assert_eq!(ask(&state, step), 2);
    }
    state.stations[0].counts[0] = 39;
    assert_eq!(ask(&state, enter(0)), 100);
    assert_eq!(ask(&state, send(0, 1)), 2);
    state.links[0][1].clear();
    assert_eq!(ask(&state, send(0, 1)), 100);
    assert_eq!(ask(&state, start(0)), 1000 + 4 * 999_998 + 1);
}

/// Every number of the steps is met, so that none goes uncompared.
#[test]
fn every_answer_is_met() {
    let mut met = std::collections::BTreeSet::new();
    let mut rng = Rng::new(1);
    for _ in 0..2_000 {
        let state = any_state(&mut rng);
        let mut bytes = area::image(&state);
        if rng.chance(1, 20) {
            bytes[AREA - 1] = 1;
        }
        for _ in 0..20 {
            let mut step = in_32_bits(wild_step(&mut rng));
            if rng.chance(1, 2) {
                let habits = Habits::any(&mut rng);
                step = next_step(&mut rng, &state, &habits);
            }
            let mut after = bytes.clone();
            let mut event = EVENT;
            let length = if rng.chance(1, 50) { 31 } else { 32 };
            let answer = library_step(&mut after, &mut event[..length], in_32_bits(step));
            met.insert(if answer < 1000 {
                answer
            } else {
                1000 + (answer - 1000) % 4
            });
        }
    }
    let refusals = [2, 4, 5, 6, 7, 8, 11];
    let all = refusals.into_iter().chain(100..=107).chain(1000..=1002);
    assert!(met.iter().copied().eq(all), "{met:?}");
}
