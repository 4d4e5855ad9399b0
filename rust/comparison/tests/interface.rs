//! The types of the Rust interface against the independent implementation.

use comparison::{cases, in_32_bits};
use melontime::{
    archive_bytes, Archive, EntriesBlock, Header, InMode, Kind, Mode, Network, NetworkMut, Outcome,
    Reached, Receipt, Record, Refusal, StepRefusal, Verdict, WellKept, AREA,
};
use reference::at_bounds::by_hand;
use reference::generate::{
    any_archive, any_network, any_ranged_header, any_state, mutated_archive, mutated_kept_archive,
    network, next_step, receipts_waiting, rule_breaker, state_with_news, well_kept_parts, Habits,
    NetworkWish, RuleBreak,
};
use reference::network::{Answer, State, Step};
use reference::random::Rng;
use reference::{area, between_phases};

fn header_of(header: &reference::header::Header) -> Header {
    Header {
        n: header.stations.into(),
        t: header.ceiling,
        allowances: header.allowances,
        limits: header.limits,
    }
}

fn refusal_of(refusal: reference::refusal::Refusal) -> Refusal {
    Refusal::from_number(u64::from(refusal.number())).expect("a refusal's number")
}

fn record_of(record: reference::record::Record) -> Record {
    Record::from_bytes(&record.to_bytes()).expect("a record")
}

fn mode_of(mode: reference::network::Mode) -> Mode {
    match mode {
        reference::network::Mode::Normal => Mode::Normal,
        reference::network::Mode::Mute => Mode::Mute,
        reference::network::Mode::StandBy => Mode::StandBy,
    }
}

/// What a step comes to: an own entry or a send to a record alone.
#[derive(Debug, PartialEq)]
enum Taken {
    Entry(Record),
    Outcome(Outcome),
}

fn taken_of(answer: Answer) -> Taken {
    match answer {
        Answer::Entry { record, news: None } => Taken::Entry(record_of(record)),
        Answer::Entry {
            record,
            news: Some(news),
        } => {
            let record = record_of(record);
            Taken::Outcome(Outcome::Entry(Receipt { record, news }))
        }
        Answer::Mode { mode, phase } => {
            let mode = mode_of(mode);
            Taken::Outcome(Outcome::Control(InMode { mode, phase }))
        }
    }
}

fn verdict_of(verdict: reference::order::Verdict) -> Verdict {
    match verdict {
        reference::order::Verdict::Before => Verdict::Before,
        reference::order::Verdict::After => Verdict::After,
        reference::order::Verdict::Same => Verdict::Same,
        reference::order::Verdict::Unordered => Verdict::Unordered,
    }
}

/// A step of a network of any type that has the four.
macro_rules! taken {
    ($network:expr, $step:expr) => {
        match $step {
            Step::Enter { station, register } => {
                $network.enter(station as u32, register).map(Taken::Entry)
            }
            Step::Send {
                station,
                peer,
                register,
            } => $network
                .send(station as u32, peer as u32, register)
                .map(Taken::Entry),
            Step::Recv { station, peer } => $network
                .recv(station as u32, peer as u32)
                .map(Taken::Outcome),
            Step::Start { station } => {
                let after = $network.start(station as u32);
                after.map(Outcome::Control).map(Taken::Outcome)
            }
        }
    };
}

/// A step, whichever bytes the network stands in.
fn take(mut network: NetworkMut, step: Step) -> Result<Taken, Refusal> {
    taken!(network, step)
}

/// A step of a network that steps have reached from an initial one.
fn take_reached(reached: &mut Reached, step: Step) -> Result<Taken, StepRefusal> {
    taken!(reached, step)
}

/// The accepted records of a run of both.
fn run(rng: &mut Rng, header: &reference::header::Header) -> Vec<reference::record::Record> {
    let mut network = Network::setup(&header_of(header)).expect("a network");
    let mut area = vec![rng.next_u64() as u8; AREA];
    let mut lent = NetworkMut::setup_in(&header_of(header), &mut area).expect("a network");
    let mut reached = Reached::setup(&header_of(header)).expect("a network");
    let mut state = State::initial(header).expect("a network");
    let mut records = Vec::new();
    let mut habits = Habits::any(rng);
    for _ in 0..400 {
        if rng.chance(1, 24) {
            habits = Habits::any(rng);
        }
        let step = in_32_bits(next_step(rng, &state, &habits));
        let answer = state.step(step);
        let expected = answer.map(taken_of).map_err(refusal_of);
        assert_eq!(take(network.lend(), step), expected, "{step:?}");
        assert_eq!(take(lent.lend(), step), expected, "{step:?}");
        let taken = take_reached(&mut reached, step).map_err(Refusal::from);
        assert_eq!(taken, expected, "{step:?}");
        assert_eq!(Ok(network.is_quiescent()), state.rest());
        assert_eq!(Ok(lent.is_quiescent()), state.rest());
        let receipts = state.receipts_to_rest().expect("a reached state");
        assert_eq!(network.receipts_to_rest(), receipts);
        assert_eq!(lent.receipts_to_rest(), receipts);
        assert_eq!(reached.receipts_to_rest(), receipts);
        if let Ok(Answer::Entry { record, .. }) = answer {
            records.push(record);
        }
    }
    assert_eq!(network.header(), header_of(header));
    assert_eq!(lent.header(), header_of(header));
    assert!(network.as_bytes() == lent.as_bytes());
    assert!(*reached.network() == network && reached.into_network() == network);
    let stored = Network::from_bytes(network.as_bytes()).expect("an image");
    assert!(stored == network);
    records
}

/// Receipts alone in random order, also some that are refused, until none is
/// left; both are at rest then.
fn lay_up(rng: &mut Rng, reached: &mut Reached, mut state: State) {
    let mut laid_up = reached.receipts_only();
    while laid_up.left() > 0 {
        assert!(!laid_up.is_at_rest());
        let waiting = receipts_waiting(&state);
        let (station, peer) = match rng.pick(&waiting) {
            Step::Recv { station, peer } if rng.chance(7, 8) => (station, peer),
            _ => (rng.index(9), rng.index(9)),
        };
        let left = laid_up.left();
        let expected = state.step(Step::Recv { station, peer });
        let taken = laid_up.recv(station as u32, peer as u32);
        let accepted = u64::from(taken.is_ok());
        assert_eq!(laid_up.left() + accepted, left);
        let taken = taken.map(Taken::Outcome).map_err(Refusal::from);
        assert_eq!(taken, expected.map(taken_of).map_err(refusal_of));
    }
    assert!(laid_up.is_at_rest() && receipts_waiting(&state).is_empty());
    assert!(reached.network().as_bytes() == area::image(&state));
}

/// The accepted steps of a run, and after some of them a copy that is laid up.
#[test]
fn networks_that_are_laid_up() {
    cases("networks_that_are_laid_up", 60, |rng| {
        let header = any_network(rng);
        let mut reached = Reached::setup(&header_of(&header)).expect("a network");
        let mut state = State::initial(&header).expect("a network");
        for _ in 0..200 {
            let habits = Habits::any(rng);
            let step = in_32_bits(next_step(rng, &state, &habits));
            let accepted = state.step(step).is_ok();
            assert_eq!(take_reached(&mut reached, step).is_ok(), accepted);
            if rng.chance(1, 60) {
                lay_up(rng, &mut reached.clone(), state.clone());
            }
        }
        lay_up(rng, &mut reached, state);
    });
}

/// A message that is made to raise a number of counts has that news, each from
/// 0 to 7.
#[test]
fn news_of_receipts() {
    cases("news_of_receipts", 60, |rng| {
        let wish = NetworkWish {
            fewest: 8,
            ..NetworkWish::default()
        };
        let header = network(rng, wish);
        let station = rng.index(8);
        let neighbours: Vec<usize> = header.neighbours(station).collect();
        for news in 0..8 {
            let peer = rng.pick(&neighbours);
            let mut state = state_with_news(rng, &header, station, peer, news.into());
            let mut area = area::image(&state);
            let step = Step::Recv { station, peer };
            let expected = state.step(step).map(taken_of).map_err(refusal_of);
            let lent = NetworkMut::open(&mut area).expect("an image");
            let taken = take(lent, step);
            assert_eq!(taken, expected);
            let Ok(Taken::Outcome(Outcome::Entry(receipt))) = taken else {
                panic!("{taken:?} is no receipt of a message");
            };
            assert_eq!(
                (receipt.news, receipt.record.kind()),
                (news, Kind::Received)
            );
        }
    });
}

/// Bytes as a network, of its own and in lent bytes, by both.
fn compare_bytes(bytes: &[u8]) {
    let rest = area::rest(bytes);
    let expected = rest.and_then(|rest| Ok((rest, area::receipts_to_rest(bytes)?)));
    let expected = expected.map_err(refusal_of);
    let owned: Result<Network, Refusal> = bytes.try_into();
    let told = |network: &mut NetworkMut| (network.is_quiescent(), network.receipts_to_rest());
    assert_eq!(owned.map(|mut network| told(&mut network.lend())), expected);
    let mut area = bytes.to_vec();
    let lent: Result<NetworkMut, Refusal> = area.as_mut_slice().try_into();
    assert_eq!(lent.map(|mut network| told(&mut network)), expected);
    assert!(area == bytes);
}

#[test]
fn bytes_of_networks() {
    cases("bytes_of_networks", 500, |rng| {
        let state = any_state(rng);
        let mut bytes = area::image(&state);
        compare_bytes(&bytes);
        let network = Network::from_bytes(&bytes).expect("an image");
        assert_eq!(network.header(), header_of(&state.header));
        compare_bytes(&bytes[..rng.index(AREA)]);
        bytes[rng.index(area::LINKS_AT)] ^= rng.range(1, 255) as u8;
        compare_bytes(&bytes);
        bytes.push(0);
        compare_bytes(&bytes);
    });
}

/// Setup in lent bytes tries their length first, then the fields, then the
/// rules; where it is refused they are left.
#[test]
fn setups_in_lent_bytes() {
    cases("setups_in_lent_bytes", 500, |rng| {
        let right = any_network(rng);
        let way = rng.pick(&RuleBreak::ALL);
        let rule = rule_breaker(rng, way);
        let mut field = any_ranged_header(rng);
        field.stations = rng.pick(&[0, 9, 255]);
        for header in [right, rule, field] {
            for length in [AREA, 0, 512, AREA - 1, AREA + 1] {
                let mut theirs = vec![9; length];
                let expected = area::setup(&header.to_block_untested(), &mut theirs);
                let mut ours = vec![9; length];
                let made = NetworkMut::setup_in(&header_of(&header), &mut ours).map(|_| ());
                assert_eq!(made, expected.map_err(refusal_of), "{length} bytes");
                assert!(ours == theirs);
            }
        }
    });
}

/// A number that a network or a header lacks is refused, however great.
#[test]
fn stations_that_are_not_there() {
    let header = Header::new(2, 7).link(0, 1, 2).expect("stations");
    let mut network = Network::setup(&header).expect("a network");
    for far in [2, 7, 8, 255, 256, 257, 1 << 16, 1 << 31, u32::MAX] {
        assert_eq!(network.enter(far, 1), Err(Refusal::NoSuchStation));
        assert_eq!(network.start(far), Err(Refusal::NoSuchStation));
        for (station, peer) in [(far, 0), (0, far), (far, far)] {
            assert_eq!(network.send(station, peer, 1), Err(Refusal::NoSuchStation));
            assert_eq!(network.recv(station, peer), Err(Refusal::NoSuchStation));
        }
        if far > 7 {
            assert_eq!(header.allow(far, 1), Err(Refusal::NoSuchStation));
            assert_eq!(header.link(far, 0, 1), Err(Refusal::NoSuchStation));
            assert_eq!(header.link(0, far, 1), Err(Refusal::NoSuchStation));
            let n = far.saturating_add(1);
            let many = Header { n, ..header };
            assert_eq!(many.to_block(), Err(Refusal::Malformed));
        } else {
            let beyond = header.link(0, far, 1).expect("places");
            assert_eq!(Network::setup(&beyond).unwrap_err(), Refusal::NetworkRule);
        }
    }
    assert!(network == Network::setup(&header).expect("a network"));
}

#[test]
fn numbers_of_refusals() {
    for refusal in reference::refusal::Refusal::ALL {
        assert_eq!(refusal_of(refusal).number(), refusal.number());
    }
    for none in [0, 9, 14, 255, 256, 257, 265, u64::MAX] {
        assert_eq!(Refusal::from_number(none), None);
    }
}

/// The five refusals of steps have the numbers and the text of all.
#[test]
fn numbers_of_step_refusals() {
    for number in 0..300 {
        let Some(refusal) = StepRefusal::from_number(number) else {
            assert!(!(4..=8).contains(&number));
            continue;
        };
        assert!((4..=8).contains(&number) && u64::from(refusal.number()) == number);
        assert_eq!(Some(Refusal::from(refusal)), Refusal::from_number(number));
        assert_eq!(refusal.to_string(), Refusal::from(refusal).to_string());
    }
}

/// Setup of a network that is to be stepped alone refuses as any setup.
#[test]
fn setups_of_reached_networks() {
    cases("setups_of_reached_networks", 300, |rng| {
        let way = rng.pick(&RuleBreak::ALL);
        for header in [
            any_network(rng),
            rule_breaker(rng, way),
            any_ranged_header(rng),
        ] {
            let expected = Network::setup(&header_of(&header));
            let made = Reached::setup(&header_of(&header)).map(Reached::into_network);
            assert!(made == expected);
            let made = Reached::setup_block(&header.to_block_untested());
            assert!(made.map(Reached::into_network) == expected);
        }
    });
}

/// On bytes that no initial network reaches a step that would leave a bound is
/// refused as bytes that are no network, and leaves them.
#[test]
fn networks_at_the_bounds() {
    for case in by_hand() {
        let bytes = area::image(&case.state);
        let mut network = Network::from_bytes(&bytes).expect("an image");
        let taken = take(network.lend(), case.step);
        assert_eq!(taken.is_ok(), case.number == 0, "{}", case.what);
        assert_eq!(network.as_bytes() != bytes, taken.is_ok(), "{}", case.what);
        if let Err(refusal) = taken {
            assert_eq!(refusal.number(), case.number, "{}", case.what);
        }
    }
}

/// Verdicts by record numbers by both: of an archive for any phases, and of two
/// found records for one phase.
fn compare_order(archive: Archive, i: u64, j: u64) {
    let (bytes, a, b) = (archive.as_bytes(), i as usize, j as usize);
    let expected = between_phases::verdict(bytes, a, b);
    let expected = expected.map(verdict_of).map_err(refusal_of);
    assert_eq!(archive.verdict(i, j), expected, "records {i} and {j}");
    if let Ok(kept) = archive.well_kept() {
        assert_eq!(kept.verdict(i, j), expected.ok(), "records {i} and {j}");
    }
    let expected = reference::archive::verdict_by_number(bytes, a, b);
    let found = archive.found(i).and_then(|first| {
        let second = archive.found(j)?;
        first.verdict(&second)
    });
    assert_eq!(found, expected.map(verdict_of).map_err(refusal_of));
}

/// Whether bytes are an archive and whether it is well kept, by both.
fn compare_keeping(bytes: &[u8]) -> Option<Archive<'_>> {
    let expected = reference::archive::Archive::open(bytes).and_then(|archive| {
        let records = (0..archive.count()).map(|number| archive.record(number));
        between_phases::WellKept::of(records.collect::<Result<_, _>>()?)?;
        Ok(archive.count() as u64)
    });
    let kept = WellKept::try_from(bytes).map(|kept| kept.archive().len());
    assert_eq!(kept, expected.map_err(refusal_of));
    let opened = Archive::try_from(bytes);
    let count = reference::archive::record_count(bytes).map_err(refusal_of);
    assert_eq!(opened.map(|archive| archive.len()), count.map(|n| n as u64));
    opened.ok()
}

#[test]
fn orders_by_number() {
    cases("orders_by_number", 400, |rng| {
        let bytes = match rng.below(5) {
            0 => mutated_archive(rng, 60),
            1 => mutated_kept_archive(rng, 5, 4),
            2 | 3 => {
                let (header, records) = well_kept_parts(rng, 6, 4);
                reference::archive::build(&header, &records).expect("an archive")
            }
            _ => any_archive(rng, 60),
        };
        let Some(archive) = compare_keeping(&bytes) else {
            return;
        };
        let last = archive.len();
        for (i, j) in [(0, 0), (0, last), (last, 0), (last, u64::MAX), (1 << 32, 0)] {
            compare_order(archive, i, j);
        }
        for _ in 0..20 {
            let (i, j) = (rng.below(last + 1), rng.below(last + 1));
            compare_order(archive, i, j);
        }
    });
}

#[test]
fn networks_and_archives() {
    cases("networks_and_archives", 150, |rng| {
        let header = any_network(rng);
        let expected = run(rng, &header);
        let records: Vec<Record> = expected
            .iter()
            .map(|record| Record::from_bytes(&record.to_bytes()).expect("a record"))
            .collect();
        for (ours, theirs) in records.iter().zip(&expected) {
            let kind = match theirs.kind {
                reference::record::Kind::Own => Kind::Own,
                reference::record::Kind::Sent => Kind::Sent,
                reference::record::Kind::Received => Kind::Received,
            };
            assert_eq!(ours.kind(), kind);
            assert_eq!(ours.station(), u32::from(theirs.station));
            let peer = (kind != Kind::Own).then_some(u32::from(theirs.peer));
            assert_eq!(ours.peer(), peer);
            assert_eq!(ours.phase(), theirs.phase);
            assert_eq!(ours.register(), theirs.register);
            assert_eq!(ours.counts(), theirs.counts);
        }

        let bytes = archive_bytes(&header_of(&header), &records).expect("an archive");
        assert_eq!(
            Ok(&bytes),
            reference::archive::build(&header, &expected).as_ref()
        );
        let archive = Archive::open(&bytes).expect("an archive");
        assert_eq!(archive.header(), header_of(&header));
        assert_eq!(archive.len(), records.len() as u64);
        assert_eq!(archive.records().len(), records.len());
        assert!(archive.into_iter().eq(records.iter().copied()));
        assert!(archive.records().rev().eq(records.iter().rev().copied()));
        let (skipped, step) = (rng.index(20), 1 + rng.index(20));
        let some = archive.records().skip(skipped).step_by(step);
        assert!(some.eq(records.iter().skip(skipped).step_by(step).copied()));
        for (block, part) in bytes[512..].chunks(512).zip(records.chunks(15)) {
            let block = EntriesBlock::try_from(block).expect("a block");
            assert_eq!(block.count(), part.len());
            assert_eq!(block.record(0), Ok(part[0]));
        }
        for _ in 0..10 {
            let number = rng.below(archive.len() + 2);
            compare_order(archive, number, rng.below(archive.len() + 2));
            let found = archive.found(number);
            let list = archive.unordered(number);
            let Some(&record) = records.get(number as usize) else {
                assert_eq!(found, Err(Refusal::NoSuchRecord));
                assert_eq!(list, Err(Refusal::NoSuchRecord));
                continue;
            };
            assert_eq!(found, Ok(record));
            let unordered = |other: &Record| record.verdict(other) == Ok(Verdict::Unordered);
            let mut right: Vec<u64> = (0..)
                .zip(&records)
                .filter(|(_, other)| unordered(other))
                .map(|(number, _)| number)
                .collect();
            right.sort_by_key(|&number| {
                let record = &expected[number as usize];
                (record.station, record.own_count(), number)
            });
            assert_eq!(list, Ok(right));
        }
    });
}
