//! Demand 3 on random runs: 'Plain network and recorded order' of document 01.

use reference::archive::Archive;
use reference::causality::{
    accepted_entries, check_demand3, happened_before, matching_sends, PlainNetwork, Run,
};
use reference::generate::{self, NetworkWish, Shape};
use reference::header::Header;
use reference::network::steps::{self, recv, start};
use reference::network::{Answer, Item, Message, Mode, State, Step};
use reference::order::Verdict;
use reference::random::Rng;
use reference::refusal::Refusal;
use reference::{archive, LAST_PHASE};

fn enter(station: usize) -> Step {
    steps::enter(station, 0)
}
fn send(station: usize, peer: usize) -> Step {
    steps::send(station, peer, 0)
}

#[test]
fn plain_network() {
    let mut plain = PlainNetwork::new();
    assert_eq!(plain.recv(1, 0), None);
    assert_eq!(plain.enter(0)[..2], [1, 0]);
    assert_eq!(plain.send(0, 1, 9)[..2], [2, 0]);
    assert_eq!(plain.enter(1)[..2], [0, 1]);
    assert_eq!(plain.queue(0, 1).len(), 1);
    let receipt = plain.recv(1, 0).unwrap();
    assert_eq!(receipt.counts[..2], [2, 2]);
    assert_eq!((receipt.message.register, receipt.news), (9, 1));
    assert_eq!(plain.recv(1, 0), None);
    assert_eq!(plain.counts(1), receipt.counts);
    assert_eq!(plain.counts(5), [0; 8]);
}

#[test]
fn happened_before_by_hand() {
    // 0: send to 1, enter; 1: send to 0, receipt, send to 2; 2: receipt, enter.
    let steps = [
        send(0, 1),
        enter(0),
        send(1, 0),
        recv(1, 0),
        send(1, 2),
        recv(2, 1),
        enter(2),
    ];
    assert_eq!(
        matching_sends(&steps),
        [None, None, None, Some(0), None, Some(4), None]
    );
    let before = happened_before(&steps);
    let pairs: Vec<(usize, usize)> = (0..7)
        .flat_map(|a| (0..7).map(move |b| (a, b)))
        .filter(|&(a, b)| before.precedes(a, b))
        .collect();
    let want = [
        (0, 1),
        (0, 3),
        (0, 4),
        (0, 5),
        (0, 6),
        (2, 3),
        (2, 4),
        (2, 5),
        (2, 6),
        (3, 4),
        (3, 5),
        (3, 6),
        (4, 5),
        (4, 6),
        (5, 6),
    ];
    assert_eq!(pairs, want);
}

/// The closure is that of the definition, also where it is done the slow way.
#[test]
fn closure() {
    let mut rng = Rng::new(30);
    for _ in 0..200 {
        let header = generate::any_network(&mut rng);
        let run = generate::run_of(&mut rng, &header, 90);
        let entries = accepted_entries(&run.steps, &run.outcomes);
        let steps: Vec<Step> = entries.iter().map(|e| e.step).collect();
        let before = happened_before(&steps);
        let sends = matching_sends(&steps);
        // Backward search from each entry over its direct causes.
        for b in 0..steps.len() {
            let mut causes = vec![false; steps.len()];
            let mut open = vec![b];
            while let Some(at) = open.pop() {
                let station = steps[..at]
                    .iter()
                    .rposition(|s| s.station() == steps[at].station());
                for cause in [station, sends[at]].into_iter().flatten() {
                    if !causes[cause] {
                        causes[cause] = true;
                        open.push(cause);
                    }
                }
            }
            for (a, &cause) in causes.iter().enumerate() {
                assert_eq!(before.precedes(a, b), cause);
            }
        }
    }
}

/// Many runs of every shape, with tight and loose ceilings.
#[test]
fn random_runs() {
    let (mut entries, mut phases, mut receipts) = (0, 0, 0);
    let (mut unordered, mut reordered) = (0, 0);
    for seed in 3000..6000 {
        let mut rng = Rng::new(seed);
        let wish = NetworkWish {
            shape: Some(Shape::ALL[seed as usize % 6]),
            symmetric: rng.chance(1, 2),
            small: rng.chance(1, 3),
            most: if rng.chance(2, 3) { 4 } else { 8 },
            ..NetworkWish::default()
        };
        let header = generate::network(&mut rng, wish);
        let length = 50 + rng.index(350);
        let mut run = generate::run_of(&mut rng, &header, length);
        if rng.chance(1, 3) {
            generate::drain(&mut rng, &mut run, 10_000).unwrap();
        }
        if let Err(fault) = run.check_demand3() {
            panic!("seed {seed}: {fault}\n{header:?}\n{:?}", run.steps);
        }
        let records = run.records();
        entries += records.len();
        phases += run
            .last
            .stations
            .iter()
            .map(|s| s.phase as usize)
            .max()
            .unwrap();
        receipts += run.taken.iter().flatten().count();
        // The archive's verdicts are those of happened-before.
        if seed % 10 == 0 {
            let bytes = archive::build(&header, &records).unwrap();
            let opened = Archive::open(&bytes).unwrap();
            let list = accepted_entries(&run.steps, &run.outcomes);
            let steps: Vec<Step> = list.iter().map(|e| e.step).collect();
            let before = happened_before(&steps);
            for a in 0..records.len() {
                let is_listed = |b: &usize| {
                    a != *b
                        && records[a].phase == records[*b].phase
                        && !before.precedes(a, *b)
                        && !before.precedes(*b, a)
                };
                let numbers: Vec<usize> = (0..records.len()).filter(is_listed).collect();
                // Along a run a station's own counts rise.
                let mut want = Vec::new();
                for i in 0..header.n() {
                    want.extend(numbers.iter().filter(|&&b| steps[b].station() == i));
                }
                assert_eq!(opened.unordered(a).unwrap(), want, "seed {seed}");
                unordered += want.len();
                reordered += usize::from(want != numbers);
            }
        }
    }
    println!(
        "seeds 3000 to 5999: {entries} entries, {receipts} receipts, {phases} phases, \
         {unordered} unordered, {reordered} lists not by number"
    );
    assert!(entries > 100_000 && receipts > 20_000 && phases > 10_000);
    assert!(unordered > 50_000 && reordered > 1_000);
}

/// Two archives of one run, whatever the order of their records, list the same
/// records in the same order.
#[test]
fn lists_do_not_hang_on_record_numbers() {
    let seed = 33;
    println!("seed {seed}");
    let mut rng = Rng::new(seed);
    let mut long = 0;
    for _ in 0..200 {
        let header = generate::any_network(&mut rng);
        let kept = generate::run_of(&mut rng, &header, 200).records();
        let mut numbers: Vec<usize> = (0..kept.len()).collect();
        rng.shuffle(&mut numbers);
        let mixed: Vec<_> = numbers.iter().map(|&k| kept[k]).collect();
        let [kept_bytes, mixed_bytes] =
            [&kept, &mixed].map(|records| archive::build(&header, records).unwrap());
        let (kept, mixed) = (
            Archive::open(&kept_bytes).unwrap(),
            Archive::open(&mixed_bytes).unwrap(),
        );
        for (r, &k) in numbers.iter().enumerate() {
            let list = mixed.unordered(r).unwrap();
            let list: Vec<usize> = list.into_iter().map(|r| numbers[r]).collect();
            assert_eq!(list, kept.unordered(k).unwrap());
            long += usize::from(list.len() > 5);
        }
    }
    assert!(long > 1_000, "{long}");
}

/// Other news than these, or none.
fn other_news(rng: &mut Rng, news: Option<u8>) -> Option<u8> {
    let other = rng.below(8) as u8;
    (news != Some(other)).then_some(other)
}

/// The checker is no rubber stamp: a changed answer is found.
#[test]
fn changed_answers_are_found() {
    let seed = 31;
    println!("seed {seed}");
    let mut rng = Rng::new(seed);
    let mut changed = 0;
    while changed < 600 {
        let wish = NetworkWish {
            fewest: 2,
            most: 4,
            ..NetworkWish::default()
        };
        let header = generate::network(&mut rng, wish);
        let run = generate::run_of(&mut rng, &header, 120);
        let list = accepted_entries(&run.steps, &run.outcomes);
        if list.is_empty() {
            continue;
        }
        let entry = list[rng.index(list.len())];
        let mut outcomes = run.outcomes.clone();
        let (mut record, mut news) = (entry.record, entry.news);
        match rng.below(5) {
            0 => record.counts[rng.index(header.n())] += 1,
            1 => record.register = record.register.wrapping_add(1),
            2 => record.phase = (record.phase + 1) % LAST_PHASE,
            3 => record.station = (record.station + 1) % 8,
            _ => news = other_news(&mut rng, news),
        }
        outcomes[entry.at] = Ok(Answer::Entry { record, news });
        // Another phase for the last entry of a station may be right by itself.
        let alone = record.phase != entry.record.phase
            && list
                .iter()
                .filter(|e| e.record.phase == entry.record.phase)
                .count()
                < 3;
        if alone || (record.phase != entry.record.phase && record.counts.iter().sum::<u16>() == 1) {
            continue;
        }
        changed += 1;
        assert!(
            check_demand3(&run.steps, &outcomes).is_err(),
            "{entry:?} {record:?} {news:?}"
        );
        // A refused send whose message is received is found too.
        if let (Step::Send { .. }, Some(_)) = (
            entry.step,
            matching_sends(&list.iter().map(|e| e.step).collect::<Vec<_>>())
                .iter()
                .flatten()
                .find(|&&k| list[k].at == entry.at),
        ) {
            outcomes[entry.at] = Err(Refusal::UsedUp);
            assert!(check_demand3(&run.steps, &outcomes).is_err());
        }
    }
    assert!(check_demand3(&[enter(0)], &[]).is_err());
}

/// The network rules and the reset rules matter: from states that no fresh
/// network reaches, demand 3 fails.
#[test]
fn other_first_states_break_it() {
    let mut header = Header::new(2, 20);
    header.allowances[..2].fill(3);
    header.limits[0][1] = 3;
    header.limits[1][0] = 3;
    let fresh = State::initial(&header).unwrap();

    // A message that nobody sent.
    let mut state = fresh.clone();
    let message = Message {
        register: 1,
        counts: [5, 0, 0, 0, 0, 0, 0, 0],
    };
    state.link_mut(0, 1).push_back(Item::Message(message));
    assert!(Run::of(state, &[enter(1), recv(1, 0)])
        .check_demand3()
        .is_err());

    // Stations in different phases: the message is late.
    let mut state = fresh.clone();
    state.station_mut(0).phase = 1;
    assert!(Run::of(state, &[send(0, 1), recv(1, 0)])
        .check_demand3()
        .is_err());

    // Counts that are not zero at first.
    let mut state = fresh.clone();
    state.station_mut(0).counts[0] = 4;
    assert!(Run::of(state, &[enter(0)]).check_demand3().is_err());

    // A reset without the neighbour's req: the receiver leaves the phase first.
    let mut state = fresh.clone();
    state.station_mut(1).req_seen[0] = true;
    let run = Run::of(state, &[send(0, 1), start(1)]);
    assert_eq!(run.last.station(1).mode, Mode::StandBy);
    assert!(run.check_demand3().unwrap_err().contains("left the phase"));

    assert!(Run::of(fresh, &[send(0, 1), start(1), recv(1, 0)])
        .check_demand3()
        .is_ok());
}

/// Entries of one phase are same only when they are one, over whole archives.
#[test]
fn no_two_entries_are_same() {
    let mut rng = Rng::new(32);
    for _ in 0..100 {
        let header = generate::any_network(&mut rng);
        let records = generate::run_of(&mut rng, &header, 150).records();
        let bytes = archive::build(&header, &records).unwrap();
        for _ in 0..20.min(records.len()) {
            let (a, b) = (rng.index(records.len()), rng.index(records.len()));
            let same = archive::verdict_by_number(&bytes, a, b) == Ok(Verdict::Same);
            assert_eq!(same, a == b);
        }
    }
}
