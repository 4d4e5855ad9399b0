//! Step lists and runs: 'The steps' of document 01.

use super::any_register;
use crate::causality::Run;
use crate::header::Header;
use crate::network::{Item, Mode, State, Step};
use crate::random::Rng;
use crate::MAX_STATIONS;

/// How likely each kind of step is, as weights.
#[derive(Clone, Copy, Debug)]
pub struct Habits {
    /// enter
    pub enter: u64,
    /// send on a link that exists
    pub send: u64,
    /// recv from a link that holds an item
    pub recv: u64,
    /// recv from a link whose first item is a reset_req or reset_done
    pub recv_control: u64,
    /// start of a station that may
    pub start: u64,
    /// a step with any arguments, also of stations and links that do not exist
    pub wild: u64,
}

impl Habits {
    /// Receipts alone.
    pub const DRAIN: Habits = Habits {
        enter: 0,
        send: 0,
        recv: 1,
        recv_control: 0,
        start: 0,
        wild: 0,
    };

    /// Random habits.
    pub fn any(rng: &mut Rng) -> Habits {
        let w = |rng: &mut Rng| rng.pick(&[0, 1, 1, 3, 8]);
        match rng.below(6) {
            // Traffic with few resets.
            0 => Habits {
                enter: 6,
                send: 16,
                recv: 14,
                recv_control: 0,
                start: 0,
                wild: 1,
            },
            // Resets that run through quickly.
            1 => Habits {
                enter: 1,
                send: 1,
                recv: 1,
                recv_control: 12,
                start: 2,
                wild: 0,
            },
            // Many starts at once: resets follow each other.
            2 => Habits {
                enter: 1,
                send: 3,
                recv: 3,
                recv_control: 3,
                start: 8,
                wild: 0,
            },
            3 => Habits {
                recv: 8,
                wild: 1,
                ..Habits::DRAIN
            },
            _ => Habits {
                enter: w(rng),
                send: w(rng),
                recv: 1 + w(rng),
                recv_control: w(rng),
                start: rng.below(3),
                wild: rng.below(2),
            },
        }
    }
}

/// A step with any arguments, stations and peers up to 9, seldom far above.
pub fn wild_step(rng: &mut Rng) -> Step {
    let station = |rng: &mut Rng| match rng.below(12) {
        0 => rng.pick(&[8, 9, 255, 256, 65_536, usize::MAX]),
        _ => rng.index(MAX_STATIONS),
    };
    let (i, j, register) = (station(rng), station(rng), any_register(rng));
    match rng.below(4) {
        0 => Step::Enter {
            station: i,
            register,
        },
        1 => Step::Send {
            station: i,
            peer: j,
            register,
        },
        2 => Step::Recv {
            station: i,
            peer: j,
        },
        _ => Step::Start { station: i },
    }
}

/// Every step of the stations and peers from 0 to n, one more than there are;
/// the register numbers are 0.
pub fn every_step(n: usize) -> Vec<Step> {
    let register = 0;
    let pairs = (0..=n).flat_map(|station| (0..=n).map(move |peer| (station, peer)));
    let on_links = pairs.flat_map(|(station, peer)| {
        let send = Step::Send {
            station,
            peer,
            register,
        };
        [send, Step::Recv { station, peer }]
    });
    let alone = |station| [Step::Enter { station, register }, Step::Start { station }];
    on_links.chain((0..=n).flat_map(alone)).collect()
}

/// A next step for a state, by habits.
pub fn next_step(rng: &mut Rng, state: &State, habits: &Habits) -> Step {
    let Habits {
        enter,
        send,
        recv,
        recv_control,
        start,
        wild,
    } = *habits;
    let n = state.n();
    let mut draw = rng.below(enter + send + recv + recv_control + start + wild);
    let mut is = |weight: u64| {
        let hit = draw < weight;
        draw = draw.wrapping_sub(weight);
        hit
    };
    if is(enter) {
        return Step::Enter {
            station: rng.index(n),
            register: any_register(rng),
        };
    }
    let links: Vec<(usize, usize)> = (0..n)
        .flat_map(|i| state.header.neighbours(i).map(move |j| (i, j)))
        .collect();
    if is(send) && !links.is_empty() {
        let (i, j) = rng.pick(&links);
        return Step::Send {
            station: i,
            peer: j,
            register: any_register(rng),
        };
    }
    let control = is(recv_control);
    if (control || is(recv)) && !links.is_empty() {
        let first = |&(i, j): &(usize, usize)| state.links[i][j].front();
        let waiting: Vec<(usize, usize)> = links
            .iter()
            .copied()
            .filter(|link| match first(link) {
                None => false,
                Some(Item::Message(_)) => !control,
                Some(_) => true,
            })
            .collect();
        // With nothing to receive most often another step, and seldom from any
        // link, so that some are empty.
        if waiting.is_empty() && rng.chance(3, 4) {
            let (i, j) = rng.pick(&links);
            let register = any_register(rng);
            return match rng.below(3) {
                0 => Step::Enter {
                    station: i,
                    register,
                },
                1 if start > 0 => Step::Start { station: i },
                _ => Step::Send {
                    station: i,
                    peer: j,
                    register,
                },
            };
        }
        let from = if waiting.is_empty() || rng.chance(1, 20) {
            &links
        } else {
            &waiting
        };
        let (j, i) = rng.pick(from);
        return Step::Recv {
            station: i,
            peer: j,
        };
    }
    if is(start) {
        let able: Vec<usize> = (0..n)
            .filter(|&i| state.stations[i].mode == Mode::Normal)
            .collect();
        let station = if able.is_empty() || rng.chance(1, 10) {
            rng.index(n)
        } else {
            rng.pick(&able)
        };
        return Step::Start { station };
    }
    wild_step(rng)
}

/// Links, each as often as it is to be sent on and to be received from. Where
/// that is uneven, a message is overtaken by way of other stations, and a
/// station that seldom hears hears of many at once.
#[derive(Clone, Debug)]
pub struct Traffic {
    sends: Vec<(usize, usize)>,
    receipts: Vec<(usize, usize)>,
}

impl Traffic {
    /// Uneven traffic on the links of a header.
    pub fn any(rng: &mut Rng, header: &Header) -> Traffic {
        let links: Vec<(usize, usize)> = (0..header.n())
            .flat_map(|i| header.neighbours(i).map(move |j| (i, j)))
            .collect();
        let mut uneven = || -> Vec<(usize, usize)> {
            let often = |&link| vec![link; rng.pick(&[1, 1, 40])];
            links.iter().flat_map(often).collect()
        };
        Traffic {
            sends: uneven(),
            receipts: uneven(),
        }
    }

    /// A next step for a state: mostly a send or a receipt, seldom an own entry
    /// and hardly ever a start.
    pub fn next_step(&self, rng: &mut Rng, state: &State) -> Step {
        let register = any_register(rng);
        let station = rng.index(state.n());
        let holds = |&&(i, j): &&(usize, usize)| !state.links[i][j].is_empty();
        let waiting: Vec<(usize, usize)> = self.receipts.iter().filter(holds).copied().collect();
        match rng.below(200) {
            0 => Step::Start { station },
            1..=9 => Step::Enter { station, register },
            10..=99 if !self.sends.is_empty() => {
                let (station, peer) = rng.pick(&self.sends);
                Step::Send {
                    station,
                    peer,
                    register,
                }
            }
            _ if !waiting.is_empty() => {
                let (peer, station) = rng.pick(&waiting);
                Step::Recv { station, peer }
            }
            _ => Step::Enter { station, register },
        }
    }
}

/// A run of some steps from a state, with habits that change now and then.
pub fn run_from(rng: &mut Rng, state: State, length: usize) -> Run {
    let mut run = Run::new(state);
    let mut habits = Habits::any(rng);
    for _ in 0..length {
        if rng.chance(1, 24) {
            habits = Habits::any(rng);
        }
        let step = next_step(rng, &run.last, &habits);
        // A refused step is part of the run.
        let _ = run.push(step);
    }
    run
}

/// A run from the initial state of a network.
pub fn run_of(rng: &mut Rng, header: &Header, length: usize) -> Run {
    let state = State::initial(header).expect("the header obeys the network rules");
    run_from(rng, state, length)
}

/// The receipts from links that hold an item, by station and then by peer.
pub fn receipts_waiting(state: &State) -> Vec<Step> {
    let pairs = (0..MAX_STATIONS).flat_map(|i| (0..MAX_STATIONS).map(move |j| (i, j)));
    let holds = |&(i, j): &(usize, usize)| !state.links[j][i].is_empty();
    let recv = |(station, peer)| Step::Recv { station, peer };
    pairs.filter(holds).map(recv).collect()
}

/// Receipts alone, in random order, until every link is empty; answers how
/// many there were. Gives up after `most`.
pub fn drain(rng: &mut Rng, run: &mut Run, most: usize) -> Option<usize> {
    for receipts in 0..=most {
        if run.last.links_empty() {
            return Some(receipts);
        }
        let step = rng.pick(&receipts_waiting(&run.last));
        let _ = run.push(step);
    }
    None
}
