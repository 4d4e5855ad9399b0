//! The plain network, happened-before and demand 3: 'Plain network and
//! recorded order' in document 01; the news of a receipt, CR 7 in document 02.

use std::collections::{HashMap, VecDeque};

use crate::network::{Answer, Item, Message, Outcome, State, Step};
use crate::order::{compare, less, Verdict};
use crate::record::{Kind, Record, NO_PEER};
use crate::MAX_STATIONS;

/// Eight counts without a ceiling.
pub type PlainCounts = [u64; MAX_STATIONS];

/// A message of the plain network.
#[derive(Clone, Copy, Debug, PartialEq, Eq)]
pub struct PlainMessage {
    /// The register number.
    pub register: u32,
    /// The timestamp of its send.
    pub counts: PlainCounts,
}

/// What a receipt of the plain network comes to.
#[derive(Clone, Copy, Debug, PartialEq, Eq)]
pub struct PlainReceipt {
    /// The station's counts after.
    pub counts: PlainCounts,
    /// The message that it took.
    pub message: PlainMessage,
    /// How many of the other stations' counts grew.
    pub news: u8,
}

/// The plain network: eight counts for each station and an unbounded queue of
/// messages for each link; no modes, limits or resets.
#[derive(Clone, Debug, Default)]
pub struct PlainNetwork {
    counts: HashMap<usize, PlainCounts>,
    queues: HashMap<(usize, usize), VecDeque<PlainMessage>>,
}

impl PlainNetwork {
    /// Counts zero and queues empty.
    pub fn new() -> PlainNetwork {
        PlainNetwork::default()
    }

    /// A station's counts.
    pub fn counts(&self, i: usize) -> PlainCounts {
        self.counts.get(&i).copied().unwrap_or_default()
    }

    /// The queue of the link from i to j.
    pub fn queue(&self, i: usize, j: usize) -> Vec<PlainMessage> {
        self.queues
            .get(&(i, j))
            .map(|q| q.iter().copied().collect())
            .unwrap_or_default()
    }

    fn counts_mut(&mut self, i: usize) -> &mut PlainCounts {
        self.counts.entry(i).or_default()
    }

    /// enter i: own count +1; the timestamp after.
    pub fn enter(&mut self, i: usize) -> PlainCounts {
        let counts = self.counts_mut(i);
        counts[i] += 1;
        *counts
    }

    /// send i j reg: own count +1, and the message goes to the queue.
    pub fn send(&mut self, i: usize, j: usize, register: u32) -> PlainCounts {
        let counts = self.enter(i);
        self.queues
            .entry((i, j))
            .or_default()
            .push_back(PlainMessage { register, counts });
        counts
    }

    /// recv i j: each other count to the greater, own count +1. No result from
    /// an empty queue.
    pub fn recv(&mut self, i: usize, j: usize) -> Option<PlainReceipt> {
        let message = self.queues.get_mut(&(j, i))?.pop_front()?;
        let counts = self.counts_mut(i);
        let mut news = 0;
        for (k, count) in counts.iter_mut().enumerate() {
            if k == i {
                *count += 1;
            } else if message.counts[k] > *count {
                *count = message.counts[k];
                news += 1;
            }
        }
        Some(PlainReceipt {
            counts: *counts,
            message,
            news,
        })
    }
}

/// An accepted entry of a step list.
#[derive(Clone, Copy, Debug, PartialEq, Eq)]
pub struct Entry {
    /// Its place in the step list, from 0.
    pub at: usize,
    /// The step.
    pub step: Step,
    /// The record that it answered.
    pub record: Record,
    /// The news that it answered behind the record.
    pub news: Option<u8>,
}

/// The accepted entries of a step list, in list order.
pub fn accepted_entries(steps: &[Step], outcomes: &[Outcome]) -> Vec<Entry> {
    steps
        .iter()
        .zip(outcomes)
        .enumerate()
        .filter_map(|(at, (&step, outcome))| match outcome {
            Ok(Answer::Entry { record, news }) => Some(Entry {
                at,
                step,
                record: *record,
                news: *news,
            }),
            _ => None,
        })
        .collect()
}

/// A relation on the numbers below a length, as a table of bits.
#[derive(Clone, Debug, PartialEq, Eq)]
pub struct Relation {
    rows: Vec<Vec<u64>>,
}

impl Relation {
    /// The empty relation on the numbers below `length`.
    pub fn empty(length: usize) -> Relation {
        Relation {
            rows: vec![vec![0; length.div_ceil(64)]; length],
        }
    }

    /// The numbers below this are related.
    pub fn len(&self) -> usize {
        self.rows.len()
    }

    /// Whether it is on no numbers.
    pub fn is_empty(&self) -> bool {
        self.rows.is_empty()
    }

    /// Adds a pair.
    pub fn add(&mut self, a: usize, b: usize) {
        self.rows[a][b / 64] |= 1 << (b % 64);
    }

    /// Whether a precedes b.
    pub fn precedes(&self, a: usize, b: usize) -> bool {
        self.rows[a][b / 64] >> (b % 64) & 1 == 1
    }

    /// Makes it the smallest transitive relation that holds it.
    pub fn close(&mut self) {
        for through in 0..self.len() {
            let row = self.rows[through].clone();
            for a in 0..self.len() {
                if self.precedes(a, through) {
                    for (word, more) in self.rows[a].iter_mut().zip(&row) {
                        *word |= more;
                    }
                }
            }
        }
    }
}

/// For each accepted entry that is a receipt, the place in the entries' list
/// of the send that goes with it: the k-th accepted send on a link goes with
/// the k-th recv from it that was answered with an entry. It looks at the
/// steps alone. `None` for other entries, and for a receipt without a send.
pub fn matching_sends(entries: &[Step]) -> Vec<Option<usize>> {
    let mut sends: HashMap<(usize, usize), Vec<usize>> = HashMap::new();
    for (at, step) in entries.iter().enumerate() {
        if let Step::Send { station, peer, .. } = *step {
            sends.entry((station, peer)).or_default().push(at);
        }
    }
    let mut taken: HashMap<(usize, usize), usize> = HashMap::new();
    entries
        .iter()
        .map(|step| match *step {
            Step::Recv { station, peer } => {
                let k = taken.entry((peer, station)).or_default();
                *k += 1;
                sends
                    .get(&(peer, station))
                    .and_then(|list| list.get(*k - 1))
                    .copied()
            }
            _ => None,
        })
        .collect()
}

/// Happened-before (the document's recorded order) of the accepted entries of
/// a step list, given as their steps in list order: the smallest transitive
/// relation in which a station's earlier entry precedes its later, and a send
/// precedes its message's receipt. It reads no timestamp.
pub fn happened_before(entries: &[Step]) -> Relation {
    let mut relation = Relation::empty(entries.len());
    for (b, later) in entries.iter().enumerate() {
        for (a, earlier) in entries[..b].iter().enumerate() {
            if earlier.station() == later.station() {
                relation.add(a, b);
            }
        }
    }
    for (receipt, send) in matching_sends(entries).into_iter().enumerate() {
        if let Some(send) = send {
            relation.add(send, receipt);
        }
    }
    relation.close();
    relation
}

/// A step list with what its steps came to.
#[derive(Clone, Debug)]
pub struct Run {
    /// The state before the first step.
    pub first: State,
    /// The steps.
    pub steps: Vec<Step>,
    /// What each came to.
    pub outcomes: Vec<Outcome>,
    /// For each step that was answered with the entry of a receipt, the
    /// message that it took.
    pub taken: Vec<Option<Message>>,
    /// The state after the last step.
    pub last: State,
}

impl Run {
    /// The run without steps.
    pub fn new(state: State) -> Run {
        Run {
            first: state.clone(),
            steps: Vec::new(),
            outcomes: Vec::new(),
            taken: Vec::new(),
            last: state,
        }
    }

    /// The run of a step list.
    pub fn of(state: State, steps: &[Step]) -> Run {
        let mut run = Run::new(state);
        for &step in steps {
            // A refused step is part of the run.
            let _ = run.push(step);
        }
        run
    }

    /// One step more.
    pub fn push(&mut self, step: Step) -> Outcome {
        let front = match step {
            Step::Recv { station, peer } if station < MAX_STATIONS && peer < MAX_STATIONS => {
                self.last.links[peer][station].front().copied()
            }
            _ => None,
        };
        let outcome = self.last.step(step);
        let taken = match (&outcome, front) {
            (Ok(Answer::Entry { .. }), Some(Item::Message(message))) => Some(message),
            _ => None,
        };
        self.steps.push(step);
        self.outcomes.push(outcome);
        self.taken.push(taken);
        outcome
    }

    /// The records of the accepted entries, in list order.
    pub fn records(&self) -> Vec<Record> {
        accepted_entries(&self.steps, &self.outcomes)
            .iter()
            .map(|e| e.record)
            .collect()
    }

    /// Demand 3 of this run, with what the state held: a station's phase after
    /// the list is that in the answer to its last accepted step, 0 where it has
    /// none; a message received has the timestamp and register number of the
    /// send that goes with its recv.
    pub fn check_demand3(&self) -> Result<(), String> {
        check_demand3(&self.steps, &self.outcomes)?;
        let phases = check_phases(&self.steps, &self.outcomes)?;
        for (i, station) in self.last.stations.iter().enumerate() {
            if station.phase != phases.get(&i).copied().unwrap_or(0) {
                return Err(format!(
                    "station {i}: its phase is not that of its last answer"
                ));
            }
        }
        let entries = accepted_entries(&self.steps, &self.outcomes);
        let steps: Vec<Step> = entries.iter().map(|e| e.step).collect();
        for (receipt, send) in matching_sends(&steps).into_iter().enumerate() {
            let Some(send) = send else { continue };
            let sent = &entries[send].record;
            let want = Message {
                register: sent.register,
                counts: sent.counts,
            };
            if self.taken[entries[receipt].at] != Some(want) {
                return Err(format!(
                    "step {}: the message taken is not that of its send",
                    entries[receipt].at
                ));
            }
        }
        Ok(())
    }
}

/// Demand 3 over a list of steps from an initial network and their outcomes.
///
/// The claim, as read from 'Plain network and recorded order', and beside it
/// that the news of a receipt is the plain network's:
///
/// 1. each accepted entry answers a record of the step's kind, station, peer
///    and register number, and news where it is a receipt;
/// 2. a station's phase never falls along its accepted steps;
/// 3. each receipt has a send that goes with it, earlier in the list, of the
///    same phase and with the same register number;
/// 4. once a station has left a phase, every message sent to it in that phase
///    has been received, in that phase;
/// 5. the plain network of each phase, fed that phase's entries, meets no
///    receipt from an empty queue, and gives each entry the same timestamp and
///    each receipt the same register number and news;
/// 6. of two different entries of one phase, the first precedes the second in
///    happened-before exactly when its timestamp is less; the verdict is same
///    for no two of them, and unordered exactly when neither precedes;
/// 7. no entry precedes one of a lower phase, nor itself.
pub fn check_demand3(steps: &[Step], outcomes: &[Outcome]) -> Result<(), String> {
    if steps.len() != outcomes.len() {
        return Err("as many outcomes as steps are wanted".into());
    }
    let entries = accepted_entries(steps, outcomes);
    check_records(&entries)?;
    let after = check_phases(steps, outcomes)?;
    check_messages(&entries, &after)?;
    check_plain(&entries)?;
    check_order(&entries)
}

/// Part 1.
fn check_records(entries: &[Entry]) -> Result<(), String> {
    for entry in entries {
        let Entry {
            at, step, record, ..
        } = entry;
        let (kind, station, peer, register) = match *step {
            Step::Enter { station, register } => {
                (Kind::Own, station, usize::from(NO_PEER), Some(register))
            }
            Step::Send {
                station,
                peer,
                register,
            } => (Kind::Sent, station, peer, Some(register)),
            Step::Recv { station, peer } => (Kind::Received, station, peer, None),
            Step::Start { .. } => return Err(format!("step {at}: a start answers no entry")),
        };
        let fits = record.kind == kind
            && usize::from(record.station) == station
            && usize::from(record.peer) == peer
            && register.is_none_or(|register| register == record.register)
            && entry.news.is_some() == (kind == Kind::Received)
            && record.is_well_made();
        if !fits {
            return Err(format!("step {at}: the record is not that of the step"));
        }
    }
    Ok(())
}

/// Part 2; answers each station's phase after the list: that in the answer to
/// its last accepted step, 0 where it has none.
fn check_phases(steps: &[Step], outcomes: &[Outcome]) -> Result<HashMap<usize, u32>, String> {
    let mut phases: HashMap<usize, u32> = HashMap::new();
    for (at, (step, outcome)) in steps.iter().zip(outcomes).enumerate() {
        if let Ok(answer) = outcome {
            let phase = phases.entry(step.station()).or_default();
            if answer.phase() < *phase {
                return Err(format!("step {at}: a station's phase falls"));
            }
            *phase = answer.phase();
        }
    }
    Ok(phases)
}

/// Parts 3 and 4.
fn check_messages(entries: &[Entry], after: &HashMap<usize, u32>) -> Result<(), String> {
    let steps: Vec<Step> = entries.iter().map(|e| e.step).collect();
    let mut received = vec![false; entries.len()];
    for (receipt, send) in matching_sends(&steps).into_iter().enumerate() {
        let Entry {
            at, step, record, ..
        } = &entries[receipt];
        if !matches!(step, Step::Recv { .. }) {
            continue;
        }
        let send = send.ok_or(format!("step {at}: a receipt without a send"))?;
        let sent = &entries[send];
        if sent.at >= *at {
            return Err(format!("step {at}: a receipt before its send"));
        }
        if sent.record.phase != record.phase {
            return Err(format!(
                "step {at}: a receipt in another phase than its send"
            ));
        }
        if sent.record.register != record.register {
            return Err(format!("step {at}: another register number than its send"));
        }
        received[send] = true;
    }
    for (entry, received) in entries.iter().zip(received) {
        if let Step::Send { peer, .. } = entry.step {
            let left = after.get(&peer).copied().unwrap_or(0) > entry.record.phase;
            if left && !received {
                return Err(format!(
                    "step {}: the receiver left the phase before the message came",
                    entry.at
                ));
            }
        }
    }
    Ok(())
}

/// Part 5.
fn check_plain(entries: &[Entry]) -> Result<(), String> {
    let mut networks: HashMap<u32, PlainNetwork> = HashMap::new();
    for Entry {
        at,
        step,
        record,
        news,
    } in entries
    {
        let network = networks.entry(record.phase).or_default();
        let counts = match *step {
            Step::Enter { station, .. } => network.enter(station),
            Step::Send {
                station,
                peer,
                register,
            } => network.send(station, peer, register),
            Step::Recv { station, peer } => {
                let plain = network
                    .recv(station, peer)
                    .ok_or(format!("step {at}: a receipt from an empty plain queue"))?;
                if plain.message.register != record.register {
                    return Err(format!("step {at}: another register number than plain"));
                }
                if Some(plain.news) != *news {
                    return Err(format!("step {at}: other news than in the plain network"));
                }
                plain.counts
            }
            Step::Start { .. } => unreachable!("a start answers no entry"),
        };
        if counts != record.counts.map(u64::from) {
            return Err(format!(
                "step {at}: another timestamp than in the plain network"
            ));
        }
    }
    Ok(())
}

/// Parts 6 and 7.
fn check_order(entries: &[Entry]) -> Result<(), String> {
    let steps: Vec<Step> = entries.iter().map(|e| e.step).collect();
    let before = happened_before(&steps);
    for (a, first) in entries.iter().enumerate() {
        if before.precedes(a, a) {
            return Err(format!("step {}: an entry precedes itself", first.at));
        }
        for (b, second) in entries.iter().enumerate() {
            if a == b {
                continue;
            }
            let precedes = before.precedes(a, b);
            if precedes && first.record.phase > second.record.phase {
                return Err(format!(
                    "steps {} and {}: order against phases",
                    first.at, second.at
                ));
            }
            if first.record.phase != second.record.phase {
                continue;
            }
            let (x, y) = (&first.record.counts, &second.record.counts);
            let want = if precedes {
                Verdict::Before
            } else if before.precedes(b, a) {
                Verdict::After
            } else {
                Verdict::Unordered
            };
            if less(x, y) != precedes || compare(x, y) != want {
                return Err(format!(
                    "steps {} and {}: timestamps and happened-before differ",
                    first.at, second.at
                ));
            }
        }
    }
    Ok(())
}
