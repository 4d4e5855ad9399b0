//! The bytes and steps that both sides are timed on.

use reference::check::BLOCK;
use reference::generate::any_register;
use reference::header::Header;
use reference::network::{Item, Message, State, Step};
use reference::random::Rng;
use reference::record::{Kind, Record, NO_PEER};
use reference::{archive, area, Counts};

/// Items that a busy link holds, of 34 places.
const BUSY: u16 = 30;

/// Eight stations with links between all of them, each of limit 32.
pub fn complete_network() -> Header {
    let mut header = Header::new(8, 65_535);
    for i in 0..8 {
        header.allowances[i] = 60_000;
        for j in 0..8 {
            header.limits[i][j] = if i == j { 0 } else { 32 };
        }
    }
    header
}

fn initial() -> State {
    State::initial(&complete_network()).expect("a network")
}

/// The complete network with empty links.
pub fn idle_area() -> Vec<u8> {
    area::image(&initial())
}

/// The complete network with every link nearly full of messages.
pub fn busy_area() -> Vec<u8> {
    area::image(&busy())
}

/// The same where every station has started a reset behind the messages.
pub fn busy_reset_area() -> Vec<u8> {
    let mut state = busy();
    for station in 0..8 {
        assert!(state.step(Step::Start { station }).is_ok());
    }
    area::image(&state)
}

fn busy() -> State {
    let mut state = initial();
    for i in 0..8 {
        for j in (0..8).filter(|&j| j != i) {
            for k in 0..BUSY {
                let message = Message {
                    register: u32::from(k),
                    counts: std::array::from_fn(|c| 100 * c as u16 + k),
                };
                state.links[i][j].push_back(Item::Message(message));
            }
            state.stations[i].sent[j] = BUSY as u8;
        }
        state.stations[i].counts[i] = 1000;
    }
    state
}

fn pairs() -> impl Iterator<Item = (usize, usize)> {
    (0..8).flat_map(|i| (0..8).filter(move |&j| j != i).map(move |j| (i, j)))
}

/// Own entries of all stations.
pub fn entries() -> Vec<Step> {
    (0..800)
        .map(|k| Step::Enter {
            station: k % 8,
            register: k as u32,
        })
        .collect()
}

/// On each link some messages, each received before the next is sent.
pub fn messages() -> Vec<Step> {
    let mut steps = Vec::new();
    for k in 0..5 {
        for (i, j) in pairs() {
            steps.push(Step::Send {
                station: i,
                peer: j,
                register: k,
            });
            steps.push(Step::Recv {
                station: j,
                peer: i,
            });
        }
    }
    steps
}

/// Some messages of each link are received.
pub fn receipts() -> Vec<Step> {
    let recv = |(i, j)| Step::Recv {
        station: i,
        peer: j,
    };
    (0..10).flat_map(|_| pairs().map(recv)).collect()
}

/// All stations start a reset and go through it.
pub fn reset() -> Vec<Step> {
    let mut steps: Vec<Step> = (0..8).map(|station| Step::Start { station }).collect();
    for _ in 0..2 {
        steps.extend(pairs().map(|(i, j)| Step::Recv {
            station: i,
            peer: j,
        }));
    }
    steps
}

/// Records of eight stations that make entries and pass messages at random; a
/// new phase begins after each 100,000.
fn run_records(count: usize) -> Vec<Record> {
    let mut rng = Rng::new(1);
    let mut counts: [Counts; 8] = Default::default();
    let mut sent: Vec<(usize, usize, u32, Counts)> = Vec::new();
    let mut records = Vec::with_capacity(count);
    for k in 0..count {
        if k % 100_000 == 0 {
            counts = Default::default();
            sent.clear();
        }
        let mut station = rng.index(8);
        let mut register = any_register(&mut rng);
        let mut peer = NO_PEER;
        let mut kind = Kind::Own;
        match rng.below(3) {
            0 if !sent.is_empty() => {
                let (from, to, its_register, its) = sent.swap_remove(rng.index(sent.len()));
                (station, peer, kind, register) = (to, from as u8, Kind::Received, its_register);
                for (count, its) in counts[to].iter_mut().zip(its) {
                    *count = (*count).max(its);
                }
                counts[to][to] += 1;
            }
            1 => {
                let to = (station + 1 + rng.index(7)) % 8;
                (peer, kind) = (to as u8, Kind::Sent);
                counts[station][station] += 1;
                sent.push((station, to, register, counts[station]));
            }
            _ => counts[station][station] += 1,
        }
        records.push(Record {
            kind,
            station: station as u8,
            peer,
            phase: (k / 100_000) as u32,
            register,
            counts: counts[station],
        });
    }
    records
}

fn archive_with(records: &[Record]) -> Vec<u8> {
    archive::build(&complete_network(), records).expect("an archive")
}

/// An archive of so many records.
pub fn archive_of(count: usize) -> Vec<u8> {
    archive_with(&run_records(count))
}

/// Records of eight stations that send nothing: all of other stations are
/// unordered. A new phase begins after each 500,000, which is nearly all that a
/// ceiling of 65,535 has room for.
fn quiet_records(count: usize) -> Vec<Record> {
    let mut rng = Rng::new(3);
    let mut counts: [Counts; 8] = Default::default();
    let record = |k| {
        if k % 500_000 == 0 {
            counts = Default::default();
        }
        let station = rng.index(8);
        counts[station][station] += 1;
        Record {
            kind: Kind::Own,
            station: station as u8,
            peer: NO_PEER,
            phase: (k / 500_000) as u32,
            register: k as u32,
            counts: counts[station],
        }
    };
    (0..count).map(record).collect()
}

/// An archive of stations that send nothing.
pub fn quiet_archive_of(count: usize) -> Vec<u8> {
    archive_with(&quiet_records(count))
}

/// The same records from the last to the first: in each phase every station's
/// own counts fall.
pub fn falling_archive_of(count: usize) -> Vec<u8> {
    let mut records = quiet_records(count);
    records.reverse();
    archive_with(&records)
}

/// The same records in no order.
pub fn shuffled_archive_of(count: usize) -> Vec<u8> {
    let mut records = quiet_records(count);
    Rng::new(4).shuffle(&mut records);
    archive_with(&records)
}

/// What a station does next.
enum Next {
    Own(usize),
    Send(usize, usize),
    Receive,
}

/// Eight stations in two groups of four.
struct Groups {
    rng: Rng,
    counts: [Counts; 8],
    /// Messages under way: from, to, register number and timestamp.
    sent: Vec<(usize, usize, u32, Counts)>,
}

impl Groups {
    /// Something at random, where a message stays in its group. By the end of a
    /// phase, which so many records are still to come before, each is received.
    fn choose(&mut self, to_come: usize) -> Next {
        let under_way = self.sent.len();
        let station = self.rng.index(8);
        match self.rng.below(3) {
            _ if under_way > to_come => Next::Receive,
            0 if under_way > 0 => Next::Receive,
            1 if under_way < to_come => {
                let to = station / 4 * 4 + (station + 1 + self.rng.index(3)) % 4;
                Next::Send(station, to)
            }
            _ => Next::Own(station),
        }
    }

    fn record(&mut self, phase: usize, next: Next) -> Record {
        let mut register = any_register(&mut self.rng);
        let (kind, station, peer) = match next {
            Next::Own(station) => (Kind::Own, station, NO_PEER),
            Next::Send(from, to) => (Kind::Sent, from, to as u8),
            Next::Receive => {
                let number = self.rng.index(self.sent.len());
                let (from, to, its_register, its) = self.sent.swap_remove(number);
                register = its_register;
                for (count, its) in self.counts[to].iter_mut().zip(its) {
                    *count = (*count).max(its);
                }
                (Kind::Received, to, from as u8)
            }
        };
        self.counts[station][station] += 1;
        let counts = self.counts[station];
        if let Next::Send(from, to) = next {
            self.sent.push((from, to, register, counts));
        }
        Record {
            kind,
            station: station as u8,
            peer,
            phase: phase as u32,
            register,
            counts,
        }
    }
}

/// Records of a run of phases of one length. One message goes from the first
/// group to the second, three quarters of the way along, and none back.
fn phased_records(count: usize, phases: usize) -> Vec<Record> {
    let mut groups = Groups {
        rng: Rng::new(5),
        counts: Default::default(),
        sent: Vec::new(),
    };
    let length = count / phases;
    let mut records = Vec::with_capacity(count);
    for phase in 0..phases {
        groups.counts = Default::default();
        for to_come in (0..length).rev() {
            let next = match phase == phases * 3 / 4 && to_come == length - 1 {
                true => Next::Send(3, 4),
                false => groups.choose(to_come),
            };
            records.push(groups.record(phase, next));
        }
    }
    records
}

/// An archive and two of its records.
pub struct Pair {
    pub bytes: Vec<u8>,
    pub first: usize,
    pub second: usize,
}

/// An archive of so many records in so many phases, in list order or in none, and
/// a pair of records in phases far apart. The first is the first group's last in
/// phase 0, of which no other station knows there; the other stations of the group
/// join in the phases behind. The second is the second group's last in the last
/// phase: the first precedes it by the one message between the groups and by what
/// joined behind it, so that no phase before that decides.
pub fn pair_of_phases(count: usize, phases: usize, shuffled: bool) -> Pair {
    let mut records = phased_records(count, phases);
    let of_first = |record: &Record| record.phase == 0 && record.station < 4;
    let first = records.iter().copied().rfind(of_first).expect("a record");
    let of_second = |record: &Record| record.station >= 4;
    let second = records.iter().copied().rfind(of_second).expect("a record");
    if shuffled {
        Rng::new(6).shuffle(&mut records);
    }
    let number = |wanted| records.iter().position(|record| *record == wanted);
    Pair {
        bytes: archive_with(&records),
        first: number(first).expect("it is there"),
        second: number(second).expect("it is there"),
    }
}

/// Bytes that differ from an archive in their last block only, where a count of
/// the last record is above t: they are refused once all of them are read.
pub fn hostile_archive(count: usize) -> Vec<u8> {
    let mut header = complete_network();
    header.ceiling = 60_000;
    let mut records = run_records(count);
    let right = archive::build(&header, &records).expect("an archive");
    let last = records.last_mut().expect("a record");
    last.counts[usize::from(last.station)] = header.ceiling + 1;
    let records: Vec<_> = records.iter().map(Record::to_bytes).collect();
    let bytes = archive::build_untested(&header, &records);
    let before = bytes.len() - BLOCK;
    assert!(right[..before] == bytes[..before] && right[before..] != bytes[before..]);
    bytes
}

/// Pairs of records of one phase.
pub fn record_pairs(count: usize) -> Vec<([u8; 32], [u8; 32])> {
    let records = run_records(4 * count);
    let mut rng = Rng::new(2);
    let mut any = || records[rng.index(records.len())].to_bytes();
    (0..count).map(|_| (any(), any())).collect()
}

/// A script for `turnover` of one station: entries, and a reset where the
/// allowance is used up.
pub fn lone_script(steps: usize) -> Vec<u8> {
    let mut text = String::from("net 1 60000\nallow 0 60000\n");
    for k in 0..steps {
        match k % 60_000 {
            59_999 => text.push_str("start 0\n"),
            _ => text.push_str(&format!("enter 0 {k}\n")),
        }
    }
    text.into()
}

/// A script for `turnover` of eight stations: on each link messages up to its
/// limit, sent and received, with an entry here and there; then a reset. The
/// limit is written, so that what is timed does not hang on the default.
pub fn network_script(steps: usize) -> Vec<u8> {
    const LIMIT: u8 = 8;
    let mut text = String::from("net 8 60000\n");
    for i in 0..8 {
        text.push_str(&format!("allow {i} 1000\n"));
        for j in 0..i {
            text.push_str(&format!("link {i} {j} {LIMIT}\n"));
        }
    }
    let mut round = Vec::new();
    for k in 0..LIMIT {
        for (i, j) in pairs() {
            round.push(format!("send {i} {j} {k}\n"));
        }
        for (i, j) in pairs() {
            round.push(format!("recv {j} {i}\n"));
            round.push(format!("enter {i} {j}\n"));
        }
    }
    round.extend((0..8).map(|i| format!("start {i}\n")));
    for _ in 0..2 {
        round.extend(pairs().map(|(i, j)| format!("recv {i} {j}\n")));
    }
    for line in round.iter().cycle().take(steps) {
        text.push_str(line);
    }
    text.into()
}
