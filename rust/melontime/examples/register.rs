//! A register of four stations, each on a thread of its own.
//!
//! The host owns the network and serves the stations over byte streams. The
//! stations pass their messages to each other over streams of their own; what
//! the network's links hold tells them when one is theirs to take. Each does a
//! fixed amount of work, more than its allowance of a phase, so that resets
//! happen along the way, and counts the receipts that told it something. When
//! the work of all is done the network is laid up: the host asks how many
//! receipts that takes, and takes nothing but receipts until it is at rest. In
//! the end the accepted records are written to an archive, which is read back,
//! tested and asked for the order of any two of them, across resets too.
//!
//!     cargo run --release --offline -p melontime --example register

use std::collections::{BTreeMap, HashMap};
use std::error::Error;
use std::io::{self, Read, Write};
use std::os::unix::net::UnixStream;
use std::sync::{Arc, Mutex};
use std::thread;
use std::time::{Duration, Instant};
use std::{env, fs, process};

use melontime::{
    archive_bytes, Archive, Header, InMode, Kind, Mode, Outcome, Reached, Receipt, Record, Refusal,
    StepRefusal, Verdict, WellKept,
};

const STATIONS: u32 = 4;
/// The links: a ring.
const LINKS: [(u32, u32); 4] = [(0, 1), (1, 2), (2, 3), (3, 0)];
/// Own entries in a phase, and messages in a phase on a link.
const ALLOWANCE: u16 = 5;
const LIMIT: u8 = 3;
/// A station's work: own entries, and messages to each neighbour.
const ENTRIES: u32 = 22;
const MESSAGES: u32 = 10;
/// How long a station waits for the others.
const PATIENCE: Duration = Duration::from_secs(60);

fn neighbours(station: u32) -> Vec<u32> {
    let other = |&(i, j): &(u32, u32)| match station {
        s if s == i => Some(j),
        s if s == j => Some(i),
        _ => None,
    };
    LINKS.iter().filter_map(other).collect()
}

// ----- what a station and the host say to each other -----

/// A request, 9 bytes: a letter and two numbers.
#[derive(Clone, Copy)]
enum Request {
    Enter(u32),
    Send(u32, u32),
    Recv(u32),
    Start,
    /// The station's work is done: it only receives from here on.
    Finished,
    /// Whether the network is laid up.
    Over,
    /// The last word of a station: so many receipts told it something.
    Told(u32),
}

impl Request {
    fn to_bytes(self) -> [u8; 9] {
        let (letter, a, b) = match self {
            Request::Enter(register) => (b'e', register, 0),
            Request::Send(peer, register) => (b's', peer, register),
            Request::Recv(peer) => (b'r', peer, 0),
            Request::Start => (b't', 0, 0),
            Request::Finished => (b'f', 0, 0),
            Request::Over => (b'o', 0, 0),
            Request::Told(told) => (b'n', told, 0),
        };
        let mut bytes = [letter; 9];
        bytes[1..5].copy_from_slice(&a.to_le_bytes());
        bytes[5..].copy_from_slice(&b.to_le_bytes());
        bytes
    }

    fn from_bytes(bytes: [u8; 9]) -> Option<Request> {
        let long = |at: usize| bytes[at..at + 4].try_into().map(u32::from_le_bytes).ok();
        let (a, b) = (long(1)?, long(5)?);
        match bytes[0] {
            b'e' => Some(Request::Enter(a)),
            b's' => Some(Request::Send(a, b)),
            b'r' => Some(Request::Recv(a)),
            b't' => Some(Request::Start),
            b'f' => Some(Request::Finished),
            b'o' => Some(Request::Over),
            b'n' => Some(Request::Told(a)),
            _ => None,
        }
    }
}

/// A reply, 34 bytes: a letter and what belongs to it.
#[derive(Clone, Copy)]
enum Reply {
    Refused(StepRefusal),
    Entry(Record),
    Receipt(Receipt),
    Control(InMode),
    Is(bool),
}

impl Reply {
    fn of(outcome: Outcome) -> Reply {
        match outcome {
            Outcome::Entry(receipt) => Reply::Receipt(receipt),
            Outcome::Control(after) => Reply::Control(after),
            other => panic!("an outcome that this program does not know: {other:?}"),
        }
    }

    fn to_bytes(self) -> [u8; 34] {
        let mut bytes = [0; 34];
        match self {
            Reply::Refused(refusal) => bytes[..2].copy_from_slice(&[b'n', refusal.number()]),
            Reply::Entry(record) => {
                bytes[0] = b'e';
                bytes[1..33].copy_from_slice(record.as_bytes());
            }
            Reply::Receipt(Receipt { record, news }) => {
                bytes[0] = b'r';
                bytes[1..33].copy_from_slice(record.as_bytes());
                bytes[33] = news;
            }
            Reply::Control(InMode { mode, phase }) => {
                bytes[..2].copy_from_slice(&[b'm', mode as u8]);
                bytes[2..6].copy_from_slice(&phase.to_le_bytes());
            }
            Reply::Is(yes) => bytes[..2].copy_from_slice(&[b'i', u8::from(yes)]),
        }
        bytes
    }

    fn from_bytes(bytes: [u8; 34]) -> Option<Reply> {
        let phase = u32::from_le_bytes(bytes[2..6].try_into().ok()?);
        let control = |mode| Some(Reply::Control(InMode { mode, phase }));
        let record = || Record::try_from(&bytes[1..33]).ok();
        let news = bytes[33];
        match (bytes[0], bytes[1]) {
            (b'n', number) => StepRefusal::from_number(number.into()).map(Reply::Refused),
            (b'e', _) => record().map(Reply::Entry),
            (b'r', _) => record().map(|record| Reply::Receipt(Receipt { record, news })),
            (b'm', 0) => control(Mode::Normal),
            (b'm', 1) => control(Mode::Mute),
            (b'm', 2) => control(Mode::StandBy),
            (b'i', yes) => Some(Reply::Is(yes == 1)),
            _ => None,
        }
    }
}

// ----- the host -----

/// What the host keeps: the network, the accepted records in the order of the
/// steps, and the news of each receipt by the register number of its message.
struct Register {
    network: Reached,
    records: Vec<Record>,
    news: HashMap<u32, u8>,
    /// Receipts that told the stations something.
    told: u32,
    /// Stations that have finished.
    finished: u32,
    /// How many receipts the laying up takes, asked when all have finished.
    to_rest: Option<u64>,
    /// How many were accepted since, and those of messages among them.
    receipts: u64,
    late_messages: u64,
}

impl Register {
    /// A step while some station still works. The network is not laid up yet.
    fn step(&mut self, station: u32, request: Request) -> Result<Reply, StepRefusal> {
        let network = &mut self.network;
        match request {
            Request::Enter(register) => network.enter(station, register).map(Reply::Entry),
            Request::Send(peer, register) => {
                network.send(station, peer, register).map(Reply::Entry)
            }
            Request::Recv(peer) => network.recv(station, peer).map(Reply::of),
            Request::Start => network.start(station).map(Reply::Control),
            _ => Ok(Reply::Is(false)),
        }
    }

    /// When all have finished nothing but receipts is taken, and each that is
    /// accepted leaves one less to come.
    fn lay_up(&mut self, station: u32, request: Request) -> Result<Reply, StepRefusal> {
        let mut network = self.network.receipts_only();
        let Request::Recv(peer) = request else {
            let over = matches!(request, Request::Over) && network.is_at_rest();
            return Ok(Reply::Is(over));
        };
        let left = network.left();
        let outcome = network.recv(station, peer)?;
        assert_eq!(network.left() + 1, left);
        self.receipts += 1;
        self.late_messages += u64::from(matches!(outcome, Outcome::Entry(_)));
        Ok(Reply::of(outcome))
    }

    /// A station has finished. When it was the last, laying up begins.
    fn finish(&mut self) {
        self.finished += 1;
        if self.finished == STATIONS {
            self.to_rest = Some(self.network.receipts_to_rest());
        }
    }

    fn answer(&mut self, station: u32, request: Request) -> Reply {
        let reply = match request {
            Request::Finished => {
                self.finish();
                Ok(Reply::Is(true))
            }
            Request::Told(told) => {
                self.told += told;
                Ok(Reply::Is(true))
            }
            _ if self.to_rest.is_some() => self.lay_up(station, request),
            _ => self.step(station, request),
        };
        match reply {
            Ok(Reply::Entry(record)) => self.records.push(record),
            Ok(Reply::Receipt(Receipt { record, news })) => {
                self.records.push(record);
                self.news.insert(record.register(), news);
            }
            _ => {}
        }
        reply.unwrap_or_else(Reply::Refused)
    }
}

/// Serves one station until it hangs up.
fn serve(register: &Mutex<Register>, station: u32, mut stream: UnixStream) -> io::Result<()> {
    let mut request = [0; 9];
    loop {
        match stream.read_exact(&mut request) {
            Ok(()) => {}
            Err(end) if end.kind() == io::ErrorKind::UnexpectedEof => return Ok(()),
            Err(error) => return Err(error),
        }
        let request = Request::from_bytes(request).ok_or(io::ErrorKind::InvalidData)?;
        let reply = register
            .lock()
            .expect("no server has panicked")
            .answer(station, request);
        stream.write_all(&reply.to_bytes())?;
    }
}

// ----- a station -----

struct Station {
    number: u32,
    host: UnixStream,
    /// The stream to and from each neighbour.
    peers: Vec<(u32, UnixStream)>,
    received: u32,
    /// Receipts that told the station something.
    told: u32,
}

/// What a message says, beside its register number.
fn text_of(from: u32, register: u32) -> String {
    format!("message {register} of station {from}")
}

impl Station {
    fn ask(&mut self, request: Request) -> io::Result<Reply> {
        self.host.write_all(&request.to_bytes())?;
        let mut reply = [0; 34];
        self.host.read_exact(&mut reply)?;
        Reply::from_bytes(reply).ok_or(io::ErrorKind::InvalidData.into())
    }

    /// Takes what has come on each link; false where there was nothing.
    fn take_all(&mut self) -> io::Result<bool> {
        let mut some = false;
        for k in 0..self.peers.len() {
            let peer = self.peers[k].0;
            match self.ask(Request::Recv(peer))? {
                Reply::Receipt(Receipt { record, news }) => {
                    let stream = &mut self.peers[k].1;
                    let mut head = [0; 5];
                    stream.read_exact(&mut head)?;
                    let mut text = vec![0; usize::from(head[4])];
                    stream.read_exact(&mut text)?;
                    // The network's message and the one that came are the same.
                    assert_eq!(head[..4], record.register().to_le_bytes());
                    assert_eq!(text, text_of(peer, record.register()).as_bytes());
                    self.received += 1;
                    self.told += u32::from(news > 0);
                    some = true;
                }
                Reply::Control(_) => some = true,
                Reply::Refused(StepRefusal::EmptyLink) => {}
                _ => return Err(io::ErrorKind::InvalidData.into()),
            }
        }
        Ok(some)
    }

    /// Tries a piece of work; true where it is done. Where this phase allows no
    /// more of it, a reset is asked for.
    fn try_work(&mut self, work: Request) -> io::Result<bool> {
        match self.ask(work)? {
            Reply::Entry(record) => {
                if let Request::Send(peer, register) = work {
                    assert_eq!(record.register(), register);
                    let text = text_of(self.number, register);
                    let mut frame = register.to_le_bytes().to_vec();
                    frame.push(text.len() as u8);
                    frame.extend(text.as_bytes());
                    let stream = self.peers.iter_mut().find(|(other, _)| *other == peer);
                    stream.expect("a neighbour").1.write_all(&frame)?;
                }
                Ok(true)
            }
            Reply::Refused(StepRefusal::UsedUp) => self.start().map(|()| false),
            Reply::Refused(StepRefusal::ModeForbids) => Ok(false),
            _ => Err(io::ErrorKind::InvalidData.into()),
        }
    }

    /// Starts a reset, where none is under way.
    fn start(&mut self) -> io::Result<()> {
        match self.ask(Request::Start)? {
            Reply::Control(_) | Reply::Refused(StepRefusal::ModeForbids) => Ok(()),
            _ => Err(io::ErrorKind::InvalidData.into()),
        }
    }

    /// The station's whole life.
    fn run(mut self) -> io::Result<()> {
        let mut registers = self.number * 10_000..;
        let mut register = || registers.next().expect("numbers enough");
        let mut work = Vec::new();
        for k in 0..ENTRIES.max(MESSAGES) {
            if k < MESSAGES {
                let peers = self.peers.iter().map(|&(peer, _)| peer);
                work.extend(peers.map(|peer| Request::Send(peer, register())));
            }
            if k < ENTRIES {
                work.push(Request::Enter(register()));
            }
        }
        // The messages come last: some are to be under way when the work is done.
        work.reverse();
        let expected = MESSAGES * self.peers.len() as u32;
        let mut work = work.into_iter().peekable();
        let mut finished = false;
        let latest = Instant::now() + PATIENCE;
        while Instant::now() < latest {
            let mut busy = self.take_all()?;
            if let Some(&next) = work.peek() {
                if self.try_work(next)? {
                    work.next();
                    busy = true;
                }
            } else if !finished {
                // The register is laid up in a new phase.
                self.start()?;
                self.ask(Request::Finished)?;
                finished = true;
            } else if matches!(self.ask(Request::Over)?, Reply::Is(true)) {
                assert_eq!(self.received, expected);
                self.ask(Request::Told(self.told))?;
                return Ok(());
            }
            if !busy {
                thread::sleep(Duration::from_micros(50));
            }
        }
        // Another station must have failed.
        Err(io::ErrorKind::TimedOut.into())
    }
}

// ----- the run -----

/// Runs the host and the stations, and answers what the host has kept.
fn keep_register(header: &Header) -> Result<Register, Box<dyn Error>> {
    let register = Arc::new(Mutex::new(Register {
        network: Reached::setup(header)?,
        records: Vec::new(),
        news: HashMap::new(),
        told: 0,
        finished: 0,
        to_rest: None,
        receipts: 0,
        late_messages: 0,
    }));
    let mut streams: HashMap<(u32, u32), UnixStream> = HashMap::new();
    for (i, j) in LINKS {
        let (a, b) = UnixStream::pair()?;
        streams.insert((i, j), a);
        streams.insert((j, i), b);
    }
    let mut threads = Vec::new();
    for number in 0..STATIONS {
        let (host, served) = UnixStream::pair()?;
        let peers = neighbours(number)
            .into_iter()
            .map(|peer| (peer, streams.remove(&(number, peer)).expect("a stream")))
            .collect();
        let station = Station {
            number,
            host,
            peers,
            received: 0,
            told: 0,
        };
        let register = Arc::clone(&register);
        threads.push(thread::spawn(move || serve(&register, number, served)));
        threads.push(thread::spawn(move || station.run()));
    }
    for thread in threads {
        thread.join().map_err(|_| "a thread has panicked")??;
    }
    let register = Arc::into_inner(register).ok_or("a thread has not ended")?;
    let register = register.into_inner().map_err(|_| "a server has panicked")?;
    let network = register.network.network();
    assert!(network.is_quiescent());
    assert_eq!(network.header(), *header);
    assert_eq!(register.to_rest, Some(register.receipts));
    assert!(register.receipts > 0);
    Ok(register)
}

/// Every message was sent once and received once, in one phase, and its send
/// happened before its receipt. Answers how many there were.
fn check_messages(records: &[Record]) -> Result<u32, Refusal> {
    let of = |kind: Kind| {
        records
            .iter()
            .filter(move |record| record.kind() == kind)
            .map(|record| (record.register(), record))
    };
    let sent: HashMap<u32, &Record> = of(Kind::Sent).collect();
    let received: HashMap<u32, &Record> = of(Kind::Received).collect();
    assert_eq!(sent.len(), of(Kind::Sent).count());
    assert_eq!(sent.len(), of(Kind::Received).count());
    for (register, send) in &sent {
        let receipt = received[register];
        assert_eq!(send.peer(), Some(receipt.station()));
        assert_eq!(send.phase(), receipt.phase());
        assert_eq!(send.verdict(receipt)?, Verdict::Before);
    }
    Ok(sent.len() as u32)
}

/// The news of each receipt is how many of the other counts are greater than in
/// the record that its station had last in the phase. Answers how many receipts
/// had each number of news.
fn check_news(register: &Register) -> [u32; STATIONS as usize] {
    let mut tally = [0; STATIONS as usize];
    for (k, record) in register.records.iter().enumerate() {
        if record.kind() != Kind::Received {
            continue;
        }
        let here = (record.station(), record.phase());
        let mut earlier = register.records[..k].iter();
        let last = earlier.rfind(|other| (other.station(), other.phase()) == here);
        let (before, after) = (last.map_or([0; 8], Record::counts), record.counts());
        let others = (0..STATIONS).filter(|&other| other != record.station());
        let grew = others.filter(|&other| after[other as usize] > before[other as usize]);
        let news = register.news[&record.register()];
        assert_eq!(usize::from(news), grew.count(), "{record:?}");
        tally[usize::from(news)] += 1;
    }
    tally
}

/// What happened before each record, by the records' order and messages alone:
/// no timestamp is read.
fn happened_before(records: &[Record]) -> Vec<Vec<bool>> {
    let mut before: Vec<Vec<bool>> = Vec::new();
    for (k, record) in records.iter().enumerate() {
        let mut past = vec![false; records.len()];
        let causes = (0..k).filter(|&c| {
            let message = record.kind() == Kind::Received
                && records[c].kind() == Kind::Sent
                && records[c].register() == record.register();
            records[c].station() == record.station() || message
        });
        for c in causes {
            past[c] = true;
            for (mine, &its) in past.iter_mut().zip(&before[c]) {
                *mine |= its;
            }
        }
        before.push(past);
    }
    before
}

/// What a list goes by: station, then own count, then number.
fn place_in_list(records: &[Record], number: u64) -> (u32, u16, u64) {
    let record = &records[number as usize];
    let station = record.station();
    (station, record.counts()[station as usize], number)
}

/// The verdicts on a record and each other one are those of what happened before
/// what, across resets too; two records alone tell it within one phase. Answers the
/// list of those that are unordered with it in its phase.
fn check_verdicts(
    kept: &WellKept,
    records: &[Record],
    before: &[Vec<bool>],
    a: usize,
    tally: &mut BTreeMap<String, u32>,
) -> Vec<u64> {
    let mut unordered = Vec::new();
    for (b, other) in records.iter().enumerate() {
        let expected = match () {
            () if a == b => Verdict::Same,
            () if before[b][a] => Verdict::Before,
            () if before[a][b] => Verdict::After,
            () => Verdict::Unordered,
        };
        assert_eq!(
            kept.verdict(a as u64, b as u64),
            Some(expected),
            "{a} and {b}"
        );
        let (alone, phases) = match records[a].phase() == other.phase() {
            true => (Ok(expected), "one phase"),
            false => (Err(Refusal::DifferentPhases), "two phases"),
        };
        assert_eq!(records[a].verdict(other), alone, "{a} and {b}");
        *tally.entry(format!("of {phases} {expected}")).or_insert(0) += 1;
        if alone == Ok(Verdict::Unordered) {
            unordered.push(b as u64);
        }
    }
    unordered.sort_by_key(|&number| place_in_list(records, number));
    unordered
}

fn main() -> Result<(), Box<dyn Error>> {
    let mut header = Header::new(STATIONS, ALLOWANCE + 4 * u16::from(LIMIT));
    for station in 0..STATIONS {
        header = header.allow(station, ALLOWANCE)?;
    }
    for (i, j) in LINKS {
        header = header.link(i, j, LIMIT)?;
    }

    let register = keep_register(&header)?;
    let records = &register.records;
    let messages = check_messages(records)?;
    assert_eq!(messages, 2 * LINKS.len() as u32 * MESSAGES);
    assert_eq!(records.len() as u32, STATIONS * ENTRIES + 2 * messages);
    let phases = 1 + records.iter().map(Record::phase).max().unwrap_or(0);
    assert!(phases >= ENTRIES.div_ceil(u32::from(ALLOWANCE)));
    println!(
        "{STATIONS} stations, {} records, {messages} messages, {phases} phases",
        records.len()
    );

    println!(
        "{} receipts to rest when the work is done: {} are taken, {} of messages, and it is at rest",
        register.to_rest.unwrap_or(0),
        register.receipts,
        register.late_messages
    );

    // The stations have counted the receipts that told them something.
    let [none, one, two, three] = check_news(&register);
    assert_eq!(none + one + two + three, messages);
    assert_eq!(one + two + three, register.told);
    println!(
        "{one} receipts brought news of one station, {two} of two, {three} of three, {none} none"
    );

    // The archive is written to a file, and read back by who knows its bytes alone.
    let file = env::temp_dir().join(format!("melontime-register-{}", process::id()));
    fs::write(&file, archive_bytes(&header, records)?)?;
    let bytes = fs::read(&file)?;
    fs::remove_file(&file)?;
    let archive = Archive::open(&bytes)?;
    assert_eq!(archive.header(), header);
    assert_eq!(archive.records().len(), records.len());
    assert!(archive.records().eq(records.iter().copied()));
    println!("the archive has {} bytes and passes its test", bytes.len());

    let mut damaged = bytes.clone();
    damaged[700] ^= 1;
    assert_eq!(Archive::open(&damaged).unwrap_err(), Refusal::Malformed);
    println!("with one bit changed it is refused");

    // Verdicts and lists against what happened before what.
    let kept = archive.well_kept()?;
    let before = happened_before(records);
    let mut tally = BTreeMap::new();
    for (a, first) in records.iter().enumerate() {
        let unordered = check_verdicts(&kept, records, &before, a, &mut tally);
        let list = archive.unordered(a as u64)?;
        assert_eq!(list, unordered);
        if a % 60 == 0 {
            let (phase, counts) = (first.phase(), &first.counts()[..STATIONS as usize]);
            println!(
                "record {a}: station {}, phase {phase}, counts {counts:?}, unordered with {}",
                first.station(),
                list.len()
            );
        }
    }
    let number = records.len() as u64;
    assert_eq!(archive.found(number), Err(Refusal::NoSuchRecord));
    assert_eq!(kept.verdict(0, number), None);
    for (verdict, pairs) in tally {
        println!("{pairs} pairs {verdict}");
    }
    println!("every verdict is that of the messages");

    let twice = [&records[..], &records[..1]].concat();
    let bytes = archive_bytes(&header, &twice)?;
    let verdict = Archive::open(&bytes)?.verdict(0, 1);
    assert_eq!(verdict, Err(Refusal::IllKept));
    println!("with a record twice it gives none");
    Ok(())
}
