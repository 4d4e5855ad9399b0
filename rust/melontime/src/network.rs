//! The network of stations and its steps.

use std::fmt;
use std::ops::DerefMut;

use crate::refusal::{done, refused};
use crate::{raw, Header, Record, Refusal, AREA, BLOCK, RECORD};

/// A station's mode.
#[derive(Clone, Copy, Debug, PartialEq, Eq, Hash)]
pub enum Mode {
    /// It may send and start.
    Normal,
    /// It has begun a reset and waits for every neighbour's request. It may
    /// not send.
    Mute,
    /// It has reset and waits for every neighbour to have reset. It may send
    /// to those whose `reset_done` it has seen.
    StandBy,
}

impl fmt::Display for Mode {
    fn fmt(&self, f: &mut fmt::Formatter<'_>) -> fmt::Result {
        f.write_str(match self {
            Mode::Normal => "normal",
            Mode::Mute => "mute",
            Mode::StandBy => "stand-by",
        })
    }
}

/// Where a station is after a step of a reset.
#[derive(Clone, Copy, Debug, PartialEq, Eq, Hash)]
pub struct InMode {
    /// The station's mode.
    pub mode: Mode,
    /// The station's phase.
    pub phase: u32,
}

/// The receipt of a message: an entry, and how much the message told.
///
/// A station knows of the others by its counts. A message that raises none of
/// theirs told it nothing that it had not heard by another way.
///
/// ```
/// use melontime::{Header, Network, Outcome, Refusal};
///
/// /// The news of a message that station i takes from j.
/// fn news(network: &mut Network, i: u32, j: u32) -> Result<u8, Refusal> {
///     match network.recv(i, j)? {
///         Outcome::Entry(receipt) => Ok(receipt.news),
///         other => panic!("{other:?} is no receipt of a message"),
///     }
/// }
///
/// // Three stations, each linked to the two others.
/// let header = Header::new(3, 8).link(0, 1, 2)?.link(0, 2, 2)?.link(1, 2, 2)?;
/// let mut network = Network::setup(&header)?;
/// network.send(0, 2, 501)?;
/// network.send(0, 1, 502)?;
/// assert_eq!(news(&mut network, 1, 0)?, 1);
///
/// // Station 1 sends on what it has heard: to 2 that is news of 0 and of 1.
/// network.send(1, 2, 503)?;
/// assert_eq!(news(&mut network, 2, 1)?, 2);
///
/// // The first message has been overtaken, and tells nothing new.
/// assert_eq!(news(&mut network, 2, 0)?, 0);
/// # Ok::<(), Refusal>(())
/// ```
#[derive(Clone, Copy, Debug, PartialEq, Eq, Hash)]
pub struct Receipt {
    /// The record of the entry.
    pub record: Record,
    /// How many of the other stations' counts grew: 0 to 7. The station's own
    /// count, which every entry raises, is not among them.
    pub news: u8,
}

/// What a step of receiving comes to. Later versions may have other outcomes.
#[derive(Clone, Copy, Debug, PartialEq, Eq, Hash)]
#[non_exhaustive]
pub enum Outcome {
    /// A message was taken: an entry, with its record and the message's news.
    Entry(Receipt),
    /// A control item was taken, a step of a reset: where the station is after
    /// it.
    Control(InMode),
}

/// A network of stations: the 65,536 bytes of its state.
///
/// The bytes are its own, or lent for as long as it is used: [`NetworkMut`].
/// The calls are the same.
///
/// Stations and peers may be any numbers; those that the network lacks are
/// refused with [`Refusal::NoSuchStation`].
///
/// Bytes may be the state of a network that no initial one reaches. A step on
/// them that would leave a bound is refused with [`Refusal::IllFormedState`],
/// after all other causes. [`Reached`](crate::Reached) is a network that comes
/// from setup by steps alone, and never meets it.
///
/// ```
/// use melontime::{Header, InMode, Mode, Network, Refusal};
///
/// // A lone station resets at once.
/// let mut network = Network::setup(&Header::new(1, 2).allow(0, 2)?)?;
/// network.enter(0, 1)?;
/// network.enter(0, 2)?;
/// assert_eq!(network.enter(0, 3), Err(Refusal::UsedUp));
/// assert_eq!(network.enter(1, 3), Err(Refusal::NoSuchStation));
/// assert_eq!(network.start(0)?, InMode { mode: Mode::Normal, phase: 1 });
/// assert_eq!(network.enter(0, 3)?.phase(), 1);
/// # Ok::<(), Refusal>(())
/// ```
// Only this module makes one, of bytes that are a well-formed state; only the
// library changes them afterwards, and leaves them one.
#[derive(Clone, PartialEq, Eq)]
pub struct Network<A = Box<[u8]>> {
    area: A,
}

/// A [`Network`] in lent bytes.
///
/// ```
/// use melontime::{Header, Network, NetworkMut, Refusal, AREA};
///
/// let header = Header::new(1, 9).allow(0, 2)?;
/// let mut area = [0; AREA];
/// NetworkMut::setup_in(&header, &mut area)?.enter(0, 7)?;
///
/// // The state stays in the bytes.
/// let mut network = NetworkMut::open(&mut area)?;
/// assert_eq!(network.enter(0, 8)?.counts()[0], 2);
/// assert_eq!(network.header(), header);
///
/// // What asks for lent bytes can be given a network of either kind.
/// fn quiescent(network: NetworkMut) -> bool {
///     network.is_quiescent()
/// }
/// assert!(quiescent(network));
/// assert!(quiescent(Network::setup(&header)?.lend()));
/// # Ok::<(), Refusal>(())
/// ```
pub type NetworkMut<'a> = Network<&'a mut [u8]>;

impl Network {
    /// The initial network of a header: every station normal in phase 0, every
    /// link empty.
    ///
    /// # Errors
    ///
    /// [`Refusal::Malformed`] where a field is outside its range, then
    /// [`Refusal::NetworkRule`].
    ///
    /// ```
    /// use melontime::{Header, Network, Refusal};
    ///
    /// let alone = Header::new(2, 7);
    /// assert_eq!(Network::setup(&alone).unwrap_err(), Refusal::NetworkRule);
    /// assert!(Network::setup(&alone.link(0, 1, 2)?).is_ok());
    /// # Ok::<(), Refusal>(())
    /// ```
    pub fn setup(header: &Header) -> Result<Network, Refusal> {
        Network::setup_block(&header.to_block()?)
    }

    /// The initial network of a header block.
    ///
    /// # Errors
    ///
    /// [`Refusal::Malformed`] for bytes that are no header block, then
    /// [`Refusal::NetworkRule`].
    pub fn setup_block(block: &[u8]) -> Result<Network, Refusal> {
        let mut area = vec![0; AREA].into_boxed_slice();
        done("setup", raw::setup(block, &mut area)).map(|()| Network { area })
    }

    /// The network whose state these bytes are; it keeps a copy of them.
    ///
    /// # Errors
    ///
    /// [`Refusal::IllFormedState`] for bytes that are no well-formed state.
    ///
    /// ```
    /// use melontime::{Header, Network, Refusal};
    ///
    /// let mut network = Network::setup(&Header::new(1, 9).allow(0, 2)?)?;
    /// network.enter(0, 7)?;
    /// let stored = network.as_bytes().to_vec();
    /// let mut again = Network::from_bytes(&stored)?;
    /// assert_eq!(again.enter(0, 8)?.counts()[0], 2);
    /// assert_eq!(Network::from_bytes(&stored[1..]).unwrap_err(), Refusal::IllFormedState);
    ///
    /// let same: Network = stored.as_slice().try_into()?;
    /// assert!(same == network);
    /// # Ok::<(), Refusal>(())
    /// ```
    pub fn from_bytes(bytes: &[u8]) -> Result<Network, Refusal> {
        rest(bytes).map(|_| Network { area: bytes.into() })
    }
}

impl<'a> NetworkMut<'a> {
    /// Makes lent bytes the initial network of a header, as [`Network::setup`].
    /// What they held does not matter; where it is refused they are left.
    ///
    /// # Errors
    ///
    /// [`Refusal::AreaLength`] where they are not [`AREA`] bytes, then
    /// [`Refusal::Malformed`] where a field is outside its range, then
    /// [`Refusal::NetworkRule`].
    pub fn setup_in(header: &Header, area: &'a mut [u8]) -> Result<NetworkMut<'a>, Refusal> {
        // Fields that make no block are refused as no bytes are, after the
        // area's length.
        let block = header.to_block();
        NetworkMut::setup_block_in(block.as_ref().map_or(&[], |block| block), area)
    }

    /// Makes lent bytes the initial network of a header block.
    ///
    /// # Errors
    ///
    /// [`Refusal::AreaLength`] where the area is not [`AREA`] bytes, then
    /// [`Refusal::Malformed`] for bytes that are no header block, then
    /// [`Refusal::NetworkRule`].
    pub fn setup_block_in(block: &[u8], area: &'a mut [u8]) -> Result<NetworkMut<'a>, Refusal> {
        done("setup", raw::setup(block, area)).map(|()| Network { area })
    }

    /// The network whose state lent bytes are.
    ///
    /// # Errors
    ///
    /// [`Refusal::IllFormedState`] for bytes that are no well-formed state.
    pub fn open(area: &'a mut [u8]) -> Result<NetworkMut<'a>, Refusal> {
        rest(area).map(|_| Network { area })
    }
}

impl<A: DerefMut<Target = [u8]>> Network<A> {
    /// The bytes of the state.
    #[must_use]
    pub fn as_bytes(&self) -> &[u8] {
        &self.area
    }

    /// The same network in its bytes as lent ones.
    #[must_use]
    pub fn lend(&mut self) -> NetworkMut<'_> {
        Network {
            area: &mut self.area,
        }
    }

    /// The header in force.
    ///
    /// ```
    /// use melontime::{Header, Network, Refusal};
    ///
    /// let header = Header::new(2, 7).link(0, 1, 2)?;
    /// assert_eq!(Network::setup(&header)?.header(), header);
    /// # Ok::<(), Refusal>(())
    /// ```
    pub fn header(&self) -> Header {
        Header::read(&self.area[..BLOCK]).expect("a state begins with its header block")
    }

    /// An own entry of a station, with a register number. Every mode allows it.
    ///
    /// # Errors
    ///
    /// [`Refusal::NoSuchStation`]; [`Refusal::UsedUp`] where the station's
    /// allowance of this phase is used up; and, on bytes that no initial network
    /// reaches, [`Refusal::IllFormedState`] where its count would be above the
    /// ceiling.
    pub fn enter(&mut self, station: u32, register: u32) -> Result<Record, Refusal> {
        let mut event = [0; RECORD];
        match raw::enter(&mut self.area, &mut event, station, register) {
            100 => Ok(Record::written(event)),
            other => Err(refused("enter", other)),
        }
    }

    /// A message from a station to a neighbour, with a register number.
    ///
    /// # Errors
    ///
    /// [`Refusal::NoSuchStation`], also for a peer that is no neighbour;
    /// [`Refusal::ModeForbids`] where the station is mute, or in stand-by and
    /// has not seen the peer's `reset_done`; [`Refusal::UsedUp`] where the link's
    /// limit of this phase is used up; and, on bytes that no initial network
    /// reaches, [`Refusal::IllFormedState`] where the station's count would be
    /// above the ceiling, or the link has no place.
    ///
    /// ```
    /// use melontime::{Header, Network, Refusal};
    ///
    /// // Station 0 between its neighbours 1 and 2.
    /// let header = Header::new(3, 9).link(0, 1, 2)?.link(0, 2, 2)?;
    /// let mut network = Network::setup(&header)?;
    /// network.start(0)?;
    /// assert_eq!(network.send(0, 1, 7), Err(Refusal::ModeForbids));
    /// network.recv(1, 0)?;
    /// network.recv(2, 0)?;
    /// network.recv(0, 1)?; // the req of station 1
    /// network.recv(0, 2)?; // the req of station 2, and the reset
    ///
    /// // In stand-by it may send where it has seen the done.
    /// assert_eq!(network.send(0, 1, 7), Err(Refusal::ModeForbids));
    /// network.recv(0, 1)?;
    /// assert_eq!(network.send(0, 1, 7)?.phase(), 1);
    /// assert_eq!(network.send(0, 2, 8), Err(Refusal::ModeForbids));
    /// # Ok::<(), Refusal>(())
    /// ```
    pub fn send(&mut self, station: u32, peer: u32, register: u32) -> Result<Record, Refusal> {
        let mut event = [0; RECORD];
        match raw::send(&mut self.area, &mut event, station, peer, register) {
            100 => Ok(Record::written(event)),
            other => Err(refused("send", other)),
        }
    }

    /// A station takes the first item of the link from a neighbour: a message,
    /// which is an entry and tells its news, or a control item of a reset. Every
    /// mode allows it.
    ///
    /// # Errors
    ///
    /// [`Refusal::NoSuchStation`], also for a peer that is no neighbour;
    /// [`Refusal::EmptyLink`]; and, on bytes that no initial network reaches,
    /// [`Refusal::IllFormedState`] where the station's count would be above the
    /// ceiling or its phase above 999,999, or a link has no place for a control
    /// item.
    ///
    /// ```
    /// use melontime::{Header, InMode, Mode, Network, Outcome, Refusal};
    ///
    /// let mut network = Network::setup(&Header::new(2, 7).link(0, 1, 2)?)?;
    /// network.send(0, 1, 502)?;
    /// network.start(0)?;
    /// let Outcome::Entry(receipt) = network.recv(1, 0)? else {
    ///     panic!("the link holds a message");
    /// };
    /// assert_eq!((receipt.record.register(), receipt.news), (502, 1));
    /// let after = InMode { mode: Mode::StandBy, phase: 1 };
    /// assert_eq!(network.recv(1, 0)?, Outcome::Control(after));
    /// assert_eq!(network.recv(1, 0), Err(Refusal::EmptyLink));
    /// # Ok::<(), Refusal>(())
    /// ```
    pub fn recv(&mut self, station: u32, peer: u32) -> Result<Outcome, Refusal> {
        let mut event = [0; RECORD];
        match raw::recv(&mut self.area, &mut event, station, peer) {
            answer @ 100..=107 => Ok(Outcome::Entry(Receipt {
                record: Record::written(event),
                news: (answer - 100) as u8,
            })),
            other => in_mode("recv", other).map(Outcome::Control),
        }
    }

    /// A station starts a reset, and answers where it is after.
    ///
    /// # Errors
    ///
    /// [`Refusal::NoSuchStation`]; [`Refusal::ModeForbids`] where the station
    /// is not normal; [`Refusal::LastPhase`] in phase 999,999; and, on bytes that
    /// no initial network reaches, [`Refusal::IllFormedState`] where a link has
    /// no place for a control item.
    pub fn start(&mut self, station: u32) -> Result<InMode, Refusal> {
        let mut event = [0; RECORD];
        in_mode("start", raw::start(&mut self.area, &mut event, station))
    }

    /// Whether every station is normal, all phases are equal and no link holds
    /// an item: what document 01 calls rest. Then no message is still to be
    /// received, and a sheet can be closed.
    ///
    /// ```
    /// use melontime::{Header, Network, Refusal};
    ///
    /// let mut network = Network::setup(&Header::new(2, 7).link(0, 1, 2)?)?;
    /// assert!(network.is_quiescent());
    /// network.send(0, 1, 501)?;
    /// assert!(!network.is_quiescent()); // a message is under way
    /// network.recv(1, 0)?;
    /// assert!(network.is_quiescent());
    /// network.start(0)?;
    /// for (station, peer) in [(1, 0), (0, 1), (0, 1), (1, 0)] {
    ///     assert!(!network.is_quiescent()); // a reset is under way
    ///     network.recv(station, peer)?;
    /// }
    /// assert!(network.is_quiescent());
    /// # Ok::<(), Refusal>(())
    /// ```
    #[must_use]
    pub fn is_quiescent(&self) -> bool {
        rest(&self.area).expect("the state is well formed")
    }

    /// How many receipts, with receipts alone, bring the network to rest: the
    /// messages under way and the control items that are still to be received,
    /// also those that only later receipts put on a link.
    ///
    /// It is just that many accepted receipts, in whichever order they are
    /// taken, where steps have led to the state from an initial network, as they
    /// have of a [`Reached`](crate::Reached). On other bytes the number is
    /// reckoned in the same way, and promises nothing.
    ///
    /// ```
    /// use melontime::{Header, Network, Refusal};
    ///
    /// let mut network = Network::setup(&Header::new(2, 7).link(0, 1, 2)?)?;
    /// assert_eq!(network.receipts_to_rest(), 0);
    /// network.send(0, 1, 501)?;
    /// assert_eq!(network.receipts_to_rest(), 1);
    /// network.start(1)?; // a req and a done are to go either way
    /// assert_eq!(network.receipts_to_rest(), 5);
    /// # Ok::<(), Refusal>(())
    /// ```
    #[must_use]
    pub fn receipts_to_rest(&self) -> u64 {
        receipts_to_rest(&self.area).expect("the state is well formed")
    }
}

impl<A> fmt::Debug for Network<A> {
    fn fmt(&self, f: &mut fmt::Formatter<'_>) -> fmt::Result {
        f.debug_struct("Network").finish_non_exhaustive()
    }
}

/// As [`Network::from_bytes`].
impl TryFrom<&[u8]> for Network {
    type Error = Refusal;

    fn try_from(bytes: &[u8]) -> Result<Network, Refusal> {
        Network::from_bytes(bytes)
    }
}

/// As [`NetworkMut::open`](Network::open).
impl<'a> TryFrom<&'a mut [u8]> for NetworkMut<'a> {
    type Error = Refusal;

    fn try_from(area: &'a mut [u8]) -> Result<NetworkMut<'a>, Refusal> {
        NetworkMut::open(area)
    }
}

/// Whether a state is quiescent; refused for bytes that are no state.
fn rest(area: &[u8]) -> Result<bool, Refusal> {
    match raw::rest(area) {
        100 => Ok(true),
        101 => Ok(false),
        other => Err(refused("rest", other)),
    }
}

/// How many receipts bring a state to rest; refused for bytes that are no state.
fn receipts_to_rest(area: &[u8]) -> Result<u64, Refusal> {
    match raw::receipts_to_rest(area) {
        answer @ 1000.. => Ok(answer - 1000),
        other => Err(refused("receipts_to_rest", other)),
    }
}

/// The mode and phase of an answer that is no entry: 1,000 + 4 × phase + mode.
fn in_mode(call: &str, answer: u64) -> Result<InMode, Refusal> {
    if answer < 1000 {
        return Err(refused(call, answer));
    }
    let (phase, mode) = ((answer - 1000) / 4, (answer - 1000) % 4);
    let mode = match mode {
        0 => Mode::Normal,
        1 => Mode::Mute,
        2 => Mode::StandBy,
        _ => panic!("melontime_{call} answered {answer}, which is none of its numbers"),
    };
    let phase = phase as u32;
    Ok(InMode { mode, phase })
}
