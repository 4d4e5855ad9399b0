//! A network that steps have reached from an initial one.

use std::fmt;

use crate::{Header, InMode, Network, Outcome, Record, Refusal};

/// Why a step of a [`Reached`] network was refused. The step has changed
/// nothing.
///
/// There is no other cause, so a `match` needs no further arm.
#[derive(Clone, Copy, Debug, PartialEq, Eq, Hash, PartialOrd, Ord)]
#[repr(u8)]
pub enum StepRefusal {
    /// 4: no such station, or a peer that is no neighbour.
    NoSuchStation = 4,
    /// 5: the station's mode forbids the send or start.
    ModeForbids = 5,
    /// 6: the allowance or the link's limit is used up in this phase.
    UsedUp = 6,
    /// 7: the link holds nothing to receive.
    EmptyLink = 7,
    /// 8: start in phase 999,999.
    LastPhase = 8,
}

impl StepRefusal {
    /// Every refusal, by rising number.
    const ALL: [StepRefusal; 5] = [
        StepRefusal::NoSuchStation,
        StepRefusal::ModeForbids,
        StepRefusal::UsedUp,
        StepRefusal::EmptyLink,
        StepRefusal::LastPhase,
    ];

    /// The refusal's number, the same as in [`Refusal`].
    #[must_use]
    pub fn number(self) -> u8 {
        self as u8
    }

    /// The refusal with a number; none where no step of a [`Reached`] network is
    /// refused with it.
    ///
    /// ```
    /// use melontime::{Refusal, StepRefusal};
    ///
    /// assert_eq!(StepRefusal::from_number(6), Some(StepRefusal::UsedUp));
    /// assert_eq!(StepRefusal::from_number(2), None);
    /// assert_eq!(Refusal::from(StepRefusal::UsedUp), Refusal::UsedUp);
    /// ```
    #[must_use]
    pub fn from_number(number: u64) -> Option<StepRefusal> {
        let mut all = StepRefusal::ALL.into_iter();
        all.find(|refusal| u64::from(refusal.number()) == number)
    }
}

impl From<StepRefusal> for Refusal {
    fn from(refusal: StepRefusal) -> Refusal {
        match refusal {
            StepRefusal::NoSuchStation => Refusal::NoSuchStation,
            StepRefusal::ModeForbids => Refusal::ModeForbids,
            StepRefusal::UsedUp => Refusal::UsedUp,
            StepRefusal::EmptyLink => Refusal::EmptyLink,
            StepRefusal::LastPhase => Refusal::LastPhase,
        }
    }
}

impl fmt::Display for StepRefusal {
    fn fmt(&self, f: &mut fmt::Formatter<'_>) -> fmt::Result {
        Refusal::from(*self).fmt(f)
    }
}

impl std::error::Error for StepRefusal {}

/// A [`Network`] that steps have reached from an initial one.
///
/// Only setup makes one, and only steps change it; bytes from elsewhere do not
/// become one. Whichever step comes next, it is accepted or refused for one of
/// the five causes of [`StepRefusal`]: every count stays within the ceiling,
/// every link has a place for what is put on it, and no phase is above 999,999.
///
/// ```
/// use melontime::{Header, InMode, Mode, Reached, Refusal, StepRefusal};
///
/// /// What a keeper is to do.
/// fn advice(refusal: StepRefusal) -> &'static str {
///     match refusal {
///         StepRefusal::NoSuchStation => "name a station and its neighbour",
///         StepRefusal::ModeForbids => "receive until the reset is through",
///         StepRefusal::UsedUp => "start a reset",
///         StepRefusal::EmptyLink => "wait for the neighbour to send",
///         StepRefusal::LastPhase => "close the register",
///     }
/// }
///
/// // The least ceiling that the sum rule allows: 3 own entries, 2 messages
/// // sent and 2 received.
/// let header = Header::new(2, 3 + 2 + 2).allow(0, 3)?.allow(1, 3)?.link(0, 1, 2)?;
/// let mut reached = Reached::setup(&header)?;
///
/// // One phase uses all of it.
/// for (station, peer) in [(0, 1), (1, 0)] {
///     for register in 1..=3 {
///         reached.enter(station, register)?;
///     }
///     for register in 4..=5 {
///         reached.send(station, peer, register)?;
///     }
/// }
/// for (station, peer) in [(0, 1), (0, 1), (1, 0)] {
///     reached.recv(station, peer)?;
/// }
///
/// // Station 0 has counted up to the ceiling. What it may do no more is told by
/// // the allowance, the limit and the link.
/// assert_eq!(advice(reached.enter(0, 6).unwrap_err()), "start a reset");
/// assert_eq!(advice(reached.send(0, 1, 6).unwrap_err()), "start a reset");
/// assert_eq!(reached.recv(0, 1), Err(StepRefusal::EmptyLink));
///
/// // A reset goes through, behind the message that is still under way.
/// assert_eq!(reached.start(0)?, InMode { mode: Mode::Mute, phase: 0 });
/// for (station, peer) in [(1, 0), (1, 0), (0, 1), (0, 1), (1, 0)] {
///     reached.recv(station, peer)?;
/// }
/// assert!(reached.network().is_quiescent());
/// assert_eq!(reached.enter(0, 6)?.phase(), 1);
/// # Ok::<(), Refusal>(())
/// ```
#[derive(Clone, Debug, PartialEq, Eq)]
pub struct Reached {
    network: Network,
}

impl Reached {
    /// The initial network of a header, as [`Network::setup`].
    ///
    /// # Errors
    ///
    /// [`Refusal::Malformed`] where a field is outside its range, then
    /// [`Refusal::NetworkRule`].
    ///
    /// ```
    /// use melontime::{Header, Reached, Refusal};
    ///
    /// let header = Header::new(2, 7).allow(0, 3)?.allow(1, 3)?.link(0, 1, 2)?;
    /// assert!(Reached::setup(&header)?.network().is_quiescent());
    /// let too_low = Header { t: 6, ..header };
    /// assert_eq!(Reached::setup(&too_low), Err(Refusal::NetworkRule));
    /// # Ok::<(), Refusal>(())
    /// ```
    pub fn setup(header: &Header) -> Result<Reached, Refusal> {
        Network::setup(header).map(|network| Reached { network })
    }

    /// The initial network of a header block, as [`Network::setup_block`].
    ///
    /// # Errors
    ///
    /// [`Refusal::Malformed`] for bytes that are no header block, then
    /// [`Refusal::NetworkRule`].
    pub fn setup_block(block: &[u8]) -> Result<Reached, Refusal> {
        Network::setup_block(block).map(|network| Reached { network })
    }

    /// The network, to be read: its header, its bytes, whether it is quiescent.
    #[must_use]
    pub fn network(&self) -> &Network {
        &self.network
    }

    /// The network, which may then be changed in other ways.
    #[must_use]
    pub fn into_network(self) -> Network {
        self.network
    }

    /// An own entry of a station, as [`Network::enter`].
    ///
    /// # Errors
    ///
    /// [`StepRefusal::NoSuchStation`]; [`StepRefusal::UsedUp`] where the
    /// station's allowance of this phase is used up.
    pub fn enter(&mut self, station: u32, register: u32) -> Result<Record, StepRefusal> {
        let entry = self.network.enter(station, register);
        entry.map_err(|refusal| refused("enter", refusal))
    }

    /// A message from a station to a neighbour, as [`Network::send`].
    ///
    /// # Errors
    ///
    /// [`StepRefusal::NoSuchStation`], also for a peer that is no neighbour;
    /// [`StepRefusal::ModeForbids`] where the station is mute, or in stand-by and
    /// has not seen the peer's `reset_done`; [`StepRefusal::UsedUp`] where the
    /// link's limit of this phase is used up.
    pub fn send(&mut self, station: u32, peer: u32, register: u32) -> Result<Record, StepRefusal> {
        let entry = self.network.send(station, peer, register);
        entry.map_err(|refusal| refused("send", refusal))
    }

    /// A station takes the first item of the link from a neighbour, as
    /// [`Network::recv`].
    ///
    /// # Errors
    ///
    /// [`StepRefusal::NoSuchStation`], also for a peer that is no neighbour;
    /// [`StepRefusal::EmptyLink`].
    pub fn recv(&mut self, station: u32, peer: u32) -> Result<Outcome, StepRefusal> {
        let outcome = self.network.recv(station, peer);
        outcome.map_err(|refusal| refused("recv", refusal))
    }

    /// A station starts a reset, as [`Network::start`].
    ///
    /// # Errors
    ///
    /// [`StepRefusal::NoSuchStation`]; [`StepRefusal::ModeForbids`] where the
    /// station is not normal; [`StepRefusal::LastPhase`] in phase 999,999.
    pub fn start(&mut self, station: u32) -> Result<InMode, StepRefusal> {
        let after = self.network.start(station);
        after.map_err(|refusal| refused("start", refusal))
    }

    /// How many receipts bring the network to rest where nothing else is done,
    /// in whichever order they are taken: no order is longer or shorter.
    #[must_use]
    pub fn receipts_to_rest(&self) -> u64 {
        self.network.receipts_to_rest()
    }

    /// Lends the network for receipts alone.
    #[must_use]
    pub fn receipts_only(&mut self) -> ReceiptsOnly<'_> {
        ReceiptsOnly { reached: self }
    }
}

/// A [`Reached`] network that is being laid up: nothing is entered, sent or
/// started, and what is under way is received, in whichever order.
///
/// Each accepted receipt lowers [`left`](ReceiptsOnly::left) by one. While it is
/// above 0 some receipt is possible; when it is 0 every link is empty and every
/// station is normal, all in the phase that the furthest of them was aiming at.
///
/// ```
/// use melontime::{Header, Reached, Refusal, StepRefusal};
///
/// // A message is under way, and a reset that station 1 has started.
/// let mut reached = Reached::setup(&Header::new(2, 7).link(0, 1, 2)?)?;
/// reached.send(0, 1, 501)?;
/// reached.start(1)?;
/// let mut other = reached.clone();
///
/// // Station 1 first receives all that it can.
/// let mut laid_up = reached.receipts_only();
/// assert_eq!(laid_up.left(), 5);
/// laid_up.recv(1, 0)?; // the message
/// assert_eq!(laid_up.recv(1, 0), Err(StepRefusal::EmptyLink));
/// assert_eq!(laid_up.left(), 4);
/// for (station, peer) in [(0, 1), (1, 0), (1, 0), (0, 1)] {
///     assert!(!laid_up.is_at_rest());
///     laid_up.recv(station, peer)?;
/// }
/// assert!(laid_up.left() == 0 && laid_up.is_at_rest());
///
/// // Station 0 goes first: another order, and as many receipts.
/// let mut laid_up = other.receipts_only();
/// for (left, (station, peer)) in (1..=5).rev().zip([(0, 1), (1, 0), (1, 0), (0, 1), (1, 0)]) {
///     assert_eq!(laid_up.left(), left);
///     laid_up.recv(station, peer)?;
/// }
/// assert!(laid_up.left() == 0 && laid_up.is_at_rest());
///
/// // Both are in phase 1 now, and may go on.
/// assert_eq!(reached.send(0, 1, 502)?.phase(), 1);
/// assert_eq!(other.send(1, 0, 502)?.phase(), 1);
/// # Ok::<(), Refusal>(())
/// ```
#[derive(Debug)]
pub struct ReceiptsOnly<'a> {
    reached: &'a mut Reached,
}

impl ReceiptsOnly<'_> {
    /// A station takes the first item of the link from a neighbour, as
    /// [`Reached::recv`].
    ///
    /// # Errors
    ///
    /// [`StepRefusal::NoSuchStation`], also for a peer that is no neighbour;
    /// [`StepRefusal::EmptyLink`].
    pub fn recv(&mut self, station: u32, peer: u32) -> Result<Outcome, StepRefusal> {
        self.reached.recv(station, peer)
    }

    /// How many accepted receipts are still to come.
    #[must_use]
    pub fn left(&self) -> u64 {
        self.reached.receipts_to_rest()
    }

    /// Whether the network is at rest, as [`Network::is_quiescent`].
    #[must_use]
    pub fn is_at_rest(&self) -> bool {
        self.reached.network.is_quiescent()
    }
}

/// The cause of a step's refusal. It is a theorem of the library that a network
/// which steps have reached from an initial one meets no other, so one is a
/// fault of the build and not of the caller.
fn refused(call: &str, refusal: Refusal) -> StepRefusal {
    let number = refusal.number();
    match StepRefusal::from_number(number.into()) {
        Some(refusal) => refusal,
        None => panic!("melontime_{call} answered {number}, which no initial network leads to"),
    }
}

#[cfg(test)]
mod tests {
    use super::*;

    /// A count at the ceiling, where no steps have brought it. Outside of this
    /// module there is no way to such a network of this type.
    #[test]
    #[should_panic(expected = "melontime_enter answered 2")]
    fn another_answer_is_a_fault_of_the_build() {
        let header = Header::new(1, 7).allow(0, 3).expect("a station");
        let initial = Network::setup(&header).expect("a network");
        let mut bytes = initial.as_bytes().to_vec();
        bytes[512] = 7;
        let network = Network::from_bytes(&bytes).expect("a well-formed state");
        let _ = Reached { network }.enter(0, 1);
    }
}
