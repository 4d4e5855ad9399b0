//! A register of events kept by up to eight stations: a Rust interface to the
//! proved static library.
//!
//! Every event bears a vector timestamp of eight counts. The stations reset
//! their counts together, from phase to phase, so that the counts stay small.
//! Events are kept in an archive, which tells from its bytes alone which of two
//! events came first, across resets too, or that neither did.
//!
//! All that is decided is decided by the proved library. This crate gives its
//! numbers and byte slices Rust types: a [`Network`] of stations with its
//! steps, the [`Record`] of an event, the [`Receipt`] of a message with its
//! news, the [`Verdict`] on two records, header and entries blocks, and the
//! [`Archive`], which is asked for the order of any two of its records. A
//! refused call is an `Err` with its [`Refusal`], and changes nothing. A station
//! is named by a `u32`, everywhere. A [`Reached`] network is one that comes from
//! setup by steps alone; its steps have five causes to be refused, and no other.
//! [`ReceiptsOnly`] lays one up: it takes receipts alone, and tells how many
//! there are still to come. A [`WellKept`] archive has an order of any two of its
//! records, whatever their phases.
//!
//! # A network
//!
//! Two stations, counts up to 7, each allowed 3 own entries in a phase, a link
//! of limit 2 between them.
//!
//! ```
//! use melontime::{Header, InMode, Mode, Network, Outcome, Refusal};
//!
//! let header = Header::new(2, 7).allow(0, 3)?.allow(1, 3)?.link(0, 1, 2)?;
//! let mut network = Network::setup(&header)?;
//!
//! let own = network.enter(0, 501)?;
//! let sent = network.send(0, 1, 502)?;
//! let Outcome::Entry(receipt) = network.recv(1, 0)? else {
//!     panic!("the link holds a message");
//! };
//! assert_eq!(receipt.record.register(), 502);
//! assert_eq!(receipt.record.counts()[..2], [2, 1]);
//! assert_eq!(receipt.news, 1); // one other station's count has grown
//! assert_eq!(network.recv(1, 0), Err(Refusal::EmptyLink));
//!
//! // Station 1 starts a reset: it is mute until its neighbour has answered.
//! assert_eq!(network.start(1)?, InMode { mode: Mode::Mute, phase: 0 });
//! assert_eq!(network.send(1, 0, 503), Err(Refusal::ModeForbids));
//! # let _ = (own, sent);
//! # Ok::<(), Refusal>(())
//! ```
//!
//! # An archive
//!
//! ```
//! # use melontime::{Header, Network, Refusal};
//! use melontime::{archive_bytes, Archive, Verdict};
//!
//! # let header = Header::new(2, 7).allow(0, 3)?.allow(1, 3)?.link(0, 1, 2)?;
//! # let mut network = Network::setup(&header)?;
//! let records = [network.enter(0, 1)?, network.enter(1, 2)?, network.enter(0, 3)?];
//! let bytes = archive_bytes(&header, &records)?;
//!
//! let archive = Archive::open(&bytes)?;
//! assert_eq!(archive.len(), 3);
//! assert_eq!(archive.unordered(0)?, [1]);
//! assert_eq!(archive.verdict(0, 2)?, Verdict::Before);
//! assert!(archive.into_iter().all(|record| record.phase() == 0));
//! # Ok::<(), Refusal>(())
//! ```
//!
//! The library is linked as `libmelontime.a` from the folder
//! `crates/melontime/out` of the repository, or from the one that the environment
//! variable `MELONTIME_LIB` names.

#![deny(unsafe_code)]
#![warn(missing_docs)]
#![warn(clippy::missing_errors_doc, clippy::must_use_candidate)]

mod archive;
mod blocks;
mod network;
pub mod raw;
mod reached;
mod record;
mod refusal;

pub use archive::{archive_bytes, Archive, Records, WellKept};
pub use blocks::{write_entries, EntriesBlock, Header};
pub use network::{InMode, Mode, Network, NetworkMut, Outcome, Receipt};
pub use reached::{Reached, ReceiptsOnly, StepRefusal};
pub use record::{verdict, Kind, Record, Verdict};
pub use refusal::Refusal;

/// Most stations of a network.
pub const MAX_STATIONS: usize = 8;

/// The length of a network's state in bytes.
pub const AREA: usize = 65_536;

/// The length of an archive's block in bytes.
pub const BLOCK: usize = 512;

/// The length of a record in bytes.
pub const RECORD: usize = 32;

/// Most records of an entries block.
pub const MAX_RECORDS: usize = 15;
