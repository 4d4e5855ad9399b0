//! A second implementation of the specification (document 01, with the changes
//! of document 02 that docs/CHANGES.md lists), written straight from its text in
//! plain Rust. It is meant to be compared with the proved library on many
//! inputs, and shares no code and no definition with it but the layout of the
//! state area.
//!
//! Names follow the standard terms of distributed systems: a *message* is the
//! document's note, a *timestamp* its stamp, *happened-before* its recorded
//! order, *begin reset* and the *reset rules* its begin and turning rules,
//! *initial* its fresh, a *buffer* its lent area, a *target* phase its aim, a
//! *control item* a reset_req or reset_done. The *news* of a receipt is how many
//! of the other stations' counts the message raised.
//!
//! | module | section of document 01 |
//! |---|---|
//! | [`refusal`] | 'State area and host', the table of numbers; document 02, CR 2 and CR 9 |
//! | [`check`], [`header`], [`entries`], [`record`] | 'Archive blocks'; document 02, CR 3 |
//! | [`order`] | 'Plain network and recorded order', timestamp order and verdicts |
//! | [`archive`] | 'Archive blocks', archives, readers and lists; document 02, CR 4 |
//! | [`between_phases`] | document 02, CR 2 |
//! | [`network`] | 'The network', 'What a station holds', 'The steps', 'State area and host'; document 02, CR 5, CR 7, CR 9 and CR 12 |
//! | [`area`], [`in_place`] | 'State area and host', with the layout of docs/LAYOUT.md |
//! | [`causality`] | 'Plain network and recorded order', demand 3 |
//! | [`turnover`] | 'turnover'; document 02, CR 1 and CR 7 |
//! | [`random`], [`generate`] | none: inputs for tests and comparisons |
//! | [`at_bounds`] | document 02, CR 9: the same, by hand |

#![forbid(unsafe_code)]
#![warn(missing_docs)]

pub mod archive;
pub mod area;
pub mod at_bounds;
pub mod between_phases;
pub mod causality;
pub mod check;
pub mod entries;
pub mod generate;
pub mod header;
pub mod in_place;
pub mod network;
pub mod order;
pub mod random;
pub mod record;
pub mod refusal;
pub mod turnover;

/// Most stations that a network can have ('The network').
pub const MAX_STATIONS: usize = 8;

/// Eight counts, one for each station ('What a station holds').
pub type Counts = [u16; MAX_STATIONS];

/// The last phase: a phase is 0 to 999,999 ('What a station holds').
pub const LAST_PHASE: u32 = 999_999;
