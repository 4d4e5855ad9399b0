//! Random inputs for tests and comparisons: headers, networks, states, steps,
//! records, archives and scripts for `turnover`, right ones and damaged ones.
//!
//! Everything comes from an [`Rng`], so a seed names a case.

use crate::check::block_check;
use crate::random::Rng;

mod archives;
mod headers;
mod kept;
mod scripts;
mod states;
mod steps;

pub use archives::*;
pub use headers::*;
pub use kept::*;
pub use scripts::*;
pub use states::*;
pub use steps::*;

/// A byte that is not 0.
fn some_byte(rng: &mut Rng) -> u8 {
    rng.range(1, 255) as u8
}

/// Changes a block's stored check to a wrong one.
fn spoil_check(rng: &mut Rng, block: &mut [u8]) {
    let right = block_check(block);
    let wrong = match rng.below(3) {
        // The same remainder, but not reduced, where that can be stored.
        0 if right < 15 => right + 65_521,
        1 => right ^ (1 << rng.below(16)),
        _ => right.wrapping_add(rng.range(1, 65_535) as u16),
    };
    block[510..].copy_from_slice(&wrong.to_le_bytes());
}

/// Another length for some bytes: cut or grown, by a little or by much.
fn other_length(rng: &mut Rng, bytes: &mut Vec<u8>) {
    let length = bytes.len();
    match rng.below(4) {
        0 => bytes.truncate(length - 1),
        1 => bytes.push(0),
        2 => bytes.truncate(rng.index(length)),
        _ => bytes.extend(std::iter::repeat_n(0, rng.range(1, 511) as usize)),
    }
}

/// A number from 0 to `most`, often at or near a bound.
fn near_bounds(rng: &mut Rng, most: u64) -> u64 {
    match rng.below(5) {
        0 => 0,
        1 => most,
        2 => most.saturating_sub(1),
        3 => rng.below(4).min(most),
        _ => rng.range(0, most),
    }
}

/// A register number, small or at a bound or any.
pub fn any_register(rng: &mut Rng) -> u32 {
    match rng.below(4) {
        0 => rng.pick(&[0, 1, u32::MAX, u32::MAX - 1]),
        1 => rng.range(0, 999) as u32,
        _ => rng.next_u64() as u32,
    }
}
