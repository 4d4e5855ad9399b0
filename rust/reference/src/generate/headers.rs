//! Headers and networks: 'The network' and 'Archive blocks' of document 01.

use super::{other_length, some_byte, spoil_check};
use crate::check::seal;
use crate::header::{Header, MAX_LIMIT};
use crate::random::Rng;
use crate::MAX_STATIONS;

/// The shape of a network.
#[derive(Clone, Copy, Debug, PartialEq, Eq)]
pub enum Shape {
    /// One station.
    Lone,
    /// A random tree.
    Tree,
    /// A ring.
    Ring,
    /// A star with a random centre.
    Star,
    /// A link between any two.
    Complete,
    /// A tree and some links more.
    Mixed,
}

impl Shape {
    /// Every shape.
    pub const ALL: [Shape; 6] = [
        Shape::Lone,
        Shape::Tree,
        Shape::Ring,
        Shape::Star,
        Shape::Complete,
        Shape::Mixed,
    ];
}

/// The pairs of neighbours of a network of n stations.
pub fn pairs_of(rng: &mut Rng, shape: Shape, n: usize) -> Vec<(usize, usize)> {
    let mut label: Vec<usize> = (0..n).collect();
    rng.shuffle(&mut label);
    let mut pairs = Vec::new();
    match shape {
        Shape::Lone => {}
        Shape::Tree | Shape::Mixed => {
            for i in 1..n {
                pairs.push((i, rng.index(i)));
            }
        }
        Shape::Ring => {
            for i in 1..n {
                pairs.push((i - 1, i));
            }
            if n > 2 {
                pairs.push((n - 1, 0));
            }
        }
        Shape::Star => pairs.extend((1..n).map(|i| (0, i))),
        Shape::Complete => pairs.extend((0..n).flat_map(|i| (0..i).map(move |j| (i, j)))),
    }
    if shape == Shape::Mixed {
        for i in 0..n {
            for j in 0..i {
                let known = pairs.contains(&(i, j)) || pairs.contains(&(j, i));
                if !known && rng.chance(1, 4) {
                    pairs.push((i, j));
                }
            }
        }
    }
    pairs
        .into_iter()
        .map(|(i, j)| (label[i], label[j]))
        .collect()
}

/// How a network is to be drawn.
#[derive(Clone, Copy, Debug)]
pub struct NetworkWish {
    /// Its shape; random where there is none.
    pub shape: Option<Shape>,
    /// Whether both ways of a link have one limit, as `turnover` sets them.
    pub symmetric: bool,
    /// Whether limits and allowances are to be small, so that they are used up.
    pub small: bool,
    /// Whether the ceiling is to be the least that the sum rule allows, so that
    /// counts reach it.
    pub tight: bool,
    /// The fewest stations.
    pub fewest: usize,
    /// The most stations.
    pub most: usize,
}

impl Default for NetworkWish {
    fn default() -> NetworkWish {
        NetworkWish {
            shape: None,
            symmetric: false,
            small: false,
            tight: false,
            fewest: 1,
            most: MAX_STATIONS,
        }
    }
}

/// A header that obeys the network rules, as wished. A lone shape has one
/// station whatever the wished number; another shape has two at least.
pub fn network(rng: &mut Rng, wish: NetworkWish) -> Header {
    let shape = wish.shape.unwrap_or_else(|| rng.pick(&Shape::ALL));
    let shape = if wish.fewest > 1 && shape == Shape::Lone {
        Shape::Tree
    } else {
        shape
    };
    let shape = if wish.most < 2 { Shape::Lone } else { shape };
    let n = match shape {
        Shape::Lone => 1,
        _ => rng.range(wish.fewest.max(2) as u64, wish.most as u64) as usize,
    };
    let mut header = Header::new(n as u8, 1);

    let most_limit = if wish.small {
        rng.pick(&[1, 2, 3])
    } else {
        rng.pick(&[1, 2, 4, 8, 16, u64::from(MAX_LIMIT)])
    };
    for (i, j) in pairs_of(rng, shape, n) {
        let limit = |rng: &mut Rng| {
            if rng.chance(1, 4) {
                most_limit as u8
            } else {
                rng.range(1, most_limit) as u8
            }
        };
        header.limits[i][j] = limit(rng);
        header.limits[j][i] = if wish.symmetric {
            header.limits[i][j]
        } else {
            limit(rng)
        };
    }

    let most_allowance: u64 = if wish.small {
        rng.pick(&[0, 1, 3])
    } else {
        rng.pick(&[0, 1, 4, 20, 1000, 65_535])
    };
    for i in 0..n {
        let room = 65_535 - u64::from(header.load(i));
        header.allowances[i] = rng.range(0, most_allowance.min(room)) as u16;
    }

    let least = (0..n).map(|i| header.load(i)).max().unwrap_or(0).max(1);
    header.ceiling = match rng.below(4) {
        0 | 1 => least as u16,
        _ if wish.tight => least as u16,
        2 => rng.range(u64::from(least), u64::from(least + 5).min(65_535)) as u16,
        _ => rng.range(u64::from(least), 65_535) as u16,
    };
    debug_assert!(header.accept().is_ok());
    header
}

/// A header that obeys the network rules.
pub fn any_network(rng: &mut Rng) -> Header {
    let wish = NetworkWish {
        symmetric: rng.chance(1, 3),
        small: rng.chance(1, 2),
        ..NetworkWish::default()
    };
    network(rng, wish)
}

/// A way to break the network rules with every field in its range.
#[derive(Clone, Copy, Debug, PartialEq, Eq)]
pub enum RuleBreak {
    /// A limit on the diagonal.
    Diagonal,
    /// A link with one way only.
    OneWay,
    /// An allowance of a station n or above.
    AllowanceBeyond,
    /// A link of a station n or above.
    LinkBeyond,
    /// A station that cannot be reached.
    Unreached,
    /// A sum above the ceiling.
    SumAboveCeiling,
}

impl RuleBreak {
    /// Every way.
    pub const ALL: [RuleBreak; 6] = [
        RuleBreak::Diagonal,
        RuleBreak::OneWay,
        RuleBreak::AllowanceBeyond,
        RuleBreak::LinkBeyond,
        RuleBreak::Unreached,
        RuleBreak::SumAboveCeiling,
    ];
}

/// A header with every field in its range that breaks one network rule in the
/// way given, and no other.
pub fn rule_breaker(rng: &mut Rng, way: RuleBreak) -> Header {
    let most = MAX_STATIONS - 1;
    loop {
        let wish = NetworkWish {
            fewest: 2,
            most,
            ..NetworkWish::default()
        };
        let mut header = network(rng, wish);
        let n = header.n();
        // Room under the ceiling, so that only the wanted rule is broken.
        let limit = rng.range(1, u64::from(MAX_LIMIT)) as u8;
        match way {
            RuleBreak::Diagonal => {
                let i = rng.index(n);
                header.limits[i][i] = limit;
                header.ceiling = header.ceiling.max(header.load(i).min(65_535) as u16);
            }
            RuleBreak::OneWay => {
                let i = rng.index(n);
                let neighbours: Vec<usize> = header.neighbours(i).collect();
                let j = rng.pick(&neighbours);
                header.limits[i][j] = 0;
                // The rest must still be reached, along links both ways.
                let mut without = header;
                without.limits[j][i] = 0;
                if !without.all_reached() {
                    continue;
                }
            }
            RuleBreak::AllowanceBeyond => {
                let i = rng.range(n as u64, most as u64) as usize;
                header.allowances[i] = rng.range(1, u64::from(header.ceiling)) as u16;
            }
            RuleBreak::LinkBeyond => {
                let i = rng.index(n);
                let j = rng.range(n as u64, most as u64) as usize;
                header.limits[i][j] = limit;
                header.limits[j][i] = limit;
                header.ceiling = header.ceiling.max(header.load(i).min(65_535) as u16);
            }
            RuleBreak::Unreached => {
                // One station, or a part, loses its links to the rest.
                let mut apart: Vec<bool> = (0..n).map(|_| rng.chance(1, 3)).collect();
                apart[rng.range(1, n as u64 - 1) as usize] = true;
                apart[0] = false;
                for (i, &apart_i) in apart.iter().enumerate() {
                    for (j, &apart_j) in apart.iter().enumerate() {
                        if apart_i != apart_j {
                            header.limits[i][j] = 0;
                        }
                    }
                }
            }
            RuleBreak::SumAboveCeiling => {
                let least = (0..n).map(|i| header.load(i)).max().unwrap_or(0);
                if least < 2 {
                    continue;
                }
                header.ceiling = match rng.below(2) {
                    0 => least as u16 - 1,
                    _ => rng.range(1, u64::from(least) - 1) as u16,
                };
            }
        }
        debug_assert!(header.in_range() && !header.obeys_network_rules());
        return header;
    }
}

/// A header with every field in its range, that may break network rules.
pub fn any_ranged_header(rng: &mut Rng) -> Header {
    if rng.chance(1, 2) {
        return any_network(rng);
    }
    let mut header = Header::new(rng.range(1, 8) as u8, rng.range(1, 65_535) as u16);
    if rng.chance(1, 2) {
        header.ceiling = rng.range(1, 9) as u16;
    }
    for row in &mut header.limits {
        for limit in row {
            if rng.chance(1, 2) {
                *limit = rng.range(0, u64::from(MAX_LIMIT)) as u8;
            }
        }
    }
    for allowance in &mut header.allowances {
        *allowance = rng.range(0, 65_535) as u16;
    }
    header
}

/// A way to damage a header block.
#[derive(Clone, Copy, Debug, PartialEq, Eq)]
pub enum HeaderDamage {
    /// Another length.
    Length,
    /// A wrong check.
    Check,
    /// Byte 0 is not 1.
    KindByte,
    /// n is 0 or above 8.
    Stations,
    /// t is 0.
    Ceiling,
    /// A limit above 32.
    Limit,
    /// One of bytes 4 to 7 is not 0.
    Number,
    /// A spare byte is not 0.
    Spare,
}

impl HeaderDamage {
    /// Every way.
    pub const ALL: [HeaderDamage; 8] = [
        HeaderDamage::Length,
        HeaderDamage::Check,
        HeaderDamage::KindByte,
        HeaderDamage::Stations,
        HeaderDamage::Ceiling,
        HeaderDamage::Limit,
        HeaderDamage::Number,
        HeaderDamage::Spare,
    ];
}

/// A header block that is no header block, damaged in the way given; all but a
/// wrong length or check is sealed.
pub fn damaged_header_block(rng: &mut Rng, way: HeaderDamage) -> Vec<u8> {
    let mut block = any_network(rng).to_block_untested();
    match way {
        HeaderDamage::Length => {
            let mut bytes = block.to_vec();
            other_length(rng, &mut bytes);
            return bytes;
        }
        HeaderDamage::Check => {
            spoil_check(rng, &mut block);
            return block.to_vec();
        }
        HeaderDamage::KindByte => {
            block[0] = rng.pick(&[0, 2, 3, 255]);
        }
        HeaderDamage::Stations => {
            block[1] = rng.pick(&[0, 9, 10, 128, 255]);
        }
        HeaderDamage::Ceiling => block[2..4].fill(0),
        HeaderDamage::Limit => {
            block[32 + rng.index(64)] = rng.range(33, 255) as u8;
        }
        HeaderDamage::Number => {
            block[4 + rng.index(4)] = some_byte(rng);
        }
        HeaderDamage::Spare => {
            let at = if rng.chance(1, 2) {
                8 + rng.index(8)
            } else {
                96 + rng.index(414)
            };
            block[at] = some_byte(rng);
        }
    }
    seal(&mut block);
    block.to_vec()
}
