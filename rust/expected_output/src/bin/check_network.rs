//! What the program check_network is to print.

use expected_output::spaced;
use reference::area;
use reference::header::Header;
use reference::network::*;
// A case a line: numbers, the number of the call first, and behind a bar what is written of it, with the rest of its numbers.
const INPUT: &str = include_str!("../../../../crates/check_network/stdin");
const A: usize = 65536;
fn numbers(line: &str) -> Vec<usize> {
    let digits = line.split(|c: char| !c.is_ascii_digit());
    let numbers = digits.filter(|x| !x.is_empty());
    numbers.map(|x| x.parse().unwrap()).collect()
}
fn digest(s: &[u8]) -> u64 {
    let mut h = 1u64;
    for &b in s {
        h = (h * 257 + b as u64) % 1000000007
    }
    h
}
fn num(e: reference::refusal::Refusal) -> u8 {
    e.number()
}
fn step_of(kind: usize, station: usize, peer: usize, register: u32) -> Step {
    match kind {
        1 => Step::Enter { station, register },
        2 => Step::Send {
            station,
            peer,
            register,
        },
        3 => Step::Recv { station, peer },
        _ => Step::Start { station },
    }
}
// One call: the answer without its number, and the refusal's number or 0.
fn step(a: &mut Vec<u8>, n: usize, kind: usize, i: usize, j: usize, reg: u32) -> (String, u8) {
    let st = step_of(kind, i, j, reg);
    let Ok(mut s) = area::read(a) else {
        return ("no 2".into(), 2);
    };
    let before = s.clone();
    match s.step(st) {
        Err(e) => {
            assert!(s == before);
            (format!("no {}", num(e)), num(e))
        }
        Ok(Answer::Entry { record: r, news }) => {
            *a = area::image(&s);
            let counts = spaced(&r.counts[..n]);
            // A receipt's news stands behind the counts.
            let news = spaced(news);
            (format!("entry {} {}{counts}{news}", r.phase, r.station), 0)
        }
        Ok(Answer::Mode { mode, phase }) => {
            *a = area::image(&s);
            (format!("mode {} {} {}", phase, i, mode.word()), 0)
        }
    }
}
// Rest of an area in words.
fn rest(a: &[u8]) -> &'static str {
    match area::rest(a) {
        Err(_) => "refused 2",
        Ok(true) => "yes",
        Ok(false) => "no",
    }
}
// The receipts to rest of an area, or their refusal.
fn receipts_to_rest(a: &[u8]) -> String {
    match area::receipts_to_rest(a) {
        Err(e) => format!("refused {}", num(e)),
        Ok(number) => number.to_string(),
    }
}
// A step, rest or, as call 6, receipts to rest, by its call and its line: how many counts are shown, a station, its peer, a register number, the number of the step.
fn call(a: &mut Vec<u8>, kind: usize, x: &[usize]) {
    let number = x[5];
    match kind {
        1..=4 => {
            let (s, _) = step(a, x[1], kind, x[2], x[3], x[4] as u32);
            println!("{number} {s}");
        }
        6 => println!("{number} receipts {}", receipts_to_rest(a)),
        _ => println!("{number} rest {}", rest(a)),
    }
}
fn short(a: &[u8], kind: usize, x: &[usize]) {
    let mut b = a[..A - 1].to_vec();
    call(&mut b, kind, x);
    assert!(b[..] == a[..A - 1]);
}
// A receipt by every station from every station.
fn receipts(a: &mut Vec<u8>, x: &[usize]) {
    for i in 0..8 {
        for j in 0..8 {
            let (s, e) = step(a, x[1], 3, i, j, 0);
            if e != 4 && e != 7 {
                println!("{} {}", x[5], s)
            }
        }
    }
}
// Setup from and into so many bytes: n, t, the byte of the block that is raised and by how much, the allowances and the limits.
fn setup(a: &mut Vec<u8>, x: &[usize]) -> u8 {
    let mut h = Header::new(x[3] as u8, x[4] as u16);
    h.allowances = std::array::from_fn(|i| x[7 + i] as u16);
    h.limits = std::array::from_fn(|i| std::array::from_fn(|j| x[15 + 8 * i + j] as u8));
    let mut b = h.to_block().map(|b| b.to_vec()).unwrap_or(vec![0; 512]);
    b[x[5]] = b[x[5]].wrapping_add(x[6] as u8);
    match setup_area(x[2], &b[..x[1]]) {
        Ok(s) => {
            *a = area::image(&s);
            0
        }
        Err(e) => num(e),
    }
}
// Random numbers from a seed.
struct Draws(u64);
impl Draws {
    fn below(&mut self, k: usize) -> usize {
        self.0 = (self.0 * 1103515245 + 12345) % 2147483648;
        (self.0 / 65536) as usize % k
    }
}
// So many random steps of n stations; a refused one counts and changes nothing.
fn random_steps(a: &mut [u8], count: usize, seed: usize, n: usize) {
    let Ok(mut s) = area::read(a) else { return };
    let mut x = Draws(seed as u64);
    for _ in 0..count {
        let (kind, i, j) = (x.below(8), x.below(n.max(1)), x.below(n.max(1)));
        let kind = [1, 2, 2, 2, 3, 3, 3, 4][kind];
        let _ = s.step(step_of(kind, i, j, 7));
    }
    area::write(&s, a);
}
// Receipts alone in an order, until none is accepted; how many were. Each round takes the first that can be taken, seen from a place on in a direction.
fn receive_all(a: &mut [u8], order: usize, seed: usize) -> usize {
    let Ok(mut s) = area::read(a) else { return 0 };
    let mut x = Draws(seed as u64);
    let mut accepted = 0;
    for _ in 0..65536 {
        let (from, by) = match order {
            0 => (0, 1),
            1 => (63, 63),
            _ => (x.below(64), 1),
        };
        let mut places = (0..64).map(|m| (from + m * by) % 64);
        if !places.any(|k| s.step(step_of(3, k / 8, k % 8, 0)).is_ok()) {
            break;
        }
        accepted += 1;
    }
    area::write(&s, a);
    accepted
}
// The receipts to rest, and on a copy those that are accepted and rest after them.
fn to_rest(a: &[u8], order: usize, seed: usize) -> String {
    let mut b = a.to_vec();
    let accepted = receive_all(&mut b, order, seed);
    format!(" {} {accepted} rest {}", receipts_to_rest(a), rest(&b))
}
// How many of the bytes, each raised alone, make no image.
fn flips(a: &mut [u8], by: u8) -> usize {
    let mut no = 0;
    for p in 0..A {
        a[p] = a[p].wrapping_add(by);
        no += area::read(a).is_err() as usize;
        a[p] = a[p].wrapping_sub(by);
    }
    no
}
// A line; `no` is what call 11 has counted.
fn take(a: &mut Vec<u8>, no: &mut usize, line: &str) {
    let x = numbers(line);
    print!("{}", line.split_once('|').map_or("", |parts| parts.1));
    match x[0] {
        6 => a[x[2]] = x[3] as u8,
        7 => receipts(a, &x),
        8 => a.fill(7),
        9 => drop(setup(a, &x)),
        10 => println!(" {}", setup(a, &x)),
        11 if x[1] == 2 => {
            *no = flips(a, x[2] as u8);
            print!(" {no}");
        }
        11 => print!(" {}", A - *no),
        12 => random_steps(a, x[1], x[2], x[3]),
        13 => println!("{}", to_rest(a, x[1], x[2])),
        14 => call(a, 6, &x),
        21..=29 => short(a, x[0] % 10, &x),
        30 => println!(),
        31 => println!(" {}", a.iter().filter(|&&x| x != 7).count()),
        32 => println!(" {}", digest(a)),
        k => call(a, k, &x),
    }
}
fn main() {
    let (mut a, mut no) = (vec![0u8; A], 0);
    for line in INPUT.lines() {
        take(&mut a, &mut no, line);
    }
}

#[cfg(test)]
mod tests {
    use super::*;
    use std::collections::{BTreeMap, BTreeSet};

    // A state that receipts alone are taken from, and the lines for it.
    #[derive(Default)]
    struct Driven {
        orders: BTreeSet<usize>,
        lines: BTreeSet<String>,
    }

    // The states that calls from setup on have led to, by their bytes.
    fn driven() -> BTreeMap<Vec<u8>, Driven> {
        let (mut a, mut no, mut lent) = (vec![0; A], 0, true);
        let mut all: BTreeMap<Vec<u8>, Driven> = BTreeMap::new();
        for line in INPUT.lines() {
            let x = numbers(line);
            match x[0] {
                6 | 8 => lent = true,
                9 | 10 => lent = false,
                11 => continue,
                13 if !lent => {
                    let driven = all.entry(a.clone()).or_default();
                    driven.orders.insert(x[1].min(2));
                    driven.lines.insert(to_rest(&a, x[1], x[2]));
                }
                _ => {}
            }
            take(&mut a, &mut no, line);
        }
        all
    }

    // All orders are as long as the number says, and bring the network to rest; and the states have something to them.
    #[test]
    fn orders_agree() {
        let all = driven();
        let mut met = BTreeMap::new();
        for (a, driven) in &all {
            let s = area::read(a).unwrap();
            let number = s.receipts_to_rest().unwrap();
            let line = format!(" {number} {number} rest yes");
            assert_eq!(driven.lines, BTreeSet::from([line]));
            assert_eq!(driven.orders, BTreeSet::from([0, 1, 2]));
            let phases = || s.stations.iter().map(|station| station.phase);
            let is = |mode| s.stations.iter().any(|station| station.mode == mode);
            let apart = phases().max().unwrap() - phases().min().unwrap();
            for (what, holds) in [
                ("not at rest", number > 0),
                ("with messages", s.messages_under_way() > 0),
                ("with a mute station", is(Mode::Mute)),
                ("with a station in stand-by", is(Mode::StandBy)),
                ("phases apart", apart > 0),
                ("two phases apart", apart > 1),
            ] {
                *met.entry(what).or_insert(0) += usize::from(holds);
            }
        }
        println!("{} states, {met:?}", all.len());
        assert!(met.values().all(|&states| states > 1), "{met:?}");
        let networks: BTreeSet<&[u8]> = all.keys().map(|a| &a[..512]).collect();
        assert!(networks.len() >= 10);
    }
}
