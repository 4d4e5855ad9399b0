//! The image of a state, and the calls on a lent area and on an archive in both
//! ways.

use reference::at_bounds::by_hand;
use reference::check::{seal, BLOCK};
use reference::generate::{admitted_record, any_archive, any_network, any_ranged_header};
use reference::generate::{any_record, any_state, damaged_archive, damaged_header_block};
use reference::generate::{ill_kept_parts, ill_kept_records, mutated_archive, next_step};
use reference::generate::{rule_breaker, spoil_record, wild_step};
use reference::generate::{ArchiveDamage, Habits, HeaderDamage, Kept, RuleBreak};
use reference::header::Header;
use reference::network::{State, Step, AREA};
use reference::random::Rng;
use reference::record::{Kind, Record, NO_PEER};
use reference::refusal::Refusal;
use reference::{archive, area, in_place, order, Counts};

const EVENT: [u8; 32] = [0xa5; 32];

/// A step in both ways: the same answer, record and area.
fn both(before: &[u8], step: Step) -> Vec<u8> {
    let (mut plain, mut placed) = (before.to_vec(), before.to_vec());
    let (mut plain_event, mut placed_event) = (EVENT, EVENT);
    let answer = area::step(&mut plain, &mut plain_event, step);
    assert_eq!(answer, in_place::step(&mut placed, &mut placed_event, step));
    assert!(plain == placed && plain_event == placed_event, "{step:?}");
    if answer.is_err() {
        assert!(plain == before && plain_event == EVENT);
    }
    plain
}

/// Receipts to rest in both ways.
fn both_receipts(bytes: &[u8]) -> Result<u64, Refusal> {
    let receipts = area::receipts_to_rest(bytes);
    assert_eq!(in_place::receipts_to_rest(bytes), receipts);
    receipts
}

#[test]
fn an_image_is_read_back() {
    for seed in 0..200 {
        let state = any_state(&mut Rng::new(seed));
        let image = area::image(&state);
        assert_eq!(area::read(&image).as_ref(), Ok(&state));
        assert_eq!(in_place::test(&image), Ok(state.header));
        assert_eq!(in_place::rest(&image), state.rest());
        assert_eq!(both_receipts(&image), state.receipts_to_rest());
    }
}

#[test]
fn what_is_read_is_its_own_image() {
    let mut images = 0;
    for seed in 0..3000 {
        let mut rng = Rng::new(seed);
        let mut bytes = area::image(&any_state(&mut rng));
        let at = match rng.below(3) {
            0 => rng.index(AREA),
            1 => area::station_at(rng.index(8)) + rng.index(area::STATION),
            _ => area::link_at(rng.index(8), rng.index(8)) + rng.index(40),
        };
        bytes[at] = match rng.below(2) {
            0 => rng.below(4) as u8,
            _ => bytes[at].wrapping_add(1),
        };
        let read = area::read(&bytes);
        assert_eq!(
            in_place::test(&bytes),
            read.as_ref().map(|state| state.header).map_err(|&r| r)
        );
        assert_eq!(both_receipts(&bytes).is_ok(), read.is_ok());
        if let Ok(state) = read {
            assert!(area::image(&state) == bytes, "seed {seed}");
            images += 1;
        }
    }
    assert!(images > 100);
}

/// The test of an area in both ways, of each byte in a range damaged.
fn both_damaged(bytes: &[u8], range: std::ops::Range<usize>) {
    for at in range {
        for value in [0, 1, 2, 3, 33, 128, 255, bytes[at] ^ 1, bytes[at] ^ 128] {
            let mut bytes = bytes.to_vec();
            bytes[at] = value;
            let read = area::read(&bytes).map(|state| state.header);
            assert_eq!(in_place::test(&bytes), read, "byte {at} is {value}");
        }
    }
}

#[test]
fn each_byte_of_stations_and_links_is_tested() {
    for seed in 0..3 {
        let mut rng = Rng::new(seed);
        let bytes = area::image(&any_state(&mut rng));
        both_damaged(&bytes, area::STATIONS_AT..area::LINKS_AT);
        let link = area::link_at(rng.index(8), rng.index(8));
        both_damaged(&bytes, link..link + 1 + 2 * area::ITEM);
        both_damaged(&bytes, area::END - 3..area::END + 3);
        both_damaged(&bytes, AREA - 3..AREA);
    }
}

#[test]
fn no_byte_behind_the_items_is_skipped() {
    let mut bytes = area::image(&any_state(&mut Rng::new(5)));
    let held = |at: usize| {
        let within = (at - area::LINKS_AT) % area::LINK;
        at < area::END && within <= area::ITEM * usize::from(bytes[at - within])
    };
    let behind: Vec<usize> = (area::LINKS_AT..AREA).filter(|&at| !held(at)).collect();
    assert!(in_place::test(&bytes).is_ok());
    for at in behind {
        bytes[at] = 1;
        assert!(in_place::test(&bytes).is_err(), "byte {at}");
        bytes[at] = 0;
    }
}

#[test]
fn where_there_is_no_link_there_is_no_item() {
    for seed in 0..40 {
        let header = any_network(&mut Rng::new(seed));
        let state = State::initial(&header).expect("a network");
        for k in 0..64 {
            let mut bytes = area::image(&state);
            let at = area::link_at(k / 8, k % 8);
            bytes[at..at + 2].copy_from_slice(&[1, 2]);
            let read = area::read(&bytes).map(|state| state.header);
            assert_eq!(in_place::test(&bytes), read);
        }
    }
}

#[test]
fn an_area_of_another_length_is_refused() {
    let mut bytes = area::image(&any_state(&mut Rng::new(1)));
    bytes.push(0);
    for length in [0, BLOCK, AREA - 1, AREA + 1] {
        let mut bytes = bytes[..length].to_vec();
        both(&bytes, Step::Start { station: 0 });
        assert_eq!(in_place::rest(&bytes), area::rest(&bytes));
        assert_eq!(both_receipts(&bytes).is_ok(), length == AREA);
        let block = any_network(&mut Rng::new(1)).to_block_untested();
        let expected = area::setup(&block, &mut bytes);
        assert_eq!(in_place::setup(&block, &mut bytes), expected);
    }
}

#[test]
fn steps_in_both_ways() {
    for seed in 0..60 {
        let mut rng = Rng::new(seed);
        let state = match seed % 3 {
            0 => State::initial(&any_network(&mut rng)).expect("a network"),
            _ => any_state(&mut rng),
        };
        let mut bytes = area::image(&state);
        let mut habits = Habits::any(&mut rng);
        for _ in 0..300 {
            if rng.chance(1, 24) {
                habits = Habits::any(&mut rng);
            }
            let state = area::read(&bytes).expect("an image");
            let step = match rng.below(8) {
                0 => wild_step(&mut rng),
                _ => next_step(&mut rng, &state, &habits),
            };
            bytes = both(&bytes, step);
            assert!(both_receipts(&bytes).is_ok());
        }
    }
}

#[test]
fn steps_at_the_bounds_in_both_ways() {
    for case in by_hand() {
        let before = area::image(&case.state);
        let after = both(&before, case.step);
        let accepted = case.number == 0;
        assert_eq!(after != before, accepted, "{}", case.what);
        let outcome = in_place::step(&mut before.clone(), &mut EVENT.clone(), case.step);
        let number = outcome.map_or_else(|refusal| refusal.number(), |_| 0);
        assert_eq!(number, case.number, "{}", case.what);
    }
}

/// Setup in both ways: the same answer and area.
fn both_setups(block: &[u8]) {
    let (mut plain, mut placed) = (vec![7; AREA], vec![7; AREA]);
    let answer = area::setup(block, &mut plain);
    assert_eq!(in_place::setup(block, &mut placed), answer);
    assert!(plain == placed);
}

#[test]
fn setup_in_both_ways() {
    for seed in 0..200 {
        let mut rng = Rng::new(seed);
        both_setups(&any_network(&mut rng).to_block_untested());
        both_setups(&any_ranged_header(&mut rng).to_block_untested());
        for way in RuleBreak::ALL {
            both_setups(&rule_breaker(&mut rng, way).to_block_untested());
        }
        for way in HeaderDamage::ALL {
            both_setups(&damaged_header_block(&mut rng, way));
        }
    }
}

/// A block with a byte changed and the check made right again.
fn resealed(block: &[u8; BLOCK], at: usize, value: u8) -> [u8; BLOCK] {
    let mut block = *block;
    block[at] = value;
    seal(&mut block);
    block
}

#[test]
fn each_byte_of_a_header_is_tested() {
    let block = any_network(&mut Rng::new(3)).to_block_untested();
    for at in 0..510 {
        for value in [0, 1, 2, 8, 9, 32, 33, 128, 255] {
            both_setups(&resealed(&block, at, value));
        }
    }
}

#[test]
fn verdicts_in_both_ways() {
    for seed in 0..20_000 {
        let mut rng = Rng::new(seed);
        let (mut first, second) = (any_record(&mut rng), any_record(&mut rng));
        if rng.chance(3, 4) {
            first.phase = second.phase;
        }
        if rng.chance(1, 8) {
            first.counts = second.counts;
        }
        let mut spoilt = first.to_bytes();
        spoil_record(&mut rng, &first, &mut spoilt);
        let mut mutated = first.to_bytes();
        mutated[rng.index(32)] = rng.below(256) as u8;
        let second = second.to_bytes();
        for first in [first.to_bytes(), spoilt, mutated] {
            for (first, second) in [(first, second), (second, first)] {
                let expected = order::verdict(&first, &second);
                assert_eq!(in_place::verdict(&first, &second), expected);
                let expected = order::verdict(&first[..31], &second);
                assert_eq!(in_place::verdict(&first[..31], &second), expected);
            }
        }
    }
}

/// A list in both ways into so many places: the same answer, and places alike
/// to the last one. A refusal leaves them all.
fn both_lists(bytes: &[u8], r: usize, length: usize) -> Result<usize, Refusal> {
    let mut plain = vec![usize::MAX; length];
    let mut placed = vec![u64::MAX; length];
    let answer = archive::unordered_list(bytes, r, &mut plain);
    assert_eq!(
        in_place::archives::unordered_list(bytes, r, &mut placed),
        answer
    );
    assert!(plain.iter().zip(&placed).all(|(&a, &b)| a as u64 == b));
    let behind = &placed[answer.unwrap_or(0)..];
    assert!(behind.iter().all(|&place| place == u64::MAX));
    answer
}

/// The calls on an archive in both ways.
fn both_archives(bytes: &[u8], r: usize) {
    let count = archive::record_count(bytes);
    assert_eq!(in_place::archives::record_count(bytes), count);
    let length = count.unwrap_or(0);
    let answer = both_lists(bytes, r, length);
    let listed = answer.unwrap_or(0);
    for length in [length / 3, 2, 0, listed, listed + 3] {
        both_lists(bytes, r, length).ok();
    }
    // A list that is one place short.
    if listed > 0 {
        assert_eq!(both_lists(bytes, r, listed - 1), Err(Refusal::BufferLength));
    }
}

#[test]
fn archives_in_both_ways() {
    for seed in 0..400 {
        let mut rng = Rng::new(seed);
        let bytes = any_archive(&mut rng, 60);
        for _ in 0..4 {
            both_archives(&bytes, rng.index(62));
        }
        both_archives(&mutated_archive(&mut rng, 60), rng.index(60));
        for way in ArchiveDamage::ALL {
            both_archives(&damaged_archive(&mut rng, way, 40), rng.index(40));
        }
    }
}

#[test]
fn ill_kept_archives_in_both_ways() {
    for seed in 0..60 {
        let mut rng = Rng::new(seed);
        for kept in Kept::ALL {
            let (phases, count) = (rng.range(1, 3) as u32, 1 + rng.index(400));
            let (header, records) = ill_kept_parts(&mut rng, kept, phases, count);
            let bytes = archive::build(&header, &records).expect("an archive");
            for _ in 0..4 {
                both_archives(&bytes, rng.index(count + 1));
            }
        }
    }
}

/// So many that there is much to sort, with few own counts and with many.
#[test]
fn large_ill_kept_archives_in_both_ways() {
    for kept in Kept::ALL {
        for ceiling in [9, 65_535] {
            let mut rng = Rng::new(9);
            let header = Header::new(8, ceiling);
            let records = ill_kept_records(&mut rng, &header, kept, 2, 20_000);
            let bytes = archive::build(&header, &records).expect("an archive");
            let listed = both_lists(&bytes, rng.index(20_000), 20_000);
            assert!(listed.is_ok_and(|listed| listed > 5_000), "{kept:?}");
        }
    }
}

/// Station 0 counts from `count` down to 1, and each time station 1 up.
#[test]
fn a_station_that_falls_beside_one_that_rises() {
    for count in [1, 2, 3, 8, 15, 16, 100, 5_000] {
        let falls = |k: u16| [count + 1 - k, 0, 0, 0, 0, 0, 0, 0];
        let rises = |k: u16| [0, k, 0, 0, 0, 0, 0, 0];
        let entries = (1..=count).flat_map(|k| [(0, falls(k)), (1, rises(k))]);
        let last = (2, [0, 0, 1, 0, 0, 0, 0, 0]);
        let records: Vec<Record> = entries.chain([last]).map(own_entry).collect();
        let bytes = archive::build(&Header::new(3, 65_535), &records).expect("an archive");
        let count = usize::from(count);
        let mut list = vec![u64::MAX; 2 * count + 1];
        let answer = in_place::archives::unordered_list(&bytes, 2 * count, &mut list);
        assert_eq!(answer, Ok(2 * count));
        for k in 0..count {
            assert_eq!(list[k], 2 * (count - 1 - k) as u64);
            assert_eq!(list[count + k], 2 * k as u64 + 1);
        }
        assert_eq!(list[2 * count], u64::MAX);
    }
}

fn own_entry((station, counts): (u8, Counts)) -> Record {
    Record {
        kind: Kind::Own,
        station,
        peer: NO_PEER,
        phase: 0,
        register: 0,
        counts,
    }
}

/// An archive of so many records that its header admits.
fn archive_of(rng: &mut Rng, header: &Header, count: usize) -> Vec<u8> {
    let mut records: Vec<Record> = Vec::new();
    while records.len() < count {
        records.extend(admitted_record(rng, header));
    }
    archive::build(header, &records).expect("an archive")
}

#[test]
fn small_archives_in_both_ways() {
    for seed in 0..20 {
        let mut rng = Rng::new(seed);
        let header = any_network(&mut rng);
        for count in 0..=46 {
            let bytes = archive_of(&mut rng, &header, count);
            assert_eq!(in_place::archives::record_count(&bytes), Ok(count));
            both_archives(&bytes, rng.index(47));
        }
    }
}

/// Each byte of each block damaged, the check made right again.
fn both_resealed(bytes: &[u8], values: &[u8]) {
    let mut bytes = bytes.to_vec();
    for start in (0..bytes.len()).step_by(BLOCK) {
        let block: [u8; BLOCK] = bytes[start..][..BLOCK].try_into().expect("a block");
        for at in 0..510 {
            for &value in values {
                bytes[start..][..BLOCK].copy_from_slice(&resealed(&block, at, value));
                let count = archive::record_count(&bytes);
                assert_eq!(in_place::archives::record_count(&bytes), count);
            }
        }
        bytes[start..][..BLOCK].copy_from_slice(&block);
    }
}

#[test]
fn each_byte_of_an_archive_is_tested() {
    for seed in 0..6 {
        let mut rng = Rng::new(seed);
        let header = any_ranged_header(&mut rng);
        let count = rng.pick(&[15, 16, 22, 30]);
        let bytes = archive_of(&mut rng, &header, count);
        both_resealed(&bytes, &[0, 1, 2, 3, 7, 8, 15, 33, 128, 254, 255]);
    }
}

#[test]
fn every_front_of_a_record_is_tested() {
    for seed in 0..4 {
        let mut rng = Rng::new(seed);
        let header = any_ranged_header(&mut rng);
        let mut bytes = archive_of(&mut rng, &header, 1);
        let (head, block) = bytes.split_at_mut(BLOCK);
        let mut block: [u8; BLOCK] = (*block).try_into().expect("a block");
        // Every own count is right, so that the front alone decides.
        for k in 0..header.n() {
            block[32 + 2 * k..][..2].copy_from_slice(&[1, 0]);
        }
        for front in 0..1 << 15 {
            let (kind, station, peer) = (front % 8, front >> 3 & 15, front >> 7);
            block[16..19].copy_from_slice(&[kind as u8, station as u8, peer as u8]);
            seal(&mut block);
            let bytes = [&*head, &block].concat();
            let count = archive::record_count(&bytes);
            assert_eq!(in_place::archives::record_count(&bytes), count);
        }
    }
}

#[test]
fn a_wrong_check_is_refused() {
    for seed in 0..50 {
        let mut rng = Rng::new(seed);
        let header = any_network(&mut rng);
        let bytes = archive_of(&mut rng, &header, 20);
        for at in 0..bytes.len() {
            let mut bytes = bytes.clone();
            bytes[at] ^= 1 << rng.below(8);
            assert!(in_place::archives::record_count(&bytes).is_err());
        }
    }
}
