//! Header and entries blocks, records and verdicts against the independent
//! implementation.

use comparison::{cases, judged, refusal, written};
use melontime::raw;
use reference::check::seal;
use reference::entries::{self, block_untested, EntriesBlock};
use reference::generate::{
    any_network, any_ranged_header, any_record, damaged_header_block, spoil_record, HeaderDamage,
};
use reference::header::Header;
use reference::order;
use reference::random::Rng;
use reference::record::Record;

/// The fields of a header as the library takes them.
fn field_bytes(header: &Header) -> (Vec<u8>, Vec<u8>) {
    let allowances = header.allowances.iter().flat_map(|a| a.to_le_bytes());
    (allowances.collect(), header.limits.concat())
}

/// The header writer by both on buffers filled with one byte.
fn compare_header_write(rng: &mut Rng, header: &Header, length: usize) {
    let fill = rng.next_u64() as u8;
    let (mut ours, mut theirs) = (vec![fill; length], vec![fill; length]);
    let (allowances, limits) = field_bytes(header);
    let (n, t) = (u32::from(header.stations), u32::from(header.ceiling));
    let answer = raw::write_header(n, t, &allowances, &limits, &mut ours);
    assert_eq!(answer, written(header.write(&mut theirs)), "{header:?}");
    assert_eq!(ours, theirs);
}

/// The header reader by both; it leaves what lies behind the 83 bytes.
fn compare_header_read(block: &[u8], length: usize) {
    let mut fields = vec![0xa5; length];
    let answer = raw::read_header(block, &mut fields);
    let mut expected = vec![0xa5; length];
    let number = match Header::read(block) {
        Err(cause) => refusal(cause),
        Ok(_) if length < 83 => 11,
        Ok(header) => {
            let (allowances, limits) = field_bytes(&header);
            expected[0] = header.stations;
            expected[1..3].copy_from_slice(&header.ceiling.to_le_bytes());
            expected[3..19].copy_from_slice(&allowances);
            expected[19..83].copy_from_slice(&limits);
            0
        }
    };
    assert_eq!(answer, number);
    assert_eq!(fields, expected);
}

#[test]
fn headers() {
    cases("headers", 2_000, |rng| {
        let mut header = match rng.below(2) {
            0 => any_network(rng),
            _ => any_ranged_header(rng),
        };
        match rng.below(6) {
            0 => header.stations = rng.pick(&[0, 9, 255]),
            1 => header.ceiling = 0,
            2 => header.limits[rng.index(8)][rng.index(8)] = rng.range(30, 36) as u8,
            _ => {}
        }
        for length in [0, 511, 512, 513, 600] {
            compare_header_write(rng, &header, length);
        }
        let block = header.to_block_untested();
        for length in [0, 1, 82, 83, 84, 200] {
            compare_header_read(&block, length);
            let way = rng.pick(&HeaderDamage::ALL);
            compare_header_read(&damaged_header_block(rng, way), length);
        }
        let records = any_record(rng).to_bytes();
        compare_header_read(&block_untested(1, &records), 83);
    });
}

#[test]
fn header_arguments_out_of_range() {
    let header = Header::new(1, 1);
    let (allowances, limits) = field_bytes(&header);
    let mut area = [9; 600];
    for (n, t) in [
        (256, 1),
        (257, 1),
        (u32::MAX, 1),
        (1, 65_536),
        (1, 65_537),
        (1, u32::MAX),
    ] {
        assert_eq!(raw::write_header(n, t, &allowances, &limits, &mut area), 1);
        assert_eq!(
            raw::write_header(n, t, &allowances, &limits, &mut area[..5]),
            1
        );
    }
    for length in [0, 1, 15, 17, 32] {
        assert_eq!(
            raw::write_header(1, 1, &vec![0; length], &limits, &mut area),
            1
        );
    }
    for length in [0, 1, 63, 65, 128] {
        assert_eq!(
            raw::write_header(1, 1, &allowances, &vec![0; length], &mut area),
            1
        );
    }
    assert_eq!(area, [9; 600]);
    assert_eq!(
        raw::write_header(1, 1, &allowances, &limits, &mut area[..511]),
        11
    );
    assert_eq!(area, [9; 600]);
    assert_eq!(raw::write_header(1, 1, &allowances, &limits, &mut area), 0);
    assert_eq!(area[512..], [9; 88]);
}

#[test]
fn each_byte_of_a_header() {
    cases("each_byte_of_a_header", 8, |rng| {
        let right = any_ranged_header(rng).to_block_untested();
        for at in 0..512 {
            for _ in 0..4 {
                let mut block = right;
                block[at] ^= rng.range(1, 255) as u8;
                compare_header_read(&block, 83);
                seal(&mut block);
                compare_header_read(&block, 83);
            }
        }
    });
}

/// The entries writer by both.
fn compare_entries_write(number: u32, records: &[u8], length: usize) {
    let (mut ours, mut theirs) = (vec![0xa5; length], vec![0xa5; length]);
    let answer = raw::write_entries(number, records, &mut ours);
    let result = entries::write(number, records, &mut theirs);
    assert_eq!(answer, written(result), "{} bytes", records.len());
    assert_eq!(ours, theirs);
}

/// The entries readers by both.
fn compare_entries_read(rng: &mut Rng, block: &[u8]) {
    let opened = EntriesBlock::open(block);
    let expected = match &opened {
        Ok(block) => 1000 + 16 * u64::from(block.number()) + block.count() as u64,
        Err(cause) => refusal(*cause),
    };
    assert_eq!(raw::read_entries(block), expected);
    let far = rng.next_u64() as u32;
    for k in [0, 1, rng.below(16) as u32, 14, 15, 16, u32::MAX, far] {
        for length in [0, 31, 32, 33, 64] {
            let (mut ours, mut theirs) = (vec![0xa5; length], vec![0xa5; length]);
            let answer = raw::read_record(block, k, &mut ours);
            let result = entries::read_record(block, k as usize, &mut theirs);
            assert_eq!(answer, written(result), "record {k} into {length} bytes");
            assert_eq!(ours, theirs);
        }
    }
}

fn some_records(rng: &mut Rng, count: usize) -> Vec<u8> {
    (0..count)
        .flat_map(|_| any_record(rng).to_bytes())
        .collect()
}

fn block_number(rng: &mut Rng) -> u32 {
    match rng.below(4) {
        0 => rng.pick(&[0, 1, 2, u32::MAX]),
        1 => rng.below(1000) as u32,
        _ => rng.next_u64() as u32,
    }
}

#[test]
fn entries_blocks() {
    cases("entries_blocks", 1_500, |rng| {
        for count in [0, 1, 2, 14, 15, 16, rng.index(20)] {
            let number = block_number(rng);
            let mut records = some_records(rng, count);
            match rng.below(6) {
                // Another length, one ill-made record, or a changed byte.
                0 => records.extend(vec![0; rng.range(1, 31) as usize]),
                1 if count > 0 => {
                    let k = rng.index(count);
                    let place = &mut records[32 * k..32 * k + 32];
                    let record = Record::read(place).expect("a record");
                    spoil_record(rng, &record, place);
                }
                2 if count > 0 => {
                    let at = rng.index(records.len());
                    records[at] ^= 1 << rng.below(8);
                }
                _ => {}
            }
            for length in [0, 511, 512, 513, 700] {
                compare_entries_write(number, &records, length);
            }
            if (1..=15).contains(&count) && records.len() == 32 * count {
                compare_entries_read(rng, &block_untested(number, &records));
            }
        }
        let header = any_ranged_header(rng).to_block_untested();
        compare_entries_read(rng, &header);
        for length in [0, 1, 511] {
            compare_entries_read(rng, &header[..length]);
        }
    });
}

#[test]
fn each_byte_of_an_entries_block() {
    cases("each_byte_of_an_entries_block", 6, |rng| {
        for count in [1, 8, 15] {
            let records = some_records(rng, count);
            let right = block_untested(1 + rng.below(1 << 20) as u32, &records);
            for at in 0..512 {
                let mut block = right;
                block[at] ^= rng.range(1, 255) as u8;
                compare_entries_read(rng, &block);
                block[at] = rng.below(4) as u8;
                seal(&mut block);
                compare_entries_read(rng, &block);
            }
        }
    });
}

/// Blocks whose records stand elsewhere than one behind the other from byte
/// 16: from another byte on, or further apart or nearer together. Each has its
/// check; those that are right after all are accepted.
#[test]
fn records_at_other_starts() {
    cases("records_at_other_starts", 40, |rng| {
        for count in [1, 2, 7, 14, 15] {
            let records = some_records(rng, count);
            for from in [0, 8, 15, 16, 17, 32, 48] {
                for stride in [16, 31, 32, 33, 48] {
                    let mut block = [0; 512];
                    for (k, record) in records.chunks(32).enumerate() {
                        let at = from + stride * k;
                        if at + 32 <= 510 {
                            block[at..at + 32].copy_from_slice(record);
                        }
                    }
                    block[..8].copy_from_slice(&[2, count as u8, 0, 0, 1, 0, 0, 0]);
                    seal(&mut block);
                    compare_entries_read(rng, &block);
                    if from == 16 && (stride == 32 || count == 1) {
                        assert_eq!(raw::read_entries(&block), 1016 + count as u64);
                    }
                }
            }
        }
    });
}

/// Each record of a block of each size, written by the library, is read by both
/// as it was given.
#[test]
fn each_record_of_a_block() {
    cases("each_record_of_a_block", 20, |rng| {
        for count in 1..=15 {
            let records = some_records(rng, count);
            let mut block = [0xa5; 512];
            assert_eq!(raw::write_entries(7, &records, &mut block), 0);
            assert_eq!(block, block_untested(7, &records));
            assert_eq!(block[16..16 + 32 * count], records);
            let opened = EntriesBlock::open(&block).expect("a block");
            for (k, record) in records.chunks(32).enumerate() {
                let mut ours = [0xa5; 32];
                assert_eq!(raw::read_record(&block, k as u32, &mut ours), 0);
                assert_eq!(ours, record);
                assert_eq!(opened.record(k), Ok(record));
            }
            let mut ours = [0xa5; 32];
            assert_eq!(raw::read_record(&block, count as u32, &mut ours), 12);
            assert_eq!(ours, [0xa5; 32]);
        }
    });
}

/// Verdicts by both.
fn compare_verdict(first: &[u8], second: &[u8]) {
    let expected = judged(order::verdict(first, second));
    assert_eq!(
        raw::verdict(first, second),
        expected,
        "{first:?} {second:?}"
    );
}

/// A record with a timestamp near another's.
fn neighbour(rng: &mut Rng, of: &Record) -> Record {
    let mut record = any_record(rng);
    if rng.chance(7, 8) {
        record.phase = of.phase;
    }
    if rng.chance(3, 4) {
        record.counts = of.counts;
        for _ in 0..rng.below(4) {
            let count = &mut record.counts[rng.index(8)];
            *count = match rng.below(3) {
                0 => count.saturating_add(1),
                1 => count.saturating_sub(1),
                _ => count.swap_bytes(),
            };
        }
        let own = &mut record.counts[usize::from(record.station)];
        *own = (*own).max(1);
    }
    record
}

#[test]
fn verdicts() {
    cases("verdicts", 200_000, |rng| {
        let first = any_record(rng);
        let second = neighbour(rng, &first);
        let (mut a, mut b) = (first.to_bytes(), second.to_bytes());
        compare_verdict(&a, &b);
        compare_verdict(&b, &a);
        compare_verdict(&a, &a);
        if rng.chance(1, 2) {
            spoil_record(rng, &first, &mut a);
        } else {
            b[rng.index(32)] ^= rng.range(1, 255) as u8;
        }
        compare_verdict(&a, &b);
        compare_verdict(&b, &a);
    });
}

#[test]
fn verdicts_on_wrong_lengths() {
    cases("verdicts_on_wrong_lengths", 50, |rng| {
        let bytes = some_records(rng, 2);
        for first in [0, 1, 31, 32, 33, 64] {
            for second in [0, 1, 31, 32, 33, 64] {
                compare_verdict(&bytes[..first], &bytes[..second]);
            }
        }
    });
}

#[test]
fn each_byte_of_a_record() {
    cases("each_byte_of_a_record", 20, |rng| {
        let right = any_record(rng).to_bytes();
        for at in 0..32 {
            for value in 0..=255 {
                let mut bytes = right;
                bytes[at] = value;
                compare_verdict(&bytes, &right);
                compare_verdict(&right, &bytes);
                compare_verdict(&bytes, &bytes);
            }
        }
        let mut block = block_untested(1, &right);
        let at = entries::start(0) + rng.index(32);
        block[at] = block[at].wrapping_add(1);
        seal(&mut block);
        compare_entries_read(rng, &block);
    });
}
