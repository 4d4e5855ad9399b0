//! Blocks and records: 'Archive blocks' of document 01.

use reference::check::{block_check, is_sealed, seal, BLOCK};
use reference::entries::{self, EntriesBlock};
use reference::generate::{self, HeaderDamage, RuleBreak};
use reference::header::Header;
use reference::network;
use reference::random::Rng;
use reference::record::{is_record, Kind, Record, NO_PEER, RECORD};
use reference::refusal::Refusal;
use reference::LAST_PHASE;

fn number<T>(answer: Result<T, Refusal>) -> u8 {
    answer.err().map_or(0, Refusal::number)
}

/// A buffer of a length, with bytes that a write would change.
fn buffer(length: usize) -> Vec<u8> {
    (0..length).map(|k| 0xa5 ^ k as u8).collect()
}

fn own_record() -> Record {
    Record {
        kind: Kind::Own,
        station: 1,
        peer: NO_PEER,
        phase: 3,
        register: 501,
        counts: [0, 2, 0, 0, 0, 0, 0, 0],
    }
}

/// The numbers 1 to 13, of which 9 has no cause.
#[test]
fn refusal_numbers() {
    let numbers = [1, 2, 3, 4, 5, 6, 7, 8, 10, 11, 12, 13];
    assert_eq!(Refusal::ALL.map(Refusal::number), numbers);
    for number in 0..=u8::MAX {
        let refusal = Refusal::from_number(number);
        assert_eq!(refusal.is_some(), numbers.contains(&number));
        assert!(refusal.is_none_or(|refusal| refusal.number() == number));
    }
}

/// The two check vectors that the document marks (M).
#[test]
fn check_vectors() {
    assert_eq!(block_check(&[0; 510]), 1);
    let mut bytes = [0; 510];
    bytes[509] = 255;
    assert_eq!(block_check(&bytes), 64_530);
    // The check does not read itself.
    let mut block = [0xff; BLOCK];
    seal(&mut block);
    let check = block_check(&block);
    assert!(is_sealed(&block));
    block[510] ^= 1;
    assert_eq!(block_check(&block), check);
    assert!(!is_sealed(&block));
    assert_eq!(u64::from(check), (1 + 255 * (510 * 511 / 2)) % 65_521);
}

/// A stored check of 65,521 or above is never right.
#[test]
fn check_is_reduced() {
    let mut block = [0; BLOCK];
    block[510..].copy_from_slice(&(65_521_u16 + 1).to_le_bytes());
    assert!(!is_sealed(&block));
    block[510..].copy_from_slice(&1_u16.to_le_bytes());
    assert!(is_sealed(&block));
}

#[test]
fn header_bytes() {
    let mut header = Header::new(2, 0x0107);
    header.allowances = [3, 0x0203, 0, 0, 0, 0, 0, 9];
    header.limits[0][1] = 2;
    header.limits[1][0] = 5;
    header.limits[7][7] = 32;
    let block = header.to_block().unwrap();
    let mut want = [0; BLOCK];
    want[..4].copy_from_slice(&[1, 2, 7, 1]);
    want[16..20].copy_from_slice(&[3, 0, 3, 2]);
    want[30] = 9;
    want[33] = 2;
    want[40] = 5;
    want[95] = 32;
    let check = block_check(&want);
    want[510] = check as u8;
    want[511] = (check >> 8) as u8;
    assert_eq!(block, want);
    assert_eq!(Header::read(&block), Ok(header));
}

#[test]
fn header_round_trip() {
    let mut rng = Rng::new(1);
    for _ in 0..3000 {
        let header = generate::any_ranged_header(&mut rng);
        let length = 512 + rng.index(40);
        let before = buffer(length);
        let mut after = before.clone();
        header.write(&mut after).unwrap();
        assert_eq!(after[512..], before[512..]);
        assert_eq!(Header::read(&after[..512]), Ok(header));
    }
}

#[test]
fn header_write_refusals() {
    let good = Header::new(1, 1);
    let bad = [
        Header::new(0, 1),
        Header::new(9, 1),
        Header::new(255, 1),
        Header::new(1, 0),
        {
            let mut header = good;
            header.limits[7][3] = 33;
            header
        },
    ];
    for length in [0, 1, 511, 512, 513] {
        let before = buffer(length);
        let mut after = before.clone();
        for header in &bad {
            // 1 before 11.
            assert_eq!(number(header.write(&mut after)), 1);
        }
        assert_eq!(after, before);
        let answer = number(good.write(&mut after));
        assert_eq!(answer, if length < 512 { 11 } else { 0 });
        if length < 512 {
            assert_eq!(after, before);
        }
    }
}

#[test]
fn header_damage() {
    let seed = 2;
    println!("seed {seed}");
    let mut rng = Rng::new(seed);
    for _ in 0..1000 {
        for way in HeaderDamage::ALL {
            let bytes = generate::damaged_header_block(&mut rng, way);
            assert_eq!(number(Header::read(&bytes)), 1, "{way:?}");
            assert_eq!(number(network::setup(&bytes)), 1, "{way:?}");
            assert_eq!(number(network::setup_area(65_536, &bytes)), 1, "{way:?}");
            assert_eq!(number(network::setup_area(65_535, &bytes)), 11, "{way:?}");
        }
    }
}

/// Every spare byte of a header is tested, and every byte is under the check.
#[test]
fn header_every_byte() {
    let header = generate::any_network(&mut Rng::new(3));
    let block = header.to_block().unwrap();
    for at in 0..BLOCK {
        let mut changed = block;
        changed[at] ^= 1;
        assert_eq!(
            number(Header::read(&changed)),
            1,
            "byte {at} without a new check"
        );
        if at < 510 {
            seal(&mut changed);
            let named = (1..4).contains(&at) || (16..96).contains(&at);
            if !named {
                assert_eq!(number(Header::read(&changed)), 1, "byte {at}");
            }
        }
    }
}

/// Each rule is broken alone; setup answers 3, and 11 first for the area.
#[test]
fn network_rules() {
    let seed = 4;
    println!("seed {seed}");
    let mut rng = Rng::new(seed);
    for _ in 0..500 {
        for way in RuleBreak::ALL {
            let header = generate::rule_breaker(&mut rng, way);
            let rules = [
                header.links_are_paired(),
                header.nothing_beyond(),
                header.all_reached(),
                header.loads_within_ceiling(),
            ];
            let broken = match way {
                RuleBreak::Diagonal | RuleBreak::OneWay => 0,
                RuleBreak::AllowanceBeyond | RuleBreak::LinkBeyond => 1,
                RuleBreak::Unreached => 2,
                RuleBreak::SumAboveCeiling => 3,
            };
            for (k, rule) in rules.into_iter().enumerate() {
                assert_eq!(rule, k != broken, "{way:?} {header:?}");
            }
            let block = header.to_block().unwrap();
            assert_eq!(number(network::setup(&block)), 3);
            assert_eq!(number(network::setup_area(0, &block)), 11);
            assert_eq!(number(network::setup_area(65_536, &block)), 3);
        }
        let good = generate::any_network(&mut rng);
        assert_eq!(
            number(network::setup_area(65_536, &good.to_block().unwrap())),
            0
        );
    }
}

#[test]
fn record_bytes() {
    let record = Record {
        kind: Kind::Sent,
        station: 2,
        peer: 7,
        phase: 999_999,
        register: 0x0403_0201,
        counts: [1, 2, 0x0304, 4, 5, 6, 7, 65_535],
    };
    let bytes = record.to_bytes();
    let want = [
        2, 2, 7, 0, 0x3f, 0x42, 0x0f, 0, 1, 2, 3, 4, 0, 0, 0, 0, 1, 0, 2, 0, 4, 3, 4, 0, 5, 0, 6,
        0, 7, 0, 255, 255,
    ];
    assert_eq!(bytes, want);
    assert_eq!(Record::read(&bytes), Ok(record));
}

#[test]
fn record_fields() {
    let own = own_record();
    let sent = Record {
        kind: Kind::Sent,
        peer: 0,
        ..own
    };
    let received = Record {
        kind: Kind::Received,
        peer: 7,
        ..own
    };
    for good in [own, sent, received] {
        assert!(is_record(&good.to_bytes()));
        for length in [0, 31, 33, 64] {
            let mut bytes = good.to_bytes().to_vec();
            bytes.resize(length, 0);
            assert!(!is_record(&bytes));
        }
        for kind in 0..=255 {
            let mut bytes = good.to_bytes();
            bytes[0] = kind;
            let wants_peer = kind == 2 || kind == 3;
            let fits = (kind == 1 && good.peer == NO_PEER) || (wants_peer && good.peer < 8);
            assert_eq!(is_record(&bytes), fits, "kind {kind}");
        }
        for station in 0..=255_u8 {
            let mut bytes = good.to_bytes();
            bytes[1] = station;
            // Only station 1 has a count above 0.
            assert_eq!(is_record(&bytes), station == 1);
            bytes[16..32].fill(1);
            assert_eq!(is_record(&bytes), station < 8 && station != good.peer);
        }
        for peer in 0..=255_u8 {
            let mut bytes = good.to_bytes();
            bytes[2] = peer;
            let fits = if good.kind == Kind::Own {
                peer == 255
            } else {
                peer < 8 && peer != 1
            };
            assert_eq!(is_record(&bytes), fits, "peer {peer}");
        }
        for spare in [3, 12, 13, 14, 15] {
            let mut bytes = good.to_bytes();
            bytes[spare] = 128;
            assert!(!is_record(&bytes), "byte {spare}");
        }
        for (phase, fits) in [
            (0, true),
            (LAST_PHASE, true),
            (LAST_PHASE + 1, false),
            (u32::MAX, false),
        ] {
            assert_eq!(is_record(&Record { phase, ..good }.to_bytes()), fits);
        }
        for register in [0, u32::MAX] {
            assert!(is_record(&Record { register, ..good }.to_bytes()));
        }
        assert!(!is_record(
            &Record {
                counts: [1, 0, 1, 1, 1, 1, 1, 1],
                ..good
            }
            .to_bytes()
        ));
        assert!(is_record(
            &Record {
                counts: [65_535; 8],
                ..good
            }
            .to_bytes()
        ));
    }
}

#[test]
fn random_records() {
    let seed = 5;
    println!("seed {seed}");
    let mut rng = Rng::new(seed);
    for _ in 0..20_000 {
        let record = generate::any_record(&mut rng);
        let mut bytes = record.to_bytes();
        assert_eq!(Record::read(&bytes), Ok(record));
        generate::spoil_record(&mut rng, &record, &mut bytes);
        assert_eq!(number(Record::read(&bytes)), 1);
    }
}

#[test]
fn entries_bytes() {
    let records = [
        own_record().to_bytes(),
        Record {
            register: 7,
            ..own_record()
        }
        .to_bytes(),
    ];
    let mut block = buffer(600);
    entries::write(0x0001_0203, &records.concat(), &mut block).unwrap();
    assert_eq!(block[512..], buffer(600)[512..]);
    let block = &block[..512];
    let mut want = vec![0; 512];
    want[..8].copy_from_slice(&[2, 2, 0, 0, 3, 2, 1, 0]);
    want[16..48].copy_from_slice(&records[0]);
    want[48..80].copy_from_slice(&records[1]);
    let check = block_check(&want).to_le_bytes();
    want[510..].copy_from_slice(&check);
    assert_eq!(block, want);
    assert_eq!(entries::read_number(block), Ok(0x0001_0203));
    assert_eq!(entries::read_count(block), Ok(2));
}

/// Fifteen different records stand one behind the other from byte 16 to 495,
/// and each is read where it stands.
#[test]
fn fifteen_records() {
    let records: Vec<u8> = (1..=15)
        .flat_map(|register| {
            let record = Record {
                register,
                ..own_record()
            };
            record.to_bytes()
        })
        .collect();
    let mut block = buffer(512);
    entries::write(1, &records, &mut block).unwrap();
    assert_eq!(block[16..496], records);
    let opened = EntriesBlock::open(&block).unwrap();
    for (k, record) in records.chunks(RECORD).enumerate() {
        assert_eq!(opened.record(k), Ok(record));
    }
    assert_eq!(opened.record(15), Err(Refusal::NoSuchRecord));
}

#[test]
fn entries_round_trip() {
    let seed = 6;
    println!("seed {seed}");
    let mut rng = Rng::new(seed);
    for _ in 0..2000 {
        let count = 1 + rng.index(15);
        let records: Vec<[u8; RECORD]> = (0..count)
            .map(|_| generate::any_record(&mut rng).to_bytes())
            .collect();
        let block_number = rng.pick(&[1, 2, u32::MAX, 77]);
        let mut block = [0xee; BLOCK];
        entries::write(block_number, &records.concat(), &mut block).unwrap();
        assert_eq!(entries::read_number(&block), Ok(block_number));
        assert_eq!(entries::read_count(&block), Ok(count));
        for (k, record) in records.iter().enumerate() {
            let length = 32 + rng.index(9);
            let before = buffer(length);
            let mut after = before.clone();
            entries::read_record(&block, k, &mut after).unwrap();
            assert_eq!(after[..32], record[..]);
            assert_eq!(after[32..], before[32..]);
        }
        for k in [count, 15, 16, usize::MAX] {
            assert_eq!(
                number(EntriesBlock::open(&block).unwrap().record(k.max(count))),
                12
            );
        }
        assert_eq!(number(Header::read(&block)), 1, "a block of the other kind");
    }
}

/// Writes: 12, 1, 11.
#[test]
fn entries_write_order() {
    let good = own_record().to_bytes();
    let ill = [0; RECORD];
    for length in [0, 511, 512, 520] {
        let before = buffer(length);
        let small = length < 512;
        let write = |block_number: u32, records: &[u8]| {
            let mut after = before.clone();
            let answer = number(entries::write(block_number, records, &mut after));
            if answer != 0 {
                assert_eq!(after, before);
            }
            answer
        };
        // 0 or over 480 bytes, whatever else is wrong.
        assert_eq!(write(0, &[]), 12);
        assert_eq!(write(1, &good.repeat(16)), 12);
        assert_eq!(write(0, &ill.repeat(16)), 12);
        assert_eq!(write(1, &[0; 481]), 12);
        assert_eq!(write(1, &[0; 1000]), 12);
        // Another length, an ill-made record, block number 0.
        for wrong in [1, 31, 33, 479] {
            assert_eq!(write(1, &good.repeat(15)[..wrong]), 1);
        }
        assert_eq!(write(1, &ill), 1);
        assert_eq!(write(1, &[good, ill].concat()), 1);
        assert_eq!(write(0, &good), 1);
        assert_eq!(write(1, &good), if small { 11 } else { 0 });
        assert_eq!(write(1, &good.repeat(15)), if small { 11 } else { 0 });
    }
}

/// Block reads: 1, 12, 11.
#[test]
fn entries_read_order() {
    let good = own_record().to_bytes();
    let mut block = [0; BLOCK];
    entries::write(1, &good.repeat(2), &mut block).unwrap();
    let mut broken = block;
    broken[511] ^= 1;
    let header = Header::new(1, 1).to_block().unwrap();
    for length in [0, 31, 32, 33] {
        let before = buffer(length);
        let read = |block: &[u8], k: usize| {
            let mut after = before.clone();
            let answer = number(entries::read_record(block, k, &mut after));
            if answer != 0 {
                assert_eq!(after, before);
            }
            answer
        };
        for k in [0, 1, 2, 15, usize::MAX] {
            assert_eq!(read(&broken, k), 1);
            assert_eq!(read(&block[..511], k), 1);
            assert_eq!(read(&[], k), 1);
            assert_eq!(read(&header, k), 1, "a block of the other kind");
        }
        for k in [2, 14, 15, usize::MAX] {
            assert_eq!(read(&block, k), 12);
        }
        assert_eq!(read(&block, 0), if length < 32 { 11 } else { 0 });
        assert_eq!(read(&block, 1), if length < 32 { 11 } else { 0 });
    }
    for block in [&broken[..], &block[..511], &header[..], &[]] {
        assert_eq!(number(entries::read_number(block)), 1);
        assert_eq!(number(entries::read_count(block)), 1);
    }
}

/// Every byte that is named by nothing, and every place past the count.
#[test]
fn entries_every_byte() {
    let good = own_record().to_bytes();
    for count in [1, 7, 14, 15] {
        let mut block = [0; BLOCK];
        entries::write(9, &good.repeat(count), &mut block).unwrap();
        for at in 0..BLOCK {
            let mut changed = block;
            changed[at] ^= 4;
            assert_eq!(
                number(EntriesBlock::open(&changed)),
                1,
                "byte {at} without a new check"
            );
            if at >= 510 {
                continue;
            }
            seal(&mut changed);
            let spare = [2, 3].contains(&at)
                || (8..16).contains(&at)
                || (16 + 32 * count..510).contains(&at);
            if spare || at == 0 {
                assert_eq!(number(EntriesBlock::open(&changed)), 1, "byte {at}");
            }
        }
        for wrong in [0, count as u8 + 1, 16, 255] {
            let mut changed = block;
            changed[1] = wrong;
            seal(&mut changed);
            assert_eq!(number(EntriesBlock::open(&changed)), 1, "count {wrong}");
        }
        // A place past the count with a record that is well made.
        if count > 1 {
            let mut changed = block;
            changed[1] = count as u8 - 1;
            seal(&mut changed);
            assert_eq!(number(EntriesBlock::open(&changed)), 1);
        }
        let mut changed = block;
        changed[4..8].fill(0);
        seal(&mut changed);
        assert_eq!(number(EntriesBlock::open(&changed)), 1, "block number 0");
        // An ill-made record in a sealed block.
        let mut changed = block;
        changed[16 + 32 * (count - 1)] = 0;
        seal(&mut changed);
        assert_eq!(number(EntriesBlock::open(&changed)), 1);
    }
}
