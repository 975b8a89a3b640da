//! The order of lists by the sentences of Wish 2 of document 02, and against a plain reading, which
//! has the index of Wish 3.

mod common;

use bench::generate;
use bench::manager::{Answer, Block, Command, Config, Listed, State, Table, Way};
use bench::random::Random;
use common::*;

const JUNK: u8 = 0xA5;
const END: [u8; 8] = [255, 255, 255, 255, 0, 0, 0, 0];
const OPEN: State = State::Open(Way::Erase);
const CLOSED: State = State::Closed(Way::Erase);

/// The blocks of a list in its order; nothing beyond its end mark was touched.
fn listed(drive: &mut Drive, domain: u64, of: Listed) -> Vec<u64> {
    drive.bytes.fill(JUNK);
    assert_eq!(drive.list(domain, of), Done);
    let numbers = numbers(&drive.bytes);
    assert!(drive.bytes[8 * (numbers.len() + 1)..].iter().all(|&byte| byte == JUNK));
    numbers
}

/// The block numbers of a list up to its end mark.
fn numbers(bytes: &[u8]) -> Vec<u64> {
    let descriptors = bytes.as_chunks::<8>().0;
    let end = descriptors.iter().position(|one| *one == END).expect("an end mark");
    let number = |one: &[u8; 8]| u64::from_le_bytes([one[0], one[1], one[2], one[3], 0, 0, 0, 0]);
    descriptors[..end].iter().map(number).collect()
}

/// A drive with two domains that may hold all of it.
fn two_domains(blocks: u64) -> Drive {
    let mut drive = Drive::start(Config { blocks, ..SMALL });
    for domain in [1, 2] {
        assert_eq!(drive.create(domain, 0, blocks * 128, 3, 256), Done);
    }
    drive
}

/// Gives a domain blocks in this state, each by its number and its serial.
fn plant(drive: &mut Drive, domain: u8, state: State, blocks: &[(usize, u32)]) {
    let left = if matches!(state, State::Open(_)) { 60 } else { 0 };
    for &(number, serial) in blocks {
        let block = &mut drive.table.blocks[number];
        assert_eq!(block.state, State::Free);
        *block = Block { state, holder: domain, written: 0, left, serial, ..*block };
        let record = &mut drive.table.domains[usize::from(domain) - 1];
        record.last = record.last.max(serial);
    }
    assert!(drive.table.is_sound());
}

/// Blocks, each by its number and its serial, are listed as they stand here, open or Closed.
fn come_in_order(blocks: &[(usize, u32)]) {
    let wanted: Vec<u64> = blocks.iter().map(|&(number, _)| number as u64).collect();
    for (state, of) in [(OPEN, Listed::Open), (CLOSED, Listed::Closed)] {
        let mut drive = two_domains(8);
        plant(&mut drive, 1, state, blocks);
        assert_eq!(listed(&mut drive, 1, of), wanted, "{blocks:?}");
    }
}

// By commands.

#[test]
fn open_blocks_come_as_they_were_opened() {
    let mut drive = two_domains(8);
    for number in [6, 1, 4] {
        assert_eq!(drive.erase(1, number), AnswerBlock(number));
    }
    assert_eq!(listed(&mut drive, 1, Listed::Open), [6, 1, 4]);
    // A placement's block comes among them by its serial as well.
    assert_eq!(drive.write(1, 2, 0, 1), Done);
    assert_eq!(drive.erase(1, 3), AnswerBlock(3));
    assert_eq!(listed(&mut drive, 1, Listed::Open), [6, 1, 4, 0, 3]);
    // A write changes no serial.
    assert_eq!(drive.write_block(1, 1, 0, 5), Done);
    assert_eq!(drive.write(1, 2, 1, 5), Done);
    assert_eq!(listed(&mut drive, 1, Listed::Open), [6, 1, 4, 0, 3]);
    let descriptors = [
        [6, 0, 0, 0, 0, 0x08, 0, 0],
        [1, 0, 0, 0, 0, 0x08, 0, 0],
        [4, 0, 0, 0, 0, 0x08, 0, 0],
        [0, 0, 0, 0, 0, 0x04, 0, 0],
        [3, 0, 0, 0, 0, 0x08, 0, 0],
        END,
    ];
    assert_eq!(drive.bytes[..48], descriptors.concat());
}

#[test]
fn closed_blocks_come_as_they_were_opened_not_as_they_were_closed() {
    let mut drive = two_domains(8);
    for number in [6, 1, 4, 0] {
        assert_eq!(drive.erase(1, number), AnswerBlock(number));
    }
    for (number, closed, open) in [
        (4, &[4][..], &[6, 1, 0][..]),
        (0, &[4, 0], &[6, 1]),
        (6, &[6, 4, 0], &[1]),
        (1, &[6, 1, 4, 0], &[]),
        (4, &[6, 1, 4, 0], &[]),
    ] {
        assert_eq!(drive.close(1, number), AnswerBlock(number));
        assert_eq!(listed(&mut drive, 1, Listed::Closed), closed);
        assert_eq!(listed(&mut drive, 1, Listed::Open), open);
    }
    let descriptors = [6, 1, 4, 0].map(|number| [number, 0, 0, 0, 0, 1, 0, 0]);
    assert_eq!(listed(&mut drive, 1, Listed::Closed), [6, 1, 4, 0]);
    assert_eq!(drive.bytes[..32], descriptors.concat());
}

#[test]
fn a_block_that_is_opened_again_comes_last() {
    let mut drive = two_domains(8);
    for number in 0..4 {
        assert_eq!(drive.erase_any(1), AnswerBlock(number));
    }
    for number in 0..4 {
        assert_eq!(drive.close(1, number), AnswerBlock(number));
    }
    // As a block that stays with the domain.
    assert_eq!(drive.erase(1, 1), AnswerBlock(1));
    assert_eq!(listed(&mut drive, 1, Listed::Closed), [0, 2, 3]);
    assert_eq!(drive.close(1, 1), AnswerBlock(1));
    assert_eq!(listed(&mut drive, 1, Listed::Closed), [0, 2, 3, 1]);
    // As one that was given back, and is had again.
    assert_eq!(drive.free(1, 0), AnswerBlock(0));
    assert_eq!(listed(&mut drive, 1, Listed::Closed), [2, 3, 1]);
    assert_eq!(drive.erase(1, 0), AnswerBlock(0));
    assert_eq!(drive.erase(1, 2), AnswerBlock(2));
    assert_eq!(listed(&mut drive, 1, Listed::Open), [0, 2]);
    assert_eq!(drive.pulse(60), Done);
    assert_eq!(listed(&mut drive, 1, Listed::Closed), [3, 1, 0, 2]);
    assert_eq!(listed(&mut drive, 1, Listed::Open), []);
}

#[test]
fn the_blocks_of_one_write_come_as_they_were_opened() {
    let mut drive = two_domains(8);
    for (number, erases) in [9, 8, 7, 6, 5, 4, 3, 2].into_iter().enumerate() {
        drive.table.blocks[number].erases = erases;
    }
    // The least worn are chosen: 7, 6 and 5.
    assert_eq!(drive.write(1, 0, 0, 128), Done);
    assert_eq!(drive.write(1, 0, 0, 129), Done);
    assert_eq!(listed(&mut drive, 1, Listed::Closed), [7, 6]);
    assert_eq!(listed(&mut drive, 1, Listed::Open), [5]);
    assert_eq!(drive.write(1, 1, 0, 1), Done);
    assert_eq!(listed(&mut drive, 1, Listed::Open), [5, 4]);
    // The first placement's block is full, and its next one comes last.
    assert_eq!(drive.write(1, 0, 0, 128), Done);
    assert_eq!(listed(&mut drive, 1, Listed::Open), [4, 3]);
    assert_eq!(listed(&mut drive, 1, Listed::Closed), [7, 6, 5]);
}

#[test]
fn wear_has_no_part_in_the_order() {
    for (state, of, byte) in [(OPEN, Listed::Open, 0x08), (CLOSED, Listed::Closed, 1)] {
        let mut drive = two_domains(8);
        plant(&mut drive, 1, state, &[(2, 30), (3, 10), (5, 20)]);
        for (number, erases) in [(2, 5), (3, 1_000), (5, 500)] {
            drive.table.blocks[number].erases = erases;
        }
        assert_eq!(listed(&mut drive, 1, of), [3, 5, 2]);
        let descriptors = [
            [3, 0, 0, 0, 200, byte, 0, 0],
            [5, 0, 0, 0, 100, byte, 0, 0],
            [2, 0, 0, 0, 1, byte, 0, 0],
        ];
        assert_eq!(drive.bytes[..24], descriptors.concat());
    }
}

// None, one, and all.

#[test]
fn a_list_of_none_is_an_end_mark() {
    let mut drive = two_domains(8);
    for of in [Listed::Open, Listed::Closed] {
        assert_eq!(listed(&mut drive, 1, of), []);
    }
    // Not even where there are blocks in the other state, or of another domain.
    plant(&mut drive, 1, CLOSED, &[(7, 1), (5, 2)]);
    plant(&mut drive, 2, OPEN, &[(6, 1), (0, 2)]);
    assert_eq!(listed(&mut drive, 1, Listed::Open), []);
    assert_eq!(listed(&mut drive, 2, Listed::Closed), []);
    drive.bytes.truncate(7);
    assert_eq!(drive.list(1, Listed::Open), Refused(7));
    drive.bytes.push(JUNK);
    assert_eq!(drive.list(1, Listed::Open), Done);
    assert_eq!(drive.bytes, END);
}

#[test]
fn a_list_of_one_has_that_one() {
    for number in [0, 3, 7] {
        for serial in [1, 255, 256, u32::MAX] {
            come_in_order(&[(number, serial)]);
        }
    }
    let mut drive = two_domains(1);
    plant(&mut drive, 2, OPEN, &[(0, 9)]);
    assert_eq!(listed(&mut drive, 2, Listed::Open), [0]);
    assert_eq!(listed(&mut drive, 2, Listed::Closed), []);
    assert_eq!(listed(&mut drive, 1, Listed::Open), []);
}

#[test]
fn a_list_of_the_whole_drive_fills_its_2056_bytes() {
    let rising: Vec<(usize, u32)> = (0..256).zip(1..).collect();
    let falling: Vec<(usize, u32)> = (0..256).rev().zip(1..).collect();
    // 77 and 256 have no common factor, so each number occurs once.
    let scattered: Vec<(usize, u32)> = (0..256).map(|i| (i * 77 % 256, i as u32 * 9 + 1)).collect();
    for blocks in [rising, falling, scattered] {
        let wanted: Vec<u64> = blocks.iter().map(|&(number, _)| number as u64).collect();
        for (state, of) in [(OPEN, Listed::Open), (CLOSED, Listed::Closed)] {
            let mut drive = two_domains(256);
            plant(&mut drive, 1, state, &blocks);
            assert_eq!(listed(&mut drive, 1, of), wanted);
            assert_eq!(drive.bytes[2_048..2_056], END);
            drive.bytes.truncate(2_055);
            assert_eq!(drive.list(1, of), Refused(7));
            drive.bytes.push(JUNK);
            assert_eq!(drive.list(1, of), Done);
        }
    }
}

// Serials.

#[test]
fn serials_against_the_numbers() {
    come_in_order(&[(7, 1), (0, 2)]);
    come_in_order(&[(0, 1), (7, 2)]);
    come_in_order(&[(5, 1), (4, 2), (3, 3), (2, 4), (1, 5), (0, 6)]);
    come_in_order(&[(3, 1), (4, 2), (5, 3), (0, 4), (1, 5), (2, 6)]);
    come_in_order(&[(1, 1), (0, 2), (3, 3), (2, 4), (5, 5), (4, 6)]);
    come_in_order(&[(4, 1), (0, 2), (7, 3), (1, 4), (6, 5), (2, 6), (5, 7), (3, 8)]);
}

#[test]
fn serials_with_equal_low_bytes() {
    come_in_order(&[(7, 1), (4, 257), (2, 513)]);
    come_in_order(&[(6, 255), (5, 511), (1, 767), (0, 1_023)]);
    come_in_order(&[(7, 256), (5, 512), (3, 65_536), (1, 65_792)]);
    come_in_order(&[(7, 1), (6, 65_537), (4, 131_073), (0, 16_777_217)]);
    come_in_order(&[(3, 0x0000_ABCD), (2, 0x0001_ABCD), (1, 0x0100_ABCD), (0, 0xFF00_ABCD)]);
}

#[test]
fn serials_are_compared_as_numbers() {
    // By bytes from the low end, and by decimal digits, these would come otherwise.
    come_in_order(&[(7, 2), (6, 10), (5, 100), (4, 255), (3, 256), (2, 257), (1, 1_000)]);
    come_in_order(&[(4, 0x0000_00FF), (3, 0x0000_FF00), (2, 0x00FF_0000), (1, 0xFF00_0000)]);
    come_in_order(&[(1, 0x0000_FFFF), (2, 0x0001_0000), (0, 0x00FF_FFFF), (3, 0x0100_0000)]);
}

#[test]
fn serials_near_the_end_of_their_32_bits() {
    const LAST: u32 = 4_294_967_295;
    come_in_order(&[(7, LAST - 2), (3, LAST - 1), (0, LAST)]);
    come_in_order(&[(5, 1), (6, 2), (3, LAST - 1), (4, LAST)]);
    // The highest bit is no sign.
    come_in_order(&[(5, 0x7FFF_FFFE), (4, 0x7FFF_FFFF), (3, 0x8000_0000), (2, 0x8000_0001)]);
    come_in_order(&[(6, 1), (2, 0x7FFF_FFFF), (1, 0x8000_0000), (0, LAST)]);

    let mut drive = two_domains(8);
    drive.table.domains[0].last = LAST - 3;
    for number in [7, 0, 4] {
        assert_eq!(drive.erase(1, number), AnswerBlock(number));
    }
    assert_eq!(drive.block(4).serial, LAST);
    assert_eq!(drive.erase(1, 1), Refused(12));
    assert_eq!(listed(&mut drive, 1, Listed::Open), [7, 0, 4]);
    assert_eq!(drive.close(1, 0), AnswerBlock(0));
    assert_eq!(drive.close(1, 7), AnswerBlock(7));
    assert_eq!(listed(&mut drive, 1, Listed::Open), [4]);
    assert_eq!(listed(&mut drive, 1, Listed::Closed), [7, 0]);
}

// Blocks that are not listed.

#[test]
fn blocks_of_other_domains_come_between_and_change_nothing() {
    for (state, of) in [(OPEN, Listed::Open), (CLOSED, Listed::Closed)] {
        let mut drive = two_domains(8);
        plant(&mut drive, 1, state, &[(1, 40), (3, 20), (6, 30)]);
        assert_eq!(listed(&mut drive, 1, of), [3, 6, 1]);
        // Serials are each domain's own: these are equal to the first domain's, or between them.
        plant(&mut drive, 2, state, &[(0, 20), (2, 25), (4, 40), (7, 30)]);
        assert_eq!(listed(&mut drive, 1, of), [3, 6, 1]);
        assert_eq!(listed(&mut drive, 2, of), [0, 2, 7, 4]);
        assert_eq!(drive.delete(2), Done);
        assert_eq!(listed(&mut drive, 1, of), [3, 6, 1]);
    }
}

#[test]
fn each_list_has_its_own_blocks_in_the_one_order() {
    let mut drive = two_domains(8);
    plant(&mut drive, 1, OPEN, &[(7, 10), (1, 30), (2, 50)]);
    plant(&mut drive, 1, CLOSED, &[(6, 20), (0, 40), (3, 60)]);
    assert_eq!(listed(&mut drive, 1, Listed::Open), [7, 1, 2]);
    assert_eq!(listed(&mut drive, 1, Listed::Closed), [6, 0, 3]);
    assert_eq!(drive.pulse(60), Done);
    assert_eq!(listed(&mut drive, 1, Listed::Closed), [7, 6, 1, 0, 2, 3]);
}

#[test]
fn blocks_beyond_the_drive_are_not_listed() {
    let mut drive = two_domains(4);
    plant(&mut drive, 1, OPEN, &[(3, 5), (0, 9)]);
    for (number, serial) in [(4, 1), (5, 7), (255, 20)] {
        drive.table.blocks[number] = Block { serial, ..drive.table.blocks[3] };
    }
    assert_eq!(listed(&mut drive, 1, Listed::Open), [3, 0]);
}

#[test]
fn a_list_changes_no_table_and_no_store() {
    let mut drive = two_domains(8);
    plant(&mut drive, 1, OPEN, &[(7, 10), (1, 3)]);
    let (table, store) = (drive.table.clone(), drive.store.clone());
    assert_eq!(listed(&mut drive, 1, Listed::Open), [1, 7]);
    assert!(drive.table == table && drive.store == store);
    // A store of another length is no matter here.
    drive.store.clear();
    assert_eq!(listed(&mut drive, 1, Listed::Open), [1, 7]);
}

#[test]
fn a_list_of_the_recorders_blocks_begins_with_the_one_to_be_freed() {
    let mut drive = Drive::start(SMALL);
    assert_eq!(drive.create(2, 3 * 128, 3 * 128, 1, 3), Done);
    for number in [5, 4] {
        assert_eq!(drive.erase(2, number), AnswerBlock(number));
        assert_eq!(drive.close(2, number), AnswerBlock(number));
    }
    for sample in 0..128 {
        assert_eq!(drive.append(2, sample), Done);
    }
    assert_eq!(listed(&mut drive, 2, Listed::Closed), [5, 4, 0]);
    assert_eq!(drive.append(2, 128), Done);
    assert_eq!(drive.state(5), State::Free);
    assert_eq!(listed(&mut drive, 2, Listed::Closed), [4, 0]);
}

// A plain reading, block after block.

/// Question after question, and then always the block with the least serial of those left.
fn plain_list(table: &Table, domain: u64, of: Listed, bytes: &mut [u8]) -> Answer {
    if !table.is_sound() {
        return Refused(2);
    }
    if !(1..=16).contains(&domain) {
        return Refused(4);
    }
    if !table.domains[domain as usize - 1].exists {
        return Refused(5);
    }
    let is_listed = |block: &Block| match (of, block.state) {
        (Listed::Open, State::Open(_)) | (Listed::Closed, State::Closed(_)) => {
            u64::from(block.holder) == domain
        }
        _ => false,
    };
    let mut left: Vec<(usize, Block)> =
        table.blocks[..table.config.blocks as usize].iter().copied().enumerate().collect();
    left.retain(|(_, block)| is_listed(block));
    if bytes.len() < 8 * left.len() + 8 {
        return Refused(7);
    }
    let mut at = 0;
    while !left.is_empty() {
        let (mut least, mut place) = (u32::MAX, 0);
        for (i, (_, block)) in left.iter().enumerate() {
            if block.serial <= least {
                (least, place) = (block.serial, i);
            }
        }
        let (number, block) = left.remove(place);
        let byte = match block.state {
            State::Open(Way::Erase) => 0x08,
            State::Open(Way::Placement(_)) => 0x04,
            _ => 1,
        };
        let index = plain_index(block.erases, table.config.rated);
        bytes[at..at + 8].copy_from_slice(&[number as u8, 0, 0, 0, index, byte, 0, 0]);
        at += 8;
    }
    bytes[at..at + 8].copy_from_slice(&END);
    Done
}

/// Of all indices the nearest to count × 200 / N, and of two as near the larger.
fn plain_index(erases: u32, rated: u64) -> u8 {
    let distance = |index: u8| (2 * u64::from(index) * rated).abs_diff(400 * u64::from(erases));
    (0..=255).rev().min_by_key(|&index| distance(index)).expect("256 of them")
}

#[test]
fn indices_agree_with_a_plain_reading() {
    for rated in [
        1, 2, 3, 7, 15, 16, 17, 32, 50, 99, 127, 128, 199, 200, 201, 256, 399, 400, 401, 511, 600,
        1_000, 4_096, 30_000, 50_000, 65_520, 65_534, 65_535,
    ] {
        let mut drive = Drive::start(Config { blocks: 1, rated, ..SMALL });
        assert_eq!(drive.create(1, 0, 128, 1, 1), Done);
        assert_eq!(drive.erase(1, 0), AnswerBlock(0));
        // Beside the small counts those around the halves, and the last.
        let halves = [1, 2, 3, 25, 75, 199, 401, 509, 511, 513].map(|half| half * rated / 400);
        let around = halves.into_iter().flat_map(|half| half.saturating_sub(1)..=half + 2);
        let last = [1 << 31, u64::from(u32::MAX) - 1, u64::from(u32::MAX)];
        for erases in (0..=600).chain(around).chain(last).map(|count| count as u32) {
            drive.table.blocks[0].erases = erases;
            let wanted = plain_index(erases, rated);
            assert_eq!(drive.page(1, 0), Done);
            assert_eq!(drive.bytes[12], wanted, "{erases} of {rated}");
            assert_eq!(drive.list(1, Listed::Open), Done);
            assert_eq!(drive.bytes[4], wanted, "{erases} of {rated}");
        }
    }
}

#[test]
fn lists_agree_with_a_plain_reading() {
    let mut random = Random::new(0x115);
    // Lists by their length, of blocks that come otherwise than by their numbers.
    let mut turned = [0; 3];
    let mut bytes = vec![0; 2_056];
    for _ in 0..1_500 {
        let mut table = generate::full_table(&mut random);
        assert!(table.is_sound());
        if random.chance(10) {
            generate::damage(&mut random, &mut table);
        }
        for (domain, listed) in (0..=17).flat_map(|d| [(d, Listed::Open), (d, Listed::Closed)]) {
            let length = random.pick(&[0, 8, 16, 47, 2_055, 2_056, 2_056, 2_056]);
            random.fill_bytes(&mut bytes);
            let mut wanted = bytes.clone();
            let answer = plain_list(&table, domain, listed, &mut wanted[..length]);
            let list = Command::List { domain, listed };
            assert_eq!(table.serve(list, &mut [], &mut [], &mut bytes[..length]), answer);
            assert_eq!(bytes, wanted);
            if answer == Done {
                let numbers = numbers(&bytes);
                let class = [8, 64, 256].iter().position(|&most| numbers.len() <= most);
                turned[class.expect("256 at most")] += u32::from(!numbers.is_sorted());
            }
        }
    }
    assert!(turned.iter().all(|&count| count > 100), "{turned:?}");
}
