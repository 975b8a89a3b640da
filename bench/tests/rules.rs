//! The rules of document 01, sentence by sentence, and all of 'Where a builder goes astray'.

mod common;

use bench::manager::{
    Answer, Block, Command, Config, Domain, Listed, State, Table, Way, ALL_ONES, ANY_BLOCK,
};
use common::*;

const A: u64 = 1 << 48;

// Starting.

#[test]
fn a_start_within_the_limits_gives_an_empty_drive() {
    let (answer, table) = Table::start(SMALL);
    assert_eq!((answer, table.config), (Done, SMALL));
    assert!(table.domains.iter().all(|&domain| domain == Domain::default()));
    assert!(table.blocks.iter().all(|&block| block == Block::default()));
    assert!(table.is_sound());
    let largest = Config {
        pages: 8_192,
        dies: 64,
        planes: 2,
        adus: 1,
        blocks: 256,
        rated: 65_535,
        period: 65_535,
    };
    assert_eq!(Table::start(largest).0, Done);
}

#[test]
fn a_start_outside_the_limits_gives_zeros() {
    let outside = [
        Config { pages: 127, ..SMALL },
        Config { pages: 8_193, ..SMALL },
        Config { dies: 0, ..SMALL },
        Config { dies: 65, ..SMALL },
        Config { planes: 0, ..SMALL },
        Config { planes: 65, ..SMALL },
        Config { adus: 0, ..SMALL },
        Config { adus: 257, ..SMALL },
        Config { blocks: 0, ..SMALL },
        Config { blocks: 257, ..SMALL },
        Config { rated: 0, ..SMALL },
        Config { rated: 65_536, ..SMALL },
        Config { period: 0, ..SMALL },
        Config { period: 65_536, ..SMALL },
        Config { pages: 8_192, dies: 64, planes: 2, adus: 2, ..SMALL },
        Config { pages: 8_192, dies: 64, planes: 64, adus: 256, ..SMALL },
        Config { pages: u64::MAX, dies: u64::MAX, planes: u64::MAX, adus: u64::MAX, ..SMALL },
        Config::default(),
    ];
    for config in outside {
        let (answer, mut table) = Table::start(config);
        assert_eq!(answer, Refused(1), "{config:?}");
        assert_eq!(table, Table::zeros());
        assert!(!table.is_sound());
        assert_eq!(
            table.serve(Command::Pulse { seconds: 0 }, &mut [], &mut [], &mut []),
            Refused(2)
        );
    }
}

// Domains.

#[test]
fn create_rounds_up_and_raises_quota_and_limit() {
    let config = Config { pages: 130, dies: 3, adus: 2, blocks: 5, ..SMALL };
    let record = |reserved, quota, placements, limit| Domain {
        exists: true,
        reserved,
        quota,
        placements,
        limit,
        last: 0,
    };
    let cases = [
        ((0, 0, 1, 0), record(0, 0, 1, 3)),
        ((1, 0, 16, 15), record(1, 1, 16, 18)),
        ((390, 391, 2, 2), record(1, 2, 2, 2)),
        ((391, 390, 2, 256), record(2, 2, 2, 256)),
        ((0, 5 * 390, 3, 4), record(0, 5, 3, 4)),
        ((5 * 390, 0, 1, 1), record(5, 5, 1, 1)),
    ];
    for ((guarantee, quota, placements, limit), wanted) in cases {
        let mut drive = Drive::start(config);
        assert_eq!(drive.create(16, guarantee, quota, placements, limit), Done);
        assert_eq!(drive.table.domains[15], wanted);
    }
}

#[test]
fn create_asks_4_5_6_and_14() {
    let mut drive = small_with_domain_1();
    let past = 8 * 128 + 1;
    for domain in [0, 17, u64::MAX, 257, 65_537] {
        assert_eq!(drive.create(domain, past, past, 0, 257), Refused(4));
    }
    assert_eq!(drive.create(1, past, past, 0, 257), Refused(5));
    assert_eq!(drive.create(2, past, 0, 1, 1), Refused(6));
    assert_eq!(drive.create(2, 0, past, 1, 1), Refused(6));
    assert_eq!(drive.create(2, u64::MAX, u64::MAX, 1, 1), Refused(6));
    assert_eq!(drive.create(2, 0, 0, 0, 1), Refused(6));
    assert_eq!(drive.create(2, 0, 0, 17, 17), Refused(6));
    assert_eq!(drive.create(2, 0, 0, 257, 256), Refused(6));
    assert_eq!(drive.create(2, 0, 0, 1, 257), Refused(6));
    assert_eq!(drive.create(2, 5 * 128 + 1, 0, 1, 1), Refused(14));
    assert_eq!(drive.create(2, 5 * 128, 8 * 128, 1, 1), Done);
}

#[test]
fn coverage_counts_held_blocks_beyond_the_reservation() {
    let mut drive = small_with_domain_1();
    assert_eq!(drive.create(2, 0, 1_024, 1, 256), Done);
    for number in 0..4 {
        assert_eq!(drive.erase_any(2), AnswerBlock(number));
    }
    assert_eq!(drive.create(3, 129, 0, 1, 1), Refused(14));
    assert_eq!(drive.change(1, 5 * 128, 0), Refused(14));
    assert_eq!(drive.change(1, 4 * 128, 0), Done);
    assert_eq!(drive.erase_any(2), Refused(14));
    assert_eq!(drive.erase_any(1), AnswerBlock(4));
}

#[test]
fn change_capacity_keeps_rounds_and_raises() {
    let mut drive = small_with_domain_1();
    assert_eq!(drive.change(1, 0, 0), Done);
    assert_eq!((drive.table.domains[0].reserved, drive.table.domains[0].quota), (3, 3));
    assert_eq!(drive.change(1, 1, 0), Done);
    assert_eq!((drive.table.domains[0].reserved, drive.table.domains[0].quota), (1, 3));
    assert_eq!(drive.change(1, 0, 129), Done);
    assert_eq!((drive.table.domains[0].reserved, drive.table.domains[0].quota), (1, 2));
    assert_eq!(drive.change(1, 1_024, 1), Done);
    assert_eq!((drive.table.domains[0].reserved, drive.table.domains[0].quota), (8, 8));
    for _ in 0..4 {
        let AnswerBlock(number) = drive.erase_any(1) else { panic!() };
        assert_eq!(drive.close(1, number), AnswerBlock(number));
    }
    assert_eq!(drive.change(1, 128, 128), Done);
    assert_eq!((drive.table.domains[0].reserved, drive.table.domains[0].quota), (1, 4));
    assert_eq!(drive.table.domains[0].limit, 4);
    assert_eq!(drive.change(0, 0, 0), Refused(4));
    assert_eq!(drive.change(2, 5_000, 0), Refused(5));
    assert_eq!(drive.change(1, 1_025, 0), Refused(6));
    assert_eq!(drive.change(1, 0, 1_025), Refused(6));
}

#[test]
fn delete_frees_the_blocks_and_clears_the_record() {
    let mut drive = small_with_domain_1();
    assert_eq!(drive.create(2, 0, 1_024, 1, 1), Done);
    assert_eq!(drive.erase(1, 5), AnswerBlock(5));
    assert_eq!(drive.erase(2, 6), AnswerBlock(6));
    assert_eq!(drive.write(1, 0, 0, 1), Done);
    let other = drive.block(6);
    let store = drive.store.clone();
    assert_eq!(drive.delete(1), Done);
    assert_eq!(drive.table.domains[0], Domain::default());
    let freed = Block { erases: 1, ..Block::default() };
    assert_eq!((drive.block(0), drive.block(5), drive.block(6)), (freed, freed, other));
    assert_eq!(drive.store, store);
    for (domain, number) in [(0, 4), (17, 4), (1, 5)] {
        assert_eq!(drive.delete(domain), Refused(number));
    }
    assert_eq!(drive.create(1, 300, 200, 2, 1), Done);
    assert_eq!(drive.erase(1, 5), AnswerBlock(5));
    assert_eq!((drive.block(5).serial, drive.block(5).erases), (1, 2));
}

// Blocks.

#[test]
fn opening_sets_the_record_and_the_entries() {
    let mut drive = small_with_domain_1();
    assert_eq!(drive.erase(1, 3), AnswerBlock(3));
    let opened = Block {
        state: State::Open(Way::Erase),
        holder: 1,
        written: 0,
        left: 60,
        erases: 1,
        serial: 1,
    };
    assert_eq!(drive.block(3), opened);
    assert!(drive.entries(3).iter().all(|&entry| entry == ALL_ONES));
    assert!(drive.entries(2).iter().chain(drive.entries(4)).all(|&entry| entry == FRESH));
    assert_eq!(drive.write(1, 1, 0, 2), Done);
    let state = State::Open(Way::Placement(1));
    assert_eq!(drive.block(0), Block { state, written: 2, serial: 2, ..opened });
    assert_eq!(drive.entries(0)[..3], [0, 1, ALL_ONES]);
}

#[test]
fn erase_chooses_the_least_worn_and_the_lowest_among_equals() {
    let mut drive = small_with_domain_1();
    for (number, erases) in [9, 4, 3, 7, 3, 3, 8, 9].into_iter().enumerate() {
        drive.table.blocks[number].erases = erases;
    }
    drive.table.blocks[8] = Block::default();
    for number in [2, 4, 5] {
        assert_eq!(drive.erase_any(1), AnswerBlock(number));
    }
    assert_eq!(drive.erase_any(1), Refused(13));
    assert_eq!(drive.free(1, 2), AnswerBlock(2));
    assert_eq!(drive.erase_any(1), AnswerBlock(1));
}

#[test]
fn the_erase_count_stays_at_its_end() {
    let mut drive = small_with_domain_1();
    drive.table.blocks[0].erases = u32::MAX;
    assert_eq!(drive.erase(1, 0), AnswerBlock(0));
    assert_eq!(drive.block(0).erases, u32::MAX);
    for block in &mut drive.table.blocks[1..8] {
        block.erases = u32::MAX;
    }
    assert_eq!(drive.erase_any(1), AnswerBlock(1));
}

#[test]
fn an_own_closed_block_is_opened_again() {
    let mut drive = small_with_domain_1();
    assert_eq!(drive.write(1, 1, 7, 128), Done);
    assert_eq!(drive.state(0), State::Closed(Way::Placement(1)));
    assert_eq!(drive.write(1, 0, 7, 256), Done);
    // The domain holds its quota; the block is no new one.
    assert_eq!(drive.erase_any(1), Refused(13));
    assert_eq!(drive.erase(1, 0), AnswerBlock(0));
    let wanted = Block {
        state: State::Open(Way::Erase),
        holder: 1,
        written: 0,
        left: 60,
        erases: 2,
        serial: 4,
    };
    assert_eq!(drive.block(0), wanted);
    assert!(drive.entries(0).iter().all(|&entry| entry == ALL_ONES));
    assert_eq!(drive.erase(1, 0), Refused(10));
}

#[test]
fn close_keeps_the_record_and_free_clears_it() {
    let mut drive = small_with_domain_1();
    assert_eq!(drive.write(1, 1, 7, 5), Done);
    let open = drive.block(0);
    assert_eq!(drive.close(1, 0), AnswerBlock(0));
    let closed = Block { state: State::Closed(Way::Placement(1)), left: 0, ..open };
    assert_eq!(drive.block(0), closed);
    assert_eq!(drive.close(1, 0), AnswerBlock(0));
    assert_eq!(drive.block(0), closed);
    let store = drive.store.clone();
    assert_eq!(drive.free(1, 0), AnswerBlock(0));
    assert_eq!(drive.block(0), Block { erases: 1, ..Block::default() });
    assert_eq!(drive.store, store);
    assert_eq!(drive.erase(1, 1), AnswerBlock(1));
    assert_eq!(drive.free(1, 1), AnswerBlock(1));
    assert_eq!(drive.block(1), Block { erases: 1, ..Block::default() });
}

#[test]
fn blocks_of_others_are_out_of_reach() {
    let mut drive = small_with_domain_1();
    assert_eq!(drive.create(2, 0, 1_024, 1, 2), Done);
    assert_eq!(drive.erase(2, 4), AnswerBlock(4));
    assert_eq!(drive.write_block(2, 4, 0, 128), Done);
    for number in [4, 5] {
        assert_eq!(drive.close(1, number), Refused(9));
        assert_eq!(drive.free(1, number), Refused(9));
        assert_eq!(drive.page(1, number), Refused(9));
        assert_eq!(drive.write_block(1, number, 0, 1), Refused(9));
        assert_eq!(drive.read(1, A | number << 7, 1, ALL_ONES), Refused(9));
    }
    assert_eq!(drive.erase(1, 4), Refused(9));
    assert_eq!(drive.read(1, (2 * A) | (4 << 7), 1, ALL_ONES), Refused(9));
    assert_eq!(drive.read(2, A | 4 << 7, 1, ALL_ONES), Refused(9));
    assert_eq!(drive.read(2, 4 << 7, 1, ALL_ONES), Refused(9));
    assert_eq!(drive.read(2, (17 * A) | (4 << 7), 1, ALL_ONES), Refused(9));
    assert_eq!(drive.read(2, (2 * A) | (4 << 7), 1, ALL_ONES), Done);
}

#[test]
fn blocks_of_the_store_are_apart() {
    let config = Config { dies: 3, adus: 2, blocks: 3, ..SMALL };
    let mut drive = Drive::start(config);
    assert_eq!(drive.create(1, 0, 1_152, 3, 3), Done);
    for (placement, start) in [(2, 100), (0, 200), (1, 300)] {
        assert_eq!(drive.write(1, placement, start, 3), Done);
    }
    for (number, start) in [(0, 100), (1, 200), (2, 300)] {
        assert_eq!(drive.entries(number)[..4], [start, start + 1, start + 2, ALL_ONES]);
    }
    assert_eq!(drive.words[..3], [A | 2 << 10, A | 2 << 10 | 1, A | 2 << 10 | 2]);
}

// Limits.

#[test]
fn the_open_limit_holds_where_a_block_opens_beside_the_others() {
    let mut drive = Drive::start(SMALL);
    assert_eq!(drive.create(1, 1_024, 0, 2, 2), Done);
    assert_eq!(drive.write(1, 0, 0, 100), Done);
    assert_eq!(drive.erase_any(1), AnswerBlock(1));
    assert_eq!(drive.erase_any(1), Refused(11));
    assert_eq!(drive.erase(1, 7), Refused(11));
    assert_eq!(drive.write(1, 1, 0, 1), Refused(11));
    // The open block closes before the next opens.
    assert_eq!(drive.write(1, 0, 100, 256), Done);
    assert_eq!(drive.open_blocks(), 2);
    assert_eq!((drive.block(2).written, drive.block(3).written), (128, 100));
    // A held closed block that is erased opens too.
    assert_eq!(drive.erase(1, 0), Refused(11));
    assert_eq!(drive.close(1, 1), AnswerBlock(1));
    assert_eq!(drive.erase(1, 0), AnswerBlock(0));
}

#[test]
fn serials_end_at_32_bits() {
    let mut drive = Drive::start(SMALL);
    assert_eq!(drive.create(1, 1_024, 0, 2, 9), Done);
    drive.table.domains[0].last = u32::MAX - 3;
    assert_eq!(drive.erase_any(1), AnswerBlock(0));
    assert_eq!(drive.block(0).serial, u32::MAX - 2);
    assert_eq!(drive.write(1, 0, 0, 1), Done);
    assert_eq!(drive.block(1).serial, u32::MAX - 1);
    assert_eq!(drive.write(1, 0, 1, 256), Refused(12));
    assert_eq!(drive.write(1, 0, 1, 255), Done);
    assert_eq!(drive.block(2).serial, u32::MAX);
    assert_eq!(drive.erase_any(1), Refused(12));
    assert_eq!(drive.erase(1, 2), Refused(12));
    assert_eq!(drive.write(1, 1, 1, 1), Refused(12));
}

#[test]
fn the_quota_counts_all_new_blocks_of_a_write() {
    let mut drive = small_with_domain_1();
    assert_eq!(drive.write(1, 0, 0, 100), Done);
    assert_eq!(drive.erase_any(1), AnswerBlock(1));
    assert_eq!(drive.write(1, 0, 0, 28 + 128 + 1), Refused(13));
    assert_eq!(drive.write(1, 0, 0, 28 + 128), Done);
    assert_eq!(drive.block(2).written, 128);
    assert_eq!(drive.write(1, 0, 0, 1), Refused(13));
}

// Writes and reads.

#[test]
fn write_by_block_fits_and_closes_when_full() {
    let mut drive = small_with_domain_1();
    assert_eq!(drive.write(1, 0, 0, 1), Done);
    assert_eq!(drive.write_block(1, 0, 0, 1), Refused(10));
    assert_eq!(drive.erase_any(1), AnswerBlock(1));
    assert_eq!(drive.write_block(1, 1, 0, 129), Refused(15));
    assert_eq!(drive.write_block(1, 1, 10, 100), Done);
    assert_eq!(drive.words[99], A | 1 << 7 | 99);
    assert_eq!(drive.words[100], FRESH);
    assert_eq!(drive.write_block(1, 1, 0, 29), Refused(15));
    assert_eq!(drive.write_block(1, 1, 110, 28), Done);
    assert_eq!((drive.state(1), drive.block(1).left), (State::Closed(Way::Erase), 0));
    assert!(drive.entries(1).iter().copied().eq(10..138));
    assert_eq!(drive.write_block(1, 1, 0, 1), Refused(10));
}

#[test]
fn a_start_of_all_ones_puts_all_ones_on_every_adu() {
    let mut drive = small_with_domain_1();
    assert_eq!(drive.write(1, 0, ALL_ONES, 256), Done);
    assert!(drive.entries(0).iter().chain(drive.entries(1)).all(|&entry| entry == ALL_ONES));
    assert_eq!(drive.words[255], A | 255);
    assert_eq!(drive.read(1, A, 128, ALL_ONES), Done);
    assert!(drive.words[..128].iter().all(|&word| word == ALL_ONES));
    assert_eq!(drive.read(1, A, 1, 5), Refused(16));
    assert_eq!(drive.read(1, A, 1, ALL_ONES - 1), Refused(16));
}

#[test]
fn question_8_looks_at_the_last_adu() {
    let mut drive = small_with_domain_1();
    let top = (1 << 40) - 1;
    for (start, count, answer) in [
        (top - 255, 256, Done),
        (top - 254, 256, Refused(8)),
        (5 << 40 | top, 1, Done),
        (5 << 40 | top, 2, Refused(8)),
        (0xFF_FFFE << 40 | top, 1, Done),
        (ALL_ONES - 1, 1, Done),
        (ALL_ONES - 1, 2, Refused(8)),
        (ALL_ONES - 99, 100, Refused(8)),
        (ALL_ONES - 99, 99, Done),
    ] {
        assert_eq!(drive.create(2, 0, 1_024, 1, 1), Done);
        assert_eq!(drive.write(2, 0, start, count), answer, "{start:x} {count}");
        if answer == Done {
            let address = drive.words[0];
            assert_eq!(drive.read(2, address, count.min(100), start), Done);
            assert!(drive
                .words
                .iter()
                .copied()
                .zip(start..)
                .take(99.min(count as usize))
                .all(|(a, b)| a == b));
        }
        assert_eq!(drive.delete(2), Done);
    }
}

#[test]
fn read_compares_entry_by_entry() {
    let mut drive = small_with_domain_1();
    assert_eq!(drive.write(1, 0, 1_000, 100), Done);
    drive.words.fill(FRESH);
    assert_eq!(drive.read(1, A | 10, 90, 1_010), Done);
    assert!(drive.words[..90].iter().copied().eq(1_010..1_100));
    assert_eq!(drive.words[90], FRESH);
    assert_eq!(drive.read(1, A | 10, 91, 1_010), Refused(15));
    assert_eq!(drive.read(1, A | 99, 1, 1_099), Done);
    assert_eq!(drive.read(1, A | 100, 1, ALL_ONES), Refused(15));
    assert_eq!(drive.read(1, A | 10, 90, 1_011), Refused(16));
    drive.store[50] = 7;
    assert_eq!(drive.read(1, A | 10, 40, 1_010), Done);
    assert_eq!(drive.read(1, A | 10, 41, 1_010), Refused(16));
    assert_eq!(drive.read(1, A | 10, 41, ALL_ONES), Done);
    assert_eq!(drive.words[40], 7);
    assert_eq!(drive.close(1, 0), AnswerBlock(0));
    assert_eq!(drive.read(1, A, 1, 1_000), Done);
}

#[test]
fn a_read_address_is_looked_at_in_6_and_9() {
    let mut drive = small_with_domain_1();
    assert_eq!(drive.write(1, 0, 0, 10), Done);
    assert_eq!(drive.read(1, A | 8 << 7, 1, ALL_ONES), Refused(6));
    assert_eq!(drive.read(1, A | 1 << 47, 1, ALL_ONES), Refused(6));
    assert_eq!(drive.read(1, u64::MAX, 1, ALL_ONES), Refused(6));
    assert_eq!(drive.read(1, (99 * A) | (8 << 7), 1, ALL_ONES), Refused(6));
    assert_eq!(drive.read(1, 99 * A, 1, ALL_ONES), Refused(9));
    assert_eq!(drive.read(1, 0, 1, ALL_ONES), Refused(9));
    assert_eq!(drive.read(1, A, 0, ALL_ONES), Refused(6));
    assert_eq!(drive.read(1, A, 257, ALL_ONES), Refused(6));
    assert_eq!(drive.read(1, A, 10, 0), Done);
}

// Log pages.

#[test]
fn a_page_has_the_fields_of_super_block_information() {
    let config = Config { dies: 2, adus: 4, blocks: 8, ..SMALL };
    let mut drive = Drive::start(config);
    assert_eq!(drive.create(7, 0, 2_048, 3, 5), Done);
    assert_eq!(drive.erase(7, 1), AnswerBlock(1));
    assert_eq!(drive.write(7, 2, 9, 200), Done);
    drive.table.blocks[0].erases = 35;

    drive.bytes.fill(0xA5);
    assert_eq!(drive.page(7, 0), Done);
    let mut wanted = [0u8; 256];
    wanted[..28].copy_from_slice(&[
        1, 0, 0, 0x04, 0, 0, 0, 0, 2, 0, 7, 0, 7, 0, 0, 0, 0, 4, 0, 0, 200, 0, 0, 0, 2, 0, 0, 0,
    ]);
    assert_eq!(drive.bytes[..256], wanted);
    assert!(drive.bytes[256..].iter().all(|&byte| byte == 0xA5));

    assert_eq!(drive.close(7, 0), AnswerBlock(0));
    assert_eq!(drive.page(7, 0), Done);
    wanted[3] = 0x06;
    wanted[13] = 1;
    wanted[20] = 0;
    assert_eq!(drive.bytes[..256], wanted);

    assert_eq!(drive.page(7, 1), Done);
    wanted[..28].copy_from_slice(&[
        1, 0, 0, 0x08, 1, 0, 0, 0, 255, 255, 7, 0, 0, 0, 0, 0, 0, 4, 0, 0, 0, 0, 0, 0, 1, 0, 0, 0,
    ]);
    assert_eq!(drive.bytes[..256], wanted);

    assert_eq!(drive.close(7, 1), AnswerBlock(1));
    assert_eq!(drive.page(7, 1), Done);
    wanted[3] = 0x0A;
    wanted[13] = 1;
    assert_eq!(drive.bytes[..256], wanted);

    drive.bytes.truncate(255);
    assert_eq!(drive.page(7, 8), Refused(6));
    assert_eq!(drive.page(7, 5), Refused(7));
    drive.bytes.push(0);
    assert_eq!(drive.page(7, 5), Refused(9));
    assert_eq!(drive.page(7, ANY_BLOCK), Refused(6));
}

#[test]
fn a_list_has_a_descriptor_for_each_block_and_an_end_mark() {
    const END: [u8; 8] = [255, 255, 255, 255, 0, 0, 0, 0];
    let mut drive = Drive::start(SMALL);
    assert_eq!(drive.create(1, 0, 1_024, 3, 5), Done);
    assert_eq!(drive.create(2, 0, 1_024, 3, 5), Done);
    drive.bytes.fill(0xA5);
    assert_eq!(drive.list(1, Listed::Open), Done);
    assert_eq!(drive.bytes[..9], [255, 255, 255, 255, 0, 0, 0, 0, 0xA5]);
    assert_eq!(drive.erase(2, 0), AnswerBlock(0));
    for number in [6, 1, 4] {
        assert_eq!(drive.erase(1, number), AnswerBlock(number));
    }
    drive.table.blocks[6].erases = 1_000;
    drive.table.blocks[4].erases = 2_000;
    drive.table.blocks[5].erases = 9;
    drive.table.blocks[7].erases = 9;
    assert_eq!(drive.write(1, 0, 0, 200), Done);
    assert_eq!(
        (drive.state(2), drive.state(3)),
        (State::Closed(Way::Placement(0)), State::Open(Way::Placement(0)))
    );
    assert_eq!(drive.close(1, 6), AnswerBlock(6));

    let open = [
        [1, 0, 0, 0, 0, 0x08, 0, 0],
        [4, 0, 0, 0, 255, 0x08, 0, 0],
        [3, 0, 0, 0, 0, 0x04, 0, 0],
        END,
    ];
    drive.bytes.fill(0xA5);
    assert_eq!(drive.list(1, Listed::Open), Done);
    assert_eq!(drive.bytes[..32], open.concat());
    assert!(drive.bytes[32..].iter().all(|&byte| byte == 0xA5));

    let closed = [[6, 0, 0, 0, 200, 1, 0, 0], [2, 0, 0, 0, 0, 1, 0, 0], END];
    drive.bytes.fill(0xA5);
    assert_eq!(drive.list(1, Listed::Closed), Done);
    assert_eq!(drive.bytes[..24], closed.concat());
    assert!(drive.bytes[24..].iter().all(|&byte| byte == 0xA5));

    drive.bytes.truncate(31);
    assert_eq!(drive.list(1, Listed::Open), Refused(7));
    assert_eq!(drive.list(1, Listed::Closed), Done);
    drive.bytes.truncate(23);
    assert_eq!(drive.list(1, Listed::Closed), Refused(7));
    drive.bytes.clear();
    assert_eq!(drive.list(0, Listed::Open), Refused(4));
    assert_eq!(drive.list(3, Listed::Open), Refused(5));
    assert_eq!(drive.list(2, Listed::Closed), Refused(7));
}

/// A block's index by Page and by the list that has it, first open and then Closed.
fn told_indices(rated: u64, erases: u32) -> [[u8; 2]; 2] {
    let mut drive = Drive::start(Config { rated, ..SMALL });
    assert_eq!(drive.create(1, 0, 128, 1, 1), Done);
    assert_eq!(drive.erase(1, 0), AnswerBlock(0));
    drive.table.blocks[0].erases = erases;
    [Listed::Open, Listed::Closed].map(|listed| {
        assert_eq!(drive.page(1, 0), Done);
        let by_page = drive.bytes[12];
        assert_eq!(drive.list(1, listed), Done);
        let by_list = drive.bytes[4];
        assert_eq!(drive.close(1, 0), AnswerBlock(0));
        [by_page, by_list]
    })
}

/// Wish 3 of document 02.
#[test]
fn the_wear_index_is_to_the_nearest_halves_up_and_at_most_255() {
    for (rated, indices) in [
        // 0.5, 1.5, 254.5, 255.5 and 256.5 are exact.
        (400, &[(0, 0), (1, 1), (2, 1), (3, 2), (4, 2)][..]),
        (400, &[(508, 254), (509, 255), (510, 255), (511, 255), (512, 255), (513, 255)]),
        // Just below a half, at it, and just above.
        (50_000, &[(124, 0), (125, 1), (126, 1), (374, 1), (375, 2), (376, 2)]),
        (50_000, &[(63_624, 254), (63_625, 255), (63_626, 255)]),
        (50_000, &[(63_874, 255), (63_875, 255), (63_876, 255), (64_000, 255)]),
        // The ends of N. With the last none is a half; 18.50004 and 21.49996 come nearest.
        (1, &[(0, 0), (1, 200), (2, 255), (u32::MAX, 255)]),
        (65_535, &[(0, 0), (163, 0), (164, 1), (6_062, 19), (7_045, 21), (65_535, 200)]),
        (65_535, &[(83_393, 254), (83_394, 255), (83_721, 255), (83_886, 255), (u32::MAX, 255)]),
    ] {
        for &(erases, index) in indices {
            assert_eq!(told_indices(rated, erases), [[index; 2]; 2], "{erases} of {rated}");
        }
    }
    // By as many erases.
    let mut drive = Drive::start(Config { rated: 400, ..SMALL });
    assert_eq!(drive.create(1, 0, 128, 1, 1), Done);
    for index in [1, 1, 2, 2, 3] {
        assert_eq!(drive.erase(1, 0), AnswerBlock(0));
        assert_eq!(drive.page(1, 0), Done);
        assert_eq!(drive.bytes[12], index);
        assert_eq!(drive.close(1, 0), AnswerBlock(0));
    }
}

// The questions' order.

#[test]
fn each_question_comes_before_the_next() {
    let mut drive = small_with_domain_1();
    assert_eq!(drive.create(2, 5 * 128, 1_024, 1, 1), Done);
    let bad = u64::MAX;
    let last_lba = (1 << 40) - 1;

    // Erase: 3, 4, 5, 6, 9, 10, 11, 12, 13, 14.
    drive.store.push(0);
    assert_eq!(drive.erase(bad, bad), Refused(3));
    drive.store.pop();
    assert_eq!(drive.erase(bad, bad), Refused(4));
    assert_eq!(drive.erase(3, bad), Refused(5));
    assert_eq!(drive.erase(1, bad), Refused(6));
    assert_eq!(drive.erase(1, 8), Refused(6));
    assert_eq!(drive.erase(1, ANY_BLOCK - 1), Refused(6));
    assert_eq!(drive.erase(1, ANY_BLOCK + 1), Refused(6));

    // Writes and Read: 3, 4, 5, 6, 7, 8.
    let transfers: [&dyn Fn(u64, u64, u64, u64) -> Command; 3] = [
        &|domain, place, start, count| Command::WriteByPlacement {
            domain,
            placement: place,
            start,
            count,
        },
        &|domain, place, start, count| Command::WriteByBlock { domain, block: place, start, count },
        &|domain, place, start, count| Command::Read {
            domain,
            address: place,
            count,
            expected: start,
        },
    ];
    for transfer in transfers {
        drive.store.pop();
        assert_eq!(drive.serve(transfer(bad, bad, last_lba, bad)), Refused(3));
        drive.store.push(FRESH);
        drive.words.truncate(1);
        assert_eq!(drive.serve(transfer(bad, bad, last_lba, bad)), Refused(4));
        assert_eq!(drive.serve(transfer(3, bad, last_lba, bad)), Refused(5));
        assert_eq!(drive.serve(transfer(1, bad, last_lba, 2)), Refused(6));
        assert_eq!(drive.serve(transfer(1, 0, last_lba, 0)), Refused(6));
        assert_eq!(drive.serve(transfer(1, 0, last_lba, 257)), Refused(6));
        assert_eq!(drive.serve(transfer(1, 0, last_lba, 2)), Refused(7));
        drive.words.push(0);
        assert_eq!(drive.serve(transfer(1, 0, last_lba, 2)), Refused(8));
        drive.words.resize(256, 0);
    }
    assert_eq!(drive.write(1, 2, 0, 1), Refused(6));
    assert_eq!(drive.write_block(1, 8, 0, 1), Refused(6));
    assert_eq!(drive.write_block(1, ANY_BLOCK, 0, 1), Refused(6));

    // Close and Free: 4, 5, 6, 9.
    for command in [
        &(|domain, block| Command::Close { domain, block }) as &dyn Fn(u64, u64) -> Command,
        &|domain, block| Command::Free { domain, block },
    ] {
        assert_eq!(drive.serve(command(bad, bad)), Refused(4));
        assert_eq!(drive.serve(command(3, bad)), Refused(5));
        assert_eq!(drive.serve(command(1, 8)), Refused(6));
        assert_eq!(drive.serve(command(1, ANY_BLOCK)), Refused(6));
        assert_eq!(drive.serve(command(1, 0)), Refused(9));
    }
    assert_eq!(drive.pulse(65_536), Refused(6));
    assert_eq!(drive.pulse(u64::MAX), Refused(6));

    // 10 before 11, 11 before 12, 12 before 13, 13 before 14.
    assert_eq!(drive.erase(2, 0), AnswerBlock(0));
    assert_eq!(drive.erase(2, 0), Refused(10));
    drive.table.domains[1].last = u32::MAX;
    assert_eq!(drive.erase(2, 1), Refused(11));
    assert_eq!(drive.write(2, 0, 0, 1), Refused(11));
    assert_eq!(drive.close(2, 0), AnswerBlock(0));
    drive.table.domains[1].reserved = 1;
    drive.table.domains[1].quota = 1;
    assert_eq!(drive.erase(2, 1), Refused(12));
    assert_eq!(drive.write(2, 0, 0, 1), Refused(12));
    drive.table.domains[1].last = 1;
    assert_eq!(drive.create(3, 4 * 128, 0, 1, 1), Done);
    assert_eq!(drive.erase(2, 1), Refused(13));
    assert_eq!(drive.write(2, 0, 0, 1), Refused(13));
    drive.table.domains[1].quota = 8;
    assert_eq!(drive.erase(2, 1), Refused(14));
    assert_eq!(drive.write(2, 0, 0, 1), Refused(14));
}

#[test]
fn an_unsound_table_is_refused_before_all_else() {
    let mut drive = small_with_domain_1();
    assert_eq!(drive.erase_any(1), AnswerBlock(0));
    drive.table.blocks[7].serial = 1;
    drive.store.clear();
    for answer in [
        drive.create(0, 0, 0, 0, 0),
        drive.change(0, 0, 0),
        drive.delete(0),
        drive.erase_any(0),
        drive.close(0, 0),
        drive.free(0, 0),
        drive.write(0, 0, 0, 0),
        drive.write_block(0, 0, 0, 0),
        drive.read(0, 0, 0, 0),
        drive.page(0, 0),
        drive.list(0, Listed::Open),
        drive.pulse(70_000),
    ] {
        assert_eq!(answer, Answer::Refused(2));
    }
}

// Where a builder goes astray.

#[test]
fn the_seconds_left_are_never_wound_up() {
    let mut drive = small_with_domain_1();
    assert_eq!(drive.create(2, 0, 1_024, 1, 1), Done);
    assert_eq!(drive.write(1, 0, 0, 1), Done);
    assert_eq!(drive.erase_any(1), AnswerBlock(1));
    assert_eq!(drive.pulse(20), Done);
    assert_eq!(drive.write(1, 0, 1, 1), Done);
    assert_eq!(drive.write_block(1, 1, 1, 1), Done);
    assert_eq!((drive.block(0).left, drive.block(1).left), (40, 40));
    assert_eq!(drive.erase(1, 0), Refused(10));
    assert_eq!(drive.erase(2, 1), Refused(9));
    assert_eq!(drive.write_block(1, 1, 1, 128), Refused(15));
    assert_eq!(drive.pulse(0), Done);
    assert_eq!((drive.block(0).left, drive.block(1).left), (40, 40));
    assert_eq!(drive.close(1, 1), AnswerBlock(1));
    assert_eq!(drive.block(1).left, 0);
    assert_eq!(drive.pulse(39), Done);
    assert_eq!((drive.block(0).left, drive.block(1).left), (1, 0));
    assert_eq!(drive.pulse(65_535), Done);
    assert_eq!((drive.state(0), drive.block(0).left), (State::Closed(Way::Placement(0)), 0));
}

#[test]
fn a_guest_takes_no_reserved_block() {
    let mut drive = small_with_domain_1();
    assert_eq!(drive.create(2, 0, 1_024, 1, 256), Done);
    for number in 0..5 {
        assert_eq!(drive.erase_any(2), AnswerBlock(number));
    }
    assert_eq!(drive.erase_any(2), Refused(14));
    assert_eq!(drive.erase(2, 7), Refused(14));
    assert_eq!(drive.write(2, 0, 0, 1), Refused(14));
    for number in 5..8 {
        assert_eq!(drive.erase_any(1), AnswerBlock(number));
    }
}

#[test]
fn a_freed_block_is_given_out_again() {
    let mut drive = Drive::start(Config { blocks: 1, ..SMALL });
    assert_eq!(drive.create(1, 128, 0, 1, 1), Done);
    for erases in 1..=3 {
        assert_eq!(drive.erase_any(1), AnswerBlock(0));
        assert_eq!(drive.block(0).erases, erases);
        assert_eq!(drive.free(1, 0), AnswerBlock(0));
    }
    assert_eq!(drive.write(1, 0, 0, 1), Done);
    assert_eq!(drive.block(0).serial, 4);
}

#[test]
fn no_spare_block_is_opened_at_the_exact_end() {
    let mut drive = Drive::start(SMALL);
    assert_eq!(drive.create(1, 2 * 128, 0, 1, 1), Done);
    assert_eq!(drive.write(1, 0, 0, 1), Done);
    // Two blocks are the quota: a third, opened as a spare, would be refused.
    assert_eq!(drive.write(1, 0, 1, 255), Done);
    assert_eq!(drive.open_blocks(), 0);
    assert_eq!((drive.block(0).written, drive.block(1).written), (128, 128));
}

#[test]
fn every_domain_counts_its_own_serials() {
    let mut drive = small_with_domain_1();
    assert_eq!(drive.create(2, 0, 1_024, 1, 9), Done);
    for serial in 1..=3 {
        let AnswerBlock(one) = drive.erase_any(1) else { panic!() };
        let AnswerBlock(other) = drive.erase_any(2) else { panic!() };
        assert_eq!(drive.block(one as usize).serial, serial);
        assert_eq!(drive.block(other as usize).serial, serial);
    }
}

#[test]
fn records_beyond_the_drive_do_not_matter_and_do_not_change() {
    let mut drive = Drive::start(Config { blocks: 3, ..SMALL });
    let junk = Block {
        state: State::Open(Way::Placement(200)),
        holder: 1,
        written: u64::MAX,
        left: 1,
        erases: 0,
        serial: 0,
    };
    drive.table.blocks[3..].fill(junk);
    drive.table.blocks[4] = Block::default();
    let beyond = drive.table.blocks[3..].to_vec();
    assert!(drive.table.is_sound());
    assert_eq!(drive.create(1, 3 * 128, 0, 16, 16), Done);
    for block in &mut drive.table.blocks[..3] {
        block.erases = 5;
    }
    assert_eq!(drive.erase_any(1), AnswerBlock(0));
    assert_eq!(drive.write(1, 0, 0, 256), Done);
    assert_eq!(drive.pulse(60), Done);
    assert_eq!(drive.list(1, Listed::Closed), Done);
    assert_eq!(drive.bytes[24..28], [255; 4]);
    assert_eq!(drive.close(1, 3), Refused(6));
    assert_eq!(drive.delete(1), Done);
    assert_eq!(drive.table.blocks[3..], beyond);
}
