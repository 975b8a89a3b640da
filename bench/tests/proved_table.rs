//! P1 to P12 of document 01.

mod common;

use bench::manager::{make_address, take_apart, Config, Elements, State, Way, ALL_ONES};
use common::*;

const LAST_LBA: u64 = (1 << 40) - 1;

#[test]
fn p1_to_p3_guarantees_are_covered() {
    let mut drive = small_with_domain_1();
    let domain = drive.table.domains[0];
    assert_eq!((domain.reserved, domain.quota, domain.limit), (3, 3, 4));
    assert_eq!(u64::from(domain.quota) * SMALL.planes_in_block(), 384);

    assert_eq!(drive.create(2, 640, 0, 1, 1), Done);
    assert_eq!((drive.table.domains[1].reserved, drive.table.domains[1].quota), (5, 5));
    assert_eq!(drive.create(3, 1, 1, 1, 1), Refused(14));

    assert_eq!(drive.create(3, 0, 1_024, 1, 1), Done);
    assert_eq!((drive.table.domains[2].reserved, drive.table.domains[2].quota), (0, 8));
    assert_eq!(drive.erase_any(3), Refused(14));
    assert_eq!(drive.erase(3, 7), Refused(14));
    assert_eq!(drive.write(3, 0, 0, 1), Refused(14));
}

#[test]
fn p4_a_fresh_write_of_256_fills_two_blocks() {
    let mut drive = small_with_domain_1();
    assert_eq!(drive.write(1, 0, 0, 256), Done);
    let closed = State::Closed(Way::Placement(0));
    assert_eq!((drive.state(0), drive.state(1), drive.state(2)), (closed, closed, State::Free));
    assert_eq!(drive.words[128], 0x0001_0000_0000_0080);
    assert_eq!((drive.block(0).serial, drive.block(1).serial), (1, 2));
    assert_eq!((drive.block(0).left, drive.block(1).left), (0, 0));
    assert_eq!(drive.entries(1)[127], 255);
}

#[test]
fn p5_a_full_block_is_closed_and_none_is_opened() {
    let mut drive = small_with_domain_1();
    assert_eq!(drive.write(1, 0, 0, 100), Done);
    assert_eq!(drive.write(1, 0, 100, 28), Done);
    assert_eq!(drive.state(0), State::Closed(Way::Placement(0)));
    assert_eq!(drive.open_blocks(), 0);
    assert_eq!(drive.write(1, 0, 128, 1), Done);
    assert_eq!(drive.state(1), State::Open(Way::Placement(0)));
    assert_eq!((drive.words[0], drive.block(1).written), (0x0001_0000_0000_0080, 1));
}

#[test]
fn p6_a_write_goes_on_in_the_next_block() {
    let mut drive = small_with_domain_1();
    assert_eq!(drive.write(1, 0, 0, 100), Done);
    assert_eq!(drive.write(1, 0, 100, 30), Done);
    assert_eq!((drive.block(0).written, drive.block(1).written), (128, 2));
    assert_eq!(drive.entries(1)[..3], [128, 129, ALL_ONES]);
}

#[test]
fn p7_a_block_expires_t_seconds_after_it_was_opened() {
    let mut drive = small_with_domain_1();
    assert_eq!(drive.write(1, 0, 0, 1), Done);
    assert_eq!(drive.pulse(59), Done);
    assert_eq!(drive.block(0).left, 1);
    assert_eq!(drive.write(1, 0, 1, 1), Done);
    assert_eq!(drive.block(0).left, 1);
    assert_eq!(drive.pulse(1), Done);
    assert_eq!((drive.state(0), drive.block(0).left), (State::Closed(Way::Placement(0)), 0));
    assert_eq!(drive.block(0).written, 2);
}

#[test]
fn p8_no_lba_passes_the_last() {
    let mut drive = small_with_domain_1();
    assert_eq!(drive.write(1, 0, LAST_LBA, 1), Done);
    assert_eq!(drive.write(1, 0, LAST_LBA, 2), Refused(8));
    assert_eq!(drive.read(1, 0x0001_0000_0000_0000, 1, LAST_LBA), Done);
    assert_eq!(drive.read(1, 0x0001_0000_0000_0000, 2, LAST_LBA), Refused(8));
}

#[test]
fn p9_no_user_address_is_all_ones() {
    let mut drive = small_with_domain_1();
    let start = 0xFF_FFFF << 40 | (LAST_LBA - 1);
    assert_eq!(drive.write(1, 0, start, 1), Done);
    assert_eq!(drive.write(1, 0, start, 2), Refused(8));
}

#[test]
fn p10_the_wear_index_is_to_the_nearest_and_at_most_255() {
    // P10 has 7, 1,277 and 1,300. Rounded down, 3, 8 and 1,273 would have one less.
    let near_0 = [(2, 0), (3, 1), (7, 1), (8, 2)];
    let near_255 = [(1_272, 254), (1_273, 255), (1_277, 255), (1_278, 255), (1_300, 255)];
    for (erases, index) in near_0.into_iter().chain(near_255).chain([(u32::MAX, 255)]) {
        let mut drive = small_with_domain_1();
        assert_eq!(drive.erase(1, 0), AnswerBlock(0));
        drive.table.blocks[0].erases = erases;
        assert_eq!(drive.page(1, 0), Done);
        assert_eq!(drive.bytes[12], index, "{erases}");
    }
}

#[test]
fn p11_offsets_and_words_are_made() {
    let config = Config { dies: 2, planes: 2, adus: 4, ..SMALL };
    let at = Elements { page: 3, die: 1, plane: 0, adu: 2 };
    let mut bytes = [0xA5; 57];
    assert_eq!(make_address(&config, 5, 3, at, &mut bytes), Done);
    assert_eq!(bytes[..8], 0x0005_0000_0000_183A_u64.to_le_bytes());
    assert_eq!(bytes[8..], [0xA5; 49]);
    assert_eq!(take_apart(&config, 0x0005_0000_0000_183A, &mut bytes), Done);
    for (i, number) in [5, 3, 58, 3, 1, 0, 2u64].into_iter().enumerate() {
        assert_eq!(bytes[8 * i..][..8], number.to_le_bytes());
    }
    assert_eq!(bytes[56], 0xA5);
}

#[test]
fn p12_offset_elements_have_no_bits_of_their_own() {
    let config = Config { dies: 3, planes: 2, ..SMALL };
    assert_eq!(config.adus_in_block(), 768);
    let at = Elements { page: 1, die: 2, plane: 1, adu: 0 };
    let mut bytes = [0; 56];
    assert_eq!(make_address(&config, 1, 1, at, &mut bytes), Done);
    assert_eq!(bytes[..8], (1u64 << 48 | 1 << 10 | 11).to_le_bytes());
    assert_eq!(take_apart(&config, 1 << 48 | 767, &mut bytes), Done);
    assert_eq!(take_apart(&config, 1 << 48 | 768, &mut bytes), Refused(6));

    let mut drive = Drive::start(config);
    assert_eq!(drive.create(1, 0, 768, 1, 1), Done);
    assert_eq!(drive.read(1, 1 << 48 | 768, 1, ALL_ONES), Refused(6));
    assert_eq!(drive.read(1, 1 << 48 | 767, 1, ALL_ONES), Refused(9));
}

#[test]
fn addresses_ask_1_4_6_and_7() {
    let at = Elements { page: 127, die: 0, plane: 0, adu: 0 };
    let none = Config::default();
    assert_eq!(make_address(&none, 0, 9, at, &mut []), Refused(1));
    assert_eq!(make_address(&SMALL, 0, 9, at, &mut []), Refused(4));
    assert_eq!(make_address(&SMALL, 17, 9, at, &mut []), Refused(4));
    assert_eq!(make_address(&SMALL, 16, 8, at, &mut []), Refused(6));
    let past = [
        Elements { page: 128, ..at },
        Elements { die: 1, ..at },
        Elements { plane: 1, ..at },
        Elements { adu: 1, ..at },
        Elements { page: u64::MAX, die: u64::MAX, plane: u64::MAX, adu: u64::MAX },
    ];
    for at in past {
        assert_eq!(make_address(&SMALL, 16, 7, at, &mut []), Refused(6));
    }
    assert_eq!(make_address(&SMALL, 16, 7, at, &mut [0; 7]), Refused(7));
    assert_eq!(make_address(&SMALL, 16, 7, at, &mut [0; 8]), Done);
    assert_eq!(take_apart(&none, 0, &mut []), Refused(1));
    assert_eq!(take_apart(&SMALL, u64::MAX, &mut []), Refused(4));
    assert_eq!(take_apart(&SMALL, 16 << 48 | 8 << 7, &mut []), Refused(6));
    assert_eq!(take_apart(&SMALL, 16 << 48 | 1 << 47, &mut []), Refused(6));
    assert_eq!(take_apart(&SMALL, 16 << 48 | 7 << 7 | 127, &mut [0; 55]), Refused(7));
    assert_eq!(take_apart(&SMALL, 16 << 48 | 7 << 7 | 127, &mut [0; 56]), Done);
}
