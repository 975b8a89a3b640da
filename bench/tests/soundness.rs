//! The sound tables of document 01 by a plain definition, word for word, against the one pass of
//! the manager; and commands and calls on tables of any content, none of which may panic.

mod common;

use bench::generate;
use bench::manager::{Answer, Block, Config, Domain, State, Table, Way};
use bench::random::Random;
use bench::recorder;
use common::*;

fn holds(table: &Table, domain: usize) -> Vec<&Block> {
    let present = &table.blocks[..table.config.blocks as usize];
    let held = present.iter().filter(|block| block.state != State::Free);
    held.filter(|block| usize::from(block.holder) == domain + 1).collect()
}

fn is_open(block: &Block) -> bool {
    matches!(block.state, State::Open(_))
}

fn placement(block: &Block) -> Option<u8> {
    match block.state {
        State::Open(Way::Placement(placement)) | State::Closed(Way::Placement(placement)) => {
            Some(placement)
        }
        _ => None,
    }
}

/// A table is sound if ...
fn plainly_sound(table: &Table) -> bool {
    let Config { pages, dies, planes, adus, blocks, rated, period } = table.config;
    let limits = (128..=8_192).contains(&pages)
        && (1..=64).contains(&dies)
        && (1..=64).contains(&planes)
        && (1..=256).contains(&adus)
        && (1..=256).contains(&blocks)
        && (1..=65_535).contains(&rated)
        && (1..=65_535).contains(&period);
    if !limits || pages * dies * planes * adus > 1_048_576 {
        return false;
    }
    let capacity = pages * dies * planes * adus;
    let mut covered = 0;
    for (index, domain) in table.domains.iter().enumerate() {
        let held = holds(table, index);
        let open = held.iter().filter(|block| is_open(block)).count();
        covered += u64::from(domain.reserved).max(held.len() as u64);
        if !domain.exists {
            if *domain != Domain::default() || !held.is_empty() {
                return false;
            }
            continue;
        }
        let placements = u32::from(domain.placements);
        let numbers = domain.reserved <= domain.quota
            && u64::from(domain.quota) <= blocks
            && held.len() as u64 <= u64::from(domain.quota)
            && (1..=16).contains(&placements)
            && (placements..=256).contains(&domain.limit)
            && open as u64 <= u64::from(domain.limit);
        if !numbers {
            return false;
        }
        for (i, block) in held.iter().enumerate() {
            if !(1..=domain.last).contains(&block.serial)
                || held[..i].iter().any(|other| other.serial == block.serial)
                || placement(block).is_some_and(|placement| placement >= domain.placements)
            {
                return false;
            }
        }
        for id in 0..16 {
            let writing = |block: &&&Block| is_open(block) && placement(block) == Some(id);
            if held.iter().filter(writing).count() > 1 {
                return false;
            }
        }
    }
    let records = table.blocks[..blocks as usize].iter().all(|block| match block.state {
        State::Free => *block == Block { erases: block.erases, ..Block::default() },
        State::Open(_) => {
            (1..=16).contains(&block.holder)
                && block.written < capacity
                && (1..=period).contains(&u64::from(block.left))
        }
        State::Closed(_) => {
            (1..=16).contains(&block.holder) && block.written <= capacity && block.left == 0
        }
    });
    records && covered <= blocks
}

/// What is changed, and how.
type Change<'a> = (&'a str, &'a dyn Fn(&mut Table));

#[test]
fn each_line_of_the_definition_counts() {
    let mut drive = Drive::start(SMALL);
    assert_eq!(drive.create(1, 256, 512, 2, 3), Done);
    assert_eq!(drive.create(2, 128, 1_024, 1, 1), Done);
    assert_eq!(drive.write(1, 0, 0, 200), Done);
    assert_eq!(drive.erase(1, 5), AnswerBlock(5));
    assert_eq!(drive.erase(2, 6), AnswerBlock(6));
    let sound = drive.table;
    // Block 0 is Closed and 1 Open, both of domain 1's placement 0; 5 is Open by Erase.
    assert!(sound.is_sound());
    let refused: [Change; 44] = [
        ("pages", &|table| table.config.pages = 0),
        ("blocks", &|table| table.config.blocks = 257),
        ("blocks", &|table| table.config.blocks = u64::MAX),
        ("fewer blocks", &|table| table.config.blocks = 3),
        ("too many ADUs", &|table| table.config.dies = u64::MAX),
        ("shorter period", &|table| table.config.period = 59),
        ("reserved above quota", &|table| table.domains[0].reserved = 5),
        ("quota above S", &|table| table.domains[1].quota = 9),
        ("held above quota", &|table| (table.domains[0].reserved, table.domains[0].quota) = (2, 2)),
        ("coverage", &|table| table.domains[1].reserved = 6),
        ("coverage", &|table| (table.domains[1].reserved, table.domains[1].quota) = (8, 8)),
        ("no placement IDs", &|table| table.domains[1].placements = 0),
        ("too many IDs", &|table| (table.domains[1].placements, table.domains[1].limit) = (17, 17)),
        ("low limit", &|table| table.domains[0].limit = 1),
        ("high limit", &|table| table.domains[0].limit = 257),
        ("open above limit", &|table| table.domains[1].limit = 0),
        ("equal serials", &|table| table.blocks[5].serial = table.blocks[0].serial),
        ("serial 0", &|table| table.blocks[5].serial = 0),
        ("serial above last", &|table| table.domains[0].last = 2),
        ("no such holder", &|table| table.blocks[6].holder = 3),
        ("holder 0", &|table| table.blocks[6].holder = 0),
        ("holder 17", &|table| table.blocks[6].holder = 17),
        ("holder 255", &|table| table.blocks[6].holder = 255),
        ("holder missing", &|table| table.domains[1] = Domain::default()),
        ("holder not existing", &|table| table.domains[1].exists = false),
        ("placement", &|table| table.blocks[0].state = State::Closed(Way::Placement(2))),
        ("placement", &|table| table.blocks[1].state = State::Open(Way::Placement(255))),
        ("two open", &|table| table.blocks[5].state = State::Open(Way::Placement(0))),
        ("open and full", &|table| table.blocks[1].written = 128),
        ("open and overfull", &|table| table.blocks[1].written = u64::MAX),
        ("open without time", &|table| table.blocks[1].left = 0),
        ("open too long", &|table| table.blocks[1].left = 61),
        ("closed and overfull", &|table| table.blocks[0].written = 129),
        ("closed with time", &|table| table.blocks[0].left = 1),
        ("free with holder", &|table| table.blocks[7].holder = 1),
        ("free and written", &|table| table.blocks[7].written = 1),
        ("free with time", &|table| table.blocks[7].left = 1),
        ("free with serial", &|table| table.blocks[7].serial = 1),
        ("free of a held record", &|table| table.blocks[0].state = State::Free),
        ("missing with reserved", &|table| table.domains[2].reserved = 1),
        ("missing with quota", &|table| table.domains[2].quota = 1),
        ("missing with placements", &|table| table.domains[15].placements = 1),
        ("missing with limit", &|table| table.domains[15].limit = 1),
        ("missing with last", &|table| table.domains[15].last = 1),
    ];
    for (name, change) in refused {
        let mut table = sound.clone();
        change(&mut table);
        assert!(!table.is_sound() && !plainly_sound(&table), "{name}");
    }
    let kept: [Change; 9] = [
        ("longer period", &|table| table.config.period = 65_535),
        ("P/E count of a free one", &|table| table.blocks[7].erases = u32::MAX),
        ("P/E count of a held one", &|table| table.blocks[0].erases = u32::MAX),
        ("last", &|table| table.domains[0].last = u32::MAX),
        ("equal serials of two", &|table| table.blocks[6].serial = 1),
        ("closed and empty", &|table| table.blocks[0].written = 0),
        ("closed and full", &|table| table.blocks[0].written = 128),
        ("left", &|table| table.blocks[1].left = 1),
        ("beyond S", &|table| table.blocks[8] = table.blocks[0]),
    ];
    for (name, change) in kept {
        let mut table = sound.clone();
        change(&mut table);
        assert!(table.is_sound() && plainly_sound(&table), "{name}");
    }
}

/// All blocks of a large drive with the given serials, all of domain 1.
fn with_serials(count: u64, serial: impl Fn(u32) -> u32) -> Table {
    let mut table = Table::start(Config { blocks: count, ..SMALL }).1;
    table.domains[0] = Domain {
        exists: true,
        reserved: 0,
        quota: count as u32,
        placements: 1,
        limit: 1,
        last: u32::MAX,
    };
    for (number, block) in table.blocks[..count as usize].iter_mut().enumerate() {
        *block = Block {
            state: State::Closed(Way::Erase),
            holder: 1,
            serial: serial(number as u32),
            ..Block::default()
        };
    }
    table
}

#[test]
fn every_pair_of_equal_serials_is_found() {
    for count in [2, 31, 32, 33, 255, 256] {
        for factor in [1, 256, 65_536, 0x0100_0000 - 1] {
            let table = with_serials(count, |number| number * factor + 1);
            assert!(table.is_sound());
            for one in 0..count as usize {
                for other in (0..count as usize).filter(|&other| other != one).step_by(13) {
                    let mut table = table.clone();
                    table.blocks[one].serial = table.blocks[other].serial;
                    assert!(!table.is_sound(), "{one} {other}");
                }
            }
        }
    }
}

#[test]
fn the_one_pass_agrees_with_the_plain_definition() {
    let mut random = Random::new(0x50_0D);
    let mut counts = [0, 0];
    for _ in 0..400 {
        let mut drive = Drive::start(generate::config(&mut random));
        for _ in 0..60 {
            let call = generate::call(&mut random, &drive.table, &drive.store);
            drive.words.resize(256, 0);
            drive.bytes.resize(2_056, 0);
            let Drive { table, store, words, bytes } = &mut drive;
            let _ = recorder::serve(table, call, store, words, bytes);
            match random.below(100) {
                0..=2 => generate::plant(&mut random, &mut drive.table),
                3..=5 => generate::plant_recorder(&mut random, &mut drive.table),
                _ => {}
            }
            assert!(drive.table.is_sound() && plainly_sound(&drive.table), "{call:?}");
            for _ in 0..3 {
                let mut damaged = drive.table.clone();
                generate::damage(&mut random, &mut damaged);
                assert_eq!(damaged.is_sound(), plainly_sound(&damaged), "{damaged:?}");
                counts[usize::from(damaged.is_sound())] += 1;
            }
        }
    }
    assert!(counts.iter().all(|&count| count > 5_000), "{counts:?}");
}

#[test]
fn no_input_panics_and_no_refusal_changes_anything() {
    let mut random = Random::new(0xBAD);
    for _ in 0..150 {
        let mut drive = Drive::start(generate::config(&mut random));
        let length = drive.store.len();
        for _ in 0..100 {
            let table = drive.table.clone();
            let hostile = random.chance(30);
            if hostile {
                generate::damage(&mut random, &mut drive.table);
            }
            let call = generate::call(&mut random, &drive.table, &drive.store);
            drive.words.resize(random.pick(&[0, 1, 255, 256, 300]), 0);
            drive.bytes.resize(random.pick(&[0, 8, 255, 256, 2_056]), 0);
            drive.store.resize(
                if random.chance(95) { length } else { random.pick(&[0, 1, length + 1]) },
                0,
            );
            let sound = drive.table.is_sound();
            let answer = drive.serve(call);
            assert_eq!(answer == Answer::Refused(2), !sound);
            drive.store.resize(length, 0);
            if hostile {
                drive.table = table;
            }
        }
    }
}
