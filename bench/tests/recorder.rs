//! The recorder by the sentences of Wish 1 of document 02, and against a plain reading of them.

mod common;

use bench::generate;
use bench::manager::{Answer, Block, Command, Config, State, Table, Way, ALL_ONES};
use bench::random::Random;
use bench::recorder::{self, Call};
use common::*;

const LAST_LBA: u64 = (1 << 40) - 1;
const BAD: u64 = u64::MAX;

/// The drive small with a recorder's domain 2 of so many blocks.
fn small_with_recorder(blocks: u64) -> Drive {
    let mut drive = Drive::start(SMALL);
    assert_eq!(drive.create(2, blocks * 128, 0, 1, 3), Done);
    drive
}

/// All that a domain has written, by rising serial, then offset.
fn kept(table: &Table, store: &[u64], domain: u64) -> Vec<u64> {
    let capacity = table.config.adus_in_block() as usize;
    let blocks = table.blocks[..table.config.blocks as usize].iter().enumerate();
    let mut held: Vec<(usize, &Block)> =
        blocks.filter(|(_, block)| u64::from(block.holder) == domain).collect();
    held.sort_by_key(|(_, block)| block.serial);
    let samples =
        |(number, block): (usize, &Block)| &store[number * capacity..][..block.written as usize];
    held.into_iter().flat_map(samples).copied().collect()
}

// The questions and their order.

#[test]
fn append_puts_each_question_before_the_next() {
    let mut drive = small_with_recorder(2);
    assert_eq!(drive.create(3, 256, 0, 2, 2), Done);
    // Two blocks are open by Erase, and a third would pass limit, serials and quota.
    assert_eq!(drive.erase_any(2), AnswerBlock(0));
    assert_eq!(drive.erase_any(2), AnswerBlock(1));
    drive.table.domains[1].limit = 2;
    drive.table.domains[1].last = u32::MAX;
    drive.words.clear();
    drive.store.pop();
    drive.table.blocks[7].serial = 1;
    assert_eq!(drive.append(BAD, LAST_LBA), Refused(2));
    drive.table.blocks[7].serial = 0;
    assert_eq!(drive.append(BAD, LAST_LBA), Refused(3));
    drive.store.extend([FRESH; 2]);
    assert_eq!(drive.append(BAD, LAST_LBA), Refused(3));
    drive.store.pop();
    for domain in [BAD, 0, 17, 256 + 2, 65_536 + 2, (1 << 32) + 2] {
        assert_eq!(drive.append(domain, LAST_LBA), Refused(4));
    }
    assert_eq!(drive.append(1, LAST_LBA), Refused(5));
    assert_eq!(drive.append(3, LAST_LBA), Refused(6));
    assert_eq!(drive.append(2, LAST_LBA), Refused(7));
    drive.words.push(FRESH);
    assert_eq!(drive.append(2, LAST_LBA), Refused(11));
    drive.table.domains[1].limit = 3;
    assert_eq!(drive.append(2, LAST_LBA), Refused(12));
    drive.table.domains[1].last = u32::MAX - 1;
    assert_eq!(drive.append(2, LAST_LBA), Refused(13));
    assert_eq!(drive.close(2, 1), AnswerBlock(1));
    assert_eq!(drive.append(2, LAST_LBA), Done);
    // Block 1 is freed, and block 2 was erased less often.
    assert_eq!(drive.words, [2 << 48 | 2 << 7]);
    assert_eq!((drive.state(1), drive.block(2).serial), (State::Free, u32::MAX));
}

#[test]
fn limit_and_serials_are_asked_before_a_block_is_freed() {
    let mut drive = small_with_recorder(2);
    drive.table.domains[1].limit = 1;
    assert_eq!(drive.write(2, 0, 0, 128), Done);
    assert_eq!(drive.erase_any(2), AnswerBlock(1));
    // Block 0 is Closed, and could be freed.
    assert_eq!(drive.append(2, 7), Refused(11));
    assert_eq!(drive.close(2, 1), AnswerBlock(1));
    drive.table.domains[1].last = u32::MAX;
    assert_eq!(drive.append(2, 7), Refused(12));
    drive.table.domains[1].last = u32::MAX - 1;
    assert_eq!(drive.append(2, 7), Done);
}

#[test]
fn no_sample_is_refused_for_itself() {
    let mut drive = small_with_recorder(2);
    let metas = [0, 1, 0xFF_FFFE, 0xFF_FFFF];
    let lbas = [0, 1, LAST_LBA - 1, LAST_LBA];
    for sample in metas.iter().flat_map(|meta| lbas.iter().map(move |lba| meta << 40 | lba)) {
        assert_eq!(drive.append(2, sample), Done);
        let (_, block, offset) = SMALL.address_fields(drive.words[0]);
        assert_eq!(drive.entries(block as usize)[offset as usize], sample);
        assert_eq!(drive.latest(2, 1), Done);
        assert_eq!(drive.words[0], sample);
    }
    assert_eq!(drive.store[15], ALL_ONES);
    assert_eq!(drive.block(0).written, 16);
}

#[test]
fn coverage_never_refuses_an_append() {
    let mut drive = small_with_recorder(3);
    assert_eq!(drive.create(1, 0, 1_024, 1, 256), Done);
    for number in 0..5 {
        assert_eq!(drive.erase_any(1), AnswerBlock(number));
    }
    assert_eq!(drive.erase_any(1), Refused(14));
    for sample in 0..5 * 128 {
        assert_eq!(drive.append(2, sample), Done);
    }
    assert_eq!(drive.erase_any(1), Refused(14));
}

#[test]
fn latest_puts_each_question_before_the_next() {
    let mut drive = small_with_recorder(2);
    assert_eq!(drive.create(3, 256, 0, 2, 2), Done);
    assert_eq!(drive.append(2, 5), Done);
    assert_eq!(drive.append(2, 6), Done);
    drive.words.clear();
    drive.store.pop();
    drive.table.blocks[7].serial = 1;
    assert_eq!(drive.latest(BAD, BAD), Refused(2));
    drive.table.blocks[7].serial = 0;
    assert_eq!(drive.latest(BAD, BAD), Refused(3));
    drive.store.extend([FRESH; 2]);
    assert_eq!(drive.latest(BAD, BAD), Refused(3));
    drive.store.pop();
    for domain in [BAD, 0, 17, 256 + 2, 65_536 + 2, (1 << 32) + 2] {
        assert_eq!(drive.latest(domain, BAD), Refused(4));
    }
    assert_eq!(drive.latest(1, BAD), Refused(5));
    assert_eq!(drive.latest(3, 3), Refused(6));
    for count in [0, 257, 512, (1 << 32) + 1, BAD] {
        assert_eq!(drive.latest(2, count), Refused(6), "{count}");
    }
    for count in [1, 3, 256] {
        assert_eq!(drive.latest(2, count), Refused(7), "{count}");
        drive.words.resize(count as usize - 1, FRESH);
        assert_eq!(drive.latest(2, count), Refused(7), "{count}");
    }
    drive.words.resize(256, FRESH);
    for count in [3, 256] {
        assert_eq!(drive.latest(2, count), Refused(15), "{count}");
    }
    drive.words.truncate(2);
    assert_eq!(drive.latest(2, 2), Done);
    assert_eq!(drive.words, [5, 6]);
}

#[test]
fn the_shape_is_one_placement_and_a_reserved_quota_of_two_or_more() {
    let cases = [
        ((256, 256, 1), true),
        ((256, 0, 1), true),
        ((129, 1, 1), true),
        ((1_024, 1_024, 1), true),
        ((256, 256, 2), false),
        ((256, 256, 16), false),
        ((128, 128, 1), false),
        ((1, 0, 1), false),
        ((0, 0, 1), false),
        ((0, 1_024, 1), false),
        ((256, 257, 1), false),
        ((255, 384, 1), false),
    ];
    for ((guarantee, quota, placements), is_shape) in cases {
        let mut drive = Drive::start(SMALL);
        assert_eq!(drive.create(16, guarantee, quota, placements, 16), Done);
        let (appended, read) =
            if is_shape { (Done, Refused(15)) } else { (Refused(6), Refused(6)) };
        assert_eq!(drive.latest(16, 1), read, "{guarantee} {quota} {placements}");
        assert_eq!(drive.append(16, 1), appended, "{guarantee} {quota} {placements}");
    }
}

#[test]
fn the_shape_is_asked_at_every_call() {
    let mut drive = small_with_recorder(2);
    assert_eq!(drive.append(2, 1), Done);
    assert_eq!(drive.change(2, 0, 384), Done);
    assert_eq!((drive.append(2, 2), drive.latest(2, 1)), (Refused(6), Refused(6)));
    assert_eq!(drive.change(2, 384, 0), Done);
    assert_eq!((drive.append(2, 2), drive.latest(2, 2)), (Done, Done));
    assert_eq!(drive.words[..2], [1, 2]);
}

// Appending.

#[test]
fn an_append_with_room_is_a_write_of_one_adu() {
    let mut drive = small_with_recorder(2);
    for sample in 0..200 {
        let mut other = Drive {
            table: drive.table.clone(),
            store: drive.store.clone(),
            words: drive.words.clone(),
            bytes: drive.bytes.clone(),
        };
        assert_eq!(drive.append(2, sample << 30), Done);
        assert_eq!(other.write(2, 0, sample << 30, 1), Done);
        assert!(drive.table == other.table && drive.store == other.store);
        assert!(drive.words == other.words && drive.bytes == other.bytes);
    }
}

#[test]
fn the_closed_block_with_the_least_serial_is_freed() {
    let mut drive = small_with_recorder(4);
    // By rising serial: 5 open by Erase, 7 Closed after Erase, 0 and 1 Closed by placement.
    assert_eq!(drive.erase(2, 5), AnswerBlock(5));
    assert_eq!(drive.erase(2, 7), AnswerBlock(7));
    assert_eq!(drive.write_block(2, 7, 700, 3), Done);
    assert_eq!(drive.close(2, 7), AnswerBlock(7));
    assert_eq!(drive.write(2, 0, 0, 256), Done);
    for (freed, next) in [(7, 2), (0, 3), (1, 4), (2, 6)] {
        let before = drive.table.clone();
        assert_eq!(drive.append(2, 9), Done);
        // The choice is by wear, so it falls on a block that was never opened.
        assert_eq!(drive.words[0], 2 << 48 | next << 7);
        assert_eq!(drive.block(freed), Block { erases: 1, ..Block::default() });
        for number in (0..8).filter(|&number| number != freed && number as u64 != next) {
            assert_eq!(drive.block(number), before.blocks[number]);
        }
        let opened = Block {
            state: State::Open(Way::Placement(0)),
            holder: 2,
            written: 1,
            left: 60,
            erases: 1,
            serial: before.domains[1].last + 1,
        };
        assert_eq!(drive.block(next as usize), opened);
        assert_eq!(drive.close(2, next), AnswerBlock(next));
    }
    assert_eq!(drive.state(5), State::Open(Way::Erase));
}

#[test]
fn the_freed_block_may_be_the_one_that_opens() {
    let mut drive = small_with_recorder(2);
    assert_eq!(drive.create(1, 6 * 128, 0, 1, 256), Done);
    for number in 0..6 {
        assert_eq!(drive.erase_any(1), AnswerBlock(number));
    }
    for sample in 0..256 {
        assert_eq!(drive.append(2, sample), Done);
    }
    assert_eq!(drive.append(2, 256), Done);
    assert_eq!(drive.words[0], 2 << 48 | 6 << 7);
    let again = Block {
        state: State::Open(Way::Placement(0)),
        holder: 2,
        written: 1,
        left: 60,
        erases: 2,
        serial: 3,
    };
    assert_eq!(drive.block(6), again);
    assert_eq!(drive.entries(6)[..2], [256, ALL_ONES]);
    assert!(drive.entries(6)[1..].iter().all(|&entry| entry == ALL_ONES));
}

#[test]
fn nothing_is_freed_while_the_quota_has_room() {
    let mut drive = small_with_recorder(3);
    assert_eq!(drive.write(2, 0, 0, 256), Done);
    assert_eq!(drive.append(2, 256), Done);
    assert_eq!((drive.block(0).serial, drive.block(1).serial, drive.block(2).serial), (1, 2, 3));
    // An open block with room stands at the quota, and is written on.
    assert_eq!(drive.append(2, 257), Done);
    assert_eq!((drive.block(0).written, drive.block(2).written), (128, 2));
}

#[test]
fn without_a_closed_block_13_is_the_answer() {
    let mut drive = small_with_recorder(2);
    assert_eq!(drive.erase_any(2), AnswerBlock(0));
    assert_eq!(drive.erase_any(2), AnswerBlock(1));
    assert_eq!(drive.append(2, 1), Refused(13));
    assert_eq!(drive.pulse(60), Done);
    assert_eq!(drive.append(2, 1), Done);
    assert_eq!((drive.block(0).serial, drive.block(1).serial), (0, 2));
    // A neighbour's Closed block is none of this domain's.
    let mut drive = small_with_recorder(2);
    assert_eq!(drive.create(1, 384, 0, 1, 1), Done);
    assert_eq!(drive.write(1, 0, 0, 256), Done);
    assert_eq!(drive.erase_any(2), AnswerBlock(2));
    assert_eq!(drive.erase_any(2), AnswerBlock(3));
    assert_eq!(drive.append(2, 1), Refused(13));
}

// Reading.

#[test]
fn kept_are_all_written_adus_by_serial_then_offset() {
    let mut drive = small_with_recorder(6);
    // Serials 1 to 6 in blocks 6, 0, 4, 1, 2, 3; block 4 has no ADU written.
    assert_eq!(drive.erase(2, 6), AnswerBlock(6));
    assert_eq!(drive.write(2, 0, 100, 2), Done);
    assert_eq!(drive.write_block(2, 6, 600, 3), Done);
    assert_eq!(drive.erase(2, 4), AnswerBlock(4));
    assert_eq!(drive.close(2, 0), AnswerBlock(0));
    assert_eq!(drive.append(2, 200), Done);
    assert_eq!(drive.append(2, ALL_ONES), Done);
    assert_eq!(drive.pulse(60), Done);
    assert_eq!(drive.append(2, 300), Done);
    assert_eq!(drive.close(2, 2), AnswerBlock(2));
    assert_eq!(drive.append(2, 400), Done);
    assert_eq!(drive.block(3).serial, 6);
    let all = [600, 601, 602, 100, 101, 200, ALL_ONES, 300, 400];
    assert_eq!(kept(&drive.table, &drive.store, 2), all);
    for count in 1..=all.len() {
        drive.words.fill(FRESH);
        let (table, store) = (drive.table.clone(), drive.store.clone());
        assert_eq!(drive.latest(2, count as u64), Done);
        assert_eq!(drive.words[..count], all[all.len() - count..]);
        assert!(drive.words[count..].iter().all(|&word| word == FRESH));
        assert!(drive.table == table && drive.store == store);
        assert!(drive.bytes.iter().all(|&byte| byte == 0xA5));
    }
    assert_eq!(drive.latest(2, 10), Refused(15));
    // Erased again, a block keeps none of what it had.
    assert_eq!(drive.erase(2, 6), AnswerBlock(6));
    assert_eq!(drive.latest(2, 7), Refused(15));
    assert_eq!(drive.latest(2, 6), Done);
    assert_eq!(drive.words[..6], [100, 101, 200, ALL_ONES, 300, 400]);
}

#[test]
fn latest_takes_only_what_the_domain_holds() {
    let mut drive = small_with_recorder(2);
    assert_eq!(drive.create(1, 256, 0, 1, 1), Done);
    assert_eq!(drive.latest(2, 1), Refused(15));
    assert_eq!(drive.write(1, 0, 0, 200), Done);
    assert_eq!(drive.latest(2, 1), Refused(15));
    assert_eq!(drive.append(2, 7), Done);
    assert_eq!(drive.append(1, 8), Done);
    assert_eq!(drive.latest(2, 2), Refused(15));
    assert_eq!(drive.latest(2, 1), Done);
    assert_eq!(drive.words[0], 7);
    assert_eq!(drive.free(2, 2), AnswerBlock(2));
    assert_eq!(drive.latest(2, 1), Refused(15));
    assert_eq!(drive.latest(1, 201), Done);
    assert!(drive.words[..200].iter().copied().eq(0..200) && drive.words[200] == 8);
}

// Output beyond what is filled.

#[test]
fn only_what_is_filled_changes() {
    let mut drive = small_with_recorder(2);
    for sample in 0..300 {
        drive.words.fill(FRESH);
        assert_eq!(drive.append(2, sample), Done);
        assert!(drive.words[0] != FRESH);
        assert!(drive.words[1..].iter().all(|&word| word == FRESH));
    }
    for count in 1..=172 {
        drive.words.fill(FRESH);
        assert_eq!(drive.latest(2, count), Done);
        let count = count as usize;
        assert!(drive.words[..count].iter().copied().eq(300 - count as u64..300));
        assert!(drive.words[count..].iter().all(|&word| word == FRESH));
    }
    assert_eq!(drive.latest(2, 173), Refused(15));
    assert!(drive.bytes.iter().all(|&byte| byte == 0xA5));
    // An append writes one entry of the store, and erases a block only where it opens one.
    let before = drive.store.clone();
    assert_eq!(drive.append(2, 300), Done);
    let changed = before.iter().zip(&drive.store).filter(|(before, after)| before != after);
    assert_eq!(changed.count(), 1);
}

// What is kept.

/// Is the command one of this domain's, or a pulse that closes a block of it?
fn touches(command: Command, domain: u64, table: &Table) -> bool {
    let own = match command {
        Command::Create { domain, .. }
        | Command::ChangeCapacity { domain, .. }
        | Command::Delete { domain }
        | Command::Erase { domain, .. }
        | Command::Close { domain, .. }
        | Command::Free { domain, .. }
        | Command::WriteByPlacement { domain, .. }
        | Command::WriteByBlock { domain, .. }
        | Command::Read { domain, .. }
        | Command::Page { domain, .. }
        | Command::List { domain, .. } => domain,
        Command::Pulse { seconds } => {
            let expires = |block: &&Block| {
                u64::from(block.holder) == domain
                    && matches!(block.state, State::Open(_))
                    && u64::from(block.left) <= seconds
            };
            return seconds <= 65_535 && table.blocks.iter().any(|block| expires(&block));
        }
    };
    own == domain
}

#[test]
fn the_last_samples_are_kept_beside_any_neighbours() {
    let mut random = Random::new(0x5A3B1E);
    let mut freed_beside_others = 0;
    for (blocks, adus) in [(2, 1), (3, 1), (5, 1), (2, 2), (4, 3)] {
        let config = Config { adus, period: 65_535, ..SMALL };
        let capacity = config.adus_in_block() as usize;
        let mut drive = Drive::start(config);
        assert_eq!(drive.create(2, blocks * 128, 0, 1, 1), Done);
        // Neighbours that may fill what is not reserved.
        assert_eq!(drive.create(1, 128, 1_024, 3, 9), Done);
        assert_eq!(drive.create(3, 0, 1_024, 1, 9), Done);
        let retained = (blocks as usize - 1) * capacity;
        let mut samples = Vec::new();
        for place in 0..(blocks + 3) * capacity as u64 {
            let command = generate::command(&mut random, &drive.table, &drive.store);
            if !touches(command, 2, &drive.table) {
                drive.serve(command);
            }
            let free = drive.table.blocks[..8].iter().filter(|block| block.state == State::Free);
            let was_full = free.count() == 0;
            let last = drive.table.domains[1].last;
            let sample = if random.chance(10) { ALL_ONES } else { place << 20 | place };
            assert_eq!(drive.append(2, sample), Done);
            samples.push(sample);
            freed_beside_others += u64::from(was_full && drive.table.domains[1].last > last);

            let kept = kept(&drive.table, &drive.store, 2);
            assert!(samples.ends_with(&kept));
            assert!(kept.len() >= retained.min(samples.len()));
            let count = kept.len().min(256);
            for count in [count, count.min(1 + random.below(256) as usize)] {
                assert_eq!(drive.latest(2, count as u64), Done);
                assert_eq!(drive.words[..count], samples[samples.len() - count..]);
            }
            if count < 256 {
                assert_eq!(drive.latest(2, count as u64 + 1), Refused(15));
            }
        }
    }
    assert!(freed_beside_others > 5, "{freed_beside_others}");
}

#[test]
fn an_expired_block_loses_samples_sooner() {
    let mut drive = small_with_recorder(2);
    for sample in 0..4 {
        assert_eq!(drive.append(2, sample), Done);
        assert_eq!(drive.pulse(60), Done);
    }
    assert_eq!(kept(&drive.table, &drive.store, 2), [2, 3]);
    assert_eq!(drive.latest(2, 3), Refused(15));
}

// A plain reading, by the manager's commands one after the other.

fn is_shape(table: &Table, domain: u64) -> bool {
    let domain = table.domains[domain as usize - 1];
    domain.placements == 1 && domain.reserved == domain.quota && domain.quota >= 2
}

/// Questions 2 to 5, and the shape in 6.
fn plain_refusal(table: &Table, domain: u64, store: &[u64]) -> Option<u8> {
    if !table.is_sound() {
        Some(2)
    } else if store.len() as u64 != table.config.store_entries() {
        Some(3)
    } else if !(1..=16).contains(&domain) {
        Some(4)
    } else if !table.domains[domain as usize - 1].exists {
        Some(5)
    } else if !is_shape(table, domain) {
        Some(6)
    } else {
        None
    }
}

fn plain_append(
    table: &mut Table,
    domain: u64,
    sample: u64,
    store: &mut [u64],
    words: &mut [u64],
) -> Answer {
    if let Some(number) = plain_refusal(table, domain, store) {
        return Refused(number);
    }
    let write = Command::WriteByPlacement { domain, placement: 0, start: sample, count: 1 };
    let answer = table.serve(write, store, words, &mut []);
    if answer != Refused(13) {
        return answer;
    }
    let blocks = table.blocks[..table.config.blocks as usize].iter().zip(0..);
    let closed = blocks.filter(|(block, _)| {
        u64::from(block.holder) == domain && matches!(block.state, State::Closed(_))
    });
    let Some((_, block)) = closed.min_by_key(|(block, _)| block.serial) else {
        return answer;
    };
    assert_eq!(
        table.serve(Command::Free { domain, block }, store, words, &mut []),
        AnswerBlock(block)
    );
    let answer = table.serve(write, store, words, &mut []);
    assert_eq!(answer, Done, "the second write is never refused");
    answer
}

fn plain_latest(
    table: &Table,
    domain: u64,
    count: u64,
    store: &[u64],
    words: &mut [u64],
) -> Answer {
    if let Some(number) = plain_refusal(table, domain, store) {
        return Refused(number);
    }
    if !(1..=256).contains(&count) {
        return Refused(6);
    }
    let count = count as usize;
    if words.len() < count {
        return Refused(7);
    }
    let kept = kept(table, store, domain);
    if kept.len() < count {
        return Refused(15);
    }
    words[..count].copy_from_slice(&kept[kept.len() - count..]);
    Done
}

#[test]
fn calls_agree_with_a_plain_reading() {
    let mut random = Random::new(0x2EC0);
    let mut done = [0, 0];
    for _ in 0..150 {
        let mut drive = Drive::start(generate::config(&mut random));
        let length = drive.store.len();
        for _ in 0..300 {
            let sound = drive.table.clone();
            let hostile = random.chance(15);
            if hostile {
                generate::damage(&mut random, &mut drive.table);
            } else if random.chance(3) {
                generate::plant_recorder(&mut random, &mut drive.table);
                assert!(drive.table.is_sound());
            }
            let call = generate::call(&mut random, &drive.table, &drive.store);
            drive.words.resize(random.pick(&[0, 1, 20, 255, 256, 256, 256, 300]), FRESH);
            if random.chance(3) {
                drive.store.resize(random.pick(&[0, 1, length - 1, length + 1]), FRESH);
            }
            let (mut table, mut store) = (drive.table.clone(), drive.store.clone());
            let mut words = drive.words.clone();
            let wanted = match call {
                Call::Command(_) => None,
                Call::Append { domain, sample } => {
                    Some(plain_append(&mut table, domain, sample, &mut store, &mut words))
                }
                Call::Latest { domain, count } => {
                    Some(plain_latest(&table, domain, count, &store, &mut words))
                }
            };
            let answer = drive.serve(call);
            if let Some(wanted) = wanted {
                assert_eq!(answer, wanted, "{call:?}");
                assert!(drive.table == table && drive.store == store && drive.words == words);
                if answer == Done {
                    done[usize::from(matches!(call, Call::Latest { .. }))] += 1;
                }
            }
            drive.store.resize(length, FRESH);
            if hostile {
                drive.table = sound;
            }
        }
    }
    assert!(done.iter().all(|&count| count > 1_000), "{done:?}");
}

#[test]
fn a_command_is_served_as_by_the_manager() {
    let mut random = Random::new(0xC0);
    let mut drive = Drive::start(SMALL);
    for _ in 0..500 {
        let command = generate::command(&mut random, &drive.table, &drive.store);
        let (mut table, mut store) = (drive.table.clone(), drive.store.clone());
        let (mut words, mut bytes) = (drive.words.clone(), drive.bytes.clone());
        let answer =
            recorder::serve(&mut table, command.into(), &mut store, &mut words, &mut bytes);
        let Drive { table: own, store: own_store, words: own_words, bytes: own_bytes } = &mut drive;
        assert_eq!(own.serve(command, own_store, own_words, own_bytes), answer);
        assert!(*own == table && *own_store == store && *own_words == words && *own_bytes == bytes);
    }
}
