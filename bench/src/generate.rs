//! Random configurations, commands, calls and tables, sound ones and others.

#![forbid(unsafe_code)]

use crate::manager::{
    Block, Command, Config, Domain, Listed, State, Table, Way, ALL_ONES, ANY_BLOCK, BLOCKS, DOMAINS,
};
use crate::random::Random;
use crate::recorder::Call;

const LAST_LBA: u64 = (1 << 40) - 1;
/// So far apart 256 serials may lie, if the first is 300 at most.
const MOST_APART: u32 = (1 << 24) - 2;
const HUGE: [u64; 6] = [u64::MAX, u64::MAX - 1, 1 << 63, 1 << 32, (1 << 32) + 1, 1 << 16];

// Configurations.

/// A configuration within the limits, mostly of a small drive, and of 100,000 ADUs at most.
pub fn config(random: &mut Random) -> Config {
    let (most_blocks, most_entries) = match random.below(100) {
        0 => (256, 100_000),
        1..=6 => (256, 40_000),
        _ => (16, random.pick(&[1_024, 2_048, 4_096])),
    };
    loop {
        let config = Config {
            pages: any_pages(random),
            dies: any_factor(random),
            planes: any_factor(random),
            adus: any_factor(random),
            blocks: random.between(1, most_blocks),
            rated: any_rated(random),
            period: random.pick(&[99, 65_535]),
        };
        if config.within_limits() && config.store_entries() <= most_entries {
            return Config { period: random.between(1, config.period), ..config };
        }
    }
}

/// Often a multiple of 16, without which no P/E index comes from an exact half, or one of 400, with
/// which all halves are there.
fn any_rated(random: &mut Random) -> u64 {
    let (step, most) = random.pick(&[(1, 50), (1, 50), (1, 65_535), (16, 25), (400, 163)]);
    step * random.between(1, most)
}

fn any_pages(random: &mut Random) -> u64 {
    match random.below(10) {
        0..=5 => 128,
        6 => random.between(128, 8_192),
        _ => random.between(128, 300),
    }
}

fn any_factor(random: &mut Random) -> u64 {
    match random.below(10) {
        0..=6 => 1,
        7 | 8 => random.between(2, 7),
        _ => random.between(1, 64),
    }
}

/// A configuration outside the limits in one of its numbers or more.
pub fn wrong_config(random: &mut Random) -> Config {
    loop {
        let mut wrong = config(random);
        for _ in 0..random.between(1, 2) {
            damage_config(random, &mut wrong);
        }
        if !wrong.within_limits() {
            return wrong;
        }
    }
}

fn damage_config(random: &mut Random, config: &mut Config) {
    let (field, edges) = match random.below(8) {
        0 => (&mut config.pages, [127, 128, 8_192, 8_193]),
        1 => (&mut config.dies, [0, 1, 64, 65]),
        2 => (&mut config.planes, [0, 1, 64, 65]),
        3 => (&mut config.adus, [0, 1, 256, 257]),
        4 => (&mut config.blocks, [0, 1, 256, 257]),
        5 => (&mut config.rated, [0, 1, 65_535, 65_536]),
        6 => (&mut config.period, [0, 1, 65_535, 65_536]),
        _ => {
            // Each number within its limits, but too many ADUs.
            (config.pages, config.dies, config.planes, config.adus) = (8_192, 64, 2, 2);
            return;
        }
    };
    *field = match random.below(8) {
        0..=3 => random.pick(&edges),
        4 => field.wrapping_add(1),
        5 => field.wrapping_sub(1),
        6 => random.pick(&HUGE),
        _ => random.word(),
    };
}

// Commands.

/// A command for this table and store. Mostly its arguments are valid; if not, mostly one is wrong.
pub fn command(random: &mut Random, table: &Table, store: &[u64]) -> Command {
    const WEIGHTS: [u64; 12] = [5, 4, 1, 12, 7, 12, 24, 14, 14, 4, 4, 4];
    let drive = View { table, store };
    let missing = table.domains.iter().all(|domain| !domain.exists);
    let kind = if missing && random.chance(70) { 0 } else { random.weighted(&WEIGHTS) };
    match kind {
        0 => drive.create(random),
        1 => Command::ChangeCapacity {
            domain: drive.domain(random),
            guarantee: drive.planes(random, 6),
            quota: drive.planes(random, 1),
        },
        2 => Command::Delete { domain: drive.domain(random) },
        3 => drive.erase(random),
        4 => {
            let (domain, block) = drive.block(random, is_held);
            Command::Close { domain, block }
        }
        5 => {
            let asked = if random.chance(80) { is_closed } else { is_held };
            let (domain, block) = drive.block(random, asked);
            Command::Free { domain, block }
        }
        6 => drive.write_by_placement(random),
        7 => drive.write_by_block(random),
        8 => drive.read(random),
        9 => drive.page(random),
        10 => drive.list(random),
        _ => Command::Pulse {
            seconds: wild(random, &[65_536], |random| match random.below(8) {
                0 => random.between(0, 65_535),
                1 => table.config.period,
                2 => table.config.period / 2,
                _ => random.between(0, 3),
            }),
        },
    }
}

/// A Page or a List for this table.
pub fn log_page(random: &mut Random, table: &Table) -> Command {
    let drive = View { table, store: &[] };
    if random.chance(33) {
        drive.page(random)
    } else {
        drive.list(random)
    }
}

/// A command, or a call of the recorder's, for this table and store. Some commands are there to
/// give domains the shape that the calls ask for, and to use up their blocks.
pub fn call(random: &mut Random, table: &Table, store: &[u64]) -> Call {
    let drive = View { table, store };
    let shaped = drive.recorder(random);
    let domain = shaped.filter(|_| random.chance(88)).unwrap_or_else(|| drive.domain(random));
    match random.below(100) {
        0..=36 if shaped.is_none() && random.chance(70) => drive.make_recorder(random).into(),
        0..=24 => Call::Append { domain, sample: drive.start(random, 1) },
        25..=36 => drive.latest(random, domain),
        37 => drive.make_recorder(random).into(),
        38..=43 => drive.use_up(random, domain).into(),
        _ => command(random, table, store).into(),
    }
}

fn is_held(block: &Block) -> bool {
    block.state != State::Free
}

fn is_closed(block: &Block) -> bool {
    matches!(block.state, State::Closed(_))
}

/// Seldom one of the wrong numbers or a huge one, mostly what is made.
fn wild(random: &mut Random, wrong: &[u64], make: impl FnOnce(&mut Random) -> u64) -> u64 {
    match random.below(60) {
        0 => random.pick(wrong),
        1 => random.pick(&HUGE),
        2 if random.chance(20) => random.word(),
        _ => make(random),
    }
}

/// What the arguments of commands are chosen by. The table may be any, so nothing is relied on.
struct View<'a> {
    table: &'a Table,
    store: &'a [u64],
}

impl View<'_> {
    fn blocks(&self) -> &[Block] {
        &self.table.blocks[..self.table.config.blocks.min(BLOCKS as u64) as usize]
    }

    fn capacity(&self) -> u64 {
        let config = &self.table.config;
        if config.within_limits() {
            config.adus_in_block()
        } else {
            128
        }
    }

    fn planes_in_block(&self) -> u64 {
        let config = &self.table.config;
        if config.within_limits() {
            config.planes_in_block()
        } else {
            128
        }
    }

    fn held_by(&self, domain: u64) -> impl Iterator<Item = &Block> {
        self.blocks().iter().filter(move |block| u64::from(block.holder) == domain)
    }

    /// The written ADUs of a domain.
    fn kept(&self, domain: u64) -> u64 {
        self.held_by(domain).fold(0, |sum, block| sum.saturating_add(block.written))
    }

    fn domain(&self, random: &mut Random) -> u64 {
        let mut existing = [0; DOMAINS];
        let mut count = 0;
        for (index, domain) in self.table.domains.iter().enumerate() {
            if domain.exists {
                existing[count] = index as u64 + 1;
                count += 1;
            }
        }
        wild(random, &[0, 17, 256, 257, 65_537], |random| {
            if count == 0 || random.chance(3) {
                random.between(1, 16)
            } else {
                random.pick(&existing[..count])
            }
        })
    }

    /// A domain that does not exist, mostly, and mostly one of a few.
    fn new_domain(&self, random: &mut Random) -> u64 {
        wild(random, &[0, 17, 256, 257, 65_537], |random| {
            let most = if random.chance(80) { 5 } else { 16 };
            let missing = |&index: &usize| !self.table.domains[index].exists;
            let found = turned(random, most).find(missing).filter(|_| random.chance(90));
            found.map_or_else(|| random.between(1, 16), |index| index as u64 + 1)
        })
    }

    /// Planes, mostly at most the drive's divided by `parts`.
    fn planes(&self, random: &mut Random, parts: u64) -> u64 {
        let config = &self.table.config;
        if !config.within_limits() {
            return random.below(1_000);
        }
        let (in_block, blocks) = (config.planes_in_block(), config.blocks);
        let all = in_block * blocks;
        wild(random, &[all + 1, all + in_block], |random| match random.below(8) {
            0 | 1 => 0,
            2 => random.between(0, all),
            3 => all,
            4 => (random.between(0, blocks) * in_block + 1).min(all),
            _ => random.between(0, all / parts),
        })
    }

    /// A block below S that is as asked, if there is one.
    fn find(&self, random: &mut Random, asked: impl Fn(&Block) -> bool) -> Option<u64> {
        let blocks = self.blocks();
        let mut numbers = turned(random, blocks.len() as u64);
        numbers.find(|&number| asked(&blocks[number])).map(|number| number as u64)
    }

    fn any_block(&self, random: &mut Random) -> u64 {
        let blocks = self.table.config.blocks;
        wild(random, &[blocks, 255, 256, ANY_BLOCK, ANY_BLOCK - 1], |random| random.below(blocks))
    }

    /// A domain and a block; mostly the domain holds the block, and the block is as asked.
    fn block(&self, random: &mut Random, asked: impl Fn(&Block) -> bool) -> (u64, u64) {
        let found = self.find(random, asked).filter(|_| random.chance(95));
        let block = found.unwrap_or_else(|| self.any_block(random));
        let holder = self.blocks().get(block as usize).map_or(0, |block| block.holder.into());
        let domain = if holder > 0 && random.chance(90) {
            wild(random, &[0, 17, 256 + holder], |_| holder)
        } else {
            self.domain(random)
        };
        let block = wild(random, &[self.table.config.blocks, ANY_BLOCK], |_| block);
        (domain, block)
    }

    fn page(&self, random: &mut Random) -> Command {
        let (domain, block) = self.block(random, is_held);
        Command::Page { domain, block }
    }

    /// Mostly of a domain that has blocks to be listed, and rather of one that has many.
    fn list(&self, random: &mut Random) -> Command {
        let listed = random.pick(&[Listed::Open, Listed::Closed]);
        let domain = match listed {
            _ if random.chance(25) => self.domain(random),
            Listed::Open => self.block(random, |block| matches!(block.state, State::Open(_))).0,
            Listed::Closed => self.block(random, is_closed).0,
        };
        Command::List { domain, listed }
    }

    fn create(&self, random: &mut Random) -> Command {
        Command::Create {
            domain: self.new_domain(random),
            guarantee: self.planes(random, 6),
            quota: self.planes(random, 1),
            placements: wild(random, &[0, 17, 256, 257], |random| match random.below(9) {
                0 => random.between(1, 16),
                _ => random.between(1, 3),
            }),
            limit: wild(random, &[257, 65_536], |random| match random.below(9) {
                0 => 256,
                1 => random.between(0, 256),
                _ => random.between(0, 6),
            }),
        }
    }

    /// A domain of the recorder's shape, if there is one.
    fn recorder(&self, random: &mut Random) -> Option<u64> {
        let shaped = |&index: &usize| {
            let Domain { reserved, quota, placements, .. } = self.table.domains[index];
            placements == 1 && reserved == quota && quota >= 2
        };
        turned(random, DOMAINS as u64).find(shaped).map(|index| index as u64 + 1)
    }

    fn latest(&self, random: &mut Random, domain: u64) -> Call {
        let kept = self.kept(domain);
        let count = self.count(random, kept);
        let count = if kept > 0 && random.chance(60) { count.min(kept) } else { count };
        Call::Latest { domain, count }
    }

    /// Gives a domain with one placement the recorder's shape, or nearly so, or creates one.
    fn make_recorder(&self, random: &mut Random) -> Command {
        let in_block = self.planes_in_block();
        let blocks = random.pick(&[1, 2, 2, 2, 3, 4, 6]).min(self.table.config.blocks.max(1));
        let single = |&index: &usize| self.table.domains[index].placements == 1;
        let found = turned(random, DOMAINS as u64).find(single).filter(|_| random.chance(60));
        if let Some(index) = found {
            let domain = index as u64 + 1;
            let guarantee = in_block * (self.held_by(domain).count() as u64).max(blocks);
            return Command::ChangeCapacity { domain, guarantee, quota: guarantee };
        }
        let guarantee = in_block * blocks - random.pick(&[0, 0, 1]);
        Command::Create {
            domain: self.new_domain(random),
            guarantee,
            quota: random.pick(&[0, 0, guarantee, guarantee, guarantee + in_block]),
            placements: random.pick(&[1, 1, 1, 1, 1, 2]),
            limit: random.below(5),
        }
    }

    /// Ends the open block of a domain's first placement, or opens one by Erase, so that soon a
    /// block must be freed for the next sample.
    fn use_up(&self, random: &mut Random, domain: u64) -> Command {
        let writing = State::Open(Way::Placement(0));
        let is_its = |block: &Block| u64::from(block.holder) == domain && block.state == writing;
        let Some(block) = self.find(random, is_its) else {
            return Command::Erase { domain, block: ANY_BLOCK };
        };
        if random.chance(30) {
            return Command::Close { domain, block };
        }
        let room = self.capacity().saturating_sub(self.blocks()[block as usize].written);
        let count = room.clamp(1, 256);
        let start = self.start(random, count);
        Command::WriteByPlacement { domain, placement: 0, start, count }
    }

    fn erase(&self, random: &mut Random) -> Command {
        let domain = self.domain(random);
        match random.below(10) {
            0..=3 => Command::Erase { domain, block: ANY_BLOCK },
            4..=6 => {
                let (domain, block) = self.block(random, is_closed);
                Command::Erase { domain, block }
            }
            7 => {
                let (domain, block) = self.block(random, is_held);
                Command::Erase { domain, block }
            }
            8 => {
                let free = self.find(random, |block| block.state == State::Free);
                Command::Erase { domain, block: free.unwrap_or(0) }
            }
            _ => Command::Erase { domain, block: self.any_block(random) },
        }
    }

    /// A number of ADUs, often just as many as there is room for.
    fn count(&self, random: &mut Random, room: u64) -> u64 {
        wild(random, &[0, 257, 512], |random| match random.below(20) {
            0..=3 => room.clamp(1, 256),
            4 => room.saturating_add(1).clamp(1, 256),
            5 => room.saturating_sub(1).clamp(1, 256),
            6 => 256,
            7..=11 => random.between(1, 256),
            12..=14 => random.between(1, 100),
            _ => random.between(1, 9),
        })
    }

    /// A user address to begin with, often one whose last ADU is near the end of the LBAs.
    fn start(&self, random: &mut Random, count: u64) -> u64 {
        let meta = random.pick(&[0, 1, 0xFF_FFFE, 0xFF_FFFF]);
        match random.below(20) {
            0 | 1 => ALL_ONES,
            2..=5 => {
                let end = LAST_LBA + random.between(0, 3) - 1;
                let first = end.wrapping_sub(count.saturating_sub(1));
                meta << 40 | first & LAST_LBA
            }
            6 => meta << 40 | (LAST_LBA - random.between(0, 300)),
            7 => ALL_ONES - random.between(1, 300),
            8..=11 => meta << 40 | random.below(1_000),
            _ => random.word(),
        }
    }

    fn write_by_placement(&self, random: &mut Random) -> Command {
        let domain = self.domain(random);
        let ids = match self.table.domains.get((domain as usize).wrapping_sub(1)) {
            Some(record) => u64::from(record.placements),
            None => 1,
        };
        let placement = wild(random, &[ids, 16, 255, 256], |random| random.below(ids));
        let writing = State::Open(Way::Placement(placement as u8));
        let open = self.held_by(domain).find(|block| block.state == writing);
        let written = open.map_or(0, |block| block.written);
        let room = self.capacity().saturating_sub(written);
        // With room for one block, for the next, or for the second next.
        let room = room + random.pick(&[0, 0, 0, 1, 2]) * self.capacity();
        let count = self.count(random, room);
        Command::WriteByPlacement { domain, placement, start: self.start(random, count), count }
    }

    fn write_by_block(&self, random: &mut Random) -> Command {
        let (domain, block) = self.block(random, |block| block.state == State::Open(Way::Erase));
        let written = self.blocks().get(block as usize).map_or(0, |block| block.written);
        let count = self.count(random, self.capacity().saturating_sub(written));
        Command::WriteByBlock { domain, block, start: self.start(random, count), count }
    }

    fn read(&self, random: &mut Random) -> Command {
        let config = &self.table.config;
        let (domain, block) = self.block(random, |block| block.written > 0);
        if !config.within_limits() {
            let (address, count, expected) = (random.word(), random.between(1, 256), ALL_ONES);
            return Command::Read { domain, address, count, expected };
        }
        let written = self.blocks().get(block as usize).map_or(0, |block| block.written);
        let offset = wild(random, &[self.capacity(), written], |random| match random.below(4) {
            0 => 0,
            1 => written.saturating_sub(random.between(0, 3)),
            _ => random.below(written),
        });
        let rest = written.saturating_sub(offset);
        let count = self.count(random, rest);
        let count = if rest > 0 && random.chance(70) { count.min(rest) } else { count };
        let owner = wild(random, &[0, 17, domain ^ 1, 65_535], |_| domain) & 0xFFFF;
        let word = config.flash_address(owner, block & 0xFFFF, offset & 0xF_FFFF);
        let address = wild(random, &[word | 1 << 47, word ^ 1 << 40, word ^ 1], |_| word);
        let entry = block.wrapping_mul(self.capacity()).wrapping_add(offset);
        let stored = self.store.get(entry as usize).copied().unwrap_or(0);
        let expected = match random.below(20) {
            0..=5 => ALL_ONES,
            6 => stored ^ 1 << random.below(64),
            7 => self.start(random, count),
            _ => stored,
        };
        Command::Read { domain, address, count, expected }
    }
}

// Tables that are sound but extreme.

/// Plants numbers into a sound table by which it comes near its ends, and stays sound.
pub fn plant(random: &mut Random, table: &mut Table) {
    match random.below(11) {
        0 => plant_last_serials(random, table),
        1 => plant_wear(random, table),
        2..=4 => plant_serials(random, table),
        5 => junk_beyond(random, table),
        6 => plant_seconds(random, table),
        7 => plant_written(random, table),
        8 => plant_tight_limits(random, table),
        _ => plant_wear_of_free(random, table),
    }
}

fn present(table: &mut Table) -> &mut [Block] {
    &mut table.blocks[..table.config.blocks as usize]
}

fn held(table: &Table, index: usize) -> impl Iterator<Item = &Block> {
    let present = &table.blocks[..table.config.blocks as usize];
    present.iter().filter(move |block| usize::from(block.holder) == index + 1)
}

fn plant_last_serials(random: &mut Random, table: &mut Table) {
    let numbers = turned(random, DOMAINS as u64);
    for index in numbers {
        let domain = &mut table.domains[index];
        if domain.exists && random.chance(50) {
            domain.last = (u32::MAX - random.below(4) as u32).max(domain.last);
            return;
        }
    }
}

fn plant_wear(random: &mut Random, table: &mut Table) {
    let around = random.pick(&[0, 3, 1_000, u32::MAX - 2, u32::MAX]);
    let rated = table.config.rated;
    for block in present(table) {
        block.erases = match random.below(6) {
            0 => around,
            1 => around.saturating_add(random.below(3) as u32),
            2 | 3 => near_half(random, rated),
            _ => block.erases,
        };
    }
}

/// The least count that is rounded up to some index, or one beside it. 12.5 is the first half that
/// all multiples of 16 have; 256 is beyond the cap.
fn near_half(random: &mut Random, rated: u64) -> u32 {
    let any = random.between(1, 256);
    let index = random.pick(&[1, 13, 255, 256, any]);
    let least = ((2 * index - 1) * rated).div_ceil(400);
    (least + random.pick(&[0, 1, 1, 2]) - 1) as u32
}

fn plant_wear_of_free(random: &mut Random, table: &mut Table) {
    for block in present(table) {
        if block.state == State::Free {
            block.erases = random.below(3) as u32;
        }
    }
}

/// Serials of each domain one after the other, equal modulo 256 and so on, or anywhere, up to the
/// last of all or on both sides of the highest bit; mostly they come in another order than the
/// numbers of their blocks.
fn plant_serials(random: &mut Random, table: &mut Table) {
    let step = random.pick(&[1, 16, 32, 256, 512, 65_536, 1 << 23, MOST_APART]);
    let first = random.between(1, 300) as u32;
    let (exact, shuffled) = (random.chance(50), random.chance(80));
    for index in 0..DOMAINS {
        if !table.domains[index].exists {
            continue;
        }
        let count = held(table, index).count() as u32;
        let mut serials: Vec<u32> = (0..count)
            .map(|turn| {
                let further = if exact { 0 } else { random.below(step.into()) as u32 };
                first + turn * step + further
            })
            .collect();
        let greatest = serials.last().copied().unwrap_or(0);
        let shift = match random.below(10) {
            0 => u32::MAX - greatest,
            1 => (1 << 31) - greatest / 2,
            _ => 0,
        };
        if shuffled {
            random.shuffle(&mut serials);
        }
        let blocks = present(table).iter_mut();
        let its = blocks.filter(|block| usize::from(block.holder) == index + 1);
        for (block, serial) in its.zip(serials) {
            block.serial = serial + shift;
        }
        let domain = &mut table.domains[index];
        domain.last = domain.last.max(greatest + shift);
    }
}

fn plant_seconds(random: &mut Random, table: &mut Table) {
    let period = table.config.period;
    for block in present(table) {
        if matches!(block.state, State::Open(_)) {
            let any = random.between(1, period);
            block.left = random.pick(&[1, period, any]) as u32;
        }
    }
}

fn plant_written(random: &mut Random, table: &mut Table) {
    let capacity = table.config.adus_in_block();
    for block in present(table) {
        match block.state {
            State::Open(_) => block.written = capacity - random.between(1, 3),
            State::Closed(_) => block.written = random.pick(&[0, 1, capacity - 1, capacity]),
            State::Free => {}
        }
    }
}

/// Quotas and open limits that are just kept, and reservations as large as can be covered.
fn plant_tight_limits(random: &mut Random, table: &mut Table) {
    let mut covered = 0;
    for index in 0..DOMAINS {
        let count = held(table, index).count() as u32;
        covered += count.max(table.domains[index].reserved);
    }
    let mut spare = table.config.blocks as u32 - covered;
    for index in 0..DOMAINS {
        let count = held(table, index).count() as u32;
        let open = held(table, index).filter(|block| matches!(block.state, State::Open(_))).count();
        let domain = &mut table.domains[index];
        if !domain.exists {
            continue;
        }
        if random.chance(30) {
            domain.limit = (open as u32).max(domain.placements.into());
        }
        if random.chance(30) {
            domain.quota = count.max(domain.reserved);
        }
        if random.chance(30) && domain.reserved >= count {
            domain.reserved += spare;
            domain.quota = domain.quota.max(domain.reserved);
            spare = 0;
        }
    }
}

/// Gives a domain of a sound table the recorder's shape, if there is room for one; the table stays
/// sound. Mostly the domain then holds its quota, so that the next block to open needs one freed.
pub fn plant_recorder(random: &mut Random, table: &mut Table) {
    let blocks = table.config.blocks as u32;
    for index in turned(random, DOMAINS as u64) {
        let count = |index| held(table, index).count() as u32;
        let covered = |index: usize| table.domains[index].reserved.max(count(index));
        let others = (0..DOMAINS).filter(|&other| other != index);
        let most = blocks - others.map(covered).sum::<u32>();
        let least = count(index).max(2);
        let domain = &mut table.domains[index];
        if !domain.exists || most < least {
            continue;
        }
        let any = random.between(least.into(), most.into()) as u32;
        let quota = random.pick(&[least, least, any]);
        (domain.reserved, domain.quota, domain.placements) = (quota, quota, 1);
        plant_one_placement(random, table, index);
        return;
    }
}

/// All blocks of a domain that have a placement get the first, and one of them at most stays open.
fn plant_one_placement(random: &mut Random, table: &mut Table, index: usize) {
    let mut may_stay = random.chance(40);
    let its = present(table).iter_mut().filter(|block| usize::from(block.holder) == index + 1);
    for block in its {
        match block.state {
            State::Open(Way::Placement(_)) if may_stay => {
                block.state = State::Open(Way::Placement(0));
                may_stay = false;
            }
            State::Open(Way::Placement(_)) => {
                (block.state, block.left) = (State::Closed(Way::Placement(0)), 0);
            }
            State::Closed(Way::Placement(_)) => block.state = State::Closed(Way::Placement(0)),
            _ => {}
        }
    }
}

/// A sound table of a drive of any size, nearly all of whose blocks are held. It is for commands
/// that need no store.
pub fn full_table(random: &mut Random) -> Table {
    let most_blocks = random.pick(&[8, 64, 256, 256]);
    let blocks = random.between(1, most_blocks);
    let mut table = Table::start(Config { blocks, ..config(random) }).1;
    let domains = random.pick(&[1, 1, 2, 3, 8, 16]);
    for domain in &mut table.domains[..domains as usize] {
        *domain = Domain {
            exists: true,
            quota: blocks as u32,
            placements: random.between(1, 16) as u8,
            limit: 256,
            ..Domain::default()
        };
    }
    let (free, open) = (random.pick(&[0, 5]), random.pick(&[0, 10, 50, 90, 100]));
    // The placements that have an open block.
    let mut writing = [[false; 16]; DOMAINS];
    for block in &mut table.blocks[..blocks as usize] {
        if random.chance(free) {
            continue;
        }
        let index = random.below(domains) as usize;
        let placement = random.below(table.domains[index].placements.into()) as u8;
        let is_writing = &mut writing[index][usize::from(placement)];
        let is_open = random.chance(open);
        let is_placed = random.chance(50) && !(is_open && *is_writing);
        *is_writing |= is_open && is_placed;
        let way = if is_placed { Way::Placement(placement) } else { Way::Erase };
        block.state = if is_open { State::Open(way) } else { State::Closed(way) };
        block.holder = index as u8 + 1;
    }
    plant_serials(random, &mut table);
    plant_seconds(random, &mut table);
    plant_written(random, &mut table);
    plant_wear(random, &mut table);
    table
}

// Tables that need not be sound.

/// Damages a table in some of its fields; mostly it is then unsound.
pub fn damage(random: &mut Random, table: &mut Table) {
    if random.chance(4) {
        *table = junk_table(random, &table.config);
        return;
    }
    for _ in 0..random.pick(&[1, 1, 1, 1, 2, 3]) {
        match random.below(20) {
            0 | 1 => damage_config(random, &mut table.config),
            2..=6 => damage_domain(random, table),
            7 => junk_beyond(random, table),
            8 | 9 => damage_pair(random, table),
            _ => damage_block(random, table),
        }
    }
}

fn damage_domain(random: &mut Random, table: &mut Table) {
    let index = random.below(DOMAINS as u64) as usize;
    let existing = table.domains.iter().position(|domain| domain.exists);
    let index = existing.filter(|_| random.chance(50)).unwrap_or(index);
    let blocks = table.config.blocks as u32;
    let sound_blocks = blocks.min(BLOCKS as u32) as usize;
    let mine = || {
        table.blocks[..sound_blocks].iter().filter(|block| usize::from(block.holder) == index + 1)
    };
    let count = mine().count() as u32;
    let open = mine().filter(|block| matches!(block.state, State::Open(_))).count() as u32;
    let newest = mine().map(|block| block.serial).max().unwrap_or(0);
    let junk = random.half();
    let domain = &mut table.domains[index];
    match random.below(6) {
        0 => domain.exists = !domain.exists,
        1 => {
            let quota = domain.quota;
            domain.reserved = random.pick(&[0, 1, quota, quota.wrapping_add(1), u32::MAX, junk]);
        }
        2 => {
            let edges =
                [0, count, count.wrapping_sub(1), blocks, blocks.wrapping_add(1), u32::MAX, junk];
            domain.quota = random.pick(&edges);
        }
        3 => {
            domain.placements = random.pick(&[0, 1, 2, 15, 16, 17, 255, junk as u8]);
            if random.chance(50) {
                domain.limit = 256;
            }
        }
        4 => {
            let ids = u32::from(domain.placements);
            let edges = [0, ids, ids.wrapping_sub(1), open, open.wrapping_sub(1), 256, 257, junk];
            domain.limit = random.pick(&edges);
        }
        _ => {
            domain.last = random.pick(&[0, 1, newest, newest.wrapping_sub(1), u32::MAX, junk]);
        }
    }
}

fn damage_block(random: &mut Random, table: &mut Table) {
    let blocks = table.config.blocks.clamp(1, BLOCKS as u64);
    let number = random.below(blocks) as usize;
    let (junk, domains) = (random.half(), table.domains);
    let capacity = table
        .config
        .pages
        .wrapping_mul(table.config.dies)
        .wrapping_mul(table.config.planes)
        .wrapping_mul(table.config.adus);
    let period = table.config.period as u32;
    let block = &mut table.blocks[number];
    let holder = usize::from(block.holder).wrapping_sub(1);
    let holder = domains.get(holder).copied().unwrap_or_default();
    match random.below(7) {
        0 => block.state = any_state(random, holder.placements),
        1 => {
            let placement = random.pick(&[0, holder.placements, 15, 16, 255, junk as u8]);
            block.state = match block.state {
                State::Closed(_) => State::Closed(Way::Placement(placement)),
                _ => State::Open(Way::Placement(placement)),
            };
        }
        2 => {
            block.holder =
                random.pick(&[0, 1, 2, 3, 16, 17, 255, (junk % 16) as u8 + 1, junk as u8])
        }
        3 => {
            let edges = [
                0,
                1,
                capacity,
                capacity.wrapping_add(1),
                capacity.wrapping_sub(1),
                u64::MAX,
                junk.into(),
            ];
            block.written = random.pick(&edges);
        }
        4 => block.left = random.pick(&[0, 1, period, period.wrapping_add(1), u32::MAX, junk]),
        5 => block.erases = random.pick(&[0, 1, u32::MAX, junk]),
        _ => {
            let last = holder.last;
            block.serial = random.pick(&[0, 1, last, last.wrapping_add(1), u32::MAX, junk]);
        }
    }
}

/// Makes two blocks alike: in their serials, as open ones of a placement, or wholly. Mostly they
/// are of one domain, so that nothing else is wrong with them.
fn damage_pair(random: &mut Random, table: &mut Table) {
    let blocks = table.config.blocks.clamp(1, BLOCKS as u64);
    let held = |&number: &usize| table.blocks[number].state != State::Free;
    let one = turned(random, blocks).find(held).unwrap_or(0);
    let from = table.blocks[one];
    let kin = |&number: &usize| number != one && table.blocks[number].holder == from.holder;
    let other = turned(random, blocks).find(kin).filter(|_| random.chance(80));
    let other = other.unwrap_or_else(|| random.below(blocks) as usize);
    let to = &mut table.blocks[other];
    match random.below(6) {
        0 => to.serial = from.serial,
        1 => (to.holder, to.serial) = (from.holder, from.serial),
        2 => to.state = from.state,
        3 | 4 => {
            (to.holder, to.state, to.left) = (from.holder, from.state, from.left);
            to.written = to.written.min(from.written);
            if let Some(holder) = table.domains.get_mut(usize::from(from.holder).wrapping_sub(1)) {
                holder.limit = 256;
            }
        }
        _ => *to = from,
    }
}

/// The numbers below `end`, from any of them on and then from the first.
fn turned(random: &mut Random, end: u64) -> impl Iterator<Item = usize> {
    let first = random.below(end) as usize;
    (first..end as usize).chain(0..first)
}

/// Junk in the records at S and above, which must not matter.
fn junk_beyond(random: &mut Random, table: &mut Table) {
    let blocks = table.config.blocks.min(BLOCKS as u64) as usize;
    let first = table.blocks[0];
    for block in &mut table.blocks[blocks..] {
        *block = match random.below(4) {
            0 => first,
            1 => Block::default(),
            _ => junk_block(random),
        };
    }
}

fn any_state(random: &mut Random, placements: u8) -> State {
    let placement = if random.chance(80) { random.below(placements.into()) } else { random.word() };
    let way = if random.chance(50) { Way::Erase } else { Way::Placement(placement as u8) };
    match random.below(5) {
        0 => State::Free,
        1 | 2 => State::Open(way),
        _ => State::Closed(way),
    }
}

fn junk_block(random: &mut Random) -> Block {
    let junk = random.word() as u8;
    Block {
        state: any_state(random, 16),
        holder: random.pick(&[0, 1, 2, 16, 17, 255, junk]),
        written: random.word() >> random.below(64),
        left: random.half(),
        erases: random.half(),
        serial: random.half() >> random.below(32),
    }
}

/// A table of junk in all of its fields, or in all but the configuration.
fn junk_table(random: &mut Random, config: &Config) -> Table {
    let mut table = Table::zeros();
    table.config = *config;
    if random.chance(30) {
        table.config = Config {
            pages: random.word(),
            dies: random.word(),
            planes: random.word(),
            adus: random.word(),
            blocks: random.word(),
            rated: random.word(),
            period: random.word(),
        };
    }
    let shift = random.below(32);
    for domain in &mut table.domains {
        *domain = Domain {
            exists: random.chance(50),
            reserved: random.half() >> shift,
            quota: random.half() >> shift,
            placements: random.word() as u8,
            limit: random.half() >> shift,
            last: random.half(),
        };
    }
    for block in &mut table.blocks {
        *block = junk_block(random);
    }
    table
}
