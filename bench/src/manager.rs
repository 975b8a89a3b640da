//! The super block manager of a shared drive, read from document 01; lists have the order of Wish 2
//! of document 02, and the P/E index is rounded by its Wish 3.
//!
//! `Table::start` and `Table::serve` answer every input: the first question of 01 that is answered
//! no gives its number, and then table, store and outputs stay as they were.

#![forbid(unsafe_code)]

/// Domain IDs are 1 to 16.
pub const DOMAINS: usize = 16;
/// A table has a record for each of the most super blocks that a drive can have.
pub const BLOCKS: usize = 256;
/// The user address that an erased ADU has, and that matches anything when it is expected.
pub const ALL_ONES: u64 = u64::MAX;
/// The block number by which Erase leaves the choice to the manager.
pub const ANY_BLOCK: u64 = 0xFFFF_FFFF;

const MOST_ADUS_IN_BLOCK: u64 = 1_048_576;
const MOST_PLACEMENTS: u8 = 16;
const MOST_OPEN: u32 = 256;
const MOST_ADUS_IN_TRANSFER: u64 = 256;
const MOST_SECONDS: u64 = 65_535;
/// No transfer needs more than two new blocks: 256 ADUs, and at least 128 in a block.
const MOST_NEW_BLOCKS: usize = 2;
const LBA_BITS: u32 = 40;
const LAST_LBA: u64 = (1 << LBA_BITS) - 1;
const LAST_META: u64 = (1 << (64 - LBA_BITS)) - 1;
const DOMAIN_SHIFT: u32 = 48;
const PAGE_BYTES: usize = 256;
const DESCRIPTOR_BYTES: usize = 8;

/// The drive's fixed shape. In 01's letters: G, D, L, K, S, N, T.
#[derive(Clone, Copy, PartialEq, Eq, Debug, Default)]
pub struct Config {
    /// Pages per block.
    pub pages: u64,
    pub dies: u64,
    /// Planes per die.
    pub planes: u64,
    /// ADUs per plane.
    pub adus: u64,
    /// Super blocks.
    pub blocks: u64,
    /// Rated erase count.
    pub rated: u64,
    /// Seconds that a block stays open.
    pub period: u64,
}

/// A domain's record; `Domain::default()` is that of a missing one.
#[derive(Clone, Copy, PartialEq, Eq, Debug, Default)]
pub struct Domain {
    pub exists: bool,
    /// Guaranteed blocks.
    pub reserved: u32,
    /// The most blocks that it may hold.
    pub quota: u32,
    /// Number of placement IDs.
    pub placements: u8,
    /// The most blocks that it may have open.
    pub limit: u32,
    /// The serial given out last.
    pub last: u32,
}

/// How a block was opened.
#[derive(Clone, Copy, PartialEq, Eq, Debug)]
pub enum Way {
    Erase,
    /// For Nameless Write, with this placement ID.
    Placement(u8),
}

#[derive(Clone, Copy, PartialEq, Eq, Debug, Default)]
pub enum State {
    #[default]
    Free,
    Open(Way),
    Closed(Way),
}

/// A super block's record.
#[derive(Clone, Copy, PartialEq, Eq, Debug, Default)]
pub struct Block {
    pub state: State,
    /// The domain that holds it, 0 if none.
    pub holder: u8,
    /// ADUs written.
    pub written: u64,
    /// Seconds left until it closes.
    pub left: u32,
    /// P/E count.
    pub erases: u32,
    /// Erase serial number within its domain.
    pub serial: u32,
}

#[derive(Clone, PartialEq, Eq, Debug)]
pub struct Table {
    pub config: Config,
    /// Domain ID 1 is at 0.
    pub domains: [Domain; DOMAINS],
    /// Records at `config.blocks` and above are never looked at and never changed.
    pub blocks: [Block; BLOCKS],
}

/// What List gives.
#[derive(Clone, Copy, PartialEq, Eq, Debug)]
pub enum Listed {
    Open,
    Closed,
}

#[derive(Clone, Copy, PartialEq, Eq, Debug)]
pub enum Command {
    Create { domain: u64, guarantee: u64, quota: u64, placements: u64, limit: u64 },
    ChangeCapacity { domain: u64, guarantee: u64, quota: u64 },
    Delete { domain: u64 },
    Erase { domain: u64, block: u64 },
    Close { domain: u64, block: u64 },
    Free { domain: u64, block: u64 },
    WriteByPlacement { domain: u64, placement: u64, start: u64, count: u64 },
    WriteByBlock { domain: u64, block: u64, start: u64, count: u64 },
    Read { domain: u64, address: u64, count: u64, expected: u64 },
    Page { domain: u64, block: u64 },
    List { domain: u64, listed: Listed },
    Pulse { seconds: u64 },
}

#[derive(Clone, Copy, PartialEq, Eq, Debug)]
pub enum Answer {
    Done,
    Block(u64),
    Refused(u8),
}

/// 01's questions by number.
#[derive(Clone, Copy, PartialEq, Eq, Debug)]
#[repr(u8)]
pub(crate) enum Question {
    Limits = 1,
    Sound = 2,
    Store = 3,
    DomainId = 4,
    Exists = 5,
    Range = 6,
    Output = 7,
    UserAddresses = 8,
    Holder = 9,
    State = 10,
    OpenLimit = 11,
    Serials = 12,
    Quota = 13,
    Coverage = 14,
    Fit = 15,
    Match = 16,
}

pub(crate) type Served = Result<Answer, Question>;

pub(crate) fn ask(yes: bool, question: Question) -> Result<(), Question> {
    if yes {
        Ok(())
    } else {
        Err(question)
    }
}

pub(crate) fn answer(served: Served) -> Answer {
    served.unwrap_or_else(|question| Answer::Refused(question as u8))
}

impl Config {
    pub fn within_limits(&self) -> bool {
        (128..=8_192).contains(&self.pages)
            && (1..=64).contains(&self.dies)
            && (1..=64).contains(&self.planes)
            && (1..=256).contains(&self.adus)
            && (1..=BLOCKS as u64).contains(&self.blocks)
            && (1..=65_535).contains(&self.rated)
            && (1..=65_535).contains(&self.period)
            && self.adus_in_block() <= MOST_ADUS_IN_BLOCK
    }

    /// W. Like all below, for configurations within the limits.
    pub fn planes_in_block(&self) -> u64 {
        self.pages * self.dies * self.planes
    }

    /// C.
    pub fn adus_in_block(&self) -> u64 {
        self.planes_in_block() * self.adus
    }

    /// S × C, the entries of the store.
    pub fn store_entries(&self) -> u64 {
        self.blocks * self.adus_in_block()
    }

    fn planes_in_drive(&self) -> u64 {
        self.blocks * self.planes_in_block()
    }

    /// b, the least number with C ≤ 2^b.
    fn offset_bits(&self) -> u32 {
        self.adus_in_block().next_power_of_two().trailing_zeros()
    }

    /// The flash address of a block's ADU; those of the following ADUs follow.
    pub fn flash_address(&self, domain: u64, block: u64, offset: u64) -> u64 {
        domain << DOMAIN_SHIFT | block << self.offset_bits() | offset
    }

    /// Domain, block and offset of a flash address, none of them checked.
    pub fn address_fields(&self, address: u64) -> (u64, u64, u64) {
        let bits = self.offset_bits();
        let low = address & ((1 << DOMAIN_SHIFT) - 1);
        (address >> DOMAIN_SHIFT, low >> bits, low & ((1 << bits) - 1))
    }

    /// Planes rounded up to whole blocks.
    fn whole_blocks(&self, planes: u64) -> u32 {
        planes.div_ceil(self.planes_in_block()) as u32
    }

    /// P/E index: count × 200 / N to the nearest whole, halves up, then at most 255.
    fn wear_index(&self, erases: u32) -> u8 {
        ((u64::from(erases) * 400 + self.rated) / (2 * self.rated)).min(255) as u8
    }
}

impl Domain {
    /// What the blocks have no part in.
    fn is_sound(&self, blocks: u64) -> bool {
        if !self.exists {
            let Domain { reserved, quota, placements, limit, last, .. } = *self;
            return reserved | quota | u32::from(placements) | limit | last == 0;
        }
        self.reserved <= self.quota
            && u64::from(self.quota) <= blocks
            && (1..=MOST_PLACEMENTS).contains(&self.placements)
            && (u32::from(self.placements)..=MOST_OPEN).contains(&self.limit)
    }
}

impl State {
    fn is_open(self) -> bool {
        matches!(self, State::Open(_))
    }

    pub(crate) fn is_closed(self) -> bool {
        matches!(self, State::Closed(_))
    }

    fn way(self) -> Option<Way> {
        match self {
            State::Free => None,
            State::Open(way) | State::Closed(way) => Some(way),
        }
    }

    /// Super Block State (000, 6.4.4): bit 3 open by erase, 2 by placement, 1 closed.
    fn code(self) -> u8 {
        let way = match self.way() {
            None => return 0x01,
            Some(Way::Erase) => 0x08,
            Some(Way::Placement(_)) => 0x04,
        };
        way | if self.is_closed() { 0x02 } else { 0 }
    }

    /// Data integrity: 1 if Closed, else 0.
    fn integrity(self) -> u8 {
        u8::from(self.is_closed())
    }
}

impl Block {
    fn is_free(&self) -> bool {
        self.state == State::Free
    }

    /// A Free record is clear but for the P/E count.
    fn is_clear(&self) -> bool {
        u64::from(self.holder) | self.written | u64::from(self.left | self.serial) == 0
    }

    /// What a held block's record has to be for itself and beside its holder's. A holder that
    /// does not exist, being clear, has no placement IDs and has given out no serial.
    fn is_sound(&self, holder: &Domain, capacity: u64, period: u32) -> bool {
        let (way, progress) = match self.state {
            State::Free => return false,
            State::Open(way) => (way, self.written < capacity && (1..=period).contains(&self.left)),
            State::Closed(way) => (way, self.written <= capacity && self.left == 0),
        };
        let placed = match way {
            Way::Erase => true,
            Way::Placement(placement) => placement < holder.placements,
        };
        progress && placed && (1..=holder.last).contains(&self.serial)
    }

    fn open(&mut self, way: Way, domain: u8, serial: u32, period: u32) {
        *self = Block {
            state: State::Open(way),
            holder: domain,
            written: 0,
            left: period,
            erases: self.erases.saturating_add(1),
            serial,
        };
    }

    /// A full block is Closed at its last ADU; the seconds left are not set back by a write.
    fn write_on(&mut self, count: u64, capacity: u64) {
        self.written += count;
        if self.written == capacity {
            self.close();
        }
    }

    /// 0 seconds left, and the rest of the record is kept; a Closed block stays as it is.
    fn close(&mut self) {
        if let State::Open(way) = self.state {
            self.state = State::Closed(way);
            self.left = 0;
        }
    }

    /// Clears all of the record but the P/E count.
    pub(crate) fn free(&mut self) {
        *self = Block { erases: self.erases, ..Block::default() };
    }

    fn count_down(&mut self, seconds: u32) {
        if self.state.is_open() {
            self.left = self.left.saturating_sub(seconds);
            if self.left == 0 {
                self.close();
            }
        }
    }
}

/// What a domain holds, in one word: held blocks in the low 16 bits, open ones in the next 16,
/// above them a bit for each placement that has an open block.
#[derive(Clone, Copy, Default)]
struct Tally(u64);

impl Tally {
    const HELD: u64 = 1;
    const OPEN: u64 = 1 << 16;
    const WRITING: u64 = 1 << 32;

    fn held(self) -> u32 {
        (self.0 as u16).into()
    }

    fn open(self) -> u32 {
        ((self.0 >> 16) as u16).into()
    }

    fn has_open(self, placement: u8) -> bool {
        self.0 & Tally::WRITING << (placement % MOST_PLACEMENTS) != 0
    }

    /// None if the block is the second open one of its placement.
    fn count(&mut self, state: State) -> Option<()> {
        self.0 += Tally::HELD;
        if let State::Open(way) = state {
            self.0 += Tally::OPEN;
            if let Way::Placement(placement) = way {
                if self.has_open(placement) {
                    return None;
                }
                self.0 |= Tally::WRITING << (placement % MOST_PLACEMENTS);
            }
        }
        Some(())
    }
}

/// The held blocks in N chains, each of those with an equal hash of holder and serial, by which
/// equal serials of a domain are found.
struct Serials<const N: usize> {
    /// The block that was added last to each chain.
    newest: [u8; N],
    /// For each block the one that was added before it to its chain.
    older: [u8; N],
}

impl<const N: usize> Serials<N> {
    /// Also the number of the last block of all, which no other comes after.
    const NONE: u8 = u8::MAX;

    fn new() -> Self {
        Serials { newest: [Self::NONE; N], older: [Self::NONE; N] }
    }

    fn chain(block: &Block) -> usize {
        let key = u64::from(block.holder) << 32 | u64::from(block.serial);
        (key.wrapping_mul(0x9E37_79B9_7F4A_7C15) >> (64 - N.ilog2())) as usize
    }

    /// None if an earlier block of the holder has the same serial.
    fn add(&mut self, number: usize, block: &Block, blocks: &[Block; BLOCKS]) -> Option<()> {
        let newest = &mut self.newest[Self::chain(block)];
        let mut other = *newest;
        *newest = number as u8;
        self.older[number % N] = other;
        while other != Self::NONE {
            let earlier = &blocks[usize::from(other)];
            if earlier.serial == block.serial && earlier.holder == block.holder {
                return None;
            }
            other = self.older[usize::from(other) % N];
        }
        Some(())
    }
}

/// Where a Write by placement writes.
#[derive(Clone, Copy, PartialEq, Eq)]
pub(crate) struct Place {
    pub(crate) domain: u64,
    pub(crate) placement: u64,
}

/// What one pass over a sound table finds.
pub(crate) struct Census {
    tallies: [Tally; DOMAINS],
    /// Over all domains, the sum of the larger of reserved blocks and held blocks.
    covered: u32,
    /// The open block of the place that is asked for.
    open_block: Option<usize>,
}

impl Census {
    /// One block less is held by a domain that holds no more than it has reserved, so that the
    /// covered sum stays; the block was not open.
    pub(crate) fn closed_one_is_freed(&mut self, index: usize) {
        self.tallies[index].0 -= Tally::HELD;
    }
}

impl Table {
    pub fn start(config: Config) -> (Answer, Table) {
        let mut table = Table::zeros();
        if !config.within_limits() {
            return (Answer::Refused(Question::Limits as u8), table);
        }
        table.config = config;
        (Answer::Done, table)
    }

    /// What a refused start hands back; never sound.
    pub fn zeros() -> Table {
        Table {
            config: Config::default(),
            domains: [Domain::default(); DOMAINS],
            blocks: [Block::default(); BLOCKS],
        }
    }

    pub fn serve(
        &mut self,
        command: Command,
        store: &mut [u64],
        words: &mut [u64],
        bytes: &mut [u8],
    ) -> Answer {
        let place = match command {
            Command::WriteByPlacement { domain, placement, .. } => {
                Some(Place { domain, placement })
            }
            _ => None,
        };
        let Some(census) = self.census(place) else {
            return Answer::Refused(Question::Sound as u8);
        };
        answer(match command {
            Command::Create { domain, guarantee, quota, placements, limit } => {
                self.create(&census, domain, guarantee, quota, placements, limit)
            }
            Command::ChangeCapacity { domain, guarantee, quota } => {
                self.change_capacity(&census, domain, guarantee, quota)
            }
            Command::Delete { domain } => self.delete(domain),
            Command::Erase { domain, block } => self.erase(&census, domain, block, store),
            Command::Close { domain, block } => self.close(domain, block),
            Command::Free { domain, block } => self.free(domain, block),
            Command::WriteByPlacement { domain, placement, start, count } => {
                self.write_by_placement(&census, domain, placement, start, count, store, words)
            }
            Command::WriteByBlock { domain, block, start, count } => {
                self.write_by_block(domain, block, start, count, store, words)
            }
            Command::Read { domain, address, count, expected } => {
                self.read(domain, address, count, expected, store, words)
            }
            Command::Page { domain, block } => self.page(domain, block, bytes),
            Command::List { domain, listed } => self.list(&census, domain, listed, bytes),
            Command::Pulse { seconds } => self.pulse(seconds),
        })
    }

    pub fn is_sound(&self) -> bool {
        self.census(None).is_some()
    }

    /// None if the table is not sound.
    pub(crate) fn census(&self, place: Option<Place>) -> Option<Census> {
        if !self.config.within_limits() {
            return None;
        }
        // As many chains of serials as there may be blocks; a small drive is spared the many.
        if self.config.blocks <= 32 {
            self.audit::<32>(place)
        } else {
            self.audit::<BLOCKS>(place)
        }
    }

    /// The census of a configuration within the limits; None if the table is not sound.
    fn audit<const N: usize>(&self, place: Option<Place>) -> Option<Census> {
        let mut census =
            Census { tallies: [Tally::default(); DOMAINS], covered: 0, open_block: None };
        let (capacity, period) = (self.config.adus_in_block(), self.config.period as u32);
        let mut serials = Serials::<N>::new();
        for (number, block) in self.present().iter().enumerate() {
            if block.is_free() {
                if !block.is_clear() {
                    return None;
                }
                continue;
            }
            let index = usize::from(block.holder).wrapping_sub(1);
            let holder = self.domains.get(index)?;
            if !block.is_sound(holder, capacity, period) {
                return None;
            }
            census.tallies[index].count(block.state)?;
            if let State::Open(Way::Placement(placement)) = block.state {
                let its = Place { domain: block.holder.into(), placement: placement.into() };
                if place == Some(its) {
                    census.open_block = Some(number);
                }
            }
            serials.add(number, block, &self.blocks)?;
        }
        for (domain, tally) in self.domains.iter().zip(&census.tallies) {
            if !domain.is_sound(self.config.blocks)
                || tally.held() > domain.quota
                || tally.open() > domain.limit
            {
                return None;
            }
            census.covered += domain.reserved.max(tally.held());
        }
        (u64::from(census.covered) <= self.config.blocks).then_some(census)
    }

    /// The records of the blocks that the drive has.
    pub(crate) fn present(&self) -> &[Block] {
        &self.blocks[..self.config.blocks as usize]
    }

    fn present_mut(&mut self) -> &mut [Block] {
        &mut self.blocks[..self.config.blocks as usize]
    }
}

// The questions that several commands put.
impl Table {
    pub(crate) fn ask_store(&self, store: &[u64]) -> Result<(), Question> {
        ask(store.len() as u64 == self.config.store_entries(), Question::Store)
    }

    /// Questions 4 and 5; the index of the domain's record.
    pub(crate) fn ask_domain(&self, domain: u64) -> Result<usize, Question> {
        let index = ask_domain_id(domain)?;
        ask(self.domains[index].exists, Question::Exists)?;
        Ok(index)
    }

    fn ask_planes(&self, planes: u64) -> Result<(), Question> {
        ask(planes <= self.config.planes_in_drive(), Question::Range)
    }

    fn ask_block(&self, block: u64) -> Result<usize, Question> {
        ask(block < self.config.blocks, Question::Range)?;
        Ok(block as usize)
    }

    fn ask_holder(&self, number: usize, domain: u64) -> Result<(), Question> {
        ask(u64::from(self.blocks[number].holder) == domain, Question::Holder)
    }

    fn ask_open_limit(&self, census: &Census, index: usize) -> Result<(), Question> {
        ask(census.tallies[index].open() < self.domains[index].limit, Question::OpenLimit)
    }

    fn ask_serials(&self, index: usize, new: u32) -> Result<(), Question> {
        ask(self.domains[index].last.checked_add(new).is_some(), Question::Serials)
    }

    /// Questions 13 and 14.
    fn ask_new_blocks(&self, census: &Census, index: usize, new: u32) -> Result<(), Question> {
        let held = census.tallies[index].held() + new;
        ask(held <= self.domains[index].quota, Question::Quota)?;
        self.ask_coverage(census, index, self.domains[index].reserved, held)
    }

    /// Question 14, when the domain comes to have these blocks reserved and held.
    fn ask_coverage(
        &self,
        census: &Census,
        index: usize,
        reserved: u32,
        held: u32,
    ) -> Result<(), Question> {
        let present = self.domains[index].reserved.max(census.tallies[index].held());
        let covered = census.covered - present + reserved.max(held);
        ask(u64::from(covered) <= self.config.blocks, Question::Coverage)
    }
}

/// Question 4; the index of the domain's record.
fn ask_domain_id(domain: u64) -> Result<usize, Question> {
    ask((1..=DOMAINS as u64).contains(&domain), Question::DomainId)?;
    Ok(domain as usize - 1)
}

pub(crate) fn ask_count(count: u64) -> Result<usize, Question> {
    ask((1..=MOST_ADUS_IN_TRANSFER).contains(&count), Question::Range)?;
    Ok(count as usize)
}

pub(crate) fn ask_words(words: &mut [u64], count: usize) -> Result<&mut [u64], Question> {
    words.get_mut(..count).ok_or(Question::Output)
}

/// Question 8; of the user addresses only the last can be all ones, as only the LBA is counted up.
fn ask_user_addresses(start: u64, count: usize) -> Result<(), Question> {
    let (meta, last) = (start >> LBA_BITS, (start & LAST_LBA) + count as u64 - 1);
    let within = last < LAST_LBA || last == LAST_LBA && meta != LAST_META;
    ask(start == ALL_ONES || within, Question::UserAddresses)
}

/// The user address of the ADU that is `further` ADUs behind the one at `start`.
fn user_address(start: u64, further: usize) -> u64 {
    if start == ALL_ONES {
        ALL_ONES
    } else {
        start + further as u64
    }
}

/// Do the entries count up from `expected`? All are compared: there are few, and mostly they do.
fn entries_match(stored: &[u64], expected: u64) -> bool {
    stored.iter().zip(expected..).fold(0, |differing, (entry, want)| differing | entry ^ want) == 0
}

// Domains.
impl Table {
    fn create(
        &mut self,
        census: &Census,
        domain: u64,
        guarantee: u64,
        quota: u64,
        placements: u64,
        limit: u64,
    ) -> Served {
        let index = ask_domain_id(domain)?;
        ask(!self.domains[index].exists, Question::Exists)?;
        self.ask_planes(guarantee)?;
        self.ask_planes(quota)?;
        ask((1..=u64::from(MOST_PLACEMENTS)).contains(&placements), Question::Range)?;
        ask(limit <= u64::from(MOST_OPEN), Question::Range)?;
        let reserved = self.config.whole_blocks(guarantee);
        self.ask_coverage(census, index, reserved, 0)?;
        let limit = if limit < placements { placements + 2 } else { limit };
        self.domains[index] = Domain {
            exists: true,
            reserved,
            quota: self.config.whole_blocks(quota).max(reserved),
            placements: placements as u8,
            limit: limit as u32,
            last: 0,
        };
        Ok(Answer::Done)
    }

    fn change_capacity(
        &mut self,
        census: &Census,
        domain: u64,
        guarantee: u64,
        quota: u64,
    ) -> Served {
        let index = self.ask_domain(domain)?;
        self.ask_planes(guarantee)?;
        self.ask_planes(quota)?;
        let present = self.domains[index];
        let kept_or_rounded = |planes, kept| match planes {
            0 => kept,
            _ => self.config.whole_blocks(planes),
        };
        let reserved = kept_or_rounded(guarantee, present.reserved);
        let quota = kept_or_rounded(quota, present.quota);
        let held = census.tallies[index].held();
        self.ask_coverage(census, index, reserved, held)?;
        self.domains[index].reserved = reserved;
        self.domains[index].quota = quota.max(reserved).max(held);
        Ok(Answer::Done)
    }

    fn delete(&mut self, domain: u64) -> Served {
        let index = self.ask_domain(domain)?;
        for block in self.present_mut() {
            if u64::from(block.holder) == domain {
                block.free();
            }
        }
        self.domains[index] = Domain::default();
        Ok(Answer::Done)
    }
}

// Blocks.
impl Table {
    fn erase(&mut self, census: &Census, domain: u64, block: u64, store: &mut [u64]) -> Served {
        self.ask_store(store)?;
        let index = self.ask_domain(domain)?;
        let named = match block {
            ANY_BLOCK => None,
            _ => Some(self.ask_block(block)?),
        };
        let held = named.filter(|&number| !self.blocks[number].is_free());
        if let Some(number) = held {
            self.ask_holder(number, domain)?;
            ask(self.blocks[number].state.is_closed(), Question::State)?;
        }
        self.ask_open_limit(census, index)?;
        self.ask_serials(index, 1)?;
        if held.is_none() {
            self.ask_new_blocks(census, index, 1)?;
        }
        // Where coverage holds afterwards, there is a Free block.
        let number = named.or_else(|| self.least_worn()[0]).ok_or(Question::Coverage)?;
        self.open(number, Way::Erase, index, store);
        Ok(Answer::Block(number as u64))
    }

    fn close(&mut self, domain: u64, block: u64) -> Served {
        self.ask_domain(domain)?;
        let number = self.ask_block(block)?;
        self.ask_holder(number, domain)?;
        self.blocks[number].close();
        Ok(Answer::Block(block))
    }

    fn free(&mut self, domain: u64, block: u64) -> Served {
        self.ask_domain(domain)?;
        let number = self.ask_block(block)?;
        self.ask_holder(number, domain)?;
        self.blocks[number].free();
        Ok(Answer::Block(block))
    }

    fn pulse(&mut self, seconds: u64) -> Served {
        ask(seconds <= MOST_SECONDS, Question::Range)?;
        for block in self.present_mut() {
            block.count_down(seconds as u32);
        }
        Ok(Answer::Done)
    }

    /// The Free blocks with the least P/E counts, the lowest number first among equals.
    fn least_worn(&self) -> [Option<usize>; MOST_NEW_BLOCKS] {
        const NONE: u64 = u64::MAX;
        let (mut first, mut second) = (NONE, NONE);
        for (number, block) in self.present().iter().enumerate() {
            let rank =
                if block.is_free() { u64::from(block.erases) << 32 | number as u64 } else { NONE };
            second = second.min(first.max(rank));
            first = first.min(rank);
        }
        [first, second].map(|rank| (rank != NONE).then_some(rank as u32 as usize))
    }

    /// Opens a block with the domain's next serial, and sets its user addresses to all ones.
    fn open(&mut self, number: usize, way: Way, index: usize, store: &mut [u64]) {
        let period = self.config.period as u32;
        let domain = &mut self.domains[index];
        domain.last += 1;
        self.blocks[number].open(way, index as u8 + 1, domain.last, period);
        self.stretch(number, store).fill(ALL_ONES);
    }

    /// A block's user addresses: the stretch of the store that begins at block number × C.
    fn stretch<'a>(&self, number: usize, store: &'a mut [u64]) -> &'a mut [u64] {
        let capacity = self.config.adus_in_block() as usize;
        &mut store[number * capacity..][..capacity]
    }
}

// Transfers.
impl Table {
    #[allow(clippy::too_many_arguments)]
    pub(crate) fn write_by_placement(
        &mut self,
        census: &Census,
        domain: u64,
        placement: u64,
        start: u64,
        count: u64,
        store: &mut [u64],
        words: &mut [u64],
    ) -> Served {
        self.ask_store(store)?;
        let index = self.ask_domain(domain)?;
        ask(placement < u64::from(self.domains[index].placements), Question::Range)?;
        let count = ask_count(count)?;
        let words = ask_words(words, count)?;
        ask_user_addresses(start, count)?;
        let capacity = self.config.adus_in_block();
        let room = census.open_block.map_or(0, |number| capacity - self.blocks[number].written);
        let rest = (count as u64).saturating_sub(room);
        let new = if rest == 0 { 0 } else { rest.div_ceil(capacity) as u32 };
        if census.open_block.is_none() {
            self.ask_open_limit(census, index)?;
        }
        self.ask_serials(index, new)?;
        self.ask_new_blocks(census, index, new)?;
        let mut done = 0;
        if let Some(number) = census.open_block {
            done = self.put(number, start, store, words);
        }
        // Another block is opened only when an ADU remains.
        if new > 0 {
            for number in self.least_worn().into_iter().flatten().take(new as usize) {
                self.open(number, Way::Placement(placement as u8), index, store);
                done += self.put(number, user_address(start, done), store, &mut words[done..]);
            }
        }
        Ok(Answer::Done)
    }

    fn write_by_block(
        &mut self,
        domain: u64,
        block: u64,
        start: u64,
        count: u64,
        store: &mut [u64],
        words: &mut [u64],
    ) -> Served {
        self.ask_store(store)?;
        self.ask_domain(domain)?;
        let number = self.ask_block(block)?;
        let count = ask_count(count)?;
        let words = ask_words(words, count)?;
        ask_user_addresses(start, count)?;
        self.ask_holder(number, domain)?;
        let Block { state, written, .. } = self.blocks[number];
        ask(state == State::Open(Way::Erase), Question::State)?;
        ask(written + count as u64 <= self.config.adus_in_block(), Question::Fit)?;
        self.put(number, start, store, words);
        Ok(Answer::Done)
    }

    fn read(
        &self,
        domain: u64,
        address: u64,
        count: u64,
        expected: u64,
        store: &[u64],
        words: &mut [u64],
    ) -> Served {
        self.ask_store(store)?;
        self.ask_domain(domain)?;
        let (owner, block, offset) = self.config.address_fields(address);
        let number = self.ask_block(block)?;
        let capacity = self.config.adus_in_block();
        ask(offset < capacity, Question::Range)?;
        let count = ask_count(count)?;
        let words = ask_words(words, count)?;
        ask_user_addresses(expected, count)?;
        self.ask_holder(number, domain)?;
        ask(owner == domain, Question::Holder)?;
        ask(offset + count as u64 <= self.blocks[number].written, Question::Fit)?;
        let first = number * capacity as usize + offset as usize;
        let stored = &store[first..][..count];
        ask(expected == ALL_ONES || entries_match(stored, expected), Question::Match)?;
        words.copy_from_slice(stored);
        Ok(Answer::Done)
    }

    /// Writes on in an open block, as many ADUs as there are words and as it has room for; gives
    /// their number. The words get the flash addresses, the store the user addresses from `start`.
    fn put(&mut self, number: usize, start: u64, store: &mut [u64], words: &mut [u64]) -> usize {
        let capacity = self.config.adus_in_block();
        let Block { holder, written, .. } = self.blocks[number];
        let room = &mut self.stretch(number, store)[written as usize..];
        let first = self.config.flash_address(holder.into(), number as u64, written);
        let count = room.len().min(words.len());
        for (word, address) in words[..count].iter_mut().zip(first..) {
            *word = address;
        }
        if start == ALL_ONES {
            room[..count].fill(ALL_ONES);
        } else {
            for (entry, address) in room[..count].iter_mut().zip(start..) {
                *entry = address;
            }
        }
        self.blocks[number].write_on(count as u64, capacity);
        count
    }
}

// Log pages.
impl Table {
    /// Super Block Information (000, 6.4.4).
    fn page(&self, domain: u64, block: u64, bytes: &mut [u8]) -> Served {
        self.ask_domain(domain)?;
        let number = self.ask_block(block)?;
        let page = bytes.get_mut(..PAGE_BYTES).ok_or(Question::Output)?;
        self.ask_holder(number, domain)?;
        let block = &self.blocks[number];
        let placement = match block.state.way() {
            Some(Way::Placement(placement)) => u16::from(placement),
            _ => 0xFFFF,
        };
        let pointer = if block.state.is_open() { block.written as u32 } else { 0 };
        let capacity = self.config.adus_in_block() as u32;
        page.fill(0);
        page[0..2].copy_from_slice(&1u16.to_le_bytes());
        page[3] = block.state.code();
        page[4..8].copy_from_slice(&(number as u32).to_le_bytes());
        page[8..10].copy_from_slice(&placement.to_le_bytes());
        page[10..12].copy_from_slice(&u16::from(block.holder).to_le_bytes());
        page[12] = self.config.wear_index(block.erases);
        page[13] = block.state.integrity();
        page[16..20].copy_from_slice(&capacity.to_le_bytes());
        page[20..24].copy_from_slice(&pointer.to_le_bytes());
        page[24..28].copy_from_slice(&block.serial.to_le_bytes());
        Ok(Answer::Done)
    }

    /// A descriptor for each listed block, by rising serial, and the end mark.
    fn list(&self, census: &Census, domain: u64, listed: Listed, bytes: &mut [u8]) -> Served {
        let index = self.ask_domain(domain)?;
        let tally = census.tallies[index];
        let count = match listed {
            Listed::Open => tally.open(),
            Listed::Closed => tally.held() - tally.open(),
        } as usize;
        let (places, _) = bytes.as_chunks_mut::<DESCRIPTOR_BYTES>();
        let Some([descriptors @ .., end]) = places.get_mut(..=count) else {
            return Err(Question::Output);
        };
        let is_listed = |block: &Block| {
            u64::from(block.holder) == domain && block.state.is_open() == (listed == Listed::Open)
        };
        let numbered = self.present().iter().enumerate().filter(|(_, block)| is_listed(block));
        // To be sorted, a block has its serial above what is shown of it; its number has one byte.
        for (descriptor, (number, block)) in descriptors.iter_mut().zip(numbered) {
            let byte = match listed {
                Listed::Open => block.state.code(),
                Listed::Closed => block.state.integrity(),
            };
            let index = self.config.wear_index(block.erases);
            let shown = u32::from_le_bytes([number as u8, index, byte, 0]);
            *descriptor = (u64::from(block.serial) << 32 | u64::from(shown)).to_le_bytes();
        }
        descriptors.sort_unstable_by_key(|&ranked| u64::from_le_bytes(ranked));
        for descriptor in descriptors {
            let [number, index, byte, ..] = *descriptor;
            *descriptor = [number, 0, 0, 0, index, byte, 0, 0];
        }
        *end = [0xFF, 0xFF, 0xFF, 0xFF, 0, 0, 0, 0];
        Ok(Answer::Done)
    }
}

/// The elements that an ADU offset is made of (000, 3.11).
#[derive(Clone, Copy, PartialEq, Eq, Debug)]
pub struct Elements {
    pub page: u64,
    pub die: u64,
    pub plane: u64,
    pub adu: u64,
}

/// Makes a flash address for the C host: fills the first 8 bytes with the word.
pub fn make_address(
    config: &Config,
    domain: u64,
    block: u64,
    at: Elements,
    bytes: &mut [u8],
) -> Answer {
    answer((|| {
        ask(config.within_limits(), Question::Limits)?;
        ask((1..=DOMAINS as u64).contains(&domain), Question::DomainId)?;
        let in_range = block < config.blocks
            && at.page < config.pages
            && at.die < config.dies
            && at.plane < config.planes
            && at.adu < config.adus;
        ask(in_range, Question::Range)?;
        let filled = bytes.get_mut(..8).ok_or(Question::Output)?;
        let plane = (at.page * config.dies + at.die) * config.planes + at.plane;
        let word = config.flash_address(domain, block, plane * config.adus + at.adu);
        filled.copy_from_slice(&word.to_le_bytes());
        Ok(Answer::Done)
    })())
}

/// Takes a flash address apart for the C host: fills the first 56 bytes with seven numbers of 8
/// bytes: domain, block, offset, page, die, plane, ADU number.
pub fn take_apart(config: &Config, word: u64, bytes: &mut [u8]) -> Answer {
    answer((|| {
        ask(config.within_limits(), Question::Limits)?;
        let (domain, block, offset) = config.address_fields(word);
        ask((1..=DOMAINS as u64).contains(&domain), Question::DomainId)?;
        ask(block < config.blocks && offset < config.adus_in_block(), Question::Range)?;
        let filled = bytes.get_mut(..56).ok_or(Question::Output)?;
        let (plane, adu) = (offset / config.adus, offset % config.adus);
        let (die, plane) = (plane / config.planes, plane % config.planes);
        let (page, die) = (die / config.dies, die % config.dies);
        let numbers = [domain, block, offset, page, die, plane, adu];
        for (field, number) in filled.chunks_exact_mut(8).zip(numbers) {
            field.copy_from_slice(&number.to_le_bytes());
        }
        Ok(Answer::Done)
    })())
}
