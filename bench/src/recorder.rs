//! The recorder, read from Wish 1 of document 02: appends samples to a domain and reads the latest.
//!
//! The domain has one placement, and its quota is what it has reserved, 2 blocks at least. Its
//! oldest Closed block is freed for a sample that would pass the quota.

#![forbid(unsafe_code)]

use crate::manager::{
    answer, ask, ask_count, ask_words, Answer, Census, Command, Domain, Place, Question, Served,
    Table, BLOCKS,
};

/// The only placement ID of a recorder's domain.
const PLACEMENT: u64 = 0;
const LEAST_QUOTA: u32 = 2;

/// What a drive is asked: a command of the manager's, or one of the recorder's calls.
#[derive(Clone, Copy, PartialEq, Eq, Debug)]
pub enum Call {
    Command(Command),
    Append { domain: u64, sample: u64 },
    Latest { domain: u64, count: u64 },
}

impl From<Command> for Call {
    fn from(command: Command) -> Call {
        Call::Command(command)
    }
}

/// Answers every input, as `Table::serve` does: at a refusal table, store and outputs stay.
pub fn serve(
    table: &mut Table,
    call: Call,
    store: &mut [u64],
    words: &mut [u64],
    bytes: &mut [u8],
) -> Answer {
    match call {
        Call::Command(command) => table.serve(command, store, words, bytes),
        Call::Append { domain, sample } => append(table, domain, sample, store, words),
        Call::Latest { domain, count } => latest(table, domain, count, store, words),
    }
}

/// Writes a sample, one user address; the first word gets its flash address.
pub fn append(
    table: &mut Table,
    domain: u64,
    sample: u64,
    store: &mut [u64],
    words: &mut [u64],
) -> Answer {
    match table.census(Some(Place { domain, placement: PLACEMENT })) {
        Some(census) => answer(write(table, census, domain, sample, store, words)),
        None => Answer::Refused(Question::Sound as u8),
    }
}

/// The questions behind the second are those of a Write by placement, with the shape in the sixth.
fn write(
    table: &mut Table,
    mut census: Census,
    domain: u64,
    sample: u64,
    store: &mut [u64],
    words: &mut [u64],
) -> Served {
    table.ask_store(store)?;
    let index = table.ask_domain(domain)?;
    ask_shape(&table.domains[index])?;
    let served = table.write_by_placement(&census, domain, PLACEMENT, sample, 1, store, words);
    if served != Err(Question::Quota) {
        return served;
    }
    let oldest = oldest_closed(table, domain).ok_or(Question::Quota)?;
    table.blocks[oldest].free();
    census.closed_one_is_freed(index);
    // Now the quota has room, and what the other questions look at has not changed.
    table.write_by_placement(&census, domain, PLACEMENT, sample, 1, store, words)
}

/// Fills the first `count` words with the last samples kept, the oldest first. Kept are the
/// domain's written ADUs, by rising serial, then offset.
pub fn latest(table: &Table, domain: u64, count: u64, store: &[u64], words: &mut [u64]) -> Answer {
    match table.census(None) {
        // As many places as there may be blocks; a small drive is spared the many.
        Some(_) if table.config.blocks <= 32 => {
            answer(read::<32>(table, domain, count, store, words))
        }
        Some(_) => answer(read::<BLOCKS>(table, domain, count, store, words)),
        None => Answer::Refused(Question::Sound as u8),
    }
}

/// The questions behind the second, and the copying, on a drive of N blocks at most.
fn read<const N: usize>(
    table: &Table,
    domain: u64,
    count: u64,
    store: &[u64],
    words: &mut [u64],
) -> Served {
    table.ask_store(store)?;
    let index = table.ask_domain(domain)?;
    ask_shape(&table.domains[index])?;
    let count = ask_count(count)?;
    let words = ask_words(words, count)?;
    // The serial and, below it, the number of each block of the domain.
    let mut held = [0; N];
    let (mut blocks, mut kept) = (0, 0);
    for (number, block) in table.present().iter().enumerate() {
        if u64::from(block.holder) == domain {
            held[blocks] = u64::from(block.serial) << 32 | number as u64;
            blocks += 1;
            kept += block.written;
        }
    }
    ask(count as u64 <= kept, Question::Fit)?;
    let held = &mut held[..blocks];
    held.sort_unstable();
    // From the newest block back, until the words are full.
    let capacity = table.config.adus_in_block() as usize;
    let mut rest = words;
    for number in held.iter().rev().map(|&rank| rank as u32 as usize) {
        let samples = &store[number * capacity..][..table.blocks[number].written as usize];
        let taken = samples.len().min(rest.len());
        let (older, filled) = rest.split_at_mut(rest.len() - taken);
        filled.copy_from_slice(&samples[samples.len() - taken..]);
        if older.is_empty() {
            break;
        }
        rest = older;
    }
    Ok(Answer::Done)
}

/// The part of question 6 that is about the domain.
fn ask_shape(domain: &Domain) -> Result<(), Question> {
    let Domain { reserved, quota, placements, .. } = *domain;
    ask(placements == 1 && reserved == quota && quota >= LEAST_QUOTA, Question::Range)
}

/// The domain's Closed block with the least serial.
fn oldest_closed(table: &Table, domain: u64) -> Option<usize> {
    let blocks = table.present().iter().enumerate();
    let closed =
        blocks.filter(|(_, block)| u64::from(block.holder) == domain && block.state.is_closed());
    closed.min_by_key(|(_, block)| block.serial).map(|(number, _)| number)
}
