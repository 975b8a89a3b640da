//! Tables, calls and answers as plain numbers, to cross a C boundary.

#![forbid(unsafe_code)]

use crate::manager::{
    Answer, Block, Command, Config, Domain, Listed, State, Table, Way, BLOCKS, DOMAINS,
};
use crate::recorder::Call;

const CONFIG_WORDS: usize = 7;
const DOMAIN_WORDS: usize = 6;
const BLOCK_WORDS: usize = 7;
const FIRST_BLOCK: usize = CONFIG_WORDS + DOMAIN_WORDS * DOMAINS;

/// The length of a table's row.
pub const TABLE_WORDS: usize = FIRST_BLOCK + BLOCK_WORDS * BLOCKS;
/// The length of the row of a command or of a recorder's call.
pub const COMMAND_WORDS: usize = 6;
/// The number of kinds: twelve of commands, and behind them the recorder's two calls.
pub const KINDS: usize = 14;

/// The kinds' names by their numbers.
pub const KIND_NAMES: [&str; KINDS] = [
    "Create",
    "Change Capacity",
    "Delete",
    "Erase",
    "Close",
    "Free",
    "Write by placement",
    "Write by block",
    "Read",
    "Page",
    "List",
    "Pulse",
    "Append",
    "Latest",
];

pub fn to_row(table: &Table) -> Vec<u64> {
    let mut row = vec![0; TABLE_WORDS];
    fill_row(table, &mut row);
    row
}

/// Fills the first `TABLE_WORDS` words.
pub fn fill_row(table: &Table, row: &mut [u64]) {
    let (head, blocks) = row[..TABLE_WORDS].split_at_mut(FIRST_BLOCK);
    let (config, domains) = head.split_at_mut(CONFIG_WORDS);
    config.copy_from_slice(&config_words(&table.config));
    for (words, domain) in domains.chunks_exact_mut(DOMAIN_WORDS).zip(&table.domains) {
        words.copy_from_slice(&domain_words(domain));
    }
    for (words, block) in blocks.chunks_exact_mut(BLOCK_WORDS).zip(&table.blocks) {
        words.copy_from_slice(&block_words(block));
    }
}

/// The table of a row that `to_row` may have given; panics at any other.
pub fn from_row(row: &[u64]) -> Table {
    assert!(row.len() >= TABLE_WORDS, "a table's row has {TABLE_WORDS} words");
    let mut table = Table::zeros();
    table.config = config_of(&row[..CONFIG_WORDS]);
    let domains = row[CONFIG_WORDS..FIRST_BLOCK].chunks_exact(DOMAIN_WORDS);
    for (domain, words) in table.domains.iter_mut().zip(domains) {
        *domain = domain_of(words);
    }
    let blocks = row[FIRST_BLOCK..TABLE_WORDS].chunks_exact(BLOCK_WORDS);
    for (block, words) in table.blocks.iter_mut().zip(blocks) {
        *block = block_of(words);
    }
    table
}

/// What stands at a place of a table's row.
pub fn word_name(place: usize) -> String {
    const CONFIG: [&str; CONFIG_WORDS] =
        ["pages", "dies", "planes", "adus", "blocks", "rated", "period"];
    const DOMAIN: [&str; DOMAIN_WORDS] =
        ["exists", "reserved", "quota", "placements", "limit", "last"];
    const BLOCK: [&str; BLOCK_WORDS] =
        ["state", "placement", "holder", "written", "left", "erases", "serial"];
    if place < CONFIG_WORDS {
        format!("configuration: {}", CONFIG[place])
    } else if place < FIRST_BLOCK {
        let place = place - CONFIG_WORDS;
        format!("domain {}: {}", place / DOMAIN_WORDS + 1, DOMAIN[place % DOMAIN_WORDS])
    } else {
        let place = place - FIRST_BLOCK;
        format!("block {}: {}", place / BLOCK_WORDS, BLOCK[place % BLOCK_WORDS])
    }
}

pub fn config_words(config: &Config) -> [u64; CONFIG_WORDS] {
    let Config { pages, dies, planes, adus, blocks, rated, period } = *config;
    [pages, dies, planes, adus, blocks, rated, period]
}

fn config_of(words: &[u64]) -> Config {
    Config {
        pages: words[0],
        dies: words[1],
        planes: words[2],
        adus: words[3],
        blocks: words[4],
        rated: words[5],
        period: words[6],
    }
}

fn domain_words(domain: &Domain) -> [u64; DOMAIN_WORDS] {
    let Domain { exists, reserved, quota, placements, limit, last } = *domain;
    [exists.into(), reserved.into(), quota.into(), placements.into(), limit.into(), last.into()]
}

fn domain_of(words: &[u64]) -> Domain {
    Domain {
        exists: match words[0] {
            0 => false,
            1 => true,
            other => panic!("{other} says neither that a domain exists nor that it does not"),
        },
        reserved: narrow(words[1]),
        quota: narrow(words[2]),
        placements: narrow(words[3]),
        limit: narrow(words[4]),
        last: narrow(words[5]),
    }
}

fn block_words(block: &Block) -> [u64; BLOCK_WORDS] {
    let (state, placement) = match block.state {
        State::Free => (0, 0),
        State::Open(Way::Erase) => (1, 0),
        State::Open(Way::Placement(placement)) => (2, placement),
        State::Closed(Way::Erase) => (3, 0),
        State::Closed(Way::Placement(placement)) => (4, placement),
    };
    [
        state,
        placement.into(),
        block.holder.into(),
        block.written,
        block.left.into(),
        block.erases.into(),
        block.serial.into(),
    ]
}

fn block_of(words: &[u64]) -> Block {
    let placed = || Way::Placement(narrow(words[1]));
    Block {
        state: match words[0] {
            0 => State::Free,
            1 => State::Open(Way::Erase),
            2 => State::Open(placed()),
            3 => State::Closed(Way::Erase),
            4 => State::Closed(placed()),
            other => panic!("no state of a block has the number {other}"),
        },
        holder: narrow(words[2]),
        written: words[3],
        left: narrow(words[4]),
        erases: narrow(words[5]),
        serial: narrow(words[6]),
    }
}

fn narrow<T: TryFrom<u64>>(word: u64) -> T {
    T::try_from(word).unwrap_or_else(|_| panic!("{word} is too large for its field"))
}

/// Kind and arguments.
pub fn call_words(call: &Call) -> [u64; COMMAND_WORDS] {
    match *call {
        Call::Command(command) => command_words(command),
        Call::Append { domain, sample } => [12, domain, sample, 0, 0, 0],
        Call::Latest { domain, count } => [13, domain, count, 0, 0, 0],
    }
}

fn command_words(command: Command) -> [u64; COMMAND_WORDS] {
    match command {
        Command::Create { domain, guarantee, quota, placements, limit } => {
            [0, domain, guarantee, quota, placements, limit]
        }
        Command::ChangeCapacity { domain, guarantee, quota } => [1, domain, guarantee, quota, 0, 0],
        Command::Delete { domain } => [2, domain, 0, 0, 0, 0],
        Command::Erase { domain, block } => [3, domain, block, 0, 0, 0],
        Command::Close { domain, block } => [4, domain, block, 0, 0, 0],
        Command::Free { domain, block } => [5, domain, block, 0, 0, 0],
        Command::WriteByPlacement { domain, placement, start, count } => {
            [6, domain, placement, start, count, 0]
        }
        Command::WriteByBlock { domain, block, start, count } => {
            [7, domain, block, start, count, 0]
        }
        Command::Read { domain, address, count, expected } => {
            [8, domain, address, count, expected, 0]
        }
        Command::Page { domain, block } => [9, domain, block, 0, 0, 0],
        Command::List { domain, listed } => {
            [10, domain, u64::from(listed == Listed::Closed), 0, 0, 0]
        }
        Command::Pulse { seconds } => [11, seconds, 0, 0, 0, 0],
    }
}

/// The call of a row that `call_words` may have given; none of any other.
pub fn call_of(words: &[u64; COMMAND_WORDS]) -> Option<Call> {
    let [kind, a, b, ..] = *words;
    match kind {
        12 => Some(Call::Append { domain: a, sample: b }),
        13 => Some(Call::Latest { domain: a, count: b }),
        _ => command_of(words).map(Call::Command),
    }
}

fn command_of(words: &[u64; COMMAND_WORDS]) -> Option<Command> {
    let [kind, a, b, c, d, e] = *words;
    Some(match kind {
        0 => Command::Create { domain: a, guarantee: b, quota: c, placements: d, limit: e },
        1 => Command::ChangeCapacity { domain: a, guarantee: b, quota: c },
        2 => Command::Delete { domain: a },
        3 => Command::Erase { domain: a, block: b },
        4 => Command::Close { domain: a, block: b },
        5 => Command::Free { domain: a, block: b },
        6 => Command::WriteByPlacement { domain: a, placement: b, start: c, count: d },
        7 => Command::WriteByBlock { domain: a, block: b, start: c, count: d },
        8 => Command::Read { domain: a, address: b, count: c, expected: d },
        9 => Command::Page { domain: a, block: b },
        10 => Command::List {
            domain: a,
            listed: match b {
                0 => Listed::Open,
                1 => Listed::Closed,
                _ => return None,
            },
        },
        11 => Command::Pulse { seconds: a },
        _ => return None,
    })
}

/// 0 for success, a refusal's number, 256 and the number of a block.
pub fn answer_number(answer: Answer) -> u64 {
    match answer {
        Answer::Done => 0,
        Answer::Block(number) => 256 + number,
        Answer::Refused(number) => number.into(),
    }
}

#[cfg(test)]
mod tests {
    use super::*;

    fn mixed_table() -> Table {
        let config =
            Config { pages: 128, dies: 3, planes: 2, adus: 4, blocks: 8, rated: 9, period: 60 };
        let mut table = Table::start(config).1;
        for (i, domain) in table.domains.iter_mut().enumerate() {
            let i = i as u32;
            *domain = Domain {
                exists: i.is_multiple_of(2),
                reserved: i,
                quota: u32::MAX - i,
                placements: 255 - i as u8,
                limit: 256 + i,
                last: 1 << i,
            };
        }
        let states = [
            State::Free,
            State::Open(Way::Erase),
            State::Open(Way::Placement(7)),
            State::Closed(Way::Erase),
            State::Closed(Way::Placement(255)),
        ];
        for (n, block) in table.blocks.iter_mut().enumerate() {
            *block = Block {
                state: states[n % 5],
                holder: n as u8,
                written: u64::MAX - n as u64,
                left: 3 * n as u32,
                erases: u32::MAX - n as u32,
                serial: 5 * n as u32,
            };
        }
        table
    }

    #[test]
    fn a_row_has_the_fields_at_their_places() {
        let row = to_row(&mixed_table());
        assert_eq!(row.len(), 1895);
        assert_eq!(row[..7], [128, 3, 2, 4, 8, 9, 60]);
        assert_eq!(row[7 + 6 * 2..][..6], [1, 2, u64::from(u32::MAX) - 2, 253, 258, 4]);
        assert_eq!(row[103..][..7], [0, 0, 0, u64::MAX, 0, u32::MAX.into(), 0]);
        let erases = u64::from(u32::MAX) - 254;
        assert_eq!(row[103 + 7 * 254..][..7], [4, 255, 254, u64::MAX - 254, 762, erases, 1270]);
        let states: Vec<u64> = row[103..].chunks(7).map(|block| block[0]).take(5).collect();
        assert_eq!(states, [0, 1, 2, 3, 4]);
    }

    #[test]
    fn a_row_gives_its_table_back() {
        let table = mixed_table();
        assert_eq!(from_row(&to_row(&table)), table);
    }

    #[test]
    fn every_word_has_a_name() {
        assert_eq!(word_name(6), "configuration: period");
        assert_eq!(word_name(7), "domain 1: exists");
        assert_eq!(word_name(102), "domain 16: last");
        assert_eq!(word_name(103), "block 0: state");
        assert_eq!(word_name(TABLE_WORDS - 1), "block 255: serial");
    }

    #[test]
    fn calls_come_back() {
        for kind in 0..KINDS as u64 {
            let second = if kind == 10 { 1 } else { 12 };
            let call = call_of(&[kind, 11, second, 13, 14, 15]).unwrap();
            let words = call_words(&call);
            assert_eq!(words[0], kind);
            assert_eq!(call_of(&words), Some(call));
        }
        assert_eq!(call_of(&[KINDS as u64, 0, 0, 0, 0, 0]), None);
        assert_eq!(call_of(&[10, 1, 2, 0, 0, 0]), None);
        let read = Command::Read { domain: 1, address: 2, count: 3, expected: 4 };
        assert_eq!(call_words(&read.into()), [8, 1, 2, 3, 4, 0]);
        let write = Command::WriteByPlacement { domain: 1, placement: 2, start: 3, count: 4 };
        assert_eq!(call_words(&write.into()), [6, 1, 2, 3, 4, 0]);
        assert_eq!(call_words(&Call::Append { domain: 1, sample: 2 }), [12, 1, 2, 0, 0, 0]);
        assert_eq!(call_words(&Call::Latest { domain: 1, count: 2 }), [13, 1, 2, 0, 0, 0]);
    }

    #[test]
    fn answers_have_numbers() {
        assert_eq!(answer_number(Answer::Done), 0);
        assert_eq!(answer_number(Answer::Refused(16)), 16);
        assert_eq!(answer_number(Answer::Block(255)), 511);
    }
}
