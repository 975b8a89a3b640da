//! Measures the proved library against the manager in Rust, command by command.
//!
//! timing [--row NAME] [--blocks S] [--list]
//!
//! Every row is a list of commands that can be repeated for ever on the drive that it begins with.
//! Both sides run it on equal copies, in turns; after each turn their answers' checksums, tables,
//! stores and outputs must agree. Exit status: 0, 1 at a difference, 2 if the library is missing or
//! the arguments are not as above.

#![forbid(unsafe_code)]
#![cfg_attr(not(trial), allow(dead_code))]

use bench::flat::{answer_number, call_of, call_words, fill_row, from_row, to_row, COMMAND_WORDS};
use bench::manager::{
    Answer, Block, Command, Config, Listed, State, Table, Way, ALL_ONES, ANY_BLOCK,
};
use bench::recorder::{self, Call};
use std::hint::black_box;
use std::process::ExitCode;
use std::time::{Duration, Instant};

const DRIVES: [u64; 4] = [8, 32, 128, 256];
const TURNS: usize = 15;
/// The quicker side is to take so long for a turn, unless the slower one took too long.
const TURN: Duration = Duration::from_millis(10);
const LONGEST_TURN: Duration = Duration::from_millis(40);
/// A turn of one and of the other side before the rounds are known.
const FIRST_ROUNDS: u64 = 2_000;

const DOMAINS: u64 = 8;
/// The domain that most rows are about; it holds block 0, which is full and Closed.
const OWN: u64 = 1;
/// The domain that has blocks reserved, and the recorder's domain where there is one.
const RESERVED: u64 = DOMAINS;
/// A domain that does not exist.
const NEW: u64 = 9;
const PLACEMENTS: u64 = 8;
/// A placement that has no open block.
const IDLE: u64 = 7;
/// The P/E count of all Free blocks but one, which is therefore chosen again and again.
const WORN: u32 = 100_000_000;

#[cfg(not(trial))]
fn main() -> ExitCode {
    eprintln!("timing: built without the library: set TRIAL_LIB to the folder of libtrial.a");
    ExitCode::from(2)
}

#[cfg(trial)]
fn main() -> ExitCode {
    let arguments: Vec<String> = std::env::args().skip(1).collect();
    let Some(choice) = Choice::read(&arguments) else {
        eprintln!("timing [--row NAME] [--blocks S] [--list]");
        return ExitCode::from(2);
    };
    let rows = all_rows();
    let rows: Vec<Row> = rows.into_iter().filter(|row| choice.takes(row)).collect();
    if rows.is_empty() {
        eprintln!("timing: no such row; --list tells them all");
        return ExitCode::from(2);
    }
    if choice.list {
        for row in &rows {
            println!("{:5} {}", row.blocks(), row.name);
        }
        return ExitCode::SUCCESS;
    }
    match measure_all(&mut Library, &rows, TURNS) {
        Ok(times) => {
            print_growth(&rows, &times);
            print_appends(&rows, &times);
            print_strides(&rows, &times);
            print_lists(&rows, &times);
            ExitCode::SUCCESS
        }
        Err(difference) => {
            println!("{difference}");
            ExitCode::from(1)
        }
    }
}

/// Which rows are measured.
#[derive(Default, PartialEq, Debug)]
struct Choice {
    row: Option<String>,
    blocks: Option<u64>,
    list: bool,
}

impl Choice {
    fn read(arguments: &[String]) -> Option<Choice> {
        let mut choice = Choice::default();
        let mut arguments = arguments.iter();
        while let Some(argument) = arguments.next() {
            match argument.as_str() {
                "--row" => choice.row = Some(arguments.next()?.clone()),
                "--blocks" => choice.blocks = Some(arguments.next()?.parse().ok()?),
                "--list" => choice.list = true,
                _ => return None,
            }
        }
        Some(choice)
    }

    fn takes(&self, row: &Row) -> bool {
        self.row.as_ref().is_none_or(|name| *name == row.name)
            && self.blocks.is_none_or(|blocks| blocks == row.blocks())
    }
}

/// What a side works on.
#[derive(Clone, PartialEq)]
struct Drive {
    table: Vec<u64>,
    store: Vec<u64>,
    words: Vec<u64>,
    bytes: Vec<u8>,
}

/// A side: serves so many commands, the list over and over, and gives the checksum of the answers.
trait Side {
    fn run(&mut self, rounds: u64, commands: &[u64], drive: &mut Drive) -> u64;
}

#[cfg(trial)]
struct Library;

#[cfg(trial)]
impl Side for Library {
    fn run(&mut self, rounds: u64, commands: &[u64], drive: &mut Drive) -> u64 {
        let Drive { table, store, words, bytes } = drive;
        bench::rattle::run(rounds, commands, table, store, words, bytes)
    }
}

struct Manager;

impl Side for Manager {
    #[inline(never)]
    fn run(&mut self, rounds: u64, commands: &[u64], drive: &mut Drive) -> u64 {
        let Drive { table: row, store, words, bytes } = drive;
        let mut table = from_row(row);
        let commands = commands.as_chunks::<COMMAND_WORDS>().0;
        let (mut next, mut sum) = (0, 0);
        for _ in 0..rounds {
            let call = call_of(black_box(&commands[next])).expect("a command");
            let answer = recorder::serve(&mut table, call, store, words, bytes);
            sum = (sum * 31 + answer_number(black_box(answer))) % (1 << 32);
            next += 1;
            if next == commands.len() {
                next = 0;
            }
        }
        fill_row(&table, row);
        sum
    }
}

/// A list of commands to measure, and the drive that it begins with.
struct Row {
    name: String,
    drive: Drive,
    commands: Vec<u64>,
    /// The refusal that all commands meet, if they are to be refused.
    refusal: Option<u8>,
}

impl Row {
    fn blocks(&self) -> u64 {
        self.drive.table[4]
    }

    /// Are all answers of the first rounds as they should be, of two lists at least?
    fn is_as_said(&self) -> bool {
        let mut drive = self.drive.clone();
        let mut table = from_row(&drive.table);
        let commands = self.commands.as_chunks::<COMMAND_WORDS>().0;
        (0..2).all(|_| {
            commands.iter().all(|words| {
                let call = call_of(words).expect("a command");
                let Drive { store, words, bytes, .. } = &mut drive;
                match recorder::serve(&mut table, call, store, words, bytes) {
                    Answer::Refused(number) => self.refusal == Some(number),
                    _ => self.refusal.is_none(),
                }
            })
        })
    }
}

// Drives and rows.

/// A drive with 8 domains and blocks in all states, made by commands, and with some age planted.
#[derive(Clone)]
struct Busy {
    table: Table,
    store: Vec<u64>,
    words: Vec<u64>,
    bytes: Vec<u8>,
}

impl Busy {
    fn new(config: Config) -> Busy {
        let mut busy = Busy::unused(config);
        for domain in 1..DOMAINS {
            busy.create(domain, 0);
        }
        busy.fill_blocks();
        // The last domain has an eighth of the drive reserved, and holds nothing.
        busy.create(RESERVED, config.blocks / 8 * config.planes_in_block());
        busy.age();
        assert!(busy.table.is_sound());
        busy
    }

    fn serve(&mut self, call: impl Into<Call>) -> Answer {
        let call = call.into();
        let Busy { table, store, words, bytes } = self;
        let answer = recorder::serve(table, call, store, words, bytes);
        assert!(!matches!(answer, Answer::Refused(_)), "{call:?}: {answer:?}");
        answer
    }

    /// A domain that may hold the whole drive.
    fn create(&mut self, domain: u64, guarantee: u64) {
        let config = self.table.config;
        let quota = config.blocks * config.planes_in_block();
        let (placements, limit) = (PLACEMENTS, 256);
        self.serve(Command::Create { domain, guarantee, quota, placements, limit });
    }

    /// Of each 8 blocks 4 get Closed, 2 Open and 2 Free again, each pair in both ways.
    fn fill_blocks(&mut self) {
        let blocks = self.table.config.blocks;
        for number in 0..blocks {
            let group = number / 8;
            let domain = |shift| (group + shift) % (DOMAINS - 1) + 1;
            match number % 8 {
                0 => self.erase_and_write(domain(0), number, None),
                1 => self.write(domain(0), 0, None),
                2 => {
                    self.erase_and_write(domain(1), number, Some(40));
                    self.serve(Command::Close { domain: domain(1), block: number });
                }
                3 => self.erase_and_write(domain(2), number, Some(50)),
                4 => self.write(domain(0), 1 + group / (DOMAINS - 1), Some(60)),
                5 => {
                    self.write(domain(4), 0, Some(70));
                    self.serve(Command::Close { domain: domain(4), block: number });
                }
                _ => self.erase_and_write(domain(5), number, Some(10)),
            }
            assert!(self.table.blocks[number as usize].state != State::Free);
        }
        for number in (0..blocks).filter(|number| number % 8 >= 6) {
            let domain = self.table.blocks[number as usize].holder.into();
            self.serve(Command::Free { domain, block: number });
        }
    }

    fn erase_and_write(&mut self, domain: u64, block: u64, count: Option<u64>) {
        self.serve(Command::Erase { domain, block });
        let mut left = count.unwrap_or(self.table.config.adus_in_block());
        while left > 0 {
            let count = left.min(256);
            let start = block << 20 | left;
            self.serve(Command::WriteByBlock { domain, block, start, count });
            left -= count;
        }
    }

    fn write(&mut self, domain: u64, placement: u64, count: Option<u64>) {
        let mut left = count.unwrap_or(self.table.config.adus_in_block());
        while left > 0 {
            let count = left.min(256);
            self.serve(Command::WriteByPlacement { domain, placement, start: left << 20, count });
            left -= count;
        }
    }

    /// Serials with gaps, and P/E counts that differ; only the last block has been erased seldom.
    fn age(&mut self) {
        let blocks = self.table.config.blocks as usize;
        for block in &mut self.table.blocks[..blocks] {
            block.serial *= 37;
            block.erases = WORN + block.serial * 7 % 100;
        }
        self.table.blocks[blocks - 1].erases = 0;
        for domain in &mut self.table.domains {
            domain.last *= 37;
        }
    }

    /// The Free block that is chosen.
    fn chosen(&self) -> u64 {
        self.table.config.blocks - 1
    }

    fn row<C: Copy + Into<Call>>(&self, name: &str, commands: &[C]) -> Row {
        Row {
            name: name.into(),
            drive: Drive {
                table: to_row(&self.table),
                store: self.store.clone(),
                words: self.words.clone(),
                bytes: self.bytes.clone(),
            },
            commands: commands.iter().flat_map(|&command| call_words(&command.into())).collect(),
            refusal: None,
        }
    }

    fn refused(&self, name: &str, refusal: u8, commands: &[Command]) -> Row {
        Row { refusal: Some(refusal), ..self.row(name, commands) }
    }
}

fn shape(blocks: u64, dies: u64, adus: u64) -> Config {
    Config { pages: 128, dies, planes: 1, adus, blocks, rated: 3_000, period: 65_535 }
}

fn all_rows() -> Vec<Row> {
    let mut rows: Vec<Row> =
        DRIVES.iter().flat_map(|&blocks| kinds(&Busy::new(shape(blocks, 1, 1)))).collect();
    rows.extend(transfers(&Busy::new(shape(8, 1, 8))));
    for (dies, adus) in [(1, 1), (8, 1), (8, 8)] {
        let busy = Busy::new(shape(8, dies, adus));
        let name = format!("Erase + Close, C {}", busy.table.config.adus_in_block());
        rows.push(busy.row(&name, &erase_and_close()));
    }
    rows.extend(DRIVES.iter().flat_map(|&blocks| recordings(&Busy::new(shape(blocks, 1, 1)))));
    rows.extend(DRIVES.iter().flat_map(|&blocks| other_tables(shape(blocks, 1, 1))));
    rows.extend(DRIVES.iter().flat_map(|&blocks| strides(shape(blocks, 1, 1))));
    rows.extend(lists());
    for row in &rows {
        assert!(row.is_as_said(), "{} at S {} goes otherwise", row.name, row.blocks());
    }
    rows
}

fn erase_and_close() -> [Command; 2] {
    [Command::Erase { domain: OWN, block: 0 }, Command::Close { domain: OWN, block: 0 }]
}

/// The rows that are measured at each S.
fn kinds(busy: &Busy) -> Vec<Row> {
    let config = busy.table.config;
    let planes = config.blocks * config.planes_in_block();
    let chosen = busy.chosen();
    let create = Command::Create {
        domain: NEW,
        guarantee: config.planes_in_block(),
        quota: 0,
        placements: 2,
        limit: 3,
    };
    let too_much =
        Command::Create { domain: NEW, guarantee: planes, quota: 0, placements: 2, limit: 3 };
    let delete = Command::Delete { domain: NEW };
    let erase_any = |domain| Command::Erase { domain, block: ANY_BLOCK };
    let free = Command::Free { domain: OWN, block: chosen };
    let change = |quota| Command::ChangeCapacity { domain: OWN, guarantee: 0, quota };
    let reads: Vec<Command> = (0..8).map(|i| busy.read(i * 16, 1)).collect();
    let mismatch = Command::Read {
        domain: OWN,
        address: config.flash_address(OWN, 0, 0),
        count: 1,
        expected: busy.store[0] ^ 1,
    };
    let list = |listed| Command::List { domain: OWN, listed };
    let pulse = |seconds| Command::Pulse { seconds };
    let mut pulses = vec![pulse(0); 15];
    pulses.push(pulse(1));
    vec![
        busy.row("Create + Delete", &[create, delete]),
        busy.row("Create + Erase any + Delete", &[create, erase_any(NEW), delete]),
        busy.row("Change Capacity", &[change(planes), change(planes / 2)]),
        busy.row("Erase + Close", &erase_and_close()),
        busy.row("Erase any + Free", &[erase_any(OWN), free]),
        busy.row("Erase + Free", &[Command::Erase { domain: OWN, block: chosen }, free]),
        busy.row(CLOSE, &[Command::Close { domain: OWN, block: 0 }]),
        busy.row("Write 1 by placement, 128 times, + Free", &busy.writes(1)),
        busy.row("Erase + Write 1 by block, 128 times", &busy.writes_by_block()),
        busy.row("Read 1", &reads),
        busy.row("Page", &[0, 1].map(|block| Command::Page { domain: OWN, block })),
        busy.row("List open", &[list(Listed::Open)]),
        busy.row("List closed", &[list(Listed::Closed)]),
        busy.row("Pulse 0", &[pulse(0)]),
        busy.row("Pulse 0, each 16th 1", &pulses),
        busy.refused("Close, refused 9", 9, &[Command::Close { domain: OWN + 1, block: 0 }]),
        busy.refused("Create, refused 14", 14, &[too_much]),
        busy.refused("Read 1, refused 16", 16, &[mismatch]),
    ]
}

/// Writes and reads of several numbers of ADUs, with C 1,024.
fn transfers(busy: &Busy) -> Vec<Row> {
    let counts = [1, 16, 64, 256];
    let write = |count| {
        busy.row(&format!("Write {count} by placement, + Free, C 1024"), &busy.writes(count))
    };
    let read = |count| busy.row(&format!("Read {count}, C 1024"), &[busy.read(100, count)]);
    let read_any = |count| {
        let Command::Read { domain, address, count, .. } = busy.read(100, count) else {
            unreachable!()
        };
        let any = Command::Read { domain, address, count, expected: ALL_ONES };
        busy.row(&format!("Read {count} expecting all ones, C 1024"), &[any])
    };
    counts.map(write).into_iter().chain(counts.map(read)).chain(counts.map(read_any)).collect()
}

const WRITE_TO_EMPTY: &str = "Write 1, 128 times, + Free, none recorded";
const WRITE_TO_FULL: &str = "Free + Write 1, 128 times, all recorded";
const CLOSE_IN_FULL: &str = "Close, Closed already, all recorded";
const APPEND: &str = "Append, none freed, 128 times, + Free";
const APPEND_THAT_FREES: &str = "Append that frees + Close";

/// The rows of the recorder at each S, and of commands on the same drives to hold them against:
/// in one nothing is recorded yet, in the other every block of the quota is full.
fn recordings(busy: &Busy) -> Vec<Row> {
    let empty = busy.with_recorder();
    let full = empty.recorded();
    let append = |i| Call::Append { domain: RESERVED, sample: i << 20 };
    let write = |i| {
        let start = i << 20;
        Command::WriteByPlacement { domain: RESERVED, placement: 0, start, count: 1 }.into()
    };
    let latest =
        |count| full.row(&format!("Latest {count}"), &[Call::Latest { domain: RESERVED, count }]);
    vec![
        empty.row(WRITE_TO_EMPTY, &empty.filled_by(write)),
        full.row(WRITE_TO_FULL, &full.refilled_by(write)),
        full.row(CLOSE_IN_FULL, &[Command::Close { domain: RESERVED, block: full.oldest() }]),
        empty.row(APPEND, &empty.filled_by(append)),
        full.row(APPEND_THAT_FREES, &full.appends_that_free()),
        latest(1),
        latest(16),
        latest(256),
    ]
}

/// A few kinds of command on a drive as after long use, and on one that is nearly empty.
fn other_tables(config: Config) -> Vec<Row> {
    let drives =
        [("long used", Busy::long_used(config)), ("nearly empty", Busy::nearly_empty(config))];
    let rows = |(drive, busy): &(&str, Busy)| {
        let named = |kind: &str| format!("{kind}, {drive}");
        let list = Command::List { domain: OWN, listed: Listed::Closed };
        let (freed, writes) = busy.refilled();
        vec![
            busy.row(&named(CLOSE), &[Command::Close { domain: OWN, block: 0 }]),
            freed.row(&named("Write 1 by placement"), &writes),
            busy.row(&named("Erase + Write 1 by block"), &busy.writes_by_block()),
            busy.row(&named("List closed"), &[list]),
            busy.row(&named("Pulse 0"), &[Command::Pulse { seconds: 0 }]),
        ]
    };
    drives.iter().flat_map(rows).collect()
}

const CLOSE: &str = "Close, Closed already";
const STRIDES: [u32; 5] = [1, 256, 1_023, 1_024, 65_536];

fn close_at_stride(stride: u32) -> String {
    format!("{CLOSE}, serials {stride} apart")
}

/// The same command on drives where one domain holds most blocks, and their serials lie so far apart.
fn strides(config: Config) -> Vec<Row> {
    let close = Command::Close { domain: OWN, block: 0 };
    STRIDES
        .map(|stride| Busy::spread(config, stride).row(&close_at_stride(stride), &[close]))
        .into()
}

/// What is listed, and the name by which its rows begin.
const LISTS: [(Listed, &str); 2] = [(Listed::Open, "List open"), (Listed::Closed, "List closed")];
/// So many blocks are listed, of a drive of 256.
const LENGTHS: [u64; 4] = [1, 16, 64, 256];

fn list_of(name: &str, length: u64) -> String {
    format!("{name}, {length} of 256 listed")
}

/// Lists of several lengths, on a full drive whose serials are as after long use.
fn lists() -> Vec<Row> {
    let config = shape(256, 1, 1);
    let row = |listed, name, length| {
        let list = Command::List { domain: OWN, listed };
        Busy::full(config, listed, length).row(&list_of(name, length), &[list])
    };
    LISTS
        .iter()
        .flat_map(|&(listed, name)| LENGTHS.map(|length| row(listed, name, length)))
        .collect()
}

/// Another number of 32 bits for each, and 0 for 0 alone: the last step of Murmur's hash.
fn scattered(number: u32) -> u32 {
    let mut word = number;
    word = (word ^ word >> 16).wrapping_mul(0x85EB_CA6B);
    word = (word ^ word >> 13).wrapping_mul(0xC2B2_AE35);
    word ^ word >> 16
}

// Drives in other states.
impl Busy {
    fn unused(config: Config) -> Busy {
        let (answer, table) = Table::start(config);
        assert_eq!(answer, Answer::Done);
        let store = vec![0; config.store_entries() as usize];
        Busy { table, store, words: vec![0; 256], bytes: vec![0; 8 * 257] }
    }

    /// Seven of eight blocks are full and Closed, and one domain's.
    fn spread(config: Config, stride: u32) -> Busy {
        let mut busy = Busy::unused(config);
        busy.create(OWN, 0);
        for number in 0..config.blocks / 8 * 7 {
            busy.erase_and_write(OWN, number, None);
        }
        for block in &mut busy.table.blocks {
            block.serial *= stride;
        }
        busy.table.domains[OWN as usize - 1].last *= stride;
        assert!(busy.table.is_sound());
        busy
    }

    /// Domain 1 holds a block that is full and Closed and one that is open; all others are Free.
    fn nearly_empty(config: Config) -> Busy {
        let mut busy = Busy::unused(config);
        busy.create(OWN, 0);
        busy.create(RESERVED, config.planes_in_block());
        busy.erase_and_write(OWN, 0, None);
        busy.write(OWN, 0, Some(60));
        busy.age();
        assert!(busy.table.is_sound());
        busy
    }

    /// Up to 15 domains hold seven of eight blocks in turns: the first half of them Closed, and one open at every
    /// placement. Serials lie anywhere below 8,192.
    fn long_used(config: Config) -> Busy {
        let mut busy = Busy::unused(config);
        let domains = (config.blocks * 7 / 16).min(15);
        let each = config.blocks * 7 / 8 / domains;
        let placements = each.div_ceil(2);
        let quota = config.blocks * config.planes_in_block();
        for domain in 1..=domains {
            busy.serve(Command::Create { domain, guarantee: 0, quota, placements, limit: 256 });
        }
        for number in 0..domains * each {
            let (turn, domain) = (number / domains, number % domains + 1);
            match turn.checked_sub(each - placements) {
                None => busy.erase_and_write(domain, number, None),
                Some(placement) => busy.write(domain, placement, Some(60)),
            }
        }
        for block in &mut busy.table.blocks {
            if block.state != State::Free {
                block.serial = (block.serial * 2_741 + u32::from(block.holder) * 977) % 8_191 + 1;
                block.erases = WORN + block.serial % 100;
            }
        }
        for domain in &mut busy.table.domains[..domains as usize] {
            domain.last = 8_192;
        }
        assert!(busy.table.is_sound());
        busy
    }

    /// Every block is held: so many by domain 1, all of them open or all Closed, and the others by
    /// the other domains, open and Closed, in both ways. Neither its holder nor its serial follows
    /// from where a block's number stands among the others.
    fn full(config: Config, listed: Listed, length: u64) -> Busy {
        let mut busy = Busy::unused(config);
        for domain in 1..=DOMAINS {
            busy.create(domain, 0);
        }
        let mut numbers: Vec<u64> = (0..config.blocks).collect();
        numbers.sort_by_key(|&number| scattered(number as u32 + 1_000));
        let mut owns = vec![false; config.blocks as usize];
        for &number in &numbers[..length as usize] {
            owns[number as usize] = true;
        }
        // The blocks that each domain has got.
        let mut turns = [0; DOMAINS as usize];
        for number in 0..config.blocks {
            let domain = if owns[number as usize] { OWN } else { number % (DOMAINS - 1) + OWN + 1 };
            let turn = &mut turns[domain as usize - 1];
            let open = if domain == OWN { listed == Listed::Open } else { *turn % 4 == 0 };
            match (open, *turn) {
                // An open block at each placement, the others by Erase.
                (true, placement @ 0..PLACEMENTS) => busy.write(domain, placement, Some(60)),
                (true, _) => busy.erase_and_write(domain, number, Some(50)),
                (false, turn) if turn % 2 == 0 => busy.erase_and_write(domain, number, None),
                (false, _) => busy.write(domain, IDLE, None),
            }
            *turn += 1;
            assert_eq!(u64::from(busy.table.blocks[number as usize].holder), domain);
        }
        for (block, number) in busy.table.blocks.iter_mut().zip(1..) {
            block.serial = scattered(number);
            block.erases = block.serial % 4_000;
        }
        for domain in &mut busy.table.domains[..DOMAINS as usize] {
            domain.last = u32::MAX;
        }
        assert!(busy.table.is_sound());
        busy
    }

    /// Writes at placement 0 of domain 1 that open a block, always the same, and fill it; then it is freed. The drive has
    /// that block Free already.
    fn refilled(&self) -> (Busy, Vec<Command>) {
        let mut busy = self.clone();
        let block = busy.open_block();
        let free = Command::Free { domain: OWN, block };
        busy.serve(free);
        for record in &mut busy.table.blocks {
            if record.state == State::Free {
                record.erases = WORN;
            }
        }
        busy.table.blocks[block as usize].erases = 0;
        let write = |i: u64| Command::WriteByPlacement {
            domain: OWN,
            placement: 0,
            start: i << 20,
            count: 1,
        };
        let writes = (0..busy.table.config.adus_in_block()).map(write).chain([free]).collect();
        (busy, writes)
    }

    /// The block that is open at placement 0 of domain 1.
    fn open_block(&self) -> u64 {
        let at = State::Open(Way::Placement(0));
        let is = |block: &Block| u64::from(block.holder) == OWN && block.state == at;
        self.table.blocks.iter().position(is).expect("an open block") as u64
    }
}

// The recorder's domain.
impl Busy {
    /// As many blocks as are Free are reserved for a domain of the recorder's shape.
    fn with_recorder(&self) -> Busy {
        let mut busy = self.clone();
        let config = busy.table.config;
        busy.serve(Command::Delete { domain: RESERVED });
        busy.serve(Command::Create {
            domain: RESERVED,
            guarantee: config.blocks / 4 * config.planes_in_block(),
            quota: 0,
            placements: 1,
            limit: 1,
        });
        busy
    }

    /// Every block of the quota is full; their serials are not in the order of their numbers.
    fn recorded(&self) -> Busy {
        let mut busy = self.clone();
        let record = busy.table.domains[RESERVED as usize - 1];
        for sample in 0..u64::from(record.quota) * busy.table.config.adus_in_block() {
            busy.serve(Call::Append { domain: RESERVED, sample });
        }
        for block in &mut busy.table.blocks {
            if u64::from(block.holder) == RESERVED {
                block.serial = block.serial * 37 % 257;
            }
        }
        busy.table.domains[RESERVED as usize - 1].last = 256;
        assert!(busy.table.is_sound());
        busy
    }

    /// Calls that open the chosen block and fill it; then it is freed, and chosen again.
    fn filled_by(&self, call: impl Fn(u64) -> Call) -> Vec<Call> {
        let free = Command::Free { domain: RESERVED, block: self.chosen() };
        (0..self.table.config.adus_in_block()).map(call).chain([free.into()]).collect()
    }

    /// The recorder's block with the least serial.
    fn oldest(&self) -> u64 {
        let blocks = self.table.blocks.iter().enumerate();
        let its = blocks.filter(|(_, block)| u64::from(block.holder) == RESERVED);
        its.min_by_key(|(_, block)| block.serial).expect("a block").0 as u64
    }

    /// The oldest block is freed, and calls open it again, as it is the only one that is Free, and
    /// fill it. The list goes once through all blocks of the quota.
    fn refilled_by(&self, call: impl Fn(u64) -> Call) -> Vec<Call> {
        let mut busy = self.clone();
        let mut calls = Vec::new();
        for _ in 0..busy.table.domains[RESERVED as usize - 1].quota {
            let free = Command::Free { domain: RESERVED, block: busy.oldest() }.into();
            let filling = (0..busy.table.config.adus_in_block()).map(&call);
            for next in [free].into_iter().chain(filling) {
                busy.serve(next);
                calls.push(next);
            }
        }
        calls
    }

    /// Each append frees the oldest block and opens it again, as it is the only one that is Free;
    /// then it is closed. The list goes once through all blocks of the quota.
    fn appends_that_free(&self) -> Vec<Call> {
        let mut busy = self.clone();
        let mut calls = Vec::new();
        for sample in 0..busy.table.domains[RESERVED as usize - 1].quota.into() {
            let append = Call::Append { domain: RESERVED, sample };
            busy.serve(append);
            let (_, block, _) = busy.table.config.address_fields(busy.words[0]);
            let close = Command::Close { domain: RESERVED, block };
            busy.serve(close);
            calls.extend([append, close.into()]);
        }
        calls
    }
}

impl Busy {
    /// A read of block 0, in which user addresses count up by 256 ADUs at a time.
    fn read(&self, offset: u64, count: u64) -> Command {
        let offset = if offset % 256 + count > 256 { 0 } else { offset };
        Command::Read {
            domain: OWN,
            address: self.table.config.flash_address(OWN, 0, offset),
            count,
            expected: self.store[offset as usize],
        }
    }

    /// Writes that open the chosen block and fill it; then it is freed, and chosen again.
    fn writes(&self, count: u64) -> Vec<Command> {
        let times = self.table.config.adus_in_block() / count;
        let write = |i: u64| Command::WriteByPlacement {
            domain: OWN,
            placement: IDLE,
            start: i << 20,
            count,
        };
        let free = Command::Free { domain: OWN, block: self.chosen() };
        (0..times).map(write).chain([free]).collect()
    }

    /// Block 0 is erased again when it is full.
    fn writes_by_block(&self) -> Vec<Command> {
        let write = |i| Command::WriteByBlock { domain: OWN, block: 0, start: i << 20, count: 1 };
        let erase = Command::Erase { domain: OWN, block: 0 };
        [erase].into_iter().chain((0..self.table.config.adus_in_block()).map(write)).collect()
    }
}

// Measuring.

/// Nanoseconds per command.
#[derive(Clone, Copy)]
struct Times {
    other: f64,
    rust: f64,
}

/// A turn of one side: how long it takes, and the checksum.
fn turn(side: &mut impl Side, rounds: u64, row: &Row, drive: &mut Drive) -> (Duration, u64) {
    drive.clone_from(&row.drive);
    let begin = Instant::now();
    let sum = side.run(rounds, black_box(&row.commands), drive);
    (begin.elapsed(), sum)
}

/// A turn of each side, which must agree.
fn turns(
    other: &mut impl Side,
    rounds: u64,
    row: &Row,
    drives: &mut [Drive; 2],
) -> Result<[Duration; 2], String> {
    let (others, other_sum) = turn(other, rounds, row, &mut drives[0]);
    let (rusts, rust_sum) = turn(&mut Manager, rounds, row, &mut drives[1]);
    let [left, right] = drives;
    let differing = [
        (other_sum != rust_sum, "answers"),
        (left.table != right.table, "tables"),
        (left.store != right.store, "stores"),
        (left.words != right.words || left.bytes != right.bytes, "outputs"),
    ];
    match differing.iter().find(|(differ, _)| *differ) {
        Some((_, what)) => Err(format!("{} at S {}: {what} differ", row.name, row.blocks())),
        None => Ok([others, rusts]),
    }
}

/// So many rounds that a turn takes about as long as it should, of whole lists if they are short.
fn rounds_for(other: &mut impl Side, row: &Row, drives: &mut [Drive; 2]) -> Result<u64, String> {
    let mut shortest = [Duration::MAX; 2];
    for _ in 0..3 {
        let taken = turns(other, FIRST_ROUNDS, row, drives)?;
        shortest = [shortest[0].min(taken[0]), shortest[1].min(taken[1])];
    }
    let each = shortest.map(|taken| taken.as_secs_f64() / FIRST_ROUNDS as f64);
    let wished = TURN.as_secs_f64() / each[0].min(each[1]);
    let allowed = LONGEST_TURN.as_secs_f64() / each[0].max(each[1]);
    let list = (row.commands.len() / COMMAND_WORDS) as u64;
    let rounds = wished.min(allowed) as u64;
    Ok((rounds - rounds % list).max(list))
}

fn measure(other: &mut impl Side, row: &Row, count: usize) -> Result<Times, String> {
    let mut drives = [row.drive.clone(), row.drive.clone()];
    let rounds = rounds_for(other, row, &mut drives)?;
    let mut taken = [Vec::new(), Vec::new()];
    for _ in 0..count {
        let both = turns(other, rounds, row, &mut drives)?;
        taken[0].push(both[0]);
        taken[1].push(both[1]);
    }
    let [other, rust] = taken.map(|taken| median(taken).as_secs_f64() * 1e9 / rounds as f64);
    Ok(Times { other, rust })
}

fn median(mut taken: Vec<Duration>) -> Duration {
    taken.sort();
    taken[taken.len() / 2]
}

fn measure_all(other: &mut impl Side, rows: &[Row], turns: usize) -> Result<Vec<Times>, String> {
    println!("nanoseconds per command, medians of {turns} turns of each side");
    println!("{:42} {:>4} {:>10} {:>10} {:>7}", "", "S", "Rattle", "Rust", "ratio");
    let mut times = Vec::new();
    for row in rows {
        let Times { other, rust } = measure(other, row, turns)?;
        let ratio = other / rust;
        println!("{:42} {:>4} {other:>10.1} {rust:>10.1} {ratio:>7.2}", row.name, row.blocks());
        times.push(Times { other, rust });
    }
    Ok(times)
}

/// How the time grows with S, for the rows that were measured at the least and the most.
fn print_growth(rows: &[Row], times: &[Times]) {
    let (least, most) = (DRIVES[0], DRIVES[DRIVES.len() - 1]);
    let measured = || rows.iter().zip(times);
    let mut headed = false;
    for (row, small) in measured().filter(|(row, _)| row.blocks() == least) {
        let same = |(other, _): &(&Row, &Times)| other.name == row.name && other.blocks() == most;
        let Some((_, large)) = measured().find(same) else {
            continue;
        };
        if !headed {
            println!(
                "\n{:42} {:>10} {:>10}",
                format!("time at S {most} / time at S {least}"),
                "Rattle",
                "Rust"
            );
            headed = true;
        }
        let (others, rusts) = (large.other / small.other, large.rust / small.rust);
        println!("{:42} {others:>10.2} {rusts:>10.2}", row.name);
    }
}

/// What an append costs beside a Write by placement of one ADU on the same drive. An append that
/// frees has a row with a Close, so its time is what is left of both.
fn print_appends(rows: &[Row], times: &[Times]) {
    let mut headed = false;
    for blocks in DRIVES {
        let time = |name: &str| {
            let is = |(row, _): &(&Row, &Times)| row.name == name && row.blocks() == blocks;
            rows.iter().zip(times).find(is).map(|(_, times)| [times.other, times.rust])
        };
        let names = [WRITE_TO_EMPTY, APPEND, WRITE_TO_FULL, APPEND_THAT_FREES, CLOSE_IN_FULL];
        let [Some(write), Some(append), Some(rewrite), Some(pair), Some(close)] = names.map(time)
        else {
            continue;
        };
        if !headed {
            println!(
                "\n{:42} {:>4} {:>10} {:>10}",
                "times a Write of one ADU", "S", "Rattle", "Rust"
            );
            headed = true;
        }
        let ratio = |side: usize| append[side] / write[side];
        println!("{:42} {blocks:>4} {:>10.2} {:>10.2}", "Append, none freed", ratio(0), ratio(1));
        let ratio = |side: usize| (2.0 * pair[side] - close[side]) / rewrite[side];
        println!("{:42} {blocks:>4} {:>10.2} {:>10.2}", "Append that frees", ratio(0), ratio(1));
    }
}

/// What a command costs where serials lie apart, beside the same where they come one after the other.
fn print_strides(rows: &[Row], times: &[Times]) {
    let mut headed = false;
    for blocks in DRIVES {
        let time = |stride: u32| {
            let name = close_at_stride(stride);
            let is = |(row, _): &(&Row, &Times)| row.name == name && row.blocks() == blocks;
            rows.iter().zip(times).find(is).map(|(_, times)| [times.other, times.rust])
        };
        let Some(next) = time(STRIDES[0]) else {
            continue;
        };
        if !headed {
            println!(
                "\n{:42} {:>4} {:>10} {:>10}",
                "times the same with serials 1 apart", "S", "Rattle", "Rust"
            );
            headed = true;
        }
        for stride in &STRIDES[1..] {
            if let Some(apart) = time(*stride) {
                let ratio = |side: usize| apart[side] / next[side];
                println!(
                    "{:42} {blocks:>4} {:>10.2} {:>10.2}",
                    close_at_stride(*stride),
                    ratio(0),
                    ratio(1)
                );
            }
        }
    }
}

/// How the proved library's time stands to that of the manager in Rust, for lists by their length.
fn print_lists(rows: &[Row], times: &[Times]) {
    let mut headed = false;
    for (_, name) in LISTS {
        let ratio = |length: u64| {
            let name = list_of(name, length);
            let measured = rows.iter().zip(times).find(|(row, _)| row.name == name);
            measured.map(|(_, times)| times.other / times.rust)
        };
        let [Some(one), Some(two), Some(three), Some(four)] = LENGTHS.map(ratio) else {
            continue;
        };
        if !headed {
            let [a, b, c, d] = LENGTHS;
            let title = "Rattle / Rust, by blocks listed of 256";
            println!("\n{title:42} {a:>7} {b:>7} {c:>7} {d:>7}");
            headed = true;
        }
        println!("{name:42} {one:>7.2} {two:>7.2} {three:>7.2} {four:>7.2}");
    }
}

#[cfg(test)]
mod tests {
    use super::*;

    #[test]
    fn every_list_goes_as_said_and_has_its_own_name() {
        let rows = all_rows();
        for (i, row) in rows.iter().enumerate() {
            let same = |other: &Row| other.name == row.name && other.blocks() == row.blocks();
            assert!(!rows[..i].iter().any(same), "{} {}", row.name, row.blocks());
        }
        assert_eq!(rows.len(), 4 * 18 + 12 + 3 + 4 * 8 + 4 * 10 + 4 * 5 + 8);
    }

    #[test]
    fn a_full_drive_lists_as_many_as_its_row_says() {
        for (listed, _) in LISTS {
            for length in LENGTHS {
                let mut busy = Busy::full(shape(256, 1, 1), listed, length);
                let blocks = &busy.table.blocks;
                assert!(blocks.iter().all(|block| block.state != State::Free));
                let own = blocks.iter().filter(|block| u64::from(block.holder) == OWN);
                assert_eq!(own.clone().count() as u64, length);
                assert!(length == 1 || !own.is_sorted_by_key(|block| block.serial));
                let serials = || blocks.iter().map(|block| block.serial);
                assert!(serials().min() < Some(1 << 28) && serials().max() > Some(15 << 28));
                busy.bytes.fill(0xA5);
                busy.serve(Command::List { domain: OWN, listed });
                let end = busy.bytes.chunks(8).position(|place| place[..4] == [0xFF; 4]);
                assert_eq!(end, Some(length as usize));
            }
        }
    }

    #[test]
    fn appends_free_where_their_rows_say_so() {
        for blocks in DRIVES {
            let rows = recordings(&Busy::new(shape(blocks, 1, 1)));
            // Does every append open a block, and how many does the domain then hold?
            let held = |row: &Row| -> Vec<(bool, usize)> {
                let mut drive = row.drive.clone();
                let mut table = from_row(&drive.table);
                let mut found = Vec::new();
                for words in row.commands.as_chunks::<COMMAND_WORDS>().0 {
                    let call = call_of(words).expect("a command");
                    let last = table.domains[RESERVED as usize - 1].last;
                    let Drive { store, words, bytes, .. } = &mut drive;
                    recorder::serve(&mut table, call, store, words, bytes);
                    if matches!(call, Call::Append { .. }) {
                        let opened = table.domains[RESERVED as usize - 1].last > last;
                        let its = |block: &&Block| u64::from(block.holder) == RESERVED;
                        found.push((opened, table.blocks.iter().filter(its).count()));
                    }
                }
                found
            };
            let quota = blocks as usize / 4;
            let mut none_freed = vec![(false, 1); 128];
            none_freed[0].0 = true;
            assert_eq!(held(&rows[3]), none_freed);
            assert_eq!(held(&rows[4]), vec![(true, quota); quota]);
        }
    }

    #[test]
    fn a_busy_drive_has_blocks_in_all_states() {
        for blocks in DRIVES {
            let busy = Busy::new(shape(blocks, 1, 1));
            let present = &busy.table.blocks[..blocks as usize];
            let count = |is: &dyn Fn(State) -> bool| {
                present.iter().filter(|block| is(block.state)).count() as u64
            };
            assert_eq!(count(&|state| state == State::Free), blocks / 4);
            assert_eq!(count(&|state| state == State::Open(Way::Erase)), blocks / 8);
            assert_eq!(count(&|state| state == State::Closed(Way::Erase)), blocks / 4);
            let open = |state| matches!(state, State::Open(Way::Placement(_)));
            assert_eq!(count(&open), blocks / 8);
            let closed = |state| matches!(state, State::Closed(Way::Placement(_)));
            assert_eq!(count(&closed), blocks / 4);
        }
    }

    #[test]
    fn equal_sides_agree_and_others_do_not() {
        struct Wrong;
        impl Side for Wrong {
            fn run(&mut self, rounds: u64, commands: &[u64], drive: &mut Drive) -> u64 {
                let sum = Manager.run(rounds, commands, drive);
                drive.store[0] ^= 1;
                sum
            }
        }
        let busy = Busy::new(shape(8, 1, 1));
        let row = busy.row("Pulse 0", &[Command::Pulse { seconds: 0 }]);
        let mut drives = [row.drive.clone(), row.drive.clone()];
        assert!(turns(&mut Manager, 10, &row, &mut drives).is_ok());
        let told = turns(&mut Wrong, 10, &row, &mut drives).expect_err("a difference");
        assert_eq!(told, "Pulse 0 at S 8: stores differ");
    }

    #[test]
    fn a_checksum_is_of_all_answers() {
        let busy = Busy::new(shape(8, 1, 1));
        let commands = [
            Command::Close { domain: OWN, block: 0 },
            Command::Close { domain: OWN + 1, block: 0 },
            Command::Pulse { seconds: 0 },
        ];
        let mut row = busy.row("", &commands);
        let sum = Manager.run(4, &row.commands, &mut row.drive);
        assert_eq!(sum, ((256 * 31 + 9) * 31) * 31 + 256);
    }

    #[test]
    fn arguments_choose_rows() {
        let read = |words: &[&str]| {
            Choice::read(&words.iter().map(|&word| word.into()).collect::<Vec<_>>())
        };
        assert_eq!(read(&[]), Some(Choice::default()));
        let both = Choice { row: Some("Page".into()), blocks: Some(8), ..Choice::default() };
        assert_eq!(read(&["--row", "Page", "--blocks", "8"]), Some(both));
        let list = Choice { list: true, ..Choice::default() };
        assert_eq!(read(&["--list"]), Some(list));
        assert_eq!(read(&["--row"]), None);
        assert_eq!(read(&["Page"]), None);
    }
}
