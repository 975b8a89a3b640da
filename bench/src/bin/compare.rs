//! Sends random commands to the proved library and to the manager in Rust, on sound and on hostile
//! tables, and compares answers, tables, stores and outputs after every one.
//!
//! compare [COMMANDS] [SEED]
//!
//! The recorder's calls are among the commands. Exit status: 0 if all agree, 1 at the first
//! difference or if something was never reached, 2 if the library is missing or an argument is no
//! number.

#![forbid(unsafe_code)]
#![cfg_attr(not(trial), allow(dead_code))]

use bench::flat::{
    answer_number, call_words, fill_row, from_row, word_name, COMMAND_WORDS, KINDS, KIND_NAMES,
    TABLE_WORDS,
};
use bench::generate;
use bench::manager::{Answer, Block, Command, Config, Domain, Listed, State, Table, Way, BLOCKS};
use bench::random::Random;
use bench::recorder::{self, Call};
use std::fmt::Write;
use std::process::ExitCode;

const DEFAULT_COMMANDS: u64 = 2_000_000;
const DEFAULT_SEED: u64 = 1;
const REFUSALS: usize = 16;
/// Beyond what is ever lent there is some more, which must stay as it is.
const SPARE: usize = 8;
const MOST_WORDS: usize = 300;
const MOST_BYTES: usize = 8 * (BLOCKS + 2);

#[cfg(not(trial))]
fn main() -> ExitCode {
    eprintln!("compare: built without the library: set TRIAL_LIB to the folder of libtrial.a");
    ExitCode::from(2)
}

#[cfg(trial)]
fn main() -> ExitCode {
    let arguments: Vec<String> = std::env::args().skip(1).collect();
    match numbers(&arguments) {
        Some([commands, seed]) => compare(Library, commands, seed),
        None => {
            eprintln!("compare [COMMANDS] [SEED]");
            ExitCode::from(2)
        }
    }
}

/// The number of commands and the seed.
fn numbers(arguments: &[String]) -> Option<[u64; 2]> {
    let mut numbers = [DEFAULT_COMMANDS, DEFAULT_SEED];
    for (place, argument) in arguments.iter().enumerate() {
        *numbers.get_mut(place)? = argument.parse().ok()?;
    }
    Some(numbers)
}

fn compare(other: impl Other, commands: u64, seed: u64) -> ExitCode {
    println!("{commands} commands, seed {seed}");
    let mut trial = Trial::new(other, seed);
    if let Err(difference) = trial.run(commands) {
        println!("{difference}");
        return ExitCode::from(1);
    }
    print!("{}", trial.counts.table());
    let missing = trial.counts.missing();
    if missing.is_empty() {
        println!("all agree; every kind succeeded, and met every refusal that it can meet");
    } else {
        println!("all agree, but never reached: {}", missing.join("; "));
        if commands >= DEFAULT_COMMANDS {
            return ExitCode::from(1);
        }
    }
    ExitCode::SUCCESS
}

/// The side that the manager in Rust is compared with.
trait Other {
    fn start(&mut self, config: &Config, row: &mut [u64]) -> u64;

    fn serve(
        &mut self,
        command: &[u64; COMMAND_WORDS],
        row: &mut [u64],
        store: &mut [u64],
        words: &mut [u64],
        bytes: &mut [u8],
    ) -> u64;
}

#[cfg(trial)]
struct Library;

#[cfg(trial)]
impl Other for Library {
    fn start(&mut self, config: &Config, row: &mut [u64]) -> u64 {
        bench::rattle::start(config, row)
    }

    fn serve(
        &mut self,
        command: &[u64; COMMAND_WORDS],
        row: &mut [u64],
        store: &mut [u64],
        words: &mut [u64],
        bytes: &mut [u8],
    ) -> u64 {
        bench::rattle::serve(command, row, store, words, bytes)
    }
}

/// How often each kind got which answer.
#[derive(Default)]
struct Counts {
    /// For Start, behind the kinds of command, and for each of these: successes, and then the
    /// refusals by number.
    answers: [[u64; REFUSALS + 1]; KINDS + 1],
    commands: u64,
    unsound: u64,
    damaged: u64,
    planted: u64,
    /// Drives that were started, by their number of blocks.
    drives: [u64; SIZES.len()],
    /// Successful Pages, lists and calls of the recorder, by what they met.
    met: [u64; MEETINGS.len()],
}

/// The classes of drives in the report, each up to so many blocks.
const SIZES: [u64; 5] = [1, 8, 32, 128, 256];

const START: usize = KINDS;

/// What a successful Page, List or call of the recorder can meet.
const MEETINGS: [&str; 14] = [
    "List open of blocks not in the order of their numbers",
    "List open of more than 32 blocks, not in the order of their numbers",
    "List closed of blocks not in the order of their numbers",
    "List closed of more than 32 blocks, not in the order of their numbers",
    "Append that freed a block",
    "Append that freed one block and opened another",
    "Latest from several blocks",
    "Latest from blocks not in the order of their numbers",
    "Latest from a Closed block that is not full",
    "Latest from a block opened by Erase",
    "Page with an index from an exact half",
    "Page with an index that goes up to 256 before the cap",
    "List with an index from an exact half",
    "List with an index that goes up to 256 before the cap",
];

/// The refusals that a kind can meet.
fn reachable(kind: usize) -> &'static [usize] {
    match kind {
        0 | 1 => &[2, 4, 5, 6, 14],
        2 => &[2, 4, 5],
        3 => &[2, 3, 4, 5, 6, 9, 10, 11, 12, 13, 14],
        4 | 5 => &[2, 4, 5, 6, 9],
        6 => &[2, 3, 4, 5, 6, 7, 8, 11, 12, 13, 14],
        7 => &[2, 3, 4, 5, 6, 7, 8, 9, 10, 15],
        8 => &[2, 3, 4, 5, 6, 7, 8, 9, 15, 16],
        9 => &[2, 4, 5, 6, 7, 9],
        10 => &[2, 4, 5, 7],
        11 => &[2, 6],
        // One user address never gets 8, and what is within a reserved quota never 14.
        12 => &[2, 3, 4, 5, 6, 7, 11, 12, 13],
        13 => &[2, 3, 4, 5, 6, 7, 15],
        _ => &[1],
    }
}

fn kind_name(kind: usize) -> &'static str {
    KIND_NAMES.get(kind).copied().unwrap_or("Start")
}

impl Counts {
    fn count(&mut self, kind: usize, answer: u64) {
        let class = if (1..=REFUSALS as u64).contains(&answer) { answer as usize } else { 0 };
        self.answers[kind][class] += 1;
        if kind != START {
            self.commands += 1;
            self.unsound += u64::from(class == 2);
        }
    }

    fn note(&mut self, met: [bool; MEETINGS.len()]) {
        for (count, met) in self.met.iter_mut().zip(met) {
            *count += u64::from(met);
        }
    }

    fn table(&self) -> String {
        let mut text = format!("{:18} {:>8}", "", "success");
        for number in 1..=REFUSALS {
            let _ = write!(text, " {number:>7}");
        }
        for (kind, answers) in self.answers.iter().enumerate() {
            let _ = write!(text, "\n{:18} {:8}", kind_name(kind), answers[0]);
            for &count in &answers[1..] {
                let shown = if count == 0 { "-".into() } else { count.to_string() };
                let _ = write!(text, " {shown:>7}");
            }
        }
        let _ = write!(text, "\n{:18} {:8}", "all", self.answers.iter().map(|a| a[0]).sum::<u64>());
        for number in 1..=REFUSALS {
            let _ = write!(text, " {:7}", self.answers.iter().map(|a| a[number]).sum::<u64>());
        }
        let _ = writeln!(
            text,
            "\n{} commands: {} on sound tables, {} on unsound ones; {} of all on damaged copies",
            self.commands,
            self.commands - self.unsound,
            self.unsound,
            self.damaged
        );
        let _ = write!(text, "{} sound tables planted; drives started:", self.planted);
        for (most, count) in SIZES.iter().zip(self.drives) {
            let _ = write!(text, " S up to {most}: {count};");
        }
        let _ = writeln!(text, " refused: {}", self.answers[START][1]);
        for (name, count) in MEETINGS.iter().zip(self.met) {
            let _ = writeln!(text, "{name}: {count}");
        }
        text
    }

    /// What a run of the default size has to reach, and this one has not; and refusals that no
    /// kind should meet.
    fn missing(&self) -> Vec<String> {
        let mut missing = Vec::new();
        for (kind, answers) in self.answers.iter().enumerate() {
            for (class, &count) in answers.iter().enumerate() {
                let expected = class == 0 || reachable(kind).contains(&class);
                let met = if class == 0 { "success".into() } else { format!("refusal {class}") };
                match (expected, count) {
                    (true, 0) => missing.push(format!("{}: {met}", kind_name(kind))),
                    (false, 1..) => {
                        missing.push(format!("{}: {met} is not one it can meet", kind_name(kind)))
                    }
                    _ => {}
                }
            }
        }
        for (name, count) in MEETINGS.iter().zip(self.met) {
            if count == 0 {
                missing.push((*name).into());
            }
        }
        missing
    }
}

/// What a successful call met, by the places in `MEETINGS`, on the tables before and after it.
fn met(call: &Call, before: &Table, after: &Table) -> [bool; MEETINGS.len()] {
    let mut met = [false; MEETINGS.len()];
    match *call {
        Call::Command(Command::List { domain, listed }) => {
            let blocks: Vec<&Block> = listed_blocks(before, domain, listed).collect();
            let turned = !blocks.is_sorted_by_key(|block| block.serial);
            let first = if listed == Listed::Open { 0 } else { 2 };
            met[first..first + 2].copy_from_slice(&[turned, turned && blocks.len() > 32]);
            met[12..].copy_from_slice(&roundings(&before.config, &blocks));
        }
        Call::Command(Command::Page { block, .. }) => {
            let block = &before.blocks[block as usize];
            met[10..12].copy_from_slice(&roundings(&before.config, &[block]));
        }
        Call::Command(_) => {}
        Call::Append { domain, .. } => {
            let is_freed = |(before, after): &(&Block, &Block)| {
                u64::from(before.holder) == domain && before.serial != after.serial
            };
            let freed = before.blocks.iter().zip(&after.blocks).find(is_freed);
            let is_free = freed.is_some_and(|(_, after)| after.state == State::Free);
            met[4..6].copy_from_slice(&[freed.is_some(), is_free]);
        }
        Call::Latest { domain, count } => {
            let sources = sources(before, domain, count);
            let capacity = before.config.adus_in_block();
            let turned = sources.windows(2).any(|pair| pair[0].0 < pair[1].0);
            let partly = sources.iter().any(|(_, block)| {
                matches!(block.state, State::Closed(_)) && block.written < capacity
            });
            let erased = sources.iter().any(|(_, block)| {
                matches!(block.state, State::Open(Way::Erase) | State::Closed(Way::Erase))
            });
            met[6..10].copy_from_slice(&[sources.len() > 1, turned, partly, erased]);
        }
    }
    met
}

/// Whether a P/E index of these blocks comes from an exact half, and whether one comes from 255.5
/// or more but less than 256.
fn roundings(config: &Config, blocks: &[&Block]) -> [bool; 2] {
    let rated = config.rated;
    let mut doubled = blocks.iter().map(|block| u64::from(block.erases) * 400);
    let half = doubled.clone().any(|doubled| doubled % (2 * rated) == rated);
    [half, doubled.any(|doubled| doubled / rated == 511)]
}

/// The blocks that a list tells of, by their numbers; the table may be any.
fn listed_blocks(table: &Table, domain: u64, listed: Listed) -> impl Iterator<Item = &Block> {
    let present = &table.blocks[..table.config.blocks.min(BLOCKS as u64) as usize];
    present.iter().filter(move |block| {
        let is_listed = match listed {
            Listed::Open => matches!(block.state, State::Open(_)),
            Listed::Closed => matches!(block.state, State::Closed(_)),
        };
        is_listed && u64::from(block.holder) == domain
    })
}

/// The blocks that the last so many ADUs of a domain are in, the newest first.
fn sources(table: &Table, domain: u64, count: u64) -> Vec<(usize, &Block)> {
    let present = table.blocks[..table.config.blocks as usize].iter().enumerate();
    let mut sources: Vec<(usize, &Block)> =
        present.filter(|(_, block)| u64::from(block.holder) == domain).collect();
    sources.sort_by_key(|(_, block)| std::cmp::Reverse(block.serial));
    let mut left = count;
    sources.retain(|(_, block)| {
        let taken = left.min(block.written);
        left -= taken;
        taken > 0
    });
    sources
}

/// What both sides are lent.
#[derive(Clone, Debug, Default)]
struct Buffers {
    store: Vec<u64>,
    words: Vec<u64>,
    bytes: Vec<u8>,
}

/// How much of the buffers is lent.
#[derive(Clone, Copy, Debug)]
struct Lent {
    store: usize,
    words: usize,
    bytes: usize,
}

/// A drive on both sides.
struct Trial<O> {
    other: O,
    seed: u64,
    random: Random,
    counts: Counts,
    table: Table,
    row: Vec<u64>,
    mine: Buffers,
    others: Buffers,
    /// The row of `table`, and the row before the command.
    wanted: Vec<u64>,
    before: Vec<u64>,
}

impl<O: Other> Trial<O> {
    fn new(other: O, seed: u64) -> Trial<O> {
        let buffers = Buffers {
            store: Vec::new(),
            words: vec![0; MOST_WORDS + SPARE],
            bytes: vec![0; MOST_BYTES + SPARE],
        };
        Trial {
            other,
            seed,
            random: Random::new(seed),
            counts: Counts::default(),
            table: Table::zeros(),
            row: vec![0; TABLE_WORDS],
            mine: buffers.clone(),
            others: buffers,
            wanted: vec![0; TABLE_WORDS],
            before: vec![0; TABLE_WORDS],
        }
    }

    /// Drive after drive, until so many commands have been served.
    fn run(&mut self, commands: u64) -> Result<(), String> {
        while self.counts.commands < commands {
            let wrong = self.random.chance(6);
            let config = if wrong {
                generate::wrong_config(&mut self.random)
            } else {
                generate::config(&mut self.random)
            };
            self.start(config)?;
            let length = if wrong { 3 } else { self.random.pick(&[60, 200, 500, 1_000, 3_000]) };
            let end = commands.min(self.counts.commands + length);
            while self.counts.commands < end {
                match self.random.below(100) {
                    0 if !wrong => self.plant(generate::plant),
                    1..=9 => self.serve_damaged()?,
                    10 | 11 if !wrong => self.plant(generate::plant_recorder),
                    12..=14 if !wrong => self.serve_log_pages()?,
                    _ => {
                        let call = generate::call(&mut self.random, &self.table, &self.mine.store);
                        self.serve(call)?;
                    }
                }
            }
        }
        Ok(())
    }

    fn start(&mut self, config: Config) -> Result<(), String> {
        self.random.fill_words(&mut self.row);
        let (answer, table) = Table::start(config);
        let number = self.other.start(&config, &mut self.row);
        self.table = table;
        self.counts.count(START, answer_number(answer));
        if let (0, Some(class)) = (number, SIZES.iter().position(|&most| config.blocks <= most)) {
            self.counts.drives[class] += 1;
        }
        fill_row(&self.table, &mut self.wanted);
        if number != answer_number(answer) || self.row != self.wanted {
            let mut text = format!("difference at a start, seed {}: {config:?}\n", self.seed);
            let _ = writeln!(text, "Rust answers {}, the other {number}", answer_number(answer));
            list_differing(&mut text, &self.wanted, &self.row, word_name);
            return Err(text);
        }
        let entries = if number == 0 { config.store_entries() as usize } else { 1_000 };
        self.mine.store.resize(entries + SPARE, 0);
        self.random.fill_words(&mut self.mine.store);
        self.others.store.clone_from(&self.mine.store);
        Ok(())
    }

    /// Goes on with a table that is sound but extreme.
    fn plant(&mut self, plant: fn(&mut Random, &mut Table)) {
        plant(&mut self.random, &mut self.table);
        assert!(self.table.is_sound(), "a planted table is sound");
        fill_row(&self.table, &mut self.row);
        self.counts.planted += 1;
    }

    /// Some commands on a damaged copy of the table; the store goes on with what they leave.
    fn serve_damaged(&mut self) -> Result<(), String> {
        let mut table = self.table.clone();
        generate::damage(&mut self.random, &mut table);
        let before = self.counts.commands;
        self.serve_aside(table, generate::call)?;
        self.counts.damaged += self.counts.commands - before;
        Ok(())
    }

    /// Some Pages and lists on a table of another drive.
    fn serve_log_pages(&mut self) -> Result<(), String> {
        let table = generate::full_table(&mut self.random);
        assert!(table.is_sound(), "a full table is sound");
        self.counts.planted += 1;
        self.serve_aside(table, |random, table, _| generate::log_page(random, table).into())
    }

    /// Some commands on another table, after which the drive goes on with its own.
    fn serve_aside(
        &mut self,
        table: Table,
        call: fn(&mut Random, &Table, &[u64]) -> Call,
    ) -> Result<(), String> {
        let own = std::mem::replace(&mut self.table, table);
        fill_row(&self.table, &mut self.row);
        for _ in 0..self.random.between(1, 3) {
            let call = call(&mut self.random, &self.table, &self.mine.store);
            self.serve(call)?;
        }
        self.table = own;
        fill_row(&self.table, &mut self.row);
        Ok(())
    }

    /// A command on both sides.
    fn serve(&mut self, call: Call) -> Result<(), String> {
        let lent = self.lend(&call);
        self.random.fill_words(&mut self.mine.words);
        self.random.fill_bytes(&mut self.mine.bytes);
        self.others.words.copy_from_slice(&self.mine.words);
        self.others.bytes.copy_from_slice(&self.mine.bytes);
        self.before.copy_from_slice(&self.row);
        let words = call_words(&call);
        let Buffers { store, words: filled, bytes } = &mut self.mine;
        let answer = recorder::serve(
            &mut self.table,
            call,
            &mut store[..lent.store],
            &mut filled[..lent.words],
            &mut bytes[..lent.bytes],
        );
        let Buffers { store, words: filled, bytes } = &mut self.others;
        let number = self.other.serve(
            &words,
            &mut self.row,
            &mut store[..lent.store],
            &mut filled[..lent.words],
            &mut bytes[..lent.bytes],
        );
        self.counts.count(words[0] as usize, answer_number(answer));
        let can_meet = match call {
            Call::Command(command) => {
                matches!(command, Command::Page { .. } | Command::List { .. })
            }
            Call::Append { .. } | Call::Latest { .. } => true,
        };
        if answer == Answer::Done && can_meet {
            self.counts.note(met(&call, &from_row(&self.before), &self.table));
        }
        fill_row(&self.table, &mut self.wanted);
        let agree = number == answer_number(answer)
            && self.row == self.wanted
            && self.mine.store == self.others.store
            && self.mine.words == self.others.words
            && self.mine.bytes == self.others.bytes;
        if agree {
            Ok(())
        } else {
            Err(self.difference(&call, lent, answer_number(answer), number))
        }
    }

    /// Mostly buffers of the right length; sometimes shorter or longer ones, or none.
    fn lend(&mut self, call: &Call) -> Lent {
        let random = &mut self.random;
        let all = self.mine.store.len();
        let config = &self.table.config;
        let right = if config.within_limits() { config.store_entries() as usize } else { all };
        let store = match random.below(100) {
            0 => 0,
            1 => right.saturating_sub(1),
            2 => right.saturating_add(1),
            3 => random.between(0, all as u64) as usize,
            _ => right,
        };
        let (words, bytes) = self.filled(call);
        Lent {
            store: store.min(all),
            words: output_length(&mut self.random, words, MOST_WORDS),
            bytes: output_length(&mut self.random, bytes, MOST_BYTES),
        }
    }

    /// How many words and bytes the call's success fills.
    fn filled(&self, call: &Call) -> (usize, usize) {
        let command = match *call {
            Call::Command(command) => command,
            Call::Append { .. } => return (1, 0),
            Call::Latest { count, .. } => return (count.min(256) as usize, 0),
        };
        match command {
            Command::WriteByPlacement { count, .. }
            | Command::WriteByBlock { count, .. }
            | Command::Read { count, .. } => (count.min(256) as usize, 0),
            Command::Page { .. } => (0, 256),
            Command::List { domain, listed } => {
                (0, 8 * (listed_blocks(&self.table, domain, listed).count() + 1))
            }
            _ => (0, 0),
        }
    }

    fn difference(&self, call: &Call, lent: Lent, mine: u64, number: u64) -> String {
        let mut text = format!(
            "difference at command {}, seed {}: {call:?}\n",
            self.counts.commands, self.seed
        );
        let _ = writeln!(text, "as words {:?}; {lent:?}", call_words(call));
        let _ = writeln!(text, "Rust answers {mine}, the other {number}");
        list_differing(&mut text, &self.wanted, &self.row, word_name);
        let store = |place| format!("store {place}");
        list_differing(&mut text, &self.mine.store, &self.others.store, store);
        let words = |place| format!("words {place}");
        list_differing(&mut text, &self.mine.words, &self.others.words, words);
        let bytes = |place| format!("bytes {place}");
        list_differing(&mut text, &self.mine.bytes, &self.others.bytes, bytes);
        let _ = writeln!(text, "the table before:");
        show_table(&mut text, &from_row(&self.before));
        text
    }
}

fn output_length(random: &mut Random, filled: usize, most: usize) -> usize {
    match random.below(40) {
        0 => 0,
        1 | 2 => filled.saturating_sub(1),
        3..=5 => filled,
        6 => filled + 1,
        7 => random.between(0, most as u64) as usize,
        _ => most,
    }
}

/// Tells the first places where two rows differ, and how many there are.
fn list_differing<T: PartialEq + std::fmt::Debug>(
    text: &mut String,
    mine: &[T],
    others: &[T],
    name: impl Fn(usize) -> String,
) {
    let differing = || mine.iter().zip(others).enumerate().filter(|(_, (a, b))| a != b);
    for (place, (a, b)) in differing().take(10) {
        let _ = writeln!(text, "  {}: Rust {a:?}, the other {b:?}", name(place));
    }
    let count = differing().count();
    if count > 10 {
        let _ = writeln!(text, "  and {} more", count - 10);
    }
}

/// A table without the records that say nothing.
fn show_table(text: &mut String, table: &Table) {
    let _ = writeln!(text, "  {:?}", table.config);
    for (index, domain) in table.domains.iter().enumerate() {
        if *domain != Domain::default() {
            let _ = writeln!(text, "  domain {}: {domain:?}", index + 1);
        }
    }
    for (number, block) in table.blocks.iter().enumerate() {
        if *block != Default::default() {
            let beyond = if number as u64 >= table.config.blocks { " (beyond S)" } else { "" };
            let _ = writeln!(text, "  block {number}{beyond}: {block:?}");
        }
    }
}

#[cfg(test)]
mod tests {
    use super::*;
    use bench::flat::call_of;
    use bench::manager::ALL_ONES;

    /// The manager in Rust as the other side, with something done to what it leaves.
    struct Impostor<F>(F);

    /// What an impostor can change after a command.
    struct Left<'a> {
        call: Call,
        before: &'a Table,
        answer: &'a mut Answer,
        table: &'a mut Table,
        store: &'a mut [u64],
        words: &'a mut [u64],
        bytes: &'a mut [u8],
    }

    impl<F: FnMut(Left)> Other for Impostor<F> {
        fn start(&mut self, config: &Config, row: &mut [u64]) -> u64 {
            let (answer, table) = Table::start(*config);
            fill_row(&table, row);
            answer_number(answer)
        }

        fn serve(
            &mut self,
            command: &[u64; COMMAND_WORDS],
            row: &mut [u64],
            store: &mut [u64],
            words: &mut [u64],
            bytes: &mut [u8],
        ) -> u64 {
            let call = call_of(command).expect("a command");
            let before = from_row(row);
            let mut table = before.clone();
            let mut answer = recorder::serve(&mut table, call, store, words, bytes);
            (self.0)(Left {
                call,
                before: &before,
                answer: &mut answer,
                table: &mut table,
                store,
                words,
                bytes,
            });
            fill_row(&table, row);
            answer_number(answer)
        }
    }

    fn is_found(impostor: impl FnMut(Left)) -> bool {
        Trial::new(Impostor(impostor), 3).run(20_000).is_err()
    }

    #[test]
    fn the_manager_agrees_with_itself_and_meets_every_answer() {
        let mut trial = Trial::new(Impostor(|_: Left| ()), 5);
        assert_eq!(trial.run(60_000), Ok(()));
        assert_eq!(trial.counts.missing(), Vec::<String>::new());
        // Those that are served aside come up to three at a time.
        assert!((60_000..60_003).contains(&trial.counts.commands));
    }

    #[test]
    fn a_run_is_the_same_for_the_same_seed() {
        let table = |seed| {
            let mut trial = Trial::new(Impostor(|_: Left| ()), seed);
            trial.run(2_000).expect("equal sides");
            trial.counts.table()
        };
        assert_eq!(table(9), table(9));
        assert_ne!(table(9), table(10));
    }

    #[test]
    fn impostors_of_document_01_are_found() {
        // A write that stores its first ADU and merely lists addresses for the rest.
        assert!(is_found(|left| {
            if let Call::Command(Command::WriteByBlock { block, count, .. }) = left.call {
                if *left.answer == Answer::Done && count > 1 {
                    let capacity = left.table.config.adus_in_block();
                    let first = block * capacity + left.before.blocks[block as usize].written;
                    left.store[first as usize + 1..][..count as usize - 1].fill(ALL_ONES);
                }
            }
        }));
        // One that says 14 with the table unread.
        assert!(is_found(|left| {
            let create = matches!(left.call, Call::Command(Command::Create { .. }));
            if create && *left.answer == Answer::Done {
                *left.answer = Answer::Refused(14);
                *left.table = left.before.clone();
            }
        }));
        // One that answers Close and moves no block.
        assert!(is_found(|left| {
            if matches!(left.call, Call::Command(Command::Close { .. })) {
                *left.table = left.before.clone();
            }
        }));
        // One that hands out block 0 always.
        assert!(is_found(|left| {
            if matches!(left.call, Call::Command(Command::Erase { .. })) {
                if let Answer::Block(number) = left.answer {
                    *number = 0;
                }
            }
        }));
        // One that refuses all.
        assert!(is_found(|left| {
            *left.answer = Answer::Refused(2);
            *left.table = left.before.clone();
        }));
        // A Page with an invented written count.
        assert!(is_found(|left| {
            let page = matches!(left.call, Call::Command(Command::Page { .. }));
            if page && *left.answer == Answer::Done {
                left.bytes[20] ^= 1;
            }
        }));
    }

    #[test]
    fn small_deviations_are_found() {
        // A write beyond what success fills.
        assert!(is_found(|left| {
            if let Call::Command(Command::Read { count, .. }) = left.call {
                if *left.answer == Answer::Done && left.words.len() as u64 > count {
                    left.words[count as usize] = 0;
                }
            }
        }));
        // A refused write that leaves an address.
        assert!(is_found(|left| {
            let write = matches!(left.call, Call::Command(Command::WriteByBlock { .. }));
            if write && *left.answer == Answer::Refused(15) {
                left.words[0] = 1;
            }
        }));
        // A record at S or above that is changed.
        assert!(is_found(|left| {
            let pulse = matches!(left.call, Call::Command(Command::Pulse { .. }));
            if pulse && left.table.config.blocks < 256 {
                left.table.blocks[255].erases = 0;
            }
        }));
        // An erase count that passes its end.
        assert!(is_found(|left| {
            let erase = matches!(left.call, Call::Command(Command::Erase { .. }));
            if let (true, Answer::Block(number)) = (erase, &left.answer) {
                let number = *number as usize;
                left.table.blocks[number].erases =
                    left.before.blocks[number].erases.wrapping_add(1);
            }
        }));
        // Tables with two open blocks of a placement taken as sound.
        assert!(is_found(|left| {
            let mut mended = left.before.clone();
            let present = mended.config.blocks.min(256) as usize;
            let blocks = &mut mended.blocks[..present];
            for number in 1..present {
                let earlier = |other: &bench::manager::Block| {
                    other.holder == blocks[number].holder && other.state == blocks[number].state
                };
                let placed =
                    matches!(blocks[number].state, State::Open(bench::manager::Way::Placement(_)));
                if placed && blocks[..number].iter().any(earlier) {
                    blocks[number].state = State::Open(bench::manager::Way::Erase);
                }
            }
            if *left.answer == Answer::Refused(2) && mended.is_sound() {
                *left.answer = Answer::Done;
            }
        }));
    }

    /// Changes the descriptors of lists, of the open blocks or of the Closed ones.
    fn lister(of: Listed, change: impl Fn(&mut [[u8; 8]], &Table)) -> impl FnMut(Left) {
        move |left: Left| match left.call {
            Call::Command(Command::List { listed, .. })
                if listed == of && *left.answer == Answer::Done =>
            {
                let places = left.bytes.as_chunks_mut::<8>().0;
                let end = places.iter().position(|place| place[..4] == [0xFF; 4]);
                change(&mut places[..end.expect("an end mark")], left.before);
            }
            _ => {}
        }
    }

    #[test]
    fn impostors_of_the_lists_order_are_found() {
        type Change = fn(&mut [[u8; 8]], &Table);
        fn serial(table: &Table, descriptor: &[u8; 8]) -> u32 {
            table.blocks[usize::from(descriptor[0])].serial
        }
        let changes: [(&str, Change); 9] = [
            ("by falling serial", |list, _| list.reverse()),
            ("by number", |list, _| list.sort_by_key(|one| one[0])),
            ("the last two exchanged", |list, _| {
                if let [.., one, other] = list {
                    std::mem::swap(one, other);
                }
            }),
            ("the last two exchanged, of many", |list, _| {
                if let Some([.., one, other]) = list.get_mut(32..) {
                    std::mem::swap(one, other);
                }
            }),
            ("one block twice", |list, _| {
                if let [.., one, other] = list {
                    *other = *one;
                }
            }),
            ("by P/E count", |list, table| {
                list.sort_by_key(|one| table.blocks[usize::from(one[0])].erases);
            }),
            ("by the low byte of the serial", |list, table| {
                list.sort_by_key(|one| (serial(table, one) as u8, one[0]));
            }),
            ("by the serial without its low byte", |list, table| {
                list.sort_by_key(|one| (serial(table, one) >> 8, one[0]));
            }),
            ("by the serial with a sign", |list, table| {
                list.sort_by_key(|one| serial(table, one) as i32);
            }),
        ];
        for (name, change) in changes {
            for of in [Listed::Open, Listed::Closed] {
                assert!(is_found(lister(of, change)), "{name}, {of:?}");
            }
        }
        // One that leaves the lists as they are is not.
        assert!(!is_found(lister(Listed::Open, |_, _| ())));
    }

    /// A P/E index by count and N, of which the low byte is told.
    type Index = fn(u64, u64) -> u64;

    fn index_of(index: Index, table: &Table, number: usize) -> u8 {
        index(table.blocks[number].erases.into(), table.config.rated) as u8
    }

    /// Tells another index in Pages.
    fn page_index(index: Index) -> impl FnMut(Left) {
        move |left: Left| match left.call {
            Call::Command(Command::Page { block, .. }) if *left.answer == Answer::Done => {
                left.bytes[12] = index_of(index, left.before, block as usize);
            }
            _ => {}
        }
    }

    /// Tells another index in lists.
    fn list_index(of: Listed, index: Index) -> impl FnMut(Left) {
        lister(of, move |list, table| {
            for one in list {
                one[4] = index_of(index, table, one[0].into());
            }
        })
    }

    #[test]
    fn impostors_of_the_wear_index_are_found() {
        fn whole(count: u64, rated: u64) -> u64 {
            count * 200 / rated
        }
        /// Twice what the whole leaves; N is a half.
        fn rest(count: u64, rated: u64) -> u64 {
            count * 200 % rated * 2
        }
        fn nearest(count: u64, rated: u64) -> u64 {
            (whole(count, rated) + u64::from(rest(count, rated) >= rated)).min(255)
        }
        let indices: [(&str, Index); 4] = [
            ("rounded down", |count, rated| whole(count, rated).min(255)),
            ("halves down", |count, rated| {
                (whole(count, rated) + u64::from(rest(count, rated) > rated)).min(255)
            }),
            ("capped before it is rounded", |count, rated| {
                whole(count, rated).min(255) + u64::from(rest(count, rated) >= rated)
            }),
            ("of a rated count one larger", |count, rated| nearest(count, rated + 1)),
        ];
        for (name, index) in indices {
            assert!(is_found(page_index(index)), "{name}, Page");
            for of in [Listed::Open, Listed::Closed] {
                assert!(is_found(list_index(of, index)), "{name}, {of:?}");
            }
        }
        // Those that tell the nearest are not.
        assert!(!is_found(page_index(nearest)));
        assert!(!is_found(list_index(Listed::Closed, nearest)));
    }

    #[test]
    fn impostors_of_the_recorder_are_found() {
        // An append that frees another Closed block than the one with the least serial.
        assert!(is_found(|left| {
            if let Call::Append { domain, .. } = left.call {
                let blocks = &mut left.table.blocks[..left.before.config.blocks as usize];
                let changed = |number: &usize| {
                    let before = &left.before.blocks[*number];
                    u64::from(before.holder) == domain && blocks[*number].serial != before.serial
                };
                let freed = (0..blocks.len()).find(changed);
                let kept = (0..blocks.len()).find(|number| {
                    let block = &blocks[*number];
                    u64::from(block.holder) == domain && matches!(block.state, State::Closed(_))
                });
                if let (Some(freed), Some(kept)) = (freed, kept) {
                    if blocks[freed].state == State::Free {
                        blocks.swap(freed, kept);
                    }
                }
            }
        }));
        // One that frees nothing, and answers 13.
        assert!(is_found(|left| {
            if matches!(left.call, Call::Append { .. }) && *left.answer == Answer::Done {
                let freed = met(&left.call, left.before, left.table)[4];
                if freed {
                    *left.answer = Answer::Refused(13);
                    *left.table = left.before.clone();
                }
            }
        }));
        // One that frees a block and is refused all the same.
        assert!(is_found(|left| {
            if let (Call::Append { domain, .. }, Answer::Refused(12)) = (left.call, &left.answer) {
                let its = |block: &&mut Block| u64::from(block.holder) == domain;
                let closed = |block: &&mut Block| matches!(block.state, State::Closed(_));
                if let Some(block) =
                    left.table.blocks.iter_mut().filter(closed).find(|block| its(block))
                {
                    *block = Block { erases: block.erases, ..Block::default() };
                }
            }
        }));
        // An append to a domain of another shape.
        assert!(is_found(|left| {
            if let (Call::Append { domain, .. }, Answer::Refused(6)) = (left.call, &left.answer) {
                if left.table.domains[domain as usize - 1].quota >= 2 {
                    *left.answer = Answer::Done;
                }
            }
        }));
        // Samples with the newest first.
        assert!(is_found(|left| {
            if let (Call::Latest { count, .. }, Answer::Done) = (left.call, &left.answer) {
                left.words[..count as usize].reverse();
            }
        }));
        // Samples by the numbers of the blocks.
        assert!(is_found(|left| {
            if let (Call::Latest { domain, count }, Answer::Done) = (left.call, &left.answer) {
                let capacity = left.before.config.adus_in_block();
                let blocks = left.before.blocks[..left.before.config.blocks as usize].iter();
                let its = blocks.zip(0..).filter(|(block, _)| u64::from(block.holder) == domain);
                let kept: Vec<u64> = its
                    .flat_map(|(block, number)| {
                        &left.store[(number * capacity) as usize..][..block.written as usize]
                    })
                    .copied()
                    .collect();
                let last = &kept[kept.len() - count as usize..];
                left.words[..count as usize].copy_from_slice(last);
            }
        }));
        // Samples beyond those that were asked for.
        assert!(is_found(|left| {
            if let (Call::Latest { count, .. }, Answer::Done) = (left.call, &left.answer) {
                if let Some(word) = left.words.get_mut(count as usize) {
                    *word = 0;
                }
            }
        }));
        // Fewer samples than were asked for, where fewer are kept.
        assert!(is_found(|left| {
            if matches!(left.call, Call::Latest { .. }) && *left.answer == Answer::Refused(15) {
                *left.answer = Answer::Done;
            }
        }));
    }

    #[test]
    fn arguments_are_the_number_of_commands_and_the_seed() {
        let read =
            |words: &[&str]| numbers(&words.iter().map(|&word| word.into()).collect::<Vec<_>>());
        assert_eq!(read(&[]), Some([2_000_000, 1]));
        assert_eq!(read(&["5", "7"]), Some([5, 7]));
        assert_eq!(read(&["5", "7", "9"]), None);
        assert_eq!(read(&["five"]), None);
    }

    #[test]
    fn a_run_that_reaches_too_little_fails() {
        let same = || Impostor(|_: Left| ());
        assert_eq!(compare(same(), 100, 1), ExitCode::SUCCESS);
        assert!(!Counts::default().missing().is_empty());
    }

    #[test]
    fn a_difference_is_told() {
        let mut trial = Trial::new(Impostor(|left: Left| left.table.blocks[1].left += 1), 4);
        let told = trial.run(1_000).expect_err("a difference");
        for part in ["seed 4", "block 1: left: Rust", "Config { pages:", "as words ["] {
            assert!(told.contains(part), "{told}");
        }
    }
}
