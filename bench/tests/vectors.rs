//! Runs scripts of commands and holds the answers against the wanted ones.
//!
//! The first is that which the program `drive` is run on, its standard input and what it is to
//! print. The others have the recorder's calls among the commands; the last two are made for the
//! order of lists and for the P/E index to the nearest. The answers given are left in the tests'
//! temporary folder.

use bench::manager::{
    make_address, take_apart, Answer, Command, Config, Elements, Listed, Table, ANY_BLOCK,
};
use bench::recorder::{self, Call};
use std::{fs, path::Path};

const FULL_WORDS: usize = 4096;
const FULL_BYTES: usize = 4096;
const JUNK: u8 = 0xA5;

/// A drive as a script sees it.
struct Drive {
    table: Table,
    store: Vec<u64>,
    /// Lent lengths, where they are not the full ones.
    store_length: Option<usize>,
    words_length: Option<usize>,
    bytes_length: Option<usize>,
}

impl Drive {
    fn new() -> Drive {
        Drive {
            table: Table::zeros(),
            store: Vec::new(),
            store_length: None,
            words_length: None,
            bytes_length: None,
        }
    }

    fn answer(&mut self, line: &str) -> Option<String> {
        let words: Vec<&str> = line.split_whitespace().collect();
        match words[..] {
            ["start", ref numbers @ ..] => self.start(numbers),
            ["lend", what, length] => self.lend(what, length),
            ["make", ref numbers @ ..] => self.make(numbers),
            ["take", word] => self.take(number(word)?),
            _ => self.serve(call(&words)?),
        }
    }

    fn start(&mut self, numbers: &[&str]) -> Option<String> {
        let [pages, dies, planes, adus, blocks, rated, period] = all(numbers)?;
        let config = Config { pages, dies, planes, adus, blocks, rated, period };
        let (answer, table) = Table::start(config);
        let entries = if answer == Answer::Done { config.store_entries() as usize } else { 0 };
        self.store = vec![0; entries];
        self.table = table;
        Some(told(answer, String::new))
    }

    fn lend(&mut self, what: &str, length: &str) -> Option<String> {
        let length = match length {
            "full" => None,
            _ => Some(number(length)? as usize),
        };
        match what {
            "store" => self.store_length = length,
            "words" => self.words_length = length,
            "bytes" => self.bytes_length = length,
            _ => return None,
        }
        Some("ok".into())
    }

    fn make(&mut self, numbers: &[&str]) -> Option<String> {
        let [domain, block, page, die, plane, adu] = all(numbers)?;
        let mut bytes = self.lent_bytes();
        let at = Elements { page, die, plane, adu };
        let answer = make_address(&self.table.config, domain, block, at, &mut bytes);
        Some(told(answer, || hex(&bytes[..8])))
    }

    fn take(&mut self, word: u64) -> Option<String> {
        let mut bytes = self.lent_bytes();
        let answer = take_apart(&self.table.config, word, &mut bytes);
        Some(told(answer, || hex(&bytes[..56])))
    }

    fn serve(&mut self, call: Call) -> Option<String> {
        let full = self.store.len();
        let length = self.store_length.unwrap_or(full);
        // A store of another length is another store; it is lent in place of the drive's.
        let mut other = vec![0; length];
        let store = if length == full { &mut self.store } else { &mut other };
        let mut words = vec![u64::from(JUNK); self.words_length.unwrap_or(FULL_WORDS)];
        let mut bytes = vec![JUNK; self.bytes_length.unwrap_or(FULL_BYTES)];
        let answer = recorder::serve(&mut self.table, call, store, &mut words, &mut bytes);
        let filled = || match call {
            Call::Command(command) => match command {
                Command::WriteByPlacement { count, .. }
                | Command::WriteByBlock { count, .. }
                | Command::Read { count, .. } => addresses(&words, count),
                Command::Page { .. } => {
                    assert!(bytes[256..].iter().all(|&byte| byte == JUNK));
                    hex(&bytes[..256])
                }
                Command::List { .. } => descriptors(&bytes),
                _ => String::new(),
            },
            Call::Append { .. } => addresses(&words, 1),
            Call::Latest { count, .. } => addresses(&words, count),
        };
        Some(told(answer, filled))
    }

    fn lent_bytes(&self) -> Vec<u8> {
        vec![JUNK; self.bytes_length.unwrap_or(FULL_BYTES)]
    }
}

fn number(word: &str) -> Option<u64> {
    match word.strip_prefix("0x") {
        Some(digits) => u64::from_str_radix(digits, 16).ok(),
        None => word.parse().ok(),
    }
}

fn all<const N: usize>(words: &[&str]) -> Option<[u64; N]> {
    let numbers: Option<Vec<u64>> = words.iter().map(|word| number(word)).collect();
    numbers?.try_into().ok()
}

fn call(words: &[&str]) -> Option<Call> {
    Some(match *words {
        ["append", domain, sample] => {
            Call::Append { domain: number(domain)?, sample: number(sample)? }
        }
        ["latest", domain, count] => {
            Call::Latest { domain: number(domain)?, count: number(count)? }
        }
        _ => Call::Command(command(words)?),
    })
}

fn command(words: &[&str]) -> Option<Command> {
    Some(match *words {
        ["create", ref numbers @ ..] => {
            let [domain, guarantee, quota, placements, limit] = all(numbers)?;
            Command::Create { domain, guarantee, quota, placements, limit }
        }
        ["change", ref numbers @ ..] => {
            let [domain, guarantee, quota] = all(numbers)?;
            Command::ChangeCapacity { domain, guarantee, quota }
        }
        ["delete", domain] => Command::Delete { domain: number(domain)? },
        ["erase", domain, "auto"] => Command::Erase { domain: number(domain)?, block: ANY_BLOCK },
        ["erase", domain, block] => {
            Command::Erase { domain: number(domain)?, block: number(block)? }
        }
        ["close", domain, block] => {
            Command::Close { domain: number(domain)?, block: number(block)? }
        }
        ["free", domain, block] => Command::Free { domain: number(domain)?, block: number(block)? },
        ["write", domain, "placement", ref numbers @ ..] => {
            let [placement, start, count] = all(numbers)?;
            Command::WriteByPlacement { domain: number(domain)?, placement, start, count }
        }
        ["write", domain, "block", ref numbers @ ..] => {
            let [block, start, count] = all(numbers)?;
            Command::WriteByBlock { domain: number(domain)?, block, start, count }
        }
        ["read", ref numbers @ ..] => {
            let [domain, address, count, expected] = all(numbers)?;
            Command::Read { domain, address, count, expected }
        }
        ["page", domain, block] => Command::Page { domain: number(domain)?, block: number(block)? },
        ["list", domain, "open"] => Command::List { domain: number(domain)?, listed: Listed::Open },
        ["list", domain, "closed"] => {
            Command::List { domain: number(domain)?, listed: Listed::Closed }
        }
        ["pulse", seconds] => Command::Pulse { seconds: number(seconds)? },
        _ => return None,
    })
}

fn told(answer: Answer, filled: impl FnOnce() -> String) -> String {
    match answer {
        Answer::Done => format!("ok {}", filled()).trim_end().into(),
        Answer::Block(number) => format!("ok block {number}"),
        Answer::Refused(number) => format!("refused {number}"),
    }
}

fn hex(bytes: &[u8]) -> String {
    bytes.iter().map(|byte| format!("{byte:02x}")).collect()
}

/// The first words, which are all that was filled.
fn addresses(words: &[u64], count: u64) -> String {
    let (filled, beyond) = words.split_at(count as usize);
    assert!(beyond.iter().all(|&word| word == u64::from(JUNK)));
    filled.iter().map(|word| format!("{word:016x}")).collect::<Vec<_>>().join(" ")
}

/// The descriptors up to the end mark.
fn descriptors(bytes: &[u8]) -> String {
    let end = bytes.chunks(8).position(|one| one[..4] == [0xFF; 4]).expect("an end mark");
    assert!(bytes[8 * (end + 1)..].iter().all(|&byte| byte == JUNK));
    bytes.chunks(8).take(end + 1).map(hex).collect::<Vec<_>>().join(" ")
}

#[test]
fn vectors_are_answered_as_wanted() {
    compare("crates/drive/stdin", "crates/drive/stdout", "answers.txt");
}

#[test]
fn vectors_of_the_recorder_are_answered_as_wanted() {
    compare("tests/recorder.script", "tests/recorder.answers", "recorder.answers");
}

#[test]
fn vectors_of_the_lists_order_are_answered_as_wanted() {
    compare("tests/wish2.script", "tests/wish2.answers", "wish2.answers");
}

#[test]
fn vectors_of_the_index_to_the_nearest_are_answered_as_wanted() {
    compare("tests/wish3.script", "tests/wish3.answers", "wish3.answers");
}

/// Answers a script, keeps what was given under a name, and holds it against the wanted answers.
fn compare(script: &str, wanted: &str, kept: &str) {
    let project = Path::new(env!("CARGO_MANIFEST_DIR")).join("..");
    let read = |name: &str| fs::read_to_string(project.join(name)).expect(name);
    let (script, wanted) = (read(script), read(wanted));
    let uncommented = script.lines().map(|line| line.split('#').next().unwrap_or("").trim());
    let commands: Vec<&str> = uncommented.filter(|line| !line.is_empty()).collect();
    let mut drive = Drive::new();
    let given: Vec<String> = commands
        .iter()
        .map(|line| drive.answer(line).unwrap_or_else(|| panic!("{line}")))
        .collect();
    let kept = Path::new(env!("CARGO_TARGET_TMPDIR")).join(kept);
    fs::write(&kept, given.join("\n") + "\n").expect("the answers can be kept");
    assert_eq!(wanted.lines().count(), commands.len());
    let mut differing = 0;
    for ((command, want), got) in commands.iter().zip(wanted.lines()).zip(&given) {
        if want != got {
            differing += 1;
            println!("{command}\n  want {want}\n  got  {got}");
        }
    }
    println!("{} vectors, {differing} differ; answers in {}", commands.len(), kept.display());
    assert_eq!(differing, 0);
}
