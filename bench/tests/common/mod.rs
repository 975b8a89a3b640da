//! A drive with its store and buffers, and short ways to send it commands.
#![allow(dead_code)]

use bench::manager::{Answer, Block, Command, Config, Listed, State, Table, ANY_BLOCK};
use bench::recorder::{self, Call};

pub use bench::manager::Answer::{Block as AnswerBlock, Done, Refused};

pub const FRESH: u64 = 0x5EED;

pub const SMALL: Config =
    Config { pages: 128, dies: 1, planes: 1, adus: 1, blocks: 8, rated: 1_000, period: 60 };

pub struct Drive {
    pub table: Table,
    pub store: Vec<u64>,
    pub words: Vec<u64>,
    pub bytes: Vec<u8>,
}

impl Drive {
    pub fn start(config: Config) -> Drive {
        let (answer, table) = Table::start(config);
        assert_eq!(answer, Done);
        Drive {
            table,
            store: vec![FRESH; config.store_entries() as usize],
            words: vec![FRESH; 256],
            bytes: vec![0xA5; 4096],
        }
    }

    /// Serves a command or a recorder's call, and checks what holds for every one: a refused one
    /// changes nothing, and a sound table stays sound.
    pub fn serve(&mut self, call: impl Into<Call>) -> Answer {
        let call = call.into();
        let before =
            (self.table.clone(), self.store.clone(), self.words.clone(), self.bytes.clone());
        let sound = self.table.is_sound();
        let Drive { table, store, words, bytes } = self;
        let answer = recorder::serve(table, call, store, words, bytes);
        if let Refused(_) = answer {
            assert!(self.table == before.0, "{call:?} was refused and changed the table");
            assert!(self.store == before.1, "{call:?} was refused and changed the store");
            assert!(self.words == before.2, "{call:?} was refused and changed the words");
            assert!(self.bytes == before.3, "{call:?} was refused and changed the bytes");
        }
        assert_eq!(self.table.is_sound(), sound, "{call:?}");
        answer
    }

    pub fn create(
        &mut self,
        domain: u64,
        guarantee: u64,
        quota: u64,
        ids: u64,
        limit: u64,
    ) -> Answer {
        self.serve(Command::Create { domain, guarantee, quota, placements: ids, limit })
    }

    pub fn change(&mut self, domain: u64, guarantee: u64, quota: u64) -> Answer {
        self.serve(Command::ChangeCapacity { domain, guarantee, quota })
    }

    pub fn delete(&mut self, domain: u64) -> Answer {
        self.serve(Command::Delete { domain })
    }

    pub fn erase(&mut self, domain: u64, block: u64) -> Answer {
        self.serve(Command::Erase { domain, block })
    }

    pub fn erase_any(&mut self, domain: u64) -> Answer {
        self.erase(domain, ANY_BLOCK)
    }

    pub fn close(&mut self, domain: u64, block: u64) -> Answer {
        self.serve(Command::Close { domain, block })
    }

    pub fn free(&mut self, domain: u64, block: u64) -> Answer {
        self.serve(Command::Free { domain, block })
    }

    pub fn write(&mut self, domain: u64, placement: u64, start: u64, count: u64) -> Answer {
        self.serve(Command::WriteByPlacement { domain, placement, start, count })
    }

    pub fn write_block(&mut self, domain: u64, block: u64, start: u64, count: u64) -> Answer {
        self.serve(Command::WriteByBlock { domain, block, start, count })
    }

    pub fn read(&mut self, domain: u64, address: u64, count: u64, expected: u64) -> Answer {
        self.serve(Command::Read { domain, address, count, expected })
    }

    pub fn page(&mut self, domain: u64, block: u64) -> Answer {
        self.serve(Command::Page { domain, block })
    }

    pub fn list(&mut self, domain: u64, listed: Listed) -> Answer {
        self.serve(Command::List { domain, listed })
    }

    pub fn pulse(&mut self, seconds: u64) -> Answer {
        self.serve(Command::Pulse { seconds })
    }

    pub fn append(&mut self, domain: u64, sample: u64) -> Answer {
        self.serve(Call::Append { domain, sample })
    }

    pub fn latest(&mut self, domain: u64, count: u64) -> Answer {
        self.serve(Call::Latest { domain, count })
    }

    pub fn block(&self, number: usize) -> Block {
        self.table.blocks[number]
    }

    pub fn state(&self, number: usize) -> State {
        self.table.blocks[number].state
    }

    pub fn open_blocks(&self) -> usize {
        let present = &self.table.blocks[..self.table.config.blocks as usize];
        present.iter().filter(|block| matches!(block.state, State::Open(_))).count()
    }

    /// A block's entries of the store.
    pub fn entries(&self, number: usize) -> &[u64] {
        let capacity = self.table.config.adus_in_block() as usize;
        &self.store[number * capacity..][..capacity]
    }
}

/// The drive small with domain 1, as the proved table has it.
pub fn small_with_domain_1() -> Drive {
    let mut drive = Drive::start(SMALL);
    assert_eq!(drive.create(1, 300, 200, 2, 1), Done);
    drive
}
