//! The proved library's functions, behind safe wrappers.

use crate::flat::{config_words, COMMAND_WORDS, TABLE_WORDS};
use crate::manager::Config;

extern "C" {
    fn trial_start(
        pages: u64,
        dies: u64,
        planes: u64,
        adus: u64,
        blocks: u64,
        rated: u64,
        period: u64,
        table: *mut u64,
        table_len: usize,
    ) -> u64;

    fn trial_serve(
        kind: u64,
        a: u64,
        b: u64,
        c: u64,
        d: u64,
        e: u64,
        table: *mut u64,
        table_len: usize,
        store: *mut u64,
        store_len: usize,
        words: *mut u64,
        words_len: usize,
        bytes: *mut u8,
        bytes_len: usize,
    ) -> u64;

    fn trial_run(
        rounds: u64,
        commands: *const u64,
        commands_len: usize,
        table: *mut u64,
        table_len: usize,
        store: *mut u64,
        store_len: usize,
        words: *mut u64,
        words_len: usize,
        bytes: *mut u8,
        bytes_len: usize,
    ) -> u64;
}

/// Starts a drive in the row: 0, or the refusal's number.
pub fn start(config: &Config, table: &mut [u64]) -> u64 {
    assert!(table.len() >= TABLE_WORDS);
    let [pages, dies, planes, adus, blocks, rated, period] = config_words(config);
    // SAFETY: the pointer and the length are those of a slice that is lent for the call alone.
    unsafe {
        trial_start(
            pages,
            dies,
            planes,
            adus,
            blocks,
            rated,
            period,
            table.as_mut_ptr(),
            table.len(),
        )
    }
}

/// Serves one command on the table in the row: the answer's number.
pub fn serve(
    command: &[u64; COMMAND_WORDS],
    table: &mut [u64],
    store: &mut [u64],
    words: &mut [u64],
    bytes: &mut [u8],
) -> u64 {
    assert!(table.len() >= TABLE_WORDS);
    let [kind, a, b, c, d, e] = *command;
    // SAFETY: the pointers and lengths are those of slices that are lent for the call alone, and
    // as they are lent for changing no two of them overlap.
    unsafe {
        trial_serve(
            kind,
            a,
            b,
            c,
            d,
            e,
            table.as_mut_ptr(),
            table.len(),
            store.as_mut_ptr(),
            store.len(),
            words.as_mut_ptr(),
            words.len(),
            bytes.as_mut_ptr(),
            bytes.len(),
        )
    }
}

/// Serves `rounds` commands, the row of commands over and over: the checksum of their answers.
pub fn run(
    rounds: u64,
    commands: &[u64],
    table: &mut [u64],
    store: &mut [u64],
    words: &mut [u64],
    bytes: &mut [u8],
) -> u64 {
    assert!(table.len() >= TABLE_WORDS);
    assert!(!commands.is_empty() && commands.len().is_multiple_of(COMMAND_WORDS));
    // SAFETY: the pointers and lengths are those of slices that are lent for the call alone; the
    // commands are only read, and no two of the others overlap as they are lent for changing.
    unsafe {
        trial_run(
            rounds,
            commands.as_ptr(),
            commands.len(),
            table.as_mut_ptr(),
            table.len(),
            store.as_mut_ptr(),
            store.len(),
            words.as_mut_ptr(),
            words.len(),
            bytes.as_mut_ptr(),
            bytes.len(),
        )
    }
}
