//! The same answers in plain Rust without allocation, written for speed: what the proved libraries are timed against.
mod classes;
mod early;
mod kept;
mod log;
mod machine;
mod resolve;
mod sample;
mod table;
mod tally;
mod tree;
mod urn;
mod value;

use crate::{Built, Classes, Converted, Early, Kept, Logs, Made, Marks, Match, Pair, Plain, Reader, Record};
use crate::{Resolution, Resolvers, Rung, Samples, Seed, Tables, Tallies, Tally, Trees, Verdict};

pub struct Baseline;

impl Reader for Baseline {
    fn value_refusal(value: &[u8]) -> u8 {
        value::scan(value, |_, _, _| ()).err().unwrap_or(0)
    }

    fn entries(value: &[u8]) -> usize {
        value::scan(value, |_, _, _| ()).unwrap_or(0)
    }

    fn entry(value: &[u8], k: usize) -> &[u8] {
        value::entry(value, k).unwrap_or(&[])
    }

    fn entry_refusal(value: &[u8], k: usize) -> u8 {
        value::entry(value, k).err().unwrap_or(0)
    }
}

impl Tables for Baseline {
    fn table_refusal(table: &[u8]) -> u8 {
        table::Decoded::read(table).err().unwrap_or(0)
    }

    fn matched(table: &[u8], uri: &[u8]) -> Match {
        match table::Decoded::read(table) {
            Ok(table) => table.matched(uri),
            Err(refusal) => Match::refused(refusal),
        }
    }

    fn build(table: &[u8], buffer: &mut [u8]) -> Built {
        built(machine::build(table, buffer), buffer)
    }

    fn check(table: &[u8], image: &[u8]) -> u8 {
        machine::check(table, image).err().unwrap_or(0)
    }
}

/// The bytes with zeros behind them, or zeros alone after a refusal.
fn built(bytes: Result<usize, u8>, buffer: &mut [u8]) -> Built {
    let len = bytes.unwrap_or(0);
    buffer[len..].fill(0);
    Built { refusal: bytes.err().unwrap_or(0), len }
}

impl Classes for Baseline {
    fn classes_check(table: &[u8], image: &[u8], classes: &[u8]) -> u8 {
        classes::check(table, image, classes).err().unwrap_or(0)
    }

    fn small_write(table: &[u8], image: &[u8], classes: &[u8], buffer: &mut [u8]) -> Built {
        built(classes::write(table, image, classes, buffer), buffer)
    }

    fn propose(table: &[u8], image: &[u8], buffer: &mut [u8]) -> Built {
        built(classes::propose(table, image, buffer), buffer)
    }
}

impl Resolvers for Baseline {
    fn plain(table: &[u8], value: &[u8]) -> Plain {
        resolve::plain(table, value).unwrap_or_else(Plain::refused)
    }

    fn machine(table: &[u8], image: &[u8], value: &[u8]) -> Resolution {
        resolve::machine(table, image, value).unwrap_or_else(Resolution::refused)
    }

    fn small(table: &[u8], small: &[u8], value: &[u8]) -> Resolution {
        resolve::small(table, small, value).unwrap_or_else(Resolution::refused)
    }

    fn feed(table: &[u8], record: &mut Record, value: &[u8]) -> Resolution {
        resolve::feed(table, record, value).unwrap_or_else(Resolution::refused)
    }

    fn early(table: &[u8], value: &[u8]) -> Early {
        early::ask(table, value).unwrap_or_else(Early::refused)
    }

    fn available(table: &[u8], available: u32, value: &[u8]) -> Resolution {
        resolve::available(table, available, value).unwrap_or_else(Resolution::refused)
    }

    fn pair(rings: &[u8], lamps: &[u8], value: &[u8]) -> Pair {
        resolve::pair(rings, lamps, value).unwrap_or_else(Pair::refused)
    }
}

impl Marks for Baseline {
    fn keeps(table: &[u8], available: u32, node: u8) -> Kept {
        kept::keeps(table, available, node).unwrap_or_else(Kept::refused)
    }

    fn rings(table: &[u8], available: u32, signal: u8) -> Rung {
        kept::rings(table, available, signal).unwrap_or_else(Rung::refused)
    }
}

impl Tallies for Baseline {
    fn tally_value(table: &[u8], records: &mut [Tally], refusals: &mut [u32], value: &[u8]) -> Resolution {
        tally::value(table, records, refusals, value).unwrap_or(Resolution::refused(20))
    }
}

impl Logs for Baseline {
    fn check_log(table: &[u8], log: &[u8]) -> Verdict {
        log::check(table, log).unwrap_or_else(Verdict::refused)
    }
}

impl Samples for Baseline {
    fn sample(table: &[u8], seed: &mut Seed, buffer: &mut [u8]) -> Made {
        match sample::write(table, seed, buffer) {
            Ok(len) => Made { refusal: 0, len },
            Err(refusal) => Made { refusal, len: 0 },
        }
    }
}

/// The form with zeros behind it, or zeros alone after a refusal.
fn converted(form: Result<usize, u8>, buffer: &mut [u8]) -> Converted {
    let len = form.unwrap_or(0);
    buffer[len..].fill(0);
    Converted { refusal: form.err().unwrap_or(0), len }
}

impl Trees for Baseline {
    fn tree_refusal(tree: &[u8]) -> u8 {
        tree::refusal(tree)
    }

    fn from_table(table: &[u8], buffer: &mut [u8]) -> Converted {
        converted(tree::from_table(table, buffer), buffer)
    }

    fn to_table(tree: &[u8], buffer: &mut [u8]) -> Converted {
        converted(tree::to_table(tree, buffer), buffer)
    }
}
