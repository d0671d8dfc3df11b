//! The rules of resolution in plain Rust, one file a section, as simple as possible and with no regard to speed.
//! A path is a list of names, a signal a list of paths, a state a signal with a status for each category.
pub mod available;
pub mod classes;
pub mod direct;
pub mod early;
pub mod fields;
pub mod kept;
pub mod log;
pub mod machine;
pub mod pair;
pub mod sample;
pub mod small;
pub mod table;
pub mod tally;
pub mod tree;
pub mod urn;
pub mod value;

use crate::{Built, Classes, Converted, Early, Kept, Logs, Made, Marks, Match, Pair, Plain, Reader, Record};
use crate::{Resolution, Resolvers, Rung, Samples, Seed, Tables, Tallies, Tally, Trees, Verdict};
use table::Table;

pub struct Reference;

impl Reader for Reference {
    fn value_refusal(value: &[u8]) -> u8 {
        value::uris(value).err().unwrap_or(0)
    }

    fn entries(value: &[u8]) -> usize {
        value::uris(value).map_or(0, |uris| uris.len())
    }

    fn entry(value: &[u8], k: usize) -> &[u8] {
        value::entry(value, k).unwrap_or(&[])
    }

    fn entry_refusal(value: &[u8], k: usize) -> u8 {
        value::entry(value, k).err().unwrap_or(0)
    }
}

impl Tables for Reference {
    fn table_refusal(table: &[u8]) -> u8 {
        Table::read(table).err().unwrap_or(0)
    }

    fn matched(table: &[u8], uri: &[u8]) -> Match {
        match Table::read(table) {
            Ok(table) => table.matched(uri),
            Err(refusal) => Match::refused(refusal),
        }
    }

    fn build(table: &[u8], buffer: &mut [u8]) -> Built {
        built(machine::build(table, buffer.len()), buffer)
    }

    fn check(table: &[u8], image: &[u8]) -> u8 {
        machine::check(table, image).err().unwrap_or(0)
    }
}

/// The buffer has the bytes and then zeros, or zeros alone after a refusal.
fn built(bytes: Result<Vec<u8>, u8>, buffer: &mut [u8]) -> Built {
    buffer.fill(0);
    match bytes {
        Ok(bytes) => {
            buffer[..bytes.len()].copy_from_slice(&bytes);
            Built { refusal: 0, len: bytes.len() }
        }
        Err(refusal) => Built { refusal, len: 0 },
    }
}

impl Classes for Reference {
    fn classes_check(table: &[u8], image: &[u8], classes: &[u8]) -> u8 {
        classes::check(table, image, classes).err().unwrap_or(0)
    }

    fn small_write(table: &[u8], image: &[u8], classes: &[u8], buffer: &mut [u8]) -> Built {
        built(classes::write(table, image, classes, buffer.len()), buffer)
    }

    fn propose(table: &[u8], image: &[u8], buffer: &mut [u8]) -> Built {
        built(classes::propose(table, image, buffer.len()), buffer)
    }
}

impl Resolvers for Reference {
    fn plain(table: &[u8], value: &[u8]) -> Plain {
        direct::resolve(table, value).unwrap_or_else(Plain::refused)
    }

    fn machine(table: &[u8], image: &[u8], value: &[u8]) -> Resolution {
        machine::resolve(table, image, value).unwrap_or_else(Resolution::refused)
    }

    fn small(table: &[u8], small: &[u8], value: &[u8]) -> Resolution {
        small::resolve(table, small, value).unwrap_or_else(Resolution::refused)
    }

    fn feed(table: &[u8], record: &mut Record, value: &[u8]) -> Resolution {
        fields::feed(table, record, value).unwrap_or_else(Resolution::refused)
    }

    fn early(table: &[u8], value: &[u8]) -> Early {
        early::ask(table, value).unwrap_or_else(Early::refused)
    }

    fn available(table: &[u8], available: u32, value: &[u8]) -> Resolution {
        available::resolve(table, available, value).unwrap_or_else(Resolution::refused)
    }

    fn pair(rings: &[u8], lamps: &[u8], value: &[u8]) -> Pair {
        pair::resolve(rings, lamps, value).unwrap_or_else(Pair::refused)
    }
}

impl Marks for Reference {
    fn keeps(table: &[u8], available: u32, node: u8) -> Kept {
        kept::keeps(table, available, node).unwrap_or_else(Kept::refused)
    }

    fn rings(table: &[u8], available: u32, signal: u8) -> Rung {
        kept::rings(table, available, signal).unwrap_or_else(Rung::refused)
    }
}

impl Tallies for Reference {
    fn tally_value(table: &[u8], records: &mut [Tally], refusals: &mut [u32], value: &[u8]) -> Resolution {
        tally::value(table, records, refusals, value).unwrap_or(Resolution::refused(20))
    }
}

impl Logs for Reference {
    fn check_log(table: &[u8], log: &[u8]) -> Verdict {
        log::check(table, log).unwrap_or_else(Verdict::refused)
    }
}

impl Samples for Reference {
    /// The buffer has the value and then what it had; all of it after a refusal.
    fn sample(table: &[u8], seed: &mut Seed, buffer: &mut [u8]) -> Made {
        match sample::value(table, *seed, buffer.len()) {
            Ok((value, after)) => {
                buffer[..value.len()].copy_from_slice(&value);
                *seed = after;
                Made { refusal: 0, len: value.len() }
            }
            Err(refusal) => Made { refusal, len: 0 },
        }
    }
}

/// The buffer has the form and then zeros, or zeros alone after a refusal.
fn converted(form: Result<Vec<u8>, u8>, buffer: &mut [u8]) -> Converted {
    buffer.fill(0);
    match form {
        Ok(form) => {
            buffer[..form.len()].copy_from_slice(&form);
            Converted { refusal: 0, len: form.len() }
        }
        Err(refusal) => Converted { refusal, len: 0 },
    }
}

impl Trees for Reference {
    fn tree_refusal(tree: &[u8]) -> u8 {
        tree::refusal(tree)
    }

    fn from_table(table: &[u8], buffer: &mut [u8]) -> Converted {
        converted(tree::from_table(table, buffer.len()), buffer)
    }

    fn to_table(tree: &[u8], buffer: &mut [u8]) -> Converted {
        converted(tree::to_table(tree, buffer.len()), buffer)
    }
}
