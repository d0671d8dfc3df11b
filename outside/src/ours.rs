//! The proved libraries behind safe functions. The declarations are those of include/*.h.
#[cfg(any(feature = "signal_table", feature = "small_machine"))]
use crate::Built;
#[cfg(feature = "small_machine")]
use crate::Classes;
#[cfg(feature = "alert_info")]
use crate::Reader;
#[cfg(any(feature = "resolver", feature = "tally"))]
use crate::Resolution;
#[cfg(feature = "tree_table")]
use crate::{Converted, Trees};
#[cfg(feature = "resolver")]
use crate::{Early, Pair, Record};
#[cfg(feature = "table_kept")]
use crate::{Kept, Marks, Rung};
#[cfg(feature = "call_log")]
use crate::{Logs, Verdict};
#[cfg(feature = "sample_value")]
use crate::{Made, Samples, Seed};
#[cfg(feature = "signal_table")]
use crate::{Match, Tables};
#[cfg(feature = "resolver")]
use crate::{Plain, Resolvers};
#[cfg(feature = "tally")]
use crate::{Tallies, Tally};

pub struct Ours;

/// Where an entry's URI stands in the value.
#[cfg(feature = "alert_info")]
#[repr(C)]
#[derive(Clone, Copy, Debug, PartialEq, Eq)]
pub struct Span {
    pub start: usize,
    pub len: usize,
}

#[cfg(feature = "alert_info")]
extern "C" {
    fn alert_info_refusal(value: *const u8, len: usize) -> u8;
    fn alert_info_entries(value: *const u8, len: usize) -> usize;
    fn alert_info_entry(value: *const u8, len: usize, k: usize) -> Span;
    fn alert_info_entry_refusal(value: *const u8, len: usize, k: usize) -> u8;
}

#[cfg(feature = "signal_table")]
extern "C" {
    fn signal_table_refusal(table: *const u8, len: usize) -> u8;
    fn signal_table_match(table: *const u8, len: usize, uri: *const u8, uri_len: usize) -> Match;
    fn machine_build(table: *const u8, len: usize, buf: *mut u8, room: usize) -> Built;
    fn machine_check(table: *const u8, len: usize, image: *const u8, image_len: usize) -> u8;
}

#[cfg(feature = "small_machine")]
extern "C" {
    fn machine_classes_check(
        table: *const u8,
        len: usize,
        image: *const u8,
        image_len: usize,
        classes: *const u8,
        classes_len: usize,
    ) -> u8;
    fn machine_small_write(
        table: *const u8,
        len: usize,
        image: *const u8,
        image_len: usize,
        classes: *const u8,
        classes_len: usize,
        buf: *mut u8,
        room: usize,
    ) -> Built;
    fn machine_propose(
        table: *const u8,
        len: usize,
        image: *const u8,
        image_len: usize,
        buf: *mut u8,
        room: usize,
    ) -> Built;
}

#[cfg(feature = "tree_table")]
extern "C" {
    fn tree_table_refusal(tree: *const u8, len: usize) -> u8;
    fn tree_table_from_signal_table(table: *const u8, len: usize, buf: *mut u8, room: usize) -> Converted;
    fn tree_table_to_signal_table(tree: *const u8, len: usize, buf: *mut u8, room: usize) -> Converted;
}

#[cfg(feature = "resolver")]
extern "C" {
    fn resolve_plain(table: *const u8, len: usize, value: *const u8, value_len: usize) -> Plain;
    fn resolve_machine(
        table: *const u8,
        len: usize,
        image: *const u8,
        image_len: usize,
        value: *const u8,
        value_len: usize,
    ) -> Resolution;
    fn resolve_small(
        table: *const u8,
        len: usize,
        small: *const u8,
        small_len: usize,
        value: *const u8,
        value_len: usize,
    ) -> Resolution;
    fn resolve_feed(
        table: *const u8,
        len: usize,
        record: *mut Record,
        value: *const u8,
        value_len: usize,
    ) -> Resolution;
    fn resolve_early(table: *const u8, len: usize, value: *const u8, value_len: usize) -> Early;
    fn resolve_available(
        table: *const u8,
        len: usize,
        available: u32,
        value: *const u8,
        value_len: usize,
    ) -> Resolution;
    fn resolve_pair(
        rings: *const u8,
        rings_len: usize,
        lamps: *const u8,
        lamps_len: usize,
        value: *const u8,
        value_len: usize,
    ) -> Pair;
}

#[cfg(feature = "tally")]
extern "C" {
    fn tally_value(
        table: *const u8,
        len: usize,
        records: *mut Tally,
        n: usize,
        refusals: *mut u32,
        m: usize,
        value: *const u8,
        value_len: usize,
    ) -> Resolution;
}

#[cfg(feature = "call_log")]
extern "C" {
    fn call_log_check(table: *const u8, len: usize, log: *const u8, log_len: usize) -> Verdict;
}

// SAFETY of every call below: a slice gives a pointer to as many bytes as its length says, for the length of the
// call, and the libraries keep no pointer. A slice lent as `&mut` is lent to nobody else.

#[cfg(feature = "alert_info")]
impl Reader for Ours {
    fn value_refusal(value: &[u8]) -> u8 {
        unsafe { alert_info_refusal(value.as_ptr(), value.len()) }
    }

    fn entries(value: &[u8]) -> usize {
        unsafe { alert_info_entries(value.as_ptr(), value.len()) }
    }

    fn entry(value: &[u8], k: usize) -> &[u8] {
        let span = unsafe { alert_info_entry(value.as_ptr(), value.len(), k) };
        &value[span.start..span.start + span.len]
    }

    fn entry_refusal(value: &[u8], k: usize) -> u8 {
        unsafe { alert_info_entry_refusal(value.as_ptr(), value.len(), k) }
    }
}

#[cfg(feature = "signal_table")]
impl Tables for Ours {
    fn table_refusal(table: &[u8]) -> u8 {
        unsafe { signal_table_refusal(table.as_ptr(), table.len()) }
    }

    fn matched(table: &[u8], uri: &[u8]) -> Match {
        unsafe { signal_table_match(table.as_ptr(), table.len(), uri.as_ptr(), uri.len()) }
    }

    fn build(table: &[u8], buffer: &mut [u8]) -> Built {
        unsafe { machine_build(table.as_ptr(), table.len(), buffer.as_mut_ptr(), buffer.len()) }
    }

    fn check(table: &[u8], image: &[u8]) -> u8 {
        unsafe { machine_check(table.as_ptr(), table.len(), image.as_ptr(), image.len()) }
    }
}

#[cfg(feature = "small_machine")]
impl Classes for Ours {
    fn classes_check(table: &[u8], image: &[u8], classes: &[u8]) -> u8 {
        unsafe {
            machine_classes_check(
                table.as_ptr(),
                table.len(),
                image.as_ptr(),
                image.len(),
                classes.as_ptr(),
                classes.len(),
            )
        }
    }

    fn small_write(table: &[u8], image: &[u8], classes: &[u8], buffer: &mut [u8]) -> Built {
        unsafe {
            machine_small_write(
                table.as_ptr(),
                table.len(),
                image.as_ptr(),
                image.len(),
                classes.as_ptr(),
                classes.len(),
                buffer.as_mut_ptr(),
                buffer.len(),
            )
        }
    }

    fn propose(table: &[u8], image: &[u8], buffer: &mut [u8]) -> Built {
        unsafe {
            machine_propose(table.as_ptr(), table.len(), image.as_ptr(), image.len(), buffer.as_mut_ptr(), buffer.len())
        }
    }
}

#[cfg(feature = "tree_table")]
impl Trees for Ours {
    fn tree_refusal(tree: &[u8]) -> u8 {
        unsafe { tree_table_refusal(tree.as_ptr(), tree.len()) }
    }

    fn from_table(table: &[u8], buffer: &mut [u8]) -> Converted {
        unsafe { tree_table_from_signal_table(table.as_ptr(), table.len(), buffer.as_mut_ptr(), buffer.len()) }
    }

    fn to_table(tree: &[u8], buffer: &mut [u8]) -> Converted {
        unsafe { tree_table_to_signal_table(tree.as_ptr(), tree.len(), buffer.as_mut_ptr(), buffer.len()) }
    }
}

#[cfg(feature = "resolver")]
impl Resolvers for Ours {
    fn plain(table: &[u8], value: &[u8]) -> Plain {
        unsafe { resolve_plain(table.as_ptr(), table.len(), value.as_ptr(), value.len()) }
    }

    fn machine(table: &[u8], image: &[u8], value: &[u8]) -> Resolution {
        unsafe {
            resolve_machine(table.as_ptr(), table.len(), image.as_ptr(), image.len(), value.as_ptr(), value.len())
        }
    }

    fn small(table: &[u8], small: &[u8], value: &[u8]) -> Resolution {
        unsafe { resolve_small(table.as_ptr(), table.len(), small.as_ptr(), small.len(), value.as_ptr(), value.len()) }
    }

    fn feed(table: &[u8], record: &mut Record, value: &[u8]) -> Resolution {
        unsafe { resolve_feed(table.as_ptr(), table.len(), record, value.as_ptr(), value.len()) }
    }

    fn early(table: &[u8], value: &[u8]) -> Early {
        unsafe { resolve_early(table.as_ptr(), table.len(), value.as_ptr(), value.len()) }
    }

    fn available(table: &[u8], available: u32, value: &[u8]) -> Resolution {
        unsafe { resolve_available(table.as_ptr(), table.len(), available, value.as_ptr(), value.len()) }
    }

    fn pair(rings: &[u8], lamps: &[u8], value: &[u8]) -> Pair {
        unsafe { resolve_pair(rings.as_ptr(), rings.len(), lamps.as_ptr(), lamps.len(), value.as_ptr(), value.len()) }
    }
}

#[cfg(feature = "tally")]
impl Tallies for Ours {
    fn tally_value(table: &[u8], records: &mut [Tally], refusals: &mut [u32], value: &[u8]) -> Resolution {
        unsafe {
            tally_value(
                table.as_ptr(),
                table.len(),
                records.as_mut_ptr(),
                records.len(),
                refusals.as_mut_ptr(),
                refusals.len(),
                value.as_ptr(),
                value.len(),
            )
        }
    }
}

#[cfg(feature = "call_log")]
impl Logs for Ours {
    fn check_log(table: &[u8], log: &[u8]) -> Verdict {
        unsafe { call_log_check(table.as_ptr(), table.len(), log.as_ptr(), log.len()) }
    }
}

#[cfg(feature = "sample_value")]
extern "C" {
    fn sample_value_make(table: *const u8, len: usize, seed: *mut Seed, buf: *mut u8, room: usize) -> Made;
}

#[cfg(feature = "sample_value")]
impl Samples for Ours {
    fn sample(table: &[u8], seed: &mut Seed, buffer: &mut [u8]) -> Made {
        unsafe { sample_value_make(table.as_ptr(), table.len(), seed, buffer.as_mut_ptr(), buffer.len()) }
    }
}

#[cfg(feature = "table_kept")]
extern "C" {
    fn alert_signal_table_keeps(table: *const u8, table_len: usize, available: u32, node: u8) -> Kept;
    fn alert_signal_table_rings(table: *const u8, table_len: usize, available: u32, signal: u8) -> Rung;
}

#[cfg(feature = "table_kept")]
impl Marks for Ours {
    fn keeps(table: &[u8], available: u32, node: u8) -> Kept {
        unsafe { alert_signal_table_keeps(table.as_ptr(), table.len(), available, node) }
    }

    fn rings(table: &[u8], available: u32, signal: u8) -> Rung {
        unsafe { alert_signal_table_rings(table.as_ptr(), table.len(), available, signal) }
    }
}
