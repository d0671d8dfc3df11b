//! The monthly count, by the sums as they would be.
use super::table::Table;
use super::Reference;
use crate::{Resolution, Resolvers, Tally};

const MOST: u64 = u32::MAX as u64;

/// The value's resolution, counted; or nothing, and then nothing is.
pub fn value(table: &[u8], records: &mut [Tally], refusals: &mut [u32], value: &[u8]) -> Option<Resolution> {
    let signals = Table::read(table).map_or(0, |table| table.signals.len());
    if refusals.len() < 12 || records.len() < signals {
        return None;
    }
    let answer = Reference::plain(table, value).resolution();
    if answer.refusal != 0 {
        let count = &mut refusals[answer.refusal as usize - 1];
        *count = sum(*count, 1)?;
        return Some(answer);
    }
    let record = &mut records[answer.signal as usize];
    *record = Tally {
        chosen: sum(record.chosen, 1)?,
        used: sum(record.used, answer.used)?,
        skipped: sum(record.skipped, answer.skipped)?,
    };
    Some(answer)
}

fn sum(count: u32, more: u8) -> Option<u32> {
    let sum = u64::from(count) + u64::from(more);
    (sum <= MOST).then_some(sum as u32)
}
