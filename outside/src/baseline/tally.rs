//! The monthly count.
use super::resolve::plain_by;
use super::table::Decoded;
use super::value::Uris;
use crate::{Resolution, Tally};

/// The value's resolution, counted; or nothing, and then nothing is.
pub fn value(table: &[u8], records: &mut [Tally], refusals: &mut [u32], value: &[u8]) -> Option<Resolution> {
    let table = Decoded::read(table);
    let signals = table.as_ref().map_or(0, |table| table.signal_count);
    if refusals.len() < 12 || records.len() < signals {
        return None;
    }
    let answer = Uris::read(value).and_then(|uris| table.map(|table| plain_by(&table, value, &uris)));
    match answer {
        Ok(answer) => {
            let record = &mut records[answer.signal as usize];
            *record = Tally {
                chosen: record.chosen.checked_add(1)?,
                used: record.used.checked_add(answer.used.into())?,
                skipped: record.skipped.checked_add(answer.skipped.into())?,
            };
            Some(answer.resolution())
        }
        Err(number) => {
            let count = &mut refusals[number as usize - 1];
            *count = count.checked_add(1)?;
            Some(Resolution::refused(number))
        }
    }
}
