//! Several values of one message, fed one after another.
use super::direct::{read_status, step, write_status, State, Status};
use super::table::{Node, Table};
use super::value::uris;
use crate::{Record, Resolution, VALUES};

/// The state that a record carries: nothing if it names no signal, has a status that the signal's places do not allow or
/// that is not open in a category that the table lacks, or a number of values that there cannot be.
fn state(table: &Table, record: &Record) -> Option<State> {
    let signal = record.signal as usize;
    let (ours, others) = record.status.split_at(table.categories.len());
    if signal >= table.signals.len() || others.iter().any(|&status| status != 0) || record.values > VALUES {
        return None;
    }
    let read = |(c, &byte)| read_status(table, signal, c, byte);
    let status = ours.iter().enumerate().map(read).collect::<Option<Vec<Status>>>()?;
    Some(State { signal, status })
}

pub fn feed(table: &[u8], record: &mut Record, value: &[u8]) -> Result<Resolution, u8> {
    let table = Table::read(table)?;
    let carried = state(&table, record).ok_or(28)?;
    if record.values == VALUES {
        return Err(19);
    }
    record.values += 1;
    let uris = uris(value)?;
    let used: Vec<Node> = uris.iter().filter_map(|uri| table.used(uri)).collect();
    let end = used.iter().fold(carried, |state, urn| step(&table, &state, urn));
    record.signal = end.signal as u8;
    for (c, status) in end.status.iter().enumerate() {
        record.status[c] = write_status(&table, c, status);
    }
    let skipped = uris.len() - used.len();
    Ok(Resolution { refusal: 0, signal: record.signal, used: used.len() as u8, skipped: skipped as u8 })
}
