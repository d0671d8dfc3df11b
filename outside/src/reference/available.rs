//! Resolving where some signals cannot be given: the search does not find them, and all else stays the table's.
use super::direct::{start, step_among};
use super::table::{Node, Table};
use super::value::uris;
use crate::Resolution;

pub fn resolve(table: &[u8], available: u32, value: &[u8]) -> Result<Resolution, u8> {
    let uris = uris(value)?;
    let table = Table::read(table)?;
    let given: Vec<usize> = (0..32).filter(|&signal| signal == 0 || available >> signal & 1 == 1).collect();
    if given.iter().any(|&signal| signal >= table.signals.len()) {
        return Err(23);
    }
    let used: Vec<Node> = uris.iter().filter_map(|uri| table.used(uri)).collect();
    let end = used.iter().fold(start(&table), |state, urn| step_among(&table, &given, &state, urn));
    Ok(Resolution {
        refusal: 0,
        signal: end.signal as u8,
        used: used.len() as u8,
        skipped: (uris.len() - used.len()) as u8,
    })
}
