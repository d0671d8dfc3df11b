//! Random records of messages with several values.
use super::tables::Draft;
use super::Random;
use crate::reference::direct::read_status;
use crate::reference::table::Table;
use crate::{Record, VALUES};

/// The record whose ten bytes these are.
pub fn of_bytes(bytes: [u8; 10]) -> Record {
    let mut status = [0; 8];
    status.copy_from_slice(&bytes[1..9]);
    Record { signal: bytes[0], status, values: bytes[9] }
}

/// Mostly a record that fits the table, sometimes with a byte that need not.
pub fn record(random: &mut Random, draft: &Draft) -> Record {
    let mut bytes = [0; 10];
    bytes[0] = random.below(draft.signals.len().max(1)) as u8;
    let read = Table::read(&draft.bytes()).ok();
    for c in 0..draft.categories.len().min(8) {
        let fits = |byte: &u8| match &read {
            Some(table) => read_status(table, bytes[0] as usize, c, *byte).is_some(),
            None => *byte < 2,
        };
        let statuses: Vec<u8> = (0..66).filter(fits).collect();
        bytes[1 + c] = if random.percent(50) { *random.pick(&statuses) } else { 0 };
    }
    bytes[9] = random.below(VALUES as usize + 1) as u8;
    if random.percent(30) {
        let at = random.below(10);
        bytes[at] = if random.percent(50) { random.between(0, 18) as u8 } else { random.byte() };
    }
    of_bytes(bytes)
}
