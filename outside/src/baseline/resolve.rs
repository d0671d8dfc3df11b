//! The resolvers.
use super::machine::{classes, rows, Symbols};
use super::table::{Decoded, State, START};
use super::value::Uris;
use crate::{Pair, Plain, Record, Resolution, VALUES};

pub fn plain(table: &[u8], value: &[u8]) -> Result<Plain, u8> {
    let uris = Uris::read(value)?;
    let table = Decoded::read(table)?;
    Ok(plain_by(&table, value, &uris))
}

/// The plain resolution of a value that was read, by a table that was.
pub fn plain_by(table: &Decoded, value: &[u8], uris: &Uris) -> Plain {
    let mut state = START;
    let mut used = 0;
    let mut tries = 0;
    for uri in uris.iter(value) {
        if let Some((category, node, whole)) = table.find(uri) {
            let (next, more) = table.step_counted(state, category, node, whole);
            state = next;
            used += 1;
            tries += more;
        }
    }
    Plain { refusal: 0, signal: state.signal, used, skipped: uris.count as u8 - used, tries }
}

pub fn available(table: &[u8], available: u32, value: &[u8]) -> Result<Resolution, u8> {
    let uris = Uris::read(value)?;
    let mut table = Decoded::read(table)?;
    if u64::from(available) >> table.signal_count != 0 {
        return Err(23);
    }
    table.lose(available);
    Ok(plain_by(&table, value, &uris).resolution())
}

/// Each table by itself, entry by entry.
pub fn pair(rings: &[u8], lamps: &[u8], value: &[u8]) -> Result<Pair, u8> {
    let uris = Uris::read(value)?;
    let rings = Decoded::read(rings)?;
    let lamps = Decoded::read(lamps)?;
    if rings.shares_category(&lamps) {
        return Err(24);
    }
    let (mut ring, mut lamp) = (START, START);
    for uri in uris.iter(value) {
        if let Some((category, node, whole)) = rings.find(uri) {
            ring = rings.step(ring, category, node, whole);
        } else if let Some((category, node, whole)) = lamps.find(uri) {
            lamp = lamps.step(lamp, category, node, whole);
        }
    }
    Ok(Pair { refusal: 0, ring: ring.signal, lamp: lamp.signal })
}

pub fn machine(table: &[u8], image: &[u8], value: &[u8]) -> Result<Resolution, u8> {
    let uris = Uris::read(value)?;
    let table = Decoded::read(table)?;
    let symbols = Symbols::of(&table);
    let rows = rows(&table, &symbols, image)?;
    Ok(walk(&table, &symbols, rows, 1 + table.category_count, value, &uris))
}

pub fn small(table: &[u8], small: &[u8], value: &[u8]) -> Result<Resolution, u8> {
    let uris = Uris::read(value)?;
    let table = Decoded::read(table)?;
    let symbols = Symbols::of(&table);
    let rows = classes(&table, &symbols, small)?;
    Ok(walk(&table, &symbols, rows, 1, value, &uris))
}

/// The walk of rows whose targets stand behind so many bytes of their own.
fn walk(table: &Decoded, symbols: &Symbols, rows: &[u8], own: usize, value: &[u8], uris: &Uris) -> Resolution {
    let width = own + symbols.count;
    let mut row = 0;
    let mut used = 0;
    for uri in uris.iter(value) {
        if let Some((category, node, whole)) = table.find(uri) {
            row = width * rows[row + own + symbols.index(table, category, node, whole)] as usize;
            used += 1;
        }
    }
    Resolution { refusal: 0, signal: rows[row], used, skipped: uris.count as u8 - used }
}

/// The state that a record carries, if it is one of the table.
fn carried(table: &Decoded, record: &Record) -> Result<State, u8> {
    if record.signal as usize >= table.signal_count || record.values > VALUES {
        return Err(28);
    }
    for (c, &status) in record.status.iter().enumerate() {
        if status != 0 && (c >= table.category_count || !table.fits(record.signal, c, status)) {
            return Err(28);
        }
    }
    Ok(State { signal: record.signal, status: u64::from_le_bytes(record.status) })
}

pub fn feed(table: &[u8], record: &mut Record, value: &[u8]) -> Result<Resolution, u8> {
    let table = Decoded::read(table)?;
    let mut state = carried(&table, record)?;
    if record.values == VALUES {
        return Err(19);
    }
    record.values += 1;
    let uris = Uris::read(value)?;
    let mut used = 0;
    for uri in uris.iter(value) {
        if let Some((category, node, whole)) = table.find(uri) {
            state = table.step(state, category, node, whole);
            used += 1;
        }
    }
    record.signal = state.signal;
    record.status = state.status.to_le_bytes();
    Ok(Resolution { refusal: 0, signal: state.signal, used, skipped: uris.count as u8 - used })
}
