//! The machine: discovery, the stored image, the checker, and the walk of an image.
use super::direct::{read_status, start, step, write_status, State, Status};
use super::table::{Node, Symbol, Table};
use super::value::uris;
use crate::Resolution;
use std::collections::HashMap;

/// States, and for each its row: the number of the state that each symbol leads to.
pub type Machine = (Vec<State>, Vec<Vec<usize>>);

/// All states that symbols lead to, found breadth first with the symbols in their order, and their rows.
/// Nothing if there are more than `limit`.
pub fn discover(table: &Table, limit: usize) -> Option<Machine> {
    discover_from(table, vec![start(table)], limit)
}

/// The same from several states at once.
pub fn discover_from(table: &Table, mut states: Vec<State>, limit: usize) -> Option<Machine> {
    let urns: Vec<Node> = table.symbols.iter().map(|&symbol| table.steps_as(symbol)).collect();
    let mut numbers: HashMap<State, usize> = states.iter().cloned().zip(0..).collect();
    let mut rows = Vec::new();
    while rows.len() < states.len() {
        let from = states[rows.len()].clone();
        let mut row = Vec::new();
        for urn in &urns {
            let to = step(table, &from, urn);
            let number = *numbers.entry(to.clone()).or_insert(states.len());
            if number == states.len() {
                states.push(to);
            }
            row.push(number);
        }
        if states.len() > limit {
            return None;
        }
        rows.push(row);
    }
    Some((states, rows))
}

/// A state as stored, without its row: the signal, then one byte for each category.
pub fn write_state(table: &Table, state: &State) -> Vec<u8> {
    let status = state.status.iter().enumerate().map(|(c, status)| write_status(table, c, status));
    std::iter::once(state.signal as u8).chain(status).collect()
}

/// The state of so many stored bytes, or nothing if they name no signal or a status that its places do not allow.
fn read_state(table: &Table, stored: &[u8]) -> Option<State> {
    let signal = stored[0] as usize;
    if signal >= table.signals.len() {
        return None;
    }
    let read = |(c, &byte)| read_status(table, signal, c, byte);
    let status = stored[1..].iter().enumerate().map(read).collect::<Option<Vec<Status>>>()?;
    Some(State { signal, status })
}

pub fn write_symbol(symbol: &Symbol) -> [u8; 3] {
    [symbol.category as u8, symbol.node as u8, symbol.other as u8]
}

/// The image of the machine that the table defines, or the refusal number.
pub fn build(table: &[u8], room: usize) -> Result<Vec<u8>, u8> {
    let table = Table::read(table)?;
    let (states, rows) = discover(&table, 256).ok_or(13)?;
    let mut image = vec![table.symbols.len() as u8];
    image.extend(symbol_bytes(&table));
    image.extend((states.len() as u16).to_le_bytes());
    for (state, row) in states.iter().zip(&rows) {
        image.extend(write_state(&table, state));
        image.extend(row.iter().map(|&target| target as u8));
    }
    if room < image.len() {
        return Err(14);
    }
    Ok(image)
}

/// The symbols as stored.
pub fn symbol_bytes(table: &Table) -> Vec<u8> {
    table.symbols.iter().flat_map(write_symbol).collect()
}

/// An image of good form: the states as stored and, for each, one target per symbol.
pub struct Image {
    pub states: Vec<State>,
    pub rows: Vec<Vec<usize>>,
}

/// Number 15: the image ends before its counts or is not as long as they say; its symbols are not those of the table; it
/// has no state or over 256; a state's signal or one of its targets is not there, or the signal's place does not allow one
/// of its statuses.
pub fn read(table: &Table, image: &[u8]) -> Result<Image, u8> {
    let symbol_count = *image.first().ok_or(15)? as usize;
    let low = *image.get(1 + 3 * symbol_count).ok_or(15)?;
    let high = *image.get(2 + 3 * symbol_count).ok_or(15)?;
    let state_count = u16::from_le_bytes([low, high]) as usize;
    let (head, rest) = image.split_at(3 + 3 * symbol_count);
    let head_length = 1 + table.categories.len();
    if rest.len() != state_count * (head_length + symbol_count) || !(1..=256).contains(&state_count) {
        return Err(15);
    }
    if head[1..1 + 3 * symbol_count] != symbol_bytes(table) {
        return Err(15);
    }
    let mut read = Image { states: Vec::new(), rows: Vec::new() };
    for stored in rest.chunks(head_length + symbol_count) {
        let (head, row) = stored.split_at(head_length);
        let row: Vec<usize> = row.iter().map(|&target| target as usize).collect();
        if row.iter().any(|&target| target >= state_count) {
            return Err(15);
        }
        read.states.push(read_state(table, head).ok_or(15)?);
        read.rows.push(row);
    }
    Ok(read)
}

/// The checker.
pub fn check(table: &[u8], image: &[u8]) -> Result<(), u8> {
    let table = Table::read(table)?;
    let image = read(&table, image)?;
    if image.states[0] != start(&table) {
        return Err(16);
    }
    let urns: Vec<Node> = table.symbols.iter().map(|&symbol| table.steps_as(symbol)).collect();
    for (state, row) in image.states.iter().zip(&image.rows) {
        for (urn, &target) in urns.iter().zip(row) {
            if image.states[target] != step(&table, state, urn) {
                return Err(17);
            }
        }
    }
    Ok(())
}

/// The machine resolver: the image's walk over the value's list, checked or not.
pub fn resolve(table: &[u8], image: &[u8], value: &[u8]) -> Result<Resolution, u8> {
    let uris = uris(value)?;
    let table = Table::read(table)?;
    let image = read(&table, image)?;
    let mut state = 0;
    let mut used = 0;
    for uri in &uris {
        if let Some(urn) = table.used(uri) {
            state = image.rows[state][table.symbol(&urn)];
            used += 1;
        }
    }
    let signal = image.states[state].signal as u8;
    Ok(Resolution { refusal: 0, signal, used, skipped: uris.len() as u8 - used })
}
