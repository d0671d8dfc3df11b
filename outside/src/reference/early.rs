//! Ring before the end.
use super::direct::{resolve, start, step, State};
use super::table::Table;
use super::value::front;
use crate::Early;

/// Whether no sequence of symbols leads from this state to another signal. Until the first change the places stand still
/// and each category takes no more than before, so the symbol that changes the signal would do so at once.
pub fn is_settled(table: &Table, state: &State) -> bool {
    table.symbols.iter().all(|&symbol| step(table, state, &table.steps_as(symbol)).signal == state.signal)
}

/// The fewest entries after which the state is settled, or all of a value that ends first: what is read before any fault
/// and before a 65th entry has to be enough.
pub fn ask(bytes: &[u8], value: &[u8]) -> Result<Early, u8> {
    let full = resolve(bytes, value).err();
    if full == Some(1) {
        return Err(1);
    }
    let Ok(table) = Table::read(bytes) else { return Err(full.expect("a refused table is refused")) };
    let (uris, ended) = front(value);
    let mut state = start(&table);
    for entries in 0..=uris.len().min(64) {
        let last = entries == uris.len();
        if is_settled(&table, &state) || last && ended {
            return Ok(Early { refusal: 0, signal: state.signal as u8, entries: entries as u8 });
        }
        if let Some(urn) = uris.get(entries).and_then(|uri| table.used(uri)) {
            state = step(&table, &state, &urn);
        }
    }
    Err(full.expect("a value that is not answered is refused"))
}
