//! Small images: their form, and their walk.
use super::machine::write_symbol;
use super::table::Table;
use super::value::uris;
use crate::Resolution;

/// A class: its signal, and for each symbol the class that it leads to.
struct Class {
    signal: u8,
    row: Vec<u8>,
}

/// The classes of a small image of good form. Number 15: it ends before its counts or is not as long as they say; its
/// symbols are not those of the table; it has no class or over 256; a class's signal or one of its targets is not there.
fn read(table: &Table, small: &[u8]) -> Option<Vec<Class>> {
    let symbol_count = *small.first()? as usize;
    let symbols = small.get(1..1 + 3 * symbol_count)?;
    let counts = small.get(1 + 3 * symbol_count..3 + 3 * symbol_count)?;
    let class_count = counts[0] as usize + 256 * counts[1] as usize;
    let mut rest = &small[3 + 3 * symbol_count..];
    let mut classes = Vec::new();
    while !rest.is_empty() {
        let row = rest.get(1..1 + symbol_count)?.to_vec();
        classes.push(Class { signal: rest[0], row });
        rest = &rest[1 + symbol_count..];
    }
    let right = classes.len() == class_count
        && (1..=256).contains(&class_count)
        && symbols == table.symbols.iter().flat_map(write_symbol).collect::<Vec<u8>>()
        && classes.iter().all(|class| (class.signal as usize) < table.signals.len())
        && classes.iter().flat_map(|class| &class.row).all(|&target| (target as usize) < class_count);
    right.then_some(classes)
}

/// The resolver of small images: the walk from class 0 over the value's list, whoever made the classes.
pub fn resolve(table: &[u8], small: &[u8], value: &[u8]) -> Result<Resolution, u8> {
    let uris = uris(value)?;
    let table = Table::read(table)?;
    let classes = read(&table, small).ok_or(15)?;
    let used: Vec<_> = uris.iter().filter_map(|uri| table.used(uri)).collect();
    let end = used.iter().fold(0, |class: usize, urn| classes[class].row[table.symbol(urn)] as usize);
    let skipped = (uris.len() - used.len()) as u8;
    Ok(Resolution { refusal: 0, signal: classes[end].signal, used: used.len() as u8, skipped })
}
