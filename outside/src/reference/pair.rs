//! Ring and lamp chosen apart: direct resolution over the table of all pairs, which keeps no limit.
use super::direct::{start, step};
use super::table::{Node, Table};
use super::urn::Path;
use super::value::uris;
use crate::Pair;

/// The categories of both tables, and a signal for every ring with every lamp, placed as both are. It has no symbols, since
/// no machine is made of it.
fn table_of_pairs(rings: &Table, lamps: &Table) -> Table {
    let pair = |ring: &Vec<Path>, lamp: &Vec<Path>| [ring.clone(), lamp.clone()].concat();
    let with_lamps = |ring: &Vec<Path>| lamps.signals.iter().map(|lamp| pair(ring, lamp)).collect::<Vec<_>>();
    let behind = |node: &Node| Node { category: rings.categories.len() + node.category, path: node.path.clone() };
    Table {
        categories: [rings.categories.clone(), lamps.categories.clone()].concat(),
        signals: rings.signals.iter().flat_map(with_lamps).collect(),
        nodes: [rings.nodes.clone(), lamps.nodes.iter().map(behind).collect()].concat(),
        symbols: Vec::new(),
    }
}

pub fn resolve(rings: &[u8], lamps: &[u8], value: &[u8]) -> Result<Pair, u8> {
    let uris = uris(value)?;
    let rings = Table::read(rings)?;
    let lamps = Table::read(lamps)?;
    if rings.categories.iter().any(|name| lamps.categories.contains(name)) {
        return Err(24);
    }
    let pairs = table_of_pairs(&rings, &lamps);
    let used = uris.iter().filter_map(|uri| pairs.used(uri));
    let end = used.fold(start(&pairs), |state, urn| step(&pairs, &state, &urn));
    let (ring, lamp) = (end.signal / lamps.signals.len(), end.signal % lamps.signals.len());
    Ok(Pair { refusal: 0, ring: ring as u8, lamp: lamp as u8 })
}
