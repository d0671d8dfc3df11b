//! Which marks a table keeps, and which signals can ring: all lists of nodes, shorter ones first, each resolved directly.
//! Lists after which direct resolution is in one state, and which gave the same in the mark's category, go on alike, so only
//! the first of them is followed.
use super::direct::{start, step_among, State};
use super::table::{Node, Table};
use super::urn::Path;
use crate::{Kept, Rung};
use std::collections::{HashSet, VecDeque};

/// Whether one of the two paths is the other or an ancestor of it.
fn one_way(a: &Path, b: &Path) -> bool {
    a.iter().zip(b).all(|(x, y)| x == y)
}

/// The table and the signals that can be given.
fn read(table: &[u8], available: u32) -> Result<(Table, Vec<usize>), u8> {
    let table = Table::read(table)?;
    let given: Vec<usize> = (0..32).filter(|&signal| signal == 0 || available >> signal & 1 == 1).collect();
    match given.iter().any(|&signal| signal >= table.signals.len()) {
        true => Err(23),
        false => Ok((table, given)),
    }
}

/// A list, the state of direct resolution after it, and the deepest path that it gave in one category.
#[derive(Clone)]
struct After {
    list: Vec<u8>,
    state: State,
    deepest: Path,
}

/// The first list, in order of length and then of node numbers, that passes the test; those that go two ways in the
/// category are left out.
fn first_list(
    table: &Table,
    given: &[usize],
    category: Option<usize>,
    passes: impl Fn(&State, &Path) -> bool,
) -> Option<After> {
    let mut met = HashSet::new();
    let mut waiting = VecDeque::from([After { list: Vec::new(), state: start(table), deepest: Path::new() }]);
    while let Some(after) = waiting.pop_front() {
        if !met.insert((after.state.clone(), after.deepest.clone())) {
            continue;
        }
        if passes(&after.state, &after.deepest) {
            return Some(after);
        }
        for (k, node) in table.nodes.iter().enumerate() {
            let here = Some(node.category) == category;
            if here && !one_way(&node.path, &after.deepest) {
                continue;
            }
            let mut next = after.clone();
            next.list.push(k as u8 + 1);
            next.state = step_among(table, given, &after.state, node);
            if here && node.path.len() > next.deepest.len() {
                next.deepest = node.path.clone();
            }
            waiting.push_back(next);
        }
    }
    None
}

/// Whether the signal says the node: its place there is the node or lies under it.
pub fn says(table: &Table, signal: usize, node: &Node) -> bool {
    table.signals[signal][node.category].starts_with(&node.path)
}

pub fn keeps(table: &[u8], available: u32, node: u8) -> Result<Kept, u8> {
    let (table, given) = read(table, available)?;
    let mark = (node as usize).checked_sub(1).and_then(|k| table.nodes.get(k)).ok_or(30)?;
    let lost = |state: &State, deepest: &Path| deepest.starts_with(&mark.path) && !says(&table, state.signal, mark);
    Ok(match first_list(&table, &given, Some(mark.category), lost) {
        Some(after) => Kept::lost(after.state.signal as u8, &after.list),
        None => Kept::kept(),
    })
}

pub fn rings(table: &[u8], available: u32, signal: u8) -> Result<Rung, u8> {
    let (table, given) = read(table, available)?;
    if signal as usize >= table.signals.len() {
        return Err(31);
    }
    let found = first_list(&table, &given, None, |state, _| state.signal == signal as usize);
    Ok(found.map_or(Rung::refused(0), |after| Rung::by(&after.list)))
}
