//! Direct resolution.
use super::table::{is_proper_ancestor, Node, Table};
use super::urn::Path;
use super::value::uris;
use crate::Plain;

/// What a category still takes: what lies under its place, what lies under the path last taken, or nothing.
#[derive(Clone, PartialEq, Eq, Debug, Hash)]
pub enum Status {
    Open,
    /// The URN last taken was this path: a node with nodes under it, and not said whole.
    Held(Path),
    Shut,
}

/// The current signal, and the status of each category.
#[derive(Clone, PartialEq, Eq, Debug, Hash)]
pub struct State {
    pub signal: usize,
    pub status: Vec<Status>,
}

/// Before the first URN: signal 0, every category open.
pub fn start(table: &Table) -> State {
    State { signal: 0, status: vec![Status::Open; table.categories.len()] }
}

/// The signal among those given that is placed as the current one is, but at p in category c.
fn signal_with(table: &Table, among: &[usize], current: usize, c: usize, p: &[Vec<u8>]) -> Option<usize> {
    let fits = |signal: usize| {
        let places = &table.signals[signal];
        (0..table.categories.len())
            .all(|d| if d == c { places[d] == p } else { places[d] == table.signals[current][d] })
    };
    among.iter().copied().find(|&signal| fits(signal))
}

/// A step by a used URN.
pub fn step(table: &Table, state: &State, urn: &Node) -> State {
    let all: Vec<usize> = (0..table.signals.len()).collect();
    step_among(table, &all, state, urn)
}

/// What the search for a used URN finds: a signal, how long its path is in the URN's category, and how many candidates were
/// looked up until then.
struct Found {
    signal: usize,
    length: usize,
    tries: usize,
}

/// The search for a used URN among the signals given: its candidates from the URN itself up to the present place, the first
/// with a signal. Nothing for a URN that is passed over. What is deeper than every node that is the URN or above it is no
/// signal's place, so it is not looked up, and not counted.
fn search(table: &Table, among: &[usize], state: &State, urn: &Node) -> Option<Found> {
    let (c, u) = (urn.category, &urn.path);
    let place = &table.signals[state.signal][c];
    let taken = match &state.status[c] {
        Status::Open => is_proper_ancestor(place, u),
        Status::Held(path) => is_proper_ancestor(path, u),
        Status::Shut => false,
    };
    if !taken {
        return None;
    }
    let mut tries = 0;
    let mut met_node = false;
    for length in (place.len()..=u.len()).rev() {
        met_node |= length == 0 || table.is_node(c, &u[..length]);
        if !met_node {
            continue;
        }
        tries += 1;
        if let Some(signal) = signal_with(table, among, state.signal, c, &u[..length]) {
            return Some(Found { signal, length, tries });
        }
    }
    unreachable!("the present place has the current signal")
}

/// A step by a used URN, where the search finds only signals among those given.
pub fn step_among(table: &Table, among: &[usize], state: &State, urn: &Node) -> State {
    let Some(found) = search(table, among, state, urn) else {
        return state.clone();
    };
    let mut status = state.status.clone();
    status[urn.category] = if found.length == urn.path.len() {
        Status::Open
    } else if table.nodes_under(urn) {
        Status::Held(urn.path.clone())
    } else {
        Status::Shut
    };
    State { signal: found.signal, status }
}

/// A status as stored: 0 open, 1 shut, 1 + n held at node n.
pub fn write_status(table: &Table, c: usize, status: &Status) -> u8 {
    match status {
        Status::Open => 0,
        Status::Shut => 1,
        Status::Held(path) => {
            let node = table.nodes.iter().position(|node| node.category == c && node.path == *path);
            node.expect("a held path is a node") as u8 + 2
        }
    }
}

/// The status that a byte says of category c with the given signal's place there, or nothing: a category is held only
/// at a node of its own that has nodes under it and lies under the place.
pub fn read_status(table: &Table, signal: usize, c: usize, byte: u8) -> Option<Status> {
    match byte {
        0 => Some(Status::Open),
        1 => Some(Status::Shut),
        _ => {
            let node = table.nodes.get(byte as usize - 2)?;
            let held = node.category == c
                && table.nodes_under(node)
                && is_proper_ancestor(&table.signals[signal][c], &node.path);
            held.then(|| Status::Held(node.path.clone()))
        }
    }
}

/// The candidates looked up for a used URN.
fn tries(table: &Table, state: &State, urn: &Node) -> usize {
    let all: Vec<usize> = (0..table.signals.len()).collect();
    search(table, &all, state, urn).map_or(0, |found| found.tries)
}

/// The plain resolver.
pub fn resolve(table: &[u8], value: &[u8]) -> Result<Plain, u8> {
    let uris = uris(value)?;
    let table = Table::read(table)?;
    let used: Vec<Node> = uris.iter().filter_map(|uri| table.used(uri)).collect();
    let mut state = start(&table);
    let mut count = 0;
    for urn in &used {
        count += tries(&table, &state, urn);
        state = step(&table, &state, urn);
    }
    Ok(Plain {
        refusal: 0,
        signal: state.signal as u8,
        used: used.len() as u8,
        skipped: (uris.len() - used.len()) as u8,
        tries: count as u16,
    })
}
