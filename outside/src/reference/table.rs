//! The signal table as stored, its nodes and its symbols.
use super::urn::{alert_urn, category_and_path, is_name, Name, Path};
use crate::Match;
use std::collections::HashSet;

/// A path, but for the root, that is some signal's place or above it.
#[derive(Clone, PartialEq, Eq, Hash)]
pub struct Node {
    pub category: usize,
    pub path: Path,
}

/// A symbol is a node, or Other under a node or root.
#[derive(Clone, Copy, PartialEq, Eq, Debug)]
pub struct Symbol {
    pub category: usize,
    /// The node's number, 0 for the root.
    pub node: usize,
    pub other: bool,
}

pub struct Table {
    pub categories: Vec<Name>,
    /// Each signal's place in each category; the empty path is the root.
    pub signals: Vec<Vec<Path>>,
    /// Node n stands at n - 1.
    pub nodes: Vec<Node>,
    pub symbols: Vec<Symbol>,
}

/// The two sections as texts.
pub struct Stored {
    pub categories: Vec<Name>,
    pub signals: Vec<Vec<Vec<u8>>>,
}

/// Takes bytes from the left. Too few give 5, a count or length that is out of range gives 6.
pub struct Left<'a>(pub &'a [u8]);

impl<'a> Left<'a> {
    pub fn number(&mut self, low: usize, high: usize) -> Result<usize, u8> {
        let (&first, rest) = self.0.split_first().ok_or(5)?;
        self.0 = rest;
        let number = first as usize;
        if number < low || number > high {
            return Err(6);
        }
        Ok(number)
    }

    pub fn text(&mut self, low: usize, high: usize) -> Result<Vec<u8>, u8> {
        let length = self.number(low, high)?;
        if self.0.len() < length {
            return Err(5);
        }
        let (text, rest) = self.0.split_at(length);
        self.0 = rest;
        Ok(text.to_vec())
    }
}

pub fn read_stored(bytes: &[u8]) -> Result<Stored, u8> {
    if bytes.len() > 8192 {
        return Err(4);
    }
    let mut left = Left(bytes);
    let mut stored = Stored { categories: Vec::new(), signals: Vec::new() };
    for _ in 0..left.number(1, 8)? {
        stored.categories.push(left.text(1, 55)?);
    }
    for _ in 0..left.number(1, 32)? {
        let mut urns = Vec::new();
        for _ in 0..left.number(0, 8)? {
            urns.push(left.text(1, 255)?);
        }
        stored.signals.push(urns);
    }
    if !left.0.is_empty() {
        return Err(5);
    }
    Ok(stored)
}

/// Whether `a` is an ancestor of `b`: `b` without one or more of its last parts.
pub fn is_proper_ancestor(a: &[Name], b: &[Name]) -> bool {
    a.len() < b.len() && a == &b[..a.len()]
}

impl Table {
    /// The table that the bytes say, or the refusal number.
    pub fn read(bytes: &[u8]) -> Result<Table, u8> {
        Table::of(read_stored(bytes)?)
    }

    /// The table that the texts say, or which of 7 to 12 is wrong.
    pub fn of(stored: Stored) -> Result<Table, u8> {
        let urns = urns_of(&stored).ok_or(7)?;
        let numbered = number_categories(&stored.categories, &urns).ok_or(8)?;
        if numbered.iter().any(|signal| has_repeats(signal.iter().map(|urn| urn.category))) {
            return Err(9);
        }
        if !numbered[0].is_empty() {
            return Err(10);
        }
        let signals: Vec<Vec<Path>> = numbered.iter().map(|signal| places(stored.categories.len(), signal)).collect();
        if has_repeats(signals.iter()) {
            return Err(11);
        }
        let nodes = nodes_of(&numbered);
        if nodes.len() > 64 {
            return Err(12);
        }
        let symbols = symbols_of(stored.categories.len(), &nodes);
        Ok(Table { categories: stored.categories, signals, nodes, symbols })
    }

    /// The category number and path of a URI that is used; nothing for one that is skipped.
    pub fn used(&self, uri: &[u8]) -> Option<Node> {
        let (category, path) = alert_urn(uri)?;
        let category = self.categories.iter().position(|name| *name == category)?;
        Some(Node { category, path })
    }

    /// A URN that is a node has that node as its symbol. Any other has the deepest node above it where this is a leaf,
    /// else Other under that node or under the root.
    pub fn symbol(&self, urn: &Node) -> usize {
        let (deepest, whole) = self.deepest(urn);
        let to_node = whole || (deepest > 0 && is_leaf(&self.nodes, deepest));
        let symbol = Symbol { category: urn.category, node: deepest, other: !to_node };
        self.symbols.iter().position(|s| *s == symbol).expect("every URN has a symbol")
    }

    /// The number of the deepest node that is the URN or above it, 0 for the root, and whether it is the URN.
    fn deepest(&self, urn: &Node) -> (usize, bool) {
        let mut deepest = 0;
        let mut whole = false;
        for length in 1..=urn.path.len() {
            let above = Node { category: urn.category, path: urn.path[..length].to_vec() };
            if let Some(i) = self.nodes.iter().position(|node| *node == above) {
                deepest = i + 1;
                whole = length == urn.path.len();
            }
        }
        (deepest, whole)
    }

    /// The bytes compared in the search for the URN's deepest node, which goes through its category's nodes by number and
    /// ends with the URN's leaf: of each path's text those that the URN's has at the same places, and the first that it
    /// lacks there.
    fn compared(&self, urn: &Node) -> usize {
        let text = urn.path.join(&b':');
        let mut compared = 0;
        for number in (1..=self.nodes.len()).filter(|&n| self.nodes[n - 1].category == urn.category) {
            let path = &self.nodes[number - 1].path;
            let path_text = path.join(&b':');
            let common = path_text.iter().zip(&text).take_while(|(a, b)| a == b).count();
            compared += path_text.len().min(common + 1);
            if is_leaf(&self.nodes, number) && urn.path.starts_with(path) {
                break;
            }
        }
        compared
    }

    /// What a URI is to the table.
    pub fn matched(&self, uri: &[u8]) -> Match {
        let Some(urn) = self.used(uri) else {
            return Match { refusal: 0, used: 0, category: 0, node: 0, whole: 0, compared: 0 };
        };
        let (node, whole) = self.deepest(&urn);
        let compared = self.compared(&urn) as u32;
        Match { refusal: 0, used: 1, category: urn.category as u8, node: node as u8, whole: whole as u8, compared }
    }

    pub fn is_node(&self, category: usize, path: &[Name]) -> bool {
        self.nodes.iter().any(|node| node.category == category && node.path == path)
    }

    /// Whether some node lies under the path of this one, which need not be a node.
    pub fn nodes_under(&self, urn: &Node) -> bool {
        self.nodes.iter().any(|node| node.category == urn.category && is_proper_ancestor(&urn.path, &node.path))
    }

    /// The URN as which a symbol steps: for Other its path and a further part, which is no node's.
    pub fn steps_as(&self, symbol: Symbol) -> Node {
        let mut path = if symbol.node == 0 { Vec::new() } else { self.nodes[symbol.node - 1].path.clone() };
        if symbol.other {
            path.push(b"?".to_vec());
        }
        Node { category: symbol.category, path }
    }
}

/// Category and path of every signal's URNs, or nothing if a category name or URN is of bad form, has a capital letter,
/// or has over 8 parts.
fn urns_of(stored: &Stored) -> Option<Vec<Vec<(Name, Path)>>> {
    let mut texts = stored.categories.iter().chain(stored.signals.iter().flatten());
    if !stored.categories.iter().all(|name| is_name(name)) || texts.any(|text| text.iter().any(u8::is_ascii_uppercase))
    {
        return None;
    }
    let read = |urn: &Vec<u8>| category_and_path(urn).filter(|(_, path)| path.len() <= 8);
    stored.signals.iter().map(|urns| urns.iter().map(read).collect()).collect()
}

/// The URNs with category numbers. Nothing if a category stands twice in the list, no signal has a URN of it, or a URN's
/// category is not in the list.
fn number_categories(categories: &[Name], signals: &[Vec<(Name, Path)>]) -> Option<Vec<Vec<Node>>> {
    let is_used = |name: &Name| signals.iter().flatten().any(|(category, _)| category == name);
    if has_repeats(categories.iter()) || !categories.iter().all(is_used) {
        return None;
    }
    let number = |(category, path): &(Name, Path)| {
        let category = categories.iter().position(|name| name == category)?;
        Some(Node { category, path: path.clone() })
    };
    signals.iter().map(|urns| urns.iter().map(number).collect()).collect()
}

fn has_repeats<T: Eq + std::hash::Hash>(mut items: impl Iterator<Item = T>) -> bool {
    let mut seen = HashSet::new();
    items.any(|item| !seen.insert(item))
}

/// Where a signal is placed in a category: at the path that it names, or at the root.
fn places(categories: usize, urns: &[Node]) -> Vec<Path> {
    let mut places = vec![Path::new(); categories];
    for urn in urns {
        places[urn.category] = urn.path.clone();
    }
    places
}

/// The nodes as the URNs bring them, ancestors first.
pub fn nodes_of(signals: &[Vec<Node>]) -> Vec<Node> {
    let mut nodes: Vec<Node> = Vec::new();
    let mut seen = HashSet::new();
    for urn in signals.iter().flatten() {
        for length in 1..=urn.path.len() {
            let node = Node { category: urn.category, path: urn.path[..length].to_vec() };
            if seen.insert(node.clone()) {
                nodes.push(node);
            }
        }
    }
    nodes
}

/// Whether no node lies under this one. Numbers run from 1.
fn is_leaf(nodes: &[Node], number: usize) -> bool {
    let node = &nodes[number - 1];
    !nodes.iter().any(|other| other.category == node.category && is_proper_ancestor(&node.path, &other.path))
}

/// The symbols, category by category: the nodes by number, with its Other right after each that is no leaf, and the
/// Other of the category at the end.
fn symbols_of(categories: usize, nodes: &[Node]) -> Vec<Symbol> {
    let mut symbols = Vec::new();
    for category in 0..categories {
        for number in (1..=nodes.len()).filter(|&n| nodes[n - 1].category == category) {
            symbols.push(Symbol { category, node: number, other: false });
            if !is_leaf(nodes, number) {
                symbols.push(Symbol { category, node: number, other: true });
            }
        }
        symbols.push(Symbol { category, node: 0, other: true });
    }
    symbols
}
