//! A stored table decoded to node numbers, and the step on them.
use super::urn;
use crate::Match;

/// A node: its category, its parent, where its path stands in the table, and its last name. The root is 0.
#[derive(Clone, Copy)]
pub struct Node {
    pub category: u8,
    pub parent: u8,
    pub leaf: bool,
    pub name_length: u8,
    pub name_start: u16,
    path_start: u16,
}

const NO_NODE: Node = Node { category: 0, parent: 0, leaf: true, name_length: 0, name_start: 0, path_start: 0 };

pub struct Decoded<'a> {
    bytes: &'a [u8],
    pub categories: [(u16, u8); 8],
    pub category_count: usize,
    pub signal_count: usize,
    /// Each signal's places, one byte a category: the node's number, 0 for the root.
    pub rows: [u64; 32],
    /// Node n stands at n; 0 is the root.
    pub nodes: [Node; 65],
    pub node_count: usize,
}

/// Where each URN stands, and how many each signal has.
pub struct Urns {
    places: [(u16, u8); 256],
    pub counts: [u8; 32],
    pub total: usize,
    /// The number of each one's category, and the length of the category's name.
    pub categories: [(u8, u8); 256],
}

impl Urns {
    pub fn none() -> Urns {
        Urns { places: [(0, 0); 256], counts: [0; 32], total: 0, categories: [(0, 0); 256] }
    }
}

pub struct Left<'a> {
    pub bytes: &'a [u8],
    pub at: usize,
}

impl Left<'_> {
    pub fn number(&mut self, low: u8, high: u8) -> Result<u8, u8> {
        let number = *self.bytes.get(self.at).ok_or(5)?;
        self.at += 1;
        if number < low || number > high {
            return Err(6);
        }
        Ok(number)
    }

    pub fn text(&mut self, high: u8) -> Result<(u16, u8), u8> {
        let length = self.number(1, high)?;
        let start = self.at;
        self.at += length as usize;
        if self.at > self.bytes.len() {
            return Err(5);
        }
        Ok((start as u16, length))
    }
}

pub fn text(bytes: &[u8], place: (u16, u8)) -> &[u8] {
    &bytes[place.0 as usize..place.0 as usize + place.1 as usize]
}

impl<'a> Decoded<'a> {
    pub fn read(bytes: &'a [u8]) -> Result<Decoded<'a>, u8> {
        Decoded::read_urns(bytes, &mut Urns::none())
    }

    /// The same, and the URNs as they stand.
    pub fn read_urns(bytes: &'a [u8], urns: &mut Urns) -> Result<Decoded<'a>, u8> {
        if bytes.len() > 8192 {
            return Err(4);
        }
        let mut decoded = Decoded {
            bytes,
            categories: [(0, 0); 8],
            category_count: 0,
            signal_count: 0,
            rows: [0; 32],
            nodes: [NO_NODE; 65],
            node_count: 0,
        };
        decoded.read_sections(urns)?;
        decoded.check_names(urns)?;
        decoded.check_categories(urns)?;
        decoded.check_signals(urns)?;
        let over = decoded.add_nodes(urns);
        if decoded.has_equal_signals(urns, over) {
            return Err(11);
        }
        if over {
            return Err(12);
        }
        Ok(decoded)
    }

    fn read_sections(&mut self, urns: &mut Urns) -> Result<(), u8> {
        let mut left = Left { bytes: self.bytes, at: 0 };
        self.category_count = left.number(1, 8)? as usize;
        for category in &mut self.categories[..self.category_count] {
            *category = left.text(55)?;
        }
        self.signal_count = left.number(1, 32)? as usize;
        for count in &mut urns.counts[..self.signal_count] {
            *count = left.number(0, 8)?;
            for _ in 0..*count {
                urns.places[urns.total] = left.text(255)?;
                urns.total += 1;
            }
        }
        if left.at < self.bytes.len() {
            return Err(5);
        }
        Ok(())
    }

    /// Leaves the length of each URN's category name.
    fn check_names(&self, urns: &mut Urns) -> Result<(), u8> {
        for &category in &self.categories[..self.category_count] {
            let name = text(self.bytes, category);
            if !urn::is_name(name) || name.iter().any(u8::is_ascii_uppercase) {
                return Err(7);
            }
        }
        for (category, &place) in urns.categories.iter_mut().zip(&urns.places[..urns.total]) {
            let urn = text(self.bytes, place);
            if urn.iter().any(u8::is_ascii_uppercase) {
                return Err(7);
            }
            match urn::form(urn) {
                Some((length, parts)) if parts <= 8 => category.1 = length as u8,
                _ => return Err(7),
            }
        }
        Ok(())
    }

    pub fn category(&self, name: &[u8]) -> Option<usize> {
        let categories = &self.categories[..self.category_count];
        categories.iter().position(|&place| text(self.bytes, place).eq_ignore_ascii_case(name))
    }

    /// Whether some category is also the other table's.
    pub fn shares_category(&self, other: &Decoded) -> bool {
        let places = &self.categories[..self.category_count];
        places.iter().any(|&place| other.category(text(self.bytes, place)).is_some())
    }

    /// Leaves the number of each URN's category too.
    fn check_categories(&self, urns: &mut Urns) -> Result<(), u8> {
        for i in 0..self.category_count {
            if self.category(text(self.bytes, self.categories[i])) != Some(i) {
                return Err(8);
            }
        }
        let mut used = 0u32;
        for (category, &(start, _)) in urns.categories.iter_mut().zip(&urns.places[..urns.total]) {
            let c = self.category(text(self.bytes, (start, category.1))).ok_or(8)?;
            used |= 1 << c;
            category.0 = c as u8;
        }
        if used.count_ones() as usize != self.category_count {
            return Err(8);
        }
        Ok(())
    }

    fn check_signals(&self, urns: &Urns) -> Result<(), u8> {
        let mut first = 0;
        for &count in &urns.counts[..self.signal_count] {
            let mut seen = 0u32;
            for (category, _) in &urns.categories[first..first + count as usize] {
                if seen >> category & 1 == 1 {
                    return Err(9);
                }
                seen |= 1 << category;
            }
            first += count as usize;
        }
        if urns.counts[0] != 0 {
            return Err(10);
        }
        Ok(())
    }

    pub fn child(&self, category: usize, parent: u8, name: &[u8]) -> Option<u8> {
        let nodes = &self.nodes[1..=self.node_count];
        let same = |node: &Node| {
            node.parent == parent
                && node.category as usize == category
                && text(self.bytes, (node.name_start, node.name_length)).eq_ignore_ascii_case(name)
        };
        nodes.iter().position(same).map(|i| i as u8 + 1)
    }

    /// Adds the nodes and each signal's row. Whether there are over 64 nodes.
    fn add_nodes(&mut self, urns: &Urns) -> bool {
        let bytes = self.bytes;
        let mut i = 0;
        for signal in 0..self.signal_count {
            for _ in 0..urns.counts[signal] {
                let (start, length) = urns.places[i];
                let (category, category_length) = urns.categories[i];
                i += 1;
                let mut node = 0;
                let mut at = start as usize + category_length as usize + 1;
                let path_start = at as u16;
                let end = start as usize + length as usize;
                while at < end {
                    let (name, _) = urn::split_part(&bytes[at..end]);
                    match self.child(category as usize, node, name) {
                        Some(child) => node = child,
                        None if self.node_count == 64 => return true,
                        None => {
                            self.nodes[node as usize].leaf = false;
                            self.node_count += 1;
                            self.nodes[self.node_count] = Node {
                                category,
                                parent: node,
                                leaf: true,
                                name_length: name.len() as u8,
                                name_start: at as u16,
                                path_start,
                            };
                            node = self.node_count as u8;
                        }
                    }
                    at += name.len() + 1;
                }
                self.rows[signal] |= (node as u64) << (8 * category);
            }
        }
        false
    }

    /// Whether two signals have the same places: by rows or, where there are too many nodes, by texts.
    fn has_equal_signals(&self, urns: &Urns, over: bool) -> bool {
        let rows = &self.rows[..self.signal_count];
        if !over {
            return (1..rows.len()).any(|i| rows[..i].contains(&rows[i]));
        }
        let mut firsts = [0; 33];
        for i in 0..self.signal_count {
            firsts[i + 1] = firsts[i] + urns.counts[i] as usize;
        }
        let of = |i: usize| &urns.places[firsts[i]..firsts[i + 1]];
        let has = |all: &[(u16, u8)], one: (u16, u8)| {
            all.iter().any(|&other| text(self.bytes, other) == text(self.bytes, one))
        };
        let equal = |i, j| of(i).len() == of(j).len() && of(i).iter().all(|&urn| has(of(j), urn));
        (1..self.signal_count).any(|i| (0..i).any(|j| equal(i, j)))
    }

    /// The deepest node that is the URN or above it, with whether it is the URN whole; nothing for a skipped URI.
    pub fn find(&self, uri: &[u8]) -> Option<(usize, u8, bool)> {
        let urn = urn::after_prefix(uri)?;
        let (length, _) = urn::form(urn)?;
        let category = self.category(&urn[..length])?;
        let mut node = 0;
        let mut rest = Some(&urn[length + 1..]);
        while let Some(path) = rest {
            let (name, after) = urn::split_part(path);
            match self.child(category, node, name) {
                Some(child) => node = child,
                None => return Some((category, node, false)),
            }
            rest = after;
        }
        Some((category, node, true))
    }

    /// The name of a category.
    pub fn name(&self, category: usize) -> &[u8] {
        text(self.bytes, self.categories[category])
    }

    pub fn path(&self, node: &Node) -> &[u8] {
        &self.bytes[node.path_start as usize..node.name_start as usize + node.name_length as usize]
    }

    /// The search that counts: the category's nodes by number, up to the URN's leaf.
    pub fn matched(&self, uri: &[u8]) -> Match {
        let urn = urn::after_prefix(uri).and_then(|urn| urn::form(urn).map(|(length, _)| urn.split_at(length)));
        let found = urn.and_then(|(name, path)| self.category(name).map(|category| (category, &path[1..])));
        let mut answer = Match { refusal: 0, used: 0, category: 0, node: 0, whole: 0, compared: 0 };
        let Some((category, text)) = found else { return answer };
        answer.used = 1;
        answer.category = category as u8;
        for (i, node) in self.nodes[..=self.node_count].iter().enumerate().skip(1) {
            if node.category as usize != category {
                continue;
            }
            let path = self.path(node);
            let common = path.iter().zip(text).take_while(|(a, b)| **a == b.to_ascii_lowercase()).count();
            answer.compared += path.len().min(common + 1) as u32;
            if common == path.len() && text.get(common).is_none_or(|&b| b == b':') {
                answer.node = i as u8;
                answer.whole = (common == text.len()) as u8;
                if node.leaf {
                    break;
                }
            }
        }
        answer
    }

    /// Takes from the search every signal but 0 whose bit is not set. No place has all bits.
    pub fn lose(&mut self, available: u32) {
        for (signal, row) in self.rows.iter_mut().enumerate().skip(1) {
            if available >> signal & 1 == 0 {
                *row = u64::MAX;
            }
        }
    }

    /// The signal that has the node for its place in the node's category, and the places of another signal in every other.
    pub fn besides(&self, signal: u8, node: u8) -> Option<u8> {
        let shift = 8 * self.nodes[node as usize].category;
        let others = self.rows[signal as usize] & !(0xFF << shift);
        self.signal_with(others | (node as u64) << shift).map(|found| found as u8)
    }

    /// Whether the node properly extends the signal's place in its category.
    pub fn extends(&self, signal: u8, node: u8) -> bool {
        let place = (self.rows[signal as usize] >> (8 * self.nodes[node as usize].category)) as u8;
        place != node && self.is_above(place, node)
    }

    fn signal_with(&self, row: u64) -> Option<usize> {
        self.rows[..self.signal_count].iter().position(|&r| r == row)
    }

    /// One used URN: its category, the deepest node that is the URN or above it, and whether it is the URN.
    pub fn step(&self, state: State, category: usize, node: u8, whole: bool) -> State {
        self.step_counted(state, category, node, whole).0
    }

    /// The same with the number of candidates tried.
    pub fn step_counted(&self, state: State, category: usize, node: u8, whole: bool) -> (State, u16) {
        let shift = 8 * category;
        let status = (state.status >> shift) as u8;
        if status == SHUT {
            return (state, 0);
        }
        let row = self.rows[state.signal as usize];
        let place = (row >> shift) as u8;
        let last = if status == OPEN { place } else { status - 1 };
        if last == node && whole || !self.is_above(last, node) {
            return (state, 0);
        }
        let others = row & !(0xFF << shift);
        let kept = state.status & !(0xFF << shift);
        let held = whole && !self.nodes[node as usize].leaf;
        let missed = if held { node + 1 } else { SHUT };
        let mut p = node;
        let mut tries = 1;
        while p != place {
            if let Some(signal) = self.signal_with(others | (p as u64) << shift) {
                let status = if whole && p == node { OPEN } else { missed };
                return (State { signal: signal as u8, status: kept | (status as u64) << shift }, tries);
            }
            p = self.nodes[p as usize].parent;
            tries += 1;
        }
        (State { signal: state.signal, status: kept | (missed as u64) << shift }, tries)
    }

    /// Whether no URN leads from this state to another signal. Such a signal differs in one category only, where its
    /// place is further down, and above or under what was last taken there if the category is held.
    pub fn is_settled(&self, state: State) -> bool {
        let row = self.rows[state.signal as usize];
        self.rows[..self.signal_count].iter().all(|&other| {
            let differs = row ^ other;
            if differs == 0 {
                return true;
            }
            let shift = differs.trailing_zeros() & !7;
            if differs & !(0xFF << shift) != 0 {
                return true;
            }
            let (place, to) = ((row >> shift) as u8, (other >> shift) as u8);
            match (state.status >> shift) as u8 {
                SHUT => true,
                OPEN => !self.is_above(place, to),
                held => !self.is_above(place, to) || !self.is_above(held - 1, to) && !self.is_above(to, held - 1),
            }
        })
    }

    /// Whether a state may have this status byte in a category, beside this signal.
    pub fn fits(&self, signal: u8, category: usize, status: u8) -> bool {
        if status <= SHUT {
            return true;
        }
        let node = status as usize - 1;
        let place = (self.rows[signal as usize] >> (8 * category)) as u8;
        node <= self.node_count
            && self.nodes[node].category as usize == category
            && !self.nodes[node].leaf
            && node as u8 != place
            && self.is_above(place, node as u8)
    }

    /// Whether `above` is `node` or one of its ancestors.
    pub fn is_above(&self, above: u8, mut node: u8) -> bool {
        while node > above {
            node = self.nodes[node as usize].parent;
        }
        node == above
    }
}

/// A category that takes what lies under its place; 1 + n is one that takes what lies under node n.
const OPEN: u8 = 0;
/// A category that takes nothing.
const SHUT: u8 = 1;

/// The current signal, and the categories' statuses, one byte each, the first one lowest.
#[derive(Clone, Copy, PartialEq, Eq)]
pub struct State {
    pub signal: u8,
    pub status: u64,
}

pub const START: State = State { signal: 0, status: 0 };
