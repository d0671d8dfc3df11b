//! The table with its tree written once.
use super::table::{text, Decoded, Left, Urns};
use super::urn;

/// A node: its category, its parent, its last name, and how long its URN is and how many parts it has.
#[derive(Clone, Copy)]
struct Node {
    category: u8,
    parent: u8,
    parts: u8,
    name: (u16, u8),
    length: u16,
}

const ROOT: Node = Node { category: 0, parent: 0, parts: 0, name: (0, 0), length: 0 };

struct Tree<'a> {
    bytes: &'a [u8],
    categories: [(u16, u8); 8],
    category_count: usize,
    /// Where the first section ends.
    categories_end: usize,
    /// Node n stands at n; 0 is the root.
    nodes: [Node; 65],
    node_count: usize,
    signal_count: usize,
    counts: [u8; 32],
    /// The signals' node numbers, one signal after the other.
    numbers: [u8; 256],
    total: usize,
}

impl<'a> Tree<'a> {
    fn read(bytes: &'a [u8]) -> Result<Tree<'a>, u8> {
        if bytes.len() > 8192 {
            return Err(4);
        }
        let mut tree = Tree {
            bytes,
            categories: [(0, 0); 8],
            category_count: 0,
            categories_end: 0,
            nodes: [ROOT; 65],
            node_count: 0,
            signal_count: 0,
            counts: [0; 32],
            numbers: [0; 256],
            total: 0,
        };
        tree.read_sections()?;
        tree.check_names()?;
        if !tree.has_parents() || !tree.is_in_order() || tree.has_repeats() {
            return Err(21);
        }
        tree.check_paths()?;
        tree.check_categories()?;
        tree.check_signals()?;
        Ok(tree)
    }

    fn read_sections(&mut self) -> Result<(), u8> {
        let mut left = Left { bytes: self.bytes, at: 0 };
        self.category_count = left.number(1, 8)? as usize;
        for category in &mut self.categories[..self.category_count] {
            *category = left.text(55)?;
        }
        self.categories_end = left.at;
        self.node_count = left.number(1, 64)? as usize;
        for node in &mut self.nodes[1..=self.node_count] {
            node.category = left.number(0, 255)?;
            node.parent = left.number(0, 255)?;
            node.name = left.text(55)?;
        }
        self.signal_count = left.number(1, 32)? as usize;
        for count in &mut self.counts[..self.signal_count] {
            *count = left.number(0, 8)?;
            for _ in 0..*count {
                self.numbers[self.total] = left.number(0, 255)?;
                self.total += 1;
            }
        }
        if left.at < self.bytes.len() {
            return Err(5);
        }
        Ok(())
    }

    fn check_names(&self) -> Result<(), u8> {
        let categories = self.categories[..self.category_count].iter();
        for &place in categories.chain(self.nodes[1..=self.node_count].iter().map(|node| &node.name)) {
            let name = text(self.bytes, place);
            if !urn::is_name(name) || name.iter().any(u8::is_ascii_uppercase) {
                return Err(7);
            }
        }
        Ok(())
    }

    /// Whether every node's category and parent are there. Leaves the length of each node's URN and its parts.
    fn has_parents(&mut self) -> bool {
        for n in 1..=self.node_count {
            let Node { category, parent, name, .. } = self.nodes[n];
            if category as usize >= self.category_count || parent as usize >= n {
                return false;
            }
            let mut above = self.nodes[parent as usize];
            if parent == 0 {
                above.length = self.categories[category as usize].1.into();
            } else if above.category != category {
                return false;
            }
            self.nodes[n].length = above.length + 1 + name.1 as u16;
            self.nodes[n].parts = above.parts + 1;
        }
        true
    }

    /// Whether the signals' nodes are there and bring all nodes in order: the nodes that one of them adds have the
    /// numbers that follow, its ancestors first.
    fn is_in_order(&self) -> bool {
        let mut met = 0;
        for &number in &self.numbers[..self.total] {
            let last = number as usize;
            if last == 0 || last > self.node_count {
                return false;
            }
            let mut n = last;
            while n > met {
                let parent = self.nodes[n].parent as usize;
                if n > met + 1 && parent != n - 1 {
                    return false;
                }
                n = parent;
            }
            met = met.max(last);
        }
        met == self.node_count
    }

    fn has_repeats(&self) -> bool {
        let same = |a: &Node, b: &Node| {
            a.parent == b.parent && a.category == b.category && text(self.bytes, a.name) == text(self.bytes, b.name)
        };
        (2..=self.node_count).any(|n| self.nodes[1..n].iter().any(|node| same(node, &self.nodes[n])))
    }

    fn check_paths(&self) -> Result<(), u8> {
        let nodes = &self.nodes[1..=self.node_count];
        if nodes.iter().any(|node| node.length > 255) {
            return Err(6);
        }
        if nodes.iter().any(|node| node.parts > 8) {
            return Err(7);
        }
        Ok(())
    }

    fn check_categories(&self) -> Result<(), u8> {
        let names = &self.categories[..self.category_count];
        let same = |i: usize, j: usize| text(self.bytes, names[i]) == text(self.bytes, names[j]);
        if (1..names.len()).any(|i| (0..i).any(|j| same(i, j))) {
            return Err(8);
        }
        let used = self.nodes[1..=self.node_count].iter().fold(0u32, |used, node| used | 1 << node.category);
        if used.count_ones() as usize != names.len() {
            return Err(8);
        }
        Ok(())
    }

    fn check_signals(&self) -> Result<(), u8> {
        let mut rows = [0u64; 32];
        let mut first = 0;
        for (row, &count) in rows.iter_mut().zip(&self.counts[..self.signal_count]) {
            for &number in &self.numbers[first..first + count as usize] {
                let shift = 8 * self.nodes[number as usize].category;
                if *row >> shift & 0xFF != 0 {
                    return Err(9);
                }
                *row |= (number as u64) << shift;
            }
            first += count as usize;
        }
        if self.counts[0] != 0 {
            return Err(10);
        }
        let rows = &rows[..self.signal_count];
        if (1..rows.len()).any(|i| rows[..i].contains(&rows[i])) {
            return Err(11);
        }
        Ok(())
    }

    /// How long the old form is.
    fn table_length(&self) -> usize {
        let urns = self.numbers[..self.total].iter().map(|&n| 1 + self.nodes[n as usize].length as usize);
        self.categories_end + 1 + self.signal_count + urns.sum::<usize>()
    }

    /// Writes a node's URN from its end to its start.
    fn write_urn(&self, urn: &mut [u8], mut n: u8) {
        let category = self.nodes[n as usize].category as usize;
        let mut end = urn.len();
        while n != 0 {
            let node = &self.nodes[n as usize];
            let start = end - node.name.1 as usize;
            urn[start..end].copy_from_slice(text(self.bytes, node.name));
            urn[start - 1] = b':';
            end = start - 1;
            n = node.parent;
        }
        urn[..end].copy_from_slice(text(self.bytes, self.categories[category]));
    }

    fn write_table(&self, buffer: &mut [u8]) {
        buffer[..self.categories_end].copy_from_slice(&self.bytes[..self.categories_end]);
        buffer[self.categories_end] = self.signal_count as u8;
        let mut at = self.categories_end + 1;
        let mut numbers = self.numbers.iter();
        for &count in &self.counts[..self.signal_count] {
            buffer[at] = count;
            at += 1;
            for &number in numbers.by_ref().take(count as usize) {
                let length = self.nodes[number as usize].length;
                buffer[at] = length as u8;
                at += 1 + length as usize;
                self.write_urn(&mut buffer[at - length as usize..at], number);
            }
        }
    }
}

pub fn refusal(tree: &[u8]) -> u8 {
    Tree::read(tree).err().unwrap_or(0)
}

/// Writes the old form and gives its length, or the refusal number. The buffer past it, or all of it if refused, is the
/// caller's to clear; the same of `from_table`.
pub fn to_table(tree: &[u8], buffer: &mut [u8]) -> Result<usize, u8> {
    let tree = Tree::read(tree)?;
    let length = tree.table_length();
    if length > 8192 || length > buffer.len() {
        return Err(22);
    }
    tree.write_table(buffer);
    Ok(length)
}

/// Writes the tree of a table and gives its length, or the refusal number.
pub fn from_table(bytes: &[u8], buffer: &mut [u8]) -> Result<usize, u8> {
    let mut urns = Urns::none();
    let table = Decoded::read_urns(bytes, &mut urns)?;
    let (last_start, last_length) = table.categories[table.category_count - 1];
    let categories_end = last_start as usize + last_length as usize;
    let nodes = &table.nodes[1..=table.node_count];
    let names: usize = nodes.iter().map(|node| 3 + node.name_length as usize).sum();
    let length = categories_end + 1 + names + 1 + table.signal_count + urns.total;
    if length > buffer.len() {
        return Err(22);
    }
    buffer[..categories_end].copy_from_slice(&bytes[..categories_end]);
    let mut at = categories_end;
    let mut push = |more: &[u8]| {
        buffer[at..at + more.len()].copy_from_slice(more);
        at += more.len();
    };
    push(&[nodes.len() as u8]);
    for node in nodes {
        push(&[node.category, node.parent, node.name_length]);
        push(text(bytes, (node.name_start, node.name_length)));
    }
    push(&[table.signal_count as u8]);
    let mut categories = urns.categories.iter();
    for (&row, &count) in table.rows[..table.signal_count].iter().zip(&urns.counts) {
        push(&[count]);
        for (category, _) in categories.by_ref().take(count as usize) {
            push(&[(row >> (8 * category)) as u8]);
        }
    }
    Ok(length)
}
