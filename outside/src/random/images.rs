//! Random images, large and small: the table's machine, renumbered, enlarged or damaged.
use super::{damage, Random};
use crate::reference::direct::{read_status, start, State, Status};
use crate::reference::machine::{discover_from, write_state};
use crate::reference::table::Table;
use std::collections::HashMap;

/// The parts of an image of good form.
struct Parts {
    symbols: Vec<u8>,
    /// How many bytes of a state stand before its row: the signal and the statuses.
    head: usize,
    /// Signal, statuses and targets of each state.
    rows: Vec<Vec<u8>>,
}

fn parts(image: &[u8]) -> Parts {
    let count = image[0] as usize;
    let symbols = image[1..1 + 3 * count].to_vec();
    // the last symbol is the last category's Other
    let head = symbols.iter().rev().nth(2).map_or(2, |&category| 2 + category as usize);
    let rows = image[3 + 3 * count..].chunks(head + count).map(<[u8]>::to_vec).collect();
    Parts { symbols, head, rows }
}

impl Parts {
    fn bytes(&self) -> Vec<u8> {
        let mut bytes = vec![(self.symbols.len() / 3) as u8];
        bytes.extend(&self.symbols);
        bytes.extend((self.rows.len() as u16).to_le_bytes());
        bytes.extend(self.rows.iter().flatten());
        bytes
    }

    /// The same machine with its states in another order, state 0 first unless `also_start`.
    fn renumber(&mut self, random: &mut Random, also_start: bool) {
        let mut order: Vec<usize> = (0..self.rows.len()).collect();
        random.shuffle(&mut order[if also_start { 0 } else { 1 }..]);
        let mut new = vec![0u8; order.len()];
        for (i, &old) in order.iter().enumerate() {
            new[old] = i as u8;
        }
        let mut rows: Vec<Vec<u8>> = order.iter().map(|&old| self.rows[old].clone()).collect();
        for row in &mut rows {
            for target in &mut row[self.head..] {
                *target = new[*target as usize];
            }
        }
        self.rows = rows;
    }

    /// The class of each state: states are told apart by their signals, then by the classes of their targets, until that tells
    /// no more of them apart.
    fn classes(&self) -> Vec<usize> {
        let mut classes = numbered(self.rows.iter().map(|row| vec![row[0] as usize]));
        loop {
            let behind = |row: &Vec<u8>| row[self.head..].iter().map(|&target| classes[target as usize]).collect();
            let keys = self.rows.iter().zip(&classes).map(|(row, &class)| [vec![class], behind(row)].concat());
            let next = numbered(keys);
            if next == classes {
                return classes;
            }
            classes = next;
        }
    }

    /// The machine of so many states that has these classes of the states as its own, without statuses.
    fn by_class(&self, classes: &[usize]) -> Parts {
        let mut rows = Vec::new();
        for (row, &class) in self.rows.iter().zip(classes) {
            if class == rows.len() {
                let targets = row[self.head..].iter().map(|&target| classes[target as usize] as u8);
                rows.push(std::iter::once(row[0]).chain(targets).collect());
            }
        }
        Parts { symbols: self.symbols.clone(), head: 1, rows }
    }

    /// Repeats a state and leads some targets to the second of the two.
    fn repeat(&mut self, random: &mut Random) {
        if self.rows.len() > 255 {
            return;
        }
        let old = random.below(self.rows.len());
        let new = self.rows.len() as u8;
        self.rows.push(self.rows[old].clone());
        for row in &mut self.rows {
            for target in &mut row[self.head..] {
                if *target as usize == old && random.percent(50) {
                    *target = new;
                }
            }
        }
    }

    /// Changes one byte of one row: mostly to one that keeps the form.
    fn mistake(&mut self, random: &mut Random) {
        let states = self.rows.len();
        let r = random.below(states);
        let among = if random.percent(50) { self.rows[r].len() } else { self.head };
        let i = random.below(among);
        self.rows[r][i] = match random.below(3) {
            0 => random.below(states) as u8,
            1 => random.below(4) as u8,
            _ => random.byte(),
        };
    }
}

/// Equal keys have equal numbers, from 0 as they are first met.
fn numbered(keys: impl Iterator<Item = Vec<usize>>) -> Vec<usize> {
    let mut numbers = HashMap::new();
    keys.map(|key| {
        let next = numbers.len();
        *numbers.entry(key).or_insert(next)
    })
    .collect()
}

/// The table's machine with states that no walk reaches, each with the right row. Nothing if there are too many.
fn enlarged(random: &mut Random, table: &Table) -> Option<Parts> {
    let mut from = vec![start(table)];
    for _ in 0..random.between(1, 3) {
        from.push(state(random, table));
    }
    let (states, targets) = discover_from(table, from, 256)?;
    let symbols = table.symbols.iter().flat_map(|s| [s.category as u8, s.node as u8, s.other as u8]).collect();
    let row = |(state, targets): (&State, &Vec<usize>)| {
        let mut row = write_state(table, state);
        row.extend(targets.iter().map(|&target| target as u8));
        row
    };
    let head = 1 + table.categories.len();
    Some(Parts { symbols, head, rows: states.iter().zip(&targets).map(row).collect() })
}

/// Any state of the table, reached or not.
fn state(random: &mut Random, table: &Table) -> State {
    let signal = random.below(table.signals.len());
    let status = |c| {
        let held = (2..=table.nodes.len() as u8 + 1).filter_map(|byte| read_status(table, signal, c, byte));
        let held: Vec<Status> = held.collect();
        match random.below(10) {
            0..=2 => Status::Shut,
            3..=5 if !held.is_empty() => random.pick(&held).clone(),
            _ => Status::Open,
        }
    };
    State { signal, status: (0..table.categories.len()).map(status).collect() }
}

/// The image with so many states in place of its own, each signal 0 with every category open and all targets 0.
pub fn with_states(built: &[u8], count: usize) -> Vec<u8> {
    let mut parts = parts(built);
    let row = vec![0; parts.head + parts.symbols.len() / 3];
    parts.rows = vec![row; count];
    parts.bytes()
}

/// The same of a small image.
pub fn with_classes(built: &[u8], count: usize) -> Vec<u8> {
    let Parts { symbols, .. } = parts(built);
    let row = vec![0; 1 + symbols.len() / 3];
    Parts { symbols, head: 1, rows: vec![row; count] }.bytes()
}

/// The smallest machine with the signals of an image of good form, as a small image.
pub fn smallest(image: &[u8]) -> Vec<u8> {
    let parts = parts(image);
    parts.by_class(&parts.classes()).bytes()
}

/// The table's machine, sometimes with more states.
fn machine(random: &mut Random, table: &[u8], built: &[u8]) -> Parts {
    let larger = if random.percent(20) { Table::read(table).ok() } else { None };
    larger.and_then(|table| enlarged(random, &table)).unwrap_or_else(|| parts(built))
}

/// An image from the table's machine: right, right in another way, or wrong.
pub fn image(random: &mut Random, table: &[u8], built: &[u8]) -> Vec<u8> {
    let parts = machine(random, table, built);
    changed(random, parts)
}

/// A small image, mostly of the smallest machine, sometimes with a class for each state.
pub fn small(random: &mut Random, table: &[u8], built: &[u8]) -> Vec<u8> {
    let parts = machine(random, table, built);
    let classes = if random.percent(70) { parts.classes() } else { (0..parts.rows.len()).collect() };
    changed(random, parts.by_class(&classes))
}

/// The bytes of a machine, as they are, in another order, or with mistakes.
fn changed(random: &mut Random, mut parts: Parts) -> Vec<u8> {
    if random.percent(40) {
        parts.renumber(random, false);
    }
    if random.percent(25) {
        (0..random.between(1, 3)).for_each(|_| parts.repeat(random));
    }
    match random.below(12) {
        0..=3 => (0..random.between(1, 2)).for_each(|_| parts.mistake(random)),
        4 => parts.renumber(random, true),
        5 => parts.rows[0][random.below(parts.head)] = random.below(3) as u8,
        6 if !parts.symbols.is_empty() => {
            let i = random.below(parts.symbols.len());
            parts.symbols[i] = parts.symbols[i].wrapping_add(*random.pick(&[1, 2, 255]));
        }
        7 => {
            let last = parts.rows.len() - 1;
            parts.rows.truncate(random.between(0, last));
        }
        8 => {
            let row = random.pick(&parts.rows).clone();
            parts.rows.resize(random.between(256, 258), row);
        }
        _ => {}
    }
    let mut bytes = parts.bytes();
    match random.below(20) {
        0 => damage(random, &mut bytes),
        1 => bytes.truncate(random.below(bytes.len().min(12) + 1)),
        2 => bytes.push(0),
        _ => {}
    }
    bytes
}
