//! Which marks a table keeps, and which signals can ring, by going from signal to signal.
use super::table::{Decoded, State, START};
use crate::{Kept, Rung};

/// The signals that marks lead to, in the order in which they are found; each with where it was found from, and by which node.
struct Found {
    count: usize,
    signals: [u8; 32],
    from: [u8; 32],
    by: [u8; 32],
}

impl Found {
    fn from_start(table: &Decoded, may: impl Fn(u8) -> bool) -> Found {
        let mut found = Found { count: 1, signals: [0; 32], from: [0; 32], by: [0; 32] };
        let mut met = 1u32;
        let mut i = 0;
        while i < found.count {
            for node in 1..=table.node_count as u8 {
                let signal = found.signals[i];
                let Some(next) = table.besides(signal, node).filter(|_| may(node)) else { continue };
                if table.extends(signal, node) && met >> next & 1 == 0 {
                    met |= 1 << next;
                    found.signals[found.count] = next;
                    found.from[found.count] = i as u8;
                    found.by[found.count] = node;
                    found.count += 1;
                }
            }
            i += 1;
        }
        found
    }

    /// The nodes that lead to the signal found as the i-th, before what stands in the list from `at` on.
    fn way(&self, mut i: usize, list: &mut [u8; 32], mut at: usize) -> usize {
        while i != 0 {
            at -= 1;
            list[at] = self.by[i];
            i = self.from[i] as usize;
        }
        at
    }
}

fn read(table: &[u8], available: u32) -> Result<Decoded<'_>, u8> {
    let mut table = Decoded::read(table)?;
    if u64::from(available) >> table.signal_count != 0 {
        return Err(23);
    }
    table.lose(available);
    Ok(table)
}

pub fn keeps(table: &[u8], available: u32, node: u8) -> Result<Kept, u8> {
    let table = read(table, available)?;
    if node == 0 || node as usize > table.node_count {
        return Err(30);
    }
    let category = table.nodes[node as usize].category;
    let may = |other: u8| table.nodes[other as usize].category != category || table.is_above(other, node);
    let found = Found::from_start(&table, may);
    let lacks = |&i: &usize| table.besides(found.signals[i], node).is_none();
    Ok(match (0..found.count).find(lacks) {
        None => Kept::kept(),
        Some(i) => {
            let mut list = [0; 32];
            list[31] = node;
            let at = found.way(i, &mut list, 31);
            let state = State { signal: found.signals[i], ..START };
            Kept::lost(table.step(state, category as usize, node, true).signal, &list[at..])
        }
    })
}

pub fn rings(table: &[u8], available: u32, signal: u8) -> Result<Rung, u8> {
    let table = read(table, available)?;
    if signal as usize >= table.signal_count {
        return Err(31);
    }
    let found = Found::from_start(&table, |_| true);
    let number = found.signals[..found.count].iter().position(|&s| s == signal);
    Ok(number.map_or(Rung::refused(0), |i| {
        let mut list = [0; 32];
        let at = found.way(i, &mut list, 32);
        Rung::by(&list[at..])
    }))
}
