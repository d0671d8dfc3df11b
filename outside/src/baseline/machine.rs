//! Symbols, the builder and the checker.
use super::table::{Decoded, State, START};

#[derive(Clone, Copy)]
pub struct Symbol {
    category: u8,
    node: u8,
    other: bool,
}

pub struct Symbols {
    items: [Symbol; 128],
    pub count: usize,
    /// The index of each node's symbol; one more is its Other if it is no leaf.
    of_node: [u8; 65],
    /// The index of each category's Other.
    of_category: [u8; 8],
}

impl Symbols {
    pub fn of(table: &Decoded) -> Symbols {
        let none = Symbol { category: 0, node: 0, other: false };
        let mut symbols = Symbols { items: [none; 128], count: 0, of_node: [0; 65], of_category: [0; 8] };
        for category in 0..table.category_count as u8 {
            for node in 1..=table.node_count {
                if table.nodes[node].category == category {
                    symbols.of_node[node] = symbols.count as u8;
                    symbols.add(category, node as u8, false);
                    if !table.nodes[node].leaf {
                        symbols.add(category, node as u8, true);
                    }
                }
            }
            symbols.of_category[category as usize] = symbols.count as u8;
            symbols.add(category, 0, true);
        }
        symbols
    }

    fn add(&mut self, category: u8, node: u8, other: bool) {
        self.items[self.count] = Symbol { category, node, other };
        self.count += 1;
    }

    pub fn index(&self, table: &Decoded, category: usize, node: u8, whole: bool) -> usize {
        if node == 0 {
            return self.of_category[category] as usize;
        }
        let other = !whole && !table.nodes[node as usize].leaf;
        self.of_node[node as usize] as usize + other as usize
    }

    fn iter(&self) -> impl Iterator<Item = &Symbol> {
        self.items[..self.count].iter()
    }

    fn bytes(&self) -> impl Iterator<Item = u8> + '_ {
        self.iter().flat_map(|symbol| [symbol.category, symbol.node, symbol.other as u8])
    }
}

/// The states found so far, with a hash table of their numbers.
struct Found {
    states: [State; 256],
    count: usize,
    slots: [u16; 512],
}

const EMPTY: u16 = u16::MAX;

impl Found {
    /// The state's number; a new one is added. 256 where there is no more room.
    fn number(&mut self, state: State) -> usize {
        let key = state.status.wrapping_mul(0x9E37_79B9_7F4A_7C15) ^ state.signal as u64;
        let mut slot = (key.wrapping_mul(0x9E37_79B9_7F4A_7C15) >> 55) as usize;
        loop {
            let number = self.slots[slot];
            if number == EMPTY {
                break;
            }
            if self.states[number as usize] == state {
                return number as usize;
            }
            slot = (slot + 1) % 512;
        }
        if self.count < 256 {
            self.slots[slot] = self.count as u16;
            self.states[self.count] = state;
            self.count += 1;
            return self.count - 1;
        }
        256
    }
}

/// Writes the image and gives its length, or the refusal number. The buffer past the image, or all of it if refused,
/// is the caller's to clear.
pub fn build(table: &[u8], buffer: &mut [u8]) -> Result<usize, u8> {
    let table = Decoded::read(table)?;
    let symbols = Symbols::of(&table);
    let mut found = Found { states: [START; 256], count: 0, slots: [EMPTY; 512] };
    found.number(START);
    let head = 3 + 3 * symbols.count;
    let own = 1 + table.category_count;
    let width = own + symbols.count;
    let mut from = 0;
    while from < found.count {
        let state = found.states[from];
        let start = head + from * width;
        // Without room for the row the states are still counted: 13 comes before 14.
        let mut row = buffer.get_mut(start..start + width);
        if let Some(row) = &mut row {
            row[0] = state.signal;
            row[1..own].copy_from_slice(&state.status.to_le_bytes()[..own - 1]);
        }
        for (i, symbol) in symbols.iter().enumerate() {
            let to = table.step(state, symbol.category as usize, symbol.node, !symbol.other);
            let number = if to == state { from } else { found.number(to) };
            if number == 256 {
                return Err(13);
            }
            if let Some(row) = &mut row {
                row[own + i] = number as u8;
            }
        }
        from += 1;
    }
    let length = head + found.count * width;
    if buffer.len() < length {
        return Err(14);
    }
    buffer[0] = symbols.count as u8;
    for (to, byte) in buffer[1..].iter_mut().zip(symbols.bytes()) {
        *to = byte;
    }
    buffer[head - 2..head].copy_from_slice(&(found.count as u16).to_le_bytes());
    Ok(length)
}

/// The rows of an image of good form: number 15 if it is not.
pub fn rows<'a>(table: &Decoded, symbols: &Symbols, image: &'a [u8]) -> Result<&'a [u8], u8> {
    let own = 1 + table.category_count;
    let rows = formed(table, symbols, image, own)?;
    let fits = |row: &[u8]| (0..table.category_count).all(|c| table.fits(row[0], c, row[1 + c]));
    if !rows.chunks_exact(own + symbols.count).all(fits) {
        return Err(15);
    }
    Ok(rows)
}

/// The same of a small image, which has no statuses.
pub fn classes<'a>(table: &Decoded, symbols: &Symbols, small: &'a [u8]) -> Result<&'a [u8], u8> {
    formed(table, symbols, small, 1)
}

/// The rows, if all but the statuses is well: each has so many bytes before its targets.
fn formed<'a>(table: &Decoded, symbols: &Symbols, image: &'a [u8], own: usize) -> Result<&'a [u8], u8> {
    let head = 3 + 3 * symbols.count;
    let width = own + symbols.count;
    if image.len() < head || image[0] as usize != symbols.count {
        return Err(15);
    }
    let count = u16::from_le_bytes([image[head - 2], image[head - 1]]) as usize;
    let rows = &image[head..];
    if count == 0
        || count > 256
        || rows.len() != count * width
        || !image[1..head - 2].iter().copied().eq(symbols.bytes())
    {
        return Err(15);
    }
    let last = (count - 1) as u8;
    for row in rows.chunks_exact(width) {
        if row[0] as usize >= table.signal_count || row[own..].iter().any(|&target| target > last) {
            return Err(15);
        }
    }
    Ok(rows)
}

pub fn check(table: &[u8], image: &[u8]) -> Result<(), u8> {
    let table = Decoded::read(table)?;
    let symbols = Symbols::of(&table);
    let rows = rows(&table, &symbols, image)?;
    let own = 1 + table.category_count;
    let width = own + symbols.count;
    let state_at = |start: usize| {
        let mut status = [0; 8];
        status[..own - 1].copy_from_slice(&rows[start + 1..start + own]);
        State { signal: rows[start], status: u64::from_le_bytes(status) }
    };
    if state_at(0) != START {
        return Err(16);
    }
    for (j, row) in rows.chunks_exact(width).enumerate() {
        let state = state_at(j * width);
        for (symbol, &target) in symbols.iter().zip(&row[own..]) {
            let to = table.step(state, symbol.category as usize, symbol.node, !symbol.other);
            if state_at(target as usize * width) != to {
                return Err(17);
            }
        }
    }
    Ok(())
}
