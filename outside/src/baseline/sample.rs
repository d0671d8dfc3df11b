//! Sample values, written straight into the buffer.
use super::table::{Decoded, Node};
use crate::Seed;

/// z and the decimal digits of a number under 100.
struct Name {
    bytes: [u8; 3],
    len: usize,
}

impl Name {
    fn of(k: u8) -> Name {
        if k < 10 {
            Name { bytes: [b'z', b'0' + k, 0], len: 2 }
        } else {
            Name { bytes: [b'z', b'0' + k / 10, b'0' + k % 10], len: 3 }
        }
    }

    fn text(&self) -> &[u8] {
        &self.bytes[..self.len]
    }
}

/// Of one name more than there are nodes, one is free.
fn free(taken: impl Fn(&[u8]) -> bool) -> Name {
    (0..64).map(Name::of).find(|name| !taken(name.text())).unwrap_or(Name::of(64))
}

fn choose(seed: &mut u32, n: usize) -> usize {
    *seed = seed.wrapping_mul(1_664_525).wrapping_add(1_013_904_223);
    (*seed >> 16) as usize % n
}

/// A buffer and how much of it is written.
struct Writer<'a> {
    buffer: &'a mut [u8],
    len: usize,
}

impl Writer<'_> {
    fn put(&mut self, bytes: &[u8]) {
        self.buffer[self.len..self.len + bytes.len()].copy_from_slice(bytes);
        self.len += bytes.len();
    }

    fn node(&mut self, table: &Decoded, number: usize, strange: bool) {
        let node: &Node = &table.nodes[number];
        self.put(table.name(node.category as usize));
        self.put(b":");
        self.put(table.path(node));
        if strange {
            let part = free(|name| table.child(node.category as usize, number as u8, name).is_some());
            self.put(b":");
            self.put(part.text());
        }
    }

    fn entry(&mut self, table: &Decoded, seed: &mut u32) {
        self.put(b"<urn:alert:");
        match choose(seed, 3) {
            2 => {
                self.put(free(|name| table.category(name).is_some()).text());
                self.put(b":a");
            }
            kind => self.node(table, choose(seed, table.node_count) + 1, kind == 1),
        }
        self.put(b">");
    }
}

/// The value into the buffer, and the seed after it; or the refusal number, and nothing changes.
pub fn write(table: &[u8], seed: &mut Seed, buffer: &mut [u8]) -> Result<usize, u8> {
    let table = Decoded::read(table)?;
    if buffer.len() < 4096 {
        return Err(26);
    }
    let mut writer = Writer { buffer, len: 0 };
    for k in 0..=choose(&mut seed.x, 8) {
        if k > 0 {
            writer.put(b",");
        }
        writer.entry(&table, &mut seed.x);
    }
    Ok(writer.len)
}
