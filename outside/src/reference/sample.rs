//! Sample values: the rules as they stand, with the seed in a number that cannot wrap.
use super::table::{Node, Table};
use super::urn::Name;
use crate::Seed;

/// The first of z0, z1 and so on that is not taken.
fn free(taken: impl Fn(&Name) -> bool) -> Name {
    (0..).map(|k| format!("z{k}").into_bytes()).find(|name| !taken(name)).expect("one of them is free")
}

/// The seed goes on, and chooses among n.
fn choose(seed: &mut Seed, n: usize) -> usize {
    seed.x = ((u64::from(seed.x) * 1_664_525 + 1_013_904_223) % 4_294_967_296) as u32;
    seed.x as usize / 65_536 % n
}

fn foreign(table: &Table) -> Vec<Name> {
    vec![free(|name| table.categories.contains(name)), b"a".to_vec()]
}

fn names(table: &Table, node: &Node) -> Vec<Name> {
    [vec![table.categories[node.category].clone()], node.path.clone()].concat()
}

fn strange(table: &Table, node: &Node) -> Name {
    free(|name| table.is_node(node.category, &[node.path.clone(), vec![name.clone()]].concat()))
}

/// One entry: its kind is chosen, then its node, unless it is foreign.
fn entry(table: &Table, seed: &mut Seed) -> Vec<u8> {
    let names = match choose(seed, 3) {
        2 => foreign(table),
        kind => {
            let node = &table.nodes[choose(seed, table.nodes.len())];
            let mut names = names(table, node);
            if kind == 1 {
                names.push(strange(table, node));
            }
            names
        }
    };
    [b"<urn:alert:", names.join(&b':').as_slice(), b">"].concat()
}

/// The value, and the seed after it; or the refusal number.
pub fn value(table: &[u8], seed: Seed, room: usize) -> Result<(Vec<u8>, Seed), u8> {
    let table = Table::read(table)?;
    if room < 4096 {
        return Err(26);
    }
    let mut after = seed;
    let count = choose(&mut after, 8) + 1;
    let entries: Vec<Vec<u8>> = (0..count).map(|_| entry(&table, &mut after)).collect();
    Ok((entries.join(&b','), after))
}
