//! The table with its tree written once: categories, nodes, signals.
use super::table::{nodes_of, read_stored, Left, Node, Stored, Table};
use super::urn::{category_and_path, is_name, Name, Path};

/// A node as it is stored: the number of its category, that of its parent (0 for the root), and its last name.
struct Stem {
    category: usize,
    parent: usize,
    name: Name,
}

/// The three sections.
struct Tree {
    categories: Vec<Name>,
    stems: Vec<Stem>,
    /// Each signal's node numbers, which run from 1.
    signals: Vec<Vec<usize>>,
}

fn read_sections(bytes: &[u8]) -> Result<Tree, u8> {
    if bytes.len() > 8192 {
        return Err(4);
    }
    let mut left = Left(bytes);
    let mut tree = Tree { categories: Vec::new(), stems: Vec::new(), signals: Vec::new() };
    for _ in 0..left.number(1, 8)? {
        tree.categories.push(left.text(1, 55)?);
    }
    for _ in 0..left.number(1, 64)? {
        let category = left.number(0, 255)?;
        let parent = left.number(0, 255)?;
        tree.stems.push(Stem { category, parent, name: left.text(1, 55)? });
    }
    for _ in 0..left.number(1, 32)? {
        let count = left.number(0, 8)?;
        tree.signals.push((0..count).map(|_| left.number(0, 255)).collect::<Result<_, u8>>()?);
    }
    if !left.0.is_empty() {
        return Err(5);
    }
    Ok(tree)
}

fn is_lower_name(name: &Name) -> bool {
    is_name(name) && !name.iter().any(u8::is_ascii_uppercase)
}

impl Tree {
    /// Every node with its whole path. Nothing if a category is not there, or a parent is neither the root nor an earlier
    /// node of the same category.
    fn nodes(&self) -> Option<Vec<Node>> {
        let mut nodes: Vec<Node> = Vec::new();
        for stem in &self.stems {
            let mut path = Path::new();
            if stem.parent > 0 {
                let parent = nodes.get(stem.parent - 1).filter(|parent| parent.category == stem.category)?;
                path = parent.path.clone();
            }
            path.push(stem.name.clone());
            nodes.push(Node { category: stem.category, path });
        }
        nodes.iter().all(|node| node.category < self.categories.len()).then_some(nodes)
    }

    /// Every signal's URNs, or nothing: the nodes that they bring have to be those that are listed, in that order.
    fn urns(&self) -> Option<Vec<Vec<Node>>> {
        let nodes = self.nodes()?;
        let urn = |&number: &usize| nodes.get(number.checked_sub(1)?).cloned();
        let urns: Option<Vec<Vec<Node>>> =
            self.signals.iter().map(|numbers| numbers.iter().map(urn).collect()).collect();
        urns.filter(|urns| nodes_of(urns) == nodes)
    }
}

/// The texts of the old form. They are those of a well-formed table, or the refusal number is given.
fn stored(bytes: &[u8]) -> Result<Stored, u8> {
    let tree = read_sections(bytes)?;
    let mut names = tree.categories.iter().chain(tree.stems.iter().map(|stem| &stem.name));
    if !names.all(is_lower_name) {
        return Err(7);
    }
    let urns = tree.urns().ok_or(21)?;
    let text = |urn: &Node| {
        let names = [vec![tree.categories[urn.category].clone()], urn.path.clone()].concat();
        names.join(&b':')
    };
    let signals: Vec<Vec<Vec<u8>>> = urns.iter().map(|urns| urns.iter().map(text).collect()).collect();
    if signals.iter().flatten().any(|urn| urn.len() > 255) {
        return Err(6);
    }
    let stored = || Stored { categories: tree.categories.clone(), signals: signals.clone() };
    Table::of(stored())?;
    Ok(stored())
}

pub fn refusal(tree: &[u8]) -> u8 {
    stored(tree).err().unwrap_or(0)
}

/// A count, and what it counts.
fn section(items: Vec<Vec<u8>>) -> Vec<u8> {
    [vec![items.len() as u8], items.concat()].concat()
}

fn text(text: &Vec<u8>) -> Vec<u8> {
    [vec![text.len() as u8], text.clone()].concat()
}

fn fitting(form: Vec<u8>, room: usize) -> Result<Vec<u8>, u8> {
    if form.len() > room {
        return Err(22);
    }
    Ok(form)
}

/// The old form of a tree, for a buffer of so many bytes.
pub fn to_table(tree: &[u8], room: usize) -> Result<Vec<u8>, u8> {
    let stored = stored(tree)?;
    let signal = |urns: &Vec<Vec<u8>>| section(urns.iter().map(text).collect());
    let categories = section(stored.categories.iter().map(text).collect());
    let signals = section(stored.signals.iter().map(signal).collect());
    fitting([categories, signals].concat(), room.min(8192))
}

/// The tree of a table, for a buffer of so many bytes.
pub fn from_table(table: &[u8], room: usize) -> Result<Vec<u8>, u8> {
    let Table { categories, nodes, .. } = Table::read(table)?;
    let number = |category: usize, path: &[Name]| {
        nodes.iter().position(|node| node.category == category && node.path == path).map_or(0, |i| i as u8 + 1)
    };
    let stem = |node: &Node| {
        let (name, above) = node.path.split_last().expect("no node is the root");
        [vec![node.category as u8, number(node.category, above)], text(name)].concat()
    };
    let of_urn = |urn: &Vec<u8>| {
        let (category, path) = category_and_path(urn).expect("a URN of good form");
        let category = categories.iter().position(|name| *name == category).expect("a listed category");
        vec![number(category, &path)]
    };
    let signals = read_stored(table)?.signals;
    let form = [
        section(categories.iter().map(text).collect()),
        section(nodes.iter().map(stem).collect()),
        section(signals.iter().map(|urns| section(urns.iter().map(of_urn).collect())).collect()),
    ];
    fitting(form.concat(), room)
}
