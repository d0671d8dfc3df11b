//! Random tables with the tree written once.
use super::tables::{bad_name, name, Draft};
use super::{damage, Random};
use crate::reference::tree::from_table;

type Text = Vec<u8>;

/// A tree before it is stored: nodes as category, parent and name, signals as node numbers.
#[derive(Clone)]
struct Sketch {
    categories: Vec<Text>,
    nodes: Vec<(u8, u8, Text)>,
    signals: Vec<Vec<u8>>,
}

fn push_text(bytes: &mut Vec<u8>, text: &Text) {
    bytes.push(text.len() as u8);
    bytes.extend(text);
}

impl Sketch {
    /// What the bytes of a tree say.
    fn of(mut bytes: &[u8]) -> Sketch {
        let mut take = |n: usize| {
            let (front, rest) = bytes.split_at(n);
            bytes = rest;
            front.to_vec()
        };
        let mut sketch = Sketch { categories: Vec::new(), nodes: Vec::new(), signals: Vec::new() };
        for _ in 0..take(1)[0] {
            let length = take(1)[0] as usize;
            sketch.categories.push(take(length));
        }
        for _ in 0..take(1)[0] {
            let head = take(3);
            sketch.nodes.push((head[0], head[1], take(head[2] as usize)));
        }
        for _ in 0..take(1)[0] {
            let count = take(1)[0] as usize;
            sketch.signals.push(take(count));
        }
        sketch
    }

    /// The three sections. Counts and lengths are cut to a byte.
    fn bytes(&self) -> Vec<u8> {
        let mut bytes = vec![self.categories.len() as u8];
        self.categories.iter().for_each(|name| push_text(&mut bytes, name));
        bytes.push(self.nodes.len() as u8);
        for (category, parent, name) in &self.nodes {
            bytes.extend([*category, *parent]);
            push_text(&mut bytes, name);
        }
        bytes.push(self.signals.len() as u8);
        for numbers in &self.signals {
            bytes.push(numbers.len() as u8);
            bytes.extend(numbers);
        }
        bytes
    }

    /// Further nodes, each under the one before, and a signal with the last of them.
    fn grow(&mut self, category: u8, parent: u8, names: Vec<Text>) {
        let mut above = parent;
        for name in names {
            self.nodes.push((category, above, name));
            above = self.nodes.len() as u8;
        }
        self.signals.push(vec![above]);
    }
}

/// Two labels, as long as a name can be.
fn long_name(random: &mut Random) -> Text {
    let letter = b'a' + random.below(26) as u8;
    [vec![letter; 27], vec![b'z'; 27]].join(&b'@')
}

/// One fault of a tree, or none after all.
fn spoil(random: &mut Random, sketch: &mut Sketch) {
    let c = random.below(sketch.categories.len());
    let n = random.below(sketch.nodes.len());
    let s = random.below(sketch.signals.len());
    let count = sketch.nodes.len() as u8;
    match random.below(24) {
        // 6, by counts and lengths
        0 => sketch.categories.extend((0..9).map(|i| format!("c{i}").into_bytes())),
        1 => sketch.categories[c] = vec![b'a'; *random.pick(&[0, 56])],
        2 => sketch.nodes[n].2 = vec![b'a'; *random.pick(&[0, 56, 255])],
        3 => match random.below(4) {
            0 => sketch.categories.clear(),
            1 => sketch.nodes.clear(),
            2 => sketch.signals.clear(),
            _ => sketch.signals[s] = vec![1; 9],
        },
        4 => {
            let names = (0..random.between(60, 70)).map(|i| format!("w{i}").into_bytes());
            names.for_each(|name| sketch.grow(c as u8, 0, vec![name]));
            sketch.signals.truncate(random.between(30, 34));
        }
        // 7
        5 => sketch.categories[c] = bad_name(random),
        6 => sketch.nodes[n].2 = bad_name(random),
        // 21
        7 => sketch.nodes[n].0 = random.below(sketch.categories.len() + 2) as u8,
        8 => sketch.nodes[n].1 = random.below(count as usize + 2) as u8,
        9 => sketch.nodes[n].1 = n as u8 + 1,
        10 => {
            let other = random.below(sketch.nodes.len());
            sketch.nodes.swap(n, other);
        }
        11 => {
            let node = sketch.nodes[n].clone();
            sketch.nodes.push(node);
            if random.percent(50) {
                sketch.signals.push(vec![count + 1]);
            }
        }
        12 => sketch.nodes.push((c as u8, 0, b"unused".to_vec())),
        13 => sketch.signals[s].push(*random.pick(&[0, count + 1, 255, count])),
        14 if n > 0 => {
            let node = sketch.nodes[n - 1].clone();
            sketch.nodes[n] = node;
        }
        // 6, 7 by paths
        15 => {
            let names = (0..random.between(3, 6)).map(|_| long_name(random)).collect();
            sketch.grow(sketch.nodes[n].0, n as u8 + 1, names);
        }
        16 => {
            let names = (0..random.between(6, 10)).map(|i| format!("d{i}").into_bytes()).collect();
            sketch.grow(c as u8, 0, names);
        }
        // 8
        17 => sketch.categories.push(b"unused".to_vec()),
        18 => {
            sketch.categories.push(sketch.categories[c].clone());
            sketch.grow(sketch.categories.len() as u8 - 1, 0, vec![name(random)]);
        }
        // 9
        19 => sketch.signals[s].push(n as u8 + 1),
        // 10
        20 => sketch.signals[0].push(n as u8 + 1),
        // 11
        21 => {
            let mut again = sketch.signals[s].clone();
            random.shuffle(&mut again);
            sketch.signals.push(again);
        }
        22 => random.shuffle(&mut sketch.signals[s]),
        _ => sketch.grow(c as u8, 0, vec![name(random)]),
    }
}

/// A tree's bytes, from a draft of its table: well-formed, or with one fault or several.
pub fn stored(random: &mut Random, draft: &Draft) -> Vec<u8> {
    let Ok(tree) = from_table(&draft.bytes(), usize::MAX) else { return draft.bytes() };
    let mut sketch = Sketch::of(&tree);
    let faults = match random.below(10) {
        0..=3 => 0,
        4..=8 => 1,
        _ => random.between(2, 3),
    };
    for _ in 0..faults {
        if !sketch.categories.is_empty() && !sketch.nodes.is_empty() && !sketch.signals.is_empty() {
            spoil(random, &mut sketch);
        }
    }
    let mut bytes = sketch.bytes();
    if random.percent(15) {
        damage(random, &mut bytes);
    }
    if random.percent(3) {
        bytes.resize(random.between(8190, 8195), b'a');
    }
    bytes
}

/// A tree at a limit or one past it, and the refusal number of its conversion in a buffer with room for any.
pub struct Limit {
    pub what: &'static str,
    pub tree: Vec<u8>,
    pub refusal: u8,
}

fn chain(category: &str, names: Vec<Text>) -> Vec<u8> {
    let mut sketch =
        Sketch { categories: vec![category.as_bytes().to_vec()], nodes: Vec::new(), signals: vec![Vec::new()] };
    sketch.grow(0, 0, names);
    sketch.bytes()
}

/// A URN of so many bytes: a category of one, four names of 55 and one more.
fn urn_of(bytes: usize) -> Vec<u8> {
    let name = [b"a".repeat(27), b"b".repeat(27)].join(&b'@');
    let last = [b"d".repeat(14), b"e".repeat(bytes - 241)].join(&b'@');
    chain("c", [vec![name; 4], vec![last]].concat())
}

/// So many nodes under the roots of three categories, three to a signal.
fn wide(nodes: u8) -> Vec<u8> {
    let categories = vec![b"a".to_vec(), b"b".to_vec(), b"c".to_vec()];
    let numbers: Vec<u8> = (1..=nodes).collect();
    Sketch {
        categories,
        nodes: numbers.iter().map(|n| ((n - 1) % 3, 0, format!("n{n}").into_bytes())).collect(),
        signals: std::iter::once(Vec::new()).chain(numbers.chunks(3).map(<[u8]>::to_vec)).collect(),
    }
    .bytes()
}

/// The tree of the table of 8,192 bytes, with so many letters more in a name that one signal has.
fn long(more: usize) -> Vec<u8> {
    let table = super::tables::limits().into_iter().find(|limit| limit.what == "8,192 bytes").expect("a known limit");
    let mut sketch = Sketch::of(&from_table(&table.table, usize::MAX).expect("a well-formed table"));
    let times = |n: u8| sketch.signals.iter().flatten().filter(|&&number| number == n).count();
    let once = (1..=sketch.nodes.len() as u8).find(|&n| times(n) == 1).expect("a node of one signal");
    sketch.nodes[once as usize - 1].2.extend(vec![b'x'; more]);
    sketch.bytes()
}

/// Trees at each limit and one past it.
pub fn limits() -> Vec<Limit> {
    let parts = |n: usize| (0..n).map(|i| format!("p{i}").into_bytes()).collect::<Vec<Text>>();
    let limit = |what, tree, refusal| Limit { what, tree, refusal };
    vec![
        limit("a URN of 255 bytes", urn_of(255), 0),
        limit("a URN of 256 bytes", urn_of(256), 6),
        limit("8 parts", chain("c", parts(8)), 0),
        limit("9 parts", chain("c", parts(9)), 7),
        limit("64 parts", chain("c", parts(64)), 7),
        limit("64 long parts", chain("c", vec![vec![b'a'; 27]; 64]), 6),
        limit("64 nodes", wide(64), 0),
        limit("65 nodes", wide(65), 6),
        limit("a table of 8,192 bytes", long(0), 0),
        limit("a table of 8,193 bytes", long(1), 22),
        limit("no bytes", Vec::new(), 5),
        limit("8,193 bytes", vec![1; 8193], 4),
    ]
}
