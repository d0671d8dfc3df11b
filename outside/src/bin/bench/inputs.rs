//! What the functions are timed on.
use outside::random::logs;
use outside::random::tables::{limits, Draft};
use outside::reference::Reference;
use outside::{Classes, Reader, Tables, Trees};
use std::path::Path;

type Bytes = Vec<u8>;

pub struct Inputs {
    /// Values, with a name for each.
    pub values: Vec<(String, Bytes)>,
    /// Well-formed tables with their machines.
    pub tables: Vec<(String, Bytes, Bytes)>,
    /// For each of them, the proposed classes and their small image.
    pub small: Vec<(Bytes, Bytes)>,
    /// The same tables and one more, each with its tree.
    pub trees: Vec<(String, Bytes, Bytes)>,
    /// For each table, a value that it uses.
    used: Vec<Bytes>,
    /// For some tables, 64 entries of which the first settles the signal.
    settled: Vec<(usize, Bytes)>,
    /// Tables of rings and of lamps, with a value for both.
    pairs: Vec<(String, Bytes, Bytes, Bytes)>,
    /// Three fields of one message.
    fields: [Bytes; 3],
    /// A log as long as it may be for each of the first tables, with its number of calls; all have the same value.
    logs: Vec<(Bytes, usize)>,
    /// Tables that are refused late, after as much comparing as we could think of.
    pub refused: Vec<(String, Bytes)>,
}

/// 31 signals with 8 URNs each that are alike but for one letter of the last, and more than 64 nodes: refused with 12
/// only after every two signals have been compared as texts.
fn alike(letter: usize) -> Bytes {
    let urn = |category: u8, signal: u8| {
        let mut urn = vec![category, b':'];
        urn.extend([b'x'; 20]);
        if category == b'h' {
            urn[2 + letter] = b"abcdefghijklmnopqrstuvwxyz01234"[signal as usize];
            urn.extend(b":y:z");
        } else {
            urn.extend([b'x'; 7]);
        }
        urn
    };
    let signals = (0..31).map(|signal| (b'a'..=b'h').map(|category| urn(category, signal)).collect());
    let categories = (b'a'..=b'h').map(|category| vec![category]).collect();
    Draft { categories, signals: std::iter::once(Vec::new()).chain(signals).collect() }.bytes()
}

/// 31 signals with 8 URNs of 8 parts each, in categories whose names differ in the last letter only: refused with 11
/// after each path has been looked for among 64 nodes.
fn deep() -> Bytes {
    let name = |category: u8| [b"long-category-".as_slice(), &[category]].concat();
    let urn = |category: u8| [name(category).as_slice(), b":a:a:a:a:a:a:a:a"].concat();
    let signal: Vec<Bytes> = (b'a'..=b'h').map(urn).collect();
    let signals = std::iter::once(Vec::new()).chain(vec![signal; 31]).collect();
    Draft { categories: (b'a'..=b'h').map(name).collect(), signals }.bytes()
}

/// The path of a long URN: four parts of 55 bytes, then one of 27 that ends in the letter, then one more.
fn long_path(letter: u8) -> String {
    let name = [b"a".repeat(27), b"b".repeat(27)].join(&b'@');
    let last = [b"x".repeat(26), vec![letter]].concat();
    let parts = [vec![name; 4], vec![last, b"z".to_vec()]].concat();
    String::from_utf8(parts.join(&b':')).expect("letters")
}

/// 30 signals whose URNs of 255 bytes are alike up to the last letter of their last part but one: 64 nodes, and no
/// others that we know of make the search compare more bytes.
fn alike_paths() -> Bytes {
    let letters = (b'a'..=b'z').chain(b'0'..=b'3');
    let signals = letters.map(|letter| vec![format!("c:{}", long_path(letter)).into_bytes()]);
    Draft { categories: vec![b"c".to_vec()], signals: std::iter::once(Vec::new()).chain(signals).collect() }.bytes()
}

pub fn example(name: &str) -> Bytes {
    let file = Path::new(env!("CARGO_MANIFEST_DIR")).join("../examples/tables").join(name);
    std::fs::read(&file).unwrap_or_else(|e| panic!("{}: {e}", file.display()))
}

fn limit(what: &str) -> Bytes {
    limits().into_iter().find(|limit| limit.what == what).expect("a known limit").table
}

pub fn machine(table: &[u8]) -> Bytes {
    let mut buffer = vec![0; 35_459];
    let built = Reference::build(table, &mut buffer);
    assert_eq!(built.refusal, 0);
    buffer.truncate(built.len);
    buffer
}

fn smallest(table: &[u8], image: &[u8]) -> (Bytes, Bytes) {
    let mut classes = vec![0; 256];
    let proposed = Reference::propose(table, image, &mut classes);
    classes.truncate(proposed.len);
    let mut small = vec![0; image.len()];
    let written = Reference::small_write(table, image, &classes, &mut small);
    assert_eq!((proposed.refusal, written.refusal), (0, 0));
    small.truncate(written.len);
    (classes, small)
}

fn tree(table: &[u8]) -> Bytes {
    let mut buffer = vec![0; 8192];
    let converted = Reference::from_table(table, &mut buffer);
    assert_eq!(converted.refusal, 0);
    buffer.truncate(converted.len);
    buffer
}

pub fn urns(names: &[&str], times: usize) -> Bytes {
    let entries: Vec<String> = names.iter().map(|name| format!("<urn:alert:{name}>")).collect();
    vec![entries.join(", "); times].join(", ").into_bytes()
}

/// A log of as many calls of this value as it may have, all right.
fn full_log(table: &[u8], value: &[u8]) -> (Bytes, usize) {
    let call = logs::call(value, logs::right(table, value));
    let calls = (32_768 - 2) / call.len();
    (logs::log(&vec![call; calls]), calls)
}

/// The number of an accepted value's last entry.
pub fn last(value: &[u8]) -> usize {
    Reference::entries(value) - 1
}

impl Inputs {
    pub fn new() -> Inputs {
        let long_uri = format!("<{}>", "u".repeat(4094));
        let quoted = format!("<a>;x=\"{}\"", "\\,".repeat(2044));
        let value = |name: &str, bytes: Bytes| (name.to_string(), bytes);
        let values = vec![
            value("1 entry, 27 bytes", urns(&["source:internal"], 1)),
            value("3 entries", urns(&["source:internal", "source:unclassified", "priority:high"], 1)),
            value("64 entries", urns(&["source:internal", "priority:high"], 32)),
            value("one URI, 4,096 bytes", long_uri.into_bytes()),
            value("one quoted string, 4,096 bytes", quoted.into_bytes()),
        ];
        let table = |name: &str, bytes: Bytes| {
            let image = machine(&bytes);
            (name.to_string(), bytes, image)
        };
        let tables = vec![
            table("T1: 3 signals, 4 states", example("T1.table")),
            table("T2: 9 signals, 16 states", example("T2.table")),
            table("32 signals, 33 states", limit("32 signals")),
            table("8,192 bytes, 256 states", limit("8,192 bytes")),
            table("64 nodes, 256 states, 120 symbols", limit("64 nodes, 256 states, 120 symbols")),
            table("64 nodes with long common beginnings", alike_paths()),
        ];
        let small = tables.iter().map(|(_, table, image)| smallest(table, image)).collect();
        let countries = ("countries: 13 states".to_string(), example("countries.table"));
        let well_formed = tables.iter().map(|(name, table, _)| (name.clone(), table.clone()));
        let trees = well_formed.chain([countries]).map(|(name, table)| {
            let tree = tree(&table);
            (name, table, tree)
        });
        let trees = trees.collect();
        let used = vec![
            urns(&["source:internal"], 1),
            urns(&["source:internal", "source:unclassified", "priority:high"], 1),
            urns(&["c:l31", "c:l7"], 32),
            urns(&["category-0:0", "category-7:7"], 32),
            urns(&["b:x6-0:x6-1:x6-2:x6-3", "a:a1"], 32),
            urns(&[&format!("c:{}", long_path(b'3'))], 15),
        ];
        let mut refused = [0, 10, 19]
            .map(|letter| (format!("7,397 bytes, refused with 12, letter {letter} differs"), alike(letter)))
            .to_vec();
        let deep = deep();
        refused.push((format!("{} bytes, refused with 11, 64 nodes", deep.len()), deep));
        let settled = vec![
            (0, urns(&["source:internal"], 64)),
            (2, urns(&["c:l31"], 64)),
            (4, urns(&["b:x6-0:x6-1:x6-2:x6-3:x6-4:x6-5:x6-6:x6-7"], 64)),
        ];
        let pairs = vec![
            (
                "T1 and T5; 3 entries".to_string(),
                example("T1.table"),
                example("T5.table"),
                urns(&["source:internal", "service:recall", "service:recall:callback"], 1),
            ),
            (
                "32 signals and 8,192 bytes; 64 entries".to_string(),
                limit("32 signals"),
                limit("8,192 bytes"),
                urns(&["c:l31", "category-0:0"], 32),
            ),
        ];
        let fields = ["source:internal", "source:unclassified", "priority:high"].map(|name| urns(&[name], 1));
        let logs = tables[..2].iter().map(|(_, table, _)| full_log(table, &values[1].1)).collect();
        Inputs { values, tables, small, trees, used, settled, pairs, fields, logs, refused }
    }

    /// Each table with its machine and a value that it uses.
    pub fn calls(&self) -> impl Iterator<Item = (String, &Bytes, &Bytes, &Bytes)> {
        self.tables.iter().zip(&self.used).map(|((name, table, image), value)| {
            let entries = match Reference::entries(value) {
                1 => "1 entry".to_string(),
                more => format!("{more} entries"),
            };
            (format!("{name}; {entries}"), table, image, value)
        })
    }

    /// Tables with a value whose first entry settles the signal.
    pub fn settled(&self) -> impl Iterator<Item = (String, &Bytes, &Bytes)> {
        self.settled.iter().map(|(i, value)| {
            let (name, table, _) = &self.tables[*i];
            (format!("{name}; {} entries, the first settles", Reference::entries(value)), table, value)
        })
    }

    /// A table of rings and one of lamps, with a value for both: small, and with 32 signals each.
    pub fn pairs(&self) -> impl Iterator<Item = (String, &Bytes, &Bytes, &Bytes)> {
        self.pairs.iter().map(|(name, rings, lamps, value)| (name.clone(), rings, lamps, value))
    }

    /// The example tables with a message of three fields.
    pub fn messages(&self) -> impl Iterator<Item = (String, &Bytes, &[Bytes; 3])> {
        self.tables[..2].iter().map(|(name, table, _)| (format!("{name}; 3 fields"), table, &self.fields))
    }

    /// Tables with a log, its number of calls and their value.
    pub fn logs(&self) -> impl Iterator<Item = (String, &Bytes, &Bytes, usize, &Bytes)> {
        self.tables.iter().zip(&self.logs).map(|((name, table, _), (log, calls))| {
            (format!("{name}; {calls} calls of 3 entries, {} bytes", log.len()), table, log, *calls, &self.values[1].1)
        })
    }
}
