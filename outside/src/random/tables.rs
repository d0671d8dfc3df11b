//! Random tables.
use super::{damage, Random};

type Text = Vec<u8>;

/// A table before it is stored.
#[derive(Clone)]
pub struct Draft {
    pub categories: Vec<Text>,
    pub signals: Vec<Vec<Text>>,
}

impl Draft {
    /// The two sections. Counts and lengths are cut to a byte.
    pub fn bytes(&self) -> Vec<u8> {
        let mut bytes = vec![self.categories.len() as u8];
        for name in &self.categories {
            bytes.push(name.len() as u8);
            bytes.extend(name);
        }
        bytes.push(self.signals.len() as u8);
        for urns in &self.signals {
            bytes.push(urns.len() as u8);
            for urn in urns {
                bytes.push(urn.len() as u8);
                bytes.extend(urn);
            }
        }
        bytes
    }
}

const LABELS: [&str; 24] = [
    "internal",
    "int",
    "external",
    "high",
    "low",
    "normal",
    "a",
    "b",
    "n8",
    "ab",
    "a-b",
    "a--b",
    "0",
    "9z",
    "vip",
    "in",
    "callback",
    "recall",
    "xa",
    "xb",
    "q",
    "abcdefghijklmnopqrstuvwxyz0",
    "abcdefghijklmnopqrstuvwxyz1",
    "n7",
];

/// A name of good form: one label, or two with `@` between.
pub fn name(random: &mut Random) -> Text {
    let mut text = random.pick(&LABELS).to_string();
    if random.percent(15) {
        text = format!("{text}@{}", random.pick(&LABELS));
    }
    text.into_bytes()
}

/// A name of bad form.
pub fn bad_name(random: &mut Random) -> Text {
    let bad = [
        "",
        "-",
        "-a",
        "a-",
        "a@",
        "@a",
        "a@b@c",
        "a@-b",
        "Internal",
        "a@B",
        "a-@b",
        "a.b",
        "a b",
        "a_b",
        "abcdefghijklmnopqrstuvwxyz01",
        "a@abcdefghijklmnopqrstuvwxyz01",
        "a\u{7f}",
        "\u{e9}",
    ];
    random.pick(&bad).as_bytes().to_vec()
}

fn join(names: &[Text]) -> Text {
    names.join(&b':')
}

/// Distinct names for the categories.
fn categories(random: &mut Random) -> Vec<Text> {
    let count = if random.percent(70) { random.between(1, 3) } else { random.between(1, 8) };
    let mut names: Vec<Text> = Vec::new();
    while names.len() < count {
        let name = name(random);
        if !names.contains(&name) {
            names.push(name);
        }
    }
    names
}

/// Some paths, each under the root or an earlier one.
fn paths(random: &mut Random) -> Vec<Vec<Text>> {
    let deep = random.percent(25);
    let mut paths: Vec<Vec<Text>> = Vec::new();
    for _ in 0..random.between(1, 5) {
        let mut path = if paths.is_empty() || random.percent(40) { Vec::new() } else { random.pick(&paths).clone() };
        let more = if deep { random.between(1, 8) } else { random.between(1, 2) };
        path.extend((0..more).map(|_| name(random)));
        path.truncate(8);
        paths.push(path);
    }
    paths
}

/// A table that is mostly well-formed: signal 0 bare, every category used, signals often one step from one another.
pub fn draft(random: &mut Random) -> Draft {
    let categories = categories(random);
    let trees: Vec<Vec<Vec<Text>>> = categories.iter().map(|_| paths(random)).collect();
    let mut rows: Vec<Vec<Vec<Text>>> = vec![vec![Vec::new(); categories.len()]];
    let wanted = if random.percent(80) { random.between(2, 10) } else { random.between(1, 32) };
    for turn in 0..3 * wanted {
        if rows.len() >= wanted.max(2) && turn >= categories.len() {
            break;
        }
        let mut row = if random.percent(85) { random.pick(&rows).clone() } else { rows[0].clone() };
        let changes = if random.percent(80) { 1 } else { random.between(1, categories.len()) };
        for change in 0..changes {
            let c = if change == 0 { turn % categories.len() } else { random.below(categories.len()) };
            let path = random.pick(&trees[c]);
            row[c] = path[..random.between(1, path.len())].to_vec();
        }
        if !rows.contains(&row) && rows.len() < 32 {
            rows.push(row);
        }
    }
    let signals = rows.iter().map(|row| urns(random, &categories, row)).collect();
    Draft { categories, signals }
}

/// The same table with its categories renamed, so that it mostly has none in common with another.
pub fn renamed(draft: &Draft) -> Draft {
    let rename = |text: &Text| [b"y-", &text[..]].concat();
    Draft {
        categories: draft.categories.iter().map(rename).collect(),
        signals: draft.signals.iter().map(|urns| urns.iter().map(rename).collect()).collect(),
    }
}

/// The URNs of both, for values that have some of each.
pub fn joined(one: &Draft, other: &Draft) -> Draft {
    Draft {
        categories: [one.categories.clone(), other.categories.clone()].concat(),
        signals: [one.signals.clone(), other.signals.clone()].concat(),
    }
}

/// A row's URNs, in any order.
fn urns(random: &mut Random, categories: &[Text], row: &[Vec<Text>]) -> Vec<Text> {
    let mut urns: Vec<Text> = Vec::new();
    for (category, path) in categories.iter().zip(row) {
        if !path.is_empty() {
            let mut names = vec![category.clone()];
            names.extend_from_slice(path);
            urns.push(join(&names));
        }
    }
    random.shuffle(&mut urns);
    urns
}

/// One fault of a table, named by its number.
fn spoil(random: &mut Random, draft: &mut Draft) {
    let c = random.below(draft.categories.len());
    let s = random.below(draft.signals.len());
    let some_urn = draft.signals.iter().flatten().next().cloned().unwrap_or(b"a:b".to_vec());
    let path: Text = some_urn.split(|&b| b == b':').skip(1).collect::<Vec<_>>().join(&b':');
    match random.below(16) {
        // 6, by counts and lengths
        0 => draft.categories.clear(),
        1 => draft.categories.extend((0..9).map(|i| format!("c{i}").into_bytes())),
        2 => draft.categories[c] = vec![b'a'; *random.pick(&[0, 56])],
        3 => draft.signals.clear(),
        4 => draft.signals.extend((0..33).map(|i| vec![format!("a:b{i}").into_bytes()])),
        5 => draft.signals[s] = vec![some_urn; 9],
        6 => draft.signals[s].push(Vec::new()),
        // 7
        7 => draft.categories[c] = bad_name(random),
        8 => {
            let mut parts: Vec<Text> = (0..random.between(0, 10)).map(|_| name(random)).collect();
            if random.percent(50) {
                parts.push(bad_name(random));
            }
            parts.insert(0, draft.categories[c].clone());
            draft.signals[s].push(join(&parts));
        }
        // 8
        9 => draft.categories.push(draft.categories[c].clone()),
        10 => draft.categories.push(b"unused".to_vec()),
        11 => draft.signals[s].push(b"unlisted:a".to_vec()),
        // 9
        12 => {
            let category = some_urn.split(|&b| b == b':').next().unwrap_or(b"a").to_vec();
            draft.signals[s].extend([some_urn, [&category[..], b":other"].concat()]);
        }
        // 10
        13 => draft.signals[0].push([&draft.categories[c][..], b":", &path].concat()),
        // 11
        14 => {
            let mut again = draft.signals[s].clone();
            random.shuffle(&mut again);
            draft.signals.push(again);
        }
        // 12
        _ => {
            for i in 0..random.between(1, 9) {
                let parts: Vec<String> = (0..8).map(|j| format!("p{i}-{j}")).collect();
                draft.signals.push(vec![[&draft.categories[c][..], b":", parts.join(":").as_bytes()].concat()]);
            }
        }
    }
}

/// A table's bytes: well-formed, or with one fault or several.
pub fn stored(random: &mut Random, draft: &Draft) -> Vec<u8> {
    let mut draft = draft.clone();
    if random.percent(60) {
        return draft.bytes();
    }
    for _ in 0..if random.percent(80) { 1 } else { random.between(2, 3) } {
        if !draft.categories.is_empty() && !draft.signals.is_empty() {
            spoil(random, &mut draft);
        }
    }
    let mut bytes = draft.bytes();
    if random.percent(25) {
        damage(random, &mut bytes);
    }
    if random.percent(5) {
        bytes.resize(random.between(8190, 8195), b'a');
    }
    bytes
}

fn text(s: String) -> Text {
    s.into_bytes()
}

/// So many categories, each with one path of so many parts.
fn chains(categories: usize, parts: usize) -> Draft {
    let names: Vec<Text> = (0..categories).map(|c| text(format!("c{c}"))).collect();
    let parts: Vec<String> = (0..parts).map(|p| format!("p{p}")).collect();
    let deep = names.iter().map(|c| [&c[..], b":", parts.join(":").as_bytes()].concat()).collect();
    Draft { categories: names, signals: vec![vec![], deep] }
}

/// Two leaves in one category and, in the other, seven paths of eight parts and one of six, each path a signal, and
/// eight more whose places lie on them: most nodes can be held, beside every place of the first category.
fn large() -> Draft {
    let path = |name: usize, parts: usize| {
        let parts: Vec<String> = (0..parts).map(|p| format!("x{name}-{p}")).collect();
        vec![text(format!("b:{}", parts.join(":")))]
    };
    let mut signals = vec![vec![], vec![text("a:a0".to_string())], vec![text("a:a1".to_string())]];
    signals.extend((0..7).map(|name| path(name, 8)));
    signals.push(path(7, 6));
    signals.extend((1..8).map(|parts| path(0, parts)));
    signals.push(path(1, 7));
    Draft { categories: vec![b"a".to_vec(), b"b".to_vec()], signals }
}

/// So many signals in one category, each with a leaf of its own.
fn leaves(signals: usize) -> Draft {
    let mut all = vec![vec![]];
    all.extend((1..signals).map(|i| vec![text(format!("c:l{i}"))]));
    Draft { categories: vec![text("c".to_string())], signals: all }
}

/// One signal for each of so many categories and none for two together.
fn singles(categories: usize) -> Draft {
    let names: Vec<Text> = (0..categories).map(|c| text(format!("c{c}"))).collect();
    let mut signals = vec![vec![]];
    signals.extend(names.iter().map(|c| vec![[&c[..], b":a"].concat()]));
    Draft { categories: names, signals }
}

/// Five categories, each signal written as category number and leaf: exactly 257 reachable states.
fn states_257() -> Draft {
    let signals = " 4b 3a 0a 2a 2a3a 1b2a3a 1b 3a4b 0a1b 1a 1b4a 2a3a4b 0a2a 0a1b3a 0a2a4b 0a1b3a4a 1b2a3a4a 1b2a4a \
                   1b3a 1a2a 4a 0a1b2a3a4a 0a1a2a4b 1a4a 0a1a 1b3a4a 0a1b2a3a 3a4a";
    let urn = |pair: &[u8]| text(format!("c{}:{}", pair[0] as char, pair[1] as char));
    Draft {
        categories: (0..5).map(|c| text(format!("c{c}"))).collect(),
        signals: signals.split(' ').map(|signal| signal.as_bytes().chunks(2).map(urn).collect()).collect(),
    }
}

/// 31 signals of eight URNs each over eight leaves a category, with names as long as it takes for so many bytes.
fn long(bytes: usize) -> Draft {
    let mut lengths = [[3usize; 8]; 8];
    let leaf = |signal: usize, c: usize| match c {
        0 => signal % 8,
        1 => signal / 8 % 8,
        7 if signal == 30 => 7,
        7 => signal % 7,
        _ => (signal * (c + 1)) % 8,
    };
    let make = |lengths: &[[usize; 8]; 8]| {
        let categories: Vec<Text> = (0..8).map(|c| text(format!("category-{c}"))).collect();
        let mut signals = vec![vec![]];
        for s in 0..31 {
            let urn = |c: usize| {
                let l = leaf(s, c);
                let pad = "x".repeat(lengths[c][l] - 2);
                text(format!("category-{c}:{l}{pad}{c}"))
            };
            signals.push((0..8).map(urn).collect());
        }
        Draft { categories, signals }
    };
    // Longer leaf by leaf; the leaf that one signal has comes last and makes the length exact.
    for c in 0..8 {
        for l in 0..8 {
            while lengths[c][l] < 27 {
                lengths[c][l] += 1;
                if make(&lengths).bytes().len() > bytes {
                    lengths[c][l] -= 1;
                    break;
                }
            }
        }
    }
    make(&lengths)
}

/// A table whose URN has so many bytes.
fn urn_of(bytes: usize) -> Draft {
    let label = "abcdefghijklmnopqrstuvwxyz0";
    let mut urn = "c".to_string();
    while urn.len() + 56 + 2 < bytes {
        urn = format!("{urn}:{label}@{label}");
    }
    while urn.len() < bytes {
        let more = (bytes - urn.len() - 1).min(20);
        urn = format!("{urn}:{}", "y".repeat(more));
    }
    Draft { categories: vec![text("c".to_string())], signals: vec![vec![], vec![text(urn)]] }
}

/// A table at a limit or one past it, and the refusal number of a build in the longest buffer.
pub struct Limit {
    pub what: &'static str,
    pub table: Vec<u8>,
    pub refusal: u8,
}

/// Tables at each limit and one past it.
pub fn limits() -> Vec<Limit> {
    let with = |mut draft: Draft, urn: &str| {
        draft.signals.push(vec![text(urn.to_string())]);
        draft
    };
    let category_of = |length: usize| {
        let name = if length == 55 { "n".repeat(27) + "@" + &"m".repeat(27) } else { "n".repeat(length) };
        Draft { categories: vec![text(name.clone())], signals: vec![vec![], vec![text(name + ":a")]] }
    };
    let mut alike = with(with(chains(8, 8), "c0:q"), "c0:r");
    alike.signals.push(alike.signals[1].iter().rev().cloned().collect());
    let mut nine_urns = chains(8, 1);
    nine_urns.signals[1].push(text("c0:p1".to_string()));
    let only_default = Draft { categories: vec![text("c".to_string())], signals: vec![vec![]] };
    let drafts = [
        ("8,192 bytes", long(8192), 0),
        ("8 categories", chains(8, 1), 0),
        ("9 categories", chains(9, 1), 6),
        ("32 signals", leaves(32), 0),
        ("33 signals", leaves(33), 6),
        ("9 URNs", nine_urns, 6),
        ("a category of 55 bytes", category_of(55), 0),
        ("a category of 56 bytes", category_of(56), 6),
        ("a label of 27 bytes", category_of(27), 0),
        ("a label of 28 bytes", category_of(28), 7),
        ("a URN of 255 bytes", urn_of(255), 0),
        ("8 parts", chains(1, 8), 0),
        ("9 parts", chains(1, 9), 7),
        ("64 nodes, 256 states, 120 symbols", large(), 0),
        ("64 nodes in 8 categories, 128 symbols", chains(8, 8), 13),
        ("65 nodes", with(chains(8, 8), "c0:q"), 12),
        ("66 nodes, two signals alike", alike, 11),
        ("256 states in 6 categories", singles(6), 0),
        ("257 states", states_257(), 13),
        ("over 256 states with 64 nodes", with(chains(8, 8), "c0:p0"), 13),
        ("a category that no signal uses", only_default, 8),
    ];
    let mut limits: Vec<Limit> = Vec::new();
    for (what, draft, refusal) in drafts {
        limits.push(Limit { what, table: draft.bytes(), refusal });
    }
    let mut over = long(8192).bytes();
    over.push(0);
    limits.push(Limit { what: "8,193 bytes", table: over, refusal: 4 });
    let mut left_over = long(8191).bytes();
    left_over.push(0);
    limits.push(Limit { what: "8,192 bytes, one left over", table: left_over, refusal: 5 });
    limits.push(Limit { what: "no bytes", table: vec![], refusal: 5 });
    limits
}
