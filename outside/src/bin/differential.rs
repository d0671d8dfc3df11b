//! Cases against every implementation: tables at the limits, every byte at every place of a small table, machine and
//! value, then so many random ones: `differential [CASES [SEED]]`.
//!
//! The reference says what is right. A difference is printed as a line that crates/program_conformance/data could hold. At the
//! end stands how often each function gave each refusal number; one that was never given is a failure.
use outside::baseline::Baseline;
use outside::cases::{show_counts, show_record, show_records, to_hex};
use outside::random::tables::{self, Draft, Limit};
use outside::random::{classes, images, logs, records, trees, values, Random};
use outside::reference::Reference;
use outside::{Built, Classes, Converted, Early, Kept, Logs, Made, Marks, Match, Pair, Plain, Reader, Record};
use outside::{Resolution, Resolvers, Rung, Samples, Seed, Tables, Tallies, Tally as Counts, Trees, Verdict};
use std::collections::BTreeMap;
use std::fmt::Debug;
use std::process::exit;
use std::time::{Instant, SystemTime, UNIX_EPOCH};

#[cfg(any(
    feature = "alert_info",
    feature = "signal_table",
    feature = "small_machine",
    feature = "tree_table",
    feature = "resolver",
    feature = "tally",
    feature = "call_log",
    feature = "sample_value",
    feature = "table_kept"
))]
use outside::ours::Ours;

/// The longest image.
const LONGEST: usize = 35_459;

/// Every function with the refusal numbers that it may give.
const FUNCTIONS: [(&str, &[u8]); 26] = [
    ("alert_info_refusal", &[0, 1, 2, 3]),
    ("alert_info_entries", &[0, 1, 2, 3]),
    ("alert_info_entry", &[0, 1, 2, 3, 18]),
    ("alert_info_entry_refusal", &[0, 1, 2, 3, 18]),
    ("signal_table_refusal", &[0, 4, 5, 6, 7, 8, 9, 10, 11, 12]),
    ("signal_table_match", &[0, 4, 5, 6, 7, 8, 9, 10, 11, 12]),
    ("machine_build", &[0, 4, 5, 6, 7, 8, 9, 10, 11, 12, 13, 14]),
    ("machine_check", &[0, 4, 5, 6, 7, 8, 9, 10, 11, 12, 15, 16, 17]),
    ("machine_classes_check", &[0, 4, 5, 6, 7, 8, 9, 10, 11, 12, 15, 16, 17, 27]),
    ("machine_small_write", &[0, 4, 5, 6, 7, 8, 9, 10, 11, 12, 14, 15, 16, 17, 27]),
    ("machine_propose", &[0, 4, 5, 6, 7, 8, 9, 10, 11, 12, 14, 15, 16, 17, 27]),
    ("tree_table_refusal", &[0, 4, 5, 6, 7, 8, 9, 10, 11, 21]),
    ("tree_table_from_signal_table", &[0, 4, 5, 6, 7, 8, 9, 10, 11, 12, 22]),
    ("tree_table_to_signal_table", &[0, 4, 5, 6, 7, 8, 9, 10, 11, 21, 22]),
    ("resolve_plain", &[0, 1, 2, 3, 4, 5, 6, 7, 8, 9, 10, 11, 12]),
    ("resolve_machine", &[0, 1, 2, 3, 4, 5, 6, 7, 8, 9, 10, 11, 12, 15]),
    ("resolve_small", &[0, 1, 2, 3, 4, 5, 6, 7, 8, 9, 10, 11, 12, 15]),
    ("resolve_feed", &[0, 1, 2, 3, 4, 5, 6, 7, 8, 9, 10, 11, 12, 19, 28]),
    ("resolve_early", &[0, 1, 2, 3, 4, 5, 6, 7, 8, 9, 10, 11, 12]),
    ("resolve_available", &[0, 1, 2, 3, 4, 5, 6, 7, 8, 9, 10, 11, 12, 23]),
    ("resolve_pair", &[0, 1, 2, 3, 4, 5, 6, 7, 8, 9, 10, 11, 12, 24]),
    ("tally_value", &[0, 1, 2, 3, 4, 5, 6, 7, 8, 9, 10, 11, 12, 20]),
    ("call_log_check", &[0, 4, 5, 6, 7, 8, 9, 10, 11, 12, 25]),
    ("sample_value_make", &[0, 4, 5, 6, 7, 8, 9, 10, 11, 12, 26]),
    ("alert_signal_table_keeps", &[0, 4, 5, 6, 7, 8, 9, 10, 11, 12, 23, 30]),
    ("alert_signal_table_rings", &[0, 4, 5, 6, 7, 8, 9, 10, 11, 12, 23, 31]),
];

#[derive(Default)]
struct Tally {
    counts: BTreeMap<(&'static str, u8), u64>,
    cases: u64,
    wrong: u64,
}

impl Tally {
    /// Counts a case under the reference's refusal number, and holds every answer to the reference's, the first.
    fn hold<T: PartialEq + Debug>(
        &mut self,
        function: &'static str,
        refusal: u8,
        answers: &[(&str, T)],
        line: impl Fn() -> String,
    ) {
        *self.counts.entry((function, refusal)).or_default() += 1;
        self.cases += 1;
        for (name, answer) in &answers[1..] {
            if *answer != answers[0].1 {
                self.wrong += 1;
                println!("{function} by {name}: {answer:?}\n  not {:?}\n  {}", answers[0].1, line());
            }
        }
        if self.wrong > 10 {
            println!("stopped after {} cases", self.cases);
            exit(1);
        }
    }

    /// Prints the counts. Whether every number of every function was given, and no other.
    fn report(&self) -> bool {
        let mut whole = true;
        for (function, numbers) in FUNCTIONS {
            print!("{function:28}");
            for &number in numbers {
                let count = self.counts.get(&(function, number)).copied().unwrap_or(0);
                print!(" {number}:{count}");
                whole &= count > 0;
            }
            println!();
        }
        for (function, number) in self.counts.keys() {
            let known = FUNCTIONS.iter().any(|(name, numbers)| name == function && numbers.contains(number));
            if !known {
                println!("{function} gave {number}");
                whole = false;
            }
        }
        whole
    }
}

/// The answers of every implementation, the reference's first.
macro_rules! answers {
    ($feature:literal, $f:ident, $($argument:expr),*) => {{
        #[allow(unused_mut)]
        let mut answers = vec![
            ("reference", $f::<Reference>($($argument),*)),
            ("baseline", $f::<Baseline>($($argument),*)),
        ];
        #[cfg(feature = $feature)]
        answers.push(("ours", $f::<Ours>($($argument),*)));
        answers
    }};
}

fn value_refusal<I: Reader>(value: &[u8]) -> u8 {
    I::value_refusal(value)
}

fn entries<I: Reader>(value: &[u8]) -> usize {
    I::entries(value)
}

/// Where the entry stands in the value; 0 and 0 for an empty part.
fn entry<I: Reader>(value: &[u8], k: usize) -> (usize, usize) {
    let uri = I::entry(value, k);
    match uri.len() {
        0 => (0, 0),
        length => (uri.as_ptr() as usize - value.as_ptr() as usize, length),
    }
}

fn entry_refusal<I: Reader>(value: &[u8], k: usize) -> u8 {
    I::entry_refusal(value, k)
}

fn table_refusal<I: Tables>(table: &[u8]) -> u8 {
    I::table_refusal(table)
}

fn matched<I: Tables>(table: &[u8], uri: &[u8]) -> Match {
    I::matched(table, uri)
}

/// The answer with the whole buffer, which held other bytes before.
fn build<I: Tables>(table: &[u8], room: usize) -> (Built, Vec<u8>) {
    let mut buffer = vec![0xA5; room];
    let built = I::build(table, &mut buffer);
    (built, buffer)
}

fn check<I: Tables>(table: &[u8], image: &[u8]) -> u8 {
    I::check(table, image)
}

fn classes_check<I: Classes>(table: &[u8], image: &[u8], classes: &[u8]) -> u8 {
    I::classes_check(table, image, classes)
}

/// The answer with the whole buffer, which held other bytes before; the same of `propose`.
fn small_write<I: Classes>(table: &[u8], image: &[u8], classes: &[u8], room: usize) -> (Built, Vec<u8>) {
    let mut buffer = vec![0xA5; room];
    let built = I::small_write(table, image, classes, &mut buffer);
    (built, buffer)
}

fn propose<I: Classes>(table: &[u8], image: &[u8], room: usize) -> (Built, Vec<u8>) {
    let mut buffer = vec![0xA5; room];
    let built = I::propose(table, image, &mut buffer);
    (built, buffer)
}

fn tree_refusal<I: Trees>(tree: &[u8]) -> u8 {
    I::tree_refusal(tree)
}

/// The answer with the whole buffer, which held other bytes before; the same of `to_table`.
fn from_table<I: Trees>(table: &[u8], room: usize) -> (Converted, Vec<u8>) {
    let mut buffer = vec![0xA5; room];
    let converted = I::from_table(table, &mut buffer);
    (converted, buffer)
}

fn to_table<I: Trees>(tree: &[u8], room: usize) -> (Converted, Vec<u8>) {
    let mut buffer = vec![0xA5; room];
    let converted = I::to_table(tree, &mut buffer);
    (converted, buffer)
}

fn plain<I: Resolvers>(table: &[u8], value: &[u8]) -> Plain {
    I::plain(table, value)
}

fn machine<I: Resolvers>(table: &[u8], image: &[u8], value: &[u8]) -> Resolution {
    I::machine(table, image, value)
}

fn small<I: Resolvers>(table: &[u8], small: &[u8], value: &[u8]) -> Resolution {
    I::small(table, small, value)
}

/// The answer with the record after it.
fn feed<I: Resolvers>(table: &[u8], record: &Record, value: &[u8]) -> (Resolution, Record) {
    let mut after = *record;
    let answer = I::feed(table, &mut after, value);
    (answer, after)
}

fn early<I: Resolvers>(table: &[u8], value: &[u8]) -> Early {
    I::early(table, value)
}

fn available<I: Resolvers>(table: &[u8], set: u32, value: &[u8]) -> Resolution {
    I::available(table, set, value)
}

fn pair<I: Resolvers>(rings: &[u8], lamps: &[u8], value: &[u8]) -> Pair {
    I::pair(rings, lamps, value)
}

/// The answer with the records and counts after it.
fn tally_value<I: Tallies>(
    table: &[u8],
    records: &[Counts],
    refusals: &[u32],
    value: &[u8],
) -> (Resolution, Vec<Counts>, Vec<u32>) {
    let (mut records, mut refusals) = (records.to_vec(), refusals.to_vec());
    let answer = I::tally_value(table, &mut records, &mut refusals, value);
    (answer, records, refusals)
}

fn check_log<I: Logs>(table: &[u8], log: &[u8]) -> Verdict {
    I::check_log(table, log)
}

/// The answer with the seed after it and the whole buffer, which held other bytes before.
fn sample<I: Samples>(table: &[u8], seed: Seed, room: usize) -> (Made, Seed, Vec<u8>) {
    let mut after = seed;
    let mut buffer: Vec<u8> = (0..room).map(|i| (i % 251) as u8).collect();
    let made = I::sample(table, &mut after, &mut buffer);
    (made, after, buffer)
}

fn keeps<I: Marks>(table: &[u8], set: u32, node: u8) -> Kept {
    I::keeps(table, set, node)
}

fn rings<I: Marks>(table: &[u8], set: u32, signal: u8) -> Rung {
    I::rings(table, set, signal)
}

/// Some node and some signal of a small table, or any of one that is refused. The list that shows a loss, as a value, rings a
/// signal that does not say the mark; so does no shorter list of nodes and of what lies under them.
fn hold_marks(tally: &mut Tally, random: &mut Random, table: &[u8]) {
    let read = outside::reference::table::Table::read(table);
    let (nodes, signals) = read.as_ref().map_or((5, 5), |table| (table.nodes.len(), table.signals.len()));
    if nodes > 12 {
        return;
    }
    let set = set(random, signals);
    let node = random.below(nodes + 2) as u8;
    let answers = answers!("table_kept", keeps, table, set, node);
    let line = || format!("keeps {} {set} {node}", to_hex(table));
    let kept = answers[0].1;
    tally.hold("alert_signal_table_keeps", kept.refusal, &answers, line);
    if let (Ok(read), 0) = (&read, kept.refusal) {
        hold_lists(tally, read, table, set, node, kept);
    }
    let signal = random.below(signals + 2) as u8;
    let answers = answers!("table_kept", rings, table, set, signal);
    let line = || format!("rings {} {set} {signal}", to_hex(table));
    tally.hold("alert_signal_table_rings", answers[0].1.refusal, &answers, line);
}

/// The URN of a node as an entry, or of something under it that no table has.
fn node_entry(table: &outside::reference::table::Table, k: usize) -> Vec<u8> {
    let node = &table.nodes[k / 2];
    let mut urn = [&b"<urn:alert:"[..], &table.categories[node.category]].concat();
    for part in &node.path {
        urn.extend([&b":"[..], part].concat());
    }
    urn.extend(if k % 2 == 1 { &b":q7q>"[..] } else { b">" });
    urn
}

/// The list that is shown, and every list of up to three entries that gives the mark and goes one way in its category.
fn hold_lists(
    tally: &mut Tally,
    read: &outside::reference::table::Table,
    table: &[u8],
    set: u32,
    node: u8,
    kept: Kept,
) {
    let mark = &read.nodes[node as usize - 1];
    let loses = |list: &[usize]| {
        let value = list.iter().map(|&k| node_entry(read, k)).collect::<Vec<_>>().join(&b',');
        let signal = Reference::available(table, set, &value).signal;
        !outside::reference::kept::says(read, signal as usize, mark)
    };
    let shown: Vec<usize> = kept.marks[..kept.len as usize].iter().map(|&n| 2 * (n as usize - 1)).collect();
    if kept.kept == 0 && !loses(&shown) {
        println!("the list shown does not show a loss: keeps {} {set} {node}", to_hex(table));
        tally.wrong += 1;
    }
    let urns = 2 * read.nodes.len();
    let most = if urns > 12 { 1 } else { 3 };
    let shorter = if kept.kept == 1 { most } else { most.min(kept.len as usize - 1) };
    let mut lists: Vec<Vec<usize>> = vec![Vec::new()];
    for _ in 0..shorter {
        lists = lists.iter().flat_map(|list| (0..urns).map(move |k| [&list[..], &[k]].concat())).collect();
        for list in &lists {
            let mine: Vec<_> = list
                .iter()
                .map(|&k| (&read.nodes[k / 2], k % 2))
                .filter(|(n, _)| n.category == mark.category)
                .collect();
            let gives = mine.iter().any(|(n, _)| n.path.starts_with(&mark.path));
            let above = |(a, s): &(&outside::reference::table::Node, usize),
                         (b, r): &(&outside::reference::table::Node, usize)| {
                if *s == 1 {
                    *r == 1 && a.path == b.path
                } else {
                    b.path.starts_with(&a.path)
                }
            };
            let one_way = mine.iter().all(|x| mine.iter().all(|y| above(x, y) || above(y, x)));
            if gives && one_way && loses(list) {
                println!("a list of {} loses it: keeps {} {set} {node}", list.len(), to_hex(table));
                tally.wrong += 1;
            }
        }
    }
}

/// A seed and some room. A value that is made is accepted, and every URI of it is an alert URN.
fn hold_sample(tally: &mut Tally, random: &mut Random, table: &[u8]) {
    let seed = Seed { x: random.number() as u32 };
    let room = match random.below(8) {
        0 => 4095,
        1 => random.below(4096),
        2 => 4096 + random.below(100),
        _ => 4096,
    };
    let answers = answers!("sample_value", sample, table, seed, room);
    let line = || format!("sample {} {} {room}", to_hex(table), seed.x);
    let (made, _, buffer) = &answers[0].1;
    tally.hold("sample_value_make", made.refusal, &answers, line);
    if made.refusal == 0 {
        let value = &buffer[..made.len];
        let count = Reference::entries(value);
        let alert = |k| outside::reference::urn::alert_urn(Reference::entry(value, k)).is_some();
        if !(1..=8).contains(&count) || !(0..count).all(alert) {
            println!("a sample is no value of alert URNs: {}", line());
            tally.wrong += 1;
        }
    }
}

/// A count, often close to the highest.
fn count(random: &mut Random) -> u32 {
    match random.below(4) {
        0 => u32::MAX - random.below(4) as u32,
        1 => random.number() as u32,
        _ => random.below(100) as u32,
    }
}

/// A tally of about as many records and counts as are needed.
fn hold_tally(tally: &mut Tally, random: &mut Random, table: &[u8], value: &[u8]) {
    let signals = outside::reference::table::Table::read(table).map_or(0, |table| table.signals.len());
    let n = match random.below(6) {
        0 => random.below(34),
        1 => signals.saturating_sub(1),
        _ => signals + random.below(3),
    };
    let m = if random.below(8) == 0 { random.below(12) } else { 12 + random.below(3) };
    let records: Vec<Counts> =
        (0..n).map(|_| Counts { chosen: count(random), used: count(random), skipped: count(random) }).collect();
    let refusals: Vec<u32> = (0..m).map(|_| count(random)).collect();
    let answers = answers!("tally", tally_value, table, &records, &refusals, value);
    let line =
        || format!("tally {} {} {} {}", to_hex(table), show_records(&records), show_counts(&refusals), to_hex(value));
    tally.hold("tally_value", answers[0].1 .0.refusal, &answers, line);
}

fn hold_log(tally: &mut Tally, table: &[u8], log: &[u8]) {
    let answers = answers!("call_log", check_log, table, log);
    let line = || format!("log {} {}", to_hex(table), to_hex(log));
    tally.hold("call_log_check", answers[0].1.refusal, &answers, line);
}

fn hold_value(tally: &mut Tally, random: &mut Random, value: &[u8]) {
    let refusal = Reference::value_refusal(value);
    let line = || format!("value {}", to_hex(value));
    tally.hold("alert_info_refusal", refusal, &answers!("alert_info", value_refusal, value), line);
    tally.hold("alert_info_entries", refusal, &answers!("alert_info", entries, value), line);
    let count = Reference::entries(value);
    for _ in 0..2 {
        let k = match random.below(8) {
            0 => count,
            1 => random.number() as usize,
            _ => random.below(count + 1),
        };
        let refusal = Reference::entry_refusal(value, k);
        let line = || format!("entry {} {k}", to_hex(value));
        tally.hold("alert_info_entry", refusal, &answers!("alert_info", entry, value, k), line);
        tally.hold("alert_info_entry_refusal", refusal, &answers!("alert_info", entry_refusal, value, k), line);
    }
}

fn hold_build(tally: &mut Tally, table: &[u8], room: usize) {
    let answers = answers!("signal_table", build, table, room);
    let line = || format!("build {} {room}", to_hex(table));
    tally.hold("machine_build", answers[0].1 .0.refusal, &answers, line);
}

fn hold_table(tally: &mut Tally, random: &mut Random, table: &[u8], built: &[u8]) {
    let refusal = Reference::table_refusal(table);
    let line = || format!("table {}", to_hex(table));
    tally.hold("signal_table_refusal", refusal, &answers!("signal_table", table_refusal, table), line);
    let room = match random.below(5) {
        0 => LONGEST,
        1 => built.len().saturating_sub(1),
        2 => random.below(built.len() + 1),
        3 => built.len() + random.below(40),
        _ => built.len(),
    };
    hold_build(tally, table, room);
}

/// The URIs of a value, and bytes that are none.
fn hold_matches(tally: &mut Tally, table: &[u8], value: &[u8]) {
    let count = Reference::entries(value).min(4);
    for uri in (0..count).map(|k| Reference::entry(value, k)).chain([value]) {
        let answers = answers!("signal_table", matched, table, uri);
        let line = || format!("match {} {}", to_hex(table), to_hex(uri));
        tally.hold("signal_table_match", answers[0].1.refusal, &answers, line);
    }
}

fn hold_check(tally: &mut Tally, table: &[u8], image: &[u8]) {
    let answers = answers!("signal_table", check, table, image);
    let line = || format!("check {} {}", to_hex(table), to_hex(image));
    tally.hold("machine_check", answers[0].1, &answers, line);
}

/// What is proposed for an image, and the small image of that proposal and of another. The proposer's own is accepted, and
/// the table's own machine always has one.
fn hold_classes(tally: &mut Tally, random: &mut Random, table: &[u8], image: &[u8], own_machine: bool) {
    let (answer, own) = propose::<Reference>(table, image, 256);
    let room = if own_machine { 256 } else { room_for(random, answer.len).min(300) };
    let answers = answers!("small_machine", propose, table, image, room);
    let line = || format!("propose {} {} {room}", to_hex(table), to_hex(image));
    tally.hold("machine_propose", answers[0].1 .0.refusal, &answers, line);
    if own_machine && answer.refusal == 27 {
        println!("no proposal for a built machine: {}", line());
        tally.wrong += 1;
    }
    let own = &own[..answer.len];
    let symbols = image.first().map_or(0, |&count| count as usize);
    let states = image.get(1 + 3 * symbols).map_or(1, |&low| low as usize);
    for proposed in [own.to_vec(), classes::classes(random, own, if own.is_empty() { states } else { own.len() })] {
        hold_proposal(tally, random, table, image, &proposed);
    }
    if answer.refusal == 0 && Reference::classes_check(table, image, own) != 0 {
        println!("the proposer's own is not accepted: {}", line());
        tally.wrong += 1;
    }
}

fn hold_proposal(tally: &mut Tally, random: &mut Random, table: &[u8], image: &[u8], proposed: &[u8]) {
    let answers = answers!("small_machine", classes_check, table, image, proposed);
    let line = || format!("classes {} {} {}", to_hex(table), to_hex(image), to_hex(proposed));
    tally.hold("machine_classes_check", answers[0].1, &answers, line);
    let room = room_for(random, small_write::<Reference>(table, image, proposed, LONGEST).0.len);
    let answers = answers!("small_machine", small_write, table, image, proposed, room);
    let line = || format!("small {} {} {} {room}", to_hex(table), to_hex(image), to_hex(proposed));
    tally.hold("machine_small_write", answers[0].1 .0.refusal, &answers, line);
}

/// Room for any form, for the form itself, or about as much.
fn room_for(random: &mut Random, length: usize) -> usize {
    match random.below(6) {
        0 => 10_000,
        1 => length.saturating_sub(1),
        2 => random.below(length + 1),
        3 => length + random.below(40),
        _ => length,
    }
}

/// The tree of a table, and back: the bytes are the same again.
fn hold_from_table(tally: &mut Tally, random: &mut Random, table: &[u8]) {
    let (answer, form) = from_table::<Reference>(table, 10_000);
    let room = room_for(random, answer.len);
    let answers = answers!("tree_table", from_table, table, room);
    let line = || format!("tonew {} {room}", to_hex(table));
    tally.hold("tree_table_from_signal_table", answers[0].1 .0.refusal, &answers, line);
    if answer.refusal == 0 {
        let tree = &form[..answer.len];
        hold_tree(tally, random, tree);
        let (back, bytes) = to_table::<Reference>(tree, 8192);
        if back.refusal != 0 || bytes[..back.len] != *table {
            println!("a table is another one after its tree: {}", line());
            tally.wrong += 1;
        }
    }
}

/// The table of a tree, and back: the bytes are the same again.
fn hold_tree(tally: &mut Tally, random: &mut Random, tree: &[u8]) {
    let line = || format!("newtable {}", to_hex(tree));
    tally.hold("tree_table_refusal", Reference::tree_refusal(tree), &answers!("tree_table", tree_refusal, tree), line);
    let (answer, form) = to_table::<Reference>(tree, 10_000);
    let room = room_for(random, answer.len);
    let answers = answers!("tree_table", to_table, tree, room);
    let line = || format!("toold {} {room}", to_hex(tree));
    tally.hold("tree_table_to_signal_table", answers[0].1 .0.refusal, &answers, line);
    if answer.refusal == 0 {
        let (back, bytes) = from_table::<Reference>(&form[..answer.len], 8192);
        if back.refusal != 0 || bytes[..back.len] != *tree {
            println!("a tree is another one after its table: {}", line());
            tally.wrong += 1;
        }
    }
}

fn hold_resolvers(tally: &mut Tally, table: &[u8], image: &[u8], value: &[u8]) {
    let answers = answers!("resolver", plain, table, value);
    let line = || format!("plain {} {}", to_hex(table), to_hex(value));
    tally.hold("resolve_plain", answers[0].1.refusal, &answers, line);
    let answers = answers!("resolver", machine, table, image, value);
    let line = || format!("walk {} {} {}", to_hex(table), to_hex(image), to_hex(value));
    tally.hold("resolve_machine", answers[0].1.refusal, &answers, line);
}

fn hold_small(tally: &mut Tally, table: &[u8], small_image: &[u8], value: &[u8]) -> Resolution {
    let answers = answers!("resolver", small, table, small_image, value);
    let line = || format!("smallwalk {} {} {}", to_hex(table), to_hex(small_image), to_hex(value));
    tally.hold("resolve_small", answers[0].1.refusal, &answers, line);
    answers[0].1
}

/// A small image, right or wrong; and the smallest machine of an accepted image, which resolves as direct resolution does.
fn hold_smaller(tally: &mut Tally, random: &mut Random, table: &[u8], built: &[u8], image: &[u8], value: &[u8]) {
    hold_small(tally, table, &images::small(random, table, built), value);
    if Reference::check(table, image) == 0 {
        let smallest = images::smallest(image);
        if hold_small(tally, table, &smallest, value) != Reference::plain(table, value).resolution() {
            println!(
                "the smallest machine differs: smallwalk {} {} {}",
                to_hex(table),
                to_hex(&smallest),
                to_hex(value)
            );
            tally.wrong += 1;
        }
    }
}

/// Bytes that may follow the entries that are needed.
const TAILS: [&[u8]; 5] = [b"", b",", b", <a>", b", <", b" x"];

/// The early answer to a value, whole and cut off somewhere, with something behind it. An accepted value has the plain
/// resolver's signal.
fn hold_early(tally: &mut Tally, random: &mut Random, table: &[u8], value: &[u8]) {
    let cut = &value[..random.below(value.len() + 1)];
    let commas: Vec<usize> = (0..value.len()).filter(|&i| value[i] == b',').collect();
    let at_comma = if commas.is_empty() { value } else { &value[..commas[random.below(commas.len())]] };
    for front in [value, cut, at_comma] {
        let asked = [front, TAILS[random.below(TAILS.len())]].concat();
        let answers = answers!("resolver", early, table, &asked);
        let line = || format!("early {} {}", to_hex(table), to_hex(&asked));
        tally.hold("resolve_early", answers[0].1.refusal, &answers, line);
        let plain = Reference::plain(table, &asked);
        let early = answers[0].1;
        if plain.refusal == 0 && (early.refusal, early.signal) != (0, plain.signal) {
            println!("the early answer differs from the plain one: {}", line());
            tally.wrong += 1;
        }
    }
}

/// Mostly a set of the table's signals, sometimes with a bit too many.
fn set(random: &mut Random, signals: usize) -> u32 {
    let all = ((1u64 << signals) - 1) as u32;
    match random.below(8) {
        0 => all,
        1 => 0,
        2 => random.number() as u32,
        3 => 1 << random.below(32),
        4 => all & (random.number() | random.number()) as u32,
        5 => all & !(1 << random.below(32)),
        _ => all & random.number() as u32,
    }
}

/// With all signals available, the plain resolver's answer.
fn hold_available(tally: &mut Tally, random: &mut Random, table: &[u8], value: &[u8]) {
    let read = outside::reference::table::Table::read(table);
    let signals = read.map_or_else(|_| random.below(33), |table| table.signals.len());
    for set in [set(random, signals), set(random, signals)] {
        let answers = answers!("resolver", available, table, set, value);
        let line = || format!("available {} {set} {}", to_hex(table), to_hex(value));
        tally.hold("resolve_available", answers[0].1.refusal, &answers, line);
    }
    let all = ((1u64 << signals) - 1) as u32;
    let plain = Reference::plain(table, value).resolution();
    if Reference::available(table, all, value) != plain || Reference::available(table, all & !1, value) != plain {
        println!("with all signals available another answer: plain {} {}", to_hex(table), to_hex(value));
        tally.wrong += 1;
    }
}

/// Two tables, mostly with no category in common, and values that have URNs of both. The reference goes by the table of all
/// pairs; here each table alone has to give the same.
fn hold_pairs(tally: &mut Tally, random: &mut Random) {
    let rings = tables::draft(random);
    let mut lamps = tables::draft(random);
    if random.percent(80) {
        lamps = tables::renamed(&lamps);
    }
    let both = tables::joined(&rings, &lamps);
    let mut stored = |draft| if random.percent(70) { Draft::bytes(draft) } else { tables::stored(random, draft) };
    let (rings, lamps) = (stored(&rings), stored(&lamps));
    for _ in 0..3 {
        hold_pair(tally, &rings, &lamps, &values::value(random, &both));
    }
}

fn hold_pair(tally: &mut Tally, rings: &[u8], lamps: &[u8], value: &[u8]) {
    let answers = answers!("resolver", pair, rings, lamps, value);
    let line = || format!("pair {} {} {}", to_hex(rings), to_hex(lamps), to_hex(value));
    let answer = answers[0].1;
    tally.hold("resolve_pair", answer.refusal, &answers, line);
    let alone = |table| Reference::plain(table, value).signal;
    if answer.refusal == 0 && (answer.ring, answer.lamp) != (alone(rings), alone(lamps)) {
        println!("each table alone gives another pair: {}", line());
        tally.wrong += 1;
    }
}

/// One value more. The reference's answer with the record after it.
fn hold_feed(tally: &mut Tally, table: &[u8], record: &Record, value: &[u8]) -> (Resolution, Record) {
    let answers = answers!("resolver", feed, table, record, value);
    let line = || format!("feed {} {} {}", to_hex(table), show_record(record), to_hex(value));
    tally.hold("resolve_feed", answers[0].1 .0.refusal, &answers, line);
    answers[0].1
}

/// The values of one message, from a fresh record: where all are accepted and joined by commas keep the limits, the
/// plain resolver gives the same for them joined, and the sums of their counts.
fn hold_message(tally: &mut Tally, table: &[u8], message: &[Vec<u8>]) {
    let mut record = Record::default();
    let mut answers = Vec::new();
    for value in message {
        let (answer, after) = hold_feed(tally, table, &record, value);
        answers.push(answer);
        record = after;
    }
    let joined = message.join(&b',');
    let end = Reference::plain(table, &joined).resolution();
    if answers.iter().all(|answer| answer.refusal == 0) && ![1, 3].contains(&end.refusal) {
        let used = answers.iter().map(|answer| answer.used).sum();
        let skipped = answers.iter().map(|answer| answer.skipped).sum();
        if end != (Resolution { refusal: 0, signal: record.signal, used, skipped }) {
            println!("a message differs from its values joined: plain {} {}", to_hex(table), to_hex(&joined));
            tally.wrong += 1;
        }
    }
}

/// The table's machine, or nothing if a build is refused.
fn built(table: &[u8]) -> Option<Vec<u8>> {
    let (answer, mut buffer) = build::<Reference>(table, LONGEST);
    buffer.truncate(answer.len);
    (answer.refusal == 0).then_some(buffer)
}

/// An accepted image walks as direct resolution does.
fn hold_agreement(tally: &mut Tally, table: &[u8], image: &[u8], value: &[u8]) {
    if Reference::check(table, image) == 0 {
        let both = [Reference::plain(table, value).resolution(), Reference::machine(table, image, value)];
        if both[0] != both[1] {
            println!("the resolvers differ: walk {} {} {}", to_hex(table), to_hex(image), to_hex(value));
            tally.wrong += 1;
        }
    }
}

/// One table with values and images for it. `other` is an image of another table.
fn round(tally: &mut Tally, random: &mut Random, other: &mut Vec<u8>) {
    let draft = tables::draft(random);
    let table = tables::stored(random, &draft);
    let machine = built(&table);
    let image = machine.as_ref().unwrap_or(other);
    hold_table(tally, random, &table, image);
    for _ in 0..3 {
        hold_check(tally, &table, &images::image(random, &table, image));
    }
    hold_classes(tally, random, &table, image, machine.is_some());
    let changed = images::image(random, &table, image);
    hold_classes(tally, random, &table, &changed, false);
    hold_from_table(tally, random, &table);
    for _ in 0..2 {
        let tree = trees::stored(random, &draft);
        hold_tree(tally, random, &tree);
    }
    let mut message = Vec::new();
    for _ in 0..4 {
        let value = values::value(random, &draft);
        let built = image;
        let image = images::image(random, &table, built);
        hold_smaller(tally, random, &table, built, &image, &value);
        hold_value(tally, random, &value);
        hold_matches(tally, &table, &value);
        hold_resolvers(tally, &table, &image, &value);
        hold_tally(tally, random, &table, &value);
        hold_agreement(tally, &table, &image, &value);
        hold_early(tally, random, &table, &value);
        hold_available(tally, random, &table, &value);
        hold_feed(tally, &table, &records::record(random, &draft), &value);
        message.push(value);
    }
    hold_message(tally, &table, &message);
    for _ in 0..3 {
        hold_sample(tally, random, &table);
        hold_marks(tally, random, &table);
    }
    hold_pairs(tally, random);
    for _ in 0..3 {
        hold_log(tally, &table, &logs::stored(random, &table, &draft));
    }
    if let Some(machine) = machine {
        *other = machine;
    }
}

/// The tables at each limit and one past it, with every room that matters.
fn limits(tally: &mut Tally, random: &mut Random) {
    for Limit { table, .. } in tables::limits() {
        let machine = built(&table).unwrap_or(vec![0, 1, 0, 0, 0]);
        for room in [0, machine.len() - 1, machine.len(), machine.len() + 1, LONGEST] {
            hold_build(tally, &table, room);
        }
        hold_table(tally, random, &table, &machine);
        hold_from_table(tally, random, &table);
        for _ in 0..20 {
            hold_sample(tally, random, &table);
            hold_marks(tally, random, &table);
        }
        hold_check(tally, &table, &machine);
        hold_classes(tally, random, &table, &machine, false);
        for value in [&b"<urn:alert:c0:p0>"[..], b"<", b"<a>"] {
            hold_tally(tally, random, &table, value);
            hold_log(tally, &table, &logs::log(&[logs::call(value, logs::right(&table, value))]));
            hold_early(tally, random, &table, value);
            hold_available(tally, random, &table, value);
        }
        for _ in 0..5 {
            hold_check(tally, &table, &images::image(random, &table, &machine));
            let value = b"<urn:alert:c0:p0>, <urn:alert:c:l1>, <urn:alert:c1:a>";
            hold_matches(tally, &table, value);
            hold_resolvers(tally, &table, &machine, value);
            hold_smaller(tally, random, &table, &machine, &machine, value);
        }
    }
}

/// The trees at each limit and one past it.
fn tree_limits(tally: &mut Tally, random: &mut Random) {
    for trees::Limit { tree, .. } in trees::limits() {
        for _ in 0..8 {
            hold_tree(tally, random, &tree);
        }
    }
}

/// Values in which every byte is tried at the place of `#`.
const HOLES: [&[u8]; 22] = [
    b"#",
    b"#<a>",
    b"<#>",
    b"<a#b>",
    b"<a>#",
    b"<a>#,<b>",
    b"<a>,#<b>",
    b"<a>;#",
    b"<a>;#x",
    b"<a>;x#",
    b"<a>;x#=y",
    b"<a>;x=#",
    b"<a>;x=#y",
    b"<a>;x=y#",
    b"<a>;x=y#,<b>",
    b"<a>;x=\"#\"",
    b"<a>;x=\"\\#\"",
    b"<a>;x=\"y\"#",
    b"<urn:alert:source:#>",
    b"<urn:alert:source:internal#>",
    b"<urn:alert:#:internal>",
    b"<urn#alert:source:internal>",
];

/// T1, its tree, its machine and a value, with every byte tried at every place, and images of every size that matters.
fn every_byte(tally: &mut Tally, random: &mut Random) {
    let table = include_bytes!("../../../examples/tables/T1.table");
    let lamps = include_bytes!("../../../examples/tables/T5.table");
    let image = built(table).expect("T1's machine");
    let small = images::smallest(&image);
    let (answer, mut tree) = from_table::<Reference>(table, 100);
    tree.truncate(answer.len);
    let value = b"<urn:alert:source:internal>;a=\"b\"";
    let log = logs::log(&[logs::call(value, [1, 1, 0]), logs::call(b"<", [0; 3])]);
    for states in [0, 1, 2, 255, 256, 257, 258, 511, 512, 513, 65_535] {
        hold_small(tally, table, &images::with_classes(&image, states), value);
        let image = images::with_states(&image, states);
        hold_check(tally, table, &image);
        hold_resolvers(tally, table, &image, value);
    }
    for bit in 0..32 {
        let answers = answers!("resolver", available, table, 1 << bit, value);
        let line = || format!("available {} {} {}", to_hex(table), 1u32 << bit, to_hex(value));
        tally.hold("resolve_available", answers[0].1.refusal, &answers, line);
    }
    for byte in 0..=255 {
        for at in 0..10 {
            let mut bytes = [0; 10];
            bytes[at] = byte;
            hold_feed(tally, table, &records::of_bytes(bytes), value);
        }
        for hole in HOLES {
            let value: Vec<u8> = hole.iter().map(|&b| if b == b'#' { byte } else { b }).collect();
            hold_value(tally, random, &value);
            hold_matches(tally, table, &value);
            hold_resolvers(tally, table, &image, &value);
            hold_early(tally, random, table, &value);
        }
        for at in 0..table.len() {
            let mut changed = table.to_vec();
            changed[at] = byte;
            hold_pair(tally, &changed, lamps, value);
            hold_pair(tally, lamps, &changed, value);
            hold_table(tally, random, &changed, &image);
            hold_proposal(tally, random, &changed, &image, &[0, 1, 2, 3]);
            hold_from_table(tally, random, &changed);
            hold_marks(tally, random, &changed);
            hold_matches(tally, &changed, value);
            hold_resolvers(tally, &changed, &image, value);
        }
        for at in 0..tree.len() {
            let mut changed = tree.clone();
            changed[at] = byte;
            hold_tree(tally, random, &changed);
        }
        for at in 0..log.len() {
            let mut changed = log.clone();
            changed[at] = byte;
            hold_log(tally, table, &changed);
        }
        for at in 0..image.len() {
            let mut changed = image.clone();
            changed[at] = byte;
            hold_check(tally, table, &changed);
            hold_classes(tally, random, table, &changed, false);
            hold_resolvers(tally, table, &changed, value);
        }
        for at in 0..small.len() {
            let mut changed = small.clone();
            changed[at] = byte;
            hold_small(tally, table, &changed, value);
        }
        for at in 0..value.len() {
            let mut changed = value.to_vec();
            changed[at] = byte;
            hold_value(tally, random, &changed);
            hold_resolvers(tally, table, &image, &changed);
        }
    }
}

fn main() {
    let mut arguments = std::env::args().skip(1).map(|word| word.parse::<u64>().expect("a number"));
    let cases = arguments.next().unwrap_or(1_000_000);
    let now = SystemTime::now().duration_since(UNIX_EPOCH).map_or(1, |d| d.as_nanos() as u64);
    let seed = arguments.next().unwrap_or(now);
    println!("seed {seed}");
    let start = Instant::now();
    let mut tally = Tally::default();
    let mut random = Random(seed);
    let mut other = vec![0, 1, 0, 0, 0];
    limits(&mut tally, &mut random);
    tree_limits(&mut tally, &mut random);
    every_byte(&mut tally, &mut random);
    let cases = cases + tally.cases;
    while tally.cases < cases {
        round(&mut tally, &mut random, &mut other);
    }
    let whole = tally.report();
    let seconds = start.elapsed().as_secs_f64();
    println!("{} cases, {} differences, {seconds:.0} s, seed {seed}", tally.cases, tally.wrong);
    if !whole {
        println!("a refusal number was never given");
    }
    if tally.wrong > 0 || !whole {
        exit(1);
    }
}
