//! Time as the work grows: entries of a value, nodes, signals and states of a table.
use crate::inputs::{example, machine, urns};
use crate::time;
use crate::Call;
use outside::ours::Ours;
use outside::random::tables::Draft;
use outside::{Resolvers, Tables};
use std::hint::black_box;

type Bytes = Vec<u8>;

/// A table by the URNs of its signals after signal 0.
fn table(categories: usize, signals: Vec<Vec<String>>) -> Bytes {
    let categories = (0..categories).map(|c| format!("c{c}").into_bytes()).collect();
    let bytes = |urns: Vec<String>| urns.into_iter().map(String::into_bytes).collect();
    let signals = std::iter::once(Vec::new()).chain(signals.into_iter().map(bytes)).collect();
    Draft { categories, signals }.bytes()
}

/// Signals of one category with paths of at most 8 parts: so many nodes, of which no two have a part in common.
fn of_nodes(nodes: usize) -> Bytes {
    let path = |signal: usize| {
        let parts = (8 * signal..nodes.min(8 * signal + 8)).map(|n| format!("part-{n}"));
        parts.collect::<Vec<_>>().join(":")
    };
    table(1, (0..nodes.div_ceil(8)).map(|signal| vec![format!("c0:{}", path(signal))]).collect())
}

/// Signals of one category with one part each, signal 0 counted.
fn of_signals(signals: usize) -> Bytes {
    table(1, (1..signals).map(|signal| vec![format!("c0:part-{signal}")]).collect())
}

/// One signal for each category: of n categories, n + 2 times 2 to the n - 1 states.
fn of_categories(categories: usize) -> Bytes {
    table(categories, (0..categories).map(|c| vec![format!("c{c}:part")]).collect())
}

/// The number of states, which stands after the symbols of an image.
fn states(image: &[u8]) -> usize {
    let at = 1 + 3 * image[0] as usize;
    image[at] as usize + 256 * image[at + 1] as usize
}

fn ours(call: &Call, runs: usize) -> String {
    time::show(time::best(None, call, runs).1)
}

/// One row: a table with its machine and a value, in the four calls that go through all of them.
fn print_row(what: String, table: &Bytes, value: &Bytes, runs: usize) {
    let image = &machine(table);
    let judged = ours(&move |_| _ = black_box(Ours::table_refusal(black_box(table))), runs);
    let built = ours(&move |buffer| _ = black_box(Ours::build(black_box(table), &mut buffer[..image.len()])), runs);
    let checked = ours(&move |_| _ = black_box(Ours::check(black_box(table), black_box(image))), runs);
    let plain = ours(&move |_| _ = black_box(Ours::plain(black_box(table), black_box(value))), runs);
    let walked = ours(&move |_| _ = black_box(Ours::machine(black_box(table), black_box(image), black_box(value))), runs);
    println!("| {what} | {judged} | {built} | {checked} | {plain} | {walked} |");
}

fn print_head(what: &str) {
    println!("| {what} | judged | built | checked | plain | machine |");
    println!("|---|---:|---:|---:|---:|---:|");
}

/// All tables, one for each kind of growth.
pub fn print(runs: usize) {
    println!("## Time as the work grows, best of {runs} runs\n");
    print_head("entries, with T2");
    for entries in [1, 2, 4, 8, 16, 32, 64] {
        let value = match entries {
            1 => urns(&["source:internal"], 1),
            more => urns(&["source:internal", "priority:high"], more / 2),
        };
        print_row(entries.to_string(), &example("T2.table"), &value, runs);
    }
    println!();
    print_head("nodes, one entry");
    for nodes in [1, 2, 4, 8, 16, 32, 64] {
        let value = urns(&[&format!("c0:part-{}", 8 * ((nodes - 1) / 8))], 1);
        print_row(nodes.to_string(), &of_nodes(nodes), &value, runs);
    }
    println!();
    print_head("signals, one entry");
    for signals in [2, 4, 8, 16, 32] {
        let value = urns(&[&format!("c0:part-{}", signals - 1)], 1);
        print_row(signals.to_string(), &of_signals(signals), &value, runs);
    }
    println!();
    print_head("states, one entry");
    for categories in [1, 2, 3, 4, 5, 6] {
        let table = of_categories(categories);
        let value = urns(&[&format!("c{}:part", categories - 1)], 1);
        print_row(states(&machine(&table)).to_string(), &table, &value, runs);
    }
}
