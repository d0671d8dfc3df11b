//! Time, code size and stack of the proved libraries beside the baseline.
//!
//! Times are the best of many short runs, in which the two take turns. `bench [RUNS]`: 100 unless said otherwise.
//! `bench RUNS growth`: instead, the time of the libraries as the work grows.
#[cfg(all(feature = "signal_table", feature = "resolver"))]
mod growth;
mod inputs;
mod size;
mod stack;
mod time;

use inputs::Inputs;
use outside::baseline::Baseline;
use outside::reference::table::Table;
use outside::reference::Reference;
use outside::{Classes, Logs, Marks, Reader, Record, Resolvers, Samples, Seed, Tables, Tallies, Tally, Trees};
use std::hint::black_box;

#[cfg(any(
    feature = "alert_info",
    feature = "signal_table",
    feature = "small_machine",
    feature = "tree_table",
    feature = "resolver",
    feature = "tally",
    feature = "call_log",
    feature = "sample_value",
    feature = "table_kept"
))]
use outside::ours::Ours;

/// A call to measure, which is lent a buffer for an image.
pub type Call<'a> = dyn Fn(&mut [u8]) + Sync + 'a;

/// The same call of the proved library (if it is linked) and of the baseline.
pub struct Row<'a> {
    function: &'static str,
    input: String,
    ours: Option<Box<Call<'a>>>,
    baseline: Box<Call<'a>>,
}

/// `row!(feature, name, input, |I, buffer| body)`: the body once with `Ours` and once with `Baseline` for `I`.
macro_rules! row {
    ($feature:literal, $function:literal, $input:expr, |$I:ident, $buffer:pat_param| $body:expr) => {{
        #[cfg(feature = $feature)]
        let ours: Option<Box<Call<'_>>> = {
            type $I = Ours;
            Some(Box::new(move |$buffer: &mut [u8]| {
                black_box($body);
            }))
        };
        #[cfg(not(feature = $feature))]
        let ours: Option<Box<Call<'_>>> = None;
        type $I = Baseline;
        let baseline = Box::new(move |$buffer: &mut [u8]| {
            black_box($body);
        });
        Row { function: $function, input: $input, ours, baseline }
    }};
}

fn reader_rows<'a>(inputs: &'a Inputs, rows: &mut Vec<Row<'a>>) {
    for (name, value) in &inputs.values {
        rows.push(row!("alert_info", "alert_info_refusal", name.clone(), |I, _| I::value_refusal(black_box(value))));
    }
    for (name, value) in &inputs.values {
        let last = inputs::last(value);
        let input = format!("{name}, the last");
        rows.push(row!("alert_info", "alert_info_entry", input, |I, _| I::entry(black_box(value), last)));
    }
}

fn table_rows<'a>(inputs: &'a Inputs, rows: &mut Vec<Row<'a>>) {
    let well_formed = inputs.tables.iter().map(|(name, table, _)| (name, table));
    for (name, table) in well_formed.chain(inputs.refused.iter().map(|(name, table)| (name, table))) {
        rows.push(row!("signal_table", "signal_table_refusal", name.clone(), |I, _| {
            I::table_refusal(black_box(table))
        }));
    }
    for (name, table, _, value) in inputs.calls() {
        let uri = Reference::entry(value, 0);
        let compared = Reference::matched(table, uri).compared;
        let name = format!("{name}, the first: {compared} bytes compared");
        rows.push(row!("signal_table", "signal_table_match", name, |I, _| {
            I::matched(black_box(table), black_box(uri))
        }));
    }
    for (name, table, image) in &inputs.tables {
        rows.push(row!("signal_table", "machine_build", name.clone(), |I, buffer| {
            I::build(black_box(table), &mut buffer[..image.len()])
        }));
    }
    for (name, table, image) in &inputs.tables {
        rows.push(row!("signal_table", "machine_check", name.clone(), |I, _| {
            I::check(black_box(table), black_box(image))
        }));
    }
}

/// Proposing classes for a machine, checking them, and writing the small image.
fn class_rows<'a>(inputs: &'a Inputs, rows: &mut Vec<Row<'a>>) {
    for (name, table, image) in &inputs.tables {
        rows.push(row!("small_machine", "machine_propose", name.clone(), |I, buffer| {
            I::propose(black_box(table), black_box(image), &mut buffer[..256])
        }));
    }
    for ((name, table, image), (classes, _)) in inputs.tables.iter().zip(&inputs.small) {
        rows.push(row!("small_machine", "machine_classes_check", name.clone(), |I, _| {
            I::classes_check(black_box(table), black_box(image), black_box(classes))
        }));
    }
    for ((name, table, image), (classes, small)) in inputs.tables.iter().zip(&inputs.small) {
        rows.push(row!("small_machine", "machine_small_write", name.clone(), |I, buffer| {
            I::small_write(black_box(table), black_box(image), black_box(classes), &mut buffer[..small.len()])
        }));
    }
}

/// Judging trees, and both conversions.
fn tree_rows<'a>(inputs: &'a Inputs, rows: &mut Vec<Row<'a>>) {
    for (name, _, tree) in &inputs.trees {
        rows.push(row!("tree_table", "tree_table_refusal", name.clone(), |I, _| I::tree_refusal(black_box(tree))));
    }
    for (name, table, tree) in &inputs.trees {
        rows.push(row!("tree_table", "tree_table_from_signal_table", name.clone(), |I, buffer| {
            I::from_table(black_box(table), &mut buffer[..tree.len()])
        }));
    }
    for (name, table, tree) in &inputs.trees {
        rows.push(row!("tree_table", "tree_table_to_signal_table", name.clone(), |I, buffer| {
            I::to_table(black_box(tree), &mut buffer[..table.len()])
        }));
    }
}

fn resolver_rows<'a>(inputs: &'a Inputs, rows: &mut Vec<Row<'a>>) {
    for (name, table, _, value) in inputs.calls() {
        rows.push(row!("resolver", "resolve_plain", name, |I, _| I::plain(black_box(table), black_box(value))));
    }
    for (name, table, image, value) in inputs.calls() {
        rows.push(row!("resolver", "resolve_machine", name, |I, _| {
            I::machine(black_box(table), black_box(image), black_box(value))
        }));
    }
}

/// By the smallest machines.
fn small_rows<'a>(inputs: &'a Inputs, rows: &mut Vec<Row<'a>>) {
    for ((name, table, _, value), (_, small)) in inputs.calls().zip(&inputs.small) {
        rows.push(row!("resolver", "resolve_small", name, |I, _| {
            I::small(black_box(table), black_box(small), black_box(value))
        }));
    }
}

/// The early question, and beside it the plain resolver on the same values.
fn early_rows<'a>(inputs: &'a Inputs, rows: &mut Vec<Row<'a>>) {
    for (name, table, value) in inputs.settled() {
        rows.push(row!("resolver", "resolve_early", name, |I, _| I::early(black_box(table), black_box(value))));
    }
    for (name, table, value) in inputs.settled() {
        rows.push(row!("resolver", "resolve_plain", name, |I, _| I::plain(black_box(table), black_box(value))));
    }
}

/// Every second signal available.
fn available_rows<'a>(inputs: &'a Inputs, rows: &mut Vec<Row<'a>>) {
    for (name, table, _, value) in inputs.calls() {
        let signals = Table::read(table).expect("a well-formed table").signals.len();
        let set = 0x5555_5555 & ((1u64 << signals) - 1) as u32;
        rows.push(row!("resolver", "resolve_available", name, |I, _| {
            I::available(black_box(table), black_box(set), black_box(value))
        }));
    }
}

fn pair_rows<'a>(inputs: &'a Inputs, rows: &mut Vec<Row<'a>>) {
    for (name, rings, lamps, value) in inputs.pairs() {
        rows.push(row!("resolver", "resolve_pair", name, |I, _| {
            I::pair(black_box(rings), black_box(lamps), black_box(value))
        }));
    }
}

fn feed_rows<'a>(inputs: &'a Inputs, rows: &mut Vec<Row<'a>>) {
    for (name, table, message) in inputs.messages() {
        rows.push(row!("resolver", "resolve_feed", name, |I, _| {
            let mut record = Record::default();
            for value in message {
                black_box(I::feed(black_box(table), &mut record, black_box(value)));
            }
            record
        }));
    }
}

fn tally_rows<'a>(inputs: &'a Inputs, rows: &mut Vec<Row<'a>>) {
    for (name, table, _, value) in inputs.calls() {
        rows.push(row!("tally", "tally_value", name, |I, _| {
            let (mut records, mut refusals) = ([Tally::default(); 32], [0; 12]);
            I::tally_value(black_box(table), &mut records, &mut refusals, black_box(value))
        }));
    }
}

/// Full logs, and beside each the plain resolver on as many values, one by one.
fn log_rows<'a>(inputs: &'a Inputs, rows: &mut Vec<Row<'a>>) {
    for (name, table, log, _, _) in inputs.logs() {
        rows.push(row!("call_log", "call_log_check", name, |I, _| I::check_log(black_box(table), black_box(log))));
    }
    for (name, table, _, calls, value) in inputs.logs() {
        rows.push(row!("resolver", "resolve_plain", format!("{name}, one by one"), |I, _| {
            for _ in 0..calls {
                black_box(I::plain(black_box(table), black_box(value)));
            }
        }));
    }
}

/// A hundred values, each from the seed after the one before.
fn sample_rows<'a>(inputs: &'a Inputs, rows: &mut Vec<Row<'a>>) {
    for (name, table, _) in &inputs.tables {
        rows.push(row!("sample_value", "sample_value_make", format!("{name}, 100 values"), |I, buffer| {
            let mut seed = Seed { x: 1 };
            for _ in 0..100 {
                black_box(I::sample(black_box(table), &mut seed, &mut buffer[..4096]));
            }
            seed.x
        }));
    }
}

/// All marks of a table, and all of its signals.
fn mark_rows<'a>(inputs: &'a Inputs, rows: &mut Vec<Row<'a>>) {
    for (name, table, _) in &inputs.tables {
        let read = Table::read(table).unwrap_or_else(|number| panic!("{name}: {number}"));
        let (nodes, signals) = (read.nodes.len() as u8, read.signals.len() as u8);
        let all = ((1u64 << signals) - 1) as u32;
        rows.push(row!("table_kept", "alert_signal_table_keeps", format!("{name}, all {nodes} marks"), |I, _| {
            for node in 1..=nodes {
                black_box(I::keeps(black_box(table), all, node));
            }
        }));
    }
    for (name, table, _) in &inputs.tables {
        let read = Table::read(table).unwrap_or_else(|number| panic!("{name}: {number}"));
        let signals = read.signals.len() as u8;
        let all = ((1u64 << signals) - 1) as u32;
        rows.push(row!("table_kept", "alert_signal_table_rings", format!("{name}, all {signals} signals"), |I, _| {
            for signal in 0..signals {
                black_box(I::rings(black_box(table), all, signal));
            }
        }));
    }
}

fn print_times(rows: &[Row], runs: usize) {
    println!("| function | input | ours | baseline | ours / baseline |");
    println!("|---|---|---:|---:|---:|");
    for row in rows {
        let (ours, baseline) = time::best(row.ours.as_deref(), &*row.baseline, runs);
        let (shown, ratio) = match ours {
            Some(ours) => (time::show(ours), format!("{:.2}", ours / baseline)),
            None => ("-".to_string(), "-".to_string()),
        };
        println!("| {} | {} | {shown} | {} | {ratio} |", row.function, row.input, time::show(baseline));
    }
}

/// The most that any of a function's inputs took.
fn print_stacks(rows: &[Row]) {
    println!("| function | ours | baseline |");
    println!("|---|---:|---:|");
    let mut functions: Vec<&str> = rows.iter().map(|row| row.function).collect();
    functions.dedup();
    for function in functions {
        let of_function = || rows.iter().filter(|row| row.function == function);
        let ours = of_function().filter_map(|row| row.ours.as_deref()).map(stack::depth).max();
        let baseline = of_function().map(|row| stack::depth(&*row.baseline)).max();
        let show = |depth: Option<usize>| depth.map_or("-".to_string(), |bytes| bytes.to_string());
        println!("| {function} | {} | {} |", show(ours), show(baseline));
    }
}

/// Both stored forms of each table.
fn print_flash(inputs: &Inputs) {
    println!("| table | two sections | tree once | saved |");
    println!("|---|---:|---:|---:|");
    for (name, table, tree) in &inputs.trees {
        let saved = 100.0 * (1.0 - tree.len() as f64 / table.len() as f64);
        println!("| {name} | {} | {} | {saved:.0}% |", table.len(), tree.len());
    }
}

/// Each machine and its small image.
fn print_small(inputs: &Inputs) {
    println!("| table | states | classes | machine | small machine | saved |");
    println!("|---|---:|---:|---:|---:|---:|");
    for ((name, _, image), (classes, small)) in inputs.tables.iter().zip(&inputs.small) {
        let count = classes.iter().copied().max().map_or(0, |class| class as usize + 1);
        let saved = 100.0 * (1.0 - small.len() as f64 / image.len() as f64);
        println!("| {name} | {} | {count} | {} | {} | {saved:.0}% |", classes.len(), image.len(), small.len());
    }
}

fn main() {
    let runs = std::env::args().nth(1).map_or(100, |word| word.parse().expect("a number of runs"));
    #[cfg(all(feature = "signal_table", feature = "resolver"))]
    if std::env::args().nth(2).as_deref() == Some("growth") {
        return growth::print(runs);
    }
    let inputs = Inputs::new();
    let mut rows = Vec::new();
    reader_rows(&inputs, &mut rows);
    table_rows(&inputs, &mut rows);
    class_rows(&inputs, &mut rows);
    tree_rows(&inputs, &mut rows);
    resolver_rows(&inputs, &mut rows);
    small_rows(&inputs, &mut rows);
    early_rows(&inputs, &mut rows);
    available_rows(&inputs, &mut rows);
    pair_rows(&inputs, &mut rows);
    feed_rows(&inputs, &mut rows);
    tally_rows(&inputs, &mut rows);
    log_rows(&inputs, &mut rows);
    sample_rows(&inputs, &mut rows);
    mark_rows(&inputs, &mut rows);
    time::warm_up(&*rows[0].baseline);
    println!("## Time of one call, best of {runs} runs\n");
    print_times(&rows, runs);
    println!("\n## Stack that one call takes at most, bytes\n");
    print_stacks(&rows);
    println!("\n## Flash that a table takes, bytes\n");
    print_flash(&inputs);
    println!("\n## Flash that a machine takes, bytes\n");
    print_small(&inputs);
    println!("\n## Code and constants of the libraries, bytes\n");
    size::print();
}
