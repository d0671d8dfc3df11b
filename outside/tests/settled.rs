//! A state is settled if no sequence of symbols leads to another signal: asked by single symbols, and by all states that
//! are reached from it, over the machines of random tables and of the examples.
use outside::random::{tables, Random};
use outside::reference::early::is_settled;
use outside::reference::machine::discover;
use outside::reference::table::Table;
use std::path::Path;

/// For each state, whether no state that is reached from it has another signal.
fn settled_by_walks(signals: &[usize], rows: &[Vec<usize>]) -> Vec<bool> {
    let reached = |from: usize| {
        let mut seen = vec![false; rows.len()];
        let mut left = vec![from];
        while let Some(state) = left.pop() {
            if !std::mem::replace(&mut seen[state], true) {
                left.extend(&rows[state]);
            }
        }
        seen
    };
    (0..rows.len())
        .map(|from| reached(from).iter().zip(signals).all(|(&seen, &s)| !seen || s == signals[from]))
        .collect()
}

fn hold(table: &[u8]) -> [usize; 2] {
    let Ok(table) = Table::read(table) else { return [0, 0] };
    let Some((states, rows)) = discover(&table, 100) else { return [0, 0] };
    let signals: Vec<usize> = states.iter().map(|state| state.signal).collect();
    let walks = settled_by_walks(&signals, &rows);
    let single: Vec<bool> = states.iter().map(|state| is_settled(&table, state)).collect();
    assert_eq!(walks, single);
    let settled = walks.iter().filter(|&&settled| settled).count();
    [settled, walks.len() - settled]
}

#[test]
fn single_symbols_tell() {
    let mut random = Random(7);
    let mut found = [0, 0];
    for _ in 0..2000 {
        let draft = tables::draft(&mut random);
        let [settled, not] = hold(&draft.bytes());
        found[0] += settled;
        found[1] += not;
    }
    let folder = Path::new(env!("CARGO_MANIFEST_DIR")).join("../examples/tables");
    for name in ["T1", "T2", "T3", "T4", "T5", "separate", "countries"] {
        let [settled, not] = hold(&std::fs::read(folder.join(name).with_extension("table")).expect(name));
        assert!(settled > 0 && not > 0, "{name}");
    }
    assert!(found[0] > 1000 && found[1] > 1000, "{found:?}");
}
