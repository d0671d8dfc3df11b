//! What is known of the tables at the limits and of the example tables.
use outside::random::tables::limits;
use outside::random::trees;
use outside::reference::machine::discover;
use outside::reference::table::Table;
use outside::reference::Reference;
use outside::{Tables, Trees};
use std::path::Path;

const LONGEST: usize = 35_459;

#[test]
fn limits_are_met() {
    for limit in limits() {
        let built = Reference::build(&limit.table, &mut vec![0; LONGEST]);
        assert_eq!(built.refusal, limit.refusal, "{}", limit.what);
        match limit.what {
            "8,192 bytes" | "8,192 bytes, one left over" => assert_eq!(limit.table.len(), 8192),
            "8,193 bytes" => assert_eq!(limit.table.len(), 8193),
            "64 nodes, 256 states, 120 symbols" => assert_eq!((built.len, states(&limit.table)), (31_851, 256)),
            "a URN of 255 bytes" => assert!(limit.table.contains(&255)),
            "257 states" => assert_eq!(states(&limit.table), 257),
            _ => {}
        }
    }
}

#[test]
fn tree_limits_are_met() {
    for limit in trees::limits() {
        let converted = Reference::to_table(&limit.tree, &mut vec![0; 10_000]);
        assert_eq!(converted.refusal, limit.refusal, "{}", limit.what);
        if limit.what == "a table of 8,192 bytes" {
            assert_eq!(converted.len, 8192);
        }
    }
}

fn states(table: &[u8]) -> usize {
    let table = Table::read(table).expect("a well-formed table");
    discover(&table, 300).expect("at most 300 states").0.len()
}

#[test]
fn example_tables() {
    let folder = Path::new(env!("CARGO_MANIFEST_DIR")).join("../examples/tables");
    let known = [("T1", 4), ("T2", 16), ("T3", 15), ("T4", 6), ("T5", 5), ("separate", 12), ("countries", 13)];
    for (name, count) in known {
        let table = std::fs::read(folder.join(name).with_extension("table")).expect(name);
        assert_eq!(states(&table), count, "{name}");
    }
    assert_eq!(std::fs::read(folder.join("T1.table")).unwrap().len(), 44);
}
