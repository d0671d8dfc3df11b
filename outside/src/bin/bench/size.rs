//! The sizes of the static libraries' code and constants, by binutils' `size`.
use std::path::Path;
use std::process::Command;

pub fn print() {
    println!("| library | code and constants | data | zeroed |");
    println!("|---|---:|---:|---:|");
    for name in [
        "alert_info",
        "signal_table",
        "tree_table",
        "resolver",
        "tally",
        "call_log",
        "sample_value",
        "small_machine",
        "table_kept",
    ] {
        let archive = Path::new(env!("CARGO_MANIFEST_DIR")).join(format!("../target/c/lib/lib{name}.a"));
        match sizes(&archive) {
            Some([text, data, bss]) => println!("| lib{name}.a | {text} | {data} | {bss} |"),
            None => println!("| lib{name}.a | - | - | - |"),
        }
    }
}

/// text, data and bss, summed over the archive's members.
fn sizes(archive: &Path) -> Option<[u64; 3]> {
    let output = Command::new("size").arg(archive).output().ok()?;
    if !archive.exists() || !output.status.success() {
        return None;
    }
    let mut sums = [0; 3];
    for line in String::from_utf8_lossy(&output.stdout).lines().skip(1) {
        for (sum, word) in sums.iter_mut().zip(line.split_whitespace()) {
            *sum += word.parse::<u64>().ok()?;
        }
    }
    Some(sums)
}
