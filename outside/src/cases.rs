//! Cases with known answers, one a line, `COMMAND = ANSWER`, bytes in hex, `-` for no bytes. Lines that start with `#`
//! and empty lines are comments.
//!
//! | command | answer |
//! |---|---|
//! | `value V` | refusal, number of entries, then `start:length` of each entry's URI in the value |
//! | `entry V k` | refusal, the URI's bytes |
//! | `table T` | refusal |
//! | `plain T V` | refusal, signal, used, skipped, tries |
//! | `build T ROOM` | refusal, length, image (the rest of the buffer of ROOM bytes is 0) |
//! | `check T M` | refusal |
//! | `classes T M P` | refusal of a proposal, one class for each state |
//! | `small T M P ROOM` | refusal, length, small image (the rest of the buffer of ROOM bytes is 0) |
//! | `propose T M ROOM` | refusal, length, classes (the same) |
//! | `walk T M V` | refusal, signal, used, skipped of the machine resolver |
//! | `smallwalk T SM V` | refusal, signal, used, skipped of the resolver of small images |
//! | `feed T RECORD V` | refusal, signal, used, skipped, the record after it; a record is `signal/status,../values` |
//! | `early T V` | refusal, signal, entries needed |
//! | `available T SET V` | refusal, signal, used, skipped; SET is a number, bit s for signal s |
//! | `pair RINGS LAMPS V` | refusal, ring, lamp |
//! | `keeps T SET NODE` | refusal, kept, what the list shown rings, the list's nodes as bytes |
//! | `rings T SET SIGNAL` | refusal, whether some list rings it, the list's nodes as bytes |
//! | `log T LOG` | refusal, agrees, call, signal, used, skipped |
//! | `match T URI` | refusal, category (-1 if the URI is skipped), node, whole, bytes compared |
//! | `newtable N` | refusal |
//! | `tonew T ROOM` | refusal, length, tree form (the rest of the buffer of ROOM bytes is 0) |
//! | `toold N ROOM` | refusal, length, table (the same) |
//! | `sample T SEED ROOM` | refusal, length, seed after it, value (the rest of the buffer of ROOM bytes stays) |
//! | `tally T RECORDS REFUSALS V` | refusal, records and refusal counts after it; `chosen:used:skipped` and counts, `;` between |
use crate::{Built, Classes, Converted, Early, Logs, Made, Marks, Match, Pair, Reader, Record, Resolution};
use crate::{Resolvers, Samples, Seed, Tables, Tallies, Tally, Trees};
use std::fmt::Write;
use std::path::{Path, PathBuf};

/// One file for each command, the draft's worked examples, values with folded lines, messages of
/// several fields, and URNs that a category holds.
pub const FILES: [&str; 24] = [
    "value.txt",
    "entry.txt",
    "table.txt",
    "build.txt",
    "check.txt",
    "plain.txt",
    "walk.txt",
    "match.txt",
    "draft.txt",
    "folded.txt",
    "fields.txt",
    "tally.txt",
    "held.txt",
    "held_machine.txt",
    "early.txt",
    "tries.txt",
    "trees.txt",
    "available.txt",
    "pair.txt",
    "log.txt",
    "sample.txt",
    "smallwalk.txt",
    "classes.txt",
    "kept.txt",
];

/// Where the cases are.
pub fn folder() -> PathBuf {
    Path::new(env!("CARGO_MANIFEST_DIR")).join("../crates/program_conformance/data")
}

/// Which library a command asks.
#[derive(Clone, Copy, PartialEq, Eq, Debug)]
pub enum Layer {
    Reader,
    Tables,
    Classes,
    Trees,
    Resolvers,
    Tallies,
    Logs,
    Samples,
    Marks,
}

#[derive(Clone)]
pub struct Case {
    pub place: String,
    pub words: Vec<String>,
    pub answer: String,
}

impl Case {
    pub fn layer(&self) -> Layer {
        match self.words[0].as_str() {
            "value" | "entry" => Layer::Reader,
            "table" | "match" | "build" | "check" => Layer::Tables,
            "classes" | "small" | "propose" => Layer::Classes,
            "newtable" | "tonew" | "toold" => Layer::Trees,
            "plain" | "walk" | "smallwalk" | "feed" | "early" | "available" | "pair" => Layer::Resolvers,
            "tally" => Layer::Tallies,
            "log" => Layer::Logs,
            "sample" => Layer::Samples,
            "keeps" | "rings" => Layer::Marks,
            other => panic!("{}: unknown command {other}", self.place),
        }
    }

    /// The bytes that word i gives in hex.
    pub fn bytes(&self, i: usize) -> Vec<u8> {
        from_hex(&self.words[i]).unwrap_or_else(|| panic!("{}: word {i} is no hex", self.place))
    }

    /// The record that word i says.
    fn record(&self, i: usize) -> Record {
        let numbers: Vec<u8> = self.words[i]
            .split(['/', ','])
            .map(|word| word.parse().unwrap_or_else(|_| panic!("{}: word {i} is no record", self.place)))
            .collect();
        let status = numbers[1..9].try_into().expect("8 statuses");
        Record { signal: numbers[0], status, values: numbers[9] }
    }

    fn number(&self, i: usize) -> usize {
        self.words[i].parse().unwrap_or_else(|_| panic!("{}: word {i} is no number", self.place))
    }
}

/// Every case of every file.
pub fn all() -> Vec<Case> {
    FILES.iter().flat_map(|name| read(&folder().join(name))).collect()
}

fn read(file: &Path) -> Vec<Case> {
    let text = std::fs::read_to_string(file).unwrap_or_else(|e| panic!("{}: {e}", file.display()));
    let name = file.file_name().unwrap().to_string_lossy();
    let mut cases = Vec::new();
    for (i, line) in text.lines().enumerate() {
        if line.is_empty() || line.starts_with('#') {
            continue;
        }
        let place = format!("{name}:{}", i + 1);
        let (command, answer) = line.split_once(" = ").unwrap_or_else(|| panic!("{place}: no answer"));
        let words = command.split(' ').map(str::to_string).collect();
        cases.push(Case { place, words, answer: answer.to_string() });
    }
    cases
}

pub fn to_hex(bytes: &[u8]) -> String {
    if bytes.is_empty() {
        return "-".to_string();
    }
    bytes.iter().fold(String::new(), |mut text, b| {
        write!(text, "{b:02x}").unwrap();
        text
    })
}

pub fn from_hex(text: &str) -> Option<Vec<u8>> {
    if text == "-" {
        return Some(Vec::new());
    }
    if text.len() & 1 == 1 || !text.is_ascii() {
        return None;
    }
    (0..text.len()).step_by(2).map(|i| u8::from_str_radix(&text[i..i + 2], 16).ok()).collect()
}

/// What an implementation answers to a case of the reader.
pub fn ask_reader<I: Reader>(case: &Case) -> String {
    let value = case.bytes(1);
    match case.words[0].as_str() {
        "value" => {
            let count = I::entries(&value);
            let mut text = format!("{} {count}", I::value_refusal(&value));
            for k in 0..count {
                let uri = I::entry(&value, k);
                let start = uri.as_ptr() as usize - value.as_ptr() as usize;
                write!(text, " {start}:{}", uri.len()).unwrap();
            }
            text
        }
        "entry" => {
            let k = case.number(2);
            format!("{} {}", I::entry_refusal(&value, k), to_hex(I::entry(&value, k)))
        }
        other => panic!("{}: {other} is not the reader's", case.place),
    }
}

/// What an implementation answers to a case of kept marks.
pub fn ask_marks<I: Marks>(case: &Case) -> String {
    let (table, set) = (case.bytes(1), case.number(2) as u32);
    let number = case.number(3) as u8;
    match case.words[0].as_str() {
        "keeps" => {
            let r = I::keeps(&table, set, number);
            format!("{} {} {} {}", r.refusal, r.kept, r.rings, to_hex(&r.marks[..r.len as usize]))
        }
        "rings" => {
            let r = I::rings(&table, set, number);
            format!("{} {} {}", r.refusal, r.rings, to_hex(&r.marks[..r.len as usize]))
        }
        other => panic!("{}: {other} does not ask for marks", case.place),
    }
}

/// What an implementation answers to a case of tables and machines.
pub fn ask_tables<I: Tables>(case: &Case) -> String {
    let table = case.bytes(1);
    match case.words[0].as_str() {
        "table" => I::table_refusal(&table).to_string(),
        "match" => {
            let Match { refusal, used, category, node, whole, compared } = I::matched(&table, &case.bytes(2));
            let category = if used == 1 { category.to_string() } else { "-1".to_string() };
            format!("{refusal} {category} {node} {whole} {compared}")
        }
        "build" => {
            // Filled with a byte that no image leaves behind, since every byte of the buffer is to be written.
            let mut buffer = vec![0xA5; case.number(2)];
            let built = I::build(&table, &mut buffer);
            let past = if built.refusal == 0 { built.len } else { 0 };
            if buffer[past..].iter().any(|&b| b != 0) {
                return "bytes past the image are not 0".to_string();
            }
            format!("{} {} {}", built.refusal, built.len, to_hex(&buffer[..past]))
        }
        "check" => I::check(&table, &case.bytes(2)).to_string(),
        other => panic!("{}: {other} is not the tables'", case.place),
    }
}

/// What an implementation answers to a case of smaller machines.
pub fn ask_classes<I: Classes>(case: &Case) -> String {
    let (table, image) = (case.bytes(1), case.bytes(2));
    if case.words[0] == "classes" {
        return I::classes_check(&table, &image, &case.bytes(3)).to_string();
    }
    let mut buffer = vec![0xA5; case.number(case.words.len() - 1)];
    let Built { refusal, len } = match case.words[0].as_str() {
        "small" => I::small_write(&table, &image, &case.bytes(3), &mut buffer),
        "propose" => I::propose(&table, &image, &mut buffer),
        other => panic!("{}: {other} is not of smaller machines", case.place),
    };
    if buffer[len..].iter().any(|&b| b != 0) {
        return "bytes past what was written are not 0".to_string();
    }
    format!("{refusal} {len} {}", to_hex(&buffer[..len]))
}

/// What an implementation answers to a case of tables with the tree written once.
pub fn ask_trees<I: Trees>(case: &Case) -> String {
    let bytes = case.bytes(1);
    let convert = match case.words[0].as_str() {
        "newtable" => return I::tree_refusal(&bytes).to_string(),
        "tonew" => I::from_table,
        "toold" => I::to_table,
        other => panic!("{}: {other} is not the trees'", case.place),
    };
    let mut buffer = vec![0xA5; case.number(2)];
    let Converted { refusal, len } = convert(&bytes, &mut buffer);
    if buffer[len..].iter().any(|&b| b != 0) {
        return "bytes past the form are not 0".to_string();
    }
    format!("{refusal} {len} {}", to_hex(&buffer[..len]))
}

/// A record as a case has it.
pub fn show_record(record: &Record) -> String {
    let status: Vec<String> = record.status.iter().map(u8::to_string).collect();
    format!("{}/{}/{}", record.signal, status.join(","), record.values)
}

fn show(answer: Resolution) -> String {
    let Resolution { refusal, signal, used, skipped } = answer;
    format!("{refusal} {signal} {used} {skipped}")
}

/// What an implementation answers to a case of the resolvers.
pub fn ask_resolvers<I: Resolvers>(case: &Case) -> String {
    let table = case.bytes(1);
    match case.words[0].as_str() {
        "plain" => {
            let answer = I::plain(&table, &case.bytes(2));
            format!("{} {}", show(answer.resolution()), answer.tries)
        }
        "walk" => show(I::machine(&table, &case.bytes(2), &case.bytes(3))),
        "smallwalk" => show(I::small(&table, &case.bytes(2), &case.bytes(3))),
        "feed" => {
            let mut record = case.record(2);
            let answer = I::feed(&table, &mut record, &case.bytes(3));
            format!("{} {}", show(answer), show_record(&record))
        }
        "early" => {
            let Early { refusal, signal, entries } = I::early(&table, &case.bytes(2));
            format!("{refusal} {signal} {entries}")
        }
        "available" => {
            let available = case.number(2).try_into().unwrap_or_else(|_| panic!("{}: too large a set", case.place));
            show(I::available(&table, available, &case.bytes(3)))
        }
        "pair" => {
            let Pair { refusal, ring, lamp } = I::pair(&table, &case.bytes(2), &case.bytes(3));
            format!("{refusal} {ring} {lamp}")
        }
        other => panic!("{}: {other} is not the resolvers'", case.place),
    }
}

/// Records as a case writes them.
pub fn show_records(records: &[Tally]) -> String {
    listed(records.iter().map(|r| format!("{}:{}:{}", r.chosen, r.used, r.skipped)))
}

/// Refusal counts as a case writes them.
pub fn show_counts(counts: &[u32]) -> String {
    listed(counts.iter().map(u32::to_string))
}

fn listed(words: impl Iterator<Item = String>) -> String {
    let text = words.collect::<Vec<_>>().join(";");
    if text.is_empty() {
        "-".to_string()
    } else {
        text
    }
}

/// The numbers of a word, with this mark between them; none for `-`.
fn numbers(word: &str, mark: char) -> Vec<u32> {
    let parts = word.split(mark).filter(|part| *part != "-");
    parts.map(|part| part.parse().unwrap_or_else(|_| panic!("{part} is no number"))).collect()
}

/// What an implementation answers to a case of the monthly count.
pub fn ask_tallies<I: Tallies>(case: &Case) -> String {
    let mut records: Vec<Tally> = case.words[2]
        .split(';')
        .map(|word| numbers(word, ':'))
        .filter(|counts| !counts.is_empty())
        .map(|counts| Tally { chosen: counts[0], used: counts[1], skipped: counts[2] })
        .collect();
    let mut refusals = numbers(&case.words[3], ';');
    let answer = I::tally_value(&case.bytes(1), &mut records, &mut refusals, &case.bytes(4));
    format!("{} {} {}", answer.refusal, show_records(&records), show_counts(&refusals))
}

/// What an implementation answers to a log.
pub fn ask_logs<I: Logs>(case: &Case) -> String {
    let v = I::check_log(&case.bytes(1), &case.bytes(2));
    format!("{} {} {} {} {} {}", v.refusal, v.agrees, v.call, v.signal, v.used, v.skipped)
}

/// What an implementation answers to a case of the sample maker.
pub fn ask_samples<I: Samples>(case: &Case) -> String {
    let x = case.number(2).try_into().unwrap_or_else(|_| panic!("{}: too large a seed", case.place));
    let mut seed = Seed { x };
    let mut buffer = vec![0xA5; case.number(3)];
    let Made { refusal, len } = I::sample(&case.bytes(1), &mut seed, &mut buffer);
    if buffer[len..].iter().any(|&b| b != 0xA5) {
        return "bytes past the value have changed".to_string();
    }
    format!("{refusal} {len} {} {}", seed.x, to_hex(&buffer[..len]))
}
