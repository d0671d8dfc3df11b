//! What stands outside the proofs: two implementations in plain Rust, the proved libraries behind safe functions,
//! and what compares them.
//!
//! - `reference`: the rules of resolution, written down as simply as possible.
//! - `baseline`: the same answers, written for speed, to time the proved libraries against.
//! - `ours`: the proved libraries.
//! - `cases`: the cases with known answers in crates/program_conformance/data.
//! - `random`: random values, tables and images, valid and damaged.
pub mod baseline;
pub mod cases;
pub mod ours;
pub mod random;
pub mod reference;

/// What a build answers: its refusal number, and how long the image is, which is 0 after a refusal.
#[repr(C)]
#[derive(Clone, Copy, Debug, PartialEq, Eq)]
pub struct Built {
    pub refusal: u8,
    pub len: usize,
}

/// What a conversion answers: its refusal number, and how long the form is, which is 0 after a refusal.
#[repr(C)]
#[derive(Clone, Copy, Debug, PartialEq, Eq)]
pub struct Converted {
    pub refusal: u8,
    pub len: usize,
}

/// What a URI is to a table: the table's refusal number, whether the URI is used, its category, the deepest node that is
/// the URN or above it, whether it is the URN, and how many bytes were compared to find it. All 0 for a skipped URI.
#[repr(C)]
#[derive(Clone, Copy, Debug, PartialEq, Eq)]
pub struct Match {
    pub refusal: u8,
    pub used: u8,
    pub category: u8,
    pub node: u8,
    pub whole: u8,
    pub compared: u32,
}

impl Match {
    pub fn refused(refusal: u8) -> Match {
        Match { refusal, used: 0, category: 0, node: 0, whole: 0, compared: 0 }
    }
}

/// What a resolver answers: its refusal number, the signal, and how many entries were used and skipped.
#[repr(C)]
#[derive(Clone, Copy, Debug, PartialEq, Eq)]
pub struct Resolution {
    pub refusal: u8,
    pub signal: u8,
    pub used: u8,
    pub skipped: u8,
}

impl Resolution {
    pub fn refused(refusal: u8) -> Resolution {
        Resolution { refusal, signal: 0, used: 0, skipped: 0 }
    }
}

/// What the early question answers: its refusal number, the signal, and how many entries it needed.
#[repr(C)]
#[derive(Clone, Copy, Debug, PartialEq, Eq)]
pub struct Early {
    pub refusal: u8,
    pub signal: u8,
    pub entries: u8,
}

impl Early {
    pub fn refused(refusal: u8) -> Early {
        Early { refusal, signal: 0, entries: 0 }
    }
}

/// What the plain resolver answers: the same, and how many candidates were tried (0 if refused).
#[repr(C)]
#[derive(Clone, Copy, Debug, PartialEq, Eq)]
pub struct Plain {
    pub refusal: u8,
    pub signal: u8,
    pub used: u8,
    pub skipped: u8,
    pub tries: u16,
}

impl Plain {
    pub fn refused(refusal: u8) -> Plain {
        Plain { refusal, signal: 0, used: 0, skipped: 0, tries: 0 }
    }

    /// The answer without its tries.
    pub fn resolution(self) -> Resolution {
        Resolution { refusal: self.refusal, signal: self.signal, used: self.used, skipped: self.skipped }
    }
}

/// What a pair of tables answers: its refusal number, the ring and the lamp.
#[repr(C)]
#[derive(Clone, Copy, Debug, PartialEq, Eq)]
pub struct Pair {
    pub refusal: u8,
    pub ring: u8,
    pub lamp: u8,
}

impl Pair {
    pub fn refused(refusal: u8) -> Pair {
        Pair { refusal, ring: 0, lamp: 0 }
    }
}

/// What one signal was heard: how many values chose it, and what these used and skipped in all.
#[repr(C)]
#[derive(Clone, Copy, Debug, Default, PartialEq, Eq)]
pub struct Tally {
    pub chosen: u32,
    pub used: u32,
    pub skipped: u32,
}

/// What is said of a log: its refusal number; 1 if every call agrees, else 0, the first call that does not and the right answer.
#[repr(C)]
#[derive(Clone, Copy, Debug, PartialEq, Eq)]
pub struct Verdict {
    pub refusal: u8,
    pub agrees: u8,
    pub call: u16,
    pub signal: u8,
    pub used: u8,
    pub skipped: u8,
}

impl Verdict {
    pub fn refused(refusal: u8) -> Verdict {
        Verdict { refusal, agrees: 0, call: 0, signal: 0, used: 0, skipped: 0 }
    }

    pub fn agreed() -> Verdict {
        Verdict { agrees: 1, ..Verdict::refused(0) }
    }

    pub fn differs(call: u16, right: Resolution) -> Verdict {
        Verdict { refusal: 0, agrees: 0, call, signal: right.signal, used: right.used, skipped: right.skipped }
    }
}

/// What the sample maker answers: its refusal number, and how long the value is, which is 0 after a refusal.
#[repr(C)]
#[derive(Clone, Copy, Debug, PartialEq, Eq)]
pub struct Made {
    pub refusal: u8,
    pub len: usize,
}

/// The seed that the sample maker is lent.
#[repr(C)]
#[derive(Clone, Copy, Debug, PartialEq, Eq)]
pub struct Seed {
    pub x: u32,
}

/// What is said of a mark: a refusal number; 1 if the table keeps it; else the signal that a shortest list rings which shows
/// the loss, and that list by the numbers of its nodes, with zeros after it.
#[repr(C)]
#[derive(Clone, Copy, Debug, PartialEq, Eq)]
pub struct Kept {
    pub refusal: u8,
    pub kept: u8,
    pub rings: u8,
    pub len: u8,
    pub marks: [u8; 32],
}

impl Kept {
    pub fn refused(refusal: u8) -> Kept {
        Kept { refusal, kept: 0, rings: 0, len: 0, marks: [0; 32] }
    }

    pub fn kept() -> Kept {
        Kept { kept: 1, ..Kept::refused(0) }
    }

    pub fn lost(rings: u8, list: &[u8]) -> Kept {
        Kept { refusal: 0, kept: 0, rings, len: list.len() as u8, marks: padded(list) }
    }
}

/// What is said of a signal: a refusal number; 1 if some list rings it; and a shortest such list, with zeros after it.
#[repr(C)]
#[derive(Clone, Copy, Debug, PartialEq, Eq)]
pub struct Rung {
    pub refusal: u8,
    pub rings: u8,
    pub len: u8,
    pub marks: [u8; 32],
}

impl Rung {
    pub fn refused(refusal: u8) -> Rung {
        Rung { refusal, rings: 0, len: 0, marks: [0; 32] }
    }

    pub fn by(list: &[u8]) -> Rung {
        Rung { refusal: 0, rings: 1, len: list.len() as u8, marks: padded(list) }
    }
}

/// A list with zeros after it.
fn padded(list: &[u8]) -> [u8; 32] {
    let mut marks = [0; 32];
    marks[..list.len()].copy_from_slice(list);
    marks
}

/// The reader of Alert-Info values: what the library alert_info answers.
pub trait Reader {
    fn value_refusal(value: &[u8]) -> u8;
    fn entries(value: &[u8]) -> usize;
    /// The URI of entry k; empty if refused.
    fn entry(value: &[u8], k: usize) -> &[u8];
    fn entry_refusal(value: &[u8], k: usize) -> u8;
}

/// Signal tables and machines: what the library signal_table answers.
pub trait Tables {
    fn table_refusal(table: &[u8]) -> u8;
    fn matched(table: &[u8], uri: &[u8]) -> Match;
    fn build(table: &[u8], buffer: &mut [u8]) -> Built;
    fn check(table: &[u8], image: &[u8]) -> u8;
}

/// Smaller machines: what the library small_machine answers. A buffer is zero past what was written, and all of it after a
/// refusal.
pub trait Classes {
    /// Whether one class for each state of the image makes a smaller machine that does the same, with no class too many.
    fn classes_check(table: &[u8], image: &[u8], classes: &[u8]) -> u8;
    /// The small image of such classes.
    fn small_write(table: &[u8], image: &[u8], classes: &[u8], buffer: &mut [u8]) -> Built;
    /// The classes of the smallest machine, numbered by their first states.
    fn propose(table: &[u8], image: &[u8], buffer: &mut [u8]) -> Built;
}

/// Tables with the tree written once: what the library tree_table answers. A buffer is zero past the form, and all of it
/// after a refusal.
pub trait Trees {
    fn tree_refusal(tree: &[u8]) -> u8;
    /// The tree form of a table.
    fn from_table(table: &[u8], buffer: &mut [u8]) -> Converted;
    /// The table that a tree form says.
    fn to_table(tree: &[u8], buffer: &mut [u8]) -> Converted;
}

/// What is carried between the values of one message: the signal, a status for each of 8 categories, and how many values
/// there were. All zero before the first.
#[repr(C)]
#[derive(Clone, Copy, Debug, Default, PartialEq, Eq)]
pub struct Record {
    pub signal: u8,
    pub status: [u8; 8],
    pub values: u8,
}

/// Most values of one message.
pub const VALUES: u8 = 16;

/// The resolvers: what the library resolver answers.
pub trait Resolvers {
    fn plain(table: &[u8], value: &[u8]) -> Plain;
    fn machine(table: &[u8], image: &[u8], value: &[u8]) -> Resolution;
    /// The same by a small image.
    fn small(table: &[u8], small: &[u8], value: &[u8]) -> Resolution;
    /// One value of a message that has several.
    fn feed(table: &[u8], record: &mut Record, value: &[u8]) -> Resolution;
    /// The signal, as soon as no further URN could change it.
    fn early(table: &[u8], value: &[u8]) -> Early;
    /// The plain resolution where only some signals can be given: bit s of `available` for signal s.
    fn available(table: &[u8], available: u32, value: &[u8]) -> Resolution;
    /// A ring and a lamp, by two tables with no category in common.
    fn pair(rings: &[u8], lamps: &[u8], value: &[u8]) -> Pair;
}

/// Kept marks and signals that can ring: what the library table_kept answers, while only some signals are available.
pub trait Marks {
    fn keeps(table: &[u8], available: u32, node: u8) -> Kept;
    fn rings(table: &[u8], available: u32, signal: u8) -> Rung;
}

/// The monthly count: what the library tally answers and leaves in the records and refusal counts.
pub trait Tallies {
    fn tally_value(table: &[u8], records: &mut [Tally], refusals: &mut [u32], value: &[u8]) -> Resolution;
}

/// Logs of calls from other makers: what the library call_log answers.
pub trait Logs {
    fn check_log(table: &[u8], log: &[u8]) -> Verdict;
}

/// Sample values: what the library sample_value answers and leaves in the seed and the buffer, of which the bytes past the
/// value stay as they are.
pub trait Samples {
    fn sample(table: &[u8], seed: &mut Seed, buffer: &mut [u8]) -> Made;
}
