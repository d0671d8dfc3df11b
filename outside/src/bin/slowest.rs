//! Looks for the table that the proved library takes longest to judge. A table is made from nine numbers: random ones,
//! or those of the slowest table so far with one or two drawn anew. `slowest [SECONDS]`: 60 unless said otherwise.
use outside::ours::Ours;
use outside::random::tables::Draft;
use outside::random::Random;
use outside::Tables;
use std::hint::black_box;
use std::time::{Duration, Instant};

/// Categories, the length of their names, signals beside signal 0, URNs of each, parts of each, the length of a part,
/// how many parts at the end vary, among how many letters, and at which letter.
type Shape = [usize; 9];

/// The largest of each number; the smallest is 1.
const MOST: Shape = [8, 27, 31, 8, 8, 27, 8, 26, 27];

fn draw(random: &mut Random, i: usize) -> usize {
    random.between(1, MOST[i])
}

/// Names differ in their last letter only. Nothing where a URN would be too long.
fn table(shape: Shape, random: &mut Random) -> Option<Vec<u8>> {
    let [categories, name_length, signals, urns, parts, part_length, varied, letters, place] = shape;
    let name = |category: usize| {
        let mut name = vec![b'n'; name_length];
        name[name_length - 1] = b'a' + category as u8;
        name
    };
    let mut urn = |category: usize| {
        let mut urn = name(category);
        for part in 0..parts {
            let start = urn.len() + 1;
            urn.push(b':');
            urn.extend(vec![b'x'; part_length]);
            if part + varied >= parts {
                urn[start + (place - 1).min(part_length - 1)] = b'a' + random.below(letters) as u8;
            }
        }
        urn
    };
    let signal = |_| (0..urns.min(categories)).map(&mut urn).collect();
    let signals: Vec<Vec<Vec<u8>>> = std::iter::once(Vec::new()).chain((0..signals).map(signal)).collect();
    let short = signals.iter().flatten().all(|urn| urn.len() <= 255);
    let bytes = Draft { categories: (0..categories).map(name).collect(), signals }.bytes();
    (short && bytes.len() <= 8192).then_some(bytes)
}

/// The best of a dozen runs, in nanoseconds.
fn time(table: &[u8]) -> u128 {
    let run = || {
        let start = Instant::now();
        black_box(Ours::table_refusal(black_box(table)));
        start.elapsed().as_nanos()
    };
    (0..12).map(|_| run()).min().unwrap_or(0)
}

fn main() {
    let seconds = std::env::args().nth(1).map_or(60, |word| word.parse().expect("a number of seconds"));
    let end = Instant::now() + Duration::from_secs(seconds);
    let mut random = Random(1);
    let mut slowest: (u128, Shape) = (0, MOST);
    let mut tried = 0;
    while Instant::now() < end {
        let mut shape = slowest.1;
        let anew = if random.percent(30) { MOST.len() } else { random.between(1, 2) };
        for k in 0..anew {
            let i = if anew == MOST.len() { k } else { random.below(MOST.len()) };
            shape[i] = draw(&mut random, i);
        }
        let Some(table) = table(shape, &mut random) else { continue };
        tried += 1;
        // Timed again if it seems slower, so that one disturbed run does not count.
        if time(&table) > slowest.0 && time(&table) > slowest.0 {
            slowest = (time(&table), shape);
            let (nanoseconds, bytes, refusal) = (slowest.0, table.len(), Ours::table_refusal(&table));
            println!("{:.1} µs, {bytes} bytes, refusal {refusal}, {shape:?}", nanoseconds as f64 / 1000.0);
        }
    }
    println!("{tried} tables, none over {:.1} µs", slowest.0 as f64 / 1000.0);
}
