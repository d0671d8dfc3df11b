//! Logs of calls: mostly right, with wrong calls and damaged bytes among them.
use super::tables::Draft;
use super::{values, Random};
use crate::reference::Reference;
use crate::Resolvers;

/// Longest log.
const LONGEST: usize = 32_768;

/// A call with these three bytes.
pub fn call(value: &[u8], answer: [u8; 3]) -> Vec<u8> {
    let length = (value.len() as u16).to_le_bytes();
    [&length[..], value, &answer].concat()
}

/// The bytes of a log with these calls.
pub fn log(calls: &[Vec<u8>]) -> Vec<u8> {
    let count = (calls.len() as u16).to_le_bytes();
    [count.to_vec(), calls.concat()].concat()
}

/// The right answer to a value, which for a refused one is 0, 0, 0.
pub fn right(table: &[u8], value: &[u8]) -> [u8; 3] {
    let answer = Reference::plain(table, value);
    [answer.signal, answer.used, answer.skipped]
}

/// The right answer, now and then with another byte.
fn answer(random: &mut Random, table: &[u8], value: &[u8]) -> [u8; 3] {
    let mut answer = right(table, value);
    if random.percent(12) {
        answer[random.below(3)] = random.below(4) as u8;
    }
    answer
}

/// Calls that make a log about as long as it may be: copies of one, and a last one of the length that is left.
fn full(random: &mut Random, table: &[u8], value: &[u8]) -> Vec<u8> {
    let one = call(value, right(table, value));
    let length = LONGEST + random.below(3) - random.below(3);
    let copies = (length - 7) / one.len();
    let mut calls = vec![one.clone(); copies];
    let last = vec![b' '; length - 7 - copies * one.len()];
    calls.push(call(&last, answer(random, table, &last)));
    log(&calls)
}

/// Cut short, with more behind it, or with another byte in it; mostly left as it is.
fn damaged(random: &mut Random, mut log: Vec<u8>) -> Vec<u8> {
    match random.below(12) {
        0 => log.truncate(random.below(log.len() + 1)),
        1 => log.truncate(log.len() - 1 - random.below(log.len().min(4))),
        2 => log.extend(vec![0; random.between(1, 6)]),
        3 => log[random.below(2)] ^= 1,
        4 => {
            let at = random.below(log.len());
            log[at] = random.byte();
        }
        _ => (),
    }
    log
}

/// A log for the table, whose values have URNs of the draft.
pub fn stored(random: &mut Random, table: &[u8], draft: &Draft) -> Vec<u8> {
    let value = values::value(random, draft);
    if random.percent(2) && value.len() < 5000 {
        let log = full(random, table, &value);
        return damaged(random, log);
    }
    let calls: Vec<Vec<u8>> = (0..random.below(5))
        .map(|_| {
            let value = values::value(random, draft);
            let answer = answer(random, table, &value);
            call(&value[..value.len().min(65_535)], answer)
        })
        .collect();
    damaged(random, log(&calls))
}
