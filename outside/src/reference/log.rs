//! A log of calls, each held to direct resolution.
use super::table::Table;
use super::Reference;
use crate::{Resolvers, Verdict};

struct Call<'a> {
    value: &'a [u8],
    answer: &'a [u8],
}

/// The first n bytes, and those after them.
fn split(bytes: &[u8], n: usize) -> Option<(&[u8], &[u8])> {
    Some((bytes.get(..n)?, &bytes[n..]))
}

/// Two bytes as a number, and what is after them.
fn number(bytes: &[u8]) -> Option<(usize, &[u8])> {
    let (two, rest) = split(bytes, 2)?;
    Some((u16::from_le_bytes([two[0], two[1]]).into(), rest))
}

/// The calls, or nothing if this is no log.
fn calls(log: &[u8]) -> Option<Vec<Call<'_>>> {
    if log.len() > 32_768 {
        return None;
    }
    let (count, mut rest) = number(log)?;
    let mut calls = Vec::new();
    for _ in 0..count {
        let (length, after) = number(rest)?;
        let (value, after) = split(after, length)?;
        let (answer, after) = split(after, 3)?;
        calls.push(Call { value, answer });
        rest = after;
    }
    rest.is_empty().then_some(calls)
}

pub fn check(table: &[u8], log: &[u8]) -> Result<Verdict, u8> {
    Table::read(table)?;
    for (k, call) in calls(log).ok_or(25)?.iter().enumerate() {
        let right = Reference::plain(table, call.value).resolution();
        if call.answer != [right.signal, right.used, right.skipped] {
            return Ok(Verdict::differs(k as u16, right));
        }
    }
    Ok(Verdict::agreed())
}
