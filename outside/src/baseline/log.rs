//! Logs of calls: the whole log first, then its calls by a table that is decoded once.
use super::resolve::plain_by;
use super::table::Decoded;
use super::value::Uris;
use crate::{Resolution, Verdict};

fn word(log: &[u8], at: usize) -> Option<usize> {
    let two = log.get(at..at + 2)?;
    Some(u16::from_le_bytes([two[0], two[1]]).into())
}

/// Where the calls end, if they do within the log.
fn end(log: &[u8]) -> Option<usize> {
    let mut at = 2;
    for _ in 0..word(log, 0)? {
        at += 5 + word(log, at)?;
    }
    Some(at)
}

pub fn check(table: &[u8], log: &[u8]) -> Result<Verdict, u8> {
    let table = Decoded::read(table)?;
    if log.len() > 32_768 || end(log) != Some(log.len()) {
        return Err(25);
    }
    let (mut rest, mut call) = (&log[2..], 0);
    while let [low, high, after @ ..] = rest {
        let (value, after) = after.split_at(u16::from_le_bytes([*low, *high]).into());
        let right =
            Uris::read(value).map_or_else(Resolution::refused, |uris| plain_by(&table, value, &uris).resolution());
        if after[..3] != [right.signal, right.used, right.skipped] {
            return Ok(Verdict::differs(call, right));
        }
        rest = &after[3..];
        call += 1;
    }
    Ok(Verdict::agreed())
}
