//! Ring before the end.
use super::table::{Decoded, START};
use super::value::{entry_at, scan};
use crate::Early;

pub fn ask(bytes: &[u8], value: &[u8]) -> Result<Early, u8> {
    if value.len() > 4096 {
        return Err(1);
    }
    let table = match Decoded::read(bytes) {
        Ok(table) => table,
        Err(refusal) => return Err(scan(value, |_, _, _| ()).err().unwrap_or(refusal)),
    };
    let mut state = START;
    let mut at = 0;
    let mut settled = table.is_settled(state);
    for entries in 0..=64 {
        let answer = |signal, entries: usize| Ok(Early { refusal: 0, signal, entries: entries as u8 });
        if settled {
            return answer(state.signal, entries);
        }
        let Some(entry) = entry_at(value, at).filter(|_| entries < 64) else { break };
        if let Some((category, node, whole)) = table.find(&value[entry.start..entry.end]) {
            let next = table.step(state, category, node, whole);
            if next != state {
                state = next;
                settled = table.is_settled(state);
            }
        }
        match entry.next {
            None => return answer(state.signal, entries + 1),
            Some(next) => at = next,
        }
    }
    Err(scan(value, |_, _, _| ()).expect_err("a value that is not answered is refused"))
}
