//! Smaller machines: the check of a proposal, the small image, and the smallest machine, by marking pairs of states that
//! some sequence of symbols tells apart.
use super::machine::{check as check_image, read, symbol_bytes};
use super::table::Table;

/// A machine without statuses: signals, and rows of targets.
struct Plain {
    signals: Vec<u8>,
    rows: Vec<Vec<usize>>,
}

/// For each two states, whether some sequence of symbols gives another signal from the one than from the other.
fn told_apart(machine: &Plain) -> Vec<Vec<bool>> {
    let count = machine.signals.len();
    let pairs = |i: usize, j: usize| machine.signals[i] != machine.signals[j];
    let mut apart: Vec<Vec<bool>> = (0..count).map(|i| (0..count).map(|j| pairs(i, j)).collect()).collect();
    loop {
        let mut more = false;
        for i in 0..count {
            for j in 0..count {
                let told = machine.rows[i].iter().zip(&machine.rows[j]).any(|(&a, &b)| apart[a][b]);
                if told && !apart[i][j] {
                    apart[i][j] = true;
                    more = true;
                }
            }
        }
        if !more {
            return apart;
        }
    }
}

/// The states that state 0 leads to.
fn reached(machine: &Plain) -> Vec<bool> {
    let mut reached = vec![false; machine.signals.len()];
    let mut waiting = vec![0];
    while let Some(state) = waiting.pop() {
        if !reached[state] {
            reached[state] = true;
            waiting.extend(&machine.rows[state]);
        }
    }
    reached
}

/// The smaller machine of a proposal, if it fits.
fn smaller(machine: &Plain, classes: &[u8]) -> Option<Plain> {
    if classes.len() != machine.signals.len() || classes[0] != 0 {
        return None;
    }
    let reached = reached(machine);
    let row = |state: usize| machine.rows[state].iter().map(|&target| classes[target] as usize).collect::<Vec<_>>();
    let mut small = Plain { signals: Vec::new(), rows: Vec::new() };
    for class in 0..=*classes.iter().max()? {
        let states: Vec<usize> = (0..classes.len()).filter(|&state| classes[state] == class).collect();
        let first = *states.iter().find(|&&state| reached[state])?;
        if states.iter().any(|&state| machine.signals[state] != machine.signals[first] || row(state) != row(first)) {
            return None;
        }
        small.signals.push(machine.signals[first]);
        small.rows.push(row(first));
    }
    let apart = told_apart(&small);
    let alike = |i: usize| (0..i).any(|j| !apart[i][j]);
    (!(0..small.signals.len()).any(alike)).then_some(small)
}

/// The machine in an accepted image.
fn accepted(table: &[u8], image: &[u8]) -> Result<(Table, Plain), u8> {
    check_image(table, image)?;
    let table = Table::read(table)?;
    let image = read(&table, image)?;
    let signals = image.states.iter().map(|state| state.signal as u8).collect();
    Ok((table, Plain { signals, rows: image.rows }))
}

pub fn check(table: &[u8], image: &[u8], classes: &[u8]) -> Result<(), u8> {
    let (_, machine) = accepted(table, image)?;
    smaller(&machine, classes).map(|_| ()).ok_or(27)
}

pub fn write(table: &[u8], image: &[u8], classes: &[u8], room: usize) -> Result<Vec<u8>, u8> {
    let (table, machine) = accepted(table, image)?;
    let small = smaller(&machine, classes).ok_or(27)?;
    let mut bytes = vec![table.symbols.len() as u8];
    bytes.extend(symbol_bytes(&table));
    bytes.extend((small.signals.len() as u16).to_le_bytes());
    for (&signal, row) in small.signals.iter().zip(&small.rows) {
        bytes.push(signal);
        bytes.extend(row.iter().map(|&class| class as u8));
    }
    if room < bytes.len() {
        return Err(14);
    }
    Ok(bytes)
}

/// Each state that is not told apart from an earlier one has its class, any other the next number.
pub fn propose(table: &[u8], image: &[u8], room: usize) -> Result<Vec<u8>, u8> {
    let (_, machine) = accepted(table, image)?;
    let apart = told_apart(&machine);
    let mut classes: Vec<u8> = Vec::new();
    let mut next = 0;
    for state in 0..machine.signals.len() {
        match (0..state).find(|&earlier| !apart[earlier][state]) {
            Some(earlier) => classes.push(classes[earlier]),
            None => {
                classes.push(next);
                next = next.wrapping_add(1);
            }
        }
    }
    smaller(&machine, &classes).ok_or(27)?;
    if room < classes.len() {
        return Err(14);
    }
    Ok(classes)
}
