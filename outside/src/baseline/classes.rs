//! Smaller machines, without allocation: states are told apart by their signals, then by the classes of their targets,
//! until nothing changes.
use super::machine;

/// The rows of an accepted image: a state's signal first, its targets last.
struct Rows<'a> {
    front: &'a [u8],
    rows: &'a [u8],
    states: usize,
    symbols: usize,
}

impl<'a> Rows<'a> {
    fn of(table: &[u8], image: &'a [u8]) -> Result<Rows<'a>, u8> {
        machine::check(table, image)?;
        let symbols = image[0] as usize;
        let (front, rest) = image.split_at(1 + 3 * symbols);
        let states = u16::from_le_bytes([rest[0], rest[1]]) as usize;
        Ok(Rows { front, rows: &rest[2..], states, symbols })
    }

    fn width(&self) -> usize {
        self.rows.len() / self.states
    }

    fn signal(&self, state: usize) -> u8 {
        self.rows[state * self.width()]
    }

    fn targets(&self, state: usize) -> &'a [u8] {
        let end = (state + 1) * self.width();
        &self.rows[end - self.symbols..end]
    }

    /// For each state the first one that behaves as it does.
    fn first_alike(&self) -> [u8; 256] {
        let mut old = [0; 256];
        for (state, class) in old[..self.states].iter_mut().enumerate() {
            *class = self.signal(state);
        }
        loop {
            let mut new = [0; 256];
            for i in 0..self.states {
                let like = |&j: &usize| {
                    new[j] as usize == j
                        && old[i] == old[j]
                        && self
                            .targets(i)
                            .iter()
                            .zip(self.targets(j))
                            .all(|(&a, &b)| old[a as usize] == old[b as usize])
                };
                new[i] = (0..i).find(like).unwrap_or(i) as u8;
            }
            if new == old {
                return new;
            }
            old = new;
        }
    }

    /// Whether each class up to the highest has a state that state 0 leads to.
    fn all_reached(&self, classes: &[u8]) -> bool {
        let (mut list, mut seen, mut found) = ([0u8; 256], [false; 256], [false; 256]);
        let mut count = 1;
        seen[0] = true;
        let mut next = 0;
        while next < count {
            let state = list[next] as usize;
            found[classes[state] as usize] = true;
            for &target in self.targets(state) {
                if !seen[target as usize] {
                    seen[target as usize] = true;
                    list[count] = target;
                    count += 1;
                }
            }
            next += 1;
        }
        let highest = classes.iter().copied().max().unwrap_or(0) as usize;
        found[..=highest].iter().all(|&found| found)
    }

    fn fits(&self, classes: &[u8]) -> bool {
        if classes.len() != self.states || classes[0] != 0 {
            return false;
        }
        let alike = self.first_alike();
        let mut first = [None; 256];
        let same = (0..self.states).all(|state| {
            let own = *first[classes[state] as usize].get_or_insert(state);
            alike[state] as usize == own
        });
        same && self.all_reached(classes)
    }
}

pub fn check(table: &[u8], image: &[u8], classes: &[u8]) -> Result<(), u8> {
    let rows = Rows::of(table, image)?;
    if !rows.fits(classes) {
        return Err(27);
    }
    Ok(())
}

pub fn write(table: &[u8], image: &[u8], classes: &[u8], buffer: &mut [u8]) -> Result<usize, u8> {
    let rows = Rows::of(table, image)?;
    if !rows.fits(classes) {
        return Err(27);
    }
    let count = classes.iter().copied().max().unwrap_or(0) as usize + 1;
    let head = rows.front.len();
    let width = 1 + rows.symbols;
    let length = head + 2 + count * width;
    if buffer.len() < length {
        return Err(14);
    }
    buffer[..head].copy_from_slice(rows.front);
    buffer[head..head + 2].copy_from_slice(&(count as u16).to_le_bytes());
    for (class, row) in buffer[head + 2..length].chunks_exact_mut(width).enumerate() {
        let first = classes.iter().position(|&c| c as usize == class).unwrap_or(0);
        row[0] = rows.signal(first);
        for (byte, &target) in row[1..].iter_mut().zip(rows.targets(first)) {
            *byte = classes[target as usize];
        }
    }
    Ok(length)
}

pub fn propose(table: &[u8], image: &[u8], buffer: &mut [u8]) -> Result<usize, u8> {
    let rows = Rows::of(table, image)?;
    let alike = rows.first_alike();
    let mut classes = [0; 256];
    let mut next = 0u8;
    for state in 0..rows.states {
        let first = alike[state] as usize;
        if first == state {
            classes[state] = next;
            next = next.wrapping_add(1);
        } else {
            classes[state] = classes[first];
        }
    }
    let classes = &classes[..rows.states];
    if !rows.all_reached(classes) {
        return Err(27);
    }
    if buffer.len() < classes.len() {
        return Err(14);
    }
    buffer[..classes.len()].copy_from_slice(classes);
    Ok(classes.len())
}
