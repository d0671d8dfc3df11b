//! The field value: a cursor over bytes with a class table.

const WHITE: u8 = 1;
const URI: u8 = 2;
const TOKEN: u8 = 4;
const TEXT: u8 = 8;
const ESCAPABLE: u8 = 16;

const fn classes_of(b: u8) -> u8 {
    let mut classes = 0;
    if b == b' ' || b == b'\t' {
        classes |= WHITE;
    }
    if b > 0x20 && b < 0x7F && b != b'<' && b != b'>' && b != b'"' {
        classes |= URI;
    }
    if b.is_ascii_alphanumeric() || matches!(b, b'-' | b'.' | b'!' | b'%' | b'*' | b'_' | b'+' | b'`' | b'\'' | b'~') {
        classes |= TOKEN;
    }
    if b == 9 || (b >= 32 && b != 127 && b != b'"' && b != b'\\') {
        classes |= TEXT;
    }
    if b < 128 && b != 10 && b != 13 {
        classes |= ESCAPABLE;
    }
    classes
}

static CLASSES: [u8; 256] = {
    let mut table = [0; 256];
    let mut b = 0;
    while b < 256 {
        table[b] = classes_of(b as u8);
        b += 1;
    }
    table
};

fn is(b: u8, class: u8) -> bool {
    CLASSES[b as usize] & class != 0
}

/// The first position from `at` on whose byte is not of the class.
fn pass(value: &[u8], mut at: usize, class: u8) -> usize {
    while at < value.len() && is(value[at], class) {
        at += 1;
    }
    at
}

/// Past spaces, tabs and folds: CR, LF and a space or a tab.
fn pass_white(value: &[u8], mut at: usize) -> usize {
    loop {
        at = pass(value, at, WHITE);
        match value.get(at..) {
            Some([b'\r', b'\n', b' ' | b'\t', ..]) => at += 3,
            _ => return at,
        }
    }
}

/// Past a run of at least one byte of the class.
fn pass_some(value: &[u8], at: usize, class: u8) -> Option<usize> {
    let end = pass(value, at, class);
    (end > at).then_some(end)
}

/// Past a quoted string whose first quote stands before `at`.
fn pass_quoted(value: &[u8], mut at: usize) -> Option<usize> {
    loop {
        at = pass(value, at, TEXT);
        match value.get(at)? {
            b'"' => return Some(at + 1),
            b'\\' if is(*value.get(at + 1)?, ESCAPABLE) => at += 2,
            _ => return None,
        }
    }
}

/// Past the parameters after `>`, and the white space after them.
fn pass_parameters(value: &[u8], mut at: usize) -> Option<usize> {
    loop {
        at = pass_white(value, at);
        if value.get(at) != Some(&b';') {
            return Some(at);
        }
        at = pass_some(value, pass_white(value, at + 1), TOKEN)?;
        let equals = pass_white(value, at);
        if value.get(equals) == Some(&b'=') {
            let setting = pass_white(value, equals + 1);
            at = match value.get(setting)? {
                b'"' => pass_quoted(value, setting + 1)?,
                _ => pass_some(value, setting, TOKEN)?,
            };
        }
    }
}

/// An entry: where its URI starts and ends, and where the next one begins unless it is the last.
pub struct Entry {
    pub start: usize,
    pub end: usize,
    pub next: Option<usize>,
}

/// The entry at `at`, up to and with its comma or up to the end of the value.
#[inline(always)]
pub fn entry_at(value: &[u8], at: usize) -> Option<Entry> {
    let at = pass_white(value, at);
    if value.get(at) != Some(&b'<') {
        return None;
    }
    let end = pass_some(value, at + 1, URI)?;
    if value.get(end) != Some(&b'>') {
        return None;
    }
    let after = pass_parameters(value, end + 1)?;
    let next = match value.get(after) {
        None => None,
        Some(b',') => Some(after + 1),
        _ => return None,
    };
    Some(Entry { start: at + 1, end, next })
}

/// Hands each URI's number, start and end to `each`. The number of entries, or the refusal number.
#[inline(always)]
pub fn scan(value: &[u8], mut each: impl FnMut(usize, usize, usize)) -> Result<usize, u8> {
    if value.len() > 4096 {
        return Err(1);
    }
    let mut at = 0;
    let mut count = 0;
    loop {
        let entry = entry_at(value, at).ok_or(2)?;
        each(count, entry.start, entry.end);
        count += 1;
        match entry.next {
            None => break,
            Some(next) => at = next,
        }
    }
    if count > 64 {
        return Err(3);
    }
    Ok(count)
}

pub fn entry(value: &[u8], k: usize) -> Result<&[u8], u8> {
    let mut place = 0..0;
    let count = scan(value, |number, start, end| {
        if number == k {
            place = start..end;
        }
    })?;
    if k >= count {
        return Err(18);
    }
    Ok(&value[place])
}

/// The places of an accepted value's URIs.
pub struct Uris {
    places: [(u16, u16); 64],
    pub count: usize,
}

impl Uris {
    pub fn read(value: &[u8]) -> Result<Uris, u8> {
        let mut places = [(0, 0); 64];
        let count = scan(value, |number, start, end| {
            if number < 64 {
                places[number] = (start as u16, end as u16);
            }
        })?;
        Ok(Uris { places, count })
    }

    pub fn iter<'a>(&'a self, value: &'a [u8]) -> impl Iterator<Item = &'a [u8]> {
        self.places[..self.count].iter().map(|&(start, end)| &value[start as usize..end as usize])
    }
}
