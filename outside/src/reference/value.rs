//! The field value, read byte by byte by a state machine.
//!
//! Entries stand with commas between them. Each has a URI in brackets and its parameters behind it: after a semicolon a
//! token, alone or with `=` and a token or quoted string. Spaces, tabs and folds may stand outside brackets, tokens and
//! quotes. A fold is CR, LF and a space or a tab.

/// Where in the rule the byte before stands.
#[derive(Clone, Copy, PartialEq)]
enum At {
    /// An entry has to come.
    BeforeEntry,
    /// After `<`, or in a URI.
    Uri,
    /// After `>` or a setting, or in the white space after it: the entry may end here.
    EntryDone,
    /// After a semicolon: a token has to come.
    BeforeName,
    /// In the token that names a parameter.
    Name,
    /// In the white space after that token.
    NameDone,
    /// After an equals sign: a token or quoted string has to come.
    BeforeSetting,
    /// In a token after an equals sign.
    Setting,
    /// In a quoted string.
    Quoted,
    /// After a backslash in a quoted string.
    Escaped,
}

fn is_white(b: u8) -> bool {
    b == b' ' || b == b'\t'
}

/// Any visible ASCII byte, 0x21 to 0x7E, but for `<`, `>` and `"`.
fn is_uri(b: u8) -> bool {
    (0x21..=0x7E).contains(&b) && b != b'<' && b != b'>' && b != b'"'
}

/// Letters, digits and ``-.!%*_+`'~``.
fn is_token(b: u8) -> bool {
    b.is_ascii_alphanumeric() || b"-.!%*_+`'~".contains(&b)
}

/// What may stand in a quoted string as it is: a tab, 32 to 126 but for `"` and `\`, and 128 to 255.
fn is_text(b: u8) -> bool {
    b == 9 || ((32..=126).contains(&b) && b != b'"' && b != b'\\') || b >= 128
}

/// What may stand after `\`: all below 128 but LF and CR.
fn is_escapable(b: u8) -> bool {
    b <= 127 && b != 10 && b != 13
}

/// Where the rule stands after the byte `b`, or nothing if `b` cannot come here. `empty`: no byte of the URI was seen.
fn next(at: At, b: u8, empty: bool) -> Option<At> {
    let ends_entry = |b| match b {
        b',' => Some(At::BeforeEntry),
        b';' => Some(At::BeforeName),
        _ => None,
    };
    match at {
        At::BeforeEntry if is_white(b) => Some(At::BeforeEntry),
        At::BeforeEntry if b == b'<' => Some(At::Uri),
        At::BeforeEntry => None,
        At::Uri if is_uri(b) => Some(At::Uri),
        At::Uri if b == b'>' && !empty => Some(At::EntryDone),
        At::Uri => None,
        At::EntryDone if is_white(b) => Some(At::EntryDone),
        At::EntryDone => ends_entry(b),
        At::BeforeName if is_white(b) => Some(At::BeforeName),
        At::BeforeName if is_token(b) => Some(At::Name),
        At::BeforeName => None,
        At::Name if is_token(b) => Some(At::Name),
        At::Name | At::NameDone if is_white(b) => Some(At::NameDone),
        At::Name | At::NameDone if b == b'=' => Some(At::BeforeSetting),
        At::Name | At::NameDone => ends_entry(b),
        At::BeforeSetting if is_white(b) => Some(At::BeforeSetting),
        At::BeforeSetting if is_token(b) => Some(At::Setting),
        At::BeforeSetting if b == b'"' => Some(At::Quoted),
        At::BeforeSetting => None,
        At::Setting if is_token(b) => Some(At::Setting),
        At::Setting if is_white(b) => Some(At::EntryDone),
        At::Setting => ends_entry(b),
        At::Quoted if b == b'"' => Some(At::EntryDone),
        At::Quoted if b == b'\\' => Some(At::Escaped),
        At::Quoted if is_text(b) => Some(At::Quoted),
        At::Quoted => None,
        At::Escaped if is_escapable(b) => Some(At::Quoted),
        At::Escaped => None,
    }
}

/// Where the rule stands after white space, or nothing if none can come here.
fn after_white(at: At) -> Option<At> {
    match at {
        At::BeforeEntry | At::EntryDone | At::BeforeName | At::NameDone | At::BeforeSetting => Some(at),
        At::Name => Some(At::NameDone),
        At::Setting => Some(At::EntryDone),
        At::Uri | At::Quoted | At::Escaped => None,
    }
}

/// The places of the URIs of the entries that are read, start and end, and whether the value ends with the last of
/// them. An entry is read once its text fits up to and with the comma after it, or up to the end of the value.
fn read(value: &[u8]) -> (Vec<(usize, usize)>, bool) {
    let mut at = At::BeforeEntry;
    // how many bytes of a fold stand right before
    let mut fold = 0;
    let mut start = 0;
    let mut places = Vec::new();
    // how many entries have their comma
    let mut commas = 0;
    for (i, &b) in value.iter().enumerate() {
        let then = match (fold, b) {
            (0, b'\r') => after_white(at),
            (1, b'\n') => Some(at),
            (2, b) if is_white(b) => Some(at),
            (0, _) => next(at, b, start == i),
            _ => None,
        };
        let Some(then) = then else {
            places.truncate(commas);
            return (places, false);
        };
        fold = match (fold, b) {
            (0, b'\r') => 1,
            (1, _) => 2,
            _ => 0,
        };
        if at == At::BeforeEntry && then == At::Uri {
            start = i + 1;
        }
        if at == At::Uri && then == At::EntryDone {
            places.push((start, i));
        }
        if at != At::BeforeEntry && then == At::BeforeEntry {
            commas += 1;
        }
        at = then;
    }
    let ended = fold == 0 && matches!(at, At::EntryDone | At::Name | At::NameDone | At::Setting);
    if !ended {
        places.truncate(commas);
    }
    (places, ended)
}

/// The URIs of the entries that are read, and whether the value ends with the last of them.
pub fn front(value: &[u8]) -> (Vec<&[u8]>, bool) {
    let (places, ended) = read(value);
    (places.iter().map(|&(start, end)| &value[start..end]).collect(), ended)
}

/// The URIs of an accepted value in order, or the refusal number.
pub fn uris(value: &[u8]) -> Result<Vec<&[u8]>, u8> {
    if value.len() > 4096 {
        return Err(1);
    }
    match front(value) {
        (_, false) => Err(2),
        (uris, true) if uris.len() > 64 => Err(3),
        (uris, true) => Ok(uris),
    }
}

/// The URI of entry k, counted from 0, or the refusal number.
pub fn entry(value: &[u8], k: usize) -> Result<&[u8], u8> {
    uris(value)?.get(k).copied().ok_or(18)
}
