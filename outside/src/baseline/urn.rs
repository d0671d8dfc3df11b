//! Names and URNs as bytes.

/// The length of a name at the start of `text`, up to a colon or the end: one label, or two with `@` between. A label has at
/// most 27 letters, digits and hyphens, at least one, and a hyphen at neither end.
fn name_length(text: &[u8]) -> Option<usize> {
    let mut start = 0;
    let mut at = 0;
    let mut seen_at = false;
    loop {
        match text.get(at) {
            Some(b) if b.is_ascii_alphanumeric() || *b == b'-' => at += 1,
            stop => {
                let label = &text[start..at];
                if label.is_empty() || label.len() > 27 || label[0] == b'-' || label[label.len() - 1] == b'-' {
                    return None;
                }
                match stop {
                    None | Some(b':') => return Some(at),
                    Some(b'@') if !seen_at => {
                        seen_at = true;
                        at += 1;
                        start = at;
                    }
                    _ => return None,
                }
            }
        }
    }
}

pub fn is_name(text: &[u8]) -> bool {
    name_length(text) == Some(text.len())
}

/// The category's length and the number of parts of a URN without its `urn:alert:`.
pub fn form(text: &[u8]) -> Option<(usize, usize)> {
    let category = name_length(text)?;
    let mut at = category;
    let mut parts = 0;
    while at < text.len() {
        at += 1 + name_length(&text[at + 1..])?;
        parts += 1;
    }
    (parts > 0).then_some((category, parts))
}

/// What stands after `urn:alert:`, whose letters may be capitals.
pub fn after_prefix(uri: &[u8]) -> Option<&[u8]> {
    let (prefix, rest) = uri.split_at_checked(10)?;
    prefix.eq_ignore_ascii_case(b"urn:alert:").then_some(rest)
}

/// The first part of a path, and what stands after its colon.
pub fn split_part(path: &[u8]) -> (&[u8], Option<&[u8]>) {
    match path.iter().position(|&b| b == b':') {
        Some(i) => (&path[..i], Some(&path[i + 1..])),
        None => (path, None),
    }
}
