//! Alert URNs: after `urn:alert:` a category and its parts, with colons between. Letter case does not matter.

/// A category or part. Those of a table have no capital letter, and those of a URI are taken in lower case.
pub type Name = Vec<u8>;

/// The parts of a URN after its category. The empty path is the root.
pub type Path = Vec<Name>;

/// A label has at most 27 letters, digits and hyphens, at least one, and a hyphen at neither end.
fn is_label(text: &[u8]) -> bool {
    (1..=27).contains(&text.len())
        && text.iter().all(|&b| b.is_ascii_alphanumeric() || b == b'-')
        && text[0] != b'-'
        && text[text.len() - 1] != b'-'
}

/// A category or part: one label, or two with `@` between.
pub fn is_name(text: &[u8]) -> bool {
    let labels: Vec<&[u8]> = text.split(|&b| b == b'@').collect();
    labels.len() <= 2 && labels.iter().all(|label| is_label(label))
}

/// Category and path of a URN without its `urn:alert:`, or nothing if it is of bad form.
pub fn category_and_path(text: &[u8]) -> Option<(Name, Path)> {
    let mut names: Vec<Name> = text.split(|&b| b == b':').map(|name| name.to_vec()).collect();
    if names.len() < 2 || !names.iter().all(|name| is_name(name)) {
        return None;
    }
    let category = names.remove(0);
    Some((category, names))
}

/// Category and path of a URI that is an alert URN, in lower case.
pub fn alert_urn(uri: &[u8]) -> Option<(Name, Path)> {
    let prefix = b"urn:alert:";
    if uri.len() < prefix.len() || !uri[..prefix.len()].eq_ignore_ascii_case(prefix) {
        return None;
    }
    category_and_path(&uri[prefix.len()..].to_ascii_lowercase())
}
