//! Random Alert-Info values.
use super::tables::{bad_name, name, Draft};
use super::{damage, Random};

fn white(random: &mut Random) -> Vec<u8> {
    let length = if random.percent(70) { 0 } else { random.between(1, 3) };
    (0..length).flat_map(|_| random.pick(&[" ", "\t", " ", "\t", "\r\n ", "\r\n\t"]).bytes()).collect()
}

fn token(random: &mut Random) -> Vec<u8> {
    let bytes = b"abcXYZ019-.!%*_+`'~";
    (0..random.between(1, 6)).map(|_| *random.pick(bytes)).collect()
}

fn quoted(random: &mut Random) -> Vec<u8> {
    let mut text = vec![b'"'];
    for _ in 0..random.below(8) {
        match random.below(7) {
            0 => text.extend([b'\\', *random.pick(b"\\\"\x00\x7Fa,<\x09\x0B")]),
            3 if random.percent(10) => text.extend([b'\\', random.byte()]),
            1 => text.push(*random.pick(b",;<>=: \t")),
            2 => text.push(random.between(128, 255) as u8),
            _ => text.push(random.between(b'a' as usize, b'z' as usize) as u8),
        }
    }
    text.push(b'"');
    text
}

fn parameters(random: &mut Random) -> Vec<u8> {
    let mut text = Vec::new();
    let count = if random.percent(75) { 0 } else { random.between(1, 3) };
    for _ in 0..count {
        text.extend(white(random));
        text.push(b';');
        text.extend(white(random));
        text.extend(token(random));
        if random.percent(60) {
            text.extend(white(random));
            text.push(b'=');
            text.extend(white(random));
            text.extend(if random.percent(50) { token(random) } else { quoted(random) });
        }
    }
    text
}

/// A URI: mostly an alert URN near one of the table's.
fn uri(random: &mut Random, draft: &Draft) -> Vec<u8> {
    let urns: Vec<&Vec<u8>> = draft.signals.iter().flatten().collect();
    let mut names: Vec<Vec<u8>> = match random.below(10) {
        0 => {
            return random
                .pick(&["http://example.com/a,b;c", "a", "urn:alert", "urn:alert:", "cid:1@x"])
                .as_bytes()
                .to_vec()
        }
        1 => vec![name(random), name(random)],
        _ if urns.is_empty() => vec![b"a".to_vec(), b"b".to_vec()],
        _ => random.pick(&urns).split(|&b| b == b':').map(<[u8]>::to_vec).collect(),
    };
    if random.percent(25) {
        names.truncate(random.between(1, names.len()));
    }
    if random.percent(25) {
        names.extend((0..random.between(1, 3)).map(|_| name(random)));
    }
    if random.percent(3) {
        names.extend((0..9).map(|_| b"p".to_vec()));
    }
    if random.percent(5) {
        let i = random.below(names.len());
        names[i] = if random.percent(50) { bad_name(random) } else { name(random) };
    }
    let mut prefix = b"urn:alert:".to_vec();
    if random.percent(10) {
        for b in &mut prefix {
            if random.percent(50) {
                b.make_ascii_uppercase();
            }
        }
    }
    if random.percent(2) {
        let i = random.below(prefix.len());
        prefix[i] = b'x';
    }
    prefix.extend(names.join(&b':'));
    if random.percent(30) {
        for b in &mut prefix {
            if random.percent(30) {
                b.make_ascii_uppercase();
            }
        }
    }
    prefix.retain(|b| (0x21..0x7F).contains(b));
    prefix
}

fn entries(random: &mut Random, draft: &Draft, count: usize) -> Vec<u8> {
    let mut value = white(random);
    for i in 0..count {
        if i > 0 {
            value.push(b',');
            value.extend(white(random));
        }
        value.push(b'<');
        value.extend(uri(random, draft));
        value.push(b'>');
        value.extend(parameters(random));
        value.extend(white(random));
    }
    value
}

/// A value of exactly so many bytes, by white space, a longer URI or a longer quoted string. Only for a longer one.
fn lengthen(random: &mut Random, value: &mut Vec<u8>, bytes: usize) {
    let missing = bytes.saturating_sub(value.len());
    match random.below(3) {
        0 => value.extend(vec![b' '; missing]),
        1 if missing > 4 => {
            value.extend(b",<");
            value.extend(vec![b'u'; missing - 3]);
            value.push(b'>');
        }
        _ if missing > 6 => {
            value.extend(b";a=\"");
            value.extend(vec![b','; missing - 5]);
            value.push(b'"');
        }
        _ => value.extend(vec![b'\t'; missing]),
    }
}

/// A fold, or a part of one, anywhere.
fn fold(random: &mut Random, value: &mut Vec<u8>) {
    let at = random.below(value.len() + 1);
    let bytes =
        random.pick(&["\r\n ", "\r\n\t", "\r\n", "\r", "\n", "\r ", "\n ", "\r\n\r\n ", "\r\r\n ", "\n\r "]).bytes();
    value.splice(at..at, bytes);
}

/// Mostly a value that fits; sometimes at a limit, one past it, or damaged.
pub fn value(random: &mut Random, draft: &Draft) -> Vec<u8> {
    let count = match random.below(40) {
        0 => random.between(60, 68),
        1 => 64,
        2 => 65,
        3..=8 => random.between(6, 20),
        _ => random.between(1, 6),
    };
    let mut value = entries(random, draft, count);
    match random.below(60) {
        0 => lengthen(random, &mut value, 4096),
        1 => lengthen(random, &mut value, 4097),
        2 => {
            let bytes = random.between(4090, 5000);
            lengthen(random, &mut value, bytes);
        }
        _ => {}
    }
    if random.percent(10) {
        fold(random, &mut value);
    }
    if random.percent(5) {
        let end = random.pick(&["\r\n ", "\r\n", "\r", "\n"]).bytes();
        value.extend(end);
    }
    if random.percent(15) {
        damage(random, &mut value);
    }
    if random.percent(1) {
        value = (0..random.below(40)).map(|_| random.byte()).collect();
    }
    value
}
