// A plain Rust reader of Alert-Info values, to compare with: one pass, no allocation. It is written once over the byte
// rules, which come as plain tests (`Tests`) or as a table of classes (`Table`).
use std::marker::PhantomData;

pub trait Rules {
    fn blank(b: u8) -> bool;
    fn uri(b: u8) -> bool;
    fn token(b: u8) -> bool;
    fn text(b: u8) -> bool;
    fn escapable(b: u8) -> bool;
}

pub struct Tests;

impl Rules for Tests {
    fn blank(b: u8) -> bool {
        matches!(b, b' ' | b'\t')
    }
    fn uri(b: u8) -> bool {
        matches!(b, 0x21..=0x7e) && !matches!(b, b'<' | b'>' | b'"')
    }
    fn token(b: u8) -> bool {
        b.is_ascii_alphanumeric()
            || matches!(b, b'-' | b'.' | b'!' | b'%' | b'*' | b'_' | b'+' | b'`' | b'\'' | b'~')
    }
    fn text(b: u8) -> bool {
        matches!(b, 9 | 32..=126 | 128..=255) && !matches!(b, b'"' | b'\\')
    }
    fn escapable(b: u8) -> bool {
        b <= 127 && b != 10 && b != 13
    }
}

pub struct Table;

const fn classes_of(b: u8) -> u8 {
    let blank = matches!(b, b' ' | b'\t');
    let uri = matches!(b, 0x21..=0x7e) && !matches!(b, b'<' | b'>' | b'"');
    let token = b.is_ascii_alphanumeric()
        || matches!(b, b'-' | b'.' | b'!' | b'%' | b'*' | b'_' | b'+' | b'`' | b'\'' | b'~');
    let text = matches!(b, 9 | 32..=126 | 128..=255) && !matches!(b, b'"' | b'\\');
    let escapable = b <= 127 && b != 10 && b != 13;
    blank as u8 | (uri as u8) << 1 | (token as u8) << 2 | (text as u8) << 3 | (escapable as u8) << 4
}

static CLASSES: [u8; 256] = {
    let mut t = [0; 256];
    let mut i = 0;
    while i < 256 {
        t[i] = classes_of(i as u8);
        i += 1;
    }
    t
};

impl Rules for Table {
    fn blank(b: u8) -> bool {
        CLASSES[b as usize] & 1 != 0
    }
    fn uri(b: u8) -> bool {
        CLASSES[b as usize] & 2 != 0
    }
    fn token(b: u8) -> bool {
        CLASSES[b as usize] & 4 != 0
    }
    fn text(b: u8) -> bool {
        CLASSES[b as usize] & 8 != 0
    }
    fn escapable(b: u8) -> bool {
        CLASSES[b as usize] & 16 != 0
    }
}

struct Reader<'a, R> {
    s: &'a [u8],
    at: usize,
    rules: PhantomData<R>,
}

impl<'a, R: Rules> Reader<'a, R> {
    fn peek(&self) -> Option<u8> {
        self.s.get(self.at).copied()
    }

    fn eat(&mut self, b: u8) -> bool {
        let found = self.peek() == Some(b);
        self.at += found as usize;
        found
    }

    // The bytes from here on that pass a test.
    #[inline(always)]
    fn run(&mut self, test: impl Fn(u8) -> bool) -> &'a [u8] {
        let rest = &self.s[self.at..];
        let n = rest.iter().position(|&b| !test(b)).unwrap_or(rest.len());
        self.at += n;
        &rest[..n]
    }

    // Blanks, and folds: CR, LF and a blank.
    fn white(&mut self) {
        self.run(R::blank);
        while let [b'\r', b'\n', b' ' | b'\t', ..] = self.s[self.at..] {
            self.at += 3;
            self.run(R::blank);
        }
    }

    fn token(&mut self) -> Option<()> {
        (!self.run(R::token).is_empty()).then_some(())
    }

    fn quoted(&mut self) -> Option<()> {
        self.at += 1;
        loop {
            let b = self.peek()?;
            self.at += 1;
            match b {
                b'"' => return Some(()),
                b'\\' => {
                    if !R::escapable(self.peek()?) {
                        return None;
                    }
                    self.at += 1;
                }
                _ if R::text(b) => {}
                _ => return None,
            }
        }
    }

    fn param(&mut self) -> Option<()> {
        self.white();
        self.token()?;
        self.white();
        if self.eat(b'=') {
            self.white();
            if self.peek() == Some(b'"') {
                self.quoted()?;
            } else {
                self.token()?;
            }
            self.white();
        }
        Some(())
    }

    fn entry(&mut self) -> Option<&'a [u8]> {
        self.white();
        if !self.eat(b'<') {
            return None;
        }
        let uri = self.run(R::uri);
        if uri.is_empty() || !self.eat(b'>') {
            return None;
        }
        self.white();
        while self.eat(b';') {
            self.param()?;
        }
        Some(uri)
    }
}

// The refusal number and the number of entries.
fn read<R: Rules>(v: &[u8]) -> (u8, usize) {
    if v.len() > 4096 {
        return (1, 0);
    }
    let mut r = Reader::<R> { s: v, at: 0, rules: PhantomData };
    let mut entries = 0;
    loop {
        if r.entry().is_none() {
            return (2, 0);
        }
        entries += 1;
        if r.at == v.len() {
            break;
        }
        if !r.eat(b',') {
            return (2, 0);
        }
    }
    if entries > 64 { (3, 0) } else { (0, entries) }
}

pub fn refusal<R: Rules>(v: &[u8]) -> u8 {
    read::<R>(v).0
}

pub fn entries<R: Rules>(v: &[u8]) -> usize {
    read::<R>(v).1
}
