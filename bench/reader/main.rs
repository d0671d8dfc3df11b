// Times the proved reader against plain Rust ones, side by side, on the same values in one run. In brackets: the proved
// reader's time by the other's.
// Before the timing both read many values, good and damaged, and have to agree on each.
use std::hint::black_box;
use std::time::Instant;

mod plain;
use plain::{Table, Tests};

mod proved {
    extern "C" {
        fn alert_info_refusal(value: *const u8, len: usize) -> u8;
        fn alert_info_entries(value: *const u8, len: usize) -> usize;
    }
    pub fn refusal(v: &[u8]) -> u8 {
        unsafe { alert_info_refusal(v.as_ptr(), v.len()) }
    }
    pub fn entries(v: &[u8]) -> usize {
        unsafe { alert_info_entries(v.as_ptr(), v.len()) }
    }
}

// Nanoseconds a call, over enough calls to take some milliseconds.
fn time(v: &[u8], f: fn(&[u8]) -> u64) -> f64 {
    let calls = 2_000_000 / (v.len() + 20);
    let start = Instant::now();
    for _ in 0..calls {
        black_box(f(black_box(v)));
    }
    start.elapsed().as_nanos() as f64 / calls as f64
}

// The best of several runs of each reader, turn by turn. True if the proved one is no slower than the plain one.
fn compare(name: &str, v: &[u8]) -> bool {
    type Read = fn(&[u8]) -> u64;
    let questions: [(&str, [Read; 3]); 2] = [
        ("refusal", [|v| proved::refusal(v) as u64, |v| plain::refusal::<Tests>(v) as u64, |v| plain::refusal::<Table>(v) as u64]),
        ("entries", [|v| proved::entries(v) as u64, |v| plain::entries::<Tests>(v) as u64, |v| plain::entries::<Table>(v) as u64]),
    ];
    let mut kept = true;
    for (question, readers) in questions {
        let mut best = [f64::MAX; 3];
        for _ in 0..60 {
            for (b, f) in best.iter_mut().zip(readers) {
                *b = b.min(time(v, f));
            }
        }
        println!(
            "{name:<26}{:>5} bytes {question}  proved {:>7.1} ns  Rust, byte tests {:>7.1} ns ({:.2})  Rust, class table {:>7.1} ns ({:.2})",
            v.len(),
            best[0],
            best[1],
            best[0] / best[1],
            best[2],
            best[0] / best[2],
        );
        kept &= best[0] <= best[1];
    }
    kept
}

// Entries with a folded line after each comma, beside the same with the lines joined: the proved reader's time by its own.
fn fold(name: &str, entries: &[&str]) -> bool {
    let joined = entries.join(", ").into_bytes();
    let folded = entries.join(",\r\n ").into_bytes();
    assert_eq!(proved::entries(&folded), entries.len());
    let mut best = [f64::MAX; 2];
    for _ in 0..60 {
        for (b, v) in best.iter_mut().zip([&joined, &folded]) {
            *b = b.min(time(v, |v| proved::refusal(v) as u64));
        }
    }
    println!("{name:<26}{:>5} bytes refusal  joined {:>7.1} ns  folded {:>7.1} ns ({:.2})", folded.len(), best[0], best[1], best[1] / best[0]);
    best[1] <= 1.3 * best[0]
}

fn agree(v: &[u8]) {
    for (refusal, entries) in [
        (plain::refusal::<Tests>(v), plain::entries::<Tests>(v)),
        (plain::refusal::<Table>(v), plain::entries::<Table>(v)),
    ] {
        assert_eq!(proved::refusal(v), refusal, "refusal of {v:?}");
        assert_eq!(proved::entries(v), entries, "entries of {v:?}");
    }
}

// Values of the pieces that matter, each then damaged in one byte.
fn agree_on_many(rounds: usize) {
    let pieces: [&[u8]; 24] = [
        b"<a>", b"<urn:alert:source:internal>", b"<http://www.example.com/sounds/moo.wav>", b",", b", ", b" ,\t", b";",
        b" ; ", b"x", b"name", b"=", b" = ", b"\"\"", b"\"1,2\"", b"\"q\\\"\\\\\"", b" ", b"\t", b"<", b">", b"\"",
        b"\r\n ", b"\r\n\t", b"\r", b"\n",
    ];
    let mut seed: u64 = 1;
    let mut draw = |n: usize| {
        seed = seed.wrapping_mul(6364136223846793005).wrapping_add(1442695040888963407);
        (seed >> 33) as usize % n
    };
    for _ in 0..rounds {
        let mut v: Vec<u8> = Vec::new();
        for _ in 0..draw(6) {
            v.extend_from_slice(b"<urn:alert:priority:high>");
            for _ in 0..draw(3) {
                v.extend_from_slice(b";p=\"a,b\"");
            }
            v.extend_from_slice(b", ");
        }
        for _ in 0..draw(12) {
            v.extend_from_slice(pieces[draw(pieces.len())]);
        }
        agree(&v);
        v.extend_from_slice(b"<b>");
        agree(&v);
        let i = draw(v.len());
        v[i] = draw(256) as u8;
        agree(&v);
    }
}

fn main() {
    agree_on_many(400_000);
    let three = b"<urn:alert:source:internal>;appearance=2, <urn:alert:priority:high>;x=\"a,b\";y , <http://www.example.com/sounds/moo.wav>;q = 1";
    let mut long: Vec<u8> = Vec::new();
    while long.len() + 64 <= 4096 {
        if !long.is_empty() {
            long.extend_from_slice(b", ");
        }
        long.extend_from_slice(b"<urn:alert:service:recall:callback@example>;note=\"now, please\"");
    }
    let mut quoted = b"<urn:alert:source:internal>;text=\"".to_vec();
    while quoted.len() < 4095 {
        quoted.push(b'a' + (quoted.len() % 26) as u8);
    }
    quoted.push(b'"');
    let escapes = [b"<a>;x=\"".as_slice(), &b"\\,".repeat(2044), b"\""].concat();
    let mut blank = vec![b' '; 4000];
    blank.extend_from_slice(b"<urn:alert:source:internal>");
    let uri = [b"<".as_slice(), &vec![b'u'; 4094], b">"].concat();
    let mut kept = true;
    kept &= compare("one entry", b"<urn:alert:source:internal>");
    kept &= compare("three entries, parameters", three);
    kept &= compare("64 entries, parameters", &long);
    kept &= compare("one long quoted string", &quoted);
    kept &= compare("only escaped bytes", &escapes);
    kept &= compare("one long URI", &uri);
    kept &= compare("much white space", &blank);
    let few = ["<urn:alert:source:internal>;appearance=2", "<urn:alert:priority:high>;x=\"a,b\";y", "<http://www.example.com/sounds/moo.wav>;q = 1"];
    let many = vec!["<urn:alert:service:recall:callback@example>;a=\"1\""; 64];
    let short = vec!["<a>"; 64];
    let close = fold("three entries, folded", &few) & fold("64 entries, folded", &many) & fold("64 short entries, folded", &short);
    println!("{}", if close { "folded nowhere slower than 1.3 of joined" } else { "folded slower than 1.3 of joined somewhere" });
    let folds = [b"\r\n ".repeat(1356).as_slice(), b"<urn:alert:source:internal>"].concat();
    kept &= compare("much folded white space", &folds);
    println!("{}", if kept { "nowhere slower than the plain reader with byte tests" } else { "slower somewhere than the plain reader with byte tests" });
}
