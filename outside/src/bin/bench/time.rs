//! The time of one call.
use crate::Call;
use std::time::{Duration, Instant};

/// A call with what it needs to be timed.
struct Timed<'a> {
    call: &'a Call<'a>,
    buffer: Vec<u8>,
    /// How many calls make a run: about a quarter of a millisecond.
    calls: u32,
    best: f64,
}

impl<'a> Timed<'a> {
    fn new(call: &'a Call<'a>) -> Timed<'a> {
        let mut timed = Timed { call, buffer: vec![0; 35_459], calls: 1, best: f64::INFINITY };
        while timed.time() < Duration::from_micros(250) && timed.calls < 1 << 24 {
            timed.calls *= 2;
        }
        timed
    }

    fn time(&mut self) -> Duration {
        let start = Instant::now();
        for _ in 0..self.calls {
            (self.call)(&mut self.buffer);
        }
        start.elapsed()
    }

    fn run(&mut self) {
        let nanoseconds = self.time().as_secs_f64() * 1e9 / self.calls as f64;
        self.best = self.best.min(nanoseconds);
    }
}

/// The best nanoseconds of each, the two taking turns.
pub fn best<'a>(ours: Option<&'a Call<'a>>, baseline: &'a Call<'a>, runs: usize) -> (Option<f64>, f64) {
    let mut ours = ours.map(Timed::new);
    let mut baseline = Timed::new(baseline);
    for _ in 0..runs {
        if let Some(ours) = &mut ours {
            ours.run();
        }
        baseline.run();
    }
    (ours.map(|timed| timed.best), baseline.best)
}

pub fn show(nanoseconds: f64) -> String {
    if nanoseconds < 1000.0 {
        format!("{nanoseconds:.0} ns")
    } else {
        format!("{:.1} µs", nanoseconds / 1000.0)
    }
}

/// Calls for a quarter of a second, so that the processor runs at its speed.
pub fn warm_up(call: &Call) {
    let start = Instant::now();
    let mut buffer = vec![0; 35_459];
    while start.elapsed() < Duration::from_millis(250) {
        call(&mut buffer);
    }
}
