//! Time a call, measured side by side.

use std::time::{Duration, Instant};

/// Many short samples: a busy machine slows all rivals of a round alike, and breaks into few of the rounds.
const ROUNDS: usize = 80;
const SAMPLE: Duration = Duration::from_micros(500);

/// Nanoseconds a call of each rival, round after round.
pub struct Race<const N: usize> {
    rounds: Vec<[f64; N]>,
}

/// Times a call of each rival. The rivals take turns.
pub fn race<const N: usize>(mut rivals: [&mut dyn FnMut(); N]) -> Race<N> {
    let calls = rivals.each_mut().map(|rival| calls_for_a_sample(rival));
    let mut round = || std::array::from_fn(|i| time(rivals[i], calls[i]).as_secs_f64() * 1e9 / f64::from(calls[i]));
    Race { rounds: (0..ROUNDS).map(|_| round()).collect() }
}

impl<const N: usize> Race<N> {
    /// The least time of a rival: what it takes where nothing comes between.
    pub fn least(&self, rival: usize) -> f64 {
        self.rounds.iter().map(|times| times[rival]).fold(f64::INFINITY, f64::min)
    }

    /// How many times as long as another one a rival takes.
    pub fn ratio(&self, rival: usize, other: usize) -> f64 {
        self.median(|times| times[rival] / times[other])
    }

    /// The median over the rounds of a figure of their times.
    pub fn median(&self, figure: impl Fn(&[f64; N]) -> f64) -> f64 {
        let mut figures: Vec<f64> = self.rounds.iter().map(figure).collect();
        figures.sort_by(f64::total_cmp);
        figures[figures.len() / 2]
    }
}

fn time(call: &mut dyn FnMut(), calls: u32) -> Duration {
    let began = Instant::now();
    for _ in 0..calls {
        call();
    }
    began.elapsed()
}

/// How many calls take about as long as a sample should.
fn calls_for_a_sample(call: &mut dyn FnMut()) -> u32 {
    let mut calls = 1;
    while time(call, calls) < SAMPLE {
        calls *= 2;
    }
    calls
}
