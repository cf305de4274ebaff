// Best times, and ratios of them.
use std::fmt;
use std::hint::black_box;
use std::time::Instant;

// The least time that something took.
#[derive(Clone, Copy)]
pub struct Best(f64);

impl Best {
    pub fn none() -> Best {
        Best(f64::MAX)
    }

    pub fn time<T>(&mut self, f: impl FnOnce() -> T) -> T {
        let start = Instant::now();
        let value = black_box(f());
        self.0 = self.0.min(start.elapsed().as_secs_f64());
        value
    }

    pub fn micros(self) -> f64 {
        self.0 * 1e6
    }

    pub fn over(self, other: Best) -> f64 {
        self.0 / other.0
    }
}

// Ratios to the original: their median and the worst.
#[derive(Default)]
pub struct Ratios(pub Vec<f64>);

impl fmt::Display for Ratios {
    fn fmt(&self, f: &mut fmt::Formatter) -> fmt::Result {
        let mut sorted = self.0.clone();
        sorted.sort_by(f64::total_cmp);
        match sorted.last() {
            Some(worst) => write!(f, "median {:.2}, worst {worst:.2}", sorted[sorted.len() / 2]),
            None => write!(f, "none"),
        }
    }
}
