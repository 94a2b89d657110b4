//! A progress bar on standard error, where that is a terminal and standard output is none.
use std::io::{self, IsTerminal, Write};
use std::time::{Duration, Instant};

/// Columns of the bar itself.
const WIDTH: u64 = 30;

/// How often the bar is drawn at most.
const PAUSE: Duration = Duration::from_millis(100);

/// Frames between two looks at the clock.
const STRIDE: u64 = 64;

/// The bar, and the time that the frames take.
pub struct Progress {
    start: Instant,
    drawn: Option<Instant>,
    expected: Option<u64>,
    shown: bool,
}

impl Progress {
    /// Starts the clock; so many frames are expected, where that is known.
    pub fn new(expected: Option<u64>) -> Progress {
        let shown = io::stderr().is_terminal() && !io::stdout().is_terminal();
        Progress { start: Instant::now(), drawn: None, expected, shown }
    }

    /// So many frames are through.
    pub fn at(&mut self, frames: u64) {
        if self.shown && frames.is_multiple_of(STRIDE) && self.drawn.is_none_or(|last| last.elapsed() >= PAUSE) {
            self.drawn = Some(Instant::now());
            let _ = write!(io::stderr(), "\r{}\x1b[K", self.line(frames));
        }
    }

    /// Takes the bar away.
    pub fn clear(&self) {
        if self.drawn.is_some() {
            let _ = write!(io::stderr(), "\r\x1b[K");
        }
    }

    /// How long it took, and how many frames a second that is.
    pub fn speed(&self, frames: u64) -> String {
        let time = self.start.elapsed();
        format!("{:.2} s, {} frames a second", time.as_secs_f64(), rate(frames, time))
    }

    fn line(&self, frames: u64) -> String {
        let speed = rate(frames, self.start.elapsed());
        match self.expected {
            Some(all) if all > 0 => {
                let full = usize::try_from(WIDTH.saturating_mul(frames.min(all)) / all).unwrap_or(0);
                let bar = "#".repeat(full) + &" ".repeat(usize::try_from(WIDTH).unwrap_or(full) - full);
                format!("[{bar}] {frames} of {all} frames, {speed} a second")
            }
            _ => format!("{frames} frames, {speed} a second"),
        }
    }
}

/// Frames a second, rounded down.
fn rate(frames: u64, time: Duration) -> u64 {
    let micros = u64::try_from(time.as_micros()).unwrap_or(u64::MAX).max(1);
    frames.saturating_mul(1_000_000) / micros
}
