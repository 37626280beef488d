//! How long each kind of work takes each peer.

use lsh_ref::Word;
use std::hint::black_box;
use std::time::{Duration, Instant};

/// What is timed at one word size: a kind of work by a peer. The tables show both by these names.
#[derive(Clone, Copy, PartialEq)]
pub struct Task {
    pub peer: &'static str,
    pub work: &'static str,
}

type Run = Box<dyn FnMut(&[u8], &mut [u8])>;

/// A task, and the shortest time that it took over its input.
pub struct Timing<'a> {
    w: usize,
    task: Task,
    input: &'a [u8],
    /// Lent to the run, all zeros each time.
    memory: Vec<u8>,
    run: Run,
    best: Duration,
}

impl<'a> Timing<'a> {
    pub fn new<W: Word>(task: Task, input: &'a [u8], mut run: impl FnMut(&[u8]) + 'static) -> Timing<'a> {
        Timing::with_memory::<W>(task, input, 0, move |input, _| run(input))
    }

    /// The run is also lent so many zeros, which are made before the time is taken.
    pub fn with_memory<W: Word>(
        task: Task,
        input: &'a [u8],
        size: usize,
        run: impl FnMut(&[u8], &mut [u8]) + 'static,
    ) -> Timing<'a> {
        Timing { w: W::BITS, task, input, memory: vec![0; size], run: Box::new(run), best: Duration::MAX }
    }

    pub fn time(&mut self) {
        self.memory.fill(0);
        let start = Instant::now();
        (self.run)(black_box(self.input), black_box(&mut self.memory));
        self.best = self.best.min(start.elapsed());
    }

    /// In MB/s, an MB being 10^6 bytes.
    fn rate(&self) -> f64 {
        self.input.len() as f64 / 1e6 / self.best.as_secs_f64()
    }
}

/// How many places the rounds begin at in turn.
const PLACES: usize = 256;

/// Runs a round with its stack moved. The same code was some percent faster or slower from process to process, which
/// moving the stack evens out: by where a stack frame begins within a page, it seems. A frame of `moved` has some
/// multiple of 16 bytes, so the rounds go through many places of a page, and the best time is that of the best place for
/// every task.
pub fn run_moved(round: usize, run: &mut dyn FnMut()) {
    moved(round % PLACES, run);
}

#[inline(never)]
fn moved(frames: usize, run: &mut dyn FnMut()) {
    if frames == 0 {
        run();
    } else {
        moved(frames - 1, run);
    }
    black_box(frames); // so that the frame is there during the run
}

/// The rates reached, in the order of the timings.
pub struct Rates {
    rates: Vec<(usize, Task, f64)>,
}

impl Rates {
    pub fn of(timings: &[Timing]) -> Rates {
        Rates { rates: timings.iter().map(|timing| (timing.w, timing.task, timing.rate())).collect() }
    }

    /// Nothing where the task was not timed.
    pub fn rate(&self, w: usize, task: Task) -> Option<f64> {
        self.rates.iter().find(|timed| (timed.0, timed.1) == (w, task)).map(|timed| timed.2)
    }

    pub fn ratio(&self, w: usize, task: Task, to: Task) -> Option<f64> {
        Some(self.rate(w, task)? / self.rate(w, to)?)
    }

    /// The word sizes and the peers that a kind of work was timed with.
    pub fn peers_of<'r>(&'r self, work: &'r str) -> impl Iterator<Item = (usize, &'static str)> + 'r {
        self.rates.iter().filter(move |timed| timed.1.work == work).map(|timed| (timed.0, timed.1.peer))
    }
}
