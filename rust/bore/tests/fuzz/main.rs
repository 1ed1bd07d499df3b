//! A random call for every seed: any of the library's functions, with pointers
//! to memory between guard pages and with arguments of every kind, beside the
//! reference and the model of the cells. Number, answers and the memory around
//! them are compared, and how often each call returns each number is counted.
//!
//! The environment sets the run: BORE_CALLS is the number of calls, BORE_SEED
//! the seed of the first; each call has the next seed.

#[path = "../common/mod.rs"]
mod common;

mod calls_filter;
mod calls_greys;
mod calls_jobs;
mod calls_ladder;
mod calls_stream;
mod calls_sums;
mod draw;
mod trial;

use reference::random::Random;
use std::io::Write;
use std::ops::Range;
use std::sync::atomic::{AtomicU64, Ordering::Relaxed};
use std::thread;
use std::time::Instant;
use trial::Trial;

/// The calls when BORE_CALLS is not set. A run of so many or more has to meet
/// every number, and one of more is split over the processors.
const CALLS: u64 = 100_000;

/// The calls that a thread makes before it takes further ones.
const SHARE: u64 = 10_000;

/// The calls after which a long run shows how far it is.
const SHOWN: u64 = 500_000;

/// Counted in place of 0 where two recipes are the same.
const SAME: u8 = 17;

/// A function of the library: its name, what calls it with random arguments and
/// returns its number, and all numbers that it can return by documents 01 and 02.
struct Function(&'static str, fn(&mut Trial) -> u8, &'static [u8]);

#[rustfmt::skip]
const FUNCTIONS: [Function; 22] = [
    Function("bore_check", calls_filter::check, &[0, 1, 2, 3, 4]),
    Function("bore_kernel", calls_filter::kernel, &[0, 1, 2, 3, 4, 7]),
    Function("bore_full_size", calls_filter::full_size, &[0, 1, 2, 3, 4, 5]),
    Function("bore_stream_cells", calls_filter::stream_cells, &[0, 1, 2, 3, 4, 5]),
    Function("bore_moments", calls_filter::moments, &[0, 1, 2, 3, 4]),
    Function("bore_equivalent", calls_filter::equivalent, &[0, SAME, 1, 2, 3, 4]),
    Function("bore_direct", calls_sums::direct, &[0, 1, 2, 3, 4, 5, 6, 7]),
    Function("bore_passes", calls_sums::passes, &[0, 1, 2, 3, 4, 5, 6, 7, 8]),
    Function("bore_ladder_rows", calls_ladder::ladder_rows, &[0, 5, 6, 7, 8, 16]),
    Function("bore_ladder_both", calls_ladder::ladder_both, &[0, 4, 5, 6, 7, 8, 16]),
    Function("bore_start", calls_stream::start, &[0, 1, 2, 3, 4, 5, 8]),
    Function("bore_push", calls_stream::push, &[0, 6, 7, 8, 9, 10]),
    Function("bore_drain", calls_stream::drain, &[0, 7, 8, 9, 10]),
    Function("bore_round", calls_greys::round, &[0, 1, 2, 3, 4, 7, 11]),
    Function("bore_blur", calls_greys::blur, &[0, 1, 2, 3, 4, 5, 6, 7, 8]),
    Function("bore_difference", calls_greys::difference, &[0, 1, 2, 3, 4, 5, 6, 7, 8, 12, 13]),
    Function("bore_sample_gray", calls_greys::sample_gray, &[0, 1, 2, 3, 4, 5, 6, 15]),
    Function("bore_sample_sum", calls_greys::sample_sum, &[0, 1, 2, 3, 4, 5, 6, 15]),
    Function("bore_sample_mean", calls_greys::sample_mean, &[0, 1, 2, 3, 4, 5, 6, 15]),
    Function("bore_read_job", calls_jobs::read_job, &[0, 1, 2, 3, 4, 5, 14]),
    Function("bore_job_size", calls_jobs::job_size, &[0, 1, 2, 3, 4, 5]),
    Function("bore_write_job", calls_jobs::write_job, &[0, 1, 2, 3, 4, 5, 6, 7]),
];

/// The calls of so many seeds, made by one thread or several.
struct Run {
    first: u64,
    calls: u64,
    /// How many of the calls the threads have taken.
    taken: AtomicU64,
    /// How often each function returned each number.
    met: [[AtomicU64; SAME as usize + 1]; FUNCTIONS.len()],
    began: Instant,
}

/// Lets the other threads end when one fails.
struct Stop<'a>(&'a Run);

impl Drop for Stop<'_> {
    fn drop(&mut self) {
        if thread::panicking() {
            self.0.taken.store(self.0.calls, Relaxed);
        }
    }
}

impl Run {
    fn new(first: u64, calls: u64) -> Run {
        Run {
            first,
            calls,
            taken: AtomicU64::new(0),
            met: Default::default(),
            began: Instant::now(),
        }
    }

    /// Takes calls and makes them until all are taken.
    fn work(&self) {
        let _stop = Stop(self);
        let mut trial = Trial::new();
        loop {
            let taken = self.taken.fetch_add(SHARE, Relaxed);
            if taken >= self.calls {
                return;
            }
            let end = self.calls.min(taken + SHARE);
            self.show(taken);
            self.make_calls(&mut trial, self.first + taken..self.first + end);
        }
    }

    /// Makes the call of each seed.
    fn make_calls(&self, trial: &mut Trial, seeds: Range<u64>) {
        for seed in seeds.clone() {
            let mut random = Random::new(seed);
            let place = random.between(0, FUNCTIONS.len() - 1);
            let Function(name, call, _) = &FUNCTIONS[place];
            let _shown = common::Seed(seed);
            trial.begin(name, seed, random);
            let number = call(trial);
            self.met[place][usize::from(number)].fetch_add(1, Relaxed);
        }
        assert!(trial.is_clean(), "bytes far from what was lent, {seeds:?}");
    }

    /// Shows how far a long run is, past the capture of a test's output, so that
    /// it is seen even if the process ends.
    fn show(&self, taken: u64) {
        if self.calls > CALLS && taken.is_multiple_of(SHOWN) {
            let seconds = self.began.elapsed().as_secs();
            let seed = self.first + taken;
            writeln!(std::io::stderr(), "{seconds} s: seed {seed}").ok();
        }
    }

    /// Prints how often each function returned each number.
    fn print(&self, threads: usize) {
        for (Function(name, _, numbers), counts) in FUNCTIONS.iter().zip(&self.met) {
            print!("{name:<17}");
            for &number in *numbers {
                let count = counts[usize::from(number)].load(Relaxed);
                match number {
                    SAME => print!("  same: {count}"),
                    _ => print!("  {number}: {count}"),
                }
            }
            println!();
        }
        let seconds = self.began.elapsed().as_secs_f64();
        let Run { calls, first, .. } = self;
        println!("{calls} calls from seed {first}, {threads} threads, {seconds:.1} s");
    }

    /// No function may return a number that it cannot return. Every other one
    /// has to be met in one of 10,000 calls or more.
    fn has_to_be_complete(&self) {
        let least = self.calls / 10_000;
        for (Function(name, _, numbers), counts) in FUNCTIONS.iter().zip(&self.met) {
            for (number, count) in (0..).zip(counts) {
                let count = count.load(Relaxed);
                let right = match numbers.contains(&number) {
                    true => count >= least || self.calls < CALLS,
                    false => count == 0,
                };
                assert!(right, "{name} returned {number} {count} times");
            }
        }
    }
}

#[test]
fn every_call_agrees() {
    let first = common::set_number("BORE_SEED").unwrap_or(0);
    let calls = common::set_number("BORE_CALLS").unwrap_or(CALLS);
    let threads = match calls {
        0..=CALLS => 1,
        _ => thread::available_parallelism().map_or(1, usize::from),
    };
    trial::name_faults();
    let run = Run::new(first, calls);
    thread::scope(|scope| {
        for _ in 0..threads {
            scope.spawn(|| run.work());
        }
    });
    run.print(threads);
    run.has_to_be_complete();
}
