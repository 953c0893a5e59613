//! A case that several threads run at once.
use crate::case::Case;
use crate::waits::Waits;
use std::sync::Wait;
use std::sync::atomic::{AtomicBool, AtomicU64, Ordering};
use std::thread::{Scope, Threads};
use std::time::{Clock, Duration, Instant};
use std::{io, sync, thread};

/// What the threads of a case share, and the counts of what they did.
#[derive(Drop)]
pub struct Team<'a, C, R> {
    rt: &'a R,
    case: &'a C,
    /// How many calls a thread makes before it checks again whether to stop.
    chunk: u64,
    most_chunks: u64,
    /// Whether each thread times a call between some of its chunks.
    times_calls: bool,
    /// Whether all threads are started. The thread that starts them holds this lock until then, so that all
    /// begin together.
    complete: sync::Mutex<bool>,
    stop: AtomicBool,
    calls: AtomicU64,
    /// The fewest calls that any thread made.
    fewest: AtomicU64,
    seen: AtomicU64,
    waits: sync::Mutex<Waits>,
}

/// After so many chunks a thread times one call.
const CHUNKS_A_TIMED_CALL: u64 = 4;

impl<'a, C: Case + Sync, R: Threads + Wait + Clock + Sync> Team<'a, C, R> {
    pub fn new(rt: &'a R, case: &'a C, chunk: u64, most_chunks: u64, times_calls: bool) -> Self {
        Team {
            rt,
            case,
            chunk,
            most_chunks,
            times_calls,
            complete: sync::Mutex::new(false),
            stop: AtomicBool::new(false),
            calls: AtomicU64::new(0),
            fewest: AtomicU64::new(u64::MAX),
            seen: AtomicU64::new(0),
            waits: sync::Mutex::new(Waits::new()),
        }
    }

    /// Returns how many calls were made.
    pub fn calls(&self) -> u64 {
        self.calls.load(Ordering::SeqCst)
    }

    /// Returns the fewest calls that any thread made.
    pub fn fewest(&self) -> u64 {
        self.fewest.load(Ordering::SeqCst)
    }

    /// Returns the sum of what the calls read.
    pub fn seen(&self) -> u64 {
        self.seen.load(Ordering::SeqCst)
    }

    /// Returns how many nanoseconds a call took that only one in a thousand exceeds, of the calls that were timed.
    pub fn longest(&self) -> u64 {
        self.waits.lock(self.rt).longest()
    }

    /// Makes one call, and counts how long it took. Returns what it read.
    fn timed_call(&self, worker: usize, waits: &mut Waits) -> u64 {
        let start = Instant::now(self.rt);
        let seen = self.case.repeat(self.rt, worker, 1);
        if let Ok(start) = start {
            if let Ok(time) = start.elapsed(self.rt) {
                let nanos = time.as_secs().wrapping_mul(1_000_000_000);
                waits.add(nanos.wrapping_add(time.subsec_nanos() as u64));
            }
        }
        seen
    }

    /// Does the work of one thread.
    fn work(&self, worker: usize) {
        if !*self.complete.lock(self.rt) {
            return;
        }
        let (mut calls, mut seen, mut waits) = (0u64, 0u64, Waits::new());
        for number in 0..self.most_chunks {
            seen = seen.wrapping_add(self.case.repeat(self.rt, worker, self.chunk));
            calls = calls.wrapping_add(self.chunk);
            if self.times_calls && number % CHUNKS_A_TIMED_CALL == 0 {
                seen = seen.wrapping_add(self.timed_call(worker, &mut waits));
                calls = calls.wrapping_add(1);
            }
            if self.case.is_to_stop(self.rt, &self.stop) {
                break;
            }
        }
        self.calls.fetch_add(calls, Ordering::SeqCst);
        self.fewest.fetch_min(calls, Ordering::SeqCst);
        self.seen.fetch_add(seen, Ordering::SeqCst);
        self.waits.lock(self.rt).merge(&waits);
    }

    /// Starts this many threads. If a start fails, the threads started before do nothing.
    fn start<'s, E>(&'s self, scope: &Scope<'s, E>, threads: usize) -> io::Result<()> {
        let mut complete = self.complete.lock(self.rt);
        for worker in 0..threads {
            scope.spawn(move || self.work(worker))?;
        }
        *complete = true;
        Ok(())
    }

    /// Runs the case in this many threads, tells them to stop after this time, and waits until they have
    /// stopped.
    pub fn run(&self, threads: usize, time: Duration) -> io::Result<()> {
        thread::scope(thread::scope_env(), self.rt, |scope| -> io::Result<()> {
            self.start(scope, threads)?;
            thread::sleep(self.rt, time);
            self.stop.store(true, Ordering::SeqCst);
            Ok(())
        })
    }

    /// Like `run`, and returns how many nanoseconds it took.
    pub fn time(&self, threads: usize, time: Duration) -> io::Result<u128> {
        let start = Instant::now(self.rt)?;
        self.run(threads, time)?;
        Ok(start.elapsed(self.rt)?.as_nanos())
    }
}
