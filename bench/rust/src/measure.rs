//! Rounds of calls, and what they took.
use std::sync::atomic::{AtomicBool, Ordering::SeqCst};
use std::sync::Mutex;
use std::thread;
use std::time::{Duration, Instant};

use crate::case::{Case, Work};

const ROUNDS: usize = 3;
// How long a round of up to eight threads is. It takes longer for each so many threads, so that each has a processor for
// several slices of the system's.
const ROUND: Duration = Duration::from_millis(100);
const THREADS_A_ROUND: u64 = 8;
// How many calls lie between two looks at the sign to stop. Of a thread that is alone they are so many that the looks
// cost nothing; among others each call is slow enough, and a queue that the system has stopped still ends soon.
const CHUNK_ALONE: u64 = 1000;
const CHUNK_AMONG_OTHERS: u64 = 25;
// A thread among others times one call after so many chunks.
const CHUNKS_A_TIMED_CALL: u64 = 4;

// A lock at the start of a cache line, alone on it. Where a run's stack happens to put the flag and the value on two
// lines, a call is some 2 ns faster.
#[repr(align(64))]
struct OnALine<C>(C);

/// What threads did: how many calls they made, the sum of what these saw, the calls of the thread that made the fewest,
/// and how long the timed ones took.
struct Works {
    calls: u64,
    seen: u64,
    fewest: u64,
    nanos: Vec<u64>,
}

impl Works {
    fn none() -> Works {
        Works {
            calls: 0,
            seen: 0,
            fewest: u64::MAX,
            nanos: Vec::new(),
        }
    }

    fn and(mut self, other: Works) -> Works {
        self.calls += other.calls;
        self.seen = self.seen.wrapping_add(other.seen);
        self.fewest = self.fewest.min(other.fewest);
        self.nanos.extend(other.nanos);
        self
    }

    // The nanoseconds that one timed call in a thousand exceeds, or those of the longest one of fewer; 0 where none was timed.
    fn longest(&mut self) -> u64 {
        self.nanos.sort_unstable();
        let last = self.nanos.len() - self.nanos.len() / 1000;
        last.checked_sub(1).map_or(0, |it| self.nanos[it])
    }
}

// The loop that is measured, alone in its function.
#[inline(never)]
fn repeat<C: Case>(case: &C, worker: u64, calls: u64) -> u64 {
    let mut seen: u64 = 0;
    for _ in 0..calls {
        seen = seen.wrapping_add(case.call(worker));
    }
    seen
}

// One thread's calls until it is to stop.
fn until_told<C: Case>(case: &C, worker: u64, threads: u64, told: &AtomicBool) -> Works {
    let mut works = Works::none();
    let alone = threads == 1;
    let chunk = if alone {
        CHUNK_ALONE
    } else {
        CHUNK_AMONG_OTHERS
    };
    works.nanos.reserve(if alone { 0 } else { 1 << 16 });
    for number in 0u64.. {
        if case.is_to_stop(told) {
            break;
        }
        works.seen = works.seen.wrapping_add(repeat(case, worker, chunk));
        works.calls += chunk;
        if !alone && number % CHUNKS_A_TIMED_CALL == 0 {
            let start = Instant::now();
            works.seen = works.seen.wrapping_add(repeat(case, worker, 1));
            works.nanos.push(start.elapsed().as_nanos() as u64);
            works.calls += 1;
        }
    }
    works.fewest = works.calls;
    works
}

// Does the work in so many threads, and tells them to stop after some time. None begins before all are there, and none at
// all where one is refused, since the others might wait for it.
fn among<C: Case>(case: &C, threads: u64, told: &AtomicBool) -> Works {
    let gate = &Mutex::new(());
    let begin = &|worker| {
        // Where a thread was refused, who starts them has panicked under the lock.
        let refused = gate.lock().is_err();
        if refused {
            Works::none()
        } else {
            until_told(case, worker, threads, told)
        }
    };
    thread::scope(|scope| {
        let closed = gate.lock();
        let workers: Vec<_> = (0..threads)
            .map(|worker| scope.spawn(move || begin(worker)))
            .collect();
        drop(closed);
        thread::sleep(ROUND * threads.div_ceil(THREADS_A_ROUND) as u32);
        told.store(true, SeqCst);
        workers
            .into_iter()
            .map(|worker| worker.join().expect("no call panics"))
            .fold(Works::none(), Works::and)
    })
}

// One round, of which a line tells how many calls there were, how many nanoseconds they took, how many of them the thread
// made that made the fewest, and how long a long one took. It answers what they saw.
fn round<C: Case>(case: &C, threads: u64) -> u64 {
    let OnALine(told) = &OnALine(AtomicBool::new(false));
    let start = Instant::now();
    let mut works = among(case, threads, told);
    let nanos = start.elapsed().as_nanos();
    let longest = works.longest();
    println!("{} {nanos} {} {longest}", works.calls, works.fewest);
    works.seen
}

/// Measures several rounds under one new lock. It answers what was seen in all, together with what is left at the end: the
/// number of calls, where each did what it had to.
pub fn measure<C: Case>(threads: u64, work: Work) -> u64 {
    let OnALine(case) = &OnALine(C::of(threads, work));
    let seen = (0..ROUNDS).fold(0, |seen: u64, _| seen.wrapping_add(round(case, threads)));
    case.added().wrapping_add(seen)
}
