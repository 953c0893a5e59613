//! What the program does and prints.
use crate::case::{
    Adds, Alone, Case, EventAdds, FirstCalls, Floor, Forces, Gets, LateCalls, OneWriter, PassAdds,
    PassReaders, Readers, Rounds, Starvers, Upgrades, Work, Works, complete,
};
use crate::channels::{self, Ends, Line, Messages, Queue, StdQueue};
use crate::team::Team;
use spin_barrier::barrier::Barrier;
use spin_channel::{bounded, unbounded};
use spin_core::relax::{Yield, YieldThenSleep};
use spin_fair::fair::FairMutex;
use spin_flag::spin::SpinMutex;
use spin_mutex::mutex::Mutex;
use spin_mutex::ticket::TicketMutex;
use spin_rwlock::rwlock::RwLock;
use std::sync::Wait;
use std::thread::Threads;
use std::time::{Clock, Duration};
use std::{io, sync};

/// How many rounds are measured.
const ROUNDS: usize = 3;

/// How long one round of up to eight threads is, in milliseconds.
const ROUND_MILLIS: u64 = 100;

/// A round takes longer for each so many threads, so that each has a processor for several slices of the system's.
const THREADS_A_ROUND: u64 = 8;

/// How many messages go through a channel in a round, and through one with room for a single message.
const MESSAGES: u64 = 200_000;
const MESSAGES_ONE_BY_ONE: u64 = 20_000;

/// For how many messages a bounded channel has room, unless its name ends with `_one`.
const CAPACITY: usize = 64;

/// A block of memory has room for this many cases, but contains only one. The allocator begins so large a block 16
/// bytes after the beginning of a page. So no lock crosses a cache line. The Rust driver aligns each case to a cache
/// line.
const BLOCK: usize = 32_768;

/// The cases of one thread only.
const ALONE: [&str; 6] = [
    "fair_starve",
    "rw_upgrade",
    "once_call",
    "once_first",
    "lazy_force",
    "barrier_alone",
];

/// The cases of one thread or several, except `barrier_rounds`.
const BESIDE: [&str; 16] = [
    "floor",
    "spin_mutex",
    "spin_mutex_pass",
    "mutex",
    "mutex_yield",
    "spin_mutex_sleep",
    "spin_mutex_event",
    "mutex_sleep",
    "ticket_mutex",
    "fair_mutex",
    "rw_read",
    "rw_read_pass",
    "rw_write",
    "rw_one_writer",
    "once_get",
    "std_mutex",
];

/// The channels and queues.
const CHANNELS: [&str; 7] = [
    "channel_bounded",
    "channel_unbounded",
    "channel_one",
    "condvar_bounded",
    "condvar_one",
    "std_condvar_bounded",
    "std_condvar_one",
];

/// What to do with a case.
#[derive(Clone, Copy)]
enum Task {
    /// Measure rounds, and print a line for each: the number of calls, the nanoseconds that they took, the number of
    /// calls by the slowest thread, and the nanoseconds that one call in a thousand exceeds, or 0 of one thread. A
    /// thread makes this many calls before it checks again whether to stop.
    Measure(u64),
    /// Make this many calls in each thread.
    Try(u64),
}

/// Returns the error for words that are no command.
pub fn usage() -> io::Error {
    io::Error::other(
        "usage: spin_bench CASE THREADS [INSIDE BETWEEN] | spin_bench sizes | spin_bench smoke",
    )
}

/// Measures one round of a case, and returns the sum of what its calls read.
fn round<C: Case + Sync, R: Threads + Wait + Clock + Print + Sync>(
    rt: &R,
    case: &C,
    threads: usize,
    chunk: u64,
) -> io::Result<u64> {
    let team = Team::new(rt, case, chunk, u64::MAX, threads > 1);
    let times = (threads as u64).saturating_sub(1) / THREADS_A_ROUND + 1;
    let nanos = team.time(threads, Duration::from_millis(ROUND_MILLIS.saturating_mul(times)))?;
    println!(rt;
        "{} {nanos} {} {}",
        team.calls(),
        team.fewest(),
        team.longest()
    )?;
    Ok(team.seen())
}

/// Measures all rounds of a case, and returns the sum of what their calls read.
fn rounds<C: Case + Sync, R: Threads + Wait + Clock + Print + Sync>(
    rt: &R,
    case: &C,
    threads: usize,
    chunk: u64,
) -> io::Result<u64> {
    let mut seen = 0u64;
    for _ in 0..ROUNDS {
        seen = seen.wrapping_add(round(rt, case, threads, chunk)?);
    }
    Ok(seen)
}

/// Does the task on a case, and returns the sum of what its calls read.
fn on_shared<C: Case + Sync, R: Threads + Wait + Clock + Print + Sync>(
    rt: &R,
    task: Task,
    threads: usize,
    case: &C,
) -> io::Result<u64> {
    match task {
        Task::Measure(chunk) => rounds(rt, case, threads, chunk),
        Task::Try(calls) => {
            let team = Team::new(rt, case, calls, 1, false);
            team.run(threads, Duration::ZERO)?;
            Ok(team.seen())
        }
    }
}

/// Does the task on a case. Returns the sum of what its calls read, plus the sum of what they added. If each
/// call did its work, this is the number of calls.
fn on_case<C: Case + Sync, R: Threads + Wait + Clock + Print + AllocGlobal + Sync>(
    rt: &R,
    task: Task,
    threads: usize,
    case: C,
) -> io::Result<u64> {
    let mut block = Vec::with_capacity(rt.alloc(), BLOCK)?;
    block.push_reserved(case);
    let seen = on_shared(rt, task, threads, &block[0])?;
    Ok(block.remove(0).added().wrapping_add(seen))
}

/// Does the task on a channel between two halves of the threads: it sends so many messages in each round, or so many calls
/// in each thread. Returns how many messages were taken.
fn on_line<L: Line + Sync, R: Threads + Wait + Clock + Print + AllocGlobal + Sync>(
    rt: &R,
    task: Task,
    threads: usize,
    messages: u64,
    line: L,
) -> io::Result<u64> {
    if threads < 2 {
        return Err(usage());
    }
    match task {
        Task::Measure(_) => {
            let (share, mut seen) = (messages / (threads as u64 / 2), 0u64);
            for _ in 0..ROUNDS {
                let (taken, nanos) = channels::round(rt, &line, threads, share)?;
                println!(rt; "{taken} {nanos} 0 0")?;
                seen = seen.wrapping_add(taken);
            }
            Ok(seen)
        }
        Task::Try(calls) => Ok(channels::round(rt, &line, threads, calls)?.0),
    }
}

/// Does the task on the channel or queue that has this name.
fn on_channel<R: Threads + Wait + Clock + Print + AllocGlobal + Sync>(
    rt: &R,
    task: Task,
    threads: usize,
    name: &str,
) -> io::Result<u64> {
    let (capacity, messages) = if name.ends_with("_one") {
        (1, MESSAGES_ONE_BY_ONE)
    } else {
        (CAPACITY, MESSAGES)
    };
    match name {
        "channel_unbounded" => {
            let (sender, receiver) = unbounded(rt.alloc(), rt)?;
            on_line(rt, task, threads, messages, Ends(sender, receiver))
        }
        "channel_bounded" | "channel_one" => {
            let (sender, receiver) = bounded(rt.alloc(), rt, capacity)?;
            on_line(rt, task, threads, messages, Ends(sender, receiver))
        }
        "condvar_bounded" | "condvar_one" => {
            let queue = Queue::new(Messages::new(rt.alloc(), capacity)?);
            on_line(rt, task, threads, messages, queue)
        }
        "std_condvar_bounded" | "std_condvar_one" => {
            let queue = StdQueue::new(Messages::new(rt.alloc(), capacity)?);
            on_line(rt, task, threads, messages, queue)
        }
        _ => on_alone(rt, task, threads, name),
    }
}

/// Does the task on the case of `ALONE` that has this name.
fn on_alone<R: Threads + Wait + Clock + Print + AllocGlobal + Sync>(
    rt: &R,
    task: Task,
    threads: usize,
    name: &str,
) -> io::Result<u64> {
    match name {
        "fair_starve" => on_case(rt, task, threads, Starvers(FairMutex::new(0))),
        "rw_upgrade" => on_case(rt, task, threads, Upgrades(RwLock::new(1))),
        "once_call" => on_case(rt, task, threads, LateCalls(complete(rt))),
        "once_first" => on_case(rt, task, threads, FirstCalls),
        "lazy_force" => on_case(rt, task, threads, Forces),
        "barrier_alone" => on_case(rt, task, threads, Alone(Barrier::new(1))),
        _ => Err(usage()),
    }
}

/// Does the task on the lock that has this name, with work inside its section and between two.
fn on_work<R: Threads + Wait + Clock + Print + AllocGlobal + Sync>(
    rt: &R,
    task: Task,
    threads: usize,
    name: &str,
    work: Work,
) -> io::Result<u64> {
    match name {
        "spin_mutex" => on_case(rt, task, threads, Works(<SpinMutex<u64>>::new(0), work)),
        "mutex" => on_case(rt, task, threads, Works(<Mutex<u64>>::new(0), work)),
        "fair_mutex" => on_case(rt, task, threads, Works(<FairMutex<u64>>::new(0), work)),
        "rw_write" => on_case(rt, task, threads, Works(<RwLock<u64>>::new(0), work)),
        _ => Err(usage()),
    }
}

/// Does the task on the case that has this name.
fn on_name<R: Threads + Wait + Clock + Print + AllocGlobal + Sync>(
    rt: &R,
    task: Task,
    threads: usize,
    name: &str,
) -> io::Result<u64> {
    match name {
        "floor" => on_case(rt, task, threads, Floor::new()),
        "spin_mutex" => on_case(rt, task, threads, Adds(<SpinMutex<u64>>::new(0))),
        "spin_mutex_pass" => on_case(rt, task, threads, PassAdds(SpinMutex::new(0))),
        "mutex" => on_case(rt, task, threads, Adds(<Mutex<u64>>::new(0))),
        "mutex_yield" => on_case(rt, task, threads, Adds(<Mutex<u64, Yield>>::new(0))),
        "mutex_sleep" => on_case(
            rt,
            task,
            threads,
            Adds(<Mutex<u64, YieldThenSleep>>::new(0)),
        ),
        "spin_mutex_sleep" => {
            on_case(
                rt,
                task,
                threads,
                Adds(<SpinMutex<u64, YieldThenSleep>>::new(0)),
            )
        }
        "spin_mutex_event" => on_case(rt, task, threads, EventAdds::new()),
        "ticket_mutex" => on_case(rt, task, threads, Adds(<TicketMutex<u64>>::new(0))),
        "fair_mutex" => on_case(rt, task, threads, Adds(<FairMutex<u64>>::new(0))),
        "rw_read" => on_case(rt, task, threads, Readers(RwLock::new(1))),
        "rw_read_pass" => on_case(rt, task, threads, PassReaders(RwLock::new(1))),
        "rw_write" => on_case(rt, task, threads, Adds(<RwLock<u64>>::new(0))),
        "rw_one_writer" => on_case(rt, task, threads, OneWriter(RwLock::new(1))),
        "once_get" => on_case(rt, task, threads, Gets(complete(rt))),
        "std_mutex" => on_case(rt, task, threads, sync::Mutex::new(0u64)),
        "barrier_rounds" => on_case(rt, task, threads, Rounds::new(threads)),
        _ => on_channel(rt, task, threads, name),
    }
}

/// Does the task, and prints the sum of what the calls read and added.
fn report<R: Threads + Wait + Clock + Print + AllocGlobal + Sync>(
    rt: &R,
    task: Task,
    threads: usize,
    name: &str,
    work: Option<Work>,
) -> io::Result<()> {
    let sum = match work {
        Some(work) => on_work(rt, task, threads, name, work)?,
        None => on_name(rt, task, threads, name)?,
    };
    println!(rt; "{name}.{threads} {sum}")
}

/// Returns how many calls a thread makes before it checks again whether to stop. A thread alone makes so many that the
/// checks cost nothing. Several threads make few each, since each call takes longer. So a round ends soon after its time,
/// even if a thread that others wait for is not running.
fn chunk(threads: u8) -> u64 {
    if threads == 1 { 1000 } else { 25 }
}

/// Returns the work that the words say, if they are numbers.
pub fn work(inside: &str, between: &str) -> Option<Work> {
    Some(Work {
        inside: inside.parse::<u64>().ok()?,
        between: between.parse::<u64>().ok()?,
    })
}

/// Measures the case with this name in this many threads.
pub fn measure<R: Threads + Wait + Clock + Print + AllocGlobal + Sync>(
    rt: &R,
    name: &str,
    threads: &str,
    work: Option<Work>,
) -> io::Result<()> {
    match threads.parse::<u8>() {
        Ok(threads) => report(
            rt,
            Task::Measure(chunk(threads)),
            threads as usize,
            name,
            work,
        ),
        Err(_) => Err(usage()),
    }
}

/// Tries each of these cases.
fn try_each<R: Threads + Wait + Clock + Print + AllocGlobal + Sync>(
    rt: &R,
    calls: u64,
    threads: usize,
    names: &[&str],
) -> io::Result<()> {
    for name in names {
        report(rt, Task::Try(calls), threads, name, None)?;
    }
    Ok(())
}

/// Tries each case. Barriers get few calls: on a busy machine a wait lasts until each thread of the group has
/// run.
pub fn try_all<R: Threads + Wait + Clock + Print + AllocGlobal + Sync>(rt: &R) -> io::Result<()> {
    try_each(rt, 100, 1, &ALONE)?;
    for threads in [1, 2, 4] {
        try_each(rt, 100, threads, &BESIDE)?;
        try_each(rt, 10, threads, &["barrier_rounds"])?;
        report(rt, Task::Try(100), threads, "mutex", work("5", "10"))?;
    }
    for threads in [2, 8] {
        try_each(rt, 100, threads, &CHANNELS)?;
    }
    Ok(())
}
