//! How long a waiting call pauses. No contract says this.
use crate::equal::equal;
use crate::parts::{Crew, in_threads};
use crate::waiting::{await_number, linger};
use spin_barrier::barrier::Barrier;
use spin_core::relax::{BACK_OFF_STEP, MAX_BACK_OFF, MAX_HINTS, RelaxStrategy, Yield};
use spin_fair::fair::FairMutex;
use spin_flag::spin::SpinMutex;
use spin_mutex::ticket::TicketMutex;
use spin_once::once::Once;
use spin_rwlock::rwlock::RwLock;
use std::cell::Cell;
use std::process::Abort;
use std::sync::Wait;
use std::sync::atomic::AtomicU64;
use std::sync::atomic::Ordering::SeqCst;

/// A strategy whose `pause` never returns unless it has one hint.
struct Single;

impl RelaxStrategy for Single {
    fn relax<W: Wait>(rt: &W) {
        let _ = rt;
    }

    fn pause<W: Wait>(rt: &W, hints: u32) {
        if hints == 1 {
            return;
        }
        for _ in rt.forever() {}
    }
}

/// A strategy whose `pause` never returns if the number of hints is too large or no power of two.
struct Bounded;

impl RelaxStrategy for Bounded {
    fn relax<W: Wait>(rt: &W) {
        let _ = rt;
    }

    fn pause<W: Wait>(rt: &W, hints: u32) {
        if hints.is_power_of_two() && hints <= MAX_HINTS {
            return;
        }
        for _ in rt.forever() {}
    }
}

/// A strategy whose `pause_after` never returns unless `given` is the sum of the hints that a `back_off` gave before.
struct Counted;

impl RelaxStrategy for Counted {
    fn relax<W: Wait>(rt: &W) {
        let _ = rt;
    }

    fn pause_after<W: Wait>(rt: &W, hints: u32, given: u32) {
        let is_sum = if given == 0 {
            hints == BACK_OFF_STEP
        } else {
            hints == MAX_BACK_OFF && given % MAX_BACK_OFF == BACK_OFF_STEP
        };
        if is_sum {
            return;
        }
        for _ in rt.forever() {}
    }
}

// So many attempts that a number doubled after each one would overflow.
const ATTEMPTS: u32 = 100;

// Counts an attempt. Only the last one succeeds.
fn attempt(attempts: &Cell<u32>) -> Result<(), ()> {
    attempts.set(attempts.get().wrapping_add(1));
    (attempts.get() == ATTEMPTS).then_some(()).ok_or(())
}

#[test]
fn a_bounded_pause_has_at_most_so_many_hints_as_the_bound(rt: HostRuntime) {
    for hints in [1, 2, MAX_HINTS, MAX_HINTS + 1, u32::MAX] {
        Bounded::bounded_pause(&rt, hints, 0);
    }
}

#[test]
fn a_retry_pauses_for_one_hint_each_time(rt: HostRuntime) {
    let attempts = Cell::new(0u32);
    Single::retry(&rt, (), |()| attempt(&attempts));
    equal(&rt, attempts.get(), ATTEMPTS);
}

#[test]
fn a_back_off_pauses_for_a_power_of_two_up_to_a_bound(rt: HostRuntime) {
    let attempts = Cell::new(0u32);
    Bounded::back_off(&rt, (), |()| attempt(&attempts));
    equal(&rt, attempts.get(), ATTEMPTS);
}

#[test]
fn a_bounded_pause_counts_its_hints(rt: HostRuntime) {
    let counts = [
        Single::bounded_pause(&rt, 1, 0),
        Bounded::bounded_pause(&rt, 1, u32::MAX),
        // The longest pause is not counted.
        Bounded::bounded_pause(&rt, u32::MAX, 3),
    ];
    equal(&rt, counts, [1, u32::MAX, 3]);
}

#[test]
fn a_back_off_counts_the_hints_of_all_its_pauses(rt: HostRuntime) {
    let attempts = Cell::new(0u32);
    Counted::back_off(&rt, (), |()| attempt(&attempts));
    equal(&rt, attempts.get(), ATTEMPTS);
}

struct Flagged;

struct Queued;

/// For a thread that overtakes others, one that looks before it registers as starving, and a starving one.
struct Starving;

/// For a writer, a reader that is kept out, one that lost two exchanges, and one that waits to upgrade.
struct Sharing;

struct Made;

// Strategies that yield in each pause, but never return from one whose number of hints is none of these.
macro_rules! strict {
    ($($name:ident: $hints:expr;)*) => {
        $(
            impl RelaxStrategy for $name {
                fn relax<W: Wait>(rt: &W) {
                    Yield::relax(rt);
                }

                fn pause_after<W: Wait>(rt: &W, hints: u32, given: u32) {
                    let _ = given;
                    if $hints.contains(&hints) {
                        return Yield::relax(rt);
                    }
                    for _ in rt.forever() {}
                }
            }
        )*
    };
}

strict! {
    Flagged: [BACK_OFF_STEP, MAX_BACK_OFF];
    Queued: [1, 16, 24, MAX_HINTS];
    Starving: [1, MAX_BACK_OFF];
    Sharing: [1, BACK_OFF_STEP, 64, MAX_BACK_OFF, 512];
    Made: [1];
}

const WAITERS: usize = 7;

/// A thread that holds each lock for a while, and threads that wait for it: for the locks in turn, then for a value, then
/// for one another.
#[derive(Drop)]
struct Waiters {
    flag: SpinMutex<u64, Flagged>,
    ticket: TicketMutex<u64, Queued>,
    fair: FairMutex<u64, Starving>,
    rw: RwLock<u64, Sharing>,
    once: Once<u64, Made>,
    barrier: Barrier<Queued>,
    held: AtomicU64,
}

impl Waiters {
    fn hold<W: Wait>(&self, rt: &W) {
        let flag = self.flag.lock(rt);
        let ticket = self.ticket.lock(rt);
        let fair = self.fair.lock(rt);
        let rw = self.rw.write(rt);
        self.held.store(1, SeqCst);
        linger(rt);
        drop(flag);
        linger(rt);
        drop(ticket);
        linger(rt);
        drop(fair);
        linger(rt);
        drop(rw);
        linger(rt);
    }

    fn wait<W: Wait>(&self, rt: &W, index: usize) {
        await_number(rt, &self.held, 1);
        drop(self.flag.lock(rt));
        drop(self.ticket.lock(rt));
        match index % 2 {
            0 => drop(self.fair.lock(rt)),
            _ => drop(self.fair.starve(rt).map(|starver| starver.lock(rt))),
        }
        match index % 3 {
            0 => drop(self.rw.write(rt)),
            1 => drop(self.rw.read(rt)),
            _ => drop(self.rw.upgradeable_read(rt).upgrade(rt)),
        }
    }
}

impl Crew for Waiters {
    type Answer = u64;

    fn act<R: Abort + Wait>(&self, rt: &R, index: usize) -> u64 {
        let made = if index == 0 {
            self.hold(rt);
            *self.once.call_once(rt, || 1)
        } else {
            self.wait(rt, index);
            *self.once.wait(rt)
        };
        self.barrier.wait(rt);
        made
    }
}

#[test]
fn a_waiting_call_gives_the_hints_of_its_kind(rt: HostRuntime) {
    let all = Waiters {
        flag: SpinMutex::new(1),
        ticket: TicketMutex::new(1),
        fair: FairMutex::new(1),
        rw: RwLock::new(1),
        once: Once::new(),
        barrier: Barrier::new(WAITERS),
        held: AtomicU64::new(0),
    };
    let made = in_threads(&rt, rt.alloc(), &all, WAITERS);
    equal(&rt, made.as_slice(), [1; WAITERS].as_slice());
}
