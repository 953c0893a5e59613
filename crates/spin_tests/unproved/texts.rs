//! The texts that `{:?}` and `{}` print, also with options. Printing does not change a lock.
use crate::equal::equal;
use spin_barrier::barrier::Barrier;
use spin_core::relax::Yield;
use spin_fair::fair::FairMutex;
use spin_flag::spin::SpinMutex;
use spin_mutex::mutex::Mutex;
use spin_mutex::ticket::TicketMutex;
use spin_once::lazylock::LazyLock;
use spin_once::once::Once;
use spin_rwlock::rwlock::RwLock;
use spin_seats::seats::Seats;
use std::fmt;
use std::fmt::{Debug, Display, Write};
use std::process::Abort;

fn debug_is<T: Debug>(rt: &(impl Abort + AllocGlobal), value: &T, text: &str) {
    let found = format!(in rt.alloc(); "{value:?}").expect(rt, "memory");
    equal(rt, found.as_str(), text);
}

// Checks the texts that `{:?}` and `{}` print for a guard.
fn prints<G: Debug + Display>(
    rt: &(impl Abort + AllocGlobal),
    guard: &G,
    debugged: &str,
    displayed: &str,
) {
    debug_is(rt, guard, debugged);
    let found = format!(in rt.alloc(); "{guard}").expect(rt, "memory");
    equal(rt, found.as_str(), displayed);
}

macro_rules! locked_at_texts {
    ($rt:expr, $Lock:ident) => {{
        let lock: $Lock<u64> = $Lock::new(5);
        debug_is($rt, &lock, "Mutex { data: 5 }");
        let at_open = lock.is_locked();
        let guard = lock.try_lock().expect($rt, "open");
        debug_is($rt, &lock, "Mutex { <locked> }");
        let at_held = lock.is_locked();
        drop(guard);
        [at_open, at_held, lock.is_locked()]
    }};
}

#[test]
fn a_lock_shows_its_value_or_that_it_is_held(rt: HostRuntime) {
    let locked = [
        locked_at_texts!(&rt, SpinMutex),
        locked_at_texts!(&rt, TicketMutex),
        locked_at_texts!(&rt, Mutex),
    ];
    equal(&rt, locked, [[false, true, false]; 3]);
}

#[test]
fn a_fair_lock_shows_its_value_or_that_it_is_not_to_be_had(rt: HostRuntime) {
    let lock: FairMutex<u64> = FairMutex::new(5);
    debug_is(&rt, &lock, "FairMutex { data: 5 }");
    equal(&rt, lock.is_locked(), false);
    let guard = lock.lock(&rt);
    debug_is(&rt, &lock, "FairMutex { data: <locked> }");
    debug_is(&rt, &guard, "5");
    drop(guard);
    let starvation = lock.starve(&rt).expect(&rt, "below the cap");
    debug_is(&rt, &lock, "FairMutex { data: <locked> }");
    drop(starvation);
}

#[test]
fn a_guard_prints_as_its_value(rt: HostRuntime) {
    prints(&rt, &SpinMutex::<&str>::new("a").lock(&rt), "\"a\"", "a");
    prints(&rt, &TicketMutex::<&str>::new("a").lock(&rt), "\"a\"", "a");
    prints(&rt, &FairMutex::<&str>::new("a").lock(&rt), "\"a\"", "a");
    prints(&rt, &Mutex::<&str>::new("a").lock(&rt), "\"a\"", "a");
}

#[test]
fn a_lock_shows_its_value_where_it_may_be_read(rt: HostRuntime) {
    let lock: RwLock<u64> = RwLock::new(5);
    debug_is(&rt, &lock, "RwLock { data: 5 }");
    equal(&rt, lock.reader_count(), 0);
    let reader = lock.read(&rt);
    debug_is(&rt, &lock, "RwLock { data: 5 }");
    prints(&rt, &reader, "5", "5");
    drop(reader);
    let upgradable = lock.upgradeable_read(&rt);
    debug_is(&rt, &lock, "RwLock { data: 5 }");
    prints(&rt, &upgradable, "5", "5");
    let writer = upgradable.upgrade(&rt);
    debug_is(&rt, &lock, "RwLock { <locked> }");
    prints(&rt, &writer, "5", "5");
}

#[test]
fn what_is_made_once_shows_its_value_once_it_is_made(rt: HostRuntime) {
    debug_is(&rt, &Once::<u64>::initialized(5), "Once(5)");
    debug_is(&rt, &Once::<u64, Yield>::new(), "Once(<uninit>)");
    let lazy: LazyLock<u64, _> = LazyLock::new(|| 5);
    debug_is(&rt, &lazy, "LazyLock(<uninit>)");
    LazyLock::force(&lazy, &rt);
    debug_is(&rt, &lazy, "LazyLock(5)");
}

#[test]
fn a_barrier_and_seats_show_their_names(rt: HostRuntime) {
    let barrier: Barrier = Barrier::new(1);
    debug_is(&rt, &barrier, "Barrier { .. }");
    let leader = barrier.wait(&rt);
    debug_is(&rt, &leader, "BarrierWaitResult { is_leader: true }");
    let text = format!(in rt.alloc(); "{leader:#?}").expect(&rt, "memory");
    equal(
        &rt,
        text.as_str(),
        "BarrierWaitResult {\n    is_leader: true,\n}",
    );
    let seats: Seats<2> = Seats::new();
    debug_is(&rt, &seats, "Seats { .. }");
    debug_is(&rt, &seats.enter(&rt), "SeatGuard { .. }");
    debug_is(&rt, &seats.pass(), "Pass { .. }");
}

#[test]
fn a_pass_shows_its_name(rt: HostRuntime) {
    debug_is(&rt, &SpinMutex::<u64>::new(5).pass(), "Pass { .. }");
    debug_is(&rt, &TicketMutex::<u64>::new(5).pass(), "Pass { .. }");
    debug_is(&rt, &FairMutex::<u64>::new(5).pass(), "Pass { .. }");
    debug_is(&rt, &RwLock::<u64>::new(5).pass(), "Pass { .. }");
    debug_is(&rt, &Once::<u64>::new().pass(), "Pass { .. }");
    let lazy: LazyLock<u64, _> = LazyLock::new(|| 5);
    debug_is(&rt, &LazyLock::pass(&lazy), "Pass { .. }");
}

#[test]
fn options_go_to_the_value(rt: HostRuntime) {
    let lock: Mutex<u64> = Mutex::new(5);
    let text = format!(in rt.alloc(); "{lock:3?}").expect(&rt, "memory");
    equal(&rt, text.as_str(), "Mutex { data:   5 }");
    let guard = lock.try_lock().expect(&rt, "open");
    let text = format!(in rt.alloc(); "{guard:<3?}|{guard:>3}|{lock:30?}").expect(&rt, "memory");
    equal(&rt, text.as_str(), "5  |  5|Mutex { <locked> }");
    let nested: Mutex<Option<u64>> = Mutex::new(Some(5));
    let text = format!(in rt.alloc(); "{nested:#?}").expect(&rt, "memory");
    equal(&rt, text.as_str(), "Mutex { data: Some(\n    5,\n) }");
}

/// A writer with room for `room` pieces. It counts how often the lock is free when a piece is written.
#[derive(Drop)]
struct Watch<'a> {
    lock: &'a SpinMutex<u64>,
    room: u32,
    at_open: u32,
}

impl Write for Watch<'_> {
    fn write_str(&mut self, _text: &str) -> fmt::Result {
        if !self.lock.is_locked() {
            self.at_open = self.at_open.saturating_add(1);
        }
        self.room = self.room.checked_sub(1).ok_or(fmt::Error)?;
        Ok(())
    }
}

#[test]
fn a_lock_is_held_while_it_is_written(rt: HostRuntime) {
    let lock = SpinMutex::new(5);
    for room in 0..4u32 {
        let mut watch = Watch {
            lock: &lock,
            room,
            at_open: 0,
        };
        equal(&rt, write!(watch, "{lock:?}").is_ok(), room == 3);
        equal(&rt, (watch.at_open, lock.is_locked()), (0, false));
    }
}

#[test]
fn a_refusal_is_shown_by_its_reason(rt: HostRuntime) {
    let lock: FairMutex<u64> = FairMutex::new(1);
    let guard = lock.lock(&rt);
    prints(
        &rt,
        &lock.try_lock_starver().err().expect(&rt, "held"),
        "Locked",
        "locked",
    );
    drop(guard);
    let place = lock.starve(&rt);
    prints(
        &rt,
        &lock.try_lock_starver().err().expect(&rt, "starved"),
        "Starved",
        "starved",
    );
    drop(place);
}
