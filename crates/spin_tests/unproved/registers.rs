//! What no contract says of registers: several readers may read at once, and which tries succeed.
use crate::equal::equal;
use spin::Yield;
use spin::mutex::SpinMutex;
use spin::rwlock::RwLock;
use spin_history::history::{BlankLog, History, Work, open};
use spin_history::register::{self, Register};
use spin_history::tally::{self, Tally};
use std::process::Abort;
use std::sync::Wait;
use std::sync::ledger::{Ledger, Share};

/// Reads while a reader holds, and tries while a reader or a writer holds.
#[derive(Drop)]
struct ReadBeside<'r, W>(&'r W);

// What was found: by `read_shared`; by a try of each kind while a reader holds; by a shared try while a writer holds;
// by the last read.
type Found = (u64, Option<u64>, Option<u64>, Option<u64>, u64);

impl<W: Abort + Wait> Work for ReadBeside<'_, W> {
    type Answer = Found;

    fn run<H: History + Send + Sync>(self, blank: BlankLog) -> Found {
        let rt = self.0;
        let log = blank.open::<u64, H>();
        let mut seen = log.snapshot();
        let lock: RwLock<Register<u64, H>, Yield> = RwLock::new(Register::new(1, log));
        let reader = lock.read(rt);
        let shared = register::read_shared(rt, &lock, &mut seen);
        let tried = register::try_read_shared(rt, &lock, &mut seen);
        let refused = register::try_read(&lock, &mut seen);
        let wrote_beside = register::try_write(&lock, 2, &mut seen);
        drop(reader);
        let found = register::try_read(&lock, &mut seen);
        let wrote = register::try_write(&lock, 2, &mut seen);
        equal(rt, (wrote_beside, found, wrote), (false, Some(1), true));
        let writer = lock.write(rt);
        let kept_out = register::try_read_shared(rt, &lock, &mut seen);
        drop(writer);
        (
            shared,
            tried,
            refused,
            kept_out,
            register::read(rt, &lock, &mut seen),
        )
    }
}

// A reader that needed exclusive access would wait for ever.
#[test]
fn reads_of_a_register_are_shared(rt: HostRuntime) {
    equal(&rt, open(ReadBeside(&rt)), (1, Some(1), None, None, 2));
}

/// Adds numbers that fit, and one that does not.
#[derive(Drop)]
struct Add<'r, W>(&'r W);

impl<W: Wait> tally::Work for Add<'_, W> {
    type Answer = (bool, bool, bool, u64);

    fn run<L: Ledger + Send + Sync>(self, tally: Tally<L>, all: Share<L>) -> Self::Answer {
        let rt = self.0;
        let mut mine = all;
        let rest = mine.split_off(1, 0);
        let lock: SpinMutex<Tally<L>, Yield> = SpinMutex::new(tally);
        let small = tally::add(rt, &lock, &mut mine, 3);
        let large = tally::add(rt, &lock, &mut mine, u64::MAX - 3);
        let over = tally::add(rt, &lock, &mut mine, 1);
        mine.merge(rest);
        (small, large, over, tally::total(rt, &lock, &mut mine))
    }
}

#[test]
fn a_tally_adds_what_fits(rt: HostRuntime) {
    equal(&rt, tally::open(Add(&rt)), (true, true, false, u64::MAX));
}
