//! Threads that take several places of a semaphore at once, and tries that are refused.
use crate::equal::equal;
use spin_core::relax::Yield;
use spin_flag::spin::SpinMutex;
use spin_permits::{Places, acquire_many, release_many, try_acquire_many};
use std::marker::Brand;
use std::process::Abort;
use std::sync::Wait;
use std::sync::atomic::{AtomicU64, Ordering};
use std::sync::ledger::{Blank, Ledger, Share};
use std::thread::{Threads, join};

/// Takes so many of three places again and again, and counts how many are taken.
fn visit<L: Ledger, R: Abort + Wait>(
    rt: &R,
    places: &SpinMutex<Places<L>, Yield>,
    taken: &AtomicU64,
    mut mine: Share<L>,
    count: u64,
) {
    for _turn in 0..1000 {
        acquire_many(rt, places, &mut mine, count);
        let before = taken.fetch_add(count, Ordering::SeqCst);
        equal(rt, before.saturating_add(count) <= 3, true);
        taken.fetch_sub(count, Ordering::SeqCst);
        release_many(rt, places, &mut mine, count);
    }
}

fn share_three_places<L: Ledger + Send + Sync, R: Abort + Threads + Wait + Sync>(
    rt: &R,
    blank: Blank,
) {
    let (book, all) = blank.open::<L>();
    let places: SpinMutex<Places<L>, Yield> = SpinMutex::new(Places::new(3, book));
    let mut first = all;
    let mut second = first.split_off(1, 0);
    let mut made = [false; 4];
    made[0] = try_acquire_many(&places, &mut first, 4);
    made[1] = try_acquire_many(&places, &mut first, 2);
    made[2] = try_acquire_many(&places, &mut second, 2);
    made[3] = try_acquire_many(&places, &mut second, 1);
    equal(rt, made, [false, true, false, true]);
    release_many(rt, &places, &mut first, 2);
    release_many(rt, &places, &mut second, 1);
    let taken = AtomicU64::new(0);
    let (lent, counted) = (&places, &taken);
    join(
        rt,
        move || visit(rt, lent, counted, first, 2),
        move || visit(rt, lent, counted, second, 1),
    );
}

#[test]
fn two_threads_share_three_places(rt: HostRuntime) {
    share_three_places::<Brand, _>(&rt, Blank::new(2));
}
