//! A lock by an order. Only `main` can make an order, so this is no [`Case`](crate::case::Case).
ghost use Rattle.std.specs.Prelude.{◌≡◌};

use spin_flag::spin::SpinMutex;
use spin_order::{Idle, Level, Order, Ranked};
use std::io;
use std::sync::Wait;
use std::time::{Clock, Duration, Instant};

/// How many rounds are measured.
const ROUNDS: usize = 3;

/// How long one round is, in milliseconds.
const ROUND_MILLIS: u64 = 100;

/// How many calls are made before the time is looked at again.
const CHUNK: u64 = 1000;

/// A number to which each call adds 1.
type Number = Ranked<Level<1>, SpinMutex<u64>>;

/// Makes this many calls.
#[inline(never)]
fn repeat<W: Wait>(idle: &mut Idle<'_, W>, number: &Number, calls: u64) {
    for _ in 0..calls {
        let (mut sum, _order) = number.lock(idle.order());
        *sum = sum.wrapping_add(1);
    }
}

/// Makes calls for the time of a round. Returns how many, and the nanoseconds that they took.
fn round<W: Wait, R: Clock>(
    rt: &R,
    idle: &mut Idle<'_, W>,
    number: &Number,
) -> io::Result<(u64, u128)> {
    let start = Instant::now(rt)?;
    let mut calls = 0u64;
    for _ in 0..u64::MAX {
        repeat(idle, number, CHUNK);
        calls = calls.wrapping_add(CHUNK);
        if start.elapsed(rt)? >= Duration::from_millis(ROUND_MILLIS) {
            break;
        }
    }
    Ok((calls, start.elapsed(rt)?.as_nanos()))
}

/// Prints what all calls added.
fn print<R: Print>(rt: &R, number: Number) -> io::Result<()> {
    let added = number.into_inner().into_inner();
    println!(rt; "spin_mutex_order.1 {added}")
}

/// Measures it, in one thread.
pub fn measure<W: Wait, R: Clock + Print>(rt: &R, order: Order<'_, W>) -> io::Result<()>
    requires idle { order.top ≡ 0 }
{
    let mut idle = Idle::of(order);
    let number = Ranked::new(Level, SpinMutex::new(0));
    for _ in 0..ROUNDS {
        let (calls, nanos) = round(rt, &mut idle, &number)?;
        println!(rt; "{calls} {nanos} {calls} 0")?;
    }
    print(rt, number)
}

/// Tries it by this many calls.
pub fn try_calls<W: Wait, R: Print>(rt: &R, order: Order<'_, W>, calls: u64) -> io::Result<()>
    requires idle { order.top ≡ 0 }
{
    let mut idle = Idle::of(order);
    let number = Ranked::new(Level, SpinMutex::new(0));
    repeat(&mut idle, &number, calls);
    print(rt, number)
}
