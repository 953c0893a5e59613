//! `spin_bench`: how long a lock's calls take. It prints counts and nanoseconds; `bench/compare` makes rows of them.
#![tactic(auto)]

mod case;
mod channels;
mod orders;
mod report;
mod size;
mod team;
mod waits;

use case::Work;
use spin_order::Order;
use std::sync::Wait;
use std::thread::Threads;
use std::time::Clock;
use std::{env, io};

/// Does what the words of the command line ask for.
fn command<R: Threads + Wait + Clock + Print + AllocGlobal + Sync>(
    rt: &R,
    name: &str,
    threads: Option<&str>,
    work: Option<Work>,
) -> io::Result<()> {
    match threads {
        Some(threads) => report::measure(rt, name, threads, work),
        None if name == "sizes" => size::print(rt),
        None => Err(report::usage()),
    }
}

fn main(rt: HostRuntime) -> io::Result<()> {
    let mut words = env::args(&rt)?;
    let _program = words.next();
    let name = words.next();
    let threads = words.next();
    let work = match (words.next(), words.next()) {
        (Some(inside), Some(between)) => report::work(&inside, &between),
        _ => None,
    };
    let name = name.as_deref().unwrap_or("");
    let mut mine = rt;
    match threads.as_deref() {
        Some("1") if name == "spin_mutex_order" => orders::measure(&rt, Order::new(&mut mine)),
        None if name == "smoke" => {
            report::try_all(&rt)?;
            orders::try_calls(&rt, Order::new(&mut mine), 100)
        }
        threads => command(&rt, name, threads, work),
    }
}
