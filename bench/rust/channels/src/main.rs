//! Measures the channels of the Rust crate flume, in the way in which `bench/ours` measures ours.
use std::process::ExitCode;
use std::thread;
use std::time::Instant;

use flume::{bounded, unbounded, Receiver, Sender};

const ROUNDS: usize = 3;
const MESSAGES: u64 = 200_000;
const MESSAGES_ONE_BY_ONE: u64 = 20_000;
const CAPACITY: usize = 64;

// Half of the threads send as many messages each, and half receive as many. Returns how many were received, and how many
// nanoseconds that took.
fn round((sender, receiver): (Sender<u64>, Receiver<u64>), threads: u64, messages: u64) -> (u64, u128) {
    let share = messages / (threads / 2);
    let start = Instant::now();
    let received = thread::scope(|scope| {
        let workers: Vec<_> = (0..threads)
            .map(|worker| {
                let (sender, receiver) = (&sender, &receiver);
                scope.spawn(move || {
                    let mut received = 0;
                    for _ in 0..share {
                        if worker % 2 == 0 {
                            let _ = sender.send(1);
                        } else {
                            received += receiver.recv().unwrap_or(0);
                        }
                    }
                    received
                })
            })
            .collect();
        workers
            .into_iter()
            .map(|worker| worker.join().expect("no call panics"))
            .sum()
    });
    (received, start.elapsed().as_nanos())
}

fn measure(name: &str, threads: u64) -> Option<()> {
    let (make, messages): (fn() -> _, _) = match name {
        "channel_bounded" => (|| bounded(CAPACITY), MESSAGES),
        "channel_one" => (|| bounded(1), MESSAGES_ONE_BY_ONE),
        "channel_unbounded" => (unbounded, MESSAGES),
        _ => return None,
    };
    let mut sum = 0;
    for _ in 0..ROUNDS {
        let (received, nanos) = round(make(), threads, messages);
        println!("{received} {nanos} 0 0");
        sum += received;
    }
    println!("{name}.{threads} {sum}");
    Some(())
}

fn main() -> ExitCode {
    let words: Vec<String> = std::env::args().skip(1).collect();
    let measured = match &words[..] {
        [name, threads] => threads
            .parse()
            .ok()
            .filter(|it| (2..=128).contains(it))
            .and_then(|it| measure(name, it)),
        _ => None,
    };
    if measured.is_none() {
        eprintln!("usage: channel_bounded THREADS | channel_one THREADS | channel_unbounded THREADS");
        return ExitCode::from(2);
    }
    ExitCode::SUCCESS
}
