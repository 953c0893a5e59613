//! How many messages go through a channel in a second, or through a bounded queue whose threads wait for a condition.
use spin_channel::{Receiver, Sender};
use spin_condvar::Condvar;
use spin_flag::spin::SpinMutex;
use std::alloc::{AllocError, Global};
use std::collections::VecDeque;
use std::sync::Wait;
use std::thread::{Threads, map_indices};
use std::time::{Clock, Instant};
use std::{io, sync};

/// What threads send messages through.
pub trait Line: Drop {
    /// Sends a message, perhaps after a wait for room.
    fn send<W: Wait>(&self, rt: &W, message: u64);

    /// Takes a message, perhaps after a wait for one.
    fn take<W: Wait>(&self, rt: &W) -> u64;
}

/// A sender and a receiver of one channel.
#[derive(Drop)]
pub struct Ends<W: Wait + Copy>(pub Sender<u64, W>, pub Receiver<u64, W>);

impl<W: Wait + Copy> Line for Ends<W> {
    fn send<V: Wait>(&self, _rt: &V, message: u64) {
        let _ = self.0.send(message).is_ok();
    }

    fn take<V: Wait>(&self, _rt: &V) -> u64 {
        self.1.recv().unwrap_or(0)
    }
}

/// Messages, and for how many there is room.
#[derive(Drop)]
pub struct Messages {
    queue: VecDeque<u64>,
    capacity: usize,
}

impl Messages {
    pub fn new(alloc: Global, capacity: usize) -> Result<Messages, AllocError> {
        Ok(Messages {
            queue: VecDeque::with_capacity(alloc, capacity)?,
            capacity,
        })
    }
}

/// A queue under our lock, with our conditions that there is room and that there is a message.
#[derive(Drop)]
pub struct Queue {
    messages: SpinMutex<Messages>,
    room: Condvar,
    more: Condvar,
}

/// The same over the toolchain's lock and condition.
#[derive(Drop)]
pub struct StdQueue {
    messages: sync::Mutex<Messages>,
    room: sync::Condvar,
    more: sync::Condvar,
}

macro_rules! line {
    ($name:ident, $lock:path, $condition:path) => {
        impl $name {
            pub fn new(messages: Messages) -> $name {
                $name {
                    messages: $lock(messages),
                    room: $condition(),
                    more: $condition(),
                }
            }
        }

        impl Line for $name {
            fn send<W: Wait>(&self, rt: &W, message: u64) {
                let messages = self.messages.lock(rt);
                let mut messages = self.room.wait_while(rt, messages, |it| it.queue.len() >= it.capacity);
                let _ = (*messages).queue.push_back(message).is_ok();
                drop(messages);
                self.more.notify_one();
            }

            fn take<W: Wait>(&self, rt: &W) -> u64 {
                let messages = self.messages.lock(rt);
                let mut messages = self.more.wait_while(rt, messages, |it| it.queue.is_empty());
                let message = (*messages).queue.pop_front().unwrap_or(0);
                drop(messages);
                self.room.notify_one();
                message
            }
        }
    };
}

line!(Queue, SpinMutex::new, Condvar::new);
line!(StdQueue, sync::Mutex::new, sync::Condvar::new);

/// Half of the threads send as many messages each, and half take as many. Returns how many were taken, and how many
/// nanoseconds that took.
pub fn round<L: Line + Sync, R: Threads + Wait + Clock + AllocGlobal + Sync>(
    rt: &R,
    line: &L,
    threads: usize,
    messages: u64,
) -> io::Result<(u64, u128)> {
    let work = |worker: usize| {
        let mut taken = 0u64;
        for _ in 0..messages {
            if worker % 2 == 0 {
                line.send(rt, 1);
            } else {
                taken = taken.wrapping_add(line.take(rt));
            }
        }
        taken
    };
    let start = Instant::now(rt)?;
    let taken = map_indices(rt, rt.alloc(), threads, &work)?;
    let nanos = start.elapsed(rt)?.as_nanos();
    let mut sum = 0u64;
    for each in taken.iter() {
        sum = sum.wrapping_add(*each);
    }
    Ok((sum, nanos))
}
