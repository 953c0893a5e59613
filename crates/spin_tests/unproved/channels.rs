//! What the calls of a channel return: that each message arrives once and in order, which error comes when, that a closed
//! channel is seen, and how long a timed call waits.
use crate::equal::equal;
use spin_channel::{
    Receiver, RecvError, RecvTimeoutError, SendError, SendTimeoutError, Sender, TryRecvError,
    TrySendError, bounded, unbounded,
};
use std::error::Error;
use std::process::Abort;
use std::sync::atomic::AtomicU64;
use std::sync::atomic::Ordering::SeqCst;
use std::sync::{Arc, Wait};
use std::thread;
use std::time::{Clock, CpuClock, Duration, Instant};

type Ends<'a, R> = (Sender<u64, &'a R>, Receiver<u64, &'a R>);

fn wide<R: Abort + AllocGlobal + Wait>(rt: &R) -> Ends<'_, R> {
    unbounded(rt.alloc(), rt).expect(rt, "memory")
}

fn narrow<R: Abort + AllocGlobal + Wait>(rt: &R, capacity: usize) -> Ends<'_, R> {
    bounded(rt.alloc(), rt, capacity).expect(rt, "memory")
}

fn ms(number: u64) -> Duration {
    Duration::from_millis(number)
}

/// Sends the numbers below `count`, in order. Returns how many went in.
fn send_all<W: Wait + Copy>(sender: &Sender<u64, W>, count: u64) -> u64 {
    let mut sent = 0;
    for number in 0..count {
        if sender.send(number).is_ok() {
            sent += 1;
        }
    }
    sent
}

/// Receives so many messages, and returns whether they are the numbers from 0, in order.
fn come_in_order<W: Wait + Copy>(receiver: &Receiver<u64, W>, count: u64) -> bool {
    for number in 0..count {
        if receiver.recv() != Ok(number) {
            return false;
        }
    }
    true
}

/// The sum of the numbers below `count`.
fn sum_below(count: u64) -> u64 {
    count * (count - 1) / 2
}

#[test]
fn what_goes_in_comes_out_in_order(rt: HostRuntime) {
    let (sender, receiver) = wide(&rt);
    equal(&rt, send_all(&sender, 1000), 1000);
    equal(&rt, come_in_order(&receiver, 1000), true);
    equal(&rt, receiver.try_recv(), Err(TryRecvError::Empty));
}

#[test]
fn an_iterator_ends_with_the_channel(rt: HostRuntime) {
    let (sender, receiver) = wide(&rt);
    equal(&rt, send_all(&sender, 1000), 1000);
    drop(sender);
    equal(&rt, receiver.iter().sum::<u64>(), sum_below(1000));
}

#[test]
fn an_iterator_of_tries_ends_with_the_messages(rt: HostRuntime) {
    let (sender, receiver) = wide(&rt);
    equal(&rt, send_all(&sender, 1000), 1000);
    equal(&rt, receiver.try_iter().sum::<u64>(), sum_below(1000));
    equal(&rt, sender.send(1), Ok(()));
}

#[test]
fn an_iterator_may_be_left_and_begun_again(rt: HostRuntime) {
    let (sender, receiver) = wide(&rt);
    equal(&rt, send_all(&sender, 4), 4);
    drop(sender);
    let mut found = 0;
    for number in &receiver {
        found += 1;
        if number == 1 {
            break;
        }
    }
    equal(&rt, found, 2);
    equal(&rt, receiver.iter().sum::<u64>(), 5);
}

#[test]
fn an_iterator_may_have_the_receiver(rt: HostRuntime) {
    let mut messages = {
        let (sender, receiver) = wide(&rt);
        equal(&rt, send_all(&sender, 2), 2);
        receiver.into_iter()
    };
    equal(&rt, messages.next(), Some(0));
    equal(&rt, messages.next(), Some(1));
    equal(&rt, messages.next(), None);
}

#[test]
fn an_iterator_may_borrow_the_receiver(rt: HostRuntime) {
    let (sender, receiver) = wide(&rt);
    equal(&rt, send_all(&sender, 2), 2);
    drop(sender);
    let mut messages = (&receiver).into_iter();
    equal(&rt, messages.next(), Some(0));
    equal(&rt, messages.next(), Some(1));
    equal(&rt, messages.next(), None);
}

#[test]
fn a_drain_takes_what_is_there(rt: HostRuntime) {
    let (sender, receiver) = wide(&rt);
    equal(&rt, send_all(&sender, 100), 100);
    let there = receiver.drain(rt.alloc()).expect(&rt, "memory");
    equal(&rt, sender.send(7), Ok(()));
    equal(&rt, there.len(), 100);
    equal(&rt, there.sum::<u64>(), sum_below(100));
    equal(&rt, receiver.try_recv(), Ok(7));
    equal(&rt, receiver.try_recv(), Err(TryRecvError::Empty));
}

#[test]
fn a_full_channel_refuses(rt: HostRuntime) {
    let (sender, receiver) = narrow(&rt, 5);
    for number in 0..5u64 {
        equal(&rt, sender.try_send(number), Ok(()));
    }
    equal(&rt, sender.try_send(42), Err(TrySendError::Full(42)));
    equal(&rt, receiver.recv(), Ok(0));
    equal(&rt, sender.try_send(42), Ok(()));
    equal(&rt, sender.try_send(43), Err(TrySendError::Full(43)));
    drop(receiver.drain(rt.alloc()).expect(&rt, "memory"));
    equal(&rt, sender.try_send(44), Ok(()));
    drop(receiver);
    equal(
        &rt,
        sender.try_send(45),
        Err(TrySendError::Disconnected(45)),
    );
}

#[test]
fn a_channel_without_receivers_takes_nothing(rt: HostRuntime) {
    let (sender, receiver) = narrow(&rt, 100);
    let other = receiver.clone().expect(&rt, "an owner");
    drop(receiver);
    equal(&rt, send_all(&sender, 3), 3);
    drop(other);
    equal(&rt, sender.is_disconnected(), true);
    equal(&rt, sender.send(4), Err(SendError::Disconnected(4)));
    equal(&rt, sender.try_send(5), Err(TrySendError::Disconnected(5)));
    equal(
        &rt,
        sender.send_timeout(6, ms(500)),
        Err(SendTimeoutError::Disconnected(6)),
    );
}

#[test]
fn a_channel_without_senders_gives_what_it_has(rt: HostRuntime) {
    let (sender, receiver) = narrow(&rt, 100);
    equal(&rt, send_all(&sender, 3), 3);
    let other = sender.clone().expect(&rt, "an owner");
    drop(sender);
    equal(&rt, receiver.is_disconnected(), false);
    drop(other);
    equal(&rt, receiver.is_disconnected(), true);
    equal(&rt, come_in_order(&receiver, 3), true);
    equal(&rt, receiver.recv(), Err(RecvError::Disconnected));
    equal(&rt, receiver.try_recv(), Err(TryRecvError::Disconnected));
    equal(
        &rt,
        receiver.recv_timeout(ms(500)),
        Err(RecvTimeoutError::Disconnected),
    );
}

#[test]
fn an_end_counts_messages_and_ends(rt: HostRuntime) {
    let (sender, receiver) = narrow(&rt, 2);
    equal(
        &rt,
        [sender.capacity(), receiver.capacity()],
        [Some(2), Some(2)],
    );
    equal(&rt, wide(&rt).0.capacity(), None);
    for sent in 0..3usize {
        equal(&rt, [sender.len(), receiver.len()], [sent, sent]);
        equal(
            &rt,
            [sender.is_empty(), receiver.is_empty()],
            [sent == 0, sent == 0],
        );
        equal(
            &rt,
            [sender.is_full(), receiver.is_full()],
            [sent == 2, sent == 2],
        );
        equal(&rt, sender.try_send(1).is_ok(), sent < 2);
    }
    equal(&rt, receiver.recv(), Ok(1));
    equal(&rt, [sender.len(), receiver.len()], [1, 1]);
    let other = sender.clone().expect(&rt, "an owner");
    equal(
        &rt,
        [sender.sender_count(), receiver.sender_count()],
        [2, 2],
    );
    drop(other);
    equal(
        &rt,
        [sender.sender_count(), receiver.receiver_count()],
        [1, 1],
    );
}

#[test]
fn the_number_of_messages_is_exact(rt: HostRuntime) {
    let (sender, receiver) = narrow(&rt, 60);
    for _ in 0..20 {
        for sent in 1..51usize {
            equal(&rt, sender.send(0), Ok(()));
            equal(&rt, sender.len(), sent);
        }
        for taken in 1..51usize {
            equal(&rt, receiver.recv(), Ok(0));
            equal(&rt, receiver.len(), 50 - taken);
        }
    }
}

/// Whether a call that should wait so long has waited for that time, and returned within five seconds more.
fn waited(rt: &impl Clock, start: Instant, time: Duration) -> bool {
    let took = start.elapsed(rt).unwrap_or(Duration::ZERO);
    time <= took && took < time + Duration::from_secs(5)
}

#[test]
fn a_send_gives_up_in_time(rt: HostRuntime) {
    let (sender, receiver) = narrow(&rt, 1);
    equal(&rt, sender.send_timeout(42, ms(50)), Ok(()));
    let start = Instant::now(&rt).expect(&rt, "a clock");
    equal(
        &rt,
        sender.send_timeout(43, ms(50)),
        Err(SendTimeoutError::Timeout(43)),
    );
    equal(&rt, waited(&rt, start, ms(50)), true);
    let start = Instant::now(&rt).expect(&rt, "a clock");
    equal(
        &rt,
        sender.send_deadline(43, start + ms(50)),
        Err(SendTimeoutError::Timeout(43)),
    );
    equal(&rt, waited(&rt, start, ms(50)), true);
    equal(
        &rt,
        receiver.drain(rt.alloc()).expect(&rt, "memory").count(),
        1,
    );
    drop(receiver);
    equal(
        &rt,
        sender.send_timeout(44, ms(50)),
        Err(SendTimeoutError::Disconnected(44)),
    );
}

#[test]
fn a_receive_gives_up_in_time(rt: HostRuntime) {
    let (sender, receiver) = wide(&rt);
    let start = Instant::now(&rt).expect(&rt, "a clock");
    equal(
        &rt,
        receiver.recv_timeout(ms(50)),
        Err(RecvTimeoutError::Timeout),
    );
    equal(&rt, waited(&rt, start, ms(50)), true);
    equal(&rt, sender.send(42), Ok(()));
    equal(&rt, receiver.recv_timeout(ms(50)), Ok(42));
    let start = Instant::now(&rt).expect(&rt, "a clock");
    equal(
        &rt,
        receiver.recv_deadline(start + ms(50)),
        Err(RecvTimeoutError::Timeout),
    );
    equal(&rt, waited(&rt, start, ms(50)), true);
    equal(&rt, sender.send(43), Ok(()));
    equal(&rt, receiver.recv_deadline(start), Ok(43));
    equal(&rt, sender.send(44), Ok(()));
    equal(&rt, receiver.recv(), Ok(44));
}

#[test]
fn one_thread_sends_and_one_receives(rt: HostRuntime) {
    let (sender, receiver) = narrow(&rt, 3);
    let (sent, (in_order, end)) = thread::join(
        &rt,
        move || send_all(&sender, 1000),
        move || (come_in_order(&receiver, 1000), receiver.recv()),
    );
    equal(&rt, (sent, in_order), (1000, true));
    equal(&rt, end, Err(RecvError::Disconnected));
}

#[test]
fn a_channel_never_has_more_than_its_capacity(rt: HostRuntime) {
    let (sender, receiver) = narrow(&rt, 3);
    let most = || {
        let mut most = 0;
        for _ in 0..500 {
            let _ = receiver.recv();
            most = receiver.len().max(most);
        }
        most
    };
    let send = || {
        let mut most = 0;
        for _ in 0..500 {
            let _ = sender.send(1);
            most = sender.len().max(most);
        }
        most
    };
    let (one, other) = thread::join(&rt, most, send);
    equal(&rt, one.max(other) <= 3, true);
    equal(&rt, sender.len(), 0);
}

#[test]
fn each_message_goes_to_one_receiver(rt: HostRuntime) {
    let (sender, receiver) = narrow(&rt, 3);
    let counts: [AtomicU64; 50] = [const { AtomicU64::new(0) }; 50];
    let receive = || {
        for _ in 0..100 {
            if let Ok(number) = receiver.recv() {
                counts[number as usize].fetch_add(1, SeqCst);
            }
        }
    };
    let send = || {
        send_all(&sender, 50);
    };
    thread::join(
        &rt,
        || thread::join(&rt, receive, receive),
        || thread::join(
            &rt,
            || thread::join(&rt, send, send),
            || thread::join(&rt, send, send),
        ),
    );
    equal(
        &rt,
        counts.iter().all(|count| count.load(SeqCst) == 4),
        true,
    );
}

#[test]
fn who_has_sent_can_receive(rt: HostRuntime) {
    let (sender, receiver) = narrow(&rt, 4);
    let turns = || {
        let mut failed = 0;
        for _ in 0..200 {
            if sender.send(0).is_err() || receiver.try_recv().is_err() {
                failed += 1;
            }
        }
        failed
    };
    let (one, other) = thread::join(
        &rt,
        || thread::join(&rt, turns, turns),
        || thread::join(&rt, turns, turns),
    );
    equal(&rt, (one, other), ((0, 0), (0, 0)));
}

#[test]
fn a_receiver_that_leaves_lets_a_sender_fail(rt: HostRuntime) {
    let (sender, receiver) = narrow(&rt, 1);
    let (sent, ()) = thread::join(
        &rt,
        move || (sender.send(1), sender.send(2)),
        || {
            thread::sleep(&rt, ms(20));
            drop(receiver);
        },
    );
    equal(&rt, sent, (Ok(()), Err(SendError::Disconnected(2))));
}

#[test]
fn a_sender_that_leaves_lets_a_receiver_fail(rt: HostRuntime) {
    let (sender, receiver) = narrow(&rt, 1);
    let (found, ()) = thread::join(
        &rt,
        move || receiver.recv(),
        || {
            thread::sleep(&rt, ms(20));
            drop(sender);
        },
    );
    equal(&rt, found, Err(RecvError::Disconnected));
}

#[test]
fn a_late_sender_is_awaited(rt: HostRuntime) {
    let (sender, receiver) = narrow(&rt, 100);
    let (found, sent) = thread::join(
        &rt,
        move || {
            let early = receiver.try_recv();
            let timed = receiver.recv_timeout(ms(1));
            let late = [receiver.recv(), receiver.recv(), receiver.recv()];
            (early, timed, late, receiver.recv())
        },
        || {
            thread::sleep(&rt, ms(100));
            send_all(&sender, 3);
            drop(sender);
        },
    );
    let _: () = sent;
    equal(&rt, found.0, Err(TryRecvError::Empty));
    equal(&rt, found.1, Err(RecvTimeoutError::Timeout));
    equal(&rt, found.2, [Ok(0), Ok(1), Ok(2)]);
    equal(&rt, found.3, Err(RecvError::Disconnected));
}

#[test]
fn a_late_receiver_is_awaited(rt: HostRuntime) {
    let (sender, receiver) = narrow(&rt, 1);
    let (sent, taken) = thread::join(
        &rt,
        move || {
            let early = [sender.try_send(1), sender.try_send(2)];
            let timed = sender.send_timeout(3, ms(1));
            let late = [sender.send(4), sender.send(5)];
            (early, timed, late)
        },
        || {
            thread::sleep(&rt, ms(100));
            [receiver.recv(), receiver.recv(), receiver.recv()]
        },
    );
    equal(&rt, sent.0, [Ok(()), Err(TrySendError::Full(2))]);
    equal(&rt, sent.1, Err(SendTimeoutError::Timeout(3)));
    equal(&rt, sent.2, [Ok(()), Ok(())]);
    equal(&rt, taken, [Ok(1), Ok(4), Ok(5)]);
}

#[test]
fn many_channels_pass_one_message_each(rt: HostRuntime) {
    for number in 0..100u64 {
        let (sender, receiver) = narrow(&rt, 1);
        let (sent, found) = thread::join(&rt, || sender.send(number), || receiver.recv());
        equal(&rt, (sent, found), (Ok(()), Ok(number)));
    }
}

#[test]
fn timed_calls_that_are_repeated_lose_nothing(rt: HostRuntime) {
    let (sender, receiver) = narrow(&rt, 2);
    let (_, in_order) = thread::join(
        &rt,
        || {
            for number in 0..30u64 {
                if number % 10 == 0 {
                    thread::sleep(&rt, ms(5));
                }
                for _ in 0..1_000_000 {
                    if sender.send_timeout(number, ms(1)).is_ok() {
                        break;
                    }
                }
            }
        },
        || {
            let mut in_order = true;
            for number in 0..30u64 {
                if number % 7 == 0 {
                    thread::sleep(&rt, ms(5));
                }
                for _ in 0..1_000_000 {
                    if let Ok(found) = receiver.recv_timeout(ms(1)) {
                        in_order = in_order && found == number;
                        break;
                    }
                }
            }
            in_order
        },
    );
    equal(&rt, in_order, true);
}

/// Asks, and takes answers by tries, until so many have come.
fn asks_until<W: Wait + Copy>(
    asks: &Sender<u64, W>,
    answers: &Receiver<u64, W>,
    wanted: u64,
) -> u64 {
    let mut count = 0;
    for _ in 0..1_000_000 {
        for answer in answers.try_iter() {
            count += answer;
            if count == wanted {
                return count;
            }
        }
        let _ = asks.send(0);
    }
    count
}

#[test]
fn answers_are_found_by_tries(rt: HostRuntime) {
    for ends in 0..2 {
        let make = || if ends == 0 { wide(&rt) } else { narrow(&rt, 1) };
        let ((asks, asked), (answers, answered)) = (make(), make());
        let (count, ()) = thread::join(
            &rt,
            move || asks_until(&asks, &answered, 200),
            move || {
                for _ in asked.iter() {
                    if answers.send(1).is_err() {
                        break;
                    }
                }
            },
        );
        equal(&rt, count, 200);
    }
}

#[test]
fn a_sum_is_sent_back(rt: HostRuntime) {
    let ((numbers, source), (sums, result)) = (wide(&rt), wide(&rt));
    let (_, sum) = thread::join(
        &rt,
        move || sums.send(source.iter().sum::<u64>()),
        || {
            send_all(&numbers, 4);
            drop(numbers);
            result.recv()
        },
    );
    equal(&rt, sum, Ok(6));
}

/// A message that counts its drops.
struct Counted(Arc<AtomicU64>);

impl Drop for Counted {
    fn drop(self) {
        let Self(drops) = self;
        drops.fetch_add(1, SeqCst);
    }
}

#[test]
fn each_message_is_dropped_once(rt: HostRuntime) {
    let drops = Arc::new(rt.alloc(), AtomicU64::new(0)).expect(&rt, "memory");
    let message = || Counted(Arc::try_clone(&drops).expect(&rt, "an owner"));
    let (sender, receiver) = bounded::<Counted, _>(rt.alloc(), &rt, 50).expect(&rt, "memory");
    for _ in 0..20 {
        equal(&rt, sender.send(message()).is_ok(), true);
    }
    for taken in 0..10u64 {
        equal(&rt, drops.load(SeqCst), taken);
        equal(&rt, receiver.recv().is_ok(), true);
    }
    drop(receiver);
    equal(&rt, sender.send(message()).is_err(), true);
    equal(&rt, drops.load(SeqCst), 11);
    drop(sender);
    equal(&rt, drops.load(SeqCst), 21);
}

#[test]
fn messages_between_threads_are_dropped_once(rt: HostRuntime) {
    let drops = Arc::new(rt.alloc(), AtomicU64::new(0)).expect(&rt, "memory");
    let message = || Counted(Arc::try_clone(&drops).expect(&rt, "an owner"));
    let (sender, receiver) = bounded::<Counted, _>(rt.alloc(), &rt, 50).expect(&rt, "memory");
    let send = |count: u64| {
        for _ in 0..count {
            equal(&rt, sender.send(message()).is_ok(), true);
        }
    };
    let receive = || {
        for _ in 0..300 {
            equal(&rt, receiver.recv().is_ok(), true);
        }
    };
    thread::join(&rt, || send(300), receive);
    equal(&rt, drops.load(SeqCst), 300);
    send(30);
    drop((sender, receiver));
    equal(&rt, drops.load(SeqCst), 330);
}

/// A message that cannot be printed.
#[derive(Drop)]
struct Unprintable;

fn is_error(_error: &impl Error) -> bool {
    true
}

#[test]
fn an_error_needs_no_message_that_prints(rt: HostRuntime) {
    let (sender, receiver) = bounded(rt.alloc(), &rt, 1).expect(&rt, "memory");
    drop(receiver);
    let sent = sender.send(Unprintable);
    equal(&rt, sent.is_err_and(|error| is_error(&error)), true);
    let sent = sender.try_send(Unprintable);
    equal(&rt, sent.is_err_and(|error| is_error(&error)), true);
    let sent = sender.send_timeout(Unprintable, ms(1));
    equal(&rt, sent.is_err_and(|error| is_error(&error)), true);
}

/// Receives one message, and returns whether the thread has slept meanwhile, nearly all the time.
fn sleeps_until_it_receives<R: Wait + CpuClock>(rt: &R, receiver: &Receiver<u64, &R>) -> bool {
    let used = || rt.thread_cpu_time().unwrap_or(Duration::MAX);
    let before = used();
    receiver.recv().is_ok() && used().saturating_sub(before) < ms(200)
}

#[test]
fn four_idle_receivers_sleep(rt: HostRuntime) {
    let (sender, receiver) = wide(&rt);
    let sleeps = || sleeps_until_it_receives(&rt, &receiver);
    let send = || {
        thread::sleep(&rt, ms(2000));
        send_all(&sender, 4)
    };
    let two = || thread::join(&rt, sleeps, sleeps);
    let (slept, sent) = thread::join(&rt, || thread::join(&rt, two, two), send);
    equal(&rt, (slept, sent), (((true, true), (true, true)), 4));
}

#[test]
fn an_idle_sender_sleeps(rt: HostRuntime) {
    let (sender, receiver) = narrow(&rt, 1);
    let send = || {
        let before = rt.thread_cpu_time().unwrap_or(Duration::MAX);
        let sent = [sender.send(1), sender.send(2)];
        let used = rt
            .thread_cpu_time()
            .unwrap_or(Duration::MAX)
            .saturating_sub(before);
        (sent, used < ms(200))
    };
    let receive = || {
        thread::sleep(&rt, ms(2000));
        [receiver.recv(), receiver.recv()]
    };
    let (sent, taken) = thread::join(&rt, send, receive);
    equal(&rt, sent, ([Ok(()), Ok(())], true));
    equal(&rt, taken, [Ok(1), Ok(2)]);
}

/// Threads on both sides that give up again and again take no call from one that sleeps.
#[test]
fn who_gives_up_takes_no_call_from_a_sleeper(rt: HostRuntime) {
    let (sender, receiver) = narrow(&rt, 1);
    let rounds = 200u64;
    let send = || {
        let mut late = 0;
        for number in 0..rounds {
            if number % 8 == 0 {
                thread::sleep(&rt, ms(1));
            }
            for _ in 0..1_000_000 {
                if sender
                    .send_timeout(number, Duration::from_micros(20))
                    .is_ok()
                {
                    break;
                }
                late += 1;
            }
        }
        late
    };
    let waits = || {
        let mut taken = 0u64;
        for _ in 0..rounds {
            taken += receiver.recv().is_ok() as u64;
        }
        taken
    };
    let gives_up = || {
        let mut taken = 0u64;
        for _ in 0..1_000_000 {
            match receiver.recv_timeout(Duration::from_micros(30)) {
                Ok(_) => taken += 1,
                Err(_) => {}
            }
            if taken == rounds {
                break;
            }
        }
        taken
    };
    let (taken, _) = thread::join(
        &rt,
        || thread::join(&rt, waits, gives_up),
        || thread::join(&rt, send, send),
    );
    equal(&rt, taken, (rounds, rounds));
}
