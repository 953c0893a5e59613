//! Guards of a part of a value: of mutexes, of readers, of a writer, and of another such guard.
use crate::equal::equal;
use spin_core::relax::Yield;
use spin_flag::spin::{SpinMutex, SpinMutexGuard};
use spin_parts::{Mapped, Part};
use spin_rwlock::rwlock::{RwLock, RwLockReadGuard, RwLockWriteGuard};
use std::sync::Wait;

#[derive(Drop)]
struct Server {
    port: u16,
    load: Load,
}

#[derive(Drop)]
struct Load {
    requests: u64,
    failed: u64,
}

struct Loaded;

impl Part<Server> for Loaded {
    type Out = Load;

    ghost of = { λ whole. whole.load };

    ghost with = { λ whole part. record whole { load = part } };

    fn of(value: &Server) -> &Load {
        &value.load
    }

    fn of_mut(value: &mut Server) -> &mut Load {
        &mut value.load
    }
}

struct Requests;

impl Part<Load> for Requests {
    type Out = u64;

    ghost of = { λ whole. whole.requests };

    ghost with = { λ whole part. record whole { requests = part } };

    fn of(value: &Load) -> &u64 {
        &value.requests
    }

    fn of_mut(value: &mut Load) -> &mut u64 {
        &mut value.requests
    }
}

fn idle_server() -> Server {
    Server {
        port: 80,
        load: Load {
            requests: 0,
            failed: 1,
        },
    }
}

type Written<'a> = Mapped<SpinMutexGuard<'a, Server, Yield>, Loaded>;

fn serve<W: Wait>(rt: &W, server: &SpinMutex<Server, Yield>) {
    for _turn in 0..1000 {
        let load: Written<'_> = Mapped::map(server.lock(rt));
        let mut requests: Mapped<Written<'_>, Requests> = Mapped::map(load);
        *requests = (*requests).saturating_add(1);
    }
}

#[test]
fn two_threads_write_a_part_of_a_part(rt: HostRuntime) {
    let server: SpinMutex<Server, Yield> = SpinMutex::new(idle_server());
    let (lent, host) = (&server, &rt);
    std::thread::join(host, || serve(host, lent), || serve(host, lent));
    let Server { port, load } = server.into_inner();
    equal(&rt, (port, load.requests, load.failed), (80, 2000, 1));
}

fn serve_rw<W: Wait>(rt: &W, server: &RwLock<Server, Yield>) {
    for _turn in 0..500 {
        let mut load: Mapped<RwLockWriteGuard<'_, Server, Yield>, Loaded> = Mapped::map(
            server.write(rt),
        );
        load.requests = load.requests.saturating_add(1);
        load.failed = load.failed.saturating_add(1);
    }
}

fn look<W: Wait>(rt: &W, server: &RwLock<Server, Yield>) -> u64 {
    let mut torn = 0u64;
    for _turn in 0..500 {
        let load: Mapped<RwLockReadGuard<'_, Server, Yield>, Loaded> = Mapped::map(server.read(rt));
        if load.failed.saturating_sub(load.requests) != 1 {
            torn = torn.saturating_add(1);
        }
    }
    torn
}

#[test]
fn readers_see_a_part_that_a_writer_writes(rt: HostRuntime) {
    let server: RwLock<Server, Yield> = RwLock::new(idle_server());
    let (lent, host) = (&server, &rt);
    let ((), torn) = std::thread::join(host, || serve_rw(host, lent), || look(host, lent));
    let read: Mapped<RwLockReadGuard<'_, Server, Yield>, Loaded> = Mapped::map(server.read(&rt));
    let other = server.read(&rt);
    equal(&rt, (torn, read.requests, other.load.failed), (0, 500, 501));
    drop(other);
    let whole = Mapped::whole(read);
    equal(&rt, (whole.port, server.try_write().is_none()), (80, true));
    drop(whole);
    equal(&rt, server.try_write().is_some(), true);
}
