//! A journal is replayed, and each allocation of a ledger is refused.
use crate::equal::equal;
use crate::ledger::{has_balances, transfer_of};
use bumpalo::Bump;
use spin_examples::ledger::{Accounts, Refused, replay};
use std::marker::Brand;
use std::process::Abort;

#[test]
fn a_journal_is_replayed(rt: HostRuntime) {
    let journal = [transfer_of(0, 2, 30), transfer_of(2, 1, 10)];
    let balances = replay(rt.alloc(), &[100, 20, 0], &journal).expect(&rt, "memory");
    equal(&rt, balances.as_slice(), [70, 30, 20].as_slice());
    let refused = replay(rt.alloc(), &[29, 20, 0], &journal);
    equal(&rt, refused.err(), Some(Refused::TooLittle));
    let refused = replay(rt.alloc(), &[100, 20], &journal);
    equal(&rt, refused.err(), Some(Refused::NoSuchAccount));
}

/// Makes a transfer, and replays the journal, with this many bytes of memory left. Returns whether memory sufficed for
/// both.
fn is_refused_whole<'a>(
    rt: &impl Abort,
    arena: &'a Bump,
    left: usize,
    balances: Vec<u64, &'a Bump>,
) -> bool {
    arena.set_allocation_limit(Some(0));
    let filled = arena.chunk_capacity().saturating_sub(left);
    let filled = Vec::<u8, &'a Bump>::with_capacity(arena, filled).expect(rt, "memory");
    let mut accounts: Accounts<Brand, &'a Bump> = Accounts::open(arena, balances);
    let first = accounts.transfer(transfer_of(0, 2, 30));
    let again = replay(arena, &[100, 20, 0], accounts.journal()).err();
    drop(filled);
    if first.is_err() {
        equal(rt, first, Err(Refused::OutOfMemory));
        has_balances(rt, &accounts, [100, 20, 0]);
        equal(rt, accounts.journal().is_empty(), true);
        return false;
    }
    has_balances(rt, &accounts, [70, 20, 30]);
    if again.is_some() {
        equal(rt, again, Some(Refused::OutOfMemory));
    }
    again.is_none()
}

#[test]
fn each_allocation_is_refused(rt: HostRuntime) {
    let mut refused = 0u32;
    for left in 0..512usize {
        let arena = Bump::try_with_capacity(rt.alloc(), 1024).expect(&rt, "memory");
        let balances = Vec::from_slice(&arena, &[100u64, 20, 0]).expect(&rt, "memory");
        if !is_refused_whole(&rt, &arena, left, balances) {
            refused = refused.saturating_add(1);
        }
    }
    equal(&rt, 24 <= refused && refused < 512, true);
}
