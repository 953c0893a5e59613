//! Each step function returns the right word.
use crate::equal::equal;
use spin_core::step::{flag, once, ticket};
use spin_step_more::barrier::State;
use spin_step_more::fair::LockRejectReason::{Locked, Starved};
use spin_step_more::{barrier, fair};

#[test]
fn flag_steps(rt: HostRuntime) {
    let locks = [flag::lock(false), flag::lock(true)];
    equal(
        &rt,
        (locks, flag::unlock(true)),
        ([Some(true), None], false),
    );
}

#[test]
fn fair_words(rt: HostRuntime) {
    let locks = [fair::lock(0), fair::lock(1), fair::lock(2)];
    equal(&rt, locks, [Some(1), None, None]);
    let reasons = [fair::reject(1), fair::reject(2), fair::reject(3)];
    equal(&rt, reasons, [Locked, Starved, Starved]);
    let mut locked = [false; 4];
    for word in 0..4usize {
        locked[word] = fair::is_locked(word);
    }
    equal(&rt, locked, [false, true, false, true]);
    let starves = [fair::starve(1, 1), fair::starve(2, 1)];
    let fairly = [fair::lock_fair(2), fair::lock_fair(4)];
    let starved = [fair::lock_starved(4), fair::lock_starved(5)];
    let granted = [starves, fairly, starved];
    equal(
        &rt,
        granted,
        [[Some(3), None], [Some(3), None], [Some(5), None]],
    );
    equal(&rt, [fair::unstarve(3), fair::unlock(3)], [1, 2]);
}

#[test]
fn the_last_starver_is_below_the_limit(rt: HostRuntime) {
    let most = 2 * fair::MAX_STARVERS + 1;
    equal(&rt, fair::starve(most - 2, usize::MAX), Some(most));
    equal(&rt, fair::starve(most, usize::MAX), None);
}

#[test]
fn the_last_ticket_is_below_the_limit(rt: HostRuntime) {
    equal(&rt, ticket::take(u64::MAX - 1), Some(u64::MAX));
    equal(&rt, ticket::take(u64::MAX), None);
}

#[test]
fn reasons_are_told(rt: HostRuntime) {
    let told = format!(in rt.alloc(); "{Locked} {Starved} {Locked:?} {Starved:?}");
    let told = told.expect(&rt, "memory");
    equal(&rt, told.as_str(), "locked starved Locked Starved");
}

#[test]
fn once_states(rt: HostRuntime) {
    let begins = [once::begin(0), once::begin(1), once::begin(2)];
    equal(&rt, begins, [Some(1), None, None]);
    equal(&rt, [once::complete(1), once::fail(1)], [2, 0]);
}

#[test]
fn each_last_of_a_group_leads(rt: HostRuntime) {
    let (first, leads_first) = barrier::arrive(State::new(2));
    let (second, leads_second) = barrier::arrive(first);
    equal(&rt, [leads_first, leads_second], [false, true]);
    let may_leave = [barrier::may_leave(first, 0), barrier::may_leave(second, 0)];
    equal(&rt, may_leave, [false, true]);
    equal(&rt, (second.n, second.count, second.generation), (2, 0, 1));
}

#[test]
fn a_group_of_none_is_a_group_of_one(rt: HostRuntime) {
    let mut state = State::new(0);
    equal(&rt, state.arrive(), true);
    equal(&rt, state.arrive(), true);
    equal(&rt, (state.n, state.count, state.generation), (0, 0, 2));
}

#[test]
fn generations_wrap(rt: HostRuntime) {
    let last = State {
        n: 1,
        count: 0,
        generation: usize::MAX,
    };
    let (next, leads) = barrier::arrive(last);
    equal(&rt, leads, true);
    equal(&rt, next.generation, 0);
}
