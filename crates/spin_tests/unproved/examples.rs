//! What callers of one thread return that the pages print.
use crate::equal::equal;
use spin::mutex::{FairMutex, SpinMutex, TicketMutex};
use spin::{LazyLock, Once, RwLock};
use spin_examples::from_rust::{doubled, port_of, raise};
use spin_examples::versions::watch_one;
use spin_examples::{any_lock, paired};

#[test]
fn shared_values_as_in_rust(rt: HostRuntime) {
    let limit = RwLock::new(3);
    let raised = [
        raise(&rt, &limit, 2),
        raise(&rt, &limit, 4),
        limit.into_inner(),
    ];
    equal(&rt, raised, [3, 4, 4]);
    let lazy: LazyLock<u64, _> = LazyLock::new(|| 4);
    equal(&rt, [doubled(&rt, &lazy), doubled(&rt, &lazy)], [8; 2]);
    let port: Once<u16> = Once::new();
    let mut ports = [None; 3];
    for (at, text) in ["no port", "80", "none"].iter().enumerate() {
        ports[at] = port_of(&rt, &port, text).ok().copied();
    }
    equal(&rt, ports, [None, Some(80), Some(80)]);
}

#[test]
fn logs_need_no_file_that_names_them(rt: HostRuntime) {
    equal(&rt, watch_one(&rt), (1, 1));
    equal(&rt, paired::write_a_pair(&rt, (3, 5)), (3, 5));
    equal(&rt, paired::audit_one(&rt, 7), (7, 7));
}

#[test]
fn one_code_for_every_lock(rt: HostRuntime) {
    let (spin, ticket, fair): (SpinMutex<u64>, TicketMutex<u64>, FairMutex<u64>) = (
        SpinMutex::new(1),
        TicketMutex::new(2),
        FairMutex::new(3),
    );
    let (mutex, shared): (spin::Mutex<u64>, RwLock<u64>) = (spin::Mutex::new(4), RwLock::new(5));
    let counted = [
        any_lock::count(&rt, &spin),
        any_lock::count(&rt, &ticket),
        any_lock::count(&rt, &fair),
        any_lock::count(&rt, &mutex),
        any_lock::count(&rt, &shared),
        any_lock::read_up_to(&rt, &shared, 9),
    ];
    equal(&rt, counted, [2, 3, 4, 5, 6, 6]);
    let at_open = any_lock::try_count(&spin);
    let guard = spin.lock(&rt);
    let at_held = any_lock::try_count(&spin);
    drop(guard);
    equal(&rt, [at_open, at_held], [Some(3), None]);
}
