//! Who leads a group of none and a group of one.
use crate::equal::equal;
use spin_barrier::barrier::Barrier;

#[test]
fn a_group_of_none_is_a_group_of_one(rt: HostRuntime) {
    for n in [0, 1] {
        let barrier: Barrier = Barrier::new(n);
        for _ in 0..3 {
            equal(&rt, barrier.wait(&rt).is_leader(), true);
        }
    }
}
