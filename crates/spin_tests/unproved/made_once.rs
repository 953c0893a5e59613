//! The drops of a value that is made once, and of the closure or initialiser that makes it.
use super::counted::Counted;
use crate::equal::equal;
use spin_once::lazylock::LazyLock;
use spin_once::once::Once;
use std::cell::Cell;

#[test]
fn the_value_of_a_once_ends_once(rt: HostRuntime) {
    let ends = Cell::new(0);
    let once: Once<Counted> = Once::new();
    once.call_once(&rt, || Counted { ends: &ends });
    once.call_once(&rt, || Counted { ends: &ends });
    let made = ends.get();
    drop(once);
    let dropped = ends.get();
    drop(Once::<Counted>::new());
    let dropped_empty = ends.get();
    let value = Once::<Counted>::initialized(Counted { ends: &ends }).try_into_inner();
    let opened = ends.get();
    drop(value);
    let value_dropped = ends.get();
    let mut once = Once::<Counted>::initialized(Counted { ends: &ends });
    if let Some(value) = once.get_mut() {
        *value = Counted { ends: &ends };
    }
    let written = ends.get();
    drop(once);
    equal(&rt, [made, dropped, dropped_empty], [0, 1, 1]);
    equal(&rt, [opened, value_dropped], [1, 2]);
    equal(&rt, [written, ends.get()], [3, 4]);
}

#[test]
fn an_initialiser_and_its_value_end_once(rt: HostRuntime) {
    let ends = Cell::new(0u32);
    let never_run = Counted { ends: &ends };
    let lazy: LazyLock<u64, _> = LazyLock::new(move || {
        drop(never_run);
        1
    });
    drop(lazy);
    let dropped = ends.get();
    let run = Counted { ends: &ends };
    let lazy: LazyLock<u64, _> = LazyLock::new(move || {
        drop(run);
        1
    });
    LazyLock::force(&lazy, &rt);
    let run = ends.get();
    drop(lazy);
    let run_and_dropped = ends.get();
    let lazy: LazyLock<Counted, _> = LazyLock::new(|| Counted { ends: &ends });
    LazyLock::force(&lazy, &rt);
    let forced = ends.get();
    drop(lazy);
    equal(&rt, [dropped, run, run_and_dropped], [1, 2, 2]);
    equal(&rt, [forced, ends.get()], [2, 3]);
}
