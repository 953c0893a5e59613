//! The step functions of readers and a writer, applied to words.
use crate::equal::equal;
use spin_step_more::rw;

/// Words with a cap, the word after a reader acquires, and the word after an upgradable reader acquires.
const READS: &[(usize, usize, Option<usize>, Option<usize>)] = &[
    (0, 2, Some(8), Some(2)),
    (1, 2, None, None),
    (2, 2, Some(10), None),
    (6, 2, None, None),
    (6, 3, None, None),
    (8, 2, Some(16), Some(10)),
    (10, 2, None, None),
    (10, 3, Some(18), None),
    (14, 3, None, None),
    (16, 2, None, None),
];

#[test]
fn reads_at_each_word(rt: HostRuntime) {
    for (word, cap, read, upgradable) in READS {
        let found = (rw::read(*word, *cap), rw::upgradable(*word, *cap));
        equal(&rt, found, (*read, *upgradable));
    }
}

/// Words, and the word after a writer acquires, after an upgrade, and after an upgrade that has asked before.
const WRITES: &[(usize, Option<usize>, Option<usize>, Option<usize>)] = &[
    (0, Some(1), None, None),
    (1, None, None, None),
    (2, None, Some(1), None),
    (6, None, None, Some(1)),
    (8, None, None, None),
    (10, None, None, None),
    (14, None, None, None),
];

#[test]
fn writes_at_each_word(rt: HostRuntime) {
    for (word, write, upgrade, asked) in WRITES {
        let found = (
            rw::write(*word),
            rw::upgrade(*word),
            rw::upgrade_asked(*word),
        );
        equal(&rt, found, (*write, *upgrade, *asked));
    }
}

/// Words, with the number of readers and of writers.
const COUNTS: &[(usize, usize, usize)] = &[
    (0, 0, 0),
    (1, 0, 1),
    (6, 1, 0),
    (10, 2, 0),
    (14, 2, 0),
    (18, 3, 0),
];

#[test]
fn counts(rt: HostRuntime) {
    for (word, readers, writers) in COUNTS {
        let found = (rw::readers(*word), rw::writers(*word));
        equal(&rt, found, (*readers, *writers));
    }
}

#[test]
fn releases_and_turns_at_each_word(rt: HostRuntime) {
    equal(&rt, [rw::release_read(18), rw::release_read(14)], [10, 6]);
    let releases = [rw::release_upgradable(10), rw::release_write(1)];
    equal(&rt, releases, [8, 0]);
    let turns = [
        rw::write_to_read(1),
        rw::write_to_upgradable(1),
        rw::upgradable_to_read(10),
    ];
    equal(&rt, turns, [8, 2, 16]);
    equal(&rt, [rw::ask(2), rw::ask(10)], [6, 14]);
}

#[test]
fn the_last_reader_is_below_the_limit(rt: HostRuntime) {
    let most = 8 * rw::MAX_READERS;
    let reads = [
        rw::read(most - 8, usize::MAX),
        rw::read(most - 6, usize::MAX),
        rw::read(most, usize::MAX),
    ];
    equal(&rt, reads, [Some(most), None, None]);
    let upgradable = [
        rw::upgradable(most - 8, usize::MAX),
        rw::upgradable(most, usize::MAX),
    ];
    equal(&rt, upgradable, [Some(most - 6), None]);
    equal(&rt, rw::upgradable_to_read(most - 6), most);
}
