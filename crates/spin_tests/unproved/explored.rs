//! The program over streams in memory: texts with all that is written for them, and what the program says when it
//! fails.

use crate::ends::{Paper, Tape};
use spin_run::explore::program;

/// Words, a text, the status, what is written, and the line on standard error.
type Row = (
    &'static [&'static str],
    &'static str,
    u8,
    &'static str,
    &'static str,
);

const LOOK: &str = "flag 5 1\n0 begin lock\n0 read\n";

const USAGE: &str = "usage: spin-explore [--schedule NUMBER] [--limit STATES]\n";

const ROWS: &[Row] = &[
    (
        &[],
        "flag 5 1",
        0,
        "in order: the lock\noutcome 1\nend: 0 value 5\n\nstates 1, outcomes 1, stuck 0\n",
        "",
    ),
    (
        &[],
        LOOK,
        0,
        "thread 0 ends with the lock\n\
         outcome 1\n0 begin lock: granted\n0 read: value 5\nend: 1 value 5\n\nstates 5, outcomes 1, stuck 0\n",
        "",
    ),
    (
        &["--schedule", "1"],
        LOOK,
        0,
        "flag 5 1\n0 begin lock\n0 step\n0 read\n",
        "",
    ),
    (
        &[],
        "lock a flag 5\nlock b once\n0 b begin get\n0 a read\n",
        0,
        "in order: a < b\noutcome 1\n0 b begin get: none\n0 a read: passed over\nend a: 0 value 5\nend b: 0 value none\n\n\
         states 4, outcomes 1, stuck 0\n",
        "",
    ),
    (
        &["--schedule", "1"],
        "lock a flag 5\nlock b once\n0 b begin get\n",
        0,
        "lock a flag 5\nlock b once\n0 b begin get\n0 b step\n",
        "",
    ),
    (
        &[],
        "barrier 2 1\n0 begin wait\n",
        3,
        "line 2: thread 0 waits for other threads at the lock\n\
         deadlock 1\n0 begin wait: pending\nend: 1 0 value none\nschedule\n0 begin wait\n0 step\n\n\
         states 3, outcomes 0, stuck 3\n",
        "",
    ),
    (
        &[],
        "fair 5 8 0 2\n0 begin starve\n1 begin lock\n1 begin release\n",
        3,
        "thread 0 ends with the lock\n\
         outcome 1\n0 begin starve: granted\n1 begin lock: granted\n1 begin release: done\nend: 2 value 5\n\n\
         stuck 1\n0 begin starve: granted\n1 begin lock: pending\n1 begin release: pending\nend: 2 value 5\n\
         schedule\n0 begin starve\n0 step\n0 step\n\nstates 27, outcomes 1, stuck 3\n",
        "",
    ),
    // Whether the owner let the leaked guard go shows in no line, so three states have two texts.
    (
        &[],
        "flag 5 2\n0 begin lock\n0 leak\n1 owner get\n",
        0,
        "line 3: thread 0 never releases the lock\n\
         outcome 1\n0 begin lock: granted\n0 leak: leaked\n1 owner get: value 5\nend: 1 value 5\n\n\
         outcome 2\n0 begin lock: granted\n0 leak: leaked\n1 owner get: passed over\nend: 1 value 5\n\n\
         states 15, outcomes 2, stuck 0\n",
        "",
    ),
    // As many threads as a text may have.
    (
        &[],
        "flag 5 1000\n999 begin lock\n",
        0,
        "thread 999 ends with the lock\n\
         outcome 1\n999 begin lock: granted\nend: 1 value 5\n\nstates 4, outcomes 1, stuck 0\n",
        "",
    ),
    (
        &["--limit", "5"],
        "flag 5 1",
        0,
        "in order: the lock\noutcome 1\nend: 0 value 5\n\nstates 1, outcomes 1, stuck 0\n",
        "",
    ),
    (
        &["--limit", "1"],
        LOOK,
        1,
        "",
        "too many states: stopped after 2\n",
    ),
    (
        &["--limit", "0"],
        "flag 5 2\n0 begin lock\n1 begin lock\n1 begin release\n",
        0,
        "thread 0 ends with the lock\n",
        "",
    ),
    (
        &["--limit", "0", "--schedule", "1"],
        LOOK,
        1,
        "",
        "too many states: stopped after 1\n",
    ),
    (&["--schedule", "2"], LOOK, 2, "", "no such outcome\n"),
    (&["--schedule", "0"], LOOK, 2, "", "no such outcome\n"),
    (
        &["--schedule", "1"],
        "barrier 2 1\n0 begin wait\n",
        2,
        "",
        "no such outcome\n",
    ),
    (&[], "", 2, "", "bad line 1\n"),
    (&[], "flag 5 1\n0 jump\n", 2, "", "bad line 2\n"),
    (&[], "lock a flag 5\nlock a once\n", 2, "", "bad line 2\n"),
    (&["--schedule"], LOOK, 2, "", USAGE),
    (&["--limit", "x"], LOOK, 2, "", USAGE),
    (&["world"], LOOK, 2, "", USAGE),
];

#[test]
fn texts_and_what_comes_of_them(rt: HostRuntime) {
    for (words, text, status, told, line) in ROWS {
        let mut input = Tape::new(text.as_bytes());
        let mut output = Paper::endless(rt.alloc());
        let mut errors = Paper::endless(rt.alloc());
        let ended = program(rt.alloc(), words, &mut input, &mut output, &mut errors);
        assert_eq!(rt; ended, *status, "{text}");
        output.must_show(&rt, told.as_bytes());
        errors.must_show(&rt, line.as_bytes());
    }
}

#[test]
fn streams_that_fail(rt: HostRuntime) {
    let told = "in order: the lock\noutcome 1\nend: 0 value 5\n\nstates 1, outcomes 1, stuck 0\n";
    for room in 0..told.len().saturating_add(1) {
        let mut input = Tape::new(b"flag 5 1\n");
        let mut output = Paper::new(rt.alloc(), usize::MAX, room);
        // Where the output does not fit, the line may not fit either. Then the status is the same.
        let mut errors = Paper::new(rt.alloc(), usize::MAX, room);
        let ended = program(rt.alloc(), &[], &mut input, &mut output, &mut errors);
        let (status, line) = if room == told.len() {
            (0, "")
        } else {
            (1, "write failed\n")
        };
        assert_eq!(rt; ended, status, "{room}");
        output.must_show(&rt, told.as_bytes());
        errors.must_show(&rt, line.as_bytes());
    }
    let mut input = Tape::new(LOOK.as_bytes());
    input.fails = true;
    let mut output = Paper::endless(rt.alloc());
    let mut errors = Paper::endless(rt.alloc());
    let ended = program(rt.alloc(), &[], &mut input, &mut output, &mut errors);
    assert_eq!(rt; ended, 1);
    output.must_show(&rt, b"");
    errors.must_show(&rt, b"read failed\n");
}

#[test]
fn a_thousand_lines_in_order_need_no_search(rt: HostRuntime) {
    let mut text = Vec::new(rt.alloc());
    assert!(rt;
        text.extend_from_slice(b"lock a flag 5\nlock b rw 5 2\n")
            .is_ok()
    );
    for _ in 0..166 {
        for lines in [
            "0 a begin lock\n0 b begin write\n0 b begin release\n0 a begin release\n",
            "1 a begin lock\n1 a begin release\n",
        ] {
            assert!(rt; text.extend_from_slice(lines.as_bytes()).is_ok());
        }
    }
    let mut input = Tape::new(&text);
    let mut output = Paper::endless(rt.alloc());
    let mut errors = Paper::endless(rt.alloc());
    let ended = program(
        rt.alloc(),
        &["--limit", "0"],
        &mut input,
        &mut output,
        &mut errors,
    );
    assert_eq!(rt; ended, 0);
    output.must_show(&rt, b"in order: a < b\n");
    errors.must_show(&rt, b"");
}
