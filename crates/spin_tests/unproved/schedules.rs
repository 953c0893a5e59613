//! What no contract says: worked texts byte for byte, good and bad lines, and streams that fail.

use super::lines::{OUTSIDE, WITHIN};
use super::worked::{Worked, pages, worked_on};
use crate::ends::{Paper, Tape};
use spin_run::run::{OfStd, RunError, Sink, Source, world_text};
use std::alloc::Global;
use std::cell::Cell;
use std::io;
use std::process::Abort;

/// Plays a text over these streams, and compares the answer and what was written.
fn plays(
    rt: &impl Abort,
    alloc: Global,
    input: &mut Tape<'_>,
    output: &mut Paper,
    answer: Result<(), RunError>,
    told: &[u8],
) {
    let text = input.rest;
    assert_eq!(rt; world_text(alloc, input, output), answer, "{text:?}");
    output.must_show(rt, told);
}

/// Plays a text over streams that do not fail.
fn comes_to(
    rt: &impl Abort,
    alloc: Global,
    text: &[u8],
    answer: Result<(), RunError>,
    told: &[u8],
) {
    let mut output = Paper::endless(alloc);
    plays(rt, alloc, &mut Tape::new(text), &mut output, answer, told);
}

/// Plays a schedule in reads and writes of at most `step` bytes, and compares what was written.
fn tells(rt: &impl Abort, alloc: Global, step: usize, shows: &str, text: &[u8], told: &str) {
    let mut input = Tape::new(text);
    input.step = step;
    let mut output = Paper::new(alloc, step, usize::MAX);
    world_text(alloc, &mut input, &mut output).expect(rt, shows);
    assert_eq!(rt; output.text(rt), told, "{shows}");
}

/// Plays a worked schedule as [`tells`] does, with its last line feed and without.
fn tells_ended(rt: &impl Abort, alloc: Global, step: usize, it: &Worked<'_>) {
    let text = it.schedule.as_bytes();
    let (without_end, _) = text.split_at(text.len().saturating_sub(1));
    for text in [text, without_end] {
        tells(rt, alloc, step, it.shows, text, &it.transcript);
    }
}

#[test]
fn worked_texts_whole_and_in_small_steps(rt: HostRuntime) {
    for page in &pages(&rt) {
        for it in &worked_on(&rt, rt.alloc(), page) {
            for step in [usize::MAX, 1, 2, 3, 4, 5, 6, 7, 8] {
                tells_ended(&rt, rt.alloc(), step, it);
            }
        }
    }
}

#[test]
fn lines_of_the_grammar(rt: HostRuntime) {
    for (text, told) in WITHIN {
        comes_to(&rt, rt.alloc(), text.as_bytes(), Ok(()), told.as_bytes());
    }
}

#[test]
fn lines_outside_the_grammar(rt: HostRuntime) {
    for (text, line) in OUTSIDE {
        let answer = Err(RunError::BadLine(*line));
        comes_to(&rt, rt.alloc(), text.as_bytes(), answer, b"");
    }
    let answer = Err(RunError::BadLine(1));
    comes_to(&rt, rt.alloc(), b"flag 5 \xff\n", answer, b"");
}

#[test]
fn tells_a_failed_write(rt: HostRuntime) {
    for step in [1, 4, usize::MAX] {
        for room in 0..16usize {
            let mut input = Tape::new(b"flag 5 1");
            let mut output = Paper::new(rt.alloc(), step, room);
            let answer = if room < 15 {
                Err(RunError::Write)
            } else {
                Ok(())
            };
            let told = b"end: 0 value 5\n";
            plays(&rt, rt.alloc(), &mut input, &mut output, answer, told);
        }
    }
}

/// Each row has a text, whether a read after it fails, how many bytes the writer accepts, and the fault that is reported.
const FAULTS: &[(&str, bool, usize, RunError)] = &[
    ("", true, usize::MAX, RunError::Read),
    ("flag 5 1", true, usize::MAX, RunError::Read),
    ("x\n", true, usize::MAX, RunError::Read),
    ("flag 5 1\n0 jump\n", true, usize::MAX, RunError::Read),
    ("x\n", true, 0, RunError::Read),
    ("flag 5 1\n0 jump\n", true, 0, RunError::Read),
    ("flag 5 1\n", true, 0, RunError::Read),
    ("", false, 0, RunError::BadLine(1)),
    ("x\n0 jump\n", false, 0, RunError::BadLine(1)),
    (
        "flag 5 1\n0 jump\n0 step \n",
        false,
        0,
        RunError::BadLine(2),
    ),
];

#[test]
fn tells_the_fault_that_is_met_first(rt: HostRuntime) {
    for (text, read_fails, room, fault) in FAULTS {
        let mut input = Tape::new(text.as_bytes());
        input.fails = *read_fails;
        let mut output = Paper::new(rt.alloc(), usize::MAX, *room);
        plays(&rt, rt.alloc(), &mut input, &mut output, Err(*fault), b"");
        assert!(rt; input.failed == *read_fails);
        // No failed read is tried again.
        assert_eq!(rt; input.reads, if text.is_empty() { 1 } else { 2 });
        assert_eq!(rt; output.writes, 0);
    }
}

/// A writer of std that accepts nothing, or fails, after its first bytes. It counts its calls.
#[derive(Drop)]
struct Stuck<'a> {
    room: usize,
    fails: bool,
    calls: &'a Cell<usize>,
}

impl io::Write for Stuck<'_> {
    fn write(&mut self, from: &[u8]) -> io::Result<usize> {
        self.calls.set(self.calls.get().saturating_add(1));
        let n = from.len().min(self.room);
        self.room -= n;
        if n == 0 && self.fails {
            return Err(io::Error::from(io::ErrorKind::Interrupted));
        }
        Ok(n)
    }

    fn flush(&mut self) -> io::Result<()> {
        Ok(())
    }
}

#[test]
fn ends_of_std(rt: HostRuntime) {
    for fails in [false, true] {
        for room in 0..15usize {
            let calls = Cell::new(0);
            let mut output = OfStd::new(Stuck {
                room,
                fails,
                calls: &calls,
            });
            let mut input = OfStd::new(b"flag 5 1\n".as_slice());
            let answer = world_text(rt.alloc(), &mut input, &mut output);
            let failed = (output.has_failed(), input.has_failed());
            let found = (answer, failed, calls.get());
            let calls = if room == 0 { 1 } else { 2 };
            assert_eq!(rt; found, (Err(RunError::Write), (true, false), calls));
        }
    }
}
