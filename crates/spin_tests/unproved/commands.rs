//! The program over streams in memory: worked examples with their texts, and what it says when it fails.

use crate::ends::{Paper, Tape};
use bumpalo::Bump;
use spin_run::run::{Failed, OfStd, Source, program, program_over_arguments};
use std::alloc::{Allocator, Global};
use std::env::{Env, FillError};
use std::io;
use std::process::Abort;
use std::sync::Wait;
use std::thread::Threads;

const USAGE: &str = "usage: spin-run count WORKERS TIMES | spin-run world\n";

/// How many bytes a sink accepts: at a time, and in all.
#[derive(Clone, Copy)]
struct Room {
    step: usize,
    bytes: usize,
}

/// Room for everything.
const ENDLESS: Room = Room {
    step: usize::MAX,
    bytes: usize::MAX,
};

/// A run of the program.
#[derive(Drop)]
struct Run<'a> {
    words: &'a [&'a str],
    /// The text to read. `None`: nothing may be read.
    text: Option<&'a str>,
    /// Whether a read fails after the text.
    read_fails: bool,
    output: Room,
    errors: Room,
}

/// The results of a run.
#[derive(Drop)]
struct Ended {
    status: u8,
    reads: u64,
    output: Paper,
    errors: Paper,
}

impl Ended {
    /// Compares all that a run with these words did. `text` is what the run had to read.
    fn is(
        &self,
        rt: &impl Abort,
        words: &[&str],
        text: Option<&str>,
        status: u8,
        told: &str,
        line: &str,
    ) {
        let found = (self.status, self.reads > 0);
        assert_eq!(rt; found, (status, text.is_some()), "{words:?} {text:?}");
        self.output.must_show(rt, told.as_bytes());
        self.errors.must_show(rt, line.as_bytes());
    }
}

impl<'a> Run<'a> {
    fn of_words(words: &'a [&'a str]) -> Run<'a> {
        Run {
            words,
            text: None,
            read_fails: false,
            output: ENDLESS,
            errors: ENDLESS,
        }
    }

    fn of_text(text: &'a str) -> Run<'a> {
        Run {
            text: Some(text),
            ..Run::of_words(&["world"])
        }
    }

    fn ended<R: AllocGlobal + Threads + Wait + Sync, A: Allocator>(
        &self,
        rt: &R,
        alloc: A,
    ) -> Ended {
        let mut input = Tape {
            fails: self.read_fails,
            ..Tape::new(self.text.unwrap_or("").as_bytes())
        };
        let mut output = Paper::new(rt.alloc(), self.output.step, self.output.bytes);
        let mut errors = Paper::new(rt.alloc(), self.errors.step, self.errors.bytes);
        let status = program(rt, alloc, self.words, &mut input, &mut output, &mut errors);
        Ended {
            status,
            reads: input.reads,
            output,
            errors,
        }
    }

    /// Runs the program, and compares all that it did.
    fn ends<R: Abort + AllocGlobal + Threads + Wait + Sync>(
        &self,
        rt: &R,
        status: u8,
        told: &str,
        line: &str,
    ) {
        self.ended(rt, rt.alloc())
            .is(rt, self.words, self.text, status, told, line);
    }
}

/// Words that are no command.
const OTHER_WORDS: &[&[&str]] = &[
    &[],
    &["count"],
    &["count", "2"],
    &["count", "2", "1", "1"],
    &["count", "65", "1"],
    &["count", "02", "1"],
    &["count", "00", "1"],
    &["count", "2", "01"],
    &["count", "2", "1000001"],
    &["count", "+2", "1"],
    &["count", "-2", "1"],
    &["count", "2", "+1"],
    &["count", "2 ", "1"],
    &["count", "2", "1\n"],
    &["count", "0x2", "1"],
    &["count", "", "1"],
    &["count", "2", ""],
    &["count", "two", "1"],
    &["count", "٢", "1"],
    &["count", "18446744073709551615", "1"],
    &["count", "18446744073709551616", "1"],
    &["count", "1", "18446744073709551616"],
    &["count", "1", "340282366920938463463374607431768211457"],
    &["", "2", "1"],
    &["Count", "2", "1"],
    &["counts", "2", "1"],
    &["jump", "2", "1"],
    &["2", "1", "count"],
    &["worlds"],
    &["World"],
    &["world", ""],
    &["world", "2", "1"],
];

#[test]
fn asks_for_other_words(rt: HostRuntime) {
    for words in OTHER_WORDS {
        Run::of_words(words).ends(&rt, 2, "", USAGE);
    }
}

/// Schedules, each with its status, what is written, and the line on standard error.
const SCHEDULES: &[(&str, u8, &str, &str)] = &[
    ("flag 5 1", 0, "end: 0 value 5\n", ""),
    (
        "flag 5 1\n3 step",
        0,
        "1 3 passed over: 0\nend: 0 value 5\n",
        "",
    ),
    ("", 2, "", "bad line 1\n"),
    ("rw 1 2 1\n0 jump\n", 2, "", "bad line 2\n"),
    (
        "flag 5 1\n0 step\n0 step\n0 step\n0 step\n0 step\n0 step\n0 step\n0 step\n\n",
        2,
        "",
        "bad line 10\n",
    ),
    (
        "ticket 0 0 3\n0 begin try_lock\n0 step\n0 step\n0 step\n",
        0,
        "1 0 begun: 0 0\n2 0 going on: 0 0\n3 0 going on: 0 0\n4 0 answer granted from 1: 1 0\nend: 1 0 value 0\n",
        "",
    ),
];

#[test]
fn plays_a_schedule(rt: HostRuntime) {
    for (text, status, told, line) in SCHEDULES {
        Run::of_text(text).ends(&rt, *status, told, line);
    }
}

#[test]
fn tells_where_a_world_fails(rt: HostRuntime) {
    for bytes in 0..15usize {
        let run = Run {
            output: Room { step: 4, bytes },
            ..Run::of_text("flag 5 1\n")
        };
        run.ends(&rt, 1, "end: 0 value 5\n", "write failed\n");
    }
    let run = Run {
        read_fails: true,
        ..Run::of_text("x\n")
    };
    run.ends(&rt, 1, "", "read failed\n");
}

#[test]
fn tells_a_bad_line_in_pieces(rt: HostRuntime) {
    for bytes in 0..11usize {
        let run = Run {
            errors: Room { step: 2, bytes },
            ..Run::of_text("")
        };
        run.ends(&rt, 2, "", "bad line 1\n");
    }
}

#[test]
fn writes_in_small_steps(rt: HostRuntime) {
    for step in 1..5usize {
        let run = Run {
            output: Room {
                step,
                bytes: usize::MAX,
            },
            ..Run::of_words(&["count", "2", "100"])
        };
        run.ends(&rt, 0, "200\n", "");
    }
}

#[test]
fn tells_a_failed_write(rt: HostRuntime) {
    for step in [1, 3, usize::MAX] {
        for bytes in 0..5usize {
            let run = Run {
                output: Room { step, bytes },
                ..Run::of_words(&["count", "2", "100"])
            };
            let (status, line) = if bytes < 4 {
                (1, "write failed\n")
            } else {
                (0, "")
            };
            run.ends(&rt, status, "200\n", line);
        }
    }
}

/// A reader of std that returns its bytes, reports its end, fails once, and then returns bytes again.
#[derive(Drop)]
struct Faltering<'a> {
    bytes: &'a [u8],
    calls: usize,
}

impl io::Read for Faltering<'_> {
    fn read(&mut self, to: &mut [u8]) -> io::Result<usize> {
        self.calls = self.calls.saturating_add(1);
        match self.calls {
            2 => Ok(0),
            3 => Err(io::Error::from(io::ErrorKind::Interrupted)),
            _ => {
                let n = self.bytes.len().min(to.len());
                to[..n].copy_from_slice(&self.bytes[..n]);
                Ok(n)
            }
        }
    }
}

#[test]
fn reads_of_std(rt: HostRuntime) {
    let mut source = OfStd::new(Faltering {
        bytes: b"ab",
        calls: 0,
    });
    let mut to = [0u8; 4];
    // After a failure `has_failed` stays `true`, even if the reader continues.
    for (room, answer, failed) in [
        (4, Ok(2), false),
        (4, Ok(0), false),
        (4, Err(Failed), true),
        (1, Ok(1), true),
    ] {
        let found = source.read(&mut to[..room]);
        let found = (found, to, source.has_failed());
        assert_eq!(rt; found, (answer, *b"ab\0\0", failed));
    }
}

#[test]
fn tries_no_failed_write_again(rt: HostRuntime) {
    for bytes in 0..4usize {
        let run = Run {
            output: Room {
                step: usize::MAX,
                bytes,
            },
            ..Run::of_words(&["count", "2", "100"])
        };
        let ended = run.ended(&rt, rt.alloc());
        assert_eq!(rt; ended.output.writes, if bytes == 0 { 1 } else { 2 });
    }
}

#[test]
fn keeps_its_status_where_errors_fail(rt: HostRuntime) {
    for bytes in [0, 1, 5] {
        let errors = Room { step: 2, bytes };
        let run = Run {
            errors,
            ..Run::of_words(&["count", "65", "1"])
        };
        run.ends(&rt, 2, "", USAGE);
        let run = Run {
            output: Room {
                step: usize::MAX,
                bytes: 3,
            },
            errors,
            ..Run::of_words(&["count", "2", "100"])
        };
        run.ends(&rt, 1, "200\n", "write failed\n");
    }
}

/// The result of a run with this many bytes of memory left.
fn ended_with<R: Abort + AllocGlobal + Threads + Wait + Sync>(
    rt: &R,
    run: &Run<'_>,
    left: usize,
) -> Ended {
    let arena = Bump::try_with_capacity(rt.alloc(), 64).expect(rt, "memory");
    arena.set_allocation_limit(Some(0));
    let filled = arena.chunk_capacity().saturating_sub(left);
    let filled = Vec::<u8, &Bump>::with_capacity(&arena, filled).expect(rt, "memory");
    let ended = run.ended(rt, &arena);
    drop(filled);
    ended
}

/// With little memory left the run ends with a line, and with more it succeeds.
fn ends_by_memory<R: Abort + AllocGlobal + Threads + Wait + Sync>(
    rt: &R,
    words: &[&str],
    told: &str,
    line: &str,
) {
    let run = Run::of_words(words);
    let mut refused = 0u32;
    for left in 0..32usize {
        let ended = ended_with(rt, &run, left);
        if ended.status == 0 {
            ended.is(rt, words, None, 0, told, "");
        } else {
            ended.is(rt, words, None, 1, "", line);
            refused = refused.saturating_add(1);
        }
    }
    assert!(rt; refused > 0 && refused < 32, "{refused} of 32");
}

#[test]
fn tells_refused_memory(rt: HostRuntime) {
    ends_by_memory(&rt, &["count", "2", "100"], "200\n", "count refused\n");
    ends_by_memory(&rt, &["count", "0", "5"], "0\n", "out of memory\n");
}

/// An argument that is not text. No argument of a process has this byte.
const NO_TEXT: &str = "\0";

/// A runtime with other arguments.
#[derive(Drop)]
struct Told<'a, R> {
    rt: &'a R,
    arguments: &'a [&'a str],
}

impl<R: Threads> Threads for Told<'_, R> {}

impl<R: Wait> Wait for Told<'_, R> {}

impl<R: AllocGlobal> Alloc for Told<'_, R> {
    type A = Global;

    fn alloc(&self) -> Global {
        self.rt.alloc()
    }
}

impl<R> Env for Told<'_, R> {
    fn arg(&self, i: usize, buf: &mut [u8]) -> Result<usize, FillError> {
        let bytes = match self.arguments.get(i) {
            None => return Err(FillError::NotPresent),
            Some(&NO_TEXT) => b"\xff",
            Some(text) => text.as_bytes(),
        };
        if buf.len() < bytes.len() {
            return Err(FillError::TooLong);
        }
        buf[..bytes.len()].copy_from_slice(bytes);
        Ok(bytes.len())
    }

    fn var(&self, _name: &str, _buf: &mut [u8]) -> Result<usize, FillError> {
        Err(FillError::NotPresent)
    }

    fn var_at(&self, _i: usize, _buf: &mut [u8]) -> Result<usize, FillError> {
        Err(FillError::NotPresent)
    }
}

/// Runs the program with these arguments.
fn ended_over<R: AllocGlobal + Threads + Wait + Sync>(rt: &R, arguments: &[&str]) -> Ended {
    let mut input = Tape::new(b"");
    let mut output = Paper::endless(rt.alloc());
    let mut errors = Paper::endless(rt.alloc());
    let told = Told { rt, arguments };
    let status = program_over_arguments(&told, &mut input, &mut output, &mut errors);
    Ended {
        status,
        reads: input.reads,
        output,
        errors,
    }
}

/// Arguments, each row with the status, what is written, and the line on standard error.
const ARGUMENTS: &[(&[&str], u8, &str, &str)] = &[
    (&["spin-run", "count", "2", "100"], 0, "200\n", ""),
    (&["spin-run"], 2, "", USAGE),
    (&[], 2, "", USAGE),
    (&["spin-run", "count", "2", NO_TEXT], 2, "", USAGE),
    (&["spin-run", "count", "65", "1"], 2, "", USAGE),
];

#[test]
fn reads_its_arguments(rt: HostRuntime) {
    for (arguments, status, told, line) in ARGUMENTS {
        ended_over(&rt, arguments).is(&rt, arguments, None, *status, told, line);
    }
}
