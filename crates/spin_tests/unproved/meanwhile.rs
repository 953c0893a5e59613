//! A logged cache that is asked while it makes an answer.
ghost use Rattle.std.specs.Prelude.{true};
ghost use Rattle.std.proofs.Common.{rules};

use crate::equal::equal;
use spin_core::relax::Yield;
use spin_examples::cache::Answers;
use spin_examples::cache::logged::LoggedCache;
use spin_history::history::{BlankLog, History, Work, open};
use std::alloc::{AllocError, Global};
use std::process::Abort;
use std::sync::Wait;

/// Any number may be the answer for a key.
struct Numbers;

impl Answers for Numbers {
    type Key = u64;

    type Value = u64;

    ghost may = { λ key value. true };

    ghost respects_eq = { Prim.search rules };

    ghost respects_clone = { Prim.search rules };
}

/// Makes the answer for 4. Meanwhile it reads the answer for 3, which exists, and asks for it.
#[derive(Drop)]
struct AsksMeanwhile<'r, W>(&'r W, Global);

impl<W: Abort + Wait> Work for AsksMeanwhile<'_, W> {
    type Answer = [Option<u64>; 2];

    // Returns the answers for 3.
    fn run<H: History + Send + Sync>(self, blank: BlankLog) -> [Option<u64>; 2] {
        let rt = self.0;
        let log = blank.open::<(u64, u64), H>();
        let mut seen = log.snapshot();
        let cache: LoggedCache<Numbers, H, Global, Yield> = LoggedCache::new(self.1, log);
        let first: Result<u64, AllocError> = cache.answer(rt, 3, |_| Ok(9), &mut seen);
        equal(rt, first, Ok(9));
        let mut own = seen.copy();
        let mut found = [None; 2];
        let made: Result<u64, AllocError> = cache.answer(
            rt,
            4,
            |_| {
                let read = cache.read(rt).answer(&3, &mut own).copied();
                let asked: Result<u64, AllocError> = cache.answer(rt, 3, |_| Ok(7), &mut own);
                found = [read, asked.ok()];
                Ok(16)
            },
            &mut seen,
        );
        equal(rt, made, Ok(16));
        found
    }
}

// A call that waited for the maker of another answer would wait for ever: this maker waits for the call.
#[test]
fn a_logged_answer_is_given_while_another_is_made(rt: HostRuntime) {
    let found = open(AsksMeanwhile(&rt, rt.alloc()));
    equal(&rt, found, [Some(9); 2]);
}
