//! Memory refused to a world: to `World::new`, to `run` and to `run_in_two`, with each amount from none to enough.
use super::alike::{Alike, are_alike};
use super::objects::OfHeader;
use super::stops::{Run, Two, run_of, runs_of};
use super::worlds::{Opening, Shown, Told, Trial, holds, look_at, opened, play, try_all, world};
use bumpalo::Bump;
use spin_world::{Move, World, run_in_two};
use std::alloc::Global;
use std::process::Abort;

/// More bytes than a world needs, with its transcripts, to play any schedule of these tests.
const ROOM: usize = 16_384;

/// The alignment of all allocations: a smaller difference in room changes nothing.
const STEP: usize = 8;

/// An arena that gets no more memory than it begins with.
fn arena(rt: &impl Abort, alloc: Global) -> Bump {
    let arena = Bump::try_with_capacity(alloc, ROOM).expect(rt, "memory");
    arena.set_allocation_limit(Some(0));
    arena
}

/// Allocates all but this many bytes of an arena.
fn filled<'a>(rt: &impl Abort, arena: &'a Bump, left: usize) -> Vec<u8, &'a Bump> {
    let size = arena.chunk_capacity().saturating_sub(left);
    Vec::with_capacity(arena, size).expect(rt, "memory")
}

/// Returns whether a world can be made with this many bytes left.
fn opens_in<O: OfHeader>(
    rt: &impl Abort,
    alloc: Global,
    opening: Opening<'_>,
    left: usize,
) -> bool {
    let arena = arena(rt, alloc);
    let filled = filled(rt, &arena, left);
    let opens = world::<O, &Bump>(rt, &arena, opening).is_ok();
    drop(filled);
    opens
}

/// Returns whether a schedule is refused with this many bytes of the arena left.
fn is_refused<O: OfHeader>(
    rt: &impl Abort,
    arena: &Bump,
    world: &mut World<O, &Bump>,
    schedule: &[(usize, Move<O::Call, u64>)],
    left: usize,
) -> bool {
    let filled = filled(rt, arena, left);
    let refused = world.run(schedule).is_err();
    drop(filled);
    refused
}

/// A world whose second schedule was refused: its state then, what that schedule tells once there is room, and its last
/// state.
#[derive(Drop)]
struct Again {
    refused: Shown,
    told: Vec<Told>,
    stop: Shown,
}

/// Plays a second schedule with this many bytes left, and plays it again if it was refused. Returns `None` if the bytes
/// suffice.
fn played_again<O: OfHeader>(
    rt: &impl Abort,
    alloc: Global,
    opening: Opening<'_>,
    past: &[(usize, Move<O::Call, u64>)],
    schedule: &[(usize, Move<O::Call, u64>)],
    left: usize,
) -> Option<Again> {
    let arena = arena(rt, alloc);
    let mut world = opened::<O, &Bump>(rt, &arena, opening);
    let _ = world.run(past).expect(rt, opening.shows);
    if !is_refused(rt, &arena, &mut world, schedule, left) {
        return None;
    }
    let refused = look_at(rt, alloc, opening, &world);
    let told = play(rt, alloc, &mut world, schedule);
    let stop = look_at(rt, alloc, opening, &world);
    Some(Again {
        refused,
        told,
        stop,
    })
}

/// Returns whether one of the two runs of a schedule is refused with this many bytes of the arena left.
fn is_cut_short<O: OfHeader>(
    rt: &impl Abort,
    arena: &Bump,
    world: &mut World<O, &Bump>,
    schedule: &[(usize, Move<O::Call, u64>)],
    at: usize,
    left: usize,
) -> bool {
    let filled = filled(rt, arena, left);
    let refused = run_in_two(world, schedule, at).is_err();
    drop(filled);
    refused
}

/// Returns the state of a world if one of its two runs was refused with this many bytes left. Returns `None` if the
/// bytes suffice.
fn cut_short<O: OfHeader>(
    rt: &impl Abort,
    alloc: Global,
    opening: Opening<'_>,
    schedule: &[(usize, Move<O::Call, u64>)],
    at: usize,
    left: usize,
) -> Option<Shown> {
    let arena = arena(rt, alloc);
    let mut world = opened::<O, &Bump>(rt, &arena, opening);
    if !is_cut_short(rt, &arena, &mut world, schedule, at, left) {
        return None;
    }
    Some(look_at(rt, alloc, opening, &world))
}

/// How often memory was refused: for a world, for a run, for the first of two runs, and for the second.
#[derive(Clone, Copy, Debug)]
struct Refusals {
    worlds: u32,
    runs: u32,
    firsts: u32,
    seconds: u32,
}

impl Refusals {
    fn add(&mut self, world: bool, run: bool, first: bool, second: bool) {
        self.worlds = self.worlds.saturating_add(u32::from(world));
        self.runs = self.runs.saturating_add(u32::from(run));
        self.firsts = self.firsts.saturating_add(u32::from(first));
        self.seconds = self.seconds.saturating_add(u32::from(second));
    }
}

/// Checks that a refused run leaves the world as the run before it did. Checks that the same run, made again, tells and
/// leaves what it does in a world that is never refused.
fn is_as_wanted(rt: &impl Abort, shows: &str, left: usize, again: &Again, past: &Run, two: &Two) {
    holds(rt, shows, left, again.refused.is_like(&past.stop));
    holds(
        rt,
        shows,
        left,
        are_alike(again.told.as_slice(), two.second.as_slice()),
    );
    holds(rt, shows, left, again.stop.is_like(&two.stop));
}

/// With each amount of memory from none to enough: makes a world, plays further, and plays in two runs.
pub fn in_each_room<O: OfHeader>(
    rt: &impl Abort,
    alloc: Global,
    opening: Opening<'_>,
    schedule: &[(usize, Move<O::Call, u64>)],
) {
    let shows = opening.shows;
    let at = schedule.len() / 2;
    let (past, rest) = schedule.split_at(at);
    let before = run_of::<O>(rt, alloc, opening, past);
    let wanted = runs_of::<O>(rt, alloc, opening, schedule, at);
    let mut refusals = Refusals {
        worlds: 0,
        runs: 0,
        firsts: 0,
        seconds: 0,
    };
    for step in 0..ROOM / STEP {
        let left = step * STEP;
        let opens = opens_in::<O>(rt, alloc, opening, left);
        let again = played_again::<O>(rt, alloc, opening, past, rest, left);
        let two = cut_short::<O>(rt, alloc, opening, schedule, at, left);
        if opens && again.is_none() && two.is_none() {
            break;
        }
        if let Some(again) = &again {
            is_as_wanted(rt, shows, left, again, &before, &wanted);
        }
        let (mut first, mut second) = (false, false);
        if let Some(stop) = &two {
            first = stop.is_like(&before.start);
            second = stop.is_like(&before.stop);
            holds(rt, shows, left, first || second);
        }
        refusals.add(!opens, again.is_some(), first, second);
    }
    all_refused(rt, shows, refusals);
}

/// Checks that each of these calls was refused with some amount of memory.
fn all_refused(rt: &impl Abort, shows: &str, refusals: Refusals) {
    let Refusals {
        worlds,
        runs,
        firsts,
        seconds,
    } = refusals;
    for often in [worlds, runs, firsts, seconds] {
        assert!(rt;
            0 < often && (often as usize) < ROOM / STEP,
            "{shows}: {refusals:?}"
        );
    }
}

#[test]
fn refused_memory_leaves_a_world_as_it_was(rt: HostRuntime) {
    try_all(&rt, Trial::Refused);
}
