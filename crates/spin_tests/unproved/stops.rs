//! Tests of every stop of every call. Each beginning of each worked schedule is played in a new world. Each schedule is
//! played in two runs, cut at each place.
use super::alike::Alike;
use super::objects::{OfHeader, Standing, are_words_of, parties_of};
use super::worlds::{Opening, Shown, Told, Trial, holds, look_at, opened, play, tell, try_all};
use spin_text::Header;
use spin_world::{Answer, Fair, FairCall, Move, Outcome, Place, run_in_two};
use std::alloc::Global;
use std::process::Abort;

/// The result of a run: where it starts, its events, and where it stops.
#[derive(Drop)]
pub struct Run {
    pub start: Shown,
    pub events: Vec<Told>,
    pub stop: Shown,
}

/// Plays a schedule in a new world.
pub fn run_of<O: OfHeader>(
    rt: &impl Abort,
    alloc: Global,
    opening: Opening<'_>,
    schedule: &[(usize, Move<O::Call, u64>)],
) -> Run {
    let mut world = opened::<O, Global>(rt, alloc, opening);
    let start = look_at(rt, alloc, opening, &world);
    let events = play(rt, alloc, &mut world, schedule);
    let stop = look_at(rt, alloc, opening, &world);
    Run {
        start,
        events,
        stop,
    }
}

/// The results of two runs: what each run tells, and where the second run stops.
#[derive(Drop)]
pub struct Two {
    pub first: Vec<Told>,
    pub second: Vec<Told>,
    pub stop: Shown,
}

/// Plays a schedule in a new world, cut in two at this place.
pub fn runs_of<O: OfHeader>(
    rt: &impl Abort,
    alloc: Global,
    opening: Opening<'_>,
    schedule: &[(usize, Move<O::Call, u64>)],
    at: usize,
) -> Two {
    let mut world = opened::<O, Global>(rt, alloc, opening);
    let (first, second) = run_in_two(&mut world, schedule, at).expect(rt, opening.shows);
    let first = tell::<O>(rt, alloc, &first.events);
    let second = tell::<O>(rt, alloc, &second.events);
    let stop = look_at(rt, alloc, opening, &world);
    Two {
        first,
        second,
        stop,
    }
}

/// Returns whether some party is in a call or gone. The place of such a party does not say what it adds to the words.
fn is_unsettled(places: &[Place]) -> bool {
    for place in places {
        if matches!(place, Place::InCall | Place::Gone) {
            return true;
        }
    }
    false
}

/// Whether an event answers a call.
fn is_answer(event: &Told) -> bool {
    matches!(event.outcome, Outcome::Answered { .. })
}

/// How many of these events answer a call.
fn answers(events: &[Told]) -> u64 {
    let mut answers = 0u64;
    for event in events {
        answers = answers.saturating_add(u64::from(is_answer(event)));
    }
    answers
}

/// Returns the last written value after an event: written by a holder, by the owner, or by the closure whose value an
/// answer gives.
fn written_by<C: Copy>(
    action: Move<C, u64>,
    outcome: Outcome<Answer<u64>, u64>,
    old: Option<u64>,
) -> Option<u64> {
    match (action, outcome) {
        (Move::Write(value) | Move::OwnerSet(value), Outcome::Written) => Some(value),
        (
            _,
            Outcome::Answered {
                answer: Answer::Value(value),
                ..
            },
        ) => Some(value),
        _ => old,
    }
}

/// Returns whether each read in a schedule found the value last written before it, and the world has the value written
/// last.
fn keeps_value<C: Copy>(schedule: &[(usize, Move<C, u64>)], run: &Run) -> bool {
    let mut written = run.start.value;
    for ((_, action), event) in schedule.iter().zip(&run.events) {
        if matches!(event.outcome, Outcome::Value(found) if found != written) {
            return false;
        }
        written = written_by(*action, event.outcome, written);
    }
    written == run.stop.value
}

/// Checks the state in which a run of the first entries of a schedule stops.
fn is_in_order(rt: &impl Abort, opening: Opening<'_>, run: &Run) {
    let Opening { shows, header } = opening;
    let at = run.events.len();
    let Shown {
        numbers,
        value,
        places,
    } = &run.stop;
    holds(rt, shows, at, places.len() == parties_of(header));
    let all = Standing::at(places);
    let writers = all.writing.saturating_add(all.tickets);
    let others = all.reading.saturating_add(all.upgradable);
    holds(rt, shows, at, writers == 0 || writers == 1 && others == 0);
    let answers = answers(&run.events);
    let encodes = are_words_of(header, *numbers, all, answers, value.is_some());
    holds(rt, shows, at, encodes || is_unsettled(places));
}

/// Returns an event as told by a run that starts at this place. Such a run does not say where an earlier call began.
fn told_from(start: usize, event: Told) -> Told {
    let outcome = match event.outcome {
        Outcome::Answered { answer, began } => Outcome::Answered {
            answer,
            began: match began {
                Some(place) => place.checked_sub(start),
                None => None,
            },
        },
        outcome => outcome,
    };
    Told {
        party: event.party,
        outcome,
        numbers: event.numbers,
    }
}

/// Compares the events of a run that starts at this place with those of the one whole run from this place on.
fn is_part(rt: &impl Abort, shows: &str, start: usize, part: &[Told], whole: &[Told]) {
    holds(rt, shows, start, part.len() == whole.len());
    for (event, wanted) in part.iter().zip(whole) {
        holds(rt, shows, start, event.is_like(&told_from(start, *wanted)));
    }
}

/// Compares what two runs tell, and the state in which they stop, with one run of the whole schedule.
fn are_one(rt: &impl Abort, shows: &str, at: usize, two: &Two, one: &Run) {
    let (front, back) = one.events.split_at(at.min(one.events.len()));
    is_part(rt, shows, 0, &two.first, front);
    is_part(rt, shows, at, &two.second, back);
    holds(rt, shows, at, two.stop.is_like(&one.stop));
}

/// Checks every stop of a schedule, and every cut.
pub fn at_each_place<O: OfHeader>(
    rt: &impl Abort,
    alloc: Global,
    opening: Opening<'_>,
    schedule: &[(usize, Move<O::Call, u64>)],
) {
    let whole = run_of::<O>(rt, alloc, opening, schedule);
    for at in 0..=schedule.len() {
        let beginning = &schedule[..at];
        let run = run_of::<O>(rt, alloc, opening, beginning);
        is_in_order(rt, opening, &run);
        holds(rt, opening.shows, at, keeps_value(beginning, &run));
        let two = runs_of::<O>(rt, alloc, opening, schedule, at);
        are_one(rt, opening.shows, at, &two, &whole);
    }
}

#[test]
fn every_stop_of_every_call(rt: HostRuntime) {
    try_all(&rt, Trial::Stops);
}

/// A `lock` that registers by its 1029th step: the exchange, 1026 looks, the load, and the exchange that registers.
#[test]
fn every_stop_of_a_lock_that_registers(rt: HostRuntime) {
    let header = Header::Fair {
        value: 0,
        cap: 1,
        spins: 1024,
        parties: 2,
    };
    let opening = Opening {
        shows: "a lock registers by its 1029th step",
        header,
    };
    let mut schedule: [(usize, Move<FairCall, u64>); 1032] = [(1, Move::Step); 1032];
    schedule[0] = (0, Move::Begin(FairCall::TryLock));
    schedule[1] = (0, Move::Step);
    schedule[2] = (1, Move::Begin(FairCall::Lock));
    at_each_place::<Fair<u64>>(&rt, rt.alloc(), opening, &schedule);
}
