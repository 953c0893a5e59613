//! Plays each worked schedule in a new world, with the same code for every object. It compares words and values as
//! numbers.

use super::alike::{Alike, are_alike};
use super::objects::{OfHeader, parties_of};
use super::refused::in_each_room;
use super::rounds::in_rounds;
use super::stops::at_each_place;
use super::worked::{pages, worked_on};
use spin_text::{Header, Rest, entry, first_line, header_of};
use spin_world::{
    Answer, BarrierObject, Event, Fair, Flag, Move, OnceObject, Outcome, Place, Rw, Ticket, World,
};
use std::alloc::{AllocError, Allocator, Global};
use std::process::Abort;
use std::rt::Files;

/// What a schedule shows, and the opening of its world.
#[derive(Clone, Copy)]
pub struct Opening<'a> {
    pub shows: &'a str,
    pub header: Header,
}

/// Creates a world in that opening.
pub fn world<O: OfHeader, A: Allocator + Copy>(
    rt: &impl Abort,
    alloc: A,
    opening: Opening<'_>,
) -> Result<World<O, A>, AllocError> {
    let object = O::of_header(opening.header).expect(rt, opening.shows);
    World::new(alloc, object, parties_of(opening.header))
}

/// Creates a world in that opening. There has to be memory for the world.
pub fn opened<O: OfHeader, A: Allocator + Copy>(
    rt: &impl Abort,
    alloc: A,
    opening: Opening<'_>,
) -> World<O, A> {
    world(rt, alloc, opening).expect(rt, opening.shows)
}

/// The state of a world: its words as numbers, its value, and the places of its parties.
#[derive(Drop)]
pub struct Shown {
    pub numbers: (u64, Option<u64>),
    pub value: Option<u64>,
    pub places: Vec<Place>,
}

impl Alike for Shown {
    fn is_like(&self, other: &Self) -> bool {
        self.numbers == other.numbers
            && self.value == other.value
            && are_alike(self.places.as_slice(), other.places.as_slice())
    }
}

/// Returns the state of a world. If the world had a place beyond that of the last party, the answer would have one
/// place too many.
pub fn look_at<O: OfHeader, A: Allocator + Copy>(
    rt: &impl Abort,
    alloc: Global,
    opening: Opening<'_>,
    world: &World<O, A>,
) -> Shown {
    let mut places = Vec::new(alloc);
    for party in 0..=parties_of(opening.header) {
        if let Some(place) = world.place(party) {
            places.push(place).expect(rt, opening.shows);
        }
    }
    Shown {
        numbers: O::numbers(world.words()),
        value: world.value(),
        places,
    }
}

/// An event: the party, the outcome of its move, and the words after the move as numbers.
#[derive(Clone, Copy)]
pub struct Told {
    pub party: usize,
    pub outcome: Outcome<Answer<u64>, u64>,
    pub numbers: (u64, Option<u64>),
}

impl Alike for Told {
    fn is_like(&self, other: &Self) -> bool {
        self.party == other.party
            && self.outcome.is_like(&other.outcome)
            && self.numbers == other.numbers
    }
}

/// Returns what an event tells.
fn told_of<O: OfHeader>(event: &Event<O::Words, u64, Answer<u64>>) -> Told {
    Told {
        party: event.party,
        outcome: event.outcome,
        numbers: O::numbers(event.words),
    }
}

/// Returns what these events tell.
pub fn tell<O: OfHeader>(
    rt: &impl Abort,
    alloc: Global,
    events: &[Event<O::Words, u64, Answer<u64>>],
) -> Vec<Told> {
    let mut told = Vec::new(alloc);
    for event in events {
        told.push(told_of::<O>(event)).expect(rt, "memory");
    }
    told
}

/// Plays a schedule in a world, and returns what its events tell.
pub fn play<O: OfHeader, A: Allocator + Copy>(
    rt: &impl Abort,
    alloc: Global,
    world: &mut World<O, A>,
    schedule: &[(usize, Move<O::Call, u64>)],
) -> Vec<Told> {
    let transcript = world.run(schedule).expect(rt, "memory");
    tell::<O>(rt, alloc, &transcript.events)
}

/// Fails, naming a place of a schedule, unless the fact holds.
pub fn holds(rt: &impl Abort, shows: &str, at: usize, fact: bool) {
    assert!(rt; fact, "{shows}, at {at}");
}

/// What to try with a schedule.
#[derive(Clone, Copy)]
pub enum Trial {
    /// Every stop of the schedule, and every cut of it into two runs.
    Stops,
    /// Each allocation of the schedule refused.
    Refused,
    /// The lines of each round after the schedule, and the party whose call counts (`None`: a call of any party).
    Rounds(&'static [&'static str], Option<usize>),
}

/// Reads the schedule that these lines spell.
fn schedule_of<O: OfHeader>(
    rt: &impl Abort,
    alloc: Global,
    shows: &str,
    lines: Rest,
) -> Vec<(usize, Move<O::Call, u64>)> {
    let lines = str::from_utf8(lines.unwrap_or(&[])).expect(rt, shows);
    let mut schedule = Vec::new(alloc);
    for line in lines.lines() {
        let entry = entry::<O>(line.as_bytes()).expect(rt, shows);
        schedule.push(entry).expect(rt, shows);
    }
    schedule
}

fn try_schedule<O: OfHeader>(
    rt: &impl Abort,
    alloc: Global,
    trial: Trial,
    opening: Opening<'_>,
    lines: Rest,
) {
    let schedule = schedule_of::<O>(rt, alloc, opening.shows, lines);
    match trial {
        Trial::Stops => at_each_place::<O>(rt, alloc, opening, &schedule),
        Trial::Refused => in_each_room::<O>(rt, alloc, opening, &schedule),
        Trial::Rounds(rounds, counts) => {
            in_rounds::<O>(rt, alloc, opening, &schedule, rounds, counts)
        }
    }
}

/// Tries a text of any object.
pub fn try_text(rt: &impl Abort, alloc: Global, trial: Trial, shows: &str, text: &str) {
    let (line, lines) = first_line(text.as_bytes());
    let header = header_of(line).expect(rt, shows);
    let opening = Opening { shows, header };
    match header {
        Header::Flag { .. } => try_schedule::<Flag<u64>>(rt, alloc, trial, opening, lines),
        Header::Ticket { .. } => try_schedule::<Ticket<u64>>(rt, alloc, trial, opening, lines),
        Header::Rw { .. } => try_schedule::<Rw<u64>>(rt, alloc, trial, opening, lines),
        Header::Fair { .. } => try_schedule::<Fair<u64>>(rt, alloc, trial, opening, lines),
        Header::Once { .. } => try_schedule::<OnceObject<u64>>(rt, alloc, trial, opening, lines),
        Header::Barrier { .. } => try_schedule::<BarrierObject>(rt, alloc, trial, opening, lines),
    }
}

/// Tries every worked schedule.
pub fn try_all<R: Abort + AllocGlobal + Files + Clone + Drop>(rt: &R, trial: Trial) {
    for page in &pages(rt) {
        for it in worked_on(rt, rt.alloc(), page) {
            try_text(rt, rt.alloc(), trial, it.shows, &it.schedule);
        }
    }
}
