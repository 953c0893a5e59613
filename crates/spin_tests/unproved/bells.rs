//! The explorer finds the wake-ups that wrong events lose. `spin_event` proves that each loses one; here a wait looks
//! for a change, and nobody may be left asleep. The object has no laws, so it is not proved.
use crate::equal::equal;
use spin_explore::{Entry, Explored, Programs, explore};
use spin_world::{Answer, Hold, Move, Next, Object, Stepped, World};
use std::alloc::Global;
use std::process::Abort;

/// The words of an event, the kernel's list of sleepers, and what the waits are for.
#[derive(Clone, Copy, PartialEq, Eq)]
struct Words {
    changes: u64,
    rings: u64,
    sleepers: u64,
    /// How many have begun to sleep, and how many of them are woken, in this order.
    parked: u64,
    woken: u64,
}

/// The event of `spin_event`, and the four wrong ones of `wrong_events_lose_a_wake_up`.
#[derive(Clone, Copy, PartialEq, Eq)]
enum Bell {
    Right,
    Marks,
    SleepsBlindly,
    LooksEarly,
    WakesNobody,
}

#[derive(Clone, Copy, PartialEq, Eq)]
enum Call {
    /// Waits until there were so many changes.
    Wait(u64),
    /// Makes a change, and rings for all.
    Change,
}

#[derive(Clone, Copy, PartialEq, Eq)]
enum Point {
    Listen,
    LookForChange(u64),
    Count(u64),
    Park(u64),
    Asleep(u64),
    Uncount,
    Change,
    Ring,
    Look,
    Clear,
    Wake,
}

const DONE: Next<Point, Answer<u64>> = Next::Answers(Answer::Done, None);

// Makes the step at this point, and returns where the call is then.
fn step(bell: Bell, call: Call, at: Point, w: &mut Words) -> Next<Point, Answer<u64>> {
    Next::Continue(match at {
        Point::Listen => Point::LookForChange(w.rings),
        Point::LookForChange(heard) => match call {
            Call::Wait(changes) if w.changes < changes => Point::Count(heard),
            _ => return DONE,
        },
        Point::Count(heard) => {
            w.sleepers = if bell == Bell::Marks {
                1
            } else {
                w.sleepers + 1
            };
            Point::Park(heard)
        }
        Point::Park(heard) if w.rings == heard || bell == Bell::SleepsBlindly => {
            w.parked += 1;
            Point::Asleep(w.parked - 1)
        }
        Point::Asleep(place) if w.woken <= place => at,
        Point::Park(_) | Point::Asleep(_) if bell == Bell::Marks => Point::Listen,
        Point::Park(_) | Point::Asleep(_) => Point::Uncount,
        Point::Uncount => {
            w.sleepers -= 1;
            Point::Listen
        }
        Point::Change => {
            w.changes += 1;
            if bell == Bell::LooksEarly {
                Point::Look
            } else {
                Point::Ring
            }
        }
        Point::Ring => {
            w.rings += 1;
            if bell == Bell::LooksEarly {
                Point::Wake
            } else {
                Point::Look
            }
        }
        Point::Look if w.sleepers == 0 || bell == Bell::WakesNobody => return DONE,
        Point::Look => match bell {
            Bell::LooksEarly => Point::Ring,
            Bell::Marks => Point::Clear,
            _ => Point::Wake,
        },
        Point::Clear => {
            let found = w.sleepers;
            w.sleepers = 0;
            if found == 0 {
                return DONE;
            }
            Point::Wake
        }
        Point::Wake => {
            w.woken = w.parked;
            return DONE;
        }
    })
}

impl Object for Bell {
    type Words = Words;

    type Value = u64;

    type Call = Call;

    type Local = Point;

    type Answer = Answer<u64>;

    ghost machine = { Rattle.spin_event.specs.EventCalls.event_machine };

    fn opening_words(&self) -> Words {
        Words {
            changes: 0,
            rings: 0,
            sleepers: 0,
            parked: 0,
            woken: 0,
        }
    }

    fn opening_value(&self) -> Option<u64> {
        None
    }

    fn is_owned(&self) -> bool {
        false
    }

    fn begin(&self, call: Call, holds: Option<Hold>) -> Option<Point> {
        let _ = holds;
        match call {
            Call::Wait(_) => Some(Point::Listen),
            Call::Change => Some(Point::Change),
        }
    }

    fn step(
        &self,
        words: Words,
        value: Option<u64>,
        call: Call,
        local: Point,
        holds: Option<Hold>,
    ) -> Stepped<Words, u64, Point, Answer<u64>> {
        let _ = (value, holds);
        let mut words = words;
        let next = step(*self, call, local, &mut words);
        Stepped {
            words,
            placed: None,
            next,
        }
    }

    fn refuse(
        &self,
        call: Call,
        local: Point,
        holds: Option<Hold>,
    ) -> Option<Next<Point, Answer<u64>>> {
        let _ = (call, local, holds);
        None
    }

    fn laws() {}
}

impl Explored for Bell {
    ghost words_numbers = { λ w. (0, 0) };

    ghost call_numbers = { λ c. (0, 0) };

    ghost point_numbers = { λ p. (0, 0) };

    ghost tells = { ? };

    fn words_numbers(words: Words) -> (u64, u64) {
        // None of the five counts comes near 1,000 here.
        let of_sleep = (words.sleepers * 1_000 + words.parked) * 1_000 + words.woken;
        (words.changes * 1_000 + words.rings, of_sleep)
    }

    fn call_numbers(call: Call) -> (u64, u64) {
        match call {
            Call::Wait(changes) => (0, changes),
            Call::Change => (1, 0),
        }
    }

    fn point_numbers(point: Point) -> (u64, u64) {
        match point {
            Point::Listen => (0, 0),
            Point::LookForChange(heard) => (1, heard),
            Point::Count(heard) => (2, heard),
            Point::Park(heard) => (3, heard),
            Point::Asleep(place) => (4, place),
            Point::Uncount => (5, 0),
            Point::Change => (6, 0),
            Point::Ring => (7, 0),
            Point::Look => (8, 0),
            Point::Clear => (9, 0),
            Point::Wake => (10, 0),
        }
    }
}

const WRONG: [Bell; 4] = [
    Bell::Marks,
    Bell::LooksEarly,
    Bell::SleepsBlindly,
    Bell::WakesNobody,
];

// Plays these calls in every order. Returns how many courses there are, how many of them are stuck, and in how many of
// those nothing can move any more.
fn courses_of(
    rt: &impl Abort,
    alloc: Global,
    bell: Bell,
    calls: &[(usize, Call)],
    parties: usize,
) -> [usize; 3] {
    let mut lines = Vec::new(alloc);
    for (party, call) in calls {
        let entry = Entry {
            party: *party,
            lock: 0,
            action: Move::Begin(*call),
        };
        lines.push(entry).expect(rt, "memory");
    }
    let mut locks = Vec::new(alloc);
    let world = World::new(alloc, bell, parties).expect(rt, "memory");
    locks.push(world).expect(rt, "memory");
    let programs = Programs {
        alloc,
        lines,
        parties,
    };
    let found = explore(programs, locks, 400_000).expect(rt, "memory");
    [found.courses.len(), found.stuck.len(), found.still.len()]
}

#[test]
fn a_wrong_event_leaves_a_waiter_asleep(rt: HostRuntime) {
    let calls = [(0, Call::Wait(2)), (1, Call::Change), (1, Call::Change)];
    let courses = |bell: Bell| courses_of(&rt, rt.alloc(), bell, &calls, 2);
    equal(&rt, courses(Bell::Right), [147, 0, 0]);
    let [marks, early, blind, silent] = WRONG.map(courses);
    equal(&rt, [marks, early], [[227, 5, 1], [170, 9, 3]]);
    equal(&rt, [blind[1] > 0, silent[1] > 0], [true; 2]);
}

#[test]
fn two_waiters_are_not_left_asleep(rt: HostRuntime) {
    let calls = [
        (0, Call::Wait(1)),
        (1, Call::Wait(2)),
        (2, Call::Change),
        (2, Call::Change),
    ];
    let courses = |bell: Bell| courses_of(&rt, rt.alloc(), bell, &calls, 3);
    equal(&rt, courses(Bell::Right), [1800, 0, 0]);
    let [marks, early, blind, silent] = WRONG.map(courses);
    equal(&rt, [marks, early], [[2577, 59, 3], [2129, 91, 7]]);
    equal(&rt, [blind[1] > 0, silent[1] > 0], [true; 2]);
}
