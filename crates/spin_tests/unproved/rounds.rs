//! Schedules in rounds. Each satisfies the premises of a law of `spin_laws`, and reaches the bound of this law. Begin
//! with [`in_rounds`].

use super::objects::OfHeader;
use super::rows::world;
use super::worlds::{Opening, Trial, holds, opened, try_text};
use spin_text::entry;
use spin_world::{Answer, Hold, Move, Object, Outcome, Place, World};
use spin_world_seats::{Seats, SeatsCall};
use std::alloc::{Allocator, Global};
use std::process::Abort;

/// One step of a party's call, or the beginning of a release.
#[derive(Clone, Copy, PartialEq, Eq)]
enum Owed {
    Step,
    Release,
}

/// Returns what a party at this place has to do in a round.
fn due_in_round(rt: &impl Abort, place: Option<Place>) -> Option<Owed> {
    match place {
        Some(Place::InCall) => Some(Owed::Step),
        Some(Place::Holding(Hold::Starver)) => None,
        Some(Place::Holding(_)) => Some(Owed::Release),
        Some(Place::Leaked(_)) | Some(Place::Gone) => {
            assert!(rt; false, "a leaked party ends all rounds");
            None
        }
        _ => None,
    }
}

/// What the parties still have to do in a round, and whether a call that counts got in this round what it waited for:
/// `Granted`, a value or `Follower`.
#[derive(Drop)]
struct Round {
    owing: [Option<Owed>; 3],
    reached: bool,
}

impl Round {
    /// Begins a round. Each party that is in a call takes a step in it, and each holder begins to release.
    fn of<O: Object, A: Allocator + Copy>(rt: &impl Abort, world: &World<O, A>) -> Round {
        let mut owing: [Option<Owed>; 3] = [None, None, None];
        for party in 0..3usize {
            owing[party] = due_in_round(rt, world.place(party));
        }
        Round {
            owing,
            reached: false,
        }
    }

    /// Adds a move. Only a call of the party `counts` reaches the bound, or a call of any party if `counts` is `None`.
    fn add<T: Copy>(
        &mut self,
        party: usize,
        outcome: Outcome<Answer<T>, T>,
        releases: bool,
        counts: Option<usize>,
    ) {
        let paid = match outcome {
            Outcome::GoingOn => Some(Owed::Step),
            Outcome::Answered { answer, .. } => {
                let granted = matches!(
                    answer,
                    Answer::Granted | Answer::Value(_) | Answer::Follower
                );
                self.reached = self.reached || granted && counts.unwrap_or(party) == party;
                Some(Owed::Step)
            }
            Outcome::Begun if releases => Some(Owed::Release),
            _ => None,
        };
        if party < 3 && self.owing[party] == paid {
            self.owing[party] = None;
        }
    }

    /// Checks that each party has done what it had to do. Checks that the bound is reached if and only if the round is
    /// the last one.
    fn ends(&self, rt: &impl Abort, shows: &str, number: usize, rounds: usize) {
        let is_last = number == rounds.saturating_sub(1);
        holds(rt, shows, number, self.owing == [None, None, None]);
        holds(rt, shows, number, self.reached == is_last);
    }
}

/// Plays a schedule, and then the lines of each round.
pub fn in_rounds<O: OfHeader>(
    rt: &impl Abort,
    alloc: Global,
    opening: Opening<'_>,
    past: &[(usize, Move<O::Call, u64>)],
    rounds: &[&str],
    counts: Option<usize>,
) {
    let shows = opening.shows;
    let mut world = opened::<O, Global>(rt, alloc, opening);
    world.run(past).expect(rt, shows);
    for (number, lines) in rounds.iter().enumerate() {
        let mut round = Round::of(rt, &world);
        for line in lines.lines() {
            let (party, action) = entry::<O>(line.as_bytes()).expect(rt, shows);
            let releases = line.as_bytes().ends_with(b"release");
            round.add(party, world.act(party, action), releases, counts);
        }
        round.ends(rt, shows, number, rounds.len());
    }
}

/// What a schedule shows, its text, the lines of each round, and the party whose call counts (`None`: a call of any
/// party).
type Rounds = (
    &'static str,
    &'static str,
    &'static [&'static str],
    Option<usize>,
);

const ROUNDS: &[Rounds] = &[
    (
        "a flag grants in the fourth round",
        "flag 5 2\n1 begin lock\n1 step\n0 begin lock",
        &[
            "0 step\n1 begin release",
            "0 step\n1 step",
            "0 step",
            "0 step",
        ],
        None,
    ),
    (
        "an open lock of a flag is granted in the second round",
        "flag 5 2\n1 begin lock\n1 step\n0 begin lock\n0 step\n1 begin release\n1 step",
        &["0 step", "0 step"],
        Some(0),
    ),
    (
        "a ticket behind one enters in the fourth round",
        "ticket 5 0 2\n1 begin lock\n1 step\n1 step\n0 begin lock\n0 step\n0 step",
        &[
            "0 step\n1 step",
            "0 step\n1 begin release",
            "0 step\n1 step",
            "0 step",
        ],
        Some(0),
    ),
    (
        "a lock alone is granted in the third round",
        "ticket 5 0 1\n0 begin lock",
        &["0 step", "0 step", "0 step"],
        Some(0),
    ),
    // Two tickets are taken in the rounds, so the bound is 4 rounds and 2 more. The ticket of party 1 costs party 0 an
    // exchange. Party 0 gets its own ticket in the same round.
    (
        "a lock of two parties is granted four rounds after the tickets",
        "ticket 5 0 2\n0 begin lock\n1 begin lock",
        &[
            "0 step\n1 step",
            "1 step\n0 step\n0 step",
            "0 step\n1 step",
            "0 step\n1 begin release",
            "0 step\n1 step",
            "0 step",
        ],
        Some(0),
    ),
    (
        "a starver is granted in the fifth round",
        "fair 5 2 1 2\n1 begin try_lock\n1 step\n0 begin starve\n0 step\n0 step\n0 begin starver_lock",
        &[
            "0 step\n1 begin release",
            "0 step\n1 step",
            "0 step",
            "0 step",
            "0 step",
        ],
        None,
    ),
    (
        "an open lock that registers is granted in the fourth round",
        "fair 5 1 0 2\n1 begin try_lock\n1 step\n0 begin lock\n0 step\n0 step\n0 step\n1 begin release\n1 step",
        &["0 step", "0 step", "0 step", "0 step"],
        Some(0),
    ),
    (
        "a read alone is granted in the second round",
        "rw 5 1 1\n0 begin read",
        &["0 step", "0 step"],
        None,
    ),
    (
        "a read beside the only reader is granted in the fourth round",
        "rw 5 1 2\n1 begin try_read\n1 step\n1 step\n0 begin read",
        &[
            "0 step\n1 begin release",
            "0 step\n1 step",
            "0 step",
            "0 step",
        ],
        None,
    ),
    // One reader leaves in the first round and one in the second. Each costs the waiting party an exchange.
    (
        "a read beside two readers is granted in the fourth round",
        "rw 5 3 3\n1 begin read\n1 step\n1 step\n2 begin read\n2 step\n2 step\n0 begin read",
        &[
            "0 step\n1 begin release\n1 step\n2 begin release",
            "0 step\n2 step",
            "0 step",
            "0 step",
        ],
        None,
    ),
    // The upgradable reader downgrades before it leaves.
    (
        "a read beside one that may upgrade is granted in the fifth round",
        "rw 5 1 2\n1 begin upgradeable_read\n1 step\n1 step\n0 begin read\n1 begin downgrade",
        &[
            "0 step\n1 step",
            "0 step\n1 begin release",
            "0 step\n1 step",
            "0 step",
            "0 step",
        ],
        None,
    ),
    // The upgradable reader tries twice to upgrade while the other reader holds, and then downgrades.
    (
        "a write beside one that may upgrade is granted in the sixth round",
        "rw 5 3 3\n2 begin read\n2 step\n2 step\n\
         1 begin upgradeable_read\n1 step\n1 step\n0 begin write\n1 begin try_upgrade",
        &[
            "0 step\n1 step\n1 begin try_upgrade\n2 begin release",
            "0 step\n1 step\n1 begin downgrade\n2 step",
            "0 step\n1 step",
            "0 step\n1 begin release",
            "0 step\n1 step",
            "0 step",
        ],
        None,
    ),
    (
        "one that asks to upgrade is granted in the first round",
        "rw 5 2 2\n1 begin upgradeable_read\n1 step\n1 step\n0 begin write\n1 begin upgrade\n1 step",
        &["0 step\n1 step"],
        None,
    ),
    (
        "one that asks to upgrade beside a reader is granted in the third round",
        "rw 5 3 3\n2 begin read\n2 step\n2 step\n\
         1 begin upgradeable_read\n1 step\n1 step\n0 begin write\n1 begin upgrade\n1 step",
        &[
            "0 step\n1 step\n2 begin release",
            "0 step\n1 step\n2 step",
            "0 step\n1 step",
        ],
        None,
    ),
    // The writer downgrades twice before it releases, and the waiting reader finds no room until then.
    (
        "a read beside a writer is granted in the sixth round",
        "rw 5 1 2\n1 begin write\n1 step\n0 begin read\n1 begin downgrade_to_upgradeable",
        &[
            "0 step\n1 step\n1 begin downgrade",
            "0 step\n1 step",
            "0 step\n1 begin release",
            "0 step\n1 step",
            "0 step",
            "0 step",
        ],
        None,
    ),
    (
        "an upgrade is granted in the third round",
        "rw 5 2 2\n1 begin read\n1 step\n1 step\n0 begin upgradeable_read\n0 step\n0 step\n0 begin upgrade\n0 step",
        &["0 step\n1 begin release", "0 step\n1 step", "0 step"],
        Some(0),
    ),
    (
        "a call with a closure is answered in the fourth round",
        "once 2\n0 begin call_once 6\n1 begin call_once 7",
        &[
            "0 step\n1 step",
            "1 step\n0 step",
            "0 step\n1 step",
            "0 step",
        ],
        Some(0),
    ),
    (
        "a wait is answered in the first round where there is a value",
        "once 1\n0 begin call_once 5\n0 step\n0 step\n0 step\n0 begin wait",
        &["0 step"],
        Some(0),
    ),
    (
        "a follower leaves in the first round of a full group",
        "barrier 2 2\n0 begin wait\n0 step\n1 begin wait\n1 step",
        &["0 step"],
        Some(0),
    ),
];

#[test]
fn a_bound_is_reached_in_the_last_round(rt: HostRuntime) {
    for (shows, text, rounds, counts) in ROUNDS {
        try_text(&rt, rt.alloc(), Trial::Rounds(rounds, *counts), shows, text);
    }
}

const SEATED: &[(usize, Move<SeatsCall, ()>)] = &[
    (1, Move::Begin(SeatsCall::TryEnter)),
    (1, Move::Step),
    (1, Move::Step),
    (0, Move::Begin(SeatsCall::Enter)),
];

const ROUNDS_OF_SEATS: &[&[(usize, Move<SeatsCall, ()>)]] = &[
    &[(0, Move::Step), (1, Move::Begin(SeatsCall::Leave))],
    &[(0, Move::Step), (1, Move::Step)],
    &[(0, Move::Step)],
    &[(0, Move::Step)],
];

#[test]
fn the_only_seat_is_granted_in_the_fourth_round(rt: HostRuntime) {
    let mut world = world(&rt, rt.alloc(), Seats::new(1), 2);
    world.run(SEATED).expect(&rt, "memory");
    for (number, moves) in ROUNDS_OF_SEATS.iter().enumerate() {
        let mut round = Round::of(&rt, &world);
        for (party, action) in *moves {
            let releases = matches!(action, Move::Begin(SeatsCall::Leave));
            round.add(*party, world.act(*party, *action), releases, None);
        }
        round.ends(&rt, "seats", number, ROUNDS_OF_SEATS.len());
    }
}
