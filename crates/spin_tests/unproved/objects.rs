//! The object that a header names, and its words while no party is in a call: sums over the parties' places.

use spin_text::{Header, Spelled};
use spin_world::{BarrierObject, Fair, Flag, Hold, OnceObject, Place, Rw, Ticket};

/// An object that a header names.
pub trait OfHeader: Spelled {
    /// Creates the object in its opening state. Returns `None` if the header names another object.
    fn of_header(header: Header) -> Option<Self>;
}

impl OfHeader for Flag<u64> {
    fn of_header(header: Header) -> Option<Flag<u64>> {
        match header {
            Header::Flag { value, .. } => Some(Flag::new(value)),
            _ => None,
        }
    }
}

impl OfHeader for Ticket<u64> {
    fn of_header(header: Header) -> Option<Ticket<u64>> {
        match header {
            Header::Ticket { value, first, .. } => Some(Ticket::new(value, first)),
            _ => None,
        }
    }
}

impl OfHeader for Rw<u64> {
    fn of_header(header: Header) -> Option<Rw<u64>> {
        match header {
            Header::Rw { value, cap, .. } if cap >= 1 => Some(Rw::new(value, cap)),
            _ => None,
        }
    }
}

impl OfHeader for Fair<u64> {
    fn of_header(header: Header) -> Option<Fair<u64>> {
        match header {
            Header::Fair {
                value,
                cap,
                spins,
                ..
            } if cap >= 1 && spins < usize::MAX => Some(Fair::new(value, cap, spins)),
            _ => None,
        }
    }
}

impl OfHeader for OnceObject<u64> {
    fn of_header(header: Header) -> Option<OnceObject<u64>> {
        match header {
            Header::Once { .. } => Some(OnceObject::new()),
            _ => None,
        }
    }
}

impl OfHeader for BarrierObject {
    fn of_header(header: Header) -> Option<BarrierObject> {
        match header {
            Header::Barrier { n, .. } => Some(BarrierObject::new(n)),
            _ => None,
        }
    }
}

/// How many parties share the lock.
pub fn parties_of(header: Header) -> usize {
    match header {
        Header::Flag { parties, .. }
        | Header::Ticket { parties, .. }
        | Header::Rw { parties, .. }
        | Header::Fair { parties, .. }
        | Header::Once { parties }
        | Header::Barrier { parties, .. } => parties,
    }
}

/// How many parties hold in each way, by a guard or after a leak.
#[derive(Clone, Copy, Debug)]
pub struct Standing {
    pub reading: u64,
    pub upgradable: u64,
    pub writing: u64,
    pub tickets: u64,
    pub starvers: u64,
}

impl Standing {
    /// Counts what the parties at these places hold.
    pub fn at(places: &[Place]) -> Standing {
        let mut all = Standing {
            reading: 0,
            upgradable: 0,
            writing: 0,
            tickets: 0,
            starvers: 0,
        };
        for place in places {
            match place {
                Place::Holding(hold) | Place::Leaked(hold) => all.add(*hold),
                _ => {}
            }
        }
        all
    }

    fn add(&mut self, hold: Hold) {
        let many = match hold {
            Hold::Read => &mut self.reading,
            Hold::Upgradable => &mut self.upgradable,
            Hold::Write => &mut self.writing,
            Hold::Ticket(_) => &mut self.tickets,
            Hold::Starver => &mut self.starvers,
        };
        *many = many.saturating_add(1);
    }
}

/// Returns `many` times `each`, plus `more`.
fn sum(many: u64, each: u64, more: u64) -> u64 {
    many.saturating_mul(each).saturating_add(more)
}

/// Returns whether these are the words for these holders, this many answered calls, and a value or none.
pub fn are_words_of(
    header: Header,
    (first, second): (u64, Option<u64>),
    all: Standing,
    answers: u64,
    has_value: bool,
) -> bool {
    match header {
        Header::Flag { .. } => first == all.writing,
        Header::Fair { .. } => first == sum(all.starvers, 2, all.writing),
        Header::Rw { .. } => first == sum(all.reading, 8, sum(all.upgradable, 2, all.writing)),
        Header::Once { .. } => first == if has_value { 2 } else { 0 },
        Header::Ticket { .. } => first.checked_sub(second.unwrap_or(0)) == Some(all.tickets),
        Header::Barrier { n, .. } => {
            first == 0 && sum((n as u64).max(1), second.unwrap_or(0), 0) == answers
        }
    }
}
