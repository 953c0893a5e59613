//! How long calls took: counts of calls, by their length in nanoseconds.

/// There are four lengths between a power of two and the next.
const LENGTHS: usize = 256;

/// For each length, how many calls were so long.
#[derive(Drop)]
pub struct Waits {
    counts: [u64; LENGTHS],
}

impl Waits {
    pub fn new() -> Waits {
        Waits {
            counts: [0; LENGTHS],
        }
    }

    /// Counts more calls of the length of this place.
    fn count(&mut self, place: usize, calls: u64) {
        if let Some(count) = self.counts.get_mut(place) {
            *count = count.wrapping_add(calls);
        }
    }

    /// Counts a call that took this many nanoseconds.
    pub fn add(&mut self, nanos: u64) {
        self.count(place(nanos), 1);
    }

    /// Counts what others have counted.
    pub fn merge(&mut self, others: &Waits) {
        for place in 0..LENGTHS {
            self.count(place, others.at(place));
        }
    }

    /// Returns how many calls have the length of this place.
    fn at(&self, place: usize) -> u64 {
        self.counts.get(place).copied().unwrap_or(0)
    }

    /// Returns the nanoseconds that one call in a thousand exceeds, or those of the longest call of fewer.
    pub fn longest(&self) -> u64 {
        let mut all = 0u64;
        for place in 0..LENGTHS {
            all = all.wrapping_add(self.at(place));
        }
        let wanted = all.saturating_sub(all / 1000);
        let mut counted = 0u64;
        for place in 0..LENGTHS {
            counted = counted.wrapping_add(self.at(place));
            if counted >= wanted {
                return nanos(place);
            }
        }
        0
    }
}

/// Returns the place of a length: the number itself below 8, then four places for each power of two.
fn place(nanos: u64) -> usize {
    let (mut first, mut rest) = (0usize, nanos);
    for _ in 0..64 {
        if rest < 8 {
            break;
        }
        rest /= 2;
        first = first.wrapping_add(4);
    }
    first.wrapping_add(rest as usize)
}

/// Returns the shortest length of a place.
fn nanos(place: usize) -> u64 {
    if place < 8 {
        return place as u64;
    }
    let mut length = (place as u64 % 4).wrapping_add(4);
    for _ in 1..place / 4 {
        length = length.saturating_mul(2);
    }
    length
}
