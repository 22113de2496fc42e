//! The private fields of schedules and ladders, made from and read as numbers.
use super::{Ladder, MAX_RUNGS, Schedule};
use crate::time::Instant;

impl Schedule {
    /// A schedule of these offsets; what lies past the limit is dropped.
    pub(crate) fn of(at: &[u64], keepalive: u16) -> Self {
        let mut s = Self::EMPTY;
        for (to, from) in s.at.iter_mut().zip(at) {
            *to = *from;
        }
        s.keepalive = keepalive;
        s.len = u8::try_from(at.len().min(MAX_RUNGS)).unwrap_or(0);
        s
    }

    pub(crate) fn map(&self) -> u16 {
        self.keepalive
    }
}

impl<I: Copy> Ladder<I> {
    /// A ladder with its cursor at any place.
    pub(crate) fn at(origin: I, sched: Schedule, next: u8) -> Self {
        Self { origin, sched, next }
    }

    pub(crate) fn parts(&self) -> (I, Schedule, u8) {
        (self.origin, self.sched, self.next)
    }
}

impl<I: Instant> Ladder<I> {
    /// How many rungs a take at `now` takes: how far the published `take` moves
    /// the cursor of a copy.
    pub(crate) fn rungs(&self, now: I) -> u8 {
        let mut copy = *self;
        copy.take(now);
        let moved = copy.next - self.next;
        assert_eq!(usize::from(moved), self.steps(now), "a take moves by the rungs that are due");
        moved
    }

    /// The same number without `take`: with the cursor at each rung in turn,
    /// from where it stands, how many are due before one is not.
    fn steps(&self, now: I) -> usize {
        (self.next..self.sched.len).take_while(|&next| Self { next, ..*self }.due(now)).count()
    }
}
