//! The private fields of the candidate list.
use super::{Candidate, Candidates};
use crate::proto::rekey::Profile;
use alloc::vec::Vec;

impl<P: Profile, I> Candidates<P, I> {
    pub(in crate::proto::rekey) fn of(list: Vec<Candidate<P, I>>, next: u64) -> Self {
        Self { list, next }
    }

    pub(in crate::proto::rekey) fn number(&self) -> u64 {
        self.next
    }
}
