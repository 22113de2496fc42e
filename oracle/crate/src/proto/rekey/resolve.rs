//! Stand-in for the one missing file that decides a ported result: the
//! tie-break, of which ported calls ask one question only, whether a
//! completed own attempt is kept against a competing msg3.
use crate::identity::NodeAddr;

#[derive(Clone, Copy, Debug, PartialEq, Eq)]
pub enum Commit {
    AtAnswer,
    AtFinal,
}
#[derive(Clone, Copy, Debug, PartialEq, Eq)]
pub enum Own {
    None,
    Unanswered,
    Completed,
}
#[derive(Clone, Copy, Debug, PartialEq, Eq)]
pub enum Verdict {
    Accept,
    YieldOwn,
    KeepOwn,
    DiscardCompeting,
}

/// The smaller address keeps its own completed attempt. Any other question
/// comes from a call that is not ported.
pub fn resolve(commit: Commit, own: Own, me: &NodeAddr, peer: &NodeAddr, restart: bool) -> Verdict {
    assert!((commit, own, restart) == (Commit::AtFinal, Own::Completed, false));
    if me < peer {
        Verdict::KeepOwn
    } else {
        Verdict::YieldOwn
    }
}
