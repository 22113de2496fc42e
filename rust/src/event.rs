//! What an answer tells, read from the words of a log.
use crate::raw::WORDS;

macro_rules! numbered {
    ($(#[$m:meta])* $name:ident: $t:ty { $($(#[$c:meta])* $case:ident = $n:literal),* $(,)? }) => {
        $(#[$m])*
        #[derive(Clone, Copy, Debug, PartialEq, Eq, Hash)]
        pub enum $name { $($(#[$c])* $case = $n),* }

        impl $name {
            /// The number that stands for it in a record or an event.
            pub fn number(self) -> $t {
                self as $t
            }

            /// The case of a number, if it has one.
            pub fn of(n: $t) -> Option<Self> {
                match n {
                    $($n => Some(Self::$case),)*
                    _ => None,
                }
            }
        }
    };
}

numbered! {
    /// The side of a handshake.
    Role: u64 { Initiator = 0, Responder = 1 }
}
numbered! {
    /// A handshake message's kind.
    Message: u64 { Msg1 = 0, Msg2 = 1, Setup = 2, Ack = 3, Msg3 = 4 }
}
numbered! {
    /// Which held epoch a frame came under.
    Slot: u8 { Current = 0, Pending = 1, Previous = 2 }
}
numbered! {
    /// What an index is bound for.
    Purpose: u64 { Attempt = 0, Pending = 1, Current = 2, Previous = 3 }
}
numbered! {
    /// Why an epoch became current.
    Evidence: u64 { Proof = 0, Frame = 1, Restart = 2, Assumed = 3, Delay = 4, First = 5 }
}
numbered! {
    /// Why an input changed nothing, or only what its row names: the six reasons that these calls
    /// give.
    Reason: u64 {
        /// A frame's plaintext is below the profile's floor or does not fit. Told by [`crate::frame`].
        ShortPlaintext = 20,
        /// A worker's notice names an epoch that is not held, as when it was retired meanwhile. Told by
        /// [`crate::worker`], [`crate::delegated`] and [`crate::undelegated`].
        StaleTag = 23,
        /// [`crate::worker`] names the pending epoch, which no worker holds, or [`crate::undelegated`]
        /// one without a worker.
        NotDelegated = 24,
        /// [`crate::delegated`] names an epoch that a worker holds already.
        AlreadyDelegated = 25,
        /// [`crate::delegated`] names the pending epoch, which is never offered.
        NotOffered = 26,
        /// A candidate reached its deadline and was removed. Told by [`crate::poll`].
        CandidateExpired = 29,
    }
}
numbered! {
    /// Why an attempt or a held epoch was given up.
    Abandon: u64 {
        AdoptionNotSeen = 0, Unadopted = 1, PeerStayedOnOld = 2, RevertUnconfirmed = 3,
        Unanswered = 4, Yielded = 5, Reverted = 6, Superseded = 7, Closed = 8,
    }
}
numbered! {
    /// Why the link is to be closed.
    Teardown: u64 { OpeningIdle = 0, OpeningFailed = 1, CounterExhausted = 2 }
}
numbered! {
    /// Why a handshake is to be started.
    Start: u64 { Scheduled = 0, Silence = 1 }
}
numbered! {
    /// What the cycle is in. In a record any other number is Idle.
    CycleKind: u8 { Idle = 0, Init = 1, PendI = 2, PendR = 3 }
}
numbered! {
    /// What a completed own attempt waits for. In a record any other number is Delay.
    Wait: u8 { Held = 0, Evidence = 1, Delay = 2 }
}

numbered! {
    /// The test that sends a call back, by its number; [`crate::Refusal`] has a sentence for each.
    Refused: u8 {
        Settings = 1, Profile = 2, Candidates = 3, NoCurrent = 4, Shared = 5, Ladder = 6, Draw = 7,
        Slot = 8, Tag = 9, NoStart = 10, Sent = 11,
    }
}
numbered! {
    /// The check that refuses settings, by its place in number 1; [`crate::Refusal`] has a sentence
    /// for each.
    Place: u8 {
        ZeroMessages = 1, MessagesPastSoft = 2, AfterNotAboveJitter = 3, AfterBelowLinkFloor = 4,
        AfterTooLong = 5, ZeroCheck = 6, ZeroHold = 7, ZeroRevert = 8, ZeroTtl = 9,
        ZeroSilence = 10, HandshakeTooShort = 11, DrainTooShort = 12, RetentionBelowDrain = 13,
        HoldTooShort = 14, SoftNotBelowHard = 15,
    }
}

/// One event. Messages, sessions, leases and routes are numbers of the caller.
#[derive(Clone, Copy, Debug, PartialEq, Eq)]
pub enum Event {
    /// Send a handshake message on the established route. `rungs` is how many rungs of its resend ladder
    /// this poll took for it, keepalives too: 1 where each was polled for, N where the caller slept past
    /// N − 1 of them, and past the last one too unless the poll came at its instant.
    Send { msg: u64, kind: Message, rungs: u64 },
    /// Seal a frame under an epoch and send it. `rungs` as for [`Event::Send`] where it comes from a
    /// ladder (prompt repeats after a cutover, probes and keepalives); 0 for every other prompt: at an
    /// open, a cutover or a revert, or as an answer to what was heard.
    Prompt { tag: u64, rungs: u64 },
    /// The plaintext from `start` up to `end` of the target is to be delivered.
    Deliver { slot: Slot, tag: u64, start: u64, end: u64 },
    /// Frames for an index on a transport go to this link.
    Bind { transport: u64, index: u64, tag: Option<u64>, purpose: Purpose },
    /// The binding of an index on a transport is removed.
    Unbind { transport: u64, index: u64 },
    /// The receive half of an epoch is offered to a decrypt worker; the floor is the highest counter
    /// that an earlier worker reported. A worker that takes it is told by [`crate::delegated`]; until
    /// then each poll with workers on offers again.
    Delegate { tag: u64, transport: u64, index: u64, session: u64, floor: Option<u64> },
    /// The worker's copy is withdrawn: its epoch is retired. No notice answers it.
    Revoke { tag: u64, transport: u64, index: u64 },
    /// A lease's index goes back to the allocator.
    Release { index: u64 },
    /// An epoch became current.
    Installed { tag: u64, role: Role, evidence: Evidence },
    /// An epoch's keys are to be discarded.
    Retired { tag: u64 },
    /// An assumed epoch went back to pending.
    Reverted { tag: u64 },
    /// The peer restarted with a new startup epoch, eight bytes as one number, low byte first.
    PeerRestarted { epoch: u64 },
    /// A cutover happened.
    Rekeyed { role: Role },
    /// An input changed nothing, or only what its row names. The call that tells it was accepted.
    Reject(Reason),
    /// An attempt or a held epoch was given up.
    Abandoned(Abandon),
    /// The link is to be closed.
    Teardown(Teardown),
    /// A frame's counter counts as received under an epoch.
    Mark { tag: u64, counter: u64 },
    /// A handshake is to be started; the answer goes to [`crate::reply`].
    Start(Start),
    /// A responder's pending epoch ended, and the message that armed it enters the replay record.
    Ended { tag: u64 },
}

fn may(some: u64, n: u64) -> Option<u64> {
    (some == 1).then_some(n)
}

impl Event {
    /// The event that eight words tell of; none where they are no event's words.
    pub fn of(w: &[u64; 8]) -> Option<Self> {
        Some(match w[0] {
            0 => Self::Send { msg: w[1], kind: Message::of(w[2])?, rungs: w[3] },
            1 => Self::Prompt { tag: w[1], rungs: w[2] },
            2 => Self::Deliver {
                slot: Slot::of(u8::try_from(w[1]).ok()?)?,
                tag: w[2],
                start: w[3],
                end: w[4],
            },
            3 => Self::Bind {
                transport: w[1],
                index: w[2],
                tag: may(w[3], w[4]),
                purpose: Purpose::of(w[5])?,
            },
            4 => Self::Unbind { transport: w[1], index: w[2] },
            5 => Self::Delegate {
                tag: w[1],
                transport: w[2],
                index: w[3],
                session: w[4],
                floor: may(w[5], w[6]),
            },
            6 => Self::Revoke { tag: w[1], transport: w[2], index: w[3] },
            7 => Self::Release { index: w[1] },
            8 => Self::Installed {
                tag: w[1],
                role: Role::of(w[2])?,
                evidence: Evidence::of(w[3])?,
            },
            9 => Self::Retired { tag: w[1] },
            10 => Self::Reverted { tag: w[1] },
            11 => Self::PeerRestarted { epoch: w[1] },
            12 => Self::Rekeyed { role: Role::of(w[1])? },
            14 => Self::Reject(Reason::of(w[1])?),
            15 => Self::Abandoned(Abandon::of(w[1])?),
            16 => Self::Teardown(Teardown::of(w[1])?),
            17 => Self::Mark { tag: w[1], counter: w[2] },
            18 => Self::Start(Start::of(w[1])?),
            19 => Self::Ended { tag: w[1] },
            _ => return None,
        })
    }
}

/// The words that a call writes its events into, and how many events there are. One log serves any
/// number of calls.
#[derive(Clone, Debug)]
pub struct Log {
    pub(crate) words: Box<[u64; WORDS]>,
    pub(crate) len: usize,
}

impl Default for Log {
    fn default() -> Self {
        Self::new()
    }
}

impl Log {
    pub fn new() -> Self {
        Self { words: Box::new([0; WORDS]), len: 0 }
    }

    /// How many events the last call told.
    pub fn len(&self) -> usize {
        self.len
    }

    pub fn is_empty(&self) -> bool {
        self.len == 0
    }

    /// The events of the last call, in order.
    ///
    /// # Panics
    /// On words that are no event's. The library is proved to write the words of the events that
    /// its definitions name, and these give no numbers but those of the enums here.
    pub fn events(&self) -> impl Iterator<Item = Event> + '_ {
        self.words.chunks_exact(8).take(self.len).map(|w| {
            Event::of(w.try_into().expect("eight words")).expect("the words of an event")
        })
    }
}
