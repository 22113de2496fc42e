//! A proved rekey link, called from Rust.
//!
//! Rust holds the [`State`] and reads and writes every field of it; each call takes what it needs
//! and gives the new state back. The library keeps nothing. Each call tells its events into a
//! [`Log`] that the caller lends, or is sent back with a [`Refusal`], which leaves state, log words
//! and buffers as they were; the log then tells no event. Every answer is proved to be what its
//! definition in the repository's `crates/*/specs` says, for every value of every field.
//!
//! The archive `target/staticlib/liblink.a` is made by `tools/archive` of the repository;
//! the environment variable `SIKLYAVON_LINK` names another folder that has it.
//!
//! `cargo run --offline --example tablet` runs a whole host loop (examples/tablet.rs of the
//! repository). What happens outside of these calls is written into the state by the caller: the
//! table "What happens outside, and what to write for it" of include/siklyavon_link.h has the fields,
//! whose names are the same here.
//!
//! | what happens | the call |
//! |---|---|
//! | a link begins | [`open`] |
//! | its time comes | [`poll`], with [`wake`] and [`quiet`] to tell when |
//! | a frame authenticated here | [`frame`] |
//! | a START was answered | [`reply`] |
//! | frames were sealed | [`sent`] |
//! | a decrypt worker took a receive half, or is gone | [`delegated`], [`undelegated`] |
//! | a worker authenticated a frame | [`worker`] |
//! | data of the application was sealed | [`data_sent`] |
//! | the path changed, or the round trip was measured | [`path`] |
//! | the link line is to be shown | [`status`] |
//!
//! # Example
//! A link is opened, handed a frame that authenticated, polled at its wake, and answers a START.
//! ```
//! use siklyavon_link::*;
//!
//! # fn main() -> Result<(), Refusal> {
//! let cfg = Config::fmp();
//! let profile = Profile { messages: 2, at_proof: false, silence: true, smaller: true, floor: 0 };
//! let mut log = Log::new();
//!
//! // Opened at 1000 by the side that answered the first handshake.
//! let opening = Opening { role: Role::Responder, transport: 7, lease: Some(42), workers: false };
//! let mut state = open(&cfg, &profile, opening, 0, 1000, &mut log)?;
//! let told: Vec<Event> = log.events().collect();
//! assert_eq!(told[1], Event::Installed { tag: 1, role: Role::Responder, evidence: Evidence::First });
//!
//! // A frame from the peer under the current epoch, which Rust authenticated: 4 bytes.
//! let proof = FrameProof { tag: 1, slot: Slot::Current.number(), counter: 9, k: false, len: 4, probe: false };
//! let (source, mut target) = (*b"data", [0u8; 16]);
//! let at = Given { cfg: &cfg, profile: &profile, now: 2000, workers: false };
//! frame(&mut state, at, 0, proof, 0, &source, &mut target, &mut log)?;
//! assert_eq!(log.events().next(), Some(Event::Mark { tag: 1, counter: 9 }));
//! assert_eq!(&target[..4], b"data");
//!
//! // At 2500 Rust told how many frames it sealed.
//! sent(&mut state, 2500, 3)?;
//!
//! // Polled at its wake: the time trigger calls for a start. Until then it is quiet.
//! let now = wake(&state, &cfg, &profile)?.expect("a start is to come");
//! assert!(quiet(&state, Given { now: now - 1, ..at }, 0, 0));
//! assert_eq!(now, 121_000);
//! let at = Given { now, ..at };
//! poll(&mut state, at, 0, 0, &mut log)?;
//! assert_eq!(log.events().collect::<Vec<_>>(), [Event::Start(Start::Scheduled)]);
//!
//! // Rust wrote the first message (number 5) of handshake 11 on transport 7.
//! let opened = Attempted { hs: 11, msg: 5, transport: 7, lease: Some(43) };
//! reply(&mut state, at, Some(opened))?;
//! assert_eq!(CycleKind::of(state.cycle.kind), Some(CycleKind::Init));
//!
//! // The link line.
//! let line = status(&state, &cfg, &profile, now)?;
//! assert_eq!((line.tag, line.kind), (Some(1), CycleKind::Init));
//! assert_eq!(line.quiet, Some(119_000));
//! # Ok(())
//! # }
//! ```
//!
//! # When to poll
//! [`quiet`] says of one instant that a poll can be left out, and [`wake`] gives an instant before
//! which that stays so. Neither paces a caller. A START leaves the state, and so does a reply that
//! opened nothing: the start is still called for, every poll tells it again, and the wake stays in the
//! past. A sent count at `hard` keeps it there too, and it may be early. So a caller that sleeps until
//! the wake alone may poll without a pause. It needs two limits of its own: no two polls within
//! `check`, and no new try to start before a back-off that grows with each try that opened nothing. A
//! START that comes before that needs no reply.
//!
//! Here no try opens a handshake. In ten minutes the link is polled once a second from the first
//! START on, 481 times, and twelve starts are tried.
//! ```
//! use siklyavon_link::*;
//!
//! # struct Clock(u64);
//! # impl Clock {
//! #     fn sleep_until(&mut self, t: Option<u64>) -> u64 {
//! #         self.0 = self.0.max(t.expect("no other call comes"));
//! #         self.0
//! #     }
//! # }
//! # let (mut clock, mut polls, mut tries) = (Clock(1000), 0, 0);
//! # let mut try_to_start = || -> Option<Attempted> { tries += 1; None };
//! # let mut run = || -> Result<(), Refusal> {
//! # let cfg = Config::fmp();
//! # let profile = Profile { messages: 2, at_proof: false, silence: true, smaller: true, floor: 0 };
//! # let opening = Opening { role: Role::Responder, transport: 7, lease: None, workers: false };
//! # let mut log = Log::new();
//! # let mut state = open(&cfg, &profile, opening, 0, 1000, &mut log)?;
//! # let draws = || (0, 0);
//! let mut at = Given { cfg: &cfg, profile: &profile, now: 1000, workers: false };
//! let mut next = 0; // no poll before this instant
//! let mut retry = 0; // no start is tried before this one
//! let mut failed = 0; // tries in a row that opened nothing
//! loop {
//!     // There is something to do at once, or at the wake, or not before another call is made.
//!     let look = if quiet(&state, at, 0, 0) { wake(&state, &cfg, &profile)? } else { Some(at.now) };
//!     // A frame, a notice or a count ends the sleep: make that call, then look again.
//!     at.now = clock.sleep_until(look.map(|t| t.max(next)));
//! #   if at.now > 601_000 { return Ok(()); }
//! #   polls += 1;
//!     let (spread, extra) = draws();
//!     poll(&mut state, at, spread, extra, &mut log)?;
//!     next = at.now.saturating_add(cfg.check);
//!     for event in log.events() {
//!         match event {
//!             Event::Start(_) if at.now >= retry => {
//!                 let opened = try_to_start();
//!                 reply(&mut state, at, opened)?;
//!                 failed = if opened.is_some() { 0 } else { failed + 1 };
//!                 let pause = cfg.check.saturating_mul(1 << failed.min(6));
//!                 retry = if opened.is_some() { 0 } else { at.now.saturating_add(pause) };
//!             }
//!             Event::Teardown(_) => return Ok(()), // close the link
//!             _ => {} // do what the event says
//!         }
//!     }
//! }
//! # };
//! # run().expect("every call is accepted");
//! # assert_eq!((polls, tries), (481, 12));
//! ```
//!
//! # Decrypt workers
//! A host may open frames on threads of its own. With workers on, [`open`] and every poll offer the
//! receive half of each epoch that has a lease and no worker: [`Event::Delegate`]. The rest is told by
//! notices, five calls that take what a poll takes but the extra.
//! - [`delegated`]: a worker took the copy. No poll offers that epoch again, and its end is told as
//!   [`Event::Revoke`].
//! - [`worker`]: it authenticated a frame. The worker has the replay window and the plaintext, so
//!   nothing is marked or delivered here; the link learns that the peer was heard.
//! - [`undelegated`]: the worker is gone. Frames of the epoch go to [`frame`] again, and the next offer
//!   tells the highest counter that was reported, so that no frame is taken twice.
//! - [`data_sent`] and [`path`] tell of data that was sealed and of the way to the peer.
//!
//! A worker runs beside the link, and its notice may come too late. Such a notice is accepted and
//! leaves the state; its one event is [`Event::Reject`] with a [`Reason`].
//! ```
//! use siklyavon_link::*;
//!
//! # fn main() -> Result<(), Refusal> {
//! # let cfg = Config::fmp();
//! # let profile = Profile { messages: 2, at_proof: false, silence: true, smaller: true, floor: 0 };
//! # let mut log = Log::new();
//! let opening = Opening { role: Role::Responder, transport: 7, lease: Some(42), workers: true };
//! let mut state = open(&cfg, &profile, opening, 0, 1000, &mut log)?;
//! let offer = Event::Delegate { tag: 1, transport: 7, index: 42, session: 0, floor: None };
//! assert!(log.events().any(|e| e == offer));
//!
//! // A worker takes the copy, and authenticates a frame with counter 9.
//! let at = Given { cfg: &cfg, profile: &profile, now: 1500, workers: true };
//! delegated(&mut state, at, 0, 1, &mut log)?;
//! worker(&mut state, Given { now: 2000, ..at }, 0, 1, false, 9, &mut log)?;
//! assert_eq!(state.mem.last_rx.get(), Some(2000));
//! assert!(quiet(&state, Given { now: 2000, ..at }, 0, 0));
//!
//! // The worker ends: the next poll offers the epoch again, from counter 9 on.
//! undelegated(&mut state, Given { now: 3000, ..at }, 0, 1, &mut log)?;
//! poll(&mut state, Given { now: 3000, ..at }, 0, 0, &mut log)?;
//! let offer = Event::Delegate { tag: 1, transport: 7, index: 42, session: 0, floor: Some(9) };
//! assert_eq!(log.events().collect::<Vec<_>>(), [offer]);
//!
//! // A notice for an epoch that is not held.
//! worker(&mut state, Given { now: 3001, ..at }, 0, 8, false, 10, &mut log)?;
//! assert_eq!(log.events().collect::<Vec<_>>(), [Event::Reject(Reason::StaleTag)]);
//! # Ok(())
//! # }
//! ```
mod event;
pub mod raw;

pub use event::{
    Abandon, CycleKind, Event, Evidence, Log, Message, Place, Purpose, Reason, Refused, Role, Slot,
    Start, Teardown, Wait,
};
pub use raw::{
    Attempt, Bit, Candidates, Config, Cycle, Drain, Epoch, Final, FrameProof, Ids, Index, Ladder,
    MayEpoch, MayLadder, Memory, PendI, PendR, Profile, Schedule, StartReply, State, When,
};
use std::fmt;

/// A call that was sent back: the number of the first test that failed ([`Refused`] names them), and
/// in number 1 the place of the first check that the settings fail ([`Place`]), else 0.
///
/// | number | what was given |
/// |---|---|
/// | 1 | settings that fail a check |
/// | 2 | a profile whose messages are not 2 or 3, or whose floor is above 64 |
/// | 3 | a state with more than 32 candidates |
/// | 4 | a pending or drained epoch without a current one |
/// | 5 | two epochs with one tag, or two candidates with one sequence number |
/// | 6 | a ladder with more than [`raw::MAX_RUNGS`] rungs, or with its cursor above their number |
/// | 7 | a spread outside of -J to J, or an extra above J; J is the setting `jitter` |
/// | 8 | a frame for a slot that holds no epoch |
/// | 9 | a frame with another tag than that epoch's |
/// | 10 | a start reply while no start is called for, or the sent count has reached `hard` |
/// | 11 | a told sent count below the held one |
///
/// | place | the settings' check in number 1; sums are exact, also above 2^64 - 1 |
/// |---|---|
/// | 1 | `messages` is 0 |
/// | 2 | `messages` is above `soft` |
/// | 3 | `after` is not above `jitter` seconds |
/// | 4 | `after` is below `jitter` seconds and `link_age` together |
/// | 5 | `after` is above 2^32 - 1 seconds |
/// | 6 | `check` is 0 |
/// | 7 | `hold` is 0 |
/// | 8 | `revert` is 0 |
/// | 9 | `ttl` is 0 |
/// | 10 | `silence` is 0 |
/// | 11 | `handshake` is below `check` and 3 seconds together |
/// | 12 | `drain` is not above 2 seconds |
/// | 13 | `retention` is below `drain` |
/// | 14 | `hold` is not above `handshake` and `check` together |
/// | 15 | `hard` is not above `soft` |
#[derive(Clone, Copy, Debug, PartialEq, Eq, Hash)]
pub struct Refusal {
    pub number: u8,
    pub place: u8,
}

impl Refusal {
    fn of(number: u8, place: u8) -> Result<(), Self> {
        if number == 0 {
            Ok(())
        } else {
            Err(Self { number, place })
        }
    }

    /// What the number says.
    pub fn sentence(&self) -> &'static str {
        match self.number {
            1 => CHECKS[usize::from(self.place.saturating_sub(1)).min(CHECKS.len() - 1)],
            2 => "a profile value lies outside its range",
            3 => "the state holds more than 32 candidates",
            4 => "a pending or drained epoch stands without a current one",
            5 => "two epochs share a tag, or two candidates a sequence number",
            6 => "a ladder has more than 16 rungs, or stands past its last",
            7 => "a draw lies outside its range",
            8 => "the frame names a slot that holds no epoch",
            9 => "the frame's tag is not that epoch's tag",
            10 => "no start is called for, or the sent count has reached its hard limit",
            11 => "the told sent count is below the held one",
            _ => "no such refusal",
        }
    }
}

/// The checks of the settings, by place.
const CHECKS: [&str; 15] = [
    "the settings: messages is 0",
    "the settings: soft is below messages",
    "the settings: after is not above the jitter",
    "the settings: after is below the jitter and link_age together",
    "the settings: after is longer than 2^32 - 1 seconds",
    "the settings: check is 0",
    "the settings: hold is 0",
    "the settings: revert is 0",
    "the settings: ttl is 0",
    "the settings: silence is 0",
    "the settings: handshake is below check and 3 seconds together",
    "the settings: drain is not above 2 seconds",
    "the settings: retention is below drain",
    "the settings: hold is not above handshake and check together",
    "the settings: hard is not above soft",
];

impl fmt::Display for Refusal {
    fn fmt(&self, f: &mut fmt::Formatter<'_>) -> fmt::Result {
        write!(f, "sent back by {}", self.number)?;
        if self.place != 0 {
            write!(f, ", check {}", self.place)?;
        }
        write!(f, ": {}", self.sentence())
    }
}

impl std::error::Error for Refusal {}

impl From<Option<u64>> for When {
    fn from(n: Option<u64>) -> Self {
        Self { some: n.is_some(), at: n.unwrap_or(0) }
    }
}

impl When {
    pub fn get(self) -> Option<u64> {
        self.some.then_some(self.at)
    }
}

impl From<Option<u32>> for Index {
    fn from(n: Option<u32>) -> Self {
        Self { some: n.is_some(), index: n.unwrap_or(0) }
    }
}

impl Index {
    pub fn get(self) -> Option<u32> {
        self.some.then_some(self.index)
    }
}

impl Config {
    /// The defaults for a link.
    pub fn fmp() -> Self {
        // SAFETY: the record is laid out as the library has it (build.rs).
        unsafe { raw::siklyavon_config_fmp() }
    }

    /// The defaults for an end-to-end session: those of a link with other floors.
    pub fn fsp() -> Self {
        // SAFETY: as in `fmp`.
        unsafe { raw::siklyavon_config_fsp() }
    }

    /// Whether the settings pass every check. Refusal 1.
    pub fn check(&self) -> Result<(), Refusal> {
        // SAFETY: as in `fmp`.
        let place = unsafe { raw::siklyavon_settings(*self) };
        Refusal::of(u8::from(place != 0), place)
    }
}

/// What a link is opened with.
#[derive(Clone, Copy, Debug, PartialEq, Eq)]
pub struct Opening {
    pub role: Role,
    pub transport: u64,
    pub lease: Option<u32>,
    pub workers: bool,
}

/// What a call is given beside the state and its draws.
#[derive(Clone, Copy, Debug)]
pub struct Given<'a> {
    pub cfg: &'a Config,
    pub profile: &'a Profile,
    /// The call's instant, whole milliseconds of the caller's clock.
    pub now: u64,
    /// Decrypt workers are there: receive halves are offered to them.
    pub workers: bool,
}

/// The numbers of an attempt that a start opened.
#[derive(Clone, Copy, Debug, PartialEq, Eq)]
pub struct Attempted {
    pub hs: u64,
    pub msg: u64,
    pub transport: u64,
    pub lease: Option<u32>,
}

/// The link line.
#[derive(Clone, Copy, Debug, PartialEq, Eq)]
pub struct Status {
    /// The current epoch's tag.
    pub tag: Option<u64>,
    pub kind: CycleKind,
    /// As [`wake`] tells it.
    pub wake: Option<u64>,
    /// The time since the current epoch was heard or started, whichever is later: now less the later
    /// of `mem.rx_cur` and `cur.ep.started`, 0 if the clock is behind. None exactly without a current
    /// epoch.
    ///
    /// A [`frame`] under the current or the pending epoch, and a [`worker`]'s report under the current
    /// one, make it 0 at their instant. Under the drained epoch they leave it, but where
    /// [`Event::Reverted`] is told: then it counts from `mem.rx_cur`, which they do not move, or from
    /// the start of the epoch that is current again. A [`poll`] leaves it, or makes an epoch current
    /// that starts at its instant; every other call leaves it. So a small number says that the peer
    /// was heard under the keys in use, or that these keys are that new; `mem.last_rx` has the last
    /// frame under any epoch.
    /// ```
    /// use siklyavon_link::*;
    /// # fn main() -> Result<(), Refusal> {
    /// # let (cfg, mut log) = (Config::fmp(), Log::new());
    /// # let profile = Profile { messages: 2, at_proof: false, silence: false, smaller: false, floor: 0 };
    /// # let opening = Opening { role: Role::Responder, transport: 7, lease: None, workers: false };
    /// # let mut state = open(&cfg, &profile, opening, 0, 1000, &mut log)?;
    /// // Epoch 2 became current at 2 s; epoch 1 is drained until 12 s.
    /// state.drain = Drain { some: true, ep: state.cur.ep, deadline: 12_000, evidenced: true };
    /// state.cur.ep.tag = 2;
    /// state.cur.ep.started = 2000;
    /// state.cur.ep.heard = Some(2000).into();
    /// state.mem.rx_cur = Some(2000).into();
    ///
    /// // At 8 s a frame comes under epoch 1. Two seconds later the line says eight seconds.
    /// let at = Given { cfg: &cfg, profile: &profile, now: 8000, workers: false };
    /// let proof = FrameProof { tag: 1, slot: Slot::Previous.number(), counter: 7, ..FrameProof::default() };
    /// frame(&mut state, at, 0, proof, 0, &[], &mut [], &mut log)?;
    /// assert_eq!(state.mem.last_rx.get(), Some(8000));
    /// assert_eq!(status(&state, &cfg, &profile, 10_000)?.quiet, Some(8000));
    ///
    /// // A frame under epoch 2 brings it to 0.
    /// let proof = FrameProof { tag: 2, counter: 1, ..FrameProof::default() };
    /// frame(&mut state, Given { now: 10_500, ..at }, 0, proof, 0, &[], &mut [], &mut log)?;
    /// assert_eq!(status(&state, &cfg, &profile, 10_500)?.quiet, Some(0));
    /// # Ok(())
    /// # }
    /// ```
    pub quiet: Option<u64>,
}

/// A fresh link at its instant; `spread` is the draw of its install, whole seconds from -J to J.
/// Refusals 1, 2 and 7.
pub fn open(
    cfg: &Config,
    profile: &Profile,
    o: Opening,
    spread: i32,
    now: u64,
    log: &mut Log,
) -> Result<State, Refusal> {
    // SAFETY: the records are laid out as the library has them (build.rs); the log is lent for the
    // call.
    let r = unsafe {
        raw::siklyavon_open(
            *cfg,
            *profile,
            o.role == Role::Responder,
            o.transport,
            o.lease.into(),
            o.workers,
            spread,
            now,
            &mut log.words,
        )
    };
    log.len = r.len;
    Refusal::of(r.number, r.place)?;
    Ok(r.state)
}

/// Puts the state of an accepted call in place, or gives the refusal and leaves the state.
fn keep(a: &raw::Answer, state: &mut State) -> Result<(), Refusal> {
    Refusal::of(a.number, a.place)?;
    *state = a.state;
    Ok(())
}

/// A poll; `spread` is the draw of a cutover, from -J to J, and `extra` that of an abandoned attempt,
/// from 0 to J, in whole seconds. Gives how many items its passes listed. START, DELEGATE and the
/// teardowns of an idle opening and of a sent count at `hard` leave the state: they are told again at
/// each poll while their condition holds. Refusals 1 to 7.
pub fn poll(
    state: &mut State,
    given: Given<'_>,
    spread: i32,
    extra: u32,
    log: &mut Log,
) -> Result<usize, Refusal> {
    // SAFETY: as in `open`.
    let r = unsafe {
        raw::siklyavon_poll(
            *state,
            *given.cfg,
            *given.profile,
            given.now,
            given.workers,
            spread,
            extra,
            &mut log.words,
        )
    };
    log.len = r.len;
    keep(&r, state)?;
    Ok(r.count)
}

/// The quiet test with one set of a poll's arguments, for any number of links.
#[derive(Clone, Copy, Debug)]
pub struct Watch {
    given: raw::Given,
    spread: i32,
}

impl Watch {
    /// Takes what [`poll`] takes, the draws too: a poll with a draw outside its range is sent back.
    /// 0 and 0 are in range under every settings, and no draw in range makes a link quiet or not, so
    /// a caller may test with these and draw for the polls that it makes.
    pub fn new(given: Given<'_>, spread: i32, extra: u32) -> Self {
        let given = raw::Given {
            cfg: *given.cfg,
            profile: *given.profile,
            now: given.now,
            workers: given.workers,
            extra,
        };
        Self { given, spread }
    }

    /// Whether a poll with these arguments would be accepted and have none of the four: an item due,
    /// a start called for, a teardown standing, an offer owed. Such a poll is proved to give the
    /// state back, with no event and count 0, so it can be left out. A poll that would be sent back
    /// is not quiet: left out, its refusal would be lost. The state is read where it stands.
    #[inline]
    pub fn quiet(&self, state: &State) -> bool {
        // SAFETY: as in `open`; the state is lent for the call.
        unsafe { raw::siklyavon_quiet(state, self.given, self.spread) }
    }
}

/// The quiet test of one link; see [`Watch`].
pub fn quiet(state: &State, given: Given<'_>, spread: i32, extra: u32) -> bool {
    Watch::new(given, spread, extra).quiet(state)
}

/// A frame that authenticated: its plaintext, at the front of `source`, goes to `target` from place
/// `body`. Where it is shorter than the profile's floor or does not fit, no byte is written, and
/// `Reject(ShortPlaintext)` is told in the place of DELIVER. Refusals 1 to 9.
#[allow(clippy::too_many_arguments)]
pub fn frame(
    state: &mut State,
    given: Given<'_>,
    spread: i32,
    proof: FrameProof,
    body: usize,
    source: &[u8],
    target: &mut [u8],
    log: &mut Log,
) -> Result<(), Refusal> {
    // SAFETY: as in `open`; each buffer crosses as its address and its length.
    let r = unsafe {
        raw::siklyavon_frame(
            *state,
            *given.cfg,
            *given.profile,
            given.now,
            given.workers,
            spread,
            proof,
            body,
            source.as_ptr(),
            source.len(),
            target.as_mut_ptr(),
            target.len(),
            &mut log.words,
        )
    };
    log.len = r.len;
    keep(&r, state)
}

/// The answer to a START: the attempt that was opened, or none. It is taken while a start is called
/// for at its own instant and the sent count is below `hard`, whether a START was told or not. With
/// none the state stays as it is, and the start is still called for. Refusals 1 to 6 and 10.
pub fn reply(
    state: &mut State,
    given: Given<'_>,
    opened: Option<Attempted>,
) -> Result<(), Refusal> {
    let r = match opened {
        None => StartReply::default(),
        Some(a) => StartReply {
            opened: true,
            hs: a.hs,
            msg: a.msg,
            transport: a.transport,
            lease: a.lease.into(),
        },
    };
    // SAFETY: as in `open`.
    let r = unsafe { raw::siklyavon_reply(*state, *given.cfg, *given.profile, given.now, r) };
    keep(&r, state)
}

/// A decrypt worker authenticated a frame of the peer under the epoch of `tag`, with the key-epoch bit
/// `k` and `counter`.
///
/// Call it for each frame that a worker opened. The worker tests the counter and hands the plaintext
/// up, so neither MARK nor DELIVER is told. The epoch's `floor` rises to the counter, if that is
/// higher. Then the epoch is heard as in [`frame`]:
/// - the current one: no event;
/// - the drained one: a current epoch that was assumed and not heard since goes back to pending where
///   no other is pending. REVERTED and two PROMPTs are told, and before them UNBIND, RELEASE and
///   ABANDONED of an own attempt in flight. Under any other current epoch a PROMPT may be told.
///
/// At most 6 events, to be carried out as those of a poll. An epoch that is received here is heard
/// too.
///
/// The rest is [`Event::Reject`], which leaves the state: [`Reason::StaleTag`] where no epoch that is
/// held has the tag, [`Reason::NotDelegated`] where the pending one has it, also one that a worker took
/// before it was REVERTED: only [`frame`] cuts over. `spread` is tested and not used. Refusals 1 to 7.
///
/// ```
/// # use siklyavon_link::*;
/// # fn main() -> Result<(), Refusal> {
/// # let (cfg, mut log) = (Config::fmp(), Log::new());
/// # let profile = Profile { messages: 2, at_proof: false, silence: true, smaller: true, floor: 0 };
/// # let o = Opening { role: Role::Responder, transport: 7, lease: Some(42), workers: true };
/// # let mut state = open(&cfg, &profile, o, 0, 1000, &mut log)?;
/// # let at = Given { cfg: &cfg, profile: &profile, now: 2000, workers: true };
/// # delegated(&mut state, at, 0, 1, &mut log)?;
/// // Two frames under epoch 1, the second with a lower counter: the floor stays.
/// for (now, counter) in [(2000, 9), (2001, 7)] {
///     worker(&mut state, Given { now, ..at }, 0, 1, true, counter, &mut log)?;
///     assert!(log.is_empty());
///     assert_eq!(state.cur.ep.floor.get(), Some(9));
/// }
/// assert_eq!(state.mem.rx_cur.get(), Some(2001));
/// # Ok(())
/// # }
/// ```
pub fn worker(
    state: &mut State,
    given: Given<'_>,
    spread: i32,
    tag: u64,
    k: bool,
    counter: u64,
    log: &mut Log,
) -> Result<(), Refusal> {
    // SAFETY: as in `open`.
    let r = unsafe {
        raw::siklyavon_worker(
            *state,
            *given.cfg,
            *given.profile,
            given.now,
            given.workers,
            spread,
            tag,
            k,
            counter,
            &mut log.words,
        )
    };
    log.len = r.len;
    keep(&r, state)
}

/// A decrypt worker accepted the receive copy of the epoch of `tag`.
///
/// Call it when a worker took what [`Event::Delegate`] offered: until then each poll with workers on
/// offers the epoch again. From now on its frames come by [`worker`], and [`Event::Revoke`] is told
/// when it is retired, where it has a lease. A cutover leaves the worker its epoch, which is then
/// drained.
///
/// Nothing is told where the notice fits, and neither an offer nor a lease need have been there. The
/// rest is [`Event::Reject`], which leaves the state: [`Reason::StaleTag`] where no epoch that is held
/// has the tag, so the worker may drop its copy; [`Reason::AlreadyDelegated`] where a worker holds the
/// epoch; [`Reason::NotOffered`] where the epoch is pending. `spread` is tested and not used. Refusals
/// 1 to 7.
///
/// ```
/// # use siklyavon_link::*;
/// # fn main() -> Result<(), Refusal> {
/// # let (cfg, mut log) = (Config::fmp(), Log::new());
/// # let profile = Profile { messages: 2, at_proof: false, silence: true, smaller: true, floor: 0 };
/// # let o = Opening { role: Role::Responder, transport: 7, lease: Some(42), workers: true };
/// # let mut state = open(&cfg, &profile, o, 0, 1000, &mut log)?;
/// # let at = Given { cfg: &cfg, profile: &profile, now: 2000, workers: true };
/// delegated(&mut state, at, 0, 1, &mut log)?;
/// assert!(state.cur.ep.delegated && log.is_empty());
///
/// // A second worker comes too late.
/// delegated(&mut state, at, 0, 1, &mut log)?;
/// assert_eq!(log.events().next(), Some(Event::Reject(Reason::AlreadyDelegated)));
/// # Ok(())
/// # }
/// ```
pub fn delegated(
    state: &mut State,
    given: Given<'_>,
    spread: i32,
    tag: u64,
    log: &mut Log,
) -> Result<(), Refusal> {
    // SAFETY: as in `open`.
    let r = unsafe {
        raw::siklyavon_delegated(
            *state,
            *given.cfg,
            *given.profile,
            given.now,
            given.workers,
            spread,
            tag,
            &mut log.words,
        )
    };
    log.len = r.len;
    keep(&r, state)
}

/// The decrypt worker that held the epoch of `tag` is gone.
///
/// Call it when a worker ends or drops its copy without a REVOKE. Frames of the epoch go to [`frame`]
/// again, and the next poll with workers on offers it anew. The epoch's `floor` stays, and that offer
/// tells it. Counters up to the floor were seen by the worker: the caller, and the next worker, refuse
/// them as replays.
///
/// Nothing is told where the notice fits. The rest is [`Event::Reject`], which leaves the state:
/// [`Reason::StaleTag`] where no epoch that is held has the tag, [`Reason::NotDelegated`] where no
/// worker holds the epoch, which is so of a pending one. `spread` is tested and not used. Refusals 1
/// to 7.
///
/// ```
/// # use siklyavon_link::*;
/// # fn main() -> Result<(), Refusal> {
/// # let (cfg, mut log) = (Config::fmp(), Log::new());
/// # let profile = Profile { messages: 2, at_proof: false, silence: true, smaller: true, floor: 0 };
/// # let o = Opening { role: Role::Responder, transport: 7, lease: Some(42), workers: true };
/// # let mut state = open(&cfg, &profile, o, 0, 1000, &mut log)?;
/// # let at = Given { cfg: &cfg, profile: &profile, now: 2000, workers: true };
/// # delegated(&mut state, at, 0, 1, &mut log)?;
/// # worker(&mut state, at, 0, 1, false, 9, &mut log)?;
/// // The worker of epoch 1 had reported counter 9.
/// undelegated(&mut state, at, 0, 1, &mut log)?;
/// assert!(!state.cur.ep.delegated && log.is_empty());
/// assert_eq!(state.cur.ep.floor.get(), Some(9));
/// # Ok(())
/// # }
/// ```
pub fn undelegated(
    state: &mut State,
    given: Given<'_>,
    spread: i32,
    tag: u64,
    log: &mut Log,
) -> Result<(), Refusal> {
    // SAFETY: as in `open`.
    let r = unsafe {
        raw::siklyavon_undelegated(
            *state,
            *given.cfg,
            *given.profile,
            given.now,
            given.workers,
            spread,
            tag,
            &mut log.words,
        )
    };
    log.len = r.len;
    keep(&r, state)
}

/// Data of the application was sealed for the peer.
///
/// Call it when data goes out, beside [`sent`], which tells how many frames were sealed; prompts are no
/// data. From then on, until the peer is heard under the current epoch, a link with the silence trigger
/// ([`Profile::silence`]) calls for a start once nothing was heard for [`Config::silence`]. So the wake
/// may come sooner: look again.
///
/// No event, also without a current epoch. `spread` is tested and not used. Refusals 1 to 7.
///
/// ```
/// # use siklyavon_link::*;
/// # fn main() -> Result<(), Refusal> {
/// # let (cfg, mut log) = (Config::fmp(), Log::new());
/// # let profile = Profile { messages: 2, at_proof: false, silence: true, smaller: true, floor: 0 };
/// # let o = Opening { role: Role::Responder, transport: 7, lease: Some(42), workers: false };
/// # let mut state = open(&cfg, &profile, o, 0, 1000, &mut log)?;
/// # let at = Given { cfg: &cfg, profile: &profile, now: 2000, workers: false };
/// assert_eq!(wake(&state, &cfg, &profile)?, Some(121_000));
/// data_sent(&mut state, at, 0, &mut log)?;
/// assert_eq!(wake(&state, &cfg, &profile)?, Some(32_000));
/// # Ok(())
/// # }
/// ```
pub fn data_sent(
    state: &mut State,
    given: Given<'_>,
    spread: i32,
    log: &mut Log,
) -> Result<(), Refusal> {
    // SAFETY: as in `open`.
    let r = unsafe {
        raw::siklyavon_data_sent(
            *state,
            *given.cfg,
            *given.profile,
            given.now,
            given.workers,
            spread,
            &mut log.words,
        )
    };
    log.len = r.len;
    keep(&r, state)
}

/// Whether there is a next hop to the peer, and the session's smoothed round trip in milliseconds.
///
/// Call it when the way to the peer is lost or found, and when the round trip was measured. Both replace
/// what is held: `None` makes the round trip absent. While the peer is not reachable no start is called
/// for. The longer of the round trip and `mem.hs_rtt` sets the first resend of a setup and the grace
/// after a probe.
///
/// No event. `spread` is tested and not used. Refusals 1 to 7.
///
/// ```
/// # use siklyavon_link::*;
/// # fn main() -> Result<(), Refusal> {
/// # let (cfg, mut log) = (Config::fmp(), Log::new());
/// # let profile = Profile { messages: 2, at_proof: false, silence: true, smaller: true, floor: 0 };
/// # let o = Opening { role: Role::Responder, transport: 7, lease: Some(42), workers: false };
/// # let mut state = open(&cfg, &profile, o, 0, 1000, &mut log)?;
/// let at = Given { cfg: &cfg, profile: &profile, now: 121_000, workers: false };
/// path(&mut state, at, 0, false, None, &mut log)?;
/// assert!(quiet(&state, at, 0, 0)); // no way to the peer: the start that is due waits
/// path(&mut state, at, 0, true, Some(80), &mut log)?;
/// poll(&mut state, at, 0, 0, &mut log)?;
/// assert_eq!(log.events().next(), Some(Event::Start(Start::Scheduled)));
/// # Ok(())
/// # }
/// ```
pub fn path(
    state: &mut State,
    given: Given<'_>,
    spread: i32,
    reachable: bool,
    srtt: Option<u64>,
    log: &mut Log,
) -> Result<(), Refusal> {
    // SAFETY: as in `open`.
    let r = unsafe {
        raw::siklyavon_path(
            *state,
            *given.cfg,
            *given.profile,
            given.now,
            given.workers,
            spread,
            reachable,
            srtt.into(),
            &mut log.words,
        )
    };
    log.len = r.len;
    keep(&r, state)
}

/// How many frames were sealed under the current epoch, told at an instant. Without a current epoch it
/// changes nothing. The instant decides nothing: like every call of a run this one is logged with it.
/// Refusals 3 to 6 and 11.
pub fn sent(state: &mut State, now: u64, count: u64) -> Result<(), Refusal> {
    // SAFETY: as in `open`.
    let r = unsafe { raw::siklyavon_sent(*state, now, count) };
    keep(&r, state)
}

/// The least of the instants that a state names, or none where it names none: the deadlines of the
/// drained epoch, of the candidates and of the cycle; the next rungs of the cycle's ladders and of the
/// current epoch's; the earliest start; and once the sent count has reached `hard`, the start of the
/// current epoch (crates/wake/specs/Wake.antt). Refusals 1 to 6.
///
/// What is proved of it (crates/law_runs/specs/Runs.antt, `wakes` of `Demand3`): an accepted poll, with
/// workers off and an epoch, an attempt or a candidate held, has none of the four that [`Watch::quiet`]
/// names where the wake, taken for its state, settings and profile, is absent or later than its
/// instant. This supposes that
/// - the poll stands in a list of polls, frames, start replies, notices and told sent counts, refused
///   ones included, each of which gets the state that the one before it left, and nobody else writes it;
/// - the first state of the list is accepted (numbers 3 to 6), and its link start, last cutover and
///   epoch starts are not after any instant of the list; after a write of the caller a new list begins;
/// - in the list the clock never goes back, and each poll is later than the polls before it.
///
/// So with workers off a link need not be polled before its wake, as long as no other call is made and
/// nobody writes the state. This says nothing of a poll at the wake or after it, and the wake is not
/// the earliest instant at which a poll has work:
/// - It may be early, and then stays in the past. It counts the probes and the final message of a
///   completed own attempt under every wait; a poll takes each under one wait only. And it counts a
///   floor whose end would pass 2^64 - 1 as ended; no start is called for then.
/// - It stays in the past while a start is called for and no reply opens an attempt, and once the
///   sent count has reached `hard`, while the link is not closed.
/// - It counts no offer: with workers on it may be late or absent while one is owed.
/// - It is absent where nothing is held, though a teardown stands at every poll (`OpeningIdle`).
///
/// The crate's page has a loop that heeds all of these.
pub fn wake(state: &State, cfg: &Config, profile: &Profile) -> Result<Option<u64>, Refusal> {
    // SAFETY: as in `open`.
    let r = unsafe { raw::siklyavon_wake(*state, *cfg, *profile) };
    Refusal::of(r.number, r.place)?;
    Ok(r.at.get())
}

/// The link line: [`Status`] says what each value is. Refusals 1 to 6.
pub fn status(
    state: &State,
    cfg: &Config,
    profile: &Profile,
    now: u64,
) -> Result<Status, Refusal> {
    // SAFETY: as in `open`.
    let r = unsafe { raw::siklyavon_status(*state, *cfg, *profile, now) };
    Refusal::of(r.number, r.place)?;
    Ok(Status {
        tag: r.tag.get(),
        kind: CycleKind::of(r.kind).unwrap_or(CycleKind::Idle),
        wake: r.wake.get(),
        quiet: r.quiet.get(),
    })
}
