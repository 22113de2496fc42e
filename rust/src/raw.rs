//! The records that cross to the library, field for field as it lays them out, and its functions.
//!
//! A value that may be absent is a flag beside the value; what stands behind a flag that is off is
//! no part of the state. `build.rs` holds this file to the library before the crate is built.

/// A number that may be absent: an instant, a duration or a number of the caller.
#[repr(C)]
#[derive(Clone, Copy, Debug, Default, PartialEq, Eq)]
pub struct When {
    /// It is there.
    pub some: bool,
    /// The number.
    pub at: u64,
}

/// A flag that may be absent.
#[repr(C)]
#[derive(Clone, Copy, Debug, Default, PartialEq, Eq)]
pub struct Bit {
    /// It is there.
    pub some: bool,
    /// The flag.
    pub on: bool,
}

/// An index that may be absent.
#[repr(C)]
#[derive(Clone, Copy, Debug, Default, PartialEq, Eq)]
pub struct Index {
    /// It is there.
    pub some: bool,
    /// The index.
    pub index: u32,
}

/// The most rungs a schedule holds.
pub const MAX_RUNGS: usize = 16;

/// Offsets from an origin, in milliseconds; bit i of the map is set where rung i is a keepalive.
#[repr(C)]
#[derive(Clone, Copy, Debug, Default, PartialEq, Eq)]
pub struct Schedule {
    /// The offset of each rung, in milliseconds.
    pub at: [u64; MAX_RUNGS],
    /// Bit i: rung i is a keepalive under the current epoch, else it sends.
    pub keepalive: u64,
    /// How many rungs there are.
    pub len: u8,
}

/// A schedule anchored at an instant, with a cursor at the next rung.
#[repr(C)]
#[derive(Clone, Copy, Debug, Default, PartialEq, Eq)]
pub struct Ladder {
    /// The instant that the offsets count from.
    pub origin: u64,
    /// The rungs.
    pub sched: Schedule,
    /// The cursor: the next rung to take, `len` where all are taken.
    pub next: u8,
}

/// The session indices of an epoch: this node's lease, the peer's index, and the transport that the
/// binding was made on.
#[repr(C)]
#[derive(Clone, Copy, Debug, Default, PartialEq, Eq)]
pub struct Ids {
    /// This node's index, leased from its allocator.
    pub lease: Index,
    /// The peer's index; no call reads it.
    pub theirs: Index,
    /// Where the binding was made.
    pub transport: u64,
}

/// A retained final message and its resend ladder, if there is one.
#[repr(C)]
#[derive(Clone, Copy, Debug, Default, PartialEq, Eq)]
pub struct Final {
    /// One is retained.
    pub some: bool,
    /// Its number, told in SEND.
    pub msg: u64,
    /// When it is sent again.
    pub ladder: Ladder,
}

/// A ladder that may be absent.
#[repr(C)]
#[derive(Clone, Copy, Debug, Default, PartialEq, Eq)]
pub struct MayLadder {
    /// It is there.
    pub some: bool,
    /// The ladder.
    pub ladder: Ladder,
}

/// One set of transport keys and what is derived from them.
#[repr(C)]
#[derive(Clone, Copy, Debug, Default, PartialEq, Eq)]
pub struct Epoch {
    /// Its name; no two epochs of a state share one.
    pub tag: u64,
    /// The caller's keys, told in DELEGATE.
    pub session: u64,
    /// How many frames were sealed under it, as the caller told last.
    pub sent: u64,
    /// Its indices.
    pub ids: Ids,
    /// The key-epoch bit.
    pub k: bool,
    /// The answering side of the handshake that made it, else the starting side.
    pub responder: bool,
    /// What timestamps in its frames count from; a cutover sets it if absent.
    pub base: When,
    /// The cutover or install instant.
    pub started: u64,
    /// The coordinates that the peer's handshake message carried; no call reads it.
    pub route: When,
    /// A number of the caller; no call reads it.
    pub ext: u64,
    /// A decrypt worker holds the receive half, else it is here ([`crate::delegated`]).
    pub delegated: bool,
    /// The highest counter that a decrypt worker reported ([`crate::worker`]), told in DELEGATE.
    pub floor: When,
    /// The first authenticated frame from the peer under this epoch.
    pub heard: When,
    /// The first frame that shows the peer seals under this epoch.
    pub moved: When,
    /// Installed at a confirmation deadline without evidence.
    pub assumed: bool,
    /// Of the current epoch: a last message, sent again until the peer is heard.
    pub fin: Final,
    /// Prompt repeats after the cutover, until the peer is seen to move.
    pub elicit: MayLadder,
    /// When the last prompt was sealed under this epoch.
    pub prompted: When,
}

/// The current epoch, if there is one.
#[repr(C)]
#[derive(Clone, Copy, Debug, Default, PartialEq, Eq)]
pub struct MayEpoch {
    /// There is one.
    pub some: bool,
    /// The epoch.
    pub ep: Epoch,
}

/// The previous epoch, kept after a cutover, if there is one.
#[repr(C)]
#[derive(Clone, Copy, Debug, Default, PartialEq, Eq)]
pub struct Drain {
    /// There is one.
    pub some: bool,
    /// The epoch.
    pub ep: Epoch,
    /// When it is retired.
    pub deadline: u64,
    /// The deadline is the short one, after evidence that the peer moved.
    pub evidenced: bool,
}

/// An own attempt in flight.
#[repr(C)]
#[derive(Clone, Copy, Debug, Default, PartialEq, Eq)]
pub struct Attempt {
    /// The caller's handshake.
    pub hs: u64,
    /// The first message, resent byte for byte.
    pub out: u64,
    /// The index that the peer is to use.
    pub lease: Index,
    /// Where that index was bound.
    pub transport: u64,
    /// When the first message was sent.
    pub first: u64,
    /// When it is sent again.
    pub ladder: Ladder,
    /// When the attempt is given up.
    pub deadline: u64,
    /// It was sent again, so a reply measures no round trip.
    pub resent: bool,
}

/// An own attempt that completed.
#[repr(C)]
#[derive(Clone, Copy, Debug, Default, PartialEq, Eq)]
pub struct PendI {
    /// The new epoch, pending.
    pub ep: Epoch,
    /// What it waits for: a [`crate::Wait`].
    pub wait: u8,
    /// When the wait ends.
    pub deadline: u64,
    /// The completion revealed that the peer restarted.
    pub restart: bool,
    /// The last message; a poll takes its ladder under the delay only.
    pub fin: Final,
    /// Probe and keepalive rungs while waiting for evidence.
    pub probes: MayLadder,
    /// When the last probe went out.
    pub probed: When,
    /// The peer was heard on an epoch that it stays on if it did not move.
    pub stayed: bool,
    /// The epoch came back here from an assumed cutover.
    pub reverted: bool,
}

/// A peer's attempt that completed, held until the peer's first frame under it.
#[repr(C)]
#[derive(Clone, Copy, Debug, Default, PartialEq, Eq)]
pub struct PendR {
    /// The new epoch, pending.
    pub ep: Epoch,
    /// When it is given up as unadopted.
    pub deadline: u64,
    /// The completion revealed that the peer restarted.
    pub restart: bool,
    /// The caller's held answer; its end is told as ENDED.
    pub answer: When,
}

/// The rotation cycle: `kind` is a [`crate::CycleKind`], and only the record of its own case is part
/// of the state.
#[repr(C)]
#[derive(Clone, Copy, Debug, Default, PartialEq, Eq)]
pub struct Cycle {
    /// A [`crate::CycleKind`].
    pub kind: u8,
    /// Of the kind `Init`.
    pub init: Attempt,
    /// Of the kind `PendI`.
    pub pendi: PendI,
    /// Of the kind `PendR`.
    pub pendr: PendR,
}

/// Peer-started attempts, oldest first, one array to a field. Places from `len` on are no part of
/// the state.
#[repr(C)]
#[derive(Clone, Copy, Debug, Default, PartialEq, Eq)]
pub struct Candidates {
    /// The caller's handshake.
    pub hs: [u64; 32],
    /// The setup's message, by which a copy is known.
    pub msg1: [u64; 32],
    /// The answer, sent again for a copy.
    pub ack: [u64; 32],
    /// The link peer that it came over.
    pub carrier: [u64; 32],
    /// The coordinates that it carried.
    pub route: [u64; 32],
    /// When it came.
    pub born: [u64; 32],
    /// When it expires.
    pub deadline: [u64; 32],
    /// Whether the candidate is bound to a peer epoch: 0 where it is not.
    pub bounded: [u64; 32],
    /// The peer epoch that it is bound to, eight bytes as one number, low byte first.
    pub bound: [u64; 32],
    /// The order of arrival.
    pub seq: [u64; 32],
    /// How many there are.
    pub len: usize,
    /// The next arrival number.
    pub next: u64,
}

/// Facts that survive an idle cycle.
#[repr(C)]
#[derive(Clone, Copy, Debug, Default, PartialEq, Eq)]
pub struct Memory {
    /// The peer's startup epoch, eight bytes as one number, low byte first.
    pub peer_epoch: When,
    /// The key-epoch bit on the peer's last authenticated current-epoch frame.
    pub peer_k: Bit,
    /// The jitter drawn at the last install or cutover, whole seconds.
    pub jitter: i32,
    /// Dampening ends.
    pub damp: When,
    /// The abandon backoff ends.
    pub backoff: When,
    /// Own attempts abandoned since the last cutover.
    pub abandons: u8,
    /// The last authenticated frame under any epoch.
    pub last_rx: When,
    /// The last authenticated frame under an epoch that was current then.
    pub rx_cur: When,
    /// Data was sealed ([`crate::data_sent`]) since the last current-epoch frame from the peer.
    pub sent_data: bool,
    /// Starts by silence since then: each doubles the interval.
    pub silence: u8,
    /// When the link began; a restart of the peer sets it anew.
    pub link_since: u64,
    /// The last cutover.
    pub last_cutover: When,
    /// The round trip of a handshake, measured.
    pub hs_rtt: When,
    /// The session's smoothed round trip, measured by the caller ([`crate::path`]).
    pub srtt: When,
    /// The kept backoff for the rekey setup's first rung.
    pub setup_rto: When,
    /// There is a way to the peer, else no start is called for ([`crate::path`]).
    pub reachable: bool,
    /// A repair rekey is due.
    pub due: bool,
}

/// A link's state. Rust holds it and reads and writes every field. Numbers 3 to 6 say which states are
/// sent back; every other is taken as it stands, also one that no list of calls leaves. A cycle kind
/// that is not 1, 2 or 3 is idle, and a wait that is not 0 or 1 is the delay. `==` compares whole
/// records, also what is no part of the state.
#[repr(C)]
#[derive(Clone, Copy, Debug, Default, PartialEq, Eq)]
pub struct State {
    /// What is remembered.
    pub mem: Memory,
    /// The current epoch.
    pub cur: MayEpoch,
    /// The drained epoch.
    pub drain: Drain,
    /// What is in progress.
    pub cycle: Cycle,
    /// The peer's setups.
    pub cands: Candidates,
}

/// The settings of a link. Durations are whole milliseconds, `jitter` whole seconds. Start from
/// [`Config::fmp`] or [`Config::fsp`], whose numbers stand in brackets, and change what differs:
/// `Config { after: 60_000, ..Config::fmp() }`. "Of the caller": no call reads it but the checks of
/// settings.
#[repr(C)]
#[derive(Clone, Copy, Debug, Default, PartialEq, Eq)]
pub struct Config {
    /// The time trigger: rekey this long after the last cutover (120000).
    pub after: u64,
    /// J, in seconds: the time trigger moves by a draw from -J to J (15).
    pub jitter: u16,
    /// The message trigger: rekey once this many frames were sealed (65536).
    pub messages: u64,
    /// How long a handshake may take (30000).
    pub handshake: u64,
    /// The caller's tick (1000).
    pub check: u64,
    /// How long the previous epoch is kept once the peer is seen to have moved (10000).
    pub drain: u64,
    /// How long it is kept at most (120000).
    pub retention: u64,
    /// How long a responder's pending epoch waits; caps the abandon backoff (120000).
    pub hold: u64,
    /// How long a reverted epoch waits for evidence (10000).
    pub revert: u64,
    /// Of the caller: no own start so long after the peer's rekey (30000).
    pub dampening: u64,
    /// Of the caller: how long a candidate lives (40000).
    pub ttl: u64,
    /// Resends of an own first attempt before this offset give way to a candidate (5000).
    pub young: u64,
    /// Of the caller: the link age from which a first message is a rekey (30000).
    pub link_age: u64,
    /// Of the caller: the epoch age from which a first message is a rekey (10000).
    pub session_age: u64,
    /// No own start before this link age (fmp 31000, fsp 0).
    pub floor_link: u64,
    /// No own start before this epoch age (fmp 31000, fsp 0).
    pub floor_session: u64,
    /// No own start so soon after a cutover (fmp 0, fsp 10000).
    pub floor_cutover: u64,
    /// The first interval of the silence trigger, doubled each time up to `after` (30000).
    pub silence: u64,
    /// How often a handshake message is sent again (5).
    pub resends: u8,
    /// The sent count that forces a start past dampening and backoff (2^62).
    pub soft: u64,
    /// The sent count at which the link is torn down (2^64 - 2^20).
    pub hard: u64,
    /// Of the caller: the delay of a delayed cutover (2000).
    pub delay: u64,
    /// Of the caller: answer a first message on the path that it came by (off).
    pub arrival: bool,
}

/// The number of handshake messages (2 or 3), cutover at proof, the silence trigger, whether this
/// node's address is the smaller, and the shortest plaintext in bytes (0 to 64).
#[repr(C)]
#[derive(Clone, Copy, Debug, Default, PartialEq, Eq)]
pub struct Profile {
    /// Messages of a handshake: 2 or 3.
    pub messages: u64,
    /// A responder cuts over at the last message, not on a frame.
    pub at_proof: bool,
    /// The silence trigger runs.
    pub silence: bool,
    /// This node's address is smaller than the peer's.
    pub smaller: bool,
    /// The shortest plaintext that is delivered, 0 to 64 bytes.
    pub floor: u64,
}

/// What the quiet test is given beside the state and the spread: what a poll is given.
#[repr(C)]
#[derive(Clone, Copy, Debug, Default, PartialEq, Eq)]
pub struct Given {
    /// The settings.
    pub cfg: Config,
    /// The profile.
    pub profile: Profile,
    /// The instant.
    pub now: u64,
    /// Decrypt workers are there: receive halves are offered.
    pub workers: bool,
    /// The draw of an abandoned attempt, 0 to J, in seconds.
    pub extra: u32,
}

/// A frame that authenticated under one held epoch and passed its window.
#[repr(C)]
#[derive(Clone, Copy, Debug, Default, PartialEq, Eq)]
pub struct FrameProof {
    /// The epoch's tag.
    pub tag: u64,
    /// Where the epoch stands: a [`crate::Slot`].
    pub slot: u8,
    /// The frame's counter, told in MARK.
    pub counter: u64,
    /// The frame's key-epoch bit.
    pub k: bool,
    /// The plaintext's length; the plaintext is at the front of the source buffer.
    pub len: usize,
    /// The plaintext is a probe.
    pub probe: bool,
}

/// Whether a start opened an attempt, and the numbers of its handshake, its first message, its
/// transport and its lease or none.
#[repr(C)]
#[derive(Clone, Copy, Debug, Default, PartialEq, Eq)]
pub struct StartReply {
    /// An attempt was opened, and its first message sent.
    pub opened: bool,
    /// The caller's handshake.
    pub hs: u64,
    /// Its first message, for SEND.
    pub msg: u64,
    /// Where its index was bound.
    pub transport: u64,
    /// Its index, or none.
    pub lease: Index,
}

/// What every call answers that hands a state back: the refusal's number, 0 where there is none, with
/// the check's place in 1; the state, which of a refused call is the one that it was given (of a
/// refused `siklyavon_open`, which is given none, one with no epoch); how many events the log has; and
/// how many items a poll's passes listed.
#[repr(C)]
#[derive(Clone, Copy, Debug)]
pub struct Answer {
    /// A [`crate::Refused`], 0 where the call was accepted.
    pub number: u8,
    /// A [`crate::Place`] in refusal 1, else 0.
    pub place: u8,
    /// What the call leaves; refused, what it was given (open: a state with no epoch).
    pub state: State,
    /// Events in the log, 0 of a call that is lent none.
    pub len: usize,
    /// Items that a poll's passes listed, 0 of every other call.
    pub count: usize,
}

/// What `siklyavon_wake` answers.
#[repr(C)]
#[derive(Clone, Copy, Debug)]
pub struct Woke {
    /// A [`crate::Refused`], 0 where the call was accepted.
    pub number: u8,
    /// A [`crate::Place`] in refusal 1, else 0.
    pub place: u8,
    /// The wake, or none.
    pub at: When,
}

/// What `siklyavon_status` answers.
#[repr(C)]
#[derive(Clone, Copy, Debug)]
pub struct Shown {
    /// A [`crate::Refused`], 0 where the call was accepted.
    pub number: u8,
    /// A [`crate::Place`] in refusal 1, else 0.
    pub place: u8,
    /// The current epoch's tag.
    pub tag: When,
    /// What is in progress: a [`crate::CycleKind`].
    pub kind: u8,
    /// As `siklyavon_wake` tells it.
    pub wake: When,
    /// The time since the current epoch was heard or started: see [`crate::Status::quiet`].
    pub quiet: When,
}

/// The words of a log: 96 places of eight.
pub const WORDS: usize = 768;

// The library reads and writes what the types say and nothing else, keeps no reference, and has no
// state of its own. A lent slice crosses as its address and its length. A frame's source, target and
// log must not overlap: a promise about each supposes that a store to another leaves it.
extern "C" {
    pub fn siklyavon_config_fmp() -> Config;
    pub fn siklyavon_config_fsp() -> Config;
    pub fn siklyavon_settings(cfg: Config) -> u8;
    pub fn siklyavon_open(
        cfg: Config,
        p: Profile,
        responder: bool,
        transport: u64,
        lease: Index,
        workers: bool,
        spread: i32,
        time: u64,
        log: &mut [u64; WORDS],
    ) -> Answer;
    pub fn siklyavon_poll(
        s: State,
        cfg: Config,
        p: Profile,
        time: u64,
        workers: bool,
        spread: i32,
        extra: u32,
        log: &mut [u64; WORDS],
    ) -> Answer;
    pub fn siklyavon_frame(
        s: State,
        cfg: Config,
        profile: Profile,
        time: u64,
        workers: bool,
        spread: i32,
        p: FrameProof,
        body: usize,
        source: *const u8,
        source_len: usize,
        target: *mut u8,
        target_len: usize,
        log: &mut [u64; WORDS],
    ) -> Answer;
    pub fn siklyavon_reply(
        s: State,
        cfg: Config,
        profile: Profile,
        time: u64,
        r: StartReply,
    ) -> Answer;
    pub fn siklyavon_worker(
        s: State,
        cfg: Config,
        p: Profile,
        time: u64,
        workers: bool,
        spread: i32,
        tag: u64,
        k: bool,
        counter: u64,
        log: &mut [u64; WORDS],
    ) -> Answer;
    pub fn siklyavon_delegated(
        s: State,
        cfg: Config,
        p: Profile,
        time: u64,
        workers: bool,
        spread: i32,
        tag: u64,
        log: &mut [u64; WORDS],
    ) -> Answer;
    pub fn siklyavon_undelegated(
        s: State,
        cfg: Config,
        p: Profile,
        time: u64,
        workers: bool,
        spread: i32,
        tag: u64,
        log: &mut [u64; WORDS],
    ) -> Answer;
    pub fn siklyavon_data_sent(
        s: State,
        cfg: Config,
        p: Profile,
        time: u64,
        workers: bool,
        spread: i32,
        log: &mut [u64; WORDS],
    ) -> Answer;
    pub fn siklyavon_path(
        s: State,
        cfg: Config,
        p: Profile,
        time: u64,
        workers: bool,
        spread: i32,
        reachable: bool,
        srtt: When,
        log: &mut [u64; WORDS],
    ) -> Answer;
    pub fn siklyavon_sent(s: State, time: u64, count: u64) -> Answer;
    pub fn siklyavon_wake(s: State, cfg: Config, p: Profile) -> Woke;
    pub fn siklyavon_quiet(s: &State, g: Given, spread: i32) -> bool;
    pub fn siklyavon_status(s: State, cfg: Config, p: Profile, time: u64) -> Shown;
}
