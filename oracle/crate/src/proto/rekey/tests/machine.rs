//! A child module of machine.rs: builds a machine from numbers, runs one call
//! of the published code on it and reads it back as numbers.
use super::*;
use crate::identity::{NodeAddr, PeerKey};
use crate::proto::rekey::candidates::Candidate;
use crate::proto::rekey::epoch::Drain as EpochDrain;
use crate::proto::rekey::profile::{Completed, HsError, Layer, Read};
use crate::proto::rekey::tests::settings::Cfg;
use crate::proto::rekey::tests::state::{self as plain, State};
use crate::proto::rekey::{IndexLease, IndexSource, TagSource};
use crate::testutil::{TestClock, TestInstant, make_node_addr};
use core::cell::RefCell;
use core::convert::Infallible;

pub(crate) mod outside;
pub(crate) mod placing;

/// The private `since`, in milliseconds.
pub(crate) fn since_ms(now: u64, t: u64) -> u64 {
    millis(since(TestInstant(now), TestInstant(t)))
}

// ---- a profile of numbers ----

/// A profile: messages M, cutover at proof A, silence S, whether a start
/// takes a lease X, floor F.
#[derive(Debug)]
pub(crate) struct Prof<const M: u8, const A: bool, const S: bool, const X: bool, const F: usize>;

#[derive(Debug)]
pub(crate) struct Hs(u64);

impl crate::noise::Fork for Hs {}

std::thread_local! {
    /// The tag and counter of every `mark` since the log was last taken.
    static MARKS: RefCell<Vec<(u64, u64)>> = const { RefCell::new(Vec::new()) };
}

/// A session: its number, its sent count, and its epoch's tag for `mark`.
#[derive(Debug)]
pub(crate) struct Session {
    number: u64,
    sent: u64,
    tag: u64,
}

impl SessionKeys for Session {
    type RecvCopy = (u64, Option<u64>);
    type SendCopy = ();

    fn open(&self, _: &FrameHint, _: &[u8], _: &mut Vec<u8>) -> bool {
        unreachable!()
    }

    fn fresh(&self, _: u64) -> bool {
        unreachable!()
    }

    fn mark(&mut self, counter: u64) {
        MARKS.with(|m| m.borrow_mut().push((self.tag, counter)));
    }

    fn sent(&self) -> u64 {
        self.sent
    }

    fn reserve(&mut self) -> (u64, ()) {
        unreachable!()
    }

    fn copy(&self, floor: Option<u64>) -> (u64, Option<u64>) {
        (self.number, floor)
    }
}

/// The lease that the next start gets.
pub(crate) struct Lease(Option<u32>);

impl IndexSource for Lease {
    fn draw(&mut self) -> Option<u32> {
        self.0
    }
}

/// The handshake and message that the next start gets; none makes it fail.
pub(crate) struct Local(Option<(u64, u64)>);

impl<const M: u8, const A: bool, const S: bool, const X: bool, const F: usize> Profile
    for Prof<M, A, S, X, F>
{
    type Hs = Hs;
    type Session = Session;
    type Indices = Lease;
    type Transport = u64;
    type Carrier = u64;
    type Route = u64;
    type Ext = u64;
    type LocalKeys = Local;
    // A profile here has no layer: each takes the inputs of both.
    type Fsp = ();
    type Fmp = ();
    type Msg1 = Infallible;
    type Done = Infallible;

    const LAYER: Layer = Layer::Fmp;
    const MESSAGES: u8 = M;
    const COMMIT: Commit = Commit::AtFinal;
    const INITIATOR_CUTOVER: InitiatorCutover = InitiatorCutover::OnEvidence;
    const RESPONDER_CUTOVER: ResponderCutover =
        if A { ResponderCutover::AtProof } else { ResponderCutover::OnFrame };
    const CANDIDATES: usize = 32;
    const PER_CARRIER: usize = 32;
    const DAMPEN_AT: DampenAt = DampenAt::Answer;
    const SELECT: Select = Select::ByIndex;
    const SILENCE: bool = S;
    const SETUP_RTT: bool = M == 3;
    const INDEXED: bool = X;
    const FLOOR: usize = F;

    fn initiate(local: &Local, _: &PeerKey, _: Option<u32>) -> Result<(Hs, Wire), HsError> {
        local.0.map(|(hs, msg)| (Hs(hs), wire(msg))).ok_or(HsError)
    }

    fn valid(_: &[u8]) -> bool {
        unreachable!()
    }

    fn answer(_: &Local, _: &[u8]) -> Result<(Hs, Wire), HsError> {
        unreachable!()
    }

    fn index(_: &[u8]) -> Option<u32> {
        unreachable!()
    }

    fn reply(_: &Hs, _: &Local, _: &[u8]) -> Result<Read<Self>, HsError> {
        unreachable!()
    }

    fn complete(_: &Hs, _: &[u8]) -> Result<Completed<Self>, HsError> {
        unreachable!()
    }

    fn prompt(_: Duration, _: &mut Vec<u8>) {
        unreachable!()
    }

    fn is_probe(_: &[u8]) -> bool {
        unreachable!()
    }
}

/// A profile whose types are numbers.
pub(crate) trait Numbers:
    Profile<
        Hs = Hs,
        Session = Session,
        Indices = Lease,
        Transport = u64,
        Carrier = u64,
        Route = u64,
        Ext = u64,
        LocalKeys = Local,
        Fsp = (),
        Fmp = (),
        Done = Infallible,
    >
{
    /// The event of a first message that is handed back.
    fn replaced(msg1: &Self::Msg1) -> Event;
}

impl<const M: u8, const A: bool, const S: bool, const X: bool, const F: usize> Numbers
    for Prof<M, A, S, X, F>
{
    fn replaced(msg1: &Infallible) -> Event {
        match *msg1 {}
    }
}

type Machine<P> = Rekey<P, TestClock>;

// ---- numbers to the machine ----

fn wire(number: u64) -> Wire {
    number.to_le_bytes().to_vec()
}

fn ladder(l: &plain::Lad) -> Ladder<TestInstant> {
    Ladder::at(TestInstant(l.origin), Schedule::of(&l.at, l.keepalive as u16), l.next as u8)
}

fn fin(f: &plain::Fin) -> Final<TestInstant> {
    Final { msg: wire(f.msg), ladder: ladder(&f.ladder) }
}

fn at(t: Option<u64>) -> Option<TestInstant> {
    t.map(TestInstant)
}

fn ms(d: Option<u64>) -> Option<Duration> {
    d.map(Duration::from_millis)
}

fn epoch<P: Numbers>(e: &plain::Ep) -> Epoch<P, TestInstant> {
    Epoch {
        tag: EpochTag::of(e.tag),
        session: Box::new(Session { number: e.session, sent: e.sent, tag: e.tag }),
        ids: Ids {
            lease: e.lease.map(IndexLease::for_test),
            theirs: e.theirs,
            transport: e.transport,
        },
        k: e.k,
        role: if e.role == 0 { Role::Initiator } else { Role::Responder },
        base: at(e.base),
        started: TestInstant(e.started),
        route: e.route,
        ext: e.ext,
        recv: if e.recv == 0 { RecvHome::Here } else { RecvHome::Delegated },
        floor: e.floor,
        heard: at(e.heard),
        moved: at(e.moved),
        assumed: e.assumed,
        fin: e.fin.as_ref().map(fin),
        elicit: e.elicit.as_ref().map(ladder),
        prompted: at(e.prompted),
    }
}

/// A digest whose first eight bytes are the number.
fn digest(number: u64) -> Digest {
    let mut bytes = [0; 32];
    bytes[..8].copy_from_slice(&number.to_le_bytes());
    Digest(bytes)
}

/// This node's address and the peer's, so that `smaller` is as asked.
fn addresses(smaller: bool) -> (NodeAddr, NodeAddr) {
    if smaller {
        (make_node_addr(1), make_node_addr(2))
    } else {
        (make_node_addr(2), make_node_addr(1))
    }
}

/// A machine in the state `s`, which tests 3 to 6 pass, with settings that
/// the checks pass.
fn machine<P: Numbers>(s: &State, cfg: &Cfg, smaller: bool) -> Machine<P> {
    let (me, peer) = addresses(smaller);
    let mut m: Machine<P> = Rekey::opening(
        Params::new(cfg.config()).expect("the settings are accepted"),
        Bond::Key(PeerKey(peer)),
        me,
        TestInstant(s.mem.link_since),
    );
    m.mem.peer_epoch = s.mem.peer_epoch.map(u64::to_le_bytes);
    m.mem.peer_k = s.mem.peer_k.map(|k| k != 0);
    m.mem.jitter = s.mem.jitter;
    m.mem.damp = at(s.mem.damp);
    m.mem.backoff = at(s.mem.backoff);
    m.mem.abandons = s.mem.abandons;
    m.mem.last_rx = at(s.mem.last_rx);
    m.mem.rx_cur = at(s.mem.rx_cur);
    m.mem.sent_data = s.mem.sent_data;
    m.mem.silence = s.mem.silence;
    m.mem.last_cutover = at(s.mem.last_cutover);
    m.mem.hs_rtt = ms(s.mem.hs_rtt);
    m.mem.srtt = ms(s.mem.srtt);
    m.mem.setup_rto = ms(s.mem.setup_rto);
    m.mem.reachable = s.mem.reachable;
    m.mem.due = s.mem.due;
    m.cur = s.cur.as_ref().map(epoch);
    m.drain = s.drain.as_ref().map(|d| EpochDrain {
        ep: epoch(&d.ep),
        deadline: TestInstant(d.deadline),
        evidenced: d.evidenced,
    });
    m.cycle = match &s.cycle {
        plain::Cycle::Idle => Cycle::Idle,
        plain::Cycle::Init(a) => Cycle::Init(Attempt {
            hs: Box::new(Hs(a.hs)),
            out: wire(a.out),
            lease: a.lease.map(IndexLease::for_test),
            transport: a.transport,
            first: TestInstant(a.first),
            ladder: ladder(&a.ladder),
            deadline: TestInstant(a.deadline),
            resent: a.resent,
        }),
        plain::Cycle::PendI(p) => Cycle::PendI(PendI {
            ep: epoch(&p.ep),
            wait: [Wait::Held, Wait::Evidence, Wait::Delay][usize::from(p.wait)],
            deadline: TestInstant(p.deadline),
            restart: p.restart,
            fin: p.fin.as_ref().map(fin),
            probes: p.probes.as_ref().map(ladder),
            probed: at(p.probed),
            stayed: p.stayed,
            reverted: p.reverted,
        }),
        plain::Cycle::PendR(p) => Cycle::PendR(PendR {
            ep: epoch(&p.ep),
            deadline: TestInstant(p.deadline),
            restart: p.restart,
            // A held answer is one number; its ephemeral is what `end`
            // hands to the record.
            answer: p.answer.map(|n| HeldAnswer {
                msg1: digest(n),
                ephemeral: digest(n),
                msg2: wire(n),
                route: Route::Arrival,
            }),
        }),
    };
    let list = s
        .cands
        .iter()
        .map(|c| Candidate {
            hs: Box::new(Hs(c.hs)),
            msg1: wire(c.msg1),
            ack: wire(c.ack),
            carrier: c.carrier,
            route: c.route,
            born: TestInstant(c.born),
            deadline: TestInstant(c.deadline),
            bound: c.bound.map(u64::to_le_bytes),
            seq: c.seq,
        })
        .collect();
    m.cands = Candidates::of(list, s.next);
    m
}

// ---- the machine to numbers ----

fn number(w: &[u8]) -> u64 {
    u64::from_le_bytes(w[..8].try_into().expect("eight bytes"))
}

fn show_ladder(l: &Ladder<TestInstant>) -> plain::Lad {
    let (origin, sched, next) = l.parts();
    plain::Lad {
        origin: origin.0,
        next: next.into(),
        keepalive: sched.map().into(),
        at: sched.offsets().collect(),
    }
}

fn show_fin(f: &Final<TestInstant>) -> plain::Fin {
    plain::Fin { msg: number(&f.msg), ladder: show_ladder(&f.ladder) }
}

fn show_at(t: Option<TestInstant>) -> Option<u64> {
    t.map(|t| t.0)
}

fn show_ms(d: Option<Duration>) -> Option<u64> {
    d.map(millis)
}

fn show_epoch<P: Numbers>(e: &Epoch<P, TestInstant>) -> plain::Ep {
    plain::Ep {
        tag: e.tag.get(),
        session: e.session.number,
        sent: e.session.sent,
        lease: e.ids.ours(),
        theirs: e.ids.theirs,
        transport: e.ids.transport,
        k: e.k,
        role: e.role as u8,
        base: show_at(e.base),
        started: e.started.0,
        route: e.route,
        ext: e.ext,
        recv: e.recv as u8,
        floor: e.floor,
        heard: show_at(e.heard),
        moved: show_at(e.moved),
        assumed: e.assumed,
        fin: e.fin.as_ref().map(show_fin),
        elicit: e.elicit.as_ref().map(show_ladder),
        prompted: show_at(e.prompted),
    }
}

fn show<P: Numbers>(m: &Machine<P>) -> State {
    State {
        mem: plain::Mem {
            peer_epoch: m.mem.peer_epoch.map(u64::from_le_bytes),
            peer_k: m.mem.peer_k.map(u8::from),
            jitter: m.mem.jitter,
            damp: show_at(m.mem.damp),
            backoff: show_at(m.mem.backoff),
            abandons: m.mem.abandons,
            last_rx: show_at(m.mem.last_rx),
            rx_cur: show_at(m.mem.rx_cur),
            sent_data: m.mem.sent_data,
            silence: m.mem.silence,
            link_since: m.mem.link_since.0,
            last_cutover: show_at(m.mem.last_cutover),
            hs_rtt: show_ms(m.mem.hs_rtt),
            srtt: show_ms(m.mem.srtt),
            setup_rto: show_ms(m.mem.setup_rto),
            reachable: m.mem.reachable,
            due: m.mem.due,
        },
        cur: m.cur.as_ref().map(show_epoch),
        drain: m.drain.as_ref().map(|d| plain::Drain {
            ep: show_epoch(&d.ep),
            deadline: d.deadline.0,
            evidenced: d.evidenced,
        }),
        cycle: match &m.cycle {
            Cycle::Idle => plain::Cycle::Idle,
            Cycle::Init(a) => plain::Cycle::Init(plain::Init {
                hs: a.hs.0,
                out: number(&a.out),
                lease: a.lease.as_ref().map(IndexLease::index),
                transport: a.transport,
                first: a.first.0,
                ladder: show_ladder(&a.ladder),
                deadline: a.deadline.0,
                resent: a.resent,
            }),
            Cycle::PendI(p) => plain::Cycle::PendI(plain::PendI {
                ep: show_epoch(&p.ep),
                wait: p.wait as u8,
                deadline: p.deadline.0,
                restart: p.restart,
                fin: p.fin.as_ref().map(show_fin),
                probes: p.probes.as_ref().map(show_ladder),
                probed: show_at(p.probed),
                stayed: p.stayed,
                reverted: p.reverted,
            }),
            Cycle::PendR(p) => plain::Cycle::PendR(plain::PendR {
                ep: show_epoch(&p.ep),
                deadline: p.deadline.0,
                restart: p.restart,
                answer: p.answer.as_ref().map(|a| number(&a.ephemeral.0)),
            }),
        },
        next: m.cands.number(),
        cands: m
            .cands
            .iter()
            .map(|c| plain::Cand {
                hs: c.hs.0,
                msg1: number(&c.msg1),
                ack: number(&c.ack),
                carrier: c.carrier,
                route: c.route,
                born: c.born.0,
                deadline: c.deadline.0,
                bound: c.bound.map(u64::from_le_bytes),
                seq: c.seq,
            })
            .collect(),
    }
}

/// An event: its name and its numbers.
#[derive(Debug, PartialEq, Eq)]
pub(crate) struct Event(pub(crate) &'static str, pub(crate) Vec<Option<u64>>);

fn event<P: Numbers>(o: &Output<P>) -> Event {
    let (name, numbers): (_, &[Option<u64>]) = match o {
        Output::Send { msg, kind, route } => {
            let route = match route {
                Route::Established { fallback } => u64::from(*fallback),
                Route::Arrival => 2,
            };
            ("send", &[Some(number(msg)), Some(*kind as u64), Some(route)])
        }
        Output::Prompt { tag } => ("prompt", &[Some(tag.get())]),
        Output::Deliver { slot, tag, range } => (
            "deliver",
            &[
                Some(*slot as u64),
                Some(tag.get()),
                Some(range.start as u64),
                Some(range.end as u64),
            ],
        ),
        Output::Bind { transport, index, tag, purpose } => (
            "bind",
            &[
                Some(*transport),
                Some((*index).into()),
                tag.map(EpochTag::get),
                Some(*purpose as u64),
            ],
        ),
        Output::Unbind { transport, index } => {
            ("unbind", &[Some(*transport), Some((*index).into())])
        }
        Output::Delegate { tag, transport, index, recv } => (
            "delegate",
            &[Some(tag.get()), Some(*transport), Some((*index).into()), Some(recv.0), recv.1],
        ),
        Output::Revoke { tag, transport, index } => {
            ("revoke", &[Some(tag.get()), Some(*transport), Some((*index).into())])
        }
        Output::Release(lease) => ("release", &[Some(lease.index().into())]),
        Output::Installed { tag, role, evidence } => {
            ("installed", &[Some(tag.get()), Some(*role as u64), Some(*evidence as u64)])
        }
        Output::Retired { tag } => ("retired", &[Some(tag.get())]),
        Output::Reverted { tag } => ("reverted", &[Some(tag.get())]),
        Output::PeerRestarted { epoch, .. } => {
            ("peerrestarted", &[Some(u64::from_le_bytes(*epoch))])
        }
        Output::Rekeyed { role } => ("rekeyed", &[Some(*role as u64)]),
        Output::ReplaceRequested { tok } => return P::replaced(tok.get()),
        Output::Reject(reason) => ("reject", &[Some(*reason as u64)]),
        Output::Abandoned(cause) => {
            let cause = match cause {
                Abandon::AdoptionNotSeen => 0,
                Abandon::Unadopted => 1,
                Abandon::PeerStayedOnOld => 2,
                Abandon::RevertUnconfirmed => 3,
                Abandon::Unanswered => 4,
                Abandon::Yielded => 5,
                Abandon::Reverted => 6,
                Abandon::Superseded => 7,
                Abandon::Closed(_) => 8,
            };
            ("abandoned", &[Some(cause)])
        }
        Output::Teardown(why) => ("teardown", &[Some(*why as u64)]),
    };
    Event(name, numbers.to_vec())
}

// ---- one call each ----

/// What the caller of every call hands over.
#[derive(Clone, Copy, Debug)]
pub(crate) struct Given<'a> {
    pub(crate) state: &'a State,
    pub(crate) cfg: &'a Cfg,
    pub(crate) smaller: bool,
    pub(crate) now: u64,
    pub(crate) workers: bool,
}

/// The one draw of a call.
struct Draw {
    value: u16,
    asked: u8,
}

impl JitterSource for Draw {
    fn draw(&mut self, _: u16) -> u16 {
        self.asked += 1;
        assert!(self.asked == 1, "a call draws once at most");
        self.value
    }
}

/// J for the machine and the number to draw, so that the helper `jitter`
/// gives `spread`. The Rust draws from 0 to twice J in 16 bits, which falls
/// short of J where J is above 32767; there the machine's own copy of J, which
/// only draws read, is 0, and the spread itself is drawn.
fn drawn(cfg: &Cfg, spread: i32) -> (u16, u16) {
    match u16::try_from(spread + i32::from(cfg.jitter)) {
        Ok(value) => (cfg.jitter, value),
        Err(_) => (0, u16::try_from(spread).expect("the spread is at most J")),
    }
}

/// What a call needs of the shell.
struct Shell {
    indices: Lease,
    transport: u64,
    tags: TagSource,
    workers: bool,
    jitter: Draw,
    local: Local,
    scratch: Vec<u8>,
}

impl Shell {
    /// A shell whose starts fail.
    fn new(workers: bool, draw: u16) -> Self {
        Self {
            indices: Lease(None),
            transport: 0,
            tags: TagSource::new(),
            workers,
            jitter: Draw { value: draw, asked: 0 },
            local: Local(None),
            scratch: Vec::new(),
        }
    }

    fn env<P: Numbers>(&mut self) -> Env<'_, P> {
        Env {
            indices: &mut self.indices,
            transport: self.transport,
            tags: &mut self.tags,
            workers: self.workers,
            jitter: &mut self.jitter,
            local: &self.local,
            scratch: &mut self.scratch,
        }
    }
}

/// An event, which the Rust tells, and what it does not tell.
#[derive(Debug)]
pub(crate) struct Told {
    pub(crate) event: Event,
    /// Of a poll, the place among `Done::rows` of the item that told it.
    pub(crate) item: Option<usize>,
    /// The number of rungs taken by the take that it comes from; 0 where it
    /// comes from no ladder.
    pub(crate) rungs: u8,
}

/// Events that come from no ladder.
fn no_ladder(events: impl IntoIterator<Item = Event>) -> Vec<Told> {
    events.into_iter().map(|event| Told { event, item: None, rungs: 0 }).collect()
}

/// The answer to a call that has events.
#[derive(Debug)]
pub(crate) struct Done {
    pub(crate) events: Vec<Told>,
    /// Of a poll, the row of each item that its passes listed.
    pub(crate) rows: Vec<&'static str>,
    pub(crate) state: State,
}

/// The row of the poll that an item is for.
fn row(d: &Due) -> &'static str {
    match d {
        Due::Drain(_) => "drain",
        Due::Candidate(_) => "candidate",
        Due::Unadopted(_) => "unadopted",
        Due::Held(_) => "held",
        Due::Probe(_) => "probe",
        Due::Delayed(_) => "delayed",
        Due::Fin(_) => "fin",
        Due::Elicit(_) => "elicit",
        Due::Confirm(_) => "confirm",
        Due::DelayEnd(_) => "delayend",
        Due::Resend => "resend",
        Due::Expire => "expire",
    }
}

fn events<P: Numbers>(out: &Outputs<P>) -> Vec<Event> {
    out.iter().map(event).collect()
}

/// A poll, by the published `step`. Its start is made to fail: it then
/// rejects with `HandshakeWrite`, which nothing else in a poll does, and
/// leaves the state; that output is where START stands.
pub(crate) fn poll<P: Numbers>(g: Given<'_>, spread: i32, extra: u16) -> Done {
    let now = TestInstant(g.now);
    let mut m = machine::<P>(g.state, g.cfg, g.smaller);
    let (j, spread) = drawn(g.cfg, spread);
    m.params.cfg.jitter = j;
    // `expire` draws the extra, and only where an attempt is open; a cutover
    // draws the spread, and only where an epoch is pending.
    let draw = if matches!(m.cycle, Cycle::Init(_)) { extra } else { spread };
    let out = m.step(now, Input::Poll, &mut Shell::new(g.workers, draw).env());
    let listed = passes::<P>(g, j, draw);
    let mut all = events(&out);
    for (e, o) in all.iter_mut().zip(&out) {
        if matches!(o, Output::Reject(Reason::HandshakeWrite)) {
            let kind = m.start_kind(now).expect("a start was called for");
            *e = Event("start", alloc::vec![Some(kind as u64)]);
        }
    }
    // The poll tells first what the passes told, and adds nothing to what
    // they left.
    let rest = all.split_off(listed.events.len().min(all.len()));
    let first = listed.events.iter().map(|t| &t.event);
    assert!(all.iter().eq(first), "the passes differ from the poll");
    let state = show(&m);
    assert!(state == listed.state || crate::proto::rekey::faults::any());
    // The rest is a start, a teardown or an offer.
    let mut told = listed.events;
    told.extend(no_ladder(rest));
    if let Some((tag, before)) = listed.ended {
        let event = Event("ended", alloc::vec![Some(tag)]);
        told.insert(before, Told { event, item: None, rungs: 0 });
    }
    Done { events: told, rows: listed.rows, state }
}

/// What the passes of a poll did.
struct Passes {
    rows: Vec<&'static str>,
    /// What they told, after `withdraw`.
    events: Vec<Told>,
    /// The tag whose `PendR::end` touched the record, and how many of the
    /// events stand before it.
    ended: Option<(u64, usize)>,
    state: State,
}

/// The pass loop of `poll` once more, by the published `due` and
/// `expire_pass`, one item at a time, to count the items, to see at which one
/// the record grows, and to count the rungs that each one takes.
fn passes<P: Numbers>(g: Given<'_>, j: u16, draw: u16) -> Passes {
    let now = TestInstant(g.now);
    let mut m = machine::<P>(g.state, g.cfg, g.smaller);
    m.params.cfg.jitter = j;
    let mut shell = Shell::new(g.workers, draw);
    let mut out: Outputs<P> = Vec::new();
    // For each output the place of its item and the rungs that this one took.
    let mut from: Vec<(usize, u8)> = Vec::new();
    let mut ended = false;
    let mut done: Vec<Due> = Vec::new();
    let mut told: Option<(u64, usize)> = None;
    for _ in 0..PASSES {
        let mut due = m.due(now);
        due.retain(|(_, d)| !done.contains(d));
        if ended || due.is_empty() {
            break;
        }
        if fault!(DueByKind) {
            due.sort_by_key(|(_, d)| *d);
        } else {
            due.sort();
        }
        let first = done.len();
        done.extend(due.iter().map(|&(_, d)| d));
        for (i, item) in due.into_iter().enumerate() {
            let tag = match &m.cycle {
                Cycle::PendR(p) => Some(p.ep.tag.get()),
                Cycle::Idle | Cycle::Init(_) | Cycle::PendI(_) => None,
            };
            let (held, before) = (m.record.len(), out.len());
            let (ends, taken) = one_item(&mut m, now, item, &mut shell, &mut out);
            ended |= ends;
            from.resize(out.len(), (first + i, taken));
            if m.record.len() > held {
                assert!(told.is_none(), "one pending ends at most");
                told = Some((tag.expect("a responder pending ended"), before));
            }
        }
    }
    let kept = withdrawn(&m, out, from);
    Passes {
        rows: done.iter().map(row).collect(),
        ended: told.map(|(tag, before)| (tag, kept[..before].iter().flatten().count())),
        events: kept.into_iter().flatten().collect(),
        state: show(&m),
    }
}

/// One item, by the published `expire_pass`: whether it ends the machine, and
/// how many rungs its row takes, 0 where the row takes from no ladder. The
/// number is counted on a copy of the row's ladder, before the row runs.
fn one_item<P: Numbers>(
    m: &mut Machine<P>,
    now: TestInstant,
    item: (TestInstant, Due),
    shell: &mut Shell,
    out: &mut Outputs<P>,
) -> (bool, u8) {
    let had = ladder_of(m, item.1);
    let rungs = had.map_or(0, |l| l.rungs(now));
    let before = out.len();
    let ends = m.expire_pass(now, alloc::vec![item], &mut shell.env(), out);
    // A row that told has taken: its ladder now stands where the copy does, or
    // is gone because its last rung was taken.
    if out.len() > before
        && let Some((_, sched, cursor)) = had.map(|l| l.parts())
    {
        let end = sched.len() as u8;
        let left = ladder_of(m, item.1).map_or(end, |l| l.parts().2);
        assert_eq!(left, cursor + rungs, "the row takes as the copy did");
    }
    (ends, rungs)
}

/// The ladder that the row of an item takes from; none where the row takes from
/// none, or where what the item names is gone.
fn ladder_of<P: Numbers>(m: &Machine<P>, item: Due) -> Option<Ladder<TestInstant>> {
    let current = |tag| m.cur.as_ref().filter(|c| c.tag == tag);
    let pending = |tag| match &m.cycle {
        Cycle::PendI(p) if p.ep.tag == tag => Some(p),
        Cycle::Idle | Cycle::Init(_) | Cycle::PendI(_) | Cycle::PendR(_) => None,
    };
    match item {
        Due::Probe(tag) => pending(tag)?.probes,
        Due::Delayed(tag) => Some(pending(tag)?.fin.as_ref()?.ladder),
        Due::Fin(tag) => Some(current(tag)?.fin.as_ref()?.ladder),
        Due::Elicit(tag) => current(tag)?.elicit,
        Due::Resend => match &m.cycle {
            Cycle::Init(a) => Some(a.ladder),
            Cycle::Idle | Cycle::PendI(_) | Cycle::PendR(_) => None,
        },
        Due::Drain(_)
        | Due::Candidate(_)
        | Due::Unadopted(_)
        | Due::Held(_)
        | Due::Confirm(_)
        | Due::DelayEnd(_)
        | Due::Expire => None,
    }
}

/// What the published `withdraw` leaves of each output, with the output's item
/// and number; none where it drops it. It judges each output by itself, so it is
/// asked for one at a time.
fn withdrawn<P: Numbers>(
    m: &Machine<P>,
    out: Outputs<P>,
    from: Vec<(usize, u8)>,
) -> Vec<Option<Told>> {
    let each = out.into_iter().zip(from).map(|(o, (item, rungs))| {
        let mut one = alloc::vec![o];
        m.withdraw(&mut one);
        one.first().map(|o| Told { event: event(o), item: Some(item), rungs })
    });
    each.collect()
}

/// A frame's proof and where its plaintext goes.
#[derive(Clone, Copy, Debug)]
pub(crate) struct Proof {
    pub(crate) slot: u8,
    pub(crate) tag: u64,
    pub(crate) counter: u64,
    pub(crate) k: bool,
    pub(crate) len: u64,
    pub(crate) probe: bool,
    pub(crate) body: u64,
}

/// A frame, by the published `frame`, which `apply` calls once `judge` has
/// authenticated it, and `withdraw`, with which `step` closes. `mark` is the
/// session's, which logs; the record tells that a responder pending ended.
pub(crate) fn frame<P: Numbers>(
    g: Given<'_>,
    spread: i32,
    f: Proof,
    target: &mut [u8],
    source: &[u8],
) -> Done {
    let mut m = machine::<P>(g.state, g.cfg, g.smaller);
    let (j, draw) = drawn(g.cfg, spread);
    m.params.cfg.jitter = j;
    let mut shell = Shell::new(g.workers, draw);
    shell.scratch = source.to_vec();
    let slot = [Slot::Current, Slot::Pending, Slot::Previous][usize::from(f.slot)];
    let proof = FrameProof::new(
        EpochTag::of(f.tag),
        slot,
        f.counter,
        f.k,
        usize::try_from(f.len).expect("64 bits"),
        f.probe,
    );
    let body = usize::try_from(f.body).expect("64 bits");
    let ending = match &m.cycle {
        Cycle::PendR(p) => Some(p.ep.tag.get()),
        Cycle::Idle | Cycle::Init(_) | Cycle::PendI(_) => None,
    };
    let mut out = Outputs::new();
    m.frame(TestInstant(g.now), proof, target, body, &mut shell.env(), &mut out);
    m.withdraw(&mut out);
    // `frame` marks before anything else, and ends a responder pending before
    // its cutover, which is the first to tell.
    let mut all: Vec<Event> = MARKS
        .take()
        .into_iter()
        .map(|(tag, counter)| Event("mark", alloc::vec![Some(tag), Some(counter)]))
        .collect();
    if m.record.len() > 0 {
        all.push(Event("ended", alloc::vec![ending]));
    }
    all.extend(events(&out));
    Done { events: no_ladder(all), rows: Vec::new(), state: show(&m) }
}

/// A notice, by the published `step`. No notice draws, marks or ends a
/// responder pending, so nothing is told but what `step` tells.
fn notice<P: Numbers>(g: Given<'_>, input: Input<'_, P>) -> Done {
    let mut m = machine::<P>(g.state, g.cfg, g.smaller);
    let mut shell = Shell::new(g.workers, 0);
    let out = m.step(TestInstant(g.now), input, &mut shell.env());
    assert!(shell.jitter.asked == 0, "a notice draws nothing");
    assert!(MARKS.take().is_empty() && m.record.len() == 0, "a notice tells by `step` alone");
    Done { events: no_ladder(events(&out)), rows: Vec::new(), state: show(&m) }
}

/// A worker authenticated a frame under the tag.
pub(crate) fn worker<P: Numbers>(g: Given<'_>, tag: u64, k: bool, counter: u64) -> Done {
    notice::<P>(g, Input::WorkerFrame { tag: EpochTag::of(tag), k, counter, only: () })
}

/// A worker took the receive half of the tag.
pub(crate) fn delegated<P: Numbers>(g: Given<'_>, tag: u64) -> Done {
    notice::<P>(g, Input::Delegated { tag: EpochTag::of(tag), only: () })
}

/// The worker that held the tag is gone.
pub(crate) fn undelegated<P: Numbers>(g: Given<'_>, tag: u64) -> Done {
    notice::<P>(g, Input::Undelegated { tag: EpochTag::of(tag), only: () })
}

/// Data was sealed.
pub(crate) fn datasent<P: Numbers>(g: Given<'_>) -> Done {
    notice::<P>(g, Input::DataSent { only: () })
}

/// Whether a next hop exists, and the round trip where it is measured.
pub(crate) fn path<P: Numbers>(g: Given<'_>, reachable: bool, srtt: Option<u64>) -> Done {
    notice::<P>(g, Input::PathFacts { reachable, srtt: ms(srtt), only: () })
}

/// A fresh link, by the published `opening` and `install`.
pub(crate) fn open<P: Numbers>(
    cfg: &Cfg,
    smaller: bool,
    now: u64,
    role: u8,
    transport: u64,
    lease: Option<u32>,
    workers: bool,
    spread: i32,
) -> Done {
    let (me, peer) = addresses(smaller);
    let mut params = Params::new(cfg.config()).expect("the settings are accepted");
    let (j, draw) = drawn(cfg, spread);
    params.cfg.jitter = j;
    let bond = Bond::Key(PeerKey(peer));
    let now = TestInstant(now);
    let mut m: Machine<P> = Rekey::opening(params, bond, me, now);
    let done = bond
        .check(Completed {
            session: Box::new(Session { number: 0, sent: 0, tag: 1 }),
            remote: PeerKey(peer),
            epoch: [0; 8],
            theirs: None,
        })
        .expect("the peer is the bonded one");
    let ids = Ids { lease: lease.map(IndexLease::for_test), theirs: None, transport };
    let role = if role == 0 { Role::Initiator } else { Role::Responder };
    let ep = Epoch::new(EpochTag::of(1), done, ids, false, role, now);
    let mut out = Outputs::new();
    m.install(now, ep, &mut Shell::new(workers, draw).env(), &mut out);
    m.withdraw(&mut out);
    Done { events: no_ladder(events(&out)), rows: Vec::new(), state: show(&m) }
}

/// Whether a start is called for at the instant: `start_kind` yields, and the
/// sent count is below `hard`.
pub(crate) fn called_for<P: Numbers>(g: Given<'_>) -> bool {
    let m = machine::<P>(g.state, g.cfg, g.smaller);
    let below = m.cur.as_ref().is_some_and(|c| c.session.sent() < m.params.cfg.hard);
    m.start_kind(TestInstant(g.now)).is_some() && below
}

/// A start that opens, by the published `start`, with the silence count of
/// `poll`. P takes a lease where one is given.
pub(crate) fn opened<P: Numbers>(
    g: Given<'_>,
    hs: u64,
    msg: u64,
    transport: u64,
    lease: Option<u32>,
) -> State {
    assert_eq!(P::INDEXED, lease.is_some());
    let now = TestInstant(g.now);
    let shell = || Shell {
        indices: Lease(lease),
        transport,
        local: Local(Some((hs, msg))),
        ..Shell::new(false, 0)
    };
    let mut m = machine::<P>(g.state, g.cfg, g.smaller);
    let start = m.start_kind(now).expect("a start is called for");
    m.start(now, &mut shell().env(), &mut Outputs::new());
    let started = matches!(m.cycle, Cycle::Init(_));
    if started && start == Start::Silence && m.silence_interval() < m.params.cfg.after {
        m.mem.silence = m.mem.silence.saturating_add(1);
    }
    let state = show(&m);
    // Where no item is due, the published poll does the same.
    let mut m = machine::<P>(g.state, g.cfg, g.smaller);
    if m.due(now).is_empty() {
        m.step(now, Input::Poll, &mut shell().env());
        assert_eq!(state, show(&m), "the poll's own start differs");
    }
    state
}

/// The wake, by the published `next_wake`.
pub(crate) fn wake<P: Numbers>(g: Given<'_>) -> Option<u64> {
    show_at(machine::<P>(g.state, g.cfg, g.smaller).next_wake())
}

/// What a status line tells.
#[derive(Debug)]
pub(crate) struct Status {
    pub(crate) tag: Option<u64>,
    pub(crate) kind: u64,
    pub(crate) wake: Option<u64>,
    pub(crate) quiet: Option<u64>,
    /// The time since `last_rx`, which is the quiet time before request 4.
    pub(crate) since_last: Option<u64>,
}

/// A status line, by the published `view` and `next_wake`. `view` has `last_rx`,
/// which is of any epoch, and not `rx_cur`, so `quiet` computes the quiet time; it
/// must be that of the block's numbers.
pub(crate) fn status<P: Numbers>(g: Given<'_>) -> Status {
    let m = machine::<P>(g.state, g.cfg, g.smaller);
    let now = TestInstant(g.now);
    let view = m.view();
    let kind = match view.cycle {
        CycleView::Idle => 0,
        CycleView::Init => 1,
        CycleView::PendI(_) => 2,
        CycleView::PendR => 3,
    };
    let quiet = quiet(&m, now).map(millis);
    assert!(is_quiet(g.state, g.now, quiet), "the numbers have another quiet time");
    Status {
        tag: view.current.map(|c| c.tag.get()),
        kind,
        wake: show_at(m.next_wake()),
        quiet,
        since_last: view.last_rx.map(|t| millis(since(now, t))),
    }
}

/// The quiet time: the shorter of the time since the current epoch started and the
/// time since `rx_cur`. A cutover leaves `rx_cur`, so it may lie before the start.
/// The published silence trigger counts from the same instant, by `latest`.
fn quiet<P: Numbers>(m: &Machine<P>, now: TestInstant) -> Option<Duration> {
    let started = m.cur.as_ref()?.started;
    let marks = [Some(started), m.mem.rx_cur].into_iter().flatten();
    let shorter = marks.map(|t| since(now, t)).min();
    let published = since(now, latest(m.mem.rx_cur, started));
    assert_eq!(shorter, Some(published), "`latest` has another quiet time");
    shorter
}

/// Whether `quiet` is the quiet time of these numbers, by what it can be: absent
/// without a current epoch alone; 0 where the clock is not past the start or not
/// past `rx_cur`; above 0 where it counts from one of the two and neither is later.
fn is_quiet(s: &State, now: u64, quiet: Option<u64>) -> bool {
    let heard = s.mem.rx_cur;
    match (&s.cur, quiet) {
        (None, _) => quiet.is_none(),
        (Some(_), None) => false,
        (Some(cur), Some(0)) => now <= cur.started || heard.is_some_and(|t| now <= t),
        (Some(cur), Some(time)) => now.checked_sub(time).is_some_and(|from| {
            let counts = from == cur.started || heard == Some(from);
            counts && cur.started <= from && heard.is_none_or(|t| t <= from)
        }),
    }
}
