//! The table of include/siklyavon_link.h, "What happens outside, and what to
//! write for it", restated on the numbers of a state: a function for each row
//! that has writes, named after the input in its brackets, and one for each
//! group R, F and C. What the table says to do beside the writes is told as
//! events. A row that names a call has no function here.
use super::super::machine::oracle::Event;
use super::settings::Cfg;
use super::state::{Cand, Cycle, Drain, Ep, Fin, Lad, PendI, PendR, State};

/// When the own attempt's epoch becomes current: R3 and the two of R4.
#[derive(Clone, Copy, Debug, PartialEq, Eq)]
pub(crate) enum Cutover {
    Proof,
    Evidence,
    Delay,
}

/// What the table reads beside the state.
#[derive(Clone, Copy, Debug)]
pub(crate) struct Given<'a> {
    pub(crate) cfg: &'a Cfg,
    pub(crate) three: bool,
    pub(crate) cutover: Cutover,
    pub(crate) at_proof: bool,
    pub(crate) smaller: bool,
    pub(crate) now: u64,
    pub(crate) spread: i32,
}

/// What a completed handshake brings.
#[derive(Clone, Copy, Debug)]
pub(crate) struct Made {
    pub(crate) tag: u64,
    pub(crate) session: u64,
    pub(crate) theirs: Option<u32>,
    /// The transport of now.
    pub(crate) transport: u64,
    /// The startup epoch of the message.
    pub(crate) epoch: u64,
}

/// What a row leaves and what it says to do.
#[derive(Debug, PartialEq, Eq)]
pub(crate) struct Row {
    pub(crate) state: State,
    pub(crate) work: Vec<Event>,
}

/// `t + d` is `t` where the sum would pass 2^64 - 1.
fn plus(t: u64, d: u64) -> u64 {
    t.checked_add(d).unwrap_or(t)
}

/// `a - b` is 0 where `b` is greater.
fn minus(a: u64, b: u64) -> u64 {
    a.saturating_sub(b)
}

// ---- a new epoch, a new ladder and its schedule ----

/// All 0 and off, but what is named.
fn new_epoch(g: &Given<'_>, m: &Made, lease: Option<u32>, responder: bool) -> Ep {
    Ep {
        tag: m.tag,
        session: m.session,
        sent: 0,
        lease,
        theirs: m.theirs,
        transport: m.transport,
        k: false,
        role: u8::from(responder),
        base: None,
        started: g.now,
        route: None,
        ext: 0,
        recv: 0,
        floor: None,
        heard: None,
        moved: None,
        assumed: false,
        fin: None,
        elicit: None,
        prompted: None,
    }
}

fn d(i: u32) -> u64 {
    1000 * ((1 << i) - 1)
}

fn ladder(now: u64, at: Vec<u64>, keepalive: u64) -> Lad {
    Lad { origin: now, next: 0, keepalive, at }
}

fn none(now: u64) -> Lad {
    ladder(now, Vec::new(), 0)
}

fn last(now: u64, cfg: &Cfg) -> Lad {
    ladder(now, (1..=u32::from(cfg.resends).min(16)).map(d).collect(), 0)
}

fn delayed(now: u64) -> Lad {
    ladder(now, (1..=4).map(d).collect(), 0)
}

fn elicit(now: u64) -> Lad {
    ladder(now, (1..=2).map(d).collect(), 0)
}

fn probes(now: u64, cfg: &Cfg) -> Lad {
    let c = cfg.handshake + cfg.check;
    let gap = ((cfg.drain - 2000) / 2).max(1);
    // Those of d(1) to d(resends) below C. Of more than 16 no rung is kept.
    let sends: Vec<u64> =
        (1..=u32::from(cfg.resends).min(17)).map(d).filter(|at| *at < c).collect();
    let (mut at, mut keepalive) = (Vec::new(), 0);
    let mut from = 0u64;
    for (send, before) in sends.iter().map(|s| (true, *s)).chain([(false, c)]) {
        let mut rung = from.checked_add(gap);
        while let Some(t) = rung
            && t < before
            && at.len() < 16
        {
            keepalive |= 1 << at.len();
            at.push(t);
            rung = t.checked_add(gap);
        }
        if send && at.len() < 16 {
            at.push(before);
        }
        from = before;
    }
    ladder(now, at, keepalive)
}

// ---- what is to be done ----

fn event(name: &'static str, numbers: &[u64]) -> Event {
    Event(name, numbers.iter().map(|n| Some(*n)).collect())
}

const CURRENT: u64 = 2;
const PENDING: u64 = 1;

/// Bind the epoch's index, if it has one.
fn bind(ep: &Ep, purpose: u64, work: &mut Vec<Event>) {
    if let Some(index) = ep.lease {
        work.push(event("bind", &[ep.transport, index.into(), ep.tag, purpose]));
    }
}

/// Retire or discard an epoch: unbind, revoke if delegated, release, and
/// discard the keys.
fn retire(ep: &Ep, work: &mut Vec<Event>) {
    if let Some(index) = ep.lease {
        work.push(event("unbind", &[ep.transport, index.into()]));
        if ep.recv == 1 {
            work.push(event("revoke", &[ep.tag, ep.transport, index.into()]));
        }
        work.push(event("release", &[index.into()]));
    }
    work.push(event("retired", &[ep.tag]));
}

/// Give up an attempt: unbind and release its index.
fn give_up(lease: Option<u32>, transport: u64, work: &mut Vec<Event>) {
    if let Some(index) = lease {
        work.push(event("unbind", &[transport, index.into()]));
        work.push(event("release", &[index.into()]));
    }
}

// ---- the rows ----

/// The own attempt's reply authenticated while cycle.kind is INIT [Reply]:
/// R1 to R5. `msg` is the last message of three.
pub(crate) fn reply(s: &State, g: &Given<'_>, m: &Made, route: u64, msg: u64) -> Row {
    let mut s = s.clone();
    let mut work = Vec::new();
    let now = g.now;
    let Cycle::Init(a) = s.cycle.clone() else {
        panic!("an attempt");
    };
    // R1
    let rtt = minus(now, a.first);
    if !a.resent {
        s.mem.hs_rtt = Some(rtt);
        s.mem.setup_rto = None;
    } else if g.three {
        let most = (g.cfg.handshake - g.cfg.check) / 3000 * 1000;
        s.mem.setup_rto = Some(rtt.saturating_mul(2).min(most));
    }
    if g.three {
        work.push(event("send", &[msg, 4, 0]));
    }
    let mut ep = new_epoch(g, m, a.lease, false);
    let fin = |ladder| Some(Fin { msg, ladder });
    // R5
    let Some(cur) = &s.cur else {
        ep.base = Some(now);
        ep.route = Some(route);
        ep.fin = fin(last(now, g.cfg)).filter(|_| g.three);
        s.mem.peer_epoch = Some(m.epoch);
        s.mem.jitter = g.spread;
        bind(&ep, CURRENT, &mut work);
        s.cur = Some(ep);
        s.cycle = Cycle::Idle;
        return Row { state: s, work };
    };
    // R2
    let restart = s.mem.peer_epoch != Some(m.epoch);
    ep.k = !restart && !s.mem.peer_k.map_or(cur.k, |k| k != 0);
    s.mem.peer_epoch = Some(m.epoch);
    if let Some(index) = a.lease {
        work.push(event("unbind", &[a.transport, index.into()]));
    }
    // R4, with a restart
    if g.three && restart {
        bind(&ep, CURRENT, &mut work);
        ep.base = Some(now);
        ep.route = Some(route);
        let fin = fin(last(now, g.cfg));
        // C1
        if g.smaller {
            s.cands.clear();
        } else {
            s.cands.iter_mut().for_each(|c| c.bound = s.mem.peer_epoch);
        }
        cutover(&mut s, g, ep, fin, true, &mut work);
        return Row { state: s, work };
    }
    bind(&ep, PENDING, &mut work);
    let mut p = PendI {
        ep,
        wait: 0,
        deadline: now,
        restart,
        fin: None,
        probes: None,
        probed: None,
        stayed: false,
        reverted: false,
    };
    match g.cutover {
        // R3
        Cutover::Proof => {}
        // R4, cutover on evidence
        Cutover::Evidence => {
            p.ep.base = Some(now);
            p.ep.route = Some(route);
            p.wait = 1;
            p.deadline = plus(now, g.cfg.handshake + g.cfg.check);
            p.fin = fin(none(now));
            p.probes = Some(probes(now, g.cfg));
            p.probed = Some(now);
            work.push(event("prompt", &[p.ep.tag]));
            work.push(event("prompt", &[cur.tag]));
        }
        // R4, cutover after a delay
        Cutover::Delay => {
            p.wait = 2;
            p.deadline = plus(now, g.cfg.delay.max(s.mem.hs_rtt.unwrap_or(0)));
            p.fin = fin(delayed(now));
        }
    }
    s.cycle = Cycle::PendI(p);
    Row { state: s, work }
}

/// A fresh first message of two was answered [PeerMsg1].
pub(crate) fn peer_msg1(
    s: &State,
    g: &Given<'_>,
    m: &Made,
    lease: Option<u32>,
    answer: u64,
) -> Row {
    let mut s = s.clone();
    let mut work = Vec::new();
    if let Cycle::Init(a) = &s.cycle {
        give_up(a.lease, a.transport, &mut work);
    }
    let ep = new_epoch(g, m, lease, true);
    bind(&ep, PENDING, &mut work);
    s.cycle = Cycle::PendR(PendR {
        ep,
        deadline: plus(g.now, g.cfg.hold),
        restart: false,
        answer: Some(answer),
    });
    s.mem.damp = Some(plus(g.now, g.cfg.dampening));
    Row { state: s, work }
}

/// A setup, the first message of three, was answered [Setup]. `c` has the
/// caller's numbers.
pub(crate) fn setup(s: &State, g: &Given<'_>, c: Cand) -> State {
    let mut s = s.clone();
    s.cands.push(Cand {
        born: g.now,
        deadline: plus(g.now, g.cfg.ttl),
        bound: None,
        seq: s.next,
        ..c
    });
    s.next = plus(s.next, 1);
    s
}

/// F2: leave what is in progress.
fn leave(s: &mut State, work: &mut Vec<Event>) {
    match &s.cycle {
        Cycle::Idle => s.cur.iter_mut().for_each(|c| c.fin = None),
        Cycle::Init(a) => give_up(a.lease, a.transport, work),
        Cycle::PendI(p) => retire(&p.ep, work),
        Cycle::PendR(p) => {
            if p.answer.is_some() {
                work.push(event("ended", &[p.ep.tag]));
            }
            retire(&p.ep, work);
        }
    }
    s.cycle = Cycle::Idle;
}

/// Whether the message reveals a restart, as F3 has it.
fn restarted(s: &State, epoch: u64) -> bool {
    s.cur.is_some() && s.mem.peer_epoch.is_some_and(|e| e != epoch)
}

/// A last message of three completed the candidate at place `i` [Final]: F1
/// to F4.
pub(crate) fn last_message(s: &State, g: &Given<'_>, m: &Made, i: usize) -> Row {
    let mut s = s.clone();
    let mut work = Vec::new();
    let now = g.now;
    // F1
    let c = s.cands[i].clone();
    s.cands.retain(|o| o.seq > c.seq);
    // F2
    leave(&mut s, &mut work);
    // F3
    let rtt = minus(now, c.born);
    if rtt < 1000 {
        s.mem.hs_rtt = Some(rtt);
        s.mem.setup_rto = None;
    }
    s.mem.damp = Some(plus(now, g.cfg.dampening));
    let restart = restarted(&s, m.epoch);
    s.mem.peer_epoch = Some(m.epoch);
    let mut ep = new_epoch(g, m, None, true);
    ep.theirs = None;
    ep.route = Some(c.route);
    // F4
    let Some(cur) = &s.cur else {
        ep.base = Some(now);
        ep.prompted = Some(now);
        s.mem.jitter = g.spread;
        work.push(event("prompt", &[ep.tag]));
        s.cur = Some(ep);
        return Row { state: s, work };
    };
    ep.k = !restart && !cur.k;
    if g.at_proof {
        ep.base = Some(now);
        cutover(&mut s, g, ep, None, restart, &mut work);
    } else {
        s.cycle =
            Cycle::PendR(PendR { ep, deadline: plus(now, g.cfg.hold), restart, answer: None });
    }
    Row { state: s, work }
}

/// A handshake that a leg table completed was taken, with a current epoch
/// held [PeerDone].
pub(crate) fn peer_done(s: &State, g: &Given<'_>, m: &Made, lease: Option<u32>) -> Row {
    let mut s = s.clone();
    let mut work = Vec::new();
    leave(&mut s, &mut work);
    let restart = restarted(&s, m.epoch);
    if restart {
        s.mem.peer_epoch = Some(m.epoch);
    }
    if g.three {
        s.mem.damp = Some(plus(g.now, g.cfg.dampening));
    }
    let ep = new_epoch(g, m, lease, true);
    bind(&ep, PENDING, &mut work);
    s.cycle = Cycle::PendR(PendR { ep, deadline: plus(g.now, g.cfg.hold), restart, answer: None });
    Row { state: s, work }
}

/// A candidate's last message named another key or another bound epoch, or
/// lost the tie-break: remove the candidate at place `i`.
pub(crate) fn removed(s: &State, i: usize) -> State {
    let mut s = s.clone();
    s.cands.remove(i);
    s
}

/// What the first handshake knew, where it was made elsewhere.
#[derive(Clone, Copy, Debug)]
pub(crate) struct Facts {
    pub(crate) peer_epoch: Option<u64>,
    pub(crate) link_since: u64,
    pub(crate) peer_k: Option<u8>,
    pub(crate) last_rx: Option<u64>,
    pub(crate) k: bool,
    pub(crate) started: u64,
}

/// The first handshake was made elsewhere [established]: the writes behind
/// the call of siklyavon_open with responder off, which left `s`.
pub(crate) fn established(s: &State, m: &Made, f: &Facts) -> State {
    let mut s = s.clone();
    s.mem.peer_epoch = f.peer_epoch;
    s.mem.link_since = f.link_since;
    s.mem.peer_k = f.peer_k;
    s.mem.last_rx = f.last_rx;
    let ep = s.cur.as_mut().expect("a fresh link");
    ep.tag = m.tag;
    ep.session = m.session;
    ep.theirs = m.theirs;
    ep.k = f.k;
    ep.started = f.started;
    ep.base = Some(f.started);
    s
}

/// A cutover that no call makes: C2 to C4.
fn cutover(
    s: &mut State,
    g: &Given<'_>,
    mut ep: Ep,
    fin: Option<Fin>,
    restart: bool,
    work: &mut Vec<Event>,
) {
    let now = g.now;
    // C2
    if let Some(drain) = s.drain.take() {
        retire(&drain.ep, work);
    }
    let mut old = s.cur.take().expect("a current epoch");
    if restart {
        retire(&old, work);
        s.mem.link_since = now;
    } else {
        old.fin = None;
        old.elicit = None;
        s.drain = Some(Drain { ep: old, deadline: plus(now, g.cfg.retention), evidenced: false });
    }
    // C3
    ep.started = now;
    ep.fin = fin;
    ep.prompted = Some(now);
    ep.elicit = Some(elicit(now));
    if ep.fin.as_ref().is_some_and(|f| f.ladder.at.is_empty()) {
        ep.fin = None;
        s.mem.due = true;
    }
    work.push(event("prompt", &[ep.tag]));
    // C4
    s.mem.jitter = g.spread;
    s.mem.last_cutover = Some(now);
    s.mem.abandons = 0;
    s.cur = Some(ep);
    s.cycle = Cycle::Idle;
}
