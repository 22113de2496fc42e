//! The state as numbers, in the fields and order of the replay format. It
//! holds what a line claims, also past the limits of 16 rungs and 32
//! candidates.
use super::lines::{Fields, put_opt};
use std::fmt::Write as _;

#[derive(Clone, Debug, PartialEq, Eq)]
pub(crate) struct State {
    pub(crate) mem: Mem,
    pub(crate) cur: Option<Ep>,
    pub(crate) drain: Option<Drain>,
    pub(crate) cycle: Cycle,
    pub(crate) next: u64,
    pub(crate) cands: Vec<Cand>,
}

#[derive(Clone, Debug, PartialEq, Eq)]
pub(crate) struct Mem {
    pub(crate) peer_epoch: Option<u64>,
    pub(crate) peer_k: Option<u8>,
    pub(crate) jitter: i32,
    pub(crate) damp: Option<u64>,
    pub(crate) backoff: Option<u64>,
    pub(crate) abandons: u8,
    pub(crate) last_rx: Option<u64>,
    pub(crate) rx_cur: Option<u64>,
    pub(crate) sent_data: bool,
    pub(crate) silence: u8,
    pub(crate) link_since: u64,
    pub(crate) last_cutover: Option<u64>,
    pub(crate) hs_rtt: Option<u64>,
    pub(crate) srtt: Option<u64>,
    pub(crate) setup_rto: Option<u64>,
    pub(crate) reachable: bool,
    pub(crate) due: bool,
}

#[derive(Clone, Debug, PartialEq, Eq)]
pub(crate) struct Lad {
    pub(crate) origin: u64,
    pub(crate) next: u64,
    pub(crate) keepalive: u64,
    pub(crate) at: Vec<u64>,
}

#[derive(Clone, Debug, PartialEq, Eq)]
pub(crate) struct Fin {
    pub(crate) msg: u64,
    pub(crate) ladder: Lad,
}

#[derive(Clone, Debug, PartialEq, Eq)]
pub(crate) struct Ep {
    pub(crate) tag: u64,
    pub(crate) session: u64,
    pub(crate) sent: u64,
    pub(crate) lease: Option<u32>,
    pub(crate) theirs: Option<u32>,
    pub(crate) transport: u64,
    pub(crate) k: bool,
    /// 0 initiator, 1 responder.
    pub(crate) role: u8,
    pub(crate) base: Option<u64>,
    pub(crate) started: u64,
    pub(crate) route: Option<u64>,
    pub(crate) ext: u64,
    /// 0 here, 1 delegated.
    pub(crate) recv: u8,
    pub(crate) floor: Option<u64>,
    pub(crate) heard: Option<u64>,
    pub(crate) moved: Option<u64>,
    pub(crate) assumed: bool,
    pub(crate) fin: Option<Fin>,
    pub(crate) elicit: Option<Lad>,
    pub(crate) prompted: Option<u64>,
}

#[derive(Clone, Debug, PartialEq, Eq)]
pub(crate) struct Drain {
    pub(crate) ep: Ep,
    pub(crate) deadline: u64,
    pub(crate) evidenced: bool,
}

#[derive(Clone, Debug, PartialEq, Eq)]
#[allow(clippy::large_enum_variant)]
pub(crate) enum Cycle {
    Idle,
    Init(Init),
    PendI(PendI),
    PendR(PendR),
}

#[derive(Clone, Debug, PartialEq, Eq)]
pub(crate) struct Init {
    pub(crate) hs: u64,
    pub(crate) out: u64,
    pub(crate) lease: Option<u32>,
    pub(crate) transport: u64,
    pub(crate) first: u64,
    pub(crate) ladder: Lad,
    pub(crate) deadline: u64,
    pub(crate) resent: bool,
}

#[derive(Clone, Debug, PartialEq, Eq)]
pub(crate) struct PendI {
    pub(crate) ep: Ep,
    /// 0 held, 1 evidence, 2 delay.
    pub(crate) wait: u8,
    pub(crate) deadline: u64,
    pub(crate) restart: bool,
    pub(crate) fin: Option<Fin>,
    pub(crate) probes: Option<Lad>,
    pub(crate) probed: Option<u64>,
    pub(crate) stayed: bool,
    pub(crate) reverted: bool,
}

#[derive(Clone, Debug, PartialEq, Eq)]
pub(crate) struct PendR {
    pub(crate) ep: Ep,
    pub(crate) deadline: u64,
    pub(crate) restart: bool,
    pub(crate) answer: Option<u64>,
}

#[derive(Clone, Debug, PartialEq, Eq)]
pub(crate) struct Cand {
    pub(crate) hs: u64,
    pub(crate) msg1: u64,
    pub(crate) ack: u64,
    pub(crate) carrier: u64,
    pub(crate) route: u64,
    pub(crate) born: u64,
    pub(crate) deadline: u64,
    pub(crate) bound: Option<u64>,
    pub(crate) seq: u64,
}

impl State {
    /// The pending epoch, in either role.
    pub(crate) fn pending(&self) -> Option<&Ep> {
        match &self.cycle {
            Cycle::PendI(p) => Some(&p.ep),
            Cycle::PendR(p) => Some(&p.ep),
            Cycle::Idle | Cycle::Init(_) => None,
        }
    }

    /// The epoch in slot 0 (current), 1 (pending) or 2 (drained).
    pub(crate) fn slot(&self, slot: u8) -> Option<&Ep> {
        match slot {
            0 => self.cur.as_ref(),
            1 => self.pending(),
            _ => self.drain.as_ref().map(|d| &d.ep),
        }
    }

    /// Every epoch held.
    pub(crate) fn epochs(&self) -> impl Iterator<Item = &Ep> {
        (0..3).filter_map(|s| self.slot(s))
    }

    /// Every ladder that stands in the state.
    pub(crate) fn ladders(&self) -> Vec<&Lad> {
        let mut all: Vec<&Lad> = Vec::new();
        for ep in self.epochs() {
            all.extend(ep.fin.as_ref().map(|f| &f.ladder));
            all.extend(&ep.elicit);
        }
        match &self.cycle {
            Cycle::Init(a) => all.push(&a.ladder),
            Cycle::PendI(p) => {
                all.extend(p.fin.as_ref().map(|f| &f.ladder));
                all.extend(&p.probes);
            }
            Cycle::Idle | Cycle::PendR(_) => {}
        }
        all
    }
}

impl State {
    /// The same, to be changed.
    pub(crate) fn ladders_mut(&mut self) -> Vec<&mut Lad> {
        fn of<'a>(e: &'a mut Ep, all: &mut Vec<&'a mut Lad>) {
            all.extend(e.fin.as_mut().map(|f| &mut f.ladder));
            all.extend(e.elicit.as_mut());
        }
        let mut all = Vec::new();
        if let Some(e) = &mut self.cur {
            of(e, &mut all);
        }
        if let Some(d) = &mut self.drain {
            of(&mut d.ep, &mut all);
        }
        match &mut self.cycle {
            Cycle::Idle => {}
            Cycle::Init(a) => all.push(&mut a.ladder),
            Cycle::PendI(p) => {
                of(&mut p.ep, &mut all);
                all.extend(p.fin.as_mut().map(|f| &mut f.ladder));
                all.extend(p.probes.as_mut());
            }
            Cycle::PendR(p) => of(&mut p.ep, &mut all),
        }
        all
    }
}

// ---- reading ----

/// The record behind `+`, or none for `-`.
fn opt<T>(f: &mut Fields<'_>, read: impl FnOnce(&mut Fields<'_>) -> T) -> Option<T> {
    match f.word() {
        "+" => Some(read(f)),
        "-" => None,
        w => f.bad(&format!("{w:?} is neither + nor -")),
    }
}

fn expect(f: &mut Fields<'_>, word: &str) {
    if f.word() != word {
        f.bad(&format!("{word:?} is missing"));
    }
}

/// An enum of `n` cases.
fn case(f: &mut Fields<'_>, n: u8) -> u8 {
    let v = f.num();
    if v >= n {
        f.bad(&format!("{v} is no such case"));
    }
    v
}

impl Lad {
    fn read(f: &mut Fields<'_>) -> Self {
        let (origin, next, len, keepalive) = (f.num(), f.num(), f.num::<u64>(), f.num());
        Self { origin, next, keepalive, at: (0..len).map(|_| f.num()).collect() }
    }
}

impl Fin {
    fn read(f: &mut Fields<'_>) -> Self {
        Self { msg: f.num(), ladder: Lad::read(f) }
    }
}

impl Ep {
    fn read(f: &mut Fields<'_>) -> Self {
        Self {
            tag: f.num(),
            session: f.num(),
            sent: f.num(),
            lease: f.opt(),
            theirs: f.opt(),
            transport: f.num(),
            k: f.flag(),
            role: case(f, 2),
            base: f.opt(),
            started: f.num(),
            route: f.opt(),
            ext: f.num(),
            recv: case(f, 2),
            floor: f.opt(),
            heard: f.opt(),
            moved: f.opt(),
            assumed: f.flag(),
            fin: opt(f, Fin::read),
            elicit: opt(f, Lad::read),
            prompted: f.opt(),
        }
    }
}

impl State {
    /// What stands behind the word `state`.
    pub(crate) fn read(f: &mut Fields<'_>) -> Self {
        expect(f, "mem");
        let mem = Mem {
            peer_epoch: f.opt(),
            peer_k: f.opt(),
            jitter: f.num(),
            damp: f.opt(),
            backoff: f.opt(),
            abandons: f.num(),
            last_rx: f.opt(),
            rx_cur: f.opt(),
            sent_data: f.flag(),
            silence: f.num(),
            link_since: f.num(),
            last_cutover: f.opt(),
            hs_rtt: f.opt(),
            srtt: f.opt(),
            setup_rto: f.opt(),
            reachable: f.flag(),
            due: f.flag(),
        };
        expect(f, "cur");
        let cur = opt(f, Ep::read);
        expect(f, "drain");
        let drain = opt(f, |f| Drain { ep: Ep::read(f), deadline: f.num(), evidenced: f.flag() });
        expect(f, "cycle");
        let cycle = match f.word() {
            "idle" => Cycle::Idle,
            "init" => Cycle::Init(Init {
                hs: f.num(),
                out: f.num(),
                lease: f.opt(),
                transport: f.num(),
                first: f.num(),
                ladder: Lad::read(f),
                deadline: f.num(),
                resent: f.flag(),
            }),
            "pendi" => Cycle::PendI(PendI {
                ep: Ep::read(f),
                wait: case(f, 3),
                deadline: f.num(),
                restart: f.flag(),
                fin: opt(f, Fin::read),
                probes: opt(f, Lad::read),
                probed: f.opt(),
                stayed: f.flag(),
                reverted: f.flag(),
            }),
            "pendr" => Cycle::PendR(PendR {
                ep: Ep::read(f),
                deadline: f.num(),
                restart: f.flag(),
                answer: f.opt(),
            }),
            w => f.bad(&format!("{w:?} is no cycle")),
        };
        expect(f, "cands");
        let (next, count) = (f.num(), f.num::<u64>());
        let cands = (0..count)
            .map(|_| Cand {
                hs: f.num(),
                msg1: f.num(),
                ack: f.num(),
                carrier: f.num(),
                route: f.num(),
                born: f.num(),
                deadline: f.num(),
                bound: f.opt(),
                seq: f.num(),
            })
            .collect();
        f.end();
        Self { mem, cur, drain, cycle, next, cands }
    }
}

// ---- writing: each field behind a space ----

fn num(s: &mut String, n: impl Into<i128>) {
    _ = write!(s, " {}", n.into());
}

fn flag(s: &mut String, b: bool) {
    num(s, u8::from(b));
}

fn put<T>(s: &mut String, v: &Option<T>, write: impl FnOnce(&T, &mut String)) {
    match v {
        Some(v) => {
            s.push_str(" +");
            write(v, s);
        }
        None => s.push_str(" -"),
    }
}

impl Lad {
    fn write(&self, s: &mut String) {
        num(s, self.origin);
        num(s, self.next);
        num(s, self.at.len() as u64);
        num(s, self.keepalive);
        for at in &self.at {
            num(s, *at);
        }
    }
}

impl Fin {
    fn write(&self, s: &mut String) {
        num(s, self.msg);
        self.ladder.write(s);
    }
}

impl Ep {
    fn write(&self, s: &mut String) {
        num(s, self.tag);
        num(s, self.session);
        num(s, self.sent);
        put_opt(s, self.lease);
        put_opt(s, self.theirs);
        num(s, self.transport);
        flag(s, self.k);
        num(s, self.role);
        put_opt(s, self.base);
        num(s, self.started);
        put_opt(s, self.route);
        num(s, self.ext);
        num(s, self.recv);
        put_opt(s, self.floor);
        put_opt(s, self.heard);
        put_opt(s, self.moved);
        flag(s, self.assumed);
        put(s, &self.fin, Fin::write);
        put(s, &self.elicit, Lad::write);
        put_opt(s, self.prompted);
    }
}

impl State {
    /// The line without `state ` in front and a newline behind.
    pub(crate) fn write(&self, s: &mut String) {
        let m = &self.mem;
        s.push_str("mem");
        put_opt(s, m.peer_epoch);
        put_opt(s, m.peer_k);
        num(s, m.jitter);
        put_opt(s, m.damp);
        put_opt(s, m.backoff);
        num(s, m.abandons);
        put_opt(s, m.last_rx);
        put_opt(s, m.rx_cur);
        flag(s, m.sent_data);
        num(s, m.silence);
        num(s, m.link_since);
        put_opt(s, m.last_cutover);
        put_opt(s, m.hs_rtt);
        put_opt(s, m.srtt);
        put_opt(s, m.setup_rto);
        flag(s, m.reachable);
        flag(s, m.due);
        s.push_str(" cur");
        put(s, &self.cur, Ep::write);
        s.push_str(" drain");
        put(s, &self.drain, |d, s| {
            d.ep.write(s);
            num(s, d.deadline);
            flag(s, d.evidenced);
        });
        s.push_str(" cycle");
        match &self.cycle {
            Cycle::Idle => s.push_str(" idle"),
            Cycle::Init(a) => {
                s.push_str(" init");
                num(s, a.hs);
                num(s, a.out);
                put_opt(s, a.lease);
                num(s, a.transport);
                num(s, a.first);
                a.ladder.write(s);
                num(s, a.deadline);
                flag(s, a.resent);
            }
            Cycle::PendI(p) => {
                s.push_str(" pendi");
                p.ep.write(s);
                num(s, p.wait);
                num(s, p.deadline);
                flag(s, p.restart);
                put(s, &p.fin, Fin::write);
                put(s, &p.probes, Lad::write);
                put_opt(s, p.probed);
                flag(s, p.stayed);
                flag(s, p.reverted);
            }
            Cycle::PendR(p) => {
                s.push_str(" pendr");
                p.ep.write(s);
                num(s, p.deadline);
                flag(s, p.restart);
                put_opt(s, p.answer);
            }
        }
        s.push_str(" cands");
        num(s, self.next);
        num(s, self.cands.len() as u64);
        for c in &self.cands {
            for n in [c.hs, c.msg1, c.ack, c.carrier, c.route, c.born, c.deadline] {
                num(s, n);
            }
            put_opt(s, c.bound);
            num(s, c.seq);
        }
    }
}
