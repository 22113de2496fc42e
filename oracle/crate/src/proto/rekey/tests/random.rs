//! Random blocks of the replay format, without answers, close to the edges:
//! deadlines at now and next to it, equal instants, instants near the end of
//! the range, ladders partly or wholly taken and not ascending.
use super::super::ladder::{MAX_RUNGS, Schedule};
use super::super::machine::oracle::Proof;
use super::super::params::Params;
use super::play::{Call, Flags, Notice, leaves_behind, refusal, wake_of};
use super::settings::{self, Cfg, edge, near, pick};
use super::state::{Cand, Cycle, Drain, Ep, Fin, Init, Lad, Mem, PendI, PendR, State};
use crate::testutil::SplitMix64;
use std::fmt::Write as _;

/// What one block is drawn from.
struct Gen {
    g: SplitMix64,
    cfg: Cfg,
    params: Params,
    profile: Flags,
    now: u64,
    /// Instants that many fields share, so that ties are common.
    pool: Vec<u64>,
    /// Spans that the machine adds to instants.
    spans: Vec<u64>,
}

/// `a` less `b`, 0 if `b` is more.
fn back(a: u64, b: u64) -> u64 {
    a.saturating_sub(b)
}

fn millis(d: crate::time::Duration) -> u64 {
    super::super::ladder::millis(d)
}

/// The least tag above 0 that no epoch has.
fn free_tag(s: &State) -> u64 {
    (1..).find(|t| s.epochs().all(|e| e.tag != *t)).expect("some tag is free")
}

impl Gen {
    fn new(seed: u64, block: u64) -> Self {
        let mut g = SplitMix64::new(SplitMix64::mix(seed, &[block]));
        let cfg = settings::accepted(&mut g);
        let params = Params::new(cfg.config()).expect("accepted settings");
        let profile = Flags {
            messages: 2 + g.below(2),
            at_proof: g.chance(500),
            silence: g.chance(500),
            smaller: g.chance(500),
            floor: match g.below(3) {
                0 => pick(&mut g, &[0, 1, 2, 16, 63, 64]),
                _ => g.below(65),
            },
        };
        let mut spans = vec![
            cfg.after,
            cfg.after.saturating_add(1000 * u64::from(cfg.jitter)),
            back(cfg.after, 1000 * u64::from(cfg.jitter)),
            cfg.handshake,
            cfg.check,
            cfg.drain,
            cfg.retention,
            cfg.hold,
            cfg.revert,
            cfg.dampening,
            cfg.ttl,
            cfg.young,
            cfg.floor_link,
            cfg.floor_session,
            cfg.floor_cutover,
            cfg.silence,
            cfg.silence.saturating_mul(2),
            cfg.silence.saturating_mul(u64::from(u32::MAX)).min(cfg.after),
            cfg.delay,
            millis(params.confirm),
            millis(params.span),
            millis(params.grace),
            millis(params.budget),
            1000,
            1000,
            2000,
        ];
        spans.dedup();
        let now = match g.below(12) {
            0 | 1 => u64::MAX - g.below(3),
            2 => u64::MAX - g.below(2000),
            3 => u64::MAX - g.below(200_000),
            4 => u64::MAX - pick(&mut g, &spans),
            5 => {
                let span = pick(&mut g, &spans);
                near(&mut g, u64::MAX - span)
            }
            6 => g.below(5),
            7 => 1000 + g.below(10_000),
            8 => edge(&mut g),
            _ => 1_000_000 + g.below(1_000_000_000),
        };
        let mut pool = vec![now, now, now, back(now, 1), now.saturating_add(1), back(now, 1000)];
        for _ in 0..g.below(4) {
            let span = pick(&mut g, &spans);
            pool.push(back(now, span));
        }
        Self { g, cfg, params, profile, now, pool, spans }
    }

    fn chance(&mut self, per_mille: u64) -> bool {
        self.g.chance(per_mille)
    }

    fn small(&mut self) -> u64 {
        self.g.below(1000)
    }

    /// A number of the caller: mostly short, sometimes at an end of its range.
    fn name(&mut self) -> u64 {
        if self.chance(30) { edge(&mut self.g) } else { self.small() }
    }

    fn opt<T>(&mut self, per_mille: u64, some: impl FnOnce(&mut Self) -> T) -> Option<T> {
        self.chance(per_mille).then(|| some(self))
    }

    fn instant(&mut self) -> u64 {
        match self.g.below(12) {
            0..=4 => pick(&mut self.g, &self.pool),
            5 | 6 => {
                let t = pick(&mut self.g, &self.pool);
                near(&mut self.g, t)
            }
            7 => {
                let t = back(self.now, pick(&mut self.g, &self.spans));
                near(&mut self.g, t)
            }
            8 => self.now.wrapping_add(pick(&mut self.g, &self.spans)),
            9 => pick(&mut self.g, &[0, 1, u64::MAX, u64::MAX - 1]),
            10 => back(self.now, self.g.below(200_000)),
            _ => edge(&mut self.g),
        }
    }

    /// An instant `span` before now, or next to it.
    fn before(&mut self, span: u64) -> u64 {
        near(&mut self.g, self.now.wrapping_sub(span))
    }

    fn round_trip(&mut self) -> u64 {
        match self.g.below(4) {
            0 => pick(&mut self.g, &[0, 1, 499, 500, 501, 1000, 5000, u64::MAX]),
            1 => {
                let half = millis(self.params.grace) / 2;
                near(&mut self.g, half)
            }
            2 => self.g.below(10_000),
            _ => edge(&mut self.g),
        }
    }

    fn memory(&mut self) -> Mem {
        let j = i32::from(self.cfg.jitter);
        Mem {
            peer_epoch: self.opt(700, |s| s.g.next_u64()),
            peer_k: self.opt(600, |s| s.g.below(2) as u8),
            jitter: match self.g.below(6) {
                0 => 0,
                1 => -j,
                2 => j,
                3 => self.g.next_u64() as i32,
                4 => pick(&mut self.g, &[i32::MIN, i32::MAX, -1, 1, -200, 15]),
                _ => -j + self.g.below(2 * j as u64 + 1) as i32,
            },
            damp: self.opt(300, Self::instant),
            backoff: self.opt(300, Self::instant),
            abandons: match self.g.below(3) {
                0 => pick(&mut self.g, &[30, 31, 32, 33, 254, 255]),
                1 => 0,
                _ => self.g.below(10) as u8,
            },
            last_rx: self.opt(600, Self::instant),
            rx_cur: self.opt(600, Self::instant),
            sent_data: self.chance(500),
            silence: match self.g.below(3) {
                0 => pick(&mut self.g, &[31, 32, 33, 254, 255]),
                _ => self.g.below(5) as u8,
            },
            link_since: self.instant(),
            last_cutover: self.opt(500, Self::instant),
            hs_rtt: self.opt(500, Self::round_trip),
            srtt: self.opt(400, Self::round_trip),
            setup_rto: self.opt(300, Self::round_trip),
            reachable: self.chance(850),
            due: self.chance(300),
        }
    }

    fn ladder(&mut self) -> Lad {
        let p = &self.params;
        let of = |s: &Schedule| (s.offsets().collect::<Vec<_>>(), u64::from(s.map()));
        let (at, keepalive) = match self.g.below(12) {
            0 => of(&p.first),
            1 => of(&p.fin),
            2 => of(&p.probes),
            3 => of(&p.revert),
            4 => of(&p.elicit),
            5 => of(&p.delayed),
            6 => (Vec::new(), 0),
            n => {
                let most = MAX_RUNGS as u64;
                let len = if self.chance(250) { most } else { self.g.below(most + 1) };
                let mut at: Vec<u64> = (0..len)
                    .map(|i| match self.g.below(5) {
                        0 => self.g.below(4),
                        1 => 1000 * (i + 1),
                        2 => self.g.below(20_000),
                        3 => near(&mut self.g, 1000),
                        _ => edge(&mut self.g),
                    })
                    .collect();
                if n < 10 {
                    at.sort_unstable();
                }
                let all = (1u64 << len) - 1;
                let map = match self.g.below(4) {
                    0 => 0,
                    1 => all,
                    _ => self.g.next_u64() & all,
                };
                (at, map)
            }
        };
        let len = at.len() as u64;
        let next = match self.g.below(5) {
            0 => len,
            1 | 2 => 0,
            _ => self.g.below(len + 1),
        };
        // The origin puts a rung, mostly the next one, at or next to now.
        let origin = if at.is_empty() || self.chance(250) {
            self.instant()
        } else {
            let i = if next < len && self.chance(700) { next } else { self.g.below(len) };
            let t = self.now.checked_sub(at[i as usize]);
            match t {
                Some(t) => near(&mut self.g, t),
                None => self.instant(),
            }
        };
        Lad { origin, next, keepalive, at }
    }

    fn fin(&mut self) -> Fin {
        Fin { msg: self.name(), ladder: self.ladder() }
    }

    fn sent(&mut self) -> u64 {
        match self.g.below(8) {
            0 => near(&mut self.g, self.cfg.messages),
            1 => near(&mut self.g, self.cfg.soft),
            2 => near(&mut self.g, self.cfg.hard),
            3 => edge(&mut self.g),
            _ => 0,
        }
    }

    fn epoch(&mut self, tag: u64) -> Ep {
        Ep {
            tag,
            session: self.name(),
            sent: self.sent(),
            lease: self.opt(700, |s| if s.chance(30) { u32::MAX } else { s.small() as u32 }),
            theirs: self.opt(600, |s| s.g.next_u64() as u32),
            transport: self.g.below(10),
            k: self.chance(500),
            role: self.g.below(2) as u8,
            base: self.opt(700, Self::instant),
            started: self.instant(),
            route: self.opt(400, Self::name),
            ext: self.g.below(3),
            recv: u8::from(self.chance(350)),
            floor: self.opt(400, |s| edge(&mut s.g)),
            heard: self.opt(400, Self::instant),
            moved: self.opt(400, Self::instant),
            assumed: self.chance(400),
            fin: self.opt(300, Self::fin),
            elicit: self.opt(450, Self::ladder),
            prompted: self.opt(600, |s| if s.chance(500) { s.before(1000) } else { s.instant() }),
        }
    }

    fn drained(&mut self, tag: u64) -> Drain {
        Drain { ep: self.epoch(tag), deadline: self.instant(), evidenced: self.chance(500) }
    }

    fn candidates(&mut self, started: Option<u64>) -> (u64, Vec<Cand>) {
        let count = match self.g.below(10) {
            0..=3 => 0,
            4 => 1,
            5 => 2 + self.g.below(3),
            6 => 31,
            7 => 32,
            _ => self.g.below(33),
        };
        let first = if self.chance(50) { u64::MAX - 31 } else { self.g.below(100) };
        let mut seqs: Vec<u64> = (first..first.saturating_add(count)).collect();
        if count > 0 && first == u64::MAX - 31 {
            seqs = (0..count).map(|i| first + i).collect();
        }
        if self.chance(500) {
            for i in (1..seqs.len()).rev() {
                seqs.swap(i, self.g.below(i as u64 + 1) as usize);
            }
        }
        let list = seqs
            .into_iter()
            .map(|seq| Cand {
                hs: self.name(),
                msg1: self.name(),
                ack: self.name(),
                carrier: self.g.below(4),
                route: self.g.below(10),
                born: match started {
                    Some(t) if self.chance(500) => near(&mut self.g, t),
                    _ => self.instant(),
                },
                deadline: self.instant(),
                bound: self.opt(250, |s| edge(&mut s.g)),
                seq,
            })
            .collect();
        let next = if self.chance(50) { edge(&mut self.g) } else { first.wrapping_add(count) };
        (next, list)
    }

    fn attempt(&mut self) -> Init {
        Init {
            hs: self.name(),
            out: self.name(),
            lease: self.opt(600, |s| s.small() as u32),
            transport: self.g.below(10),
            first: self.instant(),
            ladder: self.ladder(),
            deadline: self.instant(),
            resent: self.chance(500),
        }
    }

    /// The grace of a machine with this memory.
    fn grace(&self, mem: &Mem) -> u64 {
        let rtt = mem.hs_rtt.unwrap_or(0).max(mem.srtt.unwrap_or(0));
        rtt.saturating_mul(2).max(1000).min(millis(self.params.grace))
    }

    /// A state that the tests 3 to 6 pass.
    fn state(&mut self) -> State {
        let mut tags: Vec<u64> = vec![1, 2, 3, 4, 5, 6, 7];
        if self.chance(50) {
            tags = vec![u64::MAX, 0, 5, 6, u64::MAX - 1, 1, 2];
        }
        for i in (1..tags.len()).rev() {
            tags.swap(i, self.g.below(i as u64 + 1) as usize);
        }
        let mem = self.memory();
        let cur = self.opt(880, |s| s.epoch(tags[0]));
        let drain = cur.as_ref().and_then(|_| self.opt(550, |s| s.drained(tags[1])));
        let grace = self.grace(&mem);
        let cycle =
            match self.g.below(10) {
                0..=2 => Cycle::Idle,
                3 | 4 => Cycle::Init(self.attempt()),
                5..=7 if cur.is_some() => Cycle::PendI(PendI {
                    ep: self.epoch(tags[2]),
                    wait: pick(&mut self.g, &[0, 1, 1, 1, 2, 2]),
                    deadline: match self.g.below(4) {
                        0 => near(&mut self.g, self.now.wrapping_add(grace)),
                        _ => self.instant(),
                    },
                    restart: self.chance(300),
                    fin: self.opt(600, Self::fin),
                    probes: self.opt(600, Self::ladder),
                    probed: self
                        .opt(700, |s| if s.chance(500) { s.before(grace) } else { s.instant() }),
                    stayed: self.chance(300),
                    reverted: self.chance(300),
                }),
                8 | 9 if cur.is_some() => Cycle::PendR(PendR {
                    ep: self.epoch(tags[2]),
                    deadline: self.instant(),
                    restart: self.chance(300),
                    answer: self.opt(600, Self::name),
                }),
                n if n % 2 == 0 => Cycle::Idle,
                _ => Cycle::Init(self.attempt()),
            };
        let (next, cands) = self.candidates(cur.as_ref().map(|c| c.started));
        let mut s = State { mem, cur, drain, cycle, next, cands };
        match self.g.below(10) {
            0..=2 => self.toward_start(&mut s),
            3 | 4 => self.toward_revert(&mut s),
            5 => self.toward_passes(&mut s),
            6 => self.toward_blind(&mut s),
            _ => {}
        }
        if s.cur.is_none() && self.chance(500) {
            self.toward_hold_back(&mut s);
        }
        s
    }

    /// Close to a resend held back: an opening with candidates, whose rung
    /// lies at the edge of a young attempt.
    fn toward_hold_back(&mut self, s: &mut State) {
        let Cycle::Init(a) = &mut s.cycle else {
            return;
        };
        self.profile.smaller = self.g.chance(200);
        let at = near(&mut self.g, self.cfg.young);
        a.ladder.at = vec![self.g.below(10), at, at];
        a.ladder.keepalive = self.g.below(8);
        a.ladder.next = self.g.below(3);
        a.ladder.origin = back(self.now, at);
        if self.chance(800) {
            a.deadline = near(&mut self.g, self.now.saturating_add(1));
        }
    }

    /// Close to a start: idle, reachable, each condition at its edge.
    fn toward_start(&mut self, s: &mut State) {
        let Some(cur) = s.cur.as_mut() else {
            // The opening's own edge: nothing held.
            if self.chance(400) {
                s.cycle = Cycle::Idle;
                if self.chance(500) {
                    s.cands.clear();
                }
            }
            return;
        };
        s.cycle = Cycle::Idle;
        s.mem.reachable = true;
        if self.chance(850) {
            cur.fin = None;
        }
        cur.sent = self.sent();
        let trigger = {
            let after = i128::from(self.cfg.after) + i128::from(s.mem.jitter) * 1000;
            u64::try_from(after.max(0)).unwrap_or(u64::MAX)
        };
        let steps = 1u32.checked_shl(s.mem.silence.into()).unwrap_or(u32::MAX);
        let silence = self.cfg.silence.saturating_mul(steps.into()).min(self.cfg.after);
        cur.started = match self.g.below(4) {
            0 => self.before(trigger),
            1 => self.before(self.cfg.floor_session),
            2 => self.before(silence),
            _ => cur.started,
        };
        s.mem.link_since = match self.g.below(3) {
            0 => self.before(self.cfg.floor_link),
            1 => back(self.now, self.cfg.floor_link),
            _ => 0,
        };
        s.mem.last_cutover = match self.g.below(3) {
            0 => Some(self.before(self.cfg.floor_cutover)),
            1 => None,
            _ => Some(0),
        };
        s.mem.rx_cur = match self.g.below(3) {
            0 => Some(self.before(silence)),
            1 => None,
            _ => Some(cur.started),
        };
        s.mem.damp = self.opt(300, |s| near(&mut s.g, s.now));
        s.mem.backoff = self.opt(400, |s| near(&mut s.g, s.now));
        s.mem.sent_data = self.chance(700);
    }

    /// Close to a revert: an assumed current epoch, not heard, over a drain.
    fn toward_revert(&mut self, s: &mut State) {
        let free = free_tag(s);
        let Some(cur) = s.cur.as_mut() else {
            return;
        };
        cur.assumed = true;
        if self.chance(850) {
            cur.heard = None;
        }
        if s.drain.is_none() {
            s.drain = Some(self.drained(free));
        }
        let grace = self.grace(&s.mem);
        if let Cycle::PendI(p) = &mut s.cycle {
            p.wait = pick(&mut self.g, &[0, 1, 1, 1, 1, 2]);
            p.stayed = false;
            p.probed = Some(self.before(grace));
        }
    }

    /// Close to a second pass: a delay that ends while its final message is
    /// due, a cutover whose deadlines lie past the range.
    fn toward_passes(&mut self, s: &mut State) {
        if let Cycle::PendI(p) = &mut s.cycle {
            p.deadline = back(self.now, self.g.below(3));
            if self.chance(600) {
                p.wait = 2;
                p.fin = Some(Fin { msg: self.g.below(1000), ladder: self.ladder() });
            }
        }
    }

    /// Close to the answers to probes and old frames: a responder's current
    /// epoch that was not seen to move.
    fn toward_blind(&mut self, s: &mut State) {
        let span = millis(self.params.span);
        let Some(cur) = s.cur.as_mut() else {
            return;
        };
        cur.role = 1;
        cur.moved = None;
        if self.chance(700) {
            cur.assumed = false;
        }
        if self.chance(500) {
            cur.started = self.before(span);
        }
        self.profile.at_proof = true;
    }

    // ---- calls ----

    fn spread(&mut self) -> i64 {
        let j = i64::from(self.cfg.jitter);
        match self.g.below(4) {
            0 => -j,
            1 => j,
            2 => 0,
            _ => -j + self.g.below(2 * j as u64 + 1) as i64,
        }
    }

    fn extra(&mut self) -> i64 {
        let j = u64::from(self.cfg.jitter);
        (match self.g.below(3) {
            0 => 0,
            1 => j,
            _ => self.g.below(j + 1),
        }) as i64
    }

    /// The instant of a call: mostly now, or next to it.
    fn when(&mut self) -> u64 {
        match self.g.below(8) {
            0..=4 => self.now,
            5 => near(&mut self.g, self.now),
            6 => self.now.saturating_add(pick(&mut self.g, &self.spans)),
            _ => self.instant(),
        }
    }

    fn poll(&mut self, now: u64) -> Call {
        Call::Poll { now, workers: self.chance(400), spread: self.spread(), extra: self.extra() }
    }

    fn bytes(&mut self, len: u64) -> Vec<u8> {
        (0..len).map(|_| self.g.next_u64() as u8).collect()
    }

    /// A frame for one of the epochs held, or for the current slot.
    fn frame(&mut self, s: &State, now: u64) -> Call {
        let held: Vec<u8> = (0..3).filter(|&i| s.slot(i).is_some()).collect();
        let slot = if held.is_empty() { 0 } else { pick(&mut self.g, &held) };
        let tag = s.slot(slot).map_or(1, |e| e.tag);
        let floor = self.profile.floor;
        let len = match self.g.below(5) {
            0 | 1 => near(&mut self.g, floor),
            2 => self.g.below(80),
            3 => floor,
            _ => pick(&mut self.g, &[0, 1, 64, 65, u64::MAX, u64::MAX - 1, 1 << 63]),
        };
        let short = len.min(200);
        let body = match self.g.below(5) {
            0 | 1 => 0,
            2 => self.g.below(20),
            3 => pick(&mut self.g, &[4, 12, 16]),
            _ => pick(&mut self.g, &[u64::MAX, u64::MAX - 1, u64::MAX - short, 1 << 63]),
        };
        let end = body.min(100) + short;
        let target = match self.g.below(5) {
            0..=2 => near(&mut self.g, end).min(300),
            3 => end,
            _ => pick(&mut self.g, &[0, 1, body.min(100), short, end + 8]),
        };
        let source = match self.g.below(4) {
            0 | 1 => short,
            2 => near(&mut self.g, short).min(300),
            _ => pick(&mut self.g, &[0, 1, short + 5, 64]),
        };
        Call::Frame {
            now,
            proof: Proof {
                slot,
                tag,
                counter: if self.chance(300) { edge(&mut self.g) } else { self.small() },
                k: self.chance(500),
                len,
                probe: self.chance(500),
                body,
            },
            workers: self.chance(400),
            spread: self.spread(),
            target: self.bytes(target),
            source: self.bytes(source),
        }
    }

    fn reply(&mut self, now: u64) -> Call {
        Call::Reply {
            now,
            opened: self.chance(800),
            hs: self.name(),
            msg: self.name(),
            transport: self.g.below(10),
            lease: self.opt(500, |s| s.small() as u32),
        }
    }

    fn told(&mut self, s: &State, now: u64) -> Call {
        let held = s.cur.as_ref().map_or(0, |c| c.sent);
        let count = match self.g.below(16) {
            0..=2 => held,
            3..=5 => held.saturating_add(1),
            6..=9 => near(&mut self.g, self.cfg.messages),
            10..=12 => near(&mut self.g, self.cfg.soft),
            13 => near(&mut self.g, self.cfg.hard),
            14 => edge(&mut self.g),
            _ => self.cfg.hard - 1,
        };
        // Mostly accepted.
        let count = if self.chance(900) { count.max(held) } else { count };
        Call::Sent { now, count }
    }

    /// Any call but `open`.
    fn call(&mut self, s: &State, now: u64) -> Call {
        match self.g.below(20) {
            0..=7 => self.poll(now),
            8..=13 => self.frame(s, now),
            14 | 15 => self.reply(now),
            16 => self.told(s, now),
            17 | 18 => Call::Wake,
            _ => Call::Status { now },
        }
    }

    fn open(&mut self) -> Call {
        Call::Open {
            now: self.now,
            role: self.g.below(2) as u8,
            transport: if self.chance(50) { edge(&mut self.g) } else { self.g.below(10) },
            lease: self.opt(700, |s| if s.chance(50) { u32::MAX } else { s.small() as u32 }),
            workers: self.chance(500),
            spread: self.spread(),
        }
    }

    // ---- notices ----

    /// A state, more often than elsewhere one in which a frame under the
    /// drained epoch reverts or prompts.
    fn state_with_drain(&mut self) -> State {
        let mut s = self.state();
        match self.g.below(8) {
            0 | 1 => self.toward_revert(&mut s),
            2 => {
                self.toward_revert(&mut s);
                self.toward_blind(&mut s);
            }
            _ => {}
        }
        s
    }

    /// The instants at which a worker's notice begins or ceases to do
    /// something.
    fn edges(&self, s: &State) -> Vec<u64> {
        let mut all = Vec::new();
        if let Some(c) = &s.cur {
            all.push(c.started.saturating_add(millis(self.params.span)));
            all.extend(c.prompted.map(|t| t.saturating_add(1000)));
        }
        if let Some(d) = &s.drain {
            all.push(d.deadline);
            all.push(back(d.deadline, self.cfg.drain));
        }
        if let Cycle::PendI(p) = &s.cycle {
            let grace = self.grace(&s.mem);
            all.push(p.deadline);
            all.extend(p.probed.map(|t| t.saturating_add(grace)));
        }
        all
    }

    /// `now`, or at times an instant at one of the edges or next to it.
    fn at_edge(&mut self, s: &State, per_mille: u64, now: u64) -> u64 {
        let edges = self.edges(s);
        if edges.is_empty() || !self.chance(per_mille) {
            return now;
        }
        let t = pick(&mut self.g, &edges);
        near(&mut self.g, t)
    }

    /// The tag of an epoch that is held, the drained one more often than the
    /// others, or at times one that is held nowhere.
    fn tag(&mut self, s: &State) -> u64 {
        let held: Vec<u64> = s.epochs().chain(s.slot(2)).map(|e| e.tag).collect();
        if !held.is_empty() && self.chance(880) {
            return pick(&mut self.g, &held);
        }
        let tag = match (self.g.below(3), held.first()) {
            (0, Some(&t)) => near(&mut self.g, t),
            (1, _) => edge(&mut self.g),
            _ => self.g.below(9),
        };
        let other = (0..).find(|t| !held.contains(t)).expect("some tag is free");
        if held.contains(&tag) { other } else { tag }
    }

    /// A frame's counter: often at the epoch's floor or next to it, where it
    /// has one.
    fn counter(&mut self, floor: Option<u64>) -> u64 {
        match (self.g.below(6), floor) {
            (0..=2, Some(floor)) => near(&mut self.g, floor),
            (3, _) => pick(&mut self.g, &[0, u64::MAX]),
            (4, _) => edge(&mut self.g),
            _ => self.small(),
        }
    }

    /// A notice; `kind` is its place in the list of them, from 0.
    fn notice(&mut self, s: &State, now: u64, kind: u64) -> Call {
        let tag = self.tag(s);
        let what = match kind {
            0 => {
                let floor = s.epochs().find(|e| e.tag == tag).and_then(|e| e.floor);
                Notice::Worker { tag, k: self.chance(500), counter: self.counter(floor) }
            }
            1 => Notice::Delegated { tag },
            2 => Notice::Undelegated { tag },
            3 => Notice::DataSent,
            _ => {
                Notice::Path { reachable: self.chance(700), srtt: self.opt(700, Self::round_trip) }
            }
        };
        Call::Notice { now, workers: self.chance(400), spread: self.spread(), what }
    }

    /// A kind of notice: a worker's as often as two others.
    fn some_kind(&mut self) -> u64 {
        pick(&mut self.g, &[0, 0, 1, 2, 3, 4])
    }

    // ---- quiet time ----

    /// A span of 2 or more.
    fn gap(&mut self) -> u64 {
        let span = match self.g.below(4) {
            0 => self.g.below(10),
            1 => self.g.below(200_000),
            2 => pick(&mut self.g, &self.spans),
            _ => edge(&mut self.g),
        };
        span.max(2)
    }

    /// An instant before `t`, one before it, at it, one after it or after it.
    fn about(&mut self, t: u64) -> u64 {
        let gap = self.gap();
        match self.g.below(5) {
            0 => back(t, gap),
            1 => back(t, 1),
            2 => t,
            3 => t.saturating_add(1),
            _ => t.saturating_add(gap),
        }
    }

    /// A state with `rx_cur` about the current start, or about now where no epoch is
    /// current, and `last_rx` about `rx_cur`.
    fn state_for_quiet(&mut self) -> State {
        let mut s = self.state();
        let started = s.cur.as_ref().map_or(self.now, |c| c.started);
        s.mem.rx_cur = self.opt(800, |g| g.about(started));
        let heard = s.mem.rx_cur.unwrap_or(started);
        s.mem.last_rx = self.opt(800, |g| g.about(heard));
        if self.chance(250) {
            self.toward_drain_alone(&mut s);
        }
        s
    }

    /// A link that is heard only on its drain.
    fn toward_drain_alone(&mut self, s: &mut State) {
        let Some(cur) = &s.cur else {
            return;
        };
        let latest = s.mem.rx_cur.map_or(cur.started, |t| t.max(cur.started));
        s.mem.last_rx = Some(latest.saturating_add(self.gap()));
        if s.drain.is_none() {
            s.drain = Some(self.drained(free_tag(s)));
        }
    }

    /// The edges of a state's quiet time, each once: both ends of the range, and
    /// before, between, after, at and next to the current start and `rx_cur`; then,
    /// up to ten, any instants.
    fn quiet_edges(&mut self, s: &State) -> Vec<u64> {
        let started = s.cur.as_ref().map_or(self.now, |c| c.started);
        let heard = s.mem.rx_cur.unwrap_or(started);
        let (first, second) = (started.min(heard), started.max(heard));
        let gap = self.gap();
        let mut all = vec![0, back(first, gap), back(first, 1), first, first.saturating_add(1)];
        all.push(first + (second - first) / 2);
        all.extend([back(second, 1), second, second.saturating_add(1)]);
        all.extend([second.saturating_add(gap), u64::MAX]);
        all.extend(s.mem.last_rx);
        all.sort_unstable();
        all.dedup();
        while all.len() < 10 {
            all.push(self.instant());
        }
        all
    }

    // ---- breaking ----

    fn break_profile(&mut self) {
        match self.g.below(3) {
            0 => self.profile.messages = pick(&mut self.g, &[0, 1, 4, 255]),
            1 => self.profile.floor = pick(&mut self.g, &[65, 66, 255, u64::MAX]),
            _ => {
                self.profile.messages = pick(&mut self.g, &[0, 1, 4, 255]);
                self.profile.floor = pick(&mut self.g, &[64, 65]);
            }
        }
    }

    fn break_draws(&mut self, call: &mut Call) {
        let j = i64::from(self.cfg.jitter);
        let outside = pick(&mut self.g, &[-j - 1, j + 1, -65_536, 65_536]);
        match call {
            Call::Open { spread, .. }
            | Call::Frame { spread, .. }
            | Call::Notice { spread, .. } => *spread = outside,
            Call::Poll { spread, extra, .. } => {
                if self.g.chance(500) {
                    *spread = outside;
                } else {
                    *extra = pick(&mut self.g, &[-1, j + 1, 65_536]);
                }
            }
            Call::Reply { .. } | Call::Sent { .. } | Call::Wake | Call::Status { .. } => {}
        }
    }

    /// A ladder with too many rungs, or past its last.
    fn break_ladder(&mut self, l: &mut Lad) {
        if self.chance(500) {
            let len = pick(&mut self.g, &[17, 17, 18, 20]);
            l.at = (0..len).map(|_| self.small()).collect();
            l.next = l.next.min(len);
            if self.chance(500) {
                l.next = 0;
            }
        } else {
            let len = l.at.len() as u64;
            l.next = pick(&mut self.g, &[len + 1, len + 1, 17, 255]).max(len + 1);
        }
    }

    fn break_state(&mut self, s: &mut State) {
        match self.g.below(8) {
            0 => {
                let count = pick(&mut self.g, &[33, 33, 34, 40]);
                let first = s.cands.iter().map(|c| c.seq).max().unwrap_or(0);
                while s.cands.len() < count {
                    let (hs, deadline) = (self.small(), self.instant());
                    let seq = first.wrapping_add(1 + s.cands.len() as u64);
                    s.cands.push(Cand {
                        hs,
                        msg1: 1,
                        ack: 2,
                        carrier: 3,
                        route: 4,
                        born: 5,
                        deadline,
                        bound: None,
                        seq,
                    });
                }
            }
            1 | 2 => s.cur = None,
            3 => {
                // A tag twice.
                let tags: Vec<u64> = s.epochs().map(|e| e.tag).collect();
                if tags.len() > 1 {
                    let tag = pick(&mut self.g, &tags);
                    let to = self.g.below(3);
                    match (to, &mut s.cycle) {
                        (0, _) => s.cur.iter_mut().for_each(|e| e.tag = tag),
                        (1, _) => s.drain.iter_mut().for_each(|d| d.ep.tag = tag),
                        (_, Cycle::PendI(p)) => p.ep.tag = tag,
                        (_, Cycle::PendR(p)) => p.ep.tag = tag,
                        (_, Cycle::Idle | Cycle::Init(_)) => {}
                    }
                }
            }
            4 => {
                // A sequence number twice.
                let n = s.cands.len() as u64;
                if n > 1 {
                    let from = s.cands[self.g.below(n) as usize].seq;
                    s.cands[self.g.below(n) as usize].seq = from;
                }
            }
            _ => self.break_some_ladder(s),
        }
    }

    /// Breaks one of the ladders that stand.
    fn break_some_ladder(&mut self, s: &mut State) {
        let mut all = s.ladders_mut();
        if !all.is_empty() {
            let i = self.g.below(all.len() as u64) as usize;
            self.break_ladder(all[i]);
        }
    }

    /// Name a slot that may hold no epoch, or another tag.
    fn break_frame(&mut self, call: &mut Call) {
        if let Call::Frame { proof, .. } = call {
            match self.g.below(3) {
                0 => proof.slot = self.g.below(3) as u8,
                1 => proof.tag = near(&mut self.g, proof.tag),
                _ => {
                    proof.slot = self.g.below(3) as u8;
                    proof.tag = self.g.below(8);
                }
            }
        }
    }

    // ---- blocks ----

    fn head(&self, word: &str, block: u64, s: Option<&State>, text: &mut String) {
        let p = &self.profile;
        _ = write!(text, "{word} {block}\ncfg");
        self.cfg.write(text);
        _ = writeln!(
            text,
            "\nprofile {} {} {} {} {}",
            p.messages,
            u8::from(p.at_proof),
            u8::from(p.silence),
            u8::from(p.smaller),
            p.floor
        );
        if let Some(s) = s {
            text.push_str("state ");
            s.write(text);
            text.push('\n');
        }
    }

    fn single(&mut self, block: u64, text: &mut String) {
        let s = self.state();
        self.head("vector", block, Some(&s), text);
        let mut calls = vec![self.poll(self.now)];
        for _ in 0..2 + self.g.below(4) {
            let now = self.when();
            calls.push(self.call(&s, now));
        }
        if self.chance(500) {
            calls.push(self.frame(&s, self.now));
        }
        if matches!(s.cycle, Cycle::Idle) && s.cur.is_some() {
            calls.push(self.reply(self.now));
        }
        calls.push(Call::Wake);
        for call in calls {
            call.write(text);
            text.push('\n');
        }
    }

    fn run(&mut self, block: u64, text: &mut String) {
        let mut s = self.state();
        self.head("run", block, Some(&s), text);
        let mut now = self.now;
        for _ in 0..2 + self.g.below(20) {
            now = self.next(&s, now);
            let call = self.next_call(&s, now);
            self.play(&mut s, &call, text);
        }
    }

    /// The instant of a run's next call.
    fn next(&mut self, s: &State, now: u64) -> u64 {
        match self.g.below(10) {
            0..=2 => now,
            3 => now.saturating_add(1),
            4 => now.saturating_add(pick(&mut self.g, &self.spans)),
            5 | 6 => match wake_of(&self.cfg, &self.profile, s) {
                Some(t) => near(&mut self.g, t),
                None => now,
            },
            7 => now.saturating_add(near(&mut self.g, 1000)),
            8 => now.saturating_add(self.g.below(5000)),
            _ => back(now, self.g.below(1500)),
        }
    }

    /// A run's next call, no notice.
    fn next_call(&mut self, s: &State, now: u64) -> Call {
        let reply = self.reply(now);
        let called_for = refusal(&self.cfg, &self.profile, Some(s), &reply).is_none();
        let mut call = match self.g.below(20) {
            _ if called_for && self.chance(400) => reply,
            0..=8 => self.poll(now),
            9..=14 => self.frame(s, now),
            15 => reply,
            16 | 17 => self.told(s, now),
            18 => Call::Wake,
            _ => Call::Status { now },
        };
        if self.chance(40) {
            self.break_draws(&mut call);
        }
        if self.chance(40) {
            self.break_frame(&mut call);
        }
        call
    }

    /// Writes a run's call and puts what it leaves in place of `s`.
    fn play(&self, s: &mut State, call: &Call, text: &mut String) {
        call.write(text);
        text.push('\n');
        if let Some(left) = leaves_behind(&self.cfg, &self.profile, s, call) {
            *s = left;
        }
    }

    /// A run of which about every third call is a notice.
    fn noticed(&mut self, block: u64, text: &mut String) {
        let mut s = self.state_with_drain();
        self.head("run", block, Some(&s), text);
        let mut now = self.now;
        for _ in 0..3 + self.g.below(20) {
            now = self.next(&s, now);
            let call = if self.chance(350) {
                let kind = self.some_kind();
                let at = self.at_edge(&s, 100, now);
                let mut call = self.notice(&s, at, kind);
                if self.chance(40) {
                    self.break_draws(&mut call);
                }
                call
            } else {
                self.next_call(&s, now)
            };
            self.play(&mut s, &call, text);
        }
    }

    /// Every notice, and some again.
    fn notices(&mut self, block: u64, text: &mut String) {
        let s = self.state_with_drain();
        self.head("vector", block, Some(&s), text);
        for i in 0..8 + self.g.below(5) {
            let kind = if i < 5 { i } else { self.some_kind() };
            let now = self.when();
            let now = self.at_edge(&s, 300, now);
            let mut call = self.notice(&s, now, kind);
            if self.chance(40) {
                self.break_draws(&mut call);
            }
            call.write(text);
            text.push('\n');
        }
    }

    /// Every notice on a block as `refused` breaks it.
    fn notices_refused(&mut self, block: u64, text: &mut String) {
        let s = self.broken();
        self.head("vector", block, Some(&s), text);
        for kind in 0..5 {
            let now = self.when();
            let mut call = self.notice(&s, now, kind);
            if self.chance(300) {
                self.break_draws(&mut call);
            }
            call.write(text);
            text.push('\n');
        }
    }

    /// A state, with settings, profile or state broken.
    fn broken(&mut self) -> State {
        let mut s = self.state();
        self.break_some(&mut s);
        s
    }

    /// Breaks settings, profile or state, or at times nothing.
    fn break_some(&mut self, s: &mut State) {
        for _ in 0..1 + self.g.below(3) {
            match self.g.below(10) {
                0 => settings::move_to_edge(&mut self.g, &mut self.cfg),
                1 => self.break_profile(),
                2..=6 => self.break_state(s),
                _ => {}
            }
        }
    }

    /// Status calls at the edges of the quiet time; few blocks are as `refused`
    /// breaks them.
    fn statuses(&mut self, block: u64, text: &mut String) {
        let mut s = self.state_for_quiet();
        if self.chance(50) {
            self.break_some(&mut s);
        }
        self.head("vector", block, Some(&s), text);
        for now in self.quiet_edges(&s) {
            Call::Status { now }.write(text);
            text.push('\n');
        }
    }

    fn refused(&mut self, block: u64, text: &mut String) {
        let s = self.broken();
        self.head("vector", block, Some(&s), text);
        for _ in 0..3 + self.g.below(3) {
            let now = self.when();
            let mut call = match self.g.below(10) {
                0..=2 => self.poll(now),
                3..=5 => self.frame(&s, now),
                6 => self.reply(now),
                7 => self.told(&s, now),
                8 => Call::Wake,
                _ => Call::Status { now },
            };
            if self.chance(300) {
                self.break_draws(&mut call);
            }
            if self.chance(500) {
                self.break_frame(&mut call);
            }
            if let Call::Sent { count, .. } = &mut call
                && let Some(cur) = &s.cur
            {
                *count = near(&mut self.g, cur.sent);
            }
            call.write(text);
            text.push('\n');
        }
    }

    fn opens(&mut self, block: u64, text: &mut String) {
        if self.chance(150) {
            settings::move_to_edge(&mut self.g, &mut self.cfg);
        }
        if self.chance(100) {
            self.break_profile();
        }
        self.head("vector", block, None, text);
        for _ in 0..1 + self.g.below(3) {
            let mut call = self.open();
            if self.chance(150) {
                self.break_draws(&mut call);
            }
            call.write(text);
            text.push('\n');
        }
    }
}

/// Append block number `block` of the kind, drawn from the seed and that
/// number alone.
pub(super) fn block(kind: &str, seed: u64, block: u64, text: &mut String) -> bool {
    let mut g = Gen::new(seed, block);
    match kind {
        "single" => g.single(block, text),
        "runs" => g.run(block, text),
        "refusals" => g.refused(block, text),
        "opens" => g.opens(block, text),
        "notices" => g.notices(block, text),
        "noticed" => g.noticed(block, text),
        "noticerefusals" => g.notices_refused(block, text),
        "statuses" => g.statuses(block, text),
        _ => return false,
    }
    true
}

/// The settings, the state and the instant that block number `block` of the
/// kinds single and runs begins with.
pub(crate) fn begins(seed: u64, block: u64) -> (Cfg, State, u64) {
    let mut g = Gen::new(seed, block);
    let s = g.state();
    (g.cfg, s, g.now)
}
