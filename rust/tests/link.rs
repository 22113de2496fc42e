//! What the crate's pages say of single calls, held to the library.
use siklyavon_link::*;

const PROFILE: Profile =
    Profile { messages: 2, at_proof: false, silence: true, smaller: true, floor: 0 };

fn at(cfg: &Config, now: u64) -> Given<'_> {
    Given { cfg, profile: &PROFILE, now, workers: false }
}

/// A link opened at 1000, with a lease, workers off.
fn opened(cfg: &Config, log: &mut Log) -> State {
    let o = Opening { role: Role::Initiator, transport: 7, lease: Some(9), workers: false };
    open(cfg, &PROFILE, o, 0, 1000, log).expect("a link opens")
}

fn told(log: &Log) -> Vec<Event> {
    log.events().collect()
}

/// A ladder of one rung.
fn rung(origin: u64, offset: u64) -> Ladder {
    let mut l = Ladder { origin, ..Ladder::default() };
    l.sched.at[0] = offset;
    l.sched.len = 1;
    l
}

/// The ladder of document 01's P7: a keepalive after 3 s, a send after 5 s, a keepalive after 8 s.
fn p7(origin: u64) -> Ladder {
    let mut l = Ladder { origin, ..Ladder::default() };
    l.sched.at[..3].copy_from_slice(&[3000, 5000, 8000]);
    (l.sched.keepalive, l.sched.len) = (0b101, 3);
    l
}

#[test]
fn defaults() {
    let (link, session) = (Config::fmp(), Config::fsp());
    assert_eq!((link.check(), session.check()), (Ok(()), Ok(())));
    assert_eq!(session, Config { floor_link: 0, floor_session: 0, floor_cutover: 10_000, ..link });
}

/// Each of the 15 places, with the sentence for it.
#[test]
fn places() {
    let c = Config::fmp();
    let bad = [
        (Config { messages: 0, ..c }, "messages is 0"),
        (Config { messages: c.soft + 1, ..c }, "soft is below messages"),
        (Config { after: 15_000, ..c }, "after is not above the jitter"),
        (Config { after: 44_999, ..c }, "after is below the jitter and link_age together"),
        (Config { after: 4_294_967_295_001, ..c }, "after is longer than 2^32 - 1 seconds"),
        (Config { check: 0, ..c }, "check is 0"),
        (Config { hold: 0, ..c }, "hold is 0"),
        (Config { revert: 0, ..c }, "revert is 0"),
        (Config { ttl: 0, ..c }, "ttl is 0"),
        (Config { silence: 0, ..c }, "silence is 0"),
        (Config { handshake: 3_999, ..c }, "handshake is below check and 3 seconds together"),
        (Config { drain: 2_000, ..c }, "drain is not above 2 seconds"),
        (Config { retention: 9_999, ..c }, "retention is below drain"),
        (Config { hold: 31_000, ..c }, "hold is not above handshake and check together"),
        (Config { hard: c.soft, ..c }, "hard is not above soft"),
    ];
    for (i, (cfg, sentence)) in bad.iter().enumerate() {
        let r = cfg.check().expect_err(sentence);
        assert_eq!((r.number, usize::from(r.place)), (1, i + 1), "{sentence}");
        assert_eq!(r.sentence(), format!("the settings: {sentence}"));
    }
    // The sums are not cut at 2^64 - 1.
    let far = Config { after: u64::MAX, link_age: u64::MAX, ..c };
    assert_eq!(far.check(), Err(Refusal { number: 1, place: 4 }));
    let long = Config { handshake: u64::MAX, check: u64::MAX - 1000, ..c };
    assert_eq!(long.check(), Err(Refusal { number: 1, place: 11 }));
}

/// A call that is sent back leaves state and buffers, and tells no event.
#[test]
fn sent_back() {
    let (cfg, mut log) = (Config::fmp(), Log::new());
    let first = opened(&cfg, &mut log);
    assert_eq!(log.len(), 2);
    let (mut s, mut target) = (first, [7u8; 4]);
    let proof = FrameProof { tag: 2, len: 4, ..FrameProof::default() };
    let r = frame(&mut s, at(&cfg, 2000), 0, proof, 0, b"data", &mut target, &mut log);
    assert_eq!(r.expect_err("another tag").number, 9);
    assert_eq!((s, target, log.len()), (first, [7; 4], 0));
    let r = poll(&mut s, at(&cfg, 2000), 16, 0, &mut log);
    assert_eq!((r.expect_err("a spread above J").number, s, log.len()), (7, first, 0));
    sent(&mut s, 2000, 5).expect("more than before");
    let held = s;
    assert_eq!(sent(&mut s, 2000, 4).expect_err("below the held one").number, 11);
    assert_eq!(s, held);
}

/// A notice as a call, whichever it is.
type Notice = fn(&mut State, Given<'_>, i32, &mut Log) -> Result<(), Refusal>;

/// The five, about the epoch of tag 1 where they name one. Each changes the state of `held`.
const NOTICES: [(&str, Notice); 5] = [
    ("worker", |s, at, spread, log| worker(s, at, spread, 1, true, 9, log)),
    ("delegated", |s, at, spread, log| delegated(s, at, spread, 1, log)),
    ("undelegated", |s, at, spread, log| undelegated(s, at, spread, 2, log)),
    ("data_sent", |s, at, spread, log| data_sent(s, at, spread, log)),
    ("path", |s, at, spread, log| path(s, at, spread, false, Some(44), log)),
];

/// An epoch in each slot: 1 current, 2 drained and with a worker, 3 pending.
fn held(cfg: &Config, log: &mut Log) -> State {
    let mut s = opened(cfg, log);
    s.drain = Drain { some: true, ep: s.cur.ep, deadline: 90_000, evidenced: false };
    (s.drain.ep.tag, s.drain.ep.delegated) = (2, true);
    s.cycle.kind = CycleKind::PendR.number();
    (s.cycle.pendr.ep.tag, s.cycle.pendr.deadline) = (3, 90_000);
    s
}

/// Each notice is sent back by 1 to 7, in this order, and leaves state and log.
#[test]
fn notices_sent_back() {
    let (cfg, mut log) = (Config::fmp(), Log::new());
    let state = held(&cfg, &mut log);
    type Change = fn(&mut State, &mut Config, &mut Profile, &mut i32);
    let tests: [Change; 7] = [
        |_, cfg, _, _| cfg.ttl = 0,
        |_, _, profile, _| profile.floor = 65,
        |s, _, _, _| s.cands.len = 33,
        |s, _, _, _| s.cur.some = false,
        |s, _, _, _| s.drain.ep.tag = s.cycle.pendr.ep.tag,
        |s, _, _, _| (s.drain.ep.fin.some, s.drain.ep.fin.ladder.next) = (true, 1),
        |_, _, _, spread| *spread = 16,
    ];
    for (name, notice) in NOTICES {
        for first in 0..tests.len() {
            // This test fails, and every later one.
            let (mut before, mut cfg, mut profile, mut spread) = (state, cfg, PROFILE, 0);
            for change in &tests[first..] {
                change(&mut before, &mut cfg, &mut profile, &mut spread);
            }
            let mut s = before;
            let at = Given { cfg: &cfg, profile: &profile, now: 2000, workers: true };
            let r = notice(&mut s, at, spread, &mut log).expect_err(name);
            let place = if first == 0 { Place::ZeroTtl.number() } else { 0 };
            assert_eq!((usize::from(r.number), r.place), (first + 1, place), "{name}");
            assert_eq!((s, log.len()), (before, 0), "{name}");
        }
        for spread in [i32::MIN, -16, 16, i32::MAX] {
            let mut s = state;
            let r = notice(&mut s, at(&cfg, 2000), spread, &mut log).expect_err(name);
            assert_eq!((r.number, s), (7, state), "{name}");
        }
        // In range no spread changes the answer, and the worker flag never does.
        let mut first = state;
        notice(&mut first, at(&cfg, 2000), -15, &mut log).expect("accepted");
        assert_ne!(first, state, "{name}");
        for workers in [false, true] {
            let mut s = state;
            let at = Given { workers, ..at(&cfg, 2000) };
            notice(&mut s, at, 15, &mut log).expect("accepted");
            assert_eq!((s, log.len()), (first, 0), "{name}");
        }
    }
}

/// No word of a log that is lent to a notice which is sent back is written.
#[test]
fn notices_leave_the_log() {
    let (cfg, mut log) = (Config::fmp(), Log::new());
    let s = held(&cfg, &mut log);
    let mut words = [7; raw::WORDS];
    let absent = When::default();
    // SAFETY: the log is lent for the calls.
    let back = unsafe {
        [
            raw::siklyavon_worker(s, cfg, PROFILE, 2000, true, 16, 9, true, 9, &mut words),
            raw::siklyavon_delegated(s, cfg, PROFILE, 2000, true, 16, 9, &mut words),
            raw::siklyavon_undelegated(s, cfg, PROFILE, 2000, true, 16, 9, &mut words),
            raw::siklyavon_data_sent(s, cfg, PROFILE, 2000, true, 16, &mut words),
            raw::siklyavon_path(s, cfg, PROFILE, 2000, true, 16, false, absent, &mut words),
        ]
    };
    for r in back {
        assert_eq!((r.number, r.place, r.state, r.len, r.count), (7, 0, s, 0, 0));
    }
    assert_eq!(words, [7; raw::WORDS]);
}

/// A notice that does not fit is accepted, tells its reason and leaves the state.
#[test]
fn notices_rejected() {
    let (cfg, mut log) = (Config::fmp(), Log::new());
    let s = held(&cfg, &mut log);
    let mut own = s;
    own.cycle.kind = CycleKind::PendI.number();
    (own.cycle.pendi.ep.tag, own.cycle.pendi.deadline) = (3, 90_000);
    use Reason::{AlreadyDelegated, NotDelegated, NotOffered, StaleTag};
    // A tag that is not held, the current, the drained and the pending epoch's.
    for (tag, heard, took, gone) in [
        (8, Some(StaleTag), Some(StaleTag), Some(StaleTag)),
        (1, None, None, Some(NotDelegated)),
        (2, None, Some(AlreadyDelegated), None),
        (3, Some(NotDelegated), Some(NotOffered), Some(NotDelegated)),
    ] {
        for before in [s, own] {
            let mut is = |reason: Option<Reason>, notice: &dyn Fn(&mut State, &mut Log)| {
                let mut s = before;
                notice(&mut s, &mut log);
                let events: Vec<Event> = reason.into_iter().map(Event::Reject).collect();
                assert_eq!((told(&log), s == before), (events, reason.is_some()), "tag {tag}");
            };
            let at = at(&cfg, 2000);
            is(heard, &|s, log| worker(s, at, 0, tag, false, 9, log).expect("accepted"));
            is(took, &|s, log| delegated(s, at, 0, tag, log).expect("accepted"));
            is(gone, &|s, log| undelegated(s, at, 0, tag, log).expect("accepted"));
        }
    }
    // What stands behind a flag or a kind that is off is not held.
    let (mut bare, mut log) = (State::default(), Log::new());
    bare.cycle.pendr.ep.tag = 3;
    delegated(&mut bare, at(&cfg, 2000), 0, 3, &mut log).expect("accepted");
    assert_eq!(told(&log), [Event::Reject(StaleTag)]);
    delegated(&mut bare, at(&cfg, 2000), 0, 0, &mut log).expect("accepted");
    assert_eq!(told(&log), [Event::Reject(StaleTag)]);
}

/// A worker takes an epoch, is revoked where it is retired, and leaves its floor to the next offer.
#[test]
fn workers_come_and_go() {
    let (cfg, mut log) = (Config::fmp(), Log::new());
    let mut s = opened(&cfg, &mut log);
    let on = |now| Given { workers: true, ..at(&cfg, now) };
    let offer = |floor| [Event::Delegate { tag: 1, transport: 7, index: 9, session: 0, floor }];
    for now in [2000, 2001] {
        poll(&mut s, on(now), 0, 0, &mut log).expect("accepted");
        assert_eq!(told(&log), offer(None));
    }
    delegated(&mut s, on(2001), 0, 1, &mut log).expect("accepted");
    assert!(s.cur.ep.delegated && log.is_empty() && quiet(&s, on(2002), 0, 0));

    // Counters in any order: the floor is the highest.
    let mut heard = s;
    for (now, k, counter, floor) in [(3000, true, 9, 9), (3001, false, 4, 9), (3002, true, 9, 9)] {
        worker(&mut heard, on(now), 0, 1, k, counter, &mut log).expect("accepted");
        assert_eq!((told(&log), heard.cur.ep.floor.get()), (vec![], Some(floor)));
        assert_eq!((heard.mem.last_rx.get(), heard.mem.rx_cur.get()), (Some(now), Some(now)));
        assert_eq!(heard.mem.peer_k, Bit { some: true, on: k });
    }
    // It is heard as a frame is, but for the floor.
    let mut as_frame = s;
    for (now, k) in [(3000, true), (3001, false), (3002, true)] {
        let proof = FrameProof { tag: 1, counter: 9, k, ..FrameProof::default() };
        frame(&mut as_frame, on(now), 0, proof, 0, &[], &mut [], &mut log).expect("accepted");
    }
    as_frame.cur.ep.floor = Some(9).into();
    assert_eq!(heard, as_frame);

    undelegated(&mut heard, on(4000), 0, 1, &mut log).expect("accepted");
    assert!(!heard.cur.ep.delegated && log.is_empty());
    poll(&mut heard, on(4000), 0, 0, &mut log).expect("accepted");
    assert_eq!(told(&log), offer(Some(9)));
    // An epoch that is received here is heard too.
    worker(&mut heard, on(4001), 0, 1, true, u64::MAX, &mut log).expect("accepted");
    assert_eq!((told(&log), heard.cur.ep.floor.get()), (vec![], Some(u64::MAX)));

    // The drained epoch's worker is revoked at its deadline.
    let mut s = held(&cfg, &mut log);
    s.cycle.kind = CycleKind::Idle.number();
    poll(&mut s, on(90_000), 0, 0, &mut log).expect("accepted");
    assert!(told(&log).contains(&Event::Revoke { tag: 2, transport: 7, index: 9 }));
}

/// A worker's frame under the drained epoch reverts an epoch that was only assumed: 6 events, the most
/// that a notice tells.
#[test]
fn worker_reverts() {
    let (cfg, mut log) = (Config::fmp(), Log::new());
    let mut s = held(&cfg, &mut log);
    s.cur.ep.assumed = true;
    s.cycle.kind = CycleKind::Init.number();
    (s.cycle.init.lease, s.cycle.init.transport) = (Some(5).into(), 6);
    worker(&mut s, at(&cfg, 2000), 0, 2, false, 9, &mut log).expect("accepted");
    let events = [
        Event::Unbind { transport: 6, index: 5 },
        Event::Release { index: 5 },
        Event::Abandoned(Abandon::Reverted),
        Event::Reverted { tag: 1 },
        Event::Prompt { tag: 1, rungs: 0 },
        Event::Prompt { tag: 2, rungs: 0 },
    ];
    assert_eq!(told(&log), events);
    assert_eq!((s.cur.ep.tag, s.cur.ep.floor.get(), s.drain.some), (2, Some(9), false));
    assert_eq!((CycleKind::of(s.cycle.kind), s.cycle.pendi.ep.tag), (Some(CycleKind::PendI), 1));
}

/// Data starts the silence trigger, and no start is called for while there is no way to the peer.
#[test]
fn data_and_path() {
    let (cfg, mut log) = (Config::fmp(), Log::new());
    let mut s = opened(&cfg, &mut log);
    assert!(quiet(&s, at(&cfg, 40_000), 0, 0));
    data_sent(&mut s, at(&cfg, 2000), 0, &mut log).expect("accepted");
    assert_eq!((log.len(), wake(&s, &cfg, &PROFILE)), (0, Ok(Some(32_000))));
    path(&mut s, at(&cfg, 3000), 0, false, Some(44), &mut log).expect("accepted");
    assert_eq!((log.len(), s.mem.reachable, s.mem.srtt.get()), (0, false, Some(44)));
    assert!(quiet(&s, at(&cfg, 40_000), 0, 0));
    path(&mut s, at(&cfg, 4000), 0, true, None, &mut log).expect("accepted");
    assert_eq!((log.len(), s.mem.reachable, s.mem.srtt.get()), (0, true, None));
    poll(&mut s, at(&cfg, 40_000), 0, 0, &mut log).expect("accepted");
    assert_eq!(told(&log), [Event::Start(Start::Silence)]);
    // Also without a current epoch.
    let mut bare = State::default();
    data_sent(&mut bare, at(&cfg, 2000), 0, &mut log).expect("accepted");
    path(&mut bare, at(&cfg, 2000), 0, true, Some(1), &mut log).expect("accepted");
    assert!(bare.mem.sent_data && bare.mem.reachable && log.is_empty());
}

/// Number 10 has two halves, and a link whose sent count has reached `hard` is to be closed.
#[test]
fn no_start() {
    let (cfg, mut log) = (Config::fmp(), Log::new());
    let mut s = opened(&cfg, &mut log);
    assert_eq!(reply(&mut s, at(&cfg, 2000), None).expect_err("none is called for").number, 10);
    sent(&mut s, 2000, cfg.hard - 1).expect("told");
    reply(&mut s, at(&cfg, 32_000), None).expect("one below hard");
    sent(&mut s, 32_000, cfg.hard).expect("told");
    assert_eq!(reply(&mut s, at(&cfg, 32_000), None).expect_err("at hard").number, 10);
    poll(&mut s, at(&cfg, 32_000), 0, 0, &mut log).expect("accepted");
    assert_eq!(told(&log), [Event::Teardown(Teardown::CounterExhausted)]);
}

/// A poll that would be sent back is not quiet.
#[test]
fn quiet_is_accepted() {
    let (cfg, mut log) = (Config::fmp(), Log::new());
    let s = opened(&cfg, &mut log);
    assert!(quiet(&s, at(&cfg, 2000), -15, 15));
    let mut many = s;
    many.cands.len = 33;
    for (state, cfg, profile, spread, extra, number) in [
        (s, Config { ttl: 0, ..cfg }, PROFILE, 0, 0, 1),
        (s, cfg, Profile { floor: 65, ..PROFILE }, 0, 0, 2),
        (many, cfg, PROFILE, 0, 0, 3),
        (s, cfg, PROFILE, 16, 0, 7),
        (s, cfg, PROFILE, 0, 16, 7),
        (s, cfg, PROFILE, i32::MIN, u32::MAX, 7),
    ] {
        let at = Given { cfg: &cfg, profile: &profile, now: 2000, workers: false };
        assert!(!quiet(&state, at, spread, extra), "number {number}");
        let r = poll(&mut { state }, at, spread, extra, &mut log);
        assert_eq!(r.expect_err("sent back").number, number);
    }
}

/// Quiet time counts from the current epoch's last frame or from its start, whichever is later, and no
/// frame under the drained epoch makes it smaller.
#[test]
fn quiet_time() {
    let (cfg, mut log) = (Config::fmp(), Log::new());
    let line = |s: &State, now| status(s, &cfg, &PROFILE, now).expect("accepted").quiet;
    let hear = |s: &mut State, now, slot: Slot, tag| {
        let proof = FrameProof { tag, slot: slot.number(), counter: 5, ..FrameProof::default() };
        let mut log = Log::new();
        frame(s, at(&cfg, now), 0, proof, 0, &[], &mut [], &mut log).expect("accepted");
        told(&log).contains(&Event::Reverted { tag: 1 })
    };

    // Nothing was heard: the start counts. A clock that is behind gives 0, and so it does up to the end.
    let mut s = held(&cfg, &mut log);
    assert_eq!((s.cur.ep.started, s.mem.rx_cur.get()), (1000, None));
    for (now, time) in [(0, 0), (999, 0), (1000, 0), (1001, 1), (u64::MAX, u64::MAX - 1000)] {
        assert_eq!(line(&s, now), Some(time));
    }
    // The later of the two, one apart on both sides, whatever came under another epoch.
    for (heard, from) in [(999, 1000), (1000, 1000), (1001, 1001), (u64::MAX, u64::MAX)] {
        for last in [None, Some(1), Some(5000), Some(u64::MAX)] {
            (s.mem.rx_cur, s.mem.last_rx) = (Some(heard).into(), last.into());
            assert_eq!(line(&s, 7000), Some(7000u64.saturating_sub(from)));
        }
    }

    // A frame under the drained epoch leaves it; one under the current or the pending one brings it to 0.
    let mut s = held(&cfg, &mut log);
    assert!(!hear(&mut s, 8000, Slot::Previous, 2));
    assert_eq!((s.mem.last_rx.get(), line(&s, 10_000)), (Some(8000), Some(9000)));
    hear(&mut s, 10_500, Slot::Current, 1);
    assert_eq!((line(&s, 10_500), line(&s, 11_000)), (Some(0), Some(500)));
    hear(&mut s, 12_000, Slot::Pending, 3);
    assert_eq!((s.cur.ep.tag, line(&s, 12_000), line(&s, 12_001)), (3, Some(0), Some(1)));

    // So with what a decrypt worker reports.
    let mut s = held(&cfg, &mut log);
    worker(&mut s, at(&cfg, 8000), 0, 2, false, 5, &mut log).expect("accepted");
    assert_eq!(line(&s, 10_000), Some(9000));
    worker(&mut s, at(&cfg, 10_500), 0, 1, false, 5, &mut log).expect("accepted");
    assert_eq!(line(&s, 10_500), Some(0));

    // A frame that reverts does not count: the last one under a current epoch does, or the older start.
    let mut s = held(&cfg, &mut log);
    s.cycle.kind = CycleKind::Idle.number();
    (s.cur.ep.assumed, s.cur.ep.started, s.drain.ep.started) = (true, 6000, 3000);
    s.mem.rx_cur = Some(5000).into();
    assert_eq!(line(&s, 10_000), Some(4000));
    assert!(hear(&mut s, 8000, Slot::Previous, 2));
    assert_eq!((s.cur.ep.tag, line(&s, 10_000)), (2, Some(5000)));
    s.mem.rx_cur = None.into();
    assert_eq!(line(&s, 10_000), Some(7000));

    // Absent exactly without a current epoch.
    s = State { cycle: Cycle::default(), drain: Drain::default(), ..s };
    s.cur.some = false;
    assert_eq!(line(&s, 10_000), None);
    s.mem.rx_cur = Some(5000).into();
    assert_eq!(line(&s, 10_000), None);
}

/// A cycle kind past the last is idle.
#[test]
fn kinds_past_the_last() {
    let (cfg, mut log) = (Config::fmp(), Log::new());
    let mut s = opened(&cfg, &mut log);
    s.cycle.kind = 77;
    s.cycle.init.deadline = 1;
    let line = status(&s, &cfg, &PROFILE, 2000).expect("accepted");
    assert_eq!((line.kind, line.wake), (CycleKind::Idle, Some(121_000)));
    assert!(quiet(&s, at(&cfg, 2000), 0, 0));
}

/// What stands behind an absent floor is not told.
#[test]
fn absent_floor() {
    let (cfg, mut log) = (Config::fmp(), Log::new());
    let mut s = opened(&cfg, &mut log);
    let tell = |s: &State, log: &mut Log| {
        let at = Given { workers: true, ..at(&cfg, 2000) };
        poll(&mut { *s }, at, 0, 0, log).expect("accepted");
        told(log)
    };
    let offer = |floor| [Event::Delegate { tag: 1, transport: 7, index: 9, session: 0, floor }];
    s.cur.ep.floor = When { some: false, at: 55 };
    assert_eq!(tell(&s, &mut log), offer(None));
    let mut words = [0; raw::WORDS];
    // SAFETY: the log is lent for the call.
    let r = unsafe { raw::siklyavon_poll(s, cfg, PROFILE, 2000, true, 0, 0, &mut words) };
    assert_eq!((r.len, &words[..8]), (1, &[5, 1, 7, 9, 0, 0, 0, 0][..]));
    s.cur.ep.floor.some = true;
    assert_eq!(tell(&s, &mut log), offer(Some(55)));
}

/// The wake is not the earliest instant at which a poll has work.
#[test]
fn wakes() {
    let (cfg, mut log) = (Config::fmp(), Log::new());
    let s = opened(&cfg, &mut log);
    let wakes = |s: &State, cfg: &Config| wake(s, cfg, &PROFILE).expect("accepted");

    // Early: a final message under another wait, which no poll takes.
    let mut early = s;
    early.cycle.kind = CycleKind::PendI.number();
    early.cycle.pendi.wait = Wait::Evidence.number();
    early.cycle.pendi.ep.tag = 2;
    early.cycle.pendi.deadline = 90_000;
    early.cycle.pendi.fin = Final { some: true, msg: 5, ladder: rung(1000, 1000) };
    assert_eq!(wakes(&early, &cfg), Some(2000));
    assert!(quiet(&early, at(&cfg, 2000), 0, 0) && quiet(&early, at(&cfg, 89_999), 0, 0));
    assert!(!quiet(&early, at(&cfg, 90_000), 0, 0));

    // Early: a floor whose end passes 2^64 - 1.
    let never = Config { floor_link: u64::MAX, ..cfg };
    assert_eq!(wakes(&s, &never), Some(121_000));
    assert!(quiet(&s, at(&never, u64::MAX), 0, 0));

    // Late: an offer is owed with workers on.
    assert_eq!(wakes(&s, &cfg), Some(121_000));
    assert!(!quiet(&s, Given { workers: true, ..at(&cfg, 2000) }, 0, 0));

    // Absent: nothing is held, and a teardown stands.
    let mut bare = State::default();
    assert_eq!(wakes(&bare, &cfg), None);
    poll(&mut bare, at(&cfg, 2000), 0, 0, &mut log).expect("accepted");
    assert_eq!(told(&log), [Event::Teardown(Teardown::OpeningIdle)]);

    // Late: a link start after the poll's instant. Messages 3 have been sent, and no floor is set.
    let soon = Config { messages: 3, floor_link: 0, floor_session: 0, ..cfg };
    let mut ahead = s;
    sent(&mut ahead, 1000, 3).expect("told");
    assert_eq!(wakes(&ahead, &soon), Some(1000));
    assert!(!quiet(&ahead, at(&soon, 500), 0, 0));
}

/// A start that opened nothing leaves the state, and the wake stays in the past.
#[test]
fn start_again() {
    let (cfg, mut log) = (Config::fmp(), Log::new());
    let first = opened(&cfg, &mut log);
    let mut s = first;
    for now in [121_000, 121_001, 500_000] {
        assert_eq!(wake(&s, &cfg, &PROFILE), Ok(Some(121_000)));
        assert!(!quiet(&s, at(&cfg, now), 0, 0));
        poll(&mut s, at(&cfg, now), 0, 0, &mut log).expect("accepted");
        assert_eq!(told(&log), [Event::Start(Start::Scheduled)]);
        reply(&mut s, at(&cfg, now), None).expect("a start is called for");
        assert_eq!(s, first);
    }
}

/// A send or prompt from a ladder has the number of rungs that were taken for it, any other 0.
#[test]
fn rungs_taken() {
    let (cfg, mut log) = (Config::fmp(), Log::new());
    let mut s = opened(&cfg, &mut log);
    let o = Opening { role: Role::Responder, transport: 7, lease: None, workers: false };
    open(&cfg, &PROFILE, o, 0, 1000, &mut log).expect("a link opens");
    assert_eq!(told(&log).last(), Some(&Event::Prompt { tag: 1, rungs: 0 }));

    // An own attempt, resent after 1, 3 and 7 s: polled for each, asleep past three, past two of them.
    poll(&mut s, at(&cfg, 121_000), 0, 0, &mut log).expect("accepted");
    let started = Attempted { hs: 1, msg: 2, transport: 3, lease: None };
    reply(&mut s, at(&cfg, 121_000), Some(started)).expect("a start is called for");
    let resent = |from: &State, now: u64, log: &mut Log| {
        let mut s = *from;
        poll(&mut s, at(&cfg, now), 0, 0, log).expect("accepted");
        (s, told(log))
    };
    let sent = |rungs| vec![Event::Send { msg: 2, kind: Message::Msg1, rungs }];
    assert_eq!(resent(&s, 121_999, &mut log).1, []);
    let (first, events) = resent(&s, 122_000, &mut log);
    assert_eq!(events, sent(1));
    let (second, events) = resent(&first, 124_000, &mut log);
    assert_eq!(events, sent(1));
    assert_eq!(resent(&second, 130_000, &mut log).1, sent(1));
    assert_eq!(resent(&first, 130_000, &mut log).1, sent(2));
    let (late, events) = resent(&s, 130_000, &mut log);
    assert_eq!((events, late.cycle.init.ladder.next), (sent(3), 3));

    // A completed own attempt: the send and both prompts of a probe have one number; a keepalive prompts.
    s.cycle.kind = CycleKind::PendI.number();
    let p = &mut s.cycle.pendi;
    (p.ep.tag, p.wait, p.deadline) = (2, Wait::Evidence.number(), 150_000);
    p.fin = Final { some: true, msg: 6, ..Final::default() };
    p.probes = MayLadder { some: true, ladder: p7(121_000) };
    assert_eq!(resent(&s, 124_000, &mut log).1, [Event::Prompt { tag: 1, rungs: 1 }]);
    let probe = [
        Event::Send { msg: 6, kind: Message::Msg3, rungs: 3 },
        Event::Prompt { tag: 2, rungs: 3 },
        Event::Prompt { tag: 1, rungs: 3 },
    ];
    assert_eq!(resent(&s, 129_000, &mut log).1, probe);

    // The cutover at the deadline: its prompt has 0, and the two repeats that are slept past have 2.
    let (cut, events) = resent(&s, 150_000, &mut log);
    assert!(events.contains(&Event::Prompt { tag: 2, rungs: 0 }));
    assert_eq!(resent(&cut, 155_000, &mut log).1, [Event::Prompt { tag: 2, rungs: 2 }]);
}
