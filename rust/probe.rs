//! Compiled and run by build.rs: holds raw.rs to the library. The library gives a sample of each
//! record, every field with a number or a flag of its own; here the same samples are written field
//! by field, and must be equal. Then each answer's record is read from a call whose answer is known.
#![allow(dead_code)]
#[path = "src/raw.rs"]
mod raw;
use raw::*;

fn rungs() -> Ladder {
    Ladder { origin: 1, sched: Schedule { at: [2; MAX_RUNGS], keepalive: 3, len: 4 }, next: 5 }
}

fn last() -> Final {
    Final { some: true, msg: 1, ladder: rungs() }
}

fn repeats() -> MayLadder {
    MayLadder { some: true, ladder: rungs() }
}

fn keys() -> Epoch {
    Epoch { tag: 1, session: 2, sent: 3, ids: Ids { lease: Index { some: true, index: 4 }, theirs: Index { some: true, index: 5 }, transport: 6 }, k: true, responder: false, base: When { some: true, at: 7 }, started: 8, route: When { some: true, at: 9 }, ext: 10, delegated: true, floor: When { some: true, at: 11 }, heard: When { some: true, at: 12 }, moved: When { some: true, at: 13 }, assumed: false, fin: last(), elicit: repeats(), prompted: When { some: true, at: 14 } }
}

fn held() -> MayEpoch {
    MayEpoch { some: true, ep: keys() }
}

fn kept() -> Drain {
    Drain { some: true, ep: keys(), deadline: 1, evidenced: false }
}

fn own() -> Attempt {
    Attempt { hs: 1, out: 2, lease: Index { some: true, index: 3 }, transport: 4, first: 5, ladder: rungs(), deadline: 6, resent: true }
}

fn ready() -> PendI {
    PendI { ep: keys(), wait: 1, deadline: 2, restart: true, fin: last(), probes: repeats(), probed: When { some: true, at: 3 }, stayed: false, reverted: true }
}

fn theirs() -> PendR {
    PendR { ep: keys(), deadline: 1, restart: true, answer: When { some: true, at: 2 } }
}

fn turn() -> Cycle {
    Cycle { kind: 1, init: own(), pendi: ready(), pendr: theirs() }
}

fn waiting() -> Candidates {
    Candidates { hs: [1; 32], msg1: [2; 32], ack: [3; 32], carrier: [4; 32], route: [5; 32], born: [6; 32], deadline: [7; 32], bounded: [8; 32], bound: [9; 32], seq: [10; 32], len: 11, next: 12 }
}

fn facts(spread: i32) -> Memory {
    Memory { peer_epoch: When { some: true, at: 1 }, peer_k: Bit { some: true, on: false }, jitter: spread, damp: When { some: true, at: 2 }, backoff: When { some: true, at: 3 }, abandons: 4, last_rx: When { some: true, at: 5 }, rx_cur: When { some: true, at: 6 }, sent_data: true, silence: 7, link_since: 8, last_cutover: When { some: true, at: 9 }, hs_rtt: When { some: true, at: 10 }, srtt: When { some: true, at: 11 }, setup_rto: When { some: true, at: 12 }, reachable: false, due: true }
}

fn whole(spread: i32) -> State {
    State { mem: facts(spread), cur: held(), drain: kept(), cycle: turn(), cands: waiting() }
}

fn values() -> Config {
    Config { after: 1, jitter: 2, messages: 3, handshake: 4, check: 5, drain: 6, retention: 7, hold: 8, revert: 9, dampening: 10, ttl: 11, young: 12, link_age: 13, session_age: 14, floor_link: 15, floor_session: 16, floor_cutover: 17, silence: 18, resends: 19, soft: 20, hard: 21, delay: 22, arrival: true }
}

fn flags() -> Profile {
    Profile { messages: 1, at_proof: true, silence: false, smaller: true, floor: 2 }
}

fn beside() -> Given {
    Given { cfg: values(), profile: flags(), now: 1, workers: true, extra: 2 }
}

fn proof() -> FrameProof {
    FrameProof { tag: 1, slot: 2, counter: 3, k: true, len: 4, probe: false }
}

fn answer() -> StartReply {
    StartReply { opened: true, hs: 1, msg: 2, transport: 3, lease: Index { some: true, index: 4 } }
}

extern "C" {
    fn siklyavon_sample_state(spread: i32) -> State;
    fn siklyavon_sample_config() -> Config;
    fn siklyavon_sample_profile() -> Profile;
    fn siklyavon_sample_given() -> Given;
    fn siklyavon_sample_proof() -> FrameProof;
    fn siklyavon_sample_reply() -> StartReply;
}

fn main() {
    // SAFETY: this is the test of what the calls need.
    unsafe {
        assert_eq!(siklyavon_sample_state(-7), whole(-7), "State is laid out otherwise");
        assert_eq!(siklyavon_sample_config(), values(), "Config is laid out otherwise");
        assert_eq!(siklyavon_sample_profile(), flags(), "Profile is laid out otherwise");
        assert_eq!(siklyavon_sample_given(), beside(), "Given is laid out otherwise");
        assert_eq!(siklyavon_sample_proof(), proof(), "FrameProof is laid out otherwise");
        assert_eq!(siklyavon_sample_reply(), answer(), "StartReply is laid out otherwise");
        answers();
    }
    for (name, size, align) in [
        ("Schedule", size_of::<Schedule>(), align_of::<Schedule>()),
        ("Ladder", size_of::<Ladder>(), align_of::<Ladder>()),
        ("Final", size_of::<Final>(), align_of::<Final>()),
        ("MayLadder", size_of::<MayLadder>(), align_of::<MayLadder>()),
        ("Ids", size_of::<Ids>(), align_of::<Ids>()),
        ("Epoch", size_of::<Epoch>(), align_of::<Epoch>()),
        ("MayEpoch", size_of::<MayEpoch>(), align_of::<MayEpoch>()),
        ("Drain", size_of::<Drain>(), align_of::<Drain>()),
        ("Attempt", size_of::<Attempt>(), align_of::<Attempt>()),
        ("PendI", size_of::<PendI>(), align_of::<PendI>()),
        ("PendR", size_of::<PendR>(), align_of::<PendR>()),
        ("Cycle", size_of::<Cycle>(), align_of::<Cycle>()),
        ("Candidates", size_of::<Candidates>(), align_of::<Candidates>()),
        ("Memory", size_of::<Memory>(), align_of::<Memory>()),
        ("State", size_of::<State>(), align_of::<State>()),
        ("Config", size_of::<Config>(), align_of::<Config>()),
        ("Profile", size_of::<Profile>(), align_of::<Profile>()),
        ("Given", size_of::<Given>(), align_of::<Given>()),
        ("FrameProof", size_of::<FrameProof>(), align_of::<FrameProof>()),
        ("StartReply", size_of::<StartReply>(), align_of::<StartReply>()),
    ] {
        println!("{name} {size} {align}");
    }
}

/// Calls on an opened link: every field of each answer.
unsafe fn answers() {
    let (cfg, session) = (siklyavon_config_fmp(), siklyavon_config_fsp());
    assert_eq!((siklyavon_settings(cfg), siklyavon_settings(session)), (0, 0));
    let floors = |c: Config| (c.floor_link, c.floor_session, c.floor_cutover);
    assert_ne!(floors(cfg), floors(session));
    let (floor_link, floor_session, floor_cutover) = floors(cfg);
    assert_eq!(Config { floor_link, floor_session, floor_cutover, ..session }, cfg);
    let p = Profile { messages: 2, ..Profile::default() };
    let mut log = [0; WORDS];
    let lease = Index { some: true, index: 3 };
    assert_eq!(siklyavon_settings(Config { ttl: 0, ..cfg }), 9);
    let back = siklyavon_open(Config { ttl: 0, ..cfg }, p, true, 7, lease, false, 0, 1000, &mut log);
    assert_eq!((back.number, back.place, back.state.cur.some, back.len, back.count), (1, 9, false, 0, 0));
    let o = siklyavon_open(cfg, p, true, 7, lease, false, 0, 1000, &mut log);
    assert_eq!((o.number, o.place, o.state.cur.ep.tag, o.len, o.count), (0, 0, 1, 3, 0));
    let c = siklyavon_sent(o.state, 2000, 5);
    assert_eq!((c.number, c.place, c.state.cur.ep.sent, c.len, c.count), (0, 0, 5, 0, 0));
    let back = siklyavon_sent(c.state, 2000, 4);
    assert_eq!((back.number, back.place, back.state, back.len, back.count), (11, 0, c.state, 0, 0));
    let back = siklyavon_wake(o.state, Config { ttl: 0, ..cfg }, p);
    assert_eq!((back.number, back.place), (1, 9));
    let w = siklyavon_wake(o.state, cfg, p);
    let start = 1000 + cfg.after;
    assert_eq!((w.number, w.place, w.at), (0, 0, When { some: true, at: start }));
    let l = siklyavon_status(o.state, cfg, p, 2000);
    assert_eq!((l.number, l.place, l.tag.at, l.kind, l.wake.at, l.quiet), (0, 0, 1, 0, start, When { some: true, at: 1000 }));
    let mut s = o.state;
    s.cands.len = 2;
    s.cands.seq[1] = 1;
    let r = siklyavon_poll(s, cfg, p, 2000, false, 0, 0, &mut log);
    assert_eq!((r.number, r.place, r.len, r.count, r.state.cands.len), (0, 0, 2, 2, 0));
    let (source, mut target) = ([9u8; 4], [0u8; 8]);
    let proof = FrameProof { tag: 1, counter: 8, len: 4, ..FrameProof::default() };
    let (a, b) = (source.as_ptr(), target.as_mut_ptr());
    let h = siklyavon_frame(o.state, cfg, p, 2000, false, 0, proof, 1, a, 4, b, 8, &mut log);
    assert_eq!((h.number, h.place, h.state.mem.last_rx, h.count), (0, 0, When { some: true, at: 2000 }, 0));
    assert_eq!((target, log[0], log[1], log[2]), ([0, 9, 9, 9, 9, 0, 0, 0], 17, 1, 8));
    assert!(h.len > 1);
    let r = siklyavon_reply(o.state, cfg, p, 2000, StartReply::default());
    assert_eq!((r.number, r.place, r.state, r.len, r.count), (10, 0, o.state, 0, 0));
    // A worker takes the epoch, reports a frame and goes; then a worker of a tag that is not held.
    let d = siklyavon_delegated(o.state, cfg, p, 2000, true, 0, 1, &mut log);
    assert_eq!((d.number, d.place, d.state.cur.ep.delegated, d.len, d.count), (0, 0, true, 0, 0));
    let w = siklyavon_worker(d.state, cfg, p, 2001, true, 0, 1, true, 6, &mut log);
    assert_eq!((w.number, w.place, w.state.cur.ep.floor, w.len, w.count), (0, 0, When { some: true, at: 6 }, 0, 0));
    let at = When { some: true, at: 2001 };
    assert_eq!((w.state.mem.peer_k, w.state.mem.rx_cur), (Bit { some: true, on: true }, at));
    let u = siklyavon_undelegated(w.state, cfg, p, 2002, true, 0, 1, &mut log);
    assert_eq!((u.number, u.place, u.state.cur.ep.delegated, u.len, u.count), (0, 0, false, 0, 0));
    let x = siklyavon_worker(o.state, cfg, p, 2001, true, 0, 2, true, 6, &mut log);
    assert_eq!((x.number, x.state, x.len, log[0], log[1]), (0, o.state, 1, 14, 23));
    let b = siklyavon_data_sent(o.state, cfg, p, 2000, false, 0, &mut log);
    assert_eq!((b.number, b.place, b.state.mem.sent_data, b.len, b.count), (0, 0, true, 0, 0));
    let srtt = When { some: true, at: 44 };
    let q = siklyavon_path(o.state, cfg, p, 2000, false, 0, false, srtt, &mut log);
    assert_eq!((q.number, q.place, q.state.mem.reachable, q.state.mem.srtt, q.len, q.count), (0, 0, false, srtt, 0, 0));
    let back = siklyavon_path(o.state, cfg, p, 2000, false, 16, false, srtt, &mut log);
    assert_eq!((back.number, back.state, back.len), (7, o.state, 0));
    let g = Given { cfg, profile: p, now: 2000, workers: false, extra: 0 };
    let j = u32::from(cfg.jitter);
    let least = -i32::from(cfg.jitter);
    assert!(siklyavon_quiet(&o.state, Given { extra: j, ..g }, least));
    assert!(!siklyavon_quiet(&o.state, g, least - 1));
    assert!(!siklyavon_quiet(&o.state, Given { extra: j + 1, ..g }, 0));
    assert!(!siklyavon_quiet(&o.state, Given { workers: true, ..g }, 0));
    assert!(!siklyavon_quiet(&s, g, 0));
}
