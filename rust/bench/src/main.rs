//! The published Rust beside the library called from Rust: rows of 64 links, the same states, the
//! same instants, in one run. Prints nanoseconds a link and their ratios.
//!
//! Each figure is the least of all rounds, in which the two sides take turns; a round of a load
//! that changes the state starts from fresh rows, which are made outside the clock.
use oracle::bench as published;
use siklyavon_link::*;
use std::hint::black_box;
use std::time::Instant;

#[allow(dead_code)]
#[path = "../../tests/support/mod.rs"]
mod support;

const ROW: usize = 64;

/// A state and the instant that it is polled at.
struct Load {
    name: &'static str,
    state: State,
    now: u64,
}

fn ladder(origin: u64, at: &[u64]) -> Ladder {
    let mut l = Ladder { origin, ..Ladder::default() };
    l.sched.at[..at.len()].copy_from_slice(at);
    l.sched.len = at.len() as u8;
    l
}

fn candidates(s: &mut State, n: usize, deadline: impl Fn(usize) -> u64) {
    s.cands.len = n;
    s.cands.next = n as u64;
    for i in 0..n {
        let k = i as u64;
        s.cands.hs[i] = 100 + k;
        s.cands.msg1[i] = 200 + k;
        s.cands.ack[i] = 300 + k;
        s.cands.carrier[i] = k;
        s.cands.born[i] = 60_000;
        s.cands.deadline[i] = deadline(i);
        s.cands.seq[i] = k;
    }
}

/// Everything that a link can hold at once: a current epoch with a final message and prompt repeats,
/// a drained one, a completed own attempt with its probes, and 32 candidates.
fn everything(one: &State) -> State {
    let mut s = *one;
    s.cur.ep.fin = Final { some: true, msg: 5, ladder: ladder(70_000, &[1000, 3000, 7000, 15_000]) };
    s.cur.ep.elicit = MayLadder { some: true, ladder: ladder(70_000, &[1000, 3000, 7000]) };
    s.drain = Drain { some: true, ep: one.cur.ep, deadline: 75_000, evidenced: false };
    s.drain.ep.tag = 2;
    s.cycle.kind = CycleKind::PendI.number();
    s.cycle.pendi.ep = one.cur.ep;
    s.cycle.pendi.ep.tag = 3;
    s.cycle.pendi.wait = Wait::Evidence.number();
    s.cycle.pendi.deadline = 76_000;
    s.cycle.pendi.fin = Final { some: true, msg: 6, ladder: ladder(70_000, &[1000, 3000]) };
    s.cycle.pendi.probes = MayLadder { some: true, ladder: ladder(70_000, &[1000, 3000, 7000]) };
    candidates(&mut s, 32, |i| 74_000 + i as u64);
    s
}

fn loads(cfg: &Config, profile: &Profile, log: &mut Log) -> Vec<Load> {
    let o = Opening { role: Role::Initiator, transport: 7, lease: Some(9), workers: false };
    let mut one = open(cfg, profile, o, 0, 40_000, log).expect("a link opens");
    one.mem.last_rx = Some(60_000).into();
    one.mem.rx_cur = Some(60_000).into();
    let mut many = one;
    candidates(&mut many, 32, |i| 74_000 + i as u64);
    let all = everything(&one);
    let mut single = one;
    candidates(&mut single, 1, |_| 70_000);
    let mut first = one;
    candidates(&mut first, 32, |i| if i == 0 { 70_000 } else { 74_000 + i as u64 });
    vec![
        Load { name: "idle, one epoch", state: one, now: 70_000 },
        Load { name: "idle, 32 candidates", state: many, now: 70_000 },
        Load { name: "idle, everything held", state: all, now: 70_000 },
        Load { name: "one candidate due, 1 held", state: single, now: 70_000 },
        Load { name: "one candidate due, 32 held", state: first, now: 70_000 },
        Load { name: "all items due", state: all, now: 90_000 },
    ]
}

/// A poll of each link; the number of events.
#[inline(never)]
fn poll_row(row: &mut [State], cfg: &Config, profile: &Profile, now: u64, log: &mut Log) -> usize {
    let mut told = 0;
    for s in row {
        let at = Given { cfg, profile, now, workers: false };
        poll(s, at, 0, 0, log).expect("the poll is accepted");
        told += log.len();
    }
    told
}

/// A poll of each link that the quiet test does not pass over; the number of events.
#[inline(never)]
fn watch_row(row: &mut [State], cfg: &Config, profile: &Profile, now: u64, log: &mut Log) -> usize {
    let mut told = 0;
    let at = Given { cfg, profile, now, workers: false };
    let watch = Watch::new(at, 0, 0);
    for s in row {
        if !watch.quiet(s) {
            poll(s, at, 0, 0, log).expect("the poll is accepted");
            told += log.len();
        }
    }
    told
}

/// `bench once PLACE COUNT`: that many polls of one load by the library alone, for a profiler.
fn once(place: usize, count: usize) {
    let cfg = Config::fmp();
    let profile = Profile { messages: 2, at_proof: false, silence: true, smaller: true, floor: 0 };
    let mut log = Log::new();
    let l = &loads(&cfg, &profile, &mut log)[place];
    for _ in 0..count {
        black_box(poll_row(black_box(&mut [l.state]), &cfg, &profile, l.now, &mut log));
    }
}

fn main() {
    let words: Vec<String> = std::env::args().collect();
    if words.get(1).is_some_and(|w| w == "once") {
        return once(words[2].parse().expect("a place"), words[3].parse().expect("a count"));
    }
    let rounds: u32 = std::env::args().nth(1).map_or(300, |w| w.parse().expect("a number"));
    let cfg = Config::fmp();
    let profile = Profile { messages: 2, at_proof: false, silence: true, smaller: true, floor: 0 };
    let mut log = Log::new();
    let settings = support::cfg_line(&cfg)[4..].to_owned();
    println!("{ROW} links, {rounds} rounds, the least; ns a link");
    println!("| load | events | published | poll | ratio | quiet test, poll where not quiet | ratio |");
    println!("|---|---|---|---|---|---|---|");
    for l in loads(&cfg, &profile, &mut log) {
        let line = support::state_line(&l.state)[6..].to_owned();
        let (mut a, mut b, mut c) = (f64::MAX, f64::MAX, f64::MAX);
        let mut told = [0; 3];
        for _ in 0..rounds {
            let mut row = published::make_row(&settings, &line, profile.smaller, ROW);
            let t = Instant::now();
            told[0] = published::poll_row(black_box(&mut row), l.now, false);
            a = a.min(t.elapsed().as_nanos() as f64);
            drop(row);
            let mut row = vec![l.state; ROW];
            let t = Instant::now();
            told[1] = poll_row(black_box(&mut row), &cfg, &profile, l.now, &mut log);
            b = b.min(t.elapsed().as_nanos() as f64);
            let mut row = vec![l.state; ROW];
            let t = Instant::now();
            told[2] = watch_row(black_box(&mut row), &cfg, &profile, l.now, &mut log);
            c = c.min(t.elapsed().as_nanos() as f64);
        }
        assert!(told[0] == told[1] && told[1] == told[2], "{}: the sides tell {told:?}", l.name);
        println!(
            "| {} | {} | {:.1} | {:.1} | {:.2} | {:.1} | {:.2} |",
            l.name,
            told[0] / ROW,
            a / ROW as f64,
            b / ROW as f64,
            b / a,
            c / ROW as f64,
            c / a,
        );
    }
}
