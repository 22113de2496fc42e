//! The lines `pendi`, `pendr`, `drained` and `candidate` of the program `runs`,
//! which place a record as the published module makes it, beside the published
//! module: lists for `runs`, and the comparison of the states that it shows.
use super::outside::{Msg1, Outer, bonded};
use super::*;
use crate::proto::rekey::tests::lines::{Fields, finish, put};
use crate::proto::rekey::tests::play::{Call, Flags, leaves_behind};
use crate::proto::rekey::tests::settings::{self, edge, near, pick};
use crate::proto::rekey::tests::table::Made;
use crate::testutil::SplitMix64;
use std::collections::{BTreeMap, BTreeSet};
use std::fmt::Write as _;
use std::io::BufRead as _;

/// The line that places, with what it names. What is not named has its default:
/// wait 1, evidenced 1.
#[derive(Clone, Copy, Debug)]
enum Line {
    PendI {
        wait: Option<u8>,
    },
    PendR,
    Drained {
        evidenced: Option<bool>,
    },
    /// So many candidates, at most 32; their setup messages are the numbers
    /// from 0.
    Candidate {
        count: u64,
    },
}

/// A list: settings, a profile, a fresh link, a frame, named fields, the line.
#[derive(Debug)]
struct Case {
    cfg: Cfg,
    profile: Flags,
    opened: u64,
    role: u8,
    transport: u64,
    lease: Option<u32>,
    spread: i32,
    frame: Option<Call>,
    peer_epoch: u64,
    hs_rtt: Option<u64>,
    /// The key bit of the current epoch.
    k: bool,
    /// Of the current epoch, before `drained`.
    fin: Option<plain::Fin>,
    elicit: Option<plain::Lad>,
    now: u64,
    line: Line,
    /// Whether the Rust's attempt measures the round trip, or was resent and
    /// leaves the one that is there.
    sampled: bool,
    /// By which way the Rust cuts over without a frame.
    by: u64,
}

/// One of the spans that a deadline here is made with.
fn span(g: &mut SplitMix64, c: &Cfg) -> u64 {
    let confirm = c.handshake + c.check;
    pick(g, &[confirm, c.delay, c.hold, c.drain, c.retention, c.ttl, c.dampening])
}

fn ladder(g: &mut SplitMix64) -> plain::Lad {
    let at: Vec<u64> = (0..g.below(17)).map(|_| edge(g)).collect();
    let len = at.len() as u64;
    let keepalive = g.next_u64() & ((1 << len) - 1);
    plain::Lad { origin: edge(g), next: g.below(len + 1), keepalive, at }
}

impl Case {
    fn draw(seed: u64, n: u64) -> Self {
        let g = &mut SplitMix64::new(SplitMix64::mix(seed, &[n]));
        let cfg = settings::accepted(g);
        let profile = Flags {
            messages: 2 + g.below(2),
            at_proof: g.chance(500),
            silence: g.chance(500),
            smaller: g.chance(500),
            floor: g.below(65),
        };
        let opened = match g.below(8) {
            0 => u64::MAX - g.below(3),
            1 => u64::MAX - g.below(200_000),
            2 => u64::MAX - near(g, 1).saturating_add(span(g, &cfg)),
            3 => g.below(5),
            4 => edge(g),
            _ => 1_000_000 + g.below(1_000_000_000),
        };
        let after = match g.below(6) {
            0 => 0,
            1 => g.below(2),
            2 => span(g, &cfg),
            3 => edge(g),
            _ => g.below(200_000),
        };
        let now = opened.saturating_add(after);
        let heard = opened + g.below((now - opened).saturating_add(1));
        let frame = g.chance(500).then(|| Call::Frame {
            now: heard,
            proof: Proof {
                slot: 0,
                tag: 1,
                counter: edge(g),
                k: g.chance(500),
                len: g.below(100),
                probe: g.chance(200),
                body: 0,
            },
            workers: false,
            spread: 0,
            target: Vec::new(),
            source: Vec::new(),
        });
        let line = match g.below(8) {
            0..=2 => Line::PendI { wait: pick(g, &[None, Some(0), Some(1), Some(2)]) },
            3 | 4 => Line::PendR,
            5 | 6 => Line::Drained { evidenced: pick(g, &[None, Some(false), Some(true)]) },
            _ => Line::Candidate { count: pick(g, &[1, 1, 1, 1, 2, 3, 31, 32]) },
        };
        let drained = matches!(line, Line::Drained { .. });
        let j = u64::from(cfg.jitter);
        Self {
            cfg,
            profile,
            opened,
            role: g.below(2) as u8,
            transport: edge(g),
            lease: g.chance(500).then(|| g.next_u64() as u32),
            spread: g.below(2 * j + 1) as i32 - j as i32,
            frame,
            peer_epoch: edge(g),
            hs_rtt: g.chance(600).then(|| match g.below(3) {
                0 => near(g, cfg.delay),
                1 => edge(g),
                _ => g.below(10_000),
            }),
            k: g.chance(500),
            fin: (drained && g.chance(300)).then(|| plain::Fin { msg: edge(g), ladder: ladder(g) }),
            elicit: (drained && g.chance(300)).then(|| ladder(g)),
            now,
            line,
            sampled: g.chance(500),
            by: g.below(3),
        }
    }

    // ---- the list ----

    fn write(&self, s: &mut String) {
        let mut numbers = String::new();
        self.cfg.write(&mut numbers);
        s.push_str("set");
        for (name, n) in SETTINGS.split(' ').zip(numbers[1..].split(' ')) {
            _ = write!(s, " {name} {n}");
        }
        let p = &self.profile;
        _ = writeln!(
            s,
            "\nprofile messages {} at_proof {} silence {} smaller {} floor {}",
            p.messages,
            u8::from(p.at_proof),
            u8::from(p.silence),
            u8::from(p.smaller),
            p.floor
        );
        let role = ["initiator", "responder"][usize::from(self.role)];
        _ = write!(s, "open {} {role} transport {}", self.opened, self.transport);
        if let Some(lease) = self.lease {
            _ = write!(s, " lease {lease}");
        }
        _ = writeln!(s, " spread {}", self.spread);
        if let Some(Call::Frame { now, proof: f, .. }) = &self.frame {
            let (k, probe) = (u8::from(f.k), u8::from(f.probe));
            _ = writeln!(s, "frame {now} counter {} k {k} len {} probe {probe}", f.counter, f.len);
        }
        _ = write!(s, "memory peer_epoch {}", self.peer_epoch);
        if let Some(n) = self.hs_rtt {
            _ = write!(s, " hs_rtt {n}");
        }
        _ = write!(s, "\ncurrent k {}", u8::from(self.k));
        let put = |l: &plain::Lad, s: &mut String| {
            _ = write!(s, " {} {} {} {}", l.origin, l.next, l.at.len(), l.keepalive);
            l.at.iter().for_each(|at| _ = write!(s, " {at}"));
        };
        if let Some(f) = &self.fin {
            _ = write!(s, " fin {}", f.msg);
            put(&f.ladder, s);
        }
        if let Some(l) = &self.elicit {
            s.push_str(" elicit");
            put(l, s);
        }
        s.push_str("\nshow\n");
        self.put_line(s);
        s.push_str("show\n");
    }

    fn put_line(&self, s: &mut String) {
        let now = self.now;
        match self.line {
            Line::PendI { wait: None } => _ = writeln!(s, "pendi {now}"),
            Line::PendI { wait: Some(n) } => _ = writeln!(s, "pendi {now} wait {n}"),
            Line::PendR => _ = writeln!(s, "pendr {now}"),
            Line::Drained { evidenced: None } => _ = writeln!(s, "drained {now}"),
            Line::Drained { evidenced: Some(f) } => {
                _ = writeln!(s, "drained {now} evidenced {}", u8::from(f));
            }
            Line::Candidate { count } => {
                (0..count).for_each(|i| _ = writeln!(s, "candidate {now} msg1 {i}"));
            }
        }
    }

    // ---- the published side ----

    /// The link before the line: `open`, the frame, and the named fields.
    fn link(&self) -> State {
        type P = Prof<2, false, false, false, 0>;
        let (cfg, smaller) = (&self.cfg, self.profile.smaller);
        let (role, transport, lease) = (self.role, self.transport, self.lease);
        let opened =
            open::<P>(cfg, smaller, self.opened, role, transport, lease, false, self.spread);
        let mut s = opened.state;
        if let Some(call) = &self.frame {
            s = leaves_behind(cfg, &self.profile, &s, call).expect("an accepted frame");
        }
        s.mem.peer_epoch = Some(self.peer_epoch);
        s.mem.hs_rtt = self.hs_rtt;
        let cur = s.cur.as_mut().expect("a fresh link");
        cur.k = self.k;
        cur.fin = self.fin.clone();
        cur.elicit = self.elicit.clone();
        s
    }

    /// What the handshake brings: the numbers that the lines write where
    /// nothing is named.
    fn made(&self) -> Made {
        let transport = self.transport;
        Made { tag: 2, session: 0, theirs: None, transport, epoch: self.peer_epoch }
    }

    fn shell(&self) -> Shell {
        Shell {
            transport: self.transport,
            tags: TagSource::at(2),
            local: Local(Some((0, 0))),
            ..Shell::new(false, 0)
        }
    }

    fn machine<P: Numbers>(&self, link: &State) -> Machine<P> {
        machine::<P>(link, &self.cfg, self.profile.smaller)
    }

    fn apply<P: Numbers>(&self, m: &mut Machine<P>, change: Change<'static, P>) {
        let mut out = Outputs::new();
        m.apply(TestInstant(self.now), change, &mut self.shell().env(), &mut out);
        m.withdraw(&mut out);
    }

    /// An own attempt and its reply at the instant.
    fn reply<P: Numbers>(&self, link: &State) -> Machine<P> {
        let mut m = self.machine::<P>(link);
        let sent = self.hs_rtt.filter(|_| self.sampled).and_then(|d| self.now.checked_sub(d));
        let first = TestInstant(sent.unwrap_or(self.opened));
        m.start(first, &mut self.shell().env(), &mut Outputs::new());
        let Cycle::Init(a) = &mut m.cycle else {
            panic!("the start opens");
        };
        a.resent = sent.is_none();
        let fin = (P::MESSAGES == 3).then(|| wire(0));
        let proof = ReplyProof::new(bonded(&m, &self.made()), fin);
        self.apply(&mut m, Change::Reply { proof, route: 0 });
        m
    }

    fn pendi(&self, link: &State, wait: u8) -> State {
        match (self.profile.messages, wait) {
            (2, 0) => show(&self.reply::<Outer<2, 0, false, false>>(link)),
            (2, 1) => show(&self.reply::<Outer<2, 1, false, false>>(link)),
            (2, _) => show(&self.reply::<Outer<2, 2, false, false>>(link)),
            (_, 0) => show(&self.reply::<Outer<3, 0, false, false>>(link)),
            (_, 1) => show(&self.reply::<Outer<3, 1, false, false>>(link)),
            (_, _) => show(&self.reply::<Outer<3, 2, false, false>>(link)),
        }
    }

    /// A first message of two, answered at the instant.
    fn respond(&self, link: &State) -> State {
        type P = Outer<2, 0, false, false>;
        let mut m = self.machine::<P>(link);
        let tok = Authentic::new(Msg1 {
            peer: PeerKey(addresses(self.profile.smaller).1),
            epoch: self.peer_epoch,
            session: 0,
            theirs: None,
            answer: 0,
        });
        self.apply(&mut m, Change::Respond { tok, yield_own: false, on_link: true });
        show(&m)
    }

    /// A handshake of three that a leg table completed, taken at the instant.
    fn leg(&self, link: &State) -> State {
        type P = Outer<3, 2, false, false>;
        let mut m = self.machine::<P>(link);
        let done = bonded(&m, &self.made());
        self.apply(&mut m, Change::Done { done, lease: None, restart: false });
        show(&m)
    }

    /// A setup, admitted when the link was opened, and the last message that
    /// completes it at the instant, without a cutover at proof.
    fn completed(&self, link: &State) -> State {
        type P = Outer<3, 1, false, false>;
        let mut m = self.machine::<P>(link);
        self.setup(&mut m, self.opened, 0);
        let seq = m.cands.iter().next().expect("an admitted setup").seq;
        let proof = FinalProof::new(bonded(&m, &self.made()), seq);
        self.apply(&mut m, Change::Accept { proof, restart: false });
        show(&m)
    }

    /// A cutover at the instant: on a frame under the pending epoch, or on one
    /// of the three kinds of evidence without one.
    fn cutover(&self, link: &State, evidenced: bool) -> State {
        type P = Outer<2, 0, false, false>;
        let now = TestInstant(self.now);
        let mut m = self.reply::<P>(link);
        let mut out = Outputs::new();
        if evidenced {
            let tag = EpochTag::of(self.made().tag);
            let proof = FrameProof::new(tag, Slot::Pending, 0, false, 0, false);
            m.frame(now, proof, &mut [], 0, &mut self.shell().env(), &mut out);
            MARKS.take();
        } else {
            let Cycle::PendI(p) = core::mem::replace(&mut m.cycle, Cycle::Idle) else {
                panic!("the reply leaves a pending epoch");
            };
            let pend = Pend { ep: p.ep, restart: p.restart, fin: p.fin };
            let kinds = [Evidence::proof(), Evidence::assumed(), Evidence::delay()];
            let ev = kinds[self.by as usize];
            m.cutover(now, pend, ev, false, &mut self.shell().env(), &mut out);
        }
        show(&m)
    }

    /// A setup, by the published `step`.
    fn setup<P: Numbers<Fsp = ()>>(&self, m: &mut Machine<P>, now: u64, msg1: u64) {
        let msg1 = &wire(msg1);
        let setup = Input::Setup { msg1, carrier: 0, route: 0, only: () };
        m.step(TestInstant(now), setup, &mut self.shell().env());
    }

    fn candidates(&self, link: &State, count: u64) -> State {
        let mut m = self.machine::<Outer<3, 1, false, false>>(link);
        (0..count).for_each(|i| self.setup(&mut m, self.now, i));
        show(&m)
    }
}

/// The names of the settings in a line `set`, in the order of the replay
/// format.
const SETTINGS: &str = "after jitter messages handshake check drain retention hold revert dampening \
    ttl young link_age session_age floor_link floor_session floor_cutover silence resends soft hard \
    delay arrival";

/// Writes the lists of the cases for `runs`.
pub(crate) fn lists(seed: u64, count: u64) {
    let mut stdout = std::io::BufWriter::new(std::io::stdout().lock());
    let mut text = String::new();
    for n in 0..count {
        Case::draw(seed, n).write(&mut text);
        put(&mut stdout, &mut text);
    }
    finish(stdout);
}

// ---- the comparison ----

/// A record as its fields, by name.
type Named = Vec<(String, String)>;

fn field(r: &mut Named, name: &str, value: impl core::fmt::Debug) {
    r.push((name.into(), std::format!("{value:?}")));
}

fn epoch_fields(e: &plain::Ep) -> Named {
    let mut r = Named::new();
    field(&mut r, "tag", e.tag);
    field(&mut r, "session", e.session);
    field(&mut r, "sent", e.sent);
    field(&mut r, "lease", e.lease);
    field(&mut r, "theirs", e.theirs);
    field(&mut r, "transport", e.transport);
    field(&mut r, "k", e.k);
    field(&mut r, "role", e.role);
    field(&mut r, "base", e.base);
    field(&mut r, "started", e.started);
    field(&mut r, "route", e.route);
    field(&mut r, "ext", e.ext);
    field(&mut r, "recv", e.recv);
    field(&mut r, "floor", e.floor);
    field(&mut r, "heard", e.heard);
    field(&mut r, "moved", e.moved);
    field(&mut r, "assumed", e.assumed);
    field(&mut r, "fin", &e.fin);
    field(&mut r, "elicit", &e.elicit);
    field(&mut r, "prompted", e.prompted);
    r
}

/// The record that the line places; empty where the state has none.
fn record(s: &State, line: Line) -> Named {
    match (line, &s.cycle) {
        (Line::PendI { .. }, plain::Cycle::PendI(p)) => {
            let mut r = epoch_fields(&p.ep);
            field(&mut r, "wait", p.wait);
            field(&mut r, "deadline", p.deadline);
            field(&mut r, "restart", p.restart);
            field(&mut r, "final", &p.fin);
            field(&mut r, "probes", &p.probes);
            field(&mut r, "probed", p.probed);
            field(&mut r, "stayed", p.stayed);
            field(&mut r, "reverted", p.reverted);
            r
        }
        (Line::PendR, plain::Cycle::PendR(p)) => {
            let mut r = epoch_fields(&p.ep);
            field(&mut r, "deadline", p.deadline);
            field(&mut r, "restart", p.restart);
            field(&mut r, "answer", p.answer);
            r
        }
        (Line::PendI { .. } | Line::PendR, _) => Named::new(),
        (Line::Drained { .. }, _) => s.drain.as_ref().map_or_else(Named::new, |d| {
            let mut r = epoch_fields(&d.ep);
            field(&mut r, "deadline", d.deadline);
            field(&mut r, "evidenced", d.evidenced);
            r
        }),
        (Line::Candidate { .. }, _) => {
            let mut r = Named::new();
            field(&mut r, "next", s.next);
            field(&mut r, "count", s.cands.len());
            for (i, c) in s.cands.iter().enumerate() {
                field(&mut r, &std::format!("candidate {i}"), c);
            }
            r
        }
    }
}

/// The state without the record that the line places.
fn rest(s: &State, line: Line) -> State {
    let mut s = s.clone();
    match line {
        Line::PendI { .. } | Line::PendR => s.cycle = plain::Cycle::Idle,
        Line::Drained { .. } => s.drain = None,
        Line::Candidate { .. } => {
            s.next = 0;
            s.cands.clear();
        }
    }
    s
}

/// The fields in which two records differ: name, Rust, program.
fn differences(rust: &Named, other: &Named) -> Vec<(String, String, String)> {
    let find = |r: &Named, name: &str| {
        let found = r.iter().find(|f| f.0 == name);
        found.map_or_else(|| "absent".into(), |f| f.1.clone())
    };
    let names: BTreeSet<&String> = rust.iter().chain(other).map(|f| &f.0).collect();
    names
        .into_iter()
        .map(|n| (n.clone(), find(rust, n), find(other, n)))
        .filter(|(_, a, b)| a != b)
        .collect()
}

#[derive(Default)]
struct Count {
    compared: u64,
    differ: u64,
    /// How often each field differs.
    fields: BTreeMap<String, u64>,
}

#[derive(Default)]
struct Counts(BTreeMap<String, Count>);

impl Counts {
    fn hold(&mut self, name: &str, case: &Case, differs: Vec<(String, String, String)>) {
        let c = self.0.entry(name.into()).or_default();
        c.compared += 1;
        if differs.is_empty() {
            return;
        }
        c.differ += 1;
        if c.differ < 3 {
            let mut list = String::new();
            case.write(&mut list);
            println!("{name} differs in this list:\n{list}");
        }
        for (field, rust, other) in differs {
            if c.differ < 3 {
                println!("{field}: rust {rust}, runs {other}");
            }
            *c.fields.entry(field).or_default() += 1;
        }
    }
}

/// One case and the two states that the program showed.
fn compare(case: &Case, before: &State, after: &State, counts: &mut Counts) {
    let link = case.link();
    let whole = |a: &State, b: &State| {
        if a == b {
            return Vec::new();
        }
        let (mut rust, mut other) = (String::new(), String::new());
        a.write(&mut rust);
        b.write(&mut other);
        std::vec![("state".to_string(), rust, other)]
    };
    counts.hold("the link before the line", case, whole(&link, before));
    let left = whole(&rest(before, case.line), &rest(after, case.line));
    counts.hold("the rest of the link", case, left);
    let placed = record(after, case.line);
    let held = |s: &State| differences(&record(s, case.line), &placed);
    let messages = ["two", "three"][usize::from(case.profile.messages == 3)];
    match case.line {
        Line::PendI { wait } => {
            let wait = wait.unwrap_or(1);
            let name = std::format!("pendi, wait {wait}, {messages} messages");
            counts.hold(&name, case, held(&case.pendi(&link, wait)));
        }
        Line::PendR if case.profile.messages == 2 => {
            counts.hold("pendr, two messages", case, held(&case.respond(&link)));
        }
        // Two ways lead to this record: a leg table's completion, and, where
        // the responder does not cut over at proof, a completed candidate.
        Line::PendR => {
            let leg = held(&case.leg(&link));
            let completed = held(&case.completed(&link));
            if leg.is_empty() {
                counts.hold("pendr, three messages, as of a leg table", case, leg);
            } else if completed.is_empty() && !case.profile.at_proof {
                counts.hold("pendr, three messages, as of a candidate", case, completed);
            } else {
                counts.hold("pendr, three messages, neither", case, leg);
            }
        }
        Line::Drained { evidenced } => {
            let evidenced = evidenced.unwrap_or(true);
            let mut left = case.cutover(&link, evidenced);
            // The line leaves the current epoch as it is and gives the drained
            // one another tag and key bit, by its own rule.
            let ep = &mut left.drain.as_mut().expect("a cutover drains").ep;
            ep.tag = 0;
            ep.k = !case.k;
            let name = std::format!("drained, evidenced {}", u8::from(evidenced));
            counts.hold(&name, case, held(&left));
        }
        Line::Candidate { count } => {
            counts.hold("candidate", case, held(&case.candidates(&link, count)));
        }
    }
}

/// Compares the states in what `runs` answered to the lists.
pub(crate) fn placed(seed: u64, count: u64) {
    let mut counts = Counts::default();
    let mut states = std::io::stdin().lock().lines().filter_map(|line| {
        let line = line.expect("the answers are text");
        let state = line.strip_prefix("state ")?;
        Some(State::read(&mut Fields::new(state)))
    });
    for n in 0..count {
        let case = Case::draw(seed, n);
        let (Some(before), Some(after)) = (states.next(), states.next()) else {
            println!("the answers end before the states of list {}", n + 1);
            std::process::exit(1);
        };
        compare(&case, &before, &after, &mut counts);
    }
    if states.next().is_some() {
        println!("the answers have more states than the lists ask for");
        std::process::exit(1);
    }
    let (mut compared, mut differ) = (0, 0);
    for (name, c) in &counts.0 {
        println!("{name}: {} compared, {} differ", c.compared, c.differ);
        for (field, n) in &c.fields {
            println!("    {field}: {n}");
        }
        compared += c.compared;
        differ += c.differ;
    }
    println!("{compared} compared, {differ} differ");
    std::process::exit((differ > 0).into());
}
