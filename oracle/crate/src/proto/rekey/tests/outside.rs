//! The program `outside`: what the published `apply` does with inputs that no
//! call of the library takes, beside the header's table for them (table.rs).
use super::*;
use crate::proto::rekey::tests::lines::{arguments, number as argument};
use crate::proto::rekey::tests::table::{self, Cutover, Facts, Given as Table, Made, Row};
use crate::proto::rekey::tests::{random, state::Cand};

// ---- a profile with first messages and every cutover ----

/// A profile: messages M, the initiator's cutover C (0 on proof, 1 on evidence,
/// 2 after a delay), the responder's at proof A, indices X.
#[derive(Debug)]
pub(crate) struct Outer<const M: u8, const C: u8, const A: bool, const X: bool>;

/// A first message of two: what the handshake that it completes brings, and
/// the answer, whose number is that of the message too.
#[derive(Debug)]
pub(crate) struct Msg1 {
    pub(crate) peer: PeerKey,
    pub(crate) epoch: u64,
    pub(crate) session: u64,
    pub(crate) theirs: Option<u32>,
    pub(crate) answer: u64,
}

impl<P: Numbers> Msg1Read<P> for Msg1 {
    fn epoch(&self) -> [u8; 8] {
        self.epoch.to_le_bytes()
    }

    fn digest(&self) -> Digest {
        digest(self.answer)
    }

    fn ephemeral(&self) -> Digest {
        digest(self.answer)
    }

    fn remote(&self) -> PeerKey {
        self.peer
    }

    fn answer(&self, _: &Local, _: Option<u32>) -> Result<(Completed<P>, Wire), HsError> {
        let session = Box::new(Session { number: self.session, sent: 0, tag: 0 });
        let epoch = self.epoch.to_le_bytes();
        let done = Completed { session, remote: self.peer, epoch, theirs: self.theirs };
        Ok((done, wire(self.answer)))
    }
}

impl<const M: u8, const C: u8, const A: bool, const X: bool> Profile for Outer<M, C, A, X> {
    type Hs = Hs;
    type Session = Session;
    type Indices = Lease;
    type Transport = u64;
    type Carrier = u64;
    type Route = u64;
    type Ext = u64;
    type LocalKeys = Local;
    type Fsp = ();
    type Fmp = ();
    type Msg1 = Msg1;
    type Done = Infallible;

    const LAYER: Layer = Layer::Fmp;
    const MESSAGES: u8 = M;
    const COMMIT: Commit = Commit::AtFinal;
    const INITIATOR_CUTOVER: InitiatorCutover = match C {
        0 => InitiatorCutover::OnProof,
        1 => InitiatorCutover::OnEvidence,
        _ => InitiatorCutover::AfterDelay,
    };
    const RESPONDER_CUTOVER: ResponderCutover =
        if A { ResponderCutover::AtProof } else { ResponderCutover::OnFrame };
    const CANDIDATES: usize = 32;
    const PER_CARRIER: usize = 32;
    const DAMPEN_AT: DampenAt = if M == 2 { DampenAt::Answer } else { DampenAt::Completion };
    const SELECT: Select = Select::ByIndex;
    const SILENCE: bool = true;
    const SETUP_RTT: bool = M == 3;
    const INDEXED: bool = X;
    const FLOOR: usize = 0;

    fn initiate(local: &Local, _: &PeerKey, _: Option<u32>) -> Result<(Hs, Wire), HsError> {
        local.0.map(|(hs, msg)| (Hs(hs), wire(msg))).ok_or(HsError)
    }

    fn valid(_: &[u8]) -> bool {
        true
    }

    fn answer(local: &Local, _: &[u8]) -> Result<(Hs, Wire), HsError> {
        local.0.map(|(hs, msg)| (Hs(hs), wire(msg))).ok_or(HsError)
    }

    fn index(_: &[u8]) -> Option<u32> {
        unreachable!()
    }

    fn reply(_: &Hs, _: &Local, _: &[u8]) -> Result<Read<Self>, HsError> {
        unreachable!()
    }

    fn complete(_: &Hs, _: &[u8]) -> Result<Completed<Self>, HsError> {
        unreachable!()
    }

    fn prompt(_: Duration, _: &mut Vec<u8>) {
        unreachable!()
    }

    fn is_probe(_: &[u8]) -> bool {
        unreachable!()
    }
}

impl<const M: u8, const C: u8, const A: bool, const X: bool> Numbers for Outer<M, C, A, X> {
    fn replaced(_: &Msg1) -> Event {
        unreachable!()
    }
}

/// A completed handshake with the bonded peer.
pub(crate) fn bonded<P: Numbers>(m: &Machine<P>, made: &Made) -> Bonded<P> {
    let Bond::Key(remote) = m.bond else {
        panic!("the machines here have a key");
    };
    let session = Box::new(Session { number: made.session, sent: 0, tag: made.tag });
    let epoch = made.epoch.to_le_bytes();
    m.bond
        .check(Completed { session, remote, epoch, theirs: made.theirs })
        .expect("the peer is the bonded one")
}

// ---- the published side ----

/// The events of the work that the table names: it tells no answer of its own
/// (kinds of message below the last), no report and nothing of a worker's copy
/// but its end.
fn work(e: &Event) -> bool {
    match e.0 {
        "send" => e.1[1] == Some(4),
        "prompt" | "bind" | "unbind" | "revoke" | "release" | "retired" => true,
        _ => false,
    }
}

/// The published `apply` of a change, closed by `withdraw` as `step` is.
fn applied<P: Numbers>(
    s: &State,
    g: &Table<'_>,
    made: &Made,
    lease: Option<u32>,
    change: impl FnOnce(&Machine<P>) -> Change<'static, P>,
) -> Row {
    let mut m = machine::<P>(s, g.cfg, g.smaller);
    let (j, draw) = drawn(g.cfg, g.spread);
    m.params.cfg.jitter = j;
    let mut shell = Shell {
        indices: Lease(lease),
        transport: made.transport,
        tags: TagSource::at(made.tag),
        ..Shell::new(false, draw)
    };
    let mut out = Outputs::new();
    let change = change(&m);
    m.apply(TestInstant(g.now), change, &mut shell.env(), &mut out);
    m.withdraw(&mut out);
    let mut told: Vec<Event> = events(&out).into_iter().filter(work).collect();
    // A pending's end is the first thing that `accept` and `adopt` do.
    if m.record.len() > 0 {
        let tag = s.pending().map(|e| e.tag);
        told.insert(0, Event("ended", alloc::vec![tag]));
    }
    Row { state: show(&m), work: told }
}

// ---- the comparison ----

/// The rows that have writes, in the order of the table.
const ROWS: [&str; 14] = [
    "Reply, R3 two messages",
    "Reply, R4 restart",
    "Reply, R4 evidence",
    "Reply, R4 delay",
    "Reply, R5 without a current epoch",
    "PeerMsg1, idle",
    "PeerMsg1, own attempt given up",
    "Setup",
    "Final, F4 at proof",
    "Final, F4 held",
    "Final, F4 without a current epoch",
    "PeerDone",
    "candidate removed",
    "established",
];

/// How many answers of a row were compared, and how many differ.
#[derive(Default)]
struct Tally([(u64, u64); ROWS.len()]);

impl Tally {
    fn hold(&mut self, row: &str, published: Row, table: Row) {
        let i = ROWS.iter().position(|r| *r == row).expect("a row");
        let (compared, differ) = &mut self.0[i];
        *compared += 1;
        if published != table {
            *differ += 1;
            if *differ < 3 {
                let line = |r: &Row| {
                    let mut s = String::new();
                    r.state.write(&mut s);
                    std::format!("{s}\n        {:?}", r.work)
                };
                println!("{row} differs\nrust:   {}\ntable:  {}", line(&published), line(&table));
            }
        }
    }
}

fn state_only(state: State) -> Row {
    Row { state, work: Vec::new() }
}

/// What the events bring: numbers that no random state has, so that one in the
/// place of another shows.
const MADE: Made =
    Made { tag: 0x7777_7777_7777, session: 5000, theirs: Some(77), transport: 600, epoch: 0 };
const ROUTE: u64 = 9000;
const LAST: u64 = 8000;
const ANSWER: u64 = 4100;
const LEASE: u32 = 3100;

/// Every row that the state allows.
fn rows<P: Numbers<Msg1 = Msg1>>(s: &State, g: &Table<'_>, t: &mut Tally) {
    for epoch in [s.mem.peer_epoch.unwrap_or(4), 123_456] {
        handshakes::<P>(s, g, &Made { epoch, ..MADE }, t);
    }
    if !g.three && matches!(s.cycle, plain::Cycle::Idle | plain::Cycle::Init(_)) && s.cur.is_some()
    {
        let lease = P::INDEXED.then_some(LEASE);
        let own = matches!(s.cycle, plain::Cycle::Init(_));
        let published = applied::<P>(s, g, &MADE, lease, |_| Change::Respond {
            tok: Authentic::new(Msg1 {
                peer: PeerKey(addresses(g.smaller).1),
                epoch: MADE.epoch,
                session: MADE.session,
                theirs: MADE.theirs,
                answer: ANSWER,
            }),
            yield_own: own,
            on_link: true,
        });
        let row = ["PeerMsg1, idle", "PeerMsg1, own attempt given up"][usize::from(own)];
        t.hold(row, published, table::peer_msg1(s, g, &MADE, lease, ANSWER));
    }
    if s.cands.len() < 32 {
        let published = applied::<P>(s, g, &MADE, None, |_| Change::Candidate {
            hs: Box::new(Hs(1)),
            msg1: wire(2),
            ack: wire(3),
            carrier: 4,
            route: 5,
            evict: None,
        });
        let (born, deadline, seq) = (0, 0, 0);
        let c =
            Cand { hs: 1, msg1: 2, ack: 3, carrier: 4, route: 5, born, deadline, bound: None, seq };
        t.hold("Setup", published, state_only(table::setup(s, g, c)));
    }
    if let Some(i) = s.cands.len().checked_sub(1).map(|n| n / 2) {
        let (seq, reason) = (s.cands[i].seq, Reason::KeyMismatch);
        let published = applied::<P>(s, g, &MADE, None, |_| Change::Drop { seq, reason });
        t.hold("candidate removed", published, state_only(table::removed(s, i)));
    }
    elsewhere::<P>(s, g, t);
}

/// The rows of a completed handshake.
fn handshakes<P: Numbers>(s: &State, g: &Table<'_>, made: &Made, t: &mut Tally) {
    let same = s.mem.peer_epoch == Some(made.epoch);
    if let plain::Cycle::Init(_) = s.cycle {
        let row = match (s.cur.is_some(), g.three, same, g.cutover) {
            (false, ..) => "Reply, R5 without a current epoch",
            (_, false, ..) => "Reply, R3 two messages",
            (_, _, false, _) => "Reply, R4 restart",
            (_, _, _, Cutover::Delay) => "Reply, R4 delay",
            _ => "Reply, R4 evidence",
        };
        let published = applied::<P>(s, g, made, None, |m| Change::Reply {
            proof: ReplyProof::new(bonded(m, made), g.three.then(|| wire(LAST))),
            route: ROUTE,
        });
        t.hold(row, published, table::reply(s, g, made, ROUTE, LAST));
    }
    let restart = s.cur.is_some() && s.mem.peer_epoch.is_some_and(|e| e != made.epoch);
    let last = s.cands.len().saturating_sub(1);
    for i in [0, last / 2, last] {
        if s.cands.is_empty() || !g.three {
            break;
        }
        let row = match (s.cur.is_some(), g.at_proof) {
            (false, _) => "Final, F4 without a current epoch",
            (_, true) => "Final, F4 at proof",
            (_, false) => "Final, F4 held",
        };
        let published = applied::<P>(s, g, made, None, |m| Change::Accept {
            proof: FinalProof::new(bonded(m, made), s.cands[i].seq),
            restart,
        });
        t.hold(row, published, table::last_message(s, g, made, i));
    }
    if s.cur.is_some() {
        for lease in [None, Some(LEASE)] {
            let published = applied::<P>(s, g, made, None, |m| Change::Done {
                done: bonded(m, made),
                lease: lease.map(IndexLease::for_test),
                restart,
            });
            t.hold("PeerDone", published, table::peer_done(s, g, made, lease));
        }
    }
}

/// The row of a first handshake that was made elsewhere; what it knew is taken
/// from the state.
fn elsewhere<P: Numbers>(s: &State, g: &Table<'_>, t: &mut Tally) {
    let facts = Facts {
        peer_epoch: s.mem.peer_epoch,
        link_since: s.mem.link_since,
        peer_k: s.mem.peer_k,
        last_rx: s.mem.last_rx,
        k: s.mem.sent_data,
        started: s.mem.damp.unwrap_or(g.now),
    };
    let (j, draw) = drawn(g.cfg, g.spread);
    let mut params = Params::new(g.cfg.config()).expect("the settings are accepted");
    params.cfg.jitter = j;
    let blank = machine::<P>(s, g.cfg, g.smaller);
    let mut shell = Shell { tags: TagSource::at(MADE.tag), ..Shell::new(false, draw) };
    let ids = Ids {
        lease: Some(IndexLease::for_test(LEASE)),
        theirs: MADE.theirs,
        transport: MADE.transport,
    };
    let (m, _) = Machine::<P>::established(
        params,
        blank.bond,
        addresses(g.smaller).0,
        bonded(&blank, &MADE),
        ids,
        SetupFacts {
            peer_epoch: facts.peer_epoch.map(u64::to_le_bytes),
            k: facts.k,
            link_since: TestInstant(facts.link_since),
            started: TestInstant(facts.started),
            peer_k: facts.peer_k.map(|k| k != 0),
            last_rx: at(facts.last_rx),
            record: Record::new(),
        },
        TestInstant(g.now),
        &mut shell.env(),
    );
    let (transport, lease) = (MADE.transport, Some(LEASE));
    let opened = open::<P>(g.cfg, g.smaller, g.now, 0, transport, lease, false, g.spread);
    let written = table::established(&opened.state, &MADE, &facts);
    t.hold("established", state_only(show(&m)), state_only(written));
}

/// The rows on the states of COUNT random blocks, each at several instants, by
/// both answers of `smaller` and by six profiles.
fn compare(seed: u64, count: u64) -> Tally {
    let mut t = Tally::default();
    for n in 0..count {
        let (cfg, s, now) = random::begins(seed, n);
        let since = s.mem.link_since;
        let mut instants = std::vec![now, since, since.saturating_add(700), u64::MAX - 5];
        if let plain::Cycle::Init(a) = &s.cycle {
            instants.extend([0, 900, 5000].map(|d| a.first.saturating_add(d)));
            instants.push(a.first.saturating_sub(5));
        }
        for c in s.cands.iter().take(2) {
            instants.extend([0, 999, 1000].map(|d| c.born.saturating_add(d)));
        }
        let j = i32::from(cfg.jitter);
        let spread = (n % (2 * u64::from(cfg.jitter) + 1)) as i32 - j;
        for now in instants {
            for smaller in [false, true] {
                let g = |three, cutover, at_proof| Table {
                    cfg: &cfg,
                    three,
                    cutover,
                    at_proof,
                    smaller,
                    now,
                    spread,
                };
                let (proof, evidence) = (Cutover::Proof, Cutover::Evidence);
                rows::<Outer<2, 0, false, true>>(&s, &g(false, proof, false), &mut t);
                rows::<Outer<2, 0, false, false>>(&s, &g(false, proof, false), &mut t);
                rows::<Outer<3, 1, false, false>>(&s, &g(true, evidence, false), &mut t);
                rows::<Outer<3, 1, true, false>>(&s, &g(true, evidence, true), &mut t);
                rows::<Outer<3, 2, false, true>>(&s, &g(true, Cutover::Delay, false), &mut t);
                rows::<Outer<3, 2, true, true>>(&s, &g(true, Cutover::Delay, true), &mut t);
            }
        }
    }
    t
}

pub(crate) fn main() {
    let args = arguments();
    let (seed, count) = (|| argument(&args, 1), || argument(&args, 2));
    match args.first().map_or("", String::as_str) {
        "table" => {
            let t = compare(seed(), count());
            for (row, (compared, differ)) in ROWS.iter().zip(t.0) {
                println!("{row}: {compared} compared, {differ} differ");
            }
            let (compared, differ) = t.0.iter().fold((0, 0), |a, r| (a.0 + r.0, a.1 + r.1));
            println!("{compared} compared, {differ} differ");
            std::process::exit((differ > 0).into());
        }
        "lists" => placing::lists(seed(), count()),
        "placed" => placing::placed(seed(), count()),
        _ => {
            eprintln!("outside [--fault NAME] table|lists|placed SEED COUNT | --faults");
            std::process::exit(2);
        }
    }
}
