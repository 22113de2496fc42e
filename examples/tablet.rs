//! The host loop of a counting tablet: it holds one link to its hub. It sleeps by the wake, polls,
//! answers START, survives starts that open nothing and calls that are refused, delivers frames, and
//! tells the link what its receive worker and the path report.
//!
//! Clock, network, keys and the worker are simulated: the clock jumps to the next instant at which
//! something happens, and `hub` says what happens outside. So every run writes the same lines, those of
//! examples/tablet.txt, and examples/tablet.c writes them too. examples/run builds, runs and compares
//! both.
use siklyavon_link::*;
use std::fmt::Debug;

const TRANSPORT: u64 = 7;
/// The hub's startup epoch, as its handshake messages carry it.
const HUB_EPOCH: u64 = 77;
/// Where the plaintext of a frame begins in the tablet's buffer.
const BODY: usize = 16;

/// What happens outside, in this order.
#[derive(Clone, Copy, PartialEq)]
enum What {
    Nothing,
    Data,
    Heard,
    WrongTag,
    Gone,
    Here,
    Back,
    BadSettings,
    PathLost,
    PathFound,
    Reply,
    Moved,
    Late,
    End,
}

struct Tablet {
    now: u64,
    cfg: Config,
    profile: Profile,
    link: State,
    log: Log,
    frame: [u8; 64],
    /// The receive worker is there.
    workers: bool,
    /// Frames sealed under the current epoch.
    sealed: u64,
    /// The last tag given to an epoch.
    tag: u64,
    /// No poll before this instant.
    next: u64,
    /// No start is tried before this one.
    retry: u64,
    /// Tries in a row that opened nothing.
    failed: u32,
    /// When a start opened an attempt.
    started: Option<u64>,
    /// What happened last.
    done: What,
    /// Of the draws.
    seed: u32,
    /// A teardown was told.
    closed: bool,
    polls: u32,
    tries: u32,
    refused: u32,
    delivered: u32,
    reported: u32,
}

/// What a call is given beside the state and its draws. A method would borrow the whole tablet, whose
/// link is lent to the same call.
macro_rules! given {
    ($t:ident) => {
        Given { cfg: &$t.cfg, profile: &$t.profile, now: $t.now, workers: $t.workers }
    };
}

/// The case's name in small letters: `AdoptionNotSeen` is "adoption not seen".
fn name(case: impl Debug) -> String {
    let mut out = String::new();
    for c in format!("{case:?}").chars() {
        if c.is_uppercase() && !out.is_empty() {
            out.push(' ');
        }
        out.push(c.to_ascii_lowercase());
    }
    out
}

impl Tablet {
    /// One line, behind the instant.
    fn say(&self, line: impl AsRef<str>) {
        println!("{:6} {}", self.now, line.as_ref());
    }

    /// Draws from 0 to `bound`. A tablet takes them from a random source; this one is the same in
    /// each run.
    fn draw(&mut self, bound: u32) -> u32 {
        self.seed = self.seed.wrapping_mul(1_103_515_245).wrapping_add(12_345);
        (self.seed >> 16) % (bound + 1)
    }

    fn spread(&mut self) -> i32 {
        let j = self.cfg.jitter;
        self.draw(2 * u32::from(j)) as i32 - i32::from(j)
    }

    /// What an accepted call gave. A refusal is written down; the link stays as it was.
    fn accepted<T>(&mut self, call: &str, r: Result<T, Refusal>) -> Option<T> {
        let r = match r {
            Ok(given) => return Some(given),
            Err(r) => r,
        };
        self.refused += 1;
        let test = Refused::of(r.number).expect("a number of the list");
        match Place::of(r.place) {
            Some(check) => self.say(format!(
                "{call} refused: {} {}, place {} {}",
                r.number,
                name(test),
                r.place,
                name(check)
            )),
            None => self.say(format!("{call} refused: {} {}", r.number, name(test))),
        }
        None
    }

    /// A handshake is started. Here the radio is off at the first two tries.
    fn try_to_start(&mut self) {
        self.tries += 1;
        let opened = (self.tries > 2).then_some(Attempted {
            hs: 11,
            msg: 12,
            transport: TRANSPORT,
            lease: Some(43),
        });
        if let Some(a) = opened {
            self.say(format!(
                "  try {}: handshake {}, message {} sent, index 43 bound",
                self.tries, a.hs, a.msg
            ));
        }
        let given = given!(self);
        let r = reply(&mut self.link, given, opened);
        if self.accepted("reply", r).is_none() {
            return;
        }
        if opened.is_some() {
            self.failed = 0;
            self.retry = 0;
            self.started = Some(self.now);
        } else {
            // The start stays called for, and each poll tells it again: the back-off is the
            // tablet's.
            self.failed += 1;
            self.retry = self.now + (self.cfg.check << self.failed.min(6));
            self.say(format!(
                "  try {} opened nothing; no other before {}",
                self.tries, self.retry
            ));
        }
    }

    /// The current epoch's count of sealed frames is told.
    fn count(&mut self) {
        let r = sent(&mut self.link, self.now, self.sealed);
        self.accepted("sent", r);
    }

    /// The worker takes the receive half that was offered. No notice uses its draw.
    fn hand_over(&mut self, tag: u64) {
        self.say(format!("  worker took epoch {tag}"));
        let given = given!(self);
        let r = delegated(&mut self.link, given, 0, tag, &mut self.log);
        self.then("delegated", r);
    }

    /// The events of a call that was accepted are carried out.
    fn then<T>(&mut self, call: &str, r: Result<T, Refusal>) {
        if self.accepted(call, r).is_some() {
            self.carry_out();
        }
    }

    /// Carry the events of a call out, front to back. They are copied first: some make a call
    /// themselves, with the same log.
    fn carry_out(&mut self) {
        let mut told = false;
        for event in self.log.events().collect::<Vec<_>>() {
            match event {
                Event::Send { msg, kind, rungs } => {
                    self.say(format!("  send: message {msg}, {}, rungs {rungs}", name(kind)))
                }
                Event::Prompt { tag, rungs } => {
                    self.say(format!("  prompt: epoch {tag}, rungs {rungs}"));
                    if tag == self.link.cur.ep.tag {
                        self.sealed += 1;
                        told = true;
                    }
                }
                Event::Deliver { slot, tag, start, end } => {
                    self.delivered += 1;
                    let bytes = &self.frame[start as usize..end as usize];
                    self.say(format!(
                        "  deliver: {} epoch {tag}, \"{}\"",
                        name(slot),
                        String::from_utf8_lossy(bytes)
                    ));
                }
                Event::Bind { transport, index, tag: _, purpose } => self.say(format!(
                    "  bind: transport {transport}, index {index}, {}",
                    name(purpose)
                )),
                Event::Unbind { transport, index } => {
                    self.say(format!("  unbind: transport {transport}, index {index}"));
                }
                Event::Delegate { tag, floor, .. } => {
                    let floor = floor.map_or(String::new(), |f| format!(", floor {f}"));
                    self.say(format!("  delegate: epoch {tag}{floor}"));
                    self.hand_over(tag);
                }
                Event::Revoke { tag, .. } => self.say(format!("  revoke: epoch {tag}")),
                Event::Release { index } => self.say(format!("  release: index {index}")),
                Event::Installed { tag, role, evidence } => {
                    self.sealed = 0;
                    self.say(format!(
                        "  installed: epoch {tag}, {}, {}",
                        name(role),
                        name(evidence)
                    ));
                }
                Event::Retired { tag } => self.say(format!("  retired: epoch {tag}")),
                Event::Reverted { tag } => self.say(format!("  reverted: epoch {tag}")),
                Event::PeerRestarted { epoch } => self.say(format!("  peer restarted: {epoch}")),
                Event::Rekeyed { role } => self.say(format!("  rekeyed: {}", name(role))),
                Event::Reject(reason) => self.say(format!("  reject: {}", name(reason))),
                Event::Abandoned(cause) => self.say(format!("  abandoned: {}", name(cause))),
                Event::Teardown(why) => {
                    self.say(format!("  teardown: {}", name(why)));
                    self.closed = true;
                }
                Event::Mark { tag, counter } => {
                    self.say(format!("  mark: epoch {tag}, counter {counter}"));
                }
                Event::Start(kind) => {
                    self.say(format!("  start: {}", name(kind)));
                    if self.now >= self.retry {
                        self.try_to_start();
                    }
                }
                Event::Ended { tag } => self.say(format!("  ended: epoch {tag}")),
            }
        }
        // A prompt is a frame that was sealed.
        if told {
            self.count();
        }
    }

    /// A frame of the hub, which the worker opened. It has the replay window and hands the plaintext
    /// up.
    fn worker_hears(&mut self, tag: u64, counter: u64, text: &str) {
        self.reported += 1;
        self.say(format!("worker: frame of {} bytes under epoch {tag}, \"{text}\"", text.len()));
        let (given, k) = (given!(self), self.link.cur.ep.k);
        let r = worker(&mut self.link, given, 0, tag, k, counter, &mut self.log);
        self.then("worker", r);
    }

    /// The worker is gone: the epoch of the tag is received here again.
    fn worker_gone(&mut self, tag: u64) {
        self.workers = false;
        self.say(format!("worker gone: epoch {tag}"));
        let given = given!(self);
        let r = undelegated(&mut self.link, given, 0, tag, &mut self.log);
        self.then("undelegated", r);
    }

    /// The tablet seals data for the hub.
    fn seal(&mut self, text: &str) {
        self.say(format!("seal: {} bytes under epoch {}", text.len(), self.link.cur.ep.tag));
        let given = given!(self);
        let r = data_sent(&mut self.link, given, 0, &mut self.log);
        self.then("data_sent", r);
        self.sealed += 1;
        self.count();
    }

    /// The way to the hub is lost or found, with the round trip where it was measured.
    fn path(&mut self, reachable: bool, srtt: Option<u64>) {
        self.say(format!("path: {}", if reachable { "found" } else { "lost" }));
        let given = given!(self);
        let r = path(&mut self.link, given, 0, reachable, srtt, &mut self.log);
        self.then("path", r);
    }

    /// A frame of the hub, which the tablet's own half opened. Its plaintext goes to the tablet's
    /// buffer, from `BODY` on.
    fn hear(&mut self, tag: u64, counter: u64, text: &str) {
        let proof = FrameProof {
            tag,
            slot: Slot::Current.number(),
            counter,
            k: self.link.cur.ep.k,
            len: text.len(),
            probe: false,
        };
        self.say(format!("frame of {} bytes under epoch {tag}", proof.len));
        let spread = self.spread();
        let given = given!(self);
        let (link, log) = (&mut self.link, &mut self.log);
        let r = frame(link, given, spread, proof, BODY, text.as_bytes(), &mut self.frame, log);
        self.then("frame", r);
    }

    /// The reply to the own attempt authenticated: no call takes it, the fields are written (R1 to
    /// R3 of the table in include/siklyavon_link.h). The next poll cuts over.
    fn answered(&mut self) {
        let a = self.link.cycle.init;
        let index = a.lease.get().expect("the start had one");
        self.tag += 1;
        self.say(format!("reply: handshake {} completed, epoch {} is pending", a.hs, self.tag));
        self.say(format!("  unbind: transport {}, index {index}", a.transport));
        self.say(format!("  bind: transport {TRANSPORT}, index {index}, pending"));
        let m = &mut self.link.mem;
        if !a.resent {
            m.hs_rtt = Some(self.now - a.first).into();
            m.setup_rto = None.into();
        }
        let restart = m.peer_epoch.get() != Some(HUB_EPOCH);
        m.peer_epoch = Some(HUB_EPOCH).into();
        let k = if m.peer_k.some { m.peer_k.on } else { self.link.cur.ep.k };
        let ep = Epoch {
            tag: self.tag,
            session: self.tag,
            ids: Ids { lease: a.lease, theirs: Some(502).into(), transport: TRANSPORT },
            k: !restart && !k,
            started: self.now,
            ..Epoch::default()
        };
        self.link.cycle.kind = CycleKind::PendI.number();
        self.link.cycle.pendi = PendI {
            ep,
            wait: Wait::Held.number(),
            deadline: self.now,
            restart,
            ..PendI::default()
        };
    }

    /// When the next thing happens outside.
    fn outside(&self) -> u64 {
        match self.done {
            What::Nothing => 1500,
            What::Data => 2000,
            What::Heard => 3000,
            What::WrongTag => 4000,
            What::Gone => 4500,
            What::Here => 5000,
            What::Back => 6000,
            What::BadSettings => 40_000,
            What::PathLost => 52_000,
            What::PathFound => self.behind_start(1500),
            What::Reply => self.behind_start(4000),
            What::Moved => self.behind_start(14_500),
            What::Late => 100_000,
            What::End => u64::MAX,
        }
    }

    /// An instant behind the start that opened an attempt; never, where none did.
    fn behind_start(&self, d: u64) -> u64 {
        self.started.map_or(u64::MAX, |t| t + d)
    }

    /// The next thing happens.
    fn hub(&mut self) {
        match self.done {
            What::Nothing => {
                self.done = What::Data;
                self.seal("box 12?");
            }
            What::Data => {
                self.done = What::Heard;
                self.worker_hears(1, 1, "box 12: 431 ballots");
            }
            What::Heard => {
                // A frame with the tag of an epoch that is not held: the link refuses it and stays.
                self.done = What::WrongTag;
                self.hear(9, 2, "box 13: 220 ballots");
            }
            What::WrongTag => {
                self.done = What::Gone;
                self.worker_gone(1);
            }
            What::Gone => {
                // No worker holds the epoch: the tablet opens its frames itself.
                self.done = What::Here;
                self.hear(1, 2, "box 13: 220 ballots");
            }
            What::Here => {
                // The next poll offers the epoch again.
                self.done = What::Back;
                self.workers = true;
                self.say("worker back");
            }
            What::Back => {
                // Settings of an operator are tested before they are taken. These fail, and the old
                // ones stay.
                self.done = What::BadSettings;
                let other = Config { ttl: 0, ..self.cfg };
                self.say(format!("settings: ttl {}", other.ttl));
                if self.accepted("settings", other.check()).is_some() {
                    self.cfg = other;
                }
            }
            What::BadSettings => {
                // No start is called for until the path is found again.
                self.done = What::PathLost;
                self.path(false, None);
            }
            What::PathLost => {
                self.done = What::PathFound;
                self.path(true, Some(80));
            }
            What::PathFound => {
                self.done = What::Reply;
                self.answered();
            }
            What::Reply => {
                self.done = What::Moved;
                self.worker_hears(2, 1, "box 14: 198 ballots");
            }
            What::Moved => {
                // The worker has not read the REVOKE yet: its notice is accepted, and a reject in
                // the log.
                self.done = What::Late;
                self.worker_hears(1, 3, "box 13: 221 ballots");
            }
            What::Late | What::End => self.done = What::End,
        }
    }

    /// The instant of the next poll: at once where one has work, else the wake; never within
    /// `check` of the last.
    fn look(&mut self) -> u64 {
        let given = given!(self);
        let at = if quiet(&self.link, given, 0, 0) {
            let r = wake(&self.link, &self.cfg, &self.profile);
            self.accepted("wake", r).flatten().unwrap_or(u64::MAX)
        } else {
            self.now
        };
        at.max(self.next)
    }

    fn poll(&mut self) {
        let mut spread = self.spread();
        let extra = self.draw(u32::from(self.cfg.jitter));
        self.polls += 1;
        if self.polls == 2 {
            spread = 99; // a draw outside of its range, to show what becomes of it
        }
        self.say(format!("poll {}", self.polls));
        let given = given!(self);
        let r = poll(&mut self.link, given, spread, extra, &mut self.log);
        // Also a refused poll counts: the next one comes a check later, with new draws.
        self.next = self.now + self.cfg.check;
        self.then("poll", r);
    }
}

fn main() -> Result<(), Refusal> {
    let mut t = Tablet {
        now: 1000,
        // The defaults, and one field changed: a rekey each minute.
        cfg: Config { after: 60_000, ..Config::fmp() },
        profile: Profile { messages: 2, at_proof: false, silence: true, smaller: true, floor: 0 },
        link: State::default(),
        log: Log::new(),
        frame: [0; 64],
        workers: true,
        sealed: 0,
        tag: 1,
        next: 0,
        retry: 0,
        failed: 0,
        started: None,
        done: What::Nothing,
        seed: 1,
        closed: false,
        polls: 0,
        tries: 0,
        refused: 0,
        delivered: 0,
        reported: 0,
    };

    let o = Opening {
        role: Role::Responder,
        transport: TRANSPORT,
        lease: Some(42),
        workers: t.workers,
    };
    let spread = t.spread();
    t.link = open(&t.cfg, &t.profile, o, spread, t.now, &mut t.log)?;
    t.say("open");
    t.link.mem.peer_epoch = Some(HUB_EPOCH).into(); // read in the first handshake
    t.carry_out();

    while !t.closed && t.done != What::End {
        let (at, happens) = (t.look(), t.outside());
        if happens <= at {
            // What comes from outside ends the sleep; then the tablet looks again.
            t.now = happens;
            t.hub();
        } else {
            t.now = at;
            t.poll();
        }
    }

    let line = status(&t.link, &t.cfg, &t.profile, t.now)?;
    t.say(format!(
        "status: epoch {}, {}, wake {}, quiet {}",
        line.tag.unwrap_or(0),
        format!("{:?}", line.kind).to_lowercase(),
        line.wake.unwrap_or(0),
        line.quiet.unwrap_or(0)
    ));
    t.say(format!(
        "{} polls, {} starts tried, {} calls refused, frames: {} delivered here, {} reported by the worker",
        t.polls, t.tries, t.refused, t.delivered, t.reported
    ));
    Ok(())
}
