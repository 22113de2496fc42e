//! Every number that include/siklyavon_link.h names, held to crates/numbers, to this crate's enums,
//! and to what the library answers. A number that moves in one of them fails here.
use siklyavon_link::raw::{MAX_RUNGS, WORDS};
use siklyavon_link::*;
use std::collections::{BTreeMap, BTreeSet};
use std::fmt::Debug;
use std::path::Path;

/// A file of the repository, seen from its top folder.
fn text(path: &str) -> String {
    let path = Path::new(env!("CARGO_MANIFEST_DIR")).join("..").join(path);
    std::fs::read_to_string(&path).unwrap_or_else(|e| panic!("{}: {e}", path.display()))
}

/// The header's numbers by name, without `SIKLYAVON_`, and which of them are marked as not told.
struct Header {
    numbers: BTreeMap<String, u64>,
    not_told: BTreeSet<String>,
}

impl Header {
    fn read() -> Self {
        let (mut numbers, mut not_told) = (BTreeMap::new(), BTreeSet::new());
        for line in text("include/siklyavon_link.h").lines() {
            let Some(rest) = line.strip_prefix("#define SIKLYAVON_") else { continue };
            let (name, rest) = rest.split_once(' ').unwrap_or((rest, ""));
            if name == "LINK_H" {
                continue;
            }
            let number = rest.split(' ').next().unwrap_or_default();
            let number = number.parse().unwrap_or_else(|_| panic!("{line}: not a number"));
            assert_eq!(numbers.insert(name.to_owned(), number), None, "{name} stands there twice");
            if rest.contains("not told") {
                not_told.insert(name.to_owned());
            }
        }
        Self { numbers, not_told }
    }

    fn of(&self, name: &str) -> u64 {
        *self.numbers.get(name).unwrap_or_else(|| panic!("the header has no SIKLYAVON_{name}"))
    }

    /// The names and numbers that begin with a list's name, without it.
    fn list(&self, list: &str) -> BTreeMap<String, u64> {
        let begin = format!("{}_", list.to_uppercase());
        let named = |(k, n): (&String, &u64)| Some((k.strip_prefix(&begin)?.to_owned(), *n));
        self.numbers.iter().filter_map(named).collect()
    }
}

/// The lists of crates/numbers that a caller meets in a record, an event or an answer.
const MET: [&str; 12] = [
    "abandon", "cycle", "event", "evidence", "message", "purpose", "reason", "refused", "slot",
    "start", "teardown", "wait",
];

/// Those that no call shows: whom a reason is attributed to, why a machine was closed, the items of
/// a pass.
const NOT_MET: [&str; 3] = ["attribution", "close", "item"];

/// The modules of crates/numbers that are no list: the trait of what stands for a number.
const NO_LIST: [&str; 1] = ["numbered"];

/// Lists that the header has and crates/numbers has not: a role is a flag there, and a place the
/// position of a check.
const OTHER: [&str; 2] = ["place", "role"];

const SIZES: [&str; 5] = ["MAX_CANDIDATES", "MAX_EVENTS", "MAX_RUNGS", "WORDS", "WORDS_PER_EVENT"];

/// The constants of a Rattle file: `pub const NAME: TYPE = NUMBER;`.
fn constants(path: &str) -> BTreeMap<String, u64> {
    let text = text(path);
    let constant = |line: &str| {
        let (name, rest) = line.strip_prefix("pub const ")?.split_once(':')?;
        let number = rest.split_once('=')?.1.trim().strip_suffix(';')?;
        Some((name.to_owned(), number.parse().ok()?))
    };
    text.lines().filter_map(constant).collect()
}

/// Each constant that a caller can meet has its define, and each define its constant.
#[test]
fn crate_numbers() {
    let h = Header::read();
    let lib = text("crates/numbers/src/lib.rt");
    let modules = lib.lines().filter_map(|l| l.strip_prefix("pub mod ")?.strip_suffix(';'));
    let lists: BTreeSet<&str> = modules.filter(|m| !NO_LIST.contains(m)).collect();
    assert_eq!(lists, MET.into_iter().chain(NOT_MET).collect(), "the lists of crates/numbers");
    for list in MET {
        let theirs = constants(&format!("crates/numbers/src/{list}.rt"));
        assert!(!theirs.is_empty(), "crates/numbers/src/{list}.rt has no constant");
        assert_eq!(h.list(list), theirs, "SIKLYAVON_{}_", list.to_uppercase());
    }
    let listed = |name: &String| {
        let begins = |list: &&str| name.starts_with(&format!("{}_", list.to_uppercase()));
        MET.iter().chain(&OTHER).any(begins)
    };
    let rest: BTreeSet<&str> =
        h.numbers.keys().filter(|k| !listed(k)).map(String::as_str).collect();
    assert_eq!(rest, SIZES.into_iter().chain(["ACCEPTED", "LAYOUT"]).collect());
}

/// A name without what differs between the two languages.
fn bare(name: &str) -> String {
    name.replace('_', "").to_uppercase()
}

/// Each case of an enum of this crate has its define, and each define of its list a case.
fn held<T: Debug>(h: &Header, list: &str, of: impl Fn(u64) -> Option<T>) {
    let cases = (0..1000).filter_map(|n| Some((bare(&format!("{:?}", of(n)?)), n)));
    let defines = h.list(list).into_iter().map(|(k, n)| (bare(&k), n));
    assert_eq!(
        defines.collect::<BTreeMap<_, _>>(),
        cases.collect::<BTreeMap<_, _>>(),
        "SIKLYAVON_{}_",
        list.to_uppercase()
    );
}

fn byte<T>(of: impl Fn(u8) -> Option<T>) -> impl Fn(u64) -> Option<T> {
    move |n| of(u8::try_from(n).ok()?)
}

#[test]
fn enums() {
    let h = Header::read();
    held(&h, "abandon", Abandon::of);
    held(&h, "cycle", byte(CycleKind::of));
    held(&h, "evidence", Evidence::of);
    held(&h, "message", Message::of);
    held(&h, "place", byte(Place::of));
    held(&h, "purpose", Purpose::of);
    held(&h, "refused", byte(Refused::of));
    held(&h, "role", Role::of);
    held(&h, "slot", byte(Slot::of));
    held(&h, "start", Start::of);
    held(&h, "teardown", Teardown::of);
    held(&h, "wait", byte(Wait::of));

    // An event's case is the first word of its Debug text. 13 is not told, and has no case.
    let mut events = h.list("event");
    assert_eq!(events.remove("REPLACE_REQUESTED"), Some(13));
    for n in 0..1000 {
        let words = [n, 20, 0, 0, 0, 0, 0, 0];
        let words = if n == h.of("EVENT_REJECT") { words } else { [n, 0, 0, 0, 0, 0, 0, 0] };
        let case = Event::of(&words)
            .map(|e| bare(format!("{e:?}").split([' ', '(']).next().expect("a word")));
        let define = events.iter().find(|(_, m)| **m == n).map(|(k, _)| bare(k));
        assert_eq!(define, case, "event {n}");
    }

    // Of the reasons this crate has those that are told.
    let told: BTreeMap<String, u64> = h
        .list("reason")
        .into_iter()
        .filter(|(k, _)| !h.not_told.contains(&format!("REASON_{k}")))
        .map(|(k, n)| (bare(&k), n))
        .collect();
    let cases = (0..1000).filter_map(|n| Some((bare(&format!("{:?}", Reason::of(n)?)), n)));
    assert_eq!(told, cases.collect());
}

const PROFILE: Profile =
    Profile { messages: 2, at_proof: false, silence: true, smaller: true, floor: 0 };

/// A link opened at 1000 as the initiator, with a lease.
fn opened() -> State {
    let o = Opening { role: Role::Initiator, transport: 7, lease: Some(9), workers: false };
    open(&Config::fmp(), &PROFILE, o, 0, 1000, &mut Log::new()).expect("a link opens")
}

/// The sizes, and that the library counts up to them.
#[test]
fn sizes() {
    let h = Header::read();
    assert_eq!(h.of("WORDS"), WORDS as u64);
    assert_eq!(h.of("MAX_EVENTS") * h.of("WORDS_PER_EVENT"), WORDS as u64);
    let rungs = constants("crates/ladder/src/lib.rt")["MAX_RUNGS"];
    assert_eq!((h.of("MAX_RUNGS"), rungs), (MAX_RUNGS as u64, MAX_RUNGS as u64));
    let (cfg, state) = (Config::fmp(), opened());
    assert_eq!(h.of("MAX_CANDIDATES"), state.cands.seq.len() as u64);

    let number = |s: &State| wake(s, &cfg, &PROFILE).map_or_else(|r| r.number, |_| 0);
    let accepted = u8::try_from(h.of("ACCEPTED")).expect("a byte");
    let mut many = state;
    many.cands.len = state.cands.seq.len();
    (0u64..).zip(&mut many.cands.seq).for_each(|(n, seq)| *seq = n);
    assert_eq!(number(&many), accepted);
    many.cands.len += 1;
    assert_eq!(u64::from(number(&many)), h.of("REFUSED_CANDIDATES"));
    let mut long = state;
    long.cur.ep.elicit.some = true;
    long.cur.ep.elicit.ladder.sched.len = u8::try_from(rungs).expect("a byte");
    assert_eq!(number(&long), accepted);
    long.cur.ep.elicit.ladder.sched.len += 1;
    assert_eq!(u64::from(number(&long)), h.of("REFUSED_LADDER"));
}

/// Each place, from settings that fail its check and no earlier one.
#[test]
fn places() {
    let h = Header::read();
    let c = Config::fmp();
    let bad = [
        ("ZERO_MESSAGES", Config { messages: 0, ..c }),
        ("MESSAGES_PAST_SOFT", Config { messages: c.soft + 1, ..c }),
        ("AFTER_NOT_ABOVE_JITTER", Config { after: 15_000, ..c }),
        ("AFTER_BELOW_LINK_FLOOR", Config { after: 44_999, ..c }),
        ("AFTER_TOO_LONG", Config { after: 4_294_967_295_001, ..c }),
        ("ZERO_CHECK", Config { check: 0, ..c }),
        ("ZERO_HOLD", Config { hold: 0, ..c }),
        ("ZERO_REVERT", Config { revert: 0, ..c }),
        ("ZERO_TTL", Config { ttl: 0, ..c }),
        ("ZERO_SILENCE", Config { silence: 0, ..c }),
        ("HANDSHAKE_TOO_SHORT", Config { handshake: 3_999, ..c }),
        ("DRAIN_TOO_SHORT", Config { drain: 2_000, ..c }),
        ("RETENTION_BELOW_DRAIN", Config { retention: 9_999, ..c }),
        ("HOLD_TOO_SHORT", Config { hold: 31_000, ..c }),
        ("SOFT_NOT_BELOW_HARD", Config { hard: c.soft, ..c }),
    ];
    let answered = bad.map(|(name, cfg)| {
        let r = cfg.check().expect_err(name);
        assert_eq!(u64::from(r.number), h.of("REFUSED_SETTINGS"));
        (name.to_owned(), u64::from(r.place))
    });
    assert_eq!(h.list("place"), answered.into_iter().collect());
}

/// Each refusal, from a call that is sent back by it.
#[test]
fn refusals() {
    let h = Header::read();
    let (cfg, state, log) = (Config::fmp(), opened(), &mut Log::new());
    let mut answered = BTreeMap::new();
    let mut sent_back = |name: &str, r: Result<(), Refusal>| {
        answered.insert(name.to_owned(), u64::from(r.expect_err(name).number));
    };
    let bad = Config { ttl: 0, ..cfg };
    sent_back("SETTINGS", wake(&state, &bad, &PROFILE).map(drop));
    let four = Profile { messages: 4, ..PROFILE };
    sent_back("PROFILE", wake(&state, &cfg, &four).map(drop));
    let mut read = |name: &str, change: fn(&mut State)| {
        let mut s = state;
        change(&mut s);
        sent_back(name, wake(&s, &cfg, &PROFILE).map(drop));
    };
    read("CANDIDATES", |s| s.cands.len = 33);
    read("NO_CURRENT", |s| (s.cur.some, s.drain.some) = (false, true));
    read("SHARED", |s| (s.drain.some, s.drain.ep.tag) = (true, s.cur.ep.tag));
    read("LADDER", |s| (s.cur.ep.fin.some, s.cur.ep.fin.ladder.next) = (true, 1));
    let at = Given { cfg: &cfg, profile: &PROFILE, now: 2000, workers: false };
    sent_back("DRAW", poll(&mut { state }, at, 16, 0, log).map(drop));
    let mut hear = |name: &str, tag: u64, slot: Slot| {
        let proof = FrameProof { tag, slot: slot.number(), ..FrameProof::default() };
        sent_back(name, frame(&mut { state }, at, 0, proof, 0, &[], &mut [], log));
    };
    hear("SLOT", 1, Slot::Pending);
    hear("TAG", 2, Slot::Current);
    sent_back("NO_START", reply(&mut { state }, at, None));
    let mut told = state;
    sent(&mut told, 2000, 5).expect("more than before");
    sent_back("SENT", sent(&mut told, 2000, 4));
    assert_eq!(h.list("refused"), answered);
}

/// `siklyavon_delegated` and `siklyavon_undelegated`.
type Notice = unsafe extern "C" fn(
    State,
    Config,
    Profile,
    u64,
    bool,
    i32,
    u64,
    &mut [u64; WORDS],
) -> raw::Answer;

/// What was told in real logs, by the header's names.
struct Told<'h> {
    h: &'h Header,
    words: Box<[u64; WORDS]>,
    len: usize,
    seen: BTreeSet<String>,
}

impl Told<'_> {
    /// A poll of the state; the events are kept.
    fn poll(&mut self, s: &State, profile: &Profile, now: u64, workers: bool) {
        // SAFETY: the log is lent for the call.
        let r = unsafe {
            raw::siklyavon_poll(*s, Config::fmp(), *profile, now, workers, 0, 0, &mut self.words)
        };
        assert_eq!(r.number, 0);
        self.len = r.len;
    }

    fn frame(&mut self, s: &State, profile: &Profile, tag: u64, slot: &str) {
        let slot = u8::try_from(self.h.of(slot)).expect("a byte");
        let proof = FrameProof { tag, slot, counter: 5, k: false, len: 4, probe: false };
        let (source, mut target) = ([0; 4], [0; 4]);
        // SAFETY: the log and the buffers are lent for the call.
        let r = unsafe {
            raw::siklyavon_frame(
                *s,
                Config::fmp(),
                *profile,
                2000,
                false,
                0,
                proof,
                0,
                source.as_ptr(),
                4,
                target.as_mut_ptr(),
                4,
                &mut self.words,
            )
        };
        assert_eq!(r.number, 0);
        self.len = r.len;
    }

    /// A worker's notice about the epoch of a tag; the events are kept.
    fn notice(&mut self, s: &State, tag: u64, notice: Notice) {
        // SAFETY: the log is lent for the call.
        let r = unsafe { notice(*s, Config::fmp(), PROFILE, 2000, true, 0, tag, &mut self.words) };
        assert_eq!(r.number, 0);
        self.len = r.len;
    }

    /// The log has an event of this name with these words behind its number. A word is a number, or
    /// the name of one.
    fn has(&mut self, event: &str, fields: &[&str]) {
        let mut words = vec![self.h.of(event)];
        self.seen.insert(event.to_owned());
        for f in fields {
            words.push(f.parse().unwrap_or_else(|_| {
                self.seen.insert((*f).to_owned());
                self.h.of(f)
            }));
        }
        let each = self.h.of("WORDS_PER_EVENT") as usize;
        words.resize(each, 0);
        let mut log = self.words.chunks_exact(each).take(self.len);
        let found = log.any(|w| w == words);
        assert!(found, "{event} {fields:?} is not in {:?}", &self.words[..each * self.len]);
    }
}

fn ladder(at: u64) -> Ladder {
    let mut l = Ladder { origin: 1000, ..Ladder::default() };
    (l.sched.at[0], l.sched.len) = (at, 1);
    l
}

/// Each event and each case in it, from a call that tells it. What no call here tells is marked so
/// in the header, and nothing else is.
#[test]
fn events() {
    let h = Header::read();
    let mut t = Told { h: &h, words: Box::new([0; WORDS]), len: 0, seen: BTreeSet::new() };
    let three = Profile { messages: 3, ..PROFILE };
    let kind = |name: &str| u8::try_from(h.of(name)).expect("a byte");
    let fresh = opened();

    // SAFETY: the log is lent for the call.
    let o = unsafe {
        let lease = Index { some: true, index: 9 };
        raw::siklyavon_open(Config::fmp(), PROFILE, true, 7, lease, true, 0, 1000, &mut t.words)
    };
    t.len = o.len;
    t.has("EVENT_BIND", &["7", "9", "1", "1", "PURPOSE_CURRENT"]);
    t.has("EVENT_DELEGATE", &["1", "7", "9"]);
    t.has("EVENT_INSTALLED", &["1", "ROLE_RESPONDER", "EVIDENCE_FIRST"]);
    t.has("EVENT_PROMPT", &["1", "0"]);

    t.frame(&fresh, &PROFILE, 1, "SLOT_CURRENT");
    t.has("EVENT_MARK", &["1", "5"]);
    t.has("EVENT_DELIVER", &["SLOT_CURRENT", "1", "0", "4"]);
    t.frame(&fresh, &Profile { floor: 64, ..PROFILE }, 1, "SLOT_CURRENT");
    t.has("EVENT_REJECT", &["REASON_SHORT_PLAINTEXT"]);

    // A drained epoch that a worker holds, at its deadline, and one that the peer still uses.
    let mut s = fresh;
    s.drain = Drain { some: true, ep: fresh.cur.ep, deadline: 2000, evidenced: false };
    (s.drain.ep.tag, s.drain.ep.delegated) = (2, true);
    t.frame(&s, &PROFILE, 2, "SLOT_PREVIOUS");
    t.has("EVENT_DELIVER", &["SLOT_PREVIOUS", "2", "0", "4"]);
    t.poll(&s, &PROFILE, 2000, false);
    t.has("EVENT_UNBIND", &["7", "9"]);
    t.has("EVENT_REVOKE", &["2", "7", "9"]);
    t.has("EVENT_RELEASE", &["9"]);
    t.has("EVENT_RETIRED", &["2"]);
    t.has("EVENT_ABANDONED", &["ABANDON_ADOPTION_NOT_SEEN"]);
    s.cur.ep.assumed = true;
    s.cycle.kind = kind("CYCLE_INIT");
    t.frame(&s, &PROFILE, 2, "SLOT_PREVIOUS");
    t.has("EVENT_ABANDONED", &["ABANDON_REVERTED"]);
    t.has("EVENT_REVERTED", &["1"]);

    let mut s = fresh;
    s.cands.len = 1;
    t.poll(&s, &PROFILE, 2000, false);
    t.has("EVENT_REJECT", &["REASON_CANDIDATE_EXPIRED"]);

    // Notices that do not fit: no such epoch, one without a worker, one with a worker, a pending one.
    let mut s = fresh;
    t.notice(&s, 2, raw::siklyavon_delegated);
    t.has("EVENT_REJECT", &["REASON_STALE_TAG"]);
    t.notice(&s, 1, raw::siklyavon_undelegated);
    t.has("EVENT_REJECT", &["REASON_NOT_DELEGATED"]);
    s.cur.ep.delegated = true;
    t.notice(&s, 1, raw::siklyavon_delegated);
    t.has("EVENT_REJECT", &["REASON_ALREADY_DELEGATED"]);
    (s.cycle.kind, s.cycle.pendr.ep.tag) = (kind("CYCLE_PENDR"), 2);
    t.notice(&s, 2, raw::siklyavon_delegated);
    t.has("EVENT_REJECT", &["REASON_NOT_OFFERED"]);

    // A peer's completed attempt at its deadline, and adopted by a frame.
    let mut s = fresh;
    s.cycle.kind = kind("CYCLE_PENDR");
    s.cycle.pendr.ep.tag = 2;
    s.cycle.pendr.ep.responder = true;
    s.cycle.pendr.answer = Some(4).into();
    t.poll(&s, &PROFILE, 2000, false);
    t.has("EVENT_ENDED", &["2"]);
    t.has("EVENT_ABANDONED", &["ABANDON_UNADOPTED"]);
    t.frame(&s, &PROFILE, 2, "SLOT_PENDING");
    t.has("EVENT_INSTALLED", &["2", "ROLE_RESPONDER", "EVIDENCE_FRAME"]);

    // An own completed attempt under each wait.
    let mut s = fresh;
    s.cycle.kind = kind("CYCLE_PENDI");
    s.cycle.pendi.ep.tag = 2;
    s.cycle.pendi.fin = Final { some: true, msg: 6, ladder: ladder(500) };
    s.cycle.pendi.wait = kind("WAIT_HELD");
    s.cycle.pendi.restart = true;
    s.mem.peer_epoch = Some(77).into();
    t.poll(&s, &three, 2000, false);
    t.has("EVENT_INSTALLED", &["2", "ROLE_INITIATOR", "EVIDENCE_PROOF"]);
    t.has("EVENT_PEER_RESTARTED", &["77"]);
    t.has("EVENT_REKEYED", &["ROLE_INITIATOR"]);
    s.cycle.pendi.wait = kind("WAIT_EVIDENCE");
    t.poll(&s, &three, 2000, false);
    t.has("EVENT_INSTALLED", &["2", "ROLE_INITIATOR", "EVIDENCE_ASSUMED"]);
    s.cycle.pendi.stayed = true;
    t.poll(&s, &three, 2000, false);
    t.has("EVENT_ABANDONED", &["ABANDON_PEER_STAYED_ON_OLD"]);
    s.cycle.pendi.reverted = true;
    t.poll(&s, &three, 2000, false);
    t.has("EVENT_ABANDONED", &["ABANDON_REVERT_UNCONFIRMED"]);
    s.cycle.pendi.wait = kind("WAIT_DELAY");
    s.cycle.pendi.deadline = 2000;
    t.poll(&s, &three, 2000, false);
    t.has("EVENT_SEND", &["6", "MESSAGE_MSG3", "1"]);
    t.has("EVENT_INSTALLED", &["2", "ROLE_INITIATOR", "EVIDENCE_DELAY"]);

    // An own attempt: its resends, and its deadline with an epoch and without.
    let mut s = fresh;
    s.cycle.kind = kind("CYCLE_INIT");
    (s.cycle.init.out, s.cycle.init.deadline) = (6, 2001);
    s.cycle.init.ladder = ladder(500);
    t.poll(&s, &PROFILE, 2000, false);
    t.has("EVENT_SEND", &["6", "MESSAGE_MSG1", "1"]);
    t.poll(&s, &three, 2000, false);
    t.has("EVENT_SEND", &["6", "MESSAGE_SETUP", "1"]);
    t.poll(&s, &PROFILE, 2001, false);
    t.has("EVENT_ABANDONED", &["ABANDON_UNANSWERED"]);
    s.cur.some = false;
    t.poll(&s, &PROFILE, 2001, false);
    t.has("EVENT_TEARDOWN", &["TEARDOWN_OPENING_FAILED"]);
    s.cycle.kind = kind("CYCLE_IDLE");
    t.poll(&s, &PROFILE, 2001, false);
    t.has("EVENT_TEARDOWN", &["TEARDOWN_OPENING_IDLE"]);

    let mut s = fresh;
    s.cur.ep.sent = Config::fmp().hard;
    t.poll(&s, &PROFILE, 2000, false);
    t.has("EVENT_TEARDOWN", &["TEARDOWN_COUNTER_EXHAUSTED"]);
    t.poll(&fresh, &PROFILE, 121_000, false);
    t.has("EVENT_START", &["START_SCHEDULED"]);
    let mut s = fresh;
    s.mem.sent_data = true;
    t.poll(&s, &PROFILE, 32_000, false);
    t.has("EVENT_START", &["START_SILENCE"]);

    let lists = [
        "ABANDON_",
        "EVENT_",
        "EVIDENCE_",
        "MESSAGE_",
        "PURPOSE_",
        "REASON_",
        "ROLE_",
        "SLOT_",
        "START_",
        "TEARDOWN_",
    ];
    let told = |k: &&String| t.seen.contains(*k) || !lists.iter().any(|l| k.starts_with(l));
    let not_told = h.numbers.keys().filter(|k| !told(k)).cloned().collect();
    assert_eq!(h.not_told, not_told, "what is marked as not told");
}

/// The link line shows each kind, and a kind or a wait past the last as the header says.
#[test]
fn kinds() {
    let h = Header::read();
    let cfg = Config::fmp();
    let mut s = opened();
    for (name, n) in h.list("cycle") {
        s.cycle.kind = u8::try_from(n).expect("a byte");
        s.cycle.pendi.ep.tag = 2;
        s.cycle.pendr.ep.tag = 2;
        let line = status(&s, &cfg, &PROFILE, 2000).expect("accepted");
        assert_eq!(u64::from(line.kind.number()), n, "{name}");
    }
    s.cycle.kind = 4;
    let line = status(&s, &cfg, &PROFILE, 2000).expect("accepted");
    assert_eq!(u64::from(line.kind.number()), h.of("CYCLE_IDLE"));
}

/// What the header declares: its text without comments and without its version, each run of blanks
/// as one.
fn declared() -> String {
    let text = text("include/siklyavon_link.h");
    let (mut out, mut rest) = (String::new(), text.as_str());
    while let Some((code, comment)) = rest.split_once("/*") {
        out += code;
        out += " ";
        rest = comment.split_once("*/").expect("a comment ends").1;
    }
    out += rest;
    let lines = out.lines().filter(|l| !l.starts_with("#define SIKLYAVON_LAYOUT "));
    lines.flat_map(str::split_whitespace).collect::<Vec<_>>().join(" ")
}

/// The version stands for one text of the declarations, here by its FNV-1a number. Where a record,
/// a number or a call changes, the version rises and both are written anew; so it does where a value
/// keeps its place and gets another meaning, as the quiet time did with version 4.
#[test]
fn version() {
    let h = Header::read();
    let number = declared()
        .bytes()
        .fold(0xcbf2_9ce4_8422_2325_u64, |n, b| (n ^ u64::from(b)).wrapping_mul(0x100_0000_01b3));
    assert_eq!(
        (h.of("LAYOUT"), format!("{number:016x}").as_str()),
        (4, "41acc7f5d1e86693"),
        "the declarations changed: raise SIKLYAVON_LAYOUT, and write both numbers here"
    );
}
