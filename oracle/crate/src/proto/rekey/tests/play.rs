//! The program `machine`: the whole machine in the replay format.
use super::super::ladder::MAX_RUNGS;
use super::super::machine::oracle::{self as run, Done, Given, Numbers, Prof, Proof, Told};
use super::super::params::Params;
use super::lines::{Fields, arguments, filter, finish, number, put, put_opt};
use super::random;
use super::settings::{Cfg, place};
use super::state::State;
use std::fmt::Write as _;

/// A profile as a line has it; values outside their ranges are sent back.
#[derive(Clone, Copy, Debug, PartialEq, Eq)]
pub(crate) struct Flags {
    pub(crate) messages: u64,
    pub(crate) at_proof: bool,
    pub(crate) silence: bool,
    pub(crate) smaller: bool,
    pub(crate) floor: u64,
}

impl Flags {
    fn read(f: &mut Fields<'_>) -> Self {
        Self {
            messages: f.num(),
            at_proof: f.flag(),
            silence: f.flag(),
            smaller: f.flag(),
            floor: f.num(),
        }
    }
}

/// Call `$f` with the profile type that has these constants.
macro_rules! by_profile {
    ($p:expr, $x:literal, $f:ident($($a:expr),*)) => {
        match ($p.messages, $p.at_proof, $p.silence) {
            (2, false, false) => run::$f::<Prof<2, false, false, $x, 0>>($($a),*),
            (2, false, true) => run::$f::<Prof<2, false, true, $x, 0>>($($a),*),
            (2, true, false) => run::$f::<Prof<2, true, false, $x, 0>>($($a),*),
            (2, true, true) => run::$f::<Prof<2, true, true, $x, 0>>($($a),*),
            (_, false, false) => run::$f::<Prof<3, false, false, $x, 0>>($($a),*),
            (_, false, true) => run::$f::<Prof<3, false, true, $x, 0>>($($a),*),
            (_, true, false) => run::$f::<Prof<3, true, false, $x, 0>>($($a),*),
            (_, true, true) => run::$f::<Prof<3, true, true, $x, 0>>($($a),*),
        }
    };
}

type Frame = fn(Given<'_>, i32, Proof, &mut [u8], &[u8]) -> Done;

macro_rules! frames {
    ($($n:literal)*) => {
        [$([
            run::frame::<Prof<2, false, false, false, $n>>,
            run::frame::<Prof<2, true, false, false, $n>>,
        ]),*]
    };
}

/// The frame call by floor and cutover at proof: the two of a profile's
/// values that it reads.
static FRAMES: [[Frame; 2]; 65] = frames! {
    0 1 2 3 4 5 6 7 8 9 10 11 12 13 14 15 16 17 18 19 20 21 22 23 24 25 26 27 28 29 30 31 32
    33 34 35 36 37 38 39 40 41 42 43 44 45 46 47 48 49 50 51 52 53 54 55 56 57 58 59 60 61 62
    63 64
};

/// One call, as its line has it.
#[derive(Clone, Debug)]
pub(crate) enum Call {
    Open { now: u64, role: u8, transport: u64, lease: Option<u32>, workers: bool, spread: i64 },
    Poll { now: u64, workers: bool, spread: i64, extra: i64 },
    Frame { now: u64, proof: Proof, workers: bool, spread: i64, target: Vec<u8>, source: Vec<u8> },
    Reply { now: u64, opened: bool, hs: u64, msg: u64, transport: u64, lease: Option<u32> },
    Sent { now: u64, count: u64 },
    Wake,
    Status { now: u64 },
    Notice { now: u64, workers: bool, spread: i64, what: Notice },
}

/// What a notice tells.
#[derive(Clone, Copy, Debug)]
pub(crate) enum Notice {
    Worker { tag: u64, k: bool, counter: u64 },
    Delegated { tag: u64 },
    Undelegated { tag: u64 },
    DataSent,
    Path { reachable: bool, srtt: Option<u64> },
}

impl Notice {
    fn name(self) -> &'static str {
        match self {
            Self::Worker { .. } => "worker",
            Self::Delegated { .. } => "delegated",
            Self::Undelegated { .. } => "undelegated",
            Self::DataSent => "datasent",
            Self::Path { .. } => "path",
        }
    }

    /// The fields behind those that every notice has.
    fn read(word: &str, f: &mut Fields<'_>) -> Self {
        match word {
            "worker" => Self::Worker { tag: f.num(), k: f.flag(), counter: f.num() },
            "delegated" => Self::Delegated { tag: f.num() },
            "undelegated" => Self::Undelegated { tag: f.num() },
            "datasent" => Self::DataSent,
            _ => Self::Path { reachable: f.flag(), srtt: f.opt() },
        }
    }

    fn write(self, s: &mut String) {
        match self {
            Self::Worker { tag, k, counter } => _ = write!(s, " {tag} {} {counter}", u8::from(k)),
            Self::Delegated { tag } | Self::Undelegated { tag } => _ = write!(s, " {tag}"),
            Self::DataSent => {}
            Self::Path { reachable, srtt } => {
                _ = write!(s, " {}", u8::from(reachable));
                put_opt(s, srtt);
            }
        }
    }

    /// Hands the notice to the Rust. No notice reads a profile's floor.
    fn give(self, profile: &Flags, g: Given<'_>) -> Done {
        match self {
            Self::Worker { tag, k, counter } => {
                by_profile!(profile, false, worker(g, tag, k, counter))
            }
            Self::Delegated { tag } => by_profile!(profile, false, delegated(g, tag)),
            Self::Undelegated { tag } => by_profile!(profile, false, undelegated(g, tag)),
            Self::DataSent => by_profile!(profile, false, datasent(g)),
            Self::Path { reachable, srtt } => {
                by_profile!(profile, false, path(g, reachable, srtt))
            }
        }
    }
}

fn hex(f: &mut Fields<'_>) -> Vec<u8> {
    let w = f.word();
    if w == "-" {
        return Vec::new();
    }
    let mut bytes = Vec::new();
    for pair in w.as_bytes().chunks(2) {
        let text = std::str::from_utf8(pair).unwrap_or("");
        match u8::from_str_radix(text, 16) {
            Ok(b) if pair.len() == 2 => bytes.push(b),
            _ => f.bad("a buffer is not hex"),
        }
    }
    bytes
}

fn put_hex(s: &mut String, bytes: &[u8]) {
    if bytes.is_empty() {
        s.push('-');
    }
    for b in bytes {
        _ = write!(s, "{b:02x}");
    }
}

impl Call {
    /// The call whose name is `word`; none when there is no such call.
    fn read(word: &str, f: &mut Fields<'_>) -> Option<Self> {
        let call = match word {
            "open" => Self::Open {
                now: f.num(),
                role: f.flag().into(),
                transport: f.num(),
                lease: f.opt(),
                workers: f.flag(),
                spread: f.num(),
            },
            "poll" => {
                Self::Poll { now: f.num(), workers: f.flag(), spread: f.num(), extra: f.num() }
            }
            "frame" => {
                let now = f.num();
                let proof = Proof {
                    slot: f.num(),
                    tag: f.num(),
                    counter: f.num(),
                    k: f.flag(),
                    len: f.num(),
                    probe: f.flag(),
                    body: f.num(),
                };
                if proof.slot > 2 {
                    f.bad("no such slot");
                }
                Self::Frame {
                    now,
                    proof,
                    workers: f.flag(),
                    spread: f.num(),
                    target: hex(f),
                    source: hex(f),
                }
            }
            "reply" => Self::Reply {
                now: f.num(),
                opened: f.flag(),
                hs: f.num(),
                msg: f.num(),
                transport: f.num(),
                lease: f.opt(),
            },
            "sent" => Self::Sent { now: f.num(), count: f.num() },
            "wake" => Self::Wake,
            "status" => Self::Status { now: f.num() },
            "worker" | "delegated" | "undelegated" | "datasent" | "path" => Self::Notice {
                now: f.num(),
                workers: f.flag(),
                spread: f.num(),
                what: Notice::read(word, f),
            },
            _ => return None,
        };
        f.end();
        Some(call)
    }

    /// The line, without a newline.
    pub(crate) fn write(&self, s: &mut String) {
        match self {
            Self::Open { now, role, transport, lease, workers, spread } => {
                _ = write!(s, "open {now} {role} {transport}");
                put_opt(s, *lease);
                _ = write!(s, " {} {spread}", u8::from(*workers));
            }
            Self::Poll { now, workers, spread, extra } => {
                _ = write!(s, "poll {now} {} {spread} {extra}", u8::from(*workers))
            }
            Self::Frame { now, proof: p, workers, spread, target, source } => {
                _ = write!(s, "frame {now} {} {} {} {}", p.slot, p.tag, p.counter, u8::from(p.k));
                _ = write!(s, " {} {} {}", p.len, u8::from(p.probe), p.body);
                _ = write!(s, " {} {spread} ", u8::from(*workers));
                put_hex(s, target);
                s.push(' ');
                put_hex(s, source);
            }
            Self::Reply { now, opened, hs, msg, transport, lease } => {
                _ = write!(s, "reply {now} {} {hs} {msg} {transport}", u8::from(*opened));
                put_opt(s, *lease);
            }
            Self::Sent { now, count } => _ = write!(s, "sent {now} {count}"),
            Self::Wake => s.push_str("wake"),
            Self::Status { now } => _ = write!(s, "status {now}"),
            Self::Notice { now, workers, spread, what } => {
                _ = write!(s, "{} {now} {} {spread}", what.name(), u8::from(*workers));
                what.write(s);
            }
        }
    }
}

// ---- what is sent back by number: the rule's, not the Rust's ----

/// Number 1 with its place, or number 2.
fn settings_and_profile(cfg: &Cfg, profile: &Flags) -> Option<(u8, u8)> {
    if let Err(e) = Params::new(cfg.config()) {
        return Some((1, place(e)));
    }
    if !(2..=3).contains(&profile.messages) || profile.floor > 64 {
        return Some((2, 0));
    }
    None
}

fn repeats(mut numbers: Vec<u64>) -> bool {
    numbers.sort_unstable();
    numbers.windows(2).any(|w| w[0] == w[1])
}

/// Numbers 3 to 6.
fn state(s: &State) -> Option<(u8, u8)> {
    if s.cands.len() > 32 {
        return Some((3, 0));
    }
    if s.cur.is_none() && (s.drain.is_some() || s.pending().is_some()) {
        return Some((4, 0));
    }
    if repeats(s.epochs().map(|e| e.tag).collect())
        || repeats(s.cands.iter().map(|c| c.seq).collect())
    {
        return Some((5, 0));
    }
    if s.ladders().iter().any(|l| l.at.len() > MAX_RUNGS || l.next > l.at.len() as u64) {
        return Some((6, 0));
    }
    None
}

/// Number 7.
fn draws(cfg: &Cfg, spread: i64, extra: i64) -> Option<(u8, u8)> {
    let j = i64::from(cfg.jitter);
    let inside = (-j..=j).contains(&spread) && (0..=j).contains(&extra);
    (!inside).then_some((7, 0))
}

/// The number that sends the call back, and its place.
pub(crate) fn refusal(
    cfg: &Cfg,
    profile: &Flags,
    s: Option<&State>,
    call: &Call,
) -> Option<(u8, u8)> {
    let given = || settings_and_profile(cfg, profile);
    let held = || s.and_then(state);
    match call {
        Call::Open { spread, .. } => given().or_else(|| draws(cfg, *spread, 0)),
        Call::Poll { spread, extra, .. } => {
            given().or_else(held).or_else(|| draws(cfg, *spread, *extra))
        }
        Call::Frame { spread, proof, .. } => given()
            .or_else(held)
            .or_else(|| draws(cfg, *spread, 0))
            .or_else(|| match s.and_then(|s| s.slot(proof.slot)) {
                None => Some((8, 0)),
                Some(ep) => (ep.tag != proof.tag).then_some((9, 0)),
            }),
        Call::Reply { now, .. } => given().or_else(held).or_else(|| {
            let g = Given { state: s?, cfg, smaller: profile.smaller, now: *now, workers: false };
            (!by_profile!(profile, false, called_for(g))).then_some((10, 0))
        }),
        Call::Sent { count, .. } => held().or_else(|| {
            let cur = s?.cur.as_ref()?;
            (*count < cur.sent).then_some((11, 0))
        }),
        Call::Wake | Call::Status { .. } => given().or_else(held),
        Call::Notice { spread, .. } => given().or_else(held).or_else(|| draws(cfg, *spread, 0)),
    }
}

// ---- answers ----

/// How answers are written.
#[derive(Clone, Copy, PartialEq, Eq)]
enum Form {
    /// As the Rust tells them: a status line ends with the time since `last_rx`.
    Bare,
    /// A send or prompt ends with the number of rungs taken, a status line with the
    /// quiet time.
    Whole,
    /// The same, and the row of each item of a poll.
    Rows,
}

/// Whether an event ends with the number of rungs taken.
fn numbered(t: &Told) -> bool {
    matches!(t.event.0, "send" | "prompt")
}

fn put_events(told: &[Told], form: Form, text: &mut String) {
    for t in told {
        _ = write!(text, "= e {}", t.event.0);
        t.event.1.iter().for_each(|n| put_opt(text, *n));
        if form != Form::Bare && numbered(t) {
            _ = write!(text, " {}", t.rungs);
        }
        text.push('\n');
    }
}

/// For each item of a poll a line `# ROW`, with `send=N` and `prompt=N` for what
/// it told.
fn put_rows(done: &Done, text: &mut String) {
    for (i, row) in done.rows.iter().enumerate() {
        _ = write!(text, "# {row}");
        for t in done.events.iter().filter(|t| t.item == Some(i) && numbered(t)) {
            _ = write!(text, " {}={}", t.event.0, t.rungs);
        }
        text.push('\n');
    }
}

/// Append the lines of an accepted or sent-back call; the state it leaves,
/// where it can leave one.
fn answer(
    cfg: &Cfg,
    profile: &Flags,
    s: Option<&State>,
    call: &Call,
    form: Form,
    text: &mut String,
) -> Option<State> {
    if let Some((number, place)) = refusal(cfg, profile, s, call) {
        _ = writeln!(text, "= refused {number} {place}");
        return None;
    }
    let given = |state, now, workers| Given { state, cfg, smaller: profile.smaller, now, workers };
    let events = |done: &Done, text: &mut String| put_events(&done.events, form, text);
    match call {
        &Call::Open { now, role, transport, lease, workers, spread } => {
            let (smaller, spread) = (profile.smaller, spread as i32);
            let done = by_profile!(
                profile,
                false,
                open(cfg, smaller, now, role, transport, lease, workers, spread)
            );
            events(&done, text);
            Some(done.state)
        }
        &Call::Poll { now, workers, spread, extra } => {
            let g = given(s?, now, workers);
            let done = by_profile!(profile, false, poll(g, spread as i32, extra as u16));
            events(&done, text);
            _ = writeln!(text, "= count {}", done.rows.len());
            if form == Form::Rows {
                put_rows(&done, text);
            }
            Some(done.state)
        }
        Call::Frame { now, proof, workers, spread, target, source } => {
            let mut target = target.clone();
            let frame = FRAMES[profile.floor as usize][usize::from(profile.at_proof)];
            let g = given(s?, *now, *workers);
            let done = frame(g, *spread as i32, *proof, &mut target, source);
            events(&done, text);
            text.push_str("= buf ");
            put_hex(text, &target);
            text.push('\n');
            Some(done.state)
        }
        &Call::Reply { now, opened, hs, msg, transport, lease } => {
            if !opened {
                return s.cloned();
            }
            let g = given(s?, now, false);
            Some(if lease.is_some() {
                by_profile!(profile, true, opened(g, hs, msg, transport, lease))
            } else {
                by_profile!(profile, false, opened(g, hs, msg, transport, lease))
            })
        }
        Call::Sent { count, .. } => {
            // The Rust counts what it seals; the rule is told the count.
            let mut s = s?.clone();
            if let Some(cur) = s.cur.as_mut() {
                cur.sent = *count;
            }
            Some(s)
        }
        Call::Wake => {
            match by_profile!(profile, false, wake(given(s?, 0, false))) {
                Some(t) => _ = writeln!(text, "= wake {t}"),
                None => text.push_str("= wake none\n"),
            }
            None
        }
        Call::Status { now } => {
            let told = by_profile!(profile, false, status(given(s?, *now, false)));
            let quiet = if form == Form::Bare { told.since_last } else { told.quiet };
            text.push_str("= status");
            for n in [told.tag, Some(told.kind), told.wake, quiet] {
                put_opt(text, n);
            }
            text.push('\n');
            None
        }
        &Call::Notice { now, workers, what, .. } => {
            let done = what.give(profile, given(s?, now, workers));
            events(&done, text);
            Some(done.state)
        }
    }
}

/// The state that an accepted call leaves, of those that can leave one.
pub(crate) fn leaves_behind(cfg: &Cfg, profile: &Flags, s: &State, call: &Call) -> Option<State> {
    answer(cfg, profile, Some(s), call, Form::Bare, &mut String::new())
}

/// The wake of an accepted state.
pub(super) fn wake_of(cfg: &Cfg, profile: &Flags, s: &State) -> Option<u64> {
    let g = Given { state: s, cfg, smaller: profile.smaller, now: 0, workers: false };
    by_profile!(profile, false, wake(g))
}

/// The block being read.
#[derive(Default)]
struct Block {
    run: bool,
    cfg: Option<Cfg>,
    profile: Option<Flags>,
    state: Option<State>,
}

impl Block {
    /// The end of a run: its end state.
    fn close(&mut self, text: &mut String) {
        if self.run
            && let Some(s) = &self.state
        {
            put_state(s, text);
        }
        *self = Self::default();
    }
}

fn put_state(s: &State, text: &mut String) {
    text.push_str("= state ");
    s.write(text);
    text.push('\n');
}

fn answers(form: Form) {
    let mut block = Block::default();
    filter(|line, text| {
        let Some(line) = line else {
            block.close(text);
            return;
        };
        let mut f = Fields::new(line);
        let word = f.word();
        if word == "vector" || word == "run" {
            block.close(text);
            block.run = word == "run";
        }
        text.push_str(line);
        text.push('\n');
        match word {
            "vector" | "run" => {}
            "cfg" => {
                block.cfg = Some(Cfg::read(&mut f));
                f.end();
            }
            "profile" => {
                block.profile = Some(Flags::read(&mut f));
                f.end();
            }
            "state" => block.state = Some(State::read(&mut f)),
            _ => {
                let Some(call) = Call::read(word, &mut f) else {
                    f.bad("no such line");
                };
                let (Some(cfg), Some(profile)) = (&block.cfg, &block.profile) else {
                    f.bad("settings or a profile are missing before");
                };
                let opens = matches!(call, Call::Open { .. });
                if block.state.is_none() && !opens {
                    f.bad("a state is missing before");
                }
                let left = answer(cfg, profile, block.state.as_ref(), &call, form, text);
                if let Some(left) = left {
                    if block.run {
                        block.state = Some(left);
                    } else {
                        put_state(&left, text);
                    }
                }
            }
        }
    });
}

pub(crate) fn main() {
    let args = arguments();
    match args.first().map_or("", String::as_str) {
        "answer" => answers(Form::Whole),
        "bare" => answers(Form::Bare),
        "rows" => answers(Form::Rows),
        "random" => {
            let kind = args.get(1).map_or("", String::as_str);
            let (seed, count): (u64, u64) = (number(&args, 2), number(&args, 3));
            let mut stdout = std::io::BufWriter::new(std::io::stdout().lock());
            let mut text = String::new();
            for i in 0..count {
                if !random::block(kind, seed, i, &mut text) {
                    usage();
                }
                put(&mut stdout, &mut text);
            }
            finish(stdout);
        }
        _ => usage(),
    }
}

fn usage() -> ! {
    eprintln!(
        "machine [--fault NAME] answer | bare | rows | \
         random single|runs|refusals|opens|notices|noticed|noticerefusals|statuses SEED COUNT | \
         --faults"
    );
    std::process::exit(2);
}
