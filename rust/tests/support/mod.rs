//! The replay format (../shared/docs/REPLAY-FORMAT.md): settings, profile, state, calls and answers
//! as lines, over the records of the crate.
#![allow(dead_code)]
use siklyavon_link::*;
use std::fmt::Write as _;

/// The words of a line.
pub struct Fields<'a>(std::str::SplitWhitespace<'a>);

impl<'a> Fields<'a> {
    pub fn of(line: &'a str) -> Self {
        Self(line.split_whitespace())
    }

    pub fn word(&mut self) -> &'a str {
        self.0.next().expect("a field more")
    }

    fn is(&mut self, w: &str) {
        assert_eq!(self.word(), w);
    }

    pub fn int<T: std::str::FromStr>(&mut self) -> T {
        let w = self.word();
        w.parse().unwrap_or_else(|_| panic!("no number that fits: {w}"))
    }

    pub fn num(&mut self) -> u64 {
        self.int()
    }

    pub fn flag(&mut self) -> bool {
        self.num() != 0
    }

    pub fn opt<T: std::str::FromStr>(&mut self) -> Option<T> {
        match self.word() {
            "-" => None,
            w => Some(w.parse().unwrap_or_else(|_| panic!("no number that fits"))),
        }
    }

    /// A draw. One that its type cannot hold lies outside its range, as the type's last number does:
    /// J has 16 bits.
    fn draw<T: TryFrom<i64>>(&mut self, last: T) -> T {
        T::try_from(self.int::<i64>()).unwrap_or(last)
    }

    fn when(&mut self) -> When {
        self.opt::<u64>().into()
    }

    fn index(&mut self) -> Index {
        self.opt::<u32>().into()
    }

    fn present(&mut self) -> bool {
        match self.word() {
            "-" => false,
            "+" => true,
            w => panic!("neither - nor +: {w}"),
        }
    }

    pub fn cfg(&mut self) -> Config {
        Config {
            after: self.num(),
            jitter: self.int(),
            messages: self.num(),
            handshake: self.num(),
            check: self.num(),
            drain: self.num(),
            retention: self.num(),
            hold: self.num(),
            revert: self.num(),
            dampening: self.num(),
            ttl: self.num(),
            young: self.num(),
            link_age: self.num(),
            session_age: self.num(),
            floor_link: self.num(),
            floor_session: self.num(),
            floor_cutover: self.num(),
            silence: self.num(),
            resends: self.int(),
            soft: self.num(),
            hard: self.num(),
            delay: self.num(),
            arrival: self.flag(),
        }
    }

    pub fn profile(&mut self) -> Profile {
        Profile {
            messages: self.num(),
            at_proof: self.flag(),
            silence: self.flag(),
            smaller: self.flag(),
            floor: self.num(),
        }
    }

    fn ladder(&mut self) -> Ladder {
        let mut l = Ladder { origin: self.num(), ..Ladder::default() };
        l.next = self.int();
        l.sched.len = self.int();
        l.sched.keepalive = self.num();
        for i in 0..usize::from(l.sched.len) {
            let n = self.num();
            if i < raw::MAX_RUNGS {
                l.sched.at[i] = n;
            }
        }
        l
    }

    fn may_ladder(&mut self) -> MayLadder {
        let some = self.present();
        MayLadder { some, ladder: if some { self.ladder() } else { Ladder::default() } }
    }

    fn fin(&mut self) -> Final {
        if self.present() {
            Final { some: true, msg: self.num(), ladder: self.ladder() }
        } else {
            Final::default()
        }
    }

    fn epoch(&mut self) -> Epoch {
        Epoch {
            tag: self.num(),
            session: self.num(),
            sent: self.num(),
            ids: Ids { lease: self.index(), theirs: self.index(), transport: self.num() },
            k: self.flag(),
            responder: self.flag(),
            base: self.when(),
            started: self.num(),
            route: self.when(),
            ext: self.num(),
            delegated: self.flag(),
            floor: self.when(),
            heard: self.when(),
            moved: self.when(),
            assumed: self.flag(),
            fin: self.fin(),
            elicit: self.may_ladder(),
            prompted: self.when(),
        }
    }

    pub fn state(&mut self) -> State {
        self.is("mem");
        let mem = Memory {
            peer_epoch: self.when(),
            peer_k: {
                let k = self.opt::<u64>();
                Bit { some: k.is_some(), on: k == Some(1) }
            },
            jitter: self.int(),
            damp: self.when(),
            backoff: self.when(),
            abandons: self.int(),
            last_rx: self.when(),
            rx_cur: self.when(),
            sent_data: self.flag(),
            silence: self.int(),
            link_since: self.num(),
            last_cutover: self.when(),
            hs_rtt: self.when(),
            srtt: self.when(),
            setup_rto: self.when(),
            reachable: self.flag(),
            due: self.flag(),
        };
        let mut s = State { mem, ..State::default() };
        self.is("cur");
        s.cur.some = self.present();
        if s.cur.some {
            s.cur.ep = self.epoch();
        }
        self.is("drain");
        s.drain.some = self.present();
        if s.drain.some {
            s.drain =
                Drain { some: true, ep: self.epoch(), deadline: self.num(), evidenced: self.flag() };
        }
        self.is("cycle");
        match self.word() {
            "idle" => {}
            "init" => {
                s.cycle.kind = 1;
                s.cycle.init = Attempt {
                    hs: self.num(),
                    out: self.num(),
                    lease: self.index(),
                    transport: self.num(),
                    first: self.num(),
                    ladder: self.ladder(),
                    deadline: self.num(),
                    resent: self.flag(),
                };
            }
            "pendi" => {
                s.cycle.kind = 2;
                s.cycle.pendi = PendI {
                    ep: self.epoch(),
                    wait: self.int(),
                    deadline: self.num(),
                    restart: self.flag(),
                    fin: self.fin(),
                    probes: self.may_ladder(),
                    probed: self.when(),
                    stayed: self.flag(),
                    reverted: self.flag(),
                };
            }
            "pendr" => {
                s.cycle.kind = 3;
                s.cycle.pendr = PendR {
                    ep: self.epoch(),
                    deadline: self.num(),
                    restart: self.flag(),
                    answer: self.when(),
                };
            }
            w => panic!("no such cycle: {w}"),
        }
        self.is("cands");
        s.cands.next = self.num();
        s.cands.len = self.int();
        for i in 0..s.cands.len {
            let c = [(); 7].map(|()| self.num());
            let bound = self.when();
            let seq = self.num();
            if i < 32 {
                s.cands.hs[i] = c[0];
                s.cands.msg1[i] = c[1];
                s.cands.ack[i] = c[2];
                s.cands.carrier[i] = c[3];
                s.cands.route[i] = c[4];
                s.cands.born[i] = c[5];
                s.cands.deadline[i] = c[6];
                s.cands.bounded[i] = u64::from(bound.some);
                s.cands.bound[i] = bound.at;
                s.cands.seq[i] = seq;
            }
        }
        s
    }

    fn hex(&mut self) -> Vec<u8> {
        let w = self.word();
        if w == "-" {
            return Vec::new();
        }
        (0..w.len() / 2).map(|i| u8::from_str_radix(&w[2 * i..2 * i + 2], 16).expect("hex")).collect()
    }
}

/// Words behind one another.
pub struct Words(pub String);

impl Words {
    fn put(&mut self, n: impl std::fmt::Display) {
        _ = write!(self.0, " {n}");
    }

    fn bit(&mut self, b: bool) {
        self.put(u8::from(b));
    }

    fn opt(&mut self, n: Option<impl std::fmt::Display>) {
        match n {
            Some(n) => self.put(n),
            None => self.put('-'),
        }
    }

    fn when(&mut self, w: When) {
        self.opt(w.get());
    }

    fn ladder(&mut self, l: &Ladder) {
        self.put(l.origin);
        self.put(l.next);
        self.put(l.sched.len);
        self.put(l.sched.keepalive);
        l.sched.at[..usize::from(l.sched.len)].iter().for_each(|n| self.put(n));
    }

    fn may_ladder(&mut self, m: &MayLadder) {
        if m.some {
            self.put('+');
            self.ladder(&m.ladder);
        } else {
            self.put('-');
        }
    }

    fn fin(&mut self, f: &Final) {
        if f.some {
            self.put('+');
            self.put(f.msg);
            self.ladder(&f.ladder);
        } else {
            self.put('-');
        }
    }

    fn epoch(&mut self, e: &Epoch) {
        self.put(e.tag);
        self.put(e.session);
        self.put(e.sent);
        self.opt(e.ids.lease.get());
        self.opt(e.ids.theirs.get());
        self.put(e.ids.transport);
        self.bit(e.k);
        self.bit(e.responder);
        self.when(e.base);
        self.put(e.started);
        self.when(e.route);
        self.put(e.ext);
        self.bit(e.delegated);
        self.when(e.floor);
        self.when(e.heard);
        self.when(e.moved);
        self.bit(e.assumed);
        self.fin(&e.fin);
        self.may_ladder(&e.elicit);
        self.when(e.prompted);
    }

    pub fn cfg(&mut self, c: &Config) {
        for n in [
            c.after,
            c.jitter.into(),
            c.messages,
            c.handshake,
            c.check,
            c.drain,
            c.retention,
            c.hold,
            c.revert,
            c.dampening,
            c.ttl,
            c.young,
            c.link_age,
            c.session_age,
            c.floor_link,
            c.floor_session,
            c.floor_cutover,
            c.silence,
            c.resends.into(),
            c.soft,
            c.hard,
            c.delay,
            c.arrival.into(),
        ] {
            self.put(n);
        }
    }

    pub fn profile(&mut self, p: &Profile) {
        self.put(p.messages);
        self.bit(p.at_proof);
        self.bit(p.silence);
        self.bit(p.smaller);
        self.put(p.floor);
    }

    pub fn state(&mut self, s: &State) {
        let m = &s.mem;
        self.put("mem");
        self.when(m.peer_epoch);
        self.opt(m.peer_k.some.then_some(u8::from(m.peer_k.on)));
        self.put(m.jitter);
        self.when(m.damp);
        self.when(m.backoff);
        self.put(m.abandons);
        self.when(m.last_rx);
        self.when(m.rx_cur);
        self.bit(m.sent_data);
        self.put(m.silence);
        self.put(m.link_since);
        self.when(m.last_cutover);
        self.when(m.hs_rtt);
        self.when(m.srtt);
        self.when(m.setup_rto);
        self.bit(m.reachable);
        self.bit(m.due);
        self.put("cur");
        if s.cur.some {
            self.put('+');
            self.epoch(&s.cur.ep);
        } else {
            self.put('-');
        }
        self.put("drain");
        if s.drain.some {
            self.put('+');
            self.epoch(&s.drain.ep);
            self.put(s.drain.deadline);
            self.bit(s.drain.evidenced);
        } else {
            self.put('-');
        }
        self.put("cycle");
        match CycleKind::of(s.cycle.kind) {
            Some(CycleKind::Init) => {
                let a = &s.cycle.init;
                self.put("init");
                self.put(a.hs);
                self.put(a.out);
                self.opt(a.lease.get());
                self.put(a.transport);
                self.put(a.first);
                self.ladder(&a.ladder);
                self.put(a.deadline);
                self.bit(a.resent);
            }
            Some(CycleKind::PendI) => {
                let p = &s.cycle.pendi;
                self.put("pendi");
                self.epoch(&p.ep);
                self.put(p.wait);
                self.put(p.deadline);
                self.bit(p.restart);
                self.fin(&p.fin);
                self.may_ladder(&p.probes);
                self.when(p.probed);
                self.bit(p.stayed);
                self.bit(p.reverted);
            }
            Some(CycleKind::PendR) => {
                let p = &s.cycle.pendr;
                self.put("pendr");
                self.epoch(&p.ep);
                self.put(p.deadline);
                self.bit(p.restart);
                self.when(p.answer);
            }
            _ => self.put("idle"),
        }
        let c = &s.cands;
        self.put("cands");
        self.put(c.next);
        self.put(c.len);
        for i in 0..c.len {
            for a in [&c.hs, &c.msg1, &c.ack, &c.carrier, &c.route, &c.born, &c.deadline] {
                self.put(a[i]);
            }
            self.opt((c.bounded[i] != 0).then_some(c.bound[i]));
            self.put(c.seq[i]);
        }
    }

    fn event(&mut self, e: Event) {
        let (name, numbers): (_, Vec<Option<u64>>) = match e {
            Event::Send { msg, kind, rungs } => {
                ("send", vec![Some(msg), Some(kind.number()), Some(0), Some(rungs)])
            }
            Event::Prompt { tag, rungs } => ("prompt", vec![Some(tag), Some(rungs)]),
            Event::Deliver { slot, tag, start, end } => {
                ("deliver", vec![Some(slot.number().into()), Some(tag), Some(start), Some(end)])
            }
            Event::Bind { transport, index, tag, purpose } => {
                ("bind", vec![Some(transport), Some(index), tag, Some(purpose.number())])
            }
            Event::Unbind { transport, index } => ("unbind", vec![Some(transport), Some(index)]),
            Event::Delegate { tag, transport, index, session, floor } => (
                "delegate",
                vec![Some(tag), Some(transport), Some(index), Some(session), floor],
            ),
            Event::Revoke { tag, transport, index } => {
                ("revoke", vec![Some(tag), Some(transport), Some(index)])
            }
            Event::Release { index } => ("release", vec![Some(index)]),
            Event::Installed { tag, role, evidence } => (
                "installed",
                vec![Some(tag), Some(role.number()), Some(evidence.number())],
            ),
            Event::Retired { tag } => ("retired", vec![Some(tag)]),
            Event::Reverted { tag } => ("reverted", vec![Some(tag)]),
            Event::PeerRestarted { epoch } => ("peerrestarted", vec![Some(epoch)]),
            Event::Rekeyed { role } => ("rekeyed", vec![Some(role.number())]),
            Event::Reject(reason) => ("reject", vec![Some(reason.number())]),
            Event::Abandoned(cause) => ("abandoned", vec![Some(cause.number())]),
            Event::Teardown(why) => ("teardown", vec![Some(why.number())]),
            Event::Mark { tag, counter } => ("mark", vec![Some(tag), Some(counter)]),
            Event::Start(kind) => ("start", vec![Some(kind.number())]),
            Event::Ended { tag } => ("ended", vec![Some(tag)]),
        };
        _ = write!(self.0, "= e {name}");
        numbers.into_iter().for_each(|n| self.opt(n));
        self.0.push('\n');
    }
}

pub fn state_line(s: &State) -> String {
    let mut w = Words("state".into());
    w.state(s);
    w.0
}

pub fn cfg_line(c: &Config) -> String {
    let mut w = Words("cfg".into());
    w.cfg(c);
    w.0
}

pub fn profile_line(p: &Profile) -> String {
    let mut w = Words("profile".into());
    w.profile(p);
    w.0
}

fn events(log: &Log) -> String {
    let mut w = Words(String::new());
    log.events().for_each(|e| w.event(e));
    w.0
}

fn hex_of(bytes: &[u8]) -> String {
    if bytes.is_empty() {
        return "-".into();
    }
    bytes.iter().map(|b| format!("{b:02x}")).collect()
}

/// A block's settings, profile and state.
pub struct Block {
    pub run: bool,
    pub cfg: Config,
    pub profile: Profile,
    pub state: Option<State>,
}

/// The answer to a call's line, and the state that it leaves; a refused call leaves none.
pub fn answer(b: &Block, line: &str, log: &mut Log) -> (String, Option<State>) {
    let mut f = Fields::of(line);
    let refused = |r: Refusal| (format!("= refused {} {}\n", r.number, r.place), None);
    let mut state = b.state.unwrap_or_default();
    let shown = |s: &State| if b.run { String::new() } else { format!("= {}\n", state_line(s)) };
    let given = |now, workers| Given { cfg: &b.cfg, profile: &b.profile, now, workers };
    match f.word() {
        "open" => {
            let now = f.num();
            let role = Role::of(f.num()).expect("a role");
            let o = Opening { role, transport: f.num(), lease: f.opt(), workers: f.flag() };
            match open(&b.cfg, &b.profile, o, f.draw(i32::MAX), now, log) {
                Err(r) => refused(r),
                Ok(s) => (events(log) + &shown(&s), Some(s)),
            }
        }
        "poll" => {
            let at = given(f.num(), f.flag());
            let (spread, extra) = (f.draw(i32::MAX), f.draw(u32::MAX));
            let still = quiet(&state, at, spread, extra);
            let before = state;
            match poll(&mut state, at, spread, extra, log) {
                Err(r) => {
                    assert!(!still, "the quiet test of a poll that is sent back: {line}");
                    refused(r)
                }
                Ok(n) => {
                    // The quiet test says exactly which accepted polls tell and list nothing.
                    assert_eq!(still, log.is_empty() && n == 0, "the quiet test: {line}");
                    assert!(!still || state == before, "a quiet poll changed the state: {line}");
                    (format!("{}= count {n}\n{}", events(log), shown(&state)), Some(state))
                }
            }
        }
        "frame" => {
            let now = f.num();
            let slot = f.int();
            let proof = FrameProof {
                slot,
                tag: f.num(),
                counter: f.num(),
                k: f.flag(),
                len: f.int(),
                probe: f.flag(),
            };
            let body = f.int();
            let at = given(now, f.flag());
            let spread = f.draw(i32::MAX);
            let mut target = f.hex();
            let source = f.hex();
            match frame(&mut state, at, spread, proof, body, &source, &mut target, log) {
                Err(r) => refused(r),
                Ok(()) => (
                    format!("{}= buf {}\n{}", events(log), hex_of(&target), shown(&state)),
                    Some(state),
                ),
            }
        }
        "reply" => {
            let at = given(f.num(), false);
            let opened = f.flag();
            let a = Attempted { hs: f.num(), msg: f.num(), transport: f.num(), lease: f.opt() };
            match reply(&mut state, at, opened.then_some(a)) {
                Err(r) => refused(r),
                Ok(()) => (shown(&state), Some(state)),
            }
        }
        "sent" => {
            let now = f.num();
            match sent(&mut state, now, f.num()) {
                Err(r) => refused(r),
                Ok(()) => (shown(&state), Some(state)),
            }
        }
        call @ ("worker" | "delegated" | "undelegated" | "datasent" | "path") => {
            let at = given(f.num(), f.flag());
            let spread = f.draw(i32::MAX);
            let before = state;
            let r = match call {
                "worker" => {
                    let (tag, k, counter) = (f.num(), f.flag(), f.num());
                    worker(&mut state, at, spread, tag, k, counter, log)
                }
                "delegated" => delegated(&mut state, at, spread, f.num(), log),
                "undelegated" => undelegated(&mut state, at, spread, f.num(), log),
                "datasent" => data_sent(&mut state, at, spread, log),
                _ => {
                    let reachable = f.flag();
                    path(&mut state, at, spread, reachable, f.opt(), log)
                }
            };
            // What the crate's pages say of all five: how many events, and what a reject leaves.
            let most = match call {
                "worker" => 6,
                "datasent" | "path" => 0,
                _ => 1,
            };
            assert!(log.len() <= most, "the events of a notice: {line}");
            let rejected = log.events().any(|e| matches!(e, Event::Reject(_)));
            assert!(!rejected || (state == before && log.len() == 1), "a reject: {line}");
            match r {
                Err(r) => refused(r),
                Ok(()) => (events(log) + &shown(&state), Some(state)),
            }
        }
        "wake" => match wake(&state, &b.cfg, &b.profile) {
            Err(r) => refused(r),
            Ok(None) => ("= wake none\n".into(), Some(state)),
            Ok(Some(t)) => (format!("= wake {t}\n"), Some(state)),
        },
        "status" => match status(&state, &b.cfg, &b.profile, f.num()) {
            Err(r) => refused(r),
            Ok(l) => {
                let mut w = Words("= status".into());
                w.opt(l.tag);
                w.put(l.kind.number());
                w.opt(l.wake);
                w.opt(l.quiet);
                (w.0 + "\n", Some(state))
            }
        },
        w => panic!("no such call: {w}"),
    }
}

/// Every line of a list that is no answer, each call with its answer behind it. `end` is called for
/// each block with its text.
pub fn play(list: &str, mut end: impl FnMut(&str, &str)) {
    let mut log = Log::new();
    let mut block: Option<Block> = None;
    let (mut name, mut text) = (String::new(), String::new());
    let close = |b: &Option<Block>, text: &mut String| {
        if let Some(Block { run: true, state: Some(s), .. }) = b {
            _ = writeln!(text, "= {}", state_line(s));
        }
    };
    for line in list.lines().filter(|l| !l.starts_with("= ")) {
        let word = line.split(' ').next().expect("a word");
        if word == "vector" || word == "run" {
            close(&block, &mut text);
            if block.is_some() {
                end(&name, &text);
            }
            text.clear();
            name = line.into();
            block = Some(Block {
                run: word == "run",
                cfg: Config::default(),
                profile: Profile::default(),
                state: None,
            });
        }
        text.push_str(line);
        text.push('\n');
        let b = block.as_mut().expect("a block");
        let mut f = Fields::of(line);
        f.word();
        match word {
            "vector" | "run" => {}
            "cfg" => b.cfg = f.cfg(),
            "profile" => b.profile = f.profile(),
            "state" => b.state = Some(f.state()),
            _ => {
                let (told, left) = answer(b, line, &mut log);
                text.push_str(&told);
                if b.run && left.is_some() {
                    b.state = left;
                }
            }
        }
    }
    close(&block, &mut text);
    end(&name, &text);
}

/// The blocks of a list, each with its name.
pub fn blocks(list: &str) -> Vec<(String, String)> {
    let mut all: Vec<(String, String)> = Vec::new();
    for line in list.lines() {
        if line.starts_with("vector ") || line.starts_with("run ") {
            all.push((line.into(), String::new()));
        }
        let b = &mut all.last_mut().expect("a block").1;
        b.push_str(line);
        b.push('\n');
    }
    all
}
