//! The program `leaves`: ladder.rs, params.rs and time/mod.rs, one request
//! a line.
use super::super::ladder::{Ladder, MAX_RUNGS, Schedule, later, millis};
use super::super::machine::oracle::since_ms;
use super::super::params::{Params, msg1_span};
use super::lines::{Fields, arguments, filter, finish, number, put, put_opt};
use super::settings::{self, Cfg, edge, near, pick, place};
use crate::testutil::{SplitMix64, TestInstant};
use crate::time::{Duration, backoff};
use std::fmt::Write as _;

pub(crate) fn main() {
    let args = arguments();
    let word = args.first().map_or("", String::as_str);
    match word {
        "answer" => filter(|line, text| {
            if let Some(line) = line {
                text.push_str(line);
                text.push('\n');
                answer(line, text);
            }
        }),
        "exhaustive" => requests(|to| exhaustive(to)),
        "sample" => requests(|to| sample(to)),
        "random" => {
            let kind = args.get(1).map_or("", String::as_str);
            let mut g = SplitMix64::new(SplitMix64::mix(number(&args, 2), &[kind.len() as u64]));
            let count: u64 = number(&args, 3);
            let one: fn(&mut SplitMix64) -> String = match kind {
                "schedules" => schedules,
                "takes" => takes,
                "settings" => settings_line,
                "time" => time,
                _ => usage(),
            };
            requests(|to| (0..count).for_each(|_| to(one(&mut g))));
        }
        _ => usage(),
    }
}

fn usage() -> ! {
    eprintln!(
        "leaves [--fault NAME] answer | exhaustive | sample | \
         random schedules|takes|settings|time SEED COUNT | --faults"
    );
    std::process::exit(2);
}

/// Write the lines that `make` hands over.
fn requests(make: impl FnOnce(&mut dyn FnMut(String))) {
    let mut stdout = std::io::BufWriter::new(std::io::stdout().lock());
    make(&mut |mut line| {
        line.push('\n');
        put(&mut stdout, &mut line);
    });
    finish(stdout);
}

// ---- answers ----

/// ` LEN KEEPALIVE AT_0 ..`
fn put_sched(s: &mut String, sched: &Schedule) {
    _ = write!(s, " {} {}", sched.len(), sched.map());
    for at in sched.offsets() {
        _ = write!(s, " {at}");
    }
}

/// Append the answer lines to one request.
fn answer(line: &str, s: &mut String) {
    let ms = Duration::from_millis;
    let mut f = Fields::new(line);
    match f.word() {
        "doubling" => {
            let (first, count, end) = (f.num(), f.num(), f.opt());
            f.end();
            let (sched, dropped) = Schedule::doubling(ms(first), count, end.map(ms));
            s.push_str("= sched");
            put_sched(s, &sched);
            _ = writeln!(s, " dropped {dropped}");
        }
        "probes" => {
            let (first, count, end, gap) = (f.num(), f.num(), f.num(), f.num());
            f.end();
            let (sched, dropped) = Schedule::probes(ms(first), count, ms(end), ms(gap));
            s.push_str("= sched");
            put_sched(s, &sched);
            _ = writeln!(s, " dropped {dropped}");
        }
        "take" => take(&mut f, s),
        "later" => {
            let (t, d) = (f.num(), f.num());
            f.end();
            _ = writeln!(s, "= {}", later(TestInstant(t), ms(d)).0);
        }
        "since" => {
            let (now, t) = (f.num(), f.num());
            f.end();
            _ = writeln!(s, "= {}", since_ms(now, t));
        }
        "backoff" => {
            let (exponent, base, cap) = (f.num(), f.num(), f.num());
            f.end();
            _ = writeln!(s, "= {}", millis(backoff(exponent, ms(base), ms(cap))));
        }
        "check" => {
            let cfg = Cfg::read(&mut f);
            f.end();
            let place = Params::new(cfg.config()).map_or_else(place, |_| 0);
            _ = writeln!(s, "= place {place}");
        }
        "params" => {
            let cfg = Cfg::read(&mut f);
            f.end();
            match Params::new(cfg.config()) {
                Err(e) => _ = writeln!(s, "= refused {}", place(e)),
                Ok(p) => params(&p, s),
            }
        }
        "hold" => {
            let silence = f.num();
            let cfg = Cfg::read(&mut f);
            f.end();
            _ = writeln!(s, "= hold {}", millis(cfg.config().with_hold(ms(silence)).hold));
        }
        "wait" => {
            let n = f.num();
            let cfg = Cfg::read(&mut f);
            f.end();
            match Params::new(cfg.config()) {
                Err(e) => _ = writeln!(s, "= refused {}", place(e)),
                Ok(p) => _ = writeln!(s, "= {}", millis(p.backoff(n))),
            }
        }
        "span" => {
            let resends = f.num();
            f.end();
            _ = writeln!(s, "= {}", millis(msg1_span(resends)));
        }
        _ => f.bad("no such request"),
    }
}

fn take(f: &mut Fields<'_>, s: &mut String) {
    let (origin, next, len, keepalive) = (f.num(), f.num(), f.num::<usize>(), f.num());
    if len > MAX_RUNGS {
        f.bad("more rungs than fit");
    }
    let at: Vec<u64> = (0..len).map(|_| f.num()).collect();
    let now = TestInstant(f.num());
    f.end();
    let mut ladder = Ladder::at(TestInstant(origin), Schedule::of(&at, keepalive), next);
    s.push_str("= next_at");
    put_opt(s, ladder.next_at().map(|t| t.0));
    _ = write!(s, " due {}", u8::from(ladder.due(now)));
    let rungs = ladder.rungs(now);
    let taken = ladder.take(now);
    let (any, send, latest) = taken.map_or((0, 0, 0), |t| (1, u8::from(t.send), t.latest));
    let cursor = ladder.parts().2;
    // `Taken` says whether none is left; without one taken, its rule is read
    // off the cursor.
    let last = taken.map_or(len <= usize::from(cursor), |t| t.last);
    assert_eq!(cursor - next, rungs, "the ladder moves as its copy did");
    _ = write!(s, " any {any} send {send} latest {latest} last {} next {cursor}", u8::from(last));
    _ = writeln!(s, " taken {rungs}");
}

fn params(p: &Params, s: &mut String) {
    let inert = p.inert();
    _ = write!(s, "= confirm {} span", millis(p.confirm));
    put_opt(s, u64::try_from(p.span.as_millis()).ok());
    _ = writeln!(
        s,
        " grace {} rung {} gap {} budget {} inert {} {}",
        millis(p.grace),
        millis(p.rung),
        millis(p.gap),
        millis(p.budget),
        inert.first,
        inert.probes
    );
    for (name, sched) in [
        ("first", &p.first),
        ("fin", &p.fin),
        ("probes", &p.probes),
        ("revert", &p.revert),
        ("elicit", &p.elicit),
        ("delayed", &p.delayed),
    ] {
        _ = write!(s, "= {name}");
        put_sched(s, sched);
        s.push('\n');
    }
}

// ---- requests ----

/// Every small argument of the two constructors.
fn exhaustive(to: &mut dyn FnMut(String)) {
    let counts = || (0..=20u64).chain(std::iter::once(255));
    for first in 0..=3 {
        for count in counts() {
            to(format!("doubling {first} {count} -"));
            for end in 0..=40 {
                to(format!("doubling {first} {count} {end}"));
                for gap in 0..=5 {
                    to(format!("probes {first} {count} {end} {gap}"));
                }
            }
        }
    }
}

/// `first` times 2^k - 1, as the offset of a doubling rung, stopped at the
/// end of the range.
fn offset(g: &mut SplitMix64, first: u64) -> u64 {
    let k = match g.below(3) {
        0 => 1 + g.below(6),
        1 => 1 + g.below(20),
        _ => 1 + g.below(64),
    };
    let factor = 1u64.checked_shl(k as u32).map_or(u64::MAX, |p| p - 1);
    first.max(1).saturating_mul(factor)
}

fn schedules(g: &mut SplitMix64) -> String {
    let first = match g.below(4) {
        0 => g.below(4),
        1 => 1000,
        2 => 1 + g.below(20_000),
        _ => edge(g),
    };
    let count = match g.below(4) {
        0 => g.below(8),
        1 => g.below(21),
        2 => pick(g, &[15, 16, 17, 63, 64, 65, 254, 255]),
        _ => g.below(256),
    };
    let rung = offset(g, first);
    let end = match g.below(4) {
        0 | 1 => near(g, rung),
        2 => 1 + g.below(200_000),
        _ => edge(g),
    };
    if g.chance(400) {
        return if g.chance(250) {
            format!("doubling {first} {count} -")
        } else {
            format!("doubling {first} {count} {end}")
        };
    }
    let gap = match g.below(6) {
        0 => g.below(3),
        1 => near(g, first),
        2 => {
            let parts = 1 + g.below(20);
            near(g, end / parts)
        }
        3 => 1 + g.below(10_000),
        4 => {
            let times = 1 + g.below(4);
            near(g, first.saturating_mul(times))
        }
        _ => edge(g),
    };
    format!("probes {first} {count} {end} {gap}")
}

fn takes(g: &mut SplitMix64) -> String {
    let most = MAX_RUNGS as u64;
    let len = if g.chance(100) { pick(g, &[0, most]) } else { g.below(most + 1) };
    let next = match g.below(12) {
        0 => len + g.below(256 - len),
        1 => 255,
        2 => len,
        3 | 4 => 0,
        _ => g.below(len + 1),
    };
    let keepalive = match g.below(4) {
        0 => 0,
        1 => (1u64 << len) - 1,
        _ => g.next_u64() & ((1u64 << len) - 1),
    };
    let origin = match g.below(5) {
        0 => 0,
        1 => u64::MAX - g.below(30_000),
        2 => edge(g),
        _ => g.below(1_000_000),
    };
    let mut at: Vec<u64> = (0..len)
        .map(|i| match g.below(6) {
            0 => g.below(3),
            1 => 1000 * (i + 1),
            2 => g.below(20_000),
            3 => near(g, (u64::MAX - origin).min(1 << 62)),
            4 => {
                let i = 1u64 << i;
                near(g, 1000 * i)
            }
            _ => edge(g),
        })
        .collect();
    if g.chance(500) {
        at.sort_unstable();
    }
    let now = if at.is_empty() || g.chance(150) {
        edge(g)
    } else {
        // At a rung's instant, or next to it; mostly the next rung's.
        let i = if g.chance(400) && next < len { next } else { g.below(len) };
        let t = origin.checked_add(at[i as usize]).unwrap_or(origin);
        near(g, t)
    };
    let mut s = format!("take {origin} {next} {len} {keepalive}");
    for n in at {
        _ = write!(s, " {n}");
    }
    _ = write!(s, " {now}");
    s
}

fn settings_line(g: &mut SplitMix64) -> String {
    let mut s = String::new();
    match g.below(10) {
        0 => {
            let n = if g.chance(500) { g.below(20) } else { g.below(256) };
            return format!("span {n}");
        }
        1 => _ = write!(s, "hold {}", edge(g)),
        2 | 3 => {
            let n = if g.chance(700) { g.below(70) } else { g.below(256) };
            _ = write!(s, "wait {n}");
        }
        4 | 5 | 6 => s.push_str("check"),
        _ => s.push_str("params"),
    }
    let cfg = if s == "params" || s.starts_with("wait") {
        if g.chance(800) { settings::accepted(g) } else { settings::any(g) }
    } else {
        settings::any(g)
    };
    cfg.write(&mut s);
    s
}

fn time(g: &mut SplitMix64) -> String {
    match g.below(3) {
        0 => {
            let t = edge(g);
            let d = if g.chance(400) { near(g, u64::MAX - t) } else { edge(g) };
            format!("later {t} {d}")
        }
        1 => {
            let now = edge(g);
            let t = if g.chance(400) { near(g, now) } else { edge(g) };
            format!("since {now} {t}")
        }
        _ => {
            let exponent = match g.below(4) {
                0 => g.below(34),
                1 => 30 + g.below(5),
                2 => g.below(256),
                _ => g.next_u64() >> 32,
            };
            let base = edge(g);
            let cap = if g.chance(300) {
                let factor = 1u64.checked_shl(exponent as u32).unwrap_or(u64::MAX);
                near(g, base.saturating_mul(factor))
            } else {
                edge(g)
            };
            format!("backoff {exponent} {base} {cap}")
        }
    }
}

/// A short list that meets every kind of request, the edges that the rule
/// names and every place of a check.
fn sample(to: &mut dyn FnMut(String)) {
    // P1 to P11 of the rule.
    for line in [
        "doubling 1000 1 1000",
        "doubling 1000 1 1001",
        "doubling 0 1 -",
        "probes 1000 0 10000 3000",
        "probes 1000 0 9000 3000",
        "probes 1000 0 20 0",
        "probes 5000 1 10000 3000",
        "take 0 0 3 5 3000 5000 8000 2999",
        "take 0 0 3 5 3000 5000 8000 3000",
        "take 0 0 3 5 3000 5000 8000 8000",
        "take 18446744073709550615 0 1 0 3000 18446744073709550615",
        // Ends of the range, full schedules, counts past the limit.
        "doubling 1 255 -",
        "doubling 18446744073709551615 3 -",
        "doubling 18446744073709551615 255 18446744073709551615",
        "doubling 9223372036854775808 17 18446744073709551615",
        "doubling 1000 16 -",
        "doubling 1000 17 -",
        "doubling 1000 255 65535001",
        "probes 1 255 18446744073709551615 18446744073709551615",
        "probes 1 255 18446744073709551615 1",
        "probes 1000 5 31001 0",
        "probes 1000 5 31001 1",
        "probes 1000 5 31000 4000",
        "probes 18446744073709551615 1 18446744073709551615 1",
        "probes 3 2 18446744073709551615 1152921504606846975",
        // Ladders: none left, past the last, not ascending, all keepalives.
        "take 0 0 0 0 0",
        "take 5 0 0 0 18446744073709551615",
        "take 5 3 3 0 1 2 3 100",
        "take 5 4 3 0 1 2 3 100",
        "take 5 255 3 0 1 2 3 100",
        "take 5 16 16 65535 1 2 3 4 5 6 7 8 9 10 11 12 13 14 15 16 100",
        "take 5 15 16 65535 1 2 3 4 5 6 7 8 9 10 11 12 13 14 15 16 21",
        "take 5 0 16 65535 1 2 3 4 5 6 7 8 9 10 11 12 13 14 15 16 100",
        "take 5 0 16 32767 1 2 3 4 5 6 7 8 9 10 11 12 13 14 15 16 100",
        "take 10 0 3 0 5 50 1 20",
        "take 10 1 3 2 5 3 1 20",
        "take 10 2 3 4 50 50 1 11",
        "take 18446744073709551614 0 3 0 0 1 2 18446744073709551614",
        "take 18446744073709551614 0 3 0 1 2 0 18446744073709551615",
        "take 18446744073709551615 0 2 1 18446744073709551615 0 18446744073709551615",
        "later 0 18446744073709551615",
        "later 1 18446744073709551615",
        "later 18446744073709551615 0",
        "later 18446744073709551615 1",
        "since 5 5",
        "since 4 5",
        "since 18446744073709551615 0",
        "since 0 18446744073709551615",
        "backoff 0 5 4",
        "backoff 0 5 5",
        "backoff 0 5 6",
        "backoff 31 1 18446744073709551615",
        "backoff 32 1 18446744073709551615",
        "backoff 33 1 18446744073709551615",
        "backoff 4294967295 1 18446744073709551615",
        "backoff 255 18446744073709551615 18446744073709551615",
        "backoff 3 0 7",
    ] {
        to(line.to_string());
    }
    for n in [0, 1, 2, 5, 15, 16, 17, 64, 255] {
        to(format!("span {n}"));
    }
    let fmp = Cfg::of(&super::super::params::Config::fmp());
    let fsp = Cfg::of(&super::super::params::Config::fsp());
    let mut each = |name: &str, c: Cfg| {
        let mut s = name.to_string();
        c.write(&mut s);
        to(s);
    };
    for c in [fmp, fsp] {
        each("check", c);
        each("params", c);
        each("hold 0", c);
        each("hold 120000", c);
        each("hold 120001", c);
        each("hold 18446744073709551615", c);
        for n in [0, 1, 2, 7, 8, 9, 32, 33, 34, 255] {
            each(&format!("wait {n}"), c);
        }
    }
    // Each check one below, at and one above its edge; then each place with
    // every later one failing too, so that the first is told.
    let steps = [u64::MAX, 0, 1];
    let at = |n: u64, d: u64| n.wrapping_add(d);
    for d in steps {
        for c in [
            Cfg { messages: at(1, d), ..fmp },
            Cfg { messages: at(fmp.soft, d), ..fmp },
            Cfg { after: at(15_000, d), link_age: 0, ..fmp },
            Cfg { after: at(45_000, d), ..fmp },
            Cfg { after: at(settings::AFTER_END, d), ..fmp },
            Cfg { check: at(1, d), handshake: 3000, ..fmp },
            Cfg { hold: at(1, d), ..fmp },
            Cfg { revert: at(1, d), ..fmp },
            Cfg { ttl: at(1, d), ..fmp },
            Cfg { silence: at(1, d), ..fmp },
            Cfg { handshake: at(4000, d), ..fmp },
            Cfg { drain: at(2000, d), ..fmp },
            Cfg { retention: at(10_000, d), ..fmp },
            Cfg { hold: at(31_000, d), ..fmp },
            Cfg { hard: at(fmp.soft, d), ..fmp },
            Cfg { resends: at(16, d) as u8, ..fmp },
            Cfg { drain: at(2002, d), resends: 8, ..fmp },
            Cfg { handshake: u64::MAX - 2, check: at(1, d), hold: u64::MAX, ..fmp },
            Cfg { drain: u64::MAX, retention: u64::MAX, resends: at(1, d) as u8, ..fmp },
        ] {
            each("check", c);
            each("params", c);
        }
    }
    let mut worst = Cfg {
        messages: 0,
        soft: 0,
        hard: 0,
        after: 0,
        check: 0,
        hold: 0,
        revert: 0,
        ttl: 0,
        silence: 0,
        handshake: 0,
        drain: 0,
        retention: 0,
        ..fmp
    };
    let mends: [fn(&mut Cfg); 15] = [
        |c| c.messages = 1,
        |c| c.soft = 1,
        |c| c.after = 15_001,
        |c| c.link_age = 1,
        |c| c.after = 45_000,
        |c| c.check = 1000,
        |c| c.hold = 1,
        |c| c.revert = 1,
        |c| c.ttl = 1,
        |c| c.silence = 1,
        |c| c.handshake = 4000,
        |c| c.drain = 2001,
        |c| c.retention = 2001,
        |c| c.hold = 5001,
        |c| c.hard = 2,
    ];
    for mend in mends {
        each("check", worst);
        mend(&mut worst);
    }
    each("check", worst);
    each("params", worst);
    // Sums past the end of the range.
    let top = u64::MAX;
    for c in [
        Cfg { after: top, link_age: top, jitter: 1, ..fmp },
        Cfg { after: top, link_age: top, jitter: 0, ..fmp },
        Cfg { handshake: top, check: top - 1000, ..fmp },
        Cfg { handshake: top - 1, check: top - 3001, ..fmp },
        Cfg { handshake: top, check: 1, hold: top, ..fmp },
        Cfg { jitter: 65535, after: 65_535_000, link_age: 0, ..fmp },
        Cfg { jitter: 65535, after: 65_535_001, link_age: 1, ..fmp },
        Cfg { messages: top, soft: top, hard: top, ..fmp },
        Cfg { messages: top - 1, soft: top - 1, hard: top, ..fmp },
    ] {
        each("check", c);
        each("params", c);
    }
    let wide = Cfg { check: 1 << 62, handshake: (1 << 62) + 3000, hold: top, ..fmp };
    for n in [1, 2, 3, 33, 255] {
        each(&format!("wait {n}"), wide);
    }
    each("wait 1", Cfg { messages: 0, ..fmp });
    each("hold 5", Cfg { retention: 1, resends: 0, handshake: 1, dampening: 2, ..fmp });
    each("hold 5", Cfg { resends: 255, handshake: top, dampening: top, ..fmp });
    let mut g = SplitMix64::new(1);
    for _ in 0..36 {
        to(schedules(&mut g));
        to(takes(&mut g));
        to(settings_line(&mut g));
        to(time(&mut g));
    }
}
