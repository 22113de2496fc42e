//! Settings as 23 numbers, the place of a refused check, and random settings.
use super::super::params::{Config, MAX_AFTER, ParamsError};
use super::lines::Fields;
use crate::testutil::SplitMix64;
use crate::time::Duration;
use std::fmt::Write as _;

/// The settings in the order of the replay format, in milliseconds.
#[derive(Clone, Copy, Debug, PartialEq, Eq)]
pub(crate) struct Cfg {
    pub(crate) after: u64,
    pub(crate) jitter: u16,
    pub(crate) messages: u64,
    pub(crate) handshake: u64,
    pub(crate) check: u64,
    pub(crate) drain: u64,
    pub(crate) retention: u64,
    pub(crate) hold: u64,
    pub(crate) revert: u64,
    pub(crate) dampening: u64,
    pub(crate) ttl: u64,
    pub(crate) young: u64,
    pub(crate) link_age: u64,
    pub(crate) session_age: u64,
    pub(crate) floor_link: u64,
    pub(crate) floor_session: u64,
    pub(crate) floor_cutover: u64,
    pub(crate) silence: u64,
    pub(crate) resends: u8,
    pub(crate) soft: u64,
    pub(crate) hard: u64,
    pub(crate) delay: u64,
    pub(crate) arrival: bool,
}

/// The longest accepted time trigger.
pub(crate) const AFTER_END: u64 = MAX_AFTER * 1000;

impl Cfg {
    pub(super) fn read(f: &mut Fields<'_>) -> Self {
        Self {
            after: f.num(),
            jitter: f.num(),
            messages: f.num(),
            handshake: f.num(),
            check: f.num(),
            drain: f.num(),
            retention: f.num(),
            hold: f.num(),
            revert: f.num(),
            dampening: f.num(),
            ttl: f.num(),
            young: f.num(),
            link_age: f.num(),
            session_age: f.num(),
            floor_link: f.num(),
            floor_session: f.num(),
            floor_cutover: f.num(),
            silence: f.num(),
            resends: f.num(),
            soft: f.num(),
            hard: f.num(),
            delay: f.num(),
            arrival: f.flag(),
        }
    }

    /// The fields, each behind a space.
    pub(crate) fn write(&self, s: &mut String) {
        let c = self;
        for n in [c.after, c.jitter.into(), c.messages, c.handshake, c.check, c.drain] {
            _ = write!(s, " {n}");
        }
        for n in [c.retention, c.hold, c.revert, c.dampening, c.ttl, c.young, c.link_age] {
            _ = write!(s, " {n}");
        }
        for n in [c.session_age, c.floor_link, c.floor_session, c.floor_cutover, c.silence] {
            _ = write!(s, " {n}");
        }
        for n in [c.resends.into(), c.soft, c.hard, c.delay, c.arrival.into()] {
            _ = write!(s, " {n}");
        }
    }

    pub(crate) fn config(&self) -> Config {
        let ms = Duration::from_millis;
        Config {
            after: ms(self.after),
            jitter: self.jitter,
            messages: self.messages,
            handshake: ms(self.handshake),
            check: ms(self.check),
            drain: ms(self.drain),
            retention: ms(self.retention),
            hold: ms(self.hold),
            revert: ms(self.revert),
            dampening: ms(self.dampening),
            ttl: ms(self.ttl),
            young: ms(self.young),
            link_age: ms(self.link_age),
            session_age: ms(self.session_age),
            floor_link: ms(self.floor_link),
            floor_session: ms(self.floor_session),
            floor_cutover: ms(self.floor_cutover),
            silence: ms(self.silence),
            resends: self.resends,
            soft: self.soft,
            hard: self.hard,
            delay: ms(self.delay),
            arrival: self.arrival,
        }
    }

    pub(crate) fn of(c: &Config) -> Self {
        let ms = super::super::ladder::millis;
        Self {
            after: ms(c.after),
            jitter: c.jitter,
            messages: c.messages,
            handshake: ms(c.handshake),
            check: ms(c.check),
            drain: ms(c.drain),
            retention: ms(c.retention),
            hold: ms(c.hold),
            revert: ms(c.revert),
            dampening: ms(c.dampening),
            ttl: ms(c.ttl),
            young: ms(c.young),
            link_age: ms(c.link_age),
            session_age: ms(c.session_age),
            floor_link: ms(c.floor_link),
            floor_session: ms(c.floor_session),
            floor_cutover: ms(c.floor_cutover),
            silence: ms(c.silence),
            resends: c.resends,
            soft: c.soft,
            hard: c.hard,
            delay: ms(c.delay),
            arrival: c.arrival,
        }
    }
}

/// The place of a refused check in file order, from 1: the five entries of
/// `positive` are five places.
pub(crate) fn place(e: ParamsError) -> u8 {
    match e {
        ParamsError::ZeroMessages => 1,
        ParamsError::MessagesPastSoft => 2,
        ParamsError::AfterNotAboveJitter => 3,
        ParamsError::AfterBelowLinkFloor => 4,
        ParamsError::AfterTooLong => 5,
        ParamsError::Zero("the check interval") => 6,
        ParamsError::Zero("the pending hold") => 7,
        ParamsError::Zero("the revert window") => 8,
        ParamsError::Zero("the candidate lifetime") => 9,
        ParamsError::Zero("the silence interval") => 10,
        ParamsError::Zero(name) => unreachable!("{name}"),
        ParamsError::HandshakeTooShort => 11,
        ParamsError::DrainTooShort => 12,
        ParamsError::RetentionBelowDrain => 13,
        ParamsError::HoldTooShort => 14,
        ParamsError::SoftNotBelowHard => 15,
    }
}

/// One of `of`.
pub(crate) fn pick<T: Copy>(g: &mut SplitMix64, of: &[T]) -> T {
    of[g.below(of.len() as u64) as usize]
}

/// `n` less one, as it is, or plus one, wrapping at the ends of the range so
/// that both ends are met.
pub(crate) fn near(g: &mut SplitMix64, n: u64) -> u64 {
    n.wrapping_add(g.below(3)).wrapping_sub(1)
}

/// A number close to an end of the range, to a power of two, a span of time
/// as settings have it, or any number.
pub(crate) fn edge(g: &mut SplitMix64) -> u64 {
    match g.below(8) {
        0 => g.below(5),
        1 => u64::MAX - g.below(5),
        2 => u64::MAX - g.below(200_000),
        3 => {
            let p = 1u64 << g.below(64);
            near(g, p)
        }
        4 => {
            let n = 1000 * g.below(200);
            near(g, n)
        }
        5 => g.below(1_000_000),
        6 => {
            let bits = g.below(64);
            g.next_u64() >> bits
        }
        _ => g.next_u64(),
    }
}

/// A span of time for a setting: mostly short, so that the checks between
/// settings are met often.
fn span(g: &mut SplitMix64) -> u64 {
    match g.below(4) {
        0 => g.below(10),
        1 => 1000 * g.below(130),
        2 => g.below(130_000),
        _ => edge(g),
    }
}

/// Settings that every check passes.
pub(crate) fn accepted(g: &mut SplitMix64) -> Cfg {
    let mut c = Cfg::of(&if g.chance(500) { Config::fmp() } else { Config::fsp() });
    match g.below(5) {
        0 => return c,
        1 => {
            // The defaults with the limits of the send count within reach.
            c.messages = 1 + g.below(4);
            c.soft = c.messages + g.below(4);
            c.hard = c.soft + 1 + g.below(4);
            c.resends = pick(g, &[0, 1, 5, 16, 255]);
            return c;
        }
        _ => {}
    }
    let slack = |g: &mut SplitMix64| match g.below(6) {
        0 | 1 => 0,
        2 => g.below(3),
        3 => g.below(10_000),
        4 => 1000 * g.below(20),
        _ => edge(g),
    };
    c.jitter = pick(g, &[0, 1, 1, 2, 15, 200, 32767, 32768, 65535]);
    c.link_age = match g.below(3) {
        0 => g.below(3),
        1 => 1000 * g.below(40),
        _ => g.below(AFTER_END - 65_535_000),
    };
    let least = (u64::from(c.jitter) * 1000 + c.link_age).max(u64::from(c.jitter) * 1000 + 1);
    c.after = least.saturating_add(slack(g)).min(AFTER_END);
    c.messages = 1 + match g.below(3) {
        0 => g.below(5),
        1 => g.below(100_000),
        _ => g.below(u64::MAX - 10),
    };
    c.soft = c.messages.saturating_add(slack(g)).min(u64::MAX - 1);
    c.hard = (c.soft + 1).saturating_add(slack(g));
    c.check = 1 + match g.below(5) {
        0 => 0,
        1 => g.below(10),
        2 => 1000 * g.below(5),
        3 => g.below(10_000),
        _ => g.below(1 << 62),
    };
    c.handshake = (c.check + 3000).saturating_add(slack(g)).min(u64::MAX - 1 - c.check);
    c.hold = (c.handshake + c.check + 1).saturating_add(slack(g));
    c.drain = 2001u64.saturating_add(slack(g));
    c.retention = c.drain.saturating_add(slack(g));
    c.revert = 1 + match g.below(3) {
        0 => g.below(3),
        1 => 1000 * g.below(20),
        _ => edge(g).min(u64::MAX - 1),
    };
    c.ttl = 1 + slack(g).min(u64::MAX - 1);
    c.silence = 1 + match g.below(3) {
        0 => g.below(3),
        1 => 1000 * g.below(60),
        _ => edge(g).min(u64::MAX - 1),
    };
    c.resends = match g.below(3) {
        0 => g.below(20) as u8,
        1 => pick(g, &[0, 1, 15, 16, 17, 63, 64, 254, 255]),
        _ => g.below(256) as u8,
    };
    c.dampening = span(g);
    c.young = span(g);
    c.session_age = span(g);
    c.floor_link = if g.chance(500) { 0 } else { span(g) };
    c.floor_session = if g.chance(500) { 0 } else { span(g) };
    c.floor_cutover = if g.chance(500) { 0 } else { span(g) };
    c.delay = span(g);
    c.arrival = g.chance(500);
    c
}

/// Put one field of `c` at the edge of one check.
pub(crate) fn move_to_edge(g: &mut SplitMix64, c: &mut Cfg) {
    let jitter = u64::from(c.jitter) * 1000;
    match g.below(24) {
        0 => c.messages = g.below(2),
        1 => c.messages = near(g, c.soft),
        2 => c.soft = near(g, c.messages),
        3 => c.after = near(g, jitter),
        4 => c.jitter = near(g, c.after / 1000) as u16,
        5 => c.after = near(g, jitter.saturating_add(c.link_age)),
        6 => c.link_age = near(g, c.after.saturating_sub(jitter)),
        7 => {
            c.after = near(g, AFTER_END);
        }
        8 => c.check = g.below(2),
        9 => c.hold = g.below(2),
        10 => c.revert = g.below(2),
        11 => c.ttl = g.below(2),
        12 => c.silence = g.below(2),
        13 => c.handshake = near(g, c.check.saturating_add(3000)),
        14 => c.check = near(g, c.handshake.saturating_sub(3000)),
        15 => c.drain = near(g, 2000),
        16 => c.retention = near(g, c.drain),
        17 => c.drain = near(g, c.retention),
        18 => c.hold = near(g, c.handshake.saturating_add(c.check)),
        19 => c.hard = near(g, c.soft),
        20 => c.soft = near(g, c.hard),
        21 => {
            // A sum past the end of the range.
            c.link_age = u64::MAX - g.below(2);
            c.after = u64::MAX - g.below(2);
        }
        22 => {
            c.handshake = u64::MAX - g.below(2);
            c.check = u64::MAX - 1000 + g.below(3);
        }
        _ => {
            c.handshake = near(g, 1 << 63);
            c.check = near(g, 1 << 63);
            c.hold = u64::MAX - g.below(2);
        }
    }
}

/// Settings, accepted or not.
pub(crate) fn any(g: &mut SplitMix64) -> Cfg {
    let mut c = accepted(g);
    match g.below(10) {
        0 => {}
        1 => {
            c = Cfg {
                after: edge(g),
                jitter: edge(g) as u16,
                messages: edge(g),
                handshake: edge(g),
                check: edge(g),
                drain: edge(g),
                retention: edge(g),
                hold: edge(g),
                revert: edge(g),
                dampening: edge(g),
                ttl: edge(g),
                young: edge(g),
                link_age: edge(g),
                session_age: edge(g),
                floor_link: edge(g),
                floor_session: edge(g),
                floor_cutover: edge(g),
                silence: edge(g),
                resends: edge(g) as u8,
                soft: edge(g),
                hard: edge(g),
                delay: edge(g),
                arrival: g.chance(500),
            };
        }
        n => {
            for _ in 0..(n / 4 + 1) {
                move_to_edge(g, &mut c);
            }
        }
    }
    c
}
