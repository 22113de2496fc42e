/* The host loop of a counting tablet: it holds one link to its hub. It sleeps by the wake, polls, answers
 * START, survives starts that open nothing and calls that are refused, delivers frames, and tells the link
 * what its receive worker and the path report.
 *
 * Clock, network, keys and the worker are simulated: the clock jumps to the next instant at which something
 * happens, and hub() says what happens outside. So every run writes the same lines, those of examples/tablet.txt,
 * and examples/tablet.rs writes them too. examples/run builds, runs and compares both. */
#include "siklyavon_link.h"
#include <inttypes.h>
#include <stdarg.h>
#include <stdio.h>
#include <string.h>

#define NEVER UINT64_MAX
#define TRANSPORT 7
#define HUB_EPOCH 77 /* the hub's startup epoch, as its handshake messages carry it */
#define BODY 16      /* where the plaintext of a frame begins in the tablet's buffer */

/* What happens outside, in this order. */
enum what {
    NOTHING, DATA, HEARD, WRONG_TAG, GONE, HERE, BACK, BAD_SETTINGS, PATH_LOST, PATH_FOUND, REPLY, MOVED, LATE, END
};

static struct {
    uint64_t now;
    siklyavon_config cfg;
    siklyavon_profile profile;
    siklyavon_state link;
    uint64_t log[SIKLYAVON_WORDS];
    uint64_t notice[SIKLYAVON_WORDS]; /* of a call that is made while the log is carried out */
    uint8_t frame[64];
    bool workers;     /* the receive worker is there */
    uint64_t sealed;  /* frames sealed under the current epoch */
    uint64_t tag;     /* the last tag given to an epoch */
    uint64_t next;    /* no poll before this instant */
    uint64_t retry;   /* no start is tried before this one */
    unsigned failed;  /* tries in a row that opened nothing */
    uint64_t started; /* when a start opened an attempt, or NEVER */
    enum what done;   /* what happened last */
    uint32_t seed;    /* of the draws */
    bool closed;      /* a teardown was told */
    unsigned polls, tries, refused, delivered, reported;
} t;

static const char *const role[] = {
    [SIKLYAVON_ROLE_INITIATOR] = "initiator", [SIKLYAVON_ROLE_RESPONDER] = "responder"};
static const char *const message[] = {
    [SIKLYAVON_MESSAGE_MSG1] = "msg1",   [SIKLYAVON_MESSAGE_MSG2] = "msg2", [SIKLYAVON_MESSAGE_SETUP] = "setup",
    [SIKLYAVON_MESSAGE_ACK] = "ack",     [SIKLYAVON_MESSAGE_MSG3] = "msg3"};
static const char *const slot[] = {
    [SIKLYAVON_SLOT_CURRENT] = "current", [SIKLYAVON_SLOT_PENDING] = "pending", [SIKLYAVON_SLOT_PREVIOUS] = "previous"};
static const char *const purpose[] = {
    [SIKLYAVON_PURPOSE_ATTEMPT] = "attempt", [SIKLYAVON_PURPOSE_PENDING] = "pending",
    [SIKLYAVON_PURPOSE_CURRENT] = "current", [SIKLYAVON_PURPOSE_PREVIOUS] = "previous"};
static const char *const evidence[] = {
    [SIKLYAVON_EVIDENCE_PROOF] = "proof",     [SIKLYAVON_EVIDENCE_FRAME] = "frame",
    [SIKLYAVON_EVIDENCE_RESTART] = "restart", [SIKLYAVON_EVIDENCE_ASSUMED] = "assumed",
    [SIKLYAVON_EVIDENCE_DELAY] = "delay",     [SIKLYAVON_EVIDENCE_FIRST] = "first"};
static const char *const reason[] = {
    [SIKLYAVON_REASON_SHORT_PLAINTEXT] = "short plaintext",
    [SIKLYAVON_REASON_STALE_TAG] = "stale tag",
    [SIKLYAVON_REASON_NOT_DELEGATED] = "not delegated",
    [SIKLYAVON_REASON_ALREADY_DELEGATED] = "already delegated",
    [SIKLYAVON_REASON_NOT_OFFERED] = "not offered",
    [SIKLYAVON_REASON_CANDIDATE_EXPIRED] = "candidate expired"};
static const char *const cause[] = {
    [SIKLYAVON_ABANDON_ADOPTION_NOT_SEEN] = "adoption not seen",
    [SIKLYAVON_ABANDON_UNADOPTED] = "unadopted",
    [SIKLYAVON_ABANDON_PEER_STAYED_ON_OLD] = "peer stayed on old",
    [SIKLYAVON_ABANDON_REVERT_UNCONFIRMED] = "revert unconfirmed",
    [SIKLYAVON_ABANDON_UNANSWERED] = "unanswered",
    [SIKLYAVON_ABANDON_YIELDED] = "yielded",
    [SIKLYAVON_ABANDON_REVERTED] = "reverted",
    [SIKLYAVON_ABANDON_SUPERSEDED] = "superseded",
    [SIKLYAVON_ABANDON_CLOSED] = "closed"};
static const char *const why[] = {
    [SIKLYAVON_TEARDOWN_OPENING_IDLE] = "opening idle",
    [SIKLYAVON_TEARDOWN_OPENING_FAILED] = "opening failed",
    [SIKLYAVON_TEARDOWN_COUNTER_EXHAUSTED] = "counter exhausted"};
static const char *const start[] = {
    [SIKLYAVON_START_SCHEDULED] = "scheduled", [SIKLYAVON_START_SILENCE] = "silence"};
static const char *const kind[] = {
    [SIKLYAVON_CYCLE_IDLE] = "idle", [SIKLYAVON_CYCLE_INIT] = "init",
    [SIKLYAVON_CYCLE_PENDI] = "pendi", [SIKLYAVON_CYCLE_PENDR] = "pendr"};

static const char *const refusal[] = {
    [SIKLYAVON_REFUSED_SETTINGS] = "settings", [SIKLYAVON_REFUSED_PROFILE] = "profile",
    [SIKLYAVON_REFUSED_CANDIDATES] = "candidates", [SIKLYAVON_REFUSED_NO_CURRENT] = "no current",
    [SIKLYAVON_REFUSED_SHARED] = "shared", [SIKLYAVON_REFUSED_LADDER] = "ladder",
    [SIKLYAVON_REFUSED_DRAW] = "draw", [SIKLYAVON_REFUSED_SLOT] = "slot", [SIKLYAVON_REFUSED_TAG] = "tag",
    [SIKLYAVON_REFUSED_NO_START] = "no start", [SIKLYAVON_REFUSED_SENT] = "sent"};
static const char *const check[] = {
    [SIKLYAVON_PLACE_ZERO_MESSAGES] = "zero messages",
    [SIKLYAVON_PLACE_MESSAGES_PAST_SOFT] = "messages past soft",
    [SIKLYAVON_PLACE_AFTER_NOT_ABOVE_JITTER] = "after not above jitter",
    [SIKLYAVON_PLACE_AFTER_BELOW_LINK_FLOOR] = "after below link floor",
    [SIKLYAVON_PLACE_AFTER_TOO_LONG] = "after too long",
    [SIKLYAVON_PLACE_ZERO_CHECK] = "zero check",
    [SIKLYAVON_PLACE_ZERO_HOLD] = "zero hold",
    [SIKLYAVON_PLACE_ZERO_REVERT] = "zero revert",
    [SIKLYAVON_PLACE_ZERO_TTL] = "zero ttl",
    [SIKLYAVON_PLACE_ZERO_SILENCE] = "zero silence",
    [SIKLYAVON_PLACE_HANDSHAKE_TOO_SHORT] = "handshake too short",
    [SIKLYAVON_PLACE_DRAIN_TOO_SHORT] = "drain too short",
    [SIKLYAVON_PLACE_RETENTION_BELOW_DRAIN] = "retention below drain",
    [SIKLYAVON_PLACE_HOLD_TOO_SHORT] = "hold too short",
    [SIKLYAVON_PLACE_SOFT_NOT_BELOW_HARD] = "soft not below hard"};

/* One line, behind the instant. */
static void say(const char *format, ...) {
    va_list words;
    printf("%6" PRIu64 " ", t.now);
    va_start(words, format);
    vprintf(format, words);
    va_end(words);
    putchar('\n');
}

/* Draws from 0 to bound. A tablet takes them from a random source; this one is the same in each run. */
static uint32_t draw(uint32_t bound) {
    t.seed = t.seed * 1103515245u + 12345u;
    return (t.seed >> 16) % (bound + 1);
}

static int32_t spread(void) {
    return (int32_t)draw(2u * t.cfg.jitter) - t.cfg.jitter;
}

/* Whether a call was accepted. A refusal is written down; the link stays as it was. */
static bool accepted(const char *call, uint8_t number, uint8_t place) {
    if (number == SIKLYAVON_ACCEPTED) return true;
    t.refused++;
    if (number == SIKLYAVON_REFUSED_SETTINGS)
        say("%s refused: %d %s, place %d %s", call, number, refusal[number], place, check[place]);
    else
        say("%s refused: %d %s", call, number, refusal[number]);
    return false;
}

/* The state that a call leaves, where it was accepted. */
static bool taken(const char *call, const siklyavon_answer *a) {
    if (!accepted(call, a->number, a->place)) return false;
    t.link = a->state;
    return true;
}

/* A handshake is started. Here the radio is off at the first two tries. */
static void try_to_start(void) {
    siklyavon_start_reply r = {false, 0, 0, 0, {false, 0}};
    t.tries++;
    if (t.tries > 2) {
        siklyavon_start_reply opened = {true, 11, 12, TRANSPORT, {true, 43}};
        r = opened;
        say("  try %u: handshake %" PRIu64 ", message %" PRIu64 " sent, index %" PRIu32 " bound", t.tries, r.hs, r.msg,
            r.lease.index);
    }
    siklyavon_answer a = siklyavon_reply(t.link, t.cfg, t.profile, t.now, r);
    if (!taken("reply", &a)) return;
    if (r.opened) {
        t.failed = 0;
        t.retry = 0;
        t.started = t.now;
    } else {
        /* The start stays called for, and each poll tells it again: the back-off is the tablet's. */
        t.failed++;
        t.retry = t.now + (t.cfg.check << (t.failed < 6 ? t.failed : 6));
        say("  try %u opened nothing; no other before %" PRIu64, t.tries, t.retry);
    }
}

/* The current epoch's count of sealed frames is told. */
static void count(void) {
    siklyavon_answer a = siklyavon_sent(t.link, t.now, t.sealed);
    taken("sent", &a);
}

static void carry_out(const uint64_t *log, size_t len);

/* The worker takes the receive half that was offered. The offer's log is still being carried out, so this
 * call gets another. No notice uses its draw. */
static void hand_over(uint64_t tag) {
    say("  worker took epoch %" PRIu64, tag);
    siklyavon_answer a = siklyavon_delegated(t.link, t.cfg, t.profile, t.now, t.workers, 0, tag, t.notice);
    if (taken("delegated", &a)) carry_out(t.notice, a.len);
}

/* Carry the events of a call out, front to back. */
static void carry_out(const uint64_t *log, size_t len) {
    bool told = false;
    for (size_t i = 0; i < len; i++) {
        const uint64_t *e = &log[i * SIKLYAVON_WORDS_PER_EVENT];
        switch (e[0]) {
        case SIKLYAVON_EVENT_SEND:
            say("  send: message %" PRIu64 ", %s, rungs %" PRIu64, e[1], message[e[2]], e[3]);
            break;
        case SIKLYAVON_EVENT_PROMPT:
            say("  prompt: epoch %" PRIu64 ", rungs %" PRIu64, e[1], e[2]);
            if (e[1] == t.link.cur.ep.tag) {
                t.sealed++;
                told = true;
            }
            break;
        case SIKLYAVON_EVENT_DELIVER:
            t.delivered++;
            say("  deliver: %s epoch %" PRIu64 ", \"%.*s\"", slot[e[1]], e[2], (int)(e[4] - e[3]),
                (const char *)&t.frame[e[3]]);
            break;
        case SIKLYAVON_EVENT_BIND:
            say("  bind: transport %" PRIu64 ", index %" PRIu64 ", %s", e[1], e[2], purpose[e[5]]);
            break;
        case SIKLYAVON_EVENT_UNBIND: say("  unbind: transport %" PRIu64 ", index %" PRIu64, e[1], e[2]); break;
        case SIKLYAVON_EVENT_DELEGATE:
            if (e[5] != 0)
                say("  delegate: epoch %" PRIu64 ", floor %" PRIu64, e[1], e[6]);
            else
                say("  delegate: epoch %" PRIu64, e[1]);
            hand_over(e[1]);
            break;
        case SIKLYAVON_EVENT_REVOKE: say("  revoke: epoch %" PRIu64, e[1]); break;
        case SIKLYAVON_EVENT_RELEASE: say("  release: index %" PRIu64, e[1]); break;
        case SIKLYAVON_EVENT_INSTALLED:
            t.sealed = 0;
            say("  installed: epoch %" PRIu64 ", %s, %s", e[1], role[e[2]], evidence[e[3]]);
            break;
        case SIKLYAVON_EVENT_RETIRED: say("  retired: epoch %" PRIu64, e[1]); break;
        case SIKLYAVON_EVENT_REVERTED: say("  reverted: epoch %" PRIu64, e[1]); break;
        case SIKLYAVON_EVENT_PEER_RESTARTED: say("  peer restarted: %" PRIu64, e[1]); break;
        case SIKLYAVON_EVENT_REKEYED: say("  rekeyed: %s", role[e[1]]); break;
        case SIKLYAVON_EVENT_REPLACE_REQUESTED: break; /* no call tells it */
        case SIKLYAVON_EVENT_REJECT: say("  reject: %s", reason[e[1]]); break;
        case SIKLYAVON_EVENT_ABANDONED: say("  abandoned: %s", cause[e[1]]); break;
        case SIKLYAVON_EVENT_TEARDOWN:
            say("  teardown: %s", why[e[1]]);
            t.closed = true;
            break;
        case SIKLYAVON_EVENT_MARK: say("  mark: epoch %" PRIu64 ", counter %" PRIu64, e[1], e[2]); break;
        case SIKLYAVON_EVENT_START:
            say("  start: %s", start[e[1]]);
            if (t.now >= t.retry) try_to_start();
            break;
        case SIKLYAVON_EVENT_ENDED: say("  ended: epoch %" PRIu64, e[1]); break;
        }
    }
    /* A prompt is a frame that was sealed. */
    if (told) count();
}

/* A frame of the hub, which the worker opened. It has the replay window and hands the plaintext up. */
static void worker_hears(uint64_t tag, uint64_t counter, const char *text) {
    t.reported++;
    say("worker: frame of %zu bytes under epoch %" PRIu64 ", \"%s\"", strlen(text), tag, text);
    siklyavon_answer a = siklyavon_worker(t.link, t.cfg, t.profile, t.now, t.workers, 0, tag, t.link.cur.ep.k, counter,
                                          t.log);
    if (taken("worker", &a)) carry_out(t.log, a.len);
}

/* The worker is gone: the epoch of the tag is received here again. */
static void worker_gone(uint64_t tag) {
    t.workers = false;
    say("worker gone: epoch %" PRIu64, tag);
    siklyavon_answer a = siklyavon_undelegated(t.link, t.cfg, t.profile, t.now, t.workers, 0, tag, t.log);
    if (taken("undelegated", &a)) carry_out(t.log, a.len);
}

/* The tablet seals data for the hub. */
static void seal(const char *text) {
    say("seal: %zu bytes under epoch %" PRIu64, strlen(text), t.link.cur.ep.tag);
    siklyavon_answer a = siklyavon_data_sent(t.link, t.cfg, t.profile, t.now, t.workers, 0, t.log);
    if (taken("data_sent", &a)) carry_out(t.log, a.len);
    t.sealed++;
    count();
}

/* The way to the hub is lost or found, with the round trip where it was measured. */
static void path(bool reachable, siklyavon_when srtt) {
    say("path: %s", reachable ? "found" : "lost");
    siklyavon_answer a = siklyavon_path(t.link, t.cfg, t.profile, t.now, t.workers, 0, reachable, srtt, t.log);
    if (taken("path", &a)) carry_out(t.log, a.len);
}

/* A frame of the hub, which the tablet's own half opened. Its plaintext goes to t.frame, from BODY on. */
static void hear(uint64_t tag, uint64_t counter, const char *text) {
    const uint8_t *plain = (const uint8_t *)text;
    siklyavon_frame_proof p = {tag, SIKLYAVON_SLOT_CURRENT, counter, t.link.cur.ep.k, strlen(text), false};
    say("frame of %zu bytes under epoch %" PRIu64, p.len, tag);
    siklyavon_answer a = siklyavon_frame(t.link, t.cfg, t.profile, t.now, t.workers, spread(), p, BODY, plain, p.len,
                                         t.frame, sizeof t.frame, t.log);
    if (taken("frame", &a)) carry_out(t.log, a.len);
}

/* The reply to the own attempt authenticated: no call takes it, the fields are written (the header's table,
 * R1 to R3). The next poll cuts over. */
static void answered(void) {
    const siklyavon_attempt *a = &t.link.cycle.init;
    siklyavon_memory *m = &t.link.mem;
    siklyavon_pend_i done = {.wait = SIKLYAVON_WAIT_HELD, .deadline = t.now};
    t.tag++;
    say("reply: handshake %" PRIu64 " completed, epoch %" PRIu64 " is pending", a->hs, t.tag);
    say("  unbind: transport %" PRIu64 ", index %" PRIu32, a->transport, a->lease.index);
    say("  bind: transport %d, index %" PRIu32 ", pending", TRANSPORT, a->lease.index);
    if (!a->resent) {
        m->hs_rtt.some = true;
        m->hs_rtt.at = t.now - a->first;
        m->setup_rto.some = false;
    }
    done.restart = !m->peer_epoch.some || m->peer_epoch.at != HUB_EPOCH;
    m->peer_epoch.some = true;
    m->peer_epoch.at = HUB_EPOCH;
    done.ep.tag = t.tag;
    done.ep.session = t.tag;
    done.ep.ids.lease = a->lease;
    done.ep.ids.theirs.some = true;
    done.ep.ids.theirs.index = 502;
    done.ep.ids.transport = TRANSPORT;
    done.ep.k = !done.restart && !(m->peer_k.some ? m->peer_k.on : t.link.cur.ep.k);
    done.ep.started = t.now;
    t.link.cycle.kind = SIKLYAVON_CYCLE_PENDI;
    t.link.cycle.pendi = done;
}

/* When the next thing happens outside. */
static uint64_t outside(void) {
    switch (t.done) {
    case NOTHING: return 1500;
    case DATA: return 2000;
    case HEARD: return 3000;
    case WRONG_TAG: return 4000;
    case GONE: return 4500;
    case HERE: return 5000;
    case BACK: return 6000;
    case BAD_SETTINGS: return 40000;
    case PATH_LOST: return 52000;
    case PATH_FOUND: return t.started == NEVER ? NEVER : t.started + 1500;
    case REPLY: return t.started + 4000;
    case MOVED: return t.started + 14500;
    case LATE: return 100000;
    case END: break;
    }
    return NEVER;
}

/* The next thing happens. */
static void hub(void) {
    siklyavon_config other = t.cfg;
    siklyavon_when measured = {true, 80}, absent = {false, 0};
    uint8_t place;
    switch (t.done) {
    case NOTHING:
        t.done = DATA;
        seal("box 12?");
        break;
    case DATA:
        t.done = HEARD;
        worker_hears(1, 1, "box 12: 431 ballots");
        break;
    case HEARD:
        /* A frame with the tag of an epoch that is not held: the link refuses it and stays. */
        t.done = WRONG_TAG;
        hear(9, 2, "box 13: 220 ballots");
        break;
    case WRONG_TAG:
        t.done = GONE;
        worker_gone(1);
        break;
    case GONE:
        /* No worker holds the epoch: the tablet opens its frames itself. */
        t.done = HERE;
        hear(1, 2, "box 13: 220 ballots");
        break;
    case HERE:
        /* The next poll offers the epoch again. */
        t.done = BACK;
        t.workers = true;
        say("worker back");
        break;
    case BACK:
        /* Settings of an operator are tested before they are taken. These fail, and the old ones stay. */
        t.done = BAD_SETTINGS;
        other.ttl = 0;
        say("settings: ttl %" PRIu64, other.ttl);
        place = siklyavon_settings(other);
        if (accepted("settings", place == 0 ? SIKLYAVON_ACCEPTED : SIKLYAVON_REFUSED_SETTINGS, place)) t.cfg = other;
        break;
    case BAD_SETTINGS:
        /* No start is called for until the path is found again. */
        t.done = PATH_LOST;
        path(false, absent);
        break;
    case PATH_LOST:
        t.done = PATH_FOUND;
        path(true, measured);
        break;
    case PATH_FOUND:
        t.done = REPLY;
        answered();
        break;
    case REPLY:
        t.done = MOVED;
        worker_hears(2, 1, "box 14: 198 ballots");
        break;
    case MOVED:
        /* The worker has not read the REVOKE yet: its notice is accepted, and a reject in the log. */
        t.done = LATE;
        worker_hears(1, 3, "box 13: 221 ballots");
        break;
    default: t.done = END;
    }
}

/* The instant of the next poll: at once where one has work, else the wake; never within check of the last. */
static uint64_t look(void) {
    siklyavon_given g = {t.cfg, t.profile, t.now, t.workers, 0};
    uint64_t at = t.now;
    if (siklyavon_quiet(&t.link, g, 0)) {
        siklyavon_woke w = siklyavon_wake(t.link, t.cfg, t.profile);
        at = accepted("wake", w.number, w.place) && w.at.some ? w.at.at : NEVER;
    }
    return at > t.next ? at : t.next;
}

static void poll(void) {
    int32_t s = spread();
    uint32_t extra = draw(t.cfg.jitter);
    t.polls++;
    if (t.polls == 2) s = 99; /* a draw outside of its range, to show what becomes of it */
    say("poll %u", t.polls);
    siklyavon_answer a = siklyavon_poll(t.link, t.cfg, t.profile, t.now, t.workers, s, extra, t.log);
    /* Also a refused poll counts: the next one comes a check later, with new draws. */
    t.next = t.now + t.cfg.check;
    if (taken("poll", &a)) carry_out(t.log, a.len);
}

int main(void) {
    siklyavon_index lease = {true, 42};
    siklyavon_profile two = {2, false, true, true, 0};
    t.now = 1000;
    t.seed = 1;
    t.started = NEVER;
    t.done = NOTHING;
    t.workers = true;
    t.tag = 1;
    t.profile = two;
    /* The defaults, and one field changed: a rekey each minute. */
    t.cfg = siklyavon_config_fmp();
    t.cfg.after = 60000;

    siklyavon_answer a = siklyavon_open(t.cfg, t.profile, true, TRANSPORT, lease, t.workers, spread(), t.now, t.log);
    say("open");
    if (!taken("open", &a)) return 1;
    t.link.mem.peer_epoch.some = true; /* read in the first handshake */
    t.link.mem.peer_epoch.at = HUB_EPOCH;
    carry_out(t.log, a.len);

    while (!t.closed && t.done != END) {
        uint64_t at = look(), happens = outside();
        if (happens <= at) {
            /* What comes from outside ends the sleep; then the tablet looks again. */
            t.now = happens;
            hub();
        } else {
            t.now = at;
            poll();
        }
    }

    siklyavon_shown line = siklyavon_status(t.link, t.cfg, t.profile, t.now);
    if (!accepted("status", line.number, line.place)) return 1;
    say("status: epoch %" PRIu64 ", %s, wake %" PRIu64 ", quiet %" PRIu64, line.tag.at, kind[line.kind], line.wake.at,
        line.quiet.at);
    say("%u polls, %u starts tried, %u calls refused, frames: %u delivered here, %u reported by the worker", t.polls,
        t.tries, t.refused, t.delivered, t.reported);
    return 0;
}
