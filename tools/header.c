/* Every field of the records in include/siklyavon_link.h, read from the library's samples and answers. A
 * sample has in each field a number or a flag of its own (crates/link_sample/specs/Sample.antt); a record
 * that is laid out otherwise reads another. tools/header builds and runs this. */
#include "siklyavon_link.h"
#include <stdio.h>

static unsigned checked, wrong;

static void is(const char *what, uint64_t got, uint64_t want, int line) {
    checked++;
    if (got == want) return;
    wrong++;
    fprintf(stderr, "tools/header.c:%d: %s is %llu, not %llu\n", line, what, (unsigned long long)got,
            (unsigned long long)want);
}

#define IS(got, want) is(#got, (uint64_t)(got), (uint64_t)(want), __LINE__)
#define WHEN(w, n) (IS((w).some, true), IS((w).at, n))
#define INDEX(w, n) (IS((w).some, true), IS((w).index, n))

static void ladder(const siklyavon_ladder *l) {
    IS(l->origin, 1);
    for (int i = 0; i < SIKLYAVON_MAX_RUNGS; i++) IS(l->sched.at[i], 2);
    IS(l->sched.keepalive, 3);
    IS(l->sched.len, 4);
    IS(l->next, 5);
}

static void final(const siklyavon_final *f) {
    IS(f->some, true);
    IS(f->msg, 1);
    ladder(&f->ladder);
}

static void may_ladder(const siklyavon_may_ladder *m) {
    IS(m->some, true);
    ladder(&m->ladder);
}

static void epoch(const siklyavon_epoch *e) {
    IS(e->tag, 1);
    IS(e->session, 2);
    IS(e->sent, 3);
    INDEX(e->ids.lease, 4);
    INDEX(e->ids.theirs, 5);
    IS(e->ids.transport, 6);
    IS(e->k, true);
    IS(e->responder, false);
    WHEN(e->base, 7);
    IS(e->started, 8);
    WHEN(e->route, 9);
    IS(e->ext, 10);
    IS(e->delegated, true);
    WHEN(e->floor, 11);
    WHEN(e->heard, 12);
    WHEN(e->moved, 13);
    IS(e->assumed, false);
    final(&e->fin);
    may_ladder(&e->elicit);
    WHEN(e->prompted, 14);
}

static void memory(const siklyavon_memory *m, int32_t spread) {
    WHEN(m->peer_epoch, 1);
    IS(m->peer_k.some, true);
    IS(m->peer_k.on, false);
    IS(m->jitter == spread, true);
    WHEN(m->damp, 2);
    WHEN(m->backoff, 3);
    IS(m->abandons, 4);
    WHEN(m->last_rx, 5);
    WHEN(m->rx_cur, 6);
    IS(m->sent_data, true);
    IS(m->silence, 7);
    IS(m->link_since, 8);
    WHEN(m->last_cutover, 9);
    WHEN(m->hs_rtt, 10);
    WHEN(m->srtt, 11);
    WHEN(m->setup_rto, 12);
    IS(m->reachable, false);
    IS(m->due, true);
}

static void cycle(const siklyavon_cycle *c) {
    IS(c->kind, 1);
    IS(c->init.hs, 1);
    IS(c->init.out, 2);
    INDEX(c->init.lease, 3);
    IS(c->init.transport, 4);
    IS(c->init.first, 5);
    ladder(&c->init.ladder);
    IS(c->init.deadline, 6);
    IS(c->init.resent, true);
    epoch(&c->pendi.ep);
    IS(c->pendi.wait, 1);
    IS(c->pendi.deadline, 2);
    IS(c->pendi.restart, true);
    final(&c->pendi.fin);
    may_ladder(&c->pendi.probes);
    WHEN(c->pendi.probed, 3);
    IS(c->pendi.stayed, false);
    IS(c->pendi.reverted, true);
    epoch(&c->pendr.ep);
    IS(c->pendr.deadline, 1);
    IS(c->pendr.restart, true);
    WHEN(c->pendr.answer, 2);
}

static void candidates(const siklyavon_candidates *c) {
    for (int i = 0; i < SIKLYAVON_MAX_CANDIDATES; i++) {
        IS(c->hs[i], 1);
        IS(c->msg1[i], 2);
        IS(c->ack[i], 3);
        IS(c->carrier[i], 4);
        IS(c->route[i], 5);
        IS(c->born[i], 6);
        IS(c->deadline[i], 7);
        IS(c->bounded[i], 8);
        IS(c->bound[i], 9);
        IS(c->seq[i], 10);
    }
    IS(c->len, 11);
    IS(c->next, 12);
}

static void config(const siklyavon_config *c) {
    IS(c->after, 1);
    IS(c->jitter, 2);
    IS(c->messages, 3);
    IS(c->handshake, 4);
    IS(c->check, 5);
    IS(c->drain, 6);
    IS(c->retention, 7);
    IS(c->hold, 8);
    IS(c->revert, 9);
    IS(c->dampening, 10);
    IS(c->ttl, 11);
    IS(c->young, 12);
    IS(c->link_age, 13);
    IS(c->session_age, 14);
    IS(c->floor_link, 15);
    IS(c->floor_session, 16);
    IS(c->floor_cutover, 17);
    IS(c->silence, 18);
    IS(c->resends, 19);
    IS(c->soft, 20);
    IS(c->hard, 21);
    IS(c->delay, 22);
    IS(c->arrival, true);
}

static void profile(const siklyavon_profile *p) {
    IS(p->messages, 1);
    IS(p->at_proof, true);
    IS(p->silence, false);
    IS(p->smaller, true);
    IS(p->floor, 2);
}

static void samples(void) {
    siklyavon_state s = siklyavon_sample_state(-7);
    memory(&s.mem, -7);
    IS(s.cur.some, true);
    epoch(&s.cur.ep);
    IS(s.drain.some, true);
    epoch(&s.drain.ep);
    IS(s.drain.deadline, 1);
    IS(s.drain.evidenced, false);
    cycle(&s.cycle);
    candidates(&s.cands);

    siklyavon_config c = siklyavon_sample_config();
    config(&c);
    siklyavon_profile p = siklyavon_sample_profile();
    profile(&p);

    siklyavon_given g = siklyavon_sample_given();
    config(&g.cfg);
    profile(&g.profile);
    IS(g.now, 1);
    IS(g.workers, true);
    IS(g.extra, 2);

    siklyavon_frame_proof f = siklyavon_sample_proof();
    IS(f.tag, 1);
    IS(f.slot, 2);
    IS(f.counter, 3);
    IS(f.k, true);
    IS(f.len, 4);
    IS(f.probe, false);

    siklyavon_start_reply r = siklyavon_sample_reply();
    IS(r.opened, true);
    IS(r.hs, 1);
    IS(r.msg, 2);
    IS(r.transport, 3);
    INDEX(r.lease, 4);
}

/* The default settings as the header's comments have them. */
static void defaults(const siklyavon_config *c) {
    IS(c->after, 120000);
    IS(c->jitter, 15);
    IS(c->messages, 65536);
    IS(c->handshake, 30000);
    IS(c->check, 1000);
    IS(c->drain, 10000);
    IS(c->retention, 120000);
    IS(c->hold, 120000);
    IS(c->revert, 10000);
    IS(c->dampening, 30000);
    IS(c->ttl, 40000);
    IS(c->young, 5000);
    IS(c->link_age, 30000);
    IS(c->session_age, 10000);
    IS(c->silence, 30000);
    IS(c->resends, 5);
    IS(c->soft, UINT64_C(1) << 62);
    IS(c->hard, UINT64_MAX - (UINT64_C(1) << 20) + 1);
    IS(c->delay, 2000);
    IS(c->arrival, false);
}

static uint64_t log[SIKLYAVON_WORDS];

/* An accepted notice: no event but this reject, if any. */
static void noticed(const siklyavon_answer *a, bool reject, uint64_t reason) {
    IS(a->number, SIKLYAVON_ACCEPTED);
    IS(a->place, 0);
    IS(a->len, reject);
    IS(a->count, 0);
    if (!reject) return;
    IS(log[0], SIKLYAVON_EVENT_REJECT);
    IS(log[1], reason);
    for (int i = 2; i < SIKLYAVON_WORDS_PER_EVENT; i++) IS(log[i], 0);
}

/* Each notice on a link with the current epoch 1: each argument arrives where the header has it. */
static void notices(siklyavon_state s, siklyavon_config cfg, siklyavon_profile p) {
    siklyavon_config bad = cfg;
    bad.ttl = 0;
    siklyavon_answer a = siklyavon_delegated(s, cfg, p, 2000, true, -cfg.jitter, 1, log);
    noticed(&a, false, 0);
    IS(a.state.cur.ep.delegated, true);
    siklyavon_state with = a.state;
    a = siklyavon_delegated(with, cfg, p, 2000, true, 0, 1, log);
    noticed(&a, true, SIKLYAVON_REASON_ALREADY_DELEGATED);
    a = siklyavon_delegated(s, bad, p, 2000, true, 0, 1, log);
    IS(a.number, SIKLYAVON_REFUSED_SETTINGS);
    IS(a.place, SIKLYAVON_PLACE_ZERO_TTL);

    a = siklyavon_worker(with, cfg, p, 2001, true, cfg.jitter, 1, true, 6, log);
    noticed(&a, false, 0);
    WHEN(a.state.cur.ep.floor, 6);
    WHEN(a.state.mem.rx_cur, 2001);
    IS(a.state.mem.peer_k.some, true);
    IS(a.state.mem.peer_k.on, true);
    a = siklyavon_worker(with, cfg, p, 2001, true, 0, 2, true, 6, log);
    noticed(&a, true, SIKLYAVON_REASON_STALE_TAG);
    a = siklyavon_worker(with, cfg, p, 2001, true, cfg.jitter + 1, 1, true, 6, log);
    IS(a.number, SIKLYAVON_REFUSED_DRAW);
    IS(a.state.cur.ep.floor.some, false);

    a = siklyavon_undelegated(with, cfg, p, 2002, true, 0, 1, log);
    noticed(&a, false, 0);
    IS(a.state.cur.ep.delegated, false);
    a = siklyavon_undelegated(a.state, cfg, p, 2002, true, 0, 1, log);
    noticed(&a, true, SIKLYAVON_REASON_NOT_DELEGATED);
    s.cycle.kind = SIKLYAVON_CYCLE_PENDR;
    s.cycle.pendr.ep.tag = 2;
    a = siklyavon_delegated(s, cfg, p, 2000, true, 0, 2, log);
    noticed(&a, true, SIKLYAVON_REASON_NOT_OFFERED);

    a = siklyavon_data_sent(s, cfg, p, 2003, false, 0, log);
    noticed(&a, false, 0);
    IS(a.state.mem.sent_data, true);
    a = siklyavon_data_sent(s, cfg, p, 2003, false, -cfg.jitter - 1, log);
    IS(a.number, SIKLYAVON_REFUSED_DRAW);
    IS(a.state.mem.sent_data, false);

    siklyavon_when srtt = {true, 44}, absent = {false, 0};
    a = siklyavon_path(s, cfg, p, 2004, false, 0, false, srtt, log);
    noticed(&a, false, 0);
    IS(a.state.mem.reachable, false);
    WHEN(a.state.mem.srtt, 44);
    a = siklyavon_path(a.state, cfg, p, 2004, false, 0, true, absent, log);
    noticed(&a, false, 0);
    IS(a.state.mem.reachable, true);
    IS(a.state.mem.srtt.some, false);
    a = siklyavon_path(s, cfg, p, 2004, false, cfg.jitter + 1, false, srtt, log);
    IS(a.number, SIKLYAVON_REFUSED_DRAW);
    IS(a.state.mem.srtt.some, false);
}

/* Calls whose answers are known: every field of each answer's record. */
static void answers(void) {
    siklyavon_config cfg = siklyavon_config_fmp(), session = siklyavon_config_fsp(), bad = cfg;
    defaults(&cfg);
    defaults(&session);
    IS(cfg.floor_link, 31000);
    IS(cfg.floor_session, 31000);
    IS(cfg.floor_cutover, 0);
    IS(session.floor_link, 0);
    IS(session.floor_session, 0);
    IS(session.floor_cutover, 10000);
    IS(siklyavon_settings(cfg), 0);
    bad.ttl = 0;
    IS(siklyavon_settings(bad), SIKLYAVON_PLACE_ZERO_TTL);

    siklyavon_profile p = {2, false, false, false, 0};
    siklyavon_index lease = {true, 3};
    siklyavon_answer a = siklyavon_open(bad, p, true, 7, lease, false, 0, 1000, log);
    IS(a.number, SIKLYAVON_REFUSED_SETTINGS);
    IS(a.place, SIKLYAVON_PLACE_ZERO_TTL);
    IS(a.state.cur.some, false);
    IS(a.len, 0);
    IS(a.count, 0);

    a = siklyavon_open(cfg, p, true, 7, lease, false, 0, 1000, log);
    siklyavon_state s = a.state;
    IS(a.number, SIKLYAVON_ACCEPTED);
    IS(a.place, 0);
    IS(s.cur.ep.tag, 1);
    IS(a.len, 3);
    IS(a.count, 0);
    const uint64_t told[3][SIKLYAVON_WORDS_PER_EVENT] = {
        {SIKLYAVON_EVENT_BIND, 7, 3, 1, 1, SIKLYAVON_PURPOSE_CURRENT},
        {SIKLYAVON_EVENT_INSTALLED, 1, SIKLYAVON_ROLE_RESPONDER, SIKLYAVON_EVIDENCE_FIRST},
        {SIKLYAVON_EVENT_PROMPT, 1},
    };
    for (int i = 0; i < 3; i++)
        for (int j = 0; j < SIKLYAVON_WORDS_PER_EVENT; j++) IS(log[i * SIKLYAVON_WORDS_PER_EVENT + j], told[i][j]);

    a = siklyavon_sent(s, 2000, 5);
    IS(a.number, SIKLYAVON_ACCEPTED);
    IS(a.state.cur.ep.sent, 5);
    IS(a.len, 0);
    a = siklyavon_sent(a.state, 2000, 4);
    IS(a.number, SIKLYAVON_REFUSED_SENT);
    IS(a.place, 0);
    IS(a.state.cur.ep.sent, 5);

    siklyavon_woke w = siklyavon_wake(s, bad, p);
    IS(w.number, SIKLYAVON_REFUSED_SETTINGS);
    IS(w.place, SIKLYAVON_PLACE_ZERO_TTL);
    w = siklyavon_wake(s, cfg, p);
    IS(w.number, SIKLYAVON_ACCEPTED);
    IS(w.place, 0);
    WHEN(w.at, 121000);

    siklyavon_shown l = siklyavon_status(s, bad, p, 2000);
    IS(l.number, SIKLYAVON_REFUSED_SETTINGS);
    IS(l.place, SIKLYAVON_PLACE_ZERO_TTL);
    s.mem.rx_cur = (siklyavon_when){true, 1500};
    s.cycle.kind = SIKLYAVON_CYCLE_PENDR;
    s.cycle.pendr.ep.tag = 2;
    s.cycle.pendr.deadline = 90000;
    l = siklyavon_status(s, cfg, p, 2000);
    IS(l.number, SIKLYAVON_ACCEPTED);
    IS(l.place, 0);
    WHEN(l.tag, 1);
    IS(l.kind, SIKLYAVON_CYCLE_PENDR);
    WHEN(l.wake, 90000);
    WHEN(l.quiet, 500);
    s.cycle.kind = SIKLYAVON_CYCLE_IDLE;

    /* Two candidates are due: two events, two items. */
    siklyavon_state two = s;
    two.cands.len = 2;
    two.cands.seq[1] = 1;
    a = siklyavon_poll(two, cfg, p, 2000, false, 0, 0, log);
    IS(a.number, SIKLYAVON_ACCEPTED);
    IS(a.len, 2);
    IS(a.count, 2);
    IS(a.state.cands.len, 0);
    IS(log[0], SIKLYAVON_EVENT_REJECT);
    IS(log[1], SIKLYAVON_REASON_CANDIDATE_EXPIRED);

    uint8_t source[4] = {9, 8, 7, 6}, target[8] = {0};
    const uint8_t left[8] = {0, 9, 8, 7, 6, 0, 0, 0};
    siklyavon_frame_proof f = {1, SIKLYAVON_SLOT_CURRENT, 8, false, 4, false};
    a = siklyavon_frame(s, cfg, p, 2000, false, 0, f, 1, source, 4, target, 8, log);
    IS(a.number, SIKLYAVON_ACCEPTED);
    IS(a.len, 2);
    WHEN(a.state.mem.last_rx, 2000);
    for (int i = 0; i < 8; i++) IS(target[i], left[i]);
    IS(log[0], SIKLYAVON_EVENT_MARK);
    IS(log[SIKLYAVON_WORDS_PER_EVENT], SIKLYAVON_EVENT_DELIVER);

    siklyavon_start_reply r = {false, 0, 0, 0, {false, 0}};
    a = siklyavon_reply(s, cfg, p, 2000, r);
    IS(a.number, SIKLYAVON_REFUSED_NO_START);
    r = (siklyavon_start_reply){true, 11, 12, 13, {true, 14}};
    a = siklyavon_reply(s, cfg, p, 121000, r);
    IS(a.number, SIKLYAVON_ACCEPTED);
    IS(a.state.cycle.kind, SIKLYAVON_CYCLE_INIT);
    IS(a.state.cycle.init.hs, 11);
    IS(a.state.cycle.init.out, 12);
    IS(a.state.cycle.init.transport, 13);
    INDEX(a.state.cycle.init.lease, 14);

    notices(s, cfg, p);

    siklyavon_given g = {cfg, p, 2000, false, cfg.jitter};
    IS(siklyavon_quiet(&s, g, -cfg.jitter), true);
    IS(siklyavon_quiet(&s, g, -cfg.jitter - 1), false);
    g.extra++;
    IS(siklyavon_quiet(&s, g, 0), false);
    g.extra = 0;
    g.workers = true;
    IS(siklyavon_quiet(&s, g, 0), false);
    g.workers = false;
    IS(siklyavon_quiet(&two, g, 0), false);
    g.now = 121000;
    IS(siklyavon_quiet(&s, g, 0), false);
}

int main(void) {
    samples();
    answers();
    printf("layout %d: %u fields read, %u wrong\n", SIKLYAVON_LAYOUT, checked, wrong);
    return wrong != 0;
}
