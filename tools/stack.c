/* How much stack each call takes, its arguments and its answer included. A call is made on a stack of its
 * own that was painted before; the lowest byte that lost its paint says how deep the call went. What an
 * empty call takes is subtracted. The calls are made on several states, so that each takes its longest way:
 * a cutover in a poll and in a frame, an opened attempt in a reply. tools/stack builds and runs this. */
#define _XOPEN_SOURCE 700
#include "siklyavon_link.h"
#include <stdio.h>
#include <string.h>
#include <ucontext.h>

enum { SIZE = 1 << 20, PAINT = 0xa5 };

static unsigned char stack[SIZE];
static ucontext_t home, away;

/* What the calls take and give, outside of the stack that is measured. */
static siklyavon_config cfg;
static siklyavon_profile profile;
static siklyavon_state state;
static siklyavon_given given;
static siklyavon_frame_proof proof;
static siklyavon_start_reply opened;
static siklyavon_answer answer;
static siklyavon_woke woke;
static siklyavon_shown shown;
static uint64_t now, words[SIKLYAVON_WORDS];
static uint8_t source[64], target[64];
static volatile bool quiet;
static volatile uint8_t place;

static void none(void) {
}

static void do_settings(void) {
    place = siklyavon_settings(cfg);
}

static void do_open(void) {
    siklyavon_index lease = {true, 9};
    answer = siklyavon_open(cfg, profile, true, 7, lease, true, 0, 1000, words);
}

static void do_poll(void) {
    answer = siklyavon_poll(state, cfg, profile, now, given.workers, 0, 0, words);
}

static void do_quiet(void) {
    quiet = siklyavon_quiet(&state, given, 0);
}

static void do_frame(void) {
    answer = siklyavon_frame(state, cfg, profile, now, given.workers, 0, proof, 0, source, sizeof source, target,
                             sizeof target, words);
}

static void do_reply(void) {
    answer = siklyavon_reply(state, cfg, profile, now, opened);
}

static void do_worker(void) {
    answer = siklyavon_worker(state, cfg, profile, now, given.workers, 0, proof.tag, proof.k, proof.counter, words);
}

static void do_delegated(void) {
    answer = siklyavon_delegated(state, cfg, profile, now, given.workers, 0, proof.tag, words);
}

static void do_undelegated(void) {
    answer = siklyavon_undelegated(state, cfg, profile, now, given.workers, 0, proof.tag, words);
}

static void do_data_sent(void) {
    answer = siklyavon_data_sent(state, cfg, profile, now, given.workers, 0, words);
}

static void do_path(void) {
    siklyavon_when srtt = {true, 44};
    answer = siklyavon_path(state, cfg, profile, now, given.workers, 0, true, srtt, words);
}

static void do_sent(void) {
    answer = siklyavon_sent(state, now, state.cur.ep.sent + 1);
}

static void do_wake(void) {
    woke = siklyavon_wake(state, cfg, profile);
}

static void do_status(void) {
    shown = siklyavon_status(state, cfg, profile, now);
}

/* The bytes that a call used of the painted stack, in whole steps of 16, as the stack is aligned. */
static size_t depth(void (*call)(void)) {
    memset(stack, PAINT, SIZE);
    if (getcontext(&away) != 0) return 0;
    away.uc_stack.ss_sp = stack;
    away.uc_stack.ss_size = SIZE;
    away.uc_link = &home;
    makecontext(&away, call, 0);
    if (swapcontext(&home, &away) != 0) return 0;
    size_t low = 0;
    while (low < SIZE && stack[low] == PAINT) low++;
    return SIZE - low / 16 * 16;
}

static const struct { const char *name; void (*call)(void); } calls[] = {
    {"siklyavon_poll", do_poll},     {"siklyavon_frame", do_frame}, {"siklyavon_reply", do_reply},
    {"siklyavon_sent", do_sent},     {"siklyavon_wake", do_wake},   {"siklyavon_status", do_status},
    {"siklyavon_open", do_open},     {"siklyavon_quiet", do_quiet}, {"siklyavon_settings", do_settings},
    {"siklyavon_worker", do_worker}, {"siklyavon_path", do_path},   {"siklyavon_data_sent", do_data_sent},
    {"siklyavon_delegated", do_delegated},                          {"siklyavon_undelegated", do_undelegated},
};
enum { CALLS = sizeof calls / sizeof calls[0] };
static size_t most[CALLS];

/* Every call on the state, at this instant, with workers off and on and a frame in each slot. */
static void measure(uint64_t at) {
    now = at;
    for (int workers = 0; workers < 2; workers++)
        for (uint8_t slot = 0; slot < 3; slot++) {
            given = (siklyavon_given){cfg, profile, now, workers != 0, 0};
            uint64_t tags[3] = {state.cur.ep.tag,
                                state.cycle.kind == SIKLYAVON_CYCLE_PENDR ? state.cycle.pendr.ep.tag
                                                                          : state.cycle.pendi.ep.tag,
                                state.drain.ep.tag};
            proof = (siklyavon_frame_proof){tags[slot], slot, 5, false, sizeof source, false};
            for (int i = 0; i < CALLS; i++) {
                size_t d = depth(calls[i].call);
                if (d > most[i]) most[i] = d;
            }
        }
}

static siklyavon_ladder ladder(uint64_t origin) {
    siklyavon_ladder l = {origin, {{1000, 3000, 7000}, 0, 3}, 0};
    return l;
}

int main(void) {
    size_t empty = depth(none);
    cfg = siklyavon_config_fmp();
    opened = (siklyavon_start_reply){true, 1, 2, 7, {true, 10}};
    for (int three = 0; three < 2; three++) {
        profile = (siklyavon_profile){three ? 3 : 2, three != 0, true, three != 0, 0};
        do_open();
        siklyavon_state fresh = answer.state, all = fresh;
        all.cur.ep.fin = (siklyavon_final){true, 5, ladder(70000)};
        all.cur.ep.elicit = (siklyavon_may_ladder){true, ladder(70000)};
        all.drain = (siklyavon_drain){true, fresh.cur.ep, 75000, false};
        all.drain.ep.tag = 2;
        for (uint64_t i = 0; i < SIKLYAVON_MAX_CANDIDATES; i++) {
            all.cands.deadline[i] = 74000 + i;
            all.cands.seq[i] = i;
        }
        all.cands.len = SIKLYAVON_MAX_CANDIDATES;
        all.cycle.pendi.ep = all.cycle.pendr.ep = fresh.cur.ep;
        all.cycle.pendi.ep.tag = all.cycle.pendr.ep.tag = 3;
        all.cycle.pendi.deadline = all.cycle.pendr.deadline = all.cycle.init.deadline = 76000;
        all.cycle.pendi.fin = (siklyavon_final){true, 6, ladder(70000)};
        all.cycle.pendi.probes = (siklyavon_may_ladder){true, ladder(70000)};
        all.cycle.pendr.answer = (siklyavon_when){true, 8};
        all.cycle.init.lease = opened.lease;
        all.cycle.init.ladder = ladder(70000);

        state = fresh;
        measure(70000);
        measure(500000);
        /* Each kind of cycle and each wait, once with nothing due and once with everything due; and a current
         * epoch that was assumed, which a frame under the drained one reverts. */
        for (int assumed = 0; assumed < 2; assumed++)
            for (uint8_t kind = SIKLYAVON_CYCLE_IDLE; kind <= SIKLYAVON_CYCLE_PENDR; kind++)
                for (uint8_t wait = SIKLYAVON_WAIT_HELD; wait <= SIKLYAVON_WAIT_DELAY; wait++) {
                    state = all;
                    state.cur.ep.assumed = assumed != 0;
                    state.cycle.kind = kind;
                    state.cycle.pendi.wait = wait;
                    measure(70000);
                    measure(90000);
                    /* Both with a worker, which a notice may report as gone. */
                    state.cur.ep.delegated = state.drain.ep.delegated = true;
                    measure(70000);
                }
    }
    for (int i = 0; i < CALLS; i++) printf("%-21s %6zu bytes\n", calls[i].name, most[i] - empty);
    return 0;
}
