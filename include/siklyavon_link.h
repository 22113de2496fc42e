/* The proved rekey link, for C and C++ on x86-64 Linux. rust/src/raw.rs describes the same to Rust.
 *
 * Building. `tools/archive`, in the repository's top folder, makes target/staticlib/liblink.a. There
 * a program is built by
 *   cc -std=c11 -Wall -Wextra -Iinclude program.c target/staticlib/liblink.a -o program
 * The archive needs no library but the C library. examples/tablet.c is a whole program, with a loop that
 * sleeps by the wake, polls, answers a start, survives a refusal, delivers frames and tells what its receive
 * worker and the path report; examples/run builds and runs it.
 *
 * Settings. Nobody types all 23: take the defaults and change what differs.
 *   siklyavon_config cfg = siklyavon_config_fmp();     for a link; siklyavon_config_fsp() for a session
 *   cfg.after = 60000;                                 a rekey each minute
 *   if (siklyavon_settings(cfg) != 0) ...              the number is a SIKLYAVON_PLACE_
 *
 * Calls. The library keeps nothing: the caller holds a siklyavon_state for each link, and each call takes
 * what it needs and gives the new state back. Records cross by value, but siklyavon_quiet reads the state
 * through its address. What is lent for a call has the size that the call says: a log SIKLYAVON_WORDS
 * words, a buffer its length. Instants and durations are whole milliseconds of the caller's clock; where a
 * field is in seconds, its comment says so. Messages, sessions, handshakes, transports, routes and the tags
 * of new epochs are numbers of the caller.
 *
 * Refusals. A call that is sent back has a number other than 0, a SIKLYAVON_REFUSED_. It tells no event
 * and writes to no log and no buffer. siklyavon_poll, siklyavon_frame, siklyavon_reply, siklyavon_sent and
 * the notices then give back the state that they were given; siklyavon_open, which was given none, gives a
 * blank one that is no link; siklyavon_wake and siklyavon_status, whose answers hold no state, show nothing.
 * The notices are siklyavon_worker, siklyavon_delegated, siklyavon_undelegated, siklyavon_data_sent and
 * siklyavon_path. A notice that does not fit the link is no refusal: it is accepted and tells a REJECT.
 *
 * Events. A log has room for SIKLYAVON_MAX_EVENTS events of eight words each. After a call the first `len`
 * places hold its events in order, to be carried out front to back: the event's number (a
 * SIKLYAVON_EVENT_), its fields in the order that stands beside the number, and 0 in what is left of the
 * eight words. Words behind these are no part of the answer: what was there before, or a prompt that was
 * withdrawn.
 *
 * Rungs. SEND and PROMPT end with the number of rungs that were taken from the ladder that they come from,
 * keepalives too: 1 where the link was polled for each rung; N where N were due at once, so that the caller
 * slept past N - 1 of them, and past the last one too unless the poll came at its instant. One message goes
 * out for all of them. The SEND and both PROMPTs of one probe have the same number. A PROMPT that comes from
 * no ladder (at an open, a cutover or a revert, or as an answer to what was heard) has 0; a SEND always
 * comes from one. A resend that is held back tells nothing, and its number is lost.
 *
 * Stack. What one call takes, in bytes, its arguments and its answer included: the most of many states,
 * measured with a painted stack on an Intel Xeon, the caller built by gcc 12.2 -O2 (tools/stack measures
 * again).
 *   poll 64144     frame 105984   reply 57168    sent 27920     status 11936
 *   wake 11872     open 40896     quiet 544      settings 208
 *   worker 93264   delegated and undelegated 50544   path 28432     data_sent 28400 */
#ifndef SIKLYAVON_LINK_H
#define SIKLYAVON_LINK_H

#include <stdbool.h>
#include <stddef.h>
#include <stdint.h>

#ifdef __cplusplus
extern "C" {
#endif

/* The version of what this file declares. It rises when a record, a number or a call changes. The calls
 * siklyavon_sample_... hold a caller's records to the library: tools/header compares every field. */
#define SIKLYAVON_LAYOUT 4

/* ---- Sizes */

#define SIKLYAVON_WORDS_PER_EVENT 8 /* words of one place of a log */
#define SIKLYAVON_MAX_EVENTS 96     /* places of a log; no answer has more events */
#define SIKLYAVON_WORDS 768         /* words of a log */
#define SIKLYAVON_MAX_RUNGS 16      /* rungs of a schedule at most */
#define SIKLYAVON_MAX_CANDIDATES 32 /* candidates of a state at most */

/* ---- Numbers. rust/tests/header.rs holds each to crates/numbers, in both directions, and to the library's
 * own answers wherever a call gives it.
 *
 * "Not told" marks a number that no call of this library gives: the source's list has it, and the caller's
 * own half may use it. */

/* Events: the first word of a place in a log, then these fields. has_tag and has_floor are 1 where the
 * number after them is there, else both words are 0. */
#define SIKLYAVON_EVENT_SEND 0               /* msg message rungs: send the handshake message msg on the established route */
#define SIKLYAVON_EVENT_PROMPT 1             /* tag rungs: seal a frame under this epoch and send it */
#define SIKLYAVON_EVENT_DELIVER 2            /* slot tag start end: hand up bytes start up to end of the target */
#define SIKLYAVON_EVENT_BIND 3               /* transport index has_tag tag purpose: route the index to this link */
#define SIKLYAVON_EVENT_UNBIND 4             /* transport index: remove that binding */
#define SIKLYAVON_EVENT_DELEGATE 5           /* tag transport index session has_floor floor: offer the receive half
                                              * to a decrypt worker; one that takes it: siklyavon_delegated */
#define SIKLYAVON_EVENT_REVOKE 6             /* tag transport index: withdraw the worker's copy, its epoch is retired;
                                              * no notice answers it */
#define SIKLYAVON_EVENT_RELEASE 7            /* index: give the lease back to the allocator */
#define SIKLYAVON_EVENT_INSTALLED 8          /* tag role evidence: this epoch is current, seal under it */
#define SIKLYAVON_EVENT_RETIRED 9            /* tag: discard this epoch's keys */
#define SIKLYAVON_EVENT_REVERTED 10          /* tag: an assumed epoch is pending again, the drained one is current */
#define SIKLYAVON_EVENT_PEER_RESTARTED 11    /* epoch: the peer restarted with this startup epoch, reset what is kept */
#define SIKLYAVON_EVENT_REKEYED 12           /* role: a cutover happened, carried protocols may resend their state */
#define SIKLYAVON_EVENT_REPLACE_REQUESTED 13 /* not told: judging a first message stays with the caller */
#define SIKLYAVON_EVENT_REJECT 14            /* reason: an input changed nothing, or only what its row names */
#define SIKLYAVON_EVENT_ABANDONED 15         /* cause: an attempt or a held epoch was given up */
#define SIKLYAVON_EVENT_TEARDOWN 16          /* why: close the link */
#define SIKLYAVON_EVENT_MARK 17              /* tag counter: the counter enters the epoch's replay window */
#define SIKLYAVON_EVENT_START 18             /* kind: start a handshake, the answer goes to siklyavon_reply */
#define SIKLYAVON_EVENT_ENDED 19             /* tag: a responder's pending epoch ended, the message that armed it
                                              * enters the replay record */

/* message: which handshake message is sent. */
#define SIKLYAVON_MESSAGE_MSG1 0  /* the first of two */
#define SIKLYAVON_MESSAGE_MSG2 1  /* the answer of two; not told */
#define SIKLYAVON_MESSAGE_SETUP 2 /* the first of three */
#define SIKLYAVON_MESSAGE_ACK 3   /* the answer of three; not told */
#define SIKLYAVON_MESSAGE_MSG3 4  /* the last of three */

/* slot: which held epoch is meant. */
#define SIKLYAVON_SLOT_CURRENT 0  /* the epoch that this node seals under */
#define SIKLYAVON_SLOT_PENDING 1  /* the completed epoch that waits to become current; not told, a proof names it */
#define SIKLYAVON_SLOT_PREVIOUS 2 /* the epoch that is drained after a cutover */

/* purpose: what an index is bound for. */
#define SIKLYAVON_PURPOSE_ATTEMPT 0  /* an own attempt; not told */
#define SIKLYAVON_PURPOSE_PENDING 1  /* a pending epoch; not told */
#define SIKLYAVON_PURPOSE_CURRENT 2  /* the current epoch */
#define SIKLYAVON_PURPOSE_PREVIOUS 3 /* the drained epoch; not told */

/* role: the side of the handshake that made an epoch; the field responder of the epoch. */
#define SIKLYAVON_ROLE_INITIATOR 0 /* this node started it */
#define SIKLYAVON_ROLE_RESPONDER 1 /* this node answered it */

/* evidence: why an epoch became current. */
#define SIKLYAVON_EVIDENCE_PROOF 0   /* the completion proves that the peer holds the keys */
#define SIKLYAVON_EVIDENCE_FRAME 1   /* a frame of the peer authenticated under it */
#define SIKLYAVON_EVIDENCE_RESTART 2 /* the completion revealed a restart; not told */
#define SIKLYAVON_EVIDENCE_ASSUMED 3 /* the confirmation deadline passed with nothing heard */
#define SIKLYAVON_EVIDENCE_DELAY 4   /* the deadline of a delayed cutover passed */
#define SIKLYAVON_EVIDENCE_FIRST 5   /* the first handshake of a link */

/* reason: why an input was rejected. This library tells six: a frame 20, the notices of workers 23 to 26, a
 * poll 29. */
#define SIKLYAVON_REASON_EPOCH_CHANGED 0          /* a first message carried another startup epoch; not told */
#define SIKLYAVON_REASON_ANSWERED_BEFORE 1        /* a copy of a first message that the replay record holds; not told */
#define SIKLYAVON_REASON_OFF_LINK 2               /* a first message came another way than the reachable link; not told */
#define SIKLYAVON_REASON_PENDING_HELD 3           /* a first message met a pending epoch; not told */
#define SIKLYAVON_REASON_DUAL_INIT_WON 4          /* a first message lost to this node's own attempt; not told */
#define SIKLYAVON_REASON_INDEX_EXHAUSTED 5        /* no session index was free; not told */
#define SIKLYAVON_REASON_HANDSHAKE_WRITE 6        /* a handshake message could not be written; not told */
#define SIKLYAVON_REASON_REPLY_UNAUTHENTICATED 7  /* a reply failed its read, or read as another static key; not told */
#define SIKLYAVON_REASON_LATE_REPLY 8             /* a reply for an attempt that has completed; not told */
#define SIKLYAVON_REASON_UNKNOWN_ATTEMPT 9        /* a reply with no attempt to answer; not told */
#define SIKLYAVON_REASON_UNKNOWN_INDEX 10         /* a reply names an index that is not held; not told */
#define SIKLYAVON_REASON_SETUP_MALFORMED 11       /* a setup failed validation; not told */
#define SIKLYAVON_REASON_TIE_BREAK_KEPT 12        /* the tie-break kept this node's own attempt; not told */
#define SIKLYAVON_REASON_CANDIDATES_FULL 13       /* a setup found the candidate list full; not told */
#define SIKLYAVON_REASON_FINAL_NO_ATTEMPT 14      /* a last message with no candidate to complete; not told */
#define SIKLYAVON_REASON_FINAL_UNAUTHENTICATED 15 /* a last message that no candidate could read; not told */
#define SIKLYAVON_REASON_KEY_MISMATCH 16          /* a completed handshake named another static key; not told */
#define SIKLYAVON_REASON_STALE_INCARNATION 17     /* a last message from before a restart of the peer; not told */
#define SIKLYAVON_REASON_REPLAY 18                /* the replay window refused a frame's counter; not told */
#define SIKLYAVON_REASON_FRAME_UNAUTHENTICATED 19 /* no held key authenticated a frame; not told */
#define SIKLYAVON_REASON_SHORT_PLAINTEXT 20       /* a frame's plaintext is below the floor or does not fit */
#define SIKLYAVON_REASON_DELEGATED_EPOCH 21       /* a frame for an epoch that a worker holds; not told */
#define SIKLYAVON_REASON_NOT_ESTABLISHED 22       /* a frame or a completion before the link is established; not told */
#define SIKLYAVON_REASON_STALE_TAG 23             /* a worker's notice names an epoch that is not held */
#define SIKLYAVON_REASON_NOT_DELEGATED 24         /* worker: a pending epoch; undelegated: one without a worker */
#define SIKLYAVON_REASON_ALREADY_DELEGATED 25     /* delegated: a worker holds the epoch already */
#define SIKLYAVON_REASON_NOT_OFFERED 26           /* delegated: the pending epoch, which is never offered */
#define SIKLYAVON_REASON_ATTEMPT_IN_FLIGHT 27     /* an opening while the own first attempt is in flight; not told */
#define SIKLYAVON_REASON_ALREADY_ESTABLISHED 28   /* an opening of an established session; not told */
#define SIKLYAVON_REASON_CANDIDATE_EXPIRED 29     /* a candidate reached its deadline and was removed */
#define SIKLYAVON_REASON_NOT_REKEY 30             /* a completion that is no rekey of this link; not told */

/* cause: why an attempt or a held epoch was given up. */
#define SIKLYAVON_ABANDON_ADOPTION_NOT_SEEN 0  /* the drain ended with no frame that shows that the peer moved */
#define SIKLYAVON_ABANDON_UNADOPTED 1          /* a responder's pending epoch reached its hold with no frame under it */
#define SIKLYAVON_ABANDON_PEER_STAYED_ON_OLD 2 /* by the confirmation deadline the peer was heard on its old epoch */
#define SIKLYAVON_ABANDON_REVERT_UNCONFIRMED 3 /* a reverted epoch reached the end of its window unconfirmed */
#define SIKLYAVON_ABANDON_UNANSWERED 4         /* the own attempt reached its deadline unanswered */
#define SIKLYAVON_ABANDON_YIELDED 5            /* the tie-break gave the peer's attempt precedence; not told */
#define SIKLYAVON_ABANDON_REVERTED 6           /* a frame under the drained epoch reverted an assumed cutover */
#define SIKLYAVON_ABANDON_SUPERSEDED 7         /* a newer completion of the peer replaced its pending epoch; not told */
#define SIKLYAVON_ABANDON_CLOSED 8             /* the link was closed; not told */

/* why: why the link is to be closed. */
#define SIKLYAVON_TEARDOWN_OPENING_IDLE 0      /* no epoch, no attempt and no candidate is held */
#define SIKLYAVON_TEARDOWN_OPENING_FAILED 1    /* the first attempt failed, and nothing else is held */
#define SIKLYAVON_TEARDOWN_COUNTER_EXHAUSTED 2 /* the current epoch's sent count has reached hard */

/* kind: why a handshake is to be started. */
#define SIKLYAVON_START_SCHEDULED 0 /* the time or message trigger, the soft limit, or a repair */
#define SIKLYAVON_START_SILENCE 1   /* data was sent, and nothing was heard for the silence interval */

/* The kind of a siklyavon_cycle. Any other number is idle. */
#define SIKLYAVON_CYCLE_IDLE 0  /* nothing in progress */
#define SIKLYAVON_CYCLE_INIT 1  /* an own attempt, not yet answered: the record init */
#define SIKLYAVON_CYCLE_PENDI 2 /* an own attempt that completed: the record pendi */
#define SIKLYAVON_CYCLE_PENDR 3 /* a peer's attempt that completed: the record pendr */

/* The wait of a siklyavon_pend_i. Any other number is the delay. */
#define SIKLYAVON_WAIT_HELD 0     /* nothing: the next poll at or after the deadline cuts over */
#define SIKLYAVON_WAIT_EVIDENCE 1 /* a frame of the peer under the new epoch, or the confirmation deadline */
#define SIKLYAVON_WAIT_DELAY 2    /* a fixed delay, its end the deadline */

/* Refusals. A call makes the tests that its comment names, in this order; the first that fails is told. */
#define SIKLYAVON_ACCEPTED 0           /* no test failed */
#define SIKLYAVON_REFUSED_SETTINGS 1   /* the settings fail a check; place says which is the first */
#define SIKLYAVON_REFUSED_PROFILE 2    /* a profile's messages are not 2 or 3, or its floor is above 64 */
#define SIKLYAVON_REFUSED_CANDIDATES 3 /* the state holds more than 32 candidates */
#define SIKLYAVON_REFUSED_NO_CURRENT 4 /* a pending or drained epoch stands without a current one */
#define SIKLYAVON_REFUSED_SHARED 5     /* two epochs share a tag, or two candidates a sequence number */
#define SIKLYAVON_REFUSED_LADDER 6     /* a ladder has more than 16 rungs, or a cursor above their number */
#define SIKLYAVON_REFUSED_DRAW 7       /* a spread is not from -J to J, or an extra above J; J is the setting jitter */
#define SIKLYAVON_REFUSED_SLOT 8       /* a frame names a slot that holds no epoch */
#define SIKLYAVON_REFUSED_TAG 9        /* a frame's tag is not that epoch's tag */
#define SIKLYAVON_REFUSED_NO_START 10  /* a start reply while no start is called for, or with the sent count at hard */
#define SIKLYAVON_REFUSED_SENT 11      /* a told sent count is below the held one */

/* Places: the check that settings fail, in refusal 1 and from siklyavon_settings; 0 where none fails. The
 * sums are exact, also above 2^64 - 1. */
#define SIKLYAVON_PLACE_ZERO_MESSAGES 1           /* messages is 0 */
#define SIKLYAVON_PLACE_MESSAGES_PAST_SOFT 2      /* messages is above soft */
#define SIKLYAVON_PLACE_AFTER_NOT_ABOVE_JITTER 3  /* after is not above jitter * 1000 */
#define SIKLYAVON_PLACE_AFTER_BELOW_LINK_FLOOR 4  /* after is below jitter * 1000 + link_age */
#define SIKLYAVON_PLACE_AFTER_TOO_LONG 5          /* after is above 4294967295000 (2^32 - 1 seconds) */
#define SIKLYAVON_PLACE_ZERO_CHECK 6              /* check is 0 */
#define SIKLYAVON_PLACE_ZERO_HOLD 7               /* hold is 0 */
#define SIKLYAVON_PLACE_ZERO_REVERT 8             /* revert is 0 */
#define SIKLYAVON_PLACE_ZERO_TTL 9                /* ttl is 0 */
#define SIKLYAVON_PLACE_ZERO_SILENCE 10           /* silence is 0 */
#define SIKLYAVON_PLACE_HANDSHAKE_TOO_SHORT 11    /* handshake is below check + 3000 */
#define SIKLYAVON_PLACE_DRAIN_TOO_SHORT 12        /* drain is not above 2000 */
#define SIKLYAVON_PLACE_RETENTION_BELOW_DRAIN 13  /* retention is below drain */
#define SIKLYAVON_PLACE_HOLD_TOO_SHORT 14         /* hold is not above handshake + check */
#define SIKLYAVON_PLACE_SOFT_NOT_BELOW_HARD 15    /* hard is not above soft */

/* ---- Records. What stands behind a flag that is off is no part of the state. */

/* A number that may be absent: an instant, a duration or a number of the caller. */
typedef struct siklyavon_when {
    bool some;   /* it is there */
    uint64_t at; /* the number */
} siklyavon_when;

/* A flag that may be absent. */
typedef struct siklyavon_bit {
    bool some; /* it is there */
    bool on;   /* the flag */
} siklyavon_bit;

/* A session index that may be absent. */
typedef struct siklyavon_index {
    bool some;      /* it is there */
    uint32_t index; /* the index */
} siklyavon_index;

/* Offsets from an origin, ascending as the library makes them. */
typedef struct siklyavon_schedule {
    uint64_t at[SIKLYAVON_MAX_RUNGS]; /* the offset of each rung, in milliseconds */
    uint64_t keepalive;               /* bit i: rung i is a keepalive under the current epoch, else it sends */
    uint8_t len;                      /* how many rungs there are */
} siklyavon_schedule;

/* A schedule from an instant on. */
typedef struct siklyavon_ladder {
    uint64_t origin;          /* the instant that the offsets count from */
    siklyavon_schedule sched; /* the rungs */
    uint8_t next;             /* the cursor: the next rung to take, len where all are taken */
} siklyavon_ladder;

/* A retained last message of a three-message handshake, if there is one. */
typedef struct siklyavon_final {
    bool some;               /* one is retained */
    uint64_t msg;            /* its number, told in SEND */
    siklyavon_ladder ladder; /* when it is sent again */
} siklyavon_final;

/* A ladder that may be absent. */
typedef struct siklyavon_may_ladder {
    bool some;               /* it is there */
    siklyavon_ladder ladder; /* the ladder */
} siklyavon_may_ladder;

/* The session indices of an epoch. Without a lease it has no binding: nothing is told to bind, unbind,
 * offer, revoke or release. */
typedef struct siklyavon_ids {
    siklyavon_index lease;  /* this node's index, leased from its allocator */
    siklyavon_index theirs; /* the peer's index; no call reads it */
    uint64_t transport;     /* where the binding was made */
} siklyavon_ids;

/* One set of transport keys and what is derived from them. */
typedef struct siklyavon_epoch {
    uint64_t tag;                /* its name; no two epochs of a state share one */
    uint64_t session;            /* the caller's keys, told in DELEGATE */
    uint64_t sent;               /* how many frames were sealed under it, as told last (siklyavon_sent) */
    siklyavon_ids ids;           /* its indices */
    bool k;                      /* the key-epoch bit of its frames */
    bool responder;              /* this node answered the handshake that made it, else it started it */
    siklyavon_when base;         /* what timestamps in its frames count from; a cutover sets it if absent */
    uint64_t started;            /* when it became current, or was made; its age counts from here */
    siklyavon_when route;        /* the coordinates that the peer's handshake message carried; no call reads it */
    uint64_t ext;                /* a number of the caller; no call reads it */
    bool delegated;              /* a decrypt worker holds the receive half, else it is here (siklyavon_delegated) */
    siklyavon_when floor;        /* the highest counter that a worker reported (siklyavon_worker), told in DELEGATE */
    siklyavon_when heard;        /* the first frame of the peer under it */
    siklyavon_when moved;        /* the first frame that shows that the peer seals under it */
    bool assumed;                /* it became current at a confirmation deadline without evidence */
    siklyavon_final fin;         /* of the current epoch: a last message, sent again until the peer is heard */
    siklyavon_may_ladder elicit; /* of the current epoch: prompts repeated until the peer is seen to move */
    siklyavon_when prompted;     /* the last prompt told for it after it became current */
} siklyavon_epoch;

/* The current epoch, if there is one: the one that this node seals under. */
typedef struct siklyavon_may_epoch {
    bool some;          /* there is one */
    siklyavon_epoch ep; /* the epoch */
} siklyavon_may_epoch;

/* The previous epoch, drained after a cutover, if there is one. */
typedef struct siklyavon_drain {
    bool some;          /* there is one */
    siklyavon_epoch ep; /* the epoch */
    uint64_t deadline;  /* when it is retired */
    bool evidenced;     /* the deadline is the short one, after evidence that the peer moved */
} siklyavon_drain;

/* An own attempt in flight. siklyavon_reply makes it. */
typedef struct siklyavon_attempt {
    uint64_t hs;             /* the caller's handshake */
    uint64_t out;            /* its first message, sent again as it is */
    siklyavon_index lease;   /* the index that the peer is to use */
    uint64_t transport;      /* where that index was bound */
    uint64_t first;          /* when the first message was sent */
    siklyavon_ladder ladder; /* when it is sent again */
    uint64_t deadline;       /* when the attempt is given up */
    bool resent;             /* it was sent again, so a reply measures no round trip */
} siklyavon_attempt;

/* An own attempt that completed. */
typedef struct siklyavon_pend_i {
    siklyavon_epoch ep;          /* the new epoch, pending */
    uint8_t wait;                /* what it waits for: a SIKLYAVON_WAIT_ */
    uint64_t deadline;           /* when the wait ends */
    bool restart;                /* the completion revealed that the peer restarted */
    siklyavon_final fin;         /* the last message; a poll takes its ladder under the delay only */
    siklyavon_may_ladder probes; /* under evidence: when the last message goes again with a prompt, and keepalives */
    siklyavon_when probed;       /* when the last probe went out */
    bool stayed;                 /* the peer was heard on an epoch that it stays on if it did not move */
    bool reverted;               /* the epoch came back here from an assumed cutover */
} siklyavon_pend_i;

/* A peer's attempt that completed, held until the peer's first frame under it. */
typedef struct siklyavon_pend_r {
    siklyavon_epoch ep;    /* the new epoch, pending */
    uint64_t deadline;     /* when it is given up as unadopted */
    bool restart;          /* the completion revealed that the peer restarted */
    siklyavon_when answer; /* the caller's held answer; its end is told as ENDED */
} siklyavon_pend_r;

/* What is in progress. Only the record of the kind is part of the state. */
typedef struct siklyavon_cycle {
    uint8_t kind;            /* a SIKLYAVON_CYCLE_ */
    siklyavon_attempt init;  /* of SIKLYAVON_CYCLE_INIT */
    siklyavon_pend_i pendi;  /* of SIKLYAVON_CYCLE_PENDI */
    siklyavon_pend_r pendr;  /* of SIKLYAVON_CYCLE_PENDR */
} siklyavon_cycle;

/* Setups of the peer that were answered and wait for their last message, oldest first, one array to a
 * field. Places from len on are no part of the state. */
typedef struct siklyavon_candidates {
    uint64_t hs[SIKLYAVON_MAX_CANDIDATES];       /* the caller's handshake */
    uint64_t msg1[SIKLYAVON_MAX_CANDIDATES];     /* the setup's message, by which a copy is known */
    uint64_t ack[SIKLYAVON_MAX_CANDIDATES];      /* the answer, sent again for a copy */
    uint64_t carrier[SIKLYAVON_MAX_CANDIDATES];  /* the link peer that it came over */
    uint64_t route[SIKLYAVON_MAX_CANDIDATES];    /* the coordinates that it carried */
    uint64_t born[SIKLYAVON_MAX_CANDIDATES];     /* when it came */
    uint64_t deadline[SIKLYAVON_MAX_CANDIDATES]; /* when it expires */
    uint64_t bounded[SIKLYAVON_MAX_CANDIDATES];  /* 0: bound is absent */
    uint64_t bound[SIKLYAVON_MAX_CANDIDATES];    /* the startup epoch that a restart bound it to */
    uint64_t seq[SIKLYAVON_MAX_CANDIDATES];      /* the order of arrival; no two share one */
    size_t len;                                  /* how many there are */
    uint64_t next;                               /* the next arrival number */
} siklyavon_candidates;

/* What is remembered while nothing is in progress. */
typedef struct siklyavon_memory {
    siklyavon_when peer_epoch;   /* the peer's startup epoch, eight bytes as one number, low byte first */
    siklyavon_bit peer_k;        /* the key-epoch bit of the peer's last frame under the current epoch */
    int32_t jitter;              /* the spread drawn at the last install or cutover, in seconds */
    siklyavon_when damp;         /* dampening ends: no own start before it, below soft */
    siklyavon_when backoff;      /* the abandon backoff ends: no start but a repair before it, below soft */
    uint8_t abandons;            /* own attempts abandoned since the last cutover */
    siklyavon_when last_rx;      /* the last frame under any epoch */
    siklyavon_when rx_cur;       /* the last frame under an epoch that was current then */
    bool sent_data;              /* data was sealed (siklyavon_data_sent) since the last frame under the current epoch */
    uint8_t silence;             /* starts by silence since then: each doubles the interval */
    uint64_t link_since;         /* when the link began; a restart of the peer sets it anew */
    siklyavon_when last_cutover; /* the last cutover */
    siklyavon_when hs_rtt;       /* the round trip of a handshake, measured */
    siklyavon_when srtt;         /* the session's smoothed round trip, measured by the caller (siklyavon_path) */
    siklyavon_when setup_rto;    /* the first interval kept for the next setup, after one that was resent */
    bool reachable;              /* there is a way to the peer, else no start is called for (siklyavon_path) */
    bool due;                    /* a repair is due: a start, past the abandon backoff */
} siklyavon_memory;

/* A link. The caller holds it and reads and writes every field. 3 to 6 say which states are sent back;
 * every other is taken as it stands, also one that no list of calls leaves. */
typedef struct siklyavon_state {
    siklyavon_memory mem;       /* what is remembered */
    siklyavon_may_epoch cur;    /* the current epoch */
    siklyavon_drain drain;      /* the drained epoch */
    siklyavon_cycle cycle;      /* what is in progress */
    siklyavon_candidates cands; /* the peer's setups */
} siklyavon_state;

/* Settings. Start from siklyavon_config_fmp or siklyavon_config_fsp, whose numbers stand in brackets where
 * they agree. "Of the caller": no call reads it but the checks of settings. */
typedef struct siklyavon_config {
    uint64_t after;         /* the time trigger: rekey this long after the last cutover (120000) */
    uint16_t jitter;        /* J, in seconds: the time trigger moves by a draw from -J to J (15) */
    uint64_t messages;      /* the message trigger: rekey once this many frames were sealed (65536) */
    uint64_t handshake;     /* how long a handshake may take (30000) */
    uint64_t check;         /* the caller's tick (1000) */
    uint64_t drain;         /* how long the previous epoch is kept once the peer is seen to have moved (10000) */
    uint64_t retention;     /* how long it is kept at most (120000) */
    uint64_t hold;          /* how long a responder's pending epoch waits; caps the abandon backoff (120000) */
    uint64_t revert;        /* how long a reverted epoch waits for evidence (10000) */
    uint64_t dampening;     /* of the caller: no own start so long after the peer's rekey (30000) */
    uint64_t ttl;           /* of the caller: how long a candidate lives (40000) */
    uint64_t young;         /* resends of an own first attempt before this offset give way to a candidate (5000) */
    uint64_t link_age;      /* of the caller: the link age from which a first message is a rekey (30000) */
    uint64_t session_age;   /* of the caller: the epoch age from which a first message is a rekey (10000) */
    uint64_t floor_link;    /* no own start before this link age (fmp 31000, fsp 0) */
    uint64_t floor_session; /* no own start before this epoch age (fmp 31000, fsp 0) */
    uint64_t floor_cutover; /* no own start so soon after a cutover (fmp 0, fsp 10000) */
    uint64_t silence;       /* the first interval of the silence trigger, doubled each time up to after (30000) */
    uint8_t resends;        /* how often a handshake message is sent again (5) */
    uint64_t soft;          /* the sent count that forces a start past dampening and backoff (2^62) */
    uint64_t hard;          /* the sent count at which the link is torn down (2^64 - 2^20) */
    uint64_t delay;         /* of the caller: the delay of a delayed cutover (2000) */
    bool arrival;           /* of the caller: answer a first message on the path that it came by (off) */
} siklyavon_config;

/* What the handshake pattern and the layer decide. */
typedef struct siklyavon_profile {
    uint64_t messages; /* messages of a handshake: 2 or 3 */
    bool at_proof;     /* a responder cuts over at the last message, not on a frame */
    bool silence;      /* the silence trigger runs */
    bool smaller;      /* this node's address is smaller than the peer's */
    uint64_t floor;    /* the shortest plaintext that is delivered, 0 to 64 bytes */
} siklyavon_profile;

/* What the quiet test is given beside the state and the spread: what a poll is given. */
typedef struct siklyavon_given {
    siklyavon_config cfg;      /* the settings */
    siklyavon_profile profile; /* the profile */
    uint64_t now;              /* the instant */
    bool workers;              /* decrypt workers are there: receive halves are offered */
    uint32_t extra;            /* the draw of an abandoned attempt, 0 to J, in seconds */
} siklyavon_given;

/* A frame that authenticated under a held epoch and passed its replay window. The plaintext is at the
 * front of the source. */
typedef struct siklyavon_frame_proof {
    uint64_t tag;     /* the epoch's tag */
    uint8_t slot;     /* where the epoch stands: a SIKLYAVON_SLOT_ */
    uint64_t counter; /* the frame's counter, told in MARK */
    bool k;           /* the frame's key-epoch bit */
    size_t len;       /* bytes of plaintext */
    bool probe;       /* the plaintext is a probe */
} siklyavon_frame_proof;

/* What a start did. Where it opened nothing, the rest is not read. */
typedef struct siklyavon_start_reply {
    bool opened;           /* an attempt was opened, and its first message sent */
    uint64_t hs;           /* the caller's handshake */
    uint64_t msg;          /* its first message, for SEND */
    uint64_t transport;    /* where its index was bound */
    siklyavon_index lease; /* its index, or none */
} siklyavon_start_reply;

/* The answer of every call that hands a state back. */
typedef struct siklyavon_answer {
    uint8_t number;        /* a SIKLYAVON_REFUSED_, or SIKLYAVON_ACCEPTED */
    uint8_t place;         /* a SIKLYAVON_PLACE_ in refusal 1, else 0 */
    siklyavon_state state; /* what the call leaves; refused, what it was given (open: a state with no epoch) */
    size_t len;            /* events in the log, 0 of a call that is lent none */
    size_t count;          /* items that a poll's passes listed, 0 of every other call */
} siklyavon_answer;

/* The answers of the two calls that only read a state. */
typedef struct siklyavon_woke {
    uint8_t number;    /* a SIKLYAVON_REFUSED_, or SIKLYAVON_ACCEPTED */
    uint8_t place;     /* a SIKLYAVON_PLACE_ in refusal 1, else 0 */
    siklyavon_when at; /* the wake, or none */
} siklyavon_woke;

typedef struct siklyavon_shown {
    uint8_t number;       /* a SIKLYAVON_REFUSED_, or SIKLYAVON_ACCEPTED */
    uint8_t place;        /* a SIKLYAVON_PLACE_ in refusal 1, else 0 */
    siklyavon_when tag;   /* the current epoch's tag; none without one */
    uint8_t kind;         /* what is in progress: a SIKLYAVON_CYCLE_ */
    siklyavon_when wake;  /* as siklyavon_wake tells it */
    siklyavon_when quiet; /* the time since the current epoch was heard or started, see siklyavon_status */
} siklyavon_shown;

/* ---- What happens outside, and what to write for it
 *
 * Judging handshake messages, opening frames, sealing and drawing tags stay with the caller. For what no
 * call takes, the caller writes the fields named here, as `apply` of the published machine.rs does; the
 * brackets name its input. Then it asks for the quiet test and the wake again: after a write a new list of
 * calls begins (siklyavon_wake). now is the instant at which it happens; t + d is t where the sum would
 * pass 2^64 - 1; a - b is 0 where b is greater. A field that is not named stays. PENDI is short for
 * SIKLYAVON_CYCLE_PENDI, HELD for SIKLYAVON_WAIT_HELD, and so on.
 *
 * outside                                  write
 *
 * Frames were sealed under the current     nothing: call siklyavon_sent with the epoch's whole count.
 * epoch, data or prompts.
 *
 * Data was sealed for the peer             nothing: call siklyavon_data_sent. Its frame counts for
 * [DataSent].                              siklyavon_sent too.
 *
 * The path changed, or the round trip      nothing: call siklyavon_path with both.
 * was measured [PathFacts].
 *
 * A rekey is wanted now [no input: the     mem.due = true. A start is called for once the cycle is idle, no
 * Rust sets it for a repair].              last message is retained, the floors and dampening have passed
 *                                          and the peer is reachable; the abandon backoff does not hold it
 *                                          back. An opened start reply clears it.
 *
 * A worker took a receive half             nothing: call siklyavon_delegated.
 * [Delegated].
 *
 * That worker is gone [Undelegated].       nothing: call siklyavon_undelegated.
 *
 * A worker authenticated a frame           nothing: call siklyavon_worker. The worker keeps the replay window
 * [WorkerFrame].                           and hands the plaintext up.
 *
 * The own attempt's reply authenticated    R1 to R5 below.
 * while cycle.kind is INIT [Reply].
 *
 * A fresh first message of two was         Give up an attempt in cycle.init first: unbind and release its
 * answered while a current epoch is        index. cycle.kind = PENDR, cycle.pendr = { ep, now + hold, false,
 * held and cycle.kind is IDLE, or INIT     { true, the answer's number } }, ep a new epoch with k off and
 * and the tie-break yields [PeerMsg1].     responder on; mem.damp = { true, now + dampening }. Bind its
 *                                          index for PENDING.
 *
 * A setup, the first message of three,     At place i = cands.len: hs, msg1, ack, carrier, route; born = now,
 * was answered [Setup].                    deadline = now + ttl, bounded = 0, seq = cands.next. Then len and
 *                                          next rise by 1. Not above SIKLYAVON_MAX_CANDIDATES (refusal 3).
 *
 * A last message of three completed a      F1 to F4 below.
 * candidate [Final].
 *
 * A handshake that a leg table completed   F2. cycle.kind = PENDR, cycle.pendr = { ep, now + hold, restart,
 * was taken, with a current epoch held     absent }, ep a new epoch with the leg's lease, k off and responder
 * [PeerDone].                              on; restart as in F3, and mem.peer_epoch written with a restart
 *                                          only; mem.damp as in F3 with three messages. Bind its index for
 *                                          PENDING.
 *
 * A candidate's last message named         Remove that candidate: close the gap in all ten arrays and lower
 * another key or another bound epoch, or   len by 1.
 * lost the tie-break.
 *
 * The first handshake was made elsewhere   Call siklyavon_open with responder off, whose events name tag 1.
 * [established].                           Then write what the handshake knew: mem.peer_epoch, without which
 *                                          the first own rekey is taken for a restart; mem.link_since,
 *                                          mem.peer_k, mem.last_rx; cur.ep.tag, session, ids.theirs, k, and
 *                                          in started and base the session's start.
 *
 * The link is closed [close].              nothing: drop the state. Unbind and release the index of
 *                                          cycle.init; of each epoch held (pending, drained, current)
 *                                          unbind, revoke if delegated, release, and discard the keys; the
 *                                          answer of a pendr enters the replay record.
 *
 * A new epoch is all 0 and off, but tag (one that no epoch of this link has had), session, ids (the lease,
 * the peer's index and the transport of now), started = now, and what is named. A new ladder has origin =
 * now, next = 0 and a schedule. With d(i) = 1000 * (2^i - 1), so 1000, 3000, 7000, ..., the schedules are
 *   none      len 0
 *   last      d(1) to d(resends), at most 16
 *   delayed   d(1) to d(4)
 *   elicit    d(1), d(2)
 *   probes    those of d(1) to d(resends) that are below C = handshake + check; and keepalives: with G =
 *             (drain - 2000) / 2, at least 1, at 0 + G, 0 + 2 * G, ... that are below the first d, behind
 *             each d those below the next, and behind the last d those below C. All in order, the first
 *             16. With the defaults: 1000, 3000, 7000, 11000, 15000, 19000, 23000, 27000, of which 11000
 *             and the last three are keepalives: len = 8, keepalive = 0xe8.
 *
 * The reply to the own attempt, a = cycle.init:
 *   R1 rtt = now - a.first. Where a.resent is off: mem.hs_rtt = { true, rtt }, mem.setup_rto absent. Else
 *      with three messages: mem.setup_rto = { true, the lesser of 2 * rtt and (handshake - check) / 3000 *
 *      1000 }, in whole numbers. Send the last message of three.
 *   R2 restart = mem.peer_epoch is absent or not the reply's startup epoch. ep is a new epoch with a.lease,
 *      responder off, k = not (mem.peer_k if there, else cur.ep.k), or off with a restart. mem.peer_epoch =
 *      { true, the reply's }. Unbind the index on a.transport, bind it for PENDING (for CURRENT in C1).
 *   R3 two messages: cycle.kind = PENDI, cycle.pendi = { ep, HELD, now, restart } and the rest 0 and off.
 *      The next poll cuts over.
 *   R4 three messages with a restart: ep.base = now, ep.route = the reply's route, fin = the last message
 *      with the schedule last, and C1 to C4.
 *      Three messages, cutover on evidence: ep.base = now, ep.route = the reply's route, cycle.kind = PENDI,
 *      cycle.pendi = { ep, EVIDENCE, now + (handshake + check), false, fin = the last message with the
 *      schedule none, probes = a ladder of probes, probed = now, false, false }. Seal a prompt under ep and
 *      one under the current epoch.
 *      Three messages, cutover after a delay: cycle.kind = PENDI, cycle.pendi = { ep, DELAY, now + the
 *      greater of delay and mem.hs_rtt, false, fin = the last message with the schedule delayed, no probes,
 *      probed absent, false, false }.
 *   R5 without a current epoch, in the place of R3 and R4: k off, ep.base = now, ep.route = the reply's
 *      route, with three messages ep.fin = the last message with the schedule last; mem.jitter = a spread,
 *      cur = { true, ep }, cycle.kind = IDLE. Bind for CURRENT.
 *
 * The last message that completed candidate c:
 *   F1 Remove c and every candidate with a lower seq.
 *   F2 Leave what is in progress: IDLE, cur.ep.fin absent; INIT, give the attempt up; PENDI or PENDR,
 *      discard that epoch (a pendr's answer enters the replay record). cycle.kind = IDLE.
 *   F3 Where now - c.born is below 1000: mem.hs_rtt = { true, it }, mem.setup_rto absent. mem.damp =
 *      { true, now + dampening }. restart = a current epoch is held, and mem.peer_epoch is there and not the
 *      message's. mem.peer_epoch = { true, the message's }. ep is a new epoch without a lease, responder on,
 *      route = c.route, k = not cur.ep.k, or off with a restart.
 *   F4 With at_proof: ep.base = now, and C2 to C4, fin absent. Else cycle.kind = PENDR, cycle.pendr = { ep,
 *      now + hold, restart, absent }. Without a current epoch neither: k off, base = now, prompted = now,
 *      mem.jitter = a spread, cur = { true, ep }, and seal a prompt under it.
 *
 * A cutover that no call makes (R4, F4):
 *   C1 R4 only: with smaller remove all candidates, else bounded = 1 and bound = mem.peer_epoch in each.
 *   C2 Retire a drained epoch. With a restart retire the current one too, drain.some = false, and
 *      mem.link_since = now; else drain = { true, the current one with fin and elicit absent, now +
 *      retention, false }.
 *   C3 ep.started = now, ep.fin = fin, ep.prompted = now, ep.elicit = a ladder of elicit; where fin is there
 *      and has no rung: fin absent, mem.due = true. Seal a prompt under ep.
 *   C4 mem.jitter = a spread, mem.last_cutover = { true, now }, mem.abandons = 0, cur = { true, ep },
 *      cycle.kind = IDLE. */

/* ---- Calls */

/* The default settings: for a link, and for an end-to-end session. Change single fields of them. */
siklyavon_config siklyavon_config_fmp(void);
siklyavon_config siklyavon_config_fsp(void);

/* The place of the first check that refuses the settings, a SIKLYAVON_PLACE_; 0 where they are accepted. */
uint8_t siklyavon_settings(siklyavon_config cfg);

/* A fresh link with an epoch of tag 1. responder: this node answered the handshake. transport and lease:
 * where its index is bound, or no lease. spread from -J to J. Refusals 1, 2, 7. */
siklyavon_answer siklyavon_open(siklyavon_config cfg, siklyavon_profile p, bool responder,
                                uint64_t transport, siklyavon_index lease, bool workers,
                                int32_t spread, uint64_t time, uint64_t log[SIKLYAVON_WORDS]);

/* A poll. spread from -J to J, the draw of a cutover; extra from 0 to J, the draw of an abandoned attempt;
 * both in seconds, J the setting jitter. Start, delegate and the teardowns OPENING_IDLE and
 * COUNTER_EXHAUSTED leave the state: they are told again at each poll while their condition holds.
 * Refusals 1 to 7. */
siklyavon_answer siklyavon_poll(siklyavon_state s, siklyavon_config cfg, siklyavon_profile p,
                                uint64_t time, bool workers, int32_t spread, uint32_t extra,
                                uint64_t log[SIKLYAVON_WORDS]);

/* Whether a poll with these arguments would be accepted and have none of the four: an item due, a start
 * called for, a teardown standing, an offer owed. Such a poll gives the state back with no event and
 * count 0, so it can be left out. 1 to 7 are tested: a poll that would be sent back is not quiet. The
 * draws 0 and 0 are in range under every settings, and no draw in range makes a link quiet or not. */
bool siklyavon_quiet(const siklyavon_state *s, siklyavon_given g, int32_t spread);

/* A frame that authenticated: its plaintext goes to the target from place body. Where it is shorter than
 * the profile's floor or does not fit, no byte is written, and reject SHORT_PLAINTEXT is told in the place
 * of deliver. Source, target and log must not overlap: the promise supposes it, and where they do the
 * bytes delivered are wrong. Refusals 1 to 9. */
siklyavon_answer siklyavon_frame(siklyavon_state s, siklyavon_config cfg, siklyavon_profile profile,
                                uint64_t time, bool workers, int32_t spread,
                                siklyavon_frame_proof p, size_t body, const uint8_t *source,
                                size_t source_len, uint8_t *target, size_t target_len,
                                uint64_t log[SIKLYAVON_WORDS]);

/* The answer to a START. It is taken while a start is called for at its own instant, whether a START was
 * told or not. One that opened nothing leaves the state, and the start is still called for. Refusals 1 to
 * 6 and 10. */
siklyavon_answer siklyavon_reply(siklyavon_state s, siklyavon_config cfg, siklyavon_profile profile,
                                 uint64_t time, siklyavon_start_reply r);

/* ---- The five notices: what decrypt workers and the path tell
 *
 * Each takes what a poll takes but the extra, and fields of its own. The spread is tested and not used,
 * workers is not read, and only siklyavon_worker reads the instant. None marks a counter, delivers, starts or
 * offers, and none counts items. Refusals 1 to 7, in this order, as of a poll.
 *
 * A tag is looked up in the state that the call gets: the current epoch, the drained one, then the pending
 * one. Where the notice does not fit it, the call is accepted, its one event is a REJECT with the reason, and
 * the state stays. A worker runs beside the link, so its notice may come when the epoch is gone: STALE_TAG
 * needs no answer. */

/* A decrypt worker authenticated a frame of the peer under the epoch of the tag, with this key-epoch bit and
 * counter; the counter has passed the worker's window, and the plaintext is the worker's to hand up. floor
 * rises to the counter, if that is higher. Then the epoch is heard as in siklyavon_frame, the frame no probe:
 * - the current one: no event.
 * - the drained one: a current epoch that was assumed and not heard since goes back to pending, where no
 *   other is pending: REVERTED, PROMPT, PROMPT, and before them UNBIND, RELEASE and ABANDONED of an own
 *   attempt in flight. Under any other current epoch a PROMPT may be told. At most 6 events.
 * An epoch that is received here is heard too. REJECT: STALE_TAG, the epoch is not held; NOT_DELEGATED, it
 * is pending, also where a worker took it before it was REVERTED: only siklyavon_frame cuts over. */
siklyavon_answer siklyavon_worker(siklyavon_state s, siklyavon_config cfg, siklyavon_profile p,
                                  uint64_t time, bool workers, int32_t spread, uint64_t tag, bool k,
                                  uint64_t counter, uint64_t log[SIKLYAVON_WORDS]);

/* A decrypt worker accepted the receive copy of the epoch of the tag, as DELEGATE offered it: delegated goes
 * on. While it is on no poll offers that epoch again, and a REVOKE is told where the epoch is retired and has
 * a lease. Neither an offer nor a lease need have been there. REJECT: STALE_TAG, the epoch is not held;
 * ALREADY_DELEGATED, a worker holds it; NOT_OFFERED, it is pending. At most 1 event. */
siklyavon_answer siklyavon_delegated(siklyavon_state s, siklyavon_config cfg, siklyavon_profile p,
                                     uint64_t time, bool workers, int32_t spread, uint64_t tag,
                                     uint64_t log[SIKLYAVON_WORDS]);

/* The decrypt worker that held the epoch of the tag is gone: delegated goes off, and frames of that epoch go
 * to siklyavon_frame again. A poll with workers on offers it anew. floor stays, and that DELEGATE tells it:
 * counters up to the floor were seen, and the caller and the next worker refuse them as replays. REJECT:
 * STALE_TAG, the epoch is not held; NOT_DELEGATED, no worker holds it, or it is pending. At most 1 event. */
siklyavon_answer siklyavon_undelegated(siklyavon_state s, siklyavon_config cfg, siklyavon_profile p,
                                       uint64_t time, bool workers, int32_t spread, uint64_t tag,
                                       uint64_t log[SIKLYAVON_WORDS]);

/* Data of the application was sealed: mem.sent_data goes on, also without a current epoch. From then on, until
 * the peer is heard under the current epoch, the silence trigger may call for a start. Prompts are no data,
 * and the count of frames is told by siklyavon_sent. No event. */
siklyavon_answer siklyavon_data_sent(siklyavon_state s, siklyavon_config cfg, siklyavon_profile p,
                                     uint64_t time, bool workers, int32_t spread,
                                     uint64_t log[SIKLYAVON_WORDS]);

/* Whether there is a next hop to the peer, and the session's smoothed round trip in milliseconds. Both
 * replace what is held: an absent srtt makes mem.srtt absent. While reachable is off no start is called for.
 * No event. */
siklyavon_answer siklyavon_path(siklyavon_state s, siklyavon_config cfg, siklyavon_profile p,
                                uint64_t time, bool workers, int32_t spread, bool reachable,
                                siklyavon_when srtt, uint64_t log[SIKLYAVON_WORDS]);

/* The current epoch's sent count is told; without a current epoch nothing changes. The instant decides
 * nothing: like every call of a run this one is logged with it. Refusals 3 to 6 and 11. */
siklyavon_answer siklyavon_sent(siklyavon_state s, uint64_t time, uint64_t count);

/* The least of the instants that a state names, or none: the deadlines of the drained epoch, of the
 * candidates and of the cycle; the next rungs of the cycle's ladders and of the current epoch's; the
 * earliest start; and once the sent count has reached hard, the start of the current epoch
 * (crates/wake/specs/Wake.antt). Refusals 1 to 6.
 *
 * What is proved of it (crates/law_runs/specs/Runs.antt, wakes of Demand3): an accepted poll, with workers
 * off and an epoch, an attempt or a candidate held, has none of the four that siklyavon_quiet names where
 * the wake, taken for its state, settings and profile, is absent or later than its instant. This supposes
 * - that the poll stands in a list of polls, frames, start replies, notices and told sent counts, refused
 *   ones included, each of which gets the state that the one before it left, and nobody else writes it;
 * - that the first state of the list is accepted (3 to 6), and its link start, last cutover and epoch
 *   starts are not after any instant of the list; after a write of the caller a new list begins;
 * - that in the list the clock never goes back, and each poll is later than the polls before it.
 *
 * So with workers off a link need not be polled before its wake, as long as no other call is made and
 * nobody writes the state. This says nothing of a poll at the wake or after it, and the wake is not the
 * earliest instant at which a poll has work:
 * - It may be early, and then stays in the past. It counts the probes and the final message of a
 *   completed own attempt under every wait; a poll takes each under one wait only. And it counts a floor
 *   whose end would pass 2^64 - 1 as ended; no start is called for then.
 * - It stays in the past while a start is called for and no reply opens an attempt, and once the sent
 *   count has reached hard, while the link is not closed.
 * - It counts no offer: with workers on it may be late or absent while one is owed.
 * - It is absent where nothing is held, though a teardown stands at every poll (why 0).
 *
 * So a caller that sleeps until the wake alone may poll without a pause, as after a start that opened
 * nothing. It needs two limits of its own: no two polls within check, and no new try to start before a
 * back-off that grows with each try that opened nothing. A START that comes before that needs no reply.
 *
 *   uint64_t next = 0;     no poll before this instant
 *   uint64_t retry = 0;    no start is tried before this one
 *   unsigned failed = 0;   tries in a row that opened nothing
 *   for (;;) {
 *       // g has what a poll is given, extra 0. To do at once, at the wake, or not before another call:
 *       if (!siklyavon_quiet(&s, g, 0)) t = g.now;
 *       else { w = siklyavon_wake(s, g.cfg, g.profile); t = w.at.some ? w.at.at : NEVER; }
 *       // a frame that arrives, a notice or a count ends the sleep: make that call, look again
 *       g.now = sleep_until(max(t, next));
 *       r = siklyavon_poll(s, g.cfg, g.profile, g.now, g.workers, spread(), extra(), log);
 *       next = g.now + g.cfg.check;
 *       if (r.number != SIKLYAVON_ACCEPTED) { write r.number and r.place down; s stays; continue; }
 *       s = r.state;
 *       for each of the r.len events:
 *           SIKLYAVON_EVENT_START, and g.now >= retry:
 *               a = try_to_start();
 *               s = siklyavon_reply(s, g.cfg, g.profile, g.now, a).state;
 *               failed = a.opened ? 0 : failed + 1;
 *               retry = a.opened ? 0 : g.now + (g.cfg.check << min(failed, 6));
 *           SIKLYAVON_EVENT_TEARDOWN: close the link and leave the loop
 *           any other: do what it says
 *   }
 *
 * examples/tablet.c is this loop as a program. */
siklyavon_woke siklyavon_wake(siklyavon_state s, siklyavon_config cfg, siklyavon_profile p);

/* The link line. Refusals 1 to 6.
 *
 * Quiet is the time since the current epoch was heard or started, whichever is later: time less the later
 * of mem.rx_cur and cur.ep.started, 0 if the clock is behind, none exactly without a current epoch.
 *   - Behind siklyavon_open it is the time since then.
 *   - At the instant of an accepted siklyavon_frame under the current or the pending epoch, or of a
 *     siklyavon_worker under the current one, it is 0.
 *   - A frame or a worker's report under the drained epoch leaves it, but where REVERTED is told. Then it
 *     counts from mem.rx_cur, which that frame does not move, or from the start of the epoch that is
 *     current again.
 *   - A poll leaves it, or makes an epoch current that starts at its instant. Every other call leaves it.
 * So a small number says that the hub was heard under the keys in use, or that these keys are that new.
 * mem.last_rx is the last frame under any epoch. */
siklyavon_shown siklyavon_status(siklyavon_state s, siklyavon_config cfg, siklyavon_profile p,
                                 uint64_t time);

/* Samples, every field with a number or a flag of its own within its record (crates/link_sample): a caller
 * holds its records' layout to them. */
siklyavon_state siklyavon_sample_state(int32_t spread);
siklyavon_config siklyavon_sample_config(void);
siklyavon_profile siklyavon_sample_profile(void);
siklyavon_given siklyavon_sample_given(void);
siklyavon_frame_proof siklyavon_sample_proof(void);
siklyavon_start_reply siklyavon_sample_reply(void);

#ifdef __cplusplus
}
#endif

#endif
