/* Rumpsteak for C: conversations among several programs or threads, checked before they run.
 *
 * A text holds a protocol (who sends what to whom), and for some of its roles a machine (a list of states, each of which sends to, or
 * receives from, one other role). With this library a program
 *
 *   asks      what the program `rumpsteak` answers to a text: rumpsteak_ask, or rumpsteak_answer for a buffer of its own;
 *   plays     a session: rumpsteak_open accepts a text and makes a queue for each ordered pair of roles, rumpsteak_endpoint_of hands
 *             out a role's endpoint, and a thread sends and receives by it;
 *   watches   queues of its own (pipes, sockets, a broker): a monitor knows a role's machine, and refuses each act that it doesn't have.
 *
 * In a session that was opened no role ever finds a message that it has no case for, and there is always a role that can act until
 * all have ended, as long as each thread goes on to do what its role's state says and no endpoint is given up before it has ended.
 *
 * Link with librumpsteak.a or librumpsteak.so. They need the C library, and nothing else: x86-64-v2, Linux.
 *
 *     gcc program.c -I<folder of rumpsteak.h> <folder of the library>/librumpsteak.a -lpthread
 *
 *
 * A WHOLE PROGRAM, on one thread for brevity:
 *
 *     #include "rumpsteak.h"
 *     #include <stdio.h>
 *     #include <string.h>
 *
 *     static const char text[] = "roles A, B\nprotocol A->B:hello(nat). end\n";
 *
 *     int main(void) {
 *         rumpsteak_session session = {0};
 *         rumpsteak_endpoint a = {0}, b = {0};
 *         rumpsteak_text_handle refusal = {0};
 *         rumpsteak_message message;
 *         uint32_t hello;
 *         if (rumpsteak_open((const uint8_t *)text, strlen(text), 0, &session, &refusal) != RUMPSTEAK_FINE) {
 *             char words[1000];
 *             size_t length;
 *             if (rumpsteak_text(&refusal, (uint8_t *)words, sizeof words, &length) == RUMPSTEAK_FINE)
 *                 fwrite(words, 1, length, stderr);
 *             rumpsteak_text_close(&refusal);
 *             return 1;
 *         }
 *         rumpsteak_label(&session, (const uint8_t *)"hello", 5, &hello);
 *         rumpsteak_endpoint_of(&session, 0, &a);
 *         rumpsteak_endpoint_of(&session, 1, &b);
 *         rumpsteak_close(&session);
 *         if (rumpsteak_send_nat(&a, hello, 7) == RUMPSTEAK_FINE && rumpsteak_receive(&b, &message) == RUMPSTEAK_FINE)
 *             printf("%llu\n", (unsigned long long)message.natural);
 *         rumpsteak_leave(&a);
 *         rumpsteak_leave(&b);
 *         return 0;
 *     }
 *
 *
 * HANDLES. What a call opens stands behind a handle, a struct of one pointer that belongs to the caller. Set it to zero before its
 * first call ({0}). A call that opens something behind a handle first frees what was open there. Each handle has a call that frees
 * it, after which the handle is zero again; a second one answers RUMPSTEAK_CLOSED and does no harm. A handle that is zero is an error
 * nowhere: the call answers RUMPSTEAK_CLOSED.
 *
 * STATUSES. Each call answers a status, RUMPSTEAK_FINE (0) or why not. With another status than RUMPSTEAK_FINE nothing behind a
 * handle has changed and nothing was written, except where a call's comment says so. A refused memory is a status too, and what the
 * call was about stands as before, so that the call can be made again.
 *
 * NOTHING WAITS. No call waits, starts a thread, takes a lock or prints. A call that finds a full or an empty queue says so at once;
 * the caller makes it again, after a pause of its own choice (sched_yield, or a doubling sleep).
 *
 * TEXTS are bytes with a length, UTF-8, with no zero at the end. OUT is where a call writes bytes (or numbers): `out` has room for `out_len`
 * of them, and `written` is how many there are. Where they don't all have room the status is RUMPSTEAK_TOO_SMALL, `out` is as it
 * was, `written` is how many there are, and nothing is lost: make the call again with more room.
 *
 * NUMBERS. Roles and labels have numbers from 0 on, roles in the order of the text's `roles`.
 *
 *
 * WHAT THE CALLER KEEPS, and nothing checks:
 * - A handle is zero, or as the last call left it. Don't copy a handle and go on with both; it may be moved (the old place is then
 *   set to zero).
 * - A handle, and each place that is written to, is given to one call at a time. Different handles may be used by different threads
 *   at once, also the endpoints of one session. A handle may be passed to another thread, by a lock, a thread's start or join, or a
 *   sequentially consistent atomic.
 * - A pointer with a length points to so many bytes or numbers, which no other thread changes during the call. With length 0 it is
 *   not null, and may point anywhere.
 * - Places that a call writes to don't overlap one another, nor what the call reads.
 * - The thread that calls has 256 KiB of stack left (64 KiB were enough in all trials).
 * - No call is made from a signal handler, or in the child of a fork of a process with several threads.
 * - malloc, realloc and free are of one allocator, and align a block of n bytes to each power of two up to 16 that divides n.
 * - A bool is 0 or 1. */
#ifndef RUMPSTEAK_H
#define RUMPSTEAK_H

#include <stdbool.h>
#include <stddef.h>
#include <stdint.h>

#ifdef __cplusplus
extern "C" {
#endif

/* The version of this header: a million for each major version, a thousand for each minor one. */
#define RUMPSTEAK_VERSION 1000u

/* Statuses 0 to 11 are those with which the program `rumpsteak` ends. */
enum rumpsteak_status {
    RUMPSTEAK_FINE = 0,
    RUMPSTEAK_REFUSED = 1,         /* some role's machine is refused */
    RUMPSTEAK_USAGE = 2,           /* the words are none of the program's */
    RUMPSTEAK_MALFORMED = 3,       /* the text is at fault */
    RUMPSTEAK_UNPROJECTABLE = 4,   /* the protocol has no projection onto some role */
    RUMPSTEAK_TOO_LARGE = 5,       /* a quantity passes its limit */
    RUMPSTEAK_NO_MEMORY = 8,       /* memory was refused; nothing is said of the text */
    RUMPSTEAK_STOPPED = 9,         /* `run`: a role was stopped at the limit of its acts */
    RUMPSTEAK_RINGS_FULL = 10,     /* `run`: no role could move */
    RUMPSTEAK_ROOM_TOO_SMALL = 11, /* `run`: the queues are smaller than several workers need */
    RUMPSTEAK_NEEDS_WORKERS = 16,  /* the words ask for several workers, of which the library has none */
    RUMPSTEAK_TOO_SMALL = 17,      /* `out` is too small: `written` is the length that is needed */
    RUMPSTEAK_CLOSED = 18,         /* nothing is open behind the handle */
    RUMPSTEAK_FULL = 19,           /* the queue is full: again once the receiver has taken a message */
    RUMPSTEAK_EMPTY = 20,          /* nothing has come: again once the sender has sent */
    RUMPSTEAK_NOT_NOW = 21,        /* the role's state has no such act: direction, label or sort */
    RUMPSTEAK_UNKNOWN = 22,        /* there is no such role, label, arm, kind or status */
    RUMPSTEAK_HANDED_OUT = 23,     /* the role's endpoint was handed out before */
    RUMPSTEAK_GONE = 24,           /* nothing has come and nothing will: the sender's endpoint was given up */
    /* What a monitor answers to an act that the machine doesn't have: the first of these that applies. */
    RUMPSTEAK_ANOTHER_PEER = 32,   /* the state sends to, or receives from, another role */
    RUMPSTEAK_STATE_RECEIVES = 33, /* the act is a send, and the state receives from that role */
    RUMPSTEAK_STATE_SENDS = 34,    /* the act is a receive, and the state sends to that role */
    RUMPSTEAK_NO_SUCH_LABEL = 35,  /* no arm of the state has the label */
    RUMPSTEAK_ANOTHER_SORT = 36,   /* an arm has the label, and the value isn't of its sort */
    RUMPSTEAK_HAS_ENDED = 37       /* the machine has ended */
};

/* Kinds of values. A `nat` may also be sent where an `int` is wanted. */
enum rumpsteak_kind {
    RUMPSTEAK_UNIT = 0,  /* no value */
    RUMPSTEAK_BOOL = 1,
    RUMPSTEAK_NAT = 2,   /* below 2^63 */
    RUMPSTEAK_INT = 3,
    RUMPSTEAK_BYTES = 4,
    RUMPSTEAK_LIST = 5   /* numbers of 64 bits with a sign */
};

/* What a role does next. */
enum rumpsteak_direction {
    RUMPSTEAK_SENDS = 1,
    RUMPSTEAK_RECEIVES = 2,
    RUMPSTEAK_ENDED = 3
};

/* The version of the library, to be compared with RUMPSTEAK_VERSION. */
uint32_t rumpsteak_version(void);

/* What a status says, in English, without a full stop, such as "the queue is full" for RUMPSTEAK_FULL; no text is longer than 100 bytes.
 * RUMPSTEAK_UNKNOWN: no status has this number. */
uint32_t rumpsteak_status_text(uint32_t status, uint8_t *out, size_t out_len, size_t *written);


/* ---- Texts and answers ------------------------------------------------------------------------------------------------------ */

/* A text that a call left: zero, or open. */
typedef struct {
    void *at;
} rumpsteak_text_handle;

/* Leaves behind `answer` what the program `rumpsteak` prints to these words and this standard input, and answers its status. `words` are
 * without the program's name, with a zero byte between two of them: "check", or "improve\0ROLE", or "explain\0--bound\0" "4" ("\04" would be
 * one byte in octal). Their length is that of the whole, sizeof words - 1 for such a constant: strlen stops at the first zero. Statuses: 0 to
 * 11, with all that the program prints. There is no answer, and nothing has changed, with RUMPSTEAK_NO_MEMORY; with RUMPSTEAK_NEEDS_WORKERS; and with
 * RUMPSTEAK_USAGE where a word isn't UTF-8.
 *
 * If the words are those of a `check`, an `explain` or a `verify`, and the status is RUMPSTEAK_FINE, the machines of the text are safe: in every configuration that
 * they can reach over unbounded queues no machine finds a message that it doesn't take at the head of the queue it reads, and either
 * some machine can step, or all have ended with every queue empty. */
uint32_t rumpsteak_ask(const uint8_t *words, size_t words_len, const uint8_t *text, size_t text_len, rumpsteak_text_handle *answer);

/* The same, into a buffer of the caller's. Where the answer doesn't have room the status is RUMPSTEAK_TOO_SMALL, and the answer has to be
 * made again: rumpsteak_ask keeps it. */
uint32_t rumpsteak_answer(const uint8_t *words, size_t words_len, const uint8_t *text, size_t text_len, uint8_t *out, size_t out_len,
                          size_t *written);

/* Copies the text out. */
uint32_t rumpsteak_text(rumpsteak_text_handle *text, uint8_t *out, size_t out_len, size_t *written);

/* Frees the text. */
uint32_t rumpsteak_text_close(rumpsteak_text_handle *text);


/* ---- Sessions --------------------------------------------------------------------------------------------------------------- */

/* A session: zero, or begun. */
typedef struct {
    void *at;
} rumpsteak_session;

/* A role of a session: zero, or open. */
typedef struct {
    void *at;
} rumpsteak_endpoint;

/* Accepts the text, and begins its session: each queue holds `capacity` messages (1 to 1,024), or where `capacity` is 0 or greater as many
 * as the session's room, 1,024 at most. Queues of the room never hold up a role for ever; smaller ones may.
 *
 * If the text has a derivation of each role, as `check --derivations` prints them, these are tested as `verify` does, and nothing is
 * searched: so a program that starts tests what was searched when it was built. Otherwise the text is accepted as `check` does.
 *
 * Where the text is refused (RUMPSTEAK_REFUSED, _MALFORMED, _UNPROJECTABLE or _TOO_LARGE), `refusal` holds what `explain` prints: the answer
 * of `check`, and then where and why. Where it is one of the text's own derivations that is refused, `refusal` holds what `verify`
 * prints. */
uint32_t rumpsteak_open(const uint8_t *text, size_t text_len, uint16_t capacity, rumpsteak_session *session,
                        rumpsteak_text_handle *refusal);

/* How many messages each queue must hold so that no role can be held up by full ones: `room` of `check`'s answer. */
uint32_t rumpsteak_room(rumpsteak_session *session, uint64_t *room);

/* The number of the role, or of the label, with this name. */
uint32_t rumpsteak_role(rumpsteak_session *session, const uint8_t *name, size_t name_len, uint32_t *role);
uint32_t rumpsteak_label(rumpsteak_session *session, const uint8_t *name, size_t name_len, uint32_t *label);

/* The name of the role, or of the label, with this number. To go through all begin at 0 and end at RUMPSTEAK_UNKNOWN. */
uint32_t rumpsteak_role_name(rumpsteak_session *session, uint32_t role, uint8_t *out, size_t out_len, size_t *written);
uint32_t rumpsteak_label_name(rumpsteak_session *session, uint32_t label, uint8_t *out, size_t out_len, size_t *written);

/* Hands out the role's endpoint, once. It lives on when the session's handle is closed. What was open behind `endpoint` is given up. */
uint32_t rumpsteak_endpoint_of(rumpsteak_session *session, uint32_t role, rumpsteak_endpoint *endpoint);

/* Frees what is behind the session's handle; the endpoints that weren't handed out are given up. */
uint32_t rumpsteak_close(rumpsteak_session *session);


/* ---- Endpoints -------------------------------------------------------------------------------------------------------------- */

/* What the role does next: a direction (enum rumpsteak_direction), with which role, and by how many arms. Where it has ended `peer` and
 * `arms` are 0. */
uint32_t rumpsteak_state(rumpsteak_endpoint *endpoint, uint32_t *direction, uint32_t *peer, uint32_t *arms);

/* The arm at this place of the state, from 0 on: its label, and the kind of its values (enum rumpsteak_kind). RUMPSTEAK_UNKNOWN: the state has
 * no such arm. */
uint32_t rumpsteak_arm(rumpsteak_endpoint *endpoint, uint32_t place, uint32_t *label, uint32_t *kind);

/* Sends a message with the label to the state's peer. Each looks once. RUMPSTEAK_FULL, RUMPSTEAK_NOT_NOW or RUMPSTEAK_NO_MEMORY: nothing was
 * sent, and the role stands as before. Bytes and numbers are copied once there is room for them: a call that answers RUMPSTEAK_FULL or
 * RUMPSTEAK_NOT_NOW has copied nothing and asked for no memory. */
uint32_t rumpsteak_send_unit(rumpsteak_endpoint *endpoint, uint32_t label);
uint32_t rumpsteak_send_bool(rumpsteak_endpoint *endpoint, uint32_t label, bool value);
uint32_t rumpsteak_send_nat(rumpsteak_endpoint *endpoint, uint32_t label, uint64_t value);
uint32_t rumpsteak_send_int(rumpsteak_endpoint *endpoint, uint32_t label, int64_t value);
uint32_t rumpsteak_send_bytes(rumpsteak_endpoint *endpoint, uint32_t label, const uint8_t *value, size_t value_len);
uint32_t rumpsteak_send_list(rumpsteak_endpoint *endpoint, uint32_t label, const int64_t *value, size_t value_len);

/* A message that was received. */
typedef struct {
    uint32_t label;
    uint32_t kind;    /* enum rumpsteak_kind; it says which of these is the value, the others are 0: */
    uint64_t natural; /* a nat; or a bool, 0 or 1 */
    int64_t whole;    /* an int. Where the arm's sort is int the sender may have sent a nat: then the kind is RUMPSTEAK_NAT, and it is in `natural` */
    size_t length;    /* of the bytes, or of the list: rumpsteak_bytes and rumpsteak_list copy them out */
} rumpsteak_message;

/* Receives the oldest message from the state's peer. It looks once. RUMPSTEAK_EMPTY, RUMPSTEAK_GONE or RUMPSTEAK_NOT_NOW: nothing was received,
 * and the role stands as before. */
uint32_t rumpsteak_receive(rumpsteak_endpoint *endpoint, rumpsteak_message *message);

/* The bytes, or the numbers, of the message that was received last; they stay until the next message is received. RUMPSTEAK_NOT_NOW: it
 * was of another kind, or none was received yet. */
uint32_t rumpsteak_bytes(rumpsteak_endpoint *endpoint, uint8_t *out, size_t out_len, size_t *written);
uint32_t rumpsteak_list(rumpsteak_endpoint *endpoint, int64_t *out, size_t out_len, size_t *written);

/* Gives the role up wherever it stands, and frees its handle. What it sent can still be received; who receives from it then gets
 * RUMPSTEAK_GONE, who sends to it goes on until the queue is full. Leave each endpoint, also one that has ended. */
uint32_t rumpsteak_leave(rumpsteak_endpoint *endpoint);


/* ---- Monitors, for queues of your own --------------------------------------------------------------------------------------- */

/* The monitor of one role's program: zero, or open.
 *
 * Ask it before each message that the program sends (rumpsteak_monitor_sent, then the queue), and tell it each that the program took from a
 * queue (rumpsteak_monitor_received). If there is a queue for each ordered pair of roles that loses and reorders nothing and holds at
 * least `room` messages, and all programs go through their monitors, what is promised of the machines holds of the programs. */
typedef struct {
    void *at;
} rumpsteak_monitor;

/* Accepts the text as rumpsteak_open does, by its own derivations or by a search, and opens the monitor of the role with this name, at
 * the start of the role's machine. Where the text is refused, `refusal` holds what it holds after rumpsteak_open. RUMPSTEAK_UNKNOWN: the text
 * has no such role. */
uint32_t rumpsteak_monitor_open(const uint8_t *text, size_t text_len, const uint8_t *role, size_t role_len, rumpsteak_monitor *monitor,
                                rumpsteak_text_handle *refusal);

/* As rumpsteak_room, _role, _label, _role_name and _label_name, for the monitor's text. */
uint32_t rumpsteak_monitor_room(rumpsteak_monitor *monitor, uint64_t *room);
uint32_t rumpsteak_monitor_role(rumpsteak_monitor *monitor, const uint8_t *name, size_t name_len, uint32_t *role);
uint32_t rumpsteak_monitor_label(rumpsteak_monitor *monitor, const uint8_t *name, size_t name_len, uint32_t *label);
uint32_t rumpsteak_monitor_role_name(rumpsteak_monitor *monitor, uint32_t role, uint8_t *out, size_t out_len, size_t *written);
uint32_t rumpsteak_monitor_label_name(rumpsteak_monitor *monitor, uint32_t label, uint8_t *out, size_t out_len, size_t *written);

/* As rumpsteak_state and rumpsteak_arm. */
uint32_t rumpsteak_monitor_state(rumpsteak_monitor *monitor, uint32_t *direction, uint32_t *peer, uint32_t *arms);
uint32_t rumpsteak_monitor_arm(rumpsteak_monitor *monitor, uint32_t place, uint32_t *label, uint32_t *kind);

/* Whether the program may send the message now; nothing changes. `kind` is that of its value (enum rumpsteak_kind), and `natural` the value
 * where it is a nat, 0 else. RUMPSTEAK_FINE, or the first reason why not (RUMPSTEAK_ANOTHER_PEER to RUMPSTEAK_HAS_ENDED); RUMPSTEAK_UNKNOWN: the peer,
 * the label or the kind is no such number; RUMPSTEAK_NO_MEMORY comes for RUMPSTEAK_LIST alone. */
uint32_t rumpsteak_monitor_may_send(rumpsteak_monitor *monitor, uint32_t peer, uint32_t label, uint32_t kind, uint64_t natural);

/* Lets a send through: with RUMPSTEAK_FINE the machine has moved on, and the program may put the message into its queue to the peer. With another
 * status nothing has changed, and the program has to keep the message back. */
uint32_t rumpsteak_monitor_sent(rumpsteak_monitor *monitor, uint32_t peer, uint32_t label, uint32_t kind, uint64_t natural);

/* Lets a receive through: the program took the message from its queue from the peer. */
uint32_t rumpsteak_monitor_received(rumpsteak_monitor *monitor, uint32_t peer, uint32_t label, uint32_t kind, uint64_t natural);

/* How many acts were let through. */
uint32_t rumpsteak_monitor_acts(rumpsteak_monitor *monitor, uint64_t *acts);

/* Frees the monitor. */
uint32_t rumpsteak_monitor_close(rumpsteak_monitor *monitor);

#ifdef __cplusplus
}
#endif

#endif
