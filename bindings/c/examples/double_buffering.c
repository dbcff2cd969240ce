/* Double buffering on three threads: a source reads standard input, a kernel changes each byte b to 255 - b, and a sink writes standard
 * output. The kernel asks for the next piece before it hands the last one on, so that the source reads while the kernel works.
 *
 *     gcc -I<folder of rumpsteak.h> double_buffering.c <folder of the library>/librumpsteak.a -lpthread -o double_buffering
 *     ./double_buffering < picture > negative */
#include "rumpsteak.h"

#include <pthread.h>
#include <sched.h>
#include <stdio.h>
#include <stdlib.h>
#include <string.h>

#define PIECE 4096

/* K is the kernel, S the source, T the sink. The machine of K sends its second `ready` before it has the first piece. */
static const char text[] =
    "roles K, S, T\n"
    "protocol rec X. K->S:ready(). T->K:ready(). S->K{copy(bytes). K->T:copy(bytes). X, stop(). K->S:ready(). K->T:stop(). end}\n"
    "machine K: S!ready(). rec X. S!ready(). T?ready(). S?{copy(bytes). T!copy(bytes). X, stop(). T!stop(). end}\n";

static uint32_t ready, copy, stop;

static void must(uint32_t status) {
    if (status != RUMPSTEAK_FINE) {
        fprintf(stderr, "status %u\n", status);
        exit(1);
    }
}

/* A full queue: the other side works, so this thread gives way and tries again. */
static void send_word(rumpsteak_endpoint *end, uint32_t label) {
    uint32_t status;
    while ((status = rumpsteak_send_unit(end, label)) == RUMPSTEAK_FULL)
        sched_yield();
    must(status);
}

static void send_piece(rumpsteak_endpoint *end, const uint8_t *piece, size_t length) {
    uint32_t status;
    while ((status = rumpsteak_send_bytes(end, copy, piece, length)) == RUMPSTEAK_FULL)
        sched_yield();
    must(status);
}

static rumpsteak_message receive(rumpsteak_endpoint *end) {
    rumpsteak_message message;
    uint32_t status;
    while ((status = rumpsteak_receive(end, &message)) == RUMPSTEAK_EMPTY)
        sched_yield();
    must(status);
    return message;
}

static void *kernel(void *at) {
    rumpsteak_endpoint *end = at;
    uint8_t piece[PIECE];
    size_t length;
    send_word(end, ready);
    for (;;) {
        send_word(end, ready);
        receive(end); /* the sink's `ready` */
        if (receive(end).label == stop)
            break;
        must(rumpsteak_bytes(end, piece, sizeof piece, &length));
        for (size_t k = 0; k < length; k++)
            piece[k] = (uint8_t)(255 - piece[k]);
        send_piece(end, piece, length);
    }
    send_word(end, stop);
    return NULL;
}

static void *source(void *at) {
    rumpsteak_endpoint *end = at;
    uint8_t piece[PIECE];
    size_t length;
    receive(end);
    while ((length = fread(piece, 1, sizeof piece, stdin)) > 0) {
        send_piece(end, piece, length);
        receive(end);
    }
    send_word(end, stop);
    receive(end); /* the `ready` that the kernel sent ahead */
    return NULL;
}

static void *sink(void *at) {
    rumpsteak_endpoint *end = at;
    uint8_t piece[PIECE];
    size_t length;
    for (;;) {
        send_word(end, ready);
        if (receive(end).label == stop)
            return NULL;
        must(rumpsteak_bytes(end, piece, sizeof piece, &length));
        fwrite(piece, 1, length, stdout);
    }
}

static uint32_t label(rumpsteak_session *session, const char *name) {
    uint32_t number;
    must(rumpsteak_label(session, (const uint8_t *)name, strlen(name), &number));
    return number;
}

int main(void) {
    void *(*const programs[3])(void *) = {kernel, source, sink};
    rumpsteak_session session = {0};
    rumpsteak_text_handle refusal = {0};
    rumpsteak_endpoint ends[3] = {{0}, {0}, {0}};
    pthread_t threads[3];

    must(rumpsteak_open((const uint8_t *)text, strlen(text), 0, &session, &refusal));
    ready = label(&session, "ready");
    copy = label(&session, "copy");
    stop = label(&session, "stop");
    for (uint32_t role = 0; role < 3; role++)
        must(rumpsteak_endpoint_of(&session, role, &ends[role]));
    must(rumpsteak_close(&session));

    for (int role = 0; role < 3; role++)
        if (pthread_create(&threads[role], NULL, programs[role], &ends[role]))
            return 1;
    for (int role = 0; role < 3; role++)
        pthread_join(threads[role], NULL);
    for (int role = 0; role < 3; role++)
        must(rumpsteak_leave(&ends[role]));
    return fflush(stdout) ? 1 : 0;
}
