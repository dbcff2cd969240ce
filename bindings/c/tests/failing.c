/* Refuses each allocation in turn, by the linker's --wrap. Each call then answers RUMPSTEAK_NO_MEMORY, or needs no memory and goes on; a call
 * that was refused can be made again; nothing leaks. And a message that can't be sent now asks for no memory. */
#include "rumpsteak.h"

#include <stdio.h>
#include <stdlib.h>
#include <string.h>

static long left = -1, live, refused, asked;

void *__real_malloc(size_t length);
void *__real_realloc(void *at, size_t length);
void __real_free(void *at);

/* Allocations succeed until none is left; then one is refused, and the later ones succeed again. */
static int is_refused(void) {
    asked++;
    if (left < 0 || left-- > 0)
        return 0;
    refused++;
    return 1;
}

void *__wrap_malloc(size_t length) {
    void *at = is_refused() ? NULL : __real_malloc(length);
    live += at != NULL;
    return at;
}

void *__wrap_realloc(void *at, size_t length) {
    void *moved = is_refused() ? NULL : __real_realloc(at, length);
    live += moved != NULL && at == NULL;
    return moved;
}

void __wrap_free(void *at) {
    live -= at != NULL;
    __real_free(at);
}

static void must(int line, int holds) {
    if (!holds) {
        fprintf(stderr, "failing.c:%d, after %ld refusals\n", line, refused);
        exit(1);
    }
}
#define MUST(holds) must(__LINE__, (holds))

/* The call answers RUMPSTEAK_NO_MEMORY once at most in a row, and then this status. */
#define ENDS_IN(wanted, call)                                                                                                          \
    do {                                                                                                                               \
        uint32_t status = (call);                                                                                                      \
        if (status == RUMPSTEAK_NO_MEMORY) {                                                                                           \
            again++;                                                                                                                   \
            status = (call);                                                                                                           \
        }                                                                                                                              \
        MUST(status == (wanted));                                                                                                      \
    } while (0)

static const char text[] = "roles S, T\nprotocol rec X. S->T{copy(bytes). X, list(list). X, stop(). end}\n";
static const char wrong[] = "roles A, B protocol A->B:x(). B->A:y(). end machine A: B?y(). B!x(). end";
static const uint8_t *const at = (const uint8_t *)text, *const wrong_at = (const uint8_t *)wrong;
static const size_t length = sizeof text - 1, wrong_length = sizeof wrong - 1;

/* All that takes memory, once. Returns how many calls were refused memory. */
static long turn(void) {
    static uint8_t out[1 << 12];
    rumpsteak_session session = {0};
    rumpsteak_endpoint s = {0}, t = {0};
    rumpsteak_monitor monitor = {0};
    rumpsteak_text_handle answer = {0};
    rumpsteak_message message;
    const int64_t numbers[2] = {1, -1};
    int64_t got[2];
    size_t written;
    long again = 0;
    ENDS_IN(RUMPSTEAK_FINE, rumpsteak_open(at, length, 4, &session, &answer));
    ENDS_IN(RUMPSTEAK_FINE, rumpsteak_endpoint_of(&session, 0, &s));
    ENDS_IN(RUMPSTEAK_FINE, rumpsteak_endpoint_of(&session, 1, &t));
    ENDS_IN(RUMPSTEAK_FINE, rumpsteak_send_bytes(&s, 0, (const uint8_t *)"abc", 3));
    ENDS_IN(RUMPSTEAK_FINE, rumpsteak_send_list(&s, 1, numbers, 2));
    ENDS_IN(RUMPSTEAK_FINE, rumpsteak_receive(&t, &message));
    MUST(message.label == 0 && message.length == 3);
    ENDS_IN(RUMPSTEAK_FINE, rumpsteak_bytes(&t, out, sizeof out, &written));
    MUST(written == 3 && memcmp(out, "abc", 3) == 0);
    ENDS_IN(RUMPSTEAK_FINE, rumpsteak_receive(&t, &message));
    ENDS_IN(RUMPSTEAK_FINE, rumpsteak_list(&t, got, 2, &written));
    MUST(message.label == 1 && written == 2 && got[0] == 1 && got[1] == -1);
    ENDS_IN(RUMPSTEAK_FINE, rumpsteak_ask((const uint8_t *)"explain", 7, at, length, &answer));
    ENDS_IN(RUMPSTEAK_REFUSED, rumpsteak_ask((const uint8_t *)"explain", 7, wrong_at, wrong_length, &answer));
    ENDS_IN(RUMPSTEAK_FINE, rumpsteak_answer((const uint8_t *)"check", 5, at, length, out, sizeof out, &written));
    MUST(written > 9 && memcmp(out, "accepted\n", 9) == 0);
    ENDS_IN(RUMPSTEAK_REFUSED, rumpsteak_open(wrong_at, wrong_length, 0, &session, &answer));
    ENDS_IN(RUMPSTEAK_FINE, rumpsteak_monitor_open(at, length, (const uint8_t *)"T", 1, &monitor, &answer));
    ENDS_IN(RUMPSTEAK_FINE, rumpsteak_monitor_received(&monitor, 0, 0, RUMPSTEAK_BYTES, 0));
    rumpsteak_text_close(&answer);
    rumpsteak_monitor_close(&monitor);
    rumpsteak_leave(&s);
    rumpsteak_leave(&t);
    rumpsteak_close(&session);
    MUST(live == 0);
    return again;
}

/* Where the ring is full, or the role may not send so, nothing is copied, also if memory would be refused. */
static void waits_without_memory(void) {
    rumpsteak_session session = {0};
    rumpsteak_endpoint s = {0}, t = {0};
    rumpsteak_text_handle answer = {0};
    const uint8_t bytes[3] = {1, 2, 3};
    const int64_t numbers[2] = {1, -1};
    left = -1;
    MUST(rumpsteak_open(at, length, 1, &session, &answer) == RUMPSTEAK_FINE);
    MUST(rumpsteak_endpoint_of(&session, 0, &s) == RUMPSTEAK_FINE && rumpsteak_endpoint_of(&session, 1, &t) == RUMPSTEAK_FINE);
    left = 0;
    MUST(rumpsteak_send_bytes(&s, 0, bytes, 3) == RUMPSTEAK_NO_MEMORY);
    MUST(rumpsteak_send_bytes(&s, 0, bytes, 3) == RUMPSTEAK_FINE);
    left = 0;
    long before = asked;
    MUST(rumpsteak_send_bytes(&s, 0, bytes, 3) == RUMPSTEAK_FULL && rumpsteak_send_list(&s, 1, numbers, 2) == RUMPSTEAK_FULL);
    MUST(rumpsteak_send_bytes(&s, 1, bytes, 3) == RUMPSTEAK_NOT_NOW && rumpsteak_send_list(&s, 0, numbers, 2) == RUMPSTEAK_NOT_NOW);
    MUST(rumpsteak_send_bytes(&s, 3, bytes, 3) == RUMPSTEAK_NOT_NOW && rumpsteak_send_list(&s, 1 << 16, numbers, 2) == RUMPSTEAK_NOT_NOW);
    MUST(rumpsteak_send_bytes(&t, 0, bytes, 3) == RUMPSTEAK_NOT_NOW && rumpsteak_send_list(&t, 1, numbers, 2) == RUMPSTEAK_NOT_NOW);
    MUST(asked == before);
    left = -1;
    rumpsteak_leave(&s);
    rumpsteak_leave(&t);
    rumpsteak_close(&session);
    MUST(live == 0);
}

int main(void) {
    long calls = 0;
    waits_without_memory();
    for (long first = 0; first < 1000000; first++) {
        long before = refused;
        left = first;
        calls += turn();
        if (refused == before)
            break;
    }
    MUST(refused > 50 && calls > 50 && live == 0);
    printf("%ld allocations were refused, %ld calls answered so and were made again\n", refused, calls);
    return 0;
}
