/* Each call, with each status that it can answer. */
#include "rumpsteak.h"

#include <stdio.h>
#include <stdlib.h>
#include <string.h>

static const char text[] =
    "roles A, B, C\n"
    "protocol A->C:first(nat). rec X. A->B{unit(). X, flag(bool). X, natural(nat). X, whole(int). X, octets(bytes). X,\n"
    "    numbers(list). X, last(). end}\n";
static const char wrong[] = "roles A, B protocol A->B:x(). B->A:y(). end machine A: B?y(). B!x(). end";
static int checks;

static void is(int line, int holds) {
    checks++;
    if (!holds) {
        fprintf(stderr, "calls.c:%d\n", line);
        exit(1);
    }
}
#define IS(holds) is(__LINE__, (holds))
#define STATUS(wanted, call) IS((call) == (wanted))
#define FINE(call) STATUS(RUMPSTEAK_FINE, call)

static const uint8_t *at(const char *word) {
    return (const uint8_t *)word;
}

static uint32_t open_text(const char *word, uint16_t capacity, rumpsteak_session *session, rumpsteak_text_handle *refusal) {
    return rumpsteak_open(at(word), strlen(word), capacity, session, refusal);
}

static uint32_t label(rumpsteak_session *session, const char *name) {
    uint32_t number = 0;
    FINE(rumpsteak_label(session, at(name), strlen(name), &number));
    return number;
}

static void closed(void) {
    rumpsteak_session session = {0};
    rumpsteak_endpoint end = {0};
    rumpsteak_monitor monitor = {0};
    rumpsteak_text_handle answer = {0};
    rumpsteak_message message;
    uint32_t number, other, third;
    uint64_t large;
    size_t length;
    int64_t numbers[1];
    uint8_t bytes[1];
    STATUS(RUMPSTEAK_CLOSED, rumpsteak_text(&answer, bytes, 1, &length));
    STATUS(RUMPSTEAK_CLOSED, rumpsteak_text_close(&answer));
    STATUS(RUMPSTEAK_CLOSED, rumpsteak_room(&session, &large));
    STATUS(RUMPSTEAK_CLOSED, rumpsteak_role(&session, at("A"), 1, &number));
    STATUS(RUMPSTEAK_CLOSED, rumpsteak_label(&session, at("A"), 1, &number));
    STATUS(RUMPSTEAK_CLOSED, rumpsteak_role_name(&session, 0, bytes, 1, &length));
    STATUS(RUMPSTEAK_CLOSED, rumpsteak_label_name(&session, 0, bytes, 1, &length));
    STATUS(RUMPSTEAK_CLOSED, rumpsteak_endpoint_of(&session, 0, &end));
    STATUS(RUMPSTEAK_CLOSED, rumpsteak_close(&session));
    STATUS(RUMPSTEAK_CLOSED, rumpsteak_state(&end, &number, &other, &third));
    STATUS(RUMPSTEAK_CLOSED, rumpsteak_arm(&end, 0, &number, &other));
    STATUS(RUMPSTEAK_CLOSED, rumpsteak_send_unit(&end, 0));
    STATUS(RUMPSTEAK_CLOSED, rumpsteak_send_bool(&end, 0, true));
    STATUS(RUMPSTEAK_CLOSED, rumpsteak_send_nat(&end, 0, 1));
    STATUS(RUMPSTEAK_CLOSED, rumpsteak_send_int(&end, 0, 1));
    STATUS(RUMPSTEAK_CLOSED, rumpsteak_send_bytes(&end, 0, bytes, 0));
    STATUS(RUMPSTEAK_CLOSED, rumpsteak_send_list(&end, 0, numbers, 0));
    STATUS(RUMPSTEAK_CLOSED, rumpsteak_receive(&end, &message));
    STATUS(RUMPSTEAK_CLOSED, rumpsteak_bytes(&end, bytes, 1, &length));
    STATUS(RUMPSTEAK_CLOSED, rumpsteak_list(&end, numbers, 1, &length));
    STATUS(RUMPSTEAK_CLOSED, rumpsteak_leave(&end));
    STATUS(RUMPSTEAK_CLOSED, rumpsteak_monitor_room(&monitor, &large));
    STATUS(RUMPSTEAK_CLOSED, rumpsteak_monitor_role(&monitor, at("A"), 1, &number));
    STATUS(RUMPSTEAK_CLOSED, rumpsteak_monitor_label(&monitor, at("A"), 1, &number));
    STATUS(RUMPSTEAK_CLOSED, rumpsteak_monitor_role_name(&monitor, 0, bytes, 1, &length));
    STATUS(RUMPSTEAK_CLOSED, rumpsteak_monitor_label_name(&monitor, 0, bytes, 1, &length));
    STATUS(RUMPSTEAK_CLOSED, rumpsteak_monitor_state(&monitor, &number, &other, &third));
    STATUS(RUMPSTEAK_CLOSED, rumpsteak_monitor_arm(&monitor, 0, &number, &other));
    STATUS(RUMPSTEAK_CLOSED, rumpsteak_monitor_may_send(&monitor, 0, 0, 0, 0));
    STATUS(RUMPSTEAK_CLOSED, rumpsteak_monitor_sent(&monitor, 0, 0, 0, 0));
    STATUS(RUMPSTEAK_CLOSED, rumpsteak_monitor_received(&monitor, 0, 0, 0, 0));
    STATUS(RUMPSTEAK_CLOSED, rumpsteak_monitor_acts(&monitor, &large));
    STATUS(RUMPSTEAK_CLOSED, rumpsteak_monitor_close(&monitor));
    IS(!session.at && !end.at && !monitor.at && !answer.at);
}

static void answers(void) {
    rumpsteak_text_handle answer = {0};
    uint8_t out[4096], again[4096];
    size_t length = 0, other = 0;
    IS(rumpsteak_version() == RUMPSTEAK_VERSION);
    FINE(rumpsteak_ask(at("check"), 5, at(text), strlen(text), &answer));
    STATUS(RUMPSTEAK_TOO_SMALL, rumpsteak_text(&answer, out, 3, &length));
    FINE(rumpsteak_text(&answer, out, length, &length));
    IS(length > 9 && memcmp(out, "accepted\n", 9) == 0);
    FINE(rumpsteak_answer(at("check"), 5, at(text), strlen(text), again, sizeof again, &other));
    IS(length == other && memcmp(out, again, length) == 0);
    STATUS(RUMPSTEAK_TOO_SMALL, rumpsteak_answer(at("check"), 5, at(text), strlen(text), again, length - 1, &other));
    IS(length == other);
    STATUS(RUMPSTEAK_REFUSED, rumpsteak_ask(at("explain"), 7, at(wrong), strlen(wrong), &answer));
    FINE(rumpsteak_text(&answer, out, sizeof out, &length));
    IS(length > 8 && memcmp(out, "refused\n", 8) == 0);
    STATUS(RUMPSTEAK_MALFORMED, rumpsteak_ask(at("check"), 5, at(""), 0, &answer));
    STATUS(RUMPSTEAK_USAGE, rumpsteak_ask(at("chek"), 4, at(text), strlen(text), &answer));
    STATUS(RUMPSTEAK_USAGE, rumpsteak_ask(at(""), 0, at(text), strlen(text), &answer));
    STATUS(RUMPSTEAK_NEEDS_WORKERS, rumpsteak_ask(at("run\0--workers\0" "2"), 15, at(text), strlen(text), &answer));
    FINE(rumpsteak_text_close(&answer));
    STATUS(RUMPSTEAK_CLOSED, rumpsteak_text_close(&answer));
}

static void names(void) {
    rumpsteak_session session = {0};
    rumpsteak_text_handle refusal = {0};
    uint8_t out[1024];
    size_t length;
    uint32_t number;
    uint64_t room = 0;
    STATUS(RUMPSTEAK_REFUSED, open_text(wrong, 0, &session, &refusal));
    IS(!session.at);
    FINE(rumpsteak_text(&refusal, out, sizeof out, &length));
    IS(memcmp(out, "refused\n", 8) == 0);
    STATUS(RUMPSTEAK_MALFORMED, open_text("roles", 0, &session, &refusal));
    STATUS(RUMPSTEAK_UNPROJECTABLE, open_text("roles A, B, C protocol A->B{x(). C->A:y(). end, z(). end}", 0, &session, &refusal));
    FINE(rumpsteak_text_close(&refusal));
    FINE(open_text(text, 0, &session, &refusal));
    IS(!refusal.at);
    FINE(rumpsteak_room(&session, &room));
    IS(room == 3);
    FINE(rumpsteak_role(&session, at("C"), 1, &number));
    IS(number == 2);
    FINE(rumpsteak_role_name(&session, 1, out, sizeof out, &length));
    IS(length == 1 && out[0] == 'B');
    STATUS(RUMPSTEAK_TOO_SMALL, rumpsteak_role_name(&session, 1, out, 0, &length));
    IS(length == 1);
    STATUS(RUMPSTEAK_UNKNOWN, rumpsteak_role(&session, at("D"), 1, &number));
    STATUS(RUMPSTEAK_UNKNOWN, rumpsteak_role(&session, at("A"), 0, &number));
    STATUS(RUMPSTEAK_UNKNOWN, rumpsteak_role_name(&session, 3, out, sizeof out, &length));
    for (number = 0; rumpsteak_label_name(&session, number, out, sizeof out, &length) == RUMPSTEAK_FINE; number++) {
        uint32_t back = 99;
        FINE(rumpsteak_label(&session, out, length, &back));
        IS(back == number);
    }
    IS(number == 8);
    STATUS(RUMPSTEAK_UNKNOWN, rumpsteak_label(&session, at("none"), 4, &number));
    STATUS(RUMPSTEAK_UNKNOWN, rumpsteak_label_name(&session, 8, out, sizeof out, &length));
    STATUS(RUMPSTEAK_UNKNOWN, rumpsteak_label_name(&session, UINT32_MAX, out, sizeof out, &length));
    FINE(rumpsteak_close(&session));
    STATUS(RUMPSTEAK_CLOSED, rumpsteak_close(&session));
}

/* The text behind the handle, which is freed, is what the program answers to the words and this text. */
static void is_answer(const char *words, size_t words_length, const void *input, size_t input_length, rumpsteak_text_handle *left) {
    static uint8_t told[65536], asked[65536];
    size_t length = 0, other = 0;
    FINE(rumpsteak_text(left, told, sizeof told, &length));
    rumpsteak_answer(at(words), words_length, input, input_length, asked, sizeof asked, &other);
    IS(length > 0 && length == other && memcmp(told, asked, length) == 0);
    FINE(rumpsteak_text_close(left));
}

/* A text with derivations is opened by them, also if a search within the standard bound finds none. A refused text leaves the reason. */
static void certificates(void) {
    rumpsteak_session session = {0};
    rumpsteak_monitor monitor = {0};
    rumpsteak_text_handle refusal = {0};
    static const char unprojectable[] = "roles A, B, C protocol A->B{x(). C->A:y(). end, z(). end}";
    static const char search[] = "check\0--bound\0" "17\0--derivations";
    static char ahead[1024];
    static uint8_t derived[65536];
    size_t length;
    uint64_t room;
    /* M sends before it receives 17 messages, one more than the standard bound allows to put off. */
    strcpy(ahead, "roles M, A protocol ");
    for (int i = 0; i < 17; i++)
        strcat(ahead, "A->M:v(). ");
    strcat(ahead, "M->A:x(). end machine M: A!x(). ");
    for (int i = 0; i < 17; i++)
        strcat(ahead, "A?v(). ");
    strcat(ahead, "end");
    STATUS(RUMPSTEAK_REFUSED, open_text(ahead, 0, &session, &refusal));
    is_answer("explain", 7, ahead, strlen(ahead), &refusal);
    STATUS(RUMPSTEAK_REFUSED, rumpsteak_monitor_open(at(ahead), strlen(ahead), at("M"), 1, &monitor, &refusal));
    is_answer("explain", 7, ahead, strlen(ahead), &refusal);
    IS(!session.at && !monitor.at);

    FINE(rumpsteak_answer(at(search), sizeof search - 1, at(ahead), strlen(ahead), derived, sizeof derived - 1, &length));
    FINE(rumpsteak_open(derived, length, 0, &session, &refusal));
    FINE(rumpsteak_room(&session, &room));
    IS(room >= 17);
    FINE(rumpsteak_close(&session));
    FINE(rumpsteak_monitor_open(derived, length, at("M"), 1, &monitor, &refusal));
    FINE(rumpsteak_monitor_close(&monitor));
    IS(!refusal.at);

    char *bound = strstr((char *)derived, "bound 17");
    IS(bound != NULL);
    bound[7] = '6';
    STATUS(RUMPSTEAK_REFUSED, rumpsteak_open(derived, length, 0, &session, &refusal));
    is_answer("verify", 6, derived, length, &refusal);
    STATUS(RUMPSTEAK_REFUSED, rumpsteak_monitor_open(derived, length, at("M"), 1, &monitor, &refusal));
    is_answer("verify", 6, derived, length, &refusal);
    bound[0] = '!';
    STATUS(RUMPSTEAK_MALFORMED, rumpsteak_open(derived, length, 0, &session, &refusal));
    is_answer("verify", 6, derived, length, &refusal);
    STATUS(RUMPSTEAK_UNPROJECTABLE, open_text(unprojectable, 0, &session, &refusal));
    is_answer("explain", 7, unprojectable, strlen(unprojectable), &refusal);
    IS(!session.at && !monitor.at);
}

/* What statuses say. */
static void statuses(void) {
    uint8_t out[100];
    size_t length = 99;
    int known = 0;
    FINE(rumpsteak_status_text(RUMPSTEAK_FULL, out, sizeof out, &length));
    IS(length == 17 && memcmp(out, "the queue is full", 17) == 0);
    STATUS(RUMPSTEAK_TOO_SMALL, rumpsteak_status_text(RUMPSTEAK_NO_MEMORY, out, 13, &length));
    IS(length == 14 && memcmp(out, "the queue is full", 17) == 0);
    FINE(rumpsteak_status_text(RUMPSTEAK_NO_MEMORY, out, 14, &length));
    IS(length == 14 && memcmp(out, "memory ran out", 14) == 0);
    for (uint32_t status = 0; status < 1000; status++) {
        length = 0;
        uint32_t answer = rumpsteak_status_text(status, out, sizeof out, &length);
        IS(answer == RUMPSTEAK_FINE ? length > 10 : answer == RUMPSTEAK_UNKNOWN && length == 0);
        known += answer == RUMPSTEAK_FINE;
    }
    IS(known == 25);
    STATUS(RUMPSTEAK_UNKNOWN, rumpsteak_status_text(UINT32_MAX, out, sizeof out, &length));
}

static void acts(void) {
    rumpsteak_session session = {0};
    rumpsteak_text_handle refusal = {0};
    rumpsteak_endpoint a = {0}, b = {0}, c = {0}, again = {0};
    rumpsteak_message message;
    uint8_t out[16];
    int64_t numbers[4] = {-1, INT64_MIN, INT64_MAX, 0}, got[4];
    size_t length;
    uint32_t direction, peer, arms, number, kind;
    FINE(open_text(text, 1, &session, &refusal));
    const uint32_t unit = label(&session, "unit"), flag = label(&session, "flag"), natural = label(&session, "natural"),
                   whole = label(&session, "whole"), octets = label(&session, "octets"), list = label(&session, "numbers"),
                   last = label(&session, "last"), first = label(&session, "first");
    FINE(rumpsteak_endpoint_of(&session, 0, &a));
    STATUS(RUMPSTEAK_HANDED_OUT, rumpsteak_endpoint_of(&session, 0, &again));
    STATUS(RUMPSTEAK_UNKNOWN, rumpsteak_endpoint_of(&session, 3, &again));
    STATUS(RUMPSTEAK_UNKNOWN, rumpsteak_endpoint_of(&session, UINT32_MAX, &again));
    FINE(rumpsteak_endpoint_of(&session, 1, &b));
    FINE(rumpsteak_endpoint_of(&session, 2, &c));
    FINE(rumpsteak_close(&session));

    FINE(rumpsteak_state(&a, &direction, &peer, &arms));
    IS(direction == RUMPSTEAK_SENDS && peer == 2 && arms == 1);
    FINE(rumpsteak_send_nat(&a, first, 1));
    FINE(rumpsteak_receive(&c, &message));
    FINE(rumpsteak_state(&c, &direction, &peer, &arms));
    IS(direction == RUMPSTEAK_ENDED && peer == 0 && arms == 0);
    STATUS(RUMPSTEAK_UNKNOWN, rumpsteak_arm(&c, 0, &number, &kind));
    STATUS(RUMPSTEAK_NOT_NOW, rumpsteak_receive(&c, &message));

    FINE(rumpsteak_state(&a, &direction, &peer, &arms));
    IS(direction == RUMPSTEAK_SENDS && peer == 1 && arms == 7);
    FINE(rumpsteak_arm(&a, 2, &number, &kind));
    IS(number == natural && kind == RUMPSTEAK_NAT);
    FINE(rumpsteak_arm(&a, 5, &number, &kind));
    IS(number == list && kind == RUMPSTEAK_LIST);
    STATUS(RUMPSTEAK_UNKNOWN, rumpsteak_arm(&a, 7, &number, &kind));
    FINE(rumpsteak_state(&b, &direction, &peer, &arms));
    IS(direction == RUMPSTEAK_RECEIVES && peer == 0 && arms == 7);

    STATUS(RUMPSTEAK_EMPTY, rumpsteak_receive(&b, &message));
    STATUS(RUMPSTEAK_NOT_NOW, rumpsteak_receive(&a, &message));
    STATUS(RUMPSTEAK_NOT_NOW, rumpsteak_send_unit(&b, unit));
    STATUS(RUMPSTEAK_NOT_NOW, rumpsteak_send_nat(&a, unit, 1));
    STATUS(RUMPSTEAK_NOT_NOW, rumpsteak_send_int(&a, natural, 1));
    STATUS(RUMPSTEAK_NOT_NOW, rumpsteak_send_nat(&a, natural, (uint64_t)1 << 63));
    STATUS(RUMPSTEAK_NOT_NOW, rumpsteak_send_nat(&a, first, 1));
    STATUS(RUMPSTEAK_NOT_NOW, rumpsteak_send_unit(&a, 8));
    STATUS(RUMPSTEAK_NOT_NOW, rumpsteak_send_unit(&a, 65536 + unit));
    STATUS(RUMPSTEAK_NOT_NOW, rumpsteak_send_unit(&a, UINT32_MAX));
    STATUS(RUMPSTEAK_NOT_NOW, rumpsteak_bytes(&b, out, sizeof out, &length));

    FINE(rumpsteak_send_unit(&a, unit));
    STATUS(RUMPSTEAK_FULL, rumpsteak_send_unit(&a, unit));
    STATUS(RUMPSTEAK_FULL, rumpsteak_send_bytes(&a, octets, at("abc"), 3));
    FINE(rumpsteak_receive(&b, &message));
    IS(message.label == unit && message.kind == RUMPSTEAK_UNIT && message.natural == 0 && message.whole == 0 && message.length == 0);
    STATUS(RUMPSTEAK_EMPTY, rumpsteak_receive(&b, &message));
    FINE(rumpsteak_send_bool(&a, flag, true));
    FINE(rumpsteak_receive(&b, &message));
    IS(message.label == flag && message.kind == RUMPSTEAK_BOOL && message.natural == 1);
    FINE(rumpsteak_send_nat(&a, natural, ((uint64_t)1 << 63) - 1));
    FINE(rumpsteak_receive(&b, &message));
    IS(message.label == natural && message.kind == RUMPSTEAK_NAT && message.natural == ((uint64_t)1 << 63) - 1);
    FINE(rumpsteak_send_int(&a, whole, INT64_MIN));
    FINE(rumpsteak_receive(&b, &message));
    IS(message.label == whole && message.kind == RUMPSTEAK_INT && message.whole == INT64_MIN);
    FINE(rumpsteak_send_nat(&a, whole, 5));
    FINE(rumpsteak_receive(&b, &message));
    IS(message.label == whole && message.kind == RUMPSTEAK_NAT && message.natural == 5);

    FINE(rumpsteak_send_bytes(&a, octets, at("a\0c"), 3));
    FINE(rumpsteak_receive(&b, &message));
    IS(message.label == octets && message.kind == RUMPSTEAK_BYTES && message.length == 3);
    STATUS(RUMPSTEAK_TOO_SMALL, rumpsteak_bytes(&b, out, 2, &length));
    IS(length == 3);
    FINE(rumpsteak_bytes(&b, out, 3, &length));
    IS(length == 3 && memcmp(out, "a\0c", 3) == 0);
    STATUS(RUMPSTEAK_NOT_NOW, rumpsteak_list(&b, got, 4, &length));
    STATUS(RUMPSTEAK_EMPTY, rumpsteak_receive(&b, &message));
    FINE(rumpsteak_bytes(&b, out, 3, &length)); /* an empty queue takes nothing away */
    FINE(rumpsteak_send_bytes(&a, octets, at(""), 0));
    FINE(rumpsteak_receive(&b, &message));
    FINE(rumpsteak_bytes(&b, out, 0, &length));
    IS(message.length == 0 && length == 0);
    FINE(rumpsteak_send_list(&a, list, numbers, 4));
    FINE(rumpsteak_receive(&b, &message));
    IS(message.label == list && message.kind == RUMPSTEAK_LIST && message.length == 4);
    STATUS(RUMPSTEAK_TOO_SMALL, rumpsteak_list(&b, got, 3, &length));
    FINE(rumpsteak_list(&b, got, 4, &length));
    IS(length == 4 && memcmp(got, numbers, sizeof got) == 0);
    STATUS(RUMPSTEAK_NOT_NOW, rumpsteak_bytes(&b, out, sizeof out, &length));

    FINE(rumpsteak_send_unit(&a, last));
    FINE(rumpsteak_receive(&b, &message));
    IS(message.label == last);
    FINE(rumpsteak_state(&b, &direction, &peer, &arms));
    IS(direction == RUMPSTEAK_ENDED && peer == 0 && arms == 0);
    STATUS(RUMPSTEAK_NOT_NOW, rumpsteak_send_unit(&a, unit));
    FINE(rumpsteak_leave(&a));
    FINE(rumpsteak_leave(&b));
    FINE(rumpsteak_leave(&c));
    STATUS(RUMPSTEAK_CLOSED, rumpsteak_leave(&c));
}

/* Who is given up in mid-session: what it sent still comes, and then it is gone, for that role alone which receives from it. */
static void gone(void) {
    rumpsteak_session session = {0};
    rumpsteak_text_handle refusal = {0};
    rumpsteak_endpoint ends[4] = {{0}, {0}, {0}, {0}};
    rumpsteak_message message;
    const char plain[] = "roles A, B protocol rec X. A->B:x(). B->A:x(). X";
    const char ring[] = "roles A, B, C, D protocol rec X. A->B:x(). B->C:x(). C->D:x(). D->A:x(). X "
                        "machine A: rec X. B!x(). D?x(). X machine B: rec X. C!x(). A?x(). X "
                        "machine C: rec X. D!x(). B?x(). X machine D: rec X. A!x(). C?x(). X";
    for (uint32_t leaver = 0; leaver < 4; leaver++) {
        FINE(open_text(ring, 3, &session, &refusal));
        for (uint32_t role = 0; role < 4; role++)
            FINE(rumpsteak_endpoint_of(&session, role, &ends[role]));
        FINE(rumpsteak_close(&session));
        for (uint32_t role = 0; role < 4; role++)
            FINE(rumpsteak_send_unit(&ends[role], 0));
        FINE(rumpsteak_leave(&ends[leaver]));
        for (uint32_t role = 0; role < 4; role++)
            if (role != leaver) {
                FINE(rumpsteak_receive(&ends[role], &message));
                FINE(rumpsteak_send_unit(&ends[role], 0));
            }
        for (uint32_t role = 0; role < 4; role++)
            if (role != leaver && role != (leaver + 1) % 4) {
                FINE(rumpsteak_receive(&ends[role], &message));
                FINE(rumpsteak_send_unit(&ends[role], 0));
            }
        STATUS(RUMPSTEAK_GONE, rumpsteak_receive(&ends[(leaver + 1) % 4], &message));
        STATUS(RUMPSTEAK_GONE, rumpsteak_receive(&ends[(leaver + 1) % 4], &message));
        STATUS(RUMPSTEAK_EMPTY, rumpsteak_receive(&ends[(leaver + 2) % 4], &message));
        for (uint32_t role = 0; role < 4; role++)
            if (role != leaver)
                FINE(rumpsteak_leave(&ends[role]));
    }
    /* Endpoints that were never handed out are given up with the session's handle. */
    FINE(open_text(plain, 0, &session, &refusal));
    FINE(rumpsteak_endpoint_of(&session, 1, &ends[1]));
    STATUS(RUMPSTEAK_EMPTY, rumpsteak_receive(&ends[1], &message));
    FINE(rumpsteak_close(&session));
    STATUS(RUMPSTEAK_GONE, rumpsteak_receive(&ends[1], &message));
    /* A handle that is opened again gives up what was open. */
    FINE(open_text(plain, 0, &session, &refusal));
    FINE(rumpsteak_endpoint_of(&session, 1, &ends[1]));
    FINE(open_text(plain, 0, &session, &refusal));
    STATUS(RUMPSTEAK_GONE, rumpsteak_receive(&ends[1], &message));
    FINE(rumpsteak_endpoint_of(&session, 1, &ends[1]));
    STATUS(RUMPSTEAK_EMPTY, rumpsteak_receive(&ends[1], &message));
    FINE(rumpsteak_leave(&ends[1]));
    FINE(rumpsteak_close(&session));
}

static void monitors(void) {
    rumpsteak_monitor monitor = {0};
    rumpsteak_text_handle refusal = {0};
    uint32_t direction, peer, arms, label, kind, ready, copy, stop, number;
    uint64_t acts = 99, room;
    uint8_t out[16];
    size_t length;
    const char film[] = "roles C, S, T protocol rec X. S->C:ready(). C->S{copy(nat). S->T:copy(). X, stop(). S->T:stop(). end}";
    STATUS(RUMPSTEAK_REFUSED, rumpsteak_monitor_open(at(wrong), strlen(wrong), at("A"), 1, &monitor, &refusal));
    FINE(rumpsteak_text_close(&refusal));
    STATUS(RUMPSTEAK_UNKNOWN, rumpsteak_monitor_open(at(film), strlen(film), at("Q"), 1, &monitor, &refusal));
    IS(!monitor.at && !refusal.at);
    FINE(rumpsteak_monitor_open(at(film), strlen(film), at("S"), 1, &monitor, &refusal));
    FINE(rumpsteak_monitor_room(&monitor, &room));
    IS(room == 3);
    FINE(rumpsteak_monitor_label(&monitor, at("ready"), 5, &ready));
    FINE(rumpsteak_monitor_label(&monitor, at("copy"), 4, &copy));
    FINE(rumpsteak_monitor_label(&monitor, at("stop"), 4, &stop));
    FINE(rumpsteak_monitor_role(&monitor, at("T"), 1, &number));
    IS(number == 2);
    FINE(rumpsteak_monitor_role_name(&monitor, 2, out, sizeof out, &length));
    IS(length == 1 && out[0] == 'T');
    FINE(rumpsteak_monitor_label_name(&monitor, stop, out, sizeof out, &length));
    IS(length == 4 && memcmp(out, "stop", 4) == 0);
    STATUS(RUMPSTEAK_UNKNOWN, rumpsteak_monitor_label_name(&monitor, 3, out, sizeof out, &length));
    FINE(rumpsteak_monitor_state(&monitor, &direction, &peer, &arms));
    IS(direction == RUMPSTEAK_SENDS && peer == 0 && arms == 1);
    FINE(rumpsteak_monitor_arm(&monitor, 0, &label, &kind));
    IS(label == ready && kind == RUMPSTEAK_UNIT);
    STATUS(RUMPSTEAK_UNKNOWN, rumpsteak_monitor_arm(&monitor, 1, &label, &kind));

    STATUS(RUMPSTEAK_ANOTHER_PEER, rumpsteak_monitor_sent(&monitor, 2, stop, RUMPSTEAK_UNIT, 0));
    STATUS(RUMPSTEAK_STATE_SENDS, rumpsteak_monitor_received(&monitor, 0, copy, RUMPSTEAK_NAT, 1));
    STATUS(RUMPSTEAK_NO_SUCH_LABEL, rumpsteak_monitor_sent(&monitor, 0, copy, RUMPSTEAK_NAT, 1));
    STATUS(RUMPSTEAK_ANOTHER_SORT, rumpsteak_monitor_sent(&monitor, 0, ready, RUMPSTEAK_NAT, 1));
    STATUS(RUMPSTEAK_UNKNOWN, rumpsteak_monitor_sent(&monitor, UINT32_MAX, ready, RUMPSTEAK_UNIT, 0));
    STATUS(RUMPSTEAK_UNKNOWN, rumpsteak_monitor_sent(&monitor, 0, UINT32_MAX, RUMPSTEAK_UNIT, 0));
    STATUS(RUMPSTEAK_UNKNOWN, rumpsteak_monitor_sent(&monitor, 0, ready, 6, 0));
    FINE(rumpsteak_monitor_acts(&monitor, &acts));
    IS(acts == 0);
    FINE(rumpsteak_monitor_may_send(&monitor, 0, ready, RUMPSTEAK_UNIT, 0));
    FINE(rumpsteak_monitor_may_send(&monitor, 0, ready, RUMPSTEAK_UNIT, 0));
    FINE(rumpsteak_monitor_sent(&monitor, 0, ready, RUMPSTEAK_UNIT, 0));
    STATUS(RUMPSTEAK_STATE_RECEIVES, rumpsteak_monitor_may_send(&monitor, 0, ready, RUMPSTEAK_UNIT, 0));
    STATUS(RUMPSTEAK_ANOTHER_SORT, rumpsteak_monitor_received(&monitor, 0, copy, RUMPSTEAK_NAT, (uint64_t)1 << 63));
    FINE(rumpsteak_monitor_received(&monitor, 0, copy, RUMPSTEAK_NAT, 7));
    FINE(rumpsteak_monitor_sent(&monitor, 2, copy, RUMPSTEAK_UNIT, 0));
    FINE(rumpsteak_monitor_sent(&monitor, 0, ready, RUMPSTEAK_UNIT, 0));
    FINE(rumpsteak_monitor_received(&monitor, 0, stop, RUMPSTEAK_UNIT, 0));
    FINE(rumpsteak_monitor_sent(&monitor, 2, stop, RUMPSTEAK_UNIT, 0));
    FINE(rumpsteak_monitor_state(&monitor, &direction, &peer, &arms));
    IS(direction == RUMPSTEAK_ENDED && peer == 0 && arms == 0);
    STATUS(RUMPSTEAK_HAS_ENDED, rumpsteak_monitor_may_send(&monitor, 0, ready, RUMPSTEAK_UNIT, 0));
    FINE(rumpsteak_monitor_acts(&monitor, &acts));
    IS(acts == 6);
    FINE(rumpsteak_monitor_close(&monitor));
    STATUS(RUMPSTEAK_CLOSED, rumpsteak_monitor_close(&monitor));
}

int main(void) {
    closed();
    answers();
    names();
    certificates();
    statuses();
    acts();
    gone();
    monitors();
    printf("%d statuses and values are as the header says\n", checks);
    return 0;
}
