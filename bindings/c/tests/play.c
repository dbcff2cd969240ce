/* Plays sessions, each role by a thread of its own: play CAPACITY LIMIT FILE ..
 *
 * For each file it prints the file's name, the status with which its text was opened, and what each role did. A role chooses among the arms
 * of its state, and makes values, by numbers drawn from a seed. When one has made so many acts, all stop where they next would have to
 * wait. */
#include "rumpsteak.h"

#include <inttypes.h>
#include <pthread.h>
#include <sched.h>
#include <stdarg.h>
#include <stdatomic.h>
#include <stdio.h>
#include <stdlib.h>
#include <string.h>
#include <unistd.h>

#define MOST_ROLES 16
#define MOST_LABELS 256
#define MOST_LENGTH 5

struct player {
    rumpsteak_endpoint end;
    uint64_t seed;
    char *acts;
    size_t length, room;
};

static char role_names[MOST_ROLES][65], label_names[MOST_LABELS][65];
static long limit;
static atomic_int stopping;

static void must(int line, int holds) {
    if (!holds) {
        fprintf(stderr, "play.c:%d\n", line);
        exit(1);
    }
}
#define MUST(holds) must(__LINE__, (holds))

static uint64_t draw(struct player *player) {
    player->seed = player->seed * 6364136223846793005u + 1442695040888963407u;
    return player->seed >> 33;
}

static void note(struct player *player, const char *form, ...) {
    va_list words;
    if (player->room - player->length < 300)
        MUST((player->acts = realloc(player->acts, player->room = 2 * player->room + 1000)) != NULL);
    va_start(words, form);
    player->length += (size_t)vsnprintf(player->acts + player->length, player->room - player->length, form, words);
    va_end(words);
}

static void note_bytes(struct player *player, const uint8_t *bytes, size_t length) {
    for (size_t k = 0; k < length; k++)
        note(player, "%02x", bytes[k]);
}

static void note_list(struct player *player, const int64_t *numbers, size_t length) {
    for (size_t k = 0; k < length; k++)
        note(player, "%s%" PRId64, k ? "," : "", numbers[k]);
}

/* Whether the act was made: false where all stop. */
static int is_made(uint32_t status) {
    MUST(status == RUMPSTEAK_FINE || status == RUMPSTEAK_FULL || status == RUMPSTEAK_EMPTY || status == RUMPSTEAK_GONE);
    MUST(status != RUMPSTEAK_GONE || stopping);
    return status == RUMPSTEAK_FINE;
}

static int sends(struct player *player, uint32_t peer, uint32_t arms) {
    uint32_t label = 0, kind = 0, status;
    uint8_t bytes[MOST_LENGTH];
    int64_t numbers[MOST_LENGTH];
    uint64_t natural = draw(player);
    int64_t whole = (int64_t)draw(player) - (1 << 30);
    size_t length = draw(player) % (MOST_LENGTH + 1);
    for (size_t k = 0; k < MOST_LENGTH; k++) {
        bytes[k] = (uint8_t)draw(player);
        numbers[k] = (int64_t)draw(player) - (1 << 30);
    }
    MUST(rumpsteak_arm(&player->end, (uint32_t)(draw(player) % arms), &label, &kind) == RUMPSTEAK_FINE);
    for (;;) {
        switch (kind) {
        case RUMPSTEAK_UNIT: status = rumpsteak_send_unit(&player->end, label); break;
        case RUMPSTEAK_BOOL: status = rumpsteak_send_bool(&player->end, label, natural & 1); break;
        case RUMPSTEAK_NAT: status = rumpsteak_send_nat(&player->end, label, natural); break;
        case RUMPSTEAK_INT: status = rumpsteak_send_int(&player->end, label, whole); break;
        case RUMPSTEAK_BYTES: status = rumpsteak_send_bytes(&player->end, label, bytes, length); break;
        default: status = rumpsteak_send_list(&player->end, label, numbers, length); break;
        }
        if (is_made(status))
            break;
        if (stopping)
            return 0;
        sched_yield();
    }
    note(player, " %s!%s(", role_names[peer], label_names[label]);
    switch (kind) {
    case RUMPSTEAK_UNIT: break;
    case RUMPSTEAK_BOOL: note(player, natural & 1 ? "true" : "false"); break;
    case RUMPSTEAK_NAT: note(player, "%" PRIu64, natural); break;
    case RUMPSTEAK_INT: note(player, "%" PRId64, whole); break;
    case RUMPSTEAK_BYTES: note_bytes(player, bytes, length); break;
    default: note_list(player, numbers, length); break;
    }
    note(player, ")");
    return 1;
}

static int receives(struct player *player, uint32_t peer) {
    rumpsteak_message message;
    uint8_t bytes[MOST_LENGTH];
    int64_t numbers[MOST_LENGTH];
    size_t length = 0;
    while (!is_made(rumpsteak_receive(&player->end, &message))) {
        if (stopping)
            return 0;
        sched_yield();
    }
    note(player, " %s?%s(", role_names[peer], label_names[message.label]);
    switch (message.kind) {
    case RUMPSTEAK_UNIT: break;
    case RUMPSTEAK_BOOL: note(player, message.natural ? "true" : "false"); break;
    case RUMPSTEAK_NAT: note(player, "%" PRIu64, message.natural); break;
    case RUMPSTEAK_INT: note(player, "%" PRId64, message.whole); break;
    case RUMPSTEAK_BYTES:
        MUST(rumpsteak_bytes(&player->end, bytes, sizeof bytes, &length) == RUMPSTEAK_FINE && length == message.length);
        note_bytes(player, bytes, length);
        break;
    default:
        MUST(rumpsteak_list(&player->end, numbers, MOST_LENGTH, &length) == RUMPSTEAK_FINE && length == message.length);
        note_list(player, numbers, length);
        break;
    }
    note(player, ")");
    return 1;
}

static void *play(void *at) {
    struct player *player = at;
    for (long acts = 0;; acts++) {
        uint32_t direction, peer, arms;
        MUST(rumpsteak_state(&player->end, &direction, &peer, &arms) == RUMPSTEAK_FINE);
        if (direction == RUMPSTEAK_ENDED)
            break;
        if (acts == limit)
            stopping = 1;
        if (acts == limit || !(direction == RUMPSTEAK_SENDS ? sends(player, peer, arms) : receives(player, peer)))
            break;
    }
    /* Whether it has ended or not, the role is given up. What it sent can still be received. */
    MUST(rumpsteak_leave(&player->end) == RUMPSTEAK_FINE);
    return NULL;
}

static uint32_t play_text(const uint8_t *text, size_t length, uint16_t capacity, uint64_t seed) {
    static struct player players[MOST_ROLES];
    rumpsteak_session session = {0};
    rumpsteak_text_handle refusal = {0};
    pthread_t threads[MOST_ROLES];
    size_t written;
    uint32_t roles = 0, labels = 0, status = rumpsteak_open(text, length, capacity, &session, &refusal);
    if (status != RUMPSTEAK_FINE) {
        MUST(rumpsteak_text_close(&refusal) == RUMPSTEAK_FINE);
        return status;
    }
    while (rumpsteak_role_name(&session, roles, (uint8_t *)role_names[roles], 64, &written) == RUMPSTEAK_FINE)
        role_names[roles++][written] = 0;
    while (labels < MOST_LABELS && rumpsteak_label_name(&session, labels, (uint8_t *)label_names[labels], 64, &written) == RUMPSTEAK_FINE)
        label_names[labels++][written] = 0;
    stopping = 0;
    for (uint32_t role = 0; role < roles; role++) {
        players[role] = (struct player){.seed = seed * 97 + role};
        MUST(rumpsteak_endpoint_of(&session, role, &players[role].end) == RUMPSTEAK_FINE);
    }
    MUST(rumpsteak_close(&session) == RUMPSTEAK_FINE);
    for (uint32_t role = 0; role < roles; role++)
        MUST(pthread_create(&threads[role], NULL, play, &players[role]) == 0);
    for (uint32_t role = 0; role < roles; role++)
        MUST(pthread_join(threads[role], NULL) == 0);
    for (uint32_t role = 0; role < roles; role++) {
        printf("%s:%.*s\n", role_names[role], (int)players[role].length, players[role].length ? players[role].acts : "");
        free(players[role].acts);
    }
    return RUMPSTEAK_FINE;
}

int main(int count, char **words) {
    static uint8_t text[1 << 20];
    MUST(count > 3);
    limit = atol(words[2]);
    for (int k = 3; k < count; k++) {
        FILE *file = fopen(words[k], "rb");
        MUST(file != NULL);
        size_t length = fread(text, 1, sizeof text, file);
        fclose(file);
        printf("%s\n", words[k]);
        alarm(60); /* a session that waits for ever ends the program */
        printf("status %u\n", play_text(text, length, (uint16_t)atoi(words[1]), (uint64_t)k));
    }
    return 0;
}
