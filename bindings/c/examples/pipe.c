/* Two processes with a pipe in each direction between them. Each has a monitor of its role, and asks it before it writes a message and
 * after it has read one. On the pipe a message is its label's number and its value, four and eight bytes.
 *
 *     gcc -I<folder of rumpsteak.h> pipe.c <folder of the library>/librumpsteak.a -lpthread -o pipe
 *     ./pipe */
#include "rumpsteak.h"

#include <stdio.h>
#include <stdlib.h>
#include <string.h>
#include <sys/wait.h>
#include <unistd.h>

static const char text[] =
    "roles Client, Server\n"
    "protocol rec X. Client->Server{square(nat). Server->Client:result(nat). X, bye(). end}\n";

enum { CLIENT, SERVER };

static void must(int holds, const char *what) {
    if (!holds) {
        fprintf(stderr, "%s\n", what);
        exit(1);
    }
}

static rumpsteak_monitor open_monitor(const char *role) {
    rumpsteak_monitor monitor = {0};
    rumpsteak_text_handle refusal = {0};
    must(rumpsteak_monitor_open((const uint8_t *)text, strlen(text), (const uint8_t *)role, strlen(role), &monitor, &refusal) ==
             RUMPSTEAK_FINE,
         "the protocol is refused");
    return monitor;
}

static uint32_t label(rumpsteak_monitor *monitor, const char *name) {
    uint32_t number;
    must(rumpsteak_monitor_label(monitor, (const uint8_t *)name, strlen(name), &number) == RUMPSTEAK_FINE, "no such label");
    return number;
}

/* Writes a message, if the monitor lets it through. */
static void put(rumpsteak_monitor *monitor, int pipe, uint32_t peer, uint32_t label, uint32_t kind, uint64_t value) {
    must(rumpsteak_monitor_sent(monitor, peer, label, kind, value) == RUMPSTEAK_FINE, "the machine doesn't send this now");
    must(write(pipe, &label, sizeof label) == sizeof label && write(pipe, &value, sizeof value) == sizeof value, "the pipe is broken");
}

/* Reads as many bytes, which may come in parts. */
static void get_all(int pipe, void *at, size_t length) {
    for (size_t got = 0; got < length;) {
        ssize_t more = read(pipe, (char *)at + got, length - got);
        must(more > 0, "the pipe is broken");
        got += (size_t)more;
    }
}

/* Reads a message. Its kind is that of the arm with its label. */
static uint32_t get(rumpsteak_monitor *monitor, int pipe, uint32_t *kind, uint64_t *value) {
    uint32_t direction, peer, arms, found, wanted;
    get_all(pipe, &found, sizeof found);
    get_all(pipe, value, sizeof *value);
    *kind = RUMPSTEAK_UNIT;
    must(rumpsteak_monitor_state(monitor, &direction, &peer, &arms) == RUMPSTEAK_FINE, "no state");
    for (uint32_t k = 0; rumpsteak_monitor_arm(monitor, k, &wanted, kind) == RUMPSTEAK_FINE && wanted != found; k++)
        ;
    must(rumpsteak_monitor_received(monitor, peer, found, *kind, *value) == RUMPSTEAK_FINE, "the machine doesn't receive this now");
    return found;
}

static void server(int from, int to) {
    rumpsteak_monitor monitor = open_monitor("Server");
    uint32_t bye = label(&monitor, "bye"), result = label(&monitor, "result"), kind;
    uint64_t value;
    while (get(&monitor, from, &kind, &value) != bye)
        put(&monitor, to, CLIENT, result, RUMPSTEAK_NAT, value * value);
    rumpsteak_monitor_close(&monitor);
}

static void client(int from, int to) {
    rumpsteak_monitor monitor = open_monitor("Client");
    uint32_t bye = label(&monitor, "bye"), square = label(&monitor, "square"), kind;
    uint64_t value = 7, acts;
    for (int turn = 0; turn < 3; turn++) {
        put(&monitor, to, SERVER, square, RUMPSTEAK_NAT, value);
        /* A second request now would be a fault of this program: the monitor doesn't let it through. */
        must(rumpsteak_monitor_may_send(&monitor, SERVER, square, RUMPSTEAK_NAT, value) == RUMPSTEAK_STATE_RECEIVES, "a fault is let through");
        get(&monitor, from, &kind, &value);
        printf("%llu\n", (unsigned long long)value);
    }
    put(&monitor, to, SERVER, bye, RUMPSTEAK_UNIT, 0);
    must(rumpsteak_monitor_acts(&monitor, &acts) == RUMPSTEAK_FINE && acts == 7, "acts were not counted");
    rumpsteak_monitor_close(&monitor);
}

int main(void) {
    int there[2], back[2], status = 0;
    must(pipe(there) == 0 && pipe(back) == 0, "no pipes");
    pid_t child = fork();
    must(child >= 0, "no process");
    if (child == 0) {
        server(there[0], back[1]);
        return 0;
    }
    client(back[0], there[1]);
    must(waitpid(child, &status, 0) == child && status == 0, "the server failed");
    return 0;
}
