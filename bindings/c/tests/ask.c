/* Prints what the program `rumpsteak` prints to the words of this program and the text of standard input, and ends with its status. The
 * library answers on a thread with a stack of 256 KiB, which the header says is enough. */
#include "rumpsteak.h"

#include <pthread.h>
#include <stdio.h>
#include <stdlib.h>
#include <string.h>

static uint8_t words[1 << 16], text[1 << 21];
static size_t words_length, text_length;
static rumpsteak_text_handle answer;
static uint32_t status;

static void *ask(void *unused) {
    status = rumpsteak_ask(words, words_length, text, text_length, &answer);
    return unused;
}

int main(int count, char **arguments) {
    for (int k = 1; k < count; k++) {
        size_t length = strlen(arguments[k]);
        if (words_length + length + 1 > sizeof words)
            return 2;
        if (k > 1)
            words[words_length++] = 0;
        memcpy(words + words_length, arguments[k], length);
        words_length += length;
    }
    text_length = fread(text, 1, sizeof text, stdin);

    pthread_t thread;
    pthread_attr_t small;
    if (pthread_attr_init(&small) || pthread_attr_setstacksize(&small, 256 << 10) || pthread_create(&thread, &small, ask, NULL))
        return 70;
    pthread_join(thread, NULL);
    pthread_attr_destroy(&small);

    size_t length = 0;
    if (rumpsteak_text(&answer, (uint8_t *)"", 0, &length) != RUMPSTEAK_CLOSED) {
        uint8_t *bytes = malloc(length + 1);
        if (!bytes || rumpsteak_text(&answer, bytes, length, &length) != RUMPSTEAK_FINE)
            return 71;
        fwrite(bytes, 1, length, stdout);
        free(bytes);
        rumpsteak_text_close(&answer);
    }
    return (int)status;
}
