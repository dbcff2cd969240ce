/* Opens the text of standard input, or says why it is refused: in the words of `explain`, with the lines and columns of the faults.
 *
 *     gcc -I<folder of rumpsteak.h> refused.c <folder of the library>/librumpsteak.a -lpthread -o refused
 *     ./refused < film.txt */
#include "rumpsteak.h"

#include <stdio.h>
#include <stdlib.h>

/* Prints a text that a call left, and frees it. */
static void print(rumpsteak_text_handle *answer, FILE *file) {
    size_t length = 0;
    rumpsteak_text(answer, (uint8_t *)"", 0, &length); /* how long it is */
    uint8_t *bytes = malloc(length + 1);
    if (bytes && rumpsteak_text(answer, bytes, length, &length) == RUMPSTEAK_FINE)
        fwrite(bytes, 1, length, file);
    free(bytes);
    rumpsteak_text_close(answer);
}

int main(void) {
    static uint8_t text[1 << 20];
    size_t length = fread(text, 1, sizeof text, stdin);
    rumpsteak_session session = {0};
    rumpsteak_text_handle answer = {0};
    uint64_t room = 0;

    uint32_t status = rumpsteak_open(text, length, 0, &session, &answer);
    if (status == RUMPSTEAK_FINE && rumpsteak_room(&session, &room) == RUMPSTEAK_FINE) {
        printf("accepted, room %llu\n", (unsigned long long)room);
        rumpsteak_close(&session);
        return 0;
    }
    print(&answer, stderr);
    return (int)status;
}
