/*
 * Prints the status of a small build as its steps start and finish:
 * cc -I ../../include status.c ../../crates/kestrenyo/out/libkestrenyo.a -o status && ./status
 */
#include "kestrenyo.h"

#include <stdio.h>
#include <string.h>

static const char FORMAT[] = "[%s/%t %p%%] %r running, %f finished, %o/s, now %c/s, %e s";

static const struct {
    int finishes;
    uint64_t milliseconds;
} EVENTS[] = {{0, 0}, {0, 20}, {1, 500}, {0, 510}, {1, 900}, {1, 1300}};

int main(void)
{
    static uint8_t buffer[KESTRENYO_TEXT];
    struct kestrenyo_status status = kestrenyo_status(3, 2);
    for (size_t i = 0; i < sizeof EVENTS / sizeof *EVENTS; i++) {
        uint64_t milliseconds = EVENTS[i].milliseconds;
        status = EVENTS[i].finishes ? kestrenyo_status_finished(status, milliseconds)
                                    : kestrenyo_status_started(status, milliseconds);
        struct kestrenyo_said said = kestrenyo_status_line(status, (const uint8_t *)FORMAT, strlen(FORMAT), buffer, sizeof buffer);
        if (said.number != 0)
            return 1;
        printf("%.*s\n", (int)said.value, (const char *)buffer);
    }
    return 0;
}
