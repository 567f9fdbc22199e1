/* What bench/emulated counts: a text on standard input is read, and walked where it reads, as a host does it; with REPAIR it is repaired instead, as if the
   byte in its middle had been written anew, and with READ_ONLY nothing follows. */
#include "sarridok.h"

#include <stdio.h>

static uint8_t text[SARRIDOK_MAX_TEXT + 1];
static uint32_t tape[SARRIDOK_TAPE_FOR(SARRIDOK_MAX_TEXT)];

#if defined REPAIR
static uint64_t next(size_t len, size_t room, size_t count) {
    size_t middle = len / 2;
    uint64_t before, behind;
    return sarridok_repair(tape, room, count, len, middle, middle + 1, text, len, &before, &behind);
}
#elif defined READ_ONLY
static uint64_t next(size_t len, size_t room, size_t count) {
    (void)len, (void)room;
    return count;
}
#else
static uint32_t links[SARRIDOK_MAX_TEXT];

static uint64_t next(size_t len, size_t room, size_t count) {
    return sarridok_walk(text, len, tape, room, count, SARRIDOK_MAX_DEPTH, links, SARRIDOK_MAX_TEXT);
}
#endif

int main(void) {
    size_t len = fread(text, 1, sizeof text, stdin);
    size_t room = sizeof tape / sizeof *tape;
    uint64_t answer = sarridok_read(text, len, tape, room);
    if (!sarridok_is_refused(answer)) answer = next(len, room, sarridok_count(answer));
    return sarridok_is_refused(answer);
}
