/* The README's example for hosts in C: a text is read and its brackets are joined. */
#include <sarridok.h>
#include <stdio.h>

static int refused(uint64_t answer) {
    const char *why = sarridok_reason_text(sarridok_refusal_reason(answer)); /* of an escape; else there is nothing to add */
    printf("%s%s%s\n", sarridok_refusal_text(sarridok_refusal_number(answer)), *why ? ": " : "", why);
    return 1;
}

int main(void) {
    static const uint8_t text[] = "Lock(id: 7)";
    enum { LEN = sizeof text - 1, ROOM = SARRIDOK_TAPE_FOR(LEN) };
    uint32_t tape[ROOM], links[LEN];
    uint64_t answer = sarridok_read(text, LEN, tape, ROOM);
    if (sarridok_is_refused(answer)) return refused(answer);
    size_t count = sarridok_count(answer);
    answer = sarridok_walk(text, LEN, tape, ROOM, count, SARRIDOK_MAX_DEPTH, links, LEN);
    if (sarridok_is_refused(answer)) return refused(answer);
    printf("%zu entries\n", count); /* tape: SARRIDOK_ENTRY numbers an entry; links[i]: the partner of bracket i */
}
