/* Reads a RON file, walks it and prints its tree: example FILE. Integers are shown in decimal and strings decoded; what is refused, in words. */
#include "sarridok.h"

#include <inttypes.h>
#include <stdio.h>

static uint8_t text[SARRIDOK_MAX_TEXT + 1];
static uint8_t decoded[SARRIDOK_MAX_TEXT];
static uint32_t tape[SARRIDOK_TAPE_FOR(SARRIDOK_MAX_TEXT)];
static uint32_t links[SARRIDOK_MAX_TEXT];
static size_t text_len;
static size_t count;

static uint32_t kind_of(size_t i) { return sarridok_entry(tape, i).kind; }

static int refused_at(const char *call, uint64_t answer, uint32_t place) {
    uint32_t number = sarridok_refusal_number(answer);
    const char *why = sarridok_reason_text(sarridok_refusal_reason(answer));
    fprintf(stderr, "%s: refused %" PRIu32 " at %" PRIu32 ": %s%s%s\n", call, number, place, sarridok_refusal_text(number), *why ? ": " : "", why);
    return 1;
}

/* The refusals of a walk name an entry: its place is shown, or the end of the text where all entries were passed. */
static int refused_walk(uint64_t answer) {
    uint32_t entry = sarridok_refusal_place(answer);
    return refused_at("walk", answer, entry < count ? sarridok_entry(tape, entry).start : (uint32_t)text_len);
}

static void print_part(struct sarridok_entry e) { fwrite(text + e.start, 1, e.end - e.start, stdout); }

static void print_integer(struct sarridok_entry e) {
    uint64_t magnitude;
    uint64_t answer = sarridok_integer(text, text_len, e.start, e.detail, &magnitude);
    if (sarridok_is_refused(answer))
        print_part(e);
    else
        printf("%s%" PRIu64, sarridok_integer_minus(answer) ? "-" : "", magnitude);
}

static void print_string(size_t i) {
    uint64_t answer = sarridok_decoded(text, text_len, tape, SARRIDOK_ENTRY * count, count, i, decoded, sizeof decoded);
    if (sarridok_is_refused(answer)) {
        print_part(sarridok_entry(tape, i));
        return;
    }
    putchar('"');
    fwrite(decoded, 1, sarridok_count(answer), stdout);
    putchar('"');
}

/* What an entry says. */
static void print_entry(size_t i) {
    struct sarridok_entry e = sarridok_entry(tape, i);
    if (e.kind == SARRIDOK_KIND_INTEGER)
        print_integer(e);
    else if (e.kind == SARRIDOK_KIND_STRING)
        print_string(i);
    else
        print_part(e);
}

static void indent(int depth) { printf("%*s", 2 * depth, ""); }

static void print_values(size_t from, size_t to, int depth);

/* Prints the value that begins at an entry; answers the entry behind it. The walk's limit bounds the recursion. */
static size_t print_value(size_t i, int depth) {
    print_entry(i);
    if ((kind_of(i) == SARRIDOK_KIND_NAME || kind_of(i) == SARRIDOK_KIND_RAW_NAME) && i + 1 < count && kind_of(i + 1) == SARRIDOK_KIND_OPEN_PAREN)
        print_entry(++i);
    if (links[i] == i)
        return i + 1;
    putchar('\n');
    print_values(i + 1, links[i], depth + 1);
    indent(depth);
    print_entry(links[i]);
    return links[i] + 1;
}

/* A line for each value or field between two entries. */
static void print_values(size_t from, size_t to, int depth) {
    while (from < to) {
        if (kind_of(from) == SARRIDOK_KIND_COMMA) {
            from++;
            continue;
        }
        indent(depth);
        from = print_value(from, depth);
        if (from < to && kind_of(from) == SARRIDOK_KIND_COLON) {
            printf(": ");
            from = print_value(from + 1, depth);
        }
        putchar('\n');
    }
}

int main(int argc, char **argv) {
    if (argc != 2) {
        fprintf(stderr, "usage: example FILE\n");
        return 2;
    }
    if (sarridok_version() != SARRIDOK_VERSION) {
        fprintf(stderr, "example: the archive's version is %" PRIu32 ", the header's %d\n", sarridok_version(), SARRIDOK_VERSION);
        return 2;
    }
    FILE *file = fopen(argv[1], "rb");
    if (file == NULL) {
        perror(argv[1]);
        return 2;
    }
    text_len = fread(text, 1, sizeof text, file);
    int bad = ferror(file);
    fclose(file);
    if (bad) {
        perror(argv[1]);
        return 2;
    }
    uint64_t read = sarridok_read(text, text_len, tape, sizeof tape / sizeof *tape);
    if (sarridok_is_refused(read))
        return refused_at("read", read, sarridok_refusal_place(read));
    count = sarridok_count(read);
    uint64_t walked = sarridok_walk(text, text_len, tape, SARRIDOK_ENTRY * count, count, SARRIDOK_MAX_DEPTH, links, count);
    if (sarridok_is_refused(walked))
        return refused_walk(walked);
    print_values(0, count, 0);
    return 0;
}
