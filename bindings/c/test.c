/* Calls every function of the header, on a text and on nothing at all: NULL wherever a length is 0. Prints what does not hold; status 0 if all does. C11 and C++. */
#include "sarridok.h"

#include <stdio.h>
#include <string.h>

static int wrong = 0;

#define HOLDS(what)                                                   \
    do {                                                              \
        if (!(what)) {                                                \
            fprintf(stderr, "test.c:%d: not so: %s\n", __LINE__, #what); \
            wrong = 1;                                                \
        }                                                             \
    } while (0)

/* Whether an answer is this refusal, for this reason. */
static int refused_for(uint64_t answer, uint32_t number, uint32_t reason, uint32_t place) {
    return sarridok_is_refused(answer) && sarridok_refusal_number(answer) == number && sarridok_refusal_reason(answer) == reason &&
           sarridok_refusal_place(answer) == place;
}

/* The same where there is no reason, and of an escape, which has one. */
static int refused(uint64_t answer, uint32_t number, uint32_t place) { return refused_for(answer, number, 0, place); }

static int refused_escape(uint64_t answer, uint32_t reason, uint32_t place) {
    return refused_for(answer, SARRIDOK_REFUSED_INVALID_ESCAPE, reason, place);
}

#define TEXT "Lock(id: -7, name: \"Foxton\")"
#define EDIT "Lock(id: 512, name: \"Foxton\")"
#define COUNT 10                         /* the entries of both */
#define NUMBERS (SARRIDOK_ENTRY * COUNT) /* what their tapes hold */

static const uint8_t *bytes(const char *s) { return (const uint8_t *)s; }

static const uint8_t *const text = (const uint8_t *)TEXT;
static const size_t text_len = sizeof TEXT - 1;
static uint32_t tape[SARRIDOK_TAPE_FOR(sizeof EDIT)];
static const size_t tape_len = sizeof tape / sizeof *tape;

static void entry_is(size_t i, uint32_t kind, uint32_t start, uint32_t end, uint32_t detail, uint32_t gap) {
    struct sarridok_entry entry = sarridok_entry(tape, i);
    HOLDS(entry.kind == kind);
    HOLDS(entry.start == start);
    HOLDS(entry.end == end);
    HOLDS(entry.detail == detail);
    HOLDS(entry.gap == gap);
}

/* Where the gap of an entry stands: last of its numbers. */
static uint32_t *gap_of(size_t i) { return tape + SARRIDOK_ENTRY * (i + 1) - 1; }

static void test_read(void) {
    uint64_t answer = sarridok_read(text, text_len, tape, tape_len);
    HOLDS(!sarridok_is_refused(answer));
    HOLDS(sarridok_refusal_number(answer) == 0 && sarridok_refusal_reason(answer) == 0);
    HOLDS(sarridok_count(answer) == COUNT);
    entry_is(0, SARRIDOK_KIND_NAME, 0, 4, 0, 0);
    entry_is(1, SARRIDOK_KIND_OPEN_PAREN, 4, 5, 0, 0);
    entry_is(4, SARRIDOK_KIND_INTEGER, 9, 11, SARRIDOK_WIDTH_I8, 1);
    entry_is(8, SARRIDOK_KIND_STRING, 19, 27, 6, 1);
    entry_is(9, SARRIDOK_KIND_CLOSE_PAREN, 27, 28, 0, 0);
    HOLDS(refused(sarridok_read(bytes("[1 /x]"), 6, tape, tape_len), SARRIDOK_REFUSED_UNEXPECTED_CHAR, 5));
    HOLDS(refused(sarridok_read(text, text_len, tape, NUMBERS - 1), SARRIDOK_REFUSED_NO_ROOM, 0));
    HOLDS(refused(sarridok_read(text, text_len, NULL, 0), SARRIDOK_REFUSED_NO_ROOM, 0));
    HOLDS(sarridok_read(NULL, 0, NULL, 0) == 0);
    HOLDS(sarridok_read(NULL, 0, tape, tape_len) == 0);
    HOLDS(sarridok_read(bytes(" \n"), 2, NULL, 0) == 0);
    HOLDS(sarridok_count(sarridok_read(text, text_len, tape, NUMBERS)) == COUNT);
}

static void test_walk(void) {
    uint32_t links[COUNT];
    HOLDS(sarridok_walk(text, text_len, tape, NUMBERS, COUNT, 1, links, COUNT) == 0);
    HOLDS(links[0] == 0 && links[1] == 9 && links[8] == 8 && links[9] == 1);
    HOLDS(refused(sarridok_walk(text, text_len, tape, NUMBERS, COUNT, 0, links, COUNT), SARRIDOK_REFUSED_DEPTH_LIMIT_PASSED, 1));
    HOLDS(refused(sarridok_walk(text, text_len, tape, NUMBERS, COUNT, SARRIDOK_MAX_DEPTH + 1, links, COUNT), SARRIDOK_REFUSED_UNFIT, 0));
    HOLDS(refused(sarridok_walk(text, text_len, tape, NUMBERS, COUNT, 1, NULL, 0), SARRIDOK_REFUSED_NO_ROOM, 0));
    HOLDS(refused(sarridok_walk(text, text_len, NULL, 0, COUNT, 1, links, COUNT), SARRIDOK_REFUSED_NOT_IN_ORDER, 0));
    HOLDS(refused(sarridok_walk(NULL, 0, NULL, 0, 0, 1, NULL, 0), SARRIDOK_REFUSED_TAPE_ENDS_EARLY, 0));
}

/* What is asked before the tape: of the text 1 and 2, ahead of the limit's 28. Nothing is written. */
static void test_walk_front(void) {
    static const uint8_t longer[SARRIDOK_MAX_TEXT + 1] = {0};
    uint32_t links[COUNT] = {7, 7};
    HOLDS(refused(sarridok_walk(longer, sizeof longer, tape, NUMBERS, COUNT, 1, links, COUNT), SARRIDOK_REFUSED_TOO_LONG, 0));
    HOLDS(refused(sarridok_walk(longer, sizeof longer, NULL, 0, COUNT, SARRIDOK_MAX_DEPTH + 1, NULL, 0), SARRIDOK_REFUSED_TOO_LONG, 0));
    HOLDS(refused(sarridok_walk(bytes("Lock\xFF"), 5, tape, NUMBERS, COUNT, 1, links, COUNT), SARRIDOK_REFUSED_NOT_UTF8, 4));
    HOLDS(refused(sarridok_walk(bytes("\xFF"), 1, NULL, 0, COUNT, SARRIDOK_MAX_DEPTH + 1, NULL, 0), SARRIDOK_REFUSED_NOT_UTF8, 0));
    HOLDS(refused(sarridok_walk(NULL, 0, NULL, 0, COUNT, SARRIDOK_MAX_DEPTH + 1, NULL, 0), SARRIDOK_REFUSED_UNFIT, 0));
    HOLDS(links[0] == 7 && links[1] == 7);
}

/* Texts that read, and what their walk is refused with; of those accepted nothing. */
static const struct {
    const char *text;
    size_t limit;
    uint32_t number;
    uint32_t place;
} walks[] = {
    {"(a:1,a:2)", 1, SARRIDOK_REFUSED_REPEATED_FIELD, 5},
    {"(width:1,r#width:2)", 1, SARRIDOK_REFUSED_REPEATED_FIELD, 5},
    {"(r#width:1,width:2)", 1, SARRIDOK_REFUSED_REPEATED_FIELD, 5},
    {"Lock(a:1,b:2,a:3,b:4)", 1, SARRIDOK_REFUSED_REPEATED_FIELD, 10},
    {"(a:1,a)", 1, SARRIDOK_REFUSED_REPEATED_FIELD, 5}, /* told before the colon is asked for */
    {"(a:1,a", 1, SARRIDOK_REFUSED_REPEATED_FIELD, 5},
    {"(a:1,a:[)", 2, SARRIDOK_REFUSED_REPEATED_FIELD, 5},
    {"(a:1,a:[[]])", 1, SARRIDOK_REFUSED_REPEATED_FIELD, 5}, /* what stands first is told */
    {"(a:[],a:1)", 1, SARRIDOK_REFUSED_DEPTH_LIMIT_PASSED, 3},
    {"(a:1 a:2)", 1, SARRIDOK_REFUSED_NOT_ALLOWED_HERE, 4},
    {"(a:(b:1,b:2),a:3)", 2, SARRIDOK_REFUSED_REPEATED_FIELD, 8},
    {"(a:(b:1),a:3)", 2, SARRIDOK_REFUSED_REPEATED_FIELD, 9},
    {"(a:(a:1),b:2)", 2, 0, 0}, /* each ( ) by itself */
    {"[(a:1),(a:1)]", 2, 0, 0},
    {"a(a:1,b:2)", 1, 0, 0}, /* a struct's own name is no field */
    {"(a,a)", 1, 0, 0},      /* values and maps may repeat */
    {"[a,a]", 1, 0, 0},
    {"{a:1,a:2}", 1, 0, 0},
    {"(a:1,A:2,aa:3,r#aA:4)", 1, 0, 0},
};

/* Whether nothing was written into links that were all 7. */
static int untouched(const uint32_t *links, size_t len) {
    for (size_t i = 0; i < len; i++)
        if (links[i] != 7) return 0;
    return 1;
}

static void test_fields(void) {
    for (size_t i = 0; i < sizeof walks / sizeof *walks; i++) {
        const uint8_t *of = bytes(walks[i].text);
        size_t len = strlen(walks[i].text);
        uint32_t links[32];
        for (size_t k = 0; k < 32; k++) links[k] = 7;
        size_t count = sarridok_count(sarridok_read(of, len, tape, tape_len));
        uint64_t answer = sarridok_walk(of, len, tape, tape_len, count, walks[i].limit, links, 32);
        if (walks[i].number == 0) {
            HOLDS(answer == 0);
            HOLDS(untouched(links + count, 32 - count));
        } else {
            HOLDS(refused(answer, walks[i].number, walks[i].place));
            HOLDS(untouched(links, 32));
        }
    }
}

/* The same of any number of fields f00, f01, ..: the last is named as each before it in turn, and then as none. */
static void test_many_fields(size_t fields) {
    static uint8_t many[8 * 64];
    static uint32_t room[SARRIDOK_TAPE_FOR(8 * 64)], links[8 * 64];
    size_t len = 0;
    many[len++] = '(';
    for (size_t i = 0; i < fields; i++) {
        memcpy(many + len, "f00:1,", 6);
        many[len + 1] = (uint8_t)('0' + i / 10);
        many[len + 2] = (uint8_t)('0' + i % 10);
        len += 6;
    }
    many[len++] = ')';
    size_t count = sarridok_count(sarridok_read(many, len, room, sizeof room / sizeof *room));
    HOLDS(count == 4 * fields + 2);
    HOLDS(sarridok_walk(many, len, room, SARRIDOK_ENTRY * count, count, 1, links, count) == 0);
    for (size_t i = 0; i + 1 < fields; i++) {
        memcpy(many + len - 7, many + 1 + 6 * i, 3);
        uint64_t answer = sarridok_walk(many, len, room, SARRIDOK_ENTRY * count, count, 1, links, count);
        HOLDS(refused(answer, SARRIDOK_REFUSED_REPEATED_FIELD, (uint32_t)(4 * fields - 3)));
    }
}

/* A tape that is not the text's is answered by the bytes that stand where its names do. */
static void test_other_texts(void) {
    uint32_t links[16];
    size_t count = sarridok_count(sarridok_read(bytes("(ab:1,r#ac:2)"), 13, tape, tape_len));
    HOLDS(sarridok_walk(bytes("(ab:1,r#ac:2)"), 13, tape, tape_len, count, 1, links, 16) == 0);
    HOLDS(sarridok_walk(bytes("[xy 3;r#xz.4]"), 13, tape, tape_len, count, 1, links, 16) == 0);
    HOLDS(refused(sarridok_walk(bytes("(ac:1,r#ac:2)"), 13, tape, tape_len, count, 1, links, 16), SARRIDOK_REFUSED_REPEATED_FIELD, 5));
    /* An entry that ends behind the text is not in order, and no raw name that is not r# with more behind it. */
    HOLDS(refused(sarridok_walk(bytes("(ab:1,r#ac:2)"), 12, tape, tape_len, count, 1, links, 16), SARRIDOK_REFUSED_NOT_IN_ORDER, 0));
    HOLDS(refused(sarridok_walk(NULL, 0, tape, tape_len, count, 1, links, 16), SARRIDOK_REFUSED_NOT_IN_ORDER, 0));
    HOLDS(sarridok_walk(bytes("(ab:1,r#ac:2) "), 14, tape, tape_len, count, 1, links, 16) == 0);
    HOLDS(refused(sarridok_walk(bytes("(ab:1,r_ac:2)"), 13, tape, tape_len, count, 1, links, 16), SARRIDOK_REFUSED_NOT_IN_ORDER, 0));
    HOLDS(refused(sarridok_walk(bytes("(ab:1,b#ac:2)"), 13, tape, tape_len, count, 1, links, 16), SARRIDOK_REFUSED_NOT_IN_ORDER, 0));
    uint32_t made[SARRIDOK_ENTRY] = {SARRIDOK_KIND_RAW_NAME, 0, 2, 0, 0};
    HOLDS(refused(sarridok_walk(bytes("r#a"), 3, made, SARRIDOK_ENTRY, 1, 1, links, 16), SARRIDOK_REFUSED_NOT_IN_ORDER, 0));
    made[2] = 3;
    HOLDS(sarridok_walk(bytes("r#a"), 3, made, SARRIDOK_ENTRY, 1, 1, links, 16) == 0);
    /* What is cut off is told by the entry's kind: a name over r#a has all three bytes for its name. */
    const uint8_t *const twice = bytes("(r#a:1,r#a:2)");
    count = sarridok_count(sarridok_read(twice, 13, tape, tape_len));
    HOLDS(refused(sarridok_walk(twice, 13, tape, tape_len, count, 1, links, 16), SARRIDOK_REFUSED_REPEATED_FIELD, 5));
    tape[SARRIDOK_ENTRY] = SARRIDOK_KIND_NAME;
    HOLDS(sarridok_walk(twice, 13, tape, tape_len, count, 1, links, 16) == 0);
}

static void test_integer(void) {
    uint64_t magnitude = 1;
    uint64_t answer = sarridok_integer(text, text_len, 9, SARRIDOK_WIDTH_I64, &magnitude);
    HOLDS(!sarridok_is_refused(answer));
    HOLDS(sarridok_integer_minus(answer));
    HOLDS(sarridok_integer_end(answer) == 11);
    HOLDS(magnitude == 7);
    HOLDS(refused(sarridok_integer(text, text_len, 9, 9, &magnitude), SARRIDOK_REFUSED_UNFIT, 0));
    HOLDS(refused(sarridok_integer(NULL, 0, 0, SARRIDOK_WIDTH_U8, &magnitude), SARRIDOK_REFUSED_EOF, 0));
    HOLDS(magnitude == 7);
    HOLDS(!sarridok_integer_minus(sarridok_integer(bytes("5u8"), 3, 0, SARRIDOK_WIDTH_U8, &magnitude)));
    HOLDS(magnitude == 5);
}

/* Integers of every kind; its entries of odd numbers are the values. */
#define LISTED "[7, -5, 300, b'a', -0, -9223372036854775808, 0xFFu8, 1_000, 1.5]"

enum { ROOM = 12 }; /* of the magnitudes and codes below */
static uint64_t magnitudes[ROOM];
static uint8_t codes[ROOM];

/* Marks both, and asks for the integers of a list. */
static uint64_t listed(const char *of, size_t count, const uint32_t *items, size_t items_len, size_t room, size_t code_room) {
    for (size_t k = 0; k < ROOM; k++) {
        magnitudes[k] = 77;
        codes[k] = 77;
    }
    return sarridok_integers(bytes(of), strlen(of), tape, tape_len, count, items, items_len, magnitudes, room, codes, code_room);
}

/* Whether nothing was written from an item on. */
static int unwritten(size_t from) {
    for (size_t k = from; k < ROOM; k++)
        if (magnitudes[k] != 77 || codes[k] != 77) return 0;
    return 1;
}

/* A list in no order, with one entry twice: what is written, and that it is what single calls answer. */
static void test_integers(void) {
    static const uint32_t items[] = {11, 1, 3, 3, 5, 7, 9, 13, 15};
    static const uint64_t values[] = {9223372036854775808u, 7, 5, 5, 300, 97, 0, 255, 1000};
    static const uint8_t wanted[] = {20, 5, 17, 17, 6, 5, 1, 5, 6};
    enum { ITEMS = sizeof items / sizeof *items };
    size_t count = sarridok_count(sarridok_read(bytes(LISTED), strlen(LISTED), tape, tape_len));
    HOLDS(count == 19);
    HOLDS(listed(LISTED, count, items, ITEMS, ROOM, ITEMS) == 0);
    HOLDS(memcmp(magnitudes, values, sizeof values) == 0 && memcmp(codes, wanted, sizeof wanted) == 0);
    HOLDS(unwritten(ITEMS));
    for (size_t k = 0; k < ITEMS; k++) {
        uint64_t magnitude = 78;
        struct sarridok_entry e = sarridok_entry(tape, items[k]);
        uint64_t single = sarridok_integer(bytes(LISTED), strlen(LISTED), e.start, sarridok_code_width(codes[k]), &magnitude);
        HOLDS(magnitude == magnitudes[k] && sarridok_integer_minus(single) == sarridok_code_minus(codes[k]));
    }
    HOLDS(sarridok_code_width(20) == SARRIDOK_WIDTH_I64 && sarridok_code_minus(20) && !sarridok_code_minus(4));
    HOLDS(SARRIDOK_WIDTH_I64 + SARRIDOK_CODE_BELOW_ZERO == 20);
    /* As long as the list is room enough. One less of either is 22, and only where every item reads: what comes first is told. */
    HOLDS(listed(LISTED, count, items, ITEMS, ITEMS, ROOM) == 0);
    HOLDS(refused(listed(LISTED, count, items, ITEMS, ITEMS - 1, ITEMS), SARRIDOK_REFUSED_NO_ROOM, 0) && unwritten(0));
    HOLDS(refused(listed(LISTED, count, items, ITEMS, ITEMS, ITEMS - 1), SARRIDOK_REFUSED_NO_ROOM, 0) && unwritten(0));
    static const uint32_t wrong_last[] = {1, 3, 19};
    HOLDS(refused(listed(LISTED, count, wrong_last, 3, 0, 0), SARRIDOK_REFUSED_UNFIT, 2) && unwritten(0));
    static const uint32_t wrong_twice[] = {1, 2, 19};
    HOLDS(refused(listed(LISTED, count, wrong_twice, 3, ROOM, ROOM), SARRIDOK_REFUSED_OTHER_KIND, 1) && unwritten(0));
    /* No item, no room: nothing is read or written. */
    HOLDS(listed(LISTED, count, NULL, 0, 0, 0) == 0 && unwritten(0));
    HOLDS(sarridok_integers(bytes(LISTED), strlen(LISTED), tape, tape_len, count, NULL, 0, NULL, 0, NULL, 0) == 0);
    HOLDS(sarridok_integers(NULL, 0, NULL, 0, 0, NULL, 0, NULL, 0, NULL, 0) == 0);
    HOLDS(refused(sarridok_integers(NULL, 0, NULL, 0, 0, items, ITEMS, NULL, 0, NULL, 0), SARRIDOK_REFUSED_UNFIT, 0));
    HOLDS(refused(sarridok_integers(bytes(LISTED), strlen(LISTED), tape, tape_len, count, items, ITEMS, NULL, 0, NULL, 0), SARRIDOK_REFUSED_NO_ROOM, 0));
}

/* What is asked before the items: of the text 1 and 2, then 23 for the count. */
static void test_integers_front(void) {
    static const uint8_t longer[SARRIDOK_MAX_TEXT + 1] = {0};
    static const uint32_t items[] = {1, 99};
    HOLDS(refused(sarridok_integers(longer, sizeof longer, NULL, 0, 1, items, 2, NULL, 0, NULL, 0), SARRIDOK_REFUSED_TOO_LONG, 0));
    HOLDS(refused(listed("7\xFF", tape_len, items, 2, 0, 0), SARRIDOK_REFUSED_NOT_UTF8, 1) && unwritten(0));
    HOLDS(refused(listed("7", tape_len / SARRIDOK_ENTRY + 1, items, 2, 0, 0), SARRIDOK_REFUSED_NOT_IN_ORDER, 0) && unwritten(0));
    HOLDS(refused(listed("7", SIZE_MAX, NULL, 0, ROOM, ROOM), SARRIDOK_REFUSED_NOT_IN_ORDER, 0));
    HOLDS(refused(sarridok_integers(bytes("7"), 1, tape, SARRIDOK_ENTRY - 1, 1, NULL, 0, NULL, 0, NULL, 0), SARRIDOK_REFUSED_NOT_IN_ORDER, 0));
}

/* An entry over a text that begins with a 7, and what an item that names it is refused with: never at a place of the text, but at the item's number. */
static const struct {
    const char *text;
    uint32_t kind, start, width;
    uint32_t number, reason;
} unlisted[] = {
    {"7", SARRIDOK_KIND_INTEGER, 2, SARRIDOK_WIDTH_U8, SARRIDOK_REFUSED_UNFIT, 0},
    {"7", SARRIDOK_KIND_INTEGER, UINT32_MAX, SARRIDOK_WIDTH_U8, SARRIDOK_REFUSED_UNFIT, 0},
    {"7\xC3\xA9", SARRIDOK_KIND_INTEGER, 2, SARRIDOK_WIDTH_U8, SARRIDOK_REFUSED_UNFIT, 0},
    {"7\xC3\xA9", SARRIDOK_KIND_NAME, 2, SARRIDOK_WIDTH_U8, SARRIDOK_REFUSED_UNFIT, 0}, /* the start before the kind */
    {"7", SARRIDOK_KIND_FLOAT, 0, 0, SARRIDOK_REFUSED_OTHER_KIND, 0},
    {"7", SARRIDOK_KIND_COMMA, 0, SARRIDOK_WIDTH_U8, SARRIDOK_REFUSED_OTHER_KIND, 0},
    {"7", 0, 0, SARRIDOK_WIDTH_U8, SARRIDOK_REFUSED_OTHER_KIND, 0},
    {"7", SARRIDOK_KIND_INTEGER, 0, 0, SARRIDOK_REFUSED_OTHER_KIND, 0},
    {"7", SARRIDOK_KIND_INTEGER, 0, 9, SARRIDOK_REFUSED_OTHER_KIND, 0},
    {"7", SARRIDOK_KIND_INTEGER, 0, 256 + SARRIDOK_WIDTH_U8, SARRIDOK_REFUSED_OTHER_KIND, 0},
    {"7 1u16", SARRIDOK_KIND_INTEGER, 2, SARRIDOK_WIDTH_U8, SARRIDOK_REFUSED_OTHER_KIND, 0},
    {"7", SARRIDOK_KIND_INTEGER, 1, SARRIDOK_WIDTH_U8, SARRIDOK_REFUSED_EOF, 0},
    {"7 x", SARRIDOK_KIND_INTEGER, 2, SARRIDOK_WIDTH_U8, SARRIDOK_REFUSED_EXPECTED_INTEGER, 0},
    {"7 _1", SARRIDOK_KIND_INTEGER, 2, SARRIDOK_WIDTH_U8, SARRIDOK_REFUSED_UNDERSCORE_AT_BEGINNING, 0},
    {"7 0b2", SARRIDOK_KIND_INTEGER, 2, SARRIDOK_WIDTH_U8, SARRIDOK_REFUSED_INVALID_INTEGER_DIGIT, 0},
    {"7 256", SARRIDOK_KIND_INTEGER, 2, SARRIDOK_WIDTH_U8, SARRIDOK_REFUSED_INTEGER_OUT_OF_BOUNDS, 0},
    {"7 -1", SARRIDOK_KIND_INTEGER, 2, SARRIDOK_WIDTH_U64, SARRIDOK_REFUSED_INTEGER_OUT_OF_BOUNDS, 0},
    {"7 b'ab'", SARRIDOK_KIND_INTEGER, 2, SARRIDOK_WIDTH_U8, SARRIDOK_REFUSED_EXPECTED_BYTE_LITERAL, 0},
    {"7 b'\\x4'", SARRIDOK_KIND_INTEGER, 2, SARRIDOK_WIDTH_U8, SARRIDOK_REFUSED_INVALID_ESCAPE, SARRIDOK_REASON_DIGIT_NOT_HEX},
    {"7 b'\\u{41}'", SARRIDOK_KIND_INTEGER, 2, SARRIDOK_WIDTH_U8, SARRIDOK_REFUSED_INVALID_ESCAPE, SARRIDOK_REASON_UNICODE_IN_BYTE_LITERAL},
};

static void test_unlisted(void) {
    static const uint32_t items[] = {0, 0, 0, 1, 0};
    for (size_t i = 0; i < sizeof unlisted / sizeof *unlisted; i++) {
        const uint32_t made[2 * SARRIDOK_ENTRY] = {SARRIDOK_KIND_INTEGER, 0, 1, SARRIDOK_WIDTH_U8, 0, unlisted[i].kind, unlisted[i].start, 0, unlisted[i].width, 0};
        memcpy(tape, made, sizeof made);
        HOLDS(listed(unlisted[i].text, 2, items, 3, ROOM, ROOM) == 0 && magnitudes[2] == 7 && codes[2] == SARRIDOK_WIDTH_U8 && unwritten(3));
        HOLDS(refused_for(listed(unlisted[i].text, 2, items, 5, ROOM, ROOM), unlisted[i].number, unlisted[i].reason, 3) && unwritten(0));
        HOLDS(refused(listed(unlisted[i].text, 1, items, 5, ROOM, ROOM), SARRIDOK_REFUSED_UNFIT, 3) && unwritten(0));
    }
    /* Where an entry ends is not looked at, nor its gap. */
    const uint32_t made[SARRIDOK_ENTRY] = {SARRIDOK_KIND_INTEGER, 1, 0, SARRIDOK_WIDTH_U8, 77};
    memcpy(tape, made, sizeof made);
    HOLDS(listed("-1.5", 1, items, 1, ROOM, ROOM) == 0 && magnitudes[0] == 1 && codes[0] == SARRIDOK_WIDTH_U8);
}

static void test_strings(void) {
    uint8_t out[7] = "------";
    uint64_t answer = sarridok_contents(text, text_len, tape, NUMBERS, COUNT, 8);
    HOLDS(sarridok_contents_start(answer) == 20);
    HOLDS(sarridok_contents_end(answer) == 26);
    HOLDS(sarridok_count(sarridok_decoded(text, text_len, tape, NUMBERS, COUNT, 8, out, 7)) == 6);
    HOLDS(memcmp(out, "Foxton", 7) == 0);
    HOLDS(refused(sarridok_contents(text, text_len, tape, NUMBERS, COUNT, 0), SARRIDOK_REFUSED_OTHER_KIND, 0));
    HOLDS(refused(sarridok_decoded(text, text_len, tape, NUMBERS, COUNT, 8, out, 5), SARRIDOK_REFUSED_NO_ROOM, 0));
    HOLDS(refused(sarridok_decoded(text, text_len, tape, NUMBERS, COUNT, 8, NULL, 0), SARRIDOK_REFUSED_NO_ROOM, 0));
    HOLDS(refused(sarridok_contents(NULL, 0, NULL, 0, 0, 0), SARRIDOK_REFUSED_UNFIT, 0));
    HOLDS(refused(sarridok_decoded(NULL, 0, NULL, 0, 0, 0, NULL, 0), SARRIDOK_REFUSED_UNFIT, 0));
    uint32_t empty[SARRIDOK_ENTRY];
    HOLDS(sarridok_read(bytes("\"\""), 2, empty, SARRIDOK_ENTRY) == 1);
    HOLDS(sarridok_decoded(bytes("\"\""), 2, empty, SARRIDOK_ENTRY, 1, 0, NULL, 0) == 0);
}

static void test_struct_kind(void) {
    uint64_t answer = sarridok_struct_kind(text, text_len, 4, SARRIDOK_NEWTYPE_NO_PARENS_MEAN_UNIT, SARRIDOK_TUPLE_DIFFERENTIATE_NEWTYPE);
    HOLDS(!sarridok_is_refused(answer));
    HOLDS(sarridok_struct_type(answer) == SARRIDOK_STRUCT_NAMED);
    HOLDS(sarridok_struct_type(sarridok_struct_kind(NULL, 0, 0, 0, 0)) == SARRIDOK_STRUCT_UNIT);
    HOLDS(refused(sarridok_struct_kind(text, text_len, 4, 2, 0), SARRIDOK_REFUSED_UNFIT, 0));
}

static void test_skip(void) {
    uint64_t pre = 1, len = 1;
    HOLDS(sarridok_skip_cursor(sarridok_skip(bytes("  //"), 4, 0, 0, 0, &pre, &len)) == 4);
    HOLDS(pre == 0 && len == SARRIDOK_UNCLOSED_LINE);
    HOLDS(refused(sarridok_skip(bytes("/*"), 2, 0, 0, 0, &pre, &len), SARRIDOK_REFUSED_UNCLOSED_BLOCK_COMMENT, 2));
    HOLDS(pre == 0 && len == SARRIDOK_UNCLOSED_LINE);
    HOLDS(sarridok_skip_cursor(sarridok_skip(NULL, 0, 0, 0, 0, &pre, &len)) == 0);
    HOLDS(pre == 0 && len == 0);
}

/* A repair answers what a fresh reading does. */
static void test_repair(void) {
    uint32_t fresh[SARRIDOK_TAPE_FOR(sizeof EDIT)];
    uint64_t before = 0, behind = 0;
    memset(fresh, 0, sizeof fresh);
    memset(tape, 0, sizeof tape);
    HOLDS(sarridok_count(sarridok_read(text, text_len, tape, tape_len)) == COUNT);
    HOLDS(sarridok_count(sarridok_read(bytes(EDIT), sizeof EDIT - 1, fresh, tape_len)) == COUNT);
    uint64_t answer = sarridok_repair(tape, tape_len, COUNT, text_len, 9, 11, bytes(EDIT), sizeof EDIT - 1, &before, &behind);
    HOLDS(sarridok_count(answer) == COUNT);
    HOLDS(before == 4 && behind == 5);
    HOLDS(memcmp(tape, fresh, sizeof tape) == 0);
    entry_is(4, SARRIDOK_KIND_INTEGER, 9, 12, SARRIDOK_WIDTH_U16, 1);
    HOLDS(refused(sarridok_repair(tape, tape_len, COUNT, 5, 9, 11, text, text_len, &before, &behind), SARRIDOK_REFUSED_NOT_IN_ORDER, 0));
    HOLDS(before == 4 && behind == 5);
    HOLDS(sarridok_repair(NULL, 0, 0, 0, 0, 0, NULL, 0, &before, &behind) == 0);
    HOLDS(before == 0 && behind == 0);
    HOLDS(sarridok_repair(tape, tape_len, COUNT, sizeof EDIT - 1, 0, sizeof EDIT - 1, NULL, 0, &before, &behind) == 0);
    entry_is(COUNT - 1, 0, 0, 0, 0, 0);
}

/* What stands before an entry is in its gap: nothing between neighbours, else blanks and comments by their bytes. What stands behind the last is in none. */
static void test_gaps(void) {
    HOLDS(sarridok_count(sarridok_read(bytes("//ab\n7"), 6, tape, tape_len)) == 1);
    entry_is(0, SARRIDOK_KIND_INTEGER, 5, 6, SARRIDOK_WIDTH_U8, 5);
    HOLDS(sarridok_count(sarridok_read(bytes(" \t[7,/*\xC3\xA9*/ 8 ] // x"), 20, tape, tape_len)) == 5);
    entry_is(0, SARRIDOK_KIND_OPEN_BRACKET, 2, 3, 0, 2);
    entry_is(1, SARRIDOK_KIND_INTEGER, 3, 4, SARRIDOK_WIDTH_U8, 0);
    entry_is(2, SARRIDOK_KIND_COMMA, 4, 5, 0, 0);
    entry_is(3, SARRIDOK_KIND_INTEGER, 12, 13, SARRIDOK_WIDTH_U8, 7);
    entry_is(4, SARRIDOK_KIND_CLOSE_BRACKET, 14, 15, 0, 1);
}

/* A tape of 2 * SARRIDOK_ENTRY numbers is the shortest with room for two entries: with less a read has no room, and a count of 2 is out of order for a walk. */
static void test_room(void) {
    uint32_t links[2];
    for (size_t len = 0; len <= 3 * SARRIDOK_ENTRY; len++) {
        int fits = len >= 2 * SARRIDOK_ENTRY;
        uint64_t read = sarridok_read(bytes("[]"), 2, tape, len);
        HOLDS(fits ? sarridok_count(read) == 2 : refused(read, SARRIDOK_REFUSED_NO_ROOM, 0));
        uint64_t walked = sarridok_walk(bytes("[]"), 2, tape, len, 2, 1, links, 2);
        HOLDS(fits ? walked == 0 : refused(walked, SARRIDOK_REFUSED_NOT_IN_ORDER, 0));
    }
}

/* A gap that is not the distance is out of order for walk and repair, which write nothing. */
static void test_wrong_gap(size_t i, uint32_t wrong_gap) {
    uint32_t links[COUNT] = {0}, left[NUMBERS];
    uint64_t before = 7, behind = 7;
    uint32_t right = *gap_of(i);
    *gap_of(i) = wrong_gap;
    memcpy(left, tape, sizeof left);
    HOLDS(refused(sarridok_walk(text, text_len, tape, NUMBERS, COUNT, 1, links, COUNT), SARRIDOK_REFUSED_NOT_IN_ORDER, 0));
    HOLDS(links[1] == 0);
    HOLDS(refused(sarridok_repair(tape, NUMBERS, COUNT, text_len, 9, 11, bytes(EDIT), sizeof EDIT - 1, &before, &behind), SARRIDOK_REFUSED_NOT_IN_ORDER, 0));
    HOLDS(before == 7 && behind == 7 && memcmp(tape, left, sizeof left) == 0);
    *gap_of(i) = right;
}

/* It is so of every entry below the count. The calls that take one entry do not look at its gap. */
static void test_wrong_gaps(void) {
    uint32_t links[COUNT];
    HOLDS(sarridok_count(sarridok_read(text, text_len, tape, tape_len)) == COUNT);
    for (size_t i = 0; i < COUNT; i++) {
        test_wrong_gap(i, *gap_of(i) + 1);
        test_wrong_gap(i, *gap_of(i) - 1);
    }
    HOLDS(sarridok_walk(text, text_len, tape, NUMBERS, COUNT, 1, links, COUNT) == 0);
    *gap_of(8) = 7;
    HOLDS(sarridok_contents_start(sarridok_contents(text, text_len, tape, NUMBERS, COUNT, 8)) == 20);
    HOLDS(sarridok_count(sarridok_read(bytes("[7] 8"), 5, tape, tape_len)) == 4);
    *gap_of(3) = 7;
    HOLDS(sarridok_walk(bytes("[7] 8"), 5, tape, tape_len, 3, 1, links, COUNT) == 0);
    HOLDS(refused(sarridok_walk(bytes("[7] 8"), 5, tape, tape_len, 4, 1, links, COUNT), SARRIDOK_REFUSED_NOT_IN_ORDER, 0));
}

/* A run of bytes of an old text, from a to b, that was replaced, and what is kept: an entry right behind it only with the gap that it had. */
static const struct {
    const char *old_text, *new_text;
    size_t a, b;
    uint64_t before, behind;
} edits[] = {
    {"[7, 8, 9]", "[7, /*8,*/ 9]", 4, 6, 3, 1}, /* the gap of 9 is longer */
    {"[7, 8, 9]", "[7, 5, 9]", 4, 5, 3, 3},
    {"a b", "a  b", 2, 2, 1, 0},
    {"a b", "a b", 2, 2, 1, 1},
    {"a  b", "a b", 1, 2, 0, 0},
    {" 1", "1", 0, 1, 0, 0},
    {"1", " 1", 0, 0, 0, 0},
    {"ab c", "b c", 0, 1, 0, 1},
};

static void test_kept(void) {
    uint32_t fresh[SARRIDOK_TAPE_FOR(16)];
    for (size_t i = 0; i < sizeof edits / sizeof *edits; i++) {
        const char *now = edits[i].new_text;
        size_t old_len = strlen(edits[i].old_text);
        uint64_t before = 7, behind = 7;
        memset(fresh, 0, sizeof fresh);
        size_t count = sarridok_count(sarridok_read(bytes(edits[i].old_text), old_len, tape, tape_len));
        size_t then = sarridok_count(sarridok_read(bytes(now), strlen(now), fresh, sizeof fresh / sizeof *fresh));
        uint64_t answer = sarridok_repair(tape, tape_len, count, old_len, edits[i].a, edits[i].b, bytes(now), strlen(now), &before, &behind);
        HOLDS(sarridok_count(answer) == then);
        HOLDS(before == edits[i].before && behind == edits[i].behind);
        HOLDS(memcmp(tape, fresh, SARRIDOK_ENTRY * then * sizeof *tape) == 0);
    }
}

/* Texts whose escape is not valid, each with its reason and its place. */
static const struct {
    const char *text;
    uint32_t reason;
    uint32_t place;
} escapes[] = {
    {"\"\\xg\"", SARRIDOK_REASON_DIGIT_NOT_HEX, 4},
    {"\"\\u{1\"", SARRIDOK_REASON_DIGIT_NOT_HEX, 6},
    {"\"\\xC3\\x!\"", SARRIDOK_REASON_DIGIT_NOT_HEX, 8},
    {"\"\\q\"", SARRIDOK_REASON_UNKNOWN_LETTER, 3},
    {"#![type=\"\\q\"]", SARRIDOK_REASON_UNKNOWN_LETTER, 11},
    {"\"\\xC3\"", SARRIDOK_REASON_NOT_BYTE_ESCAPED, 5},
    {"'\\x80'", SARRIDOK_REASON_NOT_BYTE_ESCAPED, 5},
    {"\"\\xC3\\x41\"", SARRIDOK_REASON_NOT_BYTE_ESCAPED, 9},
    {"\"\\u41\"", SARRIDOK_REASON_MISSING_OPEN_BRACE, 3},
    {"\"\\u{}\"", SARRIDOK_REASON_NO_DIGITS, 4},
    {"b'\\u{}'", SARRIDOK_REASON_NO_DIGITS, 5},
    {"\"\\u{1234567}\"", SARRIDOK_REASON_NO_CLOSING_BRACE, 10},
    {"\"\\u{123456\"", SARRIDOK_REASON_NO_CLOSING_BRACE, 10},
    {"\"\\u{D800}\"", SARRIDOK_REASON_NOT_A_CHARACTER, 9},
    {"b'\\u{D800}'", SARRIDOK_REASON_NOT_A_CHARACTER, 10},
    {"b'\\u{41}'", SARRIDOK_REASON_UNICODE_IN_BYTE_LITERAL, 8},
};

/* The reason is the same whichever call reads the escape, and nothing is written. */
static void test_escapes(void) {
    uint32_t room[SARRIDOK_TAPE_FOR(16)];
    memset(room, 0, sizeof room);
    for (size_t i = 0; i < sizeof escapes / sizeof *escapes; i++) {
        uint64_t answer = sarridok_read(bytes(escapes[i].text), strlen(escapes[i].text), room, sizeof room / sizeof *room);
        HOLDS(refused_escape(answer, escapes[i].reason, escapes[i].place));
        HOLDS(room[0] == 0);
    }
    /* Where the string is not closed no escape is judged. */
    HOLDS(refused(sarridok_read(bytes("\"\\q"), 3, room, sizeof room / sizeof *room), SARRIDOK_REFUSED_EXPECTED_STRING_END, 1));
    uint64_t magnitude = 1;
    HOLDS(refused_escape(sarridok_integer(bytes("b'\\u{41}'"), 9, 0, SARRIDOK_WIDTH_U8, &magnitude), SARRIDOK_REASON_UNICODE_IN_BYTE_LITERAL, 8));
    HOLDS(magnitude == 1);
    HOLDS(refused_escape(sarridok_struct_kind(bytes("(\"\\q\")"), 6, 0, 0, SARRIDOK_TUPLE_DIFFERENTIATE_NEWTYPE), SARRIDOK_REASON_UNKNOWN_LETTER, 4));
    /* No read gives the entry of such a string: the tape is made by hand. */
    uint32_t made[SARRIDOK_ENTRY] = {SARRIDOK_KIND_STRING, 1, 7, 1, 1};
    const uint8_t *const closed = bytes("[\"\\u{}\"]");
    uint8_t out[2] = "-";
    HOLDS(refused_escape(sarridok_contents(closed, 8, made, SARRIDOK_ENTRY, 1, 0), SARRIDOK_REASON_NO_DIGITS, 5));
    HOLDS(refused_escape(sarridok_decoded(closed, 8, made, SARRIDOK_ENTRY, 1, 0, out, 1), SARRIDOK_REASON_NO_DIGITS, 5));
    HOLDS(out[0] == '-');
    uint64_t before = 7, behind = 7;
    HOLDS(sarridok_read(bytes("\"a\""), 3, room, sizeof room / sizeof *room) == 1);
    HOLDS(refused_escape(sarridok_repair(room, SARRIDOK_ENTRY, 1, 3, 1, 2, bytes("\"\\u41\""), 6, &before, &behind), SARRIDOK_REASON_MISSING_OPEN_BRACE, 3));
    HOLDS(before == 7 && behind == 7 && room[0] == SARRIDOK_KIND_STRING && room[2] == 3);
}

/* 0 and the numbers behind the last have no words. */
static void test_reasons(void) {
    for (uint32_t reason = 0; reason < 20; reason++) {
        int known = 1 <= reason && reason <= SARRIDOK_REASON_UNICODE_IN_BYTE_LITERAL;
        HOLDS((*sarridok_reason_text(reason) != '\0') == known);
    }
    HOLDS(strcmp(sarridok_reason_text(SARRIDOK_REASON_NOT_BYTE_ESCAPED), "not a byte-escaped character") == 0);
}

/* 0, 3 and the numbers behind the last have no sentence of their own. */
static void test_refusals(void) {
    const char *none = sarridok_refusal_text(0);
    HOLDS(strcmp(none, "no refusal of the table") == 0);
    for (uint32_t number = 1; number < 40; number++) {
        int known = number != 3 && number <= SARRIDOK_REFUSED_REPEATED_FIELD;
        HOLDS((strcmp(sarridok_refusal_text(number), none) != 0) == known);
    }
    HOLDS(strcmp(sarridok_refusal_text(SARRIDOK_REFUSED_EXPECTED_STRING_END), "the string is not closed") == 0);
}

/* ---- A text that arrives */

/* A host: the state with two numbers behind it, the buffer, and the entries that were given, one piece's behind the other's. */
static struct {
    uint32_t state[SARRIDOK_ARRIVAL + 2];
    uint8_t buffer[SARRIDOK_MAX_KEPT + 64];
    uint32_t entries[SARRIDOK_TAPE_FOR(256)];
    size_t given;
} host;

static const size_t room_len = sizeof host.entries / sizeof *host.entries;

static size_t kept(void) { return host.state[SARRIDOK_ARRIVAL_KEPT]; }

static void begin(void) {
    memset(&host, 0x55, sizeof host);
    host.given = 0;
    HOLDS(sarridok_begin(host.state, SARRIDOK_ARRIVAL) == 0);
}

/* The next piece: its answer; what it gives stands behind what was given before. */
static uint64_t piece(const char *of, size_t n) {
    uint64_t count = 0;
    memcpy(host.buffer + kept(), of, n);
    uint32_t *tape_of = host.entries + SARRIDOK_ENTRY * host.given;
    uint64_t answer = sarridok_piece(host.state, SARRIDOK_ARRIVAL, host.buffer, sizeof host.buffer, n, tape_of, room_len - SARRIDOK_ENTRY * host.given, &count);
    host.given += (size_t)count;
    return answer;
}

static uint64_t finish(void) {
    uint64_t count = 0;
    uint32_t *tape_of = host.entries + SARRIDOK_ENTRY * host.given;
    uint64_t answer = sarridok_finish(host.state, SARRIDOK_ARRIVAL, host.buffer, kept(), tape_of, room_len - SARRIDOK_ENTRY * host.given, &count);
    host.given += (size_t)count;
    return answer;
}

/* As over a loss of power: only the ten numbers and the bytes that are kept are brought over. */
static void stored(void) {
    uint32_t numbers[SARRIDOK_ARRIVAL];
    uint8_t bytes_kept[SARRIDOK_MAX_KEPT];
    size_t n = kept();
    memcpy(numbers, host.state, sizeof numbers);
    memcpy(bytes_kept, host.buffer, n);
    memset(host.state, 0xAA, sizeof host.state);
    memset(host.buffer, 0xAA, sizeof host.buffer);
    memcpy(host.state, numbers, sizeof numbers);
    memcpy(host.buffer, bytes_kept, n);
}

/* A text in pieces of so many bytes: the answer of the first that is refused, or of the end. */
static uint64_t arrives(const char *of, size_t len, size_t step) {
    begin();
    for (size_t at = 0; at < len; at += step) {
        uint64_t answer = piece(of + at, len - at < step ? len - at : step);
        HOLDS(kept() <= SARRIDOK_MAX_KEPT);
        if (answer != 0) return answer;
        stored();
    }
    return finish();
}

#define ARRIVING "#![enable(implicit_some)]\n/* the /* locks */ */ [Lock(id: -7, name: \"Fo\\nxton\", \xC3\xA9: r#\"a\"#), // end\n 0x1F, 'x', 1.5]"

/* Texts that are refused: how many entries come before, and what is told behind them. */
static const struct {
    const char *text;
    size_t before;
    uint32_t number, reason, place;
} broken[] = {
    {"[1, /x]", 3, SARRIDOK_REFUSED_UNEXPECTED_CHAR, 0, 6},
    {"(a: \"\\q\")", 3, SARRIDOK_REFUSED_INVALID_ESCAPE, SARRIDOK_REASON_UNKNOWN_LETTER, 7},
    {"a \xFF b", 1, SARRIDOK_REFUSED_NOT_UTF8, 0, 2},
    {"[1, \"Foxton", 3, SARRIDOK_REFUSED_EXPECTED_STRING_END, 0, 5}, /* by the end */
    {"[1] /* ", 3, SARRIDOK_REFUSED_UNCLOSED_BLOCK_COMMENT, 0, 7},
    {"a \xC3", 1, SARRIDOK_REFUSED_NOT_UTF8, 0, 2},
};

/* However it is cut, a text gives what one reading does. */
static void test_arrives(void) {
    static const size_t steps[] = {1, 2, 3, 7, 64, sizeof ARRIVING - 1};
    static uint32_t fresh[SARRIDOK_TAPE_FOR(sizeof ARRIVING)];
    size_t count = sarridok_count(sarridok_read(bytes(ARRIVING), sizeof ARRIVING - 1, fresh, sizeof fresh / sizeof *fresh));
    HOLDS(count == 23);
    for (size_t i = 0; i < sizeof steps / sizeof *steps; i++) {
        HOLDS(arrives(ARRIVING, sizeof ARRIVING - 1, steps[i]) == 0);
        HOLDS(host.given == count);
        HOLDS(memcmp(host.entries, fresh, SARRIDOK_ENTRY * count * sizeof *fresh) == 0);
        for (size_t k = 0; k < sizeof broken / sizeof *broken; k++) {
            HOLDS(refused_for(arrives(broken[k].text, strlen(broken[k].text), steps[i]), broken[k].number, broken[k].reason, broken[k].place));
            HOLDS(host.given == broken[k].before);
        }
    }
}

/* A refusal behind entries is in the state: every later piece and the end get it, and give nothing. */
static void test_refused_piece(void) {
    begin();
    HOLDS(piece("[7, ", 4) == 0 && host.given == 3 && kept() == 0);
    HOLDS(refused(piece("8, *9", 5), SARRIDOK_REFUSED_UNEXPECTED_CHAR, 7));
    HOLDS(host.given == 5 && kept() == 0);
    struct sarridok_entry last = sarridok_entry(host.entries, 4);
    HOLDS(last.kind == SARRIDOK_KIND_COMMA && last.start == 5 && last.end == 6 && last.gap == 0);
    HOLDS(host.state[SARRIDOK_ARRIVAL_NUMBER] == SARRIDOK_REFUSED_UNEXPECTED_CHAR && host.state[SARRIDOK_ARRIVAL_PLACE] == 7);
    HOLDS(host.state[SARRIDOK_ARRIVAL_TAKEN] == 8 && host.state[SARRIDOK_ARRIVAL_FORMER] == 6);
    stored();
    HOLDS(refused(piece(" 9]", 3), SARRIDOK_REFUSED_UNEXPECTED_CHAR, 7) && refused(piece("", 0), SARRIDOK_REFUSED_UNEXPECTED_CHAR, 7));
    HOLDS(refused(finish(), SARRIDOK_REFUSED_UNEXPECTED_CHAR, 7));
    HOLDS(host.given == 5);
}

/* 22 takes and writes nothing: the piece and the end may be asked again. */
static void test_no_room(void) {
    begin();
    HOLDS(piece("loc", 3) == 0 && host.given == 0 && kept() == 3);
    uint32_t before[SARRIDOK_ARRIVAL + 2], short_tape[SARRIDOK_ENTRY];
    uint64_t count = 77;
    memcpy(before, host.state, sizeof before);
    memcpy(host.buffer + 3, "k (7", 4);
    HOLDS(refused(sarridok_piece(host.state, SARRIDOK_ARRIVAL, host.buffer, 7, 4, NULL, 0, &count), SARRIDOK_REFUSED_NO_ROOM, 0));
    memset(short_tape, 0x55, sizeof short_tape);
    HOLDS(refused(sarridok_piece(host.state, SARRIDOK_ARRIVAL, host.buffer, 7, 4, short_tape, SARRIDOK_ENTRY, &count), SARRIDOK_REFUSED_NO_ROOM, 0));
    HOLDS(count == 77 && short_tape[0] == 0x55555555 && memcmp(host.buffer, "lock (7", 7) == 0);
    HOLDS(memcmp(host.state, before, sizeof before) == 0);
    HOLDS(piece("k (7", 4) == 0 && host.given == 2 && kept() == 1);
    memcpy(before, host.state, sizeof before);
    HOLDS(refused(sarridok_finish(host.state, SARRIDOK_ARRIVAL, host.buffer, 1, NULL, 0, &count), SARRIDOK_REFUSED_NO_ROOM, 0));
    HOLDS(count == 77 && memcmp(host.state, before, sizeof before) == 0);
    HOLDS(finish() == 0 && host.given == 3);
}

/* A state that no call made: 23, and nothing is written. */
static void out_of_order(size_t len, size_t at, uint32_t number, size_t also, uint32_t other) {
    uint32_t before[SARRIDOK_ARRIVAL + 2], tape_of[SARRIDOK_ENTRY] = {7, 7, 7, 7, 7};
    uint64_t count = 77;
    begin();
    host.state[at] = number;
    host.state[also] = other;
    memcpy(host.buffer, "[", 1);
    memcpy(before, host.state, sizeof before);
    HOLDS(refused(sarridok_piece(host.state, len, host.buffer, 1, 1, tape_of, SARRIDOK_ENTRY, &count), SARRIDOK_REFUSED_NOT_IN_ORDER, 0));
    HOLDS(refused(sarridok_finish(host.state, len, host.buffer, 1, tape_of, SARRIDOK_ENTRY, &count), SARRIDOK_REFUSED_NOT_IN_ORDER, 0));
    HOLDS(count == 77 && host.buffer[0] == '[' && tape_of[0] == 7 && tape_of[4] == 7);
    HOLDS(memcmp(host.state, before, sizeof before) == 0);
}

static void test_out_of_order(void) {
    enum { NUMBER = SARRIDOK_ARRIVAL_NUMBER, GAP = SARRIDOK_ARRIVAL_GAP, LEVEL = SARRIDOK_ARRIVAL_LEVEL, LAST = SARRIDOK_ARRIVAL_LAST };
    out_of_order(SARRIDOK_ARRIVAL, GAP, 4, GAP, 4);
    out_of_order(SARRIDOK_ARRIVAL, GAP, UINT32_MAX, GAP, UINT32_MAX);
    out_of_order(SARRIDOK_ARRIVAL, LEVEL, 1, LEVEL, 1);
    out_of_order(SARRIDOK_ARRIVAL, LEVEL, 1, GAP, 2);
    out_of_order(SARRIDOK_ARRIVAL, LAST, '*', GAP, 1);
    out_of_order(SARRIDOK_ARRIVAL, LAST, 256, GAP, 3); /* cut short it would be a state */
    out_of_order(SARRIDOK_ARRIVAL, NUMBER, 256, NUMBER, 256);
    out_of_order(SARRIDOK_ARRIVAL, SARRIDOK_ARRIVAL_REASON, 256, SARRIDOK_ARRIVAL_REASON, 256);
    out_of_order(SARRIDOK_ARRIVAL, SARRIDOK_ARRIVAL_TAKEN, SARRIDOK_MAX_TEXT + 1, SARRIDOK_ARRIVAL_TAKEN, SARRIDOK_MAX_TEXT + 1);
    out_of_order(SARRIDOK_ARRIVAL, SARRIDOK_ARRIVAL_KEPT, 1, SARRIDOK_ARRIVAL_KEPT, 1); /* kept, and not taken */
    out_of_order(SARRIDOK_ARRIVAL - 1, GAP, 0, GAP, 0);                               /* nine numbers */
    out_of_order(0, GAP, 0, GAP, 0);
    /* A buffer that does not hold what the call says. */
    uint64_t count = 77;
    begin();
    HOLDS(refused(sarridok_piece(host.state, SARRIDOK_ARRIVAL, host.buffer, 3, 4, NULL, 0, &count), SARRIDOK_REFUSED_NOT_IN_ORDER, 0) && count == 77);
    HOLDS(piece("ab", 2) == 0 && kept() == 2);
    HOLDS(refused(sarridok_finish(host.state, SARRIDOK_ARRIVAL, host.buffer, 1, host.entries, room_len, &count), SARRIDOK_REFUSED_NOT_IN_ORDER, 0) && count == 77);
}

/* The beginning, and calls on nothing. What stands behind the ten numbers stays. */
static void test_begin(void) {
    uint64_t count = 77;
    begin();
    for (size_t i = 0; i < SARRIDOK_ARRIVAL; i++) HOLDS(host.state[i] == 0);
    HOLDS(host.state[SARRIDOK_ARRIVAL] == 0x55555555);
    HOLDS(refused(sarridok_begin(NULL, 0), SARRIDOK_REFUSED_NO_ROOM, 0));
    uint32_t nine[SARRIDOK_ARRIVAL - 1] = {7};
    HOLDS(refused(sarridok_begin(nine, SARRIDOK_ARRIVAL - 1), SARRIDOK_REFUSED_NO_ROOM, 0) && nine[0] == 7);
    HOLDS(refused(sarridok_piece(NULL, 0, NULL, 0, 0, NULL, 0, &count), SARRIDOK_REFUSED_NOT_IN_ORDER, 0));
    HOLDS(refused(sarridok_finish(NULL, 0, NULL, 0, NULL, 0, &count), SARRIDOK_REFUSED_NOT_IN_ORDER, 0) && count == 77);
    HOLDS(sarridok_piece(host.state, SARRIDOK_ARRIVAL, NULL, 0, 0, NULL, 0, &count) == 0 && count == 0);
    count = 77;
    HOLDS(sarridok_finish(host.state, SARRIDOK_ARRIVAL, NULL, 0, NULL, 0, &count) == 0 && count == 0);
    HOLDS(sarridok_begin(host.state, SARRIDOK_ARRIVAL + 2) == 0 && host.state[SARRIDOK_ARRIVAL + 1] == 0x55555555);
    HOLDS(piece(TEXT, sizeof TEXT - 1) == 0 && host.given == COUNT && host.state[SARRIDOK_ARRIVAL] == 0x55555555);
}

/* 30, where an entry is undecided when 4,096 bytes of it have come and another follows: told at its start, and the state keeps nothing. */
static void test_long_entry(void) {
    static char name[SARRIDOK_MAX_KEPT + 1];
    memset(name, 'a', sizeof name);
    begin();
    HOLDS(piece("[7, ", 4) == 0 && host.given == 3);
    HOLDS(piece(name, SARRIDOK_MAX_KEPT) == 0 && kept() == SARRIDOK_MAX_KEPT);
    stored();
    HOLDS(refused(piece(" ", 1), SARRIDOK_REFUSED_ENTRY_TOO_LONG, 4) && host.given == 3 && kept() == 0);
    begin();
    HOLDS(refused(piece(name, SARRIDOK_MAX_KEPT + 1), SARRIDOK_REFUSED_ENTRY_TOO_LONG, 0) && host.given == 0);
    begin();
    HOLDS(piece(name, SARRIDOK_MAX_KEPT) == 0 && finish() == 0 && host.given == 1);
}

int main(void) {
    HOLDS(sarridok_version() == SARRIDOK_VERSION);
    test_read();
    test_walk();
    test_walk_front();
    test_integer();
    test_strings();
    test_struct_kind();
    test_skip();
    test_repair();
    test_fields();
    for (size_t fields = 1; fields <= 40; fields++) test_many_fields(fields);
    test_other_texts();
    test_gaps();
    test_room();
    test_wrong_gaps();
    test_kept();
    test_refusals();
    test_escapes();
    test_reasons();
    test_integers();
    test_integers_front();
    test_unlisted();
    test_begin();
    test_arrives();
    test_refused_piece();
    test_no_room();
    test_out_of_order();
    test_long_entry();
    return wrong;
}
