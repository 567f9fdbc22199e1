/* Sarridok: a proved reader of RON text, for C (C11) and C++ (C++11).
 *
 * Link the archive libsarridok_c.a (x86-64 Linux), which bindings/archive proves and builds and bindings/install installs. It asks the C library for memset and
 * nothing else: no heap, no files. It keeps nothing between calls: any number of threads may call it at once. A call uses at most 15 KiB of stack; a
 * walk, which keeps the entries that name fields there, 66 KiB, however small the tape (bench/stack).
 *
 * What each function answers and writes is proved for all bytes and all numbers, of one definition each (crates/sarridok_c). No input is unfit to be given.
 * What the compiler cannot ask of a C program, and its writer must keep:
 *   - a pointer and the length behind it are a live array of at least so many elements, aligned for them;
 *     where the length is 0 the pointer may be NULL or any other: nothing is read or written through it;
 *   - a pointer without a length points to one live number, and is not NULL;
 *   - what a function writes (a pointer without const) overlaps nothing else that is passed in the same call;
 *   - no other thread writes what is passed while the call runs.
 *
 * The answer of every function is one number:
 *   accepted   below 2^63; which of the functions below takes out what it holds is said at each call
 *   refused    2^63 + (number + 256 * reason) * 2^32 + place; such a call has written nothing, but for a text that sarridok_piece or sarridok_finish refuses, behind its entries. The
 *              reason says why an escape is not valid (13), and is else 0
 * Where an accepted answer holds two numbers they are first * 2^32 + second. Nothing is ever cut off, but the number of an item behind the first 2^32 of a list
 * (sarridok_integers): no other place and no count is above 3 * 65,536, no number and no reason above 255, and each is got back by a shift and a mask. That is proved of
 * every function (crates/promises/proofs/Hosts.antt; of a text that arrives, crates/sarridok_c/proofs/ArrivedWhole.antt).
 *
 * Names begin with what they are: SARRIDOK_KIND_, _EXTENSION_, _WIDTH_, _NEWTYPE_, _TUPLE_, _STRUCT_, _CODE_, _ARRIVAL_, _REFUSED_, _REASON_.
 */
#ifndef SARRIDOK_H
#define SARRIDOK_H

#include <stddef.h>
#include <stdint.h>

#ifdef __cplusplus
static_assert(sizeof(size_t) == 8, "sarridok: the archive is for a size_t of 64 bits");
extern "C" {
#else
_Static_assert(sizeof(size_t) == 8, "sarridok: the archive is for a size_t of 64 bits");
#endif

/* ---- Version: major * 10000 + minor * 100 + patch */

#define SARRIDOK_VERSION 700

/* The version that the archive was built with: SARRIDOK_VERSION where the header belongs to it. */
uint32_t sarridok_version(void);

/* ---- Limits and sizes */

#define SARRIDOK_MAX_TEXT 65536 /* bytes; a longer text is refused */
#define SARRIDOK_MAX_DEPTH 128  /* the highest depth limit of a walk */
#define SARRIDOK_ENTRY 5        /* numbers of a tape to an entry: kind, start, end, detail, gap */
#define SARRIDOK_ARRIVAL 10     /* numbers of a state between two pieces of a text that arrives */
#define SARRIDOK_MAX_KEPT 4096  /* bytes of such a text that are kept between two pieces, at most */

/* How many numbers a tape must have so that no text of so many bytes is refused for want of room: a text has at most as many entries as bytes, and a tape has room for its
 * length divided by SARRIDOK_ENTRY, rounded down. */
#define SARRIDOK_TAPE_FOR(text_len) (SARRIDOK_ENTRY * (size_t)(text_len))

/* ---- Kinds of entries */

enum sarridok_kind {
    SARRIDOK_KIND_OPEN_PAREN = 1,
    SARRIDOK_KIND_CLOSE_PAREN = 2,
    SARRIDOK_KIND_OPEN_BRACKET = 3,
    SARRIDOK_KIND_CLOSE_BRACKET = 4,
    SARRIDOK_KIND_OPEN_BRACE = 5,
    SARRIDOK_KIND_CLOSE_BRACE = 6,
    SARRIDOK_KIND_COMMA = 7,
    SARRIDOK_KIND_COLON = 8,
    SARRIDOK_KIND_NAME = 9,
    SARRIDOK_KIND_RAW_NAME = 10,
    SARRIDOK_KIND_INTEGER = 11,     /* detail: the width */
    SARRIDOK_KIND_FLOAT = 12,       /* detail: 0, 32 or 64 for its suffix */
    SARRIDOK_KIND_CHAR = 13,        /* detail: the code point */
    SARRIDOK_KIND_STRING = 14,      /* detail: the decoded length */
    SARRIDOK_KIND_BYTE_STRING = 15, /* detail: the decoded length */
    SARRIDOK_KIND_ATTRIBUTE = 16    /* detail: the sum of its extensions */
};

/* ---- Extensions: what the detail of an attribute is the sum of */

enum sarridok_extension {
    SARRIDOK_EXTENSION_UNWRAP_NEWTYPES = 1,
    SARRIDOK_EXTENSION_IMPLICIT_SOME = 2,
    SARRIDOK_EXTENSION_UNWRAP_VARIANT_NEWTYPES = 4,
    SARRIDOK_EXTENSION_EXPLICIT_STRUCT_NAMES = 8
};

/* ---- Widths of integers */

enum sarridok_width {
    SARRIDOK_WIDTH_I8 = 1,
    SARRIDOK_WIDTH_I16 = 2,
    SARRIDOK_WIDTH_I32 = 3,
    SARRIDOK_WIDTH_I64 = 4,
    SARRIDOK_WIDTH_U8 = 5,
    SARRIDOK_WIDTH_U16 = 6,
    SARRIDOK_WIDTH_U32 = 7,
    SARRIDOK_WIDTH_U64 = 8
};

/* ---- Codes of a list of integers: the width, with this added where the value is below zero */

#define SARRIDOK_CODE_BELOW_ZERO 16

/* ---- Modes and types of structs, in the order of the crate's enums */

enum sarridok_newtype_mode {
    SARRIDOK_NEWTYPE_NO_PARENS_MEAN_UNIT = 0,
    SARRIDOK_NEWTYPE_INSIDE_NEWTYPE = 1
};

enum sarridok_tuple_mode {
    SARRIDOK_TUPLE_IMPRECISE_TUPLE_OR_NEWTYPE = 0,
    SARRIDOK_TUPLE_DIFFERENTIATE_NEWTYPE = 1
};

enum sarridok_struct_type {
    SARRIDOK_STRUCT_ANY_TUPLE = 0,
    SARRIDOK_STRUCT_EMPTY_TUPLE = 1,
    SARRIDOK_STRUCT_NEWTYPE_TUPLE = 2,
    SARRIDOK_STRUCT_NON_NEWTYPE_TUPLE = 3,
    SARRIDOK_STRUCT_NAMED = 4,
    SARRIDOK_STRUCT_UNIT = 5
};

/* ---- The numbers of a state, between two pieces of a text that arrives: what each is */

enum sarridok_arrival {
    SARRIDOK_ARRIVAL_TAKEN = 0,  /* how many bytes of the text were taken */
    SARRIDOK_ARRIVAL_PART = 1,   /* how many of those kept, at their end, belong to a character that has not come whole */
    SARRIDOK_ARRIVAL_GAP = 2,    /* what is open where nothing has begun: 0 nothing, 1 a slash, 2 a line comment, 3 a block comment */
    SARRIDOK_ARRIVAL_LEVEL = 3,  /* how many others stand around that block comment, else 0 */
    SARRIDOK_ARRIVAL_LAST = 4,   /* its last byte, if that is a star or a slash that may be half of a mark, else 0 */
    SARRIDOK_ARRIVAL_NUMBER = 5, /* the refusal that was given: its number, 0 where there is none, */
    SARRIDOK_ARRIVAL_PLACE = 6,  /* its place */
    SARRIDOK_ARRIVAL_REASON = 7, /* and its reason */
    SARRIDOK_ARRIVAL_FORMER = 8, /* where the last entry given ended */
    SARRIDOK_ARRIVAL_KEPT = 9    /* how many bytes are kept, at the front of the buffer */
};

/* ---- Skip: the whitespace length of a cursor behind a line comment that the end of the text left unclosed */

#define SARRIDOK_UNCLOSED_LINE UINT64_MAX

/* ---- Refusals: the number, and behind it which place such a refusal has; of an item of a list (sarridok_integers) it is the item's number. Names, places and sentences are
 * those of docs/refusals.txt */

/* refusals: written by docs/refusals */
enum sarridok_refusal {
    SARRIDOK_REFUSED_TOO_LONG = 1,                /* 0 */
    SARRIDOK_REFUSED_NOT_UTF8 = 2,                /* the first byte of the first bad sequence */
                                                  /* 3 is reserved: no call gives it */
    SARRIDOK_REFUSED_UNCLOSED_BLOCK_COMMENT = 4,  /* the end of the text */
    SARRIDOK_REFUSED_UNEXPECTED_CHAR = 5,         /* behind it after `/`, at it where no token starts */
    SARRIDOK_REFUSED_EOF = 6,                     /* the end of the text */
    SARRIDOK_REFUSED_EXPECTED_INTEGER = 7,        /* where the crate's cursor stands */
    SARRIDOK_REFUSED_UNDERSCORE_AT_BEGINNING = 8, /* where the crate's cursor stands */
    SARRIDOK_REFUSED_INVALID_INTEGER_DIGIT = 9,   /* where the crate's cursor stands */
    SARRIDOK_REFUSED_INTEGER_OUT_OF_BOUNDS = 10,  /* where the crate's cursor stands */
    SARRIDOK_REFUSED_EXPECTED_FLOAT = 11,         /* where the crate's cursor stands */
    SARRIDOK_REFUSED_FLOAT_UNDERSCORE = 12,       /* where the crate's cursor stands */
    SARRIDOK_REFUSED_INVALID_ESCAPE = 13,         /* where the crate's cursor stands, as its reason says */
    SARRIDOK_REFUSED_EXPECTED_CHAR = 14,          /* where the crate's cursor stands */
    SARRIDOK_REFUSED_EXPECTED_BYTE_LITERAL = 15,  /* where the crate's cursor stands */
    SARRIDOK_REFUSED_EXPECTED_STRING = 16,        /* where the crate's cursor stands */
    SARRIDOK_REFUSED_EXPECTED_STRING_END = 17,    /* where the crate's cursor stands */
    SARRIDOK_REFUSED_EXPECTED_BYTE_STRING = 18,   /* where the crate's cursor stands */
    SARRIDOK_REFUSED_EXPECTED_ATTRIBUTE = 19,     /* the `#` */
    SARRIDOK_REFUSED_EXPECTED_ATTRIBUTE_END = 20, /* the `#` */
    SARRIDOK_REFUSED_NO_SUCH_EXTENSION = 21,      /* the `#` */
    SARRIDOK_REFUSED_NO_ROOM = 22,                /* 0 */
    SARRIDOK_REFUSED_NOT_IN_ORDER = 23,           /* 0 */
    SARRIDOK_REFUSED_DEPTH_LIMIT_PASSED = 24,     /* the entry's number */
    SARRIDOK_REFUSED_NOT_ALLOWED_HERE = 25,       /* the entry's number */
    SARRIDOK_REFUSED_TAPE_ENDS_EARLY = 26,        /* the number of entries */
    SARRIDOK_REFUSED_OTHER_KIND = 27,             /* 0 */
    SARRIDOK_REFUSED_UNFIT = 28,                  /* 0 */
    SARRIDOK_REFUSED_HOLDS_ESCAPE = 29,           /* 0 */
    SARRIDOK_REFUSED_ENTRY_TOO_LONG = 30,         /* the entry's start */
    SARRIDOK_REFUSED_REPEATED_FIELD = 31          /* the entry's number */
};

/* The sentence of a refusal's number; of any other number, "no refusal of the table". */
static inline const char *sarridok_refusal_text(uint32_t number) {
    switch (number) {
    case SARRIDOK_REFUSED_TOO_LONG:
        return "the text is longer than 65,536 bytes";
    case SARRIDOK_REFUSED_NOT_UTF8:
        return "the text is not UTF-8 here";
    case SARRIDOK_REFUSED_UNCLOSED_BLOCK_COMMENT:
        return "a block comment is not closed";
    case SARRIDOK_REFUSED_UNEXPECTED_CHAR:
        return "an unexpected character stands here or just before";
    case SARRIDOK_REFUSED_EOF:
        return "the text ends where a character is needed";
    case SARRIDOK_REFUSED_EXPECTED_INTEGER:
        return "an integer is expected";
    case SARRIDOK_REFUSED_UNDERSCORE_AT_BEGINNING:
        return "an integer cannot begin with an underscore";
    case SARRIDOK_REFUSED_INVALID_INTEGER_DIGIT:
        return "this digit is not below the integer's base";
    case SARRIDOK_REFUSED_INTEGER_OUT_OF_BOUNDS:
        return "the integer is out of bounds";
    case SARRIDOK_REFUSED_EXPECTED_FLOAT:
        return "a float is expected";
    case SARRIDOK_REFUSED_FLOAT_UNDERSCORE:
        return "an underscore is misplaced in the float";
    case SARRIDOK_REFUSED_INVALID_ESCAPE:
        return "the escape is not valid";
    case SARRIDOK_REFUSED_EXPECTED_CHAR:
        return "a char is expected";
    case SARRIDOK_REFUSED_EXPECTED_BYTE_LITERAL:
        return "a byte literal is expected";
    case SARRIDOK_REFUSED_EXPECTED_STRING:
        return "a string is expected";
    case SARRIDOK_REFUSED_EXPECTED_STRING_END:
        return "the string is not closed";
    case SARRIDOK_REFUSED_EXPECTED_BYTE_STRING:
        return "a byte string is expected";
    case SARRIDOK_REFUSED_EXPECTED_ATTRIBUTE:
        return "an attribute is expected";
    case SARRIDOK_REFUSED_EXPECTED_ATTRIBUTE_END:
        return "the end of the attribute is expected";
    case SARRIDOK_REFUSED_NO_SUCH_EXTENSION:
        return "the extension is not known";
    case SARRIDOK_REFUSED_NO_ROOM:
        return "there is no room: the tape, the links or the buffer is too short";
    case SARRIDOK_REFUSED_NOT_IN_ORDER:
        return "the cut, the lengths, the tape or the state are not in order";
    case SARRIDOK_REFUSED_DEPTH_LIMIT_PASSED:
        return "more brackets are open than the limit allows";
    case SARRIDOK_REFUSED_NOT_ALLOWED_HERE:
        return "this cannot stand here";
    case SARRIDOK_REFUSED_TAPE_ENDS_EARLY:
        return "the text ends before its value does";
    case SARRIDOK_REFUSED_OTHER_KIND:
        return "the entry or the suffix is of another kind";
    case SARRIDOK_REFUSED_UNFIT:
        return "a place, entry number, cursor, limit, width or mode is unfit";
    case SARRIDOK_REFUSED_HOLDS_ESCAPE:
        return "the contents hold an escape or a line continuation";
    case SARRIDOK_REFUSED_ENTRY_TOO_LONG:
        return "an entry is undecided after 4,096 bytes";
    case SARRIDOK_REFUSED_REPEATED_FIELD:
        return "a field of this name stands in the same brackets already";
    default:
        return "no refusal of the table";
    }
}

/* Why an escape is not valid: the reason of refusal 13, and behind it which place it has. Every other refusal has the reason 0. */
enum sarridok_escape_reason {
    SARRIDOK_REASON_DIGIT_NOT_HEX = 1,          /* behind the character that is no digit */
    SARRIDOK_REASON_UNKNOWN_LETTER = 2,         /* behind it */
    SARRIDOK_REASON_NOT_BYTE_ESCAPED = 3,       /* behind the last digits read */
    SARRIDOK_REASON_MISSING_OPEN_BRACE = 4,     /* behind the `u` */
    SARRIDOK_REASON_NO_DIGITS = 5,              /* at the `}` */
    SARRIDOK_REASON_NO_CLOSING_BRACE = 6,       /* behind the sixth digit */
    SARRIDOK_REASON_NOT_A_CHARACTER = 7,        /* behind the `}` */
    SARRIDOK_REASON_UNICODE_IN_BYTE_LITERAL = 8 /* behind the `}` */
};

/* The words of a reason; of any other number, 0 too, "": there is nothing to add to the sentence. */
static inline const char *sarridok_reason_text(uint32_t reason) {
    switch (reason) {
    case SARRIDOK_REASON_DIGIT_NOT_HEX:
        return "digit not hex";
    case SARRIDOK_REASON_UNKNOWN_LETTER:
        return "unknown letter";
    case SARRIDOK_REASON_NOT_BYTE_ESCAPED:
        return "not a byte-escaped character";
    case SARRIDOK_REASON_MISSING_OPEN_BRACE:
        return "missing open brace";
    case SARRIDOK_REASON_NO_DIGITS:
        return "no digits";
    case SARRIDOK_REASON_NO_CLOSING_BRACE:
        return "no closing brace";
    case SARRIDOK_REASON_NOT_A_CHARACTER:
        return "not a character";
    case SARRIDOK_REASON_UNICODE_IN_BYTE_LITERAL:
        return "Unicode in a byte literal";
    default:
        return "";
    }
}
/* refusals: end */

/* ---- What an answer holds. Each takes one thing out, and is asked of an answer that has it */

static inline int sarridok_is_refused(uint64_t answer) { return answer >> 63 != 0; }

/* Of a refused answer, its number; 0 for an accepted one. */
static inline uint32_t sarridok_refusal_number(uint64_t answer) {
    return sarridok_is_refused(answer) ? (uint32_t)(answer >> 32) & 0xFF : 0;
}

/* Of a refused answer, its reason, of enum sarridok_escape_reason; 0 for every number but 13, and for an accepted one. */
static inline uint32_t sarridok_refusal_reason(uint64_t answer) {
    return sarridok_is_refused(answer) ? (uint32_t)(answer >> 40) & 0xFF : 0;
}

/* Of a refused answer, its place. */
static inline uint32_t sarridok_refusal_place(uint64_t answer) { return (uint32_t)answer; }

/* Of an accepted read or repair, how many entries; of decoded, how many bytes. */
static inline size_t sarridok_count(uint64_t answer) { return (size_t)answer; }

/* Of an accepted integer, whether it has a minus, and the place behind it. */
static inline int sarridok_integer_minus(uint64_t answer) { return answer >> 32 != 0; }
static inline size_t sarridok_integer_end(uint64_t answer) { return (uint32_t)answer; }

/* Of a code that integers wrote, the width, and whether the value is below zero. */
static inline enum sarridok_width sarridok_code_width(uint8_t code) { return (enum sarridok_width)(code % SARRIDOK_CODE_BELOW_ZERO); }
static inline int sarridok_code_minus(uint8_t code) { return code >= SARRIDOK_CODE_BELOW_ZERO; }

/* Of accepted contents, the places where they begin and end. */
static inline size_t sarridok_contents_start(uint64_t answer) { return (size_t)(answer >> 32); }
static inline size_t sarridok_contents_end(uint64_t answer) { return (uint32_t)answer; }

/* Of an accepted struct_kind, the type of the struct. */
static inline enum sarridok_struct_type sarridok_struct_type(uint64_t answer) { return (enum sarridok_struct_type)answer; }

/* Of an accepted skip, the place of the cursor. */
static inline size_t sarridok_skip_cursor(uint64_t answer) { return (size_t)answer; }

/* ---- The entries of a tape */

struct sarridok_entry {
    uint32_t kind;   /* of enum sarridok_kind */
    uint32_t start;  /* the place of its first byte */
    uint32_t end;    /* the place behind its last byte */
    uint32_t detail; /* what its kind says of it, else 0 */
    uint32_t gap;    /* how many bytes stand before it: from the former entry's end, or the text's start, to its start */
};

/* Entries are in order, as walk and repair want them (else 23), where each has a kind, starts below its end, and has exactly that distance for its gap.
 * The bytes of a gap, from start - gap to start, are whitespace and comments. Those behind the last entry are in no gap. */

/* Entry i of a tape, counted from 0. The tape has that entry: i is below the count that a read or a repair answered. */
static inline struct sarridok_entry sarridok_entry(const uint32_t *tape, size_t i) {
    const uint32_t *row = tape + SARRIDOK_ENTRY * i;
    struct sarridok_entry entry = {row[0], row[1], row[2], row[3], row[4]};
    return entry;
}

/* ---- The calls */

/* Reads a text into a tape, SARRIDOK_ENTRY numbers to an entry. Whitespace and comments make no entry, but the next one's gap; a text has at most as many entries as bytes.
 * Accepted: the number of entries (sarridok_count), which stand at the front of the tape; the rest of it is as it was.
 * Refused: 1, 2, then the first refusal of reading (4 to 21), and 22 last. */
uint64_t sarridok_read(const uint8_t *text, size_t text_len, uint32_t *tape, size_t tape_len);

/* Joins the brackets of a tape: one link to an entry. `limit` is how many brackets may be open at once, 0 to 128. Within one ( ) of fields no name may come again;
 * of a raw name, what stands behind `r#` is the name, so that r#width and width are one. Names are read off the text, so give the one that the tape was read from;
 * any other is answered too, by the bytes that stand there.
 * Accepted: 0. The first `count` links are written: an opening bracket's is the number of its closing one, and the other way round; any other entry's is its own.
 * Refused: 1, 2, 28 for a limit above 128, 23 for a count above the tape's room, entries that are not in order or end behind the text, or a raw name that is not `r#` with
 * more behind it, 22, then the first, by entries, of 24, 25, 26 and 31; 31 names the field that comes again. */
uint64_t sarridok_walk(const uint8_t *text, size_t text_len, const uint32_t *tape, size_t tape_len, size_t count, size_t limit, uint32_t *links, size_t links_len);

/* Makes the tape of an old text that of `text`, which differs from it in one run of bytes: the old text had `old_len` bytes, and those from `a` to `b`
 * were replaced. `count` is the number of old entries.
 * Accepted: the number of entries now (sarridok_count); behind them the tape is zero up to the old count, and then as it was. *before and *behind are how many old entries
 * were kept before and behind the change. One kept behind has its old gap too: the first behind the change is not kept where more or fewer bytes stand before it now.
 * Where the tape is the old text's, all this is what a fresh reading gives.
 * Refused: 1, 2, 23 for a cut or lengths that cannot be, a count above the tape's room, or entries that are not in order or end behind old_len, then the first refusal of
 * reading, and 22 last. */
uint64_t sarridok_repair(uint32_t *tape, size_t tape_len, size_t count, size_t old_len, size_t a, size_t b, const uint8_t *text, size_t text_len,
                         uint64_t *before, uint64_t *behind);

/* The integer at a place, in a width of enum sarridok_width; a byte literal is u8.
 * Accepted: minus * 2^32 + the place behind it (sarridok_integer_minus, _end); minus is 0 or 1. *magnitude is the number without its minus; there is no minus at 0.
 * Refused: 1, 2, 28 for a place or a width that is unfit, 6 to 15 of reading, 27 for another suffix. */
uint64_t sarridok_integer(const uint8_t *text, size_t text_len, size_t place, uint32_t width, uint64_t *magnitude);

/* The integers that a list of entry numbers names, each in its entry's width, as sarridok_integer reads it at the entry's start. Entries may come in any order and more than once;
 * of each only kind, start and detail are looked at.
 * Accepted: 0. For each item, in the list's order, the number without its minus stands in `magnitudes` and in `codes` the width, with SARRIDOK_CODE_BELOW_ZERO added below zero
 * (sarridok_code_width, _minus); behind them both are as they were.
 * Refused: 1, 2, 23 for a count above the tape's room, then the first item that has a refusal, with the item's number in the list, from 0, for its place: 28 for an entry number
 * not below the count or a start that is unfit, 27 for an entry that is no integer of a width, 6 to 15 of reading, 27 for another suffix. 22 last, where `magnitudes` or `codes`
 * is shorter than the list. An item's number above 2^32 - 1 is told as 2^32 - 1.
 * The text is judged once, and an entry read each time that the list names it: 0.3 ms for one of 65,536 digits, 16 ns for a node number. */
uint64_t sarridok_integers(const uint8_t *text, size_t text_len, const uint32_t *tape, size_t tape_len, size_t count, const uint32_t *items, size_t items_len,
                           uint64_t *magnitudes, size_t magnitudes_len, uint8_t *codes, size_t codes_len);

/* The bytes inside the string or byte string that an entry names, where nothing in it was escaped. Of the entry only kind and start are looked at.
 * Accepted: start * 2^32 + end (sarridok_contents_start, _end), a part of the text.
 * Refused: 1, 2, 28, 23, 27, then the refusals of reading the string, 29. */
uint64_t sarridok_contents(const uint8_t *text, size_t text_len, const uint32_t *tape, size_t tape_len, size_t count, size_t entry);

/* The same decoded, in every case. An entry that a read has written has the length in its detail.
 * Accepted: how many bytes (sarridok_count) stand at the front of `out`; the rest of it is as it was.
 * Refused: 1, 2, 28, 23, 27, then the refusals of reading the string, and 22 last. */
uint64_t sarridok_decoded(const uint8_t *text, size_t text_len, const uint32_t *tape, size_t tape_len, size_t count, size_t entry, uint8_t *out,
                          size_t out_len);

/* The kind of the struct at a place, in a mode of enum sarridok_newtype_mode and one of enum sarridok_tuple_mode.
 * Accepted: a number of enum sarridok_struct_type (sarridok_struct_type).
 * Refused: 1, 2, 28 for a place or a mode that is unfit, then the refusals of reading. */
uint64_t sarridok_struct_kind(const uint8_t *text, size_t text_len, size_t place, uint32_t newtype, uint32_t tuple);

/* Behind the whitespace and comments at a cursor of three numbers: its place, where the last whitespace began, and how long that was
 * (or SARRIDOK_UNCLOSED_LINE).
 * Accepted: the place (sarridok_skip_cursor). The two other numbers of the cursor are written.
 * Refused: 1, 2, 28, then 4 to 6. */
uint64_t sarridok_skip(const uint8_t *text, size_t text_len, size_t cursor, size_t pre_ws_cursor, size_t last_ws_len, uint64_t *new_pre_ws_cursor,
                       uint64_t *new_last_ws_len);

/* ---- A text that arrives in pieces
 *
 * Between two pieces there are SARRIDOK_ARRIVAL numbers, the state, and at most SARRIDOK_MAX_KEPT bytes at the front of a buffer: state[SARRIDOK_ARRIVAL_KEPT] of them. The host puts
 * the next piece right behind these. It may store both, over a loss of power too, and go on with them in another buffer.
 *
 * However a text is cut, the entries and the last answer are those of one sarridok_read with room enough, but for 1 and 2, which are told when met, and 30; at which byte anything is
 * given depends on the text alone (docs/ARRIVAL.md has the rule). Places are those of the whole text. A piece gives at most as many entries as bytes were kept and come with it. */

/* The state before a text's first byte; nothing is kept.
 * Accepted: 0. The first SARRIDOK_ARRIVAL numbers are written; those behind them are as they were.
 * Refused: 22 for fewer numbers. */
uint64_t sarridok_begin(uint32_t *state, size_t state_len);

/* The next n bytes of a text, which stand in the buffer behind those that are kept; n may be 0.
 * Accepted: 0. *count entries, which what has come decides, stand at the front of the tape; the rest of it is as it was. The state is that behind the piece, and what is kept now
 * stands at the front of the buffer; what stands behind the ten numbers and behind the bytes kept is as it was.
 * Refused with 22 or 23: nothing of the piece was taken and nothing is written, not *count either. 23 first, for a state that is not in order or a buffer shorter than what is kept and n
 * together; 22 where the entries do not fit: the piece, or a shorter one, may then be given again.
 * Refused with any other number: the text is refused, with 1, 2, 30 or a refusal of reading. *count entries that come before it stand at the front of the tape, and all else is written
 * as for an accepted piece. The state holds the refusal: every later piece, and the end, get it again and give no entry.
 * A state that these calls made is never out of order. One that they did not make may be: fewer than ten numbers, a gap above 3, a level or a last byte with a gap other than 3, a last
 * byte, number or reason above 255 (none is cut short), and numbers that no text leads to, as far as they tell that by themselves. */
uint64_t sarridok_piece(uint32_t *state, size_t state_len, uint8_t *buffer, size_t buffer_len, size_t n, uint32_t *tape, size_t tape_len, uint64_t *count);

/* The end of the text, with what is kept at the front of the buffer. State and buffer are read and stay as they are.
 * Accepted: 0, and so is the text. *count entries, its last, stand at the front of the tape; the rest of it is as it was.
 * Refused with 22 or 23, as for a piece: nothing is written, and behind 22 the end may be asked again.
 * Refused with any other number: the text is refused, with the state's own refusal, 2 for a character that is cut off, or a refusal of reading. *count entries that come before it stand
 * at the front of the tape. */
uint64_t sarridok_finish(const uint32_t *state, size_t state_len, const uint8_t *buffer, size_t buffer_len, uint32_t *tape, size_t tape_len, uint64_t *count);

#ifdef __cplusplus
}
#endif

#endif
