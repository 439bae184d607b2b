/* Pechunaq for rig software: check sheets closed and judged, record by record.
 *
 * A session is a machine (a signature and a structure) and, where it was begun for a sheet, how
 * that sheet stands. The caller keeps it, in memory of its own; one may be copied by assignment,
 * and nothing has to be freed. There is no global state. Every call returns for every sheet, record
 * and file: what is wrong with one is refused by a number (pechunaq_refusal), and the machine is
 * then as it was. lib/README.md says what is proved, document 01 what records and lines mean.
 *
 * What the C side can break, and nothing here can notice:
 * - A pointer or a length that is not of memory that is there. `record` has 32 bytes, `line` 81,
 *   `sheet` and `file` as many as the length beside them says. A length over that reads past the
 *   end, and in pechunaq_session_park writes past it.
 * - A session whose bytes no call has put there: one that was not begun, was changed by hand, comes
 *   from another version, or is used by two threads at once. Memory that is all zeros may be used:
 *   it is what pechunaq_session_begin_sheet(s, 0) gives.
 * - A buffer that overlaps the session.
 * - Too small a stack: inside, sessions go by value. 1 MB is enough (lib/README.md).
 * - Another processor or system than x86-64 Linux, whose way to hand over structs is meant here.
 */
#ifndef PECHUNAQ_H
#define PECHUNAQ_H

#include <stdbool.h>
#include <stddef.h>
#include <stdint.h>
#include <string.h>

#if !defined(__x86_64__) || !defined(__linux__)
#error "libpechunaq.a is for x86-64 Linux"
#endif

#ifdef __cplusplus
#define PECHUNAQ_ASSERT(fact) static_assert(fact, #fact)
extern "C" {
#else
#define PECHUNAQ_ASSERT(fact) _Static_assert(fact, #fact)
#endif

enum {
    PECHUNAQ_RECORD_BYTES = 32,
    PECHUNAQ_MAX_SHEET = 32768, /* bytes: 1,024 records */
    PECHUNAQ_MAX_LINE = 80,     /* bytes of a line, its newline among them */
    PECHUNAQ_LINE_BUFFER = 81,  /* a line and a NUL */
    PECHUNAQ_MAX_FILE = 16274   /* bytes of the longest parked file */
};

/* Kinds of records. Beside each: A, B, and whether parents [..] and arguments (..) are given. */
enum pechunaq_kind {
    PECHUNAQ_TYPE = 1,              /* a type: A its kind, B the model of a Mor, [types] */
    PECHUNAQ_PREDICATE = 2,         /* [types] (types) */
    PECHUNAQ_FUNCTION = 3,          /* B codomain, [types] (types) */
    PECHUNAQ_MODEL = 4,             /* A type, B mor, (functions dom, cod, id, comp) */
    PECHUNAQ_MORPHISM_APP = 5,      /* A function, (morphism type, member type) */
    PECHUNAQ_ELEMENT = 6,           /* A 1 where it is marked, else 0 */
    PECHUNAQ_EQUALITY = 7,          /* A and B, elements */
    PECHUNAQ_IMPOSITION = 8,        /* A element, B type, [elements], as many as the type has */
    PECHUNAQ_APPLICATION = 9,       /* A function, B result, [elements] (elements) */
    PECHUNAQ_PREDICATE_APP = 10,    /* A predicate, [elements] (elements) */
    PECHUNAQ_VARIABLE = 11,         /* A key, 0 to 63, B element */
    PECHUNAQ_AMBIENT = 12,          /* A type, B element */
    PECHUNAQ_CLOSE = 13,
    PECHUNAQ_CONFLICTS = 14,
    PECHUNAQ_SETTLE = 15            /* closes until one changes nothing */
};

/* Kinds of types. */
enum pechunaq_type_kind {
    PECHUNAQ_TYPE_PLAIN = 0,
    PECHUNAQ_TYPE_MODEL = 1,
    PECHUNAQ_TYPE_ENUM = 2,
    PECHUNAQ_TYPE_MOR = 3
};

/* Why something is refused. tools/README.md says more, and what to do. 10 is of no call here. */
enum pechunaq_refusal {
    PECHUNAQ_ACCEPTED = 0,           /* not refused */
    PECHUNAQ_BAD_SHEET = 1,          /* no sheet: empty, cut inside a record, or too long */
    PECHUNAQ_BAD_CHAIN = 2,          /* a next index not in the sheet, or the chain does not end */
    PECHUNAQ_MALFORMED = 3,          /* kind, count, key or a word that must be zero is wrong */
    PECHUNAQ_TOO_LATE = 4,           /* kinds 1 to 5 after an accepted record of another kind */
    PECHUNAQ_UNDECLARED = 5,         /* a number that is not declared */
    PECHUNAQ_WRONG_KIND = 6,         /* another kind of type is needed */
    PECHUNAQ_RESERVED = 7,           /* a function that cannot be applied, by a record of kind 5 */
    PECHUNAQ_GIVEN_AGAIN = 8,        /* what may be given once is given twice */
    PECHUNAQ_NO_ROOM = 9,            /* a table is full; of a park: the buffer is too short */
    PECHUNAQ_TOO_MANY_FACTS = 11,    /* a close would hold 1,025 facts */
    PECHUNAQ_WRONG_ARG_COUNT = 12,   /* an identity not of one element, a composite not of two */
    PECHUNAQ_WRONG_LENGTH = 13,      /* the file is not as long as it says */
    PECHUNAQ_WRONG_CONTENT = 14,     /* the file is damaged, or of another signature */
    PECHUNAQ_WRONG_PARENT_COUNT = 15 /* an imposition without as many parents as its type has */
};

/* What a record was answered. Numbers that a kind does not name are 0. */
enum pechunaq_reply_kind {
    PECHUNAQ_REPLY_DONE = 0,        /* kinds 11, 12 */
    PECHUNAQ_REPLY_NUMBER = 1,      /* kinds 1 to 6: the number of what was declared, from 0 */
    PECHUNAQ_REPLY_SAYS = 2,        /* kinds 7 to 10: 1 where it says something new, else 0 */
    PECHUNAQ_REPLY_CLOSED = 3,      /* kind 13: changed (1 or 0), merges, rounds, facts added */
    PECHUNAQ_REPLY_CONFLICTING = 4, /* kind 14: how many conflicts, how many finds */
    PECHUNAQ_REPLY_SUMMED = 5,      /* kind 15: closes, merges */
    PECHUNAQ_REPLY_REFUSED = 6      /* any kind: the number of the refusal */
};

typedef struct pechunaq_reply {
    uint16_t kind;
    uint64_t numbers[4];
} pechunaq_reply;

/* Its words are the library's own: they may be copied, and nothing else. Two sessions that stand
 * for the same may differ in them. */
typedef struct pechunaq_session {
    uint16_t words[19883];
} pechunaq_session;

/* `refused` is 0 and `size` that of the file, or `refused` says why and `size` is 0. */
typedef struct pechunaq_parked {
    size_t size;
    uint16_t refused;
} pechunaq_parked;

/* The functions of the archive, which take and give sessions by value. The calls below them are
 * meant for use. */

typedef struct pechunaq_line {
    uint8_t bytes[PECHUNAQ_MAX_LINE];
    uint16_t len;
} pechunaq_line;

typedef struct pechunaq_handed_in {
    pechunaq_reply answer;
    pechunaq_session session;
} pechunaq_handed_in;

typedef struct pechunaq_taken {
    pechunaq_line line;
    pechunaq_session session;
} pechunaq_taken;

typedef struct pechunaq_resumed {
    uint16_t refused;
    pechunaq_session session;
} pechunaq_resumed;

PECHUNAQ_ASSERT(sizeof(size_t) == 8);
PECHUNAQ_ASSERT(sizeof(pechunaq_reply) == 40);
PECHUNAQ_ASSERT(sizeof(pechunaq_session) == 39766);
PECHUNAQ_ASSERT(sizeof(pechunaq_parked) == 16);
PECHUNAQ_ASSERT(sizeof(pechunaq_line) == 82);
PECHUNAQ_ASSERT(sizeof(pechunaq_handed_in) == 39808);
PECHUNAQ_ASSERT(sizeof(pechunaq_taken) == 39848);
PECHUNAQ_ASSERT(sizeof(pechunaq_resumed) == 39768);

pechunaq_session pechunaq_begin(void);
pechunaq_session pechunaq_begin_sheet(size_t length);
pechunaq_handed_in pechunaq_hand_in(pechunaq_session s, const uint8_t *record);
pechunaq_taken pechunaq_next_line(pechunaq_session s, const uint8_t *sheet, size_t length);
pechunaq_parked pechunaq_park(pechunaq_session s, uint8_t *file, size_t length);
pechunaq_resumed pechunaq_resume(pechunaq_session s, const uint8_t *file, size_t length);
bool pechunaq_is_settled(pechunaq_session s);

/* The calls. */

/* Begins the empty machine, to which records are handed in. */
static inline void pechunaq_session_begin(pechunaq_session *s) {
    *s = pechunaq_begin();
}

/* Begins a sheet of so many bytes, before its first record. A length that no sheet has is told by
 * the first line, `refused 1 at 0`. */
static inline void pechunaq_session_begin_sheet(pechunaq_session *s, size_t length) {
    *s = pechunaq_begin_sheet(length);
}

/* Carries out one record of 32 bytes; its next index, word 0, is not looked at. The lines that it
 * prints come from pechunaq_session_next_line; those of the record before it that were not taken
 * are dropped, and so is the rest of a sheet. A record that is refused leaves the machine as it
 * was, and more may be handed in. */
static inline pechunaq_reply pechunaq_session_hand_in(
    pechunaq_session *s, const uint8_t record[PECHUNAQ_RECORD_BYTES]) {
    pechunaq_handed_in r = pechunaq_hand_in(*s, record);
    *s = r.session;
    return r.answer;
}

/* Takes the next line, with its newline and a NUL after it, and says how long it is without the
 * NUL: 0, and an empty line, where no more comes. For a sheet give its bytes, the same each time:
 * the lines are those of the program close_sheet, one by one, and a call carries out the records up
 * to the next line. For a machine give NULL and 0: the lines are those of the record handed in
 * last, without `end K`, and the I of `refused N at I` says how many records were handed in before
 * it, up to 65,535. */
static inline size_t pechunaq_session_next_line(
    pechunaq_session *s, const uint8_t *sheet, size_t length, char line[PECHUNAQ_LINE_BUFFER]) {
    uint8_t none = 0;
    pechunaq_taken r = pechunaq_next_line(*s, sheet ? sheet : &none, sheet ? length : 0);
    size_t len = r.line.len;
    if (len > PECHUNAQ_MAX_LINE) {
        len = PECHUNAQ_MAX_LINE;
    }
    memcpy(line, r.line.bytes, len);
    line[len] = 0;
    *s = r.session;
    return len;
}

/* Stores the structure at the front of a buffer of so many bytes, as docs/FILE.md says; the bytes
 * after it stay. PECHUNAQ_MAX_FILE bytes are always enough; a buffer that is too short is refused
 * with 9, and left as it was. The signature is not in the file. */
static inline pechunaq_parked pechunaq_session_park(
    const pechunaq_session *s, uint8_t *file, size_t length) {
    uint8_t none = 0;
    return pechunaq_park(*s, file ? file : &none, file ? length : 0);
}

/* Loads the structure of a file of exactly so many bytes in place of the session's, and says 0; or
 * 13 or 14, and the session is as it was. It is loaded under the session's signature, so first hand
 * in the records of kinds 1 to 5, as they were before the file was parked. All else of the session
 * stays. */
static inline uint16_t pechunaq_session_resume(
    pechunaq_session *s, const uint8_t *file, size_t length) {
    uint8_t none = 0;
    pechunaq_resumed r = pechunaq_resume(*s, file ? file : &none, file ? length : 0);
    *s = r.session;
    return r.refused;
}

/* Whether the structure is settled: the latest accepted close changed nothing, and nothing accepted
 * since said something new. Else its conflicts may not be the last word. */
static inline bool pechunaq_session_is_settled(const pechunaq_session *s) {
    return pechunaq_is_settled(*s);
}

/* Records. */

/* Sets a word of a record. Word 0 is the next index, which only a sheet needs. */
static inline void pechunaq_set_word(
    uint8_t record[PECHUNAQ_RECORD_BYTES], size_t word, uint16_t number) {
    record[2 * word] = (uint8_t)(number & 255);
    record[2 * word + 1] = (uint8_t)(number >> 8);
}

/* Writes a record with n parents and k arguments, and next index 0. A list that is empty may be
 * NULL. Of a list of more than four, four are written with the count 5, and the record is refused
 * with 3. */
static inline void pechunaq_record(
    uint8_t record[PECHUNAQ_RECORD_BYTES], uint16_t kind, uint16_t a, uint16_t b,
    const uint16_t *parents, size_t n, const uint16_t *args, size_t k) {
    memset(record, 0, PECHUNAQ_RECORD_BYTES);
    pechunaq_set_word(record, 1, kind);
    pechunaq_set_word(record, 2, a);
    pechunaq_set_word(record, 3, b);
    pechunaq_set_word(record, 4, (uint16_t)(n <= 4 ? n : 5));
    pechunaq_set_word(record, 5, (uint16_t)(k <= 4 ? k : 5));
    for (size_t i = 0; i < n && i < 4; i++) {
        pechunaq_set_word(record, 6 + i, parents[i]);
    }
    for (size_t i = 0; i < k && i < 4; i++) {
        pechunaq_set_word(record, 10 + i, args[i]);
    }
}

#undef PECHUNAQ_ASSERT

#ifdef __cplusplus
}
#endif

#endif
