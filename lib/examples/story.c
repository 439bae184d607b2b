/* README's story of the box without a name, through the C interface: conflicts asked for too early,
 * then after a settle, then from a parked structure. samples/unnamed-box.txt has it as a sheet.
 * story.rs does the same in Rust and prints the same. lib/run builds and runs both. */
#include <stdio.h>
#include <stdlib.h>

#include "pechunaq.h"

enum { BOX, UNIT, PACK, PLATE };
enum { UNIT_OF };
enum { BOX_7, UNNAMED, UNIT_K, UNIT_X, SERIAL_PLATE, PACK_1, PACK_COUNT = 9 };

/* Prints the lines of the record handed in last. */
static void print_lines(pechunaq_session *s) {
    char line[PECHUNAQ_LINE_BUFFER];
    while (pechunaq_session_next_line(s, NULL, 0, line) > 0) {
        fputs(line, stdout);
    }
}

/* Hands in a record, prints its lines and gives its answer. This story has no record that should be
 * refused, so a refusal ends it. */
static pechunaq_reply hand_in(pechunaq_session *s, const uint8_t *record) {
    pechunaq_reply reply = pechunaq_session_hand_in(s, record);
    print_lines(s);
    if (reply.kind == PECHUNAQ_REPLY_REFUSED) {
        exit(1);
    }
    return reply;
}

/* A record with at most one parent and no arguments; all records of this story are such. */
static pechunaq_reply tell(pechunaq_session *s, uint16_t kind, uint16_t a, uint16_t b,
                           const uint16_t *parent) {
    uint8_t record[PECHUNAQ_RECORD_BYTES];
    pechunaq_record(record, kind, a, b, parent, parent ? 1 : 0, NULL, 0);
    return hand_in(s, record);
}

static pechunaq_reply ask(pechunaq_session *s, uint16_t kind) {
    return tell(s, kind, 0, 0, NULL);
}

/* The signature, which is no part of a parked file. */
static void declare(pechunaq_session *s) {
    const uint16_t box = BOX, unit = UNIT;
    tell(s, PECHUNAQ_TYPE, PECHUNAQ_TYPE_MODEL, 0, NULL);
    tell(s, PECHUNAQ_TYPE, PECHUNAQ_TYPE_MODEL, 0, &box);
    tell(s, PECHUNAQ_TYPE, PECHUNAQ_TYPE_PLAIN, 0, &unit);
    tell(s, PECHUNAQ_TYPE, PECHUNAQ_TYPE_PLAIN, 0, &box);
    tell(s, PECHUNAQ_FUNCTION, 0, UNIT, &box);
}

/* What the two sheets say: both list the same packs, each under its own name for the unit, and the
 * serial plate is on both. */
static void describe(pechunaq_session *s) {
    const uint16_t boxes[] = {BOX_7, UNNAMED}, units[] = {UNIT_K, UNIT_X};
    for (uint16_t el = BOX_7; el < PACK_1 + PACK_COUNT; el++) {
        tell(s, PECHUNAQ_ELEMENT, el == UNNAMED, 0, NULL);
    }
    for (int sheet = 0; sheet < 2; sheet++) {
        tell(s, PECHUNAQ_APPLICATION, UNIT_OF, units[sheet], &boxes[sheet]);
    }
    for (int sheet = 0; sheet < 2; sheet++) {
        for (uint16_t pack = PACK_1; pack < PACK_1 + PACK_COUNT; pack++) {
            tell(s, PECHUNAQ_IMPOSITION, pack, PACK, &units[sheet]);
        }
    }
    for (int sheet = 0; sheet < 2; sheet++) {
        tell(s, PECHUNAQ_IMPOSITION, SERIAL_PLATE, PLATE, &boxes[sheet]);
    }
}

/* Asks for the conflicts, and says whether they may be acted on. */
static void judge(pechunaq_session *s) {
    unsigned long count = (unsigned long)ask(s, PECHUNAQ_CONFLICTS).numbers[0];
    if (!pechunaq_session_is_settled(s)) {
        printf("-> not settled: open no pack for these %lu conflicts, they may go away\n", count);
    } else if (count > 0) {
        printf("-> settled: these %lu conflicts are real\n", count);
    } else {
        printf("-> settled: no conflict, the sheets agree\n");
    }
}

int main(void) {
    static pechunaq_session early, settled, resumed;
    static uint8_t file[PECHUNAQ_MAX_FILE];

    printf("== asked after one close\n");
    pechunaq_session_begin(&early);
    declare(&early);
    describe(&early);
    pechunaq_reply closed = ask(&early, PECHUNAQ_CLOSE);
    if (closed.numbers[0]) {
        printf("-> this close changed something (merges %lu, new facts %lu): "
               "the next one may too\n",
               (unsigned long)closed.numbers[1], (unsigned long)closed.numbers[3]);
    }
    judge(&early);

    printf("== asked after a settle\n");
    pechunaq_session_begin(&settled);
    declare(&settled);
    describe(&settled);
    pechunaq_reply summed = ask(&settled, PECHUNAQ_SETTLE);
    printf("-> it took %lu closes with %lu merges\n", (unsigned long)summed.numbers[0],
           (unsigned long)summed.numbers[1]);
    judge(&settled);

    printf("== parked over a shutdown, and resumed\n");
    pechunaq_parked parked = pechunaq_session_park(&settled, file, sizeof file);
    if (parked.refused) {
        printf("-> not parked: refused %u\n", parked.refused);
        return 1;
    }
    printf("-> parked in %zu bytes\n", parked.size);
    pechunaq_session_begin(&resumed);
    declare(&resumed);
    uint16_t refused = pechunaq_session_resume(&resumed, file, parked.size);
    if (refused) {
        printf("-> not resumed: refused %u\n", refused);
        return 1;
    }
    judge(&resumed);

    /* A file that was cut off is refused, and the session goes on as it was. */
    refused = pechunaq_session_resume(&resumed, file, parked.size - 1);
    printf("-> a file that was cut off: refused %u, %s\n", refused,
           pechunaq_session_is_settled(&resumed) ? "still settled" : "not settled any more");
    return 0;
}
