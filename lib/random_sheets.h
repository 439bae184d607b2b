/* Random sheets for test_sheets.c: most of them are accepted, some are damaged. The histories are
 * like those of oracle/driver/src/random.rs; elements are few, so that much merges. */
#ifndef PECHUNAQ_RANDOM_SHEETS_H
#define PECHUNAQ_RANDOM_SHEETS_H

#include "pechunaq.h"

/* ---- random numbers: xorshift64*, from a seed and a number */

static uint64_t state;

static void begin_random(uint64_t one, uint64_t two) {
    state = one * UINT64_C(0x9E3779B97F4A7C15) ^ (two + 1) * UINT64_C(0xBF58476D1CE4E5B9);
    state ^= state >> 31;
    state = state ? state : 1;
}

static uint64_t any(void) {
    state ^= state >> 12;
    state ^= state << 25;
    state ^= state >> 27;
    return state * UINT64_C(0x2545F4914F6CDD1D) >> 16;
}

static unsigned below(size_t n) {
    return (unsigned)(any() % n);
}

static unsigned between(size_t least, size_t most) {
    return (unsigned)(least + below(most - least + 1));
}

static bool percent(unsigned n) {
    return below(100) < n;
}

/* ---- records */

enum { WORDS = 16, MAX_RECORDS = PECHUNAQ_MAX_SHEET / PECHUNAQ_RECORD_BYTES, MOST_MADE = 1100 };

static struct {
    uint16_t words[MOST_MADE][WORDS];
    size_t count;
    /* The types with their kinds and numbers of parents, predicates and functions with both counts,
     * models whose maps are composed: dom, cod, id, comp, and the number of parents. */
    unsigned types, type_kind[40], type_parents[40];
    unsigned preds, pred_parents[40], pred_args[40];
    unsigned funcs, func_parents[80], func_args[80];
    unsigned maps, map_funcs[4][4], map_parents[4];
    unsigned els, impositions, applications, pred_apps;
    /* How many elements in a hundred are marked; most elements are taken from the first so many. */
    unsigned marks, near;
} made;

static void add_words(unsigned kind, unsigned a, unsigned b, unsigned n, const uint16_t *parents,
                      unsigned k, const uint16_t *args) {
    if (made.count == MOST_MADE) {
        return;
    }
    made.impositions += kind == PECHUNAQ_IMPOSITION;
    made.applications += kind == PECHUNAQ_APPLICATION;
    made.pred_apps += kind == PECHUNAQ_PREDICATE_APP;
    uint16_t *w = made.words[made.count++];
    memset(w, 0, 2 * WORDS);
    w[1] = (uint16_t)kind, w[2] = (uint16_t)a, w[3] = (uint16_t)b;
    w[4] = (uint16_t)n, w[5] = (uint16_t)k;
    for (unsigned i = 0; i < n; i++) {
        w[6 + i] = parents[i];
    }
    for (unsigned i = 0; i < k; i++) {
        w[10 + i] = args[i];
    }
}

static void add_plain(unsigned kind) {
    add_words(kind, 0, 0, 0, NULL, 0, NULL);
}

static void add_type(unsigned kind, unsigned model, unsigned n, const uint16_t *parents) {
    if (made.types < 40) {
        made.type_kind[made.types] = kind;
        made.type_parents[made.types++] = n;
    }
    add_words(PECHUNAQ_TYPE, kind, model, n, parents, 0, NULL);
}

static void add_pred(unsigned n, const uint16_t *parents, unsigned k, const uint16_t *args) {
    if (made.preds < 40) {
        made.pred_parents[made.preds] = n;
        made.pred_args[made.preds++] = k;
    }
    add_words(PECHUNAQ_PREDICATE, 0, 0, n, parents, k, args);
}

static void add_func(unsigned n, const uint16_t *parents, unsigned k, const uint16_t *args,
                     unsigned codomain) {
    if (made.funcs < 80) {
        made.func_parents[made.funcs] = n;
        made.func_args[made.funcs++] = k;
    }
    add_words(PECHUNAQ_FUNCTION, 0, codomain, n, parents, k, args);
}

static void add_el(void) {
    made.els++;
    add_words(PECHUNAQ_ELEMENT, percent(made.marks), 0, 0, NULL, 0, NULL);
}

static void add_els(unsigned least, unsigned most) {
    for (unsigned n = between(least, most); n > 0; n--) {
        add_el();
    }
}

static uint16_t an_el(void) {
    unsigned among = made.els ? made.els : 1;
    return (uint16_t)below(percent(50) && made.near < among ? made.near : among);
}

static uint16_t a_type(void) {
    return (uint16_t)below(made.types ? made.types : 1);
}

static unsigned some_types(uint16_t *types) {
    unsigned n = made.types ? between(0, percent(10) ? 4 : 2) : 0;
    for (unsigned i = 0; i < n; i++) {
        types[i] = a_type();
    }
    return n;
}

static unsigned some_els(uint16_t *els, unsigned n) {
    for (unsigned i = 0; i < n; i++) {
        els[i] = an_el();
    }
    return n;
}

static unsigned about(unsigned n) {
    return percent(10) ? between(0, 4) : n;
}

static void add_close(void) {
    add_plain(percent(40) ? PECHUNAQ_SETTLE : PECHUNAQ_CLOSE);
}

static void declare_types(void) {
    for (unsigned n = between(1, 5); n > 0; n--) {
        uint16_t parents[4];
        unsigned count = some_types(parents), model = a_type(), which = below(10);
        bool is_mor = which == 8 && made.types && made.type_kind[model] == PECHUNAQ_TYPE_MODEL;
        unsigned kind = which < 5 ? 0 : which < 8 ? 1 : is_mor ? 3 : 2;
        add_type(kind, kind == 3 ? model : 0, count, parents);
    }
}

static void declare_relations(void) {
    uint16_t parents[4], args[4];
    for (unsigned i = between(0, 3); i > 0; i--) {
        unsigned n = some_types(parents), k = some_types(args);
        add_pred(n, parents, k, args);
    }
    for (unsigned i = between(0, 4); i > 0; i--) {
        unsigned n = some_types(parents), k = some_types(args);
        add_func(n, parents, k, args, a_type());
    }
}

/* Types under a model and relations that give them, so that marked parents meet in typing. */
static void declare_for_joins(void) {
    const uint16_t zero[] = {0, 0}, one[] = {1, 2}, two[] = {2};
    if (made.marks < 20) {
        made.marks = 20;
    }
    add_type(1, 0, 0, NULL);
    add_type(0, 0, 1, zero);
    add_type(0, 0, 2, zero);
    add_pred(1, zero, 1, one);
    add_pred(2, zero, 2, one);
    add_func(1, zero, 0, NULL, 1);
    add_func(1, zero, 1, one, 1);
    add_func(0, NULL, 1, zero, 0);
    add_func(2, zero, 1, two, 2);
}

/* A model whose maps are composed; sometimes with a record of kind 5, which bars id and comp. */
static void declare_maps(unsigned n, const uint16_t *parents) {
    uint16_t model = (uint16_t)made.types, mor = (uint16_t)(model + 1);
    const uint16_t maps[] = {mor, mor}, objects[] = {model};
    uint16_t funcs[4];
    for (uint16_t i = 0; i < 4; i++) {
        funcs[i] = (uint16_t)(made.funcs + i);
    }
    add_type(1, 0, 0, NULL);
    add_type(3, model, 0, NULL);
    add_func(n, parents, 1, maps, model);
    add_func(n, parents, 1, maps, model);
    add_func(n, parents, 1, objects, mor);
    add_func(n, parents, 2, maps, mor);
    add_words(PECHUNAQ_MODEL, model, mor, 0, NULL, 4, funcs);
    if (made.maps < 4) {
        for (int i = 0; i < 4; i++) {
            made.map_funcs[made.maps][i] = funcs[i];
        }
        made.map_parents[made.maps++] = n;
    }
    if (percent(6)) {
        const uint16_t types[] = {mor, model};
        add_func(0, NULL, 1, maps, model);
        add_words(PECHUNAQ_MORPHISM_APP, made.funcs - 1, 0, 0, NULL, 2, types);
    }
}

static void declare(void) {
    if (percent(30)) {
        declare_for_joins();
    } else {
        declare_types();
        declare_relations();
    }
    while (percent(45)) {
        const uint16_t zero[] = {0, 0};
        declare_maps(made.type_kind[0] == 1 ? between(0, 2) : 0, zero);
    }
}

static void add_imposition(uint16_t el) {
    uint16_t parents[4];
    unsigned typ = a_type(), n = made.types ? made.type_parents[typ] : 0;
    if (below(150) == 0) {
        n = n == 4 ? 3 : n + 1;
    }
    add_words(PECHUNAQ_IMPOSITION, el, typ, some_els(parents, n), parents, 0, NULL);
}

static void add_application(unsigned func, unsigned n, unsigned k) {
    uint16_t parents[4], args[4];
    some_els(parents, n), some_els(args, k);
    add_words(PECHUNAQ_APPLICATION, func, an_el(), n, parents, k, args);
}

static void add_map(void) {
    unsigned model = below(made.maps), which = below(20), n = made.map_parents[model];
    which = which < 4 ? 2 : which < 11 ? 3 : which < 15 ? 0 : 1;
    add_application(made.map_funcs[model][which], n, which == 3 ? 2 : below(200) ? 1 : 3);
}

static void add_call(void) {
    uint16_t a = an_el(), b = an_el(), parents[4], args[4];
    unsigned which = below(100), at;
    if (which < 14) {
        add_words(PECHUNAQ_EQUALITY, a, b, 0, NULL, 0, NULL);
    } else if (which < 32) {
        add_imposition(a);
    } else if (which < 58 && made.maps && percent(70)) {
        add_map();
    } else if (which < 58 && made.funcs) {
        at = below(made.funcs);
        add_application(at, about(made.func_parents[at]), about(made.func_args[at]));
    } else if (which >= 58 && which < 68 && made.preds) {
        at = below(made.preds);
        unsigned n = some_els(parents, about(made.pred_parents[at]));
        unsigned k = some_els(args, about(made.pred_args[at]));
        add_words(PECHUNAQ_PREDICATE_APP, at, 0, n, parents, k, args);
    } else if (which >= 68 && which < 79) {
        add_close();
    } else if (which >= 79 && which < 86) {
        add_plain(PECHUNAQ_CONFLICTS);
    } else if (which >= 86 && which < 90) {
        add_words(PECHUNAQ_VARIABLE, below(24), a, 0, NULL, 0, NULL);
    } else if (which == 90) {
        for (at = 0; at < made.types && made.type_kind[at] != 1; at++) {
        }
        add_words(PECHUNAQ_AMBIENT, at < made.types ? at : 0, a, 0, NULL, 0, NULL);
    } else {
        add_el();
    }
}

/* A settle of as many closes as elements: each close merges one, which brings the next about. */
static void settle_slowly(void) {
    const uint16_t zero[] = {0};
    uint16_t els = (uint16_t)between(3, 9);
    add_type(1, 0, 0, NULL);
    for (uint16_t i = 1; i < els - 1; i++) {
        add_type(0, 0, 1, zero);
    }
    made.marks = 0;
    add_el();
    made.marks = 100;
    add_els(els - 1, els - 1);
    for (uint16_t i = (uint16_t)(els - 1); i >= 3; i--) {
        uint16_t later = (uint16_t)(els - i), one = (uint16_t)(later + 1);
        add_words(PECHUNAQ_IMPOSITION, 0, i - 1u, 1, &later, 0, NULL);
        add_words(PECHUNAQ_IMPOSITION, one, i - 1u, 1, zero, 0, NULL);
    }
    uint16_t last = (uint16_t)(els - 1), one = (uint16_t)(els - 2);
    add_words(PECHUNAQ_IMPOSITION, 0, 1, 1, &last, 0, NULL);
    add_words(PECHUNAQ_IMPOSITION, last, 1, 1, &one, 0, NULL);
    add_words(PECHUNAQ_IMPOSITION, 0, 1, 1, zero, 0, NULL);
    add_plain(percent(70) ? PECHUNAQ_SETTLE : PECHUNAQ_CLOSE);
}

/* Several types of no to four parents on each of some elements: what conflicts are made of. */
static void impose_several(void) {
    const uint16_t zeros[4] = {0};
    add_type(1, 0, 0, NULL);
    for (unsigned n = between(2, 6); n > 0; n--) {
        add_type(0, 0, between(0, 4), zeros);
    }
    add_els(3, 9);
    for (unsigned el = between(1, made.els); el > 0; el--) {
        for (unsigned n = between(1, 3); n > 0; n--) {
            add_imposition((uint16_t)(el - 1));
        }
    }
    add_close();
    add_plain(PECHUNAQ_CONFLICTS);
}

/* About as many facts as there is room for. */
static void fill_with_facts(void) {
    const uint16_t types[] = {0, 1, 2, 3};
    for (int i = 0; i < 5; i++) {
        add_type(0, 0, 0, NULL);
    }
    add_pred(0, NULL, 4, types);
    add_els(256, 256);
    for (uint16_t el = 0, most = (uint16_t)between(254, 256); el < most; el++) {
        const uint16_t args[] = {el, el, el, el};
        add_words(PECHUNAQ_PREDICATE_APP, 0, 0, 0, NULL, 4, args);
    }
    for (unsigned n = below(9); n > 0; n--) {
        add_words(PECHUNAQ_IMPOSITION, an_el(), 4, 0, NULL, 0, NULL);
    }
    add_close();
    if (percent(50)) {
        add_plain(PECHUNAQ_CONFLICTS);
    }
}

/* Identities that need about as many applications in a close as there is room for. */
static void fill_with_maps(void) {
    declare_maps(0, NULL);
    uint16_t count = (uint16_t)between(127, 131);
    add_els(count + 1u, count + 1u);
    for (uint16_t i = 0; i < count; i++) {
        uint16_t el = (uint16_t)(i + 1);
        uint16_t result = percent(99) ? el : 0;
        add_words(PECHUNAQ_APPLICATION, made.map_funcs[0][2], result, 0, NULL, 1, &el);
        if (i == 126 && percent(50)) {
            break;
        }
    }
    add_close();
}

/* One table up to its limit, and mostly one entry more. */
static void fill_a_table(void) {
    static const unsigned limits[] = {32, 32, 64, 256, 256, 64, 256, 256, 64};
    const uint16_t zeros[4] = {0};
    unsigned which = below(9), n = limits[which] + between(0, 1);
    add_type(1, 0, 0, NULL);
    add_type(0, 0, 1, zeros);
    add_pred(0, NULL, 2, zeros);
    add_func(0, NULL, 2, zeros, 0);
    if (which > 3) {
        add_els(20, 60);
    }
    for (unsigned i = which < 2 ? (which ? 1 : 2) : which == 2 ? 1 : 0; i < n; i++) {
        const uint16_t args[] = {(uint16_t)(i % 20), (uint16_t)(i / 20)};
        switch (which) {
        case 0: add_type(i % 3, 0, 0, NULL); break;
        case 1: add_pred(0, NULL, 1, zeros); break;
        case 2: add_func(0, NULL, 1, zeros, 0); break;
        case 3: add_el(); break;
        case 4: add_words(PECHUNAQ_EQUALITY, an_el(), an_el(), 0, NULL, 0, NULL); break;
        case 5: add_words(PECHUNAQ_IMPOSITION, args[0], 1, 1, args + 1, 0, NULL); break;
        case 6: add_words(PECHUNAQ_APPLICATION, 0, an_el(), 0, NULL, 2, args); break;
        case 7: add_words(PECHUNAQ_PREDICATE_APP, 0, 0, 0, NULL, 2, args); break;
        default: add_words(PECHUNAQ_VARIABLE, i % 64, an_el(), 0, NULL, 0, NULL); break;
        }
    }
    add_el();
    add_close();
    add_plain(PECHUNAQ_CONFLICTS);
}

/* About as many records as a sheet may have, with calls that no table is too full for. */
static void fill_with_records(void) {
    declare_for_joins();
    add_els(20, 200);
    for (unsigned most = between(900, 1030), which; made.count < most;) {
        uint16_t a = an_el(), b = an_el();
        which = below(100);
        if (which < 30) {
            add_words(PECHUNAQ_EQUALITY, a, a % 7 ? a : b, 0, NULL, 0, NULL);
        } else if (which < 50 && made.applications < 200) {
            add_application(0, 1, 0);
        } else if (which < 70 && made.pred_apps < 250) {
            add_words(PECHUNAQ_PREDICATE_APP, 0, 0, 1, &a, 1, &b);
        } else if (which < 80 && made.impositions < 60) {
            add_words(PECHUNAQ_IMPOSITION, a, 1, 1, &b, 0, NULL);
        } else if (which < 97) {
            add_close();
        } else {
            add_plain(PECHUNAQ_CONFLICTS);
        }
    }
}

/* Boxes of which some are marked, that join in typing or in the impositions. */
static void join_boxes(void) {
    made.marks = percent(50) ? 30 : 60;
    made.near = between(3, 6);
    declare_for_joins();
    const uint16_t zero[] = {0};
    declare_maps(1, zero);
    add_els(6, 12);
    for (unsigned i = between(2, 8); i > 0; i--) {
        uint16_t part = an_el(), box = an_el();
        switch (below(3)) {
        case 0: add_words(PECHUNAQ_PREDICATE_APP, 0, 0, 1, &box, 1, &part); break;
        case 1: add_words(PECHUNAQ_APPLICATION, 0, part, 1, &box, 0, NULL); break;
        default: add_words(PECHUNAQ_IMPOSITION, part, 1, 1, &box, 0, NULL); break;
        }
        add_map();
    }
    add_close();
}

static void damage_records(void) {
    for (unsigned n = between(1, 3); n > 0 && made.count; n--) {
        uint16_t *one = made.words[below(made.count)], *other = made.words[below(made.count)];
        unsigned word = between(1, 15);
        switch (below(8)) {
        case 0:
            for (unsigned i = 0; i < WORDS; i++) {
                uint16_t kept = one[i];
                one[i] = other[i], other[i] = kept;
            }
            break;
        case 1: memmove(one, other, 2 * WORDS); break;
        case 2: one[word] = (uint16_t)(one[word] + 1); break;
        case 3: one[word] = (uint16_t)(one[word] - 1); break;
        case 4: one[word] = (uint16_t)any(); break;
        default: one[word] = (uint16_t)below(17); break;
        }
    }
}

static void make_history(void) {
    memset(&made, 0, sizeof made);
    static const unsigned marks[] = {0, 0, 20, 50, 100};
    made.marks = marks[below(5)];
    made.near = between(1, 6);
    unsigned which = below(1000), calls = between(0, 12);
    if (which < 8) {
        fill_with_facts();
    } else if (which < 20) {
        fill_with_maps();
    } else if (which < 60) {
        fill_a_table();
    } else if (which < 66) {
        fill_with_records();
        calls = 0;
    } else if (which < 70) {
        declare();
        add_els(20, 256);
        calls = between(50, 700);
    } else if (which < 170) {
        settle_slowly();
    } else if (which < 300) {
        join_boxes();
    } else if (which < 450) {
        impose_several();
    } else {
        declare();
        add_els(1, 9);
        calls = between(2, 40);
    }
    while (calls--) {
        add_call();
    }
    for (unsigned n = between(0, 3); n > 0; n--) {
        add_close();
    }
    if (percent(70)) {
        add_plain(PECHUNAQ_CONFLICTS);
    }
    if (percent(20)) {
        damage_records();
    }
}

/* The records as a sheet: in order, or scattered with some between them that no chain visits;
 * sometimes with a wrong next index, or bytes taken away, added or changed. */
static size_t make_sheet(uint8_t *bytes, size_t room) {
    static size_t places[MOST_MADE + 8];
    size_t count = made.count, spare = percent(25) ? between(1, 5) : 0, size = count + spare;
    memset(bytes, 0xFF, room);
    for (size_t i = 0; i < size; i++) {
        places[i] = i;
    }
    for (size_t i = 1; spare && i < size; i++) {
        size_t other = between(1, i), kept = places[i];
        places[i] = places[other], places[other] = kept;
    }
    for (size_t i = 0; i < count; i++) {
        made.words[i][0] = (uint16_t)(i + 1 < count ? places[i + 1] : 0);
    }
    if (count && percent(4)) {
        made.words[below(count)][0] = (uint16_t)below(size + 2);
    }
    for (size_t i = 0; i < count; i++) {
        uint8_t *record = bytes + PECHUNAQ_RECORD_BYTES * places[i];
        for (size_t word = 0; word < WORDS; word++) {
            pechunaq_set_word(record, word, made.words[i][word]);
        }
    }
    size_t length = PECHUNAQ_RECORD_BYTES * size;
    switch (below(120)) {
    case 0: return length ? below(length) : 0;
    case 1: return length + between(1, 64);
    case 2: return length / PECHUNAQ_RECORD_BYTES / 2 * PECHUNAQ_RECORD_BYTES;
    case 3: return percent(20) ? 0 : PECHUNAQ_MAX_SHEET + (percent(50) ? 32 : 1) * below(41);
    case 4: case 5:
        if (length) {
            bytes[below(length)] = (uint8_t)any();
        }
        return length;
    default: return length;
    }
}

#endif
