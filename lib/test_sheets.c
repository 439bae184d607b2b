/* test_sheets CLOSE_SHEET DIRECTORY N SEED [FIRST]
 * Drives N random sheets, from the one numbered FIRST (0), through the C interface and compares
 * with what the program CLOSE_SHEET prints for the same bytes. Each sheet is made from SEED and its
 * number alone. What differs is told, the sheet goes to DIRECTORY/failed.sheet, and the status is
 * 1. lib/test builds and runs this; lib/README.md says what is compared. */
#define _GNU_SOURCE
#include <errno.h>
#include <signal.h>
#include <spawn.h>
#include <stdarg.h>
#include <stdio.h>
#include <stdlib.h>
#include <string.h>
#include <sys/mman.h>
#include <sys/stat.h>
#include <sys/wait.h>
#include <unistd.h>

#include "pechunaq.h"
#include "random_sheets.h"

enum { MOST_NUMBER = 16 };

/* ---- what is told */

static const char *directory;
static uint64_t seed, number;
static const uint8_t *sheet_bytes;
static size_t sheet_length;

static struct {
    uint64_t lines, bytes, ended, refused[MOST_NUMBER], longest;
    uint64_t closes, changed, merged, added, settles, slow_settles, most_closes;
    uint64_t reports, conflicting, conflicts;
    uint64_t handed_in, replies[7], settled_yes, settled_no;
    uint64_t dropped, crossed, after_refusal;
    uint64_t refused_closes[MOST_NUMBER], filling;
    uint64_t parked, waiting, zeroed, bad_files[MOST_NUMBER], loaded, longest_file;
} told;

static uint64_t larger(uint64_t a, uint64_t b) {
    return a > b ? a : b;
}

static void fail(const char *format, ...) {
    va_list args;
    va_start(args, format);
    fprintf(stderr, "sheet %lu of seed %lu: ", number, seed);
    vfprintf(stderr, format, args);
    fputc('\n', stderr);
    va_end(args);
    char path[4096];
    snprintf(path, sizeof path, "%s/failed.sheet", directory);
    FILE *file = sheet_bytes ? fopen(path, "wb") : NULL;
    if (file) {
        fwrite(sheet_bytes, 1, sheet_length, file);
        fclose(file);
        fprintf(stderr, "%s has it; lib/test 1 %lu %lu runs it alone\n", path, seed, number);
    }
    exit(1);
}

/* A fence was touched, or the stack ran out. A sanitizer has a handler of its own. */
static void tell_fault(int signal) {
    dprintf(2, "sheet %lu of seed %lu: memory was touched that is not there (signal %d)\n", number,
            seed, signal);
    _exit(1);
}

static void catch_faults(void) {
    static char room[65536];
    struct sigaction now, then = {.sa_handler = tell_fault, .sa_flags = SA_ONSTACK};
    const stack_t stack = {.ss_sp = room, .ss_size = sizeof room};
    sigaction(SIGSEGV, NULL, &now);
    if (now.sa_handler == SIG_DFL && !sigaltstack(&stack, NULL)) {
        sigaction(SIGSEGV, &then, NULL);
    }
}

static void *needed(void *pointer) {
    if (!pointer || pointer == MAP_FAILED) {
        perror("test_sheets");
        exit(2);
    }
    return pointer;
}

/* ---- memory: bytes between two pages that cannot be touched, and sessions between guard words */

enum { FENCED = 36864 };

typedef struct {
    uint8_t *first;
} fence;

static fence make_fence(void) {
    size_t page = (size_t)sysconf(_SC_PAGESIZE);
    int private = MAP_PRIVATE | MAP_ANONYMOUS;
    uint8_t *all = needed(mmap(NULL, FENCED + 2 * page, PROT_NONE, private, -1, 0));
    if (FENCED % page || mprotect(all + page, FENCED, PROT_READ | PROT_WRITE)) {
        needed(NULL);
    }
    return (fence){all + page};
}

/* Room for so many bytes, right before the page that follows or right after the one before. */
static uint8_t *room_in(fence f, size_t length) {
    return percent(80) ? f.first + FENCED - length : f.first;
}

static uint8_t *placed(fence f, const void *bytes, size_t length) {
    uint8_t *to = room_in(f, length);
    memcpy(to, bytes, length);
    return to;
}

static fence sheet_fence, record_fence, file_fence, line_fence;

enum { GUARDS = 64, GUARD = 0xA5C3 };

typedef struct {
    uint16_t before[GUARDS];
    pechunaq_session s;
    uint16_t after[GUARDS];
} guarded;

static void set_guards(guarded *g) {
    for (int i = 0; i < GUARDS; i++) {
        g->before[i] = g->after[i] = (uint16_t)(GUARD + i);
    }
}

static void check_guards(const guarded *g) {
    for (int i = 0; i < GUARDS; i++) {
        if (g->before[i] != (uint16_t)(GUARD + i) || g->after[i] != (uint16_t)(GUARD + i)) {
            fail("a guard word beside a session was changed");
        }
    }
}

/* Bytes of a session that no call sets, since they only fill it up: check_sizes finds them. */
static bool is_filling[sizeof(pechunaq_session)];

static bool is_same_session(const pechunaq_session *a, const pechunaq_session *b) {
    const uint8_t *one = (const uint8_t *)a, *other = (const uint8_t *)b;
    for (size_t i = 0; i < sizeof *a; i++) {
        if (!is_filling[i] && one[i] != other[i]) {
            return false;
        }
    }
    return true;
}

/* ---- text */

typedef struct {
    char *bytes;
    size_t len, room;
} text;

static void clear(text *t) {
    t->len = 0;
}

static void append(text *t, const char *bytes, size_t len) {
    if (t->len + len + 1 > t->room) {
        t->room = 2 * (t->len + len + 1);
        t->bytes = needed(realloc(t->bytes, t->room));
    }
    memcpy(t->bytes + t->len, bytes, len);
    t->len += len;
    t->bytes[t->len] = 0;
}

static void append_line(text *t, const char *format, ...) {
    char line[200];
    va_list args;
    va_start(args, format);
    int len = vsnprintf(line, sizeof line, format, args);
    va_end(args);
    append(t, line, (size_t)len);
}

static const char *string(const text *t) {
    return t->len ? t->bytes : "";
}

static bool is_same(const text *a, const text *b) {
    return a->len == b->len && memcmp(string(a), string(b), a->len) == 0;
}

static void compare(const text *got, const text *expected, const char *what) {
    if (is_same(got, expected)) {
        return;
    }
    size_t at = 0, line = 1, from = 0;
    while (at < got->len && at < expected->len && got->bytes[at] == expected->bytes[at]) {
        if (got->bytes[at++] == '\n') {
            line++, from = at;
        }
    }
    const char *one = string(got) + from, *other = string(expected) + from;
    fail("%s: line %zu is '%.*s', close_sheet prints '%.*s'", what, line,
         (int)strcspn(one, "\n"), one, (int)strcspn(other, "\n"), other);
}

/* ---- what close_sheet prints */

static const char *close_sheet;
static int sheet_file, lines_file;
extern char **environ;

static void must(bool is_done) {
    if (!is_done) {
        perror("test_sheets: running close_sheet");
        exit(2);
    }
}

static void run_close_sheet(text *lines) {
    static posix_spawn_file_actions_t actions;
    if (!sheet_file) {
        must((sheet_file = memfd_create("sheet", MFD_CLOEXEC)) > 0);
        must((lines_file = memfd_create("lines", MFD_CLOEXEC)) > 0);
        posix_spawn_file_actions_init(&actions);
        posix_spawn_file_actions_adddup2(&actions, sheet_file, 0);
        posix_spawn_file_actions_adddup2(&actions, lines_file, 1);
    }
    must(!ftruncate(sheet_file, 0) && !ftruncate(lines_file, 0));
    must(pwrite(sheet_file, sheet_bytes, sheet_length, 0) == (ssize_t)sheet_length);
    must(!lseek(sheet_file, 0, SEEK_SET) && !lseek(lines_file, 0, SEEK_SET));
    char *args[] = {(char *)(uintptr_t)close_sheet, NULL};
    pid_t child;
    int status;
    errno = posix_spawn(&child, close_sheet, &actions, NULL, args, environ);
    must(errno == 0);
    must(waitpid(child, &status, 0) == child);
    struct stat is;
    must(!fstat(lines_file, &is));
    clear(lines);
    for (off_t at = 0; at < is.st_size;) {
        char part[65536];
        ssize_t got = pread(lines_file, part, sizeof part, at);
        must(got > 0);
        append(lines, part, (size_t)got);
        at += got;
    }
    if (status || !lines->len) {
        fail("close_sheet ended with status %d and %zu bytes", status, lines->len);
    }
}

/* ---- calls, each with its memory fenced */

/* Takes a line into a buffer of just its size. Sometimes a machine is given bytes, for which it has
 * no use, or a length beside NULL. */
static size_t take_line(guarded *g, bool is_sheet, char **line) {
    *line = (char *)room_in(line_fence, PECHUNAQ_LINE_BUFFER);
    memset(*line, '#', PECHUNAQ_LINE_BUFFER);
    bool is_given = is_sheet || percent(30);
    size_t len = pechunaq_session_next_line(&g->s, is_given ? sheet_bytes : NULL,
                                            is_given ? sheet_length : percent(50) ? 0 : 7, *line);
    if (len > PECHUNAQ_MAX_LINE || strlen(*line) != len || (len && (*line)[len - 1] != '\n')) {
        fail("a line of length %zu is not ended as it should be", len);
    }
    return len;
}

static size_t take_lines(guarded *g, bool is_sheet, text *lines, size_t most) {
    char *line;
    size_t n = 0;
    for (size_t len; n < most && (len = take_line(g, is_sheet, &line)) > 0; n++) {
        append(lines, line, len);
        if (n > 264193) {
            fail("too many lines");
        }
    }
    return n;
}

static pechunaq_reply hand_in(guarded *g, const uint8_t *record) {
    return pechunaq_session_hand_in(&g->s, placed(record_fence, record, PECHUNAQ_RECORD_BYTES));
}

static bool is_same_reply(pechunaq_reply a, pechunaq_reply b) {
    return a.kind == b.kind && memcmp(a.numbers, b.numbers, sizeof a.numbers) == 0;
}

/* ---- parking */

enum { PATTERN = 0xC5 };

static bool is_pattern(const uint8_t *bytes, size_t length) {
    for (size_t i = 0; i < length; i++) {
        if (bytes[i] != PATTERN) {
            return false;
        }
    }
    return true;
}

static size_t word_at(const uint8_t *bytes, size_t word) {
    return bytes[2 * word] + 256u * bytes[2 * word + 1];
}

/* Parks into a buffer of so many bytes, of which those after the file must stay. */
static pechunaq_parked park_into(const guarded *g, size_t length, uint8_t *copy) {
    uint8_t *file = room_in(file_fence, length);
    memset(file, PATTERN, length);
    pechunaq_parked p = pechunaq_session_park(&g->s, file, length);
    if (p.size > length || (p.refused && p.size) || !is_pattern(file + p.size, length - p.size)) {
        fail("a park of %zu bytes into %zu, refused %u, wrote elsewhere", p.size, length,
             p.refused);
    }
    if (copy && !p.refused) {
        memcpy(copy, file, p.size);
    }
    return p;
}

/* Parks; also into buffers that are just long enough and just too short. */
static size_t park(const guarded *g, uint8_t *copy) {
    static const size_t per_row[] = {4, 8, 12, 11, 7, 2, 2, 2};
    static uint8_t again[PECHUNAQ_MAX_FILE];
    pechunaq_parked p = park_into(g, PECHUNAQ_MAX_FILE, copy);
    if (p.refused) {
        fail("a park into the longest buffer is refused with %u", p.refused);
    }
    size_t size = 18;
    for (size_t i = 0; i < 8; i++) {
        size += per_row[i] * word_at(copy, i);
    }
    if (p.size != size) {
        fail("a parked file has %zu bytes, and %zu by its counts", p.size, size);
    }
    if (park_into(g, p.size, again).size != p.size || memcmp(again, copy, p.size)) {
        fail("a buffer that is just long enough gets another file");
    }
    if (park_into(g, p.size - 1, NULL).refused != PECHUNAQ_NO_ROOM
        || park_into(g, below(p.size), NULL).refused != PECHUNAQ_NO_ROOM
        || pechunaq_session_park(&g->s, NULL, 0).refused != PECHUNAQ_NO_ROOM) {
        fail("a park into too short a buffer is not refused with 9");
    }
    return p.size;
}

static uint16_t resume(guarded *g, const uint8_t *file, size_t length) {
    return pechunaq_session_resume(&g->s, placed(file_fence, file, length), length);
}

/* A file that may be no good: it is refused, and the session stays as it was, bit for bit; or it
 * loads, and then it is the file that is parked. */
static void resume_other(const guarded *g, const uint8_t *file, size_t length) {
    static uint8_t again[PECHUNAQ_MAX_FILE];
    static guarded trial;
    memcpy(&trial, g, sizeof trial);
    uint16_t refused = resume(&trial, file, length);
    if (refused == PECHUNAQ_WRONG_LENGTH || refused == PECHUNAQ_WRONG_CONTENT) {
        if (!is_same_session(&trial.s, &g->s)) {
            fail("a file that is refused with %u changes the session", refused);
        }
    } else if (refused || park(&trial, again) != length || memcmp(again, file, length)) {
        fail("a file is refused with %u, or loaded and parked as another one", refused);
    }
    check_guards(&trial);
    told.loaded += !refused;
    told.bad_files[refused]++;
}

static void resume_damaged(const guarded *g, const uint8_t *file, size_t size) {
    static uint8_t bad[FENCED];
    size_t length = size;
    memset(bad, 0, sizeof bad);
    memcpy(bad, file, size);
    switch (below(6)) {
    case 0: length = below(size); break;
    case 1: length = size + between(1, 300); break;
    case 2:
        length = below(percent(50) ? 64 : FENCED);
        for (size_t i = 0; i < length; i++) {
            bad[i] = (uint8_t)any();
        }
        break;
    case 3: /* counts and a length that fits them, and any bytes */
        memset(bad, 0, 16);
        for (size_t i = 0; i < 8; i++) {
            bad[2 * i] = (uint8_t)below(6);
        }
        length = 18u + 4u * bad[0] + 8u * bad[2] + 12u * bad[4] + 11u * bad[6] + 7u * bad[8]
            + 2u * (unsigned)(bad[10] + bad[12] + bad[14]);
        for (size_t i = 16; i < length; i++) {
            bad[i] = (uint8_t)below(percent(80) ? 3 : 256);
        }
        break;
    default:
        for (unsigned n = between(1, 3); n > 0; n--) {
            bad[below(size)] = (uint8_t)(percent(50) ? below(6) : any());
        }
        break;
    }
    resume_other(g, bad, length);
}

/* Parks a machine, and gives one that resumed it: begun anew, with the same signature. */
static void park_and_resume(guarded *g, uint8_t declared[][PECHUNAQ_RECORD_BYTES], size_t count) {
    static uint8_t file[PECHUNAQ_MAX_FILE], again[PECHUNAQ_MAX_FILE];
    static guarded fresh;
    size_t size = park(g, file);
    bool is_settled = pechunaq_session_is_settled(&g->s);
    set_guards(&fresh);
    pechunaq_session_begin(&fresh.s);
    if (count) {
        /* Without the signature. */
        resume_other(&fresh, file, size);
    }
    for (size_t i = 0; i < count; i++) {
        if (hand_in(&fresh, declared[i]).kind != PECHUNAQ_REPLY_NUMBER) {
            fail("declaration %zu is refused in a fresh session", i);
        }
    }
    resume_damaged(&fresh, file, size);
    resume_damaged(g, file, size);
    if (resume(&fresh, file, size)) {
        fail("the parked file is refused under its signature");
    }
    if (pechunaq_session_is_settled(&fresh.s) != is_settled) {
        fail("resumed, it is settled where it was not, or not where it was");
    }
    if (park(&fresh, again) != size || memcmp(file, again, size)) {
        fail("parked again, the file is another one");
    }
    check_guards(g), check_guards(&fresh);
    memcpy(g, &fresh, sizeof fresh);
    told.parked++;
    told.longest_file = larger(size, told.longest_file);
}

/* Resumed in the same session, all but the structure stays: the lines that are still to come. */
static void resume_waiting(const guarded *g) {
    static uint8_t file[PECHUNAQ_MAX_FILE];
    static guarded one, other;
    text lines = {0}, others = {0};
    memcpy(&one, g, sizeof one);
    take_lines(&one, false, &lines, below(4));
    memcpy(&other, &one, sizeof other);
    size_t size = park(&one, file);
    if (resume(&one, file, size)) {
        fail("the parked file is refused by its own session");
    }
    clear(&lines);
    told.waiting += take_lines(&one, false, &lines, SIZE_MAX);
    take_lines(&other, false, &others, SIZE_MAX);
    if (!is_same(&lines, &others)) {
        fail("a resume changes the lines that are still to come");
    }
    check_guards(&one), check_guards(&other);
    free(lines.bytes), free(others.bytes);
}

/* ---- the sheet mode */

static void drive_sheet(const text *expected) {
    static guarded g;
    text lines = {0};
    set_guards(&g);
    pechunaq_session_begin_sheet(&g.s, sheet_length);
    told.lines += take_lines(&g, true, &lines, SIZE_MAX);
    compare(&lines, expected, "as a sheet");
    if (take_lines(&g, true, &lines, SIZE_MAX)) {
        fail("a line comes after the last one");
    }
    check_guards(&g);
    free(lines.bytes);
}

/* ---- the machine mode */

static const uint8_t asked_conflicts[PECHUNAQ_RECORD_BYTES] = {0, 0, PECHUNAQ_CONFLICTS};
static const uint8_t asked_close[PECHUNAQ_RECORD_BYTES] = {0, 0, PECHUNAQ_CLOSE};

/* The lines that a report, a close and a report print now. */
static void look(const guarded *g, text *lines) {
    static guarded trial;
    const uint8_t *records[] = {asked_conflicts, asked_close, asked_conflicts};
    memcpy(&trial, g, sizeof trial);
    for (int i = 0; i < 3; i++) {
        hand_in(&trial, records[i]);
        take_lines(&trial, false, lines, SIZE_MAX);
    }
    check_guards(&trial);
}

/* How many parents the first facts of conflict lines have: as many finds the report took. */
static uint64_t finds_of(const text *lines) {
    uint64_t n = 0;
    for (const char *at = string(lines); *at; at = strchr(at, '\n') + 1) {
        if (strncmp(at, "conflict ", 9) == 0) {
            /* The spaces before the slash, without those before element, type and slash. */
            for (const char *c = at; *c != '/'; c++) {
                n += *c == ' ';
            }
            n -= 3;
        }
    }
    return n;
}

/* The lines that an answer stands for. Those of conflicts are taken as they are, and counted. */
static void check_reply(unsigned kind, pechunaq_reply r, uint64_t next, size_t handed,
                        const text *lines) {
    text said = {0};
    const uint64_t *n = r.numbers;
    size_t count = 0, used = 1;
    unsigned due = kind <= 6 ? PECHUNAQ_REPLY_NUMBER : kind <= 10 ? PECHUNAQ_REPLY_SAYS
        : kind <= 12 ? PECHUNAQ_REPLY_DONE : kind == 13 ? PECHUNAQ_REPLY_CLOSED
        : kind == 14 ? PECHUNAQ_REPLY_CONFLICTING : PECHUNAQ_REPLY_SUMMED;
    for (size_t i = 0; i < lines->len; i++) {
        count += lines->bytes[i] == '\n';
    }
    if (r.kind != PECHUNAQ_REPLY_REFUSED && r.kind != due) {
        fail("a record of kind %u is answered by %u", kind, r.kind);
    }
    switch (r.kind) {
    case PECHUNAQ_REPLY_DONE: used = 0; break;
    case PECHUNAQ_REPLY_NUMBER:
        if (n[0] != next) {
            fail("kind %u is given the number %lu, not %lu", kind, n[0], next);
        }
        break;
    case PECHUNAQ_REPLY_SAYS:
        if (n[0] > 1) {
            fail("kind %u says %lu", kind, n[0]);
        }
        break;
    case PECHUNAQ_REPLY_CLOSED:
        used = 4;
        append_line(&said, "close %lu %lu %lu %lu\n", n[0], n[1], n[2], n[3]);
        break;
    case PECHUNAQ_REPLY_CONFLICTING:
        used = 2;
        append(&said, string(lines), lines->len);
        char last[40];
        size_t len = (size_t)snprintf(last, sizeof last, "conflicts %lu\n", n[0]);
        bool is_last = lines->len >= len && !strcmp(string(lines) + lines->len - len, last);
        if (count != n[0] + 1 || !is_last) {
            fail("%lu conflicts are answered, and %zu lines come", n[0], count);
        }
        if (n[1] != finds_of(lines)) {
            fail("%lu finds are answered, not %lu", n[1], finds_of(lines));
        }
        break;
    case PECHUNAQ_REPLY_SUMMED:
        used = 2;
        append_line(&said, "settle %lu %lu\n", n[0], n[1]);
        break;
    default:
        if (!n[0] || n[0] >= MOST_NUMBER) {
            fail("a record is refused with %lu", n[0]);
        }
        append_line(&said, "refused %lu at %zu\n", n[0], handed);
        break;
    }
    for (size_t i = used; i < 4; i++) {
        if (n[i]) {
            fail("answer %u of kind %u has %lu at place %zu", r.kind, kind, n[i], i);
        }
    }
    if (!is_same(&said, lines)) {
        fail("a record of kind %u is answered by '%s', and its lines are '%s'", kind,
             string(&said), string(lines));
    }
    free(said.bytes);
}

/* A refused record leaves the machine: what follows is answered as if it had not been there. */
static void check_left(guarded *before, guarded *after, size_t count, size_t from) {
    static uint8_t one[PECHUNAQ_MAX_FILE], other[PECHUNAQ_MAX_FILE];
    size_t size = park(before, one);
    if (park(after, other) != size || memcmp(one, other, size)) {
        fail("a refused record changes the structure");
    }
    if (pechunaq_session_is_settled(&before->s) != pechunaq_session_is_settled(&after->s)) {
        fail("a refused record changes whether it is settled");
    }
    for (size_t i = 0; i < 25 && i < count; i++) {
        const uint8_t *record = sheet_bytes + PECHUNAQ_RECORD_BYTES * ((from + i) % count);
        if (!is_same_reply(hand_in(before, record), hand_in(after, record))) {
            fail("after a refused record another one is answered otherwise");
        }
        told.after_refusal++;
    }
}

/* The sheet mode up to a record whose lines are all taken, and then records handed in. */
static void cross(const guarded *machine, size_t lines_before) {
    static guarded g;
    text skipped = {0}, one = {0}, other = {0};
    set_guards(&g);
    pechunaq_session_begin_sheet(&g.s, sheet_length);
    take_lines(&g, true, &skipped, lines_before);
    look(machine, &one);
    look(&g, &other);
    if (!is_same(&one, &other)) {
        fail("after %zu lines the sheet and the machine differ", lines_before);
    }
    hand_in(&g, asked_close);
    clear(&skipped);
    if (take_lines(&g, true, &skipped, SIZE_MAX) != 1) {
        fail("the rest of a sheet is not dropped where a record is handed in");
    }
    check_guards(&g);
    free(skipped.bytes), free(one.bytes), free(other.bytes);
    told.crossed++;
}

static void tell_reply(unsigned kind, pechunaq_reply r) {
    const uint64_t *n = r.numbers;
    told.handed_in++, told.replies[r.kind]++;
    switch (r.kind) {
    case PECHUNAQ_REPLY_CLOSED:
        told.closes++, told.changed += n[0], told.merged += n[1] > 0, told.added += n[3] > 0;
        break;
    case PECHUNAQ_REPLY_SUMMED:
        told.settles++, told.slow_settles += n[0] > 2;
        told.most_closes = larger(n[0], told.most_closes);
        break;
    case PECHUNAQ_REPLY_CONFLICTING:
        told.reports++, told.conflicting += n[0] > 0, told.conflicts += n[0];
        break;
    case PECHUNAQ_REPLY_REFUSED:
        told.refused[n[0]]++;
        told.refused_closes[n[0]] += kind == PECHUNAQ_CLOSE || kind == PECHUNAQ_SETTLE;
        break;
    default: break;
    }
}

/* The latest accepted close reported no change, and nothing accepted since was answered by yes. */
static bool is_settled_after(bool was, pechunaq_reply r) {
    switch (r.kind) {
    case PECHUNAQ_REPLY_SAYS: return was && !r.numbers[0];
    case PECHUNAQ_REPLY_CLOSED: return !r.numbers[0];
    case PECHUNAQ_REPLY_SUMMED: return true;
    default: return was;
    }
}

/* Walks the chain and hands in record by record; sometimes the machine is parked in between and
 * another one goes on. */
static void drive_machine(const text *expected) {
    static uint8_t declared[MAX_RECORDS][PECHUNAQ_RECORD_BYTES];
    static guarded g, before, untaken;
    text all = {0}, lines = {0}, again = {0};
    size_t count = sheet_length / PECHUNAQ_RECORD_BYTES, declarations = 0, handed = 0;
    size_t visited = 0, index = 0, line_count = 0, crossed = 0;
    uint64_t numbers[7] = {0};
    bool settled = false, is_over = false, is_untaken = false;
    set_guards(&g), set_guards(&before), set_guards(&untaken);
    if (percent(85)) {
        pechunaq_session_begin(&g.s);
    } else {
        memset(&g.s, 0, sizeof g.s);
        told.zeroed++;
    }
    /* One of 01's rules is about all bytes, one about the chain; the rest is the library's. */
    if (!count || sheet_length % PECHUNAQ_RECORD_BYTES || sheet_length > PECHUNAQ_MAX_SHEET) {
        append_line(&all, "refused 1 at 0\n");
        told.refused[1]++;
        is_over = true;
    }
    while (!is_over) {
        const uint8_t *record = sheet_bytes + PECHUNAQ_RECORD_BYTES * index;
        size_t next = word_at(record, 0);
        unsigned kind = (unsigned)word_at(record, 1);
        if (next >= count || (visited + 1 == count && next)) {
            append_line(&all, "refused 2 at %zu\n", index);
            told.refused[2]++;
            break;
        }
        if (below(24) == 0) {
            park_and_resume(&g, declared, declarations);
            handed = declarations;
            is_untaken = false;
        }
        memcpy(&before, &g, sizeof g);
        pechunaq_reply reply = hand_in(&g, record);
        /* Lines that were not taken are dropped. */
        if (is_untaken && percent(20)) {
            if (!is_same_reply(hand_in(&untaken, record), reply)) {
                fail("lines that are not taken change an answer");
            }
            clear(&again);
            take_lines(&untaken, false, &again, SIZE_MAX);
            check_guards(&untaken);
            told.dropped++;
        } else {
            is_untaken = false;
        }
        if (kind >= PECHUNAQ_CLOSE && percent(10)) {
            resume_waiting(&g);
        }
        bool was_untaken = is_untaken;
        memcpy(&untaken, &g, sizeof g);
        clear(&lines);
        size_t n = take_lines(&g, false, &lines, SIZE_MAX);
        is_untaken = n > 0;
        if (was_untaken && !is_same(&lines, &again)) {
            fail("lines that are not taken change the next ones");
        }
        if (take_lines(&g, false, &lines, SIZE_MAX)) {
            fail("a line comes after the last one of a record");
        }
        check_reply(kind, reply, kind <= 6 ? numbers[kind] : 0, handed, &lines);
        check_guards(&g);
        handed++;
        tell_reply(kind, reply);
        settled = is_settled_after(settled, reply);
        if (reply.kind == PECHUNAQ_REPLY_REFUSED) {
            append_line(&all, "refused %lu at %zu\n", reply.numbers[0], index);
            check_left(&before, &g, count, index);
            break;
        }
        if (reply.kind == PECHUNAQ_REPLY_NUMBER) {
            numbers[kind]++;
            if (kind < PECHUNAQ_ELEMENT) {
                memcpy(declared[declarations++], record, PECHUNAQ_RECORD_BYTES);
            }
        }
        if (pechunaq_session_is_settled(&g.s) != settled) {
            fail("after record %zu settled is %d, its answers say %d", index, !settled, settled);
        }
        told.settled_yes += settled, told.settled_no += !settled;
        append(&all, string(&lines), lines.len);
        line_count += n;
        if (n && crossed < 3 && percent(10)) {
            cross(&g, line_count);
            crossed++;
        }
        visited++;
        index = next;
        if (!next) {
            append_line(&all, "end %zu\n", visited);
            told.ended++;
            is_over = true;
        }
    }
    told.longest = larger(visited, told.longest);
    compare(&all, expected, "record by record");
    check_guards(&g), check_guards(&before), check_guards(&untaken);
    free(all.bytes), free(lines.bytes), free(again.bytes);
}

/* ---- the sizes that the header says, and a session of zeros */

/* A result that is a large struct is written through a pointer, which C does not show: by these
 * names it can be given, so that each byte that is written is seen. */
void *raw_begin(void *out) __asm__("pechunaq_begin");
void *raw_begin_sheet(void *out, size_t length) __asm__("pechunaq_begin_sheet");
void *raw_hand_in(void *out, pechunaq_session s, const uint8_t *record) __asm__("pechunaq_hand_in");
void *raw_next_line(void *out, pechunaq_session s, const uint8_t *sheet, size_t length)
    __asm__("pechunaq_next_line");
void *raw_resume(void *out, pechunaq_session s, const uint8_t *file, size_t length)
    __asm__("pechunaq_resume");

enum { CALLS = 5, ROOM = 40960 };

static void call_raw(int which, uint8_t *out, const pechunaq_session *s) {
    const uint8_t file[18] = {0};
    switch (which) {
    case 0: raw_begin(out); break;
    case 1: raw_begin_sheet(out, 64); break;
    case 2: raw_hand_in(out, *s, asked_close); break;
    case 3: raw_next_line(out, *s, file, 0); break;
    default: raw_resume(out, *s, file, sizeof file); break;
    }
}

static void check_sizes(void) {
    static const struct {
        const char *name;
        size_t least, most;
    } sizes[CALLS] = {
        {"pechunaq_begin", sizeof(pechunaq_session), sizeof(pechunaq_session)},
        {"pechunaq_begin_sheet", sizeof(pechunaq_session), sizeof(pechunaq_session)},
        /* The last two bytes fill it up to its alignment. */
        {"pechunaq_hand_in", sizeof(pechunaq_handed_in) - 2, sizeof(pechunaq_handed_in)},
        {"pechunaq_next_line", sizeof(pechunaq_taken), sizeof(pechunaq_taken)},
        {"pechunaq_resume", sizeof(pechunaq_resumed), sizeof(pechunaq_resumed)},
    };
    static uint64_t memory[2][ROOM / 8];
    static pechunaq_session s;
    pechunaq_session_begin(&s);
    for (int which = 0; which < CALLS; which++) {
        uint8_t *one = (uint8_t *)memory[0], *other = (uint8_t *)memory[1];
        memset(one, 0x55, ROOM), memset(other, 0xAA, ROOM);
        call_raw(which, one + 512, &s), call_raw(which, other + 512, &s);
        for (size_t i = 0; which == 0 && i < sizeof s; i++) {
            is_filling[i] = one[512 + i] == 0x55 && other[512 + i] == 0xAA;
            told.filling += is_filling[i];
        }
        size_t least = 0, last = ROOM;
        while (one[least] == 0x55 && other[least] == 0xAA) {
            least++;
        }
        while (one[last - 1] == 0x55 && other[last - 1] == 0xAA) {
            last--;
        }
        if (least != 512 || last - 512 < sizes[which].least || last - 512 > sizes[which].most) {
            fail("%s writes the bytes %zd to %zu, not 0 to %zu", sizes[which].name,
                 (ssize_t)least - 512, last - 512, sizes[which].most);
        }
    }
}

/* Zeros are a sheet of no bytes: its one line, and an empty machine. */
static void check_zeros(void) {
    static guarded zeros, begun, empty;
    static uint8_t one[PECHUNAQ_MAX_FILE], other[PECHUNAQ_MAX_FILE];
    text lines = {0}, others = {0};
    set_guards(&zeros), set_guards(&begun), set_guards(&empty);
    memset(&zeros.s, 0, sizeof zeros.s);
    pechunaq_session_begin(&begun.s);
    pechunaq_session_begin_sheet(&empty.s, 0);
    if (park(&zeros, one) != 18 || park(&begun, other) != 18 || memcmp(one, other, 18)
        || pechunaq_session_is_settled(&zeros.s) || pechunaq_session_is_settled(&begun.s)) {
        fail("a session of zeros is not parked as one that was begun");
    }
    if (take_lines(&begun, false, &lines, SIZE_MAX)) {
        fail("a machine that was begun has a line");
    }
    look(&zeros, &lines), look(&begun, &others);
    if (!is_same(&lines, &others)) {
        fail("a session of zeros answers otherwise than one that was begun");
    }
    clear(&lines), clear(&others);
    take_lines(&zeros, false, &lines, SIZE_MAX), take_lines(&empty, false, &others, SIZE_MAX);
    if (!is_same(&lines, &others) || strcmp(string(&lines), "refused 1 at 0\n")) {
        fail("a session of zeros has other lines than a sheet of no bytes");
    }
    free(lines.bytes), free(others.bytes);
}

/* The I of a refusal counts up to 65,535. This takes as long as a hundred sheets. */
static void check_count(void) {
    static guarded g;
    const uint8_t malformed[PECHUNAQ_RECORD_BYTES] = {0};
    text lines = {0};
    set_guards(&g);
    pechunaq_session_begin(&g.s);
    for (unsigned i = 0; i < 65538; i++) {
        hand_in(&g, malformed);
        if (i < 3 || i > 65532) {
            char line[40];
            snprintf(line, sizeof line, "refused 3 at %u\n", i < 65535 ? i : 65535);
            clear(&lines);
            take_lines(&g, false, &lines, SIZE_MAX);
            if (strcmp(string(&lines), line)) {
                fail("record %u handed in is refused by the line '%s'", i, string(&lines));
            }
        }
    }
    free(lines.bytes);
}

static void print_refusals(const uint64_t *counts) {
    for (int i = 1; i < MOST_NUMBER; i++) {
        if (counts[i]) {
            printf(" %d: %lu", i, counts[i]);
        }
    }
    putchar('\n');
}

static void print_told(uint64_t n) {
    const uint64_t *by_kind = told.replies;
    printf("%lu sheets of seed %lu, %lu lines, %lu bytes: no difference\n", n, seed, told.lines,
           told.bytes);
    printf("  ended: %lu, the longest after %lu records; refused, by number:", told.ended,
           told.longest);
    print_refusals(told.refused);
    printf("  closes: %lu, changed %lu, merged %lu, added facts %lu\n", told.closes, told.changed,
           told.merged, told.added);
    printf("  settles: %lu, of three closes or more %lu, of at most %lu\n", told.settles,
           told.slow_settles, told.most_closes);
    printf("  closes and settles refused, by number:");
    print_refusals(told.refused_closes);
    printf("  reports: %lu, with conflicts %lu, conflicts %lu\n", told.reports, told.conflicting,
           told.conflicts);
    printf("  records handed in: %lu, answered: done %lu, number %lu, says %lu, closed %lu, "
           "conflicting %lu, summed %lu, refused %lu\n", told.handed_in, by_kind[0], by_kind[1],
           by_kind[2], by_kind[3], by_kind[4], by_kind[5], by_kind[6]);
    printf("  settled after a record: yes %lu, no %lu\n", told.settled_yes, told.settled_no);
    printf("  begun as zeros: %lu, lines dropped: %lu times, records handed in on a sheet: %lu "
           "times, records after a refused one: %lu\n", told.zeroed, told.dropped, told.crossed,
           told.after_refusal);
    printf("  parked and resumed: %lu times, the longest file %lu bytes, lines waiting %lu\n",
           told.parked, told.longest_file, told.waiting);
    printf("  other files: loaded %lu, refused, by number:", told.loaded);
    print_refusals(told.bad_files);
    printf("  a session: %zu bytes, of which %lu only fill it up\n", sizeof(pechunaq_session),
           told.filling);
}

int main(int count, char **args) {
    if (count < 5 || count > 6) {
        fprintf(stderr, "usage: test_sheets CLOSE_SHEET DIRECTORY N SEED [FIRST]\n");
        return 2;
    }
    static uint8_t bytes[FENCED];
    text expected = {0};
    close_sheet = args[1], directory = args[2];
    uint64_t n = strtoull(args[3], NULL, 10), first = count > 5 ? strtoull(args[5], NULL, 10) : 0;
    seed = strtoull(args[4], NULL, 10);
    sheet_fence = make_fence(), record_fence = make_fence();
    file_fence = make_fence(), line_fence = make_fence();
    catch_faults();
    begin_random(seed, UINT64_MAX);
    check_sizes();
    check_zeros();
    if (n >= 1000) {
        check_count();
    }
    for (number = first; number < first + n; number++) {
        begin_random(seed, number);
        make_history();
        sheet_length = make_sheet(bytes, sizeof bytes);
        sheet_bytes = placed(sheet_fence, bytes, sheet_length);
        run_close_sheet(&expected);
        told.bytes += expected.len;
        drive_sheet(&expected);
        drive_machine(&expected);
    }
    print_told(n);
    free(expected.bytes);
    return 0;
}
