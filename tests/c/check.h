/* What the C programs of this folder share: checks that print a line where they fail, runs of bytes to lend, and what a call leaves behind. */
#ifndef CHECK_H
#define CHECK_H

#include "zovattha.h"

#include <stdio.h>
#include <stdlib.h>
#include <string.h>

/* ---- checks */

static int checks_done;
static int checks_failed;

#define CHECK(condition) check((condition) != 0, "", #condition, __FILE__, __LINE__)

/* The same in a loop: `name` says which turn it was. */
#define CHECK_FOR(name, condition) check((condition) != 0, name, #condition, __FILE__, __LINE__)

static inline void check(int holds, const char *name, const char *condition, const char *file, int line) {
    checks_done++;
    if (!holds) {
        checks_failed++;
        printf("%s:%d: not so: %s %s\n", file, line, condition, name);
    }
}

static inline int checks_status(const char *name) {
    printf("%s: %d checks, %d failed\n", name, checks_done, checks_failed);
    return checks_failed == 0 && checks_done > 0 ? EXIT_SUCCESS : EXIT_FAILURE;
}

/* ---- time values */

#define NAN_TIME (0.0 / 0.0)
#define INFINITE (1.0 / 0.0)
#define LAST 8640000000000000.0

/* Times that every call refuses: infinite, fractional, beyond the range. */
static const double WRONG_TIMES[] = {INFINITE, -INFINITE, 0.5, -0.5, 4.9e-324, LAST + 1, -LAST - 1};
enum { WRONG_TIMES_COUNT = sizeof WRONG_TIMES / sizeof *WRONG_TIMES };

static inline uint64_t bits(double time) {
    uint64_t b;
    memcpy(&b, &time, sizeof b);
    return b;
}

/* The bits of a time that is handed out: one NaN. */
static inline uint64_t bits_out(double time) { return time != time ? ZOVATTHA_NAN : bits(time); }

/* ---- runs of bytes to lend */

enum { GUARD = 16, ROOM = 12 * 1025, FILL = 0x7E };

/* A run between guard bytes, and all of it as it was before the call. */
typedef struct run {
    size_t length;
    uint8_t bytes[GUARD + ROOM + GUARD];
    uint8_t before[GUARD + ROOM + GUARD];
} run;

/* What a call is lent: a zone list, a text or a field record, an output. */
static run zone, input, out;

static inline uint8_t *start(run *lent) { return lent->bytes + GUARD; }

/* A run that holds these bytes, or FILL where there are none. */
static inline void lend(run *lent, const void *bytes, size_t length) {
    memset(lent->bytes, FILL, sizeof lent->bytes);
    if (bytes != NULL && length > 0) memcpy(start(lent), bytes, length);
    memcpy(lent->before, lent->bytes, sizeof lent->bytes);
    lent->length = length;
}

/* No byte has changed but for the first so many. */
static inline int kept_from(const run *lent, size_t from) {
    size_t after = GUARD + from;
    return memcmp(lent->bytes, lent->before, GUARD) == 0
        && memcmp(lent->bytes + after, lent->before + after, sizeof lent->bytes - after) == 0;
}

/* A number of so many bytes, low byte first whatever the machine. */
static inline void put(uint8_t *bytes, uint64_t number, int count) {
    for (int i = 0; i < count; i++) bytes[i] = (uint8_t)(number >> (8 * i));
}

struct record {
    int64_t second;
    int32_t offset;
};

static inline void lend_list(const struct record *records, size_t count) {
    static uint8_t list[ROOM];
    for (size_t i = 0; i < count; i++) {
        put(list + 12 * i, (uint64_t)records[i].second, 8);
        put(list + 12 * i + 8, (uint32_t)records[i].offset, 4);
    }
    lend(&zone, list, 12 * count);
}

#define LIST(...) lend_list((const struct record[]){__VA_ARGS__}, sizeof((const struct record[]){__VA_ARGS__}) / sizeof(struct record))

/* Changes of 2025: Sydney's clock goes back at 2025-04-05T16:00Z, Auckland's at 14:00Z, New York's forward at 2025-03-09T07:00Z. */
#define SYDNEY LIST({1735603200, 39600}, {1743868800, 36000})
#define AUCKLAND LIST({1735603200, 46800}, {1743861600, 43200})
#define NEW_YORK LIST({1735603200, -18000}, {1741503600, -14400}, {1762063200, -18000})

/* A field record: its map, and a field for each bit that stands. */
static inline void lend_record(uint8_t map, const double *fields) {
    uint8_t bytes[1 + 8 * 8] = {map};
    size_t count = 0;
    for (int bit = 0; bit < 8; bit++) {
        if (map >> bit & 1) {
            put(bytes + 1 + 8 * count, bits(fields[count]), 8);
            count++;
        }
    }
    lend(&input, bytes, 1 + 8 * count);
}

#define RECORD(map, ...) lend_record(map, (const double[]){__VA_ARGS__})

/* ---- what a call leaves behind: its answer, and every lent byte as it was but for the text */

static inline int answered(zovattha_answer answer, uint32_t number, uint64_t value, size_t length) {
    return answer.number == number && answer.value == value && answer.length == length
        && kept_from(&zone, 0) && kept_from(&input, 0) && kept_from(&out, length);
}

static inline int refused(zovattha_answer answer, uint32_t number) { return answered(answer, number, ZOVATTHA_NAN, 0); }

static inline int gave(zovattha_answer answer, double time) { return answered(answer, ZOVATTHA_DONE, bits_out(time), 0); }

static inline int wrote(zovattha_answer answer, double time, const char *text) {
    size_t length = strlen(text);
    return answered(answer, ZOVATTHA_DONE, bits_out(time), length) && memcmp(start(&out), text, length) == 0;
}

#endif
