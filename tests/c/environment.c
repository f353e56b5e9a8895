/*
 * The floating-point environment that a caller's thread may be in: every function, over the same calls, in other modes of the processor
 * and in the default one. Denormals-are-zero and flush-to-zero change nothing. In another rounding mode the reader, rewriting and
 * the writers change nothing; the builder and the setters round their value by the mode, and keep all the rest.
 */
#include "zovattha.h"

#include "check.h"

#include <xmmintrin.h>

enum { SIZE = 48 };

/* ---- the modes: bits of MXCSR, the register of the processor's floating-point environment */

enum { DENORMALS_ARE_ZERO = 0x0040, FLUSH_TO_ZERO = 0x8000, NO_SUBNORMALS = DENORMALS_ARE_ZERO | FLUSH_TO_ZERO };
enum { DOWN = 0x2000, UP = 0x4000, TO_ZERO = DOWN | UP, ROUNDING = DOWN | UP, DEFAULT = 0x1F80, FLAGS = 0x003F };

static const struct {
    const char *name;
    unsigned bits;
} MODES[] = {
    {"denormals are zero", DENORMALS_ARE_ZERO},
    {"flush to zero", FLUSH_TO_ZERO},
    {"no subnormals", NO_SUBNORMALS},
    {"down", DOWN},
    {"up", UP},
    {"to zero", TO_ZERO},
    {"down, no subnormals", DOWN | NO_SUBNORMALS},
    {"up, no subnormals", UP | NO_SUBNORMALS},
    {"to zero, no subnormals", TO_ZERO | NO_SUBNORMALS},
};
enum { MODES_COUNT = sizeof MODES / sizeof *MODES };

/* Each mode does what its name says: the compiler works out nothing of a volatile number. To nearest, a tenth is rounded away from zero. */
static void check_modes(void) {
    static const volatile double smallest = 4.9e-324, normal = 2.2250738585072014e-308, one = 1, ten = 10;
    double tenth = one / ten;
    for (int m = 0; m < MODES_COUNT; m++) {
        unsigned mode = MODES[m].bits;
        _mm_setcsr(DEFAULT | mode);
        volatile int is_zero = smallest == 0;
        volatile double half = normal / 2, above = one / ten, below = -one / ten;
        _mm_setcsr(DEFAULT);
        CHECK_FOR(MODES[m].name, is_zero == ((mode & DENORMALS_ARE_ZERO) != 0));
        CHECK_FOR(MODES[m].name, (half == 0) == ((mode & FLUSH_TO_ZERO) != 0));
        CHECK_FOR(MODES[m].name, (above < tenth) == ((mode & DOWN) != 0));
        CHECK_FOR(MODES[m].name, (below > -tenth) == ((mode & UP) != 0));
    }
}

/* ---- the functions, on what is lent */

typedef zovattha_answer call(uint64_t time);

#define ZONE start(&zone), zone.length
#define INPUT start(&input), input.length
#define OUT start(&out), out.length

static zovattha_answer reading(uint64_t time) { return (void)time, zovattha_read(ZONE, INPUT); }
static zovattha_answer rewriting(uint64_t time) { return (void)time, zovattha_rewrite(ZONE, INPUT, OUT); }
static zovattha_answer iso(uint64_t time) { return zovattha_to_iso_string(time, OUT); }
static zovattha_answer utc(uint64_t time) { return zovattha_to_utc_string(time, OUT); }
static zovattha_answer local(uint64_t time) { return zovattha_to_string(ZONE, time, OUT); }
static zovattha_answer build_utc(uint64_t time) { return (void)time, zovattha_build_utc(INPUT); }
static zovattha_answer build_local(uint64_t time) { return (void)time, zovattha_build_local(ZONE, INPUT); }

#define SETTER(name) \
    static zovattha_answer set_utc_##name(uint64_t time) { return zovattha_set_utc_##name(time, INPUT); } \
    static zovattha_answer set_##name(uint64_t time) { return zovattha_set_##name(ZONE, time, INPUT); }

SETTER(milliseconds)
SETTER(seconds)
SETTER(minutes)
SETTER(hours)
SETTER(date)
SETTER(month)
SETTER(full_year)

/* How many fields a function takes (one that takes any rounds); how often it was asked, and how often a mode made another answer. */
struct function {
    const char *name;
    call *call;
    int fields;
    long calls;
    long other[MODES_COUNT];
};

#define SETTERS(name, fields) {"set_utc_" #name, set_utc_##name, fields, 0, {0}}, {"set_" #name, set_##name, fields, 0, {0}}

enum { READ, REWRITE, ISO, UTC, LOCAL, BUILD_UTC, BUILD_LOCAL, FIRST_SETTER, FUNCTIONS_COUNT = 21 };

static struct function functions[FUNCTIONS_COUNT] = {
    {"read", reading, 0, 0, {0}},
    {"rewrite", rewriting, 0, 0, {0}},
    {"to_iso_string", iso, 0, 0, {0}},
    {"to_utc_string", utc, 0, 0, {0}},
    {"to_string", local, 0, 0, {0}},
    {"build_utc", build_utc, 7, 0, {0}},
    {"build_local", build_local, 7, 0, {0}},
    SETTERS(milliseconds, 1),
    SETTERS(seconds, 2),
    SETTERS(minutes, 3),
    SETTERS(hours, 4),
    SETTERS(date, 1),
    SETTERS(month, 2),
    SETTERS(full_year, 3),
};

/* ---- one call in every mode */

/* The bytes of the output and the guard bytes around it. */
enum { SEEN = GUARD + SIZE + GUARD };

/* A call in a mode, from an output as it was; the mode is still there after it. */
static zovattha_answer called_in(unsigned mode, const struct function *function, uint64_t time) {
    memcpy(out.bytes, out.before, SEEN);
    _mm_setcsr(DEFAULT | mode);
    zovattha_answer answer = function->call(time);
    unsigned after = _mm_getcsr() & ~(unsigned)FLAGS;
    _mm_setcsr(DEFAULT);
    if (after != (DEFAULT | mode)) CHECK_FOR(function->name, !"the mode stays");
    return answer;
}

static void print_case(const struct function *function, const char *mode, uint64_t time, zovattha_answer due, zovattha_answer given) {
    printf("%s, %s: time %016llx, input", function->name, mode, (unsigned long long)time);
    for (size_t i = 0; i < input.length; i++) printf(" %02x", start(&input)[i]);
    printf(": %u %016llx %zu", (unsigned)due.number, (unsigned long long)due.value, due.length);
    printf(" becomes %u %016llx %zu\n", (unsigned)given.number, (unsigned long long)given.value, given.length);
}

/* The same answer and the same bytes in every mode as in the default one; the first call that differs is printed. */
static void compare(struct function *function, uint64_t time) {
    static uint8_t text[SEEN];
    zovattha_answer due = called_in(0, function, time);
    memcpy(text, out.bytes, SEEN);
    function->calls++;
    for (int m = 0; m < MODES_COUNT; m++) {
        zovattha_answer given = called_in(MODES[m].bits, function, time);
        int rounds = function->fields > 0 && (MODES[m].bits & ROUNDING) != 0;
        int same = given.number == due.number && given.length == due.length && (rounds || given.value == due.value);
        if (same && memcmp(out.bytes, text, SEEN) == 0) continue;
        if (function->other[m]++ == 0) print_case(function, MODES[m].name, time, due, given);
    }
    if (!kept_from(&zone, 0) || !kept_from(&input, 0) || !kept_from(&out, SIZE)) CHECK_FOR(function->name, !"lent bytes stay");
}

/* ---- what is asked */

/* As times and as fields: subnormals and the numbers next to them, zeros, NaNs, infinities, fractions, whole numbers small and large. */
static const uint64_t PATTERNS[] = {
    UINT64_C(0x0000000000000001), UINT64_C(0x8000000000000001), UINT64_C(0x0000000000000002), UINT64_C(0x8000000000000400),
    UINT64_C(0x0008000000000000), UINT64_C(0x8008000000000000), UINT64_C(0x000FFFFFFFFFFFFF), UINT64_C(0x800FFFFFFFFFFFFF),
    UINT64_C(0x0010000000000000), UINT64_C(0x8010000000000000), UINT64_C(0x001FFFFFFFFFFFFF), UINT64_C(0x8010000000000001),
    UINT64_C(0x0000000000000000), UINT64_C(0x8000000000000000), UINT64_C(0x7FF0000000000000), UINT64_C(0xFFF0000000000000),
    UINT64_C(0x7FF8000000000000), UINT64_C(0xFFF8000000000000), UINT64_C(0x7FF0000000000001), UINT64_C(0xFFF0000000000001),
    UINT64_C(0x7FFFFFFFFFFFFFFF), UINT64_C(0xFFFFFFFFFFFFFFFF), UINT64_C(0x7FF4000000000000), UINT64_C(0xFFF7FFFFFFFFFFFF),
    UINT64_C(0x7FEFFFFFFFFFFFFF), UINT64_C(0xFFEFFFFFFFFFFFFF), UINT64_C(0x3FEFFFFFFFFFFFFF), UINT64_C(0xBFEFFFFFFFFFFFFF),
};
static const double NUMBERS[] = {
    0.5, -0.5, 0.1, 1.5, -1.5, 1, -1, 2, 11, 12, 23, 29, 31, 59, 60, -60, 99, 100, 999, 1969, 1970, 2024, 275760, -271821, 86400000, -86400000,
    1709208000000, 1709238896789, -1709238896789, -62167219200001, 5875199999999999, LAST, -LAST, LAST - 1, 1 - LAST, LAST + 1, 9007199254740992,
    -9007199254740994, 1e18, 1e300,
};
enum { PATTERNS_COUNT = sizeof PATTERNS / sizeof *PATTERNS, VALUES_COUNT = PATTERNS_COUNT + sizeof NUMBERS / sizeof *NUMBERS };

static uint64_t value_at(int i) { return i < PATTERNS_COUNT ? PATTERNS[i] : bits(NUMBERS[i - PATTERNS_COUNT]); }

/* A field record: `value` in the field of that place, and in the others a small number. */
static void lend_with(int map, int place, uint64_t value) {
    static const double small[7] = {2024, 1, 29, 12, 34, 56, 789};
    uint8_t bytes[1 + 8 * 7] = {(uint8_t)map};
    int count = 0;
    for (int bit = 0; bit < 7; bit++) {
        if (map >> bit & 1) {
            put(bytes + 1 + 8 * count, count == place ? value : bits(small[bit]), 8);
            count++;
        }
    }
    lend(&input, bytes, 1 + 8 * (size_t)count);
}

/* Every value as the time and, in each place of each map, as the field. */
static void compare_fields(struct function *function, int times) {
    for (int map = 0; map < 1 << function->fields; map++) {
        int count = __builtin_popcount((unsigned)map);
        for (int place = 0; place < (count > 0 ? count : 1); place++) {
            for (int i = 0; i < VALUES_COUNT; i++) {
                lend_with(map, place, value_at(i));
                for (int t = 0; t < times; t++) compare(function, value_at(t));
            }
        }
    }
}

static void compare_writers(uint64_t time) {
    for (int f = ISO; f <= LOCAL; f++) compare(&functions[f], time);
}

static void compare_readers(const char *text, size_t length) {
    lend(&input, text, length);
    for (int f = READ; f <= REWRITE; f++) compare(&functions[f], 0);
}

/* A time to every writer, and its ISO text, with and without its Z, to the reader and to rewriting. */
static void compare_time(double time) {
    uint8_t text[SIZE];
    lend(&input, NULL, 0);
    compare_writers(bits(time));
    size_t length = zovattha_to_iso_string(bits(time), text, SIZE).length;
    if (length == 0) return;
    compare_readers((const char *)text, length);
    compare_readers((const char *)text, length - 1);
}

/* Times where a quotient is next to a whole number: around the start of a day, and where the mean-year estimate steps; over the range. */
static void compare_range(void) {
    for (int i = -2000; i <= 2000; i++) {
        double day = i * 49999.0 * 86400000, year = i * 137.0 * 31556952000 - 15778476000;
        for (int ms = -1; ms <= 1; ms++) {
            compare_time(day + ms);
            compare_time(year + ms);
        }
    }
}

/* Texts of every form, and one for each refusal. */
static void compare_texts(void) {
    static const char *const texts[] = {
        "1970", "2024-02", "2024-02-29", "2024T12:34Z", "2024-02-29T12:34", "2024-02-29T12:34:56.789+01:30", "-000001-12-31T23:59:59.999Z",
        "+275760-09-13T00:00:00.000Z", "-271821-04-20T00:00:00.000Z", "1970-01-01T00:00Z", "1970-01-01T01:00", "2023-12-31T24:00:00Z", "2023-02-31",
        "", "202x", "-000000", "2024-02-29 ", "+275760-09-13T00:00:00.001Z",
    };
    for (size_t i = 0; i < sizeof texts / sizeof *texts; i++) compare_readers(texts[i], strlen(texts[i]));
}

/* No mode made another answer of any function, and all were asked. */
static void check_functions(void) {
    long calls = 0;
    for (int f = 0; f < FUNCTIONS_COUNT; f++) {
        CHECK_FOR(functions[f].name, functions[f].calls > 0);
        for (int m = 0; m < MODES_COUNT; m++) CHECK_FOR(functions[f].name, functions[f].other[m] == 0);
        calls += functions[f].calls;
    }
    printf("environment: %ld calls, each in %d modes beside the default one\n", calls, MODES_COUNT);
}

int main(void) {
    check_modes();
    LIST({-2208988800, -3600}, {0, 3600}, {1711846800, 7200}, {1729990800, 3600}, {253402300800, -86399});
    lend(&out, NULL, SIZE);
    lend(&input, NULL, 0);
    for (int i = 0; i < VALUES_COUNT; i++) compare_writers(value_at(i));
    compare_range();
    compare_texts();
    for (int f = BUILD_UTC; f <= BUILD_LOCAL; f++) compare_fields(&functions[f], 1);
    for (int f = FIRST_SETTER; f < FUNCTIONS_COUNT; f++) compare_fields(&functions[f], VALUES_COUNT);
    check_functions();
    return checks_status("environment");
}
