/*
 * The log's order (change request 9), through the header alone: of instants in the years 0000 to 9999 the bytes that the ISO writer and
 * rewriting write compare by memcmp as the instants do, and a search by halving finds by bytes what it finds by time.
 */
#include "zovattha.h"

#include "check.h"

enum { PAIRS = 1000000, LINES = 4096, SEARCHES = 100000, LENGTH = 24, ENOUGH = 1000 };

#define FIRST_OF_0 INT64_C(-62167219200000)
#define LAST_OF_9999 INT64_C(253402300799999)

/* ---- instants: the same ones in every run */

static uint64_t state = UINT64_C(0x9E3779B97F4A7C15);

static uint64_t next(void) {
    state ^= state << 13;
    state ^= state >> 7;
    state ^= state << 17;
    return state;
}

static int64_t any_time(void) { return FIRST_OF_0 + (int64_t)(next() % (uint64_t)(LAST_OF_9999 - FIRST_OF_0 + 1)); }

static int is_in_years(int64_t time) { return FIRST_OF_0 <= time && time <= LAST_OF_9999; }

/* Less than a power of two away, from 1 (the same instant) to 2^48, so that each field, and each digit of it, is the first to differ in some. */
static int64_t other_time(int64_t time) {
    int64_t away = (int64_t)(next() % (UINT64_C(1) << next() % 49));
    int64_t other = next() % 2 == 0 ? time + away : time - away;
    return is_in_years(other) ? other : time;
}

/* ---- lines of the log */

typedef struct line {
    uint8_t bytes[LENGTH];
} line;

static int sign(int64_t number) { return (number > 0) - (number < 0); }

static int compared(const line *a, const line *b) { return sign(memcmp(a->bytes, b->bytes, LENGTH)); }

static line line_of(int64_t time) {
    line written;
    zovattha_answer answer = zovattha_to_iso_string(bits((double)time), written.bytes, LENGTH);
    CHECK(answer.number == ZOVATTHA_DONE && answer.value == bits((double)time) && answer.length == LENGTH);
    return written;
}

/* The line of the same instant, rewritten from the text of a clock an hour and a half ahead, or where that is past 9999 from the line itself. */
static line rewritten(int64_t time) {
    static const uint8_t utc_list[12];
    static const char ahead[] = "+01:30";
    int64_t clock = is_in_years(time + 5400000) ? time + 5400000 : time;
    uint8_t text[LENGTH - 1 + sizeof ahead - 1];
    line shown = line_of(clock), written;
    memcpy(text, shown.bytes, LENGTH);
    if (clock != time) memcpy(text + LENGTH - 1, ahead, sizeof ahead - 1);
    zovattha_answer answer = zovattha_rewrite(utc_list, sizeof utc_list, text, clock == time ? LENGTH : sizeof text, written.bytes, LENGTH);
    CHECK(answer.number == ZOVATTHA_DONE && answer.value == bits((double)time) && answer.length == LENGTH);
    return written;
}

/* ---- pairs */

static int first_difference(const line *a, const line *b) {
    int place = 0;
    while (place < LENGTH && a->bytes[place] == b->bytes[place]) place++;
    return place;
}

static void check_pairs(void) {
    static int seen[LENGTH + 1];
    for (int i = 0; i < PAIRS; i++) {
        int64_t t = any_time(), u = other_time(t);
        line a = line_of(t), b = line_of(u), c = rewritten(u);
        CHECK(compared(&a, &b) == sign(t - u));
        CHECK(compared(&b, &c) == 0);
        seen[first_difference(&a, &b)]++;
    }
    /* Not the same few: each digit was the first difference, as far as it can be, and equal instants were among them. */
    static const char digits[] = "dddd-dd-ddTdd:dd:dd.dddZ";
    for (int place = 0; place < LENGTH; place++) CHECK_FOR(digits + place, digits[place] == 'd' ? seen[place] >= ENOUGH : seen[place] == 0);
    CHECK(seen[LENGTH] >= ENOUGH);
}

/* ---- a search by halving: the first line that is not smaller */

static int64_t times[LINES];
static line lines[LINES];

static int by_rising_time(const void *a, const void *b) { return sign(*(const int64_t *)a - *(const int64_t *)b); }

static void make_log(void) {
    for (int i = 0; i < LINES; i++) times[i] = i % 4 == 3 ? other_time(times[i - 1]) : any_time();
    qsort(times, LINES, sizeof *times, by_rising_time);
    for (int i = 0; i < LINES; i++) lines[i] = line_of(times[i]);
}

static int place_by_bytes(const line *sought) {
    int low = 0, high = LINES;
    while (low < high) {
        int middle = low + (high - low) / 2;
        if (compared(&lines[middle], sought) < 0) low = middle + 1;
        else high = middle;
    }
    return low;
}

static int place_by_time(int64_t sought) {
    int place = 0;
    while (place < LINES && times[place] < sought) place++;
    return place;
}

static void check_searches(void) {
    make_log();
    for (int i = 1; i < LINES; i++) CHECK(compared(&lines[i - 1], &lines[i]) <= 0);
    for (int i = 0; i < SEARCHES; i++) {
        int64_t sought = i % 2 == 0 ? times[next() % LINES] : other_time(times[next() % LINES]);
        line text = line_of(sought);
        int place = place_by_bytes(&text);
        CHECK(place == place_by_time(sought));
        CHECK((place < LINES && compared(&lines[place], &text) == 0) == (place < LINES && times[place] == sought));
    }
}

/* ---- the ends of these years, and why years with a sign are not among them: there the earlier has the larger text */

static int compared_texts(double t, double u) {
    uint8_t a[27], b[27];
    size_t length = zovattha_to_iso_string(bits(t), a, sizeof a).length, other = zovattha_to_iso_string(bits(u), b, sizeof b).length;
    return sign(memcmp(a, b, length < other ? length : other));
}

static void check_ends(void) {
    CHECK(memcmp(line_of(FIRST_OF_0).bytes, "0000-01-01T00:00:00.000Z", LENGTH) == 0);
    CHECK(memcmp(line_of(LAST_OF_9999).bytes, "9999-12-31T23:59:59.999Z", LENGTH) == 0);
    CHECK(compared_texts(FIRST_OF_0, LAST_OF_9999) < 0);
    CHECK(compared_texts(-62230291200000.0, -62198755200000.0) > 0); /* -000002-01-01T00:00:00.000Z, -000001-01-01T00:00:00.000Z */
    CHECK(compared_texts(LAST_OF_9999, LAST_OF_9999 + 1.0) > 0);      /* 9999-12-31T23:59:59.999Z, +010000-01-01T00:00:00.000Z */
}

int main(void) {
    check_ends();
    check_pairs();
    check_searches();
    return checks_status("log_order");
}
