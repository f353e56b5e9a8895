/*
 * Dates through the header alone: read a start, move it to another hour, set its minute alone, clear it, write it in local time and in UTC,
 * and rewrite a text.
 *
 *   tools/archives
 *   cc -Iinclude examples/c/hello_dates.c target/staticlib/libzovattha.a
 */
#include "zovattha.h"

#include <stdio.h>
#include <string.h>

/* Bytes are low byte first on any machine. */
static void put(uint8_t *bytes, uint64_t value, int count) {
    for (int i = 0; i < count; i++) bytes[i] = (uint8_t)(value >> (8 * i));
}

/* A record of a zone list: from this second on, local time is this many seconds ahead of UTC. */
static void put_zone(uint8_t *record, int64_t second, int32_t offset) {
    put(record, (uint64_t)second, 8);
    put(record + 8, (uint32_t)offset, 4);
}

/* A number as the bits of an f64. */
static uint64_t bits(double number) {
    uint64_t b;
    memcpy(&b, &number, sizeof b);
    return b;
}

static int refused(const char *call, zovattha_answer answer) {
    if (answer.number != ZOVATTHA_DONE) fprintf(stderr, "%s: refused (%u)\n", call, (unsigned)answer.number);
    return answer.number != ZOVATTHA_DONE;
}

static void print_text(const uint8_t *text, zovattha_answer answer) { printf("%.*s\n", (int)answer.length, (const char *)text); }

/* The local time of an instant, as a line. */
static int print_local(const uint8_t *zone, size_t zone_len, uint64_t time) {
    uint8_t out[36]; /* enough for every text */
    zovattha_answer text = zovattha_to_string(zone, zone_len, time, out, sizeof out);
    if (refused("local text", text)) return 1;
    print_text(out, text);
    return 0;
}

static zovattha_answer read_text(const uint8_t *zone, size_t zone_len, const char *text) {
    return zovattha_read(zone, zone_len, (const uint8_t *)text, strlen(text));
}

/* A field that is not given keeps its value, the first too: the minute alone, bit 1. A NaN in the first one clears the date. */
static int set_one_field(const uint8_t *zone, size_t zone_len, uint64_t time) {
    uint8_t minute[1 + 8] = {2};
    put(minute + 1, bits(45), 8);
    zovattha_answer later = zovattha_set_hours(zone, zone_len, time, minute, sizeof minute);
    if (refused("set the minute", later) || print_local(zone, zone_len, later.value)) return 1;

    uint8_t nan_hour[1 + 8] = {1};
    put(nan_hour + 1, ZOVATTHA_NAN, 8);
    zovattha_answer cleared = zovattha_set_hours(zone, zone_len, time, nan_hour, sizeof nan_hour);
    return refused("clear", cleared) || print_local(zone, zone_len, cleared.value);
}

int main(void) {
    /* Central European time of 2024. */
    uint8_t zone[3 * 12];
    put_zone(zone, 1704067200, 3600);
    put_zone(zone + 12, 1711846800, 7200);
    put_zone(zone + 24, 1729990800, 3600);

    /* A time without zone is local. */
    zovattha_answer start = read_text(zone, sizeof zone, "2024-06-01T20:15");
    if (refused("read", start)) return 1;

    /* The hour and the minute set: bits 0 and 1 of the map, then their two numbers. */
    uint8_t record[1 + 2 * 8] = {3};
    put(record + 1, bits(21), 8);
    put(record + 9, bits(30), 8);
    zovattha_answer moved = zovattha_set_hours(zone, sizeof zone, start.value, record, sizeof record);
    if (refused("set hours", moved)) return 1;

    if (print_local(zone, sizeof zone, moved.value)) return 1;
    if (set_one_field(zone, sizeof zone, moved.value)) return 1;

    uint8_t out[36];
    zovattha_answer text = zovattha_to_iso_string(moved.value, out, sizeof out);
    if (refused("ISO text", text)) return 1;
    print_text(out, text);

    const char *same = "2024-06-01T19:30Z";
    text = zovattha_rewrite(zone, sizeof zone, (const uint8_t *)same, strlen(same), out, sizeof out);
    if (refused("rewrite", text)) return 1;
    print_text(out, text);
    printf("%s\n", text.value == moved.value ? "one instant" : "two instants");

    /* A refused call says why, and writes nothing. */
    zovattha_answer wrong = read_text(zone, sizeof zone, "2024-06-31T25:00");
    printf("refused (%u)\n", (unsigned)wrong.number);
    return wrong.number == ZOVATTHA_TEXT_FIELD ? 0 : 1;
}
