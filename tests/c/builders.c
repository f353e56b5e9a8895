/* The field builder, UTC and local, through the header alone: values, the refusals in their order, and every lent byte. */
#include "zovattha.h"

#include "check.h"

static zovattha_answer utc(void) { return zovattha_build_utc(start(&input), input.length); }

static zovattha_answer local(void) { return zovattha_build_local(start(&zone), zone.length, start(&input), input.length); }

/* Bits of the map. */
enum { YEAR = 1, MONTH = 2, DATE = 4, HOUR = 8, MINUTE = 16, SECOND = 32, MS = 64, ALL = 127 };

struct row {
    const char *name;
    uint8_t map;
    double fields[7];
    double time;
};

/* Values of V8's Date.UTC; a gap is the call with its default written in. */
static const struct row ROWS[] = {
    {"all fields", ALL, {2024, 1, 29, 12, 34, 56, 789}, 1709210096789},
    {"the last before 1970", ALL, {1969, 11, 31, 23, 59, 59, 999}, -1},
    {"year alone", YEAR, {1970}, 0},
    {"year 0", YEAR, {0}, -2208988800000},
    {"year -0.5", YEAR, {-0.5}, -2208988800000},
    {"year 70", YEAR, {70}, 0},
    {"year 99.9", YEAR, {99.9}, 915148800000},
    {"year 99", YEAR | MONTH | DATE, {99, 11, 31}, 946598400000},
    {"year 100", YEAR, {100}, -59011459200000},
    {"year -1", YEAR, {-1}, -62198755200000},
    {"fractions", YEAR | MONTH | DATE | HOUR, {2024.9, 1.9, 29.9, 12.9}, 1709208000000},
    {"month 12", YEAR | MONTH, {2024, 12}, 1735689600000},
    {"month 13", YEAR | MONTH | DATE, {2023, 13, 29}, 1709164800000},
    {"month -1", YEAR | MONTH | DATE, {2024, -1, 1}, 1701388800000},
    {"date 0", YEAR | MONTH | DATE, {2024, 0, 0}, 1703980800000},
    {"hour 24", YEAR | HOUR, {2024, 24}, 1704153600000},
    {"hour -1", YEAR | HOUR, {2024, -1}, 1704063600000},
    {"minute -1", YEAR | MINUTE, {2024, -1}, 1704067140000},
    {"second -1", YEAR | SECOND, {2024, -1}, 1704067199000},
    {"millisecond -1", YEAR | MS, {2024, -1}, 1704067199999},
    {"no field", 0, {0}, NAN_TIME},
    {"no year", ALL & ~YEAR, {1, 29, 12, 34, 56, 789}, NAN_TIME},
    {"NaN", YEAR | MS, {2024, NAN_TIME}, NAN_TIME},
    {"infinite", YEAR | MONTH, {2024, INFINITE}, NAN_TIME},
    {"beyond the range", YEAR | MS, {2024, LAST}, NAN_TIME},
};

/* With one offset a local time is the same less the offset. */
static void check_values(void) {
    LIST({0, 7200});
    for (size_t i = 0; i < sizeof ROWS / sizeof *ROWS; i++) {
        lend_record(ROWS[i].map, ROWS[i].fields);
        CHECK_FOR(ROWS[i].name, gave(utc(), ROWS[i].time));
        CHECK_FOR(ROWS[i].name, gave(local(), ROWS[i].time - 7200000));
    }
}

/* The range's ends; locally they are asked after the offset. */
static void check_range(void) {
    LIST({0, 7200});
    RECORD(YEAR | MONTH | DATE, 275760, 8, 13);
    CHECK(gave(utc(), LAST));
    CHECK(gave(local(), LAST - 7200000));
    RECORD(YEAR | MONTH | DATE | MS, 275760, 8, 13, 1);
    CHECK(gave(utc(), NAN_TIME));
    RECORD(YEAR | MONTH | DATE | HOUR, 275760, 8, 13, 2);
    CHECK(gave(local(), LAST));
    RECORD(YEAR | MONTH | DATE | HOUR | MS, 275760, 8, 13, 2, 1);
    CHECK(gave(local(), NAN_TIME));
    RECORD(YEAR | MONTH | DATE, -271821, 3, 20);
    CHECK(gave(utc(), -LAST));
    CHECK(gave(local(), NAN_TIME));
    /* 1 April -271821 lies before the range, 456 hours after it do not. */
    RECORD(YEAR | MONTH | DATE | HOUR, -271821, 3, 1, 456);
    CHECK(gave(utc(), -LAST));
    RECORD(YEAR | MONTH | DATE | HOUR | MS, -271821, 3, 1, 456, -1);
    CHECK(gave(utc(), NAN_TIME));
}

/* The offset is the one at the local time read as an instant. Vienna's changes in 2024, at 2024-03-31T01:00Z and 2024-10-27T01:00Z. */
static void check_changes(void) {
    LIST({0, 3600}, {1711846800, 7200}, {1729990800, 3600});
    RECORD(YEAR | MONTH | DATE | SECOND, 2024, 2, 31, 3599);
    CHECK(gave(local(), 1711843199000));
    RECORD(YEAR | MONTH | DATE | HOUR | MINUTE, 2024, 2, 31, 2, 30);
    CHECK(gave(local(), 1711845000000));
    RECORD(YEAR | MONTH | DATE | HOUR | MINUTE, 2024, 9, 27, 1, 30);
    CHECK(gave(local(), 1729989000000));
    RECORD(YEAR, 1969);
    CHECK(gave(local(), -31536000000 - 3600000));
    /* 20:15 on the evening before Sydney's change: 10:15Z, where the standard has 09:15Z. */
    SYDNEY;
    RECORD(YEAR | MONTH | DATE | HOUR | MINUTE, 2025, 3, 5, 20, 15);
    CHECK(gave(local(), 1743848100000));
}

/* 3 and 4, and locally 1 before them. */
static void check_refusals(void) {
    LIST({0, 0});
    lend(&input, NULL, 0);
    CHECK(refused(zovattha_build_utc(NULL, 0), ZOVATTHA_RECORD_LENGTH));
    CHECK(refused(zovattha_build_local(start(&zone), 12, NULL, 0), ZOVATTHA_RECORD_LENGTH));
    CHECK(refused(zovattha_build_local(NULL, 0, NULL, 0), ZOVATTHA_ZONE_LIST));
    CHECK(refused(utc(), ZOVATTHA_RECORD_LENGTH));
    for (int map = 0; map < 256; map++) {
        RECORD((uint8_t)map, 2024, 1, 29, 12, 34, 56, 789, 0);
        CHECK(utc().number == (map > ALL ? ZOVATTHA_RECORD_MAP : ZOVATTHA_DONE));
        CHECK(local().number == (map > ALL ? ZOVATTHA_RECORD_MAP : ZOVATTHA_DONE));
        size_t whole = input.length;
        for (input.length = whole - 1; input.length <= whole + 1; input.length += 2) {
            CHECK(refused(utc(), ZOVATTHA_RECORD_LENGTH));
            CHECK(refused(local(), ZOVATTHA_RECORD_LENGTH));
        }
    }
    RECORD(128, 0);
    CHECK(refused(utc(), ZOVATTHA_RECORD_MAP));
    CHECK(refused(local(), ZOVATTHA_RECORD_MAP));
    LIST({0, 0}, {0, 0});
    CHECK(refused(local(), ZOVATTHA_ZONE_LIST));
    input.length = 0;
    CHECK(refused(local(), ZOVATTHA_ZONE_LIST));
    LIST({0, 86400});
    CHECK(refused(local(), ZOVATTHA_ZONE_LIST));
}

int main(void) {
    check_values();
    check_range();
    check_changes();
    check_refusals();
    return checks_status("builders");
}
