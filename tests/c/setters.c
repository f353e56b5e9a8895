/* The setters, UTC and local, through the header alone: values, the refusals in their order, and every lent byte. */
#include "zovattha.h"

#include "check.h"

typedef zovattha_answer set_utc(uint64_t time, const uint8_t *record, size_t record_len);
typedef zovattha_answer set_local(const uint8_t *zone, size_t zone_len, uint64_t time, const uint8_t *record, size_t record_len);

struct setter {
    const char *name;
    set_utc *utc;
    set_local *local;
    int arguments;
};

#define SETTER(name, arguments) {#name, zovattha_set_utc_##name, zovattha_set_##name, arguments}

enum { MILLISECONDS, SECONDS, MINUTES, HOURS, DATE, MONTH, FULL_YEAR, SETTERS_COUNT };

static const struct setter SETTERS[SETTERS_COUNT] = {
    SETTER(milliseconds, 1), SETTER(seconds, 2), SETTER(minutes, 3), SETTER(hours, 4), SETTER(date, 1), SETTER(month, 2), SETTER(full_year, 3),
};

/* By the record, and the list, that are lent. */
static zovattha_answer utc(int setter, double time) { return SETTERS[setter].utc(bits(time), start(&input), input.length); }

static zovattha_answer local(int setter, double time) {
    return SETTERS[setter].local(start(&zone), zone.length, bits(time), start(&input), input.length);
}

/* 2024-02-29T20:34:56.789Z; at +05:30 it is 1 March, 02:04. */
#define BASE 1709238896789.0

struct row {
    const char *name;
    int setter;
    uint8_t map;
    double fields[4];
    double in_utc;
    double in_list;
};

/* What V8's Date gives from BASE, in UTC and at +05:30; an absent field, the first too, is the call with the present value written in. */
static const struct row ROWS[] = {
    {"millisecond", MILLISECONDS, 1, {1}, 1709238896001, 1709238896001},
    {"millisecond -1.5", MILLISECONDS, 1, {-1.5}, 1709238895999, 1709238895999},
    {"a day of milliseconds", MILLISECONDS, 1, {86400000}, 1709325296000, 1709325296000},
    {"second", SECONDS, 1, {30}, 1709238870789, 1709238870789},
    {"second and millisecond", SECONDS, 3, {61, 5}, 1709238901005, 1709238901005},
    {"minute", MINUTES, 1, {5}, 1709237156789, 1709238956789},
    {"minute, all", MINUTES, 7, {-1, 6, 7}, 1709236746007, 1709238546007},
    {"minute, no second", MINUTES, 5, {5, 7}, 1709237156007, 1709238956007},
    {"hour", HOURS, 1, {1}, 1709170496789, 1709235296789},
    {"hour -1", HOURS, 1, {-1}, 1709163296789, 1709228096789},
    {"hour, all", HOURS, 15, {25, 59, 58, 57}, 1709258398057, 1709324998057},
    {"hour, no minute", HOURS, 5, {5, 7}, 1709184847789, 1709249647789},
    {"hour and millisecond", HOURS, 9, {5, 7}, 1709184896007, 1709249696007},
    {"date", DATE, 1, {31}, 1709411696789, 1711830896789},
    {"date 0", DATE, 1, {0}, 1706733296789, 1709152496789},
    {"month", MONTH, 1, {0}, 1706560496789, 1704054896789},
    {"month -1", MONTH, 1, {-1}, 1703882096789, 1701376496789},
    {"month and date", MONTH, 3, {13, 31}, 1741034096789, 1740947696789},
    {"fractions", MONTH, 3, {1.9, 29.9}, 1709238896789, 1709152496789},
    {"year", FULL_YEAR, 1, {2023}, 1677702896789, 1677616496789},
    {"year 99", FULL_YEAR, 1, {99}, -59037823503211, -59037909903211},
    {"year, all", FULL_YEAR, 7, {-1, 0, 31}, -62196089103211, -62196175503211},
    {"year, no month", FULL_YEAR, 5, {2023, 1}, 1675283696789, 1677616496789},
    {"millisecond, no second", SECONDS, 2, {5}, 1709238896005, 1709238896005},
    {"second, no minute", MINUTES, 2, {5}, 1709238845789, 1709238845789},
    {"millisecond, no minute", MINUTES, 4, {5}, 1709238896005, 1709238896005},
    {"minute, no hour", HOURS, 2, {5}, 1709237156789, 1709238956789},
    {"second and millisecond, no hour", HOURS, 12, {5, 7}, 1709238845007, 1709238845007},
    {"date, no month", MONTH, 2, {31}, 1709411696789, 1711830896789},
    {"month, no year", FULL_YEAR, 2, {13}, 1740861296789, 1738355696789},
    {"date, no year", FULL_YEAR, 4, {31}, 1709411696789, 1711830896789},
    {"NaN", SECONDS, 3, {1, NAN_TIME}, NAN_TIME, NAN_TIME},
    {"infinite", HOURS, 1, {INFINITE}, NAN_TIME, NAN_TIME},
    {"beyond the range", FULL_YEAR, 1, {275761}, NAN_TIME, NAN_TIME},
};

static void check_values(void) {
    LIST({0, 19800});
    for (size_t i = 0; i < sizeof ROWS / sizeof *ROWS; i++) {
        const struct row *row = &ROWS[i];
        lend_record(row->map, row->fields);
        CHECK_FOR(row->name, gave(utc(row->setter, BASE), row->in_utc));
        CHECK_FOR(row->name, gave(local(row->setter, BASE), row->in_list));
    }
}

/* From the last millisecond before 1970, each setter's first argument alone; values of V8's Date. */
static void check_before_1970(void) {
    static const double fields[SETTERS_COUNT] = {0, 0, 0, 0, 1, 0, 1968};
    static const double times[SETTERS_COUNT] = {-1000, -59001, -3540001, -82800001, -2592000001, -28857600001, -31536000001};
    LIST({0, 0});
    for (int i = 0; i < SETTERS_COUNT; i++) {
        RECORD(1, fields[i]);
        CHECK_FOR(SETTERS[i].name, gave(utc(i, -1), times[i]));
        CHECK_FOR(SETTERS[i].name, gave(local(i, -1), times[i]));
    }
}

/* NaN and -0. */
static void check_special(void) {
    LIST({0, 7200});
    for (int i = 0; i < SETTERS_COUNT; i++) {
        RECORD(1, 2024);
        CHECK_FOR(SETTERS[i].name, gave(utc(i, NAN_TIME), i == FULL_YEAR ? 1704067200000 : NAN_TIME));
        CHECK_FOR(SETTERS[i].name, gave(local(i, NAN_TIME), i == FULL_YEAR ? 1704067200000 - 7200000 : NAN_TIME));
        CHECK_FOR(SETTERS[i].name, utc(i, -0.0).value == utc(i, 0).value);
    }
    RECORD(1, 0);
    CHECK(gave(utc(MILLISECONDS, -0.0), 0));
    RECORD(1, 5);
    CHECK(gave(SETTERS[MILLISECONDS].utc(UINT64_C(0xFFF0000000000001), start(&input), 9), NAN_TIME));
    RECORD(7, 2024, 1, 29);
    CHECK(gave(utc(FULL_YEAR, NAN_TIME), 1709164800000));
    RECORD(1, 1);
    CHECK(gave(utc(MONTH, 1706659200000), 1709337600000));
}

/* A bare map of 0: every field keeps its value. Of a NaN date the full year is 1970. */
static void check_no_field(void) {
    RECORD(0, 0);
    for (int i = 0; i < SETTERS_COUNT; i++) {
        LIST({0, 7200});
        for (int t = 0; t < 5; t++) {
            double time = (double[]){BASE, -1, -0.0, LAST, -LAST}[t];
            CHECK_FOR(SETTERS[i].name, gave(utc(i, time), time + 0.0));
            CHECK_FOR(SETTERS[i].name, gave(local(i, time), time + 0.0));
        }
        CHECK_FOR(SETTERS[i].name, gave(utc(i, NAN_TIME), i == FULL_YEAR ? 0 : NAN_TIME));
        CHECK_FOR(SETTERS[i].name, gave(local(i, NAN_TIME), i == FULL_YEAR ? -7200000 : NAN_TIME));
        /* 02:00 local comes twice, and `utc_t` takes the later one. */
        LIST({0, 7200}, {3600, 3600});
        CHECK_FOR(SETTERS[i].name, gave(local(i, 0), 3600000));
    }
}

/* A NaN in the first field clears a date, whatever the other fields are. */
static void check_cleared(void) {
    LIST({0, 7200});
    for (int i = 0; i < SETTERS_COUNT; i++) {
        RECORD(1, NAN_TIME);
        CHECK_FOR(SETTERS[i].name, gave(utc(i, BASE), NAN_TIME) && gave(local(i, BASE), NAN_TIME));
        CHECK_FOR(SETTERS[i].name, gave(utc(i, NAN_TIME), NAN_TIME) && gave(local(i, NAN_TIME), NAN_TIME));
        if (SETTERS[i].arguments > 1) {
            RECORD(3, NAN_TIME, 1);
            CHECK_FOR(SETTERS[i].name, gave(utc(i, BASE), NAN_TIME) && gave(local(i, BASE), NAN_TIME));
        }
    }
}

/* The range's ends; locally the time may leave it on the way. */
static void check_range(void) {
    RECORD(1, 1);
    CHECK(gave(utc(MILLISECONDS, LAST), NAN_TIME));
    CHECK(gave(utc(HOURS, -LAST), -LAST + 3600000));
    LIST({0, 3600});
    CHECK(gave(local(HOURS, LAST), LAST));
    RECORD(3, 1, 1);
    CHECK(gave(local(HOURS, LAST), NAN_TIME));
    RECORD(1, -1);
    CHECK(gave(utc(HOURS, -LAST), NAN_TIME));
    LIST({0, -3600});
    RECORD(1, 23);
    CHECK(gave(local(HOURS, -LAST), -LAST));
}

/* Local time by the offset at the instant; back by the one at the local time read as an instant. Vienna's changes in 2024. */
static void check_changes(void) {
    LIST({0, 3600}, {1711846800, 7200}, {1729990800, 3600});
    /* 00:30 on 31 March becomes 02:30, which that night has not got: 00:30Z. */
    RECORD(1, 2);
    CHECK(gave(local(HOURS, 1711841400000), 1711845000000));
    /* 12:00 on 26 October becomes 12:00 on the 28th, an hour nearer to UTC. */
    RECORD(1, 28);
    CHECK(gave(local(DATE, 1729936800000), 1730113200000));
    /* 12:00 on 31 January becomes 12:00 on 31 July. */
    RECORD(1, 6);
    CHECK(gave(local(MONTH, 1706698800000), 1722420000000));
    /* 20:15 on the evening before Sydney's change, set to the millisecond that it has, becomes 21:15. */
    SYDNEY;
    RECORD(1, 0);
    CHECK(gave(local(MILLISECONDS, 1743844500000), 1743848100000));
}

/* 2, 3 and 4, locally 1 before them; each with all that come later. */
static void check_order(int i) {
    const struct setter *setter = &SETTERS[i];
    LIST({0, 0});
    lend(&input, NULL, 0);
    for (int t = 0; t < WRONG_TIMES_COUNT; t++) {
        CHECK_FOR(setter->name, refused(setter->utc(bits(WRONG_TIMES[t]), NULL, 0), ZOVATTHA_TIME_VALUE));
        CHECK_FOR(setter->name, refused(local(i, WRONG_TIMES[t]), ZOVATTHA_TIME_VALUE));
    }
    CHECK_FOR(setter->name, refused(setter->local(NULL, 0, bits(0.5), NULL, 0), ZOVATTHA_ZONE_LIST));
    CHECK_FOR(setter->name, refused(setter->utc(0, NULL, 0), ZOVATTHA_RECORD_LENGTH));
    CHECK_FOR(setter->name, refused(setter->local(start(&zone), 12, 0, NULL, 0), ZOVATTHA_RECORD_LENGTH));
    CHECK_FOR(setter->name, refused(utc(i, NAN_TIME), ZOVATTHA_RECORD_LENGTH));
    LIST({0, 0}, {0, 0});
    CHECK_FOR(setter->name, refused(local(i, 0.5), ZOVATTHA_ZONE_LIST));
    LIST({0, -86400});
    CHECK_FOR(setter->name, refused(local(i, 0.5), ZOVATTHA_ZONE_LIST));
}

/* Every map: the length by all its ones decides before the bits that the setter hasn't got; a NaN date skips neither. */
static void check_maps(int i) {
    LIST({0, 0});
    for (int map = 0; map < 256; map++) {
        uint32_t due = map >> SETTERS[i].arguments ? ZOVATTHA_RECORD_MAP : ZOVATTHA_DONE;
        RECORD((uint8_t)map, 1, 1, 1, 1, 1, 1, 1, 1);
        CHECK_FOR(SETTERS[i].name, utc(i, 0).number == due && local(i, 0).number == due && utc(i, NAN_TIME).number == due);
        size_t whole = input.length;
        for (input.length = whole - 1; input.length <= whole + 1; input.length += 2) {
            CHECK_FOR(SETTERS[i].name, refused(utc(i, 0), ZOVATTHA_RECORD_LENGTH));
            CHECK_FOR(SETTERS[i].name, refused(local(i, NAN_TIME), ZOVATTHA_RECORD_LENGTH));
        }
    }
    RECORD((uint8_t)(1 << SETTERS[i].arguments), 1);
    CHECK_FOR(SETTERS[i].name, refused(utc(i, 0), ZOVATTHA_RECORD_MAP));
    CHECK_FOR(SETTERS[i].name, refused(local(i, NAN_TIME), ZOVATTHA_RECORD_MAP));
}

int main(void) {
    check_values();
    check_before_1970();
    check_special();
    check_no_field();
    check_cleared();
    check_range();
    check_changes();
    for (int i = 0; i < SETTERS_COUNT; i++) {
        check_order(i);
        check_maps(i);
    }
    return checks_status("setters");
}
