/* The reader and rewriting, through the header alone: every form of a text, the refusals in their order, and every lent byte. */
#include "zovattha.h"

#include "check.h"

enum { SIZE = 48 };

static zovattha_answer read_bytes(const void *text, size_t length) {
    lend(&input, text, length);
    return zovattha_read(start(&zone), zone.length, start(&input), length);
}

static zovattha_answer reading(const char *text) { return read_bytes(text, strlen(text)); }

static zovattha_answer rewriting(const char *text, size_t length) {
    lend(&input, text, strlen(text));
    lend(&out, NULL, length);
    return zovattha_rewrite(start(&zone), zone.length, start(&input), input.length, start(&out), length);
}

/* Texts with their instants as V8's Date.parse gives them, but for the offset without minutes, which is Boa's. */
static void check_forms(void) {
    static const struct {
        const char *text;
        double time;
    } rows[] = {
        {"1970", 0},
        {"2024", 1704067200000},
        {"2024-02", 1706745600000},
        {"2024-02-29", 1709164800000},
        {"2024T12:34Z", 1704112440000},
        {"2024-02T12:34Z", 1706790840000},
        {"2024-02-29T12:34Z", 1709210040000},
        {"2024-02-29T12:34:56Z", 1709210096000},
        {"2024-02-29T12:34:56.789Z", 1709210096789},
        {"2024-02-29T12:34:56.7Z", 1709210096700},
        {"2024-02-29T12:34:56.78Z", 1709210096780},
        {"2024-02-29T12:34:56.08Z", 1709210096080},
        {"2024-02-29T12:34:56.0Z", 1709210096000},
        {"2024-02-29T12:34:56.5", 1709210096500},
        {"2024-02-29T12:34:56.5+01", 1709206496500},
        {"2024-02-29T12:34:56.50-01:30", 1709215496500},
        {"2023-12-31T24:00:00.0Z", 1704067200000},
        {"2023-12-31T24:00:00.00", 1704067200000},
        {"1969-12-31T23:59:59.9Z", -100},
        {"+002024-02-29T12:34:56.789Z", 1709210096789},
        {"2024-02-29T12:34:56.789+01:30", 1709204696789},
        {"2024-02-29T12:34:56.789-23:59", 1709296436789},
        {"2024-02-29T00:00+23:59", 1709078460000},
        {"2024-02-29T12:34-01", 1709213640000},
        {"2023-12-31T24:00:00Z", 1704067200000},
        {"2024-02-29T24:00:00.000-05:30", 1709271000000},
        {"2024-02-30", 1709251200000},
        {"2023-02-31", 1677801600000},
        {"1969-12-31T23:59:59.999Z", -1},
        {"0099-12-31", -59011545600000},
        {"0000", -62167219200000},
        {"+000000", -62167219200000},
        {"-000001-12-31T23:59:59.999Z", -62167219200001},
        {"+010000-01-01T00:00Z", 253402300800000},
    };
    LIST({0, 0});
    for (size_t i = 0; i < sizeof rows / sizeof *rows; i++) CHECK_FOR(rows[i].text, gave(reading(rows[i].text), rows[i].time));
}

/* A time without zone is local: the last record not after it, read as an instant, decides; before the first, the first does. */
static void check_local(void) {
    LIST({100, 3600}, {200, 7200});
    CHECK(gave(reading("1970-01-01T00:00"), -3600000));
    CHECK(gave(reading("1970-01-01T00:01:40"), 100000 - 3600000));
    CHECK(gave(reading("1970-01-01T00:03:19.999"), 199999 - 3600000));
    CHECK(gave(reading("1970-01-01T00:03:20"), 200000 - 7200000));
    CHECK(gave(reading("1970-01-01"), 0));
    CHECK(gave(reading("1970-01-01T00:00Z"), 0));
    CHECK(gave(reading("1970-01-01T00:00+00:01"), -60000));
    LIST({-1, 60}, {0, 120});
    CHECK(gave(reading("1969-12-31T23:59:59.999"), -1 - 60000));
    CHECK(gave(reading("1970-01-01T00:00"), -120000));
    /* Vienna's changes in 2024, at 2024-03-31T01:00Z and 2024-10-27T01:00Z. */
    LIST({0, 3600}, {1711846800, 7200}, {1729990800, 3600});
    CHECK(gave(reading("2024-03-31T00:59:59.999"), 1711843199999));
    CHECK(gave(reading("2024-03-31T02:30"), 1711845000000));
    CHECK(gave(reading("2024-10-27T00:59:59.999"), 1729983599999));
    CHECK(gave(reading("2024-10-27T01:30"), 1729989000000));
}

/* As far from a change as the zone is off UTC, the other side's offset is taken: where that begins and ends, and the standard's answer. */
static void check_reach(void) {
    SYDNEY;
    CHECK(gave(reading("2025-04-05T15:59:59"), 1743829199000));
    CHECK(gave(reading("2025-04-05T16:00"), 1743832800000)); /* 06:00Z; standard: 05:00Z */
    CHECK(gave(reading("2025-04-05T20:15"), 1743848100000)); /* 10:15Z; standard: 09:15Z */
    CHECK(gave(reading("2025-04-05T20:15+11:00"), 1743844500000));
    AUCKLAND;
    CHECK(gave(reading("2025-04-05T13:59:59"), 1743814799000));
    CHECK(gave(reading("2025-04-05T14:00"), 1743818400000)); /* 02:00Z; standard: 01:00Z */
    NEW_YORK;
    CHECK(gave(reading("2025-03-09T06:59"), 1741521540000)); /* 11:59Z; standard: 10:59Z */
    CHECK(gave(reading("2025-03-09T07:00"), 1741518000000));
    CHECK(gave(reading("2025-11-02T05:59"), 1762077540000)); /* 09:59Z; standard: 10:59Z */
    CHECK(gave(reading("2025-11-02T06:00"), 1762081200000));
}

/* 1: with the text wrong too, which would be 5. */
static void check_lists(void) {
    static struct record many[1025];
    for (int i = 0; i < 1025; i++) many[i] = (struct record){i - 512, i % 2 ? 86399 : -86399};
    lend_list(many, 1024);
    CHECK(gave(reading("1970T00:00"), 86399000));
    CHECK(refused(reading(""), ZOVATTHA_TEXT_ENDS));
    lend_list(many, 1025);
    CHECK(refused(reading(""), ZOVATTHA_ZONE_LIST));
    LIST({0, 0});
    CHECK(refused((lend(&input, NULL, 0), zovattha_read(NULL, 0, NULL, 0)), ZOVATTHA_ZONE_LIST));
    for (zone.length = 0; zone.length < 24; zone.length++) {
        if (zone.length != 12) CHECK(refused(reading(""), ZOVATTHA_ZONE_LIST));
    }
    LIST({0, 86400});
    CHECK(refused(reading(""), ZOVATTHA_ZONE_LIST));
    LIST({0, 0}, {1, -86400});
    CHECK(refused(reading(""), ZOVATTHA_ZONE_LIST));
    LIST({0, 0}, {1, INT32_MIN});
    CHECK(refused(reading(""), ZOVATTHA_ZONE_LIST));
    LIST({5, 0}, {5, 0});
    CHECK(refused(reading(""), ZOVATTHA_ZONE_LIST));
    LIST({5, 0}, {-5, 0});
    CHECK(refused(reading(""), ZOVATTHA_ZONE_LIST));
    LIST({INT64_MIN, 60}, {INT64_MAX, 0});
    CHECK(gave(reading("1970T00:00"), -60000));
}

/* 5: a whole text cut off after every byte; the ends where a form is whole are accepted. */
static void check_ends(void) {
    static const char whole[] = "2023-02-28T12:34:56.789+01:30";
    static const size_t accepted[] = {4, 7, 10, 16, 19, 21, 22, 23, 26, 29};
    size_t next = 0;
    LIST({0, 0});
    for (size_t length = 0; length < sizeof whole; length++) {
        if (length == accepted[next]) {
            CHECK(read_bytes(whole, length).number == ZOVATTHA_DONE);
            next++;
        } else {
            CHECK(refused(read_bytes(whole, length), ZOVATTHA_TEXT_ENDS));
        }
    }
    CHECK(refused((lend(&input, NULL, 0), zovattha_read(start(&zone), 12, NULL, 0)), ZOVATTHA_TEXT_ENDS));
    CHECK(refused(reading("+00000"), ZOVATTHA_TEXT_ENDS));
    CHECK(refused(reading("-00000"), ZOVATTHA_TEXT_ENDS));
}

struct wrong {
    const char *text;
    uint32_t number;
};

/* 6, 7, 8 and 9; where a text has two faults, the comment says which decides. */
static const struct wrong WRONG_TEXTS[] = {
    {"x", 6}, {" 2023", 6}, {"20x3", 6}, {"2023x", 6}, {"20231", 6}, {"2023t00:00", 6}, {"2023-01x", 6}, {"2023-1x", 6}, {"2023-011", 6},
    {"2023T2x", 6}, {"2023T00x", 6}, {"2023T00:00x", 6}, {"2023T00:00z", 6}, {"2023T00:00:00,000", 6}, {"2023T00:00:00.00x", 6},
    {"2023T00:00:00.0000", 6}, {"2023T00:00:00.x", 6}, {"2023T00:00:00.Z", 6}, {"2023T00:00:00.+01", 6}, {"2023T00:00:00.5x", 6}, {"2023T00:00:00.5.5", 6},
    {"2023T00:00:00.5+1x", 6}, {"2023T00:00+01x", 6}, {"2023T00:00+0100", 6}, {"\xFF", 6}, {"2023\x80", 6},
    {"2023-00", 7}, {"2023-13", 7}, {"2023-01-00", 7}, {"2023-01-32", 7}, {"2023T25:00", 7}, {"2023T23:60", 7}, {"2023T23:59:60", 7},
    {"2023T24:00:00.1Z", 7}, {"2023T24:00:00.01", 7}, {"2023T00:00:00.5+24", 7}, {"2023T00:00+24:00", 7}, {"2023T00:00+23:60", 7}, {"-000000", 7},
    {"2023T24:01Z", 7}, {"2023T24:00:01Z", 7}, {"2023T24:00:00.001Z", 7}, {"2023T24:01", 7}, {"2023T24:00:01-05:00", 7},
    {"2023-01-01x", 8}, {"2023-01-01t00:00", 8}, {"2023-01-01-", 8}, {"2023T00:00Zx", 8}, {"2023T00:00:00.5Zx", 8}, {"2023T00:00+01:00x", 8}, {"2023-01-01\xFF", 8},
    {"-271821-04-19", 9}, {"-271821-04-19T23:00+01:00", 9}, {"+275760-09-13T00:00:00.001Z", 9}, {"+275760-09-13T00:00:00.1Z", 9}, {"-271821-04-19T23:59:59.9Z", 9}, {"+275760-09-13T00:00-00:01", 9},
    {"+999999-12-31T23:59:59.999-23:59", 9},
    /* The first fault from the left. */
    {"2023-13x", 7}, {"2023-1x-99", 6}, {"-000000x", 7}, {"2023T25", 7}, {"2023-99-9", 7},
    /* 8 and 6 before hour 24's 7, and that before 9. */
    {"2023T24:01Zx", 8}, {"2023T24:01x", 6}, {"2023T24:00:00.1Zx", 8}, {"+999999T24:01", 7}, {"+999999T24:00", 9},
};
enum { WRONG_TEXTS_COUNT = sizeof WRONG_TEXTS / sizeof *WRONG_TEXTS };

static void check_wrong_texts(void) {
    LIST({0, 0});
    for (int i = 0; i < WRONG_TEXTS_COUNT; i++) CHECK_FOR(WRONG_TEXTS[i].text, refused(reading(WRONG_TEXTS[i].text), WRONG_TEXTS[i].number));
    CHECK(refused(read_bytes("\0", 1), ZOVATTHA_TEXT_BYTE));
    CHECK(refused(read_bytes("2023-01-01\0", 11), ZOVATTHA_TEXT_REST));
}

/* 9 is asked after the offset, the text's or the list's. */
static void check_range(void) {
    LIST({0, 3600});
    CHECK(gave(reading("+275760-09-13T01:00:00+01:00"), LAST));
    CHECK(gave(reading("-271821-04-20"), -LAST));
    CHECK(gave(reading("-271821-04-19T23:00-01:00"), -LAST));
    CHECK(gave(reading("+275760-09-13T01:00"), LAST));
    CHECK(refused(reading("+275760-09-13T01:00:00.001"), ZOVATTHA_INSTANT));
    CHECK(refused(reading("-271821-04-20T00:00"), ZOVATTHA_INSTANT));
}

static void check_rewriting(void) {
    LIST({0, 0});
    CHECK(wrote(rewriting("1970", 24), 0, "1970-01-01T00:00:00.000Z"));
    CHECK(wrote(rewriting("2023-02-31", SIZE), 1677801600000, "2023-03-03T00:00:00.000Z"));
    CHECK(wrote(rewriting("2023-03-03T00:00:00.000Z", SIZE), 1677801600000, "2023-03-03T00:00:00.000Z"));
    CHECK(wrote(rewriting("2024-02-29T12:34:56.789+01:30", SIZE), 1709204696789, "2024-02-29T11:04:56.789Z"));
    CHECK(wrote(rewriting("2023-12-31T24:00:00Z", SIZE), 1704067200000, "2024-01-01T00:00:00.000Z"));
    CHECK(wrote(rewriting("2024-02-29T12:00:00.5Z", 24), 1709208000500, "2024-02-29T12:00:00.500Z"));
    CHECK(wrote(rewriting("2024-02-29T12:00:00.50Z", 24), 1709208000500, "2024-02-29T12:00:00.500Z"));
    CHECK(wrote(rewriting("2024-02-29T12:00:00.500Z", 24), 1709208000500, "2024-02-29T12:00:00.500Z"));
    CHECK(wrote(rewriting("+000000", SIZE), -62167219200000, "0000-01-01T00:00:00.000Z"));
    CHECK(wrote(rewriting("9999-12-31T23:59-00:01", 27), 253402300800000, "+010000-01-01T00:00:00.000Z"));
    CHECK(wrote(rewriting("-000001-12-31T23:59:59.999Z", 27), -62167219200001, "-000001-12-31T23:59:59.999Z"));
    CHECK(wrote(rewriting("+275760-09-13T01:00:00+01:00", SIZE), LAST, "+275760-09-13T00:00:00.000Z"));
    CHECK(wrote(rewriting("-271821-04-20", SIZE), -LAST, "-271821-04-20T00:00:00.000Z"));
    LIST({0, 7200});
    CHECK(wrote(rewriting("2024-02-29T12:00", SIZE), 1709200800000, "2024-02-29T10:00:00.000Z"));
    CHECK(wrote(rewriting("2024-02-29", SIZE), 1709164800000, "2024-02-29T00:00:00.000Z"));
}

/* 11 comes last: every other refusal stands before it, with no output at all. */
static void check_rewriting_refusals(void) {
    LIST({0, 0});
    CHECK(refused(rewriting("1970", 23), ZOVATTHA_OUTPUT));
    CHECK(refused(rewriting("+275760-09-13", 26), ZOVATTHA_OUTPUT));
    CHECK(refused(rewriting("1970", 0), ZOVATTHA_OUTPUT));
    lend(&out, NULL, 0);
    CHECK(refused((lend(&input, "1970", 4), zovattha_rewrite(start(&zone), 12, start(&input), 4, NULL, 0)), ZOVATTHA_OUTPUT));
    CHECK(refused((lend(&input, NULL, 0), zovattha_rewrite(start(&zone), 12, NULL, 0, NULL, 0)), ZOVATTHA_TEXT_ENDS));
    CHECK(refused(zovattha_rewrite(NULL, 0, NULL, 0, NULL, 0), ZOVATTHA_ZONE_LIST));
    for (int i = 0; i < WRONG_TEXTS_COUNT; i++) {
        CHECK_FOR(WRONG_TEXTS[i].text, refused(rewriting(WRONG_TEXTS[i].text, 0), WRONG_TEXTS[i].number));
        CHECK_FOR(WRONG_TEXTS[i].text, refused(rewriting(WRONG_TEXTS[i].text, SIZE), WRONG_TEXTS[i].number));
    }
    LIST({0, -86400});
    CHECK(refused(rewriting("", SIZE), ZOVATTHA_ZONE_LIST));
}

int main(void) {
    check_forms();
    check_local();
    check_reach();
    check_lists();
    check_ends();
    check_wrong_texts();
    check_range();
    check_rewriting();
    check_rewriting_refusals();
    return checks_status("readers");
}
