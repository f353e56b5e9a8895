/* The writers, through the header alone: the answer's layout, texts and refusals, and every byte of the output. */
#include "zovattha.h"

#include "check.h"

enum { SIZE = 48 };

static zovattha_answer iso(double time, size_t length) {
    lend(&out, NULL, length);
    return zovattha_to_iso_string(bits(time), start(&out), length);
}

static zovattha_answer utc_of_bits(uint64_t time, size_t length) {
    lend(&out, NULL, length);
    return zovattha_to_utc_string(time, start(&out), length);
}

static zovattha_answer utc(double time, size_t length) { return utc_of_bits(bits(time), length); }

/* By the list that is lent. */
static zovattha_answer local(double time, size_t length) {
    lend(&out, NULL, length);
    return zovattha_to_string(start(&zone), zone.length, bits(time), start(&out), length);
}

static const double BEFORE_YEAR_0 = -62167219200001.0;

static void check_layout(void) {
    CHECK(sizeof(zovattha_answer) == 24);
    CHECK(offsetof(zovattha_answer, number) == 0);
    CHECK(offsetof(zovattha_answer, value) == 8);
    CHECK(offsetof(zovattha_answer, length) == 16);
}

static void check_iso(void) {
    CHECK(wrote(iso(0, SIZE), 0, "1970-01-01T00:00:00.000Z"));
    CHECK(wrote(iso(-0.0, SIZE), 0, "1970-01-01T00:00:00.000Z"));
    CHECK(wrote(iso(1709208000000, 24), 1709208000000, "2024-02-29T12:00:00.000Z"));
    CHECK(wrote(iso(BEFORE_YEAR_0, 27), BEFORE_YEAR_0, "-000001-12-31T23:59:59.999Z"));
    CHECK(wrote(iso(LAST, SIZE), LAST, "+275760-09-13T00:00:00.000Z"));
    CHECK(wrote(iso(-LAST, SIZE), -LAST, "-271821-04-20T00:00:00.000Z"));
    CHECK(refused(iso(INFINITE, SIZE), ZOVATTHA_TIME_VALUE));
    CHECK(refused(iso(-INFINITE, 0), ZOVATTHA_TIME_VALUE));
    CHECK(refused(iso(0.5, SIZE), ZOVATTHA_TIME_VALUE));
    CHECK(refused(iso(LAST + 1, SIZE), ZOVATTHA_TIME_VALUE));
    CHECK(refused(iso(NAN_TIME, SIZE), ZOVATTHA_NO_TIME));
    CHECK(refused(iso(NAN_TIME, 0), ZOVATTHA_NO_TIME));
    CHECK(refused(iso(0, 23), ZOVATTHA_OUTPUT));
    CHECK(refused(iso(LAST, 26), ZOVATTHA_OUTPUT));
    CHECK(refused((lend(&out, NULL, 0), zovattha_to_iso_string(0, NULL, 0)), ZOVATTHA_OUTPUT));
}

static void check_utc(void) {
    CHECK(wrote(utc(0, 29), 0, "Thu, 01 Jan 1970 00:00:00 GMT"));
    CHECK(wrote(utc(BEFORE_YEAR_0, SIZE), BEFORE_YEAR_0, "Fri, 31 Dec -0001 23:59:59 GMT"));
    CHECK(wrote(utc(-LAST, SIZE), -LAST, "Tue, 20 Apr -271821 00:00:00 GMT"));
    CHECK(wrote(utc(NAN_TIME, 12), NAN_TIME, "Invalid Date"));
    CHECK(wrote(utc_of_bits(UINT64_C(0xFFF0000000000001), SIZE), NAN_TIME, "Invalid Date"));
    CHECK(refused(utc(INFINITE, SIZE), ZOVATTHA_TIME_VALUE));
    CHECK(refused(utc_of_bits(1, SIZE), ZOVATTHA_TIME_VALUE));
    CHECK(refused(utc(0, 28), ZOVATTHA_OUTPUT));
    CHECK(refused(utc(NAN_TIME, 11), ZOVATTHA_OUTPUT));
    CHECK(refused((lend(&out, NULL, 0), zovattha_to_utc_string(0, NULL, 0)), ZOVATTHA_OUTPUT));
}

static void check_local(void) {
    LIST({0, 7200}, {3600, 3600});
    CHECK(wrote(local(0, SIZE), 0, "Thu Jan 01 1970 02:00:00 GMT+0100"));
    CHECK(wrote(local(NAN_TIME, 12), NAN_TIME, "Invalid Date"));
    CHECK(refused(local(INFINITE, SIZE), ZOVATTHA_TIME_VALUE));
    CHECK(refused(local(0, 32), ZOVATTHA_OUTPUT));
    CHECK(refused(local(NAN_TIME, 0), ZOVATTHA_OUTPUT));
    CHECK(refused((lend(&out, NULL, 0), zovattha_to_string(start(&zone), 24, 0, NULL, 0)), ZOVATTHA_OUTPUT));
    LIST({0, 7200});
    CHECK(wrote(local(0, 33), 0, "Thu Jan 01 1970 02:00:00 GMT+0200"));
    LIST({0, -30});
    CHECK(wrote(local(0, SIZE), 0, "Wed Dec 31 1969 23:59:30 GMT-0000"));
    /* The clock is the instant's, the suffix the one at the local time. */
    SYDNEY;
    CHECK(wrote(local(1743844500000, SIZE), 1743844500000, "Sat Apr 05 2025 20:15:00 GMT+1000"));
    LIST({0, 86399});
    CHECK(wrote(local(LAST, SIZE), LAST, "Sat Sep 13 275760 23:59:59 GMT+2359"));
    LIST({0, -86399});
    CHECK(wrote(local(-LAST, SIZE), -LAST, "Mon Apr 19 -271821 00:00:01 GMT-2359"));
}

/* A list that is not accepted decides before the time and the output. */
static void check_lists(void) {
    LIST({0, 0});
    CHECK(refused((lend(&out, NULL, 0), zovattha_to_string(NULL, 0, bits(INFINITE), start(&out), 0)), ZOVATTHA_ZONE_LIST));
    CHECK(refused((lend(&out, NULL, 0), zovattha_to_string(NULL, 0, 0, NULL, 0)), ZOVATTHA_ZONE_LIST));
    zone.length = 11;
    CHECK(refused(local(0, SIZE), ZOVATTHA_ZONE_LIST));
    zone.length = 13;
    CHECK(refused(local(0, SIZE), ZOVATTHA_ZONE_LIST));
    LIST({0, 86400});
    CHECK(refused(local(INFINITE, SIZE), ZOVATTHA_ZONE_LIST));
    LIST({0, 0}, {0, 0});
    CHECK(refused(local(0, SIZE), ZOVATTHA_ZONE_LIST));
}

int main(void) {
    check_layout();
    check_iso();
    check_utc();
    check_local();
    check_lists();
    return checks_status("writers");
}
