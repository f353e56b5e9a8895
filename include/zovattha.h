/*
 * Zovattha: the date module of boa_engine 0.22.0 carried over and proved, as C functions on numbers and lent bytes.
 * Link libzovattha.a; it needs nothing else, allocates nothing, keeps no state and never fails to return.
 *
 * What every function takes and gives
 *
 *   time value   the 64 bits of an f64: milliseconds since 1970-01-01 UTC, a whole number within 8,640,000,000,000,000
 *                of zero, or NaN by any of its patterns. -0 counts as 0. A NaN handed out is ZOVATTHA_NAN.
 *   zone list    12 bytes a record: a second (signed, 64 bits), then the offset from UTC in seconds that holds from then on
 *                (signed, 32 bits), low byte first. 1 to 1,024 records, seconds strictly rising, offsets within ±86,399.
 *   out          where a text is written: its first bytes, as many as the answer's length. Bytes past them stay as they were.
 *
 * What the caller keeps
 *
 *   - A pointer lent with a length is good for that many bytes for the whole call. It may be null where the length is 0.
 *   - `out` overlaps neither `zone` nor `text` nor `record`: to write a text again in place, copy it first.
 *   - The thread's floating-point environment: exceptions are masked, as they are when a program starts (an unmasked one can stop a call),
 *     and for the builder and the setters the rounding mode is the default, to nearest. Denormals-are-zero and flush-to-zero, which
 *     -ffast-math and codecs set, change no answer; nor does a rounding mode one of the reader, of rewriting or of a writer (tests/c).
 *     A call leaves the modes as they are and may raise status flags.
 *   - Nothing of the content: any bits and any bytes get an answer.
 *
 * Local times near a change of offset
 *
 *   As in the original, a local time is looked up in the list as if it were an instant. So within as many hours of a change as the zone is
 *   off UTC (before it where local time is ahead of UTC, after it where it is behind) the offset of the wrong side can be taken: mostly
 *   an hour off. Under Sydney's list 2025-04-05T20:15 is 10:15Z, and the standard's answer is 09:15Z; in New York it reaches 4 or 5 hours,
 *   in Auckland 13. It concerns the reader, rewriting, the local builder and the local setters, and the suffix of the local writer. A text
 *   with Z or an offset, a date alone and the UTC calls are free of it. docs/DIFFERENCES.md says more.
 *
 * A refused call answers the number of its fault, ZOVATTHA_NAN and length 0, and leaves every lent byte as it was.
 * Where several faults are there, the first one in the order of the numbers below decides, but for a text, which is read
 * from left to right: there the first fault met does (5, 6 and 7), then 8, then 7 for hour 24.
 */
#ifndef ZOVATTHA_H
#define ZOVATTHA_H

#include <stddef.h>
#include <stdint.h>

#ifdef __cplusplus
extern "C" {
#endif

typedef struct zovattha_answer {
    uint32_t number; /* ZOVATTHA_DONE, or why the call was turned back */
    uint64_t value;  /* the bits of a time value */
    size_t length;   /* how many bytes were written */
} zovattha_answer;

#define ZOVATTHA_NAN UINT64_C(0x7FF8000000000000)

enum zovattha_number {
    ZOVATTHA_DONE = 0,
    ZOVATTHA_ZONE_LIST = 1,     /* zone list: length, order or offset outside its rule */
    ZOVATTHA_TIME_VALUE = 2,    /* time value: infinite, fractional or beyond the range */
    ZOVATTHA_RECORD_LENGTH = 3, /* field record: empty, or not 1 + 8 times the ones of its map */
    ZOVATTHA_RECORD_MAP = 4,    /* field record: a bit that this call hasn't got */
    ZOVATTHA_TEXT_ENDS = 5,     /* text: it ends where a byte is needed */
    ZOVATTHA_TEXT_BYTE = 6,     /* text: a byte not allowed there */
    ZOVATTHA_TEXT_FIELD = 7,    /* text: a field outside its bounds, -000000, or hour 24 with a smaller field not 0 */
    ZOVATTHA_TEXT_REST = 8,     /* text: a byte other than T after a day, or any byte after Z or an offset's minute */
    ZOVATTHA_INSTANT = 9,       /* the instant of a text is outside the range */
    ZOVATTHA_NO_TIME = 10,      /* ISO writer: NaN */
    ZOVATTHA_OUTPUT = 11        /* out is shorter than the text */
};

/*
 * The reader: the instant that a text denotes, as a time value; length 0. A date alone is UTC; a time without zone is local by the list,
 * near a change of offset by the rule above, which can be an hour off. A second may have one to three decimals, as tenths, hundredths or
 * thousandths: .5 and .500 are half a second. Refusals 1, 5, 6, 7, 8, 9.
 */
zovattha_answer zovattha_read(const uint8_t *zone, size_t zone_len, const uint8_t *text, size_t text_len);

/*
 * Rewriting: reads a text and writes its instant's ISO text, always with three decimals. Answers the instant and the length, 24 or 27. Two
 * texts that denote one instant are written as equal bytes, and rewriting such bytes again gives the same. The reader's refusals, then 11.
 */
zovattha_answer zovattha_rewrite(const uint8_t *zone, size_t zone_len, const uint8_t *text, size_t text_len, uint8_t *out, size_t out_len);

/*
 * Writers. Each answers the time value that it was given (-0 as 0) and the length of the text. NaN is the text
 * `Invalid Date` for the UTC and the local writer. 36 bytes are enough for every text.
 */

/*
 * 2024-02-29T12:00:00.000Z; years outside 0 to 9999 as -000001 or +010000. 24 or 27 bytes. Refusals 2, 10, 11.
 * Of two times in the years 0000 to 9999 (-62,167,219,200,000 to 253,402,300,799,999) the earlier has the smaller text, by memcmp of its 24
 * bytes, and equal times have equal text; so it is of what zovattha_rewrite writes. Years with a sign are not in that order: year -2 is
 * earlier than year -1, but -000002-01-01T00:00:00.000Z is larger than -000001-01-01T00:00:00.000Z; and the first text of year 10000,
 * +010000-01-01T00:00:00.000Z, is smaller than every text of the years before it.
 */
zovattha_answer zovattha_to_iso_string(uint64_t time, uint8_t *out, size_t out_len);

/* Thu, 29 Feb 2024 12:00:00 GMT. 29 to 32 bytes, or 12. Refusals 2, 11. */
zovattha_answer zovattha_to_utc_string(uint64_t time, uint8_t *out, size_t out_len);

/* Thu Feb 29 2024 14:00:00 GMT+0200; the suffix, not the clock, is by the rule above. 33 to 36 bytes, or 12. Refusals 1, 2, 11. */
zovattha_answer zovattha_to_string(const uint8_t *zone, size_t zone_len, uint64_t time, uint8_t *out, size_t out_len);

/*
 * Field builder and setters. A field record is one byte of bit map, then 8 bytes (an f64's bits, low byte first) for each bit that
 * stands, lowest bit first. Each answers a time value (ZOVATTHA_NAN where the result is out of range) and length 0.
 *
 * Builder's bits 0 to 6: year, month (January is 0), date, hour, minute, second, millisecond. Absent: month 0, date 1, others 0, but
 * year NaN. Years 0 to 99 are 1900 to 1999. Refusals 3, 4; the local one 1, 3, 4. It goes from local time to UTC by the rule above.
 */
zovattha_answer zovattha_build_utc(const uint8_t *record, size_t record_len);
zovattha_answer zovattha_build_local(const uint8_t *zone, size_t zone_len, const uint8_t *record, size_t record_len);

/*
 * Setters: bit 0 is the first argument and so on. Every absent field keeps its present value, the first too: an hours record with the minute
 * alone leaves the hour as it is, and a bare map of 0 sets nothing. A date is cleared by a NaN in the first field, in any setter. A script's
 * call without arguments, which is NaN in ECMA-262 and in the original, is to be handed on that way. NaN gives NaN, but full_year starts
 * from 0, so that there an absent year is 1970. Refusals 2, 3, 4; the local ones 1, 2, 3, 4. These go back from local time to UTC by the rule
 * above, so that near a change of offset a time can move by an hour though its fields are set to what they are, or none is given.
 */
zovattha_answer zovattha_set_utc_milliseconds(uint64_t time, const uint8_t *record, size_t record_len); /* ms */
zovattha_answer zovattha_set_utc_seconds(uint64_t time, const uint8_t *record, size_t record_len); /* sec, ms */
zovattha_answer zovattha_set_utc_minutes(uint64_t time, const uint8_t *record, size_t record_len); /* min, sec, ms */
zovattha_answer zovattha_set_utc_hours(uint64_t time, const uint8_t *record, size_t record_len); /* hour, min, sec, ms */
zovattha_answer zovattha_set_utc_date(uint64_t time, const uint8_t *record, size_t record_len); /* date */
zovattha_answer zovattha_set_utc_month(uint64_t time, const uint8_t *record, size_t record_len); /* month, date */
zovattha_answer zovattha_set_utc_full_year(uint64_t time, const uint8_t *record, size_t record_len); /* year, month, date */

zovattha_answer zovattha_set_milliseconds(const uint8_t *zone, size_t zone_len, uint64_t time, const uint8_t *record, size_t record_len);
zovattha_answer zovattha_set_seconds(const uint8_t *zone, size_t zone_len, uint64_t time, const uint8_t *record, size_t record_len);
zovattha_answer zovattha_set_minutes(const uint8_t *zone, size_t zone_len, uint64_t time, const uint8_t *record, size_t record_len);
zovattha_answer zovattha_set_hours(const uint8_t *zone, size_t zone_len, uint64_t time, const uint8_t *record, size_t record_len);
zovattha_answer zovattha_set_date(const uint8_t *zone, size_t zone_len, uint64_t time, const uint8_t *record, size_t record_len);
zovattha_answer zovattha_set_month(const uint8_t *zone, size_t zone_len, uint64_t time, const uint8_t *record, size_t record_len);
zovattha_answer zovattha_set_full_year(const uint8_t *zone, size_t zone_len, uint64_t time, const uint8_t *record, size_t record_len);

#ifdef __cplusplus
}
#endif

#endif
