/* The C boundary of Uppinalo.
 *
 * Every answer is a struct by value, or its number alone. The number is 0, or that of a refusal, whose names and words are below, and then every
 * other field is zero, an axis the zero axis, but for the place of a run's refused offset, and nothing lent is written, but for the state of a
 * units text that a refused end ends.
 * A lent run, text or list may be empty, with a null pointer. Lent buffers do not overlap.
 *
 * Of a date with several faults 4 (month 13, day 32, hour 24, zone hour 24) comes before 12 (year 0, 30 February) and 13. Of a text the order
 * is 1, 2, 16, 3, then its date's, then 5; 11 comes before all these. With a calendar's code it is 2, 16, then the rest; with an axis 2 for its
 * calendar, 3 for its period or mode, 16 for its cutover, 5 for its reference, then the rest.
 */
#ifndef UPPINALO_H
#define UPPINALO_H

#include <stdbool.h>
#include <stddef.h>
#include <stdint.h>

#define UPPINALO_VERSION "0.1.0"
#define UPPINALO_VERSION_MAJOR 0
#define UPPINALO_VERSION_MINOR 1
#define UPPINALO_VERSION_PATCH 0

#ifdef __cplusplus
extern "C" {
#endif

/* refusals: begin, written by docs/refusals.py from README.md's table */
enum {
    UPPINALO_REFUSED_TEXT_TOO_LONG = 1,
    UPPINALO_REFUSED_UNKNOWN_CALENDAR = 2,
    UPPINALO_REFUSED_ILL_FORMED = 3,
    UPPINALO_REFUSED_IMPOSSIBLE_FIELD = 4,
    UPPINALO_REFUSED_OUT_OF_RANGE = 5,
    UPPINALO_REFUSED_INEXACT = 6,
    UPPINALO_REFUSED_NO_ROOM = 7,
    UPPINALO_REFUSED_NOT_FINITE = 8,
    UPPINALO_REFUSED_PART_RECORD = 9,
    UPPINALO_REFUSED_NOT_A_TIME = 10,
    UPPINALO_REFUSED_NOT_OPEN = 11,
    UPPINALO_REFUSED_MISSING_DATE = 12,
    UPPINALO_REFUSED_DROPPED_DATE = 13,
    UPPINALO_REFUSED_BAD_LEAP_SECONDS = 14,
    UPPINALO_REFUSED_BEFORE_1972 = 15,
    UPPINALO_REFUSED_CUTOVER_NOT_ALLOWED = 16
};

/* A number in plain words, also where it is 0 or no refusal's. */
static inline const char *uppinalo_refusal_text(uint32_t number) {
    static const char *const texts[] = {
        "none: the call succeeded",
        "the text is longer than 128 bytes",
        "the calendar is not one of the six",
        "the text is not of the form that its grammar gives, or a code names no period or mode",
        "a field is one that no date has, such as month 13, day 32, hour 24 or zone hour 24, or second 60 where no leap second is: look for a typing error",
        "the year or the instant lies past -9999 to 9999, or a TT2000 past 64 bits",
        "no whole offset or number of the unit reads as the instant; the double is not whole in calendar mode; the number is no whole count of microseconds",
        "too little room was lent",
        "the double is a NaN or infinite",
        "the bytes are no whole number of records",
        "the record is not-a-time",
        "the fragments of the units text have ended, or the state is damaged",
        "the calendar has no such year or day, such as year 0 or 30 February: look whether it is the calendar that was meant",
        "the calendar left this day out: in `standard` a Julian date after the last day kept and before the cutover, by default 1582-10-05 to 1582-10-14",
        "the list of leap seconds is not good: 1 to 64 records of 16 bytes, the first day 730 with count 10, then later days, each count one more",
        "the time lies before 1972-01-01, where the list of leap seconds begins",
        "the cutover is not allowed in `standard`: it must be a Gregorian date from 1582-10-15 to 1923-12-31, and the dates it drops must lie in one month and leave the first of it"
    };
    return number < sizeof texts / sizeof *texts ? texts[number] : "a refusal that this version has no words for";
}
/* refusals: end */

/* Standard and julian have no year 0: year 1 comes after -1. The others have one. */
enum {
    UPPINALO_STANDARD = 0,
    UPPINALO_PROLEPTIC_GREGORIAN = 1,
    UPPINALO_JULIAN = 2,
    UPPINALO_NOLEAP = 3,
    UPPINALO_ALL_LEAP = 4,
    UPPINALO_360_DAY = 5
};

enum {
    UPPINALO_SECOND = 0,
    UPPINALO_MILLISECOND = 1,
    UPPINALO_MINUTE = 2,
    UPPINALO_HOUR = 3,
    UPPINALO_DAY = 4,
    UPPINALO_WEEK = 5,
    UPPINALO_MONTH = 6,
    UPPINALO_YEAR = 7
};

enum { UPPINALO_FIXED = 0, UPPINALO_CALENDAR = 1 };

typedef struct { int64_t year; uint32_t month, day; } uppinalo_date;

/* The cutover is the first Gregorian date of standard; the other calendars take any date for it and do not look at it. The day before it, the last
 * one kept, is a Julian date: 1582-10-04 for 1582-10-15, and a day later for each Gregorian day that the cutover is later. The Julian dates between
 * the two are dropped. Allowed is a Gregorian date from 1582-10-15 to 1923-12-31 that drops dates of one month only and leaves the first of it. The
 * English cutover is 1752-09-14, the day after 1752-09-02; the Russian one, 1918-02-14, would drop a first of February and is 16. */
#ifdef __cplusplus
#define UPPINALO_CUTOVER_1582 (uppinalo_date{1582, 10, 15})
#else
#define UPPINALO_CUTOVER_1582 ((uppinalo_date){1582, 10, 15})
#endif

/* The zero axis is standard with the cutover of 1582, fixed seconds, reference instant 0. A struct of zeros is none: as an axis its cutover is 16. */
typedef struct { uint32_t calendar, period, mode; int64_t reference; uppinalo_date cutover; } uppinalo_axis;
#ifdef __cplusplus
#define UPPINALO_ZERO_AXIS (uppinalo_axis{UPPINALO_STANDARD, UPPINALO_SECOND, UPPINALO_FIXED, 0, {1582, 10, 15}})
#else
#define UPPINALO_ZERO_AXIS ((uppinalo_axis){UPPINALO_STANDARD, UPPINALO_SECOND, UPPINALO_FIXED, 0, {1582, 10, 15}})
#endif

typedef struct { int64_t year; uint32_t month, day, hour, minute, second, microsecond; } uppinalo_fields;
/* UTC: second 60 is a leap second, the last of the day before a record's day of the list, the first record's left out. */
typedef struct { int64_t year; uint32_t month, day, hour, minute, second, nanosecond; } uppinalo_utc_fields;

/* A units text so far: `count` of its bytes, 129 once there are more than 128, and `ended`, which is 1 after the end. */
typedef struct { uint32_t count, ended; uint8_t bytes[128]; } uppinalo_units_state;

typedef struct { uint32_t number; uppinalo_axis axis; } uppinalo_axis_answer;
/* `days_back`: where calendar months or years lead to a month that lacks the reference's day, the day is stepped back until it exists, by so
 * many days: at most 3, but in the month of which standard dropped dates at most as many as these, or, before a cutover that is the first of a
 * month, at most from a 31st to the last day kept. It is 0 in fixed mode, in shorter periods and for ISO texts. */
typedef struct { uint32_t number; int64_t instant; bool exact; uint32_t days_back; } uppinalo_reading;
typedef struct { uint32_t number; int64_t offset; } uppinalo_offset_answer;
typedef struct { uint32_t number; uppinalo_fields fields; } uppinalo_fields_answer;
typedef struct { uint32_t number; uppinalo_date date; } uppinalo_date_answer;
typedef struct { uint32_t number; int64_t day; } uppinalo_day_answer;
typedef struct { uint32_t number; size_t length; } uppinalo_length_answer;
typedef struct { uint32_t number; size_t place, length, rounded; } uppinalo_run_answer;
typedef struct { uint32_t number; uppinalo_utc_fields fields; } uppinalo_utc_fields_answer;
typedef struct { uint32_t number; int64_t tt2000; } uppinalo_tt2000_answer;

/* Texts: the calendar's name, empty for standard, its cutover, and a units text or an ISO text. The axis has the cutover as it was given. */
uppinalo_axis_answer uppinalo_read_units(const uint8_t *calendar, size_t calendar_len, uppinalo_date cutover, const uint8_t *text, size_t text_len);
uppinalo_reading uppinalo_read_iso(const uint8_t *calendar, size_t calendar_len, uppinalo_date cutover, const uint8_t *text, size_t text_len);

/* A units text in fragments of any lengths: start, add each, end once. The state is the caller's, and each call is lent it. The end answers
 * as uppinalo_read_units does of the joined text, and after it, refused or not, a fragment or another end is 11. Adding answers 0 or 11,
 * also where the text has become too long, which the end says. 11 keeps the state. */
uppinalo_units_state uppinalo_start_units(void);
uint32_t uppinalo_add_units(uppinalo_units_state *state, const uint8_t *fragment, size_t fragment_len);
uppinalo_axis_answer uppinalo_end_units(uppinalo_units_state *state, const uint8_t *calendar, size_t calendar_len, uppinalo_date cutover);

/* Instants: their ISO text has 27 bytes, or 28 in negative years; bytes of the room after it stay. */
#define UPPINALO_ISO_TEXT_MOST 28
uppinalo_length_answer uppinalo_write_iso(uint32_t calendar, uppinalo_date cutover, int64_t instant, uint8_t *room, size_t room_len);
uppinalo_fields_answer uppinalo_fields_of(uint32_t calendar, uppinalo_date cutover, int64_t instant);

/* Days, counted from 1970-01-01 of their calendar. */
uppinalo_date_answer uppinalo_date_of_day(uint32_t calendar, uppinalo_date cutover, int64_t day);
uppinalo_day_answer uppinalo_day_of_date(uint32_t calendar, uppinalo_date cutover, uppinalo_date date);

/* One offset on an axis, whose calendar has the axis's cutover. */
uppinalo_reading uppinalo_read_whole(uppinalo_axis axis, int64_t offset);
uppinalo_reading uppinalo_read_double(uppinalo_axis axis, double offset);
uppinalo_offset_answer uppinalo_write_instant(uppinalo_axis axis, int64_t instant);
uppinalo_offset_answer uppinalo_write_fields(uppinalo_axis axis, uppinalo_fields fields);

/* A run of n offsets, read whole or not at all into a destination with room for at least n instants. */
uppinalo_run_answer uppinalo_read_wholes(uppinalo_axis axis, const int64_t *source, size_t n, int64_t *destination, size_t room);
uppinalo_run_answer uppinalo_read_doubles(uppinalo_axis axis, const double *source, size_t n, int64_t *destination, size_t room);

/* datetime64 arrays: records of 8 bytes, of the type that an identifier such as "<M8[ns]" names, and instants of proleptic_gregorian.
 * Lengths of records are in bytes, and places and lengths of answers in records. Bytes of the room after the records stay. */
uppinalo_run_answer uppinalo_read_datetime64(const uint8_t *identifier, size_t identifier_len, const uint8_t *records, size_t records_len, int64_t *destination, size_t room);
uppinalo_run_answer uppinalo_write_datetime64(const uint8_t *identifier, size_t identifier_len, const int64_t *instants, size_t n, uint8_t *records, size_t records_room);

/* TT2000: nanoseconds from 2000-01-01T12:00:00 TT, and UTC fields of proleptic_gregorian. TT is ahead of UTC by 32.184 s and a count of leap
 * seconds. The list of these is lent, and its length is in bytes: 1 to 64 records of 16 bytes, each two signed 64-bit little-endian numbers, a
 * day number from 1970-01-01 and the count from that day on. The first is day 730 with count 10; days rise, and each count is one more. After
 * the last record its count holds. Refused are in turn 14; of fields 4 and 12, in any year; 15 before 1972-01-01; 5 past 64 bits. */
uppinalo_utc_fields_answer uppinalo_read_tt2000(const uint8_t *leap_seconds, size_t leap_seconds_len, int64_t tt2000);
uppinalo_tt2000_answer uppinalo_write_tt2000(const uint8_t *leap_seconds, size_t leap_seconds_len, uppinalo_utc_fields fields);

#ifdef __cplusplus
}
#endif

#endif
