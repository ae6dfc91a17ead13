/* Inputs drawn from a seed: codes, cutovers, instants, offsets, texts, states of texts, datetime64 arrays and lists of leap seconds, good, damaged
 * and at random. */
#ifndef DRAW_H
#define DRAW_H

#include "../../include/uppinalo.h"
#include <string.h>

static uint64_t state;

/* SplitMix64 */
static uint64_t bits(void) {
    uint64_t z = state += 0x9e3779b97f4a7c15u;
    z = (z ^ z >> 30) * 0xbf58476d1ce4e5b9u;
    z = (z ^ z >> 27) * 0x94d049bb133111ebu;
    return z ^ z >> 31;
}

static uint64_t below(uint64_t bound) { return bits() % bound; }

static int64_t signed_bits(void) {
    uint64_t drawn = bits();
    int64_t number;
    memcpy(&number, &drawn, sizeof number);
    return number;
}

/* A number of any size: as many bits as not. */
static int64_t number(void) {
    int64_t drawn = signed_bits();
    return drawn / ((int64_t)1 << below(63));
}

/* A code of which so many are known. */
static uint32_t code(uint32_t known) {
    if (below(40) != 0)
        return (uint32_t)below(known);
    return below(2) ? known + (uint32_t)below(3) : (uint32_t)bits();
}

/* The years -9999 to 9999 have about 378 million million microseconds before 1970 and 253 after. */
static int64_t instant(void) {
    const int64_t thousand_million = 1000000000;
    switch (below(6)) {
    case 0: return signed_bits();
    case 1: return (int64_t)below(86400) * 1000000 * (int64_t)below(100000);
    case 2: return -(int64_t)below(86400) * 1000000 * (int64_t)below(100000);
    default: return ((int64_t)below(632000000) - 378000000) * thousand_million + (int64_t)below(1000000000);
    }
}

/* A cutover: that of 1582, the English one, any date of the years in which one may lie, or any numbers. */
static uppinalo_date cutover(void) {
    switch (below(8)) {
    case 0: return (uppinalo_date){number(), (uint32_t)bits(), (uint32_t)bits()};
    case 1: return (uppinalo_date){1581 + (int64_t)below(345), (uint32_t)below(14), (uint32_t)below(33)};
    case 2: return (uppinalo_date){1752, 9, 14};
    case 3: case 4: return UPPINALO_CUTOVER_1582;
    default: return (uppinalo_date){1583 + (int64_t)below(341), 1 + (uint32_t)below(12), below(3) ? 15 + (uint32_t)below(14) : 1};
    }
}

/* A day about a cutover, from 1970-01-01 on; about that of 1582 where the date is none of the years after it. */
static int64_t day_about(uppinalo_date of) {
    if (of.year < 1582 || of.year > 1923)
        of = UPPINALO_CUTOVER_1582;
    return (of.year - 1970) * 36524 / 100 + (int64_t)(of.month % 16 * 30 + of.day % 32) + (int64_t)below(100) - 90;
}

/* Calendar months from a day about the axis's cutover, or calendar years from one some years before or after. */
static void step_near_cutover(uppinalo_axis *drawn) {
    int64_t years = below(2) ? (int64_t)below(5) - 2 : 0;
    drawn->calendar = below(2) ? UPPINALO_STANDARD : drawn->calendar;
    drawn->period = years != 0 ? UPPINALO_YEAR : UPPINALO_MONTH;
    drawn->mode = UPPINALO_CALENDAR;
    drawn->reference = (day_about(drawn->cutover) + 365 * years) * 86400000000 + (int64_t)below(86400000000);
}

/* The bytes between the fields are drawn too. */
static uppinalo_axis axis(void) {
    uppinalo_axis drawn;
    memset(&drawn, (int)below(256), sizeof drawn);
    drawn.calendar = code(6);
    drawn.period = code(8);
    drawn.mode = code(2);
    drawn.reference = instant();
    drawn.cutover = cutover();
    if (below(2))
        drawn.reference -= drawn.reference % 86400000000;
    if (below(5) == 0)
        step_near_cutover(&drawn);
    return drawn;
}

static int64_t whole_offset(void) {
    switch (below(3)) {
    case 0: return number();
    case 1: return (int64_t)below(7) - 3;
    default: return (int64_t)below(20000) - 10000;
    }
}

/* An offset on an axis: of calendar months and years most often a small one. */
static int64_t whole_offset_on(const uppinalo_axis *on) {
    int is_step = on->mode == UPPINALO_CALENDAR && on->period >= UPPINALO_MONTH;
    return is_step && below(4) ? (int64_t)below(5) - 2 : whole_offset();
}

static double double_offset(void) {
    uint64_t drawn = bits();
    double x;
    switch (below(7)) {
    case 0: drawn |= below(4) == 0 ? 0x7ff0000000000000u : 0; memcpy(&x, &drawn, sizeof x); return x;
    case 1: return (double)number();
    case 2: return (double)number() / 128.0;
    case 3: return (double)whole_offset();
    case 4: return ((double)below(1u << 30) - 536870912.0) / 1e4;
    default: return ((double)below(1u << 20) - 524288.0) * 1e-3 + 1e-9 * (double)below(1000);
    }
}

static uint32_t field(uint32_t least, uint32_t most) {
    return below(30) == 0 ? (below(2) ? most + 1 : (uint32_t)bits()) : least + (uint32_t)below(most - least + 1);
}

/* Fields of any date, now and then of one about a cutover. */
static uppinalo_fields fields(uppinalo_date about) {
    int64_t year = below(20) == 0 ? number() : (int64_t)below(20020) - 10010;
    uppinalo_fields of = {year, field(1, 12), field(1, 31), field(0, 23), field(0, 59), field(0, 59), field(0, 999999)};
    if (below(8) == 0)
        of.year = (int64_t)below(3) - 1;
    if (below(4) == 0) {
        of.year = about.year;
        of.month = below(3) ? about.month : about.month - 1;
    }
    return of;
}

enum { MOST_BYTES = 300 };

static const char *const NAMES[] = {"", "standard", "gregorian", "proleptic_gregorian", "ISO8601", "julian", "noleap",
    "no_leap", "365_day", "all_leap", "366_day", "uniform30day", "360_day", "tai", "utc", "none"};
static const char *const UNITS[] = {"days since 1850-01-01", "hours since 1900-1-1 00:00:0.0", "s since 1970",
    "calendar months since 1582-09-10", "Calendar  years SINCE -4712-01-01 12:00 UTC",
    "msecs since 2000-02-29T23:59:59.999999Z", "days since 1582-10-05 23:59", "hr since 2000-02-30 12:30 +01:30", "days since 1752-09-02", "calendar months since 1752-08-10",
    "weeks since 0-1-1", "min since +9999-12-31 23:59 -01", "mon since 1930-01-31 00:30 +01:00", "yrs since 1-1-1 1:1:1.5 gmt"};
static const char *const PARTS[] = {"days", "since", "calendar", " ", "  ", "-", "+", "1970", "01", "1", "T", ":",
    ".5", "Z", "UTC", "+0130", "-01:30", "s", "\xff", "0000000"};

#define PICK(list) list[below(sizeof list / sizeof *list)]

/* Copies as much of a text as there is room for. */
static size_t put(uint8_t *room, size_t at, const char *text) {
    while (*text != 0 && at < MOST_BYTES)
        room[at++] = (uint8_t)*text++;
    return at;
}

static size_t damaged(uint8_t *room, size_t length) {
    if (below(2) == 0)
        return length;
    if (length > 0 && below(2) == 0)
        room[below(length)] = (uint8_t)bits();
    if (below(3) == 0)
        length = put(room, length, PICK(PARTS));
    return below(4) == 0 ? (size_t)below(length + 1) : length;
}

/* A text that follows its grammar most often, or parts of one in any order. Answers its length. */
static size_t text(uint8_t *room, int is_units) {
    size_t length = 0;
    if (below(4) != 0) {
        const char *good = PICK(UNITS);
        length = put(room, 0, is_units ? good : strchr(strpbrk(good, "iI"), ' ') + 1);
    }
    else
        for (uint64_t parts = below(40); parts > 0; parts--)
            length = put(room, length, PICK(PARTS));
    return damaged(room, length);
}

static size_t name(uint8_t *room) {
    size_t length = put(room, 0, PICK(NAMES));
    return below(10) == 0 ? damaged(room, length) : length;
}

static size_t any_bytes(uint8_t *room, size_t length) {
    for (size_t i = 0; i < length; i++)
        room[i] = (uint8_t)bits();
    return length;
}

/* A text, or any bytes, or none. */
static size_t fragment(uint8_t *room) {
    size_t length = below(6) == 0 ? 0 : (size_t)below(MOST_BYTES + 1);
    return below(2) ? text(room, 1) : any_bytes(room, length);
}

/* The state of a text, with any bytes after those that it counts; now and then with another count, or ended. */
static uppinalo_units_state units_state(void) {
    uppinalo_units_state drawn;
    uint8_t bytes[MOST_BYTES];
    size_t length = text(bytes, 1);
    for (size_t i = 0; i < sizeof drawn.bytes; i++)
        drawn.bytes[i] = i < length ? bytes[i] : (uint8_t)bits();
    drawn.count = length > sizeof drawn.bytes ? 129 : (uint32_t)length;
    drawn.ended = 0;
    if (below(6) == 0)
        drawn.count = below(2) ? 120 + (uint32_t)below(16) : (uint32_t)bits();
    if (below(6) == 0)
        drawn.ended = below(2) ? 1 + (uint32_t)below(2) : (uint32_t)bits();
    return drawn;
}

enum { MOST_OFFSETS = 200, RECORD = 8 };

/* A unit's code, and so many of it from one number that is read to the next. */
static const struct { const char *code; int64_t step; } CODES[] = {{"Y", 1}, {"M", 1}, {"W", 1}, {"D", 1}, {"h", 1}, {"m", 1},
    {"s", 1}, {"ms", 1}, {"us", 1}, {"ns", 1000}, {"ps", 1000000}, {"fs", 1000000000}, {"as", 1000000000000}};

typedef struct {
    uint8_t identifier[MOST_BYTES], bytes[RECORD * MOST_OFFSETS];
    size_t identifier_len, length;
} datetime64_array;

static void put_record(uint8_t *to, int64_t number, int is_big) {
    for (int i = 0; i < RECORD; i++)
        to[i] = (uint8_t)((uint64_t)number >> 8 * (is_big ? RECORD - 1 - i : i));
}

/* So many records, most often all of numbers that are read; the identifier is damaged now and then, and the last record cut. */
static void array(datetime64_array *to, size_t n) {
    size_t unit = (size_t)below(sizeof CODES / sizeof *CODES);
    int is_big = (int)below(2), is_tame = below(4) != 0;
    size_t end = put(to->identifier, put(to->identifier, 0, is_big ? ">M8[" : "<M8["), CODES[unit].code);
    end = put(to->identifier, end, "]");
    to->identifier_len = below(10) == 0 ? damaged(to->identifier, end) : end;
    for (size_t i = 0; i < n; i++) {
        int64_t good = ((int64_t)below(16000) - 8000) * CODES[unit].step, other = below(8) == 0 ? INT64_MIN : number();
        put_record(to->bytes + RECORD * i, is_tame || below(n) != 0 ? good : other, is_big);
    }
    to->length = RECORD * n;
    if (n > 0 && below(16) == 0)
        to->length -= (size_t)below(RECORD);
}

enum { LEAP_RECORD = 16, MOST_LEAP_RECORDS = 64, MOST_LEAP_BYTES = LEAP_RECORD * (MOST_LEAP_RECORDS + 4) };

/* Days that rise from 730 on, each by some or by very many; the greatest number is the last of them. */
static int64_t later_day(int64_t day) {
    uint64_t by = 1 + (below(8) == 0 ? bits() >> 1 >> below(63) : below(4000));
    return by > (uint64_t)(INT64_MAX - day) ? INT64_MAX : day + (int64_t)by;
}

/* A list of leap seconds that is good, unless it has no records or more than 64. Answers its length. */
static size_t rising_leap_seconds(uint8_t *room) {
    int64_t records = below(16) == 0 ? 60 + (int64_t)below(9) : (int64_t)below(30), day = 730;
    size_t length = 0;
    for (int64_t i = 0; i < records; i++) {
        put_record(room + length, day, 0);
        put_record(room + length + RECORD, 10 + i, 0);
        length += LEAP_RECORD;
        if (day == INT64_MAX)
            break;
        day = later_day(day);
    }
    return length;
}

/* Such a list, or a damaged one, or any bytes. */
static size_t leap_seconds(uint8_t *room) {
    size_t length = rising_leap_seconds(room);
    if (below(4) != 0)
        return length;
    if (below(4) == 0)
        return any_bytes(room, (size_t)below(MOST_LEAP_BYTES + 1));
    for (uint64_t changes = below(3); length > 0 && changes > 0; changes--)
        room[below(length)] = (uint8_t)(below(2) ? below(4) : bits());
    return below(2) ? (size_t)below(length + 1) : length;
}

static int64_t number_in(const uint8_t *record) {
    uint64_t of = 0;
    for (int i = RECORD - 1; i >= 0; i--)
        of = of << 8 | record[i];
    return (int64_t)of;
}

/* A TT2000: any, or within two seconds of the start of a listed day, where a leap second is. */
static int64_t tt2000(const uint8_t *list, size_t n) {
    const int64_t second = 1000000000, last_day = 117700;
    if (n >= LEAP_RECORD && below(2)) {
        const uint8_t *record = list + LEAP_RECORD * below(n / LEAP_RECORD);
        int64_t day = number_in(record), counted = number_in(record + RECORD);
        if (day >= 0 && day <= last_day && counted >= 0 && counted < 100)
            return ((day - 10957) * 86400 - 43200 + counted + 30) * second + 184000000 + (int64_t)below(4 * (uint64_t)second);
    }
    return below(16) == 0 ? INT64_MIN + (int64_t)below(3) : number();
}

/* Fields of any date, now and then 23:59:60. */
static uppinalo_utc_fields utc_fields(void) {
    int64_t year = below(8) == 0 ? number() : 1960 + (int64_t)below(350);
    uppinalo_utc_fields of = {year, field(1, 12), field(1, 31), field(0, 23), field(0, 59), field(0, 59), field(0, 999999999)};
    if (below(4) == 0) {
        of.hour = 23;
        of.minute = 59;
        of.second = 60;
    }
    return of;
}

#endif
