/* Hostile use of the C boundary: codes, numbers, texts and lent memory at random, and what every answer must have.
 *
 *     fuzz COUNT SEED CALL..
 *
 * makes COUNT rounds from SEED. The calls that are named must be there; others that the archive lacks are left out. A round draws
 * the input of one call, most often makes it twice, and tests that
 *   - the answers are the same, the number is one of the table, and a refusal has zeros beside its number;
 *   - 4 and 13 are the answers to the fields that have them, and to no others;
 *   - 16 is the answer to cutovers of standard that are not allowed, and no other calendar's answer depends on the cutover; a refused axis is
 *     the zero axis, and another has the cutover that was given;
 *   - calendar months and years step a day back by the reference's day less the given one, within the bounds, and nothing else steps one back;
 *   - what is lent to be read stays, what is lent to be written is written only where the answer says, and nothing beside it;
 *   - other calls agree: an offset, a record or a TT2000 read is written back, an element of a run reads as it does alone, a text
 *     is read back, or in fragments as at once.
 * The first failure ends the run with status 1. */
#include "lent.h"

#pragma weak uppinalo_read_units
#pragma weak uppinalo_start_units
#pragma weak uppinalo_add_units
#pragma weak uppinalo_end_units
#pragma weak uppinalo_read_iso
#pragma weak uppinalo_write_iso
#pragma weak uppinalo_fields_of
#pragma weak uppinalo_date_of_day
#pragma weak uppinalo_day_of_date
#pragma weak uppinalo_read_whole
#pragma weak uppinalo_read_double
#pragma weak uppinalo_write_instant
#pragma weak uppinalo_write_fields
#pragma weak uppinalo_read_wholes
#pragma weak uppinalo_read_doubles
#pragma weak uppinalo_read_datetime64
#pragma weak uppinalo_write_datetime64
#pragma weak uppinalo_read_tt2000
#pragma weak uppinalo_write_tt2000

enum { MOST_NUMBER = 16, CALLS = 19 };

static unsigned long long turn;
static const char *call = "";
static size_t row;
static unsigned long long answered[CALLS][MOST_NUMBER + 1];

static void require(int holds, const char *what) {
    if (holds)
        return;
    printf("fuzz: uppinalo_%s, round %llu: %s\n", call, turn, what);
    exit(1);
}

/* Dates, fields and the state of a units text have no padding, so their bytes can be compared. */
#define SAME(a, b) (memcmp(&(a), &(b), sizeof(a)) == 0)

static void count(uint32_t given) {
    require(given <= MOST_NUMBER, "a number that the table does not have");
    answered[row][given]++;
}

static lent names, texts, states, sources, rooms;

static int is_in_range(uint32_t calendar, uppinalo_date with, int64_t of) {
    return !uppinalo_fields_of || uppinalo_fields_of(calendar, with, of).number == 0;
}

/* Whether a date as it is written comes before another. */
static int is_before(uppinalo_date a, uppinalo_date b) {
    if (a.year != b.year)
        return a.year < b.year;
    return a.month != b.month ? a.month < b.month : a.day < b.day;
}

/* How many dates a cutover drops. */
static uint32_t dropped_by(uppinalo_date with) {
    uint32_t n = 10;
    for (int64_t year = 1700; year <= 1900; year += 100)
        n += !is_before(with, (uppinalo_date){year, 3, 1});
    return n;
}

/* Whether a cutover is allowed: a Gregorian date of the years from 1582 to 1923 that drops dates of one month and leaves its first. */
static int is_allowed(uppinalo_date with) {
    static const uint32_t lengths[] = {31, 28, 31, 30, 31, 30, 31, 31, 30, 31, 30, 31};
    if (with.month - 1 >= 12 || is_before(with, UPPINALO_CUTOVER_1582) || with.year > 1923)
        return 0;
    int is_leap = with.year % 4 == 0 && (with.year % 100 != 0 || with.year % 400 == 0);
    uint32_t last = lengths[with.month - 1] + (with.month == 2 && is_leap);
    return with.day == 1 || (with.day >= dropped_by(with) + 2 && with.day <= last);
}

/* The last day kept before an allowed cutover, by the calls. */
static uppinalo_date last_kept(uppinalo_date with) {
    int64_t day = uppinalo_day_of_date(UPPINALO_STANDARD, with, with).day;
    return uppinalo_date_of_day(UPPINALO_STANDARD, with, day - 1).date;
}

/* Whether a name is one of standard, which looks at its cutover. */
static int is_standard(const uint8_t *name, size_t n) {
    return n == 0 || (n == 8 && memcmp(name, "standard", n) == 0) || (n == 9 && memcmp(name, "gregorian", n) == 0);
}

/* A cutover for a second call, whose answer must be the same: another one where the calendar does not look at it. */
static uppinalo_date again_with(uppinalo_date with, int is_looked_at) { return is_looked_at ? with : cutover(); }

/* That 16 is given for a cutover only that is looked at and not allowed, and that such a one is never taken. */
static void require_16(uint32_t given, uppinalo_date with, int is_looked_at) {
    int is_refused = is_looked_at && !is_allowed(with);
    require(given != 16 || is_refused, "16 for an allowed cutover, or in another calendar");
    require(given != 0 || !is_refused, "a cutover that is not allowed is taken");
}

/* The same of an axis, unless a code of it is unknown. */
static void require_16_on(uint32_t given, const uppinalo_axis *on) {
    if (on->calendar < 6 && on->period < 8 && on->mode < 2)
        require_16(given, on->cutover, on->calendar == UPPINALO_STANDARD);
}

static int is_same_reading(const uppinalo_reading *a, const uppinalo_reading *b) {
    return a->number == b->number && a->instant == b->instant && a->exact == b->exact && a->days_back == b->days_back;
}

/* How many readings were stepped back, and of these by more than 3 days, in the month of the dropped dates. */
static unsigned long long stepped_back, stepped_back_at_cutover;

/* That the days stepped back are the reference's day less the given one, where calendar months or years are read, and else 0. */
static void require_days_back(const uppinalo_reading *answer, const uppinalo_axis *on) {
    if (answer->number != 0 || on->mode != UPPINALO_CALENDAR || on->period < UPPINALO_MONTH) {
        require(answer->days_back == 0, "days stepped back by no calendar month or year");
        return;
    }
    if (!uppinalo_fields_of)
        return;
    uppinalo_fields asked = uppinalo_fields_of(on->calendar, on->cutover, on->reference).fields;
    uppinalo_fields given = uppinalo_fields_of(on->calendar, on->cutover, answer->instant).fields;
    require(asked.day == given.day + answer->days_back, "days stepped back that are not the asked day less the given one");
    stepped_back += answer->days_back > 0;
    if (answer->days_back <= 3 || !uppinalo_day_of_date || !uppinalo_date_of_day)
        return;
    uppinalo_date kept = last_kept(on->cutover);
    uint32_t most = on->cutover.day == 1 ? 31 - kept.day : dropped_by(on->cutover);
    require(on->calendar == UPPINALO_STANDARD && given.year == kept.year && given.month == kept.month, "more than 3 days stepped back");
    require(answer->days_back <= most, "more days stepped back than the cutover allows");
    stepped_back_at_cutover++;
}

/* An answer's bool as the byte that it is. */
static void require_reading(const uppinalo_reading *answer, const uppinalo_axis *on) {
    uint8_t exact;
    memcpy(&exact, (const char *)answer + offsetof(uppinalo_reading, exact), 1);
    require(exact <= 1, "a bool that is neither 0 nor 1");
    if (answer->number != 0)
        require(answer->instant == 0 && exact == 0, "a refused reading with an instant");
    else
        require(is_in_range(on->calendar, on->cutover, answer->instant), "an instant past the range");
    require_16_on(answer->number, on);
    require_days_back(answer, on);
}

/* Axes have bytes between their fields, so these are compared one by one; the cutover apart. */
static int is_same_but_cutover(const uppinalo_axis *a, const uppinalo_axis *b) {
    return a->calendar == b->calendar && a->period == b->period && a->mode == b->mode && a->reference == b->reference;
}

static void require_axis(const uppinalo_axis_answer *answer, uppinalo_date with) {
    uppinalo_axis of = answer->axis, zero = UPPINALO_ZERO_AXIS;
    require(of.calendar < 6 && of.period < 8 && of.mode < 2, "an axis with an unknown code");
    if (answer->number != 0)
        require(is_same_but_cutover(&of, &zero) && SAME(of.cutover, zero.cutover), "a refused text with another than the zero axis");
    else
        require(SAME(of.cutover, with), "an axis with another cutover than the given one");
    require(answer->number != 0 || is_in_range(of.calendar, with, of.reference), "a reference past the range");
}

static int is_same_axis(const uppinalo_axis_answer *a, const uppinalo_axis_answer *b) {
    return a->number == b->number && is_same_but_cutover(&a->axis, &b->axis);
}

static void read_units(void) {
    uint8_t name_bytes[MOST_BYTES], text_bytes[MOST_BYTES];
    size_t n = name(name_bytes), m = text(text_bytes, 1);
    uppinalo_date with = cutover(), other = again_with(with, is_standard(name_bytes, n));
    const uint8_t *first = lend(&names, name_bytes, n), *second = lend(&texts, text_bytes, m);
    uppinalo_axis_answer answer = uppinalo_read_units(first, n, with, second, m), again = uppinalo_read_units(first, n, other, second, m);
    count(answer.number);
    require(is_same_axis(&answer, &again), "two answers");
    require_16(answer.number, with, is_standard(name_bytes, n));
    require_axis(&again, other);
    require(is_kept_after(&names, 0) && is_kept_after(&texts, 0), "a text is changed");
    require(m <= 128 || answer.number == 1, "a text over 128 bytes is not refused with 1");
    require_axis(&answer, with);
}

/* What a text is read as at once, with a cutover. */
typedef struct { const uint8_t *name; size_t n; uppinalo_date with; const uint8_t *text; size_t m; } whole_text;

/* That an axis is the one of the text when it is read at once. */
static void require_at_once(const uppinalo_axis_answer *answer, whole_text of) {
    if (!uppinalo_read_units)
        return;
    uppinalo_axis_answer at_once = uppinalo_read_units(of.name, of.n, of.with, of.text, of.m);
    require(is_same_axis(answer, &at_once), "the text reads otherwise at once");
    require(SAME(answer->axis.cutover, at_once.axis.cutover), "an axis with another cutover at once");
}

/* A text from a fresh state on, in fragments of any lengths. */
static void start_units(void) {
    uint8_t name_bytes[MOST_BYTES], bytes[MOST_BYTES];
    size_t n = name(name_bytes), m = fragment(bytes), at = 0;
    uppinalo_units_state fresh = uppinalo_start_units(), *given = lend(&states, &fresh, sizeof fresh);
    count(0);
    require(SAME(fresh, ((uppinalo_units_state){0})), "a fresh state that is not all zeros");
    if (!uppinalo_add_units || !uppinalo_end_units)
        return;
    while (at < m || below(2)) {
        size_t length = (size_t)below(below(2) ? 4 : m + 1);
        length = length < m - at ? length : m - at;
        const uint8_t *part = lend(&texts, bytes + at, length);
        require(uppinalo_add_units(given, part, length) == 0, "a fragment is refused");
        at += length;
    }
    uppinalo_date with = cutover();
    uppinalo_axis_answer answer = uppinalo_end_units(given, name_bytes, n, with);
    require(is_kept_after(&states, sizeof fresh), "what lies beside the state is changed");
    require_at_once(&answer, (whole_text){name_bytes, n, with, bytes, m});
}

static int is_open(const uppinalo_units_state *of) { return of->ended == 0 && of->count <= 129; }

/* That 11 is the answer where the state is not open, and then alone, and keeps it. */
static void require_open(const uppinalo_units_state *before, uint32_t given) {
    require((given != 11) == is_open(before), "11 for an open state, or not for another");
    require(is_kept_after(&states, given != 11 ? sizeof *before : 0), "11 changes the state, or a call what lies beside it");
}

static void add_units(void) {
    uint8_t bytes[MOST_BYTES];
    size_t n = fragment(bytes);
    uppinalo_units_state before = units_state(), again = before, *given = lend(&states, &before, sizeof before);
    const uint8_t *part = lend(&texts, bytes, n);
    uint32_t answer = uppinalo_add_units(given, part, n);
    count(answer);
    require(uppinalo_add_units(&again, part, n) == answer && SAME(again, *given), "two answers");
    require(answer == 0 || answer == 11, "a fragment is neither taken nor refused with 11");
    require(is_kept_after(&texts, 0), "the fragment is changed");
    require_open(&before, answer);
    if (answer != 0)
        return;
    uppinalo_units_state expected = before;
    for (size_t i = 0; i < n && before.count + i < sizeof expected.bytes; i++)
        expected.bytes[before.count + i] = bytes[i];
    expected.count = before.count + n > sizeof expected.bytes ? 129 : before.count + (uint32_t)n;
    require(SAME(*given, expected), "the state has not the fragment's bytes and those before them, or more is changed");
}

static void end_units(void) {
    uint8_t name_bytes[MOST_BYTES];
    size_t n = name(name_bytes);
    uppinalo_units_state before = units_state(), again = before, *given = lend(&states, &before, sizeof before);
    const uint8_t *first = lend(&names, name_bytes, n);
    uppinalo_date with = cutover(), second = again_with(with, is_standard(name_bytes, n));
    uppinalo_axis_answer answer = uppinalo_end_units(given, first, n, with), other = uppinalo_end_units(&again, first, n, second);
    uint32_t of = answer.number;
    count(of);
    require(is_same_axis(&answer, &other) && SAME(again, *given), "two answers");
    require(of <= 5 || (of >= 11 && of <= 13) || of == 16, "an end is refused with another number");
    require_16(of, with, is_standard(name_bytes, n));
    require(is_kept_after(&names, 0), "the name is changed");
    require_open(&before, of);
    require_axis(&answer, with);
    if (of == 11)
        return;
    uppinalo_units_state expected = before;
    expected.ended = 1;
    require(SAME(*given, expected), "an end that does not end, or changes more");
    require(before.count <= 128 || of == 1, "a text over 128 bytes is not refused with 1");
    if (before.count <= 128)
        require_at_once(&answer, (whole_text){first, n, with, before.bytes, before.count});
}

static void read_iso(void) {
    uint8_t name_bytes[MOST_BYTES], text_bytes[MOST_BYTES];
    size_t n = name(name_bytes), m = text(text_bytes, 0);
    const uint8_t *first = lend(&names, name_bytes, n), *second = lend(&texts, text_bytes, m);
    uppinalo_date with = cutover(), other = again_with(with, is_standard(name_bytes, n));
    uppinalo_reading answer = uppinalo_read_iso(first, n, with, second, m), again = uppinalo_read_iso(first, n, other, second, m);
    count(answer.number);
    require(is_same_reading(&answer, &again), "two answers");
    require_16(answer.number, with, is_standard(name_bytes, n));
    require(is_kept_after(&names, 0) && is_kept_after(&texts, 0), "a text is changed");
    require(m <= 128 || answer.number == 1, "a text over 128 bytes is not refused with 1");
    require(answer.number == 0 ? answer.exact : !answer.exact && answer.instant == 0, "exact, and only on success");
    require(answer.days_back == 0, "a text's day is stepped back");
}

static void write_iso(void) {
    static const char *const CODED[] = {"standard", "proleptic_gregorian", "julian", "noleap", "all_leap", "360_day"};
    uint8_t filled[MOST_BYTES];
    uint32_t calendar = code(6);
    int64_t of = instant();
    size_t n = below(2) ? 26 + (size_t)below(4) : (size_t)below(60);
    memset(filled, (int)below(256), n);
    uint8_t *room = lend(&rooms, filled, n);
    uppinalo_date with = cutover();
    uppinalo_length_answer answer = uppinalo_write_iso(calendar, with, of, room, n);
    count(answer.number);
    require_16(answer.number, with, calendar == UPPINALO_STANDARD);
    require(answer.number == 0 ? answer.length == 27 || answer.length == 28 : answer.length == 0, "another length");
    require(answer.length <= n && is_kept_after(&rooms, answer.length), "more than the text is written");
    if (uppinalo_read_iso && answer.number == 0) {
        const char *known = CODED[calendar];
        with = again_with(with, calendar == UPPINALO_STANDARD);
        uppinalo_reading back = uppinalo_read_iso((const uint8_t *)known, strlen(known), with, room, answer.length);
        require(back.number == 0 && back.instant == of && back.exact, "the text does not read as the instant");
    }
}

/* Whether some date has these fields, the year apart. */
static int is_possible(uppinalo_fields of) {
    return of.month - 1 < 12 && of.day - 1 < 31 && of.hour < 24 && of.minute < 60 && of.second < 60 && of.microsecond < 1000000;
}

static void fields_of(void) {
    uint32_t calendar = code(6);
    uppinalo_date with = cutover(), other = again_with(with, calendar == UPPINALO_STANDARD);
    int64_t of = below(4) ? instant() : day_about(with) * 86400000000 + (int64_t)below(86400000000);
    uppinalo_fields_answer answer = uppinalo_fields_of(calendar, with, of), again = uppinalo_fields_of(calendar, other, of);
    uppinalo_fields f = answer.fields;
    count(answer.number);
    require_16(answer.number, with, calendar == UPPINALO_STANDARD);
    require(answer.number == again.number && SAME(answer.fields, again.fields), "two answers");
    require(calendar < 6 || answer.number == 2, "an unknown calendar is not refused with 2");
    if (answer.number == 0)
        require(f.year >= -9999 && f.year <= 9999 && is_possible(f), "fields that no instant has");
    else
        require(SAME(f, ((uppinalo_fields){0})), "a refusal with fields");
}

static void date_of_day(void) {
    uint32_t calendar = code(6);
    uppinalo_date with = cutover(), other = again_with(with, calendar == UPPINALO_STANDARD);
    int64_t day = below(3) ? (int64_t)below(7400000) - 4400000 : below(2) ? day_about(with) : number();
    uppinalo_date_answer answer = uppinalo_date_of_day(calendar, with, day), again = uppinalo_date_of_day(calendar, other, day);
    count(answer.number);
    require(answer.number == again.number && SAME(answer.date, again.date), "two answers");
    require_16(answer.number, with, calendar == UPPINALO_STANDARD);
    require(answer.number == 0 || SAME(answer.date, ((uppinalo_date){0})), "a refusal with a date");
    if (uppinalo_day_of_date && answer.number == 0) {
        uppinalo_day_answer back = uppinalo_day_of_date(calendar, other, answer.date);
        require(back.number == 0 && back.day == day, "the date has another day number");
    }
}

/* Whether an allowed cutover drops a date: one that julian has, after the last day kept and before the cutover. */
static int is_dropped(uppinalo_date with, uppinalo_date of) {
    int is_julian = uppinalo_day_of_date(UPPINALO_JULIAN, with, of).number == 0;
    return is_julian && is_before(of, with) && is_before(last_kept(with), of);
}

/* That 4 and 13 are the answers to the fields that have them, and to no others, unless a code, the cutover, the reference or the year is
 * refused. */
static void require_kind(uint32_t given, uint32_t calendar, uppinalo_date with, uppinalo_fields of) {
    uppinalo_date date = {of.year, of.month, of.day};
    if (given == 2 || given == 3 || given == 5 || given == 16)
        return;
    require((given == 4) == !is_possible(of), "4 where every field is possible, or not where one is not");
    if (!uppinalo_day_of_date || !uppinalo_date_of_day)
        return;
    int is_13 = is_possible(of) && calendar == UPPINALO_STANDARD && is_dropped(with, date);
    require((given == 13) == is_13, "13 for a day that is not dropped, or not for one that is");
}

static void day_of_date(void) {
    uint32_t calendar = code(6);
    uppinalo_date with = cutover(), other = again_with(with, calendar == UPPINALO_STANDARD);
    uppinalo_fields drawn = fields(with);
    uppinalo_date date = {drawn.year, drawn.month, drawn.day};
    uppinalo_day_answer answer = uppinalo_day_of_date(calendar, with, date), again = uppinalo_day_of_date(calendar, other, date);
    count(answer.number);
    require(answer.number == again.number && answer.day == again.day, "two answers");
    require(answer.number == 0 || answer.day == 0, "a refusal with a day");
    require_16(answer.number, with, calendar == UPPINALO_STANDARD);
    require_kind(answer.number, calendar, with, (uppinalo_fields){date.year, date.month, date.day, 0, 0, 0, 0});
    if (uppinalo_date_of_day && answer.number == 0) {
        uppinalo_date_answer back = uppinalo_date_of_day(calendar, other, answer.day);
        require(back.number == 0 && SAME(back.date, date), "the day number has another date");
    }
}

/* The axis for a second call, with another cutover where its calendar does not look at it. */
static uppinalo_axis again_on(uppinalo_axis on) {
    on.cutover = again_with(on.cutover, on.calendar == UPPINALO_STANDARD);
    return on;
}

static void read_whole(void) {
    uppinalo_axis on = axis();
    int64_t offset = whole_offset_on(&on);
    uppinalo_reading answer = uppinalo_read_whole(on, offset), again = uppinalo_read_whole(again_on(on), offset);
    count(answer.number);
    require(is_same_reading(&answer, &again), "two answers");
    require_reading(&answer, &on);
    require(answer.number != 0 || answer.exact, "a whole offset that is not exact");
    if (uppinalo_write_instant && answer.number == 0) {
        uppinalo_offset_answer back = uppinalo_write_instant(again_on(on), answer.instant);
        require(back.number == 0 && back.offset == offset, "the instant is written as another offset");
    }
}

static void read_double(void) {
    uppinalo_axis on = axis();
    double offset = below(4) ? double_offset() : (double)whole_offset_on(&on);
    uppinalo_reading answer = uppinalo_read_double(on, offset), again = uppinalo_read_double(again_on(on), offset);
    count(answer.number);
    require(is_same_reading(&answer, &again), "two answers");
    require_reading(&answer, &on);
    if (uppinalo_read_whole && offset > -9e15 && offset < 9e15 && (double)(int64_t)offset == offset) {
        uppinalo_reading whole = uppinalo_read_whole(on, (int64_t)offset);
        require(is_same_reading(&whole, &answer), "a whole double reads as the whole number does not");
    }
}

static void write_instant(void) {
    uppinalo_axis on = axis();
    int64_t days = (int64_t)below(2000) - 1000, of = instant();
    if (below(2) && is_in_range(on.calendar, on.cutover, on.reference))
        of = on.reference + days * 86400000000 + (int64_t)below(3) - 1;
    uppinalo_offset_answer answer = uppinalo_write_instant(on, of);
    count(answer.number);
    require_16_on(answer.number, &on);
    require(answer.number == 0 || answer.offset == 0, "a refusal with an offset");
    if (uppinalo_read_whole && answer.number == 0) {
        uppinalo_reading back = uppinalo_read_whole(on, answer.offset);
        require(back.number == 0 && back.instant == of, "the offset reads as another instant");
    }
}

static void write_fields(void) {
    uppinalo_axis on = axis();
    uppinalo_fields of = fields(on.cutover);
    if (below(2))
        of.microsecond = 0;
    if (below(2))
        of.hour = of.minute = of.second = of.microsecond = 0;
    uppinalo_offset_answer answer = uppinalo_write_fields(on, of);
    count(answer.number);
    require_16_on(answer.number, &on);
    require(answer.number == 0 || answer.offset == 0, "a refusal with an offset");
    require_kind(answer.number, on.calendar, on.cutover, of);
    if (uppinalo_read_whole && uppinalo_fields_of && answer.number == 0) {
        uppinalo_reading back = uppinalo_read_whole(on, answer.offset);
        uppinalo_fields_answer shown = uppinalo_fields_of(on.calendar, on.cutover, back.instant);
        require(back.number == 0 && SAME(shown.fields, of), "the offset reads as other fields");
    }
}

/* What every answer to a run has; where it is refused, the place is one of the run's. */
static void require_run(uppinalo_run_answer answer, size_t n, size_t m) {
    require(answer.number != 0 ? answer.length == 0 && answer.rounded == 0 : answer.length == n && answer.place == 0,
            "the counts of a refusal are zero, or the length is that of the source");
    require(answer.rounded <= n, "more are rounded than there are");
    require(n <= m || answer.number != 0, "too little room is not refused");
    require(answer.place == 0 || answer.place < n, "a place past the source");
    require(is_kept_after(&sources, 0), "the source is changed");
    require(is_kept_after(&rooms, 8 * answer.length), "more than the run is written");
}

/* Room for n elements of so many bytes, or for more, or too little of it. Answers for how many. */
static size_t room_for(size_t n, size_t size) {
    static uint8_t filled[8 * (MOST_OFFSETS + 16)];
    size_t m = below(8) == 0 ? (size_t)below(n + 1) : n + (size_t)below(2) * (size_t)below(16);
    for (size_t i = 0; i < size * m; i++)
        filled[i] = (uint8_t)bits();
    lend(&rooms, filled, size * m);
    return m;
}

static size_t length(void) { return (size_t)below(below(2) ? 6 : MOST_OFFSETS); }

/* That an element of a run has the instant, or the refusal, of its offset alone. */
#define REQUIRE_ALONE(answer, read, on, source, written, n) \
    do { \
        size_t last = (answer).number != 0 ? (answer).place + 1 : (n); \
        for (size_t i = 0; read && i < last && i < (n) && (answer).number != 7; i++) { \
            uppinalo_reading alone = read(on, (source)[i]); \
            uint32_t expected = (answer).number != 0 && i + 1 == last ? (answer).number : 0; \
            require(alone.number == expected, "an offset is refused otherwise alone"); \
            require((answer).number != 0 || alone.instant == (written)[i], "an offset reads otherwise alone"); \
            require_reading(&alone, &(on)); \
        } \
    } while (0)

static void read_wholes(void) {
    uppinalo_axis on = axis();
    int64_t drawn[MOST_OFFSETS];
    size_t n = length(), m;
    int is_tame = below(4) != 0;
    for (size_t i = 0; i < n; i++)
        drawn[i] = is_tame ? (int64_t)below(2000) - 1000 : whole_offset();
    const int64_t *source = lend(&sources, drawn, 8 * n);
    m = room_for(n, 8);
    uppinalo_run_answer answer = uppinalo_read_wholes(on, source, n, (int64_t *)(void *)rooms.start, m);
    count(answer.number);
    require_run(answer, n, m);
    require_16_on(answer.number, &on);
    require(answer.rounded == 0, "a whole offset is rounded");
    REQUIRE_ALONE(answer, uppinalo_read_whole, on, drawn, (const int64_t *)(const void *)rooms.start, n);
}

static void read_doubles(void) {
    uppinalo_axis on = axis();
    double drawn[MOST_OFFSETS];
    size_t n = length(), m;
    int is_tame = below(4) != 0;
    for (size_t i = 0; i < n; i++)
        drawn[i] = is_tame ? ((double)below(1u << 20) - 524288.0) / 512.0 : double_offset();
    const double *source = lend(&sources, drawn, 8 * n);
    m = room_for(n, 8);
    uppinalo_run_answer answer = uppinalo_read_doubles(on, source, n, (int64_t *)(void *)rooms.start, m);
    count(answer.number);
    require_run(answer, n, m);
    require_16_on(answer.number, &on);
    REQUIRE_ALONE(answer, uppinalo_read_double, on, drawn, (const int64_t *)(const void *)rooms.start, n);
}

/* What every answer about a datetime64 array has. */
static void require_array(uppinalo_run_answer answer, size_t n, size_t m) {
    uint32_t given = answer.number;
    require_run(answer, n, m);
    require(is_kept_after(&names, 0), "the identifier is changed");
    require(answer.rounded == 0, "a record is rounded");
    require(answer.place == 0 || given == 5 || given == 6 || given == 10, "a place where no element is at fault");
}

static void read_datetime64(void) {
    static datetime64_array of;
    array(&of, length());
    size_t n = of.length / RECORD, m;
    const uint8_t *name = lend(&names, of.identifier, of.identifier_len), *source = lend(&sources, of.bytes, of.length);
    m = room_for(n, 8);
    int64_t *written = (int64_t *)(void *)rooms.start, first[MOST_OFFSETS];
    uppinalo_run_answer answer = uppinalo_read_datetime64(name, of.identifier_len, source, of.length, written, m);
    count(answer.number);
    require_array(answer, n, m);
    require(of.length % RECORD == 0 || answer.number == 9 || answer.number == 3, "a part of a record is not refused");
    for (size_t i = 0; i < answer.length; i++)
        require(is_in_range(UPPINALO_PROLEPTIC_GREGORIAN, UPPINALO_CUTOVER_1582, written[i]), "an instant past the range");
    if (answer.number == 5 || answer.number == 6 || answer.number == 10) {
        size_t at = RECORD * answer.place;
        uppinalo_run_answer before = uppinalo_read_datetime64(name, of.identifier_len, source, at, first, MOST_OFFSETS);
        uppinalo_run_answer alone = uppinalo_read_datetime64(name, of.identifier_len, source + at, RECORD, first, 1);
        require(before.number == 0 && alone.number == answer.number, "a record is refused otherwise alone");
    }
    if (uppinalo_write_datetime64 && answer.number == 0) {
        uint8_t back[RECORD * MOST_OFFSETS];
        uppinalo_run_answer again = uppinalo_write_datetime64(name, of.identifier_len, written, n, back, sizeof back);
        require(again.number == 0 && again.length == n, "the instants of records are not written");
        require(n == 0 || memcmp(back, of.bytes, RECORD * n) == 0, "the instants are written as other records");
    }
}

/* Instants that an array reads as, or any. */
static void instants_of(const datetime64_array *of, size_t n, int64_t *to) {
    const uint8_t *name = of->identifier, *bytes = of->bytes;
    if (uppinalo_read_datetime64 && below(4) != 0 &&
        uppinalo_read_datetime64(name, of->identifier_len, bytes, RECORD * n, to, n).number == 0)
        return;
    for (size_t i = 0; i < n; i++)
        to[i] = instant();
}

static void write_datetime64(void) {
    static datetime64_array of;
    int64_t drawn[MOST_OFFSETS], back[MOST_OFFSETS];
    size_t n = length(), m;
    array(&of, n);
    instants_of(&of, n, drawn);
    const uint8_t *name = lend(&names, of.identifier, of.identifier_len);
    const int64_t *source = lend(&sources, drawn, 8 * n);
    m = room_for(RECORD * n, 1);
    uppinalo_run_answer answer = uppinalo_write_datetime64(name, of.identifier_len, source, n, rooms.start, m);
    count(answer.number);
    require_array(answer, n, m / RECORD);
    if (answer.number == 5 || answer.number == 6) {
        uint8_t one[RECORD];
        uppinalo_run_answer alone = uppinalo_write_datetime64(name, of.identifier_len, source + answer.place, 1, one, RECORD);
        require(alone.number == answer.number && alone.place == 0, "an instant is refused otherwise alone");
    }
    if (uppinalo_read_datetime64 && answer.number == 0) {
        uppinalo_run_answer again = uppinalo_read_datetime64(name, of.identifier_len, rooms.start, RECORD * n, back, n);
        require(again.number == 0 && again.length == n, "the records of instants are not read");
        require(n == 0 || memcmp(back, drawn, 8 * n) == 0, "the records read as other instants");
    }
}

/* Whether a list of leap seconds is one that a call refuses for its length. */
static int is_bad_length(size_t n) { return n % LEAP_RECORD != 0 || n == 0 || n > LEAP_RECORD * MOST_LEAP_RECORDS; }

/* Whether some date has these fields, the year apart; second 60 only as the last of a day. */
static int is_possible_utc(uppinalo_utc_fields of) {
    int is_clock = of.second < 60 || (of.hour == 23 && of.minute == 59 && of.second == 60);
    return of.month - 1 < 12 && of.day - 1 < 31 && of.hour < 24 && of.minute < 60 && is_clock && of.nanosecond < 1000000000;
}

static void read_tt2000(void) {
    uint8_t bytes[MOST_LEAP_BYTES];
    size_t n = leap_seconds(bytes);
    int64_t of = tt2000(bytes, n);
    const uint8_t *list = lend(&sources, bytes, n);
    uppinalo_utc_fields_answer answer = uppinalo_read_tt2000(list, n, of), again = uppinalo_read_tt2000(list, n, of);
    count(answer.number);
    require(answer.number == again.number && SAME(answer.fields, again.fields), "two answers");
    require(is_kept_after(&sources, 0), "the list is changed");
    require(!is_bad_length(n) || answer.number == 14, "a list of this length is not refused with 14");
    require(answer.number == 0 || answer.number == 14 || answer.number == 15, "a TT2000 is refused with another number");
    if (answer.number != 0) {
        require(SAME(answer.fields, ((uppinalo_utc_fields){0})), "a refusal with fields");
        return;
    }
    int is_in_years = answer.fields.year >= 1972 && answer.fields.year <= 2292;
    require(is_in_years && is_possible_utc(answer.fields), "fields that no TT2000 has");
    if (uppinalo_write_tt2000) {
        uppinalo_tt2000_answer back = uppinalo_write_tt2000(list, n, answer.fields);
        require(back.number == 0 && back.tt2000 == of, "the fields are written as another number");
    }
}

/* Fields that a number reads as, or any. */
static uppinalo_utc_fields fields_of_tt2000(const uint8_t *list, size_t n) {
    if (uppinalo_read_tt2000 && below(3) == 0) {
        uppinalo_utc_fields_answer read = uppinalo_read_tt2000(list, n, tt2000(list, n));
        if (read.number == 0)
            return read.fields;
    }
    return utc_fields();
}

static void write_tt2000(void) {
    uint8_t bytes[MOST_LEAP_BYTES];
    size_t n = leap_seconds(bytes);
    uppinalo_utc_fields of = fields_of_tt2000(bytes, n);
    const uint8_t *list = lend(&sources, bytes, n);
    uppinalo_tt2000_answer answer = uppinalo_write_tt2000(list, n, of), again = uppinalo_write_tt2000(list, n, of);
    uint32_t given = answer.number;
    count(given);
    require(given == again.number && answer.tt2000 == again.tt2000, "two answers");
    require(is_kept_after(&sources, 0), "the list is changed");
    require(!is_bad_length(n) || given == 14, "a list of this length is not refused with 14");
    require(given == 0 || given == 4 || given == 5 || given == 12 || given >= 14, "a time is refused with another number");
    require(given == 0 || answer.tt2000 == 0, "a refusal with a number");
    require(given == 14 || given == 4 || is_possible_utc(of), "fields that no date has are not refused with 4");
    require(given != 4 || !is_possible_utc(of) || of.second == 60, "4 where every field is possible");
    require((given != 15 && given != 5) || (given == 15) == (of.year < 1972), "15 from 1972 on, or 5 before it");
    if (uppinalo_read_tt2000 && given == 0) {
        uppinalo_utc_fields_answer back = uppinalo_read_tt2000(list, n, answer.tt2000);
        require(back.number == 0 && SAME(back.fields, of), "the number reads as other fields");
    }
}

typedef void (*any_call)(void);

/* A call's name, its round, and the call itself, null where the archive does not have it. Its place is its row of `answered`. */
static const struct { const char *name; void (*round)(void); any_call exported; } ROUNDS[] = {
    {"read_units", read_units, (any_call)uppinalo_read_units},
    {"start_units", start_units, (any_call)uppinalo_start_units},
    {"add_units", add_units, (any_call)uppinalo_add_units},
    {"end_units", end_units, (any_call)uppinalo_end_units},
    {"read_iso", read_iso, (any_call)uppinalo_read_iso},
    {"write_iso", write_iso, (any_call)uppinalo_write_iso},
    {"fields_of", fields_of, (any_call)uppinalo_fields_of},
    {"date_of_day", date_of_day, (any_call)uppinalo_date_of_day},
    {"day_of_date", day_of_date, (any_call)uppinalo_day_of_date},
    {"read_whole", read_whole, (any_call)uppinalo_read_whole},
    {"read_double", read_double, (any_call)uppinalo_read_double},
    {"write_instant", write_instant, (any_call)uppinalo_write_instant},
    {"write_fields", write_fields, (any_call)uppinalo_write_fields},
    {"read_wholes", read_wholes, (any_call)uppinalo_read_wholes},
    {"read_doubles", read_doubles, (any_call)uppinalo_read_doubles},
    {"read_datetime64", read_datetime64, (any_call)uppinalo_read_datetime64},
    {"write_datetime64", write_datetime64, (any_call)uppinalo_write_datetime64},
    {"read_tt2000", read_tt2000, (any_call)uppinalo_read_tt2000},
    {"write_tt2000", write_tt2000, (any_call)uppinalo_write_tt2000},
};
_Static_assert(sizeof ROUNDS / sizeof *ROUNDS == CALLS, "a row of `answered` for each call");

static void print_counts(void) {
    printf("fuzz: how often each number was answered, 0 to %d\n", MOST_NUMBER);
    for (size_t i = 0; i < CALLS; i++) {
        printf("  %-16s", ROUNDS[i].name);
        for (int given = 0; given <= MOST_NUMBER && ROUNDS[i].exported; given++)
            printf("%8llu", answered[i][given]);
        printf(ROUNDS[i].exported ? "\n" : "  not exported yet, not tried\n");
    }
}

static int is_exported(const char *name) {
    for (size_t i = 0; i < CALLS; i++)
        if (strcmp(ROUNDS[i].name, name) == 0)
            return ROUNDS[i].exported != NULL;
    return strcmp(name, "listing") == 0;
}

int main(int argc, char **argv) {
    if (argc < 4) {
        fprintf(stderr, "usage: fuzz COUNT SEED CALL..\n");
        return 2;
    }
    for (int i = 3; i < argc; i++) {
        call = argv[i];
        require(is_exported(call), "it is listed and not exported");
    }
    unsigned long long rounds = strtoull(argv[1], NULL, 10);
    state = strtoull(argv[2], NULL, 10);
    lent *const all[] = {&names, &texts, &states, &sources, &rooms};
    for (size_t i = 0; i < sizeof all / sizeof *all; i++)
        lent_open(all[i]);
    while (turn < rounds) {
        row = (size_t)below(CALLS);
        call = ROUNDS[row].name;
        if (!ROUNDS[row].exported)
            continue;
        ROUNDS[row].round();
        turn++;
    }
    print_counts();
    printf("fuzz: %llu readings were stepped back, %llu of them over dropped dates\n", stepped_back, stepped_back_at_cutover);
    printf("fuzz: %llu rounds from seed %s: ok\n", rounds, argv[2]);
    return 0;
}
