/* Whole arrays for the Python package: one call of the library for each element, and no rule of its own. The call is handed in, since the package
 * finds the library when it is imported.
 *
 * A loop ends with the first element that is refused, and answers its number and its place; what it wrote before is the package's to throw away.
 * Elements that `skipped` marks are not looked at, and keep their room as it was; it may be null, for none. */
#include "uppinalo.h"

#define ISO_TEXT 28

typedef struct { uint32_t number; size_t place; } loop_answer;

/* Gives each element's answer to `kept`, which puts it where it belongs. */
#define LOOP(n, answer_type, answer_of_i, kept)             \
    for (size_t i = 0; i < (n); i++) {                      \
        if (skipped != NULL && skipped[i])                  \
            continue;                                       \
        answer_type answer = answer_of_i;                   \
        if (answer.number != 0)                             \
            return (loop_answer){answer.number, i};         \
        kept;                                               \
    }                                                       \
    return (loop_answer){0, 0}

/* A text as NumPy's U28 has it: a number of four bytes for each character, and zeros after the last, which only a negative year's has. */
static void widen(const uint8_t *text, size_t length, uint32_t *to) {
    for (size_t i = 0; i < ISO_TEXT - 1; i++)
        to[i] = text[i];
    to[ISO_TEXT - 1] = length == ISO_TEXT ? text[ISO_TEXT - 1] : 0;
}

loop_answer loop_fields_of(__typeof__(uppinalo_fields_of) *fields_of, uint32_t calendar, uppinalo_date cutover,
                           const int64_t *instants, const uint8_t *skipped, size_t n, uppinalo_fields *fields) {
    LOOP(n, uppinalo_fields_answer, fields_of(calendar, cutover, instants[i]), fields[i] = answer.fields);
}

loop_answer loop_write_iso(__typeof__(uppinalo_write_iso) *write_iso, uint32_t calendar, uppinalo_date cutover,
                           const int64_t *instants, const uint8_t *skipped, size_t n, uint32_t (*texts)[ISO_TEXT]) {
    uint8_t text[ISO_TEXT];
    LOOP(n, uppinalo_length_answer, write_iso(calendar, cutover, instants[i], text, sizeof text), widen(text, answer.length, texts[i]));
}

loop_answer loop_write_instant(__typeof__(uppinalo_write_instant) *write_instant, uppinalo_axis axis,
                               const int64_t *instants, const uint8_t *skipped, size_t n, int64_t *offsets) {
    LOOP(n, uppinalo_offset_answer, write_instant(axis, instants[i]), offsets[i] = answer.offset);
}

loop_answer loop_write_tt2000(__typeof__(uppinalo_write_tt2000) *write_tt2000, const uint8_t *leap_seconds, size_t leap_seconds_len,
                              const uppinalo_utc_fields *fields, const uint8_t *skipped, size_t n, int64_t *numbers) {
    LOOP(n, uppinalo_tt2000_answer, write_tt2000(leap_seconds, leap_seconds_len, fields[i]), numbers[i] = answer.tt2000);
}
