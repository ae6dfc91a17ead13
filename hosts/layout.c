/* The sizes of the structs of include/uppinalo.h, and the places of their fields, as hosts/answers has them in Rust.
 * Compiled for its assertions only; hosts/answers/tests/layout.rs asserts the same numbers. */
#include "../include/uppinalo.h"

#define SIZE(type, size) _Static_assert(sizeof(type) == (size), #type)
#define PLACE(type, field, place) _Static_assert(offsetof(type, field) == (place), #type "." #field)

SIZE(uppinalo_date, 16);
PLACE(uppinalo_date, month, 8);
PLACE(uppinalo_date, day, 12);
SIZE(UPPINALO_CUTOVER_1582, 16);
SIZE(uppinalo_axis, 40);
PLACE(uppinalo_axis, period, 4);
PLACE(uppinalo_axis, mode, 8);
PLACE(uppinalo_axis, reference, 16);
PLACE(uppinalo_axis, cutover, 24);
SIZE(UPPINALO_ZERO_AXIS, 40);
SIZE(uppinalo_fields, 32);
PLACE(uppinalo_fields, month, 8);
PLACE(uppinalo_fields, day, 12);
PLACE(uppinalo_fields, hour, 16);
PLACE(uppinalo_fields, minute, 20);
PLACE(uppinalo_fields, second, 24);
PLACE(uppinalo_fields, microsecond, 28);
SIZE(uppinalo_utc_fields, 32);
PLACE(uppinalo_utc_fields, month, 8);
PLACE(uppinalo_utc_fields, day, 12);
PLACE(uppinalo_utc_fields, hour, 16);
PLACE(uppinalo_utc_fields, minute, 20);
PLACE(uppinalo_utc_fields, second, 24);
PLACE(uppinalo_utc_fields, nanosecond, 28);
SIZE(uppinalo_units_state, 136);
PLACE(uppinalo_units_state, ended, 4);
PLACE(uppinalo_units_state, bytes, 8);
SIZE(uppinalo_axis_answer, 48);
PLACE(uppinalo_axis_answer, axis, 8);
SIZE(uppinalo_reading, 24);
PLACE(uppinalo_reading, instant, 8);
PLACE(uppinalo_reading, exact, 16);
PLACE(uppinalo_reading, days_back, 20);
SIZE(uppinalo_offset_answer, 16);
PLACE(uppinalo_offset_answer, offset, 8);
SIZE(uppinalo_fields_answer, 40);
PLACE(uppinalo_fields_answer, fields, 8);
SIZE(uppinalo_date_answer, 24);
PLACE(uppinalo_date_answer, date, 8);
SIZE(uppinalo_day_answer, 16);
PLACE(uppinalo_day_answer, day, 8);
SIZE(uppinalo_length_answer, 16);
PLACE(uppinalo_length_answer, length, 8);
SIZE(uppinalo_run_answer, 32);
PLACE(uppinalo_run_answer, place, 8);
PLACE(uppinalo_run_answer, length, 16);
PLACE(uppinalo_run_answer, rounded, 24);
SIZE(uppinalo_utc_fields_answer, 40);
PLACE(uppinalo_utc_fields_answer, fields, 8);
SIZE(uppinalo_tt2000_answer, 16);
PLACE(uppinalo_tt2000_answer, tt2000, 8);
