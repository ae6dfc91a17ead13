#include <stdio.h>
#include <string.h>
#include "uppinalo.h"

#define TEXT(text) (const uint8_t *)(text), strlen(text)

static void print_iso(uppinalo_axis axis, int64_t instant) {
    uint8_t text[UPPINALO_ISO_TEXT_MOST];
    size_t length = uppinalo_write_iso(axis.calendar, axis.cutover, instant, text, sizeof text).length;
    printf("%.*s", (int)length, (const char *)text);
}

int main(void) {
    uppinalo_axis_answer units = uppinalo_read_units(TEXT("noleap"), UPPINALO_CUTOVER_1582, TEXT("days since 1850-01-01"));
    double offsets[] = {59.5, 0.1};
    int64_t instants[2];
    uppinalo_run_answer run = uppinalo_read_doubles(units.axis, offsets, 2, instants, 2);
    if (units.number != 0 || run.number != 0)
        return 1;
    for (size_t i = 0; i < run.length; i++) {
        printf("%g: ", offsets[i]);
        print_iso(units.axis, instants[i]);
        printf("\n");
    }
    printf("rounded: %zu\n", run.rounded);
    uppinalo_fields fields = {.year = 1850, .month = 3, .day = 1};
    printf("1850-03-01: %lld\n", (long long)uppinalo_write_fields(units.axis, fields).offset);
    fields.hour = 12;
    printf("1850-03-01, noon: refused %u\n", (unsigned)uppinalo_write_fields(units.axis, fields).number);
    units = uppinalo_read_units(TEXT("standard"), UPPINALO_CUTOVER_1582, TEXT("calendar months since 1930-01-31"));
    uppinalo_reading reading = uppinalo_read_whole(units.axis, 1);
    if (units.number != 0 || reading.number != 0)
        return 1;
    printf("1930-01-31 and a month: ");
    print_iso(units.axis, reading.instant);
    printf(", %u days back\n", (unsigned)reading.days_back);
    return 0;
}
