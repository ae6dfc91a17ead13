/* Prints the refusals by number with their words, from 0 to the first number that is none, and the version. C and C++ alike. */
#include <stdio.h>
#include <string.h>
#include "uppinalo.h"

int main(void) {
    const uppinalo_axis axis = UPPINALO_ZERO_AXIS;
    const uppinalo_date cutover = UPPINALO_CUTOVER_1582;
    const char *none = uppinalo_refusal_text(UINT32_MAX);
    if (axis.cutover.year != cutover.year || axis.cutover.month != cutover.month || axis.cutover.day != cutover.day)
        return 1;
    for (uint32_t number = 0; strcmp(uppinalo_refusal_text(number), none) != 0; number++)
        printf("%u %s\n", (unsigned)number, uppinalo_refusal_text(number));
    printf("%s\n%s\n", none, UPPINALO_VERSION);
    return 0;
}
