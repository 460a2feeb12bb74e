/* Reads AIS lines from standard input and prints each position on a line; on standard error, why a line is refused.
 * Build and run, with the library in target/staticlib, where bindings/test puts it:
 *   cc -o positions bindings/c/example.c target/staticlib/libsumturnip.a && ./positions < bindings/example.nmea */
#define _POSIX_C_SOURCE 200809L
#include "../sumturnip.h"
#include <stdio.h>
#include <stdlib.h>

/* A reading that may be absent: its number as it was sent, `units` of them to one degree or knot. */
static void reading(const char *name, const uint64_t *numbers, int has, int raw, double units, int decimals) {
    if (numbers[has])
        printf(", %s %.*f", name, decimals, (double)(int64_t)numbers[raw] / units);
    else
        printf(", %s absent", name);
}

static void position(const uint64_t *numbers) {
    printf("%09llu", (unsigned long long)numbers[SUMTURNIP_MMSI]);
    reading("latitude", numbers, SUMTURNIP_HAS_LATITUDE, SUMTURNIP_LATITUDE_RAW, 600000, 6);
    reading("longitude", numbers, SUMTURNIP_HAS_LONGITUDE, SUMTURNIP_LONGITUDE_RAW, 600000, 6);
    reading("knots", numbers, SUMTURNIP_HAS_SPEED, SUMTURNIP_SPEED_RAW, 10, 1);
    reading("course", numbers, SUMTURNIP_HAS_COURSE, SUMTURNIP_COURSE_RAW, 10, 1);
    putchar('\n');
}

int main(void) {
    static uint8_t record[SUMTURNIP_RECORD], payload[SUMTURNIP_PAYLOAD], bits[SUMTURNIP_BITS], texts[SUMTURNIP_TEXTS];
    static uint64_t numbers[SUMTURNIP_NUMBERS];
    char *line = NULL;
    size_t room = 0, count = 0;
    ssize_t length;
    if (sumturnip_version() != SUMTURNIP_VERSION || sumturnip_fresh(record, sizeof record) != 0) return 1;
    while ((length = getline(&line, &room, stdin)) >= 0) {
        count++;
        uint32_t code = sumturnip_read(record, sizeof record, (const uint8_t *)line, (size_t)length, true, payload, sizeof payload, bits, sizeof bits, numbers,
                                       SUMTURNIP_NUMBERS, texts, sizeof texts);
        if (code == SUMTURNIP_COMPLETE && numbers[SUMTURNIP_KIND] == 1) position(numbers);
        if (code != SUMTURNIP_COMPLETE && code != SUMTURNIP_UNFINISHED) fprintf(stderr, "line %zu: %s\n", count, sumturnip_reason(code));
    }
    free(line);
    return 0;
}
