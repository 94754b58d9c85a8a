/* ICU's date formats under names that have no version in them. */
#include <unicode/udat.h>
#include <unicode/uversion.h>

void *bench_icu_open(const UChar *pattern, int32_t length, const UChar *zone, int32_t zone_length) {
    UErrorCode status = U_ZERO_ERROR;
    UDateFormat *format = udat_open(UDAT_PATTERN, UDAT_PATTERN, "en_US_POSIX", zone, zone_length, pattern, length, &status);
    return U_SUCCESS(status) ? format : NULL;
}

void bench_icu_close(void *format) {
    udat_close(format);
}

int32_t bench_icu_format(void *format, double millis, UChar *out, int32_t room) {
    UErrorCode status = U_ZERO_ERROR;
    int32_t length = udat_format(format, millis, out, room, NULL, &status);
    return U_SUCCESS(status) ? length : -1;
}

/* The place behind what was read, or -1. */
int32_t bench_icu_parse(void *format, const UChar *text, int32_t length, double *millis) {
    UErrorCode status = U_ZERO_ERROR;
    int32_t place = 0;
    *millis = udat_parse(format, text, length, &place, &status);
    return U_SUCCESS(status) ? place : -1;
}
