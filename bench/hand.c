/* Functions written by hand for one pattern each, yyyy/MM/dd and yyyy-MM-dd HH:mm:ss: the limit that an engine is held to. The bare
 * ones do what their pattern needs. The full ones do what ours does besides: they check all eight fields, the current year and the
 * whole text, and lay the answer into the row. Only what is accepted is as ours; numbers for the rest are no more than marks. */
#include <stddef.h>
#include <stdint.h>
#include <string.h>

enum { REFUSED = 1, READ_ROW = 48, VALUES = 3, STARTS = 18, ENDS = 33 };

static const char PAIRS[] = "00010203040506070809101112131415161718192021222324252627282930313233343536373839404142434445464748"
                            "4950515253545556575859606162636465666768697071727374757677787980818283848586878889909192939495969798"
                            "99";

static void put_two(uint8_t *out, uint32_t number) {
    memcpy(out, PAIRS + 2 * number, 2);
}

static void put_day(uint8_t *out, uint32_t year, uint32_t month, uint32_t day, uint8_t between) {
    put_two(out, year / 100);
    put_two(out + 2, year % 100);
    out[4] = between;
    put_two(out + 5, month);
    out[7] = between;
    put_two(out + 8, day);
}

static int is_no_day(int32_t year, uint32_t month, uint32_t day) {
    return (uint32_t)year > 9999 || month - 1 > 11 || day - 1 > 30;
}

/* How many bytes were written, none where it is refused. */
size_t bare_write_day(int32_t year, uint32_t month, uint32_t day, uint8_t *out, size_t room) {
    if (is_no_day(year, month, day) || room < 10)
        return 0;
    put_day(out, (uint32_t)year, month, day, '/');
    return 10;
}

size_t bare_write_stamp(int32_t year, uint32_t month, uint32_t day, uint64_t nanos, uint8_t *out, size_t room) {
    if (is_no_day(year, month, day) || nanos > UINT64_C(86399999999999) || room < 19)
        return 0;
    uint32_t seconds = (uint32_t)(nanos / 1000000000), of_hour = seconds % 3600;
    put_day(out, (uint32_t)year, month, day, '-');
    out[10] = ' ';
    put_two(out + 11, seconds / 3600);
    out[13] = ':';
    put_two(out + 14, of_hour / 60);
    out[16] = ':';
    put_two(out + 17, of_hour % 60);
    return 19;
}

static uint32_t digit(const uint8_t *text, size_t place) {
    return (uint32_t)text[place] - '0';
}

/* Two digits, or more than 99 where one is none. */
static uint32_t two_digits(const uint8_t *text, size_t place) {
    uint32_t tens = digit(text, place), ones = digit(text, place + 1);
    return tens > 9 || ones > 9 ? 100 : 10 * tens + ones;
}

/* Year, month and day into `to`. */
uint32_t bare_read_day(const uint8_t *text, size_t length, int32_t *to) {
    if (length < 10)
        return REFUSED;
    uint32_t century = two_digits(text, 0), of_century = two_digits(text, 2);
    uint32_t month = two_digits(text, 5), day = two_digits(text, 8);
    if (century > 99 || of_century > 99 || month > 99 || day > 99)
        return REFUSED;
    to[0] = (int32_t)(100 * century + of_century);
    to[1] = (int32_t)month;
    to[2] = (int32_t)day;
    return 0;
}

/* Hour, minute and second besides. */
uint32_t bare_read_stamp(const uint8_t *text, size_t length, int32_t *to) {
    if (length < 19 || bare_read_day(text, length, to) != 0)
        return REFUSED;
    uint32_t hour = two_digits(text, 11), minute = two_digits(text, 14), second = two_digits(text, 17);
    if (hour > 99 || minute > 99 || second > 99)
        return REFUSED;
    to[3] = (int32_t)hour;
    to[4] = (int32_t)minute;
    to[5] = (int32_t)second;
    return 0;
}

static uint32_t size_of(int32_t number) {
    return number < 0 ? 0u - (uint32_t)number : (uint32_t)number;
}

static int has_bad_field(int32_t year, uint32_t month, uint32_t day, uint32_t doy, uint32_t week, uint32_t wday, uint64_t nanos,
                         int32_t offset) {
    return size_of(year) - 1 > 5879610 || month - 1 > 11 || day - 1 > 30 || doy - 1 > 365 || week - 1 > 52 || wday > 6 ||
           nanos > UINT64_C(86399999999999) || size_of(offset) > 86399;
}

static uint32_t give_length(size_t length, int64_t *answer) {
    answer[0] = (int64_t)length;
    answer[1] = 0;
    return length == 0 ? REFUSED : 0;
}

uint32_t full_write_day(int32_t year, uint32_t month, uint32_t day, uint32_t doy, uint32_t week, uint32_t wday, uint64_t nanos,
                        int32_t offset, uint8_t *out, size_t room, int64_t *answer, size_t entries) {
    if (entries < 2 || has_bad_field(year, month, day, doy, week, wday, nanos, offset))
        return REFUSED;
    return give_length(bare_write_day(year, month, day, out, room), answer);
}

uint32_t full_write_stamp(int32_t year, uint32_t month, uint32_t day, uint32_t doy, uint32_t week, uint32_t wday, uint64_t nanos,
                          int32_t offset, uint8_t *out, size_t room, int64_t *answer, size_t entries) {
    if (entries < 2 || has_bad_field(year, month, day, doy, week, wday, nanos, offset))
        return REFUSED;
    return give_length(bare_write_stamp(year, month, day, nanos, out, room), answer);
}

static int is_ascii(const uint8_t *text, size_t length) {
    uint64_t all = 0, eight;
    size_t place = 0;
    for (; place + 8 <= length; place += 8) {
        memcpy(&eight, text + place, 8);
        all |= eight;
    }
    for (; place < length; place++)
        all |= text[place];
    return (all & UINT64_C(0x8080808080808080)) == 0;
}

static int is_refused(const uint8_t *text, size_t length, int32_t year, size_t entries) {
    return entries < READ_ROW || year < 1 || year > 9999 || length > 2048 || !is_ascii(text, length);
}

/* A unit's value, and where it stood. */
static void lay(int64_t *answer, size_t unit, int64_t value, int64_t start, int64_t end) {
    answer[VALUES + unit] = value;
    answer[STARTS + unit] = start;
    answer[ENDS + unit] = end;
}

static void lay_day(int64_t *answer, const int32_t *read) {
    lay(answer, 0, read[0], 0, 4);
    lay(answer, 1, read[1], 5, 7);
    lay(answer, 2, read[2], 8, 10);
}

uint32_t full_read_day(const uint8_t *text, size_t length, int32_t year, int64_t *answer, size_t entries) {
    int32_t read[3];
    if (is_refused(text, length, year, entries) || bare_read_day(text, length, read) != 0)
        return REFUSED;
    memset(answer, 0, READ_ROW * sizeof *answer);
    answer[0] = 10;
    answer[1] = 7;
    answer[2] = 3;
    lay_day(answer, read);
    return 0;
}

uint32_t full_read_stamp(const uint8_t *text, size_t length, int32_t year, int64_t *answer, size_t entries) {
    int32_t read[6];
    if (is_refused(text, length, year, entries) || bare_read_stamp(text, length, read) != 0)
        return REFUSED;
    memset(answer, 0, READ_ROW * sizeof *answer);
    answer[0] = 19;
    answer[1] = 0x197;
    answer[2] = 6;
    lay_day(answer, read);
    lay(answer, 4, read[3], 11, 13);
    lay(answer, 7, read[4], 14, 16);
    lay(answer, 8, read[5], 17, 19);
    return 0;
}
