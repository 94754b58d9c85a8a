/* Writes a record by a pattern, reads it back, underlines what was read, shows what the parts of a pattern are, checks a pattern,
 * reads strictly, reads and checks in the second edition, shows a refusal, places a bar of a chart, writes and reads with the
 * names of a book, which it finds where it is run at the root of the repository, reads a list, prepares a pattern and writes days of
 * it, mends a pattern, and reads and writes a stamp. */
#include "sheet.h"

#include <inttypes.h>
#include <stdio.h>
#include <string.h>

#define CURRENT_YEAR 2025

static const uint8_t *bytes(const char *text) {
    return (const uint8_t *)text;
}

/* Wednesday, 3 December 2025, 07:05:09.00012 at +05:30. */
static uint32_t write_sample(const char *pattern, char *out, size_t out_len, int64_t *answer) {
    return sheet_write(bytes(pattern), strlen(pattern), 2025, 12, 3, 337, 49, 3, UINT64_C(25509000120000), 19800,
                       (uint8_t *)out, out_len, answer, SHEET_WRITE_ANSWER);
}

static void show_value(const char *name, const int64_t *answer, uint32_t unit) {
    if (sheet_was_read(answer[1], unit))
        printf("  %s %" PRId64 "\n", name, answer[SHEET_READ_VALUES + unit]);
    else
        printf("  no %s\n", name);
}

static void write_and_read_back(const char *pattern) {
    char text[SHEET_LONGEST_TEXT];
    int64_t wrote[SHEET_WRITE_ANSWER];
    int64_t read[SHEET_READ_ANSWER];
    if (write_sample(pattern, text, sizeof text, wrote) != SHEET_ACCEPTED)
        return;
    printf("%s writes %.*s\n", pattern, (int)wrote[0], text);
    if (sheet_read(bytes(pattern), strlen(pattern), bytes(text), (size_t)wrote[0], CURRENT_YEAR, read, SHEET_READ_ANSWER) !=
        SHEET_ACCEPTED)
        return;
    printf("%s reads %" PRId64 " bytes and %" PRId64 " units:\n", pattern, read[0], read[2]);
    show_value("year", read, SHEET_YEAR);
    show_value("month", read, SHEET_MONTH);
    show_value("day", read, SHEET_DAY_OF_MONTH);
    show_value("hour", read, SHEET_HOUR);
}

/* Under the bytes that a value was read from, where the text stands in the line above. */
static void underline(const char *name, const int64_t *answer, uint32_t unit) {
    int64_t end = answer[SHEET_READ_ENDS + unit];
    printf("  ");
    for (int64_t place = 0; place < end; place++)
        putchar(place < answer[SHEET_READ_STARTS + unit] ? ' ' : '^');
    printf(" %s\n", name);
}

static void underline_what_is_read(const char *pattern, const char *text) {
    int64_t read[SHEET_READ_ANSWER];
    if (sheet_read(bytes(pattern), strlen(pattern), bytes(text), strlen(text), CURRENT_YEAR, read, SHEET_READ_ANSWER) !=
        SHEET_ACCEPTED)
        return;
    printf("%s reads:\n  %s\n", pattern, text);
    underline("day", read, SHEET_DAY_OF_MONTH);
    underline("month", read, SHEET_MONTH);
    underline("year", read, SHEET_YEAR);
}

static void show_units(const char *pattern) {
    int64_t answer[SHEET_UNITS_ANSWER];
    int64_t units[SHEET_UNITS_ROW];
    if (sheet_units(bytes(pattern), strlen(pattern), answer, SHEET_UNITS_ANSWER, units, SHEET_UNITS_ROW) != SHEET_ACCEPTED)
        return;
    printf("%s has the parts:\n", pattern);
    for (int64_t part = 0; part < answer[0]; part++) {
        if (units[part] == SHEET_LITERAL)
            printf("  a literal\n");
        else if (units[part] == SHEET_CARRIES_NOTHING)
            printf("  a symbol that carries nothing\n");
        else
            printf("  a symbol that carries unit %" PRId64 "\n", units[part]);
    }
}

static void check(const char *pattern) {
    int64_t answer[SHEET_CHECK_ANSWER];
    uint32_t number = sheet_check(bytes(pattern), strlen(pattern), CURRENT_YEAR, answer, SHEET_CHECK_ANSWER);
    if (number != SHEET_ACCEPTED)
        printf("%s is refused with %" PRIu32 ": %s\n", pattern, number, sheet_refusal_text(number));
    else if (answer[0] == 1)
        printf("%s can be trusted\n", pattern);
    else
        printf("%s can't be trusted: part %" PRId64 " does not come back for month %" PRId64 "\n", pattern, answer[1],
               answer[3]);
}

static void read_strictly(const char *pattern, const char *text) {
    int64_t answer[SHEET_READ_ANSWER];
    uint32_t number = sheet_read_with(SHEET_STRICT, bytes(pattern), strlen(pattern), bytes(text), strlen(text), CURRENT_YEAR,
                                      answer, SHEET_READ_ANSWER);
    if (number == SHEET_ACCEPTED)
        printf("%s strictly reads %s\n", pattern, text);
    else if (number == SHEET_LITERAL_DIFFERS)
        printf("%s does not read %s strictly: at place %" PRId64 " %s\n", pattern, text, answer[1], sheet_refusal_text(number));
}

static void read_in_the_second_edition(const char *pattern, const char *text) {
    int64_t answer[SHEET_READ_ANSWER];
    if (sheet_read_with(SHEET_SECOND_EDITION, bytes(pattern), strlen(pattern), bytes(text), strlen(text), CURRENT_YEAR, answer,
                        SHEET_READ_ANSWER) != SHEET_ACCEPTED)
        return;
    printf("%s reads %s in the second edition:\n", pattern, text);
    show_value("year", answer, SHEET_YEAR);
    show_value("month", answer, SHEET_MONTH);
}

static void check_in_the_second_edition(const char *pattern) {
    int64_t answer[SHEET_CHECK_ANSWER];
    if (sheet_check_with(SHEET_SECOND_EDITION, bytes(pattern), strlen(pattern), CURRENT_YEAR, answer, SHEET_CHECK_ANSWER) ==
            SHEET_ACCEPTED &&
        answer[0] == 1)
        printf("%s can be trusted in the second edition\n", pattern);
}

static void show_a_refusal(const char *pattern) {
    char text[4];
    int64_t answer[SHEET_WRITE_ANSWER];
    if (write_sample(pattern, text, sizeof text, answer) == SHEET_NO_ROOM)
        printf("%s has no room in %zu bytes: it needs %" PRId64 "\n", pattern, sizeof text, answer[0]);
}

typedef struct {
    int32_t year;
    uint32_t month;
    uint32_t day;
} date;

/* A date that there is. */
static int32_t number_of(date date) {
    int64_t answer[SHEET_DAY_NUMBER_ANSWER];
    sheet_day_number(date.year, date.month, date.day, answer, SHEET_DAY_NUMBER_ANSWER);
    return (int32_t)answer[0];
}

/* The number of the Monday that begins the week of a day. */
static int32_t monday_of(int32_t number) {
    int64_t day[SHEET_DAY_ANSWER];
    sheet_day(number, day, SHEET_DAY_ANSWER);
    int32_t weekday = (int32_t)day[5];
    return number - (weekday + 6) % 7;
}

/* In a chart of three weeks that begins on a Monday and has a column for each day. */
static void place_a_bar(date first, date last) {
    int32_t start = number_of(first);
    int32_t length = number_of(last) - start + 1;
    int32_t monday = monday_of(start);
    int32_t column = start - monday;
    int64_t day[SHEET_DAY_ANSWER];
    sheet_day(monday, day, SHEET_DAY_ANSWER);
    printf("a bar of %" PRId32 " days at column %" PRId32 ", in a chart from %" PRId64 "-%02" PRId64 "-%02" PRId64 " in week %" PRId64
           " on:\n  ",
           length, column, day[0], day[1], day[2], day[4]);
    for (int32_t place = 0; place < 21; place++)
        putchar(column <= place && place < column + length ? '#' : '.');
    putchar('\n');
}

static void show_a_day_that_is_not_there(int32_t year, uint32_t month, uint32_t day) {
    int64_t answer[SHEET_DAY_NUMBER_ANSWER];
    uint32_t number = sheet_day_number(year, month, day, answer, SHEET_DAY_NUMBER_ANSWER);
    if (number == SHEET_NO_SUCH_DAY)
        printf("%" PRId32 "-%02" PRIu32 "-%02" PRIu32 " is refused with %" PRIu32 ": %s\n", year, month, day, number,
               sheet_refusal_text(number));
}

static size_t bytes_of_file(const char *path, uint8_t *out, size_t room) {
    FILE *file = fopen(path, "rb");
    if (file == NULL)
        return 0;
    size_t length = fread(out, 1, room, file);
    fclose(file);
    return length;
}

/* Opens the book of a file; whether it is one. */
static int open_book(const char *path, uint8_t *book) {
    uint8_t file[4096];
    int64_t answer[SHEET_BOOK_ANSWER];
    size_t length = bytes_of_file(path, file, sizeof file);
    uint32_t number = sheet_book_read(file, length, book, SHEET_BOOK_ROW, answer, SHEET_BOOK_ANSWER);
    if (number != SHEET_ACCEPTED)
        printf("%s is refused with %" PRIu32 ": %s\n", path, number, sheet_refusal_text(number));
    return number == SHEET_ACCEPTED;
}

static void write_and_read_with_a_book(const char *path, const char *pattern) {
    uint8_t book[SHEET_BOOK_ROW];
    uint8_t text[SHEET_LONGEST_TEXT];
    int64_t wrote[SHEET_WRITE_ANSWER];
    int64_t read[SHEET_READ_ANSWER];
    if (!open_book(path, book))
        return;
    if (sheet_write_by(0, book, sizeof book, bytes(pattern), strlen(pattern), 2025, 12, 3, 337, 49, 3, 0, 0, text, sizeof text,
                       wrote, SHEET_WRITE_ANSWER) != SHEET_ACCEPTED)
        return;
    printf("%s with %s writes %.*s\n", pattern, path, (int)wrote[0], (const char *)text);
    if (sheet_read_by(SHEET_STRICT, book, sizeof book, bytes(pattern), strlen(pattern), text, (size_t)wrote[0], CURRENT_YEAR,
                      read, SHEET_READ_ANSWER) == SHEET_ACCEPTED)
        show_value("month", read, SHEET_MONTH);
}

/* An opened book whose short name of March gets a byte that is no letter can't be written. */
static void show_a_bad_name(const char *path) {
    uint8_t book[SHEET_BOOK_ROW];
    uint8_t out[SHEET_LONGEST_BOOK];
    int64_t answer[SHEET_BOOK_ANSWER];
    if (!open_book(path, book))
        return;
    book[SHEET_NAME_ROOM * (SHEET_SHORT_MONTHS + 2) + 1] = '3';
    uint32_t number = sheet_book_write(book, sizeof book, out, sizeof out, answer, SHEET_BOOK_ANSWER);
    if (number == SHEET_BOOK_NAME)
        printf("a book is refused with %" PRIu32 ": %s, name %" PRId64 "\n", number, sheet_refusal_text(number), answer[0]);
}

/* Of no more lines than there is room for. */
static void read_a_list(const char *pattern, const char *text) {
    enum { MOST = 8 };
    int32_t days[MOST], months[MOST], years[MOST];
    uint32_t codes[MOST];
    int64_t answer[SHEET_LIST_ANSWER];
    if (sheet_read_list(0, NULL, 0, bytes(pattern), strlen(pattern), bytes(text), strlen(text), CURRENT_YEAR, days, MOST,
                        months, MOST, years, MOST, codes, MOST, answer, SHEET_LIST_ANSWER) != SHEET_ACCEPTED)
        return;
    printf("%s reads a list of %" PRId64 " lines:\n", pattern, answer[0]);
    for (int64_t line = 0; line < answer[0]; line++) {
        if (codes[line] == SHEET_ACCEPTED)
            printf("  day %" PRId32 " of month %" PRId32 "\n", days[line], months[line]);
        else
            printf("  %s\n", sheet_refusal_text(codes[line]));
    }
}

/* The days of a bar, all by one pattern that is prepared once. */
static void write_days_by_a_prepared_pattern(const char *pattern, int32_t first, int32_t last) {
    uint64_t prepared[SHEET_PREPARED_ROW];
    uint8_t text[SHEET_LONGEST_TEXT];
    int64_t day[SHEET_DAY_ANSWER], answer[SHEET_WRITE_ANSWER];
    if (sheet_prepare(0, bytes(pattern), strlen(pattern), prepared, SHEET_PREPARED_ROW, answer, SHEET_PREPARE_ANSWER) !=
        SHEET_ACCEPTED)
        return;
    printf("%s, prepared, writes", pattern);
    for (int32_t number = first; number <= last; number++) {
        sheet_day(number, day, SHEET_DAY_ANSWER);
        if (sheet_prepared_write(NULL, 0, prepared, SHEET_PREPARED_ROW, (int32_t)day[0], (uint32_t)day[1], (uint32_t)day[2],
                                 (uint32_t)day[3], (uint32_t)day[4], (uint32_t)day[5], 0, 0, text, sizeof text, answer,
                                 SHEET_WRITE_ANSWER) == SHEET_ACCEPTED)
            printf(" %.*s", (int)answer[0], (const char *)text);
    }
    printf("\n");
}

/* Shows the mended pattern, what was altered of it, and that undoing gives the one that was mended. */
static void mend_a_pattern(const char *pattern) {
    uint8_t mended[SHEET_LONGEST_PATTERN], undone[SHEET_LONGEST_PATTERN];
    int64_t changes[SHEET_CHANGES_ROW], answer[SHEET_MEND_ANSWER];
    if (sheet_mend(0, bytes(pattern), strlen(pattern), CURRENT_YEAR, mended, sizeof mended, changes, SHEET_CHANGES_ROW, answer,
                   SHEET_MEND_ANSWER) != SHEET_ACCEPTED)
        return;
    size_t length = (size_t)answer[0], count = (size_t)answer[1];
    printf("%s is mended to %.*s\n", pattern, (int)length, (const char *)mended);
    for (size_t number = 0; number < count; number++) {
        const int64_t *change = changes + SHEET_CHANGE * number;
        printf("  at place %" PRId64 " there were %" PRId64 " of '%c', and are %" PRId64 "\n", change[0], change[2],
               (int)change[1], change[3]);
    }
    if (sheet_undo(mended, length, changes, SHEET_CHANGE * count, undone, sizeof undone, answer, SHEET_UNDO_ANSWER) ==
        SHEET_ACCEPTED)
        printf("  undone, it is %.*s\n", (int)answer[0], (const char *)undone);
}

/* As a crane system may send it, and as it is written; or why it is none. */
static void read_and_write_a_stamp(const char *text) {
    int64_t stamp[SHEET_RFC_READ_ANSWER], answer[SHEET_RFC_WRITE_ANSWER];
    uint8_t out[SHEET_LONGEST_STAMP];
    uint32_t number = sheet_rfc_read(bytes(text), strlen(text), stamp, SHEET_RFC_READ_ANSWER);
    if (number != SHEET_ACCEPTED) {
        printf("%s is refused with %" PRIu32 ": %s\n", text, number, sheet_refusal_text(number));
        return;
    }
    printf("%s has the offset %" PRId64 "%s\n", text, stamp[4], stamp[5] == 1 ? ", which is unknown" : "");
    if (sheet_rfc_write((int32_t)stamp[0], (uint32_t)stamp[1], (uint32_t)stamp[2], (uint64_t)stamp[3], (int32_t)stamp[4],
                        (uint32_t)stamp[5], out, sizeof out, answer, SHEET_RFC_WRITE_ANSWER) == SHEET_ACCEPTED)
        printf("  %.*s\n", (int)answer[0], (const char *)out);
}

int main(void) {
    write_and_read_back("yyyy/MM/dd");
    underline_what_is_read("d MMMM y", "3 December -12");
    show_units("w/yyyy");
    check("d/M");
    check("d/MM");
    check("d'");
    read_strictly("d/MM", "3/12");
    read_strictly("d/MM", "3-12");
    read_in_the_second_edition("d.M.yy", "3.12.71");
    check_in_the_second_edition("d/M");
    show_a_refusal("yyyy/MM/dd");
    place_a_bar((date){2026, 2, 26}, (date){2026, 3, 5});
    show_a_day_that_is_not_there(2026, 2, 29);
    write_and_read_with_a_book("books/dutch.lnb", "eeee d MMMM");
    show_a_bad_name("books/dutch.lnb");
    read_a_list("d/MM", "3/12\nsoon\n24/12");
    write_days_by_a_prepared_pattern("eee'_'dd/MM", 739672, 739676);
    mend_a_pattern("d/M/yy Hmm");
    read_and_write_a_stamp("2025-12-03t07:05:09.5+05:30");
    read_and_write_a_stamp("2025-12-03T07:05:09-00:00");
    read_and_write_a_stamp("2025-02-30T07:05:09Z");
    return 0;
}
