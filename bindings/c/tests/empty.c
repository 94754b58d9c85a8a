/* A null pointer with the length 0 is an empty slice: every function is lent one at each of its places. A length that no memory has is
 * refused before a byte is looked at. What does not hold is printed. */
#include "sheet.h"

#include <stdbool.h>
#include <stdio.h>

#define MARK (-77)

/* How many bytes the book of the English names has. */
#define ENGLISH 283

typedef uint32_t writer(const uint8_t *, size_t, int32_t, uint32_t, uint32_t, uint32_t, uint32_t, uint32_t, uint64_t, int32_t,
                        uint8_t *, size_t, int64_t *, size_t);
typedef uint32_t reader(const uint8_t *, size_t, const uint8_t *, size_t, int32_t, int64_t *, size_t);

static const uint8_t PATTERN[] = {'d', 'd'};
static const uint8_t TEXT[] = {'0', '3'};
static const uint8_t MONTH[] = {'M', 'M', 'M', 'M'};
static const uint8_t NEWLINE[] = {'\n'};
static const uint8_t QUOTE[] = {'\''};
static uint8_t out[4];
static int64_t answer[SHEET_LINE_ANSWER];
static int64_t parts[SHEET_SPLIT_PARTS];
static int64_t units[SHEET_UNITS_ROW];
static int64_t changes[SHEET_CHANGES_ROW];
static uint8_t book[SHEET_BOOK_ROW];
static uint8_t written[SHEET_LONGEST_BOOK];
static uint64_t prepared[SHEET_PREPARED_ROW];
static bool all = true;

/* What a call has to return, and the first two entries of its row. */
#define GIVES(call, ...) gives(#call, call, __VA_ARGS__)

static void gives(const char *call, uint32_t returned, uint32_t number, int64_t first, int64_t second) {
    if (returned != number || answer[0] != first || answer[1] != second) {
        printf("empty: not as it should be: %s\n", call);
        all = false;
    }
    answer[0] = answer[1] = MARK;
}

static uint32_t write_by(writer *writer, const uint8_t *pattern, size_t pattern_len, uint8_t *to, size_t to_len, int64_t *row,
                         size_t row_len) {
    return writer(pattern, pattern_len, 2025, 12, 3, 337, 49, 3, 0, 0, to, to_len, row, row_len);
}

static void by_writer(writer *writer) {
    GIVES(write_by(writer, NULL, 0, out, 4, answer, 2), SHEET_ACCEPTED, 0, 0);
    GIVES(write_by(writer, NULL, 0, NULL, 0, answer, 2), SHEET_ACCEPTED, 0, 0);
    GIVES(write_by(writer, PATTERN, 2, NULL, 0, answer, 2), SHEET_NO_ROOM, 2, 0);
    GIVES(write_by(writer, PATTERN, 2, out, 4, NULL, 0), SHEET_ROW_TOO_SMALL, MARK, MARK);
    GIVES(write_by(writer, NULL, 0, NULL, 0, NULL, 0), SHEET_ROW_TOO_SMALL, MARK, MARK);
}

static void by_reader(reader *reader) {
    GIVES(reader(NULL, 0, TEXT, 2, 2025, answer, SHEET_READ_ANSWER), SHEET_ACCEPTED, 0, 0);
    GIVES(reader(NULL, 0, NULL, 0, 2025, answer, SHEET_READ_ANSWER), SHEET_ACCEPTED, 0, 0);
    GIVES(reader(PATTERN, 2, NULL, 0, 2025, answer, SHEET_READ_ANSWER), SHEET_TOO_FEW, 0, 0);
    GIVES(reader(PATTERN, 2, TEXT, 2, 2025, NULL, 0), SHEET_ROW_TOO_SMALL, MARK, MARK);
    GIVES(reader(NULL, 0, NULL, 0, 2025, NULL, 0), SHEET_ROW_TOO_SMALL, MARK, MARK);
}

static uint32_t read_with(uint32_t choices, const uint8_t *pattern, size_t pattern_len, const uint8_t *text, size_t text_len,
                          int64_t *row, size_t row_len) {
    return sheet_read_with(choices, pattern, pattern_len, text, text_len, 2025, row, row_len);
}

static void with_choices(uint32_t choices) {
    GIVES(read_with(choices, NULL, 0, NULL, 0, answer, SHEET_READ_ANSWER), SHEET_ACCEPTED, 0, 0);
    GIVES(read_with(choices, PATTERN, 2, NULL, 0, answer, SHEET_READ_ANSWER), SHEET_TOO_FEW, 0, 0);
    GIVES(read_with(choices, PATTERN, 2, TEXT, 2, NULL, 0), SHEET_ROW_TOO_SMALL, MARK, MARK);
    GIVES(read_with(choices, NULL, 0, NULL, 0, NULL, 0), SHEET_ROW_TOO_SMALL, MARK, MARK);
}

static void by_choices(void) {
    for (uint32_t choices = 0; choices <= SHEET_DATE_PAIR + SHEET_STRICT + SHEET_SECOND_EDITION; choices++)
        with_choices(choices);
    GIVES(read_with(SHEET_DATE_PAIR, NULL, 0, TEXT, 2, answer, SHEET_READ_ANSWER), SHEET_ACCEPTED, 0, 0);
    GIVES(read_with(SHEET_STRICT, NULL, 0, TEXT, 2, answer, SHEET_READ_ANSWER), SHEET_TEXT_LEFT, 0, 0);
    GIVES(read_with(8, NULL, 0, NULL, 0, NULL, 0), SHEET_NO_SUCH_CHOICE, MARK, MARK);
}

static uint32_t write_with_book(uint32_t choices, const uint8_t *pattern, size_t pattern_len, uint8_t *to, size_t to_len,
                                int64_t *row, size_t row_len) {
    return sheet_write_by(choices, NULL, 0, pattern, pattern_len, 2025, 12, 3, 337, 49, 3, 0, 0, to, to_len, row, row_len);
}

static uint32_t read_with_book(uint32_t choices, const uint8_t *pattern, size_t pattern_len, const uint8_t *text,
                               size_t text_len, int64_t *row, size_t row_len) {
    return sheet_read_by(choices, NULL, 0, pattern, pattern_len, text, text_len, 2025, row, row_len);
}

/* An empty book stands for the English names. */
static void with_an_empty_book(uint32_t choices) {
    GIVES(write_with_book(choices, NULL, 0, NULL, 0, answer, 2), SHEET_ACCEPTED, 0, 0);
    GIVES(write_with_book(choices, PATTERN, 2, NULL, 0, answer, 2), SHEET_NO_ROOM, 2, 0);
    GIVES(write_with_book(choices, MONTH, 4, NULL, 0, answer, 2), SHEET_NO_ROOM, 8, 0);
    GIVES(write_with_book(choices, PATTERN, 2, out, 4, NULL, 0), SHEET_ROW_TOO_SMALL, MARK, MARK);
    GIVES(read_with_book(choices, NULL, 0, NULL, 0, answer, SHEET_READ_ANSWER), SHEET_ACCEPTED, 0, 0);
    GIVES(read_with_book(choices, PATTERN, 2, NULL, 0, answer, SHEET_READ_ANSWER), SHEET_TOO_FEW, 0, 0);
    GIVES(read_with_book(choices, PATTERN, 2, TEXT, 2, NULL, 0), SHEET_ROW_TOO_SMALL, MARK, MARK);
}

static void by_books(void) {
    for (uint32_t choices = 0; choices <= SHEET_DATE_PAIR + SHEET_STRICT + SHEET_SECOND_EDITION; choices++)
        with_an_empty_book(choices);
    GIVES(write_with_book(8, NULL, 0, NULL, 0, NULL, 0), SHEET_NO_SUCH_CHOICE, MARK, MARK);
    GIVES(read_with_book(8, NULL, 0, NULL, 0, NULL, 0), SHEET_NO_SUCH_CHOICE, MARK, MARK);
    GIVES(sheet_write_by(0, book, 1, NULL, 0, 2025, 12, 3, 337, 49, 3, 0, 0, NULL, 0, NULL, 0), SHEET_NO_BOOK, MARK, MARK);
    GIVES(sheet_read_by(0, book, 1, NULL, 0, NULL, 0, 2025, NULL, 0), SHEET_NO_BOOK, MARK, MARK);
    GIVES(sheet_book_read(NULL, 0, book, SHEET_BOOK_ROW, answer, 2), SHEET_BOOK_MARK, 0, 0);
    GIVES(sheet_book_read(NULL, 0, NULL, 0, answer, 2), SHEET_BOOK_MARK, 0, 0);
    GIVES(sheet_book_read(NULL, 0, NULL, 0, NULL, 0), SHEET_ROW_TOO_SMALL, MARK, MARK);
    GIVES(sheet_book_write(NULL, 0, NULL, 0, NULL, 0), SHEET_ROW_TOO_SMALL, MARK, MARK);
    GIVES(sheet_book_write(book, 1, NULL, 0, NULL, 0), SHEET_NO_BOOK, MARK, MARK);
    GIVES(sheet_book_write(NULL, 0, NULL, 0, answer, 2), SHEET_NO_ROOM, ENGLISH, 0);
    GIVES(sheet_book_write(NULL, 0, written, SHEET_LONGEST_BOOK, answer, 2), SHEET_ACCEPTED, ENGLISH, 0);
    GIVES(sheet_book_read(written, ENGLISH, NULL, 0, answer, 2), SHEET_NO_ROOM, SHEET_BOOK_ROW, 0);
    GIVES(sheet_book_read(written, ENGLISH, book, SHEET_BOOK_ROW, answer, 2), SHEET_ACCEPTED, SHEET_BOOK_ROW, 0);
    GIVES(sheet_book_write(book, SHEET_BOOK_ROW, NULL, 0, answer, 2), SHEET_NO_ROOM, ENGLISH, 0);
}

static uint32_t read_list(const uint8_t *pattern, size_t pattern_len, const uint8_t *text, size_t text_len, int64_t *row,
                          size_t row_len) {
    return sheet_read_list(0, NULL, 0, pattern, pattern_len, text, text_len, 2025, NULL, 0, NULL, 0, NULL, 0, NULL, 0, row,
                           row_len);
}

static uint32_t read_line(const uint8_t *text, size_t text_len, int64_t *row, size_t row_len) {
    return sheet_read_line(0, NULL, 0, NULL, 0, text, text_len, 0, 2025, row, row_len);
}

/* An empty text has no line, so that rows without an entry are long enough. */
static void by_lists(void) {
    GIVES(read_list(NULL, 0, NULL, 0, answer, 2), SHEET_ACCEPTED, 0, 0);
    GIVES(read_list(PATTERN, 2, NULL, 0, answer, 2), SHEET_ACCEPTED, 0, 0);
    GIVES(read_list(PATTERN, 2, NEWLINE, 1, answer, 2), SHEET_SHORT_ROW, 0, 0);
    GIVES(read_list(PATTERN, 2, NEWLINE, 1, NULL, 0), SHEET_ROW_TOO_SMALL, MARK, MARK);
    GIVES(read_line(NULL, 0, answer, SHEET_LINE_ANSWER), SHEET_NO_LINE, MARK, MARK);
    GIVES(read_line(NEWLINE, 1, answer, SHEET_LINE_ANSWER), SHEET_ACCEPTED, 0, 0);
    GIVES(read_line(NEWLINE, 1, NULL, 0), SHEET_ROW_TOO_SMALL, MARK, MARK);
}

static uint32_t prepared_write(const uint64_t *row, size_t row_len, uint8_t *to, size_t to_len, int64_t *into, size_t into_len) {
    return sheet_prepared_write(NULL, 0, row, row_len, 2025, 12, 3, 337, 49, 3, 0, 0, to, to_len, into, into_len);
}

static uint32_t prepared_read(uint32_t choices, const uint64_t *row, size_t row_len, const uint8_t *text, size_t text_len,
                              int64_t *into, size_t into_len) {
    return sheet_prepared_read(choices, NULL, 0, row, row_len, text, text_len, 2025, into, into_len);
}

static uint32_t prepared_list(const uint64_t *row, size_t row_len, const uint8_t *text, size_t text_len, int64_t *into,
                              size_t into_len) {
    return sheet_prepared_read_list(0, NULL, 0, row, row_len, text, text_len, 2025, NULL, 0, NULL, 0, NULL, 0, NULL, 0, into,
                                    into_len);
}

static uint32_t prepare(const uint8_t *pattern, size_t pattern_len) {
    return sheet_prepare(0, pattern, pattern_len, prepared, SHEET_PREPARED_ROW, answer, SHEET_PREPARE_ANSWER);
}

/* What is lent as a prepared pattern is none, or the row for the answer is none. */
static void by_no_prepared_pattern(void) {
    GIVES(prepared_write(NULL, 0, NULL, 0, answer, 2), SHEET_NOT_PREPARED, MARK, MARK);
    GIVES(prepared_write(NULL, 0, NULL, 0, NULL, 0), SHEET_ROW_TOO_SMALL, MARK, MARK);
    GIVES(prepared_read(0, NULL, 0, NULL, 0, answer, SHEET_READ_ANSWER), SHEET_NOT_PREPARED, MARK, MARK);
    GIVES(prepared_read(0, NULL, 0, NULL, 0, NULL, 0), SHEET_ROW_TOO_SMALL, MARK, MARK);
    GIVES(prepared_read(8, NULL, 0, NULL, 0, NULL, 0), SHEET_NO_SUCH_CHOICE, MARK, MARK);
    GIVES(prepared_list(NULL, 0, NULL, 0, answer, 2), SHEET_NOT_PREPARED, MARK, MARK);
    GIVES(prepared_list(NULL, 0, NULL, 0, NULL, 0), SHEET_ROW_TOO_SMALL, MARK, MARK);
    GIVES(sheet_prepared_check(0, NULL, 0, 2025, answer, SHEET_CHECK_ANSWER), SHEET_NOT_PREPARED, MARK, MARK);
    GIVES(sheet_prepared_check(0, NULL, 0, 2025, NULL, 0), SHEET_ROW_TOO_SMALL, MARK, MARK);
    GIVES(sheet_prepared_check(SHEET_DATE_PAIR, NULL, 0, 2025, NULL, 0), SHEET_NO_SUCH_CHOICE, MARK, MARK);
    GIVES(sheet_prepare(0, PATTERN, 2, NULL, 0, answer, 2), SHEET_ROW_TOO_SMALL, MARK, MARK);
    GIVES(sheet_prepare(0, PATTERN, 2, prepared, SHEET_PREPARED_ROW, NULL, 0), SHEET_ROW_TOO_SMALL, MARK, MARK);
    GIVES(sheet_prepare(8, NULL, 0, NULL, 0, NULL, 0), SHEET_NO_SUCH_CHOICE, MARK, MARK);
}

/* An empty pattern has no steps; a prepared one is read by and written by where text and output are empty. */
static void by_prepared(void) {
    by_no_prepared_pattern();
    GIVES(prepare(NULL, 0), SHEET_ACCEPTED, 0, 0);
    GIVES(prepared_write(prepared, SHEET_PREPARED_ROW, NULL, 0, answer, 2), SHEET_ACCEPTED, 0, 0);
    GIVES(prepared_read(0, prepared, SHEET_PREPARED_ROW, NULL, 0, answer, SHEET_READ_ANSWER), SHEET_ACCEPTED, 0, 0);
    GIVES(prepared_list(prepared, SHEET_PREPARED_ROW, NULL, 0, answer, 2), SHEET_ACCEPTED, 0, 0);
    GIVES(sheet_prepared_check(0, prepared, SHEET_PREPARED_ROW, 2025, answer, SHEET_CHECK_ANSWER), SHEET_ACCEPTED, 1, 0);
    GIVES(prepare(PATTERN, 2), SHEET_ACCEPTED, 1, 0);
    GIVES(prepared_write(prepared, SHEET_PREPARED_ROW, NULL, 0, answer, 2), SHEET_NO_ROOM, 2, 0);
    GIVES(prepared_read(0, prepared, SHEET_PREPARED_ROW, NULL, 0, answer, SHEET_READ_ANSWER), SHEET_TOO_FEW, 0, 0);
    GIVES(prepared_list(prepared, SHEET_PREPARED_ROW, NEWLINE, 1, answer, 2), SHEET_SHORT_ROW, 0, 0);
    GIVES(prepared_write(prepared, SHEET_PREPARED_ROW - 1, NULL, 0, answer, 2), SHEET_NOT_PREPARED, MARK, MARK);
    GIVES(prepare(QUOTE, 1), SHEET_LONE_QUOTE, 0, 0);
    GIVES(prepared_write(prepared, SHEET_PREPARED_ROW, NULL, 0, answer, 2), SHEET_LONE_QUOTE, 0, 0);
}

/* An empty pattern needs no output, and no changes undo nothing. */
static void by_mending(void) {
    GIVES(sheet_mend(0, NULL, 0, 2025, NULL, 0, changes, SHEET_CHANGES_ROW, answer, 2), SHEET_ACCEPTED, 0, 0);
    GIVES(sheet_mend(0, PATTERN, 2, 2025, NULL, 0, changes, SHEET_CHANGES_ROW, answer, 2), SHEET_NO_ROOM, 2, 0);
    GIVES(sheet_mend(0, NULL, 0, 2025, NULL, 0, NULL, 0, answer, 2), SHEET_ROW_TOO_SMALL, MARK, MARK);
    GIVES(sheet_mend(0, NULL, 0, 2025, NULL, 0, changes, SHEET_CHANGES_ROW, NULL, 0), SHEET_ROW_TOO_SMALL, MARK, MARK);
    GIVES(sheet_mend(SHEET_DATE_PAIR, NULL, 0, 2025, NULL, 0, NULL, 0, NULL, 0), SHEET_NO_SUCH_CHOICE, MARK, MARK);
    GIVES(sheet_undo(NULL, 0, NULL, 0, NULL, 0, answer, 2), SHEET_ACCEPTED, 0, 0);
    GIVES(sheet_undo(PATTERN, 2, NULL, 0, NULL, 0, answer, 2), SHEET_NO_ROOM, 2, 0);
    GIVES(sheet_undo(NULL, 0, changes, 1, NULL, 0, answer, 2), SHEET_MISFIT, MARK, MARK);
    GIVES(sheet_undo(NULL, 0, NULL, 0, NULL, 0, NULL, 0), SHEET_ROW_TOO_SMALL, MARK, MARK);
}

static void by_stamps(void) {
    GIVES(sheet_rfc_read(NULL, 0, answer, SHEET_RFC_READ_ANSWER), SHEET_NOT_STAMP, 0, 0);
    GIVES(sheet_rfc_read(NULL, 0, NULL, 0), SHEET_ROW_TOO_SMALL, MARK, MARK);
    GIVES(sheet_rfc_write(2025, 12, 3, 0, 0, 1, NULL, 0, answer, SHEET_RFC_WRITE_ANSWER), SHEET_NO_ROOM, 25, 0);
    GIVES(sheet_rfc_write(2025, 12, 3, 0, 0, 1, NULL, 0, NULL, 0), SHEET_ROW_TOO_SMALL, MARK, MARK);
    GIVES(sheet_rfc_write(2025, 12, 3, 0, 0, 2, NULL, 0, NULL, 0), SHEET_NO_SUCH_CHOICE, MARK, MARK);
}

static void by_others(void) {
    GIVES(sheet_parse_offset(NULL, 0, answer, 2), SHEET_OFFSET_LENGTH, 0, 0);
    GIVES(sheet_parse_offset(TEXT, 2, NULL, 0), SHEET_ROW_TOO_SMALL, MARK, MARK);
    GIVES(sheet_split(NULL, 0, answer, 2, parts, SHEET_SPLIT_PARTS), SHEET_ACCEPTED, 0, 0);
    GIVES(sheet_split(PATTERN, 2, NULL, 0, parts, SHEET_SPLIT_PARTS), SHEET_ROW_TOO_SMALL, MARK, MARK);
    GIVES(sheet_split(PATTERN, 2, answer, 2, NULL, 0), SHEET_ROW_TOO_SMALL, MARK, MARK);
    GIVES(sheet_units(NULL, 0, answer, 2, units, SHEET_UNITS_ROW), SHEET_ACCEPTED, 0, 0);
    GIVES(sheet_units(PATTERN, 2, NULL, 0, units, SHEET_UNITS_ROW), SHEET_ROW_TOO_SMALL, MARK, MARK);
    GIVES(sheet_units(PATTERN, 2, answer, 2, NULL, 0), SHEET_ROW_TOO_SMALL, MARK, MARK);
    GIVES(sheet_check(NULL, 0, 2025, answer, SHEET_CHECK_ANSWER), SHEET_ACCEPTED, 1, 0);
    GIVES(sheet_check(PATTERN, 2, 2025, NULL, 0), SHEET_ROW_TOO_SMALL, MARK, MARK);
    GIVES(sheet_check_with(SHEET_SECOND_EDITION, NULL, 0, 2025, answer, SHEET_CHECK_ANSWER), SHEET_ACCEPTED, 1, 0);
    GIVES(sheet_check_with(SHEET_SECOND_EDITION, PATTERN, 2, 2025, NULL, 0), SHEET_ROW_TOO_SMALL, MARK, MARK);
    GIVES(sheet_check_with(SHEET_DATE_PAIR, NULL, 0, 2025, NULL, 0), SHEET_NO_SUCH_CHOICE, MARK, MARK);
    GIVES(sheet_day(0, answer, SHEET_DAY_ANSWER), SHEET_ACCEPTED, 1, 1);
    GIVES(sheet_day(0, NULL, 0), SHEET_ROW_TOO_SMALL, MARK, MARK);
    GIVES(sheet_day_number(1, 1, 2, answer, SHEET_DAY_NUMBER_ANSWER), SHEET_ACCEPTED, 1, 0);
    GIVES(sheet_day_number(0, 1, 1, answer, SHEET_DAY_NUMBER_ANSWER), SHEET_NO_SUCH_DAY, 0, 0);
    GIVES(sheet_day_number(0, 1, 1, NULL, 0), SHEET_ROW_TOO_SMALL, MARK, MARK);
}

/* No byte is there: what looked at one would stop the program. */
static void of_no_memory(void) {
    const uint8_t *nowhere = (const uint8_t *)1;
    size_t all_bytes = SIZE_MAX;
    GIVES(write_by(sheet_write, nowhere, all_bytes, out, 4, answer, 2), SHEET_PATTERN_TOO_LONG, -1, 0);
    GIVES(sheet_read(nowhere, all_bytes, TEXT, 2, 2025, answer, SHEET_READ_ANSWER), SHEET_PATTERN_TOO_LONG, -1, 0);
    GIVES(sheet_read(PATTERN, 2, nowhere, all_bytes, 2025, answer, SHEET_READ_ANSWER), SHEET_TEXT_TOO_LONG, -1, 0);
    GIVES(sheet_split(nowhere, all_bytes, answer, 2, parts, SHEET_SPLIT_PARTS), SHEET_PATTERN_TOO_LONG, -1, 0);
    GIVES(sheet_units(nowhere, all_bytes, answer, 2, units, SHEET_UNITS_ROW), SHEET_PATTERN_TOO_LONG, -1, 0);
    GIVES(sheet_check(nowhere, all_bytes, 2025, answer, SHEET_CHECK_ANSWER), SHEET_PATTERN_TOO_LONG, -1, 0);
    GIVES(sheet_mend(0, nowhere, all_bytes, 2025, out, 4, changes, SHEET_CHANGES_ROW, answer, 2), SHEET_PATTERN_TOO_LONG, -1, 0);
    GIVES(sheet_prepare(0, nowhere, all_bytes, prepared, SHEET_PREPARED_ROW, answer, 2), SHEET_PATTERN_TOO_LONG, -1, 0);
}

int main(void) {
    answer[0] = answer[1] = MARK;
    by_writer(sheet_write);
    by_writer(sheet_write_date);
    by_reader(sheet_read);
    by_reader(sheet_read_date);
    by_choices();
    by_books();
    by_lists();
    by_prepared();
    by_mending();
    by_stamps();
    by_others();
    of_no_memory();
    return all ? 0 : 1;
}
