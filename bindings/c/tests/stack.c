/* Measures how much of the stack the functions take, and holds it to what the header says. Each is called on a stack of its own
 * that was painted before: what is no longer painted was used. */
#define _XOPEN_SOURCE 600
#include "sheet.h"

#include <stdbool.h>
#include <stdio.h>
#include <string.h>
#include <ucontext.h>

#define STACK (256 * 1024)
#define PAINT 0xa5
#define MOST_COUNT 12
#define LINES 4

static const char SYMBOLS[] = "GyqMwdDeabhKHkmsnXx/'";

/* What the calls are lent. */
static uint8_t pattern[SHEET_LONGEST_PATTERN];
static uint8_t text[SHEET_LONGEST_TEXT];
static int64_t answer[SHEET_LINE_ANSWER];
static int64_t parts[SHEET_SPLIT_PARTS];
static int64_t units[SHEET_UNITS_ROW];
static int64_t changes[SHEET_CHANGES_ROW];
static uint8_t book[SHEET_BOOK_ROW];
static uint8_t file[SHEET_LONGEST_BOOK];
static int32_t days_read[LINES], months_read[LINES], years_read[LINES];
static uint32_t codes_read[LINES];
static uint64_t prepared[SHEET_PREPARED_ROW];

/* Calls a function by the first bytes of the pattern. */
typedef void function(size_t length);

static uint32_t write_into(size_t length, size_t room) {
    return sheet_write(pattern, length, -5879611, 9, 30, 366, 53, 3, UINT64_C(43200000000000), -86399, text, room, answer,
                       SHEET_WRITE_ANSWER);
}

static void write_with_room(size_t length) {
    write_into(length, SHEET_LONGEST_TEXT);
}

/* One byte less than the text has, so that all of it is measured. */
static void write_without_room(size_t length) {
    if (write_into(length, 0) == SHEET_NO_ROOM)
        write_into(length, (size_t)answer[0] - 1);
}

static void write_and_read(size_t length) {
    if (write_into(length, SHEET_LONGEST_TEXT) == SHEET_ACCEPTED)
        sheet_read(pattern, length, text, (size_t)answer[0], 2025, answer, SHEET_READ_ANSWER);
}

/* With all choices. */
static void write_and_read_with(size_t length) {
    if (write_into(length, SHEET_LONGEST_TEXT) != SHEET_ACCEPTED)
        return;
    size_t written = (size_t)answer[0];
    for (uint32_t choices = 0; choices <= SHEET_DATE_PAIR + SHEET_STRICT + SHEET_SECOND_EDITION; choices++)
        sheet_read_with(choices, pattern, length, text, written, 2025, answer, SHEET_READ_ANSWER);
}

/* Names of as many letters as they may have, which differ in the last alone where they must. */
static void lay_longest_names(void) {
    const size_t firsts[] = {SHEET_WIDE_MONTHS,         SHEET_SHORT_MONTHS,    SHEET_WIDE_WEEKDAYS, SHEET_SHORT_WEEKDAYS,
                             SHEET_TWO_LETTER_WEEKDAYS, SHEET_NARROW_WEEKDAYS, SHEET_NARROW_MONTHS, SHEET_BOOK_ROOMS};
    const uint8_t lengths[] = {20, 20, 20, 3, 2, 1, 1};
    for (size_t list = 0; list < sizeof lengths; list++) {
        for (size_t name = firsts[list]; name < firsts[list + 1]; name++) {
            uint8_t *room = book + SHEET_NAME_ROOM * name;
            memset(room, 'a', SHEET_NAME_ROOM);
            room[0] = lengths[list];
            room[lengths[list]] = (uint8_t)('a' + name - firsts[list]);
        }
    }
}

static uint32_t write_with_book(uint32_t choices, size_t length, size_t room) {
    return sheet_write_by(choices, book, sizeof book, pattern, length, -5879611, 12, 30, 366, 53, 6, UINT64_C(43200000000000),
                          -86399, text, room, answer, SHEET_WRITE_ANSWER);
}

/* With all choices, the last names, with room and without. */
static void write_and_read_by(size_t length) {
    for (uint32_t choices = 0; choices <= SHEET_DATE_PAIR + SHEET_STRICT + SHEET_SECOND_EDITION; choices++) {
        if (write_with_book(choices, length, 0) == SHEET_NO_ROOM)
            write_with_book(choices, length, (size_t)answer[0] - 1);
        if (write_with_book(choices, length, SHEET_LONGEST_TEXT) != SHEET_ACCEPTED)
            continue;
        size_t written = (size_t)answer[0];
        sheet_read_by(choices, book, sizeof book, pattern, length, text, written, 2025, answer, SHEET_READ_ANSWER);
    }
}

/* A list of what is written, twice, and of that line by line; with all choices. */
static void lists(size_t length) {
    static uint8_t list[2 * SHEET_LONGEST_TEXT + 1];
    for (uint32_t choices = 0; choices <= SHEET_DATE_PAIR + SHEET_STRICT + SHEET_SECOND_EDITION; choices++) {
        if (write_with_book(choices, length, SHEET_LONGEST_TEXT) != SHEET_ACCEPTED)
            continue;
        size_t written = (size_t)answer[0];
        memcpy(list, text, written);
        list[written] = '\n';
        memcpy(list + written + 1, text, written);
        sheet_read_list(choices, book, sizeof book, pattern, length, list, 2 * written + 1, 2025, days_read, LINES, months_read,
                        LINES, years_read, LINES, codes_read, LINES, answer, SHEET_LIST_ANSWER);
        sheet_read_line(choices, book, sizeof book, pattern, length, list, 2 * written + 1, 0, 2025, answer, SHEET_LINE_ANSWER);
    }
}

/* Whatever the pattern is: the longest book, one byte short of it, and English. */
static void books(size_t length) {
    static uint8_t opened[SHEET_BOOK_ROW];
    (void)length;
    sheet_book_write(NULL, 0, file, sizeof file, answer, SHEET_BOOK_ANSWER);
    sheet_book_write(book, sizeof book, file, SHEET_LONGEST_BOOK - 1, answer, SHEET_BOOK_ANSWER);
    sheet_book_write(book, sizeof book, file, SHEET_LONGEST_BOOK, answer, SHEET_BOOK_ANSWER);
    sheet_book_read(file, SHEET_LONGEST_BOOK - 1, opened, sizeof opened, answer, SHEET_BOOK_ANSWER);
    sheet_book_read(file, SHEET_LONGEST_BOOK, opened, sizeof opened, answer, SHEET_BOOK_ANSWER);
}

static void split(size_t length) {
    sheet_split(pattern, length, answer, SHEET_SPLIT_ANSWER, parts, SHEET_SPLIT_PARTS);
}

static void tell_units(size_t length) {
    sheet_units(pattern, length, answer, SHEET_UNITS_ANSWER, units, SHEET_UNITS_ROW);
}

static void check(size_t length) {
    sheet_check(pattern, length, 2025, answer, SHEET_CHECK_ANSWER);
    sheet_check_with(SHEET_SECOND_EDITION, pattern, length, 2025, answer, SHEET_CHECK_ANSWER);
}

static uint32_t write_prepared(size_t room) {
    return sheet_prepared_write(book, sizeof book, prepared, SHEET_PREPARED_ROW, -5879611, 12, 30, 366, 53, 6,
                                UINT64_C(43200000000000), -86399, text, room, answer, SHEET_WRITE_ANSWER);
}

/* With one pair: written with room and without, and with all choices read, also as a list, and checked. */
static void use_prepared(void) {
    if (write_prepared(0) == SHEET_NO_ROOM)
        write_prepared((size_t)answer[0] - 1);
    if (write_prepared(SHEET_LONGEST_TEXT) != SHEET_ACCEPTED)
        return;
    size_t written = (size_t)answer[0];
    for (uint32_t choices = 0; choices <= SHEET_STRICT + SHEET_SECOND_EDITION; choices += SHEET_STRICT) {
        sheet_prepared_read(choices, book, sizeof book, prepared, SHEET_PREPARED_ROW, text, written, 2025, answer,
                            SHEET_READ_ANSWER);
        sheet_prepared_read_list(choices, book, sizeof book, prepared, SHEET_PREPARED_ROW, text, written, 2025, days_read, LINES,
                                 months_read, LINES, years_read, LINES, codes_read, LINES, answer, SHEET_LIST_ANSWER);
        sheet_prepared_check(choices, prepared, SHEET_PREPARED_ROW, 2025, answer, SHEET_CHECK_ANSWER);
    }
}

static void prepare(size_t length) {
    for (uint32_t pair = 0; pair <= SHEET_DATE_PAIR; pair++)
        sheet_prepare(pair, pattern, length, prepared, SHEET_PREPARED_ROW, answer, SHEET_PREPARE_ANSWER);
}

static void prepare_and_use(size_t length) {
    for (uint32_t pair = 0; pair <= SHEET_DATE_PAIR; pair++) {
        sheet_prepare(pair, pattern, length, prepared, SHEET_PREPARED_ROW, answer, SHEET_PREPARE_ANSWER);
        use_prepared();
    }
}

/* In both editions, with room and without, and undone where it is mended. */
static void mend(size_t length) {
    static uint8_t mended[SHEET_LONGEST_PATTERN];
    for (uint32_t choices = 0; choices <= SHEET_SECOND_EDITION; choices += SHEET_SECOND_EDITION) {
        sheet_mend(choices, pattern, length, 2025, NULL, 0, changes, SHEET_CHANGES_ROW, answer, SHEET_MEND_ANSWER);
        if (sheet_mend(choices, pattern, length, 2025, mended, sizeof mended, changes, SHEET_CHANGES_ROW, answer,
                       SHEET_MEND_ANSWER) == SHEET_ACCEPTED)
            sheet_undo(mended, (size_t)answer[0], changes, SHEET_CHANGE * (size_t)answer[1], text, sizeof text, answer,
                       SHEET_UNDO_ANSWER);
    }
}

static void parse_offset(size_t length) {
    sheet_parse_offset(pattern, length, answer, SHEET_OFFSET_ANSWER);
    sheet_parse_offset((const uint8_t *)"+05:30", 6, answer, SHEET_OFFSET_ANSWER);
    sheet_was_read(answer[1], SHEET_OFFSET);
}

/* At the ends of what they take; the length is one more number. */
static void days(size_t length) {
    const int32_t numbers[] = {INT32_MIN, -1, 0, INT32_MAX, (int32_t)length};
    for (size_t place = 0; place < sizeof numbers / sizeof *numbers; place++) {
        sheet_day(numbers[place], answer, SHEET_DAY_ANSWER);
        sheet_day_number((int32_t)answer[0], (uint32_t)answer[1], (uint32_t)answer[2], answer, SHEET_DAY_NUMBER_ANSWER);
    }
    sheet_day_number(0, 1, 1, answer, SHEET_DAY_NUMBER_ANSWER);
    sheet_day_number(5879611, 12, 31, answer, SHEET_DAY_NUMBER_ANSWER);
}

/* At the ends of what they take, and of bytes that are none. */
static void stamps(size_t length) {
    sheet_rfc_read(pattern, length, answer, SHEET_RFC_READ_ANSWER);
    for (size_t room = 0; room <= SHEET_LONGEST_STAMP; room++)
        sheet_rfc_write(9999, 12, 31, UINT64_C(86399999999999), -86340, 0, text, room, answer, SHEET_RFC_WRITE_ANSWER);
    sheet_rfc_read(text, SHEET_LONGEST_STAMP, answer, SHEET_RFC_READ_ANSWER);
    sheet_rfc_write(1, 1, 1, 0, 0, 1, text, sizeof text, answer, SHEET_RFC_WRITE_ANSWER);
    sheet_rfc_write(2025, 2, 29, 0, 0, 0, text, sizeof text, answer, SHEET_RFC_WRITE_ANSWER);
}

static function *called;

/* By every symbol at counts 1 to 12, alone and again and again with a slash between, and by the longest run of it. */
static void by_all_patterns(void) {
    for (size_t symbol = 0; symbol + 1 < sizeof SYMBOLS; symbol++) {
        for (size_t count = 1; count <= MOST_COUNT; count++) {
            for (size_t place = 0; place < sizeof pattern; place++)
                pattern[place] = (uint8_t)(place % (count + 1) == count ? '/' : SYMBOLS[symbol]);
            called(count);
            called(sizeof pattern);
        }
        memset(pattern, SYMBOLS[symbol], sizeof pattern);
        called(sizeof pattern);
    }
}

static size_t used_by_all_patterns(void) {
    static _Alignas(4096) uint8_t stack[STACK];
    ucontext_t back, there;
    memset(stack, PAINT, sizeof stack);
    if (getcontext(&there) != 0)
        return STACK;
    there.uc_stack.ss_sp = stack;
    there.uc_stack.ss_size = sizeof stack;
    there.uc_link = &back;
    makecontext(&there, by_all_patterns, 0);
    if (swapcontext(&back, &there) != 0)
        return STACK;
    size_t painted = 0;
    while (painted < sizeof stack && stack[painted] == PAINT)
        painted++;
    return sizeof stack - painted;
}

static bool holds(const char *name, function *function, size_t most) {
    called = function;
    /* First on this stack: what a linker does at the first call is not counted. */
    by_all_patterns();
    size_t used = used_by_all_patterns();
    bool held = used <= most;
    printf("%-24s %5zu bytes of stack%s\n", name, used, held ? "" : ", more than the header says");
    return held;
}

int main(void) {
    lay_longest_names();
    bool all = holds("write, enough room", write_with_room, SHEET_MOST_STACK);
    all &= holds("write, too little room", write_without_room, SHEET_MOST_STACK);
    all &= holds("write and read", write_and_read, SHEET_MOST_STACK);
    all &= holds("write and read with", write_and_read_with, SHEET_MOST_STACK);
    all &= holds("write and read by", write_and_read_by, SHEET_MOST_STACK);
    all &= holds("read_list, read_line", lists, SHEET_MOST_STACK);
    all &= holds("book_read, book_write", books, SHEET_MOST_STACK);
    all &= holds("split", split, SHEET_MOST_STACK);
    all &= holds("units", tell_units, SHEET_MOST_STACK);
    all &= holds("check", check, SHEET_MOST_STACK);
    all &= holds("prepare", prepare, SHEET_MOST_STACK);
    all &= holds("prepare, and by prepared", prepare_and_use, SHEET_MOST_STACK);
    all &= holds("mend, undo", mend, SHEET_MEND_STACK);
    all &= holds("parse_offset, was_read", parse_offset, SHEET_MOST_STACK);
    all &= holds("day, day_number", days, SHEET_MOST_STACK);
    all &= holds("rfc_read, rfc_write", stamps, SHEET_MOST_STACK);
    return all ? 0 : 1;
}
