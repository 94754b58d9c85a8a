/* sheet.h: dates, times and zone offsets by patterns such as yyyy/MM/dd, numbers of days, and stamps of RFC 3339, for C and C++.
 *
 * What is lent. A pattern or a text is bytes with their number and needs no zero byte at its end. Text goes to `out`, numbers
 * go to the rows `answer`, `parts`, `units` and `changes`, which are aligned as int64_t is, and those of a list to the rows `days`,
 * `months`, `years` and `codes`, aligned as int32_t is. An opened book is bytes too, and a prepared pattern a row of uint64_t, aligned
 * as those are. What a function may alter must overlap nothing else that it is lent. Nothing is kept after the return, and no memory
 * is asked for.
 *
 * Lengths. A length says how many bytes or entries stand behind the pointer, and never more, not even where the pattern or the
 * text is too long and will be refused. A null pointer with the length 0 is an empty slice. What is proved of the functions is
 * proved for every slice that memory can hold; no memory holds one of 2^63 bytes.
 *
 * Threads and stack. The functions have no state: any thread may call any of them at any time, with rows and an `out` that no
 * other thread uses meanwhile. A call takes no more than SHEET_MOST_STACK bytes of the stack; one of sheet_mend or of sheet_undo
 * takes no more than SHEET_MEND_STACK.
 *
 * What is returned. SHEET_ACCEPTED; or the number of a refusal, 1 to 30; or SHEET_ROW_TOO_SMALL where a row has fewer entries than
 * the function asks for, SHEET_NO_SUCH_CHOICE where a number stands for no choices or for no mark, SHEET_NO_BOOK where bytes are
 * lent as an opened book that are none, SHEET_NO_LINE where a text has no line at a place, SHEET_MISFIT where changes do not fit a
 * pattern, or SHEET_NOT_PREPARED where a row is lent as a prepared pattern that is none: then nothing is altered.
 *
 * What is altered. Accepted, the first entries of `answer`, as many as the function asks for, are what its comment says, and a
 * writer, sheet_mend and sheet_undo alter so many bytes of `out` as they answer, as sheet_book_read does of `book`, and
 * sheet_read_list so many entries of each of its rows. Refused, the entries of `answer` are the refusal's details, then zeros, and
 * nothing else is altered, but that sheet_prepare prepares a refused pattern too; sheet_read_line says first where the line is.
 * Nothing behind them ever is.
 *
 * Parts of a pattern and places in a pattern or a text are counted from 0. docs/SPECIFICATION.md says what a pattern means.
 */
#ifndef SHEET_H
#define SHEET_H

#include <stddef.h>
#include <stdint.h>

#ifdef __cplusplus
extern "C" {
#endif

/* The version of the library that this header belongs to. */
#define SHEET_VERSION "0.1.0"
#define SHEET_VERSION_MAJOR 0
#define SHEET_VERSION_MINOR 1
#define SHEET_VERSION_PATCH 0

/* The longest pattern and the longest text, in bytes. */
#define SHEET_LONGEST_PATTERN 256
#define SHEET_LONGEST_TEXT 2048

/* A writer needs no more than so many bytes of output for each byte of the pattern, so SHEET_LONGEST_TEXT are always enough. */
#define SHEET_BYTES_A_PATTERN_BYTE 8

/* No call takes more bytes of the stack. As measured on x86-64, a write takes 1,168 at most, a read 1,464, a list 1,848, preparing a pattern
 * and writing and reading by it 1,432, opening or writing a book 824, and the other functions 784 at most. */
#define SHEET_MOST_STACK 2048

/* But for sheet_mend and sheet_undo, which hold a list of changes, and take 8,944 as measured. */
#define SHEET_MEND_STACK 8960

/* An opened book: 64 rooms of 21 bytes, one for each name in book order. In a room stand a byte that is the length of the name,
 * the name, which has 20 letters at most, and then zeros. */
#define SHEET_BOOK_ROW 1344
#define SHEET_BOOK_ROOMS 64
#define SHEET_NAME_ROOM 21
#define SHEET_LONGEST_NAME 20

/* The longest book of version 1, in bytes: so many are always enough for sheet_book_write. */
#define SHEET_LONGEST_BOOK 743

/* A mended pattern has no more changes. The entries of each are its place, the byte, how often that stood there and how often it
 * stands there now. */
#define SHEET_MOST_CHANGES 128
#define SHEET_CHANGE 4

/* The longest stamp that is written, in bytes: so many are always enough for sheet_rfc_write. */
#define SHEET_LONGEST_STAMP 35

/* A prepared pattern, in entries of uint64_t, which are 2,072 bytes. */
#define SHEET_PREPARED_ROW 259

/* How many entries each function asks for in `answer`, sheet_split in `parts`, sheet_units in `units` and sheet_mend in
 * `changes`. */
#define SHEET_WRITE_ANSWER 2
#define SHEET_READ_ANSWER 48
#define SHEET_OFFSET_ANSWER 2
#define SHEET_SPLIT_ANSWER 2
#define SHEET_SPLIT_PARTS 768
#define SHEET_UNITS_ANSWER 2
#define SHEET_UNITS_ROW 256
#define SHEET_CHECK_ANSWER 10
#define SHEET_DAY_ANSWER 6
#define SHEET_DAY_NUMBER_ANSWER 2
#define SHEET_BOOK_ANSWER 2
#define SHEET_LIST_ANSWER 2
#define SHEET_LINE_ANSWER 51
#define SHEET_MEND_ANSWER 2
#define SHEET_CHANGES_ROW 512
#define SHEET_UNDO_ANSWER 2
#define SHEET_RFC_READ_ANSWER 6
#define SHEET_RFC_WRITE_ANSWER 2
#define SHEET_PREPARE_ANSWER 2

/* What is returned. Behind a refusal stand its details, which are the first one or two entries of `answer`. */
#define SHEET_ACCEPTED 0
#define SHEET_PATTERN_TOO_LONG 1 /* a pattern of over 256 bytes: its length */
#define SHEET_PATTERN_BYTE 2     /* a pattern byte that is 0 or above 127: place of the first */
#define SHEET_LONE_QUOTE 3       /* the last byte of the pattern is a quote that opens: its place */
#define SHEET_FIELD_RANGE 4      /* a field out of its range: the first such field, 1 to 8 in the order of the arguments */
#define SHEET_NO_ROOM 5          /* `out`, or `book`, is shorter than what goes there: bytes needed */
#define SHEET_TEXT_TOO_LONG 6    /* a text of over 2,048 bytes: its length */
#define SHEET_TEXT_BYTE 7        /* a text byte above 127: place of the first */
#define SHEET_TOO_FEW 8          /* too few bytes left in the text: part, place */
#define SHEET_NO_NUMBER 9        /* not a number: part, place */
#define SHEET_NO_NAME 10         /* no name or period fits: part, place */
#define SHEET_NO_SIGN 11         /* no sign of a zone: part, place */
#define SHEET_OFFSET_LENGTH 12   /* an offset of another length than 6: its length */
#define SHEET_OFFSET_RANGE 13    /* an offset's hour or minute is too large: 1 or 2 */
#define SHEET_CURRENT_YEAR 14    /* a current year that is not 1 to 9999, in the second edition 81 to 9999: that year */
#define SHEET_LITERAL_DIFFERS 15 /* a literal that differs, in a strict reading: part, place of the first such byte */
#define SHEET_TEXT_LEFT 16       /* text that is left over, in a strict reading: place of its first byte */
#define SHEET_NO_SUCH_DAY 17     /* a year, month or day that is not there: 0 */
#define SHEET_NO_DAY_NUMBER 18   /* a day whose number 32 signed bits can't hold: 0 */
#define SHEET_PLUS_SIGN 19       /* a plus as the first byte of a number: part, place */
#define SHEET_BOOK_MARK 20       /* a book that does not begin with LNB: 0 */
#define SHEET_BOOK_VERSION 21    /* a book of another version than 1 and 2: 0 */
#define SHEET_BOOK_LENGTH 22     /* a book that is cut short, or one of version 1 with bytes behind its names: 0 */
#define SHEET_BOOK_NAME 23       /* a name of a book that breaks a rule: the number of the first, 1 to 64 in book order */
#define SHEET_SHORT_ROW 24       /* a row for a list has fewer entries than the text has lines: 0 */
#define SHEET_NOT_STAMP 25       /* no stamp of RFC 3339: place of the first byte that can't go on, or the length */
#define SHEET_STAMP_RANGE 26     /* a stamp's month, day, hour, minute, second or offset is out of its range: 0 */
#define SHEET_LEAP_SECOND 27     /* a stamp with second 60: 0 */
#define SHEET_STAMP_YEAR 28      /* a stamp's year that is not 1 to 9999: 0 */
#define SHEET_STAMP_OFFSET 29    /* a stamp's offset that is not of whole minutes, or not 0 though it is unknown: 0 */
#define SHEET_MENDED_TOO_LONG 30 /* a mended pattern of over 256 bytes: 0 */
#define SHEET_ROW_TOO_SMALL 100  /* a row is too small: nothing is altered, and there are no details */
#define SHEET_NO_SUCH_CHOICE 101 /* a number that stands for no choices, or for no mark: likewise */
#define SHEET_NO_BOOK 102        /* bytes that are no opened book: likewise */
#define SHEET_NO_LINE 103        /* a place at or behind the end of the text, where no line is left: likewise */
#define SHEET_MISFIT 104         /* a row that holds no changes, or one that does not fit the pattern: likewise */
#define SHEET_NOT_PREPARED 105   /* a row that is no prepared pattern: never prepared, cut short, or damaged: likewise */

/* The choices of a reading, which are added: dates alone; a strict reading; the second edition. */
#define SHEET_DATE_PAIR 1
#define SHEET_STRICT 2
#define SHEET_SECOND_EDITION 4

/* The units of a reading: each one's bit in the mask and its place among the values. */
#define SHEET_YEAR 0
#define SHEET_MONTH 1
#define SHEET_DAY_OF_MONTH 2
#define SHEET_DAY_OF_YEAR 3
#define SHEET_HOUR 4
#define SHEET_PERIOD 5 /* 0 before noon, 1 from noon on */
#define SHEET_PERIOD_HOUR 6
#define SHEET_MINUTE 7
#define SHEET_SECOND 8
#define SHEET_DECIS 9
#define SHEET_CENTIS 10
#define SHEET_MILLIS 11
#define SHEET_MICROS 12
#define SHEET_NANOS 13
#define SHEET_OFFSET 14

/* In the place of a unit: a part that is a literal, and a symbol that carries nothing. */
#define SHEET_LITERAL (-1)
#define SHEET_CARRIES_NOTHING 15

/* Where in `answer` the values of a reading start, the places where their parts began, and those where they ended. */
#define SHEET_READ_VALUES 3
#define SHEET_READ_STARTS 18
#define SHEET_READ_ENDS 33

/* Where in `answer` of sheet_read_line the reading starts, as sheet_read answers it. */
#define SHEET_LINE_READING 3

/* The kinds of part: a run of equal bytes, escaped quotes, a quoted part, one that no quote closes. */
#define SHEET_RUN 0
#define SHEET_QUOTES 1
#define SHEET_QUOTED 2
#define SHEET_OPEN 3

/* The lists of a book: which room of it has each one's first name. The months begin with January, the weekdays with Sunday. */
#define SHEET_WIDE_MONTHS 0
#define SHEET_SHORT_MONTHS 12
#define SHEET_WIDE_WEEKDAYS 24
#define SHEET_SHORT_WEEKDAYS 31
#define SHEET_TWO_LETTER_WEEKDAYS 38
#define SHEET_NARROW_WEEKDAYS 45
#define SHEET_NARROW_MONTHS 52

/* Writes a record by a pattern into `out`.
 * Fields: year -5,879,611 to 5,879,611 without 0; month 1..12; day 1..31; day of the year 1..366; week 1..53; weekday 0..6 from
 * Sunday; nanoseconds of the day 0 to 86,399,999,999,999; offset -86,399 to 86,399 seconds. They need not agree.
 * Answers: the length of the text, and 0.
 * Refuses: 1, 2, 3, 4, 5, the first in this order. */
uint32_t sheet_write(const uint8_t *pattern, size_t pattern_len, int32_t year, uint32_t month, uint32_t day, uint32_t doy,
                     uint32_t week, uint32_t wday, uint64_t nanos, int32_t offset, uint8_t *out, size_t out_len,
                     int64_t *answer, size_t answer_len);

/* The same for dates alone: time symbols stand for themselves. All eight fields are checked all the same. */
uint32_t sheet_write_date(const uint8_t *pattern, size_t pattern_len, int32_t year, uint32_t month, uint32_t day, uint32_t doy,
                          uint32_t week, uint32_t wday, uint64_t nanos, int32_t offset, uint8_t *out, size_t out_len,
                          int64_t *answer, size_t answer_len);

/* Reads a text by a pattern; `year` is the current year, 1 to 9999, in whose millennium a year of two digits is.
 * Answers: how many bytes were read (a rest is allowed), the mask with bit k set where unit k was read, how many units that is,
 * the fifteen values by unit, then by unit where in the text its part began, then by unit where it ended: the place behind the
 * last byte of all that the part took, a sign included. Of a unit that was not read all three are 0, of one that several parts
 * read they are the last part's. No value is held to a range.
 * Refuses: 1, 2, 3, 14, 6, 7, the first in this order, then 8 to 11 or 19 at the first part that
 * can't be read. */
uint32_t sheet_read(const uint8_t *pattern, size_t pattern_len, const uint8_t *text, size_t text_len, int32_t year,
                    int64_t *answer, size_t answer_len);

/* The same for dates alone: time symbols stand for themselves, each a byte that is passed over. */
uint32_t sheet_read_date(const uint8_t *pattern, size_t pattern_len, const uint8_t *text, size_t text_len, int32_t year,
                         int64_t *answer, size_t answer_len);

/* Reads with choices: 0 as sheet_read, SHEET_DATE_PAIR as sheet_read_date. With SHEET_STRICT each byte of a literal has to be the
 * one that it stands for, and nothing may be left over behind the last part; symbols that pass over bytes do so all the same.
 * With SHEET_SECOND_EDITION a single M is read as a single d is, from two bytes where the second is a digit; and a year of two
 * digits without a sign is the one from `year` - 80 to `year` + 19 that ends with them.
 * For a number that is no sum of these SHEET_NO_SUCH_CHOICE is returned, whatever the size of the row.
 * Answers: as sheet_read.
 * Refuses: as sheet_read; with SHEET_STRICT also 15 at a literal, behind 8 for the whole of it, and 16 behind all parts; with
 * SHEET_SECOND_EDITION also 14 for the current years 1 to 80, whatever the pattern has. */
uint32_t sheet_read_with(uint32_t choices, const uint8_t *pattern, size_t pattern_len, const uint8_t *text, size_t text_len,
                         int32_t year, int64_t *answer, size_t answer_len);

/* Whether a unit was read: 1 or 0, by the mask of a reading, the second entry of its `answer`. For a number that is no unit 0. */
uint32_t sheet_was_read(int64_t mask, uint32_t unit);

/* Reads an offset such as +05:30, or Z, by itself.
 * Answers: the seconds, and 0.
 * Refuses: 6, 7, 12, then 19 or 9 (part 0, place) for the hour and for the minute, 13, the first in this order. */
uint32_t sheet_parse_offset(const uint8_t *text, size_t text_len, int64_t *answer, size_t answer_len);

/* Splits a pattern into its parts.
 * Answers: how many parts, and 0. In `parts` kind, start and length of each, in pattern bytes; then zeros, up to 256 parts.
 * Refuses: 1, 2. */
uint32_t sheet_split(const uint8_t *pattern, size_t pattern_len, int64_t *answer, size_t answer_len, int64_t *parts,
                     size_t parts_len);

/* Says of each part of a pattern whether it is a symbol, and which unit it carries, as an editor needs it that colours patterns.
 * Answers: how many parts, and 0. In `units`, for each part in order, the unit that it carries, SHEET_CARRIES_NOTHING for a symbol
 * that carries none, or SHEET_LITERAL; behind the last part SHEET_LITERAL, up to 256 entries. With time symbols; to the functions
 * without them a part that carries SHEET_HOUR or a later unit is a literal.
 * Refuses: 1, 2. */
uint32_t sheet_units(const uint8_t *pattern, size_t pattern_len, int64_t *answer, size_t answer_len, int64_t *units,
                     size_t units_len);

/* Opens a book: checks the bytes of a file, as books/README.md has them, and lays its names into `book`, where sheet_write_by and
 * sheet_read_by find them. It is done once for a book; what was opened is then lent to each call, and may be to several at once.
 * Answers: SHEET_BOOK_ROW, which is how many bytes of `book` it altered, and 0.
 * Refuses: 20; 22 where the bytes end before the version does; 21; 22 where they end before the names do or, in version 1, go on
 * behind them; 23; 5 where `book` has fewer than SHEET_BOOK_ROW bytes; the first in this order. */
uint32_t sheet_book_read(const uint8_t *bytes, size_t bytes_len, uint8_t *book, size_t book_len, int64_t *answer,
                         size_t answer_len);

/* Writes the bytes of a file, of version 1, with names that are laid out as in an opened book, which it checks: so a book is made.
 * An empty `book` stands for the English names. A length in it of more than 20 makes a bad name.
 * For a `book` of any other size than 0 and SHEET_BOOK_ROW bytes SHEET_NO_BOOK is returned, whatever the size of `answer`.
 * Answers: the length of the book, and 0.
 * Refuses: 23, then 5. */
uint32_t sheet_book_write(const uint8_t *book, size_t book_len, uint8_t *out, size_t out_len, int64_t *answer,
                          size_t answer_len);

/* Writes with the names of an opened book, and with choices: 0 as sheet_write, SHEET_DATE_PAIR as sheet_write_date. SHEET_STRICT
 * and SHEET_SECOND_EDITION added make no difference. An empty `book` stands for the English names.
 * For a number that is no sum of choices SHEET_NO_SUCH_CHOICE is returned, then for a `book` of any other size than 0 and
 * SHEET_BOOK_ROW bytes SHEET_NO_BOOK, both whatever the size of `answer`. A `book` of that size may hold any bytes: a length that
 * is more than a name of its list may have counts as that much, and SHEET_BYTES_A_PATTERN_BYTE are still enough.
 * Answers: as sheet_write.
 * Refuses: as sheet_write. */
uint32_t sheet_write_by(uint32_t choices, const uint8_t *book, size_t book_len, const uint8_t *pattern, size_t pattern_len,
                        int32_t year, uint32_t month, uint32_t day, uint32_t doy, uint32_t week, uint32_t wday, uint64_t nanos,
                        int32_t offset, uint8_t *out, size_t out_len, int64_t *answer, size_t answer_len);

/* Reads with the names of an opened book, and with choices: as sheet_read_with. Names are matched byte for byte, case included.
 * For other numbers and rows the same is returned as by sheet_write_by.
 * Answers: as sheet_read.
 * Refuses: as sheet_read_with. */
uint32_t sheet_read_by(uint32_t choices, const uint8_t *book, size_t book_len, const uint8_t *pattern, size_t pattern_len,
                       const uint8_t *text, size_t text_len, int32_t year, int64_t *answer, size_t answer_len);

/* Reads a list: each line of a text by one pattern, by itself, as sheet_read_by reads a text, with the same choices and books. A
 * newline, the byte 10, ends a line and is not of it; a last line without one counts; an empty text has no line. A carriage return
 * is a byte of its line like any other. A line may have SHEET_LONGEST_TEXT bytes, the text may have any number.
 * Line k, counted from 0, gets entry k of the four rows: in `codes` 0 where it was read, else the number of its refusal; in `days`,
 * `months` and `years` the values that were read, and 0 where one was not or where the line was refused. Entries behind those of
 * the last line are not altered. The rows need not have the same length.
 * SHEET_NO_SUCH_CHOICE, SHEET_NO_BOOK and SHEET_ROW_TOO_SMALL, for `answer`, come in this order and before all refusals.
 * Answers: how many lines, and 0; a line that is refused spoils no other.
 * Refuses: 1, 2, 3, 14, then 24 where one of the four rows is too short, before any entry of them is altered. */
uint32_t sheet_read_list(uint32_t choices, const uint8_t *book, size_t book_len, const uint8_t *pattern, size_t pattern_len,
                         const uint8_t *text, size_t text_len, int32_t year, int32_t *days, size_t days_len, int32_t *months,
                         size_t months_len, int32_t *years, size_t years_len, uint32_t *codes, size_t codes_len,
                         int64_t *answer, size_t answer_len);

/* Reads one line of a list, the one that starts at the place `at` of the text, for an editor that shows lines as they come. From 0
 * on, each next one at the place that is answered, it gives the lines of sheet_read_list in their order.
 * Where `at` is not below the length of the text there is no line, and SHEET_NO_LINE is returned, behind SHEET_NO_SUCH_CHOICE,
 * SHEET_NO_BOOK and SHEET_ROW_TOO_SMALL. A place inside a line is taken for the start of one.
 * Answers: where the line starts, which is `at`; where it ends, which is before its newline; where the next one starts; then, from
 * SHEET_LINE_READING on, the line's own answer as sheet_read_by gives it, with places counted from the start of the line.
 * Refuses: as sheet_read_by refuses the line; the first three entries are as above then too, the details stand behind them. */
uint32_t sheet_read_line(uint32_t choices, const uint8_t *book, size_t book_len, const uint8_t *pattern, size_t pattern_len,
                         const uint8_t *text, size_t text_len, size_t at, int32_t year, int64_t *answer, size_t answer_len);

/* Says whether a pattern can be trusted to read back what it wrote, for every record; `year` is the current year. It takes no
 * book, as its answer is the same with every book that can be opened, and the record that is shown fails with every one.
 * Answers: yes is 1, then zeros; no is 0, the first part that does not come back for some record, and the eight fields of such
 * a record, in the order of sheet_write.
 * Refuses: 1, 2, 3, 14, the first in this order. */
uint32_t sheet_check(const uint8_t *pattern, size_t pattern_len, int32_t year, int64_t *answer, size_t answer_len);

/* The same for sheet_read_with and its choices: 0 as sheet_check, SHEET_SECOND_EDITION for readings in that edition. SHEET_STRICT
 * added makes no difference. There is no check for dates alone: for a number with SHEET_DATE_PAIR in it, as for one that is no
 * sum of choices, SHEET_NO_SUCH_CHOICE is returned, whatever the size of the row.
 * Answers: as sheet_check.
 * Refuses: as sheet_check; with SHEET_SECOND_EDITION also 14 for the current years 1 to 80. */
uint32_t sheet_check_with(uint32_t choices, const uint8_t *pattern, size_t pattern_len, int32_t year, int64_t *answer,
                          size_t answer_len);

/* Prepares a pattern: lays into `row` all that has to be known of it, so that a pattern that is used again and again is split and
 * looked up once. It is done for one pair: SHEET_DATE_PAIR among the choices is for dates alone, and the other choices make no
 * difference, as they are made where the prepared pattern is used. What was prepared is then lent to each call, and may be to
 * several at once. It is the numbers of the row and nothing else: it may be copied, and kept as long as one likes by the same
 * version of the library.
 * A pattern that is refused is prepared all the same: each use of it gives that refusal, in its place in the order.
 * SHEET_NO_SUCH_CHOICE, then SHEET_ROW_TOO_SMALL, for `row` or `answer`, come before all refusals, and nothing is altered.
 * Answers: how many entries of `row` the pattern's steps take, 256 at most, and 0. All SHEET_PREPARED_ROW entries may be altered.
 * Refuses: 1, 2, 3. */
uint32_t sheet_prepare(uint32_t choices, const uint8_t *pattern, size_t pattern_len, uint64_t *row, size_t row_len,
                       int64_t *answer, size_t answer_len);

/* Writes a record by a prepared pattern, with the names of an opened book: as sheet_write_by does by the pattern and for the pair
 * that were prepared. An empty `book` stands for the English names.
 * For a `book` of any other size than 0 and SHEET_BOOK_ROW bytes SHEET_NO_BOOK is returned, then SHEET_ROW_TOO_SMALL for `answer`,
 * then SHEET_NOT_PREPARED for a `row` that is too short, that does not begin as a prepared one, or whose check word does not fit its
 * other entries. A row that has a right one though no one prepared it is answered by what its entries say, and as safely; it may write
 * any bytes, and more than SHEET_LONGEST_TEXT of them.
 * Answers: as sheet_write.
 * Refuses: as sheet_write. */
uint32_t sheet_prepared_write(const uint8_t *book, size_t book_len, const uint64_t *row, size_t row_len, int32_t year,
                              uint32_t month, uint32_t day, uint32_t doy, uint32_t week, uint32_t wday, uint64_t nanos,
                              int32_t offset, uint8_t *out, size_t out_len, int64_t *answer, size_t answer_len);

/* Reads a text by a prepared pattern: as sheet_read_by does by the pattern and for the pair that were prepared, with the strictness
 * and the edition of the choices. SHEET_DATE_PAIR added makes no difference.
 * For a number that is no sum of choices SHEET_NO_SUCH_CHOICE is returned, then the same as by sheet_prepared_write.
 * Answers: as sheet_read.
 * Refuses: as sheet_read_with. */
uint32_t sheet_prepared_read(uint32_t choices, const uint8_t *book, size_t book_len, const uint64_t *row, size_t row_len,
                             const uint8_t *text, size_t text_len, int32_t year, int64_t *answer, size_t answer_len);

/* Says whether the pattern that was prepared can be trusted to read back what it wrote: as sheet_check_with, by the same choices. The
 * check is of the pair with time symbols, whichever was prepared.
 * SHEET_NO_SUCH_CHOICE, as of sheet_check_with, SHEET_ROW_TOO_SMALL and SHEET_NOT_PREPARED come in this order.
 * Answers: as sheet_check.
 * Refuses: as sheet_check_with. */
uint32_t sheet_prepared_check(uint32_t choices, const uint64_t *row, size_t row_len, int32_t year, int64_t *answer,
                              size_t answer_len);

/* Reads a list by a prepared pattern: as sheet_read_list, each line as sheet_prepared_read reads a text, with the same choices. For
 * other numbers and rows the same is returned as by that.
 * Answers: as sheet_read_list.
 * Refuses: as sheet_read_list. */
uint32_t sheet_prepared_read_list(uint32_t choices, const uint8_t *book, size_t book_len, const uint64_t *row, size_t row_len,
                                  const uint8_t *text, size_t text_len, int32_t year, int32_t *days, size_t days_len,
                                  int32_t *months, size_t months_len, int32_t *years, size_t years_len, uint32_t *codes,
                                  size_t codes_len, int64_t *answer, size_t answer_len);

/* Mends a pattern to which sheet_check_with, by the same choices, says no, so that it says yes, and lists what was altered. One to
 * which it says yes stays as it is, and its list is empty.
 *   - In the first edition a single M becomes MM. In both, yy becomes yyyy, five or six y become seven, and a quoted part that
 *     nothing closes is closed where it ends with an escaped quote.
 *   - Behind a part that a digit from the rest of the pattern can still disturb a space is put in, behind five X or x always two.
 * The mended pattern lies in `out`. Change k, counted from 0 in the order of their places, has SHEET_CHANGE entries of `changes`:
 * its place in the mended pattern, the byte, how often that stood there, and how often it stands there now. Spaces that are put in
 * at one place are one change. The entries up to SHEET_CHANGES_ROW that no change has are zeros.
 * SHEET_NO_SUCH_CHOICE, as of sheet_check_with, and then SHEET_ROW_TOO_SMALL, for `changes` or `answer`, come before all refusals.
 * Answers: the length of the mended pattern, SHEET_LONGEST_PATTERN at most, and how many changes there are.
 * Refuses: as sheet_check_with, then 30, then 5. */
uint32_t sheet_mend(uint32_t choices, const uint8_t *pattern, size_t pattern_len, int32_t year, uint8_t *out, size_t out_len,
                    int64_t *changes, size_t changes_len, int64_t *answer, size_t answer_len);

/* Undoes changes of a pattern, for a screen that offers it: at the place of each stands in `out` what stood there before. By a
 * mended pattern and all its changes that is the pattern which was mended; by one of them alone, with that one undone.
 * `changes` holds SHEET_CHANGE entries for each change, as sheet_mend lays them, and no others: its length says how many they are.
 * SHEET_MISFIT is returned where that is no multiple of SHEET_CHANGE, or over SHEET_CHANGES_ROW; where an entry is negative, or a
 * byte over 255; and where a change does not fit the pattern. It fits where it stands behind the bytes of the one before, its byte
 * stands there as often as it says, and stood there no more often. SHEET_ROW_TOO_SMALL, for `answer`, comes before.
 * Answers: the length of what lies in `out`, and 0.
 * Refuses: 5. The pattern may have any bytes, and any number of them. */
uint32_t sheet_undo(const uint8_t *pattern, size_t pattern_len, const int64_t *changes, size_t changes_len, uint8_t *out,
                    size_t out_len, int64_t *answer, size_t answer_len);

/* The day of a number, in the Gregorian calendar, also for times before it was in use: 0 is 1 January of year 1, a Monday, and
 * negative numbers are the days before. There is no year 0: the year before 1 is -1, which is a leap year.
 * Answers: year, month 1..12, day 1..31, day of the year 1..366, week 1..53 of ISO 8601, weekday 0..6 from Sunday, as sheet_write
 * takes them. A week at an end of the year may be one of the year before or behind it.
 * Refuses: nothing. The first number is that of -5879611-06-23, the last that of 5879611-07-12. */
uint32_t sheet_day(int32_t number, int64_t *answer, size_t answer_len);

/* The number of a day; the days between two are the difference of their numbers.
 * Answers: the number, and 0.
 * Refuses: 17 where there is no such day, with year 0 and the years outside -5,879,611 to 5,879,611 among them; then 18. */
uint32_t sheet_day_number(int32_t year, uint32_t month, uint32_t day, int64_t *answer, size_t answer_len);

/* Reads a stamp: a date-time of RFC 3339 such as 2025-12-03T07:05:09.5+05:30, and nothing behind it. A small t and a small z are
 * taken. A fraction has one digit or more, of which those past nine are dropped.
 * Answers: year, month, day, nanoseconds of the day, offset in seconds, and the mark: 1 for the offset -00:00, which is 0 and says
 * that the offset is unknown, else 0.
 * Refuses: 6, 7, 25 where the text is not of that grammar, 26, 27, 28 for year 0, 17, the first in this order. */
uint32_t sheet_rfc_read(const uint8_t *text, size_t text_len, int64_t *answer, size_t answer_len);

/* Writes a stamp: with capitals, with nine digits of fraction or, where it is zero, none, and with Z for the offset 0, or -00:00
 * where `unknown` is 1. What is written reads as the same.
 * For an `unknown` that is not 0 or 1 SHEET_NO_SUCH_CHOICE is returned, whatever the size of the row.
 * Answers: the length of the text, and 0.
 * Refuses: 4 for a field out of the range that it has in sheet_write, 1 to 3, 7 or 8 as there; 28, 17, 29, 5, the first in this
 * order. */
uint32_t sheet_rfc_write(int32_t year, uint32_t month, uint32_t day, uint64_t nanos, int32_t offset, uint32_t unknown,
                         uint8_t *out, size_t out_len, int64_t *answer, size_t answer_len);

/* What a number that was returned says, in words that need no details. */
static inline const char *sheet_refusal_text(uint32_t number) {
    switch (number) {
    case SHEET_ACCEPTED: return "accepted";
    case SHEET_PATTERN_TOO_LONG: return "the pattern has over 256 bytes";
    case SHEET_PATTERN_BYTE: return "the pattern has a byte that is zero or not plain ASCII";
    case SHEET_LONE_QUOTE: return "the pattern ends with a quote that opens nothing";
    case SHEET_FIELD_RANGE: return "a field is out of its range";
    case SHEET_NO_ROOM: return "the output is too short for the text";
    case SHEET_TEXT_TOO_LONG: return "the text has over 2,048 bytes";
    case SHEET_TEXT_BYTE: return "the text has a byte that is not plain ASCII";
    case SHEET_TOO_FEW: return "the text has too few bytes left";
    case SHEET_NO_NUMBER: return "the text has no number where one should stand";
    case SHEET_NO_NAME: return "the text has no name or period that fits where one should stand";
    case SHEET_NO_SIGN: return "the text has no sign of a zone where one should stand";
    case SHEET_OFFSET_LENGTH: return "the offset has another length than +05:30, and does not begin with Z";
    case SHEET_OFFSET_RANGE: return "the hour or the minute of the offset is too large";
    case SHEET_CURRENT_YEAR: return "the current year is not from 1 to 9999, or from 81 in the second edition";
    case SHEET_LITERAL_DIFFERS: return "the text differs from the literal that should stand there";
    case SHEET_TEXT_LEFT: return "the text goes on where the pattern ends";
    case SHEET_NO_SUCH_DAY: return "there is no such day";
    case SHEET_NO_DAY_NUMBER: return "the day's number doesn't fit 32 signed bits";
    case SHEET_PLUS_SIGN: return "the text has a plus in front of a number";
    case SHEET_BOOK_MARK: return "the book does not begin with the mark LNB";
    case SHEET_BOOK_VERSION: return "the book is of another version than 1 and 2";
    case SHEET_BOOK_LENGTH: return "the book is cut short, or goes on behind its names";
    case SHEET_BOOK_NAME: return "the book has a bad name";
    case SHEET_SHORT_ROW: return "a row is shorter than the lines";
    case SHEET_NOT_STAMP: return "the text is not a stamp of RFC 3339";
    case SHEET_STAMP_RANGE: return "a number of the stamp is out of its range";
    case SHEET_LEAP_SECOND: return "the stamp has the second 60";
    case SHEET_STAMP_YEAR: return "the year of the stamp is not from 1 to 9999";
    case SHEET_STAMP_OFFSET: return "the offset of the stamp is not of whole minutes, or not 0 though it is unknown";
    case SHEET_MENDED_TOO_LONG: return "the mended pattern has over 256 bytes";
    case SHEET_ROW_TOO_SMALL: return "a row for the answer is too small";
    case SHEET_NO_SUCH_CHOICE: return "there is no such choice";
    case SHEET_NO_BOOK: return "the bytes are no opened book";
    case SHEET_NO_LINE: return "no line is left at that place";
    case SHEET_MISFIT: return "the changes do not fit the pattern";
    case SHEET_NOT_PREPARED: return "the row is no prepared pattern";
    default: return "no such number";
    }
}

#ifdef __cplusplus
}
#endif

#endif
