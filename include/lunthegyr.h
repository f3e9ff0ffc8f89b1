/* Lunthegyr: a proved string-equation engine. The calls of libengine.a for C and C++.
 *
 * Every call takes any bytes and refuses what breaks a rule. It returns minus the refusal's number, or its answer, which is 0 or
 * more. On a refusal nothing that was lent to it has changed. No pointer may be NULL, also where its length is 0, and what
 * a call may write must not overlap what it reads.
 *
 * This header is not frozen: later versions may change answers.
 */
#ifndef LUNTHEGYR_H
#define LUNTHEGYR_H

#include <stddef.h>
#include <stdint.h>

#ifdef __cplusplus
extern "C" {
#endif

/* The refusals. A call returns minus one of these, as in -TPL_MARK; which ones, and in what order, stands above each call. */
enum tpl_refusal {
    /* Of a sheet. */
    TPL_UNDER_NINE_BYTES = 1,      /* under 9 bytes */
    TPL_MARK = 2,                  /* the first three bytes are not TPL */
    TPL_VERSION = 3,               /* the version is not 1 */
    TPL_LETTER_COUNT = 4,          /* the letter count is not 1 to TPL_LETTERS_MOST */
    TPL_FIELD_COUNT = 5,           /* the field count is above TPL_FIELDS_MOST */
    TPL_PAIR_COUNT = 6,            /* the pair count is not 1 to TPL_PAIRS_MOST */
    TPL_RULE_COUNT = 7,            /* the rule count is above TPL_RULES_MOST */
    TPL_BYTE_MISSING = 8,          /* the sheet ends where a byte is needed */
    TPL_BYTES_LEFT_OVER = 9,       /* the sheet goes on after its last part */
    TPL_LETTER = 10,               /* a letter is not 33 to 126, or not above the one before it */
    TPL_LIMIT = 11,                /* a field's limit is above TPL_FIELD_PLACES */
    TPL_SYMBOL_COUNT = 12,         /* a template has more than TPL_SYMBOLS_MOST symbols */
    TPL_SYMBOL = 13,               /* a symbol is neither a letter's number nor TPL_FIELD_SYMBOL plus a field's */
    TPL_WIDTH = 14,                /* a template's letters and its fields' limits, repeats counted, are above TPL_TEXT_MOST */
    TPL_COEFFICIENT = 15,          /* a rule's coefficient is not -4 to 4 */
    /* Of a filling. */
    TPL_FILLING_SIZE = 20,         /* not TPL_FIELD_BYTES bytes per field */
    TPL_LENGTH = 21,               /* a length is above the field's limit */
    TPL_LETTER_NUMBER = 22,        /* a letter number is not below the letter count */
    TPL_PAST_THE_LENGTH = 23,      /* a place past the length is not TPL_PAST_LENGTH */
    /* Of what is asked for, and of the buffer that is lent for it. */
    TPL_PAIR_NUMBER = 24,          /* no pair has this number */
    TPL_SIDE = 25,                 /* the side is not TPL_LEFT or TPL_RIGHT */
    TPL_BUFFER_TOO_SHORT = 26,     /* the buffer is shorter than the text */
    TPL_BUFFER_BELOW_FILLING = 27, /* the buffer is shorter than TPL_FIELD_BYTES bytes per field */
    TPL_LINE_NUMBER = 28,          /* no line has this number */
    TPL_BUFFER_BELOW_LINE = 29,    /* the buffer is shorter than the line, or than the file */
    /* Of a solver's reply. */
    TPL_REPLY_SIZE = 30,           /* over TPL_REPLY_MOST bytes */
    TPL_LINE_END = 31,             /* the last line does not end */
    TPL_UNKNOWN_LINE = 32,         /* a line has no known form */
    TPL_STATUS_LINE = 33,          /* there is not just one s line, or a v line stands before it */
    TPL_ZERO = 34,                 /* there is no number 0, or a number stands after it */
    TPL_VARIABLE_NUMBER = 35,      /* a number is no variable's */
    TPL_VARIABLE_TWICE = 36,       /* a variable is given twice */
    TPL_PLACE_VALUE = 37,          /* a place of a field has not just one true value */
    TPL_LETTER_AFTER_BLANK = 38,   /* a letter stands after a blank in a field */
    TPL_NO_CLASH = 39,             /* the filling does not clash */
    /* Of a book. */
    TPL_BOOK_MARK = 40,            /* under 5 bytes, or the first three bytes are not TPB, or the version is not 1 */
    TPL_BOOK_FAULT = 41,           /* a count, letter, limit, symbol or width is out of range, or bytes are missing or left over */
    TPL_BUFFER_BELOW_LIST = 42,    /* the buffer is shorter than the list */
    /* Of the hours of a book's templates. */
    TPL_HOURS_FAULT = 43,          /* the mark is not TPH, the version not 1, a count above TPL_WINDOWS_MOST, or bytes are missing or left over */
    TPL_WINDOW = 44,               /* a window's start is not below its end, or its end is above TPL_WEEK_MINUTES */
    TPL_WINDOW_ORDER = 45          /* a window starts before the preceding one of its template ends */
};

/* A sheet has a header of 9 bytes, letters, a limit for each field, pairs of templates, and rules. A template is a row of symbols: a letter's
 * number, or TPL_FIELD_SYMBOL plus a field's number. Letters, fields, pairs and rules count from 0.
 */
#define TPL_SHEET_MOST 159   /* no accepted sheet has more bytes */
#define TPL_LETTERS_MOST 8   /* and no fewer than 1 */
#define TPL_FIELDS_MOST 6
#define TPL_PAIRS_MOST 4     /* and no fewer than 1 */
#define TPL_RULES_MOST 4
#define TPL_SYMBOLS_MOST 12  /* of one template */
#define TPL_FIELD_SYMBOL 128 /* the symbol of field 0 */

/* Reads the n bytes of a sheet. Returns 0, with the counts of letters, fields, pairs and rules in counts[0] to counts[3];
 * or minus the number of the first refusal:
 *   TPL_UNDER_NINE_BYTES, TPL_MARK, TPL_VERSION, TPL_LETTER_COUNT, TPL_FIELD_COUNT, TPL_PAIR_COUNT, TPL_RULE_COUNT in this order,
 * or else the first that is met on a walk through the bytes after the header:
 *   TPL_BYTE_MISSING; TPL_LETTER; TPL_LIMIT; TPL_SYMBOL_COUNT; TPL_SYMBOL; TPL_WIDTH (after the symbols of a pair, left, then right);
 *   TPL_COEFFICIENT
 * or else:
 *   TPL_BYTES_LEFT_OVER
 */
int64_t tpl_read(const uint8_t *sheet, size_t n, uint64_t counts[4]);

/* A filling gives each field a text. It is TPL_FIELD_BYTES bytes per field, in the order of the fields: the text's length, at most the field's
 * limit, then TPL_FIELD_PLACES places. They hold letter numbers (the first letter of the sheet is 0), and TPL_PAST_LENGTH past the length. Of a
 * sheet without fields the filling is empty.
 */
#define TPL_FIELD_PLACES 8  /* no limit is above it */
#define TPL_FIELD_BYTES 9
#define TPL_FILLING_MOST 54 /* the bytes of TPL_FIELDS_MOST fields: a buffer that is always long enough for a filling */
#define TPL_PAST_LENGTH 255

/* The sides of a pair. */
#define TPL_LEFT 0
#define TPL_RIGHT 1

/* Why a filling does not clash. tpl_check writes one of these to why[0], and to why[1] to why[4] the four numbers that stand beside it. */
enum tpl_cause {
    TPL_PAIR_DIFFERS = 1, /* the pair's number, how many letters agree, the side of the rest (TPL_LEFT or TPL_RIGHT), the rest's length */
    TPL_RULE_BROKEN = 2   /* the rule's number, 0, 0, 0 */
};
#define TPL_WHY_NUMBERS 5 /* all numbers of why */

/* Checks the m bytes of a filling. Returns TPL_CLASH: in every pair both templates spell the same text, and every rule holds. Then why is
 * unchanged. Or it returns TPL_DOES_NOT_CLASH, with all five numbers of why written. They tell the first pair whose two texts differ, as
 * TPL_PAIR_DIFFERS; or else, where in every pair the two are the same, the first rule that does not hold, as TPL_RULE_BROKEN.
 * Of two texts that differ, letters agree from the start up to the first place where they part or one of them ends. The rest is what the left text
 * has from there on, or, where the left text ends there, what the right one has; it is never empty. Of ab and acd 1 letter agrees, and the rest is b,
 * on the left; of ab and abc 2 letters agree, and the rest is c, on the right.
 * Or it returns minus the number of the first refusal, with why unchanged. The refusal is one of tpl_read's, or else:
 *   TPL_FILLING_SIZE
 * or else, of the first field that is at fault, in this order:
 *   TPL_LENGTH, TPL_LETTER_NUMBER, TPL_PAST_THE_LENGTH
 */
int64_t tpl_check(const uint8_t *sheet, size_t n, const uint8_t *filling, size_t m, uint64_t why[5]);
#define TPL_CLASH 1
#define TPL_DOES_NOT_CLASH 0 /* an answer; TPL_NO_CLASH is a refusal of tpl_reply */

/* Spells one template under a filling, in the sheet's letters, into a buffer of cap bytes. Pairs count from 0; side is TPL_LEFT or TPL_RIGHT;
 * both may be any numbers. Returns the text's length, with the text in the first bytes of the buffer and the later ones unchanged. No zero
 * byte is added. A buffer of TPL_TEXT_MOST is always long enough.
 * Or it returns minus the number of the first refusal, which is one of tpl_read's, or else, in this order:
 *   TPL_PAIR_NUMBER, TPL_SIDE, those that tpl_check gives of a filling, TPL_BUFFER_TOO_SHORT
 */
int64_t tpl_spell(const uint8_t *sheet, size_t n, uint64_t pair, uint64_t side, const uint8_t *filling, size_t m, uint8_t *text,
                  size_t cap);
#define TPL_TEXT_MOST 24

/* Searches a sheet for a filling that clashes. Returns TPL_CLASH if there is one, with the first such filling in the first TPL_FIELD_BYTES bytes per
 * field of the buffer of cap bytes and the later ones unchanged. Returns TPL_APART if there is none, with no byte changed. A buffer of
 * TPL_FILLING_MOST is always long enough. The slowest sheets that are known take some hundredths of a second.
 * The first filling is the one with the least total length of all fields; of these the one with the shorter field 0, then the shorter field 1
 * and so on; of these the one with the lower letter numbers, field by field from the left. All fields of the sheet count, also those that no
 * template has.
 * Or it returns minus the number of the first refusal, which is one of tpl_read's, or else:
 *   TPL_BUFFER_BELOW_FILLING
 */
int64_t tpl_search(const uint8_t *sheet, size_t n, uint8_t *filling, size_t cap);
#define TPL_APART 0

/* A sheet's clause file asks a SAT solver for a clash. It is text in the DIMACS CNF form: line 0 is "p cnf", the number of variables and
 * the number of clauses; then each clause is a line. Every line ends in a line feed.
 */
#define TPL_LINE_MOST 80 /* no line has more bytes, its line feed counted */

/* Counts what is in a sheet's clause file. Returns 0, with the number of variables in counts[0], the number C of clauses in counts[1], and the
 * file's size in bytes in counts[2], which is exactly the length of the lines 0 to C together; or minus the number of the first refusal, which is
 * one of tpl_read's. No line is written to find the size.
 */
int64_t tpl_count(const uint8_t *sheet, size_t n, uint64_t counts[3]);

/* Writes one line of a sheet's clause file, with its line feed, into a buffer of cap bytes. Lines count from 0 to C, the number of clauses;
 * line may be any number. Returns the line's length, with the line in the first bytes of the buffer and the later ones unchanged. No zero
 * byte is added. A buffer of TPL_LINE_MOST is always long enough.
 * Or it returns minus the number of the first refusal, which is one of tpl_read's, or else, in this order:
 *   TPL_LINE_NUMBER, TPL_BUFFER_BELOW_LINE
 */
int64_t tpl_line(const uint8_t *sheet, size_t n, uint64_t line, uint8_t *text, size_t cap);

/* Writes a sheet's whole clause file, the lines 0 to C one after the other, into a buffer of cap bytes. Returns the file's length, with the file
 * in the first bytes of the buffer and the later ones unchanged. No zero byte is added. The length is the size that tpl_count gives in
 * counts[2], so that a buffer of this size is just long enough.
 * Or it returns minus the number of the first refusal, which is one of tpl_read's, or else:
 *   TPL_BUFFER_BELOW_LINE
 */
int64_t tpl_file(const uint8_t *sheet, size_t n, uint8_t *file, size_t cap);

/* Reads the m bytes of a SAT solver's reply to a sheet's clause file, and believes none of it: what is accepted is a filling that clashes.
 * A reply is text. Lines that start with "c" are skipped; one line is "s SATISFIABLE"; the others are "v" and numbers, each after one
 * space. A number is a variable's, with a minus where the variable is false, and the last one is 0. Variables that are not listed are false.
 * Returns 0, with the filling in the first TPL_FIELD_BYTES bytes per field of the buffer of cap bytes and the later ones unchanged. A buffer of
 * TPL_FILLING_MOST is always long enough.
 * Or it returns minus the number of the first refusal, which is one of tpl_read's, or else, in this order:
 *   TPL_BUFFER_BELOW_FILLING, TPL_REPLY_SIZE
 * or else, in this order, each over the whole text:
 *   TPL_LINE_END, TPL_UNKNOWN_LINE, TPL_STATUS_LINE, TPL_ZERO, TPL_VARIABLE_NUMBER, TPL_VARIABLE_TWICE, TPL_PLACE_VALUE,
 *   TPL_LETTER_AFTER_BLANK, TPL_NO_CLASH
 */
int64_t tpl_reply(const uint8_t *sheet, size_t n, const uint8_t *reply, size_t m, uint8_t *filling, size_t cap);
#define TPL_REPLY_MOST 65536

/* A book has several templates, say all of a shop, and asks of every two of them whether they can clash. It is the mark TPB, the version 1 in two
 * bytes, the letter count and the letters, the template count, and the templates. A template is its field count, a limit for each of its fields,
 * its symbol count and its symbols: a letter's number, or TPL_FIELD_SYMBOL plus the number of one of its own fields. Each template has fields of its
 * own. What is so on a sheet is so here: 1 to TPL_LETTERS_MOST letters, from 33 to 126 and rising, limits up to TPL_FIELD_PLACES, at most
 * TPL_SYMBOLS_MOST symbols, and a width of at most TPL_TEXT_MOST. Templates and rules, like pairs, count from 0, and so do the fields of a template.
 */
#define TPL_BOOK_MOST 287          /* no accepted book has more bytes */
#define TPL_TEMPLATES_MOST 16      /* and no fewer than 1 */
#define TPL_TEMPLATE_FIELDS_MOST 3 /* of one template */
#define TPL_LIST_MOST 240          /* the bytes of the longest list: a buffer that is always long enough for one */

/* Lists which templates of a book clash, the book being n bytes. Of templates i and j, i below j, it asks the sheet with the letters of the book,
 * the fields of i and then those of j, one pair of templates, i on the left and j on the right, and no rule: they clash if that sheet has a
 * filling that clashes. Returns the number of pairs of templates that clash. Each is listed once, two bytes i and j, by i and then by j, in the first
 * bytes of the buffer of cap bytes, and the later ones are unchanged. A buffer of TPL_LIST_MOST is always long enough; an empty list fits an
 * empty buffer. A dozen everyday templates take less than a thousandth of a second; the slowest books that are known, of 16, less than one second.
 * Or it returns minus the number of the first refusal, in this order:
 *   TPL_BOOK_MARK, TPL_BOOK_FAULT, TPL_BUFFER_BELOW_LIST
 */
int64_t tpl_book(const uint8_t *book, size_t n, uint8_t *list, size_t cap);

/* An hours file says when each template of a book is sent. It is the mark TPH, the version 1 in two bytes, and for each template of the book, in the
 * book's order, a count of windows, 0 to TPL_WINDOWS_MOST, and the windows. A window is two minutes of the week, each in two bytes, the high byte first:
 * its start, which is in it, and its end, which is not. Minutes count from 0, which is Monday 00:00, and the end of a window is at most TPL_WEEK_MINUTES,
 * which is Sunday 24:00; a window across Sunday midnight is written as two. The windows of a template are in order: none starts before the preceding one
 * ends, and it may start where that ends. A template without windows is never sent.
 */
#define TPL_HOURS_MOST 277     /* no accepted hours file has more bytes */
#define TPL_WINDOWS_MOST 4     /* of one template */
#define TPL_WEEK_MINUTES 10080

/* Lists which templates of a book clash and share a minute, the book being n bytes and its hours m bytes. Two templates share a minute if it is in a
 * window of the one and in a window of the other; a window that ends where another starts shares none with it. Returns the number of pairs of templates that
 * clash, as tpl_book finds it, and share a minute. They are listed as tpl_book lists pairs: each once, two bytes i and j, by i and then by j, in
 * the first bytes of the buffer of cap bytes, and the later ones are unchanged. A buffer of TPL_LIST_MOST is always long enough; an empty list fits an
 * empty buffer. Two templates that clash and are not listed CAN spell the same text: it is their hours alone that
 * keep them from it.
 * Or it returns minus the number of the first refusal, in this order:
 *   TPL_BOOK_MARK, TPL_BOOK_FAULT, TPL_HOURS_FAULT
 * or else, of the first window that is at fault, template by template, in this order:
 *   TPL_WINDOW, TPL_WINDOW_ORDER
 * or else:
 *   TPL_BUFFER_BELOW_LIST
 */
int64_t tpl_book_hours(const uint8_t *book, size_t n, const uint8_t *hours, size_t m, uint8_t *list, size_t cap);

#ifdef __cplusplus
}
#endif

#endif
