/* include/lunthegyr.h against the static library: each call that takes a sheet on document 01's sheet P, and those that take a book on a small
 * book and its hours, with an answer and with refusals, which change nothing that was lent; each cause why a filling does not clash, on a sheet with
 * two pairs and two rules; the header's numbers against those of documents 01 and 02; and buffers of the named sizes on the largest sheets of
 * tests/clauses.d and tests/search.d, and on a largest book with the largest hours. To be run in the repository's folder. */
#include <stdio.h>
#include <stdlib.h>
#include <string.h>
#include "lunthegyr.h"

/* P has the first 15 bytes. */
static const uint8_t sheet[16] = { 'T', 'P', 'L', 0, 1, 1, 1, 1, 0, 'A', 1, 1, 1, 128, 0, 0 };
static const uint8_t is_a[TPL_FIELD_BYTES] = { 1, 0, 255, 255, 255, 255, 255, 255, 255 };
static const uint8_t is_empty[TPL_FIELD_BYTES] = { 0, 255, 255, 255, 255, 255, 255, 255, 255 };
static const uint8_t too_long[TPL_FIELD_BYTES] = { 2, 0, 0, 255, 255, 255, 255, 255, 255 };

static int all_passed = 1;

static void expect(int holds, const char *what) {
    if (!holds) {
        printf("C header: FAILED: %s\n", what);
        all_passed = 0;
    }
}

/* The numbers of document 01 and, of books and hours, document 02. */
static const struct { int constant, number; } numbers[] = {
    { TPL_UNDER_NINE_BYTES, 1 }, { TPL_MARK, 2 }, { TPL_VERSION, 3 }, { TPL_LETTER_COUNT, 4 }, { TPL_FIELD_COUNT, 5 },
    { TPL_PAIR_COUNT, 6 }, { TPL_RULE_COUNT, 7 }, { TPL_BYTE_MISSING, 8 }, { TPL_BYTES_LEFT_OVER, 9 }, { TPL_LETTER, 10 },
    { TPL_LIMIT, 11 }, { TPL_SYMBOL_COUNT, 12 }, { TPL_SYMBOL, 13 }, { TPL_WIDTH, 14 }, { TPL_COEFFICIENT, 15 },
    { TPL_FILLING_SIZE, 20 }, { TPL_LENGTH, 21 }, { TPL_LETTER_NUMBER, 22 }, { TPL_PAST_THE_LENGTH, 23 },
    { TPL_PAIR_NUMBER, 24 }, { TPL_SIDE, 25 }, { TPL_BUFFER_TOO_SHORT, 26 },
    { TPL_BUFFER_BELOW_FILLING, 27 }, { TPL_LINE_NUMBER, 28 }, { TPL_BUFFER_BELOW_LINE, 29 },
    { TPL_REPLY_SIZE, 30 }, { TPL_LINE_END, 31 }, { TPL_UNKNOWN_LINE, 32 }, { TPL_STATUS_LINE, 33 }, { TPL_ZERO, 34 },
    { TPL_VARIABLE_NUMBER, 35 }, { TPL_VARIABLE_TWICE, 36 }, { TPL_PLACE_VALUE, 37 }, { TPL_LETTER_AFTER_BLANK, 38 },
    { TPL_NO_CLASH, 39 },
    { TPL_BOOK_MARK, 40 }, { TPL_BOOK_FAULT, 41 }, { TPL_BUFFER_BELOW_LIST, 42 },
    { TPL_HOURS_FAULT, 43 }, { TPL_WINDOW, 44 }, { TPL_WINDOW_ORDER, 45 },
    { TPL_LETTERS_MOST, 8 }, { TPL_FIELDS_MOST, 6 }, { TPL_PAIRS_MOST, 4 }, { TPL_RULES_MOST, 4 },
    { TPL_SYMBOLS_MOST, 12 }, { TPL_FIELD_SYMBOL, 128 },
    { TPL_FIELD_PLACES, 8 }, { TPL_FIELD_BYTES, 9 }, { TPL_FILLING_MOST, 9 * 6 }, { TPL_PAST_LENGTH, 255 },
    { TPL_LEFT, 0 }, { TPL_RIGHT, 1 }, { TPL_TEXT_MOST, 24 }, { TPL_LINE_MOST, 80 }, { TPL_REPLY_MOST, 65536 },
    /* The header, and then the most letters, limits, pairs and rules. */
    { TPL_SHEET_MOST, 9 + 8 + 6 + 4 * (2 + 12 + 12) + 4 * (6 + 2) },
    { TPL_TEMPLATES_MOST, 16 }, { TPL_TEMPLATE_FIELDS_MOST, 3 },
    /* Mark, version, the most letters after their count, and the most templates after theirs, each of the most fields and symbols. */
    { TPL_BOOK_MOST, 3 + 2 + 1 + 8 + 1 + 16 * (1 + 3 + 1 + 12) },
    /* Two bytes for any two of 16. */
    { TPL_LIST_MOST, 2 * (16 * 15 / 2) },
    { TPL_WINDOWS_MOST, 4 }, { TPL_WEEK_MINUTES, 7 * 24 * 60 },
    /* Mark, version, and for the most templates a count and the most windows. */
    { TPL_HOURS_MOST, 3 + 2 + 16 * (1 + 4 * 4) },
    /* These are the engine's own. */
    { TPL_CLASH, 1 }, { TPL_DOES_NOT_CLASH, 0 }, { TPL_APART, 0 },
    { TPL_PAIR_DIFFERS, 1 }, { TPL_RULE_BROKEN, 2 }, { TPL_WHY_NUMBERS, 5 }
};

static void naming(void) {
    for (size_t i = 0; i < sizeof numbers / sizeof numbers[0]; i++) {
        if (numbers[i].constant != numbers[i].number) {
            printf("C header: FAILED: a constant is %d where the documents have %d\n", numbers[i].constant, numbers[i].number);
            all_passed = 0;
        }
    }
}

static int is(const uint64_t *counts, uint64_t l, uint64_t v, uint64_t e, uint64_t r) {
    return counts[0] == l && counts[1] == v && counts[2] == e && counts[3] == r;
}

static void reading(void) {
    uint64_t counts[4] = { 5, 6, 7, 8 };
    expect(tpl_read(sheet, 16, counts) == -TPL_BYTES_LEFT_OVER, "a 16th byte on P is refused with 9");
    expect(is(counts, 5, 6, 7, 8), "a refusal leaves the counts");
    expect(tpl_read(sheet, 15, counts) == 0, "P is read");
    expect(is(counts, 1, 1, 1, 0), "P's counts are 1 1 1 0");
}

/* A cause's numbers, and one after them, which stays 96. */
#define LENT (TPL_WHY_NUMBERS + 1)

static int is_why(const uint64_t why[LENT], uint64_t cause, uint64_t number, uint64_t agreeing, uint64_t side, uint64_t rest) {
    return why[0] == cause && why[1] == number && why[2] == agreeing && why[3] == side && why[4] == rest && why[5] == 96;
}

static void checking(void) {
    uint64_t why[LENT] = { 91, 92, 93, 94, 95, 96 };
    expect(tpl_check(sheet, 15, is_a, 9, why) == TPL_CLASH, "X=A clashes in P");
    expect(is_why(why, 91, 92, 93, 94, 95), "a clash has no cause");
    expect(tpl_check(sheet, 16, is_a, 9, why) == -TPL_BYTES_LEFT_OVER, "checking reads the sheet first");
    expect(tpl_check(sheet, 15, is_a, 8, why) == -TPL_FILLING_SIZE, "eight bytes for one field are refused with 20");
    expect(tpl_check(sheet, 15, too_long, 9, why) == -TPL_LENGTH, "a length of 2 for a limit of 1 is refused with 21");
    expect(is_why(why, 91, 92, 93, 94, 95), "a refusal has no cause");
    expect(tpl_check(sheet, 15, is_empty, 9, why) == TPL_DOES_NOT_CLASH, "an empty X does not clash in P");
    expect(is_why(why, TPL_PAIR_DIFFERS, 0, 0, TPL_RIGHT, 1), "of nothing and A no letter agrees, and A is left over on the right");
}

/* The letters A and B, the fields X and Y of limit 2, and the pairs X against Y, XA against AY. By rule 0 X has at most 1 letter, and by rule 1 the two
 * have at least 1 together. */
static const uint8_t pairs_and_rules[31] = { 'T', 'P', 'L', 0, 1, 2, 2, 2, 2, 'A', 'B', 2, 2, 1, 1, 128, 129, 2, 2, 128, 0, 0, 129, 1, 0, 0, 1,
                                             255, 255, 255, 255 };

/* Texts for X and Y that do not clash there, and what is to be told of them. */
static const struct { const char *x, *y; uint64_t cause, number, agreeing, side, rest; } causes[] = {
    { "BA", "AA", TPL_PAIR_DIFFERS, 0, 0, TPL_LEFT, 2 },
    { "A", "BA", TPL_PAIR_DIFFERS, 0, 0, TPL_LEFT, 1 }, /* the left rest, though the right one is longer */
    { "AA", "AB", TPL_PAIR_DIFFERS, 0, 1, TPL_LEFT, 1 }, /* rule 0 does not hold either */
    { "AB", "A", TPL_PAIR_DIFFERS, 0, 1, TPL_LEFT, 1 },
    { "A", "AB", TPL_PAIR_DIFFERS, 0, 1, TPL_RIGHT, 1 },
    { "AB", "", TPL_PAIR_DIFFERS, 0, 0, TPL_LEFT, 2 },
    { "", "AB", TPL_PAIR_DIFFERS, 0, 0, TPL_RIGHT, 2 },
    { "B", "B", TPL_PAIR_DIFFERS, 1, 0, TPL_LEFT, 2 },
    { "AB", "AB", TPL_PAIR_DIFFERS, 1, 1, TPL_LEFT, 2 },
    { "AA", "AA", TPL_RULE_BROKEN, 0, 0, 0, 0 },
    { "", "", TPL_RULE_BROKEN, 1, 0, 0, 0 }
};

/* Gives a field a text of As and Bs. */
static void put(uint8_t *field, const char *text) {
    memset(field, TPL_PAST_LENGTH, TPL_FIELD_BYTES);
    field[0] = (uint8_t)strlen(text);
    for (size_t place = 0; text[place]; place++) {
        field[1 + place] = (uint8_t)(text[place] - 'A');
    }
}

static void telling_why(void) {
    for (size_t i = 0; i < sizeof causes / sizeof causes[0]; i++) {
        uint64_t why[LENT] = { 91, 92, 93, 94, 95, 96 };
        uint8_t filling[2 * TPL_FIELD_BYTES];
        put(filling, causes[i].x);
        put(filling + TPL_FIELD_BYTES, causes[i].y);
        expect(tpl_check(pairs_and_rules, sizeof pairs_and_rules, filling, sizeof filling, why) == TPL_DOES_NOT_CLASH,
               "texts that differ or break a rule do not clash");
        if (!is_why(why, causes[i].cause, causes[i].number, causes[i].agreeing, causes[i].side, causes[i].rest)) {
            printf("C header: FAILED: the cause of X=%s and Y=%s, or the number after it\n", causes[i].x, causes[i].y);
            all_passed = 0;
        }
    }
}

static void spelling(void) {
    uint8_t text[TPL_TEXT_MOST];
    memset(text, '.', sizeof text);
    expect(tpl_spell(sheet, 15, 1, TPL_LEFT, is_a, 9, text, sizeof text) == -TPL_PAIR_NUMBER, "pair 1 of P is refused with 24");
    expect(tpl_spell(sheet, 15, 0, UINT64_MAX, is_a, 9, text, sizeof text) == -TPL_SIDE, "a side that is not 0 or 1 is refused with 25");
    expect(tpl_spell(sheet, 15, 0, TPL_LEFT, is_a, 9, text, 0) == -TPL_BUFFER_TOO_SHORT, "a buffer of no bytes is refused with 26");
    expect(memcmp(text, "........................", sizeof text) == 0, "a refusal leaves the text");
    expect(tpl_spell(sheet, 15, 0, TPL_LEFT, is_empty, 9, text, 0) == 0, "an empty text fits in no bytes");
    expect(tpl_spell(sheet, 15, 0, TPL_RIGHT, is_empty, 9, text, 0) == -TPL_BUFFER_TOO_SHORT, "the right template is A also where X is empty");
    expect(tpl_spell(sheet, 15, 0, TPL_LEFT, is_a, 9, text, sizeof text) == 1, "X=A has length 1");
    expect(text[0] == 'A' && text[1] == '.', "X=A is spelled A, and the next byte stays");
}

/* P with limit 0, and a sheet without fields: nothing against nothing. */
static const uint8_t apart[15] = { 'T', 'P', 'L', 0, 1, 1, 1, 1, 0, 'A', 0, 1, 1, 128, 0 };
static const uint8_t no_fields[12] = { 'T', 'P', 'L', 0, 1, 1, 0, 1, 0, 'A', 0, 0 };

/* XY against YX, with the letters A and B and limits 2, where not both are empty; and its first clash, that Y is A. */
static const uint8_t several[23] = { 'T', 'P', 'L', 0, 1, 2, 2, 1, 1, 'A', 'B', 2, 2, 2, 2, 128, 129, 129, 128, 255, 255, 255, 255 };
static const uint8_t y_is_a[18] = { 0, 255, 255, 255, 255, 255, 255, 255, 255, 1, 0, 255, 255, 255, 255, 255, 255, 255 };

static void searching(void) {
    uint8_t filling[TPL_FILLING_MOST], before[TPL_FILLING_MOST];
    uint64_t why[TPL_WHY_NUMBERS];
    memset(before, '.', sizeof before);
    memcpy(filling, before, sizeof filling);
    expect(tpl_search(sheet, 16, filling, sizeof filling) == -TPL_BYTES_LEFT_OVER, "searching reads the sheet first");
    expect(tpl_search(sheet, 16, filling, 0) == -TPL_BYTES_LEFT_OVER, "9 comes before 27");
    expect(tpl_search(sheet, 15, filling, 8) == -TPL_BUFFER_BELOW_FILLING, "eight bytes for one field are refused with 27");
    expect(tpl_search(apart, 15, filling, 8) == -TPL_BUFFER_BELOW_FILLING, "27 comes before apart");
    expect(tpl_search(apart, 15, filling, sizeof filling) == TPL_APART, "P with limit 0 is apart");
    expect(tpl_search(no_fields, 12, filling, 0) == TPL_CLASH, "a sheet without fields clashes in no bytes");
    expect(memcmp(filling, before, sizeof filling) == 0, "a refusal, apart and no fields leave the search's buffer");
    expect(tpl_search(sheet, 15, filling, sizeof filling) == TPL_CLASH, "P clashes");
    expect(memcmp(filling, is_a, sizeof is_a) == 0, "its only clash is X=A");
    expect(memcmp(filling + 9, before, sizeof filling - 9) == 0, "the bytes after a clash stay");
    memcpy(filling, before, sizeof filling);
    expect(tpl_search(sheet, 15, filling, 9) == TPL_CLASH, "nine bytes are enough for it");
    expect(memcmp(filling, is_a, sizeof is_a) == 0, "the clash is again X=A");
    expect(memcmp(filling + 9, before, sizeof filling - 9) == 0, "the bytes after the buffer stay");
    expect(tpl_check(sheet, 15, filling, 9, why) == TPL_CLASH, "what is found checks as a clash");
    expect(tpl_search(several, 23, filling, sizeof filling) == TPL_CLASH, "a sheet with several clashes clashes");
    expect(memcmp(filling, y_is_a, sizeof y_is_a) == 0, "of several clashes the first is given");
}

static void counting(void) {
    uint64_t counts[4] = { 5, 6, 7, 8 };
    expect(tpl_count(sheet, 16, counts) == -TPL_BYTES_LEFT_OVER, "counting reads the sheet first");
    expect(is(counts, 5, 6, 7, 8), "a refusal leaves the clause counts");
    expect(tpl_count(sheet, 15, counts) == 0, "P's clauses are counted");
    expect(is(counts, 6, 8, 69, 8), "P has 6 variables, 8 clauses and a file of 69 bytes, and no fourth count is written");
}

/* P's clause file, line by line. */
static const char *const lines[9] = {
    "p cnf 6 8\n", "1 2 0\n", "-1 -2 0\n", "3 0\n", "-3 -2 5 0\n", "-3 2 6 0\n", "-4 -2 6 0\n", "-4 2 0\n", "-5 0\n"
};

static void writing(void) {
    uint8_t text[TPL_LINE_MOST], before[TPL_LINE_MOST];
    memset(before, '.', sizeof before);
    memcpy(text, before, sizeof text);
    expect(tpl_line(sheet, 16, 0, text, sizeof text) == -TPL_BYTES_LEFT_OVER, "writing a line reads the sheet first");
    expect(tpl_line(sheet, 15, 9, text, sizeof text) == -TPL_LINE_NUMBER, "line 9 of P is refused with 28");
    expect(tpl_line(sheet, 15, UINT64_MAX, text, 0) == -TPL_LINE_NUMBER, "28 comes before 29");
    expect(tpl_line(sheet, 15, 0, text, 9) == -TPL_BUFFER_BELOW_LINE, "nine bytes for line 0 are refused with 29");
    expect(memcmp(text, before, sizeof text) == 0, "a refusal leaves the line's buffer");
    for (uint64_t n = 0; n < 9; n++) {
        size_t length = strlen(lines[n]);
        memcpy(text, before, sizeof text);
        expect(tpl_line(sheet, 15, n, text, n % 2 ? sizeof text : length) == (int64_t)length, "a line of P has its length");
        expect(memcmp(text, lines[n], length) == 0, "a line of P is as it must be");
        expect(memcmp(text + length, before, sizeof text - length) == 0, "the bytes after a line stay");
    }
}

/* P's clause file, which is all of these lines. */
#define FILE_BYTES 69

static void filing(void) {
    uint8_t file[FILE_BYTES + 3], before[FILE_BYTES + 3];
    char due[FILE_BYTES + 1] = "";
    for (size_t n = 0; n < 9; n++) {
        strcat(due, lines[n]);
    }
    memset(before, '.', sizeof before);
    memcpy(file, before, sizeof file);
    expect(tpl_file(sheet, 16, file, sizeof file) == -TPL_BYTES_LEFT_OVER, "writing a file reads the sheet first");
    expect(tpl_file(sheet, 16, file, 0) == -TPL_BYTES_LEFT_OVER, "9 comes before 29");
    expect(tpl_file(sheet, 15, file, 0) == -TPL_BUFFER_BELOW_LINE, "no bytes for a file are refused with 29");
    expect(tpl_file(sheet, 15, file, FILE_BYTES - 1) == -TPL_BUFFER_BELOW_LINE, "68 bytes for P's file are refused with 29");
    expect(memcmp(file, before, sizeof file) == 0, "a refusal leaves the file's buffer");
    for (size_t cap = FILE_BYTES; cap <= sizeof file; cap++) {
        memcpy(file, before, sizeof file);
        expect(tpl_file(sheet, 15, file, cap) == FILE_BYTES, "P's file has 69 bytes, which are enough for it");
        expect(memcmp(file, due, FILE_BYTES) == 0, "P's file is its lines, one after the other");
        expect(memcmp(file + FILE_BYTES, before, sizeof file - FILE_BYTES) == 0, "the bytes after a file stay");
    }
}

/* Calls tpl_reply on a text. */
static int64_t reply(size_t n, const char *text, uint8_t *filling, size_t cap) {
    return tpl_reply(sheet, n, (const uint8_t *)text, strlen(text), filling, cap);
}

/* Replies that are refused, each with its number. */
static const struct { enum tpl_refusal refusal; const char *text; } refused[9] = {
    { TPL_LINE_END, "s SATISFIABLE\nv 1 0" },
    { TPL_UNKNOWN_LINE, "s UNSATISFIABLE\n" },
    { TPL_STATUS_LINE, "" },
    { TPL_ZERO, "s SATISFIABLE\nv 1\n" },
    { TPL_VARIABLE_NUMBER, "s SATISFIABLE\nv 1 7 0\n" },
    { TPL_VARIABLE_TWICE, "s SATISFIABLE\nv 1 -1 0\n" },
    { TPL_PLACE_VALUE, "s SATISFIABLE\nv 1 2 0\n" },
    { TPL_PLACE_VALUE, "s SATISFIABLE\nv 0\n" },
    { TPL_NO_CLASH, "s SATISFIABLE\nv 2 0\n" }
};

static void replying(void) {
    static const char good[] = "c\ns SATISFIABLE\nv 1 -2 3\nv -4 -5 6 0\n";
    static uint8_t large[TPL_REPLY_MOST + 1];
    uint8_t filling[TPL_FILLING_MOST], before[TPL_FILLING_MOST];
    memset(before, '.', sizeof before);
    memcpy(filling, before, sizeof filling);
    memset(large, 'c', sizeof large);
    expect(reply(16, good, filling, sizeof filling) == -TPL_BYTES_LEFT_OVER, "reading a reply reads the sheet first");
    expect(reply(15, good, filling, 8) == -TPL_BUFFER_BELOW_FILLING, "eight bytes for one field's filling are refused with 27");
    expect(tpl_reply(sheet, 15, large, TPL_REPLY_MOST + 1, filling, sizeof filling) == -TPL_REPLY_SIZE, "65,537 bytes are refused with 30");
    expect(tpl_reply(sheet, 15, large, TPL_REPLY_MOST, filling, sizeof filling) == -TPL_LINE_END, "65,536 bytes are not");
    for (size_t i = 0; i < 9; i++) {
        int64_t status = reply(15, refused[i].text, filling, sizeof filling);
        expect(status == -(int64_t)refused[i].refusal, "a faulty reply is refused with its number");
    }
    expect(memcmp(filling, before, sizeof filling) == 0, "a refusal leaves the filling's buffer");
    expect(reply(15, good, filling, sizeof filling) == 0, "a reply to P is accepted");
    expect(memcmp(filling, is_a, sizeof is_a) == 0, "its filling is X=A");
    expect(memcmp(filling + 9, before, sizeof filling - 9) == 0, "the bytes after a filling stay");
    memcpy(filling, before, sizeof filling);
    expect(reply(15, "s SATISFIABLE\nv 1 0\n", filling, 9) == 0, "the true place alone is enough, and nine bytes are");
    expect(memcmp(filling, is_a, sizeof is_a) == 0, "the filling is again X=A");
}

/* The first 21 bytes are a book: A with a field of limit 1; B; and a field of limit 2, which can spell both. */
#define BOOK_BYTES 21
static const uint8_t book[BOOK_BYTES + 1] = { 'T', 'P', 'B', 0, 1, 2, 'A', 'B', 3, 1, 1, 2, 0, 128, 0, 1, 1, 1, 2, 1, 128, 0 };

/* Books that are refused, each a change of one byte of that one. */
static const struct { enum tpl_refusal refusal; size_t offset; uint8_t byte; } damaged[9] = {
    { TPL_BOOK_MARK, 2, 'L' }, { TPL_BOOK_MARK, 3, 1 }, { TPL_BOOK_MARK, 4, 2 },
    { TPL_BOOK_FAULT, 5, TPL_LETTERS_MOST + 1 }, { TPL_BOOK_FAULT, 7, 'A' }, { TPL_BOOK_FAULT, 8, TPL_TEMPLATES_MOST + 1 },
    { TPL_BOOK_FAULT, 9, TPL_TEMPLATE_FIELDS_MOST + 1 }, { TPL_BOOK_FAULT, 10, TPL_FIELD_PLACES + 1 }, { TPL_BOOK_FAULT, 13, TPL_FIELD_SYMBOL + 1 }
};

static void listing(void) {
    static const uint8_t due[4] = { 0, 2, 1, 2 };
    uint8_t list[TPL_LIST_MOST], before[TPL_LIST_MOST], changed[BOOK_BYTES];
    memset(before, '.', sizeof before);
    memcpy(list, before, sizeof list);
    for (size_t i = 0; i < 9; i++) {
        memcpy(changed, book, BOOK_BYTES);
        changed[damaged[i].offset] = damaged[i].byte;
        expect(tpl_book(changed, BOOK_BYTES, list, sizeof list) == -(int64_t)damaged[i].refusal, "a faulty book is refused with its number");
    }
    expect(tpl_book(book, 4, list, sizeof list) == -TPL_BOOK_MARK, "four bytes are refused with 40");
    expect(tpl_book(book, 5, list, sizeof list) == -TPL_BOOK_FAULT, "five bytes are refused with 41");
    expect(tpl_book(sheet, 15, list, sizeof list) == -TPL_BOOK_MARK, "P is no book");
    expect(tpl_book(book, BOOK_BYTES - 1, list, 0) == -TPL_BOOK_FAULT, "41 comes before 42");
    expect(tpl_book(book, BOOK_BYTES + 1, list, sizeof list) == -TPL_BOOK_FAULT, "a byte left over is refused with 41");
    expect(tpl_book(book, BOOK_BYTES, list, 3) == -TPL_BUFFER_BELOW_LIST, "three bytes for two pairs are refused with 42");
    expect(memcmp(list, before, sizeof list) == 0, "a refusal leaves the list's buffer");
    expect(tpl_book(book, BOOK_BYTES, list, 4) == 2, "four bytes are enough for two pairs");
    expect(memcmp(list, due, sizeof due) == 0, "templates 0 and 2 clash, and 1 and 2");
    expect(memcmp(list + 4, before, sizeof list - 4) == 0, "the bytes after a list stay");
    memcpy(list, before, sizeof list);
    expect(tpl_book(book, BOOK_BYTES, list, sizeof list) == 2, "a longer buffer changes nothing");
    expect(memcmp(list, due, sizeof due) == 0 && memcmp(list + 4, before, sizeof list - 4) == 0, "the list is again the same");
}

/* The first 24 bytes are hours for that book: from 0 to 60 and from 60 to 300; from 300 to 10080; from 299 to 300. So 0 and 2 share minute 299, and 1
 * starts where 2 ends. */
#define HOURS_BYTES 24
static const uint8_t hours[HOURS_BYTES + 1] = { 'T', 'P', 'H', 0, 1, 2, 0, 0, 0, 60, 0, 60, 1, 44, 1, 1, 44, 39, 96, 1, 1, 43, 1, 44, 0 };

/* Hours that are refused, each a change of one byte of these. */
static const struct { enum tpl_refusal refusal; size_t offset; uint8_t byte; } damaged_hours[9] = {
    { TPL_HOURS_FAULT, 0, 'L' }, { TPL_HOURS_FAULT, 2, 'B' }, { TPL_HOURS_FAULT, 3, 1 }, { TPL_HOURS_FAULT, 4, 2 },
    { TPL_HOURS_FAULT, 5, TPL_WINDOWS_MOST + 1 }, { TPL_HOURS_FAULT, 14, 0 },
    { TPL_WINDOW, 9, 0 }, { TPL_WINDOW, 18, 97 }, { TPL_WINDOW_ORDER, 11, 59 }
};

/* Calls tpl_book_hours on the small book. */
static int64_t with_hours(const uint8_t *bytes, size_t m, uint8_t *list, size_t cap) {
    return tpl_book_hours(book, BOOK_BYTES, bytes, m, list, cap);
}

static void sharing(void) {
    static const uint8_t due[2] = { 0, 2 }, never[8] = { 'T', 'P', 'H', 0, 1, 0, 0, 0 };
    uint8_t list[TPL_LIST_MOST], before[TPL_LIST_MOST], changed[HOURS_BYTES + 1];
    memset(before, '.', sizeof before);
    memcpy(list, before, sizeof list);
    for (size_t i = 0; i < 9; i++) {
        memcpy(changed, hours, HOURS_BYTES);
        changed[damaged_hours[i].offset] = damaged_hours[i].byte;
        expect(with_hours(changed, HOURS_BYTES, list, sizeof list) == -(int64_t)damaged_hours[i].refusal, "faulty hours are refused with their number");
    }
    expect(with_hours(hours, HOURS_BYTES + 1, list, sizeof list) == -TPL_HOURS_FAULT, "a byte left over is refused with 43");
    expect(with_hours(hours, HOURS_BYTES - 1, list, sizeof list) == -TPL_HOURS_FAULT, "a byte that is missing is refused with 43");
    expect(with_hours(hours, 0, list, sizeof list) == -TPL_HOURS_FAULT, "no bytes are refused with 43");
    expect(tpl_book_hours(book, 4, hours, 0, list, 0) == -TPL_BOOK_MARK, "40 comes before 43");
    expect(tpl_book_hours(book, BOOK_BYTES - 1, hours, 0, list, 0) == -TPL_BOOK_FAULT, "41 comes before 43");
    memcpy(changed, hours, sizeof changed);
    changed[11] = 59;
    changed[18] = 97;
    expect(with_hours(changed, HOURS_BYTES + 1, list, 0) == -TPL_HOURS_FAULT, "43 comes before 44 and 45");
    expect(with_hours(changed, HOURS_BYTES, list, 0) == -TPL_WINDOW_ORDER, "45 of a window comes before 44 of a later one, and before 42");
    changed[9] = 0;
    expect(with_hours(changed, HOURS_BYTES, list, 0) == -TPL_WINDOW, "44 of a window comes before 45 of a later one, and before 42");
    memcpy(changed, hours, sizeof changed);
    changed[11] = 59;
    changed[12] = changed[13] = 0;
    expect(with_hours(changed, HOURS_BYTES, list, 0) == -TPL_WINDOW, "44 comes before 45 of the same window");
    expect(with_hours(hours, HOURS_BYTES, list, 1) == -TPL_BUFFER_BELOW_LIST, "one byte for a pair is refused with 42");
    expect(memcmp(list, before, sizeof list) == 0, "a refusal leaves the list's buffer with hours too");
    expect(with_hours(never, sizeof never, list, 0) == 0, "templates that are never sent share no minute");
    expect(memcmp(list, before, sizeof list) == 0, "an empty list leaves its buffer");
    expect(with_hours(hours, HOURS_BYTES, list, 2) == 1, "two bytes are enough for the pair that shares a minute");
    expect(memcmp(list, due, sizeof due) == 0, "templates 0 and 2 share a minute, and 1 and 2 do not");
    expect(memcmp(list + 2, before, sizeof list - 2) == 0, "the bytes after a list stay with hours too");
}

/* The largest hours, in which each template has the same windows, leave the list of a largest book as it is. */
static void largest_hours(const uint8_t *large, const uint8_t *due) {
    uint8_t most[TPL_HOURS_MOST + 1], list[TPL_LIST_MOST];
    size_t m = 5;
    memset(most, 0, sizeof most);
    memcpy(most, "TPH\0\1", 5);
    for (size_t template = 0; template < TPL_TEMPLATES_MOST; template++) {
        most[m++] = TPL_WINDOWS_MOST;
        for (size_t window = 0; window < TPL_WINDOWS_MOST; window++, m += 4) {
            most[m + 1] = (uint8_t)(10 * window);
            most[m + 3] = (uint8_t)(10 * window + 1);
        }
    }
    expect(m == TPL_HOURS_MOST, "the largest hours have TPL_HOURS_MOST bytes");
    expect(tpl_book_hours(large, TPL_BOOK_MOST, most, TPL_HOURS_MOST + 1, list, sizeof list) == -TPL_HOURS_FAULT, "a byte more is refused with 43");
    expect(tpl_book_hours(large, TPL_BOOK_MOST, most, TPL_HOURS_MOST, list, TPL_LIST_MOST - 1) == -TPL_BUFFER_BELOW_LIST,
           "one byte less for a list with hours is refused with 42");
    expect(tpl_book_hours(large, TPL_BOOK_MOST, most, TPL_HOURS_MOST, list, sizeof list) == TPL_LIST_MOST / 2,
           "with the same hours all templates of a largest book clash");
    expect(memcmp(list, due, sizeof list) == 0, "with the same hours the list is the same");
}

/* A book of TPL_BOOK_MOST bytes whose templates are all alike has a list of TPL_LIST_MOST bytes. */
static void largest_book(void) {
    uint8_t large[TPL_BOOK_MOST + 1], list[TPL_LIST_MOST];
    size_t n = 0, at = 0;
    memset(large, 0, sizeof large);
    memcpy(large, "TPB\0\1", 5);
    large[5] = TPL_LETTERS_MOST;
    memcpy(large + 6, "ABCDEFGH", 8);
    large[14] = TPL_TEMPLATES_MOST;
    for (n = 15; n < TPL_BOOK_MOST; n += 5 + TPL_SYMBOLS_MOST) {
        /* The three fields, each once, and letter 0. */
        large[n] = TPL_TEMPLATE_FIELDS_MOST;
        large[n + 1] = large[n + 2] = large[n + 3] = 5;
        large[n + 4] = TPL_SYMBOLS_MOST;
        large[n + 5] = TPL_FIELD_SYMBOL;
        large[n + 6] = TPL_FIELD_SYMBOL + 1;
        large[n + 7] = TPL_FIELD_SYMBOL + 2;
    }
    expect(n == TPL_BOOK_MOST, "a largest book has TPL_BOOK_MOST bytes");
    expect(tpl_book(large, TPL_BOOK_MOST + 1, list, sizeof list) == -TPL_BOOK_FAULT, "a byte more is refused with 41");
    expect(tpl_book(large, TPL_BOOK_MOST, list, TPL_LIST_MOST - 1) == -TPL_BUFFER_BELOW_LIST, "one byte less for a list is refused with 42");
    expect(tpl_book(large, TPL_BOOK_MOST, list, sizeof list) == TPL_LIST_MOST / 2, "all templates of a largest book clash");
    for (uint8_t i = 0; i < TPL_TEMPLATES_MOST; i++) {
        for (uint8_t j = i + 1; j < TPL_TEMPLATES_MOST; j++, at += 2) {
            expect(list[at] == i && list[at + 1] == j, "each two templates are listed once, by the first and then by the second");
        }
    }
    largest_hours(large, list);
}

/* Reads a file of hexadecimal digits, with comments on lines that start with #, into a buffer for a sheet. Returns the number of bytes, or 0
 * where the file cannot be read or has too many. */
static size_t read_digits(const char *name, uint8_t large[TPL_SHEET_MOST]) {
    char line[200];
    unsigned byte;
    size_t n = 0;
    FILE *file = fopen(name, "r");
    if (file == NULL) {
        return 0;
    }
    while (fgets(line, sizeof line, file) != NULL) {
        int at = 0, used = 0;
        while (line[0] != '#' && sscanf(line + at, " %2x%n", &byte, &used) == 1) {
            if (n == TPL_SHEET_MOST) {
                fclose(file);
                return 0;
            }
            large[n++] = (uint8_t)byte;
            at += used;
        }
    }
    fclose(file);
    return n;
}

/* A buffer of one byte less than a large file's size is refused, and one of its size is enough, with the byte after it unchanged. */
static void whole_file(const uint8_t *large, size_t n, uint8_t *file, size_t size) {
    size_t changed = 0;
    memset(file, '.', size + 1);
    expect(tpl_file(large, n, file, size - 1) == -TPL_BUFFER_BELOW_LINE, "one byte less for a large file is refused with 29");
    for (size_t i = 0; i <= size; i++) {
        changed += file[i] != '.';
    }
    expect(changed == 0, "a refusal leaves the buffer of a large file");
    expect(tpl_file(large, n, file, size) == (int64_t)size, "a large file has the size that is counted");
    expect(file[size] == '.', "the byte after a large file stays");
}

/* Every line fits in TPL_LINE_MOST bytes, and the file is the lines one after the other. */
static void all_lines(const uint8_t *large, size_t n) {
    uint8_t text[TPL_LINE_MOST];
    uint64_t counts[3] = { 0, 0, 0 };
    size_t size, at = 0;
    uint8_t *file;
    int same = 1;
    expect(tpl_count(large, n, counts) == 0 && counts[1] > 0 && counts[2] > 0, "a large sheet's clauses and bytes are counted");
    size = (size_t)counts[2];
    file = (uint8_t *)malloc(size + 1);
    if (file == NULL || size == 0) {
        expect(0, "there is a large file, and memory for it");
        free(file);
        return;
    }
    whole_file(large, n, file, size);
    for (uint64_t line = 0; line <= counts[1]; line++) {
        int64_t length = tpl_line(large, n, line, text, sizeof text);
        int fits = length > 0 && length <= TPL_LINE_MOST && text[length - 1] == '\n';
        expect(fits, "a line of a large sheet fits");
        if (fits) {
            same = same && at + (size_t)length <= size && memcmp(file + at, text, (size_t)length) == 0;
            at += (size_t)length;
        }
    }
    expect(same, "a large file has each line at its place");
    expect(at == size, "the size of a large file is the length of all its lines");
    expect(tpl_line(large, n, counts[1] + 1, text, sizeof text) == -TPL_LINE_NUMBER, "no line comes after the last clause");
    free(file);
}

/* Every template's text under a filling that clashes fits in TPL_TEXT_MOST bytes, and has the length that is due. */
static void all_texts(const uint8_t *large, size_t n, const uint8_t *filling, int64_t length) {
    uint8_t left[TPL_TEXT_MOST], right[TPL_TEXT_MOST];
    for (uint64_t pair = 0; pair < TPL_PAIRS_MOST; pair++) {
        expect(tpl_spell(large, n, pair, TPL_LEFT, filling, TPL_FILLING_MOST, left, sizeof left) == length, "a left text fits");
        expect(tpl_spell(large, n, pair, TPL_RIGHT, filling, TPL_FILLING_MOST, right, sizeof right) == length, "a right text fits");
        expect(memcmp(left, right, (size_t)length) == 0, "the texts of a pair are the same");
        expect(tpl_spell(large, n, pair, TPL_LEFT, filling, TPL_FILLING_MOST, left, (size_t)length - 1) == -TPL_BUFFER_TOO_SHORT,
               "one byte less for a text is refused with 26");
    }
}

/* A large sheet fits in the buffers. `answer` is what the search must say of it, and `length` that of each text where it is a clash. */
static void fits(const char *name, int64_t answer, int64_t length) {
    uint8_t large[TPL_SHEET_MOST], filling[TPL_FILLING_MOST];
    uint64_t counts[4] = { 0, 0, 0, 0 }, why[TPL_WHY_NUMBERS];
    size_t n = read_digits(name, large);
    if (n == 0) {
        printf("C header: FAILED: %s cannot be read, or has more than TPL_SHEET_MOST bytes\n", name);
        all_passed = 0;
        return;
    }
    expect(tpl_read(large, n, counts) == 0, "a large sheet is read");
    expect(counts[1] == TPL_FIELDS_MOST && counts[2] == TPL_PAIRS_MOST, "a large sheet has the most fields and pairs");
    expect(tpl_search(large, n, filling, TPL_FILLING_MOST - 1) == -TPL_BUFFER_BELOW_FILLING, "one byte less for a filling is refused with 27");
    expect(tpl_search(large, n, filling, sizeof filling) == answer, "a large sheet is searched");
    all_lines(large, n);
    if (answer == TPL_CLASH) {
        expect(tpl_check(large, n, filling, sizeof filling, why) == TPL_CLASH, "the filling of a large sheet clashes");
        all_texts(large, n, filling, length);
    }
}

/* The largest sheets have TPL_SHEET_MOST bytes; a byte more is refused. */
static void largest(void) {
    static const char name[] = "tests/clauses.d/largest_sheet.sheet";
    uint8_t large[TPL_SHEET_MOST + 1];
    uint64_t counts[4] = { 0, 0, 0, 0 };
    memset(large, 0, sizeof large);
    expect(read_digits(name, large) == TPL_SHEET_MOST, "a largest sheet has TPL_SHEET_MOST bytes");
    expect(tpl_read(large, TPL_SHEET_MOST, counts) == 0, "a largest sheet is read");
    expect(is(counts, TPL_LETTERS_MOST, TPL_FIELDS_MOST, TPL_PAIRS_MOST, TPL_RULES_MOST), "a largest sheet has the most of everything");
    expect(tpl_read(large, TPL_SHEET_MOST + 1, counts) == -TPL_BYTES_LEFT_OVER, "a byte more is refused with 9");
}

/* A reply that fills all places of all fields: sheet all_full has one letter, so that the variable of a place's letter is odd. */
static void fullest_reply(void) {
    uint8_t large[TPL_SHEET_MOST], filling[TPL_FILLING_MOST];
    char text[500];
    int m = snprintf(text, sizeof text, "s SATISFIABLE\nv");
    size_t n = read_digits("tests/search.d/all_full.sheet", large);
    for (int place = 0; place < TPL_FIELDS_MOST * TPL_FIELD_PLACES; place++) {
        m += snprintf(text + m, sizeof text - (size_t)m, " %d", 2 * place + 1);
    }
    m += snprintf(text + m, sizeof text - (size_t)m, " 0\n");
    expect(tpl_reply(large, n, (const uint8_t *)text, (size_t)m, filling, TPL_FILLING_MOST - 1) == -TPL_BUFFER_BELOW_FILLING,
           "one byte less for a reply's filling is refused with 27");
    expect(tpl_reply(large, n, (const uint8_t *)text, (size_t)m, filling, sizeof filling) == 0, "a reply that fills all places is accepted");
    for (int field = 0; field < TPL_FIELDS_MOST; field++) {
        expect(filling[field * TPL_FIELD_BYTES] == TPL_FIELD_PLACES, "every field is full");
    }
}

int main(void) {
    naming();
    reading();
    checking();
    telling_why();
    spelling();
    searching();
    counting();
    writing();
    filing();
    replying();
    listing();
    sharing();
    largest_book();
    largest();
    fits("tests/clauses.d/largest_sheet.sheet", TPL_APART, 0);
    fits("tests/clauses.d/most_clauses.sheet", TPL_APART, 0);
    fits("tests/search.d/largest_sheet.sheet", TPL_CLASH, 12);
    fits("tests/search.d/all_full.sheet", TPL_CLASH, TPL_TEXT_MOST);
    fullest_reply();
    if (!all_passed) {
        return 1;
    }
    puts("C header: the ten calls answer as they must on P and on a small book with hours, its constants are the documents' numbers, and buffers of its "
         "sizes are enough");
    return 0;
}
