/* Reads a sheet from the file named on the command line, searches it, and prints the first clash, or that there is none. With a text for each field
 * after the file's name it prints whether these texts clash, and why if they do not. A file that starts with TPB is a book: of this it prints
 * which templates clash, and with an hours file after the book's name which of them clash and share a minute. Without a file it asks a small book of
 * its own, without hours and with them.
 *
 * After `tools/build engine`, this line builds it from the repository's folder:
 *
 *     cc -std=c99 -Iinclude -o target/example bindings/c/example.c -Ltarget/staticlib -lengine
 *
 * Then `target/example crates/search/stdin` prints
 *
 *     clash
 *     field 0=A
 *     pair 0=A
 *
 * and `target/example examples/hold-up.tpl 1234 12 56 1234 12` prints
 *
 *     no clash: pair 0 differs; letters that agree: 7, left over on the left: 2
 *
 * and `target/example` prints
 *
 *     templates 0 and 2 clash
 *     no templates that clash share a minute
 *
 * and `target/example examples/shop-hours.tpb examples/shop-hours.tph` prints
 *
 *     templates 0 and 2 clash and share a minute
 *     templates 0 and 5 clash and share a minute
 *
 * Where nothing clashes it prints `apart`, and for bytes that are neither a sheet nor a book, texts that the fields cannot have, or hours that are none,
 * `refused` and the refusal's number, which include/lunthegyr.h explains. It ends with status 0 for an answer, 1 for a refusal, and 2 for a file that
 * cannot be read or more texts than any sheet has fields.
 */
#include <stdio.h>
#include <string.h>
#include "lunthegyr.h"

/* A small book. A shop sends three kinds of text: a hold-up, A and shop number, zone and staff code; a test of the line, 0 and a zone; and a
 * weekly test, A and shop number and zone. Each template has fields of its own, so that both zones are not the same field.
 */
static const uint8_t shop[] = {
    'T', 'P', 'B', 0, 1,                         /* the mark, and the version in two bytes */
    4, '0', '1', '2', 'A',                       /* the letters, which are then used by their numbers */
    3,                                           /* three templates */
    3, 4, 2, 3,                                  /* fields of at most 4, 2 and 3 letters */
    4, 3, TPL_FIELD_SYMBOL, TPL_FIELD_SYMBOL + 1, TPL_FIELD_SYMBOL + 2,
    1, 2,                                        /* one field of at most 2 */
    2, 0, TPL_FIELD_SYMBOL,
    2, 4, 2,                                     /* fields of at most 4 and 2 */
    3, 3, TPL_FIELD_SYMBOL, TPL_FIELD_SYMBOL + 1
};

/* A minute of the week, of a day from 0 for Monday to 6 for Sunday, at an hour and a minute; and its two bytes. */
#define OF_WEEK(day, hour, minute) (((day) * 24 + (hour)) * 60 + (minute))
#define MINUTE(day, hour, minute) OF_WEEK(day, hour, minute) / 256, OF_WEEK(day, hour, minute) % 256

/* When that shop sends them. There are people in it on Friday and Saturday from 09:00 to 17:30. The line is tested in the night from Sunday to Monday, and
 * the weekly test starts when all have gone, so that it never shares a minute with a hold-up.
 */
static const uint8_t shop_hours[] = {
    'T', 'P', 'H', 0, 1,                         /* the mark, and the version in two bytes */
    2, MINUTE(4, 9, 0), MINUTE(4, 17, 30),       /* two windows; the end of a window is not in it */
    MINUTE(5, 9, 0), MINUTE(5, 17, 30),
    2, MINUTE(0, 0, 0), MINUTE(0, 6, 0),         /* across Sunday midnight, which makes two windows */
    MINUTE(6, 22, 0), MINUTE(6, 24, 0),
    1, MINUTE(5, 17, 30), MINUTE(5, 18, 0)
};

/* Reads a file's bytes into a buffer of cap bytes, as many as fit. Returns 1, with their number in *n; or 0 where the file cannot be read. */
static int read_file(const char *name, uint8_t *bytes, size_t cap, size_t *n) {
    FILE *file = fopen(name, "rb");
    int fine;
    if (file == NULL) {
        return 0;
    }
    *n = fread(bytes, 1, cap, file);
    fine = !ferror(file);
    fclose(file);
    return fine;
}

/* Prints the text of each field. A filling has TPL_FIELD_BYTES bytes for each: the text's length, and then letter numbers. */
static void print_fields(const uint8_t *sheet, const uint8_t *filling, uint64_t fields) {
    const uint8_t *letters = sheet + 9; /* the sheet's letters stand after its header of 9 bytes */
    for (uint64_t f = 0; f < fields; f++) {
        const uint8_t *field = filling + TPL_FIELD_BYTES * f;
        printf("field %d=", (int)f);
        for (int place = 0; place < field[0]; place++) {
            putchar(letters[field[1 + place]]);
        }
        putchar('\n');
    }
}

/* Prints the text that both templates of each pair spell. */
static void print_pairs(const uint8_t *sheet, size_t n, const uint8_t *filling, const uint64_t counts[4]) {
    for (uint64_t p = 0; p < counts[2]; p++) {
        uint8_t text[TPL_TEXT_MOST]; /* always long enough */
        int64_t length = tpl_spell(sheet, n, p, TPL_LEFT, filling, TPL_FIELD_BYTES * counts[1], text, sizeof text);
        printf("pair %d=%.*s\n", (int)p, (int)length, (const char *)text);
    }
}

/* Every call returns minus the refusal's number where it refuses what it was given. Prints that, and returns the program's status for it. */
static int refused(int64_t status) {
    printf("refused %d\n", (int)-status);
    return 1;
}

/* Prints what a book's call has returned and listed: that each of the pairs does so and so, or what is so where there are none. */
static int print_list(int64_t pairs, const uint8_t *list, const char *each, const char *none) {
    if (pairs < 0) {
        return refused(pairs);
    }
    if (pairs == 0) {
        puts(none);
    }
    for (int64_t p = 0; p < pairs; p++) {
        printf("templates %d and %d %s\n", list[2 * p], list[2 * p + 1], each);
    }
    return 0;
}

/* Prints which templates of a book clash. */
static int ask_book(const uint8_t *book, size_t n) {
    uint8_t list[TPL_LIST_MOST]; /* always long enough */
    return print_list(tpl_book(book, n, list, sizeof list), list, "clash", "apart");
}

/* Prints which templates of a book clash and share a minute. Others may clash too, so where there are none the book need not be apart. */
static int ask_hours(const uint8_t *book, size_t n, const uint8_t *hours, size_t m) {
    uint8_t list[TPL_LIST_MOST]; /* always long enough */
    int64_t pairs = tpl_book_hours(book, n, hours, m, list, sizeof list);
    return print_list(pairs, list, "clash and share a minute", "no templates that clash share a minute");
}

/* Prints the first clash of a sheet. */
static int ask_sheet(const uint8_t *sheet, size_t n) {
    uint64_t counts[4]; /* letters, fields, pairs, rules */
    uint8_t filling[TPL_FILLING_MOST];
    int64_t status = tpl_read(sheet, n, counts);
    if (status < 0) {
        return refused(status);
    }
    /* The sheet was accepted and the buffer is always long enough, so nothing is left to refuse. */
    if (tpl_search(sheet, n, filling, sizeof filling) == TPL_APART) {
        puts("apart");
        return 0;
    }
    puts("clash");
    print_fields(sheet, filling, counts[1]);
    print_pairs(sheet, n, filling, counts);
    return 0;
}

/* Gives a field a text. A letter that the sheet does not have becomes the letter count, which is no letter's number, and a text that is too long for
 * any field gets a length above every limit, so that tpl_check refuses them.
 */
static void put(const uint8_t *letters, uint64_t letter_count, const char *text, uint8_t *field) {
    size_t length = strlen(text);
    memset(field, TPL_PAST_LENGTH, TPL_FIELD_BYTES);
    field[0] = (uint8_t)(length <= TPL_FIELD_PLACES ? length : TPL_FIELD_PLACES + 1);
    for (size_t place = 0; place < length && place < TPL_FIELD_PLACES; place++) {
        uint8_t number = 0;
        while (number < letter_count && letters[number] != (uint8_t)text[place]) {
            number++;
        }
        field[1 + place] = number;
    }
}

/* Prints why a filling does not clash, from the numbers that tpl_check has written. */
static void print_why(const uint64_t why[TPL_WHY_NUMBERS]) {
    switch (why[0]) {
    case TPL_PAIR_DIFFERS:
        printf("no clash: pair %d differs; letters that agree: %d, left over on the %s: %d\n", (int)why[1], (int)why[2],
               why[3] == TPL_LEFT ? "left" : "right", (int)why[4]);
        break;
    case TPL_RULE_BROKEN:
        printf("no clash: rule %d does not hold\n", (int)why[1]);
        break;
    }
}

/* Prints whether texts for the fields of a sheet clash, of which there are at most TPL_FIELDS_MOST. */
static int check_texts(const uint8_t *sheet, size_t n, char **texts, size_t count) {
    uint64_t counts[4], why[TPL_WHY_NUMBERS];
    uint8_t filling[TPL_FILLING_MOST];
    int64_t status = tpl_read(sheet, n, counts);
    if (status < 0) {
        return refused(status);
    }
    for (size_t f = 0; f < count; f++) {
        put(sheet + 9, counts[0], texts[f], filling + TPL_FIELD_BYTES * f);
    }
    status = tpl_check(sheet, n, filling, TPL_FIELD_BYTES * count, why);
    if (status < 0) {
        return refused(status);
    }
    if (status == TPL_CLASH) {
        puts("clash");
    } else {
        print_why(why);
    }
    return 0;
}

/* Says what words the program takes. */
static int usage(void) {
    fprintf(stderr, "usage: example [SHEET [TEXT..] | BOOK [HOURS]], where these are files that can be read, and each TEXT is for one field\n");
    return 2;
}

int main(int argc, char **argv) {
    uint8_t bytes[TPL_BOOK_MOST + 1], hours[TPL_HOURS_MOST + 1]; /* one byte more than the largest have, so that a longer file is refused */
    size_t n, m;
    int is_book;
    if (argc == 1) {
        return ask_book(shop, sizeof shop) || ask_hours(shop, sizeof shop, shop_hours, sizeof shop_hours);
    }
    if (argc > 2 + TPL_FIELDS_MOST || !read_file(argv[1], bytes, sizeof bytes, &n)) {
        return usage();
    }
    is_book = n >= 3 && memcmp(bytes, "TPB", 3) == 0;
    if (argc == 2) {
        return is_book ? ask_book(bytes, n) : ask_sheet(bytes, n);
    }
    if (!is_book) {
        return check_texts(bytes, n, argv + 2, (size_t)argc - 2);
    }
    if (argc > 3 || !read_file(argv[2], hours, sizeof hours, &m)) {
        return usage();
    }
    return ask_hours(bytes, n, hours, m);
}
