/* Holds the three checks of zolfigar.h, and the number of groups that the IBAN's takes, to an implementation of their rules
 * that shares nothing with them: on a million random inputs, and on codes and examples of the IBAN registry with every byte
 * at every place. Each input lies up against a page that can't be read. Prints the counts, and exits with 1 at the first
 * difference, or where no random input was met that is an IBAN but for small letters, or where one of 0 to 10 groups was never
 * met among them. */
#define _DEFAULT_SOURCE

#include "../include/zolfigar.h"

#include <stdio.h>
#include <stdlib.h>
#include <string.h>
#include <sys/mman.h>
#include <unistd.h>

#include "registry.h"

#define INPUTS 1000000
#define LONGEST 3000
#define LONGEST_IBAN 34
#define MOST_GROUPS 10

/* ---- the rules, written another way: by tables of characters, and by long division of the whole number */

static int one_of(uint8_t c, const char *set)
{
    return c != 0 && strchr(set, c) != NULL;
}

static int all_of(const uint8_t *s, size_t n, const char *set)
{
    for (size_t i = 0; i < n; i++)
        if (!one_of(s[i], set))
            return 0;
    return 1;
}

#define CAPITALS "ABCDEFGHIJKLMNOPQRSTUVWXYZ"
#define SMALL "abcdefghijklmnopqrstuvwxyz"
#define DIGITS "0123456789"

/* The place of a character in a table that has it. */
static int place(uint8_t c, const char *set)
{
    return (int)(strchr(set, c) - set);
}

static int expected_bic(const uint8_t *s, size_t n)
{
    return n == 11 && all_of(s, 6, CAPITALS) && one_of(s[6], CAPITALS "23456789") &&
           one_of(s[7], "ABCDEFGHIJKLMNPQRSTUVWXYZ" DIGITS) && all_of(s + 8, 3, CAPITALS DIGITS);
}

static int expected_txid(const uint8_t *s, size_t n)
{
    return 1 <= n && n <= 35 && all_of(s, n, CAPITALS SMALL DIGITS "/-?:().,'+");
}

/* Writes out the digits of an IBAN's number, the first four characters at its end and a letter as two; answers how many they
 * are, and 0 where the shape is no IBAN's. */
static size_t spell(const uint8_t *s, size_t n, char number[2 * LONGEST_IBAN + 1])
{
    size_t used = 0;

    if (n < 5 || LONGEST_IBAN < n || !all_of(s, 2, CAPITALS) || !all_of(s + 2, 2, DIGITS) ||
        !all_of(s + 4, n - 4, CAPITALS DIGITS))
        return 0;
    for (size_t i = 0; i < n; i++) {
        uint8_t c = s[(i + 4) % n];
        if (one_of(c, DIGITS))
            number[used++] = (char)c;
        else
            used += (size_t)sprintf(number + used, "%d", 10 + place(c, CAPITALS));
    }
    return used;
}

static int expected_iban(const uint8_t *s, size_t n)
{
    char number[2 * LONGEST_IBAN + 1];
    size_t used = spell(s, n, number);
    int left = 0;

    for (size_t i = 0; i < used; i++)
        left = (left * 10 + (number[i] - '0')) % 97;
    return left == 1;
}

/* Cuts off seven digits, or what is left, as long as there are any. */
static int expected_groups(const uint8_t *s, size_t n)
{
    char number[2 * LONGEST_IBAN + 1];
    size_t rest = spell(s, n, number);
    int groups = 0;

    while (rest != 0) {
        rest -= rest < 7 ? rest : 7;
        groups++;
    }
    return groups;
}

/* Whether it is no IBAN, and capitals in place of the small letters behind its check digits would make it one. */
static int small_letters_alone(const uint8_t *s, size_t n)
{
    uint8_t capitals[LONGEST_IBAN];

    if (n < 5 || LONGEST_IBAN < n || all_of(s + 4, n - 4, CAPITALS DIGITS))
        return 0;
    memcpy(capitals, s, n);
    for (size_t i = 4; i < n; i++)
        if (one_of(s[i], SMALL))
            capitals[i] = (uint8_t)CAPITALS[place(s[i], SMALL)];
    return expected_iban(capitals, n);
}

/* ---- random inputs */

static uint64_t state = 0x9e3779b97f4a7c15u;

static uint32_t below(uint32_t n)
{
    state ^= state << 13;
    state ^= state >> 7;
    state ^= state << 17;
    return (uint32_t)(state >> 33) % n;
}

static size_t fill(uint8_t *s, size_t n, const char *set)
{
    size_t size = strlen(set);
    for (size_t i = 0; i < n; i++)
        s[i] = (uint8_t)set[below((uint32_t)size)];
    return n;
}

/* A BIC. */
static size_t make_bic(uint8_t *s)
{
    fill(s, 6, CAPITALS);
    fill(s + 6, 1, CAPITALS "23456789");
    fill(s + 7, 1, "ABCDEFGHIJKLMNPQRSTUVWXYZ" DIGITS);
    fill(s + 8, 3, CAPITALS DIGITS);
    return 11;
}

/* An IBAN, or, read as capitals, one with small letters; with `extra` above 30 characters behind the first four something too
 * long whose remainder is right. */
static size_t make_iban(uint8_t *s, size_t extra)
{
    static const char *const sets[4] = { CAPITALS DIGITS, CAPITALS SMALL DIGITS, CAPITALS, DIGITS };
    uint32_t left = 0;
    size_t n = 4 + extra;

    fill(s, 2, CAPITALS);
    s[2] = '0';
    s[3] = '0';
    fill(s + 4, extra, sets[below(4)]);
    for (size_t i = 0; i < n; i++) {
        uint8_t c = s[(i + 4) % n];
        if (one_of(c, DIGITS))
            left = (left * 10 + (uint32_t)(c - '0')) % 97;
        else
            left = (left * 100 + 10 + (uint32_t)(place(c, CAPITALS SMALL) % 26)) % 97;
    }
    left = 98 - left;
    s[2] = (uint8_t)('0' + left / 10);
    s[3] = (uint8_t)('0' + left % 10);
    return n;
}

/* The next input: valid, of a wrong length, of nothing but random bytes, and then, half the time, damaged at a place. */
static size_t next_input(uint8_t *s)
{
    size_t n;

    switch (below(6)) {
    case 0:
        n = make_bic(s);
        break;
    case 1:
        n = make_iban(s, below(31));
        break;
    case 2:
        n = make_iban(s, below(40));
        break;
    case 3:
        n = fill(s, below(40), CAPITALS SMALL DIGITS "/-?:().,'+");
        break;
    case 4:
        n = fill(s, below(80), CAPITALS DIGITS);
        break;
    default:
        n = below(below(100) ? 80 : LONGEST);
        for (size_t i = 0; i < n; i++)
            s[i] = (uint8_t)below(256);
        break;
    }
    if (n != 0 && below(2))
        s[below((uint32_t)n)] = (uint8_t)below(below(2) ? 256 : 128);
    if (n != 0 && below(8) == 0)
        n -= 1;
    return n;
}

/* ---- the comparison */

struct check {
    const char *name;
    uint8_t (*found)(const uint8_t *, size_t);
    int (*expected)(const uint8_t *, size_t);
    long met[MOST_GROUPS + 1]; /* how often it gave each answer */
};

enum { BIC, IBAN, TXID, GROUPS, CHECKS };

static struct check checks[CHECKS] = {
    { "zolfigar_bic_ok", zolfigar_bic_ok, expected_bic, { 0 } },
    { "zolfigar_iban_ok", zolfigar_iban_ok, expected_iban, { 0 } },
    { "zolfigar_txid_ok", zolfigar_txid_ok, expected_txid, { 0 } },
    { "zolfigar_iban_groups", zolfigar_iban_groups, expected_groups, { 0 } },
};

static long comparisons;
static long small_letters;

/* A page that can be read, between two that can't: a read outside of an input that lies at its edge ends the test. */
static uint8_t *page;
static size_t page_size;

static int make_page(void)
{
    uint8_t *pages;

    page_size = (size_t)sysconf(_SC_PAGESIZE);
    if (page_size < LONGEST)
        return 0;
    pages = mmap(NULL, 3 * page_size, PROT_NONE, MAP_PRIVATE | MAP_ANONYMOUS, -1, 0);
    if (pages == MAP_FAILED)
        return 0;
    page = pages + page_size;
    return mprotect(page, page_size, PROT_READ | PROT_WRITE) == 0;
}

static void differ(const char *name, const uint8_t *s, size_t n, int found)
{
    fprintf(stderr, "%s answered %d to %zu bytes:", name, found, n);
    for (size_t i = 0; i < n; i++)
        fprintf(stderr, " %02x", s[i]);
    fprintf(stderr, "\n");
    exit(1);
}

/* Asks all of them about the n bytes at s: once where they end at the page's end, and once where they begin at its
 * start; of no bytes the second is null. */
static void compare(const uint8_t *s, size_t n)
{
    uint8_t *places[2] = { page + page_size - n, n == 0 ? NULL : page };

    small_letters += small_letters_alone(s, n);
    for (int p = 0; p < 2; p++) {
        if (n != 0)
            memcpy(places[p], s, n);
        for (int k = 0; k < CHECKS; k++) {
            int found = checks[k].found(places[p], n);
            if (found != checks[k].expected(s, n))
                differ(checks[k].name, s, n, found);
            checks[k].met[found] += p == 0;
            comparisons++;
        }
    }
}

/* Every byte value at every place of a code. */
static void compare_changed(const char *code)
{
    uint8_t s[LONGEST];
    size_t n = strlen(code);

    memcpy(s, code, n);
    for (size_t i = 0; i < n; i++) {
        uint8_t kept = s[i];
        for (int c = 0; c < 256; c++) {
            s[i] = (uint8_t)c;
            compare(s, n);
        }
        s[i] = kept;
    }
}

/* The answer to these bytes is this number, whatever the other implementation says. */
static void expect(int k, const uint8_t *s, size_t n, int due)
{
    int found = checks[k].found(s, n);

    if (found != due)
        differ(checks[k].name, s, n, found);
}

/* Compares bytes of which it is written down whether they are an IBAN and how many groups they have. */
static void compare_written(const uint8_t *s, size_t n, int iban, int groups)
{
    compare(s, n);
    expect(IBAN, s, n, iban);
    expect(GROUPS, s, n, groups);
}

/* The example is an IBAN; padded as in a ticket, or with 256 bytes behind it, it hasn't the shape of one; with one check digit
 * changed it is none and has as many groups. */
static void compare_example(const char *example, int groups)
{
    uint8_t s[LONGEST] = { 0 };
    size_t n = strlen(example);

    memcpy(s, example, n);
    compare_written(s, n, 1, groups);
    compare_written(s, LONGEST_IBAN, 0, 0);
    compare_written(s, n + 256, 0, 0);
    s[3] = s[3] == '9' ? '0' : (uint8_t)(s[3] + 1);
    compare_written(s, n, 0, groups);
}

/* Codes of each kind; the shortest and the longest among them. */
static const char *const codes[] = {
    "AAAALV22XXX",
    "LV31A",
    "LV80BANK0000435195001",
    "LV80bank0000435195001",
    "LV31BANK000043519500A",
    "LV70BANK01234567890123456789ABCDEF",
    "x",
    "AZaz09/-?:().,'+ABCDEFGHIJKLMNOPQRS",
};

/* Codes with the number of their digits, of their groups, and whether they are IBANs. */
static const struct {
    const char *code;
    size_t digits;
    int groups;
    int iban;
} rows[] = {
    /* the fewest digits; then both sides of where a group ends, letters split by some of the ends; then the most */
    { "LV801", 7, 1, 1 },
    { "LV31A", 8, 2, 1 },
    { "LV73ABCD", 14, 2, 1 },
    { "LV31ABCD1", 15, 3, 1 },
    { "LV65ABCDEFG1", 21, 3, 1 },
    { "LV80ABCDEFGH", 22, 4, 1 },
    { "LV06ABCDEFGHIJK", 28, 4, 1 },
    { "LV40ABCDEFGHIJK1", 29, 5, 1 },
    { "LV8312345678901234567890123456789", 35, 5, 1 },
    { "LV61123456789012345678901234567890", 36, 6, 1 },
    { "LV77ABCDEFGHIJKLMNOPQR", 42, 6, 1 },
    { "LV71ABCDEFGHIJKLMNOPQR1", 43, 7, 1 },
    { "LV20ABCDEFGHIJKLMNOPQRSTU1", 49, 7, 1 },
    { "LV28ABCDEFGHIJKLMNOPQRSTUV", 50, 8, 1 },
    { "LV90ABCDEFGHIJKLMNOPQRSTUVWXY", 56, 8, 1 },
    { "LV07ABCDEFGHIJKLMNOPQRSTUVWXY1", 57, 9, 1 },
    { "LV56ABCDEFGHIJKLMNOPQRSTUVWXYZAB1", 63, 9, 1 },
    { "LV28ABCDEFGHIJKLMNOPQRSTUVWXYZABC", 64, 10, 1 },
    { "LV66ABCDEFGHIJKLMNOPQRSTUVWXYZABC1", 65, 10, 1 },
    { "LV03ZZZZZZZZZZZZZZZZZZZZZZZZZZZZZZ", 66, 10, 1 },
    /* wrong check digits */
    { "LV811", 7, 1, 0 },
    { "LV32A", 8, 2, 0 },
    { "LV81BANK0000435195001", 27, 4, 0 },
    { "LV04ZZZZZZZZZZZZZZZZZZZZZZZZZZZZZZ", 66, 10, 0 },
    /* too short, too long, a country with a digit, a check digit that is a letter, small letters, spaces */
    { "", 0, 0, 0 },
    { "LV80", 0, 0, 0 },
    { "LV14ZZZZZZZZZZZZZZZZZZZZZZZZZZZZZZZ", 0, 0, 0 },
    { "L8801", 0, 0, 0 },
    { "LV8A1", 0, 0, 0 },
    { "LV31a", 0, 0, 0 },
    { "lv801", 0, 0, 0 },
    { "LV80bank0000435195001", 0, 0, 0 },
    { "LV80 1", 0, 0, 0 },
    { "LV801 ", 0, 0, 0 },
};

static void compare_row(size_t i)
{
    char number[2 * LONGEST_IBAN + 1];
    const uint8_t *s = (const uint8_t *)rows[i].code;
    size_t n = strlen(rows[i].code), digits = spell(s, n, number);

    compare_written(s, n, rows[i].iban, rows[i].groups);
    if (digits != rows[i].digits) {
        fprintf(stderr, "gateway: %s has %zu digits\n", rows[i].code, digits);
        exit(1);
    }
}

/* Prints how often each number of groups was met; all of them have to be. */
static int groups_met(void)
{
    const long *met = checks[GROUPS].met;

    printf("gateway: of these, by number of groups,");
    for (int g = 0; g <= MOST_GROUPS; g++)
        printf(" %d: %ld%s", g, met[g], g < MOST_GROUPS ? "," : "\n");
    for (int g = 0; g <= MOST_GROUPS; g++)
        if (met[g] == 0) {
            fprintf(stderr, "gateway: no input with %d groups was met\n", g);
            return 0;
        }
    return 1;
}

int main(void)
{
    size_t changed = sizeof codes / sizeof codes[0];
    size_t written = sizeof rows / sizeof rows[0];
    size_t examples = sizeof registry / sizeof registry[0];

    if (!make_page()) {
        fprintf(stderr, "gateway: no page to put the inputs on\n");
        return 2;
    }
    compare(NULL, 0);
    for (long i = 0; i < INPUTS; i++) {
        uint8_t s[LONGEST];
        compare(s, next_input(s));
    }
    printf("gateway: %d random inputs, %ld BICs, %ld IBANs, %ld TxIds among them, and %ld that small letters alone keep from "
           "being IBANs\n",
           INPUTS, checks[BIC].met[1], checks[IBAN].met[1], checks[TXID].met[1], small_letters);
    if (small_letters == 0) {
        fprintf(stderr, "gateway: no input with small letters was met\n");
        return 1;
    }
    if (!groups_met())
        return 1;
    for (size_t i = 0; i < changed; i++)
        compare_changed(codes[i]);
    for (size_t i = 0; i < written; i++) {
        compare_row(i);
        compare_changed(rows[i].code);
    }
    for (size_t i = 0; i < examples; i++) {
        compare_example(registry[i].iban, registry[i].groups);
        compare_changed(registry[i].iban);
    }
    printf("gateway: %zu codes and %zu registry examples with their groups written down\n", written, examples);
    printf("gateway: every byte at every place of %zu codes and of %zu registry examples\n", changed + written, examples);
    printf("gateway: %ld comparisons, all alike, %ld inputs that small letters alone keep from being IBANs\n", comparisons,
           small_letters);
    return 0;
}
