/* The proved IBAN check beside two in C, a plain loop with a table and one that takes the remainder every four characters, in
 * interleaved rounds: nanoseconds a call, on the registry's examples, on codes that are no IBAN, on IBANs of one country as a salary
 * day has them, and on random ones. Exits with 1 if two of the three answer differently. */
#define _POSIX_C_SOURCE 199309L

#include "../gateway/registry.h"
#include "../include/zolfigar.h"

#include <stdio.h>
#include <stdlib.h>
#include <string.h>
#include <time.h>

#define EXAMPLES (sizeof registry / sizeof registry[0])
#define DAY 1000
#define LONGEST 40
#define WARM_UP 50
#define ROUNDS 2000
#define CALLS 2000
#define GOAL 1.0

static const char characters[] = "0123456789ABCDEFGHIJKLMNOPQRSTUVWXYZ";

/* What a character counts, 0 to 35, and what the number before it is multiplied by; 99 and 0 where it is no capital letter and no
 * digit. */
static uint8_t value[256];
static uint32_t multiplier[256];

static void make_tables(void)
{
    memset(value, 99, sizeof value);
    for (uint8_t v = 0; v < 36; v++) {
        value[(uint8_t)characters[v]] = v;
        multiplier[(uint8_t)characters[v]] = v < 10 ? 10 : 100;
    }
}

static int capital(uint8_t c)
{
    return 'A' <= c && c <= 'Z';
}

static int digit(uint8_t c)
{
    return '0' <= c && c <= '9';
}

static inline int front(const uint8_t *s, size_t n)
{
    return 5 <= n && n <= 34 && capital(s[0]) && capital(s[1]) && digit(s[2]) && digit(s[3]);
}

/* Not inlined, since the proved check is a call too. */
__attribute__((noinline)) static uint8_t loop_iban_ok(const uint8_t *s, size_t n)
{
    uint32_t left = 0;

    if (!front(s, n))
        return 0;
    for (size_t i = 0; i < n; i++) {
        uint8_t v = value[s[i + 4 < n ? i + 4 : i + 4 - n]];
        if (v == 99)
            return 0;
        left = (left * (v < 10 ? 10 : 100) + v) % 97;
    }
    return left == 1;
}

/* A remainder for every four characters, for the one to three behind them, and for the first four, which come last. */
__attribute__((noinline)) static uint8_t fours_iban_ok(const uint8_t *s, size_t n)
{
    uint64_t left = 0;
    size_t i = 4;

    if (!front(s, n))
        return 0;
    for (; i + 4 <= n; i += 4) {
        uint8_t a = value[s[i]], b = value[s[i + 1]], c = value[s[i + 2]], d = value[s[i + 3]];
        if (a == 99 || b == 99 || c == 99 || d == 99)
            return 0;
        left = left * multiplier[s[i]] + a;
        left = left * multiplier[s[i + 1]] + b;
        left = left * multiplier[s[i + 2]] + c;
        left = left * multiplier[s[i + 3]] + d;
        left %= 97;
    }
    for (; i < n; i++) {
        uint8_t v = value[s[i]];
        if (v == 99)
            return 0;
        left = left * multiplier[s[i]] + v;
    }
    left %= 97;
    left = left * 1000000 + value[s[0]] * 10000u + value[s[1]] * 100u + value[s[2]] * 10u + value[s[3]];
    return left % 97 == 1;
}

typedef uint8_t check(const uint8_t *, size_t);

enum side { PROVED, LOOP, FOURS, SIDES };

static check *const checks[SIDES] = {zolfigar_iban_ok, loop_iban_ok, fours_iban_ok};
static const char *const names[SIDES] = {"proved", "C loop", "C fours"};

/* ---- the codes */

struct code {
    size_t length;
    uint8_t bytes[LONGEST];
};

struct group {
    const char *name;
    int in_goal;
    const char *pattern; /* of a salary day */
    size_t count;
    struct code codes[DAY];
};

static struct code *add(struct group *group, const char *text)
{
    struct code *code = &group->codes[group->count++];

    code->length = strlen(text);
    memcpy(code->bytes, text, code->length);
    return code;
}

/* An example with one byte changed. */
static void add_changed(struct group *group, const char *example, size_t at, char byte)
{
    add(group, example)->bytes[at] = (uint8_t)byte;
}

static void add_wrong_digit(struct group *group, const char *example)
{
    add_changed(group, example, 3, example[3] == '9' ? '0' : (char)(example[3] + 1));
}

/* An example with its last letter small, behind the check digits; where it has none there, a small letter at its end. */
static void add_small(struct group *group, const char *example)
{
    size_t last = strlen(example) - 1, at = last;

    while (4 < at && !capital((uint8_t)example[at]))
        at--;
    if (capital((uint8_t)example[at]))
        add_changed(group, example, at, (char)(example[at] + 32));
    else
        add_changed(group, example, last, 'a');
}

/* Of every fourth example one that is malformed: a space at the end or in the middle, a small country, a letter for a digit, a small
 * letter. */
static void add_malformed(struct group *group, const char *example, size_t number)
{
    size_t length = strlen(example);

    switch (number % 5) {
    case 0:
        add_changed(group, example, length - 1, ' ');
        break;
    case 1:
        add_changed(group, example, length / 2, ' ');
        break;
    case 2:
        add_changed(group, example, 1, (char)(example[1] + 32));
        break;
    case 3:
        add_changed(group, example, 2, 'X');
        break;
    default:
        add_small(group, example);
    }
}

/* The examples, codes made of them that are no IBANs, and both. */
static void add_examples(struct group groups[3])
{
    for (size_t i = 0; i < EXAMPLES; i++) {
        add(&groups[0], registry[i].iban);
        add(&groups[2], registry[i].iban);
        for (int g = 1; g < 3; g++) {
            if (i % 2 == 0)
                add_wrong_digit(&groups[g], registry[i].iban);
            else if (i % 4 == 1)
                add_malformed(&groups[g], registry[i].iban, i / 4);
        }
    }
}

static uint64_t state = 0x9e3779b97f4a7c15u;

static uint32_t below(uint32_t n)
{
    state ^= state << 13;
    state ^= state >> 7;
    state ^= state << 17;
    return (uint32_t)(state >> 33) % n;
}

/* Gives a code its check digits, 02 to 98. */
static void complete(struct code *code)
{
    for (uint8_t k = 2; k <= 98; k++) {
        code->bytes[2] = (uint8_t)('0' + k / 10);
        code->bytes[3] = (uint8_t)('0' + k % 10);
        if (loop_iban_ok(code->bytes, code->length))
            return;
    }
}

/* IBANs of one country: the group's pattern with other digits behind the check digits, the letters kept. */
static void add_salary_day(struct group *group)
{
    while (group->count < DAY) {
        struct code *code = add(group, group->pattern);
        for (size_t i = 4; i < code->length; i++)
            if (digit(code->bytes[i]))
                code->bytes[i] = (uint8_t)('0' + below(10));
        complete(code);
    }
}

/* Capitals and digits of all lengths with right check digits: IBANs by the rule, but no country has them. */
static void add_random(struct group *group)
{
    while (group->count < DAY) {
        struct code *code = add(group, "");
        code->length = 5 + below(30);
        for (size_t i = 0; i < code->length; i++)
            code->bytes[i] = (uint8_t)characters[i < 2 ? 10 + below(26) : below(36)];
        complete(code);
    }
}

/* ---- the measurement */

static double now(void)
{
    struct timespec t;

    clock_gettime(CLOCK_MONOTONIC, &t);
    return 1e9 * (double)t.tv_sec + (double)t.tv_nsec;
}

static volatile unsigned sink;

static double time_a_call(const struct group *group, check *ok)
{
    size_t passes = CALLS / group->count;
    unsigned taken = 0;
    double start = now();

    for (size_t pass = 0; pass < passes; pass++)
        for (size_t i = 0; i < group->count; i++)
            taken += ok(group->codes[i].bytes, group->codes[i].length);
    sink = taken;
    return (now() - start) / (double)(passes * group->count);
}

static int compare(const void *a, const void *b)
{
    double x = *(const double *)a, y = *(const double *)b;

    return (y < x) - (x < y);
}

static double percentile(const double *times, int percent)
{
    static double sorted[ROUNDS];

    memcpy(sorted, times, sizeof sorted);
    qsort(sorted, ROUNDS, sizeof sorted[0], compare);
    return sorted[(ROUNDS - 1) * percent / 100];
}

static void print_figure(double median, const double *times, const char *form)
{
    char low[16], high[16], spread[40];

    snprintf(low, sizeof low, form, percentile(times, 10));
    snprintf(high, sizeof high, form, percentile(times, 90));
    snprintf(spread, sizeof spread, "%s to %s", low, high);
    snprintf(low, sizeof low, form, median);
    printf(" %8s %17s", low, spread);
}

/* Prints a group's line, and answers the ratio of the medians to the check by fours. */
static double measure(const struct group *group)
{
    static double times[SIDES][ROUNDS], ratios[ROUNDS];
    double medians[SIDES];
    char name[64];

    for (int round = -WARM_UP; round < ROUNDS; round++)
        for (int turn = 0; turn < SIDES; turn++) {
            int side = (round + WARM_UP + turn) % SIDES;
            double time = time_a_call(group, checks[side]);
            if (round >= 0)
                times[side][round] = time;
        }
    snprintf(name, sizeof name, "%zu %s", group->count, group->name);
    printf("%-42s", name);
    for (int side = PROVED; side < SIDES; side++) {
        medians[side] = percentile(times[side], 50);
        print_figure(medians[side], times[side], "%.1f");
    }
    for (int side = LOOP; side < SIDES; side++) {
        for (int round = 0; round < ROUNDS; round++)
            ratios[round] = times[PROVED][round] / times[side][round];
        print_figure(medians[PROVED] / medians[side], ratios, "%.2f");
    }
    printf("\n");
    return medians[PROVED] / medians[FOURS];
}

/* Asks all three about each code as it is, and with a byte changed at each place in turn. */
static void check_same(const struct group *group)
{
    for (size_t i = 0; i < group->count; i++)
        for (size_t at = 0; at <= group->codes[i].length; at++) {
            struct code code = group->codes[i];
            if (at < code.length)
                code.bytes[at] = (uint8_t)below(256);
            for (int side = LOOP; side < SIDES; side++)
                if (checks[side](code.bytes, code.length) != zolfigar_iban_ok(code.bytes, code.length)) {
                    printf("iban: proved and %s differ on %.*s\n", names[side], (int)code.length, (char *)code.bytes);
                    exit(1);
                }
        }
}

int main(void)
{
    static struct group groups[] = {
        {.name = "registry examples", .in_goal = 1},
        {.name = "no IBANs"},
        {.name = "of both, mixed"},
        {.name = "of a salary day in LV", .in_goal = 1, .pattern = "LV80BANK0000435195001"},
        {.name = "of a salary day in DE", .in_goal = 1, .pattern = "DE89370400440532013000"},
        {.name = "of a salary day in FR", .in_goal = 1, .pattern = "FR1420041010050500013M02606"},
        {.name = "of a salary day in MT", .in_goal = 1, .pattern = "MT84MALT011000012345MTLCAST001S"},
        {.name = "random, no country's"},
    };
    const size_t count = sizeof groups / sizeof groups[0];
    double highest = 0;

    make_tables();
    add_examples(groups);
    for (size_t g = 3; g < count - 1; g++)
        add_salary_day(&groups[g]);
    add_random(&groups[count - 1]);
    for (size_t g = 0; g < count; g++)
        check_same(&groups[g]);
    printf("%-42s", "IBAN check, ns a call");
    for (int side = PROVED; side < SIDES; side++)
        printf(" %8s %17s", names[side], "p10 to p90");
    printf(" %8s %17s %8s %17s\n", "to loop", "p10 to p90", "to fours", "p10 to p90");
    for (size_t g = 0; g < count; g++) {
        double ratio = measure(&groups[g]);
        if (groups[g].in_goal && highest < ratio)
            highest = ratio;
    }
    printf("goal: a ratio of at most %.2f to C by fours on the examples and on salary days; %s\n", GOAL,
           highest <= GOAL ? "reached" : "not reached");
    return 0;
}
