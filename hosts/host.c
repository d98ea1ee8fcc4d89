/* A host in C: clears the day file on standard input through the static library and writes the program's text; or reads a message, or
 * checks an IBAN.
 *
 *     host [ROOM]             ROOM is how many bytes the host has for the text at first; where they are too few it asks again.
 *     host ANSWERS REPORTS    only the tickets that are taken with so many bytes for their answers and their reports; the host
 *                             has these as bytes and makes the lines itself.
 *     host message TIME FILE  no day, but the order that a message is, at a time in seconds: its ticket in hex behind M 0, or M and
 *                             the refusal.
 *     host iban CODE          no day, but a code: I, then 1 where it is an IBAN and 0 where it isn't, then how many groups of seven
 *                             digits its check took. */
#include <stdint.h>
#include <stdio.h>
#include <stdlib.h>
#include <string.h>

#include "../include/zolfigar.h"

static void fail(const char *what) {
    fprintf(stderr, "host: %s\n", what);
    exit(1);
}

static void *grown(void *bytes, size_t length) {
    void *more = realloc(bytes, length ? length : 1);
    if (!more) fail("no memory");
    return more;
}

/* All of a stream. */
static uint8_t *read_all(FILE *stream, size_t *length) {
    uint8_t *bytes = NULL;
    size_t room = 0;
    *length = 0;
    do {
        room += 65536;
        bytes = grown(bytes, room);
        *length += fread(bytes + *length, 1, room - *length, stream);
    } while (*length == room);
    if (ferror(stream)) fail("can't read all of the input");
    return bytes;
}

/* A number of so many bytes, the highest first. */
static uint64_t number(const uint8_t *bytes, size_t width) {
    uint64_t n = 0;
    while (width--) n = n << 8 | *bytes++;
    return n;
}

static void write_text(const uint8_t *day, size_t length, size_t room) {
    uint8_t *text = grown(NULL, room);
    size_t whole = zolfigar_day(day, length, text, room);
    if (whole > room) {
        text = grown(text, whole);
        whole = zolfigar_day(day, length, text, whole);
    }
    if (fwrite(text, 1, whole, stdout) != whole) fail("can't write standard output");
    free(text);
}

static void write_steps(const uint8_t *day, size_t length, size_t answers_room, size_t reports_room) {
    uint8_t *answers = grown(NULL, answers_room), *reports = grown(NULL, reports_room);
    size_t told = zolfigar_steps(day, length, answers, answers_room, reports, reports_room);
    if (told == ZOLFIGAR_NO_ROOM) {
        puts("no room for the first ticket");
    } else if (told >= ZOLFIGAR_FILE_REFUSED) {
        printf("F %zu\n", told - ZOLFIGAR_FILE_REFUSED);
    } else if (told == 0) {
        puts("no tickets");
    } else {
        const uint8_t *a = answers, *r = reports;
        for (size_t ticket = 0; ticket < told; ticket++, a += 4) {
            uint64_t count = number(a + 1, 2);
            printf("T %zu %u %llu %u\n", ticket, a[0], (unsigned long long)count, a[3]);
            for (; count; count--, r += 12) {
                printf("R %u %u %llu %llu\n", r[0], r[1], (unsigned long long)number(r + 2, 2), (unsigned long long)number(r + 4, 8));
            }
        }
    }
    free(answers);
    free(reports);
}

static void write_order(uint32_t time, const char *name) {
    size_t length;
    FILE *file = fopen(name, "rb");
    if (!file) fail("can't open the message");
    uint8_t *text = read_all(file, &length), ticket[ZOLFIGAR_TICKET_LENGTH];
    uint8_t refusal = zolfigar_pacs008(text, length, time, ticket, sizeof ticket);
    printf("M %u", refusal);
    if (refusal == 0) {
        putchar(' ');
        for (size_t i = 0; i < sizeof ticket; i++) printf("%02x", ticket[i]);
    }
    putchar('\n');
    free(text);
    fclose(file);
}

static void write_iban(const char *code) {
    const uint8_t *bytes = (const uint8_t *)code;
    size_t length = strlen(code);
    printf("I %u %u\n", zolfigar_iban_ok(bytes, length), zolfigar_iban_groups(bytes, length));
}

int main(int count, char **words) {
    if (count == 4 && strcmp(words[1], "message") == 0) {
        write_order((uint32_t)strtoul(words[2], NULL, 10), words[3]);
    } else if (count == 3 && strcmp(words[1], "iban") == 0) {
        write_iban(words[2]);
    } else {
        size_t length;
        uint8_t *day = read_all(stdin, &length);
        if (count > 2) {
            write_steps(day, length, strtoul(words[1], NULL, 10), strtoul(words[2], NULL, 10));
        } else {
            write_text(day, length, count > 1 ? strtoul(words[1], NULL, 10) : 65536);
        }
        free(day);
    }
    if (fflush(stdout)) fail("can't write standard output");
    return 0;
}
