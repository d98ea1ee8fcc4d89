/* Holds zolfigar_pacs008 to what zolfigar.h says of it, on the messages of standard input, which is the input of the proved program
 * messages. Each text lies up against a page that can't be read, once at its end and once at its start, and each ticket up against one
 * that can't be written; tickets of several lengths are lent. Prints the program's lines, without what that tells of a refused text,
 * and exits with 1 at the first answer that isn't as the header has it. */
#define _DEFAULT_SOURCE

#include "../include/zolfigar.h"

#include <stdio.h>
#include <stdlib.h>
#include <string.h>
#include <sys/mman.h>
#include <unistd.h>

#define LONGEST_NAME 256
#define LONGEST_TEXT 65521
#define FILLED 0xa5

static char name[LONGEST_NAME + 1];

static void fail(const char *what)
{
    fprintf(stderr, "gateway: message %s: %s\n", name, what);
    exit(1);
}

/* Bytes between two pages that can't be read or written, and where they end. */
struct room {
    uint8_t *start, *end;
};

static struct room make_room(size_t least)
{
    size_t page = (size_t)sysconf(_SC_PAGESIZE);
    size_t size = (least + page - 1) / page * page;
    uint8_t *pages = mmap(NULL, size + 2 * page, PROT_NONE, MAP_PRIVATE | MAP_ANONYMOUS, -1, 0);
    if (pages == MAP_FAILED || mprotect(pages + page, size, PROT_READ | PROT_WRITE) != 0)
        fail("no pages to put it on");
    return (struct room){ pages + page, pages + page + size };
}

static struct room texts, tickets;

static int all_filled(const uint8_t *s, const uint8_t *end)
{
    while (s < end && *s == FILLED)
        s++;
    return s == end;
}

/* The answer to a text that is lent a ticket of so many bytes: the last ones of their room. */
static uint8_t answer(const uint8_t *text, size_t n, uint32_t time, size_t length)
{
    memset(tickets.start, FILLED, (size_t)(tickets.end - tickets.start));
    return zolfigar_pacs008(text, n, time, length == 0 ? NULL : tickets.end - length, length);
}

/* Asks about a text that lies in its room, with tickets that are too short and with some that aren't; the answers to these must be
 * alike. The ticket is written where it is one. */
static uint8_t ask(const uint8_t *text, size_t n, uint32_t time, uint8_t *ticket)
{
    static const size_t enough[] = { 108, 109, 127, 4000 };
    uint8_t first = 0;

    for (size_t length = 0; length < ZOLFIGAR_TICKET_LENGTH; length++) {
        if (answer(text, n, time, length) != ZOLFIGAR_TICKET_TOO_SHORT)
            fail("a ticket that is too short is taken");
        if (!all_filled(tickets.start, tickets.end))
            fail("a ticket that is too short is written");
    }
    for (size_t k = 0; k < sizeof enough / sizeof enough[0]; k++) {
        uint8_t *lent = tickets.end - enough[k];
        uint8_t found = answer(text, n, time, enough[k]);
        if (k == 0) {
            first = found;
            memcpy(ticket, lent, ZOLFIGAR_TICKET_LENGTH);
        }
        if (found != first)
            fail("the answer isn't always the same");
        if (!all_filled(tickets.start, found == 0 ? lent : tickets.end))
            fail(found == 0 ? "bytes before the ticket are written" : "the ticket of a refused text is written");
        if (memcmp(lent, ticket, ZOLFIGAR_TICKET_LENGTH) != 0)
            fail("the ticket isn't always the same");
        if (!all_filled(lent + ZOLFIGAR_TICKET_LENGTH, tickets.end))
            fail("bytes behind the ticket are written");
    }
    return first;
}

/* Prints the answer to the text that was read. */
static void print_answer(const uint8_t *text, size_t n, uint32_t time)
{
    const uint8_t *start = n == 0 ? NULL : texts.start;
    uint8_t ticket[ZOLFIGAR_TICKET_LENGTH], again[ZOLFIGAR_TICKET_LENGTH];
    uint8_t found;

    memcpy(texts.end - n, text, n);
    found = ask(texts.end - n, n, time, ticket);
    memmove(texts.start, text, n);
    if (ask(start, n, time, again) != found || memcmp(again, ticket, sizeof ticket) != 0)
        fail("the answer isn't the same at another place");
    if (n != 0 && memcmp(texts.start, text, n) != 0)
        fail("the text is written");
    printf("# %s\nM %u", name, found);
    for (size_t i = 0; found == 0 && i < sizeof ticket; i++)
        printf(i == 0 ? " %02x" : "%02x", ticket[i]);
    printf("\n");
}

static size_t number(const uint8_t *s)
{
    return (size_t)s[0] << 24 | (size_t)s[1] << 16 | (size_t)s[2] << 8 | s[3];
}

int main(void)
{
    static uint8_t head[12], text[LONGEST_TEXT];
    long count = 0;

    texts = make_room(LONGEST_TEXT);
    tickets = make_room(4000);
    while (fread(head, 1, sizeof head, stdin) == sizeof head) {
        size_t named = number(head), n = number(head + 4);
        if (named > LONGEST_NAME || n > LONGEST_TEXT)
            fail("the one behind it is too long");
        if (fread(name, 1, named, stdin) != named || fread(text, 1, n, stdin) != n)
            fail("the one behind it is cut off");
        name[named] = 0;
        print_answer(text, n, (uint32_t)number(head + 8));
        count++;
    }
    /* That a ticket is too short is seen before the text is looked at: this one can't be read. */
    if (zolfigar_pacs008(texts.end, 1, 0, tickets.start, ZOLFIGAR_TICKET_LENGTH - 1) != ZOLFIGAR_TICKET_TOO_SHORT)
        fail("a ticket that is too short is taken");
    if (count == 0)
        fail("there is none");
    return fflush(stdout) == 0 ? 0 : 1;
}
