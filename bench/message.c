/* The proved reader of pacs.008 messages: nanoseconds a message, its checks and the ticket included, beside libxml2's SAX parser, whose
 * handlers do nothing, in interleaved rounds; then the longest texts that are made to take long, milliseconds each. Built without
 * LIBXML2 defined, the proved reader alone is measured. Exits with 1 if a reader doesn't take the message. */
#define _POSIX_C_SOURCE 199309L

#include <stddef.h>
#include <stdint.h>
#include <stdio.h>
#include <stdlib.h>
#include <string.h>
#include <time.h>

#ifdef LIBXML2
#include <libxml/parser.h>
#include <libxml/parserInternals.h>
#endif

#define LONGEST 65520
#define TICKET 108
#define WARM_UP 20
#define ROUNDS 400
#define PASSES 20
#define GOAL 6.0
#define AT_LEAST 5.0
#define TURNS 7
#define MOST_MS 30.0

uint8_t zolfigar_pacs008(const uint8_t *text, size_t text_length, uint32_t time, uint8_t *ticket, size_t ticket_length);

/* As a bank sends it, with no white space between the elements. */
static const char message[] =
    "<?xml version=\"1.0\" encoding=\"UTF-8\"?><LBFastCdtTrf xmlns=\"urn:lb:xsd:LBFastCdtTrf\"><FIToFICstmrCdtTrf><GrpHdr>"
    "<MsgId>AAAA-20261115-000041</MsgId><CreDtTm>2026-11-15T09:00:01</CreDtTm><NbOfTxs>1</NbOfTxs>"
    "<TtlIntrBkSttlmAmt Ccy=\"EUR\">400.00</TtlIntrBkSttlmAmt><IntrBkSttlmDt>2026-11-15</IntrBkSttlmDt><SttlmInf>"
    "<SttlmMtd>CLRG</SttlmMtd><ClrSys><Prtry>RT1</Prtry></ClrSys></SttlmInf><PmtTpInf><SvcLvl><Cd>SEPA</Cd></SvcLvl><LclInstrm>"
    "<Cd>INST</Cd></LclInstrm></PmtTpInf><InstgAgt><FinInstnId><BIC>AAAALV22</BIC></FinInstnId></InstgAgt><InstdAgt><FinInstnId>"
    "<BIC>LACBLV2X</BIC></FinInstnId></InstdAgt></GrpHdr><CdtTrfTxInf><PmtId><EndToEndId>NOTPROVIDED</EndToEndId>"
    "<TxId>SALARY-41</TxId></PmtId><IntrBkSttlmAmt Ccy=\"EUR\">400.00</IntrBkSttlmAmt>"
    "<AcceptncDtTm>2026-11-15T09:00:00.250Z</AcceptncDtTm><ChrgBr>SLEV</ChrgBr><Dbtr><Nm>Anna Liepa</Nm></Dbtr><DbtrAcct><Id>"
    "<IBAN>LV14AAAA0000123456789</IBAN></Id></DbtrAcct><DbtrAgt><FinInstnId><BIC>AAAALV22</BIC></FinInstnId></DbtrAgt><CdtrAgt>"
    "<FinInstnId><BIC>BBBBLV22</BIC></FinInstnId></CdtrAgt><Cdtr><Nm>Juris Ozols</Nm><PstlAdr><Ctry>LV</Ctry>"
    "<AdrLine>Brivibas iela 41-7, Riga</AdrLine></PstlAdr></Cdtr><CdtrAcct><Id><IBAN>LV80BANK0000435195001</IBAN></Id></CdtrAcct>"
    "<RmtInf><Ustrd>Salary for October 2026</Ustrd></RmtInf></CdtTrfTxInf>"
    "<Signature xmlns=\"http://www.w3.org/2000/09/xmldsig#\"><SignedInfo>"
    "<CanonicalizationMethod Algorithm=\"http://www.w3.org/TR/2001/REC-xml-c14n-20010315\"/>"
    "<SignatureMethod Algorithm=\"http://www.w3.org/2000/09/xmldsig#ecdsa-sha256\"/><Reference URI=\"\"><Transforms>"
    "<Transform Algorithm=\"http://www.w3.org/2000/09/xmldsig#enveloped-signature\"/></Transforms>"
    "<DigestMethod Algorithm=\"http://www.w3.org/2000/09/xmldsig#sha256\"/>"
    "<DigestValue>K81XQU9nvqfDkMusExb1BwnZfDwS6cT1lI/iyLOcTuU=</DigestValue></Reference></SignedInfo>"
    "<SignatureValue>QUOiPnojYP4RAWjdC6UDC7MSYizpS2zSdCDK8kpia8N6hGLpNEJfGuahDJ7zgAOOC/nXsAvjIQ0gNLTt6FnRBA==</SignatureValue>"
    "<KeyInfo><X509Data><X509Certificate>QW4gZXhhbXBsZTogbm8gY2VydGlmaWNhdGUgc3RhbmRzIGhlcmUu</X509Certificate></X509Data></KeyInfo>"
    "</Signature></FIToFICstmrCdtTrf></LBFastCdtTrf>\n";

#define MESSAGE_LENGTH (sizeof message - 1)

static double now(void)
{
    struct timespec t;

    clock_gettime(CLOCK_MONOTONIC, &t);
    return 1e9 * (double)t.tv_sec + (double)t.tv_nsec;
}

/* A reader answers 0 where it takes the message. */
typedef int reader(void);

static volatile uint8_t sink;

static int proved(void)
{
    static uint8_t ticket[TICKET];
    int refusal = zolfigar_pacs008((const uint8_t *)message, MESSAGE_LENGTH, 1000, ticket, sizeof ticket);

    sink = ticket[TICKET - 1];
    return refusal;
}

#ifdef LIBXML2

static void on_start_ns(void *context, const xmlChar *name, const xmlChar *prefix, const xmlChar *uri, int names,
                        const xmlChar **spaces, int count, int defaulted, const xmlChar **attributes)
{
    (void)context, (void)name, (void)prefix, (void)uri, (void)names, (void)spaces, (void)count, (void)defaulted, (void)attributes;
}

static void on_end_ns(void *context, const xmlChar *name, const xmlChar *prefix, const xmlChar *uri)
{
    (void)context, (void)name, (void)prefix, (void)uri;
}

static void on_start(void *context, const xmlChar *name, const xmlChar **attributes)
{
    (void)context, (void)name, (void)attributes;
}

static void on_end(void *context, const xmlChar *name)
{
    (void)context, (void)name;
}

static void on_text(void *context, const xmlChar *text, int length)
{
    (void)context, (void)text, (void)length;
}

static xmlSAXHandler sax2 = {
    .initialized = XML_SAX2_MAGIC, .startElementNs = on_start_ns, .endElementNs = on_end_ns, .characters = on_text};
static xmlSAXHandler sax1 = {.initialized = 1, .startElement = on_start, .endElement = on_end, .characters = on_text};

static int with_sax2(void)
{
    return xmlSAXUserParseMemory(&sax2, NULL, message, MESSAGE_LENGTH);
}

static int with_sax1(void)
{
    return xmlSAXUserParseMemory(&sax1, NULL, message, MESSAGE_LENGTH);
}

/* A parser that is kept from one message to the next, with the names that it met. */
static int kept(xmlParserCtxtPtr *parser, const xmlSAXHandler *handler)
{
    if (*parser == NULL) {
        *parser = xmlNewParserCtxt();
        if (*parser == NULL)
            return 1;
        *(*parser)->sax = *handler;
    }
    xmlCtxtReadMemory(*parser, message, MESSAGE_LENGTH, NULL, NULL, 0);
    return !(*parser)->wellFormed;
}

static int with_kept_sax2(void)
{
    static xmlParserCtxtPtr parser;

    return kept(&parser, &sax2);
}

static int with_kept_sax1(void)
{
    static xmlParserCtxtPtr parser;

    return kept(&parser, &sax1);
}

#endif

/* The goal is held to those that are due. */
struct side {
    const char *name;
    reader *read;
    int due;
};

static const struct side sides[] = {
    {"proved reader", proved, 0},
#ifdef LIBXML2
    {"libxml2, SAX2", with_sax2, 1},
    {"libxml2, SAX1", with_sax1, 1},
    {"libxml2, SAX2, the parser kept", with_kept_sax2, 0},
    {"libxml2, SAX1, the parser kept", with_kept_sax1, 0},
#endif
};

#define SIDES (sizeof sides / sizeof sides[0])

static double time_a_message(reader *read)
{
    int refused = 0;
    double start = now();

    for (int pass = 0; pass < PASSES; pass++)
        refused |= read();
    if (refused != 0) {
        printf("message: a reader doesn't take the message\n");
        exit(1);
    }
    return (now() - start) / PASSES;
}

static int compare(const void *a, const void *b)
{
    double x = *(const double *)a, y = *(const double *)b;

    return (y < x) - (x < y);
}

static double percentile(const double *times, int percent)
{
    static double sorted[ROUNDS];

    memcpy(sorted, times, sizeof sorted);
    qsort(sorted, ROUNDS, sizeof sorted[0], compare);
    return sorted[(ROUNDS - 1) * percent / 100];
}

static void print_figure(double median, const double *times, const char *form)
{
    char low[16], high[16], spread[40];

    snprintf(low, sizeof low, form, percentile(times, 10));
    snprintf(high, sizeof high, form, percentile(times, 90));
    snprintf(spread, sizeof spread, "%s to %s", low, high);
    snprintf(low, sizeof low, form, median);
    printf(" %8s %17s", low, spread);
}

/* Each row's ratio says how many times as long as the proved reader it takes. The goal is held to the lowest of a parser that is made
 * for the message, as the proved reader is called; one that is kept has the names of the same message at hand. */
static void measure_message(void)
{
    static double times[SIDES][ROUNDS], ratios[ROUNDS];
    double lowest = 0;
    char title[64];

    for (int round = -WARM_UP; round < ROUNDS; round++)
        for (size_t turn = 0; turn < SIDES; turn++) {
            size_t side = ((size_t)(round + WARM_UP) + turn) % SIDES;
            double time = time_a_message(sides[side].read);
            if (round >= 0)
                times[side][round] = time;
        }
    snprintf(title, sizeof title, "a message of %zu bytes, ns", MESSAGE_LENGTH);
    printf("%-42s %8s %17s %8s %17s\n", title, "median", "p10 to p90", "ratio", "p10 to p90");
    for (size_t side = 0; side < SIDES; side++) {
        printf("%-42s", sides[side].name);
        print_figure(percentile(times[side], 50), times[side], "%.0f");
        if (side > 0) {
            double ratio = percentile(times[side], 50) / percentile(times[0], 50);
            for (int round = 0; round < ROUNDS; round++)
                ratios[round] = times[side][round] / times[0][round];
            print_figure(ratio, ratios, "%.2f");
            if (sides[side].due && (lowest == 0 || ratio < lowest))
                lowest = ratio;
        }
        printf("\n");
    }
    if (SIDES == 1)
        printf("libxml2-dev is not installed: nothing to compare with\n");
    else
        printf("goal: a ratio of %.1f, at least %.1f; %s\n", GOAL, AT_LEAST,
               lowest >= GOAL ? "reached" : lowest >= AT_LEAST ? "the least is reached" : "not reached");
}

/* The longest texts. The bytes of a name: those that may stand first come first. */
static const char letters[] = "abcdefghijklmnopqrstuvwxyzABCDEFGHIJKLMNOPQRSTUVWXYZ_0123456789-.:";

#define FIRSTS 53
#define LETTERS 66

static uint8_t text[LONGEST];
static size_t length;
static double longest_ms;
static char longest_name[64];

static size_t room(void)
{
    return LONGEST - length;
}

static void put(const char *bytes)
{
    size_t n = strlen(bytes);

    if (n <= room()) {
        memcpy(text + length, bytes, n);
        length += n;
    }
}

static void put_many(char byte, size_t count)
{
    if (room() < count)
        count = room();
    memset(text + length, byte, count);
    length += count;
}

static void begin(const char *bytes)
{
    length = 0;
    put(bytes);
}

/* An attribute without a value, as long as there is room for it and for what is due behind it. */
#define DUE 16

static int put_attribute(const char *name, size_t n)
{
    if (room() < n + 4 + DUE)
        return 0;
    put_many(' ', 1);
    memcpy(text + length, name, n);
    length += n;
    put("=\"\"");
    return 1;
}

/* Times the text, the best of a few turns. */
static void measure(const char *name)
{
    uint8_t ticket[TICKET];
    double best = 0;
    int answer = 0;

    for (int turn = 0; turn < TURNS; turn++) {
        double start = now();
        answer = zolfigar_pacs008(text, length, 1000, ticket, sizeof ticket);
        double time = (now() - start) / 1e6;
        if (turn == 0 || time < best)
            best = time;
    }
    printf("%-60s %8zu %8d %8.3f\n", name, length, answer, best);
    if (longest_ms < best) {
        longest_ms = best;
        snprintf(longest_name, sizeof longest_name, "%s", name);
    }
}

/* Names kept to be put in another order. */
struct name {
    size_t length;
    char bytes[136];
};

static struct name names[LONGEST / 5];
static size_t count;

static void keep(const char *bytes, size_t n)
{
    if (count < sizeof names / sizeof names[0]) {
        names[count].length = n;
        memcpy(names[count++].bytes, bytes, n);
    }
}

static void shuffle(void)
{
    uint32_t seed = 5;

    for (size_t i = count; i > 1; i--) {
        seed = seed * 1664525 + 1013904223;
        size_t j = (size_t)(seed >> 8) % i;
        struct name other = names[i - 1];
        names[i - 1] = names[j];
        names[j] = other;
    }
}

static void reverse(void)
{
    for (size_t i = 0; i < count / 2; i++) {
        struct name other = names[i];
        names[i] = names[count - 1 - i];
        names[count - 1 - i] = other;
    }
}

/* One tag with the names that were kept, as many as there is room for. */
static void measure_names(const char *name)
{
    begin("<a");
    for (size_t i = 0; i < count; i++)
        put_attribute(names[i].bytes, names[i].length);
    put("/>");
    measure(name);
}

static void measure_orders(const char *name)
{
    char title[64];

    measure_names(name);
    shuffle();
    snprintf(title, sizeof title, "%s, shuffled", name);
    measure_names(title);
}

/* How many names of up to a length the text has room for. */
static int has_room_for(size_t *used, size_t n)
{
    if (LONGEST - DUE - 2 < *used + n + 4)
        return 0;
    *used += n + 4;
    return 1;
}

static void short_names(void)
{
    char name[3];
    size_t used = 0;

    count = 0;
    for (size_t n = 1; n <= 3; n++)
        for (size_t a = 0; a < FIRSTS; a++)
            for (size_t b = 0; b < (n > 1 ? LETTERS : 1); b++)
                for (size_t c = 0; c < (n > 2 ? LETTERS : 1); c++)
                    if (has_room_for(&used, n)) {
                        name[0] = letters[a];
                        name[1] = letters[b];
                        name[2] = letters[c];
                        keep(name, n);
                    }
    measure_orders("attributes with the shortest names");
    names[count - 1] = names[0];
    measure_names("the same, the last as the first");
}

/* Names of one length that differ in three bytes, at their beginning or their end. */
static void long_names(size_t n, size_t at, const char *title)
{
    char name[136];
    size_t used = 0;

    count = 0;
    memset(name, 'a', n);
    for (size_t i = 0; has_room_for(&used, n); i++) {
        name[at] = letters[i / LETTERS / LETTERS];
        name[at + 1] = letters[i / LETTERS % LETTERS];
        name[at + 2] = letters[i % LETTERS];
        keep(name, n);
    }
    measure_orders(title);
}

/* A path of one byte with each other byte of a name beside it, at each depth; or with one name for each bit. */
static void path(char byte, int each_bit)
{
    char name[136], title[64];
    size_t used = 0;

    count = 0;
    for (size_t depth = 1; depth < 120; depth++)
        for (size_t b = 0; b < LETTERS; b++) {
            int other = letters[b] ^ byte, lowest = 1;
            if (other == 0)
                continue;
            while (2 * lowest <= other)
                lowest *= 2;
            if (each_bit && (letters[b] & (lowest - 1)) != 0)
                continue;
            if (!has_room_for(&used, depth + 1))
                continue;
            memset(name, byte, depth);
            name[0] = 'a';
            name[depth] = letters[b];
            keep(name, depth + 1);
        }
    snprintf(title, sizeof title, "a path of %c, %s beside it", byte, each_bit ? "a name for each bit" : "every other byte");
    measure_names(title);
    reverse();
    snprintf(title, sizeof title, "the same from the longest");
    measure_names(title);
    shuffle();
    snprintf(title, sizeof title, "the same, shuffled");
    measure_names(title);
}

/* A long way for short names: the names on it first. */
static void prefixes(size_t most)
{
    char name[136], title[64];
    size_t used = 0;

    count = 0;
    memset(name, 'a', sizeof name);
    for (size_t n = most; n >= 4; n--)
        if (has_room_for(&used, n))
            keep(name, n);
    for (size_t i = 0; i < FIRSTS * LETTERS * LETTERS; i++) {
        name[0] = letters[i / LETTERS / LETTERS];
        name[1] = letters[i / LETTERS % LETTERS];
        name[2] = letters[i % LETTERS];
        if (has_room_for(&used, 3))
            keep(name, 3);
    }
    snprintf(title, sizeof title, "beginnings of a name of %zu, then short names", most);
    measure_names(title);
}

static void random_names(size_t n, size_t of)
{
    static const char bytes[] = "0o9w";
    char name[136], title[64];
    uint32_t seed = 9;
    size_t used = 0;

    count = 0;
    while (has_room_for(&used, n)) {
        for (size_t i = 0; i < n; i++) {
            seed = seed * 1664525 + 1013904223;
            name[i] = bytes[(seed >> 16) % of];
        }
        name[0] = 'a';
        keep(name, n);
    }
    snprintf(title, sizeof title, "names of %zu of %zu bytes by chance", n, of);
    measure_names(title);
}

/* A root that holds tags with as many attributes, with names of a length. */
static void tags_of(size_t attributes, size_t n)
{
    char name[65536], title[64];
    size_t tag = 4 + attributes * (n + 4), tags = 0;

    memset(name, 'n', n);
    begin("<a>");
    for (; tag + DUE <= room(); tags++) {
        put("<b");
        for (size_t i = 0; i < attributes; i++) {
            name[n - 1] = letters[i % FIRSTS];
            put_attribute(name, n);
        }
        put("/>");
    }
    put_many('x', room() - 4);
    put("</a>");
    snprintf(title, sizeof title, "%zu tags of %zu attributes with names of %zu", tags, attributes, n);
    measure(title);
}

/* A piece as often as there is room for it, in a root. */
static void pieces(const char *name, const char *piece)
{
    begin("<a>");
    while (strlen(piece) + 4 <= room())
        put(piece);
    put_many('x', room() - 4);
    put("</a>");
    measure(name);
}

/* Fifteen elements with long names inside each other. */
static void nested(void)
{
    size_t n = (LONGEST - 15 * 5 - 7) / 30;

    begin("<a>");
    for (int i = 0; i < 15; i++) {
        put("<");
        put_many((char)('a' + i), n);
        put(">");
    }
    for (int i = 14; i >= 0; i--) {
        put("</");
        put_many((char)('a' + i), n);
        put(">");
    }
    put("</a>");
    measure("15 long names inside each other");
}

/* A beginning, one byte as often as there is room for it, and an end. */
static void filled(const char *name, const char *head, char byte, const char *tail)
{
    begin(head);
    put_many(byte, room() - strlen(tail));
    put(tail);
    measure(name);
}

static void measure_longest(void)
{
    printf("%-60s %8s %8s %8s\n", "texts that are made to take long", "bytes", "refusal", "ms");
    short_names();
    long_names(16, 13, "names of 16, different in the end");
    long_names(64, 61, "names of 64, different in the end");
    long_names(128, 0, "names of 128, different in the beginning");
    for (const char *c = "0aowW5"; *c != 0; c++)
        path(*c, 0);
    path('o', 1);
    path('a', 1);
    prefixes(50);
    prefixes(90);
    prefixes(130);
    for (size_t n = 11; n < 60; n += 16) {
        random_names(n, 2);
        random_names(n, 4);
    }
    tags_of(17, 1);
    tags_of(16, 1);
    tags_of(16, 200);
    tags_of(16, 4000);
    tags_of(17, 3800);
    tags_of(2, 1);
    tags_of(2, 32700);
    tags_of(1, 1);
    pieces("many tags that close themselves", "<b/>");
    pieces("many empty elements", "<b></b>");
    pieces("elements inside each other",
           "<b><c><d><e><f><g><h><i><j><k><l><m><n><o><p></p></o></n></m></l></k></j></i></h></g></f></e></d></c></b>");
    nested();
    filled("one long text", "<a>", 'x', "</a>");
    filled("one long name", "<", 'x', "/>");
    filled("one long value", "<a b=\"", 'x', "\"/>");
    filled("white space before the root", "", ' ', "<a/>");
    filled("white space in a tag", "<a", ' ', "/>");
    filled("white space behind the root", "<a/>", ' ', "");
    filled("white space in the declaration", "<?xml", ' ', "version=\"1.0\"?><a/>");
    filled("one long encoding", "<?xml version=\"1.0\" encoding=\"", 'x', "\"?><a/>");
    filled("one long name in the declaration", "<?xml version=\"1.0\" ", 'x', "=\"\"?><a/>");
    printf("the longest: %s, %.3f ms; at most %.0f are due; %s\n", longest_name, longest_ms, MOST_MS,
           longest_ms <= MOST_MS ? "reached" : "not reached");
}

int main(void)
{
    measure_message();
    printf("\n");
    measure_longest();
    return 0;
}
