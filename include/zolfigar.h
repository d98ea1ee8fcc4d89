/* The proved functions for programs in C: the checks of BIC, IBAN and TxId, and an order as pacs.008 text, for the banks' gateway, and a
 * whole day, for a host.
 *
 * Each check takes the bytes of one code without padding, and their count, and answers 1 if they are such a code and 0 if
 * they are not. Any bytes and any count are taken. A caller passes a pointer to at least `length` readable bytes that
 * nobody writes before the call returns; where `length` is 0 the pointer may be null. Nothing is written, kept or
 * allocated, and calls from several threads don't disturb each other.
 *
 * For the checks and an IBAN's groups link with libcodes.a, which `tools/build codes_c` writes; for an order as text with libreader.a, which
 * `tools/build reader_c` writes; for a day as text with libforeign_day.a, for its tickets as bytes with libforeign_steps.a, which
 * `tools/build foreign_day_c` and `tools/build foreign_steps_c` write. They lie in target/staticlib/. Any of them may be linked together. */
#ifndef ZOLFIGAR_H
#define ZOLFIGAR_H

#include <stddef.h>
#include <stdint.h>

/* The file VERSION has it too. */
#define ZOLFIGAR_VERSION "2.0.0"

#ifdef __cplusplus
extern "C" {
#endif

/* A BIC: 11 bytes, six A-Z; one of A-Z or 2-9; one of A-Z but O, or 0-9; three of A-Z or 0-9. A BIC of eight
 * characters is passed with XXX behind it. */
uint8_t zolfigar_bic_ok(const uint8_t *bytes, size_t length);

/* An IBAN: two A-Z, two digits, 1 to 30 of A-Z or 0-9; its number by ISO 13616, letters read as 10 to 35, leaves 1 on
 * division by 97. No small letters, no spaces. */
uint8_t zolfigar_iban_ok(const uint8_t *bytes, size_t length);

/* Of bytes that are checked as an IBAN, how many groups of seven digits that took: 1 to 10 where they have the shape above, whatever
 * their number leaves, and 0 where they don't. The digits are those of the number as written, a letter two; the last group has the one
 * to seven that are left. It is called as a check is: any bytes and any count are taken. */
uint8_t zolfigar_iban_groups(const uint8_t *bytes, size_t length);

/* A TxId: 1 to 35 of A-Z a-z 0-9 / - ? : ( ) . , ' + and no space. */
uint8_t zolfigar_txid_ok(const uint8_t *bytes, size_t length);

/* The length of a ticket, and what zolfigar_pacs008 answers where it is lent less. */
#define ZOLFIGAR_TICKET_LENGTH 108
#define ZOLFIGAR_TICKET_TOO_SHORT 255

/* An order as pacs.008 text, of any bytes and any length: the ticket that hands it in at a time, in seconds from the day's start. The
 * answer is 0 where the text is such an order; else the first of these refusals that applies:
 *
 *     23    longer than 65,520 bytes, elements not balanced or more than 16 in each other, or a form that is not allowed
 *     24    a named element missing, twice in its parent or out of order, or an element in a named text
 *     25    the amount, or its attributes other than Ccy="EUR" alone
 *     7     a BIC or the TxId
 *     8     the IBAN
 *
 * or 255, where the ticket has less than 108 bytes; the text isn't looked at then. Where the answer is 0 the ticket's first 108 bytes
 * are written, all of them, and those behind them keep their value; where it is another nothing is written at all:
 *
 *     uint8_t ticket[ZOLFIGAR_TICKET_LENGTH];
 *     uint8_t refusal = zolfigar_pacs008(text, text_length, 32401, ticket, sizeof ticket);
 *
 * An order is no promise that the book takes the ticket: whether its banks take part, its amount is covered and its payer has no order
 * with its TxId is seen there.
 *
 * The text and the ticket may not overlap; nobody writes the text, and nobody else reads or writes the ticket, before the call
 * returns; either pointer may be null where its length is 0. Nothing is kept or allocated. Some 2,000 bytes of stack are used, and
 * some 160,000 in a tag of more than 16 attributes: as any text may have one, a thread needs room for that. Calls from several threads
 * don't disturb each other. */
uint8_t zolfigar_pacs008(const uint8_t *text, size_t text_length, uint32_t time, uint8_t *ticket, size_t ticket_length);

/* A whole day: what the clearing program prints of a day file, of any bytes and any length. The answer is how many bytes that
 * is. The text has them from its start on, as many as it has room for, and keeps its bytes behind them; so a caller whose text
 * was too short calls again with one of the answered length. No text is longer than 29,154,816 bytes; that of a usual day of
 * 512 tickets has some 15,000.
 *
 * The file and the text may not overlap, and nobody else reads or writes the text before the call returns; either pointer may be
 * null where its length is 0. Nothing is kept or allocated; some 250,000 bytes of stack are used. Calls from several threads
 * don't disturb each other. */
size_t zolfigar_day(const uint8_t *file, size_t file_length, uint8_t *text, size_t text_length);

/* What zolfigar_steps answers in place of a count, where it takes no ticket and writes nothing: of a refused day file the first
 * number with the refusal, 1 to 5, added; where a buffer has no room for the file's first ticket the second. */
#define ZOLFIGAR_FILE_REFUSED 1024
#define ZOLFIGAR_NO_ROOM 2048

/* A day's tickets, as bytes: of each ticket taken its answer (refusal 1, report count 2, rows 1) and its reports (to 1, code 1,
 * order 2, amount 8), each after those of the ticket before, numbers with the highest byte first. A refusal is 0 of a ticket that
 * was carried out; else 7 to 22, or 26 of a recall that comes too late. A ticket is taken as long as there are 4 bytes for its
 * answer and 6,528 for its reports.
 *
 * Payer and TxId together name an order. A ticket of kinds 4 to 8 has the BIC of the order's payer in bytes 27 to 37, where an order
 * has its payee's: 7 turns it back where that is no BIC, 16 where no order has both. 13 turns back an order whose sender has
 * one with its TxId.
 *
 * The answer is how many tickets were taken, at most 512, and 0 only where the file has none; or one of the two above:
 *
 *     size_t told = zolfigar_steps(file, file_length, answers, answers_length, reports, reports_length);
 *     if (told == ZOLFIGAR_NO_ROOM) ..                 the file is accepted; lend longer buffers
 *     else if (told >= ZOLFIGAR_FILE_REFUSED) ..       refused by told - ZOLFIGAR_FILE_REFUSED
 *     else ..                                          told tickets were taken
 *
 * Bytes behind the last answer and the last report stay as they are. For a day's 512 tickets 2,048 bytes of answers are enough.
 * Some 70,000 bytes of stack are used; the rest is as for a whole day. */
size_t zolfigar_steps(const uint8_t *file, size_t file_length, uint8_t *answers, size_t answers_length, uint8_t *reports,
                      size_t reports_length);

#ifdef __cplusplus
}
#endif

#endif
