/* canvasfox.h: the engine's functions for C. `rt lib` in crates/capi writes the archive that defines them,
 * crates/capi/out/libcapi.a, for x86-64 Linux. It needs memcpy, memmove and memset and nothing else: C99, no heap,
 * no input or output.
 *
 * Slices. A slice is two arguments, one behind the other: a pointer to its first byte and a size_t, its length
 * in bytes. A `const uint8_t *` is an input, which is only read; a `uint8_t *` is an output, of which bytes
 * within its length alone are written. The caller owes the following, and nothing else, since no function can
 * test it:
 *   - a pointer is not NULL, even where its length is 0, and that many bytes can be read, or for an output read
 *     and written, there; no length is above PTRDIFF_MAX;
 *   - an output overlaps no other slice of its call. Inputs may overlap each other;
 *   - nothing else writes a slice while a call has it, nor reads an output.
 * Every other value of every argument is answered: any lengths, any bytes.
 *
 * Answers. A function that returns uint8_t answers 0, or the number of the first refusal that applies, in the
 * order that stands at the function; canvasfox_book_lookup also answers 255, which is no refusal. canvasfox_report
 * answers a length, and the audits' number names a record and a round too. Where a call is refused, every byte of
 * every output is what it was before.
 *
 * Threads. No function has state of its own or keeps a pointer, so any may run at the same time in any threads,
 * on slices as above. Each returns. A call uses less than 32 KiB of stack.
 *
 * That every answer and every output byte is as this file says is proved of the functions' source (crates/capi).
 * Document 01 decides what a system, a record, a round and a finding are, document 02 what a key book is.
 */
#ifndef CANVASFOX_H
#define CANVASFOX_H

#include <stddef.h>
#include <stdint.h>

#ifdef __cplusplus
extern "C" {
#endif

/* The refusals. 5, 10 and 11 are those of session calls, which are not among these functions. */
#define CANVASFOX_OK 0
#define CANVASFOX_VALUE 1       /* q, n, m, N or the scheme is outside its values */
#define CANVASFOX_LENGTH 2      /* a slice's length is wrong */
#define CANVASFOX_ELEMENT 3     /* an element is not below q */
#define CANVASFOX_CHALLENGE 4   /* a challenge is outside its values, or is Ch*, the one not answered */
#define CANVASFOX_RECORD 6      /* a record's or a book's size, edition, count, table or total length is wrong */
#define CANVASFOX_MISMATCH 7    /* the system's q, n, m are not the record's, or audited records differ */
#define CANVASFOX_REJECTED 8    /* a round of an audited record is rejected */
#define CANVASFOX_NO_FULL_SET 9 /* no round has a full set of challenges */
#define CANVASFOX_LABEL 12      /* a label has a wrong half */
#define CANVASFOX_NOT_ABOVE 13  /* a label of a book is not above the one before */

/* No refusal: no card of a book has the label that was looked up. */
#define CANVASFOX_ABSENT 255

/* Lengths in bytes. */
#define CANVASFOX_DIGEST_BYTES 32
#define CANVASFOX_MESSAGE_MOST 65535
#define CANVASFOX_COMMITMENTS_BYTES 96
#define CANVASFOX_FIELDS_BYTES 30
#define CANVASFOX_TEXT_BYTES 8192
#define CANVASFOX_INPUT_MOST 65536
#define CANVASFOX_FINDING_BYTES 752
#define CANVASFOX_LABEL_BYTES 10
#define CANVASFOX_BOOK_FIELDS_BYTES 7
#define CANVASFOX_KEY_BYTES 96 /* of the lookup's output; in a book and in the writer's `keys` a key has m bytes */

/* The most cards of a book. */
#define CANVASFOX_CARDS_MOST 2000

/* The SHA-256 digest of a message.
 * 2: the message has more than 65,535 bytes, or the digest not 32. */
uint8_t canvasfox_sha256(const uint8_t *message, size_t message_length,
                         uint8_t *digest, size_t digest_length);

/* Whether a system is well-formed: q, n, m, then m polynomials of n(n+1)/2 + n coefficients.
 * 2: under 3 bytes. 1: q is not 2, 7, 31 or 251, or n or m not 1 to 96. 2: any other length than
 * 3 + m(n(n+1)/2 + n). 3: a coefficient is not below q. */
uint8_t canvasfox_system_check(const uint8_t *system, size_t system_length);

/* F(x). x has n bytes, and out m.
 * The system's refusals. 2: the length of x or of out. 3: an element of x. */
uint8_t canvasfox_evaluate(const uint8_t *system, size_t system_length,
                           const uint8_t *x, size_t x_length,
                           uint8_t *out, size_t out_length);

/* G(x, y) = F(x + y) - F(x) - F(y). x and y have n bytes, and out m.
 * The system's refusals. 2: the length of x, y or out. 3: an element of x or y. */
uint8_t canvasfox_polar(const uint8_t *system, size_t system_length,
                        const uint8_t *x, size_t x_length,
                        const uint8_t *y, size_t y_length,
                        uint8_t *out, size_t out_length);

/* One three-pass round without the secret. `unanswered` is Ch*, the challenge that is not answered, and
 * `challenge` the one replied to. v has m bytes; lent has 3n + m + 96: s', r0, t0, e0 and three times 32;
 * commitments has 96, and reply 2n + m + 64.
 * The system's refusals. 2: the length of v, lent, commitments or reply. 3: an element of v or of the lent
 * vectors. 4: unanswered or challenge is above 2, or they are equal. */
uint8_t canvasfox_simulate(const uint8_t *system, size_t system_length,
                           const uint8_t *v, size_t v_length,
                           uint8_t unanswered, uint8_t challenge,
                           const uint8_t *lent, size_t lent_length,
                           uint8_t *commitments, size_t commitments_length,
                           uint8_t *reply, size_t reply_length);

/* A session record's header, and where its bodies stand. No round is judged.
 * fields has 30 bytes. Bytes 0 to 5: edition, scheme, q, n, m, N. Then offset and length of the key, of the
 * commitments and of the exchanges, four bytes each, the lowest first. They stand at 6 and 10, 14 and 18, 22 and 26.
 * 2 where fields has not 30 bytes, whatever the record is; then the record's own: 6: under 30 bytes, or another
 * edition. 1: scheme, q, n, m or N. 6: the table, or the total length. Then by the first bad byte 3, an element,
 * or 4, a challenge. */
uint8_t canvasfox_record_read(const uint8_t *record, size_t record_length,
                              uint8_t *fields, size_t fields_length);

/* The report on a system with a record behind it: a line for each round, which says accept or reject, then the
 * verdict, then `rounds A accepted R rejected`, the counts of both kinds of round line; or, where the input is
 * refused, the one line `refused` with its number. Each line ends in a line feed. An input of more than 65,536
 * bytes is refused with 2.
 * text has 8,192 bytes, which hold the longest report. The text is written to its front, with no 0 behind it, and
 * its other bytes stay. The answer is the text's length, which is never 0; or 0 where text has not 8,192 bytes, and
 * then nothing is written. */
size_t canvasfox_report(const uint8_t *input, size_t input_length,
                        uint8_t *text, size_t text_length);

/* An audit's answer: 0 for a finding, else the refusal's number + 256 * the record + 65536 * the round. Record and
 * round count from 1 where the number is 8; with any other they are 0. */
#define CANVASFOX_AUDIT_NUMBER(answer) ((uint8_t)((answer) & 255))
#define CANVASFOX_AUDIT_RECORD(answer) ((uint8_t)((answer) >> 8 & 255))
#define CANVASFOX_AUDIT_ROUND(answer) ((uint8_t)((answer) >> 16 & 255))

/* The audit of three records of scheme 3 whose commitments are the same: the card's secret, or one commitment
 * opened in two ways.
 * finding has 752 bytes. Byte 0: 1 for a secret, 2 for a clash. Byte 1: a clash's k, else 0. Bytes 2 and 3: 0.
 * Bytes 4 to 99: the secret, and zeros. Bytes 100 to 425: the first string. Bytes 426 to 751: the second string.
 * A string: its length, four bytes, the lowest first, then 322 bytes, the string and zeros. A clash has no secret
 * and a secret no strings: those bytes are 0.
 * The system's refusals; 2 where finding has not 752 bytes, whatever the records are; then the audit's own: of each
 * record in turn its own, and 1 for another scheme; 7; 8, with the first rejected record and its first rejected
 * round; 9. */
uint32_t canvasfox_audit_three(const uint8_t *system, size_t system_length,
                               const uint8_t *a, size_t a_length,
                               const uint8_t *b, size_t b_length,
                               const uint8_t *c, size_t c_length,
                               uint8_t *finding, size_t finding_length);

/* The same of four records of scheme 5: a and b answered one alpha, c and d another. */
uint32_t canvasfox_audit_five(const uint8_t *system, size_t system_length,
                              const uint8_t *a, size_t a_length,
                              const uint8_t *b, size_t b_length,
                              const uint8_t *c, size_t c_length,
                              const uint8_t *d, size_t d_length,
                              uint8_t *finding, size_t finding_length);

/* The key book of a delivery, for `count` cards: count, four bytes, the lowest first, q, n, m; then for each card its
 * label and its key's offset from the book's first byte, four bytes, the lowest first; then the keys, m bytes each, in
 * the same order and without gaps.
 * A label is an ICCID in ten bytes, two digits a byte, the first in the low half. F in the twentieth half ends the
 * label of an ICCID of nineteen digits; every other half is 0 to 9. Labels rise strictly, digit by digit, F after 9.
 * labels has 10 * count bytes and keys m * count, the cards in order; book has 7 + count * (14 + m).
 * 6: count is above 2,000. 1: q, n or m. 2: the length of labels, keys or book. Then of the first label at fault 12, a
 * wrong half, or 13, not above the one before. 3: a byte of a key is not below q. */
uint8_t canvasfox_book_write(uint32_t count, uint8_t q, uint8_t n, uint8_t m,
                             const uint8_t *labels, size_t labels_length,
                             const uint8_t *keys, size_t keys_length,
                             uint8_t *book, size_t book_length);

/* A book's count, q, n and m: its first seven bytes, to fields, which has 7.
 * 2 where fields has not 7 bytes, whatever the book is; then the book's own: 6: under 7 bytes, or a count above 2,000.
 * 1: q, n or m. 6: the table, or the total length. Then of the first label at fault 12 or 13. 3: a byte of a key. */
uint8_t canvasfox_book_read(const uint8_t *book, size_t book_length,
                            uint8_t *fields, size_t fields_length);

/* The key of the card with this label, to key, which has 96 bytes: the key, and zeros beyond m.
 * The answer is 0 where it is found, 255 where it is absent, else the refusal's number; key is written on 0 alone.
 * 2 where key has not 96 bytes, whatever the book is; then the lookup's own, in this order:
 *   - of the book, which each call checks whole: 6: under 7 bytes, or a count above 2,000. 1: q, n or m. 6: the table,
 *     or the total length. Then of the first label at fault 12 or 13. 3: a byte of a key;
 *   - of the label: 2: it has not ten bytes. 12: it has a wrong half;
 *   - 255: no card of the book has it. */
uint8_t canvasfox_book_lookup(const uint8_t *book, size_t book_length,
                              const uint8_t *label, size_t label_length,
                              uint8_t *key, size_t key_length);

#ifdef __cplusplus
}
#endif

#endif
