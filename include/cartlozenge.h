/* The C interface of Cartlozenge, as libdesk.a exports it. docs/INTERFACE.md says what each call does and when it refuses.
 *
 * Every function answers one number. Its lowest byte is 0, or the number of a refusal (1 to 18). A refusal changes no lent byte. Above the
 * lowest byte stand the values, each in its bits; beside each function stands what takes them out. Values that do not fit go into an array
 * that the caller lends.
 *
 * A pointer and the length behind it are lent for the call: length bytes can be read there, and written if the pointer is not const. The
 * pointer is not null, also where the length is 0. What is lent for writing overlaps nothing else that is lent. Nothing is kept.
 *
 * Verdicts are the caller's: whether it found the signatures right. 1 is good, every other value bad. An order and a funding order have one, a
 * certificate has one for each vote, in the order of the votes. */
#ifndef CARTLOZENGE_H
#define CARTLOZENGE_H

#include <stddef.h>
#include <stdint.h>

#ifdef __cplusplus
extern "C" {
#endif

enum {
    CARTLOZENGE_MACHINE_STATE = 4616,
    CARTLOZENGE_LEDGER_STATE = 32784,
    CARTLOZENGE_LONGEST_MESSAGE = 1148,
    CARTLOZENGE_LONGEST_BODY = 57,
    CARTLOZENGE_LONGEST_ORDER = 127,
    CARTLOZENGE_FUNDING_ORDER = 16,
    CARTLOZENGE_SIGNATURE = 64,
    CARTLOZENGE_VOTE = 65
};

/* Kinds of recipient. */
enum { CARTLOZENGE_TO_ACCOUNT = 0, CARTLOZENGE_TO_LEDGER = 1 };

/* The refusals of document 01. */
enum {
    CARTLOZENGE_MALFORMED = 1,
    CARTLOZENGE_OUT_OF_RANGE = 2,
    CARTLOZENGE_VERDICT_COUNT = 3,
    CARTLOZENGE_BAD_VERDICT = 4,
    CARTLOZENGE_UNKNOWN_MACHINE = 5,
    CARTLOZENGE_VOTES_NOT_RISING = 6,
    CARTLOZENGE_TOO_FEW_VOTES = 7,
    CARTLOZENGE_SENDER_NOT_IN_USE = 8,
    CARTLOZENGE_ANOTHER_PENDING = 9,
    CARTLOZENGE_NOT_NEXT_SEQUENCE = 10,
    CARTLOZENGE_BALANCE_TOO_LOW = 11,
    CARTLOZENGE_NOT_NEXT_INDEX = 12,
    CARTLOZENGE_NOT_TO_LEDGER = 13,
    CARTLOZENGE_ALREADY_REDEEMED = 14,
    CARTLOZENGE_POT_TOO_LOW = 15,
    CARTLOZENGE_BAD_STATE = 16,
    CARTLOZENGE_INDEX_EXHAUSTED = 17,
    CARTLOZENGE_BUFFER_TOO_SMALL = 18
};

/* Of every answer: 0, or the number of the refusal. What follows speaks of an answer whose refusal is 0. */
static inline unsigned cartlozenge_refusal(uint64_t answer)
{
    return (unsigned)(answer & 0xff);
}

/* Of an order: vote, repeated; otherwise vote, new. */
static inline int cartlozenge_is_repeated(uint64_t answer)
{
    return (answer >> 8 & 0xff) == 1;
}

/* Of a certificate: already; otherwise confirmed. */
static inline int cartlozenge_is_already(uint64_t answer)
{
    return (answer >> 8 & 0xff) == 1;
}

/* Of a certificate: the votes counted. */
static inline unsigned cartlozenge_votes(uint64_t answer)
{
    return (unsigned)(answer >> 16 & 0xff);
}

/* Of fund: the index of the funding order. */
static inline unsigned cartlozenge_funding_index(uint64_t answer)
{
    return (unsigned)(answer >> 8 & 0xffff);
}

/* Of redeem: the ledger account that is paid. */
static inline unsigned cartlozenge_paid_account(uint64_t answer)
{
    return (unsigned)(answer >> 8 & 0xffff);
}

/* Of redeem: the amount that is paid. */
static inline uint32_t cartlozenge_paid_amount(uint64_t answer)
{
    return (uint32_t)(answer >> 24);
}

/* Of redeemed: in the log. */
static inline int cartlozenge_is_in_log(uint64_t answer)
{
    return (answer >> 8 & 0xff) == 1;
}

/* Of a writer: how many bytes were written. */
static inline size_t cartlozenge_written(uint64_t answer)
{
    return (size_t)(answer >> 8 & 0xffff);
}

/* Of a stretch: it lies in the state; otherwise in the message. */
static inline int cartlozenge_is_in_state(uint64_t answer)
{
    return (answer >> 8 & 0xff) == 1;
}

/* Of a stretch: the place of its first byte. */
static inline size_t cartlozenge_place(uint64_t answer)
{
    return (size_t)(answer >> 16 & 0xffff);
}

/* Of a stretch: how many bytes; 0 for the empty part. */
static inline size_t cartlozenge_length(uint64_t answer)
{
    return (size_t)(answer >> 32 & 0xffff);
}

/* The settlement machine. */

uint64_t cartlozenge_fresh_machine(uint8_t *state, size_t state_length, uint64_t f, uint64_t own);

/* cartlozenge_is_repeated */
uint64_t cartlozenge_order(uint8_t *state, size_t state_length, const uint8_t *message, size_t message_length,
                           const uint8_t *verdicts, size_t verdicts_length);

/* cartlozenge_is_already, cartlozenge_votes */
uint64_t cartlozenge_certificate(uint8_t *state, size_t state_length, const uint8_t *message, size_t message_length,
                                 const uint8_t *verdicts, size_t verdicts_length);

uint64_t cartlozenge_funding_order(uint8_t *state, size_t state_length, const uint8_t *message, size_t message_length,
                                   const uint8_t *verdicts, size_t verdicts_length);

/* values: in use (0 or 1), next sequence, free to spend. */
uint64_t cartlozenge_account(const uint8_t *state, size_t state_length, uint64_t account, uint64_t values[3], int64_t *balance);

/* cartlozenge_is_in_state, cartlozenge_place, cartlozenge_length; never refuses. */
uint64_t cartlozenge_standing_body(const uint8_t *message, size_t message_length, const uint8_t *state, size_t state_length);

/* The purchase ledger. */

uint64_t cartlozenge_fresh_ledger(uint8_t *state, size_t state_length, uint64_t f);

/* cartlozenge_funding_index; the funding order goes into the first 16 bytes of out. */
uint64_t cartlozenge_fund(uint8_t *state, size_t state_length, uint8_t *out, size_t out_length, uint64_t account, uint64_t amount);

/* cartlozenge_paid_account, cartlozenge_paid_amount */
uint64_t cartlozenge_redeem(uint8_t *state, size_t state_length, const uint8_t *message, size_t message_length,
                            const uint8_t *verdicts, size_t verdicts_length);

/* values: last funding index, pot. */
uint64_t cartlozenge_pot(const uint8_t *state, size_t state_length, uint64_t values[2]);

/* cartlozenge_is_in_log */
uint64_t cartlozenge_redeemed(const uint8_t *state, size_t state_length, uint64_t account, uint64_t sequence);

/* Readers. */

/* values: sender, kind, recipient, amount, sequence, length of the note. The note is the end of the message. */
uint64_t cartlozenge_read_body(const uint8_t *message, size_t message_length, uint64_t values[6]);

/* values: the same. The note starts at place 28; the signature is the last 64 bytes of the message. */
uint64_t cartlozenge_read_order(const uint8_t *message, size_t message_length, uint64_t values[6]);

/* values: index, account, amount. */
uint64_t cartlozenge_read_funding_order(const uint8_t *message, size_t message_length, uint64_t values[3]);

/* values: votes counted, sender, kind, recipient, amount, sequence. */
uint64_t cartlozenge_read_certificate(uint64_t f, const uint8_t *message, size_t message_length, uint64_t values[6]);

/* values: the same. */
uint64_t cartlozenge_judge_certificate(uint64_t f, const uint8_t *message, size_t message_length,
                                       const uint8_t *verdicts, size_t verdicts_length, uint64_t values[6]);

/* cartlozenge_place, cartlozenge_length; never refuses. */
uint64_t cartlozenge_covered(const uint8_t *message, size_t message_length);

/* Writers: cartlozenge_written. They write at the start of out; what lies beyond stays. */

uint64_t cartlozenge_write_body(uint8_t *out, size_t out_length, uint64_t sender, uint64_t kind, uint64_t recipient,
                                uint64_t amount, uint64_t sequence, const uint8_t *note, size_t note_length);

uint64_t cartlozenge_write_order(uint8_t *out, size_t out_length, uint64_t sender, uint64_t kind, uint64_t recipient,
                                 uint64_t amount, uint64_t sequence, const uint8_t *note, size_t note_length,
                                 const uint8_t *signature, size_t signature_length);

uint64_t cartlozenge_write_funding_order(uint8_t *out, size_t out_length, uint64_t index, uint64_t account, uint64_t amount);

/* votes: 65 bytes each, one after another: machine number, 64 signature bytes. */
uint64_t cartlozenge_write_certificate(uint64_t f, uint8_t *out, size_t out_length, const uint8_t *body, size_t body_length,
                                       const uint8_t *votes, size_t votes_length);

#ifdef __cplusplus
}
#endif

#endif
