/* The C interface from C: a depot is funded, pays another and redeems; then every array of values is looked at, after an answer and after a
 * refusal. Exits with 1 and says where, if an answer is not the one of document 01 or a byte was written that must stay. */
#include "cartlozenge.h"

#include <stdio.h>
#include <string.h>

static int faults;

static void expect(const char *what, uint64_t got, uint64_t wanted)
{
    if (got != wanted) {
        fprintf(stderr, "interface: %s: got %llu, wanted %llu\n", what, (unsigned long long)got, (unsigned long long)wanted);
        faults++;
    }
}

static uint8_t machine[CARTLOZENGE_MACHINE_STATE];
static uint8_t ledger[CARTLOZENGE_LEDGER_STATE];
static const uint8_t good[3] = {1, 1, 1};
static const uint8_t signature[CARTLOZENGE_SIGNATURE] = {7};

/* The votes of machines 0, 1 and 2. */
static size_t certify(uint8_t *out, size_t room, uint64_t kind, uint64_t recipient, uint64_t sequence)
{
    uint8_t body[CARTLOZENGE_LONGEST_BODY];
    uint8_t votes[3 * CARTLOZENGE_VOTE] = {0};
    uint64_t answer = cartlozenge_write_body(body, sizeof body, 2, kind, recipient, 1500, sequence, signature, 0);
    expect("body written", cartlozenge_written(answer), 25);
    votes[CARTLOZENGE_VOTE] = 1;
    votes[2 * CARTLOZENGE_VOTE] = 2;
    answer = cartlozenge_write_certificate(1, out, room, body, 25, votes, sizeof votes);
    expect("certificate written", cartlozenge_refusal(answer), 0);
    return cartlozenge_written(answer);
}

/* E2, E4 and E7 of document 01. */
static void settle(void)
{
    uint8_t order[CARTLOZENGE_LONGEST_ORDER], certificate[CARTLOZENGE_LONGEST_MESSAGE], funding[CARTLOZENGE_FUNDING_ORDER];
    uint64_t values[6], answer;
    int64_t balance = 0;
    size_t length;

    expect("fresh machine", cartlozenge_fresh_machine(machine, sizeof machine, 1, 0), 0);
    expect("fresh ledger", cartlozenge_fresh_ledger(ledger, sizeof ledger, 1), 0);
    answer = cartlozenge_fund(ledger, sizeof ledger, funding, sizeof funding, 2, 2000);
    expect("funding index", cartlozenge_funding_index(answer), 1);
    expect("funding order read", cartlozenge_read_funding_order(funding, sizeof funding, values), 0);
    expect("its amount", values[2], 2000);

    length = cartlozenge_written(cartlozenge_write_order(order, sizeof order, 2, 0, 7, 1500, 0, signature, 0, signature, sizeof signature));
    expect("order before funding", cartlozenge_refusal(cartlozenge_order(machine, sizeof machine, order, length, good, 1)), CARTLOZENGE_SENDER_NOT_IN_USE);
    expect("funding", cartlozenge_funding_order(machine, sizeof machine, funding, sizeof funding, good, 1), 0);
    answer = cartlozenge_order(machine, sizeof machine, order, length, good, 1);
    expect("vote", cartlozenge_refusal(answer), 0);
    expect("is new", (uint64_t)cartlozenge_is_repeated(answer), 0);
    answer = cartlozenge_order(machine, sizeof machine, order, length, good, 1);
    expect("vote repeated", (uint64_t)cartlozenge_is_repeated(answer), 1);
    answer = cartlozenge_standing_body(order, length, machine, sizeof machine);
    expect("standing body in the state", (uint64_t)cartlozenge_is_in_state(answer), 1);
    expect("its place", cartlozenge_place(answer), 8 + 72 * 2 + 12);
    expect("its length", cartlozenge_length(answer), 25);
    expect("its bytes", (uint64_t)memcmp(machine + cartlozenge_place(answer), order + 3, cartlozenge_length(answer)), 0);

    length = certify(certificate, sizeof certificate, CARTLOZENGE_TO_ACCOUNT, 7, 0);
    answer = cartlozenge_covered(certificate, length);
    expect("covered place", cartlozenge_place(answer), 3);
    expect("covered length", cartlozenge_length(answer), 25);
    answer = cartlozenge_certificate(machine, sizeof machine, certificate, length, good, 3);
    expect("confirmed", cartlozenge_refusal(answer) + (unsigned)cartlozenge_is_already(answer), 0);
    expect("votes", cartlozenge_votes(answer), 3);
    answer = cartlozenge_certificate(machine, sizeof machine, certificate, length, good, 3);
    expect("already", (uint64_t)cartlozenge_is_already(answer), 1);
    expect("account read", cartlozenge_account(machine, sizeof machine, 2, values, &balance), 0);
    expect("balance", (uint64_t)balance, 500);
    expect("next sequence", values[1], 1);
    expect("account above 63", cartlozenge_account(machine, sizeof machine, 64, values, &balance), CARTLOZENGE_OUT_OF_RANGE);
}

static void redeem(void)
{
    uint8_t certificate[CARTLOZENGE_LONGEST_MESSAGE];
    uint64_t values[6], answer;
    size_t length = certify(certificate, sizeof certificate, CARTLOZENGE_TO_LEDGER, 40000, 0);

    expect("judged", cartlozenge_judge_certificate(1, certificate, length, good, 3, values), 0);
    expect("machines", values[0], 3);
    answer = cartlozenge_redeem(ledger, sizeof ledger, certificate, length, good, 3);
    expect("paid", cartlozenge_refusal(answer), 0);
    expect("ledger account", cartlozenge_paid_account(answer), 40000);
    expect("amount", cartlozenge_paid_amount(answer), 1500);
    answer = cartlozenge_redeem(ledger, sizeof ledger, certificate, length, good, 3);
    expect("once", cartlozenge_refusal(answer), CARTLOZENGE_ALREADY_REDEEMED);
    expect("in the log", (uint64_t)cartlozenge_is_in_log(cartlozenge_redeemed(ledger, sizeof ledger, 2, 0)), 1);
    expect("pot read", cartlozenge_pot(ledger, sizeof ledger, values), 0);
    expect("pot", values[1], 500);
}

/* Values between guards, with a pattern in them. */
static uint64_t guarded[10];
static int64_t balances[3];

static const uint64_t pattern = UINT64_C(0xa5a5a5a5a5a5a5a5);

static uint64_t *values_to_lend(void)
{
    for (size_t i = 0; i < 10; i++) {
        guarded[i] = pattern;
    }
    for (size_t i = 0; i < 3; i++) {
        balances[i] = -7;
    }
    return guarded + 2;
}

/* A refusal leaves all; an answer writes the first `count`, and no more. */
static void expect_values(const char *what, uint64_t answer, unsigned refusal, size_t count)
{
    size_t written = refusal == 0 ? count : 0;
    expect(what, answer, refusal);
    for (size_t i = 0; i < 10; i++) {
        int inside = i >= 2 && i < 2 + written;
        expect(what, guarded[i] != pattern, (uint64_t)inside);
    }
    expect(what, balances[0] == -7 && balances[2] == -7, 1);
}

static void look_at_values(void)
{
    uint8_t body[CARTLOZENGE_LONGEST_BODY], order[CARTLOZENGE_LONGEST_ORDER], certificate[CARTLOZENGE_LONGEST_MESSAGE];
    uint8_t funding[CARTLOZENGE_FUNDING_ORDER], before[CARTLOZENGE_MACHINE_STATE];
    size_t of_body = cartlozenge_written(cartlozenge_write_body(body, sizeof body, 2, CARTLOZENGE_TO_ACCOUNT, 7, 1500, 1, signature, 3));
    size_t of_order = cartlozenge_written(cartlozenge_write_order(order, sizeof order, 2, CARTLOZENGE_TO_ACCOUNT, 7, 1500, 1, signature, 3,
                                                                  signature, sizeof signature));
    size_t of_certificate = certify(certificate, sizeof certificate, CARTLOZENGE_TO_LEDGER, 40000, 1);
    expect("funding order written", cartlozenge_written(cartlozenge_write_funding_order(funding, sizeof funding, 9, 5, 77)), 16);

    expect_values("read body", cartlozenge_read_body(body, of_body, values_to_lend()), 0, 6);
    expect("its note", guarded[7], 3);
    expect_values("half a body", cartlozenge_read_body(body, of_body / 2, values_to_lend()), CARTLOZENGE_MALFORMED, 6);
    expect_values("read order", cartlozenge_read_order(order, of_order, values_to_lend()), 0, 6);
    expect("its amount", guarded[5], 1500);
    expect_values("half an order", cartlozenge_read_order(order, of_order / 2, values_to_lend()), CARTLOZENGE_MALFORMED, 6);
    expect_values("read funding order", cartlozenge_read_funding_order(funding, 16, values_to_lend()), 0, 3);
    expect("its index", guarded[2], 9);
    expect_values("half of it", cartlozenge_read_funding_order(funding, 8, values_to_lend()), CARTLOZENGE_MALFORMED, 3);
    expect_values("read certificate", cartlozenge_read_certificate(1, certificate, of_certificate, values_to_lend()), 0, 6);
    expect("its votes", guarded[2], 3);
    expect_values("f above 5", cartlozenge_read_certificate(6, certificate, of_certificate, values_to_lend()), CARTLOZENGE_OUT_OF_RANGE, 6);
    expect_values("judge", cartlozenge_judge_certificate(1, certificate, of_certificate, good, 3, values_to_lend()), 0, 6);
    expect("its recipient", guarded[5], 40000);
    expect_values("two verdicts", cartlozenge_judge_certificate(1, certificate, of_certificate, good, 2, values_to_lend()), CARTLOZENGE_VERDICT_COUNT, 6);
    expect_values("pot", cartlozenge_pot(ledger, sizeof ledger, values_to_lend()), 0, 2);
    expect_values("a short ledger", cartlozenge_pot(ledger, sizeof ledger - 1, values_to_lend()), CARTLOZENGE_BAD_STATE, 2);
    expect_values("account", cartlozenge_account(machine, sizeof machine, 2, values_to_lend(), balances + 1), 0, 3);
    expect("its balance", (uint64_t)balances[1], 500);
    expect_values("account 64", cartlozenge_account(machine, sizeof machine, 64, values_to_lend(), balances + 1), CARTLOZENGE_OUT_OF_RANGE, 3);
    expect("balance left", (uint64_t)balances[1], (uint64_t)-7);

    memcpy(before, machine, sizeof machine);
    expect("bad verdict", cartlozenge_order(machine, sizeof machine, order, of_order, signature + 1, 1), CARTLOZENGE_BAD_VERDICT);
    expect("state left", (uint64_t)memcmp(before, machine, sizeof machine), 0);
}

int main(void)
{
    settle();
    redeem();
    look_at_values();
    if (faults == 0) {
        puts("interface: the C interface answers as document 01 says");
    }
    return faults != 0;
}
